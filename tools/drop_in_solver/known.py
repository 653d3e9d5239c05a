"""Options of other solvers that are ignored: they change how a solver searches, and not what its
answer means.

NAMES are those of `cadical --help` (2.1.3) and `kissat --range`
(4.0.4), MINISAT those of `minisat --help-verb` (2.2.1).
"""
import re

NAMES = frozenset("""
ands arena arenacompact arenasort arenatype backbone backboneeffort backbonemaxrounds
backbonerounds bigbigfraction block blockmaxclslim blockminclslim blockocclim bump bumpreason
bumpreasondepth bumpreasons bumpreasonslimit bumpreasonsrate check checkassumptions
checkconstraint checkfailed checkfrozen checkproof checkwitness chrono chronoalways chronolevelim
chronolevels chronoreusetrail compact compactint compactlim compactmin condition conditionint
conditionmaxeff conditionmaxrat conditionmineff conditionreleff congruence congruenceandarity
congruenceands congruencebinaries congruenceites congruenceonce congruencexorarity
congruencexorcounts congruencexors cover covermaxclslim covermaxeff coverminclslim covermineff
coverreleff decay decompose decomposerounds deduplicate definitioncores definitions
definitionticks defraglim defragsize eagersubsume eagersubsumelim elim elimands elimaxeff
elimbackward elimboundmax elimboundmin elimclslim elimequivs eliminate eliminatebound
eliminateclslim eliminateeffort eliminateinit eliminateint eliminateocclim eliminaterounds
elimineff elimint elimites elimlimited elimocclim elimprod elimreleff elimrounds elimsubst elimsum
elimxorlim elimxors emafast emagluefast emaglueslow emajump emalevel emasize emaslow ematrailfast
ematrailslow equivalences exteagerreasons exteagerrecalc externallrat extract factor
factorcandrounds factordelay factoreffort factorhops factoriniticks factorsize factorstructural
fastel fastelclslim fastelim fasteloccs fastelrounds fastelsub flush flushfactor flushint
flushproof focusedtiers forcephase forward forwardeffort ifthenelse ilb ilbassumptions incremental
inprocessing instantiate instantiateclslim instantiateocclim instantiateonce jumpreasons lucky
luckyearly luckylate mineffort minimize minimizedepth minimizeticks modeinit modeint otfs phase
phasesaving preprocess preprocessbackbone preprocesscongruence preprocessfactor preprocessprobe
preprocessrounds preprocessweep probe probehbr probeinit probeint probemaxeff probemineff
probereleff proberounds profile promote radixsortlim randec randecfocused randecinit randecint
randeclength randecstable realtime reduce reducehigh reduceinit reduceint reducelow reducetarget
reducetier1glue reducetier2glue reluctant reluctantint reluctantlim reluctantmax reorder
reorderinit reorderint reordermaxsize rephase rephaseinit rephaseint report reportall reportsolve
restart restartint restartmargin restartreusetrail restoreall restoreflush reverse score
scorefactor seed shrink shrinkreap shuffle shufflequeue shufflerandom shufflescores simplify
smallclauses stabilize stabilizefactor stabilizeint stabilizemaxint stabilizeonly stable
statistics stats substitute substituteeffort substituterounds subsume subsumebinlim subsumeclslim
subsumeint subsumelimited subsumemaxeff subsumemineff subsumeocclim subsumereleff subsumestr sweep
sweepclauses sweepcomplete sweepdepth sweepeffort sweepfliprounds sweepmaxclauses sweepmaxdepth
sweepmaxvars sweeprand sweepvars target terminateint ternary ternarymaxadd ternarymaxeff
ternarymineff ternaryocclim ternaryreleff ternaryrounds tier1 tier1relative tier2 tier2relative
transitive transitiveeffort transitivekeep transred transredmaxeff transredmineff transredreleff
tumble verbose vivify vivifyeffort vivifyfocusedtiers vivifyinst vivifyirr vivifymaxeff
vivifymineff vivifyonce vivifyredeff vivifyreleff vivifysort vivifytier1 vivifytier2 vivifytier3
walk walkeffort walkinitially walkmaxeff walkmineff walknonstable walkredundant walkreleff warmup
""".split())
MINISAT = frozenset("""
asymm ccmin-mode cl-lim cla-decay elim gc-frac grow luby mem-lim phase-saving pre rcheck rfirst rinc
rnd-freq rnd-init rnd-seed simp-gc-frac strict sub-lim var-decay verb
""".split())
MINISAT_PROGRAMS = frozenset("""
minisat minisat2 minisat_core minisat_release minisat_simp minisat_static
""".split())
PLAIN = frozenset("""
-f -l -s -v --banner --basic --color --colors --default --force --log --no-color --no-colors
--partial --plain --relaxed --sat --statistics --stats --strict --unsat --verbose
""".split())
LEVEL = re.compile(r"-[LOP][0-9]*")  # of CaDiCaL


def is_known(word: str) -> bool:
    """Whether a word is one of theirs, with or without a value after `=`."""
    name = word.partition("=")[0]
    if name in PLAIN or LEVEL.fullmatch(word):
        return True
    if name.startswith("--"):
        return name[2:] in NAMES or name[2:5] == "no-" and name[5:] in NAMES
    return name[1:] in MINISAT or name[1:4] == "no-" and name[4:] in MINISAT
