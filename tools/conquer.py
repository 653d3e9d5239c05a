#!/usr/bin/env python3
"""Decides a formula by searches side by side, of the whole of it and of the leaves of its splitting
tree, and makes one proof of all.

    tools/conquer.py [--program PATH] [--solver satcluster|cadical|kissat|COMMAND]
                     [--engine local|make|parallel|slurm] [--jobs N]
                     [--depth D | --look N | --cubes-from FILE]
                     [--no-share] [--block N] [--limit L] [--seconds S] [--no-race] [--no-cuts]
                     [--pipe] [--compress] [--receipts] [--drop-logs] [--binary]
                     [--publish DIR] [--memory M] [--minutes T] [--scratch DIR] [--folder DIR]
                     [--timeout S] [-q] [-n] INPUT [PROOF]
    tools/conquer.py --recheck FOLDER [--engine ..] [--jobs N] [--timeout S] [-q]
    tools/conquer.py --version

INPUT may be packed by gzip, xz, bzip2 or zstd, if that is installed: it is unpacked to the folder.
Prints the `s` and `v` lines of `satcluster decide`, and ends with its statuses: 10, 20, 0 and 1.
Each answer is one of the proved program: `weave` or `join` tests every log, and every assignment is
tested. So a fault of this script, of a solver or of a disk costs time, and makes no wrong answer.

The searches share what they learn. With --no-share each leaf is a job of its own, and so it is with
--jobs 1, another solver or engine, and with words that are of jobs: --block, --limit, --seconds,
--no-race, --no-cuts, --compress, --receipts and --scratch.

All state is a folder of files, INPUT.conquer if --folder is left out. After Ctrl-C, --timeout or a
kill the same command goes on with the files that are there. COMMAND is a command line with {cnf}
and {lrat}, or with {drat} for a solver that writes DRAT. docs/CLUSTER.md tells more.
"""
import argparse
import dataclasses
import json
import os
import shlex
import shutil
import subprocess
import sys
from argparse import Namespace
from pathlib import Path
from typing import Any, Callable, Dict, List, NoReturn, Optional, Tuple

sys.dont_write_bytecode = True

from explanations.looks import LARGE, asks_for_large, head_of, header_of, packing
from explanations.words import told, unreadable, unwritable
from leaf_jobs import bundle, endings, places, receipts, report, summary
from leaf_jobs.cell import CELL, LENT, Cell, room
from leaf_jobs.endings import Stopped
from leaf_jobs.engines import ENGINES, Engine, Limits, work
from leaf_jobs.files import Fault, Folder, last_line, publish
from leaf_jobs.leaf import Plan, keep_grown
from leaf_jobs.processes import Bell, status_of
from leaf_jobs.run import ALL_COVERED, NOT_COVERED, Run
from leaf_jobs.screen import Screen, plain

DEPTH = 6  # if none is asked for
BLOCK = {"satcluster": 16, "cadical": 4}  # leaves of a job at most, if nothing is asked for
DRAFT = "scratch/proof.lrat"  # of a run's folder
FOREIGN = "c cubes of another formula"
SOLVERS = {
    "cadical": "cadical -q --lrat --no-binary {cnf} {lrat}",
    "kissat": "kissat -q --no-factor {cnf} {drat}",
}
BLOCK_SOLVERS = {"cadical": "cadical -q --lidrup --no-binary {icnf} {lidrup}"}


class Words(argparse.ArgumentParser):
    def error(self, message: str) -> NoReturn:
        raise Fault("c usage", message)

    def format_help(self) -> str:
        """The help, in which the script has the name by which it was called."""
        return super().format_help().replace("tools/conquer.py", places.called(sys.argv[0]))


def number(least: int, most: int) -> Callable[[str], int]:
    def read(word: str) -> int:
        if not (word.isascii() and word.isdigit() and least <= int(word) <= most):
            raise argparse.ArgumentTypeError("%s is no number from %d to %d" % (word, least, most))
        return int(word)

    return read


def parser() -> Words:
    words = Words(usage=__doc__.split("\n\n")[1].strip(), allow_abbrev=False)
    option, most = words.add_argument, 1000000000
    option("--program", metavar="PATH", help="the proved program")
    option("--solver", metavar="NAME", default="satcluster", help="who searches under a leaf")
    option("--engine", metavar="NAME", default="local", choices=sorted(ENGINES),
           help="who starts the jobs: local, make, parallel or slurm")
    option("--jobs", metavar="N", type=number(1, most), help="how many at a time; as many as cores")
    option("--depth", metavar="D", type=number(0, 16), help="how deep to split; %d" % DEPTH)
    option("--look", metavar="N", type=number(1, 65536), help="look ahead, for about N leaves")
    option("--cubes-from", metavar="FILE", help="complete the cubes that this file lists")
    option("--no-share", action="store_true",
           help="leaves are jobs and share nothing, as with --jobs 1, another solver or engine, "
           "--block, --limit, --seconds, --no-race, --no-cuts, --compress, --receipts, --scratch")
    option("--block", metavar="N", type=number(1, 4096),
           help="leaves of a job; 16, or 4 of cadical")
    option("--limit", metavar="L", type=number(1, most), help="lemmas before a leaf is cut in two")
    option("--seconds", metavar="S", type=number(1, most), help="the same in seconds of a search")
    option("--no-race", action="store_true", help="no job searches the whole formula unsplit")
    option("--no-cuts", action="store_true", help="no leaf is cut in two since a core is idle")
    option("--pipe", action="store_true", help="a solver's proof goes to lift by a FIFO")
    option("--compress", action="store_true", help="logs are kept packed by zstd")
    option("--receipts", action="store_true", help="each job checks its log; the end is `cover`")
    option("--drop-logs", action="store_true", help="a log is removed when its receipt stands")
    option("--recheck", metavar="FOLDER", help="make the receipts of a run anew, of its logs")
    option("--binary", action="store_true", help="PROOF is in the binary form of LRAT")
    option("--publish", metavar="DIR", help="make a folder with all that a referee needs")
    option("--timeout", metavar="S", type=number(1, most),
           help="end after S seconds, with s UNKNOWN; the same command goes on")
    option("--memory", metavar="M", type=number(1, most), help="slurm: megabytes of a task")
    option("--minutes", metavar="T", type=number(1, most), help="slurm: minutes of a task")
    option("--scratch", metavar="DIR",
           help="where jobs write what is unfinished: a node's own disk")
    option("--folder", metavar="DIR", help="where the files of the run stand; INPUT.conquer")
    option("--version", action="store_true", help="print the version")
    option("-q", action="store_true", dest="quiet", help="no c lines")
    option("-n", action="store_true", dest="no_values", help="no v lines")
    option("INPUT", nargs="?", help="a DIMACS formula")
    option("PROOF", nargs="?", help="where the proof is written; none is, if left out")
    return words


def words() -> Namespace:
    asked = parser().parse_args()
    why = None if asked.version else wrong_words(asked)
    if why:
        raise Fault("c usage", why)
    return asked


def wrong_words(asked: Namespace) -> Optional[str]:
    """Why options are refused that do not go together."""
    if asked.engine != "slurm" and (asked.memory or asked.minutes):
        return "--memory and --minutes are what a task of --engine slurm may take"
    if asked.recheck is not None and asked.INPUT is not None:
        return "--recheck FOLDER reads the formula of that run: no other one is named"
    if asked.recheck is None and asked.INPUT is None:
        return "INPUT is missing: no formula is named"
    if asked.block and leaves_of_job(asked) is None:
        return ("--block is for our own search, or cadical without --pipe, by --engine local "
                "without --seconds: other jobs take one leaf")
    if asked.binary and asked.PROOF is None:
        return "--binary is the form of PROOF: none is named"
    if asked.publish and (asked.receipts or asked.recheck is not None):
        return "--publish is for a proof: --receipts and --recheck make none"
    if asked.drop_logs and (not asked.receipts or asked.PROOF is not None):
        return "--drop-logs is for --receipts without PROOF: a proof is made of logs"
    return None


def leaves_of_job(asked: Namespace) -> Optional[int]:
    """How many leaves a job takes at most; None if it can take only one."""
    usual = BLOCK.get(asked.solver)
    is_alone = asked.engine != "local" or asked.seconds or asked.pipe or asked.recheck is not None
    return None if usual is None or is_alone else asked.block or usual


def found(word: str) -> str:
    path = places.found(word)
    if path is None:
        is_ours = word == "satcluster"
        raise Fault("c cannot run " + word + (": build it, or name it with --program" * is_ours),
                    "There is no program %s%s." % (word, "" if "/" in word else " on the path"))
    return path


def solver_of(asked: Namespace) -> Optional[List[List[str]]]:
    """The commands of another solver; None for our own search."""
    if asked.solver == "satcluster":
        if asked.pipe:
            raise Fault("c usage", "--pipe is for another solver: ours writes a log at once")
        return None
    line = SOLVERS.get(asked.solver, asked.solver)
    commands = [shlex.split(command) for command in line.split("&&")]
    why = wrong_solver(asked, line, commands)
    if why:
        raise Fault("c usage", why)
    return [[found(command[0])] + command[1:] for command in commands]


def block_solver_of(asked: Namespace) -> Optional[List[str]]:
    """The command of another solver for a block of leaves, if there is one."""
    if asked.solver not in BLOCK_SOLVERS:
        return None
    word, *more = shlex.split(BLOCK_SOLVERS[asked.solver])
    return [found(word)] + more


def wrong_solver(asked: Namespace, line: str, commands: List[List[str]]) -> Optional[str]:
    """Why the command line of a solver is refused."""
    missing = [] if "{cnf}" in line else ["{cnf}"]
    if "{lrat}" not in line and "{drat}" not in line:
        missing.append("{lrat} or {drat}")
    if len(missing) == 2 and len(line.split()) == 1:
        return ("--solver %s is none of satcluster, %s; a command line of another solver has {cnf} "
                "for the formula and {lrat} or {drat} for the proof"
                % (line, ", ".join(sorted(SOLVERS))))
    if missing:
        return "the command line of --solver has no %s" % " and no ".join(missing)
    if not all(commands):
        return "the command line of --solver has nothing beside &&"
    if asked.limit:
        return "--limit counts the lemmas of our own search: with another solver use --seconds"
    if asked.pipe and (len(commands) > 1 or "{lrat}" not in line):
        return "--pipe is for a solver that writes LRAT itself, in one command"
    return None


def plan_of(asked: Namespace) -> Plan:
    program = found(places.word_of_program(asked.program))
    return Plan(program, os.path.abspath(asked.INPUT), solver_of(asked), asked.limit, asked.seconds,
                block_solver=block_solver_of(asked), compress=asked.compress, pipe=asked.pipe,
                scratch=asked.scratch and os.path.abspath(asked.scratch),
                receipts=asked.receipts, drops_logs=asked.drop_logs, binary=asked.binary)


def test_places(proof: Optional[str], formula: str) -> None:
    """Refuses at once, and not after hours, what cannot be read or written."""
    if not os.path.isfile(formula) or not os.access(formula, os.R_OK):
        is_other = os.path.exists(formula) and not os.path.isdir(formula)
        why = "It is no regular file." if is_other else unreadable(formula)
        raise Fault("c cannot read input", why)
    if proof is None:
        return
    right = os.access(os.path.dirname(os.path.realpath(proof)), os.W_OK)
    if os.path.lexists(proof):
        right = right and os.path.isfile(proof) and not os.path.samefile(proof, formula)
    if not right:
        raise Fault("c cannot write proof", unwritable(proof, formula) or "It is no regular file.")


def unpack(folder: Folder, formula: str) -> str:
    """The path of the formula for all jobs: if it is packed, that of an unpacked copy in the
    folder. The copy of an earlier start is made anew, since the packed file may have changed."""
    tool = packing(head_of(formula))
    if tool is None:
        return os.path.abspath(formula)
    if not shutil.which(tool):
        raise Fault("c cannot read input",
                    "It is packed by %s, which is not installed." % tool)
    part = folder.at("scratch", "formula")
    with open(formula, "rb") as packed, part.open("wb") as file:
        status = subprocess.run([tool, "-dc"], stdin=packed, stdout=file,
                                stderr=subprocess.DEVNULL, check=False).returncode
    if status != 0:
        raise Fault("c cannot read input", "%s ends with %d." % (tool, status))
    publish(part, folder.at("formula.cnf"))
    return str(folder.at("formula.cnf"))


def test_size(plan: Plan, screen: Screen) -> None:
    """Looks whether the formula's header asks for `--large`."""
    plan.large = asks_for_large(header_of(plan.input))
    if plan.large and plan.receipts:
        raise Fault("c usage", "--receipts takes no formula above 1,000,000 variables or 4,000,000 "
                    "clauses")
    if plan.large:
        screen.say("c " + LARGE)


def test_packing(folder: Folder, compress: bool) -> None:
    """Refuses to start if `zstd` is needed, for new logs or for those that stand, and is
    missing."""
    if not compress and not any(map(folder.is_packed, folder.names("logs"))):
        return
    if not shutil.which("zstd"):
        raise Fault("c zstd is not installed")


def words_of_split(asked: Namespace) -> List[str]:
    if asked.cubes_from:
        return ["--complete", asked.cubes_from]
    if asked.look is not None:
        return ["--look", str(asked.look)]
    return ["--depth", str(DEPTH if asked.depth is None else asked.depth)]


def plant(folder: Folder, plan: Plan, asked: Namespace) -> None:
    """Makes the first tree."""
    part, errors = folder.at("scratch", "tree"), folder.at("scratch", "errors")
    how = words_of_split(asked)
    words = [plan.program, "cubes", *plan.limits(), "--explain", *how, plan.input]
    if status_of(words, part, errors) != 0:
        raise Fault(last_line(part), *explained(errors))
    publish(part, folder.at("trees", "1.icnf"))
    plan.split = " ".join(how)


def explained(errors: Path) -> List[str]:
    """The sentences by which the program has explained its last line."""
    return told(errors.read_text("utf-8", "replace")) if errors.exists() else []


def take_over(folder: Folder, plan: Plan, asked: Namespace, screen: Screen) -> None:
    """Keeps the tree of an earlier start, whose leaves the logs close. Tells if options ask for
    another one."""
    plan.split = plan_before(folder).get("split", "")
    given = {"--cubes-from": asked.cubes_from, "--look": asked.look, "--depth": asked.depth}
    word = next((word for word, value in given.items() if value is not None), None)
    if word and plan.split != " ".join(words_of_split(asked)):
        screen.say("c %s is not used: a tree stands in the folder; %s" % (word, anew(folder)))


def anew(folder: Folder) -> str:
    return "to begin anew: rm -r " + shlex.quote(str(folder.path))


def plan_before(folder: Folder) -> Dict[str, Any]:
    """The plan of an earlier start, as far as it can be read."""
    try:
        plan = json.loads(folder.at("plan.json").read_text())
    except (OSError, ValueError):
        return {}
    return plan if isinstance(plan, dict) else {}


def put_proof(folder: Folder, proof: str) -> None:
    """Moves the joined proof to its place, whole or not at all, also to another disk."""
    made, target = folder.at(DRAFT), Path(os.path.realpath(proof))
    try:
        if target.parent.stat().st_dev != made.stat().st_dev:
            made = copied(made, Path(str(target) + ".part"))
        if target.exists():
            shutil.copymode(str(target), str(made))
        publish(made, target)
    except OSError as why:
        raise Fault("c cannot write proof", "%s: %s." % (target, why.strerror))


def copied(made: Path, part: Path) -> Path:
    """Copies it to another disk; removes an unfinished copy, also after a signal."""
    try:
        shutil.copyfile(str(made), str(part))
    except BaseException:
        if part.exists():
            part.unlink()
        raise
    return part


def answer_of(run: Run, engine: Engine, jobs: int) -> Tuple[int, List[str]]:
    """Runs leaves and joins their logs, until there is an answer or no leaf is left to run."""
    while True:
        if run.plan.receipts:
            receipts.acknowledge_others(run, jobs)
        run.begin()
        engine.work(run)
        status, lines = run.answer()
        for line in [line for line in lines if line.startswith("c file")]:
            if " closes nothing " not in line:
                run.screen.say(line)
        if status not in (0, NOT_COVERED) or not run.learn(lines):
            return status, lines


def workers_of(asked: Namespace, jobs: int, folder: Folder, plan: Plan, screen: Screen) -> int:
    """How many workers the run has, if it is a cell: of more than one job, and without a word that
    is of jobs of leaves; else 0."""
    of_jobs = (asked.no_share, asked.block, asked.limit, asked.seconds, asked.no_race,
               asked.no_cuts, asked.compress, asked.receipts, asked.scratch,
               asked.solver != "satcluster", asked.engine != "local", asked.recheck is not None)
    if jobs == 1 or any(of_jobs):
        return 0
    if set(folder.names("logs")) - {LENT}:
        screen.say("c logs of leaves stand in the folder: it goes on as with --no-share")
        return 0
    workers = int(min(jobs, room(plan.input)))
    if workers < jobs:
        screen.say("c there is memory for %d of %d workers" % (workers, jobs))
    return workers if workers > 1 else 0


def cores() -> int:
    """The cores that this process may use; 1 if the system does not tell."""
    if hasattr(os, "sched_getaffinity"):
        return len(os.sched_getaffinity(0))
    return os.cpu_count() or 1


def begun(asked: Namespace, screen: Screen) -> Tuple[Folder, Plan]:
    """The folder of a run, with a tree in it."""
    test_places(asked.PROOF, asked.INPUT)
    if asked.publish:
        bundle.test_target(asked.publish)
    plan, folder = plan_of(asked), Folder(asked.folder or asked.INPUT + ".conquer")
    folder.lock()
    plan.input = unpack(folder, plan.input)
    test_size(plan, screen)
    test_packing(folder, asked.compress)
    receipts.take_back(folder)
    if folder.newest_tree():
        take_over(folder, plan, asked, screen)
    else:
        plant(folder, plan, asked)
    return folder, plan


def begun_again(asked: Namespace, screen: Screen) -> Tuple[Folder, Plan]:
    """The folder of a run whose receipts are made anew."""
    if not os.path.isfile(os.path.join(asked.recheck, "plan.json")):
        raise Fault("c cannot read " + asked.recheck, "It is no folder of a run.")
    folder = Folder(asked.recheck)
    folder.lock()
    plan = dataclasses.replace(Plan(**plan_before(folder)), receipts=True, rechecks=True)
    plan.program = found(places.word_of_program(asked.program))
    test_packing(folder, False)
    receipts.set_aside(folder)
    gone, count = receipts.without_log(folder)
    if gone:
        screen.say("c %d of %d receipts have no log that could be read again" % (gone, count))
    asked.no_race = asked.no_cuts = True
    return folder, plan


def conquer(asked: Namespace, screen: Screen) -> int:
    engine_of, is_again = ENGINES[asked.engine], asked.recheck is not None
    engine_of.test()
    folder, plan = (begun_again if is_again else begun)(asked, screen)
    before = plan_before(folder)
    jobs = asked.jobs or (0 if asked.engine == "slurm" else cores())
    bell = Bell()
    limits = Limits(asked.memory, asked.minutes)
    engine = engine_of(folder, plan, screen, bell, jobs, not asked.no_race, not asked.no_cuts,
                       limits, leaves_of_job(asked) or 1)
    run = Run(folder, plan, screen, bell, DRAFT if asked.PROOF or asked.publish else None,
              bool(asked.publish))
    run.renew = report.Live(run, screen).renew
    is_begun = bool(before) or folder.at(CELL).exists()
    try:
        engine.settle()
        keep_grown(folder)
        folder.clean()
        plan.workers = workers_of(asked, jobs, folder, plan, screen)
        folder.write("plan.json", json.dumps(dataclasses.asdict(plan)))
        if plan.workers:
            status, lines = Cell(run, plan.workers).answer(is_begun)
        else:
            if folder.at(CELL).exists():
                Cell(run, 1).lend()
            status, lines = answer_of(run, engine, jobs or cores())
    except BaseException as why:
        if isinstance(why, Stopped):
            done = len(run.cubes) - run.open()
            screen.say("c %d of %d leaves closed" % (done, len(run.cubes)))
        draw(run, screen, report.NONE)
        raise
    finally:
        run.end_join()
        if is_again:
            tell_others(receipts.take_back(folder), screen)
    if status not in (0, 10, 20, ALL_COVERED, NOT_COVERED):
        fail(run, screen, before, lines[-1] if lines else "c join ends with %d" % status)
    if status == 20 and asked.PROOF:
        put_proof(folder, asked.PROOF)
    try:
        with endings.whole():
            tell_answer(status, lines, screen, asked)
        follow(run, status, asked, jobs)
    except Stopped as why:  # the answer stands
        screen.say("c ended: %s" % why)
    return {ALL_COVERED: 0, NOT_COVERED: 1}.get(status, status)


def tell_answer(status: int, lines: List[str], screen: Screen, asked: Namespace) -> None:
    for line in lines:
        if line.startswith("s ") or (line.startswith("v ") and not asked.no_values):
            screen.print(line)
        elif line.startswith("c leaf"):
            screen.say(line)


def follow(run: Run, status: int, asked: Namespace, jobs: int) -> None:
    """What comes after the answer, and does not change it: report, folder and summary."""
    screen, folder = run.screen, run.folder
    if status == ALL_COVERED:
        count = len(folder.names("receipts"))
        screen.say("c covered by %d receipt%s" % (count, "s" * (count != 1)))
    draw(run, screen, status, asked.PROOF or (run.proof and str(folder.at(run.proof))))
    if status == 20 and asked.publish:
        try:
            publish_run(run, screen, asked)
        except (Fault, OSError) as why:
            tell(["nothing was published: " + str(why)] + getattr(why, "reasons", []))
    elif asked.publish:
        screen.say("c nothing was published: there is no proof")
    if not asked.quiet:
        summary.tell(summary.lines(run, status, asked.INPUT, asked.PROOF, jobs))


def publish_run(run: Run, screen: Screen, asked: Namespace) -> None:
    """Makes the folder for referees."""
    proof = Path(asked.PROOF) if asked.PROOF else run.folder.at(DRAFT)
    pictures = [path for path in map(run.folder.at, report.BESIDE) if path.exists()]
    source = bundle.Source(run.plan.program, Path(run.plan.input), proof,
                           os.path.basename(asked.INPUT), pictures,
                           report.how_of(run.plan, run.number - 1))
    for line in bundle.publish(source, asked.publish):
        screen.say("c " + line)
    screen.say("c published in " + asked.publish)


def tell_others(names: List[str], screen: Screen) -> None:
    """Names the receipts that were of another log than the one that stands."""
    for name in names:
        screen.say("c the receipt of %s was one of another log" % name)


def fail(run: Run, screen: Screen, before: Dict[str, Any], line: str) -> NoReturn:
    if line == FOREIGN:  # the report is one of the other run
        raise Fault(line, *foreign(run.folder, before))
    draw(run, screen, report.NONE)
    raise Fault(line, *explained(run.folder.at("scratch", "errors")))


def foreign(folder: Folder, before: Dict[str, Any]) -> List[str]:
    """The sentences for a folder whose tree is one of another formula. Its plan is put back."""
    folder.write("plan.json", json.dumps(before))
    other = ", of " + before["input"] if "input" in before else ""
    return ["The folder %s holds a run of another formula%s." % (folder.path, other),
            "Name another folder with --folder, or " + anew(folder)]


def draw(run: Run, screen: Screen, status: int, proof: Optional[str] = None) -> None:
    """Writes the report; the answer does not depend on it."""
    try:
        screen.say("c report %s" % report.Report(run, proof).write(status))
    except Exception as why:
        screen.say("c no report: %r" % why)


def tell(lines: List[str]) -> None:
    """Prints sentences to standard error; the answer does not depend on them."""
    try:
        for line in lines:
            print("c " + plain(line), file=sys.stderr, flush=True)
    except OSError:
        pass


def stopped(why: Stopped, screen: Screen) -> int:
    """What is printed of a run that ends before its answer."""
    try:
        screen.say("c ended: %s; the same command goes on from here:" % why)
        screen.say("c " + " ".join(map(shlex.quote, sys.argv)))
        screen.print(endings.UNKNOWN)
    except OSError:  # the terminal is gone
        os.dup2(os.open(os.devnull, os.O_WRONLY), sys.stdout.fileno())
    return 0


def main() -> int:
    if sys.argv[1:2] == ["--work"] and len(sys.argv) == 5:
        return work(*sys.argv[2:])
    screen = Screen(True)
    endings.listen()
    try:
        asked = words()
        screen = Screen(asked.quiet)
        if asked.version:
            screen.print(places.version(found(places.word_of_program(asked.program))))
            return 0
        if asked.timeout:
            endings.limit(asked.timeout)
        return conquer(asked, screen)
    except Stopped as why:
        return stopped(why, screen)
    except Fault as fault:
        line, reasons = str(fault), fault.reasons
    except OSError as why:
        line, reasons = "c %s" % why, []
    try:
        screen.quiet = screen.quiet and line != "c usage"
        screen.say(line)
    except OSError:  # nobody reads what is printed
        os.dup2(os.open(os.devnull, os.O_WRONLY), sys.stdout.fileno())
    tell(reasons)
    return 1


if __name__ == "__main__":
    sys.exit(main())
