#!/usr/bin/env python3
"""Runs `elaborate`, `check --drat` and `lift --drat` over drawn DRAT proofs, and over named ones that
are meant badly.

    tools/drat_test.py PATH-OF-satcluster [CASES]

Beside the program stands a definition of DRAT by plain loops: `Clauses` are sets with their copies,
`redundancy` tries reverse unit propagation and RAT on the first literal. CASES formulas with proofs
are drawn (300 if it is left out), most of which the definition takes: as text and in binary form,
with deletions, of short clauses above all, copies, tautologies, lemmas that are RAT, and files that
are cut. A proof that the definition takes has to be elaborated, and `check` has to verify what is
written, in either form; of a formula that some assignment satisfies none may be. After any other
answer no file may stay. Each proof is lifted, too, over the tree of one leaf: that has to succeed
if the LRAT proof has no RAT lemma, and then `join` has to make a proof of the log, which `check`
verifies. Status 1 at the first difference.
"""
import itertools
import random
import re
import subprocess
import sys
import tempfile
from pathlib import Path
from typing import Counter, Dict, FrozenSet, Iterable, Iterator, List, Optional, Set, Tuple

Clause = FrozenSet[int]
Step = Tuple[str, List[int]]

FOUR = "p cnf 2 4\n1 2 0\n-1 2 0\n1 -2 0\n-1 -2 0\n"


def propagate(assumed: Iterable[int], clauses: Iterable[Clause]) -> Optional[Set[int]]:
    """The literals that follow from these; None if they are in conflict."""
    true = set(assumed)
    if any(-literal in true for literal in true):
        return None
    clauses = list(clauses)
    grows = True
    while grows:
        grows = False
        for clause in clauses:
            if clause & true:
                continue
            free = [literal for literal in clause if -literal not in true]
            if not free:
                return None
            if len(free) == 1:
                true.add(free[0])
                grows = True
    return true


def redundancy(lemma: List[int], clauses: Iterable[Clause]) -> Optional[str]:
    """Why a lemma may be added, or None."""
    clauses = list(clauses)
    negated = [-literal for literal in lemma]
    if any(literal in lemma for literal in negated):
        return "tautology"
    if propagate(negated, clauses) is None:
        return "rup"
    if not lemma:
        return None
    for candidate in clauses:
        if -lemma[0] not in candidate:
            continue
        rest = candidate - {-lemma[0]}
        if any(-literal in lemma or -literal in rest for literal in rest):
            continue
        if propagate(negated + [-literal for literal in rest], clauses) is not None:
            return None
    return "rat"


class Clauses:
    """Live clauses, with the number of their copies."""

    def __init__(self, formula: List[List[int]]) -> None:
        self.copies: "Counter[Clause]" = Counter(frozenset(clause) for clause in formula)

    def __iter__(self) -> Iterator[Clause]:
        return iter([clause for clause, copies in self.copies.items() if copies])

    def refuted(self) -> bool:
        return propagate([], self) is None

    def add(self, lemma: List[int]) -> None:
        self.copies[frozenset(lemma)] += 1

    def delete(self, literals: List[int]) -> None:
        clause = frozenset(literals)
        true = propagate([], self)
        if not self.copies[clause] or true is None:
            return
        unit = len(clause & true) == 1 and all(it in true or -it in true for it in clause)
        if not unit:
            self.copies[clause] -= 1


def accepts(formula: List[List[int]], steps: List[Step]) -> bool:
    clauses = Clauses(formula)
    for kind, literals in steps:
        if clauses.refuted():
            return True
        if kind == "d":
            clauses.delete(literals)
        elif redundancy(literals, clauses) is None:
            return False
        else:
            clauses.add(literals)
    return clauses.refuted()


class Drawn:
    """A formula and a proof of it, drawn at random."""

    def __init__(self, draw: random.Random) -> None:
        self.draw = draw
        self.top = draw.randint(3, 6)
        self.vars = self.top
        count = draw.randint(3 * self.top, 6 * self.top)
        self.formula = [self.clause(draw.choice([2, 3, 3, 3])) for _ in range(count)]
        self.steps: List[Step] = []
        clauses = Clauses(self.formula)
        for _ in range(draw.randint(3, 60)):
            if clauses.refuted():
                break
            self.extend(clauses)
        if clauses.refuted() and draw.random() < 0.5:
            self.steps.append(("a", []))

    def clause(self, size: int) -> List[int]:
        return [self.draw.choice([-1, 1]) * self.draw.randint(1, self.top) for _ in range(size)]

    def extend(self, clauses: Clauses) -> None:
        draw = self.draw
        if draw.random() < 0.3 and list(clauses):
            known = sorted(clauses, key=lambda clause: (len(clause), sorted(clause)))
            literals = list(draw.choice(known[:6] if draw.random() < 0.5 else known))
            draw.shuffle(literals)
            self.steps.append(("d", literals))
            clauses.delete(literals)
            return
        if draw.random() < 0.2 and self.top < self.vars + 4:
            self.top += 1
        for _ in range(40):
            lemma = self.clause(draw.randint(1, 3))
            if draw.random() < 0.5:
                lemma[0] = draw.choice([-1, 1]) * self.top
            found = redundancy(lemma, clauses)
            if found == "rup" and len(self.steps) < 12 and draw.random() < 0.9:
                continue
            if found or draw.random() < 0.002:
                self.steps.append(("a", lemma))
                clauses.add(lemma)
                return


def drawn(seed: int) -> Tuple[Drawn, bool]:
    """A formula and a proof, and whether the definition takes it, as it mostly does."""
    draw = random.Random(seed)
    for _ in range(30):
        case = Drawn(draw)
        takes = accepts(case.formula, case.steps)
        if case.steps and (takes or draw.random() < 0.05):
            break
    return case, takes


def satisfiable(variables: int, formula: List[List[int]]) -> bool:
    """Whether some assignment satisfies a formula, by trying all."""
    for values in itertools.product((False, True), repeat=variables):
        if all(any(values[abs(it) - 1] == (it > 0) for it in clause) for clause in formula):
            return True
    return False


def cnf(variables: int, formula: List[List[int]]) -> str:
    rows = "".join(" ".join(map(str, clause + [0])) + "\n" for clause in formula)
    return "p cnf %d %d\n%s" % (variables, len(formula), rows)


def text(steps: List[Step]) -> bytes:
    return "".join(("d " if kind == "d" else "") + " ".join(map(str, literals + [0])) + "\n"
                   for kind, literals in steps).encode()


def number(value: int) -> bytes:
    out = bytearray()
    while value > 127:
        out.append(value % 128 + 128)
        value //= 128
    out.append(value)
    return bytes(out)


def binary(steps: List[Step]) -> bytes:
    return b"".join(kind.encode() + b"".join(number(2 * abs(it) + (it < 0)) for it in literals) + b"\0"
                    for kind, literals in steps)


class Program:
    def __init__(self, path: str, folder: Path) -> None:
        self.path, self.folder = path, folder
        names = ("f.cnf", "f.drat", "f.lrat", "f.icnf")
        self.cnf, self.drat, self.lrat, self.cubes = (folder / name for name in names)

    def end(self, *words: str) -> Tuple[int, str]:
        done = subprocess.run([self.path, *words], stdout=subprocess.PIPE, stderr=subprocess.PIPE,
                              timeout=60, check=False)
        return done.returncode, done.stdout.decode()

    def run(self, *words: str) -> str:
        status, printed = self.end(*words)
        assert status in (0, 1), (words, status)
        assert printed.startswith("s VERIFIED\n") == (status == 0), (words, printed)
        return printed

    def tree(self, formula: str, *cubes: str) -> None:
        self.cnf.write_text(formula)
        clauses = formula.split("\n", 1)[1]
        self.cubes.write_text("p inccnf\n" + clauses + "".join("a %s0\n" % it for it in cubes))

    def lift(self, leaf: int, proof: bytes, *form: str) -> Tuple[int, str]:
        """How `lift --drat` ends for a leaf; with another status than 0 it leaves what stood."""
        self.drat.write_bytes(proof)
        log = self.folder / ("%d.log" % leaf)
        log.write_text("stood")
        words = ["--cubes", str(self.cubes), str(self.cnf)]
        end = self.end("lift", "--drat", "--leaf", str(leaf), *form, *words, str(self.drat), str(log))
        assert (end[0] == 0) == (log.read_bytes() != b"stood"), end
        return end

    def join(self, leaves: int) -> None:
        """The logs of all leaves make a proof, which is verified."""
        logs = [str(self.folder / ("%d.log" % leaf)) for leaf in range(1, leaves + 1)]
        words = ["--cubes", str(self.cubes), str(self.cnf), str(self.lrat)]
        assert self.end("join", *words, *logs) == (20, "s UNSATISFIABLE\n"), logs
        assert self.run("check", str(self.cnf), str(self.lrat)) == "s VERIFIED\n"

    def lifts(self, formula: str, proof: bytes, elaborated: str, *form: str) -> str:
        """Lifts a proof over the tree of one leaf, of which this is what `elaborate` prints."""
        self.tree(formula, "")
        status, printed = self.lift(1, proof, *form)
        rats = re.search(r" lemmas, (\d+) of them RAT\n", elaborated)
        wanted = (elaborated if rats is None else "c leaf 1 lifted\n" if rats.group(1) == "0"
                  else "c proof needs RAT\n")
        assert printed == wanted, (printed, elaborated)
        assert status == (printed != "c leaf 1 lifted\n"), (status, printed)
        if status == 0:
            self.join(1)
        for path in (self.cubes, self.lrat, self.folder / "1.log"):
            path.unlink(missing_ok=True)
        return "lifted" if status == 0 else "not lifted"

    def elaborate(self, formula: str, proof: bytes, *form: str) -> str:
        """What `elaborate` prints; `check` has verified what it wrote, and `check --drat` says the same."""
        self.cnf.write_text(formula)
        self.drat.write_bytes(proof)
        if self.lrat.exists():
            self.lrat.unlink()
        printed = self.run("elaborate", *form, str(self.cnf), str(self.drat), str(self.lrat))
        if printed.startswith("s VERIFIED"):
            assert self.run("check", str(self.cnf), str(self.lrat)) == "s VERIFIED\n", printed
        else:
            assert sorted(it.name for it in self.folder.iterdir()) == ["f.cnf", "f.drat"], printed
        told = self.run("check", "--drat", str(self.cnf), str(self.drat))
        assert told == printed, (told, printed)
        return printed


def steps_of(text_of_steps: str) -> List[Step]:
    steps = []
    for line in text_of_steps.splitlines():
        words = line.split()
        kind = "d" if words[0] == "d" else "a"
        steps.append((kind, [int(word) for word in words[kind == "d":-1]]))
    return steps


REASON = "p cnf 4 6\n1 0\n-1 2 0\n-2 3 4 0\n-2 3 -4 0\n-2 -3 4 0\n-2 -3 -4 0\n"
BIG = "p cnf 60 4\n" + FOUR.split("\n", 1)[1]

# a name, a formula, a proof, and the fault with its step, or None
NAMED: Dict[str, Tuple[str, bytes, Optional[str]]] = {
    "plain": (FOUR, b"2 0\n0\n", None),
    "no empty clause": (FOUR, b"2 0\n", None),
    "no byte": (FOUR, b"", "step 1 fault 4"),
    "not implied": ("p cnf 3 4\n1 2 0\n-1 2 0\n1 -2 0\n-1 -2 3 0\n", b"2 0\n-3 0\n0\n", "step 2 fault 6"),
    "not implied, not needed": ("p cnf 4 5\n1 2 0\n-1 2 0\n1 -2 0\n-1 -2 0\n3 4 0\n", b"-3 0\n2 0\n0\n", None),
    "no conflict": (FOUR, b"1 2 3 0\n", "step 2 fault 7"),
    "deletion of no clause": (FOUR, b"d 1 0\n2 0\n0\n", None),
    "repeated literals": (FOUR, b"2 2 2 0\nd 1 1 2 0\n0\n", None),
    "tautology": (FOUR, b"1 -1 0\nd -1 1 0\n2 0\n0\n", None),
    "copy": (FOUR, b"1 2 0\nd 1 2 0\n2 0\n0\n", None),
    "reason deleted": (REASON, b"d -1 2 0\n3 0\n0\n", None),
    "unit deleted": (REASON, b"d 1 0\n3 0\n0\n", None),
    "other pivot": (FOUR, b"2 5 0\n-2 5 0\n2 0\n0\n", None),
    "comments, CR LF": (FOUR, b"c made by\r\n2 0\r\n0\r\n", None),
    "comment with brackets": (FOUR, b"c (v1.0)\n2 0\n0\n", None),
    "no LF": (FOUR, b"2 0\n0", None),
    "cut": (FOUR, b"2 0\n-1", "step 2 fault 3"),
    "after the empty clause": (FOUR, b"2 0\n0\n7 8 9 0\nd 1 0\nx", None),
    "variable 10^9": (FOUR, b"1000000000 0\n2 0\n0\n", "step 1 fault 2"),
    "FRAT": (FOUR, b"o 1 1 2 0\na 5 2 0 l 1 2 0\n", "step 1 fault 1"),
    "deletion first, text": (REASON, b"d 1 2 0\n3 0\n0\n", None),
    "binary": (FOUR, binary(steps_of("2 0\n0\n")), None),
    "binary like a text": (BIG, binary(steps_of("60 0\n-55 2 0\n50 2 0\n2 0\n0\n")), None),
    "deletion first, binary": ("p cnf 60 5\n16 24 0\n" + FOUR.split("\n", 1)[1],
                               binary(steps_of("d 16 24 0\n2 0\n0\n")), None),
    "binary, cut": (FOUR, binary(steps_of("2 0\n")) + b"a\x02", "step 2 fault 3"),
    "binary, needless byte": (FOUR, b"a\x84\x00\x00a\x00", "step 1 fault 1"),
    "binary, literal 1": (FOUR, b"a\x01\x00", "step 1 fault 1"),
    "deletions of one clause": (FOUR, b"d 1 2 3 0\n" * 100000 + b"2 0\n0\n", None),
    "a long lemma": (FOUR, " ".join(map(str, range(2, 200000))).encode() + b" 0\n2 0\n0\n", None),
}


EIGHT = "p cnf 3 8\n" + "".join("%d %d %d 0\n" % (a, b, c)
                                 for a in (1, -1) for b in (2, -2) for c in (3, -3))
# The first lemma, of a new variable, is RAT, and the conflict needs it.
RAT = "5 0\n-5 2 0\n0\n"


def lift_leaves(program: Program) -> None:
    """Proofs of two leaves, in both forms, one with a RAT lemma, and words that do not go together."""
    program.tree(EIGHT, "1 ", "-1 ")
    for form in (text, binary):
        for more in ([], ["--binary"]):
            assert program.lift(1, form(steps_of("2 0\n0\n")), *more) == (0, "c leaf 1 lifted\n")
            assert program.lift(2, form(steps_of("-2 0\n")), *more) == (0, "c leaf 2 lifted\n")
            program.join(2)
        assert program.lift(1, form(steps_of(RAT))) == (1, "c proof needs RAT\n")
        fault = "s NOT VERIFIED\nc step 2 fault 7\n"
        assert program.lift(1, form(steps_of("-1 2 3 0\n"))) == (1, fault)
    assert program.lift(3, b"0\n") == (1, "c no such leaf\n")
    for more in (["--lidrup"], ["--to", "2"]):
        assert program.lift(1, b"2 0\n0\n", *more) == (1, "c usage\n")
    for path in program.folder.iterdir():
        path.unlink()


def main() -> None:
    if len(sys.argv) < 2:
        sys.exit("usage: tools/drat_test.py PATH-OF-satcluster [CASES]")
    cases = int(sys.argv[2]) if len(sys.argv) > 2 else 300
    counts: Counter = Counter()
    with tempfile.TemporaryDirectory() as name:
        program = Program(sys.argv[1], Path(name))
        lift_leaves(program)
        for title, (formula, proof, fault) in NAMED.items():
            printed = program.elaborate(formula, proof)
            wanted = "s VERIFIED\n" if fault is None else "s NOT VERIFIED\nc %s\n" % fault
            assert printed.startswith(wanted), (title, printed)
            program.lifts(formula, proof, printed)
        for seed in range(cases):
            case, takes = drawn(seed)
            form = (text, binary)[seed % 2]
            proof = form(case.steps)
            takes = takes and proof != b""
            if seed % 5 == 4:
                proof, takes = proof[:random.Random(seed).randint(0, len(proof))], False
            asked = ["--binary"] if seed % 3 == 2 else []
            printed = program.elaborate(cnf(case.vars, case.formula), proof, *asked)
            done = printed.startswith("s VERIFIED")
            assert done or not takes, (seed, printed)
            assert takes or not done or not satisfiable(case.vars, case.formula), seed
            counts[(form.__name__, "taken" if takes else "more" if done else "refused")] += 1
            counts[("of all", program.lifts(cnf(case.vars, case.formula), proof, printed, *asked))] += 1
    print("drat_test: %d named proofs, drawn: %s" % (len(NAMED), ", ".join(
        "%d %s %s" % (count, *key) for key, count in sorted(counts.items()))))


if __name__ == "__main__":
    main()
