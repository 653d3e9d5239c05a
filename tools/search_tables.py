#!/usr/bin/env python3
"""Measures this program's search beside other solvers, and prints the tables of docs/SPEED.md.

    tools/search_tables.py [--limits S,..] [--ways WAY,..] [--program PATH] [--peers FOLDER]
        [--runs FILE] FORMULA..

A way is one of

    decide     satcluster decide -n F                  proof      satcluster decide -n F PROOF
    solve      satcluster solve --depth 0 -q -n F      unlimited  solve with --limit 1000000000, too
    cadical    cadical -n F                            lrat       cadical -n --lrat --no-binary F PROOF
    kissat     kissat -n F                             minisat    minisat F

(all but `unlimited`, if none is named). Solvers that FOLDER has not are looked for on the path. The
formulas are run one by one, and each by all ways in turns. Seconds are those of the processor; a
run is ended after the greatest limit (10 and 30), and its formula is decided at each limit that is
no less than what it took. What was run is kept in FILE, a line for each run, and is not run again.

The tables have: a row for each formula, with seconds and conflicts; for each limit and way, how
many formulas are decided, and PAR2; and for each pair of ways, over the formulas that both decide
at the greatest limit and of which one takes 0.1 s, the geometric means of what the first takes to
what the second does. Conflicts of `decide` are those of `--stats`, or else the lemmas of its proof
that have two literals or more: a literal that follows from level 0 is a lemma, and no conflict.
"""
import argparse
import json
import re
import resource
import shutil
import subprocess
import sys
import tempfile
from argparse import Namespace
from dataclasses import asdict, dataclass, replace
from functools import partial
from itertools import combinations
from math import exp, log
from pathlib import Path
from typing import Callable, Dict, Iterable, List, Optional, Tuple

sys.dont_write_bytecode = True

from timing import ended

OURS = ("decide", "proof", "solve", "unlimited")
WORDS: Dict[str, List[str]] = {
    "decide": ["decide", "-n"], "proof": ["decide", "-n"],
    "solve": ["solve", "--depth", "0", "-q", "-n"],
    "unlimited": ["solve", "--depth", "0", "--limit", "1000000000", "-q", "-n"],
    "cadical": ["-n"], "lrat": ["-n", "--lrat", "--no-binary"], "kissat": ["-n"], "minisat": []}
PROVE = ("proof", "lrat")  # write a proof
CONFLICTS = re.compile(r"(?m)^(?:c )?conflicts(?: *:)? +(\d+)")
STATUSES = (10, 20)
LEAST = 0.1  # seconds that one of two runs has to take if they are compared
CLOCK = 20  # times the limit: what a run may take by the clock


@dataclass(frozen=True)
class Run:
    formula: str
    way: str
    status: Optional[int]  # 10 or 20; None if it has not decided the formula
    seconds: float
    limit: int  # after which it was ended
    conflicts: Optional[int]

    def is_decided(self, limit: float) -> bool:
        return self.status is not None and self.seconds <= limit


Runs = Dict[Tuple[str, str], Run]  # by formula and way


@dataclass
class Bench:
    program: str
    peers: Optional[Path]
    limit: int
    folder: Path

    def __post_init__(self) -> None:
        told = subprocess.run([self.program, "decide", "--help"], stdout=subprocess.PIPE,
                              stderr=subprocess.STDOUT).stdout
        self.stats = ["--stats"] if b"--stats" in told else []

    def words(self, way: str, formula: Path) -> List[str]:
        name = {"lrat": "cadical"}.get(way, way)
        words = [self.program if way in OURS else self.path(name), *WORDS[way]]
        words += self.stats if words[1:2] == ["decide"] else []
        return [*words, str(formula), *([str(self.proof)] if way in PROVE else [])]

    def path(self, name: str) -> str:
        own = self.peers / name if self.peers is not None else None
        path = str(own) if own is not None and own.exists() else shutil.which(name)
        return path or sys.exit("no %s: put it on the path, or into the folder of --peers" % name)

    @property
    def proof(self) -> Path:
        return self.folder / "proof"

    def run(self, way: str, formula: Path) -> Run:
        output = self.folder / "output"
        self.proof.unlink(missing_ok=True)
        within = partial(resource.setrlimit, resource.RLIMIT_CPU, (self.limit + 1, self.limit + 1))
        done = ended(self.words(way, formula), CLOCK * self.limit, output, preexec_fn=within,
                     stderr=subprocess.DEVNULL)
        status = done.status if done.status in STATUSES else None
        found = CONFLICTS.search(output.read_text("ascii", "replace"))
        conflicts = int(found.group(1)) if found else None
        if way == "proof" and status == 20 and conflicts is None:
            conflicts = lemmas(self.proof)
        return Run(formula.stem, way, status, round(done.used, 3), self.limit, conflicts)


def lemmas(proof: Path) -> int:
    """Those of two literals and more."""
    with proof.open("rb") as lines:
        rows = (line.split(b" ", 3) for line in lines)
        return sum(row[1] != b"d" and b"0" not in row[1:3] for row in rows)


def kept(path: Optional[Path]) -> Runs:
    if path is None or not path.exists():
        return {}
    runs = [Run(**json.loads(line)) for line in path.read_text("ascii").splitlines()]
    return {(run.formula, run.way): run for run in runs}


def measured(bench: Bench, ways: List[str], formulas: List[Path], keep: Optional[Path]) -> Runs:
    runs = kept(keep)
    for formula in formulas:
        for way in ways:
            before = runs.get((formula.stem, way))
            if before is None or (before.status is None and before.limit < bench.limit):
                run = bench.run(way, formula)
                runs[formula.stem, way] = run
                print("%s %s %s" % (formula.stem, way, cell(run)), file=sys.stderr, flush=True)
                if keep is not None:
                    with keep.open("a", encoding="ascii") as file:
                        file.write(json.dumps(asdict(run)) + "\n")
        told = {runs[formula.stem, way].status for way in ways} - {None}
        if len(told) > 1:
            sys.exit("%s: the solvers differ" % formula)
        with_conflicts(runs, formula.stem)
    return runs


def with_conflicts(runs: Runs, formula: str) -> None:
    """The conflicts of `decide` are those of its proof, if it has told none."""
    decide, proof = runs.get((formula, "decide")), runs.get((formula, "proof"))
    if decide and proof and decide.conflicts is None and decide.status:
        runs[formula, "decide"] = replace(decide, conflicts=proof.conflicts)


def row(*cells: object) -> str:
    return "| " + " | ".join(map(str, cells)) + " |"


def head(*cells: str) -> str:
    return row(*cells) + "\n" + "|---" * len(cells) + "|"


def cell(run: Run) -> str:
    seconds = "%.2f" % run.seconds if run.status else "-"
    return seconds if run.conflicts is None else "%s (%d)" % (seconds, run.conflicts)


def table_of_formulas(runs: Runs, ways: List[str], formulas: List[str]) -> None:
    print(head("Formula", *ways))
    for formula in formulas:
        print(row(formula, *(cell(runs[formula, way]) for way in ways)))


def table_of_limits(runs: Runs, ways: List[str], formulas: List[str], limits: List[int]) -> None:
    """Decided formulas, and PAR2 in brackets."""
    print(head("%d formulas" % len(formulas), *ways))
    for limit in limits:
        cells = []
        for way in ways:
            taken = [runs[formula, way].seconds for formula in formulas
                     if runs[formula, way].is_decided(limit)]
            cells.append("%d (%.0f)" % (len(taken),
                                        sum(taken) + 2 * limit * (len(formulas) - len(taken))))
        print(row("%d s" % limit, *cells))


def mean(ratios: Iterable[float]) -> str:
    logs = [log(ratio) for ratio in ratios]
    return "%.2f (%d)" % (exp(sum(logs) / len(logs)), len(logs)) if logs else "-"


def table_of_pairs(runs: Runs, ways: List[str], formulas: List[str], limit: int) -> None:
    """Means, with the number of formulas in brackets."""
    print(head("Ways", "Seconds", "Conflicts", "Conflicts a second"))
    for one, other in combinations(ways, 2):
        pairs = [(runs[formula, one], runs[formula, other]) for formula in formulas]
        pairs = [(a, b) for a, b in pairs if a.is_decided(limit) and b.is_decided(limit)
                 and max(a.seconds, b.seconds) >= LEAST]
        counted = [(a, b) for a, b in pairs if a.conflicts and b.conflicts]
        of: Callable[[Run], float] = lambda run: float(run.conflicts or 0)
        print(row("%s to %s" % (one, other),
                  mean(max(a.seconds, 0.001) / max(b.seconds, 0.001) for a, b in pairs),
                  mean(of(a) / of(b) for a, b in counted),
                  mean(of(a) / of(b) * max(b.seconds, 0.001) / max(a.seconds, 0.001)
                       for a, b in counted)))


def arguments() -> Namespace:
    parser = argparse.ArgumentParser(usage=__doc__)
    parser.add_argument("--limits", default="10,30")
    parser.add_argument("--ways", default=",".join(way for way in WORDS if way != "unlimited"))
    parser.add_argument("--program", default="satcluster")
    parser.add_argument("--peers", type=Path)
    parser.add_argument("--runs", type=Path)
    parser.add_argument("formulas", nargs="+", type=Path)
    asked = parser.parse_args()
    asked.limits = sorted(map(int, asked.limits.split(",")))
    asked.ways = asked.ways.split(",")
    if not WORDS.keys() >= set(asked.ways):
        parser.error("the ways are " + ", ".join(WORDS))
    return asked


def main() -> None:
    asked = arguments()
    program = shutil.which(asked.program) or sys.exit("no program " + asked.program)
    with tempfile.TemporaryDirectory() as folder:
        bench = Bench(program, asked.peers, asked.limits[-1], Path(folder))
        runs = measured(bench, asked.ways, asked.formulas, asked.runs)
    names = [formula.stem for formula in asked.formulas]
    table_of_formulas(runs, asked.ways, names)
    print()
    table_of_limits(runs, asked.ways, names, asked.limits)
    print()
    table_of_pairs(runs, asked.ways, names, asked.limits[-1])


if __name__ == "__main__":
    main()
