#!/usr/bin/env python3
"""Splits formulas, lets a solver refute every leaf, lifts its proofs, joins them, and checks the
proof.

    tools/lift_corpus.py [--solver NAME] [--lrat-check PATH] [--jobs N] [--depths D,E..]
        PATH-OF-satcluster FORMULA..

NAME is `cadical` (the default), `kissat` (with our `elaborate`) or `satcluster`; they are looked for on
the path. Only formulas that it refutes in SECONDS are taken, N of them at a time. Tells a line for
each formula and depth: leaves, bytes of the foreign proofs and of the joined one, seconds of the
processor of the solver on the whole formula, on all leaves, of `lift` and of `check`. With PATH the
joined proof is checked by that program too. It ends with status 1 if a leaf is not lifted or a
joined proof is not verified.
"""
import argparse
import os
import subprocess
import sys
import tempfile
from argparse import Namespace
from concurrent.futures import ThreadPoolExecutor
from dataclasses import dataclass
from pathlib import Path
from typing import Dict, List, Tuple

from timing import Ended, ended

SECONDS = 20  # in which a solver has to refute a formula; a leaf may take ten times as many
LIMIT = 600  # seconds for any other command

# What a solver runs in turn: `{cnf}` is read, `{lrat}` written; the output goes to the file
# behind `>`.
SOLVERS: Dict[str, List[str]] = {
    "cadical": ["cadical -q -n --lrat --no-binary {cnf} {lrat}"],
    "kissat": ["kissat -q -n --no-factor {cnf} {drat}",
               "{satcluster} elaborate {cnf} {drat} {lrat}"],
    "satcluster": ["{satcluster} cubes --depth 0 {cnf} > {icnf}",
                   "{satcluster} refute --cubes {icnf} --leaf 1 -q {cnf} {lrat}"],
}


def run(*words: object, limit: float = LIMIT, output: Path = Path(os.devnull)) -> Ended:
    return ended(words, limit, output, stderr=subprocess.DEVNULL)


class Wrong(Exception):
    """What went wrong with a split, for its line."""


@dataclass
class Split:
    """A formula that is split into leaves in a folder, and what they cost."""

    asked: Namespace
    formula: str
    folder: Path
    foreign: int = 0  # bytes
    solving: float = 0  # seconds
    lifting: float = 0

    @property
    def cubes(self) -> Path:
        return self.folder / "f.icnf"

    @property
    def proof(self) -> Path:
        """Of the leaf that is solved."""
        return self.folder / "leaf.lrat"

    def log(self, leaf: int) -> Path:
        return self.folder / ("leaf-%d.lrat" % leaf)

    def refute(self, formula: object, limit: float) -> Tuple[bool, float]:
        """Whether the solver refutes a formula, and the seconds that it takes to its proof."""
        files = {"cnf": formula, "lrat": self.proof, "drat": self.folder / "leaf.drat",
                 "icnf": self.folder / "leaf.icnf", "satcluster": self.asked.satcluster}
        used, is_refuted = 0.0, False
        for line in SOLVERS[self.asked.solver]:
            command, _, output = line.format(**files).partition(" > ")
            end = run(*command.split(), limit=limit, output=Path(output or os.devnull))
            used += end.used
            is_refuted = is_refuted or end.status == 20
            if end.status is None:
                return False, used
        self.proof.touch()  # some write no proof if units alone refute a formula
        return is_refuted, used

    def split(self, depth: int) -> int:
        """How many leaves there are."""
        run(self.asked.satcluster, "cubes", "--depth", depth, self.formula, output=self.cubes)
        with self.cubes.open("rb") as lines:
            return sum(line.startswith(b"a ") for line in lines)

    def lift(self, leaf: int) -> None:
        """Makes the solver's proof of a leaf its log."""
        program, formula = self.asked.satcluster, self.folder / "leaf.cnf"
        words = ["--cubes", self.cubes, "--leaf", leaf, self.formula]
        run(program, "leaf", *words, output=formula)
        if self.proof.exists():
            self.proof.unlink()
        is_refuted, used = self.refute(formula, 10 * SECONDS)
        self.solving += used
        if not is_refuted:
            raise Wrong("leaf %d NOT REFUTED" % leaf)
        self.foreign += self.proof.stat().st_size
        end = run(program, "lift", *words, self.proof, self.log(leaf))
        self.lifting += end.used
        if end.status != 0:
            raise Wrong("leaf %d NOT LIFTED" % leaf)

    def figures(self, depth: int, whole: float) -> str:
        leaves = range(1, 1 + self.split(depth))
        for leaf in leaves:
            self.lift(leaf)
        program, joined = self.asked.satcluster, self.folder / "log.lrat"
        end = run(program, "join", "--cubes", self.cubes, "-q", self.formula, joined,
                  *map(self.log, leaves))
        if end.status != 20:
            raise Wrong("NOT JOINED")
        check = run(program, "check", self.formula, joined)
        if check.status != 0 or not self.is_accepted(joined):
            raise Wrong("NOT VERIFIED")
        return ("leaves %d foreign %d joined %d whole %.2f solving %.2f lifting %.2f checking %.2f"
                % (len(leaves), self.foreign, joined.stat().st_size, whole, self.solving,
                   self.lifting, check.used))

    def is_accepted(self, joined: Path) -> bool:
        """Whether the other checker, if one is asked for, takes the joined proof."""
        if not self.asked.lrat_check:
            return True
        done = subprocess.run([self.asked.lrat_check, self.formula, str(joined)],
                              stdout=subprocess.PIPE, timeout=LIMIT)
        return b"c VERIFIED" in done.stdout or b"s VERIFIED" in done.stdout


@dataclass
class Rows:
    """The lines of a formula, and whether nothing went wrong."""

    lines: List[str]
    is_right: bool = True


def rows_of(asked: Namespace, formula: str) -> Rows:
    rows = Rows([])
    for depth in asked.depths:
        with tempfile.TemporaryDirectory() as folder:
            split = Split(asked, formula, Path(folder))
            is_refuted, whole = split.refute(formula, SECONDS)
            if not is_refuted:
                break
            try:
                told = split.figures(depth, whole)
            except Wrong as wrong:
                told, rows.is_right = str(wrong), False
        rows.lines.append("depth %d %s" % (depth, told))
    return rows


def main() -> int:
    words = argparse.ArgumentParser(usage=__doc__)
    words.add_argument("--solver", choices=SOLVERS, default="cadical")
    words.add_argument("--lrat-check")
    words.add_argument("--jobs", type=int, default=1)
    words.add_argument("--depths", default=[3, 6],
                       type=lambda text: [int(depth) for depth in text.split(",")])
    words.add_argument("satcluster")
    words.add_argument("formulas", nargs="+")
    asked = words.parse_args()
    asked.satcluster = os.path.abspath(asked.satcluster)
    is_right = True
    with ThreadPoolExecutor(asked.jobs) as pool:
        found = pool.map(lambda formula: rows_of(asked, formula), asked.formulas)
        for formula, rows in zip(asked.formulas, found):
            is_right = is_right and rows.is_right
            for line in rows.lines:
                print(Path(formula).name, line, flush=True)
    return 0 if is_right else 1


if __name__ == "__main__":
    sys.exit(main())
