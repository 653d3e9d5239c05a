#!/usr/bin/env python3
"""Times three ways to a proof of one formula by CaDiCaL, and prints three rows of a Markdown table
for it.

    tools/leaf_times.py [--depth D] [--jobs N] PATH-OF-satcluster FORMULA..

The ways: CaDiCaL on the whole formula; `conquer.py` with N jobs; one CaDiCaL for all cubes, whose
LIDRUP `lift` and `join` make into one proof. A row has seconds by the clock and of the processor
until the proof stands, the proof's megabytes, and the seconds and peak megabytes of `check`.
CaDiCaL's own proof is read by `check` as it is. One run each.
"""
import argparse
import os
import sys
import tempfile
from argparse import Namespace
from dataclasses import dataclass
from pathlib import Path
from typing import Callable, List

from timing import ended

CONQUER = Path(__file__).resolve().parent / "conquer.py"


@dataclass
class Spent:
    """What commands have taken, one after the other."""

    clock: float = 0
    used: float = 0
    peak: float = 0

    def run(self, wanted: int, *words: object, output: Path = Path(os.devnull)) -> None:
        end = ended(words, output=output)
        if end.status != wanted:
            sys.exit("status %s instead of %d of %s" % (end.status, wanted,
                                                        " ".join(map(str, words))))
        self.clock += end.clock
        self.used += end.used
        self.peak = max(self.peak, end.peak)


@dataclass(frozen=True)
class Bench:
    """A formula, and a folder in which a proof of it comes to stand in one of three ways."""

    asked: Namespace
    formula: str
    folder: Path

    @property
    def proof(self) -> Path:
        return self.folder / "f.lrat"

    def whole(self, spent: Spent) -> None:
        spent.run(20, "cadical", "-q", "-n", "--lrat", "--no-binary", self.formula, self.proof)

    def leaves(self, spent: Spent) -> None:
        asked = self.asked
        spent.run(20, sys.executable, CONQUER, "--program", asked.program, "-q",
                  "--solver", "cadical", "--depth", asked.depth, "--jobs", asked.jobs,
                  "--folder", self.folder / "run", self.formula, self.proof)

    def lidrup(self, spent: Spent) -> None:
        program, cubes = self.asked.program, self.folder / "f.icnf"
        lidrup, log = self.folder / "f.lidrup", self.folder / "leaves.lrat"
        spent.run(0, program, "cubes", "--depth", self.asked.depth, self.formula, output=cubes)
        spent.run(20, "cadical", "-q", "-n", "--lidrup", "--no-binary", cubes, lidrup)
        spent.run(20, program, "lift", "--lidrup", "--cubes", cubes, self.formula, lidrup, log)
        spent.run(20, program, "join", "-q", "--cubes", cubes, self.formula, self.proof, log)

    def row(self, way: Callable[["Bench", Spent], None]) -> List[float]:
        spent, check = Spent(), Spent()
        way(self, spent)
        check.run(0, self.asked.program, "check", self.formula, self.proof)
        size = self.proof.stat().st_size / 1e6
        return [spent.clock, spent.used, size, check.clock, check.peak]


def main() -> None:
    parser = argparse.ArgumentParser(usage=__doc__)
    parser.add_argument("--depth", type=int, default=7)
    parser.add_argument("--jobs", type=int, default=4)
    parser.add_argument("program")
    parser.add_argument("formulas", nargs="+")
    asked = parser.parse_args()
    asked.program = os.path.abspath(asked.program)
    print("| Formula | Way | Clock | Processor | Proof, MB | `check` | its peak, MB |")
    print("|---|---|---|---|---|---|---|", flush=True)
    ways = {"CaDiCaL, whole": Bench.whole, "leaves, %d jobs" % asked.jobs: Bench.leaves,
            "LIDRUP": Bench.lidrup}
    for formula in asked.formulas:
        for name, way in ways.items():
            with tempfile.TemporaryDirectory() as folder:
                cells = Bench(asked, formula, Path(folder)).row(way)
            print("| `%s` | %s | %s |" % (Path(formula).stem, name,
                                          " | ".join("%.1f" % cell for cell in cells)), flush=True)


if __name__ == "__main__":
    main()
