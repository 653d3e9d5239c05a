#!/usr/bin/env python3
"""Times `conquer.py` against one process, and prints a row of a Markdown table for each formula.

    tools/conquer_times.py [--solver NAME] [--depth D] [--jobs N] [--runs R] [--split]
        PATH-OF-satcluster FORMULA..

A row has the seconds by the clock of the solver on the whole formula, of `conquer.py --no-share`
with one job and with N, of its leaves alone with one job and with N, of `join` and of `check` by
themselves, and the proof's size. Each figure is the least of R runs, but that of the whole formula
is of one;
--split leaves it out. `satcluster` on the whole formula is `solve --depth 0`. `-` is a run that was
ended after 15 minutes.
"""
import argparse
import os
import tempfile
from pathlib import Path
from typing import List

from run_times import Bench, Seconds, cell, timed

HEADS = ("Formula", "Unsplit", "1 job", "its leaves", "%d jobs", "its leaves", "Join", "Check",
         "MB")


class JoinBench(Bench):
    """Times the join and the check of what a run has brought, too."""

    def figures(self, jobs: int) -> List[Seconds]:
        """Of a whole run, its leaves alone, the join and the check, and the proof's megabytes."""
        whole, proof = self.run(jobs, "--no-share"), self.folder / "f.lrat"
        if whole is None:
            return [None] * 5
        check = timed([self.asked.program, "check", self.formula, str(proof)], 0)
        return [whole, self.span(), self.join(), check, proof.stat().st_size / 1e6]

    def join(self) -> Seconds:
        """Of all logs, by the newest tree."""
        place = self.folder / "run"
        tree = max(place.joinpath("trees").iterdir(), key=lambda path: int(path.stem))
        logs = sorted(map(str, place.joinpath("logs").iterdir()))
        return timed([self.asked.program, "join", "--cubes", str(tree), "-q", self.formula,
                      str(self.folder / "again.lrat"), *logs])

    def cells(self) -> List[Seconds]:
        jobs, runs = self.asked.jobs, range(self.asked.runs)
        whole = [None if self.asked.split else self.whole()]
        one = least([self.figures(1)[:2] for _ in runs])
        return whole + one + least([self.figures(jobs) for _ in runs])


def least(rows: List[List[Seconds]]) -> List[Seconds]:
    """The least figure of each column, none if a run took too long."""
    found = [[figure for figure in column if figure is not None] for column in zip(*rows)]
    return [min(column) if len(column) == len(rows) else None for column in found]


def main() -> None:
    parser = argparse.ArgumentParser(usage=__doc__)
    parser.add_argument("--solver", default="satcluster")
    parser.add_argument("--depth", type=int, default=6)
    parser.add_argument("--jobs", type=int, default=4)
    parser.add_argument("--runs", type=int, default=1)
    parser.add_argument("--split", action="store_true")
    parser.add_argument("program")
    parser.add_argument("formulas", nargs="+")
    asked = parser.parse_args()
    asked.program = os.path.abspath(asked.program)
    print("| %s |\n|%s" % (" | ".join(HEADS) % asked.jobs, "---|" * len(HEADS)), flush=True)
    for formula in asked.formulas:
        with tempfile.TemporaryDirectory() as folder:
            cells = JoinBench(asked, os.path.abspath(formula), Path(folder)).cells()
        print("| `%s` | %s |" % (Path(formula).stem, " | ".join(map(cell, cells))), flush=True)


if __name__ == "__main__":
    main()
