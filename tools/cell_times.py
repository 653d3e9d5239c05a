#!/usr/bin/env python3
"""Times a cell of `conquer.py` against one process, and prints a row of a Markdown table for each
formula.

    tools/cell_times.py [--jobs N] [--depth D] [--runs R] [--processor] PATH-OF-satcluster FORMULA..

A row has seconds by the clock: of `decide`, of CaDiCaL if it is on the path, of `conquer.py
--no-share` and of `conquer.py`, each without a proof, and of `conquer.py` with one; then how many
times as fast as `decide` the last two are. The least of R runs counts, and `-` is one that was
ended after LIMIT seconds. For a busy machine, --processor has seconds of the processor instead: of
`decide`, of the worker that took most of them, and of `weave`; then who closed the formula, and the
megabytes of the logs. Below the rows are geometric means.
"""
import argparse
import math
import os
import shutil
import subprocess
import sys
import tempfile
import time
from argparse import Namespace
from functools import partial
from pathlib import Path
from typing import Callable, List, Optional, Sequence

from leaf_jobs.cell import Cell, Worker
from leaf_jobs.files import Folder, publish
from leaf_jobs.leaf import ENDED, Plan
from leaf_jobs.processes import Bell, status_of
from leaf_jobs.run import Run
from leaf_jobs.screen import Screen
from timing import ended

CONQUER = Path(__file__).resolve().parent / "conquer.py"
LIMIT = 900  # seconds
Seconds = Optional[float]  # None: it took too long
CLOCK = ("`decide`", "CaDiCaL", "--no-share", "a cell", "with a proof", "gain", "with a proof")
PROCESSOR = ("`decide`", "slowest worker", "`weave`", "gain", "with `weave`", "closed by", "MB")


def least(measure: Callable[[], Seconds], runs: int) -> Seconds:
    found = [measure() for _ in range(runs)]
    return min((seconds for seconds in found if seconds is not None), default=None)


class Bench:
    def __init__(self, asked: Namespace, formula: str, place: str) -> None:
        self.asked, self.formula, self.place = asked, formula, Path(place)

    def timed(self, *words: str) -> Seconds:
        """By the clock, until a verdict."""
        shutil.rmtree(str(self.place / "run"), ignore_errors=True)
        begin = time.monotonic()
        process = subprocess.Popen(words, stdout=subprocess.DEVNULL)
        try:
            status = process.wait(LIMIT)
        except subprocess.TimeoutExpired:
            process.terminate()
            process.wait()
            return None
        if status not in (10, 20):
            sys.exit("status %d of %s" % (status, " ".join(words)))
        return time.monotonic() - begin

    def conquer(self, *more: str) -> Seconds:
        words = [sys.executable, str(CONQUER), "--program", self.asked.program, "-q", "-n"]
        words += ["--jobs", str(self.asked.jobs), "--depth", str(self.asked.depth)]
        return self.timed(*words, "--folder", str(self.place / "run"), *more)

    def by_clock(self) -> List[Seconds]:
        cadical, formula = shutil.which("cadical"), self.formula
        best = lambda measure, *words: least(partial(measure, *words), self.asked.runs)
        alone = best(self.timed, self.asked.program, "decide", "-n", formula)
        found = [alone, best(self.timed, cadical, "-q", "-n", formula) if cadical else None,
                 best(self.conquer, "--no-share", formula), best(self.conquer, formula),
                 best(self.conquer, formula, str(self.place / "f.lrat"))]
        return found + [ratio(alone, found[-2]), ratio(alone, found[-1])]

    def by_processor(self) -> List[Seconds]:
        words = [self.asked.program, "decide", "-n", self.formula]
        alone = min(ended(words).used for _ in range(self.asked.runs))
        cells = [TimedCell.of(self.asked, self.formula, self.place) for _ in range(self.asked.runs)]
        cell = min(cells, key=lambda cell: cell.slowest + cell.weaving)
        self.how = cell.how
        return [alone, cell.slowest, cell.weaving, ratio(alone, cell.slowest),
                ratio(alone, cell.slowest + cell.weaving), cell.megabytes]

    def row(self) -> List[str]:
        if not self.asked.processor:
            return list(map(cell_of, self.by_clock()))
        *figures, megabytes = self.by_processor()
        return list(map(cell_of, figures)) + [self.how, cell_of(megabytes)]


class TimedCell(Cell):
    """A cell whose workers are searched once, and woven."""

    slowest = weaving = megabytes = 0.0
    how = "nobody"

    @classmethod
    def of(cls, asked: Namespace, formula: str, place: Path) -> "TimedCell":
        shutil.rmtree(str(place / "run"), ignore_errors=True)
        folder, plan = Folder(str(place / "run")), Plan(asked.program, formula, workers=asked.jobs)
        tree = folder.at("scratch", "tree")
        status_of([plan.program, "cubes", "--depth", str(asked.depth), formula], tree)
        publish(tree, folder.at("trees", "1.icnf"))
        cell = cls(Run(folder, plan, Screen(True), Bell()), asked.jobs)
        cell.work()
        begin = os.times()
        closed = len(cell.run.done)
        if not cell.run.model and cell.woven() is None:
            sys.exit("nothing was woven of " + formula)
        end = os.times()
        cell.weaving = sum(end[2:4]) - sum(begin[2:4])  # of processes that were waited for
        cell.how = "%s, %d of %d leaves" % (cell.how, closed, len(cell.run.cubes))
        cell.megabytes = sum(log.stat().st_size for log in cell.path.glob("*.log")) / 1e6
        return cell

    def ended(self, worker: Worker, status: int) -> None:
        self.how = "worker %d" % (worker.number + 1)
        super().ended(worker, status)

    def end(self, worker: Worker, outcome: str = ENDED, note: str = "") -> None:
        super().end(worker, outcome, note)
        self.slowest = max(self.slowest, worker.process.used)


def ratio(above: Seconds, below: Seconds) -> Seconds:
    return None if above is None or not below else above / below


def cell_of(number: Seconds) -> str:
    return "-" if number is None else "%.2f" % number


def mean(cells: Sequence[str]) -> str:
    """The geometric mean of a column."""
    try:
        return "%.2f" % math.exp(sum(math.log(float(cell)) for cell in cells) / len(cells))
    except ValueError:  # not of numbers above 0
        return ""


def main() -> None:
    parser = argparse.ArgumentParser(usage=__doc__)
    parser.add_argument("--jobs", type=int, default=4)
    parser.add_argument("--depth", type=int, default=6)
    parser.add_argument("--runs", type=int, default=1)
    parser.add_argument("--processor", action="store_true")
    parser.add_argument("program")
    parser.add_argument("formulas", nargs="+")
    asked = parser.parse_args()
    asked.program = os.path.abspath(asked.program)
    heads = PROCESSOR if asked.processor else CLOCK
    print("| Formula | %s |\n|%s" % (" | ".join(heads), "---|" * (len(heads) + 1)), flush=True)
    rows = []
    for formula in asked.formulas:
        with tempfile.TemporaryDirectory() as folder:
            rows.append(Bench(asked, os.path.abspath(formula), folder).row())
        print("| `%s` | %s |" % (Path(formula).stem, " | ".join(rows[-1])), flush=True)
    print("| geometric mean | %s |" % " | ".join(map(mean, zip(*rows))))


if __name__ == "__main__":
    main()
