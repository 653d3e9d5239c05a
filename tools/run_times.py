#!/usr/bin/env python3
"""Times runs of `conquer.py` against one process, and prints a row of a Markdown table for each
formula.

    tools/run_times.py [--solver NAME] [--depth D] [--jobs N] [--runs R]
        PATH-OF-satcluster FORMULA..

A row has seconds by the clock until a proof stands: of the solver on the whole formula,
`satcluster` being `solve --depth 0`; then, with one job and with N, of `conquer.py --no-race
--no-cuts` and of `conquer.py --no-share` (`cell_times.py` times cells); how many times as fast the leaves alone end with N jobs as with one,
by `--no-race`; and the last run with N jobs over the better of both ways without it. The least of R
runs counts. `-` is a run that was ended after LIMIT seconds.
"""
import argparse
import json
import os
import subprocess
import sys
import tempfile
import time
from argparse import Namespace
from dataclasses import dataclass
from functools import partial
from pathlib import Path
from typing import Callable, List, Optional

CONQUER = Path(__file__).resolve().parent / "conquer.py"
LIMIT = 900  # seconds
Seconds = Optional[float]  # None: it took too long


def timed(words: List[str], wanted: int = 20) -> Seconds:
    """Of a command that ends with this status."""
    begin = time.monotonic()
    process = subprocess.Popen(words, stdout=subprocess.DEVNULL)
    try:
        status = process.wait(LIMIT)
    except subprocess.TimeoutExpired:
        process.terminate()
        process.wait()
        return None
    if status != wanted:
        sys.exit("status %d instead of %d of %s" % (status, wanted, " ".join(words)))
    return time.monotonic() - begin


def least(measure: Callable[[], Seconds], runs: int) -> Seconds:
    found = [measure() for _ in range(runs)]
    return min((seconds for seconds in found if seconds is not None), default=None)


@dataclass(frozen=True)
class Bench:
    asked: Namespace
    formula: str
    folder: Path

    def whole(self) -> Seconds:
        proof = str(self.folder / "whole.lrat")
        if self.asked.solver == "satcluster":
            words = ["solve", "-q", "--depth", "0", "--workers", "1", "--limit", "1000000000"]
            return timed([self.asked.program, *words, self.formula, proof])
        return timed([self.asked.solver, "-q", "--lrat", "--no-binary", self.formula, proof])

    def run(self, jobs: int, *more: str) -> Seconds:
        place = self.folder / "run"
        subprocess.run(["rm", "-rf", str(place)], check=True)
        words = ["--program", self.asked.program, "-q", "--solver", self.asked.solver,
                 "--depth", str(self.asked.depth), "--jobs", str(jobs), "--folder", str(place)]
        return timed([sys.executable, str(CONQUER), *words, *more, self.formula,
                      str(self.folder / "f.lrat")])

    def leaves(self, jobs: int) -> Seconds:
        return None if self.run(jobs, "--no-race") is None else self.span()

    def span(self) -> float:
        """From the first job's begin to the last one's end, of the last run."""
        told = [json.loads(path.read_text())
                for path in self.folder.joinpath("run", "records").iterdir()]
        return max(one["end"] for one in told) - min(one["begin"] for one in told)

    def row(self) -> List[str]:
        jobs, runs = (1, self.asked.jobs), self.asked.runs
        whole = least(self.whole, runs)
        before = [least(partial(self.run, n, "--no-race", "--no-cuts"), runs) for n in jobs]
        after = [least(partial(self.run, n, "--no-share"), runs) for n in jobs]
        one, many = [least(partial(self.leaves, n), runs) for n in jobs]
        better = min((s for s in (whole, before[1]) if s is not None), default=None)
        seconds = [whole, before[0], after[0], before[1], after[1]]
        return list(map(cell, seconds)) + [ratio(one, many), ratio(after[1], better)]


def cell(seconds: Seconds) -> str:
    return "-" if seconds is None else "%.1f" % seconds


def ratio(above: Seconds, below: Seconds) -> str:
    return "-" if above is None or not below else "%.2f" % (above / below)


def main() -> None:
    parser = argparse.ArgumentParser(usage=__doc__)
    parser.add_argument("--solver", default="satcluster")
    parser.add_argument("--depth", type=int, default=6)
    parser.add_argument("--jobs", type=int, default=4)
    parser.add_argument("--runs", type=int, default=1)
    parser.add_argument("program")
    parser.add_argument("formulas", nargs="+")
    asked = parser.parse_args()
    asked.program = os.path.abspath(asked.program)
    heads = ["%s, unsplit" % asked.solver, "1 job before", "1 job", "%d jobs before" % asked.jobs,
             "%d jobs" % asked.jobs, "leaves gain", "over the better"]
    print("| Formula | %s |\n|%s" % (" | ".join(heads), "---|" * (len(heads) + 1)), flush=True)
    for formula in asked.formulas:
        with tempfile.TemporaryDirectory() as folder:
            cells = Bench(asked, os.path.abspath(formula), Path(folder)).row()
        print("| `%s` | %s |" % (Path(formula).stem, " | ".join(cells)), flush=True)


if __name__ == "__main__":
    main()
