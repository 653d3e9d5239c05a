#!/usr/bin/env python3
"""Times `serve` with one, two and four workers, and prints a row of a Markdown table for each
formula.

    tools/serve_times.py [--depth D] [--runs R] PATH-OF-satcluster FORMULA..

A row has the seconds by the clock from the first worker until PROOF stands, the least of R runs,
and those of `solve` with the same split. Each process is in a session of its own: those of one
session share a turn of the processor.
"""
import argparse
import os
import subprocess
import tempfile
import time
from argparse import Namespace
from pathlib import Path
from typing import List, NamedTuple

from ports import LISTENS, free_port, sockets_at

WORKERS = (1, 2, 4)
LIMIT = 1000000000


class Run(NamedTuple):
    seconds: float  # until the proof stands
    megabytes: float  # of the proof


def start(*words: object) -> subprocess.Popen:
    return subprocess.Popen(list(map(str, words)), stdout=subprocess.DEVNULL,
                            start_new_session=True)


def served(asked: Namespace, formula: str, count: int) -> Run:
    with tempfile.TemporaryDirectory() as folder:
        proof, port = Path(folder, "f.lrat"), free_port()
        coordinator = start(asked.program, "serve", "--port", port, "--workers", count,
                            "--depth", asked.depth, "--limit", LIMIT, formula, proof)
        while not sockets_at(port, LISTENS) and coordinator.poll() is None:
            time.sleep(0.005)
        workers = [start(asked.program, "work", "--port", port, "--number", 1 + at, formula)
                   for at in range(count)]
        begin = time.monotonic()
        while not proof.exists() and coordinator.poll() is None:
            time.sleep(0.005)
        seconds = time.monotonic() - begin
        for process in [coordinator, *workers]:
            process.wait()
        if not proof.exists():
            raise SystemExit("no proof of %s: serve ended with status %d" % (
                formula, coordinator.returncode))
        return Run(seconds, proof.stat().st_size / 1e6)


def solved(asked: Namespace, formula: str) -> float:
    begin = time.monotonic()
    start(asked.program, "solve", "--workers", 1, "--depth", asked.depth, "--limit", LIMIT,
          formula, os.devnull).wait()
    return time.monotonic() - begin


def row(asked: Namespace, formula: str) -> List[str]:
    runs = {count: [served(asked, formula, count) for _ in range(asked.runs)]
            for count in WORKERS}
    least = [min(run.seconds for run in runs[count]) for count in WORKERS]
    return [Path(formula).stem, *("%.1f" % seconds for seconds in least),
            "%.2f" % (least[0] / least[-1]), "%.0f MB" % runs[1][0].megabytes,
            "%.1f" % solved(asked, formula)]


def main() -> None:
    words = argparse.ArgumentParser(usage=__doc__)
    words.add_argument("--depth", type=int, default=8)
    words.add_argument("--runs", type=int, default=1)
    words.add_argument("program")
    words.add_argument("formulas", nargs="+")
    asked = words.parse_args()
    print("| Formula | 1 worker | 2 | 4 | 4 to 1 | Proof | `solve --depth %d` |" % asked.depth)
    print("|---|---|---|---|---|---|---|", flush=True)
    for formula in asked.formulas:
        print("| %s |" % " | ".join(row(asked, formula)), flush=True)


if __name__ == "__main__":
    main()
