#!/usr/bin/env python3
"""Times `elaborate` beside `drat-trim -L` over DRAT proofs, and prints a row of a table for each.

    tools/drat_times.py [--limit S] [--rounds N] [--drat-trim PATH] [--lrat-check PATH]
        PATH-OF-satcluster FORMULA,PROOF..

Each proof is run N times (2) by either program in turns; the least seconds of the processor and the
greatest peak count. Then `lrat-check` has to verify what `elaborate` wrote. A run that takes more
than S seconds by the clock (600) has no row. The last row has the sums, and the geometric means of
our share. Sizes and peaks are in megabytes. Status 1 if a proof is not verified.
"""
import argparse
import math
import subprocess
import sys
import tempfile
from dataclasses import dataclass
from pathlib import Path
from typing import List, Optional, Tuple

sys.dont_write_bytecode = True

from timing import ended

MEGABYTE = 1e6


@dataclass(frozen=True)
class Made:
    """An LRAT proof that a program made."""

    seconds: float
    peak: float
    size: float


def size(path: Path) -> float:
    return path.stat().st_size / MEGABYTE


def made(words: List[object], lrat: Path, limit: float, rounds: int) -> Optional[Made]:
    """The least of some runs; None if one of them wrote nothing in time."""
    runs = []
    for _ in range(rounds):
        if lrat.exists():
            lrat.unlink()
        end = ended([*words, lrat], limit, stderr=subprocess.DEVNULL)
        if end.status is None or not lrat.exists():
            return None
        runs.append(end)
    return Made(min(run.used for run in runs), max(run.peak for run in runs), size(lrat))


def is_verified(checker: str, formula: Path, lrat: Path, limit: float) -> bool:
    output = lrat.with_name("checked")
    ended([checker, formula, lrat], limit, output, stderr=subprocess.STDOUT)
    return b"c VERIFIED\n" in output.read_bytes().replace(b"\r", b"\n")


def row(name: str, drat: float, ours: Made, theirs: Made) -> str:
    return "| %s | %.1f | %.2f | %.2f | %.2f | %.1f | %.1f | %.0f | %.0f |" % (
        name, drat, theirs.seconds, ours.seconds, ours.seconds / theirs.seconds, theirs.size,
        ours.size, theirs.peak, ours.peak)


def mean(shares: List[float]) -> float:
    return math.exp(sum(math.log(share) for share in shares) / len(shares))


def last_row(pairs: List[Tuple[float, Made, Made]]) -> str:
    """The sums of sizes and seconds, the greatest peaks, and the means."""
    ours, theirs = [pair[1] for pair in pairs], [pair[2] for pair in pairs]
    sums = [Made(sum(it.seconds for it in side), max(it.peak for it in side), sum(it.size for it in side))
            for side in (ours, theirs)]
    both = list(zip(ours, theirs))
    means = (mean([our.seconds / their.seconds for our, their in both]),
             mean([our.size / their.size for our, their in both]),
             mean([our.peak / their.peak for our, their in both]))
    line = row("all %d" % len(pairs), sum(pair[0] for pair in pairs), sums[0], sums[1])
    return line + "\n\nGeometric means of our share: seconds %.2f, LRAT %.2f, peak %.2f" % means


def main() -> None:
    words = argparse.ArgumentParser(usage=(__doc__ or "").split("\n\n")[1].strip())
    words.add_argument("--limit", type=float, default=600)
    words.add_argument("--rounds", type=int, default=2)
    words.add_argument("--drat-trim", default="drat-trim")
    words.add_argument("--lrat-check", default="lrat-check")
    words.add_argument("program")
    words.add_argument("proofs", nargs="+")
    asked = words.parse_args()
    pairs, refused = [], []
    print("| Proof | DRAT | `drat-trim`, s | `elaborate`, s | Share | Its LRAT | Our LRAT | Its peak | Our peak |")
    print("|---|---|---|---|---|---|---|---|---|")
    with tempfile.TemporaryDirectory() as folder:
        for pair in asked.proofs:
            formula, proof = map(Path, pair.split(","))
            mine, other = Path(folder) / "ours", Path(folder) / "theirs"
            theirs = made([asked.drat_trim, formula, proof, "-t", "1000000", "-L"], other,
                          asked.limit, asked.rounds)
            ours = made([asked.program, "elaborate", formula, proof], mine, asked.limit, asked.rounds)
            if ours is None or theirs is None:
                print("%s: no LRAT of %s" % (proof.stem, "ours" if ours is None else "drat-trim"))
                continue
            if not is_verified(asked.lrat_check, formula, mine, asked.limit):
                refused.append(proof.stem)
            pairs.append((size(proof), ours, theirs))
            print(row(proof.stem, size(proof), ours, theirs), flush=True)
    if pairs:
        print(last_row(pairs))
    sys.exit("not verified: " + ", ".join(refused) if refused else 0)


if __name__ == "__main__":
    main()
