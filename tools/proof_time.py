#!/usr/bin/env python3
"""Runs a command that proves crates, and prints where the time went.

    tools/proof_time.py [--functions N] [--log FILE] COMMAND..
    tools/proof_time.py --kept CRATE [--functions N]

    tools/proof_time.py rt ci                       the gate: proofs, tests and edits of each crate
    tools/proof_time.py rt all check --jobs 4       the proofs alone
    tools/proof_time.py --kept dimacs               what the last check of a crate was longest at

Twice a second it looks in /proc at the checker's processes: processor seconds and peak memory by
crate, and by what was checked (the crate, its tests, or an edit that must fail). A process that
begins and ends between two looks is missed; none of the checker's does. The checker prints a line
when it has checked a function: with --functions the N longest waits for such a line are listed,
which is the time of that function if one job is at work. The command's own output goes to --log,
else nowhere.

A check with one job writes a file into out/incremental for each part of a function when it is done
with that part. So --kept needs no run: it prints the N longest waits from one file to the next (40
if N is not given), and the sum for each kind of part. `Proof` is what the tactics looked for,
`Answers` what was written by hand, `Lts` what the code of the function means, `Tie` and `Kinds` how
it is tied to its types. A part that an earlier check has kept is not done again, so it counts as
nothing.
"""
import argparse
import os
import re
import subprocess
import sys
import threading
import time
from argparse import Namespace
from collections import defaultdict
from dataclasses import dataclass, field
from pathlib import Path
from typing import IO, Dict, Iterable, List, NamedTuple, Optional, Tuple

ROOT = Path(__file__).resolve().parent.parent
PROC = Path("/proc")
TICK = os.sysconf("SC_CLK_TCK")
PAGE = os.sysconf("SC_PAGE_SIZE")
EVERY = 0.5  # seconds between two looks
KINDS = ("proof", "tests", "edits")


class Wait(NamedTuple):
    """How long a function, or a part of one, was waited for."""

    seconds: float
    name: str


@dataclass
class Seen:
    """What a process of the checker is at, and what it has taken so far."""

    crate: str
    kind: str
    seconds: float = 0  # of the processor
    peak: int = 0  # megabytes


def words_of(pid: str) -> List[str]:
    """The words of a process, or none if it has ended."""
    try:
        return (PROC / pid / "cmdline").read_bytes().decode(errors="replace").split("\0")
    except OSError:
        return []


def fields_of(pid: str) -> List[str]:
    """The numbers that the system has of a process, from its state on, or none if it has ended."""
    try:
        return (PROC / pid / "stat").read_text().rpartition(")")[2].split()
    except OSError:
        return []


def kind_of(words: List[str], folder: str) -> str:
    if os.path.basename(folder).startswith("rt-edit"):
        return "edits"
    return "tests" if "--test" in words else "proof"


def is_below(pid: str, root: str) -> bool:
    """Whether the command has started a process: other runs of this machine are not counted."""
    while pid not in ("0", "1", root):
        pid = (fields_of(pid) + ["0", "0"])[1]  # its parent, or none if it has ended
    return pid == root


def crate_in(words: List[str]) -> Optional[str]:
    """The crate that a process of the checker is at; None of any other process."""
    if not words or os.path.basename(words[0]) != "rattle" or "--crate-name" not in words:
        return None
    return words[words.index("--crate-name") + 1]


@dataclass
class Looks:
    """The checker's processes below the command, each with when it began: numbers come again."""

    root: str
    seen: Dict[Tuple[str, str], Seen] = field(default_factory=dict)

    def look(self) -> None:
        for pid in filter(str.isdigit, os.listdir(PROC)):
            words = words_of(pid)
            crate = crate_in(words)
            if crate is not None and is_below(pid, self.root):
                self.note(pid, crate, words)

    def note(self, pid: str, crate: str, words: List[str]) -> None:
        fields = fields_of(pid)
        try:
            folder = os.readlink(PROC / pid / "cwd")
        except OSError:
            return
        if not fields:
            return
        one = self.seen.setdefault((pid, fields[19]), Seen(crate, kind_of(words, folder)))
        # Its own seconds, since its jobs are seen by themselves.
        one.seconds = sum(map(int, fields[11:13])) / TICK
        one.peak = max(one.peak, int(fields[21]) * PAGE >> 20)

    def minutes(self) -> float:
        return sum(one.seconds for one in self.seen.values()) / 60

    def table(self) -> List[str]:
        """A row for each crate, the longest one first."""
        spent: Dict[str, Dict[str, float]] = {}
        peaks: Dict[str, int] = {}
        for one in self.seen.values():
            row = spent.setdefault(one.crate, dict.fromkeys(KINDS, 0.0))
            row[one.kind] += one.seconds
            peaks[one.crate] = max(peaks.get(one.crate, 0), one.peak)
        rows = ["| Crate | Proof | Tests | Edits | All, processor seconds | Peak, MB |",
                "|---|---|---|---|---|---|"]
        for crate in sorted(spent, key=lambda name: -sum(spent[name].values())):
            seconds = list(spent[crate].values())
            cells = ["%.0f" % part if part else "" for part in seconds]
            rows.append(row_of("`%s`" % crate, cells, sum(seconds), peaks[crate]))
        whole = [sum(row[kind] for row in spent.values()) for kind in KINDS]
        cells = ["%.0f" % part for part in whole]
        return rows + [row_of("all", cells, sum(whole), max(peaks.values(), default=0))]


def row_of(name: str, cells: List[str], seconds: float, peak: int) -> str:
    return "| %s | %s | %.0f | %d |" % (name, " | ".join(cells), seconds, peak)


def follow(lines: Iterable[str], log: IO[str], waits: List[Wait]) -> None:
    """Copies the command's output, and notes how long each function was waited for."""
    last = time.time()
    for line in lines:
        log.write(line)
        found = re.match(r"checked (\S+), \d+ of \d+", line)
        if found:
            waits.append(Wait(time.time() - last, found.group(1)))
        last = time.time()


def tell_longest(waits: Iterable[Wait], number: int) -> None:
    for wait in sorted(waits, reverse=True)[:number]:
        print("%8.1f s  %s" % wait)


def tell_kept(crate: str, number: int) -> int:
    """Prints what the last check of a crate was longest at."""
    folder = ROOT / "crates" / crate / "out" / "incremental"
    done = sorted((path.stat().st_mtime, re.sub(r"(\.decls)?\.oantt$", "", path.name))
                  for path in folder.glob("*/*.oantt"))
    if not done:
        print("%s keeps nothing: check it first, (cd crates/%s && rt check --jobs 1)" % (
            folder.relative_to(ROOT), crate))
        return 1
    waits: Dict[str, float] = defaultdict(float)
    for (before, _), (after, name) in zip(done, done[1:]):
        waits[re.sub("^Rattle-%s-" % re.escape(crate), "", name)] += after - before
    tell_longest((Wait(seconds, name) for name, seconds in waits.items()), number)
    kinds: Dict[str, float] = defaultdict(float)
    for name, seconds in waits.items():
        kinds[name.rpartition(".")[2]] += seconds
    most = sorted(kinds.items(), key=lambda item: -item[1])[:6]
    print("\nby kind: " + ", ".join("%s %.0f" % kind for kind in most))
    return 0


def tell_run(asked: Namespace) -> int:
    """Runs the command, and prints what it has taken. Answers its status."""
    waits: List[Wait] = []
    begun = time.time()
    with open(asked.log, "w") as log:
        process = subprocess.Popen(asked.command, stdout=subprocess.PIPE,
                                   stderr=subprocess.STDOUT, text=True, errors="replace")
        looks = Looks(str(process.pid))
        reader = threading.Thread(target=follow, args=(process.stdout, log, waits))
        reader.start()
        while process.poll() is None:
            looks.look()
            time.sleep(EVERY)
        reader.join()
    print("\n".join(looks.table()))
    print("\n%.1f processor-minutes, %.1f minutes by the clock, status %d" % (
        looks.minutes(), (time.time() - begun) / 60, process.returncode))
    tell_longest(waits, asked.functions)
    return process.returncode


def main() -> int:
    parser = argparse.ArgumentParser(usage=__doc__.split("\n\n")[1].strip())
    parser.add_argument("--kept", metavar="CRATE")
    parser.add_argument("--functions", type=int, default=0)
    parser.add_argument("--log", default=os.devnull)
    parser.add_argument("command", nargs=argparse.REMAINDER)
    asked = parser.parse_args()
    if asked.kept:
        return tell_kept(asked.kept, asked.functions or 40)
    if not asked.command:
        parser.error("a command is missing")
    return tell_run(asked)


if __name__ == "__main__":
    sys.exit(main())
