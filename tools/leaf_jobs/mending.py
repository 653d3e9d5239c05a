"""Takes away what is spoilt of a cell's files, after a crash or by someone.

A worker's log has whatever it offers, since it is written first. If a disk has lost the end of a
log, or a byte of an offer was changed, then others would take over what no log supports: all that
they learn from it would be of no use.
"""
import os
import re
import stat
import time
from pathlib import Path
from typing import Dict, FrozenSet, Iterator, List, Tuple

from leaf_jobs.files import Folder

Offer = Tuple[bytes, FrozenSet[bytes]]  # the number of a lemma, and its literals

OFFER = re.compile(rb"[0-9]+ ([0-9]+) ((?:-?[0-9]+ )*)0")


def tidy(cell: Path, folder: Folder) -> None:
    """Sets aside what is no file, and offers without a log."""
    for path in sorted(cell.iterdir()):
        lost = path.suffix == ".out" and not path.with_suffix(".log").exists()
        if lost or not stat.S_ISREG(os.lstat(str(path)).st_mode):
            path.replace(folder.at("scratch", "refused.%d" % time.time_ns()))


def cut_before(log: Path, line: int) -> None:
    """Cuts a log before a line, counted from 1."""
    with log.open("rb+") as file:
        for _ in range(line - 1):
            file.readline()
        file.truncate(file.tell())


def mend_offers(cell: Path, folder: Folder) -> None:
    """Takes away each offer that is no lemma of its log."""
    for offers in sorted(cell.glob("*.out")):
        lines = offers.read_bytes().splitlines(True)
        found = lemmas(offers.with_suffix(".log"), lines)
        right = [line for line in lines if any(found.get(number) == literals
                                               for number, literals in offered(line))]
        if right != lines:
            part = folder.at("scratch", offers.name)
            part.write_bytes(b"".join(right))
            part.replace(offers)


def offered(line: bytes) -> Iterator[Offer]:
    """The offer of a line; nothing if it is none."""
    match = OFFER.fullmatch(line[:-1]) if line.endswith(b"\n") else None
    if match:
        yield match.group(1), frozenset(match.group(2).split())


def lemmas(log: Path, offers: List[bytes]) -> Dict[bytes, FrozenSet[bytes]]:
    """The literals of those lemmas of a log that are offered, by their numbers."""
    numbers = {number for line in offers for number, _ in offered(line)}
    found: Dict[bytes, FrozenSet[bytes]] = {}
    with log.open("rb") as file:
        for line in file:
            number = line[:line.find(b" ")]
            if number in numbers and line.endswith(b"\n"):
                words = line.split()
                if words[1] != b"d" and b"0" in words[1:]:
                    first = 2 if words[1] == b"i" else 1
                    found[number] = frozenset(words[first:words.index(b"0", 1)])
    return found
