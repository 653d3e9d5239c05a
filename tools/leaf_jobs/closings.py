"""How a log is made up: how many lemmas it has, and which part of a block's log is of which leaf.

A block's leaves are searched one after the other, so the log of a leaf begins where the leaf before
it is closed: at the first lemma that has no literal but negations of that leaf's.
"""
import re
from pathlib import Path
from typing import List, NamedTuple, Pattern, Sequence, Tuple

from leaf_jobs.files import Cube

PIECE = 1 << 22  # bytes that are read at a time


class Shape(NamedTuple):
    """What was read of a log."""

    lemmas: int = 0
    parts: Tuple[int, ...] = ()  # bytes of each leaf, in the order of their searches


class Scan(NamedTuple):
    """What was found in the whole lines of a log."""

    lemmas: int
    ends: List[int]  # the places after the lemmas that close leaves, as far as they are found
    lines: int  # the place after the last whole line
    bytes: int


def closing(cube: Cube) -> Pattern[bytes]:
    """Matches a line of a lemma that closes a leaf, from the end of the line before it."""
    literals = b"|".join(b"%d" % -literal for literal in cube)
    return re.compile(rb"\n\d+ (?:(?:%s) )*0 [^\n]*" % literals)


def scan(log: Path, cubes: Sequence[Cube]) -> Scan:
    """Reads a log once, and looks for the lemmas that close these leaves, in their order."""
    lemmas, text, before = 0, b"\n", 0  # the text begins with an end of a line that is none
    ends: List[int] = []
    waiting = [closing(cube) for cube in cubes]
    with log.open("rb") as file:
        while True:
            piece = file.read(PIECE)
            text += piece
            end = text.rfind(b"\n")
            lemmas += text.count(b"\n", 0, end) - text.count(b" d ", 0, end)
            at = 0
            while waiting:
                match = waiting[0].search(text, at, end)
                if not match:
                    break
                at = match.start()  # the same lemma may close the next leaf, too
                ends.append(before + match.end())
                waiting.pop(0)
            if not piece:
                return Scan(lemmas, ends, before + end, before + len(text) - 1)
            before += end
            text = text[end:]


def shape(log: Path, cubes: Sequence[Cube]) -> Shape:
    """How a log is made up. The last leaf has what comes after the one before it."""
    found = scan(log, cubes[:-1])
    ends = found.ends + [found.bytes] * (len(cubes) - len(found.ends))
    return Shape(found.lemmas, tuple(end - begin for begin, end in zip([0] + ends, ends)))
