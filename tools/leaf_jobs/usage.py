"""Who has learnt what in a cell, and who has used whose lemmas, by the logs of its workers."""
import collections
import re
from pathlib import Path
from typing import Counter, Dict, List, NamedTuple

PIECE = 1 << 22  # bytes that are read at a time
LARGE = 1 << 28  # bytes of all logs above which they are not read for a picture
MOST = 16  # logs that are shown
LINE = re.compile(rb"\n(?:w ([0-9]+) ([0-9A-Za-z]+) 0|[0-9]+ i (?:-?[0-9]+ )*0 ([0-9]+) [0-9]+ 0)"
                  rb"(?=\n)")


class Usage(NamedTuple):
    """Of a log."""

    name: str
    lemmas: int  # that it has by itself
    used: Dict[str, int]  # how many it has taken over from each other log


def usages(cell: Path) -> List[Usage]:
    """Of the longest logs, in the order in which they were written last."""
    logs = sorted(cell.glob("*.log"), key=lambda log: log.stat().st_size)[-MOST:]
    if sum(log.stat().st_size for log in logs) > LARGE:
        return []
    return [usage(log) for log in sorted(logs, key=lambda log: (log.stat().st_mtime_ns, log))]


def usage(log: Path) -> Usage:
    names: Dict[bytes, str] = {}
    used: Counter[str] = collections.Counter()
    lemmas, text = 0, b"\n"
    with log.open("rb") as file:
        for piece in iter(lambda: file.read(PIECE), b""):
            text += piece
            end = text.rfind(b"\n")
            lemmas += text.count(b"\n", 0, end) - text.count(b" d ", 0, end)
            lemmas -= text.count(b"\ne ", 0, end) + text.count(b"\nw ", 0, end)
            for found in LINE.finditer(text, 0, end + 1):
                if found.group(1):
                    names[found.group(1)] = found.group(2).decode()
                else:
                    used[names.get(found.group(3), "")] += 1
            text = text[end:]
    return Usage(log.stem, lemmas - sum(used.values()), dict(used))
