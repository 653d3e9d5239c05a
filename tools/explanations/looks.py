"""What a file is by its first bytes: packed, or a formula, and how large by its header."""
import shutil
import subprocess
from pathlib import Path
from typing import List, Optional, Union

HEAD = 4096  # bytes that are read of it
WRITTEN = (1000000, 4000000)  # variables and clauses that the program takes without `--large`
LARGE = "--large: the header is above 1,000,000 variables or 4,000,000 clauses"

PACKED = (  # the first bytes of a packed file, and the program that unpacks it
    (b"\x1f\x8b", "gzip"),
    (b"\xfd7zXZ\x00", "xz"),
    (b"\x28\xb5\x2f\xfd", "zstd"),
    (b"BZh", "bzip2"),
)


def head_of(path: Union[str, Path]) -> bytes:
    """The first bytes of a regular file; none of a pipe, whose reader would miss them."""
    there = Path(path)
    try:
        if not there.is_file():
            return b""
        with there.open("rb") as file:
            return file.read(HEAD)
    except OSError:
        return b""


def packing(head: bytes) -> Optional[str]:
    """The program that unpacks a file with this head."""
    return next((tool for mark, tool in PACKED if head.startswith(mark)), None)


def is_formula(head: bytes) -> bool:
    return first_words(head)[:2] == [b"p", b"cnf"]


def first_words(head: bytes) -> List[bytes]:
    lines = [line for line in head.split(b"\n") if line[:1] != b"c" and line.split()]
    return lines[0].split() if lines else []


def header_of(path: Union[str, Path]) -> List[bytes]:
    """The words of the first line of a regular file that is no comment: the header of a formula."""
    there, is_whole = Path(path), True
    try:
        if not there.is_file():
            return []
        with there.open("rb") as file:
            for line in iter(lambda: file.readline(HEAD), b""):
                if is_whole and line[:1] != b"c" and line.split():
                    return line.split()
                is_whole = line.endswith(b"\n")
    except OSError:
        pass
    return []


def unpacked_head(tool: str, path: Union[str, Path]) -> bytes:
    """The first bytes of what a packed file holds; none if they cannot be told."""
    if not shutil.which(tool):
        return b""
    with open(path, "rb") as file:
        process = subprocess.Popen([tool, "-dc"], stdin=file, stdout=subprocess.PIPE,
                                   stderr=subprocess.DEVNULL)
    with process:
        assert process.stdout is not None
        head = process.stdout.read(HEAD)
        process.kill()
    return head


def asks_for_large(header: List[bytes]) -> bool:
    """Whether a header counts more than the program takes without `--large`."""
    if header[:2] != [b"p", b"cnf"] or len(header) != 4:
        return False
    counts = [int(word) if word.isdigit() and len(word) < 16 else 0 for word in header[2:]]
    return any(count > most for count, most in zip(counts, WRITTEN))
