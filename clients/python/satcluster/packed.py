"""Text files that may be packed."""
import bz2
import gzip
import io
import lzma
import sys
import zlib
from typing import IO, Any, Callable, Dict, cast

from .program import Name

OPENERS: Dict[bytes, Callable[[Any], Any]] = {
    b"\x1f\x8b": gzip.open, b"\xfd7zXZ\x00": lzma.open, b"BZh": bz2.open}
FAULTS = (OSError, EOFError, lzma.LZMAError, zlib.error)  # of a file, or of what is packed in it


def open_text(name: Name) -> IO[str]:
    """Opens a file for reading, or standard input if its name is `-`. What begins as files of gzip,
    xz or bzip2 do is unpacked as it is read, which may raise one of FAULTS."""
    file = cast(io.BufferedReader, sys.stdin.buffer if name == "-" else open(name, "rb"))
    begin = file.peek(6)
    for first, opener in OPENERS.items():
        if begin.startswith(first):
            file = opener(file)
    return io.TextIOWrapper(file, encoding="ascii", errors="replace", newline="\n")
