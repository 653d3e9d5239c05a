"""Where the formula comes from: a file, a packed file, or standard input."""
import os
import shutil
import signal
import stat
import subprocess
import threading
from dataclasses import dataclass, field
from pathlib import Path
from typing import IO, List, Optional

from drop_in_solver.output import write_all
from drop_in_solver.processes import kill, start
from explanations import looks, words

PACKED_NAMES = {".gz": "gzip", ".xz": "xz", ".bz2": "bzip2", ".zst": "zstd"}
PIECE = 1 << 16
PATIENCE = 5  # seconds that a program has to end once nobody reads what it unpacks


class Refused(Exception):
    """There is no answer; `reasons` tells why."""

    def __init__(self, *reasons: str) -> None:
        super().__init__(*reasons)
        self.reasons = list(reasons)


@dataclass
class Source:
    """A formula. `path` is its name for the program; `pipe` is what /dev/stdin is then, if so."""

    path: str
    pipe: Optional[IO[bytes]] = None
    head: Optional[bytes] = None  # its first bytes, if the path has not got them
    unpacker: Optional[subprocess.Popen] = None
    tool: str = ""
    errors: List[str] = field(default_factory=list)  # of reading standard input
    front: bytes = b""  # the first bytes of what a packed file holds

    def limits(self) -> List[str]:
        """The word for the limits that the formula's header asks for. Of what comes packed by
        standard input the header is not seen."""
        header = looks.first_words(self.head or self.front) if self.pipe else (
            looks.header_of(self.path))
        return ["--large"] if looks.asks_for_large(header) else []

    def close(self) -> None:
        """Leaves the pipe to the program alone, so that whoever writes to it ends with that."""
        if self.pipe:
            self.pipe.close()

    def trouble(self) -> List[str]:
        """Why what came was not the whole formula; called when nobody reads it any more."""
        if self.errors or not self.unpacker:
            return self.errors
        try:
            self.unpacker.wait(PATIENCE)
        except subprocess.TimeoutExpired:  # it waits for a formula that was refused meanwhile
            kill(self.unpacker)
            return []
        if self.unpacker.returncode in (0, -signal.SIGPIPE):
            return []
        assert self.unpacker.stderr is not None
        told = self.unpacker.stderr.read(PIECE).decode("ascii", "replace").strip()
        end = "%s ends with %d" % (self.tool, self.unpacker.returncode)
        return [": ".join([end] + told.split("\n")[-1:])]

    def test(self) -> None:
        """Refuses the answer if the program has not read the whole formula."""
        trouble = self.trouble()
        if trouble or (self.unpacker and self.unpacker.returncode != 0):
            raise Refused(*trouble or ["%s did not end" % self.tool])


def source_of(formula: str) -> Source:
    if formula == "-":
        return from_standard_input()
    path = formula if not formula.startswith("-") else os.path.join(".", formula)
    try:
        is_file = stat.S_ISREG(os.stat(path).st_mode)
        if os.path.isdir(path) or not os.access(path, os.R_OK):
            raise OSError
    except (OSError, ValueError):
        raise Refused(words.unreadable(path))
    # What a file is its bytes tell; a pipe cannot be looked into, so that its name has to.
    tool = looks.packing(looks.head_of(path)) if is_file else PACKED_NAMES.get(Path(path).suffix)
    if tool is None:
        return Source(path)
    with open(path, "rb") as file:
        source = unpacked(tool, file, [])
    source.front = looks.unpacked_head(tool, path) if is_file else b""
    return source


def from_standard_input() -> Source:
    try:
        head = os.read(0, PIECE)
    except OSError as why:
        raise Refused("Standard input cannot be read: %s." % why.strerror)
    read, write = os.pipe()
    file, tool = os.fdopen(read, "rb"), looks.packing(head)
    source = Source("/dev/stdin", file, head[:looks.HEAD])
    threading.Thread(target=pump, args=(head, write, source.errors), daemon=True).start()
    if tool is None:
        return source
    with file:
        return unpacked(tool, file, source.errors)


def pump(head: bytes, write: int, errors: List[str]) -> None:
    """Copies standard input to a pipe, in a thread, until it ends or the pipe has no reader."""
    try:
        while head:
            write_all(write, head)
            head = os.read(0, PIECE)
    except BrokenPipeError:
        pass
    except OSError as why:
        errors.append("Standard input cannot be read to its end: %s." % why.strerror)
    finally:
        os.close(write)


def unpacked(tool: str, file: IO[bytes], errors: List[str]) -> Source:
    if not shutil.which(tool):
        raise Refused("The formula is packed by %s, which is not installed." % tool)
    process = start([tool, "-dc"], stdin=file, stdout=subprocess.PIPE, stderr=subprocess.PIPE)
    return Source("/dev/stdin", process.stdout, b"", process, tool, errors)


def spooled(source: Source, path: str) -> Source:
    """The formula as a file, for those who read it more than once."""
    with open(path, "wb") as file:
        if source.pipe:
            shutil.copyfileobj(source.pipe, file, PIECE)
        else:
            with open(source.path, "rb") as there:
                shutil.copyfileobj(there, file, PIECE)
    source.close()
    source.test()
    return Source(path)
