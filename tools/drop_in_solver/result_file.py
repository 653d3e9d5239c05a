"""MiniSat's result file: what callers of `minisat` read in the place of what is printed."""
import errno
import os
import stat
from contextlib import suppress
from typing import IO, List, Optional

from drop_in_solver.output import OUT, Output, write_all
from drop_in_solver.sources import Refused
from explanations import looks, words

FIRST = {10: b"SAT\n", 20: b"UNSAT\n", 0: b"INDET\n"}
PARTS = 100  # names that are tried for a part, as the program does


def refusal(path: str, formula: str, what: str) -> Optional[str]:
    """Why a proof or a result cannot be written to a file; None if nothing is known against it."""
    if path == "-":
        return "The %s cannot go to standard output: name a file." % what
    why = words.unwritable(path, formula, what)
    # A value that was not known as one, of a word that was not known, makes FILE the second file.
    if why is None and looks.is_formula(looks.head_of(path)):
        why = "%s is a formula: the %s is not written over it." % (path, what)
    return why


class OutputWithResult(Output):
    """Writes each answer to the result file before it prints it."""

    def __init__(self, quiet: bool, path: str, formula: str) -> None:
        super().__init__(quiet)
        self.path, self.formula = path, formula

    def test(self) -> None:
        self.refuse_or(None)

    def answer(self, data: bytes, status: int) -> None:
        values = [line[2:] for line in data.split(b"\n") if line.startswith(b"v ")]
        model = b" ".join(values) + b"\n" if status == 10 else b""
        self.refuse_or(FIRST[status] + model)
        super().answer(data.split(b"\n", 1)[0] + b"\n", status)

    def unknown(self, reasons: List[str], waits: bool = True) -> None:
        """An older result is not to be taken for that of this run; what is none stays."""
        head = looks.head_of(self.path)
        try:
            if not head or head.startswith(tuple(FIRST.values())):
                self.refuse_or(FIRST[0], waits)
        except Refused as why:
            reasons = reasons + [reason for reason in why.reasons if reason not in reasons]
        super().unknown(reasons, waits)

    def refuse_or(self, data: Optional[bytes], waits: bool = True) -> None:
        """Writes the file, if there are data, or raises Refused, which tells why it cannot."""
        why = refusal(self.path, self.formula, "result")
        try:
            if why is None:
                write(self.path, data, waits)
        except OSError as error:
            why = "%s cannot be written: %s." % (self.path, error.strerror)
        if why is not None:
            raise Refused(why)


def write(path: str, data: Optional[bytes], waits: bool) -> None:
    """Writes a regular file whole or not at all; what is none, and what standard output goes to, as
    it is. An empty file is written as it is too: a caller that has made it may have it open, and
    would not see what takes its place. Without data it is only tried whether that can be done."""
    try:
        there: Optional[os.stat_result] = os.stat(path)
    except FileNotFoundError:
        there = None
    place = os.path.realpath(path)
    if there is not None and os.path.samestat(there, os.fstat(OUT)):
        put(OUT, data, waits)
    elif there is None or stat.S_ISREG(there.st_mode) and there.st_size and os.path.exists(place):
        replace(place, data, there)
    elif data is not None:
        write_in_place(path, data, waits, stat.S_ISREG(there.st_mode))


def put(descriptor: int, data: Optional[bytes], waits: bool) -> None:
    if waits:
        write_all(descriptor, data or b"")
    else:
        os.write(descriptor, data or b"")


def write_in_place(path: str, data: bytes, waits: bool, is_file: bool) -> None:
    descriptor = os.open(path, os.O_WRONLY | (0 if waits else os.O_NONBLOCK))
    try:
        put(descriptor, data, waits)
    except BaseException:
        if is_file:
            os.ftruncate(descriptor, 0)
        raise
    finally:
        os.close(descriptor)


def begun(place: str) -> IO[bytes]:
    """A new file beside the place."""
    for number in range(PARTS):
        with suppress(FileExistsError):
            return open("%s.part%d" % (place, number), "xb", buffering=0)
    raise OSError(errno.EEXIST, "a hundred parts of killed runs are beside it: remove them", place)


def replace(place: str, data: Optional[bytes], there: Optional[os.stat_result]) -> None:
    """The new file has the permissions of the old one."""
    with begun(place) as part:
        try:
            if there is not None:
                os.fchmod(part.fileno(), stat.S_IMODE(there.st_mode))
            if data is None:
                os.unlink(part.name)
            else:
                write_all(part.fileno(), data)
                os.replace(part.name, place)
        except BaseException:
            with suppress(FileNotFoundError):
                os.unlink(part.name)
            raise
