"""What is printed: whole lines, written to the descriptors without a buffer."""
import os
import select
from typing import Iterable, List

OUT, ERR = 1, 2


class NoReader(Exception):
    """Nobody reads standard output any more."""


def write_all(descriptor: int, data: bytes) -> None:
    """Writes all of it, also to a descriptor that does not block."""
    view = memoryview(data)
    while view:
        try:
            view = view[os.write(descriptor, view):]
        except BlockingIOError:
            select.select([], [descriptor], [])


def plain(text: str) -> str:
    """Bytes of names stay within the line, and within ASCII, so that no name prints an answer."""
    raw = text.encode("utf-8", "surrogateescape")
    return "".join(chr(byte) if 32 <= byte < 127 else "%%%02X" % byte for byte in raw)


class Output:
    """Prints one `s` line, once."""

    def __init__(self, quiet: bool) -> None:
        self.quiet, self.has_answered, self.status = quiet, False, 0

    def test(self) -> None:
        """Raises Refused if an answer could not be written."""

    def remark(self, text: str) -> None:
        self.error(["satcluster-solver: " + text])

    def error(self, lines: Iterable[str]) -> None:
        try:
            write_all(ERR, "".join(plain(line) + "\n" for line in lines).encode())
        except OSError:  # standard error is closed: the answer does not depend on it
            pass

    def comment(self, lines: List[str]) -> None:
        if lines and not self.quiet:
            self.put("".join("c " + plain(line) + "\n" for line in lines).encode())

    def reasons(self, lines: List[str]) -> None:
        """`c` lines that are not to be lost: with -q they go to standard error."""
        if self.quiet:
            self.error(["c " + line for line in lines])
        self.comment(lines)

    def answer(self, data: bytes, status: int) -> None:
        """An answer, whose status counts once all of it is printed."""
        self.has_answered = True
        self.put(data)
        self.status = status

    def unknown(self, reasons: List[str], waits: bool = True) -> None:
        """waits: whether a file may be waited for until it has a reader."""
        self.reasons(reasons)
        self.has_answered = True
        self.put(b"s UNKNOWN\n")

    def put(self, data: bytes) -> None:
        try:
            write_all(OUT, data)
        except OSError as why:
            raise NoReader(why.strerror)


def can_print() -> bool:
    """Whether a line can be printed at once: who is asked to end waits for no reader."""
    return bool(select.select([], [OUT], [], 1)[1])


def reader_is_gone(descriptor: int = OUT) -> bool:
    """Whether standard output is a pipe or a terminal of which the other end is closed."""
    poll = select.poll()
    try:
        poll.register(descriptor, 0)
    except (OSError, ValueError):
        return False
    found = poll.poll(0)
    return any(event & (select.POLLERR | select.POLLHUP) for _, event in found)
