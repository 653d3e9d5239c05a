"""Prints `c` lines, and the progress of the run: on a terminal as one line that is rewritten."""
import shutil
import sys
import time


COLUMNS = 80  # of a line that goes to no terminal


def pause(seconds: float) -> int:
    """The seconds between two lines of progress if none can be rewritten, so many seconds after the
    start: short at first, which shows that the run goes on, then long, which keeps the list short.
    """
    return 10 if seconds < 59 else 60


class Screen:
    def __init__(self, quiet: bool) -> None:
        self.quiet, self.rewrites, self.shown = quiet, sys.stdout.isatty(), ""
        self.began = time.monotonic()
        self.next = self.began + (0 if self.rewrites else pause(0))

    def say(self, line: str) -> None:
        if not self.quiet:
            self.print(plain(line))

    def print(self, line: str) -> None:
        print("\r\x1b[K" * bool(self.shown) + line, flush=True)
        self.shown = ""

    def width(self) -> int:
        """The characters of a line of progress."""
        return (shutil.get_terminal_size().columns if self.rewrites else COLUMNS) - 1

    def progress(self, line: str) -> None:
        now = time.monotonic()
        if self.quiet or now < self.next:
            return
        self.next = now + (0.2 if self.rewrites else pause(now - self.began))
        if self.rewrites:
            self.shown = line
            print("\r\x1b[K" + line, end="", flush=True)
        else:
            self.print(line)


def plain(line: str) -> str:
    """Control characters, and bytes that are not ASCII, as %XX: in names and in lines of
    solvers."""
    data = line.encode("utf-8", "surrogateescape")
    return "".join(chr(byte) if 32 <= byte < 127 else "%%%02X" % byte for byte in data)


def clock(seconds: float) -> str:
    """Minutes and seconds, or with hours before them."""
    hours, rest = divmod(int(seconds), 3600)
    if hours:
        return "%d:%02d:%02d" % (hours, rest // 60, rest % 60)
    return "%d:%02d" % (rest // 60, rest % 60)
