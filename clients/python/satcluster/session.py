"""A running `satcluster session`: lines go in, answers come out."""
import os
import subprocess
import threading
from typing import IO, List, NamedTuple, NoReturn, Optional

from .program import SolverError

PATIENCE = 60  # seconds that a program has to end once its input has ended
ENOUGH = 1 << 16  # bytes that are sent or read at once
UNKNOWN = b"s UNKNOWN\n"
LETTERS = {b"s SATISFIABLE": b"v", b"s UNSATISFIABLE": b"f"}
ENDS = (b" 0\n", UNKNOWN)  # of an answer


class Reply(NamedTuple):
    """status: True, False, or None after `s UNKNOWN`; lines: those of the model, or of the core."""

    status: Optional[bool]
    lines: bytes

    def literals(self) -> List[int]:
        """Parses the lines. That takes longer than an easy query, so it is done when literals are
        wanted, and not before."""
        words = self.lines.translate(None, b"vf").split()
        try:
            return [*map(int, words[:-1])]
        except ValueError:
            raise SolverError("the solver has printed what is no literal") from None


NOTHING = Reply(None, b"")


def _write(descriptor: int, data: bytes) -> None:
    done = os.write(descriptor, data)
    while done < len(data):
        data = data[done:]
        done = os.write(descriptor, data)


def _opened(pipe: Optional[IO[bytes]]) -> IO[bytes]:
    """A pipe of a process that was started with it."""
    assert pipe is not None
    return pipe


def _is_list(lines: bytes, letter: bytes) -> bool:
    """Whether these lines begin with the letter, and have numbers with one 0, at the end."""
    zeros = lines.count(b" 0\n") + lines.count(b" 0 ")
    no_numbers = lines.translate(None, b" -0123456789")
    return zeros == 1 and lines.endswith(b" 0\n") and no_numbers == no_numbers.count(b"\n") * (
        letter + b"\n")


def _reply(printed: bytes) -> Optional[Reply]:
    """The answer that was printed; None if it is none."""
    if printed == UNKNOWN:
        return NOTHING
    line, _, lines = printed.partition(b"\n")
    letter = LETTERS.get(line)
    if letter is None or not _is_list(lines, letter):
        return None
    return Reply(letter == b"v", lines)


class Session:
    """The program, and the file to which what it is sent goes first.

    The program prints nothing but answers, so lines can be sent without reading: a pipe that is
    full is one whose other end is at work, or has gone. Whatever is raised while lines are sent or
    an answer is awaited ends the program: it may have a part of a line, and its next answer would
    be taken for this one.
    """

    def __init__(self, program: str, limit: int, events: Optional[str],
                 proof: Optional[str]) -> None:
        self._events = open(events, "wb", buffering=0) if events is not None else None
        self._waiting = ["p inccnf\n"]
        self._length = 0  # of what waits, about
        self._printed = b""  # the last answer, or what was printed in the place of one
        words = [program, "session", "--large", "--limit", str(limit), "-"]
        try:
            self._process = subprocess.Popen(words + ([proof] if proof is not None else []),
                                             stdin=subprocess.PIPE, stdout=subprocess.PIPE,
                                             bufsize=0)
        except OSError as why:
            self._close_events()
            raise SolverError("%s cannot be run: %s" % (program, why)) from why
        self._input = _opened(self._process.stdin)
        self._output = _opened(self._process.stdout)
        self._into = self._input.fileno()
        self._from = self._output.fileno()
        self.sent = 0  # bytes of the events
        self.is_open = True

    @property
    def pid(self) -> int:
        return self._process.pid

    def add(self, lines: str) -> None:
        """Takes lines, each with its LF, which are sent with others."""
        self._waiting.append(lines)
        self._length += len(lines)
        if self._length >= ENOUGH:
            self._send()

    def ask(self, line: str) -> Reply:
        """Sends a query, and waits for its answer."""
        self._waiting.append(line)
        self._send()
        try:
            self._printed = printed = self._read()
            reply = _reply(printed)
            if reply is None:
                self._process.kill()
                self._died()
            return reply
        except BaseException:
            self.kill()
            raise

    def close(self) -> None:
        """Sends what is left, and waits for the program to end."""
        if not self.is_open:
            return
        try:
            self._send()
        except SolverError:
            pass  # no answer was waited for
        finally:
            self._end()

    def kill(self) -> None:
        self._process.kill()
        self._end()

    def _send(self) -> None:
        data = "".join(self._waiting).encode("ascii")
        self._waiting.clear()
        self._length = 0
        if not self.is_open:
            raise SolverError("the session has ended", self._last(), self._process.returncode)
        try:
            if self._events is not None:
                _write(self._events.fileno(), data)
            self.sent += len(data)
            _write(self._into, data)
        except BrokenPipeError:
            self._died()
        except BaseException:
            self.kill()
            raise

    def _read(self) -> bytes:
        """What the program prints up to the end of an answer. It prints nothing behind it until it
        is asked again, so no line has to be looked for."""
        printed = os.read(self._from, ENOUGH)
        return printed if printed.endswith(ENDS) else self._read_on(bytearray(printed))

    def _read_on(self, printed: bytearray) -> bytes:
        """The same of an answer that is longer than what was read. One that begins with another
        letter than `s` is none: a `c` line, and the program's end, tell why."""
        while not printed.endswith(ENDS):
            is_wrong = printed[:1] not in (b"s", b"c", b"")
            if is_wrong:
                self._process.kill()
            more = b"" if is_wrong else os.read(self._from, ENOUGH)
            if not more:
                self._printed = bytes(printed) or self._printed
                self._died()
            printed += more
        return bytes(printed)

    def _died(self) -> NoReturn:
        """Raises what the program has left: its last line and its status."""
        self._end()
        status, line = self._process.returncode, self._last()
        how = "ended by signal %d" % -status if status < 0 else "ended with status %d" % status
        last = "its last line is: " + line if line else "it has printed nothing"
        raise SolverError("the solver has %s; %s" % (how, last), line, status)

    def _last(self) -> str:
        """The last line that was printed."""
        line = self._printed.rstrip(b"\n").rpartition(b"\n")[2]
        return line.decode("ascii", "replace")

    def _end(self) -> None:
        """Closes the program's input, reads to its end what it prints, and waits for it."""
        if not self.is_open:
            return
        self.is_open = False
        timer = threading.Timer(PATIENCE, self._process.kill)
        timer.start()
        try:
            self._input.close()
            for part in iter(lambda: os.read(self._from, ENOUGH), b""):
                self._printed = (self._printed + part)[-ENOUGH:]
            self._process.wait()
        finally:
            timer.cancel()
            self._output.close()
            self._close_events()

    def _close_events(self) -> None:
        if self._events is not None:
            self._events.close()
