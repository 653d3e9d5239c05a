"""A run that ends before its answer: by a signal, or since the time of --timeout is up.

The first signal raises `Stopped`, on whose way out jobs keep what they have closed and are ended.
The second one ends the script at once, and the system ends its jobs (`processes.die_with`).
"""
import os
import signal
from contextlib import contextmanager
from typing import Any, Iterator, List

ENDINGS = (signal.SIGINT, signal.SIGTERM, signal.SIGHUP, signal.SIGALRM)
GRACE = 10  # seconds at most in which jobs keep what they have closed
UNKNOWN = "s UNKNOWN"


class Stopped(BaseException):
    """Why the run ends. It is no `Exception`: no module that goes on after one may go on then."""


def listen() -> None:
    """Has the first signal that asks for an end raise `Stopped`, except SIGHUP under `nohup`."""
    for number in ENDINGS:
        if number != signal.SIGHUP or signal.getsignal(number) != signal.SIG_IGN:
            signal.signal(number, stop)


def limit(seconds: int) -> None:
    """Has the run end after so many seconds from now."""
    signal.setitimer(signal.ITIMER_REAL, seconds)


def left() -> float:
    """The seconds until then; infinity without a limit."""
    return signal.getitimer(signal.ITIMER_REAL)[0] or float("inf")


held: List[bool] = []  # one for each step that is to be whole
late: List[Stopped] = []  # what is raised after these


@contextmanager
def whole() -> Iterator[None]:
    """A step that takes little time and is not to be left in its middle: a signal is raised after
    it."""
    held.append(True)
    try:
        yield
    finally:
        held.pop()
        if late and not held:
            raise late.pop()


def stop(number: int, _: Any) -> None:
    for other in ENDINGS:
        if signal.getsignal(other) == stop:
            signal.signal(other, leave)
    is_timeout = number == signal.SIGALRM
    why = Stopped("the time of --timeout is up" if is_timeout else signal.Signals(number).name)
    if not held:
        raise why
    late.append(why)


def leave(*_: Any) -> None:
    os.write(1, ("\n%s\n" % UNKNOWN).encode())
    os._exit(0)
