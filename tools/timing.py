"""Runs a command to its end, and tells what it took."""
import os
import signal
import subprocess
import sys
import threading
import time
from dataclasses import dataclass
from pathlib import Path
from typing import Any, Optional, Sequence


@dataclass(frozen=True)
class Ended:
    status: Optional[int]  # None: a signal has ended it, as it does after the limit
    clock: float  # seconds
    used: float  # seconds of the processor
    peak: float  # megabytes: the most memory at a time


def ended(words: Sequence[object], limit: Optional[float] = None, output: Path = Path(os.devnull),
          **more: Any) -> Ended:
    """A command is killed after so many seconds, if a limit is given. What it prints goes to a
    file."""
    begin = time.monotonic()
    with output.open("wb") as file:
        try:
            process = subprocess.Popen([str(word) for word in words], stdout=file, **more)
        except OSError as why:
            sys.exit("cannot run %s: %s; put it on the path" % (words[0], why.strerror))
    late = threading.Timer(limit or 0, os.kill, [process.pid, signal.SIGKILL])
    if limit is not None:
        late.start()
    _, status, used = os.wait4(process.pid, 0)
    late.cancel()
    process.returncode = os.WEXITSTATUS(status)  # it is waited for, which Popen does not know
    return Ended(None if os.WIFSIGNALED(status) else os.WEXITSTATUS(status),
                 time.monotonic() - begin, used.ru_utime + used.ru_stime, used.ru_maxrss / 1000)
