"""Commands that end with this process, and this process with its parent."""
import os
import shutil
import signal
import subprocess
import time
from pathlib import Path
from typing import Any, Dict, Iterator, List, Optional

from leaf_jobs.processes import DIE_WITH_PARENT, die_with, prctl

PARENT_ENDED = signal.SIGUSR2
ENDINGS: Dict[int, str] = {  # the signals that end this process, and what is told of them
    signal.SIGALRM: "the time is up",
    signal.SIGHUP: "ended by SIGHUP",
    signal.SIGINT: "ended by SIGINT",
    signal.SIGTERM: "ended by SIGTERM",
    PARENT_ENDED: "the process that started this one has ended",
}
SWEEPS = 100  # how often a folder is removed until it is gone


class Ended(Exception):
    """This process is asked to end; the reason is its text."""


def end_by_signals() -> None:
    """Has signals, and the end of the parent, raise `Ended`, so that what was begun is cleared up.

    The parent's end has a signal of its own: the system sends it also when only the thread ends
    that has started this process, and then there is nothing to do.
    """
    parent = os.getppid()

    def end(number: int, _: Any) -> None:
        if number == PARENT_ENDED and os.getppid() == parent:
            return
        for other in ENDINGS:  # once: what is cleared up then is not to be broken off
            signal.signal(other, signal.SIG_IGN)
        raise Ended(ENDINGS[number])

    for number in ENDINGS:
        is_ours = number in (PARENT_ENDED, signal.SIGALRM)
        if is_ours or signal.getsignal(number) != signal.SIG_IGN:  # as `nohup` has it
            signal.signal(number, end)
    signal.pthread_sigmask(signal.SIG_UNBLOCK, ENDINGS)  # a client may have blocked them for itself
    if prctl:
        prctl(DIE_WITH_PARENT, PARENT_ENDED)


def end_after(seconds: Optional[float]) -> None:
    """Has `Ended` be raised after so many seconds; never, if there are none."""
    signal.setitimer(signal.ITIMER_REAL, seconds or 0)


def start(words: List[str], **more: Any) -> subprocess.Popen:
    """Starts a command that dies with this process. It has what was open when this one began: FILE
    and PROOF may be /dev/fd/63, as a shell names its pipes."""
    parent = os.getpid()
    return subprocess.Popen(words, preexec_fn=lambda: die_with(parent), close_fds=False, **more)


def kill(process: subprocess.Popen) -> None:
    if process.poll() is None:
        process.kill()
        process.wait()


def end(process: subprocess.Popen, seconds: float) -> None:
    """Asks it to end, and so to end what it has started; kills it if that takes too long."""
    if process.poll() is None:
        process.terminate()
        try:
            process.wait(seconds)
        except subprocess.TimeoutExpired:
            pass
    kill(process)


def open_parts(process: subprocess.Popen, proof: str) -> Iterator[Path]:
    """The unfinished proofs that the program has open beside the place of the proof."""
    begin = os.path.realpath(proof) + ".part"
    folder = Path("/proc/%d/fd" % process.pid)
    try:
        for entry in folder.iterdir():
            path = os.readlink(str(entry))
            if path.startswith(begin) and path[len(begin):].isdigit():
                yield Path(path)
    except OSError:  # it has ended, or there is no /proc
        pass


def kill_with_parts(process: subprocess.Popen, proofs: List[str]) -> None:
    """Kills the program, which then cannot take away the proof that it was writing."""
    runs = process.poll() is None
    parts = [part for proof in proofs if runs for part in open_parts(process, proof)]
    kill(process)
    for part in parts:
        if part.exists():
            part.unlink()


class Sweeper:
    """A process that removes a folder once this one has ended, however it ends, or asks for it."""

    def __init__(self, folder: str) -> None:
        read, self.alive = os.pipe()
        self.process = os.fork()
        if self.process == 0:
            try:
                sweep(folder, read, self.alive)
            finally:
                os._exit(0)
        os.close(read)

    def sweep(self) -> None:
        os.close(self.alive)
        os.waitpid(self.process, 0)


def sweep(folder: str, read: int, alive: int) -> None:
    """Waits for the end of the pipe, in a session of its own, which no terminal ends."""
    os.setsid()
    for number in ENDINGS:
        signal.signal(number, signal.SIG_IGN)
    os.close(alive)
    nothing = os.open(os.devnull, os.O_RDWR)
    for descriptor in (0, 1, 2):  # a client waits until nobody has its pipes open any more
        os.dup2(nothing, descriptor)
    while os.read(read, 1):
        pass
    for _ in range(SWEEPS):  # jobs that end meanwhile may write once more
        shutil.rmtree(folder, ignore_errors=True)
        if not os.path.exists(folder):
            return
        time.sleep(0.05)
