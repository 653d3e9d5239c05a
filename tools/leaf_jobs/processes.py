"""Commands: started in process groups, waited for, and killed with their children."""
import ctypes
import os
import select
import signal
import subprocess
import sys
import time
from dataclasses import dataclass, field
from pathlib import Path
from typing import IO, Any, Callable, Dict, Optional, Sequence, Tuple, Union

Word = Union[str, Path]


@dataclass(frozen=True)
class Command:
    words: Sequence[Word]
    output: Path  # the file of its standard output
    seconds: Optional[float] = None  # the time after which it is killed; None: never
    reader: Optional["Reader"] = None  # of the FIFO to which it writes
    searches: bool = False  # whether it may take hours: it is ended at once if the run is
    lines: Optional["Lines"] = None  # what hears its standard output, line by line


@dataclass(frozen=True)
class Reader:
    """A command that reads from a FIFO what another one writes to it."""

    command: Command
    pipe: Path


@dataclass
class Lines:
    """The `c` lines that a command prints, each with the moment at which it was heard."""

    moments: Dict[str, float] = field(default_factory=dict)
    rest: bytes = b""  # what follows the last end of a line

    def hear(self, piece: bytes) -> None:
        *lines, self.rest = (self.rest + piece).split(b"\n")
        now = time.time()
        for line in lines:
            if line.startswith(b"c "):
                self.moments.setdefault(line.decode("ascii", "replace"), now)


DIE_WITH_PARENT = 1  # PR_SET_PDEATHSIG
UNIT = 1 if sys.platform == "darwin" else 1024  # bytes in which the system counts memory

prctl: Optional[Callable[..., int]]
try:
    prctl = ctypes.CDLL(None).prctl
except (OSError, AttributeError):  # not Linux: there the jobs of a killed script run to their end
    prctl = None


def die_with(parent: int) -> None:
    """Has the system kill this process when its parent ends: a killed script leaves no job."""
    if prctl:
        prctl(DIE_WITH_PARENT, signal.SIGKILL)
        if os.getppid() != parent:
            os._exit(1)


class Process(subprocess.Popen):
    """A process whose end is read by `wait4`, which tells its peak memory: its own, or that of a
    child for which it has waited. It begins as a copy of this script, so it has at least the
    script's memory."""

    memory = 0  # bytes
    used = 0.0  # seconds of the processor
    lines: Optional[Lines] = None  # that hear what it prints
    output: Optional[IO[bytes]] = None  # to which what was heard is written

    def poll(self) -> Optional[int]:
        self.hear()
        return self.look(os.WNOHANG)

    def wait(self, timeout: Optional[float] = None) -> int:
        self.look(0)
        return self.returncode

    @property
    def pipe(self) -> Optional[int]:
        """From what is read that which it prints; None if that goes to a file."""
        return opened(self.stdout).fileno() if self.output else None

    def hear(self) -> None:
        """Reads what was printed since the last time, if that goes to a pipe."""
        while self.lines and self.output:
            try:
                piece = os.read(opened(self.stdout).fileno(), 1 << 16)
            except BlockingIOError:
                return
            if not piece:
                self.output.close()
                opened(self.stdout).close()
                self.output = None
                return
            self.output.write(piece)
            self.lines.hear(piece)

    def look(self, how: int) -> Optional[int]:
        if self.returncode is not None:
            return self.returncode
        try:
            ended, status, used = os.wait4(self.pid, how)
        except ChildProcessError:  # a signal came while it was waited for
            self.returncode = 0
            return 0
        if ended:
            self.hear()
            is_killed = os.WIFSIGNALED(status)
            self.returncode = -os.WTERMSIG(status) if is_killed else os.WEXITSTATUS(status)
            self.memory = used.ru_maxrss * UNIT
            self.used = used.ru_utime + used.ru_stime
        return self.returncode


def start(command: Command, **more: Any) -> Process:
    """Starts a command in a process group of its own, so that it can be ended with its children."""
    parent = os.getpid()
    more = {"stdin": subprocess.DEVNULL, "stderr": subprocess.STDOUT, "start_new_session": True,
            "preexec_fn": lambda: die_with(parent), **more}
    if command.lines is None:
        with command.output.open("wb") as output:
            return Process(command.words, stdout=output, **more)
    process = Process(command.words, stdout=subprocess.PIPE, **more)
    os.set_blocking(opened(process.stdout).fileno(), False)
    process.lines, process.output = command.lines, command.output.open("wb", buffering=0)
    return process


def opened(pipe: Optional[IO[Any]]) -> IO[Any]:
    """A pipe of a process that was started with it."""
    assert pipe is not None
    return pipe


def opens(pipe: Path) -> bool:
    """Opens a FIFO for writing and closes it, if it is open for reading: a reader whose writer has
    ended without opening the FIFO then reads nothing, and does not wait any longer."""
    try:
        os.close(os.open(str(pipe), os.O_WRONLY | os.O_NONBLOCK))
    except OSError:
        return False
    return True


READ = 20  # the status of a pair whose reader has ended with 0
REFUSED = "refused"  # that of a pair whose reader has ended with another status


class Pair:
    """A command and the reader of its FIFO, used as one process. Neither waits for the other after
    that has ended. If the reader ends with 0 the status is READ, whatever the writer's is."""

    def __init__(self, command: Command) -> None:
        assert command.reader is not None
        self.pipe = command.reader.pipe
        self.reader = start(command.reader.command)
        try:
            self.writer = start(command)
        except OSError:
            kill(self.reader)
            raise

    def poll(self) -> Union[int, str, None]:
        written, read = self.writer.poll(), self.reader.poll()
        if read == 0:
            return READ
        if read is not None and written in (None, READ, -signal.SIGPIPE):
            return REFUSED
        if written == READ and self.pipe.is_fifo():
            opens(self.pipe)
            return None
        return written

    @property
    def memory(self) -> int:
        return max(self.writer.memory, self.reader.memory)

    def kill(self) -> None:
        kill(self.writer)
        kill(self.reader)


def status_of(words: Sequence[Word], output: Path, errors: Optional[Path] = None) -> int:
    """Runs a short command, which ends with this process. Its standard output goes to one file, and
    its standard error to another."""
    parent = os.getpid()
    with output.open("wb") as file, (errors or Path(os.devnull)).open("wb") as told:
        return subprocess.call(words, stdin=subprocess.DEVNULL, stdout=file, stderr=told,
                               preexec_fn=lambda: die_with(parent))


def kill(process: Union[subprocess.Popen, Pair]) -> None:
    if isinstance(process, Pair):
        process.kill()
        return
    try:
        os.killpg(process.pid, signal.SIGKILL)
    except ProcessLookupError:
        pass
    process.wait()


def output_of(words: Sequence[Word]) -> Tuple[int, str]:
    done = subprocess.run(words, stdin=subprocess.DEVNULL, stdout=subprocess.PIPE,
                          stderr=subprocess.STDOUT)
    return done.returncode, done.stdout.decode("ascii", "replace")


class Bell:
    """A wait that SIGCHLD ends: the script does not poll its processes."""

    def __init__(self) -> None:
        self.read, write = os.pipe()
        os.set_blocking(self.read, False)
        os.set_blocking(write, False)
        signal.signal(signal.SIGCHLD, lambda *_: None)
        signal.set_wakeup_fd(write, warn_on_full_buffer=False)

    def wait(self, seconds: float, pipes: Sequence[int] = ()) -> None:
        """Waits so long at the most, or until there is something to be read from a pipe."""
        if self.read in select.select([self.read, *pipes], [], [], max(0, seconds))[0]:
            os.read(self.read, 1 << 16)
