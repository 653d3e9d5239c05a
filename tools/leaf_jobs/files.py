"""The folder that has the state of a run. Each file in it is there whole or not at all.

    trees/N.icnf     the splitting tree; a leaf that is cut in two makes a new file
    whole.icnf       a tree of no levels, for the search of the whole formula
    logs/LEAF.lrat   a log that closes a leaf; LEAF.lrat.zst if it is packed
    blocks/LEAF      the leaves that the log of a block closes
    receipts/LEAF    a receipt of a log, which its job has checked
    before/LEAF      the old receipts while they are made anew
    answers/LEAF     `v` lines that a job has brought
    records/..       how long each job took, and how it ended, for the report
    rounds/N         the leaves of a round of an engine; never changed, since queued jobs read it
    tasks/A_T.out    the output of task T of Slurm's array A
    formula.cnf      the formula, unpacked, if INPUT is packed
    plan.json        the program, the solver and the limits, for jobs that run elsewhere
    report.html      what came of it, with tree.svg, timeline.svg and leaves.csv
    scratch/         what is unfinished; each start empties it
"""
import fcntl
import hashlib
import os
import shutil
import subprocess
import time
from functools import partial
from pathlib import Path
from typing import FrozenSet, List, Optional, Tuple

from explanations.words import FOLDER_IN_USE
from leaf_jobs.processes import opened

Cube = Tuple[int, ...]  # the literals of a path of the splitting tree
LOG, RECEIPT = "logs/%s.lrat", "receipts/%s"  # of a leaf, or a block, with this name
PACKED = ".zst"  # the suffix of a log that is packed
END = 1 << 14  # bytes at the end of a log in which its last lemma is looked for


class Fault(Exception):
    """A line that ends the run with status 1, and sentences that tell why."""

    def __init__(self, line: str, *reasons: str) -> None:
        super().__init__(line)
        self.reasons = list(reasons)


def publish(part: Path, path: Path) -> None:
    """Moves a finished file to its place, so that no crash leaves a piece of it there."""
    with part.open("rb") as file:
        os.fsync(file.fileno())
    part.replace(path)
    sync(path.parent)


def digest(path: Path) -> str:
    """The SHA-256 of a file."""
    found = hashlib.sha256()
    with path.open("rb") as file:
        for piece in iter(partial(file.read, 1 << 20), b""):
            found.update(piece)
    return found.hexdigest()


def sync(folder: Path) -> None:
    handle = os.open(folder, os.O_RDONLY)
    try:
        os.fsync(handle)
    finally:
        os.close(handle)


def read_cubes(path: Path) -> List[Cube]:
    """The cubes of a tree that the program has printed: it puts each on a line of its own."""
    try:
        with path.open("rb") as file:
            return [tuple(map(int, line.split()[1:-1])) for line in file if line[:2] == b"a "]
    except ValueError:
        raise Fault("c cannot read cubes")


def last_line(path: Path) -> str:
    """The last line that a command has printed, in which most commands tell why they failed."""
    with path.open("rb") as file:
        file.seek(max(0, path.stat().st_size - 1000))
        lines = file.read().decode("ascii", "replace").split("\n")
    return next((line.strip() for line in reversed(lines) if line.strip()), "nothing printed")


def name_of(cube: Cube, *others: Cube) -> str:
    """The name of a leaf, or that of a block by its first and its last leaf. It is made of cubes,
    since places change when another leaf is cut in two."""
    ends = ("_".join(["", *map(str, end)]) for end in (cube, *others[-1:]))
    name = "leaf" + "_to".join(ends)
    return name if len(name) <= 180 else "leaf_" + hashlib.sha256(name.encode()).hexdigest()


def log_of(*cubes: Cube) -> str:
    return LOG % name_of(*cubes)


def receipt_of(*cubes: Cube) -> str:
    return RECEIPT % name_of(*cubes)


def block_of(name: str) -> str:
    """The file that has the leaves of a block, of the name of its log or receipt."""
    return "blocks/" + Path(name).stem


def answer_of(cube: Cube) -> str:
    return "answers/" + name_of(cube)


def packed(path: Path) -> Path:
    """The path of a log if it is packed."""
    return Path(str(path) + PACKED)


def end_of(path: Path) -> Tuple[bytes, bool]:
    """The last bytes of a log, and whether others stand before them."""
    if path.exists():
        with path.open("rb") as file:
            begin = max(0, path.stat().st_size - END)
            file.seek(begin)
            return file.read(), begin > 0
    end, is_cut = b"", False
    words = ["zstd", "-q", "-dc", str(packed(path))]
    with subprocess.Popen(words, stdout=subprocess.PIPE, stderr=subprocess.DEVNULL) as process:
        for piece in iter(partial(opened(process.stdout).read, 1 << 20), b""):
            end += piece
            is_cut = is_cut or len(end) > END
            end = end[-END:]
    return end, is_cut


def closed_by(path: Path) -> Optional[FrozenSet[int]]:
    """The literals of the cube that the last lemma of a log closes; None if they are not found."""
    try:
        end, is_cut = end_of(path)
    except OSError:
        return None
    lines = [line.split() for line in end.split(b"\n")]
    for words in reversed(lines[1:] if is_cut else lines):
        if len(words) > 1 and words[1] != b"d" and b"0" in words:
            literals = words[1:words.index(b"0")]
            return frozenset(-int(word) for word in literals if word.lstrip(b"-").isdigit())
    return None


def takes(handle: int, lock: int) -> bool:
    try:
        fcntl.flock(handle, lock | fcntl.LOCK_NB)
    except BlockingIOError:
        return False
    return True


class Folder:
    def __init__(self, path: str) -> None:
        self.path = Path(os.path.abspath(path))
        for kind in ("trees", "logs", "blocks", "receipts", "answers", "records", "rounds", "tasks",
                     "scratch"):
            self.at(kind).mkdir(parents=True, exist_ok=True)

    def at(self, *names: str) -> Path:
        return self.path.joinpath(*names)

    def lock(self) -> None:
        """Two runs would do the same work. The lock ends with this process, however it ends."""
        self.held = os.open(self.at("lock"), os.O_WRONLY | os.O_CREAT, 0o644)
        for _ in range(10):  # a job that looks for it, as below, has it for a moment
            if takes(self.held, fcntl.LOCK_EX):
                return
            time.sleep(0.03)
        raise Fault("c folder in use", *FOLDER_IN_USE)

    def is_locked(self) -> bool:
        handle = os.open(self.at("lock"), os.O_RDONLY)
        try:
            return not takes(handle, fcntl.LOCK_SH)
        finally:
            os.close(handle)

    def clean(self) -> None:
        """Removes the unfinished files of earlier starts. A job of a start that was killed may
        still write some, until it is killed too."""
        shutil.rmtree(str(self.at("scratch")), ignore_errors=True)
        self.at("scratch").mkdir(exist_ok=True)

    def write(self, name: str, text: str) -> None:
        part = self.at("scratch", name.replace("/", "."))
        part.write_text(text)
        publish(part, self.at(name))

    def record(self, name: str, text: str) -> None:
        """As `write`, but not synced: a record that a crash spoils costs a colour of the report."""
        part = self.at("scratch", "record." + name)
        part.write_text(text)
        part.replace(self.at("records", name))

    def set_aside(self, name: str) -> None:
        """Moves a file that `join` has refused to `scratch`; the next start removes it."""
        for path in (self.at(name), packed(self.at(name))):
            if os.path.lexists(path):
                path.replace(self.at("scratch", "refused.%d" % time.time_ns()))

    def names(self, kind: str) -> List[str]:
        """The names of files, for `join`, which reads one a line and runs in this folder. A packed
        log has the name without `.zst`."""
        names = {name for name in os.listdir(self.at(kind)) if "\n" not in name}
        if kind == "logs":
            names = {name[:-len(PACKED)] if name.endswith(PACKED) else name for name in names}
        return [kind + "/" + name for name in sorted(names)]

    def has(self, log: str) -> bool:
        return self.at(log).exists() or self.is_packed(log)

    def is_packed(self, log: str) -> bool:
        """Whether a log stands here packed alone."""
        return not os.path.lexists(self.at(log)) and packed(self.at(log)).exists()

    def covered(self, cube: Cube) -> Path:
        """A file that tells jobs elsewhere that another leaf's log closes this one."""
        return self.at("scratch", "covered." + name_of(cube))

    def block(self, name: str) -> List[Cube]:
        """The leaves that a block's log closes; none if it is another log, or is not there."""
        try:
            return read_cubes(self.at(block_of(name))) if self.has(name) else []
        except (OSError, Fault):  # there is no such file, or it is spoilt
            return []

    def newest_tree(self) -> int:
        """The number of the newest tree; 0 if there is none yet."""
        stems = [path.stem for path in self.at("trees").iterdir()]
        return max([0] + [int(stem) for stem in stems if stem.isdigit()])
