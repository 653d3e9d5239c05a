"""The job of a leaf, or of a block of leaves.

A job is a generator: it yields each command that is to be run, and is sent its status. So one loop
runs many jobs at a time, and a process that an engine has started runs the same job alone.
"""
import json
import os
import shutil
import socket
import tempfile
import time
from dataclasses import asdict, dataclass, replace
from pathlib import Path
from typing import (Any, Dict, Generator, Iterator, List, NamedTuple, Optional, Sequence, Tuple,
                    Union)

from explanations.words import of_foreign_proof
from leaf_jobs import endings
from leaf_jobs.closings import Shape, scan, shape
from leaf_jobs.files import (Cube, Folder, answer_of, block_of, last_line, log_of, name_of, packed,
                             publish, receipt_of)
from leaf_jobs.processes import (REFUSED, Command, Lines, Pair, Process, Reader, Word, kill,
                                 start)

CLOSED, MODEL, LIMIT, FAILED = "closed", "model", "limit", "failed"  # how a job ends
ENDED = "ended"  # before it had found anything, since others had or the script was ended
LATE = "late"  # the status of a command that was killed since its time was up
STOPPED = "stopped"  # that of a search which was killed since the run ends

PLACE = "leaves"  # the file that tells which leaves a block has, and where its job writes
ENDS = "ends"  # the file that tells how the searches of a block have ended

Status = Union[int, str, None]  # of a command: a number, or why there is none
Search = Generator[Command, Status, str]


class Turn(NamedTuple):
    """How the search under one leaf of a block has ended, and when."""

    outcome: str  # CLOSED or LIMIT
    end: float


class End(NamedTuple):
    """How a job has ended."""

    outcome: str
    note: str  # why, if it has failed
    bytes: int  # of its log
    shape: Shape = Shape()
    turns: Tuple[Turn, ...] = ()  # of the first leaves of a block, as far as they are known


Steps = Generator[Command, Status, End]


@dataclass(frozen=True)
class Leaf:
    """What one job searches: a leaf, or a block of neighbours."""

    cube: Cube
    tree: str  # the file of the tree in which it stands
    place: int  # and where in it, from 1
    limited: bool  # whether it may be left at the limit
    behind: Tuple[Cube, ...] = ()  # the other leaves of the block, which come after it in the tree

    @property
    def cubes(self) -> Tuple[Cube, ...]:
        return (self.cube, *self.behind)

    def is_whole(self) -> bool:
        """Whether it is the only leaf of a tree of no levels, and searched until it is decided."""
        return not self.cube and not self.limited

    def words(self, folder: Folder) -> List[Word]:
        last = ["--to", str(self.place + len(self.behind))] if self.behind else []
        return ["--cubes", folder.at(self.tree), "--leaf", str(self.place), *last]


@dataclass
class Plan:
    """What every job has to know; `plan.json` has it for jobs that run elsewhere."""

    program: str
    input: str
    solver: Optional[List[List[str]]] = None  # the commands of another solver
    limit: Optional[int] = None
    seconds: Optional[int] = None
    block_solver: Optional[List[str]] = None  # the command of another solver for a block
    split: str = ""  # the options by which the first tree was made
    compress: bool = False  # whether logs are kept packed
    pipe: bool = False  # whether a solver's proof goes to `lift` by a FIFO
    scratch: Optional[str] = None  # where a job writes, if not in the folder
    receipts: bool = False  # whether a job checks its own log, and leaves a receipt
    drops_logs: bool = False  # whether a log is removed when its receipt stands
    rechecks: bool = False  # whether only receipts are made, of logs, and nothing is searched
    large: bool = False  # whether the formula's header asks for `--large`
    binary: bool = False  # whether the joined proof is in binary form
    workers: int = 0  # of a cell; 0: each leaf is a job

    def limits(self) -> List[str]:
        """The word for the limits on the formula."""
        return ["--large"] if self.large else []

    def kind(self) -> str:
        """The kind of files that close a leaf."""
        return "receipts" if self.receipts else "logs"

    def closing(self, *cubes: Cube) -> str:
        return receipt_of(*cubes) if self.receipts else log_of(*cubes)


@dataclass(frozen=True)
class Record:
    """What a job tells of itself."""

    cube: Cube
    outcome: str
    note: str
    begin: float
    end: float
    host: str
    bytes: int  # of its log
    memory: int = 0  # the most that one of its processes had, in bytes
    tree: str = ""
    behind: Tuple[Cube, ...] = ()  # the other leaves of a block
    lemmas: int = 0  # of its log
    parts: Tuple[int, ...] = ()  # the bytes of each leaf of a block in its log, before packing
    turns: Tuple[Turn, ...] = ()  # of the first leaves of a block, as far as they are known
    of: int = 1  # the leaves of the job of which this is a share

    @property
    def cubes(self) -> Tuple[Cube, ...]:
        return (self.cube, *self.behind)

    def shares(self) -> Iterator["Record"]:
        """A record for each leaf of a block."""
        if not self.behind:
            return iter((self,))
        return self.measured() if self.turns else self.estimated()

    def measured(self) -> Iterator["Record"]:
        """The leaves that were searched, with their own times, and the one whose search was ended
        with the job."""
        parts, begin = self.parts_of_log(), self.begin
        last = Turn(ENDED if self.outcome == LIMIT else self.outcome, self.end)
        for cube, turn in zip(self.cubes, self.turns + (last,)):
            size = next(parts, 0) if turn.outcome == CLOSED else 0
            yield replace(self, cube=cube, behind=(), outcome=turn.outcome, begin=begin,
                          end=turn.end, bytes=size, lemmas=0, parts=(), turns=(turn,),
                          of=len(self.cubes))
            begin = turn.end

    def parts_of_log(self) -> Iterator[int]:
        """The bytes of each closed leaf in the log, as it is kept."""
        done, whole = 0, max(1, sum(self.parts))
        for part in self.parts:
            done += part
            yield self.bytes * done // whole - self.bytes * (done - part) // whole

    def estimated(self) -> Iterator["Record"]:
        """All leaves: the part of the log of each is known, and its time is taken for the same part
        of the job's."""
        count = len(self.cubes)
        is_known = len(self.parts) == count and sum(self.parts) > 0
        parts = self.parts if is_known else (1,) * count
        begin, done, whole = self.begin, 0, sum(parts)
        for cube, part in zip(self.cubes, parts):
            done += part
            end = self.begin + (self.end - self.begin) * done / whole
            size = self.bytes * done // whole - self.bytes * (done - part) // whole
            yield replace(self, cube=cube, behind=(), begin=begin, end=end, bytes=size,
                          lemmas=0, parts=(), of=count)
            begin = end


class Failed(Exception):
    """Why a job has brought nothing."""


def conquer_leaf(folder: Folder, plan: Plan, leaf: Leaf) -> Steps:
    """A leaf's job. Publishes what it brings, and returns how it ended."""
    here = folder.at("scratch", "%s.%d" % (name_of(*leaf.cubes), os.getpid()))
    here.mkdir(parents=True, exist_ok=True)
    near, note, size, made, lines = here, "", 0, Shape(), Lines()
    try:
        if plan.scratch:
            near = Path(tempfile.mkdtemp(prefix="conquer.", dir=plan.scratch))
        if plan.receipts and folder.has(log_of(leaf.cube)):  # of a start without receipts
            yield from acknowledge(folder, plan, leaf.tree, log_of(leaf.cube), near)
            return End(CLOSED, "", 0)
        if leaf.behind:
            (here / PLACE).write_text(json.dumps([leaf.cubes, leaf.place, str(near)]))
        try:
            outcome = yield from searched(folder, plan, leaf, near, lines)
        except Failed as why:  # the leaves that a block has closed before are kept
            outcome, note = FAILED, str(why)
        closed = closed_leaves(plan, leaf, outcome, near)
        if closed:
            log, place = near / "log", folder.at(log_of(*leaf.cubes))
            made = shape(log, closed)
            if leaf.behind:  # before the log, which is of no use without it
                folder.write(block_of(log_of(*leaf.cubes)), lines_of(closed))
            if plan.receipts:
                yield from receipt(plan, folder.at(leaf.tree), log, near)
                publish(brought(near / "receipt", here), folder.at(receipt_of(*leaf.cubes)))
            if plan.compress:
                yield from pack(log, near / "packing")
                log, place = packed(log), packed(place)
            size = log.stat().st_size
            if not plan.drops_logs:
                publish(brought(log, here), place)
        elif outcome == MODEL:
            publish(brought(near / "answer", here), folder.at(answer_of(leaf.cube)))
    except (Failed, OSError) as why:
        outcome, note = FAILED, str(why)
    finally:
        for place in (near, here):
            shutil.rmtree(str(place), ignore_errors=True)
    return End(outcome, note, size, made, tuple(turns_of(leaf, lines)))


def closed_leaves(plan: Plan, leaf: Leaf, outcome: str, near: Path) -> List[Cube]:
    """The leaves that a job has closed, also if it was ended or has failed."""
    if outcome == CLOSED:
        return list(leaf.cubes)
    if outcome == MODEL or not leaf.behind or not (near / ENDS).exists():
        return []
    told = told_closed(leaf.cubes, leaf.place, near / ENDS)
    if plan.solver is None:
        return told[:cut_log(near / "log", told)]
    return told if outcome == LIMIT else []


def told_closed(cubes: Sequence[Cube], place: int, told: Path) -> List[Cube]:
    """The leaves of a block that the program has told closed. The first one has this place."""
    lines = set(told.read_text("ascii", "replace").split("\n"))
    return [cube for place, cube in enumerate(cubes, place)
            if "c leaf %d closed" % place in lines]


def cut_log(log: Path, cubes: Sequence[Cube]) -> int:
    """Cuts a log that has grown after the last of these leaves that it closes, whatever stands
    behind that. Answers how many of them it closes, from the first on."""
    ends = scan(log, cubes).ends if log.exists() else []
    if ends:
        os.truncate(str(log), ends[-1])
    return len(ends)


def turns_of(leaf: Leaf, lines: Lines) -> Iterator[Turn]:
    """How the searches under the leaves of a block have ended, as far as it was told."""
    for place in range(leaf.place, leaf.place + len(leaf.cubes)):
        ends = [Turn(how, lines.moments[line]) for how in (CLOSED, LIMIT)
                for line in ["c leaf %d %s" % (place, how)] if line in lines.moments]
        if not ends:
            return
        yield ends[0]


def keep_grown(folder: Folder) -> List[str]:
    """Keeps what the blocks have closed whose jobs a script had when it was killed. Answers the
    names of their logs."""
    kept = []
    for file in sorted(folder.at("scratch").glob("*/" + PLACE)):
        try:
            listed, place, near = json.loads(file.read_text())
            cubes = [tuple(map(int, cube)) for cube in listed]
            log, name = Path(near) / "log", log_of(*cubes)
            told = told_closed(cubes, place, Path(near) / ENDS)
            closed = told[:cut_log(log, told)]
            if closed and not folder.has(name):
                folder.write(block_of(name), lines_of(closed))
                publish(brought(log, file.parent), folder.at(name))
                kept.append(name)
            shutil.rmtree(near)
        except (OSError, ValueError, TypeError):  # it had closed none, or its files are spoilt
            continue
    return kept


def lines_of(cubes: Sequence[Cube]) -> str:
    return "".join("a %s0\n" % "".join("%d " % literal for literal in cube) for cube in cubes)


def brought(file: Path, here: Path) -> Path:
    """The file on the disk of the run's folder, to which it is copied from a node's own."""
    if file.parent == here:
        return file
    return Path(shutil.copyfile(str(file), str(here / file.name)))


def pack(log: Path, output: Path) -> Generator[Command, Status, None]:
    """Packs a log, to its name with the suffix `.zst`."""
    status = yield Command(["zstd", "-q", "-1", log, "-o", packed(log)], output)
    if status != 0:
        raise Failed("zstd ends with %s: %s" % (status, last_line(output)))


def receipt(plan: Plan, tree: Path, log: Path, near: Path) -> Generator[Command, Status, None]:
    """Has a log checked, and a receipt made of it."""
    words: List[Word] = [plan.program, "receipt", "--explain", "--cubes", tree, plan.input, log,
                         near / "receipt"]
    status = yield Command(words, near / "told")
    if status != 0:
        raise Failed("receipt ends with %s: %s" % (status, last_line(near / "told")))


def acknowledge(folder: Folder, plan: Plan, tree: str, name: str, near: Path) -> Generator[
        Command, Status, None]:
    """Makes the receipt of a log that stands. If none can be made the log is set aside, so that its
    leaf is run again."""
    log = folder.at(name)
    if folder.is_packed(name):
        log = near / "log"
        status = yield Command(["zstd", "-q", "-d", packed(folder.at(name)), "-o", log],
                               near / "unpacking")
        if status != 0:
            folder.set_aside(name)
            raise Failed("zstd ends with %s: %s" % (status, last_line(near / "unpacking")))
    try:
        yield from receipt(plan, folder.at(tree), log, near)
    except Failed:
        if not plan.rechecks:
            folder.set_aside(name)
        raise
    place = folder.at("receipts", Path(name).stem)
    here = folder.at("scratch", "receipt.%s.%d" % (place.name, os.getpid()))
    publish(Path(shutil.copyfile(str(near / "receipt"), str(here))), place)


def read_record(path: Path) -> Optional[Record]:
    try:
        told: Dict[str, Any] = json.loads(path.read_text())
        told["cube"] = tuple(told["cube"])
        told["behind"] = tuple(map(tuple, told.get("behind", ())))
        told["parts"] = tuple(told.get("parts", ()))
        told["turns"] = tuple(Turn(*turn) for turn in told.get("turns", ()))
        return Record(**told)
    except (OSError, ValueError, TypeError, KeyError):  # a crash has spoiled it
        return None


class Records:
    """The records of a folder, each of which is read once."""

    def __init__(self, folder: Folder) -> None:
        self.folder = folder
        self.read: Dict[str, Optional[Record]] = {}

    def all(self, mark: str = "") -> List[Record]:
        """The records whose names have a mark, in the order in which their jobs began."""
        names = [name for name in self.folder.names("records") if mark in name]
        for name in names:
            if name not in self.read:
                self.read[name] = read_record(self.folder.at(name))
        found = [record for record in map(self.read.get, names) if record]
        return sorted(found, key=lambda record: record.begin)


def searched(folder: Folder, plan: Plan, leaf: Leaf, near: Path, lines: Lines) -> Search:
    """The search under a leaf, or under the leaves of a block: how it has ended. What our own
    prints of a block is heard line by line."""
    words = leaf.words(folder)
    if plan.solver is None and leaf.is_whole():
        return by_decide(plan, near)
    if plan.solver is None:
        return by_refute(plan, words, near, leaf.limited, lines if leaf.behind else None)
    if leaf.behind:
        assert plan.block_solver is not None  # else a job has one leaf
        tree = folder.at(leaf.tree)
        return by_block_solver(plan, plan.block_solver, words, tree, leaf.cubes, near)
    return by_solver(plan, plan.solver, words, near, leaf.limited)


def by_decide(plan: Plan, here: Path) -> Search:
    """The program's own search of the whole formula. Its proof is a log that closes the only leaf."""
    command: List[Word] = [plan.program, "decide", *plan.limits(), plan.input, here / "log"]
    status = yield Command(command, here / "answer")
    if status not in (10, 20):
        raise Failed("decide ends with %s: %s" % (status, last_line(here / "answer")))
    return CLOSED if status == 20 else MODEL


def by_refute(plan: Plan, words: List[Word], here: Path, limited: bool,
              lines: Optional[Lines]) -> Search:
    """The program's own search. That of a block writes the part of each leaf as it closes."""
    limit = ["--limit", str(plan.limit)] if limited and plan.limit else []
    grow = ["--grow"] if lines else []
    command = [plan.program, "refute", *plan.limits(), *words, *grow, *limit, plan.input,
               here / "log"]
    seconds, output = plan.seconds if limited else None, here / (ENDS if lines else "answer")
    status = yield Command(command, output, seconds, searches=True, lines=lines)
    if status == STOPPED:
        return LIMIT if lines and lines.moments else ENDED
    if status == LATE or (status == 0 and limit):
        return LIMIT
    if status not in (10, 20):
        raise Failed("refute ends with %s: %s" % (status, last_line(output)))
    if status == 10 and lines:
        keep_values(output, here / "answer")
    return CLOSED if status == 20 else MODEL


def by_solver(plan: Plan, solver: List[List[str]], words: List[Word], here: Path,
              limited: bool) -> Search:
    """Another solver. `lift` tests its proof, and `join` its assignment."""
    cnf, out, lrat = here / "cnf", here / "out", here / "lrat"
    status = yield Command([plan.program, "leaf", *plan.limits(), *words, plan.input], cnf)
    if status != 0:
        raise Failed("leaf ends with %s: %s" % (status, last_line(cnf)))
    drat = here / "drat"
    files = {"{cnf}": str(cnf), "{lrat}": str(lrat), "{drat}": str(drat)}
    search, *translate = [[filled(word, files) for word in command] for command in solver]
    lift = [plan.program, "lift", *plan.limits(), "--explain", *words, plan.input, lrat,
            here / "log"]
    reader, lifted = None, here / "lifted"
    if plan.pipe:
        os.mkfifo(str(lrat))
        reader = Reader(Command(lift, lifted), lrat)
    seconds = plan.seconds if limited else None
    status = yield Command(search, out, seconds, reader, searches=True)
    if status == STOPPED:
        return ENDED
    if status == LATE or (status == 0 and limited):
        return LIMIT
    if status == REFUSED:
        raise Failed("lift refuses what came by a pipe: " + why_not_lifted(lifted, lrat))
    if status == 10:
        keep_values(out, here / "answer")
        return MODEL
    if status != 20:
        raise Failed("the solver ends with %s: %s" % (status, last_line(out)))
    if lrat.is_fifo():
        return CLOSED
    for command in translate:
        yield Command(command, out)
    if writes_drat(solver):
        yield from elaborate(plan, cnf, drat, lrat, out)
    # Some solvers write no proof if units alone refute the leaf; `lift` takes an empty one.
    lrat.open("ab").close()
    status = yield Command(lift, lifted)
    if status != 0:
        raise Failed("lift ends with %s: %s" % (status, why_not_lifted(lifted, lrat)))
    return CLOSED


def writes_drat(solver: Sequence[Sequence[str]]) -> bool:
    """Whether the commands of a solver leave DRAT, and no LRAT."""
    line = " ".join(word for command in solver for word in command)
    return "{drat}" in line and "{lrat}" not in line


def elaborate(plan: Plan, cnf: Path, drat: Path, lrat: Path,
              out: Path) -> Generator[Command, Status, None]:
    """Makes LRAT of a solver's DRAT, if there is any."""
    if not drat.exists() or drat.stat().st_size == 0:
        return
    status = yield Command([plan.program, "elaborate", *plan.limits(), cnf, drat, lrat], out)
    if status != 0:
        raise Failed("elaborate ends with %s: %s" % (status, last_line(out)))


def by_block_solver(plan: Plan, solver: List[str], words: List[Word], tree: Path,
                    cubes: Sequence[Cube], here: Path) -> Search:
    """Another solver, in one process for all leaves of a block: what it learns under one leaf it
    uses under the next. Its input has the formula's clauses, of the tree file, and the block's
    cubes."""
    icnf, out, lidrup, lifted = here / "icnf", here / "out", here / "lidrup", here / "lifted"
    status = yield Command(["sed", "/^a /d", tree], icnf)
    if status != 0:
        raise Failed("sed ends with %s: %s" % (status, last_line(icnf)))
    with icnf.open("a") as file:
        file.write(lines_of(cubes))
    files = {"{icnf}": str(icnf), "{lidrup}": str(lidrup)}
    status = yield Command([filled(word, files) for word in solver], out, searches=True)
    if status == 10:
        keep_values(out, here / "answer")
        return MODEL
    is_stopped = status == STOPPED
    if is_stopped:
        cut_to_lines(lidrup)
    elif status != 20:
        raise Failed("the solver ends with %s: %s" % (status, last_line(out)))
    lift = [plan.program, "lift", *plan.limits(), "--explain", "--lidrup", *words, plan.input,
            lidrup, here / "log"]
    status = yield Command(lift, lifted)
    if is_stopped:  # the leaves before the present one are closed
        os.replace(lifted, here / ENDS)
        return LIMIT if status == 0 else ENDED
    if status == 0:
        raise Failed("what the solver has written leaves a leaf of its block open")
    if status != 20:
        raise Failed("lift ends with %s: %s" % (status, why_not_lifted(lifted, lidrup)))
    return CLOSED


def cut_to_lines(text: Path) -> None:
    """Takes away what stands after the last end of a line."""
    with text.open("ab+") as file:
        size = file.tell()
        file.seek(max(0, size - (1 << 20)))
        file.truncate(size - len(file.read().rpartition(b"\n")[2]))


def why_not_lifted(lifted: Path, lrat: Path) -> str:
    line, *why = of_foreign_proof(lifted.read_text("utf-8", "replace"), str(lrat))
    return ". ".join([line] + [" ".join(why)] * bool(why))


def filled(word: str, files: Dict[str, str]) -> str:
    for mark, path in files.items():
        word = word.replace(mark, path)
    return word


def keep_values(output: Path, answer: Path) -> None:
    """The `v` lines alone, since `join` tells an answer from a log by its first byte."""
    with output.open("rb") as lines, answer.open("wb") as values:
        values.writelines(line for line in lines if line.startswith(b"v"))


class Job:
    """A job that runs: its command, and the moment at which that is killed. It writes a record,
    however it ends."""

    def __init__(self, folder: Folder, plan: Plan, leaf: Leaf, mark: str) -> None:
        self.folder, self.leaf, self.mark = folder, leaf, mark
        self.steps = conquer_leaf(folder, plan, leaf)
        self.process: Union[Process, Pair, None] = None
        self.searches = False  # whether the process that runs is a search
        self.result: Optional[End] = None
        self.memory, self.end = 0, float("inf")
        self.began, self.begin = time.monotonic(), time.time()
        self.next(None)

    def next(self, status: Status) -> None:
        """Goes on after a command has ended. What it has brought is in its place before a signal is
        looked at."""
        with endings.whole():
            self.go_on(status)

    def go_on(self, status: Status) -> None:
        try:
            command = self.steps.send(status)
        except StopIteration as stop:
            end: End = stop.value
            self.process, self.result = None, end
            self.record(end)
            return
        self.end = time.monotonic() + (command.seconds or float("inf"))
        self.searches = command.searches
        try:
            self.process = Pair(command) if command.reader else start(command)
        except OSError as why:
            command.output.write_text(str(why))
            self.go_on("no start")

    def ended(self) -> bool:
        """Whether the job has ended. If its command has, the next one is started."""
        while self.process:
            status = self.process.poll()
            late = status is None and time.monotonic() >= self.end
            if status is None and not late:
                return False
            self.kill(self.process)  # with what a command has left of its group
            self.next(LATE if late else status)
        return True

    def pipes(self) -> List[int]:
        """From what is read that which its command prints, if that is heard line by line."""
        pipe = self.process.pipe if isinstance(self.process, Process) else None
        return [] if pipe is None else [pipe]

    def turns(self) -> List[Turn]:
        """The searches of its block that have ended, while it runs."""
        heard = self.process.lines if isinstance(self.process, Process) else None
        return list(turns_of(self.leaf, heard)) if heard else []

    def end_search(self) -> None:
        """Ends its search, if that runs. What the job does then with what was found takes little
        time."""
        if self.process and self.searches:
            self.kill(self.process)
            self.next(STOPPED)

    def kill(self, process: Union[Process, Pair]) -> None:
        kill(process)
        self.memory = max(self.memory, process.memory)

    def stop(self) -> None:
        if self.process:
            self.kill(self.process)
        self.steps.close()
        if self.result:
            return
        try:
            self.record(End(ENDED, "", 0))
        except OSError:  # a record that cannot be written stops no other job from being ended
            pass

    def record(self, end: End) -> None:
        record = Record(self.leaf.cube, end.outcome, end.note, self.begin, time.time(),
                        socket.gethostname(), end.bytes, self.memory, self.leaf.tree,
                        self.leaf.behind, end.shape.lemmas, end.shape.parts, end.turns)
        name = "%s.%s.%d" % (name_of(*self.leaf.cubes), self.mark, self.begin * 1000)
        self.folder.record(name, json.dumps(asdict(record)))
