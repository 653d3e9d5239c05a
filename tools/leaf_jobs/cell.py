"""A cell: workers that search side by side, and share what they learn by a folder.

Some formulas must not be split, others are ten times as easy under the leaves of a tree, and which
ones is not known before. So most workers search the whole formula, each from another order of its
variables, and the others go through the leaves. Each appends the lemmas that it learns to a log of
its own, offers the short ones, and takes over those of others. A lemma of any worker may close a
leaf, or the formula, for all.

Logs and offers stay when a worker ends, however it ends, and are lent to those that begin later. So
a worker that died is begun again, and a start goes on from what the starts before it have left.

What a worker prints of a leaf or the formula only ends the search. The verdict is that of `weave`,
which makes one proof of all logs, or of `join`, if all leaves were closed and the formula was not.
"""
import collections
import json
import os
import re
import socket
import time
from dataclasses import asdict
from pathlib import Path
from typing import Counter, Iterator, List, Optional, Tuple

from leaf_jobs import endings
from leaf_jobs.files import (Cube, answer_of, block_of, closed_by, last_line, name_of,
                             publish)
from leaf_jobs.leaf import CLOSED, ENDED, FAILED, Record, Records, keep_values, lines_of
from leaf_jobs.mending import cut_before, mend_offers, tidy
from leaf_jobs.processes import Command, Lines, Word, kill, start, status_of
from leaf_jobs.progress import Now, counted
from leaf_jobs.race import WHOLE
from leaf_jobs.run import Run

CELL = "cell"  # of the run's folder
WOVEN = "scratch/woven.lrat"
LENT = "logs/cell.lrat"
PART = 4  # of so many workers one goes through the leaves (docs/dev/measured.md)
TRIES = 3  # how often a worker is begun in one start
ROUNDS = 5  # how often a search is begun anew in one start since `weave` has found no proof
LEAF = re.compile("c leaf ([0-9]+) closed")
FAULT = re.compile("c log ([0-9A-Za-z]+) line ([0-9]+) (?:import fails|refused|does not follow)")
NOTHING = ("c closes nothing", "c too many lemmas", "c logs have changed", "c cannot read proof")

GRACE, SHARE = 5, 0.05  # seconds after the last leaf is closed, and the part of the search's
MEMORY = 12  # times the bytes of the formula, at most, that a worker has when it begins to search
MORE = 100 << 20  # and bytes for what it learns

Answer = Tuple[int, List[str]]  # a status, and lines


def room(formula: str) -> float:
    """For how many workers there is memory, if the system tells how much there is."""
    try:
        free = re.search("MemAvailable: *([0-9]+) kB", Path("/proc/meminfo").read_text())
    except OSError:
        free = None
    size = MEMORY * os.path.getsize(formula) + MORE
    return int(free.group(1)) * 1024 // size if free else float("inf")


class Worker:
    """A process of `share`. place: of the leaf under which it searches; None: the whole formula."""

    def __init__(self, run: Run, number: int, seed: int, place: Optional[int]) -> None:
        self.number, self.place, self.lines = number, place, Lines()
        self.since = time.time()  # it has searched under this leaf
        self.output = run.folder.at("scratch", "worker.%d.%d" % (number, time.time_ns()))
        tree: List[Word] = [] if place is None else ["--cubes", run.folder.at(run.tree),
                                                     "--leaf", str(place)]
        words: List[Word] = [run.plan.program, "share", *run.plan.limits(), *tree, "--seed",
                             str(seed), run.plan.input, run.folder.at(CELL)]
        self.process = start(Command(words, self.output, lines=self.lines))
        self.heard = 0  # how many of its lines

    def told(self) -> Iterator[Tuple[int, float]]:
        """The places of the leaves that it has told closed since it was asked, and when."""
        moments = list(self.lines.moments.items())[self.heard:]
        self.heard += len(moments)
        for line, moment in moments:
            found = LEAF.fullmatch(line)
            if found:
                yield int(found.group(1)), moment

    def pipes(self) -> List[int]:
        return [] if self.process.pipe is None else [self.process.pipe]


class Cell:
    def __init__(self, run: Run, jobs: int) -> None:
        self.run, self.jobs = run, jobs
        self.folder, self.plan, self.screen = run.folder, run.plan, run.screen
        self.path = run.folder.at(CELL)
        self.path.mkdir(exist_ok=True)
        split = 0 if len(run.cubes) == 1 else max(1, jobs // PART)
        self.unsplit = jobs - split  # workers on the whole formula
        self.workers: List[Worker] = []
        self.tries: Counter[int] = collections.Counter()
        self.is_decided = False  # whether a worker tells that the formula is refuted
        self.began, self.end_of_grace = time.monotonic(), float("inf")
        self.faults: List[Tuple[str, int]] = []  # logs that `weave` refuses, from which line on

    def answer(self, is_begun: bool) -> Answer:
        """Goes on with what an earlier start has left, if there is one, and searches until there is
        an answer."""
        found = self.go_on() if is_begun else None
        if not found:
            split = self.jobs - self.unsplit
            leaves = ", %d on %s" % (split, counted(self.run.open(), "leaf", "leaves"))
            self.screen.say("c a cell of %d: %d on the whole formula%s" % (
                self.jobs, self.unsplit, leaves if split else ""))
        for _ in range(ROUNDS):
            if found or not self.may_work():
                break
            self.work()
            found = self.modelled() or self.woven()
        self.run.tell_failures()
        found = found or self.joined()
        if self.folder.at(WOVEN).exists():
            self.folder.at(WOVEN).unlink()
        return found

    def go_on(self) -> Optional[Answer]:
        """The answer that an earlier start has left in the folder."""
        tidy(self.path, self.folder)
        mend_offers(self.path, self.folder)
        records = Records(self.folder).all()
        closed = {record.cube for record in records if record.outcome == CLOSED}
        self.run.done = closed.intersection(self.run.cubes)
        self.run.closed = len(self.run.done)
        self.run.look_for_answers()
        return self.modelled() or self.woven()

    def lend(self) -> None:
        """Makes a log of what an earlier start's logs close, as one of a block, for a run of
        jobs."""
        lent = self.folder.at(LENT)
        since = lent.stat().st_mtime if lent.exists() else 0
        if all(log.stat().st_mtime <= since for log in self.path.glob("*.log")):
            return
        status, lines = self.weave(["--cubes", self.folder.at(self.run.tree)], WOVEN)
        if status in (0, 20):
            self.folder.write(block_of(LENT), lines_of(self.closed_in(lines)))
            publish(self.folder.at(WOVEN), lent)

    def may_work(self) -> bool:
        return any(self.tries[number] < TRIES for number in range(self.jobs))

    def work(self) -> None:
        """Runs workers until one has decided the formula, all leaves are closed, or none is
        left."""
        self.began = time.monotonic()
        try:
            while not self.is_over():
                self.begin_workers()
                if not self.workers:
                    return
                pipes = [pipe for worker in self.workers for pipe in worker.pipes()]
                self.run.bell.wait(min(1, self.rest()), pipes)
                self.gather()
                self.run.tick(self.now())
        finally:
            for worker in self.workers:
                self.end(worker)
            self.workers = []

    def is_over(self) -> bool:
        return self.is_decided or self.run.model or self.rest() <= 0

    def rest(self) -> float:
        """For how many seconds workers may go on. When all leaves are closed one that has heard of
        it refutes the formula in a moment, and then `join` has nothing to do."""
        now = time.monotonic()
        if self.run.open():
            self.end_of_grace = float("inf")
        elif self.end_of_grace == float("inf"):
            self.end_of_grace = now + min(GRACE, SHARE * (now - self.began))
        return self.end_of_grace - now

    def begin_workers(self) -> None:
        """Begins the workers that do not run, except those that have ended too often."""
        if not self.run.open():
            return
        running = {worker.number for worker in self.workers}
        for number in range(self.jobs):
            if number in running or self.tries[number] == TRIES:
                continue
            place = None if number < self.unsplit else self.first_place(number - self.unsplit)
            with endings.whole():  # so that no worker runs that is not listed
                self.workers.append(Worker(self.run, number, 0 if place else number, place))

    def first_place(self, number: int) -> int:
        """The leaf with which a worker begins: the open ones are shared out."""
        run = self.run
        places = [place for place, cube in enumerate(run.cubes, 1) if cube not in run.done]
        return places[number * len(places) // (self.jobs - self.unsplit)]

    def gather(self) -> None:
        """Takes what workers have told, and those that have ended."""
        for worker in list(self.workers):
            status = worker.process.poll()
            self.take_leaves(worker)
            if status is not None:
                self.workers.remove(worker)
                self.ended(worker, status)

    def take_leaves(self, worker: Worker) -> None:
        run = self.run
        for place, moment in worker.told():
            if worker.place is None or not 0 < place <= len(run.cubes):
                continue
            cube = run.cubes[place - 1]
            if cube not in run.done:
                self.record(worker, cube, CLOSED, moment)
                run.done.add(cube)
                run.closed += 1
                run.times.all.append(moment - worker.since)
            worker.place, worker.since = place % len(run.cubes) + 1, moment

    def ended(self, worker: Worker, status: int) -> None:
        """What follows when a worker has ended by itself, or was killed by others."""
        line = last_line(worker.output)
        if status == 10:
            part = self.folder.at("scratch", "answer")
            keep_values(worker.output, part)
            publish(part, self.folder.at(answer_of(())))
            self.run.model = True
        elif status == 20 or line == "c closed by others":
            self.is_decided = True
        else:
            self.tries[worker.number] += 1
            note = "share ends with %s: %s" % (status, line)
            self.run.reasons[note] += 1
            if self.run.reasons[note] == 1:
                self.screen.say("c worker %d failed: %s" % (worker.number + 1, note))
            self.end(worker, FAILED, note)
            return
        self.end(worker, CLOSED if status == 20 else ENDED)

    def end(self, worker: Worker, outcome: str = ENDED, note: str = "") -> None:
        """Ends a worker, if it runs, and writes what is left to be told of it."""
        kill(worker.process)
        self.take_leaves(worker)
        cube = None if worker.place is None else self.run.cubes[worker.place - 1]
        if cube is None or cube not in self.run.done:
            self.record(worker, cube, ENDED if cube and outcome == CLOSED else outcome, time.time(),
                        note)

    def record(self, worker: Worker, cube: Optional[Cube], outcome: str, end: float,
               note: str = "") -> None:
        """Of a leaf, or of the whole formula, for the report."""
        tree = WHOLE.tree if cube is None else self.run.tree
        record = Record(cube or (), outcome, note, worker.since, end, socket.gethostname(), 0,
                        worker.process.memory, tree)
        name = "%s.worker%d.%d" % (name_of(record.cube), worker.number, worker.since * 1000)
        self.folder.record(name, json.dumps(asdict(record)))

    def now(self) -> Now:
        split = [worker for worker in self.workers if worker.place is not None]
        elapsed = [time.time() - worker.since for worker in split]
        return Now(elapsed, races=len(self.workers) - len(split), most=self.jobs)

    def modelled(self) -> Optional[Answer]:
        """The answer of `join`, if there is an assignment that it takes."""
        if not self.run.model:
            return None
        status, lines = self.run.answer()
        if status != 0:
            return status, lines
        self.run.learn(lines)  # which takes the assignment away
        self.run.model = False
        return None

    def woven(self) -> Optional[Answer]:
        """The verdict of what the logs prove, if they do. What `weave` refuses is cut off, and no
        longer offered."""
        self.screen.progress("c weaving")
        for _ in range(ROUNDS):
            tidy(self.path, self.folder)
            answer = self.woven_whole() or self.woven_leaves()
            if answer or not self.faults:
                return answer
            for name, line in self.faults:
                cut_before(self.path / (name + ".log"), line)
            mend_offers(self.path, self.folder)
        return None

    def woven_whole(self) -> Optional[Answer]:
        """The verdict, if a log seems to refute the whole formula."""
        self.is_decided = False
        if not any(closed_by(log) == frozenset() for log in self.path.glob("*.log")):
            return None
        form: List[Word] = ["--binary"] if self.plan.binary and self.run.proof else []
        status, lines = self.weave(form, self.run.proof or WOVEN)
        return (status, lines) if status == 20 else None

    def woven_leaves(self) -> Optional[Answer]:
        """The verdict, if the logs close all leaves, or why none can be had. Else it is known what
        they close."""
        run = self.run
        status, lines = self.weave(["--cubes", self.folder.at(run.tree)], WOVEN)
        if status not in (0, 20) and not self.faults and lines[-1] not in NOTHING:
            return status, lines
        run.done = set(self.closed_in(lines))
        answer = self.joined() if status == 20 else None
        return answer if answer and answer[0] == 20 else None

    def closed_in(self, lines: List[str]) -> List[Cube]:
        """The leaves that lines tell closed."""
        return [self.run.cubes[int(found.group(1)) - 1]
                for found in map(LEAF.fullmatch, lines) if found]

    def weave(self, words: List[Word], log: str) -> Answer:
        """Runs `weave`. Notes which lines of logs it refuses."""
        output, errors = self.folder.at("scratch", "joined"), self.folder.at("scratch", "errors")
        words = [self.plan.program, "weave", *self.plan.limits(), "--explain", *words,
                 self.plan.input, self.path, self.folder.at(log)]
        statuses = (status_of(words, output, errors) for _ in range(TRIES))
        status = next((status for status in statuses if status >= 0), -1)  # below 0: it was killed
        lines = output.read_text("ascii", "replace").split("\n")[:-1]
        lines = lines or ["c weave ends with %d" % status]
        faults = list(filter(None, map(FAULT.fullmatch, lines)))
        self.faults = [(found.group(1), int(found.group(2))) for found in faults]
        for found in faults:
            self.screen.say(found.group(0))
        return status, lines

    def joined(self) -> Answer:
        """The answer of `join`: the proof of what was woven, or which leaves are open."""
        names = [WOVEN] if self.folder.at(WOVEN).exists() else []
        for _ in range(TRIES):
            self.run.end_join()
            status, lines = self.run.begin_join(*names).answer(self.run.bell)
            if status >= 0:  # else it was killed
                break
        return status, lines
