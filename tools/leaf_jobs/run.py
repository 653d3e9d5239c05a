"""The leaves of a run: which wait, run and are closed; and `join` or `cover`, which decide."""
import collections
import os
import subprocess
import time
from pathlib import Path
from typing import (Callable, Counter, DefaultDict, Deque, Dict, FrozenSet, List, Optional,
                    Sequence, Set, Tuple)

from leaf_jobs.files import (LOG, RECEIPT, Cube, Folder, answer_of, closed_by, log_of, name_of,
                             publish, read_cubes)
from leaf_jobs.leaf import CLOSED, LIMIT, MODEL, Leaf, Plan
from leaf_jobs.processes import Bell, Command, Word, kill, opened, output_of, start, status_of
from leaf_jobs.progress import Now, Times, line, told
from leaf_jobs.screen import Screen
from leaf_jobs.unpacker import Unpacker

TRIES = 3  # how often a leaf is run in one start before it is given up
HOPELESS = 20  # how many jobs may fail before any leaf is closed
CALM = 5  # seconds without a cut after which a join is begun anew, at first
ALL_COVERED, NOT_COVERED = 2, 3  # statuses of a run: what `cover` prints


class FileReader:
    """A command of the program that reads the files whose names it reads from standard input."""

    names: List[str]

    def refused(self, lines: List[str]) -> Tuple[List[str], List[int]]:
        """The names of the files that it refuses, and the places of the leaves that none closes."""
        words = [line.split() for line in lines]
        files = [w for w in words if w[:2] == ["c", "file"] and w[3:5] != ["closes", "nothing"]]
        missing = [w for w in words if w[:2] == ["c", "leaf"] and w[3:] == ["missing"]]
        return [self.names[int(w[2]) - 1] for w in files], [int(w[2]) for w in missing]


class Cover(FileReader):
    """The program's `cover`, which reads all receipts."""

    def __init__(self, folder: Folder, plan: Plan, tree: str) -> None:
        self.folder, self.names = folder, folder.names("receipts")
        self.words = [plan.program, "cover", "--explain", "--cubes", tree, plan.input, "-"]

    def answer(self) -> Tuple[int, List[str]]:
        """ALL_COVERED, NOT_COVERED, or its own status; and its lines."""
        output, errors = self.folder.at("scratch", "joined"), self.folder.at("scratch", "errors")
        with output.open("wb") as out, errors.open("wb") as err:
            process = subprocess.Popen(self.words, stdin=subprocess.PIPE, stdout=out, stderr=err,
                                       cwd=str(self.folder.path))
            process.communicate(b"".join(os.fsencode(name) + b"\n" for name in self.names))
        lines = output.read_text(encoding="ascii", errors="replace").split("\n")[:-1]
        told = {"s COVERED": ALL_COVERED, "s NOT COVERED": NOT_COVERED}
        return told.get(lines[-1] if lines else "", process.returncode), lines


class Join(FileReader):
    """The program's `join`, which is sent the names of logs as they come: it reads them while
    leaves still run. For a packed log it is sent the name of a FIFO, and the next name after that
    was read. Without a proof it writes nothing."""

    def __init__(self, folder: Folder, plan: Plan, tree: str, proof: Optional[str] = None) -> None:
        self.output, self.waiting = folder.at("scratch", "joined"), b""
        self.names: List[str] = []
        self.told = 0  # how many of them were sent
        self.folder, self.unpacker = folder, Unpacker(folder)
        self.pipes: Dict[str, str] = {}  # the name of the log that each FIFO has
        form = ["--binary"] if plan.binary else []
        form, written = (["--dry"], []) if proof is None else (form, [proof])
        words = [plan.program, "join", *plan.limits(), "--explain", *form, "--cubes", tree,
                 plan.input, *written, "-"]
        with folder.at("scratch", "errors").open("wb") as errors:
            self.process = start(Command(words, self.output), stdin=subprocess.PIPE, stderr=errors,
                                 cwd=str(folder.path))
        self.input = opened(self.process.stdin)
        os.set_blocking(self.input.fileno(), False)

    def add(self, *names: str) -> None:
        self.names += names

    def next(self) -> bool:
        """Takes the next name that may be sent; answers whether there is one."""
        if self.unpacker.runs() or self.told == len(self.names):
            return False
        name = self.names[self.told]
        self.told += 1
        if self.folder.is_packed(name):
            pipe = "scratch/pipe.%d.%d" % (self.process.pid, self.told)
            self.pipes[pipe] = name
            self.unpacker.begin(name, pipe)
            name = pipe
        self.waiting = os.fsencode(name) + b"\n"
        return True

    def feed(self) -> bool:
        """Sends what the pipe takes without blocking. Answers whether `join` still runs."""
        pipe = self.input.fileno()
        try:
            while self.waiting or self.next():
                self.waiting = self.waiting[os.write(pipe, self.waiting):]
        except BlockingIOError:
            pass
        except BrokenPipeError:  # it has ended
            self.waiting, self.told = b"", len(self.names)
        if self.process.poll() is None:
            return True
        self.unpacker.end()
        return False

    def answer(self, bell: Bell) -> Tuple[int, List[str]]:
        """Its status and lines, after it has read all files."""
        while self.feed() and (self.waiting or self.told < len(self.names)
                               or self.unpacker.runs()):
            bell.wait(0.05)
        self.input.close()
        while self.process.poll() is None:
            self.unpacker.runs()
            bell.wait(0.05 if self.unpacker.left else 1)
        self.unpacker.end()
        text = self.output.read_text(encoding="ascii", errors="replace")
        return self.process.returncode, [self.named(line) for line in text.split("\n")[:-1]]

    def named(self, line: str) -> str:
        """A line of its output, with a log's name in the place of its FIFO's."""
        rest, _, name = line.rpartition(" ")
        return rest + " " + self.pipes[name] if name in self.pipes else line


class Run:
    """The leaves that wait, that run and that are closed. Engines tell it which job has ended."""

    def __init__(self, folder: Folder, plan: Plan, screen: Screen, bell: Bell,
                 proof: Optional[str] = None, sorts: bool = False) -> None:
        self.proof = proof  # the file to which `join` writes it
        self.sorts = sorts  # whether `join` reads logs in the order of names, after the last leaf
        self.covers = plan.receipts and proof is None  # whether the run ends with `cover`
        self.folder, self.plan, self.screen, self.bell = folder, plan, screen, bell
        self.tries: Counter[Cube] = collections.Counter()
        self.reasons: Counter[str] = collections.Counter()  # why jobs have failed, and how often
        self.running: Dict[Tuple[Cube, ...], Leaf] = {}
        self.queue: Deque[Cube] = collections.deque()
        self.unlimited: Set[Cube] = set()  # leaves to be run without a limit
        self.alone: Set[Cube] = set()  # leaves that need logs of their own, as `join` has told
        self.failures, self.closed, self.splits = 0, 0, 0
        self.longest = 0.0  # seconds of a leaf's job
        self.times = Times()  # of the leaves that jobs have closed
        self.halves: Dict[Cube, List[Cube]] = {}  # of leaves that were cut in two
        self.uncut: Set[Cube] = set()  # leaves that cannot be cut
        self.apart: Set[Cube] = set()  # leaves of blocks that were taken apart
        self.patience = CALM  # the seconds without a cut after which a join is begun anew
        self.calm = float("inf")  # the moment at which it is begun
        self.began, self.model = time.monotonic(), False
        self.done: Set[Cube] = set()  # closed by a log of its own, or by another's
        self.by: Dict[Cube, str] = {}  # the name of the log that its own job, or block, has made
        self.covered: Set[Cube] = set()  # closed by another's log alone
        self.renew: Callable[[], None] = lambda: None  # the report, while leaves run
        self.join: Optional[Join] = None
        self.read: Optional[FileReader] = None  # what was asked last
        self.can_split: Optional[bool] = None
        self.take_tree(folder.newest_tree())

    def take_tree(self, number: int) -> None:
        self.number, self.tree = number, "trees/%d.icnf" % number
        self.cubes = read_cubes(self.folder.at(self.tree))
        self.place = {cube: place for place, cube in enumerate(self.cubes, 1)}
        # For each literal the cubes that have it.
        self.having: DefaultDict[int, Set[Cube]] = collections.defaultdict(set)
        for cube in self.cubes:
            for literal in cube:
                self.having[literal].add(cube)

    def begin(self) -> None:
        """Begins a pass over the leaves that have no log."""
        have = set(self.folder.names(self.plan.kind()))
        self.look_for_answers()
        blocks = {name: self.folder.block(name) for name in have}
        self.by = {cube: Path(name).stem for name, cubes in blocks.items() for cube in cubes}
        self.by.update((cube, name_of(cube)) for cube in self.cubes
                       if self.plan.closing(cube) in have)
        self.done = set(self.by)
        self.covered = set()
        self.closings: Set[FrozenSet[int]] = set()
        self.queue.clear()
        self.running.clear()
        for name, cubes in blocks.items():
            self.cover_by(name, cubes)
        # From the last leaf to the first: the last ones have the negations of the literals that the
        # rule has chosen. Of these less follows, so they take longest, and are begun first.
        waiting = [cube for cube in reversed(self.cubes) if cube not in self.done]
        if self.plan.rechecks:
            waiting = [cube for cube in waiting if self.folder.has(log_of(cube))]
        self.queue.extend(cube for cube in waiting if self.tries[cube] < TRIES)
        self.join_logs()
        for cube in self.queue:  # what an earlier pass has told of it may have been wrong
            if self.folder.covered(cube).exists():
                self.folder.covered(cube).unlink()
        self.screen.say("c %d leaves, %d to run" % (len(self.cubes), len(self.queue)))

    def waits(self) -> bool:
        """Whether a leaf waits to be run."""
        return bool(self.queue)

    def take(self, most: int = 1) -> Leaf:
        """The next leaf, or a block of at most so many neighbours. They count as running."""
        cubes = [self.queue.popleft()]
        while len(cubes) < most and self.queue and self.goes_with(self.queue[0], cubes[-1]):
            cubes.append(self.queue.popleft())
        first, *behind = reversed(cubes)
        is_limited = first not in self.unlimited
        leaf = Leaf(first, self.tree, self.place[first], is_limited, tuple(behind))
        self.running[leaf.cubes] = leaf
        return leaf

    def goes_with(self, cube: Cube, other: Cube) -> bool:
        """Whether a leaf may be searched in one job with the one after it."""
        is_before = self.place[cube] + 1 == self.place[other]
        return is_before and self.is_fresh(cube) and self.is_fresh(other)

    def is_fresh(self, cube: Cube) -> bool:
        """Whether a leaf may be one of a block: no job of it runs, has failed, has met its limit,
        or has left a log without a receipt."""
        known = self.unlimited, self.alone, self.apart
        is_known = self.tries[cube] or any(cube in cubes for cubes in known)
        return not is_known and not self.folder.has(log_of(cube))

    def take_all(self) -> List[Leaf]:
        return [self.take() for _ in range(len(self.queue))]

    def open(self) -> int:
        """How many leaves nothing closes yet."""
        return sum(cube not in self.done for cube in self.cubes)

    def took(self, leaf: Leaf, seconds: float, outcome: str,
             turns: Sequence[float] = ()) -> None:
        """Takes the time of a job, of a leaf or a block; those of the leaves of a block, if they
        are known."""
        count = len(leaf.cubes)
        times = list(turns) or [seconds / count] * count
        self.longest = max(self.longest, *times)
        if outcome == CLOSED:
            self.times.all += times

    def let_go(self, leaf: Leaf) -> None:
        """Its job was ended without a result."""
        self.running.pop(leaf.cubes, None)

    def is_closed(self, leaf: Leaf) -> bool:
        return leaf.cube in self.done

    def is_settled(self, cube: Cube) -> bool:
        """Whether a leaf is closed, or both its halves: a job for it is of no use any more."""
        halves = self.halves.get(cube, [])
        return cube in self.done or (bool(halves) and all(map(self.is_settled, halves)))

    def look_for_answers(self) -> None:
        self.model = bool(self.folder.names("answers"))

    def over(self) -> bool:
        """Whether no leaf needs to be run any more: there is a model, or `join` has ended."""
        if self.join and not self.join.feed() and self.join.process.returncode < 0:
            self.join = None  # it was killed: `answer` begins another one
        return self.model or (self.join is not None and not self.join.feed())

    def ended(self, leaf: Leaf, outcome: str, note: str) -> None:
        """What follows when a leaf's job has ended."""
        self.let_go(leaf)
        if outcome == CLOSED:
            self.take_log(leaf, leaf.cubes)
        elif outcome == MODEL:
            self.model = True
        else:
            closed = self.folder.block(self.plan.closing(*leaf.cubes)) if leaf.behind else []
            if closed:
                self.take_log(leaf, closed)
            if outcome != LIMIT:
                self.fail(leaf, note)
                return
            for cube in self.left_by(leaf):
                self.met_limit(cube)

    def kept(self, leaf: Leaf, outcome: str) -> None:
        """What follows when a job has ended since the run ends."""
        self.let_go(leaf)
        if outcome == CLOSED:
            self.done.update(leaf.cubes)
        elif leaf.behind:
            self.done.update(self.folder.block(self.plan.closing(*leaf.cubes)))

    def take_log(self, leaf: Leaf, closed: Sequence[Cube]) -> None:
        """Takes a log of a job, which closes these of its leaves."""
        self.closed += len(closed)
        self.by.update((cube, name_of(*leaf.cubes)) for cube in closed)
        self.done.update(closed)
        self.covered.difference_update(closed)  # if another's log came before
        if not self.apart.isdisjoint(closed):
            self.queue = collections.deque(cube for cube in self.queue if cube not in self.done)
        cut = [cube for cube in closed if cube in self.halves]
        self.cover_by(self.plan.closing(*leaf.cubes), cut)
        if self.join:
            self.join.add(log_of(*leaf.cubes))

    def left_by(self, leaf: Leaf) -> List[Cube]:
        """The leaves of a job that are to be run again: those that are open, that were not cut, and
        that have no job of their own since the block was taken apart."""
        others = self.apart if leaf.behind else set()
        return [cube for cube in leaf.cubes
                if cube not in self.done and cube not in self.halves and cube not in others]

    def met_limit(self, cube: Cube) -> None:
        if not self.split(cube):
            self.unlimited.add(cube)
            self.queue.append(cube)

    def raced(self, outcome: str, note: str) -> None:
        """What follows when the search of the whole formula has ended: its log closes every
        leaf."""
        if outcome == CLOSED:
            self.screen.say("c the whole formula was refuted unsplit")
            self.closed += 1
            self.cover(closed_by(self.folder.at(self.plan.closing(()))))
            if self.join:
                self.join.add(log_of(()))
        elif outcome == MODEL:
            self.model = True
        else:
            self.screen.say("c the whole formula unsplit: " + (note or outcome))

    def cover_by(self, name: str, cubes: Sequence[Cube]) -> None:
        """Closes the leaves under a log's last lemma, and under these cubes, which may have been
        cut since its job began."""
        self.cover(closed_by(self.folder.at(name)))
        for cube in cubes:
            self.cover(frozenset(cube))

    def cover(self, closed: Optional[FrozenSet[int]]) -> None:
        """Closes all leaves whose cubes have these literals. A log closes leaves of others if its
        search has not used all literals of its cube. That is a guess: the leaves that `join` then
        misses are run."""
        if closed is None:
            return
        self.closings.add(closed)
        sets = [self.having.get(literal, set()) for literal in closed]
        rarest = min(sets, key=len, default=self.cubes)
        self.close({cube for cube in rarest if closed.issubset(cube)})

    def close(self, found: Set[Cube]) -> None:
        """Others' logs close these leaves."""
        found = found - self.done - self.alone
        if found:
            self.queue = collections.deque(cube for cube in self.queue if cube not in found)
            self.covered |= found
            self.done |= found
        for cube in found:  # tells jobs that run elsewhere
            self.folder.covered(cube).touch()

    def fail(self, leaf: Leaf, note: str) -> None:
        self.tries.update(leaf.cubes)
        self.failures += 1
        self.reasons[note] += 1
        if self.reasons[note] == 1:
            self.screen.say("c %s failed: %s" % (self.told(leaf), note))
        if self.hopeless():
            self.queue.clear()
            return
        self.queue.extend(cube for cube in self.left_by(leaf) if self.tries[cube] < TRIES)

    def told(self, leaf: Leaf) -> str:
        first, last = leaf.cube, leaf.cubes[-1]
        if first not in self.place or last not in self.place:
            return "a leaf that was cut"
        if leaf.behind:
            return "leaves %d to %d" % (self.place[first], self.place[last])
        return "leaf %d" % self.place[first]

    def tell_failures(self) -> None:
        """Tells how many jobs have failed for each reason, of which only the first was told."""
        for note, times in self.reasons.items():
            if times > 1:
                self.screen.say("c %d jobs failed: %s" % (times, note))
        self.reasons.clear()

    def hopeless(self) -> bool:
        """Whether so many jobs have failed, and none has closed a leaf, that the run is given
        up."""
        return self.failures >= HOPELESS and not self.closed

    def may_cut(self, leaf: Leaf) -> bool:
        is_whole = leaf.cubes[-1] not in self.apart if leaf.behind else leaf.cube in self.place
        return is_whole and leaf.cube not in self.uncut and not self.hopeless()

    def cut(self, leaf: Leaf, searched: int = 0) -> None:
        """Cuts a leaf in two, or takes a block apart, of which so many leaves were searched; its
        job goes on beside those of the parts."""
        if leaf.behind:
            left = leaf.cubes[searched:]
            self.queue.extend(cube for cube in reversed(left) if cube not in self.done)
            self.apart.update(left)
        elif not self.split(leaf.cube):
            self.uncut.add(leaf.cube)

    def split(self, cube: Cube) -> bool:
        """Cuts a leaf in two, if the program can, in a new tree file: jobs that run use the old
        one."""
        if self.can_split is None:
            self.can_split = "--split" in output_of([self.plan.program, "cubes", "--help"])[1]
        if not self.can_split:
            return False
        part, before = self.folder.at("scratch", "tree"), set(self.cubes)
        words: List[Word] = [self.plan.program, "cubes", *self.plan.limits(), "--cubes",
                             self.folder.at(self.tree),
                             "--split", str(self.place[cube]), self.plan.input]
        if status_of(words, part) != 0:
            return False
        publish(part, self.folder.at("trees", "%d.icnf" % (self.number + 1)))
        self.take_tree(self.number + 1)
        halves = [new for new in self.cubes if new not in before]
        self.halves[cube] = halves
        self.queue.extend(halves)
        self.splits += 1
        self.close({half for half in halves
                    if any(closed.issubset(half) for closed in self.closings)})
        self.put_off_join()
        self.forget_trees()
        return True

    def begin_join(self, *names: str) -> Join:
        join = Join(self.folder, self.plan, self.tree, self.proof)
        join.add(*names)
        self.read = self.join = join
        return join

    def join_logs(self) -> None:
        """Begins a join of the logs that stand, unless it is to be begun later."""
        if self.model or not (self.covers or self.sorts):
            self.begin_join(*self.folder.names("logs"))

    def put_off_join(self) -> None:
        """Ends a join after a cut, since it was begun with the tree before. Another one is begun
        when no leaf was cut for a while, or in the end. The while is doubled each time, so that
        joins that are ended have read little, however many leaves are cut."""
        if self.join:
            self.end_join()
            self.patience *= 2
        self.calm = time.monotonic() + self.patience

    def join_anew(self) -> None:
        if self.join is None and time.monotonic() >= self.calm:
            self.join_logs()
            self.calm = float("inf")

    def forget_trees(self) -> None:
        """Removes the tree files that no job uses: each has the whole formula."""
        named = {leaf.tree for leaf in self.running.values()} | {self.tree}
        for name in set(self.folder.names("trees")) - named:
            self.folder.at(name).unlink()

    def tick(self, now: Now) -> None:
        """Prints the progress."""
        is_open = self.open() - now.searched
        left = told(self.times, self.times.left(now, max(0, is_open - now.leaves)))
        self.screen.progress(line(len(self.cubes) - is_open, len(self.cubes), now,
                                  time.monotonic() - self.began, left, self.splits,
                                  self.screen.width()))
        self.renew()
        self.join_anew()

    def answer(self) -> Tuple[int, List[str]]:
        """The answer of `join` or `cover`. If there are assignments `join` reads nothing else."""
        self.tell_failures()
        if self.model:
            self.end_join()
        elif self.covers:
            self.screen.progress("c covering")
            self.read = cover = Cover(self.folder, self.plan, self.tree)
            return cover.answer()
        join = self.join
        if join is None:
            join = self.begin_join(*self.folder.names("answers" if self.model else "logs"))
        self.screen.progress("c joining")
        return join.answer(self.bell)

    def learn(self, lines: List[str]) -> bool:
        """Takes away the files that were refused, and opens their leaves. Answers whether any leaf
        is to be run again."""
        if self.plan.rechecks:
            return False
        assert self.read is not None  # these lines are its
        names, places = self.read.refused(lines)
        refused, missing = set(names), [self.cubes[place - 1] for place in places]
        brought = set(self.read.names)
        named = RECEIPT if self.covers else LOG
        closing = {cube: named % self.by.get(cube, name_of(cube)) for cube in missing}
        for cube in missing:
            name = answer_of(cube) if self.model else closing[cube]
            self.tries[cube] += name in brought
        if self.model:  # no assignment satisfies the formula
            refused = brought
        else:  # a log that was not refused may close other leaves than its own
            if self.covers:  # a right receipt may be of a log that does not close its leaf
                for name in brought.difference(refused).intersection(closing.values()):
                    self.folder.set_aside(LOG % Path(name).stem)
            refused |= brought.intersection(closing.values())
            self.alone.update(self.covered.intersection(missing))
            self.done.difference_update(missing)
            self.covered.difference_update(missing)
        for name in refused:
            self.folder.set_aside(name)
        return not self.hopeless() and any(self.tries[cube] < TRIES for cube in missing)

    def end_join(self) -> None:
        if self.join:
            kill(self.join.process)
            self.join.unpacker.end()
            self.join.input.close()
        self.join = None
