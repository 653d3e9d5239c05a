"""Engines start the jobs: they run the leaves that wait, until none does or the run is over.

`Local` is a pool in this process. The others, make, GNU parallel and Slurm, are given rounds: all
leaves that wait are written to a file, `rounds/N`, and each task of the engine is
`conquer.py --work FOLDER N TASK`, which runs its share of them. A task ends with status 0, since
10 and 20, the statuses of solvers, are failures for these engines. SIGTERM ends its job, which
leaves no file.
"""
import json
import os
import re
import shlex
import shutil
import signal
import subprocess
import sys
import time
from dataclasses import astuple, dataclass
from pathlib import Path
from typing import Dict, List, Optional, Sequence, Set, Tuple, Type

from leaf_jobs import endings
from leaf_jobs.cuts import MEANS, to_cut
from leaf_jobs.endings import Stopped
from leaf_jobs.figures import megabytes, spent, told
from leaf_jobs.files import Fault, Folder, name_of
from leaf_jobs.leaf import CLOSED, ENDED, FAILED, Job, Leaf, Plan, Records, Turn
from leaf_jobs.processes import (Bell, Command, Process, Word, die_with, kill, opened, output_of,
                                 start)
from leaf_jobs.progress import Now
from leaf_jobs.race import Race
from leaf_jobs.run import Run
from leaf_jobs.screen import Screen

COMMAND = Path(__file__).resolve().parent.parent / "conquer.py"


@dataclass(frozen=True)
class Limits:
    """What a task of Slurm may take; None: what the site allows."""

    memory: Optional[int] = None  # megabytes
    minutes: Optional[int] = None

    def words(self) -> List[str]:
        words = ["--mem=%dM" % self.memory] if self.memory else []
        return words + (["--time=%d" % self.minutes] if self.minutes else [])


@dataclass
class Engine:
    """Starts jobs. It tells `Run` which ones have ended."""

    folder: Folder
    plan: Plan
    screen: Screen
    bell: Bell
    jobs: int  # how many at a time; 0: as many as Slurm runs
    races: bool = False  # whether one of them searches the whole formula
    cuts: bool = False  # whether a long leaf is cut in two if a core is idle
    limits: Limits = Limits()
    block: int = 1  # how many neighbouring leaves a job may take

    @classmethod
    def test(cls) -> None:
        """Raises `Fault` if it is not installed."""

    def settle(self) -> None:
        """Waits for jobs of earlier starts that still run."""

    def work(self, run: Run) -> None:
        raise NotImplementedError


SOON = 0.2  # seconds after which leaves to be cut are looked for, if a core is idle
LONG = 20  # seconds that a block may take, by the mean of a leaf: if it is killed all of it is lost


def size_of_block(most: int, waiting: int, jobs: int, mean: float, seconds: float = LONG) -> int:
    """How many of the waiting leaves the next job takes: an equal share of them, so that blocks get
    smaller towards the end, and the last job is short; and no more than end in so many seconds."""
    return max(1, min(most, waiting // jobs, int(seconds / max(mean, 0.001))))


class Local(Engine):
    """As many jobs at a time as are asked for."""

    def work(self, run: Run) -> None:
        jobs: List[Job] = []
        mark, begun = str(time.time_ns()), 0
        race = self.race(run, mark)
        try:
            while (run.waits() or jobs or race) and not run.over():
                while run.waits() and len(jobs) + bool(race) < self.jobs:
                    leaf = run.take(self.size(run, begun))
                    with endings.whole():  # so that no job runs that is not listed
                        jobs.append(Job(self.folder, self.plan, leaf, mark))
                    begun += 1
                if self.cuts and self.cut(run, jobs, race):
                    continue
                pause = SOON if len(jobs) + bool(race) < self.jobs else 1.0
                pipes = [pipe for job in jobs for pipe in job.pipes()]
                self.bell.wait(min([pause] + [job.end - time.monotonic() for job in jobs]), pipes)
                self.gather(run, jobs)
                if race and race.ended(run):
                    race = None
                self.end_needless(run, jobs)
                if race and race.is_lost(run, jobs, self.jobs):
                    self.end_race(run, race)
                    race = None
                run.tick(now(jobs, race, self.jobs))
        except Stopped:
            self.keep(run, jobs)
            raise
        finally:
            for job in jobs + ([race.job] if race else []):
                run.let_go(job.leaf)
                job.stop()

    def size(self, run: Run, begun: int) -> int:
        """How many leaves the next job takes. The first leaves, which are the longest, have jobs of
        their own: in one block they would be the longest job by far."""
        if begun < self.jobs:
            return 1
        seconds = min(LONG, endings.left())
        return size_of_block(self.block, len(run.queue), self.jobs, run.times.lately(), seconds)

    def keep(self, run: Run, jobs: List[Job]) -> None:
        """Ends all searches, and gives jobs some seconds to keep what was found."""
        end = time.monotonic() + endings.GRACE
        for job in jobs:
            job.end_search()
        while time.monotonic() < end and not all([job.ended() for job in jobs]):
            self.bell.wait(0.1)
        for job in [job for job in jobs if job.result]:
            jobs.remove(job)
            run.kept(job.leaf, job.result.outcome if job.result else ENDED)

    def cut(self, run: Run, jobs: List[Job], race: Optional[Race]) -> bool:
        """Cuts the longest leaf, or takes a block apart, if a core is idle. Answers whether leaves
        wait then."""
        job = None if len(jobs) + bool(race) >= self.jobs else to_cut(run, jobs)
        if job is None:
            return False
        run.cut(job.leaf, len(job.turns()))
        return run.waits()

    def gather(self, run: Run, jobs: List[Job]) -> None:
        for job in [job for job in jobs if job.ended()]:
            jobs.remove(job)
            assert job.result is not None  # it has ended by itself
            run.took(job.leaf, time.monotonic() - job.began, job.result.outcome,
                     times_of(job.begin, job.result.turns))
            run.ended(job.leaf, job.result.outcome, job.result.note)

    def end_needless(self, run: Run, jobs: List[Job]) -> None:
        """Ends jobs of leaves that others have closed meanwhile. A block keeps what it has closed
        before."""
        for job in list(jobs):
            cubes, searched = job.leaf.cubes, len(job.turns())
            if all(map(run.is_settled, cubes)):
                jobs.remove(job)
                run.let_go(job.leaf)
                job.stop()
            elif 0 < searched < len(cubes) and all(map(run.is_settled, cubes[searched:])):
                job.end_search()

    def race(self, run: Run, mark: str) -> Optional[Race]:
        """Begins the race: once in a start, and not if the whole formula is the only leaf."""
        if not self.races or not run.waits() or len(run.cubes) == 1:
            return None
        self.races = False
        return Race.begin(self.folder, self.plan, mark)

    def end_race(self, run: Run, race: Race) -> None:
        race.job.stop()
        if run.open():
            self.screen.say("c the leaves are ahead: the search of the whole formula is ended")


def now(jobs: List[Job], race: Optional[Race], most: int) -> Now:
    """What runs at this moment."""
    moment, turns = time.time(), [job.turns() for job in jobs]
    began = [ended[-1].end if ended else job.begin for job, ended in zip(jobs, turns)]
    left = [max(0, len(job.leaf.behind) - len(ended)) for job, ended in zip(jobs, turns)]
    closed = sum(turn.outcome == CLOSED for ended in turns for turn in ended)
    return Now([moment - begin for begin in began], left, int(race is not None), most, closed)


def times_of(begin: float, turns: Sequence[Turn]) -> List[float]:
    """The seconds of leaves that were searched one after the other."""
    ends = [begin] + [turn.end for turn in turns]
    return [end - before for before, end in zip(ends, ends[1:])]


@dataclass
class Round:
    """Leaves that were given to make, GNU parallel or Slurm."""

    mark: str
    leaves: List[Leaf]
    tasks: int  # task T of N runs the leaves T, T + N, T + 2 N ..
    process: Optional[Process] = None  # of make or GNU parallel
    number: str = ""  # of an array of Slurm

    def task_of(self, place: int) -> int:
        return place % self.tasks + 1


class Rounds(Engine):
    """An engine that is a program of its own: make, GNU parallel or Slurm."""

    tool = ""
    most: Optional[int] = None  # tasks of a round
    outlives = False  # whether its jobs outlive the script
    together = False  # whether a round may begin while another is under way

    @classmethod
    def test(cls) -> None:
        if not shutil.which(cls.tool):
            raise Fault("c %s is not installed" % cls.tool)

    def work(self, run: Run) -> None:
        rounds: List[Round] = []
        self.seen: Dict[str, float] = {}  # since when a leaf's job is seen to run, by its name
        try:
            while (run.waits() or rounds) and not run.over():
                if run.waits() and (self.together or not rounds):
                    rounds.append(self.hand_out(run.take_all()))
                self.bell.wait(1)
                self.look(run, rounds)
                for done in [done for done in rounds if self.is_done(run, done)]:
                    rounds.remove(done)
                    self.stop(done)
                    self.look(run, [done])
                    if not run.over():
                        self.gather(run, done)
                if self.cuts and self.together:
                    self.cut(run, rounds)
        finally:
            for left in rounds:
                self.stop(left)
        self.look(run, rounds)

    def hand_out(self, leaves: List[Leaf]) -> Round:
        begun = Round(str(time.time_ns()), leaves, min(len(leaves), self.most or len(leaves)))
        asked = dict(tasks=begun.tasks, leaves=list(map(astuple, leaves)), outlives=self.outlives)
        self.folder.write("rounds/" + begun.mark, json.dumps(asked))
        self.begin(begun)
        return begun

    def is_done(self, run: Run, asked: Round) -> bool:
        return not self.runs(asked) or all(run.is_settled(leaf.cube) for leaf in asked.leaves)

    def look(self, run: Run, rounds: List[Round]) -> None:
        """Looks in the folder which leaves are closed, which run, and whether there is a model."""
        have, now = set(self.folder.names(self.plan.kind())), time.monotonic()
        for leaf in [leaf for asked in rounds for leaf in asked.leaves]:
            if not run.is_closed(leaf) and self.plan.closing(leaf.cube) in have:
                run.took(leaf, now - self.seen.get(name_of(leaf.cube), now), CLOSED)
                run.ended(leaf, CLOSED, "")
        run.look_for_answers()
        names = os.listdir(self.folder.at("scratch"))
        running = {name.rsplit(".", 1)[0] for name in names if name.startswith("leaf")}
        self.seen = {name: self.seen.get(name, now) for name in running}
        run.tick(Now([now - began for began in self.seen.values()]))

    def cut(self, run: Run, rounds: List[Round]) -> None:
        """Cuts the longest leaves if none waits. Their halves make a round of their own."""
        leaves = [leaf for asked in rounds for leaf in asked.leaves
                  if not run.is_settled(leaf.cube)]
        if run.waits() or any(name_of(leaf.cube) not in self.seen for leaf in leaves):
            return
        for leaf in late_leaves(run, leaves, self.seen)[:MOST][:self.room()]:
            run.cut(leaf)

    def room(self) -> Optional[int]:
        """How many more jobs may run; None: as many as Slurm runs."""
        return max(0, self.jobs - len(self.seen)) if self.jobs else None

    def gather(self, run: Run, done: Round) -> None:
        """Tells the run how the jobs of the round's open leaves have ended. A job is lost if it has
        no record, or one that it was ended; its files in `scratch` are removed."""
        ends = {}
        for record in Records(self.folder).all(".%s." % done.mark):
            if record.outcome != ENDED:
                ends[record.cube] = record.outcome, record.note
        for place, leaf in enumerate(done.leaves):
            for path in self.folder.at("scratch").glob(name_of(leaf.cube) + ".*"):
                shutil.rmtree(str(path), ignore_errors=True)
            if run.is_settled(leaf.cube):
                run.let_go(leaf)
                continue
            lost = FAILED, "its job was lost" + self.why(done, done.task_of(place))
            run.ended(leaf, *ends.get(leaf.cube, lost))

    def why(self, done: Round, task: int) -> str:
        """Why a task was lost, if it is known."""
        return ""

    def words(self, asked: Round) -> List[str]:
        return [sys.executable, str(COMMAND), "--work", str(self.folder.path), asked.mark]

    def command(self, asked: Round) -> Tuple[Sequence[Word], str]:
        """Its command line, and the text of its standard input."""
        raise NotImplementedError

    def begin(self, asked: Round) -> None:
        words, text = self.command(asked)
        output = self.folder.at("scratch", self.tool)
        asked.process = start(Command(words, output), stdin=subprocess.PIPE)
        pipe = opened(asked.process.stdin)
        try:
            pipe.write(text.encode())
            pipe.close()
        except BrokenPipeError:
            pass

    def runs(self, asked: Round) -> bool:
        return asked.process is not None and asked.process.poll() is None

    def stop(self, asked: Round) -> None:
        if asked.process:
            kill(asked.process)


class Make(Rounds):
    """A target for each leaf."""

    tool = "make"

    def command(self, asked: Round) -> Tuple[Sequence[Word], str]:
        recipe = " ".join(map(shlex.quote, self.words(asked))).replace("$", "$$")
        targets = " ".join(map(str, range(1, asked.tasks + 1)))
        text = "all: {0}\n.PHONY: all {0}\n{0}:\n\t-@{1} $@\n".format(targets, recipe)
        return ["make", "-s", "-k", "-j", str(self.jobs), "-f", "-"], text


class Parallel(Rounds):
    """GNU parallel, which reads the numbers of the tasks."""

    tool = "parallel"

    def command(self, asked: Round) -> Tuple[Sequence[Word], str]:
        words = ["parallel", "--will-cite", "-q", "-j", str(self.jobs)]
        numbers = "".join("%d\n" % task for task in range(1, asked.tasks + 1))
        return words + self.words(asked) + ["{}"], numbers


SLOW = 30  # seconds after which a leaf is cut at the earliest: a cut is another array
MOST = 16  # leaves that are cut in a second, if --jobs does not limit them
ASK = 10  # seconds between two `squeue`, which loads the controller that all users share
ARRAY = 1001  # the default of `MaxArraySize`: one more than the tasks of an array
LOST = {  # what Slurm writes of a task that it has killed, and what that means
    "DUE TO TIME LIMIT": ": its task has met its time limit",
    "exceeded memory limit": ": its task has met its memory limit",
    "oom": ": its task has met its memory limit",
}


class Slurm(Rounds):
    """Job arrays of Slurm. Tasks outlive a script that was killed."""

    tool, outlives, together = "sbatch", True, True

    def settle(self) -> None:
        """Waits for the arrays of earlier starts, which run leaves that this one would run too."""
        self.most = most_tasks()
        self.tell_figures()
        self.queued: Set[str] = set()  # arrays that the controller knew when it was asked
        self.next = 0.0  # when it is asked again
        for name in [name for name in self.folder.names("rounds") if name.endswith(".slurm")]:
            number = self.folder.at(name).read_text()
            self.queued.add(number)
            if self.is_queued(number):
                self.screen.say("c waiting for array %s of an earlier start" % number)
            while self.is_queued(number):
                time.sleep(1)
            self.folder.at(name).unlink()

    def tell_figures(self) -> None:
        """Prints the greatest time and memory of the jobs in this folder, for --minutes and
        --memory: also those of a trial on one machine."""
        records = Records(self.folder).all()
        memory = megabytes(max((record.memory for record in records), default=0))
        if records:
            self.screen.say("c the longest of %d jobs took %s%s" % (
                len(records), told(max(map(spent, records))), memory and ", the largest " + memory))

    def begin(self, asked: Round) -> None:
        path = self.folder.at("scratch", "array")
        task = " ".join(map(shlex.quote, self.words(asked)))
        path.write_text("#!/bin/sh\nexec %s $SLURM_ARRAY_TASK_ID\n" % task)
        array = "--array=1-%d" % asked.tasks
        array += "%%%d" % max(1, self.jobs - len(self.seen)) if self.jobs else ""
        output = str(self.folder.at("tasks")).replace("%", "%%") + "/%A_%a.out"
        words: List[Word] = ["sbatch", "--parsable", "--job-name=conquer", "--output=" + output,
                             "--cpus-per-task=1", *self.limits.words(), array, path]
        status, text = output_of(words)
        if status != 0:
            raise Fault("c sbatch ends with %d: %s" % (status, " ".join(text.split())))
        asked.number = text.split(";")[0].strip()
        self.folder.write("rounds/%s.slurm" % asked.mark, asked.number)
        self.queued.add(asked.number)
        leaves = len(asked.leaves)
        if leaves > asked.tasks:
            most = -(-leaves // asked.tasks)
            self.screen.say("c %d leaves in %d tasks: the time limit of a task is for all that it "
                            "runs in turn, up to %d" % (leaves, asked.tasks, most))

    def runs(self, asked: Round) -> bool:
        return self.is_queued(asked.number)

    def is_queued(self, number: str) -> bool:
        """Whether an array is queued or runs; if the controller does not answer, as it was
        before."""
        if time.monotonic() >= self.next:
            status, text = output_of(["squeue", "-h", "-u", str(os.getuid()), "-o", "%F"])
            if status == 0:
                self.queued = set(text.split())
            self.next = time.monotonic() + ASK
        return number in self.queued

    def stop(self, asked: Round) -> None:
        output_of(["scancel", "-Q", asked.number])

    def cut(self, run: Run, rounds: List[Round]) -> None:
        """A task whose only leaf was cut is ended when both halves are closed."""
        for asked in rounds:
            for place, leaf in enumerate(asked.leaves):
                is_needless = leaf.cube in run.halves and run.is_settled(leaf.cube)
                is_alone = asked.tasks == len(asked.leaves)
                if is_needless and is_alone and name_of(leaf.cube) in self.seen:
                    output_of(["scancel", "-Q", "%s_%d" % (asked.number, asked.task_of(place))])
        super().cut(run, rounds)

    def why(self, done: Round, task: int) -> str:
        path = self.folder.at("tasks", "%s_%d.out" % (done.number, task))
        text = path.read_text(errors="replace") if path.exists() else ""
        return next((why for mark, why in LOST.items() if mark in text), "")


def late_leaves(run: Run, leaves: List[Leaf], seen: Dict[str, float]) -> List[Leaf]:
    """The leaves that have run long enough for a cut, the longest first."""
    late = time.monotonic() - max(SLOW, MEANS * run.times.mean())
    began = lambda leaf: seen[name_of(leaf.cube)]
    return sorted((leaf for leaf in leaves if began(leaf) <= late and run.may_cut(leaf)), key=began)


def most_tasks() -> int:
    """How many tasks an array may have here."""
    status, text = output_of(["scontrol", "show", "config"])
    found = re.search(r"^MaxArraySize\s*=\s*([0-9]+)", text, re.M) if status == 0 else None
    return max(1, int(found.group(1) if found else ARRAY) - 1)


ENGINES: Dict[str, Type[Engine]] = {
    "local": Local, "make": Make, "parallel": Parallel, "slurm": Slurm,
}


def work(path: str, mark: str, task: str) -> int:
    """A task of a round, in a process that an engine has started: its leaves in turn."""
    endings: List[int] = []  # signals are noted here, and raise nothing in the middle of a job
    signal.signal(signal.SIGTERM, lambda number, _: endings.append(number))
    die_with(os.getppid())
    folder, bell = Folder(path), Bell()
    plan = Plan(**json.loads(folder.at("plan.json").read_text()))
    asked = json.loads(folder.at("rounds", mark).read_text())
    if not asked["outlives"] and not folder.is_locked():  # the script ended before this job began
        return 0
    for cube, *rest in asked["leaves"][int(task) - 1::asked["tasks"]]:
        leaf = Leaf(tuple(cube), *rest)
        if endings or folder.names("answers"):
            break
        if folder.has(plan.closing(leaf.cube)) or folder.covered(leaf.cube).exists():
            continue
        job = Job(folder, plan, leaf, mark)
        while not endings and not job.ended():
            bell.wait(min(1, job.end - time.monotonic()))
        job.stop()
    return len(endings)
