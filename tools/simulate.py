#!/usr/bin/env python3
"""Plays the measured leaves of a run on 1 to 1,024 cores, to tell how many of them it could use.

    tools/simulate.py [--no-cuts] [--starts S] [--join MB] [--check MB] [--receipt MB] FOLDER

FOLDER is one of `conquer.py`. Prints a table: the second at which the last leaf ends; at which
`join` ends, which reads logs as they come; at which `check` of the joined proof ends; and at which
`cover` ends if each job checks its own log (`--receipts`). S are the seconds that the start of a
leaf takes, MB are millions of bytes a second. A leaf that another's log has closed takes as long as
that one, if it is begun before. A half of a leaf takes 1.15 times the half of its time, and its log
has 1.15 times the half of the bytes. The job that searches the whole formula is left out. A block
is played as it was: it is not cut, and not made anew for other numbers of cores.
"""
import argparse
import heapq
import itertools
import json
import os
import sys
from dataclasses import dataclass, field, replace
from typing import Container, Dict, Iterable, List, Optional, Tuple

sys.dont_write_bytecode = True

from leaf_jobs.cuts import MEANS, SECONDS
from leaf_jobs.figures import is_race, spent
from leaf_jobs.files import Cube, Fault, Folder, closed_by, log_of, read_cubes
from leaf_jobs.leaf import CLOSED, Record, Records

CORES = (1, 2, 4, 8, 16, 32, 64, 128, 256, 512, 1024)
LOSS = 1.15  # what the halves of a leaf take together, for what it takes
COVER = 25e-6  # seconds that `cover` takes for a leaf and its receipt


@dataclass(frozen=True)
class Measured:
    """What was measured of a leaf, or a block."""

    seconds: float
    bytes: float
    closes: Tuple[int, ...] = ()  # the places of the others that its log closes, from 0
    is_block: bool = False


def measured(path: str) -> List[Measured]:
    """The leaves of the tree that stands, of which those of a block are one."""
    if not os.path.isdir(os.path.join(path, "trees")):  # which a `Folder` would make
        raise Fault("c %s is no folder of conquer.py" % path)
    folder = Folder(path)
    if json.loads(folder.at("plan.json").read_text()).get("workers"):
        raise Fault("c %s is of a cell, which has no jobs: make a run with --no-share" % path)
    jobs = {cube: record for record in Records(folder).all()
            if record.outcome == CLOSED and not is_race(record) for cube in record.cubes}
    cubes = uncut(read_cubes(folder.at("trees", "%d.icnf" % folder.newest_tree())), jobs)
    job_of = lambda cube: jobs.get(cube, cube)
    groups = [list(group) for _, group in itertools.groupby(cubes, job_of)]
    closes, closer = closings(folder, groups, set(jobs.values()))
    leaves = []
    for group in groups:
        own = jobs.get(group[0])
        job = own or closer.get(group[0])
        if job is None:
            raise Fault("c no job has closed the leaf %s" % " ".join(map(str, group[0])))
        others = closes.get(own, ()) if own else ()
        leaves.append(Measured(spent(job), job.bytes, others, len(group) > 1))
    return leaves


def uncut(cubes: List[Cube], closed: Container[Cube]) -> List[Cube]:
    """The leaves. A leaf that was cut, and closed by its own job, stands in place of its parts."""
    paths = [next((cube[:depth] for depth in range(len(cube)) if cube[:depth] in closed), cube)
             for cube in cubes]
    return list(dict.fromkeys(paths))


def closings(folder: Folder, groups: List[List[Cube]], jobs: Iterable[Record]) -> Tuple[
        Dict[Record, Tuple[int, ...]], Dict[Cube, Record]]:
    """For each job the places of the groups of leaves that its log closes; and for each leaf a job
    whose log closes it."""
    closes: Dict[Record, Tuple[int, ...]] = {}
    closer: Dict[Cube, Record] = {}
    for job in jobs:
        last = closed_by(folder.at(log_of(*job.cubes)))
        if last is None:
            continue
        closed = {cube for group in groups for cube in group
                  if cube in job.cubes or last.issubset(cube)}
        closes[job] = tuple(place for place, group in enumerate(groups) if closed.issuperset(group))
        closer.update((cube, job) for cube in closed)
    return closes, closer


@dataclass(eq=False)
class Part:
    """What one job searches: a leaf, or a half of one that was cut."""

    leaf: int
    seconds: float
    bytes: float
    whole: Optional["Part"] = None  # what it is a half of
    halves: List["Part"] = field(default_factory=list)
    began: float = 0.0  # when a core has taken it
    closed: bool = False


class Play:
    """A run of `conquer.py` with the local engine: leaves from the last to the first, and cuts."""

    def __init__(self, leaves: List[Measured], cores: int, cuts: bool, starts: float) -> None:
        self.leaves, self.cores, self.cuts = leaves, cores, cuts
        self.roots = [Part(place, leaf.seconds + starts, leaf.bytes)
                      for place, leaf in enumerate(leaves)]
        self.waiting = list(self.roots)  # the last is the next
        self.running: List[Part] = []
        self.ends: List[Tuple[float, int, Optional[Part]]] = []
        self.now, self.events, self.count = 0.0, 0, 0
        self.logs: List[Tuple[float, float]] = []  # when each came, and its bytes
        self.closed_seconds, self.closed_jobs = 0.0, 0

    def run(self) -> float:
        """When the last leaf is closed."""
        self.fill()
        while self.running:
            self.now, _, part = heapq.heappop(self.ends)
            if part in self.running:
                self.running.remove(part)
                self.closed_seconds += part.seconds
                self.closed_jobs += 1
                self.logs.append((self.now, part.bytes))
                self.close(part)
            self.fill()
        return max(moment for moment, _ in self.logs)

    def at(self, moment: float, part: Optional[Part]) -> None:
        self.events += 1
        heapq.heappush(self.ends, (moment, self.events, part))

    def fill(self) -> None:
        """Gives each idle core a leaf, and cuts the longest if none waits."""
        while len(self.running) < self.cores:
            while self.waiting and self.waiting[-1].closed:
                self.waiting.pop()
            if not self.waiting and not self.cut():
                return
            part = self.waiting.pop()
            part.began = self.now
            self.running.append(part)
            self.at(self.now + part.seconds, part)

    def cut(self) -> bool:
        found = [part for part in self.running
                 if not part.halves and not self.leaves[part.leaf].is_block]
        if not self.cuts or not found:
            return False
        longest = min(found, key=lambda part: part.began)
        mean = self.closed_seconds / max(1, self.closed_jobs)
        moment = longest.began + max(SECONDS, MEANS * mean)
        if moment > self.now:
            self.at(moment, None)
            return False
        share = LOSS / 2
        half = longest.leaf, longest.seconds * share, longest.bytes * share, longest
        longest.halves = [Part(*half), Part(*half)]
        self.waiting += longest.halves
        self.count += 1
        return True

    def close(self, part: Part) -> None:
        """Closes a part, with all that it was cut into, and also the whole if both halves are
        closed."""
        self.take_away(part)
        whole = part.whole
        if whole is None:
            for place in self.leaves[part.leaf].closes:
                if not self.roots[place].closed:
                    self.take_away(self.roots[place])
        elif not whole.closed and all(half.closed for half in whole.halves):
            self.close(whole)

    def take_away(self, part: Part) -> None:
        part.closed = True
        if part in self.running:
            self.running.remove(part)
        for half in part.halves:
            self.take_away(half)


def joined(play: Play, rate: float) -> float:
    """When `join` has read all logs: as they come, or anew in the end if leaves were cut."""
    if play.count:
        return play.now + sum(size for _, size in play.logs) / rate
    moment = 0.0
    for came, size in play.logs:
        moment = max(moment, came) + size / rate
    return moment


def covered(leaves: List[Measured], cores: int, asked: argparse.Namespace) -> float:
    """When `cover` ends, if each job checks its log after its search."""
    longer = [replace(leaf, seconds=leaf.seconds + leaf.bytes / (asked.receipt * 1e6))
              for leaf in leaves]
    play = Play(longer, cores, not asked.no_cuts, asked.starts)
    return play.run() + COVER * (len(leaves) + play.count)


def row(leaves: List[Measured], cores: int, asked: argparse.Namespace) -> str:
    play = Play(leaves, cores, not asked.no_cuts, asked.starts)
    search = play.run()
    join = joined(play, asked.join * 1e6)
    check = join + sum(size for _, size in play.logs) / (asked.check * 1e6)
    cover = covered(leaves, cores, asked)
    cells = ["%.2f" % moment for moment in (search, join, check, cover)]
    return "| %s |" % " | ".join([str(cores)] + cells + [str(play.count)])


def main() -> int:
    parser = argparse.ArgumentParser(description=__doc__.split("\n\n")[0])
    parser.add_argument("--no-cuts", action="store_true")
    parser.add_argument("--starts", metavar="S", type=float, default=0.006)
    parser.add_argument("--join", metavar="MB", type=float, default=90)
    parser.add_argument("--check", metavar="MB", type=float, default=140)
    parser.add_argument("--receipt", metavar="MB", type=float, default=75)
    parser.add_argument("FOLDER")
    asked = parser.parse_args()
    try:
        leaves = measured(asked.FOLDER)
    except Fault as fault:
        print(fault, file=sys.stderr)
        return 1
    print("| cores | leaves | join | check | cover | cuts |\n|---|---|---|---|---|---|")
    for cores in CORES:
        print(row(leaves, cores, asked))
    return 0


if __name__ == "__main__":
    sys.exit(main())
