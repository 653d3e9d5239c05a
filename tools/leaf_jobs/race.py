"""One job searches the whole formula, beside those that search its leaves.

Some formulas must not be split: all leaves together take ten times as long as the whole formula.
Which formulas these are is not known before. So both are tried, and the one that is done first ends
the run: a log of the whole formula closes every leaf, and `join` tests it as any other log.
"""
import time
from typing import List, Optional

from leaf_jobs.files import Folder, publish
from leaf_jobs.leaf import Job, Leaf, Plan
from leaf_jobs.processes import status_of
from leaf_jobs.run import Run

WHOLE = Leaf((), "whole.icnf", 1, False)  # the only leaf of a tree of no levels
ALONE = 60  # seconds for which a single job searches the whole formula before any leaf
AHEAD = 1.2  # the race is lost if the open leaves need at most so many times the time of its job


class Race:
    def __init__(self, job: Job) -> None:
        self.job = job

    @classmethod
    def begin(cls, folder: Folder, plan: Plan, mark: str) -> Optional["Race"]:
        part = folder.at("scratch", "tree")
        words = [plan.program, "cubes", *plan.limits(), "--depth", "0", plan.input]
        if status_of(words, part) != 0:
            return None
        publish(part, folder.at(WHOLE.tree))
        return cls(Job(folder, plan, WHOLE, mark))

    def ended(self, run: Run) -> bool:
        """Whether its job has ended by itself; if so the run takes the result."""
        if not self.job.ended() or self.job.result is None:
            return False
        run.raced(self.job.result.outcome, self.job.result.note)
        return True

    def is_lost(self, run: Run, jobs: List[Job], most: int) -> bool:
        """Whether its job is to be ended, since its core is of more use to leaves: if none is open,
        or if all open ones would be done first, each of them as long as the longest so far."""
        if not jobs and not run.waits():
            return run.open() == 0
        seconds = time.monotonic() - self.job.began
        if most == 1:
            return seconds > ALONE
        now = time.monotonic()
        longest = max([run.longest] + [(now - job.began) / len(job.leaf.cubes) for job in jobs])
        return run.open() * longest / (most - 1) <= AHEAD * seconds
