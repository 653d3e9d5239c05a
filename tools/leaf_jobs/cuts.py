"""Cuts long leaves in two while a core is idle, and takes blocks apart.

One leaf may take longer than all others together, and all cores but one wait for it then. So its
halves are run beside its own job. If that job ends first, its log closes both halves, and the cut
has cost only the time of idle cores. The job is ended when both halves are closed, and not before:
on schur-4-45 one half is closed at once, and the other takes as long as the leaf. When the job was
ended as soon as one half was closed, a leaf was cut nine times, and the run took 40 s instead of
13.

The two halves together take longer than the leaf, as a rule, so a leaf is cut late. In a
simulation that cut each running leaf as soon as a core was idle, rand3-350 on 16 cores took 16.8 s
instead of 13.6. With Slurm (`engines.py`) the halves are an array of their own.

If the job of a block takes too long, its leaves are run beside it, one by one from the last: else
all cores wait for the block of the longest leaf (docs/dev/measured.md).
"""
import time
from typing import List, Optional

from leaf_jobs.leaf import Job, Leaf
from leaf_jobs.run import Run

MEANS = 2  # a leaf is cut after so many times the mean of the closed ones
SECONDS = 2  # and after so many seconds, since a cut writes a tree and starts two processes


def to_cut(run: Run, jobs: List[Job]) -> Optional[Job]:
    """The job that has run longest of those whose leaves are worth a cut."""
    now = time.monotonic()
    found = [job for job in jobs
             if now - job.began >= patience(run, job.leaf) and run.may_cut(job.leaf)]
    return min(found, key=lambda job: job.began) if found else None


def patience(run: Run, leaf: Leaf) -> float:
    """For how many seconds a job runs before its leaf is cut, or its block is taken apart."""
    seconds = MEANS * run.times.mean() * len(leaf.cubes)
    return seconds if leaf.behind else max(SECONDS, seconds)
