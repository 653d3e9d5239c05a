"""The state of a run at a moment, and the numbers of the report."""
from dataclasses import dataclass
from typing import Dict, FrozenSet, Iterator, List, Tuple

from leaf_jobs.files import Cube
from leaf_jobs.leaf import CLOSED, Record
from leaf_jobs.race import WHOLE
from leaf_jobs.run import Run
from leaf_jobs.screen import clock


def spent(record: Record) -> float:
    return max(0.001, record.end - record.begin)


def told(seconds: float) -> str:
    if seconds >= 3600:
        return clock(seconds)
    return "%.0f s" % seconds if seconds >= 100 else "%.3g s" % seconds


def took(record: Record) -> str:
    """The time of a job. That of a leaf of another solver's block is not measured, but taken by its
    log."""
    is_known = record.of == 1 or bool(record.turns)
    if not is_known and not record.bytes:
        return "no time"  # the leaf before it has closed it, too
    return "about " * (not is_known) + told(spent(record))


def breaks_of(records: List[Record]) -> Tuple[List[Tuple[float, float]], float]:
    """The times at which nothing ran, between two starts, as pairs of begin and length; and when
    the last job ended."""
    breaks, end = [], records[0].begin
    for record in records:
        if record.begin > end + 2:
            breaks.append((end, record.begin - end))
        end = max(end, record.end)
    return breaks, end


def ran(records: List[Record]) -> float:
    """The seconds by the clock in which jobs ran, in all starts together."""
    if not records:
        return 0.0
    breaks, end = breaks_of(records)
    return end - records[0].begin - sum(length for _, length in breaks)


def size(number: int) -> str:
    return "{:,} bytes".format(number) if number else ""


def megabytes(number: int) -> str:
    return "{:,.0f} MB".format(number / 1e6) if number else ""


def is_race(record: Record) -> bool:
    """Whether its job searched the whole formula beside the leaves."""
    return record.tree == WHOLE.tree


@dataclass(frozen=True)
class State:
    """The leaves of the newest tree, and the records of the jobs that have ended. A leaf is closed
    by its own log, closed by another leaf's log, or open; the record of its job does not tell
    which, since a log may come without a record, be refused, or not be needed."""

    cubes: List[Cube]
    own: FrozenSet[Cube]
    covered: FrozenSet[Cube]
    records: List[Record]
    workers: int = 0  # of a cell

    def last(self) -> Dict[Cube, Record]:
        """The last job of each leaf, or its share of a block's."""
        return {share.cube: share for record in self.records if not is_race(record)
                for share in record.shares()}

    def cut_leaves(self, last: Dict[Cube, Record]) -> List[Record]:
        """The last jobs of leaves that were cut in two."""
        paths = {cube[:depth] for cube in self.cubes for depth in range(len(cube))}
        return [last[path] for path in sorted(paths & last.keys())]

    def facts(self) -> Iterator[Tuple[str, str]]:
        """The figures of the run, as pairs of what and how much."""
        last, whole = self.last(), sum(map(spent, self.records))
        jobs = [last[cube] for cube in self.cubes if cube in self.own and cube in last]
        cut = self.cut_leaves(last)
        yield "leaves", "{:,}".format(len(self.cubes))
        yield "closed by a log of its own", "{:,}".format(len(self.own))
        yield "by another's log", "{:,}".format(len(self.covered))
        yield "open", "{:,}".format(len(self.cubes) - len(self.own) - len(self.covered))
        for record in filter(is_race, self.records):
            yield "the whole formula unsplit", "%s, %s" % (record.outcome, told(spent(record)))
        if cut:
            yield "leaves that were cut", "{:,}".format(len(cut))
            as_one = sum(job.outcome == CLOSED for job in cut)
            yield "of these closed as one", "{:,}".format(as_one)
        if self.workers:
            yield "workers at a time", "{:,}".format(self.workers)
        else:
            yield "jobs", "{:,}".format(len(self.records))
        yield "by the clock", told(ran(self.records))
        yield "time of all jobs", told(whole)
        memory = max((record.memory for record in self.records), default=0)
        if memory:
            yield "most memory", megabytes(memory)
        if jobs:
            times = sorted(map(spent, jobs))
            longest = max(jobs, key=spent)
            yield "mean of a leaf", told(sum(times) / len(times))
            yield "median", told(times[len(times) // 2])
            yield "longest", "%s, %.0f%% of all" % (took(longest), 100 * times[-1] / whole)
            if not self.workers:
                yield "logs", size(sum(job.bytes for job in jobs + cut))
        lemmas = sum(record.lemmas for record in self.records)
        if lemmas:
            yield "lemmas in logs", "{:,}".format(lemmas)


def state_of(run: Run, records: List[Record], is_refuted: bool) -> State:
    leaves = frozenset(run.cubes)
    covered = leaves & run.covered
    own = leaves & run.done - covered
    if is_refuted:  # `join` has found all leaves closed: those without a log by others' logs
        covered = leaves - own
    return State(run.cubes, own, covered, records, run.plan.workers)
