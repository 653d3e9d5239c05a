"""The line of progress: what is closed, what runs, and how much time is left.

The time left is an interval, reckoned from the times of the leaves that were closed. It is no more
than a guess: the leaves to come may be harder than all before. So it is wide, and `unknown` while
few leaves are closed.
"""
import math
from dataclasses import dataclass, field
from typing import List, Optional, Sequence, Tuple

from leaf_jobs.screen import clock

LEAST = 8  # closed leaves before there is an interval
LATELY = 16  # leaves whose times tell how the next ones will be
DOUBT = 2.0  # standard deviations to both sides
EASIER, HARDER = 0.3, 1.8  # what the leaves to come may take of what those before have taken
END = 1  # seconds that the last logs take to be joined


@dataclass(frozen=True)
class Now:
    """What runs at a moment."""

    elapsed: Sequence[float] = ()  # the seconds that each job has searched its present leaf
    behind: Sequence[int] = ()  # how many leaves each has beside that one; none if left out
    races: int = 0  # how many more jobs search the whole formula
    most: int = 1  # how many jobs may run
    searched: int = 0  # leaves that jobs have closed which still run

    @property
    def sizes(self) -> Sequence[int]:
        """How many leaves each job has."""
        return [1 + behind for behind in self.behind] or [1] * len(self.elapsed)

    @property
    def leaves(self) -> int:
        return sum(self.sizes)


@dataclass
class Times:
    """The seconds of the leaves that were closed, in the order in which they were. A leaf of
    another solver's block has an equal share."""

    all: List[float] = field(default_factory=list)

    def mean(self) -> float:
        return sum(self.all) / max(1, len(self.all))

    def lately(self) -> float:
        """The greater of the mean of all, and that of the last ones."""
        last = self.all[-LATELY:]
        return max(self.mean(), sum(last) / max(1, len(last)))

    def left(self, now: Now, waiting: int) -> Optional[Tuple[float, float]]:
        """The least and the most seconds until all leaves are closed; None if too few were."""
        count, mean, lately = len(self.all), self.mean(), self.lately()
        if count < LEAST:
            return None
        spread = math.sqrt(sum((seconds - mean) ** 2 for seconds in self.all) / count)
        leaves = waiting + now.leaves
        doubt = DOUBT * spread * math.sqrt(leaves * (1 + leaves / count))
        rests = [self.rest(size, elapsed) for size, elapsed in zip(now.sizes, now.elapsed)]
        workers = max(1, len(now.elapsed), now.most - now.races)
        middle = sorted(self.all)[count // 2]
        low = waiting * min(middle, mean) + sum(least for least, _ in rests) - doubt
        high = waiting * lately + sum(most for _, most in rests) + doubt
        longest = max([most for _, most in rests] + [max(self.all) * bool(waiting)])
        return max(0.0, EASIER * low / workers), HARDER * max(high / workers, longest) + END

    def rest(self, leaves: int, elapsed: float) -> Tuple[float, float]:
        """The least and the most seconds that a job still takes which has run so long. One that has
        run longer than was to be expected may go on as long as it has."""
        if leaves > 1:
            most = 2 * leaves * self.lately() - elapsed
            return max(0.0, leaves * self.mean() - elapsed), max(most, elapsed)
        return 0.0, max(max(self.all) - elapsed, elapsed)


def line(closed: int, leaves: int, now: Now, gone: float, left: str, cut: int, width: int) -> str:
    """What is known, as far as there is room: no word is cut."""
    runs = "%s on %s" % (counted(len(now.elapsed), "job", "jobs"),
                         counted(now.leaves, "leaf", "leaves"))
    unsplit = "%d unsplit" % now.races if now.races else ""
    runs = " + ".join(filter(None, [runs, unsplit])) if now.elapsed else unsplit or runs
    parts = ["c %d of %d leaves closed" % (closed, leaves), "%s gone" % clock(gone), left, runs,
             "%d cut" % cut if cut else ""]
    kept = parts[:1]
    for part in filter(None, parts[1:]):
        if len(", ".join(kept + [part])) <= width:
            kept.append(part)
    return ", ".join(kept)


def told(times: Times, span: Optional[Tuple[float, float]]) -> str:
    """The time left, in words."""
    if span:
        low, high = map(clock, span)
        return "%s to %s left" % (low, high) if span[0] >= 1 else "up to %s left" % high
    if not times.all:
        return "time left unknown"
    so_far = counted(len(times.all), "leaf", "leaves")
    return "time left unknown: %s of %s so far" % (so_far, clock(times.mean()))


def counted(count: int, one: str, many: str) -> str:
    return "%d %s" % (count, one if count == 1 else many)
