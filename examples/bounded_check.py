#!/usr/bin/env python3
"""Can two processes be in their critical sections at once? Peterson's lock, step by step.

    examples/bounded_check.py [STEPS]

Each process goes round four places: it raises its flag, gives the turn to the other one, waits
until the other's flag is down or the turn is its own, and is in its critical section. In each step
one of them moves. The lock is looked at for so many steps (30), and so is one with a fault, which
gives the turn before it raises the flag.
"""
import sys
from pathlib import Path
from typing import Dict, Tuple

sys.path.insert(0, str(Path(__file__).resolve().parent.parent / "clients" / "python"))

from satcluster import Solver

IDLE, ANNOUNCE, WAIT, CRITICAL = range(4)
NAMES = ("idle", "announces", "waits", "CRITICAL")


class Lock:
    """A lock, whose states are variables: the processes' places and flags, the turn, who moves."""

    def __init__(self, solver: Solver, has_fault: bool) -> None:
        self.solver = solver
        self.numbers: Dict[Tuple[object, ...], int] = {}
        self.flag_rises, self.turn_goes = (ANNOUNCE, IDLE) if has_fault else (IDLE, ANNOUNCE)
        for process in (0, 1):
            solver.add_clause([self.at(0, "place", process, IDLE)])
            solver.add_clause([-self.at(0, "flag", process)])
        self.has_one_place(0)

    def at(self, time: int, *what: object) -> int:
        return self.numbers.setdefault((time, *what), len(self.numbers) + 1)

    def has_one_place(self, time: int) -> None:
        for process in (0, 1):
            places = [self.at(time, "place", process, place) for place in range(4)]
            self.solver.add_clause(places)
            self.solver.append_formula([-one, -other] for one in places for other in places
                                       if one < other)

    def equals(self, condition: Tuple[int, ...], one: int, other: int) -> None:
        """Where all of the condition is true both literals are true, or none."""
        front = [-literal for literal in condition]
        self.solver.append_formula([[*front, -one, other], [*front, one, -other]])

    def add_step(self, time: int) -> None:
        self.has_one_place(time + 1)
        for process in (0, 1):
            self.add_moves(time, process)

    def add_moves(self, time: int, process: int) -> None:
        """What the process does if it moves, and that all of its own stays if it does not."""
        give, at, other = self.solver.add_clause, self.at, 1 - process
        moves = at(time, "second moves") if process else -at(time, "second moves")
        mine, turn, after = ((1 if process else -1) * at(when, "turn of second")
                             for when in (time, time, time + 1))
        flag, flag_after = at(time, "flag", process), at(time + 1, "flag", process)
        is_free = at(time, "free", process)  # the other's flag is down, or it is our turn
        self.solver.append_formula([[-is_free, -at(time, "flag", other), mine], [is_free, -mine],
                                    [is_free, at(time, "flag", other)]])
        for place in range(4):
            here, stays = at(time, "place", process, place), at(time + 1, "place", process, place)
            goes = at(time + 1, "place", process, (place + 1) % 4)
            give([moves, -here, stays])
            give([-moves, -here, goes] + [-is_free] * (place == WAIT))
            if place == WAIT:
                give([-moves, -here, is_free, stays])
            if place == self.turn_goes:
                give([-moves, -here, -after])
            else:
                self.equals((moves, here), turn, after)
            if place in (self.flag_rises, CRITICAL):
                give([-moves, -here, flag_after if place != CRITICAL else -flag_after])
            else:
                self.equals((moves, here), flag, flag_after)
        self.equals((-moves,), flag, flag_after)


def run(steps: int, has_fault: bool) -> bool:
    """Looks at a lock, and tells whether what was found has been verified."""
    print("a lock with a fault:" if has_fault else "Peterson's lock:")
    with Solver() as solver:
        lock = Lock(solver, has_fault)
        for time in range(steps + 1):
            if solver.solve([lock.at(time, "place", process, CRITICAL) for process in (0, 1)]):
                true = set(solver.get_model() or ())
                for then in range(time + 1):
                    places = [NAMES[place] for process in (0, 1) for place in range(4)
                              if lock.at(then, "place", process, place) in true]
                    print("  step %2d: %-10s %s" % (then, *places))
                break
            lock.add_step(time)
        else:
            print("  never both, for %d steps" % steps)
        checked = solver.verify()
        print("  %s" % checked)
    return bool(checked)


if __name__ == "__main__":
    STEPS = int(sys.argv[1]) if len(sys.argv) > 1 else 30
    sys.exit(not all([run(STEPS, False), run(STEPS, True)]))
