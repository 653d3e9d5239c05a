#!/usr/bin/env python3
"""Shortest plans, by one horizon after the other: blocks are stacked, or parcels are brought.

    examples/planner.py [blocks|logistics]

Variables say what is true at a time, and which actions are taken in a step. A step more is some
clauses more, and that the goals are met behind it is asked under assumptions. So each horizon that
is too short is proved to be, and the check at the end tests these proofs.
"""
import sys
from itertools import permutations
from pathlib import Path
from typing import Dict, List, NamedTuple, Set, Tuple

sys.path.insert(0, str(Path(__file__).resolve().parent.parent / "clients" / "python"))

from satcluster import Solver


class Action(NamedTuple):
    name: str
    needs: Set[str]
    adds: Set[str]
    deletes: Set[str]


Problem = Tuple[Set[str], Set[str], List[Action]]  # what is true first, the goals, the actions


def stacked(stacks: str) -> Set[str]:
    """What is true of stacks, each spelled from the table up."""
    on = {"%s on %s" % pair for stack in stacks.split() for pair in zip(stack, ["table", *stack])}
    return on | {"clear " + end for end in ["table", *(stack[-1] for stack in stacks.split())]}


def blocks(begin: str = "ABC DEF GH", goals: str = "HCFAG BED") -> Problem:
    """A block is moved from the top of a stack to another top, or to the table."""
    actions = []
    for block, source, target in permutations([*sorted(set(begin) - {" "}), "table"], 3):
        if block != "table":
            old, new = "%s on %s" % (block, source), "%s on %s" % (block, target)
            actions.append(Action("%s from %s to %s" % (block, source, target),
                                  {old, "clear " + block, "clear " + target},
                                  {new, "clear " + source},
                                  {old, "clear " + target} - {"clear table"}))
    return stacked(begin), stacked(goals), actions


def logistics() -> Problem:
    """A lorry in each of three cities, a plane between their airports, and four parcels."""
    cities, actions = ("Kiel", "Oslo", "Rome"), []
    places = {"lorry of " + city: [city, city + " airport"] for city in cities}
    places["plane"] = [city + " airport" for city in cities]
    ways = {"parcel 1": ("Rome", "Oslo"), "parcel 2": ("Oslo", "Kiel airport"),
            "parcel 3": ("Kiel", "Rome"), "parcel 4": ("Rome airport", "Kiel")}
    for vehicle, stops in places.items():
        at = {stop: "%s at %s" % (vehicle, stop) for stop in stops}
        for one, other in permutations(stops, 2):
            name = "%s from %s to %s" % (vehicle, one, other)
            actions.append(Action(name, {at[one]}, {at[other]}, {at[one]}))
        for parcel, stop in ((parcel, stop) for parcel in ways for stop in stops):
            inside, there = "%s in %s" % (parcel, vehicle), "%s at %s" % (parcel, stop)
            for verb, old, new in (("load", there, inside), ("unload", inside, there)):
                name = "%s %s, at %s" % (verb, inside, stop)
                actions.append(Action(name, {at[stop], old}, {new}, {old}))
    begin = {"%s at %s" % (vehicle, stops[0]) for vehicle, stops in places.items()}
    begin |= {"%s at %s" % (parcel, way[0]) for parcel, way in ways.items()}
    return begin, {"%s at %s" % (parcel, way[1]) for parcel, way in ways.items()}, actions


class Encoder:
    """Clauses of a problem. Actions of one step do not disturb each other, so any order will do."""

    def __init__(self, solver: Solver, begin: Set[str], actions: List[Action]) -> None:
        self.solver, self.actions = solver, actions
        self.numbers: Dict[Tuple[str, int], int] = {}
        self.facts = sorted(begin.union(*(one.needs | one.adds for one in actions)))
        self.disturb = [(one.name, other.name) for one, other in permutations(actions, 2)
                        if one.deletes & (other.needs | other.adds)]
        solver.append_formula([self.at(fact, 0) * (1 if fact in begin else -1)]
                              for fact in self.facts)

    def at(self, name: str, time: int) -> int:
        return self.numbers.setdefault((name, time), len(self.numbers) + 1)

    def add_step(self, step: int) -> None:
        give, at = self.solver.add_clause, self.at
        for fact in self.facts:  # what changes is changed by an action
            old, new = at(fact, step), at(fact, step + 1)
            give([old, -new, *(at(one.name, step) for one in self.actions if fact in one.adds)])
            give([-old, new, *(at(one.name, step) for one in self.actions if fact in one.deletes)])
        for one in self.actions:
            for facts, sign, time in ((one.needs, 1, step), (one.adds, 1, step + 1),
                                      (one.deletes, -1, step + 1)):
                for fact in sorted(facts):
                    give([-at(one.name, step), sign * at(fact, time)])
        for name, other in self.disturb:
            give([-at(name, step), -at(other, step)])


def main() -> int:
    begin, goals, actions = logistics() if sys.argv[1:] == ["logistics"] else blocks()
    with Solver() as solver:
        encoder, steps = Encoder(solver, begin, actions), 0
        while not solver.solve(encoder.at(goal, steps) for goal in sorted(goals)):
            encoder.add_step(steps)
            steps += 1
            print("more than %d steps" % (steps - 1))
        true = set(solver.get_model() or ())
        for time in range(steps):
            taken = (one.name for one in actions if encoder.at(one.name, time) in true)
            print("step %d:" % (time + 1), *taken, sep="\n  ")
        checked = solver.verify()
        print(checked)
    return 0 if checked else 1


if __name__ == "__main__":
    sys.exit(main())
