#!/usr/bin/env python3
"""Writes 30 MaxSAT formulas of four kinds, the same ones in every run.

    tools/maxsat_instances.py FOLDER

Planning: plans of some steps whose actions cost. Configuration: packages with versions that need
and exclude each other, to be upgraded with few changes. Scheduling: lectures in slots and rooms by
wishes, and shifts of a crew. Drawn: clauses, covers and cuts of random graphs, and sets.
"""
import random
import sys
from dataclasses import dataclass
from itertools import combinations
from pathlib import Path
from typing import Callable, Dict, Iterable, Iterator, List, Set, Tuple

ROOT = Path(__file__).resolve().parent.parent
sys.dont_write_bytecode = True
sys.path[:0] = [str(ROOT / "clients" / "python"), str(ROOT / "examples")]

import planner
from satcluster.wcnf import Formula, Soft


class Builder(Formula):
    """A formula that grows; `append_formula` and `add_clause` give hard clauses."""

    def new(self, count: int) -> List[int]:
        self.variables += count
        return list(range(self.variables - count + 1, self.variables + 1))

    def add_clause(self, clause: Iterable[int]) -> None:
        literals = list(clause)
        self.variables = max([self.variables] + [abs(literal) for literal in literals])
        self.hard.append(literals)

    def append_formula(self, clauses: Iterable[Iterable[int]]) -> None:
        for clause in clauses:
            self.add_clause(clause)

    def wish(self, weight: int, *clause: int) -> None:
        self.soft.append(Soft(weight, list(clause)))

    def at_most(self, most: int, literals: List[int]) -> None:
        """By a sequential counter: row K of place I is true if K of the first I literals are."""
        before: List[int] = []
        for literal in literals:
            rows = self.new(most)
            for row in range(most):
                if row < len(before):
                    self.add_clause([-before[row], rows[row]])
                lower = [-before[row - 1]] if row and row - 1 < len(before) else []
                if row == 0 or lower:
                    self.add_clause([-literal, *lower, rows[row]])
            if before:
                self.add_clause([-literal, -before[most - 1]])
            before = rows

    def exactly_one(self, literals: List[int]) -> None:
        self.add_clause(literals)
        self.append_formula([-one, -other] for one, other in combinations(literals, 2))


def plan(problem: planner.Problem, steps: int, cost: Callable[[str], int]) -> Builder:
    """Plans of so many steps, in which each action that is taken costs."""
    built = Builder()
    begin, goals, actions = problem
    encoder = planner.Encoder(built, begin, actions)  # type: ignore[arg-type]
    for step in range(steps):
        encoder.add_step(step)
        for action in actions:
            built.wish(cost(action.name), -encoder.at(action.name, step))
    built.append_formula([encoder.at(goal, steps)] for goal in sorted(goals))
    return built


def logistics(draw: random.Random, steps: int) -> Builder:
    begin, goals, actions = planner.logistics()
    parcels = sorted(goals)
    drawn = {"%s at %s" % (one.split(" at ")[0], draw.choice(("Kiel", "Oslo", "Rome")))
             for one in parcels}
    fares = {"plane": draw.randint(20, 40), "lorry": draw.randint(3, 9)}

    def cost(name: str) -> int:
        return next((fares[one] for one in fares if name.startswith(one)), 1)

    return plan((begin, drawn, actions), steps, cost)


def blocks(draw: random.Random, names: str, steps: int) -> Builder:
    def stacks() -> str:
        drawn = draw.sample(names, len(names))
        return "".join(name + " " * (draw.random() < 0.3) for name in drawn)

    weights = {name: draw.randint(1, 9) for name in names}
    return plan(planner.blocks(stacks(), stacks()), steps, lambda name: weights[name[0]])


@dataclass(frozen=True)
class Package:
    """Versions by their variables, the older first. A version needs one of each of some lists, and
    excludes others."""

    versions: List[int]
    needs: Dict[int, List[List[int]]]
    excludes: Dict[int, List[int]]


def drawn_packages(draw: random.Random, built: Builder, count: int) -> List[Package]:
    """Each needs some of those before it."""
    packages: List[Package] = []
    for at in range(count):
        own = built.new(draw.randint(1, 4))
        needs: Dict[int, List[List[int]]] = {}
        for version in own:
            chosen = draw.sample(packages, min(at, draw.choice((0, 1, 1, 2, 3))))
            needs[version] = [one.versions[draw.randrange(len(one.versions)):] for one in chosen]
            if at > 10 and draw.random() < 0.3 and needs[version]:
                needs[version][0] = needs[version][0] + draw.choice(packages).versions
        excludes = {version: draw.choice(packages).versions[:1]
                    for version in own if at and draw.random() < 0.3}
        packages.append(Package(own, needs, excludes))
    return packages


def configuration(draw: random.Random, count: int, equal: bool) -> Builder:
    """Some packages are there; a few more are wanted, and newer versions, for small changes."""
    built = Builder()
    packages = drawn_packages(draw, built, count)
    for package in packages:
        built.append_formula([-one, -other] for one, other in combinations(package.versions, 2))
        for version in package.versions:
            built.append_formula([-version, *choice] for choice in package.needs[version])
            built.append_formula([-version, -one] for one in package.excludes.get(version, ()))
    there: Set[int] = set()
    for package in packages:
        fit = [version for version in package.versions
               if all(there.intersection(choice) for choice in package.needs[version])
               and not there.intersection(package.excludes.get(version, ()))]
        if fit and draw.random() < 0.6:
            there.add(draw.choice(fit))
    for package in packages:
        size = 1 if equal else draw.randint(1, 30)
        own = there.intersection(package.versions)
        for version in package.versions:
            if version in own:  # it stays, or is replaced by a newer one
                built.wish(3 * size, *(one for one in package.versions if one >= version))
            elif not own:
                built.wish(size, -version)
        if own and draw.random() < 0.3:
            built.wish(2 * size, package.versions[-1])
        if not own and draw.random() < 0.05:
            built.wish(20 * size, *package.versions)
    return built


def lectures(draw: random.Random, count: int, slots: int, rooms: int) -> Builder:
    """Each has one slot; those with students or a teacher in common have two; few fit at once."""
    built = Builder()
    places = [built.new(slots) for _ in range(count)]
    for place in places:
        built.exactly_one(place)
    for one, other in combinations(range(count), 2):
        if draw.random() < 0.2:
            built.append_formula([-places[one][slot], -places[other][slot]]
                                 for slot in range(slots))
        elif draw.random() < 0.1:
            for slot in range(slots):
                built.wish(draw.randint(1, 3), -places[one][slot], -places[other][slot])
    for slot in range(slots):
        built.at_most(rooms, [place[slot] for place in places])
    for place in places:
        for slot in range(slots):
            built.wish(draw.randint(1, 10), -place[slot])
    return built


def shifts(draw: random.Random, crew: int, days: int) -> Builder:
    """Early, late and night: no early after a night, five of seven days, and wishes."""
    built = Builder()
    work = [[built.new(3) for _ in range(days)] for _ in range(crew)]
    for person in work:
        for day in person:
            built.append_formula([-one, -other] for one, other in combinations(day, 2))
        for today, tomorrow in zip(person, person[1:]):
            built.add_clause([-today[2], -tomorrow[0]])
            built.wish(2, -today[2], tomorrow[2])
        for first in range(days - 6):
            built.at_most(5, [one for day in person[first:first + 7] for one in day])
        for day in person:
            for one in day:
                if draw.random() < 0.3:
                    built.wish(draw.randint(1, 8), one if draw.random() < 0.3 else -one)
    for at in range(days):
        for shift in range(3):
            of_shift = [person[at][shift] for person in work]
            for left_out in combinations(of_shift, crew - draw.choice((1, 1, 2)) + 1):
                built.add_clause(left_out)
    return built


def drawn(draw: random.Random, variables: int, hard: int, soft: int, size: int,
          weight: int) -> Builder:
    built = Builder(variables)

    def clause() -> List[int]:
        return [draw.choice((1, -1)) * one
                for one in draw.sample(range(1, variables + 1), size)]

    built.append_formula(clause() + [draw.randint(1, variables)] for _ in range(hard))
    for _ in range(soft):
        built.wish(draw.randint(1, weight), *clause())
    return built


def cover(draw: random.Random, nodes: int, edges: int, weight: int) -> Builder:
    built = Builder(nodes)
    built.append_formula(draw.sample(range(1, nodes + 1), 2) for _ in range(edges))
    for node in range(1, nodes + 1):
        built.wish(draw.randint(1, weight), -node)
    return built


def cut(draw: random.Random, nodes: int, edges: int) -> Builder:
    built = Builder(nodes)
    for _ in range(edges):
        one, other = draw.sample(range(1, nodes + 1), 2)
        built.wish(1, one, other)
        built.wish(1, -one, -other)
    return built


def sets(draw: random.Random, count: int, elements: int) -> Builder:
    built = Builder(count)
    built.append_formula(draw.sample(range(1, count + 1), draw.randint(3, 6))
                         for _ in range(elements))
    for one in range(1, count + 1):
        built.wish(draw.randint(1, 20), -one)
    return built


def instances() -> Iterator[Tuple[str, Builder]]:
    for at, steps in enumerate((11, 12, 13, 14)):
        yield "planning-logistics-%d" % steps, logistics(random.Random(at), steps)
    for at, (names, steps) in enumerate((("ABCDEF", 5), ("ABCDEF", 7), ("ABCDEFG", 7),
                                         ("ABCDEFG", 8))):
        yield "planning-blocks-%d-%d" % (len(names), steps), blocks(random.Random(at), names, steps)
    for count, equal in ((300, False), (600, True), (1000, False), (1500, True), (2500, False),
                         (4000, True), (6000, False)):
        yield "configuration-%d" % count, configuration(random.Random(count), count, equal)
    for count, slots, rooms in ((16, 5, 4), (20, 6, 4), (24, 7, 4), (28, 8, 4)):
        yield "scheduling-lectures-%d" % count, lectures(random.Random(count), count, slots, rooms)
    for crew, days in ((7, 14), (7, 21), (8, 21), (8, 28)):
        draw = random.Random(days + crew)
        yield "scheduling-shifts-%d-%d" % (crew, days), shifts(draw, crew, days)
    made: Tuple[Tuple[str, Callable[[random.Random], Builder]], ...] = (
        ("clauses-2", lambda draw: drawn(draw, 60, 0, 180, 2, 10)),
        ("clauses-3", lambda draw: drawn(draw, 60, 100, 320, 3, 100)),
        ("clauses-3-equal", lambda draw: drawn(draw, 60, 100, 320, 3, 1)),
        ("cover", lambda draw: cover(draw, 150, 300, 50)),
        ("cover-equal", lambda draw: cover(draw, 120, 240, 1)),
        ("cut", lambda draw: cut(draw, 40, 80)),
        ("sets", lambda draw: sets(draw, 120, 150)))
    for name, draw_one in made:
        yield "drawn-" + name, draw_one(random.Random(name))


def text(formula: Formula) -> str:
    """In the form of today."""
    rows = [["h", *clause, 0] for clause in formula.hard]
    rows += [[weight, *clause, 0] for weight, clause in formula.soft]
    return "".join(" ".join(map(str, row)) + "\n" for row in rows)


def main() -> None:
    if len(sys.argv) != 2:
        sys.exit(__doc__)
    folder = Path(sys.argv[1])
    folder.mkdir(parents=True, exist_ok=True)
    for name, formula in instances():
        (folder / (name + ".wcnf")).write_text(text(formula), encoding="ascii")
        print("%s: %d variables, %d hard and %d soft clauses" % (
            name, formula.variables, len(formula.hard), len(formula.soft)))


if __name__ == "__main__":
    main()
