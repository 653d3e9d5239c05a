#!/usr/bin/env python3
"""Enumerates the smallest sets that meet each of some sets, as PySAT's Hitman does: by models, of
which each is made smaller by a bound that is assumed."""
from pysat.card import CardEnc, EncType
from pysat.formula import IDPool
from pysat.solvers import Solver

SETS = [["a", "b", "c"], ["a", "d"], ["b", "d", "e"], ["c", "e"], ["a", "f"]]


class Hitter:
    def __init__(self, sets, solver="m22"):
        self.pool = IDPool()
        self.oracle = Solver(name=solver)
        for one in sets:
            self.hit(one)

    def hit(self, one):
        self.oracle.add_clause([self.pool.id(item) for item in one])

    def block(self, one):
        self.oracle.add_clause([-self.pool.id(item) for item in one])

    def get(self):
        """A smallest set that meets all."""
        items = [self.pool.id(item) for one in SETS for item in one]
        items = sorted(set(items))
        for bound in range(1, len(items) + 1):
            switch = self.pool.id(("at most", bound, object()))
            counter = CardEnc.atmost(lits=items, bound=bound, vpool=self.pool,
                                     encoding=EncType.totalizer)
            for clause in counter.clauses:
                self.oracle.add_clause(clause + [-switch])
            if self.oracle.solve(assumptions=[switch]):
                true = set(self.oracle.get_model())
                return sorted(self.pool.obj(item) for item in items if item in true)
            assert self.oracle.get_core() in ([switch], [])
        return None

    def enumerate(self):
        found = self.get()
        while found is not None:
            yield found
            self.block(found)
            found = self.get()

    def delete(self):
        self.oracle.delete()


hitter = Hitter(SETS)
for number, found in enumerate(hitter.enumerate()):
    assert all(set(found) & set(one) for one in SETS)
    if len(found) > 3:
        break
    print(" ".join(found))
hitter.delete()
