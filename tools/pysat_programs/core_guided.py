#!/usr/bin/env python3
"""The least cost of a MaxSAT formula, as PySAT's RC2 finds it: cores are made smaller under a
budget, and how many of each core are false is counted."""
from pysat.card import CardEnc, EncType
from pysat.formula import WCNF
from pysat.solvers import Solver

TEXT = """p wcnf 6 14 100
100 1 2 0
100 -1 -2 0
100 2 3 4 0
100 -3 -5 0
100 -4 -5 0
100 5 6 0
100 -6 1 0
100 -2 -6 0
3 -1 0
2 -2 0
4 5 0
1 3 0
1 4 0
2 -6 0
"""


class CoreGuided:
    def __init__(self, formula, solver="g3"):
        self.oracle = Solver(name=solver, bootstrap_with=formula.hard, incr=True, use_timer=True)
        self.top = formula.nv
        self.weights = {}
        self.cost = 0
        for clause, weight in zip(formula.soft, formula.wght):
            self.top += 1
            self.oracle.add_clause(clause + [-self.top])
            self.weights[self.top] = weight

    def __enter__(self):
        return self

    def __exit__(self, *_):
        self.oracle.delete()

    def compute(self):
        while not self.oracle.solve(assumptions=sorted(self.weights)):
            core = self.oracle.get_core()
            if not core:
                return None
            self.relax(self.minimized(core))
        return self.oracle.get_model()

    def minimized(self, core):
        self.oracle.conf_budget(1000)
        at = 0
        while at < len(core):
            tried = core[:at] + core[at + 1:]
            if self.oracle.solve_limited(assumptions=tried) is False:
                core = tried
            elif self.oracle.get_status() is True:
                at += 1
            else:
                break
        self.oracle.conf_budget(-1)
        return core

    def relax(self, core):
        least = min(self.weights[literal] for literal in core)
        self.cost += least
        for literal in core:
            self.weights[literal] -= least
            if not self.weights[literal]:
                del self.weights[literal]
        for bound in range(1, len(core)):  # more than `bound` false ones cost once more
            self.top += 1
            counter = CardEnc.atleast(lits=core, bound=len(core) - bound, top_id=self.top,
                                      encoding=EncType.seqcounter)
            for clause in counter.clauses:
                self.oracle.add_clause(clause + [-self.top])
            self.weights[self.top] = least
            self.top = max(self.top, counter.nv)


formula = WCNF(from_string=TEXT)
with CoreGuided(formula) as search:
    model = set(search.compute())
    paid = sum(weight for clause, weight in zip(formula.soft, formula.wght)
               if not model & set(clause))
    assert all(model & set(clause) for clause in formula.hard)
    assert paid == search.cost
    print("cost %d" % search.cost)
    assert search.oracle.time_accum() > 0
