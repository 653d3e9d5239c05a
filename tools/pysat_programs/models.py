#!/usr/bin/env python3
"""Colours a map by PySAT: the fewest colours, and how many ways there are."""
from itertools import combinations

from pysat.card import CardEnc, EncType
from pysat.formula import CNF, IDPool
from pysat.solvers import Solver

EDGES = [("a", "b"), ("a", "c"), ("b", "c"), ("b", "d"), ("c", "d"), ("d", "e")]
PLACES = sorted({place for edge in EDGES for place in edge})


def formula(colours):
    pool = IDPool()
    cnf = CNF()
    for place in PLACES:
        literals = [pool.id((place, colour)) for colour in range(colours)]
        cnf.extend(CardEnc.equals(lits=literals, bound=1, encoding=EncType.pairwise).clauses)
    for one, other in EDGES:
        for colour in range(colours):
            cnf.append([-pool.id((one, colour)), -pool.id((other, colour))])
    return cnf, pool


for colours in (1, 2, 3):
    cnf, pool = formula(colours)
    with Solver(name="g3", bootstrap_with=cnf.clauses, use_timer=True) as solver:
        if not solver.solve():
            print("%d colours: none" % colours)
            continue
        models = list(solver.enum_models())
        print("%d colours: %d ways" % (colours, len(models)))
        for model in models:
            chosen = dict(pool.obj(literal) for literal in model if literal > 0)
            assert all(chosen[one] != chosen[other] for one, other in EDGES)
        assert all(first != second for first, second in combinations(models, 2))
        assert solver.time_accum() >= solver.time() > 0
