#!/usr/bin/env python3
"""Ends a query by a timer, as PySAT's page shows it, and asks for a proof."""
from itertools import combinations
from threading import Timer

from pysat.formula import CNF
from pysat.solvers import Glucose4, Solver


def pigeons(holes):
    cnf = CNF()
    for pigeon in range(holes + 1):
        cnf.append([pigeon * holes + hole + 1 for hole in range(holes)])
    for hole in range(holes):
        for one, other in combinations(range(holes + 1), 2):
            cnf.append([-one * holes - hole - 1, -other * holes - hole - 1])
    return cnf


def interrupt(solver):
    solver.interrupt()


with Solver(name="minisat22", bootstrap_with=pigeons(11).clauses) as solver:
    timer = Timer(0.5, interrupt, [solver])
    timer.start()
    print(solver.solve_limited(expect_interrupt=True))
    print(solver.get_status(), solver.get_model(), solver.get_core())
    timer.cancel()
    solver.clear_interrupt()

with Glucose4(bootstrap_with=pigeons(3), with_proof=True) as solver:
    print(solver.solve())
    proof = solver.get_proof()
    print(proof[-1])
    assert all(line.split()[-1] == "0" for line in proof)
