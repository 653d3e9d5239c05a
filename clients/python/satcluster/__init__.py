"""A SAT solver that keeps what it learns from query to query, and proves each answer.

    from satcluster import Solver

    with Solver() as solver:
        solver.append_formula([[1, 2], [-1, 2]])
        solver.solve([-2])      # False
        solver.get_core()       # [-2]
        solver.solve([1])       # True
        solver.get_model()      # [1, 2]
        assert solver.verify()  # all answers so far, by `satcluster check --session`

`Solver` has the names of PySAT, and runs the proved program `satcluster` as a process. No answer is
made here: each is one that the program has printed, and the program writes a proof of all of them.
docs/SESSIONS.md tells what is proved.
"""
from .program import ProgramNotFound, SolverError, find
from .runs import Answer, Check, check, check_session, conquer, solve
from .solver import Solver

__all__ = ["Answer", "Check", "ProgramNotFound", "Solver", "SolverError", "check", "check_session",
           "conquer", "find", "solve"]
