#!/usr/bin/env python3
"""Why does nothing satisfy a formula? A minimal unsatisfiable subset of its clauses.

    examples/mus.py [FILE]

Each clause has a selector, a variable that switches it on where it is assumed. A core is a set of
clauses that cannot be met together. One after the other is left out, and the solver is asked
whether the others can be met: if so, that clause is needed; if not, the new core has fewer. FILE is
a DIMACS formula, examples/counter_4.cnf if it is left out.
"""
import sys
from pathlib import Path
from textwrap import fill
from typing import List

ROOT = Path(__file__).resolve().parent.parent
sys.path.insert(0, str(ROOT / "clients" / "python"))

from satcluster import Solver, dimacs


def minimal(solver: Solver, selectors: List[int]) -> List[int]:
    """Selectors of clauses of which each is needed: without it the others can be met. The solver
    has just answered False to all selectors."""
    left, needed = solver.get_core() or [], []
    while left:
        tried = left.pop()
        if solver.solve(needed + left):
            needed.append(tried)
        else:
            core = set(solver.get_core() or [])
            left = [selector for selector in left if selector in core]
    return sorted(needed)


def main() -> int:
    name = sys.argv[1] if len(sys.argv) > 1 else str(ROOT / "examples" / "counter_4.cnf")
    with open(name, encoding="ascii", errors="replace") as file:
        clauses = list(dimacs.load(file))
    first = max((abs(literal) for clause in clauses for literal in clause), default=0) + 1
    selectors = list(range(first, first + len(clauses)))
    with Solver() as solver:
        solver.append_formula([-selector, *clause] for selector, clause in zip(selectors, clauses))
        if solver.solve(selectors):
            print("an assignment satisfies all %d clauses" % len(clauses))
        else:
            print("a core of %d clauses, of %d" % (len(solver.get_core() or []), len(clauses)))
            needed = minimal(solver, selectors)
            print("%d of them are a minimal unsatisfiable subset; their numbers are:" % len(needed))
            print(fill(" ".join(str(selector - first + 1) for selector in needed), 78))
        checked = solver.verify()
        print(checked)
    return 0 if checked else 1


if __name__ == "__main__":
    sys.exit(main())
