#!/usr/bin/env python3
"""Runs PySAT's names over the proved program: each one, and programs that are written for PySAT.

    tools/pysat_test.py PATH-OF-satcluster [CASE ..]

`python-sat` is not needed. The programs of tools/pysat_programs are written from its documentation;
a copy of its package that has only a `formula` of its own stands for an installed one.
"""
import contextlib
import io
import itertools
import os
import random
import subprocess
import sys
import threading
from pathlib import Path
from typing import Any, Callable, Dict, List

sys.dont_write_bytecode = True

from cases import ROOT as TOOLS, FolderCase, pigeons, run

CLIENT = TOOLS.parent / "clients" / "python"
PROGRAMS = TOOLS / "pysat_programs"
sys.path.insert(0, str(CLIENT))

import satcluster
from satcluster import dimacs, told
from satcluster.pysat import card, formula, solvers

SECONDS = 60  # how long a program may run
PRINTED = {
    "models": "1 colours: none\n2 colours: none\n3 colours: 12 ways\n",
    "hitting_sets": "a e\na b c\na c d\nc d f\n",
    "core_guided": "cost 4\n",
    "bounded": "step 11: 0 1 2 3 4 5 6 7 8 9 10 11\n92 variables\n",
    "interrupted": "None\nNone None None\nFalse\n0\n"}
TOLD = "c satcluster answers in the place of every solver of PySAT\n"


def hard(holes: int = 7) -> List[List[int]]:
    return list(dimacs.load(io.StringIO(pigeons(holes))))


def assignments(variables: int) -> List[List[int]]:
    return [[v if value else -v for v, value in enumerate(values, 1)]
            for values in itertools.product((False, True), repeat=variables)]


class Names(FolderCase):
    """What `Solver` has under PySAT's names."""

    def solver(self, *given: Any, **more: Any) -> satcluster.Solver:
        solver = satcluster.Solver(*given, **more)
        self.addCleanup(solver.close)
        return solver

    def test_a_name_is_told_once(self) -> None:
        told._said.clear()
        with contextlib.redirect_stderr(io.StringIO()) as errors:
            for name in ("g4", "cadical153", "satcluster"):
                self.assertEqual(1, self.solver(name, [[1, 2]]).nof_clauses())
                self.assertEqual(2, self.solver(name=name, bootstrap_with=[[1, 2]]).nof_vars())
            self.assertIs(True, self.solver([[1]], use_timer=True, incr=True).solve())
        self.assertEqual(TOLD, errors.getvalue())
        self.assertRaises(TypeError, satcluster.Solver, no_such_word=True)
        self.assertRaises(ValueError, satcluster.Solver, records=False, with_proof=True)

    def test_clauses(self) -> None:
        """Lists, iterators and formulas; and whether they are known to have no model."""
        clauses = formula.CNF(from_clauses=[[1, 2], [-1, 2]])
        for given in (clauses, clauses.clauses, iter(clauses), (iter(one) for one in clauses)):
            solver = self.solver(bootstrap_with=given)
            self.assertEqual((2, 2), (solver.nof_clauses(), solver.nof_vars()))
        self.assertIsNone(solver.add_clause([3]))
        self.assertIs(True, solver.add_clause([-3], no_return=False))
        self.assertIsNone(solver.append_formula([[4]]))
        self.assertEqual((False, []), (solver.solve(), solver.get_core()))
        self.assertIs(False, solver.append_formula([[5]], no_return=False))
        self.assertEqual(6, solver.nof_clauses())

    def test_status(self) -> None:
        solver = self.solver([[1, 2]])
        self.assertEqual((None, None, None),
                         (solver.get_status(), solver.get_model(), solver.get_core()))
        self.assertEqual((True, True), (solver.solve(assumptions=[-1]), solver.get_status()))
        solver.add_clause([7])
        self.assertEqual([-1, 2], solver.get_model())
        self.assertEqual((False, False), (solver.solve([-1, -2]), solver.get_status()))
        self.assertEqual({-1, -2}, set(solver.get_core() or ()))

    def test_models_are_shut_out_before_they_are_told(self) -> None:
        solver = self.solver([[1, 2]])
        first = next(solver.enum_models())
        self.assertTrue(solver.solve())
        self.assertNotEqual(first, solver.get_model())

    def test_budgets(self) -> None:
        solver = self.solver(hard(), limit=50)
        solver.conf_budget(120)
        self.assertIsNone(solver.solve_limited())
        self.assertEqual(3, solver.nof_queries())
        self.assertIsNone(solver.solve_limited([], True))
        self.assertEqual(6, solver.nof_queries())
        self.assertIsNone(solver.solve_limited(budget=50))
        self.assertEqual(7, solver.nof_queries())
        solver.conf_budget(-1)
        solver.prop_budget(0)
        self.assertIs(False, solver.solve_limited(expect_interrupt=True))

    def test_interrupts(self) -> None:
        """A query ends at its step, and none is asked before the interrupt is cleared."""
        solver = self.solver(hard(11), limit=50)
        timer = threading.Timer(0.3, solver.interrupt)
        timer.start()
        self.addCleanup(timer.cancel)
        self.assertIsNone(solver.solve_limited(expect_interrupt=True))
        asked = solver.nof_queries()
        self.assertIsNone(solver.solve_limited())
        self.assertEqual((asked, None), (solver.nof_queries(), solver.get_status()))
        solver.clear_interrupt()
        self.assertIsNone(solver.solve_limited(budget=1))
        self.assertEqual(asked + 1, solver.nof_queries())

    def test_not_there(self) -> None:
        """What the program has no event for is refused, and nothing is sent."""
        solver = self.solver([[1]])
        calls: List[Callable[[], object]] = [
            solver.propagate, lambda: solver.set_phases([1]), lambda: solver.prop_budget(9),
            lambda: solver.dec_budget(9), lambda: solver.start_mode(warm=True)]
        for call in calls:
            self.assertRaises(NotImplementedError, call)
        solver.start_mode()
        self.assertTrue(solver.solve())

    def test_times_and_counts(self) -> None:
        solver = self.solver(hard(5))
        self.assertEqual((0.0, 0.0), (solver.time(), solver.time_accum()))
        solver.solve()
        first = solver.time()
        solver.solve()
        self.assertAlmostEqual(first + solver.time(), solver.time_accum())
        stats = solver.accum_stats()
        self.assertEqual({"restarts", "conflicts", "decisions", "propagations"}, set(stats))
        self.assertGreater(stats["conflicts"], 10)
        self.assertEqual(0, self.solver(records=False).accum_stats()["conflicts"])

    def test_proof(self) -> None:
        """It is a DRAT proof of the formula, and ends with the negation of a core."""
        clauses = hard()
        solver = self.solver(clauses, with_proof=True)
        self.assertEqual([], solver.get_proof())
        self.assertFalse(solver.solve())
        with self.at("f.cnf").open("w") as file:
            dimacs.dump(clauses, file)
        proof = solver.get_proof()
        self.assertEqual("0", proof[-1])
        self.assertTrue(any(line.startswith("d ") for line in proof))
        self.assert_drat(proof)
        other = self.solver([[1, 2], [-1, 2]])
        self.assertFalse(other.solve([3, -2]))
        self.assertEqual("2 0", other.get_proof()[-1])
        other.close()
        self.assertRaises(ValueError, other.get_proof)
        self.assertRaises(ValueError, self.solver(records=False).get_proof)

    def assert_drat(self, proof: List[str]) -> None:
        self.write("f.drat", "".join(line + "\n" for line in proof))
        process = self.start("check", "--drat", "f.cnf", "f.drat", encoding="ascii")
        self.assertIn("s VERIFIED\n", process.communicate(timeout=SECONDS)[0])

    def test_at_most(self) -> None:
        """Beside all assignments. Variables that are named later are none of the counter's."""
        for seed in range(30):
            draw = random.Random(seed)
            literals = [draw.choice((1, -1)) * one for one in range(1, draw.randint(2, 6))]
            weights = [draw.randint(0, 3) for _ in literals] if seed % 2 else []
            bound, last = draw.randint(0, 6), len(literals) + 2
            solver = self.solver()
            self.assertTrue(solver.supports_atmost())
            solver.add_atmost(literals, bound, weights)
            solver.add_clause([last, last - 1, -1])
            wanted = [one for one in assignments(last)
                      if {last, last - 1, -1} & set(one) and bound >= sum(
                          weight for literal, weight in zip(literals, weights or [1] * 6)
                          if literal in one)]
            self.assertEqual(sorted(wanted), sorted(solver.enum_models()), seed)
            self.assertTrue(solver.verify())

    def test_formulas_with_bounds(self) -> None:
        """As PySAT's `CNFPlus` has them."""
        bounded = formula.CNF(from_clauses=[[1, 2, 3]])
        setattr(bounded, "atmosts", [[[1, 2, 3], 1], [[3, 4], 2, [2, 1]]])
        models = [{-1, 2, -3}, {1, -2, -3}, {-1, -2, 3, -4}]
        found = list(self.solver(bounded).enum_models())
        self.assertEqual(5, len(found))
        self.assertTrue(all(any(model <= set(one) for model in models) for one in found))

    def test_at_most_in_cores(self) -> None:
        solver = self.solver([[1, 2]])
        self.assertIs(True, solver.add_atmost(lits=[1, 2, 3, 4], k=1, no_return=False))
        self.assertFalse(solver.solve([9, 4, -8]))
        self.assertEqual([4], solver.get_core())
        self.assertTrue(solver.solve([9, -8]))
        self.assertEqual([-8, 9], (solver.get_model() or [])[7:])
        solver.add_clause([12])
        self.assertEqual(9, len(solver.get_model() or []))
        self.assertEqual((12, 2), (solver.nof_vars(), solver.nof_clauses()))
        self.assertRaises(ValueError, solver.add_atmost, [1, 0], 1)
        self.assertRaises(ValueError, solver.add_atmost, [1, 2], 1, [1])
        self.assertRaises(ValueError, solver.add_atmost, [1, 2], 1, [1, -1])
        solver.add_atmost([1], -1)
        self.assertFalse(solver.solve())


class StandIn(FolderCase):
    """The modules in the place of PySAT's."""

    def test_solvers(self) -> None:
        """Each name is one of them, and those of no solver are refused."""
        classes = [one for one in vars(solvers).values()
                   if isinstance(one, type) and issubclass(one, solvers._Named)]
        self.assertEqual(18, len(classes))
        for one in classes[1:]:
            with one([[1], [-1, 2]], True, with_proof=False) as solver:
                self.assertEqual((True, [1, 2]), (solver.solve(), solver.get_model()))
        self.assertRaises(solvers.NoSuchSolverError, solvers.Solver, name="none")
        with solvers.Solver(solvers.SolverNames.mergesat3[0]) as solver:
            self.assertRaises(ValueError, solver.get_proof)

    def test_files_of_the_environment(self) -> None:
        env = {"SATCLUSTER_EVENTS": str(self.at("e-")), "SATCLUSTER_PROOF": str(self.at("p-"))}
        done = self.program_of_pysat("hitting_sets", env)
        self.assertEqual((0, PRINTED["hitting_sets"]), (done.returncode, done.stdout))
        events, = self.folder.glob("e-*-1.icnf")
        proof, = self.folder.glob("p-*-1.lidrup")
        self.assertTrue(satcluster.check_session(events, proof))

    def program_of_pysat(self, name: str,
                         more: Dict[str, str]) -> "subprocess.CompletedProcess[str]":
        env = {**os.environ, "PYTHONPATH": str(CLIENT), "PYTHONDONTWRITEBYTECODE": "1", **more}
        words = [sys.executable, "-m", "satcluster.as_pysat", str(PROGRAMS / (name + ".py"))]
        return subprocess.run(words, env=env, stdout=subprocess.PIPE, stderr=subprocess.PIPE,
                              encoding="utf-8", timeout=SECONDS, cwd=str(self.folder))

    def test_programs(self) -> None:
        self.assertEqual({path.stem for path in PROGRAMS.glob("*.py")}, set(PRINTED))
        for name, printed in PRINTED.items():
            done = self.program_of_pysat(name, {})
            self.assertEqual((0, printed, TOLD), (done.returncode, done.stdout, done.stderr), name)

    def test_installed_package(self) -> None:
        """Of an installed `pysat` only the solvers are replaced, also within it."""
        package = self.at("pysat")
        (package / "examples").mkdir(parents=True)
        for name, text in (("__init__", ""), ("examples/__init__", ""),
                           ("solvers", "raise ImportError('theirs')\n"),
                           ("formula", "IS = 'theirs'\n"),
                           ("examples/rc2", "from pysat.solvers import Solver\n"
                                            "import pysat.formula, sys\n"
                                            "print(Solver.__module__, pysat.formula.IS, "
                                            "pysat.solvers.__name__, __name__, sys.argv[1:])\n")):
            (package / (name + ".py")).write_text(text)
        env = {**os.environ, "PYTHONPATH": os.pathsep.join([str(CLIENT), str(self.folder)])}
        words = [sys.executable, "-B", "-m", "satcluster.as_pysat", "-m", "pysat.examples.rc2", "x"]
        told_of = subprocess.run(words, env=env, stdout=subprocess.PIPE, encoding="utf-8",
                                 timeout=SECONDS, cwd="/").stdout
        self.assertEqual("satcluster.pysat.solvers theirs satcluster.pysat.solvers __main__ ['x']\n",
                         told_of)

    def test_pool(self) -> None:
        pool = formula.IDPool(start_from=5, occupied=[(7, 9), (9, 10)])
        self.assertEqual([5, 6, 5, 11], [pool.id(one) for one in ("a", (1, 2), "a", "b")])
        pool.occupy(12, 20)
        self.assertEqual((21, 21, (1, 2), None),
                         (pool.id(), pool.top, pool.obj(6), pool.obj(21)))
        pool.restart()
        self.assertEqual((1, {"b": 1}), (pool.id("b"), pool.obj2id))

    def test_cnf(self) -> None:
        cnf = formula.CNF(from_string="p cnf 3 3\n-1 2 0\n-2 3 0\n-3 0\n")
        self.assertEqual((3, [[-1, 2], [-2, 3], [-3]]), (cnf.nv, cnf.clauses))
        cnf.append([4, -9])
        cnf.to_file(str(self.at("f.cnf")), comments=["c one"])
        again = formula.CNF(from_file=str(self.at("f.cnf"))).copy()
        self.assertEqual((9, 4, cnf.clauses, [-3]), (again.nv, len(again), list(again), again[2]))
        weighted = cnf.weighted()
        self.assertEqual((9, [1] * 4, 5, []),
                         (weighted.nv, weighted.wght, weighted.topw, weighted.hard))
        self.assertEqual(cnf.clauses, weighted.unweighted().clauses)

    def test_wcnf(self) -> None:
        texts = "p wcnf 3 3 9\n9 1 2 0\n4 -1 0\n2 3 0\n", "h 1 2 0\n4 -1 0\n2 3 0\n"
        for text in texts:
            wcnf = formula.WCNF(from_string=text)
            self.assertEqual(([[1, 2]], [[-1], [3]], [4, 2], 3, 7),
                             (wcnf.hard, wcnf.soft, wcnf.wght, wcnf.nv, wcnf.topw))
        copy = wcnf.copy()
        copy.append([5], weight=3)
        self.assertEqual((5, 3, [4, 2, 3]), (copy.nv, wcnf.nv, copy.wght))
        self.assertRaises(ValueError, copy.append, [1], 0)

    def test_cardinalities(self) -> None:
        """Beside all assignments, by each encoding."""
        literals = [1, -2, 3, 4]
        for encoding, bound in itertools.product(range(10), range(5)):
            encoded = {"atmost": (-1, 0), "equals": (0,), "atleast": (0, 1)}
            for name, signs in encoded.items():
                cnf = getattr(card.CardEnc, name)(lits=literals, bound=bound, encoding=encoding)
                with satcluster.Solver(cnf, records=False) as solver:
                    for one in assignments(4):
                        count = len(set(one) & set(literals))
                        sign = (count > bound) - (count < bound)
                        self.assertEqual(sign in signs, solver.solve(one), (name, encoding, one))
        pool = formula.IDPool(start_from=30)
        self.assertGreater(card.CardEnc.atmost(literals, 2, vpool=pool).nv, 30)
        self.assertGreater(card.CardEnc.atmost(literals, 2, top_id=50).nv, 50)
        self.assertRaises(card.UnsupportedBound, card.CardEnc.atmost, literals, -1)
        self.assertRaises(card.NoSuchEncodingError, card.CardEnc.atmost, literals, 1, encoding=77)


if __name__ == "__main__":
    run(__doc__)
