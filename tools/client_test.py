#!/usr/bin/env python3
"""Runs the clients of sessions: the package of Python, the shim of IPASIR, and the examples.

    tools/client_test.py PATH-OF-satcluster [CASE ..]

A CASE is Ends, or Ends.test_killed; they run alone, and in any order. What needs a compiler of C or
valgrind is skipped, and told, if that is not installed.
"""
import io
import os
import random
import re
import shutil
import signal
import subprocess
import sys
import tempfile
import threading
import time
import unittest
from pathlib import Path
from typing import Any, Callable, Dict, Iterator, List, Optional, Tuple

sys.dont_write_bytecode = True

from cases import EXAMPLES, ROOT as TOOLS, pigeons, run

ROOT = TOOLS.parent
CLIENTS = ROOT / "clients"
sys.path.insert(0, str(CLIENTS / "python"))

import satcluster
from satcluster import ProgramNotFound, Solver, SolverError, dimacs

SECONDS = 60  # how long a run may take
MANY = 10000  # queries
LARGE = 1500000  # a variable above the limit that the program has without --large
CLAUSES = 1000000
LIMIT = 1000  # lemmas of a step


def clauses_of(formula: str) -> List[List[int]]:
    return list(dimacs.load(io.StringIO(formula)))


class Table:
    """Which assignments satisfy what, as one number: bit A is of assignment A, whose bit v - 1 is
    the value of variable v. All of up to 12 variables take 4,096 bits."""

    def __init__(self, variables: int) -> None:
        self.all = (1 << (1 << variables)) - 1
        self.rows: Dict[int, int] = {}
        for variable in range(1, variables + 1):
            run_of = (1 << (1 << (variable - 1))) - 1
            row = 0
            for at in range(1 << (variable - 1), 1 << variables, 1 << variable):
                row |= run_of << at
            self.rows[variable], self.rows[-variable] = row, self.all & ~row
        self.models = self.all

    def give(self, clause: List[int]) -> None:
        row = 0
        for literal in clause:
            row |= self.rows[literal]
        self.models &= row

    def meets(self, literals: List[int]) -> int:
        models = self.models
        for literal in literals:
            models &= self.rows[literal]
        return models


class Case(unittest.TestCase):
    """A folder of its own."""

    @classmethod
    def setUpClass(cls) -> None:
        words = [os.environ["SATCLUSTER"], "session", "--help"]
        if subprocess.run(words, stdout=subprocess.DEVNULL).returncode != 0:
            raise unittest.SkipTest("the program answers no sessions")

    def setUp(self) -> None:
        self.folder = Path(os.path.realpath(tempfile.mkdtemp()))
        self.addCleanup(shutil.rmtree, str(self.folder), ignore_errors=True)

    def at(self, name: str) -> str:
        return str(self.folder / name)

    def script(self, text: str) -> str:
        """A program that is none of sessions."""
        path = self.folder / "program"
        path.write_text("#!/bin/sh\n" + text)
        path.chmod(0o755)
        return str(path)

    def solver(self, *given: Any, **more: Any) -> Solver:
        solver = Solver(*given, **more)
        self.addCleanup(solver.close)
        return solver

    def is_verified(self, solver: Solver, queries: Optional[int] = None) -> None:
        checked = solver.verify()
        self.assertTrue(checked, checked)
        if queries is not None:
            self.assertTrue(checked.lines[0].startswith("c %d queries: " % queries), checked)

    def model(self, solver: Solver) -> List[int]:
        """The model of the last answer, which has one."""
        model = solver.get_model()
        assert model is not None
        return model

    def fails(self, pattern: str, call: Callable[..., Any], *given: Any) -> SolverError:
        with self.assertRaisesRegex(SolverError, pattern) as caught:
            call(*given)
        return caught.exception


def drawn_literals(draw: random.Random, variables: int, most: int) -> List[int]:
    return [draw.choice((1, -1)) * draw.randint(1, variables) for _ in range(draw.randrange(most))]


class Answers(Case):
    def asks(self, solver: Solver, table: Table, assumed: List[int]) -> bool:
        answer = solver.solve(assumed)
        self.assertEqual(table.meets(assumed) != 0, answer)
        core = solver.get_core()
        if answer:
            self.assertIsNone(core)
            model = self.model(solver)
            variables = list(range(1, solver.nof_vars() + 1))
            self.assertEqual(variables, [abs(literal) for literal in model])
            self.assertTrue(table.meets(model + assumed), (model, assumed))
        else:
            self.assertIsNone(solver.get_model())
            assert core is not None
            self.assertEqual(core, [one for one in dict.fromkeys(assumed) if one in core])
            self.assertEqual(0, table.meets(core), core)
        return answer

    def test_drawn(self) -> None:
        """Beside all assignments of up to 12 variables. Each session is verified."""
        counts = {True: 0, False: 0}
        for seed in range(60):
            draw = random.Random(seed)
            most = draw.randint(1, 12)
            table, variables = Table(12), draw.randint(1, most)
            with Solver() as solver:
                for _ in range(draw.randint(1, 25)):
                    for _ in range(draw.randrange(variables + 1)):
                        clause = drawn_literals(draw, variables, draw.choice((3, 7, 7)))
                        if clause or draw.random() < 0.05:
                            solver.add_clause(clause)
                            table.give(clause)
                    counts[self.asks(solver, table, drawn_literals(draw, variables, 6))] += 1
                    variables = min(variables + draw.randrange(2), most)
                self.is_verified(solver)
        self.assertGreater(min(counts.values()), 100)

    def test_example(self) -> None:
        """The one of the package's page."""
        with Solver([[1, 2], [-1, 2]]) as solver:
            self.assertEqual((None, None), (solver.get_model(), solver.get_core()))
            self.assertEqual((False, [-2]), (solver.solve([-2]), solver.get_core()))
            self.assertEqual((True, [1, 2]), (solver.solve([1]), solver.get_model()))
            self.assertIsNone(solver.get_core())
            solver.add_clause(iter((-2, 3)))
            self.assertEqual((False, [3, -3]), (solver.solve((3, -3)), solver.get_core()))
            self.assertEqual((False, [-3]), (solver.solve([-3, -3, 9]), solver.get_core()))
            self.assertEqual(9, solver.nof_vars())
            self.is_verified(solver, 4)

    def test_models(self) -> None:
        solver = self.solver([[1, 2, 3]])
        models = list(solver.enum_models([-1]))
        self.assertEqual([[-1, -2, 3], [-1, 2, -3], [-1, 2, 3]], sorted(models))
        self.assertEqual(4, len(list(solver.enum_models())))
        self.assertFalse(solver.solve())
        self.assertEqual([[]], list(self.solver().enum_models()))
        self.is_verified(solver)

    def test_edges(self) -> None:
        solver = self.solver()
        self.assertEqual((True, []), (solver.solve(), solver.get_model()))
        self.assertEqual((True, [1000000]), (solver.solve([1000000]), self.model(solver)[-1:]))
        self.assertEqual(1000000, solver.nof_vars())
        solver.add_clause([])
        self.assertEqual((False, []), (solver.solve([3]), solver.get_core()))
        self.is_verified(solver, 3)

    def test_refused(self) -> None:
        """What is no literal is refused, and nothing of it sent; what came before stays."""
        solver = self.solver()
        for clause in ([1, 0], [0], [100000000], [-100000000], [2 ** 70]):
            self.assertRaises(ValueError, solver.add_clause, clause)
            self.assertRaises(ValueError, solver.solve, clause)
            self.assertRaises(ValueError, solver.append_formula, [[5], clause, [-5]])
        wrong: Tuple[Any, ...] = ([1.0], ["1"], [None], 1)
        for clause in wrong:
            self.assertRaises(TypeError, solver.add_clause, clause)
            self.assertRaises(TypeError, solver.append_formula, iter(([-7, 6], clause, [-6])))
        self.assertTrue(solver.solve([7]))
        self.assertEqual([5, 6, 7], self.model(solver)[4:])
        self.is_verified(solver, 1)
        self.assertRaises(ValueError, Solver, limit=0)
        self.assertRaises(ValueError, Solver, records=False, proof=self.at("proof"))
        self.assertRaises(ValueError, Solver, events=self.at("one"), proof=self.at("one"))

    def test_limited(self) -> None:
        """A budget that is used up is no answer. What was learnt stays, and what follows is right.
        """
        clauses, free = clauses_of(pigeons(7)), 57
        solver = self.solver([clause + [free] if min(clause) > 0 else clause for clause in clauses])
        self.assertIsNone(solver.solve_limited([-free], 1))
        self.assertEqual((None, None), (solver.get_model(), solver.get_core()))
        self.assertIsNone(solver.solve_limited([-free], LIMIT + 1))
        self.assertIs(True, solver.solve_limited([free], 1))
        self.is_verified(solver, 4)
        asked = 0
        while solver.solve_limited([-free], 2 * LIMIT) is None:
            asked += 1
        self.assertGreater(asked, 0)
        self.assertEqual([-free], solver.get_core())
        self.assertFalse(solver.solve([-free]))
        self.is_verified(solver)
        other = self.solver(solver_clauses(clauses), limit=10)
        self.assertIsNone(other.solve_limited(budget=0))
        self.assertFalse(other.solve())


def solver_clauses(clauses: List[List[int]]) -> Iterator[Iterator[int]]:
    """The clauses as iterators, of which each can be read once."""
    return (iter(clause) for clause in clauses)


class Records(Case):
    """Events, proofs, and what is told of them."""

    def recorded(self, clauses: List[List[int]]) -> Solver:
        return Solver(clauses, events=self.at("events"), proof=self.at("proof"))

    def test_paths(self) -> None:
        with self.recorded([[1, 2]]) as solver:
            self.assertTrue(solver.solve([-1]))
            self.is_verified(solver, 1)
            solver.add_clause([3])
            self.is_verified(solver, 1)
        self.is_verified(solver, 1)
        self.assertEqual("p inccnf\n1 2 0\na -1 0\n3 0\n", (self.folder / "events").read_text())
        self.assertTrue(satcluster.check_session(self.at("events"), self.at("proof")))

    def test_wrong_proof(self) -> None:
        with self.recorded([[1, 2], [-1, 2], [1, -2], [-1, -2]]) as solver:
            self.assertFalse(solver.solve())
        proof = self.folder / "proof"
        proof.write_text(proof.read_text().replace("UNSATISFIABLE", "SATISFIABLE"))
        checked = solver.verify()
        self.assertFalse(checked)
        self.assertRegex(str(checked), "^s NOT VERIFIED, c line .* fault 19, c 0 queries before$")

    def test_temporary(self) -> None:
        kept = os.environ.get("TMPDIR")
        tempfile.tempdir = str(self.folder)
        self.addCleanup(setattr, tempfile, "tempdir", kept)
        solver = self.solver([[1]])
        solver.solve()
        self.assertEqual(2, len(list(self.folder.glob("satcluster-*/*"))))
        self.is_verified(solver, 1)
        solver.close()
        solver.close()
        self.assertEqual([], list(self.folder.iterdir()))
        self.assertRaises(ValueError, solver.verify)
        with Solver(records=False) as other:
            self.assertTrue(other.solve())
            self.assertEqual([], list(self.folder.iterdir()))
            self.assertRaises(ValueError, other.verify)
        with Solver(proof=self.at("proof")) as third:
            self.assertTrue(third.solve())
            self.is_verified(third, 1)


class Ends(Case):
    """A solver that has died raises, and its answers before stand."""

    def test_killed(self) -> None:
        solver = self.solver([[1]], events=self.at("events"), proof=self.at("proof"))
        self.assertTrue(solver.solve())
        os.kill(solver.pid, signal.SIGKILL)
        error = self.fails("signal 9", solver.solve)
        self.assertEqual(("v 1 0", -signal.SIGKILL), (error.line, error.status))
        calls: List[Callable[[], object]] = [
            solver.solve, lambda: solver.append_formula([[1, 2]] * 20000)]
        for call in calls:
            self.fails("the session has ended", call)
        checked = solver.verify()
        self.assertFalse(checked)
        self.assertEqual("c 1 queries before", checked.lines[-1])

    def test_killed_in_a_query(self) -> None:
        solver = self.solver(clauses_of(pigeons(11)))
        timer = threading.Timer(0.3, os.kill, (solver.pid, signal.SIGKILL))
        timer.start()
        self.addCleanup(timer.cancel)
        self.fails("signal 9", solver.solve)
        self.assertIsNone(solver.get_model())

    def test_interrupted(self) -> None:
        """Whatever breaks a query off ends the session: no late answer is taken for another's."""
        def interrupt(*_: Any) -> None:
            raise KeyboardInterrupt

        kept = signal.signal(signal.SIGALRM, interrupt)
        self.addCleanup(signal.signal, signal.SIGALRM, kept)
        solver = self.solver(clauses_of(pigeons(11)))
        signal.setitimer(signal.ITIMER_REAL, 0.3)
        self.assertRaises(KeyboardInterrupt, solver.solve)
        self.fails("the session has ended", solver.solve)

    def test_limit_of_the_program(self) -> None:
        """Its last line is told, also if it has come long before the next write."""
        solver = self.solver()
        solver._session.add("100000000 0\n")  # what `add_clause` refuses
        error = self.fails("c input line 2 fault 8", solver.solve)
        self.assertEqual(("c input line 2 fault 8", 1), (error.line, error.status))

    def test_no_room(self) -> None:
        """No proof can be written there."""
        for proof in ("none/proof", "."):
            solver = self.solver([[1]], events=self.at("events"), proof=self.at(proof))
            error = self.fails("c cannot write proof", solver.solve)
            self.assertEqual(("c cannot write proof", 1), (error.line, error.status))
        self.assertRaises(OSError, Solver, events=self.at("none/events"))
        self.assertRaises(ValueError, Solver, [[1], [0]])

    def test_full_disk(self) -> None:
        """What was not sent as a whole is not asked about."""
        solver = self.solver([[1]], events="/dev/full")
        self.assertRaises(OSError, solver.append_formula, [[1, 2, 3]] * 100000)
        self.fails("the session has ended", solver.solve)
        solver = self.solver([[1]], proof="/dev/full")
        self.fails("c cannot write proof", solver.solve)

    def test_full_pipe(self) -> None:
        """One that reads nothing lets a writer wait, and its end is told as that, not as EPIPE."""
        program = self.script("echo c cannot read input\nsleep 0.5\nexit 1\n")
        solver = self.solver(program=program)
        error = self.fails("c cannot read input", solver.append_formula, [[1, 2, 3]] * 100000)
        self.assertEqual(("c cannot read input", 1), (error.line, error.status))

    def test_wrong_programs(self) -> None:
        """What is no answer is taken for none."""
        for lines, last in (("s SATISFIABLE", "s SATISFIABLE"), ("s SATISFIABLE\nf 1 0", "f 1 0"),
                            ("s SATISFIABLE\nv 1", "v 1"), ("s UNSATISFIABLE\nv 1 0", "v 1 0"),
                            ("s SATISFIABLE\nv", "v"), ("hello", "hello"), ("", ""),
                            ("s SATISFIABLE\nv x 0", "v x 0"), ("s UNKNOWN\ns S", "s S"),
                            ("s SATISFIABLE\nv 1\nv 0 2 0", "v 0 2 0")):
            printed = lines + "\n" if lines else ""
            program = self.script("cat > /dev/null &\nprintf '%s'\n" % printed)
            error = self.fails("the solver has ended", self.solver(program=program).solve)
            self.assertEqual(last, error.line)
        error = self.fails("ended", self.solver(program=self.script("printf 's UNSAT'")).solve)
        self.assertEqual("s UNSAT", error.line)
        program = self.script("read line\necho s SATISFIABLE\necho v 1-2 0\ncat > /dev/null\n")
        solver = self.solver(program=program)
        self.assertTrue(solver.solve())
        self.fails("what is no literal", solver.get_model)  # it is parsed when it is read

    def test_closed(self) -> None:
        with Solver([[1]]) as solver:
            self.assertTrue(solver.solve())
            pid = solver.pid
        self.assertRaises(ProcessLookupError, os.kill, pid, 0)
        self.assertEqual([1], solver.get_model())
        self.fails("has ended", solver.solve)


class Sizes(Case):
    def test_many_queries(self) -> None:
        solver = self.solver([[1, 2], [-1, 2]])
        begin = time.monotonic()
        for at in range(MANY // 2):
            self.assertFalse(solver.solve([-2]))
            self.assertTrue(solver.solve([1, 2]))
        seconds = time.monotonic() - begin
        self.is_verified(solver, MANY)
        print("%.1f us a query " % (seconds / MANY * 1e6), end="", file=sys.stderr)

    def test_large_variable(self) -> None:
        """Clauses, models and cores have it, in sessions and in whole formulas."""
        with Solver(events=self.at("events"), proof=self.at("proof")) as solver:
            solver.add_clause([-1, LARGE])
            self.assertTrue(solver.solve([1]))
            model = self.model(solver)
            self.assertEqual((LARGE, 1, LARGE), (len(model), model[0], model[-1]))
            self.assertFalse(solver.solve([2, 1, -LARGE]))
            self.assertEqual([1, -LARGE], solver.get_core())
            self.is_verified(solver, 2)
        self.assertTrue(satcluster.check_session(self.at("events"), self.at("proof")))
        answer = satcluster.solve([[LARGE], [-LARGE]], proof=self.at("f.lrat"))
        self.assertIs(False, answer.status)
        self.assertEqual(LARGE, (satcluster.solve([[LARGE]]).model or [])[-1])
        with open(self.at("f.cnf"), "w", encoding="ascii") as file:
            file.write("p cnf %d 2\n%d 0\n-%d 0\n" % (LARGE, LARGE, LARGE))
        self.assertTrue(satcluster.check(self.at("f.cnf"), self.at("f.lrat")))

    def test_many_clauses(self) -> None:
        """They come from a generator, and the answer is read from them once more."""
        def clauses() -> Iterator[List[int]]:
            """Half of them, and these once more."""
            for at in range(CLAUSES):
                variable = at % (CLAUSES // 2) + 1
                yield [-variable, variable + 1, variable + 2]

        solver = self.solver()
        begin = time.monotonic()
        solver.append_formula(clauses())
        self.assertTrue(solver.solve([1, -2]))
        seconds = time.monotonic() - begin
        true = {literal for literal in solver.get_model() or () if literal > 0}
        self.assertTrue(all(-clause[0] not in true or true.intersection(clause)
                            for clause in clauses()))
        self.is_verified(solver, 1)
        print("%.0f clauses a second " % (CLAUSES / seconds), end="", file=sys.stderr)

    def test_two_at_once(self) -> None:
        """Each has its own formula, and ends while the other one goes on."""
        first, second = self.solver([[1]]), self.solver([[-1]])
        for _ in range(50):
            self.assertEqual((True, False), (first.solve([1]), second.solve([1])))
        first.close()
        self.assertTrue(second.solve([-1]))
        self.is_verified(second, 51)

    def test_threads(self) -> None:
        """One solver a thread."""
        found: List[List[int]] = []

        def work(at: int) -> None:
            with Solver([[at, at + 1], [-at]]) as solver:
                found.extend([at, one] for one in range(100) if solver.solve([at + 1]))

        threads = [threading.Thread(target=work, args=(at,)) for at in (1, 2, 3)]
        for thread in threads:
            thread.start()
        for thread in threads:
            thread.join(SECONDS)
        self.assertEqual(300, len(found))


class Functions(Case):
    def test_find(self) -> None:
        program, path = os.environ["SATCLUSTER"], os.environ["PATH"]
        self.addCleanup(os.environ.__setitem__, "SATCLUSTER", program)
        self.addCleanup(os.environ.__setitem__, "PATH", path)
        self.assertEqual(program, satcluster.find())
        other = self.script("")
        self.assertEqual(other, satcluster.find(other))
        os.environ["SATCLUSTER"] = self.at("none")
        with self.assertRaisesRegex(ProgramNotFound, "none: build it"):
            satcluster.find()
        self.assertRaises(ProgramNotFound, Solver)
        self.assertRaises(ProgramNotFound, satcluster.find, self.at("nothing"))
        del os.environ["SATCLUSTER"]
        os.environ["PATH"] = str(self.folder)
        (self.folder / "program").rename(self.folder / "satcluster")
        self.assertIn(satcluster.find(), (self.at("satcluster"), str(satcluster.program.BUILT)))

    def test_solve_and_check(self) -> None:
        self.assertEqual((True, [1, -2]), tuple(satcluster.solve([[1, 2], [1, -2], [-2]])))
        self.assertEqual((True, []), tuple(satcluster.solve([])))
        formula, proof = str(EXAMPLES / "pigeons_6.cnf"), self.at("proof")
        with open(formula, encoding="ascii") as file:
            answer = satcluster.solve(dimacs.load(file), proof=proof)
        self.assertEqual((False, None), tuple(answer))
        self.assertEqual("s VERIFIED", str(satcluster.check(formula, proof)))
        lines = Path(proof).read_text().split("\n")
        Path(proof).write_text("\n".join(lines[:20]) + "\n")
        checked = satcluster.check(formula, proof)
        self.assertFalse(checked)
        self.assertRegex(checked.lines[0], "^c line [0-9]+ fault 13$")
        self.fails("c cannot read input", satcluster.check, self.at("none"), proof)
        self.fails("c cannot write proof",
                   lambda: satcluster.solve([[1], [-1]], proof=self.at("none/proof")))
        self.assertRaises(ValueError, satcluster.solve, [[0]])

    def test_conquer(self) -> None:
        formula, proof = str(EXAMPLES / "pigeons_6.cnf"), self.at("proof")
        for jobs in (1, 2):
            answer = satcluster.conquer(formula, jobs=jobs, proof=proof, words=["--depth", "1"])
            self.assertEqual((False, None), tuple(answer))
            self.assertTrue(satcluster.check(formula, proof))
        shutil.copy(str(EXAMPLES / "schur_3_13.cnf"), str(self.folder))
        answer = satcluster.conquer(self.at("schur_3_13.cnf"), jobs=1, folder=self.at("run"))
        self.assertEqual(39, len(answer.model or []))
        self.assertTrue((self.folder / "run" / "plan.json").exists())
        self.fails("c cannot read input\n.*no file", satcluster.conquer, self.at("none"))

    def test_lying_programs(self) -> None:
        """Line and status have to agree."""
        for text in ("echo s UNSATISFIABLE; exit 10", "echo s SATISFIABLE; exit 10",
                     "echo v 1 0; exit 10", "exit 20", "echo s UNKNOWN; exit 1"):
            program = self.script(text)
            self.fails("no answer", lambda: satcluster.solve([[1]], program=program))
        for text in ("echo s VERIFIED; exit 1", "echo s NOT VERIFIED; exit 0"):
            program = self.script(text)
            self.assertFalse(satcluster.check("f", "g", program=program))


class Dimacs(unittest.TestCase):
    def load(self, text: str) -> List[List[int]]:
        return list(dimacs.load(io.StringIO(text)))

    def test_load(self) -> None:
        text = "c first\np  cnf 4 5\n1 -2\nc within\n 0 3\t4 0 0\n\n-1 0 2 0"
        self.assertEqual([[1, -2], [3, 4], [], [-1], [2]], self.load(text))
        for path in sorted(EXAMPLES.glob("*.cnf")):
            with path.open(encoding="ascii") as file:
                self.assertTrue(list(dimacs.load(file)), path)

    def test_stream(self) -> None:
        """A clause is there before the next line is read."""
        lines = iter(["p cnf 2 2\n", "1 0\n"])
        self.assertEqual([1], next(dimacs.load(lines)))
        self.assertEqual([], list(lines))

    def test_faults(self) -> None:
        for text, line in (("", 1), ("1 0", 1), ("c\np cnf 1\n", 2), ("p cnf -1 1\n", 1),
                           ("p cnf 1 1\n\n1 x 0\n", 3), ("p cnf 1 1\n2 0\n", 2),
                           ("p cnf 1 1\n-2 0\n", 2), ("p cnf 1 1\n1 0\n1 0\n", 3),
                           ("p cnf 1 2\n1 0\n", 2), ("p cnf 1 1\n1\n", 2)):
            with self.assertRaisesRegex(ValueError, "^line %d: " % line, msg=text):
                self.load(text)

    def test_dump(self) -> None:
        clauses: List[List[int]] = [[1, -5], [], [3, 3, -3]]
        with tempfile.TemporaryFile("w+", encoding="ascii") as file:
            size = dimacs.dump(solver_clauses(clauses), file)
            file.seek(0)
            self.assertEqual(clauses, list(dimacs.load(file)))
        self.assertEqual((5, 3), tuple(size))
        read, write = os.pipe()
        with open(write, "w", encoding="ascii") as pipe:
            self.assertEqual((9, 3), tuple(dimacs.dump(solver_clauses(clauses), pipe, 9)))
        with open(read, encoding="ascii") as pipe:
            self.assertEqual("p cnf 9 3\n1 -5 0\n0\n3 3 -3 0\n", pipe.read())
        self.assertRaises(ValueError, dimacs.dump, [[1, 0]], io.StringIO())


class Examples(Case):
    def lines(self, name: str, *words: str) -> List[str]:
        done = subprocess.run([str(EXAMPLES / name), *words], stdout=subprocess.PIPE,
                              stderr=subprocess.PIPE, encoding="utf-8", timeout=SECONDS,
                              cwd=str(self.folder))
        self.assertEqual((0, ""), (done.returncode, done.stderr), done.stdout)
        lines = done.stdout.splitlines()
        self.assertTrue(lines[-1].strip().startswith("s VERIFIED"), lines[-1])
        return lines

    def test_planner(self) -> None:
        for word, steps in (("blocks", 5), ("logistics", 11)):
            lines = self.lines("planner.py", word)
            self.assertEqual("more than %d steps" % (steps - 1), lines[steps - 1])
            self.assertIn("step %d:" % steps, lines)
            # A query that is asked in several steps counts as so many, the first ones unknown.
            self.assertIn(" queries: 1 satisfiable, %d unsatisfiable, " % steps, lines[-1])

    def test_bounded_check(self) -> None:
        lines = self.lines("bounded_check.py", "20")
        self.assertIn("never both, for 20 steps", lines[1])
        self.assertEqual("  step  6: CRITICAL   CRITICAL", lines[-2])
        self.assertEqual(2, sum("s VERIFIED" in line for line in lines))

    def test_mus(self) -> None:
        """Of the clauses that are told each is needed."""
        lines = self.lines("mus.py")
        numbers = [int(word) for line in lines[2:-1] for word in line.split()]
        self.assertEqual(int(lines[1].split()[0]), len(numbers))
        with (EXAMPLES / "counter_4.cnf").open(encoding="ascii") as file:
            clauses = list(dimacs.load(file))
        chosen = [clauses[number - 1] for number in numbers]
        with Solver(records=False) as solver:
            solver.append_formula([-200 - at, *clause] for at, clause in enumerate(chosen))
            selectors = [200 + at for at in range(len(chosen))]
            self.assertFalse(solver.solve(selectors))
            for at in range(len(chosen)):
                self.assertTrue(solver.solve(selectors[:at] + selectors[at + 1:]), numbers[at])
        self.assertIn("satisfies all", self.lines("mus.py", str(EXAMPLES / "schur_3_13.cnf"))[0])

    def test_cardinality(self) -> None:
        for side, queens in (("1", 1), ("4", 2), ("5", 3), ("7", 4)):
            lines = self.lines("cardinality.py", side)
            self.assertIn("%d are the fewest:" % queens, lines)
            self.assertEqual(queens, sum(line.count("Q") for line in lines))

    def test_short(self) -> None:
        for path in sorted(EXAMPLES.glob("*.py")):
            self.assertLess(path.read_text().count("\n"), 120, path)

    def test_without_session(self) -> None:
        """A test that cannot fail shows nothing: a wrong program makes each example end with 1."""
        env = dict(os.environ, SATCLUSTER=self.script("exit 1"))
        for path in sorted(EXAMPLES.glob("*.py")):
            done = subprocess.run([str(path)], env=env, stdout=subprocess.PIPE,
                                  stderr=subprocess.PIPE, timeout=SECONDS)
            self.assertEqual(1, done.returncode, path)
            self.assertIn(b"SolverError", done.stderr)


@unittest.skipUnless(shutil.which("cc") and shutil.which("make"), "cc or make is not installed")
class Ipasir(Case):
    def make(self, target: str) -> str:
        words = ["make", "-s", "-C", str(CLIENTS / "ipasir"), "OUT=" + self.at("out"), target]
        done = subprocess.run(words, stdout=subprocess.PIPE, stderr=subprocess.STDOUT,
                              encoding="utf-8", timeout=SECONDS)
        self.assertEqual(0, done.returncode, done.stdout)
        return done.stdout

    def test_answers(self) -> None:
        told = self.make("test")
        self.assertRegex(told, "\n[0-9]{3} sessions VERIFIED\n")
        self.assertIn("c input line 2 fault 8", told)
        self.assertRegex(told, "100 sessions, [0-9]{3} satisfiable and [0-9]{3} unsatisfiable")

    @unittest.skipUnless(shutil.which("valgrind"), "valgrind is not installed")
    def test_memory(self) -> None:
        self.assertNotIn("==", self.make("memcheck"))

    def test_wrong_solver(self) -> None:
        """A test that cannot fail shows nothing: a solver whose answers are wrong is found."""
        self.make("all")
        wrong = "while read l; do case $l in a*) echo s UNSATISFIABLE; echo f 0;; esac; done\n"
        env = dict(os.environ, SATCLUSTER=self.script(wrong))
        done = subprocess.run([self.at("out/app_tests_answers")], env=env, stdout=subprocess.PIPE,
                              stderr=subprocess.DEVNULL, timeout=SECONDS)
        self.assertEqual(1, done.returncode)
        self.assertEqual(b"app_tests_answers: WRONG: an answer\n", done.stdout)

    def test_killed(self) -> None:
        """A program that is killed in a query is told, and is no answer."""
        self.make("all")
        process = subprocess.Popen([self.at("out/shim_test"), "hard"], stdout=subprocess.PIPE,
                                   stderr=subprocess.PIPE, encoding="ascii")
        self.addCleanup(process.kill)
        children, child = Path("/proc/%d/task/%d/children" % (process.pid, process.pid)), ""
        while not child:
            child = children.read_text()
        time.sleep(0.3)
        os.kill(int(child), signal.SIGKILL)
        told, errors = process.communicate(timeout=SECONDS)
        self.assertEqual((0, "0\n"), (process.returncode, told))
        self.assertIn("the program has ended: signal 9; the last line was: ", errors)


def blocks(page: str, kind: str) -> List[str]:
    """The blocks of code of a page."""
    text = (ROOT / "docs" / page).read_text(encoding="utf-8")
    return re.findall("^```%s\n(.*?)^```$" % kind, text, re.M | re.S)


class Page(Case):
    """What docs/SESSIONS.md shows is run."""

    def test_python(self) -> None:
        kept = os.getcwd()
        self.addCleanup(os.chdir, kept)
        os.chdir(str(self.folder))
        shown = blocks("SESSIONS.md", "python")
        self.assertEqual(2, len(shown))
        for block in shown:
            exec(compile(block, "docs/SESSIONS.md", "exec"), {})

    def test_pipe(self) -> None:
        """Behind each command stands what it prints."""
        (self.folder / "satcluster").symlink_to(os.environ["SATCLUSTER"])
        path = str(self.folder) + os.pathsep + os.environ["PATH"]
        block = next(block for block in blocks("SESSIONS.md", "sh") if "printf" in block)
        done = subprocess.run(["bash", "-c", block], env=dict(os.environ, PATH=path),
                              cwd=str(self.folder), stdout=subprocess.PIPE, encoding="ascii")
        self.assertEqual(re.findall("# (.*)", block), ", ".join(done.stdout.splitlines())
                         .replace(", s ", "\ns ").splitlines())

    @unittest.skipUnless(shutil.which("cc"), "cc is not installed")
    def test_c(self) -> None:
        block, = blocks("SESSIONS.md", "c")
        (self.folder / "app.c").write_text(block)
        shim = CLIENTS / "ipasir"
        words = ["cc", "-Wall", "-Werror", "-I", str(shim), "-o", self.at("app"), self.at("app.c")]
        subprocess.run(words + [str(shim / "satcluster_ipasir.c")], check=True, timeout=SECONDS)
        done = subprocess.run([self.at("app")], stdout=subprocess.PIPE, encoding="ascii")
        self.assertEqual(re.findall('printf.*/\\* (.*) \\*/', block), done.stdout.splitlines())


class Package(unittest.TestCase):
    def test_version(self) -> None:
        text = (CLIENTS / "python" / "pyproject.toml").read_text()
        told = subprocess.run([os.environ["SATCLUSTER"], "--version"], stdout=subprocess.PIPE,
                              encoding="ascii").stdout
        self.assertEqual(re.findall('^version = "(.*)"', text, re.M), told.split()[1:2])

    def test_scripts(self) -> None:
        """Those of pyproject.toml stand beside the package, and find it."""
        text = (CLIENTS / "python" / "pyproject.toml").read_text()
        scripts = re.findall('^(satcluster-.*) = "satcluster.(.*):main"', text, re.M)
        self.assertEqual(4, len(scripts))
        for name, module in scripts:
            path = CLIENTS / "python" / name
            self.assertIn("from satcluster.%s import main" % module, path.read_text())
            done = subprocess.run([str(path), "--help"], stdout=subprocess.PIPE, encoding="ascii")
            self.assertEqual(0, done.returncode)
            self.assertIn(name, done.stdout)

    def test_names(self) -> None:
        for name in satcluster.__all__:
            self.assertTrue(getattr(satcluster, name).__doc__, name)


if __name__ == "__main__":
    run(__doc__)
