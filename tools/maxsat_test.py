#!/usr/bin/env python3
"""Runs satcluster-maxsat, its checker, satcluster-mus and satcluster-backbone, beside all
assignments of drawn formulas, and over certificates that are wrong.

    tools/maxsat_test.py PATH-OF-satcluster [CASE ..]

A CASE is Refused, or Refused.test_core_left_out; they run alone, and in any order.
"""
import bz2
import contextlib
import gzip
import io
import itertools
import lzma
import os
import random
import re
import signal
import subprocess
import sys
import unittest
from pathlib import Path
from typing import Callable, Dict, Iterable, Iterator, List, Optional, Set, Tuple
from unittest import mock

sys.dont_write_bytecode = True

from cases import ROOT, FolderCase, dimacs, pigeons, run

CLIENTS = ROOT.parent / "clients" / "python"
sys.path.insert(0, str(CLIENTS))

import maxsat_instances
from satcluster import SolverError, backbone, maxsat, maxsat_check, mus, wcnf

SECONDS = 60
Clauses = List[List[int]]


def assignments(variables: int) -> Iterator[Set[int]]:
    """All of them, each as the literals that it makes true."""
    for signs in itertools.product((-1, 1), repeat=variables):
        yield {sign * variable for variable, sign in enumerate(signs, 1)}


def satisfies(true: Set[int], clauses: Clauses) -> bool:
    return not any(true.isdisjoint(clause) for clause in clauses)


def least(formula: wcnf.Formula) -> Optional[int]:
    """The least cost, by all assignments."""
    return min((formula.cost(true) for true in assignments(formula.variables)
                if satisfies(true, formula.hard)), default=None)


def drawn_clause(draw: random.Random, variables: int, most: int) -> List[int]:
    return [draw.choice((1, -1)) * draw.randint(1, variables) for _ in range(draw.randrange(most))]


def drawn(seed: int) -> wcnf.Formula:
    """With repeats, tautologies, and sometimes empty clauses; half of them have few hard ones."""
    draw = random.Random(seed)
    variables = draw.randint(1, 7)
    hard = [drawn_clause(draw, variables, 4) for _ in range(draw.randrange(2 * variables))]
    weights = draw.choice(((1,), (1, 2, 3), (1, 10, 100), (1, 2 ** 62, wcnf.MOST_WEIGHT)))
    soft = [wcnf.Soft(draw.choice(weights), drawn_clause(draw, variables, 4))
            for _ in range(draw.randrange(16))]
    return wcnf.Formula(variables, [clause for clause in hard if clause or draw.random() < 0.05],
                        [*soft, wcnf.Soft(1, [variables, -variables])])


def cover(nodes: int, edges: Iterable[Tuple[int, ...]], weights: Callable[[int], int]
          ) -> wcnf.Formula:
    """The least weight of nodes that meet each edge: its cores need sums."""
    return wcnf.Formula(nodes, [list(edge) for edge in edges],
                        [wcnf.Soft(weights(node), [-node]) for node in range(1, nodes + 1)])


def complete(nodes: int, size: int = 2) -> wcnf.Formula:
    """Of each set of so many nodes one is true; there are sums of several outputs if it is large.
    """
    return cover(nodes, itertools.combinations(range(1, nodes + 1), size), lambda node: 1)


def old_text(formula: wcnf.Formula) -> str:
    top = sum(weight for weight, _ in formula.soft) + 1
    if top > wcnf.MOST_WEIGHT:
        return maxsat_instances.text(formula)
    rows = [[top, *clause, 0] for clause in formula.hard]
    rows += [[weight, *clause, 0] for weight, clause in formula.soft]
    return "p wcnf %d %d %d\n" % (formula.variables, len(rows), top) + "".join(
        " ".join(map(str, row)) + "\n" for row in rows)


class Case(FolderCase):
    def command(self, name: str, *words: object, status: int, given: bytes = b"") -> List[str]:
        """The lines that a command prints, which has to end with this status."""
        done = subprocess.run([str(CLIENTS / ("satcluster-" + name)), *map(str, words)],
                              input=given, cwd=str(self.folder), stdout=subprocess.PIPE,
                              stderr=subprocess.PIPE, timeout=SECONDS)
        self.assertEqual((status, b""), (done.returncode, done.stderr), done.stdout)
        return done.stdout.decode("ascii").splitlines()

    def searched(self, formula: wcnf.Formula) -> maxsat.Result:
        """What a search finds, whose certificate goes to `c`."""
        with contextlib.redirect_stdout(io.StringIO()):
            return maxsat.searched(formula, self.at("c"), self.program)

    def checked(self) -> str:
        return maxsat_check.check(str(self.at("f.wcnf")), self.at("c"))


class Wcnf(Case):
    def test_forms(self) -> None:
        texts = ("c a\nh 1 -2 0\nc b\n3 2 0\n\n9 0\n", "p wcnf 2 3 10\n10 1 -2 0 3 2\n0 9 0\n",
                 "c x\np  wcnf 2 3 10 \r\n12 1\t-2 0\n3 2 0\n9 0")
        for text in texts:
            formula = wcnf.load(io.StringIO(text))
            self.assertEqual((2, [[1, -2]], [(3, [2]), (9, [])]),
                             (formula.variables, formula.hard, formula.soft), text)
            self.write("f.wcnf", text)
            self.assertEqual((2, [[1, -2]], [(3, [2]), (9, [])]),
                             maxsat_check.read_formula(str(self.at("f.wcnf"))))
        formula = wcnf.load(io.StringIO("p wcnf 3 1\n9223372036854775807 1 0\n"))
        self.assertEqual((3, [], [(2 ** 63 - 1, [1])]),
                         (formula.variables, formula.hard, formula.soft))

    def test_faults(self) -> None:
        faults: Tuple[Tuple[str, str], ...] = (
                ("", "line 1: there is neither"), ("c only\n", "line 1: there is neither"),
                ("h 1 0\n9223372036854775808 1 0\n", "line 2: a weight is no number below"),
                ("h 1 0\n0 1 0\n", "line 2: a clause has no weight"),
                ("h 1 0\n00 1 0\n", "line 2: a weight is 0"),
                ("h 1 0\n-3 1 0\n", "line 2: a weight is no number"),
                ("h 1 0\n1.5 1 0\n", "line 2: a weight is no number"),
                ("p cnf 1 1\n1 0\n", "line 1: the header is not"),
                ("p wcnf 1 1 9223372036854775808\n", "line 1: TOP is no number below"),
                ("p wcnf 100000000 1 5\n", "line 1: there are more than 99999999 variables"),
                ("p wcnf 1 1 5\n5 2 0\n", "line 2: a variable is above 1"),
                ("p wcnf 1 1 5\nh 1 0\n", "line 2: a clause begins with h below"),
                ("p wcnf 1 2 5\n5 1 0\n", "line 2: there are 1 clauses, and 2 in the header"),
                ("h 1 x 0\n", "line 1: a token is no number"),
                ("h 1 -0 0\n", "line 1: a literal is 0"),
                ("h 100000000 0\n", "line 1: a variable is above 99999999"),
                ("h 1 0\nh 1 \n", "line 2: the text ends within a clause"))
        for text, why in faults:
            with self.assertRaisesRegex(ValueError, "^" + why, msg=text):
                wcnf.load(io.StringIO(text))

    def test_packed(self) -> None:
        text = b"h 1 2 0\n3 -1 0\n2 -2 0\n"
        packers: Tuple[Callable[[bytes], bytes], ...] = (
            bytes, gzip.compress, lzma.compress, bz2.compress)
        for pack in packers:
            self.at("f").write_bytes(pack(text))
            for words, given in ((["f"], b""), (["-"], pack(text))):
                lines = self.command("maxsat", *words, status=30, given=given)
                self.assertEqual(["s OPTIMUM FOUND", "v 01"], lines[-2:])
        self.at("f").write_bytes(gzip.compress(text)[:20])
        self.assertRegex(self.command("maxsat", "f", status=1)[0], "^c cannot read f: ")
        self.assertRegex(self.command("maxsat", "g", status=1)[0], "^c cannot read g: .*No such")
        lines = self.command("maxsat", "-", status=1, given=b"h 1 0\n2 1\n")
        self.assertEqual(["c cannot read -: line 2: the text ends within a clause: a 0 is missing"],
                         lines)


class Optimum(Case):
    def test_drawn(self) -> None:
        """The cost is the least one, and the certificate shows it, in either form."""
        counts: Dict[str, int] = {}
        for seed in range(120):
            formula = drawn(seed)
            self.write("f.wcnf", old_text(formula) if seed % 2 else maxsat_instances.text(formula))
            with self.at("f.wcnf").open() as file:
                loaded = wcnf.load(file)
            self.assertEqual((formula.hard, formula.soft), (loaded.hard, loaded.soft))
            result, wanted = self.searched(loaded), least(formula)
            self.assertEqual(wanted, result.cost, seed)
            self.assertEqual("the least cost is %s" % ("inf" if wanted is None else wanted),
                             self.checked())
            counts[result.status] = counts.get(result.status, 0) + 1
        self.assertGreater(min(counts.values()), 5)

    def test_sums(self) -> None:
        """Covers of complete graphs, of circles, and of drawn ones by weights, count to high sums.
        """
        draw = random.Random(1)
        formulas = [complete(3), complete(6), complete(9), complete(8, 5), complete(9, 4)]
        formulas += [cover(nodes, [(at, at % nodes + 1) for at in range(1, nodes + 1)],
                           lambda node: 1 + node % 3) for nodes in (7, 9)]
        for _ in range(12):
            edges = [(draw.randint(1, 10), draw.randint(1, 10)) for _ in range(25)]
            formulas.append(cover(10, edges, lambda node: draw.randint(1, 9)))
        steps = ""
        for formula in formulas:
            self.write("f.wcnf", maxsat_instances.text(formula))
            self.assertEqual(least(formula), self.searched(formula).cost)
            self.assertEqual("the least cost is %s" % least(formula), self.checked())
            steps += self.at("c/steps").read_text()
        self.assertGreater(steps.count("\ncount "), 50)
        self.assertRegex(steps, "\ncount [0-9]+ [3-9]\n")

    def test_lines(self) -> None:
        formula = complete(6)
        self.write("f.wcnf", maxsat_instances.text(formula))
        lines = self.command("maxsat", "--certificate", "c", "f.wcnf", status=30)
        costs = [int(line[2:]) for line in lines if line.startswith("o ")]
        self.assertEqual(sorted(set(costs), reverse=True), costs)
        self.assertEqual(5, costs[-1])
        self.assertEqual("s OPTIMUM FOUND", lines[-2])
        self.assertRegex(lines[-1], "^v [01]{6}$")
        self.assertEqual(5, lines[-1].count("1"))
        self.assertEqual(["s VERIFIED", "c the least cost is 5"],
                         self.command("maxsat-check", "f.wcnf", "c", status=0))
        self.write("f.wcnf", "h 1 0\n3 2 0\nh -1 0\n")
        lines = self.command("maxsat", "--certificate", "c", "f.wcnf", status=20)
        self.assertEqual("s UNSATISFIABLE", lines[-1])
        self.assertEqual(["s VERIFIED", "c the least cost is inf"],
                         self.command("maxsat-check", "f.wcnf", "c", status=0))

    def hard_one(self) -> None:
        """Its first model comes at once, and its optimum does not."""
        clauses = [line.split()[:-1] for line in pigeons(11).splitlines()[1:]]
        self.write("f.wcnf", "".join("%s %s 0\n" % ("h" if len(words) == 2 else 1, " ".join(words))
                                     for words in clauses))

    def test_timeout(self) -> None:
        self.hard_one()
        lines = self.command("maxsat", "--timeout", "1.5", "--certificate", "c", "f.wcnf", status=0)
        self.assertIn("c no time is left", lines)
        self.assertRegex("\n".join(lines),
                         "c the least cost is from [01] to [0-9]+\ns UNKNOWN\nv [01]+$")
        self.assertFalse(self.at("c/steps").exists())
        self.assertEqual(["s UNKNOWN"],
                         self.command("maxsat", "--timeout", "0", "f.wcnf", status=0)[1:])

    def test_signals(self) -> None:
        self.hard_one()
        for number in (signal.SIGTERM, signal.SIGINT):
            words = [str(CLIENTS / "satcluster-maxsat"), str(self.at("f.wcnf"))]
            process = subprocess.Popen(words, stdout=subprocess.PIPE, encoding="ascii")
            self.addCleanup(process.kill)
            assert process.stdout is not None
            self.assertRegex(process.stdout.readline(), "^o ")
            process.send_signal(number)
            told = process.communicate(timeout=SECONDS)[0]
            self.assertEqual(0, process.returncode)
            self.assertRegex(told, "s UNKNOWN\nv [01]+\n$")

    def test_dead_solver(self) -> None:
        self.write("f.wcnf", "h 1 0\n3 2 0\n")
        program = self.at("program")
        program.write_text("#!/bin/sh\necho c no memory\nexit 1\n")
        program.chmod(0o755)
        lines = self.command("maxsat", "--program", program, "f.wcnf", status=0)
        self.assertRegex(lines[0], "^c the solver has ended with status 1; .* c no memory$")
        self.assertEqual("s UNKNOWN", lines[-1])
        lines = self.command("maxsat", "--program", "none", "f.wcnf", status=1)
        self.assertRegex(lines[0], "no program none")


class Refused(Case):
    """A certificate that of 7 nodes 4 are needed, one in each set of 4, and changes of it."""

    def setUp(self) -> None:
        super().setUp()
        self.formula = complete(7, 4)
        self.write("f.wcnf", maxsat_instances.text(self.formula))
        self.assertEqual(4, self.searched(self.formula).cost)
        self.steps = self.at("c/steps").read_text().splitlines()

    def put(self, steps: List[str]) -> None:
        self.at("c/steps").write_text("".join(line + "\n" for line in steps))

    def refuses(self, why: str) -> None:
        lines = self.command("maxsat-check", "f.wcnf", "c", status=1)
        self.assertEqual("s NOT VERIFIED", lines[0])
        self.assertRegex("\n".join(lines[1:]), why)

    def first(self, word: str) -> int:
        return next(at for at, line in enumerate(self.steps) if line.startswith(word + " "))

    def test_core_left_out(self) -> None:
        at = self.first("core")
        query = self.steps[at].split()[1]
        self.put(self.steps[:at] + self.steps[at + 1:])
        self.refuses("no core of query %s stands before" % query)
        last = max(at for at, line in enumerate(self.steps) if line.startswith("core"))
        self.put(self.steps[:last] + self.steps[last + 1:])
        self.refuses("the cores add up to [0-3], which is less than 4")

    def test_weight_changed(self) -> None:
        at = self.first("core")
        word, query, weight, *literals = self.steps[at].split()
        for changed, why in ((2, "literal -?[0-9]+ weighs less than 2"), (-1, "it has no weight")):
            line = " ".join([word, query, str(changed), *literals])
            self.put(self.steps[:at] + [line] + self.steps[at + 1:])
            self.refuses("line %d of the list, .*: %s" % (at + 1, why))
        self.put(self.steps)
        paid = self.steps[1].split()[2].index("1") + 1
        text = maxsat_instances.text(self.formula)
        self.write("f.wcnf", text.replace("\n1 -%d 0" % paid, "\n2 -%d 0" % paid))
        self.refuses("^c the model costs 5, and not 4$")

    def without(self, clause: str) -> bool:
        """Takes a clause out of events and proof; whether the session is still accepted."""
        for name, front in (("events.icnf", ""), ("proof.lidrup", "i [0-9]+ ")):
            text = self.at("c/" + name).read_text()
            text, count = re.subn("(?m)^%s%s\n" % (front, re.escape(clause)), "", text, count=1)
            self.assertEqual(1, count)
            self.at("c/" + name).write_text(text)
        words = [self.program, "check", "--session", "c/events.icnf", "c/proof.lidrup"]
        return subprocess.run(words, cwd=str(self.folder), stdout=subprocess.PIPE).returncode == 0

    def test_totalizers_clause_missing(self) -> None:
        """Of events and proof; the session uses all of them."""
        events = self.at("c/events.icnf").read_text()
        given = [line for line in events.splitlines()[len(self.formula.hard) + 1:]
                 if line[0] != "a" and line.count(" ") > 1]
        self.assertFalse(self.without(given[3]))
        self.refuses("^c check --session prints: s NOT VERIFIED\nc line [0-9]+ fault 3")

    def test_totalizers_clause_not_given(self) -> None:
        """What a session answers without it is right, and no cost is shown by that."""
        draw = random.Random(1)
        edges = [(draw.randint(1, 10), draw.randint(1, 10)) for _ in range(25)]
        formula = cover(10, edges, lambda node: draw.randint(1, 9))
        self.write("f.wcnf", maxsat_instances.text(formula))
        refused = 0
        for left_out in range(8):
            places = itertools.count()

            class Leaky(maxsat_check.Sum):
                def grown(self, number: int, fresh: Iterator[int]) -> Iterator[List[int]]:
                    yield from (clause for clause in super().grown(number, fresh)
                                if next(places) != left_out)

            with mock.patch.object(maxsat, "Sum", Leaky):
                if self.searched(formula).status != "OPTIMUM FOUND":  # as no core explains the cost
                    continue
            if next(places) <= left_out:  # there are not so many clauses
                break
            refused += 1
            self.refuses("the session has .*, and not a totalizer's clause, '|before query")
        self.assertGreater(refused, 0)

    def test_another_model(self) -> None:
        bits = self.steps[1].split()[2]
        for line, why in (
                ("optimum 3 " + bits, "^c the model costs 4, and not 3$"),
                ("optimum 4 " + bits.replace("0", "1", 1), "^c the model costs 5, and not 4$"),
                ("optimum 7 1111111", "may be false|the cores add up to 4, which is less than 7"),
                ("optimum 3 " + bits.replace("1", "0", 1), "^c the model makes a hard clause"),
                ("optimum 4 " + bits[:-1], "^c the model is none$"),
                ("optimum 4 0" + bits, "^c the model is none$"),
                ("optimum 4 2" + bits[1:], "^c the model is none$")):
            self.put([self.steps[0], line, *self.steps[2:]])
            self.refuses(why)

    def test_unsatisfiable(self) -> None:
        self.put([self.steps[0], "unsatisfiable", *self.steps[2:]])
        self.refuses("may be false|which is less than inf")

    def test_not_whole(self) -> None:
        self.put(self.steps[:-1])
        self.refuses("^c the list is not whole$")
        self.put(["satcluster maxsat 2", *self.steps[1:]])
        self.refuses("^c the list is not whole$")
        self.at("c/steps").unlink()
        self.refuses("No such file.*c/steps")

    def test_wrong_session(self) -> None:
        proof = self.at("c/proof.lidrup")
        proof.write_text(proof.read_text().replace("s UNSATISFIABLE", "s SATISFIABLE", 1))
        self.refuses("^c check --session prints: s NOT VERIFIED\nc line [0-9]+ fault 19")

    def test_other_clauses(self) -> None:
        """More or other clauses, which the session has been given and the formula has not."""
        more = wcnf.Formula(7, [*self.formula.hard, [5, 6]], self.formula.soft)
        self.assertEqual(4, self.searched(more).cost)
        self.refuses("the session has '5 6 0.n' before query [0-9]+$")
        other = wcnf.Formula(7, self.formula.hard[:1], self.formula.soft)
        self.assertEqual(1, self.searched(other).cost)
        self.refuses("the session has '', and not a hard clause, '1 2 3 5 0.n'$")
        other = wcnf.Formula(7, [[-1, 2], *self.formula.hard], self.formula.soft)
        self.assertEqual(4, self.searched(other).cost)
        self.refuses("the session has '-1 2 0.n', and not a hard clause, '1 2 3 4 0.n'$")

    def test_hardened(self) -> None:
        """A literal is given as a clause only if no better assignment makes it false."""
        at = self.first("core")
        self.put([*self.steps[:at], "harden -1", *self.steps[at:]])
        self.refuses("line %d of the list, 'harden -1': -1 may be false" % (at + 1))

    def test_changes(self) -> None:
        """Whatever is changed in a list, what is accepted is right."""
        draw = random.Random(5)
        refused = 0
        answer = subprocess.run([self.program, "check", "--session", str(self.at("c/events.icnf")),
                       str(self.at("c/proof.lidrup"))], stdout=subprocess.PIPE, encoding="ascii")
        with mock.patch.object(subprocess, "run", return_value=answer):
            for _ in range(400):
                lines = list(self.steps)
                at = draw.randrange(1, len(lines) - 1)
                words = lines[at].split()
                place = draw.randrange(len(words))
                words[place] = draw.choice(("1", "2", "-1", "0", "core", "count", "harden",
                                            words[place] + "0", str(draw.randint(-30, 30))))
                ways: List[List[str]] = [[], [lines[at]] * 2, [" ".join(words)]]
                lines[at:at + 1] = draw.choice(ways)
                self.put(lines)
                try:
                    shown = self.checked()
                    self.assertEqual("the least cost is 4", shown, lines)
                except (ValueError, LookupError, TypeError):
                    refused += 1
        self.assertGreater(refused, 300)


class Mus(Case):
    def found(self, clauses: Clauses, status: int) -> List[int]:
        with contextlib.redirect_stdout(io.StringIO()) as told:
            self.assertEqual(status, mus.run(clauses, self.at("m"), self.program))
        lines = [line.split()[1:] for line in told.getvalue().splitlines() if line[0] == "v"]
        return [int(word) for line in lines for word in line][:-1]

    def test_drawn(self) -> None:
        """The clauses cannot be met together, and without any of them they can."""
        count = 0
        for seed in range(60):
            draw = random.Random(seed)
            variables = draw.randint(1, 5)
            clauses = [drawn_clause(draw, variables, 4) for _ in range(draw.randint(1, 25))]
            clauses = [clause for clause in clauses if clause or draw.random() < 0.1]
            every = list(assignments(variables))
            if any(satisfies(true, clauses) for true in every):
                self.assertEqual([], self.found(clauses, 10))
                continue
            count += 1
            chosen = [clauses[number - 1] for number in self.found(clauses, 20)]
            self.assertFalse(any(satisfies(true, chosen) for true in every))
            for at in range(len(chosen)):
                others = chosen[:at] + chosen[at + 1:]
                self.assertTrue(any(satisfies(true, others) for true in every), (seed, at))
        self.assertTrue(10 < count < 50, count)

    def test_command(self) -> None:
        self.write("f.cnf", dimacs(2, [[1], [2], [-1, 2], [-2], [2, -2]]))
        lines = self.command("mus", "--out", "m", "f.cnf", status=20)
        self.assertEqual(["s UNSATISFIABLE", "v 2 4 0"], lines[-2:])
        words = [self.program, "check", "m/mus.cnf", "m/mus.lrat"]
        self.assertEqual(0, subprocess.run(words, cwd=str(self.folder),
                                           stdout=subprocess.PIPE).returncode)
        self.assertEqual({"2", "4"}, {path.name for path in self.at("m/models").iterdir()})
        self.write("f.cnf", dimacs(2, [[1], [2]]))
        self.assertEqual(["s SATISFIABLE"], self.command("mus", "f.cnf", status=10))
        self.assertRegex(self.command("mus", "none", status=1)[0], "^c cannot read none: ")

    def test_checked(self) -> None:
        """A subset that is not minimal, or that can be satisfied, is not printed."""
        clauses = [[1], [-1, 2], [-2], [1, 2]]
        with mock.patch.object(mus.Subset, "minimize", lambda subset: subset.models.update(
                {place: {1, 2} for place in range(4)})):
            self.assertRaisesRegex(SolverError, "the model without clause 1 is refused",
                                   mus.run, clauses, self.at("m"), self.program)
        with mock.patch.object(mus.Subset, "minimize", lambda subset: subset.left.clear()):
            self.assertRaisesRegex(SolverError, "the subset is refused",
                                   mus.run, clauses, self.at("m"), self.program)


class Backbone(Case):
    def found(self, clauses: Clauses) -> List[int]:
        with contextlib.redirect_stdout(io.StringIO()) as told:
            status = backbone.run(clauses, self.at("b"), self.program)
        self.assertIn(status, (10, 20))
        lines = [line.split()[1:] for line in told.getvalue().splitlines() if line[0] == "b"]
        return [int(word) for line in lines for word in line][:-1] if status == 10 else [0]

    def test_drawn(self) -> None:
        counts = [0, 0, 0]
        for seed in range(60):
            draw = random.Random(seed)
            variables = draw.randint(1, 8)
            clauses = [drawn_clause(draw, variables, 4) for _ in range(draw.randint(1, 18))]
            clauses = [clause for clause in clauses if clause]
            models = [true for true in assignments(variables) if satisfies(true, clauses)]
            wanted = sorted(set.intersection(*models), key=abs) if models else [0]
            self.assertEqual(wanted, self.found(clauses), seed)
            counts[0 if wanted == [0] else 1 if not wanted else 2] += 1
        self.assertGreater(min(counts), 5)

    def test_refused(self) -> None:
        """What the list says has to stand in the proof, of each variable."""
        clauses = [[1], [-1, 2], [3, 4], [-3, -4], [-2, 3, 5]]
        self.assertEqual([1, 2], self.found(clauses))
        path = self.at("b/list")
        lines = path.read_text().splitlines()
        self.assertEqual([1, 2], backbone.review(clauses, self.at("b"), self.program))
        query = lines[-1].split()[2]
        for changed, why in ((lines[1:], "leaves a variable"), (lines[:-1], "leaves a variable"),
                             (["core -1" + lines[0][6:], *lines[1:]], "is another one"),
                             (lines[:-1] + ["core 5 " + query], "no such answer"),
                             ([*lines, "model -1 " + query], "does not differ"),
                             ([*lines, "model 1 " + query], "does not differ"),
                             ([*lines, "other 1 2"], "a line of the list is other 1 2")):
            path.write_text("".join(line + "\n" for line in changed))
            with self.assertRaisesRegex(ValueError, why, msg=changed):
                backbone.review(clauses, self.at("b"), self.program)
        path.write_text("".join(line + "\n" for line in lines))
        for other in (clauses[:-1], [*clauses, [5, 1]], [[1], [-1, 2], [3, 4], [-3, -4], [-2, 5]]):
            with self.assertRaisesRegex(ValueError, "more clauses|not given the formula's"):
                backbone.review(other, self.at("b"), self.program)

    def test_command(self) -> None:
        self.write("f.cnf", dimacs(4, [[1], [-1, 2], [3, 4], [-3, -4]]))
        lines = self.command("backbone", "--certificate", "b", "f.cnf", status=10)
        self.assertEqual(["s SATISFIABLE", "b 1 2 0"], lines[-2:])
        self.write("f.cnf", dimacs(1, [[1], [-1]]))
        self.assertEqual(["s UNSATISFIABLE"], self.command("backbone", "f.cnf", status=20))


class Instances(unittest.TestCase):
    def test_same(self) -> None:
        """The formulas that docs/SPEED.md has times of: 30, the same ones in every run."""
        drawn_again = dict(itertools.islice(maxsat_instances.instances(), 4))
        for name, formula in itertools.islice(maxsat_instances.instances(), 4):
            self.assertEqual(maxsat_instances.text(formula),
                             maxsat_instances.text(drawn_again[name]), name)


if __name__ == "__main__":
    run(__doc__)
