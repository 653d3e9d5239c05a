#!/usr/bin/env python3
"""Runs `join` as a process over files that are spoilt, and kills it.

    tools/join_test.py PATH-OF-satcluster [CASE ..]

A CASE is Names, or Names.test_ten_thousand; they run alone, and in any order.
"""
import os
import resource
import signal
import subprocess
import sys
import time
from typing import Any, List, Tuple

sys.dont_write_bytecode = True

from cases import FolderCase, run

FORMULA = "p cnf 2 4\n1 2 0\n-1 2 0\n1 -2 0\n-1 -2 0\n"
CUBES = "p inccnf\n1 2 0\n-1 2 0\n1 -2 0\n-1 -2 0\na 1 0\na -1 0\n"
LEFT, RIGHT = "5 -1 0 2 4 0\n", "5 1 0 1 3 0\n"  # the logs of its two leaves
PROOF = "5 -1 0 2 4 0\n6 1 0 1 3 0\n7 0 5 6 0\n"
STOOD = "what stood\n"  # in the proof's place
SECONDS = 120  # how long a run may take
UNSATISFIABLE = "s UNSATISFIABLE"


class Case(FolderCase):
    """A formula, its tree, two logs, and a proof that stood before."""

    def setUp(self) -> None:
        super().setUp()
        for name, text in (("f.cnf", FORMULA), ("f.icnf", CUBES), ("left", LEFT),
                           ("right", RIGHT), ("f.lrat", STOOD)):
            self.write(name, text)

    def proof(self) -> str:
        return self.at("f.lrat").read_text()

    def parts(self) -> List[str]:
        """The files in which a proof is written before it is whole."""
        return sorted(path.name for path in self.folder.glob("*.part*"))

    def join(self, *names: str, quiet: bool = False, **more: Any) -> subprocess.Popen:
        words = ["join", "--cubes", "f.icnf", *(["-q"] if quiet else []), "f.cnf", "f.lrat"]
        return self.start(*words, *names, stdin=subprocess.PIPE, **more)

    def end(self, process: subprocess.Popen, given: str = "") -> Tuple[int, List[str]]:
        """Status and lines of a process that reads this from standard input."""
        try:
            out, _ = process.communicate(given.encode(), timeout=SECONDS)
        except subprocess.TimeoutExpired:
            self.fail("no end after %d seconds: %r" % (SECONDS, process.args))
        return process.returncode, out.decode().split("\n")[:-1]

    def says(self, status: int, lines: List[str], *words: str) -> None:
        """What the program answers to these words."""
        end = self.end(self.start(*words, stdin=subprocess.DEVNULL))
        self.assertEqual((status, lines), end, words)

    def proves(self, lines: List[str], *names: str, given: str = "", **more: Any) -> None:
        """A join ends with a proof, which the checker accepts, and leaves nothing else."""
        self.write("f.lrat", STOOD)
        what = names, given[:80]
        end = self.end(self.join(*names, **more), given)
        self.assertEqual((20, lines + [UNSATISFIABLE]), end, what)
        self.says(0, ["s VERIFIED"], "check", "f.cnf", "f.lrat")
        self.assertEqual([], self.parts(), what)

    def leaves(self, status: int, lines: List[str], *names: str, **more: Any) -> None:
        """A join ends without a proof, and what stood stands."""
        self.write("f.lrat", STOOD)
        end = self.end(self.join(*names, **more))
        self.assertEqual((status, lines), end, names)
        self.assertEqual((STOOD, []), (self.proof(), self.parts()), names)

    def knows_nothing(self, lines: List[str], *names: str) -> None:
        """A join ends without an answer."""
        self.leaves(0, lines + ["s UNKNOWN"], *names)


class Logs(Case):
    MISSING = "c leaf 2 missing"  # if the first leaf alone is closed

    def test_two(self) -> None:
        self.proves([], "left", "right")
        self.assertEqual(PROOF, self.proof())

    def test_spoilt(self) -> None:
        """A log that is spoilt closes nothing, and another log beside it closes its leaf."""
        for name, text, fault in (
                ("empty", "", "closes nothing"), ("cut", RIGHT[:-3], "line 1 fault 1"),
                ("other", "8 1 0 1 3 0\n", "line 1 fault 2"),
                ("groups", "5 1 0 -1 2 0\n", "line 1 fault 15"),
                ("garbage", "garbage\n", "line 1 fault 1")):
            with self.subTest(name):
                self.write(name, text)
                line = "c file 2 %s %s" % (fault, name)
                self.knows_nothing([line, self.MISSING], "left", name)
                self.proves([line], "left", name, "right")

    def test_no_file(self) -> None:
        self.at("folder").mkdir()
        for name in ("folder", "none"):
            self.knows_nothing(["c file 2 cannot be read " + name, self.MISSING], "left", name)

    def test_twice(self) -> None:
        self.proves(["c file 2 closes nothing left"], "left", "left", "right")
        self.proves([], "left", "left", "right", quiet=True)


class Turns(Case):
    """`refute --to` closes several leaves by one log."""

    def refutes(self, status: int, lines: List[str], first: int, last: int, *words: str) -> None:
        self.says(status, lines, "refute", "--cubes", "f.icnf", "--leaf", str(first),
                  "--to", str(last), *words)

    def test_one_log(self) -> None:
        self.refutes(20, ["c leaf 1 closed", "c leaf 2 closed"], 1, 2, "f.cnf", "both")
        self.proves([], "both")
        self.refutes(20, [], 1, 2, "-q", "f.cnf")

    def test_no_such_leaf(self) -> None:
        for first, last in ((2, 1), (1, 3), (3, 3)):
            self.refutes(1, ["c no such leaf"], first, last, "f.cnf")

    def test_assignment(self) -> None:
        """It ends them, and there is no log."""
        self.write("s.cnf", "p cnf 2 3\n1 2 0\n1 -2 0\n-2 -1 0\n")
        self.write("s.icnf", "p inccnf\n1 2 0\n1 -2 0\n-2 -1 0\na -1 0\na 1 0\n")
        self.says(10, ["s SATISFIABLE", "v 1 -2 0"], "refute", "--cubes", "s.icnf",
                  "--leaf", "1", "--to", "2", "s.cnf", "none.lrat")
        self.assertFalse(self.at("none.lrat").exists())


# All clauses of three variables, and what one process may write for the leaves 2 and 3 of four.
CLAUSES = ["%d %d %d 0" % (a, b, c) for a in (1, -1) for b in (2, -2) for c in (3, -3)]
GIVEN = "".join("i %d %s\n" % row for row in enumerate(CLAUSES, 1))
SECOND, THIRD = "q 1 -2 0\nu 1 -2 0 5 6 0\n", "q -1 2 0\nu -1 2 0 3 4 0\n"
OTHERS = {"one": "9 -1 -2 0 7 8 0\n", "four": "9 1 2 0 1 2 0\n"}  # logs of the other leaves


class Blocks(Case):
    """LIDRUP texts for blocks of leaves: a leaf is told by its number in the tree, and its query is
    that of its place in the block."""

    def setUp(self) -> None:
        super().setUp()
        self.write("f.cnf", "p cnf 3 8\n%s\n" % "\n".join(CLAUSES))
        leaves = ["a 1 2 0", "a 1 -2 0", "a -1 2 0", "a -1 -2 0"]
        self.write("f.icnf", "\n".join(["p inccnf", *CLAUSES, *leaves]) + "\n")
        for name, text in OTHERS.items():
            self.write(name, text)

    def lifts(self, first: int, last: int, text: str, *ends: str) -> None:
        """How each leaf of a block ends; none if the block is not there. Then what stood stands."""
        self.write("text", GIVEN + text)
        self.write("log", STOOD)
        lines = ["c leaf %d %s" % end for end in enumerate(ends, first)] or ["c no such leaf"]
        status = 1 if not ends else 0 if "missing" in ends else 20
        self.says(status, lines, "lift", "--lidrup", "--cubes", "f.icnf", "--leaf", str(first),
                  "--to", str(last), "f.cnf", "text", "log")
        self.assertEqual(not ends, self.at("log").read_text() == STOOD, (first, last, text))

    def test_right(self) -> None:
        self.lifts(2, 3, SECOND + THIRD, "closed", "closed")
        self.proves([], "one", "log", "four")
        self.knows_nothing(["c leaf 1 missing", "c leaf 4 missing"], "log")
        self.lifts(3, 3, THIRD, "closed")
        self.knows_nothing(["c leaf 2 missing"], "one", "log", "four")

    def test_other_queries(self) -> None:
        """More than there are leaves, fewer, without the first, in another order, for others."""
        self.lifts(2, 2, SECOND + THIRD, "closed")
        self.lifts(2, 3, SECOND, "closed", "missing")
        self.lifts(2, 3, THIRD, "missing", "missing")
        self.lifts(2, 3, THIRD + SECOND, "missing", "missing")
        self.lifts(1, 2, SECOND + THIRD, "missing", "missing")

    def test_no_such_block(self) -> None:
        for first, last in ((3, 2), (3, 5), (5, 5), (5, 4)):
            self.lifts(first, last, SECOND + THIRD)


class Names(Case):
    def test_strange(self) -> None:
        """A name stays within its line."""
        strange = self.write("a file\ns UNSATISFIABLE %", LEFT)
        shown = "c file 2 closes nothing a%20file%0As%20UNSATISFIABLE%20%25"
        self.proves([shown], "left", strange, "right")

    def test_standard_input(self) -> None:
        self.write("a b", RIGHT)
        self.proves([], "-", given="left\na b\n")

    def test_none(self) -> None:
        self.knows_nothing(["c leaf 1 missing", "c leaf 2 missing"], "-")

    def test_ten_thousand(self) -> None:
        self.at("many").mkdir()
        names = ["many/%d" % number for number in range(10000)]
        for name in names:
            os.link(str(self.at("right")), str(self.at(name)))
        self.proves([], "-", given="\n".join(["left", *names, ""]), quiet=True)

    def test_proof_among_the_logs(self) -> None:
        self.leaves(1, ["c cannot write proof"], "left", "f.lrat")


class Ends(Case):
    def wait_for_parts(self, count: int) -> None:
        end = time.monotonic() + SECONDS
        while len(self.parts()) != count:
            self.assertLess(time.monotonic(), end, "%d parts, found %s" % (count, self.parts()))
            time.sleep(0.01)

    def test_full_disk(self) -> None:
        """What stood stands if no byte can be written, and no part is left."""
        def limit() -> None:
            resource.setrlimit(resource.RLIMIT_FSIZE, (8, 8))
            signal.signal(signal.SIGXFSZ, signal.SIG_IGN)

        self.leaves(1, ["c cannot write proof"], "left", "right", preexec_fn=limit,
                    restore_signals=False)

    def test_killed(self) -> None:
        """What stood stands, and a later join does not mind the part that is left."""
        process = self.join("-")
        assert process.stdin is not None
        process.stdin.write(b"left\n")
        process.stdin.flush()
        self.wait_for_parts(1)
        process.kill()
        process.communicate(timeout=SECONDS)
        self.assertEqual(STOOD, self.proof())
        left = self.parts()
        self.assertEqual((20, [UNSATISFIABLE]), self.end(self.join("left", "right")))
        self.assertEqual((PROOF, left), (self.proof(), self.parts()))

    def test_two_joins(self) -> None:
        """Both write the same proof, and either may be the last."""
        first, second = self.join("-"), self.join("-")
        self.wait_for_parts(2)
        for process in (first, second):
            self.assertEqual((20, [UNSATISFIABLE]), self.end(process, "left\nright\n"))
            self.assertEqual(PROOF, self.proof())
        self.assertEqual([], self.parts())


if __name__ == "__main__":
    run(__doc__)
