#!/usr/bin/env python3
"""Runs `share` and `weave` as processes over one folder: on examples, on drawn formulas beside all
assignments, over files that are spoilt, and with workers that are killed.

    tools/cell_test.py PATH-OF-satcluster [CASE ..]

A CASE is Cells, or Drawn.test_cells; they run alone, and in any order. CELLS is how many cells are
drawn (200).
"""
import itertools
import os
import random
import shutil
import subprocess
import sys
import time
from pathlib import Path
from typing import List, NamedTuple, Optional

sys.dont_write_bytecode = True

from cases import EXAMPLES, FolderCase, dimacs, pigeons, run, satisfies

CELLS = int(os.environ.get("CELLS", "200"))
SECONDS = 120  # how long a run may take
UNSATISFIABLE = "s UNSATISFIABLE"
LAST = 2 ** 40 - 2  # the latest time that an offer could have


class End(NamedTuple):
    status: int
    lines: List[str]


class Cell(FolderCase):
    """A folder for the files of a run, in which `cell` is the folder of a cell."""

    def setUp(self) -> None:
        super().setUp()
        self.cell = self.at("cell")
        self.split = False

    def begin(self, formula: str, depth: int = 0) -> None:
        """A new cell on a formula, which is split if a depth is given."""
        shutil.rmtree(str(self.cell), ignore_errors=True)
        self.formula = self.write("f.cnf", formula)
        self.split = depth > 0
        self.leaves = 1
        if self.split:
            tree = self.call("cubes", "--depth", depth, "f.cnf").lines
            self.write("f.icnf", "\n".join(tree) + "\n")
            self.leaves = sum(line.startswith("a ") for line in tree)

    def call(self, *words: object) -> End:
        return self.ends(self.start(*words))

    def ends(self, process: subprocess.Popen) -> End:
        out, _ = process.communicate(timeout=SECONDS)
        return End(process.returncode, out.decode().split("\n")[:-1])

    def cubes(self) -> List[object]:
        return ["--cubes", "f.icnf"] if self.split else []

    def worker(self, leaf: int = 1, *words: object) -> subprocess.Popen:
        place = ["--leaf", leaf] if self.split else []
        return self.start("share", *self.cubes(), *place, *words, "f.cnf", "cell")

    def files(self, ending: str) -> List[Path]:
        return sorted(self.cell.glob("*" + ending))

    def right(self, end: End, formula: str, satisfiable: Optional[bool], honest: bool) -> None:
        """What a worker may say. Where offers lie, it may believe that a formula is closed."""
        self.assertNotIn(UNSATISFIABLE, end.lines)
        if end.status == 10:
            self.assertEqual("s SATISFIABLE", [x for x in end.lines if x[:1] == "s"][0])
            self.assertTrue(satisfies(formula, end.lines))
            self.assertIsNot(satisfiable, False)
        elif end.lines[-1:] == ["c closed"]:
            self.assertEqual(20, end.status)
        else:
            self.assertEqual(0, end.status, end)
            self.assertIn(end.lines[-1], ("c closed by others", "c limit"))
        if honest and satisfiable:
            self.assertNotIn("c closed", end.lines)
            self.assertNotIn("c closed by others", end.lines)

    def weaves(self, satisfiable: Optional[bool]) -> End:
        """Weaves, and has what is woven accepted; no formula is refuted that has an assignment."""
        if self.at("w.lrat").exists():
            self.at("w.lrat").unlink()
        end = self.call("weave", *self.cubes(), "f.cnf", "cell", "w.lrat")
        self.assertEqual(end.status != 1, self.at("w.lrat").exists(), end)
        if end.status == 1:
            return end
        if self.split:
            told = [line for line in end.lines if line.startswith("c leaf ")]
            closed = ["c leaf %d closed" % (i + 1) for i in range(self.leaves)]
            self.assertEqual(self.leaves, len(told))
            self.assertEqual(end.status == 20, told == closed, end)
            joined = self.call("join", *self.cubes(), "f.cnf", "j.lrat", "w.lrat")
            missing = [line for line in told if line.endswith(" missing")]
            self.assertEqual(missing, [x for x in joined.lines if x.startswith("c leaf")])
            self.assertFalse([x for x in joined.lines if x.startswith("c file")], joined)
        else:
            self.assertEqual((20, UNSATISFIABLE), (end.status, end.lines[-1]))
        if end.status == 20:
            self.assertIsNot(satisfiable, True)
            proof = "j.lrat" if self.split else "w.lrat"
            self.assertEqual(["s VERIFIED"], self.call("check", "f.cnf", proof).lines)
        return end


class Cells(Cell):
    """Cells on examples, by workers that run at the same time."""

    def refutes(self, formula: str, workers: int, depth: int = 0, *words: object) -> List[End]:
        self.begin(formula, depth)
        running = [self.worker(1 + i * self.leaves // workers, *words) for i in range(workers)]
        ends = [self.ends(process) for process in running]
        for end in ends:
            self.right(end, formula, False, True)
        self.assertIn(20, [end.status for end in ends])
        self.assertEqual(20, self.weaves(False).status)
        return ends

    def test_pigeons(self) -> None:
        self.refutes(pigeons(6), 4)
        self.assertTrue(any(b" i " in path.read_bytes() for path in self.files(".log")))

    def test_pigeons_split(self) -> None:
        for end in self.refutes(pigeons(7), 4, 3, "--turn", 50):
            if end.status == 20:
                told = [x for x in end.lines if x.startswith("c leaf")]
                self.assertEqual({"c leaf %d closed" % i for i in range(1, self.leaves + 1)},
                                 set(told))

    def test_examples(self) -> None:
        for name in ("parity_12", "schur_3_14", "clique_5", "random_100_unsat", "urquhart_24"):
            self.refutes((EXAMPLES / (name + ".cnf")).read_text(), 3)

    def test_satisfiable(self) -> None:
        formula = (EXAMPLES / "random_100_sat.cnf").read_text()
        for depth in (0, 2):
            self.begin(formula, depth)
            ends = [self.ends(p) for p in [self.worker(), self.worker(self.leaves)]]
            for end in ends:
                self.right(end, formula, True, True)
            self.assertEqual({10}, {end.status for end in ends})
            self.assertNotEqual(20, self.weaves(True).status)

    def test_quiet_and_binary(self) -> None:
        self.begin(pigeons(5), 1)
        self.assertEqual(End(20, []), self.ends(self.worker(1, "-q")))
        self.assertEqual(End(1, []), self.ends(self.worker(3, "-q")))
        self.split = False
        self.assertEqual(20, self.call("weave", "--binary", "f.cnf", "cell", "b.lrat").status)
        self.assertEqual(["s VERIFIED"], self.call("check", "f.cnf", "b.lrat").lines)

    def test_words(self) -> None:
        """What is refused makes no file."""
        self.begin(pigeons(3), 1)
        tree = ["--cubes", "f.icnf"]
        for words, line in ((["--leaf", 1], "c usage"), (tree, "c usage"),
                            ([*tree, "--leaf", 9], "c no such leaf"), (["--turn", 0], "c usage")):
            self.assertEqual(End(1, [line]), self.call("share", *words, "f.cnf", "cell"))
        self.write("g.cnf", "p cnf 1 1\n2 0\n")
        self.assertEqual(1, self.call("share", "g.cnf", "cell").status)
        self.assertFalse(self.cell.exists())
        self.assertEqual(["c cannot read proof"], self.call("weave", "f.cnf", "no", "w").lines)
        self.cell.mkdir()
        self.assertEqual(End(1, ["c closes nothing"]), self.call("weave", "f.cnf", "cell", "w"))
        self.assertEqual(["c cannot write proof"], self.call("share", "f.cnf", "f.cnf").lines)

    def test_written_over(self) -> None:
        """No file that is read is written over."""
        self.refutes(pigeons(4), 2)
        log = self.files(".log")[0]
        stood = log.read_bytes()
        for out in (str(log), "f.cnf"):
            self.assertEqual(End(1, ["c cannot write proof"]),
                             self.call("weave", "f.cnf", "cell", out))
        self.assertEqual(stood, log.read_bytes())

    def test_limit(self) -> None:
        self.begin(pigeons(8))
        self.assertEqual(End(0, ["c limit"]), self.ends(self.worker(1, "--limit", 40)))
        self.assertEqual(1, len(self.files(".log")))
        self.assertEqual(["c closes nothing"], self.weaves(False).lines)

    def test_late_offer(self) -> None:
        """An offer with a time that no worker has come to ends no sharing."""
        self.begin(pigeons(6))
        self.cell.mkdir()
        (self.cell / "liar.out").write_text("%d 200 1 0\n" % LAST)
        self.assertEqual(20, self.ends(self.worker(1, "--turn", 20)).status)
        self.assertIn(self.ends(self.worker(1, "--turn", 20)).status, (0, 20))
        first, second = [path.read_bytes() for path in self.files(".log")]
        self.assertTrue(b" i " in first or b" i " in second)
        self.assertNotIn(str(LAST).encode(), first + second)
        self.assertEqual(20, self.weaves(False).status)

    def test_others_files(self) -> None:
        """What is no file of a worker, or no regular one, is passed over."""
        self.begin(pigeons(5))
        self.cell.mkdir()
        os.mkfifo(str(self.cell / "pipe.out"))
        (self.cell / "folder.out").mkdir()
        (self.cell / "no-name.out").write_text("1 1 0\n")
        (self.cell / "a.out").write_bytes(bytes(range(256)) * 500)
        (self.cell / "not-a-log.log").write_text("x\n")
        self.assertEqual(20, self.ends(self.worker()).status)
        self.assertEqual(20, self.weaves(False).status)


class Kills(Cell):
    """Workers that are killed and started again."""

    def test_workers(self) -> None:
        draw = random.Random(7)
        for depth in (0, 3):
            formula = pigeons(7)
            self.begin(formula, depth)
            for _ in range(6):
                running = [self.worker(draw.randint(1, self.leaves), "--turn", 30)
                           for _ in range(2)]
                time.sleep(draw.uniform(0.005, 0.12))
                for process in running:
                    process.kill()
                    process.wait()
                self.assertIn(self.weaves(False).status, (0, 1, 20))
            self.right(self.ends(self.worker()), formula, False, True)
            self.assertEqual(20, self.weaves(False).status)

    def test_woven_meanwhile(self) -> None:
        """What grows is woven as far as it has come."""
        self.begin(pigeons(8), 4)
        running = [self.worker(1, "--turn", 20), self.worker(8, "--turn", 20)]
        for _ in range(8):
            self.assertIn(self.weaves(False).status, (0, 1, 20))
        for process in running:
            process.kill()


class Drawn(Cell):
    """Drawn formulas, beside all their assignments."""

    def drawn(self, draw: random.Random) -> List[List[int]]:
        self.variables = draw.randint(4, 9)
        count = int(self.variables * draw.uniform(3.5, 6.5))
        return [[v * draw.choice((1, -1)) for v in
                 draw.sample(range(1, self.variables + 1), draw.choice((2, 3, 3, 3, 4)))]
                for _ in range(count)]

    def is_satisfiable(self, clauses: List[List[int]]) -> bool:
        return any(all(any(values[abs(x) - 1] == (x > 0) for x in clause) for clause in clauses)
                   for values in itertools.product((False, True), repeat=self.variables))

    def lie(self, draw: random.Random) -> None:
        """Offers that no worker made."""
        lines = ["%d %d %s 0" % (draw.choice((0, 1, 5, LAST, 2 ** 41)), draw.randint(1, 99), " ".join(
            str(draw.choice((1, -1)) * draw.randint(1, self.variables + 1))
            for _ in range(draw.randint(0, 3)))) for _ in range(draw.randint(1, 6))]
        self.cell.mkdir(exist_ok=True)
        (self.cell / "liar.out").write_text("\n".join(lines) + draw.choice(("\n", "")))

    def spoil(self, draw: random.Random) -> None:
        """Cuts a file at some place, or changes a line of it."""
        files = self.files(".log") + self.files(".out")
        if not files:
            return
        path = draw.choice(files)
        data = path.read_bytes()
        if draw.random() < 0.4:
            path.write_bytes(data[:draw.randint(0, len(data))])
            return
        lines = data.split(b"\n")
        place = draw.randrange(len(lines))
        words = lines[place].split(b" ")
        words[draw.randrange(len(words))] = draw.choice((b"0", b"1", b"-2", b"7", b"i", b"d", b"e", b"w", b""))
        lines[place] = b" ".join(words)
        path.write_bytes(b"\n".join(lines))

    def test_cells(self) -> None:
        woven = 0
        for seed in range(CELLS):
            draw = random.Random(seed)
            clauses = self.drawn(draw)
            formula = dimacs(self.variables, clauses)
            satisfiable = self.is_satisfiable(clauses)
            with self.subTest(seed=seed):
                self.begin(formula, draw.choice((0, 0, 1, 2)))
                honest = seed % 2 == 0
                for _ in range(draw.randint(1, 4)):
                    if not honest:
                        draw.choice((self.spoil, self.lie))(draw)
                    words = ["--turn", draw.choice((1, 2, 10))]
                    if draw.random() < 0.3:
                        words += ["--limit", draw.randint(1, 4)]
                    end = self.ends(self.worker(draw.randint(1, self.leaves), *words))
                    self.right(end, formula, satisfiable, honest)
                if not honest:
                    self.spoil(draw)
                end = self.weaves(satisfiable)
                woven += end.status == 20
                if honest:
                    self.assertFalse([x for x in end.lines if x.startswith("c log")], end)
        self.assertGreater(woven, CELLS // 10)



if __name__ == "__main__":
    run(__doc__ or "")
