#!/usr/bin/env python3
"""Runs `receipt` and `cover` as processes over files that are right, spoilt and hostile.

    tools/receipt_test.py PATH-OF-satcluster

Tells what it tests, a line each, and ends with status 1 at the first difference.
"""
import hashlib
import subprocess
import sys
import tempfile
from pathlib import Path
from typing import Tuple

FORMULA = "p cnf 2 4\n1 2 0\n-1 2 0\n1 -2 0\n-1 -2 0\n"
CUBES = "p inccnf\n1 2 0\n-1 2 0\n1 -2 0\n-1 -2 0\na 1 0\na -1 0\n"
LEFT, RIGHT, NOTHING = "5 -1 0 2 4 0\n", "5 1 0 1 3 0\n", "5 2 0 1 2 0\n"
SECONDS = 60  # how long a run may take


def same(what: str, wanted: object, found: object) -> None:
    if wanted != found:
        print("DIFFERS: %s: wanted %r, found %r" % (what, wanted, found))
        sys.exit(1)


def ok(what: str) -> None:
    print("ok: " + what, flush=True)


class Bench:
    """A folder with a formula, its tree of two leaves, and logs."""

    def __init__(self, program: str, folder: str) -> None:
        self.program, self.folder = str(Path(program).resolve()), Path(folder)
        for name, text in (("f.cnf", FORMULA), ("f.icnf", CUBES), ("left", LEFT), ("right", RIGHT),
                           ("nothing", NOTHING), ("g.cnf", FORMULA.replace("-1 -2 0", "-1 -2 1 0")),
                           ("g.icnf", CUBES.replace("-1 -2 0", "-1 -2 1 0"))):
            self.write(name, text)

    def write(self, name: str, text: str) -> None:
        (self.folder / name).write_text(text)

    def read(self, name: str) -> str:
        return (self.folder / name).read_text()

    def run(self, *words: str, send: str = "") -> Tuple[int, str]:
        ran = subprocess.run([self.program, *words], input=send, stdout=subprocess.PIPE, text=True,
                             cwd=str(self.folder), timeout=SECONDS, check=False)
        return ran.returncode, ran.stdout

    def receipt(self, log: str, to: str) -> Tuple[int, str]:
        return self.run("receipt", "--cubes", "f.icnf", "f.cnf", log, to)

    def cover(self, *names: str, send: str = "") -> Tuple[int, str]:
        return self.run("cover", "--cubes", "f.icnf", "f.cnf", *names, send=send)


def test_receipts(bench: Bench) -> None:
    same("a log", (0, "c leaf 1 closed\n"), bench.receipt("left", "left.receipt"))
    told = bench.read("left.receipt").split("\n")
    same("the formula's digest", "formula " + hashlib.sha256(FORMULA.encode()).hexdigest(), told[1])
    same("the log's digest", "log " + hashlib.sha256(LEFT.encode()).hexdigest(), told[2])
    same("numbers", ["lemmas 1", "bytes %d" % len(LEFT), "5 -1 0 0", "end", ""], told[3:])
    same("another log", (0, "c leaf 2 closed\n"), bench.receipt("right", "right.receipt"))
    ok("a receipt has the digests of the formula and of the log, and the lemma that closes")
    bench.write("f.cnf", "c a comment\n" + FORMULA.replace("1 2 0", "1  2 0", 1))
    bench.receipt("left", "again")
    same("white space", bench.read("left.receipt"), bench.read("again"))
    bench.write("f.cnf", FORMULA)
    ok("comments and white space of the formula do not count")


def test_no_receipts(bench: Bench) -> None:
    bench.write("stood", "what stood\n")
    bench.write("wrong", LEFT.replace("2 4", "2 9"))
    bench.write("gone", LEFT + "5 d 5 0\n")
    for log, wanted in (("nothing", "c closes nothing\n"), ("gone", "c closes nothing\n"),
                        ("wrong", "c log line 1 fault 3\n"), ("absent", "c cannot read proof\n")):
        same(log, (1, wanted), bench.receipt(log, "stood"))
        same("what stood", "what stood\n", bench.read("stood"))
    for name in ("f.cnf", "f.icnf", "left"):
        text = bench.read(name)
        same("over " + name, (1, "c cannot write proof\n"), bench.receipt("left", name))
        same(name, text, bench.read(name))
    parts = [path.name for path in bench.folder.iterdir() if ".part" in path.name]
    same("parts", [], parts)
    ok("of a log that is wrong, or closes nothing, nothing is written, and no file that is read is")


def test_cover(bench: Bench) -> None:
    both = ("left.receipt", "right.receipt")
    same("both", (0, "s COVERED\n"), bench.cover(*both))
    same("listed", (0, "s COVERED\n"), bench.cover("-", send="\n".join(both)))
    same("one", (1, "c leaf 2 missing\ns NOT COVERED\n"), bench.cover("left.receipt"))
    same("none", (1, "c leaf 1 missing\nc leaf 2 missing\ns NOT COVERED\n"), bench.cover("-"))
    same("twice", (0, "c file 2 closes nothing left.receipt\ns COVERED\n"),
         bench.cover("left.receipt", "left.receipt", "right.receipt"))
    same("quiet", (0, "s COVERED\n"), bench.cover("-q", "left.receipt", "left.receipt", "right.receipt"))
    ok("leaves are covered if and only if receipts close them all")


def test_spoilt(bench: Bench) -> None:
    text = bench.read("right.receipt")
    missing = "c leaf 2 missing\ns NOT COVERED\n"
    for what, spoilt, line in (("cut", text[:-4], 7), ("a version", text.replace("t 1", "t 2", 1), 1),
                               ("a line more", text + "\n", 8), ("no number", text.replace("s 1", "s", 1), 4)):
        bench.write("spoilt", spoilt)
        status, told = bench.cover("left.receipt", "spoilt")
        same(what, (1, True, missing), (status, told.startswith("c file 2 no receipt at line "),
                                        told.split("\n", 1)[1]))
    same("the name", "spoilt", told.split("\n")[0].split()[-1])
    bench.run("receipt", "--cubes", "g.icnf", "g.cnf", "right", "other")
    same("another formula", (1, "c file 2 of another formula other\n" + missing),
         bench.cover("left.receipt", "other"))
    bench.write("more", text.replace("5 1 0", "5 1 2 0"))
    same("a literal too many", (1, "c file 2 closes nothing more\n" + missing),
         bench.cover("left.receipt", "more"))
    same("absent", (1, "c file 2 cannot be read absent\n" + missing), bench.cover("left.receipt", "absent"))
    same("FILE of another formula", (1, "c cubes of another formula\n"),
         bench.run("cover", "--cubes", "g.icnf", "f.cnf", "left.receipt"))
    with (bench.folder / "long").open("wb") as file:
        file.truncate(1 << 27)
    same("long", (1, "c file 2 too long long\n" + missing), bench.cover("left.receipt", "long"))
    ok("what is cut, of another formula, too long or no receipt closes nothing, and is told")


def main() -> None:
    if len(sys.argv) != 2:
        sys.exit(__doc__)
    with tempfile.TemporaryDirectory() as folder:
        bench = Bench(sys.argv[1], folder)
        for test in (test_receipts, test_no_receipts, test_cover, test_spoilt):
            test(bench)


if __name__ == "__main__":
    main()
