#!/usr/bin/env python3
"""Runs `decide` with `--progress` and `--stats` and without them, in a pipe and on a terminal: answer
and proof are the same, byte by byte, and the counts are those of the proof. Answer and proof of
`elaborate` and `check --drat` are the same with `--progress` and without it.

    tools/progress_test.py PATH-OF-satcluster [CASE ..]
"""
import os
import pty
import re
import subprocess
import sys
from typing import Dict, List, NamedTuple, Tuple

sys.dont_write_bytecode = True

from cases import EXAMPLES, FolderCase, dimacs, pigeons, run

NAMES = ("conflicts", "decisions", "propagations", "restarts", "reductions", "phases", "lemmas",
         "fixed", "bytes")
LINE = rb"c \d+ s: \d+ conflicts, \d+ a second, \d+ lemmas, \d+ fixed, \d+\.\d MB"
STEPS = rb"c \d+ s: (?:\d+ steps read|(?:forward|backward), \d+ of \d+ steps)"


class End(NamedTuple):
    status: int
    lines: List[str]
    told: bytes
    proof: bytes


class Case(FolderCase):
    def end(self, status: int, printed: bytes, told: bytes) -> End:
        proof = self.at("proof")
        data = proof.read_bytes() if proof.exists() else b""
        if proof.exists():
            proof.unlink()
        return End(status, printed.decode().split("\n")[:-1], told, data)

    def in_pipe(self, *words: str) -> End:
        done = subprocess.run([self.program, *words], cwd=str(self.folder),
                              stdout=subprocess.PIPE, stderr=subprocess.PIPE, timeout=600)
        return self.end(done.returncode, done.stdout, done.stderr)

    def decide(self, *words: str) -> End:
        return self.in_pipe("decide", *words, "proof")

    def at_terminal(self, *words: str) -> End:
        keyboard, screen = pty.openpty()
        with self.start(*words, stderr=screen, stdin=subprocess.DEVNULL) as done:
            os.close(screen)
            told = b""
            while True:
                try:
                    told += os.read(keyboard, 4096)
                except OSError:  # Linux: nobody has the other end open
                    break
            assert done.stdout
            printed = done.stdout.read()
        os.close(keyboard)
        return self.end(done.returncode, printed, told)

    def counts(self, lines: List[str]) -> Dict[str, int]:
        """The counts by name, which stand in one order."""
        rows = [line.split() for line in lines]
        self.assertEqual([("c", name) for name in NAMES], [tuple(row[:2]) for row in rows])
        return {name: int(number) for _, name, number in rows}

    def same(self, plain: End, end: End) -> Dict[str, int]:
        """Answer and proof are those of the plain run; the counts are those of the proof."""
        kept = len(plain.lines)
        self.assertEqual(plain[:2] + (plain.proof,), (end.status, end.lines[:kept], end.proof))
        self.assertEqual(b"", plain.told)
        return self.counts(end.lines[kept:])


class Counts(Case):
    def test_examples(self) -> None:
        for path in sorted(EXAMPLES.glob("*.cnf")):
            plain = self.decide(str(path))
            counts = self.same(plain, self.decide("--progress", "--stats", str(path)))
            if plain.status != 20:
                continue
            steps = [line.split() for line in plain.proof.decode().split("\n")[:-1]]
            added = sum(step[1] != "d" for step in steps)
            deleted = sum(len(step) - 3 for step in steps if step[1] == "d")
            self.assertEqual((added - 1, added - 1 - deleted, len(plain.proof)),
                             (counts["conflicts"], counts["lemmas"], counts["bytes"]), path)

    def test_binary(self) -> None:
        path = str(EXAMPLES / "random_100_unsat.cnf")
        text = self.same(self.decide(path), self.decide("--stats", path))
        plain = self.decide("--binary", path)
        self.assertEqual(text, self.same(plain, self.decide("--binary", "--stats", path)))
        self.assertLess(len(plain.proof), text["bytes"])

    def test_limit(self) -> None:
        path = str(EXAMPLES / "random_100_unsat.cnf")
        plain = self.decide("--limit", "7", path)
        self.assertEqual((0, ["s UNKNOWN"], b"", b""), plain)
        self.assertEqual(7, self.same(plain, self.decide("--limit", "7", "--stats", path))["conflicts"])

    def test_witness_and_quiet(self) -> None:
        path = str(EXAMPLES / "random_100_sat.cnf")
        self.same(self.decide("-n", path), self.decide("-n", "--stats", path))
        for words in (["-q"], ["-q", "-n"]):
            self.assertEqual(self.decide(*words, path), self.decide(*words, "--stats", path))


class Progress(Case):
    def test_pipe_and_terminal(self) -> None:
        formula = self.write("f.cnf", pigeons(11))
        words = ["--limit", "40000", "--stats", formula]
        plain = self.decide(*words)
        lines = self.decide("--progress", *words)
        self.assertEqual(plain[:2], lines[:2])
        self.assertRegex(lines.told, rb"^(?:" + LINE + rb"\n)+$")
        place = self.at_terminal("decide", "--progress", *words, "proof")
        self.assertEqual(plain[:2], place[:2])
        self.assertRegex(place.told, rb"^(?:\r" + LINE + rb"\x1b\[K)+\r\n$")

    def test_proof(self) -> None:
        formula = self.write("f.cnf", pigeons(8))
        plain = self.decide(formula)
        self.assertEqual(20, plain.status)
        self.same(plain, self.decide("--progress", "--stats", formula))
        self.same(plain, self.at_terminal("decide", "--progress", "--stats", formula, "proof"))


def spelt(clauses: List[List[int]], before: str) -> str:
    return "".join(before + " ".join(map(str, clause + [0])) + "\n" for clause in clauses)


class Cook:
    """Cook's proof, by extended resolution, that the pigeons have one hole too few, as DRAT."""

    def __init__(self, count: int) -> None:
        self.top = 0
        self.places = self.fresh(count)
        self.live = self.clauses(count)
        self.formula = dimacs(self.top, self.live)
        self.proof = "".join(map(self.reduced, range(count, 2, -1))) + "0\n"

    def fresh(self, count: int) -> Dict[Tuple[int, int], int]:
        """A variable for each pigeon and each of the holes, one fewer."""
        first, self.top = self.top + 1, self.top + count * (count - 1)
        return {(i, j): first + i * (count - 1) + j for i in range(count) for j in range(count - 1)}

    def clauses(self, count: int) -> List[List[int]]:
        holes, p = range(count - 1), self.places
        return ([[p[i, j] for j in holes] for i in range(count)]
                + [[-p[i, j], -p[k, j]] for j in holes for i in range(count) for k in range(i)])

    def reduced(self, count: int) -> str:
        """The steps to one pigeon fewer: who is in the last hole goes where the last pigeon is."""
        p, q = self.places, self.fresh(count - 1)
        hole, last = count - 2, count - 1
        named = [clause for (i, j), it in q.items()
                 for clause in ([it, -p[i, j]], [it, -p[i, hole], -p[last, j]],
                                [-it, p[i, j], p[i, hole]], [-it, p[i, j], p[last, j]])]
        helped = [[-q[i, j], -q[k, j], p[at, j]] for j in range(count - 2)
                  for i in range(count - 1) for k in range(i) for at in (i, k)]
        before, self.places = self.live, q
        self.live = self.clauses(count - 1)
        return spelt(named + helped + self.live, "") + spelt(before + named + helped, "d ")


class Elaboration(Case):
    def drawn(self, count: int) -> List[str]:
        cook = Cook(count)
        return [self.write("f.cnf", cook.formula), self.write("f.drat", cook.proof)]

    def test_pipe_and_terminal(self) -> None:
        files = self.drawn(36)
        for words in (["elaborate", *files, "proof"], ["check", "--drat", *files]):
            plain = self.in_pipe(*words)
            self.assertEqual((0, "s VERIFIED", b""), (plain.status, plain.lines[0], plain.told))
            self.assertEqual(words[0] == "elaborate", plain.proof != b"")
            lines = self.in_pipe(*words, "--progress")
            self.assertEqual(plain, lines._replace(told=b""))
            self.assertRegex(lines.told, rb"^(?:" + STEPS + rb"\n)+$")
            place = self.at_terminal(*words, "--progress")
            self.assertEqual(plain, place._replace(told=b""))
            self.assertRegex(place.told, rb"^(?:\r" + STEPS + rb"\x1b\[K)+\r\n$")

    def test_forms_and_faults(self) -> None:
        files = self.drawn(6)
        cut = self.write("cut.drat", "1 0\n-1")
        for words in (["elaborate", *files, "proof"], ["elaborate", "--binary", *files, "proof"],
                      ["elaborate", files[0], cut, "proof"], ["check", "--drat", files[0], cut]):
            plain = self.in_pipe(*words)
            self.assertEqual(int(cut in words), plain.status)
            self.assertEqual(plain, self.in_pipe(*words, "--progress")._replace(told=b""))

    def test_other_proofs(self) -> None:
        files = self.drawn(6)
        for words in ([], ["--session"], ["--drat", "--session"]):
            end = self.in_pipe("check", "--progress", *words, *files)
            self.assertEqual((1, ["c usage"]), end[:2], words)


if __name__ == "__main__":
    run(__doc__)
