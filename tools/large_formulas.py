#!/usr/bin/env python3
"""Makes formulas above the written limits, and measures the program on them beside CaDiCaL.

    tools/large_formulas.py --make FAMILY-MILLIONS FILE
    tools/large_formulas.py [--program PATH] [--cadical PATH] [--checker PATH] [--folder FOLDER]
        [--limit SECONDS] [FAMILY-MILLIONS | FILE]..

A formula has about so many millions of variables: `chain-20` has 20,000,000. The families are

    chain    each variable implies the next, the first is true and the last is false
    counter  a counter of 32 bits, step by step, is not where it has to be at the end
    grid     cells with one of four colours each, none with that of a neighbour; cells in the
             middle of the grid are neighbours too if they touch by a corner
    random   three random clauses of four literals for each variable

Propagation alone tells that nothing satisfies the first two; the others are satisfiable. Without
--make a row of a Markdown table is printed for each formula, made by its name or taken from FILE
(those of SPEED.md, if none is named): seconds of the processor and the peak of memory, in MB, of
each run. *Read* is `check --large` of a proof that deletes one clause, and CHECKER called in the
same way; *solve* is `solve --large --depth 0`, and *peaks* is its peak to CaDiCaL's, both of which
write an LRAT proof; *verified* is `check --large` of CaDiCaL's proof, or `model --large` of its
answer. `-` is a run that failed, or was ended after so many seconds (1800). Files lie in a folder
in FOLDER until the next formula is made: they take 4 GB.
"""
import argparse
import sys
import tempfile
from argparse import Namespace
from array import array
from math import isqrt
from pathlib import Path
from random import Random
from typing import Dict, Iterable, Iterator, List, Tuple

sys.dont_write_bytecode = True

from timing import Ended, ended

NAMES = ["chain-2", "chain-20", "counter-5", "grid-2", "grid-5", "random-5", "random-20"]
HEADS = ["Formula", "Variables, clauses, millions", "MB", "Read", "CHECKER", "Solve", "CaDiCaL",
         "Peaks", "Verified"]
SOLVE = ["solve", "--large", "--depth", "0", "--limit", "1000000000", "-q"]
ANSWERS = {10: ", sat", 20: ", unsat"}
BITS, WIDTH = 32, 4  # bits of a counter, literals of a random clause
COLOURS, TOUCHING = 5, 100  # a cell lacks a colour; rows and columns in the middle of a grid
PIECE = 10000  # clauses that are made at a time

Clause = Tuple[int, ...]
Formula = Tuple[int, int, Iterator[str]]  # variables, clauses, and the text of these in pieces


def text(clauses: Iterable[Clause]) -> str:
    return "".join(" ".join(map(str, clause)) + " 0\n" for clause in clauses)


def chain(size: int) -> Formula:
    def pieces() -> Iterator[str]:
        for begin in range(1, size, PIECE):
            yield text((-i, i + 1) for i in range(begin, min(begin + PIECE, size)))
        yield text([(1,), (-size,)])  # at the end, or clauses would be simplified as they are read
    return size, size + 1, pieces()


def counter(size: int) -> Formula:
    steps = size // (2 * BITS)
    last = range(2 * BITS * steps + 1, 2 * BITS * steps + BITS + 1)

    def step(first: int) -> Iterator[Clause]:
        """The bits have variables from the first one on, then come carries, and the next bits."""
        for bit in range(first, first + BITS):
            carry, after = bit + BITS, bit + 2 * BITS
            yield from ((-bit, -carry, -after), (-bit, carry, after), (bit, -carry, after),
                        (bit, carry, -after))
            if bit + 1 < first + BITS:
                yield from ((-bit, -carry, carry + 1), (bit, -carry - 1), (carry, -carry - 1))

    def pieces() -> Iterator[str]:
        yield from (text(step(2 * BITS * i + 1)) for i in range(steps))
        yield text([tuple(-bit if steps >> i & 1 else bit for i, bit in enumerate(last))])
        yield text((-bit,) for bit in range(1, BITS + 1))
        yield from (text([(2 * BITS * i + BITS + 1,)]) for i in range(steps))
    return last[-1], steps * (7 * BITS - 2) + 1 + BITS, pieces()


def grid(size: int) -> Formula:
    side, width = isqrt(size // (COLOURS - 1)), COLOURS - 1
    middle = range((side - TOUCHING) // 2, (side + TOUCHING) // 2)

    def rows() -> Iterator[Tuple[int, List[Tuple[int, int, int, int]]]]:
        """The rows: their first cell, and pairs of neighbours, each with the colour it lacks."""
        source, above = Random(1), [0] * side
        for row in range(side):
            lacks = [source.randrange(COLOURS) for _ in range(side)]
            first, pairs = row * side, []
            for at in range(side):
                if at:
                    pairs.append((first + at, lacks[at], first + at - 1, lacks[at - 1]))
                for other in range(at - 1, at + 2) if row in middle and at in middle else (at,):
                    if row and other < side:
                        pairs.append((first + at, lacks[at], first - side + other, above[other]))
            yield first, pairs
            above = lacks

    def clauses_of(first: int, pairs: List[Tuple[int, int, int, int]]) -> Iterator[Clause]:
        for cell in range(first, first + side):
            yield tuple(range(width * cell + 1, width * cell + COLOURS))
        for one, a, other, b in pairs:
            for colour in range(COLOURS):
                if colour not in (a, b):
                    yield (-width * one - colour - (colour < a),
                           -width * other - colour - (colour < b))

    clauses = sum(side + sum(COLOURS - 2 + (a == b) for _, a, _, b in pairs) for _, pairs in rows())
    return width * side * side, clauses, (text(clauses_of(*row)) for row in rows())


def random(size: int) -> Formula:
    def pieces() -> Iterator[str]:
        source = Random(1)
        for begin in range(0, 3 * size, PIECE):
            count = min(PIECE, 3 * size - begin)
            bits = source.getrandbits(32 * WIDTH * count)
            words = array("I", bits.to_bytes(4 * WIDTH * count, sys.byteorder))
            places = (word % (2 * size) - size for word in words)
            yield ("%d " * WIDTH + "0\n") * count % tuple(i + 1 if i >= 0 else i for i in places)
    return size, 3 * size, pieces()


FAMILIES = {"chain": chain, "counter": counter, "grid": grid, "random": random}


def make(name: str, path: Path) -> None:
    family, _, millions = name.partition("-")
    if family not in FAMILIES or not millions:
        sys.exit("neither a family nor a file: " + name)
    variables, clauses, pieces = FAMILIES[family](round(float(millions) * 1000000))
    with path.open("w") as file:
        file.write("p cnf %d %d\n" % (variables, clauses))
        file.writelines(pieces)


def row(asked: Namespace, name: str, folder: Path) -> List[str]:
    formula, proof, printed = folder / "f.cnf", folder / "f.lrat", folder / "printed"
    if not Path(name).is_file():
        make(name, formula)
    formula = Path(name) if Path(name).is_file() else formula
    with formula.open() as lines:
        header = next(line for line in lines if line[:1] != "c").split()
    millions = "%.2f, %.2f" % (int(header[2]) / 1e6, int(header[3]) / 1e6)
    told = [Path(name).name, millions, "%.0f" % (formula.stat().st_size / 1e6)]

    def run(wanted: Dict[int, str], *words: object, says: bytes = b"") -> Ended:
        """Runs a command, which has one of these statuses at its end, and tells its figures."""
        one = ended(words, asked.limit, printed)
        is_right = one.status in wanted and (not says or says in printed.read_bytes())
        answer = wanted.get(one.status or 0, "")
        told.append("%.1f s, %.0f%s" % (one.used, one.peak, answer) if is_right else "-")
        return one

    check = [asked.program, "check", "--large", formula]
    proof.write_text("1 d 1 0\n")
    run({1: ""}, *check, proof, says=b"fault 13")
    if asked.checker:
        run({1: ""}, asked.checker, formula, proof, says=b"fault 13")
    ours = run(ANSWERS, asked.program, *SOLVE, formula, proof)
    peer = run(ANSWERS, asked.cadical, "-q", "--lrat", "--no-binary", formula, proof)
    if {ours.status, peer.status} == set(ANSWERS):
        sys.exit("two answers to " + name)
    if ours.status != peer.status or peer.status not in ANSWERS:
        return told + ["-", "-"]
    told.append("%.2f" % (ours.peak / peer.peak))
    if peer.status == 10:
        check, proof = [asked.program, "model", "--large", formula], printed.rename(folder / "v")
    run({0: ""}, *check, proof)
    return told


def main() -> None:
    parser = argparse.ArgumentParser(usage=__doc__)
    parser.add_argument("--make", nargs=2)
    parser.add_argument("--program", default="satcluster")
    parser.add_argument("--cadical", default="cadical")
    parser.add_argument("--checker")
    parser.add_argument("--folder")
    parser.add_argument("--limit", type=float, default=1800)
    parser.add_argument("names", nargs="*", default=NAMES)
    asked = parser.parse_args()
    if asked.make:
        make(asked.make[0], Path(asked.make[1]))
        return
    heads = [head for head in HEADS if head != "CHECKER" or asked.checker]
    print("| %s |\n|%s" % (" | ".join(heads), "---|" * len(heads)))
    with tempfile.TemporaryDirectory(dir=asked.folder) as folder:
        for name in asked.names:
            print("| %s |" % " | ".join(row(asked, name, Path(folder))), flush=True)


if __name__ == "__main__":
    main()
