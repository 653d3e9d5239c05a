#!/usr/bin/env python3
"""How few queens see every square of a board? The least number, by a totalizer.

    examples/cardinality.py [SIDE]

A variable says that a queen is on a square, and a clause of a square that a queen is on one of
those that see it. A totalizer counts: its K-th output is true if K queens or more are on the board.
So whether fewer than K will do is asked under the assumption that the output is false, until the
answer is no. SIDE is the side of the board, 7 if it is left out.
"""
import sys
from pathlib import Path
from typing import List

sys.path.insert(0, str(Path(__file__).resolve().parent.parent / "clients" / "python"))

from satcluster import Solver


class Totalizer:
    """Outputs of which the K-th (from 1) is true if K of the literals are true, or more."""

    def __init__(self, solver: Solver, literals: List[int]) -> None:
        self.solver = solver
        self.last = max(map(abs, literals))
        self.outputs = self.merged(literals)

    def merged(self, literals: List[int]) -> List[int]:
        """The outputs over these literals, of those over either half."""
        if len(literals) == 1:
            return literals
        half = len(literals) // 2
        left, right = self.merged(literals[:half]), self.merged(literals[half:])
        outputs = list(range(self.last + 1, self.last + len(literals) + 1))
        self.last = outputs[-1]
        for one in range(len(left) + 1):
            for other in range(len(right) + 1):
                if one + other:
                    inputs = left[one - 1:one] * (one > 0) + right[other - 1:other] * (other > 0)
                    self.solver.add_clause([*(-literal for literal in inputs),
                                            outputs[one + other - 1]])
        return outputs


def seen_from(side: int, row: int, column: int) -> List[int]:
    """The squares from which a queen sees this one, and this one; they are numbered from 1."""
    return [other_row * side + other_column + 1 for other_row in range(side)
            for other_column in range(side)
            if other_row == row or other_column == column
            or abs(other_row - row) == abs(other_column - column)]


def draw(side: int, model: List[int]) -> None:
    for row in range(side):
        squares = model[row * side:(row + 1) * side]
        print("  " + " ".join("Q" if square > 0 else "." for square in squares))


def main() -> int:
    side = int(sys.argv[1]) if len(sys.argv) > 1 else 7
    squares = list(range(1, side * side + 1))
    with Solver() as solver:
        solver.append_formula(seen_from(side, row, column) for row in range(side)
                              for column in range(side))
        outputs = Totalizer(solver, squares).outputs
        fewest, board = len(squares), squares
        while solver.solve([-outputs[fewest - 1]]):
            board = solver.get_model() or []
            fewest = sum(literal > 0 for literal in board[:len(squares)])
            print("%d queens see each square" % fewest)
        print("%d are the fewest:" % fewest)
        draw(side, board)
        checked = solver.verify()
        print(checked)
    return 0 if checked else 1


if __name__ == "__main__":
    sys.exit(main())
