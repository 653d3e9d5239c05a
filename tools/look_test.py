#!/usr/bin/env python3
"""Runs `cubes --look` over drawn formulas, and compares its trees with those of the rule.

    tools/look_test.py PATH-OF-satcluster [FORMULAS]

The rule of docs/dev/SPLITTING.md stands here once more, in its own words: all is counted anew at
each node. FORMULAS are drawn (200 if it is left out), each split into 1 to 40 leaves; of each a leaf
is cut too. Beside them stand calls that are refused. Status 1 at the first difference.
"""
import os
import random
import subprocess
import sys
import tempfile
from typing import Dict, Iterable, List, Optional, Set, Tuple

from cases import pigeons

Clause = List[int]
Literals = Set[int]
WEIGHTS = {2: 1024, 3: 256, 4: 64, 5: 16, 6: 4}
CAP = 2 ** 62


def weight(clause: Clause) -> int:
    return WEIGHTS.get(len(clause), 1)


class Rule:
    """The rule, without the limit of visits, which formulas as small as these do not meet."""

    def __init__(self, clauses: List[Clause]) -> None:
        self.clauses = [list(dict.fromkeys(clause)) for clause in clauses
                        if not any(-literal in clause for literal in clause)]

    def settled(self, literals: Iterable[int]) -> Optional[Literals]:
        """These literals with all that they propagate; none if there is a conflict."""
        true = set(literals)
        if any(-literal in true for literal in true):
            return None
        changed = True
        while changed:
            changed = False
            for clause in self.clauses:
                if not any(literal in true for literal in clause):
                    left = [literal for literal in clause if -literal not in true]
                    if not left:
                        return None
                    if len(left) == 1:
                        true.add(left[0])
                        changed = True
        return true

    def open(self, true: Literals) -> List[Tuple[Clause, Clause]]:
        """The clauses that are not satisfied, each with what is left of it."""
        return [(clause, [literal for literal in clause if -literal not in true])
                for clause in self.clauses if not any(literal in true for literal in clause)]

    def shortened(self, before: Literals, after: Literals) -> int:
        new = after - before
        return sum(weight(left) for clause, left in self.open(after) if any(-literal in new for literal in clause))

    def sums(self, true: Literals) -> List[Tuple[int, int]]:
        """By free variable in an open clause, what these weigh; heavier ones first, then lower ones."""
        sums: Dict[int, int] = {}
        for _, left in self.open(true):
            for literal in left:
                sums[abs(literal)] = sums.get(abs(literal), 0) + weight(left)
        return sorted(((total, variable) for variable, total in sums.items()), key=lambda pair: (-pair[0], pair[1]))

    def choose(self, cube: Clause) -> Tuple[str, int]:
        true = self.settled(cube)
        if true is None:
            return "closed", 0
        best: Optional[Tuple[int, int]] = None
        for _ in range(8):
            ranked, best, forced = self.sums(true), None, False
            if not ranked:
                return "leaf", 0
            for variable in [v for total, v in ranked if 2 * total >= ranked[0][0]][:64]:
                if variable in true or -variable in true:
                    continue
                one, other = self.settled(true | {variable}), self.settled(true | {-variable})
                if one is None and other is None:
                    return "closed", 0
                if one is None or other is None:
                    true, forced = one or other or set(), True
                    continue
                a, b = self.shortened(true, one), self.shortened(true, other)
                score = min(a * b * 1024 + a + b, CAP)
                if best is None or score > best[0]:
                    best = score, variable
            if not forced and best is not None:
                return "cut", best[1]
        if best is not None and best[1] not in true and -best[1] not in true:
            return "cut", best[1]
        left = self.sums(true)
        return ("cut", min(variable for _, variable in left)) if left else ("leaf", 0)

    def tree(self, leaves: int) -> List[Clause]:
        below: Dict[Tuple[int, ...], int] = {}  # a cut cube's variable
        waiting: List[Clause] = [[]] if self.settled([]) is not None else []
        is_open = len(waiting)
        while waiting and is_open < leaves:
            cube = waiting.pop(0)
            what, variable = self.choose(cube) if len(cube) < 64 else ("leaf", 0)
            is_open -= what != "leaf"
            if what != "cut":
                continue
            below[tuple(cube)] = variable
            for literal in (variable, -variable):
                if self.settled(cube + [literal]) is not None:
                    is_open += 1
                    waiting.append(cube + [literal])
        return self.listed(below, [])

    def listed(self, below: dict, cube: Clause) -> List[Clause]:
        variable = below.get(tuple(cube))
        if variable is None:
            return [cube]
        return self.listed(below, cube + [variable]) + self.listed(below, cube + [-variable])


def drawn(draw: random.Random, number: int) -> Tuple[int, List[Clause]]:
    """A formula: literals may stand twice in a clause, or with their negations, and clauses be empty."""
    if number % 4 == 0:
        text = pigeons(draw.randint(2, 6))
        lines = text.split("\n")[1:]
        clauses = [[int(word) for word in line.split()[:-1]] for line in lines if line]
        return max(abs(literal) for clause in clauses for literal in clause), clauses
    variables = draw.randint(2, 30)
    clauses = []
    for _ in range(int(variables * draw.uniform(1, 6))):
        length = draw.choice([2, 3, 3, 3, 4]) if number % 4 < 3 else draw.randint(0 if draw.random() < 0.02 else 1, 9)
        clauses.append([draw.choice([1, -1]) * draw.randint(1, variables) for _ in range(length)])
    return variables, clauses


def lines_of(cubes: List[Clause]) -> List[str]:
    return ["a " + "".join("%d " % literal for literal in cube) + "0" for cube in cubes]


def run(program: str, *words: str) -> Tuple[int, str]:
    done = subprocess.run([program, "cubes", *words], stdout=subprocess.PIPE, text=True)
    return done.returncode, done.stdout


def cubes_in(text: str) -> List[str]:
    return [line for line in text.splitlines() if line.startswith("a ")]


def compare(what: str, got: object, wanted: object) -> None:
    if got != wanted:
        sys.exit("%s: got %s, the rule has %s" % (what, got, wanted))


def tree_is_the_rules(program: str, folder: str, number: int, draw: random.Random) -> int:
    variables, clauses = drawn(draw, number)
    path, cubes = os.path.join(folder, "f.cnf"), os.path.join(folder, "f.icnf")
    with open(path, "w") as out:
        out.write("p cnf %d %d\n" % (variables, len(clauses)))
        out.write("".join(" ".join(map(str, clause + [0])) + "\n" for clause in clauses))
    rule, leaves = Rule(clauses), draw.randint(1, 40)
    status, text = run(program, "--look", str(leaves), path)
    tree = rule.tree(leaves)
    compare("formula %d" % number, (status, cubes_in(text)), (0, lines_of(tree)))
    with open(cubes, "w") as out:
        out.write(text)
    leaf = draw.randrange(len(tree))
    what, variable = rule.choose(tree[leaf])
    status, text = run(program, "--cubes", cubes, "--split", str(leaf + 1), "--look", "2", path)
    if what == "cut":
        halves = [tree[leaf] + [variable], tree[leaf] + [-variable]]
        compare("leaf of formula %d" % number, (status, cubes_in(text)), (0, lines_of(tree[:leaf] + halves + tree[leaf + 1:])))
    else:
        compare("leaf of formula %d" % number, (status, text), (1, "c cannot split\n"))
    return len(tree)


def refused(program: str, folder: str) -> None:
    path = os.path.join(folder, "f.cnf")
    for words in ("--look 0", "--look 65537", "--look 2 --depth 3", "--look 2 --on 1", "--look 2 --split 1", "--look 2 --complete x"):
        compare(words, run(program, *words.split(), path), (1, "c usage\n"))
    for words in ("--split 1 --look 3", "--split 1 --look 2 --on 1", "--look 2"):
        compare(words, run(program, "--cubes", path, *words.split(), path), (1, "c usage\n"))


def main() -> None:
    program = os.path.abspath(sys.argv[1])
    count = int(sys.argv[2]) if len(sys.argv) > 2 else 200
    draw = random.Random(77)
    with tempfile.TemporaryDirectory() as folder:
        leaves = sum(tree_is_the_rules(program, folder, number, draw) for number in range(count))
        refused(program, folder)
    print("look_test: %d formulas, %d leaves" % (count, leaves))


if __name__ == "__main__":
    main()
