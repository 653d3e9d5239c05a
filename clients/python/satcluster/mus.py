"""A minimal unsatisfiable subset of a formula's clauses: `satcluster-mus [--out DIR] F.cnf`.

The clauses that are left cannot be satisfied together, of which the program writes a proof, and
without any one of them they can, of which there is a model each. `satcluster check` and `satcluster
model` test all of these before a number is printed, so the loop that finds them need not be
believed.
"""
import argparse
import subprocess
import sys
import tempfile
from pathlib import Path
from typing import Dict, Iterable, List, Optional, Set

from . import dimacs
from .packed import FAULTS, open_text
from .program import Name, SolverError, find
from .runs import check, solve
from .solver import Solver

FORMULA, PROOF, MODELS = "mus.cnf", "mus.lrat", "models"  # in the folder
WIDTH = 78  # of a line of numbers


class Subset:
    """The clauses that are not known to be superfluous, by their places, and the models by which
    some of them are known to be needed."""

    def __init__(self, clauses: List[List[int]], solver: Solver) -> None:
        self.clauses = clauses
        self.solver = solver
        first = max((abs(literal) for clause in clauses for literal in clause), default=0) + 1
        self.selectors = range(first, first + len(clauses))
        self.models: Dict[int, Set[int]] = {}  # of all clauses that are left but this one
        self.left: Set[int] = set(range(len(clauses)))
        self.places: Dict[int, List[int]] = {}  # of the clauses with a literal
        for place, clause in enumerate(clauses):
            for literal in set(clause):
                self.places.setdefault(literal, []).append(place)
        solver.append_formula([-selector, *clause]
                              for selector, clause in zip(self.selectors, clauses))

    def is_satisfied(self, places: Iterable[int]) -> bool:
        """Whether an assignment satisfies these clauses. If not, only a core of them is left."""
        if self.solver.solve(self.selectors[place] for place in places):
            return True
        first = self.selectors[0] if self.clauses else 0
        self.left = {selector - first for selector in self.solver.get_core() or []}
        return False

    def minimize(self) -> None:
        """Leaves out one clause after the other that is not known to be needed."""
        while True:
            unknown = self.left - self.models.keys()
            if not unknown:
                return
            tried = min(unknown)
            if self.is_satisfied(sorted(self.left - {tried})):
                self.rotate(tried, set(self.solver.get_model() or []))

    def rotate(self, needed: int, true: Set[int]) -> None:
        """Notes the model, of which this clause alone is false. Where a literal of it made true has
        another clause alone be false, that one is needed too."""
        waiting = [(needed, true)]
        while waiting:
            place, true = waiting.pop()
            if place in self.models:
                continue
            self.models[place] = true
            for literal in set(self.clauses[place]):
                other = (true - {-literal}) | {literal}
                wrong = [at for at in self.places.get(-literal, ())
                         if at in self.left and other.isdisjoint(self.clauses[at])]
                if len(wrong) == 1:
                    waiting.append((wrong[0], other))


def answer_text(literals: Iterable[int]) -> str:
    return "s SATISFIABLE\nv %s\n" % " ".join(map(str, [*literals, 0]))


def is_model(formula: Path, answer: Path, program: str) -> bool:
    words = [program, "model", str(formula), str(answer)]
    return subprocess.run(words, stdout=subprocess.PIPE).stdout == b"s VERIFIED\n"


def needs(holds: object, what: str) -> None:
    if not holds:
        raise SolverError("%s is refused: this is a fault of satcluster-mus" % what)


def write_and_check(subset: Subset, folder: Path, program: str) -> None:
    """Writes the subset, its proof, and a model for each of its clauses, and has all of them
    tested. Raises SolverError if one is refused."""
    numbers = sorted(subset.left)
    clauses = [subset.clauses[number] for number in numbers]
    variables = sorted({abs(literal) for clause in clauses for literal in clause})
    (folder / MODELS).mkdir(parents=True, exist_ok=True)
    for path in (folder / MODELS).iterdir():
        if path.name.isdigit():  # of a run before
            path.unlink()
    with (folder / FORMULA).open("w", encoding="ascii") as file:
        dimacs.dump(clauses, file)
    needs(solve(clauses, proof=folder / PROOF, program=program).status is False, "the subset")
    needs(check(folder / FORMULA, folder / PROOF, program=program), "the proof")
    with tempfile.TemporaryDirectory(prefix="satcluster-") as room:
        others = Path(room) / "others.cnf"
        for at, number in enumerate(numbers):
            with others.open("w", encoding="ascii") as file:
                dimacs.dump(clauses[:at] + clauses[at + 1:], file)
            answer = folder / MODELS / str(number + 1)
            true = subset.models[number]
            answer.write_text(answer_text(one if one in true else -one for one in variables))
            needs(is_model(others, answer, program), "the model without clause %d" % (number + 1))


def print_numbers(letter: str, numbers: Iterable[int]) -> None:
    line = letter
    for word in map(str, [*numbers, 0]):
        if len(line) + len(word) >= WIDTH:
            print(line)
            line = letter
        line += " " + word
    print(line)


def run(clauses: List[List[int]], folder: Optional[Path], program: Name) -> int:
    with Solver(program=program, records=False) as solver:
        subset = Subset(clauses, solver)
        if subset.is_satisfied(sorted(subset.left)):
            print("s SATISFIABLE")
            return 10
        subset.minimize()
    if folder is not None:
        write_and_check(subset, folder, str(program))
    else:
        with tempfile.TemporaryDirectory(prefix="satcluster-") as spare:
            write_and_check(subset, Path(spare), str(program))
    print("c %d of %d clauses; the proof and %d models are checked" % (
        len(subset.left), len(clauses), len(subset.left)))
    print("s UNSATISFIABLE")
    print_numbers("v", (number + 1 for number in sorted(subset.left)))
    return 20


def main(words: Optional[List[str]] = None) -> int:
    parser = argparse.ArgumentParser(
        prog="satcluster-mus", description="Finds a minimal unsatisfiable subset of the clauses. "
        "The v lines have their numbers, from 1.")
    parser.add_argument("--out", type=Path, metavar="DIR",
                        help="the folder that gets mus.cnf, mus.lrat, and models/N: of the others "
                        "without clause N")
    parser.add_argument("--program", help="the path of satcluster")
    parser.add_argument("formula", metavar="F.cnf",
                        help="may be packed by gzip, xz or bzip2; - is standard input")
    asked = parser.parse_args(words)
    try:
        program = find(asked.program)
        with open_text(asked.formula) as file:
            clauses = list(dimacs.load(file))
    except (*FAULTS, ValueError, SolverError) as why:
        print("c cannot read %s: %s" % (asked.formula, why))
        return 1
    try:
        return run(clauses, asked.out, program)
    except (SolverError, OSError, ValueError) as why:
        print("c %s\ns UNKNOWN" % why)
        return 0


if __name__ == "__main__":
    sys.exit(main())
