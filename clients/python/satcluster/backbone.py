"""The literals that every model of a formula has: `satcluster-backbone [--certificate DIR] F.cnf`.

A session is asked for models without a literal. A core that is the literal's negation alone shows
that all models have it; two models that differ show that their variable has no such literal. The
list says at which queries they stand. `check --session` tests the session, and `review` beside the
formula the list, before a literal is printed; so the loop that finds them need not be believed.
"""
import argparse
import sys
import tempfile
from dataclasses import dataclass, field
from pathlib import Path
from typing import Dict, Iterator, List, Optional, Set, Tuple

from . import dimacs
from .mus import print_numbers
from .packed import FAULTS, open_text
from .program import SolverError, find
from .runs import check_session
from .solver import Solver

EVENTS, PROOF, LIST = "events.icnf", "proof.lidrup", "list"  # in the folder
CHUNK = 100  # literals whose negations are asked for together
Clauses = List[List[int]]


@dataclass
class Search:
    """What is known of the literals of the first model.

    cores: those that all models have, with the query whose core shows it. models: the negations of
    the others, with a query whose model has them.
    """

    solver: Solver
    unknown: Set[int] = field(default_factory=set)
    cores: Dict[int, int] = field(default_factory=dict)
    models: Dict[int, int] = field(default_factory=dict)

    def run(self) -> bool:
        """Whether there is a model; then nothing stays unknown."""
        if not self.solver.solve():
            return False
        self.unknown = set(self.solver.get_model() or [])
        queue = sorted(self.unknown, key=abs, reverse=True)
        while queue:
            chunk = [literal for literal in queue[-CHUNK:] if literal in self.unknown]
            del queue[-CHUNK:]
            self.try_together(chunk)
            for literal in chunk:
                if literal in self.unknown:
                    self.ask([-literal])
        return True

    def try_together(self, chunk: List[int]) -> None:
        """Asks for a model without these literals, but for those that a core names."""
        left = [-literal for literal in chunk]
        while len(left) > 1 and not self.ask(left):
            core = set(self.solver.get_core() or [])
            left = [literal for literal in left if literal not in core]

    def ask(self, literals: List[int]) -> bool:
        answer = self.solver.solve(literals)
        query = self.solver.nof_queries()
        if answer:
            true = set(self.solver.get_model() or [])
            self.models.update((-literal, query) for literal in self.unknown - true)
            self.unknown &= true
        else:
            core = self.solver.get_core() or []
            if len(core) == 1:
                self.cores[-core[0]] = query
                self.unknown.discard(-core[0])
        return answer

    def lines(self) -> Iterator[str]:
        """The list: `core LITERAL QUERY`, or `model LITERAL QUERY` if the first model has not got
        this literal, and that of the query has."""
        for literal in sorted(self.cores, key=abs):
            yield "core %d %d" % (literal, self.cores[literal])
        for literal in sorted(self.models, key=abs):
            yield "model %d %d" % (literal, self.models[literal])


def needs(holds: object, why: str) -> None:
    if not holds:
        raise ValueError(why)


def answers(proof: Path) -> Iterator[Tuple[int, str, Set[int]]]:
    """Of a proof that is accepted: the number of a query, `m` or `u`, and the literals of its model
    or core."""
    query = 0
    with proof.open(encoding="ascii") as lines:
        for line in lines:
            query += line[0] == "q"
            if line[0] in "mu":
                words = line.split()
                yield query, line[0], {int(word) for word in words[1:words.index("0")]}


def review(clauses: Clauses, folder: Path, program: str) -> List[int]:
    """The literals that all models have, if the folder's files show of each variable whether it has
    one. Raises ValueError, which tells why, if they do not."""
    checked = check_session(folder / EVENTS, folder / PROOF, program=program)
    needs(checked, "check --session prints: %s" % checked)
    with (folder / EVENTS).open(encoding="ascii") as events:
        needs(next(events) == "p inccnf\n", "the events have no header")
        for clause in clauses:
            needs(next(events) == "".join("%d " % literal for literal in clause) + "0\n",
                  "the session was not given the formula's clauses")
        needs(all(line.startswith("a ") for line in events), "the session was given more clauses")
    cores: Dict[int, List[int]] = {}  # what is wanted of a query
    models: Dict[int, List[int]] = {}
    found: List[int] = []
    variables = set()
    for line in (folder / LIST).read_text("ascii").splitlines():
        word, literal, query = line.split()[0], *map(int, line.split()[1:3])
        needs(word in ("core", "model"), "a line of the list is " + line)
        (cores if word == "core" else models).setdefault(query, []).append(literal)
        variables.add(abs(literal))
        found += [literal] if word == "core" else []
    first: Set[int] = set()
    for query, letter, literals in answers(folder / PROOF):
        first = first or (literals if letter == "m" else first)
        if letter == "u" and query in cores:
            needs({-literal for literal in cores.pop(query)} == literals,
                  "the core of query %d is another one" % query)
        if letter == "m" and query in models:
            needs(all(-literal in first and literal in literals for literal in models.pop(query)),
                  "the model of query %d does not differ so from the first one" % query)
    needs(not cores and not models, "a query of the list has no such answer")
    needs(variables.issuperset(abs(literal) for clause in clauses for literal in clause),
          "the list leaves a variable out")
    return found


def run(clauses: Clauses, folder: Path, program: str) -> int:
    folder.mkdir(parents=True, exist_ok=True)
    with Solver(clauses, events=folder / EVENTS, proof=folder / PROOF, program=program) as solver:
        search = Search(solver)
        has_model = search.run()
        queries = solver.nof_queries()
    (folder / LIST).write_text("".join(line + "\n" for line in search.lines()), encoding="ascii")
    if not has_model:
        checked = check_session(folder / EVENTS, folder / PROOF, program=program)
        needs(checked, "check --session prints: %s" % checked)
        print("s UNSATISFIABLE")
        return 20
    found = review(clauses, folder, program)
    print("c %d literals, by %d queries, which are checked" % (len(found), queries))
    print("s SATISFIABLE")
    print_numbers("b", found)
    return 10


def main(words: Optional[List[str]] = None) -> int:
    parser = argparse.ArgumentParser(
        prog="satcluster-backbone", description="Finds the literals that every model of a formula "
        "has. They are printed on lines that begin with b.")
    parser.add_argument("--certificate", type=Path, metavar="DIR",
                        help="the folder that gets the session, its proof, and the list")
    parser.add_argument("--program", help="the path of satcluster")
    parser.add_argument("formula", metavar="F.cnf",
                        help="may be packed by gzip, xz or bzip2; - is standard input")
    asked = parser.parse_args(words)
    try:
        program = find(asked.program)
        with open_text(asked.formula) as file:
            clauses = list(dimacs.load(file))
    except (*FAULTS, ValueError, SolverError) as why:
        print("c cannot read %s: %s" % (asked.formula, why))
        return 1
    try:
        with tempfile.TemporaryDirectory(prefix="satcluster-") as spare:
            return run(clauses, asked.certificate or Path(spare), program)
    except (SolverError, OSError, ValueError) as why:
        print("c %s\ns UNKNOWN" % why)
        return 0


if __name__ == "__main__":
    sys.exit(main())
