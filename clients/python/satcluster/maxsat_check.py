"""Checks the certificate of an optimum: `satcluster-maxsat-check F.wcnf DIR`.

Nothing is proved of these lines. They are few, to be read, and rest on the proved `check --session`
and on this argument. Let c be the optimum, and suppose that an assignment satisfies the hard
clauses and costs less. It is extended to the new variables: that of a soft clause is true exactly
if the clause is, and output K of a sum exactly if K or more of its inputs are. So all clauses of
`__init__` and `grown` are true. After each line of the list the assignment costs

    lower + the sum of weights[L] over all literals L that it makes false, or more.        (*)

At first it does, as soft clauses cost what they cost. And it stays so:

- `core Q W L1 .. Ln`: the session proves that not all of L1 .. Ln are true, as all clauses before
  query Q are. If J of them are false, J >= 1, then the W that each of these loses goes to `lower`
  once, and once to each of the outputs 2 .. J of the sum of -L1 .. -Ln, which are true.
- `count Q K`: output K of that sum is made, and its negation weighs W; what is not made, nothing.
- `harden L`: L is given as a clause. Were it false, it would cost lower + weights[L] by (*). The
  line is refused if that is less than c.

In the end `lower` is at least c, or infinite by an empty core: there is no such assignment. That c
can be reached, the model shows. Of unsatisfiable hard clauses c is infinite.
"""
import subprocess
import sys
from itertools import count
from math import inf
from pathlib import Path
from typing import IO, Callable, Dict, Iterator, List, Tuple

from .packed import FAULTS, open_text
from .program import SolverError, find

Clause = List[int]


def needs(holds: bool, why: str, *of: object) -> None:
    if not holds:
        raise ValueError(why % of)


def read_formula(path: str) -> Tuple[int, List[Clause], List[Tuple[int, Clause]]]:
    """The greatest variable, the hard clauses, and the soft ones with their weights."""
    words: List[str] = []
    variables, top, hard, soft = 0, inf, [], []
    with open_text(path) as lines:
        for line in lines:
            if line.startswith("p"):
                variables, top = int(line.split()[2]), int([*line.split(), str(1 << 63)][4])
            words += [] if line[0] in "cp" else line.split()
            while "0" in words:
                end = words.index("0")
                first, clause, words = words[0], [*map(int, words[1:end])], words[end + 1:]
                variables = max([variables] + [abs(literal) for literal in clause])
                if first == "h" or int(first) >= top:
                    hard.append(clause)
                else:
                    needs(int(first) > 0, "a weight of %s is %s", path, first)
                    soft.append((int(first), clause))
    needs(not words, "%s ends within a clause", path)
    return variables, hard, soft


def cores_of(proof: Path) -> Dict[int, Clause]:
    """The cores of a proof that `check --session` accepts, by the numbers of their queries."""
    cores, query = {}, 0
    with proof.open(encoding="ascii", newline="\n") as lines:
        for line in lines:
            query += line[0] == "q"
            if line[0] == "u":
                cores[query] = [int(word) for word in line.split(" 0 ")[0].split()[1:]]
    return cores


class Sum:
    """A totalizer of inputs. Its outputs are made one by one, with the clauses that define them."""

    def __init__(self, inputs: Clause) -> None:
        self.size, half = len(inputs), len(inputs) // 2
        self.outputs = {1: inputs[0]} if self.size == 1 else {}
        self.halves = [Sum(inputs[:half]), Sum(inputs[half:])] if self.size > 1 else []

    def grown(self, number: int, fresh: Iterator[int]) -> Iterator[Clause]:
        """The clauses of an output, after those of the halves' outputs that they name: if I inputs
        of the left half are true, and J of the right one, then output I + J is."""
        if number in self.outputs:
            return
        for half in self.halves:
            for below in range(1, min(number, half.size) + 1):
                yield from half.grown(below, fresh)
        self.outputs[number] = next(fresh)
        left, right = self.halves
        for i in range(max(0, number - right.size), min(number, left.size) + 1):
            parts = [(half, part) for half, part in ((left, i), (right, number - i)) if part]
            yield [*(-half.outputs[part] for half, part in parts), self.outputs[number]]


class Check:
    """The formula, the events of the session, and what is known after each line of the list."""

    def __init__(self, formula: str, events: IO[str], proof: Path) -> None:
        self.variables, self.hard, self.soft = read_formula(formula)
        self.events, self.cores = events, cores_of(proof)
        self.events.readline()  # the header
        self.fresh = count(self.variables + 1)
        self.lower: float = 0  # an integer, or infinite
        self.queries, self.optimum = 0, inf
        self.weights: Dict[int, int] = {}
        self.sums: Dict[int, Tuple[int, Sum, Iterator[int]]] = {}
        for clause in self.hard:
            self.given(clause, "a hard clause")
        for weight, clause in self.soft:
            if len(clause) > 1:  # it has a new variable, which stands for it
                clause = [next(self.fresh), *clause]
                self.given([-clause[0], *clause[1:]], "a soft clause")
            if clause:
                self.weights[clause[0]] = self.weights.get(clause[0], 0) + weight
            else:
                self.lower += weight

    def given(self, clause: Clause, what: str) -> None:
        """The next clause of the events has to be this one."""
        line = self.events.readline()
        while line.startswith("a "):
            self.queries, line = self.queries + 1, self.events.readline()
        wanted = "".join("%d " % literal for literal in clause) + "0\n"
        needs(line == wanted, "the session has %r, and not %s, %r", line, what, wanted)

    def model(self, cost: int, bits: str) -> None:
        true = {at if bit == "1" else -at for at, bit in enumerate(bits, 1)}
        needs(len(bits) == self.variables and not bits.strip("01"), "the model is none")
        needs(not any(map(true.isdisjoint, self.hard)), "the model makes a hard clause false")
        self.optimum = sum(weight for weight, clause in self.soft if true.isdisjoint(clause))
        needs(cost == self.optimum, "the model costs %s, and not %d", self.optimum, cost)

    def core(self, query: int, weight: int, *literals: int) -> None:
        while self.queries < query:  # no clause is given before it that was not looked at
            line, self.queries = self.events.readline(), self.queries + 1
            needs(line.startswith("a "), "the session has %r before query %d", line, query)
        core = self.cores.get(query, [0])
        needs(sorted(core) == sorted(literals), "the core of query %d is %s", query, core)
        needs(weight >= 0 and query not in self.sums, "it has no weight, or was there before")
        for literal in core:
            self.weights[literal] = self.weights.get(literal, 0) - weight
            needs(self.weights[literal] >= 0, "literal %d weighs less than %d", literal, weight)
        self.lower += weight if core else inf
        self.sums[query] = weight, Sum([-literal for literal in literals]), count(2)

    def count(self, query: int, number: int) -> None:
        needs(query in self.sums, "no core of query %d stands before", query)
        weight, inputs, numbers = self.sums[query]
        needs(next(numbers) == number <= inputs.size, "this is not the sum's next output")
        for clause in inputs.grown(number, self.fresh):
            self.given(clause, "a totalizer's clause")
        self.weights[-inputs.outputs[number]] = weight

    def harden(self, literal: int) -> None:
        needs(self.lower + self.weights.get(literal, 0) >= self.optimum, "%d may be false", literal)
        self.given([literal], "a hardened literal")


def replay(known: Check, lines: List[str]) -> str:
    """What the list shows; raises ValueError, with the reason, if that is nothing."""
    needs(lines[0] == "satcluster maxsat 1" and lines[-2:] == ["end", ""], "the list is not whole")
    if lines[1] != "unsatisfiable":
        known.model(int(lines[1].split()[1]), lines[1].split()[2])
    steps: Dict[str, Callable[..., None]] = {
        "core": known.core, "count": known.count, "harden": known.harden}
    for number, line in enumerate(lines[2:-2], 3):
        try:
            steps[line.split()[0]](*map(int, line.split()[1:]))
        except (ValueError, TypeError, LookupError) as why:
            raise ValueError("line %d of the list, %r: %s" % (number, line[:60], why)) from why
    needs(known.lower >= known.optimum,
          "the cores add up to %s, which is less than %s", known.lower, known.optimum)
    return "the least cost is %s" % known.optimum


def check(formula: str, folder: Path) -> str:
    events, proof, steps = (folder / name for name in ("events.icnf", "proof.lidrup", "steps"))
    words = [find(), "check", "--session", "--large", str(events), str(proof)]
    told = subprocess.run(words, stdout=subprocess.PIPE, encoding="ascii").stdout
    needs(told.startswith("s VERIFIED\n"), "check --session prints: %s", told)
    with events.open(encoding="ascii", newline="\n") as lines:
        return replay(Check(formula, lines, proof), steps.read_text("ascii").split("\n"))


def main() -> int:
    if len(sys.argv) != 3:
        print(__doc__)
        return int(sys.argv[1:] != ["--help"])
    try:
        print("s VERIFIED\nc " + check(sys.argv[1], Path(sys.argv[2])))
        return 0
    except (SolverError, ValueError, LookupError, *FAULTS) as why:
        print("s NOT VERIFIED\nc %s" % why)
        return 1


if __name__ == "__main__":
    sys.exit(main())
