"""The least cost of a MaxSAT formula, with a certificate.

    satcluster-maxsat [--timeout S] [--certificate DIR] F.wcnf

The search is core-guided (OLL, with stratification by weight): it asks a session whether all soft
clauses can be met, takes a core of those that cannot, allows one of them to be false, counts how
many more are by a totalizer, and asks again. The loop is Python of which nothing is proved, and
each of its answers from the solver is. A certificate has all that `satcluster-maxsat-check` needs
to test the optimum.
"""
import argparse
import signal
import sys
import time
from dataclasses import dataclass, field
from itertools import count
from pathlib import Path
from typing import Any, Callable, Dict, List, NamedTuple, Optional, Set

from . import wcnf
from .maxsat_check import Sum
from .packed import FAULTS, open_text
from .program import Name, SolverError, find
from .solver import Solver

BUDGET = 1000  # lemmas of a query that would make a core smaller
UNANSWERED = 3  # such queries, after which a core stays as it is
DIVERSITY = 1.25  # literals for each weight that a stratum has at least, except the last one
SHARE = 0.5  # of the time that may go into smaller cores
EVENTS, PROOF, STEPS = "events.icnf", "proof.lidrup", "steps"  # files of a certificate
STATUSES = {"OPTIMUM FOUND": 30, "UNSATISFIABLE": 20, "UNKNOWN": 0}


class Core(NamedTuple):
    """Literals that cannot all be true, and the number of the query that said so."""

    query: int
    literals: List[int]


@dataclass
class Count:
    """The sum of a core's false literals: each false one beyond the first costs `weight`."""

    query: int
    weight: int
    sum: Sum
    wanted: int = 2  # the next output


@dataclass(frozen=True)
class Result:
    """status: of the `s` line. cost, true: of the best assignment that was found, with the literals
    that it makes true; None if there is none."""

    status: str
    cost: Optional[int] = None
    true: Optional[Set[int]] = None


@dataclass
class Search:
    """The state of a search: the cost of every assignment that is better than the best one so far
    is `lower`, and the sum of the `weights` of the literals that it makes false, or more."""

    formula: wcnf.Formula
    solver: Solver
    found: Callable[[int], None]  # is called for each cost that is less than all before
    lower: int = 0
    upper: Optional[int] = None
    true: Optional[Set[int]] = None
    weights: Dict[int, int] = field(default_factory=dict)
    outputs: Dict[int, Count] = field(default_factory=dict)  # by the literal that is assumed
    waiting: List[Count] = field(default_factory=list)  # sums that have to grow by an output
    steps: List[str] = field(default_factory=list)  # lines of the certificate
    is_closed: bool = False  # nothing is better
    spent: float = 0  # seconds that went into smaller cores

    def __post_init__(self) -> None:
        self.begin = time.monotonic()
        self.fresh = count(self.formula.variables + 1)
        self.solver.append_formula(self.formula.hard)
        for weight, clause in self.formula.soft:
            if len(clause) > 1:
                self.want(self.relaxed(clause), weight)
            elif clause:
                self.want(clause[0], weight)
            else:
                self.lower += weight

    def relaxed(self, clause: List[int]) -> int:
        """A new variable: if it is true, so is the clause."""
        variable = next(self.fresh)
        self.solver.add_clause([-variable, *clause])
        return variable

    def want(self, literal: int, weight: int) -> None:
        self.weights[literal] = self.weights.get(literal, 0) + weight

    def run(self) -> Result:
        if self.asks([]) and self.weights:
            self.minimize()
        if self.upper is None:
            return Result("UNSATISFIABLE")
        return Result("OPTIMUM FOUND", self.upper, self.true)

    def minimize(self) -> None:
        level = self.level_below(None)
        while not self.is_closed:
            if not self.asks([one for one, weight in self.weights.items() if weight >= level]):
                self.take(self.smaller(self.core()))
            elif self.waiting:
                self.count()
            elif self.is_closed or level <= min(self.weights.values(), default=level):
                break
            else:
                level = self.level_below(level)
            self.harden()
        if not self.is_closed:
            raise SolverError("a model of all that is wanted costs more than the cores add up to")

    def asks(self, literals: List[int], budget: Optional[int] = None) -> Optional[bool]:
        """What the session answers; None if the budget is used up. A model is looked at."""
        if budget is None:
            answer: Optional[bool] = self.solver.solve(literals)
        else:
            answer = self.solver.solve_limited(literals, budget)
        if answer:
            self.look_at(set(self.solver.get_model() or []))
        elif answer is False and not self.solver.get_core():
            self.close()
        return answer

    def look_at(self, true: Set[int]) -> None:
        cost = self.formula.cost(true)
        if self.upper is None or cost < self.upper:
            self.upper, self.true = cost, true
            self.found(cost)
        self.is_closed = self.is_closed or self.lower >= self.upper

    def close(self) -> None:
        if not self.is_closed:
            self.steps.append("core %d 0" % self.solver.nof_queries())
        self.is_closed = True

    def core(self) -> Core:
        return Core(self.solver.nof_queries(), self.solver.get_core() or [])

    def smaller(self, core: Core) -> Core:
        """A core of literals of this one, within a budget: literals of small weight go first."""
        begin = time.monotonic()
        core = self.trimmed(core)
        left = sorted(core.literals, key=self.weights.__getitem__, reverse=True)
        needed: List[int] = []
        unanswered = 0
        while left and len(core.literals) > 1 and unanswered < UNANSWERED and not self.is_closed:
            now = time.monotonic()
            if self.spent + now - begin > SHARE * (now - self.begin) + 0.1:
                break
            tried = left.pop()
            answer = self.asks(needed + left, BUDGET)
            if answer is False:
                core = self.core()
                kept = set(core.literals)
                left = [literal for literal in left if literal in kept]
            else:
                needed.append(tried)
                unanswered += answer is None
        self.spent += time.monotonic() - begin
        return core

    def trimmed(self, core: Core) -> Core:
        """The core of the core, as long as that is smaller by a tenth."""
        size = 2 * len(core.literals)
        while 1 < len(core.literals) < 0.9 * size and not self.is_closed:
            size = len(core.literals)
            if self.asks(core.literals, BUDGET) is False:
                core = self.core()
        return core

    def take(self, core: Core) -> None:
        """One of the core's literals has to be false: its least weight is a cost of all."""
        if not core.literals:
            return
        weight = min(self.weights[literal] for literal in core.literals)
        self.steps.append(" ".join(map(str, ["core", core.query, weight, *core.literals])))
        self.lower += weight
        self.is_closed = self.is_closed or self.upper is not None and self.lower >= self.upper
        for literal in core.literals:
            self.weights[literal] -= weight
            if not self.weights[literal]:
                del self.weights[literal]
            if literal in self.outputs:
                self.grow_later(self.outputs.pop(literal))
        if core.literals[1:] and core.literals != [core.literals[0], -core.literals[0]]:
            inputs = Sum([-literal for literal in core.literals])
            self.grow_later(Count(core.query, weight, inputs))

    def grow_later(self, counted: Count) -> None:
        if counted.wanted <= counted.sum.size:
            self.waiting.append(counted)

    def count(self) -> None:
        """Makes the outputs for which sums wait. Each is wanted false."""
        for counted in self.waiting:
            self.steps.append("count %d %d" % (counted.query, counted.wanted))
            self.solver.append_formula(counted.sum.grown(counted.wanted, self.fresh))
            literal = -counted.sum.outputs[counted.wanted]
            counted.wanted += 1
            self.want(literal, counted.weight)
            self.outputs[literal] = counted
        self.waiting = []

    def harden(self) -> None:
        """Gives the literals as clauses without which no assignment is better than the best one."""
        if self.upper is None or self.is_closed:
            return
        gap = self.upper - self.lower
        for literal in [one for one, weight in self.weights.items() if weight >= gap]:
            self.steps.append("harden %d" % literal)
            self.solver.add_clause([literal])
            del self.weights[literal]

    def level_below(self, level: Optional[int]) -> int:
        """The least weight of the next stratum."""
        weights = sorted(self.weights.values(), reverse=True)
        different, last = 0, 0
        for at, weight in enumerate(weights):
            if weight != last:
                if last and (level is None or last < level) and at > DIVERSITY * different:
                    return last
                different, last = different + 1, weight
        return last


def bits(variables: int, true: Set[int]) -> str:
    return "".join("01"[variable in true] for variable in range(1, variables + 1))


def write_steps(folder: Path, formula: wcnf.Formula, result: Result, steps: List[str]) -> None:
    """The list of a certificate: what was found, and which cores show it."""
    head = ["unsatisfiable"]
    if result.cost is not None and result.true is not None:
        head = ["optimum %d %s" % (result.cost, bits(formula.variables, result.true))]
    lines = ["satcluster maxsat 1", *head, *steps, "end"]
    (folder / STEPS).write_text("".join(line + "\n" for line in lines), encoding="ascii")


class Late(Exception):
    """The time is over, or whoever has started this wants it to end."""


def end_by_signals(seconds: Optional[float]) -> None:
    def end(*_: Any) -> None:
        raise Late

    for number in (signal.SIGALRM, signal.SIGTERM, signal.SIGINT):
        signal.signal(number, end)
    if seconds is not None:
        signal.setitimer(signal.ITIMER_REAL, max(seconds, 1e-3))


def told(cost: int) -> None:
    print("o %d" % cost, flush=True)


def started(formula: wcnf.Formula, folder: Optional[Path], program: Optional[Name]) -> Search:
    """A search, with records in a folder if there is one."""
    if folder is None:
        return Search(formula, Solver(records=False, program=program), told)
    folder.mkdir(parents=True, exist_ok=True)
    (folder / STEPS).unlink(missing_ok=True)
    solver = Solver(events=folder / EVENTS, proof=folder / PROOF, program=program)
    return Search(formula, solver, told)


def searched(formula: wcnf.Formula, folder: Optional[Path], program: Optional[Name]) -> Result:
    """The least cost; what was found so far if there was no time or no solver for more. The folder
    gets a certificate if the search has come to its end."""
    search = None
    try:
        search = started(formula, folder, program)
        with search.solver:
            result = search.run()
        signal.setitimer(signal.ITIMER_REAL, 0)
        if folder is not None:
            write_steps(folder, formula, result, search.steps)
        cores = sum(step.startswith("core") for step in search.steps)
        print("c %d cores, %d queries" % (cores, search.solver.nof_queries()))
        return result
    except (Late, SolverError, ValueError) as why:
        print("c %s" % (why if str(why) else "no time is left"))
    if search is None or search.upper is None:
        return Result("UNKNOWN")
    print("c the least cost is from %d to %d" % (search.lower, search.upper))
    return Result("UNKNOWN", search.upper, search.true)


def report(result: Result, variables: int) -> int:
    print("s " + result.status)
    if result.true is not None:
        print("v " + bits(variables, result.true))
    sys.stdout.flush()
    return STATUSES[result.status]


def arguments() -> argparse.ArgumentParser:
    parser = argparse.ArgumentParser(prog="satcluster-maxsat", description="Finds the least cost.")
    parser.add_argument("--timeout", type=float, metavar="S",
                        help="seconds after which it ends with the best assignment so far")
    parser.add_argument("--certificate", type=Path, metavar="DIR",
                        help="the folder to which what proves the optimum is written")
    parser.add_argument("--program", help="the path of satcluster")
    parser.add_argument("formula", metavar="F.wcnf",
                        help="may be packed by gzip, xz or bzip2; - is standard input")
    return parser


def main(words: Optional[List[str]] = None) -> int:
    asked = arguments().parse_args(words)
    end_by_signals(asked.timeout)
    try:
        program = find(asked.program)
        with open_text(asked.formula) as file:
            formula = wcnf.load(file)
    except Late:
        print("c no time is left")
        return report(Result("UNKNOWN"), 0)
    except (*FAULTS, ValueError, SolverError) as why:
        print("c cannot read %s: %s" % (asked.formula, why))
        return 1
    return report(searched(formula, asked.certificate, program), formula.variables)


if __name__ == "__main__":
    sys.exit(main())
