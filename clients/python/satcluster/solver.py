"""`Solver`: PySAT's names over a session of the proved program."""
import os
import tempfile
from itertools import chain, islice, repeat
from operator import index
from time import perf_counter
from types import TracebackType
from typing import Dict, Iterable, Iterator, List, Optional, Sequence, Tuple, Type, Union

from . import counter, drup
from .program import Name, find
from .renaming import MOST_VARIABLES, Renaming
from .runs import Check, check_session
from .session import NOTHING, Session
from .told import refuse, tell

BATCH = 1024  # clauses of a formula that are spelled at once
PASSED_OVER = {"incr", "warm_start", "native_card"}  # words of PySAT that choose how to search
OURS = "satcluster"

Clauses = Iterable[Iterable[int]]


class Solver:
    """A formula that grows, and queries about it.

    A literal is an integer from 1 to 99,999,999, or the negative of one; a clause is an iterable of
    literals. There may be 99,999,999 clauses with 999,999,999 literals in all, and 99,999,999
    literals in a query. The program takes memory for each variable up to the greatest.

    name: clauses to begin with. A text is the name of a solver of PySAT: this one answers in its
        place, and a warning says so once.
    bootstrap_with: clauses to begin with.
    use_timer: passed over: `time` and `time_accum` always tell.
    with_proof: that `get_proof` will be called; so records=False is refused.
    program: the path of the program; `find` tells which one is taken if it is left out.
    events, proof: paths to which goes what is sent, and the LIDRUP proof of all answers. What is
        left out goes to a temporary folder, which `close` removes.
    records: whether there are events and a proof at all; if False, paths are not to be given.
    limit: lemmas, from 1 to 1,000,000,000, after which the program answers `s UNKNOWN` and is asked
        again: the steps in which budgets count, and at whose end an interrupt is seen.
    incr, warm_start, native_card: passed over.

    Every method that sends or asks raises SolverError, which has the program's last line, if the
    program has ended: killed, beyond a limit, out of memory, or without room for its proof. Nothing
    can be asked any more then. A solver is for one thread at a time, but for `interrupt`, which any
    may call; several run side by side.
    """

    def __init__(self, name: Union[str, Clauses, None] = None,
                 bootstrap_with: Optional[Clauses] = None, use_timer: bool = False, *,
                 with_proof: bool = False, program: Optional[Name] = None,
                 events: Optional[Name] = None, proof: Optional[Name] = None, records: bool = True,
                 limit: int = 1000, **more: object) -> None:
        if not records and (with_proof or events is not None or proof is not None):
            raise ValueError("events and proof are what records=False leaves out")
        if not 1 <= limit <= 1000000000:
            raise ValueError("limit is not from 1 to 1,000,000,000: %d" % limit)
        if more.keys() - PASSED_OVER:
            raise TypeError("no such words: " + ", ".join(sorted(more.keys() - PASSED_OVER)))
        if isinstance(name, str) and name.lower() != OURS:
            tell("satcluster answers in the place of every solver of PySAT")
        self._program = find(program)
        self._folder: Optional[tempfile.TemporaryDirectory[str]] = None
        self._files: Optional[Tuple[str, str]] = None
        if records:
            self._files = self._path(events, "events.icnf"), self._path(proof, "proof.lidrup")
            if self._files[0] == self._files[1]:
                raise ValueError("events and proof are two files")
        self._limit = limit
        self._budget: Optional[int] = None  # lemmas of a limited query
        self._is_interrupted = False
        self._variables = 0
        self._asked = 0  # variables at the time of the last query
        self._clauses = 0
        self._renaming: Optional[Renaming] = None  # once there is a counter
        self._queries = 0
        self._answered = 0  # bytes of the events up to the last answer
        self._reply = NOTHING
        self._time = self._time_of_all = 0.0
        try:
            self._session = Session(self._program, limit, *(self._files or (None, None)))
        except BaseException:
            self._clean()
            raise
        try:
            for clauses in (name, bootstrap_with):
                if clauses is not None and not isinstance(clauses, str):
                    self.append_formula(clauses)
        except BaseException:
            self.close()
            raise

    def _path(self, name: Optional[Name], spare: str) -> str:
        if name is not None:
            return os.path.abspath(name)
        if self._folder is None:
            self._folder = tempfile.TemporaryDirectory(prefix="satcluster-")
        return os.path.join(self._folder.name, spare)

    def add_clause(self, clause: Iterable[int], no_return: bool = True) -> Optional[bool]:
        """Gives one clause more. Raises ValueError if a literal is 0 or beyond 99,999,999, and
        TypeError if one is no integer; then nothing is given. With no_return=False: False if the
        last answer shows that nothing satisfies the clauses, else True; nothing is asked."""
        self._session.add(self._spelled([[*clause]]))
        return None if no_return else not self._is_refuted()

    def append_formula(self, formula: Clauses, no_return: bool = True) -> Optional[bool]:
        """Gives clauses, as `add_clause` does; those before one that is refused stay given. If it
        is a formula of PySAT with `atmosts`, gives these as `add_atmost` does."""
        clauses = iter(getattr(formula, "clauses", formula))
        rows: List[List[int]] = []
        while True:
            try:
                rows.extend([*clause] for clause in islice(clauses, BATCH))
            finally:  # also if the next clause cannot be read
                self._give(rows)
            if len(rows) < BATCH:
                break
            rows.clear()
        for bounded in getattr(formula, "atmosts", ()):
            self.add_atmost(*bounded)
        return None if no_return else not self._is_refuted()

    def _give(self, rows: List[List[int]]) -> None:
        try:
            self._session.add(self._spelled(rows))
            return
        except (TypeError, ValueError):
            pass  # one is refused: it is found below, after those before it are given
        for row in rows:
            self._session.add(self._spelled([row]))

    def _is_refuted(self) -> bool:
        return self._reply.status is False and not self._reply.literals()

    def add_atmost(self, lits: Iterable[int], k: int, weights: Sequence[int] = (),
                   no_return: bool = True) -> Optional[bool]:
        """Gives clauses by which at most `k` literals are true, or the weights of the true ones
        have at most the sum `k`. They have variables of their own, which no model shows and which
        are none of the caller's, whatever the caller names later on. A weight is 0 or more."""
        literals = [*map(index, lits)]
        if weights and (len(weights) != len(literals) or min(weights) < 0):
            raise ValueError("there is a weight of 0 or more for each literal")
        self._note(literals)
        renaming = self._renaming = self._renaming or Renaming(self._variables)
        inner = [*map(renaming.inner, literals)]
        rows = [*counter.sequential(inner, weights or [1] * len(inner), k, renaming.fresh)]
        self._session.add(self._lines(rows, [*chain.from_iterable(rows)]))
        return None if no_return else not self._is_refuted()

    def supports_atmost(self) -> bool:
        """True, since `add_atmost` takes what PySAT's native constraints say."""
        return True

    def solve(self, assumptions: Iterable[int] = ()) -> bool:
        """Whether some assignment satisfies all clauses so far and makes all assumptions true.
        Takes as long as it takes; whatever interrupts it ends the session."""
        status = self._ask(assumptions, repeat(None))
        assert status is not None
        return status

    def solve_limited(self, assumptions: Iterable[int] = (), budget: Optional[int] = None,
                      expect_interrupt: bool = False) -> Optional[bool]:
        """As `solve`, but None if as many lemmas as `budget` were learnt without an answer, or if
        `interrupt` was called. The lemmas stay, so asking again goes on from there. The budget
        counts in steps of the solver's `limit`: it is rounded up, to one step at least. It is that
        of `conf_budget` if it is left out. `expect_interrupt` changes nothing."""
        if budget is None or isinstance(budget, bool):  # PySAT's second word is expect_interrupt
            budget = self._budget
        return self._ask(assumptions, self._steps(budget))

    def _steps(self, budget: Optional[int]) -> Iterator[None]:
        """One for each time that a limited query is asked."""
        learnt = 0
        while not self._is_interrupted and (budget is None or learnt < max(1, budget)):
            yield
            learnt += self._limit

    def conf_budget(self, budget: int = -1) -> None:
        """The lemmas that each limited query from now on may learn; 0 or less: any number."""
        self._budget = budget if budget > 0 else None

    def prop_budget(self, budget: int = -1) -> None:
        """Raises NotImplementedError if there is a budget: propagations are not counted."""
        if budget > 0:
            refuse("prop_budget")

    dec_budget = prop_budget

    def interrupt(self) -> None:
        """Lets a limited query answer None after its step, and those after it too, until
        `clear_interrupt` is called. Any thread may call it."""
        self._is_interrupted = True

    def clear_interrupt(self) -> None:
        self._is_interrupted = False

    def propagate(self, assumptions: Iterable[int] = (), phase_saving: int = 0) -> None:
        """Raises NotImplementedError, as `set_phases` does: the program has no such event."""
        refuse("propagate")

    def set_phases(self, literals: Iterable[int] = ()) -> None:
        refuse("set_phases")

    def start_mode(self, warm: bool = False) -> None:
        """Raises NotImplementedError if a warm start is asked for."""
        if warm:
            refuse("start_mode")

    def get_status(self) -> Optional[bool]:
        """The last answer; None if there is none, or the budget was used up."""
        return self._reply.status

    def get_model(self) -> Optional[List[int]]:
        """The assignment of the last answer: at place v - 1 variable v or its negation, for all
        variables at that time. None if the last answer was not True."""
        if self._reply.status is not True:
            return None
        literals = self._reply.literals()
        return self._renaming.model(literals, self._asked) if self._renaming else literals

    def get_core(self) -> Optional[List[int]]:
        """Assumptions of the last query that no assignment makes true together and satisfies the
        clauses, in their order and none twice. None if the last answer was not False."""
        if self._reply.status is not False:
            return None
        literals = self._reply.literals()
        return self._renaming.outer(literals) if self._renaming else literals

    def get_proof(self) -> List[str]:
        """All lemmas so far as lines of DRUP, with deletions, and the negation of each core.
        Counters have the program's numbers in it. Raises ValueError if nothing is recorded, or it
        went with `close`."""
        return [*drup.lines_of(self._proof())]

    def accum_stats(self) -> Dict[str, int]:
        """How many lemmas the proof has, as PySAT's `conflicts`. The program tells no more, so the
        other numbers are 0; without records all are."""
        conflicts = drup.lemmas_of(self._proof()) if self._files is not None else 0
        return {"restarts": 0, "conflicts": conflicts, "decisions": 0, "propagations": 0}

    def _proof(self) -> Iterator[str]:
        """The lines of the proof, whose file need not be there before the first answer."""
        path = self._recorded()[1]
        if self._queries:
            with open(path, encoding="ascii") as lines:
                yield from lines

    def time(self) -> float:
        """Seconds of the last query, by the clock."""
        return self._time

    def time_accum(self) -> float:
        """Seconds of all queries."""
        return self._time_of_all

    def enum_models(self, assumptions: Iterable[int] = ()) -> Iterator[List[int]]:
        """All models, by giving for each a clause that shuts it out: those clauses stay. That of a
        model is given before the model is yielded."""
        assumed = list(assumptions)
        while self.solve(assumed):
            model = self.get_model() or []
            self.add_clause([-literal for literal in model])
            yield model

    @property
    def pid(self) -> int:
        """The number of the program's process."""
        return self._session.pid

    def nof_vars(self) -> int:
        """The greatest variable of all clauses and queries so far; 0 if there is none."""
        return self._variables

    def nof_clauses(self) -> int:
        """How many clauses were given so far, without those of counters."""
        return self._clauses

    def nof_queries(self) -> int:
        """How many queries were answered so far, as `check --session` counts them: each step of a
        query that took several is one."""
        return self._queries

    def verify(self) -> Check:
        """Has `satcluster check --session` test all answers so far, by what was sent and the proof.

        False if an answer does not follow; also if the session was killed or has died in a query,
        and then the `c` lines tell how many answers before stand. Raises ValueError if nothing was
        recorded, or its files went with `close`, and SolverError if the check itself fails.
        """
        files = self._recorded()
        if self._session.is_open:  # the proof has what was given up to the last answer, and no more
            return check_session(*files, program=self._program, end=self._answered)
        return check_session(*files, program=self._program)

    def _recorded(self) -> Tuple[str, str]:
        """The paths of events and proof."""
        if self._files is None:
            raise ValueError("the solver was made with records=False")
        if self._folder is not None and not os.path.isdir(self._folder.name):
            raise ValueError("the temporary files went with close(): verify before it, or give "
                             "events= and proof=")
        return self._files

    def close(self) -> None:
        """Ends the program, and removes temporary files. Nothing can be asked any more."""
        try:
            self._session.close()
        finally:
            self._clean()

    delete = close  # PySAT's name

    def _clean(self) -> None:
        if self._folder is not None:
            self._folder.cleanup()

    def __enter__(self) -> "Solver":
        return self

    def __exit__(self, kind: Optional[Type[BaseException]], error: Optional[BaseException],
                 trace: Optional[TracebackType]) -> None:
        self.close()

    def _ask(self, assumptions: Iterable[int], steps: Iterable[None]) -> Optional[bool]:
        """Asks as many times as there are steps, until there is an answer."""
        literals = [*map(index, assumptions)]
        self._note(literals)
        if self._renaming is not None:
            literals = [*map(self._renaming.inner, literals)]
        line = "a " + "%d " * len(literals) % tuple(literals) + "0\n"
        self._asked, self._reply = self._variables, NOTHING
        begin = perf_counter()
        for _ in steps:
            self._reply = self._session.ask(line)
            self._answered = self._session.sent
            self._queries += 1
            if self._reply.status is not None:
                break
        self._time = perf_counter() - begin
        self._time_of_all += self._time
        return self._reply.status

    def _note(self, literals: List[int]) -> None:
        """Raises ValueError if one is none."""
        if literals:
            greatest = max(max(literals), -min(literals))
            if greatest > MOST_VARIABLES or 0 in literals:
                wrong = next(one for one in literals if one == 0 or abs(one) > MOST_VARIABLES)
                raise ValueError("a literal is 0, or beyond 99,999,999: %d" % wrong)
            if greatest > self._variables:
                self._variables = greatest

    def _spelled(self, rows: List[List[int]]) -> str:
        """A line for each clause. One look at all numbers, and one call that spells them, take half
        the time of a call for each clause."""
        numbers = [*map(index, chain.from_iterable(rows))]
        self._note(numbers)
        self._clauses += len(rows)
        if self._renaming is not None:
            numbers = [*map(self._renaming.inner, numbers)]
        return self._lines(rows, numbers)

    @staticmethod
    def _lines(rows: List[List[int]], numbers: List[int]) -> str:
        """The numbers on lines that are as long as the rows."""
        return "".join(["%d " * len(row) + "0\n" for row in rows]) % tuple(numbers)
