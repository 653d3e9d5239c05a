"""What programs use of `pysat.formula`: `IDPool`, `CNF` and `WCNF`."""
import io
from typing import IO, Dict, Hashable, Iterable, Iterator, List, Optional, Tuple

from .. import dimacs, wcnf
from ..packed import open_text

Clause = List[int]


def greatest(literals: Clause) -> int:
    """The greatest variable; 0 if there is none."""
    return max(max(literals), -min(literals)) if literals else 0


class IDPool:
    """Gives each object a variable: the same one each time.

    start_from: the least variable that is given.
    occupied: pairs of variables, of which none is given from the first to the second.
    """

    def __init__(self, start_from: int = 1, occupied: Iterable[Tuple[int, int]] = ()) -> None:
        self.restart(start_from, occupied)

    def restart(self, start_from: int = 1, occupied: Iterable[Tuple[int, int]] = ()) -> None:
        """Forgets all objects."""
        self.top = start_from - 1  # the greatest variable that was given
        self._occupied = sorted((begin, end) for begin, end in occupied)
        self.obj2id: Dict[Hashable, int] = {}
        self.id2obj: Dict[int, Hashable] = {}

    def id(self, obj: Optional[Hashable] = None) -> int:
        """The object's variable; a new one, which no object has, if there is no object."""
        if obj is None:
            return self._next()
        if obj not in self.obj2id:
            variable = self._next()
            self.obj2id[obj], self.id2obj[variable] = variable, obj
        return self.obj2id[obj]

    def obj(self, vid: int) -> Optional[Hashable]:
        """The object with this variable; None if there is none."""
        return self.id2obj.get(vid)

    def occupy(self, start: int, stop: int) -> None:
        """Gives none of these variables from now on."""
        if stop >= start:
            self._occupied = sorted([*self._occupied, (start, stop)])

    def _next(self) -> int:
        self.top += 1
        for begin, end in self._occupied:
            if begin <= self.top <= end:
                self.top = end + 1
        return self.top


class CNF:
    """Clauses, and the greatest variable `nv` of them. A solver takes it as it takes a list."""

    def __init__(self, from_file: Optional[str] = None, from_fp: Optional[IO[str]] = None,
                 from_string: Optional[str] = None, from_clauses: Iterable[Clause] = ()) -> None:
        self.nv = 0
        self.clauses: List[Clause] = []
        self.comments: List[str] = []
        if from_file is not None:
            self.from_file(from_file)
        if from_fp is not None:
            self.from_fp(from_fp)
        if from_string is not None:
            self.from_string(from_string)
        self.extend(from_clauses)

    def from_file(self, fname: str) -> None:
        """Reads a DIMACS file, which may be packed. Raises ValueError if it is none."""
        with open_text(fname) as file:
            self.from_fp(file)

    def from_fp(self, file_pointer: IO[str]) -> None:
        self.extend(dimacs.load(file_pointer))

    def from_string(self, string: str) -> None:
        self.from_fp(io.StringIO(string))

    def from_clauses(self, clauses: Iterable[Clause]) -> None:
        self.extend(clauses)

    def append(self, clause: Iterable[int]) -> None:
        literals = [*clause]
        self.nv = max(self.nv, greatest(literals))
        self.clauses.append(literals)

    def extend(self, clauses: Iterable[Iterable[int]]) -> None:
        for clause in clauses:
            self.append(clause)

    def copy(self) -> "CNF":
        other = type(self)(from_clauses=self.clauses)
        other.nv, other.comments = self.nv, [*self.comments]
        return other

    def weighted(self) -> "WCNF":
        """The same clauses as soft ones of weight 1."""
        formula = WCNF()
        formula.extend(self.clauses, [1] * len(self.clauses))
        formula.nv = self.nv
        return formula

    def to_fp(self, file_pointer: IO[str], comments: Iterable[str] = ()) -> None:
        file_pointer.writelines(line + "\n" for line in [*self.comments, *comments])
        dimacs.dump(self.clauses, file_pointer, self.nv)

    def to_file(self, fname: str, comments: Iterable[str] = ()) -> None:
        with open(fname, "w", encoding="ascii") as file:
            self.to_fp(file, comments)

    def __iter__(self) -> Iterator[Clause]:
        return iter(self.clauses)

    def __len__(self) -> int:
        return len(self.clauses)

    def __getitem__(self, at: int) -> Clause:
        return self.clauses[at]


class WCNF:
    """Hard clauses, and soft ones: the weight of `soft[n]` is `wght[n]`. `topw` is a weight that no
    soft clauses have together."""

    def __init__(self, from_file: Optional[str] = None, from_fp: Optional[IO[str]] = None,
                 from_string: Optional[str] = None) -> None:
        self.nv = 0
        self.hard: List[Clause] = []
        self.soft: List[Clause] = []
        self.wght: List[int] = []
        self.topw = 1
        self.comments: List[str] = []
        if from_file is not None:
            self.from_file(from_file)
        if from_fp is not None:
            self.from_fp(from_fp)
        if from_string is not None:
            self.from_string(from_string)

    def from_file(self, fname: str) -> None:
        """Reads a WCNF file of either form, which may be packed. Raises ValueError if it is none.
        """
        with open_text(fname) as file:
            self.from_fp(file)

    def from_fp(self, file_pointer: IO[str]) -> None:
        formula = wcnf.load(file_pointer)
        self.extend(formula.hard)
        for weight, clause in formula.soft:
            self.append(clause, weight)
        self.nv = max(self.nv, formula.variables)

    def from_string(self, string: str) -> None:
        self.from_fp(io.StringIO(string))

    def append(self, clause: Iterable[int], weight: Optional[int] = None) -> None:
        """A soft clause if it has a weight, which is above 0; else a hard one."""
        literals = [*clause]
        self.nv = max(self.nv, greatest(literals))
        if weight is None:
            self.hard.append(literals)
            return
        if weight <= 0:
            raise ValueError("a weight is not above 0: %d" % weight)
        self.soft.append(literals)
        self.wght.append(weight)
        self.topw += weight

    def extend(self, clauses: Iterable[Iterable[int]],
               weights: Optional[Iterable[int]] = None) -> None:
        if weights is None:
            for clause in clauses:
                self.append(clause)
        else:
            for clause, weight in zip(clauses, weights):
                self.append(clause, weight)

    def copy(self) -> "WCNF":
        other = WCNF()
        other.extend(self.hard)
        other.extend(self.soft, self.wght)
        other.nv, other.comments = self.nv, [*self.comments]
        return other

    def unweighted(self) -> CNF:
        """All clauses, as if each had to hold."""
        formula = CNF(from_clauses=self.hard + self.soft)
        formula.nv = self.nv
        return formula
