"""What programs use of `pysat.card`: `CardEnc` and `EncType`."""
from typing import Callable, Iterable, List, Optional

from .. import counter
from ..told import tell
from .formula import CNF, IDPool, greatest


class NoSuchEncodingError(Exception):
    """PySAT has no encoding of this number."""


class UnsupportedBound(Exception):
    """A bound is below 0."""


class EncType:
    """The encodings by their numbers. Other ones than the pairwise one, the sequential counter and
    the totalizer are replaced by the sequential counter, which says the same."""

    pairwise = 0
    seqcounter = 1
    sortnetwrk = 2
    cardnetwrk = 3
    bitwise = 4
    ladder = 5
    totalizer = 6
    mtotalizer = 7
    kmtotalizer = 8
    native = 9


class CardEnc:
    """Clauses that bound how many literals are true.

    top_id: the greatest variable that is in use; that of the literals if it is left out.
    vpool: gives the further variables, in the place of `top_id`.
    """

    @classmethod
    def atmost(cls, lits: Iterable[int], bound: int = 1, top_id: Optional[int] = None,
               vpool: Optional[IDPool] = None, encoding: int = EncType.seqcounter) -> CNF:
        """At most `bound` of them."""
        literals = [*lits]
        if bound < 0:
            raise UnsupportedBound("Wrong bound: %d" % bound)
        return _encoded(literals, bound, _fresh(literals, top_id, vpool), encoding)

    @classmethod
    def atleast(cls, lits: Iterable[int], bound: int = 1, top_id: Optional[int] = None,
                vpool: Optional[IDPool] = None, encoding: int = EncType.seqcounter) -> CNF:
        """At least `bound` of them: at most all the others are false."""
        literals = [*lits]
        if bound < 0:
            raise UnsupportedBound("Wrong bound: %d" % bound)
        fresh = _fresh(literals, top_id, vpool)
        return _encoded([-literal for literal in literals], len(literals) - bound, fresh, encoding)

    @classmethod
    def equals(cls, lits: Iterable[int], bound: int = 1, top_id: Optional[int] = None,
               vpool: Optional[IDPool] = None, encoding: int = EncType.seqcounter) -> CNF:
        """As many of them as `bound`."""
        literals = [*lits]
        formula = cls.atmost(literals, bound, top_id, vpool, encoding)
        top = max(formula.nv, top_id or 0, greatest(literals))
        formula.extend(cls.atleast(literals, bound, top, vpool, encoding))
        return formula


def _fresh(literals: List[int], top_id: Optional[int],
           vpool: Optional[IDPool]) -> Callable[[], int]:
    """What gives variables that stand in no literal."""
    if vpool is not None:
        return vpool.id
    top = top_id if top_id is not None else greatest(literals)
    return iter(range(top + 1, 1 << 62)).__next__


def _encoded(literals: List[int], bound: int, fresh: Callable[[], int], encoding: int) -> CNF:
    """At most `bound` of these literals."""
    if encoding not in range(EncType.native + 1):
        raise NoSuchEncodingError(encoding)
    if encoding == EncType.pairwise:
        return CNF(from_clauses=counter.pairwise(literals, bound))
    if encoding in (EncType.totalizer, EncType.mtotalizer, EncType.kmtotalizer):
        return CNF(from_clauses=counter.totalizer(literals, bound, fresh))
    if encoding != EncType.seqcounter:
        tell("satcluster counts sequentially in the place of encoding %d" % encoding)
    return CNF(from_clauses=counter.sequential(literals, [1] * len(literals), bound, fresh))
