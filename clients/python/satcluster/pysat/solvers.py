"""What `pysat.solvers` has, over the proved program: every solver's name is this one solver.

A session leaves its events and its proof where SATCLUSTER_EVENTS and SATCLUSTER_PROOF of the
environment say: both are prefixes of names, such as `run/`, and solver N of process P writes
`run/P-N.icnf` and `run/P-N.lidrup`. Without them there is a proof only for `with_proof=True`.
"""
import os
from itertools import count
from typing import Any, Dict, Optional, Union

from ..solver import OURS, Clauses, Solver as Session

FILES = (("events", "SATCLUSTER_EVENTS", ".icnf"), ("proof", "SATCLUSTER_PROOF", ".lidrup"))

_numbers = count(1)  # of solvers


class NoSuchSolverError(Exception):
    """PySAT has no solver of this name."""


class SolverNames:
    """The names by which PySAT knows each of its solvers."""

    cadical103 = ("cd", "cd103", "cdl", "cdl103", "cadical103")
    cadical153 = ("cd15", "cd153", "cdl15", "cdl153", "cadical153")
    cadical195 = ("cd19", "cd195", "cdl19", "cdl195", "cadical195")
    cryptosat = ("cms", "cms5", "crypto", "crypto5", "cryptominisat", "cryptominisat5")
    gluecard3 = ("gc3", "gc30", "gluecard3", "gluecard30")
    gluecard4 = ("gc4", "gc41", "gluecard4", "gluecard41")
    glucose3 = ("g3", "g30", "glucose3", "glucose30")
    glucose4 = ("g4", "g41", "glucose4", "glucose41")
    glucose42 = ("g42", "g421", "glucose42", "glucose421")
    lingeling = ("lgl", "lingeling")
    maplechrono = ("mcb", "chrono", "maplechrono")
    maplecm = ("mcm", "maplecm")
    maplesat = ("mpl", "maple", "maplesat")
    mergesat3 = ("mg3", "mgs3", "mergesat3", "mergesat30")
    minicard = ("mc", "mcard", "minicard")
    minisat22 = ("m22", "msat22", "minisat22")
    minisatgh = ("mgh", "msat-gh", "minisat-gh")
    satcluster = (OURS,)


NAMES = {name for key, names in vars(SolverNames).items() if not key.startswith("_")
         for name in (key, *names)}


class Solver(Session):
    """PySAT's `Solver`: name, bootstrap_with, use_timer, and the words of `satcluster.Solver`.

    Raises NoSuchSolverError if no solver of PySAT has the name.
    """

    def __init__(self, name: Union[str, Clauses, None] = None,
                 bootstrap_with: Optional[Clauses] = None, use_timer: bool = False,
                 **more: Any) -> None:
        if isinstance(name, str) and name.lower() not in NAMES:
            raise NoSuchSolverError(name)
        words: Dict[str, Any] = {"records": bool(more.get("with_proof")), **_paths(), **more}
        super().__init__(name, bootstrap_with, use_timer, **words)


def _paths() -> Dict[str, Any]:
    """The words for what the environment says of events and proof."""
    number = "%d-%d" % (os.getpid(), next(_numbers))
    words: Dict[str, Any] = {}
    for word, variable, ending in FILES:
        front = os.environ.get(variable)
        if front:
            words[word], words["records"] = front + number + ending, True
    return words


class _Named(Solver):
    """A solver that is made by the name of its class, whose first word is the clauses."""

    def __init__(self, bootstrap_with: Optional[Clauses] = None, use_timer: bool = False,
                 incr: bool = False, with_proof: bool = False, warm_start: bool = False) -> None:
        super().__init__(type(self).__name__, bootstrap_with, use_timer, incr=incr,
                         with_proof=with_proof, warm_start=warm_start)


class Cadical103(_Named):
    pass


class Cadical153(_Named):
    pass


class Cadical195(_Named):
    pass


class CryptoMinisat(_Named):
    pass


class Gluecard3(_Named):
    pass


class Gluecard4(_Named):
    pass


class Glucose3(_Named):
    pass


class Glucose4(_Named):
    pass


class Glucose42(_Named):
    pass


class Lingeling(_Named):
    pass


class MapleChrono(_Named):
    pass


class MapleCM(_Named):
    pass


class Maplesat(_Named):
    pass


class Mergesat3(_Named):
    pass


class Minicard(_Named):
    pass


class Minisat22(_Named):
    pass


class MinisatGH(_Named):
    pass
