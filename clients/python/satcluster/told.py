"""What a program that was written for another solver is told."""
import sys
from typing import NoReturn, Set

_said: Set[str] = set()


def tell(what: str) -> None:
    """Says on standard error that something is replaced, the first time in this process."""
    if what not in _said:
        _said.add(what)
        print("c " + what, file=sys.stderr)


def refuse(call: str) -> NoReturn:
    raise NotImplementedError("%s: satcluster session has no event for it" % call)
