"""MaxSAT formulas in WCNF: the form of today, whose hard clauses begin with `h`, and the older one,
whose header `p wcnf VARIABLES CLAUSES TOP` says from which weight on a clause is hard.

    with open_text("f.wcnf.xz") as file:
        formula = wcnf.load(file)
"""
from dataclasses import dataclass, field
from itertools import chain
from typing import Container, Iterable, Iterator, List, NamedTuple, NoReturn, Optional, Tuple

from .solver import MOST_VARIABLES

MOST_WEIGHT = 2 ** 63 - 1

Rows = Iterator[Tuple[int, List[str]]]  # words, with the number of their line


class Soft(NamedTuple):
    weight: int  # from 1 to MOST_WEIGHT
    clause: List[int]


@dataclass
class Formula:
    """Hard clauses, which have to be satisfied, and soft ones, of which each costs its weight if it
    is not. No variable is above `variables`."""

    variables: int = 0
    hard: List[List[int]] = field(default_factory=list)
    soft: List[Soft] = field(default_factory=list)

    def cost(self, true: Container[int]) -> int:
        """What the soft clauses cost of which no literal is one of `true`."""
        return sum(weight for weight, clause in self.soft
                   if not any(literal in true for literal in clause))


def _refused(line: int, why: str) -> NoReturn:
    raise ValueError("line %d: %s" % (line, why))


def _tokens(lines: Iterable[str]) -> Rows:
    for number, line in enumerate(lines, 1):
        words = [] if line.startswith("c") else line.split()
        if words:
            yield number, words


def _clauses(rows: Rows) -> Rows:
    """The words of each clause, without its 0; a clause may span lines, and a line hold several."""
    begun: List[str] = []
    number = 1
    for number, words in rows:
        while "0" in words:
            end = words.index("0")
            yield number, begun + words[:end]
            begun, words = [], words[end + 1:]
        begun += words
    if begun:
        _refused(number, "the text ends within a clause: a 0 is missing")


def _number(line: int, word: str, what: str) -> int:
    if not word.isdigit() or len(word) > 19 or int(word) > MOST_WEIGHT:
        _refused(line, "%s is no number below 2^63: %s" % (what, word[:60]))
    return int(word)


def _weight(line: int, word: str, top: Optional[int]) -> Optional[int]:
    """The weight of a clause; None of a hard one."""
    if word == "h":
        if top is not None:
            _refused(line, "a clause begins with h below a header `p wcnf`")
        return None
    weight = _number(line, word, "a weight")
    if weight == 0:
        _refused(line, "a weight is 0: it has to be from 1 to 2^63 - 1")
    return None if top is not None and weight >= top else weight


def _literals(line: int, words: List[str], variables: int) -> List[int]:
    try:
        literals = [*map(int, words)]
    except ValueError:
        _refused(line, "a token is no number: " + " ".join(words)[:60])
    if 0 in literals:
        _refused(line, "a literal is 0: " + " ".join(words)[:60])
    if literals and max(max(literals), -min(literals)) > variables:
        _refused(line, "a variable is above %d" % variables)
    return literals


def _header(line: int, words: List[str]) -> Tuple[int, int, int]:
    """Variables, clauses, and the weight from which on a clause is hard."""
    if words[:2] != ["p", "wcnf"] or len(words) not in (4, 5):
        _refused(line, "the header is not `p wcnf VARIABLES CLAUSES TOP`")
    variables, clauses = (_number(line, word, "a number of the header") for word in words[2:4])
    if variables > MOST_VARIABLES:
        _refused(line, "there are more than %d variables" % MOST_VARIABLES)
    top = _number(line, words[4], "TOP") if len(words) == 5 else MOST_WEIGHT + 1
    return variables, clauses, top


def load(file: Iterable[str]) -> Formula:
    """The formula of a text. Raises ValueError, which tells the line, if it is none, or if a weight
    is not from 1 to 2^63 - 1."""
    rows = _tokens(file)
    line, words = next(rows, (1, [""]))
    if words == [""]:
        _refused(line, "there is neither a clause nor a header")
    top, wanted = None, None
    formula = Formula()
    if words[0] == "p":
        formula.variables, wanted, top = _header(line, words)
    else:
        rows = chain([(line, words)], rows)
    most = MOST_VARIABLES if wanted is None else formula.variables
    for line, words in _clauses(rows):
        if not words:
            _refused(line, "a clause has no weight")
        weight = _weight(line, words[0], top)
        literals = _literals(line, words[1:], most)
        if wanted is None and literals:
            formula.variables = max(formula.variables, max(literals), -min(literals))
        if weight is None:
            formula.hard.append(literals)
        else:
            formula.soft.append(Soft(weight, literals))
    count = len(formula.hard) + len(formula.soft)
    if wanted is not None and count != wanted:
        _refused(line, "there are %d clauses, and %d in the header" % (count, wanted))
    return formula
