"""DIMACS formulas as streams: a formula of any size takes the memory of some clauses.

`load` and `dump` take open files, as those of `json` do:

    with open("f.cnf", encoding="ascii") as file:
        solver.append_formula(dimacs.load(file))
"""
from itertools import chain, islice
from typing import IO, Iterable, Iterator, List, NamedTuple, NoReturn, Tuple

WIDTH = 10  # digits of a number that is filled in later
BATCH = 1024  # clauses that are spelled at once, which takes half the time of one by one


class Size(NamedTuple):
    variables: int
    clauses: int


def _refused(line: int, why: str) -> NoReturn:
    raise ValueError("line %d: %s" % (line, why))


def _tokens(lines: Iterable[str]) -> Iterator[Tuple[int, List[str]]]:
    """The lines with a token, with their numbers. A line that begins with `c` is a comment."""
    for number, line in enumerate(lines, 1):
        words = [] if line.startswith("c") else line.split()
        if words:
            yield number, words


def _numbers(line: int, words: List[str]) -> List[int]:
    try:
        return [*map(int, words)]
    except ValueError:
        _refused(line, "a token is no number: " + " ".join(words)[:60])


def _size(line: int, words: List[str]) -> Size:
    if words[:1] != ["p"]:
        _refused(line, "the first token is not `p`: the header is missing")
    if words[:2] != ["p", "cnf"] or len(words) != 4 or not (words[2] + words[3]).isdigit():
        _refused(line, "the header is not `p cnf VARIABLES CLAUSES`")
    return Size(int(words[2]), int(words[3]))


def load(file: Iterable[str]) -> Iterator[List[int]]:
    """Clause after clause of a DIMACS text; a clause may span lines. Raises ValueError, which tells
    the line, if the text is none: without a header, with a token that is no number, a variable
    above the header's, or more or fewer clauses than that says."""
    rows = _tokens(file)
    number, words = next(rows, (1, [""]))
    size, count = _size(number, words), 0
    clause: List[int] = []
    for number, words in rows:
        literals = _numbers(number, words)
        if max(max(literals), -min(literals)) > size.variables:
            _refused(number, "a variable is above the header's %d" % size.variables)
        while 0 in literals:
            end = literals.index(0)
            count += 1
            if count > size.clauses:
                _refused(number, "there are more clauses than the header's %d" % size.clauses)
            yield clause + literals[:end]
            clause, literals = [], literals[end + 1:]
        clause += literals
    if clause or count < size.clauses:
        _refused(number, "the text ends before the last of %d clauses" % size.clauses)


def dump(clauses: Iterable[Iterable[int]], file: IO[str], variables: int = 0) -> Size:
    """Writes the clauses, and tells how many variables and clauses the header has; `variables` is
    the least number of the former. The header is filled in at the end, so the file has to be one
    in which can be sought; for another one all clauses are held first. Raises ValueError if a
    literal is 0."""
    if not file.seekable():
        clauses = [[*clause] for clause in clauses]
        greatest = max((abs(literal) for clause in clauses for literal in clause), default=0)
        size = Size(max(variables, greatest), len(clauses))
        file.write("p cnf %d %d\n" % size)
        _dump(clauses, file)
        return size
    begin = file.tell()
    form = "p cnf %%%dd %%%dd\n" % (WIDTH, WIDTH)
    file.write(form % (0, 0))
    size = _dump(clauses, file)
    size = size._replace(variables=max(size.variables, variables))
    file.seek(begin)
    file.write(form % size)
    file.seek(0, 2)
    return size


def _dump(clauses: Iterable[Iterable[int]], file: IO[str]) -> Size:
    greatest = count = 0
    rest = iter(clauses)
    while True:
        rows = [[*clause] for clause in islice(rest, BATCH)]
        numbers = [*chain.from_iterable(rows)]
        if 0 in numbers:
            raise ValueError("a literal is 0: %r" % next(row for row in rows if 0 in row)[:10])
        if numbers:
            greatest = max(greatest, max(numbers), -min(numbers))
        file.write("".join(["%d " * len(row) + "0\n" for row in rows]) % tuple(numbers))
        count += len(rows)
        if len(rows) < BATCH:
            return Size(greatest, count)
