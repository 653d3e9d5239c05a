"""Clauses that bound how many literals are true, or what the true ones weigh."""
from itertools import combinations
from typing import Callable, Iterator, List, Sequence

Clauses = Iterator[List[int]]
Fresh = Callable[[], int]  # gives a variable that stands nowhere yet


def pairwise(literals: Sequence[int], bound: int) -> Clauses:
    """At most `bound` literals are true; without further variables."""
    for chosen in combinations(literals, max(bound, -1) + 1):
        yield [-literal for literal in chosen]


def sequential(literals: Sequence[int], weights: Sequence[int], bound: int,
               fresh: Fresh) -> Clauses:
    """The true literals weigh at most `bound`, by a sequential counter: variable `row[n - 1]`,
    which belongs to the literals so far, is true if they weigh n or more. No weight is below 0."""
    if bound < 0:
        yield []
    row: List[int] = []
    for literal, weight in zip(literals, weights):
        if weight > bound:
            yield [-literal]
        elif weight > 0:
            if bound - weight < len(row):
                yield [-literal, -row[bound - weight]]
            after = [fresh() for _ in range(min(bound, len(row) + weight))]
            yield from ([-old, new] for old, new in zip(row, after))
            yield from ([-literal, new] for new in after[:weight])
            yield from ([-literal, -old, new] for old, new in zip(row, after[weight:]))
            row = after


def totalizer(literals: Sequence[int], bound: int, fresh: Fresh) -> Clauses:
    """At most `bound` literals are true, by a totalizer: each inner place of a balanced tree has
    variables that are true if as many literals below it are."""
    if bound < 0:
        yield []
        return
    rows = [[literal] for literal in literals]
    while len(rows) > 1:
        left, right = rows.pop(0), rows.pop(0)
        both = [fresh() for _ in range(min(len(left) + len(right), bound + 1))]
        yield from ([-one, new] for row in (left, right) for one, new in zip(row, both))
        for at, one in enumerate(left, 1):
            yield from ([-one, -other, new] for other, new in zip(right, both[at:]))
        rows.append(both)
    yield from ([-one] for row in rows for one in row[bound:])
