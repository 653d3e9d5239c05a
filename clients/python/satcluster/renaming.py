"""Which number a variable has in the program."""
from typing import Dict, Iterable, List

MOST_VARIABLES = 99999999  # that the program takes with `--large`


class Renaming:
    """The numbers of a caller's variables, once there are variables that the caller does not know.

    Up to `first` a variable has its own number. One above gets the next free number when it is
    named, so no variable that a caller names is one of those that `fresh` gave.
    """

    def __init__(self, first: int) -> None:
        self.first = first
        self.last = first
        self._inner: Dict[int, int] = {}
        self._outer: Dict[int, int] = {}

    def fresh(self) -> int:
        """A number that no variable has. Raises ValueError if there is none."""
        if self.last == MOST_VARIABLES:
            raise ValueError("there are more than 99,999,999 variables, with those of counters")
        self.last += 1
        return self.last

    def inner(self, literal: int) -> int:
        """The program's literal."""
        variable = abs(literal)
        if variable <= self.first:
            return literal
        if variable not in self._inner:
            number = self.fresh()
            self._inner[variable], self._outer[number] = number, variable
        number = self._inner[variable]
        return number if literal > 0 else -number

    def outer(self, literals: Iterable[int]) -> List[int]:
        """The caller's literals; without those of variables that `fresh` gave."""
        found = []
        for literal in literals:
            number = abs(literal)
            variable = number if number <= self.first else self._outer.get(number, 0)
            if variable:
                found.append(variable if literal > 0 else -variable)
        return found

    def model(self, literals: Iterable[int], variables: int) -> List[int]:
        """The caller's model of so many variables. One that was never named is false."""
        true = set(self.outer(literals))
        return [one if one in true else -one for one in range(1, variables + 1)]
