"""Drawn sessions with proofs that are made here, changes of them, and the rules of a proof once more.

The rules are those of docs/FORMATS.md, written for a second time, so that a text need not be right
for a test to know what has to be printed of it.
"""
import random
import re
from typing import Dict, Iterator, List, NamedTuple, Optional, Set, Tuple

NUMBER = re.compile(r"-?[1-9][0-9]*|0")
FORMS = {"i": "nl", "q": "l", "l": "nlh", "d": "h", "m": "l", "u": "lh"}  # numbers, literals, hints
SILENT = "wrfpce"
STATUSES = ("s SATISFIABLE", "s UNSATISFIABLE", "s UNKNOWN")


class Event(NamedTuple):
    asks: bool
    literals: List[int]


class Session(NamedTuple):
    events: List[Event]
    proof: List[str]  # lines, without their LF


def spelled(numbers: List[int]) -> str:
    return " ".join(map(str, [*numbers, 0]))


def events_text(events: List[Event]) -> str:
    lines = [("a " if event.asks else "") + spelled(event.literals) for event in events]
    return "\n".join(["p inccnf", *lines]) + "\n"


def text_of(proof: List[str]) -> str:
    return "".join(line + "\n" for line in proof)


# ---- the rules


def parts_of(line: str) -> Optional[List[List[int]]]:
    """What a line says behind its letter, list by list; none if it is no line."""
    words = line[2:].split(" ")
    if line[1:2] != " " or not all(NUMBER.fullmatch(word) for word in words):
        return None
    numbers, parts = [int(word) for word in words], []
    for form in FORMS[line[0]]:
        end = 1 if form == "n" else numbers.index(0) if 0 in numbers else len(numbers)
        part, numbers = numbers[:end], numbers[end if form == "n" else end + 1:]
        if (form == "n" and part == [0]) or (form in "nh" and any(number < 0 for number in part)):
            return None
        parts.append(part)
    wanted = len(words) - sum(map(len, parts)) - sum(form != "n" for form in FORMS[line[0]])
    return parts if wanted == 0 and not numbers else None


class Refused(Exception):
    pass


def needs(holds: bool, fault: int) -> None:
    if not holds:
        raise Refused(fault)


def has_pair(literals: List[int]) -> bool:
    return any(-literal in literals for literal in literals)


class Rules:
    """What is known between two lines."""

    def __init__(self, events: List[Event]) -> None:
        self.left = list(events)
        self.given: Dict[int, List[int]] = {}
        self.live: Dict[int, List[int]] = {}
        self.last = 0
        self.stage = ""
        self.query: List[int] = []
        self.counts = [0, 0, 0]

    def sent(self, event: Event) -> None:
        needs(bool(self.left) and self.left[0] == event, 18)
        del self.left[0]

    def follows(self, lemma: List[int], hints: List[int]) -> None:
        needs(not has_pair(lemma), 4)
        true = {-literal for literal in lemma}
        for place, hint in enumerate(hints):
            needs(hint in self.live, 3)
            clause = self.live[hint]
            needs(not true.intersection(clause), 5)
            open_ones = {literal for literal in clause if -literal not in true}
            if not open_ones:
                needs(place == len(hints) - 1, 7)
                return
            needs(len(open_ones) == 1, 6)
            true |= open_ones
        raise Refused(15)

    def closes(self, status: int) -> None:
        self.counts[status] += 1
        self.stage = ""

    def take(self, line: str) -> None:
        letter = line[:1]
        if letter == "s":
            needs(line in STATUSES, 1)
            needs(self.stage == "open", 19)
            self.stage = line
            if line == STATUSES[2]:
                self.closes(2)
        elif letter not in FORMS:
            needs(letter != "" and letter in SILENT, 1)
        else:
            parts = parts_of(line)
            needs(parts is not None, 1)
            getattr(self, "take_" + letter)(*parts)

    def take_i(self, number: List[int], clause: List[int]) -> None:
        needs(self.stage == "", 19)
        needs(number[0] > self.last, 2)
        self.sent(Event(False, clause))
        self.last = number[0]
        self.live[self.last] = self.given[self.last] = clause

    def take_q(self, query: List[int]) -> None:
        needs(self.stage == "", 19)
        self.sent(Event(True, query))
        self.query, self.stage = query, "open"

    def take_l(self, number: List[int], lemma: List[int], hints: List[int]) -> None:
        needs(number[0] > self.last, 2)
        self.follows(lemma, hints)
        self.last = number[0]
        self.live[self.last] = lemma

    def take_d(self, numbers: List[int]) -> None:
        for number in set(numbers) - set(self.given):
            self.live.pop(number, None)

    def take_m(self, model: List[int]) -> None:
        needs(self.stage == STATUSES[0], 19)
        true = set(model)
        met = all(true.intersection(clause) for clause in self.given.values())
        needs(not has_pair(model) and met and true.issuperset(self.query), 20)
        self.closes(0)

    def take_u(self, core: List[int], hints: List[int]) -> None:
        needs(self.stage == STATUSES[1], 19)
        if not has_pair(core):
            self.follows([-literal for literal in core], hints)
        needs(set(self.query).issuperset(core), 21)
        self.closes(1)


def expected(events: List[Event], proof: str) -> Tuple[int, List[str]]:
    """The status and the lines that a check of these events and this proof has to print."""
    rules, lines = Rules(events), proof.split("\n")
    at = 0
    try:
        for line in lines[:-1]:
            at += 1
            rules.take(line)
        at += 1
        needs(lines[-1] == "", 1)
        needs(rules.stage == "" and not rules.left, 22)
    except Refused as refused:
        fault = "c line %d fault %d" % (at, refused.args[0])
        return 1, ["s NOT VERIFIED", fault, "c %d queries before" % sum(rules.counts)]
    told = "c %d queries: %d satisfiable, %d unsatisfiable, %d unknown"
    return 0, ["s VERIFIED", told % (sum(rules.counts), *rules.counts)]


# ---- sessions


class Solver:
    """Answers queries by a search through all assignments, and proves it."""

    def __init__(self, draw: random.Random) -> None:
        self.draw = draw
        self.proof: List[str] = []
        self.live: Dict[int, List[int]] = {}
        self.given: Set[int] = set()
        self.last = 0

    def number(self) -> int:
        self.last += self.draw.choice((1, 1, 1, 3))
        return self.last

    def give(self, clause: List[int]) -> None:
        number = self.number()
        self.live[number] = clause
        self.given.add(number)
        self.proof.append("i %d %s" % (number, spelled(clause)))

    def forget(self) -> None:
        numbers = [number for number in self.live if self.draw.random() < 0.2] + [self.last + 7]
        self.proof.append("d " + spelled(numbers))
        for number in set(numbers) - self.given:
            self.live.pop(number, None)

    def search(self, true: List[int], free: List[int]) -> Tuple[Optional[int], Set[int]]:
        """A model; or a clause that is false, by its number and what was assumed of it."""
        assumed = set(true)
        for number, clause in self.live.items():
            if assumed.issuperset(-literal for literal in clause):
                return number, {-literal for literal in clause}
        if not free:
            return None, assumed
        first = self.draw.choice((1, -1)) * free[0]
        ends = []
        for literal in (first, -first):
            end = self.search([*true, literal], free[1:])
            if end[0] is None or literal not in end[1]:
                return end
            ends.append((end[0], end[1]))
        used = (ends[0][1] | ends[1][1]) - {first, -first}
        number = self.number()
        self.live[number] = [-literal for literal in sorted(used, key=abs)]
        hints = [ends[0][0], ends[1][0]]
        self.proof.append("l %d %s %s" % (number, spelled(self.live[number]), spelled(hints)))
        return number, used

    def ask(self, query: List[int], variables: int) -> None:
        self.proof.append("q " + spelled(query))
        if self.draw.random() < 0.1:
            self.proof.append(STATUSES[2])
            return
        if has_pair(query):
            pair = next(literal for literal in query if -literal in query)
            self.proof += [STATUSES[1], "u %s 0" % spelled([pair, -pair])]
            return
        free = [variable for variable in range(1, variables + 1)
                if variable not in query and -variable not in query]
        number, found = self.search(query, free)
        if number is None:
            self.proof += [STATUSES[0], "m " + spelled(sorted(found, key=abs))]
        else:
            self.proof += [STATUSES[1], "u %s %s" % (spelled(sorted(found)), spelled([number]))]


def drawn(seed: int) -> Session:
    """Some clauses and queries, with tautologies, repeats and new variables, and their proof."""
    draw = random.Random(seed)
    solver, events, variables = Solver(draw), [], draw.randrange(1, 5)
    literal = lambda: draw.choice((1, -1)) * draw.randrange(1, variables + 1)
    for _ in range(draw.randrange(2, 6)):
        variables = min(variables + draw.randrange(2), 7)
        for _ in range(draw.randrange(0, variables * 2)):
            clause = [literal() for _ in range(draw.choice((1, 2, 2, 3, 3, 3)))]
            events.append(Event(False, clause))
            solver.give(clause)
        if draw.random() < 0.3:
            solver.forget()
        query = [literal() for _ in range(draw.randrange(4))]
        events.append(Event(True, query))
        solver.ask(query, variables)
    return Session(events, solver.proof)


def sharing(seed: int) -> Tuple[List[Event], List[bool]]:
    """Queries that begin as the one before them, with clauses in between that the front of these
    assumptions makes false or unit; and by all assignments whether each query can be satisfied."""
    draw = random.Random(seed)
    variables = draw.sample([1, 2, 3, 4, 5, 6, 40, 70, 71, 150], draw.randrange(4, 10))
    count = 1 << len(variables)
    everything = (1 << count) - 1
    true: Dict[int, int] = {}  # by literal: the assignments that make it true, a bit each
    for place, variable in enumerate(variables):
        true[variable] = sum(1 << at for at in range(count) if at >> place & 1)
        true[-variable] = everything ^ true[variable]
    left = everything
    query: List[int] = []
    events: List[Event] = []
    answers: List[bool] = []

    def give(clause: List[int]) -> None:
        nonlocal left
        events.append(Event(False, clause))
        left &= union(clause)

    def union(clause: List[int]) -> int:
        found = 0
        for literal in clause:
            found |= true[literal]
        return found

    literal = lambda: draw.choice((1, -1)) * draw.choice(variables)
    for _ in range(draw.randrange(len(variables), 2 * len(variables))):
        give([literal() for _ in range(draw.choice((2, 3, 3, 3)))])
    for _ in range(draw.randrange(5, 25)):
        front = query[:draw.randrange(len(query) + 1)]
        query = front + [literal() for _ in range(draw.randrange(4))]
        if draw.random() < 0.2:
            draw.shuffle(query)
        events.append(Event(True, query))
        found = left
        for one in query:
            found &= true[one]
        answers.append(found != 0)
        while draw.random() < 0.3:
            negated = [-one for one in draw.sample(query, min(len(query), draw.randrange(4)))]
            give(negated + [literal() for _ in range(draw.choice((0, 1, 1, 2)) if negated else 2)])
    return events, answers


def changed_line(line: str, draw: random.Random) -> str:
    """The line with another letter, another status, or with one number fewer, more or negated."""
    words = line.split(" ")
    if words[0] == "s":
        return draw.choice([status for status in STATUSES if status != line])
    at = draw.randrange(len(words))
    if at == 0:
        words[0] = draw.choice("iqldmuwx")
    elif draw.random() < 0.3:
        del words[at]
    elif draw.random() < 0.3:
        words.insert(at, draw.choice(("1", "-2", "9", "0")))
    else:
        words[at] = words[at][1:] if words[at].startswith("-") else "-" + words[at]
    return " ".join(words)


def changes(proof: List[str], draw: random.Random) -> Iterator[List[str]]:
    """For each line: the proof with another one in its place, without it, or with it twice."""
    for at, line in enumerate(proof):
        ways: Tuple[List[str], ...] = ([changed_line(line, draw)], [], [line, line])
        for instead in ways:
            yield [*proof[:at], *instead, *proof[at + 1:]]
