"""The table of faults: for each number a sentence, an example, and what to do.

The sentences are read from the source of the crate `explanations`; the examples stand here.
`tools/faults.py` makes docs/FAULTS.md of both, and `tools/explain_test.py` runs every example
through the program.
"""
import re
from dataclasses import dataclass
from pathlib import Path
from typing import Dict, List

from explanations.words import FOLDER_IN_USE

CRATE = Path(__file__).resolve().parent.parent.parent / "crates" / "explanations" / "src"
TEXT = r'"((?:[^"\\]|\\.)*)"'
VALUE = r"(?:%s|([A-Z]+))" % TEXT
PAIR = r"\s*%s,\s*%s,?\s*\)" % (VALUE, VALUE)


@dataclass(frozen=True)
class Row:
    key: str  # the number of a fault, or the name of a variant
    sentence: str
    remedy: str


def source(name: str) -> str:
    return (CRATE / (name + ".rt")).read_text(encoding="utf-8")


def text_of(literal: str) -> str:
    return re.sub(r"\\(.)", r"\1", literal)


CONSTANTS = {name: text_of(text) for module in ("sentences", "table")
             for name, text in re.findall(r"const ([A-Z]+): &str\s*=\s*%s;" % TEXT, source(module))}


def rows_in(text: str, front: str) -> List[Row]:
    """The rows of a match: each arm has a key, and a pair of a sentence and a remedy."""
    def value(literal: str, name: str) -> str:
        return CONSTANTS[name] if name else text_of(literal)

    return [Row(key, value(*parts[:2]), value(*parts[2:]))
            for key, *parts in re.findall(front + PAIR, text)]


def variants(module: str, name: str) -> List[Row]:
    return rows_in(source(module), name + r"::(\w+) => \(")


def body(text: str, function: str) -> str:
    found = re.search(r"fn %s\(.*?\n}\n" % function, text, re.DOTALL)
    assert found, function
    return found.group(0)


@dataclass(frozen=True)
class Table:
    name: str  # what such a file is called on the command line
    head: str  # whose faults these are, and how they are printed
    examples: Dict[int, str]  # a text for each fault that a short text can have

    def rows(self) -> List[Row]:
        return rows_in(body(source("table"), "of_" + self.name), r"(\d+) => row\(")


TABLES = (
    Table(
        "input",
        "A formula, printed as `c input line L fault N` by every command that reads one.",
        {
            1: "1 2 0\n",
            2: "p cnf 2\n1 2 0\n",
            3: "p cnf 1 1\n1 x 0\n",
            4: "p cnf 1 1\n2 0\n",
            5: "p cnf 1 1\n1\n",
            6: "p cnf 1 2\n1 0\n",
            7: "p cnf 1 1\n1 0\n-1 0\n",
            8: "p cnf 1000001 0\n",
        }),
    Table(
        "proof",
        "An LRAT proof, printed as `c line L fault N` by `check` and `trim`, as `c proof line"
        " L fault N` by `lift`, as `c log line L fault N` by `receipt`, and as `c file K line L"
        " fault N NAME` by `join`; if the proof is binary, with `step` in the place of `line`."
        " [FORMATS.md](FORMATS.md#lidrup) has those of `lift --lidrup`.",
        {
            1: "5 2 0 1 2\n",
            2: "4 2 0 1 2 0\n",
            3: "5 2 0 9 0\n",
            4: "5 1 -1 0 1 0\n",
            5: "5 2 0 3 0\n",
            6: "5 0 1 0\n",
            7: "5 2 0 1 2 3 0\n",
            8: "5 0 0\n",
            9: "5 2 0 0\n",
            10: "5 2 0 -1 0\n",
            11: "5 2 0 -3 1 -3 1 0\n",
            12: "5 2 -1 0 -3 1 0\n",
            13: "5 2 0 1 2 0\n",
        }),
    Table(
        "drat",
        "A DRAT proof, printed as `c step K fault N` by `elaborate`, `check --drat` and `lift --drat`.",
        {
            1: "2 0\nx 0\n",
            2: "2000001 0\n",
            3: "2 0\n-1",
            6: "3 0\n0\n",
            7: "3 1 2 0\n",
        }),
    Table(
        "cubes",
        "A splitting tree as iCNF, or a list of cubes, printed as `c cubes line L fault N` by"
        " commands with `--cubes` or `--complete`.",
        {
            1: "1 2 0\na 0\n",
            2: "p cnf 2 4\n",
            3: "p inccnf\n1 x 0\n",
            4: "p inccnf\n1 0\na 2 0\n",
            5: "p inccnf\n1 2 0\na 1",
            8: "p inccnf\n1000001 0\n",
            10: "p inccnf\n1 2 0\na 1 0\n-1 0\n",
            11: "p inccnf\n1 2 0\na 1 1 0\n",
            12: "p inccnf\n1 2 0\na 1 0\n",
        }),
    Table(
        "answer",
        "What a solver printed. Its faults are printed as `c line L fault N` by `model`, and as"
        " `c file K line L fault N NAME` by `join`.",
        {
            1: "1 0\n",
            2: "v 1 x 0\n",
            3: "v 1 0 2\n",
            4: "v 1 2\nv -1 0\n",
            5: "v 1 2\n",
        }),
    Table(
        "events",
        "What was sent in a session, printed as `c input line L fault N` by `check --session`"
        " ([FORMATS.md](FORMATS.md#events)).",
        {
            1: "1 2 0\n",
            2: "p cnf 2 1\n",
            3: "p inccnf\n1 2 0\n1 a 2 0\n",
            5: "p inccnf\n1 2 0 -1 0\n",
            8: "p inccnf\n1000001 0\n",
        }),
    Table(
        "session",
        "The proof of a session, a LIDRUP text, printed as `c line L fault N` by `check "
        "--session`; the answers before it stand. In examples the events are `p inccnf`, `1 2"
        " 0`, `a 1 0`.",
        {
            1: "i 1 1 2 0\nq 1\n",
            2: "i 1 1 2 0\nl 1 1 2 0 1 0\n",
            3: "i 1 1 2 0\nl 2 1 0 9 0\n",
            4: "i 1 1 2 0\nl 2 1 -1 0 1 0\n",
            5: "i 1 1 2 0\nq 1 0\ns UNSATISFIABLE\nu 1 0 1 0\n",
            6: "i 1 1 2 0\nl 2 0 1 0\n",
            7: "i 1 1 2 0\nl 2 1 2 0 1 1 0\n",
            15: "i 1 1 2 0\nl 2 1 0 1 0\n",
            18: "i 1 2 1 0\n",
            19: "i 1 1 2 0\nm 1 0\n",
            20: "i 1 1 2 0\nq 1 0\ns SATISFIABLE\nm 2 0\n",
            21: "i 1 1 2 0\nq 1 0\ns UNSATISFIABLE\nu 2 -2 0 0\n",
            22: "i 1 1 2 0\n",
        }),
)


@dataclass(frozen=True)
class Line:
    text: str  # as it is printed, with capitals for what varies
    sentence: str
    remedy: str


def other_lines() -> List[Line]:
    """The other lines that tell what is wrong, and that of `conquer.py`."""
    rows = {row.key: row for row in variants("other_lines", "Other")}
    texts = re.findall(r'"(c [^"]*)" => Some\(Other::(\w+)\)', source("other_lines"))
    clause = next(row for row in variants("reasons", "Reason") if row.key == "NoLiteral")
    lines = [Line(text, rows[name].sentence, rows[name].remedy) for text, name in texts]
    lines.append(Line("c clause K", clause.sentence, clause.remedy))
    return lines + [Line("c folder in use", *FOLDER_IN_USE)]
