#!/usr/bin/env python3
"""Makes docs/FAULTS.md of the table of faults, which tools/explanations/faults.py reads.

    tools/faults.py            writes the page
    tools/faults.py --check    ends with status 1 if the page is not what would be written
"""
import sys
from pathlib import Path
from typing import Iterator, List

sys.dont_write_bytecode = True

from explanations.faults import TABLES, Row, Table, other_lines, variants

PAGE = Path(__file__).resolve().parent.parent / "docs" / "FAULTS.md"
TITLES = {"input": "A formula", "proof": "A proof", "drat": "A DRAT proof", "cubes": "Cubes", "answer": "An answer",
          "events": "The events of a session", "session": "The proof of a session"}
HEAD = """# What a fault means, and what to do

*`tools/faults.py` makes this page of the sentences in `crates/explanations/src` and of the examples
in `tools/explanations/faults.py`.*

The program prints the number and the line. With `--explain`, or on a terminal, it prints these
sentences, too ([COMMANDS.md](COMMANDS.md#--explain)); `tools/satcluster-solver` and
`tools/conquer.py` have it do so. [FORMATS.md](FORMATS.md) has what exactly each number stands for:
[formulas](FORMATS.md#dimacs), [proofs](FORMATS.md#steps), [cubes](FORMATS.md#icnf),
[answers](FORMATS.md#answers), the [events](FORMATS.md#events) of sessions and
[their proofs](FORMATS.md#lidrup). In examples `/` is a line end.
"""
REASONS = """## Words and files

WORD is the word that is refused, FILE the file that cannot be read or written.

| It says | What to do |
|---|---|
"""
BYTES = """## What a file is by its bytes

If the first bytes of a file, or the line that has the fault, tell that it is of another kind, that
is told in the place of the remedy. FILE is the file, and NEW one that the command writes.

| It says | What to do |
|---|---|
"""


def cell(text: str) -> str:
    return text.replace("|", "\\|")


def code(example: str) -> str:
    return "`%s`" % example.rstrip("\n").replace("\n", "` / `") if example else ""


def rows_of(table: Table) -> Iterator[str]:
    yield "## %s\n\n%s\n" % (TITLES[table.name], folded(table.head))
    yield "| Fault | It says | Example | What to do |\n|---|---|---|---|"
    for row in table.rows():
        example = code(table.examples.get(int(row.key), ""))
        yield "| %s |" % " | ".join(map(cell, (row.key, row.sentence, example, row.remedy)))
    yield ""


def pairs(rows: List[Row]) -> List[str]:
    return ["| %s | %s |" % (cell(row.sentence), cell(row.remedy)) for row in rows]


def folded(text: str, width: int = 100) -> str:
    lines = [""]
    for word in text.split(" "):
        if len(lines[-1]) + len(word) + 1 > width:
            lines.append("")
        lines[-1] += (" " if lines[-1] else "") + word
    return "\n".join(lines)


def page() -> str:
    parts = [HEAD]
    for table in TABLES:
        parts += rows_of(table)
    parts += ["## Other lines\n", "| Printed | It says | What to do |\n|---|---|---|"]
    parts += ["| `%s` | %s | %s |" % (row.text, row.sentence, row.remedy) for row in other_lines()]
    parts += ["", REASONS.rstrip("\n")]
    parts += pairs([row for row in variants("reasons", "Reason") if row.key != "NoLiteral"])
    parts += ["", BYTES.rstrip("\n")] + pairs(variants("looks", "Look"))
    return "\n".join(parts) + "\n"


def main() -> None:
    if sys.argv[1:] not in ([], ["--check"]):
        raise SystemExit(__doc__)
    if not sys.argv[1:]:
        PAGE.write_text(page(), encoding="utf-8")
    elif not PAGE.exists() or PAGE.read_text(encoding="utf-8") != page():
        raise SystemExit("docs/FAULTS.md is stale: run tools/faults.py")


if __name__ == "__main__":
    main()
