#!/usr/bin/env python3
"""Looks at what the gate refuses and no `rt check` tells, in a second.

    tools/before_gate.py

Ends with status 1, and a line for each, if a module has the name of a crate that its crate uses,
also through others, or if a text of an edit that must fail does not stand once in its file.
"""
import re
import sys
from pathlib import Path
from typing import Dict, Iterator, Set

ROOT = Path(__file__).resolve().parent.parent
CRATES = ROOT / "crates"


def uses() -> Dict[str, Set[str]]:
    """The crates of crates.txt, with those that each one uses, also through others."""
    lines = [line.split("#")[0] for line in (ROOT / "crates.txt").read_text().splitlines()]
    rows = [line.partition(":") for line in lines if line.strip()]
    named = {name.split()[0]: below.split() for name, _, below in rows}

    def reached(name: str) -> Set[str]:
        return {name}.union(*map(reached, named.get(name, [])))

    return {name: reached(name) - {name} for name in named}


def wrong_modules(name: str, below: Set[str]) -> Iterator[str]:
    """The modules of a crate that have the name of one that it uses."""
    for path in sorted((CRATES / name / "src").rglob("*.rt")):
        for module in re.findall(r"(?m)^\s*(?:pub(?:\([a-z]+\))? )?mod (\w+)", path.read_text()):
            if module in below:
                yield (f"{path.relative_to(ROOT)}: the module {module} has the name of a crate "
                       f"that {name} uses: rename the module")


def wrong_texts(edit: Path) -> Iterator[str]:
    """The texts of an edit that do not stand once in their file."""
    path, text = None, ""
    for line in edit.read_text().split("\n"):
        key, _, told = line.partition(": ")
        if key == "file":
            path = edit.parent.parent / told.strip()
            text = path.read_text() if path.is_file() else ""
        if key != "old":
            continue
        if path is None:
            yield f"{edit.relative_to(ROOT)}: a line `file: ` has to stand before an old text"
        elif text.count(told) != 1:
            yield (f"{edit.relative_to(ROOT)}: an old text has to stand once in "
                   f"{path.relative_to(ROOT)}, and stands {text.count(told)} times: {told}")


def main() -> int:
    wrong = [line for name, below in uses().items() for line in wrong_modules(name, below)]
    wrong += [line for edit in sorted(CRATES.glob("*/must-fail/*.edit"))
              for line in wrong_texts(edit)]
    for line in wrong:
        print(line)
    return 1 if wrong else 0


if __name__ == "__main__":
    sys.exit(main())
