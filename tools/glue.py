#!/usr/bin/env python3
"""Counts the lines of `crates/satcluster/src` on the way of `check`: no contract says what they do.

    tools/glue.py     prints the functions with their lines, and the sum

A function counts if `main` reaches it by names. Of a `match` over requests the lines of another
command's arms are left out, and so is what runs only for other words (help, version, progress) or
behind the report (`--explain`). Comments and blank lines are not counted.
"""
import re
from pathlib import Path
from typing import Dict, List, NamedTuple, Tuple

ROOT = Path(__file__).resolve().parent.parent
SOURCES = ROOT / "crates" / "satcluster" / "src"
ELSEWHERE = {"explain", "help", "read_cubes", "shown"}  # not on the way of `check INPUT PROOF`
OTHERS = {"cell", "cell_folder", "drafts", "elaboration_progress", "explain", "linked_runs", "listener",
          "progress", "proof_file", "refute", "session", "cubes_complete", "identity", "solver", "solver_disk"}


class Function(NamedTuple):
    place: str
    lines: List[str]


def is_code(line: str) -> bool:
    return bool(line.strip()) and not line.strip().startswith("//")


def functions() -> Dict[str, List[Function]]:
    """The functions by their names: each to the brace that closes it."""
    found: Dict[str, List[Function]] = {}
    for path in sorted(SOURCES.glob("*.rt")):
        if path.stem in OTHERS:
            continue
        lines = path.read_text(encoding="utf-8").split("\n")
        for at, line in enumerate(lines):
            head = re.match(r"( *)(?:pub(?:\(crate\))? )?fn (\w+)", line)
            if head:
                last = lines.index(head.group(1) + "}", at)
                function = Function(path.name, lines[at:last + 1])
                found.setdefault(head.group(2), []).append(function)
    return found


def own_arms(lines: List[str]) -> List[str]:
    """The lines without the arms of requests other than `check`."""
    kept: List[str] = []
    is_own = True
    for line in lines:
        arm = re.match(r"        Request::(\w+)", line)
        if arm:
            is_own = arm.group(1) == "Check"
        elif re.match(r"    }|        _ =>", line):
            is_own = True
        if is_own:
            kept.append(line)
    return kept


def way() -> List[Tuple[str, Function]]:
    known = functions()
    reached: List[Tuple[str, Function]] = []
    waiting, seen = ["main"], set(ELSEWHERE)
    while waiting:
        name = waiting.pop()
        if name in seen:
            continue
        seen.add(name)
        for function in known.get(name, []):
            lines = [line for line in own_arms(function.lines) if is_code(line)]
            reached.append((name, Function(function.place, lines)))
            text = "\n".join(lines[1:])
            waiting += re.findall(r"\b(\w+)(?:::<[^>]*>)?\(", text)
            if "Machine {" in text:
                waiting += ["alloc", "open"]  # what `commands::Disk` asks of it
    return reached


def count() -> int:
    return sum(len(function.lines) for _, function in way())


def main() -> None:
    for name, function in way():
        print("%4d %s, %s" % (len(function.lines), name, function.place))
    print("%4d lines" % count())


if __name__ == "__main__":
    main()
