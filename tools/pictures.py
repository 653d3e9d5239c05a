#!/usr/bin/env python3
"""Draws the pictures of docs/pictures.

    tools/pictures.py           writes them
    tools/pictures.py --check   fails if one is stale

layers.svg    the crates, as crates.txt has them: each stands on those that its lines lead down to
run.svg       the frames of a run of one worker and one leaf
tree.svg      a splitting tree of two leaves, their logs, and the proof that joins them

timeline.svg beside them was drawn by `conquer.py`, of a run.
"""
import sys
from html import escape
from pathlib import Path
from typing import Dict, List, NamedTuple, Set, Tuple

ROOT = Path(__file__).resolve().parent.parent
FOLDER = ROOT / "docs" / "pictures"

Names = Dict[str, List[str]]  # crates, each with some that it stands on

# Crates that are not drawn.
TESTS = {"crate_tests", "program_tests", "self_test"}

# What each of the others is for, with its colour.
KINDS: Dict[str, Tuple[str, List[str]]] = {
    "words and reports": ("#e8e3f5", [
        "option_table", "command_line", "reports", "explanations", "node_main", "commands",
        "satcluster"]),
    "leaves as files": ("#fbe5d0", [
        "leaves", "text_or_binary", "cubes_to_tree", "log_join", "receipts", "cover_laws",
        "shared_logs", "shared_lines", "weaving", "proof_lift", "lidrup", "sessions", "answers"]),
    "machines and runs": ("#d8eaf7", [
        "runs", "event_loop", "links", "connections", "cluster", "honest_cluster", "worker_core",
        "coordinator_core", "evidence", "frames", "hmac", "keyed_links",
        "sealed_links"]),
    "search": ("#dff0d8", [
        "formula_search", "renumbered_logs", "elimination", "cube_solve", "incremental",
        "cell_worker", "sharing",
        "conflict_analysis", "decide_heap", "watches", "clause_arena", "proof_trim"]),
    "splitting and joining": ("#f7f0c8", [
        "cube_split", "look_ahead", "icnf", "proof_join", "lrat_trim"]),
    "formulas and proofs": ("#f6d9dc", [
        "lrat_check", "proof_check", "packed_text", "lrat_text", "lrat_binary", "lrat_forms",
        "drat_elaborate", "drat_forms", "dimacs"]),
}


class Picture:
    """Shapes of an SVG, drawn on white."""

    def __init__(self, width: float, height: float) -> None:
        self.size = width, height
        self.shapes: List[str] = []

    def box(self, x: float, y: float, width: float, height: float, colour: str) -> None:
        self.shapes.append(
            f'<rect x="{x:g}" y="{y:g}" width="{width:g}" height="{height:g}" rx="4"'
            f' fill="{colour}" stroke="#555"/>')

    def line(self, x: float, y: float, to_x: float, to_y: float, colour: str = "#999",
             arrow: bool = False) -> None:
        marker = ' marker-end="url(#arrow)"' if arrow else ""
        self.shapes.append(
            f'<line x1="{x:g}" y1="{y:g}" x2="{to_x:g}" y2="{to_y:g}" stroke="{colour}"{marker}/>')

    def text(self, x: float, y: float, words: str, anchor: str = "middle", size: int = 13,
             colour: str = "#222", family: str = "sans-serif") -> None:
        self.shapes.append(
            f'<text x="{x:g}" y="{y:g}" text-anchor="{anchor}" font-family="{family}"'
            f' font-size="{size}" fill="{colour}" xml:space="preserve">{escape(words)}</text>')

    def code(self, x: float, y: float, words: str, anchor: str = "start") -> None:
        self.text(x, y, words, anchor, family="monospace")

    def svg(self) -> str:
        width, height = self.size
        head = (
            f'<svg xmlns="http://www.w3.org/2000/svg" width="{width:g}" height="{height:g}"'
            f' viewBox="0 0 {width:g} {height:g}">\n'
            '<defs><marker id="arrow" viewBox="0 0 8 8" refX="7" refY="4" markerWidth="8"'
            ' markerHeight="8" orient="auto"><path d="M0,0 L8,4 L0,8 z" fill="#444"/></marker>'
            '</defs>\n'
            f'<rect width="{width:g}" height="{height:g}" fill="#fff"/>\n'
        )
        return head + "\n".join(self.shapes) + "\n</svg>\n"


def crates() -> Names:
    """The crates that are drawn, each with those drawn ones that it names."""
    drawn = {name for _, names in KINDS.values() for name in names}
    named: Names = {}
    for line in (ROOT / "crates.txt").read_text().splitlines():
        if line.strip() and not line.startswith("#"):
            name, _, below = line.partition(":")
            named[name.strip()] = [crate for crate in below.split() if crate in drawn]
    wrong = (drawn | TESTS) ^ named.keys()
    if wrong:
        raise SystemExit("crates.txt and KINDS of tools/pictures.py have to name the same crates: "
                         + ", ".join(sorted(wrong)))
    return {name: below for name, below in named.items() if name in drawn}


def reached(below: Names, name: str) -> Set[str]:
    """All that a crate stands on, also through others."""
    found: Set[str] = set()
    for crate in below[name]:
        found |= {crate} | reached(below, crate)
    return found


def rows_of(below: Names) -> List[List[str]]:
    """The crates by how long the longest way up from each is, the lowest first: so each stands
    right below a crate that names it."""
    depths: Dict[str, int] = {}

    def depth(name: str) -> int:
        if name not in depths:
            above = [crate for crate in below if name in below[crate]]
            depths[name] = 1 + max((depth(crate) for crate in above), default=-1)
        return depths[name]

    for name in below:
        depth(name)
    rows: List[List[str]] = [[] for _ in range(max(depths.values()) + 1)]
    for name in below:
        rows[-1 - depths[name]].append(name)
    return rows


def settle(rows: List[List[str]], edges: List[Tuple[str, str]]) -> Dict[str, float]:
    """Places for the crates of each row, so that lines are short: each goes to the middle of its
    neighbours, again and again, as far as the others of its row leave room."""
    place: Dict[str, float] = {}
    for row in rows:
        for at, name in enumerate(row):
            place[name] = at - (len(row) - 1) / 2
    near: Names = {name: [] for row in rows for name in row}
    for upper, lower in edges:
        near[upper].append(lower)
        near[lower].append(upper)
    for turn in range(200):
        for row in rows if turn % 2 else reversed(rows):
            wanted = {name: sum(place[other] for other in near[name]) / max(1, len(near[name]))
                      for name in row}
            row.sort(key=lambda name: (wanted[name], name))
            for at, name in enumerate(row):
                place[name] = wanted[name] if at == 0 else max(wanted[name], place[row[at - 1]] + 1)
            shift = sum(place[name] - wanted[name] for name in row) / len(row)
            for name in row:
                place[name] -= shift
    return place


def layers() -> str:
    below = crates()
    edges = [
        (name, crate)
        for name in below
        for crate in below[name]
        if not any(crate in reached(below, other) for other in below[name])
    ]
    rows = rows_of(below)
    place = settle(rows, edges)
    colours = {name: colour for colour, names in KINDS.values() for name in names}
    box, gap, step, top = (122, 26), 136, 64, 20
    left = min(place.values())
    width = (max(place.values()) - left) * gap + box[0] + 40
    picture = Picture(width, top + len(rows) * step)
    x = {name: 20 + (place[name] - left) * gap for name in place}
    y = {name: top + (len(rows) - 1 - at) * step for at, row in enumerate(rows) for name in row}
    for upper, lower in edges:
        picture.line(x[upper] + box[0] / 2, y[upper] + box[1], x[lower] + box[0] / 2, y[lower])
    for name in place:
        picture.box(x[name], y[name], *box, colours[name])
        picture.text(x[name] + box[0] / 2, y[name] + 17, name, size=12)
    for at, (kind, (colour, _)) in enumerate(KINDS.items()):
        picture.box(width - 170, 540 + 22 * at, 14, 14, colour)
        picture.text(width - 148, 552 + 22 * at, kind, "start", 12)
    return picture.svg()


class Step(NamedTuple):
    """A frame of a run, and what is done when it has come; or what is done without a frame."""

    to: str  # who gets the frame
    frame: str = ""
    note: str = ""


COORDINATOR, WORKER = "coordinator", "worker"


def run() -> str:
    steps = [
        Step(COORDINATOR, "Idle"),
        Step(WORKER, "Task: the cube of the leaf, and a limit", "searches, trims its log"),
        Step(COORDINATOR, "Done: refuted, so many bytes"),
        Step(WORKER, "Fetch: from byte 0"),
        Step(COORDINATOR, "Piece: up to 4,000 bytes; Fetch asks for the next"),
        Step("", note="checks the log, joins one proof"),
        Step(WORKER, "Verdict: refuted, so many bytes"),
        Step(COORDINATOR, "Want: from byte 0"),
        Step(WORKER, "Part: up to 4,000 bytes; Want asks for the next", "checks the whole proof"),
    ]
    left, right, top, step = 190, 590, 64, 46
    picture = Picture(800, top + step * (len(steps) + 1))
    bottom = top + step * len(steps) + 12
    for x, name in ((left, COORDINATOR), (right, WORKER)):
        picture.box(x - 62, 16, 124, 30, "#d8eaf7")
        picture.text(x, 36, name)
        picture.line(x, 46, x, bottom, "#777")
    for at, (to, frame, note) in enumerate(steps):
        y = top + step * at + 24
        if to == WORKER:
            picture.line(left, y, right - 2, y, "#444", arrow=True)
        elif to == COORDINATOR:
            picture.line(right, y, left + 2, y, "#444", arrow=True)
        if frame:
            picture.text((left + right) / 2, y - 6, frame)
        if note and to == WORKER:
            picture.text(right + 10, y + 26, note, "start", 12, "#666")
        elif note:
            picture.text(left - 10, y + 4, note[: note.index(",")] + ",", "end", 12, "#666")
            picture.text(left - 10, y + 20, note[note.index(",") + 2 :], "end", 12, "#666")
    return picture.svg()


def tree() -> str:
    picture = Picture(860, 400)
    picture.text(20, 28, "the formula, clauses 1 to 4", "start")
    for at, clause in enumerate(["1 2", "-1 2", "1 -2", "-1 -2"]):
        picture.code(20, 52 + 20 * at, f"{at + 1}:  {clause} 0")
    root, leaves = (400, 60), ((270, 170), (530, 170))
    for (x, y), literal in zip(leaves, ("1", "-1")):
        picture.line(root[0], root[1], x, y - 22, "#777")
        picture.code((root[0] + x) / 2 + (-12 if x < root[0] else 12), 104, literal, "middle")
    picture.box(root[0] - 34, root[1] - 28, 68, 28, "#f7f0c8")
    picture.text(root[0], root[1] - 9, "fork")
    logs = ((" leaf 1: the cube 1", "5 -1 0 2 4 0"), ("leaf 2: the cube -1", "5 1 0 1 3 0"))
    for (x, y), (name, log) in zip(leaves, logs):
        picture.box(x - 92, y - 22, 184, 30, "#f7f0c8")
        picture.text(x, y - 2, name.strip())
        picture.line(x, y + 8, x, y + 40, "#444", arrow=True)
        picture.box(x - 92, y + 42, 184, 48, "#dff0d8")
        picture.text(x, y + 60, "its log, by any solver", size=12, colour="#666")
        picture.code(x, y + 80, log, "middle")
        picture.line(x, y + 90, 400 + (x - 400) * 0.55, y + 126, "#444", arrow=True)
    picture.box(250, 298, 300, 88, "#f6d9dc")
    picture.text(400, 290, "join", size=12, colour="#666")
    rows = (("5 -1 0 2 4 0", "leaf 1"), ("6 1 0 1 3 0", "leaf 2, under another number"),
            ("7 0 5 6 0", "the fork"))
    for at, (line, what) in enumerate(rows):
        picture.code(266, 322 + 24 * at, line)
        picture.text(566, 322 + 24 * at, what, "start", 12, "#666")
    picture.text(236, 346, "one proof of the formula", "end", 12, "#666")
    return picture.svg()


def main() -> None:
    is_check = sys.argv[1:] == ["--check"]
    if sys.argv[1:] and not is_check:
        raise SystemExit(__doc__)
    FOLDER.mkdir(exist_ok=True)
    for name, draw in (("layers", layers), ("run", run), ("tree", tree)):
        path, text = FOLDER / f"{name}.svg", draw()
        if not is_check:
            path.write_text(text)
        elif not path.exists() or path.read_text() != text:
            raise SystemExit(f"{path.relative_to(ROOT)} is stale: run tools/pictures.py")


if __name__ == "__main__":
    main()
