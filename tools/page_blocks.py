"""The lines and the fenced blocks of a page, and the run of its `sh` blocks over a built program.

tools/pages.py uses it. A block is one script of bash, whose commands run from top to bottom
whatever status each has. The blocks of a page run in one temporary folder, with the repository's
`examples` and `tools`. A comment at the end of a command is what it has to print: the last line, or
`# a; b` for all lines. After a comma it may go on with other words. Lines of their own that begin
with `# s`, `# c`, `# v` or `# f` are such a comment of the command before them, for all its lines.
"""
import os
import re
import subprocess
import tempfile
import textwrap
from dataclasses import dataclass, replace
from pathlib import Path
from typing import Dict, Iterable, Iterator, List, Optional, Tuple

ROOT = Path(__file__).resolve().parent.parent
SECONDS = 600  # for a block
COMMENT = re.compile(r"[^\s#].*?\s#\s+(.+?)\s*$")
PRINTED = re.compile(r"# ([scvf] .*)$")
PROGRAMS = {"satcluster-solver": "tools/satcluster-solver", "satcluster-conquer": "tools/conquer.py"}
PROGRAMS.update({name: "clients/python/" + name for name in (
    "satcluster-maxsat", "satcluster-maxsat-check", "satcluster-mus", "satcluster-backbone")})


def lines_of(page: Path) -> Iterator[Tuple[int, str, bool]]:
    """The lines of a page with their numbers, and whether each is one of a code block."""
    fence = None
    for number, line in enumerate(page.read_text(encoding="utf-8").splitlines(), 1):
        mark = re.match(r"\s*(`{3,}|~{3,})", line)
        if fence is None and mark:
            fence = mark.group(1)
            yield number, line, True
        elif fence is not None:
            yield number, line, True
            if line.strip() == fence:
                fence = None
        else:
            yield number, line, False


@dataclass(frozen=True)
class Block:
    """A fenced block: the line of its fence, the word there, and the lines between the fences."""

    page: Path
    line: int
    language: str
    lines: List[str]


def blocks(page: Path) -> Iterator[Block]:
    begun: List[Tuple[int, str]] = []
    for number, line, is_code in lines_of(page):
        if is_code:
            begun.append((number, line))
        fence = re.match(r"\s*([`~]+)", begun[0][1]) if len(begun) > 1 else None
        if fence and line.strip() == fence.group(1):
            text = textwrap.dedent("\n".join(line for _, line in begun[1:-1]))
            yield Block(page, begun[0][0], begun[0][1].strip(" `~"), text.splitlines())
            begun = []


@dataclass(frozen=True)
class Command:
    """One command of a block, perhaps of several lines: the number of its first line, and what it
    has to print."""

    line: int
    text: str
    comment: Optional[str]


def is_whole(text: str) -> bool:
    """Whether bash takes the text as commands that end with it."""
    parsed = subprocess.run(["bash", "-n"], input=text, stderr=subprocess.PIPE, encoding="utf-8")
    return parsed.returncode == 0 and not parsed.stderr and not text.rstrip("\n").endswith("\\")


def command(line: int, lines: List[str]) -> Command:
    found = COMMENT.match(lines[-1]) or COMMENT.match(lines[0])
    return Command(line, "\n".join(lines) + "\n", found.group(1) if found else None)


def commands(block: Block) -> List[Command]:
    found: List[Command] = []
    begun: List[str] = []
    for number, line in enumerate(block.lines, block.line + 1):
        printed = PRINTED.match(line)
        if not begun and printed and found:
            texts = filter(None, (found[-1].comment, printed.group(1)))
            found[-1] = replace(found[-1], comment="; ".join(texts))
        elif begun or line.strip() and not line.startswith("#"):
            begun.append(line)
            if is_whole("\n".join(begun) + "\n"):
                found.append(command(number - len(begun) + 1, begun))
                begun = []
    if begun:
        found.append(command(block.line + 1 + len(block.lines) - len(begun), begun))
    return found


@dataclass(frozen=True)
class Told:
    """What a command has printed, and its status; None if it did not come to its end."""

    out: str
    err: str
    status: Optional[int]

    def fault(self, comment: Optional[str]) -> Optional[str]:
        lines = (self.out or self.err).splitlines()
        if self.status is None:
            return "did not end"
        if self.status == 127 or "command not found" in self.err:
            return "an unknown command: " + self.err.strip()
        if "c usage" in lines or self.status == 2 and self.err.lower().startswith("usage"):
            return "refused as usage: " + (self.out + self.err).strip()
        if comment is None or comment.replace(",", ";") == "; ".join(lines).replace(",", ";"):
            return None
        last = lines[-1] if lines else ""
        if comment == last or last and comment.startswith(last + ", "):
            return None
        return "prints %r, and not %r" % (" / ".join(lines[-3:]), comment)


def play(block: Block, folder: Path, environment: Dict[str, str]) -> Iterator[Tuple[Command, Told]]:
    """Runs a block in a folder: each of its commands, with what it has told."""
    with tempfile.TemporaryDirectory(dir=str(folder.parent)) as room:
        played = commands(block)
        script = Path(room) / "script"
        turns = ("{\n%s} >%s/%d.out 2>%s/%d.err\necho $? >%s/%d.status\n"
                 % (turn.text, room, at, room, at, room, at) for at, turn in enumerate(played))
        script.write_text("".join(turns), encoding="utf-8")
        subprocess.run(["timeout", str(SECONDS), "bash", str(script)], cwd=str(folder),
                       env=environment, stdin=subprocess.DEVNULL, stdout=subprocess.DEVNULL,
                       stderr=subprocess.DEVNULL)
        for at, turn in enumerate(played):
            texts = [Path(room) / ("%d.%s" % (at, end)) for end in ("out", "err", "status")]
            out, err, status = (path.read_text(encoding="utf-8", errors="replace")
                                if path.is_file() else "" for path in texts)
            yield turn, Told(out, err, int(status) if status.strip() else None)


def places(base: Path, program: Path) -> Tuple[Path, Dict[str, str]]:
    """The folder in which blocks run, and their environment, with the program on the path."""
    folder, path, room = (base / name for name in ("here", "bin", "tmp"))
    for made in (folder, path, room):
        made.mkdir()
    (path / "satcluster").symlink_to(program.resolve())
    for name, tool in PROGRAMS.items():
        (path / name).symlink_to(ROOT / tool)
    for name in ("examples", "tools"):
        (folder / name).symlink_to(ROOT / name)
    return folder, dict(os.environ, TMPDIR=str(room), PATH="%s:%s" % (path, os.environ["PATH"]))


def run_page(page: Path, folder: Path, environment: Dict[str, str]) -> Iterator[str]:
    for block in blocks(page):
        for turn, told in play(block, folder, environment) if block.language == "sh" else ():
            why = told.fault(turn.comment)
            if why:
                yield "%s:%d: %s: %s" % (page.relative_to(ROOT), turn.line,
                                         turn.text.splitlines()[0], why)


def run(pages: Iterable[Path], program: Path) -> Iterator[str]:
    """Runs the `sh` blocks of some pages over a program; what differs, by page and line."""
    for page in pages:
        with tempfile.TemporaryDirectory() as base:
            yield from run_page(page, *places(Path(base), program))
