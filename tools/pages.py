#!/usr/bin/env python3
"""Checks the Markdown pages of the repository, and writes the man page and the completions.

    tools/pages.py --check
    tools/pages.py --run PROGRAM   runs the `sh` blocks of README and the pages for people
    tools/pages.py --man           writes share/, of the tables of words (tools/manual.py)

Prints each fault with its page and line, and ends with status 1 if there is one. --check finds
a link to a file, or to a heading, that is not there; a path of a crate in code quotes that is not
there; a line of more than 100 characters outside of code blocks and tables; a README of more than
80 lines, or with a longer line anywhere; pages for people of more than 16,700 words by hand;
twelve words in a row that another page has too; a block of code whose language is not known; a file
of share/ that is not what would be written; a CHANGELOG that does not begin with the program's
version, or gives one another day than its tag. tools/page_blocks.py tells how --run compares.
"""
import re
import subprocess
import sys
from pathlib import Path
from typing import Dict, Iterator, List, Optional, Tuple

sys.dont_write_bytecode = True

import manual
import page_blocks
from page_blocks import lines_of

ROOT = Path(__file__).resolve().parent.parent
WIDTH = 100
README_LINES = 80
PEOPLE = ("CHECKING", "SOLVING", "CLUSTER", "SESSIONS", "CLIENTS", "COMMANDS", "FORMATS", "FAULTS",
          "TRUST", "SPEED", "INSTALL")
UNCOUNTED = ("FAULTS.md", "SPEED.md")
PEOPLE_WORDS = 16700
RUN = 12  # so many words in a row stand on one page alone
MADE = ("FAULTS.md",)  # made by a script, of the sources
UNKEPT = ("READING.md",)  # made where somebody reads it, and not kept
LANGUAGES = ("sh", "console", "python", "c", "text", "make", "yaml")

LINK = re.compile(r"\[(?:[^\[\]]|\[[^\]]*\])*\]\(([^)\s]+)\)")
CODE = re.compile(r"`([^`\n]+)`")
CRATE_PATH = re.compile(r"[a-z_]+/(?:src|specs|proofs|must-fail)/[A-Za-z_/]+"
                        r"(?:\.(?:rt|antt|edit))?")


def pages() -> List[Path]:
    tops = [ROOT / name for name in ("README.md", "CHANGELOG.md", "CONTRIBUTING.md")]
    docs = ROOT / "docs"
    dev = [page for page in (docs / "dev").glob("*.md") if page.name not in UNKEPT]
    return tops + sorted(docs.glob("*.md")) + sorted(dev)


def for_people() -> List[Path]:
    docs = [ROOT / "docs" / (name + ".md") for name in PEOPLE]
    return [page for page in docs if page.exists()]


def anchors(page: Path) -> Iterator[str]:
    """The names by which a page's headings are linked."""
    seen: Dict[str, int] = {}
    for _, line, is_code in lines_of(page):
        heading = None if is_code else re.match(r"#+ +(.*?) *#*$", line)
        if heading:
            words = re.sub(r"[^\w\- ]", "", heading.group(1).lower()).replace(" ", "-")
            seen[words] = seen.get(words, 0) + 1
            yield words if seen[words] == 1 else f"{words}-{seen[words] - 1}"


def dead_link(page: Path, target: str) -> Optional[str]:
    """Why a link leads nowhere; None if it does not. Links to other hosts are not followed."""
    if re.match(r"[a-z]+:", target):
        return None
    path, _, anchor = target.partition("#")
    there = (page.parent / path).resolve() if path else page
    if not there.exists():
        return f"no file {path}"
    if anchor and there.suffix == ".md" and anchor not in anchors(there):
        return f"no heading {target}"
    return None


def exists(path: str) -> bool:
    """Whether a path of a crate is there; a file of definitions is named without its ending."""
    there = ROOT / "crates" / path
    return there.exists() or there.with_suffix(".antt").exists()


def faults(page: Path) -> Iterator[Tuple[int, str]]:
    """What is wrong with a page by itself, with the line of each."""
    text = page.read_text(encoding="utf-8")
    for match in LINK.finditer(text):
        why = dead_link(page, match.group(1))
        if why:
            yield text.count("\n", 0, match.start()) + 1, why
    is_readme = page.name == "README.md"
    last = 0
    for last, line, is_code in lines_of(page):
        if len(line) > WIDTH and (is_readme or not is_code and not line.startswith("|")):
            yield last, f"{len(line)} characters"
        for code in [] if is_code else CODE.findall(line):
            if CRATE_PATH.fullmatch(code) and "NAME" not in code and not exists(code):
                yield last, f"no file {code}"
    if is_readme and last > README_LINES:
        yield last, f"{last} lines"
    for block in page_blocks.blocks(page):
        if block.language not in LANGUAGES:
            yield block.line, f"a block of {block.language or 'no language'}"


def words_of(page: Path) -> List[Tuple[int, str]]:
    """The words of a page's sentences in small letters, with their lines; of a link its text."""
    words = []
    for number, line, is_code in lines_of(page):
        if not is_code and not line.lstrip().startswith("|"):
            text = re.sub(r"\]\([^)\s]*\)", "]", line).lower()
            words += [(number, word) for word in re.findall(r"\w+", text)]
    return words


def repeats() -> Iterator[str]:
    """Runs of words that stand on two pages, with the line where each begins on the later one."""
    seen: Dict[Tuple[str, ...], Tuple[Path, int]] = {}
    for page in pages():
        words, last = words_of(page) if page.name not in MADE else [], -2
        for at in range(len(words) - RUN + 1):
            run = tuple(word for _, word in words[at:at + RUN])
            there, line = seen.setdefault(run, (page, words[at][0]))
            if there != page:
                if at > last + 1:
                    yield (f"{page.relative_to(ROOT)}:{words[at][0]}: as in"
                           f" {there.relative_to(ROOT)}:{line}: {' '.join(run)}")
                last = at


def by_hand(page: Path) -> List[str]:
    """The words of a page, without what a script has written between two comments."""
    text = page.read_text(encoding="utf-8")
    return re.sub(r"<!-- tools/.*?<!-- end", "", text, flags=re.S).split()


def lengths() -> Iterator[str]:
    counts = {page.name: len(by_hand(page)) for page in for_people()}
    sum_of = sum(count for name, count in counts.items() if name not in UNCOUNTED)
    if sum_of > PEOPLE_WORDS:
        yield "docs: the pages for people have %d words: %s" % (
            sum_of, ", ".join("%s %d" % item for item in counts.items()))


def stale() -> Iterator[str]:
    """What is not made of the tables as they stand."""
    for path, text in manual.files().items():
        if not path.is_file() or path.read_text(encoding="utf-8") != text:
            yield f"{path.relative_to(ROOT)}: stale, tools/pages.py --man writes it"
    text = (ROOT / "CHANGELOG.md").read_text(encoding="utf-8")
    days = dict(re.findall(r"^## (\d\S*), (\d{4}-\d\d-\d\d)$", text, re.M))
    if next(iter(days), None) != manual.program().version:
        yield f"CHANGELOG.md: does not begin with version {manual.program().version} and its day"
    git = ["git", "for-each-ref", "--format=%(refname:short) %(creatordate:short)", "refs/tags/v*"]
    tags = subprocess.run(git, cwd=ROOT, stdout=subprocess.PIPE, encoding="utf-8").stdout
    for tag, day in map(str.split, tags.splitlines()):
        if days.get(tag[1:]) != day:
            yield f"CHANGELOG.md: has no version {tag[1:]} of {day}, as the tag {tag} says"


def check() -> Iterator[str]:
    for page in pages():
        yield from (f"{page.relative_to(ROOT)}:{line}: {why}" for line, why in faults(page))
    yield from repeats()
    yield from lengths()
    yield from stale()


def write_manual() -> None:
    for path, text in manual.files().items():
        path.parent.mkdir(parents=True, exist_ok=True)
        path.write_text(text, encoding="utf-8")


def main() -> None:
    words, found = sys.argv[1:], []
    if words == ["--man"]:
        write_manual()
    elif words == ["--check"]:
        found = list(check())
    elif words[:1] == ["--run"] and len(words) == 2 and Path(words[1]).is_file():
        found = list(page_blocks.run([ROOT / "README.md"] + for_people(), Path(words[1])))
    else:
        raise SystemExit(__doc__)
    if found:
        raise SystemExit("\n".join(found))


if __name__ == "__main__":
    main()
