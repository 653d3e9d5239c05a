#!/usr/bin/env python3
"""Makes the archive that runs without the kit, of a program that is built.

    tools/dist.py [--tree] [--ungated] PROGRAM

Makes out/satcluster-VERSION-linux-x86_64, a folder with `install.sh` and what it copies, and packs
it as .tar.xz beside it, of which the same commit and program make the same bytes. With --tree it
makes the folder alone, and prints its path.

`.ci/run` notes in out/gate, and beside the program in PROVED, which commit the gate has passed, with
which kit, its last line, and the SHA-256 of the program; `make` notes in PROVED what it has built.
Without a note of a gate, of this program and commit, no archive is made, but by --ungated: then
PROVED says what is known.
"""
import argparse
import hashlib
import lzma
import os
import re
import shutil
import subprocess
import sys
import tarfile
from pathlib import Path
from typing import Dict, List

sys.dont_write_bytecode = True

import manual

ROOT = Path(__file__).resolve().parent.parent
OUT = ROOT / "out"
DOC = "share/doc/satcluster"
TOOLS = ("conquer.py", "satcluster-solver", "satcluster-publish", "clients.sh", "leaf_jobs/*.py",
         "drop_in_solver/*.py", "explanations/*.py", "clients/*.cc")
PAGES = ("README.md", "CHANGELOG.md", "LICENSE", "docs/*.md", "docs/dev/*.md", "docs/pictures/*",
         "examples/*", "clients/python/*", "clients/python/satcluster/*",
         "clients/python/satcluster/pysat/*", "clients/ipasir/*")
LINKS = {"bin/satcluster-solver": "../lib/satcluster/satcluster-solver",
         "bin/satcluster-conquer": "../lib/satcluster/conquer.py",
         "bin/satcluster-publish": "../lib/satcluster/satcluster-publish"}
LINKS.update({"bin/satcluster-" + name: "../%s/clients/python/satcluster-%s" % (DOC, name)
              for name in ("maxsat", "maxsat-check", "mus", "backbone")})


def git(*words: str) -> str:
    """What git prints; nothing if this is no clone."""
    return subprocess.run(["git", *words], cwd=ROOT, stdout=subprocess.PIPE,
                          encoding="utf-8").stdout.strip()


def digest(path: Path) -> str:
    return hashlib.sha256(path.read_bytes()).hexdigest()


def licences() -> Dict[str, Path]:
    """Those of the kit's crates that are in the program, if the kit is on the path."""
    names = re.findall(r"\w+", (ROOT / "crates.txt").read_text(encoding="utf-8"))
    kit = Path(shutil.which("rt") or os.devnull).resolve().parent.parent / "rattle"
    return {"%s/licences/%s/%s" % (DOC, path.parent.name, path.name): path
            for path in kit.glob("*/LICENSE*") if path.parent.name in names + ["strsim"]}


def layout(program: Path) -> Dict[str, Path]:
    """Which file stands at which place below PREFIX."""
    places = licences()
    places.update({"bin/satcluster": program, "install.sh": ROOT / "tools" / "install.sh"})
    for base, names, to in ((ROOT / "tools", TOOLS, "lib/satcluster"), (ROOT, PAGES, DOC),
                            (ROOT / "share", ("*/**/*",), "share")):
        for path in (path for name in names for path in base.glob(name) if path.is_file()):
            places["%s/%s" % (to, path.relative_to(base))] = path
    places.pop(DOC + "/docs/dev/READING.md", None)  # made by `make docs`, and not kept
    return places


def is_noted(note: List[str], program: Path) -> bool:
    """Whether a note is of this program, by a kit of its own, and of the commit as it stands here."""
    commit = git("rev-parse", "HEAD")
    return (len(note) == 4 and note[0] == commit != ""
            and note[1].split()[-1] in manual.program().kits and note[3] == digest(program)
            and not git("status", "--porcelain"))


def is_gated(note: List[str], program: Path) -> bool:
    return is_noted(note, program) and note[2].endswith(", 0 failed")


def statement(program: Path, note: List[str]) -> str:
    """What the program was proved by. `--version` reads the first line, the last one, and the one
    before that."""
    libc = max(map(int, re.findall(rb"GLIBC_2\.(\d+)", program.read_bytes())), default=0)
    found = manual.program()
    kit, end = "no kit", "not known to be proved: neither a gate nor a build of this commit is noted"
    if is_noted(note, program):
        kit, end = note[1:3]
    lines = [git("rev-parse", "HEAD") or "unknown",
             "is the commit of this satcluster %s (%s)." % (found.version, found.kits),
             "It wants Linux, a processor of x86-64-v2 and the GNU C library, 2.%d or later;" % libc,
             "the tools want Python 3.8 or later.",
             "Below: the kit that proved it, how the proof ended, and the SHA-256 of the program.",
             kit, end, digest(program)]
    return "\n".join(lines) + "\n"


def make_tree(tree: Path, program: Path, note: List[str]) -> None:
    os.umask(0o022)
    shutil.rmtree(tree, ignore_errors=True)
    places = layout(program)
    for place, path in places.items():
        to = tree / place
        to.parent.mkdir(parents=True, exist_ok=True)
        shutil.copyfile(path, to)
        to.chmod(0o755 if os.access(path, os.X_OK) else 0o644)
    for place, target in LINKS.items():
        (tree / place).symlink_to(target)
    (tree / DOC / "PROVED").write_text(statement(program, note), encoding="utf-8")
    names = sorted([place for place in places if "/" in place] + list(LINKS) + [DOC + "/PROVED"])
    sums = ["%s  %s\n" % (digest(tree / name), name) for name in names]
    (tree / DOC / "SHA256SUMS").write_text("".join(sums), encoding="utf-8")


def pack(tree: Path, archive: Path) -> None:
    moment = int(os.environ.get("SOURCE_DATE_EPOCH") or git("log", "-1", "--format=%ct") or 0)

    def plain(entry: tarfile.TarInfo) -> tarfile.TarInfo:
        entry.uid = entry.gid = 0
        entry.uname = entry.gname = "root"
        entry.mtime = moment
        return entry

    with lzma.open(archive, "wb", preset=9) as packed, tarfile.open(
            fileobj=packed, mode="w", format=tarfile.USTAR_FORMAT) as file:
        for path in [tree] + sorted(tree.rglob("*")):
            file.add(path, path.relative_to(tree.parent), recursive=False, filter=plain)


def read_note(path: Path) -> List[str]:
    return path.read_text(encoding="utf-8").splitlines() if path.exists() else []


def main() -> None:
    parser = argparse.ArgumentParser(usage=__doc__.split("\n\n")[1].strip())
    parser.add_argument("--tree", action="store_true")
    parser.add_argument("--ungated", action="store_true")
    parser.add_argument("program", type=Path)
    asked = parser.parse_args()
    if not asked.program.is_file():
        raise SystemExit("%s is not built: make" % asked.program)
    note = read_note(OUT / "gate")
    if not is_gated(note, asked.program):
        note = read_note(asked.program.with_name("PROVED"))
    if not (asked.ungated or is_gated(note, asked.program)):
        raise SystemExit("no gate was noted of this program and commit: make check")
    tree = OUT / ("satcluster-%s-linux-x86_64" % manual.program().version)
    make_tree(tree, asked.program, note)
    if asked.tree:
        print(tree)
    else:
        archive = tree.with_name(tree.name + ".tar.xz")
        pack(tree, archive)
        print("%s  %s" % (digest(archive), archive.relative_to(ROOT)))


if __name__ == "__main__":
    main()
