"""`satcluster-publish`: makes the folder of `bundle.py` of any proof."""
import argparse
import os
import subprocess
import sys
import tempfile
from pathlib import Path
from typing import List

from explanations.looks import head_of, packing
from leaf_jobs import bundle, places
from leaf_jobs.files import Fault
from leaf_jobs.report import BESIDE

USAGE = "satcluster-publish [--program PATH] [--folder DIR] INPUT PROOF TO"
ABOUT = """Makes the folder TO, by which a referee can check that INPUT, a DIMACS formula, is
unsatisfiable: the formula, PROOF in binary form with the lemmas alone that it needs, both packed by
xz; their SHA-256, the verdicts of all checkers that are installed, a README with two commands, and
recheck.sh. The same INPUT and PROOF make the same bytes. INPUT may be packed by gzip, xz, bzip2 or
zstd."""


def parser() -> argparse.ArgumentParser:
    words = argparse.ArgumentParser(prog="satcluster-publish", usage=USAGE, description=ABOUT,
                                    allow_abbrev=False)
    option = words.add_argument
    option("--program", metavar="PATH", help="the proved program")
    option("--folder", metavar="DIR", help="of the run of satcluster-conquer that has made PROOF:"
           " its pictures and figures are published too")
    option("--version", action="store_true", help="print the version")
    option("INPUT", help="a DIMACS formula")
    option("PROOF", help="an LRAT proof, text or binary")
    option("TO", help="the folder, which is made anew if it was published before")
    return words


def unpacked(path: Path, room: Path) -> Path:
    """The formula; a copy of it, if it is packed."""
    tool = packing(head_of(path))
    if tool is None:
        return path
    copy = room / "formula.cnf"
    with path.open("rb") as source, copy.open("wb") as file:
        status = subprocess.run([tool, "-dc"], stdin=source, stdout=file, check=False).returncode
    if status != 0:
        raise Fault("c cannot read input", "%s ends with %d." % (tool, status))
    return copy


def published(words: List[str]) -> None:
    if "--version" in words:
        print(places.version(places.program(None)))
        return
    asked = parser().parse_args(words)
    bundle.test_target(asked.TO)
    for path in (asked.INPUT, asked.PROOF):
        if not os.access(path, os.R_OK):
            raise Fault("c cannot read " + path)
    run = [Path(asked.folder, name) for name in BESIDE] if asked.folder else []
    missing = next((path for path in run if not path.is_file()), None)
    if missing:
        raise Fault("c cannot read %s" % missing, "It is made when a run ends.")
    with tempfile.TemporaryDirectory() as room:
        formula = unpacked(Path(asked.INPUT), Path(room))
        source = bundle.Source(places.program(asked.program), formula, Path(asked.PROOF),
                               os.path.basename(asked.INPUT), run)
        for line in bundle.publish(source, asked.TO):
            print("c " + line)


def main(words: List[str]) -> int:
    try:
        published(words)
        return 0
    except Fault as fault:
        lines = [str(fault)] + ["c " + reason for reason in fault.reasons]
    except OSError as why:
        lines = ["c %s" % why]
    print("\n".join(lines), file=sys.stderr)
    return 1
