"""The words of `satcluster-solver`: those of CaDiCaL, Kissat and MiniSat, and a few of its own."""
import os
import re
import shlex
from dataclasses import dataclass, field
from typing import Callable, Dict, List, Optional

from drop_in_solver.known import MINISAT_PROGRAMS, is_known

MOST = 1000000000
VARIABLE = "SATCLUSTER_WORDS"  # of the environment, for clients that give a file and nothing else


@dataclass
class Asked:
    formula: str = "-"
    proof: Optional[str] = None
    result: Optional[str] = None  # MiniSat's file, in the place of the proof
    program: Optional[str] = None
    keep: Optional[str] = None
    jobs: Optional[int] = None
    depth: Optional[int] = None
    limit: Optional[int] = None
    seconds: Optional[float] = None
    quiet: bool = False
    values: bool = True
    helps: bool = False
    remarks: List[str] = field(default_factory=list)  # what was passed over, and is told
    comments: List[str] = field(default_factory=list)  # what is told of the proof


def number(least: int, most: int) -> Callable[[str], Optional[int]]:
    def read(word: str) -> Optional[int]:
        fits = word.isascii() and word.isdigit() and least <= int(word) <= most
        return int(word) if fits else None

    return read


def seconds(word: str) -> Optional[float]:
    fits = re.fullmatch(r"[0-9]{1,9}(\.[0-9]+)?", word)
    return float(word) if fits and float(word) > 0 else None


VALUED: Dict[str, tuple] = {  # words with a value: what it is, and how it is read
    "--jobs": ("jobs", number(1, MOST)),
    "--depth": ("depth", number(0, 16)),
    "--limit": ("limit", number(1, MOST)),
    "--program": ("program", str),
    "--keep": ("keep", str),
    "-t": ("seconds", seconds),
    "--time": ("seconds", seconds),
    "-cpu-lim": ("seconds", seconds),
}
SWITCHES: Dict[str, tuple] = {
    "-q": ("quiet", True), "--quiet": ("quiet", True), "--no-quiet": ("quiet", False),
    "-n": ("values", False), "--no-witness": ("values", False), "--witness": ("values", True),
    "-h": ("helps", True), "--help": ("helps", True), "--help-verb": ("helps", True),
    "--version": ("helps", True),
}
PROOF_WORDS = {  # what is said of them if a proof is asked for
    "--lrat": None, "--no-binary": None, "--no-drat": None,
    "--binary": "the proof is written as text, not binary",
    "--drat": "the proof is LRAT, not DRAT", "--frat": "the proof is LRAT, not FRAT",
    "--lidrup": "the proof is LRAT, not LIDRUP", "--idrup": "the proof is LRAT, not IDRUP",
    "--veripb": "the proof is LRAT, not VeriPB", "--no-lrat": "the proof is LRAT all the same",
}
NOT_DONE = {  # words that are theirs, have a value, and ask for what is not done here
    "-c": "conflicts are not counted", "-d": "decisions are not counted",
    "-o": "no simplified formula is written", "-e": "no extension stack is written",
    "-w": "the answer is on standard output", "-r": "no solution is read",
}
LIMITS = {
    "--conflicts": "conflicts are not counted", "--decisions": "decisions are not counted",
    "-dimacs": "no simplified formula is written",
}
OFF = ("0", "false", "no")


def read(words: List[str], command: str = "") -> Asked:
    """Reads a command line. A word that is not known is ignored, with a remark. `command` is the
    name by which this program was called."""
    asked, files, formats, rest = Asked(), [], [], list(words)
    while rest:
        word = rest.pop(0)
        name, is_joined, value = word.partition("=")
        if word == "--":
            files += rest
            break
        if word == "-" or not word.startswith("-"):
            files.append(word)
        elif name in VALUED:
            take(asked, name, value if is_joined else rest.pop(0) if rest else "")
        elif name in SWITCHES:
            what, on = SWITCHES[name]
            setattr(asked, what, on != (value in OFF))
        elif name in PROOF_WORDS:
            formats.append("--no-" + name[2:] if value in OFF else name)
        elif word in NOT_DONE:
            asked.remarks.append("%s is passed over: %s" % (word, NOT_DONE[word]))
            rest[:1] = []
        elif name in LIMITS:
            asked.remarks.append("%s is passed over: %s" % (word, LIMITS[name]))
        elif not is_known(word):
            asked.remarks.append("%s is passed over: no such word is known" % word)
    place(asked, files, os.path.basename(command) in MINISAT_PROGRAMS)
    if asked.proof:
        told = [PROOF_WORDS.get(name) for name in formats]
        asked.comments += [comment for comment in told if comment]
    return asked


def words_of_environment() -> List[str]:
    try:
        return shlex.split(os.environ.get(VARIABLE, ""))
    except ValueError:  # a quote that does not end
        return os.environ[VARIABLE].split()


def take(asked: Asked, name: str, value: str) -> None:
    what, reads = VALUED[name]
    found = reads(value)
    if found is None or found == "":
        shown = value or "without a value"
        asked.remarks.append("%s %s is passed over: out of range" % (name, shown))
    else:
        setattr(asked, what, found)


def place(asked: Asked, files: List[str], is_minisat: bool) -> None:
    asked.formula = files[0] if files else "-"
    if len(files) > 1:
        setattr(asked, "result" if is_minisat else "proof", files[1])
    for more in files[2:]:
        asked.remarks.append("%s is passed over: two files are named already" % more)
