"""Runs of the program, and of `conquer.py`, that take a formula as a whole."""
import os
import shutil
import subprocess
import sys
import tempfile
from dataclasses import dataclass
from pathlib import Path
from typing import Iterable, List, NamedTuple, NoReturn, Optional, Sequence

from . import dimacs
from .program import ROOT, Name, ProgramNotFound, SolverError, find, installed

STATUSES = {10: ("s SATISFIABLE", True), 20: ("s UNSATISFIABLE", False), 0: ("s UNKNOWN", None)}


class Answer(NamedTuple):
    """status: True, False, or None if the run ended without a verdict; model: if status is True,
    variable v or its negation at place v - 1, else None."""

    status: Optional[bool]
    model: Optional[List[int]]


@dataclass(frozen=True)
class Check:
    """What a check has printed; true if that was `s VERIFIED`. lines: its `c` lines, which tell
    the first fault of a proof that is not verified, and count the answers of a session."""

    is_verified: bool
    lines: List[str]

    def __bool__(self) -> bool:
        return self.is_verified

    def __str__(self) -> str:
        return ", ".join(["s VERIFIED" if self.is_verified else "s NOT VERIFIED", *self.lines])


class _End(NamedTuple):
    """How a run has ended: its status, and its lines on standard output and standard error."""

    status: int
    lines: List[str]
    errors: List[str]

    def beginning(self, front: str) -> List[str]:
        return [line for line in self.lines if line.startswith(front)]


def _run(words: Sequence[str], given: bytes = b"") -> _End:
    done = subprocess.run(words, input=given, stdout=subprocess.PIPE, stderr=subprocess.PIPE)
    lines = (text.decode("utf-8", "replace").splitlines() for text in (done.stdout, done.stderr))
    return _End(done.returncode, *lines)


def _failed(end: _End) -> NoReturn:
    line = end.lines[-1] if end.lines else ""
    told = ["no answer, but status %d; the last line is: %s" % (end.status, line), *end.errors]
    raise SolverError("\n".join(told), line, end.status)


def _answer(end: _End) -> Answer:
    """What was printed, if line and status agree, and the model has an end."""
    if end.status not in STATUSES or end.beginning("s ") != [STATUSES[end.status][0]]:
        _failed(end)
    found = STATUSES[end.status][1]
    words = [word for line in end.beginning("v ") for word in line.split()[1:]]
    if found and words[-1:] != ["0"]:
        _failed(end)
    return Answer(found, [int(word) for word in words[:-1]] if found else None)


def _check(end: _End) -> Check:
    said = end.beginning("s ")
    if said not in (["s VERIFIED"], ["s NOT VERIFIED"]):
        _failed(end)
    return Check(end.status == 0 and said == ["s VERIFIED"], end.beginning("c "))


def solve(clauses: Iterable[Iterable[int]], *, proof: Optional[Name] = None,
          program: Optional[Name] = None) -> Answer:
    """Decides the clauses by `satcluster decide`, in one process. proof: the path of the
    LRAT proof, which is written if nothing satisfies them. Raises SolverError if the program gives
    no answer."""
    path = find(program)
    with tempfile.TemporaryDirectory(prefix="satcluster-") as folder:
        formula = os.path.join(folder, "formula.cnf")
        with open(formula, "w", encoding="ascii") as file:
            dimacs.dump(clauses, file)
        end = [os.path.abspath(proof)] if proof is not None else []
        return _answer(_run([path, "decide", "--large", formula, *end]))


def check(cnf: Name, proof: Name, *, program: Optional[Name] = None) -> Check:
    """Checks an LRAT proof of the formula in the file `cnf` by `satcluster check`. Raises
    SolverError if a file cannot be read, or the formula has a fault."""
    words = [find(program), "check", "--large", os.path.abspath(cnf), os.path.abspath(proof)]
    return _check(_run(words))


def check_session(events: Name, proof: Name, *, program: Optional[Name] = None,
                  end: Optional[int] = None) -> Check:
    """Checks all answers of a session by `satcluster check --session`. end: of how many bytes of
    `events`; of all if it is left out. Raises SolverError if a file cannot be read, or the events
    have a fault."""
    words = [find(program), "check", "--session", "--large"]
    if end is None:
        return _check(_run([*words, os.path.abspath(events), os.path.abspath(proof)]))
    with open(events, "rb") as file:
        begun = file.read(end)
    return _check(_run([*words, "-", os.path.abspath(proof)], begun))


def conquer(cnf: Name, jobs: Optional[int] = None, *, proof: Optional[Name] = None,
            folder: Optional[Name] = None, words: Sequence[str] = (),
            program: Optional[Name] = None) -> Answer:
    """Decides the formula in the file `cnf` on many cores by `tools/conquer.py`.

    jobs: how many at a time; as many as there are cores if it is left out.
    proof: the path of the LRAT proof, which is written if nothing satisfies the formula.
    folder: where the state of the run stays, so that the same call goes on with it if this one was
        killed; a temporary one if it is left out.
    words: further words of `conquer.py`, such as ["--depth", "8"].
    """
    path, script = find(program), _conquer()
    with tempfile.TemporaryDirectory(prefix="satcluster-") as spare:
        command = [sys.executable, script, "--program", path, "--folder",
                   os.path.join(spare, "run") if folder is None else os.path.abspath(folder)]
        command += ["--jobs", str(jobs)] if jobs is not None else []
        command += [*words, os.path.abspath(cnf)]
        return _answer(_run(command + ([os.path.abspath(proof)] if proof is not None else [])))


def _conquer() -> str:
    places = [ROOT / "tools" / "conquer.py", installed("satcluster-conquer"),
              Path(shutil.which("satcluster-conquer") or "satcluster-conquer")]
    for place in places:
        if place.exists():
            return str(place.resolve())
    raise ProgramNotFound("no tools/conquer.py beside this package, and no satcluster-conquer on "
                          "PATH: install satcluster")
