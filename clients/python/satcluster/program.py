"""Where the proved program is, and what is raised when it gives no answer."""
import os
import shutil
from pathlib import Path
from typing import Optional, Union

Name = Union[str, "os.PathLike[str]"]

VARIABLE = "SATCLUSTER"  # of the environment
ROOT = Path(__file__).resolve().parents[3]  # of the repository, or PREFIX/share/doc/satcluster
BUILT = ROOT / "crates" / "satcluster" / "out" / "satcluster"


class SolverError(RuntimeError):
    """The program has ended, or was ended, without the answer that was waited for.

    line: the last line that it has printed; empty if there is none.
    status: its status; -N if signal N has ended it.
    """

    def __init__(self, what: str, line: str = "", status: Optional[int] = None) -> None:
        super().__init__(what)
        self.line = line
        self.status = status


class ProgramNotFound(SolverError):
    """There is no program at the place that was named, or at none of those that are looked at."""


def installed(name: str) -> Path:
    """Where PREFIX has a program, if this file is below PREFIX/share/doc/satcluster."""
    return ROOT.parents[2] / "bin" / name if len(ROOT.parents) > 2 else ROOT / name


def find(program: Optional[Name] = None) -> str:
    """The path of the program: `program` if it is given, else what the environment's SATCLUSTER
    names, else what was built in this repository or installed with this file, else `satcluster` on
    PATH. Raises ProgramNotFound if that is no program."""
    here = [str(path) for path in (BUILT, installed("satcluster")) if path.exists()]
    word = os.fspath(program) if program is not None else os.environ.get(VARIABLE)
    word = word or (here + ["satcluster"])[0]
    path = shutil.which(word)
    if path is None:
        raise ProgramNotFound("no program %s: build it, name it by program= or by %s of the "
                              "environment, or put it on PATH" % (word, VARIABLE))
    return os.path.abspath(path)
