"""What the tests of scripts have in common: formulas, a folder of their own, and how they are
started."""
import itertools
import os
import shutil
import subprocess
import sys
import tempfile
import unittest
from pathlib import Path
from typing import IO, Any, List, Optional

ROOT = Path(__file__).resolve().parent
EXAMPLES = ROOT.parent / "examples"


def dimacs(variables: int, clauses: List[List[int]]) -> str:
    lines = ["p cnf %d %d" % (variables, len(clauses))]
    return "\n".join(lines + [" ".join(map(str, clause + [0])) for clause in clauses]) + "\n"


def pigeons(holes: int) -> str:
    """One pigeon more than there are holes: each has a hole, and no hole has two."""
    clauses = [[p * holes + h + 1 for h in range(holes)] for p in range(holes + 1)]
    for hole in range(holes):
        for first, second in itertools.combinations(range(holes + 1), 2):
            clauses.append([-(first * holes + hole + 1), -(second * holes + hole + 1)])
    return dimacs((holes + 1) * holes, clauses)


def satisfies(formula: str, lines: List[str]) -> bool:
    """Whether the `v` lines satisfy the formula, as the tests read both."""
    true = {word for line in lines if line.startswith("v ") for word in line.split()[1:]}
    rows = [line for line in formula.split("\n") if line[:1] not in ("c", "p")]
    clauses = [set(clause.split()) for clause in " ".join(rows).split(" 0")]
    return all(true & clause for clause in clauses if clause)


class FolderCase(unittest.TestCase):
    """A folder of its own, in which the program is started."""

    def setUp(self) -> None:
        self.program = os.environ["SATCLUSTER"]
        self.folder = Path(os.path.realpath(tempfile.mkdtemp()))
        self.addCleanup(shutil.rmtree, str(self.folder), ignore_errors=True)

    def at(self, name: str) -> Path:
        return self.folder / name

    def write(self, name: str, text: str) -> str:
        self.at(name).write_text(text)
        return name

    def start(self, *words: object, **more: Any) -> subprocess.Popen:
        """What is left of the process when the case ends is ended then."""
        process = subprocess.Popen([self.program, *map(str, words)], cwd=str(self.folder),
                                   stdout=subprocess.PIPE, **more)
        self.addCleanup(stop, process)
        return process


def opened(pipe: Optional[IO[Any]]) -> IO[Any]:
    """A pipe of a process that was started with it."""
    assert pipe is not None
    return pipe


def stop(process: subprocess.Popen) -> None:
    """Ends a process, if it has not ended, and closes its pipes."""
    with process:
        process.kill()


def run(usage: str) -> None:
    """Runs the cases of the file that was started, all or those that the command line names.

    The program goes into the environment, where `python3 -m unittest` has it too.
    """
    program = shutil.which(sys.argv[1]) if len(sys.argv) > 1 else None
    if program is None:
        sys.exit(usage)
    os.environ["SATCLUSTER"] = os.path.abspath(program)
    unittest.main(argv=sys.argv[:1] + sys.argv[2:], verbosity=2)
