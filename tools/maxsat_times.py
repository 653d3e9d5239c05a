#!/usr/bin/env python3
"""Times `satcluster-maxsat` over MaxSAT formulas, and prints a row of a table for each.

    tools/maxsat_times.py [--limit S] [--clock S] [--certificates] PROGRAM[,PROGRAM..] FORMULA..

A PROGRAM is satcluster, or one that answers sessions as it does, such as that of
tools/clients/cadical_pipe.cc; or clasp, which is called by its own words. Seconds are those of the
processor; a run that takes more than --limit (60), or more than --clock by the clock (180), has not
solved its formula. The last row has the formulas that are solved, and PAR2. With --certificates a
row ends with the megabytes of the certificate by the first PROGRAM, the seconds of a run that
writes it, and those of its check.
"""
import argparse
import os
import re
import sys
import tempfile
from dataclasses import dataclass
from pathlib import Path
from typing import List, Optional

sys.dont_write_bytecode = True

from timing import ended

PACKAGE = Path(__file__).resolve().parent.parent / "clients" / "python"


@dataclass(frozen=True)
class Run:
    seconds: float
    cost: Optional[str]  # None: it has not solved the formula


def python(module: str, *words: object) -> List[object]:
    script = "import sys; sys.path.insert(0, %r); from satcluster.%s import main; sys.exit(main())"
    return [sys.executable, "-c", script % (str(PACKAGE), module), *words]


@dataclass(frozen=True)
class Bench:
    limit: float
    clock: float
    folder: Path

    def old_form(self, formula: Path) -> Path:
        """For programs that know no other one."""
        clauses = [line.split() for line in formula.read_text("ascii").splitlines()]
        top = 1 + sum(int(clause[0]) for clause in clauses if clause[0] != "h")
        variables = max(abs(int(word)) for clause in clauses for word in clause[1:])
        path = self.folder / "old.wcnf"
        path.write_text("p wcnf %d %d %d\n" % (variables, len(clauses), top) + "".join(
            " ".join([str(top) if clause[0] == "h" else clause[0], *clause[1:]]) + "\n"
            for clause in clauses))
        return path

    def run(self, program: str, formula: Path, *more: object) -> Run:
        output = self.folder / "output"
        if Path(program).name == "clasp":
            words: List[object] = [program, "--opt-strategy=usc,oll", "--quiet=1,1",
                                   "--time-limit=%d" % self.clock, self.old_form(formula)]
        else:
            words = python("maxsat", "--program", program, "--timeout", self.clock, *more, formula)
        done = ended(words, self.clock + 30, output)
        told = output.read_text("ascii", "replace")
        costs = re.findall("^o (\\d+)", told, re.M)
        is_solved = "\ns OPTIMUM FOUND" in told and done.used <= self.limit
        return Run(done.used, costs[-1] if is_solved else None)

    def certificate(self, program: str, formula: Path) -> List[str]:
        folder = self.folder / "certificate"
        run = self.run(program, formula, "--certificate", folder)
        if run.cost is None:
            return ["-", "-", "-"]
        size = sum(path.stat().st_size for path in folder.iterdir()) / 1e6
        os.environ["SATCLUSTER"] = program
        output = self.folder / "checked"
        done = ended(python("maxsat_check", formula, folder), None, output)
        told = output.read_text("ascii")
        if told != "s VERIFIED\nc the least cost is %s\n" % run.cost:
            sys.exit("%s: the certificate is refused: %s" % (formula, told))
        return ["%.1f" % size, "%.1f" % run.seconds, "%.1f" % done.used]


def main() -> None:
    parser = argparse.ArgumentParser(usage=__doc__)
    parser.add_argument("--limit", type=float, default=60)
    parser.add_argument("--clock", type=float, default=180)
    parser.add_argument("--certificates", action="store_true")
    parser.add_argument("programs")
    parser.add_argument("formulas", nargs="+", type=Path)
    asked = parser.parse_args()
    programs = asked.programs.split(",")
    solved, sums = [0] * len(programs), [0.0] * len(programs)
    with tempfile.TemporaryDirectory() as folder:
        bench = Bench(asked.limit, asked.clock, Path(folder))
        for formula in asked.formulas:
            runs = [bench.run(program, formula) for program in programs]
            costs = {run.cost for run in runs if run.cost is not None}
            if len(costs) > 1:
                sys.exit("%s: different costs: %s" % (formula, runs))
            for at, run in enumerate(runs):
                solved[at] += run.cost is not None
                sums[at] += run.seconds if run.cost is not None else 2 * asked.limit
            cells = ["-" if run.cost is None else "%.1f" % run.seconds for run in runs]
            if asked.certificates:
                cells += bench.certificate(programs[0], formula) if runs[0].cost else ["-"] * 3
            print("| %s | %s | %s |" % (formula.stem, " | ".join(costs) or "?", " | ".join(cells)),
                  flush=True)
    print("| %d | | %s |" % (len(asked.formulas), " | ".join(
        "%d, %.0f" % (count, sum_of) for count, sum_of in zip(solved, sums))))


if __name__ == "__main__":
    main()
