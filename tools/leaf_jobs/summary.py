"""The last lines for a person at a terminal: what came of the run, and how its proof is checked."""
import os
import shlex
import sys
import time
from typing import Iterator, Optional

from leaf_jobs.figures import size, spent
from leaf_jobs.leaf import Records
from leaf_jobs.places import INSTALLED
from leaf_jobs.report import ANSWERS
from leaf_jobs.run import Run
from leaf_jobs.screen import clock, plain


def lines(run: Run, status: int, formula: str, proof: Optional[str], jobs: int) -> Iterator[str]:
    records = Records(run.folder).all()
    lemmas = sum(record.lemmas for record in records)
    verdict = ANSWERS[status].replace("s ", "", 1)
    most = ", %d job%s at a time" % (jobs, "s" * (jobs != 1)) if jobs else ""
    most = ", by %d workers" % run.plan.workers if run.plan.workers else most
    yield "%s after %s%s" % (verdict, clock(time.monotonic() - run.began), most)
    found = ", {:,} conflicts".format(lemmas) if run.plan.solver is None and lemmas else ""
    who = "%d jobs" % len(records) if run.plan.workers == 0 else "they"
    yield "%s took %s together%s" % (who, clock(sum(map(spent, records))), found)
    if status == 20 and proof:
        words = [word_of(run.plan.program), "check", *run.plan.limits(), formula, proof]
        yield "proof: %s, %s; to check it:" % (proof, size(os.path.getsize(proof)))
        yield " ".join(map(shlex.quote, words))


def word_of(program: str) -> str:
    """The shortest name of the program that can be typed."""
    return "satcluster" if program == str(INSTALLED) else os.path.relpath(program)


def tell(said: Iterator[str]) -> None:
    if sys.stderr.isatty():
        for line in said:
            print("c " + plain(line), file=sys.stderr, flush=True)
