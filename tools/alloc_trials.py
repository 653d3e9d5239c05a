#!/usr/bin/env python3
"""Refuses each allocation of a run in turn: the first, the second, and so on, until a run meets no
refusal.

    tools/alloc_trials.py PATH-OF-satcluster [CASE ..]

A CASE is Commands, or Commands.test_join; they run alone, and in any order. Each run answers what
it answers with ample memory, or says that memory is wanting and leaves every file as it was. How
many allocations it has is told, a line for each. The program `self_test` makes calls instead, each
once more after a refusal, and answers then what it answers with ample memory: it is the one that
`rt run` has built in crates/self_test, or which TRIALS of the environment names. Needs gcc: a library
that is loaded before the C library counts what is asked of `malloc` and `realloc`.
"""
import itertools
import os
import shutil
import subprocess
import sys
import tempfile
import time
from collections import Counter
from dataclasses import dataclass
from pathlib import Path
from typing import Callable, ClassVar, Dict, List, Optional, Tuple

sys.dont_write_bytecode = True

from cases import ROOT, FolderCase, run
from ports import LISTENS, free_port, sockets_at

SECONDS = 60  # how long a run may take
TRIALS = ROOT.parent / "crates" / "self_test" / "out" / "self_test"

# A request for less room is counted too. At its end the program says how many requests it made;
# nothing else goes to standard error.
COUNTER = r"""
#include <errno.h>
#include <stddef.h>
#include <stdio.h>
#include <stdlib.h>
#include <unistd.h>

extern void *__libc_malloc(size_t size);
extern void *__libc_realloc(void *old, size_t size);

static unsigned long refused, asked;

__attribute__((constructor)) static void begin(void) {
    const char *number = getenv("REFUSED_ALLOCATION");
    refused = number ? strtoul(number, NULL, 10) : 0;
    asked = 0;
}

__attribute__((destructor)) static void end(void) {
    char text[32];
    int length = snprintf(text, sizeof text, "%lu\n", asked);
    if (write(2, text, length) != length) _exit(99);
}

static int is_refused(void) {
    if (++asked != refused) return 0;
    errno = ENOMEM;
    return 1;
}

void *malloc(size_t size) { return is_refused() ? NULL : __libc_malloc(size); }
void *realloc(void *old, size_t size) { return is_refused() ? NULL : __libc_realloc(old, size); }
"""

FILES = {
    "four.cnf": "p cnf 2 4\n1 2 0\n-1 2 0\n1 -2 0\n-1 -2 0\n",
    "eight.cnf": "p cnf 3 8\n1 2 3 0\n1 2 -3 0\n1 -2 3 0\n1 -2 -3 0\n"
                 "-1 2 3 0\n-1 2 -3 0\n-1 -2 3 0\n-1 -2 -3 0\n",
    "pure.cnf": "p cnf 3 5\n1 2 0\n-1 2 0\n1 -2 0\n-1 -2 0\n3 1 0\n",
    "units.cnf": "p cnf 2 2\n1 0\n-2 0\n",
    "not_ended.cnf": "p cnf 2 2\n1 2 0\n-1",
    "four.lrat": "5 2 0 1 2 0\n6 0 5 3 4 0\n",
    "groups.lrat": "5 3 -1 -2 0 0\n6 -3 1 0 -5 0\n7 -3 2 0 -5 0\n8 2 0 1 2 0\n9 0 8 3 4 0\n",
    "unfinished.lrat": "5 2 0 1 2 0\n",
    "halves.icnf": "p inccnf\n1 2 0\n-1 2 0\n1 -2 0\n-1 -2 0\na 1 0\na -1 0\n",
    "left.lrat": "5 -1 0 2 4 0\n",
    "right.lrat": "5 1 0 1 3 0\n",
    "leaf.lrat": "6 0 5 2 4 0\n",
    "half.lidrup": "i 1 1 2 0\ni 2 -1 2 0\ni 3 1 -2 0\ni 4 -1 -2 0\nq -1 0\nu -1 0 1 3 0\n",
    "answer": "c a comment\ns SATISFIABLE\nv 1 -2 0\n",
    "session.icnf": "p inccnf\n1 2 0\n-1 2 0\na -2 0\na 1 0\n",
    "session.lidrup": "i 1 1 2 0\ni 2 -1 2 0\nq -2 0\nl 3 2 0 1 2 0\ns UNSATISFIABLE\n"
                      "u -2 0 3 0\nd 3 0\nq 1 0\ns SATISFIABLE\nm 1 2 0\n",
    "grows.icnf": "p inccnf\n1 2 0\n-1 2 0\na -2 0\na 1 0\n"
                  "-2 70 0\n-70 -1 0\na 70 -1 0\na 1 0\n-70 0\na 0\n",
    "kept": "what a file held before\n",
}

PROOF = "kept"  # where a proof is written
NO_MEMORY = "c no memory\n"

# The moments at which memory may be wanting.
AT_CALL = "at the call"
BEFORE = "before the call"


@dataclass(frozen=True)
class Answer:
    """What a run has answered, and what each file holds then."""

    status: int
    text: str
    files: Dict[str, str]


Moment = Optional[str]  # at which memory was wanting; None: it was not, by what is allowed
Wants = Callable[[Answer, Answer], Moment]  # of an answer and of the one with ample memory


def program_wants(words: List[str]) -> Wants:
    """Of a run that says that memory is wanting, and has changed no file. With -q it need not say
    it."""
    texts = [NO_MEMORY, ""] if "-q" in words else [NO_MEMORY]

    def wants(found: Answer, _: Answer) -> Moment:
        return AT_CALL if found in [Answer(1, text, FILES) for text in texts] else None

    return wants


def session_wants(found: Answer, ample: Answer) -> Moment:
    """Of a session. It has printed a front of what it prints with ample memory, and its proof has a
    front of what it has then, with each answer that was printed."""
    if found.status != 1 or not found.text.endswith(NO_MEMORY):
        return None
    printed, proof = found.text[:-len(NO_MEMORY)], found.files[PROOF]
    if found.files == FILES:
        return AT_CALL if printed == "" else None
    fronts = ample.text.startswith(printed) and ample.files[PROOF].startswith(proof)
    others = {**found.files, PROOF: FILES[PROOF]} == FILES
    whole = answers_in(printed) <= answers_in(proof)
    return AT_CALL if fronts and others and whole else None


def answers_in(text: str) -> int:
    return sum(line.startswith("s ") for line in text.split("\n"))


def call_wants(found: Answer, ample: Answer) -> Moment:
    """Of a call that answers as with ample memory if it is made again, or of what comes before."""
    if found == Answer(ample.status, "no memory, then\n" + ample.text, ample.files):
        return AT_CALL
    before = Answer(ample.status, "no memory before\n", ample.files), Answer(1, "", ample.files)
    return BEFORE if found in before else None


class Case(FolderCase):
    """A folder that has FILES, and nothing else, when a run begins."""

    counter: ClassVar[Path]  # the library that counts

    @classmethod
    def setUpClass(cls) -> None:
        folder = Path(tempfile.mkdtemp())
        cls.addClassCleanup(shutil.rmtree, str(folder), ignore_errors=True)
        (folder / "counter.c").write_text(COUNTER)
        cls.counter = folder / "counter.so"
        subprocess.run(["gcc", "-O1", "-shared", "-fPIC", "-o", str(cls.counter),
                        str(folder / "counter.c")], check=True)

    def lay(self) -> None:
        for path in self.folder.iterdir():
            path.unlink()
        for name, text in FILES.items():
            self.write(name, text)

    def found(self) -> Dict[str, str]:
        return {path.name: path.read_text() for path in self.folder.iterdir()}

    def start_refused(self, words: List[str], refused: int) -> subprocess.Popen:
        """A run that meets a refusal at its allocation of this number; none at 0."""
        env = {"LD_PRELOAD": str(self.counter), "REFUSED_ALLOCATION": str(refused)}
        return self.start(*words, env=env, stderr=subprocess.PIPE)

    def asked(self, words: object, errors: bytes) -> int:
        """How many allocations a run asked for, which is all that it writes to standard error."""
        self.assertRegex(errors, rb"\A[0-9]+\n\Z", words)
        return int(errors)

    def answer(self, words: List[str], refused: int) -> Tuple[Answer, int]:
        """The answer of a run, and how many allocations it asked for."""
        self.lay()
        process = self.start_refused(words, refused)
        out, errors = process.communicate(timeout=SECONDS)
        answer = Answer(process.returncode, out.decode(), self.found())
        return answer, self.asked(words, errors)

    def each_refused(self, words: List[str], wants: Wants) -> Answer:
        """Refuses each allocation of a run in turn, and gives back the answer with ample memory."""
        ample, _ = self.answer(words, 0)
        moments: Dict[str, int] = Counter()
        for refused in itertools.count(1):
            found, asked = self.answer(words, refused)
            if asked < refused:
                self.assertEqual(ample, found, "%s, no allocation refused" % words)
                break
            if found != ample:
                moment = wants(found, ample)
                if moment is None:
                    self.fail("%s, allocation %d refused: %r" % (words, refused, found))
                moments[moment] += 1
        self.assertGreater(moments[AT_CALL], 0, "%s never wants memory" % words)
        print("%s: of %d allocations %d were wanted, and %d before the call" % (
            " ".join(words), asked, moments[AT_CALL], moments[BEFORE]), flush=True)
        return ample


class Commands(Case):
    def answers(self, status: int, line: Optional[str], command: str) -> None:
        """The status of a command line with ample memory, and the first line that it prints."""
        words = command.split()
        ample = self.each_refused(words, program_wants(words))
        self.assertEqual(status, ample.status, command)
        if line is not None:
            self.assertEqual(line, ample.text.splitlines()[0], command)

    def test_words(self) -> None:
        self.answers(0, None, "--help")
        self.answers(0, None, "--version")

    def test_decide(self) -> None:
        self.answers(10, "s SATISFIABLE", "decide units.cnf")
        self.answers(20, "s UNSATISFIABLE", "decide four.cnf kept")
        self.answers(20, "s UNSATISFIABLE", "decide --binary -q eight.cnf kept")
        self.answers(0, "s UNKNOWN", "decide --limit 1 eight.cnf kept")
        self.answers(1, "c cannot read input", "decide nothing.cnf")
        self.answers(1, "c input line 3 fault 5", "decide not_ended.cnf")

    def test_solver(self) -> None:
        """A solver says so behind what it has told of its words, and answers `s UNKNOWN`. If not
        even its words can be copied it does not know that it is one."""
        def wants(found: Answer, ample: Answer) -> Moment:
            told = [line + "\n" for line in ample.text.splitlines() if " passed over: " in line]
            texts = [text + NO_MEMORY + "s UNKNOWN\n" for text in ("", "".join(told))]
            is_said = found in [Answer(0, text, FILES) for text in texts]
            return AT_CALL if is_said or found == Answer(1, NO_MEMORY, FILES) else None

        for status, command in ((10, "solver units.cnf"), (20, "solver four.cnf kept"),
                                (20, "solver --odd -t 5 eight.cnf kept"),
                                (0, "solver not_ended.cnf")):
            self.assertEqual(status, self.each_refused(command.split(), wants).status, command)

    def test_solve(self) -> None:
        satisfiable, unsatisfiable = "s SATISFIABLE", "s UNSATISFIABLE"
        for line, words in (
                (satisfiable, "solve --workers 1 --depth 0 units.cnf"),
                (satisfiable, "solve --workers 2 --depth 1 -q -n units.cnf"),
                (unsatisfiable, "solve --workers 2 --depth 1 four.cnf kept"),
                (unsatisfiable, "solve --workers 1 --cubes halves.icnf four.cnf kept"),
                (unsatisfiable, "solve --workers 1 --depth 0 pure.cnf kept"),
                (unsatisfiable, "solve --workers 1 --depth 0 --limit 2 eight.cnf kept"),
                (unsatisfiable, "solve --workers 1 --depth 1 --defs 2 four.cnf kept")):
            self.answers(10 if line == satisfiable else 20, line, words)

    def test_solve_of_faults(self) -> None:
        self.answers(1, "c usage", "solve --depth 17 four.cnf")
        self.answers(1, "c cannot read input", "solve nothing.cnf")
        self.answers(1, "c input line 3 fault 5", "solve not_ended.cnf")
        self.answers(1, "c cubes of another formula", "solve --cubes halves.icnf eight.cnf")

    def test_check(self) -> None:
        self.answers(0, "s VERIFIED", "check four.cnf four.lrat")
        self.answers(0, "s VERIFIED", "check four.cnf groups.lrat")
        self.answers(1, "s NOT VERIFIED", "check four.cnf unfinished.lrat")

    def test_check_of_sessions(self) -> None:
        words = "check --session "
        self.answers(0, "s VERIFIED", words + "session.icnf session.lidrup")
        self.answers(1, "s NOT VERIFIED", words + "session.icnf four.lrat")
        self.answers(1, "c input line 1 fault 2", words + "four.cnf session.lidrup")

    def test_cubes(self) -> None:
        self.answers(0, "p inccnf", "cubes --depth 2 four.cnf")
        self.answers(0, "p inccnf", "cubes --look 3 eight.cnf")
        self.answers(0, "p inccnf", "cubes --cubes halves.icnf --split 1 four.cnf")
        self.answers(1, "c cannot split", "cubes --cubes halves.icnf --split 1 --look 2 four.cnf")

    def test_leaves(self) -> None:
        words = " --cubes halves.icnf --leaf 1 four.cnf"
        self.answers(0, "p cnf 2 5", "leaf" + words)
        self.answers(20, "c leaf 1 closed", "refute" + words + " kept")
        self.answers(0, "c leaf 1 lifted", "lift" + words + " leaf.lrat kept")
        self.answers(20, "c leaf 2 closed", "lift --cubes halves.icnf --lidrup --leaf 2 --to 2"
                     " four.cnf half.lidrup kept")

    def test_join(self) -> None:
        logs = "left.lrat right.lrat"
        self.answers(20, "s UNSATISFIABLE", "join --cubes halves.icnf four.cnf kept " + logs)
        self.answers(20, "s UNSATISFIABLE", "join --dry --cubes halves.icnf four.cnf " + logs)
        self.answers(1, "c cubes of another formula",
                     "join --cubes halves.icnf units.cnf kept left.lrat")

    def test_model(self) -> None:
        self.answers(0, "s VERIFIED", "model units.cnf answer")

    def test_trim(self) -> None:
        self.answers(0, "s VERIFIED", "trim four.cnf groups.lrat kept")
        self.answers(1, "s NOT VERIFIED", "trim four.cnf unfinished.lrat kept")

    def test_drill(self) -> None:
        self.answers(0, "c turns 30 refused 0 disagreements 0",
                     "drill --seed 7 --turns 30 four.cnf")

    def test_session(self) -> None:
        """Queries that are answered while their proof grows: what was printed and written before a
        refusal stays."""
        ample = self.each_refused(["session", "grows.icnf", PROOF], session_wants)
        self.assertEqual((20, 5), (ample.status, answers_in(ample.text)))


@dataclass(frozen=True)
class End:
    """What a process has printed, and how many allocations it asked for."""

    status: int
    text: str
    asked: int

    @property
    def answer(self) -> Tuple[int, str]:
        return self.status, self.text


@dataclass(frozen=True)
class Ends:
    """Of a coordinator and its worker, and what each file holds then."""

    serve: End
    work: End
    files: Dict[str, str]


REFUTED = (20, "s UNSATISFIABLE\n")
WAITED = (0, "s UNKNOWN\n")
# What either may answer beside its answer with ample memory: it holds no verdict, it can open no
# link, or memory is wanting.
WITHOUT_VERDICT = (WAITED, (1, "c cannot open links\n"), (1, NO_MEMORY))


class Pair(Case):
    """A coordinator and its one worker. In turn each allocation of the one is refused, and the
    other has ample memory."""

    def setUp(self) -> None:
        super().setUp()
        self.port = free_port()

    def end(self, process: subprocess.Popen, seconds: float, may_wait: bool = False) -> End:
        """One that may wait for ever is ended: it has no verdict, and nobody knows how many
        allocations it would have asked for."""
        try:
            out, errors = process.communicate(timeout=seconds)
        except subprocess.TimeoutExpired:
            process.kill()
            process.communicate()
            self.assertTrue(may_wait, "no end after %d seconds: %r" % (seconds, process.args))
            return End(*WAITED, sys.maxsize)
        return End(process.returncode, out.decode(), self.asked(process.args, errors))

    def ends(self, at_serve: int, at_work: int) -> Ends:
        """How both end if the allocations of these numbers are refused; none at 0."""
        self.lay()
        at_port = ["--port", str(self.port)]
        serve = self.start_refused(["serve", *at_port, "--workers", "1", "--depth", "1",
                                    "four.cnf", PROOF], at_serve)
        while serve.poll() is None and not sockets_at(self.port, LISTENS):
            time.sleep(0.001)
        work = self.end(self.start_refused(["work", *at_port, "four.cnf"], at_work), SECONDS)
        # Without memory the worker may have ended before it was linked, and a coordinator waits
        # for one.
        may_wait = work.answer in WITHOUT_VERDICT
        end = self.end(serve, 0.3 if may_wait else SECONDS, may_wait)
        return Ends(end, work, self.found())

    def test_serve(self) -> None:
        self.each_end(lambda refused: self.ends(refused, 0), lambda ends: ends.serve)

    def test_work(self) -> None:
        self.each_end(lambda refused: self.ends(0, refused), lambda ends: ends.work)

    def each_end(self, ends_at: Callable[[int], Ends], refused_of: Callable[[Ends], End]) -> None:
        """Refuses each allocation of one of both."""
        ample, wanted = ends_at(0), 0
        self.assertEqual((REFUTED, REFUTED), (ample.serve.answer, ample.work.answer))
        self.assertNotEqual(FILES, ample.files)
        for refused in itertools.count(1):
            ends = ends_at(refused)
            if refused_of(ends).asked < refused:
                break
            what = "allocation %d refused: %r" % (refused, ends)
            for end in (ends.serve, ends.work):
                self.assertIn(end.answer, (REFUTED, *WITHOUT_VERDICT), what)
            files = ample.files if ends.serve.answer == REFUTED else FILES
            self.assertEqual(files, ends.files, what)
            wanted += refused_of(ends).answer != REFUTED
        self.assertGreater(wanted, 0, "memory was never wanting")
        print("of %d allocations %d were wanted" % (refused - 1, wanted), flush=True)


class Calls(Case):
    """The program `self_test`, which makes a call that its word names."""

    def setUp(self) -> None:
        super().setUp()
        self.program = os.path.abspath(os.environ.get("TRIALS", str(TRIALS)))
        if not os.access(self.program, os.X_OK):
            self.fail("no program %s: build it by (cd crates/self_test && rt run -- check), or name "
                      "it in TRIALS" % self.program)

    def answers(self, call: str, line: str) -> None:
        """The last line that is printed of a call with ample memory."""
        ample = self.each_refused([call], call_wants)
        self.assertEqual((0, line), (ample.status, ample.text.splitlines()[-1]), call)

    def test_search(self) -> None:
        self.answers("search_four", "6 0 5 2 4 0")
        self.answers("search_eight", "12 0 10 11 5 6 0")
        self.answers("search_under_a_cube", "5 -1 0 2 4 0")

    def test_check(self) -> None:
        self.answers("check", "accepted")
        self.answers("fragment", "accepted")

    def test_trim(self) -> None:
        self.answers("trim", "6 0 5 3 4 0")

    def test_join(self) -> None:
        self.answers("join_of_lines", "7 0 5 6 0")
        self.answers("join_with_deletions", "9 0 5 8 0")

    def test_evidence(self) -> None:
        for call in ("last_part", "last_piece"):
            self.answers(call, "the proof is held")

    def test_definitions(self) -> None:
        for call in ("extended_proof", "extended_assignment", "extended_join"):
            self.answers(call, "the verdict is kept")

    def test_run(self) -> None:
        self.answers("run_of_units", "v 1 -2 0")
        self.answers("run_of_four", "7 0 5 6 0")


if __name__ == "__main__":
    run(__doc__)
