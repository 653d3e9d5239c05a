#!/usr/bin/env python3
"""Runs `conquer.py` as a process, kills it and its jobs, and spoils its files.

    tools/conquer_test.py PATH-OF-satcluster [CASE ..]

A CASE is Kills, or Kills.test_local; they run alone, and in any order. KILLS of the environment is
how often the script is killed at random moments, at least, and how often a job of it; 6 if it is
not set, and 10 for a cell. With other engines it is a third of that. SEED draws the moments.
"""
import collections
import csv
import hashlib
import os
import random
import re
import shutil
import signal
import subprocess
import sys
import tempfile
import time
import unittest
from pathlib import Path
from typing import Callable, Dict, List, NamedTuple, Sequence, Tuple
from unittest import mock
from xml.etree import ElementTree

sys.dont_write_bytecode = True

import small_slurm
from cases import EXAMPLES, pigeons, run, satisfies
from leaf_jobs import cell, closings, figures, files, processes, progress, report, screen, usage
from leaf_jobs.cuts import to_cut
from leaf_jobs.engines import late_leaves, size_of_block
from leaf_jobs.figures import State, state_of
from leaf_jobs.files import Fault, answer_of, closed_by, log_of, name_of, read_cubes
from leaf_jobs.leaf import (CLOSED, ENDED, FAILED, LIMIT, Job, Leaf, Plan, Record, Records, Turn,
                            cut_log)
from leaf_jobs.race import WHOLE
from leaf_jobs.run import Run
from leaf_jobs.unpacker import Unpacker
from simulate import Measured, Play, uncut

SCRIPT = Path(__file__).resolve().parent / "conquer.py"
SECONDS = 120  # how long a run may take
FORMULAS = ("four_clauses", "schur_3_14", "urquhart_24", "random_100_sat", "schur_3_13")
FOUR = "four_clauses.cnf"
PIGEONS = "pigeons.cnf"
PACKINGS: List[List[str]] = [[], ["--compress"]] if shutil.which("zstd") else [[]]


class End(NamedTuple):
    status: int
    lines: List[str]


class Case(unittest.TestCase):
    """A folder of its own with formulas, in which the script is run."""

    def setUp(self) -> None:
        self.program = os.environ["SATCLUSTER"]
        self.folder = Path(os.path.realpath(tempfile.mkdtemp()))
        self.addCleanup(shutil.rmtree, str(self.folder), ignore_errors=True)
        for name in FORMULAS:
            shutil.copy(str(EXAMPLES / (name + ".cnf")), str(self.folder))
        self.write(PIGEONS, pigeons(6))

    def at(self, *names: str) -> Path:
        return self.folder.joinpath(*names)

    def write(self, name: str, text: str) -> str:
        self.at(name).write_text(text)
        return name

    def script(self, name: str, text: str) -> str:
        """A command line of a solver, which is this script of a shell."""
        self.write(name, "#!/bin/sh\n" + text + "\n")
        self.at(name).chmod(0o755)
        return "%s {cnf} {lrat}" % self.at(name)

    def start(self, *words: str) -> subprocess.Popen:
        script = [sys.executable, str(SCRIPT), "--program", self.program]
        return subprocess.Popen([*script, *words], cwd=str(self.folder), stdout=subprocess.PIPE,
                                stderr=subprocess.PIPE)

    def conquer(self, *words: str) -> End:
        """Status and lines of a run. To standard error it writes why there is no answer, if so."""
        return self.end(self.start(*words), words)

    def end(self, process: subprocess.Popen, what: object) -> End:
        try:
            out, err = process.communicate(timeout=SECONDS)
        except subprocess.TimeoutExpired:
            process.kill()
            self.fail("%s: no end after %d seconds" % (what, SECONDS))
        self.told = err.decode().split("\n")[:-1]
        if process.returncode != 1 or not all(line.startswith("c ") for line in self.told):
            self.assertEqual([], self.told, what)
        return End(process.returncode, out.decode().split("\n")[:-1])

    def ends(self, status: int, lines: List[str], *words: str) -> None:
        self.assertEqual((status, lines), self.conquer(*words), words)

    def tells(self, *parts: str) -> None:
        """What the last run has written to standard error has these parts."""
        for part in parts:
            self.assertIn(part, "\n".join(self.told))

    def verifies(self, formula: str, proof: str) -> None:
        words = [self.program, "check", formula, proof]
        done = subprocess.run(words, cwd=str(self.folder), stdout=subprocess.PIPE)
        self.assertEqual((0, b"s VERIFIED\n"), (done.returncode, done.stdout))

    def logs(self, formula: str) -> List[Path]:
        return sorted(self.at(formula + ".conquer", "logs").iterdir())

    def leaves(self, formula: str) -> List[str]:
        """The leaves of the first tree, each as its line."""
        tree = self.at(formula + ".conquer", "trees", "1.icnf").read_text()
        return [line for line in tree.split("\n") if line.startswith("a ")]

    def moments(self, formula: str) -> Dict[Path, int]:
        """When each log was written."""
        return {path: path.stat().st_mtime_ns for path in self.logs(formula)}

    def report(self, formula: str) -> str:
        path = self.at(formula + ".conquer", "report.html")
        return path.read_text() if path.exists() else ""

    def forget(self, formula: str) -> None:
        shutil.rmtree(str(self.at(formula + ".conquer")), ignore_errors=True)

    def running(self, formula: str) -> List[int]:
        """The processes that have the folder of this formula's run among their words."""
        found, mark = [], ("%s/" % self.at(formula + ".conquer")).encode()
        for name in filter(str.isdigit, os.listdir("/proc")):
            try:
                if mark in Path("/proc", name, "cmdline").read_bytes():
                    found.append(int(name))
            except OSError:  # it has ended meanwhile
                pass
        return found

    def wait_for(self, what: object, holds: Callable[[], object], seconds: float = SECONDS) -> None:
        end = time.monotonic() + seconds
        while not holds():
            self.assertLess(time.monotonic(), end, what)
            time.sleep(0.002)


class Answers(Case):
    def test_unsatisfiable(self) -> None:
        """A second start takes what is there."""
        for name in ("four_clauses", "schur_3_14", "urquhart_24"):
            formula = name + ".cnf"
            words = ["-q", "--no-share", "--depth", "4"]
            self.ends(20, ["s UNSATISFIABLE"], *words, formula, "f.lrat")
            self.verifies(formula, "f.lrat")
            before = self.moments(formula)
            self.at("f.lrat").unlink()
            self.ends(20, ["s UNSATISFIABLE"], "-q", formula, "f.lrat")
            self.verifies(formula, "f.lrat")
            self.assertEqual(before, self.moments(formula), "a leaf was run again")

    def test_satisfiable(self) -> None:
        """The proof that stood is left."""
        self.write("f.lrat", "what stood\n")
        for name in ("random_100_sat.cnf", "schur_3_13.cnf"):
            words = ["-q", "--no-share"]
            status, lines = self.conquer(*words, "--depth", "3", name, "f.lrat")
            self.assertEqual((10, "s SATISFIABLE"), (status, lines[0]))
            self.assertTrue(satisfies(self.at(name).read_text(), lines))
            self.ends(10, ["s SATISFIABLE"], *words, "-n", name)
        self.assertEqual("what stood\n", self.at("f.lrat").read_text())

    def test_verdict_alone(self) -> None:
        """Without PROOF none is written, be it in the folder; with it the logs that stand are
        joined."""
        words = ["-q", "--no-race", "--depth", "3", "schur_3_14.cnf"]
        self.ends(20, ["s UNSATISFIABLE"], *words)
        self.assertEqual([], list(self.folder.rglob("*proof*")))
        before = self.moments("schur_3_14.cnf")
        self.ends(20, ["s UNSATISFIABLE"], *words, "f.lrat")
        self.verifies("schur_3_14.cnf", "f.lrat")
        self.assertEqual(before, self.moments("schur_3_14.cnf"), "a leaf was run again")

    def test_dry_join(self) -> None:
        """It prints what a join prints, and writes nothing: not the first name either, which is the
        place of a proof without the word."""
        self.conquer("-q", "--no-race", "--depth", "1", FOUR, "g.lrat")
        run, tree = self.at(FOUR + ".conquer"), "trees/1.icnf"
        names = [str(path.relative_to(run)) for path in self.logs(FOUR)]
        dry = [self.program, "join", "--dry", "--cubes", tree, str(self.at(FOUR))]
        wet = [self.program, "join", "--cubes", tree, str(self.at(FOUR)), "f.lrat"]
        files = {path: path.read_bytes() for path in run.rglob("*") if path.is_file()}
        for given in (names, names[:1], names[::-1], [*names, "none"], ["-"]):
            text = "\n".join(names).encode()
            ended = [subprocess.run([*words, *given], cwd=str(run), input=text, check=False,
                                    stdout=subprocess.PIPE) for words in (dry, wet)]
            first, second = [(done.returncode, done.stdout) for done in ended]
            self.assertEqual(first, second, given)
            run.joinpath("f.lrat").unlink(missing_ok=True)
            self.assertEqual(files, {path: path.read_bytes() for path in files}, given)
        left = {path for path in run.rglob("*") if path.is_file()}
        self.assertEqual(set(files), left)

    def test_packed_formula(self) -> None:
        """It is unpacked to the folder; one that is cut is refused."""
        formula = "schur_3_14.cnf"
        for tool, name in (("gzip", "f.cnf.gz"), ("xz", "f.cnf.xz"), ("zstd", "f.cnf.zst")):
            if not shutil.which(tool):
                continue
            with self.at(name).open("wb") as packed:
                subprocess.run([tool, "-c", str(self.at(formula))], stdout=packed, check=True)
            for way in ([], ["--no-share"]):
                self.forget(name)
                words = ["-q", "--depth", "3", *way]
                self.ends(20, ["s UNSATISFIABLE"], *words, name, "f.lrat")
                self.verifies(formula, "f.lrat")
            self.at("cut").write_bytes(self.at(name).read_bytes()[:-20])
            self.ends(1, ["c cannot read input"], "cut")
            self.tells("%s ends with" % tool)

    @unittest.skipUnless(shutil.which("zstd"), "zstd is not installed")
    def test_packed_logs(self) -> None:
        """They are kept packed and are joined so, beside others. One that is spoiled is made again,
        whether `zstd` refuses it, `join`, or it is cut so that a part is unpacked."""
        formula = "schur_3_14.cnf"
        words = ["-q", "--compress", "--no-race", "--depth", "4", formula, "f.lrat"]
        for _ in range(2):  # the first one joins logs as they come, later ones by their names
            self.ends(20, ["s UNSATISFIABLE"], *words)
            self.verifies(formula, "f.lrat")
        first = self.at("f.lrat").read_bytes()
        logs = self.logs(formula)
        self.assertEqual({".zst"}, {path.suffix for path in logs})
        before = self.moments(formula)
        self.ends(20, ["s UNSATISFIABLE"], *words[:1], *words[2:])
        self.assertEqual((before, first), (self.moments(formula), self.at("f.lrat").read_bytes()))
        subprocess.run(["zstd", "-q", "-d", "--rm", str(logs[0])], check=True)
        self.ends(20, ["s UNSATISFIABLE"], *words)
        self.assertEqual(first, self.at("f.lrat").read_bytes(), "one log is not packed")
        for what, spoil in (
                ("no frame", lambda data: b"spoiled"), ("nothing", lambda data: b""),
                ("a cut frame", lambda data: data[:-9]), ("two", lambda data: data + data)):
            path = self.logs(formula)[1]
            path.write_bytes(spoil(path.read_bytes()))
            self.ends(20, ["s UNSATISFIABLE"], *words)
            self.verifies(formula, "f.lrat")
            self.assertEqual([], self.running(formula), what)

    @unittest.skipUnless(shutil.which("zstd"), "zstd is not installed")
    def test_packed_logs_refused(self) -> None:
        """A line of `join` names the log, and not the FIFO through which it came."""
        formula, bad = "schur_3_14.cnf", "logs/bad.lrat"
        words = ["--no-race", "--depth", "3", formula, "f.lrat"]
        self.ends(20, ["s UNSATISFIABLE"], "-q", *words)
        self.at(formula + ".conquer", bad).write_text("no log\n" * 100000)
        subprocess.run(["zstd", "-q", "--rm", str(self.at(formula + ".conquer", bad))], check=True)
        status, lines = self.conquer(*words)
        told = [line for line in lines if line.startswith("c file")]
        self.assertEqual((20, 1), (status, len(told)), lines)
        self.assertTrue(told[0].endswith("line 1 fault 1 " + bad), told)

    @unittest.skipUnless(shutil.which("zstd"), "zstd is not installed")
    def test_unpacking_that_is_killed(self) -> None:
        """Whoever reads, be it later, reads an empty log, and does not wait for ever."""
        folder = files.Folder(str(self.at("run")))
        files.packed(folder.at("logs/a")).write_bytes(b"")
        for is_late in (False, True):
            unpacker = Unpacker(folder)
            unpacker.begin("logs/a", "scratch/pipe.%d" % is_late)
            words, process = ["cat", str(unpacker.pipe)], unpacker.process
            assert process is not None
            if is_late:
                processes.kill(process)
                self.assertFalse(unpacker.runs())
            reader = subprocess.Popen(words, stdout=subprocess.PIPE)
            if not is_late:
                processes.kill(process)
            self.wait_for("the reader", lambda: unpacker.runs() or reader.poll() is not None, 20)
            self.assertEqual(b"", reader.communicate()[0])

    def test_without_zstd(self) -> None:
        """It is told before anything is run."""
        folder = self.at("bare")
        folder.mkdir()
        before = os.environ["PATH"]
        self.addCleanup(os.environ.__setitem__, "PATH", before)
        os.environ["PATH"] = str(folder)
        self.ends(1, ["c zstd is not installed"], "--compress", FOUR)

    def test_listed_cubes(self) -> None:
        """Cubes that another splitter lists."""
        formula = "schur_3_14.cnf"
        words = ["--cubes-from", "march.cubes", formula, "f.lrat"]
        self.write("march.cubes", "a 4 0\na 4 1 0\n")
        self.ends(1, ["c cubes line 2 fault 12"], *words)
        self.tells("march.cubes, line 2", "leaves of one tree", "a 4 1 0")
        self.write("march.cubes", "a 4 -1 5 0\nwhat a splitter prints\na -4 1 0\n")
        for way in ([], ["--no-share"]):
            self.forget(formula)
            self.ends(20, ["s UNSATISFIABLE"], "-q", *way, *words)
            self.verifies(formula, "f.lrat")
            self.assertEqual(5, len(self.leaves(formula)), "three leaves were added")


class Faults(Case):
    def test_input(self) -> None:
        self.write("bad.cnf", "p cnf 1 1\n2 0\n")
        self.ends(1, ["c input line 2 fault 4"], "bad.cnf")
        self.tells("bad.cnf, line 2: A variable is above", "The line is: 2 0", "header")
        self.ends(1, ["c cannot read input"], "none.cnf")
        self.tells("no file none.cnf")
        self.ends(1, ["c cannot read input"], ".")
        self.tells(". is a folder")

    def test_proof(self) -> None:
        for proof, why in ((FOUR, "the formula itself"), ("none/f.lrat", "mkdir -p"),
                           ("/dev/null", "no regular file"), (".", "is a folder")):
            self.ends(1, ["c cannot write proof"], FOUR, proof)
            self.tells(why)

    def test_words(self) -> None:
        """Which word is wrong is told."""
        self.ends(1, ["c usage"])
        self.tells("INPUT")
        for told, words in (("--odd", ["--odd"]),
                            ("17 is no number from 0 to 16", ["-q", "--depth", "17"]),
                            ("none of satcluster, cadical, kissat", ["--solver", "nosuch"]),
                            ("no {cnf} and no {lrat} or {drat}", ["--solver", "true 1"]),
                            ("no {lrat} or {drat}", ["--solver", "true {cnf}"]),
                            ("--seconds", ["--limit", "9", "--solver", "true {cnf} {lrat}"])):
            self.ends(1, ["c usage"], *words, FOUR)
            self.tells(told)
        self.ends(1, ["c cannot run no-solver"], "--solver", "no-solver {cnf} {lrat}", FOUR)
        self.tells("no program no-solver on the path")

    def test_folder_of_another_formula(self) -> None:
        self.ends(20, ["s UNSATISFIABLE"], "-q", "--no-share", FOUR)
        words = ["--no-share", "--folder", FOUR + ".conquer", "schur_3_14.cnf"]
        for _ in range(2):
            self.ends(1, [], "-q", *words)
            self.tells("/%s." % FOUR, "rm -r ", "--folder")
        status, lines = self.conquer(*words)
        self.assertEqual((1, "c cubes of another formula"), (status, lines[-1]))

    def test_simulation(self) -> None:
        """It plays a run that has ended, and makes no folder if there is none."""
        def play(folder: str) -> subprocess.CompletedProcess:
            words = [sys.executable, str(SCRIPT.parent / "simulate.py"), folder]
            return subprocess.run(words, cwd=str(self.folder), stdout=subprocess.PIPE,
                                  stderr=subprocess.PIPE)

        self.conquer("-q", "--no-race", "--depth", "4", "schur_3_14.cnf")
        done = play("schur_3_14.cnf.conquer")
        self.assertEqual((0, 13), (done.returncode, len(done.stdout.splitlines())), done.stderr)
        done = play("none")
        self.assertEqual((1, b"c none is no folder of conquer.py\n"),
                         (done.returncode, done.stderr))
        self.assertFalse(self.at("none").exists())

    def test_depth_that_is_not_used(self) -> None:
        """It is told if a tree stands that was made by other words."""
        starts: List[Tuple[List[str], bool]] = [
            (["--depth", "1"], False), (["--depth", "1"], False), ([], False),
            (["--depth", "2"], True), (["--look", "2"], True)]
        for words, is_told in starts:
            status, lines = self.conquer("--no-share", *words, FOUR)
            found = any("c %s is not used" % "".join(words[:1]) in line for line in lines)
            self.assertEqual((20, is_told), (status, found), lines)

    def test_looking_ahead(self) -> None:
        """Trees of looks ahead, among whose leaves are some that propagation closes."""
        for leaves, name in (("8", "urquhart_24.cnf"), ("6", "schur_3_14.cnf")):
            words = ["-q", "--no-race", "--look", leaves, name, "f.lrat"]
            self.ends(20, ["s UNSATISFIABLE"], *words)


class Folder(Case):
    def test_spoiled_files(self) -> None:
        """Logs that are cut, empty, garbage, of another leaf, a folder; a wrong answer."""
        name = "urquhart_24.cnf"
        words = ["--no-race", "--block", "1", name, "good.lrat"]
        self.conquer("-q", *words)
        logs = self.logs(name)
        logs[0].write_bytes(logs[0].read_bytes()[:-2])
        logs[1].write_bytes(b"")
        logs[2].write_bytes(b"garbage\n")
        shutil.copy(str(logs[4]), str(logs[3]))
        logs[5].unlink()
        logs[5].mkdir()
        self.at(name + ".conquer", "logs", "a file\nof another").mkdir()
        logs[6].rename(self.at(name + ".conquer", "logs", "brought from elsewhere"))
        self.write(name + ".conquer/answers/wrong", "s SATISFIABLE\nv 1 2 3 0\n")
        status, lines = self.conquer(*words)
        self.assertEqual((20, True), (status, "s UNSATISFIABLE" in lines))
        told = [line for line in lines if line.startswith("c file")]
        self.assertTrue(any("leaf" in line for line in told) and len(told) >= 3, told)
        self.verifies(name, "good.lrat")
        self.assertTrue(logs[5].is_file(), "a leaf's log that was a folder")
        self.assertFalse(logs[6].exists(), "a leaf whose log has another name")

    def test_folder_in_use(self) -> None:
        """A run that is ended ends its jobs."""
        solver = self.script("waits", "sleep 100")
        first = self.start("-q", "--depth", "5", "--solver", solver, PIGEONS)
        self.wait_for("the lock", lambda: self.running(PIGEONS))
        self.ends(1, ["c folder in use"], PIGEONS)
        self.tells("under way")
        first.send_signal(signal.SIGTERM)
        self.assertEqual((0, ["s UNKNOWN"]), self.end(first, "a run that is ended"))
        self.assertEqual([], self.running(PIGEONS))
        self.assertIn("pigeons.cnf: ended without answer", self.report(PIGEONS))

    def test_report_that_is_live(self) -> None:
        """It stands from the first leaf on, and is there after SIGTERM, with what has run."""
        script = "grep -q '^1 0' $1 && sleep 100; exec %s decide -q $1 $2"
        script %= self.program
        words = ["--no-race", "--jobs", "2", "--depth", "2", "--solver",
                 self.script("waits", script), PIGEONS]
        first = self.start("-q", *words)
        self.wait_for("the report", lambda: "under way" in self.report(PIGEONS), 20)
        scratch = self.at(PIGEONS + ".conquer", "scratch")
        self.wait_for("the jobs that wait", lambda: len(list(scratch.glob("leaf_1_*"))) == 2)
        first.send_signal(signal.SIGTERM)
        self.assertEqual((0, ["s UNKNOWN"]), self.end(first, "a run that is ended"))
        text = self.report(PIGEONS)
        for part in ("ended without answer", "the tree was made by --depth 2", "most memory",
                     "<td>ended<td class=cube>"):
            self.assertIn(part, text)
        self.assertNotIn("http-equiv", text, "a page that is renewed no more")


    def test_figures_beside_the_report(self) -> None:
        """Pictures of the tree and of the jobs, and a line of CSV for each leaf."""
        self.ends(20, ["s UNSATISFIABLE"], "-q", "--no-race", "--depth", "4", PIGEONS, "p.lrat")
        folder = self.at(PIGEONS + ".conquer")
        for name in ("tree.svg", "timeline.svg"):
            ElementTree.parse(str(folder / name))
            self.assertIn("<rect ", (folder / name).read_text())
        rows = list(csv.DictReader((folder / "leaves.csv").read_text().splitlines()))
        self.assertEqual(self.leaves(PIGEONS), ["a %s 0" % row["cube"] for row in rows])
        logs = sum(path.stat().st_size for path in self.logs(PIGEONS))
        self.assertEqual(logs, sum(int(row["log_bytes"] or 0) for row in rows))
        sums = [hashlib.sha256(self.at(name).read_bytes()).hexdigest()
                for name in (PIGEONS, "p.lrat")]
        for part in [*sums, "satcluster 0."]:
            self.assertIn(part, self.report(PIGEONS))

    def test_scratch_of_a_node(self) -> None:
        """Jobs write what is unfinished to another folder, and leave nothing there."""
        self.at("near").mkdir()
        near, solve = str(self.at("near")), "exec %s decide -q $1 $2" % self.program
        solver = self.script("here", 'case $1 in %s/*) %s;; esac' % (near, solve))
        for words in (["--solver", solver], ["--compress"] * bool(shutil.which("zstd"))):
            self.forget(FOUR)
            words += ["-q", "--no-race", "--depth", "1", "--scratch", near, FOUR, "f.lrat"]
            self.ends(20, ["s UNSATISFIABLE"], *words)
            self.verifies(FOUR, "f.lrat")
            self.assertEqual([], list(self.at("near").iterdir()))
        self.forget(FOUR)
        status, lines = self.conquer("--scratch", "none", FOUR)
        self.assertEqual((0, True), (status, any("failed" in line for line in lines)), lines)


class Endings(Case):
    """Runs that end before their answer, by a signal or a limit of time."""

    SLOW = "mkdir $0.first 2> /dev/null || sleep 60; exec %s solve -q --depth 0 $1 $2"

    def words(self, *more: str) -> List[str]:
        """A run whose first job is done at once; all others take too long."""
        return ["--no-race", "--jobs", "2", "--depth", "3", "--solver",
                self.script("slow", self.SLOW % self.program), *more, PIGEONS, "p.lrat"]

    def has_log(self) -> bool:
        return self.at(PIGEONS + ".conquer", "logs").exists() and bool(self.logs(PIGEONS))

    def test_signals(self) -> None:
        """What is done is told, and how it goes on; what is there is used then."""
        for number in (signal.SIGINT, signal.SIGTERM):
            self.forget(PIGEONS)
            shutil.rmtree(str(self.at("slow.first")), ignore_errors=True)
            run = self.start(*self.words())
            self.wait_for("a log", self.has_log)
            run.send_signal(number)
            status, lines = self.end(run, number)
            self.assertEqual((0, "s UNKNOWN"), (status, lines[-1]))
            self.assertRegex(lines[-5], "^c 1 of [0-9]+ leaves closed$")
            self.assertIn(number.name, lines[-3])
            self.assertTrue(lines[-2].startswith("c " + str(SCRIPT)), lines)
            self.assertTrue(lines[-2].endswith(" pigeons.cnf p.lrat"), lines)
            self.assertEqual([], self.running(PIGEONS))
        before = self.moments(PIGEONS)
        self.ends(20, ["s UNSATISFIABLE"], "-q", PIGEONS, "p.lrat")
        self.verifies(PIGEONS, "p.lrat")
        self.assertEqual(before, {path: self.moments(PIGEONS)[path] for path in before})

    def test_timeout(self) -> None:
        began = time.monotonic()
        self.ends(0, ["s UNKNOWN"], "-q", "--timeout", "1", *self.words())
        self.assertLess(time.monotonic() - began, 30)
        self.assertEqual([], self.running(PIGEONS))
        self.assertFalse(self.at("p.lrat").exists())
        self.assertIn("ended without answer", self.report(PIGEONS))
        self.ends(20, ["s UNSATISFIABLE"], "-q", "--timeout", "100", FOUR)

    def test_job_that_has_searched(self) -> None:
        """Its log is kept."""
        slow = '#!/bin/sh\ncase $1 in lift) touch %s; sleep 1;; esac\nexec %s "$@"\n'
        self.write("lifts", slow % (self.at("lifting"), self.program))
        self.at("lifts").chmod(0o755)
        run = self.start("-q", *self.words("--program", str(self.at("lifts"))))
        self.wait_for("lift", self.at("lifting").exists)
        run.send_signal(signal.SIGTERM)
        self.assertEqual((0, ["s UNKNOWN"]), self.end(run, "a run that is ended"))
        self.assertEqual(1, len(self.logs(PIGEONS)))

    def test_second_signal(self) -> None:
        """It does not wait for jobs, and none is left."""
        slow = '#!/bin/sh\ncase $1 in lift) touch %s; sleep 60;; esac\nexec %s "$@"\n'
        self.write("lifts", slow % (self.at("lifting"), self.program))
        self.at("lifts").chmod(0o755)
        run = self.start("-q", *self.words("--program", str(self.at("lifts"))))
        self.wait_for("lift", self.at("lifting").exists)
        began = time.monotonic()
        run.send_signal(signal.SIGINT)
        time.sleep(0.5)
        run.send_signal(signal.SIGINT)
        self.assertEqual((0, ["", "s UNKNOWN"]), self.end(run, "a run that is ended"))
        self.assertLess(time.monotonic() - began, 8)
        self.wait_for("jobs of a run that is ended", lambda: not self.running(PIGEONS), 5)

    def test_words(self) -> None:
        """The version, and help that has the name by which the script is called."""
        self.assertRegex(self.conquer("--version").lines[0], "^satcluster [0-9]")
        self.assertIn("tools/conquer.py", self.conquer("--help").lines[0])
        self.at("satcluster-conquer").symlink_to(SCRIPT)
        told = subprocess.run([str(self.at("satcluster-conquer")), "--help"], check=True,
                              stdout=subprocess.PIPE).stdout
        self.assertIn(b"usage: satcluster-conquer [--program", told)
        self.assertNotIn(b"conquer.py", told)
        self.ends(1, ["c usage"], "--binary", FOUR)

    def test_binary(self) -> None:
        self.ends(20, ["s UNSATISFIABLE"], "-q", "--binary", PIGEONS, "p.lrat")
        self.assertEqual(b"a", self.at("p.lrat").read_bytes()[:1])
        self.verifies(PIGEONS, "p.lrat")

    def test_summary(self) -> None:
        """At a terminal it is told in the end how the proof is checked."""
        master, terminal = os.openpty()
        self.addCleanup(os.close, master)
        words = [sys.executable, str(SCRIPT), "--program", self.program, FOUR, "f.lrat"]
        subprocess.run(words, cwd=str(self.folder), stdout=subprocess.DEVNULL, stderr=terminal,
                       timeout=SECONDS, check=False)
        os.close(terminal)
        told = os.read(master, 4096).decode().split("\r\n")
        self.assertRegex(told[0], "^c UNSATISFIABLE after 0:0")
        self.assertRegex(told[2], "^c proof: f.lrat, [0-9,]+ bytes")
        words = told[3].split()[1:]
        done = subprocess.run(words, cwd=str(self.folder), stdout=subprocess.PIPE, check=True)
        self.assertEqual(b"s VERIFIED\n", done.stdout)


class Publishes(Case):
    """Folders for referees."""

    PUBLISH = SCRIPT.parent / "satcluster-publish"

    def published(self, *words: str) -> subprocess.CompletedProcess:
        script = [sys.executable, str(self.PUBLISH), "--program", self.program]
        return subprocess.run([*script, *words], cwd=str(self.folder), stdout=subprocess.PIPE,
                              stderr=subprocess.PIPE, check=False)

    def bytes_of(self, folder: str) -> Dict[str, Tuple[str, float, int]]:
        """The sum of each file, with its moment and its rights."""
        return {path.name: (files.digest(path), path.stat().st_mtime, path.stat().st_mode)
                for path in self.at(folder).iterdir()}

    def test_run(self) -> None:
        """The same run makes the same bytes again, whatever stood there; checkers take them."""
        words = ["--no-share", "--depth", "3", "--publish", "to", PIGEONS]
        status, lines = self.conquer(*words)
        self.assertEqual((20, True), (status, "c satcluster check: s VERIFIED" in lines), lines)
        first = self.bytes_of("to")
        self.assertEqual({"README", "SHA256SUMS", "VERDICTS", "recheck.sh", "formula.cnf.xz",
                          "proof.lrat.xz", "tree.svg", "timeline.svg", "leaves.csv"}, set(first))
        self.at("to", "README").write_text("spoiled")
        self.ends(20, ["s UNSATISFIABLE"], "-q", *words, "p.lrat")
        self.assertEqual(first, self.bytes_of("to"))
        self.assertEqual([], list(self.folder.glob("*.part")))
        self.at("bin").mkdir()
        self.at("bin", "satcluster").symlink_to(shutil.which(self.program) or "")
        path = "%s:%s" % (self.at("bin"), os.environ["PATH"])
        done = subprocess.run([str(self.at("to", "recheck.sh"))], stdout=subprocess.PIPE,
                              env=dict(os.environ, PATH=path), check=True)
        self.assertIn(b"proof.lrat: OK\nsatcluster check:\ns VERIFIED\n", done.stdout)

    def test_any_proof(self) -> None:
        for proof in ("four_clauses.lrat", "four_clauses_by_definition.lrat"):
            shutil.copy(str(EXAMPLES / proof), str(self.folder))
            done = self.published(FOUR, proof, "to")
            self.assertEqual((0, b"c satcluster check: s VERIFIED\n"),
                             (done.returncode, done.stdout))
            first = self.bytes_of("to")
            self.published(FOUR, proof, "to")
            self.assertEqual(first, self.bytes_of("to"))
        text = self.at("to", "README").read_text()
        self.assertIn("clauses    4\n", text)
        self.assertTrue(all(len(line) <= 80 for line in text.split("\n") if "SHA" not in line))

    def test_other_checkers(self) -> None:
        """Those that are installed are asked, about the proof as text."""
        self.at("bin").mkdir()
        self.script("bin/lrat-check", 'grep -q " 0 " $2 && echo c VERIFIED; echo c more')
        path = os.environ["PATH"]
        self.addCleanup(os.environ.__setitem__, "PATH", path)
        os.environ["PATH"] = "%s:%s" % (self.at("bin"), path)
        done = self.published(FOUR, str(EXAMPLES / "four_clauses.lrat"), "to")
        self.assertIn(b"\nc lrat-check: c VERIFIED\n", done.stdout)
        self.assertIn("lrat-check: c VERIFIED\n", self.at("to", "VERDICTS").read_text())

    def test_faults(self) -> None:
        """Nothing is made of what is no proof, nor in a folder of someone else."""
        proof = str(EXAMPLES / "four_clauses.lrat")
        self.at("other").mkdir()
        self.write("other/file", "")
        for words, told in ((("schur_3_14.cnf", proof, "to"), "no proof of schur_3_14.cnf"),
                            ((FOUR, "none", "to"), "cannot read none"),
                            ((FOUR, proof, "none/to"), "cannot write none/to"),
                            ((FOUR, proof, "other"), "no folder that was published"),
                            (("--folder", "none", FOUR, proof, "to"), "tree.svg")):
            done = self.published(*words)
            self.assertEqual(1, done.returncode)
            self.assertIn(told, done.stderr.decode())
            self.assertFalse(self.at("to").exists())
        self.ends(1, ["c cannot write other"], "--publish", "other", FOUR)
        self.ends(1, ["c usage"], "--publish", "to", "--receipts", FOUR)


class Solvers(Case):
    LIES = {
        "an answer that is no model": "echo s SATISFIABLE; echo v 1 2 0; exit 10",
        "a refutation without a proof": "exit 20",
        "garbage as a proof": "echo garbage > $2; exit 20",
        "an end by a signal": "kill -9 $$",
        "no answer": "exit 0",
    }
    PROOFS = {  # bytes of a proof, as printf has them, and what is told of it
        "binary DRAT": r"a\005\000a\000",
        "DRAT as text": r"2 0\n0\n",
        "CR LF": r"5 2 0 1 2 0\r\n",
        "gzip": r"\037\213",
    }

    def test_lies(self) -> None:
        """Solvers that lie, or fail: no answer comes of it, and why is told once."""
        for what, script in self.LIES.items():
            self.forget(FOUR)
            words = ["--depth", "0", "--solver", self.script("liar", script), FOUR]
            status, lines = self.conquer(*words)
            self.assertEqual((0, True), (status, "s UNKNOWN" in lines), what)
            self.assertIn("c leaf 1 missing", lines, what)
            told = [line for line in lines if " failed: " in line]
            kinds = ["leaf" if line.startswith("c leaf ") else line.split()[2] for line in told]
            self.assertEqual(["leaf", "jobs"][:len(told)], kinds, told)
            self.ends(0, ["s UNKNOWN"], "-q", *words)
        self.ends(20, ["s UNSATISFIABLE"], "-q", FOUR)

    def test_proofs_of_other_kinds(self) -> None:
        for what, octal in self.PROOFS.items():
            self.forget(FOUR)
            solver = self.script("odd", "printf '%s' > $2; exit 20" % octal)
            status, lines = self.conquer("--depth", "0", "--solver", solver, FOUR)
            self.assertEqual((0, True), (status, any(what in line for line in lines)), lines)

    def test_drat(self) -> None:
        """A solver may write DRAT, which `elaborate` makes LRAT of."""
        for told, octal in (("s UNSATISFIABLE", r"2 0\n0\n"), ("s UNSATISFIABLE", r"a\004\000a\000"),
                            ("elaborate ends with 1: c step 2 fault 7", r"1 2 0\n"),
                            ("lift ends with 1", "")):
            self.forget(FOUR)
            solver = self.script("drat", "printf '%s' > $2; exit 20" % octal)
            solver = solver.replace("{lrat}", "{drat}")
            _, lines = self.conquer("--depth", "0", "--solver", solver, FOUR)
            self.assertTrue(any(told in line for line in lines), (octal, lines))

    PIPED = {  # what a solver does with its FIFO, and whether that is a proof
        "a proof": ("exec PROGRAM decide -q $1 $2", True),
        "a file in its place": ("PROGRAM decide -q $1 $2.new; mv $2.new $2; exit 20",
                                True),
        "what is printed": ("PROGRAM decide -q $1 $2.new; cat $2.new > $2; exit 20", True),
        "a proof, and no end": ("PROGRAM decide -q $1 $2; sleep 100", True),
        "nothing": ("exit 20", False),
        "an end before a proof": ("kill -9 $$", False),
        # `lift` closes what is left, if it has ended before the solver's end is seen.
        "an end within a proof": ("(echo '5 2 0 1 2 0'; kill -9 $$) > $2", None),
        "a cut proof": ("printf '5 2 0 1' > $2; exit 20", False),
        "an endless proof": ("exec timeout 1 yes > $2", False),
        "an endless right proof": ("exec timeout 1 yes '5 d 0' > $2", False),
        # An empty proof is one of a half, and a leaf that waits is cut in two.
        "a proof that nobody ends": ("exec 3> $2; sleep 1; exit 20", None),
        "no answer": ("exit 0", False),
        "no answer, and an empty proof": ("exec 3> $2; exit 0", None),
    }

    def test_pipes(self) -> None:
        """Whatever a solver does with the FIFO for its proof, nobody waits for ever, and the proof
        is taken if it is one."""
        for what, (script, is_right) in self.PIPED.items():
            self.forget(FOUR)
            solver = self.script("piped", script.replace("PROGRAM", self.program))
            began = time.monotonic()
            end = self.conquer("-q", "--pipe", "--depth", "0", "--solver", solver, FOUR)
            statuses = {True: [20], False: [0], None: [0, 20]}[is_right]
            self.assertIn(end.status, statuses, what)
            self.assertLess(time.monotonic() - began, 60, what)
            self.assertEqual([], self.running(FOUR), what)
        self.ends(1, ["c usage"], "--pipe", "--solver", "kissat", FOUR)
        self.ends(1, ["c usage"], "--pipe", FOUR)

    def test_pipe_of_a_killed_script(self) -> None:
        """Neither end outlives the script, whichever waits for the other then."""
        for script in ("exec tail -f $1", "exec tail -f $1 > $2", "exec cat /dev/zero $1 > $2"):
            for how in (signal.SIGKILL, signal.SIGTERM):
                self.forget(FOUR)
                solver = self.script("piped", script)
                run = self.start("-q", "--pipe", "--depth", "0", "--solver", solver, FOUR)
                self.wait_for("lift", lambda: len(self.running(FOUR)) > 1)
                run.send_signal(how)
                run.communicate()
                self.wait_for((script, how), lambda: not self.running(FOUR), 20)

    def test_late(self) -> None:
        """A search whose time is up is ended, and its leaf is cut in two, or runs until it ends."""
        began = time.monotonic()
        script = "[ -e late ] && exec %s solve -q $1 $2\ntouch late; sleep 100" % self.program
        solver = self.script("slow", script)
        end = self.conquer("-q", "--depth", "0", "--seconds", "1", "--solver", solver, FOUR)
        self.assertIn(end.status, (0, 20))
        self.assertLess(time.monotonic() - began, 60)


class Races(Case):
    """One job searches the whole formula beside the leaves; solvers that know which one they
    search."""

    NAME, UNSPLIT = "schur_3_14.cnf", "c the whole formula was refuted unsplit"

    def race(self, whole: str, leaf: str) -> List[str]:
        """The lines of a run of two jobs, with a solver that does one thing for the whole formula,
        and another for a leaf, whose formula has units more."""
        size = len(self.at(self.NAME).read_text().split("\n"))
        script = "if [ $(wc -l < $1) -lt %d ]; then %s; else %s; fi" % (size + 1, whole, leaf)
        solver = self.script("racer", script)
        words = ["--jobs", "2", "--depth", "3", "--solver", solver, self.NAME, "r.lrat"]
        status, lines = self.conquer(*words)
        self.assertEqual((20, True), (status, "s UNSATISFIABLE" in lines), lines)
        self.verifies(self.NAME, "r.lrat")
        self.assertEqual([], self.running(self.NAME), "jobs that are left")
        return lines

    def test_whole_formula_is_first(self) -> None:
        lines = self.race("exec %s decide -q $1 $2" % self.program, "sleep 100")
        self.assertIn(self.UNSPLIT, lines)

    def test_lie_of_the_whole_formula(self) -> None:
        lines = self.race("echo garbage > $2; exit 20", "exec %s solve -q $1 $2" % self.program)
        self.assertNotIn(self.UNSPLIT, lines)

    def test_leaves_are_first(self) -> None:
        self.race("sleep 100", "exec %s decide -q $1 $2" % self.program)

    def test_no_race(self) -> None:
        self.ends(20, ["s UNSATISFIABLE"], "-q", "--no-race", self.NAME)
        self.assertFalse(self.at(self.NAME + ".conquer", "whole.icnf").exists())


def kill(process: int) -> int:
    try:
        os.kill(process, signal.SIGKILL)
    except ProcessLookupError:
        return 0
    return 1


class Cuts(Case):
    """A leaf whose job takes long is cut in two while a core is idle; solvers that know whether
    they search the whole formula or a leaf, which has units beside it."""

    NAME, HEADER = "schur_3_14.cnf", "^p cnf 42 163$"
    SOLVE = "exec %s decide -q $1 $2"

    def words(self, whole: str, half: str, *more: str) -> List[str]:
        """A run of one leaf, the whole formula, whose halves have a unit each."""
        script = "if grep -q '%s' $1; then %s; else %s; fi" % (self.HEADER, whole, half)
        solver = self.script("cutter", script.replace("SOLVE", self.SOLVE % self.program))
        return ["--jobs", "3", "--depth", "0", "--solver", solver, *more, self.NAME, "c.lrat"]

    def cut(self, whole: str, half: str, *more: str) -> List[str]:
        """The lines of such a run, which ends with a proof and leaves no job."""
        status, lines = self.conquer(*self.words(whole, half, *more))
        self.assertEqual((20, True), (status, "s UNSATISFIABLE" in lines), lines)
        self.verifies(self.NAME, "c.lrat")
        self.assertEqual([], self.running(self.NAME), "jobs that are left")
        return lines

    def sums(self) -> List[int]:
        """How many leaves are closed by logs of their own, by others', and open, by the report."""
        found = dict(re.findall("<dt>([^<]*)<dd>([^<]*)</div>", self.report(self.NAME)))
        return [int(found[name]) for name in ("closed by a log of its own", "by another's log",
                                              "open")]

    def test_halves_are_first(self) -> None:
        """Both are run, in one pass, though one takes longer; the job that was ended has closed
        nothing."""
        lines = self.cut("exec sleep 60", "mkdir $0.first || sleep 1; SOLVE")
        self.assertEqual(1, sum(line.endswith(" to run") for line in lines), lines)
        self.assertFalse(any(line.startswith("c file ") for line in lines), lines)
        names = [path.name for path in self.logs(self.NAME)]
        self.assertEqual((2, False), (len(names), "leaf.lrat" in names), "a half was not run")
        self.assertEqual([2, 0, 0], self.sums())
        self.assertIn("as one leaf ended after", self.report(self.NAME))

    def test_whole_leaf_is_first(self) -> None:
        """Its log closes both halves, whose jobs are ended."""
        self.cut("sleep 3; SOLVE", "exec sleep 60")
        self.assertEqual(["leaf.lrat"], [path.name for path in self.logs(self.NAME)])
        self.assertEqual([0, 2, 0], self.sums())
        self.assertIn("<dt>of these closed as one<dd>1</div>", self.report(self.NAME))

    def test_halves_that_fail(self) -> None:
        lines = self.cut("sleep 4; SOLVE", "exit 3")
        self.assertIn("failed: the solver ends with 3", "\n".join(lines))

    def test_whole_leaf_that_fails(self) -> None:
        self.cut("sleep 2.5; exit 3", "sleep 1; SOLVE")
        self.assertEqual([2, 0, 0], self.sums())

    def test_no_cuts(self) -> None:
        self.cut("sleep 3; SOLVE", "exec sleep 60", "--no-cuts")
        self.assertEqual([1, 0, 0], self.sums())

    def test_killed(self) -> None:
        """The script is killed at moments around the cut; what is there goes on."""
        draw = random.Random(int(os.environ.get("SEED", 1)))
        words = self.words("exec sleep 60", "sleep 1; SOLVE")
        for _ in range(max(2, int(os.environ.get("KILLS", 6)) // 3)):
            process = self.start("-q", *words)
            time.sleep(draw.uniform(1.8, 3.4))
            kill(process.pid)
            process.communicate()
            self.wait_for("jobs of a killed script", lambda: not self.running(self.NAME), 2)
            if draw.random() < 0.3:
                self.forget(self.NAME)
        self.ends(20, ["s UNSATISFIABLE"], "-q", *words)
        self.verifies(self.NAME, "c.lrat")


class OfBlocks(Case):
    """What blocks have left."""

    WORDS = ["--no-race", "--jobs", "1", "--depth", "4"]

    def blocks(self, formula: str = PIGEONS) -> List[List[files.Cube]]:
        """The leaves that each block's log closes."""
        return [read_cubes(path) for path in
                sorted(self.at(formula + ".conquer", "blocks").iterdir())]

    def facts(self) -> Dict[str, str]:
        return dict(re.findall("<dt>([^<]*)<dd>([^<]*)</div>", self.report(PIGEONS)))

    def to_run(self, lines: List[str]) -> int:
        """How many leaves a start finds that nothing closes."""
        return int(next(line for line in lines if line.endswith(" to run")).split()[3])

    def refuted(self, *words: str) -> List[str]:
        status, lines = self.conquer(*words)
        self.assertEqual((20, True), (status, "s UNSATISFIABLE" in lines), lines)
        return lines


class Blocks(OfBlocks):
    """A job of our own search takes neighbouring leaves, and one log closes them."""

    def test_leaves_that_count(self) -> None:
        """Each leaf of a block does, in the report too, and none is run again."""
        for more in PACKINGS:
            self.forget(PIGEONS)
            words = ["--block", "6", *self.WORDS, *more, PIGEONS]
            self.refuted(*words)
            leaves, logs, facts = len(self.leaves(PIGEONS)), len(self.logs(PIGEONS)), self.facts()
            self.assertEqual([6, 6], [len(cubes) for cubes in self.blocks()][:2])
            self.assertLess(logs, leaves - 9)
            own, others = (int(facts[name]) for name in ("closed by a log of its own",
                                                         "by another's log"))
            self.assertEqual((str(leaves), str(logs), "0", leaves),
                             (facts["leaves"], facts["jobs"], facts["open"], own + others))
            before = self.moments(PIGEONS)
            self.assertEqual(0, self.to_run(self.refuted(*words, "p.lrat")))
            self.verifies(PIGEONS, "p.lrat")
            self.assertEqual(before, self.moments(PIGEONS), "a leaf was run again")

    def test_one_leaf_a_job(self) -> None:
        self.refuted("--block", "1", *self.WORDS, PIGEONS)
        self.assertEqual([], self.blocks())

    def slow(self, words: str, command: str) -> str:
        """A program that runs a command first, if it is given such words."""
        text = '#!/bin/sh\ncase "$*" in %s) %s;; esac\nexec %s "$@"\n'
        self.at(self.write("slow", text % (words, command, self.program))).chmod(0o755)
        return str(self.at("slow"))

    def test_taken_apart(self) -> None:
        """The leaves of a block that takes too long are run beside it, and its job is ended."""
        slow = self.slow("refute*--to*", "mkdir $0.first 2> /dev/null && sleep 60")
        self.refuted("--program", slow, *self.WORDS, "--jobs", "2", PIGEONS, "p.lrat")
        self.assertEqual([], self.running(PIGEONS))
        records = Records(files.Folder(str(self.at(PIGEONS + ".conquer")))).all()
        ends = [record.outcome for record in records if record.behind]
        self.assertIn(ENDED, ends, "the first block")
        self.assertEqual("0", self.facts()["open"])
        self.verifies(PIGEONS, "p.lrat")

    def test_killed(self) -> None:
        """A block's log that stands is kept, and the other leaves are run."""
        words = ["--block", "4", *self.WORDS, PIGEONS, "p.lrat"]
        process = self.start("-q", "--program", self.slow("refute*", "sleep 0.3"), *words)
        logs = self.at(PIGEONS + ".conquer", "logs")
        self.wait_for("a block's log", lambda: list(logs.glob("*_to_*")))
        kill(process.pid)
        process.communicate()
        self.wait_for("jobs of a killed script", lambda: not self.running(PIGEONS), 2)
        before = self.moments(PIGEONS)
        left = self.to_run(self.refuted(*words))
        self.assertTrue(0 < left <= len(self.leaves(PIGEONS)) - 5, left)
        self.assertEqual(before, {path: self.moments(PIGEONS)[path] for path in before})
        self.verifies(PIGEONS, "p.lrat")

    def test_file_that_grows(self) -> None:
        """It has the same bytes in the end, and the same is told; what it needs is refused."""
        self.write("p.icnf", "".join(line + "\n" for line in self.said("cubes", PIGEONS)))
        words = ["refute", "--cubes", "p.icnf", "--leaf", "3"]
        whole = self.said(*words, "--to", "7", PIGEONS, "whole")
        self.write("grown", "a file of someone")
        self.assertEqual(whole, self.said(*words, "--to", "7", "--grow", PIGEONS, "grown"))
        self.assertEqual((5, self.at("whole").read_bytes()),
                         (len(whole), self.at("grown").read_bytes()))
        self.assertEqual([], self.said(*words, "--to", "7", "--grow", "-q", PIGEONS, "grown"))
        limit = ["--to", "7", "--limit", "40", PIGEONS]
        self.assertEqual(self.said(*words, *limit, "whole"),
                         self.said(*words, "--grow", *limit, "grown"))
        self.assertEqual(self.at("whole").read_bytes(), self.at("grown").read_bytes())
        for more in (["--grow", PIGEONS, "no"], ["--to", "7", "--grow", PIGEONS],
                     ["--to", "7", "--grow", "--binary", PIGEONS, "no"]):
            self.assertEqual(["c usage"], self.said(*words, *more))
        self.assertFalse(self.at("no").exists())
        self.assertEqual(["c cannot write proof"],
                         self.said(*words, "--to", "7", "--grow", PIGEONS, PIGEONS))
        self.assertEqual(["c no such leaf"],
                         self.said(*words, "--to", "99", "--grow", PIGEONS, "grown"))

    def said(self, *words: str) -> List[str]:
        """The lines that the program prints."""
        done = subprocess.run([self.program, *words], cwd=str(self.folder), check=False,
                              stdout=subprocess.PIPE, stderr=subprocess.DEVNULL)
        return done.stdout.decode().split("\n")[:-1]

    # The first block: three of its leaves are closed, and a part of the fourth is in the log, whose
    # last line is cut. $9 is INPUT, and ${10} the log.
    GROWN = """#!/bin/sh
case "$*" in
refute*--to*) mkdir $0.first 2> /dev/null || exec %s "$@"
    %s refute --cubes $3 --leaf $5 --to $(($5 + 2)) --grow $9 ${10}
    printf '%%s\\n99 1' "$(tail -n 1 ${10})" >> ${10}
    touch $0.grown; sleep 60; exit 1;;
esac
exec %s "$@"
"""

    def grown(self, *words: str) -> subprocess.Popen:
        """A run whose first block has closed three leaves, and does not end."""
        self.at(self.write("grows", self.GROWN % ((self.program,) * 3))).chmod(0o755)
        process = self.start("-q", "--program", str(self.at("grows")), "--no-cuts", "--block", "6",
                             *self.WORDS, *words, PIGEONS, "p.lrat")
        self.wait_for("a block that grows", self.at("grows.grown").exists)
        return process

    def are_kept(self, *words: str) -> None:
        """The three leaves are, by a log without what stood behind them; none is run again."""
        cubes = self.blocks()
        self.assertEqual([3], [len(listed) for listed in cubes if len(listed) < 6][:1], cubes)
        log = next(path for path in self.logs(PIGEONS) if "_to_" in path.name)
        self.assertTrue(log.read_text().endswith(" 0\n"))
        self.assertEqual(log.stat().st_size, closings.scan(log, cubes[0]).ends[-1])
        before = self.moments(PIGEONS)
        lines = self.refuted("--block", "6", *self.WORDS, *words, PIGEONS, "p.lrat")
        self.assertLessEqual(self.to_run(lines), len(self.leaves(PIGEONS)) - 4)
        self.assertEqual(before, {path: self.moments(PIGEONS)[path] for path in before})
        self.verifies(PIGEONS, "p.lrat")

    def test_ended_while_it_grows(self) -> None:
        for number in (signal.SIGINT, signal.SIGTERM):
            self.forget(PIGEONS)
            shutil.rmtree(str(self.at("grows.first")), ignore_errors=True)
            run = self.grown()
            self.at("grows.grown").unlink()
            run.send_signal(number)
            self.assertEqual((0, ["s UNKNOWN"]), self.end(run, number))
            self.are_kept()

    def test_script_killed_while_it_grows(self) -> None:
        """The next start finds what the block had closed, also on a disk of its own."""
        self.at("near").mkdir()
        for words in ([], ["--scratch", str(self.at("near"))]):
            self.forget(PIGEONS)
            shutil.rmtree(str(self.at("grows.first")), ignore_errors=True)
            run = self.grown(*words)
            self.at("grows.grown").unlink()
            time.sleep(1.5)  # so that the script has heard of the leaves
            kill(run.pid)
            run.communicate()
            self.wait_for("jobs of a killed script", lambda: not self.running(PIGEONS), 2)
            before = len(self.logs(PIGEONS))
            lines = self.refuted("--block", "6", *self.WORDS, *words, PIGEONS, "p.lrat")
            self.assertLessEqual(self.to_run(lines), len(self.leaves(PIGEONS)) - 4)
            self.assertLess(before, len(self.logs(PIGEONS)))
            self.assertIn(3, [len(cubes) for cubes in self.blocks()])
            self.verifies(PIGEONS, "p.lrat")
        self.assertEqual([], list(self.at("near").iterdir()))

    def test_job_killed_while_it_grows(self) -> None:
        """Its run goes on with the other leaves."""
        run = self.grown()
        kill(next(pid for pid in self.running(PIGEONS) if b"grows" in
                  Path("/proc/%d/cmdline" % pid).read_bytes().split(b"\0")[1]))
        self.assertEqual((20, ["s UNSATISFIABLE"]), self.end(run, "a run whose job was killed"))
        self.verifies(PIGEONS, "p.lrat")
        records = Records(files.Folder(str(self.at(PIGEONS + ".conquer")))).all()
        failed = [record for record in records if record.outcome == FAILED]
        self.assertEqual([(3, [CLOSED, CLOSED, CLOSED, FAILED])],
                         [(len(record.parts), [share.outcome for share in record.shares()])
                          for record in failed])
        again = [cube for record in records if record.outcome != FAILED for cube in record.cubes]
        self.assertTrue(set(again).isdisjoint(failed[0].cubes[:3]))

    def test_times_of_leaves(self) -> None:
        """Each leaf of a block has its own time, in the report and as CSV."""
        self.refuted("--block", "6", *self.WORDS, PIGEONS)
        self.assertNotIn("about ", re.sub("<i>about</i>", "", self.report(PIGEONS)))
        folder = files.Folder(str(self.at(PIGEONS + ".conquer")))
        for record in filter(lambda record: record.behind, Records(folder).all()):
            ends = [record.begin] + [turn.end for turn in record.turns]
            self.assertEqual((len(record.cubes), sorted(ends)), (len(record.turns), ends))
            self.assertLessEqual(ends[-1], record.end)
        text = folder.at("leaves.csv").read_text()
        rows = list(csv.DictReader(text.splitlines()))
        times = [float(row["seconds"]) for row in rows if row["leaves_of_job"] == "6"]
        self.assertLess(6, len(times))
        self.assertTrue(all(seconds > 0 for seconds in times))
        self.assertNotIn(os.uname().nodename, text.split("\n", 1)[0] + folder.at("timeline.svg").read_text())

    def test_limit(self) -> None:
        """Of a block that has met it those leaves are kept that are told closed; the others are cut
        in two."""
        self.refuted("--limit", "60", *self.WORDS, PIGEONS, "p.lrat")
        self.verifies(PIGEONS, "p.lrat")
        tree = read_cubes(self.at(PIGEONS + ".conquer", "trees", self.facts_tree()))
        closed = [cube for cubes in self.blocks() for cube in cubes]
        self.assertTrue(0 < len(closed) < 15 and set(closed) <= set(tree), closed)
        self.assertLess(16, len(tree))
        before = self.moments(PIGEONS)
        self.assertEqual(0, self.to_run(self.refuted(*self.WORDS, PIGEONS)))
        self.assertEqual(before, self.moments(PIGEONS), "a leaf was run again")

    def facts_tree(self) -> str:
        names = os.listdir(str(self.at(PIGEONS + ".conquer", "trees")))
        return max(names, key=lambda name: int(name.split(".")[0]))

    def test_model(self) -> None:
        """The first leaf of a block, which is searched last, has one: x1, x2 and x3."""
        clauses = ["%d %d %d 0" % (a, b, c) for a in (1, -1) for b in (2, -2) for c in (3, -3)]
        self.write("one.cnf", "p cnf 3 7\n" + "\n".join(clauses[:-1]) + "\n")
        words = ["--no-race", "--jobs", "1", "--depth", "2", "one.cnf"]
        self.ends(10, ["s SATISFIABLE", "v 1 2 3 0"], "-q", *words)
        answers = self.at("one.cnf.conquer", "answers")
        self.assertEqual(["leaf_1_2"], os.listdir(str(answers)))
        records = self.at("one.cnf.conquer", "records").iterdir()
        self.assertTrue(any(path.name.startswith("leaf_1_2_to_") for path in records))

    def test_receipts(self) -> None:
        """A block's log has one receipt, which is made again of the log if it is spoiled."""
        words = ["--receipts", "--block", "6", *self.WORDS, PIGEONS]
        for spoil in (lambda path: path, lambda path: path.write_text("spoiled\n"),
                      lambda path: path.unlink()):
            status, lines = self.conquer(*words)
            self.assertEqual((0, True), (status, "s COVERED" in lines), lines)
            moments = self.moments(PIGEONS)
            receipt = next(self.at(PIGEONS + ".conquer", "receipts").glob("*_to_*"))
            text = receipt.read_text()
            spoil(receipt)
            self.assertEqual(0, self.conquer("-q", *words).status)
            self.assertEqual((text, moments), (receipt.read_text(), self.moments(PIGEONS)))
        status, lines = self.conquer("--recheck", str(self.at(PIGEONS + ".conquer")))
        self.assertEqual((0, True), (status, "s COVERED" in lines), lines)
        self.refuted("--receipts", PIGEONS, "p.lrat")
        self.verifies(PIGEONS, "p.lrat")

    def test_dropped_logs(self) -> None:
        words = ["--receipts", "--drop-logs", *self.WORDS, PIGEONS]
        for _ in range(2):
            status, lines = self.conquer(*words)
            self.assertEqual((0, True, []), (status, "s COVERED" in lines, self.logs(PIGEONS)))
        self.assertEqual(0, self.to_run(lines))

    def test_spoiled_files(self) -> None:
        """A log that is cut, and a text that tells too many leaves of its log, or nothing: what
        `join` misses is run again."""
        words = ["--block", "6", *self.WORDS, PIGEONS, "p.lrat"]
        self.refuted(*words)
        log = next(path for path in self.logs(PIGEONS) if "_to_" in path.name)
        told = self.at(PIGEONS + ".conquer", "blocks", log.stem)
        for path, text in ((log, log.read_text()[:-9]), (told, ""), (told, "a 1 x 0\n"),
                           (told, "".join(line + "\n" for line in self.leaves(PIGEONS)))):
            path.write_text(text)
            if path == told:
                for other in self.logs(PIGEONS):
                    if other != log:
                        other.unlink()
            self.refuted(*words)
            self.verifies(PIGEONS, "p.lrat")

    def test_words(self) -> None:
        """It is refused if a job has one leaf."""
        for words in (["--engine", "make"], ["--seconds", "9"], ["--solver", "kissat"],
                      ["--solver", "cadical", "--pipe"], ["--solver", "cadical", "--seconds", "9"],
                      ["--block", "0"]):
            self.ends(1, ["c usage"], "--block", "4", *words, FOUR)
            self.tells("from 1 to 4096" if words[0] == "--block" else "--seconds: other jobs")


class BlocksOfCadical(OfBlocks):
    """A job of CaDiCaL takes neighbouring leaves: a script over the program that stands on the path
    as `cadical`, or CaDiCaL."""

    # What it does with a leaf's formula and the file of its proof, and with a block's.
    ALONE = 'exec PROGRAM decide -q "$4" "$5"'
    BLOCK = """PROGRAM session "$4" "$5" > "$5.told"
awk '/^s SAT/ { n++ } n == 1 && /^[sv] /' "$5.told"
grep -q '^s SAT' "$5.told" && exit 10
exit 20"""
    CADICAL = '#!/bin/sh\ncase $2 in --lrat) %s ;; esac\necho >> "$0.blocks"\n%s\n'

    def setUp(self) -> None:
        super().setUp()
        self.path = os.environ["PATH"]
        self.addCleanup(os.environ.__setitem__, "PATH", self.path)

    def stands(self, alone: str = ALONE, block: str = BLOCK) -> None:
        """Such a script stands on the path."""
        self.at("bin").mkdir(exist_ok=True)
        text = (self.CADICAL % (alone, block)).replace("PROGRAM", self.program)
        self.at(self.write("bin/cadical", text)).chmod(0o755)
        os.environ["PATH"] = "%s:%s" % (self.at("bin"), self.path)

    def words(self, *more: str) -> List[str]:
        return ["--solver", "cadical", *self.WORDS, *more]

    def begun(self) -> int:
        """For how many blocks it was started."""
        told = self.at("bin", "cadical.blocks")
        return len(told.read_text()) if told.exists() else 0

    def test_leaves_that_count(self) -> None:
        """Each leaf of a block does, and none is run again."""
        self.stands()
        for more in PACKINGS:
            self.forget(PIGEONS)
            words = self.words("--block", "6", *more, PIGEONS)
            self.refuted(*words)
            leaves, logs, facts = len(self.leaves(PIGEONS)), len(self.logs(PIGEONS)), self.facts()
            self.assertEqual([6, 6], [len(cubes) for cubes in self.blocks()][:2])
            self.assertLess(logs, leaves - 9)
            self.assertEqual((str(leaves), str(logs), "0"),
                             tuple(facts[name] for name in ("leaves", "jobs", "open")))
            before = self.moments(PIGEONS)
            self.assertEqual(0, self.to_run(self.refuted(*words, "p.lrat")))
            self.verifies(PIGEONS, "p.lrat")
            self.assertEqual(before, self.moments(PIGEONS), "a leaf was run again")

    def test_one_leaf_a_job(self) -> None:
        self.stands()
        self.refuted(*self.words("--block", "1", PIGEONS))
        self.assertEqual(([], 0), (self.blocks(), self.begun()))

    def test_four_leaves_a_job(self) -> None:
        """So it is if nothing is asked for."""
        self.stands()
        self.refuted(*self.words(PIGEONS))
        sizes = [len(cubes) for cubes in self.blocks()]
        self.assertEqual(4, max(sizes), sizes)

    def test_model(self) -> None:
        """A leaf of a block has one, and the run ends."""
        self.stands()
        clauses = ["%d %d %d 0" % (a, b, c) for a in (1, -1) for b in (2, -2) for c in (3, -3)]
        self.write("one.cnf", "p cnf 3 7\n" + "\n".join(clauses[:-1]) + "\n")
        words = self.words("--depth", "2", "--block", "4", "one.cnf")
        self.ends(10, ["s SATISFIABLE", "v 1 2 3 0"], "-q", *words)
        self.assertEqual(1, self.begun())

    LIES = {  # of a block, and what is told of it
        "echo garbage > $5; exit 20": "lift ends with 1",
        "exit 20": "lift ends with 1",
        "kill -9 $$": "the solver ends with -9",
        "echo v 1 2 0; exit 10": "",
        BLOCK.replace('"$5.told"\n', '"$5.told"\nsed -i "/^u/d" "$5"\n', 1):
            "a leaf of its block open",
    }

    def test_lies(self) -> None:
        """Whatever a job of a block says, its leaves are then run alone, and the answer is
        right."""
        for lie, told in self.LIES.items():
            self.forget(PIGEONS)
            self.stands(block=lie)
            lines = self.refuted(*self.words("--block", "6", PIGEONS, "p.lrat"))
            self.assertTrue(any(told in line for line in lines), (lie, lines))
            self.assertEqual([], self.blocks(), lie)
            self.verifies(PIGEONS, "p.lrat")

    def test_killed(self) -> None:
        """A block's log that stands is kept, and the other leaves are run."""
        self.stands(block="sleep 0.3\n" + self.BLOCK)
        words = self.words("--block", "4", PIGEONS, "p.lrat")
        process = self.start("-q", *words)
        logs = self.at(PIGEONS + ".conquer", "logs")
        self.wait_for("a block's log", lambda: list(logs.glob("*_to_*")))
        kill(process.pid)
        process.communicate()
        self.wait_for("jobs of a killed script", lambda: not self.running(PIGEONS), 2)
        before = self.moments(PIGEONS)
        left = self.to_run(self.refuted(*words))
        self.assertTrue(0 < left <= len(self.leaves(PIGEONS)) - 5, left)
        self.assertEqual(before, {path: self.moments(PIGEONS)[path] for path in before})
        self.verifies(PIGEONS, "p.lrat")

    def test_taken_apart(self) -> None:
        """The leaves of a block that takes too long are run beside it, and its job is ended."""
        self.stands(block='mkdir "$0.first" 2> /dev/null && sleep 60\n' + self.BLOCK)
        self.refuted(*self.words("--block", "6", "--jobs", "2", PIGEONS, "p.lrat"))
        self.assertEqual([], self.running(PIGEONS))
        records = Records(files.Folder(str(self.at(PIGEONS + ".conquer")))).all()
        self.assertIn(ENDED, [record.outcome for record in records if record.behind])
        self.assertEqual("0", self.facts()["open"])
        self.verifies(PIGEONS, "p.lrat")

    def test_ended(self) -> None:
        """The leaves that a block's job has closed are kept if the run is ended."""
        block = """PROGRAM session "$4" "$5" > "$5.told"
awk '/^q/ { n++ } n < 4' "$5" > "$5.cut"; printf 'l 99' >> "$5.cut"; mv "$5.cut" "$5"; sleep 60"""
        self.stands(block=block)
        run = self.start("-q", *self.words("--block", "6", PIGEONS))
        folder = self.at(PIGEONS + ".conquer", "scratch")
        ends = lambda: [path for path in folder.glob("*_to_*/lidrup")
                        if path.read_bytes().endswith(b"l 99")]
        self.wait_for("a block", lambda: folder.exists() and ends())
        run.send_signal(signal.SIGTERM)
        self.assertEqual((0, ["s UNKNOWN"]), self.end(run, "a run that is ended"))
        self.assertEqual([3], [len(cubes) for cubes in self.blocks()])
        self.stands()
        left = self.to_run(self.refuted(*self.words(PIGEONS, "p.lrat")))
        self.assertLessEqual(left, len(self.leaves(PIGEONS)) - 4)
        self.verifies(PIGEONS, "p.lrat")

    def test_receipts(self) -> None:
        self.stands()
        words = self.words("--receipts", "--block", "6", PIGEONS)
        for _ in range(2):
            status, lines = self.conquer(*words)
            self.assertEqual((0, True), (status, "s COVERED" in lines), lines)
        self.assertEqual(0, self.to_run(lines))
        status, lines = self.conquer("--recheck", str(self.at(PIGEONS + ".conquer")))
        self.assertEqual((0, True), (status, "s COVERED" in lines), lines)
        self.refuted("--receipts", PIGEONS, "p.lrat")
        self.verifies(PIGEONS, "p.lrat")

    @unittest.skipUnless(shutil.which("cadical"), "CaDiCaL is not installed")
    def test_cadical(self) -> None:
        """CaDiCaL itself."""
        for name in (PIGEONS, "schur_3_14.cnf"):
            self.refuted(*self.words("--block", "6", name, "p.lrat"))
            self.verifies(name, "p.lrat")
        self.assertNotEqual([], self.blocks())
        words = self.words("--block", "6", "schur_3_13.cnf")
        status, lines = self.conquer("-q", *words)
        self.assertEqual((10, "s SATISFIABLE"), (status, lines[0]))
        self.assertTrue(satisfies(self.at("schur_3_13.cnf").read_text(), lines))


class Cells(Case):
    """Workers that share what they learn: the way that is taken if no word asks for another one."""

    WORDS = ["--jobs", "2", "--depth", "4"]
    HARD = "hard.cnf"

    def setUp(self) -> None:
        super().setUp()
        self.draw = random.Random(int(os.environ.get("SEED", 1)))
        self.write(self.HARD, pigeons(8))

    def cell(self, formula: str, ending: str = ".log") -> List[Path]:
        """The logs, or the offers, of the workers of a formula's run."""
        folder = self.at(formula + ".conquer", "cell")
        return sorted(folder.glob("*" + ending)) if folder.exists() else []

    def refutes(self, formula: str, *words: str) -> None:
        """A run has this verdict, and a proof of it."""
        if self.at("c.lrat").exists():
            self.at("c.lrat").unlink()
        self.ends(20, ["s UNSATISFIABLE"], "-q", *self.WORDS, *words, formula, "c.lrat")
        self.verifies(formula, "c.lrat")
        self.assertEqual([], self.running(formula), "workers that are left")

    def wrapped(self, text: str) -> List[str]:
        """A program that does this before it does what it is asked. It is given an order by all."""
        self.write("wrapped", "#!/bin/sh\n%s\nexec %s \"$@\"\n" % (text, self.program))
        self.at("wrapped").chmod(0o755)
        return ["--program", str(self.at("wrapped"))]

    def test_unsatisfiable(self) -> None:
        """What stands is woven again, and no worker is begun; without PROOF none is left."""
        for name in ("four_clauses", "schur_3_14", "urquhart_24"):
            formula = name + ".cnf"
            self.ends(20, ["s UNSATISFIABLE"], "-q", *self.WORDS, formula)
            self.assertEqual([], list(self.at(formula + ".conquer").rglob("*.lrat")))
            before = self.cell(formula)
            self.assertTrue(before)
            self.refutes(formula)
            self.refutes(formula, "--binary")
            self.assertEqual(before, self.cell(formula))
            self.assertEqual([], self.logs(formula))

    def test_satisfiable(self) -> None:
        """The proof that stood is left, and the assignment is kept."""
        self.write("f.lrat", "what stood\n")
        for name in ("random_100_sat.cnf", "schur_3_13.cnf"):
            status, lines = self.conquer("-q", *self.WORDS, name, "f.lrat")
            self.assertEqual((10, "s SATISFIABLE"), (status, lines[0]))
            self.assertTrue(satisfies(self.at(name).read_text(), lines))
            before = self.cell(name)
            self.ends(10, ["s SATISFIABLE"], "-q", "-n", *self.WORDS, name)
            self.assertEqual(before, self.cell(name))
        self.assertEqual("what stood\n", self.at("f.lrat").read_text())

    def test_one_leaf(self) -> None:
        """All workers search the whole formula."""
        status, lines = self.conquer("--jobs", "3", "--depth", "0", PIGEONS)
        self.assertEqual((20, "c a cell of 3: 3 on the whole formula"), (status, lines[0]), lines)

    def test_large(self) -> None:
        """A formula above the written limits is given to workers and weaver with the word."""
        self.write("large.cnf", "p cnf 1000001 3\n1 2 0\n-1 0\n-2 1000001 0\n")
        self.ends(10, ["s SATISFIABLE"], "-q", "-n", *self.WORDS, "large.cnf")
        self.write("none.cnf", "p cnf 1000001 4\n1 2 0\n-1 0\n-2 1000001 0\n-1000001 -2 0\n")
        status, lines = self.conquer(*self.WORDS, "none.cnf", "c.lrat")
        self.assertEqual((20, True), (status, "s UNSATISFIABLE" in lines), lines)
        self.assertTrue(lines[0].startswith("c --large") and self.cell("none.cnf"), lines)
        done = subprocess.run([self.program, "check", "--large", "none.cnf", "c.lrat"],
                              cwd=str(self.folder), stdout=subprocess.PIPE, check=False)
        self.assertEqual(b"s VERIFIED\n", done.stdout)

    def test_memory(self) -> None:
        """No more workers are begun than there is room for."""
        with mock.patch.object(Path, "read_text", return_value="MemAvailable:  900000 kB\n"):
            self.write("f.cnf", " " * 10000000)
            self.assertEqual(4, cell.room(str(self.at("f.cnf"))))
        with mock.patch.object(Path, "read_text", side_effect=OSError):
            self.assertEqual(float("inf"), cell.room(str(self.at("f.cnf"))))

    def test_ways(self) -> None:
        """Words of jobs are obeyed, and so are logs that stand: no cell is made."""
        for words in ("--no-share", "--jobs 1", "--block 2", "--no-race", "--no-cuts",
                      "--limit 999", "--seconds 99", "--receipts", "--scratch .",
                      "--engine make", *["--compress"] * bool(shutil.which("zstd"))):
            self.forget(FOUR)
            self.assertIn(self.conquer("-q", "--jobs", "2", *words.split(), FOUR).status, (0, 20))
            self.assertFalse(self.at(FOUR + ".conquer", "cell").exists(), words)
            self.assertNotEqual([], self.logs(FOUR), words)
        status, lines = self.conquer("--jobs", "2", FOUR)
        self.assertEqual((20, True), (status, "--no-share" in "".join(lines)), lines)

    def test_jobs_after_a_cell(self) -> None:
        """They run the leaves that the cell has left; a cell goes on after them, too."""
        self.ends(20, ["s UNSATISFIABLE"], "-q", *self.WORDS, PIGEONS)
        logs = self.cell(PIGEONS)
        for is_cut in (False, True):
            for path in logs[1:] * is_cut:
                path.unlink()
            if is_cut:
                logs[0].write_bytes(logs[0].read_bytes()[:-len(logs[0].read_bytes()) // 4])
                self.at(PIGEONS + ".conquer", "logs", "cell.lrat").unlink()
            status, lines = self.conquer(*self.WORDS, "--no-share", PIGEONS, "c.lrat")
            self.assertEqual((20, True), (status, "s UNSATISFIABLE" in lines), lines)
            self.verifies(PIGEONS, "c.lrat")
            told = "c %d leaves, 0 to run" % len(self.leaves(PIGEONS)) in lines
            self.assertEqual(not is_cut, told, lines)
            if not is_cut:
                self.refutes(PIGEONS)

    def test_leaves_alone(self) -> None:
        """All leaves are closed, and the formula is not: `join` makes the proof."""
        self.ends(20, ["s UNSATISFIABLE"], "-q", *self.WORDS, PIGEONS)
        hides = 'case "$*" in weave*--cubes*) ;; weave*) echo c closes nothing; exit 1;; esac'
        for words in ([], ["--binary"], ["--publish", "to"]):
            self.refutes(PIGEONS, *self.wrapped(hides), *words)
        self.assertTrue(self.at("to", "proof.lrat.xz").exists())

    def test_publish(self) -> None:
        """The same run makes the same bytes again."""
        words = ["-q", *self.WORDS, "--publish", "to", PIGEONS]
        self.ends(20, ["s UNSATISFIABLE"], *words)
        first = {path.name: path.read_bytes() for path in self.at("to").iterdir()}
        self.ends(20, ["s UNSATISFIABLE"], *words)
        second = {path.name: path.read_bytes() for path in self.at("to").iterdir()}
        self.assertEqual([], [name for name in first if first[name] != second.get(name)])
        self.assertEqual(set(first), set(second))

    def test_usage(self) -> None:
        """What is read of logs: lemmas, and whose were taken over, by the names that stand for
        them."""
        self.write("a.log", "e 1 0\n9 1 0 2 3 0\nw 1 b 0\n10 i 2 -3 0 1 12 0\n9 d 9 0\n"
                   "11 i 0 1 13 0\nw 2 c 0\n12 i 7 0 2 9 0\n13 0 11 0\n14 5 0 ")
        self.write("b.log", "")
        found = {one.name: one for one in usage.usages(self.folder)}
        self.assertEqual({"a": usage.Usage("a", 2, {"b": 2, "c": 1}),
                          "b": usage.Usage("b", 0, {})}, found)

    def test_report(self) -> None:
        """Its lanes have leaves and the whole formula."""
        self.refutes(PIGEONS)
        facts = dict(re.findall("<dt>([^<]*)<dd>([^<]*)</div>", self.report(PIGEONS)))
        self.assertEqual("0", facts["open"])
        self.assertIn("the whole formula unsplit", facts)
        self.assertIn("satcluster share, 2 workers", self.report(PIGEONS))
        self.assertIn("<h2>Who used whose lemmas</h2>", self.report(PIGEONS))
        played = subprocess.run([sys.executable, str(SCRIPT.parent / "simulate.py"),
                                 PIGEONS + ".conquer"], cwd=str(self.folder),
                                stdout=subprocess.PIPE, stderr=subprocess.PIPE, check=False)
        self.assertEqual((1, True), (played.returncode, b"is of a cell" in played.stderr))
        rows = self.at(PIGEONS + ".conquer", "leaves.csv").read_text().splitlines()
        self.assertEqual(len(self.leaves(PIGEONS)), len(rows) - 1)

    def test_workers_that_die(self) -> None:
        """Each of the first four, at once or while it searches: others are begun."""
        for dies in ("kill -9 $$", "timeout -s KILL 0.1 %s \"$@\"; exit 9" % self.program,
                     "echo c no memory; exit 1"):
            self.forget(self.HARD)
            for number in range(4):
                shutil.rmtree(str(self.at("wrapped.%d" % number)), ignore_errors=True)
            first = "".join("mkdir $0.%d 2> /dev/null && { %s; }\n" % (number, dies)
                            for number in range(4))
            self.refutes(self.HARD, *self.wrapped('case "$1" in share)\n%s;; esac' % first))

    def test_workers_that_all_die(self) -> None:
        """Each is begun three times, and why it died is told twice. The next start goes on."""
        dies = self.wrapped('case "$1" in share) echo begun >> $0.count; exit 3;; esac')
        status, lines = self.conquer(*self.WORDS, *dies, PIGEONS, "c.lrat")
        self.assertEqual((0, True), (status, "s UNKNOWN" in lines), lines)
        self.assertIn("c leaf 1 missing", lines)
        self.assertEqual(6, len(self.at("wrapped.count").read_text().splitlines()))
        told = [line for line in lines if " failed: share ends with 3" in line]
        self.assertEqual(2, len(told), lines)
        self.assertEqual("c 6 jobs failed: share ends with 3: nothing printed", told[1])
        self.assertFalse(self.at("c.lrat").exists())
        self.refutes(PIGEONS)

    LIES = ("exit 20", "echo c closed; exit 20", "echo c closed by others",
            "echo s SATISFIABLE; echo v 1 2 3 0; exit 10", "seq -f 'c leaf %g closed' 99; sleep 9",
            "seq -f 'c leaf %g closed' 99; exit 20", "echo; yes 'c leaf 0 closed' | head -9")

    def test_lies(self) -> None:
        """What a worker says of itself is no answer: a run goes on, or ends without one."""
        for lie in self.LIES:
            self.forget(PIGEONS)
            always = self.wrapped('case "$1" in share) %s; exit 0;; esac' % lie)
            status, lines = self.conquer("-q", *self.WORDS, *always, PIGEONS)
            self.assertEqual((0, "s UNKNOWN"), (status, lines[-1]), (lie, lines))
            shutil.rmtree(str(self.at("wrapped.once")), ignore_errors=True)
            once = self.wrapped('case "$1" in share) mkdir $0.once && { %s; exit 0; };; '
                                "esac 2> /dev/null" % lie)
            self.refutes(PIGEONS, *once)

    def test_weaving_that_is_killed(self) -> None:
        """It is begun again."""
        once = self.wrapped('case "$1" in weave) mkdir $0.$1 2> /dev/null && kill -9 $$;; esac')
        self.refutes(PIGEONS, *once)

    def test_other_formula(self) -> None:
        """It is told, and the folder is left as it was."""
        self.ends(20, ["s UNSATISFIABLE"], "-q", *self.WORDS, FOUR)
        before = self.cell(FOUR)
        for _ in range(2):
            status, lines = self.conquer("--jobs", "2", "--folder", FOUR + ".conquer", PIGEONS)
            self.assertEqual((1, "c cubes of another formula"), (status, lines[-1]))
            self.tells("/%s." % FOUR)
        self.assertEqual(before, self.cell(FOUR))
        self.refutes(FOUR)

    def test_timeout(self) -> None:
        """The next start goes on with what was learnt."""
        self.write("long.cnf", pigeons(11))
        words = [*self.WORDS, "--timeout", "4", "long.cnf"]
        status, lines = self.conquer(*words)
        self.assertEqual((0, "s UNKNOWN"), (status, lines[-1]))
        before = len(self.cell("long.cnf"))
        self.assertEqual((2, []), (before, self.running("long.cnf")))
        self.ends(0, ["s UNKNOWN"], "-q", *words)
        self.assertEqual(4, len(self.cell("long.cnf")))
        self.assertTrue(any(b" i " in path.read_bytes() for path in self.cell("long.cnf")))

    def spoil(self, path: Path) -> None:
        """Cuts a file anywhere, or changes it."""
        data = path.read_bytes()
        place = self.draw.randrange(len(data) + 1)
        kind = self.draw.randrange(6)
        if kind < 3:
            path.write_bytes(data[:place])
        elif kind == 3:
            path.write_bytes(data[:place] + b"7" + data[place + 1:])
        elif kind == 4:
            path.write_bytes(data[:place] + data[place // 2:])
        else:
            path.unlink()

    def test_spoilt_files(self) -> None:
        """Whatever became of logs and offers, the run goes on with the others."""
        self.ends(20, ["s UNSATISFIABLE"], "-q", *self.WORDS, PIGEONS)
        whole = {path: path.read_bytes() for path in self.cell(PIGEONS, ".*")}
        for _ in range(8):
            for path in self.cell(PIGEONS, ".*"):
                path.unlink()
            for path, data in whole.items():
                path.write_bytes(data)
                if self.draw.random() < 0.7:
                    self.spoil(path)
            self.refutes(PIGEONS)

    def test_files_of_others(self) -> None:
        """Logs that are none, of another formula, with wrong offers; and what is no file."""
        self.ends(20, ["s UNSATISFIABLE"], "-q", *self.WORDS, "schur_3_14.cnf")
        cell = self.at(PIGEONS + ".conquer", "cell")
        cell.mkdir(parents=True)
        for path in self.cell("schur_3_14.cnf", ".*"):
            shutil.copy(str(path), str(cell))
        (cell / "folder.log").mkdir()
        (cell / "folder2.out").mkdir()
        os.mkfifo(str(cell / "pipe.out"))
        (cell / "lies.out").write_text("1 200 0\n1 201 1 0\n")
        (cell / "wrong.log").write_text("134 1 0 1 2 0\n")
        (cell / "wrong.out").write_text("1 134 1 0\n1 134 2 0\n")
        (cell / "garbage.log").write_bytes(bytes(range(256)))
        (cell / "garbage.out").write_bytes(bytes(range(256)))
        for _ in range(2):
            self.refutes(PIGEONS)

    def test_script_killed(self) -> None:
        """At random moments; its workers end with it, and what they had learnt is lent again."""
        self.killed(int(os.environ.get("KILLS", 10)), 0)

    def test_workers_killed(self) -> None:
        """Two at random moments of each start, and now and then the script."""
        self.killed(int(os.environ.get("KILLS", 10)) // 3, 2)

    def killed(self, kills: int, workers: int) -> None:
        words = ["-q", *self.WORDS, "--depth", "3", self.HARD, "c.lrat"]
        began, done = time.monotonic(), 0
        self.refutes(self.HARD)
        whole = time.monotonic() - began
        self.forget(self.HARD)
        for _ in range(50 * kills):
            if done >= kills:
                break
            process = self.start(*words)
            for _ in range(workers):
                time.sleep(self.draw.uniform(0.2, 0.5) * whole)
                found = [pid for pid in self.running(self.HARD) if pid != process.pid]
                done += kill(self.draw.choice(found)) if found else 0
            time.sleep(self.draw.uniform(0, 1) * whole)
            if process.poll() is None and self.draw.random() < (0.3 if workers else 1):
                done += kill(process.pid)
                process.communicate()
                self.wait_for("workers", lambda: not self.running(self.HARD), 5)
                if self.cell(self.HARD, ".*") and self.draw.random() < 0.3:
                    self.spoil(self.draw.choice(self.cell(self.HARD, ".*")))
                continue
            self.assertEqual((20, ["s UNSATISFIABLE"]), self.end(process, "a start"))
            self.forget(self.HARD)
        self.assertGreaterEqual(done, kills)
        self.refutes(self.HARD)
        self.assertEqual(["c.lrat"], [path.name for path in self.folder.glob("c.lrat*")])

    def test_model_of_a_killed_run(self) -> None:
        """Killed anywhere, a satisfiable formula gets no other verdict."""
        formula = "random_100_sat.cnf"
        for _ in range(max(2, int(os.environ.get("KILLS", 10)) // 3)):
            process = self.start("-q", "-n", *self.WORDS, formula)
            time.sleep(self.draw.uniform(0.1, 0.6))
            kill(process.pid)
            process.communicate()
            self.ends(10, ["s SATISFIABLE"], "-q", "-n", *self.WORDS, formula)
            self.forget(formula)


class Engines(Case):
    """An engine of others gives the same answers."""

    def answers(self, name: str, tool: str) -> None:
        if not shutil.which(tool):
            self.skipTest(name + " is not installed")
        words = ["-q", "--engine", name, "--jobs", "2", "--depth", "3"]
        self.ends(20, ["s UNSATISFIABLE"], *words, "schur_3_14.cnf", "e.lrat")
        self.verifies("schur_3_14.cnf", "e.lrat")
        self.ends(10, ["s SATISFIABLE"], *words, "-n", "schur_3_13.cnf")

    def test_make(self) -> None:
        self.answers("make", "make")

    def test_parallel(self) -> None:
        self.answers("parallel", "parallel")

    def test_engine_that_is_not_there(self) -> None:
        if shutil.which("parallel"):
            self.skipTest("parallel is installed")
        self.ends(1, ["c parallel is not installed"], "--engine", "parallel", FOUR)


class Slurm(Case):
    """Arrays on three nodes, all of them this machine; an array has eight tasks at most."""

    slurm: small_slurm.SmallSlurm
    NAME = "schur_3_14.cnf"
    WORDS = ["--engine", "slurm", "--depth", "4"]
    SOLVE = "exec %s decide -q $1 $2"

    @classmethod
    def setUpClass(cls) -> None:
        if not small_slurm.is_installed():
            raise unittest.SkipTest("slurm is not installed")
        folder = Path(tempfile.mkdtemp())
        cls.addClassCleanup(shutil.rmtree, str(folder), ignore_errors=True)
        cls.slurm = small_slurm.SmallSlurm(folder, 3, 9)
        cls.addClassCleanup(cls.slurm.stop)
        before = os.environ.get("SLURM_CONF")
        os.environ["SLURM_CONF"] = cls.slurm.environment["SLURM_CONF"]
        if before is not None:
            cls.addClassCleanup(os.environ.__setitem__, "SLURM_CONF", before)

    def solver(self, name: str, text: str) -> str:
        return self.script(name, text + "\n" + self.SOLVE % self.program)

    def tasks(self) -> List[str]:
        return sorted(path.name for path in self.at(self.NAME + ".conquer", "tasks").iterdir())

    def is_idle(self) -> bool:
        return self.slurm.says("squeue", "-h").strip() == ""

    def test_answers(self) -> None:
        """All nodes have leaves, and tasks have logs; that each has several leaves is told."""
        solver = self.solver("tells", "echo $SLURMD_NODENAME >> %s; sleep 0.5" % self.at("nodes"))
        status, lines = self.conquer(*self.WORDS, "--solver", solver, self.NAME, "s.lrat")
        self.assertEqual((20, True), (status, "s UNSATISFIABLE" in lines), lines)
        self.verifies(self.NAME, "s.lrat")
        self.assertEqual({"n1", "n2", "n3"}, set(self.at("nodes").read_text().split()))
        told = [line for line in lines if "leaves in 8 tasks" in line]
        self.assertEqual(1, len(told), lines)
        self.assertLessEqual(3, len(self.tasks()), "logs of tasks that have begun")
        self.ends(10, ["s SATISFIABLE"], "-q", "-n", *self.WORDS, "schur_3_13.cnf")
        self.wait_for("the tasks that are ended", self.is_idle)

    def test_limits(self) -> None:
        """What a task may take is asked for; what jobs have taken is told by the next start."""
        asks = 'squeue -h -j $SLURM_JOB_ID -o "%%m %%l" >> %s' % self.at("asked")
        words = [*self.WORDS, "--memory", "300", "--minutes", "7"]
        words += ["--solver", self.solver("asks", asks), self.NAME]
        self.assertEqual(20, self.conquer(*words).status)
        self.assertEqual({"300M 7:00"}, set(self.at("asked").read_text().split("\n")[:-1]))
        told = [line for line in self.conquer(*words).lines if line.startswith("c the longest of ")]
        self.assertEqual((1, True), (len(told), " MB" in told[0]))
        self.ends(1, ["c usage"], "--minutes", "7", self.NAME)

    def test_task_that_is_ended(self) -> None:
        """One that takes more memory than it may. Its leaf is told failed, and not closed."""
        greedy = "python3 -c 'import time; text = bytes(1) * (400 << 20); time.sleep(60)'"
        words = ["--engine", "slurm", "--depth", "0", "--memory", "100"]
        words += ["--solver", self.script("greedy", greedy), self.NAME]
        status, lines = self.conquer(*words)
        self.assertEqual((0, True), (status, "c leaf 1 missing" in lines), lines)
        self.assertIn("its task has met its memory limit", "\n".join(lines))
        self.assertEqual([], self.logs(self.NAME))

    def test_long_leaf(self) -> None:
        """The halves of a leaf that takes long are a second array; when they are closed its job is
        ended, and has closed nothing."""
        whole = "grep -q '%s' $1 && exec sleep 200" % Cuts.HEADER
        words = ["--engine", "slurm", "--depth", "0", "--solver", self.solver("cutter", whole)]
        status, lines = self.conquer(*words, self.NAME, "c.lrat")
        self.assertEqual((20, True), (status, "s UNSATISFIABLE" in lines), lines)
        self.verifies(self.NAME, "c.lrat")
        self.assertEqual(2, len({name.split("_")[0] for name in self.tasks()}))
        self.assertEqual(2, len(self.logs(self.NAME)))
        self.assertIn("as one leaf ended after", self.report(self.NAME))
        self.wait_for("the tasks that are ended", self.is_idle)

    def test_receipts_and_a_lost_node(self) -> None:
        """A node is lost while leaves are searched; what is missing is run by the next start."""
        solver = self.solver("slow", "sleep 1")
        words = ["--receipts", *self.WORDS, "--no-race", "--solver", solver, self.NAME]
        run = self.start(*words)
        self.wait_for("a job", lambda: "R" in self.slurm.says("squeue", "-h", "-o", "%t"))
        self.node("state=down", "reason=lost")
        status, lines = self.end(run, "a node that is lost")
        self.node("state=resume")
        if status == 1:
            self.assertIn("s NOT COVERED", lines)
            status, lines = self.conquer(*words)
        self.assertEqual((0, True), (status, "s COVERED" in lines), lines)
        self.wait_for("the tasks that are ended", self.is_idle)

    def node(self, *words: str) -> None:
        self.slurm.says("scontrol", "update", "nodename=n1", *words)

    def test_end_of_the_script(self) -> None:
        """SIGTERM ends the array. One that was killed has it run on, and the next start waits for
        it; under nohup a script goes on when the login ends."""
        solver = self.solver("slow", "sleep 2")
        words = ["-q", *self.WORDS, "--jobs", "4", "--solver", solver, self.NAME, "s.lrat"]
        for ending in (signal.SIGTERM, signal.SIGHUP):
            run = self.start(*words)
            self.wait_for("a job", lambda: "R" in self.slurm.says("squeue", "-h", "-o", "%t"))
            run.send_signal(ending)
            self.assertEqual((0, ["s UNKNOWN"]), self.end(run, ending))
            self.wait_for("the array's end", self.is_idle, 20)
            scratch = self.at(self.NAME + ".conquer", "scratch")
            self.assertEqual([], list(scratch.glob("leaf*")), "what tasks have left")
        run = self.start(*words)
        self.wait_for("a job", lambda: "R" in self.slurm.says("squeue", "-h", "-o", "%t"))
        kill(run.pid)
        run.communicate()
        status, lines = self.conquer(*words[1:])
        self.assertEqual(20, status, lines)
        self.assertTrue(any("of an earlier start" in line for line in lines), lines)
        self.assertTrue(any(line.endswith(" leaves, 0 to run") for line in lines), lines)
        self.forget(self.NAME)
        before = signal.signal(signal.SIGHUP, signal.SIG_IGN)  # as nohup does
        self.addCleanup(signal.signal, signal.SIGHUP, before)
        run = self.start(*words)
        self.wait_for("a job", lambda: "R" in self.slurm.says("squeue", "-h", "-o", "%t"))
        run.send_signal(signal.SIGHUP)
        self.assertEqual(20, self.end(run, "a login that ends").status)
        self.verifies(self.NAME, "s.lrat")


class Kills(Case):
    """The script is killed at random moments, and started again; so are its jobs."""

    def setUp(self) -> None:
        super().setUp()
        self.kills = int(os.environ.get("KILLS", 6))
        self.draw = random.Random(int(os.environ.get("SEED", 1)))

    def test_local(self) -> None:
        self.killed("local", self.kills)

    def test_make(self) -> None:
        self.killed("make", max(1, self.kills // 3))

    def test_parallel(self) -> None:
        if not shutil.which("parallel"):
            self.skipTest("parallel is not installed")
        self.killed("parallel", max(1, self.kills // 3))

    def killed(self, engine: str, kills: int) -> None:
        words = ["-q", "--no-race", "--engine", engine, "--jobs", "2", "--depth", "5"]
        words += ["--block", "1"] * (engine == "local")  # jobs of a block are over too soon
        words += [PIGEONS, "p.lrat"]
        began = time.monotonic()
        self.ends(20, ["s UNSATISFIABLE"], *words)
        whole = time.monotonic() - began
        self.forget(PIGEONS)
        done: Dict[str, int] = collections.Counter()
        for _ in range(50 * kills):
            if min(done["scripts"], done["jobs"]) >= kills:
                break
            process = self.start(*words)
            done["jobs"] += self.kill_jobs(process, whole)
            if process.poll() is None:
                done["scripts"] += kill(process.pid)
                process.communicate()
                self.wait_for("jobs of a killed script", lambda: not self.running(PIGEONS), 2)
            else:
                self.left_alone(process)
        else:
            self.fail("killed too few: %s" % dict(done))
        if self.at("p.lrat").exists():
            self.at("p.lrat").unlink()
        self.ends(20, ["s UNSATISFIABLE"], *words)
        self.verifies(PIGEONS, "p.lrat")
        self.assertEqual(["p.lrat"], [path.name for path in self.folder.glob("p.lrat*")])
        print("%s: killed %d times, and %d of its jobs" % (engine, done["scripts"], done["jobs"]))

    def kill_jobs(self, process: subprocess.Popen, whole: float) -> int:
        """Kills jobs of a run now and then, for a part of the time that a run takes, which begins
        with its first job: a script may need longer to start than its jobs to end."""
        self.wait_for("a job", lambda: process.poll() is not None or self.jobs_of(process))
        until, killed = time.monotonic() + self.draw.uniform(0.1, 0.5) * whole, 0
        while time.monotonic() < until and process.poll() is None:
            found = self.jobs_of(process)
            if found and self.draw.random() < 0.5:
                killed += kill(self.draw.choice(found))
            time.sleep(self.draw.uniform(0, 0.03) * whole)
        return killed

    def jobs_of(self, process: subprocess.Popen) -> List[int]:
        return [job for job in self.running(PIGEONS) if job != process.pid]

    def left_alone(self, process: subprocess.Popen) -> None:
        """A run that came to its end; if not, a leaf's jobs were killed three times."""
        end = self.end(process, "a start")
        if end.status != 0:
            self.assertEqual((20, ["s UNSATISFIABLE"]), end)
            self.forget(PIGEONS)


class Units(unittest.TestCase):
    """What is read of files, and reckoned of a run."""

    def setUp(self) -> None:
        self.path = Path(tempfile.mkstemp()[1])
        self.addCleanup(self.path.unlink)

    def test_cubes(self) -> None:
        self.path.write_text("p inccnf\n1 -2 0\na 1 -2 0\na 1 2 0\na 0\nc a 3 0\n")
        self.assertEqual([(1, -2), (1, 2), ()], read_cubes(self.path))
        self.path.write_text("a 1 x 0\n")
        self.assertRaises(Fault, read_cubes, self.path)

    def test_closed_by(self) -> None:
        """The last lemma tells it, also before deletions and in a log that is long."""
        for text, wanted in (("5 -1 2 0 2 4 0\n", {1, -2}), ("5 0 1 0\n", set()), ("", None),
                             ("5 -1 0 2 4 0\n6 d 5 0\n", {1}), ("5 d 1 0\n", None),
                             ("garbage\n", None), ("5 1 2 3\n", None),
                             ("5 7 0 1 0\n" * 9000 + "6 -3 0 1 0\n", {3}),
                             ("5 7 0 " + "1 " * 20000 + "0\n", None)):
            self.path.write_text(text)
            self.assertEqual(wanted, closed_by(self.path), text[:40])
        self.assertIsNone(closed_by(Path("/none")))

    def test_names(self) -> None:
        self.assertEqual("leaf_3_-7", name_of((3, -7)))
        self.assertEqual("leaf", name_of(()))
        self.assertEqual("leaf_1_-2_to_-1_4", name_of((1, -2), (-1, 3), (-1, 4)))
        self.assertEqual("logs/leaf_-1.lrat", log_of((-1,)))
        self.assertEqual("answers/leaf_-1", answer_of((-1,)))
        names = {name_of(tuple(range(first, first + 64))) for first in (1, 2, 100000)}
        self.assertEqual((3, True), (len(names), all(len(name) < 200 for name in names)))

    def test_figures(self) -> None:
        """Those of a run with three leaves: one was cut in two, one closed by another's log."""
        cubes = [(1, 2), (1, -2), (-1,)]
        records = [Record((1,), LIMIT, "", 0.0, 10.0, "here", 0, 3000000),
                   Record((-1,), CLOSED, "", 0.0, 30.0, "here", 500, 5000000),
                   Record((1, -2), CLOSED, "", 10.0, 20.0, "here", 1500)]
        state = State(cubes, frozenset(cubes[1:]), frozenset(cubes[:1]), records)
        self.assertEqual({"leaves": "3", "closed by a log of its own": "2", "by another's log": "1",
                          "open": "0", "leaves that were cut": "1",
                          "of these closed as one": "0", "jobs": "3", "by the clock": "30 s",
                          "time of all jobs": "50 s",
                          "most memory": "5 MB", "mean of a leaf": "20 s", "median": "30 s",
                          "longest": "30 s, 60% of all", "logs": "2,000 bytes"},
                         dict(state.facts()))
        page = report.page("/a/<f>.cnf", "x", state, 20)
        self.assertIn("&lt;f&gt;.cnf: s UNSATISFIABLE", page)
        self.assertEqual(3, len(re.findall("<td class=cube>", page)))
        self.assertEqual(([0, 1, 0], [(1, 0), (1, 1)]), report.lanes_of(records))
        self.assertEqual(([], 30.0), report.breaks_of(records))
        later = Record((2,), CLOSED, "", 100.0, 101.0, "there", 1)
        self.assertEqual(([(30.0, 70.0)], 101.0), report.breaks_of(records + [later]))

    def test_figures_of_a_block(self) -> None:
        """Each of its leaves has its part of the log, and the same part of the time; or an equal
        one, if that is not known."""
        cubes = [(1, 2), (1, -2), (-1,)]
        record = Record(cubes[0], CLOSED, "", 10.0, 40.0, "here", 300, behind=tuple(cubes[1:]),
                        parts=(1000, 0, 2000))
        self.assertEqual([(10.0, 20.0, 100), (20.0, 20.0, 0), (20.0, 40.0, 200)],
                         [(share.begin, share.end, share.bytes) for share in record.shares()])
        self.assertEqual(["about 10 s", "no time", "about 20 s"],
                         list(map(figures.took, record.shares())))
        record = Record(cubes[0], CLOSED, "", 10.0, 40.0, "here", 1001, behind=tuple(cubes[1:]))
        facts = dict(State(cubes, frozenset(cubes), frozenset(), [record]).facts())
        self.assertEqual(["3", "3", "1", "30 s", "10 s", "1,001 bytes"], [facts[name] for name in (
            "leaves", "closed by a log of its own", "jobs", "time of all jobs",
            "mean of a leaf", "logs")])

    def test_sizes_of_blocks(self) -> None:
        """An equal share of what waits, at most as many as are asked for, and no more than end in
        twenty seconds, or before the run is to end."""
        for wanted, most, waiting, jobs, mean in (
                (15, 16, 60, 4, 0.0), (16, 16, 99, 4, 0.1), (1, 16, 3, 4, 0.1),
                (6, 16, 99, 4, 3.0), (1, 16, 99, 4, 61.0), (99, 4096, 99, 1, 0.1)):
            self.assertEqual(wanted, size_of_block(most, waiting, jobs, mean))
        self.assertEqual([2, 1], [size_of_block(16, 99, 4, 3.0, left) for left in (6.5, 0.1)])

    def test_figures_of_nothing(self) -> None:
        state = State([()], frozenset(), frozenset(), [])
        self.assertEqual("0", dict(state.facts())["closed by a log of its own"])
        self.assertIn("f: under way", report.page("f", "x", state, None))

    def test_figures_of_the_race(self) -> None:
        """The job that searched the whole formula is told, and is no job of a leaf."""
        race = Record((), ENDED, "", 0.0, 5.0, "here", 0, 0, WHOLE.tree)
        state = State([(1,), (-1,)], frozenset(), frozenset(), [race])
        self.assertEqual(("ended, 5 s", "2"), tuple(
            dict(state.facts())[name] for name in ("the whole formula unsplit", "open")))

    def test_parts_of_a_log(self) -> None:
        """Each leaf has what comes up to the first lemma that closes it, however the log is
        read."""
        cubes = [(1, 2), (1, -2), (-1, 2), (-1, -2)]
        lines = ["9 3 -1 0 1 0", "10 -1 -2 0 9 0", "11 4 0 2 0", "11 d 9 0", "12 -1 0 10 11 0",
                 "13 1 -2 0 4 0", "14 5 0 1 0", "15 1 0 14 0"]
        self.path.write_text("\n".join(lines) + "\n")
        sizes = [len(line) + 1 for line in lines]
        wanted = (sum(sizes[:2]), sum(sizes[2:5]), sizes[5], sum(sizes[6:]))
        for piece in (1, 7, 1 << 20):
            with mock.patch.object(closings, "PIECE", piece):
                self.assertEqual((7, wanted), closings.shape(self.path, cubes))
        self.assertEqual((7, (sum(sizes),)), closings.shape(self.path, cubes[:1]))
        self.path.write_text("10 -1 0 9 0\n")
        self.assertEqual((1, (12, 0, 0)), closings.shape(self.path, [(1, 2), (1, -2), (-1,)]),
                         "one lemma closes two, and nothing the third")

    def test_log_that_is_cut(self) -> None:
        """A log that has grown is taken up to its last whole leaf, wherever it is cut."""
        cubes = [(1, 2), (1, -2), (-1, 2)]
        lines = ["9 3 -1 0 1 0", "10 -1 -2 0 9 0", "11 4 0 2 0", "12 -1 2 0 10 11 0",
                 "13 5 0 4 0", "14 1 -2 0 13 0", "15 1 2 0 14 0"]
        text = "".join(line + "\n" for line in lines)
        ends = [len("".join(line + "\n" for line in lines[:count])) for count in (2, 4, 6)]
        for size in range(len(text) + 1):
            self.path.write_text(text[:size])
            count = sum(end <= size for end in ends)
            self.assertEqual(count, cut_log(self.path, cubes), text[:size])
            self.assertEqual(text[:ends[count - 1]] if count else text[:size],
                             self.path.read_text())
        self.assertEqual(0, cut_log(Path("/none"), cubes))

    def test_shares_of_a_block_that_has_grown(self) -> None:
        """The searched leaves have their own times, and the one at which the job was ended has the
        rest; those behind it have none."""
        cubes = [(1, 2), (1, -2), (-1, 2), (-1, -2)]
        turns = (Turn(CLOSED, 12.0), Turn(LIMIT, 15.0))
        record = Record(cubes[0], LIMIT, "", 10.0, 40.0, "here", 300, behind=tuple(cubes[1:]),
                        parts=(600,), turns=turns)
        self.assertEqual([(cubes[0], CLOSED, 2.0, 300), (cubes[1], LIMIT, 3.0, 0),
                          (cubes[2], ENDED, 25.0, 0)],
                         [(share.cube, share.outcome, share.end - share.begin, share.bytes)
                          for share in record.shares()])
        self.assertEqual(["2 s", "3 s", "25 s"], list(map(figures.took, record.shares())))

    def test_names_of_machines(self) -> None:
        """The same run on machines of other names makes the same pictures and figures, and tells
        the solver without the place at which it is installed."""
        made = set()
        for one, other in (("a", "b"), ("z", "y")):
            records = [Record((1,), CLOSED, "", 5.0, 6.0, one, 10),
                       Record((-1,), CLOSED, "", 6.0, 9.0, other, 10)]
            state = State([(1,), (-1,)], frozenset([(1,), (-1,)]), frozenset(), records)
            scale = report.scale_of(state, state.last())
            made.add((report.listed(state), report.workers(records, scale),
                      report.how_of(Plan("satcluster", "f.cnf", [["/%s/s" % one, "{cnf}"]]), 0)))
        self.assertEqual(1, len(made))
        figures_of, _, how = made.pop()
        self.assertIn(",machine\n1,1,by its log,closed,1,0.000,1.000,0,10,1\n", figures_of)
        self.assertEqual("s {cnf}", how)

    def test_time_left(self) -> None:
        """It is unknown at first; then it is wide, and holds what comes if all leaves are alike."""
        times = progress.Times([10.0] * 7)
        now = progress.Now([5.0] * 4, most=4)
        self.assertIsNone(times.left(now, 20))
        self.assertEqual("time left unknown: 7 leaves of 0:10 so far", progress.told(times, None))
        times.all.append(10.0)
        low, high = times.left(now, 20) or (0, 0)
        self.assertTrue(0 < low < 55 < high < 200, (low, high))
        slow = progress.Now([500.0], most=4)
        self.assertLess(500, (times.left(slow, 0) or (0, 0))[1], "one may go on as long as it has")
        self.assertEqual("time left unknown", progress.told(progress.Times(), None))
        self.assertEqual("up to 1:40 left", progress.told(times, (0.5, 100)))

    def test_line_of_a_cell(self) -> None:
        def runs(elapsed: List[float], races: int) -> str:
            now = progress.Now(elapsed, races=races)
            return progress.line(1, 4, now, 9, "", 0, 80).split(", ", 2)[2]

        self.assertEqual(["2 jobs on 2 leaves + 3 unsplit", "4 unsplit"],
                         [runs([1, 2], 3), runs([], 4)])

    def test_line_that_fits(self) -> None:
        """No line is longer than there is room for, and none ends within a word."""
        now = progress.Now([9.0] * 63, [15] * 63, True, 64)
        span = "10:00:00 to 99:00:00 left"
        whole = progress.line(12345, 65536, now, 36000, span, 7, 1000)
        for width in range(40, len(whole) + 1):
            line = progress.line(12345, 65536, now, 36000, span, 7, width)
            self.assertLessEqual(len(line), width)
            self.assertTrue(set(line.split(", ")) <= set(whole.split(", ")), line)
        self.assertIn(span, progress.line(12345, 65536, now, 36000, span, 7, 79))
        self.assertEqual("c 1 of 8 leaves closed, 0:09 gone, x left, 1 job on 1 leaf",
                         progress.line(1, 8, progress.Now([1.0]), 9, "x left", 0, 79))

    def test_lines_of_progress(self) -> None:
        """One every ten seconds in the first minute, then every minute."""
        moments = [screen.pause(0)]
        while moments[-1] < 200:
            moments.append(moments[-1] + screen.pause(moments[-1]))
        self.assertEqual([10, 20, 30, 40, 50, 60, 120, 180, 240], moments)


def job_of(leaf: Leaf, began: float) -> Job:
    """A job that runs nothing."""
    return mock.Mock(spec=Job, leaf=leaf, began=began)


class NoBell(processes.Bell):
    """One that nothing rings, and that has no signals of the tests' own process."""

    def __init__(self) -> None:
        self.read = -1

    def wait(self, seconds: float, pipes: Sequence[int] = ()) -> None:
        time.sleep(seconds)


class Runs(unittest.TestCase):
    """What a run knows of its leaves: figures that add up, whatever logs came and in which order,
    and which leaf is cut."""

    CUBES = [(1, 2), (1, -2), (-1, 2), (-1, -2)]

    def setUp(self) -> None:
        path = tempfile.mkdtemp()
        self.addCleanup(shutil.rmtree, path)
        self.folder = files.Folder(path)
        lines = ["a %s 0" % " ".join(map(str, cube)) for cube in self.CUBES]
        self.folder.write("trees/1.icnf", "\n".join(["p inccnf", *lines]) + "\n")

    def run_of(self) -> Run:
        """A run whose `join` says nothing."""
        run = Run(self.folder, Plan("true", "f.cnf"), screen.Screen(True), NoBell())
        self.addCleanup(run.end_join)
        run.begin()
        return run

    def log(self, cube: files.Cube, closes: files.Cube) -> None:
        lemma = " ".join(str(-literal) for literal in closes)
        self.folder.write(log_of(cube), "5 %s 0 1 0\n" % lemma)

    def sums(self, run: Run, is_refuted: bool = False) -> List[int]:
        """How many leaves have logs of their own, are closed by others', and are open."""
        facts = dict(state_of(run, [], is_refuted).facts())
        return [int(facts[name]) for name in ("closed by a log of its own", "by another's log",
                                              "open")]

    def test_own_log_of_a_leaf_that_is_covered(self) -> None:
        """Two jobs end in one moment, and the log of one closes the other's leaf as well."""
        run = self.run_of()
        first, second = run.take(), run.take()
        self.log(first.cube, (-1,))
        self.log(second.cube, second.cube)
        run.ended(first, CLOSED, "")
        self.assertEqual([1, 1, 2], self.sums(run))
        run.ended(second, CLOSED, "")
        self.assertEqual([2, 0, 2], self.sums(run), "a leaf is counted twice")

    def test_logs_of_an_earlier_start(self) -> None:
        """Some have no record, and one is named otherwise."""
        self.log((1, 2), (1, 2))
        self.log((9,), (-1,))
        run = self.run_of()
        self.assertEqual([1, 2, 1], self.sums(run))
        self.assertEqual([1, 3, 0], self.sums(run, True), "join has closed what is left")

    def test_neighbours(self) -> None:
        """A block has neighbours in the tree's order; a leaf that failed or stands between is
        none."""
        run = self.run_of()
        self.assertEqual(tuple(self.CUBES[1:]), run.take(3).cubes)
        self.assertEqual((self.CUBES[0],), run.take(3).cubes)
        self.log((1, -2), (1, -2))
        run = self.run_of()
        self.assertEqual([tuple(self.CUBES[2:]), tuple(self.CUBES[:1])],
                         [run.take(9).cubes, run.take(9).cubes])
        run = self.run_of()
        run.ended(run.take(2), FAILED, "killed")
        self.assertEqual([self.CUBES[0]] + self.CUBES[2:], [run.take(9).cube for _ in range(3)])

    def test_leaf_that_is_cut(self) -> None:
        """The one that has run longest, and twice the mean of those that are closed; each once."""
        run, now = self.run_of(), time.monotonic()
        run.times.all = [10.0, 10.0]

        def job(cube: files.Cube, seconds: float) -> Job:
            return job_of(Leaf(cube, run.tree, 1, False), now - seconds)

        jobs = [job((1, 2), 21), job((1, -2), 25), job((-1, 2), 19), job((9,), 99)]
        self.assertIs(jobs[1], to_cut(run, jobs), "(9,) is no leaf any more")
        self.assertIsNone(to_cut(run, jobs[2:]))
        run.cut(jobs[1].leaf)  # which `true` does not
        self.assertIs(jobs[0], to_cut(run, jobs))
        run.times.all = []
        self.assertIsNone(to_cut(run, [job((1, 2), 1.9)]))

    def test_block_that_is_taken_apart(self) -> None:
        """It is after twice the mean of its leaves, once. Its leaves are run from the last to the
        first, but not those that it closes first; if it fails they have jobs of their own."""
        for outcome in (CLOSED, FAILED):
            run, now = self.run_of(), time.monotonic()
            block, last = run.take(3), self.CUBES[:1]
            run.times.all = [10.0, 10.0]
            jobs = [job_of(block, now - seconds) for seconds in (59, 61)]
            self.assertIs(jobs[1], to_cut(run, jobs))
            run.cut(block)
            self.assertIsNone(to_cut(run, jobs))
            self.assertEqual(last + self.CUBES[:0:-1], list(run.queue))
            run.queue.popleft()
            first = run.take(9)
            self.assertEqual((self.CUBES[3],), first.cubes)
            run.ended(block, outcome, "killed")
            waiting = [] if outcome == CLOSED else self.CUBES[2:0:-1]
            self.assertEqual((waiting, False), (list(run.queue), run.is_settled(last[0])))
            self.assertEqual(outcome == CLOSED, run.is_settled(first.cube))

    def test_leaf_that_is_cut_by_an_array(self) -> None:
        """Those that have run thirty seconds and twice the mean, the longest first."""
        run, now = self.run_of(), time.monotonic()
        leaves = [Leaf(cube, run.tree, 1, False) for cube in [*self.CUBES, (9,)]]
        seen = {name_of(leaf.cube): now - seconds
                for leaf, seconds in zip(leaves, (31, 90, 29, 50, 99))}
        cuts = [leaf.cube for leaf in late_leaves(run, leaves, seen)]
        self.assertEqual([(1, -2), (-1, -2), (1, 2)], cuts, "(9,) is no leaf any more")
        run.times.all = [30.0, 30.0]
        self.assertEqual([leaves[1]], late_leaves(run, leaves, seen))

    def test_leaf_whose_halves_are_closed(self) -> None:
        """Its job is of no use only then, be the halves cut in turn."""
        run = self.run_of()
        run.halves = {(5,): [(5, 6), (5, -6)], (5, 6): [(5, 6, 7), (5, 6, -7)]}
        for closed, is_settled in (((5, -6), False), ((5, 6, 7), False), ((5, 6, -7), True)):
            run.done.add(closed)
            self.assertEqual(is_settled, run.is_settled((5,)), closed)

    def test_join_that_is_put_off(self) -> None:
        """It is begun anew when no leaf was cut for a while, which doubles each time."""
        run = self.run_of()
        for patience in (10, 20, 40):
            run.put_off_join()
            run.join_anew()
            self.assertEqual((None, patience), (run.join, run.patience))
            run.put_off_join()
            self.assertEqual(patience, run.patience, "none was ended")
            run.calm = 0.0
            run.join_anew()
            self.assertIsNotNone(run.join)

    def test_log_that_is_refused(self) -> None:
        self.log((1, 2), (1,))
        run = self.run_of()
        self.assertEqual([1, 1, 2], self.sums(run))
        run.learn(["c file 1 line 1 fault 3 x", "c leaf 1 missing", "c leaf 2 missing"])
        self.assertEqual([0, 0, 4], self.sums(run))


class Receipts(Case):
    """Each job checks its own log, and receipts alone are read in the end."""

    def receipts(self, formula: str) -> List[Path]:
        return sorted(self.at(formula + ".conquer", "receipts").iterdir())

    def covered(self, formula: str, *words: str) -> None:
        status, lines = self.conquer("--receipts", *words, formula)
        self.assertEqual((0, True), (status, "s COVERED" in lines), lines)
        number = len(self.receipts(formula))
        self.assertIn("c covered by %d receipt%s" % (number, "s" * (number != 1)), lines)
        self.assertIn("s COVERED", self.report(formula))
        self.assertNotIn("s UNSATISFIABLE", lines)

    def test_engines(self) -> None:
        for engine in ("local", "make", "parallel"):
            if engine != "local" and not shutil.which(engine):
                print("%s is not installed" % engine)
                continue
            with self.subTest(engine):
                self.covered(PIGEONS, "--engine", engine, "--depth", "3", "--no-race")
                self.assertFalse(self.at(PIGEONS + ".conquer", "scratch", "proof.lrat").exists())
                self.forget(PIGEONS)

    def test_recheck(self) -> None:
        """Of logs alone, packed ones too; what they tell now is what their receipts told."""
        self.covered(PIGEONS, "--depth", "3", "--compress", "--no-race")
        self.assertTrue(self.logs(PIGEONS)[0].name.endswith(".zst"))
        before = {path.name: path.read_bytes() for path in self.receipts(PIGEONS)}
        folder = str(self.at(PIGEONS + ".conquer"))
        status, lines = self.conquer("--recheck", folder)
        self.assertEqual((0, True), (status, "s COVERED" in lines), lines)
        self.assertEqual(before, {path.name: path.read_bytes() for path in self.receipts(PIGEONS)})
        self.logs(PIGEONS)[0].unlink()
        status, lines = self.conquer("--recheck", folder)
        self.assertRegex(lines[0], "^c [0-9]+ of %d receipts have no log" % len(before))
        self.assertEqual((1, True), (status, "s NOT COVERED" in lines), lines)
        self.assertEqual(sorted(before), [path.name for path in self.receipts(PIGEONS)])

    def test_receipt_of_another_log(self) -> None:
        self.covered(FOUR, "--depth", "1", "--no-race")
        path = self.receipts(FOUR)[0]
        path.write_text(path.read_text().replace("\nlemmas ", "\nlemmas 1"))
        status, lines = self.conquer("--recheck", str(self.at(FOUR + ".conquer")))
        self.assertEqual(0, status)
        self.assertIn("c the receipt of %s was one of another log" % path.name, lines)

    def test_spoiled_receipts(self) -> None:
        """Cut, of another formula, or lost: the log that stands gets its receipt again."""
        self.covered(PIGEONS, "--depth", "3", "--no-race")
        moments = self.moments(PIGEONS)
        for spoil in (lambda text: text[:-4], lambda text: "",
                      lambda text: text.replace("\nformula ", "\nformula 0")):
            path = self.receipts(PIGEONS)[0]
            path.write_text(spoil(path.read_text()))
            self.covered(PIGEONS)
        self.receipts(PIGEONS)[0].unlink()
        self.covered(PIGEONS)
        self.assertEqual(moments, self.moments(PIGEONS), "a leaf was searched again")

    def test_folder_of_logs(self) -> None:
        """Logs of a start without receipts get theirs, those of no leaf too; and logs with receipts
        are joined if a proof is asked for."""
        self.assertEqual(20, self.conquer("--no-share", "--depth", "3", PIGEONS)[0])
        moments = self.moments(PIGEONS)
        self.covered(PIGEONS)
        self.assertEqual(moments, self.moments(PIGEONS))
        self.assertEqual(20, self.conquer("--receipts", PIGEONS, "p.lrat")[0])
        self.verifies(PIGEONS, "p.lrat")

    def test_dropped_logs(self) -> None:
        self.covered(PIGEONS, "--depth", "3", "--drop-logs")
        self.assertEqual([], self.logs(PIGEONS))
        self.covered(PIGEONS)

    def test_model(self) -> None:
        """It is tested by `join` as ever."""
        status, lines = self.conquer("--receipts", "random_100_sat.cnf")
        self.assertEqual((10, True), (status, "s SATISFIABLE" in lines))

    def test_log_of_another_formula(self) -> None:
        """No receipt is made of it, and its leaf is run again."""
        self.assertEqual(20, self.conquer("--depth", "3", "--no-race", PIGEONS)[0])
        log = self.logs(PIGEONS)[0]
        log.write_text("500 1 0 1 2 0\n501 0 500 0\n")
        self.covered(PIGEONS)
        self.assertFalse(log.exists() and log.read_text().startswith("500"))

    def test_kills(self) -> None:
        """Killed at random moments, and begun again."""
        draw = random.Random(int(os.environ.get("SEED", 1)))
        for _ in range(int(os.environ.get("KILLS", 6))):
            self.forget(PIGEONS)
            process = self.start("--receipts", "--depth", "4", PIGEONS)
            time.sleep(draw.uniform(0.1, 1.2))
            process.kill()
            process.communicate()
            self.covered(PIGEONS)

    def test_usage(self) -> None:
        for words in ("--recheck x " + FOUR, "--drop-logs " + FOUR, "",
                      "--receipts --drop-logs %s p.lrat" % FOUR):
            self.ends(1, ["c usage"], *words.split())
        self.ends(1, ["c cannot read nowhere"], "--recheck", "nowhere")


class Plays(unittest.TestCase):
    """Simulated runs of leaves whose times are given."""

    def play(self, leaves: List[Measured], cores: int, cuts: bool = False) -> float:
        return round(Play(leaves, cores, cuts, 0).run(), 6)

    def test_leaves(self) -> None:
        leaves = [Measured(10, 1)] * 4
        self.assertEqual([40, 20, 20, 10, 10], [self.play(leaves, n) for n in (1, 2, 3, 4, 9)])

    def test_log_that_closes_others(self) -> None:
        """They are ended, or not begun."""
        leaves = [Measured(50, 1), Measured(10, 1), Measured(10, 1, (0, 2))]
        self.assertEqual([20, 10, 10], [self.play(leaves, n) for n in (1, 2, 3)])

    def test_cut(self) -> None:
        """After two seconds; the halves take 57.5 seconds each, one after the other or side by
        side."""
        self.assertEqual([100, 100, 59.5], [self.play([Measured(100, 1)], n, True)
                                            for n in (1, 2, 3)])
        leaves = [Measured(100, 1)] + [Measured(10, 1)] * 3
        self.assertEqual(20 + 57.5, self.play(leaves, 4, True), "twice the mean of the others")

    def test_block(self) -> None:
        """It is not cut."""
        self.assertEqual(100, self.play([Measured(100, 1, is_block=True)], 3, True))

    def test_whole_run(self) -> None:
        """A leaf that was cut and closed as one is one."""
        closed = {(1,), (-1, 2), (-1, -2)}
        self.assertEqual([(1,), (-1, 2), (-1, -2)],
                         uncut([(1, 3), (1, -3), (-1, 2), (-1, -2)], closed))


if __name__ == "__main__":
    run(__doc__)
