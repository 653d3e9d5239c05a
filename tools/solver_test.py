#!/usr/bin/env python3
"""Runs `satcluster-solver` as clients do, and as they should not.

    tools/solver_test.py PATH-OF-satcluster [CASE ..]

A CASE is Ends, or Ends.test_parent_is_killed; they run alone, and in any order.
CBMC, yosys and ABC are run if they are on the path, or in the folder that SATCLUSTER_CLIENTS names
(tools/clients.sh makes one); if they are not there, that is told.
"""
import gzip
import os
import re
import shutil
import signal
import socket
import subprocess
import sys
import tempfile
import threading
import time
import unittest
import uuid
from pathlib import Path
from typing import Any, Callable, Dict, Iterator, List, NamedTuple, Optional, Sequence, Set

sys.dont_write_bytecode = True

from cases import EXAMPLES, dimacs, opened, pigeons, run, satisfies
from drop_in_solver.known import LEVEL, MINISAT, NAMES, PLAIN
from drop_in_solver.words import LIMITS, NOT_DONE, PROOF_WORDS, SWITCHES, VALUED
from explanations.looks import LARGE

HERE = Path(__file__).resolve().parent
SOLVER = HERE / "satcluster-solver"
SECONDS = 60  # how long a run may take
SOON = 10  # how long what is ended may take to end
MARK = "SATCLUSTER_TEST"
CLIENTS = os.environ.get("SATCLUSTER_CLIENTS", "")
S_LINES = {10: "s SATISFIABLE", 20: "s UNSATISFIABLE", 0: "s UNKNOWN"}

WAYS: Sequence[List[str]] = ([], ["--jobs", "2"])
LONG = pigeons(11)  # takes longer than a test
BAD = "p cnf 1 1\n2 0\n"
SORTS = """#include <assert.h>
short nondet_short(void);

static void sort(short *row, int size)
{
    for (int begin = 1; begin < size; begin++) {
        short next = row[begin];
        int at = begin;
        for (; at > 0 && row[at - 1] %s; at--)
            row[at] = row[at - 1];
        row[at] = next;
    }
}

int main(void)
{
    short row[3];
    for (int at = 0; at < 3; at++)
        row[at] = nondet_short();
    sort(row, 3);
    assert(row[0] <= row[1] && row[1] <= row[2]);
}
"""


class End(NamedTuple):
    status: int
    lines: List[str]
    errors: List[str]


class Case(unittest.TestCase):
    """A folder of its own, in which the solver runs, and whose temporary files are here too."""

    command = str(SOLVER)

    def setUp(self) -> None:
        self.folder = Path(os.path.realpath(tempfile.mkdtemp()))
        self.addCleanup(shutil.rmtree, str(self.folder), ignore_errors=True)
        (self.folder / "tmp").mkdir()
        self.mark = uuid.uuid4().hex
        self.env: Dict[str, str] = dict(os.environ, TMPDIR=self.at("tmp"))
        self.env[MARK] = self.mark
        self.program = os.environ["SATCLUSTER"]

    def at(self, name: str) -> str:
        return str(self.folder / name)

    def write(self, name: str, text: str) -> str:
        (self.folder / name).write_text(text)
        return name

    def script(self, name: str, text: str) -> str:
        self.write(name, "#!/bin/sh\n" + text)
        (self.folder / name).chmod(0o755)
        return self.at(name)

    def example(self, name: str) -> str:
        return str(EXAMPLES / name)

    def start(self, *words: str, **more: Any) -> subprocess.Popen:
        more = {"stdin": subprocess.DEVNULL, "stdout": subprocess.PIPE,
                "stderr": subprocess.PIPE, "env": self.env, **more}
        return subprocess.Popen([self.command, *words], cwd=str(self.folder), **more)

    def run_solver(self, *words: str, given: Optional[bytes] = None, **more: Any) -> End:
        if given is not None:
            more["stdin"] = subprocess.PIPE
        process = self.start(*words, **more)
        try:
            out, err = process.communicate(given, timeout=SECONDS)
        except subprocess.TimeoutExpired:
            process.kill()
            self.fail("%s does not end" % (words,))
        return End(process.returncode, out.decode().splitlines(), err.decode().splitlines())

    def answer(self, *words: str, **more: Any) -> End:
        """A run, which prints one `s` line, that of its status, and leaves nothing."""
        end = self.run_solver(*words, **more)
        said = [line for line in end.lines if line.startswith("s ")]
        self.assertEqual([S_LINES.get(end.status)], said, end)
        rest = [line for line in end.lines if line[:2] not in ("s ", "v ", "c ")]
        self.assertEqual([], rest)
        self.leaves_nothing()
        return end

    def decides(self, status: int, *words: str, **more: Any) -> End:
        end = self.answer(*words, **more)
        self.assertEqual((status, []), (end.status, end.errors), end)
        return end

    def refuses(self, why: str, *words: str, **more: Any) -> None:
        """No answer: `s UNKNOWN` behind `c` lines that tell why; quietly that is told apart."""
        end = self.answer(*words, **more)
        self.assertEqual((0, "s UNKNOWN"), (end.status, end.lines[-1]))
        self.assertRegex("\n".join(end.lines[:-1]), why)
        quiet = self.answer("-q", *words, **more)
        self.assertEqual((0, ["s UNKNOWN"]), (quiet.status, quiet.lines))
        self.assertRegex("\n".join(quiet.errors), why)

    def running(self) -> Set[int]:
        """The processes that this test has started, and those that they have."""
        found, mark = set(), ("%s=%s" % (MARK, self.mark)).encode()
        for entry in Path("/proc").iterdir():
            try:
                if entry.name.isdigit() and mark in (entry / "environ").read_bytes():
                    found.add(int(entry.name))
            except OSError:  # it has ended meanwhile
                pass
        return found

    def soon(self, what: str, holds: Callable[[], bool]) -> None:
        end = time.monotonic() + SOON
        while not holds():
            self.assertLess(time.monotonic(), end, what)
            time.sleep(0.01)

    def leaves_nothing(self) -> None:
        self.soon("a process is left", lambda: not self.running())
        self.soon("a folder is left", lambda: not list((self.folder / "tmp").glob("satcluster-*")))

    def verifies(self, formula: str, proof: str) -> None:
        words = [self.program, "check", formula, proof]
        done = subprocess.run(words, cwd=str(self.folder), stdout=subprocess.PIPE)
        self.assertEqual((0, b"s VERIFIED\n"), (done.returncode, done.stdout))


class Answers(Case):
    def test_proof(self) -> None:
        for more in (*WAYS, ["--lrat", "--no-binary"]):
            formula = self.example("schur_3_14.cnf")
            self.decides(20, *more, formula, "f.lrat")
            self.verifies(formula, "f.lrat")
            os.remove(self.at("f.lrat"))

    def test_model(self) -> None:
        for more in WAYS:
            formula = self.example("random_100_sat.cnf")
            end = self.decides(10, *more, formula, "f.lrat")
            self.assertTrue(satisfies(Path(formula).read_text(), end.lines))
            end = self.decides(10, "-q", "-n", *more, formula)
            self.assertEqual(["s SATISFIABLE"], end.lines)
            self.assertFalse(os.path.exists(self.at("f.lrat")))

    def test_standard_input(self) -> None:
        text = Path(self.example("schur_3_14.cnf")).read_bytes()
        for words in (*WAYS, ["-"], ["/dev/stdin"], ["-", "f.lrat"]):
            self.decides(20, *words, given=text)
        self.verifies(self.example("schur_3_14.cnf"), "f.lrat")
        ours, theirs = socket.socketpair()  # which cannot be opened by a name
        ours.sendall(text)
        ours.close()
        with theirs:
            self.decides(20, stdin=theirs)

    def test_packed(self) -> None:
        formula = Path(self.example("schur_3_14.cnf")).read_bytes()
        for tool, end in (("gzip", "gz"), ("xz", "xz"), ("bzip2", "bz2"), ("zstd", "zst")):
            if not shutil.which(tool):
                print("skipped: %s is not installed" % tool)
                continue
            packed = subprocess.run([tool, "-c"], input=formula, stdout=subprocess.PIPE).stdout
            for name in ("f.cnf." + end, "f.cnf"):  # by its bytes, whatever it is called
                (self.folder / name).write_bytes(packed)
                self.decides(20, name)
            self.decides(20, "--jobs", "2", name)
            self.decides(20, given=packed)
            (self.folder / name).write_bytes(packed[:-9])
            self.refuses(tool + " ends with", name)
            self.refuses(tool + " ends with", "--jobs", "2", name)

    def test_large(self) -> None:
        """A header above the written limits asks for `--large`, of the program or of
        `conquer.py`."""
        text = "c wide\np cnf 1000001 2\n1000001 0\n-1000001 0\n"
        self.write("f.cnf", text)
        for more in WAYS:
            end = self.decides(20, *more, "f.cnf")
            self.assertIn("c " + LARGE, end.lines)
        self.assertIn("c " + LARGE, self.decides(20, given=text.encode()).lines)
        self.write("f.cnf", "p cnf 100000000 0\n")
        self.refuses("input line 1 fault 8", "f.cnf")

    def test_refused_while_more_may_come(self) -> None:
        """A program that refuses at once leaves whoever unpacks waiting for more."""
        self.env["SATCLUSTER"] = self.script("refuses", "echo c no memory; exit 1\n")
        for data in (BAD.encode(), gzip.compress(BAD.encode())[:9]):
            process = self.start(stdin=subprocess.PIPE)
            opened(process.stdin).write(data)
            opened(process.stdin).flush()
            out = opened(process.stdout).read().decode().splitlines()
            self.assertEqual(("c no memory", "s UNKNOWN"), (out[0], out[-1]))
            self.assertEqual((0, b""), (process.wait(timeout=SOON), opened(process.stderr).read()))
            for pipe in (process.stdin, process.stdout, process.stderr):
                opened(pipe).close()
            self.leaves_nothing()

    def test_words_of_others(self) -> None:
        formula = self.example("four_clauses.cnf")
        for words in ("-q -q", "-n -n", "--quiet --no-witness", "-t 50", "--time=50", "-v -v -f -s",
                      "--sat", "--unsat --plain", "--seed=7", "--no-elim", "--restartint=50 -P2",
                      "-verb=0 -cpu-lim=50 -no-pre -rnd-seed=9", "--no-binary", "--chrono=true"):
            self.decides(20, *words.split(), formula)
            self.decides(20, formula, *words.split())
        self.assertTrue(os.path.isfile(formula))

    def test_words_that_are_not_known(self) -> None:
        formula = self.example("four_clauses.cnf")
        for words in ("--odd", "-t x", "--jobs 0", "-c 5", "-w out", "--conflicts=3", "--depth=99"):
            end = self.answer(*words.split(), formula)
            self.assertEqual((20, 1), (end.status, len(end.errors)), end)
            self.assertIn("passed over", end.errors[0])
        end = self.decides(20, "--binary", formula, "f.lrat")
        self.assertEqual("c the proof is written as text, not binary", end.lines[0])
        self.verifies(formula, "f.lrat")

    def test_pipes_of_a_shell(self) -> None:
        if not shutil.which("bash"):
            self.skipTest("bash is not installed")
        formula = self.example("four_clauses.cnf")
        for words in ("<(cat %s) >(cat > f.lrat)", "-q --jobs 2 <(cat %s)"):
            line = "%s %s" % (SOLVER, words % formula)
            done = subprocess.run(["bash", "-c", line], cwd=str(self.folder), env=self.env,
                                  stdout=subprocess.PIPE)
            self.assertEqual((20, b"s UNSATISFIABLE\n"), (done.returncode, done.stdout))
        whole = lambda: os.path.exists(self.at("f.lrat")) and os.path.getsize(self.at("f.lrat")) > 9
        self.soon("a proof", whole)

    def test_kept(self) -> None:
        """Proofs and answers are kept whole, also of runs that print no values; each run tells how
        they are checked."""
        formulas = ["four_clauses.cnf", "random_100_sat.cnf", "schur_3_14.cnf"]
        packed = ".zst" if shutil.which("zstd") else ".gz" if shutil.which("gzip") else ""
        for words in ("--keep kept", "--keep=kept --jobs 2", "--keep kept -n"):
            self.env["SATCLUSTER_WORDS"] = words
            for name in formulas:
                end = self.answer(self.example(name))
                told = [line for line in end.lines if line.startswith("c kept; it is checked by: ")]
                self.assertEqual("s VERIFIED\n", self.shell(told[0].split(": ", 1)[1]), words)
                self.assertEqual("-n" in words or end.status == 20,
                                 not any(line.startswith("v ") for line in end.lines))
            self.answer("-q", given=Path(self.example("four_clauses.cnf")).read_bytes())
            self.write("bad.cnf", BAD)
            self.refuses("bad.cnf, line 2", "bad.cnf")
            there = sorted(path.name for path in (self.folder / "kept").iterdir())
            self.assertEqual(["1.cnf", "1.lrat" + packed, "2.answer", "2.cnf", "3.cnf",
                              "3.lrat" + packed, "4.cnf", "4.lrat" + packed], there)
            shutil.rmtree(self.at("kept"))

    def shell(self, line: str) -> str:
        """What a command prints that a run has told, with the program in the place of its name."""
        line = re.sub(r"\bsatcluster\b", self.program, line)
        done = subprocess.run(["sh", "-c", line], cwd=str(self.folder), stdout=subprocess.PIPE)
        return done.stdout.decode()

    def test_name_that_is_linked(self) -> None:
        """A client that calls `kissat` finds it by a link."""
        (self.folder / "kissat").symlink_to(SOLVER)
        words = [self.at("kissat"), "-q", self.example("four_clauses.cnf")]
        done = subprocess.run(words, env=self.env, stdout=subprocess.PIPE)
        self.assertEqual((20, b"s UNSATISFIABLE\n"), (done.returncode, done.stdout))


class Minisat(Case):
    """Called as `minisat` it writes MiniSat's result, and no proof, to the second file."""

    def setUp(self) -> None:
        super().setUp()
        self.command = self.link("minisat")
        self.sat, self.unsat = (self.example("random_100_%s.cnf" % end) for end in ("sat", "unsat"))
        self.write("long.cnf", LONG)
        self.write("bad.cnf", BAD)

    def link(self, name: str) -> str:
        (self.folder / name).symlink_to(SOLVER)
        return self.at(name)

    def text(self, name: str = "out") -> str:
        return Path(self.at(name)).read_text()

    def is_model(self, text: str, path: str) -> None:
        """As MiniSat writes it: each variable of the header in turn, and 0."""
        first, model, end = text.split("\n")
        self.assertEqual(("SAT", ""), (first, end))
        formula = Path(path).read_text()
        header = [line for line in formula.split("\n") if line.startswith("p ")][0]
        variables = [str(one) for one in range(1, int(header.split()[2]) + 1)]
        self.assertEqual(variables + ["0"], model.replace("-", "").split(" "))
        self.assertTrue(satisfies(formula, ["v " + model]))

    def test_result(self) -> None:
        words: Sequence[List[str]] = (*WAYS, ["-verb=0", "-no-pre", "-cpu-lim=50"], ["-n"])
        for more in words:
            self.decides(20, *more, self.unsat, "out")
            self.assertEqual("UNSAT\n", self.text())
            end = self.decides(10, *more, self.sat, "out")
            self.assertEqual("s SATISFIABLE", end.lines[-1])  # the model is in the file alone
            self.is_model(self.text(), self.sat)
        self.write("f.cnf", "p cnf 4 1\n3 0\n")
        self.decides(10, "-", "new", given=b"p cnf 4 1\n3 0\n")
        self.is_model(self.text("new"), self.at("f.cnf"))
        end = self.answer("-odd", self.unsat, "out")
        self.assertEqual((20, 1, "UNSAT\n"), (end.status, len(end.errors), self.text()))

    def test_names(self) -> None:
        for name in ("minisat_static", "minisat_core", "minisat_release", "minisat2"):
            self.command = self.link(name)
            self.decides(20, self.unsat, name + ".out")
            self.assertEqual("UNSAT\n", self.text(name + ".out"))
        for name in ("kissat", "satcluster-solver", "minisatx"):
            self.command = self.link(name)
            self.decides(20, self.unsat, "f.lrat")
            self.verifies(self.unsat, "f.lrat")

    def test_one_file(self) -> None:
        """Without a second file the model is printed, as under any other name."""
        end = self.decides(10, self.sat)
        self.assertTrue(satisfies(Path(self.sat).read_text(), end.lines))

    def test_beside_minisat(self) -> None:
        minisat = client("minisat")
        if minisat is None:
            self.skipTest("minisat is not installed")
        for name in ("four_clauses", "pigeons_6", "random_100_sat", "schur_3_13", "sudoku_2"):
            formula = self.example(name + ".cnf")
            theirs = subprocess.run([minisat, "-verb=0", formula, self.at("theirs")],
                                    stdout=subprocess.DEVNULL, stderr=subprocess.DEVNULL)
            self.assertEqual(theirs.returncode, self.answer("-verb=0", formula, "out").status)
            if theirs.returncode == 10:
                self.is_model(self.text("theirs"), formula)
                self.is_model(self.text(), formula)
            else:
                self.assertEqual(self.text("theirs"), self.text())
        theirs = subprocess.run([minisat, "-cpu-lim=1", self.at("long.cnf"), self.at("theirs")],
                                stdout=subprocess.DEVNULL, stderr=subprocess.DEVNULL)
        self.assertEqual(theirs.returncode, self.answer("-cpu-lim=1", "long.cnf", "out").status)
        self.assertEqual(self.text("theirs"), self.text())

    def test_no_answer(self) -> None:
        """An older result is not left there."""
        for line, why in (("--limit 1 long.cnf", "without a verdict"), ("bad.cnf", "fault 4"),
                          ("-t 0.5 long.cnf", "time is up"), ("none.cnf", "no file"),
                          ("--program none bad.cnf", "no program")):
            self.write("out", "UNSAT\n")
            words = [*line.split(), "out"]
            end = self.answer(*words)
            self.assertEqual((0, "INDET\n"), (end.status, self.text()), words)
            self.assertIn(why, "\n".join(end.lines))
        self.write("out", "SAT\n1 0\n")
        process = self.start("long.cnf", "out")
        self.soon("a search", lambda: len(self.running() - {process.pid}) >= 1)
        process.terminate()
        process.communicate(timeout=SOON)
        self.assertEqual((0, "INDET\n"), (process.returncode, self.text()))

    def test_file_that_stays(self) -> None:
        """What is no result is not lost by a run without an answer, and a formula by none."""
        self.write("out", "notes\n")
        self.refuses("fault 4", "bad.cnf", "out")
        self.assertEqual("notes\n", self.text())
        self.refuses("formula itself", "bad.cnf", "bad.cnf")
        self.refuses("not written over", "-odd", self.unsat, "bad.cnf")
        self.assertEqual(BAD, self.text("bad.cnf"))
        self.refuses("no folder .* for the result", self.unsat, "none/out")
        self.refuses("is a folder: name a file for the result", self.unsat, "tmp")
        self.refuses("result cannot go to standard output", self.unsat, "-")

    def test_full_disk(self) -> None:
        """The file is whole or as it was, and what could not be written is no answer."""
        def few_bytes() -> None:
            resource.setrlimit(resource.RLIMIT_FSIZE, (8, 8))

        import resource
        for stood in ("UNSAT\n", "notes\n", ""):
            self.write("out", stood)
            end = self.answer(self.sat, "out", preexec_fn=few_bytes)
            self.assertEqual((0, "s UNKNOWN"), (end.status, end.lines[-1]))
            self.assertIn("c out cannot be written: File too large.", end.lines)
            self.assertEqual(stood if stood == "notes\n" else "INDET\n", self.text())
        self.assertFalse(list(self.folder.glob("out.part*")))

    def test_parts(self) -> None:
        for number in range(99):
            self.write("out.part%d" % number, "of a run that was killed")
        self.decides(20, self.unsat, "out")
        self.assertEqual("UNSAT\n", self.text())
        self.write("out.part99", "of another one")
        self.refuses("out cannot be written: a hundred parts", self.unsat, "out")
        self.assertEqual("UNSAT\n", self.text())

    def test_place(self) -> None:
        """A link stays one, permissions stay, and a caller that has made an empty file and has it
        open reads the result there."""
        self.write("there", "UNSAT\n")
        os.chmod(self.at("there"), 0o640)
        (self.folder / "out").symlink_to("there")
        self.decides(10, self.sat, "out")
        self.is_model(self.text("there"), self.sat)
        self.assertEqual(0o640, os.stat(self.at("there")).st_mode & 0o777)
        self.assertTrue(os.path.islink(self.at("out")))
        with tempfile.NamedTemporaryFile("r", dir=str(self.folder)) as made:
            self.decides(20, self.unsat, made.name)
            self.assertEqual("UNSAT\n", made.read())

    def test_devices(self) -> None:
        self.decides(20, self.unsat, "/dev/null")
        end = self.run_solver("-q", self.unsat, "/dev/stdout")
        self.assertEqual((20, ["UNSAT", "s UNSATISFIABLE"]), (end.status, end.lines))
        with open(self.at("printed"), "wb") as file:  # a regular file is not begun anew
            process = self.start("-q", self.sat, "/dev/stdout", stdout=file, stderr=None)
            self.assertEqual(10, process.wait(timeout=SECONDS))
        text, line = self.text("printed").rsplit("s SATISFIABLE", 1)
        self.assertEqual("\n", line)
        self.is_model(text, self.sat)
        os.mkfifo(self.at("pipe"))
        process = self.start("-q", self.unsat, "pipe")
        self.assertEqual("UNSAT\n", self.text("pipe"))
        self.assertEqual((b"s UNSATISFIABLE\n", b""), process.communicate(timeout=SOON))
        process = self.start("-q", self.unsat, "pipe")  # which nobody reads
        time.sleep(1)
        process.terminate()
        told = b"c ended by SIGTERM\nc pipe cannot be written: No such device or address.\n"
        self.assertEqual((b"s UNKNOWN\n", told), process.communicate(timeout=SOON))

    def test_kept(self) -> None:
        self.env["SATCLUSTER_WORDS"] = "--keep kept"
        self.decides(20, self.unsat, "out")
        self.decides(10, self.sat, "model")
        there = sorted(path.name[:6] for path in (self.folder / "kept").iterdir())
        self.assertEqual(["1.cnf", "1.lrat", "2.answ", "2.cnf"], there)
        self.assertEqual("UNSAT\n", self.text())
        self.is_model(self.text("model"), self.sat)


class Refusals(Case):
    """What the program refuses is no answer."""

    def test_formulas(self) -> None:
        self.write("bad.cnf", BAD)
        self.write("bare.cnf", "1 2 0\n")
        self.write("empty.cnf", "")
        (self.folder / "mark.cnf").write_bytes(b"\xef\xbb\xbfp cnf 1 1\n1 0\n")
        for more in WAYS:
            self.refuses("line 2 fault 4(.|\n)*above the number of variables", *more, "bad.cnf")
            self.refuses("no file none.cnf", *more, "none.cnf")
            self.refuses("is a folder", *more, ".")
            self.refuses("no header(.|\n)*with clauses(.|\n)*awk", *more, "bare.cnf")
            self.refuses("fault 1(.|\n)*no header", *more, "empty.cnf")
            self.refuses("byte order mark(.|\n)*tail", *more, "mark.cnf")
            self.refuses("standard input, line 2: A variable", *more, given=BAD.encode())
            self.refuses("fault 1", *more)

    def test_header_by_the_command_that_is_told(self) -> None:
        self.write("bare.cnf", "c 5 6\n1 2 0 -1\n2 0\n")
        told = "\n".join(self.answer("bare.cnf").lines)
        shown = re.search("`(awk.*NEW)`", told)
        assert shown
        command = shown.group(1).replace("NEW", "new.cnf")
        subprocess.run(["sh", "-c", command], cwd=str(self.folder), check=True)
        self.decides(10, "new.cnf")

    def test_proofs(self) -> None:
        name = self.write("f.cnf", BAD)
        self.write("g.cnf", BAD)
        for more in WAYS:
            self.refuses("no folder .*none", *more, name, "none/f.lrat")
            self.refuses("is a folder", *more, name, ".")
            self.refuses("formula itself", *more, name, name)
            self.refuses("not written over", *more, "--odd", name, "g.cnf")
            self.assertEqual(BAD, Path(self.at("g.cnf")).read_text())
            self.refuses("standard output", *more, name, "-")

    def test_program(self) -> None:
        formula = self.example("four_clauses.cnf")
        for more in WAYS:
            self.refuses("no program none", "--program", "none", *more, formula)
        told = "echo c no memory; echo c There was not memory enough. >&2; exit 1\n"
        self.env["SATCLUSTER"] = self.script("no", told)
        self.refuses("no memory(.|\n)*memory enough", formula)
        self.env["SATCLUSTER"] = self.script("no", "kill -9 $$\n")
        self.refuses("signal 9", formula)
        self.env["SATCLUSTER"] = self.script("no", "exit 3\n")
        self.refuses("status 3", formula)

    def test_memory(self) -> None:
        import resource
        room = 1 << 29
        limit = lambda: resource.setrlimit(resource.RLIMIT_AS, (room, room))
        variables = range(1, 1000000, 3)
        self.write("big.cnf", dimacs(1000000, [[v, v + 1, v + 2] for v in variables] * 3))
        end = self.answer("-n", "big.cnf", preexec_fn=limit)
        self.assertIn(end.status, (0, 10))

    def test_help(self) -> None:
        for word in ("--help", "-h", "--version"):
            self.assertEqual("s UNKNOWN", self.answer(word).lines[-1])

    def test_time(self) -> None:
        self.write("long.cnf", LONG)
        for words in (["-t", "1"], ["--time=1"], ["-cpu-lim=1"], ["-t", "1", "--jobs", "2"]):
            began = time.monotonic()
            end = self.answer(*words, "long.cnf", "f.lrat")
            self.assertEqual("s UNKNOWN", end.lines[-1])
            self.assertIn("c the time is up", end.lines)
            self.assertLess(time.monotonic() - began, SOON)
            self.assertFalse(list(self.folder.glob("f.lrat*")))
        read, write = os.pipe()  # from which no formula comes
        end = self.answer("-t", "0.5", stdin=read)
        self.assertIn("c the time is up", end.lines)
        os.close(read)
        os.close(write)

    def test_time_if_signals_are_blocked(self) -> None:
        """A program hands on to what it starts which signals it blocks, and which it ignores."""
        def deaf() -> None:
            signal.signal(signal.SIGALRM, signal.SIG_IGN)
            signal.pthread_sigmask(signal.SIG_BLOCK, range(1, signal.NSIG))

        self.write("long.cnf", LONG)
        end = self.answer("-t", "1", "long.cnf", preexec_fn=deaf)
        self.assertIn("c the time is up", end.lines)

    def test_part_of_a_proof(self) -> None:
        """A program that is ended as it writes a proof leaves no part of it."""
        script = "exec 9> f.lrat.part0; echo part >&9; exec sleep 50"
        self.env["SATCLUSTER"] = self.script("writes", script)
        self.write("f.lrat.part1", "of another run")
        end = self.answer("-t", "1", self.example("four_clauses.cnf"), "f.lrat")
        self.assertEqual(0, end.status)
        self.assertEqual(["f.lrat.part1"], [path.name for path in self.folder.glob("f.lrat*")])


class Lies(Case):
    """A program that is not the proved one: its line and its status do not agree, or are cut."""

    def test_answers(self) -> None:
        formula = self.example("four_clauses.cnf")
        for text, status in (("s SATISFIABLE\nv 1 0\n", 20), ("s UNSATISFIABLE\n", 10),
                             ("s UNSATISFIABLE\n", 1), ("s SATISFIABLE\nv 1 0\n", 0), ("", 20),
                             ("", 10), ("s UNSATISFIABLE", 20), ("s SATISFIABLE\nv 1 2", 10),
                             ("s SATISFIABLE\nv 1 2\n", 10), ("s SATISFIABLE\nx\n", 10),
                             ("s UNSATISFIABLE\ns UNSATISFIABLE\n", 20), ("c s SATISFIABLE\n", 10),
                             ("s UNSATISFIABLE\nv 1 0\n", 20), ("S UNSATISFIABLE\n", 20),
                             ("s UNSATISFIABLE \n", 20), ("s SATISFIABLE\n", 10),
                             ("v 1 0\ns SATISFIABLE\n", 10)):
            self.write("said", text)
            script = "cat %s; exit %d\n" % (self.at("said"), status)
            self.env["SATCLUSTER"] = self.script("lies", script)
            end = self.answer(formula)
            self.assertEqual((0, "s UNKNOWN"), (end.status, end.lines[-1]), (text, status))
        self.env["SATCLUSTER"] = self.script("lies", "echo s UNSATISFIABLE; kill -9 $$\n")
        self.assertEqual(0, self.answer(formula).status)

    def test_names(self) -> None:
        """No name of a file prints an answer."""
        for name in ("none\ns UNSATISFIABLE", "s UNSATISFIABLE\n", "none\rs SATISFIABLE\n"):
            for more in WAYS:
                self.assertEqual(0, self.answer(*more, name).status)
                self.assertEqual(0, self.answer(*more, name, name + "/proof").status)
        end = self.answer("--x\ns SATISFIABLE", "none")
        self.assertEqual([], [line for line in end.errors if line.startswith("s ")])


class Ends(Case):
    def begun(self, *words: str, **more: Any) -> subprocess.Popen:
        """A run of which the search is under way."""
        self.write("long.cnf", LONG)
        process = self.start(*words, "long.cnf", "f.lrat", **more)
        most = 3 if "--jobs" in words else 1
        self.soon("a search", lambda: len(self.running() - {process.pid}) >= most)
        return process

    def test_parent_is_killed(self) -> None:
        self.write("long.cnf", LONG)
        for more in WAYS:
            words = [str(SOLVER), *more, "long.cnf"]
            code = ("import signal, subprocess; signal.signal(signal.SIGUSR2, signal.SIG_IGN); "
                    "subprocess.run(%r)" % words)
            parent = subprocess.Popen([sys.executable, "-c", code], cwd=str(self.folder),
                                      env=self.env, stdout=subprocess.PIPE, stderr=subprocess.PIPE)
            most = 4 if more else 2
            self.soon("a search", lambda: len(self.running() - {parent.pid}) >= most)
            parent.kill()
            out, err = parent.communicate(timeout=SOON)
            self.assertNotIn(b"s SAT", out)
            self.assertNotIn(b"s UNSAT", out)
            self.assertEqual(b"", err)
            self.leaves_nothing()

    def test_solver_is_killed(self) -> None:
        for more in WAYS:
            process = self.begun(*more)
            process.kill()
            out, _ = process.communicate(timeout=SOON)
            self.assertNotIn(b"s ", out.replace(b"leaves ", b""))
            self.leaves_nothing()

    def test_solver_is_ended(self) -> None:
        for number in (signal.SIGTERM, signal.SIGINT, signal.SIGHUP):
            for more in WAYS:
                process = self.begun(*more)
                process.send_signal(number)
                out, err = process.communicate(timeout=SOON)
                self.assertEqual((0, b""), (process.returncode, err))
                self.assertTrue(out.endswith(b"\ns UNKNOWN\n"), out)
                self.leaves_nothing()

    def test_thread_that_started_it_ends(self) -> None:
        """The system then tells of an end of the parent, which is there all the same."""
        self.write("f.cnf", pigeons(9))
        held: List[subprocess.Popen] = []

        def begin() -> None:
            held.append(self.start("f.cnf"))
            self.soon("a search", lambda: len(self.running()) > 1)

        starter = threading.Thread(target=begin)
        starter.start()
        starter.join()
        out, err = held[0].communicate(timeout=SECONDS)
        self.assertEqual((20, b"s UNSATISFIABLE\n", b""), (held[0].returncode, out, err))
        self.leaves_nothing()

    def test_parent_that_reads_nothing_is_killed(self) -> None:
        """It cannot wait for a reader then."""
        read, write = os.pipe()
        os.set_blocking(write, False)
        try:
            while True:
                os.write(write, b"x" * 65536)
        except BlockingIOError:
            os.set_blocking(write, True)
        self.write("long.cnf", LONG)
        code = "import subprocess; subprocess.run([%r, 'long.cnf'])" % str(SOLVER)
        parent = subprocess.Popen([sys.executable, "-c", code], cwd=str(self.folder), env=self.env,
                                  stdout=write)
        self.soon("a search", lambda: len(self.running() - {parent.pid}) >= 2)
        parent.kill()
        parent.wait()
        self.leaves_nothing()
        os.close(read)
        os.close(write)


class Readers(Case):
    VARIABLES = 100000  # a model of which is longer than what a pipe holds

    def setUp(self) -> None:
        super().setUp()
        size = self.VARIABLES
        self.write("f.cnf", dimacs(size, [[-v, -v - 1] for v in range(1, size)]))

    def whole(self, data: bytes) -> None:
        lines = data.decode().splitlines()
        self.assertEqual("s SATISFIABLE", lines[0])
        values = [word for line in lines[1:] for word in line.split()[1:]]
        self.assertEqual((self.VARIABLES + 1, "0"), (len(values), values[-1]))

    def read_slowly(self, descriptor: int) -> bytes:
        data: List[bytes] = []
        piece = b"x"
        while piece:
            time.sleep(0.5 if len(data) < 3 else 0.001)
            piece = os.read(descriptor, 1000 if len(data) < 3 else 8192)
            data.append(piece)
        return b"".join(data)

    def test_slow(self) -> None:
        process = self.start("f.cnf")
        self.whole(self.read_slowly(opened(process.stdout).fileno()))
        self.assertEqual((10, b""), (process.wait(), opened(process.stderr).read()))
        opened(process.stdout).close()
        opened(process.stderr).close()

    def test_pipe_that_does_not_wait(self) -> None:
        """A descriptor is shared with whoever else has it, and so is that it never waits."""
        read, write = os.pipe()
        os.set_blocking(write, False)
        process = self.start("f.cnf", stdout=write)
        os.close(write)
        self.whole(self.read_slowly(read))
        self.assertEqual((10, b""), (process.wait(), opened(process.stderr).read()))
        opened(process.stderr).close()
        os.close(read)

    def test_short_answer_read_late(self) -> None:
        process = self.start(self.example("four_clauses.cnf"))
        self.assertEqual(20, process.wait(timeout=SECONDS))
        out, err = process.communicate()
        self.assertEqual((b"s UNSATISFIABLE\n", b""), (out, err))

    def test_reader_that_goes(self) -> None:
        """Quietly: before the answer, and within it."""
        process = self.start("f.cnf")
        opened(process.stdout).read(100)
        opened(process.stdout).close()
        self.assertEqual(b"", opened(process.stderr).read())
        process.wait(timeout=SOON)
        opened(process.stderr).close()
        self.leaves_nothing()
        self.write("long.cnf", LONG)
        for more in WAYS:
            process = self.start(*more, "long.cnf")
            self.soon("a search", lambda: len(self.running()) > 1)
            opened(process.stdout).close()
            self.assertEqual((0, b""), (process.wait(timeout=SOON), opened(process.stderr).read()))
            opened(process.stderr).close()
            self.leaves_nothing()

    def test_descriptors_that_are_closed(self) -> None:
        for line in ("%s f.cnf >&-", "%s f.cnf <&-", "%s f.cnf 2>&-", "%s f.cnf <&- >&- 2>&-"):
            done = subprocess.run(["sh", "-c", line % SOLVER], cwd=str(self.folder), env=self.env,
                                  stdout=subprocess.PIPE, stderr=subprocess.PIPE)
            self.assertEqual((10, b""), (done.returncode, done.stderr), line)
            if ">&-" not in line.replace("2>&-", ""):
                self.whole(done.stdout)


def client(name: str) -> Optional[str]:
    path = os.pathsep.join(filter(None, (CLIENTS, os.environ.get("PATH"))))
    return shutil.which(name, path=path)


class Native(Case):
    """The program itself as a solver: by its command, and by links that have solvers' names."""

    def setUp(self) -> None:
        super().setUp()
        self.sat, self.unsat = (self.example("random_100_%s.cnf" % end) for end in ("sat", "unsat"))
        self.call("kissat")

    def call(self, name: str) -> None:
        """From here on the program is called by a link of this name."""
        if not os.path.lexists(self.at(name)):
            (self.folder / name).symlink_to(self.program)
        self.command = self.at(name)

    def text(self, name: str = "out") -> str:
        return Path(self.at(name)).read_text()

    def told(self, why: str, status: int, *words: str) -> None:
        """An answer behind one `c` line, which with -q is on standard error."""
        end = self.decides(status, *words)
        self.assertRegex(end.lines[0], why)
        self.assertEqual(1, len([line for line in end.lines if line.startswith("c ")]), end)
        quiet = self.answer("-q", *words)
        self.assertEqual((status, end.lines[:1]), (quiet.status, quiet.errors), quiet)
        self.assertEqual(end.lines[1:], quiet.lines)

    def test_names(self) -> None:
        for name in ("cadical", "kissat", "satcluster-solver"):
            self.call(name)
            self.decides(20, self.unsat, "f.lrat")
            self.verifies(self.unsat, "f.lrat")
            os.remove(self.at("f.lrat"))
        for name in ("minisat", "minisat_static", "minisat_core", "minisat_release", "minisat2"):
            self.call(name)
            self.decides(20, self.unsat, name + ".out")
            self.assertEqual("UNSAT\n", self.text(name + ".out"))
        self.call("minisatx")  # no solver's name
        self.decides(20, "solver", self.unsat, "f.lrat")
        self.verifies(self.unsat, "f.lrat")
        self.assertEqual(1, self.run_solver(self.unsat).status)
        self.call("kissat")  # by which `solver` is a file
        self.refuses("cannot read input", "solver", "f.lrat")

    def test_answers(self) -> None:
        end = self.decides(10, self.sat, "f.lrat")
        self.assertTrue(satisfies(Path(self.sat).read_text(), end.lines))
        self.assertEqual(["s SATISFIABLE"], self.decides(10, "-q", "-n", self.sat).lines)
        self.assertEqual(["s SATISFIABLE"], self.decides(10, "--no-witness", self.sat).lines)
        self.assertFalse(os.path.exists(self.at("f.lrat")))
        for words in ([], ["-"], ["/dev/stdin"], ["-", "f.lrat"], ["--", "-", "f.lrat"]):
            self.decides(20, *words, given=Path(self.unsat).read_bytes())
        self.verifies(self.unsat, "f.lrat")
        self.assertEqual(["s UNKNOWN"], self.decides(0, "--limit", "1", self.unsat).lines)
        self.assertEqual(["s UNKNOWN"], self.decides(0, "--limit=1", self.unsat).lines)
        self.write("-f.cnf", "p cnf 1 1\n1 0\n")
        self.assertEqual(["s SATISFIABLE", "v 1 0"], self.decides(10, "--", "-f.cnf").lines)

    def test_words_of_others(self) -> None:
        for words in ("-q -q", "-n -n", "--quiet --no-witness", "-v -v -f -s", "--sat",
                      "--unsat --plain", "--seed=7", "--no-elim", "--restartint=50 -P2",
                      "-verb=0 -no-pre -rnd-seed=9", "--no-binary", "--lrat", "--chrono=true",
                      "--quiet=0 --no-quiet", "--help=no"):
            for line in (words.split() + [self.unsat], [self.unsat] + words.split()):
                self.assertEqual(["s UNSATISFIABLE"], self.decides(20, *line).lines, line)

    def test_words_that_are_told(self) -> None:
        for words in ("--odd", "-c 5", "-w out", "--conflicts=3", "-t 5", "--time=5", "-cpu-lim=5",
                      "--depth 3", "--jobs 2", "--keep kept", "--program=none", "--limit=0",
                      "--binary", "--veripb"):
            self.told("^c %s is passed over: " % words.split()[0], 20, *words.split(), self.unsat)
        self.told("^c x5 is passed over: a limit is", 20, "--limit", "x5", self.unsat)
        self.told("^c g.cnf is passed over: two files", 20, self.unsat, "f.lrat", "g.cnf")
        self.told("^c --x.s SATISFIABLE.. is passed over", 20, "--x\ns SATISFIABLE\xe9", self.unsat)
        self.env["SATCLUSTER_WORDS"] = "--limit 1"
        self.told("^c SATCLUSTER_WORDS is passed over: only the script", 20, self.unsat)

    def test_refusals(self) -> None:
        self.write("bad.cnf", BAD)
        for name in ("kissat", "minisat"):
            self.call(name)
            self.refuses("c input line 2 fault 4", "bad.cnf", "out")
            self.refuses("c input line 2 fault 4", given=BAD.encode())
            self.refuses("c cannot read input", "none.cnf")
            self.refuses("c cannot read input", ".")
            self.refuses("is a formula: it is not written over", self.unsat, "bad.cnf")
            self.refuses("`-` names none", self.unsat, "-")
            self.refuses("c cannot write (proof|result)", self.unsat, "none/out")
            self.refuses("c cannot write (proof|result)", self.unsat, "tmp")
        self.assertEqual(BAD, self.text("bad.cnf"))
        for word in ("--help", "-h", "--version"):
            self.assertEqual("s UNKNOWN", self.answer(word).lines[-1])
        for name in ("none\ns UNSATISFIABLE", "s UNSATISFIABLE\n", "none\rs SATISFIABLE\n"):
            self.assertEqual(0, self.answer(name).status)
            self.assertEqual(0, self.answer(name, name + "/proof").status)

    def test_packed(self) -> None:
        for tool in ("gzip", "xz", "bzip2", "zstd"):
            if not shutil.which(tool):
                continue
            packed = subprocess.run([tool, "-c", self.unsat], stdout=subprocess.PIPE).stdout
            (self.folder / "f.packed").write_bytes(packed)
            self.refuses("tools/satcluster-solver", "f.packed")
            self.refuses("tools/satcluster-solver", given=packed)

    def test_result(self) -> None:
        self.call("minisat")
        self.decides(20, "-verb=0", self.unsat, "out")
        self.assertEqual("UNSAT\n", self.text())
        for more in ([], ["-n"]):
            end = self.decides(10, *more, self.sat, "out")
            self.assertEqual(["s SATISFIABLE"], end.lines)  # the model is in the file alone
            first, model, rest = self.text().split("\n")
            self.assertEqual(("SAT", ""), (first, rest))
            self.assertTrue(satisfies(Path(self.sat).read_text(), ["v " + model]))
        self.write("out", "notes\n")  # which an answer replaces, as it does for MiniSat
        self.decides(10, "-", "out", given=b"p cnf 3 1\n-2 0\n")
        self.assertRegex(self.text(), "^SAT\n-?1 -2 -?3 0\n$")
        self.assertEqual(["out"], [path.name for path in self.folder.glob("out*")])

    def test_no_answer(self) -> None:
        """An older result is not left there, and what is none is not lost."""
        self.call("minisat")
        self.write("bad.cnf", BAD)
        for line in ("--limit 1 " + self.unsat, "bad.cnf", "none.cnf"):
            for stood, stands in (("UNSAT\n", "INDET\n"), ("SAT\n1 0\n", "INDET\n"),
                                  ("", "INDET\n"), ("notes\n", "notes\n")):
                self.write("out", stood)
                end = self.answer(*line.split(), "out")
                self.assertEqual((0, stands), (end.status, self.text()), (line, stood))

    def test_beside_minisat(self) -> None:
        minisat = client("minisat")
        if minisat is None:
            self.skipTest("minisat is not installed")
        self.call("minisat")
        for name in ("four_clauses", "pigeons_6", "random_100_sat", "schur_3_13", "sudoku_2"):
            formula = self.example(name + ".cnf")
            theirs = subprocess.run([minisat, "-verb=0", formula, self.at("theirs")],
                                    stdout=subprocess.DEVNULL, stderr=subprocess.DEVNULL)
            self.assertEqual(theirs.returncode, self.answer("-verb=0", formula, "out").status)
            theirs_lines, lines = (self.text(name).split("\n") for name in ("theirs", "out"))
            self.assertEqual(theirs_lines[0], lines[0])
            self.assertEqual([len(line.split(" ")) for line in theirs_lines],
                             [len(line.split(" ")) for line in lines])

    def test_start(self) -> None:
        """Within 10 ms. The fastest of many runs counts, since a machine may be loaded."""
        self.write("f.cnf", "p cnf 1 1\n1 0\n")
        took = []
        for _ in range(50):
            began = time.monotonic()
            self.run_solver("f.cnf")
            took.append(time.monotonic() - began)
        self.assertLess(min(took), 0.01)


class Lists(unittest.TestCase):
    """The words that are passed over stand twice: the installed script has no sources beside it."""

    def test_same(self) -> None:
        table = HERE.parent / "crates" / "command_line" / "src" / "solver_words" / "table.rt"
        if not table.is_file():
            self.skipTest("the sources are not here")
        text = table.read_text()
        for name, known in (("LONG_NAMES", NAMES), ("SHORT_NAMES", MINISAT)):
            found = re.search(name + r": .*?\[\n(.*?)\];", text, re.S)
            assert found
            self.assertEqual(sorted(known), re.sub(r'[",]', " ", found.group(1)).split())
        words = " ".join(re.findall('words: "(.*)",', text)).split()
        theirs = PLAIN | {*VALUED, *SWITCHES, *PROOF_WORDS, *NOT_DONE, *LIMITS}
        self.assertEqual(set(), theirs.difference(words))
        self.assertTrue(all(word in theirs or LEVEL.fullmatch(word) for word in words))


class Clients(Case):
    """CBMC, yosys and ABC, with the proved program as their solver."""

    def setUp(self) -> None:
        super().setUp()
        self.env["PATH"] = os.pathsep.join([self.at("bin"), self.env["PATH"]])
        (self.folder / "bin").mkdir()

    def wanted(self, name: str) -> str:
        path = client(name)
        if path is None:
            self.skipTest(name + " is not installed: tools/clients.sh fetches it")
        return path

    def solvers(self) -> Iterator[str]:
        """The solver as it is, and with jobs, each as a program that keeps what it has said."""
        for words in ("", "--jobs 2"):
            line = '%s %s "$@" > said; status=$?; cat said; grep "^s" said >> %s; exit $status\n'
            yield self.script("bin/solver", line % (SOLVER, words, self.at("answers")))
            self.leaves_nothing()

    def printed(self, answers: str, *words: str) -> str:
        """What a client prints, to which the solver has given these answers."""
        self.write("answers", "")
        done = subprocess.run(words, cwd=str(self.folder), env=self.env, timeout=SECONDS,
                              stdin=subprocess.DEVNULL, stdout=subprocess.PIPE,
                              stderr=subprocess.STDOUT)
        told = done.stdout.decode("utf-8", "replace")
        lines = (self.folder / "answers").read_text().split("\n")[:-1]
        self.assertEqual(["s " + answer for answer in answers.split()], lines, told)
        return told

    def refused(self, *words: str) -> str:
        """What a client prints if the program has not memory enough."""
        program = self.env["SATCLUSTER"]
        self.env["SATCLUSTER"] = self.script("refuses", "echo c no memory; exit 1\n")
        try:
            return self.printed("UNKNOWN", *words)
        finally:
            self.env["SATCLUSTER"] = program

    def test_cbmc(self) -> None:
        cbmc = self.wanted("cbmc")
        self.write("right.c", SORTS % "> next")
        self.write("wrong.c", SORTS % ">= next + 1 && at > 1")
        for solver in self.solvers():
            words = [cbmc, "--unwind", "4", "--external-sat-solver", solver]
            told = self.printed("UNSATISFIABLE", *words, "right.c")
            self.assertIn("VERIFICATION SUCCESSFUL", told)
            told = self.printed("SATISFIABLE UNSATISFIABLE", *words, "wrong.c")
            self.assertIn("VERIFICATION FAILED", told)
            told = self.refused(*words, "right.c")
            self.assertIn("VERIFICATION ERROR", told)

    def test_native(self) -> None:
        """CBMC and ABC call the program itself by links."""
        cbmc, abc = client("cbmc"), client("yosys-abc") or client("abc")
        if cbmc is None or abc is None:
            self.skipTest("CBMC or ABC is not installed")
        line = '%s solver "$@" > said; status=$?; cat said; grep "^s" said >> %s; exit $status\n'
        solver = self.script("bin/kissat", line % (self.program, self.at("answers")))
        self.write("right.c", SORTS % "> next")
        self.write("wrong.c", SORTS % ">= next + 1 && at > 1")
        words = [cbmc, "--unwind", "4", "--external-sat-solver", solver]
        told = self.printed("UNSATISFIABLE", *words, "right.c")
        self.assertIn("VERIFICATION SUCCESSFUL", told)
        told = self.printed("SATISFIABLE UNSATISFIABLE", *words, "wrong.c")
        self.assertIn("VERIFICATION FAILED", told)
        told = self.printed("SATISFIABLE", abc, "-q", "twoexact -I 3 -N 2 -k 96")
        self.assertIn("Verification successful", told)
        told = self.printed("UNSATISFIABLE", abc, "-q", "twoexact -I 3 -N 2 -k -v 68")
        self.assertIn("The problem has no solution", told)

    def test_yosys(self) -> None:
        yosys, plugin = self.wanted("yosys"), client("satcluster.so")
        if plugin is None:
            self.skipTest("no plugin satcluster.so: tools/clients.sh makes it")
        self.write("f.v", "module f(input [7:0] a, b, output ok);\n"
                          "assign ok = (a ^ b) + ((a & b) << 1) == a + b; endmodule\n")
        words = [yosys, "-m", plugin, "-p"]
        script = "read_verilog f.v; sat -select-solver satcluster -prove ok %d"
        for solver in self.solvers():
            self.env["SATCLUSTER_SOLVER"] = solver
            told = self.printed("UNSATISFIABLE", *words, script % 1)
            self.assertIn("SAT proof finished - no model found: SUCCESS!", told)
            told = self.printed("SATISFIABLE", *words, script % 0)
            self.assertIn("SAT proof finished - model found: FAIL!", told)
            self.assertNotIn("SAT proof finished", self.refused(*words, script % 1))

    def test_yosys_session(self) -> None:
        """One session has all queries of a solver, and without an answer nothing is proved."""
        yosys, plugin = self.wanted("yosys"), client("satcluster_session.so")
        if plugin is None:
            self.skipTest("no plugin satcluster_session.so: tools/clients.sh makes it")
        self.env.update(SATCLUSTER_EVENTS=self.at("run-"), SATCLUSTER_PROOF=self.at("run-"))
        words = [yosys, "-m", plugin, "-p", "read_verilog f.v; proc; sat -set-init-zero "
                 "-select-solver satcluster-session -tempinduct -prove ok 1"]
        module = ("module f(input clk, in, output ok); reg [5:0] a, b;\n"
                  "always @(posedge clk) begin a <= {a, in}; b <= {b, in}; end\n"
                  "assign ok = %s; endmodule\n")
        self.write("f.v", module % "a[5] == b[5]")
        self.assertIn("Induction step proven: SUCCESS!", self.printed("", *words))
        counts = [self.verified(events) for events in sorted(self.folder.glob("run-*.icnf"))]
        self.assertEqual([6, 6], counts)
        self.write("f.v", module % "!(a[5] && b[4])")
        self.assertIn("model found for base case: FAIL!", self.printed("", *words))
        self.env["SATCLUSTER"] = self.script("refuses", "exit 1\n")
        told = self.printed("", *words)
        self.assertIn("satcluster has given no answer", told)
        self.assertNotIn("proof finished", told)

    def verified(self, events: Path) -> int:
        """How many queries a session has, all of which are proved."""
        words = [self.env["SATCLUSTER"], "check", "--session", str(events),
                 str(events.with_suffix(".lidrup"))]
        told = subprocess.run(words, stdout=subprocess.PIPE, encoding="ascii").stdout
        self.assertEqual("s VERIFIED", told.split("\n")[0])
        return int(told.split()[3])

    def test_abc(self) -> None:
        abc = self.wanted("yosys-abc" if client("yosys-abc") else "abc")
        for solver in self.solvers():
            os.replace(solver, self.at("bin/kissat"))
            told = self.printed("SATISFIABLE", abc, "-q", "twoexact -I 3 -N 2 -k 96")
            self.assertIn("Verification successful", told)
            told = self.printed("UNSATISFIABLE", abc, "-q", "twoexact -I 3 -N 2 -k -v 68")
            self.assertIn("The problem has no solution", told)
            for answer, name in (("SATISFIABLE", "sat"), ("UNSATISFIABLE", "unsat")):
                line = "&kissat -k -T 50 " + self.example("random_100_%s.cnf" % name)
                self.assertIn("s " + answer, self.printed(answer, abc, "-q", line))
            self.assertIn("s UNKNOWN", self.refused(abc, "-q", line))


if __name__ == "__main__":
    run(__doc__)
