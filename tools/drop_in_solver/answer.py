"""Runs the proved program, or `conquer.py`, and prints its answer.

An `s` line is printed only if the program, or `join` under `conquer.py`, has printed it and ended
with its status. The program is started as a child, and not by `exec`: if it refuses the formula,
`s UNKNOWN` has to be printed after its lines.
"""
import os
import re
import select
import subprocess
import sys
from dataclasses import dataclass, field
from pathlib import Path
from typing import Callable, Dict, List, Optional

from drop_in_solver.kept_files import KeptFiles
from drop_in_solver.output import NoReader, Output, can_print, reader_is_gone
from drop_in_solver.processes import Ended, Sweeper, end, end_after, kill_with_parts, start
from drop_in_solver.result_file import OutputWithResult, refusal
from drop_in_solver.sources import Refused, Source, source_of, spooled
from drop_in_solver.words import Asked, read, words_of_environment
from explanations import looks, words
from leaf_jobs import places

CONQUER = Path(__file__).resolve().parent.parent / "conquer.py"
ANSWERS = {10: b"s SATISFIABLE", 20: b"s UNSATISFIABLE", 0: b"s UNKNOWN"}
PATIENCE = 10  # seconds that conquer.py has to end its jobs
LOOKS = 500  # milliseconds after which it is tested whether standard output is still read


@dataclass
class Lines:
    """What a command prints: `c` lines go on as they come, all others wait until it has ended."""

    output: Output
    begun: bytes = b""
    comments: List[str] = field(default_factory=list)
    held: List[bytes] = field(default_factory=list)

    def add(self, data: bytes) -> None:
        *lines, self.begun = (self.begun + data).split(b"\n")
        told = [line[2:].decode("ascii", "replace") for line in lines if line.startswith(b"c ")]
        told = [line for line in told if not line.startswith("report ")]  # its folder goes
        self.held += [line for line in lines if not line.startswith(b"c ")]
        self.comments += told
        self.output.comment(told)


def answer_in(status: int, lines: Lines, has_values: bool) -> Optional[bytes]:
    """The answer that a command has printed, if line and status agree and nothing is cut."""
    line = ANSWERS.get(status)
    if line is None or lines.begun or lines.held[:1] != [line]:
        return None
    values = lines.held[1:]
    if any(not value.startswith(b"v ") for value in values) or (values and status != 10):
        return None
    if status == 10 and has_values and not (values and values[-1].endswith(b" 0")):
        return None
    return b"".join(line + b"\n" for line in lines.held)


def listen(process: subprocess.Popen, lines: Lines) -> None:
    """Reads what the command prints until it has ended, or standard output has no reader."""
    assert process.stdout is not None
    poll, pipe = select.poll(), process.stdout.fileno()
    poll.register(pipe, select.POLLIN)
    while True:
        if poll.poll(LOOKS):
            data = os.read(pipe, 1 << 16)
            if not data:
                break
            lines.add(data)
        elif reader_is_gone():
            raise NoReader()
    process.wait()


@dataclass
class Solver:
    """A run of one command line."""

    asked: Asked
    output: Output
    keep: Optional[KeptFiles] = None
    has_decided: bool = False

    def program(self) -> str:
        word = places.word_of_program(self.asked.program)
        path = places.found(word)
        if path is None:
            raise Refused("There is no program %s: %s." % (word, places.HOW_TO))
        return path

    def decide(self) -> None:
        self.test_files()
        program = self.program()
        end_after(self.asked.seconds)
        run = self.alone if self.asked.jobs is None else self.by_jobs
        if self.asked.keep is None:
            run(program)
            return
        self.keep = KeptFiles(self.asked.keep)
        try:
            run(program)
        finally:
            if not self.has_decided:
                self.keep.drop()

    def source(self) -> Source:
        source = source_of(self.asked.formula)
        return self.keep.take(source) if self.keep else source

    def test_files(self) -> None:
        """Tells at once, and not after hours, that the proof or the result cannot be written."""
        asked = self.asked
        why = asked.proof and refusal(asked.proof, asked.formula, "proof")
        if why:
            raise Refused(why)
        self.output.test()

    def alone(self, program: str) -> None:
        """One process. Only with a depth is the formula split: what is learnt under one cube is lost
        under the next."""
        source = self.source()
        limits = source.limits()
        if limits:
            self.output.comment([looks.LARGE])
        depth = self.asked.depth
        command = [program, *(["decide"] if depth is None else ["solve", "--depth", str(depth)])]
        command += [*limits, "--explain", *self.more(), source.path, *self.proof()]
        process = start(command, stdin=source.pipe, stdout=subprocess.PIPE, stderr=subprocess.PIPE)
        source.close()
        lines = Lines(self.output)
        try:
            listen(process, lines)
        finally:
            kill_with_parts(process, self.proof())
        assert process.stderr is not None
        text = process.stderr.read().decode("utf-8", "replace")  # it is short: nothing waits for it
        shown = {source.path: words.shown(self.asked.formula)}
        self.tell(process, source, lines, lambda line: of_head(program, source, limits, line)
                  or words.told(text, shown))

    def by_jobs(self, program: str) -> None:
        """`conquer.py` in a folder of its own, which goes with this process however it ends."""
        from tempfile import mkdtemp  # slow to load, and seldom wanted

        folder = mkdtemp(prefix="satcluster-")
        sweeper = Sweeper(folder)
        try:
            self.conquer(program, folder)
        finally:
            sweeper.sweep()

    def conquer(self, program: str, folder: str) -> None:
        source, errors = self.source(), os.path.join(folder, "errors")
        if source.pipe or not os.path.isfile(source.path):  # it is read more than once
            source = spooled(source, os.path.join(folder, "formula.cnf"))
        command = [sys.executable, str(CONQUER), "--program", program, "--folder",
                   os.path.join(folder, "run"), "--jobs", str(self.asked.jobs)]
        command += ["--depth", str(self.asked.depth)] if self.asked.depth is not None else []
        lines = Lines(self.output)
        with open(errors, "wb") as told:
            process = start(command + self.more() + [source.path] + self.proof(), stderr=told,
                            stdin=subprocess.DEVNULL, stdout=subprocess.PIPE)
        try:
            listen(process, lines)
        finally:
            end(process, PATIENCE)
        shown = {os.path.abspath(source.path): words.shown(self.asked.formula)}
        self.tell(process, source, lines, lambda _: told_in(errors, shown))

    def more(self) -> List[str]:
        asked = self.asked
        limit = ["--limit", str(asked.limit)] if asked.limit is not None else []
        binary = ["--binary"] if self.keep and not asked.proof else []
        return limit + binary + ([] if self.has_values() else ["-n"])

    def has_values(self) -> bool:
        """Whether the program prints an assignment: what is kept has it, and MiniSat's result,
        whatever is printed."""
        asked = self.asked
        return asked.values or self.keep is not None or asked.result is not None

    def proof(self) -> List[str]:
        proof = self.asked.proof or (self.keep.proof() if self.keep else None)
        return [] if proof is None else [os.path.join(".", proof) if proof[0] == "-" else proof]

    def tell(self, process: subprocess.Popen, source: Source, lines: Lines,
             explain: Callable[[str], List[str]]) -> None:
        """Prints the answer, or why there is none."""
        status = process.returncode
        answer = answer_in(status, lines, self.has_values())
        if answer is None:
            last = lines.comments[-1:]
            told = last if self.asked.quiet else []  # else it is printed already
            reasons = source.trouble() or explain("c " + "".join(last))
            raise Refused(*told, *why_not(status, lines, reasons))
        source.test()
        end_after(None)
        self.has_decided = status != 0
        if self.keep and self.has_decided:
            self.tell_kept(self.keep, answer, status)
        if status == 0:
            self.output.comment(["the run ended without a verdict"])
        if not self.asked.values and self.asked.result is None:
            answer = answer.split(b"\n", 1)[0] + b"\n"
        self.output.answer(answer, status)

    def tell_kept(self, keep: KeptFiles, answer: bytes, status: int) -> None:
        """Keeps the answer or packs the proof, and tells how that is checked."""
        if status == 10:
            keep.answer(answer)
        elif self.asked.proof:
            return
        else:
            keep.pack()
        self.output.comment(["kept; it is checked by: " + keep.how_to_check(status)])


def why_not(status: int, lines: Lines, reasons: List[str]) -> List[str]:
    if status < 0:
        return ["the program was ended by signal %d" % -status] + reasons
    if status == 1 and lines.comments and not lines.held:
        return reasons
    return ["the program ended with status %d, and without the answer of that" % status] + reasons


def of_head(program: str, source: Source, limits: List[str], line: str) -> List[str]:
    """What a fault in the first bytes of a pipe means. The program cannot read these once more, so
    `cubes --explain` reads them from a file."""
    if not source.head or not line.startswith("c input "):
        return []
    from tempfile import NamedTemporaryFile  # slow to load, and seldom wanted

    with NamedTemporaryFile(prefix="satcluster-") as file:
        file.write(source.head)
        file.flush()
        done = subprocess.run([program, "cubes", *limits, "--explain", "--depth", "0", file.name],
                              stdout=subprocess.PIPE, stderr=subprocess.PIPE)
        text = done.stderr.decode("utf-8", "replace")
        if done.stdout.decode("ascii", "replace") != line + "\n":
            return []
        # A command that helps is one for a file.
        text = re.sub("`.*`", lambda found: found.group(0).replace(file.name, "FILE"), text)
        return words.told(text, {file.name: "standard input"})


def told_in(path: str, shown: Dict[str, str]) -> List[str]:
    """The last lines that a command has written to standard error."""
    with open(path, encoding="utf-8", errors="replace") as file:
        return words.told(file.read(), shown)[-10:]


HELP = """satcluster-solver [words] [FILE [PROOF]]
Decides a DIMACS formula, standard input if FILE is left out or is -, packed or not.
PROOF is an LRAT proof as text. Answers: s SATISFIABLE (10), s UNSATISFIABLE (20), s UNKNOWN (0).
Called as minisat, by a link, it writes MiniSat's result in the place of PROOF.
-q no c lines; -n no v lines; -t N or --time=N ends it after N seconds; --jobs N on N cores;
--limit L ends it after L lemmas; --depth D splits; --program PATH the proved program.
--keep FOLDER keeps each formula that was decided, N.cnf, and its N.lrat (binary; packed by zstd or
gzip) or N.answer, and tells how to check them.
Words of CaDiCaL, Kissat and MiniSat are taken or passed over; docs/CLIENTS.md tells more."""


def main(line: List[str]) -> int:
    """line: the name by which this program was called, and its words."""
    asked = read(words_of_environment() + line[1:], line[0])
    output = Output(asked.quiet)
    if asked.result is not None:
        output = OutputWithResult(asked.quiet, asked.result, asked.formula)
    try:
        try:
            attempt(asked, output)
        except (Refused, OSError, MemoryError) as why:
            output.unknown(why.reasons if isinstance(why, Refused) else [str(why) or repr(why)])
    except Ended as why:
        tell_end(str(why), output)
    except NoReader:
        pass
    return output.status


def attempt(asked: Asked, output: Output) -> None:
    for remark in asked.remarks:
        output.remark(remark)
    output.reasons(asked.comments)
    if asked.helps:
        raise Refused(*HELP.split("\n"))
    Solver(asked, output).decide()


def tell_end(why: str, output: Output) -> None:
    """The last line of a run that is ended, if there is none yet, and if it can be printed."""
    try:
        if not output.has_answered and can_print():
            output.unknown([why], waits=False)
    except NoReader:
        pass
