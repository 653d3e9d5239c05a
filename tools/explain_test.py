#!/usr/bin/env python3
"""Runs the program with `--explain` and without it: it prints the same, ends with the same status,
and tells on standard error what is wrong, in the sentences of the table.

    tools/explain_test.py PATH-OF-satcluster [CASE ..]
"""
import os
import pty
import shutil
import subprocess
import sys
import tempfile
import unittest
from pathlib import Path
from typing import List, NamedTuple, Optional, Union

sys.dont_write_bytecode = True

from cases import EXAMPLES, run
from explanations.faults import TABLES, Row, other_lines, variants

FOUR = str(EXAMPLES / "four_clauses.cnf")
EVENTS = "p inccnf\n1 2 0\na 1 0\n"
COMMANDS = {  # by which a file of each table is read
    "input": ["decide", "example"], "proof": ["check", FOUR, "example"],
    "drat": ["check", "--drat", FOUR, "example"],
    "cubes": ["leaf", "--cubes", "example", "--leaf", "1", FOUR],
    "answer": ["model", FOUR, "example"], "events": ["check", "--session", "example", "example"],
    "session": ["check", "--session", "events", "example"],
}
LOOKS = (  # by which command a file is read, its bytes, and what it is
    ("proof", b"a\x04\x00a\x06\x00a\x08\x00", "BinaryDrat"),
    ("proof", b"a\x81\x02\x00d\x81\x02\x00a\x06\x00", "BinaryDrat"),
    ("proof", b"1 2 0\nd 1 2 0\n0\n", "Drat"), ("proof", b"0\n", "Drat"),
    ("proof", b"d 1 2 0\n2 0\n0\n", "Drat"), ("proof", b"5 2 0 1 2 0\nd 1 2 0\n", "Drat"),
    ("proof", b"o 1  1 2 0\n", "Frat"),
    ("proof", b"a 5  2 0  l 1 2 0\n", "Frat"), ("proof", b"o\x02\x04\x00", "BinaryFrat"),
    ("proof", b"5 2 0 1 2 0\r\n", "LineEnds"), ("proof", b"5 2 0 1 2 0\nc x\n", "Comments"),
    ("proof", b"pseudo-Boolean proof version 2.0\n", "VeriPb"),
    ("proof", b"\x1f\x8b\x08\x00", "Gzip"), ("proof", b"\xfd7zXZ\x00", "Xz"),
    ("proof", b"\x28\xb5\x2f\xfd", "Zstd"), ("proof", b"BZh9", "Bzip2"),
    ("proof", b"\xef\xbb\xbf5 2 0 1 2 0\n", "ByteOrderMark"), ("proof", b"\xff\xfe5\x00", "Utf16"),
    ("proof", b"\x7fELF\x02", "Program"), ("proof", b"<!doctype html>\n", "WebPage"),
    ("input", b"1 2 0\n", "Clauses"), ("input", b"c x\n-1 2 0\n", "Clauses"),
    ("input", b"p wcnf 2 1 9\n", "MaxSat"), ("input", b"p inccnf\n1 0\n", "Icnf"),
    ("input", b"a\x0a\x05\x00\x06\x08\x00", "BinaryProof"),
    ("session", b"i\x02\x02\x04\x00", "Binary"), ("session", b"i 1 1 2 0\r\n", "LineEnds"),
    ("proof", b"a\x0a\x05\x00\x06\x09\x00a\x0c\x02\x00\x0a\x02\x00", None),
    ("proof", b"5 2 0 1 2 0\n6 0 5 3 4 0\n", None), ("proof", b"5 0 1 0\n", None),
    ("proof", b"5 2 0 1 2\n", None), ("proof", b"", None), ("input", b"", None),
)


class End(NamedTuple):
    status: int
    lines: List[str]
    told: List[str]


def row(name: str, module: str, key: str) -> Row:
    return next(row for row in variants(module, name) if row.key == key)


class Case(unittest.TestCase):
    """A folder of its own, in which the program runs."""

    def setUp(self) -> None:
        self.folder = Path(os.path.realpath(tempfile.mkdtemp()))
        self.addCleanup(shutil.rmtree, str(self.folder), ignore_errors=True)
        self.program = os.environ["SATCLUSTER"]
        self.write("events", EVENTS)

    def write(self, name: str, data: Union[str, bytes]) -> str:
        (self.folder / name).write_bytes(data if isinstance(data, bytes) else data.encode())
        return name

    def tree(self) -> str:
        lines = self.run_program("cubes", "--depth", "1", FOUR).lines
        return self.write("f.icnf", "\n".join(lines) + "\n")

    def run_program(self, *words: str, given: bytes = b"") -> End:
        done = subprocess.run([self.program, *words], cwd=str(self.folder), input=given,
                              stdout=subprocess.PIPE, stderr=subprocess.PIPE, timeout=60)
        lines, told = (text.decode().split("\n")[:-1] for text in (done.stdout, done.stderr))
        return End(done.returncode, lines, told)

    def explained(self, *words: str, given: bytes = b"") -> End:
        """The end of a run that is explained, which is that of the run that is not."""
        plain = self.run_program(*words, given=given)
        end = self.run_program(*words[:1], "--explain", *words[1:], given=given)
        self.assertEqual((plain.status, plain.lines), (end.status, end.lines), words)
        self.assertEqual([], plain.told, words)
        self.assertTrue(all(line.startswith("c ") for line in end.told), end.told)
        return end

    def tells(self, sentences: List[str], *words: str, given: bytes = b"") -> List[str]:
        """The lines that tell these sentences, in this order."""
        end = self.explained(*words, given=given)
        text = "\n".join(end.told)
        for sentence in sentences:
            self.assertIn(sentence, text, words)
            text = text[text.index(sentence) + len(sentence):]
        return end.told


class Terminal(Case):
    """What is told without a word if standard error is a terminal."""

    def at_terminal(self, *words: str) -> End:
        keyboard, screen = pty.openpty()
        with subprocess.Popen([self.program, *words], cwd=str(self.folder), stdin=subprocess.DEVNULL,
                              stdout=subprocess.PIPE, stderr=screen) as run:
            os.close(screen)
            told = b""
            while True:
                try:
                    piece = os.read(keyboard, 4096)
                except OSError:  # Linux: nobody has the other end open
                    break
                told += piece
            assert run.stdout
            lines = run.stdout.read()
        os.close(keyboard)
        texts = (text.decode().replace("\r", "").split("\n")[:-1] for text in (lines, told))
        return End(run.returncode, *texts)

    def test_as_with_the_word(self) -> None:
        self.write("bad.cnf", "p cnf 2 1\n3 0\n")
        for words in (["check", "bad.cnf", FOUR], ["check", "absent", FOUR], ["chek"],
                      ["solve", "--limt", "3", FOUR], ["solve", "--depth", "0", FOUR]):
            asked = self.run_program(*words, "--explain")
            end = self.at_terminal(*words)
            self.assertEqual(asked, end)
            none = self.at_terminal(*words, "--explain", "--no-explain")
            self.assertEqual((asked.status, asked.lines, []), none)
            self.assertEqual([], self.run_program(*words).told)

    def test_help_without_words(self) -> None:
        end = self.at_terminal()
        self.assertEqual((1, ["c usage"]), end[:2])
        self.assertEqual(self.run_program("--help").lines[:5], end.told[:5])
        self.assertEqual([], self.at_terminal("--no-explain").told)
        self.assertEqual(End(1, ["c usage"], []), self.run_program())

    def test_nearest(self) -> None:
        for words, meant in ((["chek"], "check"), (["slove"], "solve"), (["frobnicate"], None),
                             (["check", "--sesion", "a", "b"], "--session"),
                             (["solve", "--no-explan", "a"], "--no-explain"),
                             (["solve", "-x", "a"], None), (["solve", "--" + "x" * 99], None)):
            told = self.run_program(*words, "--explain").told
            found = [line for line in told if line.startswith("c Do you mean ")]
            self.assertEqual(["c Do you mean %s?" % meant] if meant else [], found, words)


class Faults(Case):
    def test_examples(self) -> None:
        looks = {row.sentence: row.key for row in variants("looks", "Look")}
        for table in TABLES:
            rows = {row.key: row for row in table.rows()}
            self.assertLessEqual(set(map(str, table.examples)), set(rows))
            for number, example in table.examples.items():
                self.write("example", example)
                words = COMMANDS[table.name]
                is_second = table.name in ("proof", "drat", "answer", "session")
                unit = "step" if table.name == "drat" else "line"
                fault = self.explained(*words).lines[1 if is_second else 0]
                self.assertRegex(fault, r"%s \d+ fault %d$" % (unit, number), (table.name, example))
                place = fault.split(unit + " ")[1].split()[0]
                sentence = rows[str(number)].sentence
                told = self.tells(["example, %s %s: %s" % (unit, place, sentence)], *words)
                found = [looks[line[2:]] for line in told if line[2:] in looks]
                is_bare = (table.name, number) == ("input", 1)
                self.assertEqual(["Clauses"] if is_bare else [], found, (table.name, example))

    def test_line(self) -> None:
        self.write("f.cnf", "p cnf 9 3000\n" + "1 2 0\n" * 2000 + "1 x 0\n")
        told = self.tells(["f.cnf, line 2002: A token is no number."], "cubes", "f.cnf")
        self.assertIn("c The line is: 1 x 0", told)
        self.write("f.cnf", "p cnf 9 1\n" + "1 " * 50 + "x 0\n")
        told = self.tells(["f.cnf, line 2"], "cubes", "f.cnf")
        self.assertIn("c The line begins: " + "1 " * 30, told)
        self.write("f.cnf", b"p cnf 9 1\n1 \x1b[2J 0\n")
        self.assertFalse(any("The line" in line for line in self.tells([], "cubes", "f.cnf")))

    def test_looks(self) -> None:
        sentences = {row.sentence: row.key for row in variants("looks", "Look")}
        for table, data, wanted in LOOKS:
            self.write("example", data)
            told = [line[2:] for line in self.explained(*COMMANDS[table]).told]
            found = [sentences[line] for line in told if line in sentences]
            self.assertEqual([wanted] if wanted else [], found, (data, told))

    def test_drat(self) -> None:
        """Whatever command takes LRAT, a line that spells a DRAT step is told to be one for `--drat`."""
        tree = self.tree()
        lines = (b"1 2 0\n", b"0\n", b"d 1 2 0\n2 0\n", b"5 2 0 1 2 0\nd 1 2 0\n", b"a\x04\x00a\x00")
        for data in lines:
            for words in (["check", FOUR, "f.drat"], ["trim", FOUR, "f.drat", "new"],
                          ["join", "--cubes", tree, FOUR, "new", "f.drat"],
                          ["lift", "--cubes", tree, "--leaf", "1", FOUR, "f.drat", "new"],
                          ["receipt", "--cubes", tree, FOUR, "f.drat", "new"]):
                # The formula of the leaf has a clause more, so a lemma's number is one more.
                lifted = data.replace(b"5 2 0", b"6 2 0") if words[0] == "lift" else data
                self.write("f.drat", lifted)
                self.tells(["satcluster check --drat INPUT f.drat"], *words)

    def test_command_that_is_told(self) -> None:
        self.write("bare.cnf", "1 2 0 -1\n2 0\n")
        told = self.tells(["It begins with clauses."], "solve", "bare.cnf")
        command = next(line for line in told if line.startswith("c `awk"))
        line = command[3:-1].replace("NEW", "new.cnf")
        subprocess.run(["sh", "-c", line], cwd=str(self.folder), check=True)
        self.assertEqual(10, self.run_program("solve", "new.cnf").status)
        self.write("a b.cnf", "1 2 0\n")
        self.tells(["a b.cnf, line 1", "FILE | cat - FILE > NEW"], "solve", "a b.cnf")
        self.write("a\x1b.cnf", "1 2 0\n")
        self.tells(["c the file, line 1"], "solve", "a\x1b.cnf")

    def test_other_lines(self) -> None:
        lines = {line.text: line for line in other_lines()}
        self.write("other.icnf", "p inccnf\n1 0\na 0\n")
        leaf = ["leaf", FOUR, "--leaf", "9", "--cubes"]
        for text, *words in (
                ("c cubes of another formula", *leaf, "other.icnf"),
                ("c no such leaf", *leaf, self.tree()),
                ("c cannot open links", "work", "--port", "1", FOUR)):
            self.assertEqual([text], self.explained(*words).lines)
            self.tells([lines[text].sentence, lines[text].remedy], *words)
        self.write("answer", "v 1 0\n")
        end = self.explained("model", FOUR, "answer")
        self.assertRegex(end.lines[1], "c clause ")
        self.assertIn("c " + lines["c clause K"].sentence, end.told)

    def test_joined(self) -> None:
        self.write("bad", "5 2 0 1 2\n")
        self.write("answer", "v 1 x 0\n")
        words = ["join", "--cubes", self.tree(), FOUR, "f.lrat"]
        sentences = ["bad, line 1: The line", "no file none.", "answer, line 1: A value is no"]
        self.tells(sentences, *words, "bad", "none", "answer")
        self.tells(["the file, line 1: The line"], *words, "-", given=b"bad\n")

    def test_lidrup(self) -> None:
        self.write("bad", "x\n")
        words = ["lift", "--cubes", self.tree(), "--lidrup", FOUR, "bad", "out"]
        self.tells(["bad, line 1: The line is none of LIDRUP"], *words)

    def test_lifted_drat(self) -> None:
        self.write("bad", "2 0\n-1")
        words = ["lift", "--drat", "--cubes", self.tree(), "--leaf", "1", FOUR, "bad", "out"]
        self.tells(["bad, step 2: The proof ends within a step."], *words)

    def test_standard_input(self) -> None:
        self.tells(["standard input, line 2: A variable"], "solve", "-", given=b"p cnf 1 1\n2 0\n")
        read, write = os.pipe()
        os.write(write, b"1 2 0\n")
        os.close(write)
        name = "/dev/fd/%d" % read
        done = subprocess.run([self.program, "solve", "--explain", name], pass_fds=[read],
                              stdout=subprocess.PIPE, stderr=subprocess.PIPE, timeout=60)
        os.close(read)
        self.assertIn(b"/dev/fd/%d, line 1: The text has no header" % read, done.stderr)


class Files(Case):
    def reason(self, key: str, name: str) -> str:
        return row("Reason", "reasons", key).sentence.replace("FILE", name)

    def test_unread(self) -> None:
        os.mkdir(str(self.folder / "folder"))
        os.mkfifo(str(self.folder / "fifo"))
        for key, name in (("Absent", "none"), ("Folder", "folder"), ("Absent", "none/f")):
            self.tells([self.reason(key, name)], "solve", name)
            self.tells([self.reason(key, name)], "check", FOUR, name)
            self.tells([self.reason(key, name)], "model", FOUR, name)
            self.tells([self.reason(key, name)], "leaf", "--cubes", name, "--leaf", "1", FOUR)
        if os.getuid() != 0:
            self.write("locked", "p cnf 1 0\n")
            os.chmod(str(self.folder / "locked"), 0)
            self.tells([self.reason("Forbidden", "locked")], "solve", "locked")

    def test_unwritten(self) -> None:
        os.mkdir(str(self.folder / "folder"))
        shutil.copy(FOUR, str(self.folder / "f.cnf"))
        for key, name in (("NoFolder", "none/f"), ("InFolder", "folder"), ("Read", "f.cnf")):
            end = self.explained("decide", "f.cnf", name)
            self.assertEqual((1, ["c cannot write proof"]), (end.status, end.lines), name)
            self.assertIn("c " + self.reason(key, name), end.told)


class Words(Case):
    def reason(self, key: str, word: str, *words: str, lines: Optional[List[str]] = None) -> None:
        sentence = row("Reason", "reasons", key).sentence.replace("WORD", word)
        told = self.tells([sentence], *words)
        for line in lines or []:
            self.assertTrue(any(line in shown for shown in told), (line, told))

    def test_which(self) -> None:
        name = os.path.basename(self.program)
        usage = "Usage: %s solve [OPTIONS] <INPUT> [PROOF]" % name
        self.reason("OtherCommand", "slove", "slove", "f", lines=["Usage: %s <COMMAND>" % name])
        self.reason("OtherWord", "--odd", "solve", "--odd", "f", lines=[usage])
        self.reason("WrongWord", "--depth", "solve", "-q", "--depth", "99", "f", "g",
                    lines=[usage, "from 0 to 16"])
        self.reason("WrongWord", "--depth", "solve", "f", "--depth")
        self.reason("WrongWord", "-q", "solve", "-q", "-q", "f", lines=["Print no c lines"])
        self.reason("OtherName", "h", "solve", "--depth", "3", "f", "g", "h", lines=[usage])
        self.reason("NotTogether", "", "solve", lines=[usage])
        self.reason("NotTogether", "", "cubes", "--split", "1", FOUR)
        self.reason("NotTogether", "", "solve", "--", "f", "g", "h")
        self.reason("StandardInput", "", "check", "-", "-")
        self.reason("StandardInput", "", "solve", FOUR, "-")
        for more in ("", "--to 2", "--leaf 1 --to 2", "--lidrup --leaf 1", "--lidrup --to 2",
                     "--drat", "--drat --leaf 1 --to 2", "--drat --lidrup"):
            self.reason("LeafOrLidrup", "", "lift", "--cubes", "f", *more.split(), FOUR, "g", "h")
        end = self.run_program("--explain")
        self.assertEqual((1, ["c usage"]), (end.status, end.lines))
        self.assertIn("c No command is named.", end.told)

    def test_many_words(self) -> None:
        """The refused word is found among many without reading all again for each."""
        names = ["x%d" % number for number in range(1000)]
        words = ["join", "--cubes", "f", FOUR, "g", *names, "--odd", *names]
        self.reason("OtherWord", "--odd", *words)

    def test_places(self) -> None:
        for words in (["--explain", "solve", "none"], ["solve", "--explain", "none"],
                      ["solve", "none", "--explain", "--explain"]):
            end = self.run_program(*words)
            self.assertEqual((1, ["c cannot read input"]), (end.status, end.lines), words)
            self.assertEqual("c There is no file none.", end.told[0], words)
        end = self.run_program("decide", "--", "--explain")
        self.assertEqual((1, ["c cannot read input"], []), end)
        shutil.copy(FOUR, str(self.folder / "--explain"))
        end = self.run_program("decide", "--", "--explain")
        self.assertEqual((20, ["s UNSATISFIABLE"], []), end)

    def test_right_runs(self) -> None:
        for words in (["decide", FOUR], ["--help"], ["solve", "--help"],
                      ["cubes", FOUR], ["solve", str(EXAMPLES / "random_100_sat.cnf")]):
            self.assertEqual([], self.explained(*words).told, words)
        help_lines = self.run_program("trim", "--help").lines
        self.assertTrue(any("--explain" in line for line in help_lines))

    def test_nobody_reads(self) -> None:
        for line in ("%s solve --explain none 2>&-", "%s solve --explain none 2>/dev/full"):
            done = subprocess.run(["sh", "-c", line % self.program], cwd=str(self.folder),
                                  stdout=subprocess.PIPE)
            self.assertEqual((1, b"c cannot read input\n"), (done.returncode, done.stdout))


if __name__ == "__main__":
    run(__doc__)
