#!/usr/bin/env python3
"""Runs the program where a file cannot be written: a regular file that stood there stands as it was.

    tools/files_test.py PATH-OF-satcluster [CASE ..]
"""
import functools
import os
import resource
import shutil
import signal
import subprocess
import sys
import tempfile
import unittest
from pathlib import Path
from typing import Callable, List, NamedTuple, Optional

sys.dont_write_bytecode = True

from cases import EXAMPLES, pigeons, run

FOUR = EXAMPLES / "four_clauses.cnf"
STOOD = b"what stood there\n"
NOBODY = 65534
PARTS = 100  # names that are tried for a part
SECONDS = 60
HOLES = 8  # the proof has 15,000 lemmas in 2 MB, so it goes to its file while it is found


class End(NamedTuple):
    status: int
    lines: List[str]


def few_bytes(most: int = 8) -> None:
    """Limits the size of each file, as a full disk does."""
    resource.setrlimit(resource.RLIMIT_FSIZE, (most, most))
    signal.signal(signal.SIGXFSZ, signal.SIG_IGN)


def another_user() -> None:
    if os.getuid() == 0:
        os.setgid(NOBODY)
        os.setuid(NOBODY)


class Files(unittest.TestCase):
    """Each writer of one text, over a folder of its own with the file OUT."""

    def setUp(self) -> None:
        self.top = Path(os.path.realpath(tempfile.mkdtemp()))
        self.addCleanup(shutil.rmtree, str(self.top), ignore_errors=True)
        os.chmod(str(self.top), 0o755)
        self.program = self.top / "satcluster"
        shutil.copy(os.environ["SATCLUSTER"], str(self.program))
        self.formula = shutil.copy(str(FOUR), str(self.top / "f.cnf"))
        self.folder = self.top / "folder"
        self.folder.mkdir()
        self.out = self.folder / "OUT"
        self.ends("decide", "f.cnf", "f.lrat", status=20)
        tree = self.call("cubes", "--depth", "0", "f.cnf")
        (self.top / "f.icnf").write_text("\n".join(tree.lines) + "\n")
        for path in self.top.iterdir():
            os.chmod(str(path), path.stat().st_mode | 0o444)

    def call(self, *words: str, before: Optional[Callable[[], None]] = None) -> End:
        done = subprocess.run([str(self.program), *words], cwd=str(self.top), timeout=SECONDS,
                              stdout=subprocess.PIPE, stderr=subprocess.DEVNULL,
                              preexec_fn=before, restore_signals=False)
        return End(done.returncode, done.stdout.decode().split("\n")[:-1])

    def ends(self, *words: str, status: int) -> None:
        self.assertEqual(status, self.call(*words).status, words)

    def writers(self, out: str) -> List[List[str]]:
        leaf = ["--cubes", "f.icnf", "--leaf", "1", "f.cnf"]
        return [["decide", "f.cnf", out], ["solve", "f.cnf", out],
                ["decide", "--binary", "f.cnf", out], ["trim", "f.cnf", "f.lrat", out],
                ["refute", *leaf, out], ["lift", *leaf, "f.lrat", out]]

    def stands(self, before: Optional[Callable[[], None]] = None) -> None:
        """Each writer ends with its words, and leaves the folder as it was."""
        names = sorted(path.name for path in self.folder.iterdir())
        for words in self.writers("folder/OUT"):
            end = self.call(*words, before=before)
            self.assertEqual((1, ["c cannot write proof"]), (end.status, end.lines), words)
            self.assertEqual(STOOD, self.out.read_bytes(), words)
            self.assertEqual(names, sorted(path.name for path in self.folder.iterdir()), words)

    def test_hundred_parts(self) -> None:
        self.out.write_bytes(STOOD)
        for number in range(PARTS):
            (self.folder / ("OUT.part%d" % number)).write_bytes(b"of a run that was killed")
        self.stands()

    def test_full_disk(self) -> None:
        self.out.write_bytes(STOOD)
        self.stands(few_bytes)

    def test_full_disk_without_parts(self) -> None:
        self.out.write_bytes(STOOD)
        for number in range(PARTS):
            (self.folder / ("OUT.part%d" % number)).write_bytes(b"")
        self.stands(few_bytes)

    def test_folder_that_may_not_be_written(self) -> None:
        self.out.write_bytes(STOOD)
        os.chmod(str(self.out), 0o666)
        os.chmod(str(self.folder), 0o555)
        self.stands(another_user)

    def test_no_file_and_no_part(self) -> None:
        """A file that is not there yet is not begun in place either."""
        for number in range(PARTS):
            (self.folder / ("OUT.part%d" % number)).write_bytes(b"")
        for words in self.writers("folder/OUT"):
            self.assertEqual(["c cannot write proof"], self.call(*words).lines, words)
            self.assertFalse(self.out.exists(), words)

    def test_device(self) -> None:
        for words in self.writers("/dev/null")[:5]:
            self.assertNotIn("c cannot write proof", self.call(*words).lines, words)

    def test_whole(self) -> None:
        """Where nothing is in the way the file is new, and no part is left."""
        for words in self.writers("folder/OUT"):
            self.out.write_bytes(STOOD)
            self.assertNotEqual(1, self.call(*words).status, words)
            self.assertNotEqual(STOOD, self.out.read_bytes(), words)
            self.assertEqual(["OUT"], [path.name for path in self.folder.iterdir()], words)

    def test_while_it_is_found(self) -> None:
        """A long proof of `decide` goes to its file in parts, and is the one that a pipe gets."""
        (self.top / "p.cnf").write_text(pigeons(HOLES))
        for words in (["decide", "p.cnf"], ["decide", "--binary", "p.cnf"]):
            self.out.write_bytes(STOOD)
            self.ends(*words, "folder/OUT", status=20)
            self.ends("check", "p.cnf", "folder/OUT", status=0)
            self.assertEqual(["OUT"], [path.name for path in self.folder.iterdir()], words)
            os.mkfifo(str(self.top / "pipe"))
            got = self.top / "got"
            with got.open("wb") as file, subprocess.Popen(["cat", "pipe"], cwd=str(self.top), stdout=file):
                self.ends(*words, "pipe", status=20)
            self.assertEqual(self.out.read_bytes(), got.read_bytes(), words)
            (self.top / "pipe").unlink()

    def test_disk_that_fills(self) -> None:
        """What was written of a long proof is removed, and what stood there stands."""
        (self.top / "p.cnf").write_text(pigeons(HOLES))
        self.out.write_bytes(STOOD)
        for words in (["decide", "p.cnf"], ["decide", "--binary", "p.cnf"]):
            for most in (8, 100_000, 500_000):
                end = self.call(*words, "folder/OUT", before=functools.partial(few_bytes, most))
                self.assertEqual((1, ["c cannot write proof"]), (end.status, end.lines), words)
                self.assertEqual(STOOD, self.out.read_bytes(), words)
                self.assertEqual(["OUT"], [path.name for path in self.folder.iterdir()], words)


if __name__ == "__main__":
    run(__doc__)
