#!/usr/bin/env python3
"""Makes the archive, installs what is in it, and runs that without the kit and without this tree.

    tools/dist_test.py PATH-OF-satcluster [CASE ..]

A CASE is Archive, or Archive.test_empty_root; they run alone, and in any order. What needs chroot
(by root, or by `unshare -r`), pip, man, zsh or fish is skipped, and told, if that is not to be had.
"""
import importlib.util
import os
import re
import shutil
import subprocess
import sys
import sysconfig
import tarfile
import tempfile
import unittest
from pathlib import Path
from typing import Dict, Iterable, List, Optional, Sequence
from unittest import mock

sys.dont_write_bytecode = True

import dist
import manual
from cases import EXAMPLES, ROOT, pigeons, run

NAME = "satcluster-%s-linux-x86_64" % manual.program().version
ARCHIVE = ROOT.parent / "out" / (NAME + ".tar.xz")
SUMS = "share/doc/satcluster/SHA256SUMS"
PROVED = "share/doc/satcluster/PROVED"
PLAIN = {"PATH": "/usr/bin:/bin:/usr/sbin:/sbin", "HOME": "/nonexistent", "LC_ALL": "C.UTF-8"}
SECONDS = 60
ONE_FORMULA = """import satcluster
with satcluster.Solver([[1, 2], [-1, 2]]) as solver:
    print(satcluster.__file__, solver.solve([-2]), solver.get_core(), solver.verify())
"""


def output(*words: object, status: int = 0, env: Optional[Dict[str, str]] = None) -> str:
    """What a command prints; it has to end with this status."""
    done = subprocess.run([str(word) for word in words], stdin=subprocess.DEVNULL, cwd="/",
                          stdout=subprocess.PIPE, stderr=subprocess.STDOUT, encoding="utf-8",
                          timeout=SECONDS, env=dict(PLAIN, **(env or {})))
    if done.returncode != status:
        raise AssertionError("%s ended with %d\n%s" % (words, done.returncode, done.stdout))
    return done.stdout


def make(**env: str) -> bytes:
    script = ROOT / "dist.py"
    words = [sys.executable, str(script), "--ungated", os.environ["SATCLUSTER"]]
    subprocess.run(words, check=True, stdout=subprocess.DEVNULL, env=dict(os.environ, **env))
    return ARCHIVE.read_bytes()


def libraries(paths: Iterable[object]) -> List[str]:
    """The shared libraries that programs want, and what loads them."""
    lines = output("ldd", *paths)
    return sorted(set(re.findall(r"(/\S+) \(0x", lines)))


def into(root: Path, path: str) -> None:
    to = Path(str(root) + path)
    to.parent.mkdir(parents=True, exist_ok=True)
    shutil.copy(path, to)


def enter(root: Path) -> List[str]:
    """The words by which a command runs in another root; none if that is not allowed."""
    script = 'mount --rbind /proc "$0/proc" && mount --rbind /dev "$0/dev" && exec chroot "$0" "$@"'
    words = ["unshare", "-m" if os.geteuid() == 0 else "-rm", "sh", "-c", script, str(root)]
    try:
        output(*words, "/usr/bin/env")
        return words
    except (AssertionError, FileNotFoundError):
        return []


class Archive(unittest.TestCase):
    made: bytes
    room: Path
    tree: Path

    @classmethod
    def setUpClass(cls) -> None:
        cls.made = make()
        cls.room = Path(tempfile.mkdtemp(prefix="an archive "))
        with tarfile.open(ARCHIVE) as file:
            file.extractall(cls.room)
        cls.tree = cls.room / NAME

    @classmethod
    def tearDownClass(cls) -> None:
        shutil.rmtree(cls.room)

    def installed(self, name: str) -> Path:
        prefix = self.room / name
        output(self.tree / "install.sh", prefix)
        self.addCleanup(shutil.rmtree, prefix, ignore_errors=True)
        return prefix

    def decides(self, begin: Sequence[object], tools: str, room: Path, inside: str) -> None:
        """Runs each tool over a formula in a room, which has this name for them."""
        (room / "f.cnf").write_text(pigeons(4))
        f, proof = inside + "/f.cnf", inside + "/f.lrat"
        program = tools + "/satcluster"
        for tool in ("/satcluster-solver", "/satcluster-conquer"):
            more = ["--folder", inside + "/run", "--jobs", "1", "--depth", "1"]
            if tool.endswith("solver"):
                more = []
            lines = output(*begin, tools + tool, "-q", *more, f, proof, status=20)
            self.assertEqual("s UNSATISFIABLE\n", lines)
            self.assertEqual("s VERIFIED\n", output(*begin, program, "check", f, proof))
        version = output(*begin, program, "--version")
        first, second = version.splitlines()
        self.assertEqual("satcluster %s (%s)" % manual.program()[:2], first)
        for tool in ("-conquer", "-publish"):
            self.assertEqual(first + "\n", output(*begin, program + tool, "--version"))
        noted = (self.tree / PROVED).read_text().splitlines()
        told = "not proved"
        if noted[-2].endswith(", 0 failed"):
            told = "proved by the gate of " + noted[0]
        elif noted[-2] == "logic=proved":
            told = "proved by a build of " + noted[0]
        self.assertEqual(told, second)

    def test_same_bytes(self) -> None:
        before = os.umask(0o077)
        self.addCleanup(os.umask, before)
        self.assertTrue(self.made == make(TZ="Asia/Tokyo", LC_ALL="C"))

    def test_sums_and_statement(self) -> None:
        lines = (self.tree / SUMS).read_text().splitlines()
        files = {path for path in self.tree.rglob("*") if path.is_file()}
        names = {line[66:] for line in lines} | {SUMS, "install.sh"}
        self.assertEqual({self.tree / name for name in names}, files)
        subprocess.run(["sha256sum", "--quiet", "-c", SUMS], cwd=self.tree, check=True)
        said = (self.tree / PROVED).read_text()
        self.assertIn(manual.program().kits, said)
        self.assertRegex(said, "GNU C library, 2[.][0-9]+")

    def test_note(self) -> None:
        program = Path(os.environ["SATCLUSTER"])
        kit = "a kit, logic " + manual.program().kits.split()[-1]
        note = ["c0ffee", kit, "9 passed, 0 failed", dist.digest(program)]
        spoiled = [note[:at] + [line] + note[at + 1:] for at, line in
                   ((0, "decade"), (1, "a kit, logic 0123456789abcdef"), (3, "0" * 64),
                    (2, "9 passed, 10 failed"),
                    (2, "9 passed, 0 failed (dimacs and the crates below alone: not the gate)"))]
        tells = {"rev-parse": "c0ffee", "status": ""}
        with mock.patch.object(dist, "git", lambda *words: tells[words[0]]):
            self.assertTrue(dist.statement(program, note).endswith("\n".join(note[1:]) + "\n"))
            for bad in spoiled + [[], note[:3]]:
                self.assertFalse(dist.is_gated(bad, program))
            tells["status"] = " M crates.txt"
            self.assertFalse(dist.is_gated(note, program))
            self.assertIn("not known to be proved", dist.statement(program, note))

    def test_identity(self) -> None:
        """A note of another program's bytes, or of a gate that failed, claims nothing."""
        room = self.room / "identity"
        room.mkdir()
        program = room / "satcluster"
        shutil.copy(os.environ["SATCLUSTER"], program)
        note = ["c0ffee", "a kit", "9 passed, 0 failed", dist.digest(program)]
        told = {(): "not known whether it is proved", tuple(note): "proved by the gate of c0ffee",
                (*note[:2], "logic=proved", note[3]): "proved by a build of c0ffee",
                (*note[:2], "9 passed, 1 failed", note[3]): "not proved",
                (*note[:3], "0" * 64): "not proved", tuple(note[:3]): "not proved"}
        for lines, line in told.items():
            if lines:
                (room / "PROVED").write_text("\n".join(lines) + "\n")
            self.assertEqual(line, output(program, "--version").splitlines()[1])

    def test_wants_libc_alone(self) -> None:
        names = {Path(name).name for name in libraries([self.tree / "bin" / "satcluster"])}
        self.assertEqual({"ld-linux-x86-64.so.2", "libc.so.6"}, names)

    def test_words(self) -> None:
        """The man page and the completions have the words that the program's help has."""
        for command in manual.program().commands:
            told = output(self.tree / "bin" / "satcluster", command.name, "--help")
            options = re.findall(r"^ +(?:-\w, )?(-[-\w]+)", told, re.M)
            self.assertEqual(sorted(w.text for w in command.options), sorted(options[:-1]))
            files = [w.text for w in command.words if not w.is_option]
            self.assertEqual(files, re.findall(r"^ +[<[](\w+)[>\]]", told, re.M))

    def test_install_and_uninstall(self) -> None:
        prefix = self.installed("a prefix")
        other = prefix / "lib" / "other"
        other.write_text("of someone else")
        self.decides([], str(prefix / "bin"), self.room, str(self.room))
        output(self.tree / "install.sh", prefix)  # over what is there
        output(self.tree / "install.sh", self.tree, status=1)
        output(self.tree / "install.sh", "--remove", prefix)
        self.assertEqual([other], [path for path in prefix.rglob("*") if not path.is_dir()])

    def test_clients(self) -> None:
        """They find the program by their own place, and what Python leaves there goes with them."""
        prefix = self.installed("clients")
        example = prefix / dist.DOC / "examples" / "mus.py"
        self.assertIn("\ns VERIFIED, c ", output(sys.executable, example))
        output(self.tree / "install.sh", "--remove", prefix)
        self.assertEqual([], [path for path in prefix.rglob("*") if not path.is_dir()])

    def test_package(self) -> None:
        """Python finds the package by PYTHONPATH, and the program by the package's place."""
        package = self.installed("package") / dist.DOC / "clients" / "python"
        self.solves(package)

    @unittest.skipUnless(importlib.util.find_spec("pip"), "pip is not installed")
    def test_package_by_pip(self) -> None:
        """It needs no network and no other package, and leaves nothing where the package stands."""
        prefix, target = self.installed("by pip"), self.room / "target"
        output(sys.executable, "-m", "pip", "install", "--no-index", "--no-build-isolation",
               "--target", target, prefix / dist.DOC / "clients" / "python")
        self.solves(target, SATCLUSTER=str(prefix / "bin" / "satcluster"))
        self.assertTrue((target / "satcluster" / "py.typed").exists())
        told = output(target / "bin" / "satcluster-mus", "--help", env={"PYTHONPATH": str(target)})
        self.assertIn("satcluster-mus", told)
        output(self.tree / "install.sh", "--remove", prefix)
        self.assertEqual([], [path for path in prefix.rglob("*") if not path.is_dir()])

    def solves(self, package: Path, **env: str) -> None:
        """A program that imports the package from this folder."""
        told = output(sys.executable, "-c", ONE_FORMULA, env=dict(env, PYTHONPATH=str(package)))
        self.assertEqual("%s False [-2] s VERIFIED, c 1 queries: 0 satisfiable, 1 unsatisfiable, "
                         "0 unknown\n" % (package / "satcluster" / "__init__.py"), told)

    def test_words_of_install(self) -> None:
        """Help goes to standard output. With a word that is not known nothing is copied."""
        prefix = self.room / "nowhere"
        for words, status in ((["--help"], 0), (["-h", prefix], 0), (["--remove", "--help"], 0),
                              (["--odd", prefix], 2), ([prefix, "-r"], 2)):
            done = subprocess.run([str(word) for word in (self.tree / "install.sh", *words)],
                                  stdout=subprocess.PIPE, stderr=subprocess.PIPE, encoding="utf-8")
            told, nothing = done.stdout, done.stderr
            if status:
                told, nothing = nothing, told
            self.assertEqual((status, ""), (done.returncode, nothing), words)
            for word in ("--remove", "PREFIX", "/usr/local"):
                self.assertIn(word, told)
            self.assertFalse(prefix.exists())

    def test_make(self) -> None:
        prefix, words = self.room / "made", ["make", "-s", "-C", ROOT.parent]
        output(*words, "install", "PREFIX=/opt/x", "DESTDIR=%s" % prefix,
               "PROGRAM=" + os.environ["SATCLUSTER"])
        self.assertTrue((prefix / "opt/x/bin/satcluster-solver").exists())
        output(*words, "uninstall", "PREFIX=/opt/x", "DESTDIR=%s" % prefix)
        self.assertFalse(any(path for path in prefix.rglob("*") if not path.is_dir()))

    def test_empty_root(self) -> None:
        """A root of the program, the C library, Python, /proc and /dev: no shell, no kit."""
        root = self.installed("root")
        for name in ("tmp", "proc", "dev"):
            (root / name).mkdir()
        python = os.path.realpath(sys.executable)
        library = sysconfig.get_path("stdlib")
        skipped = shutil.ignore_patterns("*-packages", "test", "config-*", "__pycache__")
        shutil.copytree(library, str(root) + library, ignore=skipped)
        into(root, python)
        into(root, "/usr/bin/env")
        (root / "usr" / "bin" / "python3").symlink_to(python)
        parts = [python, "/usr/bin/env", root / "bin" / "satcluster", *Path(library).rglob("*.so")]
        for path in libraries(parts):
            into(root, path)
        begin = enter(root)
        if not begin:
            self.skipTest("chroot is not allowed here, by unshare neither")
        self.decides(begin, "/bin", root / "tmp", "/tmp")

    @unittest.skipUnless(shutil.which("man"), "man is not installed")
    def test_man(self) -> None:
        pages = self.tree / "share" / "man"
        for name, word in (("satcluster", "--patience N"), ("satcluster-conquer", "--timeout S"),
                           ("satcluster-publish", "--folder DIR")):
            told = output("man", "--warnings", "-M", pages, name, env={"MANWIDTH": "80"})
            self.assertIn(word, told)
            self.assertNotIn("warning", told)

    def test_bash(self) -> None:
        for words, first in (("satcluster dr", "drill"), ("satcluster solve --de", "--depth"),
                             ("satcluster-conquer --ti", "--timeout"),
                             ("satcluster-publish --fo", "--folder")):
            tool, *_, last = words.split()
            file = self.tree / "share/bash-completion/completions" / tool
            line = '. "$0"; COMP_WORDS=(%s) COMP_CWORD=%d; _%s x %s y; echo "$COMPREPLY"'
            line %= words, len(words.split()) - 1, tool.replace("-", "_"), last
            self.assertEqual(first + "\n", output("bash", "-c", line, file))

    def test_zsh_and_fish(self) -> None:
        for shell, files in (("zsh", "zsh/site-functions/_satcluster*"),
                             ("fish", "fish/vendor_completions.d/satcluster*.fish")):
            with self.subTest(shell):
                if not shutil.which(shell):
                    self.skipTest(shell + " is not installed")
                for file in (self.tree / "share").glob(files):
                    output(shell, "-n", file)


if __name__ == "__main__":
    run(__doc__)
