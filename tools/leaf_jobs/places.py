"""The path of the proved program."""
import os
import re
import shutil
import subprocess
from pathlib import Path
from typing import List, Optional

from leaf_jobs.files import Fault

HERE = Path(__file__).resolve()
BUILT = HERE.parents[2] / "crates" / "satcluster" / "out" / "satcluster"
INSTALLED = HERE.parents[3] / "bin" / "satcluster"  # if this is PREFIX/lib/satcluster/leaf_jobs/..
VARIABLE = "SATCLUSTER"  # of the environment, for those who cannot give a word
HOW_TO = "build it, name it with --program or in %s, or put it on the path" % VARIABLE


def word_of_program(word: Optional[str]) -> str:
    """The name of the program: the one that was given, or that of the built or installed one."""
    here = [str(path) for path in (BUILT, INSTALLED) if path.exists()]
    return word or os.environ.get(VARIABLE) or (here + ["satcluster"])[0]


def found(word: str) -> Optional[str]:
    path = shutil.which(word)
    return os.path.abspath(path) if path else None


def program(word: Optional[str]) -> str:
    """The whole path of the program."""
    path = found(word_of_program(word))
    if path is None:
        raise Fault("c cannot run %s: %s" % (word or "satcluster", HOW_TO))
    return path


def called(word: str) -> str:
    """The name of a script, of the word by which it was started: that of the installed one, or its
    path in the tree of sources."""
    name = os.path.basename(word)
    return "tools/" + name if name.endswith(".py") else name


def version(program: str) -> str:
    """The version of the program, of which the scripts are a part."""
    return (told([program, "--version"]) or "unknown").splitlines()[0]


def commit() -> str:
    """The commit of these scripts, as git or the file `PROVED` of an archive tells it."""
    here = ["git", "-C", str(HERE.parents[2])]
    found = told([*here, "rev-parse", "HEAD"]) if (HERE.parents[2] / ".git").exists() else ""
    if found:
        return found + (", changed" if told([*here, "status", "--porcelain"]) else "")
    try:
        text = (HERE.parents[3] / "share" / "doc" / "satcluster" / "PROVED").read_text()
    except OSError:
        return "unknown"
    match = re.search("commit ([0-9a-f]+)", text)
    return match.group(1) if match else "unknown"


def told(words: List[str]) -> str:
    try:
        done = subprocess.run(words, stdin=subprocess.DEVNULL, stdout=subprocess.PIPE,
                              stderr=subprocess.DEVNULL, check=False)
    except OSError:
        return ""
    return done.stdout.decode("utf-8", "replace").strip()
