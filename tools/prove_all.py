#!/usr/bin/env python3
"""Proves crates side by side, over what was proved before.

    tools/prove_all.py [--jobs N] [--watch] [CRATE..]
    tools/prove_all.py --only FUNCTION CRATE
    tools/prove_all.py --edits CRATE..

Proves the crates that are named and all below them, or all there are, each as soon as those that it
stands on are proved, the longest chain first; cores that no other crate can use go to the first one
of the longest chain. `rt check` locks all crates below its own, so that two checks in one tree wait
for each other: here each has a tree of its own, with hard links of the libraries that are proved.
What a check kept goes back to `crates/NAME/out`, beside what it printed (`said`) and, if the crate
is proved, a digest of all sources on which it rests (`proved`); where that is the same, nothing is
done. With --watch a crate that is not proved is tried again when its sources have changed, until
the script is interrupted: edit in one place while the crates below and beside are proved.

--only prints what `rt check --only FUNCTION --allow-holes` says: the goals that are open.
--edits tries the edits of must-fail over what is kept, which takes ten to thirty seconds each where
the gate takes a whole proof for a crate's first one. Read the line that it prints: if that is no
goal, the edit does not compile and shows nothing, which only the gate tells apart. The gate is `rt ci`: this only saves time
while one works.
"""
import argparse
import hashlib
import re
import shutil
import subprocess
import sys
import tempfile
import time
from pathlib import Path
from typing import Dict, Iterator, List, NamedTuple, Set, Tuple

ROOT = Path(__file__).resolve().parent.parent
PARTS = ("src", "specs", "proofs")
MOST = 3  # jobs of one check; more gain nothing
LOOK = 10  # seconds between two looks at all sources, as long as no check ends


class Check(NamedTuple):
    process: "subprocess.Popen[bytes]"
    tree: Path
    began: float
    digest: str
    jobs: int


class Crates:
    """The crates of the repository, with those that each stands on, as the sources are now."""

    def __init__(self) -> None:
        lines = (ROOT / "crates.txt").read_text().split("\n")
        rows = [line.split("#")[0].split(":") for line in lines if ":" in line.split("#")[0]]
        own = {name.split()[0] for name, _ in rows}
        self.under: Dict[str, List[str]] = {
            name.split()[0]: [word for word in words.split() if word in own]
            for name, words in rows}
        self.digests: Dict[str, str] = {}

    def below(self, name: str) -> Set[str]:
        direct = set(self.under[name])
        return direct.union(*map(self.below, direct))

    def chain(self, name: str, wanted: Set[str]) -> int:
        """How many crates stand above it, one upon the other."""
        above = [other for other in wanted if name in self.under[other]]
        return 1 + max((self.chain(other, wanted) for other in above), default=0)

    def digest(self, name: str) -> str:
        if name not in self.digests:
            sums = hashlib.sha256("".join(map(self.digest, sorted(self.under[name]))).encode())
            for path in sorted(path for part in PARTS for path in at(name, part).rglob("*.*")):
                sums.update(str(path.relative_to(ROOT)).encode() + b"\0" + path.read_bytes())
            self.digests[name] = sums.hexdigest()
        return self.digests[name]

    def is_proved(self, name: str) -> bool:
        mark = at(name, "out", "proved")
        return mark.exists() and mark.read_text() == self.digest(name)


def at(*names: str) -> Path:
    return ROOT.joinpath("crates", *names)


def command(name: str, jobs: int) -> List[str]:
    if at(name, "src", "main.rt").exists():
        return ["rt", "check", "--jobs", str(jobs)]
    tests = name.endswith("_tests")
    return ["rt", "check" if tests else "lib", "--jobs", str(jobs)] + ["--test"] * tests


def lay(crates: Crates, name: str) -> Path:
    """A tree with all sources, the libraries below a crate, and what an earlier check kept."""
    tree = Path(tempfile.mkdtemp(prefix=name + "-", dir=str(ROOT.parent)))
    for file in ("crates.txt", "HANDLES"):
        shutil.copy2(str(ROOT / file), str(tree))
    left = shutil.ignore_patterns("out")
    shutil.copytree(str(ROOT / "crates"), str(tree / "crates"), ignore=left)
    for below in crates.below(name):
        out = tree / "crates" / below / "out"
        out.mkdir()
        subprocess.run(["cp", "-al", str(at(below, "out", "rlib")), str(out)], check=True)
    if at(name, "out").exists():
        kept = tree / "crates" / name / "out"
        subprocess.run(["cp", "-a", str(at(name, "out")), str(kept)], check=True)
    return tree


def begin(crates: Crates, name: str, jobs: int) -> Check:
    digest, tree = crates.digest(name), lay(crates, name)
    with open(str(tree / "said"), "w") as said:
        process = subprocess.Popen(command(name, jobs), cwd=str(tree / "crates" / name),
                                   stdout=said, stderr=subprocess.STDOUT, stdin=subprocess.DEVNULL)
    return Check(process, tree, time.monotonic(), digest, jobs)


def take_back(name: str, tree: Path) -> None:
    """What a check in this tree kept of its crate is the next one's."""
    out = tree / "crates" / name / "out"
    if out.exists():
        shutil.rmtree(str(at(name, "out")), ignore_errors=True)
        shutil.move(str(out), str(at(name, "out")))


def end(name: str, check: Check) -> bool:
    """Takes back what a check kept. Tells how it ended."""
    proved = check.process.returncode == 0
    take_back(name, check.tree)
    at(name, "out").mkdir(exist_ok=True)
    shutil.move(str(check.tree / "said"), str(at(name, "out", "said")))
    if proved:
        at(name, "out", "proved").write_text(check.digest)
    print("%s %s, %d s" % ("proved" if proved else "NOT PROVED", name,
                           time.monotonic() - check.began), flush=True)
    if not proved:
        print(at(name, "out", "said").read_text()[-3000:], flush=True)
    shutil.rmtree(str(check.tree))
    return proved


def prove(named: List[str], jobs: int, watch: bool) -> bool:
    running: Dict[str, Check] = {}
    failed: Dict[str, str] = {}  # the digest of what was not proved
    looked = -float(LOOK)
    while True:
        over = [name for name in running if running[name].process.poll() is not None]
        if not over and time.monotonic() < looked + LOOK:
            time.sleep(1)
            continue
        looked = time.monotonic()
        for name in over:
            check = running.pop(name)
            if not end(name, check):
                failed[name] = check.digest
        crates = Crates()
        wanted = set(named or crates.under).union(*map(crates.below, named))
        proved = {name for name in wanted if crates.is_proved(name)}
        ready = [name for name in wanted - proved - set(running)
                 if proved.issuperset(crates.under[name])
                 and failed.get(name) != crates.digest(name)]
        if not ready and not running and not watch:
            return proved == wanted
        ready.sort(key=lambda name: -crates.chain(name, wanted))
        idle = jobs - sum(check.jobs for check in running.values())
        for place, name in enumerate(ready[:max(idle, 0)]):
            share = max(1, min(MOST, idle - (len(ready) - 1))) if place == 0 else 1
            running[name] = begin(crates, name, share)


def show(name: str, function: str) -> int:
    crates = Crates()
    stale = [below for below in crates.below(name) if not crates.is_proved(below)]
    if stale:
        raise SystemExit("not proved: " + " ".join(stale))
    tree = lay(crates, name)
    words = ["rt", "check", "--jobs", "1", "--only", function, "--allow-holes"]
    status = subprocess.run(words, cwd=str(tree / "crates" / name), check=False).returncode
    take_back(name, tree)
    shutil.rmtree(str(tree))
    return status


def edited(text: str, tree: Path, name: str) -> None:
    """Carries out an edit of must-fail in a tree: pairs of `old:` and `new:`, after a `file:`."""
    path, old = tree, ""
    for key, rest in re.findall(r"(?m)^(file|old|new): ?(.*)$", text):
        if key == "file":
            path = tree / "crates" / name / rest.strip()
        elif key == "old":
            old = rest
        elif path.read_text(encoding="utf-8").count(old) != 1:
            raise SystemExit("%s: an `old:` stands there not once: %s" % (path.name, old))
        else:
            path.write_text(path.read_text(encoding="utf-8").replace(old, rest), encoding="utf-8")


def tried(name: str) -> Iterator[Tuple[Path, str]]:
    """The edits of a crate, each with the first goal that refuses it; "" if it is proved."""
    crates = Crates()
    if not crates.is_proved(name):
        raise SystemExit(name + " is not proved: an edit would show nothing")
    for path in sorted(at(name, "must-fail").glob("*.edit")):
        tree = lay(crates, name)
        edited(path.read_text(encoding="utf-8"), tree, name)
        ran = subprocess.run(["rt", "check", "--jobs", "1"], cwd=str(tree / "crates" / name),
                             stdout=subprocess.PIPE, stderr=subprocess.STDOUT, encoding="utf-8",
                             stdin=subprocess.DEVNULL, errors="replace", check=False)
        told = re.search(r"(?m)^(note: )?\S+:\d+:\d+: .*$", ran.stdout)
        yield path, told.group() if ran.returncode == 1 and told else ""
        shutil.rmtree(str(tree))


def try_edits(names: List[str]) -> bool:
    proved = 0
    for name in names:
        for path, why in tried(name):
            print("%s/%s: %s" % (name, path.stem, why[:200] or "NOT REFUSED"), flush=True)
            proved += not why
    return not proved


def main() -> int:
    parser = argparse.ArgumentParser(usage=(__doc__ or "").split("\n\n")[1].strip())
    parser.add_argument("--jobs", type=int, default=4)
    parser.add_argument("--watch", action="store_true")
    parser.add_argument("--edits", action="store_true")
    parser.add_argument("--only", metavar="FUNCTION")
    parser.add_argument("CRATE", nargs="*")
    asked = parser.parse_args()
    if asked.only:
        return show(asked.CRATE[0], asked.only)
    if asked.edits:
        return 0 if try_edits(asked.CRATE) else 1
    return 0 if prove(asked.CRATE, asked.jobs, asked.watch) else 1


if __name__ == "__main__":
    sys.exit(main())
