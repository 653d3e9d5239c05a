"""A folder that has a formula, its proof and all that a referee needs to check it.

    README           what is claimed, and two commands that check it
    formula.cnf.xz   the formula
    proof.lrat.xz    its proof in binary form, with the lemmas alone that its end needs
    SHA256SUMS       of both, unpacked
    VERDICTS         what each checker that is installed here has said of both
    recheck.sh       asks the checkers again
    *.svg, *.csv     pictures and figures of the run, if one has made the proof

It has no moment at which it was made: whoever publishes the same run again, by the same programs,
makes the same bytes.
"""
import os
import shutil
import subprocess
from dataclasses import dataclass
from pathlib import Path
from typing import Dict, Iterator, List, Optional, Sequence, Tuple

from explanations.looks import asks_for_large, header_of
from leaf_jobs import places
from leaf_jobs.files import Fault, digest

FORMULA, PROOF = "formula.cnf", "proof.lrat"
OTHERS = ("lrat-check", "cake_lpr")  # other checkers, which read the proof as text
MADE = "README"  # the file by which such a folder is known
MOMENT = 315532800  # when all files were last changed: 1 January 1980, the first day of ZIP
XZ = ("xz", "-6", "-T4")  # by several threads, whose number changes no byte
README = """{name}
{line}

This formula is unsatisfiable: no assignment makes all its clauses true. The
proof is LRAT, in binary form. Two commands check it, the second of which
prints `s VERIFIED`:

    xz -dk {formula}.xz {proof}.xz && sha256sum -c SHA256SUMS
    satcluster check {words}{formula} {proof}

VERDICTS has what that and other checkers have said; recheck.sh asks all of
them again that are installed.

    variables  {variables}
    clauses    {clauses}
    lemmas     {lemmas}
    made by    {version}
    commit     {commit}
    program    SHA-256 {program}
{how}"""
RECHECK = """#!/bin/sh
# Compares the sums of formula and proof, and asks all checkers that are installed.
set -eu
cd "$(dirname "$0")"
here=$(pwd) && to=$(mktemp -d) && trap 'rm -rf "$to"' EXIT
for name in {formula} {proof}; do xz -dc $name.xz > "$to/$name"; done
cd "$to" && sha256sum -c "$here/SHA256SUMS"
echo "satcluster check:" && satcluster check {words}{formula} {proof}
for checker in {others}; do
    command -v $checker > /dev/null || continue
    [ -e text.lrat ] || satcluster trim {words}{formula} {proof} text.lrat > /dev/null
    echo "$checker:" && $checker {formula} text.lrat
done
"""


@dataclass(frozen=True)
class Source:
    """What is published."""

    program: str  # its whole path
    formula: Path  # not packed
    proof: Path
    name: str  # of the formula, for people
    run: Sequence[Path] = ()  # pictures and figures of the run that has made the proof
    how: str = ""  # how that run was made


def test_target(target: str) -> None:
    """Refuses at once, and not after the run, a folder that cannot be made or is another one."""
    if not shutil.which("xz"):
        raise Fault("c xz is not installed", "The formula and the proof are packed by it.")
    path = Path(os.path.realpath(target))
    if not os.access(str(path.parent), os.W_OK):
        raise Fault("c cannot write " + target,
                    "The folder %s is not there, or may not be written." % path.parent)
    if path.is_dir() and (path / MADE).is_file() or not path.exists():
        return
    if not path.is_dir() or any(path.iterdir()):
        raise Fault("c cannot write " + target, "It stands, and is no folder that was published.",
                    "Name another one, or remove it.")


def publish(source: Source, target: str) -> List[str]:
    """Makes the folder, in the place of one that was published before. Answers the verdicts."""
    path = Path(os.path.realpath(target))
    part = path.with_name(path.name + ".part")
    shutil.rmtree(str(part), ignore_errors=True)
    try:
        verdicts = fill(source, part)
        shutil.rmtree(str(path), ignore_errors=True)
        part.rename(path)
    finally:
        shutil.rmtree(str(part), ignore_errors=True)
    return verdicts


def fill(source: Source, part: Path) -> List[str]:
    """Makes all files of the folder."""
    part.mkdir()
    formula, proof = part / FORMULA, part / PROOF
    shutil.copyfile(str(source.formula), str(formula))
    large = ["--large"] if asks_for_large(header_of(formula)) else []
    lemmas = trimmed(source, large, formula, proof)
    verdicts = list(asked(source.program, large, part))
    texts = texts_of(source, large, part, lemmas)
    texts["VERDICTS"] = "".join(line + "\n" for line in verdicts)
    for name, text in texts.items():
        (part / name).write_text(text, encoding="utf-8")
    for path in (formula, proof):
        ran([*XZ, str(path)])
    for file in source.run:
        shutil.copyfile(str(file), str(part / file.name))
    for file in part.iterdir():
        file.chmod(0o755 if file.suffix == ".sh" else 0o644)
        os.utime(str(file), (MOMENT, MOMENT))
    return verdicts


def texts_of(source: Source, large: List[str], part: Path, lemmas: str) -> Dict[str, str]:
    """The files that people read and run, by their names."""
    words = dict(formula=FORMULA, proof=PROOF, words="".join(word + " " for word in large))
    variables, clauses = (word.decode("ascii", "replace") for word in header_of(part / FORMULA)[2:])
    readme = README.format(
        name=source.name, line="=" * len(source.name), variables=variables, clauses=clauses,
        lemmas=lemmas, version=places.version(source.program), commit=places.commit(),
        program=digest(Path(source.program)), **words,
        how="    searched   %s\n" % source.how if source.how else "")
    sums = "".join("%s  %s\n" % (digest(part / name), name) for name in (FORMULA, PROOF))
    return {MADE: readme, "SHA256SUMS": sums,
            "recheck.sh": RECHECK.format(others=" ".join(OTHERS), **words)}


def trimmed(source: Source, large: List[str], formula: Path, proof: Path) -> str:
    """Writes the proof with the lemmas alone that it needs; answers how many these are."""
    words = [source.program, "trim", *large, "--binary", str(formula), str(source.proof),
             str(proof)]
    status, lines = ran(words)
    if status != 0:
        raise Fault("c %s is no proof of %s" % (source.proof, source.formula), *lines)
    return lines[-1].split()[1] if len(lines) > 1 else ""


def asked(program: str, large: List[str], part: Path) -> Iterator[str]:
    """What each checker that is installed says. Others than ours read the proof as text."""
    yield "satcluster check: " + said([program, "check", *large, FORMULA, PROOF], part)
    others, text = [name for name in OTHERS if shutil.which(name)], part / "text.lrat"
    if others:
        ran([program, "trim", *large, FORMULA, PROOF, text.name], part)
    for name in others:
        yield "%s: %s" % (name, said([name, FORMULA, text.name], part))
    if text.exists():
        text.unlink()


def said(words: Sequence[str], folder: Path) -> str:
    """The verdict of a checker: the last line that has one, or the last of all."""
    lines = ran(words, folder)[1]
    return ([line for line in lines if "VERIFIED" in line] or lines)[-1]


def ran(words: Sequence[str], folder: Optional[Path] = None) -> Tuple[int, List[str]]:
    """The status of a command, and what it prints."""
    done = subprocess.run(words, cwd=folder, stdin=subprocess.DEVNULL, stdout=subprocess.PIPE,
                          stderr=subprocess.STDOUT, check=False)
    lines = done.stdout.decode("ascii", "replace").strip().split("\n")
    return done.returncode, lines if lines[0] else ["nothing, with status %d" % done.returncode]
