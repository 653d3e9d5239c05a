#!/usr/bin/env python3
"""Writes docs/dev/READING.md: what a reader has to believe, counted from public contracts down; and
into docs/TRUST.md the definitions below `s VERIFIED`.

    tools/reading.py           writes them
    tools/reading.py --check   fails if TRUST is stale, or has another count of the glue

READING is not kept in the repository: it is long, and whoever reads it makes it (`make docs`).
Both runs fail if a definition stands on the wrong side: `specs` holds what contracts of public calls
name, directly or not, and `specs/inner` what only private contracts, invariants and proofs name.
"""
import re
import sys
import textwrap
from dataclasses import dataclass
from pathlib import Path
from typing import Dict, Iterator, List, Optional, Sequence, Tuple

sys.dont_write_bytecode = True

import definitions
import glue
from definitions import ROOT, Contract, Reach, code, contract, imports, spec_at, words

PAGE = ROOT / "docs" / "dev" / "READING.md"
TRUST = ROOT / "docs" / "TRUST.md"
BEGIN = "<!-- tools/reading.py writes the definitions -->\n"
END = "<!-- end of the definitions -->\n"
COUNTS = re.compile(r"\[(\d+) definitions in\s+(\d+) lines\].*?(\d+) lines of \[satcluster/src\]", re.S)


@dataclass(frozen=True)
class Claim:
    """A claim, with the clauses of contracts that carry it: crate, function, names of clauses.

    If calls follow each other, `carried` is the fact that one call leaves to the next. One call
    gives it, others keep it, and the last concludes from it, so the claim holds whatever it says.
    """

    title: str
    sentence: str
    carriers: Sequence[Tuple[str, str, Sequence[Optional[str]]]]
    carried: Optional[str] = None


CLAIMS = (
    Claim(
        "`s VERIFIED` is true",
        "If `check` ends with status 0, the input spells a formula that no assignment"
        " satisfies. Nothing of proofs has to be read for that.",
        (("proof_check", "ProofCheck::new", ["taken"]),
         ("proof_check", "ProofCheck::feed", ["taken"]),
         ("proof_check", "ProofCheck::finish", ["truth"])),
        "HasTaken",
    ),
    Claim(
        "What `check` makes of the bytes of a proof",
        "The formula that reading gave, and then a proof in any pieces, are handed to a"
        " `ProofCheck`. At its end it reports status 0 exactly if the input spells a formula"
        " and the definition accepts the proof, and prints what the table of faults says.",
        (("proof_check", "ProofCheck::of", ["taken"]),
         ("proof_check", "ProofCheck::feed", ["taken"]),
         ("proof_check", "ProofCheck::finish", ["report"])),
        "HasTaken",
    ),
    Claim(
        "`s SATISFIABLE` and `s UNSATISFIABLE` are true",
        "If a run of `decide`, `solve`, `serve` or `work` ends with status 10, an assignment"
        " satisfies the formula that the input spells; with status 20 none does. This holds"
        " whatever the links bring.",
        (("commands", "decide_files", ["truth"]),
         ("node_main", "run_solve", ["truth"]),
         ("node_main", "run_serve_arrivals", ["truth"]),
         ("node_main", "run_work", ["truth"])),
    ),
    Claim(
        "What `decide` tells, and what it writes",
        "Of all bytes of the input `decide` tells the first fault, or decides the formula. It"
        " prints an assignment that satisfies; or it has an accepted proof, which is also a log"
        " over the formula that closes the empty cube, and has written it to the file that is"
        " named for it; or it gives up, which it does only after as many lemmas as the limit"
        " that was named allows.",
        (("commands", "decide_files", ["tells", "same", "unnamed", "apart", "left"]),),
    ),
    Claim(
        "What a node holds is true, and nodes agree",
        "Whatever events come to the nodes of a cluster, what each node holds is true of the"
        " formula that it has then. Two nodes, each at its moment, never hold verdicts that"
        " differ if their formulas are equal then. If one node holds a proof, no node, earlier"
        " or later, holds an assignment of that formula with more clauses.",
        (("cluster", "OpenCluster::run", ["formulas", "truth", "agree", "grown"]),
         ("cluster", "OpenCluster::verdict", ["holds"])),
    ),
    Claim(
        "`check` accepts exactly what the definition accepts",
        "A text is accepted only if the definition accepts it. A text that the definition"
        " accepts is refused for want of memory alone.",
        (("lrat_check", "check", ["accepted", "complete"]),),
    ),
    Claim(
        "`join` counts a leaf as closed where a file closes it, and nowhere else",
        "A join is begun over the formula and the cubes of a tree. It is fed a file's bytes in"
        " any pieces, ends each file or gives it up, and hands bytes of a proof out. At its end"
        " it reports 20 exactly if every leaf is closed by a file that is a log over the"
        " formula, and then all bytes handed out are a proof of the formula; else it reports 0"
        " and exactly the leaves that no file closes.",
        (("leaves", "Join::of", ["holds"]),
         ("leaves", "Join::feed", ["holds"]),
         ("leaves", "Join::end", ["holds"]),
         ("leaves", "Join::abandon", ["holds"]),
         ("leaves", "Join::written", [None]),
         ("leaves", "Join::forget", ["holds", "out"]),
         ("leaves", "Join::finish", ["concludes"])),
        "HasReadFiles",
    ),
    Claim(
        "What `lift` writes closes the leaf over the formula",
        "Whatever bytes come as a proof of the formula under a leaf's cube, the bytes that are"
        " handed out are a log over the formula that closes the leaf, if `finish` is right. A"
        " refutation by reverse unit propagation alone is refused for want of memory alone.",
        (("leaves", "Lift::of", [None]),
         ("leaves", "Lift::feed", [None]),
         ("leaves", "Lift::forget", ["stands", "out"]),
         ("leaves", "Lift::finish", ["closes", "complete"])),
        "HasTakenProof",
    ),
    Claim(
        "Each answer that `check --session` verifies is right",
        "If `check --session` ends with status 0, all bytes of the events spell clauses and"
        " queries, each query has an answer that is right for the clauses given before it, and"
        " how many there are of each kind is printed. Nothing of proofs has to be read for"
        " that.",
        (("commands", "check_session_files", ["truth"]),),
    ),
    Claim(
        "Each answer that `session` prints is right",
        "This holds of any source of events, and of whatever takes the proof and what is"
        " printed. Each query before the first fault has an answer that is right for the"
        " clauses given before it; what is printed spells it, and by then the proof is accepted"
        " beside the events so far. If a run ends early this holds of the answers so far."
        " That nobody reads is told only if printing was refused (`unheard`), that the proof cannot"
        " be written only if writing was (`unwritten`).",
        (("commands", "answer_session", ["session", "left", "refused", "unwritten"]),),
    ),
)

HEAD = """# What has to be believed

The first part has each claim, with the clauses of contracts that carry it and the definitions
that these clauses name, directly or not. The second part has each of these definitions once, each
after those that it names. Nothing else of the repository has to be read to know what is claimed.
Definitions of the kit (numbers, lists, options) are not counted. `tools/reading.py` makes this
page of the sources.

[TRUST.md](../TRUST.md#how-to-read-a-definition) has a legend of the signs. Beside those, `OnOk r Q`
says that Q holds if r is `Ok`, and nothing of an error.

The clauses are those of calls on whole texts. The program makes the calls that these make, on
pieces of its files: `ProofCheck::of` for `ProofCheck::new`, and `run_solve_within`, `attend` and
`run_work_of` for `run_solve`, `run_attend` and `run_work`.
[PROOFS.md](PROOFS.md#from-a-printed-byte-to-its-contract) has the contracts by which pieces give
what the whole text gives. The calls of a cluster are made by tests alone.
"""
CARRIED = """`%s` is what one call leaves to the next. These clauses alone give, keep and use it,
so the claim holds whatever it says."""


def wrapped(text: str) -> str:
    """Paragraphs, in lines of at most 100 characters."""
    parts = (textwrap.fill(part, 100, break_long_words=False, break_on_hyphens=False)
             for part in text.strip().split("\n\n"))
    return "\n\n".join(parts) + "\n"


def anchor(heading: str) -> str:
    return re.sub(r"[^\w\- ]", "", heading.lower()).replace(" ", "-")


def contracts(claim: Claim) -> List[Contract]:
    return [contract(*carrier) for carrier in claim.carriers]


def believed(claim: Claim) -> Reach:
    """What the clauses of a claim name, directly or not."""
    reach = Reach(carried=claim.carried)
    for carrier in contracts(claim):
        reach.add(words(carrier.clauses), imports(carrier.path.read_text(encoding="utf-8")))
    return reach


def by_file(found: Sequence[Tuple[Path, str]]) -> Dict[Path, List[str]]:
    """The names of definitions by their file: files in layers, names as they stand there."""
    files = definitions.in_layers({path for path, _ in found})
    return {path: [name for name in spec_at(path).blocks if (path, name) in found]
            for path in files}


def count(found: Sequence[Tuple[Path, str]]) -> Tuple[int, int]:
    """How many definitions, and how many lines they have without comments."""
    return len(found), sum(len(code(spec_at(path).blocks[name])) for path, name in found)


def claimed(claim: Claim, reach: Reach) -> Iterator[str]:
    """A claim: its sentence, the clauses that carry it, and what these name."""
    yield "### %s\n\n%s" % (claim.title, wrapped(claim.sentence))
    by_path: Dict[Path, List[Contract]] = {}
    for carrier in contracts(claim):
        by_path.setdefault(carrier.path, []).append(carrier)
    for path, carriers in by_path.items():
        place = path.relative_to(definitions.CRATES)
        calls = ", ".join("`%s`" % carrier.function for carrier in carriers)
        link = "[`%s`](../../crates/%s)" % (place.name, place)
        yield wrapped("%s of `%s`, in %s:" % (calls, place.parts[0], link)) + "\n```text"
        for carrier in carriers:
            if len(carriers) > 1:
                yield "-- " + carrier.function
            yield from carrier.clauses
        yield "```\n"
    if claim.carried:
        yield wrapped(CARRIED % claim.carried)
    files = by_file(list(reach.found))
    named = ("[%s](#%s): %s" % (spec_at(path).name, anchor(spec_at(path).name),
                                ", ".join("`%s`" % name for name in names))
             for path, names in files.items())
    yield "It rests on %d definitions, %d lines:\n" % count(list(reach.found))
    yield "\n".join(textwrap.fill("- " + line, 100, subsequent_indent="  ", break_long_words=False,
                                  break_on_hyphens=False) for line in named) + "\n"
    if reach.types:
        yield wrapped("They name these types of the code: %s." % ", ".join(sorted(reach.types)))


def page() -> str:
    reaches = [(claim, believed(claim)) for claim in CLAIMS]
    every = list(dict.fromkeys(key for _, reach in reaches for key in reach.found))
    out = [wrapped(HEAD), "## The claims\n", "| Claim | Definitions | Their lines |\n|---|---|---|"]
    for claim, reach in reaches:
        counts = count(list(reach.found))
        out += ["| [%s](#%s) | %d | %d |" % ((claim.title, anchor(claim.title)) + counts)]
    out += ["| all of them | %d | %d |\n" % count(every)]
    for claim, reach in reaches:
        out += claimed(claim, reach)
    out += ["## The definitions\n"]
    for path, names in by_file(every).items():
        blocks = ("\n".join(spec_at(path).blocks[name]) for name in names)
        out += ["### %s\n\n```text\n%s\n```\n" % (spec_at(path).name, "\n\n".join(blocks))]
    return "\n".join(out).rstrip("\n") + "\n"


def trust() -> str:
    """TRUST with the definitions below `s VERIFIED`."""
    text = TRUST.read_text(encoding="utf-8")
    found = list(believed(CLAIMS[0]).found)
    counts = COUNTS.search(text)
    if not counts or tuple(map(int, counts.groups())) != count(found) + (glue.count(),):
        raise SystemExit("docs/TRUST.md has other counts than %d definitions in %d lines and %d"
                         " lines of glue" % (count(found) + (glue.count(),)))
    blocks = ("\n".join(spec_at(path).blocks[name])
              for path, names in by_file(found).items() for name in names)
    before, rest = text.split(BEGIN)
    return before + BEGIN + "\n```text\n" + "\n\n".join(blocks) + "\n```\n\n" + END + rest.split(END)[1]


def main() -> None:
    made, trusted = page(), trust()
    wrong = list(definitions.misplaced())
    if wrong:
        raise SystemExit("believed, and in specs/inner, or not, and in specs:\n" + "\n".join(wrong))
    if sys.argv[1:] == ["--check"]:
        if TRUST.read_text(encoding="utf-8") != trusted:
            raise SystemExit("stale: docs/TRUST.md; run tools/reading.py")
        return
    TRUST.write_text(trusted, encoding="utf-8")
    PAGE.write_text(made, encoding="utf-8")


if __name__ == "__main__":
    main()
