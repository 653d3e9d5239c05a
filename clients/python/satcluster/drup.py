"""The lemmas of a session's proof as lines of DRUP."""
from typing import Dict, Iterable, Iterator


def lines_of(proof: Iterable[str]) -> Iterator[str]:
    """Each lemma, each deletion of one, and the negation of each core: the empty clause if nothing
    was assumed. Each line ends with ` 0`, as PySAT's do."""
    lemmas: Dict[str, str] = {}
    for line in proof:
        words = line.split()
        if line.startswith("l "):
            lemmas[words[1]] = " ".join(words[2:words.index("0") + 1])
            yield lemmas[words[1]]
        elif line.startswith("d "):
            for number in words[1:-1]:
                if number in lemmas:
                    yield "d " + lemmas.pop(number)
        elif line.startswith("u "):
            core = words[1:words.index("0")]
            yield " ".join([str(-int(literal)) for literal in core] + ["0"])


def lemmas_of(proof: Iterable[str]) -> int:
    return sum(line.startswith("l ") for line in proof)
