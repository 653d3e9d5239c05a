"""The folder of --keep: each formula that was decided, with its proof or its answer."""
import itertools
import os
import shutil
import subprocess
from typing import Iterator

from drop_in_solver.sources import Source, spooled


# What packs a proof: the first of these programs that is installed. Both save six bytes of ten of a
# long binary proof; zstd takes a fifth of the time.
PACKERS = (("zstd", ".zst", ["-q", "--rm"]), ("gzip", ".gz", []))


class KeptFiles:
    """The files N.cnf, and N.lrat or N.answer, in a folder; N is the next number that is free. The
    program reads N.cnf, so that the proof is one of that file. The proof is binary, and packed if
    a packer is installed."""

    def __init__(self, folder: str) -> None:
        os.makedirs(folder, exist_ok=True)
        self.stem = next(stem for stem in self.stems(folder) if made(stem + ".cnf"))

    @staticmethod
    def stems(folder: str) -> Iterator[str]:
        return (os.path.join(folder, str(number)) for number in itertools.count(1))

    def take(self, source: Source) -> Source:
        return spooled(source, self.stem + ".cnf")

    def proof(self) -> str:
        return self.stem + ".lrat"

    def answer(self, data: bytes) -> None:
        with open(self.stem + ".answer", "wb") as file:
            file.write(data)

    def pack(self) -> None:
        """Packs the proof, if it is there. Whatever fails, it stays as it is."""
        tools = [[tool, *words] for tool, _, words in PACKERS if shutil.which(tool)]
        if tools and os.path.isfile(self.proof()):
            subprocess.run([*tools[0], self.proof()], stdin=subprocess.DEVNULL, check=False,
                           stdout=subprocess.DEVNULL, stderr=subprocess.DEVNULL)

    def how_to_check(self, status: int) -> str:
        """The command that checks what was kept."""
        formula, proof = self.stem + ".cnf", self.proof()
        if status == 10:
            return "satcluster model %s %s.answer" % (formula, self.stem)
        for tool, end, _ in PACKERS:
            if os.path.exists(proof + end):
                return "%s -dcq %s%s | satcluster check %s -" % (tool, proof, end, formula)
        return "satcluster check %s %s" % (formula, proof)

    def drop(self) -> None:
        """Removes the formula: nothing was decided."""
        os.remove(self.stem + ".cnf")


def made(path: str) -> bool:
    """Whether this call has made the file: another run may keep its formulas here too."""
    try:
        open(path, "xb").close()
    except FileExistsError:
        return False
    return True
