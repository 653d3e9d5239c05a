#!/usr/bin/env python3
"""Runs `check`, `trim`, `lift` and `join` over binary proofs that are cut or drawn at random, and
commands over standard input.

    tools/forms_test.py PATH-OF-satcluster [CUTS [DRAWN]]

The class `Reader` makes a text of the same bytes, with a line for each step, and at the first fault
a line that has it. For both files each command has to write the same, and to print the same, except
that it prints `step` for the one and `line` for the other. CUTS places of a proof are tried (2,000
if it is left out), and DRAWN byte strings (500). Status 1 at the first difference.
"""
import os
import random
import subprocess
import sys
import tempfile
from typing import Any, Dict, Iterable, List, Optional, Tuple

from cases import pigeons

LINES = {"token": "\n", "end": "0", "large": "281474976710656\n"}
CUBES = "a 0\n"

FOUR = ("p cnf 2 4\n1 2 0\n-1 2 0\n1 -2 0\n-1 -2 0\n", "5 2 0 1 2 0\n6 0 5 3 4 0\n")
RAT = ("p cnf 4 8\n1 2 -3 0\n-1 -2 3 0\n2 3 -4 0\n-2 -3 4 0\n-1 -3 -4 0\n1 3 4 0\n-1 2 4 0\n"
       "1 -2 -4 0\n",
       "9 -1 0 -2 6 8 -5 1 8 -7 5 1 0\n10 2 0 9 7 5 3 0\n11 0 9 10 4 2 8 0\n")


def number(value: int) -> bytes:
    out = bytearray()
    while value > 127:
        out.append(value % 128 + 128)
        value //= 128
    out.append(value)
    return bytes(out)


def literal(value: int) -> int:
    return 2 * abs(value) + (value < 0)


def binary(text: str) -> bytes:
    """The binary form of a text that is right."""
    out = bytearray()
    for line in text.splitlines():
        words = line.split()
        if words[1] == "d":
            out += b"d" + b"".join(number(2 * int(word)) for word in words[2:])
            continue
        values = [int(word) for word in words]
        end = values.index(0, 1)
        out += b"a" + number(2 * values[0])
        out += b"".join(number(literal(value)) for value in values[1:end]) + b"\0"
        out += b"".join(number(literal(value)) for value in values[end + 1:])
    return bytes(out)


class Fault(Exception):
    """The first fault of a proof: a key of LINES."""


class Reader:
    def __init__(self, data: bytes) -> None:
        self.data, self.at = data, 0

    def number(self) -> int:
        value, weight = 0, 1
        while True:
            if self.at == len(self.data):
                raise Fault("end")
            byte = self.data[self.at]
            self.at += 1
            if byte < 128:
                if byte == 0 and weight > 1:
                    raise Fault("token")
                return value + weight * byte
            if weight >= 2 ** 42:
                raise Fault("large")
            value, weight = value + weight * (byte - 128), weight * 128

    def numbers(self, kind: str) -> List[int]:
        """Numbers up to 0, halved; an odd one has a minus."""
        values: List[int] = []
        while True:
            code = self.number()
            if code == 0:
                return values
            if code == 1 or (kind == "deleted" and code % 2):
                raise Fault("token")
            if kind == "literal" and code // 2 > 2_000_000:
                raise Fault("large")
            values.append(-(code // 2) if code % 2 else code // 2)

    def step(self, top: int) -> Tuple[int, str]:
        letter = self.data[self.at]
        self.at += 1
        if letter == ord("d"):
            ids = self.numbers("deleted")
            return top, " ".join(map(str, [top, "d", *ids, 0]))
        if letter != ord("a"):
            raise Fault("token")
        code = self.number()
        if code < 2 or code % 2:
            raise Fault("token")
        literals = self.numbers("literal")
        return code // 2, " ".join(map(str, [code // 2, *literals, 0, *self.numbers("hint"), 0]))


def text_form(data: bytes) -> bytes:
    """The text to which a proof in either form comes."""
    if data[:1] not in (b"a", b"d"):
        return data
    reader, lines, top = Reader(data), [], 1
    try:
        while reader.at < len(data):
            top, line = reader.step(top)
            lines.append(line + "\n")
    except Fault as fault:
        lines.append(LINES[str(fault)])
    return "".join(lines).encode()


class Bench:
    def __init__(self, program: str, folder: str) -> None:
        self.program, self.folder = os.path.abspath(program), folder

    def write(self, name: str, data: bytes) -> None:
        with open(os.path.join(self.folder, name), "wb") as file:
            file.write(data)

    def taken(self, name: str) -> Optional[bytes]:
        path = os.path.join(self.folder, name)
        if not os.path.exists(path):
            return None
        with open(path, "rb") as file:
            data = file.read()
        os.remove(path)
        return data

    def run(self, *words: str, fed: str = "f.cnf", piped: bool = False) -> Tuple[int, bytes]:
        """Status and output; standard input is a file of the folder, or a pipe with its bytes."""
        command = [self.program, *words]
        with open(os.path.join(self.folder, fed), "rb") as file:
            source: Dict[str, Any] = {"input": file.read()} if piped else {"stdin": file}
            done = subprocess.run(command, cwd=self.folder, stdout=subprocess.PIPE, timeout=120,
                                  check=False, **source)
        return done.returncode, done.stdout

    def all(self, proof: str) -> List[Tuple[int, bytes, Optional[bytes]]]:
        """What each command prints and writes over the proof of a name."""
        found = []
        for words in (("check", "f.cnf", proof), ("trim", "f.cnf", proof, "out"),
                      ("lift", "--cubes", "f.icnf", "--leaf", "1", "f.cnf", proof, "out"),
                      ("join", "--cubes", "f.icnf", "f.cnf", "out", proof)):
            status, printed = self.run(*words)
            found.append((status, printed, self.taken("out")))
        return found

    def same(self, what: str, data: bytes) -> None:
        self.write("proof", data)
        binary_form = self.all("proof")
        self.write("proof", text_form(data))
        texts = self.all("proof")
        if data[:1] in (b"a", b"d"):
            texts = [
                (status, printed.replace(b" line ", b" step ").replace(b"c line ", b"c step "), out)
                for status, printed, out in texts]
        if binary_form != texts:
            print("DIFFERS: %s: %r: %r and %r" % (what, data[-40:], binary_form, texts))
            sys.exit(1)


def standard_input(bench: Bench) -> None:
    """`-` is standard input, once at most, and no file that is written."""
    bench.write("f.cnf", FOUR[0].encode())
    bench.write("f.icnf", ("p inccnf\n" + FOUR[0].split("\n", 1)[1] + CUBES).encode())
    bench.write("proof", binary(FOUR[1]))
    bench.write("-", b"no formula\n")
    right = (0, b"s VERIFIED\n")
    usage = (1, b"c usage\n")
    for fed, wanted, line in (
            ("f.cnf", right, "check - proof"),
            ("proof", right, "check f.cnf -"),
            ("f.cnf", right, "check /dev/stdin proof"),
            ("f.cnf", (1, b"c input line 1 fault 1\n"), "check ./- proof"),
            ("f.cnf", usage, "check - -"),
            ("f.cnf", usage, "decide f.cnf -"),
            ("f.cnf", usage, "solve f.cnf -"),
            ("f.cnf", (20, b"s UNSATISFIABLE\n"), "decide -"),
            ("f.cnf", usage, "trim f.cnf proof -"),
            ("f.cnf", usage, "lift --cubes - --leaf 1 f.cnf - out"),
            ("f.cnf", usage, "join --cubes f.icnf - out -"),
            ("f.cnf", usage, "join --cubes f.icnf f.cnf out a -"),
            ("f.cnf", (0, b"p inccnf\n"), "cubes --depth 0 -")):
        for piped in (False, True):
            found = bench.run(*line.split(), fed=fed, piped=piped)
            if (found[0], found[1][:len(wanted[1])]) != wanted:
                print("DIFFERS: %s: %r, and not %r" % (line, found, wanted))
                sys.exit(1)
    for command in ("decide", "solve"):
        with open(os.path.join(bench.folder, "out"), "wb") as out:
            subprocess.run([bench.program, command, "f.cnf", "/dev/stdout"], cwd=bench.folder,
                           stdout=out, check=False)
        if bench.taken("out") != b"c cannot write proof\n":
            print("DIFFERS: a proof of %s to the file to which is printed" % command)
            sys.exit(1)
    print("ok: -", flush=True)


def places(length: int, count: int) -> Iterable[int]:
    return sorted({length * i // count for i in range(count + 1)})


def drawn(source: bytes, draw: random.Random) -> bytes:
    """A proof with some bytes of it changed, taken out or put in; or bytes of its alphabet."""
    if draw.random() < 0.3:
        some = bytes([97, 100, 0, 1, 2, 3, 4, 5, 10, 127, 128, 129, 255])
        letter = draw.choice(b"ad").to_bytes(1, "big")
        return letter + bytes(draw.choice(some) for _ in range(draw.randrange(40)))
    data = bytearray(source[:draw.randrange(len(source) + 1)])
    for _ in range(draw.randrange(4)):
        at = draw.randrange(len(data) + 1)
        put = bytes(draw.randrange(256) for _ in range(draw.randrange(3)))
        data[at:at + draw.randrange(3)] = put
    return bytes(data)


def main() -> None:
    cuts = int(sys.argv[2]) if len(sys.argv) > 2 else 2000
    count = int(sys.argv[3]) if len(sys.argv) > 3 else 500
    draw = random.Random(72)
    with tempfile.TemporaryDirectory() as folder:
        bench = Bench(sys.argv[1], folder)
        standard_input(bench)
        for name, formula, text in (("two steps", *FOUR), ("groups", *RAT),
                                    ("a run", pigeons(5), "")):
            bench.write("f.cnf", formula.encode())
            bench.write("f.icnf", ("p inccnf\n" + formula.split("\n", 1)[1] + CUBES).encode())
            if not text:
                bench.run("decide", "f.cnf", "proof")
                text = (bench.taken("proof") or b"").decode()
            proof = binary(text)
            bench.same(name, proof)
            tried = list(places(len(proof), cuts))
            for place in tried:
                bench.same("%s, cut at %d" % (name, place), proof[:place])
            print("ok: %s, %d bytes, cut at %d places" % (name, len(proof), len(tried)), flush=True)
            for i in range(count):
                bench.same("%s, drawn %d" % (name, i), drawn(proof, draw))
            print("ok: %s, %d drawn byte strings" % (name, count), flush=True)


if __name__ == "__main__":
    main()
