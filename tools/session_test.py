#!/usr/bin/env python3
"""Runs `check --session` over proofs that are right, changed, cut, and written as they are read,
and `session` over events.

    tools/session_test.py PATH-OF-satcluster [CASE ..]

A CASE is Pipes, or Pipes.test_in_turn. Sessions are drawn and proved here, and by CaDiCaL's library
where it is installed in version 2.1 or later (Debian: libcadical-dev), or where the program
cadical_session stands on the path, or in the folder that SATCLUSTER_CLIENTS names (tools/clients.sh
makes it there); if there is none, that is told.
"""
import fcntl
import os
import random
import re
import shutil
import struct
import subprocess
import sys
import tempfile
import termios
import time
import unittest
from pathlib import Path
from typing import IO, Any, Dict, List, Optional, Tuple

sys.dont_write_bytecode = True

from cases import opened, pigeons, run
from explanations.faults import TABLES
from session_cases import (STATUSES, Event, changes, drawn, events_text, expected, sharing,
                           text_of)

HERE = Path(__file__).resolve().parent
SECONDS = 60  # how long a run may take
SOON = 10  # how long what has to come may take to come
LATER = 0.05  # how long is waited for what must not come

EVENTS = [Event(False, [1, 2]), Event(False, [-1, 2]), Event(True, [-2]), Event(True, [1]),
          Event(False, [-2, 3]), Event(True, [3, -3]), Event(True, [-3, -3, 9])]
PROOF = """i 1 1 2 0
i 2 -1 2 0
q -2 0
s UNSATISFIABLE
l 3 2 0 1 2 0
u -2 0 3 0
q 1 0
s SATISFIABLE
m 1 2 0
i 4 -2 3 0
q 3 -3 0
s UNSATISFIABLE
u 3 -3 0 0
q -3 -3 9 0
s UNSATISFIABLE
u -3 0 3 4 0
""".split("\n")[:-1]
VERIFIED = ["s VERIFIED", "c 4 queries: 1 satisfiable, 3 unsatisfiable, 0 unknown"]

TWO = [Event(False, [1, 2]), Event(True, [1])]
FAULTS = (  # beside TWO: a proof, its fault and the line, by the page's table and behind it
    ("i 1 1 2\n", 1, 1), ("i 1 1 2 0\n\n", 1, 2), ("i 1 1 2 0\nx\n", 1, 2),
    ("i 1 1 2 0\ns SATISFIED\n", 1, 2), ("i 1 1 2 0\nq 1", 1, 2),
    ("i 1 1 2 0\nl 1 1 0 1 0\n", 2, 2), ("i -1 1 2 0\n", 1, 1), ("i 0 1 2 0\n", 1, 1),
    ("i 1 2 1 0\n", 18, 1), ("i 1 1 2 0\nq 0\n", 18, 2), ("q 1 0\n", 18, 1),
    ("i 1 1 2 0\nq 1 0\ns UNKNOWN\nq 1 0\n", 18, 4), ("i 1 1 2 0\nm 1 0\n", 19, 2),
    ("i 1 1 2 0\nq 1 0\ni 2 1 0\n", 19, 3), ("i 1 1 2 0\nq 1 0\ns SATISFIABLE\ns UNKNOWN\n", 19, 4),
    ("i 1 1 2 0\nq 1 0\nu 1 0 1 0\n", 19, 3), ("i 1 1 2 0\nq 1 0\ns SATISFIABLE\nm 2 0\n", 20, 4),
    ("i 1 1 2 0\nq 1 0\ns SATISFIABLE\nm 1 2 -2 0\n", 20, 4),
    ("i 1 1 2 0\nl 2 1 -1 0 1 0\n", 4, 2), ("i 1 1 2 0\nl 2 1 0 9 0\n", 3, 2),
    ("i 1 1 2 0\nl 2 1 0 1 0\n", 15, 2), ("i 1 1 2 0\nl 2 0 1 0\n", 6, 2),
    ("i 1 1 2 0\nl 2 1 2 0 1 1 0\n", 7, 2), ("i 1 1 2 0\nl 2 1 0 -1 1 0\n", 1, 2),
    ("i 1 1 2 0\nq 1 0\ns UNSATISFIABLE\nu 1 0 1 0\n", 5, 4),
    ("i 1 1 2 0\nq 1 0\ns UNSATISFIABLE\nu 1 0 0\n", 15, 4),
    ("i 1 1 2 0\nq 1 0\ns UNSATISFIABLE\nu 2 -2 0 0\n", 21, 4),
    ("i 1 1 2 0\nq 1 0\n", 22, 3), ("i 1 1 2 0\n", 22, 2), ("", 22, 1))

RIGHT = (  # events and a proof of which a lesser reading would think otherwise
    ([Event(False, [1]), Event(True, [1])],  # what was given stays, whatever is deleted
     "i 1 1 0\nd 1 9 0\nl 2 1 0 1 0\nq 1 0\ns SATISFIABLE\nm 1 0\n"),
    ([Event(True, [])], "c a comment\np lidrup\nq 0\nw 1 0\nr 1 0\ns SATISFIABLE\nm 0\nf 0\ne 0\n"),
    ([Event(True, [-1]), Event(True, [])], "q -1 0\ns UNKNOWN\nq 0\ns SATISFIABLE\nm 0\n"),
    ([Event(False, []), Event(True, []), Event(False, [5]), Event(True, [-5])],
     "i 3 0\nq 0\ns UNSATISFIABLE\nu 0 3 0\ni 4 5 0\nq -5 0\ns UNSATISFIABLE\nu 0 3 0\n"))
WRONG = (  # and proofs that must not pass: the fault and its line
    ([Event(True, [-1]), Event(False, [1])],  # a lemma that rests on what is given later
     "q -1 0\ns UNSATISFIABLE\nu -1 0 1 0\ni 1 1 0\n", 3, 3),
    ([Event(False, [1]), Event(True, [])], "i 1 1 0\nd 1 0\nq 0\ns SATISFIABLE\nm 0\n", 20, 5),
    ([Event(False, [1, -1]), Event(True, [])], "i 1 1 -1 0\nq 0\ns SATISFIABLE\nm 0\n", 20, 4),
    ([Event(False, [1]), Event(True, [-1]), Event(True, [])],  # false under one query alone
     "i 1 1 0\nq -1 0\ns UNSATISFIABLE\nu -1 0 1 0\nq 0\ns UNSATISFIABLE\nu -1 0 1 0\n", 21, 7),
    ([Event(True, [1, 1])], "q 1 0\n", 18, 1), ([Event(True, [1, 2])], "q 2 1 0\n", 18, 1))


class Case(unittest.TestCase):
    """A folder of its own, in which the program runs."""

    def setUp(self) -> None:
        self.folder = Path(os.path.realpath(tempfile.mkdtemp()))
        self.addCleanup(shutil.rmtree, str(self.folder), ignore_errors=True)

    def at(self, name: str) -> str:
        return str(self.folder / name)

    def start(self, *words: str) -> subprocess.Popen:
        return subprocess.Popen([os.environ["SATCLUSTER"], "check", "--session", *words],
                                cwd=str(self.folder), stdout=subprocess.PIPE)

    def ends(self, process: subprocess.Popen) -> Tuple[int, List[str]]:
        try:
            out, _ = process.communicate(timeout=SECONDS)
        except subprocess.TimeoutExpired:
            process.kill()
            process.communicate()
            self.fail("a check does not end")
        return process.returncode, out.decode().split("\n")[:-1]

    def check(self, events: str, proof: str) -> Tuple[int, List[str]]:
        (self.folder / "events").write_text(events)
        (self.folder / "proof").write_text(proof)
        return self.ends(self.start("events", "proof"))

    def agrees(self, events: List[Event], proof: str) -> None:
        """The program prints what the rules say."""
        wanted = expected(events, proof)
        self.assertEqual(wanted, self.check(events_text(events), proof), (events, proof))

    def refuses(self, events: List[Event], proof: str, fault: int, line: int) -> None:
        self.agrees(events, proof)
        status, lines = expected(events, proof)
        self.assertEqual((1, "c line %d fault %d" % (line, fault)), (status, lines[1]), proof)

    def faulty(self, events: str, proof: str, line: int, fault: int) -> None:
        wanted = (1, ["c input line %d fault %d" % (line, fault)])
        self.assertEqual(wanted, self.check(events, proof), (events, proof))


class Texts(Case):
    def test_right(self) -> None:
        self.assertEqual((0, VERIFIED), self.check(events_text(EVENTS), text_of(PROOF)))
        for events, proof in RIGHT:
            self.agrees(events, proof)
            self.assertEqual(0, expected(events, proof)[0], proof)

    def test_faults(self) -> None:
        for proof, fault, line in FAULTS:
            self.refuses(TWO, proof, fault, line)
        for events, proof, fault, line in WRONG:
            self.refuses(events, proof, fault, line)

    def test_cut(self) -> None:
        """At each line, and at each byte: the answers before the cut stand."""
        text = text_of(PROOF)
        for end in range(len(text)):
            status, lines = self.check(events_text(EVENTS), text[:end])
            self.assertEqual(expected(EVENTS, text[:end]), (status, lines))
            cut = text[:end].split("\n")
            fault = 22 if cut[-1] == "" else 1
            before = sum(line[:1] in ("m", "u") for line in cut[:-1])
            told = ["c line %d fault %d" % (len(cut), fault), "c %d queries before" % before]
            self.assertEqual((1, ["s NOT VERIFIED", *told]), (status, lines))

    def test_events(self) -> None:
        spelled = ("c a comment\n\n  p  inccnf \n1 2 0\nc -5 0\n -1\t2 0\r\na -2 0\na 1 0\n"
                   "-2 3 0\n\na 3 -3 0\na -3 -3 9 0")
        self.assertEqual((0, VERIFIED), self.check(spelled, text_of(PROOF)))
        self.assertEqual(22, int(self.check(events_text(EVENTS[:-1]) + "a -3 -3 0\n",
                                            text_of(PROOF[:-3]))[1][1].split()[-1]))
        examples = next(table.examples for table in TABLES if table.name == "events")
        for fault, example in examples.items():
            self.faulty(example, text_of(PROOF), max(example.count("\n"), 1), fault)
        for line, fault in (("1 x 0", 3), ("1 a 0", 3), ("+1 0", 3), ("1 2", 5), ("a 1", 5), ("a", 5),
                            ("1 0 2 0", 5), ("a 0 0", 5), ("1000001 0", 8), ("a -1000001 0", 8),
                            ("1 x 1000001", 3), ("1000001 x", 8), ("a a 1 0", 3), ("p inccnf", 3)):
            self.faulty("p inccnf\n1 2 0\n%s\n" % line, "", 3, fault)
            self.faulty("p inccnf\n1 2 0\n" + line, "", 3, fault)

    def test_fault_of_events_is_told_first(self) -> None:
        """It may stand behind the proof's fault, which is in its first line here."""
        for proof in ("x\n", "i 1 2 1 0\n", "i 1 1 2 0\nq 1 0\n"):
            for count in (1, 2000):
                events = events_text([Event(False, [1, 2])] * count) + "1 x 0\n"
                self.faulty(events, proof, count + 2, 3)

    def test_files(self) -> None:
        (self.folder / "there").write_text("")
        for words, line in ((("none", "there"), "c cannot read input"),
                            (("there", "none"), "c cannot read proof"), (("there",), "c usage")):
            status, lines = self.ends(self.start(*words))
            self.assertEqual((1, line), (status, lines[0]), words)


class Drawn(Case):
    def test_changed(self) -> None:
        """Drawn sessions, and each line of their proofs changed in three ways."""
        for seed in range(40):
            session = drawn(seed)
            self.agrees(session.events, text_of(session.proof))
            self.assertEqual(0, expected(session.events, text_of(session.proof))[0])
            for proof in changes(session.proof, random.Random(seed)):
                self.agrees(session.events, text_of(proof))

    def test_other_events(self) -> None:
        """One event fewer, one twice, one with another literal, and two that are exchanged."""
        for seed in range(40):
            session, proof = drawn(seed), text_of(drawn(seed).proof)
            for at, event in enumerate(session.events):
                other = Event(event.asks, [*event.literals, 3])
                flipped = Event(not event.asks, event.literals)
                ways: Tuple[List[Event], ...] = ([], [event, event], [other], [flipped])
                for instead in ways:
                    self.agrees([*session.events[:at], *instead, *session.events[at + 1:]], proof)


class Pipes(Case):
    """Both texts come from pipes, which a session writes as it goes on."""

    def setUp(self) -> None:
        super().setUp()
        self.ends_of = {}
        for name in ("events", "proof"):
            os.mkfifo(self.at(name))
            self.ends_of[name] = os.open(self.at(name), os.O_RDWR)  # so nobody waits for nobody
        self.process = self.start("events", "proof")
        self.addCleanup(self.stop)

    def stop(self) -> None:
        self.process.kill()
        opened(self.process.stdout).close()
        self.process.wait()
        for descriptor in self.ends_of.values():
            os.close(descriptor)

    def write(self, name: str, text: str) -> None:
        os.write(self.ends_of[name], text.encode())

    def close(self, name: str) -> None:
        os.close(self.ends_of.pop(name))

    def unread(self, name: str) -> int:
        room = fcntl.ioctl(self.ends_of[name], termios.FIONREAD, b"\0" * 4)
        return struct.unpack("i", room)[0]

    def is_read(self, name: str) -> None:
        end = time.monotonic() + SOON
        while self.unread(name):
            self.assertLess(time.monotonic(), end, "the text of %s is not read" % name)
            time.sleep(0.001)

    def test_in_turn(self) -> None:
        """An event is read where a line of the proof awaits it, and not before."""
        self.write("events", "p inccnf\n")
        events = [line + "\n" for line in events_text(EVENTS).split("\n")[1:-1]]
        for line in PROOF:
            if line[0] in "iq":
                event = events.pop(0)
                self.write("events", event)
                time.sleep(LATER)
                self.assertGreaterEqual(self.unread("events"), len(event))
            self.write("proof", line + "\n")
            self.is_read("proof")
            if line[0] in "iq":
                self.is_read("events")
            self.assertIsNone(self.process.poll())
        self.close("proof")
        time.sleep(LATER)
        self.assertIsNone(self.process.poll(), "the events have not ended")
        self.close("events")
        self.assertEqual((0, VERIFIED), self.ends(self.process))

    def test_killed(self) -> None:
        """The session ends within a query."""
        self.write("events", events_text(EVENTS[:4]))
        self.write("proof", text_of(PROOF[:7]))
        self.is_read("proof")
        self.close("proof")
        self.close("events")
        wanted = ["s NOT VERIFIED", "c line 8 fault 22", "c 1 queries before"]
        self.assertEqual((1, wanted), self.ends(self.process))

    def test_fault_of_events(self) -> None:
        """It ends the check, while more of the proof may come."""
        self.write("events", "p inccnf\n1 x 0\n")
        time.sleep(LATER)
        self.assertIsNone(self.process.poll(), "nothing awaits an event")
        self.write("proof", "i 1 1 2 0\n")
        self.assertEqual((1, ["c input line 2 fault 3"]), self.ends(self.process))

    def test_fault_of_proof(self) -> None:
        """Behind it the events are read to their end."""
        self.write("proof", "x\n")
        self.is_read("proof")
        self.write("events", events_text(EVENTS))
        self.is_read("events")
        self.assertIsNone(self.process.poll())
        self.write("events", "1 x 0\n")
        self.assertEqual((1, ["c input line 9 fault 3"]), self.ends(self.process))


class Answers(Case):
    """Sessions that the program answers, if it has that command."""

    @classmethod
    def setUpClass(cls) -> None:
        words = [os.environ["SATCLUSTER"], "session", "--help"]
        if subprocess.run(words, stdout=subprocess.DEVNULL).returncode != 0:
            raise unittest.SkipTest("the program answers no sessions")

    def begin(self, *words: str, **more: Any) -> subprocess.Popen:
        process = subprocess.Popen([os.environ["SATCLUSTER"], "session", *words],
                                   cwd=str(self.folder), stdout=subprocess.PIPE, **more)
        self.addCleanup(self.end, process)
        return process

    @staticmethod
    def end(process: subprocess.Popen) -> None:
        process.kill()
        for stream in (process.stdin, process.stdout):
            if stream is not None:
                try:
                    stream.close()
                except BrokenPipeError:
                    pass
        process.wait()

    def answer(self, events: str, *words: str) -> Tuple[int, List[str]]:
        (self.folder / "events").write_text(events)
        return self.ends(self.begin(*words, "events", "answers"))

    def proof(self) -> str:
        return (self.folder / "answers").read_text()

    def is_right(self, events: List[Event], proof: str) -> None:
        """The program accepts the proof, and so do the rules."""
        self.agrees(events, proof)
        self.assertEqual(0, expected(events, proof)[0], (events, proof))

    def ask(self, process: subprocess.Popen, lines: List[str]) -> None:
        opened(process.stdin).write("".join(line + "\n" for line in lines).encode())
        opened(process.stdin).flush()

    def told(self, process: subprocess.Popen) -> List[str]:
        """The lines of the next answer, which has to come."""
        lines = [opened(process.stdout).readline().decode().rstrip("\n")]
        while lines[0] in STATUSES[:2] and not lines[-1].endswith(" 0"):
            lines.append(opened(process.stdout).readline().decode().rstrip("\n"))
        return lines

    def test_example(self) -> None:
        wanted = ["s UNSATISFIABLE", "f -2 0", "s SATISFIABLE", "v 1 2 0",
                  "s UNSATISFIABLE", "f 3 -3 0", "s UNSATISFIABLE", "f -3 0"]
        self.assertEqual((20, wanted), self.answer(events_text(EVENTS)))
        self.is_right(EVENTS, self.proof())
        self.assertEqual((20, wanted[::2]), self.answer(events_text(EVENTS), "-n"))
        self.is_right(EVENTS, self.proof())
        self.assertEqual((20, wanted), self.ends(self.begin("events")))

    def test_no_query(self) -> None:
        cases: Tuple[Tuple[str, List[Event]], ...] = (
            ("p inccnf\n", []), ("p inccnf\n1 0", [Event(False, [1])]))
        for text, events in cases:
            self.assertEqual((0, []), self.answer(text))
            self.is_right(events, self.proof())

    def test_in_turn(self) -> None:
        """Each answer is there before more is sent, and the proof is right up to it by then."""
        process = self.begin("-", "answers", stdin=subprocess.PIPE)
        self.ask(process, ["p inccnf"])
        for at, event in enumerate(EVENTS):
            self.ask(process, [events_text([event]).split("\n")[1]])
            if event.asks:
                self.assertIn(self.told(process)[0], STATUSES)
                self.is_right(EVENTS[:at + 1], self.proof())
                self.assertIsNone(process.poll())
        opened(process.stdin).close()
        self.assertEqual(20, process.wait(SECONDS))

    def test_calls(self) -> None:
        """What is there is read by one call; of an answer the proof goes first, each by one call."""
        if not shutil.which("strace"):
            self.skipTest("strace is not installed")
        words = ["strace", "-o", "calls", "-e", "trace=read,write", os.environ["SATCLUSTER"]]
        process = subprocess.Popen([*words, "session", "-", "answers"], cwd=str(self.folder),
                                   stdin=subprocess.PIPE, stdout=subprocess.PIPE)
        self.addCleanup(self.end, process)
        for lines in (["p inccnf", "1 0", "a 1 0"], ["a -1 0"]):
            self.ask(process, lines)
            self.told(process)
        opened(process.stdin).close()
        self.assertEqual(20, process.wait(SECONDS))
        calls = re.findall(r"(read|write)\((\d+), ", (self.folder / "calls").read_text())
        calls = [call for call in calls if call[0] == "write" or call[1] == "0"]
        proof = calls[1][1]
        once = [("read", "0"), ("write", proof), ("write", "1")]
        self.assertEqual([*once, *once, ("read", "0")], calls)

    def test_killed(self) -> None:
        """It leaves a proof that is right up to the last answer."""
        for seed in range(10):
            events = [event for event in drawn(seed).events if len(event.literals) < 3]
            for last in [at for at, event in enumerate(events) if event.asks]:
                process = self.begin("-", "answers", stdin=subprocess.PIPE)
                self.ask(process, events_text(events[:last + 1]).split("\n")[:-1])
                for event in events[:last + 1]:
                    if event.asks:
                        self.told(process)
                self.ask(process, ["1 2 0", "-1 0"])
                process.kill()
                process.wait()
                self.is_right(events[:last + 1], self.proof())

    def test_unread(self) -> None:
        """Nobody reads the second answer: it ends, and the proof has it."""
        process = self.begin("-", "answers", stdin=subprocess.PIPE, restore_signals=False)
        self.ask(process, ["p inccnf", "1 0", "a -1 0"])
        self.assertEqual(["s UNSATISFIABLE", "f -1 0"], self.told(process))
        opened(process.stdout).close()
        self.ask(process, ["a 1 0"])
        self.assertEqual(1, process.wait(SECONDS))
        self.is_right([Event(False, [1]), Event(True, [-1]), Event(True, [1])], self.proof())

    def test_limit(self) -> None:
        """As many lemmas are learnt in a query as the limit allows, and they stay."""
        clauses = [line for line in pigeons(5).split("\n")[1:-1]]
        text = "p inccnf\n%s\n" % "\n".join([*clauses, *["a 0"] * 400])
        status, lines = self.answer(text, "--limit", "2")
        self.assertEqual((20, "s UNKNOWN", "s UNSATISFIABLE"), (status, lines[0], lines[-2]))
        queries = self.proof().split("q 0\n")[1:]
        for query in queries[:lines.index("s UNSATISFIABLE")]:
            self.assertEqual(2, sum(line[:1] == "l" for line in query.split("\n")), query)
        (self.folder / "proof").write_text(self.proof())
        self.assertEqual(0, self.ends(self.start("events", "proof"))[0])

    def test_steps(self) -> None:
        """A query that is asked in steps learns the lemmas of one that is asked at once."""
        clauses = [" ".join(["31", line]) for line in pigeons(5).split("\n")[1:-1]]
        found: List[List[str]] = []
        for limit in (10000, 7, 1):
            text = "p inccnf\n%s\n" % "\n".join([*clauses, *["a 32 -31 0"] * (10000 // limit)])
            status, lines = self.answer(text, "--limit", str(limit))
            self.assertEqual((20, "f -31 0"), (status, lines[-1]))
            found.append([line for line in self.proof().split("\n") if line[:1] == "l"])
        self.assertLess(100, len(found[0]))
        self.assertEqual([found[0]] * 2, found[1:])

    def test_faults(self) -> None:
        """The answers before a fault stand, and the proof is right for the events before it."""
        text = "p inccnf\n1 2 0\na -1 0\n-2 0\n%s\na 0\n"
        events = [Event(False, [1, 2]), Event(True, [-1]), Event(False, [-2])]
        for line, fault in (("1 x 0", 3), ("1 2", 5), ("1000001 0", 8), ("p inccnf", 3)):
            wanted = ["s SATISFIABLE", "v -1 2 0", "c input line 5 fault %d" % fault]
            self.assertEqual((1, wanted), self.answer(text % line))
            self.is_right(events, self.proof())
        self.assertEqual((1, ["c input line 1 fault 1"]), self.answer(""))

    def test_files(self) -> None:
        """The proof may go neither where the events come from nor where the answers go."""
        text = "p inccnf\n1 0\na 1 0\n"
        (self.folder / "events").write_text(text)
        cases: Tuple[Tuple[Tuple[str, str], Dict[str, IO[str]]], ...] = (
            (("events", "events"), {}), (("events", "./events"), {}),
            (("-", "events"), {"stdin": open(self.at("events"))}))
        for words, more in cases:
            told = self.ends(self.begin(*words, **more))
            self.assertEqual((1, ["c cannot write proof"]), told)
            self.assertEqual(text, (self.folder / "events").read_text())
            for stream in more.values():
                stream.close()
        (self.folder / "answers").write_text("as it was")
        self.assertEqual((1, ["c cannot read input"]), self.ends(self.begin("none", "answers")))
        self.assertEqual("as it was", self.proof())
        self.assertEqual((1, ["c usage"]), self.ends(self.begin("events", "-")))

    def test_growing(self) -> None:
        """Variables come far beyond those before them."""
        events = []
        for last in (1, 65, 66, 200, 5000, 5001):
            events += [Event(False, [last, -last]), Event(False, [-last, last + 1]),
                       Event(True, [last]), Event(True, [last, -last - 1])]
        status, lines = self.answer(events_text(events))
        self.assertEqual(20, status)
        self.is_right(events, self.proof())
        values = [word for line in lines if line[:1] == "v" for word in line.split()[1:]]
        counts = [int(values[at - 1].lstrip("-")) for at, word in enumerate(values) if word == "0"]
        self.assertEqual([2, 66, 67, 201, 5001, 5002], counts)
        self.assertLess(max(map(len, lines)), 79)

    def test_drawn(self) -> None:
        """The answers are those of the drawn sessions, and the proofs are right."""
        for seed in range(200):
            session = drawn(seed)
            status, lines = self.answer(events_text(session.events))
            self.is_right(session.events, self.proof())
            wanted = [line for line in session.proof if line[:1] == "s"]
            found = [line for line in lines if line[:1] == "s"]
            self.assertEqual(len(wanted), len(found))
            for one, other in zip(wanted, found):
                self.assertIn(one, (other, STATUSES[2]))
            self.assertEqual({"s SATISFIABLE": 10, "s UNSATISFIABLE": 20}[found[-1]], status)
            self.are_spelled(session.events, lines)

    def test_sharing(self) -> None:
        """Queries that share fronts of assumptions are answered as all assignments say; SHARING is
        how many sessions are drawn."""
        for seed in range(int(os.environ.get("SHARING", "300"))):
            events, answers = sharing(seed)
            status, lines = self.answer(events_text(events))
            found = [line for line in lines if line[:1] == "s"]
            self.assertEqual([STATUSES[0 if one else 1] for one in answers], found, seed)
            self.assertEqual(10 if answers[-1] else 20, status)
            text = self.proof()
            checked = self.check(events_text(events), text)
            self.assertEqual((0, "s VERIFIED"), (checked[0], checked[1][0]), seed)

    def are_spelled(self, events: List[Event], lines: List[str]) -> None:
        """A model has each variable so far, and a core has literals of its query in their order."""
        variables, at = 0, 0
        for event in events:
            variables = max([variables, *(abs(literal) for literal in event.literals)])
            if event.asks:
                found = [int(word) for word in lines[at + 1].split()[1:-1]]
                if lines[at] == STATUSES[0]:
                    self.assertEqual(list(range(1, variables + 1)), [abs(word) for word in found])
                    self.assertTrue(set(found).issuperset(event.literals))
                else:
                    once = list(dict.fromkeys(event.literals))
                    self.assertEqual(found, [one for one in once if one in found])
                at += 2


def library(folder: str) -> Tuple[Optional[str], str]:
    """The program over CaDiCaL's library, which may be made in this folder, or why there is none."""
    path = os.pathsep.join(filter(None, (os.environ.get("SATCLUSTER_CLIENTS"), os.environ["PATH"])))
    found, compiler = shutil.which("cadical_session", path=path), shutil.which("c++")
    if found or not compiler:
        return found, "neither cadical_session nor a compiler of C++ is installed"
    made = os.path.join(folder, "cadical_session")
    words = [compiler, "-std=c++17", "-O1", "-o", made, str(HERE / "clients" / "cadical_session.cc")]
    done = subprocess.run([*words, "-lcadical"], stdout=subprocess.DEVNULL,
                          stderr=subprocess.DEVNULL)
    return (made if done.returncode == 0 else None), "CaDiCaL's library is not installed"


class Cadical(Case):
    """Proofs that CaDiCaL's library writes."""

    solver: str

    @classmethod
    def setUpClass(cls) -> None:
        folder = tempfile.mkdtemp()
        cls.addClassCleanup(shutil.rmtree, folder)
        solver, why = library(folder)
        if solver is None:
            raise unittest.SkipTest(why)
        cls.solver = solver
        (Path(folder) / "events").write_text("p inccnf\n")
        if subprocess.run([cls.solver, "events", "proof"], cwd=folder).returncode == 3:
            raise unittest.SkipTest("CaDiCaL's library is older than 2.1")

    def prove(self, events: List[Event], *more: str) -> str:
        (self.folder / "events").write_text(events_text(events))
        words = [self.solver, "events", "proof", *more]
        subprocess.run(words, cwd=str(self.folder), check=True, stdout=subprocess.DEVNULL)
        return (self.folder / "proof").read_text()

    def session(self, seed: int) -> List[Event]:
        """As `drawn`, but larger."""
        draw = random.Random(seed)
        variables, events = draw.randrange(5, 60), []
        literal = lambda: draw.choice((1, -1)) * draw.randrange(1, variables + 1)
        for _ in range(draw.randrange(2, 10)):
            for _ in range(draw.randrange(variables * draw.choice((1, 2, 3)))):
                variables += draw.random() < 0.1
                size = draw.choice((2, 2, 3, 3, 3, 3, 3, 4, 1 if draw.random() < 0.3 else 5))
                events.append(Event(False, [literal() for _ in range(size)]))
            events.append(Event(True, [literal() for _ in range(draw.choice((0, 1, 2, 4, 8)))]))
        return events

    def test_right(self) -> None:
        for seed in range(40):
            events = self.session(seed)
            for more in ((), ("3",)):
                proof = self.prove(events, *more)
                self.agrees(events, proof)
                self.assertEqual(0, expected(events, proof)[0], proof)

    def test_changed(self) -> None:
        """Of long proofs some lines are changed."""
        for seed in range(30):
            events, draw = self.session(seed), random.Random(seed)
            proofs = list(changes(self.prove(events).split("\n")[:-1], draw))
            for proof in draw.sample(proofs, min(20, len(proofs))):
                self.agrees(events, text_of(proof))


if __name__ == "__main__":
    run(__doc__)
