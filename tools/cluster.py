#!/usr/bin/env python3
"""Runs coordinators and workers as processes of one machine, over free ports of 127.0.0.1.

    tools/cluster.py PATH-OF-satcluster [CASE ..]

A CASE is Kills, or Kills.test_workers; they run alone, and in any order. KILLS of the environment
is how often workers are killed at random moments, and coordinators a tenth as often; 10 if it is
not there. SEED draws the moments. What is tested here no contract can say: that sockets are opened,
that peers who come, go and send anything else are met as they should be, and that nothing else is
printed.
"""
import os
import random
import resource
import signal
import socket
import subprocess
import sys
import threading
import time
from dataclasses import dataclass
from typing import Any, Callable

sys.dont_write_bytecode = True

from cases import FolderCase, dimacs, pigeons, run
from ports import LINKED, LISTENS, free_port, sockets_at

SECONDS = 120  # how long a process may take
ROOM = 2**28  # bytes for a process that reads what has no end
LONG = 1.0  # seconds that a formula takes at least, so that a node can be killed meanwhile

TWO = "two.cnf"  # a formula that has one model
PIGEONS = "pigeons.cnf"  # one that takes LONG seconds; see long_formula
MODEL = "s SATISFIABLE\nv 1 -2 0\n"
SATISFIABLE, UNSATISFIABLE = "s SATISFIABLE\n", "s UNSATISFIABLE\n"
UNKNOWN, NO_LINKS = "s UNKNOWN\n", "c cannot open links\n"
# How a worker may end whose coordinator has decided the formula.
LATE = ((20, UNSATISFIABLE), (0, UNKNOWN), (1, NO_LINKS))
PROGRESS = r"\Ac \d+ s: \d+ closed, \d+ given, \d+ open, \d+ split, \d+\.\d MB\Z"

TASK, VERDICT = b"CC\x01", b"CC\x05"  # the first bytes of frames


def idle(worker: int, incarnation: int) -> bytes:
    """The frame by which a worker says that it has nothing to do."""
    payload = worker.to_bytes(4, "big") + incarnation.to_bytes(8, "big")
    return b"CC\x08" + len(payload).to_bytes(2, "big") + payload


def want(worker: int, offset: int) -> bytes:
    """The frame by which a worker asks for bytes of the evidence."""
    payload = (1).to_bytes(8, "big") + worker.to_bytes(4, "big") + offset.to_bytes(4, "big")
    return b"CC\x06" + len(payload).to_bytes(2, "big") + payload


def kill(process: subprocess.Popen) -> None:
    process.send_signal(signal.SIGKILL)
    process.communicate()


@dataclass(frozen=True)
class Coordinator:
    process: subprocess.Popen
    port: int


class Case(FolderCase):
    holes = 0  # of the pigeons that take LONG seconds; 0 until they are measured

    def setUp(self) -> None:
        super().setUp()
        self.write(TWO, dimacs(2, [[1], [-2]]))

    def start(self, *words: object, **more: Any) -> subprocess.Popen:
        return super().start(*words, stderr=subprocess.PIPE, **more)

    def serve(self, *words: object) -> Coordinator:
        """A coordinator that listens."""
        port = free_port()
        process = self.start("serve", "--port", port, *words)
        self.wait_for("a coordinator listens", lambda: sockets_at(port, LISTENS) == 1)
        return Coordinator(process, port)

    def work(self, port: int, number: int, *words: object) -> subprocess.Popen:
        return self.start("work", "--port", port, "--number", number, *words)

    def peer(self, port: int) -> socket.socket:
        """A connection to a coordinator by which anything can be sent."""
        peer = socket.create_connection(("127.0.0.1", port), timeout=SECONDS)
        self.addCleanup(peer.close)
        return peer

    def wait_for(self, what: str, holds: Callable[[], bool]) -> None:
        end = time.monotonic() + SECONDS
        while not holds():
            self.assertLess(time.monotonic(), end, what)
            time.sleep(0.01)

    def wait_for_links(self, coordinator: Coordinator, count: int) -> None:
        """Waits until it has so many connections."""
        self.wait_for("%d workers are linked" % count,
                      lambda: sockets_at(coordinator.port, LINKED) == count)

    def go_on(self, seconds: float, *processes: subprocess.Popen) -> None:
        """None of these ends within so many seconds."""
        time.sleep(seconds)
        self.assertEqual([None] * len(processes), [process.poll() for process in processes])

    def end(self, process: subprocess.Popen, what: object) -> str:
        """What a process has printed when it ends; there is nothing on standard error."""
        try:
            out, err = process.communicate(timeout=SECONDS)
        except subprocess.TimeoutExpired:
            self.fail("%s: no end after %d seconds" % (what, SECONDS))
        self.assertEqual("", err.decode(), what)
        return out.decode()

    def ends(self, process: subprocess.Popen, status: int, text: str, what: object) -> None:
        out = self.end(process, what)
        self.assertEqual((status, text), (process.returncode, out), what)

    def ends_late(self, worker: subprocess.Popen) -> None:
        """A worker holds the verdict, or none if it came too late for it."""
        text = worker.communicate(timeout=SECONDS)[0].decode()
        self.assertIn((worker.returncode, text), LATE)

    def verifies(self, formula: str, proof: str) -> None:
        self.ends(self.start("check", formula, proof), 0, "s VERIFIED\n", proof)

    def long_formula(self) -> str:
        """A formula that takes LONG seconds, whatever this machine is."""
        if not Case.holes:
            Case.holes = self.solve_longer_and_longer()
        return self.write(PIGEONS, pigeons(Case.holes))

    def solve_longer_and_longer(self) -> int:
        """Solves PIGEONS with more and more holes, until one takes LONG seconds."""
        for holes in range(4, 13):
            self.write(PIGEONS, pigeons(holes))
            begin = time.monotonic()
            process = self.start("solve", "--workers", 3, "--depth", 3, PIGEONS, "solved.lrat")
            self.ends(process, 20, UNSATISFIABLE, "%d holes" % holes)
            if time.monotonic() - begin > LONG:
                break
        return holes


class Files(Case):
    def test_inputs_without_end(self) -> None:
        """They are read up to their first fault."""
        fault = "c input line 1 fault 1\n"
        for words, begin, text in (
                (("decide", "/dev/stdin"), b"q cnf 1 1\n", fault),
                (("solve", "/dev/stdin"), b"q cnf 1 1\n", fault),
                (("check", "/dev/stdin", TWO), b"q cnf 1 1\n", fault),
                (("check", TWO, "/dev/stdin"), b"no proof\n",
                 "s NOT VERIFIED\nc line 1 fault 1\n")):
            out, into = os.pipe()
            process = self.start(*words, stdin=out)
            os.close(out)
            with os.fdopen(into, "wb", buffering=0) as pipe:
                pipe.write(begin)
                self.ends(process, 1, text, words)

    def test_want_of_memory(self) -> None:
        """Without a fault they are read up to want of memory."""
        def limit() -> None:
            resource.setrlimit(resource.RLIMIT_AS, (ROOM, ROOM))

        for words in (("decide", "/dev/zero"), ("solve", "/dev/zero"),
                      ("check", "/dev/zero", TWO), ("check", TWO, "/dev/zero")):
            process = self.start(*words, preexec_fn=limit)
            self.ends(process, 1, "c no memory\n", words)

    def test_faults(self) -> None:
        """What is wrong with the files of `serve` is told before any worker is linked."""
        self.write("faulty.cnf", "p cnf 1\n")
        self.write("other.icnf", "p inccnf\n1 2 0\na 0\n")
        for words, text in (
                (["faulty.cnf"], "c input line 1 fault 2\n"),
                (["--cubes", "faulty.cnf", TWO], "c cubes line 1 fault 2\n"),
                (["--cubes", "other.icnf", TWO], "c cubes of another formula\n")):
            process = self.start("serve", "--port", free_port(), "--workers", 1, *words)
            self.ends(process, 1, text, words)


class Links(Case):
    def test_nobody_serves(self) -> None:
        for words, text in (([TWO], NO_LINKS), (["-q", TWO], "")):
            worker = self.start("work", "--port", free_port(), *words)
            self.ends(worker, 1, text, words)

    def test_port_that_is_taken(self) -> None:
        """The first coordinator goes on."""
        first = self.serve("--workers", 1, TWO)
        second = self.start("serve", "--port", first.port, "--workers", 1, TWO)
        self.ends(second, 1, NO_LINKS, "the second one")
        worker = self.start("work", "--port", first.port, TWO)
        self.ends(worker, 10, MODEL, "a worker")
        self.ends(first.process, 10, MODEL, "its coordinator")

    def test_peers(self) -> None:
        """One that sends anything but Idle of a worker is closed, a silent one holds nobody up, and
        one of two has a number: all in one run, which ends as if they were not there."""
        coordinator = self.serve("--workers", 2, "-n", TWO)
        port = coordinator.port
        for what, data in (("garbage", b"garbage\n"), ("a worker that there is not", idle(3, 1)),
                           ("a frame that is not Idle", b"CC\x09\x00\x00")):
            self.is_closed(port, data, what)
        self.peer(port).close()
        self.peer(port)  # silent up to the end
        self.peer(port).sendall(idle(1, 1)[:5])  # silent behind half of a frame
        self.have_a_number_in_turn(port)
        worker = self.work(port, 2, "-n", TWO)
        self.ends(worker, 10, SATISFIABLE, "the worker beside silent peers")
        self.ends(coordinator.process, 10, SATISFIABLE, "the coordinator beside silent peers")

    def is_closed(self, port: int, data: bytes, what: str) -> None:
        with self.peer(port) as peer:
            try:
                peer.sendall(data)
                time.sleep(0.05)
                found = peer.recv(1)
            except (ConnectionResetError, BrokenPipeError):
                found = b""
        self.assertEqual(b"", found, what)

    def have_a_number_in_turn(self, port: int) -> None:
        """A worker whose frame comes in two pieces gets a task; another of its number waits until
        the first one has gone."""
        first, second = self.peer(port), self.peer(port)
        first.sendall(idle(1, 7)[:5])
        time.sleep(0.05)
        first.sendall(idle(1, 7)[5:])
        self.assertEqual(TASK, first.recv(3))
        second.sendall(idle(1, 2**64 - 1))
        second.settimeout(0.5)
        with self.assertRaises(socket.timeout):
            second.recv(3)
        second.settimeout(SECONDS)
        first.close()
        self.assertEqual(TASK, second.recv(3))
        second.close()

    def test_peer_that_reads_nothing(self) -> None:
        """It asks for the evidence again and again: it is hung up, and the run ends."""
        coordinator = self.serve("--workers", 2, "--depth", 0, "--limit", 1000000000,
                                 self.long_formula(), "served.lrat")
        worker = self.start("work", "--port", coordinator.port, PIGEONS)
        self.wait_for_links(coordinator, 1)
        peer = self.peer_with_verdict(coordinator.port)
        try:
            while True:
                peer.sendall(want(2, 0) * 100)
        except socket.timeout:
            self.fail("a peer that reads nothing is not hung up")
        except OSError:
            pass
        for process in (worker, coordinator.process):
            self.ends(process, 20, UNSATISFIABLE, process.args)
        self.verifies(PIGEONS, "served.lrat")

    def peer_with_verdict(self, port: int) -> socket.socket:
        """A peer of little room that has been told the verdict. If it is heard before the worker it
        gets the worker's task, which it gives back as it goes."""
        while True:
            peer = socket.socket()
            self.addCleanup(peer.close)
            peer.setsockopt(socket.SOL_SOCKET, socket.SO_RCVBUF, 4096)
            peer.settimeout(SECONDS)
            peer.connect(("127.0.0.1", port))
            peer.sendall(idle(2, 1))
            found = peer.recv(3)
            if found != TASK:
                self.assertEqual(VERDICT, found)
                return peer
            peer.close()


class Patience(Case):
    def test_nobody_comes(self) -> None:
        coordinator = self.serve("--workers", 1, "--patience", 1, TWO)
        self.ends(coordinator.process, 0, UNKNOWN, "a coordinator that nobody comes to")

    def test_silent_worker(self) -> None:
        """It loses its leaf to one that is free."""
        coordinator = self.serve("--workers", 2, "--depth", 0, "--patience", 1, "-n", TWO)
        silent = self.peer(coordinator.port)
        silent.sendall(idle(1, 1))
        self.assertEqual(TASK, silent.recv(3))
        worker = self.work(coordinator.port, 2, "-n", TWO)
        self.ends(worker, 10, SATISFIABLE, "a worker beside a silent one")
        self.ends(coordinator.process, 10, SATISFIABLE, "the coordinator of a silent worker")


class Runs(Case):
    def test_one_process(self) -> None:
        """Three workers in one process."""
        Case.holes = self.solve_longer_and_longer()
        self.verifies(PIGEONS, "solved.lrat")

    def test_progress(self) -> None:
        """It is told once a second, on standard error alone."""
        for holes in range(7, 13):
            self.write(PIGEONS, pigeons(holes))
            process = self.start("solve", "--depth", 5, "--progress", PIGEONS)
            out, err = process.communicate(timeout=SECONDS)
            self.assertEqual((20, UNSATISFIABLE), (process.returncode, out.decode()))
            if err:  # it has taken a second
                break
        self.assertNotEqual(b"", err)
        for line in err.decode().splitlines():
            self.assertRegex(line, PROGRESS)

    def test_rounds(self) -> None:
        """The coordinator begins when all workers are there, and takes them in turns."""
        coordinator = self.serve("--rounds", "--workers", 2, "--depth", 3, self.long_formula(),
                                 "rounds.lrat")
        early = self.work(coordinator.port, 1, "--ahead", PIGEONS)
        self.wait_for_links(coordinator, 1)
        self.go_on(0.2, coordinator.process, early)
        late = self.work(coordinator.port, 2, "--ahead", PIGEONS)
        for process in (early, late, coordinator.process):
            self.ends(process, 20, UNSATISFIABLE, process.args)
        self.verifies(PIGEONS, "rounds.lrat")

    def test_many_workers(self) -> None:
        """As many as there may be."""
        coordinator = self.serve("--workers", 64, "--depth", 7, self.long_formula(), "served.lrat")
        workers = [self.work(coordinator.port, 1 + at, PIGEONS) for at in range(64)]
        self.ends(coordinator.process, 20, UNSATISFIABLE, "the coordinator of 64")
        for worker in workers:
            self.ends_late(worker)
        self.verifies(PIGEONS, "served.lrat")

    def test_model_with_a_definition(self) -> None:
        """It shows no variable that is defined."""
        self.write("same.cnf", dimacs(2, [[1, -2], [-1, 2]]))
        process = self.start("solve", "--workers", 1, "--depth", 1, "--defs", 1, "same.cnf")
        self.ends(process, 10, "s SATISFIABLE\nv -1 -2 0\n", "solve --defs")

    def test_proof_with_definitions(self) -> None:
        """It begins with them: with the first variable behind the formula's."""
        self.write("few.cnf", pigeons(4))
        coordinator = self.serve("--workers", 2, "--defs", 64, "few.cnf", "defined.lrat")
        workers = [self.work(coordinator.port, number, "--ahead", "--defs", 64, "few.cnf")
                   for number in (1, 2)]
        self.ends(coordinator.process, 20, UNSATISFIABLE, "the coordinator")
        for worker in workers:  # it is not waited for if the other one has the verdict
            self.ends_late(worker)
        with self.at("defined.lrat").open() as proof:
            self.assertEqual("21", next(proof).split()[1])
        self.verifies("few.cnf", "defined.lrat")


class Kills(Case):
    def setUp(self) -> None:
        super().setUp()
        self.kills = int(os.environ.get("KILLS", 10))
        self.draw = random.Random(int(os.environ.get("SEED", 1)))

    def test_workers(self) -> None:
        """They are killed and come back, beside peers that flood and one with another formula."""
        kills = 0
        while kills < self.kills:
            kills += self.run_with_kills(self.kills - kills)

    def run_with_kills(self, most: int) -> int:
        """How often one of two workers was killed, and came back, until the run was decided."""
        coordinator = self.serve("--workers", 4, "--depth", 5, self.long_formula(), "served.lrat")
        flooding = threading.Thread(target=flood, args=[coordinator], daemon=True)
        flooding.start()
        other = self.work(coordinator.port, 3, TWO)
        workers = {number: self.work(coordinator.port, number, PIGEONS) for number in (1, 2)}
        self.ends(other, 0, UNKNOWN, "a worker of another formula")
        kills = 0
        while coordinator.process.poll() is None and kills < most:
            time.sleep(self.draw.uniform(0.02, 0.2))
            number = self.draw.choice((1, 2))
            kill(workers[number])
            kills += 1
            workers[number] = self.work(coordinator.port, number, "--incarnation", 1 + kills,
                                        PIGEONS)
        self.ends(coordinator.process, 20, UNSATISFIABLE, "the coordinator")
        for worker in workers.values():
            worker.communicate(timeout=SECONDS)
        flooding.join(SECONDS)
        self.verifies(PIGEONS, "served.lrat")
        return kills

    def test_worker_whose_place_is_taken(self) -> None:
        """One that comes in the place of a killed one goes on in the same run."""
        coordinator = self.serve("--workers", 2, "--depth", 3, self.long_formula(), "served.lrat")
        first = self.work(coordinator.port, 1, PIGEONS)
        second = self.work(coordinator.port, 2, PIGEONS, "worked.lrat")
        self.wait_for_links(coordinator, 2)
        self.go_on(0.2, coordinator.process, first, second)
        kill(first)
        late = self.work(coordinator.port, 1, "--incarnation", 2, PIGEONS)
        for process in (second, late, coordinator.process):
            self.ends(process, 20, UNSATISFIABLE, process.args)
        self.verifies(PIGEONS, "served.lrat")
        self.verifies(PIGEONS, "worked.lrat")

    def test_coordinator(self) -> None:
        """Its workers hold no verdict then, and its PROOF is as it was."""
        self.long_formula()
        for _ in range(max(1, self.kills // 10)):
            self.write("stood.lrat", "what stood\n")
            coordinator = self.serve("--workers", 2, PIGEONS, "stood.lrat")
            workers = [self.work(coordinator.port, number, PIGEONS) for number in (1, 2)]
            self.wait_for_links(coordinator, 2)
            self.go_on(self.draw.uniform(0, 0.4), coordinator.process, *workers)
            kill(coordinator.process)
            for worker in workers:
                self.ends(worker, 0, UNKNOWN, "a worker of a killed coordinator")
            self.assertEqual("what stood\n", self.at("stood.lrat").read_text())


def flood(coordinator: Coordinator) -> None:
    """Sends that a worker has nothing to do, again and again, as long as the coordinator runs."""
    while coordinator.process.poll() is None:
        try:
            with socket.create_connection(("127.0.0.1", coordinator.port), timeout=1) as peer:
                for _ in range(1000):
                    peer.sendall(idle(4, 7) * 100)
        except OSError:
            time.sleep(0.01)


if __name__ == "__main__":
    run(__doc__)
