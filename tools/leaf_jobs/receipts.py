"""Receipts of logs that are of no leaf's job, and receipts that are made anew (--recheck)."""
import shutil
from pathlib import Path
from typing import Dict, List, Optional, Tuple

from leaf_jobs.files import Folder, log_of
from leaf_jobs.leaf import Failed, Status, acknowledge
from leaf_jobs.processes import Process, kill, start
from leaf_jobs.run import Run

HEAD = 5  # lines of a receipt that tell which log it is of


class ReceiptJob:
    """Makes the receipt of a log that stands: the command that runs for it."""

    def __init__(self, run: Run, log: str) -> None:
        self.near = run.folder.at("scratch", "log." + Path(log).stem)
        self.near.mkdir()
        self.steps = acknowledge(run.folder, run.plan, run.tree, log, self.near)
        self.process: Optional[Process] = None
        self.why = ""  # no receipt was made
        self.next(None)

    def next(self, status: Status) -> None:
        try:
            self.process = start(self.steps.send(status))
        except StopIteration:
            self.end()
        except (Failed, OSError) as why:
            self.why = str(why)
            self.end()

    def ended(self) -> bool:
        while self.process:
            status = self.process.poll()
            if status is None:
                return False
            self.next(status)
        return True

    def end(self) -> None:
        if self.process:
            kill(self.process)
        self.process = None
        shutil.rmtree(str(self.near), ignore_errors=True)


def acknowledge_others(run: Run, jobs: int) -> None:
    """Makes the receipts of logs that are of no leaf of the tree: of leaves that were cut, and of
    the whole formula. A leaf's job makes that of its own log."""
    own, have = set(map(log_of, run.cubes)), set(run.folder.names("receipts"))
    waiting = [log for log in run.folder.names("logs")
               if log not in own and "receipts/" + Path(log).stem not in have]
    running: Dict[str, ReceiptJob] = {}
    try:
        while waiting or running:
            while waiting and len(running) < jobs:
                log = waiting.pop()
                running[log] = ReceiptJob(run, log)
            run.bell.wait(1)
            for log in [log for log, one in running.items() if one.ended()]:
                why = running.pop(log).why
                if why:
                    run.screen.say("c %s: %s" % (log, why))
    finally:
        for one in running.values():
            one.end()


def set_aside(folder: Folder) -> None:
    """Moves all receipts to `before`, so that they are made anew and can be compared."""
    take_back(folder)
    folder.at("receipts").rename(folder.at("before"))
    folder.at("receipts").mkdir()


def without_log(folder: Folder) -> Tuple[int, int]:
    """How many of the receipts that were set aside have no log, and how many there are."""
    names = [path.name for path in folder.at("before").iterdir()]
    return sum(not folder.has("logs/%s.lrat" % name) for name in names), len(names)


def take_back(folder: Folder) -> List[str]:
    """Moves the receipts of `before` back that were not made anew. Answers the names of those that
    were of another log than the new ones."""
    before, others = folder.at("before"), []
    if not before.exists():
        return []
    for path in sorted(before.iterdir()):
        anew = folder.at("receipts", path.name)
        if not anew.exists():
            path.rename(anew)
        elif head_of(anew) != head_of(path):
            others.append(path.name)
    shutil.rmtree(str(before))
    return others


def head_of(path: Path) -> List[bytes]:
    return path.read_bytes().split(b"\n")[:HEAD]
