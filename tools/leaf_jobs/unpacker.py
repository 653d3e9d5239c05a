"""Unpacks packed logs to FIFOs, which `join` reads one after the other: no unpacked log is written
to the disk.
"""
import os
from pathlib import Path
from typing import List, Optional

from leaf_jobs.files import Folder, packed
from leaf_jobs.processes import Command, Process, Word, kill, opens, start

# The shell's `open` of the FIFO waits for the one of `join`; then the shell becomes `zstd`.
UNPACK = 'exec zstd -q -dc "$0" > "$1"'


class Unpacker:
    """Unpacks one log at a time."""

    def __init__(self, folder: Folder) -> None:
        self.folder = folder
        self.process: Optional[Process] = None
        self.pipe = folder.path  # the FIFO, once there is one
        self.left: List[Path] = []  # FIFOs of processes that failed, maybe before they opened them

    def begin(self, log: str, name: str) -> None:
        """Unpacks a log to a new FIFO with this name."""
        self.pipe = self.folder.at(name)
        os.mkfifo(str(self.pipe))
        words: List[Word] = ["sh", "-c", UNPACK, packed(self.folder.at(log)), self.pipe]
        self.process = start(Command(words, self.folder.at("scratch", "unpacking")))

    def runs(self) -> bool:
        """Whether a log is being unpacked. A process that has failed may not have opened its FIFO,
        and `join` waits until a writer does: so the FIFO is opened and closed here, and `join`
        reads an empty log."""
        if self.process and self.process.poll() is not None:
            if self.process.returncode == 0:
                self.pipe.unlink()
            else:
                self.left.append(self.pipe)
            self.process = None
        self.left = [pipe for pipe in self.left if not opens(pipe)]
        return self.process is not None

    def end(self) -> None:
        if self.process:
            kill(self.process)
        self.process, self.left = None, []
