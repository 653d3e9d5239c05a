"""TCP ports of 127.0.0.1: a free one, and the sockets that are at one."""
import socket
from pathlib import Path

LISTENS, LINKED = "0A", "01"  # states of a socket, as /proc/net/tcp has them


def free_port() -> int:
    with socket.socket() as listener:
        listener.bind(("127.0.0.1", 0))
        return listener.getsockname()[1]


def sockets_at(port: int, state: str) -> int:
    """How many sockets at this port are in this state.

    A coordinator may wait for one worker alone: a connection that only looks whether it listens
    would take the worker's turn.
    """
    rows = [line.split() for line in Path("/proc/net/tcp").read_text().splitlines()[1:]]
    return sum(row[1] == "0100007F:%04X" % port and row[3] == state for row in rows)
