"""A server with a connection of its own."""

import contextlib
import os
import socket
import struct
from typing import Any, Dict, Tuple

from ..service.admission import Owner
from ..service.metrics import memory_of
from ..service.peers import peer_of
from .program import Plan, Program
from .starter import Starter

# Bytes of replies that a server may write ahead of the program, as far as the system allows it. The
# more, the less often the server wakes up.
SEND_BYTES = 1 << 20
TICKS = os.sysconf("SC_CLK_TCK")


def set_time(sock: socket.socket, option: int, seconds: float) -> None:
    # No time would mean without end.
    whole, microseconds = divmod(max(1, int(seconds * 1e6)), 1_000_000)
    sock.setsockopt(socket.SOL_SOCKET, option, struct.pack("@ll", whole, microseconds))


class Server:
    """The process of a server, and a copy of its connection. With the copy the door sees when the
    program leaves, and ends the server's input."""

    def __init__(self, sock: socket.socket, owner: Owner, program: Program, plan: Plan,
                 starter: Starter, now: float) -> None:
        self.sock, self.owner, self.began_at = sock, owner, now
        # Whether the program at the other end has left.
        self.has_left = False
        sock.setblocking(True)
        sock.setsockopt(socket.SOL_SOCKET, socket.SO_SNDBUF, SEND_BYTES)
        set_time(sock, socket.SO_SNDTIMEO, plan.patience)
        if plan.idle is not None:
            set_time(sock, socket.SO_RCVTIMEO, plan.idle)
        peer = peer_of(sock) if plan.is_of_peer else None
        self.number = starter.start(program, sock.fileno(), plan, peer)
        # 0 until the door knows it.
        self.process = self.peak = 0

    def __str__(self) -> str:
        return f"the server of process {self.process} for {self.owner}"

    def end_input(self) -> None:
        """Ends the server's input. The server still answers requests that were sent, and then
        ends."""
        with contextlib.suppress(OSError):
            self.sock.shutdown(socket.SHUT_RD)

    def state(self, now: float) -> Dict[str, Any]:
        memory, self.peak = memory_of(self.process, self.peak)
        bytes_in, bytes_out = bytes_of(self.process)
        return {
            "process": self.process, "of_process": self.owner.process, "of_user": self.owner.user,
            "seconds": round(now - self.began_at, 3),
            "processor_seconds": processor_seconds_of(self.process), "bytes_in": bytes_in,
            "bytes_out": bytes_out, "memory_bytes": memory, "peak_memory_bytes": self.peak}


def processor_seconds_of(process: int) -> float:
    """Returns the processor time of a process in seconds; 0 if it has ended."""
    with contextlib.suppress(OSError), open(f"/proc/{process}/stat", errors="replace") as file:
        words = file.read().rpartition(")")[2].split()
        return (int(words[11]) + int(words[12])) / TICKS
    return 0.0


def bytes_of(process: int) -> Tuple[int, int]:
    """Returns how many bytes a process has read and written; zeros if they aren't known."""
    with contextlib.suppress(OSError), open(f"/proc/{process}/io") as file:
        found = dict(line.split(": ") for line in file)
        return int(found["rchar"]), int(found["wchar"])
    return 0, 0
