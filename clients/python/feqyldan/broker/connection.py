"""A program's connection to the broker."""

import argparse
import socket
from typing import TYPE_CHECKING, Any, List, Optional, Set

from ..service.admission import Owner
from ..service.descriptors import Descriptors
from ..service.events import READ, WRITE
from .incoming import AHEAD, CHUNK, Incoming, Total
from .memory import PAGES, Memory, with_reserve

if TYPE_CHECKING:
    from .server import Server


# The most bytes of replies that are joined while they wait. Otherwise the objects of many short
# replies take far more memory than their bytes.
JOINED = 4096
# The limits of the broker: what its command line says.
Limits = argparse.Namespace


class Turn:
    """The requests of one connection that its server works on, see incoming.Requests, or without
    any the release of the connection's contexts; and what comes of them: the replies and their
    number, the codes of the refusals, the seconds, and the fault if there was one."""

    __slots__ = ("connection", "began", "front", "memory", "is_quick", "replies", "count",
                 "refusals", "seconds", "fault")

    def __init__(self, connection: "Connection", began: float, front: bytes = b"",
                 memory: Optional[Memory] = None, is_quick: bool = False) -> None:
        self.connection, self.began = connection, began
        self.front, self.memory, self.is_quick = front, memory, is_quick
        self.replies, self.count, self.seconds = memoryview(b""), 0, 0.0
        self.refusals: List[int] = []
        self.fault: Optional[Exception] = None


class Connection:
    """One program's connection, from when it is accepted until its contexts are released."""

    __slots__ = ("sock", "number", "owner", "limits", "total", "incoming", "outgoing", "left",
                 "sent", "server", "link", "clients", "turn", "place", "used", "took", "reads",
                 "is_open", "is_leaving", "interest", "received_at", "taken_at", "served_at")

    def __init__(self, sock: socket.socket, number: int, owner: Owner, limits: Limits, total: Total,
                 descriptors: Descriptors, now: float) -> None:
        self.sock, self.number, self.owner, self.limits = sock, number, owner, limits
        self.total = total
        self.incoming = Incoming(limits.bytes_held, total, descriptors)
        # The replies that aren't sent yet, how many bytes of them are left, and how many of the
        # first one were sent.
        self.outgoing: List[memoryview] = []
        self.left, self.sent = 0, 0
        # The connection's server, after the first request; what the server calls the connection,
        # and the clients whose contexts it has; and the turn in progress.
        self.server: Optional["Server"] = None
        self.link: Optional[int] = None
        self.clients: Set[int] = set()
        self.turn: Optional[Turn] = None
        # The place in the line for the next turn.
        self.place: Any = None
        # Seconds of the server's time: used in all, and by the last turn.
        self.used, self.took = 0.0, 0.0
        # Whether the connection may send more; whether it is open; whether its contexts are being
        # released.
        self.reads, self.is_open, self.is_leaving = True, True, False
        # The events that it is watched for.
        self.interest = 0
        # When it last sent a byte that was awaited, when it last took a byte that was waiting, and
        # when it was last served.
        self.received_at = self.taken_at = self.served_at = now

    def __str__(self) -> str:
        return f"connection {self.number} of {self.owner}"

    # ---- what it sends

    def wanted(self) -> int:
        """Returns the events to watch for. The connection isn't read while the server has a long
        frame of it, so that it never has two."""
        is_held_up = self.turn is not None and self.turn.memory is not None
        reads = self.reads and not is_held_up and self.incoming.has_room
        return (READ if reads else 0) | (WRITE if self.outgoing else 0)

    def next_turn(self, turn_bytes: int, now: float) -> Turn:
        """Returns the next requests. After the connection's end that is the release of its
        contexts."""
        if self.is_leaving:
            return Turn(self, now)
        return Turn(self, now, *self.incoming.take(turn_bytes))

    def may_ask(self) -> bool:
        return self.incoming.is_whole and self.turn is None and self.left <= AHEAD

    def has_finished(self) -> bool:
        """Returns whether the connection sends no more, and has all of its replies."""
        return not (self.reads or self.turn or self.outgoing or self.incoming.is_whole)

    def fault(self) -> Optional[str]:
        """Returns in words what is wrong with the bytes that came last; None if nothing is."""
        is_cut_short = not self.reads and self.incoming.has_part
        return self.incoming.fault or ("it ended within a frame" if is_cut_short else None)

    # ---- replies to it

    def send(self, data: memoryview, now: float) -> int:
        """Sends data, and returns how many bytes the connection took."""
        try:
            sent = self.sock.send(data)
        except BlockingIOError:
            return 0
        self.taken_at = now
        return sent

    def let_wait(self, reply: memoryview, sent: int, now: float) -> None:
        """Keeps a reply of which so many bytes were sent until the connection takes it. Raises
        TotalReached if too many bytes would wait for all connections together."""
        self.total.look_for(len(reply))
        self.taken_at = self.taken_at if self.outgoing else now
        if self.outgoing and len(self.outgoing[-1]) + len(reply) <= JOINED:
            both = self.outgoing[-1], reply
            self.outgoing[-1] = memoryview(with_reserve(b"".join, both))
        else:
            with_reserve(self.outgoing.append, reply)
        self.total.take(len(reply))
        self.left += len(reply) - sent
        self.sent += sent

    def send_waiting(self, now: float) -> None:
        first = self.outgoing[0]
        sent = self.send(first[self.sent : self.sent + CHUNK], now)
        self.sent, self.left = self.sent + sent, self.left - sent
        if self.sent == len(first):
            PAGES.give(self.outgoing.pop(0).obj)
            self.sent = 0
            self.total.give(len(first))

    # ---- the clock

    def stall(self, now: float) -> Optional[str]:
        """Returns in words what the connection has delayed for too long; None if nothing."""
        patience, idle = self.limits.patience, self.limits.idle
        if self.outgoing and now - self.taken_at > patience:
            return (f"it took none of its {self.left} bytes of replies for {patience:g} s "
                    "(--patience)")
        if self.interest & READ and self.incoming.has_part and now - self.received_at > patience:
            return f"it sent nothing of the rest of a frame for {patience:g} s (--patience)"
        if idle is not None and self.is_idle() and now - self.served_at > idle:
            return f"it asked nothing for {idle:g} s (--idle)"
        return None

    def is_idle(self) -> bool:
        return self.turn is None and not self.outgoing and not self.incoming.is_whole

    @property
    def bytes_held(self) -> int:
        """The connection's share of the bytes held for all connections."""
        return self.incoming.taken + sum(map(len, self.outgoing))

    def clear(self) -> None:
        self.total.give(sum(map(len, self.outgoing)))
        self.outgoing.clear()
        self.incoming.clear()
