"""Admission: limits on the connections of each process and of each user."""

import contextlib
import socket
from collections import Counter
from typing import NamedTuple, Optional, Set, Tuple

from .descriptors import Descriptors
from .events import Events
from .lines import Lines
from .listener import Listener
from .peers import Ranges, peer_of
from .visitors import turned_away

# The seconds until the next try after the system had no resources for a connection.
ACCEPT_PAUSE = 1.0
# Connections that wait to be accepted. Further ones wait in connect(), and get their turns one by
# one. So a program that connects again and again delays another one by this many connections.
WAITING = 128
# The most processes that are remembered as turned away. If there are more, all are forgotten.
MOST_TOLD = 10_000


class Owner(NamedTuple):
    """The process that made a connection, its user, and the user for whom it counts: the one in
    whose range of users its user is."""

    process: int
    user: int
    counted: int

    def __str__(self) -> str:
        return f"process {self.process} of user {self.user}"

    @property
    def key(self) -> Tuple[int, int]:
        """What the connections of its process are counted by."""
        return self.process, self.counted


class Accepted:
    """Counts of the connections that were accepted and turned away, and other counts."""

    def __init__(self) -> None:
        self.accepted = self.turned_away = 0

    def told(self) -> Tuple[float, ...]:
        """Returns all counts."""
        raise NotImplementedError

    def as_words(self, before: Tuple[float, ...]) -> str:
        """Returns in words what has happened since the counts were `before`."""
        raise NotImplementedError


class Admission:
    """Accepts connections, and counts those of each process and of each user."""

    def __init__(self, per_process: int, per_user: int, counts: Accepted, lines: Lines,
                 events: Events, descriptors: Descriptors) -> None:
        self.per_process, self.per_user, self.counts = per_process, per_user, counts
        self.lines, self.events, self.descriptors = lines, events, descriptors
        self.ranges = Ranges()
        # A process may be several users of its user's range.
        self.processes: "Counter[Tuple[int, int]]" = Counter()
        self.users: "Counter[int]" = Counter()
        # The processes that were turned away since the last report. Only the first time is logged.
        self.told: Set[Owner] = set()
        self.turned_away = turned_away(events, descriptors)

    def accept(self, listener: Listener) -> Optional[socket.socket]:
        """Accepts the next connection; None if nobody waits. Raises OSError if the system has no
        resources for it."""
        with contextlib.suppress(BlockingIOError):
            return self.descriptors.accept(listener.sock, self.events.take)
        return None

    def owner_of(self, sock: socket.socket) -> Owner:
        peer = peer_of(sock)
        return Owner(peer.process, peer.user, self.ranges.owner_of(peer.user))

    def reason_against(self, owner: Owner) -> Optional[str]:
        """Returns in words why a process gets no connection; None if it gets one."""
        if self.processes[owner.key] >= self.per_process:
            return f"it has {self.processes[owner.key]} connections, the limit (--per-process)"
        if self.users[owner.counted] >= self.per_user:
            return f"its user has {self.users[owner.counted]} connections, the limit (--per-user)"
        return None

    def let_in(self, owner: Owner) -> None:
        # The entries first: if there is no memory for one, nothing is counted.
        self.processes[owner.key] += 0
        self.users[owner.counted] += 0
        self.counts.accepted += 1
        self.processes[owner.key] += 1
        self.users[owner.counted] += 1

    def let_out(self, owner: Owner) -> None:
        self.processes[owner.key] -= 1
        self.users[owner.counted] -= 1
        if not self.processes[owner.key]:
            del self.processes[owner.key]
        if not self.users[owner.counted]:
            del self.users[owner.counted]

    def turn_away(self, sock: socket.socket, owner: Owner, reason: str) -> None:
        if owner not in self.told:
            if len(self.told) >= MOST_TOLD:
                self.told.clear()
            self.told.add(owner)
            self.lines.say_of(owner.counted, f"{owner} is turned away: {reason}")
        self.turned_away.add(sock, owner.counted)
        self.counts.turned_away += 1

    @property
    def present(self) -> int:
        return sum(self.processes.values())
