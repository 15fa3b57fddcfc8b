"""The part of a door or a broker that programs and operators see. It listens, admits or turns away
connections, reports its state, and writes messages."""

import socket
import time
from typing import Any, Callable, Dict, Optional

from .admission import ACCEPT_PAUSE, WAITING, Accepted, Admission, Owner
from .descriptors import Descriptors
from .events import READ, Events
from .lines import Lines
from .listener import Listener
from .manager import Manager
from .visitors import StatusSocket


class Front:
    """The base class of the door and the broker, which define the methods at the end."""

    # Connections accepted before other events have their turn.
    accepted_at_once = 4

    def __init__(self, name: str, listener: Listener, status: Optional[Listener], counts: Accepted,
                 limits: Any, as_metrics: Callable[[Dict[str, Any]], str]) -> None:
        self.listener, self.report_seconds = listener, limits.report
        listener.sock.listen(WAITING)
        self.lines, self.events, self.manager = Lines(name), Events(), Manager()
        self.descriptors = Descriptors()
        self.admission = Admission(limits.per_process, limits.per_user, counts, self.lines,
                                   self.events, self.descriptors)
        self.now = self.began_at = time.monotonic()
        self.reported_at = self.accepts_from = self.now
        self.reported = counts.told()
        self.status = None if status is None else StatusSocket(
            status, self.events, self.descriptors, self.state, as_metrics, self.admission.ranges)
        self.is_listening = False

    def has_news(self) -> bool:
        """Returns whether something has happened that isn't reported yet."""
        return self.reported != self.admission.counts.told()

    # ---- new connections

    def listen_or_not(self) -> None:
        wanted = self.now >= self.accepts_from and self.may_listen()
        if wanted != self.is_listening:
            try:
                self.events.watch(self.listener.sock.fileno(), READ if wanted else 0, self.accept)
                self.is_listening = wanted
            except OSError as error:
                self.pause(error)

    def pause(self, error: OSError) -> None:
        """Lets connections wait, since the system has no resources for one."""
        self.lines.say(f"can't accept a connection: {error}; tries again in {ACCEPT_PAUSE:g} s")
        self.accepts_from = self.now + ACCEPT_PAUSE

    def accept(self, _mask: int) -> None:
        for _ in range(self.accepted_at_once if self.is_listening else 0):
            if not self.may_listen():
                return
            try:
                sock = self.admission.accept(self.listener)
            except OSError as error:
                self.pause(error)
                return
            if sock is None:
                return
            try:
                self.events.take(self.admit, sock)
            except MemoryError:
                self.descriptors.close(sock)
                self.lines.say("a connection is closed: there is no memory for it")

    def admit(self, sock: socket.socket) -> None:
        """Admits or turns away a new connection."""
        owner = self.admission.owner_of(sock)
        reason = self.reason_against(owner)
        if reason is None:
            self.begin(sock, owner)
        else:
            self.admission.turn_away(sock, owner, reason)

    # ---- the clock, and the end

    def end_late_visitors(self) -> None:
        self.admission.turned_away.end_late(self.now)
        if self.status:
            self.status.look_at_clock(self.now)
        self.descriptors.close_left()

    def report(self, connections: int) -> None:
        """Reports what has happened since the last report, at most once a minute by default."""
        if self.now - self.reported_at < self.report_seconds:
            return
        counts = self.admission.counts
        if self.has_news():
            self.lines.say(f"{connections} connections are open; in "
                           f"{self.now - self.reported_at:.0f} s {counts.as_words(self.reported)}")
        self.reported_at, self.reported = self.now, counts.told()
        self.admission.told.clear()
        self.lines.of_users.clear()

    def stop_listening(self) -> None:
        self.listen_or_not()
        self.listener.close(self.descriptors)
        self.admission.turned_away.end_all()

    def close(self) -> None:
        """Closes the open sockets."""
        self.listener.close(self.descriptors)
        self.admission.turned_away.end_all()
        if self.status:
            self.status.close()
        self.descriptors.close_left()
        self.events.close()

    # ---- for the door and the broker to define

    def may_listen(self) -> bool:
        """Returns whether new connections are admitted or turned away now; otherwise they wait."""
        raise NotImplementedError

    def reason_against(self, owner: Owner) -> Optional[str]:
        """Returns in words why a process gets no connection; None if it gets one."""
        raise NotImplementedError

    def begin(self, sock: socket.socket, owner: Owner) -> None:
        """Begins to serve a connection that was admitted."""
        raise NotImplementedError

    def state(self) -> Dict[str, Any]:
        """Returns the state for the status socket."""
        raise NotImplementedError
