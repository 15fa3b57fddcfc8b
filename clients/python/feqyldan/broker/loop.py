"""The loop over the connections, the turns of the servers, new connections and signals."""

import os
import signal
import socket
import time
from collections import deque
from contextlib import suppress
from functools import partial
from typing import Any, Deque, Dict, List, Optional, Set

from ..service.admission import Owner
from ..service.descriptors import SentDescriptors
from ..service.events import READ, WRITE
from ..service.front import Front
from ..service.lines import Unusable
from ..service.listener import Listener
from ..service.metrics import memory_of
from ..service.signals import Signals
from .connection import Connection, Limits, Turn
from .counts import Counts, as_metrics
from .incoming import CHUNK, SHARED_TURN_BYTES, TURN_BYTES, Total, TotalReached
from .memory import PAGES, RESERVE, with_reserve
from .server import Library, ReplyTooLong, Server

# Seconds between two checks of the clock: while the broker stops, and while a turn is put off.
STOP_LOOKS, PUT_OFF_LOOKS = 0.1, 0.001
# The most turns of a server that begin before other events are looked for.
TURNS_AT_ONCE = 8
# Why a connection is ended.
MOST_ARE_HELD = "no more are held (--total-held)"
NO_MEMORY = "the broker has no memory for its {} (--memory)"


class Broker(Front):
    """The broker: its connections and servers, and the events that they wait for."""

    def __init__(self, listener: Listener, status: Optional[Listener], libraries: List[Library],
                 limits: Limits) -> None:
        self.limits, self.counts, self.total = limits, Counts(), Total(limits.total_held)
        # The connections of each process and each user include those whose contexts are being
        # released.
        super().__init__("broker", listener, status, self.counts, limits, as_metrics)
        self.events.take = with_reserve
        self.open: Set[Connection] = set()
        self.releasing = self.peak = 0
        self.look_seconds: float = min(self.manager.look_seconds, limits.patience / 4,
                                       limits.report)
        self.looked_at = self.now
        # The turns that the servers' threads have served, and the pipe by which they wake the loop.
        self.done: Deque[Turn] = deque()
        self.bell, ringer = os.pipe2(os.O_NONBLOCK | os.O_CLOEXEC)
        self.events.watch(self.bell, READ, self.hear)

        def ring() -> None:
            # A pipe that is full of rings wakes the loop too.
            with suppress(BlockingIOError):
                os.write(ringer, b"\0")

        try:
            self.servers = [Server(library, limits, self.done, ring) for library in libraries]
        except RuntimeError as error:
            self.close()
            raise Unusable(f"can't start a thread for each of {len(libraries)} servers: {error}. "
                           "Start fewer servers (--servers), or allow more memory (ulimit -v) or "
                           "threads (ulimit -u)") from error
        self.is_over = False
        # The seconds until the next turn may begin; None if that needs an event.
        self.soon: Optional[float] = None
        # When the broker stops waiting for replies and servers; None until it is told to end.
        self.stops_at: Optional[float] = None
        self.was_told_twice = False
        self.signals = Signals(self.events, self.take_signals)

    # ---- the loop

    def run(self) -> None:
        """Serves until a signal comes. Raises the fault of a server's thread, if there is one."""
        servers = "1 server" if len(self.servers) == 1 else f"{len(self.servers)} servers"
        try:
            with self.signals:
                self.lines.say(f"listening at {self.listener.path}, with {servers}")
                self.manager.is_listening()
                while not self.is_over:
                    try:
                        self.go_round()
                    except MemoryError:
                        self.try_again()
        finally:
            self.finish()

    def try_again(self) -> None:
        """Goes round with the reserve of memory. Events that weren't handled come again."""
        self.soon = 0.0
        try:
            with RESERVE:
                self.go_round()
        except MemoryError:
            self.end_greatest(NO_MEMORY.format("work"))

    def go_round(self) -> None:
        """Handles all events that are ready, or waits for one."""
        self.listen_or_not()
        ready = self.events.ready(self.timeout())
        self.now = time.monotonic()
        for handler, mask in ready:
            handler(mask)
        while self.done:
            self.complete(self.done.popleft())
        for server in self.servers:
            if server.line.places:
                self.begin_turns(server)
        self.look_at_clock()

    def timeout(self) -> Optional[float]:
        """Returns the seconds until the clock must be checked; None if nothing has a deadline."""
        soon, self.soon = self.soon, None
        if self.done or soon is not None:
            return 0.0 if self.done else soon
        if self.open or self.stops_at is not None:
            return self.look_seconds
        has_visitors = self.status or self.descriptors.left or self.admission.turned_away.present
        may_sleep = self.is_listening and not (has_visitors or self.has_news())
        return None if may_sleep and self.manager.pause is None else self.look_seconds

    # ---- new connections

    def may_listen(self) -> bool:
        """Returns whether new connections are accepted or turned away now. They wait while the
        contexts of one are being released, if there are as many as allowed."""
        is_full = len(self.open) + self.releasing >= self.limits.connections
        return self.stops_at is None and not (is_full and self.releasing)

    def begin(self, sock: socket.socket, owner: Owner) -> None:
        sock.setblocking(False)
        connection = Connection(sock, self.counts.accepted, owner, self.limits, self.total,
                                self.descriptors, self.now)
        self.admission.let_in(owner)
        try:
            with_reserve(self.open.add, connection)
            with_reserve(self.watch, connection)
        except MemoryError:
            self.end(connection, NO_MEMORY.format("connection"))

    def reason_against(self, owner: Owner) -> Optional[str]:
        if len(self.open) >= self.limits.connections:
            return f"all have {len(self.open)} connections, the limit (--connections)"
        return self.admission.reason_against(owner)

    # ---- connections

    def serve(self, connection: Connection, mask: int) -> None:
        """Reads from and writes to a connection that is ready."""
        if not connection.is_open:
            return
        try:
            if mask & WRITE and connection.outgoing:
                connection.send_waiting(self.now)
            if mask & READ and connection.interest & READ:
                self.receive(connection)
        except BlockingIOError:
            pass
        except SentDescriptors as reason:
            self.end(connection, str(reason))
        except OSError:
            connection.reads = False
            self.end(connection, connection.fault())
        except TotalReached:
            # The bytes come again.
            self.end_greatest(MOST_ARE_HELD, connection, connection.incoming.announced)
        except MemoryError:
            # Bytes that were read may be lost.
            self.end(connection, NO_MEMORY.format("frame"))
        try:
            if connection.is_open:
                with_reserve(self.settle, connection)
        except MemoryError:
            self.end(connection, NO_MEMORY.format("turn"))

    def end_greatest(self, why: str, growing: Optional[Connection] = None, more: int = 0) -> None:
        """Ends the connection that would hold the most bytes, if `growing` held `more` bytes."""
        def held(one: Connection) -> int:
            return one.bytes_held + more * (one is growing)

        greatest = max(self.open, key=held, default=None)
        if greatest is not None:
            self.end(greatest, f"its frames and replies need {held(greatest)} bytes, the most of "
                               f"{self.total.bytes + more} in all, and {why}")

    def receive(self, connection: Connection) -> None:
        if connection.incoming.receive(connection.sock):
            connection.received_at = self.now
            return
        connection.reads = False
        # Fails if the connection is closed in both directions: then nobody waits for replies.
        connection.sock.send(b"")

    def settle(self, connection: Connection) -> None:
        """Puts a connection in line for its next turn, or ends it if it has finished, and watches
        it for the next events. Replies to frames that came before its end, or before a length out
        of range, are still sent."""
        if connection.may_ask() and self.stops_at is None:
            (connection.server or self.server_for(connection)).line.add(connection)
        if connection.incoming.fault:
            connection.reads = False
        if not connection.reads and connection.has_finished():
            self.end(connection, connection.fault())
        else:
            self.watch(connection)

    def server_for(self, connection: Connection) -> Server:
        """Gives a new connection to the server with the fewest connections. One that has worked on
        a turn for longer than the patience is chosen last."""
        server = min(self.servers, key=lambda server: (
            server.seconds_at_turn(self.now) > self.limits.patience, len(server.members)))
        server.add(connection)
        return server

    def watch(self, connection: Connection) -> None:
        wanted = connection.wanted()
        if wanted == connection.interest:
            return
        if wanted & READ and not connection.interest & READ:
            connection.received_at = self.now
        try:
            self.events.watch(connection.sock.fileno(), wanted, partial(self.serve, connection))
            connection.interest = wanted
        except OSError as error:
            self.end(connection, f"it can't be watched: {error}")

    def end(self, connection: Connection, words: Optional[str] = None) -> None:
        """Closes a connection. Its contexts are released once its turn has ended."""
        if not connection.is_open:
            return
        if words:
            self.lines.say_of(connection.owner.counted, f"{connection} is ended: {words}")
        connection.is_open = connection.reads = False
        self.open.discard(connection)
        self.releasing += 1
        self.events.forget(connection.sock.fileno())
        connection.interest = 0
        self.descriptors.close(connection.sock)
        connection.clear()
        if connection.turn is None:
            self.release(connection)

    def release(self, connection: Connection) -> None:
        """Puts a connection that has ended in line for the release of its contexts."""
        server = connection.server
        if server is not None and connection.link is not None and self.stops_at is None:
            connection.is_leaving = True
            server.line.add(connection)
        else:
            self.forget(connection)

    def forget(self, connection: Connection) -> None:
        """Forgets a connection that has no contexts any more."""
        self.releasing -= 1
        self.admission.let_out(connection.owner)
        if connection.server is not None:
            connection.server.line.forget(connection)
            connection.server.members.discard(connection)

    # ---- turns

    def begin_turns(self, server: Server) -> None:
        """Begins the next turns of a server, until it has one that isn't served at once."""
        for _ in range(TURNS_AT_ONCE):
            if server.turn is None and server.line.places:
                self.begin_turn(server)

    def begin_turn(self, server: Server) -> None:
        """Begins the next turn of a server that has none, unless it is put off."""
        if server.puts_off(self.now):
            self.soon = PUT_OFF_LOOKS if self.soon is None else self.soon
            return
        connection = server.line.take()
        try:
            turn = connection.next_turn(SHARED_TURN_BYTES if server.line.places else TURN_BYTES,
                                        self.now)
            self.counts.bytes_in += len(turn.memory or turn.front)
            is_served = server.begin(turn)
        except MemoryError:
            self.end(connection, NO_MEMORY.format("requests"))
            if connection.is_leaving:
                server.line.add(connection)
            return
        if is_served:
            self.complete(turn)
            self.soon = 0.0 if server.line.places else self.soon
        elif connection.is_open:
            self.watch(connection)

    def hear(self, _mask: int) -> None:
        os.read(self.bell, 64)

    def complete(self, turn: Turn) -> None:
        """Handles the end of a turn. Raises the fault of a call that has no reason to fail."""
        connection, fault = turn.connection, turn.fault
        assert connection.server is not None
        try:
            connection.server.end(turn, self.now)
            self.counts.note(turn)
            PAGES.give(turn.memory)
            if fault is not None and not isinstance(fault, (MemoryError, ReplyTooLong)):
                raise fault
            if connection.is_leaving and fault is None:
                self.forget(connection)
            elif not connection.is_open:
                self.release(connection)
            elif fault is None:
                self.deliver(connection, turn.replies)
            else:
                self.end(connection, str(fault) or NO_MEMORY.format("replies"))
        except MemoryError:
            if connection.is_open:
                self.end(connection, NO_MEMORY.format("replies"))
            else:
                self.release(connection)

    def deliver(self, connection: Connection, replies: memoryview) -> None:
        """Sends replies, and keeps what the connection doesn't take now. If too many bytes would
        wait for all connections together, first ends those that hold the most."""
        self.counts.bytes_out += len(replies)
        try:
            sent = 0 if connection.outgoing else connection.send(replies[:CHUNK], self.now)
        except OSError:
            self.end(connection)
            return
        is_kept = sent == len(replies)
        if is_kept:
            PAGES.give(replies.obj)
        while connection.is_open and not is_kept:
            try:
                connection.let_wait(replies, sent, self.now)
                is_kept = True
            except TotalReached:
                self.end_greatest(MOST_ARE_HELD, connection, len(replies))
        if connection.is_open:
            self.settle(connection)

    # ---- the clock, and the end

    def look_at_clock(self) -> None:
        if self.stops_at is not None:
            self.is_over = self.now > self.stops_at or not (self.is_serving or any(
                connection.outgoing for connection in self.open))
        late = self.now - self.looked_at - self.look_seconds
        if late < 0:
            return
        self.looked_at = self.now
        self.manager.is_alive()
        self.end_late_visitors()
        # If the broker itself had no time, it may not have moved bytes that have come.
        if late < self.look_seconds:
            self.end_stalled()
        self.report(len(self.open))

    def end_stalled(self) -> None:
        for connection in [*self.open]:
            words = connection.stall(self.now)
            if words:
                self.end(connection, words)

    def state(self) -> Dict[str, Any]:
        counts = self.counts
        memory, self.peak = memory_of(os.getpid(), self.peak)
        return {
            "uptime_seconds": round(self.now - self.began_at, 3),
            "connections": {
                "open": len(self.open), "releasing": self.releasing,
                "accepted": counts.accepted, "turned_away": counts.turned_away},
            "requests": counts.requests, "bytes_in": counts.bytes_in, "bytes_out": counts.bytes_out,
            "bytes_held": self.total.bytes, "refusals": counts.refusals_by_name(),
            "longest_request_seconds": round(counts.longest, 6),
            "memory_bytes": memory, "peak_memory_bytes": self.peak,
            "servers": [
                {"server": k, "connections": len(server.members), "requests": server.requests,
                 "waiting": len(server.line.places),
                 "busy_seconds": round(server.seconds_at_turn(self.now), 6)}
                for k, server in enumerate(self.servers)]}

    def take_signals(self, _mask: int) -> None:
        for which in self.signals.taken():
            if which == signal.SIGCHLD:
                self.descriptors.reap()
            elif which == signal.SIGHUP:
                self.lines.say("SIGHUP changes nothing: a new library needs a new broker, as by "
                               "systemctl restart, and all connections end with the old one")
            elif self.stops_at is not None:
                # A second signal ends the waiting.
                self.was_told_twice, self.stops_at = True, self.now
            else:
                self.lines.say(f"ends because of {which.name}")
                self.stop()

    def stop(self) -> None:
        """Accepts nothing more. The turns in progress are still answered; other requests are
        dropped."""
        self.stops_at, self.look_seconds = self.now + self.limits.grace, STOP_LOOKS
        self.stop_listening()
        for server in self.servers:
            while server.line.places:
                server.line.take()
        for connection in [*self.open]:
            connection.reads = False
            connection.incoming.clear()
            self.settle(connection)

    @property
    def is_serving(self) -> bool:
        """Whether a server works on a turn."""
        return any(server.turn is not None for server in self.servers)

    def finish(self) -> None:
        """Ends the connections that are left."""
        if self.is_serving:
            self.lines.say("a request is given up: " + (
                "the broker was told twice to end" if self.was_told_twice else
                f"it takes longer than {self.limits.grace:g} s (--grace)"))
        for connection in [*self.open]:
            self.end(connection)
        self.close()
