"""The loop over new connections, ends of servers and signals."""

import select
import signal
import socket
import time
from functools import partial
from typing import Any, Dict, NamedTuple, Optional

from ..service.admission import Owner
from ..service.events import READ
from ..service.front import Front
from ..service.lines import Unusable
from ..service.listener import Listener
from ..service.signals import Signals
from .counts import LATE, USUAL, USUAL_ENDS, Counts, as_metrics, meaning_of
from .program import Plan, Program
from .server import Server
from .starter import Ended, Started, Starter
from .starting import NICE, set_nice
from .trial import Trial
from .waiting import Waiting

# The seconds in which killed servers have to end before the door ends without them, and between two
# looks whether they have.
KILL_SECONDS, KILL_LOOKS = 2.0, 0.01


class Limits(NamedTuple):
    """The limits of the door. Numbers of connections at the same time: in all, of one process, of
    one user. Seconds: for pending requests after the door is told to end, and between two reports
    of the counts."""

    connections: int
    per_process: int
    per_user: int
    grace: float
    report: float


def has_ended(sock: socket.socket) -> bool:
    """Returns whether the program at the other end of a connection has left."""
    poll = select.poll()
    poll.register(sock.fileno(), 0)
    return bool(poll.poll(0))


class Door(Front):
    """The door: its listening socket, and the servers, each with its connection."""

    # Accepting one takes about a tenth of the time of a start. So the users' turns are soon known.
    accepted_at_once = 32

    def __init__(self, listener: Listener, status: Optional[Listener], program: Program, plan: Plan,
                 limits: Limits) -> None:
        self.plan, self.limits, self.counts = plan, limits, Counts()
        # The program of new servers; and the one that takes its place if its trial succeeds.
        self.program = program
        self.trial: Optional[Trial] = None
        # The connections without a server so far, and the servers by their numbers.
        self.waiting = Waiting()
        self.servers: Dict[int, Server] = {}
        super().__init__("door", listener, status, self.counts, limits, as_metrics)
        # Only now, since it keeps the environment, from which the service manager's words are gone.
        try:
            self.starter = Starter()
        except Unusable:
            self.close()
            raise
        self.looked_at = self.now
        # When the door stops waiting for its servers; None until it is told to end.
        self.stops_at: Optional[float] = None
        self.was_told_twice = False
        self.signals = Signals(self.events, self.take_signals)
        self.events.watch(self.starter.sock.fileno(), READ, self.hear)

    # ---- the loop

    def run(self) -> int:
        """Serves until a signal comes, and returns the exit status. Raises Unusable if the program
        can't be started."""
        try:
            self.try_first()
            set_nice(NICE)
            with self.signals:
                memory = "" if self.plan.memory is None else f", of {self.plan.memory} bytes each"
                self.lines.say(f"listening at {self.listener.path}, with servers of "
                               f"{self.program.words[0]}{memory}")
                self.manager.is_listening()
                while self.stops_at is None or (self.servers and self.now < self.stops_at):
                    self.listen_or_not()
                    ready = self.events.ready(self.timeout())
                    self.now = time.monotonic()
                    for handler, mask in ready:
                        handler(mask)
                    if self.waiting:
                        self.start_next()
                        self.hear()
                    self.look_at_clock()
                self.kill_all()
        finally:
            self.close()
            self.starter.close()
        return 0

    def try_first(self) -> None:
        """Raises Unusable if the program isn't a server."""
        trial = Trial(self.program, self.plan, self.starter)
        end = trial.wait()
        if end is None:
            self.starter.kill(trial.number)
        fault = trial.fault(end)
        if fault:
            raise Unusable(fault)

    def timeout(self) -> Optional[float]:
        """Returns the seconds until the clock must be checked; None if nothing has a deadline."""
        if self.stops_at is not None:
            return max(0.0, min(self.manager.look_seconds, self.stops_at - self.now))
        if self.waiting:
            return 0.0
        is_quiet = not (self.status or self.admission.turned_away.present or self.trial
                        or self.descriptors.left)
        may_sleep = is_quiet and self.is_listening and not self.has_news()
        return None if may_sleep and self.manager.pause is None else self.manager.look_seconds

    # ---- connections

    def may_listen(self) -> bool:
        return self.stops_at is None

    @property
    def open(self) -> int:
        """Returns how many connections have a server or wait for one."""
        return len(self.servers) + len(self.waiting)

    def reason_against(self, owner: Owner) -> Optional[str]:
        count, memory, total = self.open, self.plan.memory, self.plan.total
        if count >= self.limits.connections:
            return f"all have {count} connections, the limit (--connections)"
        if memory is not None and total is not None and (count + 1) * memory > total:
            return (f"{count} servers may take {count * memory} bytes, and one more would exceed "
                    f"{total} (--total-memory)")
        return self.admission.reason_against(owner)

    def admit(self, sock: socket.socket) -> None:
        """Admits or turns away a new connection. One that has already ended gets neither."""
        if has_ended(sock):
            self.counts.accepted += 1
            self.descriptors.close(sock)
        else:
            super().admit(sock)

    def begin(self, sock: socket.socket, owner: Owner) -> None:
        """Lets a connection wait for its server."""
        self.admission.let_in(owner)
        self.waiting.add(sock, owner)

    def start_next(self) -> None:
        """Starts the server of the connection whose turn it is, and watches the connection only
        for its end. A connection that has ended meanwhile gets no server."""
        sock, owner = self.waiting.take()
        if has_ended(sock):
            self.admission.let_out(owner)
            self.descriptors.close(sock)
            return
        try:
            server = Server(sock, owner, self.program, self.plan, self.starter, self.now)
        except (OSError, ValueError) as error:
            self.admission.let_out(owner)
            self.admission.turn_away(sock, owner, f"no server could be started: {error}")
            return
        self.servers[server.number] = server
        try:
            self.events.watch_end(sock.fileno(), partial(self.leave, server))
        except OSError as error:
            self.lines.say_of(owner.counted, f"the server for {owner} is killed: its connection "
                                             f"can't be watched: {error}")
            self.starter.kill(server.number)

    def leave(self, server: Server, _mask: int) -> None:
        """Handles the end of a connection: nobody can read a reply any more, so its server is
        killed, even if its user has stopped it."""
        # The server's own end may come with the same events, and be handled before.
        if server.number in self.servers:
            self.events.forget(server.sock.fileno())
            server.has_left = True
            self.starter.kill(server.number)

    # ---- servers that were started and have ended

    def hear(self, _mask: int = 0) -> None:
        """Notes the processes of servers that were started. Removes all servers that have ended,
        and counts them."""
        for told in self.starter.told():
            server = self.servers.get(told.number)
            if isinstance(told, Started):
                if server is not None:
                    server.process = told.process
            elif server is not None:
                del self.servers[told.number]
                self.counts.processor_seconds += told.seconds
                self.end(server, told)
            elif self.trial is not None and told.number == self.trial.number:
                self.end_trial(told)

    def end(self, server: Server, end: Ended) -> None:
        """Handles the end of a server."""
        self.events.forget(server.sock.fileno())
        self.admission.let_out(server.owner)
        if end.reason is not None:
            self.admission.turn_away(server.sock, server.owner,
                                     f"no server could be started: {end.reason}")
            return
        is_late = end.status == LATE and not server.has_left and not has_ended(server.sock)
        self.close_connection(server)
        self.counts.ended += 1
        if end.status not in (USUAL_ENDS if server.has_left else USUAL):
            self.counts.failed += 1
            self.lines.say_of(server.owner.counted, f"{server} {meaning_of(end.status)}")
        elif is_late:
            self.lines.say_of(server.owner.counted,
                              f"{server} ended: its program {self.plan.lateness}")

    def close_connection(self, server: Server) -> None:
        if self.plan.is_of_peer:
            self.descriptors.leave(server.sock)
        else:
            self.descriptors.close(server.sock)

    def kill(self, server: Server, why: str) -> None:
        self.lines.say(f"{server} is killed: {why}")
        self.starter.kill(server.number)

    # ---- the clock, and the end

    def look_at_clock(self) -> None:
        if self.now - self.looked_at < self.manager.look_seconds:
            return
        self.looked_at = self.now
        self.manager.is_alive()
        self.descriptors.reap()
        if self.trial is not None and self.now > self.trial.until:
            self.starter.kill(self.trial.number)
            self.end_trial(None)
        self.end_late_visitors()
        self.report(self.open)

    def state(self) -> Dict[str, Any]:
        counts = self.counts
        return {
            "uptime_seconds": round(self.now - self.began_at, 3), "program": self.program.words[0],
            "connections": {"open": self.open, "accepted": counts.accepted,
                            "turned_away": counts.turned_away},
            "servers_ended": counts.ended, "servers_failed": counts.failed,
            "processor_seconds": round(counts.processor_seconds, 6),
            "servers": [server.state(self.now) for server in self.servers.values()]}

    def take_signals(self, _mask: int) -> None:
        for which in self.signals.taken():
            if which == signal.SIGCHLD:
                self.descriptors.reap()
            elif which == signal.SIGHUP:
                if self.stops_at is None:
                    self.reload()
            elif self.stops_at is not None:
                # A second signal ends the waiting.
                self.was_told_twice, self.stops_at = True, self.now
            else:
                self.lines.say(f"ends because of {which.name}")
                self.stop()

    def reload(self) -> None:
        """Finds the program again, and tries it. New connections get it after the trial."""
        self.stop_trial()
        try:
            self.trial = Trial(Program(self.plan.command), self.plan, self.starter)
        except (Unusable, OSError) as reason:
            self.keep_program(str(reason))

    def stop_trial(self) -> None:
        if self.trial is not None:
            self.starter.kill(self.trial.number)
            self.trial = None

    def end_trial(self, end: Optional[Ended]) -> None:
        """Handles the end of a trial; None if it didn't end in time."""
        assert self.trial is not None
        trial, self.trial = self.trial, None
        fault = trial.fault(end)
        if fault:
            self.keep_program(fault)
            return
        self.program = trial.program
        self.lines.say(f"starts {self.program.words[0]} for new connections after SIGHUP")

    def keep_program(self, reason: str) -> None:
        self.lines.say(f"keeps {self.program.words[0]} after SIGHUP: {reason}")

    def stop(self) -> None:
        """Accepts no more connections, starts the servers of those that wait, and closes the
        servers' inputs."""
        self.stops_at = self.now + self.limits.grace
        self.stop_trial()
        self.stop_listening()
        while self.waiting:
            self.start_next()
        for server in self.servers.values():
            server.end_input()

    def kill_all(self) -> None:
        why = ("the door was told twice to end" if self.was_told_twice else
               f"its request takes longer than {self.limits.grace:g} s (--grace)")
        for server in self.servers.values():
            if not server.has_left:
                self.kill(server, why)
        until = time.monotonic() + KILL_SECONDS
        while self.servers and time.monotonic() < until:
            time.sleep(KILL_LOOKS)
            self.hear()
        for server in self.servers.values():
            # Another process traces it, or a call of it to the system doesn't end.
            self.lines.say(f"{server} was killed and hasn't ended; the door doesn't wait for it")
            # Otherwise the door's end closes it, perhaps after the server's end.
            self.close_connection(server)
