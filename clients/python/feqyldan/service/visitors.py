"""Connections that get one short answer: those that are turned away, and those that ask for the
state."""

import json
import socket
import struct
import time
from collections import Counter
from typing import Any, Callable, Dict, List, NamedTuple, Optional

from .. import wire
from .descriptors import Descriptors
from .events import READ, WRITE, Events
from .listener import Listener
from .peers import Ranges, peer_of

# The head of a frame: its length, client number and op. No frame is shorter.
HEAD = struct.Struct(">IHB")
LEAST_FRAME = HEAD.size

# The most visitors of each kind at the same time, and the seconds that each has for its question.
VISITORS_AT_ONCE, VISIT_SECONDS = 64, 5.0
# The seconds until the next try to accept, after the system had no resources for a connection.
ACCEPT_PAUSE = 1.0
# Connections to the status socket that wait to be accepted, and that are accepted before other
# events have their turn. Few wait, so that those of a flood are soon gone, and an operator's turn
# comes.
WAITING, ACCEPTED_AT_ONCE = 64, 2
# The longest first line of a question for the state, in bytes.
LINE_BYTES = 4096
# How much longer than the processor time for a report of the state the report is given to others
# too. So all questions together take a tenth of the loop's time for it, at most.
REUSE = 9
PAGE = "HTTP/1.0 {}\r\nContent-Type: {}\r\nContent-Length: {}\r\nConnection: close\r\n\r\n"

# Returns the answer to the bytes so far; None if more are needed. The second argument says that no
# more bytes come.
Answer = Callable[[bytes, bool], Optional[bytes]]


class Visitor:
    """A connection that is answered once: the user for whom it counts, the bytes that have come,
    the unsent rest of the answer once there is one, and the time at which the connection is ended
    in any case."""

    __slots__ = ("user", "heard", "answer", "until")

    def __init__(self, user: int, until: float) -> None:
        self.user, self.heard, self.until = user, b"", until
        self.answer: Optional[memoryview] = None


class Visitors:
    """Connections that are each answered once and closed."""

    def __init__(self, events: Events, descriptors: Descriptors, most: int,
                 answer: Answer) -> None:
        self.events, self.descriptors = events, descriptors
        self.most, self.answer = most, answer
        # In the order in which they came.
        self.present: Dict[socket.socket, Visitor] = {}

    def add(self, sock: socket.socket, user: int) -> None:
        """Adds a connection that counts for a user. If there are too many, the oldest one of the
        user with the most is closed, so that no user keeps another one away."""
        if len(self.present) >= VISITORS_AT_ONCE:
            (most, _), = Counter(each.user for each in self.present.values()).most_common(1)
            self.end(next(one for one, each in self.present.items() if each.user == most))
        sock.setblocking(False)
        self.present[sock] = Visitor(user, time.monotonic() + VISIT_SECONDS)
        try:
            self.events.watch(sock.fileno(), READ, lambda _: self.serve(sock))
        except OSError:
            self.end(sock)

    def serve(self, sock: socket.socket) -> None:
        """Reads the question of a visitor, sends as much of the answer as its socket takes, and
        ends the connection after the last byte."""
        visitor = self.present.get(sock)
        if visitor is None:
            return
        try:
            if visitor.answer is None:
                self.hear(sock, visitor)
            if visitor.answer:
                visitor.answer = visitor.answer[sock.send(visitor.answer) :]
        except BlockingIOError:
            pass
        except OSError:
            visitor.answer = memoryview(b"")
        if visitor.answer:
            self.events.watch(sock.fileno(), WRITE, lambda _: self.serve(sock))
        elif visitor.answer is not None:
            self.end(sock)

    def hear(self, sock: socket.socket, visitor: Visitor) -> None:
        data = self.descriptors.read(sock, self.most - len(visitor.heard))
        visitor.heard += data
        is_all = not data or len(visitor.heard) >= self.most
        answer = self.events.take(self.answer, visitor.heard, is_all)
        visitor.answer = None if answer is None else memoryview(answer)

    def end(self, sock: socket.socket) -> None:
        self.events.forget(sock.fileno())
        del self.present[sock]
        self.descriptors.close(sock)

    def end_late(self, now: float) -> None:
        for sock in [sock for sock, visitor in self.present.items() if now > visitor.until]:
            self.end(sock)

    def end_all(self) -> None:
        for sock in [*self.present]:
            self.end(sock)


def turned_away(events: Events, descriptors: Descriptors) -> Visitors:
    """Returns the visitors whose first frame is answered NO_RESOURCES."""

    def answer(data: bytes, is_all: bool) -> Optional[bytes]:
        if len(data) < LEAST_FRAME:
            return b"" if is_all else None
        _length, client, op = HEAD.unpack(data)
        return wire.reply_frame(client, op, wire.NO_RESOURCES)

    return Visitors(events, descriptors, LEAST_FRAME, answer)


class Report(NamedTuple):
    """The state as JSON, and in Prometheus' text format."""

    json: str
    metrics: str


class RecentReport:
    """A report of the state that is made again when it is too old (REUSE)."""

    def __init__(self, state: Callable[[], Dict[str, Any]],
                 metrics: Callable[[Dict[str, Any]], str]) -> None:
        self.state, self.metrics = state, metrics
        self.report, self.until = Report("", ""), 0.0

    def get(self) -> Report:
        if time.monotonic() >= self.until:
            began = time.process_time()
            state = self.state()
            self.report = Report(json.dumps(state) + "\n", self.metrics(state))
            self.until = time.monotonic() + REUSE * (time.process_time() - began)
        return self.report


class StatusSocket:
    """A second socket that reports the state of the program: as JSON, or in Prometheus' text format
    for HTTP's GET /metrics."""

    def __init__(self, listener: Listener, events: Events, descriptors: Descriptors,
                 state: Callable[[], Dict[str, Any]], metrics: Callable[[Dict[str, Any]], str],
                 ranges: Ranges) -> None:
        self.listener, self.events, self.descriptors = listener, events, descriptors
        self.ranges = ranges
        self.recent = RecentReport(state, metrics)
        self.visitors = Visitors(events, descriptors, LINE_BYTES, self.answer)
        # When the next accept is tried, after the system had no resources for a connection.
        self.accepts_from: Optional[float] = None
        listener.sock.listen(WAITING)
        self.listen()

    def listen(self) -> None:
        try:
            self.events.watch(self.listener.sock.fileno(), READ, self.accept)
        except OSError:
            self.accepts_from = time.monotonic() + ACCEPT_PAUSE

    def accept(self, _mask: int) -> None:
        try:
            for _ in range(ACCEPTED_AT_ONCE):
                sock = self.descriptors.accept(self.listener.sock, self.events.take)
                self.events.take(self.begin, sock)
        except BlockingIOError:
            pass
        except OSError:
            self.events.forget(self.listener.sock.fileno())
            self.accepts_from = time.monotonic() + ACCEPT_PAUSE

    def begin(self, sock: socket.socket) -> None:
        self.visitors.add(sock, self.ranges.owner_of(peer_of(sock).user))

    def look_at_clock(self, now: float) -> None:
        self.visitors.end_late(now)
        if self.accepts_from is not None and now > self.accepts_from:
            self.accepts_from = None
            self.listen()

    def answer(self, data: bytes, is_all: bool) -> Optional[bytes]:
        line, newline, _ = data.partition(b"\n")
        if not newline and not is_all:
            return None
        words: List[bytes] = line.split()
        if words[:1] == [b"GET"] or words[2:] and words[-1].startswith(b"HTTP/"):
            return self.page(words[0], words[1] if len(words) > 1 else b"/")
        return self.recent.get().json.encode()

    def page(self, method: bytes, path: bytes) -> bytes:
        """Returns the HTTP answer to a request."""
        status, kind, body = "404 Not Found", "text/plain", "There are /status and /metrics.\n"
        if method != b"GET":
            status, body = "405 Method Not Allowed", "The state is read by GET.\n"
        elif path == b"/metrics":
            status, kind, body = "200 OK", "text/plain; version=0.0.4", self.recent.get().metrics
        elif path in (b"/", b"/status"):
            status, kind, body = "200 OK", "application/json", self.recent.get().json
        return PAGE.format(status, kind, len(body)).encode() + body.encode()

    def close(self) -> None:
        self.events.forget(self.listener.sock.fileno())
        self.visitors.end_all()
        self.listener.close(self.descriptors)
