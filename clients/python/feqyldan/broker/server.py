"""A server of the library, the thread that calls it, and the connections that wait for it."""

import bisect
import ctypes
import itertools
import threading
import time
from queue import SimpleQueue
from typing import Any, Callable, Deque, List, Optional, Set, Tuple, Union

from .. import wire
from ..core import NOTHING, Core, argument_of, number_of, size_of
from ..errors import FeqyldanError
from ..service.visitors import HEAD, LEAST_FRAME
from .connection import Connection, Limits, Turn
from .incoming import AHEAD
from .memory import Memory, memory_for, with_reserve

Reply = Union[bytes, Memory]
# The results of feqyldan_serve.
OK, TOO_SHORT = 0, 1
# The place of the code in a reply.
CODE = 7
# The length of the buffer for replies, in bytes: enough except for those that have samples. Python
# keeps memory for objects of this size.
SHORT_REPLY = 256
# A new connection counts as having used the time of ARRIVAL_TURNS average turns, among about the
# last AVERAGED. So the connections in line get their turn, however many connections come and go.
ARRIVAL_TURNS, AVERAGED = 4, 8
# A connection's turn is put off if its last turn took LONG_TURN seconds or more, and a connection
# that had used less was just answered. It is put off by a part of that last turn, at most
# MOST_PUT_OFF seconds. So a program that sends one request after another waits for one long turn,
# and not for one each time.
LONG_TURN, PART_PUT_OFF, MOST_PUT_OFF = 0.02, 0.05, 0.02


class ReplyTooLong(Exception):
    """The reply to a request is longer than allowed. The request has changed nothing."""


class Library:
    """A server of the library. One thread at a time makes a call. While it has no connection it has
    no memory, which the other servers of this process may need."""

    def __init__(self, path: str, quota: int, work: int) -> None:
        self.core = Core(path, quota, work)
        self.links: Set[int] = set()
        self.reply: Any = ctypes.create_string_buffer(SHORT_REPLY)
        self.length = ctypes.c_size_t(0)
        # The arguments for these.
        self.reply_at = ctypes.byref(self.reply), size_of(SHORT_REPLY)
        self.length_at = ctypes.byref(self.length)

    def connect(self) -> Optional[int]:
        """Returns the number of a new connection; None if there is no memory."""
        try:
            self.core.open()
            link = self.core.connect()
        except FeqyldanError:
            return None
        self.links.add(link)
        return link

    def answer(self, link: int, front: bytes, rest: memoryview, most: int) -> Optional[Reply]:
        """Returns the reply to a frame of a connection. Returns None if there is no memory for the
        reply, and raises ReplyTooLong if it has more than `most` bytes; then nothing has
        changed."""
        frame = (front, size_of(len(front)), *(argument_of(rest) if rest else NOTHING))
        is_short, size = self.call(link, frame, self.reply_at) == OK, self.length.value
        if is_short:
            return bytes(self.reply[:size])
        if size > most:
            raise ReplyTooLong(f"its reply would have {size} bytes, and at most {most} are held "
                               "(--bytes-held)")
        try:
            reply = memory_for(size, AHEAD)
        except MemoryError:
            return None
        if self.call(link, frame, argument_of(memoryview(reply))) != OK:
            raise RuntimeError(f"feqyldan_serve wants {self.length.value} bytes and not {size}")
        # The server may have no memory this time. Then its reply says so, and is short.
        return reply if self.length.value == size else bytes(reply[: self.length.value])

    def call(self, link: int, frame: Tuple[Any, ...], reply: Tuple[Any, ...]) -> int:
        """Serves a frame of a connection, and returns the result. Raises RuntimeError unless it is
        OK or TOO_SHORT."""
        result = int(self.core.serve(self.core.address, number_of(link), *frame, *reply, *NOTHING,
                                     self.length_at))
        if result not in (OK, TOO_SHORT):
            raise RuntimeError(f"feqyldan_serve returns {result} for a frame that begins with "
                               f"{frame[0][:LEAST_FRAME].hex(' ')}, of connection {link}")
        return result

    def disconnect(self, link: int) -> None:
        """Closes a connection. Does nothing if that was done."""
        self.core.disconnect(link)
        self.links.discard(link)
        if not self.links:
            self.core.close()


class Line:
    """The connections that wait for a turn. The next turn goes to the connection that has used the
    least of the server's time, so a short request comes before those of connections that use much.
    A connection that was away gets no credit for the time that it didn't use."""

    def __init__(self) -> None:
        # In the order of the turns.
        self.places: List[Tuple[float, int, Connection]] = []
        self.ticks = itertools.count()
        # The time that the connection of the last turn had used before that turn, in seconds.
        self.now = 0.0

    def add(self, connection: Connection) -> None:
        if connection.place is None:
            connection.used = max(connection.used, self.now)
            place = connection.used, next(self.ticks), connection
            with_reserve(bisect.insort, self.places, place)
            connection.place = place

    def take(self) -> Connection:
        self.now, _, connection = self.places.pop(0)
        connection.place = None
        return connection

    def forget(self, connection: Connection) -> None:
        if connection.place is not None:
            del self.places[bisect.bisect_left(self.places, connection.place)]
            connection.place = None


class Server:
    """A server with its thread. The thread gives each turn to `done` when it has served it, and
    rings the bell of the loop."""

    def __init__(self, library: Library, limits: Limits, done: Deque[Turn],
                 ring: Callable[[], None]) -> None:
        self.library, self.limits, self.done, self.ring = library, limits, done, ring
        # The connections whose contexts the server has, also those that are being released.
        self.members: Set[Connection] = set()
        self.line = Line()
        # The turn in progress, and the queue by which the thread gets it.
        self.turn: Optional[Turn] = None
        self.begun: "SimpleQueue[Turn]" = SimpleQueue()
        self.requests = 0
        # The average seconds of the last turns.
        self.average = 0.0
        # The connection of the last turn, and when that turn ended.
        self.last: Optional[Connection] = None
        self.turned_at = 0.0
        threading.Thread(target=self.serve_turns, daemon=True).start()

    # ---- in the loop

    def add(self, connection: Connection) -> None:
        """Adds a connection that has sent no request yet."""
        connection.used = self.line.now + ARRIVAL_TURNS * self.average
        with_reserve(self.members.add, connection)
        connection.server = self

    def puts_off(self, now: float) -> bool:
        """Returns whether the first turn in line, a long one, should wait: the connection that was
        answered last has used less, and may send another request in a moment."""
        last, first = self.last, self.line.places[0][-1]
        if last is None or first.took < LONG_TURN:
            return False
        if now > self.turned_at + min(first.took * PART_PUT_OFF, MOST_PUT_OFF):
            return False
        return last.reads and last.server is self and last.place is None and last.used < first.used

    def begin(self, turn: Turn) -> bool:
        """Serves a turn that takes no longer than to wake the thread, or lets the thread serve it.
        Returns whether it is served."""
        self.turn = turn.connection.turn = turn
        try:
            if turn.is_quick:
                self.serve_turn(turn)
            else:
                self.begun.put(turn)
            return turn.is_quick
        except MemoryError as fault:
            turn.fault = fault
            return True

    def end(self, turn: Turn, now: float) -> None:
        connection = turn.connection
        self.turn = connection.turn = None
        connection.used += turn.seconds
        connection.took = turn.seconds
        self.average += (turn.seconds - self.average) / AVERAGED
        self.last, self.turned_at, connection.served_at = connection, now, now
        self.requests += turn.count

    def seconds_at_turn(self, now: float) -> float:
        """Returns the seconds that the server has worked on its turn; 0 if it has none."""
        return 0.0 if self.turn is None else now - self.turn.began

    # ---- in the thread, or in the loop for a quick turn

    def serve_turns(self) -> None:
        while True:
            with_reserve(self.done.append, self.serve_turn(self.begun.get()))
            self.ring()

    def serve_turn(self, turn: Turn) -> Turn:
        """Serves a turn, and returns it with what comes of it."""
        try:
            began = time.monotonic()
            if turn.front:
                self.serve(turn)
            else:
                assert turn.connection.link is not None
                self.library.disconnect(turn.connection.link)
                # Another connection may get this number.
                turn.connection.link = None
            turn.seconds = time.monotonic() - began
        except Exception as fault:
            turn.fault = fault
        return turn

    def serve(self, turn: Turn) -> None:
        at, front, replies = 0, turn.front, []
        rest = memoryview(turn.memory or b"")[LEAST_FRAME:]
        while at < len(front):
            end = at + 4 + int.from_bytes(front[at : at + 4], "big")
            replies.append(self.reply_to(turn.connection, front[at:end], rest))
            at = end
        turn.replies = memoryview(replies[0] if len(replies) == 1 else
                                  with_reserve(b"".join, replies))
        turn.count, turn.refusals = len(replies), [reply[CODE] for reply in replies if reply[CODE]]

    def reply_to(self, connection: Connection, front: bytes, rest: memoryview) -> Reply:
        """Returns the reply to a frame. Without memory for the connection or for the reply, that is
        NO_MEMORY, and nothing has changed."""
        _length, client, op = HEAD.unpack_from(front)
        if connection.link is None:
            connection.link = self.library.connect()
        if connection.link is None:
            return wire.reply_frame(client, op, wire.NO_MEMORY)
        clients = connection.clients
        if (op == wire.OPEN_CONTEXT and client not in clients
                and len(clients) >= self.limits.contexts):
            return wire.reply_frame(client, op, wire.NO_RESOURCES)
        reply = self.library.answer(connection.link, front, rest, self.limits.bytes_held)
        if reply is None:
            return wire.reply_frame(client, op, wire.NO_MEMORY)
        if not reply[CODE] and op == wire.OPEN_CONTEXT:
            clients.add(client)
        elif not reply[CODE] and op == wire.RELEASE_CONTEXT:
            clients.discard(client)
        return reply
