"""Running servers that are reached by a Unix socket, and the status of a door or a broker."""

from __future__ import annotations

import errno
import json
import os
import pwd
import socket
import stat
import struct
import threading
import time
from collections import deque
from contextlib import suppress
from types import TracebackType
from typing import Any, Deque, Dict, Optional, Set, Tuple, Type, Union

from .connection import Connection, is_interrupted
from .context import Context, Death
from .errors import BrokerFull, Closed, ServerEnded, TimedOut, UnexpectedReply
from .forks import FORKED, HELD, OPENING
from .log import LOG
from .server import Server, seconds_of
from .storage import Path

# Seconds between two tries to reach a socket at which nobody listens or no connection is free.
RETRY_PAUSE = 0.1
# The most bytes of a state. Those of 65,536 servers are fewer.
STATE_BYTES = 2**26


class SocketServer(Server):
    """
    A server at a Unix socket, where systemd, the door or the broker serves several programs. Each
    context has a connection of its own. close() closes these connections. If nobody listens, or no
    connection is free, connecting is retried for `retry` seconds, also when a context is opened
    later.
    """

    __slots__ = ("_path", "_timeout", "_retry", "_owner", "_streams", "_connected", "_next")

    def __init__(self, path: Path, *, timeout: Optional[float] = None, retry: float = 0.0,
                 owner: Union[int, str, None] = None) -> None:
        if isinstance(retry, bool) or not hasattr(retry, "__float__") or not retry >= 0:
            raise ValueError(f"retry must be a number of seconds, 0 or more, not {retry!r}")
        self._path, self._timeout, self._retry = os.fspath(path), seconds_of(timeout), retry
        self._owner = None if owner is None else user_number(owner)
        self._lock = threading.RLock()
        self._left: Deque[Context] = deque()
        self._alive: Dict[int, Death] = {}
        self._dead: Deque[Death] = deque()
        self._ended_by: Optional[str] = None
        self._quota = self._work = None
        # All sockets; the connection and the socket of each context, by the number of the socket;
        # and the socket of the next context, which is connected early to show whether somebody
        # listens.
        self._streams: Set[socket.socket] = set()
        self._connected: Dict[int, Tuple[Connection, socket.socket]] = {}
        self._next: Optional[socket.socket] = None
        with OPENING:
            HELD.add(self)
        self._next = self._connect(time.monotonic() + self._retry)

    @property
    def closed(self) -> bool:
        """Whether the connections were closed."""
        return self._ended_by is not None

    def context(self) -> Context:
        """Opens a context on a connection of its own. Raises BrokerFull if the door or the broker
        has no free connection within the `retry` seconds."""
        until = time.monotonic() + self._retry
        while True:
            try:
                return self._new_context(until)
            except BrokerFull:
                if time.monotonic() >= until:
                    raise
            time.sleep(RETRY_PAUSE)

    def _new_context(self, until: float) -> Context:
        if self._ended_by is not None:
            raise Closed(f"open a context: {self._ended_by}")
        self._close_left()
        self._release_dead()
        with self._lock:
            waiting, self._next = self._next, None
        if waiting is None:
            return self._context_on(self._connect(until))
        try:
            return self._context_on(waiting)
        except ServerEnded as ended:
            # It may have been idle for too long.
            try:
                stream = self._connect(until)
            except OSError:
                raise ended from None
        return self._context_on(stream)

    def _context_on(self, stream: socket.socket) -> Context:
        """Opens a context on a connection."""
        connection = Connection(stream.fileno(), stream.fileno(), socket_ended,
                                lambda: shut(stream), self._timeout)
        number = stream.fileno()
        # Noted first: close() in another thread must not close a descriptor that this one uses.
        self._connected[number] = connection, stream
        try:
            context = Context(self, connection, 0)
        except BaseException:
            self._disconnect(number)
            self._drop(stream)
            raise
        self._watch(context, number)
        return context

    def _release_dead(self) -> None:
        """Closes the connections of the contexts that Python has freed. A call in a signal's
        handler leaves them to the call that it interrupts."""
        if is_interrupted(self, self._lock):
            return
        with self._lock:
            while self._dead:
                self._disconnect(self._dead[0].name)
                self._dead.popleft()

    def _give_back(self, context: Context, is_released: bool) -> None:
        """Closes the connection of a context that has ended."""
        for number, (connection, _) in list(self._connected.items()):
            if connection is context._connection:
                self._disconnect(number)

    def _disconnect(self, number: int) -> None:
        """Closes the connection with the socket of this descriptor."""
        self._alive.pop(number, None)
        connection, stream = self._connected.pop(number, (None, None))
        if connection is not None and stream is not None:
            connection.close()
            self._drop(stream)

    def close(self) -> None:
        """Closes all connections. The server then releases their contexts."""
        self._ended_by = self._ended_by or "the connection to the server was closed"
        # The calls of other threads end now.
        for stream in list(self._streams):
            shut(stream)
        for number in list(self._connected):
            self._disconnect(number)
        self._next = None
        # Also those whose context was interrupted before it was there.
        for stream in list(self._streams):
            self._drop(stream)

    def _lose(self) -> None:
        """Closes the sockets in the child of a fork; the connections belong to the parent."""
        self._ended_by = self._ended_by or FORKED
        for connection, _ in self._connected.values():
            connection.lose(FORKED)
        for stream in self._streams:
            stream.close()

    def __exit__(self, kind: Optional[Type[BaseException]], error: Optional[BaseException],
                 trace: Optional[TracebackType]) -> None:
        self.close()

    def __repr__(self) -> str:
        return f"<server at {self._path}{', closed' if self.closed else ''}>"

    def _connect(self, until: float) -> socket.socket:
        """Returns a connection to the socket at the path. Tries until this time if nobody listens
        there."""
        while True:
            try:
                return self._reached()
            except (FileNotFoundError, ConnectionRefusedError) as error:
                if time.monotonic() >= until:
                    raise
                LOG.debug("connect again: %s", error)
            time.sleep(RETRY_PAUSE)

    def _reached(self) -> socket.socket:
        """Returns a connection to the socket at the path, if somebody listens there now."""
        with OPENING:
            stream = socket.socket(socket.AF_UNIX, socket.SOCK_STREAM)
            self._streams.add(stream)
        try:
            reach(stream, self._path, self._timeout)
            self._look_who_listens(stream)
        except BaseException as error:
            self._drop(stream)
            if isinstance(error, BlockingIOError):
                raise TimedOut(f"connect to {self._path}: not accepted in {self._timeout:g} "
                               "seconds: give a longer timeout, or see why the broker is "
                               "busy") from None
            if isinstance(error, ConnectionRefusedError) and is_other_file(self._path):
                raise OSError(errno.ENOTSOCK, "this isn't a socket: give the path of a door's or a "
                                              "broker's --socket", self._path) from None
            if isinstance(error, (FileNotFoundError, ConnectionRefusedError)):
                raise type(error)(error.errno, "no server listens at this path: start a door or a "
                                               "broker, or give the path of its --socket",
                                  self._path) from None
            if isinstance(error, OSError):
                raise with_path(error, self._path) from None
            raise
        LOG.info("connected to %s", self._path)
        return stream

    def _look_who_listens(self, stream: socket.socket) -> None:
        """Raises PermissionError if the listener isn't the owner that was given."""
        if self._owner is None:
            return
        credentials = stream.getsockopt(socket.SOL_SOCKET, socket.SO_PEERCRED, 12)
        _process, user, _group = struct.unpack("iII", credentials)
        if user != self._owner:
            raise PermissionError(errno.EPERM, f"user {user} listens there, not the owner that was "
                                               f"given, user {self._owner}")

    def _drop(self, stream: socket.socket) -> None:
        self._streams.discard(stream)
        stream.close()


def connect(path: Path, *, timeout: Optional[float] = None, retry: float = 0.0,
            owner: Union[int, str, None] = None) -> SocketServer:
    """
    Returns the server that listens at a Unix socket. If nobody listens yet, or the door or the
    broker has no free connection, waits up to `retry` seconds. A request that isn't answered within
    `timeout` seconds raises TimedOut and closes the connection of its context. `owner` is a user's
    number or name: if another user listens, PermissionError is raised before anything is sent. If
    systemd opened the socket, the owner is root.
    """
    return SocketServer(path, timeout=timeout, retry=retry, owner=owner)


def user_number(user: Union[int, str]) -> int:
    """Returns the number of a user, given the number or the name. Raises ValueError if there is no
    such user."""
    if isinstance(user, int):
        return user
    try:
        return pwd.getpwnam(user).pw_uid
    except (KeyError, TypeError):
        raise ValueError(f"the owner of a socket must be the name or the number of a user of this "
                         f"machine, not {user!r}") from None


def is_other_file(path: str) -> bool:
    """Returns whether a file that isn't a socket is at this path. A door or a broker that is
    starting removes an old socket."""
    try:
        return not stat.S_ISSOCK(os.stat(path).st_mode)
    except (OSError, ValueError):
        # The path of an abstract socket is no path of a file.
        return False


def reach(stream: socket.socket, path: str, seconds: Optional[float]) -> None:
    """Connects a Unix socket. Raises BlockingIOError if that takes longer than these seconds."""
    until = None if seconds is None else time.monotonic() + seconds
    is_connected = False
    while not is_connected:
        limit_connecting(stream, until)
        stream.connect(path)
        # If a signal's handler has interrupted it, Python takes the socket for connected, and it
        # isn't.
        with suppress(OSError):
            stream.getpeername()
            is_connected = True


def limit_connecting(stream: socket.socket, until: Optional[float]) -> None:
    """Limits the time for connect(), or lets it wait for ever. settimeout() would make it fail
    immediately if many others wait, and so would socket.setdefaulttimeout()."""
    stream.setblocking(True)
    if until is None:
        return
    # A limit of 0 would be none.
    whole, part = divmod(max(0.001, until - time.monotonic()), 1)
    stream.setsockopt(socket.SOL_SOCKET, socket.SO_SNDTIMEO,
                      struct.pack("@ll", int(whole), int(part * 1e6)))


def status(path: Path, *, timeout: float = 10.0) -> Dict[str, Any]:
    """
    Returns the state of a broker or a door, from its status socket (--status) at this path. Raises
    OSError if it doesn't come within `timeout` seconds, and UnexpectedReply if the path is another
    kind of socket.
    """
    seconds = seconds_of(timeout)
    if seconds is None:
        raise TypeError("the timeout of status() must be a number of seconds, not None")
    path, until = os.fspath(path), time.monotonic() + seconds
    with socket.socket(socket.AF_UNIX, socket.SOCK_STREAM) as stream:
        try:
            reach(stream, path, seconds)
            stream.shutdown(socket.SHUT_WR)
            said = state_of(stream, until)
        except BlockingIOError:
            raise TimeoutError(errno.ETIMEDOUT, f"not accepted in {timeout:g} seconds",
                               path) from None
        except socket.timeout:
            # Before Python 3.10 this isn't a TimeoutError.
            raise TimeoutError(errno.ETIMEDOUT, "the state hasn't come in time", path) from None
        except OSError as error:
            raise with_path(error, path) from None
    try:
        found: Dict[str, Any] = json.loads(said)
    except ValueError:
        raise UnexpectedReply(f"{path} answers {said[:40]!r}, which isn't the state of a broker or "
                              "a door: give the path of --status, not that of --socket") from None
    return found


def state_of(stream: socket.socket, until: float) -> bytes:
    """Returns the bytes that come until the other end closes the stream. Raises socket.timeout if
    it doesn't in time, and UnexpectedReply if they are too many for a state."""
    said = bytearray()
    while len(said) <= STATE_BYTES:
        left = until - time.monotonic()
        if left <= 0:
            raise socket.timeout
        stream.settimeout(left)
        data = stream.recv(65536)
        if not data:
            return bytes(said)
        said += data
    raise UnexpectedReply(f"the answer has more than {STATE_BYTES} bytes, so it isn't the state of "
                          "a broker or a door: give the path of --status")


def with_path(error: OSError, path: str) -> OSError:
    """Returns an error of a Unix socket with the path, which Python leaves out."""
    return type(error)(error.errno, error.strerror or str(error), path)


def shut(stream: socket.socket) -> None:
    """Ends a connection for both sides, also for a thread that is reading from it."""
    try:
        stream.shutdown(socket.SHUT_RDWR)
    except OSError:
        pass


def socket_ended(is_within_frame: bool) -> ServerEnded:
    """Returns why a connection ended, as far as this end knows. A broker knows more, for example
    that a connection was idle for too long, and logs it."""
    where = " in the middle of a reply" if is_within_frame else ""
    words = (f"the server closed the connection{where}; a broker's or a door's standard error says "
             "why")
    LOG.warning("%s", words)
    return ServerEnded(words)
