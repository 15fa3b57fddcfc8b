"""
Reads from and closes sockets through which a program may have sent file descriptors (SCM_RIGHTS).
Nothing here needs them. Closing one may take as long as its sender likes: a file of a FUSE file
system waits for its daemon, even in a process that is killed, and a TCP socket that lingers with
unsent bytes waits for up to 2^15 seconds.

Linux refuses descriptors at the sender if the receiving socket asks for that (SO_PASSRIGHTS, from
6.16 on). A connection takes that over from the listening socket when it is made. So it still takes
descriptors if it was made before this program had the listening socket, for example from systemd.
On such a connection, and on all connections of an older Linux:

- Before bytes are read, they are looked at (MSG_PEEK) without space for descriptors. So the system
  neither opens a descriptor here nor drops one. Bytes with descriptors are never read.
- A connection with unread bytes is closed by a separate process, which does so by ending. Nothing
  waits for that process.

So is a connection whose server runs as its user, even without unread bytes: a user that traces the
server may have let the connection take descriptors again.
"""

import contextlib
import fcntl
import os
import socket
import struct
import termios
from typing import List, Set

from .events import Take
from .processes import close_all_but, fork

SO_PASSRIGHTS = 83
# The most bytes that are looked at before a read.
PEEK_BYTES = 65_536
# The most connections that wait to be closed by a separate process.
LEFT_AT_ONCE = 64


class SentDescriptors(OSError):
    """A connection has sent file descriptors. They and the bytes with them are still unread."""


def refuse(sock: socket.socket) -> bool:
    """Makes a socket, and the connections that are made to it from now on, refuse descriptors.
    Returns whether Linux can."""
    with contextlib.suppress(OSError):
        sock.setsockopt(socket.SOL_SOCKET, SO_PASSRIGHTS, 0)
        return True
    return False


def may_have_some(sock: socket.socket) -> bool:
    """Returns whether descriptors may have been sent to a connection that was just accepted."""
    try:
        return sock.getsockopt(socket.SOL_SOCKET, SO_PASSRIGHTS) != 0
    except OSError:
        return True


def has_unread(sock: socket.socket) -> bool:
    """Returns whether bytes or, at a listening socket, connections may wait in a socket."""
    try:
        count, = struct.unpack("i", fcntl.ioctl(sock, termios.FIONREAD, bytes(4)))
    except OSError:
        return True
    return bool(count)


def shut(sock: socket.socket) -> None:
    """Shuts a socket down. The other end sees the end now, and can send no more."""
    with contextlib.suppress(OSError):
        sock.shutdown(socket.SHUT_RDWR)


class Descriptors:
    """Accepts, reads from and closes connections. None of these waits for a descriptor that a
    program has sent."""

    def __init__(self) -> None:
        # The open connections to which descriptors may have been sent.
        self.suspects: Set[socket.socket] = set()
        self.peeked = memoryview(bytearray(PEEK_BYTES))
        # The connections that a separate process has to close, and the processes that do so.
        self.left: List[socket.socket] = []
        self.closers: Set[int] = set()

    def accept(self, listening: socket.socket, take: Take) -> socket.socket:
        # Not listening.accept(): without memory for its socket, that leaves the connection open.
        descriptor, _ = listening._accept()  # type: ignore[attr-defined]
        try:
            sock: socket.socket = take(self.adopt, descriptor)
            return sock
        except BaseException:
            os.close(descriptor)
            raise

    def adopt(self, descriptor: int) -> socket.socket:
        """Returns the socket of a connection, prepared for reads. If that fails, the descriptor
        stays open."""
        sock = socket.socket(socket.AF_UNIX, socket.SOCK_STREAM, 0, descriptor)
        try:
            if may_have_some(sock):
                self.suspects.add(sock)
                # No more are sent, where Linux can refuse them.
                refuse(sock)
                # Otherwise a read drops a byte out of band, with its descriptors, although no look
                # shows it.
                sock.setsockopt(socket.SOL_SOCKET, socket.SO_OOBINLINE, 1)
        except BaseException:
            self.suspects.discard(sock)
            sock.detach()
            raise
        return sock

    def read(self, sock: socket.socket, most: int) -> bytes:
        """Reads at most this many bytes. Raises SentDescriptors if there are descriptors with
        them."""
        return sock.recv(self.readable(sock, most) if sock in self.suspects else most)

    def read_into(self, sock: socket.socket, room: memoryview) -> int:
        """Reads bytes, and returns how many. Raises SentDescriptors if there are descriptors with
        them."""
        if sock not in self.suspects:
            return sock.recv_into(room)
        with room[: self.readable(sock, len(room))] as part:
            return sock.recv_into(part)

    def readable(self, sock: socket.socket, most: int) -> int:
        """Returns how many bytes can be read now, at most PEEK_BYTES."""
        with self.peeked[:most] as part:
            count, _, flags, _ = sock.recvmsg_into([part], 0, socket.MSG_PEEK)
        if flags & socket.MSG_CTRUNC:
            raise SentDescriptors("it sent file descriptors")
        return count

    def close(self, sock: socket.socket) -> None:
        """Closes a connection."""
        if sock in self.suspects:
            self.suspects.remove(sock)
            self.close_suspect(sock)
        else:
            sock.close()

    def close_suspect(self, sock: socket.socket) -> None:
        """Closes a connection to which descriptors may have been sent, or a listening socket with
        such connections."""
        shut(sock)
        if has_unread(sock):
            self.leave(sock)
        else:
            sock.close()

    def leave(self, sock: socket.socket) -> None:
        """Ends a connection, and lets a separate process close it."""
        shut(sock)
        self.suspects.discard(sock)
        self.left.append(sock)
        if len(self.left) >= LEFT_AT_ONCE:
            self.close_left()

    def close_left(self) -> None:
        """Closes the connections that are left, after a separate process has copies of them. If the
        system has no resources for the process, they stay open until the next call."""
        if not self.left:
            return
        with contextlib.suppress(OSError):
            reader, writer = os.pipe()
            try:
                self.closers.add(self.begin_closer(reader))
                while self.left:
                    self.left.pop().close()
            finally:
                os.close(writer)
                os.close(reader)

    def begin_closer(self, reader: int) -> int:
        """Starts a process with copies of the connections that are left. It ends when nobody has
        the other end of the pipe any more."""
        process = fork()
        if process == 0:
            try:
                os.setsid()
                close_all_but([reader, *(sock.fileno() for sock in self.left)])
                os.read(reader, 1)
            finally:
                os._exit(0)
        return process

    def reap(self) -> None:
        """Forgets the processes that have ended."""
        for process in [*self.closers]:
            if os.waitpid(process, os.WNOHANG) != (0, 0):
                self.closers.discard(process)
