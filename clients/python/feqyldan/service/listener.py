"""Listening sockets: a Unix socket with a file of its own, or one that a service manager passes to
this program."""

import contextlib
import fcntl
import os
import socket
import stat
import time
from typing import Iterator, List, Optional, Tuple

from .descriptors import Descriptors, refuse
from .lines import Unusable

# The first descriptor that a service manager passes (sd_listen_fds(3)).
FIRST_HANDED = 3
# The name under which it passes the socket that reports the state.
STATUS_NAME = "status"
# Seconds that another program may take to begin to listen at the same path.
LOCK_SECONDS = 5.0


class Listener:
    """A listening Unix socket. Closing it removes its file, unless a service manager passed the
    socket."""

    def __init__(self, sock: socket.socket, path: str,
                 file: Optional[Tuple[int, int]] = None) -> None:
        self.sock, self.path, self.file = sock, path, file
        self.sock.setblocking(False)
        self.refuses_descriptors = refuse(sock)

    def close(self, descriptors: Descriptors) -> None:
        if self.sock.fileno() < 0:
            return
        with contextlib.suppress(OSError):
            # Another program may have put its own file there. It can't have the number of this one
            # while the socket is open.
            if self.file is not None and file_of(self.path) == self.file:
                os.unlink(self.path)
        # A service manager that passed the socket still has it.
        if self.file is None or self.refuses_descriptors:
            self.sock.close()
        else:
            descriptors.close_suspect(self.sock)


def listen_at(path: str, mode: int, group: Optional[int] = None) -> Listener:
    """Returns a socket of this program, whose file has the permissions `mode` and this group; by
    default the group of this program."""
    if not path:
        raise Unusable("the path of a socket is empty: give one by --socket PATH or --status PATH")
    with locked(path):
        return bind(path, mode, group)


@contextlib.contextmanager
def locked(path: str) -> Iterator[None]:
    """Runs a `with` in which no other program can check or take a path. The lock is on a file named
    as the path with .lock after it."""
    name, until = f"{path}.lock", time.monotonic() + LOCK_SECONDS
    file = None
    while file is None:
        if time.monotonic() > until:
            raise Unusable(f"another program has been starting at {path} for "
                           f"{LOCK_SECONDS:g} s, and locks {name}: end it, or choose another path")
        file = lock(name)
    try:
        yield
    finally:
        with contextlib.suppress(OSError):
            os.unlink(name)
        os.close(file)


def lock(name: str) -> Optional[int]:
    """Returns the open, locked file of this name; None, after a short pause, if another program has
    the lock."""
    try:
        file = os.open(name, os.O_RDWR | os.O_CREAT | os.O_NOFOLLOW | os.O_CLOEXEC, 0o600)
    except OSError as error:
        raise Unusable(f"can't open the lock file {name}: {error.strerror}") from error
    try:
        fcntl.flock(file, fcntl.LOCK_EX | fcntl.LOCK_NB)
        # The last owner of the lock may have removed the file.
        if is_at(file, name):
            return file
    except BlockingIOError:
        pass
    except OSError as error:
        os.close(file)
        raise Unusable(f"can't lock {name}: {error.strerror}; choose a path in another file "
                       "system") from error
    os.close(file)
    time.sleep(0.01)
    return None


def bind(path: str, mode: int, group: Optional[int]) -> Listener:
    remove_stale(path)
    sock = socket.socket(socket.AF_UNIX, socket.SOCK_STREAM)
    # The file must have its permissions from the first moment on. Nobody can connect before
    # listen().
    mask = os.umask(0o777 & ~mode)
    try:
        sock.bind(path)
        if group is not None:
            # Never what a link leads to, if somebody has put one there.
            os.chown(path, -1, group, follow_symlinks=False)
    except OSError as error:
        if sock.getsockname():
            # The file is there, but can't have the group.
            os.unlink(path)
        sock.close()
        raise Unusable(f"can't listen at {path}: {error.strerror or error}") from error
    finally:
        os.umask(mask)
    listener = Listener(sock, path, file_of(path))
    # Only now, so that every connection refuses descriptors where Linux can.
    sock.listen(socket.SOMAXCONN)
    return listener


def handed_over() -> List[Listener]:
    """Returns the sockets that a service manager passes, the one that reports the state last. The
    manager goes on listening when this program ends."""
    process, count, names = (os.environ.pop(f"LISTEN_{what}", "")
                             for what in ("PID", "FDS", "FDNAMES"))
    if process != str(os.getpid()):
        return []
    passed = [handed(FIRST_HANDED + k) for k in range(int(count) if count.isdigit() else 0)]
    if names.split(":")[:1] == [STATUS_NAME]:
        passed.reverse()
    return passed


def handed(descriptor: int) -> Listener:
    try:
        os.set_inheritable(descriptor, False)
        sock = socket.socket(fileno=descriptor)
    except OSError as error:
        raise Unusable(f"descriptor {descriptor}, which was handed over (LISTEN_FDS), can't be "
                       f"used: {error.strerror}") from error
    listens = sock.getsockopt(socket.SOL_SOCKET, socket.SO_ACCEPTCONN)
    if sock.family != socket.AF_UNIX or sock.type != socket.SOCK_STREAM or not listens:
        raise Unusable(f"descriptor {descriptor}, which was handed over (LISTEN_FDS), isn't a "
                       "listening Unix stream socket: use ListenStream= with a path")
    return Listener(sock, sock.getsockname() or "a socket that was handed over")


def is_at(file: int, path: str) -> bool:
    """Returns whether an open file is the file at a path."""
    with contextlib.suppress(FileNotFoundError):
        return os.path.samestat(os.fstat(file), os.lstat(path))
    return False


def file_of(path: str) -> Tuple[int, int]:
    status = os.lstat(path)
    return status.st_dev, status.st_ino


def remove_stale(path: str) -> None:
    """Removes the file of a socket if nobody listens there any more."""
    try:
        is_socket = stat.S_ISSOCK(os.lstat(path).st_mode)
    except FileNotFoundError:
        return
    except OSError as error:
        raise Unusable(f"can't listen at {path}: {error.strerror}") from error
    if not is_socket:
        raise Unusable(f"{path} exists and isn't a socket: remove it, or choose another path")
    with socket.socket(socket.AF_UNIX, socket.SOCK_STREAM) as probe:
        probe.setblocking(False)
        # Whoever listens there could send descriptors, and closing them may take long.
        refuse(probe)
        try:
            probe.connect(path)
        except BlockingIOError:
            # Somebody listens, but the queue of waiting connections is full.
            pass
        except ConnectionRefusedError:
            os.unlink(path)
            return
        except OSError as error:
            raise Unusable(f"can't listen at {path}: {error.strerror or error}") from error
    raise Unusable(f"another program listens at {path}: end it, or choose another path")
