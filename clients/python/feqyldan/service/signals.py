"""Signals that a loop can wait for together with descriptors."""

import contextlib
import signal
import socket
from typing import Iterator, List

from .events import READ, Events, Handler

TAKEN = (signal.SIGTERM, signal.SIGINT, signal.SIGHUP, signal.SIGCHLD)


@contextlib.contextmanager
def held() -> Iterator[None]:
    """Lets the signals wait within a `with`: until its end, or until Signals reads them."""
    before = signal.pthread_sigmask(signal.SIG_BLOCK, TAKEN)
    try:
        yield
    finally:
        signal.pthread_sigmask(signal.SIG_SETMASK, before)


class Signals:
    """Runs a `with` in which the signals to end, to reload and of a child's end don't interrupt,
    but are read. After it they do nothing: this program is ending, and leaves no socket behind."""

    def __init__(self, events: Events, handler: Handler) -> None:
        self.events, self.handler = events, handler

    def __enter__(self) -> "Signals":
        self.reader, self.writer = socket.socketpair()
        for end in (self.reader, self.writer):
            end.setblocking(False)
        self.events.watch(self.reader.fileno(), READ, self.handler)
        self.before = signal.set_wakeup_fd(self.writer.fileno(), warn_on_full_buffer=False)
        for which in TAKEN:
            signal.signal(which, lambda *_: None)
        signal.pthread_sigmask(signal.SIG_UNBLOCK, TAKEN)
        return self

    def __exit__(self, *_: object) -> None:
        signal.set_wakeup_fd(self.before)
        self.events.forget(self.reader.fileno())
        self.reader.close()
        self.writer.close()

    def taken(self) -> List[signal.Signals]:
        """Returns the signals that have come, in order, and forgets them."""
        return [signal.Signals(number) for number in self.reader.recv(4096)]
