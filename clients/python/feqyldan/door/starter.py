"""The door's end of the process that starts the servers."""

import contextlib
import itertools
import os
import select
import socket
import subprocess
import sys
from typing import Dict, Iterator, List, NamedTuple, Optional, Sequence, Union

from ..service.lines import Unusable
from ..service.machine import address_space
from ..service.peers import Peer
from . import starting
from .program import Plan, Program
from .starting import BEGAN, FAILED, KILL, MOST_BYTES, START, joined, words_of

# The seconds in which the process has to end.
END_SECONDS = 2.0


class Started(NamedTuple):
    """The server with this number was started, as a process."""

    number: int
    process: int


class Ended(NamedTuple):
    """A server has ended: its exit status, the seconds of the processors that it had, and the
    reason if no process became the program."""

    number: int
    status: int
    seconds: float
    reason: Optional[str]


class Starter:
    """Lets servers be started and killed, and tells when they were started and have ended."""

    def __init__(self) -> None:
        self.sock, other = socket.socketpair(socket.AF_UNIX, socket.SOCK_SEQPACKET)
        script = os.path.abspath(starting.__file__)
        try:
            with other:
                self.process = subprocess.Popen(
                    [sys.executable, "-I", "-S", script, str(other.fileno())],
                    stdin=subprocess.DEVNULL, stdout=subprocess.DEVNULL, pass_fds=[other.fileno()])
        except OSError as error:
            self.sock.close()
            raise Unusable(f"can't start the process that starts the servers: {error}") from error
        self.numbers = itertools.count(1)
        # The messages that have come before told() asks for them.
        self.left: List[List[str]] = []
        # The reasons why no process became the program, until the ends are told.
        self.reasons: Dict[int, str] = {}

    def start(self, program: Program, stream: int, plan: Plan, peer: Optional[Peer]) -> int:
        """Lets a process start that becomes the program, with a stream as its standard input and
        output. It runs as the user of the peer, if there is one. Returns the number of the server.
        Raises OSError if the system can't pass the order on."""
        number = next(self.numbers)
        user, group = ("", "") if peer is None else (str(peer.user), str(peer.group))
        self.send([START, str(number), program.target, str(address_space(plan.memory)),
                   str(plan.nice), user, group, *program.arguments],
                  [stream, program.file.fileno()])
        # So that starts take turns with all else. No user but the door's can stop that process.
        while not self.left or self.left[-1][1] != str(number):
            self.left.append(self.received())
        return number

    def kill(self, number: int) -> None:
        """Lets a server be killed, unless it has ended."""
        self.send([KILL, str(number)])

    def told(self, seconds: float = 0) -> Iterator[Union[Started, Ended]]:
        """Yields which servers were started and have ended since the last call, in order. Waits for
        the first message, at most these seconds."""
        while self.wait(select.POLLIN, 0 if self.left else seconds):
            self.left.append(self.received())
        while self.left:
            kind, word, *words = self.left.pop(0)
            number = int(word)
            if kind == FAILED:
                self.reasons[number] = words[0]
            elif kind == BEGAN:
                yield Started(number, int(words[0]))
            else:
                yield Ended(number, int(words[0]), float(words[1]), self.reasons.pop(number, None))

    def send(self, words: List[str], files: Sequence[int] = ()) -> None:
        # The other end takes no order before it could tell what it has to tell.
        while not self.wait(select.POLLIN | select.POLLOUT) & select.POLLOUT:
            self.left.append(self.received())
        # If it has ended, the next call of received() says so.
        with contextlib.suppress(ConnectionError):
            socket.send_fds(self.sock, [joined(words)], files)

    def received(self) -> List[str]:
        """Returns the next message."""
        with contextlib.suppress(ConnectionError):
            message = self.sock.recv(MOST_BYTES)
            if message:
                return words_of(message)
        raise Unusable("the process that starts the servers has ended: start the door again")

    def wait(self, wanted: int, seconds: Optional[float] = None) -> int:
        """Waits until the socket can be read or written, and returns which of it."""
        poll = select.poll()
        poll.register(self.sock, wanted)
        # Less than 0 would mean without end.
        ready = poll.poll(None if seconds is None else max(0, 1000 * seconds))
        return ready[0][1] if ready else 0

    def close(self) -> None:
        """Ends the process once it has done what it was ordered. Its servers go on."""
        with contextlib.suppress(OSError):
            self.sock.shutdown(socket.SHUT_WR)
        try:
            self.process.wait(END_SECONDS)
        except subprocess.TimeoutExpired:
            self.process.kill()
            self.process.wait()
        self.sock.close()
