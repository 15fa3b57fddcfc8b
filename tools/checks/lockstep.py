"""A server that is driven in lock step: each reply is read before the next request is sent."""

import contextlib
import subprocess
import threading
from typing import Dict, Iterator, List, Optional, Type, TypeVar

from feqyldan import wire

# Seconds after which a server that doesn't answer is killed.
PATIENCE = 300


class Fault(Exception):
    """A fault of a server."""


class WrongAnswer(Fault):
    """A wrong reply, or no reply."""


class Server:
    """A process of the program."""

    def __init__(self, process: "subprocess.Popen[bytes]") -> None:
        self.process = process
        self.asked = 0

    def answer(self, request: bytes) -> bytes:
        """Returns the reply to a request, whatever its code."""
        assert self.process.stdin and self.process.stdout
        at = f"request {self.asked}, {wire.Op(request[6]).name}"
        try:
            self.process.stdin.write(request)
            self.process.stdin.flush()
        except BrokenPipeError:
            with contextlib.suppress(BrokenPipeError):
                self.process.stdin.close()
            raise WrongAnswer(f"the server ended before {at}") from None
        head = self.process.stdout.read(4)
        reply = head + self.process.stdout.read(int.from_bytes(head, "big"))
        if len(reply) < 8:
            raise WrongAnswer(f"the server ended at {at}")
        return reply

    def ask(self, request: bytes) -> bytes:
        """Returns the reply to a request that must succeed."""
        self.asked += 1
        reply = self.answer(request)
        if wire.code_of(reply) != wire.SUCCESS:
            raise WrongAnswer(f"request {self.asked}, {wire.Op(request[6]).name}, is refused: "
                              f"{wire.say(reply)}")
        return reply


Kind = TypeVar("Kind", bound=Server)


@contextlib.contextmanager
def serving(kind: Type[Kind], words: List[str], patience: float = PATIENCE,
            environment: Optional[Dict[str, str]] = None) -> Iterator[Kind]:
    """Runs a server with these arguments for a `with` block. It must end with status 0."""
    process = subprocess.Popen(words, env=environment, stdin=subprocess.PIPE,
                               stdout=subprocess.PIPE)
    watch = threading.Timer(patience, process.kill)
    watch.start()
    try:
        with process:
            try:
                yield kind(process)
            except BaseException:
                process.kill()
                raise
            assert process.stdin
            process.stdin.close()
            if process.wait() != 0:
                raise WrongAnswer(f"the server ended with status {process.returncode}, not with 0")
    finally:
        watch.cancel()
