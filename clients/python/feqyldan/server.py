"""Servers of this process: each in a process of its own, or as a library in this one."""

from __future__ import annotations

import asyncio
import itertools
import os
import threading
from collections import deque
from contextlib import suppress
from types import TracebackType
from typing import Deque, Dict, List, Optional, Sequence, Type, TypeVar, Union

from . import core, wire
from .connection import Connection, Request, is_interrupted
from .context import Context, Death
from .core import Core
from .direct import DirectConnection
from .errors import Closed, FeqyldanError, NestedCall, Refused, ServerEnded
from .forks import FORKED, HELD, OPENING, Forked
from .log import LOG
from .process import PATIENCE, Process
from .program import VARIABLE, find
from .storage import Path
from .uncopied import Uncopied
from .whole import whole

CLIENTS = 65536
# Seconds that a process may take to end after a fault.
PATIENCE_AFTER_FAULT = 1.0
# The server's default limits, and the greatest, in bytes.
QUOTA = WORK = 2**28
GREATEST_LIMIT = 2**40


Own = TypeVar("Own", bound="Server")


class Server(Forked, Uncopied):
    """
    A server that this process starts. It ends at the end of its `with`, or with this process.

    The server is a library in this process if libfeqyldan-core.so is found: by the environment
    variable FEQYLDAN_CORE, inside this package, built in this checkout, or by the dynamic linker,
    which finds that of Debian's package libfeqyldan0. Otherwise it is a process of its own. It is
    one also with `process=True`, with a `program` or a `timeout`, and if the environment variable
    FEQYLDAN_PROGRAM is set. `process=False` allows only the library.

    `program` is the path of vx_main, or the words of a command that ends with it. Without it, the
    program is the first of these: the value of FEQYLDAN_PROGRAM; `feqyldan` or `vx_main` on PATH;
    the program inside this package, if its wheel has one; the one that tools/build has built in
    this checkout.

    `quota` is how many bytes of samples the images of each context may have, `work` how many the
    virtual images of each graph may have; both are 2^28 by default. A request that a process
    doesn't answer within `timeout` seconds raises TimedOut and ends the server. In this process no
    call can be given up. Several threads may use one server, each with a context of its own.

    A process has a session of its own, so that Ctrl-C interrupts this process alone. In this
    process a call ends before Ctrl-C interrupts. In the child of a fork the server is closed.
    """

    __slots__ = ("_lock", "_numbers", "_free_numbers", "_left", "_alive", "_dead", "_ended_by",
                 "_quota", "_work", "_connection", "_process", "__weakref__")

    def __init__(self, program: Union[Path, Sequence[str], None] = None, *,
                 process: Optional[bool] = None, quota: Optional[int] = None,
                 work: Optional[int] = None, timeout: Optional[float] = None) -> None:
        limits = [limit_of("quota", quota), limit_of("work", work)]
        seconds, path = seconds_of(timeout), core_for(program, process, timeout)
        words = [] if path else command(find() if program is None else program, quota, work)
        self._lock = threading.RLock()
        # The client numbers that no context ever had, and those that are free again.
        self._numbers = itertools.count()
        self._free_numbers: List[int] = []
        # The contexts that have ended at a moment when they couldn't be closed.
        self._left: Deque[Context] = deque()
        # The contexts in Python by their client numbers; and those that Python has freed, which are
        # released before the next request.
        self._alive: Dict[int, Death] = {}
        self._dead: Deque[Death] = deque()
        # Why the server can't be used any more; None while it can.
        self._ended_by: Optional[str] = None
        self._quota: Optional[int] = limits[0]
        self._work: Optional[int] = limits[1]
        # The process of the server; None if it is in this one.
        self._process: Optional[Process] = None
        self._connection: Union[Connection, DirectConnection]
        with OPENING:
            if path:
                self._connection = DirectConnection(Core(path, *limits))
            else:
                self._process = Process(words, seconds)
                self._connection = self._process.connection
            HELD.add(self)
        LOG.info("server started: %s", self._process or f"in this process, {path}")

    @property
    def closed(self) -> bool:
        """Whether the server was closed or has ended."""
        return self._ended_by is not None or self._connection.fault is not None

    @property
    def quota(self) -> Optional[int]:
        """How many bytes of samples the images of each context may have; None if it isn't known."""
        return self._quota

    @property
    def work(self) -> Optional[int]:
        """How many bytes of samples the virtual images of each graph may have; None if it isn't
        known."""
        return self._work

    def context(self) -> Context:
        """Opens a context under a client number that no other context of this server has."""
        if self._ended_by is not None:
            raise Closed(f"open a context: {self._ended_by}")
        self._close_left()
        self._release_dead()
        number = self._take_number()
        try:
            context = Context(self, self._connection, number)
        except (NestedCall, Refused):
            self._free_numbers.append(number)
            raise
        self._watch(context, number)
        return context

    def _watch(self, context: Context, number: int) -> None:
        """Notes when Python frees a context, so that the server can release it."""
        death = Death(context, self._dead.append)  # type: ignore[arg-type]
        death.name = number
        self._alive[number] = death

    def _release_dead(self) -> None:
        """Releases the contexts that Python has freed. After an interruption it may release one
        again; the server refuses the second request, because no other context has its number. A
        call in a signal's handler leaves them to the call that it interrupts."""
        if is_interrupted(self, self._lock):
            return
        with self._lock:
            while self._dead:
                number = self._dead[0].name
                frame = wire.release_context(number)
                self._connection.send(Request("release a context that Python freed", number,
                                              frame[6]), [frame])
                self._alive.pop(number, None)
                self._dead.popleft()
                self._free_numbers.append(number)

    def _give_back(self, context: Context, is_released: bool) -> None:
        """Takes back the client number of a context that has ended, unless that was done before.
        The number is free again if the server has released the context."""
        with suppress(IndexError):
            number = context._borrowed.pop()
            self._alive.pop(number, None)
            if is_released:
                self._free_numbers.append(number)

    def _leave(self, context: Context) -> None:
        """Leaves a context to be closed when the next one is opened."""
        self._left.append(context)

    def _close_left(self) -> None:
        while self._left:
            # Another thread may take the last one.
            with suppress(IndexError, FeqyldanError):
                self._left.popleft().close()

    def close(self) -> None:
        """
        Ends the server and all its contexts: waits for all replies, closes the server's input, and
        waits for the server to end. If it doesn't end within 10 seconds, kills it. Raises
        ServerEnded if the server doesn't end normally. Does nothing if the server was closed
        before.
        """
        if self._ended_by is not None:
            return
        self._ended_by = "the server was closed"
        try:
            if self._connection.fault is None:
                self._connection.wait()
        except NestedCall:
            self._ended_by = None
            raise
        finally:
            if self._ended_by is not None:
                had_ended = self._connection.fault is not None
                ended = self._end(PATIENCE_AFTER_FAULT if had_ended else PATIENCE)
        if ended is not None and ended.status != 0 and not had_ended:
            raise ended

    def _lose(self) -> None:
        """Closes the pipes in the child of a fork; the server belongs to the parent."""
        if self._ended_by is None:
            self._ended_by = FORKED
            self._connection.lose(FORKED)
            if self._process is not None:
                self._process.lose()

    def __enter__(self: Own) -> Own:
        return self

    async def __aenter__(self: Own) -> Own:
        return self

    async def __aexit__(self, kind: Optional[Type[BaseException]], error: Optional[BaseException],
                        trace: Optional[TracebackType]) -> None:
        loop = asyncio.get_running_loop()
        await loop.run_in_executor(None, self.__exit__, kind, error, trace)

    def __exit__(self, kind: Optional[Type[BaseException]], error: Optional[BaseException],
                 trace: Optional[TracebackType]) -> None:
        if error is None:
            self.close()
        elif self._ended_by is None:
            # Nobody wants the remaining replies.
            self._ended_by = "the server was closed"
            if self._process is not None:
                self._process.terminate()
            self._end(PATIENCE_AFTER_FAULT)

    def __repr__(self) -> str:
        where = ("in this process" if self._process is None else f"process {self._process.pid}")
        return f"<server, {where}{', closed' if self.closed else ''}>"

    def _take_number(self) -> int:
        """Returns a client number that no context has. Each step is whole, also for a signal's
        handler that interrupts it."""
        with suppress(IndexError):
            return self._free_numbers.pop()
        number = next(self._numbers)
        if number >= CLIENTS:
            raise FeqyldanError(f"open a context: this server has {CLIENTS:,} already, the most: "
                                "close one, or start another server")
        return number

    def _end(self, patience: float) -> Optional[ServerEnded]:
        """Ends the server, and kills its process unless it ends within `patience` seconds. Returns
        how the process ended."""
        self._connection.close()
        return None if self._process is None else self._process.end(patience)


def seconds_of(timeout: Optional[float]) -> Optional[float]:
    """Returns a timeout in seconds after checking it; None for no timeout."""
    if timeout is None:
        return None
    wrong = (f"a timeout must be a number of seconds above 0 and up to 1,000,000, or None, not "
             f"{timeout!r}")
    if isinstance(timeout, bool) or not hasattr(timeout, "__float__"):
        raise TypeError(wrong)
    if not 0 < timeout <= 1e6:
        raise ValueError(wrong)
    return float(timeout)


def limit_of(name: str, limit: Optional[int]) -> int:
    """Returns the quota or the work bytes after checking them."""
    if limit is None:
        return {"quota": QUOTA, "work": WORK}[name]
    number = whole(limit, f"the {name} of a server")
    if not 1 <= number <= GREATEST_LIMIT:
        raise ValueError(f"the {name} of a server must be from 1 to {GREATEST_LIMIT:,} bytes, not "
                         f"{number:,}")
    return number


def core_for(program: Union[Path, Sequence[str], None], process: Optional[bool],
             timeout: Optional[float]) -> Optional[str]:
    """Returns the path of the library if the server is to be in this process; None for a process of
    its own."""
    is_here = process is not None and not process
    if program is not None and is_here:
        raise ValueError("a program can't run in this process: leave out the program, or "
                         "process=False")
    if timeout is not None and is_here:
        raise ValueError(f"timeout={timeout!r} can't be kept by a server in this process, where no "
                         "call can be given up: leave out the timeout, or process=False")
    asks = program is not None or timeout is not None or bool(os.environ.get(VARIABLE))
    if asks if process is None else process:
        return None
    return core.find() if process is None else core.require("leave out process=False")


def words_of(program: Union[Path, Sequence[str]]) -> Sequence[str]:
    """Returns the words that start a program. Raises TypeError for anything else."""
    words = (program,) if isinstance(program, (str, os.PathLike)) else program
    if not words or not isinstance(words, (list, tuple)):
        raise TypeError("a program must be a path, or the words of a command that ends with one, "
                        f"not {program!r}")
    return [os.fspath(word) for word in words]


def command(program: Union[Path, Sequence[str]], quota: Optional[int],
            work: Optional[int]) -> List[str]:
    """Returns the words of the command that starts a server."""
    words = [*words_of(program), "serve"]
    for name, limit in (("quota", quota), ("work", work)):
        if limit is not None:
            words += [f"--{name}", str(limit_of(name, limit))]
    return words
