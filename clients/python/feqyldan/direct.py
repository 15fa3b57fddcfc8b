"""
Answers requests by calls of the server in this process: the counterpart of Connection without
pipes.

Each call is made under a lock, and its reply has come when it returns. The requests of a stream
wait in a line instead, which a thread serves; so several servers use several processors. A plain
request first serves what waits in the line, so that all are answered in the order of the calls.

An exception, such as KeyboardInterrupt, may come at any bytecode, and no reply is lost: the call
itself stores the length of the reply, and the reply is given to its request before the next call.
"""

from __future__ import annotations

import _thread
import ctypes
import select
import socket
import threading
import time
import weakref
from collections import deque
from contextlib import suppress
from queue import SimpleQueue
from typing import Any, Deque, List, Optional, Sequence, Set, Tuple

from .connection import (
    BEFORE_SAMPLES, HEAD, HEAD_AND_NAME, LEAD, LONGEST_WAIT, WAITING, Buffers, Part, Request, free)
from .core import NOTHING, Core, argument_of, number_of, size_of
from .errors import Closed, FeqyldanError, UnexpectedReply
from .log import LOG

# The least length of reply buffers, in bytes: FEQYLDAN_LEAST_BUFFER.
LEAST = 28


class Bell:
    """Wakes a thread that waits for replies, and maybe for a file descriptor too."""

    def __init__(self) -> None:
        self._here, self._there = socket.socketpair()
        self._there.setblocking(False)

    def ring(self) -> None:
        with suppress(BlockingIOError):
            self._there.send(b"\0")

    def await_ring(self, wake: Optional[int], limit: Optional[float]) -> bool:
        """Waits for a ring. Returns False if `wake` became readable, or after `limit` seconds."""
        poll = select.poll()
        poll.register(self._here, select.POLLIN)
        if wake is not None:
            poll.register(wake, select.POLLIN)
        ready = poll.poll(None if limit is None else
                          min(max(0.0, limit), LONGEST_WAIT) * 1000 + 1)
        if not ready or any(descriptor == wake for descriptor, _ in ready):
            return False
        # Also the rings since the end of an earlier wait.
        self._here.recv(4096)
        return True

    def __del__(self) -> None:
        # After an interruption it may not have been made.
        with suppress(AttributeError):
            self._here.close()
            self._there.close()


class DirectConnection:
    """The way to a server in this process. Several threads may use it: each call is completed
    before another thread's call begins."""

    def __init__(self, core: Core) -> None:
        self._core = core
        self._link = core.address, number_of(core.connect())
        self._lock = threading.RLock()
        self._fault: Optional[FeqyldanError] = None
        self._buffers = Buffers()
        # The memory of a reply that is short, or whose samples go to a place.
        self._short = ctypes.create_string_buffer(LEAST)
        self._before = ctypes.create_string_buffer(BEFORE_SAMPLES)
        # The length of a reply that no request has got yet, else 0; and the last request with its
        # reply's memory, and the number of bytes that a call writes to the request's place.
        self._length = ctypes.c_size_t(0)
        self._last: Optional[Tuple[Request, Any, int]] = None
        # The arguments for these.
        self._length_at = ctypes.byref(self._length)
        self._short_at = (ctypes.byref(self._short), size_of(LEAST), *NOTHING)
        self._before_at = ctypes.byref(self._before), size_of(BEFORE_SAMPLES)
        # The requests of streams without a reply, and whether the last one's frame is incomplete.
        self._line: Deque[Request] = deque()
        self._is_open = False
        # An item for each frame in the line; None until there was one. And whether the thread had
        # no memory for a reply.
        self._wanted: Optional[SimpleQueue[Any]] = None
        self._lacks_memory = False
        # The bells of the threads that wait, and those that no wait uses. A bell is used again,
        # since an interruption is lost in its __del__. No lock guards them: a signal's handler may
        # come at any moment. Each change is one step.
        self._bells: Set[Bell] = set()
        self._idle: List[Bell] = []

    @property
    def fault(self) -> Optional[FeqyldanError]:
        """Returns why no more calls can be made; None while they can."""
        return self._fault

    def ask(self, request: Request, parts: List[Part]) -> None:
        """Makes the call of a request. Its reply has come when this returns."""
        with free(self._lock, request.words):
            if self._line:
                self._serve_line()
            self._serve(request, parts)

    def send(self, request: Request, parts: List[Part], is_followed: bool = False) -> None:
        """Makes the call of a request, or queues it if it is a stream's."""
        if not request.is_ahead:
            self.ask(request, parts)
            return
        self._refuse_if_ended()
        # Who holds the lock is interrupted, and the thread would wait for it.
        free(self._lock, request.words)
        request.parts, self._is_open = parts, is_followed
        self._line.append(request)
        if not is_followed:
            self._wake_thread()

    def wait(self, request: Optional[Request] = None, limit: Optional[float] = None,
             wake: Optional[int] = None) -> bool:
        """Waits for the reply to a request, or for all replies if no request is given. Waits at
        most `limit` seconds, or until the file descriptor `wake` is readable. Returns whether the
        reply has come."""
        if request is not None and request.answer is not None:
            return True
        self._refuse_if_ended()
        if request is not None and request.is_ahead:
            return self._await(request, limit, wake)
        with free(self._lock, WAITING):
            self._settle()
            self._serve_line()
        return True

    def own_unsent(self) -> None:
        """Copies the queued requests after an interruption within a frame, so that the caller may
        change their samples."""
        if self._is_open:
            for request in list(self._line):
                request.own()

    def let_go(self, place: memoryview) -> None:
        """Redirects the samples that are still to come for `place`, after an interruption."""
        with self._lock:
            if self._last is not None and self._last[0].into is place:
                self._last[0].into = None

    def look(self) -> None:
        """Raises the fault, if there is one: replies come by themselves."""
        self._refuse_if_ended()

    def close(self) -> None:
        """Ends the server, after the call that is being made. Nothing more is answered."""
        self._fault = self._fault or Closed("the connection to the server was closed")
        with self._lock:
            self._core.close()
        if self._wanted is not None:
            self._wanted.put(None)
        self._idle.clear()
        self._ring()

    def lose(self, why: str) -> None:
        """Ends the connection in the child of a fork, where a thread of the parent may hold the
        locks."""
        self._lock = threading.RLock()
        self._fault, self._wanted = Closed(why), None
        self._core.lose()

    def _refuse_if_ended(self) -> None:
        if self._fault is not None:
            raise self._fault.with_traceback(None)

    # ---- calls

    def _serve_line(self) -> None:
        """Answers all queued requests, in order."""
        line = self._line
        while line:
            self._serve(line[0], line[0].parts)
            line.popleft().parts = ()
            self._ring()

    def _serve(self, request: Request, parts: Sequence[Part]) -> None:
        """Answers a request, unless it has an answer."""
        if self._last is not None:
            self._settle()
        if self._fault is not None:
            self._refuse_if_ended()
        if request.answer is not None:
            return
        front, back = parts[0], NOTHING if len(parts) == 1 else argument_of(parts[1])
        memory = self._memory_for(request)
        try:
            self._core.serve(*self._link, front, size_of(len(front)), *back, *memory,
                             self._length_at)
        finally:
            self._settle()
        if request.answer is None:
            raise FeqyldanError(f"{request.words}: the server takes no frame of "
                                f"{sum(map(len, parts)):,} bytes")

    def _memory_for(self, request: Request) -> Tuple[Any, ...]:
        """Returns the arguments for the memory of a reply, and for the memory that the rest of the
        reply goes to: the place of the request's samples. The request is now the last one."""
        size, into = HEAD.size + request.body.size, request.into
        if into is not None and len(into) >= LEAST:
            self._last = request, self._before, len(into)
            return (*self._before_at, *argument_of(into))
        if size <= HEAD_AND_NAME:
            self._last = request, self._short, 0
            return self._short_at
        frame = memoryview(self._buffers.take(LEAD + max(size, LEAST)))[LEAD:]
        self._last = request, frame, 0
        return (*argument_of(frame), *NOTHING)

    def _settle(self) -> None:
        """Gives the reply of the last call to its request, unless that was done."""
        length = self._length.value
        if length == 0 or self._last is None:
            return
        request, frame, placed = self._last
        try:
            request.arrive(reply_of(request, frame, placed, length), 0)
        except UnexpectedReply as fault:
            self._fault = fault
            raise
        finally:
            if request.answer is not None or self._fault is not None:
                self._length.value, self._last = 0, None

    # ---- the line

    def _wake_thread(self) -> None:
        """Lets the thread serve the line. The thread is started for the first frame."""
        if self._wanted is None:
            wanted: SimpleQueue[Any] = SimpleQueue()
            # The queue's put() is in C, so the end of the connection can call it at any moment. An
            # interruption of Thread.start() may raise RuntimeError; this call is in C too.
            _thread.start_new_thread(serve_lines, (wanted, weakref.ref(self, wanted.put)))
            self._wanted = wanted
        self._wanted.put(True)

    def _serve_in_thread(self) -> None:
        try:
            with self._lock:
                self._serve_line()
        except MemoryError:
            # Whoever waits serves the line, and gets this error.
            self._lacks_memory = True
            self._ring()
        except Exception as error:
            if self._fault is None:
                LOG.warning("the thread of a server ends: %s", error)
                self._fault = FeqyldanError(f"a stream's frame wasn't answered: {error!r}")
            self._ring()

    def _ring(self) -> None:
        """Wakes the threads that wait for replies."""
        # The list keeps a bell open while it is rung.
        for bell in list(self._bells):
            bell.ring()

    def _await(self, request: Request, limit: Optional[float], wake: Optional[int]) -> bool:
        """Waits while the thread serves the line, and returns whether the reply has come."""
        until = None if limit is None else time.monotonic() + limit
        bell = self._idle_bell()
        try:
            self._bells.add(bell)
            # An interruption may have come before the thread was woken.
            self._wake_thread()
            while request.answer is None:
                self._refuse_if_ended()
                left = None if until is None else until - time.monotonic()
                if self._lacks_memory:
                    self._lacks_memory = False
                    with free(self._lock, request.words):
                        self._serve_line()
                elif not bell.await_ring(wake, left):
                    return False
        finally:
            self._bells.discard(bell)
            self._idle.append(bell)
        return True

    def _idle_bell(self) -> Bell:
        """Returns a bell that no wait uses. It may have been rung."""
        with suppress(IndexError):
            return self._idle.pop()
        return Bell()


def reply_of(request: Request, frame: Any, placed: int, length: int) -> memoryview:
    """Returns the reply in a frame, whose samples go to the request's place if it has one. If
    `placed` isn't 0, the server has written them there, that many bytes. Raises UnexpectedReply if
    the reply doesn't answer the request."""
    if length > len(frame) + placed:
        raise UnexpectedReply(f"{request.words}: the reply has {length:,} bytes, more than "
                              f"{len(frame) + placed:,}")
    reply: Part = frame[:length]
    size, client, op, code = HEAD.unpack_from(reply)
    request.look_at(size, client, op, code)
    if request.into is not None and code == 0 and not placed:
        request.into[:] = reply[BEFORE_SAMPLES:]
        reply = reply[:BEFORE_SAMPLES]
    return memoryview(bytes(reply) if len(reply) <= BEFORE_SAMPLES else reply)


def serve_lines(wanted: SimpleQueue[Any], connection: weakref.ref[DirectConnection]) -> None:
    """Serves the line of a connection each time that it is wanted, until the connection ends."""
    while wanted.get() is not None:
        served = connection()
        if served is None:
            return
        served._serve_in_thread()
        del served
