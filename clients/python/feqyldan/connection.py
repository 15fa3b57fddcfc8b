"""
Sends request frames and reads reply frames, in order. The writer and the reader are two file
descriptors, or one socket.

Requests may be sent ahead of their replies. While anything is sent, replies are read as they come,
so that two full pipes never wait for each other.

An exception, such as KeyboardInterrupt, may come at any bytecode, and no request or reply is lost.
Three rules ensure that. The C function that makes a system call also stores its count, see `moved`.
A request is taken, and a reply is given to its request, by one store. Everything else follows from
the counts, the queue of requests and their answers, and the next call computes it again.
"""

from __future__ import annotations

import os
import select
import stat
import struct
import sys
import threading
import time
from collections import deque
from itertools import accumulate, islice
from types import FrameType
from typing import (
    Any, Callable, Deque, Dict, Iterator, List, NamedTuple, Optional, Sequence, Tuple, Union)

from . import pages
from .errors import (
    Closed, Fault, FeqyldanError, NestedCall, Refused, ServerEnded, TimedOut, UnexpectedReply,
    refusal)
from .log import LOG
from .wire import BODY_BYTES, CODES, GREATEST_LENGTH, GREATEST_SIDE

# At most this many bytes wait to be sent with the next request. If more are unsent, send() sends
# them all.
SMALL = 1 << 15
# The most parts that one system call gets (Linux takes 1,024), and the most unsent requests that
# they come from.
PARTS, REQUESTS = 64, 16
# Seconds between two checks whether the server has read lent memory.
PAUSE = 0.0005
# Milliseconds that look() waits for the rest of a reply that has begun.
REST = 5
# Seconds. poll() takes no more than about two million; who waits longer waits again.
LONGEST_WAIT = 1e6
# The words of what isn't a request of its own, in errors.
WAITING = "wait for replies"
# The modules with the classes of connections.
CONNECTIONS = {__name__, f"{__package__}.direct"}
PACKAGE = __name__.partition(".")[0]
# The most buffers for long replies that are kept for reuse.
KEPT = 4
# The size of the buffer for short replies, in bytes.
CHUNK = 1 << 16
# The head of a reply: its length, client number, op and code.
HEAD = struct.Struct(">IHBB")
# Bytes of a reply before its samples: the head, a format, a width and a height.
BEFORE_SAMPLES = HEAD.size + 5
# Bytes of a head and a name. A reply of at most this many bytes gets no buffer of its own.
HEAD_AND_NAME = 12
# A reply begins at this offset of its buffer, so that its samples, 13 bytes on, begin at a multiple
# of 16.
LEAD = 3
# The greatest length field of a reply: 9 bytes, and the samples of the largest image, of 4 bytes
# each. The field doesn't count its own 4 bytes.
GREATEST_REPLY = 9 + 4 * GREATEST_SIDE**2
# The greatest length field of a request: the server ends if it reads a greater one.
GREATEST_REQUEST = GREATEST_LENGTH

# Replaces a reply that take_reply() has returned.
TAKEN = memoryview(bytes(8))

Part = Union[bytes, memoryview]
# Returns the fault of a refused request, given the status code.
Explain = Callable[[int], Fault]


def bad_length(size: int) -> UnexpectedReply:
    """Returns the exception for a reply whose length isn't allowed."""
    return UnexpectedReply(f"a reply has the length {size:,}, and 4 to {GREATEST_REPLY:,} are "
                           "allowed: is the other end a Feqyldan server?")


class Place(NamedTuple):
    """The call of a pipeline that made a request, in words, and where it was called."""

    number: int
    words: str
    file: str
    line: int

    def __str__(self) -> str:
        return f"{self.words}, {os.path.basename(self.file)}:{self.line}"


class Body(NamedTuple):
    """The expected body of a success: its length in bytes, and its first bytes."""

    size: int
    begin: bytes = b""


NO_BODY = Body(0)
BODIES: Dict[int, Body] = {op: Body(size) for op, size in BODY_BYTES.items()}


class Request:
    """
    A request that was sent, or waits to be sent. `words` describe it in messages, `place` is its
    call in a pipeline, and `body` the expected body of a success. `answer` is None until the reply
    has come. Then it is the reply's frame, and the position in the stream of replies where the
    frame ends.
    """

    __slots__ = ("words", "client", "op", "answer", "on_refusal", "on_success", "explain", "place",
                 "parts", "start", "end", "body", "may_lend", "has_lent",
                 "into", "is_ahead", "_error")

    def __init__(self, words: str, client: int, op: int, explain: Optional[Explain] = None,
                 body: Optional[Body] = None) -> None:
        self.words, self.client, self.op, self.explain = words, client, op, explain
        self.body: Body = BODIES.get(op, NO_BODY) if body is None else body
        self.place: Optional[Place] = None
        self.answer: Optional[Tuple[memoryview, int]] = None
        # Called when the reply has come: on_success for a success, on_refusal for a refusal. Each
        # may be called again after an interruption.
        self.on_refusal: Optional[Callable[[Request], None]] = None
        self.on_success: Optional[Callable[[memoryview], None]] = None
        # The frame until it was sent, and the positions in the stream of requests where it begins
        # and ends.
        self.parts: Sequence[Part] = ()
        self.start = self.end = 0
        # Whether a long part may be lent to the server's pipe, and whether some of it was lent.
        self.may_lend = self.has_lent = False
        # Where the samples of the reply go; the answer then has only the bytes before them.
        self.into: Optional[memoryview] = None
        # Whether it belongs to a frame of a stream, whose samples don't change until the reply.
        self.is_ahead = False
        self._error: Optional[Refused] = None

    @property
    def reply(self) -> Optional[memoryview]:
        """The reply's frame; None until it has come."""
        return None if self.answer is None else self.answer[0]

    @property
    def error(self) -> Optional[Refused]:
        """The refusal in the reply; None for a success. The reply must have come."""
        assert self.answer is not None
        code = self.answer[0][7]
        if code == 0:
            return None
        if self._error is None:
            fault = Fault() if self.explain is None else self.explain(code)
            place = "" if self.place is None else str(self.place)
            self._error = refusal(code, self.words, self.op, place, fault)
            LOG.warning("refused: %s", self._error)
        return self._error.with_traceback(None)

    def look_at(self, length: int, client: int, op: int, code: int) -> None:
        """Raises UnexpectedReply if a reply with this head can't answer this request."""
        if client != self.client or op != self.op:
            raise UnexpectedReply(f"{self.words}: the reply is to op {op} of client {client}, not "
                                  f"to op {self.op} of client {self.client}")
        if code >= len(CODES):
            raise UnexpectedReply(f"{self.words}: the reply has the unknown code {code}; the codes "
                                  f"are 0 to {len(CODES) - 1}")
        size, wanted = length - 4, 0 if code else self.body.size
        if size != wanted:
            raise UnexpectedReply(f"{self.words}: the reply with code {CODES[code]} has a body of "
                                  f"{size} bytes, not of {wanted}")

    def arrive(self, reply: memoryview, end: int) -> None:
        """Stores the reply, and the position where it ends in the stream of replies. Raises
        UnexpectedReply if the body doesn't begin as expected."""
        code, begin = reply[7], self.body.begin
        if begin and code == 0:
            found = bytes(reply[HEAD.size : HEAD.size + len(begin)])
            if found != begin:
                raise UnexpectedReply(f"{self.words}: the reply is of another object: its body "
                                      f"begins with {found.hex(' ')}, not with {begin.hex(' ')}")
        if self.on_success is not None and code == 0:
            self.on_success(reply)
        if self.on_refusal is not None and code != 0:
            self.on_refusal(self)
        self.answer = reply, end
        # The connection keeps the last request, whose functions would keep its context alive, and
        # whose place an array of the caller.
        self.on_success = self.into = None
        if code == 0:
            self.explain = None

    def take_reply(self) -> memoryview:
        """Returns the reply to a successful request. The request drops the reply, so that its
        memory is free when the caller drops it too; so this works only once."""
        assert self.answer is not None
        reply, end = self.answer
        self.answer = TAKEN, end
        return reply

    def own(self) -> None:
        """Copies the frame, which isn't completely sent yet, so that the caller may change the
        samples."""
        self.may_lend = False
        if not all(isinstance(part, bytes) for part in self.parts):
            self.parts = [bytes(part) for part in self.parts]


def moved(counts: List[int], call: Callable[[int, Any], int], descriptor: int,
          buffers: Sequence[Any]) -> None:
    """
    Makes a system call that moves bytes, and appends the new total to the counts. The last count is
    the number of bytes that were moved in all.

    No bytecode runs between the call and the append, so no exception comes between them: a signal's
    handler runs before the call moves anything, or after the count is stored.
    """
    del counts[:-1]
    counts.extend(accumulate(map(call, (descriptor,), (buffers,)), initial=counts[0]))


def references(buffers: Sequence[bytearray]) -> List[int]:
    """Returns the number of references to each buffer, if Python counts references."""
    return [sys.getrefcount(buffer) for buffer in buffers]


# The number of references to a buffer that only a list holds; None if Python doesn't count them.
ALONE = (references([bytearray()])[0]
         if sys.implementation.name == "cpython" and getattr(sys, "_is_gil_enabled", lambda: True)()
         else None)


class Buffers:
    """
    Memory for long replies. A buffer is reused when nobody holds its picture any more, because
    allocating new memory takes as long as reading into it.
    """

    def __init__(self) -> None:
        self._kept: List[bytearray] = []

    def take(self, size: int) -> bytearray:
        """Returns a buffer of this many bytes, which may have the bytes of an older reply."""
        if size < CHUNK or ALONE is None:
            return bytearray(size)
        for at, count in enumerate(references(self._kept)):
            if count == ALONE and len(self._kept[at]) == size:
                return self._kept[at]
        buffer = bytearray(size)
        self._kept = [*self._kept[1 - KEPT :], buffer]
        return buffer


class Replies:
    """
    Splits the bytes of a file descriptor into reply frames, each in a buffer of its own.

    All positions count bytes of the whole stream of replies. The bytes from `base` on are in the
    buffer that is read into: a chunk, or the buffer of one incomplete frame.
    """

    def __init__(self, descriptor: int) -> None:
        self._descriptor = descriptor
        self._buffers = Buffers()
        self._counts = [0]
        self._chunk = memoryview(bytearray(CHUNK))
        # The buffer that is read into, its base and, if it is the buffer of one frame, the reply
        # that the request gets.
        self._into: Tuple[memoryview, int, Optional[memoryview]] = self._chunk, 0, None

    def read(self, at: int) -> bool:
        """Makes one read call. All replies before the position `at` were taken. Returns whether
        bytes came; False at the end of the replies."""
        received = self._counts[-1]
        self.let_go_before(at)
        buffer, base, _ = self._into
        moved(self._counts, os.readv, self._descriptor, [buffer[received - base :]])
        return self._counts[-1] > received

    def let_go_before(self, at: int) -> None:
        """Drops the memory of the last frame, if nothing after the position `at` was read. All
        replies before it were taken."""
        if self._counts[-1] == at:
            self._into = self._chunk, at, None

    @property
    def received(self) -> int:
        """The number of bytes read, which is the position of the next byte."""
        return self._counts[-1]

    def frame_at(self, at: int, received: int,
                 request: Optional[Request]) -> Optional[Tuple[memoryview, int]]:
        """Returns the frame that begins at position `at`, and the position where it ends. Returns
        None if it isn't complete; then there is memory to read on. Bytes before the position
        `received` were read. Raises UnexpectedReply if the frame doesn't answer the request."""
        buffer, base, reply = self._into
        if reply is not None:
            end = base + len(buffer)
            return (reply, end) if received == end else None
        start, there = at - base, received - at
        if there < HEAD.size:
            self._make_room(buffer[start : start + there], at)
            return None
        size, client, op, code = HEAD.unpack_from(buffer, start)
        if not 4 <= size <= GREATEST_REPLY:
            raise bad_length(size)
        if request is None:
            raise UnexpectedReply(f"a reply to op {op} of client {client} came without a request: "
                                  "is the other end a Feqyldan server?")
        # Checked first, so that no memory is allocated for a wrong reply.
        request.look_at(size, client, op, code)
        length, end = 4 + size, at + 4 + size
        if length <= HEAD_AND_NAME and end <= received:
            return memoryview(bytes(buffer[start : start + length])), end
        if request.into is not None and code == 0:
            return self._place(request.into, at, received)
        frame = memoryview(self._buffers.take(LEAD + length))[LEAD:]
        if end <= received:
            frame[:] = buffer[start : start + length]
            return frame, end
        frame[:there] = buffer[start : start + there]
        self._into = frame, at, frame
        return None

    def _place(self, into: memoryview, at: int,
               received: int) -> Optional[Tuple[memoryview, int]]:
        """Does the work of frame_at() for a reply whose samples are read `into` other memory. The
        returned frame has no samples."""
        buffer, base, _ = self._into
        chunk = buffer[at - base : received - base]
        if len(chunk) < BEFORE_SAMPLES:
            self._make_room(chunk, at)
            return None
        before, samples = memoryview(bytes(chunk[:BEFORE_SAMPLES])), at + BEFORE_SAMPLES
        there = chunk[BEFORE_SAMPLES : BEFORE_SAMPLES + len(into)]
        into[: len(there)] = there
        if len(there) == len(into):
            return before, samples + len(into)
        self._into = into, samples, before
        return None

    def let_go(self, place: memoryview) -> None:
        """Redirects the samples that are still to come for `place` to other memory."""
        buffer, base, reply = self._into
        if buffer is place:
            self._into = memoryview(bytearray(len(place))), base, reply

    def _make_room(self, rest: memoryview, at: int) -> None:
        """Begins a new chunk with the few bytes that have come of the frame at position `at`.
        Raises UnexpectedReply if their length field is wrong."""
        size = int.from_bytes(rest[:4], "big")
        if len(rest) >= 4 and not 4 <= size <= GREATEST_REPLY:
            raise bad_length(size)
        if at > self._into[1]:
            chunk = memoryview(bytearray(CHUNK))
            chunk[: len(rest)] = rest
            self._into = chunk, at, None


def free(lock: Any, words: str) -> Any:
    """Returns the lock of a connection. Raises NestedCall if it was taken by a call that goes on in
    this thread, which a signal's handler interrupts."""
    while lock._is_owned():
        if is_within_a_call():
            raise NestedCall(f"{words}: a call of this server was interrupted, by a signal's "
                             "handler say, and goes on only after it: note in the handler what is "
                             "to be done, and do it later")
        # An interruption at the very end of a `with` has left it locked, also for other threads.
        lock.release()
    return lock


def is_within_a_call() -> bool:
    """Returns whether the call of a connection that asks this was made within another one: whether
    the stack has that one's frames too, beyond those of other modules."""
    return any(map(is_of_connection, frames_beyond(is_of_connection)))


def is_interrupted(owner: Any, lock: Any) -> bool:
    """Returns whether a call of this package is made in a signal's handler that interrupts another
    one, of a method of `owner` or of an object that has it as its context. Looks at the stack only
    if this thread has the lock, or there is none."""
    return (lock is None or lock._is_owned()) and any(
        is_of_package(frame) and is_method_of(owner, frame)
        for frame in frames_beyond(is_of_package))


def frames_beyond(is_of_call: Callable[[FrameType], bool]) -> Iterator[FrameType]:
    """Yields the frames of this thread's stack beyond those of the present call, latest first."""
    frame: Optional[FrameType] = sys._getframe()
    while frame is not None and is_of_call(frame):
        frame = frame.f_back
    while frame is not None:
        yield frame
        frame = frame.f_back


def is_of_connection(frame: FrameType) -> bool:
    return frame.f_globals.get("__name__") in CONNECTIONS


def is_of_package(frame: FrameType) -> bool:
    return str(frame.f_globals.get("__name__")).partition(".")[0] == PACKAGE


def is_method_of(owner: Any, frame: FrameType) -> bool:
    """Returns whether a frame is of a method of an object, or of one that has it as its context."""
    other = frame.f_locals.get("self")
    return other is owner or getattr(other, "_context", None) is owner


class Connection:
    """
    The connection to a server. Several threads may use it: each call is completed before another
    thread's call begins. `ended` returns how the server ended, once it has. If a reply takes longer
    than the timeout, in seconds, `give_up` is called, and nothing more is sent or read.
    """

    def __init__(self, writer: int, reader: int, ended: Callable[[bool], ServerEnded],
                 give_up: Callable[[], None], timeout: Optional[float] = None) -> None:
        self._writer, self._reader, self._ended, self._give_up = writer, reader, ended, give_up
        self._timeout = timeout
        # Seconds spent so far waiting for the oldest request without a reply.
        self._waited = 0.0
        # Reading may block if the reader isn't also the writer, and there is no timeout.
        self._may_block = reader != writer and timeout is None
        self._is_pipe = stat.S_ISFIFO(os.fstat(writer).st_mode)
        os.set_blocking(writer, False)
        os.set_blocking(reader, self._may_block)
        self._replies = Replies(reader)
        self._readable, self._either = select.poll(), select.poll()
        self._readable.register(reader, select.POLLIN)
        self._either.register(reader, select.POLLIN)
        self._either.register(writer, select.POLLOUT | (select.POLLIN if writer == reader else 0))
        self._lock = threading.RLock()
        # The last answered request, and all requests after it. At first a substitute for an
        # answered request.
        start = Request("the start", 0, 0)
        start.answer = memoryview(b""), 0
        self._line: Deque[Request] = deque([start])
        # The requests among them that aren't completely sent, and the counts of sent bytes, see
        # `moved`.
        self._unsent: Deque[Request] = deque()
        self._counts = [0]
        # Whether each frame that was read has been given to its request.
        self._is_delivered = True
        self._fault: Optional[FeqyldanError] = None

    @property
    def fault(self) -> Optional[FeqyldanError]:
        """Returns why nothing more can be sent; None while it can."""
        return self._fault

    def ask(self, request: Request, parts: List[Part]) -> None:
        """
        Sends a request and waits for its reply. The pages of a long part are lent to the server's
        pipe, because the server has read it when the reply comes. When this returns, also after one
        interruption, the caller may change what was sent; after a second interruption it may not.
        """
        with free(self._lock, request.words):
            request.may_lend = self._is_pipe
            try:
                self._send(request, parts)
                self._wait(request)
            except BaseException:
                if request.has_lent:
                    self._await_reader()
                raise

    def _await_reader(self) -> None:
        """Waits until the server has read all that was sent."""
        while self._fault is None and not pages.is_read(self._writer):
            time.sleep(PAUSE)

    def send(self, request: Request, parts: List[Part], is_followed: bool = False) -> None:
        """
        Queues a request's frame, and sends as much as the server takes now. The rest of a short
        frame is sent with the next request; a long frame has been sent when this returns. The
        caller may then change the samples. If `is_followed`, the frame is only queued and isn't
        copied, because the next request follows soon. After an interruption the frame was queued
        completely or not at all.
        """
        with free(self._lock, request.words):
            self._send(request, parts, is_followed)

    def _send(self, request: Request, parts: List[Part], is_followed: bool = False) -> None:
        if self._fault is not None:
            self._refuse_if_ended()
        try:
            if not is_followed and not self._unsent and self._send_whole(request, parts):
                return
            self._take(request, parts)
            if is_followed:
                return
            if request.end - self._unsent[0].start > SMALL:
                self._flush()
            else:
                self._write()
                if self._unsent:
                    self.own_unsent()
        except BaseException:
            self.own_unsent()
            raise

    def wait(self, request: Optional[Request] = None, limit: Optional[float] = None,
             wake: Optional[int] = None) -> bool:
        """Waits for the reply to a request, or for all replies if no request is given. Waits at
        most `limit` seconds, or until the file descriptor `wake` is readable. Returns whether the
        reply has come."""
        with free(self._lock, WAITING if request is None else request.words):
            return self._wait(request, limit, wake)

    def _wait(self, request: Optional[Request], limit: Optional[float] = None,
              wake: Optional[int] = None) -> bool:
        until = None if limit is None else time.monotonic() + limit
        if request is not None and request.answer is not None:
            return True
        if self._fault is not None:
            self._refuse_if_ended()
        if self._line[-1].end > self._counts[-1]:
            self._mend()
        blocks = self._may_block and limit is None and wake is None
        while (request or self._line[-1]).answer is None:
            if self._read(blocks and not self._unsent) or self._unsent and self._write():
                continue
            left = None if until is None else until - time.monotonic()
            if left is not None and left <= 0:
                return False
            ready = self._await(self._poll_with(wake), left)
            if wake is not None and any(descriptor == wake for descriptor, _ in ready):
                return False
        return True

    def own_unsent(self) -> None:
        """Copies the queued frames that aren't completely sent, so that the caller may change their
        samples."""
        with self._lock:
            self._mend()
            for request in self._unsent:
                request.own()

    def let_go(self, place: memoryview) -> None:
        """Redirects the samples that are still to come for `place` to other memory, after an
        interruption."""
        with self._lock:
            for request in self._line:
                if request.into is place:
                    request.into = None
            self._replies.let_go(place)

    def look(self) -> None:
        """Reads the replies that have come, and sends what the server takes now. Waits only for the
        rest of a reply that has begun, for REST milliseconds at a time."""
        with free(self._lock, WAITING):
            self._refuse_if_ended()
            self._mend()
            if self._unsent:
                self._write()
            while self._line[-1].answer is None:
                is_begun = self._replies.received > self._answered
                if not self._read() and not (is_begun and self._readable.poll(REST)):
                    break

    def close(self) -> None:
        """Ends the connection: nothing more is sent or waited for."""
        with self._lock:
            self._fault = self._fault or Closed("the connection to the server was closed")

    def lose(self, why: str) -> None:
        """Ends the connection in the child of a fork, where a thread of the parent may hold the
        lock."""
        self._lock = threading.RLock()
        self._fault = Closed(why)

    def _refuse_if_ended(self) -> None:
        if self._fault is not None:
            raise self._fault.with_traceback(None)

    # ---- what is sent

    def _take(self, request: Request, parts: List[Part]) -> None:
        """Queues a request's frame."""
        last = self._line[-1]
        if last.end > self._counts[-1]:
            self._mend()
        request.parts, request.start = parts, last.end
        request.end = last.end + sum(map(len, parts))
        self._line.append(request)
        self._unsent.append(request)

    def _send_whole(self, request: Request, parts: List[Part]) -> bool:
        """Queues and sends a short frame, if everything before it was sent. Returns whether the
        frame was queued; the bytes that the server didn't take stay unsent."""
        start = self._line[-1].end
        end = start + sum(map(len, parts))
        if end - start > SMALL or self._counts[-1] != start:
            return False
        request.parts, request.start, request.end = parts, start, end
        self._line.append(request)
        try:
            moved(self._counts, os.writev, self._writer, parts)
        except (BlockingIOError, BrokenPipeError, ConnectionResetError):
            pass
        if self._counts[-1] == end:
            request.parts = ()
        else:
            request.own()
            self._mend()
        return True

    def _mend(self) -> None:
        """Adds the last request to the unsent ones, if an interruption came before that was
        done."""
        last = self._line[-1]
        if last.end > self._counts[-1] and (not self._unsent or self._unsent[-1] is not last):
            self._unsent.append(last)

    def _flush(self) -> None:
        """Sends all that was queued, and reads replies meanwhile."""
        while self._unsent:
            if not self._write() and self._unsent and not self._read():
                self._await(self._either, None)

    def _write(self) -> bool:
        """Sends as much as the server takes now. Returns whether it took something."""
        sent = self._drop_sent()
        if not self._unsent:
            return False
        first = self._unsent[0]
        is_alone = len(self._unsent) == 1 and first.start == sent
        parts = first.parts if is_alone else self._next_parts(sent)
        try:
            if self._lends(first, parts):
                self._lend(first, parts)
            else:
                moved(self._counts, os.writev, self._writer, parts)
        except BlockingIOError:
            return False
        except (BrokenPipeError, ConnectionResetError):
            self._hear_out()
        self._drop_sent()
        return True

    def _lends(self, request: Request, parts: Sequence[Part]) -> bool:
        """Returns whether the last part of an unsent request is to be lent."""
        return (request.may_lend and len(self._unsent) == 1 and len(parts[-1]) >= pages.LEAST
                and pages.can_lend())

    def _lend(self, request: Request, parts: Sequence[Part]) -> None:
        """Sends the parts before a request's long part, or lends the long part."""
        if len(parts) > 1:
            moved(self._counts, os.writev, self._writer, parts[:-1])
            return
        request.has_lent = True
        try:
            pages.lend(self._counts, self._writer, parts[0])
        except (BlockingIOError, BrokenPipeError):
            raise
        except OSError:
            # Some memory can't be lent, for example a device's. It is copied.
            request.may_lend = False

    def _drop_sent(self) -> int:
        """Drops the frames that were sent. Returns the number of bytes that were sent in all."""
        sent, unsent = self._counts[-1], self._unsent
        while unsent and unsent[0].end <= sent:
            unsent.popleft().parts = ()
        return sent

    def _next_parts(self, sent: int) -> List[Part]:
        """Returns the next bytes to send, as many as one call takes."""
        skipped = sent - self._unsent[0].start
        parts: List[Part] = []
        for request in islice(self._unsent, REQUESTS):
            parts += request.parts
        while skipped >= len(parts[0]):
            skipped -= len(parts.pop(0))
        if skipped:
            parts[0] = memoryview(parts[0])[skipped:]
        return parts[:PARTS]

    # ---- what is read

    def _poll_with(self, wake: Optional[int]) -> select.poll:
        """
        Returns a poll object for the descriptors to wait for: the reader, the writer while a part
        of a request is unsent, and `wake`.
        """
        if wake is None:
            return self._either if self._unsent else self._readable
        poll = select.poll()
        poll.register(wake, select.POLLIN)
        if self._unsent:
            poll.register(self._writer, select.POLLOUT)
        is_one = self._unsent and self._writer == self._reader
        poll.register(self._reader, select.POLLIN | (select.POLLOUT if is_one else 0))
        return poll

    def _await(self, poll: select.poll, limit: Optional[float]) -> List[Tuple[int, int]]:
        """
        Waits for events of a poll object, at most `limit` seconds, and returns them. Only the time
        spent here counts towards the timeout: replies that came while nobody read them aren't late,
        and each request has its own time.
        """
        if self._timeout is None:
            return poll.poll(None if limit is None else min(limit, LONGEST_WAIT) * 1000 + 1)
        start = time.monotonic()
        left = max(0.0, self._timeout - self._waited)
        most = LONGEST_WAIT if limit is None else min(limit, LONGEST_WAIT)
        ready = poll.poll(min(left, most) * 1000 + 1)
        self._waited += time.monotonic() - start
        if self._waited >= self._timeout and not self._readable.poll(0):
            self._time_out()
        return ready

    def _time_out(self) -> None:
        waiting = next((request for request in self._line if request.answer is None), None)
        words = waiting.words if waiting else "the server's end"
        self._fault = TimedOut(f"{words}: no answer in {self._timeout:g} seconds, so the server "
                               "was given up: allow more by timeout=")
        LOG.warning("timed out: %s", self._fault)
        self._give_up()
        raise self._fault

    def _read(self, blocks: bool = False) -> bool:
        """Reads replies that have come; if `blocks`, waits for one. Returns whether bytes came."""
        at = self._answered
        if not self._is_delivered:
            self._deliver(at)
            return True
        if self._may_block and not blocks and not self._readable.poll(0):
            return False
        self._is_delivered = False
        try:
            if not self._replies.read(at):
                self._end()
        except BlockingIOError:
            self._is_delivered = True
            return False
        except ConnectionResetError:
            self._end()
        self._deliver(at)
        return True

    @property
    def _answered(self) -> int:
        """The position at the end of the last reply that was given to a request."""
        line = self._line
        while len(line) > 1 and line[1].answer is not None:
            line.popleft()
        answer = line[0].answer
        assert answer is not None
        return answer[1]

    def _deliver(self, at: int) -> None:
        """Gives each frame that was read to its request, beginning with the first request without
        one."""
        try:
            line, received = self._line, self._replies.received
            while at < received:
                frame = self._replies.frame_at(at, received, line[1] if len(line) > 1 else None)
                if frame is None:
                    break
                self._waited = 0.0
                reply, at = frame
                line[1].arrive(reply, at)
                line.popleft()
        except UnexpectedReply as fault:
            self._fault = fault
            raise
        self._replies.let_go_before(at)
        self._is_delivered = True

    def _hear_out(self) -> None:
        """Reads the remaining answers, up to their end, after the server has stopped reading."""
        while True:
            if not self._read():
                self._await(self._readable, None)

    def _end(self) -> None:
        self._fault = self._ended(self._replies.received > self._answered)
        raise self._fault
