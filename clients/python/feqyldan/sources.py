"""The sources of a stream's frames: sequences, and iterators in threads of their own."""

from __future__ import annotations

import atexit
import os
import socket
import sys
import threading
import time
import weakref
import zlib
from collections import deque
from contextlib import suppress
from queue import SimpleQueue
from typing import (
    TYPE_CHECKING, Any, Callable, Deque, Dict, Iterable, Iterator, Optional, Sequence, Tuple)

from .errors import Closed, WrongPicture
from .forks import FORKED, HELD, Forked
from .samples import array_from, is_array

if TYPE_CHECKING:
    from .context import Context

# Seconds that the end of the program waits for iterators to yield the frame that was asked for.
PATIENCE = 2.0
# The number of rows in a frame's fingerprint, which shows whether its array was overwritten.
PRINTED = 16
# Address, shape, strides and type of an array's samples.
Place = Tuple[int, Tuple[int, ...], Tuple[int, ...], str]


class Source:
    """A source of frames: has_frame says whether one has come, and take() returns it. `descriptor`
    becomes readable when a frame comes, or at the end."""

    descriptor = -1
    error: Optional[BaseException] = None

    def __enter__(self) -> Source:
        return self

    def __exit__(self, *_: object) -> None:
        self.close()

    @property
    def has_frame(self) -> bool:
        raise NotImplementedError

    @property
    def has_ended(self) -> bool:
        raise NotImplementedError

    def take(self) -> Any:
        raise NotImplementedError

    def let_go(self, frame: Any) -> None:
        """Notes that the result of a frame has come. Raises BadPicture if the array of a frame was
        overwritten before its result had come."""

    def close(self) -> None:
        """Stops taking frames."""
        raise NotImplementedError


class Listed(Source):
    """Frames in a sequence."""

    def __init__(self, frames: Sequence[Any]) -> None:
        self._frames, self._at = frames, 0

    @property
    def has_frame(self) -> bool:
        return self._at < len(self._frames)

    @property
    def has_ended(self) -> bool:
        return not self.has_frame

    def take(self) -> Any:
        self._at += 1
        return self._frames[self._at - 1]

    def close(self) -> None:
        # The sequence may become longer.
        self._frames, self._at = (), 0


class Taker(threading.Thread):
    """The thread that runs an iterator. After `leave` is called, it takes no more frames."""

    def __init__(self, take_all: Callable[[Iterator[Any]], None], frames: Iterator[Any],
                 leave: Callable[[], None]) -> None:
        super().__init__(target=take_all, args=(frames,), daemon=True)
        self.leave = leave


def leave_all() -> None:
    """
    Ends all iterators that still run, each after the frame that it was asked for, and waits for
    them at most PATIENCE seconds.

    A program that ends while one of its threads is in C++, for example in OpenCV, is aborted:
    Python ends the thread by an exception there.
    """
    takers = [thread for thread in threading.enumerate()
              if isinstance(thread, Taker) and thread.ident is not None]
    for taker in takers:
        taker.leave()
    until = time.monotonic() + PATIENCE
    # A second Ctrl-C ends the wait.
    with suppress(KeyboardInterrupt):
        for taker in takers:
            taker.join(max(0.0, until - time.monotonic()))


atexit.register(leave_all)


class Prints:
    """
    The arrays of frames that have no result yet, by the place and the layout of their samples. A
    fingerprint of some rows of each array shows whether it was overwritten too early.
    """

    def __init__(self) -> None:
        self._prints: Dict[Place, int] = {}
        self._fault: Optional[str] = None

    def take(self, frame: Any) -> None:
        """Notes a frame that the iterator has just yielded."""
        if is_pixels(frame):
            place, found = place_of(frame), print_of(frame)
            if self._prints.get(place, found) != found:
                self._fault = ("the iterator of a stream overwrote an array before the result of "
                               "its frame had come, so two frames were mixed: yield array.copy()")
            self._prints[place] = found

    def let_go(self, frame: Any) -> None:
        """Notes that the result of a frame has come."""
        if self._fault is not None:
            raise WrongPicture(self._fault)
        if is_pixels(frame):
            self._prints.pop(place_of(frame), None)


def is_pixels(frame: Any) -> bool:
    """Returns whether a value is a NumPy array with rows."""
    # Another thread may be importing NumPy, which has no arrays until then.
    kind = getattr(sys.modules.get("numpy"), "ndarray", None)
    return kind is not None and isinstance(frame, kind) and frame.ndim > 1


def place_of(pixels: Any) -> Place:
    """Returns the address of an array's samples, and the array's shape, strides and type."""
    start = int(pixels.__array_interface__["data"][0])
    return start, pixels.shape, pixels.strides, pixels.dtype.str


def print_of(pixels: Any) -> int:
    """Returns a fingerprint that almost always changes when another frame is written to the
    array."""
    return zlib.crc32(pixels[:: max(1, len(pixels) // PRINTED)].tobytes())


class Taking(Forked):
    """
    The taking of frames from an iterator in a thread, one ahead. It ends by close(), or when Python
    frees the Threaded that it is for: an interruption at the start of a stream leaves nobody to
    close it.

    The thread alone uses the writer, and the stream the reader. So no lock is needed, which an
    interruption might leave locked.
    """

    def __init__(self, contexts: Sequence[Context]) -> None:
        self.contexts = contexts
        self.error: Optional[BaseException] = None
        self.ready: Deque[Any] = deque()
        self.prints = Prints()
        # An item for each frame that may be taken. A semaphore is written in Python, and an
        # interruption within it might leave it locked.
        self.wanted: SimpleQueue[Any] = SimpleQueue()
        self.wanted.put(None)
        self.is_closed = self.is_over = False
        self.reader, self.writer = socket.socketpair()
        # Whatever socket.setdefaulttimeout() says: a frame is ready before its byte has come.
        self.reader.setblocking(True)
        HELD.add(self)

    def start_for(self, owner: Threaded, frames: Iterator[Any]) -> None:
        # The callback, which wakes the thread, is in C: no interruption is lost in it.
        self.owner = weakref.ref(owner, self.wanted.put)
        try:
            Taker(self.take_all, frames, self.close).start()
        except RuntimeError as error:
            # What an interruption within start() may become.
            if isinstance(error.__context__, KeyboardInterrupt):
                raise error.__context__ from None
            raise

    def _lose(self) -> None:
        # The thread isn't here.
        self.is_closed = True
        self.error = Closed(f"run the stream: {FORKED}")

    def take_all(self, frames: Iterator[Any]) -> None:
        thread = threading.get_ident()
        for context in self.contexts:
            context._barred.add(thread)
        try:
            self.take_each(frames)
        finally:
            # Another thread may get the same thread number.
            for context in self.contexts:
                context._barred.discard(thread)
            self.writer.close()

    def take_each(self, frames: Iterator[Any]) -> None:
        try:
            for frame in frames:
                self.prints.take(frame)
                self.ready.append(frame)
                self.tell()
                self.wanted.get()
                if self.owner() is None:
                    self.close()
                if self.is_closed:
                    return
        except BaseException as error:
            self.error = error
        self.is_over = True
        self.tell()

    def tell(self) -> None:
        # Fails once the reader is closed.
        with suppress(OSError):
            self.writer.send(b"\0", socket.MSG_NOSIGNAL)

    def close(self) -> None:
        self.is_closed = True
        self.reader.close()
        self.wanted.put(None)


class Threaded(Source):
    """Frames that a thread takes from an iterator, so that results can be yielded while the
    iterator waits for a camera. The thread must not use the contexts of the stream."""

    def __init__(self, frames: Iterable[Any], contexts: Sequence[Context]) -> None:
        taken = iter(frames)
        self._taking = Taking(contexts)
        self.descriptor = self._taking.reader.fileno()
        self._taking.start_for(self, taken)

    @property
    def error(self) -> Optional[BaseException]:  # type: ignore[override]
        return self._taking.error

    @property
    def has_frame(self) -> bool:
        return bool(self._taking.ready) and not self._taking.is_closed

    @property
    def has_ended(self) -> bool:
        taking = self._taking
        return taking.is_closed or taking.is_over and not taking.ready

    def take(self) -> Any:
        os.read(self.descriptor, 1)
        frame = self._taking.ready.popleft()
        self._taking.wanted.put(None)
        return frame

    def let_go(self, frame: Any) -> None:
        self._taking.prints.let_go(frame)

    def close(self) -> None:
        self._taking.close()


def source_of(frames: Iterable[Any], contexts: Sequence[Context]) -> Source:
    if hasattr(frames, "iloc") and is_array(frames):
        # A series of pandas is indexed by its labels, in whatever order they are.
        frames = array_from(frames)
    if isinstance(frames, (list, tuple)) or is_array(frames):
        return Listed(frames)  # type: ignore[arg-type]
    return Threaded(frames, contexts)
