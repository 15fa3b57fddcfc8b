"""Pipelines: requests that are sent ahead of their replies."""

from __future__ import annotations

import sys
from types import FrameType, TracebackType
from typing import (
    TYPE_CHECKING, Any, Callable, Generic, List, Optional, Tuple, Type, TypeVar, Union, overload)

from .connection import Body, Connection, Place, Request
from .direct import DirectConnection
from .errors import FeqyldanError, NotYet, Refused
from .images import AnyImage
from .objects import Description, Distribution, Extremes, MinMax
from .samples import Picture
from .uncopied import Uncopied

if TYPE_CHECKING:
    from .context import Context
    from .graphs import VirtualImage

Value = TypeVar("Value")


class Stretch:
    """The requests of a pipeline between two calls of wait(): the refused ones in order, and
    whether the first refusal was raised."""

    __slots__ = ("refused", "is_told")

    def __init__(self) -> None:
        self.refused: List[Request] = []
        self.is_told = False

    def note(self, request: Request) -> None:
        """Notes a refused request. After an interruption it may be noted twice."""
        if self.refused[-1:] != [request]:
            self.refused.append(request)

    def drop(self, request: Request) -> None:
        """Drops a refused request whose own call raises the refusal."""
        self.refused = [noted for noted in self.refused if noted is not request]

    @property
    def errors(self) -> List[Refused]:
        found = (request.error for request in self.refused if request.answer is not None)
        return [error for error in found if error is not None]

    def raise_first(self) -> None:
        """Raises the first refusal, if there is one."""
        for error in self.errors[:1]:
            self.is_told = True
            raise error

    def raise_untold(self) -> None:
        """Raises the first refusal, if there is one, unless it was raised before."""
        if not self.is_told:
            self.raise_first()

    def raise_before(self, request: Request) -> None:
        """Raises the first refusal, if its request was sent before the given one. The reply to the
        given request has come."""
        if self.refused and number_of(self.refused[0]) < number_of(request):
            self.raise_first()


class Result(Uncopied, Generic[Value]):
    """The result of a request that was sent ahead."""

    __slots__ = ("_connection", "_request", "_decode", "_stretch", "_decoded", "__weakref__")

    def __init__(self, connection: Union[Connection, DirectConnection], request: Request,
                 decode: Callable[[memoryview], Value], stretch: Stretch) -> None:
        self._connection, self._request, self._decode = connection, request, decode
        self._stretch = stretch
        # One value when the reply was decoded, none before.
        self._decoded: List[Value] = []

    @property
    def is_there(self) -> bool:
        """Whether value() can return without waiting. Reads what has come from the server, so a
        program may poll this."""
        if self._request.answer is None:
            try:
                self._connection.look()
            except FeqyldanError:
                # value() raises it.
                return True
        return self._request.answer is not None

    def _wait(self, wake: Optional[int] = None) -> None:
        """Waits for the reply, or until the file descriptor `wake` is readable."""
        self._connection.wait(self._request, None, wake)

    def value(self, timeout: Optional[float] = None) -> Value:
        """
        Waits for the reply, and returns its result.

        Raises the request's own refusal, or the first refusal of an earlier request of the
        pipeline, because the result may then be of an older picture. Waits at most `timeout`
        seconds, if given, and then raises NotYet; value() may be called again.
        """
        self._await(timeout)
        if self._stretch.refused[:1] == [self._request]:
            # raw() raises it.
            self._stretch.is_told = True
        value = self.raw()
        self._stretch.raise_before(self._request)
        return value

    def raw(self) -> Value:
        """Waits for the reply, and returns its result even after a refusal of an earlier request.
        The result may then be of an older picture. Raises the request's own refusal."""
        if not self._decoded:
            self._await(None)
            error = self._request.error
            if error is not None:
                raise error
            assert self._request.answer is not None
            self._decoded.append(self._decode(self._request.answer[0]))
            self._request.take_reply()
        return self._decoded[0]

    def _await(self, timeout: Optional[float]) -> None:
        if timeout is not None and not hasattr(timeout, "__float__"):
            raise TypeError(f"a timeout must be a number of seconds or None, not {timeout!r}")
        if timeout is not None and not timeout >= 0:
            raise ValueError(f"a timeout must be at least 0 seconds, not {timeout!r}")
        if not self._connection.wait(self._request, timeout):
            raise NotYet(f"{self._request.words}: no reply in {timeout:g} seconds; call value() "
                         "again to wait longer")


class Pipeline(Uncopied):
    """
    While a pipeline is open, as in

        with context.pipeline() as ahead:
            for picture in pictures:
                camera.write(picture)
                graph.process()
                results.append(ahead.read(out))
        shown = [result.value() for result in results]

    calls of the context without a result, such as write() and process(), don't wait for their
    replies. The pipeline's own read(), read_pgm() and query() return a Result, whose value comes
    later. All other calls wait as always. The server answers all requests in the order of the
    calls.

    The server handles requests after a refused one like any others. So after a refusal value(), and
    each call that waits for a result, raises its own refusal, if there is one, and otherwise the
    first refusal. The end of the `with` waits for all replies, and raises the first refusal unless
    it was raised before. `refusals` lists all refusals, each with its call.
    """

    __slots__ = ("_is_followed", "_context", "_calls", "_stretch", "__weakref__")

    def __init__(self, context: Context) -> None:
        # Whether each request is sent with the next one.
        self._is_followed = False
        self._context = context
        self._calls = 0
        self._stretch = Stretch()

    @property
    def refusals(self) -> List[Refused]:
        """The refusals that have come since the last wait(), or since the pipeline was opened."""
        return self._stretch.errors

    @overload
    def read(self, thing: AnyImage) -> Result[Picture]:
        ...

    @overload
    def read(self, thing: Distribution) -> Result[Tuple[int, ...]]:
        ...

    @overload
    def read(self, thing: MinMax) -> Result[Extremes]:
        ...

    def read(self, thing: Union[AnyImage, Distribution, MinMax]) -> Result[Any]:
        """Sends the request of thing.read(), for a picture, counts or extremes."""
        return self._ask(*self._asked_of(thing, "_reading",
                                         "an image, a distribution or extremes"))

    def read_pgm(self, image: AnyImage) -> Result[bytes]:
        """Sends the request of image.read_pgm()."""
        return self._ask(*self._asked_of(image, "_reading_pgm", "an image"))

    def query(self, image: Union[AnyImage, VirtualImage]) -> Result[Description]:
        """Sends the request of image.query()."""
        return self._ask(*self._asked_of(image, "_querying", "an image"))

    def wait(self) -> None:
        """
        Waits for all replies so far, and raises the first refusal unless it was raised before.
        Results that are read later don't depend on these refusals.
        """
        self._context._connection.wait()
        stretch, self._stretch = self._stretch, Stretch()
        self._context._stretch = self._stretch
        stretch.raise_untold()

    def _take(self, request: Request) -> None:
        """Numbers a request that is sent within the pipeline, and notes it if it is refused."""
        self._calls += 1
        request.place = self._place()
        request.on_refusal = self._stretch.note

    def _place(self) -> Place:
        """Returns the place of the last call."""
        frame = calling_frame()
        return Place(self._calls, self._words(), frame.f_code.co_filename, frame.f_lineno)

    def _raise_before(self, request: Request) -> None:
        """Raises the first refusal, if its request was sent before the given one."""
        self._stretch.raise_before(request)

    def _words(self) -> str:
        return f"call {self._calls} of the pipeline"

    def __enter__(self) -> Pipeline:
        # An earlier `with` of this pipeline has told its refusals.
        self._stretch = Stretch()
        self._context._enter_pipeline(self)
        return self

    def __exit__(self, kind: Optional[Type[BaseException]], error: Optional[BaseException],
                 trace: Optional[TracebackType]) -> None:
        # Each call waits for its reply again. No interruption comes within this line.
        self._context._pipeline = None
        if error is None:
            self._context._connection.wait()
            self._stretch.raise_untold()

    def _asked_of(self, thing: Any, name: str, kinds: str) -> Any:
        """Returns what an object's method with this name says of its request. Raises TypeError for
        an object without it, and InvalidScope for one of another context."""
        if not hasattr(thing, name):
            raise TypeError(f"this call of a pipeline takes {kinds}, not {thing!r}")
        asked = getattr(thing, name)()
        self._context._look_at(asked[0], thing)
        return asked

    def _ask(self, words: str, make: Callable[[int], bytes],
             decode: Callable[[memoryview], Value],
             body: Optional[Body] = None) -> Result[Value]:
        request = self._context._send(words, make, body=body)
        # Another pipeline may be open, which has taken the request.
        taker = self._context._open_pipeline() or self
        return Result(self._context._connection, request, decode, taker._stretch)


def number_of(request: Request) -> int:
    """Returns the number of a call in its pipeline. A call without a number comes after all
    others."""
    return sys.maxsize if request.place is None else request.place.number


def calling_frame() -> FrameType:
    """Returns the frame from which this package was called."""
    frame = sys._getframe(1)
    while frame.f_back is not None and frame.f_globals.get("__package__") == __package__:
        frame = frame.f_back
    return frame
