"""Objects of a context: parameters and results of functions. `Context` creates them."""

from __future__ import annotations

import struct
from types import TracebackType
from typing import (
    TYPE_CHECKING, Any, Callable, NamedTuple, Optional, Tuple, Type, TypeVar)

from . import wire
from .connection import Body
from .errors import InvalidDimension, NestedCall, UnexpectedReply
from .ranges import PARAMETER_RANGES
from .samples import Format, numbers_of
from .uncopied import Uncopied
from .whole import UNSIGNED, within

if TYPE_CHECKING:
    from .context import Context

Own = TypeVar("Own", bound="Named")
Value = TypeVar("Value")
# A query: its words, the function that makes its frame for a client number, the decoder of its
# reply, and the expected body if the op doesn't determine it.
Asked = Tuple[str, Callable[[int], bytes], Callable[[memoryview], Value], Optional[Body]]


class Rectangle(NamedTuple):
    """The pixels in the columns x0 to x1 - 1 and the rows y0 to y1 - 1. An empty rectangle is four
    zeros."""

    x0: int
    y0: int
    x1: int
    y1: int


class Description(NamedTuple):
    """The description of an image: its format, its width and height, and its valid rectangle. What
    a virtual image leaves open is None."""

    fmt: Optional[Format]
    width: Optional[int]
    height: Optional[int]
    valid: Rectangle


Extremes = wire.Extremes


def in_words(fmt: Optional[Format], width: Optional[int], height: Optional[int]) -> str:
    """Returns the format and the size of an image in words. A virtual image may leave them open."""
    if fmt is None and width is None and height is None:
        return "open"
    return f"{fmt or 'open'}, {width or 'open'} by {height or 'open'}"


class Made(NamedTuple):
    """An object that the server created: its name there, and the label that the caller gave it,
    which may be empty."""

    name: int
    label: str = ""


class Named(Uncopied):
    """
    An object in a context. `name` is its number on the server, `label` its name in messages. It is
    released by close(), at the end of its `with`, when Python frees it, or with its context. On the
    server the object lives on as long as a node of a graph uses it.
    """

    __slots__ = ("_context", "_made", "_about", "_is_closed", "_words", "_reference", "__weakref__")
    _kind = "object"
    _is_virtual = False

    def __init__(self, context: Context, made: Made, about: str = "") -> None:
        if made.label and not isinstance(made.label, str):
            # The object is released before the next request, since nobody has claimed it.
            raise TypeError(f"the name of an object must be text, not {made.label!r}")
        self._context, self._made, self._about = context, made, about
        self._is_closed = False
        # For messages: the kind, the name, the label and the format or the sides, as far as there
        # are any.
        label = f' "{made.label}"' if made.label else ""
        self._words = f"{self._kind} {made.name}{label}{f' ({about})' if about else ''}"
        self._reference: bytes = wire.reference(made.name)
        context._claim(made.name, self)

    @property
    def context(self) -> Context:
        return self._context

    @property
    def name(self) -> int:
        return self._made.name

    @property
    def label(self) -> str:
        return self._made.label

    @property
    def _title(self) -> str:
        """The label, or the kind and the name without one."""
        return self.label or f"{self._kind} {self.name}"

    @property
    def closed(self) -> bool:
        return self._is_closed or self._context.closed

    def close(self) -> None:
        """Releases the object. Does nothing if it was released before, or if its context or its
        server has ended."""
        if not self.closed:
            self._is_closed = True
            words, self._words = self._words, f"closed {self._words}"
            try:
                self._context._release(self.name, words)
            except NestedCall:
                # Nothing was sent.
                self._is_closed, self._words = False, words
                raise

    def __enter__(self: Own) -> Own:
        return self

    def __exit__(self, kind: Optional[Type[BaseException]], error: Optional[BaseException],
                 trace: Optional[TracebackType]) -> None:
        self._context._close_within(self, error)

    def __str__(self) -> str:
        return self._words

    def __repr__(self) -> str:
        end = ", closed" if self.closed and not self._is_closed else ""
        return f"<{self._words}{self._values()}{end}>"

    def _values(self) -> str:
        """Returns the end of repr(): the object's values, after its kind and its name."""
        return ""


class Threshold(Named):
    """
    A threshold for Context.vxu.threshold and samples of its format. `above` is the limit of a
    binary threshold, else None; `between` has the two limits of a range threshold, else None.
    """

    __slots__ = ("_fmt", "_limits", "_outputs")
    _kind = "threshold"

    def __init__(self, context: Context, made: Made, fmt: Format, limits: Tuple[int, ...],
                 outputs: Tuple[int, int]) -> None:
        super().__init__(context, made, str(fmt))
        self._fmt, self._limits, self._outputs = fmt, limits, outputs

    @property
    def fmt(self) -> Format:
        return self._fmt

    @property
    def above(self) -> Optional[int]:
        return self._limits[0] if len(self._limits) == 1 else None

    @property
    def between(self) -> Optional[Tuple[int, int]]:
        return (self._limits[0], self._limits[1]) if len(self._limits) == 2 else None

    @property
    def true_value(self) -> int:
        return self._outputs[0]

    @property
    def false_value(self) -> int:
        return self._outputs[1]

    def _values(self) -> str:
        limits = " and ".join(map(str, self._limits))
        kind = "above" if len(self._limits) == 1 else "between"
        return f", {kind} {limits} gives {self.true_value}, else {self.false_value}"


class Lut(Named):
    """A lookup table with an entry for each sample of its format, in the order of the samples."""

    __slots__ = ("_fmt", "_entries")
    _kind = "lookup table"

    def __init__(self, context: Context, made: Made, fmt: Format, entries: bytes) -> None:
        super().__init__(context, made, str(fmt))
        self._fmt, self._entries = fmt, entries

    @property
    def fmt(self) -> Format:
        return self._fmt

    @property
    def entries(self) -> Tuple[int, ...]:
        return numbers_of(self._entries, self._fmt)

    def _values(self) -> str:
        entries = self.entries
        return f", {', '.join(map(str, entries[:4]))} .. {entries[-1]}"


class Convolution(Named):
    """The coefficients of Context.vxu.convolve, row by row, and the scale by which their sum is
    divided."""

    __slots__ = ("_coefficients", "_scale")
    _kind = "convolution"

    def __init__(self, context: Context, made: Made, coefficients: Tuple[Tuple[int, ...], ...],
                 scale: int) -> None:
        columns = len(coefficients[0]) if coefficients else 0
        super().__init__(context, made, f"{columns} by {len(coefficients)}")
        self._coefficients, self._scale = coefficients, scale

    @property
    def coefficients(self) -> Tuple[Tuple[int, ...], ...]:
        return self._coefficients

    @property
    def scale(self) -> int:
        return self._scale

    def _values(self) -> str:
        rows = " / ".join(" ".join(map(str, row)) for row in self._coefficients)
        return f", {rows} over {self._scale}"


class Distribution(Named):
    """The counts of a histogram, one for each bin. The bins have the same width, begin at the
    offset, and together cover `range` values."""

    __slots__ = ("_sides",)
    _kind = "distribution"

    def __init__(self, context: Context, made: Made, sides: Tuple[int, int, int]) -> None:
        super().__init__(context, made, f"{sides[0]} bins")
        self._sides = sides

    @property
    def bins(self) -> int:
        return self._sides[0]

    @property
    def offset(self) -> int:
        return self._sides[1]

    @property
    def range(self) -> int:
        return self._sides[2]

    def _values(self) -> str:
        return f", from {self.offset} on, {self.range} long"

    def read(self) -> Tuple[int, ...]:
        """Returns the count of each bin, beginning with the bin at the offset."""
        return self._context._ask(*self._reading())

    def _reading(self) -> Asked[Tuple[int, ...]]:
        """Returns the request of read(), for a pipeline."""
        return (f"read {self}", lambda client: wire.read_distribution(client, self.name),
                wire.counts_of, Body(2 + 4 * self.bins, struct.pack(">H", self.bins)))


class MinMax(Named):
    """The results of min_max_loc: the least and the greatest sample, how many pixels have each, and
    the first such pixel."""

    __slots__ = ()
    _kind = "extremes"

    def read(self) -> Extremes:
        """
        Returns `min` and `max`, `min_count` and `max_count` in pixels, and `min_at` and `max_at`,
        the (x, y) of the first pixel with each, row by row from the top. All are 0 if no pixel was
        valid.
        """
        return self._context._ask(*self._reading())

    def _reading(self) -> Asked[Extremes]:
        """Returns the request of read(), for a pipeline."""
        return (f"read {self}", lambda client: wire.read_min_max(client, self.name),
                wire.extremes_of, None)


def sides_of_frame(width: Any, height: Any) -> Tuple[int, int]:
    """Returns the width and the height of an image as ints. Raises TypeError for other values, and
    InvalidDimension, as the server does, if a frame can't express them."""
    return side_of_frame(width, "an image's width"), side_of_frame(height, "an image's height")


def side_of_frame(side: Any, what: str) -> int:
    """Returns a width or a height as an int, see sides_of_frame()."""
    allowed = PARAMETER_RANGES["image.width"].whole
    try:
        return within(side, what, UNSIGNED, allowed)
    except ValueError as error:
        raise InvalidDimension(str(error), None, "") from None


def description_of(reply: memoryview) -> Description:
    """Returns the description in a reply to QueryImage. Raises UnexpectedReply if its format is
    unknown."""
    fmt, width, height, valid = wire.description_of(reply)
    if fmt not in (0, *Format):
        known = ", ".join(f"{each.value} ({each})" for each in Format)
        raise UnexpectedReply(f"the reply describes an image of the unknown format {fmt}; the "
                              f"formats are {known}")
    return Description(Format(fmt) if fmt else None, width or None, height or None,
                       Rectangle(*valid))
