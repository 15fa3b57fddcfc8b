"""
Converts pictures to the samples of frames, and back. Frames have samples row by row from the top,
each big-endian.

Pictures for the server are NumPy arrays of shape (height, width), or objects that NumPy can convert
to one; objects with a buffer, as bytes or array.array; and rows of numbers. U8 samples are sent
without a copy. S16 and U32 samples are copied on little-endian machines. A picture from the server
is a NumPy array if NumPy is installed, else a memoryview of the same shape: samples are [y, x] in
both, and tolist() returns their rows.
"""

from __future__ import annotations

import array
import operator
import os
import struct
import sys
from enum import IntEnum
from functools import lru_cache
from itertools import chain
from typing import (
    TYPE_CHECKING, Any, Iterable, List, NamedTuple, Optional, Sequence, Tuple, Union)

from . import wire
from .errors import NotAPicture, WrongPicture
from .modules import imported_now
from .whole import NO_SEQUENCE, TRUTHS, first_not_whole, whole

if TYPE_CHECKING:
    import numpy

    # A picture that was read, of shape (height, width), in this machine's byte order. Without NumPy
    # it is a memoryview of that shape.
    Picture = numpy.ndarray[Any, Any]
    # Numbers in one dimension, and in rows.
    Numbers = Union[Sequence[int], Iterable[int], numpy.ndarray[Any, Any]]
    Rows = Union[Sequence[Sequence[int]], numpy.ndarray[Any, Any]]
else:
    Picture = Union["numpy.ndarray[Any, Any]", memoryview]
    Numbers = Rows = Any


class Format(IntEnum):
    """The format of an image's samples: U8 from 0 to 255, S16 from -32768 to 32767, U32 from 0 to
    4294967295."""

    U8 = wire.U8
    S16 = wire.S16
    U32 = wire.U32

    @property
    def sample_bytes(self) -> int:
        # 1, 2 or 4. Each frame asks for it, so it has to be fast.
        return 1 << self._value_ - 1

    def __str__(self) -> str:
        # Faster than `name`, which Python computes on each access; each frame asks for it.
        return self._name_


def format_of(value: Any) -> Format:
    """Returns the format with this number. Raises TypeError or ValueError if there is none."""
    try:
        return Format(whole(value, "a format"))
    except (TypeError, ValueError) as error:
        raise type(error)(f"a format must be vx.U8, vx.S16 or vx.U32, not {value!r}") from None


# The type code of each format in array.array and memoryview.
LETTERS = {Format.U8: "B", Format.S16: "h", Format.U32: "I"}
FORMATS = {"B": Format.U8, "h": Format.S16, "I": Format.U32, "L": Format.U32}
# The formats by the kind and the number of bytes of NumPy's dtypes.
DTYPES = {("u", 1): Format.U8, ("i", 2): Format.S16, ("u", 4): Format.U32}
IS_SWAPPED = sys.byteorder == "little"
# What may stand before the type code of a buffer whose numbers have this machine's byte order.
NATIVE = "@=<" if IS_SWAPPED else "@=>!"
# The side, in samples, of the squares in which _in_rows() copies an array.
TILE = 128


class Samples(NamedTuple):
    """A picture as frames have it: the content is its samples, big-endian, row by row."""

    fmt: Format
    width: int
    height: int
    content: memoryview


class Size(NamedTuple):
    """The format and the size of a picture, for samples that don't have them, such as bytes."""

    fmt: Format
    width: int
    height: int


class Readable:
    """The base class of objects on a server with samples, which read() returns."""

    __slots__ = ()

    def read(self) -> Picture:
        raise NotImplementedError


@lru_cache(maxsize=None)
def numpy_module() -> Any:
    """Returns NumPy, imported when it is first needed; None if it isn't installed."""
    try:
        return imported_now("numpy")
    except ModuleNotFoundError:
        return None


def needed_numpy(what: str) -> Any:
    """Returns NumPy. Raises ImportError, which says what needs it, if it isn't installed."""
    there = numpy_module()
    if there is None:
        raise ImportError(f"{what} needs NumPy, which isn't installed: install it")
    return there


def dtype_of(fmt: Format) -> Any:
    """Returns NumPy's type of a format's samples, or its name if NumPy isn't installed."""
    name = {Format.U8: "uint8", Format.S16: "int16", Format.U32: "uint32"}[fmt]
    there = numpy_module()
    return name if there is None else there.dtype(name)


def numbers_of(content: bytes, fmt: Format) -> Tuple[int, ...]:
    """Returns the numbers of a format that big-endian bytes encode."""
    return struct.unpack(f">{len(content) // fmt.sample_bytes}{LETTERS[fmt]}", content)


def is_array(value: Any) -> bool:
    """Returns whether NumPy is installed and can convert the value to an array."""
    # For an array, looking up more names takes time.
    has_interface = (hasattr(value, "__array__") or hasattr(value, "__array_interface__")
                     or hasattr(value, "__dlpack__"))
    return has_interface and numpy_module() is not None


def samples_of(value: Any, size: Optional[Size] = None) -> Samples:
    """
    Returns the samples of a picture of shape (height, width) or (height, width, 1). Bytes and other
    samples in one dimension have the given size and this machine's byte order. Rows of numbers have
    the given format, or U8. A size of 0 by 0 gives the format alone. Raises BadPicture if the value
    is no picture.
    """
    if isinstance(value, Readable):
        value = value.read()
    if is_array(value):
        return _of_array(array_from(value), size)
    try:
        view = memoryview(value)
    except TypeError:
        return _of_rows(value, size)
    return _of_buffer(view, size)


def array_from(value: Any) -> Any:
    """Returns the value as an array. Refuses masked samples, because the mask would be lost, and a
    palette image of PIL, whose numbers aren't its greys."""
    numpy = numpy_module()
    if type(value) is numpy.ndarray:
        return value
    if isinstance(value, numpy.ma.MaskedArray) and numpy.ma.is_masked(value):
        raise WrongPicture("a picture has no mask, and some of these samples are masked: write "
                           "array.filled(0), and the mask as another picture")
    if hasattr(value, "getpalette") and getattr(value, "mode", None) in ("P", "PA"):
        raise NotAPicture("the samples of a PIL image with a palette are numbers of colours: "
                          "image.convert('L') has its greys, numpy.asarray(image) the numbers")
    by_dlpack = not (hasattr(value, "__array__") or hasattr(value, "__array_interface__"))
    try:
        return numpy.from_dlpack(value) if by_dlpack else numpy.asarray(value)
    except Exception as error:
        # As for samples on a graphics card. By DLPack each library raises errors of its own; other
        # errors of an array, such as OSError, aren't about what it is.
        if not by_dlpack and not isinstance(error, (TypeError, RuntimeError)):
            raise
        raise NotAPicture(f"NumPy can't take the samples of this {type(value).__name__}"
                          f"{' by DLPack' if by_dlpack else ''}: {error}; copy them to a NumPy "
                          "array first") from None


def entries_of(value: Any, fmt: Format) -> bytes:
    """Returns the big-endian bytes of numbers in one dimension; an array, also a memoryview, may
    have several rows."""
    told = value
    try:
        if isinstance(value, (dict, set, frozenset)):
            # Its keys would be the entries, whatever the values are.
            raise TypeError
        if is_array(value):
            value = array_from(value).reshape(-1).tolist()
        elif isinstance(value, memoryview) and value.ndim == 2:
            rows: Any = value.tolist()
            value = chain.from_iterable(rows)
        entries = list(value)
    except NO_SEQUENCE:
        raise TypeError("the entries of a lookup table must be whole numbers in a row, not "
                        f"{told!r}") from None
    return _ordered(packed(entries, fmt, "an entry")).tobytes()


def _of_array(pixels: Any, size: Optional[Size]) -> Samples:
    numpy = numpy_module()
    fmt = DTYPES.get((pixels.dtype.kind, pixels.dtype.itemsize))
    if fmt is None:
        raise NotAPicture(f"samples must be uint8, int16 or uint32, not {pixels.dtype}: "
                          f"{_conversion_of(pixels.dtype)}")
    if pixels.ndim == 1 and size is not None and pixels.size == size.width * size.height:
        pixels = pixels.reshape(size.height, size.width)
    pixels = of_two_sides(pixels)
    height, width = pixels.shape
    return Samples(fmt, width, height, _bytes_of(_in_rows(pixels, numpy), numpy))


def _in_rows(pixels: Any, numpy: Any) -> Any:
    """
    Returns the array with its rows one after the other in memory.

    An array in column order is copied in squares that fit in the cache. NumPy itself would copy
    along the rows of its output, which takes ten times as long.
    """
    if pixels.flags.c_contiguous or abs(pixels.strides[1]) <= abs(pixels.strides[0]):
        return pixels
    height, width = pixels.shape
    ordered = numpy.empty(pixels.shape, pixels.dtype)
    for top in range(0, height, TILE):
        for left in range(0, width, TILE):
            part = slice(top, top + TILE), slice(left, left + TILE)
            ordered[part] = pixels[part]
    return ordered


def _bytes_of(pixels: Any, numpy: Any) -> memoryview:
    """Returns the big-endian bytes of an array, row by row; a copy unless it has them already."""
    if pixels.itemsize == 1 and pixels.flags.c_contiguous:
        return memoryview(pixels).cast("B")
    ordered = numpy.ascontiguousarray(pixels, pixels.dtype.newbyteorder(">"))
    return memoryview(ordered.reshape(-1).view(numpy.uint8))


def not_a_grey_picture(shape: Tuple[int, ...]) -> WrongPicture:
    """Returns the error for an array whose shape isn't that of a picture, with a hint."""
    hint = ""
    if 0 in shape:
        hint = ": it is empty, as a slice outside of an array is"
    elif len(shape) == 3 and shape[0] == 1:
        hint = ": that is a batch of one picture, which is array[0]"
    elif shape[2:] in ((3,), (4,)):
        hint = ": make a grey one of it, as by cv2.cvtColor(array, cv2.COLOR_BGR2GRAY)"
    return WrongPicture(f"a grey picture must have the shape (height, width), not {shape}{hint}")


def _conversion_of(dtype: Any) -> str:
    """Returns a hint on how to convert an array of this type to samples."""
    if dtype.kind == "f":
        return ("scale, round and clip them first, as numpy.clip((255 * array).round(), 0, 255)"
                ".astype(numpy.uint8) does with numbers from 0 to 1")
    if dtype.kind == "b":
        return "a mask of 0 and 255 is mask.astype(numpy.uint8) * 255"
    if (dtype.kind, dtype.itemsize) == ("u", 2):
        return ("samples up to 32767, as of 10 or 12 bits, are array.astype(numpy.int16); of 16 "
                "bits (array >> 1).astype(numpy.int16) or (array >> 8).astype(numpy.uint8)")
    if dtype.kind in "iu":
        return ("numpy.clip(array, 0, 255).astype(numpy.uint8), or -32768, 32767 and numpy.int16; "
                "astype() alone would wrap numbers that are out of range")
    return "give an array of whole numbers"


def _of_buffer(view: memoryview, size: Optional[Size]) -> Samples:
    if view.shape is not None and view.ndim > 1 and 0 in view.shape:
        raise not_a_grey_picture(view.shape)
    fmt = FORMATS.get(view.format.lstrip(NATIVE))
    if fmt is not None and fmt.sample_bytes != view.itemsize:
        fmt = None
    if view.ndim == 3 and view.shape is not None and view.shape[2] == 1 and fmt is not None:
        view = _line_of(view).cast(LETTERS[fmt], view.shape[:2])
    if view.ndim == 2 and view.shape is not None and fmt is not None:
        return Samples(fmt, view.shape[1], view.shape[0], _reordered(_line_of(view), fmt))
    if size is None or not size.width:
        if fmt is None:
            raise NotAPicture(f"samples must have the type 'B' (U8), 'h' (S16) or 'I' (U32), not "
                              f"{view.format!r}")
        raise WrongPicture(f"{view.nbytes} bytes in one line have no width and height: give an "
                           "array of shape (height, width), or rows")
    if fmt not in (size.fmt, Format.U8):
        raise NotAPicture(f"samples of {size.fmt} must have the type {LETTERS[size.fmt]!r}, or be "
                          f"bytes, not {view.format!r}")
    if view.ndim != 1 or view.nbytes != size.width * size.height * size.fmt.sample_bytes:
        raise WrongPicture(f"{size.width} by {size.height} {size.fmt} samples have "
                           f"{size.width * size.height * size.fmt.sample_bytes} bytes, not "
                           f"{view.nbytes}")
    return Samples(size.fmt, size.width, size.height, _reordered(_line_of(view), size.fmt))


def _of_rows(value: Any, size: Optional[Size]) -> Samples:
    fmt = size.fmt if size else Format.U8
    rows = rows_in(value)
    width = len(rows[0])
    flat = [sample for row in rows for sample in row]
    try:
        content = _ordered(packed(flat, fmt, "a sample"))
    except TypeError as error:
        words = str(error) if not has_truths(flat) else (
            "True and False are no samples: write [[255 * value for value in row] for row in rows] "
            "for a mask of 0 and 255")
        raise NotAPicture(words) from None
    except ValueError as error:
        at = first_outside(flat, fmt)
        raise WrongPicture(f"{error}; it is in row {at // width}, column {at % width}") from None
    return Samples(fmt, width, len(rows), content)


def lengths_in_words(rows: Sequence[Sequence[Any]]) -> str:
    """Returns the different lengths of rows, in words."""
    lengths = sorted({len(row) for row in rows})
    return f"rows of {' and '.join(map(str, lengths))}" if lengths else "no rows"


def refuse_none_and_paths(value: Any) -> None:
    """Raises BadPicture for None and for a path, which are often passed by mistake."""
    if value is None:
        raise NotAPicture("None is no picture: cv2.imread() returns it if it can't read a file, so "
                          "check the path")
    if isinstance(value, (str, os.PathLike)):
        raise NotAPicture(f"a path is no picture, and this is {os.fspath(value)!r}: "
                          "context.load(path) reads the file")


def of_two_sides(pixels: Any) -> Any:
    """Returns an array of shape (height, width) or (height, width, 1) in two dimensions."""
    if pixels.ndim == 3 and pixels.shape[2] == 1:
        pixels = pixels.reshape(pixels.shape[:2])
    if pixels.ndim != 2 or pixels.size == 0:
        raise not_a_grey_picture(pixels.shape)
    return pixels


def rows_in(value: Any) -> Sequence[Sequence[int]]:
    """Returns the rows in a value, whatever is in them. Raises BadPicture unless they have the same
    length, and at least one sample."""
    refuse_none_and_paths(value)
    try:
        rows = [list(row) for row in value]
    except NO_SEQUENCE:
        raise NotAPicture("a picture must be an array, a buffer or rows of numbers, not "
                          f"{type(value).__name__}") from None
    if not rows or not rows[0] or any(len(row) != len(rows[0]) for row in rows):
        raise WrongPicture("a picture must have rows of the same length, and at least one "
                           f"sample, not {lengths_in_words(rows)}")
    return rows


# The least and the greatest sample of each format.
RANGES = {Format.U8: (0, 255), Format.S16: (-32768, 32767), Format.U32: (0, 2**32 - 1)}


def first_outside(numbers: Sequence[int], fmt: Format) -> int:
    """Returns the position of the first number that isn't a sample of a format."""
    least, greatest = RANGES[fmt]
    return next(at for at, number in enumerate(numbers) if not least <= number <= greatest)


def has_truths(values: Sequence[Any]) -> bool:
    """Returns whether one of the values is True or False, also of NumPy's type."""
    return any(kind.__name__ in TRUTHS for kind in set(map(type, values)))


def packed(numbers: Sequence[int], fmt: Format, what: str) -> Any:
    """Returns the numbers as an array.array of a format's samples. Raises ValueError or TypeError
    for the first number that isn't one; `what` is the message's word for a number."""
    if has_truths(numbers):
        raise TypeError(f"{what} of {fmt} must be a whole number, and one is True or False: write "
                        "1 or 0, or 255")
    try:
        if sys.version_info < (3, 10):
            # Python 3.9 would round numbers such as Decimal("2.5").
            numbers = list(map(operator.index, numbers))
        return array.array(LETTERS[fmt], numbers)
    except OverflowError:
        least, greatest = RANGES[fmt]
        wrong = numbers[first_outside(numbers, fmt)]
        raise ValueError(f"{what} of {fmt} must be from {least} to {greatest}, not "
                         f"{wrong}") from None
    except TypeError:
        wrong = first_not_whole(numbers)
        raise TypeError(f"{what} of {fmt} must be a whole number, not {wrong!r}: scale and round "
                        "it first") from None


def _line_of(view: memoryview) -> memoryview:
    """Returns the bytes of a buffer in one dimension."""
    # A buffer of ctypes can't be cast, because its format names a byte order.
    is_plain = view.c_contiguous and view.format.lstrip("@") in FORMATS
    return view.cast("B") if is_plain else memoryview(view.tobytes())


def _ordered(numbers: Any) -> memoryview:
    """Converts an array.array to the byte order of frames, in place, and returns its bytes."""
    if IS_SWAPPED:
        numbers.byteswap()
    return memoryview(numbers).cast("B")


def _reordered(content: memoryview, fmt: Format) -> memoryview:
    """Converts the bytes of samples from this machine's byte order to that of frames, or back.
    Returns a copy if the two differ."""
    if fmt == Format.U8 or not IS_SWAPPED:
        return content
    numbers = array.array(LETTERS[fmt])
    numbers.frombytes(content)
    return _ordered(numbers)


def picture_of(reply: memoryview, native: Optional[List[Any]] = None) -> Picture:
    """Returns the samples in a reply to ReadImage. They are in a buffer of their own, which the
    caller may write to. With the same list `native` it may be called again after an
    interruption."""
    fmt, width, height = wire.size_of(reply)
    return _array_of(reply[13:], Format(fmt), (height, width), [] if native is None else native)


def picture_from(samples: Samples) -> Picture:
    """Returns a copy of samples as an array, in this machine's byte order."""
    return _array_of(memoryview(bytearray(samples.content)), samples.fmt,
                     (samples.height, samples.width), [])


def place_in(out: Any, described: Size) -> Optional[memoryview]:
    """Returns the memory of an array that samples are read into; None if there are gaps between its
    rows. Raises BadPicture unless the array has the samples' shape and dtype, and can be written
    to."""
    fmt, width, height = described
    numpy = needed_numpy("an array to read into")
    if not isinstance(out, numpy.ndarray) or isinstance(out, numpy.ma.MaskedArray):
        raise NotAPicture(f"a picture is read into a NumPy array, not {type(out).__name__}")
    if out.dtype != dtype_of(fmt) or out.shape != (height, width) or not out.flags.writeable:
        kind = "" if out.flags.writeable else ", which can't be written to"
        raise WrongPicture(f"a {fmt} picture of {width} by {height} is read into a NumPy array of "
                           f"shape {(height, width)} and dtype {dtype_of(fmt)}, not one of "
                           f"{out.shape} and {out.dtype}{kind}")
    if overlaps(out):
        raise WrongPicture("a picture can't be read into an array whose samples overlap in memory, "
                           f"as those of numpy.broadcast_to() do; its strides are {out.strides}")
    return memoryview(out).cast("B") if out.flags.c_contiguous else None


def overlaps(pixels: Picture) -> bool:
    """Returns whether samples of an array overlap in memory. Those of slices don't."""
    end = pixels.itemsize
    for stride, count in sorted((abs(stride), count)
                                for stride, count in zip(pixels.strides, pixels.shape)):
        if count > 1 and stride < end:
            return True
        end += stride * (count - 1)
    return False


def turned(pixels: Picture) -> Picture:
    """Converts the samples of an array from the byte order of frames to this machine's, in place,
    and returns the array."""
    if IS_SWAPPED and pixels.itemsize > 1:
        pixels.byteswap(inplace=True)
    return pixels


def _array_of(content: memoryview, fmt: Format, shape: Tuple[int, int],
              native: List[Any]) -> Picture:
    """Returns the array of samples that frames have, converted in place. The list `native` gets
    the converted array, which a later call returns."""
    there = numpy_module()
    if there is None:
        view: Any = _reordered(content, fmt).cast(LETTERS[fmt], shape)
        return view  # type: ignore[no-any-return]
    if fmt == Format.U8:
        bytewise: Picture = there.ndarray(shape, there.uint8, content)
        return bytewise
    if not native:
        kind = f">u{fmt.sample_bytes}" if fmt != Format.S16 else ">i2"
        pixels = (there.ndarray(shape, kind, content),)
        # In C alone: no interruption comes between, so the bytes aren't swapped a second time.
        native.extend(map(there.ndarray.byteswap, pixels, (True,)) if IS_SWAPPED else pixels)
    swapped = native[0]
    picture: Picture = swapped.view(swapped.dtype.newbyteorder("="))
    return picture
