"""Small grey pictures of images of any format, for people to look at."""

from __future__ import annotations

import array
import functools
import operator
from typing import Any, List, Sequence, Tuple

from .samples import (LETTERS, Format, Picture, Readable, Samples, numbers_of, numpy_module,
                      of_two_sides, picture_from, samples_of)
from .whole import whole

# Pixels of a thumbnail's longer side.
SIDE = 168


def thumbnail(picture: Any, side: int = SIDE, keeps_marks: bool = False) -> Picture:
    """
    Returns a small grey picture, of samples from 0 to 255, whose longer side has at most `side`
    pixels. Each pixel is the mean of a square of samples, or without NumPy its first sample. With
    `keeps_marks` it is the greatest one, so that a single mark is still seen. S16 and U32 samples
    are scaled: the least becomes 0, and the greatest 255. Raises BadPicture for what is no picture.
    """
    if whole(side, "the side of a thumbnail") < 1:
        raise ValueError(f"the side of a thumbnail must be at least 1, not {side}")
    picture = _in_two_sides(picture)
    step = max(1, -(-max(picture.shape) // side))
    small = reduced(picture, step, keeps_marks)
    samples = samples_of(small)
    if samples.fmt == Format.U8:
        # Without a reduction it is the caller's own.
        return picture_from(samples) if step == 1 else small
    content = greys(samples, (0, 0, samples.width, samples.height))
    numpy = numpy_module()
    if numpy is None:
        view: Any = memoryview(content).cast("B", small.shape)
        return view  # type: ignore[no-any-return]
    grey: Picture = numpy.frombuffer(content, numpy.uint8).reshape(small.shape)
    return grey


def _in_two_sides(picture: Any) -> Any:
    """Returns an image's samples, or a picture, as reduced() takes them."""
    if isinstance(picture, Readable):
        return picture.read()
    numpy = numpy_module()
    if numpy is not None and type(picture) is numpy.ndarray:
        pixels = of_two_sides(picture)
        # Another type is refused before its values are summed.
        samples_of(pixels[:1, :1])
        return pixels
    if (isinstance(picture, memoryview) and picture.ndim == 2 and picture.c_contiguous
            and picture.format in LETTERS.values()):
        return picture
    return picture_from(samples_of(picture))


def reduced(picture: Any, step: int, keeps_marks: bool = False) -> Picture:
    """Returns a picture of the same format with one sample for each square of `step` by `step`
    samples: the greatest, or the mean, which is the first without NumPy."""
    numpy = numpy_module()
    if numpy is None:
        return _of_squares(picture, step, keeps_marks)
    pixels = numpy.asarray(picture)
    if step == 1:
        return pixels  # type: ignore[no-any-return]
    height, width = pixels.shape
    rows, columns = -(-height // step), -(-width // step)
    if (height, width) != (rows * step, columns * step):
        pixels = numpy.pad(pixels, ((0, rows * step - height), (0, columns * step - width)), "edge")
    squares = pixels.reshape(rows, step, columns * step)
    if keeps_marks:
        greatest: Picture = squares.max(axis=1).reshape(rows, columns, step).max(axis=2)
        return greatest
    kind = numpy.uint32 if pixels.dtype == "uint8" else numpy.int64
    sums = squares.sum(axis=1, dtype=kind).reshape(rows, columns, step).sum(axis=2)
    mean: Picture = (sums // step**2).astype(pixels.dtype)
    return mean


def word_for(keeps_marks: bool) -> str:
    """Returns which sample of a square reduced() takes."""
    return "greatest" if keeps_marks else "first" if numpy_module() is None else "mean"


def _of_squares(picture: Any, step: int, keeps_marks: bool) -> Picture:
    height, width = picture.shape
    flat = picture.cast("B").cast(picture.format)
    row_of = _greatest_of_squares if keeps_marks else _first_of_squares
    rows = [row_of(flat[y * width : (y + step) * width], width, step)
            for y in range(0, height, step)]
    view: Any = memoryview(b"".join(rows)).cast(picture.format, (len(rows), -(-width // step)))
    return view  # type: ignore[no-any-return]


def _first_of_squares(rows: memoryview, width: int, step: int) -> bytes:
    return rows[:width:step].tobytes()


def _greatest_of_squares(rows: memoryview, width: int, step: int) -> bytes:
    content = rows.tobytes()
    lines = [rows[at : at + width] for at in range(0, len(rows), width)]
    mark = content.lstrip(b"\0")[:1]
    columns: Sequence[int]
    if rows.itemsize == 1 and not content.translate(None, b"\0" + mark):
        # Of 0 and one other number the greatest is their "or", which is fast in long numbers.
        numbers = (int.from_bytes(line, "little") for line in lines)
        columns = functools.reduce(operator.or_, numbers).to_bytes(width, "little")
    else:
        columns = [max(column) for column in zip(*lines)]
    greatest: List[int] = [max(columns[x : x + step]) for x in range(0, width, step)]
    return array.array(rows.format, greatest).tobytes()


def greys(samples: Samples, valid: Tuple[int, int, int, int]) -> bytes:
    """Returns samples from 0 to 255: the least valid one becomes 0, the greatest 255. U8 samples
    don't change."""
    if samples.fmt == Format.U8:
        return bytes(samples.content)
    numpy = numpy_module()
    return (_greys_of_numbers if numpy is None else _greys_of_array)(samples, valid)


def _greys_of_array(samples: Samples, valid: Tuple[int, int, int, int]) -> bytes:
    numpy, (x0, y0, x1, y1) = numpy_module(), valid
    kind = f">{'i' if samples.fmt == Format.S16 else 'u'}{samples.fmt.sample_bytes}"
    pixels = numpy.ndarray((samples.height, samples.width), kind, samples.content).astype("int64")
    inside = pixels[y0:y1, x0:x1]
    least, greatest = (int(inside.min()), int(inside.max())) if inside.size else (0, 0)
    scaled = numpy.clip(255 * (pixels - least) // max(1, greatest - least), 0, 255)
    return bytes(scaled.astype(numpy.uint8).tobytes())


def _greys_of_numbers(samples: Samples, valid: Tuple[int, int, int, int]) -> bytes:
    x0, y0, x1, y1 = valid
    width = samples.width
    numbers: Sequence[int] = numbers_of(bytes(samples.content), samples.fmt)
    inside = [number for y in range(y0, y1) for number in numbers[y * width + x0 : y * width + x1]]
    least, greatest = (min(inside), max(inside)) if inside else (0, 0)
    span = max(1, greatest - least)
    return bytes(min(255, max(0, 255 * (number - least) // span)) for number in numbers)
