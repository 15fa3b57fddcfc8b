"""Writes pictures to files: PGM (Netpbm's grey maps), NumPy's .npy, and PNG, by zlib alone."""

from __future__ import annotations

import struct
import zlib
from typing import Any, List, NamedTuple, Tuple

from .errors import NotAPicture
from .samples import (
    Format, Picture, Readable, array_from, is_array, lengths_in_words, numpy_module, packed,
    refuse_none_and_paths, samples_of)
from .storage import Path, name_of_file, write_bytes
from .thumbnails import greys

# Kinds of pixels in PNG (its chapter 11.2.2).
GREY, COLOURED = 0, 2
RED = 230, 30, 30
_SHAPE_OF_COLOURS = "a coloured picture must have the shape (height, width, 3)"


class Raster(NamedTuple):
    """Rows of bytes for PNG: one or two bytes per pixel for grey, three for colour."""

    width: int
    height: int
    pixel_bytes: int
    content: memoryview


def write_pgm(path: Path, picture: Any) -> None:
    """Writes a PGM file (P5) of a U8 image, an array of shape (height, width) or rows of numbers.
    Raises TypeError or ValueError for other samples."""
    name = name_of_file(path)
    write_bytes(name, pgm(picture))


def write_npy(path: Path, picture: Any) -> None:
    """Writes an .npy file of an image, an array of shape (height, width) or rows of numbers, even
    if NumPy isn't installed."""
    name = name_of_file(path)
    write_bytes(name, npy(picture))


def write_png(path: Path, picture: Any) -> None:
    """
    Writes a PNG file of an image, an array or rows of numbers. Grey has shape (height, width), and
    is U8 or S16 without negative samples; colour has shape (height, width, 3), with red, green and
    blue from 0 to 255. Raises TypeError or ValueError for other samples.
    """
    name = name_of_file(path)
    write_bytes(name, [png(picture)])


def pgm(picture: Any) -> List[Any]:
    """Returns the parts of a PGM file, for the pictures that write_pgm() takes."""
    samples = samples_of(picture)
    if samples.fmt != Format.U8:
        instead = ", or convert_depth it to U8" if samples.fmt == Format.S16 else ""
        raise ValueError(f"a PGM file has U8 samples, and this picture is {samples.fmt}: save it "
                         f"as .npy{instead}")
    return [b"P5\n%d %d\n255\n" % (samples.width, samples.height), samples.content]


def npy(picture: Any) -> List[Any]:
    """Returns the parts of an .npy file, for the pictures that write_npy() takes."""
    fmt, width, height, content = samples_of(picture)
    kind = {Format.U8: "|u1", Format.S16: ">i2", Format.U32: ">u4"}[fmt]
    about = f"{{'descr': '{kind}', 'fortran_order': False, 'shape': ({height}, {width}), }}"
    # The bytes before the samples are a multiple of 64.
    about += " " * (-(11 + len(about)) % 64) + "\n"
    return [b"\x93NUMPY\1\0" + struct.pack("<H", len(about)) + about.encode(), content]


def png(picture: Any) -> bytes:
    """Returns the bytes of a PNG file, for the pictures that write_png() takes."""
    return _file_of(_raster(picture))


def _file_of(raster: Raster) -> bytes:
    depth, kind = (8, COLOURED) if raster.pixel_bytes == 3 else (8 * raster.pixel_bytes, GREY)
    header = struct.pack(">IIBBBBB", raster.width, raster.height, depth, kind, 0, 0, 0)
    row = raster.width * raster.pixel_bytes
    # A byte before each row says that it is unfiltered.
    lines = b"".join(b"\0" + raster.content[at : at + row]
                     for at in range(0, len(raster.content), row))
    chunks = _chunk(b"IHDR", header) + _chunk(b"IDAT", zlib.compress(lines, 6)) + _chunk(b"IEND",
                                                                                         b"")
    return b"\x89PNG\r\n\x1a\n" + chunks


def shown(picture: Picture, valid: Tuple[int, int, int, int]) -> bytes:
    """Returns the bytes of a PNG file that shows a grey picture. Samples that aren't U8 are scaled,
    and a valid rectangle that isn't the whole image gets a red frame."""
    samples = samples_of(picture)
    grey = greys(samples, valid)
    width, height = samples.width, samples.height
    if tuple(valid) == (0, 0, width, height):
        return _file_of(Raster(width, height, 1, memoryview(grey)))
    coloured = bytearray(3 * len(grey))
    for channel in range(3):
        coloured[channel::3] = grey
    for x, y in _frame_of(valid):
        coloured[3 * (y * width + x) : 3 * (y * width + x) + 3] = bytes(RED)
    return _file_of(Raster(width, height, 3, memoryview(coloured)))


def _frame_of(valid: Tuple[int, int, int, int]) -> List[Tuple[int, int]]:
    """Returns the outermost pixels of a rectangle."""
    x0, y0, x1, y1 = valid
    if x0 == x1:
        return []
    return [*((x, y) for x in range(x0, x1) for y in (y0, y1 - 1)),
            *((x, y) for y in range(y0, y1) for x in (x0, x1 - 1))]


def _chunk(kind: bytes, content: bytes) -> bytes:
    return struct.pack(">I", len(content)) + kind + content + struct.pack(">I",
                                                                          zlib.crc32(kind
                                                                                     + content))


def _raster(picture: Any) -> Raster:
    if _is_coloured(picture):
        return _coloured(picture)
    samples = samples_of(picture)
    # The first byte of a sample has its sign.
    is_signed = samples.fmt == Format.S16 and max(bytes(samples.content[::2])) > 127
    if samples.fmt == Format.U32:
        raise ValueError("PNG has samples from 0 to 65535, and this picture is U32: save it as "
                         ".npy, or scale its array, as (255.0 * array / array.max())"
                         ".astype(numpy.uint8) does")
    if is_signed:
        raise ValueError("PNG has samples from 0 to 65535, and this S16 picture has negative ones: "
                         "save it as .npy, or convert_depth(image, out, vx.SATURATE, shift) to an "
                         "image of U8")
    return Raster(samples.width, samples.height, samples.fmt.sample_bytes, samples.content)


def _is_coloured(picture: Any) -> bool:
    """Returns whether a picture has several numbers for each pixel."""
    if isinstance(picture, Readable):
        return False
    refuse_none_and_paths(picture)
    shape = getattr(picture, "shape", None)
    if shape is not None:
        return len(shape) == 3 and shape[2] != 1
    try:
        return not isinstance(picture[0][0], str) and len(picture[0][0]) > 0
    except (TypeError, LookupError):
        return False


def _coloured(picture: Any) -> Raster:
    if is_array(picture):
        return _of_coloured_array(array_from(picture))
    rows = [[tuple(pixel) for pixel in row]
            for row in (picture.tolist() if hasattr(picture, "tolist") else picture)]
    height, width = len(rows), len(rows[0])
    numbers = [value for row in rows for pixel in row for value in pixel]
    try:
        content = packed(numbers, Format.U8, "a coloured sample").tobytes()
    except TypeError as error:
        raise NotAPicture(error) from None
    if any(len(row) != width for row in rows) or {len(pixel) for row in rows
                                                  for pixel in row} != {3}:
        raise ValueError(f"{_SHAPE_OF_COLOURS}, not {len(content)} numbers in "
                         f"{lengths_in_words(rows)}")
    return Raster(width, height, 3, memoryview(content))


def _of_coloured_array(pixels: Any) -> Raster:
    if pixels.dtype != "uint8":
        raise TypeError(f"coloured pixels must be uint8, not {pixels.dtype}: scale and round them "
                        "first")
    if pixels.shape[2] != 3 or pixels.size == 0:
        raise ValueError(f"{_SHAPE_OF_COLOURS}, not {pixels.shape}")
    height, width, _ = pixels.shape
    return Raster(width, height, 3,
                  memoryview(numpy_module().ascontiguousarray(pixels).reshape(-1)))
