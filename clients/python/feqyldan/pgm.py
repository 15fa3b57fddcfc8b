"""Netpbm's grey maps: the header and the samples of PGM texts, and the faults of texts that the
server has refused."""

from __future__ import annotations

import array
import re
import sys
from typing import Any, NamedTuple

from . import wire
from .errors import Fault, NotAPicture, WrongPicture
from .samples import LETTERS, Format, numpy_module

WHITESPACE = b" \t\r\n"
GAP = rb"(?:[ \t\r\n]|#[^\r\n]*[\r\n])+"
NUMBERS = 3 * (GAP + rb"0*([0-9]{1,9})")
HEADER = re.compile(rb"P[25]" + NUMBERS)
# The header of Netpbm's pictures in colours.
PPM_HEADER = re.compile(rb"P[36]" + NUMBERS)
COMMENT = re.compile(rb"#[^\r\n]*")
# The greatest maxval of a picture for a U8 image, and for an S16 image.
GREATEST_MAXVAL, GREATEST_WIDE_MAXVAL = 255, 32767
# The greatest maxval of a PGM text: a sample has at most 16 bits.
MOST_MAXVAL = 65535
TOO_GREAT = ("S16 holds those from -32768 to 32767: load(path, scale=True) makes a U8 image, or "
             "read the file by cv2.imread(path, cv2.IMREAD_UNCHANGED), and write "
             "(array >> 1).astype(numpy.int16)")


class Header(NamedTuple):
    """The header of a PGM text, and the number of its bytes."""

    width: int
    height: int
    maxval: int
    size: int

    @property
    def fmt(self) -> Format:
        return Format.U8 if self.maxval <= GREATEST_MAXVAL else Format.S16


def is_pgm(content: bytes) -> bool:
    return content[:2] in (b"P2", b"P5")


def content_of(text: Any) -> memoryview:
    """Returns the bytes of a PGM text. Raises NotAPicture if it is something else."""
    try:
        return memoryview(text).cast("B")
    except TypeError:
        raise NotAPicture(f"a PGM text must be bytes, not {type(text).__name__}: context.load(path)"
                          " reads a file") from None


def header_of(text: Any) -> Header:
    """Returns the header of a PGM text. Raises BadPicture if the bytes don't begin as one."""
    found = HEADER.match(content_of(text))
    if not found:
        raise WrongPicture("these bytes don't begin as a PGM text does, with the header of P5 or P2"
                           f"{_hint_at(bytes(text[:4]))}")
    width, height, maxval = map(int, found.groups())
    return Header(width, height, maxval, found.end())


def _hint_at(begin: bytes) -> str:
    """Returns in words what kind of file begins like this, if it isn't PGM."""
    kinds = ((b"\xff\xd8", "a JPEG"), (b"\x89PNG", "a PNG"), (b"P6", "a colour picture, PPM"),
             (b"P3", "a colour picture, PPM"), (b"P4", "a bitmap, PBM"), (b"BM", "a BMP"))
    for start, kind in kinds:
        if begin.startswith(start):
            return f": they are those of {kind}, which context.load(path) reads by OpenCV or PIL"
    return f": they begin with {begin.hex(' ')}" if begin else ": there are no bytes"


def fault_of(text: Any, code: int) -> Fault:
    """Returns the fault of a PGM text, given the code of its refusal; empty if it isn't known."""
    header = HEADER.match(text) if code == wire.INVALID_FORMAT else None
    if header is None:
        return Fault()
    width, height, maxval = map(int, header.groups())
    if not 0 < maxval <= GREATEST_WIDE_MAXVAL:
        return Fault(f"Its maxval is {maxval}, and 1 to {GREATEST_WIDE_MAXVAL} are allowed.")
    found = Header(width, height, maxval, header.end())
    return Fault(_size_fault(found, bytes(text[:2]), len(text)))


def _size_fault(header: Header, kind: bytes, size: int) -> str:
    """Returns in words that a text of this many bytes is too short or too long; empty if it
    isn't."""
    samples = header.width * header.height
    if kind == b"P2":
        # A sample takes a digit and the byte before it.
        needed, there = 2 * samples, size - header.size
    else:
        # One byte is between the maxval and the samples.
        needed, there = samples * header.fmt.sample_bytes, max(0, size - header.size - 1)
    if there < needed:
        return (f"It is cut off: the samples of {header.width} by {header.height} pixels take "
                f"{needed:,} bytes after the header, and {there:,} came: copy it again.")
    if kind == b"P5" and there > needed:
        return f"{there - needed:,} bytes follow its last sample, and nothing may."
    return ""


def pixels_of(text: bytes, scale: bool) -> memoryview:
    """
    Returns the samples of a PGM text in shape (height, width): U8 samples, or S16 ones for a maxval
    above 255. With `scale` they are U8, and the maxval becomes 255. Raises BadPicture if the text
    isn't PGM, is cut off, or has a sample that is too great.
    """
    header = header_of(text)
    fault = _size_fault(header, text[:2], len(text))
    if not header.maxval or not header.width or not header.height:
        fault = (f"it has {header.width} by {header.height} pixels and the maxval {header.maxval}, "
                 "and each must be at least 1")
    if header.maxval > MOST_MAXVAL:
        fault = f"its maxval is {header.maxval}, and that of a PGM text is at most {MOST_MAXVAL}"
    if fault:
        raise WrongPicture(fault)
    numbers = _numbers_in(text, header)
    # No sample of 8 bits is above 255, and to look at each takes seconds without NumPy.
    greatest = 255 if header.maxval == 255 else _greatest(numbers)
    if greatest > header.maxval:
        raise WrongPicture(f"it has a sample of {greatest}, above its maxval {header.maxval}")
    if scale:
        numbers = array.array("B", _scaled(numbers, header.maxval))
    elif greatest > GREATEST_WIDE_MAXVAL:
        raise NotAPicture(f"it has samples up to {greatest}, and {TOO_GREAT}")
    letter = LETTERS[Format.U8 if scale else header.fmt]
    return memoryview(numbers).cast("B").cast(letter, (header.height, header.width))


def _numbers_in(text: bytes, header: Header) -> Any:
    """Returns the samples of a text as an array.array of unsigned numbers."""
    letter = "B" if header.fmt == Format.U8 else "H"
    count, rest = header.width * header.height, text[header.size:]
    if text[:2] == b"P5":
        if rest[0] not in WHITESPACE:
            raise WrongPicture("no whitespace byte follows its maxval, so nobody knows where its "
                               "samples begin")
        numbers = array.array(letter, rest[1:])
        if sys.byteorder == "little":
            numbers.byteswap()
        return numbers
    words = COMMENT.sub(b" ", rest).split()
    if len(words) != count or not all(map(bytes.isdigit, words)):
        raise WrongPicture(f"a plain PGM text of {header.width} by {header.height} pixels must "
                           f"have {count:,} numbers after its header, and it has {len(words):,} "
                           "words")
    # Six digits are more than any maxval has.
    found = [int(word.lstrip(b"0")[:6] or b"0") for word in words]
    wrong = next((number for number in found if number > header.maxval), None)
    if wrong is not None:
        raise WrongPicture(f"it has a sample of {wrong}, above its maxval {header.maxval}")
    return array.array(letter, found)


def _greatest(numbers: Any) -> int:
    numpy = numpy_module()
    greatest: int = max(numbers) if numpy is None else int(numpy.asarray(numbers).max())
    return greatest


def _scaled(numbers: Any, maxval: int) -> bytes:
    """Returns the samples as bytes, with the maxval as 255, rounded to the nearest."""
    table = bytes((2 * 255 * number + maxval) // (2 * maxval) for number in range(maxval + 1))
    return bytes(map(table.__getitem__, numbers))
