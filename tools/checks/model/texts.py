"""PGM texts: their grammar, and the pictures that they encode."""

import re
import struct

from feqyldan.wire import INVALID_DIMENSION, INVALID_FORMAT, INVALID_VALUE, S16, U8
from checks.model.functions import GREATEST_SIDE, Image, sample_bytes, whole
from checks.model.state import refuse_if

# A comment ends with the first CR or LF.
SPACE, COMMENT, NUMBER = rb"[ \t\r\n]", rb"#[^\r\n]*[\r\n]", rb"[0-9]+"
GAP = b"(?:" + SPACE + b"|" + COMMENT + b")+"
HEADER = b"(P2|P5)" + 3 * (GAP + b"(" + NUMBER + b")")
PLAIN_RASTER = b"(?:" + GAP + NUMBER + b")*(?:" + GAP + b")?"
GREATEST_MAXVAL = 32767


def number_of(digits):
    """Returns the number, or a billion for ten or more digits, because no limit is that high."""
    digits = digits.lstrip(b"0")
    return int(digits or b"0") if len(digits) < 10 else 10**9


def header_of(text):
    """Returns the magic, the three numbers and the rest; with P5 the header includes one whitespace
    byte."""
    header = re.match(HEADER, text)
    refuse_if(header is None, INVALID_FORMAT)
    magic, rest = header[1], text[header.end() :]
    if magic == b"P5":
        refuse_if(re.match(SPACE, rest) is None, INVALID_FORMAT)
        rest = rest[1:]
    return magic, [number_of(digits) for digits in header.groups()[1:]], rest


def raster_samples(raster, fmt, count):
    """Parses the samples after P5's header, of one or two bytes each."""
    refuse_if(len(raster) != count * sample_bytes(fmt), INVALID_FORMAT)
    return struct.unpack(f">{count}{'B' if fmt == U8 else 'H'}", raster)


def plain_samples(rest, count):
    """Parses the samples after P2's header. Each is a gap and a number, and a gap may follow the
    last."""
    refuse_if(re.fullmatch(PLAIN_RASTER, rest) is None, INVALID_FORMAT)
    numbers = re.sub(COMMENT, b" ", rest).split()
    refuse_if(len(numbers) != count, INVALID_FORMAT)
    return [number_of(digits) for digits in numbers]


def picture_of(text):
    """Returns the picture of a PGM text, or refuses it with its first fault."""
    magic, (width, height, maxval), rest = header_of(text)
    are_sides = 1 <= width <= GREATEST_SIDE and 1 <= height <= GREATEST_SIDE
    refuse_if(not are_sides, INVALID_DIMENSION)
    refuse_if(not 1 <= maxval <= GREATEST_MAXVAL, INVALID_FORMAT)
    fmt, count = U8 if maxval < 256 else S16, width * height
    samples = plain_samples(rest, count) if magic == b"P2" else raster_samples(rest, fmt, count)
    refuse_if(any(sample > maxval for sample in samples), INVALID_VALUE)
    return Image(fmt, width, height, whole(width, height), samples)


def text_of(image):
    """Returns the PGM text of a U8 image."""
    return b"P5\n%d %d\n255\n" % (image.width, image.height) + bytes(image.samples)
