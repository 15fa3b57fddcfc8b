"""Fields of bodies: parsing, refusals, and the bytes of replies."""

import struct

from feqyldan import wire
from feqyldan.wire import (
    INVALID_DIMENSION, INVALID_FORMAT, INVALID_PARAMETERS, INVALID_VALUE, OPEN, S16, U32, U8)
from checks.model.functions import (
    GREATEST_SIDE, Bins, Convolution, Image, Lut, Rectangle, Threshold, is_rectangle, is_sample,
    range_size, sample_bytes, whole)
from checks.model.state import Cell, refuse_if


class Fields:
    """A body that is parsed from its front. The first truncated or disallowed field refuses it."""

    def __init__(self, body):
        self.body, self.at = body, 0

    def bytes(self, count):
        refuse_if(self.at + count > len(self.body), INVALID_PARAMETERS)
        self.at += count
        return self.body[self.at - count : self.at]

    def byte(self):
        return self.bytes(1)[0]

    def short(self):
        return int.from_bytes(self.bytes(2), "big")

    def signed_short(self):
        return int.from_bytes(self.bytes(2), "big", signed=True)

    def long(self):
        return int.from_bytes(self.bytes(4), "big")

    def rest(self):
        return self.bytes(len(self.body) - self.at)

    def end(self):
        refuse_if(self.at < len(self.body), INVALID_PARAMETERS)


def take_nothing(_):
    return ()


def take_format(fields, allowed=(U8, S16, U32)):
    fmt = fields.byte()
    refuse_if(fmt not in allowed, INVALID_FORMAT)
    return fmt


def take_side(fields):
    side = fields.short()
    refuse_if(not 1 <= side <= GREATEST_SIDE, INVALID_DIMENSION)
    return side


def take_description(fields):
    return take_format(fields), take_side(fields), take_side(fields)


def take_open_description(fields):
    """Parses the declaration of a virtual image."""
    fmt = take_format(fields, (OPEN, U8, S16, U32))
    return fmt, take_open_side(fields), take_open_side(fields)


def take_open_side(fields):
    side = fields.short()
    refuse_if(side > GREATEST_SIDE, INVALID_DIMENSION)
    return side


def take_name(fields):
    return fields.long()


def take_cell(fields):
    return Cell(take_name(fields), fields.byte())


def take_virtual_image(fields):
    return take_name(fields), *take_open_description(fields)


def take_slots(fields):
    slots = fields.byte()
    refuse_if(not 1 <= slots <= 16, INVALID_VALUE)
    return slots


def take_rectangle(fields):
    rectangle = Rectangle(*struct.unpack(">4H", fields.bytes(8)))
    refuse_if(not is_rectangle(rectangle), INVALID_VALUE)
    return rectangle


def take_samples(fields, fmt, count):
    return struct.unpack(f">{count}{wire.SAMPLE_LETTERS[fmt]}",
                         fields.bytes(count * sample_bytes(fmt)))


def take_picture(fields):
    fmt, width, height = take_description(fields)
    return Image(fmt, width, height, whole(width, height),
                 take_samples(fields, fmt, width * height))


def take_lut(fields):
    fmt = take_format(fields, (U8, S16))
    return Lut(fmt, take_samples(fields, fmt, range_size(fmt)))


def take_limit(fields, fmt, least=None):
    """Parses a threshold's limit, which must not be below `least` if that is given."""
    limit = fields.signed_short()
    refuse_if(not is_sample(limit, fmt) or (least is not None and limit < least), INVALID_VALUE)
    return limit


def take_threshold(fields):
    kind = fields.byte()
    refuse_if(kind not in (wire.BINARY, wire.RANGE), INVALID_PARAMETERS)
    fmt = take_format(fields, (U8, S16))
    limits = (take_limit(fields, fmt),)
    if kind == wire.RANGE:
        limits += (take_limit(fields, fmt, limits[0]),)
    return Threshold(fmt, limits, fields.byte(), fields.byte())


def take_length(fields):
    """Parses the number of columns or rows of a convolution."""
    length = fields.byte()
    refuse_if(length not in (3, 5, 7, 9), INVALID_DIMENSION)
    return length


def take_exponent(fields):
    exponent = fields.byte()
    refuse_if(exponent > 31, INVALID_VALUE)
    return exponent


def take_convolution(fields):
    columns, rows, exponent = take_length(fields), take_length(fields), take_exponent(fields)
    return Convolution(columns, rows, exponent, take_samples(fields, S16, columns * rows))


def take_number(fields, least, greatest):
    number = fields.short()
    refuse_if(not least <= number <= greatest, INVALID_VALUE)
    return number


def take_bins(fields):
    return Bins(take_number(fields, 1, 256), take_number(fields, 0, 255),
                take_number(fields, 1, 256))


def take_text(fields):
    """Returns the rest of the body unparsed."""
    return fields.rest()


def description_bytes(image):
    return struct.pack(">BHH", image.fmt, image.width, image.height)


def rectangle_bytes(rectangle):
    return struct.pack(">4H", *rectangle)


def encoded_samples(image):
    """Returns the samples of an image in bytes. Encodes row by row, because an image may be
    large."""
    row = struct.Struct(f">{image.width}{wire.SAMPLE_LETTERS[image.fmt]}")
    starts = range(0, image.width * image.height, image.width)
    return b"".join(row.pack(*image.samples[start : start + image.width]) for start in starts)
