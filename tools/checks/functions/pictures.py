"""Inputs and outputs of functions: rows of samples with a valid rectangle."""

from collections import namedtuple

from feqyldan import wire

U8, S16, U32 = wire.U8, wire.S16, wire.U32

LEAST = {U8: 0, S16: -32768, U32: 0}
GREATEST = {U8: 255, S16: 32767, U32: 2**32 - 1}
ENDS = {
    U8: (0, 1, 2, 127, 128, 200, 254, 255),
    S16: (-32768, -32767, -256, -129, -3, -1, 0, 1, 2, 127, 255, 256, 32766, 32767),
    U32: (0, 1, 2**32 - 1),
}


def narrow(fmt, policy, value):
    if policy == wire.SATURATE:
        return max(LEAST[fmt], min(GREATEST[fmt], value))
    size = GREATEST[fmt] - LEAST[fmt] + 1
    return (value - LEAST[fmt]) % size + LEAST[fmt]


def to_zero(value, divisor):
    return -(-value // divisor) if value < 0 else value // divisor


def entries(fmt):
    """Returns the entries of a table that reverses the range of samples."""
    return range(GREATEST[fmt], LEAST[fmt] - 1, -1)


# Inputs and outputs of functions: rows of samples with the valid rectangle, as its start and end.
Picture = namedtuple("Picture", "width height valid samples")
Convolution = namedtuple("Convolution", "columns rows exponent coefficients")
Bins = namedtuple("Bins", "bins offset range")
# The parameters of a node: the output format, and the node's fields.
Way = namedtuple("Way", "fmt policy amount border constant",
                 defaults=(wire.WRAP, 0, wire.UNDEFINED, 0))
NOWHERE = (0, 0, 0, 0)


def whole(width, height, samples):
    return Picture(width, height, (0, 0, width, height), tuple(samples))


def row_of(picture, y):
    """Returns the valid samples of a row."""
    left, _, right, _ = picture.valid
    return picture.samples[y * picture.width + left : y * picture.width + right]


def filled(picture, valid, values):
    """Returns a picture of the same size with these values in the rectangle, row by row, and 0
    outside it."""
    values, (left, top, right, bottom) = iter(values), valid
    samples = [next(values) if left <= x < right and top <= y < bottom else 0
               for y in range(picture.height) for x in range(picture.width)]
    return picture._replace(valid=valid, samples=tuple(samples))


def meet(one, other):
    """Returns the intersection of two rectangles."""
    starts, ends = [*map(max, one[:2], other[:2])], [*map(min, one[2:], other[2:])]
    is_empty = any(start >= end for start, end in zip(starts, ends))
    return NOWHERE if is_empty else (*starts, *ends)


def confined(picture, valid):
    """Returns the picture with another valid rectangle, and 0 outside it."""
    left, top, right, bottom = valid
    starts = [y * picture.width for y in range(top, bottom)]
    return filled(picture, valid, [sample for start in starts
                                   for sample in picture.samples[start + left : start + right]])
