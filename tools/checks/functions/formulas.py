"""The formula of each vision function, and the table of all of them."""

import functools
import itertools
import operator

from feqyldan import wire
from checks.functions.pictures import (
    GREATEST, LEAST, NOWHERE, S16, U32, U8, Bins, Convolution, confined, filled, meet, narrow,
    row_of, to_zero)


def pixels(formula):
    """Makes a pixelwise function from a formula of the two samples, the output's format, the policy
    and the amount."""

    def gives(picture, beside, way):
        values = map(lambda a, b: formula(a, b, way.fmt, way.policy, way.amount), picture.samples,
                     beside)
        return confined(picture._replace(samples=tuple(values)), picture.valid)

    return gives


def sums(formula):
    """Makes an accumulating function from a formula of a sample and the amount, whose value is
    added to the output."""

    def gives(picture, held, way):
        values = (narrow(S16, wire.SATURATE, c + formula(a, way.amount))
                  for a, c in zip(picture.samples, held.samples))
        added = picture._replace(samples=tuple(values))
        return confined(added, meet(picture.valid, held.valid))

    return gives


# ---- windows: a formula of the samples around a pixel, row by row from the top


def rows_seen(picture, way, across, down):
    """Returns the samples that windows see: those of the valid rectangle, with a border around it
    if the mode has one."""
    rows = [row_of(picture, y) for y in range(picture.valid[1], picture.valid[3])]
    if way.border == wire.CONSTANT:
        side, beside = (way.constant,) * across, (way.constant,) * (len(rows[0]) + 2 * across)
        return [beside] * down + [side + row + side for row in rows] + [beside] * down
    if way.border == wire.REPLICATE:
        rows = [row[:1] * across + row + row[-1:] * across for row in rows]
        return rows[:1] * down + rows + rows[-1:] * down
    return rows


@functools.lru_cache(maxsize=64)
def windows(picture, way, columns, rows):
    """Yields the pixels at which an output is valid, with the window of each."""
    if picture.valid == NOWHERE:
        return NOWHERE, []
    seen = rows_seen(picture, way, columns // 2, rows // 2)
    width, height = len(seen[0]) - columns + 1, len(seen) - rows + 1
    if width < 1 or height < 1:
        return NOWHERE, []
    left, top = picture.valid[:2]
    if way.border == wire.UNDEFINED:
        left, top = left + columns // 2, top + rows // 2
    places = [[sample for row in seen[y : y + rows] for sample in row[x : x + columns]]
              for y in range(height) for x in range(width)]
    return (left, top, left + width, top + height), places


def weighted(samples, weights):
    return sum(map(operator.mul, samples, weights))


def nines(formula):
    def gives(picture, _, way):
        valid, places = windows(picture, way._replace(fmt=U8), 3, 3)
        return filled(picture, valid, map(formula, places))

    return gives


ACROSS, DOWN = (-1, 0, 1, -2, 0, 2, -1, 0, 1), (-1, -2, -1, 0, 0, 0, 1, 2, 1)
gradient_x = nines(lambda nine: weighted(nine, ACROSS))
gradient_y = nines(lambda nine: weighted(nine, DOWN))


def convolved(picture, convolution, way):
    """Applies the coefficients in reverse: the first one belongs to the last sample of a window,
    the second one to the sample before it, and so on."""
    valid, places = windows(picture, way._replace(fmt=U8), convolution.columns, convolution.rows)
    turned, divisor = convolution.coefficients[::-1], 2**convolution.exponent
    values = [narrow(way.fmt, wire.SATURATE, to_zero(weighted(place, turned), divisor))
              for place in places]
    return filled(picture, valid, values)


# ---- statistics of the valid samples


def counts(picture, bins, _=None):
    found = [0] * bins.bins
    for y in range(picture.valid[1], picture.valid[3]):
        for sample in row_of(picture, y):
            if bins.offset <= sample < bins.offset + bins.range:
                found[(sample - bins.offset) * bins.bins // bins.range] += 1
    return found


def integral(picture, _, __):
    """Returns for each valid pixel the sum of the valid samples that are neither right of it nor
    below it, modulo 2^32."""
    left, top, right, bottom = picture.valid
    values, above = [], [0] * (right - left)
    for y in range(top, bottom):
        row = itertools.accumulate(row_of(picture, y))
        above = [(one + other) % 2**32 for one, other in zip(above, row)]
        values += above
    return filled(picture, picture.valid, values)


def extremes(picture, _=None, __=None):
    """Returns the least and the greatest sample, the number of pixels with each, and x and y of the
    first pixel with each."""
    left, top, right, bottom = picture.valid
    places = [(x, y) for y in range(top, bottom) for x in range(left, right)]
    samples = [sample for y in range(top, bottom) for sample in row_of(picture, y)]
    if not samples:
        return [0] * 8
    ends = min(samples), max(samples)
    return [*ends, *map(samples.count, ends),
            *(part for end in ends for part in places[samples.index(end)])]


# Second operands of functions: none, an image, a table, a convolution, a threshold with these
# limits, or the prior contents of the output. Two functions have outputs that aren't images.
NOTHING, IMAGE, TABLE, MATRIX, HELD = None, "image", "table", "convolution", "held"
BINARY, RANGE = (10,), (-1, 20)
COUNTS, FOUND = "counts", "extremes"
BYTES = {(U8, U8, U8)}
EQUAL = {(U8, U8, U8), (S16, S16, S16)}
ARITHMETIC = {(a, b, S16) for a in (U8, S16) for b in (U8, S16)} | BYTES
DEPTH = {(U8, NOTHING, S16), (S16, NOTHING, U8)}
TESTED = {(U8, U8, U8), (S16, S16, U8)}
BYTE = {(U8, NOTHING, U8)}
POLICIES = (wire.WRAP, wire.SATURATE)
# The convolution and the bins of the table of functions.
SLANTED, THIRDS = Convolution(3, 3, 2, (1, 2, 3, -4, 5, -6, 7, 8, -9)), Bins(3, 5, 250)

# Function, second operand, policies, amounts, allowed formats (first, second, output), and its
# formula of a picture, of the second operand, and of the parameters.
FUNCTIONS = (
    (wire.AND_BITS, IMAGE, (0,), (0,), BYTES, pixels(lambda a, b, g, p, n: a & b)),
    (wire.OR_BITS, IMAGE, (0,), (0,), BYTES, pixels(lambda a, b, g, p, n: a | b)),
    (wire.XOR_BITS, IMAGE, (0,), (0,), BYTES, pixels(lambda a, b, g, p, n: a ^ b)),
    (wire.NOT_BITS, NOTHING, (0,), (0,), BYTE, pixels(lambda a, b, g, p, n: 255 - a)),
    (wire.ADD, IMAGE, POLICIES, (0,), ARITHMETIC,
     pixels(lambda a, b, g, p, n: narrow(g, p, a + b))),
    (wire.SUBTRACT, IMAGE, POLICIES, (0,), ARITHMETIC,
     pixels(lambda a, b, g, p, n: narrow(g, p, a - b))),
    (wire.MULTIPLY, IMAGE, POLICIES, (0, 1, 8, 15), ARITHMETIC,
     pixels(lambda a, b, g, p, n: narrow(g, p, to_zero(a * b, 2**n)))),
    (wire.ABSOLUTE_DIFFERENCE, IMAGE, (0,), (0,), EQUAL,
     pixels(lambda a, b, g, p, n: min(abs(a - b), GREATEST[g]))),
    (wire.MIN_PIXEL, IMAGE, (0,), (0,), EQUAL, pixels(lambda a, b, g, p, n: min(a, b))),
    (wire.MAX_PIXEL, IMAGE, (0,), (0,), EQUAL, pixels(lambda a, b, g, p, n: max(a, b))),
    (wire.THRESHOLD, BINARY, (0,), (0,), TESTED,
     pixels(lambda a, b, g, p, n: 200 if a > 10 else 7)),
    (wire.THRESHOLD, RANGE, (0,), (0,), TESTED,
     pixels(lambda a, b, g, p, n: 200 if b <= a <= 20 else 7)),
    (wire.TABLE_LOOKUP, TABLE, (0,), (0,), EQUAL,
     pixels(lambda a, b, g, p, n: GREATEST[g] + LEAST[g] - a)),
    (wire.CONVERT_DEPTH, NOTHING, POLICIES, (0, 1, 4, 7), DEPTH,
     pixels(lambda a, b, g, p, n: a * 2**n if g == S16 else narrow(U8, p, a // 2**n))),
    (wire.BOX, NOTHING, (0,), (0,), BYTE, nines(lambda nine: sum(nine) // 9)),
    (wire.GAUSSIAN, NOTHING, (0,), (0,), BYTE,
     nines(lambda nine: weighted(nine, (1, 2, 1, 2, 4, 2, 1, 2, 1)) // 16)),
    (wire.MEDIAN, NOTHING, (0,), (0,), BYTE, nines(lambda nine: sorted(nine)[4])),
    (wire.ERODE, NOTHING, (0,), (0,), BYTE, nines(min)),
    (wire.DILATE, NOTHING, (0,), (0,), BYTE, nines(max)),
    (wire.SOBEL, NOTHING, (0,), (0,), {(U8, NOTHING, S16)}, gradient_x),
    (wire.CONVOLVE, MATRIX, (0,), (0,), {(U8, NOTHING, U8), (U8, NOTHING, S16)}, convolved),
    (wire.HISTOGRAM, NOTHING, (0,), (0,), {(U8, NOTHING, COUNTS)}, lambda picture, _,
     way: counts(picture, THIRDS)),
    (wire.INTEGRAL, NOTHING, (0,), (0,), {(U8, NOTHING, U32)}, integral),
    (wire.MIN_MAX_LOCATION, NOTHING, (0,), (0,), {(U8, NOTHING, FOUND), (S16, NOTHING, FOUND)},
     extremes),
    (wire.ACCUMULATE, HELD, (0,), (0,), {(U8, NOTHING, S16)}, sums(lambda a, n: a)),
    (wire.ACCUMULATE_SQUARE, HELD, (0,), (0, 1, 8, 15), {(U8, NOTHING, S16)},
     sums(lambda a, n: a * a // 2**n)),
)
