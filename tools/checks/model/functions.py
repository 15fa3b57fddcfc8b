"""Samples, rectangles, images, the other objects, and the vision functions on them, independent of
clients.

A function is a row of FUNCTIONS: its operands, its formats, and its formula. The table is at the
end.
"""

from array import array
from collections import Counter, namedtuple
from itertools import accumulate

from feqyldan import wire
from feqyldan.wire import OPEN, S16, U32, U8

# ---- samples of a format

# The least and the greatest sample.
SAMPLES = {U8: (0, 255), S16: (-32768, 32767), U32: (0, 2**32 - 1)}


def is_sample(value, fmt):
    least, greatest = SAMPLES[fmt]
    return least <= value <= greatest


def sample_bytes(fmt):
    return {U8: 1, S16: 2, U32: 4}[fmt]


def range_size(fmt):
    least, greatest = SAMPLES[fmt]
    return greatest - least + 1


def wrap(value, fmt):
    """Returns the sample that is congruent to a number modulo the number of samples."""
    least, _ = SAMPLES[fmt]
    return least + (value - least) % range_size(fmt)


def clamp(value, fmt):
    """Returns the sample nearest to a number."""
    least, greatest = SAMPLES[fmt]
    return min(max(value, least), greatest)


def narrow(value, fmt, policy):
    return wrap(value, fmt) if policy == wire.WRAP else clamp(value, fmt)


# ---- rectangles: half-open; the empty one is always four zeros

Rectangle = namedtuple("Rectangle", "left top right bottom")
EMPTY = Rectangle(0, 0, 0, 0)


def whole(width, height):
    return Rectangle(0, 0, width, height)


def is_rectangle(rectangle):
    """Checks that each start is below its end; the empty rectangle is only four zeros."""
    return rectangle == EMPTY or (rectangle.left < rectangle.right
                                  and rectangle.top < rectangle.bottom)


def is_within(rectangle, width, height):
    return rectangle.right <= width and rectangle.bottom <= height


def is_in(rectangle, x, y):
    return rectangle.left <= x < rectangle.right and rectangle.top <= y < rectangle.bottom


def places(rectangle):
    """Yields x and y of each pixel, row by row from the top."""
    return [(x, y) for y in range(rectangle.top, rectangle.bottom)
            for x in range(rectangle.left, rectangle.right)]


def rectangle_of(left, top, right, bottom):
    """Returns the rectangle without the pixels before the starts and from the ends on."""
    return Rectangle(left, top, right, bottom) if left < right and top < bottom else EMPTY


def meet(one, other):
    """Returns the intersection of two rectangles."""
    left, top = max(one.left, other.left), max(one.top, other.top)
    return rectangle_of(left, top, min(one.right, other.right), min(one.bottom, other.bottom))


def shrunk(rectangle, across, down):
    """Returns the pixels whose windows with these radii lie in the rectangle."""
    left, top, right, bottom = rectangle
    return rectangle_of(left + across, top + down, right - across, bottom - down)


def windows_of(rectangle, across, down):
    """Returns the union of the windows of a rectangle's pixels. It may extend beyond the image."""
    left, top, right, bottom = rectangle
    if rectangle == EMPTY:
        return EMPTY
    return Rectangle(left - across, top - down, right + across, bottom + down)


# ---- objects: immutable values; a change gives a name another object

# The least and the greatest side of an image.
GREATEST_SIDE = 8192

# The samples row by row from the top, and the valid rectangle. Samples outside it are 0.
Image = namedtuple("Image", "fmt width height valid samples")
# An entry for each sample of the format, from the least one on.
Lut = namedtuple("Lut", "fmt entries")
# BINARY has one limit, RANGE a lower and an upper one.
Threshold = namedtuple("Threshold", "fmt limits true_value false_value")
# The coefficients row by row. Results are divided by 2 to the exponent.
Convolution = namedtuple("Convolution", "columns rows exponent coefficients")
# The number of samples in each bin. The bins divide a range of samples that begins with the offset.
Bins = namedtuple("Bins", "bins offset range")
Distribution = namedtuple("Distribution", "bins counts")
# The least and the greatest sample, the number of pixels with each, and x and y of the first of
# each.
Extremes = namedtuple("Extremes", "min max min_count max_count min_at max_at")
NO_EXTREMES = Extremes(0, 0, 0, 0, (0, 0), (0, 0))
# The image of each slot, the newest first, so that slot -k has number k.
Delay = namedtuple("Delay", "images")
# The name of its graph, and the declaration: OPEN for each undeclared field.
VirtualImage = namedtuple("VirtualImage", "graph fmt width height")


def new_image(fmt, width, height):
    # One byte for each zero sample: some images are made only to use up a quota.
    return Image(fmt, width, height, whole(width, height), bytes(width * height))


def made(fmt, width, height, valid, sample):
    """Makes an image. Each valid pixel gets `sample` of its number in row order; the others are
    0."""
    samples = [0] * (width * height)
    for y in range(valid.top, valid.bottom):
        for place in range(y * width + valid.left, y * width + valid.right):
            samples[place] = sample(place)
    return Image(fmt, width, height, valid, samples)


def confined(image, valid):
    """Returns the image with another valid rectangle. Samples outside the old or the new one are
    0."""
    return made(image.fmt, image.width, image.height, valid, lambda place: image.samples[place])


def sample_at(image, x, y):
    return image.samples[y * image.width + x]


def valid_samples(image):
    """Returns the valid samples row by row."""
    return [sample_at(image, x, y) for x, y in places(image.valid)]


def new_distribution(bins):
    return Distribution(bins, (0,) * bins.bins)


def new_delay(image, slots):
    """Returns this many new images of this size and format."""
    return Delay((new_image(image.fmt, image.width, image.height),) * slots)


def aged(delay):
    """Ages a delay: the image of slot 0 moves to slot -1, and so on; that of the last slot moves to
    slot 0."""
    return Delay(delay.images[-1:] + delay.images[:-1])


def same_size(one, other):
    return (one.width, one.height) == (other.width, other.height)


def is_open(image):
    """Checks that a virtual image has an undeclared field."""
    return OPEN in (image.fmt, image.width, image.height)


def object_bytes(thing):
    """Returns the sample bytes that an object is charged."""
    if isinstance(thing, Delay):
        return sum(map(object_bytes, thing.images))
    return thing.width * thing.height * sample_bytes(thing.fmt) if isinstance(thing, Image) else 0


def entry_for(table, sample):
    least, _ = SAMPLES[table.fmt]
    return table.entries[sample - least]


def passes(threshold, sample):
    if len(threshold.limits) == 1:
        return sample > threshold.limits[0]
    lower, upper = threshold.limits
    return lower <= sample <= upper


# ---- nodes

# The four cells of the operands, None for an absent one.
Node = namedtuple("Node", "function border policy amount cells")
IN1, IN2, OUT1, OUT2 = range(4)
INPUTS, OUTPUTS = (IN1, IN2), (OUT1, OUT2)
Border = namedtuple("Border", "mode constant")


def format_of(thing):
    """Returns the format, or None for a missing object or one without a format."""
    return getattr(thing, "fmt", None)


# ---- pixelwise functions: the value at a pixel, from in1's sample and the second value: in2's
# sample, the output's prior sample, or in2 itself if it isn't an image

# The parameters of narrowing: the output's format, and the node's policy and amount.
Way = namedtuple("Way", "fmt policy amount")


def over_power(value, exponent):
    """Returns the quotient by a power of 2, rounded toward zero."""
    quotient = abs(value) // 2**exponent
    return -quotient if value < 0 else quotient


def and_bits(a, b, _):
    return a & b


def or_bits(a, b, _):
    return a | b


def xor_bits(a, b, _):
    return a ^ b


def not_bits(a, _, __):
    return 255 - a


def add(a, b, way):
    return narrow(a + b, way.fmt, way.policy)


def subtract(a, b, way):
    return narrow(a - b, way.fmt, way.policy)


def multiply(a, b, way):
    return narrow(over_power(a * b, way.amount), way.fmt, way.policy)


def absolute_difference(a, b, way):
    return clamp(abs(a - b), way.fmt)


def smaller(a, b, _):
    return min(a, b)


def greater(a, b, _):
    return max(a, b)


def thresholded(a, threshold, _):
    return threshold.true_value if passes(threshold, a) else threshold.false_value


def looked_up(a, table, _):
    return entry_for(table, a)


def converted(a, _, way):
    if way.fmt == S16:
        return a * 2**way.amount
    return narrow(a // 2**way.amount, way.fmt, way.policy)


def accumulated(a, c, way):
    """Adds the sample to c, the output's prior sample."""
    return clamp(c + a, way.fmt)


def accumulated_square(a, c, way):
    return clamp(c + a * a // 2**way.amount, way.fmt)


def pixelwise(value, beside=IN2):
    """Returns the formula of a pixelwise function. It gives the node's out1, valid where both
    inputs are valid, from a value of each pixel of in1 and of the second operand."""

    def gives(node, things):
        first, second, output = things[IN1], things[beside], things[OUT1]
        way = Way(output.fmt, node.policy, node.amount)
        valid, samples, others = first.valid, first.samples, None
        if isinstance(second, Image):
            valid, others = meet(valid, second.valid), second.samples

        def sample(place):
            return value(samples[place], second if others is None else others[place], way)

        return {OUT1: made(output.fmt, output.width, output.height, valid, sample)}

    return gives


# ---- window functions: the value at a pixel, from the samples in the window around it, row by
# row


def look(image, border, x, y):
    """Returns the sample at a pixel, including the border. With UNDEFINED the border is never
    read."""
    valid = image.valid
    if border.mode == wire.CONSTANT and not is_in(valid, x, y):
        return border.constant
    return sample_at(image, min(max(x, valid.left), valid.right - 1),
                     min(max(y, valid.top), valid.bottom - 1))


def valid_after(valid, border, across, down):
    """Returns the valid rectangle of a window function's output, for these radii."""
    return shrunk(valid, across, down) if border.mode == wire.UNDEFINED else valid


def window_image(image, border, radii, fmt, value):
    """Makes the image whose valid pixels have the value of the samples in their windows."""
    across, down = radii
    valid = valid_after(image.valid, border, across, down)
    seen = windows_of(valid, across, down)
    rows = [[look(image, border, x, y) for x in range(seen.left, seen.right)]
            for y in range(seen.top, seen.bottom)]

    def sample(place):
        y, x = divmod(place, image.width)
        top, left = y - down - seen.top, x - across - seen.left
        return value([one for row in rows[top : top + 2 * down + 1]
                      for one in row[left : left + 2 * across + 1]])

    return made(fmt, image.width, image.height, valid, sample)


def box(nine):
    return sum(nine) // 9


def weighted(samples, weights):
    return sum(sample * weight for sample, weight in zip(samples, weights))


def gaussian(nine):
    return weighted(nine, (1, 2, 1, 2, 4, 2, 1, 2, 1)) // 16


def median(nine):
    return sorted(nine)[4]


def gradient_x(nine):
    return weighted(nine, (-1, 0, 1, -2, 0, 2, -1, 0, 1))


def gradient_y(nine):
    return weighted(nine, (-1, -2, -1, 0, 0, 0, 1, 2, 1))


def windowed(value, second=None):
    """Returns the formula of a 3x3 window function. A pixel of out1 has the value of its window's
    nine samples, and a pixel of out2 the second value."""

    def gives(node, things):
        values = {OUT1: value, OUT2: second}
        return {k: window_image(things[IN1], node.border, (1, 1), things[k].fmt, values[k])
                for k in OUTPUTS if things[k] is not None}

    return gives


def turned(convolution):
    """Returns the weights of the window row by row. A coefficient applies to the sample C/2 -
    column to the right and R/2 - row below."""
    columns, rows = convolution.columns, convolution.rows
    weights = [0] * (columns * rows)
    for row in range(rows):
        for column in range(columns):
            across, down = columns // 2 - column, rows // 2 - row
            at = (rows // 2 + down) * columns + columns // 2 + across
            weights[at] = convolution.coefficients[row * columns + column]
    return weights


def convolved(node, things):
    convolution, fmt = things[IN2], things[OUT1].fmt
    weights, radii = turned(convolution), (convolution.columns // 2, convolution.rows // 2)

    def value(samples):
        return clamp(over_power(weighted(samples, weights), convolution.exponent), fmt)

    return {OUT1: window_image(things[IN1], node.border, radii, fmt, value)}


# ---- statistics: of the valid samples


def bin_of(bins, sample):
    """Returns the bin of a sample, or None."""
    if not bins.offset <= sample < bins.offset + bins.range:
        return None
    return (sample - bins.offset) * bins.bins // bins.range


def histogram(node, things):
    """Returns the counts of the valid samples. Each run counts from 0."""
    bins = things[OUT1].bins
    found = Counter(bin_of(bins, sample) for sample in valid_samples(things[IN1]))
    return {OUT1: Distribution(bins, tuple(found[number] for number in range(bins.bins)))}


def row_of_sums(above, samples):
    """Returns the sums of a row, from those of the row above and its own samples."""
    return [(one + other) % 2**32 for one, other in zip(above, accumulate(samples))]


def integral(node, things):
    """Returns for a valid pixel the sum of the valid samples that are neither right of it nor below
    it, modulo 2^32."""
    image, valid = things[IN1], things[IN1].valid
    # Compact arrays, because an image may be large.
    sums = array("I", [0]) * len(image.samples)
    above = [0] * (valid.right - valid.left)
    for y in range(valid.top, valid.bottom):
        row = slice(y * image.width + valid.left, y * image.width + valid.right)
        above = row_of_sums(above, image.samples[row])
        sums[row] = array("I", above)
    return {OUT1: Image(U32, image.width, image.height, valid, sums)}


def extremes_of(samples, at):
    """Returns the extremes of samples at these pixels."""
    if not samples:
        return NO_EXTREMES
    least, greatest = min(samples), max(samples)
    firsts = at[samples.index(least)], at[samples.index(greatest)]
    return Extremes(least, greatest, samples.count(least), samples.count(greatest), *firsts)


def extremes(node, things):
    return {OUT1: extremes_of(valid_samples(things[IN1]), places(things[IN1].valid))}


# ---- the format of an undeclared output, from in1's format, which is OPEN if it is unknown


def always(fmt):
    return lambda _: fmt


def same_format(first):
    return first


def other_depth(first):
    if first == OPEN:
        return OPEN
    return U8 if first == S16 else S16


# ---- the table of functions

# The kinds of in1, in2, out1 and out2, None for an operand that the function doesn't have; its
# policies; its greatest amount or None; the accepted formats of the four operands; the format of an
# undeclared output; the formula of its outputs, from its inputs and the prior contents of the
# outputs; the operands one of which may be absent; and whether it accumulates into its output
# image.
Function = namedtuple(
    "Function", "kinds policies greatest_amount formats opened gives optional accumulates",
    defaults=((), False))

NO_POLICY, POLICIES = (0,), (wire.WRAP, wire.SATURATE)
ONE_IMAGE = (Image, None, Image, None)
TWO_IMAGES = (Image, Image, Image, None)
WITH_THRESHOLD = (Image, Threshold, Image, None)
WITH_TABLE = (Image, Lut, Image, None)
WITH_CONVOLUTION = (Image, Convolution, Image, None)
TO_TWO_IMAGES = (Image, None, Image, Image)
TO_DISTRIBUTION = (Image, None, Distribution, None)
TO_EXTREMES = (Image, None, Extremes, None)

BYTES = ((U8, U8, U8, None),)
EQUAL = ((U8, U8, U8, None), (S16, S16, S16, None))
TO_SHORTS = ((U8, U8, S16, None), (U8, S16, S16, None), (S16, U8, S16, None), (S16, S16, S16, None))
ARITHMETIC = (*TO_SHORTS, *BYTES)
TO_BYTES = ((U8, U8, U8, None), (S16, S16, U8, None))
ONE_OF_BYTES = ((U8, None, U8, None),)
DEPTHS = ((U8, None, S16, None), (S16, None, U8, None))
GRADIENTS = ((U8, None, S16, S16), (U8, None, S16, None), (U8, None, None, S16))
CONVOLVED = ((U8, None, U8, None), (U8, None, S16, None))
ADDED = ((U8, None, S16, None),)
SUMMED = ((U8, None, U32, None),)
COUNTED = ((U8, None, None, None),)
COMPARED = ((U8, None, None, None), (S16, None, None, None))

FUNCTIONS = {
    wire.AND_BITS: Function(TWO_IMAGES, NO_POLICY, None, BYTES, always(U8), pixelwise(and_bits)),
    wire.OR_BITS: Function(TWO_IMAGES, NO_POLICY, None, BYTES, always(U8), pixelwise(or_bits)),
    wire.XOR_BITS: Function(TWO_IMAGES, NO_POLICY, None, BYTES, always(U8), pixelwise(xor_bits)),
    wire.NOT_BITS: Function(ONE_IMAGE, NO_POLICY, None, ONE_OF_BYTES, always(U8),
                            pixelwise(not_bits)),
    wire.ADD: Function(TWO_IMAGES, POLICIES, None, ARITHMETIC, always(S16), pixelwise(add)),
    wire.SUBTRACT: Function(TWO_IMAGES, POLICIES, None, ARITHMETIC, always(S16),
                            pixelwise(subtract)),
    wire.MULTIPLY: Function(TWO_IMAGES, POLICIES, 15, ARITHMETIC, always(S16), pixelwise(multiply)),
    wire.ABSOLUTE_DIFFERENCE: Function(
        TWO_IMAGES, NO_POLICY, None, EQUAL, same_format, pixelwise(absolute_difference)),
    wire.MIN_PIXEL: Function(TWO_IMAGES, NO_POLICY, None, EQUAL, same_format, pixelwise(smaller)),
    wire.MAX_PIXEL: Function(TWO_IMAGES, NO_POLICY, None, EQUAL, same_format, pixelwise(greater)),
    wire.THRESHOLD: Function(WITH_THRESHOLD, NO_POLICY, None, TO_BYTES, always(U8),
                             pixelwise(thresholded)),
    wire.TABLE_LOOKUP: Function(WITH_TABLE, NO_POLICY, None, EQUAL, same_format,
                                pixelwise(looked_up)),
    wire.CONVERT_DEPTH: Function(ONE_IMAGE, POLICIES, 7, DEPTHS, other_depth, pixelwise(converted)),
    wire.BOX: Function(ONE_IMAGE, NO_POLICY, None, ONE_OF_BYTES, always(U8), windowed(box)),
    wire.GAUSSIAN: Function(ONE_IMAGE, NO_POLICY, None, ONE_OF_BYTES, always(U8),
                            windowed(gaussian)),
    wire.MEDIAN: Function(ONE_IMAGE, NO_POLICY, None, ONE_OF_BYTES, always(U8), windowed(median)),
    wire.ERODE: Function(ONE_IMAGE, NO_POLICY, None, ONE_OF_BYTES, always(U8), windowed(min)),
    wire.DILATE: Function(ONE_IMAGE, NO_POLICY, None, ONE_OF_BYTES, always(U8), windowed(max)),
    wire.SOBEL: Function(
        TO_TWO_IMAGES, NO_POLICY, None, GRADIENTS, always(S16), windowed(gradient_x, gradient_y),
        OUTPUTS),
    wire.CONVOLVE: Function(WITH_CONVOLUTION, NO_POLICY, None, CONVOLVED, always(S16), convolved),
    wire.HISTOGRAM: Function(TO_DISTRIBUTION, NO_POLICY, None, COUNTED, None, histogram),
    wire.INTEGRAL: Function(ONE_IMAGE, NO_POLICY, None, SUMMED, always(U32), integral),
    wire.MIN_MAX_LOCATION: Function(TO_EXTREMES, NO_POLICY, None, COMPARED, None, extremes),
    wire.ACCUMULATE: Function(
        ONE_IMAGE, NO_POLICY, None, ADDED, always(S16), pixelwise(accumulated, OUT1),
        accumulates=True),
    wire.ACCUMULATE_SQUARE: Function(
        ONE_IMAGE, NO_POLICY, 15, ADDED, always(S16), pixelwise(accumulated_square, OUT1),
        accumulates=True),
}
