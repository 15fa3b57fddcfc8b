"""Worked examples with literal samples."""

from feqyldan import wire
from checks.functions.formulas import COUNTS, FOUND, HELD, NOTHING, POLICIES, TABLE
from checks.functions.pictures import NOWHERE, S16, U32, U8, Bins, Convolution, Picture, Way, whole
from checks.functions.session import CLIENT, WIDTHS

# Worked examples: function, policy, amount, format and sample of in1, in2 (format and sample of an
# image, limits, or a table) or the prior output, format and sample of the output.
WRAP, SATURATE = POLICIES
WORKED = (
    (wire.AND_BITS, WRAP, 0, (U8, 12), (U8, 10), (U8, 8)),
    (wire.OR_BITS, WRAP, 0, (U8, 12), (U8, 10), (U8, 14)),
    (wire.XOR_BITS, WRAP, 0, (U8, 12), (U8, 10), (U8, 6)),
    (wire.ADD, SATURATE, 0, (U8, 200), (U8, 100), (U8, 255)),
    (wire.ADD, WRAP, 0, (U8, 200), (U8, 100), (U8, 44)),
    (wire.ADD, WRAP, 0, (U8, 200), (U8, 100), (S16, 300)),
    (wire.ADD, SATURATE, 0, (S16, 32767), (S16, 1), (S16, 32767)),
    (wire.ADD, WRAP, 0, (S16, 32767), (S16, 1), (S16, -32768)),
    (wire.SUBTRACT, SATURATE, 0, (U8, 100), (U8, 200), (U8, 0)),
    (wire.SUBTRACT, WRAP, 0, (U8, 100), (U8, 200), (U8, 156)),
    (wire.SUBTRACT, WRAP, 0, (U8, 100), (U8, 200), (S16, -100)),
    (wire.MULTIPLY, SATURATE, 0, (S16, -32768), (S16, -32768), (S16, 32767)),
    (wire.MULTIPLY, WRAP, 0, (S16, -32768), (S16, -32768), (S16, 0)),
    (wire.MULTIPLY, SATURATE, 15, (S16, -32768), (S16, -32768), (S16, 32767)),
    (wire.MULTIPLY, WRAP, 15, (S16, -32768), (S16, -32768), (S16, -32768)),
    (wire.MULTIPLY, WRAP, 1, (S16, -3), (U8, 1), (S16, -1)),
    (wire.ABSOLUTE_DIFFERENCE, WRAP, 0, (S16, -32768), (S16, 32767), (S16, 32767)),
    (wire.CONVERT_DEPTH, WRAP, 1, (S16, -1), NOTHING, (U8, 255)),
    (wire.CONVERT_DEPTH, SATURATE, 1, (S16, -1), NOTHING, (U8, 0)),
    (wire.CONVERT_DEPTH, WRAP, 7, (U8, 255), NOTHING, (S16, 32640)),
    *((wire.THRESHOLD, WRAP, 0, (U8, a), [10, 20], (U8, v))
      for a, v in ((9, 0), (10, 255), (20, 255), (21, 0))),
    *((wire.THRESHOLD, WRAP, 0, (U8, a), [10], (U8, v)) for a, v in ((10, 0), (11, 255))),
    *((wire.TABLE_LOOKUP, WRAP, 0, (S16, a), TABLE, (S16, v))
      for a, v in ((-32768, 5), (0, 6), (32767, 7), (1, 0))),
    *((wire.ACCUMULATE, WRAP, 0, (U8, a), (HELD, c), (S16, v))
      for a, c, v in ((200, 400, 600), (100, 32700, 32767), (255, -32768, -32513))),
    *((wire.ACCUMULATE_SQUARE, WRAP, n, (U8, 255), (HELD, c), (S16, v))
      for n, c, v in ((0, 0, 32767), (1, 0, 32512), (15, -32768, -32767), (0, -32768, 32257))),
)

# Worked examples of pictures: function, parameters, width, height and samples of the input,
# convolution or bins, and the expected output: samples with their valid rectangle, or numbers.
SQUARE, COUNT = (2, 2, [10, 20, 30, 40]), (3, 3, [*range(1, 10)])
MIDDLE, ALL = (1, 1, 2, 2), (0, 0, 3, 3)
REPLICATED, CONSTANT_0, CONSTANT_255 = (
    Way(U8, border=border, constant=constant)
    for border, constant in ((wire.REPLICATE, 0), (wire.CONSTANT, 0), (wire.CONSTANT, 255)))
UNDEFINED, GREATEST_9_BY_9 = Way(U8), (9, 9, [255] * 81)
FIRST_ALONE = Convolution(3, 3, 0, (1, *[0] * 8))
TRIPLED = Convolution(3, 3, 1, (*[0] * 4, -3, *[0] * 4))


def centred(sample):
    return [0] * 4 + [sample] + [0] * 4


WORKED_PICTURES = (
    (wire.BOX, UNDEFINED, SQUARE, None, ([0] * 4, NOWHERE)),
    (wire.BOX, REPLICATED, SQUARE, None, ([20, 23, 26, 30], (0, 0, 2, 2))),
    (wire.BOX, CONSTANT_0, SQUARE, None, ([11] * 4, (0, 0, 2, 2))),
    (wire.BOX, CONSTANT_255, SQUARE, None, ([152] * 4, (0, 0, 2, 2))),
    (wire.BOX, UNDEFINED, COUNT, None, (centred(5), MIDDLE)),
    (wire.GAUSSIAN, UNDEFINED, COUNT, None, (centred(5), MIDDLE)),
    (wire.MEDIAN, UNDEFINED, COUNT, None, (centred(5), MIDDLE)),
    (wire.MEDIAN, UNDEFINED, (3, 3, [1, 2, 9, 3, 4, 8, 5, 6, 7]), None, (centred(5), MIDDLE)),
    (wire.ERODE, UNDEFINED, COUNT, None, (centred(1), MIDDLE)),
    (wire.ERODE, REPLICATED, COUNT, None, ([1, 1, 2, 1, 1, 2, 4, 4, 5], ALL)),
    (wire.DILATE, UNDEFINED, COUNT, None, (centred(9), MIDDLE)),
    (wire.DILATE, REPLICATED, COUNT, None, ([5, 6, 6, 8, 9, 9, 8, 9, 9], ALL)),
    (wire.SOBEL, Way(S16), COUNT, None, (centred(8), MIDDLE)),
    (wire.SOBEL, REPLICATED._replace(fmt=S16), COUNT, None, ([4, 8, 4] * 3, ALL)),
    (wire.CONVOLVE, Way(S16), COUNT, FIRST_ALONE, (centred(9), MIDDLE)),
    (wire.CONVOLVE, UNDEFINED, COUNT, FIRST_ALONE, (centred(9), MIDDLE)),
    (wire.CONVOLVE, REPLICATED._replace(fmt=S16), (1, 1, [1]), TRIPLED, ([-1], (0, 0, 1, 1))),
    (wire.CONVOLVE, REPLICATED, (1, 1, [1]), TRIPLED, ([0], (0, 0, 1, 1))),
    (wire.CONVOLVE, REPLICATED._replace(fmt=S16), (1, 1, [1]), TRIPLED._replace(exponent=31),
     ([0], (0, 0, 1, 1))),
    *((wire.CONVOLVE, Way(fmt), GREATEST_9_BY_9, Convolution(9, 9, exponent, (-32768,) * 81),
       ([0] * 40 + [sample] + [0] * 40, (4, 4, 5, 5)))
      for fmt, exponent, sample in ((S16, 0, -32768), (S16, 15, -20655), (S16, 31, 0),
                                    (U8, 0, 0), (U8, 15, 0), (U8, 31, 0))),
    (wire.INTEGRAL, Way(U32), (2, 2, [1, 2, 3, 4]), None, ([1, 3, 4, 10], (0, 0, 2, 2))),
    (wire.HISTOGRAM, UNDEFINED, (3, 1, [85, 86, 255]), Bins(3, 0, 256), [1, 1, 1]),
    (wire.HISTOGRAM, UNDEFINED, (6, 1, [9, 10, 12, 13, 19, 20]), Bins(4, 10, 10), [2, 1, 0, 1]),
    (wire.MIN_MAX_LOCATION, UNDEFINED, (2, 2, [7, 7, 3, 7]), None, [3, 7, 1, 3, 0, 1, 0, 0]),
)


def worked(session):
    """Runs the worked examples on images of one sample. Also runs Not on rows whose sample at x is
    x."""
    # The table has 5 for the least sample, 6 for 0, and 7 for the greatest.
    table = [5] + [0] * 32767 + [6] + [0] * 32766 + [7]
    for number, policy, amount, (fmt, sample), beside, (output, wanted) in WORKED:
        is_sum = beside is not NOTHING and beside[0] == HELD
        first = session.image(fmt, 1, [sample], 1)
        target = session.image(output, 1, [beside[1] if is_sum else 99], 1)
        if beside is NOTHING or is_sum:
            in2 = None
        elif beside == TABLE:
            in2 = session.create(wire.create_lut(CLIENT, fmt, table))
        elif isinstance(beside, list):
            in2 = session.create(wire.create_threshold(CLIENT, fmt, beside, 255, 0))
        else:
            in2 = session.image(beside[0], 1, [beside[1]], 1)
        words = (f"function {number} of {sample} and {beside if beside else 'nothing'}, policy "
                 f"{policy}, amount {amount}")
        session.run(number, first, in2, target, Way(output, policy, amount), words)
        session.shows(target, output, whole(1, 1, [wanted]), words)
    for width in WIDTHS:
        first = session.image(U8, width, range(width), 1)
        target = session.image(U8, width, [99] * width, 1)
        session.ask(wire.bitwise_not(CLIENT, first, target), "Not of a row")
        session.shows(target, U8, whole(width, 1, range(255, 255 - width, -1)),
                      f"Not of a row, {width} wide")


def worked_pictures(session):
    """Runs the worked examples of window functions and statistics."""
    for number, way, (width, height, samples), beside, wanted in WORKED_PICTURES:
        words = f"function {number} of {samples}, {way}, {beside}"
        if number == wire.HISTOGRAM:
            target, output = session.distribution(beside), COUNTS
        elif number == wire.MIN_MAX_LOCATION:
            target, output = session.create(wire.create_min_max(CLIENT)), FOUND
        else:
            target, output = session.image(way.fmt, width, [99] * width * height, height), way.fmt
            wanted = Picture(width, height, wanted[1], wanted[0])
        in2 = session.convolution(beside) if number == wire.CONVOLVE else None
        session.run(number, session.image(U8, width, samples, height), in2, target, way, words)
        session.holds(target, output, wanted, words)
    across, down = (session.image(S16, 3, [99] * 9) for _ in range(2))
    session.run(wire.SOBEL, session.image(U8, 3, COUNT[2]), None, across, UNDEFINED,
                "both gradients", 0, down)
    for name, sample in ((across, 8), (down, 24)):
        session.shows(name, S16, Picture(3, 3, MIDDLE, centred(sample)), "both gradients")
