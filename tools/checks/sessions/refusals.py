"""Sessions on refusals of objects of the wrong kind."""

from feqyldan import wire
from feqyldan.wire import (
    BOX, CONVOLVE, DILATE, ERODE, GAUSSIAN, HISTOGRAM, INTEGRAL, INVALID_DIMENSION, INVALID_FORMAT,
    INVALID_GRAPH, INVALID_REFERENCE, INVALID_TYPE, INVALID_VALUE, MEDIAN, MIN_MAX_LOCATION,
    MULTIPLE_WRITERS, S16, SOBEL, U32, U8, reference)
from checks.sessions.rows import (
    CLIENT, EXTREMES, NOTHING_FOUND, SAME, THIRDS, TURNED, aged, counted, delayed, found, holds,
    made, name, on_image, opened, ran, shows, threshold, wrote)
from checks.sessions.windows import ONE_TO_NINE, WHOLE_SQUARE

# 1 and 2 are images of 3 by 3 U8 samples, 3 of S16, 4 of U32, 5 of 2 by 2 U8 samples; 6 is a table,
# 7 a threshold, 8 a convolution, 9 a distribution, 10 extremes; 11 is a delay of two slots like 1,
# 12 of two like 3; 99 doesn't exist.
KINDS = (
    opened(), made(1, U8, 3, 3), made(2, U8, 3, 3), made(3, S16, 3, 3), made(4, U32, 3, 3),
    made(5, U8, 2, 2), (TURNED, name(6)), (threshold(U8), name(7)), (SAME, name(8)),
    (THIRDS, name(9)), (EXTREMES, name(10)), delayed(11, 1, 2), delayed(12, 3, 2),
    wrote(1, U8, ONE_TO_NINE, 3, 3), wrote(3, S16, ONE_TO_NINE, 3, 3),
)
TABLE, LIMIT, MATRIX, COUNTS, FOUND = 6, 7, 8, 9, 10
SLOT, SLOT_BEFORE, NO_SLOT = reference(11, 0), reference(11, 1), reference(11, 2)
# References that are not images: each of the other objects, also with a slot, a delay without a
# slot, and an image with a slot.
NO_IMAGES = (TABLE, LIMIT, MATRIX, COUNTS, FOUND, reference(MATRIX, 0), reference(COUNTS, 0),
             reference(FOUND, 254), 11,
             reference(1, 0))
UNCHANGED = (
    *shows(1, U8, ONE_TO_NINE, WHOLE_SQUARE, 3, 3), *shows(2, U8, [0] * 9, WHOLE_SQUARE, 3, 3),
    *shows(3, S16, ONE_TO_NINE, WHOLE_SQUARE, 3, 3), holds(4, U32, [0] * 9, 3, 3),
    holds(5, U8, [0] * 4, 2, 2), counted(9, [0] * 3), found(10, *NOTHING_FOUND),
    holds(SLOT, U8, [0] * 9, 3, 3), holds(SLOT_BEFORE, U8, [0] * 9, 3, 3),
    holds(reference(12, 0), S16, [0] * 9, 3, 3), made(13, U8),
)


def refusals_of_other_objects():
    """Objects of the other kinds are refused as images and delays. Two of them have their own read
    request."""
    unknown = (99, 0, 2**32 - 1, reference(99, 0), reference(99, 254))
    return [
        *KINDS,
        *((request, INVALID_TYPE) for of in NO_IMAGES for request in on_image(of)),
        *((request, INVALID_REFERENCE) for of in unknown for request in on_image(of)),
        *((request, INVALID_VALUE) for request in on_image(NO_SLOT)),
        *(aged(of, INVALID_TYPE) for of in (MATRIX, COUNTS, FOUND)),
        *((wire.read_distribution(CLIENT, of), INVALID_TYPE)
          for of in range(1, 13) if of != COUNTS),
        *((wire.read_min_max(CLIENT, of), INVALID_TYPE) for of in range(1, 13) if of != FOUND),
        *((ask(CLIENT, of), INVALID_REFERENCE)
          for ask in (wire.read_distribution, wire.read_min_max)
          for of in (0, 13, 99, 2**32 - 1)),
        *UNCHANGED,
    ]


# A function with inputs and outputs that it accepts.
TAKEN = (
    *((function, 1, None, 2, None) for function in (BOX, GAUSSIAN, MEDIAN, ERODE, DILATE)),
    (SOBEL, 1, None, 3, None), (SOBEL, 1, None, None, 3), (CONVOLVE, 1, MATRIX, 2, None),
    (HISTOGRAM, 1, None, COUNTS, None), (INTEGRAL, 1, None, 4, None),
    (MIN_MAX_LOCATION, 3, None, FOUND, None),
)
# Functions whose first output isn't an image, with the output's kind.
NO_PICTURES = {HISTOGRAM: COUNTS, MIN_MAX_LOCATION: FOUND}


def refusals_of_kinds():
    """Each operand in turn is missing, or of the wrong kind."""
    rows = [*KINDS]
    for function, in1, in2, out1, out2 in TAKEN:
        allowed = {MATRIX} if function == CONVOLVE else {NO_PICTURES.get(function)}
        others = [of for of in (1, SLOT, NO_SLOT, *NO_IMAGES) if of not in allowed]
        wrong_outputs = NO_IMAGES if function not in NO_PICTURES else others
        for code, of, wrong in ((INVALID_REFERENCE, (99, reference(99, 0)), (99,)),
                                (INVALID_TYPE, NO_IMAGES, wrong_outputs)):
            rows += [ran(function, named, in2, out1, code, out2=out2) for named in of]
            rows += [ran(function, in1, in2, named, code, out2=out2) for named in wrong if out1]
            rows += [ran(function, in1, in2, out1, code, out2=named) for named in wrong if out2]
            rows += [ran(function, in1, named, out1, code)
                     for named in (others if code == INVALID_TYPE else (99,)) if in2]
    # Convolutions, distributions and extremes are refused as second images, tables or thresholds.
    rows += [ran(function, 1, named, 2, INVALID_TYPE) for function in (1, 11, 12)
             for named in (MATRIX, COUNTS, FOUND)]
    rows += [row for named in (MATRIX, COUNTS, FOUND)
             for row in (ran(4, named, None, 2, INVALID_TYPE),
                         ran(4, 1, None, named, INVALID_TYPE))]
    return rows + [*UNCHANGED]


def refusals_in_order():
    """Names before kinds, kinds before slots, two writers before reads of a node's own output, then
    formats, then sizes."""
    rows = [*KINDS]
    for in1, out1, out2, code in (
        # Sobel of these images into these two outputs.
        (MATRIX, COUNTS, 99, INVALID_REFERENCE), (NO_SLOT, 99, 3, INVALID_REFERENCE),
        (99, 3, 3, INVALID_REFERENCE), (NO_SLOT, 3, COUNTS, INVALID_TYPE),
        (MATRIX, 3, 3, INVALID_TYPE), (1, NO_SLOT, FOUND, INVALID_TYPE),
        (NO_SLOT, 3, 3, INVALID_VALUE), (1, NO_SLOT, NO_SLOT, INVALID_VALUE),
        (1, 3, NO_SLOT, INVALID_VALUE), (1, 1, NO_SLOT, INVALID_VALUE), (1, 1, 1, MULTIPLE_WRITERS),
        (1, 3, 3, MULTIPLE_WRITERS), (3, 3, 3, MULTIPLE_WRITERS), (1, 2, 2, MULTIPLE_WRITERS),
        (1, 5, 5, MULTIPLE_WRITERS), (SLOT, SLOT, SLOT, MULTIPLE_WRITERS), (1, 1, 3, INVALID_GRAPH),
        (1, 3, 1, INVALID_GRAPH), (1, None, 1, INVALID_GRAPH), (3, 3, 2, INVALID_GRAPH),
        (SLOT, 3, SLOT, INVALID_GRAPH), (5, 5, 3, INVALID_GRAPH), (1, 2, 3, INVALID_FORMAT),
        (1, 3, 2, INVALID_FORMAT), (1, 4, 3, INVALID_FORMAT), (1, None, 4, INVALID_FORMAT),
        (3, reference(12, 0), None, INVALID_FORMAT), (1, SLOT, SLOT_BEFORE, INVALID_FORMAT),
        (5, 2, 3, INVALID_FORMAT), (1, 5, 3, INVALID_FORMAT), (1, 3, 5, INVALID_FORMAT),
        (5, 3, reference(12, 0), INVALID_DIMENSION), (5, None, 3, INVALID_DIMENSION),
        (5, 3, None, INVALID_DIMENSION),
    ):
        rows.append(ran(SOBEL, in1, None, out1, code, out2=out2))
    for function in (BOX, GAUSSIAN, MEDIAN, ERODE, DILATE):
        rows += [ran(function, of, None, of, INVALID_GRAPH) for of in (1, 3, 5, SLOT)]
        rows += [ran(function, in1, None, out1, INVALID_FORMAT)
                 for in1, out1 in ((3, 2), (4, 2), (1, 3), (1, 4), (5, 3), (3, 5),
                                   (3, reference(12, 1)))]
        rows += [ran(function, 5, None, 2, INVALID_DIMENSION),
                 ran(function, 1, None, 5, INVALID_DIMENSION),
                 ran(function, 99, None, NO_SLOT, INVALID_REFERENCE)]
    rows += [ran(CONVOLVE, *operands) for operands in (
        (NO_SLOT, 99, 2, INVALID_REFERENCE), (99, COUNTS, 2, INVALID_REFERENCE),
        (NO_SLOT, COUNTS, 2, INVALID_TYPE), (1, COUNTS, NO_SLOT, INVALID_TYPE),
        (1, MATRIX, NO_SLOT, INVALID_VALUE), (1, MATRIX, 1, INVALID_GRAPH),
        (3, MATRIX, 3, INVALID_GRAPH), (3, MATRIX, 2, INVALID_FORMAT),
        (1, MATRIX, 4, INVALID_FORMAT), (5, MATRIX, 4, INVALID_FORMAT),
        (5, MATRIX, 2, INVALID_DIMENSION), (1, MATRIX, 5, INVALID_DIMENSION),
        (5, MATRIX, 3, INVALID_DIMENSION))]
    rows += [ran(INTEGRAL, *operands) for operands in (
        (1, None, 1, INVALID_GRAPH), (4, None, 4, INVALID_GRAPH), (1, None, 2, INVALID_FORMAT),
        (1, None, 3, INVALID_FORMAT), (3, None, 4, INVALID_FORMAT), (5, None, 2, INVALID_FORMAT),
        (5, None, 4, INVALID_DIMENSION))]
    rows += [ran(HISTOGRAM, *operands) for operands in (
        (NO_SLOT, None, 99, INVALID_REFERENCE), (NO_SLOT, None, FOUND, INVALID_TYPE),
        (NO_SLOT, None, COUNTS, INVALID_VALUE), (1, None, NO_SLOT, INVALID_TYPE),
        (3, None, COUNTS, INVALID_FORMAT), (4, None, COUNTS, INVALID_FORMAT))]
    rows += [ran(MIN_MAX_LOCATION, *operands) for operands in (
        (NO_SLOT, None, 99, INVALID_REFERENCE), (NO_SLOT, None, COUNTS, INVALID_TYPE),
        (NO_SLOT, None, FOUND, INVALID_VALUE), (1, None, NO_SLOT, INVALID_TYPE),
        (4, None, FOUND, INVALID_FORMAT))]
    return rows + [*UNCHANGED]
