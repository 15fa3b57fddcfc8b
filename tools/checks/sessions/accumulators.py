"""Sessions on Accumulate and AccumulateSquare, which add to the prior contents of their output."""

from feqyldan.wire import (
    ACCUMULATE, ACCUMULATE_SQUARE, INVALID_DIMENSION, INVALID_FORMAT, INVALID_GRAPH,
    INVALID_PARAMETERS, INVALID_REFERENCE, INVALID_TYPE, INVALID_VALUE, S16, U32, U8, reference)
from checks.sessions.rows import (
    MIDDLE, NOWHERE, REPLICATE, TEN_TO_FORTY, TURNED, WHOLE_ROW, aged, confined, constant, delayed,
    holds, in_slots, made, name, opened, ran, shows, told, wrote)

# The rectangles of the first two of four samples in a row, and of the last two.
LEFT, RIGHT = (0, 0, 2, 1), (2, 0, 4, 1)


def adding(sample, *sums, function=ACCUMULATE, **beside):
    """Returns rows that run a node several times on a sample of image 1. Image 2 has the first of
    the sums before, and the next one after each run."""
    return [wrote(1, U8, [sample]), wrote(2, S16, sums[:1]),
            *(row for after in sums[1:]
              for row in (ran(function, 1, None, 2, **beside), holds(2, S16, [after]))),
            holds(1, U8, [sample])]


def squaring(sample, shift, *sums):
    return adding(sample, *sums, function=ACCUMULATE_SQUARE, amount=shift)


def sums():
    """1 is an image of one U8 sample, 2 one of S16."""
    return [
        opened(), made(1, U8), made(2, S16), *adding(200, 0, 200, 400, 600),
        *adding(100, 32700, 32767, 32767), *adding(255, -32768, -32513), *adding(0, -5, -5),
        *adding(255, -100, 155, 410), *adding(1, -1, 0, 1, 2),
        *squaring(255, 0, 0, 32767, 32767), *squaring(255, 1, 0, 32512, 32767),
        *squaring(255, 15, -32768, -32767, -32766), *squaring(255, 0, -32768, 32257, 32767),
        # A square is rounded down, and then added.
        *squaring(3, 1, 0, 4, 8), *squaring(3, 1, 1, 5), *squaring(181, 15, 7, 7),
        *squaring(182, 15, 7, 8), *squaring(255, 14, -1, 2, 5), *squaring(16, 8, 0, 1, 2),
        *squaring(15, 8, 0, 0), *squaring(0, 0, -9, -9),
        # The border mode makes no difference.
        *adding(7, 1, 8, 15, **REPLICATE), *adding(7, 1, 8, 15, **constant(255)),
        # In delay slots: one slot's sums are added to the next one.
        delayed(3, 2, 2), *in_slots(wrote, 3, S16, [1, 2]),
        ran(ACCUMULATE, 1, None, reference(3, 0)), *in_slots(holds, 3, S16, [8, 2]), aged(3),
        ran(ACCUMULATE, 1, None, reference(3, 0)), *in_slots(holds, 3, S16, [9, 8]),
        delayed(4, 1, 2), *in_slots(wrote, 4, U8, [20, 30]),
        ran(ACCUMULATE_SQUARE, reference(4, 1), None, 2, amount=1), holds(2, S16, [465]),
        # A new image is 0, and so is one that was written with 0.
        made(5, S16), ran(ACCUMULATE, 1, None, 5), holds(5, S16, [7]), wrote(5, S16, [0]),
        ran(ACCUMULATE_SQUARE, 1, None, 5), holds(5, S16, [49]), ran(ACCUMULATE, 1, None, 5),
        holds(5, S16, [56]), holds(2, S16, [465]),
    ]


def sums_beside_the_valid():
    """1 is an image of four U8 samples in a row, 2 of S16. A sum is valid in the intersection of
    the rectangles, and 0 elsewhere."""
    return [
        opened(), made(1, U8, 4), made(2, S16, 4), wrote(1, U8, TEN_TO_FORTY, 4), confined(1, LEFT),
        wrote(2, S16, [1, 2, 3, 4], 4), ran(ACCUMULATE, 1, None, 2),
        *shows(2, S16, [11, 22, 0, 0], LEFT, 4), *shows(1, U8, [10, 20, 0, 0], LEFT, 4),
        ran(ACCUMULATE, 1, None, 2), *shows(2, S16, [21, 42, 0, 0], LEFT, 4),
        # Invalid samples stay invalid, whatever is added, until they are written or made valid.
        wrote(1, U8, TEN_TO_FORTY, 4), ran(ACCUMULATE, 1, None, 2),
        *shows(2, S16, [31, 62, 0, 0], LEFT, 4), confined(2, MIDDLE),
        ran(ACCUMULATE_SQUARE, 1, None, 2, amount=2), *shows(2, S16, [0, 162, 225, 0], MIDDLE, 4),
        confined(2, WHOLE_ROW), ran(ACCUMULATE, 1, None, 2),
        *shows(2, S16, [10, 182, 255, 40], WHOLE_ROW, 4),
        # Two adjacent rectangles, and an empty one.
        *(row for one, other in ((LEFT, RIGHT), (RIGHT, LEFT), (WHOLE_ROW, NOWHERE),
                                 (NOWHERE, WHOLE_ROW), (NOWHERE, NOWHERE))
          for function in (ACCUMULATE, ACCUMULATE_SQUARE)
          for row in (wrote(1, U8, TEN_TO_FORTY, 4), confined(1, one),
                      wrote(2, S16, [1, 2, 3, 4], 4), confined(2, other),
                      ran(function, 1, None, 2), *shows(2, S16, [0] * 4, NOWHERE, 4))),
        wrote(1, U8, TEN_TO_FORTY, 4), ran(ACCUMULATE, 1, None, 2),
        *shows(2, S16, [0] * 4, NOWHERE, 4),
        # Rows and columns.
        made(3, U8, 4, 3), made(4, S16, 4, 3), wrote(3, U8, range(1, 13), 4, 3),
        wrote(4, S16, range(-12, 0), 4, 3), confined(3, (0, 0, 3, 2)), confined(4, (1, 1, 4, 3)),
        ran(ACCUMULATE, 3, None, 4),
        *shows(4, S16, [0] * 5 + [-1, 1] + [0] * 5, (1, 1, 3, 2), 4, 3),
        told(3, U8, (0, 0, 3, 2), 4, 3), ran(ACCUMULATE_SQUARE, 3, None, 4),
        *shows(4, S16, [0] * 5 + [35, 50] + [0] * 5, (1, 1, 3, 2), 4, 3),
    ]


def refusals_of_sums():
    """1 and 2 are images of one U8 sample, 3 and 4 of S16, 5 of U32, 6 of two S16; 7 is a table, 8
    a delay of S16 images; 9 doesn't exist. A refused request adds nothing."""
    refused = (
        (9, 3, INVALID_REFERENCE), (1, 9, INVALID_REFERENCE), (7, 9, INVALID_REFERENCE),
        (1, 7, INVALID_TYPE), (7, 3, INVALID_TYPE), (1, 8, INVALID_TYPE),
        (reference(1, 0), 3, INVALID_TYPE), (1, reference(8, 2), INVALID_VALUE),
        # INVALID_GRAPH before formats if the input is also the output.
        (1, 1, INVALID_GRAPH), (3, 3, INVALID_GRAPH),
        (reference(8, 1), reference(8, 1), INVALID_GRAPH),
        (1, 2, INVALID_FORMAT), (1, 5, INVALID_FORMAT), (3, 4, INVALID_FORMAT),
        (3, 2, INVALID_FORMAT), (5, 3, INVALID_FORMAT), (3, 6, INVALID_FORMAT),
        (reference(8, 0), reference(8, 1), INVALID_FORMAT), (1, 6, INVALID_DIMENSION),
    )
    left = [holds(1, U8, [1]), holds(2, U8, [2]), holds(3, S16, [3]), holds(4, S16, [4]),
            holds(5, U32, [0]), holds(6, S16, [6, 7], 2), *in_slots(holds, 8, S16, [8, 9])]
    return [
        opened(), made(1, U8), made(2, U8), made(3, S16), made(4, S16), made(5, U32),
        made(6, S16, 2), (TURNED, name(7)), delayed(8, 3, 2),
        *(wrote(number, fmt, [number])
          for number, fmt in ((1, U8), (2, U8), (3, S16), (4, S16))),
        wrote(6, S16, [6, 7], 2), *in_slots(wrote, 8, S16, [8, 9]),
        *(ran(function, in1, None, out1, code) for function in (ACCUMULATE, ACCUMULATE_SQUARE)
          for in1, out1, code in refused),
        ran(ACCUMULATE, 1, None, 3, INVALID_PARAMETERS, amount=1),
        ran(ACCUMULATE, 1, None, 3, INVALID_PARAMETERS, policy=1),
        ran(ACCUMULATE, 1, 3, 3, INVALID_PARAMETERS),
        ran(ACCUMULATE_SQUARE, 1, None, 3, INVALID_PARAMETERS, policy=1),
        ran(ACCUMULATE_SQUARE, 1, None, 3, INVALID_VALUE, amount=16), *left,
        ran(ACCUMULATE_SQUARE, 2, None, 3, amount=1), holds(3, S16, [5]),
        ran(ACCUMULATE, 2, None, reference(8, 1)), *in_slots(holds, 8, S16, [8, 11]),
    ]
