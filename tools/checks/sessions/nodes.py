"""Sessions on the nodes of Immediate, both successful and refused."""

from feqyldan import wire
from feqyldan.wire import (
    HISTOGRAM, INVALID_DIMENSION, INVALID_FORMAT, INVALID_GRAPH, INVALID_REFERENCE, INVALID_TYPE,
    MIN_MAX_LOCATION, S16, TABLE_LOOKUP, THRESHOLD, U8, reference)
from checks.sessions.rows import (
    CLIENT, EXTREMES, NOTHING_FOUND, NOWHERE, THIRDS, TURNED, confined, counted, found, holds, made,
    name, opened, ran, threshold, wrote)


def nodes_that_run():
    pixels = [holds(1, U8, [204]), holds(2, U8, [170])]
    return [
        opened(), made(1, U8), made(2, U8), made(3, U8), made(4, S16), (TURNED, name(5)),
        (threshold(U8), name(6)), wrote(1, U8, [204]), wrote(2, U8, [170]),
        *(row for function, in2, out1, fmt, sample in (
            (4, None, 3, U8, 51), (1, 2, 3, U8, 136), (5, 2, 4, S16, 374), (5, 1, 4, S16, 408),
            (11, 6, 3, U8, 7), (12, 5, 3, U8, 51), (13, None, 4, S16, 204),
        ) for row in (ran(function, 1, in2, out1), holds(out1, fmt, [sample]), *pixels)),
    ]


def counts_and_tables():
    """Histogram, MinMaxLoc, thresholds of both kinds and a lookup of S16, at their limits."""
    samples = [9, 10, 20, 21]
    return [
        opened(), made(1, U8, 3), (THIRDS, name(2)), wrote(1, U8, [85, 86, 255], 3),
        ran(HISTOGRAM, 1, None, 2), counted(2, [1, 1, 1]), made(3, U8, 2, 2), (EXTREMES, name(4)),
        wrote(3, U8, [7, 7, 3, 7], 2, 2), ran(MIN_MAX_LOCATION, 3, None, 4),
        found(4, 3, 7, 1, 3, 0, 1, 0, 0), confined(3, NOWHERE), ran(MIN_MAX_LOCATION, 3, None, 4),
        found(4, *NOTHING_FOUND), made(5, U8, 4), made(6, U8, 4), wrote(5, U8, samples, 4),
        (wire.create_threshold(CLIENT, U8, (10, 20)), name(7)), ran(THRESHOLD, 5, 7, 6),
        holds(6, U8, [0, 255, 255, 0], 4), (wire.create_threshold(CLIENT, U8, (10,)), name(8)),
        ran(THRESHOLD, 5, 8, 6), holds(6, U8, [0, 0, 255, 255], 4), made(9, S16, 3),
        made(10, S16, 3), wrote(9, S16, [-32768, 0, 32767], 3),
        (wire.create_lut(CLIENT, S16, range(32767, -32769, -1)), name(11)),
        ran(TABLE_LOOKUP, 9, 11, 10), holds(10, S16, [32767, -1, -32768], 3),
    ]


def refusals_of_nodes():
    """1 and 6 are images of one U8 sample, 2 one of S16, 3 of two U8; 4 is a table, 5 a threshold
    of S16; 9 doesn't exist."""
    slot = reference(1, 0)
    return [
        opened(), made(1, U8), made(2, S16), made(3, U8, 2), (TURNED, name(4)),
        (threshold(S16), name(5)), made(6, U8),
        # Names before kinds, in1 to out1.
        ran(4, slot, None, 9, INVALID_REFERENCE), ran(4, 9, None, slot, INVALID_REFERENCE),
        ran(4, slot, None, slot, INVALID_TYPE), ran(4, 1, None, slot, INVALID_TYPE),
        ran(12, 4, 9, 5, INVALID_REFERENCE),
        # Kinds before all later checks.
        ran(12, 4, 4, 4, INVALID_TYPE), ran(12, 1, 4, 4, INVALID_TYPE),
        ran(12, 1, 6, 1, INVALID_TYPE), ran(12, 1, 5, 1, INVALID_TYPE),
        ran(11, 2, 6, 2, INVALID_TYPE), ran(11, 2, 4, 2, INVALID_TYPE),
        ran(1, 1, 5, 1, INVALID_TYPE),
        # An input that is also an output, before formats.
        ran(4, 1, None, 1, INVALID_GRAPH), ran(4, 2, None, 2, INVALID_GRAPH),
        ran(1, 1, 2, 2, INVALID_GRAPH), ran(1, 1, 6, 6, INVALID_GRAPH),
        # Formats before sizes.
        ran(4, 2, None, 3, INVALID_FORMAT), ran(4, 3, None, 2, INVALID_FORMAT),
        ran(11, 1, 5, 3, INVALID_FORMAT), ran(12, 2, 4, 3, INVALID_FORMAT),
        ran(4, 1, None, 3, INVALID_DIMENSION), ran(1, 1, 3, 6, INVALID_DIMENSION),
        ran(1, 1, 1, 3, INVALID_DIMENSION),
        *(holds(number, fmt, [0] * width, width)
          for number, fmt, width in ((1, U8, 1), (2, S16, 1), (3, U8, 2), (6, U8, 1))),
    ]
