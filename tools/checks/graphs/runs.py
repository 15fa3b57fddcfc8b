"""Runs of graphs: on one sample, on squares, and on valid rectangles."""

from itertools import permutations

from feqyldan import wire
from feqyldan.wire import (
    ABSOLUTE_DIFFERENCE, ADD, AND_BITS, BOX, CONVERT_DEPTH, CONVOLVE, DILATE, ERODE, GAUSSIAN,
    HISTOGRAM, INTEGRAL, INVALID_LINK, MAX_PIXEL, MEDIAN, MIN_MAX_LOCATION, MIN_PIXEL, MULTIPLY,
    NOT_BITS, OR_BITS, S16, SATURATE, SOBEL, SUBTRACT, TABLE_LOOKUP, THRESHOLD, U32, U8, WRAP,
    XOR_BITS, node)
from checks.graphs.cast import (
    A, B, C, CAST, COUNTS, D, DELAY, E, F, FOUND, G, LIMIT, MATRIX, SLOTS, TABLE, UNCHANGED, V, W,
    X, both, in_graph, inverse)
from checks.sessions.rows import (
    EXTREMES, MIDDLE, NOTHING_FOUND, NOWHERE, REPLICATE, TEN_TO_FORTY, THIRDS, WHOLE_ROW, added,
    closed, confined, counted, found, graph, holds, in_slots, made, name, opened, processed,
    removed, shows, verified, virtual, wrote)

# Nodes, and the contents after one or more runs. The nodes may be added in any order.
RUNS = (
    ((), UNCHANGED), ((inverse(A, V),), UNCHANGED), ((inverse(A, V), inverse(V, W)), UNCHANGED),
    ((inverse(A, B),), [holds(A, U8, [10]), holds(B, U8, [245]), holds(C, U8, [20]),
                        *in_slots(holds, DELAY, U8, [1, 2, 3])]),
    ((inverse(V, B), inverse(A, V)), [holds(B, U8, [10])]),
    ((inverse(A, V), inverse(V, W), inverse(W, B)), [holds(B, U8, [245])]),
    # A written image is read with its new contents; the prior contents are kept in other images.
    ((inverse(A, C), inverse(C, B)), [holds(C, U8, [245]), holds(B, U8, [10])]),
    ((both(A, A, B), inverse(B, C)), [holds(B, U8, [10]), holds(C, U8, [245])]),
    # An image that is read twice, by two nodes and by one.
    ((inverse(A, V), inverse(V, W), node(ADD, V, W, B)), [holds(B, U8, [255])]),
    ((inverse(A, V), node(ADD, V, V, W), node(CONVERT_DEPTH, W, None, B)), [holds(B, U8, [234])]),
    ((inverse(A, V), node(ADD, V, V, D), node(CONVERT_DEPTH, D, None, B, SATURATE, 1)),
     [holds(D, S16, [490]), holds(B, U8, [245])]),
    ((inverse(A, V), inverse(V, B), inverse(V, C)), [holds(B, U8, [10]), holds(C, U8, [10])]),
    # Two independent graphs in one.
    ((inverse(A, V), inverse(V, B), inverse(E, W)),
     [holds(B, U8, [10]), holds(E, U8, [40, 50], 2)]),
    # Tables, thresholds and convolutions.
    ((inverse(A, V), node(THRESHOLD, V, LIMIT, B)), [holds(B, U8, [7])]),
    ((inverse(A, V), node(TABLE_LOOKUP, V, TABLE, B)), [holds(B, U8, [10])]),
    ((inverse(A, V), node(CONVOLVE, V, MATRIX, W, **REPLICATE), node(CONVERT_DEPTH, W, None, B)),
     [holds(B, U8, [245])]),
    # Each run computes histograms and extremes again.
    ((inverse(A, V), node(HISTOGRAM, V, None, COUNTS), node(MIN_MAX_LOCATION, V, None, FOUND)),
     [counted(COUNTS, [0, 0, 1]), found(FOUND, 245, 245, 1, 1, 0, 0, 0, 0)]),
    ((node(INTEGRAL, A, None, F), node(MIN_MAX_LOCATION, D, None, FOUND)),
     [holds(F, U32, [10]), found(FOUND, 30, 30, 1, 1, 0, 0, 0, 0)]),
    # Slots are separate images.
    ((inverse(SLOTS[1], SLOTS[0]), inverse(SLOTS[1], SLOTS[2])),
     in_slots(holds, DELAY, U8, [253, 2, 253])),
    ((inverse(SLOTS[0], SLOTS[1]), inverse(SLOTS[1], SLOTS[2])),
     in_slots(holds, DELAY, U8, [1, 254, 1])),
    ((both(SLOTS[1], SLOTS[2], V), inverse(V, SLOTS[0])), in_slots(holds, DELAY, U8, [253, 2, 3])),
)


def runs():
    rows = []
    for nodes, wanted in RUNS:
        for order in permutations(nodes):
            rows += [*CAST, *in_graph(order), processed(G), *wanted, processed(G), verified(G),
                     processed(G), *wanted,
                     closed()]
    return rows


# Functions of 204 and 170, if they are images, with their results.
SAMPLES = (
    (AND_BITS, B, U8, 136), (OR_BITS, B, U8, 238), (XOR_BITS, B, U8, 102), (NOT_BITS, None, U8, 51),
    (ADD, B, S16, 374), (SUBTRACT, B, S16, 34), (MULTIPLY, B, S16, 32767),
    (ABSOLUTE_DIFFERENCE, B, U8, 34), (MIN_PIXEL, B, U8, 170), (MAX_PIXEL, B, U8, 204),
    (THRESHOLD, LIMIT, U8, 7), (TABLE_LOOKUP, TABLE, U8, 51), (CONVERT_DEPTH, None, S16, 204),
    *((function, None, U8, 204) for function in (BOX, GAUSSIAN, MEDIAN, ERODE, DILATE)),
    (SOBEL, None, S16, 0), (CONVOLVE, MATRIX, S16, 204), (INTEGRAL, None, U32, 204),
)


def through_virtual_images():
    """Each function of the outputs of two nodes, read by other nodes."""
    rows = [*CAST, wrote(A, U8, [204]), wrote(B, U8, [170])]
    number = 1
    for function, in2, fmt, sample in SAMPLES:
        policy = SATURATE if function in (ADD, SUBTRACT, MULTIPLY, CONVERT_DEPTH) else WRAP
        out1 = F if fmt == U32 else X
        nodes = [inverse(V, W), node(function, W, in2, out1, policy, **REPLICATE), inverse(A, V)]
        if fmt != U32:
            nodes.append(node(OR_BITS, X, X, C) if fmt == U8 else node(MIN_PIXEL, X, X, D))
        rows += [added(G, at, node) for at, node in enumerate(nodes, number)]
        rows += [processed(G), holds({U8: C, S16: D, U32: F}[fmt], fmt, [sample]),
                 holds(A, U8, [204]),
                 holds(B, U8, [170])]
        rows += [removed(G, at) for at in range(number, number + len(nodes))]
        number += len(nodes)
    return rows


def squares():
    """1 is an image of 3 by 3 U8 samples, 2 and 3 of S16, 4 one of U8; 5 is a graph, 6 to 8 are its
    virtual images."""
    whole, centre, count = (0, 0, 3, 3), (1, 1, 2, 2), [*range(1, 10)]

    def centred(sample):
        return [0] * 4 + [sample] + [0] * 4

    both_gradients = (node(SOBEL, 1, None, 6, out2=7), node(ADD, 6, 7, 2))
    return [
        opened(), made(1, U8, 3, 3), made(2, S16, 3, 3), made(3, S16, 3, 3), made(4, U8, 3, 3),
        graph(5), *(virtual(number, 5) for number in (6, 7, 8)), wrote(1, U8, count, 3, 3),
        # Two outputs, both, one or none of which is virtual.
        *in_graph(both_gradients, 5), processed(5), *shows(2, S16, centred(32), centre, 3, 3),
        removed(5, 1), added(5, 3, node(SOBEL, 1, None, 6, out2=3)), processed(5, INVALID_LINK),
        added(5, 4, inverse(1, 4)), removed(5, 2), added(5, 5, node(SUBTRACT, 6, 3, 2)),
        processed(5), *shows(2, S16, centred(-16), centre, 3, 3),
        *shows(3, S16, centred(24), centre, 3, 3),
        *shows(4, U8, [255 - sample for sample in count], whole, 3, 3),
        removed(5, 3), removed(5, 5), added(5, 6, node(SOBEL, 1, None, 3, out2=2, **REPLICATE)),
        processed(5), *shows(3, S16, [4, 8, 4] * 3, whole, 3, 3),
        *shows(2, S16, [12] * 3 + [24] * 3 + [12] * 3, whole, 3, 3),
        removed(5, 6), added(5, 7, node(SOBEL, 1, None, None, out2=7, **REPLICATE)),
        added(5, 8, node(ADD, 7, 7, 3)), processed(5),
        *shows(3, S16, [24] * 3 + [48] * 3 + [24] * 3, whole, 3, 3), removed(5, 7), removed(5, 8),
        removed(5, 4),
        # A window function of a window function's output. The border begins at the inner valid
        # rectangle.
        added(5, 9, node(DILATE, 1, None, 6)), added(5, 10, node(DILATE, 6, None, 4, **REPLICATE)),
        processed(5), *shows(4, U8, centred(9), centre, 3, 3), removed(5, 10),
        added(5, 11, node(DILATE, 6, None, 4)), processed(5), *shows(4, U8, [0] * 9, NOWHERE, 3, 3),
        removed(5, 11), added(5, 12, node(BOX, 6, None, 4, wire.WRAP, 0, wire.CONSTANT, 0)),
        processed(5), *shows(4, U8, centred(1), centre, 3, 3),
    ]


def valid_in_graphs():
    """1 and 2 are images of four U8 samples in a row, 3 a distribution, 4 extremes, 5 a graph, 6 to
    8 its virtual images."""
    first, last, wide = (0, 0, 3, 1), (1, 0, 4, 1), {"width": 4}
    copy = (inverse(1, 6), inverse(6, 2))
    return [
        opened(), made(1, U8, 4), made(2, U8, 4), (THIRDS, name(3)), (EXTREMES, name(4)), graph(5),
        *(virtual(number, 5) for number in (6, 7, 8)), wrote(1, U8, TEN_TO_FORTY, 4),
        confined(1, MIDDLE), wrote(2, U8, [99] * 4, 4), confined(2, (3, 0, 4, 1)),
        *in_graph(copy, 5), processed(5), *shows(2, U8, [0, 20, 30, 0], MIDDLE, **wide),
        *shows(1, U8, [0, 20, 30, 0], MIDDLE, **wide),
        # A changed rectangle needs no other verdict, and a run keeps no rectangle.
        confined(1, WHOLE_ROW), processed(5), *shows(2, U8, [0, 20, 30, 0], WHOLE_ROW, **wide),
        confined(1, NOWHERE), verified(5), processed(5), *shows(2, U8, [0] * 4, NOWHERE, **wide),
        wrote(1, U8, TEN_TO_FORTY, 4), processed(5), *shows(2, U8, TEN_TO_FORTY, WHOLE_ROW, **wide),
        confined(1, MIDDLE), processed(5), *shows(2, U8, [0, 20, 30, 0], MIDDLE, **wide),
        # The intersection of the rectangles of two virtual images; statistics of one.
        made(9, U8, 4), wrote(9, U8, TEN_TO_FORTY, 4), confined(9, last),
        wrote(1, U8, TEN_TO_FORTY, 4), confined(1, first), removed(5, 2),
        added(5, 3, inverse(9, 7)), added(5, 4, both(6, 7, 2)),
        added(5, 5, node(HISTOGRAM, 6, None, 3)), added(5, 6, node(MIN_MAX_LOCATION, 7, None, 4)),
        processed(5), *shows(2, U8, [0, 235, 225, 0], MIDDLE, **wide), counted(3, [0, 0, 3]),
        found(4, 215, 235, 1, 1, 3, 0, 1, 0), confined(9, (3, 0, 4, 1)), processed(5),
        *shows(2, U8, [0] * 4, NOWHERE, **wide), counted(3, [0, 0, 3]),
        found(4, 215, 215, 1, 1, 3, 0, 3, 0), confined(1, NOWHERE), confined(9, NOWHERE),
        processed(5), *shows(2, U8, [0] * 4, NOWHERE, **wide), counted(3, [0] * 3),
        found(4, *NOTHING_FOUND), *(removed(5, number) for number in (1, 3, 4, 5, 6)),
        # Window functions of the outputs of window functions.
        wrote(1, U8, TEN_TO_FORTY, 4), confined(1, MIDDLE),
        added(5, 7, node(BOX, 1, None, 6, **REPLICATE)),
        added(5, 8, node(BOX, 6, None, 2, **REPLICATE)), processed(5),
        *shows(2, U8, [0, 24, 25, 0], MIDDLE, **wide), removed(5, 7),
        added(5, 9, node(BOX, 1, None, 6)), processed(5), *shows(2, U8, [0] * 4, NOWHERE, **wide),
    ]
