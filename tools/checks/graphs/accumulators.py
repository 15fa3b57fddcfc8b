"""Sessions on graphs that add to the prior contents of their outputs."""

from itertools import permutations

from feqyldan import wire
from feqyldan.wire import (
    ACCUMULATE, ACCUMULATE_SQUARE, ADD, BOX, CONVERT_DEPTH, INVALID_FORMAT, INVALID_GRAPH,
    INVALID_LINK, INVALID_REFERENCE, MAX_PIXEL, MULTIPLE_WRITERS, S16, SATURATE, U8, node,
    reference)
from checks.graphs.cast import in_graph, inverse
from checks.sessions.rows import (
    CLIENT, NOWHERE, REPLICATE, TEN_TO_FORTY, WHOLE_ROW, added, closed, confined, delayed, graph,
    holds, in_slots, made, opened, processed, ran, registered, released, removed, shows, verified,
    virtual, wrote)

# In these sessions A and B are images of one U8 sample, S and T of one S16 sample, G is a graph,
# and V and W are its virtual images.
A, B, S, T, G, V, W = range(1, 8)
BEGUN = (opened(), made(A, U8), made(B, U8), made(S, S16), made(T, S16), graph(G), virtual(V, G),
         virtual(W, G), wrote(A, U8, [10]), wrote(S, S16, [5]))


def adds(source, target):
    return node(ACCUMULATE, source, None, target)


def adds_squares(source, target, shift=0):
    return node(ACCUMULATE_SQUARE, source, None, target, amount=shift)


def shown(source, target):
    """Returns a node that converts the sums to U8."""
    return node(CONVERT_DEPTH, source, None, target, SATURATE)


# Nodes, and the contents of S, T and B after a first and a second run. The nodes may be added in
# any order.
RUNS = (
    ((adds(A, S), shown(S, B)), (15, 0, 15), (25, 0, 25)),
    ((adds(A, S),), (15, 0, 0), (25, 0, 0)), ((adds_squares(A, S),), (105, 0, 0), (205, 0, 0)),
    ((adds_squares(A, S, 3), shown(S, B)), (17, 0, 17), (29, 0, 29)),
    # Two nodes add an image, and one adds another node's output. Running all nodes in rounds would
    # add more often.
    ((adds(A, S), adds_squares(A, T, 1), node(ADD, S, T, V), shown(V, B)),
     (15, 50, 65), (25, 100, 125)),
    ((inverse(A, V), inverse(V, W), adds(W, S), shown(S, B)), (15, 0, 15), (25, 0, 25)),
    # A reader of sums feeds another sum.
    ((adds(A, S), shown(S, V), adds(V, T), shown(T, B)), (15, 15, 15), (25, 40, 40)),
    ((adds(A, S), shown(S, B), adds(B, T)), (15, 15, 15), (25, 40, 25)),
    # Another node writes the added image.
    ((node(MAX_PIXEL, A, A, B), adds(B, S)), (15, 0, 10), (25, 0, 10)),
)


def sums_in_graphs():
    """Each run adds once to the contents at its start. Readers of the sums see the new ones."""
    rows = []
    for nodes, *wanted in RUNS:
        for order in permutations(nodes):
            rows += [*BEGUN, *in_graph(order, G), verified(G), holds(S, S16, [5])]
            for sum_, other, byte in wanted:
                rows += [processed(G), verified(G), holds(S, S16, [sum_]), holds(T, S16, [other]),
                         holds(B, U8, [byte]), holds(A, U8, [10])]
            rows.append(closed())
    return rows


def sums_that_change():
    """Changes between runs: writes, other additions, rectangles, and added or removed nodes."""
    return [
        *BEGUN, *in_graph((shown(S, B), adds(A, S)), G), processed(G), holds(S, S16, [15]),
        wrote(S, S16, [32760]), processed(G), holds(S, S16, [32767]), holds(B, U8, [255]),
        wrote(S, S16, [-20]), processed(G), holds(S, S16, [-10]), holds(B, U8, [0]),
        ran(ACCUMULATE, A, None, S), processed(G), holds(S, S16, [10]), holds(B, U8, [10]),
        confined(S, NOWHERE), processed(G), *shows(S, S16, [0], NOWHERE, 1),
        *shows(B, U8, [0], NOWHERE, 1), confined(S, (0, 0, 1, 1)), processed(G),
        *shows(S, S16, [10], (0, 0, 1, 1), 1), *shows(B, U8, [10], (0, 0, 1, 1), 1),
        # The adding node is removed and added again.
        removed(G, 2), processed(G), holds(S, S16, [10]), added(G, 3, adds(A, S)), processed(G),
        holds(S, S16, [20]), holds(B, U8, [20]),
        # A refused graph adds nothing.
        added(G, 4, adds(B, T)), added(G, 5, inverse(T, V)), verified(G, INVALID_FORMAT),
        processed(G, INVALID_FORMAT), holds(S, S16, [20]), holds(T, S16, [0]), removed(G, 5),
        added(G, 6, adds(A, V)), processed(G, INVALID_LINK), removed(G, 6),
        added(G, 7, adds(A, T)), processed(G, MULTIPLE_WRITERS), removed(G, 7),
        added(G, 8, shown(T, A)), processed(G, INVALID_GRAPH), removed(G, 8), holds(S, S16, [20]),
        holds(T, S16, [0]), processed(G), holds(S, S16, [30]), holds(T, S16, [30]),
        # Another graph adds to the same sums.
        graph(8), added(8, 1, adds_squares(A, S)), processed(8), holds(S, S16, [130]),
        processed(G), holds(S, S16, [140]), holds(T, S16, [170]),
        # The sums, the added image and the converted image are released.
        released(S), released(A), (wire.read_image(CLIENT, S), INVALID_REFERENCE), processed(G),
        holds(B, U8, [150]), processed(8), processed(G), holds(B, U8, [255]), released(8),
        wrote(T, S16, [0]), processed(G), holds(T, S16, [255]),
    ]


def sum_and_its_depth():
    """Two runs of a graph that adds to sums and converts them. A run that is lost adds nothing."""
    return [*BEGUN, *in_graph((adds(A, S), shown(S, B)), G), processed(G), holds(S, S16, [15]),
            holds(B, U8, [15]), processed(G), holds(S, S16, [25]), holds(B, U8, [25])]


def sums_in_slots():
    """1 is an image of one U8 sample, 2 of one S16 sample, 3 a delay of two slots like 2, 4 a graph
    that adds to slot 0 and ages the delay."""
    newest, before = reference(3, 0), reference(3, 1)
    return [
        opened(), made(1, U8), made(2, S16), delayed(3, 2, 2), graph(4), wrote(1, U8, [10]),
        *in_slots(wrote, 3, S16, [100, 200]), added(4, 1, adds(1, newest)), processed(4),
        *in_slots(holds, 3, S16, [110, 200]), registered(4, 3), processed(4),
        *in_slots(holds, 3, S16, [200, 120]), processed(4), *in_slots(holds, 3, S16, [120, 210]),
        # One slot gets the conversion of the other: no cycle. A node adds to each of them.
        made(5, U8), added(4, 2, shown(before, 5)), processed(4),
        *in_slots(holds, 3, S16, [210, 130]), holds(5, U8, [210]), added(4, 3, adds(5, before)),
        processed(4, INVALID_GRAPH), removed(4, 2), processed(4),
        *in_slots(holds, 3, S16, [340, 220]), added(4, 4, adds(1, before)),
        processed(4, MULTIPLE_WRITERS), *in_slots(holds, 3, S16, [340, 220]),
    ]


def sums_in_rows():
    """1 and 2 are images of four U8 samples in a row, 3 of S16. 4 is a graph that adds the output
    of a window function, through virtual images, for which a run takes memory."""
    shift = {"border": wire.CONSTANT, "constant": 0}
    return [
        opened(), made(1, U8, 4), made(2, U8, 4), made(3, S16, 4), graph(4), virtual(5, 4),
        virtual(6, 4), virtual(7, 4), wrote(1, U8, TEN_TO_FORTY, 4),
        wrote(3, S16, [1, 2, 3, 4], 4),
        *in_graph((node(BOX, 1, None, 5, **REPLICATE), inverse(5, 6), inverse(6, 7), adds(7, 3),
                   shown(3, 2)), 4),
        processed(4), holds(3, S16, [14, 22, 33, 40], 4), holds(2, U8, [14, 22, 33, 40], 4),
        processed(4), holds(3, S16, [27, 42, 63, 76], 4), confined(1, (0, 0, 2, 1)), processed(4),
        *shows(3, S16, [40, 58, 0, 0], (0, 0, 2, 1), 4),
        *shows(2, U8, [40, 58, 0, 0], (0, 0, 2, 1), 4), wrote(1, U8, TEN_TO_FORTY, 4),
        confined(3, WHOLE_ROW), removed(4, 1), added(4, 6, node(BOX, 1, None, 5, **shift)),
        processed(4), *shows(3, S16, [43, 64, 10, 7], WHOLE_ROW, 4),
    ]
