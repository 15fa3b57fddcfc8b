"""The initial objects of most sessions on graphs, and rows on them."""

from feqyldan.wire import AND_BITS, NOT_BITS, OPEN, S16, U32, U8, node, reference
from checks.sessions.rows import (
    EXTREMES, NOTHING_FOUND, NOWHERE, SAME, THIRDS, TURNED, added, counted, delayed, found, graph,
    holds, in_slots, made, name, opened, threshold, told, virtual, wrote)

# A, B and C are images of one U8 sample, D of one S16 sample, E of two U8 samples, F of one U32
# sample. The delay has three slots like A. V, W, X and Y are virtual images of the graph G, with
# nothing declared. NOBODY names no object.
(A, B, C, D, E, F, TABLE, LIMIT, MATRIX, COUNTS, FOUND, DELAY, G, V, W, X, Y) = range(1, 18)
NEXT, NOBODY = 18, 99
SLOTS = [reference(DELAY, k) for k in range(3)]
NO_SLOT = reference(DELAY, 3)
CAST = (
    opened(), made(A, U8), made(B, U8), made(C, U8), made(D, S16), made(E, U8, 2), made(F, U32),
    (TURNED, name(TABLE)), (threshold(U8), name(LIMIT)), (SAME, name(MATRIX)),
    (THIRDS, name(COUNTS)), (EXTREMES, name(FOUND)), delayed(DELAY, A, 3), graph(G),
    *(virtual(number, G) for number in (V, W, X, Y)), wrote(A, U8, [10]),
    wrote(C, U8, [20]), wrote(D, S16, [30]), wrote(E, U8, [40, 50], 2),
    *in_slots(wrote, DELAY, U8, [1, 2, 3]),
)
UNCHANGED = (
    holds(A, U8, [10]), holds(B, U8, [0]), holds(C, U8, [20]), holds(D, S16, [30]),
    holds(E, U8, [40, 50], 2), holds(F, U32, [0]), *in_slots(holds, DELAY, U8, [1, 2, 3]),
    counted(COUNTS, [0] * 3), found(FOUND, *NOTHING_FOUND),
)
# Names of everything that is not a graph.
NO_GRAPHS = (A, D, F, TABLE, LIMIT, MATRIX, COUNTS, FOUND, DELAY, V)
UNKNOWN = (0, NOBODY, 2**32 - 1)


def inverse(source, target):
    return node(NOT_BITS, source, None, target)


def both(one, other, target):
    return node(AND_BITS, one, other, target)


def in_graph(nodes, of=G):
    """Returns the rows that add the nodes to an empty graph."""
    return [added(of, number, node) for number, node in enumerate(nodes, 1)]


def declared(named, fmt=OPEN, width=OPEN, height=OPEN):
    """Returns the row of QueryImage of a virtual image, with its declaration."""
    return told(named, fmt, NOWHERE, width, height)
