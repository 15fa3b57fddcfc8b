"""Sessions on graphs under default and other limits."""

from feqyldan import wire
from feqyldan.wire import (
    ADD, CONVERT_DEPTH, INTEGRAL, INVALID_DIMENSION, INVALID_FORMAT, INVALID_GRAPH, INVALID_LINK,
    INVALID_REFERENCE, MULTIPLE_WRITERS, NO_RESOURCES, SOBEL, U32, U8, node, reference)
from checks.graphs.cast import both, in_graph, inverse
from checks.sessions.rows import (
    CLIENT, added, aged, closed, delayed, graph, holds, made, no_room, opened, processed, released,
    removed, unadded, verified, virtual)


def under_quotas():
    """Yields quotas with rows for each. 1 and 2 are images of 2 by 2 U8 samples. Objects in use by
    nodes are charged."""
    squares = [opened(), made(1, U8, 2, 2), made(2, U8, 2, 2)]
    yield 8, [*squares, graph(3), added(3, 1, inverse(1, 2)), released(1),
              (wire.read_image(CLIENT, 1), INVALID_REFERENCE),
              processed(3), holds(2, U8, [255] * 4, 2, 2), no_room(U8, 1, 1), verified(3),
              unadded(3, INVALID_REFERENCE, inverse(1, 2)), released(3), made(4, U8, 2, 2),
              holds(4, U8, [0] * 4, 2, 2), no_room(U8, 1, 1)]
    # Objects in use by the last of two nodes, of two graphs, and of two operands of one node; and
    # one in use as an output.
    yield 8, [*squares, graph(3), added(3, 1, inverse(1, 2)), added(3, 2, inverse(1, 2)),
              released(1),
              no_room(U8, 1, 1), removed(3, 1), no_room(U8, 1, 1), processed(3), removed(3, 2),
              made(4, U8, 2, 2), no_room(U8, 1, 1)]
    yield 8, [*squares, graph(3), graph(4), added(3, 1, inverse(1, 2)), added(4, 1, both(1, 1, 2)),
              released(1),
              released(3), no_room(U8, 1, 1), processed(4), removed(4, 1), made(5, U8, 2, 2),
              no_room(U8, 1, 1)]
    yield 8, [*squares, graph(3), added(3, 1, inverse(1, 2)), added(3, 2, both(2, 2, 1)),
              released(2), removed(3, 1),
              no_room(U8, 1, 1), released(1), no_room(U8, 1, 1), processed(3), removed(3, 2),
              made(4, U8, 4, 2), no_room(U8, 1, 1)]
    # A delay in use by any slot, an object that isn't released, and a context.
    slot = reference(2, 1)
    yield 16, [opened(), made(1, U8, 2, 2), delayed(2, 1, 3), graph(3),
               added(3, 1, inverse(slot, 1)), released(2),
               aged(2, INVALID_REFERENCE), (wire.read_image(CLIENT, slot), INVALID_REFERENCE),
               no_room(U8, 1, 1), processed(3), holds(1, U8, [255] * 4, 2, 2), removed(3, 1),
               made(4, U8, 3, 4), no_room(U8, 1, 1), added(3, 2, inverse(4, 1)), removed(3, 2),
               no_room(U8, 1, 1), added(3, 3, inverse(4, 1)), released(4), released(3),
               made(5, U32, 3, 1), closed(), opened(), made(1, U32, 4, 1), no_room(U8, 1, 1)]
    # Virtual images are charged nothing, whatever their declarations.
    yield 1, [opened(), made(1, U8), graph(2), virtual(3, 2), virtual(4, 2, U32, 8192, 8192),
              no_room(U8, 1, 1),
              added(2, 1, inverse(1, 3)), processed(2), no_room(U8, 1, 1)]


def under_work_bytes():
    """Yields work bytes with rows for each. 1 and 2 are images of 2 by 2 U8 samples, 4 to 6 virtual
    images of graph 3."""
    begun = [opened(), made(1, U8, 2, 2), made(2, U8, 2, 2), graph(3),
             *(virtual(number, 3) for number in (4, 5, 6))]
    unwritten = holds(2, U8, [0] * 4, 2, 2)
    # Each virtual image that is written counts, of any format, read or not. One that is only
    # declared doesn't.
    for work, nodes in (
        (4, (inverse(1, 4), inverse(4, 2))),
        (12, (inverse(1, 4), inverse(4, 5), inverse(5, 6), inverse(6, 2))),
        (4, (inverse(1, 4),)),
        (8, (inverse(1, 4), inverse(1, 5))),
        (8, (node(ADD, 1, 1, 4), node(CONVERT_DEPTH, 4, None, 2))),
        (16, (node(INTEGRAL, 1, None, 4),)), (16, (node(SOBEL, 1, None, 4, out2=5),)),
        (8, (node(SOBEL, 1, None, None, out2=5), inverse(1, 2))),
    ):
        rows = [*begun, virtual(7, 3, U32, 8192, 8192), *in_graph(nodes, 3)]
        yield work, [*rows, verified(3), processed(3), processed(3)]
        yield work - 1, [*rows, verified(3, NO_RESOURCES), processed(3, NO_RESOURCES), unwritten]
    yield 3, [*begun, added(3, 1, inverse(1, 4)), processed(3, NO_RESOURCES), removed(3, 1),
              processed(3), made(7, U8),
              virtual(8, 3), *(added(3, number, inverse(7, number + 2)) for number in (2, 3, 4)),
              processed(3), added(3, 5, inverse(7, 8)), verified(3, NO_RESOURCES),
              processed(3, NO_RESOURCES), removed(3, 3), verified(3), processed(3)]
    # Each graph may use all of the work bytes.
    yield 4, [*begun, graph(7), virtual(8, 7), *in_graph((inverse(1, 4), inverse(4, 2)), 3),
              *in_graph((inverse(2, 8),), 7), processed(3), processed(7), verified(3),
              holds(2, U8, [0] * 4, 2, 2), added(7, 2, inverse(8, 1)), processed(7),
              holds(1, U8, [0] * 4, 2, 2)]
    # All other faults have precedence.
    rows, number = [*begun, made(7, U8)], 1
    for code, nodes in (
        (MULTIPLE_WRITERS, (inverse(1, 4), inverse(2, 4))),
        (INVALID_GRAPH, (inverse(1, 4), inverse(5, 5))),
        (INVALID_LINK, (inverse(1, 4), inverse(5, 2))),
        (INVALID_FORMAT, (inverse(1, 4), node(CONVERT_DEPTH, 4, None, 2))),
        (INVALID_DIMENSION, (inverse(1, 4), inverse(4, 7))),
        (NO_RESOURCES, (inverse(1, 4), inverse(4, 2))),
    ):
        rows += [added(3, at, node) for at, node in enumerate(nodes, number)]
        rows += [verified(3, code), processed(3, code),
                 *(removed(3, at) for at in range(number, number + len(nodes)))]
        number += len(nodes)
    yield 1, [*rows, unwritten]


def largest_graphs(fits_more):
    """Returns rows with four virtual images of 67,108,864 bytes each, then one of 268,435,456, the
    largest. `fits_more` says whether another one of a byte fits."""
    more = b"" if fits_more else NO_RESOURCES
    return [
        opened(), made(1, U8, 4096, 4096), graph(2),
        *(virtual(number, 2) for number in range(3, 7)),
        *in_graph([node(INTEGRAL, 1, None, number) for number in range(3, 7)], 2), verified(2),
        made(7, U8), virtual(8, 2), added(2, 5, inverse(7, 8)), verified(2, more), removed(2, 1),
        verified(2), removed(2, 5), verified(2),
        made(9, U8, 8192, 8192), graph(10), virtual(11, 10), virtual(12, 10),
        *in_graph([node(INTEGRAL, 9, None, 11)], 10), verified(10),
        added(10, 2, inverse(7, 12)), verified(10, more), removed(10, 2), verified(10),
    ]
