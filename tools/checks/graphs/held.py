"""Sessions on objects in use by nodes: released objects and graphs, object counts, and the graphs
of clients."""

from feqyldan import wire
from feqyldan.wire import (
    CONVERT_DEPTH, CONVOLVE, HISTOGRAM, INVALID_DIMENSION, INVALID_FORMAT, INVALID_GRAPH,
    INVALID_LINK, INVALID_REFERENCE, INVALID_SCOPE, INVALID_TYPE, INVALID_VALUE, MIN_MAX_LOCATION,
    NOT_BITS, NO_RESOURCES, OPTIMIZED_AWAY, TABLE_LOOKUP, THRESHOLD, U8, node, reference)
from checks.graphs.cast import (
    A, B, C, CAST, COUNTS, DELAY, E, FOUND, G, LIMIT, MATRIX, NEXT, SLOTS, TABLE, V, W, X, Y, both,
    declared, in_graph, inverse)
from checks.graphs.refusals import H, TWO_GRAPHS, Z_OF_H
from checks.sessions.rows import (
    CLIENT, CREATES, REPLICATE, added, aged, closed, counted, extremes, found, graph, holds, made,
    on_graph, on_image, opened, processed, ran, released, removed, unadded, verified, virtual,
    wrote)


def released_objects():
    """A released object has no name, and the nodes that use it read and write it as before."""
    byte = wrote(A, U8, [77])
    return [
        *CAST,
        *in_graph((inverse(A, B), inverse(B, SLOTS[0]), node(TABLE_LOOKUP, SLOTS[0], TABLE, V),
                   node(THRESHOLD, V, LIMIT, C), node(CONVOLVE, V, MATRIX, W, **REPLICATE),
                   node(HISTOGRAM, V, None, COUNTS), node(MIN_MAX_LOCATION, W, None, FOUND),
                   node(CONVERT_DEPTH, W, None, X))),
        verified(G), *(released(of) for of in (B, TABLE, LIMIT, MATRIX, V, W)), processed(G),
        verified(G), holds(C, U8, [7]), counted(COUNTS, [0, 0, 1]),
        found(FOUND, 245, 245, 1, 1, 0, 0, 0, 0), holds(SLOTS[0], U8, [10]), wrote(A, U8, [200]),
        processed(G), holds(C, U8, [3]), counted(COUNTS, [1, 0, 0]),
        found(FOUND, 55, 55, 1, 1, 0, 0, 0, 0), holds(SLOTS[0], U8, [200]),
        # The old names are invalid, even for nodes of the same graph.
        *((request, INVALID_REFERENCE) for of in (B, V) for request in on_image(of)),
        *(released(of, INVALID_REFERENCE) for of in (B, TABLE, V)),
        unadded(G, INVALID_REFERENCE, inverse(B, Y)), unadded(G, INVALID_REFERENCE, inverse(V, Y)),
        unadded(G, INVALID_REFERENCE, node(TABLE_LOOKUP, A, TABLE, Y)),
        ran(NOT_BITS, B, None, C, INVALID_REFERENCE),
        ran(CONVOLVE, A, MATRIX, C, INVALID_REFERENCE),
        *((request, INVALID_REFERENCE) for request in on_image(reference(B, 0))),
        # A delay with its slots, a distribution, extremes, and an input of a node.
        released(DELAY), released(COUNTS), released(FOUND), aged(DELAY, INVALID_REFERENCE),
        (wire.read_image(CLIENT, SLOTS[0]), INVALID_REFERENCE),
        (wire.read_distribution(CLIENT, COUNTS), INVALID_REFERENCE),
        (wire.read_min_max(CLIENT, FOUND), INVALID_REFERENCE), byte,
        processed(G), holds(C, U8, [7]), released(A),
        (wire.read_image(CLIENT, A), INVALID_REFERENCE), wrote(C, U8, [99]),
        processed(G), holds(C, U8, [7]),
        # A node with a released object can be removed, but not added again.
        added(G, 9, inverse(C, E)), processed(G, INVALID_DIMENSION), removed(G, 9), processed(G),
        removed(G, 1), unadded(G, INVALID_REFERENCE, inverse(A, B)), wrote(C, U8, [99]),
        processed(G), holds(C, U8, [7]), removed(G, 3), processed(G, INVALID_LINK),
        holds(C, U8, [7]), released(G), verified(G, INVALID_REFERENCE), graph(NEXT),
        extremes(NEXT + 1),
    ]


def released_graphs():
    """A released graph is gone immediately with its nodes. Its virtual images keep their names, but
    have no graph."""
    return [
        *TWO_GRAPHS, *in_graph((inverse(A, V), inverse(V, B))), verified(G), released(G),
        *((request, INVALID_REFERENCE) for request in on_graph(G)), released(G, INVALID_REFERENCE),
        holds(B, U8, [0]), declared(V), *((request, OPTIMIZED_AWAY) for request in on_image(V)[1:]),
        *(unadded(H, INVALID_SCOPE, spelled)
          for spelled in (inverse(V, B), inverse(A, V), both(W, Z_OF_H, B))),
        unadded(G, INVALID_REFERENCE, inverse(V, B)), ran(NOT_BITS, V, None, B, OPTIMIZED_AWAY),
        graph(NEXT + 2),
        *(unadded(NEXT + 2, INVALID_SCOPE, spelled) for spelled in (inverse(V, B), inverse(A, W))),
        virtual(NEXT + 3, NEXT + 2), added(NEXT + 2, 1, inverse(A, NEXT + 3)),
        added(NEXT + 2, 2, inverse(NEXT + 3, B)), processed(NEXT + 2),
        holds(B, U8, [10]), released(V), (wire.query_image(CLIENT, V), INVALID_REFERENCE),
        unadded(H, INVALID_REFERENCE, inverse(V, B)), unadded(H, INVALID_SCOPE, inverse(W, B)),
        added(H, 1, inverse(A, Z_OF_H)), released(Z_OF_H), released(H),
        unadded(NEXT + 2, INVALID_REFERENCE, inverse(Z_OF_H, B)), released(NEXT + 2),
        declared(NEXT + 3), released(NEXT + 3), graph(NEXT + 4), added(NEXT + 4, 1, inverse(A, B)),
        processed(NEXT + 4), holds(B, U8, [245]),
    ]


def places_of_objects():
    """1,024 objects: images, graphs, a virtual image and extremes. Released objects count while a
    node uses them."""

    def full(of=2):
        creates = (*CREATES, wire.create_virtual_image(CLIENT, of), wire.create_delay(CLIENT, 5, 1))
        return [(request, NO_RESOURCES) for request in creates]

    return [
        opened(), made(1, U8), graph(2), virtual(3, 2), graph(4), made(5, U8),
        *(extremes(number) for number in range(6, 1025)), *full(),
        # A fault of the graph or the exemplar has precedence.
        (wire.create_virtual_image(CLIENT, 1), INVALID_TYPE),
        (wire.create_virtual_image(CLIENT, 1025), INVALID_REFERENCE),
        (wire.create_delay(CLIENT, 3, 1), OPTIMIZED_AWAY),
        (wire.create_virtual_image(CLIENT, 2, 4), INVALID_FORMAT), added(2, 1, inverse(1, 3)),
        added(2, 2, inverse(3, 5)), released(1), *full(), released(3), *full(),
        processed(2), holds(5, U8, [0]), released(6), virtual(1025, 2), *full(), removed(2, 2),
        *full(), removed(2, 1), graph(1026), extremes(1027), *full(),
        # A graph frees its own place, and those of objects that only its nodes still used.
        added(4, 1, node(MIN_MAX_LOCATION, 5, None, 7)),
        added(4, 2, node(MIN_MAX_LOCATION, 5, None, 8)), released(7),
        released(8), *full(), released(4), *(extremes(number) for number in range(1028, 1031)),
        *full(), released(2), graph(1031), *full(1026),
        # The virtual image of a released graph counts until it is released.
        declared(1025), released(1025), extremes(1032), *full(1026),
    ]


def graphs_of_clients():
    """Graphs belong to one client, and are released with its context."""
    rows = []
    for client, sample in ((CLIENT, 10), (8, 20)):
        rows += [opened(client), made(1, U8, client=client), made(2, U8, client=client),
                 graph(3, client),
                 virtual(4, 3, client=client), wrote(1, U8, [sample], client=client),
                 added(3, 1, inverse(1, 4), client)]
    rows += [added(3, 2, inverse(4, 2)), processed(3), processed(3, client=8), holds(2, U8, [10]),
             holds(2, U8, [0], client=8), added(3, 2, inverse(1, 2), 8), processed(3, client=8),
             holds(2, U8, [235], client=8), holds(2, U8, [10]), removed(3, 1, client=8),
             processed(3), graph(5), removed(5, 1, INVALID_REFERENCE, 8),
             verified(5, INVALID_REFERENCE, 8), unadded(5, INVALID_REFERENCE, inverse(1, 2), 8),
             verified(5), released(3), processed(3, INVALID_REFERENCE), processed(3, client=8),
             holds(2, U8, [235], client=8), opened(9), verified(3, INVALID_REFERENCE, 9)]
    # A new context begins with name 1 and node 1.
    rows += [closed(), verified(3, INVALID_REFERENCE),
             (wire.create_graph(CLIENT), INVALID_REFERENCE),
             (wire.open_context(8), INVALID_VALUE), opened(), verified(3, INVALID_REFERENCE),
             graph(1), removed(1, 1, INVALID_REFERENCE), virtual(2, 1), made(3, U8),
             added(1, 1, inverse(3, 2)), processed(1), closed(), opened(),
             *((request, INVALID_REFERENCE) for request in on_graph(1)), made(1, U8), graph(2),
             (wire.query_image(CLIENT, 2), INVALID_TYPE),
             unadded(2, INVALID_REFERENCE, inverse(3, 1)), added(2, 1, inverse(1, 1)),
             processed(2, INVALID_GRAPH), processed(3, client=8), holds(2, U8, [235], client=8)]
    return rows
