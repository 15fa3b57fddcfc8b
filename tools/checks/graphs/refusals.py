"""Refusals of requests on graphs, and of other requests that name virtual images."""

from feqyldan import wire
from feqyldan.wire import (
    ACCUMULATE, ACCUMULATE_SQUARE, AND_BITS, CONVOLVE, HISTOGRAM, INTEGRAL, INVALID_DIMENSION,
    INVALID_FORMAT, INVALID_GRAPH, INVALID_REFERENCE, INVALID_SCOPE, INVALID_TYPE, INVALID_VALUE,
    MIN_MAX_LOCATION, MULTIPLE_WRITERS, NOT_BITS, NO_RESOURCES, OPEN, OPTIMIZED_AWAY, S16, SOBEL,
    TABLE_LOOKUP, THRESHOLD, U8, node, reference)
from checks.graphs.cast import (
    A, B, C, CAST, COUNTS, D, DELAY, E, F, FOUND, G, LIMIT, MATRIX, NEXT, NOBODY, NO_GRAPHS,
    NO_SLOT, SLOTS, TABLE, UNCHANGED, UNKNOWN, V, W, both, declared, in_graph, inverse)
from checks.sessions.rows import (
    CLIENT, NOWHERE, added, confined, graph, holds, on_graph, on_image, processed, ran, released,
    removed, unadded, verified, virtual, wrote_text)

# In these sessions H is another graph, and Z its virtual image.
H, Z_OF_H = NEXT, NEXT + 1
TWO_GRAPHS = (*CAST, graph(H), virtual(Z_OF_H, H))


def refusals_of_graphs():
    """Names that are not graphs, and numbers that are not nodes."""
    rows = [*TWO_GRAPHS, added(G, 1, inverse(A, V)), added(H, 1, inverse(A, B)),
            added(H, 2, inverse(A, C))]
    rows += [(request, INVALID_REFERENCE) for of in UNKNOWN for request in on_graph(of)]
    rows += [(request, INVALID_TYPE) for of in NO_GRAPHS for request in on_graph(of)]
    # Fields before names.
    rows += [(wire.create_virtual_image(CLIENT, of, *parts), code) for of in (G, A, NOBODY)
             for parts, code in (
                 ((4, 0, 0), INVALID_FORMAT), ((255, 1, 1), INVALID_FORMAT),
                 ((U8, 8193, 1), INVALID_DIMENSION), ((U8, 1, 8193), INVALID_DIMENSION),
                 ((4, 8193, 1), INVALID_FORMAT))]
    # The graph's name before the node's number, which was removed, never existed, or is another
    # graph's.
    rows += [removed(NOBODY, 1, INVALID_REFERENCE), removed(A, 99, INVALID_TYPE), removed(H, 1)]
    rows += [removed(H, number, INVALID_REFERENCE) for number in (0, 1, 3, 256, 2**32 - 1)]
    rows += [removed(G, 2, INVALID_REFERENCE), verified(G), verified(H), processed(H),
             removed(G, 1), removed(G, 1, INVALID_REFERENCE)]
    # A graph is not an image, a delay or an operand.
    rows += [(request, INVALID_TYPE) for of in (G, reference(G, 0), reference(H, 254))
             for request in on_image(of)]
    rows += [(ask(CLIENT, G), INVALID_TYPE)
             for ask in (wire.read_distribution, wire.read_min_max, wire.age_delay)]
    rows += [ran(NOT_BITS, of, None, B, INVALID_TYPE) for of in (G, reference(G, 0))]
    rows += [ran(NOT_BITS, A, None, G, INVALID_TYPE), ran(AND_BITS, A, G, B, INVALID_TYPE),
             ran(THRESHOLD, A, G, B, INVALID_TYPE),
             ran(HISTOGRAM, A, None, G, INVALID_TYPE)]
    return rows + [holds(C, U8, [245]), holds(B, U8, [0]), holds(A, U8, [10]),
                   added(H, 3, inverse(A, B)),
                   added(G, 2, inverse(A, B)), graph(NEXT + 2)]


def refusals_of_names_and_kinds():
    """The names of the graph and all operands before kinds; kinds before images of other graphs and
    slots."""
    rows = [*TWO_GRAPHS]
    # Unknown names, whatever other faults there are.
    for of in (G, A, TABLE, V, NOBODY):
        rows += [unadded(of, INVALID_REFERENCE, spelled) for spelled in (
            inverse(NOBODY, B), inverse(A, NOBODY), both(A, NOBODY, B),
            node(SOBEL, A, None, D, out2=NOBODY), inverse(reference(0, 3), B),
            inverse(TABLE, NOBODY), inverse(NOBODY, DELAY), inverse(Z_OF_H, NOBODY),
            inverse(NOBODY, Z_OF_H), inverse(NO_SLOT, NOBODY), both(NO_SLOT, NOBODY, TABLE),
            node(SOBEL, Z_OF_H, None, NO_SLOT, out2=reference(NOBODY, 0)))]
    rows += [unadded(of, INVALID_REFERENCE, spelled) for of in UNKNOWN for spelled in (
        inverse(A, B), inverse(D, E), inverse(TABLE, B), inverse(Z_OF_H, B), inverse(A, NO_SLOT),
        inverse(G, G))]
    # Names that are not graphs; operands of the wrong kind, together with images of another graph
    # and missing slots.
    rows += [unadded(of, INVALID_TYPE, spelled) for of in NO_GRAPHS for spelled in (
        inverse(A, B), inverse(TABLE, B), inverse(V, B), inverse(Z_OF_H, B), inverse(A, NO_SLOT),
        both(Z_OF_H, NO_SLOT, B))]
    for wrong in (TABLE, LIMIT, MATRIX, COUNTS, FOUND, DELAY, G, H,
                  *(reference(of, 0) for of in (A, G, V, Z_OF_H))):
        rows += [unadded(G, INVALID_TYPE, spelled) for spelled in (
            inverse(wrong, B), inverse(A, wrong), both(A, wrong, B), both(wrong, A, B),
            node(SOBEL, A, None, D, out2=wrong), node(SOBEL, A, None, None, out2=wrong),
            node(HISTOGRAM, wrong, None, COUNTS), inverse(wrong, Z_OF_H), inverse(Z_OF_H, wrong),
            inverse(wrong, NO_SLOT), inverse(NO_SLOT, wrong), both(NO_SLOT, Z_OF_H, wrong))]
    for wrong in (A, V, Z_OF_H, SLOTS[0], NO_SLOT, G):
        rows += [unadded(G, INVALID_TYPE, spelled) for spelled in (
            node(THRESHOLD, A, wrong, B), node(TABLE_LOOKUP, A, wrong, B),
            node(CONVOLVE, A, wrong, B), node(HISTOGRAM, A, None, wrong),
            node(MIN_MAX_LOCATION, A, None, wrong))]
    return rows + [*UNCHANGED, added(G, 1, inverse(A, B))]


def refusals_of_scopes_and_slots():
    """Images of other graphs before slots, and before nothing else. A refusal uses no number."""
    rows = [*TWO_GRAPHS]
    rows += [unadded(G, INVALID_SCOPE, spelled) for spelled in (
        inverse(Z_OF_H, B), inverse(A, Z_OF_H), both(A, Z_OF_H, B), both(Z_OF_H, A, B),
        inverse(Z_OF_H, Z_OF_H), inverse(V, Z_OF_H), inverse(Z_OF_H, V),
        node(SOBEL, A, None, D, out2=Z_OF_H), node(SOBEL, A, None, None, out2=Z_OF_H),
        node(THRESHOLD, Z_OF_H, LIMIT, B), node(HISTOGRAM, Z_OF_H, None, COUNTS),
        node(INTEGRAL, A, None, Z_OF_H), inverse(Z_OF_H, NO_SLOT), inverse(NO_SLOT, Z_OF_H),
        both(NO_SLOT, Z_OF_H, B), inverse(Z_OF_H, D))]
    rows += [unadded(H, INVALID_SCOPE, spelled) for spelled in (
        inverse(V, B), inverse(A, V), both(Z_OF_H, V, B), both(V, Z_OF_H, NO_SLOT))]
    rows += [unadded(G, INVALID_VALUE, spelled) for missing in (NO_SLOT, reference(DELAY, 254))
             for spelled in (
                 inverse(missing, B), inverse(A, missing), both(A, missing, B), both(missing, V, B),
                 node(SOBEL, A, None, missing, out2=D), node(SOBEL, A, None, D, out2=missing),
                 inverse(missing, missing), node(HISTOGRAM, missing, None, COUNTS),
                 inverse(missing, D))]
    taken = (inverse(D, E), inverse(A, A), inverse(V, V), inverse(A, B), inverse(A, B),
             inverse(W, SLOTS[2]),
             node(SOBEL, F, None, E, out2=E))
    return rows + [*in_graph(taken), processed(G, MULTIPLE_WRITERS), verified(H),
                   added(H, 1, inverse(Z_OF_H, Z_OF_H)),
                   processed(H, INVALID_GRAPH), *UNCHANGED]


def virtual_images_in_requests():
    """A virtual image with nothing declared, a declared one, one of another graph, and one of a
    released graph. Only QueryImage accepts them."""
    byte, released_graph, gone = NEXT + 2, NEXT + 3, NEXT + 4
    rows = [*TWO_GRAPHS, virtual(byte, G, U8, 1, 1), graph(released_graph),
            virtual(gone, released_graph, S16, 7),
            released(released_graph), (wire.query_image(CLIENT, V), bytes(13)),
            added(G, 1, inverse(A, byte)), added(G, 2, inverse(byte, V)), processed(G)]
    for of, parts in ((V, (OPEN, 0, 0)), (Z_OF_H, (OPEN, 0, 0)), (byte, (U8, 1, 1)),
                      (gone, (S16, 7, 0))):
        rows += [declared(of, *parts), *((request, OPTIMIZED_AWAY) for request in on_image(of)[1:])]
        # Before formats, sizes, texts and rectangles; after a malformed rectangle, a number of
        # slots, and a slot.
        rows += [(wire.write_image(CLIENT, of, S16, 2, 2, bytes(8)), OPTIMIZED_AWAY),
                 wrote_text(of, b"P5 0 1 255\n", OPTIMIZED_AWAY),
                 wrote_text(of, b"P2 2 1 300 300 300", OPTIMIZED_AWAY),
                 confined(of, (0, 0, 8192, 8192), OPTIMIZED_AWAY),
                 confined(of, NOWHERE, OPTIMIZED_AWAY), confined(of, (1, 0, 1, 1), INVALID_VALUE),
                 (wire.create_delay(CLIENT, of, 17), INVALID_VALUE)]
        rows += [(request, INVALID_TYPE) for slot in (0, 1, 254)
                 for request in on_image(reference(of, slot))]
        rows += [(request, INVALID_TYPE) for request in on_graph(of)]
        rows += [(ask(CLIENT, of), INVALID_TYPE)
                 for ask in (wire.read_distribution, wire.read_min_max, wire.age_delay)]
        rows += immediates(of)
    return rows + [processed(G), *UNCHANGED, released(gone),
                   (wire.query_image(CLIENT, gone), INVALID_REFERENCE),
                   *((request, INVALID_REFERENCE) for request in on_image(gone)),
                   virtual(NEXT + 5, G)]


def immediates(of):
    """Nodes with a virtual image: names, kinds and slots are checked before it, the verdict after
    it."""
    return [
        *(ran(*operands, OPTIMIZED_AWAY) for operands in (
            (NOT_BITS, of, None, B), (NOT_BITS, A, None, of), (AND_BITS, A, of, B),
            (AND_BITS, of, A, B), (HISTOGRAM, of, None, COUNTS),
            (MIN_MAX_LOCATION, of, None, FOUND), (THRESHOLD, of, LIMIT, B),
            (CONVOLVE, A, MATRIX, of), (INTEGRAL, A, None, of), (ACCUMULATE, A, None, of),
            (ACCUMULATE_SQUARE, A, None, of), (ACCUMULATE, of, None, D), (ACCUMULATE, of, None, of),
            # Cycles, formats and sizes.
            (NOT_BITS, of, None, of), (AND_BITS, A, of, A), (NOT_BITS, D, None, of),
            (AND_BITS, D, of, E), (NOT_BITS, of, None, E))),
        *(ran(SOBEL, in1, None, out1, OPTIMIZED_AWAY, out2=out2) for in1, out1, out2 in (
            (A, of, None), (A, None, of), (A, D, of), (A, of, D), (A, of, of), (of, D, D),
            (of, of, of))),
        *(ran(*operands, INVALID_REFERENCE) for operands in (
            (NOT_BITS, of, None, NOBODY), (NOT_BITS, NOBODY, None, of),
            (AND_BITS, of, NOBODY, TABLE))),
        *(ran(*operands, INVALID_TYPE) for operands in (
            (NOT_BITS, of, None, TABLE), (NOT_BITS, DELAY, None, of), (AND_BITS, of, G, NO_SLOT),
            (NOT_BITS, reference(of, 0), None, B), (NOT_BITS, A, None, reference(of, 254)),
            (THRESHOLD, A, of, B), (TABLE_LOOKUP, A, of, B), (CONVOLVE, A, of, B),
            (HISTOGRAM, A, None, of), (MIN_MAX_LOCATION, A, None, of))),
        *(ran(*operands, INVALID_VALUE) for operands in (
            (NOT_BITS, of, None, NO_SLOT), (NOT_BITS, NO_SLOT, None, of),
            (AND_BITS, NO_SLOT, of, of))),
    ]


def full_graphs():
    """At most 256 nodes. The 257th is refused after all its other faults. No number is used
    twice."""
    rows = [*TWO_GRAPHS, *(added(G, number, inverse(A, B)) for number in range(1, 257))]
    rows += [unadded(G, code, spelled) for code, spelled in (
        (NO_RESOURCES, inverse(A, B)), (NO_RESOURCES, inverse(A, A)), (NO_RESOURCES, inverse(D, E)),
        (NO_RESOURCES, inverse(V, W)), (INVALID_REFERENCE, inverse(NOBODY, B)),
        (INVALID_TYPE, inverse(A, TABLE)), (INVALID_SCOPE, inverse(Z_OF_H, B)),
        (INVALID_VALUE, inverse(NO_SLOT, B)))]
    rows += [processed(G, MULTIPLE_WRITERS), removed(G, 257, INVALID_REFERENCE), removed(G, 100),
             removed(G, 100, INVALID_REFERENCE),
             added(G, 257, inverse(C, B)), unadded(G, NO_RESOURCES, inverse(A, B)), removed(G, 257),
             added(G, 258, inverse(C, B)), removed(G, 1), removed(G, 256),
             added(G, 259, inverse(A, B)), added(G, 260, inverse(A, B)),
             unadded(G, NO_RESOURCES, inverse(A, B))]
    # Another graph has its own limit.
    rows += [added(H, 1, inverse(A, B)), processed(H), holds(B, U8, [245]), *UNCHANGED[2:]]
    kept = [number for number in range(2, 256) if number != 100] + [258, 259, 260]
    rows += [removed(G, number) for number in kept if number != 258]
    return rows + [processed(G), holds(B, U8, [235]), removed(G, 258), processed(G),
                   added(G, 261, inverse(A, B)),
                   removed(H, 1), added(H, 2, inverse(A, B))]
