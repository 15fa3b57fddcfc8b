"""Verdicts on graphs, each in its own context."""

from feqyldan.wire import (
    ACCUMULATE, ACCUMULATE_SQUARE, ADD, CONVERT_DEPTH, HISTOGRAM, INTEGRAL, INVALID_DIMENSION,
    INVALID_FORMAT, INVALID_GRAPH, INVALID_LINK, MIN_MAX_LOCATION, MULTIPLE_WRITERS, SOBEL,
    TABLE_LOOKUP, THRESHOLD, node)
from checks.graphs.cast import (
    A, B, C, CAST, COUNTS, D, E, F, FOUND, G, LIMIT, SLOTS, TABLE, UNCHANGED, V, W, X, Y, both,
    in_graph, inverse)
from checks.sessions.rows import closed, processed, verified

TWO_WRITERS = (
    (inverse(A, B), inverse(C, B)), (inverse(A, B), inverse(A, B)), (inverse(A, V), inverse(C, V)),
    (inverse(A, SLOTS[1]), inverse(C, SLOTS[1])), (node(SOBEL, A, None, D, out2=D),),
    (node(SOBEL, A, None, V, out2=V),),
    (node(SOBEL, A, None, D, out2=V), node(SOBEL, A, None, W, out2=D)),
    (node(SOBEL, A, None, V, out2=D), node(CONVERT_DEPTH, A, None, D)),
    (node(HISTOGRAM, A, None, COUNTS), node(HISTOGRAM, C, None, COUNTS)),
    (node(MIN_MAX_LOCATION, A, None, FOUND), node(MIN_MAX_LOCATION, D, None, FOUND)),
    (inverse(A, B), inverse(A, V), both(V, C, W), inverse(W, B)),
    (node(ACCUMULATE, A, None, D), node(ACCUMULATE, C, None, D)),
    (node(ACCUMULATE, A, None, D), node(ACCUMULATE_SQUARE, A, None, D)),
    (node(CONVERT_DEPTH, A, None, D), node(ACCUMULATE_SQUARE, C, None, D)),
    # Before cycles, unwritten virtual images, formats and sizes, in any order of adding.
    (inverse(A, A), inverse(C, A)), (inverse(A, A), inverse(C, B), inverse(C, B)),
    (inverse(V, V), inverse(V, V)), (inverse(V, B), inverse(C, B)),
    (inverse(V, W), inverse(C, B), inverse(C, B)), (inverse(D, C), inverse(A, B), inverse(A, B)),
    (inverse(A, B), inverse(D, B)), (both(A, E, C), inverse(A, B), inverse(A, B)),
    (inverse(A, E), inverse(C, E)), (node(ACCUMULATE, A, None, V), node(ACCUMULATE, C, None, V)),
    (node(ACCUMULATE, A, None, B), node(ACCUMULATE, E, None, B)),
    (node(ACCUMULATE, D, None, D), node(ACCUMULATE, A, None, D)),
    (inverse(A, B), inverse(C, B), inverse(A, A), inverse(V, W), inverse(W, X), inverse(X, V),
     inverse(V, B),
     inverse(D, B), both(A, E, B)),
)
CYCLES = (
    (inverse(A, A),), (inverse(V, V),), (inverse(SLOTS[2], SLOTS[2]),), (both(A, B, B),),
    (both(B, A, B),), (node(SOBEL, A, None, A, out2=D),), (node(SOBEL, A, None, D, out2=A),),
    (node(SOBEL, A, None, None, out2=A),), (inverse(A, B), inverse(B, A)),
    (inverse(V, W), inverse(W, V)), (inverse(SLOTS[0], SLOTS[1]), inverse(SLOTS[1], SLOTS[0])),
    (inverse(V, W), inverse(W, X), inverse(X, V)),
    (inverse(X, V), inverse(A, B), inverse(W, X), inverse(V, W)),
    (inverse(A, B), inverse(B, C), inverse(C, A)),
    (inverse(V, W), inverse(W, X), inverse(X, Y), inverse(Y, V)),
    (inverse(X, B), inverse(B, W), inverse(V, X), inverse(SLOTS[0], V), inverse(W, SLOTS[0])),
    # Through a second input, and through a second output.
    (inverse(V, W), both(A, W, V)),
    (node(SOBEL, V, None, D, out2=W), node(CONVERT_DEPTH, W, None, V)),
    # An accumulating node's output can't be its second input, but can be its first.
    (node(ACCUMULATE, A, None, A),), (node(ACCUMULATE_SQUARE, D, None, D),),
    (node(ACCUMULATE, A, None, D), node(CONVERT_DEPTH, D, None, A)),
    (node(CONVERT_DEPTH, D, None, V), node(ACCUMULATE_SQUARE, V, None, D)),
    # With nodes before the cycle, after it and apart from it.
    (inverse(A, V), both(V, X, W), inverse(W, X), inverse(X, B)),
    (inverse(A, B), inverse(V, W), inverse(W, V)),
    (inverse(V, W), inverse(W, V), inverse(B, C), inverse(C, B)),
    # Before unwritten virtual images, formats and sizes.
    (inverse(A, A), inverse(V, B)), (inverse(V, B), inverse(A, A)), (both(V, B, B),),
    (inverse(D, D),), (inverse(E, E),), (inverse(D, B), inverse(A, A)),
    (both(A, E, B), inverse(C, C)), (inverse(A, E), both(E, D, A)),
    (node(ACCUMULATE, V, None, V),), (node(ACCUMULATE, A, None, V), inverse(B, B)),
)
UNWRITTEN = (
    (inverse(V, B),), (inverse(V, W),), (both(A, V, B),), (both(V, A, B),),
    (node(HISTOGRAM, V, None, COUNTS),), (node(MIN_MAX_LOCATION, V, None, FOUND),),
    (node(SOBEL, V, None, None, out2=D),), (node(THRESHOLD, V, LIMIT, B),),
    (inverse(V, W), inverse(W, B)), (inverse(A, W), both(W, V, B)),
    (inverse(A, B), inverse(A, W), inverse(X, C)),
    # A node can't add to a virtual image, which has no contents when a run begins, even if others
    # read it later.
    (node(ACCUMULATE, A, None, V),), (node(ACCUMULATE_SQUARE, A, None, V),),
    (node(ACCUMULATE, A, None, V), node(CONVERT_DEPTH, V, None, B)),
    (node(CONVERT_DEPTH, V, None, B), node(ACCUMULATE, A, None, V)),
    (inverse(A, V), node(ACCUMULATE, V, None, W)), (node(ACCUMULATE, V, None, D),),
    (node(ACCUMULATE, A, None, D), node(ACCUMULATE, A, None, V)),
    # Before formats and sizes.
    (inverse(D, B), inverse(V, C)), (both(A, E, B), inverse(V, C)), (both(D, V, B),),
    (both(E, V, B),), (inverse(V, D),), (node(ACCUMULATE, D, None, V),),
    (inverse(D, B), node(ACCUMULATE, A, None, V)), (both(A, E, B), node(ACCUMULATE, E, None, V)),
)
WRONG_FORMATS = (
    (inverse(D, B),), (inverse(A, D),), (both(A, D, B),), (node(THRESHOLD, D, LIMIT, B),),
    (node(TABLE_LOOKUP, D, TABLE, V),), (node(TABLE_LOOKUP, A, TABLE, D),),
    (node(HISTOGRAM, D, None, COUNTS),), (node(MIN_MAX_LOCATION, F, None, FOUND),),
    (node(SOBEL, A, None, V, out2=B),), (node(CONVERT_DEPTH, A, None, B),),
    (node(ADD, A, D, B),), (inverse(A, B), inverse(C, F)), (node(ACCUMULATE, A, None, B),),
    (node(ACCUMULATE_SQUARE, A, None, B),), (node(ACCUMULATE, A, None, F),),
    (node(ACCUMULATE, D, None, B),), (node(ACCUMULATE_SQUARE, F, None, D),),
    (node(ACCUMULATE, A, None, SLOTS[0]),), (node(ACCUMULATE, A, None, E),),
    # Before sizes, in one node.
    (inverse(D, E),), (both(D, E, B),), (both(E, A, D),),
    # The node that was added first decides, even if it would run later.
    (inverse(D, B), both(A, E, C)), (inverse(A, B), inverse(D, V), inverse(V, E)),
    (inverse(V, D), both(A, E, V)), (inverse(V, D), inverse(A, V), both(A, E, B)),
    (inverse(A, V), node(ADD, V, A, W), inverse(W, B), both(A, E, C)),
    # An undeclared image gets the format of its function and the size of the first input, even if
    # its node has a fault.
    (both(V, E, W), both(E, D, V)), (both(V, E, X), inverse(W, V), both(E, D, W)),
    # An undeclared sum is S16.
    (node(ADD, A, C, V), inverse(V, B)), (inverse(V, B), node(ADD, A, C, V)),
    (node(ADD, A, C, V), both(A, V, B)), (node(ADD, A, C, V), node(HISTOGRAM, V, None, COUNTS)),
    (node(ADD, A, C, V), node(THRESHOLD, V, LIMIT, B)),
)
WRONG_SIZES = (
    (both(A, E, B),), (inverse(A, E),), (inverse(E, B),), (both(E, C, V),), (node(ADD, A, E, D),),
    (node(SOBEL, E, None, V, out2=D),), (node(SOBEL, E, None, D, out2=V),),
    (node(ACCUMULATE, E, None, D),), (inverse(E, V), node(ACCUMULATE_SQUARE, V, None, D)),
    (node(INTEGRAL, E, None, F),), (inverse(A, SLOTS[0]), inverse(E, SLOTS[1])),
    (inverse(E, V), inverse(V, B)), (inverse(E, V), both(A, V, B)),
    (inverse(V, B), inverse(E, V)), (inverse(E, V), inverse(V, W), inverse(W, X), inverse(X, B)),
    # The node that was added first decides, even if it would run later.
    (both(A, E, C), inverse(D, B)), (inverse(V, E), inverse(A, B), inverse(D, V)),
    (inverse(V, E), both(A, D, V)),
    # An undeclared image gets the format of its function and the size of the first input, even if
    # its node has a fault.
    (inverse(V, B), both(E, D, V)), (inverse(W, B), inverse(V, W), both(E, D, V)),
)


def verdicts():
    """Tries each table with its code. VerifyGraph and ProcessGraph give the same code, twice, and
    change nothing."""
    for words, code, table in (
        ("graphs in which an object is written twice", MULTIPLE_WRITERS, TWO_WRITERS),
        ("graphs with cycles", INVALID_GRAPH, CYCLES),
        ("graphs that read what nobody writes", INVALID_LINK, UNWRITTEN),
        ("graphs with wrong formats", INVALID_FORMAT, WRONG_FORMATS),
        ("graphs with wrong sizes", INVALID_DIMENSION, WRONG_SIZES),
    ):
        yield words, [row for nodes in table for row in (
            *CAST, *in_graph(nodes), verified(G, code), processed(G, code), verified(G, code),
            *UNCHANGED, closed())]
