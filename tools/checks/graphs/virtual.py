"""Sessions on virtual images: declared and undeclared fields."""

from feqyldan import wire
from feqyldan.wire import (
    ABSOLUTE_DIFFERENCE, ACCUMULATE, ADD, AND_BITS, BOX, CONVERT_DEPTH, CONVOLVE, DILATE, ERODE,
    GAUSSIAN, INTEGRAL, INVALID_DIMENSION, INVALID_FORMAT, INVALID_LINK, MAX_PIXEL, MEDIAN,
    MIN_PIXEL, MULTIPLY, NOT_BITS, OPEN, OR_BITS, S16, SOBEL, SUBTRACT, SUCCESS, TABLE_LOOKUP,
    THRESHOLD, U32, U8, XOR_BITS, node)
from checks.graphs.cast import (
    A, B, C, CAST, D, E, F, G, LIMIT, MATRIX, NEXT, TABLE, UNCHANGED, V, W, both, declared,
    in_graph, inverse)
from checks.sessions.rows import CLIENT, added, closed, name, processed, removed, verified, virtual

# Nodes, and the verdict on them for each declared format of Z, name 18; Z is undeclared otherwise.
Z = NEXT
DECLARED_FORMATS = (
    ((node(ADD, A, C, Z),), {OPEN: SUCCESS, U8: SUCCESS, S16: SUCCESS, U32: INVALID_FORMAT}),
    ((node(ADD, A, D, Z),), {OPEN: SUCCESS, U8: INVALID_FORMAT, S16: SUCCESS}),
    ((node(CONVOLVE, A, MATRIX, Z),),
     {OPEN: SUCCESS, U8: SUCCESS, S16: SUCCESS, U32: INVALID_FORMAT}),
    ((node(INTEGRAL, A, None, Z),), {OPEN: SUCCESS, U8: INVALID_FORMAT, U32: SUCCESS}),
    ((node(SOBEL, A, None, W, out2=Z),), {OPEN: SUCCESS, U8: INVALID_FORMAT, S16: SUCCESS}),
    # The declaration counts for readers, whether their faults come first or last.
    ((node(ADD, A, C, Z), inverse(Z, B)), {OPEN: INVALID_FORMAT, U8: SUCCESS, S16: INVALID_FORMAT}),
    ((inverse(Z, B), node(ADD, A, C, Z)), {OPEN: INVALID_FORMAT, U8: SUCCESS, S16: INVALID_FORMAT}),
    ((node(ADD, A, C, Z), node(CONVERT_DEPTH, Z, None, B)),
     {OPEN: SUCCESS, U8: INVALID_FORMAT, S16: SUCCESS}),
)
# Declared format, width and height of Z, with the verdict on these nodes.
DECLARED = (
    *(((fmt, 0, 0), code, nodes) for nodes, codes in DECLARED_FORMATS
      for fmt, code in codes.items()),
    *((parts, SUCCESS, (inverse(A, Z),)) for parts in (
        (OPEN, 0, 0), (U8, 0, 0), (OPEN, 1, 0), (OPEN, 0, 1), (U8, 1, 0), (U8, 0, 1), (OPEN, 1, 1),
        (U8, 1, 1))),
    *((parts, INVALID_FORMAT, (inverse(A, Z),)) for parts in (
        (S16, 0, 0), (U32, 0, 0), (S16, 1, 1), (S16, 2, 2), (U32, 0, 8192))),
    *((parts, INVALID_DIMENSION, (inverse(A, Z),)) for parts in (
        (OPEN, 2, 0), (OPEN, 0, 2), (U8, 2, 1), (U8, 1, 2), (OPEN, 8192, 8192), (U8, 8192, 1))),
    *((parts, SUCCESS, (inverse(E, Z),)) for parts in ((OPEN, 2, 0), (OPEN, 0, 1), (U8, 2, 1))),
    *((parts, INVALID_DIMENSION, (inverse(E, Z),))
      for parts in ((OPEN, 1, 0), (OPEN, 0, 2), (OPEN, 1, 2), (OPEN, 1, 1))),
    # A writer of another format doesn't change the declaration.
    ((OPEN, 2, 0), INVALID_DIMENSION, (inverse(A, Z), inverse(Z, E))),
    ((OPEN, 2, 1), INVALID_DIMENSION, (inverse(Z, W), inverse(A, Z))),
    ((U8, 2, 1), INVALID_DIMENSION, (inverse(Z, B), inverse(D, Z))),
    ((U8, 2, 1), INVALID_FORMAT, (both(Z, E, W), inverse(D, Z))),
    ((S16, 0, 0), INVALID_FORMAT, (inverse(Z, E), inverse(A, Z))),
    ((U8, 1, 1), INVALID_DIMENSION, (inverse(Z, E), inverse(D, Z))),
    # Without a writer only the readers are affected.
    ((U8, 1, 1), INVALID_LINK, (inverse(Z, B),)), ((U8, 8192, 8192), SUCCESS, (inverse(A, B),)),
    # A declaration gives a virtual image no contents that a node could add to.
    *((parts, INVALID_LINK, (node(ACCUMULATE, A, None, Z),))
      for parts in ((OPEN, 0, 0), (S16, 0, 0), (S16, 1, 1), (U8, 1, 1), (S16, 2, 1))),
    ((S16, 1, 1), INVALID_LINK, (node(ACCUMULATE, A, None, Z), node(CONVERT_DEPTH, Z, None, B))),
)


def declarations():
    """QueryImage returns the declaration, and no verification changes it."""
    rows = []
    for (fmt, width, height), code, nodes in DECLARED:
        wanted = b"" if code == SUCCESS else code
        rows += [*CAST, virtual(Z, G, fmt, width, height), declared(Z, fmt, width, height),
                 *in_graph(nodes),
                 verified(G, wanted), declared(Z, fmt, width, height), processed(G, wanted),
                 declared(Z, fmt, width, height), *(UNCHANGED if code != SUCCESS else ()), closed()]
    return rows


# A function, its inputs, and the format of its undeclared output; first for nodes without faults,
# then for faulty ones. Names 18 and 19 are a threshold and a table of S16.
SHORT_LIMIT, SHORT_TABLE = NEXT, NEXT + 1
OF_BITS, OF_SUMS, OF_ONE_FORMAT = (
    (AND_BITS, OR_BITS, XOR_BITS), (ADD, SUBTRACT, MULTIPLY),
    (ABSOLUTE_DIFFERENCE, MIN_PIXEL, MAX_PIXEL))
FILTERS = (BOX, GAUSSIAN, MEDIAN, ERODE, DILATE)
OPEN_OUTPUTS = (
    *((function, A, C, U8) for function in OF_BITS), (NOT_BITS, A, None, U8),
    *((function, *inputs, S16) for function in OF_SUMS
      for inputs in ((A, C), (A, D), (D, C), (D, D))),
    *((function, *inputs) for function in OF_ONE_FORMAT for inputs in ((A, C, U8), (D, D, S16))),
    (THRESHOLD, A, LIMIT, U8), (THRESHOLD, D, SHORT_LIMIT, U8), (TABLE_LOOKUP, A, TABLE, U8),
    (TABLE_LOOKUP, D, SHORT_TABLE, S16), (CONVERT_DEPTH, A, None, S16),
    (CONVERT_DEPTH, D, None, U8), *((function, A, None, U8) for function in FILTERS),
    (SOBEL, A, None, S16), (CONVOLVE, A, MATRIX, S16), (INTEGRAL, A, None, U32),
)
OPEN_OUTPUTS_OF_FAULTS = (
    *((function, in1, C, U8) for function in OF_BITS for in1 in (D, F)), (NOT_BITS, D, None, U8),
    *((function, F, A, S16) for function in OF_SUMS),
    *((function, *inputs) for function in OF_ONE_FORMAT
      for inputs in ((A, D, U8), (D, A, S16), (F, A, U32), (A, F, U8))),
    (THRESHOLD, D, LIMIT, U8), (THRESHOLD, A, SHORT_LIMIT, U8), (TABLE_LOOKUP, D, TABLE, S16),
    (TABLE_LOOKUP, A, SHORT_TABLE, U8), (TABLE_LOOKUP, F, TABLE, U32),
    (CONVERT_DEPTH, F, None, S16), *((function, D, None, U8) for function in FILTERS),
    (SOBEL, D, None, S16), (CONVOLVE, D, MATRIX, S16), (INTEGRAL, D, None, U32),
)


def format_shown(number, writer, fmt, is_faulty):
    """Returns the rows of nodes, from this number on, that reveal the format of V, which the writer
    writes. Not accepts only U8, and ConvertDepth to U8 accepts only S16."""
    rows = [added(G, number, writer), verified(G, INVALID_FORMAT if is_faulty else b""),
            removed(G, number)]
    for at, reader, taken in ((number + 1, NOT_BITS, U8), (number + 4, CONVERT_DEPTH, S16)):
        fits = fmt == taken
        # The reader is added first, and its output has another size; then it is added last.
        rows += [added(G, at, node(reader, V, None, E)), added(G, at + 1, writer),
                 verified(G, INVALID_DIMENSION if fits else INVALID_FORMAT), removed(G, at),
                 added(G, at + 2, node(reader, V, None, B)),
                 verified(G, b"" if fits and not is_faulty else INVALID_FORMAT), removed(G, at + 1),
                 removed(G, at + 2)]
    return rows


def open_outputs():
    rows = [*CAST, (wire.create_threshold(CLIENT, S16, (0,)), name(SHORT_LIMIT)),
            (wire.create_lut(CLIENT, S16, range(-32768, 32768)), name(SHORT_TABLE))]
    writers = [
        (node(function, in1, in2, out1, out2=out2), fmt, table is OPEN_OUTPUTS_OF_FAULTS)
        for table in (OPEN_OUTPUTS, OPEN_OUTPUTS_OF_FAULTS) for function, in1, in2, fmt in table
        for out1, out2 in (((V, None), (None, V), (V, W), (W, V)) if function == SOBEL
                           else ((V, None),))]
    for number, (writer, fmt, is_faulty) in enumerate(writers):
        rows += format_shown(1 + 7 * number, writer, fmt, is_faulty)
    return rows
