"""Bodies field by field, each cut at every byte, and the parameters of each function's node.

A client without a context gets INVALID_REFERENCE if the body is well-formed.
"""

from typing import Any, Iterable, Iterator, Tuple

from feqyldan import wire
from feqyldan.wire import (
    ADD_NODE, IMMEDIATE, INVALID_DIMENSION, INVALID_FORMAT, INVALID_PARAMETERS, INVALID_REFERENCE,
    INVALID_VALUE, S16, SOBEL, U8, frame, node, reference, reply_frame)
from checks.sessions.rows import CLIENT, name
from checks.tables.program import Program, check, shown

SPELLED = INVALID_REFERENCE

# Well-formed bodies. Each of them that is truncated, or has an extra byte, gets INVALID_PARAMETERS.
WHOLE = (
    ("ReleaseContext", 2, ""),
    ("CreateImage", 3, "01 00 01 00 01"),
    ("CreateImage, U32, 8192 by 8192", 3, "03 20 00 20 00"),
    ("CreateImage, 4097 by 1", 3, "01 10 01 00 01"),
    ("CreateImage, 1 by 4097", 3, "02 00 01 10 01"),
    ("QueryImage", 4, "00 00 00 02 ff"),
    ("QueryImage of a slot", 4, "00 00 00 07 fe"),
    ("WriteImage, U8", 5, "00 00 00 01 ff  01 00 03 00 01  07 00 ff"),
    ("WriteImage, S16", 5, "00 00 01 02 ff  02 00 01 00 03  ff fe 80 00 01 02"),
    ("WriteImage, U32, of a slot", 5, "ff ff ff ff 00  03 00 02 00 01  ff ff ff fe 00 00 00 00"),
    ("ReadImage", 7, "00 00 00 02 ff"),
    ("ReadImage of a slot", 7, "00 00 00 07 fe"),
    ("ReadImagePgm", 8, "00 00 00 02 ff"),
    ("ReadImagePgm of a slot", 8, "00 00 00 07 fe"),
    ("SetValid, one place", 9, "00 00 00 01 ff  00 00 00 00 00 01 00 01"),
    ("SetValid, empty", 9, "00 00 00 01 ff  00 00 00 00 00 00 00 00"),
    ("SetValid, rows 256 to 511 of a slot", 9, "00 00 01 02 03  00 01 01 00 10 00 02 00"),
    ("SetValid, the greatest place", 9, "00 00 00 00 ff  ff fe ff fe ff ff ff ff"),
    ("SetValid, the greatest", 9, "ff ff ff ff 00  00 00 00 00 ff ff ff ff"),
    ("Release", 10, "00 00 00 02"),
    ("Release of the greatest number", 10, "ff ff ff ff"),
    ("CreateThreshold, BINARY", 12, "00 01 00 0a ff 00"),
    ("CreateThreshold, BINARY, the greatest", 12, "00 01 00 ff 00 ff"),
    ("CreateThreshold, BINARY, the least of S16", 12, "00 02 80 00 ff 00"),
    ("CreateThreshold, RANGE", 12, "01 02 ff ff 00 02 ff 00"),
    ("CreateThreshold, RANGE of one sample", 12, "01 01 00 14 00 14 c8 64"),
    ("CreateThreshold, RANGE, all of S16", 12, "01 02 80 00 7f ff 00 00"),
    ("CreateConvolution, 3 by 3", 13, "03 03 00" + " 00 01 ff ff 80 00" * 3),
    ("CreateConvolution, 5 columns in 3 rows", 13, "05 03 1f" + " 7f ff 80 00 00 00" * 5),
    ("CreateConvolution, 7 columns in 9 rows", 13, "07 09 0f" + " 00 01" * 63),
    ("CreateConvolution, 9 by 9", 13, "09 09 01" + " ff fe" * 81),
    ("CreateDistribution, the least", 14, "00 01 00 00 00 01"),
    ("CreateDistribution, the greatest", 14, "01 00 00 ff 01 00"),
    ("ReadDistribution", 15, "00 00 00 02"),
    ("ReadDistribution of the greatest number", 15, "ff ff ff ff"),
    ("CreateMinMax", 16, ""),
    ("ReadMinMax", 17, "00 00 00 02"),
    ("ReadMinMax of the greatest number", 17, "ff ff ff ff"),
    ("CreateGraph", 18, ""),
    ("CreateVirtualImage, open", 19, "00 00 00 01  00 00 00 00 00"),
    ("CreateVirtualImage, declared", 19, "00 00 01 02  02 00 01 10 00"),
    ("CreateVirtualImage, the greatest", 19, "ff ff ff ff  03 20 00 20 00"),
    ("CreateVirtualImage, w 4097", 19, "00 00 00 01  00 10 01 00 00"),
    ("CreateVirtualImage, h 4097", 19, "00 00 00 01  00 00 00 10 01"),
    ("CreateVirtualImage, a format alone", 19, "00 00 00 00  01 00 00 00 00"),
    ("CreateVirtualImage, a width alone", 19, "00 00 00 01  00 00 07 00 00"),
    ("CreateVirtualImage, a height alone", 19, "00 00 00 01  00 00 00 01 00"),
    ("RemoveNode", 21, "00 00 00 01  00 00 00 01"),
    ("RemoveNode, number 0", 21, "00 00 00 01  00 00 00 00"),
    ("RemoveNode of the greatest numbers", 21, "ff ff ff ff  ff ff ff ff"),
    ("VerifyGraph", 22, "00 00 00 01"),
    ("VerifyGraph of the greatest number", 22, "ff ff ff ff"),
    ("ProcessGraph", 23, "00 00 00 01"),
    ("ProcessGraph of the greatest number", 23, "ff ff ff ff"),
    ("Not", 24, node(4, 1, None, 2).hex()),
    ("Not, CONSTANT", 24, node(4, 1, None, 2, border=wire.CONSTANT, constant=5).hex()),
    ("Not, REPLICATE", 24, node(4, 1, None, 2, border=wire.REPLICATE).hex()),
    ("Not of name 0 with a slot", 24, node(4, reference(0, 254), None, 2).hex()),
    ("Not of slots", 24, node(4, reference(1, 3), None, reference(65536, 0)).hex()),
    ("Multiply", 24, node(7, 1, 2, 3, 1, 15).hex()),
    ("Box, CONSTANT", 24, node(14, 1, None, 2, border=wire.CONSTANT, constant=255).hex()),
    ("Sobel to both", 24, node(19, 1, None, 2, out2=3).hex()),
    ("Sobel to gx", 24, node(19, 1, None, 2).hex()),
    ("Sobel to gy", 24, node(19, 1, None, None, out2=2).hex()),
    ("Sobel to name 0 with a slot", 24, node(19, 1, None, reference(0, 0)).hex()),
    ("Convolve, REPLICATE", 24, node(20, 1, 2, 3, border=wire.REPLICATE).hex()),
    ("Histogram", 24, node(21, 1, None, 2).hex()),
    ("Integral", 24, node(22, 1, None, 2).hex()),
    ("MinMaxLoc, CONSTANT", 24, node(23, 1, None, 2, border=wire.CONSTANT, constant=1).hex()),
    ("Accumulate", 24, node(24, 1, None, 2).hex()),
    ("Accumulate into what it reads", 24, node(24, 1, None, 1).hex()),
    ("AccumulateSquare of a slot, amount 15", 24,
     node(25, reference(1, 3), None, reference(1, 4), 0, 15).hex()),
    ("CreateDelay, 1 slot", 25, "00 00 00 01 ff  01"),
    ("CreateDelay, 16 slots, after a slot", 25, "00 00 01 02 03  10"),
    ("CreateDelay after name 0", 25, "00 00 00 00 ff  02"),
    ("AgeDelay", 26, "00 00 00 02"),
    ("AgeDelay of the greatest number", 26, "ff ff ff ff"),
    ("RegisterAutoAging", 27, "00 00 00 03  00 00 00 02"),
    ("RegisterAutoAging of name 0", 27, "00 00 00 00  00 00 00 00"),
    ("RegisterAutoAging of the greatest numbers", 27, "ff ff ff ff  ff ff ff ff"),
)

# The first field with a disallowed value decides, however truncated or wrong the rest is.
REFUSED = (
    ("CreateImage, fmt 0", 3, "00 00 01 00 01", INVALID_FORMAT),
    ("CreateImage, fmt 4", 3, "04 00 01 00 01", INVALID_FORMAT),
    ("CreateImage, fmt 4 and no more", 3, "04", INVALID_FORMAT),
    ("CreateImage, fmt 4 and w 0", 3, "04 00 00 00 01", INVALID_FORMAT),
    ("CreateImage, w 0", 3, "01 00 00 00 01", INVALID_DIMENSION),
    ("CreateImage, w 8193 and no more", 3, "01 20 01", INVALID_DIMENSION),
    ("CreateImage, w 65535", 3, "01 ff ff 00 01", INVALID_DIMENSION),
    ("CreateImage, h 0", 3, "01 00 01 00 00", INVALID_DIMENSION),
    ("CreateImage, h 8193", 3, "01 00 01 20 01", INVALID_DIMENSION),
    ("CreateImage, h 8193 and a byte more", 3, "01 00 01 20 01 00", INVALID_DIMENSION),
    ("WriteImage, fmt 0", 5, "00 00 00 01 ff 00 00 01 00 01 00", INVALID_FORMAT),
    ("WriteImage, h 0", 5, "00 00 00 01 ff 01 00 01 00 00", INVALID_DIMENSION),
    ("WriteImage, w 8193", 5, "00 00 00 01 ff 01 20 01 00 01", INVALID_DIMENSION),
    ("SetValid, turned", 9, "00 00 00 01 ff 00 03 00 04 00 01 00 02", INVALID_VALUE),
    ("SetValid, columns that are turned", 9, "00 00 00 01 ff 00 03 00 00 00 01 00 01",
     INVALID_VALUE),
    ("SetValid, columns that are turned in their low bytes alone", 9,
     "00 00 00 01 ff 02 00 00 00 01 ff 00 01", INVALID_VALUE),
    ("SetValid, rows that are turned", 9, "00 00 00 01 ff 00 00 00 03 00 01 00 01", INVALID_VALUE),
    ("SetValid, rows that would be negative", 9, "00 00 00 01 ff 00 00 ff ff 00 01 00 01",
     INVALID_VALUE),
    ("SetValid, no column", 9, "00 00 00 01 ff 00 00 00 00 00 00 00 01", INVALID_VALUE),
    ("SetValid, no row", 9, "00 00 00 01 ff 00 00 00 00 00 01 00 00", INVALID_VALUE),
    ("SetValid, no column but the second", 9, "00 00 00 01 ff 00 01 00 00 00 01 00 01",
     INVALID_VALUE),
    ("SetValid, no row but the second", 9, "00 00 00 01 ff 00 00 00 01 00 01 00 01", INVALID_VALUE),
    ("SetValid, empty at the second place", 9, "00 00 00 01 ff 00 01 00 01 00 01 00 01",
     INVALID_VALUE),
    ("SetValid, turned and a byte more", 9, "00 00 00 01 ff 00 03 00 04 00 01 00 02 00",
     INVALID_VALUE),
    # A rectangle is one field, so a truncated one isn't checked.
    *((f"SetValid, turned and cut to {length} bytes", 9,
       "00 00 00 01 ff 00 03 00 04 00 01 00"[: 3 * length - 1], INVALID_PARAMETERS)
      for length in range(5, 13)),
    ("CreateLut, fmt 3", 11, "03", INVALID_FORMAT),
    ("CreateLut, fmt 0", 11, "00" * 257, INVALID_FORMAT),
    ("CreateThreshold, kind 2", 12, "02 01 00 0a ff 00", INVALID_PARAMETERS),
    ("CreateThreshold, kind 2 and fmt 3", 12, "02 03 00 0a ff 00", INVALID_PARAMETERS),
    ("CreateThreshold, fmt 3", 12, "00 03 00 0a ff 00", INVALID_FORMAT),
    ("CreateThreshold, -1 in U8", 12, "00 01 ff ff ff 00", INVALID_VALUE),
    ("CreateThreshold, 256 in U8", 12, "00 01 01 00 ff 00", INVALID_VALUE),
    ("CreateThreshold, -1 and 20 in U8", 12, "01 01 ff ff 00 14 ff 00", INVALID_VALUE),
    ("CreateThreshold, 10 and 256 in U8", 12, "01 01 00 0a 01 00 ff 00", INVALID_VALUE),
    ("CreateThreshold, 256 in U8 and no more", 12, "01 01 01 00", INVALID_VALUE),
    ("CreateThreshold, 21 to 20", 12, "01 01 00 15 00 14 ff 00", INVALID_VALUE),
    ("CreateThreshold, 1 to -1", 12, "01 02 00 01 ff ff ff 00", INVALID_VALUE),
    *((f"CreateConvolution, {columns} columns", 13,
       bytes([columns, 3, 0] + [0] * 6 * columns).hex(), INVALID_DIMENSION)
      for columns in (0, 1, 2, 4, 6, 8, 10, 11, 255)),
    *((f"CreateConvolution, {rows} rows", 13, bytes([3, rows, 0] + [0] * 6 * rows).hex(),
       INVALID_DIMENSION)
      for rows in (0, 1, 2, 4, 6, 8, 10, 11, 255)),
    ("CreateConvolution, 4 columns and no more", 13, "04", INVALID_DIMENSION),
    ("CreateConvolution, 4 rows and no more", 13, "03 04", INVALID_DIMENSION),
    ("CreateConvolution, 4 columns, 4 rows and the exponent 32", 13, "04 04 20", INVALID_DIMENSION),
    ("CreateConvolution, 3 columns, 4 rows and the exponent 32", 13, "03 04 20", INVALID_DIMENSION),
    ("CreateConvolution, the exponent 32", 13, "03 03 20" + " 00" * 18, INVALID_VALUE),
    ("CreateConvolution, the exponent 32 and no more", 13, "03 03 20", INVALID_VALUE),
    ("CreateConvolution, the exponent 255 and too much", 13, "03 03 ff" + " 00" * 20,
     INVALID_VALUE),
    ("CreateConvolution, 5 columns in 3 rows with what 3 in 3 have", 13, "05 03 00" + " 00" * 18,
     INVALID_PARAMETERS),
    ("CreateConvolution, 3 columns in 5 rows with what 3 in 3 have", 13, "03 05 00" + " 00" * 18,
     INVALID_PARAMETERS),
    ("CreateConvolution, 3 columns in 3 rows with what 5 in 3 have", 13, "03 03 00" + " 00" * 30,
     INVALID_PARAMETERS),
    ("CreateDistribution, 0 bins", 14, "00 00 00 00 00 01", INVALID_VALUE),
    ("CreateDistribution, 0 bins and no more", 14, "00 00", INVALID_VALUE),
    ("CreateDistribution, 257 bins", 14, "01 01 00 00 00 01", INVALID_VALUE),
    ("CreateDistribution, 65535 bins", 14, "ff ff 00 00 00 01", INVALID_VALUE),
    ("CreateDistribution, 257 bins, cut within the offset", 14, "01 01 00", INVALID_VALUE),
    ("CreateDistribution, the offset 256", 14, "00 01 01 00 00 01", INVALID_VALUE),
    ("CreateDistribution, the offset 65535 and no more", 14, "00 01 ff ff", INVALID_VALUE),
    ("CreateDistribution, the offset 256, cut within it", 14, "00 01 01", INVALID_PARAMETERS),
    ("CreateDistribution, no range", 14, "00 01 00 00 00 00", INVALID_VALUE),
    ("CreateDistribution, the range 257", 14, "00 01 00 00 01 01", INVALID_VALUE),
    ("CreateDistribution, no range and a byte more", 14, "00 01 00 00 00 00 00", INVALID_VALUE),
    ("Not, mode 3", 24, node(4, 1, None, 2, border=3).hex(), INVALID_PARAMETERS),
    ("Not, a constant without CONSTANT", 24, node(4, 1, None, 2, constant=5).hex(),
     INVALID_PARAMETERS),
    ("Not, a constant with REPLICATE", 24,
     node(4, 1, None, 2, border=wire.REPLICATE, constant=5).hex(), INVALID_PARAMETERS),
    ("Not of nothing", 24, node(4, None, None, 2).hex(), INVALID_PARAMETERS),
    ("Not to nothing", 24, node(4, 1, None, None).hex(), INVALID_PARAMETERS),
    ("Not to two outputs", 24, node(4, 1, None, 2, out2=3).hex(), INVALID_PARAMETERS),
    ("Not with a second input that is name 0 with a slot", 24,
     node(4, 1, reference(0, 254), 2).hex(), INVALID_PARAMETERS),
    ("Add, policy 2", 24, node(5, 1, 2, 3, 2).hex(), INVALID_PARAMETERS),
    ("Multiply, amount 16 and no more", 24, "07 00 00 00 10", INVALID_VALUE),
    ("Multiply, policy 2 and amount 16", 24, "07 00 00 02 10", INVALID_PARAMETERS),
    ("Multiply, amount 16 and no first input", 24, node(7, None, 2, 3, 0, 16).hex(), INVALID_VALUE),
    ("Box, mode 3", 24, node(14, 1, None, 2, border=3).hex(), INVALID_PARAMETERS),
    ("Accumulate, amount 1 and no more", 24, "18 00 00 00 01", INVALID_PARAMETERS),
    ("Accumulate, amount 16", 24, node(24, 1, None, 2, amount=16).hex(), INVALID_PARAMETERS),
    ("Accumulate to nothing", 24, node(24, 1, None, None).hex(), INVALID_PARAMETERS),
    ("Accumulate with the sums as in2 too", 24, node(24, 1, 2, 2).hex(), INVALID_PARAMETERS),
    ("Accumulate with the sums as in2 alone", 24, node(24, 1, 2, None).hex(), INVALID_PARAMETERS),
    ("AccumulateSquare, amount 16 and no more", 24, "19 00 00 00 10", INVALID_VALUE),
    ("AccumulateSquare, policy 1 and amount 16", 24, "19 00 00 01 10", INVALID_PARAMETERS),
    ("AccumulateSquare, amount 255 and no input", 24, node(25, None, None, 2, 0, 255).hex(),
     INVALID_VALUE),
    ("Sobel to nothing", 24, node(19, 1, None, None).hex(), INVALID_PARAMETERS),
    ("Sobel to nothing, and a byte", 24, node(19, 1, None, None).hex() + "00", INVALID_PARAMETERS),
    ("Sobel of nothing", 24, node(19, None, None, 2, out2=3).hex(), INVALID_PARAMETERS),
    *((f"function {number} of {'two' if in2 else 'one'}", 24, node(number, 1, in2, 3).hex(),
       INVALID_PARAMETERS)
      for number in (0, 26, 27, 255) for in2 in (None, 2)),
    *((f"CreateVirtualImage, fmt {fmt}", 19, f"00 00 00 01 {fmt:02x} 00 00 00 00", INVALID_FORMAT)
      for fmt in (4, 5, 128, 255)),
    ("CreateVirtualImage, fmt 4 and no more", 19, "00 00 00 01 04", INVALID_FORMAT),
    ("CreateVirtualImage, fmt 4 and w 8193", 19, "00 00 00 01 04 20 01 00 01", INVALID_FORMAT),
    ("CreateVirtualImage, w 8193", 19, "00 00 00 01 00 20 01 00 00", INVALID_DIMENSION),
    ("CreateVirtualImage, w 8193 and no more", 19, "00 00 00 01 03 20 01", INVALID_DIMENSION),
    ("CreateVirtualImage, w 65535", 19, "00 00 00 01 01 ff ff 00 01", INVALID_DIMENSION),
    ("CreateVirtualImage, h 8193", 19, "00 00 00 01 00 00 00 20 01", INVALID_DIMENSION),
    ("CreateVirtualImage, h 65535", 19, "00 00 00 01 01 00 01 ff ff", INVALID_DIMENSION),
    ("CreateVirtualImage, h 8193 and a byte more", 19, "00 00 00 01 00 00 00 20 01 00",
     INVALID_DIMENSION),
    ("CreateDelay, 0 slots", 25, "00 00 00 01 ff 00", INVALID_VALUE),
    ("CreateDelay, 17 slots", 25, "00 00 00 01 ff 11", INVALID_VALUE),
    ("CreateDelay, 255 slots", 25, "00 00 00 01 ff ff", INVALID_VALUE),
    ("CreateDelay, 0 slots and a byte more", 25, "00 00 00 01 ff 00 01", INVALID_VALUE),
)

# The parameters of a function's node besides in1 and out1: a second input, a policy, the greatest
# amount.
FUNCTIONS = (
    (1, True, False, None), (2, True, False, None), (3, True, False, None), (4, False, False, None),
    (5, True, True, None), (6, True, True, None), (7, True, True, 15), (8, True, False, None),
    (9, True, False, None), (10, True, False, None), (11, True, False, None),
    (12, True, False, None), (13, False, True, 7), (14, False, False, None),
    (15, False, False, None), (16, False, False, None), (17, False, False, None),
    (18, False, False, None), (19, False, False, None), (20, True, False, None),
    (21, False, False, None), (22, False, False, None), (23, False, False, None),
    (24, False, False, None), (25, False, False, 15),
)

BORDERS = ((wire.UNDEFINED, 0), (wire.CONSTANT, 0), (wire.CONSTANT, 255), (wire.REPLICATE, 0))
OPS = range(1, 28)


def function_rows() -> Iterator[Tuple[bytes, int]]:
    for number, second, policy, greatest in FUNCTIONS:
        in2, other = (2, None) if second else (None, 2)
        yield node(number, 1, in2, 3), SPELLED
        yield node(number, 1, other, 3), INVALID_PARAMETERS
        yield node(number, 1, in2, 3, policy=1), SPELLED if policy else INVALID_PARAMETERS
        yield node(number, 1, in2, 3, amount=greatest or 0), SPELLED
        yield node(number, 1, in2, 3,
                   amount=(greatest
                           or 0) + 1), INVALID_PARAMETERS if greatest is None else INVALID_VALUE
        yield node(number, None, in2, 3), INVALID_PARAMETERS
        yield node(number, 1, in2, None), INVALID_PARAMETERS
        for out1 in (3, None):
            yield node(number, 1, in2, out1,
                       out2=4), SPELLED if number == SOBEL else INVALID_PARAMETERS
        for border, constant in BORDERS:
            yield node(number, 1, in2, 3, border=border, constant=constant), SPELLED
        for border in (wire.UNDEFINED, wire.REPLICATE):
            yield node(number, 1, in2, 3, border=border, constant=1), INVALID_PARAMETERS


def nodes_in_graphs(rows: Iterable[Tuple[Any, ...]]) -> Iterator[Tuple[Any, ...]]:
    """Returns the rows with their bodies in bytes, and those of Immediate again as nodes of a
    graph."""
    for words, op, body, *code in rows:
        body = bytes.fromhex(body)
        yield words, op, body, *code
        if op == IMMEDIATE:
            yield words + ", in a graph", ADD_NODE, name(258) + body, *code


def body_rows() -> Iterator[Tuple[str, int, bytes, int]]:
    """Yields each op, body and code."""
    for fmt, size in ((U8, 256), (S16, 131_072)):
        table = bytes([fmt]) + bytes(range(256)) * (size // 256)
        yield "a table", 11, table, SPELLED
        yield "a table without its last byte", 11, table[:-1], INVALID_PARAMETERS
        yield "a table and a byte", 11, table + b"\0", INVALID_PARAMETERS
    yield "256 entries of S16", 11, bytes([S16]) + bytes(512), INVALID_PARAMETERS
    for words, op, body in nodes_in_graphs(WHOLE):
        yield words, op, body, SPELLED
        yield words + ", and a byte", op, body + b"\0", INVALID_PARAMETERS
        for length in range(len(body)):
            yield f"{words}, cut to {length} bytes", op, body[:length], INVALID_PARAMETERS
    for words, op, body, code in nodes_in_graphs(REFUSED):
        yield words, op, body, code
    for body, code in function_rows():
        yield f"function {body[0]}", IMMEDIATE, body, code
        yield f"function {body[0]} in a graph", ADD_NODE, name(1) + body, code
    # The text is the rest of the body, whatever it is, at about 64 bytes of body and beyond.
    for size in (0, 1, 58, 59, 60, 61, 4096, 65_531, 1_000_000):
        yield f"WriteImagePgm of {size} bytes", 6, reference(1) + bytes(size), SPELLED
    for length in range(5):
        yield f"WriteImagePgm, cut to {length} bytes", 6, reference(1)[:length], INVALID_PARAMETERS
    for op in (op for op in range(256) if op not in OPS):
        yield f"op {op}", op, b"", INVALID_PARAMETERS
    # Bodies of about 64 bytes, and long ones, for ops without a body.
    for op in (1, 2, 18, 200):
        for size in (1, 63, 64, 65, 66, 4096, 65_536, 1_000_000):
            yield f"{size} bytes to op {op}", op, bytes(size), INVALID_PARAMETERS


def check_bodies(program: Program) -> int:
    rows = list(body_rows())
    _, output, _ = program.run(b"".join(frame(CLIENT, op, body) for _, op, body, _ in rows))
    replies = wire.replies(output)
    check(len(replies) == len(rows), f"{len(replies)} replies to {len(rows)} bodies")
    for reply, (words, op, body, code) in zip(replies, rows):
        check(reply == reply_frame(CLIENT, op, code),
              f"{words}: {shown(body)}: {shown(reply)}, not code {code}")
    return len(rows)
