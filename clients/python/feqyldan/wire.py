"""
Request frames and reply frames, in bytes and in words.

The numbers of ops, functions, codes and so on are members of enumerations, and also names of this
module: `wire.ADD_NODE` is `wire.Op.ADD_NODE`, which is 20. Wherever one of them is expected, any
number is accepted; the server refuses numbers without a meaning.
"""

from __future__ import annotations

import struct
from collections.abc import Sequence
from enum import IntEnum
from functools import lru_cache
from typing import NamedTuple, Optional, Union

# An object, by its name or by the bytes that reference() returns.
Reference = Union[int, bytes]


class Op(IntEnum):
    """The kind of a request."""

    OPEN_CONTEXT = 1
    RELEASE_CONTEXT = 2
    CREATE_IMAGE = 3
    QUERY_IMAGE = 4
    WRITE_IMAGE = 5
    WRITE_IMAGE_PGM = 6
    READ_IMAGE = 7
    READ_IMAGE_PGM = 8
    SET_VALID = 9
    RELEASE = 10
    CREATE_LUT = 11
    CREATE_THRESHOLD = 12
    CREATE_CONVOLUTION = 13
    CREATE_DISTRIBUTION = 14
    READ_DISTRIBUTION = 15
    CREATE_MIN_MAX = 16
    READ_MIN_MAX = 17
    CREATE_GRAPH = 18
    CREATE_VIRTUAL_IMAGE = 19
    ADD_NODE = 20
    REMOVE_NODE = 21
    VERIFY_GRAPH = 22
    PROCESS_GRAPH = 23
    IMMEDIATE = 24
    CREATE_DELAY = 25
    AGE_DELAY = 26
    REGISTER_AUTO_AGING = 27


class Function(IntEnum):
    """The vision function of a node."""

    AND_BITS = 1
    OR_BITS = 2
    XOR_BITS = 3
    NOT_BITS = 4
    ADD = 5
    SUBTRACT = 6
    MULTIPLY = 7
    ABSOLUTE_DIFFERENCE = 8
    MIN_PIXEL = 9
    MAX_PIXEL = 10
    THRESHOLD = 11
    TABLE_LOOKUP = 12
    CONVERT_DEPTH = 13
    BOX = 14
    GAUSSIAN = 15
    MEDIAN = 16
    ERODE = 17
    DILATE = 18
    SOBEL = 19
    CONVOLVE = 20
    HISTOGRAM = 21
    INTEGRAL = 22
    MIN_MAX_LOCATION = 23
    ACCUMULATE = 24
    ACCUMULATE_SQUARE = 25


class Code(IntEnum):
    """The status code of a reply."""

    SUCCESS = 0
    NO_MEMORY = 1
    INVALID_PARAMETERS = 2
    INVALID_REFERENCE = 3
    INVALID_SCOPE = 4
    INVALID_FORMAT = 5
    INVALID_DIMENSION = 6
    INVALID_VALUE = 7
    INVALID_TYPE = 8
    INVALID_GRAPH = 9
    INVALID_LINK = 10
    MULTIPLE_WRITERS = 11
    OPTIMIZED_AWAY = 12
    NO_RESOURCES = 13


class Format(IntEnum):
    """The format of samples."""

    U8 = 1
    S16 = 2
    U32 = 3


class Policy(IntEnum):
    """The policy for a value out of the range of the output's format."""

    WRAP = 0
    SATURATE = 1


class Border(IntEnum):
    """The border mode: what a window sees outside the valid samples."""

    UNDEFINED = 0
    CONSTANT = 1
    REPLICATE = 2


class Kind(IntEnum):
    """The kind of a threshold: one limit or two."""

    BINARY = 0
    RANGE = 1


OPEN_CONTEXT = Op.OPEN_CONTEXT
RELEASE_CONTEXT = Op.RELEASE_CONTEXT
CREATE_IMAGE = Op.CREATE_IMAGE
QUERY_IMAGE = Op.QUERY_IMAGE
WRITE_IMAGE = Op.WRITE_IMAGE
WRITE_IMAGE_PGM = Op.WRITE_IMAGE_PGM
READ_IMAGE = Op.READ_IMAGE
READ_IMAGE_PGM = Op.READ_IMAGE_PGM
SET_VALID = Op.SET_VALID
RELEASE = Op.RELEASE
CREATE_LUT = Op.CREATE_LUT
CREATE_THRESHOLD = Op.CREATE_THRESHOLD
CREATE_CONVOLUTION = Op.CREATE_CONVOLUTION
CREATE_DISTRIBUTION = Op.CREATE_DISTRIBUTION
READ_DISTRIBUTION = Op.READ_DISTRIBUTION
CREATE_MIN_MAX = Op.CREATE_MIN_MAX
READ_MIN_MAX = Op.READ_MIN_MAX
CREATE_GRAPH = Op.CREATE_GRAPH
CREATE_VIRTUAL_IMAGE = Op.CREATE_VIRTUAL_IMAGE
ADD_NODE = Op.ADD_NODE
REMOVE_NODE = Op.REMOVE_NODE
VERIFY_GRAPH = Op.VERIFY_GRAPH
PROCESS_GRAPH = Op.PROCESS_GRAPH
IMMEDIATE = Op.IMMEDIATE
CREATE_DELAY = Op.CREATE_DELAY
AGE_DELAY = Op.AGE_DELAY
REGISTER_AUTO_AGING = Op.REGISTER_AUTO_AGING
AND_BITS = Function.AND_BITS
OR_BITS = Function.OR_BITS
XOR_BITS = Function.XOR_BITS
NOT_BITS = Function.NOT_BITS
ADD = Function.ADD
SUBTRACT = Function.SUBTRACT
MULTIPLY = Function.MULTIPLY
ABSOLUTE_DIFFERENCE = Function.ABSOLUTE_DIFFERENCE
MIN_PIXEL = Function.MIN_PIXEL
MAX_PIXEL = Function.MAX_PIXEL
THRESHOLD = Function.THRESHOLD
TABLE_LOOKUP = Function.TABLE_LOOKUP
CONVERT_DEPTH = Function.CONVERT_DEPTH
BOX = Function.BOX
GAUSSIAN = Function.GAUSSIAN
MEDIAN = Function.MEDIAN
ERODE = Function.ERODE
DILATE = Function.DILATE
SOBEL = Function.SOBEL
CONVOLVE = Function.CONVOLVE
HISTOGRAM = Function.HISTOGRAM
INTEGRAL = Function.INTEGRAL
MIN_MAX_LOCATION = Function.MIN_MAX_LOCATION
ACCUMULATE = Function.ACCUMULATE
ACCUMULATE_SQUARE = Function.ACCUMULATE_SQUARE
SUCCESS = Code.SUCCESS
NO_MEMORY = Code.NO_MEMORY
INVALID_PARAMETERS = Code.INVALID_PARAMETERS
INVALID_REFERENCE = Code.INVALID_REFERENCE
INVALID_SCOPE = Code.INVALID_SCOPE
INVALID_FORMAT = Code.INVALID_FORMAT
INVALID_DIMENSION = Code.INVALID_DIMENSION
INVALID_VALUE = Code.INVALID_VALUE
INVALID_TYPE = Code.INVALID_TYPE
INVALID_GRAPH = Code.INVALID_GRAPH
INVALID_LINK = Code.INVALID_LINK
MULTIPLE_WRITERS = Code.MULTIPLE_WRITERS
OPTIMIZED_AWAY = Code.OPTIMIZED_AWAY
NO_RESOURCES = Code.NO_RESOURCES
U8 = Format.U8
S16 = Format.S16
U32 = Format.U32
WRAP = Policy.WRAP
SATURATE = Policy.SATURATE
UNDEFINED = Border.UNDEFINED
CONSTANT = Border.CONSTANT
REPLICATE = Border.REPLICATE
BINARY = Kind.BINARY
RANGE = Kind.RANGE

CREATES = (
    CREATE_IMAGE, CREATE_LUT, CREATE_THRESHOLD, CREATE_CONVOLUTION, CREATE_DISTRIBUTION,
    CREATE_MIN_MAX, CREATE_GRAPH, CREATE_VIRTUAL_IMAGE, CREATE_DELAY)
# The bytes of the body of a successful reply, by op. It is 0 here for reads of samples, counts and
# texts, whose length depends on the object that is read.
BODY_BYTES: dict[int, int] = {
    **dict.fromkeys(Op, 0), **dict.fromkeys(CREATES, 4), ADD_NODE: 4, QUERY_IMAGE: 13,
    READ_MIN_MAX: 20}
# A virtual image's format, width or height that isn't declared.
OPEN = 0
# The least and the greatest length field of a request frame, which counts the bytes after itself.
LEAST_LENGTH, GREATEST_LENGTH = 3, 536_870_912
# The most columns of an image, and the most rows.
GREATEST_SIDE = 8192
SAMPLE_LETTERS = {U8: "B", S16: "h", U32: "I"}
# The most frames of a kind that are cached, because programs send them again and again.
KEPT = 256
FORMAT_NAMES = {OPEN: "open", **{fmt: fmt.name for fmt in Format}}
ABSENT = struct.pack(">IB", 0, 255)
CODES = [code.name for code in Code]


def letter_of(fmt: int) -> str:
    """Returns the letter of the module struct for a sample of a format."""
    return SAMPLE_LETTERS[Format(fmt)]


def sample_bytes(fmt: int) -> int:
    """Returns how many bytes a sample of a format takes in a frame."""
    return struct.calcsize(">" + letter_of(fmt))


def frame(client: int, op: int, body: bytes = b"") -> bytes:
    return struct.pack(">IHB", len(body) + 3, client, op) + body


def frame_head(client: int, op: int, length: int) -> bytes:
    """Returns the bytes of a request before its body of `length` bytes."""
    return struct.pack(">IHB", length + 3, client, op)


def reply_frame(client: int, op: int, code: int = Code.SUCCESS, body: bytes = b"") -> bytes:
    return struct.pack(">IHBB", len(body) + 4, client, op, code) + body


def reference(name: int, slot: int = 255) -> bytes:
    """Returns the reference to an object, or to a slot of a delay. For slot -k, `slot` is k; 0 is
    the newest."""
    return struct.pack(">IB", name, slot)


def operand(named: Optional[Reference]) -> bytes:
    """Returns the bytes of an operand: from a name, the bytes of a reference, or None for an absent
    operand."""
    if named is None:
        return ABSENT
    return named if isinstance(named, bytes) else reference(named)


def open_context(client: int) -> bytes:
    return frame(client, OPEN_CONTEXT)


def release_context(client: int) -> bytes:
    return frame(client, RELEASE_CONTEXT)


def create_image(client: int, fmt: int, width: int, height: int) -> bytes:
    return frame(client, CREATE_IMAGE, struct.pack(">BHH", fmt, width, height))


def query_image(client: int, named: Reference) -> bytes:
    return frame(client, QUERY_IMAGE, operand(named))


def write_image(
        client: int, named: Reference, fmt: int, width: int, height: int, samples: bytes) -> bytes:
    described = operand(named) + struct.pack(">BHH", fmt, width, height)
    return frame(client, WRITE_IMAGE, described + samples)


@lru_cache(KEPT)
def write_image_head(client: int, named: Reference, fmt: int, width: int, height: int) -> bytes:
    """Returns the frame of WriteImage without its samples. The caller sends width times height of
    them after it, row by row."""
    described = operand(named) + struct.pack(">BHH", fmt, width, height)
    length = len(described) + width * height * sample_bytes(fmt)
    return frame_head(client, WRITE_IMAGE, length) + described


def write_image_pgm_head(client: int, named: Reference, length: int) -> bytes:
    """Returns the frame of WriteImagePgm without its text. The caller sends `length` bytes after
    it."""
    return frame_head(client, WRITE_IMAGE_PGM, 5 + length) + operand(named)


def write_image_pgm(client: int, named: Reference, text: bytes) -> bytes:
    """Returns the frame that writes a PGM text, P5 or P2, of the image's format and size."""
    return frame(client, WRITE_IMAGE_PGM, operand(named) + text)


@lru_cache(KEPT)
def read_image(client: int, named: Reference) -> bytes:
    return frame(client, READ_IMAGE, operand(named))


def read_image_pgm(client: int, named: Reference) -> bytes:
    """Returns the frame that reads a U8 image as a PGM text."""
    return frame(client, READ_IMAGE_PGM, operand(named))


def set_valid(client: int, named: Reference, rectangle: Sequence[int]) -> bytes:
    """Returns the frame that sets the valid rectangle x0, y0, x1, y1, without column x1 and row y1.
    Four zeros are the empty rectangle."""
    return frame(client, SET_VALID, operand(named) + struct.pack(">4H", *rectangle))


def release(client: int, name: int) -> bytes:
    return frame(client, RELEASE, struct.pack(">I", name))


def create_lut(client: int, fmt: int, entries: Sequence[int]) -> bytes:
    body = struct.pack(f">B{len(entries)}{letter_of(fmt)}", fmt, *entries)
    return frame(client, CREATE_LUT, body)


def create_lut_of(client: int, fmt: int, entries: bytes) -> bytes:
    """Returns the frame that creates a lookup table from the bytes of all entries, each
    big-endian."""
    return frame(client, CREATE_LUT, bytes([fmt]) + entries)


def create_threshold(
        client: int, fmt: int, limits: Sequence[int], true_value: int = 255,
        false_value: int = 0) -> bytes:
    """Returns the frame that creates a threshold: BINARY with one limit, RANGE with two."""
    kind = RANGE if len(limits) == 2 else BINARY
    body = struct.pack(f">BB{len(limits)}hBB", kind, fmt, *limits, true_value, false_value)
    return frame(client, CREATE_THRESHOLD, body)


def create_convolution(
        client: int, columns: int, rows: int, exponent: int, coefficients: Sequence[int]) -> bytes:
    """Returns the frame that creates a convolution from its coefficients, row by row from the top.
    Sums are divided by 2 to the exponent."""
    body = struct.pack(f">BBB{len(coefficients)}h", columns, rows, exponent, *coefficients)
    return frame(client, CREATE_CONVOLUTION, body)


def create_distribution(client: int, bins: int, offset: int, range: int) -> bytes:
    """Returns the frame that creates a distribution of `bins` bins, which cover `range` samples
    from the offset on."""
    return frame(client, CREATE_DISTRIBUTION, struct.pack(">HHH", bins, offset, range))


def read_distribution(client: int, name: int) -> bytes:
    return frame(client, READ_DISTRIBUTION, struct.pack(">I", name))


def create_min_max(client: int) -> bytes:
    return frame(client, CREATE_MIN_MAX)


def read_min_max(client: int, name: int) -> bytes:
    return frame(client, READ_MIN_MAX, struct.pack(">I", name))


def create_graph(client: int) -> bytes:
    return frame(client, CREATE_GRAPH)


def create_virtual_image(
        client: int, graph: int, fmt: int = OPEN, width: int = OPEN, height: int = OPEN) -> bytes:
    """Returns the frame that creates a virtual image of a graph. What is left open is resolved from
    the node that writes the image."""
    return frame(client, CREATE_VIRTUAL_IMAGE, struct.pack(">IBHH", graph, fmt, width, height))


def create_delay(client: int, exemplar: Reference, slots: int) -> bytes:
    return frame(client, CREATE_DELAY, operand(exemplar) + bytes([slots]))


def age_delay(client: int, name: int) -> bytes:
    return frame(client, AGE_DELAY, struct.pack(">I", name))


def register_auto_aging(client: int, graph: int, delay: int) -> bytes:
    """Returns the frame that registers a delay: each successful run of the graph then ages it."""
    return frame(client, REGISTER_AUTO_AGING, struct.pack(">II", graph, delay))


def node(
        function: int, in1: Optional[Reference], in2: Optional[Reference],
        out1: Optional[Reference], policy: int = WRAP, amount: int = 0, border: int = UNDEFINED,
        constant: int = 0, out2: Optional[Reference] = None) -> bytes:
    """Returns the bytes of a node. An operand is None if the function doesn't have it; one of
    Sobel's outputs may be None too."""
    fields = bytes([function, border, constant, policy, amount])
    return fields + b"".join(operand(named) for named in (in1, in2, out1, out2))


def immediate(
        client: int, function: int, in1: Optional[Reference], in2: Optional[Reference],
        out1: Optional[Reference], policy: int = WRAP, amount: int = 0, border: int = UNDEFINED,
        constant: int = 0, out2: Optional[Reference] = None) -> bytes:
    """Returns the frame that runs one node by itself."""
    run = node(function, in1, in2, out1, policy, amount, border, constant, out2)
    return frame(client, IMMEDIATE, run)


def add_node(
        client: int, graph: int, function: int, in1: Optional[Reference], in2: Optional[Reference],
        out1: Optional[Reference], policy: int = WRAP, amount: int = 0, border: int = UNDEFINED,
        constant: int = 0, out2: Optional[Reference] = None) -> bytes:
    """Returns the frame that adds a node to a graph."""
    added = node(function, in1, in2, out1, policy, amount, border, constant, out2)
    return frame(client, ADD_NODE, struct.pack(">I", graph) + added)


def remove_node(client: int, graph: int, number: int) -> bytes:
    """Returns the frame that removes a node, by the number that AddNode returned."""
    return frame(client, REMOVE_NODE, struct.pack(">II", graph, number))


def verify_graph(client: int, graph: int) -> bytes:
    return frame(client, VERIFY_GRAPH, struct.pack(">I", graph))


@lru_cache(KEPT)
def process_graph(client: int, graph: int) -> bytes:
    """Returns the frame that verifies a graph, and runs all its nodes."""
    return frame(client, PROCESS_GRAPH, struct.pack(">I", graph))


def bitwise_not(client: int, source: Reference, target: Reference) -> bytes:
    return immediate(client, NOT_BITS, source, None, target)


def split(stream: bytes, head: int) -> list[bytes]:
    """Returns the frames of a stream. `head` is the number of bytes before a frame's body. Raises
    ValueError if the stream has bytes that aren't part of a complete frame."""
    frames: list[bytes] = []
    at = 0
    while at < len(stream):
        end = at + 4 + int.from_bytes(stream[at : at + 4], "big")
        if not at + head <= end <= len(stream):
            raise ValueError(f"no whole frame begins at byte {at} of {len(stream)}: by its length "
                             f"it ends at byte {end}; is the stream cut off?")
        frames.append(stream[at:end])
        at = end
    return frames


def replies(stream: bytes) -> list[bytes]:
    return split(stream, 8)


def code_of(reply: bytes) -> int:
    return reply[7]


def size_of(reply: bytes) -> tuple[int, int, int]:
    """Returns the format, the width and the height of an image that was read or queried."""
    fmt, width, height = struct.unpack_from(">BHH", reply, 8)
    return fmt, width, height


def rows_of(reply: bytes) -> list[tuple[int, ...]]:
    """Returns the samples of an image that was read, row by row."""
    fmt, width, height = size_of(reply)
    samples = struct.unpack(f">{width * height}{letter_of(fmt)}", reply[13:])
    return [samples[y * width : (y + 1) * width] for y in range(height)]


def description_of(reply: bytes) -> tuple[int, int, int, tuple[int, ...]]:
    """Returns the format, the width, the height and the valid rectangle, as x0, y0, x1, y1, of an
    image that was queried. For a virtual image they are as declared, with four zeros for the
    rectangle."""
    fmt, width, height, *valid = struct.unpack(">BHH4H", reply[8:])
    return fmt, width, height, tuple(valid)


def name_of(reply: bytes) -> int:
    """Returns the name of an object that was created."""
    name: int = struct.unpack(">I", reply[8:])[0]
    return name


def node_of(reply: bytes) -> int:
    """Returns the number of a node that was added."""
    number: int = struct.unpack(">I", reply[8:])[0]
    return number


def text_of(reply: bytes) -> bytes:
    """Returns the PGM text of an image that was read as one."""
    return reply[8:]


def counts_of(reply: bytes) -> tuple[int, ...]:
    """Returns the counts of a distribution that was read, one for each bin."""
    (bins,) = struct.unpack_from(">H", reply, 8)
    return struct.unpack(f">{bins}I", reply[10:])


class Extremes(NamedTuple):
    """The least and the greatest valid sample, how many pixels have each, and the x, y of the first
    such pixel, row by row from the top."""

    min: int
    max: int
    min_count: int
    max_count: int
    min_at: tuple[int, ...]
    max_at: tuple[int, ...]


def extremes_of(reply: bytes) -> Extremes:
    """Returns the extremes that were read. All numbers are 0 if no pixel was valid, or if
    min_max_loc hasn't run yet."""
    least, greatest, least_count, greatest_count, *places = struct.unpack(">hhII4H", reply[8:])
    return Extremes(
        least, greatest, least_count, greatest_count, tuple(places[:2]), tuple(places[2:]))


def say_found(words: str, sample: int, count: int, at: Sequence[int]) -> str:
    return f"{words} {sample}, {count} time{'' if count == 1 else 's'}, first at {at[0]},{at[1]}"


def say(reply: bytes) -> str:
    """Returns a reply as a line of words."""
    client, op, code = struct.unpack_from(">HBB", reply, 4)
    line = f"client {client}, op {op}: {CODES[code]}"
    return line + say_body(op, reply) if code == SUCCESS else line


def say_body(op: int, reply: bytes) -> str:
    """Returns the result in a successful reply, in words."""
    if op in CREATES:
        return f", name {name_of(reply)}"
    if op == QUERY_IMAGE:
        fmt, width, height, valid = description_of(reply)
        size = f"{width or 'open'} by {height or 'open'}"
        return f", {FORMAT_NAMES[fmt]}, {size}, valid {','.join(map(str, valid))}"
    if op == ADD_NODE:
        return f", node {node_of(reply)}"
    if op == READ_IMAGE:
        rows = rows_of(reply)
        samples = " / ".join(" ".join(map(str, row)) for row in rows)
        return f", {len(rows[0])} by {len(rows)}: {samples}"
    if op == READ_IMAGE_PGM:
        *header, raster = text_of(reply).split(b"\n", 3)
        return f", {b' '.join(header).decode()}: {' '.join(map(str, raster))}"
    if op == READ_DISTRIBUTION:
        return f", counts {' '.join(map(str, counts_of(reply)))}"
    if op == READ_MIN_MAX:
        found = extremes_of(reply)
        least = say_found("least", found.min, found.min_count, found.min_at)
        return f", {least}; {say_found('greatest', found.max, found.max_count, found.max_at)}"
    return ""
