"""Rows of sessions: a client's request frame, and the reply: the body of a success, or a code.

The sessions here and in checks/graphs are written with these, from docs/wire.md.
"""

import struct
from typing import Any, Callable, Dict, List, Optional, Sequence, Tuple, Union

from feqyldan import wire
from feqyldan.wire import (
    NO_RESOURCES, OPEN, S16, SUCCESS, U32, U8, Reference, frame, reference, reply_frame)

CLIENT = 7
# The expected reply: the body of a success, or a code.
Wanted = Union[bytes, int]
Row = Tuple[bytes, Wanted]


def reply_to(request: bytes, wanted: Wanted) -> bytes:
    client, op = struct.unpack_from(">HB", request, 4)
    return reply_frame(client, op,
                       *((SUCCESS, wanted) if isinstance(wanted, bytes) else (wanted, b"")))


def name(number: int) -> bytes:
    return struct.pack(">I", number)


def picture(fmt: int, width: int, height: int, samples: Sequence[int]) -> bytes:
    """Returns the body of the reply to ReadImage."""
    return struct.pack(f">BHH{width * height}{wire.letter_of(fmt)}", fmt, width, height,
                       *samples)


def opened(client: int = CLIENT) -> Row:
    return (wire.open_context(client), b"")


def closed(client: int = CLIENT, wanted: Wanted = b"") -> Row:
    return (wire.release_context(client), wanted)


def released(number: int, wanted: Wanted = b"", client: int = CLIENT) -> Row:
    return (wire.release(client, number), wanted)


# ---- images

RANGES = {U8: (0, 255), S16: (-32768, 32767), U32: (0, 2**32 - 1)}
TEN_TO_FORTY = [10, 20, 30, 40]
WHOLE_ROW, MIDDLE, NOWHERE = (0, 0, 4, 1), (1, 0, 3, 1), (0, 0, 0, 0)


def made(number: int, fmt: int, width: int = 1, height: int = 1, client: int = CLIENT) -> Row:
    return (wire.create_image(client, fmt, width, height), name(number))


def no_room(fmt: int, width: int, height: int, client: int = CLIENT) -> Row:
    return (wire.create_image(client, fmt, width, height), NO_RESOURCES)


def wrote(named: Reference, fmt: int, samples: Sequence[int], width: int = 1, height: int = 1,
          client: int = CLIENT) -> Row:
    body = picture(fmt, width, height, samples)
    return (frame(client, wire.WRITE_IMAGE, wire.operand(named) + body), b"")


def wrote_text(named: Reference, text: bytes, wanted: Wanted = b"", client: int = CLIENT) -> Row:
    return (wire.write_image_pgm(client, named, text), wanted)


def holds(named: Reference, fmt: int, samples: Sequence[int], width: int = 1, height: int = 1,
          client: int = CLIENT) -> Row:
    return (wire.read_image(client, named), picture(fmt, width, height, samples))


def holds_text(named: Reference, text: bytes, client: int = CLIENT) -> Row:
    return (wire.read_image_pgm(client, named), text)


def told(named: Reference, fmt: int, valid: Sequence[int], width: int = 1, height: int = 1,
         client: int = CLIENT) -> Row:
    """Returns the row of QueryImage, with the expected description."""
    return (wire.query_image(client, named), struct.pack(">BHH4H", fmt, width, height, *valid))


def shows(named: Reference, fmt: int, samples: Sequence[int], valid: Sequence[int], width: int,
          height: int = 1) -> List[Row]:
    """Returns the rows that query an image's rectangle, and read its samples."""
    return [told(named, fmt, valid, width, height), holds(named, fmt, samples, width, height)]


def confined(named: Reference, valid: Sequence[int], wanted: Wanted = b"",
             client: int = CLIENT) -> Row:
    """Returns the row of SetValid."""
    return (wire.set_valid(client, named, valid), wanted)


# ---- delays


def delayed(number: int, exemplar: Reference, slots: int, client: int = CLIENT) -> Row:
    return (wire.create_delay(client, exemplar, slots), name(number))


def aged(number: int, wanted: Wanted = b"", client: int = CLIENT) -> Row:
    return (wire.age_delay(client, number), wanted)


def registered(of: int, delay: int, wanted: Wanted = b"", client: int = CLIENT) -> Row:
    """Returns the row that registers a delay, which then ages after a graph's runs."""
    return (wire.register_auto_aging(client, of, delay), wanted)


def in_slots(row: Callable[..., Row], number: int, fmt: int, samples: Sequence[int],
             client: int = CLIENT) -> List[Row]:
    """Returns the row for each slot of a delay whose images have one sample, from slot 0 on."""
    return [row(reference(number, k), fmt, [sample], client=client)
            for k, sample in enumerate(samples)]


# ---- other objects

TURNED = wire.create_lut(CLIENT, U8, range(255, -1, -1))
SAME = wire.create_convolution(CLIENT, 3, 3, 0, [0] * 4 + [1] + [0] * 4)
THIRDS = wire.create_distribution(CLIENT, 3, 0, 256)
EXTREMES = wire.create_min_max(CLIENT)
NOTHING_FOUND = (0,) * 8


def threshold(fmt: int) -> bytes:
    """Returns the frame that creates a threshold with 7 for samples above 100, and 3 for others."""
    return wire.create_threshold(CLIENT, fmt, (100,), 7, 3)


def convolution(number: int, columns: int, rows: int, exponent: int,
                coefficients: Sequence[int]) -> Row:
    return (wire.create_convolution(CLIENT, columns, rows, exponent, coefficients), name(number))


def distribution(number: int, bins: int, offset: int, range_: int, client: int = CLIENT) -> Row:
    return (wire.create_distribution(client, bins, offset, range_), name(number))


def counted(number: int, counts: Sequence[int], client: int = CLIENT) -> Row:
    return (wire.read_distribution(client, number),
            struct.pack(f">H{len(counts)}I", len(counts), *counts))


def extremes(number: int, client: int = CLIENT) -> Row:
    return (wire.create_min_max(client), name(number))


def found(number: int, *numbers: int, client: int = CLIENT) -> Row:
    """Returns the row that reads extremes: the least and the greatest sample, the number of pixels
    with each, and x and y of the first pixel with each."""
    return (wire.read_min_max(client, number), struct.pack(">hhII4H", *numbers))


# ---- nodes and graphs

UNDEFINED, REPLICATE = {"border": wire.UNDEFINED}, {"border": wire.REPLICATE}


def constant(value: int) -> Dict[str, int]:
    return {"border": wire.CONSTANT, "constant": value}


def ran(function: int, in1: Optional[Reference], in2: Optional[Reference],
        out1: Optional[Reference], wanted: Wanted = b"", **beside: Any) -> Row:
    return (wire.immediate(CLIENT, function, in1, in2, out1, **beside), wanted)


def graph(number: int, client: int = CLIENT) -> Row:
    return (wire.create_graph(client), name(number))


def virtual(number: int, of: int, fmt: int = OPEN, width: int = OPEN, height: int = OPEN,
            client: int = CLIENT) -> Row:
    return (wire.create_virtual_image(client, of, fmt, width, height), name(number))


def added(of: int, number: int, node: bytes, client: int = CLIENT) -> Row:
    """Returns the row that adds a node, in bytes, to a graph and gets this number."""
    return (frame(client, wire.ADD_NODE, name(of) + node), name(number))


def unadded(of: int, code: int, node: bytes, client: int = CLIENT) -> Row:
    """Returns the row that adds a node to a graph and is refused with this code."""
    return (frame(client, wire.ADD_NODE, name(of) + node), code)


def removed(of: int, number: int, wanted: Wanted = b"", client: int = CLIENT) -> Row:
    return (wire.remove_node(client, of, number), wanted)


def verified(of: int, wanted: Wanted = b"", client: int = CLIENT) -> Row:
    return (wire.verify_graph(client, of), wanted)


def processed(of: int, wanted: Wanted = b"", client: int = CLIENT) -> Row:
    return (wire.process_graph(client, of), wanted)


# ---- requests by the objects that they name

# Requests that create an object and name none.
CREATES = (
    wire.create_image(CLIENT, U8, 1, 1), TURNED, threshold(U8), SAME, THIRDS, EXTREMES,
    wire.create_graph(CLIENT))


def on_image(named: Reference) -> Tuple[bytes, ...]:
    """Returns requests that name an image. Each would succeed for an image of one U8 sample, except
    one PGM text that is always refused."""
    return (
        wire.query_image(CLIENT, named), wire.write_image(CLIENT, named, U8, 1, 1, b"\n"),
        wire.read_image(CLIENT, named), wire.write_image_pgm(CLIENT, named, b"P2 1 1 255 1"),
        wire.write_image_pgm(CLIENT, named, b""), wire.read_image_pgm(CLIENT, named),
        wire.set_valid(CLIENT, named, (0, 0, 1, 1)), wire.create_delay(CLIENT, named, 2))


def on_graph(of: int) -> Tuple[bytes, ...]:
    """Returns requests that name a graph. Except for AddNode and RegisterAutoAging they name
    nothing else."""
    return (
        wire.create_virtual_image(CLIENT, of), wire.add_node(CLIENT, of, wire.NOT_BITS, 1, None, 2),
        wire.remove_node(CLIENT, of, 1), wire.verify_graph(CLIENT, of),
        wire.process_graph(CLIENT, of), wire.register_auto_aging(CLIENT, of, 1))
