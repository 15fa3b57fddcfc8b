"""Draws samples and valid rectangles of images."""

import random
import struct
from typing import Callable, NamedTuple, Optional, Tuple

from feqyldan import wire
from checks.bands.graph import Graph, Made

Rectangle = Tuple[int, int, int, int]
# Upper bytes of S16 samples. Most are those of small samples, so that sums and products often fit
# S16.
UPPER = bytes((0, 0, 0, 1, 2, 255, 255, 254)[byte % 8] for byte in range(256))


def noise(rng: random.Random, made: Made) -> bytes:
    return rng.randbytes(made.width * made.height * wire.sample_bytes(made.fmt))


def near_zero(rng: random.Random, made: Made) -> bytes:
    if made.fmt != wire.S16:
        return noise(rng, made)
    samples = bytearray(noise(rng, made))
    samples[::2] = samples[::2].translate(UPPER)
    return bytes(samples)


def encoded(rng: random.Random, fmt: int) -> bytes:
    """Draws a sample, often the least or the greatest of the format."""
    letter = wire.letter_of(fmt)
    ends = {wire.U8: (0, 1, 255), wire.S16: (-32768, -1, 0, 255, 32767), wire.U32: (0,)}
    if rng.random() < 0.3:
        return struct.pack(f">{letter}", rng.choice(ends[wire.Format(fmt)]))
    return rng.randbytes(wire.sample_bytes(fmt))


def constant(rng: random.Random, made: Made) -> bytes:
    return encoded(rng, made.fmt) * (made.width * made.height)


def steps_down(rng: random.Random, made: Made) -> bytes:
    """Draws a picture whose rows differ from the rows near them."""
    thick = rng.choice((1, 1, 2, 7, 16))
    samples, length = rng.randbytes(4 * made.height), wire.sample_bytes(made.fmt)
    starts = (y // thick * length for y in range(made.height))
    return b"".join(samples[start : start + length] * made.width for start in starts)


def steps_across(rng: random.Random, made: Made) -> bytes:
    return rng.randbytes(made.width * wire.sample_bytes(made.fmt)) * made.height


KINDS: Tuple[Callable[[random.Random, Made], bytes], ...] = (
    noise, near_zero, steps_down, steps_across, constant)
SHARES = (5, 6, 3, 1, 1)


def whole(made: Made) -> Rectangle:
    return 0, 0, made.width, made.height


def small(rng: random.Random, made: Made) -> Rectangle:
    left, top = rng.randrange(made.width), rng.randrange(made.height)
    return left, top, min(made.width, left + rng.randint(1, 4)), min(
        made.height, top + rng.randint(1, 4))


def empty(_: random.Random, __: Made) -> Rectangle:
    return 0, 0, 0, 0


def row(rng: random.Random, made: Made) -> Rectangle:
    top = rng.randrange(made.height)
    return 0, top, made.width, top + 1


def at_edge(rng: random.Random, made: Made) -> Rectangle:
    """Draws a rectangle without some columns or rows at one or two sides."""
    left, top = rng.randrange(made.width), rng.randrange(made.height)
    right, bottom = rng.randint(left + 1, made.width), rng.randint(top + 1, made.height)
    return rng.choice((
        (0, 0, made.width, bottom), (0, top, made.width, made.height),
        (0, 0, right, made.height), (left, 0, made.width, made.height),
        (left, top, made.width, made.height), (0, 0, right, bottom)))


def within(rng: random.Random, made: Made) -> Rectangle:
    """Draws a rectangle without a few columns and rows at each side, if there are enough of
    them."""
    left, top = rng.randint(0, min(9, made.width - 1)), rng.randint(0, min(40, made.height - 1))
    right = max(left + 1, made.width - rng.randint(0, 9))
    return left, top, right, max(top + 1, made.height - rng.randint(0, 40))


RECTANGLES: Tuple[Callable[[random.Random, Made], Rectangle], ...] = (
    small, empty, row, at_edge, within)
RECTANGLE_SHARES = (1, 1, 1, 4, 5)


class Picture(NamedTuple):
    """The contents of an image before a run."""

    samples: bytes
    valid: Rectangle
    kind: str


def picture_for(graph: Graph, cell: bytes, made: Made, turn: int) -> Optional[Picture]:
    """Draws the contents of an image before a run, or None if the image isn't written. Images that
    nodes write are written less often. Apart from that, the contents don't depend on the nodes, so
    a reduced graph gets the same pictures."""
    rng = random.Random(f"{graph.seed} {cell.hex()} {turn}")
    share = 0.9 if turn == 0 else 0.5
    if rng.random() > (share / 2 if cell in graph.written() else share):
        return None
    kind = rng.choices(KINDS, SHARES)[0]
    samples = kind(rng, made)
    is_whole = random.Random(f"{graph.seed} valid").random() < 0.4 or rng.random() < 0.5
    rectangle = rng.choices(RECTANGLES, RECTANGLE_SHARES)[0]
    valid = whole(made) if is_whole else rectangle(rng, made)
    return Picture(samples, valid, kind.__name__)
