"""Draws random graphs, one for each seed."""

import random
from typing import Dict, List, NamedTuple, Optional, Sequence, Tuple

from feqyldan import wire
from checks.bands.graph import ADDING, GRAPH, STATISTICS, Graph, Made, Node

U8, S16, U32 = wire.U8, wire.S16, wire.U32
Size = Tuple[int, int]

BITS = (wire.AND_BITS, wire.OR_BITS, wire.XOR_BITS)
ARITHMETIC = (wire.ADD, wire.SUBTRACT, wire.MULTIPLY)
ALIKE = (wire.ABSOLUTE_DIFFERENCE, wire.MIN_PIXEL, wire.MAX_PIXEL)
NINES = (wire.BOX, wire.GAUSSIAN, wire.MEDIAN, wire.ERODE, wire.DILATE)
PIXELWISE = (*BITS, *ARITHMETIC, *ALIKE, wire.NOT_BITS, wire.THRESHOLD, wire.TABLE_LOOKUP,
             wire.CONVERT_DEPTH)

# The most samples that all nodes of a graph write together, so that no graph takes long.
GREATEST_SUM = 12_000_000


def small_size(rng: random.Random) -> Size:
    return rng.randint(1, 200), rng.randint(1, 400)


def wide_size(rng: random.Random) -> Size:
    """Draws a width, and a height at which an image has at most some hundred thousand samples."""
    width, most = rng.choice(((640, 480), (640, 480), (1000, 400), (1920, 300), (4096, 160)))
    return width, rng.randint(1, most) if rng.random() < 0.3 else rng.randint(most // 2, most)


def high_size(rng: random.Random) -> Size:
    return rng.randint(20, 60), rng.randint(2000, 8192)


def great_size(rng: random.Random) -> Size:
    return rng.choice((640, 640, 1000, 1000, 1920, 1920, 4096)), 1080


def any_size(rng: random.Random) -> Size:
    drawn = rng.choices((small_size, wide_size, high_size, great_size), (8, 10, 2, 1))[0]
    return drawn(rng)


class Held(NamedTuple):
    """An image that a node can read or write."""

    cell: bytes
    fmt: int
    size: Size


class Style(NamedTuple):
    """The ingredients of a graph: the share of window nodes, the rare statistics and accumulating
    functions, client images that are both written and read, and delays in whose slots nodes
    write."""

    windows: float
    statistics: Tuple[int, ...]
    reads_written: bool
    delays: int
    writes_slots: bool


def any_style(rng: random.Random) -> Style:
    def now_and_then(share: float) -> bool:
        return rng.random() < share

    statistics = rng.choices(((), STATISTICS), (10, 3))[0]
    return Style(rng.choice((0, 0.1, 0.2, 0.4, 0.8)), statistics, now_and_then(0.12),
                 rng.choice((0, 0, 0, 1, 2)), now_and_then(0.4))


class Draw:
    """A partly drawn graph."""

    def __init__(self, seed: int) -> None:
        self.rng = rng = random.Random(seed)
        self.seed, self.style = seed, any_style(rng)
        self.sizes = [any_size(rng)] if rng.random() < 0.92 else [small_size(rng), small_size(rng)]
        self.objects: List[Made] = []
        self.nodes: List[Node] = []
        self.delays: List[int] = []
        # Readable images and writable slots, and the objects that are not images, by kind.
        self.readable: List[Held] = []
        self.slots: List[Held] = []
        self.others: Dict[str, List[int]] = {}

    def chance(self, share: float) -> bool:
        return self.rng.random() < share

    # ---- objects

    def add(self, made: Made) -> int:
        self.objects.append(made)
        return GRAPH + len(self.objects)

    def image(self, fmt: int, size: Size, virtual: Optional[bytes] = None) -> Held:
        made = Made(wire.create_image(0, fmt, *size), fmt, *size, virtual=virtual)
        return Held(wire.reference(self.add(made)), fmt, size)

    def sources(self) -> None:
        """Draws the initial images, at least one U8 image of each size, and delays."""
        for size in self.sizes:
            self.readable.append(self.image(U8, size))
            for _ in range(self.rng.randint(0, 3)):
                self.readable.append(self.image(self.rng.choice((U8, S16)), size))
        for _ in range(self.style.delays):
            self.delay(self.rng.choice(self.readable))

    def delay(self, like: Held) -> None:
        slots = self.rng.randint(2, 4)
        made = Made(wire.create_delay(0, like.cell, slots), like.fmt, *like.size, slots)
        name = self.add(made)
        for slot in range(slots):
            held = Held(wire.reference(name, slot), like.fmt, like.size)
            to_write = self.style.writes_slots and self.chance(0.5)
            (self.slots if to_write else self.readable).append(held)
        if self.chance(0.6):
            self.delays.append(name)

    def other(self, kind: str, frame: bytes) -> bytes:
        """Returns the name of an object that is not an image, often an existing one."""
        names = self.others.setdefault(kind, [])
        if not names or self.chance(0.3):
            names.append(self.add(Made(frame)))
        return wire.reference(self.rng.choice(names))

    def table(self, fmt: int) -> bytes:
        entries = self.rng.randbytes(256 if fmt == U8 else 2 * 65536)
        return self.other(f"table {fmt}", wire.create_lut_of(0, fmt, entries))

    def threshold(self, fmt: int) -> bytes:
        least, greatest = (0, 255) if fmt == U8 else (-3000, 3000)
        limits = sorted(self.rng.randint(least, greatest) for _ in range(self.rng.randint(1, 2)))
        values = self.rng.randbytes(2)
        return self.other(f"threshold {fmt}", wire.create_threshold(0, fmt, limits, *values))

    def convolution(self) -> bytes:
        columns, rows = self.rng.choices((3, 5, 7, 9), (4, 2, 1, 1), k=2)
        greatest = self.rng.choice((2, 20, 20, 300, 32767))
        coefficients = [self.rng.randint(-greatest, greatest) for _ in range(columns * rows)]
        exponent = self.rng.choice((0, 1, 3, 6, 12))
        return self.other(
            "convolution", wire.create_convolution(0, columns, rows, exponent, coefficients))

    # ---- operands

    def pick(self, size: Size, formats: Sequence[int]) -> Held:
        """Chooses an input, often one of the newest images, so that graphs are deep. There is
        always a U8 image."""
        held = [held for held in self.readable if held.size == size and held.fmt in formats]
        return self.rng.choice(held[-3:] if self.chance(0.6) else held)

    def formats_of(self, size: Size) -> List[int]:
        return sorted({held.fmt for held in self.readable if held.size == size} & {U8, S16})

    def declared(self, fmt: int, size: Size, has_format: bool) -> bytes:
        """Draws a virtual image; each field is declared or left open."""
        shown = fmt if has_format or self.chance(0.5) else wire.OPEN
        sides = [side if self.chance(0.5) else wire.OPEN for side in size]
        return wire.create_virtual_image(0, GRAPH, shown, *sides)

    def output(self, fmt: int, size: Size, has_format: bool = False) -> bytes:
        """Chooses a slot, a virtual image or a client image. With `has_format` a virtual image
        declares its format, because the node would give an open image another one."""
        slots = [slot for slot in self.slots if (slot.fmt, slot.size) == (fmt, size)]
        if slots and self.chance(0.5):
            held = self.rng.choice(slots)
            self.slots.remove(held)
        elif self.chance(0.8):
            held = self.image(fmt, size, self.declared(fmt, size, has_format))
            self.readable.append(held)
            return held.cell
        else:
            held = self.image(fmt, size)
        if self.style.reads_written:
            self.readable.append(held)
        return held.cell

    # ---- nodes

    def node(self, function: int, in1: bytes, in2: Optional[bytes], out1: Optional[bytes],
             amount: int = 0, has_policy: bool = False, out2: Optional[bytes] = None) -> None:
        border = self.rng.choice((wire.UNDEFINED, wire.CONSTANT, wire.REPLICATE))
        constant = self.rng.choice((0, 1, 100, 255)) if border == wire.CONSTANT else 0
        policy = self.rng.choice((wire.WRAP, wire.SATURATE)) if has_policy else wire.WRAP
        self.nodes.append(
            Node(function, in1, in2, out1, policy, amount, border, constant, out2))

    def of_two(self, function: int, size: Size) -> None:
        formats = (U8,) if function in BITS else (U8, S16)
        first = self.pick(size, formats)
        if function in ARITHMETIC:
            second = self.pick(size, formats)
            is_narrow = first.fmt == second.fmt == U8 and self.chance(0.6)
            amount = self.rng.choice((0, 0, 1, 8, 15)) if function == wire.MULTIPLY else 0
            fmt = U8 if is_narrow else S16
            out1 = self.output(fmt, size, has_format=is_narrow)
            self.node(function, first.cell, second.cell, out1, amount, has_policy=True)
            return
        second = self.pick(size, (first.fmt,))
        self.node(function, first.cell, second.cell, self.output(first.fmt, size))

    def pixelwise(self, size: Size) -> None:
        function = self.rng.choice(PIXELWISE)
        if function in (*BITS, *ARITHMETIC, *ALIKE):
            self.of_two(function, size)
            return
        first = self.pick(size, (U8,) if function == wire.NOT_BITS else (U8, S16))
        second, fmt, amount = None, first.fmt, 0
        if function == wire.THRESHOLD:
            second, fmt = self.threshold(first.fmt), U8
        elif function == wire.TABLE_LOOKUP:
            second = self.table(first.fmt)
        elif function == wire.CONVERT_DEPTH:
            fmt, amount = S16 if first.fmt == U8 else U8, self.rng.randint(0, 7)
        self.node(function, first.cell, second, self.output(fmt, size), amount,
                  has_policy=function == wire.CONVERT_DEPTH)

    def window(self, size: Size) -> None:
        function, first = self.rng.choice((*NINES, wire.SOBEL, wire.CONVOLVE, wire.CONVOLVE)), None
        first = self.pick(size, (U8,))
        if function == wire.CONVOLVE:
            second, is_narrow = self.convolution(), self.chance(0.5)
            out1 = self.output(U8 if is_narrow else S16, size, has_format=is_narrow)
            self.node(function, first.cell, second, out1)
        elif function == wire.SOBEL:
            outputs = self.rng.choice(((True, True), (True, False), (False, True)))
            one, other = (self.output(S16, size) if is_there else None for is_there in outputs)
            self.node(function, first.cell, None, one, out2=other)
        else:
            self.node(function, first.cell, None, self.output(U8, size))

    def statistics(self, size: Size) -> None:
        """Adds a node that computes statistics, an integral image or sums. Sums go to a client
        image."""
        function = self.rng.choice(self.style.statistics)
        first = self.pick(size, (U8, S16) if function == wire.MIN_MAX_LOCATION else (U8,))
        if function in ADDING:
            held = self.image(S16, size)
            if self.style.reads_written:
                self.readable.append(held)
            amount = self.rng.randint(0, 15) if function == wire.ACCUMULATE_SQUARE else 0
            self.node(function, first.cell, None, held.cell, amount)
        elif function == wire.INTEGRAL:
            self.node(function, first.cell, None, self.output(U32, size))
        else:
            frame = (wire.create_min_max(0) if function == wire.MIN_MAX_LOCATION
                     else wire.create_distribution(0, *self.rng.choice(
                         ((256, 0, 256), (16, 0, 256), (3, 40, 100)))))
            self.node(function, first.cell, None, wire.reference(self.add(Made(frame))))

    def any_node(self) -> None:
        size = self.rng.choice(self.sizes)
        if self.style.statistics and self.chance(0.2):
            self.statistics(size)
        elif self.chance(self.style.windows):
            self.window(size)
        else:
            self.pixelwise(size)

    def graph(self) -> Graph:
        rng = self.rng
        self.sources()
        greatest = max(columns * rows for columns, rows in self.sizes)
        most = max(3, min(40, GREATEST_SUM // greatest))
        count = min(most, rng.choices(
            (rng.randint(1, 4), rng.randint(5, 12), rng.randint(13, 40)), (4, 5, 3))[0])
        for _ in range(count):
            self.any_node()
        return Graph(self.seed, self.with_few_unread(), tuple(self.nodes), tuple(self.delays))

    def with_few_unread(self) -> Tuple[Made, ...]:
        """Returns the objects. A virtual image that no node reads can't be observed, so most of
        these become client images."""
        read = {cell for node in self.nodes for cell in node.inputs()}
        return tuple(
            made._replace(virtual=None)
            if wire.reference(name) not in read and not self.chance(0.05) else made
            for name, made in enumerate(self.objects, GRAPH + 1))


def graph_of(seed: int) -> Graph:
    return Draw(seed).graph()
