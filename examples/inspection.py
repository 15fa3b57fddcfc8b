#!/usr/bin/env python3
"""An inspection station that finds scratched parts by comparison with a reference.

    examples/inspection.py FOLDER

Inspects two flanges. For each picture a graph removes specks by a median, takes the absolute
difference to the reference, marks differences above 24, removes single marked pixels by a second
median, and finds the bounding rectangle of the marks. Prints the result, and writes
FOLDER/inspection.png: the reference, the scratched part with the rectangle, the difference four
times as bright, and the marked pixels.
"""

import math
import os
import random
from typing import Any, List, NamedTuple, Optional, Sequence, Tuple

import feqyldan as vx
from bounds import add_bounds, rectangle_of
from folder import folder_told

# Rows of red, green and blue values from 0 to 255, top row first.
Pixel = Tuple[int, int, int]
Rows = List[List[Pixel]]

WIDTH, HEIGHT = 200, 144
MIDDLE = (100, 72)
HOLES = [(MIDDLE[0] + 42 * math.cos(k * math.pi / 3), MIDDLE[1] + 42 * math.sin(k * math.pi / 3))
         for k in range(6)]
SCRATCH = ((77, 41), (64, 95))
GAP = 6
WHITE, RED = (255, 255, 255), (230, 30, 30)


# ---- the pictures

def inside(distance: float) -> float:
    """Returns the share of a pixel that lies inside an edge at this distance."""
    return min(1.0, max(0.0, distance + 0.5))


def flange(x: int, y: int) -> float:
    """Draws a rotated flange with a bore and six holes on a dark belt."""
    radius = math.dist((x, y), MIDDLE)
    metal = inside(63 - radius) * inside(radius - 19)
    for hole in HOLES:
        metal *= inside(math.dist((x, y), hole) - 7)
    shine = 145 + 35 * math.cos(2 * math.atan2(y - MIDDLE[1], x - MIDDLE[0]) - 0.8)
    return 36 + (shine - 36) * metal


def from_scratch(x: int, y: int) -> float:
    """Returns the distance of a pixel from the centre line of the scratch."""
    (ax, ay), (bx, by) = SCRATCH
    along = ((x - ax) * (bx - ax) + (y - ay) * (by - ay)) / math.dist(*SCRATCH) ** 2
    along = min(1.0, max(0.0, along))
    return math.dist((x, y), (ax + along * (bx - ax), ay + along * (by - ay)))


def photograph(seed: int, scratched: bool = False) -> List[List[int]]:
    """Returns a camera picture of a part: with a little noise, and black and white specks."""
    chance = random.Random(seed)

    def sample(x: int, y: int) -> int:
        if chance.random() < 0.003:
            return chance.choice((0, 255))
        clean = flange(x, y)
        if scratched:
            clean += (235 - clean) * inside(1.3 - from_scratch(x, y))
        return int(clean) + chance.randrange(2)

    return [[sample(x, y) for x in range(WIDTH)] for y in range(HEIGHT)]


# ---- the station

class Finding(NamedTuple):
    pixels: int
    around: Optional[vx.Rectangle]


class Station:
    """Builds a graph that compares the picture in `part` with a reference and writes `difference`
    and `marks`."""

    def __init__(self, context: vx.Context, reference: vx.Image) -> None:
        self.part, self.difference, self.marks, clean = (context.image_like(reference)
                                                         for _ in range(4))
        context.vxu.median3x3(reference, clean, border=vx.REPLICATE)
        self._graph = graph = context.graph()
        smooth, differing = graph.virtual_image(), graph.virtual_image()
        graph.median3x3(self.part, smooth, border=vx.REPLICATE)
        graph.absdiff(smooth, clean, self.difference)
        graph.threshold(self.difference, context.threshold(vx.U8, above=24), differing)
        graph.median3x3(differing, self.marks, border=vx.REPLICATE)
        self._extremes = add_bounds(graph, self.marks, WIDTH, HEIGHT)
        graph.verify()

    def inspect(self, picture: List[List[int]]) -> Finding:
        self.part.write(picture)
        self._graph.process()
        extremes = [found.read() for found in self._extremes]
        around = rectangle_of(extremes, WIDTH)
        return Finding(extremes[0].max_count if around else 0, around)


def in_words(found: Finding) -> str:
    if not found.around:
        return "nothing found"
    x0, y0, x1, y1 = found.around
    return f"{found.pixels} pixels differ, in columns {x0} to {x1 - 1} and rows {y0} to {y1 - 1}"


# ---- the sheet

def panel(picture: Any, around: Optional[vx.Rectangle] = None) -> Rows:
    """Converts a grey picture, as Image.read() returns it, to colour, and draws a red frame two
    pixels outside a rectangle."""
    rows = [[(sample, sample, sample) for sample in row] for row in picture.tolist()]
    if around:
        frame(rows, vx.Rectangle(around.x0 - 3, around.y0 - 3, around.x1 + 3, around.y1 + 3))
    return rows


def frame(rows: Rows, outside: vx.Rectangle) -> None:
    """Draws a frame whose outermost pixels are those of the rectangle, clipped to the picture."""
    x0, y0, x1, y1 = outside
    across = [(x, y) for x in range(x0, x1) for y in (y0, y1 - 1)]
    down = [(x, y) for y in range(y0, y1) for x in (x0, x1 - 1)]
    for x, y in across + down:
        if 0 <= y < len(rows) and 0 <= x < len(rows[0]):
            rows[y][x] = RED


def sheet(panels: Sequence[Rows]) -> Rows:
    """Joins panels of the same height side by side on white."""
    result: Rows = []
    for parts in zip(*panels):
        joined: List[Pixel] = list(parts[0])
        for part in parts[1:]:
            joined += [WHITE] * GAP + part
        result.append(joined)
    return result


def main() -> None:
    folder = folder_told()
    with vx.Server() as server, server.context() as context:
        reference = context.image_from(photograph(seed=1))
        station = Station(context, reference)
        print(f"    the first part: {in_words(station.inspect(photograph(seed=2)))}")
        found = station.inspect(photograph(seed=3, scratched=True))
        print(f"    the second part: {in_words(found)}")
        bright = context.image_like(station.difference)
        context.vxu.table_lookup(station.difference,
                                 context.lut(vx.U8, [min(255, 4 * d) for d in range(256)]), bright)
        pictures = panel(reference.read()), panel(station.part.read(),
                                                  found.around), panel(bright.read())
        marks = panel(station.marks.read(), found.around)
    vx.write_png(os.path.join(folder, "inspection.png"), sheet([*pictures, marks]))


main()
