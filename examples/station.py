#!/usr/bin/env python3
"""An inspection station with a recipe for each type of part, with NumPy, OpenCV and Feqyldan.

    examples/station.py FOLDER

Inspects 5-megapixel pictures of two types of parts. OpenCV aligns each part with its reference by
phase correlation. A graph marks pixels that are clearly brighter or darker than all pixels of the
reference within two pixels, so small remaining shifts don't count. If pixels are marked, OpenCV
finds their connected regions. A picture of another size or type is rejected, and the station
continues. Prints the result and the time of each picture, and writes FOLDER/station.png: a part
with its regions framed.
"""

from __future__ import annotations

import os
import sys
import time
from typing import List, Tuple

import feqyldan as vx
from comparison import build
from folder import folder_told

try:
    import cv2
    import numpy
    import numpy.typing
    from parts import HEIGHT, WIDTH, Picture, bytes_of, part_of, smaller
except ImportError:
    print("examples/station.py: OpenCV and NumPy aren't installed, so this example is skipped "
          "(Debian's python3-opencv)")
    sys.exit(0)

# Tolerated shift in pixels, tolerated difference of a sample beyond that, and the smallest defect
# in pixels.
TOLERANCE, ABOVE, LEAST = 2, 40, 40
# Pictures are aligned at a quarter of their width and height.
QUARTER = 4
RED = (30, 30, 230)


# ---- the pictures, as a camera would take them

def photograph(kind: str, seed: int, defects: int) -> Picture:
    """Returns the part shifted by up to 30 pixels, with noise and scratches."""
    chance = numpy.random.default_rng(seed)
    picture = part_of(kind)
    for _ in range(defects):
        x, y = (int(chance.integers(700, side - 700)) for side in (WIDTH, HEIGHT))
        cv2.line(picture, (x, y), (x + 60, y + 25), 255, 6)
    move = numpy.array([[1, 0, chance.uniform(-30, 30)], [0, 1, chance.uniform(-30, 30)]])
    moved = cv2.warpAffine(picture, move, (WIDTH, HEIGHT), borderMode=cv2.BORDER_REPLICATE)
    noise = chance.integers(0, 6, moved.shape, numpy.uint8)
    return bytes_of(cv2.add(moved, noise))


# ---- the station

class Recipe:
    """Compares pictures with the reference of one type of part."""

    def __init__(self, context: vx.Context, reference: Picture) -> None:
        self._small = quarter_of(reference)
        self._graph, self._part, self._marks = build(context, reference, TOLERANCE, ABOVE)
        self._extremes = context.min_max()
        self._graph.min_max_loc(self._marks, self._extremes)
        self._graph.verify()

    def inspect(self, picture: vx.Picture) -> Tuple[vx.Picture, List[vx.Region]]:
        """Returns the picture aligned with the reference, and the regions that differ. Raises
        vx.BadPicture for a frame of the wrong size or type."""
        aligned = self._align(picture)
        self._part.write(aligned)
        self._graph.process()
        # Most parts are good, so their marks needn't be read.
        if self._extremes.read().max == 0:
            return aligned, []
        return aligned, vx.regions(self._marks, least=LEAST)

    def _align(self, picture: vx.Picture) -> vx.Picture:
        # write() refuses these. bytes_of() would turn samples of another type into wrong ones.
        if picture.shape != (HEIGHT, WIDTH) or picture.dtype != numpy.uint8:
            return picture
        (across, down), _ = cv2.phaseCorrelate(self._small, quarter_of(picture))
        move = numpy.array([[1, 0, -round(QUARTER * across)], [0, 1, -round(QUARTER * down)]],
                           numpy.float32)
        return bytes_of(cv2.warpAffine(picture, move, (WIDTH, HEIGHT),
                                       borderMode=cv2.BORDER_REPLICATE))


def quarter_of(picture: Picture) -> numpy.typing.NDArray[numpy.float32]:
    """Returns the picture at a quarter of its width and height, as phaseCorrelate needs it."""
    floats: numpy.typing.NDArray[numpy.float32] = smaller(picture, QUARTER).astype(numpy.float32)
    return floats


def drawn(picture: Picture, found: List[vx.Region]) -> Picture:
    """Returns the picture at a quarter of its size, in colour, with the regions framed."""
    coloured = cv2.cvtColor(picture, cv2.COLOR_GRAY2BGR)
    for region in found:
        x0, y0, x1, y1 = region.around
        cv2.rectangle(coloured, (x0 - 20, y0 - 20), (x1 + 20, y1 + 20), RED, 8)
    return bytes_of(cv2.cvtColor(smaller(bytes_of(coloured), QUARTER), cv2.COLOR_BGR2RGB))


def main() -> None:
    folder = folder_told()
    orders = [("plate", 1, 0), ("ring", 2, 3), ("plate", 3, 2), ("ring", 4, 0)]
    with vx.Server() as server, server.context() as context:
        recipes = {kind: Recipe(context, part_of(kind)) for kind in ("plate", "ring")}
        for kind, seed, defects in orders:
            picture = photograph(kind, seed, defects)
            start = time.perf_counter()
            aligned, found = recipes[kind].inspect(picture)
            seconds = time.perf_counter() - start
            print(f"    {kind} {seed}: {defects} defects made, {len(found)} found, "
                  f"{1000 * seconds:.0f} ms")
            if found:
                vx.write_png(os.path.join(folder, "station.png"), drawn(aligned, found))
        wrong: List[vx.Picture] = [picture[:-8], 16 * picture.astype(numpy.uint16)]
        for frame in wrong:
            try:
                recipes["ring"].inspect(frame)
            except vx.BadPicture as refused:
                print(f"    a wrong frame: {refused}")
        print(f"    {context.usage()}")


main()
