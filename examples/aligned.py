#!/usr/bin/env python3
"""A station for parts that lie a little turned under a lamp whose light changes.

    examples/aligned.py FOLDER

OpenCV levels the light and aligns each picture with the reference, before a graph compares them.
The light is levelled by a picture of a white sheet, and by the mean of the picture. The part is
aligned by a search for the rotation and the shift with the greatest correlation (ECC). Inspects 20
good and 10 scratched parts, turned by up to 3 degrees, in light that changes by up to a quarter.
Prints how many alarms are false without these steps and with them, and writes FOLDER/aligned.png: a
picture as it was taken, and levelled and aligned.
"""

from __future__ import annotations

import os
import sys
import time
from typing import Callable, Dict, List

import feqyldan as vx
from comparison import build
from folder import folder_told

try:
    import cv2
    import numpy
    from parts import HEIGHT, WIDTH, Picture, bytes_of, part_of, smaller
except ImportError:
    print("examples/aligned.py: OpenCV and NumPy aren't installed, so this example is skipped "
          "(Debian's python3-opencv)")
    sys.exit(0)

# The pictures have a quarter of the parts' width and height.
SMALL = 4
GOOD, SCRATCHED = 20, 10
# The greatest angle in degrees, shift in pixels, and change of the light.
ANGLE, SHIFT, CHANGE = 3.0, 8.0, 0.25
# The smallest defect in pixels.
LEAST = 20
# The search for an angle and a shift ends after 50 steps, or when a step gains less than this.
STEPS = cv2.TERM_CRITERIA_EPS | cv2.TERM_CRITERIA_COUNT, 50, 1e-4
# The search takes every fourth row and column first, then every second one.
STRIDES = 4, 2


# ---- before the graph

def levelled(picture: Picture, white: Picture, mean: float) -> Picture:
    """Returns a picture as in even light. `white` is a picture of a white sheet under the same
    lamp, and `mean` the mean of all samples that the result has."""
    even = cv2.divide(picture, white, scale=float(white.mean()))
    return bytes_of(cv2.convertScaleAbs(even, alpha=mean / max(1.0, float(even.mean()))))


def aligned(picture: Picture, reference: Picture) -> Picture:
    """Returns a picture, turned and shifted so that its part lies on that of the reference. Raises
    cv2.error if no angle and shift is found."""
    move = numpy.eye(2, 3, dtype=numpy.float32)
    for stride in STRIDES:
        move[:, 2] /= stride
        _, move = cv2.findTransformECC(
            reference[::stride, ::stride], picture[::stride, ::stride], move,
            cv2.MOTION_EUCLIDEAN, STEPS, None, 5)
        move[:, 2] *= stride
    return bytes_of(cv2.warpAffine(picture, move, reference.shape[::-1],
                                   flags=cv2.INTER_LINEAR | cv2.WARP_INVERSE_MAP,
                                   borderMode=cv2.BORDER_REPLICATE))


# ---- the pictures, as a camera would take them

def lamp() -> Picture:
    """Returns a picture of a white sheet: the lamp is brightest above the left of the picture."""
    y, x = numpy.mgrid[: HEIGHT // SMALL, : WIDTH // SMALL]
    away = numpy.hypot(x / (WIDTH // SMALL) - 0.4, y / (HEIGHT // SMALL) - 0.5)
    return bytes_of((230 * (1 - 0.5 * away**2)).round())


def photograph(part: Picture, white: Picture, seed: int, is_scratched: bool) -> Picture:
    """Returns a picture of the part, turned and shifted, in the light of the lamp, with noise."""
    chance = numpy.random.default_rng(seed)
    height, width = part.shape
    if is_scratched:
        part = part.copy()
        x, y = int(chance.integers(150, 420)), int(chance.integers(120, 180))
        cv2.line(part, (x, y), (x + 30, y + 12), 230, 3)
    move = cv2.getRotationMatrix2D((width / 2, height / 2), chance.uniform(-ANGLE, ANGLE), 1)
    move[:, 2] += chance.uniform(-SHIFT, SHIFT, 2)
    turned = cv2.warpAffine(part, move, (width, height), borderMode=cv2.BORDER_REPLICATE)
    light = white / 230 * chance.uniform(1 - CHANGE, 1 + CHANGE)
    noise = chance.normal(0, 2, part.shape)
    return bytes_of(numpy.clip((turned * light + noise).round(), 0, 255))


def main() -> None:
    folder = folder_told()
    reference, white = smaller(part_of("plate"), SMALL), lamp()
    mean = float(reference.mean())
    pictures = [(photograph(reference, white, seed, seed >= GOOD), seed >= GOOD)
                for seed in range(GOOD + SCRATCHED)]
    steps: Dict[str, Callable[[Picture], Picture]] = {
        "as taken": lambda picture: picture,
        "light levelled": lambda picture: levelled(picture, white, mean),
        "aligned": lambda picture: aligned(picture, reference),
        "levelled and aligned": lambda picture: aligned(levelled(picture, white, mean), reference)}
    with vx.Server() as server, server.context() as context:
        graph, part, marks = build(context, reference)
        for name, prepare in steps.items():
            start, alarms = time.perf_counter(), [0, 0]
            for picture, is_scratched in pictures:
                part.write(prepare(picture))
                graph.process()
                alarms[is_scratched] += bool(vx.regions(marks, least=LEAST))
            each = 1000 * (time.perf_counter() - start) / len(pictures)
            print(f"    {name}: {alarms[0]} of {GOOD} good parts and {alarms[1]} of {SCRATCHED} "
                  f"scratched parts raise an alarm, {each:.0f} ms a picture")
    shown: List[Picture] = [pictures[-1][0], steps["levelled and aligned"](pictures[-1][0])]
    vx.write_png(os.path.join(folder, "aligned.png"), bytes_of(numpy.hstack(shown)))


main()
