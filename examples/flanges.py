#!/usr/bin/env python3
"""Pictures to set a graph up with: a good flange, and twelve parts of which five are scratched.

    examples/flanges.py FOLDER [WIDTH HEIGHT]

Writes FOLDER/good.pgm, and part1.pgm to part12.pgm in FOLDER/parts, of 640 by 360 pixels by
default. Each part has dust and noise. The parts 2, 4, 6, 9 and 11 have a scratch. To look for the
scratches in the browser:

    cd FOLDER && python3 -m feqyldan studio station.json good.pgm parts
"""

import array
import math
import os
import random
import sys
from typing import Dict, List, Sequence, Tuple

import feqyldan as vx
from folder import folder_told

# The scratches: start and end in shares of the height from the middle, and the change of the grey.
# A dark scratch has a grey of at most 60.
SCRATCHES: Dict[int, Tuple[float, float, float, float, int]] = {
    2: (-0.17, -0.21, -0.24, 0.10, 56), 4: (0.17, 0.19, 0.29, 0.07, 44),
    6: (-0.06, -0.28, 0.11, -0.24, 50), 9: (-0.29, -0.04, -0.14, -0.08, -48),
    11: (0.22, -0.14, 0.24, -0.04, 60)}
PARTS = 12
# The greatest width and height of an image.
GREATEST = vx.PARAMETER_RANGES["image.width"].greatest
HOLES = [(0.285 * math.cos(k * math.pi / 3 + 0.3), 0.285 * math.sin(k * math.pi / 3 + 0.3))
         for k in range(6)]


def inside(distance: float, pixel: float) -> float:
    """Returns the share of a pixel that lies inside an edge at this distance."""
    return min(1.0, max(0.0, distance / pixel + 0.5))


def grey(x: float, y: float, pixel: float) -> float:
    """Returns the sample of a brushed flange with a bore and six holes, on a dark belt."""
    radius = math.hypot(x, y)
    metal = inside(0.43 - radius, pixel) * inside(radius - 0.128, pixel)
    for hole_x, hole_y in HOLES if metal else []:
        metal *= inside(math.hypot(x - hole_x, y - hole_y) - 0.047, pixel)
    belt = 34 + 4 * math.sin(36 * x)
    if not metal:
        return belt
    angle = math.atan2(y, x)
    shine = 138 + 34 * math.cos(2 * angle - 0.8) + 10 * math.cos(5 * angle + 0.4)
    groove = 1 - 0.16 * math.exp(-((radius - 0.358) / 0.007) ** 2)
    return belt + (shine * groove + 2 * math.sin(1368 * radius) - belt) * metal


def good_flange(width: int, height: int) -> List[float]:
    return [grey((x - width / 2) / height, (y - height / 2) / height, 1 / height)
            for y in range(height) for x in range(width)]


def scratch(samples: List[float], width: int, height: int, number: int) -> None:
    """Draws the scratch of a part, a line that is three pixels wide."""
    x0, y0, x1, y1, change = SCRATCHES[number]
    clean = list(samples)
    steps = int(2 * height * math.hypot(x1 - x0, y1 - y0))
    for step in range(steps):
        share = step / steps
        x = int(width / 2 + height * (x0 + (x1 - x0) * share))
        y = int(height / 2 + height * (y0 + (y1 - y0) * share))
        for dx in (-1, 0, 1):
            at = y * width + x + dx
            samples[at] = clean[at] + change if change > 0 else min(clean[at], 60.0)


def dust(samples: List[float], chance: random.Random) -> None:
    for _ in range(60):
        samples[chance.randrange(len(samples))] += chance.choice((-1, 1)) * chance.uniform(25, 70)


def save(path: str, samples: Sequence[float], width: int, chance: random.Random) -> None:
    """Writes a picture with a little noise."""
    noise = [chance.gauss(0, 1.6) for _ in range(4099)]
    content = array.array("B", (
        min(255, max(0, int(sample + noise[(at * 37 + at // 89) % 4099])))
        for at, sample in enumerate(samples)))
    vx.write_pgm(path, memoryview(content).cast("B").cast("B", (len(content) // width, width)))


def sides_told() -> Tuple[int, int]:
    """Returns the width and the height that the command line gives."""
    told = sys.argv[2:] or ["640", "360"]
    sides = [int(word) for word in told if word.isdecimal() and len(word) < 6]
    # The drawing needs some pixels, and is as wide as high.
    if len(sides) != len(told) or len(told) != 2 or not 16 <= sides[1] <= sides[0] <= GREATEST:
        sys.exit(f"{sys.argv[0]}: give WIDTH and HEIGHT in pixels, not {' '.join(told)}: from 16 "
                 f"to {GREATEST}, and no HEIGHT above the WIDTH")
    return sides[0], sides[1]


def main() -> None:
    folder = folder_told()
    width, height = sides_told()
    os.makedirs(os.path.join(folder, "parts"), exist_ok=True)
    clean = good_flange(width, height)
    save(os.path.join(folder, "good.pgm"), clean, width, random.Random(0))
    for number in range(1, PARTS + 1):
        samples, chance = list(clean), random.Random(number)
        if number in SCRATCHES:
            scratch(samples, width, height, number)
        dust(samples, chance)
        save(os.path.join(folder, "parts", f"part{number}.pgm"), samples, width, chance)
    print(f"    good.pgm, and {PARTS} parts in {folder}/parts; scratched are "
          f"{', '.join(map(str, SCRATCHES))}")


if __name__ == "__main__":
    main()
