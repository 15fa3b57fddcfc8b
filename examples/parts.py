"""Pictures of parts as a camera would take them, for the examples with OpenCV."""

from __future__ import annotations

from typing import Any

import cv2
import numpy
import numpy.typing

Picture = numpy.typing.NDArray[numpy.uint8]
# The sides of a picture of 5 megapixels.
WIDTH, HEIGHT = 2448, 2048


def bytes_of(pixels: Any) -> Picture:
    """Returns an OpenCV result as U8 samples, with a type."""
    picture: Picture = numpy.asarray(pixels, numpy.uint8)
    return picture


def part_of(kind: str) -> Picture:
    """Draws a clean picture of a part of some kind: a plate with holes, or a ring."""
    picture = numpy.full((HEIGHT, WIDTH), 60, numpy.uint8)
    middle = WIDTH // 2, HEIGHT // 2
    if kind == "plate":
        cv2.rectangle(picture, (500, 400), (1950, 1650), 160, -1)
        for column in range(700, 1900, 350):
            cv2.circle(picture, (column, 1000), 90, 60, -1)
    else:
        cv2.circle(picture, middle, 800, 170, -1)
        cv2.circle(picture, middle, 350, 60, -1)
    return bytes_of(cv2.GaussianBlur(picture, (0, 0), 2))


def smaller(picture: Picture, factor: int) -> Picture:
    """Returns the picture with its width and its height divided by a factor."""
    return bytes_of(cv2.resize(picture, None, fx=1 / factor, fy=1 / factor,
                               interpolation=cv2.INTER_AREA))
