"""Finds regions of marked pixels, by OpenCV or SciPy if one of them is installed."""

from __future__ import annotations

from typing import Any, List, NamedTuple

from .errors import NotAPicture, WrongPicture
from .objects import Rectangle
from .samples import (
    Readable, array_from, is_array, needed_numpy, of_two_sides, refuse_none_and_paths)
from .whole import whole


class Region(NamedTuple):
    """A region of pixels that touch by sides or corners: the number of pixels, their bounding
    rectangle, and their centre (x, y)."""

    pixels: int
    around: Rectangle
    middle: Any


def regions(marks: Any, least: int = 1) -> List[Region]:
    """
    Returns the regions of non-zero samples in an image or an array of shape (height, width), the
    largest first. Regions of fewer than `least` pixels are left out. Raises BadPicture if `marks`
    is neither an image nor such an array. Needs NumPy, and OpenCV or SciPy.
    """
    numpy = needed_numpy("regions()")
    if whole(least, "the least number of pixels of a region") < 1:
        raise ValueError(f"a region has at least 1 pixel, so least can't be {least}")
    pixels = _pixels_of(numpy, marks) != 0
    try:
        import cv2
    except ImportError:
        found = _by_scipy(numpy, pixels)
    else:
        found = _by_cv2(cv2, numpy, pixels)
    return sorted((region for region in found if region.pixels >= least),
                  key=lambda region: -region.pixels)


def _pixels_of(numpy: Any, marks: Any) -> Any:
    """Returns the samples of a picture as an array of two dimensions, of any type of numbers."""
    if isinstance(marks, Readable):
        return numpy.asarray(marks.read())
    refuse_none_and_paths(marks)
    pixels = array_from(marks) if is_array(marks) else _of_rows(numpy, marks)
    if pixels.dtype.kind not in "buifc":
        raise NotAPicture("marks must be an image, an array or rows of numbers, not "
                          f"{type(marks).__name__} of the type {pixels.dtype}")
    return of_two_sides(pixels)


def _of_rows(numpy: Any, rows: Any) -> Any:
    try:
        return numpy.asarray(rows)
    except ValueError:
        raise WrongPicture("the rows of marks must all have the same length") from None


def _by_cv2(cv2: Any, numpy: Any, pixels: Any) -> List[Region]:
    count, _, stats, middles = cv2.connectedComponentsWithStats(pixels.astype(numpy.uint8))
    return [Region(int(size), Rectangle(int(x), int(y), int(x + width), int(y + height)),
                   tuple(map(float, middle)))
            for (x, y, width, height, size), middle in zip(stats[1:count], middles[1:count])]


def _by_scipy(numpy: Any, pixels: Any) -> List[Region]:
    try:
        from scipy import ndimage
    except ImportError:
        raise ImportError("regions() needs OpenCV or SciPy, and neither is installed: install "
                          "one of them") from None
    labels, count = ndimage.label(pixels, numpy.ones((3, 3)))
    numbers = range(1, count + 1)
    sizes = numpy.bincount(labels.ravel(), minlength=count + 1)
    middles = ndimage.center_of_mass(pixels, labels, numbers)
    return [Region(int(sizes[number]),
                   Rectangle(columns.start, rows.start, columns.stop, rows.stop),
                   (float(x), float(y)))
            for number, (rows, columns), (y, x) in zip(numbers, ndimage.find_objects(labels),
                                                       middles)]
