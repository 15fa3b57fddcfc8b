"""
Finds the bounding rectangle of the marked pixels of a picture. In a coordinate picture the sample
of a pixel is the pixel's coordinate. Min selects the coordinates of the marked pixels, and
MinMaxLoc finds the greatest.
"""

from array import array
from typing import Callable, List, Optional, Sequence, Union

import feqyldan as vx

# Makes the samples of a coordinate picture from a width and a height.
Numbers = Callable[[int, int], "array[int]"]


def from_left(width: int, height: int) -> "array[int]":
    """Returns the column of each pixel, counted from 1."""
    return array("h", range(1, width + 1)) * height


def from_right(width: int, height: int) -> "array[int]":
    return array("h", range(width, 0, -1)) * height


def from_top(width: int, height: int) -> "array[int]":
    return array("h", [1 + at // width for at in range(width * height)])


# The greatest marked number gives the distance of the first column from the right side, the last
# column, and the last row. The first marked pixel gives the first row.
NUMBERS: Sequence[Numbers] = (from_right, from_left, from_top)


def add_bounds(graph: vx.Graph, marks: Union[vx.AnyImage, vx.VirtualImage], width: int,
               height: int) -> List[vx.MinMax]:
    """
    Adds nodes to a graph that find the bounds of the pixels of 255 in a U8 picture of 0 and 255, of
    any size. After a run, rectangle_of() makes a rectangle of these extremes.
    """
    context = graph.context
    extremes = [context.min_max() for _ in range(1 + len(NUMBERS))]
    graph.min_max_loc(marks, extremes[0])
    # Marked pixels become 255 * 128, which is above all coordinates, so Min gives the coordinate
    # there.
    wide = graph.virtual_image(vx.S16)
    graph.convert_depth(marks, wide, vx.WRAP, 7)
    for numbers, found in zip(NUMBERS, extremes[1:]):
        counted = context.image(vx.S16, width, height)
        counted.write(numbers(width, height))
        marked = graph.virtual_image(vx.S16)
        graph.min(wide, counted, marked)
        graph.min_max_loc(marked, found)
    return extremes


def rectangle_of(extremes: Sequence[vx.Extremes], width: int) -> Optional[vx.Rectangle]:
    """Returns the columns x0 to x1 - 1 and the rows y0 to y1 - 1, or None if nothing is marked."""
    marks, first_column, last_column, last_row = extremes
    if not marks.max:
        return None
    return vx.Rectangle(width - first_column.max, marks.max_at[1], last_column.max, last_row.max)
