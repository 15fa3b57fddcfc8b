"""The comparison of parts with a reference, which docs/python.md explains, for the examples."""

from __future__ import annotations

from typing import Tuple

import feqyldan as vx


def build(context: vx.Context, reference: vx.Picture, tolerance: int = 2,
          above: int = 24) -> Tuple[vx.Graph, vx.Image, vx.Image]:
    """Returns a graph, the image that it reads, and the image of marks that it writes."""
    low, high = context.image_from(reference), context.image_from(reference)
    for _ in range(tolerance):
        for function, image in ((context.vxu.erode3x3, low), (context.vxu.dilate3x3, high)):
            with image.copy() as before:
                function(before, image, border=vx.REPLICATE)
    part, marks = context.image_like(low, name="part"), context.image_like(low, name="marks")
    graph = context.graph()
    smooth, over, under, worst, mask, opened = (graph.virtual_image(vx.U8) for _ in range(6))
    graph.median3x3(part, smooth, border=vx.REPLICATE)
    graph.subtract(smooth, high, vx.SATURATE, over)
    graph.subtract(low, smooth, vx.SATURATE, under)
    graph.max(over, under, worst)
    graph.threshold(worst, context.threshold(vx.U8, above=above), mask)
    graph.erode3x3(mask, opened, border=vx.REPLICATE)
    graph.dilate3x3(opened, marks, border=vx.REPLICATE)
    graph.verify()
    return graph, part, marks
