"""What the page gets of an image: a thumbnail, the samples of a part, and a histogram."""

from __future__ import annotations

import math
from typing import Any, Dict, List, NamedTuple, Optional, Sequence, Set, Tuple

from ..graph_drafts import inputs_of, outputs_of
from ..samples import numpy_module
from ..thumbnails import reduced, thumbnail

# Functions whose output has two values if their inputs have.
OF_MASKS = {"and_", "or_", "xor", "not_", "min", "max", "median3x3", "erode3x3", "dilate3x3"}
# A mark in a thumbnail is at least this bright.
MARK = 110
VISIBLE = bytes(max(MARK, sample) if sample else 0 for sample in range(256))
# A thumbnail whose brightest pixel is below DARK is brightened, at most so many times.
DARK, MOST_TIMES = 86, 16


# The samples of an image that are sent if the page doesn't know its size yet.
MOST = 4_000_000
# The bins of a histogram.
BINS = 256


class Thumb(NamedTuple):
    """A thumbnail: its sides, and by what its samples were multiplied."""

    width: int
    height: int
    times: int
    content: bytes


def masks_in(contents: Dict[str, Any]) -> Set[str]:
    """Returns the images that have only two values, because they come from thresholds."""
    found: Set[str] = set()
    nodes = [node for node in contents["nodes"] if outputs_of(node)]
    while True:
        before = len(found)
        for node in nodes:
            if node["function"] == "threshold" or node["function"] in OF_MASKS and found.issuperset(
                    inputs_of(node).values()):
                found.update(outputs_of(node).values())
        if len(found) == before:
            return found


def thumb(samples: Any, is_mask: bool) -> Thumb:
    """Returns the thumbnail of an image. Marks stay visible, and dark pictures are brightened."""
    small = thumbnail(samples, keeps_marks=is_mask)
    height, width = small.shape
    content = bytes(small.tobytes())
    if is_mask:
        return Thumb(width, height, 1, content.translate(VISIBLE))
    greatest = max(content)
    if samples.itemsize > 1 or greatest >= DARK:
        return Thumb(width, height, 1, content)
    times = min(MOST_TIMES, 255 // max(1, greatest))
    return Thumb(width, height, times,
                 content.translate(bytes(min(255, sample * times) for sample in range(256))))


def marked(samples: Any) -> int:
    """Returns how many samples aren't 0."""
    numpy = numpy_module()
    if numpy is not None:
        return int(numpy.count_nonzero(samples))
    content: memoryview = samples.cast("B")
    if samples.itemsize == 1:
        return len(content) - content.tobytes().count(0)
    return sum(map(bool, content.cast(samples.format)))


def part_of(samples: Any, part: Dict[str, Any], is_mask: bool) -> Tuple[List[int], bytes]:
    """
    Returns the samples of a part of an image, one for each square of `step` samples, and the part
    [x0, y0, columns, rows, step]. A part that lacks sides is the whole image; one that lacks the
    step has at most about MOST samples.
    """
    height, width = samples.shape
    least = math.isqrt((width * height - 1) // MOST) + 1
    step = clamped(part.get("step"), 1, max(width, height), least)
    x0 = clamped(part.get("x0"), 0, width - 1)
    y0 = clamped(part.get("y0"), 0, height - 1)
    x1 = clamped(part.get("x1"), x0 + 1, width, width)
    y1 = clamped(part.get("y1"), y0 + 1, height, height)
    small = reduced(cut(samples, x0, y0, x1, y1), step, is_mask)
    rows, columns = small.shape
    return [x0, y0, columns, rows, step], small.tobytes()


def histogram(samples: Any, valid: Sequence[int]) -> Optional[Dict[str, Any]]:
    """Returns the counts of an image's valid samples in bins, and what they add up to, as the page
    does itself for smaller images. Returns None without NumPy, since it would take seconds."""
    numpy = numpy_module()
    if numpy is None:
        return None
    x0, y0, x1, y1 = valid
    inside = samples[y0:y1, x0:x1]
    low, high = (0, 255) if samples.itemsize == 1 else (int(samples.min()), int(samples.max()))
    bins = numpy.zeros(BINS, numpy.int64)
    for row in inside:
        places = (row.astype(numpy.int64) - low) * BINS // (high - low + 1)
        bins += numpy.bincount(places, minlength=BINS)
    count = inside.size
    return {"bins": bins.tolist(), "low": low, "high": high, "count": count,
            "nonzero": int(numpy.count_nonzero(inside)),
            "least": int(inside.min()) if count else None,
            "most": int(inside.max()) if count else None,
            "mean": int(inside.sum(dtype=numpy.int64)) / count if count else 0}


def clamped(value: Any, least: int, greatest: int, otherwise: int = 0) -> int:
    """Returns a number from the page within a range."""
    number = value if isinstance(value, int) else otherwise
    return min(greatest, max(least, number))


def cut(samples: Any, x0: int, y0: int, x1: int, y1: int) -> Any:
    """Returns the samples in a rectangle."""
    if numpy_module() is not None:
        return samples[y0:y1, x0:x1]
    height, width = samples.shape
    if (x0, y0, x1, y1) == (0, 0, width, height):
        return samples
    flat = samples.cast("B").cast(samples.format)
    content = b"".join(flat[y * width + x0 : y * width + x1].tobytes() for y in range(y0, y1))
    return memoryview(content).cast(samples.format, (y1 - y0, x1 - x0))
