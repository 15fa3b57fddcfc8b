"""Hints for names that don't exist here: those of OpenCV and OpenVX, and misspelled ones."""

from __future__ import annotations

from typing import Any, Dict

# This package's names for those of OpenCV and NumPy.
OTHERS: Dict[str, str] = {
    "bitwise_and": "and_", "bitwise_or": "or_", "bitwise_xor": "xor", "bitwise_not": "not_",
    "inRange": "threshold", "LUT": "table_lookup", "convertTo": "convert_depth",
    "convertScaleAbs": "convert_depth", "astype": "convert_depth", "blur": "box3x3",
    "boxFilter": "box3x3", "GaussianBlur": "gaussian3x3", "medianBlur": "median3x3",
    "erode": "erode3x3", "dilate": "dilate3x3", "Sobel": "sobel3x3", "filter2D": "convolve",
    "calcHist": "histogram", "integral": "integral_image", "minMaxLoc": "min_max_loc",
    "accumulateSquare": "accumulate_square"}
# This package's names for what a user may look for in a graph or a context.
OF_GRAPHS = dict.fromkeys(("run", "execute", "compute", "start", "vxProcessGraph"), "process()")
OF_CONTEXTS = {"imread": "load(path)", "imwrite": "image.save(path)", "array": "image_from(array)"}


def attribute_of(thing: Any, name: str, others: Dict[str, str]) -> Any:
    """
    Raises AttributeError with a hint at the right name, for a __getattr__. `others` has the hints
    for names of other libraries.

    If the class has the name, a property raised an AttributeError, which is raised again.
    """
    if hasattr(type(thing), name):
        return object.__getattribute__(thing, name)
    hint = "" if name.startswith("_") else _hint_at(thing, name, others)
    raise AttributeError(f"{type(thing).__name__!r} object has no attribute {name!r}{hint}")


def _hint_at(thing: Any, name: str, others: Dict[str, str]) -> str:
    if name in others:
        return f": here it is {others[name]}"
    # The import takes a while, and few programs need it.
    from difflib import get_close_matches
    near = get_close_matches(name.lower(), dir(thing), 1)
    return f": did you mean {near[0]!r}?" if near else ""
