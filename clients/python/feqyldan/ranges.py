"""The ranges of the functions' and objects' parameters, which messages are made from too."""

from __future__ import annotations

from typing import Dict, NamedTuple, Tuple

from . import wire


class Range(NamedTuple):
    """The least and the greatest number that a parameter may be."""

    least: int
    greatest: int

    def __str__(self) -> str:
        return f"{self.least} to {self.greatest}"

    @property
    def whole(self) -> str:
        """Says what a number must be, for messages."""
        return f"a whole number from {self}"


# The shift of each function that has one.
SHIFTS: Dict[str, Range] = {"multiply": Range(0, 15), "convert_depth": Range(0, 7),
                            "accumulate_square": Range(0, 15)}
# The amount of all other functions.
NO_SHIFT = Range(0, 0)
# The rows and the columns that a convolution may have.
SIDES_OF_CONVOLUTIONS: Tuple[int, ...] = (3, 5, 7, 9)
_SAMPLE = Range(0, 255)
# Each parameter by its kind of object and its name, as graph files have them; "shift" is by the
# function instead. The limits of a threshold are by its format.
PARAMETER_RANGES: Dict[str, Range] = {
    "image.width": Range(1, wire.GREATEST_SIDE), "image.height": Range(1, wire.GREATEST_SIDE),
    "delay.slots": Range(1, 16), "threshold.U8": _SAMPLE, "threshold.S16": Range(-32768, 32767),
    "threshold.true_value": _SAMPLE, "threshold.false_value": _SAMPLE,
    "convolution.coefficient": Range(-32768, 32767), "distribution.bins": Range(1, 256),
    "distribution.offset": Range(0, 255), "distribution.range": Range(1, 256), "border": _SAMPLE,
    **{f"{function}.shift": shift for function, shift in SHIFTS.items()}}
