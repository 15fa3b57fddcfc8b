"""Checks whole numbers before they go into frames: all other values are refused, and none is
truncated silently."""

from __future__ import annotations

import operator
from typing import Any, Iterable, NamedTuple


class Field(NamedTuple):
    """The least and the greatest number of a field of a frame."""

    least: int
    greatest: int


BYTE, UNSIGNED, SIGNED = Field(0, 255), Field(0, 65535), Field(-32768, 32767)


# The names of the types of True and False, Python's and NumPy's. NumPy 2 names its type as Python
# does.
TRUTHS = "bool", "bool_"
# What the iteration over a value that is no sequence raises; the second for rows in memory.
NO_SEQUENCE = TypeError, NotImplementedError


def whole(value: Any, what: str, allowed: str = "a whole number") -> int:
    """Returns a whole number as an int. Raises TypeError for anything else, even for 0.5, 2.0 and
    True, which is often a parameter at a wrong place."""
    try:
        if type(value).__name__ in TRUTHS:
            raise TypeError
        return operator.index(value)
    except TypeError:
        raise TypeError(f"{what} must be {allowed}, not {value!r}") from None


def within(value: Any, what: str, field: Field, allowed: str) -> int:
    """Returns a whole number that the field can express. Raises TypeError or ValueError for
    anything else. The server checks whether the number is allowed."""
    number: int = value if value.__class__ is int else whole(value, what, allowed)
    if not field.least <= number <= field.greatest:
        raise ValueError(f"{what} must be {allowed}, not {number}")
    return number


def first_not_whole(values: Iterable[Any]) -> Any:
    """Returns the first value that isn't a whole number; None if all are."""
    for value in values:
        try:
            operator.index(value)
        except TypeError:
            return value
    return None
