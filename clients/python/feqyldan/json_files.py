"""Reads JSON files that other programs or people wrote, within bounds."""

from __future__ import annotations

import base64
import json
import zlib
from typing import Any, Dict, List, Tuple

from .storage import read_bytes

# How many lists and objects may be one within the other. A graph file has four.
GREATEST_DEPTH = 100
# The most digits of a whole number. Python refuses more than 4,300 with advice about its settings,
# and older versions take hours for some million.
MOST_DIGITS = 18
# The most bytes of a file. An image of 8192 by 8192 U8 samples has at most 90 million characters.
GREATEST_FILE = 1 << 27
TOO_DEEP = "its lists and objects are nested too deeply"


def contents_of(path: str) -> Any:
    """Returns the value in a JSON file. Raises OSError if the file can't be read or is too large,
    and ValueError if it isn't JSON, if an object of it has a key twice, or if it is nested too
    deeply or has too long a number."""
    return _value_of(read_bytes(path, GREATEST_FILE))


def _value_of(text: bytes) -> Any:
    try:
        # Not in UTF-16, which json.loads() would detect, and the reader in C doesn't take.
        value = json.loads(text.decode("utf-8-sig"), object_pairs_hook=_without_repeated_keys,
                           parse_int=number_of)
    except RecursionError:
        raise ValueError(TOO_DEEP) from None
    except (json.JSONDecodeError, UnicodeDecodeError) as error:
        raise ValueError(f"the file isn't JSON: {error}") from None
    if _is_too_deep(value):
        raise ValueError(TOO_DEEP)
    return value


def number_of(digits: str) -> int:
    """Returns a whole number, given its digits. Raises ValueError if there are too many."""
    count = len(digits.lstrip("-"))
    if count > MOST_DIGITS:
        raise ValueError(f"it has a number of {count:,} digits, and no number has more than "
                         f"{MOST_DIGITS}")
    return int(digits)


def _is_too_deep(value: Any) -> bool:
    level: List[Any] = [[value]]
    for _ in range(1 + GREATEST_DEPTH):
        level = [one for thing in level
                 for one in (thing.values() if isinstance(thing, dict) else thing)
                 if isinstance(one, (dict, list))]
    return bool(level)


def text_of(value: Any) -> bytes:
    """Returns the text of a JSON file. Raises ValueError if contents_of() would refuse it."""
    try:
        text = json.dumps(value, indent=1).encode() + b"\n"
    except RecursionError:
        raise ValueError(TOO_DEEP) from None
    if len(text) > GREATEST_FILE:
        raise ValueError(f"the file would have {len(text):,} bytes, and at most {GREATEST_FILE:,} "
                         "are read: save large images by image.save(path), and name them in the "
                         'file by "file": path')
    _value_of(text)
    return text


def _without_repeated_keys(pairs: List[Tuple[str, Any]]) -> Dict[str, Any]:
    found: Dict[str, Any] = {}
    for key, value in pairs:
        if key in found:
            raise ValueError(f"an object of the file has the key {key!r} twice: leave one out")
        found[key] = value
    return found


def packed(content: bytes) -> str:
    """Returns bytes as compressed text, for a JSON file."""
    return base64.b64encode(zlib.compress(content)).decode()


def unpacked(text: Any, size: int) -> bytes:
    """Returns the bytes that packed() got. Raises ValueError unless there are `size` of them; then
    no more than that were unpacked."""
    if not isinstance(text, str):
        raise ValueError(f"samples must be text, as Graph.save() writes it, not {text!r}")
    try:
        unpacking = zlib.decompressobj()
        content = unpacking.decompress(base64.b64decode(text, validate=True), size + 1)
    except (ValueError, zlib.error) as error:
        raise ValueError(f"its samples aren't compressed text: {error}") from None
    if len(content) != size:
        there = "more" if len(content) > size else f"{len(content):,}"
        raise ValueError(f"its samples must have {size:,} bytes when unpacked, and there are "
                         f"{there}")
    if not unpacking.eof:
        raise ValueError("its samples are cut off: save the graph again")
    return content
