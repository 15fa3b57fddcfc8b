"""Comments of the code and of definitions, which follow the style of the documents."""

import os
import re
from typing import Iterator, Tuple

from . import prose

# The start of a comment line, in each language.
MARKS = {".rt": r"//[/!]?", ".antt": "--"}
FOLDERS = ("src", "specs")


def ending(path: str) -> str:
    return os.path.splitext(path)[1]


def is_read(path: str) -> bool:
    """Checks that a file has a crate's code or definitions."""
    parts = path.split("/")
    return parts[0] == "crates" and parts[2] in FOLDERS and ending(path) in MARKS


def comments(path: str, text: str) -> str:
    """Returns the text with only its comments, each on its line. A comment ends at the code after
    it."""
    mark = MARKS[ending(path)]
    lines = (re.match(rf"\s*{mark}(?: (.*))?$", line) for line in text.split("\n"))
    return "\n".join(line[1] or "" if line else "" for line in lines)


def faults(path: str, text: str) -> Iterator[Tuple[int, str]]:
    """Returns the faults of a file's comments, with the line where each begins."""
    return prose.faults(comments(path, text))
