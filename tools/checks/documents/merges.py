"""Marks that git leaves in a file where a merge needs a decision."""

import re
from typing import Iterator

from . import tree

MARK = re.compile(r"^(?:<{7}|>{7}) ", re.M)
TEXTS = (".md", ".rt", ".antt", ".py", ".c", ".h", ".txt", ".edit")


def is_text(path: str) -> bool:
    return path.endswith(TEXTS) or tree.is_code(path)


def marks(text: str) -> Iterator[int]:
    """Returns the line number of each mark."""
    return (text.count("\n", 0, mark.start()) + 1 for mark in MARK.finditer(text))
