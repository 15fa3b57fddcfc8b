"""The programs in documents of the repository."""

import os
from typing import Dict, List

ROOT = os.path.join(os.path.dirname(os.path.abspath(__file__)), "..", "..", "..")


def programs_in(*path: str) -> Dict[str, List[str]]:
    """Returns the Python programs of a document by their heading; "" for those before the first
    heading after the title."""
    found: Dict[str, List[str]] = {}
    heading, lines = "", None
    with open(os.path.join(ROOT, *path), encoding="utf-8") as file:
        for line in file:
            if lines is not None:
                if line == "```\n":
                    found.setdefault(heading, []).append("".join(lines))
                    lines = None
                else:
                    lines.append(line)
            elif line == "```python\n":
                lines = []
            elif line.startswith("##"):
                heading = line.strip("# \n")
    return found
