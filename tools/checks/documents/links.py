"""Links between documents: each leads to a file, and to a heading of it."""

import os
import re
from typing import Iterator, Set, Tuple

from .tree import ROOT, read

LINK = re.compile(r"\]\(([^)\s]+)\)|^\[[^\]]+\]: (\S+)", re.M)


def anchors(text: str) -> Set[str]:
    """Returns the headings of a document, in the form that links use."""
    text = re.sub(r"```.*?```", "", text, flags=re.S)
    headings = re.findall(r"^#+ (.*)$", text, re.M)
    return {re.sub(r"[^\w\- ]", "", heading.lower()).replace(" ", "-") for heading in headings}


def broken(path: str, text: str) -> Iterator[Tuple[int, str]]:
    """Returns each broken link of a document within the repository, with its line number."""
    for match in LINK.finditer(text):
        target = match[1] or match[2]
        file, _, anchor = target.partition("#")
        there = os.path.normpath(os.path.join(os.path.dirname(path), file)) if file else path
        is_there = os.path.exists(os.path.join(ROOT, there))
        if "://" not in target and not (
                is_there and (not anchor or anchor in anchors(read(there) if file else text))):
            yield text.count("\n", 0, match.start()) + 1, target
