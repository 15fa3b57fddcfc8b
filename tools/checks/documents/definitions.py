"""Definitions in crates/*/specs: each has a name with one meaning, and its own comment."""

import re
from typing import Dict, Iterator, List, Tuple

from .tree import NAME, files, read

HEAD = re.compile(rf"^(?:abbrev |unfoldable )?pub (?:abbrev |record |data )?({NAME})(?=[ :])", re.M)
# A single word that looks like a participle. `Is`, `Are` and the like in front of it make a phrase.
PARTICIPLE = re.compile(r"[A-Za-z][a-z]*(?:ed|ing|wn|rnt)$|"
                        r"(?i:begun|given|held|kept|left|made|taken|told|written)$")
# Prepositions and similar words, which mean nothing alone.
FRAGMENTS = {"after", "at", "beside", "but_for", "inside", "look", "nearest", "once", "small",
             "so_many", "stands", "through", "times", "unless", "whole", "within"}
# Nouns and verbs that look like participles.
PLAIN = {"feed", "need", "ring", "string"}


def paths() -> Iterator[str]:
    """Returns each file of definitions."""
    return (path for path in sorted(files()) if re.match(r"crates/\w+/specs/.*\.antt$", path))


def definitions() -> Iterator[Tuple[str, str]]:
    """Returns the path of each file of definitions with each name that it defines."""
    for path in paths():
        for name in HEAD.findall(read(path)):
            if name != "mod":
                yield path, name


def uncommented(text: str) -> Iterator[Tuple[int, str]]:
    """Returns the line and the name of each public definition without a comment directly above
    it."""
    for found in HEAD.finditer(text):
        before = text[:found.start()].split("\n")[:-1]
        above = before[-1] if before else ""
        if found[1] != "mod" and (not above.startswith("--") or above.startswith("-- --")):
            yield len(before) + 1, found[1]


def bare() -> Iterator[Tuple[str, int, str]]:
    """Returns the path, line and name of each definition in the repository without a comment."""
    for path in paths():
        for line, name in uncommented(read(path)):
            yield path, line, name


def faults(defined: List[Tuple[str, str]]) -> Iterator[Tuple[str, str, str]]:
    """Returns the path, the name and the fault of each badly named definition."""
    first: Dict[str, str] = {}
    for path, name in defined:
        if name not in PLAIN and PARTICIPLE.match(name):
            yield path, name, "is a bare participle: name it by a noun or a verb"
        elif name in FRAGMENTS:
            yield path, name, "says nothing alone: name it by a noun or a verb"
        other = first.setdefault(name, path)
        if other.split("/")[1] != path.split("/")[1]:
            yield path, name, f"is also defined in {other}: give each meaning its own name"
