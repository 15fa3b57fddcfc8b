"""Public names that readers look for: each exists, or docs/DECISIONS.md names its replacement."""

import re
from typing import Dict, Iterator, List, Set, Tuple

from .tree import NAME, files, read, without_comments

LIST = "tools/checks/documents/expected_names.txt"
DECISIONS, SECTION = "docs/DECISIONS.md", "Names that one may look for"


def expected(text: str) -> Dict[str, List[str]]:
    """Returns the expected names by crate. An indented line continues the previous one."""
    lines = [line for line in text.split("\n") if line.strip() and not line.startswith("#")]
    joined = "\n".join(lines).replace("\n ", " ").split("\n")
    return {crate: names.split() for crate, _, names in (line.partition(":") for line in joined)}


def block(text: str, start: int) -> str:
    """Returns the text from the next brace to the matching one."""
    depth, at = 0, text.index("{", start)
    for place in range(at, len(text)):
        depth += (text[place] == "{") - (text[place] == "}")
        if depth == 0:
            return text[at:place]
    return text[at:]


def exported(library: str) -> Set[str]:
    """Returns the names that other crates can import: re-exports of lib.rt, and its public
    items."""
    found = set(re.findall(rf"^pub (?:fn|struct|enum|trait|type|const) ({NAME})", library, re.M))
    for group, single in re.findall(r"^pub use [\w:]*::(?:\{([^}]*)\}|(\w+));", library, re.M):
        found.update(name.split()[-1] for name in [*group.split(","), single] if name.strip())
    return found


def methods(sources: str, kind: str) -> Set[str]:
    """Returns the public methods of a type, or the methods of a trait."""
    found: Set[str] = set()
    for match in re.finditer(rf"^impl(?:<[^\n]*?>)? {kind}\b", sources, re.M):
        found.update(re.findall(rf"^\s*pub (?:const )?fn ({NAME})",
                                block(sources, match.end()), re.M))
    for match in re.finditer(rf"^pub trait {kind}\b", sources, re.M):
        found.update(re.findall(rf"^\s*fn ({NAME})", block(sources, match.end()), re.M))
    return found


def surface(crate: str, names: List[str]) -> Set[str]:
    """Returns the expected names that a crate has; a method is TYPE::METHOD. A program that isn't a
    library has none."""
    paths = [path for path in files() if re.match(rf"crates/{crate}/src/.*\.rt$", path)]
    library = f"crates/{crate}/src/lib.rt"
    public = exported(without_comments(library, read(library))) if library in paths else set()
    sources = "\n".join(without_comments(path, read(path)) for path in paths)
    found = set()
    for name in names:
        kind, _, method = name.partition("::")
        if kind in public and (not method or method in methods(sources, kind)):
            found.add(name)
    return found


def explained(text: str) -> Set[str]:
    """Returns the names in the first column of the section's tables, a crate's own as CRATE::NAME.
    Tables that describe another form of something don't count."""
    _, _, section = text.partition(f"\n## {SECTION}\n")
    section = section.partition("\n## ")[0]
    found: Set[str] = set()
    for cell in re.findall(r"^\| (.*?) \|", section, re.M):
        if re.fullmatch(r"[\s,]*(in)?\s*", re.sub(r"`[^`]*`", "", cell)):
            found.update(re.findall(r"`([^`]*)`", cell))
    return found


def faults(list_text: str, decisions: str) -> Iterator[Tuple[str, str, str]]:
    """Returns the crate, the name and the fault of each missing name."""
    told = explained(decisions)
    for crate, names in expected(list_text).items():
        there = surface(crate, names)
        for name in names:
            is_told = name in told or f"{crate}::{name}" in told
            if name not in there and not is_told:
                yield crate, name, (f"isn't public, nor does \"{SECTION}\" have it: say there what "
                                    "there is in its place")
            elif name in there and is_told:
                yield crate, name, f"is public, and \"{SECTION}\" has it: take it out there"
