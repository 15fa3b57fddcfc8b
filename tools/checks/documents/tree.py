"""The names that the repository defines, in Rust, definitions, Python, C, shell and file names."""

import functools
import os
import re
from typing import Iterator, List, Set

ROOT = os.path.realpath(os.path.join(os.path.dirname(os.path.abspath(__file__)), "../../.."))
NAME = r"[A-Za-z_][\w']*"
# Folders that builds and tools create.
BUILT = {".git", "out", "build", "__pycache__", ".mypy_cache"}

# A variable of the environment.
VARIABLE = r"\"(FEQYLDAN_[A-Z]+)\""
# Patterns of definitions in each language. The last group is the name.
RATTLE = [
    rf"\b(?:fn|struct|enum|trait|const|static|type|mod|macro_rules!)\s+({NAME})",
    rf"\b(?:requires|ensures|ghost)\s+({NAME})\s*[{{=]",
    # A field or a variant, alone at the start of its line.
    rf"^\s+(?:pub(?:\([^)]*\))? )?({NAME})\s*(?::|,$|\(|\{{$)",
]
DEFINITIONS = [
    rf"^\s*(?:abbrev |unfoldable )?(?:pub )?(?:record |data )?({NAME})(?:\s*:|\s*\(.*\)\s*:)",
    rf"^\s*pub record ({NAME})",
    rf"^\s+({NAME}) :",
]
PYTHON = [rf"\b(?:def|class)\s+({NAME})", rf"^({NAME})\s*(?::[^=]*)?=",
          rf"^({NAME}(?:, {NAME})+) =", rf"^    ({NAME})\s*(?::[^=]*)?=", r"\"(--[a-z-]+)\"",
          VARIABLE]
C = [rf"\b({NAME})\s*\(", rf"\b(?:struct|enum)\s+({NAME})", rf"^\s+({NAME}) =",
     rf"#define ({NAME})", rf"\}} ({NAME});", rf"^\s+({NAME}),", VARIABLE]
SHELL = [rf"^\s*({NAME})\(\)", rf"^({NAME})="]
PATTERNS = {".rt": RATTLE, ".antt": DEFINITIONS, ".py": PYTHON, ".c": C, ".h": C,
            "": PYTHON + SHELL}


@functools.lru_cache(maxsize=None)
def read(path: str) -> str:
    with open(os.path.join(ROOT, path), encoding="utf-8") as text:
        return text.read()


@functools.lru_cache(maxsize=None)
def files() -> List[str]:
    """Returns every file of the repository that isn't built, by its path from the root."""
    found = []
    for folder, inner, names_here in os.walk(ROOT):
        inner[:] = [name for name in inner if name not in BUILT]
        found += [os.path.relpath(os.path.join(folder, name), ROOT) for name in names_here]
    return found


def is_code(path: str) -> bool:
    """Checks that a file is in one of these languages. A command has no extension, so its first
    line decides."""
    ending = os.path.splitext(path)[1]
    if ending:
        return ending in PATTERNS
    with open(os.path.join(ROOT, path), "rb") as file:
        return file.read(2) == b"#!"


def without_comments(path: str, text: str) -> str:
    if path.endswith((".rt", ".c", ".h")):
        return re.sub(r"//.*|/\*.*?\*/", "", text, flags=re.S if path.endswith((".c", ".h")) else 0)
    return re.sub(r"^\s*--.*", "", text, flags=re.M) if path.endswith(".antt") else text


def defined_in(path: str, text: str) -> Iterator[str]:
    for pattern in PATTERNS[os.path.splitext(path)[1]]:
        for found in re.findall(pattern, without_comments(path, text), re.M):
            yield from re.split(r",\s*", found)


def names() -> Set[str]:
    """Returns every name that the repository defines, the path and path components of each file,
    and each crate."""
    found: Set[str] = set()
    for path in files():
        parts = path.split("/")
        for start in range(len(parts)):
            for end in range(start + 1, len(parts) + 1):
                found.add("/".join(parts[start:end]))
        found.add(os.path.splitext(parts[-1])[0])
        if is_code(path):
            found.update(defined_in(path, read(path)))
    return found
