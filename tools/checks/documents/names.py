"""Names in backquotes in the documents on the code: each of them exists."""

import re
from typing import Iterator, Set, Tuple

# Documents that describe the current code. `surface` checks the names that docs/DECISIONS.md calls
# missing.
DOCUMENTS = ["README.md", "CONTRIBUTING.md", "docs/DECISIONS.md", "docs/architecture.md",
             "docs/glossary.md", "docs/limits.md", "docs/model.md", "docs/proved.md",
             "docs/roadmap.md"]
# Names that others define: the toolchain, the languages, system tools.
FOREIGN = {
    "rt", "rattle-kit-13f", "ensures", "requires", "unfolding", "search", "grind",
    "proves", "file:", "old:", "new:", "no", "TheVariants", "clap", "thiserror", "itoa", "slab",
    "assert", "assert_eq", "Option", "List", "Bool", "Type", "pos", "negsuc", "poll", "objdump",
    "cc", "impl", "Clone", "AllocError", "BufWriter", "GLIBC_TUNABLES", "tolist",
}
# The names of OpenVX, and words that stand for any name or path.
FREE = re.compile(r"vx[A-Z]|VX_|vx_\w+_[et]$|Rattle\.|(.*/)?(NAME|PATH|CRATE|WORD)(/|$)|.*\*")


def spans(text: str) -> Iterator[Tuple[int, str]]:
    """Returns the text of each backquoted span with its line number. Code blocks have no spans."""
    text = re.sub(r"```.*?```", lambda match: "\n" * match[0].count("\n"), text, flags=re.S)
    text = re.sub(r"^    .*$", "", text, flags=re.M)
    for match in re.finditer(r"`([^`]+)`", text):
        yield text.count("\n", 0, match.start()) + 1, " ".join(match[1].split())


def parts(span: str) -> Iterator[str]:
    """Returns the names in a span: its first word, which may be a path of names."""
    word = re.sub(r"\.?\{.*|[(),;!]*$", "", span.split(" ")[0])
    if re.fullmatch(r"[A-Za-z_][\w'./:*-]*", word):
        yield from (part for part in word.split("::") if len(part) > 1)


def exists(name: str, known: Set[str]) -> bool:
    bare = name.rstrip("/.")
    if bare in known or bare in FOREIGN or FREE.match(bare):
        return True
    # TYPE.FIELD, as contracts write it.
    return "/" not in bare and "." in bare and all(part in known for part in bare.split("."))


def stale(text: str, known: Set[str]) -> Iterator[Tuple[int, str]]:
    """Returns each name of a document that is defined nowhere, with its line number."""
    for line, span in spans(text):
        for name in parts(span):
            if not exists(name, known):
                yield line, name
