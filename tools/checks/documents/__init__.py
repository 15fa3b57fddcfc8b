"""Checks the names and links in documents, the names of definitions, the style of documents and
comments, and unfinished merges."""

from typing import Iterator

from . import comments, definitions, links, merges, names, prose, surface, tree


def pages() -> Iterator[str]:
    """Returns every document of the repository."""
    return (path for path in sorted(tree.files()) if path.endswith(".md"))


def found() -> Iterator[str]:
    """Returns each fault, as FILE:LINE and a description."""
    known = tree.names()
    for path in names.DOCUMENTS:
        text = tree.read(path).partition(f"\n## {surface.SECTION}\n")[0]
        for line, name in names.stale(text, known):
            yield f"{path}:{line}: `{name}` is defined nowhere: name what there is now"
    for crate, name, wrong in surface.faults(tree.read(surface.LIST),
                                             tree.read(surface.DECISIONS)):
        yield f"{surface.DECISIONS}: `{name}` of {crate} {wrong}"
    for path, name, wrong in definitions.faults(list(definitions.definitions())):
        yield f"{path}: `{name}` {wrong}"
    for path, line, name in definitions.bare():
        yield f"{path}:{line}: `{name}` has no comment: say above it in plain words what it is"
    for path in pages():
        for line, target in links.broken(path, tree.read(path)):
            yield f"{path}:{line}: the link to {target} leads nowhere"
        for line, wrong in prose.faults(tree.read(path)):
            yield f"{path}:{line}: {wrong}"
    for path in filter(merges.is_text, sorted(tree.files())):
        for line in merges.marks(tree.read(path)):
            yield f"{path}:{line}: an unfinished merge: decide between its two sides"
    for path in filter(comments.is_read, sorted(tree.files())):
        for line, wrong in comments.faults(path, tree.read(path)):
            yield f"{path}:{line}: {wrong}"


def main() -> int:
    """Prints the faults, and returns the exit status of the command."""
    faults = list(found())
    for fault in faults:
        print(fault)
    count = len(surface.expected(tree.read(surface.LIST)))
    if not faults:
        print(f"check_documents: every name is there, in {len(names.DOCUMENTS)} documents and of "
              f"{count} crates; each link leads somewhere; no sentence is too long")
    return 1 if faults else 0
