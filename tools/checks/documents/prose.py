"""Style of documents: overlong sentences, and words that have a plainer alternative."""

import re
from typing import Iterator, List, Tuple

MOST_WORDS = 40
# The plainer alternatives.
PLAINER = {
    "beside": "next to, beyond, besides; of a window: halo",
    "so many": "that many, n, or the number's name",
    "at once": "at the same time, or immediately",
    "stands in": "is in",
    "stand in": "are in",
    "who is": "the client, the caller, the operator",
    "what comes of": "the result of",
}
WORD = re.compile(r"[^\W_][\w'’/.,^+*-]*")


def units(text: str) -> Iterator[Tuple[int, str]]:
    """Returns the paragraphs, list items and table cells of a document, each with the number of its
    first line. Leaves out code blocks, headings and quotations."""
    text = re.sub(r"```.*?```", lambda match: "\n" * match[0].count("\n"), text, flags=re.S)
    begun, lines = 0, []  # type: Tuple[int, List[str]]
    for number, line in enumerate(text.split("\n") + [""], 1):
        bare = line.strip()
        item = re.match(r"(?:[-*]|\d+\.) (.*)", bare)
        if lines and (not bare or item or bare[0] in "|#>" or line.startswith("    ")):
            yield begun, " ".join(lines)
            lines = []
        if bare.startswith("|"):
            yield from ((number, cell.strip()) for cell in bare.strip("|").split("|"))
        elif item or (bare and bare[0] not in "#>[" and (lines or not line.startswith("    "))):
            begun = begun if lines else number
            lines.append(item[1] if item else bare)


def plain(text: str) -> str:
    """Removes the markup of links and emphasis. A backquoted span becomes one word."""
    text = re.sub(r"`[^`]*`", "Code", text)
    return re.sub(r"!?\[([^\]]*)\]\([^)]*\)", r"\1", text).replace("**", "")


def sentences(text: str) -> List[str]:
    return [part for part in re.split(r"(?<=[.!?])[\"')*]* +(?=[^a-z])", plain(text)) if part]


def is_list(sentence: str) -> bool:
    """Checks that a text is only a list of names with commas between them."""
    return all(len(part.split()) == 1 for part in sentence.split(", "))


def faults(text: str) -> Iterator[Tuple[int, str]]:
    """Returns the faults of a document, with the line number of the paragraph."""
    for line, unit in units(text):
        for sentence in sentences(unit):
            count = len(WORD.findall(sentence))
            if count > MOST_WORDS and not is_list(sentence):
                yield line, f"a sentence of {count} words: {' '.join(sentence.split()[:8])} .."
        for words, plainer in PLAINER.items():
            if re.search(rf"\b{words}\b", plain(unit), re.I):
                yield line, f"\"{words}\": write {plainer}"
