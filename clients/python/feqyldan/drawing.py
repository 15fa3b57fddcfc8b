"""Drawings of graphs, in Graphviz's language and as SVG, and of delays in a notebook."""

from __future__ import annotations

import base64
import html
import re
import shutil
import subprocess
from typing import TYPE_CHECKING, Any, Dict, Iterable, List, Mapping, NamedTuple, Optional, Tuple

if TYPE_CHECKING:
    from .functions import Call

# Seconds that Graphviz may take.
PATIENCE = 20
# The sides of a box, and the gaps between boxes, in points.
BOX_WIDTH, BOX_HEIGHT, ACROSS, DOWN, MARGIN = 150, 40, 50, 16, 10
# What is no character in XML.
NO_CHARACTER = re.compile("[^\t\n\r -\ud7ff\ue000-\ufffd\U00010000-\U0010ffff]")
_STYLES = {"virtual": 'shape=ellipse style=dashed', "object": 'shape=box style=filled '
           'fillcolor="#e8eef7"', "node": 'shape=cds style=filled fillcolor="#fdf0d5"'}


class Box(NamedTuple):
    """A node or an object in a drawing: its words on two lines, and its kind."""

    key: str
    title: str
    about: str
    kind: str


class Drawing(NamedTuple):
    """Boxes, and arrows between them by their keys."""

    boxes: Dict[str, Box]
    arrows: List[Tuple[str, str]]

    @property
    def dot(self) -> str:
        """Returns the drawing in Graphviz's language."""
        lines = ["digraph {", "  rankdir=LR; node [fontname=sans fontsize=10]"]
        for box in self.boxes.values():
            words = "\\n".join(_quoted(line) for line in (box.title, box.about) if line)
            lines.append(f'  {box.key} [label="{words}" {_STYLES[box.kind]}]')
        lines += [f"  {source} -> {target}" for source, target in self.arrows]
        return "\n".join([*lines, "}", ""])

    @property
    def svg(self) -> str:
        """Returns the drawing as SVG: by Graphviz's dot if it is installed, else in columns."""
        return _by_graphviz(self.dot) or _in_columns(self)


def drawing_of(calls: Mapping[int, Call]) -> Drawing:
    """Returns the drawing of a graph's nodes, given the call of each by its number."""
    drawing = Drawing({}, [])
    for number, call in calls.items():
        key = f"node{number}"
        drawing.boxes[key] = Box(key, call.name, f"node {number}", "node")
        others = [None if operand is None else _key_of(drawing, operand)
                  for operand in call.operands]
        drawing.arrows.extend((other, key) for other in others[:2] if other)
        drawing.arrows.extend((key, other) for other in others[2:] if other)
    return drawing


def _key_of(drawing: Drawing, operand: Any) -> str:
    """Returns the key of an object. Its box is added if the drawing doesn't have it yet."""
    key = f"object{operand._reference.hex()}"
    kind = "virtual" if operand._is_virtual else "object"
    drawing.boxes.setdefault(key, Box(key, operand._title, operand._about, kind))
    return key


def _shown(words: str) -> str:
    """Returns words without the characters that a drawing can't have."""
    return NO_CHARACTER.sub("\ufffd", words)


def _quoted(words: str) -> str:
    return _shown(words).replace("\\", "\\\\").replace('"', '\\"')


def _escaped(words: str) -> str:
    return html.escape(_shown(words))


def _by_graphviz(text: str) -> Optional[str]:
    if shutil.which("dot") is None:
        return None
    try:
        run = subprocess.run(["dot", "-Tsvg"], input=text.encode(), stdout=subprocess.PIPE,
                             stderr=subprocess.DEVNULL, timeout=PATIENCE, check=True)
    except (OSError, subprocess.SubprocessError):
        return None
    return run.stdout.decode()


def _in_columns(drawing: Drawing) -> str:
    """Returns the drawing as SVG, with each box to the right of all boxes that have an arrow to
    it."""
    columns = _columns_of(drawing)
    places: Dict[str, Tuple[int, int]] = {}
    filled: Dict[int, int] = {}
    for key, column in columns.items():
        row = filled[column] = filled.get(column, -1) + 1
        places[key] = (MARGIN + column * (BOX_WIDTH + ACROSS), MARGIN + row * (BOX_HEIGHT + DOWN))
    width = MARGIN * 2 + (max(filled, default=0) + 1) * (BOX_WIDTH + ACROSS) - ACROSS
    height = MARGIN * 2 + (max(filled.values(), default=0) + 1) * (BOX_HEIGHT + DOWN) - DOWN
    lines = [f'<svg xmlns="http://www.w3.org/2000/svg" width="{width}" height="{height}" '
             'font-family="sans-serif" font-size="11" text-anchor="middle">']
    lines += [_arrow(places[source], places[target]) for source, target in drawing.arrows]
    lines += [_box(box, *places[box.key]) for box in drawing.boxes.values()]
    return "\n".join([*lines, "</svg>", ""])


def _columns_of(drawing: Drawing) -> Dict[str, int]:
    """Returns the column of each box, from 0. Terminates even if the arrows form a cycle."""
    columns = dict.fromkeys(drawing.boxes, 0)
    for _ in drawing.boxes:
        for source, target in drawing.arrows:
            columns[target] = max(columns[target], min(columns[source] + 1, len(columns)))
    return columns


def _arrow(start: Tuple[int, int], end: Tuple[int, int]) -> str:
    x0, y0 = start[0] + BOX_WIDTH, start[1] + BOX_HEIGHT // 2
    x1, y1 = end[0], end[1] + BOX_HEIGHT // 2
    bend = max(ACROSS, abs(x1 - x0) // 2)
    return (f'<path d="M {x0} {y0} C {x0 + bend} {y0}, {x1 - bend} {y1}, {x1} {y1}" fill="none" '
            f'stroke="#666"/><circle cx="{x1}" cy="{y1}" r="3" fill="#666"/>')


def _box(box: Box, x: int, y: int) -> str:
    fill = {"virtual": "#ffffff", "object": "#e8eef7", "node": "#fdf0d5"}[box.kind]
    dashes = ' stroke-dasharray="4"' if box.kind == "virtual" else ""
    middle = x + BOX_WIDTH // 2
    return (f'<rect x="{x}" y="{y}" width="{BOX_WIDTH}" height="{BOX_HEIGHT}" rx="4" '
            f'fill="{fill}" stroke="#666"{dashes}/>'
            f'<text x="{middle}" y="{y + 17}">{_escaped(box.title)}</text>'
            f'<text x="{middle}" y="{y + 32}" fill="#666">{_escaped(box.about)}</text>')


def html_of(pictures: Iterable[Tuple[str, Optional[bytes]]]) -> str:
    """Returns HTML with PNG pictures side by side, each with its words below."""
    figures: List[Any] = []
    for words, png in pictures:
        data = base64.b64encode(png or b"").decode()
        figures.append('<figure style="display: inline-block; margin: 4px">'
                       f'<img src="data:image/png;base64,{data}">'
                       f'<figcaption>{html.escape(words)}</figcaption></figure>')
    return "".join(figures)
