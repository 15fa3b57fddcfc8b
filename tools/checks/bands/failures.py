"""Reduces and reports a graph that fails."""

import sys
import time
from typing import Iterator, Sequence, Tuple

from checks.bands.compared import fault_of
from checks.bands.graph import Graph, graph_words, shown
from checks.bands.pictures import picture_for

# Seconds in which a graph is reduced.
CUTTING = 60


def cut_down(program: str, graph: Graph, words: str) -> Tuple[Graph, str]:
    """Returns the graph reduced to the nodes that are needed for the failure, and the failure."""
    end = time.monotonic() + CUTTING
    for number in reversed(range(len(graph.nodes))):
        shorter = graph.without(number)
        if time.monotonic() > end or not shorter.nodes:
            break
        found = fault_of(program, [shorter])
        if found is not None:
            graph, words = found
    return graph, words


def picture_words(graph: Graph) -> Iterator[str]:
    used = graph.written() | graph.read()
    written = [(turn, cell, picture_for(graph, cell, made, turn))
               for turn in range(2) for cell, made in graph.cells() if cell in used]
    for turn, cell, picture in written:
        if picture is not None:
            yield (f"written before run {turn + 1}: {shown(cell)}, {picture.kind}, valid "
                   f"{picture.valid}")


def tell(program: str, seeds: Sequence[int], graph: Graph, words: str) -> None:
    """Reports a failed graph and ends. It is the last of the graphs with these seeds on one
    server."""
    seed, again = graph.seed, f"--seed {graph.seed} --graphs 1"
    alone = fault_of(program, [graph])
    if alone is None:
        again = f"--seed {seeds[0]} --graphs {len(seeds)}"
        words += "; but not where it runs on a server of its own"
    else:
        graph, words = cut_down(program, *alone)
    lines = [*graph_words(graph), *picture_words(graph)]
    sys.exit("\n  ".join((f"check_bands: seed {seed}: {words}", *lines))
             + f"\nthe whole graph runs again with {again}")
