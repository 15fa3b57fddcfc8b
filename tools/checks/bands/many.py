"""Runs many graphs, and counts what occurred in them."""

import collections
import sys
import time
from typing import Counter, Iterator, List, Optional, Tuple

from feqyldan import wire
from checks.bands.compared import fault_of
from checks.bands.draw import graph_of
from checks.bands.failures import tell
from checks.bands.graph import LARGE, WINDOWED, Graph

# The number of graphs on one server.
TOGETHER = 10
# The number of graphs after which every case must have occurred.
ALL_COMES = 1000


class Counts:
    """Counts graphs and nodes, and the functions with their border modes in graphs of large images
    that can run in bands."""

    def __init__(self) -> None:
        self.graphs = self.nodes = self.large = self.large_nodes = self.may = self.may_nodes = 0
        self.functions: Counter[int] = collections.Counter()
        self.in_bands: Counter[Tuple[int, int]] = collections.Counter()

    def add(self, graph: Graph) -> None:
        count = len(graph.nodes)
        self.graphs, self.nodes = self.graphs + 1, self.nodes + count
        self.functions.update(node.function for node in graph.nodes)
        if graph.largest() < LARGE:
            return
        self.large, self.large_nodes = self.large + 1, self.large_nodes + count
        if graph.may_run_in_bands():
            self.may, self.may_nodes = self.may + 1, self.may_nodes + count
            self.in_bands.update((node.function, node.border) for node in graph.nodes)

    def borders_of(self, function: int) -> List[int]:
        return [border for border in wire.Border if self.in_bands[function, border]]

    def lacks(self) -> Iterator[str]:
        """Yields the cases that never occurred, in words."""
        for function in wire.Function:
            if not self.functions[function]:
                yield function.name
            elif not self.borders_of(function):
                yield f"{function.name} in a graph that may run in bands"
            elif function in WINDOWED and len(self.borders_of(function)) < len(wire.Border):
                yield f"{function.name} under each border in a graph that may run in bands"

    def words(self) -> str:
        return (f"{self.graphs} graphs of {self.nodes} nodes gave what these give one by one; of "
                f"images of {LARGE:,} samples and more were {self.large} graphs of "
                f"{self.large_nodes} nodes, of which {self.may} of {self.may_nodes} have nothing "
                "in them that keeps them from running in bands")


class Many:
    """Runs this many graphs, or as many as the seconds allow if the number is None."""

    def __init__(self, seconds: float, graphs: Optional[int], seed: int) -> None:
        self.end, self.graphs = time.monotonic() + seconds, graphs
        self.following, self.counts = seed, Counts()

    def is_enough(self) -> bool:
        if self.graphs is not None:
            return self.counts.graphs >= self.graphs
        return time.monotonic() > self.end and (
            self.counts.graphs >= ALL_COMES or not any(self.counts.lacks()))

    def some(self) -> Iterator[Graph]:
        """Draws the next graphs for one server, at least one."""
        for number in range(TOGETHER):
            if number and self.is_enough():
                return
            graph = graph_of(self.following)
            self.following += 1
            self.counts.add(graph)
            yield graph


def check_bands(program: str, seconds: float, graphs: Optional[int], seed: int) -> None:
    many = Many(seconds, graphs, seed)
    while not many.is_enough():
        first = many.following
        found = fault_of(program, many.some())
        if found is not None:
            tell(program, range(first, many.following), *found)
    print(f"check_bands: seeds {seed} to {many.following - 1}: {many.counts.words()}")
    lacks = [*many.counts.lacks()] if graphs is None else []
    if lacks:
        sys.exit("\n".join(f"check_bands: {words} never came" for words in lacks))
