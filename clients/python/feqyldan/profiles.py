"""Profiles: the time of each node of a graph by itself."""

from __future__ import annotations

import time
from typing import TYPE_CHECKING, Any, Dict, NamedTuple, Tuple

from .images import AnyImage
from .objects import Distribution, MinMax
from .verdicts import in_order, resolved
from .whole import whole

if TYPE_CHECKING:
    from .functions import Call
    from .graphs import Graph, Node


class Timing(NamedTuple):
    """A node, and the seconds that it takes, including a request and its reply."""

    node: Node
    seconds: float


class Profile(Tuple[Timing, ...]):
    """The times of nodes, in the order in which they run. Prints as a table with the slowest node
    first."""

    __slots__ = ()

    def __str__(self) -> str:
        total = sum(one.seconds for one in self)
        lines = [f"{1e3 * one.seconds:9.3f} ms {100 * one.seconds / (total or 1):5.1f} %  node "
                 f"{one.node.number}, {one.node.function}"
                 for one in sorted(self, key=lambda one: -one.seconds)]
        return "\n".join([*lines, f"{1e3 * total:9.3f} ms together, one by one"])

    def _repr_html_(self) -> str:
        rows = "".join(f"<tr><td>{one.node.number}</td><td>{one.node.function}</td>"
                       f"<td>{1e3 * one.seconds:.3f}</td></tr>" for one in self)
        return f"<table><tr><th>node</th><th>function</th><th>ms</th></tr>{rows}</table>"


def profile(graph: Graph, rounds: int) -> Profile:
    """Returns the time of each node by itself, in the order of the graph. The nodes write to
    substitutes, so the graph's outputs don't change."""
    rounds = max(1, whole(rounds, "the number of rounds of a profile"))
    graph.context._look_at_pipeline(f"profile {graph}")
    graph.verify(warn=False)
    stand_ins = Doubles(graph)
    nodes = {node.number: node for node in graph.nodes}
    timings = []
    for member in in_order(graph._members):
        call = stand_ins.call(graph._calls[member.number])
        best = min(_seconds(graph, call) for _ in range(rounds))
        timings.append(Timing(nodes[member.number], best))
    return Profile(timings)


def _seconds(graph: Graph, call: Call) -> float:
    start = time.perf_counter()
    graph.context.vxu._run(call)
    return time.perf_counter() - start


class Doubles:
    """Substitutes for all objects that a graph writes, so that the originals don't change."""

    def __init__(self, graph: Graph) -> None:
        self._context = graph.context
        self._known = resolved(graph._members)
        self._written = {cell.reference for member in graph._members for cell in member.outputs}
        self._made: Dict[bytes, Any] = {}

    @property
    def made(self) -> Dict[bytes, Any]:
        """The substitutes, by the references of the originals."""
        return self._made

    def call(self, call: Call) -> Call:
        return call._replace(operands=tuple(map(self._double_of, call.operands)))

    def _double_of(self, operand: Any) -> Any:
        if operand is None or operand._reference not in self._written:
            return operand
        if operand._reference not in self._made:
            self._made[operand._reference] = self._make(operand)
        return self._made[operand._reference]

    def _make(self, operand: Any) -> Any:
        if isinstance(operand, Distribution):
            return self._context.distribution(operand.bins, operand.offset, operand.range)
        if isinstance(operand, MinMax):
            return self._context.min_max()
        # A copy, because the function may add to the samples.
        if isinstance(operand, AnyImage):
            return operand.copy()
        cell = self._known[operand._reference]
        assert cell.fmt is not None and cell.width is not None and cell.height is not None
        return self._context.image(cell.fmt, cell.width, cell.height)
