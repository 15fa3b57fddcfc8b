"""What the nodes of a graph write, also to virtual images."""

from __future__ import annotations

from typing import TYPE_CHECKING, Any, Dict, Iterator, Mapping, NamedTuple

from .images import AnyImage
from .objects import Rectangle
from .profiles import Doubles
from .verdicts import in_order

if TYPE_CHECKING:
    from .graphs import Graph


class Written(NamedTuple):
    """What the nodes wrote to an operand: the `value` that read() of it would return, and the valid
    rectangle, which is empty for what isn't an image."""

    operand: Any
    value: Any
    valid: Rectangle


class Watch(Mapping[Any, Written]):
    """What a run of a graph wrote, by the operands of its nodes: images, slots, virtual images,
    distributions and extremes."""

    def __init__(self, written: Dict[bytes, Written]) -> None:
        self._written = written

    def __getitem__(self, operand: Any) -> Written:
        written = self._written.get(getattr(operand, "_reference", b""))
        # Each context has objects of the same names.
        if written is None or written.operand.context is not operand.context:
            raise KeyError(f"no node of the graph wrote {operand}")
        return written

    def __iter__(self) -> Iterator[Any]:
        return (one.operand for one in self._written.values())

    def __len__(self) -> int:
        return len(self._written)


def watch(graph: Graph) -> Watch:
    """Runs each node in immediate mode, on doubles of all objects that nodes write."""
    graph.context._look_at_pipeline(f"watch {graph}")
    graph.verify(warn=False)
    context, doubles = graph.context, Doubles(graph)
    with context.pipeline() as ahead:
        for member in in_order(graph._members):
            context.vxu._run(doubles.call(graph._calls[member.number]))
        results = {reference: (ahead.read(double), ahead.query(double)
                               if isinstance(double, AnyImage) else None)
                   for reference, double in doubles.made.items()}
    operands = {operand._reference: operand for call in graph._calls.values()
                for operand in call.operands[2:] if operand is not None}
    return Watch({reference: Written(
        operands[reference], read.value(),
        Rectangle(0, 0, 0, 0) if described is None else described.value().valid)
        for reference, (read, described) in results.items()})
