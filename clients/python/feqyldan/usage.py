"""The limits that a context has, and how much of them it uses. The package counts this itself,
because the server has no request for it."""

from __future__ import annotations

import weakref
from typing import TYPE_CHECKING, Dict, NamedTuple, Optional, Set

if TYPE_CHECKING:
    from .graphs import Graph
    from .images import AnyImage

# The most objects that a context may have.
MOST_OBJECTS = 1024
SPARE = 64


class Usage(NamedTuple):
    """The number of objects and its limit, and the bytes of the quota that images take. The quota
    is None if it isn't known, as behind a socket."""

    objects: int
    most_objects: int
    image_bytes: int
    quota: Optional[int]


class Used:
    """The objects of a context, by their names on the server, each with its bytes of the quota."""

    def __init__(self) -> None:
        self._sizes: Dict[int, int] = {}
        # The released objects among them. They exist as long as a graph uses them.
        self._released: Set[int] = set()
        # When there are more released objects, those that no graph uses are dropped.
        self._most_released = SPARE
        self._graphs: Set[weakref.ref[Graph]] = set()

    def add(self, name: int, size: int) -> None:
        self._sizes[name] = size
        if len(self._released) > self._most_released:
            self._drop()
            self._most_released = SPARE + 2 * len(self._released)

    def add_graph(self, graph: Graph) -> None:
        """Adds a graph that may use objects, until Python frees it."""
        # The callback is in C, so no interruption is lost in it.
        self._graphs.add(weakref.ref(graph, self._graphs.discard))

    def release(self, name: int) -> None:
        self._released.add(name)

    def usage(self, quota: Optional[int]) -> Usage:
        self._drop()
        return Usage(len(self._sizes), MOST_OBJECTS, sum(self._sizes.values()), quota)

    def fault(self, size: int, quota: Optional[int]) -> str:
        """Returns in words which limit one more object of this many bytes would exceed."""
        used = self.usage(quota)
        if used.objects >= MOST_OBJECTS:
            return f"The context has {used.objects:,} objects, the most that are allowed."
        of_quota = f"{used.image_bytes:,} are used" if quota is None else (
            f"{used.image_bytes:,} of {quota:,} are used")
        return f"The object needs {size:,} bytes of the quota, and {of_quota}."

    def _drop(self) -> None:
        """Drops the released objects that no graph uses."""
        # Each list is made in one step: a signal's handler may add a graph or a node meanwhile.
        graphs = [reference() for reference in list(self._graphs)]
        in_graphs = {name for graph in graphs if graph is not None and not graph.closed
                     for name in list(graph._uses)}
        for name in self._released - in_graphs:
            self._sizes.pop(name, None)
        self._released &= in_graphs


def wanted_bytes(image: AnyImage) -> int:
    """Returns how many bytes of the quota an image takes."""
    return image.width * image.height * image.fmt.sample_bytes
