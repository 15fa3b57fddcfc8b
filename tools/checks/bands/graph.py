"""A graph with the objects that its nodes name."""

import random
from typing import Iterator, List, NamedTuple, Optional, Set, Tuple

from feqyldan import wire

# The name of the graph itself, which is created first.
GRAPH = 1
# The least number of samples of a large image.
LARGE = 131_072
# Functions whose results accumulate across bands: statistics, sums and integral images.
COUNTED = (wire.HISTOGRAM, wire.MIN_MAX_LOCATION)
ADDING = (wire.ACCUMULATE, wire.ACCUMULATE_SQUARE)
STATISTICS = (*COUNTED, *ADDING, wire.INTEGRAL)
WINDOWED = range(wire.BOX, wire.CONVOLVE + 1)


class Made(NamedTuple):
    """An object, as the frame that creates it. Images, including those in delay slots, have a
    format and a size. A virtual image also has the frame that makes it a virtual one."""

    frame: bytes
    fmt: int = 0
    width: int = 0
    height: int = 0
    slots: int = 0
    virtual: Optional[bytes] = None


class Node(NamedTuple):
    """The fields of a node, in the order of the arguments of `wire.add_node`."""

    function: int
    in1: bytes
    in2: Optional[bytes]
    out1: Optional[bytes]
    policy: int
    amount: int
    border: int
    constant: int
    out2: Optional[bytes]

    def inputs(self) -> List[bytes]:
        return [cell for cell in (self.in1, self.in2) if cell is not None]

    def outputs(self) -> List[bytes]:
        return [cell for cell in (self.out1, self.out2) if cell is not None]


class Graph(NamedTuple):
    """A graph. The names of its objects follow the graph's own. Nodes are in topological order. The
    delays are registered with the graph."""

    seed: int
    objects: Tuple[Made, ...]
    nodes: Tuple[Node, ...]
    delays: Tuple[int, ...]

    def named(self) -> Iterator[Tuple[int, Made]]:
        return enumerate(self.objects, GRAPH + 1)

    def made(self, cell: bytes) -> Made:
        return self.objects[name_in(cell) - GRAPH - 1]

    def cells(self) -> Iterator[Tuple[bytes, Made]]:
        """Returns all images that aren't virtual, including those in slots."""
        for name, made in self.named():
            for slot in range(made.slots):
                yield wire.reference(name, slot), made
            if made.frame[6] == wire.CREATE_IMAGE and made.virtual is None:
                yield wire.reference(name), made

    def written(self) -> Set[bytes]:
        return {cell for node in self.nodes for cell in node.outputs()}

    def read(self) -> Set[bytes]:
        return {cell for node in self.nodes for cell in node.inputs()}

    def added(self) -> List[Node]:
        """Returns the nodes in the order of adding. The order is random, but stays the same if some
        nodes are left out."""
        return sorted(self.nodes,
                      key=lambda node: random.Random(
                          f"{self.seed} {node.outputs()[0].hex()}").random())

    def largest(self) -> int:
        return max(made.width * made.height for made in self.objects)

    def may_run_in_bands(self) -> bool:
        """Checks that the graph can run in bands, apart from its sizes: each integral image and
        each image to which a node adds is a client image, and no node reads it."""
        read = self.read()
        return not any(cell in read or self.made(cell).virtual is not None
                       for node in self.nodes if node.function in (*ADDING, wire.INTEGRAL)
                       for cell in node.outputs())

    def without(self, number: int) -> "Graph":
        """Returns the graph without a node. A virtual image that is no longer written becomes a
        real one."""
        shorter = self._replace(nodes=self.nodes[:number] + self.nodes[number + 1 :])
        written = shorter.written()
        objects = tuple(made if wire.reference(name) in written else made._replace(virtual=None)
                        for name, made in self.named())
        return shorter._replace(objects=objects)


def name_in(cell: bytes) -> int:
    return int.from_bytes(cell[:4], "big")


# ---- descriptions


def shown(cell: bytes) -> str:
    name, slot = name_in(cell), cell[4]
    return f"{name}" if slot == 255 else f"{name}[-{slot}]"


def object_words(name: int, made: Made) -> str:
    kind = wire.Op(made.frame[6]).name.lower().replace("create_", "").replace("_", " ")
    if not made.width:
        return f"{name}: {kind}, {made.frame[7:40].hex(' ')}"
    words = f"{name}: {wire.FORMAT_NAMES[made.fmt]} {made.width} by {made.height}"
    if made.slots:
        return f"{words}, a delay of {made.slots} slots"
    if made.virtual is None:
        return words
    fmt, width, height = wire.size_of(made.virtual[:7] + made.virtual[10:])
    return f"{words}, virtual, declared {wire.FORMAT_NAMES[fmt]}, {width} by {height}"


def node_words(node: Node) -> str:
    inputs, outputs = (", ".join(map(shown, cells)) for cells in (node.inputs(), node.outputs()))
    if node.out1 is None:
        outputs += " as out2"
    border = wire.Border(node.border).name
    return (f"{wire.Function(node.function).name} of {inputs} to {outputs}, "
            f"{wire.Policy(node.policy).name}, amount {node.amount}, {border} {node.constant}")


def graph_words(graph: Graph) -> List[str]:
    """Describes the used objects, and the nodes in the order in which they are run one by one."""
    used = {name_in(cell) for cell in graph.written() | graph.read()}
    lines = [object_words(name, made) for name, made in graph.named() if name in used]
    lines += [f"ages after each run: {name}" for name in graph.delays]
    added = graph.added()
    return lines + [f"{node_words(node)}; added as number {added.index(node) + 1}"
                    for node in graph.nodes]
