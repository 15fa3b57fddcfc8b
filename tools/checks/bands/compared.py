"""Runs graphs, and compares them with their nodes run one by one."""

from typing import Iterable, Optional, Tuple, Type

from feqyldan import wire
from checks.bands.graph import GRAPH, Graph, Made, shown
from checks.bands.pictures import picture_for
from checks.lockstep import Fault, Server, WrongAnswer, serving

# The client that runs graphs, and the client that runs their nodes one by one.
AS_A_WHOLE, ONE_BY_ONE = 1, 2
# The request that reads a statistic, by the request that created the object.
READS = {wire.CREATE_DISTRIBUTION: wire.read_distribution, wire.CREATE_MIN_MAX: wire.read_min_max}


def addressed(frame: bytes, client: int) -> bytes:
    return frame[:4] + client.to_bytes(2, "big") + frame[6:]


def image_difference(made: Made, one: bytes, other: bytes) -> str:
    """Returns the difference of two replies to ReadImage, in words."""
    if wire.size_of(one) != wire.size_of(other):
        return f"{wire.size_of(one)}, not {wire.size_of(other)}"
    pairs = enumerate(zip(one[13:], other[13:]))
    at = next(at for at, pair in pairs if pair[0] != pair[1])
    row, column = divmod(at // wire.sample_bytes(made.fmt), made.width)
    samples = [wire.rows_of(reply)[row][column] for reply in (one, other)]
    return f"in row {row}, column {column}, {samples[0]}, not {samples[1]}"


def difference(made: Made, op: int, one: bytes, other: bytes) -> str:
    if op == wire.READ_IMAGE:
        return image_difference(made, one, other)
    if op == wire.QUERY_IMAGE:
        return f"valid {wire.description_of(one)[3]}, not {wire.description_of(other)[3]}"
    at = next(at for at in range(8, len(one)) if one[at] != other[at])
    return f"in byte {at}, {one[at]}, not {other[at]}"


class Beside:
    """Two clients of a server: one runs a graph, the other its nodes."""

    def __init__(self, server: Server, graph: Graph) -> None:
        self.server, self.graph = server, graph

    def ask(self, client: int, frame: bytes) -> bytes:
        return self.server.ask(addressed(frame, client))

    def both(self, frame: bytes) -> Tuple[bytes, bytes]:
        return self.ask(AS_A_WHOLE, frame), self.ask(ONE_BY_ONE, frame)

    def same(self, frame: bytes, words: str, made: Made) -> None:
        one, other = self.both(frame)
        if one[6:] != other[6:]:
            raise WrongAnswer(f"{words}: {difference(made, frame[6], one, other)} as node by node")

    def make_objects(self) -> None:
        """Creates the same objects with the same names for both clients."""
        self.both(wire.open_context(0))
        self.both(wire.create_graph(0))
        for made in self.graph.objects:
            self.ask(AS_A_WHOLE, made.virtual or made.frame)
            self.ask(ONE_BY_ONE, made.frame)

    def make_graph(self) -> None:
        for node in self.graph.added():
            self.ask(AS_A_WHOLE, wire.add_node(0, GRAPH, *node))
        for name in self.graph.delays:
            self.ask(AS_A_WHOLE, wire.register_auto_aging(0, GRAPH, name))

    def write(self, turn: int) -> None:
        for cell, made in self.graph.cells():
            picture = picture_for(self.graph, cell, made, turn)
            if picture is None:
                continue
            self.both(wire.write_image(0, cell, made.fmt, made.width, made.height, picture.samples))
            if picture.valid != (0, 0, made.width, made.height):
                self.both(wire.set_valid(0, cell, picture.valid))

    def run(self) -> None:
        self.ask(AS_A_WHOLE, wire.process_graph(0, GRAPH))
        for node in self.graph.nodes:
            self.ask(ONE_BY_ONE, wire.immediate(0, *node))
        for name in self.graph.delays:
            self.ask(ONE_BY_ONE, wire.age_delay(0, name))

    def compare_images(self, turn: int) -> None:
        """Compares the images of both clients. After the first run only those that nodes write, and
        those in slots."""
        written = self.graph.written()
        for cell, made in self.graph.cells():
            if turn == 0 and cell not in written and not made.slots:
                continue
            words = f"after run {turn + 1}, image {shown(cell)}"
            self.same(wire.query_image(0, cell), words, made)
            self.same(wire.read_image(0, cell), words, made)

    def compare_found(self, turn: int) -> None:
        for name, made in self.graph.named():
            read = READS.get(wire.Op(made.frame[6]))
            if read:
                self.same(read(0, name), f"after run {turn + 1}, object {name}", made)

    def check(self) -> None:
        self.make_objects()
        self.make_graph()
        for turn in range(2):
            self.write(turn)
            self.run()
            self.compare_images(turn)
            self.compare_found(turn)
        self.both(wire.release_context(0))


def fault_of(program: str, graphs: Iterable[Graph],
             kind: Type[Server] = Server) -> Optional[Tuple[Graph, str]]:
    """Runs the graphs one after another on one server. Returns the first graph that fails, with the
    failure; None if none does."""
    graph = None
    try:
        with serving(kind, [program, "serve"]) as server:
            for graph in graphs:
                Beside(server, graph).check()
    except Fault as fault:
        assert graph is not None
        return graph, str(fault)
    return None
