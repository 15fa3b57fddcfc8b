"""Measures the memory that repeated requests leave behind."""

from typing import List

from feqyldan import wire
from checks.memory.server import QUOTA, Program, Server, check_bounds, in_mib, serving

# The number of delays that are registered with one graph, each released before the next.
REGISTERED = 60_000
# The number of repetitions of all requests, the repetitions between two comparisons, and the side
# of the images in samples. A block leaked in each repetition would exceed the allowance by the next
# comparison.
ROUNDS, BETWEEN, SIDE = 1_000, 50, 64
# Bytes that the server may take for all repetitions.
FOR_AGAIN = 128 * 1024


class Compared:
    """Checks that repetition takes no memory. From time to time it compares the memory with its
    value at the first comparison."""

    def __init__(self, server: Server, between: int) -> None:
        self.server, self.between = server, between
        self.at_first = self.done = 0

    def after(self, what: str) -> str:
        """Notes one more repetition of `what`."""
        self.done += 1
        if self.done == self.between:
            self.at_first = self.server.memory()
        if self.done % self.between:
            return ""
        taken = self.server.memory() - self.at_first
        told = f"{in_mib(taken)} for {self.done} {what}, at most {in_mib(FOR_AGAIN)}"
        return check_bounds(told, taken, FOR_AGAIN)


def registered(program: Program) -> str:
    """Registers delays with a graph and releases them."""
    with serving(program, QUOTA) as server:
        server.ask(wire.open_context(1))
        image = server.create(wire.create_image(1, wire.U8, 1, 1))
        graph = server.create(wire.create_graph(1))
        growth, told = Compared(server, 100), ""
        for _ in range(REGISTERED):
            delay = server.create(wire.create_delay(1, image, 1))
            server.ask(wire.register_auto_aging(1, graph, delay))
            server.ask(wire.release(1, delay))
            told = growth.after("registered delays that are gone") or told
        server.ask(wire.process_graph(1, graph))
        return told


def again(program: Program) -> str:
    """Runs a client that releases all of its objects, and one that releases its context with all of
    them."""
    with serving(program, QUOTA) as server:
        server.ask(wire.open_context(1))
        growth, told = Compared(server, BETWEEN), ""
        for _ in range(ROUNDS):
            for name in made_and_run(server, 1):
                server.ask(wire.release(1, name))
            server.ask(wire.open_context(2))
            made_and_run(server, 2)
            server.ask(wire.release_context(2))
            told = growth.after("rounds of all kinds of requests") or told
        return told


def made_and_run(server: Server, client: int) -> List[int]:
    """Makes two images, a delay, and a graph with a virtual image, which runs and ages the delay.
    An image is released before the node that reads it. Returns the remaining names."""
    new = wire.create_image(client, wire.U8, SIDE, SIDE)
    image, output = server.create(new), server.create(new)
    delay = server.create(wire.create_delay(client, image, 2))
    graph = server.create(wire.create_graph(client))
    between = server.create(wire.create_virtual_image(client, graph))
    picture = bytes(range(SIDE)) * SIDE
    for request in (
        wire.write_image(client, image, wire.U8, SIDE, SIDE, picture),
        wire.write_image_pgm(client, image, b"P5 %d %d 255\n" % (SIDE, SIDE) + picture),
        wire.immediate(client, wire.BOX, image, None, wire.reference(delay, 0)),
        wire.add_node(client, graph, wire.NOT_BITS, image, None, between),
        wire.add_node(client, graph, wire.NOT_BITS, between, None, wire.reference(delay, 1)),
        wire.add_node(client, graph, wire.NOT_BITS, image, None, output),
        wire.register_auto_aging(client, graph, delay),
        wire.verify_graph(client, graph),
        wire.process_graph(client, graph),
        wire.age_delay(client, delay),
        wire.read_image(client, output),
        wire.release(client, image),
        wire.remove_node(client, graph, 1),
        wire.remove_node(client, graph, 3),
    ):
        server.ask(request)
    return [output, between, graph, delay]
