"""Kinds of streams."""

import struct

from feqyldan import wire
from feqyldan.wire import S16, U32, U8
from checks import model
from checks.model.functions import GREATEST_SIDE as SIDE
from checks.model.state import (
    ADD_NODE, CREATE_CONVOLUTION, CREATE_DELAY, CREATE_GRAPH, CREATE_IMAGE, CREATE_VIRTUAL_IMAGE,
    IMMEDIATE, OPEN_CONTEXT, PROCESS_GRAPH, READ_IMAGE, REGISTER_AUTO_AGING, RELEASE, REMOVE_NODE,
    WRITE_IMAGE)
from checks.streams import nodes as random_nodes
from checks.streams.draw import byte, is_large, long
from checks.streams.requests import FEW, MANY
from checks.streams.stream import Stream

# Client numbers, some of which share a byte.
CLIENTS = (0, 1, 2, 7, 255, 256, 257, 263, 512, 1793, 65535)


def mixed(stream):
    """Sends any requests, of one to five clients."""
    clients = stream.rng.sample(CLIENTS, stream.rng.randint(1, 5))
    client = clients[0]
    for _ in range(40 + len(clients) * stream.rng.randint(60, 220)):
        client = stream.rng.choice((client, *clients))
        stream.ask_something(client)
    stream.ask_about_all()


def hold_by_graphs(stream, client):
    """Creates images and a virtual image that only graphs still use, and released delays that were
    registered with these graphs."""
    for _ in range(3):
        for op, body in ((CREATE_IMAGE, struct.pack(">BHH", U8, 2, 1)),
                         (CREATE_IMAGE, struct.pack(">BHH", U8, 2, 1)),
                         (CREATE_GRAPH, b"")):
            stream.ask(client, op, body)
        graph = max(stream.draw_of(client).live())
        stream.ask(client, CREATE_VIRTUAL_IMAGE, long(graph) + bytes(5))
        for cells in ((graph - 2, graph + 1), (graph + 1, graph - 1)):
            stream.ask(client, ADD_NODE,
                       long(graph) + wire.node(wire.NOT_BITS, cells[0], None, cells[1]))
        stream.ask(client, CREATE_DELAY, wire.reference(graph - 2) + byte(2))
        stream.ask(client, REGISTER_AUTO_AGING, long(graph) + long(graph + 2))
        for name in (graph - 2, graph + 1, graph + 2):
            stream.ask(client, RELEASE, long(name))


def to_all_objects(stream):
    """Lets one client reach its limit of objects, while another client has a few."""
    full, other = stream.rng.sample(CLIENTS, 2)
    stream.ask(full, OPEN_CONTEXT, b"")
    draw = stream.draw_of(full)
    draw.sizes = [(1, 1), (2, 1), (3, 2)]
    hold_by_graphs(stream, full)
    while len(draw.state.context.objects) < model.LIMITS.objects:
        if draw.chance(0.02):
            stream.ask_something(other)
        stream.ask_any(full, stream.rng.choices([*MANY], MANY.values())[0])
    for k in range(30):
        # The first creates are refused, whatever is released after them.
        if k >= 5:
            stream.ask_something(draw.pick((full, other)))
        for op in FEW:
            stream.ask_any(full, op)


def fits(left):
    """Returns the format and the size of an image that takes a large part of the remaining quota,
    and in the end all of it."""
    if left >= 4 * SIDE * SIDE:
        return U32, SIDE, SIDE
    return (U8, SIDE, min(SIDE, left // SIDE)) if left >= SIDE else (U8, left, 1)


def exceeds(left):
    """Returns the format and the size of an image that exceeds the remaining quota by as little as
    possible."""
    if left >= SIDE * SIDE:
        return U32, SIDE, min(SIDE, left // (4 * SIDE) + 1)
    return (U8, SIDE, left // SIDE + 1) if left >= SIDE else (U8, left + 1, 1)


def to_the_quota(stream):
    """Lets one client use up its quota, while another client has a few images."""
    full, other = stream.rng.sample(CLIENTS, 2)
    for client in (full, other):
        stream.ask(client, OPEN_CONTEXT, b"")
        for op in (*FEW, *FEW):
            stream.ask_any(client, op)
        for _ in range(4):
            stream.ask_create(client)
    fill(stream, full, other)
    for _ in range(40):
        stream.ask_something(stream.rng.choice((full, full, other)))
    live = stream.draw_of(full).live()
    for name in [name for name, thing in live.items() if is_large(thing)][-2:]:
        stream.ask(full, RELEASE, long(name))
    fill(stream, full, other)
    stream.ask_about_all()


def fill(stream, full, other):
    context = stream.clients.state_of(full).context
    left = 0 if context is None else model.LIMITS.quota - model.charge(context)
    while left > 0:
        stream.ask_something(other)
        for size in (fits(left), exceeds(left))[:: stream.rng.choice((1, -1))]:
            stream.ask(full, CREATE_IMAGE, struct.pack(">BHH", *size))
        fill_by_delay(stream, full)
        stream.ask_create(full)
        left = model.LIMITS.quota - model.charge(context)
    stream.ask(full, CREATE_IMAGE, struct.pack(">BHH", *exceeds(0)))


def fill_by_delay(stream, full):
    """Creates delays like the newest image, of one slot more than the quota allows, and of as many
    as it allows."""
    context = stream.clients.state_of(full).context
    name, thing = list(stream.draw_of(full).live().items())[-1]
    if isinstance(thing, model.Image):
        fit = (model.LIMITS.quota - model.charge(context)) // model.object_bytes(thing)
        for slots in (fit + 1, fit):
            if 1 <= slots <= 16:
                stream.ask(full, CREATE_DELAY, wire.reference(name) + byte(slots))


def to_great_sums(stream):
    """Computes sums over a large picture, and of large samples with large coefficients."""
    client = stream.rng.choice(CLIENTS)
    draw = stream.draw_of(client)
    width, height = draw.rng.randint(17, 64), draw.rng.randint(17, 64)
    stream.ask(client, OPEN_CONTEXT, b"")
    for fmt in (U8, S16, U8, U32):
        stream.ask(client, CREATE_IMAGE, struct.pack(">BHH", fmt, width, height))
    for exponent in (0, 15, 23):
        sides = bytes([draw.pick((7, 9)), draw.pick((7, 9))])
        coefficients = [draw.pick((-32768, -32768, -32767)) for _ in range(sides[0] * sides[1])]
        body = sides + byte(exponent) + struct.pack(f">{len(coefficients)}h", *coefficients)
        stream.ask(client, CREATE_CONVOLUTION, body)
    for samples in ((255,), (254, 255), (0, 1, 254, 255)):
        picture = wire.reference(1) + struct.pack(">BHH", U8, width, height)
        stream.ask(client, WRITE_IMAGE,
                   picture + bytes(draw.rng.choices(samples, k=width * height)))
        border = draw.pick((wire.UNDEFINED, wire.REPLICATE))
        stream.ask(client, IMMEDIATE,
                   wire.node(wire.CONVOLVE, 1, draw.pick((5, 6, 7)), 2, border=border))
        stream.ask(client, IMMEDIATE,
                   wire.node(wire.CONVOLVE, 1, draw.pick((5, 6, 7)), 3, border=border))
        stream.ask(client, IMMEDIATE, wire.node(wire.INTEGRAL, 1, None, 4))
        stream.ask_about_all()
        stream.ask(client, IMMEDIATE, wire.node(wire.ACCUMULATE, 1, None, 2))
        stream.ask(client, IMMEDIATE,
                   wire.node(wire.ACCUMULATE_SQUARE, 1, None, 2, amount=draw.pick((0, 1, 8))))
        stream.ask_about_all()


def to_all_nodes(stream):
    """Lets a graph reach its limit of nodes, in a chain."""
    client = stream.rng.choice(CLIENTS)
    draw, most = stream.draw_of(client), model.LIMITS.nodes
    stream.ask(client, OPEN_CONTEXT, b"")
    stream.ask(client, CREATE_GRAPH, b"")
    for _ in range(2):
        stream.ask(client, CREATE_IMAGE, struct.pack(">BHH", U8, 2, 1))
    stream.ask(client, CREATE_DELAY, wire.reference(2) + byte(2))
    for _ in range(most - 1):
        stream.ask(client, CREATE_VIRTUAL_IMAGE, long(1) + bytes(5))
    stream.ask(client, WRITE_IMAGE,
               wire.reference(2) + struct.pack(">BHH", U8, 2, 1) + draw.samples(U8, 2))
    row = [2, *range(5, most + 4), 3]
    links = [*zip(row, row[1:])]
    stream.rng.shuffle(links)
    for first, output in links:
        function = draw.pick((wire.NOT_BITS, wire.NOT_BITS, wire.DILATE))
        node = wire.node(function, first, None, output, border=wire.REPLICATE)
        stream.ask(client, ADD_NODE, long(1) + node)
    stream.ask(client, PROCESS_GRAPH, long(1))
    stream.ask_about_all()
    for number in (1, most, most + 1):
        for _ in range(12):
            stream.ask(client, ADD_NODE, b"".join(random_nodes.refused_node(draw, 1)))
        stream.ask(client, ADD_NODE, long(1) + node)
        stream.ask(client, REMOVE_NODE, long(1) + long(number))
        stream.ask(client, ADD_NODE, long(1) + node)


# Sizes of white pictures whose samples have a sum slightly above 2^32.
GREAT_SIZES = (4097, 4112), (4112, 4097), (SIDE, 2057), (2057, SIDE)


def to_sums_that_wrap(stream):
    """Computes the integral image of a picture whose sum exceeds U32."""
    client = stream.rng.choice(CLIENTS)
    width, height = stream.rng.choice(GREAT_SIZES)
    stream.ask(client, OPEN_CONTEXT, b"")
    for fmt in (U8, U32):
        stream.ask(client, CREATE_IMAGE, struct.pack(">BHH", fmt, width, height))
    picture = wire.reference(1) + struct.pack(">BHH", U8, width, height)
    stream.ask(client, WRITE_IMAGE, picture + b"\xff" * (width * height))
    stream.ask(client, IMMEDIATE, wire.node(wire.INTEGRAL, 1, None, 2))
    stream.ask(client, READ_IMAGE, wire.reference(2))


# Of this many seeds in a row, one gives each kind of stream that isn't mixed.
TURN = 48
KINDS = {5: to_all_objects, 8: to_great_sums, 11: to_the_quota, 14: to_all_nodes,
         17: to_sums_that_wrap}


def is_slow(seed):
    """Checks if the model takes seconds for a stream."""
    return KINDS.get(seed % TURN) is to_sums_that_wrap


def stream_of(seed):
    kind = KINDS.get(seed % TURN, mixed)
    stream = Stream(seed, kind is mixed)
    kind(stream)
    return stream
