"""A session of one client with two graphs, some of whose requests take memory."""

from typing import List

from feqyldan import wire

SAMPLES = bytes(at * 37 % 256 for at in range(64))
# The slots of the delay, the newest first.
SLOTS: List[wire.Reference] = [wire.reference(5, k) for k in range(3)]
# The images that a run of the first graph writes, and the other slots.
IMAGES: List[wire.Reference] = [2, 3, 4, *SLOTS]
READS = [
    *(wire.read_image(3, named) for named in IMAGES),
    *(wire.query_image(3, named) for named in (2, 4)),
    wire.read_distribution(3, 6),
    wire.read_min_max(3, 7),
    wire.query_image(3, 9),
    wire.read_image(3, 9),
]
# The outputs of the first graph are changed before each run, and read after it.
RUNS = [
    *(wire.set_valid(3, named, (2, 1, 9, 3)) for named in IMAGES[:4]),
    wire.process_graph(3, 8),
    *READS,
    wire.age_delay(3, 5),
]


def graphs() -> List[bytes]:
    """A client with two graphs. They run through virtual images and slots to two outputs, a
    distribution and extremes, and age delays."""
    return [
        *objects(),
        *nodes(),
        *READS,
        wire.verify_graph(3, 8),
        *RUNS,
        wire.write_image(3, 1, wire.U8, 16, 4, SAMPLES[::-1]),
        *RUNS,
        # Released objects remain in use; then a node is removed, and with it the objects it used.
        wire.release(3, 1),
        wire.release(3, 9),
        *RUNS,
        wire.remove_node(3, 8, 1),
        wire.remove_node(3, 8, 1),
        wire.verify_graph(3, 8),
        *RUNS,
        *another_graph(),
        *registrations(),
        wire.create_graph(3),
        wire.create_image(3, wire.U8, 16, 4),
        *READS,
        wire.release_context(3),
        wire.open_context(3),
        wire.create_graph(3),
    ]


def objects() -> List[bytes]:
    """The first graph, without nodes, and the operands of its nodes."""
    return [
        wire.open_context(3),
        wire.create_image(3, wire.U8, 16, 4),
        wire.create_image(3, wire.S16, 16, 4),
        wire.create_image(3, wire.S16, 16, 4),
        wire.create_image(3, wire.U8, 16, 4),
        wire.create_delay(3, 1, 3),
        wire.create_distribution(3, 16, 0, 256),
        wire.create_min_max(3),
        wire.create_graph(3),
        wire.create_virtual_image(3, 8),
        wire.create_virtual_image(3, 8, wire.S16),
        wire.create_virtual_image(3, 8, wire.OPEN, 16, 4),
        wire.process_graph(3, 8),
        *(wire.write_image(3, named, wire.U8, 16, 4, SAMPLES[at:] + SAMPLES[:at])
          for at, named in enumerate((1, *SLOTS))),
    ]


def nodes() -> List[bytes]:
    """Nodes of the first graph, and two that it refuses."""
    return [
        # The last node to run is added first.
        wire.add_node(3, 8, wire.BOX, 11, None, 4),
        wire.add_node(3, 8, wire.GAUSSIAN, 1, None, 9, border=wire.REPLICATE),
        wire.add_node(3, 8, wire.SOBEL, 9, None, 10, border=wire.REPLICATE, out2=2),
        wire.add_node(3, 8, wire.ADD, 10, 2, 3, wire.SATURATE),
        wire.verify_graph(3, 8),
        wire.add_node(3, 8, wire.ABSOLUTE_DIFFERENCE, 9, SLOTS[1], 11),
        wire.add_node(3, 8, wire.NOT_BITS, 11, None, SLOTS[0]),
        wire.add_node(3, 8, wire.HISTOGRAM, 11, None, 6),
        wire.add_node(3, 8, wire.MIN_MAX_LOCATION, 10, None, 7),
        wire.add_node(3, 8, wire.NOT_BITS, 99, None, 4),
        wire.add_node(3, 8, wire.NOT_BITS, 4, None, 8),
    ]


def registrations() -> List[bytes]:
    """The second graph ages the delay and so many others that its list grows more than once. Some
    of them are gone when the last one is registered."""
    return [
        wire.register_auto_aging(3, 12, 5),
        wire.register_auto_aging(3, 12, 5),
        wire.process_graph(3, 12),
        *READS,
        *(request for name in range(14, 26) for request in (
            wire.create_delay(3, 2, 1), wire.register_auto_aging(3, 12, name))),
        wire.process_graph(3, 12),
        *(wire.release(3, name) for name in range(14, 20)),
        wire.create_delay(3, 2, 1),
        wire.register_auto_aging(3, 12, 26),
        wire.process_graph(3, 12),
        *READS,
    ]


def another_graph() -> List[bytes]:
    """Another graph, while the first one exists and after it."""
    return [
        wire.create_graph(3),
        wire.create_virtual_image(3, 12, wire.U8),
        wire.add_node(3, 12, wire.NOT_BITS, SLOTS[0], None, 13),
        wire.add_node(3, 12, wire.NOT_BITS, 13, None, SLOTS[2]),
        wire.add_node(3, 12, wire.NOT_BITS, 10, None, 4),
        wire.process_graph(3, 12),
        *RUNS,
        wire.add_node(3, 12, wire.NOT_BITS, 4, None, 13),
        wire.verify_graph(3, 12),
        wire.process_graph(3, 12),
        wire.remove_node(3, 12, 3),
        wire.release(3, 8),
        wire.process_graph(3, 8),
        wire.process_graph(3, 12),
    ]
