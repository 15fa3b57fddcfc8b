"""Worked sessions on graphs."""

import struct

from feqyldan import wire
from feqyldan.wire import (
    ABSOLUTE_DIFFERENCE, ADD, BOX, CONVERT_DEPTH, GAUSSIAN, INVALID_FORMAT, INVALID_GRAPH,
    INVALID_LINK, INVALID_REFERENCE, INVALID_TYPE, INVALID_VALUE, MAX_PIXEL, MULTIPLE_WRITERS,
    OPTIMIZED_AWAY, SATURATE, THRESHOLD, U8, WRAP, node, reference)
from checks.graphs.cast import both, in_graph, inverse
from checks.sessions.rows import (
    CLIENT, NOWHERE, REPLICATE, SAME, added, aged, closed, confined, delayed, graph, holds,
    in_slots, made, name, opened, processed, released, removed, shows, told, verified, virtual,
    wrote)


def details():
    """The example of docs/wire.md: 2 marks the pixels of 1 that differ from their surroundings by
    more than 3."""
    nodes = (node(GAUSSIAN, 1, None, 5, **REPLICATE), node(ABSOLUTE_DIFFERENCE, 1, 5, 6),
             node(THRESHOLD, 6, 3, 2))
    return [
        opened(), made(1, U8, 6), made(2, U8, 6),
        (wire.create_threshold(CLIENT, U8, (30,)), name(3)),
        wrote(1, U8, [10, 10, 10, 90, 10, 10], 6), graph(4), virtual(5, 4), virtual(6, 4),
        *in_graph(nodes, 4), processed(4), holds(2, U8, [0, 0, 0, 255, 0, 0], 6),
        (wire.read_image(CLIENT, 5), OPTIMIZED_AWAY),
        # Intermediate results, in an image.
        made(7, U8, 6), removed(4, 3), added(4, 4, node(MAX_PIXEL, 6, 6, 7)), processed(4),
        holds(7, U8, [0, 0, 20, 40, 20, 0], 6), removed(4, 4),
        added(4, 5, node(MAX_PIXEL, 5, 5, 7)), processed(4),
        holds(7, U8, [10, 10, 30, 50, 30, 10], 6), removed(4, 5),
        added(4, 6, node(THRESHOLD, 6, 3, 2)), released(1), wrote(2, U8, [9] * 6, 6), processed(4),
        holds(2, U8, [0, 0, 0, 255, 0, 0], 6), removed(4, 1), verified(4, INVALID_LINK),
    ]


def graph_before_and_after_ageing():
    """A run of a graph that reads slot -1, the same run after AgeDelay, and refused reads."""
    return [
        opened(), made(1, U8), delayed(2, 1, 3), *in_slots(wrote, 2, U8, [1, 2, 3]), graph(3),
        added(3, 1, inverse(reference(2, 1), 1)), verified(3), processed(3), holds(1, U8, [253]),
        aged(2), *in_slots(holds, 2, U8, [3, 1, 2]), processed(3), holds(1, U8, [254]),
        (wire.read_image(CLIENT, reference(2, 3)), INVALID_VALUE),
        (wire.read_image(CLIENT, 2), INVALID_TYPE),
    ]


def graphs_on_delays():
    """A run reads and writes the current images of the slots. Ageing needs no new verdict."""
    slots = [reference(2, k) for k in range(3)]
    return [
        *graph_before_and_after_ageing(), aged(2), verified(3),
        processed(3), holds(1, U8, [252]), *in_slots(holds, 2, U8, [2, 3, 1]),
        # An image written in slot 0 is read from slot -1 in the run after an ageing.
        added(3, 2, inverse(slots[1], slots[0])), processed(3),
        *in_slots(holds, 2, U8, [252, 3, 1]), aged(2), *in_slots(holds, 2, U8, [1, 252, 3]),
        processed(3), *in_slots(holds, 2, U8, [3, 252, 3]), holds(1, U8, [3]),
        aged(2), processed(3), *in_slots(holds, 2, U8, [252, 3, 252]), holds(1, U8, [252]),
        # A rectangle moves with its image.
        confined(slots[0], NOWHERE), processed(3), told(slots[0], U8, (0, 0, 1, 1)),
        confined(slots[0], NOWHERE), aged(2), processed(3), *shows(slots[0], U8, [0], NOWHERE, 1),
        *shows(1, U8, [0], NOWHERE, 1), *shows(slots[2], U8, [3], (0, 0, 1, 1), 1),
        # One slot can't be both input and output; two slots can.
        added(3, 3, inverse(slots[0], slots[1])), processed(3, INVALID_GRAPH), removed(3, 2),
        removed(3, 3), added(3, 4, inverse(1, slots[1])), processed(3, INVALID_GRAPH),
        removed(3, 1), wrote(1, U8, [9]), processed(3), holds(slots[1], U8, [246]),
    ]


def reused_buffers():
    """Images of 8 by 7 samples. No contents that client 7 released appear in objects or graph runs
    of client 8."""
    size, nodes = (8, 7), (node(BOX, 1, None, 4), node(BOX, 4, None, 5), node(BOX, 5, None, 2))
    left = [9 if (x, y) in ((3, 3), (4, 3)) else 0 for y in range(7) for x in range(8)]

    def second():
        return [made(1, U8, *size, client=8), holds(1, U8, [0] * 56, *size, client=8),
                wrote(1, U8, [9] * 56, *size, client=8), made(2, U8, *size, client=8),
                wrote(2, U8, [255] * 56, *size, client=8), graph(3, 8), virtual(4, 3, client=8),
                virtual(5, 3, client=8),
                *(added(3, number, node, 8) for number, node in enumerate(nodes, 1)),
                processed(3, client=8), holds(2, U8, left, *size, client=8),
                (wire.query_image(8, 2), struct.pack(">BHH4H", U8, *size, 3, 3, 5, 4)),
                holds(1, U8, [9] * 56, *size, client=8)]

    return [
        opened(), opened(8), made(1, U8, *size), wrote(1, U8, [255] * 56, *size), released(1),
        *second(), closed(8), opened(8),
        # The same after a whole context is released, with a graph that has run.
        made(2, U8, *size), made(3, U8, *size), graph(4), virtual(5, 4),
        *(wrote(number, U8, [255] * 56, *size) for number in (2, 3)), added(4, 1, inverse(5, 3)),
        added(4, 2, inverse(2, 5)), processed(4), holds(3, U8, [255] * 56, *size), closed(),
        *second(),
    ]


def image_read_twice():
    """Two nodes read a third node's output, and a fourth reads both of theirs, in two runs."""
    nodes = (inverse(1, 4), inverse(4, 5), inverse(4, 6), both(5, 6, 2))
    return [
        opened(), made(1, U8), made(2, U8), graph(3), *(virtual(number, 3) for number in (4, 5, 6)),
        *in_graph(nodes, 3), wrote(1, U8, [10]), processed(3), holds(2, U8, [10]),
        wrote(1, U8, [20]), processed(3), holds(2, U8, [20]),
    ]


def image_read_twice_and_released():
    """The same, then a verification, a removed node, a convolution, and the end of the context."""
    return [
        *image_read_twice(), verified(3), told(1, U8, (0, 0, 1, 1)), removed(3, 1),
        verified(3, INVALID_LINK), (SAME, name(7)), closed(),
    ]


def removed_nodes():
    """1 and 2 are images of one U8 sample, 3 is a graph. VerifyGraph before ProcessGraph makes no
    difference."""
    rows = []
    for verify in (False, True):
        def processes(wanted=b"", verify=verify):
            return [*([verified(3, wanted)] if verify else []), processed(3, wanted)]

        rows += [
            opened(), made(1, U8), made(2, U8), graph(3), added(3, 1, inverse(1, 2)),
            wrote(1, U8, [10]), *processes(), holds(2, U8, [245]), wrote(1, U8, [20]),
            removed(3, 1), *processes(), holds(2, U8, [245]), removed(3, 1, INVALID_REFERENCE),
            added(3, 2, inverse(1, 2)), *processes(), holds(2, U8, [235]),
            # A verdict is on the current nodes.
            added(3, 3, inverse(2, 1)), *processes(INVALID_GRAPH), removed(3, 2), *processes(),
            holds(1, U8, [20]), added(3, 4, inverse(1, 2)), *processes(INVALID_GRAPH),
            removed(3, 3), *processes(), holds(2, U8, [235]), added(3, 5, inverse(1, 2)),
            *processes(MULTIPLE_WRITERS), removed(3, 4), *processes(), virtual(4, 3),
            added(3, 6, inverse(4, 1)), *processes(INVALID_LINK), removed(3, 5),
            added(3, 7, inverse(2, 4)), wrote(2, U8, [77]), *processes(), holds(1, U8, [77]),
            removed(3, 7), *processes(INVALID_LINK), removed(3, 6), *processes(),
            holds(1, U8, [77]), holds(2, U8, [77]), closed(),
        ]
    return rows


def sums_that_wrap():
    """A sum into an undeclared virtual image is S16, so it doesn't wrap at 255. A sum into a U8 one
    isn't converted."""
    return [
        opened(), made(1, U8), made(2, U8), made(3, U8), graph(4), virtual(5, 4), virtual(6, 4, U8),
        wrote(1, U8, [200]), wrote(2, U8, [100]),
        *in_graph((node(ADD, 1, 2, 5, WRAP), node(CONVERT_DEPTH, 5, None, 3, SATURATE)), 4),
        processed(4), holds(3, U8, [255]), removed(4, 2),
        added(4, 3, node(CONVERT_DEPTH, 5, None, 3, WRAP)), processed(4),
        holds(3, U8, [44]), removed(4, 1), removed(4, 3), added(4, 4, node(ADD, 1, 2, 6, WRAP)),
        added(4, 5, node(CONVERT_DEPTH, 6, None, 3, SATURATE)), verified(4, INVALID_FORMAT),
        processed(4, INVALID_FORMAT), holds(3, U8, [44]), removed(4, 5), added(4, 6, inverse(6, 3)),
        processed(4), holds(3, U8, [211]),
    ]


def long_graphs():
    """Graphs of 256 chained nodes, added in various orders."""
    images, count = (1, 2), 256
    # Name 3 is the graph, and chain[k] is the input of node k.
    chain = [images[0], *range(4, 3 + count), images[1]]
    rows = [opened(), made(1, U8), made(2, U8), wrote(1, U8, [10]), graph(3),
            *(virtual(number, 3) for number in chain[1:-1])]
    order = [at * 37 % count for at in range(count)]
    rows += [added(3, number, inverse(chain[at], chain[at + 1]))
             for number, at in enumerate(order, 1)]
    first, last = order.index(0) + 1, order.index(count - 1) + 1
    return rows + [
        processed(3), holds(2, U8, [10]), wrote(1, U8, [77]), verified(3), processed(3),
        holds(2, U8, [77]), removed(3, last), processed(3), holds(2, U8, [77]),
        added(3, count + 1, inverse(chain[-3], 2)), processed(3), holds(2, U8, [178]),
        # Without the first node, and with the last output as the first input.
        removed(3, first), processed(3, INVALID_LINK),
        added(3, count + 2, inverse(chain[-2], chain[1])), processed(3, INVALID_GRAPH),
        removed(3, order.index(99) + 1), processed(3, INVALID_LINK), holds(2, U8, [178]),
    ]
