"""Sessions on automatic ageing: delays that age after the runs of graphs."""

from feqyldan import wire
from feqyldan.wire import (
    INVALID_FORMAT, INVALID_GRAPH, INVALID_LINK, INVALID_REFERENCE, INVALID_TYPE, NOT_BITS,
    NO_RESOURCES, U8, reference)
from checks.graphs.cast import (
    A, B, D, DELAY, G, NEXT, NOBODY, NO_GRAPHS, SLOTS, UNKNOWN, V, both, in_graph, inverse)
from checks.graphs.refusals import H, TWO_GRAPHS
from checks.sessions.rows import (
    CLIENT, EXTREMES, MIDDLE, TEN_TO_FORTY, WHOLE_ROW, added, aged, closed, confined, delayed,
    extremes, graph, holds, in_slots, made, name, opened, processed, ran, registered, released,
    removed, shows, told, verified, wrote)


def aged_after_each_run():
    """2 is a delay of two slots, and 3 a graph that writes the inverse of slot -1 into slot 0."""
    return [
        opened(), made(1, U8), delayed(2, 1, 2), graph(3),
        added(3, 1, inverse(reference(2, 1), reference(2, 0))),
        *in_slots(wrote, 2, U8, [10, 20]), registered(3, 2), registered(3, 2), processed(3),
        *in_slots(holds, 2, U8, [20, 235]), processed(3), *in_slots(holds, 2, U8, [235, 20]),
    ]


def registrations():
    """A successful run of the graph ages its delays once. Nothing else does."""
    return [
        *aged_after_each_run(), (wire.register_auto_aging(CLIENT, 2, 3), INVALID_TYPE),
        registered(3, 99, INVALID_REFERENCE), registered(99, 2, INVALID_REFERENCE),
        # A verification, a refused run, a node in immediate mode and another graph age nothing.
        verified(3), *in_slots(holds, 2, U8, [235, 20]),
        added(3, 2, inverse(reference(2, 0), reference(2, 1))), processed(3, INVALID_GRAPH),
        verified(3, INVALID_GRAPH), *in_slots(holds, 2, U8, [235, 20]),
        ran(NOT_BITS, reference(2, 0), None, 1), holds(1, U8, [20]), graph(4), processed(4),
        *in_slots(holds, 2, U8, [235, 20]),
        # A registration survives added and removed nodes, and AgeDelay.
        removed(3, 2), removed(3, 1), processed(3), *in_slots(holds, 2, U8, [20, 235]), aged(2),
        *in_slots(holds, 2, U8, [235, 20]), added(3, 3, inverse(reference(2, 0), 1)),
        processed(3), holds(1, U8, [20]), *in_slots(holds, 2, U8, [20, 235]),
        # The valid rectangle moves with its image.
        confined(reference(2, 1), (0, 0, 0, 0)), processed(3), told(reference(2, 0), U8, (0,) * 4),
        told(reference(2, 1), U8, (0, 0, 1, 1)),
    ]


def registrations_of_several():
    """A delay with two graphs without nodes, a graph with several delays, and delays of one slot
    and of sixteen."""
    return [
        opened(), made(1, U8), delayed(2, 1, 3), graph(3), graph(4),
        *in_slots(wrote, 2, U8, [1, 2, 3]), registered(3, 2), registered(4, 2), processed(3),
        *in_slots(holds, 2, U8, [3, 1, 2]), processed(4), *in_slots(holds, 2, U8, [2, 3, 1]),
        delayed(5, 1, 2), delayed(6, 1, 1), delayed(7, 1, 16),
        *in_slots(wrote, 5, U8, [4, 5]), *in_slots(wrote, 6, U8, [6]),
        *in_slots(wrote, 7, U8, range(16)), *(registered(4, of) for of in (7, 5, 6, 5)),
        processed(4), *in_slots(holds, 2, U8, [1, 2, 3]), *in_slots(holds, 5, U8, [5, 4]),
        *in_slots(holds, 6, U8, [6]), *in_slots(holds, 7, U8, [15, *range(15)]),
        processed(3), *in_slots(holds, 2, U8, [3, 1, 2]), *in_slots(holds, 5, U8, [5, 4]),
        # Releasing a graph ends its registrations, but not another graph's.
        released(4), processed(3), *in_slots(holds, 2, U8, [2, 3, 1]), graph(8), processed(8),
        *in_slots(holds, 2, U8, [2, 3, 1]), *in_slots(holds, 5, U8, [5, 4]),
    ]


def released_after_a_run():
    """A released delay that a node uses continues to age. Without a user it is gone."""
    slot, before = reference(2, 0), reference(2, 1)
    return [
        *aged_after_each_run()[:-3], released(2), processed(3),
        (wire.read_image(CLIENT, 2), INVALID_REFERENCE),
        (wire.read_image(CLIENT, slot), INVALID_REFERENCE), registered(3, 2, INVALID_REFERENCE),
        # A delay of three slots, used by a node of a different graph than the one that ages it.
        delayed(4, 1, 3), *in_slots(wrote, 4, U8, [1, 2, 3]), graph(5), graph(6),
        added(5, 1, inverse(reference(4, 0), 1)), registered(6, 4), released(4),
        *(row for sample in (254, 252, 253, 254)
          for row in (processed(5), holds(1, U8, [sample]), processed(6))),
        registered(6, 4, INVALID_REFERENCE), processed(5), holds(1, U8, [252]), removed(5, 1),
        processed(6), processed(5), holds(1, U8, [252]),
        # An unused delay is gone immediately. Releasing its graph then has no further effect.
        delayed(7, 1, 2), *in_slots(wrote, 7, U8, [8, 9]), registered(6, 7), released(7),
        processed(6), delayed(8, 1, 2), *in_slots(wrote, 8, U8, [8, 9]), registered(6, 8),
        processed(6), *in_slots(holds, 8, U8, [9, 8]),
        # The graph that contained the node takes the first delay with it.
        released(3), processed(6), *in_slots(holds, 8, U8, [8, 9]),
        ran(NOT_BITS, before, None, 1, INVALID_REFERENCE),
    ]


def refusals_of_registrations():
    """Both names are checked before both kinds. A refused request registers nothing."""
    no_delays = (*(of for of in NO_GRAPHS if of != DELAY), G, H)
    rows = [*TWO_GRAPHS, added(G, 1, inverse(A, B))]
    rows += [registered(of, DELAY, INVALID_REFERENCE) for of in UNKNOWN]
    rows += [registered(G, of, INVALID_REFERENCE) for of in UNKNOWN]
    rows += [registered(of, NOBODY, INVALID_REFERENCE) for of in (*NO_GRAPHS, NOBODY)]
    rows += [registered(NOBODY, of, INVALID_REFERENCE) for of in no_delays]
    rows += [registered(of, DELAY, INVALID_TYPE) for of in NO_GRAPHS]
    rows += [registered(G, of, INVALID_TYPE) for of in no_delays]
    rows += [registered(DELAY, G, INVALID_TYPE), registered(A, B, INVALID_TYPE)]
    rows += [processed(G), processed(H), *in_slots(holds, DELAY, U8, [1, 2, 3])]
    # None of these requests changes the registrations. A refused graph ages nothing.
    rows += [registered(G, DELAY), registered(G, A, INVALID_TYPE), processed(G),
             *in_slots(holds, DELAY, U8, [3, 1, 2])]
    for number, (fault, code) in enumerate((
            (inverse(SLOTS[1], SLOTS[1]), INVALID_GRAPH), (inverse(V, SLOTS[0]), INVALID_LINK),
            (inverse(A, D), INVALID_FORMAT)), 2):
        rows += [added(G, number, fault), processed(G, code), verified(G, code),
                 removed(G, number)]
    return rows + [*in_slots(holds, DELAY, U8, [3, 1, 2]), processed(G),
                   *in_slots(holds, DELAY, U8, [2, 3, 1]), graph(NEXT + 2)]


def registrations_of_clients():
    """Registrations belong to one client, and end with its context."""
    rows = []
    for client in (CLIENT, 8):
        rows += [opened(client), made(1, U8, client=client), delayed(2, 1, 2, client),
                 graph(3, client), *in_slots(wrote, 2, U8, [client, 9], client)]
    return [
        *rows, registered(3, 2, INVALID_REFERENCE, 9), registered(3, 2),
        processed(3, client=8), *in_slots(holds, 2, U8, [8, 9], 8), processed(3),
        *in_slots(holds, 2, U8, [9, CLIENT]), *in_slots(holds, 2, U8, [8, 9], 8), closed(),
        registered(3, 2, INVALID_REFERENCE), *rows[:3], graph(3),
        *in_slots(wrote, 2, U8, [1, 2]), processed(3), *in_slots(holds, 2, U8, [1, 2]),
        registered(3, 2), processed(3), *in_slots(holds, 2, U8, [2, 1]),
        *in_slots(holds, 2, U8, [8, 9], 8),
    ]


def registrations_of_the_released():
    """1,024 objects: a registration takes no object. More delays than a client can have were
    registered with one graph."""
    rows = [opened(), made(1, U8), delayed(2, 1, 2), graph(3), graph(4), registered(3, 2),
            *(extremes(number) for number in range(5, 1025)), (EXTREMES, NO_RESOURCES),
            released(2), extremes(1025), (EXTREMES, NO_RESOURCES), released(1025)]
    for number in range(1026, 2100):
        rows += [delayed(number, 1, 2), registered(3, number), registered(4, number),
                 released(number)]
    return rows + [
        processed(3), delayed(2100, 1, 2), *in_slots(wrote, 2100, U8, [1, 2]), registered(3, 2100),
        processed(4), *in_slots(holds, 2100, U8, [1, 2]), processed(3),
        *in_slots(holds, 2100, U8, [2, 1]),
    ]


def registrations_in_rows():
    """Pictures of four samples in a row. The difference between two runs is the contents of slot
    -1."""
    now, before = reference(2, 0), reference(2, 1)
    return [
        opened(), made(1, U8, 4), delayed(2, 1, 2), graph(3), made(4, U8, 4), registered(3, 2),
        *in_graph((both(now, before, 4),), 3), wrote(now, U8, TEN_TO_FORTY, 4),
        wrote(before, U8, [255] * 4, 4), processed(3), holds(4, U8, TEN_TO_FORTY, 4),
        holds(before, U8, TEN_TO_FORTY, 4), holds(now, U8, [255] * 4, 4),
        wrote(now, U8, [15] * 4, 4), confined(now, MIDDLE), processed(3),
        *shows(4, U8, [0, 4, 14, 0], MIDDLE, 4), *shows(before, U8, [0, 15, 15, 0], MIDDLE, 4),
        *shows(now, U8, TEN_TO_FORTY, WHOLE_ROW, 4), (wire.create_graph(CLIENT), name(5)),
    ]
