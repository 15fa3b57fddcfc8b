"""Sessions of several clients, and of opened and released contexts."""

from feqyldan import wire
from feqyldan.wire import (
    INVALID_DIMENSION, INVALID_FORMAT, INVALID_PARAMETERS, INVALID_REFERENCE, INVALID_VALUE, S16,
    SOBEL, U8)
from checks.sessions.rows import (
    CLIENT, CREATES, EXTREMES, NOTHING_FOUND, SAME, THIRDS, closed, confined, counted, delayed,
    found, graph, holds, made, name, on_graph, on_image, opened, ran, registered, wrote)


def on_objects():
    """Requests that need a context and name an object."""
    return (*on_image(1), *on_graph(1), wire.bitwise_not(CLIENT, 1, 2),
            wire.immediate(CLIENT, SOBEL, 1, None, None, out2=2), wire.release(CLIENT, 1),
            wire.read_distribution(CLIENT, 1), wire.read_min_max(CLIENT, 1),
            wire.age_delay(CLIENT, 1), wire.register_auto_aging(CLIENT, 2, 1))


def clients_have_their_own():
    """Three clients whose objects have the same names."""
    return [
        *(row for client, sample in ((1, 10), (7, 20)) for row in (
            opened(client), made(1, U8, client=client), wrote(1, U8, [sample], client=client))),
        (wire.create_lut(1, U8, range(256)), name(2)),
        ran(12, 1, 2, 1, INVALID_REFERENCE),
        holds(1, U8, [10], client=1), holds(1, U8, [20]),
        # Client numbers have two bytes.
        closed(256 + CLIENT, INVALID_REFERENCE), opened(256 + CLIENT),
        (wire.read_image(256 + CLIENT, 1), INVALID_REFERENCE), made(1, S16, client=256 + CLIENT),
        holds(1, U8, [20]),
    ]


def without_context():
    """Without a context, bodies are checked, and no name is valid."""
    return [
        opened(8), made(1, U8, client=8),
        *((request, INVALID_REFERENCE)
          for request in (*CREATES, *on_objects(), wire.release_context(CLIENT))),
        (wire.create_image(CLIENT, 4, 1, 1), INVALID_FORMAT),
        (wire.create_delay(CLIENT, 1, 17), INVALID_VALUE), confined(1, (1, 0, 0, 1), INVALID_VALUE),
        (wire.create_virtual_image(CLIENT, 1, 4), INVALID_FORMAT),
        (wire.create_virtual_image(CLIENT, 1, U8, 1, 8193), INVALID_DIMENSION),
        (wire.add_node(CLIENT, 1, 7, 1, 2, 3, amount=16), INVALID_VALUE),
        (wire.add_node(CLIENT, 1, 4, None, None, 2), INVALID_PARAMETERS),
        (wire.create_convolution(CLIENT, 4, 3, 0, [0] * 12), INVALID_DIMENSION),
        (wire.create_distribution(CLIENT, 0, 0, 1), INVALID_VALUE),
        opened(), (wire.open_context(CLIENT), INVALID_VALUE), made(1, U8),
        (wire.open_context(CLIENT), INVALID_VALUE), holds(1, U8, [0]),
    ]


def contexts_released():
    """After a release there is no context. The next one has no objects and starts at name 1. Other
    clients keep theirs."""
    return [
        closed(8, INVALID_REFERENCE), opened(), opened(8), made(1, U8), made(2, S16),
        delayed(3, 1, 2), graph(4), registered(4, 3), made(1, U8, client=8),
        wrote(1, U8, [20], client=8),
        closed(), closed(wanted=INVALID_REFERENCE),
        *((request, INVALID_REFERENCE)
          for request in (*CREATES, *on_objects(), wire.age_delay(CLIENT, 3),
                          wire.register_auto_aging(CLIENT, 4, 3))),
        holds(1, U8, [20], client=8),
        opened(), (wire.read_image(CLIENT, 1), INVALID_REFERENCE),
        (wire.open_context(CLIENT), INVALID_VALUE), made(1, S16), holds(1, S16, [0]),
        closed(8), closed(), opened(8), opened(), closed(), closed(wanted=INVALID_REFERENCE),
        opened(), made(1, U8), holds(1, U8, [0]),
        # Objects of the other kinds.
        (SAME, name(2)), (THIRDS, name(3)), (EXTREMES, name(4)), ran(21, 1, None, 3),
        ran(23, 1, None, 4), counted(3, [1, 0, 0]), closed(), opened(),
        (wire.read_distribution(CLIENT, 3), INVALID_REFERENCE),
        (wire.read_min_max(CLIENT, 4), INVALID_REFERENCE), (EXTREMES, name(1)), (THIRDS, name(2)),
        found(1, *NOTHING_FOUND), counted(2, [0, 0, 0]),
    ]


def first_names(request):
    """A create that comes first in a context, and first again in the next context."""
    return [
        (request, INVALID_REFERENCE), opened(), (wire.open_context(CLIENT), INVALID_VALUE),
        (request, name(1)), closed(), opened(), (request, name(1)),
    ]
