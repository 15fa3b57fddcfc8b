"""Sessions on delays and their slots."""

from feqyldan import wire
from feqyldan.wire import (
    INVALID_DIMENSION, INVALID_FORMAT, INVALID_GRAPH, INVALID_REFERENCE, INVALID_TYPE,
    INVALID_VALUE, S16, U32, U8, reference)
from checks.sessions.rows import (
    CLIENT, TURNED, aged, delayed, holds, in_slots, made, name, opened, ran, released, threshold,
    wrote)


def delays():
    """A slot keeps what was written to it. When the delay ages, each image moves to the next
    slot."""
    return [
        opened(), made(1, U8), wrote(1, U8, [9]), delayed(2, 1, 3),
        *in_slots(holds, 2, U8, [0, 0, 0]), holds(1, U8, [9]), *in_slots(wrote, 2, U8, [1, 2, 3]),
        *in_slots(holds, 2, U8, [1, 2, 3]), ran(4, reference(2, 1), None, 1), holds(1, U8, [253]),
        aged(2), *in_slots(holds, 2, U8, [3, 1, 2]), ran(4, reference(2, 1), None, 1),
        holds(1, U8, [254]), (wire.read_image(CLIENT, reference(2, 3)), INVALID_VALUE),
        (wire.read_image(CLIENT, 2), INVALID_TYPE),
        (wire.read_image(CLIENT, reference(1, 0)), INVALID_TYPE),
        # The image written to slot 0 is then in slot -1. After as many ageings as slots, all images
        # are back.
        wrote(reference(2, 0), U8, [4]), aged(2), *in_slots(holds, 2, U8, [2, 4, 1]),
        aged(2), *in_slots(holds, 2, U8, [1, 2, 4]), aged(2), aged(2),
        *in_slots(holds, 2, U8, [2, 4, 1]),
        # Delays of one slot and of sixteen.
        delayed(3, 1, 1), *in_slots(wrote, 3, U8, [5]), aged(3), *in_slots(holds, 3, U8, [5]),
        (wire.read_image(CLIENT, reference(3, 1)), INVALID_VALUE),
        made(4, S16), delayed(5, 4, 16), *in_slots(wrote, 5, S16, range(-8, 8)), aged(5),
        *in_slots(holds, 5, S16, [7, *range(-8, 7)]),
        (wire.read_image(CLIENT, reference(5, 16)), INVALID_VALUE),
        # Another client's delay.
        opened(8), aged(2, INVALID_REFERENCE, 8), made(1, U8, client=8), delayed(2, 1, 2, 8),
        *in_slots(wrote, 2, U8, [6, 7], 8), aged(2, client=8), *in_slots(holds, 2, U8, [7, 6], 8),
        *in_slots(holds, 2, U8, [2, 4, 1]),
        # Images of more than one sample.
        made(6, U32, 3, 2), delayed(7, 6, 2), wrote(reference(7, 0), U32, range(6), 3, 2),
        wrote(reference(7, 1), U32, range(9, 15), 3, 2), aged(7),
        holds(reference(7, 0), U32, range(9, 15), 3, 2),
        holds(reference(7, 1), U32, range(6), 3, 2),
        # A released delay is gone with its slots, and its name with it.
        released(2), aged(2, INVALID_REFERENCE), released(2, INVALID_REFERENCE),
        (wire.read_image(CLIENT, 2), INVALID_REFERENCE),
        (wire.read_image(CLIENT, reference(2, 0)), INVALID_REFERENCE), delayed(8, 1, 2),
        *in_slots(holds, 8, U8, [0, 0]), holds(1, U8, [254]),
    ]


def delays_as_exemplars():
    """Exemplars of delays: an image, and an image in a slot. Their samples don't count, and they
    may be released later."""
    return [
        opened(), made(1, S16, 2), wrote(1, S16, [7, -7], 2), delayed(2, 1, 2),
        wrote(reference(2, 1), S16, [1, 2], 2), delayed(3, reference(2, 1), 3),
        holds(reference(3, 2), S16, [0, 0], 2), holds(reference(2, 1), S16, [1, 2], 2),
        released(1), released(2), wrote(reference(3, 2), S16, [3, 4], 2), aged(3),
        holds(reference(3, 0), S16, [3, 4], 2), holds(reference(3, 2), S16, [0, 0], 2),
        delayed(4, reference(3, 0), 1), holds(reference(4, 0), S16, [0, 0], 2),
    ]


def nodes_on_slots():
    """1 is an image of one U8 sample, 2 a delay of two slots, which are as separate as two
    images."""
    now, before = reference(2, 0), reference(2, 1)
    return [
        opened(), made(1, U8), delayed(2, 1, 2), wrote(1, U8, [9]),
        *in_slots(wrote, 2, U8, [200, 10]), ran(8, now, before, 1), holds(1, U8, [190]),
        ran(4, before, None, now), *in_slots(holds, 2, U8, [245, 10]),
        ran(5, now, now, before), *in_slots(holds, 2, U8, [245, 234]),
        ran(4, 1, None, before), *in_slots(holds, 2, U8, [245, 65]),
        *(ran(4, slot, None, slot, INVALID_GRAPH) for slot in (now, before)),
        *(ran(1, now, before, slot, INVALID_GRAPH) for slot in (now, before)),
        aged(2), *in_slots(holds, 2, U8, [65, 245]), ran(4, before, None, now),
        *in_slots(holds, 2, U8, [10, 245]), ran(4, now, None, now, INVALID_GRAPH),
        # A table and a threshold on slots.
        (TURNED, name(3)), (threshold(U8), name(4)), ran(12, now, 3, 1), holds(1, U8, [245]),
        ran(11, before, 4, now), *in_slots(holds, 2, U8, [7, 245]),
    ]


def refusals_of_slots():
    """1 is an image of one U8 sample, 2 a delay of two slots; 3 is a table, 4 a threshold of U8, 5
    an image of S16; 9 doesn't exist."""
    slot, missing = reference(2, 0), reference(2, 2)
    of_image, of_table, of_threshold = reference(1, 0), reference(3, 0), reference(4, 0)
    # References that are not images, with their codes.
    named = ((9, INVALID_REFERENCE), (reference(9, 2), INVALID_REFERENCE), (2, INVALID_TYPE),
             (3, INVALID_TYPE), (4, INVALID_TYPE), (of_image, INVALID_TYPE),
             (reference(1, 254), INVALID_TYPE),
             (of_table, INVALID_TYPE), (of_threshold, INVALID_TYPE), (missing, INVALID_VALUE),
             (reference(2, 3), INVALID_VALUE), (reference(2, 254), INVALID_VALUE))
    return [
        opened(), made(1, U8), delayed(2, 1, 2), (TURNED, name(3)), (threshold(U8), name(4)),
        made(5, S16), *((wire.read_image(CLIENT, of), code) for of, code in named),
        *((wire.write_image(CLIENT, of, S16, 1, 1, b"\0\0"), code) for of, code in named),
        *((wire.create_delay(CLIENT, of, 2), code) for of, code in named),
        (wire.write_image(CLIENT, slot, S16, 1, 1, b"\0\0"), INVALID_FORMAT),
        (wire.write_image(CLIENT, slot, U8, 1, 2, b"\0\0"), INVALID_DIMENSION),
        aged(0, INVALID_REFERENCE), aged(9, INVALID_REFERENCE), aged(1, INVALID_TYPE),
        aged(3, INVALID_TYPE), aged(4, INVALID_TYPE),
        *(ran(4, of, None, 1, code) for of, code in named),
        *(ran(4, 1, None, of, code) for of, code in named),
        *(ran(1, slot, of, 1, code) for of, code in named),
        # Names before kinds, and kinds before slots.
        ran(4, missing, None, 9, INVALID_REFERENCE), ran(4, 9, None, missing, INVALID_REFERENCE),
        ran(4, 2, None, 9, INVALID_REFERENCE),
        *(ran(4, missing, None, of, INVALID_TYPE) for of in (2, 3, of_image)),
        *(ran(4, of, None, missing, INVALID_TYPE) for of in (2, 3, of_image)),
        # A reference to a slot counts as an image, even if the slot doesn't exist.
        *(ran(function, 1, of, slot, INVALID_TYPE) for function in (11, 12)
          for of in (slot, missing, 2, of_table, of_threshold)),
        ran(12, missing, missing, 1, INVALID_TYPE), ran(12, missing, 3, 1, INVALID_VALUE),
        ran(11, slot, 4, missing, INVALID_VALUE),
        # Slots before all later checks.
        ran(4, missing, None, missing, INVALID_VALUE), ran(1, slot, missing, slot, INVALID_VALUE),
        ran(4, 5, None, missing, INVALID_VALUE), ran(4, missing, None, 5, INVALID_VALUE),
        ran(4, slot, None, 5, INVALID_FORMAT), ran(13, slot, None, 5),
        *in_slots(holds, 2, U8, [0, 0]), holds(1, U8, [0]), holds(5, S16, [0]), made(6, U8),
    ]
