"""Sessions on valid rectangles."""

from feqyldan import wire
from feqyldan.wire import INVALID_REFERENCE, INVALID_TYPE, INVALID_VALUE, S16, U32, U8, reference
from checks.sessions.rows import (
    CLIENT, MIDDLE, NOWHERE, RANGES, TEN_TO_FORTY, TURNED, WHOLE_ROW, aged, confined, delayed, made,
    name, opened, ran, shows, threshold, told, wrote)


def valid_rectangles():
    """1 and 2 are images of four U8 samples in a row."""
    return [
        opened(), made(1, U8, 4), *shows(1, U8, [0] * 4, WHOLE_ROW, 4), made(2, U8, 4),
        wrote(1, U8, TEN_TO_FORTY, 4), *shows(1, U8, TEN_TO_FORTY, WHOLE_ROW, 4),
        confined(1, WHOLE_ROW), *shows(1, U8, TEN_TO_FORTY, WHOLE_ROW, 4),
        confined(1, MIDDLE),
        (wire.query_image(CLIENT, 1), bytes.fromhex("01 00 04 00 01 00 01 00 00 00 03 00 01")),
        *shows(1, U8, [0, 20, 30, 0], MIDDLE, 4),
        # A repetition changes nothing. An output is valid where its input is, and the input is
        # unchanged.
        confined(1, MIDDLE), *shows(1, U8, [0, 20, 30, 0], MIDDLE, 4),
        ran(4, 1, None, 2), *shows(2, U8, [0, 235, 225, 0], MIDDLE, 4),
        *shows(1, U8, [0, 20, 30, 0], MIDDLE, 4),
        # Pixels that become valid again are 0.
        confined(1, WHOLE_ROW), *shows(1, U8, [0, 20, 30, 0], WHOLE_ROW, 4), ran(4, 1, None, 2),
        *shows(2, U8, [255, 235, 225, 255], WHOLE_ROW, 4),
        # A rectangle of the same size elsewhere; one beyond the image, which changes nothing; and
        # the empty one.
        confined(1, (2, 0, 4, 1)), *shows(1, U8, [0, 0, 30, 0], (2, 0, 4, 1), 4),
        confined(1, (0, 0, 5, 1), INVALID_VALUE), *shows(1, U8, [0, 0, 30, 0], (2, 0, 4, 1), 4),
        confined(1, NOWHERE), *shows(1, U8, [0] * 4, NOWHERE, 4), ran(4, 1, None, 2),
        *shows(2, U8, [0] * 4, NOWHERE, 4), confined(1, WHOLE_ROW),
        *shows(1, U8, [0] * 4, WHOLE_ROW, 4),
        # A written image is wholly valid, even after the empty rectangle.
        confined(2, (3, 0, 4, 1)), wrote(2, U8, TEN_TO_FORTY, 4),
        *shows(2, U8, TEN_TO_FORTY, WHOLE_ROW, 4), confined(2, NOWHERE),
        wrote(2, U8, TEN_TO_FORTY, 4), *shows(2, U8, TEN_TO_FORTY, WHOLE_ROW, 4),
        # Each client has its own rectangles.
        opened(8), made(1, U8, 4, client=8), confined(1, MIDDLE, client=8),
        confined(2, MIDDLE, INVALID_REFERENCE, 8), told(1, U8, MIDDLE, 4, client=8),
        told(1, U8, WHOLE_ROW, 4),
    ]


def valid_blocks():
    """Rows and columns, in images of each format."""
    rows = [opened()]
    for number, fmt in enumerate((U8, S16, U32), 1):
        low, high = RANGES[fmt]
        samples = [*range(low + 1, low + 7), *range(high - 5, high + 1)]

        def kept(valid, *places):
            return shows(number, fmt,
                         [sample if at in places else 0 for at, sample in enumerate(samples)],
                         valid, 4, 3)

        rows += [made(number, fmt, 4, 3), wrote(number, fmt, samples, 4, 3),
                 *kept((0, 0, 4, 3), *range(12))]
        # Two rectangles that share two pixels, and a third one apart from these.
        for valid, places in (((0, 1, 3, 3), (4, 5, 6, 8, 9, 10)), ((1, 0, 4, 2), (5, 6)),
                              ((3, 2, 4, 3), ())):
            rows += [confined(number, valid), *kept(valid, *places)]
        # The last pixel, the first, a row and a column.
        for valid, places in (((3, 2, 4, 3), [11]), ((0, 0, 1, 1), [0]),
                              ((0, 2, 4, 3), range(8, 12)), ((1, 0, 2, 3), (1, 5, 9))):
            rows += [wrote(number, fmt, samples, 4, 3), confined(number, valid),
                     *kept(valid, *places)]
    return rows


def valid_outputs():
    """Outputs are valid where all inputs are, and 0 elsewhere, whatever their prior contents. 5 is
    a table, 6 a threshold."""
    first, second = (0, 0, 3, 1), (1, 0, 4, 1)
    rows = [
        opened(), made(1, U8, 4), made(2, U8, 4), made(3, U8, 4), made(4, S16, 4),
        (TURNED, name(5)), (threshold(U8), name(6)), wrote(1, U8, TEN_TO_FORTY, 4),
        wrote(2, U8, [1, 2, 3, 4], 4), confined(1, first), confined(2, second),
    ]
    for function, in2, out1, samples, valid in (
        (1, 2, 3, [0, 0, 2, 0], MIDDLE), (2, 2, 3, [0, 22, 31, 0], MIDDLE),
        (3, 2, 3, [0, 22, 29, 0], MIDDLE), (4, None, 3, [245, 235, 225, 0], first),
        (5, 2, 3, [0, 22, 33, 0], MIDDLE), (5, 2, 4, [0, 22, 33, 0], MIDDLE),
        (6, 2, 3, [0, 18, 27, 0], MIDDLE), (6, 2, 4, [0, 18, 27, 0], MIDDLE),
        (7, 2, 3, [0, 40, 90, 0], MIDDLE), (7, 2, 4, [0, 40, 90, 0], MIDDLE),
        (8, 2, 3, [0, 18, 27, 0], MIDDLE), (9, 2, 3, [0, 2, 3, 0], MIDDLE),
        (10, 2, 3, [0, 20, 30, 0], MIDDLE), (11, 6, 3, [3, 3, 3, 0], first),
        (12, 5, 3, [245, 235, 225, 0], first), (13, None, 4, [10, 20, 30, 0], first),
    ):
        fmt = U8 if out1 == 3 else S16
        for old in (WHOLE_ROW, (3, 0, 4, 1), NOWHERE):
            rows += [wrote(out1, fmt, [99] * 4, 4), confined(out1, old),
                     ran(function, 1, in2, out1), *shows(out1, fmt, samples, valid, 4)]
    # Two adjacent rectangles, and an empty one.
    for left, right in (((0, 0, 2, 1), (2, 0, 4, 1)), ((2, 0, 4, 1), (0, 0, 2, 1)),
                        (WHOLE_ROW, NOWHERE), (NOWHERE, (3, 0, 4, 1))):
        rows += [wrote(1, U8, TEN_TO_FORTY, 4), wrote(2, U8, TEN_TO_FORTY, 4), confined(1, left),
                 confined(2, right)]
        for function in (1, 2, 3, 5, 6, 7, 8, 9, 10):
            rows += [wrote(3, U8, [99] * 4, 4), ran(function, 1, 2, 3),
                     *shows(3, U8, [0] * 4, NOWHERE, 4)]
    # Rows and columns of inputs, which are unchanged; and a node that reads one image twice.
    block, one, other = [*range(1, 13)], (0, 0, 3, 2), (1, 1, 4, 3)
    return rows + [
        made(7, U8, 4, 3), made(8, U8, 4, 3), made(9, U8, 4, 3), wrote(7, U8, block, 4, 3),
        wrote(8, U8, block, 4, 3), confined(7, one), confined(8, other), ran(2, 7, 8, 9),
        *shows(9, U8, [0] * 5 + [6, 7] + [0] * 5, (1, 1, 3, 2), 4, 3),
        *shows(7, U8, [1, 2, 3, 0, 5, 6, 7, 0, 0, 0, 0, 0], one, 4, 3),
        *shows(8, U8, [0] * 5 + [6, 7, 8, 0, 10, 11, 12], other, 4, 3),
        ran(2, 8, 8, 9), *shows(9, U8, [0] * 5 + [6, 7, 8, 0, 10, 11, 12], other, 4, 3),
        told(7, U8, one, 4, 3),
    ]


def valid_in_delays():
    """1 is an image of four U8 samples in a row, 2 a delay of three slots. A rectangle moves with
    its image when the delay ages."""
    slots, whole = [reference(2, k) for k in range(3)], (TEN_TO_FORTY, WHOLE_ROW)
    part, none = ([0, 20, 30, 0], MIDDLE), ([0] * 4, NOWHERE)

    def show(*images):
        return [row for slot, image in zip(slots, images) for row in shows(slot, U8, *image, 4)]

    return [
        opened(), made(1, U8, 4), wrote(1, U8, TEN_TO_FORTY, 4), confined(1, MIDDLE),
        delayed(2, 1, 3),
        # The slots are new images, whatever the exemplar's rectangle.
        *show(*[([0] * 4, WHOLE_ROW)] * 3), *(wrote(slot, U8, TEN_TO_FORTY, 4) for slot in slots),
        confined(slots[0], MIDDLE), *show(part, whole, whole), confined(slots[1], NOWHERE),
        *show(part, none, whole), aged(2), *show(whole, part, none), aged(2),
        *show(none, whole, part), aged(2), *show(part, none, whole),
        # A written slot is wholly valid again, and slots that are read are unchanged.
        wrote(slots[0], U8, TEN_TO_FORTY, 4), *show(whole, none, whole), ran(4, 1, None, slots[1]),
        *show(whole, ([0, 235, 225, 0], MIDDLE), whole), aged(2),
        *show(whole, whole, ([0, 235, 225, 0], MIDDLE)), ran(1, slots[0], slots[2], slots[1]),
        *show(whole, ([0, 0, 0, 0], MIDDLE), ([0, 235, 225, 0], MIDDLE)),
        confined(slots[0], (0, 0, 1, 1)), ran(2, slots[0], slots[2], 1),
        *shows(1, U8, [0] * 4, NOWHERE, 4),
        # Another delay, made from a slot, and a delay of one slot.
        delayed(3, slots[2], 1), *shows(reference(3, 0), U8, [0] * 4, WHOLE_ROW, 4),
        wrote(reference(3, 0), U8, TEN_TO_FORTY, 4), confined(reference(3, 0), MIDDLE), aged(3),
        *shows(reference(3, 0), U8, *part, 4),
        *show(([10, 0, 0, 0], (0, 0, 1, 1)), ([0, 0, 0, 0], MIDDLE), ([0, 235, 225, 0], MIDDLE)),
    ]


def refusals_of_rectangles():
    """1 is an image of four by two U8 samples, 2 a delay of two slots; 3 is a table, 4 a threshold;
    9 doesn't exist."""
    part = (1, 0, 3, 2)
    named = ((9, INVALID_REFERENCE), (0, INVALID_REFERENCE), (reference(9, 2), INVALID_REFERENCE),
             (2, INVALID_TYPE), (3, INVALID_TYPE), (4, INVALID_TYPE),
             (reference(1, 0), INVALID_TYPE),
             (reference(3, 0), INVALID_TYPE), (reference(4, 254), INVALID_TYPE),
             (reference(2, 2), INVALID_VALUE), (reference(2, 254), INVALID_VALUE))
    left = [*shows(1, U8, [0, 2, 3, 0, 0, 6, 7, 0], part, 4, 2),
            *shows(reference(2, 1), U8, [0, 2, 3, 0, 0, 6, 7, 0], part, 4, 2)]
    return [
        opened(), made(1, U8, 4, 2), delayed(2, 1, 2), (TURNED, name(3)), (threshold(U8), name(4)),
        *(row for of in (1, reference(2, 1))
          for row in (wrote(of, U8, range(1, 9), 4, 2), confined(of, part))), *left,
        *((wire.query_image(CLIENT, of), code) for of, code in named),
        # An inverted rectangle before the image, and the image before a rectangle beyond it.
        *(confined(of, (2, 0, 1, 1), INVALID_VALUE) for of, _ in named),
        *(confined(of, (0, 0, 5, 3), code) for of, code in named),
        *(confined(of, NOWHERE, code) for of, code in named), *left,
        *(confined(of, beyond, INVALID_VALUE) for of in (1, reference(2, 1)) for beyond in (
            (0, 0, 5, 2), (0, 0, 4, 3), (0, 0, 5, 3), (0, 0, 2, 4), (4, 0, 5, 1), (0, 2, 1, 3),
            (0, 0, 260, 2), (0, 0, 4, 258), (65534, 65534, 65535, 65535), (0, 0, 65535, 65535),
            (2, 1, 1, 2), (1, 1, 1, 1))),
        *left, confined(1, (3, 1, 4, 2)), *shows(1, U8, [0] * 8, (3, 1, 4, 2), 4, 2), made(5, U8),
    ]
