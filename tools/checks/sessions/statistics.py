"""Sessions on histograms, integral images and extremes."""

from feqyldan import wire
from feqyldan.wire import (
    HISTOGRAM, INTEGRAL, INVALID_REFERENCE, MIN_MAX_LOCATION, S16, U32, U8, reference)
from checks.sessions.rows import (
    CLIENT, EXTREMES, NOTHING_FOUND, NOWHERE, REPLICATE, THIRDS, UNDEFINED, aged, closed, confined,
    constant, counted, delayed, distribution, extremes, found, holds, in_slots, made, name, opened,
    ran, released, shows, wrote)
from checks.sessions.windows import CENTRE, ONE_TO_NINE, WHOLE_SQUARE, centred


def histograms():
    """Each run counts from 0, and counts only valid samples. Bin numbers are rounded down."""
    rows = [
        opened(), made(1, U8, 3), (THIRDS, name(2)), counted(2, [0] * 3),
        wrote(1, U8, [85, 86, 255], 3), ran(HISTOGRAM, 1, None, 2),
        (wire.read_distribution(CLIENT, 2),
         bytes.fromhex("00 03 00 00 00 01 00 00 00 01 00 00 00 01")),
        ran(HISTOGRAM, 1, None, 2), counted(2, [1, 1, 1]), wrote(1, U8, [0, 0, 0], 3),
        counted(2, [1, 1, 1]), ran(HISTOGRAM, 1, None, 2), counted(2, [3, 0, 0]),
        confined(1, (1, 0, 3, 1)), counted(2, [3, 0, 0]), ran(HISTOGRAM, 1, None, 2, **REPLICATE),
        counted(2, [2, 0, 0]), confined(1, NOWHERE), ran(HISTOGRAM, 1, None, 2, **constant(9)),
        counted(2, [0] * 3), ran(HISTOGRAM, 1, None, 2), counted(2, [0] * 3),
        made(3, U8, 6), wrote(3, U8, [9, 10, 12, 13, 19, 20], 6), distribution(4, 4, 10, 10),
        ran(HISTOGRAM, 3, None, 4), counted(4, [2, 1, 0, 1]), ran(HISTOGRAM, 3, None, 4),
        counted(4, [2, 1, 0, 1]), made(5, U8, 256), wrote(5, U8, range(256), 256),
    ]
    for number, (bins, offset, range_, counts) in enumerate((
        (256, 0, 256, [1] * 256), (1, 0, 256, [256]), (1, 255, 256, [1]), (2, 255, 256, [1, 0]),
        (256, 200, 1, [1] + [0] * 255), (2, 254, 2, [1, 1]), (3, 0, 4, [2, 1, 1]),
        (5, 10, 3, [1, 1, 0, 1, 0]), (4, 128, 256, [64, 64, 0, 0]),
        (7, 3, 256, [37, 37, 36, 37, 36, 37, 33]), (255, 0, 256, [2] + [1] * 254),
        (256, 0, 255, [1] * 255 + [0]), (1, 0, 1, [1]), (256, 255, 256, [1] + [0] * 255),
    ), 6):
        rows += [distribution(number, bins, offset, range_), counted(number, [0] * bins),
                 ran(HISTOGRAM, 5, None, number), counted(number, counts)]
    return rows


def integrals():
    """1 is an image of 2 by 2 U8 samples, 2 of U32, 3 of 3 by 3 U8 samples, 4 of U32. Invalid
    samples are never counted."""
    rows = [
        opened(), made(1, U8, 2, 2), made(2, U32, 2, 2), made(3, U8, 3, 3), made(4, U32, 3, 3),
        wrote(1, U8, [1, 2, 3, 4], 2, 2), ran(INTEGRAL, 1, None, 2),
        *shows(2, U32, [1, 3, 4, 10], (0, 0, 2, 2), 2, 2),
    ]
    for border in (UNDEFINED, REPLICATE, constant(200)):
        for valid, samples in (
            (WHOLE_SQUARE, [1, 3, 6, 5, 12, 21, 12, 27, 45]),
            ((1, 1, 3, 3), [0] * 4 + [5, 11, 0, 13, 28]),
            ((0, 0, 2, 3), [1, 3, 0, 5, 12, 0, 12, 27, 0]), ((1, 0, 3, 1), [0, 2, 5] + [0] * 6),
            (CENTRE, centred(5)), (NOWHERE, [0] * 9),
        ):
            rows += [wrote(3, U8, ONE_TO_NINE, 3, 3), confined(3, valid),
                     wrote(4, U32, [2**32 - 1] * 9, 3, 3),
                     confined(4, (2, 0, 3, 1)), ran(INTEGRAL, 3, None, 4, **border),
                     *shows(4, U32, samples, valid, 3, 3)]
    return rows + [
        made(5, U8, 8192), made(6, U32, 8192), wrote(5, U8, [255] * 8192, 8192),
        ran(INTEGRAL, 5, None, 6), holds(6, U32, range(255, 255 * 8193, 255), 8192),
        made(7, U8, 1, 8192), made(8, U32, 1, 8192), wrote(7, U8, [255] * 8192, 1, 8192),
        ran(INTEGRAL, 7, None, 8), holds(8, U32, range(255, 255 * 8193, 255), 1, 8192),
    ]


def places_of_extremes():
    """1 is an image of 2 by 2 U8 samples, 2 extremes. The first pixel is the first in row order."""
    rows = [
        opened(), made(1, U8, 2, 2), (EXTREMES, name(2)), found(2, *NOTHING_FOUND),
        wrote(1, U8, [7, 7, 3, 7], 2, 2), ran(MIN_MAX_LOCATION, 1, None, 2),
        found(2, 3, 7, 1, 3, 0, 1, 0, 0),
        (wire.read_min_max(CLIENT, 2),
         bytes.fromhex("0003 0007 0000 0001 0000 0003 0000 0001 0000 0000")),
        confined(1, NOWHERE), found(2, 3, 7, 1, 3, 0, 1, 0, 0), ran(MIN_MAX_LOCATION, 1, None, 2),
        (wire.read_min_max(CLIENT, 2), bytes(20)), confined(1, (0, 0, 2, 2)),
        ran(MIN_MAX_LOCATION, 1, None, 2), found(2, 0, 0, 4, 4, 0, 0, 0, 0), made(3, U8, 4, 3),
        made(4, S16, 4, 3),
    ]
    samples = [5, 9, 1, 9, 9, 1, 5, 1, 1, 5, 9, 5]
    for valid, numbers in (
        ((0, 0, 4, 3), (1, 9, 4, 4, 2, 0, 1, 0)), ((0, 0, 2, 3), (1, 9, 2, 2, 1, 1, 1, 0)),
        ((1, 1, 4, 3), (1, 9, 2, 1, 1, 1, 2, 2)), ((2, 1, 3, 2), (5, 5, 1, 1, 2, 1, 2, 1)),
        ((0, 1, 1, 3), (1, 9, 1, 1, 0, 2, 0, 1)), ((3, 2, 4, 3), (5, 5, 1, 1, 3, 2, 3, 2)),
        (NOWHERE, NOTHING_FOUND),
    ):
        for image, fmt, shift in ((3, U8, 0), (4, S16, 0), (4, S16, -7), (4, S16, -32769),
                                  (4, S16, 32758)):
            moved = [numbers[0] + shift, numbers[1] + shift,
                     *numbers[2:]] if numbers[2] else numbers
            rows += [wrote(image, fmt, [sample + shift for sample in samples], 4, 3),
                     confined(image, valid),
                     ran(MIN_MAX_LOCATION, image, None, 2), found(2, *moved)]
    return rows + [
        made(5, U8, 8192), wrote(5, U8, [9] * 8191 + [8], 8192),
        ran(MIN_MAX_LOCATION, 5, None, 2, **REPLICATE), found(2, 8, 9, 1, 8191, 8191, 0, 0, 0),
        made(6, S16, 1, 8192), wrote(6, S16, [-1] * 8191 + [0], 1, 8192),
        ran(MIN_MAX_LOCATION, 6, None, 2, **constant(1)), found(2, -1, 0, 8191, 1, 0, 0, 0, 8191),
    ]


def statistics_of_slots():
    """1 is an image of one U8 sample, 2 a delay of two slots, 3 a distribution, 4 extremes. Client
    8 has its own objects."""
    now, before = reference(2, 0), reference(2, 1)
    eight = (wire.immediate(8, HISTOGRAM, 1, None, 3),
             wire.immediate(8, MIN_MAX_LOCATION, 1, None, 4))
    return [
        opened(), made(1, U8), delayed(2, 1, 2), (THIRDS, name(3)), (EXTREMES, name(4)),
        *in_slots(wrote, 2, U8, [200, 10]), opened(8), made(1, U8, client=8), delayed(2, 1, 1, 8),
        distribution(3, 2, 0, 256, 8), extremes(4, 8), wrote(1, U8, [255], client=8),
        ran(HISTOGRAM, now, None, 3), ran(MIN_MAX_LOCATION, before, None, 4), counted(3, [0, 0, 1]),
        found(4, 10, 10, 1, 1, 0, 0, 0, 0), counted(3, [0, 0], client=8),
        found(4, *NOTHING_FOUND, client=8), *((request, b"") for request in eight),
        counted(3, [0, 1], client=8), found(4, 255, 255, 1, 1, 0, 0, 0, 0, client=8),
        counted(3, [0, 0, 1]), found(4, 10, 10, 1, 1, 0, 0, 0, 0), aged(2),
        ran(HISTOGRAM, now, None, 3), counted(3, [1, 0, 0]), *in_slots(holds, 2, U8, [10, 200]),
        # Released objects are gone, and another client's objects aren't.
        released(3), (wire.read_distribution(CLIENT, 3), INVALID_REFERENCE),
        ran(HISTOGRAM, now, None, 3, INVALID_REFERENCE), released(4),
        (wire.read_min_max(CLIENT, 4), INVALID_REFERENCE),
        ran(MIN_MAX_LOCATION, now, None, 4, INVALID_REFERENCE), counted(3, [0, 1], client=8),
        (EXTREMES, name(5)), (THIRDS, name(6)), found(5, *NOTHING_FOUND),
        counted(6, [0] * 3), closed(8), (wire.read_distribution(8, 3), INVALID_REFERENCE),
        (wire.read_min_max(8, 4), INVALID_REFERENCE),
    ]
