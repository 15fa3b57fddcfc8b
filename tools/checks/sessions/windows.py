"""Sessions on window functions, convolutions and Sobel's two outputs."""

from feqyldan.wire import (
    BOX, CONVOLVE, DILATE, ERODE, GAUSSIAN, MEDIAN, MULTIPLE_WRITERS, S16, SOBEL, U8, reference)
from checks.sessions.rows import (
    MIDDLE, NOWHERE, REPLICATE, SAME, TEN_TO_FORTY, UNDEFINED, WHOLE_ROW, aged, confined, constant,
    convolution, delayed, holds, made, name, opened, ran, shows, wrote)

ONE_TO_NINE = [*range(1, 10)]
WHOLE_SQUARE, CENTRE = (0, 0, 3, 3), (1, 1, 2, 2)


def centred(sample):
    return [0] * 4 + [sample] + [0] * 4


def windows():
    """1 and 2 are images of 2 by 2 U8 samples, 3 and 4 of 3 by 3, 5 and 6 of one."""
    rows = [
        opened(), made(1, U8, 2, 2), made(2, U8, 2, 2), made(3, U8, 3, 3), made(4, U8, 3, 3),
        made(5, U8), made(6, U8), wrote(1, U8, TEN_TO_FORTY, 2, 2), wrote(3, U8, ONE_TO_NINE, 3, 3),
        wrote(5, U8, [7]),
    ]
    for border, samples, valid in (
        (UNDEFINED, [0] * 4, NOWHERE), (REPLICATE, [20, 23, 26, 30], (0, 0, 2, 2)),
        (constant(0), [11] * 4, (0, 0, 2, 2)), (constant(255), [152] * 4, (0, 0, 2, 2)),
    ):
        rows += [wrote(2, U8, [99] * 4, 2, 2), ran(BOX, 1, None, 2, **border),
                 *shows(2, U8, samples, valid, 2, 2)]
    for function, centre, replicated, beside_100s, one_beside_100s in (
        (BOX, 5, [2, 3, 3, 4, 5, 5, 6, 7, 7], [56, 35, 57, 36, 5, 37, 58, 37, 58], 89),
        (GAUSSIAN, 5, [2, 2, 3, 4, 5, 5, 6, 7, 8], [45, 27, 45, 28, 5, 29, 47, 30, 48], 76),
        (MEDIAN, 5, [2, 3, 3, 4, 5, 6, 7, 7, 8], [100, 5, 100, 7, 5, 8, 100, 8, 100], 100),
        (ERODE, 1, [1, 1, 2, 1, 1, 2, 4, 4, 5], [1, 1, 2, 1, 1, 2, 4, 4, 5], 7),
        (DILATE, 9, [5, 6, 6, 8, 9, 9, 8, 9, 9], [100] * 4 + [9] + [100] * 4, 100),
    ):
        for border, samples, valid, one, one_valid in (
            (UNDEFINED, centred(centre), CENTRE, 0, NOWHERE),
            (REPLICATE, replicated, WHOLE_SQUARE, 7, (0, 0, 1, 1)),
            (constant(100), beside_100s, WHOLE_SQUARE, one_beside_100s, (0, 0, 1, 1)),
        ):
            rows += [wrote(4, U8, [99] * 9, 3, 3), ran(function, 3, None, 4, **border),
                     *shows(4, U8, samples, valid, 3, 3)]
            rows += [wrote(6, U8, [99]), ran(function, 5, None, 6, **border),
                     *shows(6, U8, [one], one_valid, 1)]
    # The median of the rows' medians would be 4.
    return rows + [
        *shows(1, U8, TEN_TO_FORTY, (0, 0, 2, 2), 2, 2),
        *shows(3, U8, ONE_TO_NINE, WHOLE_SQUARE, 3, 3),
        wrote(3, U8, [1, 2, 9, 3, 4, 8, 5, 6, 7], 3, 3), ran(MEDIAN, 3, None, 4),
        *shows(4, U8, centred(5), CENTRE, 3, 3),
    ]


def windows_beside_the_valid():
    """1 and 2 are rows of four U8 samples, 4 and 5 of S16, 3 is a convolution. The border begins at
    the valid rectangle."""
    middle = [20, 30]
    rows = [
        opened(), made(1, U8, 4), made(2, U8, 4), (SAME, name(3)), made(4, S16, 4), made(5, S16, 4),
        wrote(1, U8, TEN_TO_FORTY, 4),
        confined(1, MIDDLE), *shows(1, U8, [0, 20, 30, 0], MIDDLE, 4),
    ]
    for function, in2, replicated, beside_100s in (
        (BOX, None, [23, 26], [83, 83]), (GAUSSIAN, None, [22, 27], [71, 72]),
        (MEDIAN, None, middle, [100, 100]), (ERODE, None, [20, 20], [20, 20]),
        (DILATE, None, [30, 30], [100, 100]), (CONVOLVE, 3, middle, middle),
    ):
        for border, samples, valid in (
            (UNDEFINED, [0, 0], NOWHERE), (REPLICATE, replicated, MIDDLE),
            (constant(100), beside_100s, MIDDLE),
        ):
            rows += [wrote(2, U8, [99] * 4, 4), ran(function, 1, in2, 2, **border),
                     *shows(2, U8, [0, *samples, 0], valid, 4)]
    for border, across in ((REPLICATE, [40, 40]), (constant(100), [-140, 160])):
        rows += [wrote(named, S16, [99] * 4, 4) for named in (4, 5)]
        rows += [ran(SOBEL, 1, None, 4, out2=5, **border),
                 *shows(4, S16, [0, *across, 0], MIDDLE, 4),
                 *shows(5, S16, [0] * 4, MIDDLE, 4)]
    # Pixels that become valid again are 0, and are used.
    rows += [confined(1, WHOLE_ROW), ran(DILATE, 1, None, 2), *shows(2, U8, [0] * 4, NOWHERE, 4),
             ran(ERODE, 1, None, 2, **REPLICATE), *shows(2, U8, [0] * 4, WHOLE_ROW, 4),
             ran(DILATE, 1, None, 2, **REPLICATE), *shows(2, U8, [20, 30, 30, 30], WHOLE_ROW, 4)]
    return rows + nothing_valid() + blocks_valid()


def nothing_valid():
    """1 and 2 are as above, 3 is a convolution. Without valid pixels no border mode makes any
    valid."""
    rows = [confined(1, NOWHERE)]
    for border in (UNDEFINED, REPLICATE, constant(0), constant(255)):
        for function in (BOX, GAUSSIAN, MEDIAN, ERODE, DILATE, CONVOLVE):
            in2 = 3 if function == CONVOLVE else None
            rows += [wrote(2, U8, [99] * 4, 4), ran(function, 1, in2, 2, **border),
                     *shows(2, U8, [0] * 4, NOWHERE, 4)]
        rows += [*(wrote(named, S16, [99] * 4, 4) for named in (4, 5)),
                 ran(SOBEL, 1, None, 4, out2=5, **border)]
        rows += [row for named in (4, 5) for row in shows(named, S16, [0] * 4, NOWHERE, 4)]
    return rows


def blocks_valid():
    """6 and 7 are images of 5 by 4 U8 samples. With UNDEFINED the rectangle loses a row and a
    column on each side."""
    rows = [made(6, U8, 5, 4), made(7, U8, 5, 4)]
    for valid, left, samples in (
        ((0, 0, 5, 4), (1, 1, 4, 3), {6: 13, 7: 14, 8: 15, 11: 18, 12: 19, 13: 20}),
        ((1, 0, 5, 4), (2, 1, 4, 3), {7: 14, 8: 15, 12: 19, 13: 20}),
        ((1, 0, 4, 3), (2, 1, 3, 2), {7: 14}), ((1, 1, 4, 4), (2, 2, 3, 3), {12: 19}),
        ((1, 0, 3, 4), NOWHERE, {}), ((0, 1, 5, 3), NOWHERE, {}),
    ):
        kept = [samples.get(place, 0) for place in range(20)]
        rows += [wrote(6, U8, range(1, 21), 5, 4), confined(6, valid),
                 wrote(7, U8, [99] * 20, 5, 4),
                 confined(7, (4, 3, 5, 4)), ran(DILATE, 6, None, 7),
                 *shows(7, U8, kept, left, 5, 4)]
    return rows


def one_at(place, count=9, value=1):
    return [value if at == place else 0 for at in range(count)]


def convolutions():
    """The kernel is rotated by half a turn: each coefficient applies to the opposite sample of the
    window."""
    rows = [opened(), made(1, U8, 3, 3), made(2, S16, 3, 3), made(3, U8, 3, 3),
            wrote(1, U8, ONE_TO_NINE, 3, 3)]
    number = 4
    for place, centre in ((0, 9), (1, 8), (2, 7), (3, 6), (4, 5), (5, 4), (6, 3), (7, 2), (8, 1)):
        rows.append(convolution(number, 3, 3, 0, one_at(place)))
        for out1, fmt in ((2, S16), (3, U8)):
            rows += [wrote(out1, fmt, [99] * 9, 3, 3), ran(CONVOLVE, 1, number, out1),
                     *shows(out1, fmt, centred(centre), CENTRE, 3, 3)]
        number += 1
    # More columns than rows, and more rows than columns.
    for columns, height in ((5, 3), (3, 5), (7, 3), (9, 5), (3, 9)):
        size, image = columns * height, number
        centre = (columns // 2, height // 2, columns // 2 + 1, height // 2 + 1)
        rows += [made(image, U8, columns, height), made(image + 1, U8, columns, height),
                 wrote(image, U8, range(1, size + 1), columns, height)]
        for at, (place,
                 sample) in enumerate(((0, size), (1, size - 1), (columns, size - columns),
                                       (size - 1, 1)),
                                      number + 2):
            rows += [convolution(at, columns, height, 0, one_at(place, size)),
                     ran(CONVOLVE, image, at, image + 1),
                     *shows(image + 1, U8, one_at(size // 2, size, sample), centre, columns,
                            height)]
        number += 6
    return rows + scales(number)


def scales(number):
    """The result is divided by the scale, rounded toward zero, and then narrowed. The next name is
    `number`."""
    one, short, byte = number, number + 1, number + 2
    rows = [made(one, U8), wrote(one, U8, [1]), made(short, S16), made(byte, U8)]
    number += 3
    for value, exponent, to_short, to_byte in (
        (-3, 1, -1, 0), (-3, 31, 0, 0), (3, 1, 1, 1), (-3, 0, -3, 0), (511, 1, 255, 255),
        (512, 1, 256, 255), (-1, 1, 0, 0), (-32768, 0, -32768, 0), (32767, 0, 32767, 255),
        (-32768, 15, -1, 0), (32767, 15, 0, 0), (-32768, 16, 0, 0),
    ):
        rows += [convolution(number, 3, 3, exponent, one_at(4, 9, value)),
                 ran(CONVOLVE, one, number, short, **REPLICATE),
                 ran(CONVOLVE, one, number, byte, **REPLICATE), holds(short, S16, [to_short]),
                 holds(byte, U8, [to_byte])]
        number += 1
    return rows + greatest_sums(number)


def greatest_sums(number):
    """81 times 255 times -32768, and the largest positive sum."""
    image, short, byte = number, number + 1, number + 2
    rows = [made(image, U8, 9, 9), wrote(image, U8, [255] * 81, 9, 9), made(short, S16, 9, 9),
            made(byte, U8, 9, 9)]
    number += 3
    for value, exponent, to_short, to_byte in (
        (-32768, 0, -32768, 0), (-32768, 15, -20655, 0), (-32768, 31, 0, 0), (32767, 0, 32767, 255),
        (32767, 15, 20654, 255), (32767, 31, 0, 0), (-1, 0, -20655, 0), (1, 0, 20655, 255),
        (1, 6, 322, 255), (1, 7, 161, 161),
    ):
        rows.append(convolution(number, 9, 9, exponent, [value] * 81))
        for out1, fmt, sample in ((short, S16, to_short), (byte, U8, to_byte)):
            rows += [ran(CONVOLVE, image, number, out1),
                     *shows(out1, fmt, one_at(40, 81, sample), (4, 4, 5, 5), 9, 9)]
        number += 1
    return rows


def two_outputs():
    """1 is an image of 3 by 3 U8 samples, 2 and 3 of S16, 4 a delay of two slots like 2."""
    slots = [reference(4, 0), reference(4, 1)]
    across, down = [4, 8, 4] * 3, [12] * 3 + [24] * 3 + [12] * 3
    return [
        opened(), made(1, U8, 3, 3), made(2, S16, 3, 3), made(3, S16, 3, 3), delayed(4, 2, 2),
        wrote(1, U8, ONE_TO_NINE, 3, 3), ran(SOBEL, 1, None, 2, out2=3),
        *shows(2, S16, centred(8), CENTRE, 3, 3), *shows(3, S16, centred(24), CENTRE, 3, 3),
        ran(SOBEL, 1, None, 3, out2=2, **REPLICATE), *shows(3, S16, across, WHOLE_SQUARE, 3, 3),
        *shows(2, S16, down, WHOLE_SQUARE, 3, 3),
        # An output that isn't requested is unchanged.
        wrote(3, S16, [99] * 9, 3, 3), confined(3, (0, 1, 3, 3)), ran(SOBEL, 1, None, None, out2=2),
        *shows(2, S16, centred(24), CENTRE, 3, 3), ran(SOBEL, 1, None, 2),
        *shows(2, S16, centred(8), CENTRE, 3, 3),
        *shows(3, S16, [0] * 3 + [99] * 6, (0, 1, 3, 3), 3, 3),
        # Two slots of one delay are two images, and one slot is one.
        ran(SOBEL, 1, None, slots[1], out2=slots[0], **REPLICATE),
        holds(slots[1], S16, across, 3, 3), holds(slots[0], S16, down, 3, 3),
        *(ran(SOBEL, 1, None, of, MULTIPLE_WRITERS, out2=of) for of in (2, *slots)),
        holds(slots[1], S16, across, 3, 3), holds(slots[0], S16, down, 3, 3),
        holds(2, S16, centred(8), 3, 3), aged(4), holds(slots[0], S16, across, 3, 3),
        holds(slots[1], S16, down, 3, 3),
        # The greatest value of both outputs, and the least.
        wrote(1, U8, [0, 0, 255] * 3, 3, 3), ran(SOBEL, 1, None, 2, out2=3),
        *shows(2, S16, centred(1020), CENTRE, 3, 3), *shows(3, S16, centred(0), CENTRE, 3, 3),
        wrote(1, U8, [255] * 3 + [9] * 3 + [0] * 3, 3, 3), ran(SOBEL, 1, None, 2, out2=3),
        *shows(2, S16, centred(0), CENTRE, 3, 3), *shows(3, S16, centred(-1020), CENTRE, 3, 3),
        ran(SOBEL, 1, None, 2, out2=3, **constant(255)),
        holds(2, S16, [-246, 0, 246, -747, 0, 747, -756, 0, 756], 3, 3),
    ]
