"""Sessions on images and on the number of objects: written and read samples, also in bodies of more
than 64 bytes, released objects, full contexts, and pictures of all sizes."""

from feqyldan import wire
from feqyldan.wire import (
    INVALID_DIMENSION, INVALID_FORMAT, INVALID_GRAPH, INVALID_PARAMETERS, INVALID_REFERENCE,
    INVALID_TYPE, INVALID_VALUE, NOT_BITS, NO_RESOURCES, S16, U32, U8, reference)
from checks.sessions.rows import (
    CLIENT, CREATES, EXTREMES, NOTHING_FOUND, NOWHERE, RANGES, SAME, THIRDS, TURNED, confined,
    delayed, found, graph, holds, holds_text, made, name, opened, picture, ran, released, shows,
    threshold, told, virtual, wrote, wrote_text)
from checks.sessions.texts import raw


def pictures():
    """A read returns the last written samples."""
    return [
        opened(), made(1, U8, 3, 1), made(2, S16, 1, 3), made(3, U32, 2, 1),
        wrote(1, U8, [7, 0, 255], 3, 1), wrote(2, S16, [-2, -32768, 258], 1, 3),
        wrote(3, U32, [4_294_967_294, 16_909_060], 2, 1), holds(1, U8, [7, 0, 255], 3, 1),
        holds(2, S16, [-2, -32768, 258], 1, 3), holds(3, U32, [4_294_967_294, 16_909_060], 2, 1),
        wrote(1, U8, [1, 2, 3], 3, 1), holds(1, U8, [1, 2, 3], 3, 1),
    ]


def pictures_in_long_bodies():
    """Pictures and texts in bodies of more than 64 bytes, each replacing the contents of its image.
    A refused body of the same length changes nothing."""
    sizes = (1, U8, 13, 5), (2, S16, 7, 5), (3, U32, 5, 4)
    rows = [opened(), *(made(*image) for image in sizes)]
    for seed in 1, 2:
        for number, fmt, *size in sizes:
            samples = samples_from(seed, fmt, *size)
            rows += [wrote(number, fmt, samples, *size), holds(number, fmt, samples, *size)]
    body = picture(U8, 13, 5, [9] * 65)
    rows += [(wire.frame(CLIENT, wire.WRITE_IMAGE, wire.operand(of) + sent), code)
             for of, sent, code in (
                 (4, body, INVALID_REFERENCE), (2, body, INVALID_FORMAT),
                 (1, picture(U8, 5, 13, [9] * 65), INVALID_DIMENSION),
                 (1, body + b"\x09", INVALID_PARAMETERS))]
    text = raw(13, 5, samples_from(3, U8, 13, 5))
    # The last sample is above maxval.
    faulty = b"P5\n13 5\n254\n" + bytes(64) + b"\xff"
    return [
        *rows, holds(1, U8, samples_from(2, U8, 13, 5), 13, 5), wrote_text(1, text),
        holds_text(1, text), wrote_text(1, faulty, INVALID_VALUE), holds_text(1, text),
    ]


def samples_from(seed, fmt, width, height):
    low, high = RANGES[fmt]
    return [low + (seed + at * 40_503) % (high - low + 1) for at in range(width * height)]


def refusals_of_pictures():
    """WriteImage and ReadImage of an image of another format or size, and of other objects."""
    return [
        opened(), made(1, U8), (TURNED, name(2)),
        *((wire.write_image(CLIENT, to, fmt, width, 1, bytes([10]) * width * fmt), code)
          for to, fmt, width, code in (
              (reference(3, 0), S16, 2, INVALID_REFERENCE), (reference(1, 0), S16, 2, INVALID_TYPE),
              (2, U8, 1, INVALID_TYPE), (1, S16, 2, INVALID_FORMAT), (1, S16, 1, INVALID_FORMAT),
              (1, U8, 2, INVALID_DIMENSION))),
        (wire.write_image(CLIENT, 1, U8, 1, 2, b"\n\n"), INVALID_DIMENSION),
        holds(1, U8, [0]),
        *((wire.read_image(CLIENT, named), code) for named, code in (
            (reference(3, 0), INVALID_REFERENCE), (reference(1, 0), INVALID_TYPE),
            (2, INVALID_TYPE), (0, INVALID_REFERENCE), (2**32 - 1, INVALID_REFERENCE))),
    ]


def refusals_beside_one_image():
    """1 is an image of one U8 sample, and there is no other object; then 2 is one of S16."""
    return [
        opened(), made(1, U8), (wire.create_image(CLIENT, 4, 1, 1), INVALID_FORMAT),
        (wire.read_image(CLIENT, 2), INVALID_REFERENCE),
        (wire.read_image(CLIENT, reference(1, 0)), INVALID_TYPE),
        ran(NOT_BITS, 1, None, 1, INVALID_GRAPH), holds(1, U8, [0]), made(2, S16),
        ran(NOT_BITS, 2, None, 2, INVALID_GRAPH), holds(2, S16, [0]),
    ]


def sides():
    """An image has from 1 to 8192 columns and rows, and so has a virtual image."""
    pairs = (0, 1), (1, 0), (8193, 1), (1, 8193), (8193, 8193), (16384, 1), (1, 65535)
    rows = [
        opened(), made(1, U8, 8192), made(2, U8, 1, 8192), made(3, S16, 4097),
        made(4, U32, 1, 4097), graph(5), virtual(6, 5, U8, 8192, 8192),
        *((wire.create_image(CLIENT, fmt, *pair), INVALID_DIMENSION)
          for fmt in (U8, S16, U32) for pair in pairs),
        *((wire.create_virtual_image(CLIENT, 5, U8, *pair), INVALID_DIMENSION)
          for pair in pairs if 0 not in pair),
        told(6, U8, NOWHERE, 8192, 8192),
    ]
    # The last pixel of a row, and of a column.
    samples, last = [7] * 8191 + [9], [0] * 8191 + [9]
    for number, size, place, beyond in (
        (1, (8192, 1), (8191, 0, 8192, 1), (0, 0, 8193, 1)),
        (2, (1, 8192), (0, 8191, 1, 8192), (0, 0, 1, 8193)),
    ):
        rows += [wrote(number, U8, samples, *size), confined(number, beyond, INVALID_VALUE),
                 *shows(number, U8, samples, (0, 0, *size), *size), confined(number, place),
                 *shows(number, U8, last, place, *size)]
    return [*rows, made(7, U8)]


def objects_released():
    """A released object is gone with its name. All others stay."""
    return [
        opened(), made(1, U8), made(2, U8), (TURNED, name(3)), (threshold(U8), name(4)), opened(8),
        made(1, U8, client=8), wrote(1, U8, [204]), wrote(2, U8, [170]),
        released(0, INVALID_REFERENCE), released(5, INVALID_REFERENCE),
        released(2**32 - 1, INVALID_REFERENCE), released(256, INVALID_REFERENCE),
        released(1), (wire.read_image(CLIENT, 1), INVALID_REFERENCE),
        released(1, INVALID_REFERENCE), ran(4, 1, None, 2, INVALID_REFERENCE),
        (wire.write_image(CLIENT, 1, U8, 1, 1, b"\n"), INVALID_REFERENCE),
        holds(2, U8, [170]), holds(1, U8, [0], client=8), ran(12, 2, 3, 1, INVALID_REFERENCE),
        made(5, U8), holds(5, U8, [0]), ran(12, 2, 3, 5), holds(5, U8, [85]), ran(11, 2, 4, 5),
        holds(5, U8, [7]),
        # A table and a threshold; then the newest object, whose name isn't reused either.
        released(3), ran(12, 2, 3, 5, INVALID_REFERENCE), ran(11, 2, 4, 5), released(4),
        ran(11, 2, 4, 5, INVALID_REFERENCE), released(5), made(6, S16),
        (wire.read_image(CLIENT, 5), INVALID_REFERENCE), holds(6, S16, [0]),
        released(2), released(6), released(6, INVALID_REFERENCE), made(7, U8),
        holds(1, U8, [0], client=8),
    ]


def full_context():
    """1,024 objects, and as many again as are released."""
    return [
        opened(), (TURNED, name(1)), (threshold(U8), name(2)), made(3, U8), delayed(4, 3, 16),
        (SAME, name(5)), (THIRDS, name(6)), (EXTREMES, name(7)),
        *(made(number, U8) for number in range(8, 1025)),
        *((request, NO_RESOURCES) for request in (*CREATES, wire.create_delay(CLIENT, 3, 1))),
        # A fault of the exemplar has precedence.
        (wire.create_delay(CLIENT, reference(4, 16), 1), INVALID_VALUE),
        opened(8), made(1, U8, client=8), holds(1024, U8, [0]),
        (wire.read_image(CLIENT, 1025), INVALID_REFERENCE), released(1), (TURNED, name(1025)),
        (threshold(U8), NO_RESOURCES), released(1024), released(3), made(1026, U8), made(1027, U8),
        (TURNED, NO_RESOURCES), holds(1027, U8, [0]),
        (wire.read_image(CLIENT, 1024), INVALID_REFERENCE),
        # A delay counts as one object, however many slots it has.
        released(4), delayed(1028, 1027, 2), (TURNED, NO_RESOURCES), released(1028), made(1029, U8),
        (TURNED, NO_RESOURCES),
    ]


def full_of_extremes():
    """1,024 objects that are charged nothing."""
    return [
        opened(), *((EXTREMES, name(number)) for number in range(1, 1025)),
        *((request, NO_RESOURCES) for request in CREATES), released(1), (EXTREMES, name(1025)),
        (EXTREMES, NO_RESOURCES), found(1025, *NOTHING_FOUND),
    ]


def sizes(fmt, size):
    """Pictures whose bodies, with 10 bytes before the samples, have about 64 bytes and about a
    buffer of 65,536."""
    rows, number = [opened()], 0
    shapes = [((body - 10) // size, 1) for body in range(56, 73, size)]
    # Of 65,535 and 65,536 samples, 32,767 and 32,768, 16,383 and 16,384; the longest row and
    # column; and a large picture.
    shapes += [(3855, 17), (4096, 16), (1057, 31), (4096, 8), (381, 43), (4096, 4), (8192, 1),
               (1, 8192), (1500, 2), (641, 479)]
    for width, height in shapes:
        samples = samples_from(0, fmt, width, height)
        number += 1
        rows += [made(number, fmt, width, height), wrote(number, fmt, samples, width, height),
                 holds(number, fmt, samples, width, height)]
    return rows
