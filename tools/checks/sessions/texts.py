"""PGM texts, and sessions on them."""

import struct

from feqyldan import wire
from feqyldan.wire import (
    BOX, INVALID_DIMENSION, INVALID_FORMAT, INVALID_REFERENCE, INVALID_TYPE, INVALID_VALUE, S16,
    U32, U8, reference)
from checks.sessions.rows import (
    CLIENT, MIDDLE, NOWHERE, REPLICATE, TEN_TO_FORTY, TURNED, WHOLE_ROW, aged, confined, delayed,
    holds, holds_text, in_slots, made, name, opened, ran, shows, told, wrote, wrote_text)

# Texts, and the pictures that they encode: a format, a width, a height, and the samples.
TEXTS = (
    (b"P5\n# a\n2 1\n255\n\x0a\x14", U8, 2, 1, [10, 20]), (b"P2 1 1 300 300\n", S16, 1, 1, [300]),
    (b"P5 1 1 300\n\x01\x2c", S16, 1, 1, [300]), (b"P2 1 1 255 5 # x\n", U8, 1, 1, [5]),
    (b"P2 1 1 255 5", U8, 1, 1, [5]), (b"P5\n1 2\n255\n\x01\x02", U8, 1, 2, [1, 2]),
    (b"P2\n2 2\n9\n1 2\n3 4\n", U8, 2, 2, [1, 2, 3, 4]),
    (b"P5 3 2 255\n\x01\x02\x03\x04\x05\xff", U8, 3, 2, [1, 2, 3, 4, 5, 255]),
    # Whitespace, and comments that follow it directly.
    (b"P2\t1\r1\n255\r\n \t5", U8, 1, 1, [5]),
    (b"P5#\r\n2#a\r1\n255\t\x0a\x14", U8, 2, 1, [10, 20]), (b"P5 1 1 255 \x07", U8, 1, 1, [7]),
    (b"P2#x\n1#y\n1#z\r255#\n5#\n", U8, 1, 1, [5]),
    (b"P2 # 9\n # 9\r\n1 1 255 # 9 9\n5", U8, 1, 1, [5]),
    (b"P2 1 1 255 5\t\r\n #a#b\n# c\r", U8, 1, 1, [5]),
    (b"P2 1 1 255 5#\x00\xff\x0b\n", U8, 1, 1, [5]),
    # The one whitespace byte, and samples that look like whitespace, comments and digits.
    (b"P5 1 1 255\n\n", U8, 1, 1, [10]), (b"P5 1 1 255\r\n", U8, 1, 1, [10]),
    (b"P5 1 1 255 #", U8, 1, 1, [35]), (b"P5 3 1 255\n5 #", U8, 3, 1, [53, 32, 35]),
    (b"P5 2 1 300\n\x00\x0a\x00\x20", S16, 2, 1, [10, 32]),
    # Leading zeros, and the least and greatest maxvals; samples aren't scaled.
    (b"P5 00001 0001 000255\n\x07", U8, 1, 1, [7]),
    (b"P2 1 1 255 " + b"0" * 100 + b"7", U8, 1, 1, [7]), (b"P5 1 1 1\n\x01", U8, 1, 1, [1]),
    (b"P5 2 1 1\n\x00\x01", U8, 2, 1, [0, 1]), (b"P2 1 1 1 0", U8, 1, 1, [0]),
    (b"P5 1 1 255\n\xff", U8, 1, 1, [255]), (b"P5 1 1 256\n\x00\x05", S16, 1, 1, [5]),
    (b"P5 1 1 256\n\x01\x00", S16, 1, 1, [256]), (b"P2 1 1 256 0", S16, 1, 1, [0]),
    (b"P5 1 1 32767\n\x7f\xff", S16, 1, 1, [32767]),
    (b"P2 2 1 32767 32767 0", S16, 2, 1, [32767, 0]), (b"P2 1 2 100 100 99", U8, 1, 2, [100, 99]),
)

# Texts with a fault, by code.
FAULTY_TEXTS = {
    INVALID_FORMAT: (
        b"", b"P", b"P5", b"P2", b"P5 ", b"P5 1 1 255", b"P5 1 1", b"5", b"p5 1 1 255\n\x07",
        b"P1 1 1 1", b"P3 1 1 255 5", b"P6 1 1 255\n\x07", b"P7 1 1 255\n\x07",
        b" P5 1 1 255\n\x07", b"\xef\xbb\xbfP5 1 1 255\n\x07", b"# a\nP5 1 1 255\n\x07",
        b"P51 1 255\n\x07", b"P5 1 1255\n\x07", b"P5 1 1 255\x07", b"P5 1 1 2555\x07",
        # Maxvals and the bytes after them.
        b"P5 1 1 40000\n\x00\x05", b"P5 1 1 32768\n\x00\x05", b"P5 1 1 65535\n\x00\x05",
        b"P5 1 1 65536\n\x00\x05", b"P2 1 1 32768 5", b"P2 1 1 0 0", b"P5 1 1 0\n\x00",
        b"P5 1 1 99999999999999999999\n", b"P5 1 1 4294967551\n\x07", b"P5 1 1 255\n\x07\x07",
        b"P5 1 1 255\n", b"P5 4097 1 255\n", b"P5 4096 4096 255\n", b"P5 8192 8192 255\n",
        b"P5 2 1 255\n\x07",
        b"P5 1 1 300\n\x01", b"P2 8192 1 255 5",
        b"P5 1 1 300\n\x01\x2c\x00", b"P5 1 1 255\n\x07\n", b"P5 1 1 255\n\x07P5 1 1 255\n\x07",
        b"P5 1 1 255\n\x07# a\n", b"P5 1 1 255\r\n\x07", b"P2 2 1 255 1",
        b"P2 1 1 255", b"P2 1 1 255 ", b"P2 1 1 255 5 5", b"P2 1 1 255 5 x", b"P2 1 1 255 5x",
        b"P2 1 1 255x5", b"P2 1 1 255 -5", b"P2 1 1 255 +5", b"P2 1 1 255 5.0", b"P2 1 1 255 0x5",
        b"P2 1 1 255 5 P2 1 1 255 5", b"P2 -1 1 255 5", b"P5 +1 1 255\n\x07", b"P5 1.0 1 255\n\x07",
        # Comments without an end, within a number and after the maxval of a raw text; other
        # whitespace.
        b"P5 # 1 1 255 ", b"P2 1 1 255 5#", b"P2 1 1 255 5#x", b"P2 1 1 255 #5", b"P2 1 1 2#\n55 5",
        b"P2 1 1 255 5 #\n#", b"P5 0 1 255#x\n", b"P5 1 1 255#x\n", b"P5 1 1 255#x\n\x07",
        b"P5 1 1 255 #x\n\x07", b"P5 1 1\x0b255\n\x07", b"P5\x0c1 1 255\n\x07",
        b"P5 1 1 255\x00\x07", b"P5 1 1 255\x0b\x07", b"P2 1 1 255 5\x00", b"P2 1 1 255 5\x0b",
        b"P2 1 1 255\xa05",
        # These faults are reported before later ones, and after earlier ones.
        b"P5 0 1 255", b"P5 0 1 255x", b"P5 0 1", b"P2 0 1", b"P2 0 1 x", b"P2 1 1 255 256 x",
        b"P2 1 1 255 256 5", b"P2 2 1 255 256", b"P5 2 1 100\n\x65", b"P2 1 1 0 5 5",
        b"P2 1 1 40000 x",
    ),
    INVALID_DIMENSION: (
        b"P5 0 1 255\n", b"P5 1 0 255\n", b"P5 0 0 255\n", b"P5 8193 1 255\n",
        b"P5 1 8193 255\n\x07", b"P5 65536 1 255\n", b"P5 65537 1 255\n\x07",
        b"P5 1 4294967297 255\n\x07", b"P5 99999999999999999999 1 255\n",
        b"P5 0 1 0\n", b"P5 0 1 40000\n", b"P5 8193 1 32768\n", b"P2 0 1 255", b"P2 0 1 255x",
        b"P2 0 1 255#", b"P2 0 1 255 256", b"P2 8193 1 255 5", b"P2 000 1 255 5",
        b"P5 1 0 255\n\x07\x07\x07",
    ),
    INVALID_VALUE: (
        b"P2 1 1 300 301", b"P5 1 1 100\n\x65", b"P2 1 1 255 256",
        b"P2 1 1 255 99999999999999999999", b"P2 1 1 255 4294967301", b"P2 1 1 255 65541",
        b"P5 1 1 256\n\x01\x01", b"P5 1 1 32767\n\x80\x00", b"P5 1 1 300\n\x2c\x01",
        b"P2 1 1 1 2 # x\n", b"P5 2 1 254\n\xff\x00", b"P5 2 1 254\n\x00\xff",
        b"P2 2 1 9 1 10", b"P2 1 1 32767 32768", b"P5 1 1 1\n\x02",
    ),
}


def raw(width, height, samples):
    """Returns a P5 text in the only form that the server writes."""
    return b"P5\n%d %d\n255\n" % (width, height) + bytes(samples)


def pgm_texts():
    """Writes each text of the table to its own image."""
    rows = [opened()]
    for number, (text, fmt, width, height, samples) in enumerate(TEXTS, 1):
        rows += [made(number, fmt, width, height), wrote_text(number, text),
                 *shows(number, fmt, samples, (0, 0, width, height), width, height),
                 holds_text(number, raw(width, height, samples) if fmt == U8 else INVALID_FORMAT)]
    return rows


def faulty_pgm_texts():
    """1 is an image of one U8 sample. A text with a fault leaves it unchanged."""
    rows = [opened(), made(1, U8), wrote_text(1, b"P2 1 1 255 9")]
    for text, code in (
        (b"P5 1 1 40000\n\x00\x05", INVALID_FORMAT), (b"P5 1 1 255\n\x07\x07", INVALID_FORMAT),
        (b"P5 1 1 255\n", INVALID_FORMAT), (b"P5 0 1 255\n", INVALID_DIMENSION),
        (b"P2 1 1 300 301", INVALID_VALUE), (b"P5 1 1 100\n\x65", INVALID_VALUE),
    ):
        rows += [wrote_text(1, text, code), holds_text(1, raw(1, 1, [9]))]
    return rows


def pgm_images():
    """1 is an image of four U8 samples in a row, 2 a delay of two slots; 3 and 4 are of 2 by 2."""
    slot, other = reference(2, 1), reference(2, 0)
    four, middle = raw(4, 1, TEN_TO_FORTY), raw(4, 1, [0, 20, 30, 0])
    return [
        opened(), made(1, U8, 4), delayed(2, 1, 2), made(3, U8, 2, 2), made(4, U8, 2, 2),
        holds_text(1, raw(4, 1, [0] * 4)), wrote_text(1, four), holds_text(1, four),
        *shows(1, U8, TEN_TO_FORTY, WHOLE_ROW, 4), confined(1, MIDDLE), holds_text(1, middle),
        # A written image is wholly valid, and invalid samples are 0.
        wrote_text(1, four), *shows(1, U8, TEN_TO_FORTY, WHOLE_ROW, 4), confined(1, NOWHERE),
        holds_text(1, raw(4, 1, [0] * 4)), wrote_text(1, b"P2 4 1 40 10 20 30 40"),
        *shows(1, U8, TEN_TO_FORTY, WHOLE_ROW, 4), wrote_text(slot, middle),
        holds(slot, U8, [0, 20, 30, 0], 4), holds_text(slot, middle),
        holds_text(other, raw(4, 1, [0] * 4)), confined(slot, MIDDLE), aged(2),
        holds_text(other, middle), told(other, U8, MIDDLE, 4), wrote_text(other, four),
        told(other, U8, WHOLE_ROW, 4),
        # Another client's image.
        opened(8), wrote_text(1, four, INVALID_REFERENCE, 8), made(1, U8, 4, client=8),
        wrote_text(1, middle, client=8), holds_text(1, middle, 8), holds_text(1, four),
        # A smoothed picture, from text to text.
        wrote_text(3, raw(2, 2, TEN_TO_FORTY)), ran(BOX, 3, None, 4, **REPLICATE),
        holds_text(4, raw(2, 2, [20, 23, 26, 30])), ran(4, 3, None, 4),
        holds_text(4, raw(2, 2, [245, 235, 225, 215])), ran(BOX, 3, None, 4),
        holds_text(4, raw(2, 2, [0] * 4)),
    ]


def refusals_of_texts():
    """1 is an image of one U8 sample, 2 of S16, 3 of U32, 4 of two U8 samples, 5 a delay of two
    slots like 1, 6 a table."""
    rows = [opened(), made(1, U8), made(2, S16), made(3, U32), made(4, U8, 2), delayed(5, 1, 2),
            (TURNED, name(6)),
            wrote(1, U8, [9])]
    # A text's fault is reported for any image, but after a reference that isn't an image.
    for code, texts in FAULTY_TEXTS.items():
        for text in texts:
            rows += [wrote_text(of, text, code) for of in (1, 2, 4)]
            rows += [wrote_text(9, text, INVALID_REFERENCE), wrote_text(6, text, INVALID_TYPE),
                     wrote_text(reference(5, 2), text, INVALID_VALUE)]
    byte, short = b"P2 1 1 255 5", b"P2 1 1 300 5"
    bytes_, shorts = b"P2 2 1 255 5 5", b"P2 2 1 300 5 5"
    for of, text, code in (
        # The format before the size.
        (1, short, INVALID_FORMAT), (1, shorts, INVALID_FORMAT), (2, byte, INVALID_FORMAT),
        (2, bytes_, INVALID_FORMAT), (3, byte, INVALID_FORMAT), (3, short, INVALID_FORMAT),
        (3, shorts, INVALID_FORMAT), (4, shorts, INVALID_FORMAT), (1, bytes_, INVALID_DIMENSION),
        (2, shorts, INVALID_DIMENSION), (4, byte, INVALID_DIMENSION),
        (4, b"P2 1 2 255 5 5", INVALID_DIMENSION), (4, b"P2 2 2 255 5 5 5 5", INVALID_DIMENSION),
        (reference(5, 1), bytes_, INVALID_DIMENSION), (reference(5, 1), short, INVALID_FORMAT),
        (2, b"P5 1 1 255\n", INVALID_FORMAT),
    ):
        rows.append(wrote_text(of, text, code))
    named = ((9, INVALID_REFERENCE), (0, INVALID_REFERENCE), (reference(9, 0), INVALID_REFERENCE),
             (5, INVALID_TYPE), (6, INVALID_TYPE),
             (reference(1, 0), INVALID_TYPE), (reference(6, 0), INVALID_TYPE),
             (reference(5, 2), INVALID_VALUE), (2, INVALID_FORMAT), (3, INVALID_FORMAT))
    return rows + [
        *((wire.read_image_pgm(CLIENT, of), code) for of, code in named),
        *(wrote_text(of, byte, code) for of, code in named), holds(1, U8, [9]), holds(2, S16, [0]),
        holds(4, U8, [0, 0], 2), *in_slots(holds, 5, U8, [0, 0]), made(7, U8),
    ]


def sizes_of_texts():
    """Texts in bodies of about 64 bytes, and of about a buffer of 65,536; and long texts of few
    samples."""
    rows, number = [opened()], 0
    shapes = [(size, 1) for size in range(38, 56)]
    shapes += [(3855, 17), (4096, 16), (8192, 1), (1, 8192), (1500, 2), (641, 479)]
    for width, height in shapes:
        samples = [(at * 40_503) % 256 for at in range(width * height)]
        text = raw(width, height, samples)
        plain = b"P2 %d %d 255 # a\n" % (width, height)
        plain += b"\n".join(b"%d" % sample for sample in samples)
        number += 1
        rows += [made(number, U8, width, height), wrote_text(number, text),
                 holds(number, U8, samples, width, height),
                 holds_text(number, text), wrote(number, U8, samples[::-1], width, height),
                 wrote_text(number, plain), holds_text(number, text)]
    for width, height in ((22, 1), (23, 1), (8192, 4), (641, 51)):
        samples = [(at * 40_503) % 32768 for at in range(width * height)]
        text = b"P5 %d %d 32767\n" % (width, height) + struct.pack(f">{width * height}h", *samples)
        number += 1
        rows += [made(number, S16, width, height), wrote_text(number, text),
                 holds(number, S16, samples, width, height)]
    for filler in (b" " * 70_000, b"#" + b"x" * 70_000 + b"\n", b"#\n" * 35_000):
        rows += [wrote_text(1, b"P2" + filler + b"38 1 255" + (filler + b"9") * 38 + filler),
                 holds(1, U8, [9] * 38, 38)]
    return rows
