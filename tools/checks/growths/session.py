"""A session of two clients without graphs, some of whose requests take memory."""

from typing import List

from feqyldan import wire


def session() -> List[bytes]:
    """Two clients in turn: small and large pictures of both formats, tables, thresholds, nodes,
    delays, rectangles, PGM texts, convolutions, distributions, extremes, releases, and refusals."""
    row = bytes(range(64))
    shorts = b"".join(v.to_bytes(2, "big", signed=True) for v in (-32768, -1, 0, 32767) * 25)
    return [
        wire.open_context(1),
        wire.open_context(2),
        wire.create_image(1, wire.U8, 1, 1),
        wire.create_image(2, wire.U8, 16, 4),
        wire.write_image(1, 1, wire.U8, 1, 1, b"\x0a"),
        wire.write_image(2, 1, wire.U8, 16, 4, row),
        wire.create_image(1, wire.U8, 1, 1),
        wire.create_image(2, wire.U8, 16, 4),
        wire.bitwise_not(1, 1, 2),
        wire.bitwise_not(2, 1, 2),
        wire.bitwise_not(2, 2, 2),
        wire.read_image(1, 2),
        wire.read_image(2, 2),
        wire.create_image(2, wire.S16, 10, 10),
        wire.write_image(2, 3, wire.S16, 10, 10, shorts),
        wire.read_image(2, 3),
        # If the write is lost, the rectangle is unchanged.
        wire.set_valid(2, 3, (2, 1, 9, 7)),
        wire.query_image(2, 3),
        wire.write_image(2, 3, wire.S16, 10, 10, shorts),
        wire.query_image(2, 3),
        wire.create_lut(1, wire.U8, range(255, -1, -1)),
        wire.create_lut(2, wire.S16, range(-32768, 32768)),
        wire.create_threshold(2, wire.U8, (10, 20)),
        wire.create_image(2, wire.U8, 16, 4),
        wire.immediate(1, wire.TABLE_LOOKUP, 1, 3, 2),
        wire.immediate(2, wire.TABLE_LOOKUP, 3, 4, 3),
        wire.immediate(2, wire.THRESHOLD, 1, 5, 6),
        wire.immediate(2, wire.ADD, 1, 2, 6, wire.SATURATE),
        wire.immediate(2, wire.ADD, 1, 4, 6),
        wire.read_image(1, 2),
        wire.read_image(2, 3),
        wire.read_image(2, 6),
        wire.read_image(2, 5),
        wire.release(2, 1),
        wire.create_image(2, wire.S16, 10, 10),
        wire.read_image(2, 7),
        wire.release(2, 1),
        wire.create_delay(2, 7, 3),
        wire.create_delay(1, 1, 16),
        wire.write_image(2, wire.reference(8, 2), wire.S16, 10, 10, shorts),
        wire.set_valid(2, wire.reference(8, 2), (0, 3, 10, 8)),
        wire.age_delay(2, 8),
        wire.immediate(2, wire.MAX_PIXEL, wire.reference(8, 0), 3, wire.reference(8, 1)),
        wire.query_image(2, wire.reference(8, 1)),
        wire.age_delay(1, 4),
        wire.read_image(2, wire.reference(8, 1)),
        wire.create_delay(2, wire.reference(8, 1), 1),
        wire.age_delay(2, 8),
        wire.read_image(2, wire.reference(8, 2)),
        wire.bitwise_not(1, wire.reference(4, 15), wire.reference(4, 0)),
        wire.read_image(1, wire.reference(4, 0)),
        wire.release(2, 8),
        wire.create_delay(2, wire.reference(8, 1), 2),
        wire.read_image(2, wire.reference(9, 0)),
        *texts(),
        *windows_and_statistics(),
        wire.release_context(1),
        wire.open_context(1),
        wire.create_image(1, wire.U8, 1, 1),
        wire.open_context(1),
        wire.frame(9, 200, b"\x00" * 100),
    ]


def texts() -> List[bytes]:
    """PGM texts, short and long, of both formats and with faults, written to and read from images
    of the session."""
    byte, raster = b"P2 1 1 255 7", b"P5 16 4 255\n" + bytes(range(100, 164))
    plain = b"P2 # 64 samples\n16 4 999" + b" 7" * 64
    shorts = b"P5 10 10 32767\n" + bytes(range(100)) * 2
    return [
        wire.write_image_pgm(1, 1, byte),
        wire.read_image_pgm(1, 1),
        wire.write_image_pgm(1, wire.reference(4, 15), byte),
        # If the write is lost, the rectangle is unchanged.
        wire.set_valid(2, 2, (2, 1, 9, 3)),
        wire.write_image_pgm(2, 2, raster),
        wire.query_image(2, 2),
        wire.read_image_pgm(2, 2),
        wire.write_image_pgm(2, 7, shorts),
        wire.read_image(2, 7),
        *(wire.write_image_pgm(2, name, text) for name, text in (
            (1, raster), (2, raster + b" "), (2, plain), (7, raster), (2, shorts),
            (2, b"P5 16 4 99\n" + raster[12:]), (2, byte), (2, b""))),
        wire.read_image_pgm(2, 7),
        wire.read_image_pgm(2, 2),
    ]


def windows_and_statistics() -> List[bytes]:
    """Convolutions, distributions and extremes of client 2, from name 10 on, and the functions that
    use them."""
    return [
        wire.create_convolution(2, 9, 9, 6, range(-40, 41)),
        wire.create_convolution(2, 3, 3, 0, range(9)),
        wire.create_distribution(2, 256, 0, 256),
        wire.create_distribution(2, 3, 100, 40),
        wire.create_min_max(2),
        wire.create_image(2, wire.S16, 16, 4),
        wire.create_image(2, wire.S16, 16, 4),
        wire.create_image(2, wire.U32, 16, 4),
        *(wire.immediate(2, function, 2, None, 6, border=wire.REPLICATE)
          for function in range(wire.BOX, wire.DILATE + 1)),
        wire.immediate(2, wire.SOBEL, 2, None, 15, out2=16),
        wire.immediate(2, wire.SOBEL, 2, None, None, border=wire.CONSTANT, constant=9, out2=15),
        wire.read_image(2, 15),
        wire.read_image(2, 16),
        wire.immediate(2, wire.CONVOLVE, 2, 10, 15, border=wire.REPLICATE),
        wire.immediate(2, wire.CONVOLVE, 2, 11, 6),
        wire.read_image(2, 15),
        wire.read_image_pgm(2, 6),
        wire.immediate(2, wire.HISTOGRAM, 2, None, 12),
        wire.immediate(2, wire.HISTOGRAM, 2, None, 13),
        wire.immediate(2, wire.MIN_MAX_LOCATION, 15, None, 14),
        wire.immediate(2, wire.INTEGRAL, 2, None, 17),
        # A lost request adds nothing, and the next one adds once.
        wire.immediate(2, wire.ACCUMULATE, 2, None, 16),
        wire.immediate(2, wire.ACCUMULATE_SQUARE, 2, None, 16, amount=4),
        wire.immediate(2, wire.ACCUMULATE, 2, None, 2),
        wire.read_image(2, 16),
        wire.read_distribution(2, 12),
        wire.read_distribution(2, 13),
        wire.read_min_max(2, 14),
        wire.read_image(2, 17),
        *(wire.release(2, name) for name in range(10, 15)),
        wire.create_min_max(2),
        wire.read_min_max(2, 18),
    ]


def first_objects() -> List[bytes]:
    """A threshold and extremes that are the first objects of their contexts, and virtual images
    until the table of names grows: these requests take memory only for their entry."""
    first = wire.create_threshold(4, wire.U8, (10,)), wire.create_min_max(4)
    return [
        *(frame for create in first
          for frame in (wire.open_context(4), create, wire.release_context(4))),
        wire.open_context(4),
        wire.create_graph(4),
        *[wire.create_virtual_image(4, 1)] * 16,
    ]
