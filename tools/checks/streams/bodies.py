"""Draws random bodies of requests, with a function for each op."""

import struct

from feqyldan import wire
from feqyldan.wire import S16, U32, U8
from checks import model
from checks.model.functions import GREATEST_SIDE, SAMPLES
from checks.streams.draw import ENDS, byte, cell_fields, long, short, signed_short


def nothing(_):
    return []


def create_image(draw):
    width, height = draw.bad_size() if draw.chance(0.06) else draw.size()
    return [byte(draw.fmt()), short(width), short(height)]


def query_image(draw):
    return cell_fields(draw.cell(model.Image))


def other_size(draw, image):
    width, height = image.width, image.height
    return draw.pick(((height, width), (width + 1, height), (width, max(1, height - 1)),
                      draw.size(), draw.bad_size()))


def description_for(draw, thing):
    """Draws a format, a width and a height, mostly those of an image."""
    if not isinstance(thing, model.Image):
        return draw.fmt(), *draw.size()
    is_other_format, is_other_size = draw.pick([(0, 0)] * 16 + [(1, 0), (0, 1), (0, 1), (1, 1)])
    size = other_size(draw, thing) if is_other_size else (thing.width, thing.height)
    return draw.fmt() if is_other_format else thing.fmt, *size


def are_sides(width, height):
    return 1 <= width <= GREATEST_SIDE and 1 <= height <= GREATEST_SIDE


def write_image(draw):
    cell = draw.cell(model.Image)
    fmt, width, height = description_for(draw, draw.thing(cell))
    # An invalid picture has few samples, so that the body isn't long for nothing.
    is_picture = fmt in SAMPLES and are_sides(width, height)
    samples = draw.samples(fmt, width * height) if is_picture else b"\x07\x08"
    return [*cell_fields(cell), byte(fmt), short(width), short(height), samples]


def comment(draw):
    text = draw.pick((b"", b" a", b" 7 8", b"#", b"\t\0\xff"))
    return b"#" + text + draw.pick((b"\n", b"\r", b"\r\n"))


def gap(draw):
    """Draws whitespace, mostly one byte."""
    if draw.chance(0.8):
        return draw.pick((b" ", b"\n", b"\t", b"\r"))
    pieces = [draw.pick((b" ", b"\t", b"\r\n", comment(draw), comment(draw)))
              for _ in range(draw.rng.randint(1, 3))]
    return b"".join(pieces)


def digits(draw, number):
    return (b"0" * draw.pick((1, 2, 12)) if draw.chance(0.1) else b"") + b"%d" % number


def pgm_maxval(draw, fmt):
    if draw.chance(0.07):
        return draw.pick((0, 0, 32768, 40000, 65535, 65536, 10**20))
    if fmt == S16:
        return draw.pick((256, 257, 1000, 32766, 32767, 32767, draw.rng.randint(256, 32767)))
    return draw.pick((255, 255, 255, 254, 1, 10, draw.rng.randint(1, 255)))


def pgm_samples(draw, maxval, count):
    """Draws samples, mostly up to maxval. Single-byte samples may be whitespace, a comment's start
    or digits."""
    values = [min(value, maxval)
              for value in (0, 1, 9, 10, 11, 13, 32, 35, 53, 127, 200, maxval, maxval)]
    samples = draw.rng.choices(values, k=count)
    if samples and draw.chance(0.08):
        samples[draw.rng.randrange(count)] = maxval + draw.pick((1, 1, 256))
    return samples


def plain_raster(draw, samples):
    end = draw.pick((b"", b"", b"\n", gap(draw), comment(draw)))
    return b"".join(gap(draw) + digits(draw, sample) for sample in samples) + end


def raw_raster(samples, maxval):
    """Encodes samples in one or two bytes, clamped if they don't fit."""
    letter, greatest = ("B", 255) if maxval < 256 else ("H", 65535)
    return struct.pack(f">{len(samples)}{letter}", *(min(sample, greatest) for sample in samples))


def pgm_parts(draw, fmt, width, height):
    """Returns the magic, three gaps and numbers, the separator before the raster, and the
    raster."""
    maxval = pgm_maxval(draw, fmt)
    samples = pgm_samples(draw, maxval,
                          width * height if are_sides(width, height) else draw.pick((0, 2)))
    numbers = [part for number in (width, height, maxval)
               for part in (gap(draw), digits(draw, number))]
    if draw.chance(0.5):
        return [b"P2", *numbers, b"", plain_raster(draw, samples)]
    end = draw.pick((b" ", b"\n", b"\n", b"\t", b"\r"))
    if draw.chance(0.12):
        end = draw.pick((b"", b"\r\n", end + b" ", b"\x0b", comment(draw), comment(draw) + end,
                         end + comment(draw)))
    return [b"P5", *numbers, end, raw_raster(samples, maxval)]


def spoil_part(draw, parts):
    """Spoils the magic, a number or a gap of a PGM text."""
    k = draw.pick((0, *range(len(parts) - 1)))
    part = parts[k]
    magics = (
        b"P1", b"P3", b"P4", b"P6", b"p5", b"p2", b"P", b"P2", b"P5", b" " + part, b"\n" + part,
        comment(draw) + part)
    numbers = (
        b"", b"x", b"-" + part, b"+" + part, part * 2, part + b"# 7", part + comment(draw),
        part[:1] + comment(draw) + part[1:])
    gaps = b"", b"x", b"\x0b", b"\x0c", b"\0", b"#", b"# 7", part + comment(draw)
    parts[k] = draw.pick(magics if k == 0 else gaps if k % 2 == 1 else numbers)


def spoil_end(draw, parts):
    """Appends bytes to the end of a PGM text, or removes some."""
    end = parts[-1]
    more = [b"\0", b"\n", b" ", b"#", b"# 7", b" 5", b"\n5", b"x", comment(draw) + b"5",
            comment(draw)]
    fewer = [end[:-1], end[1:], end[: draw.rng.randint(0, len(end))]]
    parts[-1] = end + draw.pick(more) if draw.chance(0.7) else draw.pick(fewer)


def pgm_text(draw, fmt, width, height):
    """Draws a text, mostly a good one, or one with one or two faults."""
    if draw.chance(0.06):
        width, height = draw.pick(((10**20, height), (width, 2**32 + height), (0, 0),
                                   (2**16 + width, height), (GREATEST_SIDE, 1), (1, GREATEST_SIDE)))
    parts = pgm_parts(draw, fmt, width, height)
    if draw.chance(0.22):
        spoil_part(draw, parts)
    if draw.chance(0.12):
        spoil_end(draw, parts)
    text = b"".join(parts)
    return text[: draw.pick((0, draw.rng.randint(0, len(text))))] if draw.chance(0.03) else text


def write_image_pgm(draw):
    cell = draw.cell(model.Image)
    return [*cell_fields(cell), pgm_text(draw, *description_for(draw, draw.thing(cell)))]


def read_image(draw):
    return cell_fields(draw.cell(model.Image))


def part_of(draw, start, end):
    """Draws the start and the end of a range, mostly a large part of the whole."""
    cut = (end - start) // 4 if draw.chance(0.6) else end - start - 1
    first = start + draw.rng.randint(0, cut)
    return first, max(end - draw.rng.randint(0, cut), first + 1)


def within(draw, rectangle):
    """Draws a rectangle within one that isn't empty."""
    left, right = part_of(draw, rectangle.left, rectangle.right)
    top, bottom = part_of(draw, rectangle.top, rectangle.bottom)
    return model.Rectangle(left, top, right, bottom)


def one_place(draw, whole):
    x, y = draw.rng.randrange(whole.right), draw.rng.randrange(whole.bottom)
    return model.Rectangle(x, y, x + 1, y + 1)


def with_more(draw, valid, whole):
    """Returns the bounding rectangle of the valid rectangle and another part of the image."""
    part = within(draw, whole)
    return part if valid == model.EMPTY else model.Rectangle(*map(min, valid[:2], part[:2]),
                                                             *map(max, valid[2:], part[2:]))


def allowed_rectangle(draw, image):
    """Draws a part of the image or of its valid rectangle, a larger one, one pixel, the whole
    image, or the empty rectangle."""
    whole = model.whole(image.width, image.height)
    valid = whole if image.valid == model.EMPTY else image.valid
    parts = (within(draw, whole), within(draw, valid), with_more(draw, image.valid, whole),
             one_place(draw, whole))
    return draw.rng.choices((*parts, whole, model.EMPTY), (8, 2, 4, 1, 3, 2))[0]


def beyond(draw, rectangle, image):
    """Draws a rectangle that exceeds the image, often by one, or because it is that of another
    image."""
    width = image.width + draw.pick((1, 1, 2, 256))
    height = image.height + draw.pick((1, 1, 2, 256))
    return draw.pick((
        rectangle._replace(right=width), rectangle._replace(bottom=height),
        rectangle._replace(right=width, bottom=height), model.whole(image.height, image.width),
        model.whole(*draw.size()), model.whole(65535, 65535),
        one_place(draw, model.whole(width, height))))


def turned(draw, rectangle):
    """Draws four numbers that are not a rectangle: a start isn't below its end, and not all are
    0."""
    left, top, right, bottom = rectangle
    return draw.pick((
        (right, top, left, bottom), (left, bottom, right, top), (right, bottom, left, top),
        (left, top, left, bottom), (left, top, right, top), (right, bottom, right, bottom),
        (0, 0, right, 0), (0, 0, 0, bottom), (1, 0, 1, 0), (65535, 65535, 0, 0)))


def set_valid(draw):
    cell = draw.cell(model.Image)
    thing = draw.thing(cell)
    image = thing if isinstance(thing, model.Image) else model.new_image(U8, *draw.size())
    rectangle = allowed_rectangle(draw, image)
    if draw.chance(0.12):
        rectangle = beyond(draw, rectangle, image)
    if not draw.chance(0.12):
        return [*cell_fields(cell), model.rectangle_bytes(rectangle)]
    field = struct.pack(">4H", *turned(draw, rectangle))
    # A rectangle is one field, so a truncated one isn't checked.
    return [*cell_fields(cell), field[: draw.pick((1, 3, 6, 7))] if draw.chance(0.3) else field]


def release(draw):
    return [long(draw.name())]


def create_lut(draw):
    # A table of S16 is long, and therefore rarer than one of U8.
    fmt = draw.rng.choices((U8, S16, draw.pick((0, U32, 4, 255))), (10, 3, 1))[0]
    count = model.range_size(fmt) * model.sample_bytes(fmt) if fmt in (U8, S16) else 1
    return [byte(fmt), draw.rng.randbytes(count)]


def create_threshold(draw):
    kind, fmt = draw.pick((wire.BINARY, wire.RANGE)), draw.fmt((U8, S16))
    # Mostly samples that also occur in pictures.
    limits = [draw.sample(fmt if fmt in (U8, S16) else S16, 0.85) for _ in range(1 + kind)]
    if draw.chance(0.85):
        limits.sort()
    if draw.chance(0.08):
        limits[draw.rng.randrange(len(limits))] = draw.pick((-32768, -1, 256, 32767))
    kind = draw.pick((2, 255)) if draw.chance(0.03) else kind
    return [byte(kind), byte(fmt), *map(signed_short, limits), draw.rng.randbytes(1),
            draw.rng.randbytes(1)]


def any_length(draw):
    """Draws the number of columns or rows of a convolution."""
    lengths = (0, 1, 2, 4, 6, 8, 10, 11, 255) if draw.chance(0.04) else (3, 3, 3, 5, 7, 9)
    return draw.pick(lengths)


def any_exponent(draw):
    if draw.chance(0.05):
        return draw.pick((32, 33, 255))
    return draw.rng.randint(0, draw.pick((0, 2, 2, 4, 12, 31)))


def coefficients(draw, count):
    """Draws coefficients: one that isn't 0, small ones, or any."""
    if draw.chance(0.25):
        values = [0] * count
        values[draw.rng.randrange(count)] = draw.pick((1, 1, -1, -3, 32767, -32768))
        return values
    return [draw.rng.randint(-4, 4) if draw.chance(0.9) else draw.sample(S16) for _ in range(count)]


def create_convolution(draw):
    columns, rows = any_length(draw), any_length(draw)
    is_convolution = all(length in (3, 5, 7, 9) for length in (columns, rows))
    values = coefficients(draw, columns * rows if is_convolution else 2)
    return [byte(columns), byte(rows), byte(any_exponent(draw)),
            struct.pack(f">{len(values)}h", *values)]


def create_distribution(draw):
    """Draws a distribution, often with bins around the samples of pictures."""
    offset = draw.sample(U8, 0.8)
    ends = [end - offset for end in (*ENDS[U8], 256) if end > offset]
    good = ((1, 2, 3, 5, 16, 255, 256, draw.rng.randint(1, 256)), (offset,),
            (*ends, 256, draw.rng.randint(1, 256)))
    bad = (0, 257, 65535), (256, 257, 65535), (0, 257, 65535)
    return [short(draw.pick(others if draw.chance(0.04) else numbers))
            for numbers, others in zip(good, bad)]


def read_distribution(draw):
    return [long(draw.name(model.Distribution))]


def read_min_max(draw):
    return [long(draw.name(model.Extremes))]


def create_delay(draw):
    few, many = draw.rng.randint(1, 4), draw.rng.randint(5, 16)
    slots = draw.rng.choices((few, many, draw.pick((0, 17, 255))), (11, 4, 1))[0]
    return [*cell_fields(draw.cell(model.Image)), byte(slots)]


def age_delay(draw):
    return [long(draw.name(model.Delay))]


def register_auto_aging(draw):
    """Draws a graph and a delay, or replaces one or both of them."""
    kinds = draw.pick([(model.Graph, model.Delay)] * 6 + [
        (model.Delay, model.Graph), (object, model.Delay), (model.Graph, object),
        (object, object)])
    return [long(draw.no_name() if draw.chance(0.12) else draw.name(kind)) for kind in kinds]


def create_virtual_image(draw):
    return [long(draw.name(model.Graph)), *draw.declared()]


def remove_node(draw):
    """Draws a node of the graph, or a removed or future number."""
    name = draw.name(model.Graph)
    graph = draw.live().get(name)
    graph = graph if isinstance(graph, model.Graph) else model.NO_NODES
    following, nodes = graph.next_number, graph.nodes
    others = 0, 2**32 - 1, following, following + 1, draw.rng.randint(1, following)
    return [long(name), long(draw.pick(nodes) if nodes and draw.chance(0.7) else draw.pick(others))]


def verify_graph(draw):
    return [long(draw.name(model.Graph))]


def spoiled(draw, fields):
    """Draws a body of the fields, sometimes with one field replaced, truncated, or with an extra
    byte."""
    if fields and draw.chance(0.03):
        k = draw.rng.randrange(len(fields))
        # Two bytes may be a side of an image. The side becomes small or too large, so that no image
        # is large by chance.
        last, others = draw.pick((b"\0", b"\xff", draw.rng.randbytes(1))), (b"\0", b"\xff")
        fields[k] = last.rjust(len(fields[k]), draw.pick(others))
        # A body that is also truncated has two faults, the first of which decides.
        fields = fields[: k + 1] if draw.chance(0.3) else fields
    body = b"".join(fields)
    if body and draw.chance(0.03):
        # Often in its first fields.
        return body[: draw.rng.randrange(draw.pick((len(body), min(len(body), 5))))]
    if draw.chance(0.02 if body else 0.2):
        return body + draw.rng.randbytes(draw.pick((1, 1, 2, 70)))
    return body
