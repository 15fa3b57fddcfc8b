"""Misreadings of PGM texts."""

import re

from feqyldan.wire import (
    INVALID_DIMENSION, INVALID_FORMAT, INVALID_PARAMETERS, INVALID_TYPE, INVALID_VALUE, S16, U32,
    U8)
from checks import model
from checks.model.faults.fault import Fault, right, with_fields, with_outcome
from checks.model.state import READ_IMAGE_PGM, WRITE_IMAGE_PGM


def with_grammar(space=right.SPACE, comment=right.COMMENT, number=right.NUMBER, gap=None,
                 plain_gap=None, end=None):
    """Changes the grammar of texts: their parts, the gap between P2's samples, or the ending."""
    gap = gap or b"(?:" + space + b"|" + comment + b")+"
    header = b"(P2|P5)" + 3 * (gap + b"(" + number + b")")
    raster = b"(?:" + (plain_gap or gap) + number + b")*(?:" + (gap if end is None else end) + b")?"
    return {"SPACE": space, "COMMENT": comment, "NUMBER": number, "GAP": gap, "HEADER": header,
            "PLAIN_RASTER": raster}


def with_picture(change):
    """Replaces the parsed picture, as a function of the picture and maxval."""
    return {"picture_of": lambda text: change(right.picture_of(text), right.header_of(text)[1][2])}


def rescaled(picture, maxval):
    greatest = 255 if picture.fmt == U8 else 32767
    return picture._replace(samples=[sample * greatest // maxval for sample in picture.samples])


def texts_of_shorts(first):
    """Samples are S16 from another maxval on."""
    def picture_of(text):
        picture, maxval = right.picture_of(text), right.header_of(text)[1][2]
        fmt = U8 if maxval < first else S16
        return picture._replace(fmt=fmt,
                                samples=[right.wrap(sample, fmt) for sample in picture.samples])

    return {"picture_of": picture_of}


def texts_to(greatest):
    """Another greatest maxval. Samples beyond S16 wrap."""
    def picture_of(text):
        picture = right.picture_of(text)
        return picture._replace(samples=[right.wrap(sample, picture.fmt)
                                         for sample in picture.samples])

    return {"GREATEST_MAXVAL": greatest, "picture_of": picture_of}


def above_maxval(text):
    """A sample above maxval becomes maxval."""
    magic, (width, height, maxval), rest = right.header_of(text)
    try:
        return right.picture_of(text)
    except model.Refused as refusal:
        if refusal.code != INVALID_VALUE:
            raise
    fmt, count = U8 if maxval < 256 else S16, width * height
    if magic == b"P2":
        samples = right.plain_samples(rest, count)
    else:
        samples = right.raster_samples(rest, fmt, count)
    return right.Image(fmt, width, height, right.whole(width, height),
                       [min(sample, maxval) for sample in samples])


def maxval_before_sides(text):
    maxval = right.header_of(text)[1][2]
    model.refuse_if(not 1 <= maxval <= right.GREATEST_MAXVAL, INVALID_FORMAT)
    return right.picture_of(text)


def maxval_is_value(text):
    width, height, maxval = right.header_of(text)[1]
    is_told = all(1 <= side <= right.GREATEST_SIDE for side in (width, height))
    model.refuse_if(is_told and not 1 <= maxval <= right.GREATEST_MAXVAL, INVALID_VALUE)
    return right.picture_of(text)


def sides_to(greatest):
    """Other greatest sides of a picture."""
    def picture_of(text):
        sides = right.header_of(text)[1][:2]
        model.refuse_if(any(side > greatest for side in sides), INVALID_DIMENSION)
        return right.picture_of(text)

    return {"picture_of": picture_of}


def raster_before_sides(text):
    magic, (width, height, maxval), rest = right.header_of(text)
    fmt, count = U8 if maxval < 256 else S16, width * height
    model.refuse_if(magic == b"P5" and len(rest) != count * right.sample_bytes(fmt), INVALID_FORMAT)
    if magic == b"P2":
        right.plain_samples(rest, count)
    return right.picture_of(text)


def sample_before_raster(text):
    """Reports a sample above maxval even in a P2 text with a later fault."""
    try:
        return right.picture_of(text)
    except model.Refused as refusal:
        if refusal.code != INVALID_FORMAT:
            raise
    magic, (_, _, maxval), rest = right.header_of(text)
    numbers = re.findall(rb"\d+", re.sub(right.COMMENT, b" ", rest)) if magic == b"P2" else []
    is_fault = 1 <= maxval <= right.GREATEST_MAXVAL and any(right.number_of(digits) > maxval
                                                            for digits in numbers)
    raise model.Refused(INVALID_VALUE if is_fault else INVALID_FORMAT)


def header_after(taken):
    """P5's header ends with something other than one whitespace byte."""
    def header_of(text):
        header = re.match(right.HEADER, text)
        end = re.match(taken, text[header.end() :]) if header and header[1] == b"P5" else None
        if end is None:
            return right.header_of(text)
        return b"P5", [right.number_of(digits)
                       for digits in header.groups()[1:]], text[header.end() + end.end() :]

    return {"header_of": header_of}


def with_text(change):
    """Transforms texts before they are parsed."""
    return {"picture_of": lambda text: right.picture_of(change(text))}


def with_whitespace_at_end(text):
    """A P2 text that ends with a number gets a wrong ending."""
    return text + b"#" if text[:2] == b"P2" and text[-1:].isdigit() else text


def without_comments(text):
    """Only removes comments, which then don't separate numbers. P5's raster is not changed."""
    return re.sub(right.COMMENT, b"", text) if text[:2] == b"P2" else text


def low_byte_first(raster, fmt, count):
    samples = right.raster_samples(raster, fmt, count)
    return samples if fmt == U8 else [sample % 256 * 256 + sample // 256 for sample in samples]


def raster_with_more(raster, fmt, count):
    return right.raster_samples(raster[: count * right.sample_bytes(fmt)], fmt, count)


def raster_with_less(raster, fmt, count):
    return right.raster_samples(raster.ljust(count * right.sample_bytes(fmt), b"\0"), fmt, count)


def plain_of_any(rest, count):
    model.refuse_if(re.fullmatch(right.PLAIN_RASTER, rest) is None, INVALID_FORMAT)
    numbers = re.sub(right.COMMENT, b" ", rest).split()[:count]
    return [right.number_of(digits) for digits in numbers] + [0] * (count - len(numbers))


def plain_until_fault(rest, count):
    """Bytes after the last sample are ignored."""
    found = re.match(b"(?:" + right.GAP + right.NUMBER + b"){%d}" % count, rest)
    return right.plain_samples(rest if found is None else found[0], count)


def write_pgm(before):
    """Adds a check to WriteImagePgm before its other refusals."""
    def write_image_pgm(limits, state, cell, text):
        before(state, cell, text)
        return right.write_image_pgm(limits, state, cell, text)

    return with_outcome(WRITE_IMAGE_PGM, write_image_pgm)


def text_before_image(state, cell, text):
    right.picture_of(text)


def format_before_text(state, cell, text):
    """Checks the format as soon as maxval is known."""
    image = right.image_in(state.context, cell)
    _, _, maxval = right.header_of(text)[1]
    is_told = 1 <= maxval <= right.GREATEST_MAXVAL
    model.refuse_if(is_told and image.fmt != (U8 if maxval < 256 else S16), INVALID_FORMAT)


def size_before_raster(state, cell, text):
    """Checks the size as soon as it is known."""
    image = right.image_in(state.context, cell)
    model.refuse_if(right.header_of(text)[1][:2] != [image.width, image.height], INVALID_DIMENSION)


def size_before_format(state, cell, text):
    image = right.image_in(state.context, cell)
    model.refuse_if(not right.same_size(right.picture_of(text), image), INVALID_DIMENSION)


def write_pgm_alone(limits, state, cell, text):
    valid = right.image_in(state.context, cell).valid
    right.write_image_pgm(limits, state, cell, text)
    right.put(state.context, cell, right.image_in(state.context, cell)._replace(valid=valid))
    return b""


def write_pgm_where_valid(limits, state, cell, text):
    valid = right.image_in(state.context, cell).valid
    right.write_image_pgm(limits, state, cell, text)
    right.put(state.context, cell, right.confined(right.image_in(state.context, cell), valid))
    return b""


def some_text(fields):
    text = fields.rest()
    model.refuse_if(not text, INVALID_PARAMETERS)
    return text


def read_pgm_of_any(_, state, cell):
    image = right.image_in(state.context, cell)
    if image.fmt == U8:
        return right.text_of(image)
    model.refuse_if(image.fmt == U32 or any(sample < 0 for sample in image.samples), INVALID_FORMAT)
    return b"P5\n%d %d\n32767\n" % (image.width, image.height) + right.encoded_samples(image)


def read_pgm_of_bytes(limits, state, cell):
    """An image that isn't U8 is refused as the wrong kind."""
    model.refuse_if(right.image_in(state.context, cell).fmt != U8, INVALID_TYPE)
    return right.read_image_pgm(limits, state, cell)


def with_header(header):
    """Texts with another magic."""
    return {"text_of": lambda image: header(image) + right.text_of(image).split(b"\n", 3)[3]}


def text_of_valid(image):
    left, top, end, bottom = image.valid
    part = [right.sample_at(image, x, y) for x, y in right.places(image.valid)]
    return right.text_of(image._replace(width=end - left, height=bottom - top, samples=part))


PGM_FAULTS = tuple(Fault(words, WRITE_IMAGE_PGM, changes) for words, changes in (
    ("samples are rescaled", with_picture(rescaled)),
    ("a maxval of 255 gives S16", texts_of_shorts(255)),
    ("a maxval of 256 gives U8", texts_of_shorts(257)),
    ("maxval may be 32768", texts_to(32768)),
    ("maxval is 32766 at most", texts_to(32766)),
    ("a sample above maxval is maxval", {"picture_of": above_maxval}),
    ("maxval is told before the sides", {"picture_of": maxval_before_sides}),
    ("a maxval that isn't allowed is told as INVALID_VALUE", {"picture_of": maxval_is_value}),
    ("a text's sides are 4096 at most", sides_to(4096)),
    ("the raster is told before the sides", {"picture_of": raster_before_sides}),
    ("a sample above maxval is told before what is wrong after it",
     {"picture_of": sample_before_raster}),
    ("a comment may follow the maxval of P5", header_after(right.COMMENT)),
    ("CR LF may follow the maxval of P5", header_after(b"\r\n")),
    ("nothing need follow the maxval of P5", header_after(b"")),
    ("a comment ends at LF alone", with_grammar(comment=rb"#[^\n]*\n")),
    ("a comment may end with the text", with_grammar(comment=rb"#[^\r\n]*(?:[\r\n]|\Z)")),
    ("a comment within a number is left out", with_text(without_comments)),
    ("a comment follows whitespace alone",
     with_grammar(gap=rb"[ \t\r\n](?:[ \t\r\n]|#[^\r\n]*[\r\n])*")),
    ("no comment stands between samples", with_grammar(plain_gap=right.SPACE + b"+")),
    ("no comment stands at the end", with_grammar(end=right.SPACE + b"*")),
    ("VT is whitespace", with_grammar(space=rb"[ \t\r\n\x0b]")),
    ("CR is no whitespace", with_grammar(space=rb"[ \t\n]")),
    ("a number has no leading zeros", with_grammar(number=rb"(?:0|[1-9][0-9]*)")),
    ("a number may have a sign",
     {**with_grammar(number=rb"[+-]?[0-9]+"),
      "number_of": lambda digits: right.number_of(digits.lstrip(b"+-"))}),
    ("whitespace may stand before the text", with_text(lambda text: text.lstrip(b" \t\r\n"))),
    ("a P2 text ends with its last number", with_grammar(end=b"")),
    ("a P2 text ends with whitespace", with_text(with_whitespace_at_end)),
    ("samples of two bytes have the low one first", {"raster_samples": low_byte_first}),
    ("bytes may follow the raster of P5", {"raster_samples": raster_with_more}),
    ("what lacks of the raster of P5 is 0", {"raster_samples": raster_with_less}),
    ("numbers may follow the samples of P2, and those that lack are 0",
     {"plain_samples": plain_of_any}),
    ("anything may follow the samples of P2", {"plain_samples": plain_until_fault}),
    ("a text's fault is told before what is wrong with its image", write_pgm(text_before_image)),
    ("a text's format is compared as soon as it is told", write_pgm(format_before_text)),
    ("a text's size is compared as soon as it is told", write_pgm(size_before_raster)),
    ("a text's size is compared before its format", write_pgm(size_before_format)),
    ("WriteImagePgm leaves the valid rectangle", with_outcome(WRITE_IMAGE_PGM, write_pgm_alone)),
    ("WriteImagePgm writes where the image is valid",
     with_outcome(WRITE_IMAGE_PGM, write_pgm_where_valid)),
    ("an empty text answers INVALID_PARAMETERS",
     with_fields(WRITE_IMAGE_PGM, right.take_cell, some_text)),
)) + tuple(Fault(words, READ_IMAGE_PGM, changes) for words, changes in (
    ("ReadImagePgm gives S16 too", with_outcome(READ_IMAGE_PGM, read_pgm_of_any)),
    ("ReadImagePgm of S16 answers INVALID_TYPE", with_outcome(READ_IMAGE_PGM, read_pgm_of_bytes)),
    ("a text that is written has blanks alone",
     with_header(lambda image: b"P5 %d %d 255\n" % (image.width, image.height))),
    ("a text that is written has its height first",
     with_header(lambda image: b"P5\n%d %d\n255\n" % (image.height, image.width))),
    ("a text that is written has the greatest sample as maxval",
     with_header(lambda image: b"P5\n%d %d\n%d\n" % (image.width, image.height,
                                                     max(1, *image.samples, 0)))),
    ("a text that is written has the valid part alone", {"text_of": text_of_valid}),
))
