"""Runs each function on every combination of formats, including those that are refused."""

import itertools

from feqyldan import wire
from checks.functions.formulas import (
    BINARY, COUNTS, FOUND, FUNCTIONS, HELD, IMAGE, MATRIX, NOTHING, RANGE, SLANTED, TABLE, THIRDS)
from checks.functions.pictures import (
    ENDS, LEAST, NOWHERE, S16, U32, U8, Way, confined, entries, whole)
from checks.functions.session import CLIENT, HEIGHT
from checks.functions.worked import UNDEFINED

INVALID_FORMAT = 5


def samples_of(fmt, count, step):
    ends = ENDS[fmt]
    return [ends[(k * step + k // len(ends)) % len(ends)] for k in range(count)]


def objects(session, width, valid):
    """Creates the inputs and outputs. Returns their names by role and format, and the samples of
    the input images. The inputs are valid in the rectangle `valid`."""
    count = width * HEIGHT
    names, samples = {(NOTHING, NOTHING): None, (HELD, NOTHING): None}, {}
    for fmt in (U8, S16, U32):
        for key, step in (("first", 1), (IMAGE, 3)):
            samples[key, fmt] = samples_of(fmt, count, step)
            names[key, fmt] = session.image(fmt, width, samples[key, fmt])
            session.ask(wire.set_valid(CLIENT, names[key, fmt], valid), "SetValid")
        names["output", fmt] = session.image(fmt, width, [99] * count)
    for fmt in (U8, S16):
        names[TABLE, fmt] = session.create(wire.create_lut(CLIENT, fmt, entries(fmt)))
        for limits in (BINARY, RANGE):
            # The limits of a threshold are samples of the format.
            allowed = tuple(max(LEAST[fmt], limit) for limit in limits)
            names[limits, fmt] = session.create(wire.create_threshold(CLIENT, fmt, allowed, 200, 7))
    names[MATRIX, NOTHING] = session.convolution(SLANTED)
    names["output", COUNTS] = session.distribution(THIRDS)
    names["output", FOUND] = session.create(wire.create_min_max(CLIENT))
    return names, samples


def all_formats(names, second, allowed):
    """Returns every combination of formats of both inputs and the output, or the kind of an output
    that is not an image."""
    seconds = [fmt for fmt in (NOTHING, U8, S16, U32) if (second, fmt) in names]
    kinds = {output for _, _, output in allowed} & {COUNTS, FOUND}
    return itertools.product((U8, S16, U32), seconds, kinds or (U8, S16, U32))


def formats(session, width, valid):
    """Runs every function on every format, on images that are valid in a rectangle. Returns the
    number of nodes that match their formulas, and of those that are refused."""
    names, samples = objects(session, width, valid)
    ran = refused = 0
    for number, second, policies, amounts, allowed, gives in FUNCTIONS:
        for first, beside, output in all_formats(names, second, allowed):
            operands = names["first", first], names[second, beside], names["output", output]
            picture = confined(whole(width, HEIGHT, samples["first", first]), valid)
            others = [max(LEAST[first], -1)] * width * HEIGHT
            given = {IMAGE: samples.get((IMAGE, beside)), MATRIX: SLANTED}.get(second, others)
            for policy, amount in itertools.product(policies, amounts):
                way = Way(output, policy, amount)
                words = f"function {number} of {first} and {beside}, {width} wide, {valid}, {way}"
                if (first, beside, output) not in allowed:
                    session.run(number, *operands, way, words, INVALID_FORMAT)
                    refused += 1
                elif second != HELD:
                    session.run(number, *operands, way, words)
                    session.holds(operands[2], output, gives(picture, given, way), words)
                    ran += 1
    picture = confined(whole(width, HEIGHT, samples["first", U8]), valid)
    ran += added(session, picture, names["first", U8], names["output", S16])
    return ran, refused + gradients_refused(session, names)


def held_before(picture):
    """Returns the prior contents of an output to which samples of this picture are added: valid
    everywhere, in a part, and nowhere."""
    width, height = picture.width, picture.height
    held = whole(width, height, samples_of(S16, width * height, 5))
    part = (width // 3, height // 3, width, height)
    return [held, confined(held, part), confined(held, NOWHERE)]


def added(session, picture, first, output):
    """Runs each accumulating function twice on the same output. Returns the number of nodes that
    ran."""
    rows = [(number, Way(S16, amount=amount), gives)
            for number, second, _, amounts, _, gives in FUNCTIONS if second == HELD
            for amount in amounts]
    for (number, way, gives), held in itertools.product(rows, held_before(picture)):
        words = f"function {number} of {picture.valid} to {held.valid}, {picture.width} wide, {way}"
        session.write(output, S16, held)
        for sums in (gives(picture, held, way), gives(picture, gives(picture, held, way), way)):
            session.run(number, first, None, output, way, words)
            session.shows(output, S16, sums, words)
    return len(rows) * len(held_before(picture)) * 2


def gradients_refused(session, names):
    """Runs Sobel into each pair of formats other than two S16 outputs, one of which may be absent.
    Returns the number of refusals."""
    pairs = [(one, other) for one in (None, U8, S16, U32) for other in (U8, S16, U32)
             if not {one, other} <= {None, S16}]
    for one, other in pairs:
        out1, words = names.get(("output", one)), f"Sobel to {one} and {other}"
        session.run(wire.SOBEL, names["first", U8], None, out1, UNDEFINED, words, INVALID_FORMAT,
                    names[IMAGE, other])
    return len(pairs)
