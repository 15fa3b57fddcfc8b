"""Window functions and statistics, with every border mode and valid rectangles of all kinds."""

import functools
import itertools
import random

from feqyldan import wire
from checks.functions.formulas import (
    FUNCTIONS, HELD, convolved, counts, extremes, gradient_x, gradient_y, integral)
from checks.functions.pictures import (
    ENDS, GREATEST, LEAST, NOWHERE, S16, U32, U8, Bins, Convolution, Way, confined, whole)
from checks.functions.session import CLIENT, Session

# Sizes of pictures for window functions and statistics.
SHAPES = tuple(itertools.product((1, 2, 15, 16, 17, 33, 65), (1, 2, 3, 4)))

BORDERS = ((wire.UNDEFINED, 0), (wire.CONSTANT, 0), (wire.CONSTANT, 100), (wire.CONSTANT, 255),
           (wire.REPLICATE, 0))
NINES = [(row[0], row[5]) for row in FUNCTIONS if wire.BOX <= row[0] <= wire.DILATE]
SUMS = [(row[0], row[5]) for row in FUNCTIONS if row[1] == HELD]
SIDES = (3, 5, 7, 9)
MANY_BINS = (Bins(256, 0, 256), Bins(3, 0, 256), Bins(7, 3, 250), Bins(16, 100, 16),
             Bins(5, 200, 256),
             Bins(1, 128, 128))


def rectangles(width, height):
    """Returns the whole rectangle of a picture, parts of it, one pixel, and the empty rectangle."""
    x, y = width // 2, height // 2
    parts = ((1, 0, width, height), (0, 1, width - 1, height), (1, 1, width - 1, height - 1),
             (0, 0, x, y),
             (x, y, x + 1, y + 1))
    return [(0, 0, width, height),
            *(part for part in parts if part[0] < part[2] and part[1] < part[3]), NOWHERE]


def convolutions(rng):
    """Returns two convolutions of each size: one whose results mostly fit, and one of any
    coefficients with a large scale."""
    for columns, rows in itertools.product(SIDES, SIDES):
        count = columns * rows
        yield Convolution(columns, rows, rng.randrange(4),
                          tuple(rng.randint(-9, 9) for _ in range(count)))
        yield Convolution(columns, rows, rng.choice((0, 12, 15, 16, 20, 31)),
                          tuple(rng.randint(-32768, 32767) for _ in range(count)))


def samples_at_random(rng, fmt, count):
    least, greatest = LEAST[fmt], GREATEST[fmt]
    return [rng.choice(ENDS[fmt]) if rng.random() < 0.2 else rng.randint(least, greatest)
            for _ in range(count)]


class Shape:
    """Pictures of one size, with the outputs of window functions and statistics."""

    def __init__(self, width, height, seed):
        rng, count = random.Random(seed), width * height
        self.session, self.ran = Session(), 0
        self.pictures = {fmt: whole(width, height, samples_at_random(rng, fmt, count))
                         for fmt in (U8, S16)}
        image = functools.partial(self.session.image, width=width, height=height)
        self.inputs = {fmt: image(fmt, samples=picture.samples)
                       for fmt, picture in self.pictures.items()}
        self.outputs = {fmt: image(fmt, samples=[99] * count) for fmt in (U8, S16, U32)}
        self.other = image(S16, samples=[99] * count)
        self.convolutions = [(self.session.convolution(convolution), convolution)
                             for convolution in convolutions(rng)]
        self.distributions = [(self.session.distribution(bins), bins) for bins in MANY_BINS]
        self.extremes = self.session.create(wire.create_min_max(CLIENT))
        for valid in rectangles(width, height):
            self.run(valid)

    def run(self, valid):
        """Runs all functions on pictures that are valid in this rectangle."""
        pictures = {fmt: confined(picture, valid) for fmt, picture in self.pictures.items()}
        for fmt, picture in self.pictures.items():
            self.session.write(self.inputs[fmt], fmt, picture._replace(valid=valid))
        self.sums(pictures[U8])
        for border, constant in BORDERS:
            way, size = Way(U8, border=border,
                            constant=constant), f"{pictures[U8].width} by {pictures[U8].height}"
            words = f"{valid} of {size}, border {border}, constant {constant}"
            self.windows(pictures[U8], way, words)
            self.convolve(pictures[U8], way, words)
            self.statistics(pictures, way, words)

    def windows(self, picture, way, words):
        for number, gives in NINES:
            self.node(number, None, U8, gives(picture, None, way), way, words)
        name, out1 = self.inputs[U8], self.outputs[S16]
        words = f"Sobel, {words}"
        self.session.run(wire.SOBEL, name, None, out1, way, words, 0, self.other)
        self.session.shows(out1, S16, gradient_x(picture, None, way), words)
        self.session.shows(self.other, S16, gradient_y(picture, None, way), f"{words}, out2")
        self.ran += 1

    def convolve(self, picture, way, words):
        for name, convolution in self.convolutions:
            for fmt in (U8, S16):
                value = convolved(picture, convolution, way._replace(fmt=fmt))
                self.node(wire.CONVOLVE, name, fmt, value, way, f"{convolution}, {words}")

    def sums(self, picture):
        """Runs the accumulating functions on outputs with each valid rectangle."""
        places = rectangles(picture.width, picture.height)
        for valid, (number, gives) in itertools.product(places, SUMS):
            held = confined(self.pictures[S16], valid)
            self.session.write(self.outputs[S16], S16, held)
            way, words = Way(S16), f"{picture.valid} of {picture.width} wide to {valid}"
            self.node(number, None, S16, gives(picture, held, way), way, words)

    def node(self, number, in2, fmt, value, way, words):
        words = f"function {number} to {fmt}, {words}"
        self.session.run(number, self.inputs[U8], in2, self.outputs[fmt], way, words)
        self.session.shows(self.outputs[fmt], fmt, value, words)
        self.ran += 1

    def statistics(self, pictures, way, words):
        self.node(wire.INTEGRAL, None, U32, integral(pictures[U8], None, way), way, words)
        for name, bins in self.distributions:
            self.session.run(wire.HISTOGRAM, self.inputs[U8], None, name, way, words)
            self.session.counted(name, counts(pictures[U8], bins), f"{bins}, {words}")
        for fmt, picture in pictures.items():
            self.session.run(wire.MIN_MAX_LOCATION, self.inputs[fmt], None, self.extremes, way,
                             words)
            self.session.found(self.extremes, extremes(picture), f"MinMaxLoc of {fmt}, {words}")
        self.ran += len(self.distributions) + len(pictures)
