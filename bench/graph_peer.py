"""Measures OpenCV's calls for the chains of bench/graphs on one thread, and prints the times as
JSON: python3 graph_peer.py WIDTH HEIGHT COUNT CHAIN... The chains have their names in bench/graphs.
Each call writes to an existing array; a chain has one array per link."""

import json
import random
import sys

import cv2
import numpy

sys.dont_write_bytecode = True
from shared import best_seconds  # noqa: E402

width, height, count = map(int, sys.argv[1:4])
cv2.setNumThreads(1)


def noise(seed):
    samples = numpy.frombuffer(random.Random(seed).randbytes(width * height), numpy.uint8)
    return samples.reshape(height, width).copy()


first, second = noise(1), noise(2)
arrays = [numpy.empty_like(first) for _ in range(16)]
gradients = [numpy.empty_like(first, numpy.int16) for _ in range(2)]
counts = numpy.empty((256, 1), numpy.float32)
sums = numpy.empty((height + 1, width + 1), numpy.int32)
square = numpy.ones((3, 3), numpy.uint8)
REPLICATE = cv2.BORDER_REPLICATE


def gaussian(a, out):
    cv2.GaussianBlur(a, (3, 3), 0, out, borderType=REPLICATE)


def difference(a, out):
    cv2.absdiff(a, second, out)


def great(a, out):
    cv2.threshold(a, 100, 255, cv2.THRESH_BINARY, out)


def erode(a, out):
    cv2.erode(a, square, out, borderType=REPLICATE)


def dilate(a, out):
    cv2.dilate(a, square, out, borderType=REPLICATE)


PIXELWISE = (
    lambda a, out: cv2.bitwise_not(a, out),
    lambda a, out: cv2.absdiff(a, first, out),
    lambda a, out: cv2.min(a, first, out),
    lambda a, out: cv2.add(a, first, out),
)
WINDOWS = (gaussian, lambda a, out: cv2.medianBlur(a, 3, out), erode, dilate)
MOTION = (difference, great, erode, dilate)


def run(calls, length=4):
    source = first
    for k in range(length):
        calls[k % len(calls)](source, arrays[k])
        source = arrays[k]


def looked_at(look):
    """Computes the difference, statistics of the difference, and a threshold of it."""
    apart, out = arrays[:2]
    difference(first, apart)
    look(apart)
    great(apart, out)


def measure(a):
    cv2.calcHist([a], [0], None, [256], [0, 256], counts)
    cv2.minMaxLoc(a)


# With OpenCV's rounding to nearest, these give a quarter of a gradient, rounded down.
QUARTER, DOWN = 1 / 4, -3 / 8


def edges_of_both():
    smooth, *outputs = arrays[:3]
    gaussian(first, smooth)
    cv2.spatialGradient(smooth, *gradients, 3, REPLICATE)
    for gradient, out in zip(gradients, outputs):
        # Negative values become 0 first, because convertScaleAbs would take their absolute value.
        cv2.threshold(gradient, 0, 0, cv2.THRESH_TOZERO, gradient)
        cv2.convertScaleAbs(gradient, out, QUARTER, DOWN)


def edges_of_each():
    smooth, *outputs = arrays[:3]
    gaussian(first, smooth)
    for (dx, dy), out in zip(((1, 0), (0, 1)), outputs):
        cv2.Sobel(smooth, cv2.CV_8U, dx, dy, out, 3, QUARTER, DOWN, REPLICATE)


# Alternative implementations of a chain; the fastest one counts.
CHAINS = {
    "4 nodes, pixelwise": (lambda: run(PIXELWISE),),
    "16 nodes, pixelwise": (lambda: run(PIXELWISE, 16),),
    "4 nodes, windows": (lambda: run(WINDOWS),),
    "16 nodes, windows": (lambda: run(WINDOWS, 16),),
    "motion": (lambda: run(MOTION),),
    "edges": (edges_of_both, edges_of_each),
    "measured": (lambda: looked_at(measure),),
    "summed": (lambda: looked_at(lambda a: cv2.integral(a, sums)),),
}
times = {
    name: min(best_seconds(way, count) for way in CHAINS[name])
    for name in sys.argv[4:]
}
print(json.dumps(times))
