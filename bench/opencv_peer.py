"""Measures OpenCV's functions on one thread, and prints the times as JSON: python3 opencv_peer.py
WIDTH HEIGHT COUNT [CASE..]. The default is all cases.

Each case has its name in bench/functions, and OpenCV's own name of the function, or NumPy's if
OpenCV has none in Python. That name says if OpenCV does more or less. Outputs are existing arrays.
"""

import json
import random
import sys

import cv2
import numpy

sys.dont_write_bytecode = True
from shared import best_seconds  # noqa: E402

width, height, count = map(int, sys.argv[1:4])
asked = sys.argv[4:]
cv2.setNumThreads(1)
pixels = width * height
first = numpy.frombuffer(bytes(range(256)) * (pixels // 256), numpy.uint8).reshape(height,
                                                                                   width).copy()
second = first[:, ::-1].copy()
shorts = numpy.arange(pixels, dtype=numpy.uint16).astype(numpy.int16).reshape(height, width)
others = shorts[::-1, ::-1].copy()
byte_output, short_output = numpy.empty_like(first), numpy.empty_like(shorts)
short_sums, float_sums = numpy.zeros_like(shorts), numpy.zeros_like(first, numpy.float32)
table = numpy.arange(255, -1, -1, dtype=numpy.uint8)
short_table = numpy.arange(32767, -32769, -1).astype(numpy.int16)
indices = shorts.view(numpy.uint16)

bytes_of_noise = random.Random(1).randbytes(2 * pixels)
noise = numpy.frombuffer(bytes_of_noise[:pixels], numpy.uint8).reshape(height, width).copy()
short_noise = numpy.frombuffer(bytes_of_noise, ">i2").astype(numpy.int16).reshape(height, width)
constant = numpy.full_like(first, 100)
second_output = numpy.empty_like(shorts)
sums = numpy.empty((height + 1, width + 1), numpy.int32)
counts = numpy.empty((256, 1), numpy.float32)
square = numpy.ones((3, 3), numpy.uint8)
REPLICATE = cv2.BORDER_REPLICATE

PIXELWISE = {
    "AndBits": ("bitwise_and", lambda: cv2.bitwise_and(first, second, byte_output)),
    "OrBits": ("bitwise_or", lambda: cv2.bitwise_or(first, second, byte_output)),
    "XorBits": ("bitwise_xor", lambda: cv2.bitwise_xor(first, second, byte_output)),
    "NotBits": ("bitwise_not", lambda: cv2.bitwise_not(first, byte_output)),
    "Add, U8 to U8, SATURATE": ("add", lambda: cv2.add(first, second, byte_output)),
    "Add, U8 to U8, WRAP": ("NumPy's add", lambda: numpy.add(first, second, byte_output)),
    "Add, U8 to S16": ("add to CV_16S",
                       lambda: cv2.add(first, second, short_output, dtype=cv2.CV_16S)),
    "Add, S16, SATURATE": ("add", lambda: cv2.add(shorts, others, short_output)),
    "Subtract, U8 to U8, SATURATE": ("subtract", lambda: cv2.subtract(first, second, byte_output)),
    "Subtract, S16, SATURATE": ("subtract", lambda: cv2.subtract(shorts, others, short_output)),
    "Multiply, U8 to U8, n = 8": (
        "multiply by 1/256", lambda: cv2.multiply(first, second, byte_output, 1 / 256)),
    "Multiply, S16, n = 8": (
        "multiply by 1/256", lambda: cv2.multiply(shorts, others, short_output, 1 / 256)),
    "AbsoluteDifference, U8": ("absdiff", lambda: cv2.absdiff(first, second, byte_output)),
    "AbsoluteDifference, S16": ("absdiff", lambda: cv2.absdiff(shorts, others, short_output)),
    "MinPixel, U8": ("min", lambda: cv2.min(first, second, byte_output)),
    "MinPixel, S16": ("min", lambda: cv2.min(shorts, others, short_output)),
    "MaxPixel, U8": ("max", lambda: cv2.max(first, second, byte_output)),
    "Threshold, U8, BINARY": (
        "threshold", lambda: cv2.threshold(first, 100, 255, cv2.THRESH_BINARY, byte_output)),
    "Threshold, U8, RANGE": ("inRange", lambda: cv2.inRange(first, 100, 200, byte_output)),
    "Threshold, S16, BINARY": ("inRange", lambda: cv2.inRange(shorts, 101, 32767, byte_output)),
    "TableLookup, U8": ("LUT", lambda: cv2.LUT(first, table, byte_output)),
    "TableLookup, S16": (
        "NumPy's take",
        lambda: numpy.take(short_table, indices, out=short_output, mode="wrap")),
    "ConvertDepth, U8 to S16, shift 4": (
        "NumPy's left_shift",
        lambda: numpy.left_shift(first, 4, out=short_output, dtype=numpy.int16)),
    "ConvertDepth, S16 to U8, shift 4": (
        "convertScaleAbs by 1/16", lambda: cv2.convertScaleAbs(shorts, byte_output, 1 / 16)),
    "Accumulate": ("accumulate, to floats", lambda: cv2.accumulate(first, float_sums)),
    "Accumulate, against add": (
        "add to CV_16S, in place",
        lambda: cv2.add(short_sums, first, short_sums, dtype=cv2.CV_16S)),
    "AccumulateSquare, s = 8": (
        "accumulateSquare, to floats, not shifted",
        lambda: cv2.accumulateSquare(first, float_sums)),
}


def filtered(side, depth, output):
    """Runs filter2D, which doesn't flip its kernel. The kernel is therefore the server's
    convolution flipped, divided by 2^4."""
    coefficients = [k % 7 - 3 or 4 for k in range(side * side)]
    kernel = numpy.array(coefficients[::-1], numpy.float32).reshape(side, side) / 16
    return lambda: cv2.filter2D(noise, depth, kernel, output, borderType=REPLICATE)


WINDOWS = {
    "Box": ("blur, to nearest", lambda: cv2.blur(noise, (3, 3), byte_output, borderType=REPLICATE)),
    "Gaussian": (
        "GaussianBlur, to nearest",
        lambda: cv2.GaussianBlur(noise, (3, 3), 0, byte_output, borderType=REPLICATE)),
    "Median": ("medianBlur", lambda: cv2.medianBlur(noise, 3, byte_output)),
    "Erode": ("erode", lambda: cv2.erode(noise, square, byte_output, borderType=REPLICATE)),
    "Dilate": ("dilate", lambda: cv2.dilate(noise, square, byte_output, borderType=REPLICATE)),
    "Sobel, gx alone": (
        "Sobel to CV_16S",
        lambda: cv2.Sobel(noise, cv2.CV_16S, 1, 0, short_output, borderType=REPLICATE)),
    "Sobel, gy alone": (
        "Sobel to CV_16S",
        lambda: cv2.Sobel(noise, cv2.CV_16S, 0, 1, short_output, borderType=REPLICATE)),
    "Sobel, both": (
        "spatialGradient",
        lambda: cv2.spatialGradient(noise, short_output, second_output, 3, REPLICATE)),
    "Convolve, 3x3 to U8": ("filter2D, to nearest", filtered(3, cv2.CV_8U, byte_output)),
    "Convolve, 3x3 to S16": (
        "filter2D to CV_16S, to nearest", filtered(3, cv2.CV_16S, short_output)),
    "Convolve, 5x5 to S16": (
        "filter2D to CV_16S, to nearest", filtered(5, cv2.CV_16S, short_output)),
    "Convolve, 9x9 to S16": (
        "filter2D to CV_16S, to nearest", filtered(9, cv2.CV_16S, short_output)),
}

STATISTICS = {
    "Histogram, noise": ("calcHist",
                         lambda: cv2.calcHist([noise], [0], None, [256], [0, 256], counts)),
    "Histogram, constant": ("calcHist",
                            lambda: cv2.calcHist([constant], [0], None, [256], [0, 256], counts)),
    "Integral": ("integral, a row and a column more",
                 lambda: cv2.integral(noise, sums, cv2.CV_32S)),
    "MinMaxLoc, U8, noise": ("minMaxLoc, without counts", lambda: cv2.minMaxLoc(noise)),
    "MinMaxLoc, U8, constant": ("minMaxLoc, without counts", lambda: cv2.minMaxLoc(constant)),
    "MinMaxLoc, S16, noise": ("minMaxLoc, without counts", lambda: cv2.minMaxLoc(short_noise)),
}


def those_asked(cases):
    return {case: rest for case, rest in cases.items() if not asked or case in asked}


def times():
    for case, (name, function) in those_asked(PIXELWISE | STATISTICS).items():
        yield case, (name, best_seconds(function, count))
    for case, (name, function) in those_asked(WINDOWS).items():
        # OpenCV always computes the border, so one time serves both border modes.
        seconds = best_seconds(function, count)
        yield f"{case}, REPLICATE", (name, seconds)
        yield f"{case}, UNDEFINED", (name + ", with its border", seconds)


print(json.dumps(dict(times())))
