"""Measures OpenCV's calls for the frame of c_moves.c on one thread: python3 moves_peer.py. The
picture is in memory, and the calls write to existing arrays. Prints the least time of 60 in
microseconds, in two ways: both gradients in one call (six calls), and one call for each (seven)."""

import sys

import cv2
import numpy

sys.dont_write_bytecode = True
from shared import ROUNDS, best_seconds  # noqa: E402

cv2.setNumThreads(1)
REPLICATE, SHAPE = cv2.BORDER_REPLICATE, (1080, 1920)


def signed():
    return numpy.zeros(SHAPE, numpy.int16)


places = numpy.arange(SHAPE[0] * SHAPE[1])
picture = (31 * places + (places >> 8)).astype(numpy.uint8).reshape(SHAPE)
smooth, edges, zero = numpy.zeros_like(picture), signed(), signed()
gx, gy, away_x, away_y, both = (signed() for _ in range(5))


def by_one_call():
    cv2.spatialGradient(smooth, gx, gy, 3, REPLICATE)


def by_one_each():
    cv2.Sobel(smooth, cv2.CV_16S, 1, 0, gx, borderType=REPLICATE)
    cv2.Sobel(smooth, cv2.CV_16S, 0, 1, gy, borderType=REPLICATE)


def find_edges(find_gradients):
    cv2.GaussianBlur(picture, (3, 3), 0, smooth, borderType=REPLICATE)
    find_gradients()
    cv2.absdiff(gx, zero, away_x)
    cv2.absdiff(gy, zero, away_y)
    cv2.add(away_x, away_y, both)
    cv2.threshold(both, 100, 255, cv2.THRESH_BINARY, edges)


def least_time(find_gradients):
    return 1e6 * min(best_seconds(lambda: find_edges(find_gradients)) for _ in range(60 // ROUNDS))


print(f"six calls {least_time(by_one_call):.0f}, seven {least_time(by_one_each):.0f}")
