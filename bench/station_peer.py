"""Measures OpenCV's calls for a picture of bench/station on one thread, and prints the times as
JSON: python3 station_peer.py WIDTH HEIGHT COUNT. Each call writes to an existing array."""

import json
import random
import sys

import cv2
import numpy

sys.dont_write_bytecode = True
from shared import best_seconds  # noqa: E402

width, height, count = map(int, sys.argv[1:])
cv2.setNumThreads(1)
chance = random.Random(1)
sent = [numpy.frombuffer(chance.randbytes(width * height), numpy.uint8).reshape(height, width)
        for _ in range(8)]
clean = numpy.zeros_like(sent[0])
smooth, difference, differing, marks = (numpy.empty_like(clean) for _ in range(4))


def inspect():
    for k in range(count):
        cv2.medianBlur(sent[k % len(sent)], 3, smooth)
        cv2.absdiff(smooth, clean, difference)
        cv2.threshold(difference, 24, 255, cv2.THRESH_BINARY, differing)
        cv2.medianBlur(differing, 3, marks)


print(json.dumps({"picture": best_seconds(inspect) / count}))
