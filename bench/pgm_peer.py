"""Measures OpenCV's PGM reader and writer on one thread, and prints the times as JSON: python3
pgm_peer.py COUNT RAW PLAIN.

RAW and PLAIN are files with a P5 and a P2 text of the same picture. Each case has its name in
bench/pgm, and OpenCV's own name of the function. Each call allocates its output, because OpenCV's
Python functions can't reuse one.
"""

import json
import sys

import cv2
import numpy

sys.dont_write_bytecode = True
from shared import best_seconds  # noqa: E402

count = int(sys.argv[1])
cv2.setNumThreads(1)
# Freeing a large block first makes the C library keep the memory of later outputs. Otherwise most
# of the time would be page faults, which a program that reads into an existing array doesn't have.
numpy.ones(2**24, numpy.uint8)
raw, plain = (numpy.fromfile(path, numpy.uint8) for path in sys.argv[2:])
picture = cv2.imdecode(raw, cv2.IMREAD_GRAYSCALE)
assert numpy.array_equal(picture,
                         cv2.imdecode(plain, cv2.IMREAD_GRAYSCALE)), "both texts are of one picture"
assert numpy.array_equal(raw,
                         cv2.imencode(".pgm", picture)[1].ravel()), "OpenCV writes the same P5 text"

CASES = {
    "P5 in": ("imdecode", lambda: cv2.imdecode(raw, cv2.IMREAD_GRAYSCALE)),
    "P2 in": ("imdecode", lambda: cv2.imdecode(plain, cv2.IMREAD_GRAYSCALE)),
    "P5 out": ("imencode", lambda: cv2.imencode(".pgm", picture)),
}

print(json.dumps({case: (name, best_seconds(function, count))
                  for case, (name, function) in CASES.items()}))
