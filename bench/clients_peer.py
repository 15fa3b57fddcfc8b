"""Measures OpenCV's calls for the graphs of bench/clients, and prints the seconds as JSON.

    clients_peer.py                           on one thread
    clients_peer.py WIDTH HEIGHT COUNT N      "station" on N threads

"motion" is a frame of 1280x720, "station" a picture of 2448x2048. Each has two times: with outputs
written to existing arrays, and with new arrays. On several threads COUNT pictures of the given size
are divided among the threads, and the time is that of all of them by the number of pictures. Each
thread has existing arrays of its own."""

import json
import sys
from concurrent.futures import ThreadPoolExecutor

import cv2
import numpy

sys.dont_write_bytecode = True
from shared import best_seconds  # noqa: E402

cv2.setNumThreads(1)
chance = numpy.random.default_rng(1)
REPLICATE = cv2.BORDER_REPLICATE


def outputs(count, shape, are_kept):
    """Returns the output arrays of the calls; None in place of each array that the call
    allocates."""
    return [numpy.empty(shape, numpy.uint8) if are_kept else None for _ in range(count)]


def motion(are_kept, height=720, width=1280):
    """Runs the ten nodes of clients.motion()."""
    frame, background, before = (chance.integers(0, 256, (height, width), numpy.uint8)
                                 for _ in range(3))
    to = outputs(8, frame.shape, are_kept)
    sums = numpy.zeros(frame.shape, numpy.float32)

    def run():
        cv2.accumulate(frame, sums)
        smooth = cv2.GaussianBlur(frame, (3, 3), 0, to[0], borderType=REPLICATE)
        away = cv2.absdiff(smooth, background, to[1])
        moved = cv2.absdiff(smooth, before, to[2])
        _, one = cv2.threshold(away, 24, 255, cv2.THRESH_BINARY, to[3])
        _, other = cv2.threshold(moved, 24, 255, cv2.THRESH_BINARY, to[4])
        both = cv2.bitwise_or(one, other, to[5])
        clean = cv2.erode(both, None, to[6])
        mask = cv2.dilate(clean, None, to[7])
        cv2.calcHist([mask], [0], None, [2], [0, 256])
        before[:] = smooth

    return best_seconds(run, 30)


def run_of_station(are_kept, height, width):
    """Returns a function that runs the eight nodes of clients.station()."""
    part, low, high = (chance.integers(0, 256, (height, width), numpy.uint8) for _ in range(3))
    to = outputs(7, part.shape, are_kept)

    def run():
        smooth = cv2.medianBlur(part, 3, to[0])
        over = cv2.subtract(smooth, high, to[1])
        under = cv2.subtract(low, smooth, to[2])
        worst = cv2.max(over, under, to[3])
        _, mask = cv2.threshold(worst, 40, 255, cv2.THRESH_BINARY, to[4])
        marks = cv2.dilate(cv2.erode(mask, None, to[5]), None, to[6])
        cv2.minMaxLoc(marks)

    return run


def station(are_kept):
    return best_seconds(run_of_station(are_kept, 2048, 2448), 10)


def in_threads(width, height, count, threads):
    runs = [run_of_station(True, height, width) for _ in range(threads)]

    def repeat(run):
        for _ in range(count // threads):
            run()

    with ThreadPoolExecutor(threads) as pool:
        return best_seconds(lambda: list(pool.map(repeat, runs))) / (count // threads * threads)


if sys.argv[1:]:
    print(json.dumps({"station": in_threads(*map(int, sys.argv[1:]))}))
else:
    print(json.dumps({function.__name__: [function(True), function(False)]
                      for function in (motion, station)}))
