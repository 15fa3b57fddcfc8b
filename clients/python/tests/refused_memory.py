"""Refuses each allocation of the server in this process in turn: test_refused_memory runs it."""

import ctypes
import itertools
import os

import feqyldan as vx
from feqyldan import core

PATH = os.environ["FEQYLDAN_CORE"]
SIDE, ALL = 40, -1
grant = ctypes.CDLL(None).grant
grant.argtypes = ctypes.c_void_p, ctypes.c_long
INSIDE = ctypes.cast(core.load(PATH).feqyldan_serve, ctypes.c_void_p)
refused = 0


def insist(call, *arguments):
    """Makes a call again and again, each time with one more allocation granted. Checks that a
    refused call has changed nothing. Returns the result of the call that isn't refused."""
    global refused
    for count in itertools.count():
        before = state()
        grant(INSIDE, count)
        try:
            return call(*arguments)
        except vx.NoMemory:
            pass
        finally:
            grant(INSIDE, ALL)
        refused += 1
        assert state() == before, (call, count)


def state():
    """Returns what the client can see: its usage, and the samples of its images."""
    return context.usage(), [image.read().tolist() for image in images]


def work():
    """Makes, runs and reads graphs, with an image of each format and each kind of object."""
    camera = insist(context.image, vx.U8, SIDE, SIDE)
    images.append(camera)
    marks = insist(context.image_from, [[0] * SIDE] * SIDE)
    wide = insist(context.image, vx.S16, SIDE, SIDE)
    sums = insist(context.image, vx.U32, SIDE, SIDE)
    images.extend((marks, wide, sums))
    insist(camera.write, bytes(range(SIDE)) * SIDE)
    limit = insist(context.threshold, vx.U8, 30)
    counts, extremes = insist(context.distribution, 16, 0, 256), insist(context.min_max)
    matrix = insist(context.convolution, [[1, 2, 1], [2, 4, 2], [1, 2, 1]], 16)
    delay = insist(context.delay, camera, 2)
    graph = insist(context.graph)
    smooth, away = insist(graph.virtual_image), insist(graph.virtual_image)
    insist(graph.median3x3, camera, smooth)
    insist(graph.absdiff, camera, smooth, away)
    insist(graph.threshold, away, limit, marks)
    insist(graph.convolve, camera, matrix, wide)
    insist(graph.integral_image, smooth, sums)
    insist(graph.histogram, away, counts)
    insist(graph.min_max_loc, away, extremes)
    insist(graph.not_, delay[0], delay[-1])
    insist(graph.verify)
    for _ in range(2):
        insist(graph.process)
        insist(delay.age)
    insist(context.vxu.gaussian3x3, camera, marks)
    insist(marks.read_pgm)
    insist(camera.write_pgm, insist(camera.read_pgm))
    return [image.read().tolist() for image in images], counts.read(), extremes.read()


server = vx.Server(process=False)
context = server.context()
images: list = []
first = work()
assert refused > 30, refused
context.close()
context = server.context()
images = []
# Without a refusal it is the same.
INSIDE = ctypes.c_void_p()
assert work() == first
print(f"{refused} allocations refused")
