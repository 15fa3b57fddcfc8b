"""Refuses each of Python's allocations in turn while a broker serves a connection, of which at most
this one may end: test_broker_faults runs it. Prints the faults, one in a line."""

import os
import select
import socket
import tempfile
import time

import plain_library
from _testcapi import remove_mem_hooks, set_nomemory  # type: ignore[import-not-found]

from feqyldan import wire
from feqyldan.broker import command_line, loop
from feqyldan.service import options

# More allocations than the way of a connection has, from its accept to its reply.
ALL = 180
SECONDS = 30.0


def begin(path):
    """Returns a broker that looks at no clock."""
    told = command_line.told_by(["--socket", path, "--per-process", "64"])
    broker = loop.Broker(*options.listeners(told), [plain_library.PlainLibrary()], told)
    broker.look_seconds = 1e6
    return broker


def go_round():
    """Goes round as Broker.run() does."""
    broker.soon = 0.0
    try:
        broker.go_round()
    except MemoryError:
        broker.try_again()


def is_answered(frame, refused):
    """Returns whether a program that sends a frame has a reply, or its connection ends."""
    with socket.socket(socket.AF_UNIX) as program:
        program.connect(broker.listener.path)
        program.send(frame)
        set_nomemory(refused, refused + 1)
        try:
            go_round()
            go_round()
        except SystemError:
            # Python itself had no memory for an exception.
            pass
        finally:
            remove_mem_hooks()
        until = time.monotonic() + SECONDS
        while not select.select([program], [], [], 0)[0] and time.monotonic() < until:
            go_round()
        return bool(select.select([program], [], [], 0)[0])


def left():
    """Returns what the broker has of connections."""
    server, = broker.servers
    return (broker.open, broker.releasing, {**broker.admission.processes}, broker.total.bytes,
            {**broker.admission.users}, sorted(broker.events.handlers), server.turn, server.members,
            server.line.places, broker.descriptors.suspects, len(os.listdir("/proc/self/fd")))


def has_left(before):
    """Returns whether the broker has the same as before, in time."""
    until = time.monotonic() + SECONDS
    while repr(left()) != before and time.monotonic() < until:
        go_round()
        broker.descriptors.close_left()
    return repr(left()) == before


with tempfile.TemporaryDirectory() as folder:
    for op, size in ((wire.QUERY_IMAGE, 0), (wire.VERIFY_GRAPH, 0), (wire.WRITE_IMAGE, 70_000)):
        broker = begin(os.path.join(folder, f"{op}"))
        frame = wire.frame(7, op, bytes(size))
        is_answered(frame, 10**9)
        while broker.open or broker.releasing:
            go_round()
        before = repr(left())
        for refused in range(ALL):
            if not is_answered(frame, refused):
                print(f"allocation {refused} of op {op}: no answer and no end")
            if not has_left(before):
                print(f"allocation {refused} of op {op}: {left()} is left, not {before}")
                before = repr(left())
