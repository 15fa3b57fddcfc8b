"""Sends streams over several connections of one server in this process, in any interleaving, and
compares every reply with the model's, which has each connection alone."""

import ctypes
import itertools
import random
import sys
import time

from feqyldan.core import Core, argument_of, number_of, size_of
from checks.streams.kinds import KINDS, TURN, stream_of
from checks.streams.serving import model_replies, shown

OK, TOO_SHORT, NOT_CONNECTED = 0, 1, 7
# The length of a request frame's first field.
LENGTH = 4
# Lengths of reply buffers that are tried first, and the bytes after each, which stay as they are.
ROOMS, GUARD = (0, 27, 28, 28, 60, 4000), b"\xa5" * 8
# Bytes that are a whole frame of any client.
OPEN_CONTEXT = b"\0\0\0\3\0\0\1"


class Wrong(Exception):
    """What the library did other than it should."""


def serve(core, number, frame, cut, rooms):
    """Returns the status of a call, and the bytes of the two buffers that it says. The frame is cut
    in two."""
    buffers = [ctypes.create_string_buffer(bytes(room) + GUARD) for room in rooms]
    length = ctypes.c_size_t()
    first, second = ((ctypes.byref(buffer), size_of(room)) for buffer, room in zip(buffers, rooms))
    status = core.serve(core.address, number_of(number), *argument_of(frame[:cut]),
                        *argument_of(frame[cut:]), *first, *second, ctypes.byref(length))
    for buffer, room in zip(buffers, rooms):
        if buffer.raw[room : room + len(GUARD)] != GUARD:
            raise Wrong(f"a call wrote past a buffer of {room} bytes")
    both = b"".join(buffer.raw[:room] for buffer, room in zip(buffers, rooms))
    return status, length.value, both[: length.value]


def divided(room, rng):
    """Returns the lengths of two buffers, of this length together."""
    first = rng.choice((room, 0, min(13, room), rng.randint(0, room)))
    return first, room - first


def answer(core, number, frame, rng):
    """Returns the reply to a frame that is cut at random. The buffers are often too short at
    first."""
    cut, room = rng.randint(LENGTH, len(frame)), rng.choice(ROOMS)
    status, length, reply = serve(core, number, frame, cut, divided(room, rng))
    while status == TOO_SHORT and length > room:
        room = length
        status, length, reply = serve(core, number, frame, cut, divided(room, rng))
    if status != OK:
        raise Wrong(f"the status is {status} and the length {length}, for {room} bytes of buffers")
    return reply


class Server:
    """A server in this process, and the streams that are sent to it."""

    def __init__(self, library, most, seed):
        self.rng, self.most = random.Random(seed), most
        seeds = itertools.islice((at for at in itertools.count(seed) if at % TURN not in KINDS),
                                 most - most // 3)
        drawn = [(at, stream_of(at)) for at in seeds]
        self.limits = drawn[0][1].limits
        self.core = Core(library, self.limits.quota, self.limits.work)
        # Each stream is sent twice. Some are cut off, which closes a connection with contexts.
        self.waiting = [self.sent(at, stream) for at, stream in drawn * 2]
        self.rng.shuffle(self.waiting)
        self.open, self.frames, self.streams, self.greatest = {}, 0, len(self.waiting), 0

    def sent(self, seed, stream):
        replies = stream.replies
        if stream.limits != self.limits:
            replies = model_replies(stream.frames, self.limits)
        end = len(replies)
        if self.rng.random() < 0.4:
            end = self.rng.randint(0, end)
        return ((seed, *pair) for pair in itertools.islice(zip(stream.frames, replies), end))

    def run(self):
        while self.waiting or self.open:
            if self.waiting and len(self.open) < self.most and self.rng.random() < 0.2:
                self.connect()
            elif self.open:
                self.send_some(self.rng.choice([*self.open]))
        self.core.close()

    def connect(self):
        number = self.core.connect()
        if number in self.open:
            raise Wrong(f"two connections have the number {number}")
        self.open[number] = self.waiting.pop()
        self.greatest = max(self.greatest, len(self.open))

    def send_some(self, number):
        """Sends some frames of a connection, and closes it after the last one."""
        for _ in range(self.rng.choice((1, 1, 2, 5, 30))):
            following = next(self.open[number], None)
            if following is None:
                self.disconnect(number)
                return
            self.send(number, *following)

    def send(self, number, seed, frame, wanted):
        self.frames += 1
        got = answer(self.core, number, frame, self.rng)
        if got != wanted:
            raise Wrong(f"connection {number}, with the stream of seed {seed}: the reply to "
                        f"{shown(frame)[:200]} is {shown(got)[:200]}, and the model's "
                        f"{shown(wanted)[:200]}")

    def disconnect(self, number):
        del self.open[number]
        self.core.disconnect(number)
        status, length, _ = serve(self.core, number, OPEN_CONTEXT, LENGTH, (28, 0))
        if (status, length) != (NOT_CONNECTED, 0):
            raise Wrong(f"the closed connection {number} has the status {status}")


def check_connections(library, most, seconds, servers, seed):
    """Checks this many servers, or as many as the seconds allow if the number is None. Each has at
    most this many open connections."""
    end, following = time.monotonic() + seconds, seed
    while following == seed or (servers is None and time.monotonic() < end) or (
            servers is not None and following < seed + servers):
        server = Server(library, most, following)
        try:
            server.run()
        except Wrong as fault:
            sys.exit(f"check_streams: seed {following}, {most} connections: {fault}")
        print(f"check_streams: seed {following}, {server.streams} streams of {server.frames} "
              f"frames over up to {server.greatest} connections of one server: all replies were "
              "the model's", flush=True)
        following += 1
