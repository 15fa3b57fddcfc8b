"""Sends the requests of one client, and checks the replies."""

import itertools
import struct
import subprocess
import sys

from feqyldan import wire
from checks.functions.formulas import COUNTS, FOUND
from checks.functions.pictures import whole

CLIENT = 7

WIDTHS, HEIGHT = (1, 15, 16, 17, 31, 33, 64, 65), 3
# Sizes of wide pictures, whose rows may be computed in pieces.
WIDE = (1025, 8192)


def described(fmt, picture):
    """Returns the body of the reply to QueryImage."""
    return struct.pack(">BHH4H", fmt, picture.width, picture.height, *picture.valid)


def encoded(fmt, picture):
    """Returns the body of the reply to ReadImage, which is the body of WriteImage without the
    name."""
    letters = f"{len(picture.samples)}{wire.SAMPLE_LETTERS[fmt]}"
    return struct.pack(f">BHH{letters}", fmt, picture.width, picture.height, *picture.samples)


def difference(reply, body):
    """Returns the difference between a reply and the expected body, in words."""
    wanted = reply[:8] + body
    if reply[6] != wire.READ_IMAGE:
        return f"{wire.say(reply)}, not {wire.say(wanted)}"
    pairs = zip(*(itertools.chain(*wire.rows_of(one)) for one in (reply, wanted)))
    place, (one, other) = next((place, pair)
                               for place, pair in enumerate(pairs) if pair[0] != pair[1])
    return f"{one} at place {place}, not {other}"


class Session:
    """The requests of one client with the expected replies: a code, and a body or any body."""

    def __init__(self):
        self.requests, self.wanted = [wire.open_context(CLIENT)], [("OpenContext", 0, None)]
        self.names = 0

    def ask(self, request, words, code=0, body=None):
        self.requests.append(request)
        self.wanted.append((words, code, body))

    def create(self, request):
        self.ask(request, "a create")
        self.names += 1
        return self.names

    def image(self, fmt, width, samples, height=HEIGHT):
        name = self.create(wire.create_image(CLIENT, fmt, width, height))
        self.write(name, fmt, whole(width, height, samples))
        return name

    def write(self, name, fmt, picture):
        """Replaces all samples of an image, and sets its valid rectangle."""
        self.ask(wire.frame(CLIENT, wire.WRITE_IMAGE, wire.operand(name) + encoded(fmt, picture)),
                 "WriteImage")
        if picture.valid != (0, 0, picture.width, picture.height):
            self.ask(wire.set_valid(CLIENT, name, picture.valid), "SetValid")

    def distribution(self, bins):
        return self.create(wire.create_distribution(CLIENT, *bins))

    def convolution(self, convolution):
        return self.create(wire.create_convolution(CLIENT, *convolution))

    def run(self, number, in1, in2, out1, way, words, code=0, out2=None):
        node = (way.policy, way.amount, way.border, way.constant, out2)
        self.ask(wire.immediate(CLIENT, number, in1, in2, out1, *node), words, code)

    def shows(self, name, fmt, picture, words):
        self.ask(wire.query_image(CLIENT, name), f"{words}, valid", 0, described(fmt, picture))
        self.ask(wire.read_image(CLIENT, name), words, 0, encoded(fmt, picture))

    def counted(self, name, numbers, words):
        body = struct.pack(f">H{len(numbers)}I", len(numbers), *numbers)
        self.ask(wire.read_distribution(CLIENT, name), words, 0, body)

    def found(self, name, numbers, words):
        self.ask(wire.read_min_max(CLIENT, name), words, 0, struct.pack(">hhII4H", *numbers))

    def holds(self, name, output, value, words):
        """Reads an output of this format or kind, which must have this value."""
        if output == COUNTS:
            self.counted(name, value, words)
        elif output == FOUND:
            self.found(name, value, words)
        else:
            self.shows(name, output, value, words)

    def check(self, program):
        stream = b"".join(self.requests)
        run = subprocess.run([program, "serve"], input=stream, capture_output=True, timeout=600,
                             check=True)
        replies = wire.replies(run.stdout)
        assert len(replies) == len(self.wanted), (len(replies), len(self.wanted))
        for reply, (words, code, body) in zip(replies, self.wanted):
            if wire.code_of(reply) != code:
                sys.exit(f"check_functions: {words}: code {wire.code_of(reply)}, not {code}")
            if body is not None and reply[8:] != body:
                sys.exit(f"check_functions: {words}: {difference(reply, body)}")
