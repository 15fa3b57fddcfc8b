"""Reduces failing streams to few frames."""

import collections
import os
import sys
import tempfile
import time

from feqyldan import wire
from feqyldan.wire import SUCCESS
from checks import model
from checks.model.state import ADD_NODE, REMOVE_NODE
from checks.streams.draw import long
from checks.streams.requests import NAMES_AT
from checks.streams.serving import WAYS, first_difference, model_replies, shown, words_for

# Seconds for which a stream is reduced.
CUTTING = 60

# The frames, the way of sending, the limits, the model's replies, and the program's first different
# reply.
Failure = collections.namedtuple("Failure", "way limits frames replies at got")


def failure_of(program, way, limits, stream, replies, seed):
    """Returns the program's first reply that differs from the model's, or None."""
    command = [program, "serve", *words_for(limits)]
    found = first_difference(WAYS[way](command, stream, seed), replies)
    return None if found is None else Failure(way, limits, stream, replies, *found)


def cut_down(program, failure, seed):
    """Returns a failure of fewer frames, by removing parts of halved sizes."""
    end, size = time.monotonic() + CUTTING, len(failure.frames)
    while size > 0:
        shorter = without_parts(program, failure, seed, size, end)
        size = 1 if size == 1 and len(shorter.frames) < len(failure.frames) else size // 2
        failure = shorter
    return failure


def without_parts(program, failure, seed, size, end):
    """Removes the parts of a size from a failing stream, the last part first, if the stream still
    fails without them. Returns the shorter failure."""
    at = len(failure.frames)
    while at > 0 and time.monotonic() < end:
        at = max(0, at - size)
        for shorter in shorter_streams(failure, at, size):
            way, limits = failure.way, failure.limits
            failure = failure_of(program, way, limits, shorter, model_replies(shorter, limits),
                                 seed) or failure
            if failure.frames is shorter:
                break
    return failure


def shorter_streams(failure, at, size):
    """Returns the frames without a part. If a create is removed, later names decrease by one; so do
    node numbers."""
    before, after = failure.frames[:at], failure.frames[at + size :]
    yield before + after
    client, op, body = model.parts_of(failure.frames[at])
    if size == 1 and wire.code_of(failure.replies[at]) == SUCCESS:
        number = int.from_bytes(failure.replies[at][8:], "big")
        if op in wire.CREATES:
            yield before + [with_less_names(frame, client, number) for frame in after]
        if op == ADD_NODE:
            yield before + [with_less_nodes(frame, client, body[:4], number) for frame in after]


def with_less_names(frame, client, name):
    """Decreases each name above `name` by one, in a frame of the client."""
    of, op, body = model.parts_of(frame)
    if of != client:
        return frame
    for at in NAMES_AT.get(op, ()):
        body = with_less_at(body, at, name)
    return wire.frame(client, op, body)


def with_less_nodes(frame, client, graph, number):
    """Decreases each node number above `number` by one, in a frame on the client's graph."""
    of, op, body = model.parts_of(frame)
    is_of_graph = of == client and op == REMOVE_NODE and body[:4] == graph
    return wire.frame(client, op, with_less_at(body, 4, number)) if is_of_graph else frame


def with_less_at(body, at, number):
    found = int.from_bytes(body[at : at + 4], "big")
    if len(body) < at + 4 or found <= number:
        return body
    return body[:at] + long(found - 1) + body[at + 4 :]


def tell(program, failure, seed):
    """Reduces a failure, writes it to a file and ends."""
    failure = cut_down(program, failure, seed)
    wanted = failure.replies[failure.at] if failure.at < len(failure.replies) else None
    path = os.path.join(tempfile.gettempdir(), f"check_streams-{seed}.txt")
    with open(path, "w", encoding="utf-8") as file:
        print("# the program's words:", *["serve", *words_for(failure.limits)], file=file)
        print(f"# seed {seed}, {failure.way}: reply {failure.at + 1} to these frames isn't the "
              "model's", file=file)
        print("\n".join(map(shown, failure.frames)), file=file)
        print(f"# the program's reply\n{shown(failure.got)}\n# the model's reply\n{shown(wanted)}",
              file=file)
    sys.exit(f"check_streams: seed {seed}, {failure.way}: reply {failure.at + 1} to "
             f"{len(failure.frames)} frames is {shown(failure.got)[:200]}, and the model's "
             f"{shown(wanted)[:200]}; the frames are in {path}")
