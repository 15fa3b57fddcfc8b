"""Compares streams, and counts what occurred in them."""

import collections
import sys
import time

from feqyldan import wire
from feqyldan.wire import SUCCESS
from checks import model
from checks.model.functions import FUNCTIONS
from checks.model.state import IMMEDIATE
from checks.streams.failures import failure_of, tell
from checks.streams.kinds import TURN, stream_of
from checks.streams.nodes import BORDERS, WINDOWED
from checks.streams.serving import ALONE, WAYS
from checks.streams.requests import UNKNOWN

# The number of streams in which every case occurs. In one turn of all kinds, one of 17 runs lacks
# some case.
ENOUGH = 100


class Counts:
    """Counts streams and frames, replies by way of sending, codes by op, runs by function and
    border mode, and graph runs by number of nodes."""

    def __init__(self):
        self.streams = self.frames = 0
        self.replies, self.codes = collections.Counter(), collections.Counter()
        self.functions, self.graphs = collections.Counter(), collections.Counter()

    def add(self, stream):
        self.streams += 1
        self.frames += len(stream.frames)
        self.graphs.update(stream.runs)
        for frame, reply in zip(stream.frames, stream.replies):
            _, op, body = model.parts_of(frame)
            code = wire.code_of(reply)
            self.codes[op if op in model.STANDING else UNKNOWN, code] += 1
            if (op, code) == (IMMEDIATE, SUCCESS):
                self.functions[body[0], body[1]] += 1

    def ran(self, number):
        return sum(self.functions[number, mode] for mode in BORDERS)

    def table(self):
        """Returns a line for each op, and a line for unknown ops."""
        for op in [*sorted(model.STANDING), UNKNOWN]:
            codes = sorted((code, count) for (of, code), count in self.codes.items() if of == op)
            line = ", ".join(f"{wire.CODES[code]} {count}" for code, count in codes)
            yield f"  {'other ops' if op is UNKNOWN else f'op {op}':9} {line}"
        ran = ", ".join(f"{number} {self.ran(number)}" for number in sorted(FUNCTIONS))
        yield f"  functions that ran: {ran}"
        ends = 0, 1, 2, 3, 10, 20, 40, 256
        runs = [sum(self.graphs[nodes] for nodes in range(last + 1, end + 1))
                for last, end in zip((-1, *ends), ends)]
        ran = ", ".join(f"to {end} {count}" for end, count in zip(ends, runs))
        yield f"  graphs that ran, by nodes: {ran}"

    def seen(self, op):
        return {code for of, code in self.codes if of == op}

    def unknown(self):
        """Yields the codes that the model's table doesn't have."""
        for op in sorted(model.STANDING):
            yield from (f"op {op} hasn't the code {wire.CODES[code]} in its row"
                        for code in sorted(self.seen(op) - model.codes_of(op)))

    def lacks(self):
        """Yields the cases that never occurred."""
        for op in sorted(model.STANDING):
            yield from (f"op {op} was never answered {wire.CODES[code]}"
                        for code in sorted(model.codes_of(op) - self.seen(op)))
        yield from (f"function {number} never ran"
                    for number in sorted(FUNCTIONS) if not self.ran(number))
        yield from (f"function {number} never ran with border {mode}" for number in WINDOWED
                    for mode in BORDERS
                    if not self.functions[number, mode])


def sent(stream):
    """Yields each way to send a stream, with the frames and the model's replies."""
    for way in WAYS:
        if way != ALONE:
            yield way, stream.frames, stream.replies
    clients = [model.parts_of(frame)[0] for frame in stream.frames]
    for client in sorted(set(clients)):
        own = [k for k, of in enumerate(clients) if of == client]
        if len(own) < len(clients):
            yield ALONE, [stream.frames[k] for k in own], [stream.replies[k] for k in own]


def check_stream(program, seed, counts):
    stream = stream_of(seed)
    for way, asked, replies in sent(stream):
        failure = failure_of(program, way, stream.limits, asked, replies, seed)
        if failure is not None:
            tell(program, failure, seed)
        counts.replies[way] += len(replies)
    counts.add(stream)


def check_streams(program, seconds, streams, seed):
    """Compares this many streams, or as many as the seconds allow if the number is None."""
    counts, end, following = Counts(), time.monotonic() + seconds, seed
    while following < seed + (streams or TURN) or (streams is None and time.monotonic() < end):
        check_stream(program, following, counts)
        following += 1
    replies = ", ".join(f"{count} {way}" for way, count in counts.replies.items())
    print(f"check_streams: {counts.streams} streams of {counts.frames} frames, with the seeds "
          f"{seed} to {following - 1}; all replies were the model's: {replies}")
    print("\n".join(counts.table()))
    faults, lacks = list(counts.unknown()), list(counts.lacks())
    if counts.streams >= ENOUGH:
        faults += lacks
    else:
        print("\n".join(f"  by chance, {lack}" for lack in lacks))
    if faults:
        sys.exit("check_streams: " + "\ncheck_streams: ".join(faults))
