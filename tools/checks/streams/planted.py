"""Misreadings of the protocol, each planted in the model, and the streams that find it."""

import contextlib
import sys

from checks import model
from checks.model.faults import FAULTS, IN_OTHER_WORDS
from checks.model.faults.fault import MODULES
from checks.streams.failures import failure_of, tell
from checks.streams.kinds import TURN, is_slow, stream_of
from checks.streams.serving import AT_ONCE

# Number of streams within which a fault must be found.
FAULT_STREAMS = 2 * TURN


@contextlib.contextmanager
def planted(changes):
    """Replaces some names of the model."""
    places = [(vars(module), name) for module in MODULES
              for name in changes if name in vars(module)]
    right = [module[name] for module, name in places]
    for module, name in places:
        module[name] = changes[name]
    try:
        yield
    finally:
        for (module, name), value in zip(places, right):
            module[name] = value


class Outputs:
    """Streams with the program's replies. Each is run once, when it is first needed. Streams that
    are slow in the model come last."""

    def __init__(self, program, seed):
        self.program, self.found = program, []
        self.seeds = sorted(range(seed, seed + FAULT_STREAMS), key=is_slow)

    def __getitem__(self, at):
        while len(self.found) <= at:
            seed = self.seeds[len(self.found)]
            stream = stream_of(seed)
            failure = failure_of(self.program, AT_ONCE, stream.limits, stream.frames,
                                 stream.replies, seed)
            if failure is not None:
                tell(self.program, failure, seed)
            self.found.append((stream.limits, stream.frames, stream.replies))
        return self.found[at]


def found_at(changes, outputs):
    """Returns the first stream and reply that a faulty model doesn't have, or None."""
    for at in range(FAULT_STREAMS):
        limits, asked, replies = outputs[at]
        with planted(changes):
            number = first_other(limits, asked, replies)
        if number is not None:
            return at, number
    return None


def first_other(limits, asked, replies):
    """Returns the number of the first reply that differs in a faulty model. Later replies can be
    anything."""
    clients = model.Clients(limits)
    return next((k
                 for k, (frame, reply) in enumerate(zip(asked, replies))
                 if clients.reply(frame) != reply), None)


def check_faults(program, seed):
    outputs, missed, latest = Outputs(program, seed), [], 0
    faults = [fault for fault in FAULTS
              if fault.needs is None or fault.needs in model.STANDING]
    for fault in faults:
        found = found_at(fault.changes, outputs)
        if found is None:
            missed.append(fault.words)
            continue
        latest = max(latest, found[0] + 1)
        print(f"  found in stream {found[0] + 1:2}, reply {found[1] + 1:4}: {fault.words}")
    missed = [f"not found in {FAULT_STREAMS} streams: {words}" for words in missed]
    missed += [f"no fault, but found: {words}" for words, changes in IN_OTHER_WORDS
               if found_at(changes, outputs) is not None]
    if missed:
        sys.exit("\n".join(f"check_streams: {words}" for words in missed))
    print(f"check_streams: {len(faults)} wrong readings of the protocol were all found in the "
          f"first {latest} streams, with the seeds from {seed} on, those that take long last")
