"""Misreadings of the protocol, and helpers for those that change a row of the model's tables."""

from collections import namedtuple
from types import SimpleNamespace

from checks import model
from checks.model import clients, fields, functions, graphs, requests, state, texts

# The description of the misreading; the op that is needed to notice it, or None; and the replaced
# names of the model.
Fault = namedtuple("Fault", "words needs changes")

# The right model, available while a fault is planted.
MODULES = functions, graphs, state, fields, texts, requests, clients, model
right = SimpleNamespace(**{name: value for module in MODULES
                           for name, value in vars(module).items()})


def whole_of(image):
    return right.whole(image.width, image.height)


def with_row(number, **changes):
    """Replaces fields of a function's row."""
    return {"FUNCTIONS": {**right.FUNCTIONS, number: right.FUNCTIONS[number]._replace(**changes)}}


def with_outcome(op, outcome):
    """Replaces the effect of a request."""
    return {"REQUESTS": {**right.REQUESTS, op: right.REQUESTS[op]._replace(outcome=outcome)}}


def at_once(take, size):
    """Reads fields after a check that all of their bytes are there."""
    def taken(fields):
        at = fields.at
        fields.bytes(size)
        fields.at = at
        return take(fields)

    return taken


def with_fields(op, *takes):
    """Replaces the fields of a request's body."""
    return {"REQUESTS": {**right.REQUESTS,
                         op: right.REQUESTS[op]._replace(take=right.each(*takes))}}
