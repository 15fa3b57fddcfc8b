"""The table of requests, and the clients that use it."""

import struct
from collections import namedtuple

from feqyldan import wire
from feqyldan.wire import (
    INVALID_DIMENSION, INVALID_FORMAT, INVALID_GRAPH, INVALID_PARAMETERS, INVALID_REFERENCE,
    INVALID_SCOPE, INVALID_TYPE, INVALID_VALUE, MULTIPLE_WRITERS, NO_RESOURCES, OPTIMIZED_AWAY,
    SUCCESS)
from checks.model.fields import (
    Fields, take_bins, take_cell, take_convolution, take_description, take_lut, take_name,
    take_nothing, take_picture, take_rectangle, take_slots, take_text, take_threshold,
    take_virtual_image)
from checks.model.graphs import VERDICT_CODES
from checks.model.requests import (
    add_node, age_delay, create_convolution, create_delay, create_distribution, create_graph,
    create_image, create_lut, create_min_max, create_threshold, create_virtual_image, immediate,
    open_context, process_graph, query_image, read_distribution, read_image, read_image_pgm,
    read_min_max, register_auto_aging, release, release_context, remove_node, set_valid, take_node,
    verify_graph, write_image, write_image_pgm)
from checks.model.state import (
    ADD_NODE, AGE_DELAY, CREATE_CONVOLUTION, CREATE_DELAY, CREATE_DISTRIBUTION, CREATE_GRAPH,
    CREATE_IMAGE, CREATE_LUT, CREATE_MIN_MAX, CREATE_THRESHOLD, CREATE_VIRTUAL_IMAGE, IMMEDIATE,
    LIMITS, OPEN_CONTEXT, PROCESS_GRAPH, QUERY_IMAGE, READ_DISTRIBUTION, READ_IMAGE, READ_IMAGE_PGM,
    READ_MIN_MAX, REGISTER_AUTO_AGING, RELEASE, RELEASE_CONTEXT, REMOVE_NODE, SET_VALID, STANDING,
    VERIFY_GRAPH, WRITE_IMAGE, WRITE_IMAGE_PGM, Refused, State, refuse_if)

# The reader of the body's fields; the effect of the request, from the limits, the client's state
# and these values; and the codes of its replies.
Request = namedtuple("Request", "take outcome codes")


def each(*takes):
    """Returns a reader of fields in order."""
    return lambda fields: [take(fields) for take in takes]


NAME_CODES = {SUCCESS, INVALID_PARAMETERS, INVALID_REFERENCE}
CREATE_CODES = NAME_CODES | {NO_RESOURCES}
TYPE_CODES = NAME_CODES | {INVALID_TYPE}
QUERY_CODES = TYPE_CODES | {INVALID_VALUE}
IMAGE_CODES = QUERY_CODES | {OPTIMIZED_AWAY}
PICTURE_CODES = IMAGE_CODES | {INVALID_FORMAT, INVALID_DIMENSION}

REQUESTS = {
    OPEN_CONTEXT: Request(take_nothing, open_context, {SUCCESS, INVALID_PARAMETERS, INVALID_VALUE}),
    RELEASE_CONTEXT: Request(take_nothing, release_context, NAME_CODES),
    CREATE_IMAGE: Request(take_description, create_image,
                          CREATE_CODES | {INVALID_FORMAT, INVALID_DIMENSION}),
    QUERY_IMAGE: Request(each(take_cell), query_image, QUERY_CODES),
    WRITE_IMAGE: Request(each(take_cell, take_picture), write_image, PICTURE_CODES),
    WRITE_IMAGE_PGM: Request(each(take_cell, take_text), write_image_pgm, PICTURE_CODES),
    READ_IMAGE: Request(each(take_cell), read_image, IMAGE_CODES),
    READ_IMAGE_PGM: Request(each(take_cell), read_image_pgm, IMAGE_CODES | {INVALID_FORMAT}),
    SET_VALID: Request(each(take_cell, take_rectangle), set_valid, IMAGE_CODES),
    RELEASE: Request(each(take_name), release, NAME_CODES),
    CREATE_LUT: Request(each(take_lut), create_lut, CREATE_CODES | {INVALID_FORMAT}),
    CREATE_THRESHOLD: Request(each(take_threshold), create_threshold,
                              CREATE_CODES | {INVALID_FORMAT, INVALID_VALUE}),
    CREATE_CONVOLUTION: Request(
        each(take_convolution), create_convolution,
        CREATE_CODES | {INVALID_DIMENSION, INVALID_VALUE}),
    CREATE_DISTRIBUTION: Request(each(take_bins), create_distribution,
                                 CREATE_CODES | {INVALID_VALUE}),
    READ_DISTRIBUTION: Request(each(take_name), read_distribution, TYPE_CODES),
    CREATE_MIN_MAX: Request(take_nothing, create_min_max, CREATE_CODES),
    READ_MIN_MAX: Request(each(take_name), read_min_max, TYPE_CODES),
    CREATE_GRAPH: Request(take_nothing, create_graph, CREATE_CODES),
    CREATE_VIRTUAL_IMAGE: Request(
        take_virtual_image, create_virtual_image,
        CREATE_CODES | TYPE_CODES | {INVALID_FORMAT, INVALID_DIMENSION}),
    ADD_NODE: Request(each(take_name, take_node), add_node,
                      QUERY_CODES | {INVALID_SCOPE, NO_RESOURCES}),
    REMOVE_NODE: Request(each(take_name, take_name), remove_node, TYPE_CODES),
    VERIFY_GRAPH: Request(each(take_name), verify_graph, TYPE_CODES | VERDICT_CODES),
    PROCESS_GRAPH: Request(each(take_name), process_graph, TYPE_CODES | VERDICT_CODES),
    IMMEDIATE: Request(each(take_node), immediate,
                       PICTURE_CODES | {MULTIPLE_WRITERS, INVALID_GRAPH}),
    CREATE_DELAY: Request(each(take_cell, take_slots), create_delay, IMAGE_CODES | {NO_RESOURCES}),
    AGE_DELAY: Request(each(take_name), age_delay, TYPE_CODES),
    REGISTER_AUTO_AGING: Request(each(take_name, take_name), register_auto_aging, TYPE_CODES),
}


def codes_of(op):
    """Returns the codes of the replies to an op."""
    return REQUESTS[op].codes if op in STANDING else {INVALID_PARAMETERS}


def parse(op, body):
    """Parses a body after its op, and returns the request and the values of its fields."""
    refuse_if(op not in STANDING, INVALID_PARAMETERS)
    fields = Fields(body)
    values = REQUESTS[op].take(fields)
    fields.end()
    return REQUESTS[op], values


def needs_context(op):
    return op != OPEN_CONTEXT


def answer(limits, state, op, body):
    """Returns the code and the body of the reply to a request of the client with this state, and
    updates the state."""
    try:
        request, values = parse(op, body)
        refuse_if(needs_context(op) and state.context is None, INVALID_REFERENCE)
        return SUCCESS, request.outcome(limits, state, *values)
    except Refused as refusal:
        return refusal.code, b""


# ---- frames


def parts_of(frame):
    """Returns the client, the op and the body of a request frame."""
    client, op = struct.unpack_from(">HB", frame, 4)
    return client, op, frame[7:]


class Clients:
    """The states of all clients. Each begins without a context."""

    def __init__(self, limits=LIMITS):
        self.limits, self.states = limits, {}

    def state_of(self, client):
        return self.states.setdefault(client, State())

    def reply(self, frame):
        client, op, body = parts_of(frame)
        return wire.reply_frame(client, op, *answer(self.limits, self.state_of(client), op, body))
