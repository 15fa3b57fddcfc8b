"""Replaces Immediate by graphs."""

import struct

from feqyldan import wire
from feqyldan.wire import (
    INVALID_PARAMETERS, INVALID_REFERENCE, INVALID_TYPE, INVALID_VALUE, frame)
from checks.sessions.rows import added, graph, name, processed, removed, unadded

# Refusals of Immediate that AddNode has too.
OF_ADD_NODE = (INVALID_PARAMETERS, INVALID_REFERENCE, INVALID_TYPE, INVALID_VALUE)
# The positions of names in request bodies, for sessions with nodes.
NAMES_AT = {
    **{op: (0,) for op in (*range(wire.QUERY_IMAGE, wire.RELEASE + 1), wire.READ_DISTRIBUTION,
                           wire.READ_MIN_MAX, wire.CREATE_DELAY, wire.AGE_DELAY)},
    wire.IMMEDIATE: (5, 10, 15, 20),
}


def renamed(op, body):
    """Returns the body with each object name increased by one."""
    body = bytearray(body)
    for at in NAMES_AT.get(op, ()):
        (number,) = struct.unpack_from(">I", body, at)
        if number not in (0, 2**32 - 1):
            struct.pack_into(">I", body, at, number + 1)
    return bytes(body)


def by_graphs(rows):
    """Returns the session with a graph of one node in place of each Immediate. The graph is each
    client's first object. AddNode gives the refusals that precede the verdict, and ProcessGraph
    gives the verdict."""
    of, numbers = 1, {}
    for request, wanted in rows:
        client, op = struct.unpack_from(">HB", request, 4)
        body = renamed(op, request[7:])
        if op == wire.IMMEDIATE and wanted in OF_ADD_NODE:
            yield unadded(of, wanted, body, client)
        elif op == wire.IMMEDIATE:
            numbers[client] += 1
            yield added(of, numbers[client], body, client)
            yield processed(of, wanted, client)
            yield removed(of, numbers[client], client=client)
        elif op in wire.CREATES and isinstance(wanted, bytes):
            yield frame(client, op, body), name(int.from_bytes(wanted, "big") + 1)
        else:
            yield frame(client, op, body), wanted
        if op == wire.OPEN_CONTEXT:
            yield graph(of, client)
            numbers[client] = 0
