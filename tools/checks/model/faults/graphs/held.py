"""Misreadings about objects in use: a change may leave a node without its object, which a later run
detects."""

from feqyldan import wire
from checks import model
from checks.model.faults.fault import right, with_outcome
from checks.model.faults.graphs.fault import graph_faults, graphs_of, is_virtual
from checks.model.functions import INPUTS, OUTPUTS
from checks.model.state import RELEASE, REMOVE_NODE


def verified_if(is_there):
    """A graph with a missing object is refused."""
    def verified(limits, context, nodes):
        missing = [cell for node in nodes
                   for cell in right.cells_of(node) if not is_there(context, cell)]
        model.refuse_if(missing, wire.INVALID_REFERENCE)
        return right.verified(limits, context, nodes)

    return {"verified": verified}


IF_HELD = verified_if(lambda context, cell: right.held(context, cell) is not None)


def cells_without_slots(node):
    return [cell for cell in right.cells_of(node) if cell.slot == model.NO_SLOT]


def used_by(cells_of):
    """Nodes keep only the objects of these cells in use."""
    def names_used(context):
        nodes = [node for graph in graphs_of(context).values() for node in graph.nodes.values()]
        return {cell.name for node in nodes for cell in cells_of(node)}

    return {"names_used": names_used, **IF_HELD}


def charge_of_live(context):
    return sum(right.object_bytes(thing)
               for name, thing in context.objects.items() if right.is_live(context, name))


def room_for_live(limits, context, thing):
    return right.has_room(limits._replace(objects=limits.objects + len(context.released)), context,
                          thing)


def used_for_good(op):
    """Objects in use before such a request remain forever."""
    def outcome(limits, state, *values):
        used = getattr(state.context, "used", set()) | right.names_used(state.context)
        body = right.REQUESTS[op].outcome(limits, state, *values)
        state.context.used = used
        return body

    def names_used(context):
        return right.names_used(context) | getattr(context, "used", set())

    return {"names_used": names_used, **with_outcome(op, outcome)}


def release_with_virtual(limits, state, name):
    """Releasing a graph releases the names of its virtual images."""
    body = right.release(limits, state, name)
    gone = [other for other, thing in state.context.objects.items()
            if is_virtual(thing) and thing.graph == name]
    state.context.released.update(gone)
    right.forget(state.context)
    return body


HOLD_FAULTS = graph_faults(
    ("what is released is gone from the graphs that use it",
     {"names_used": lambda _: set(), **IF_HELD}),
    ("a graph that uses what was released isn't run",
     verified_if(lambda context, cell: right.is_live(context, cell.name))),
    ("a node doesn't hold what it reads", used_by(lambda node: right.cells_of(node, OUTPUTS))),
    ("a node doesn't hold what it writes", used_by(lambda node: right.cells_of(node, INPUTS))),
    ("a node doesn't hold a delay", used_by(cells_without_slots)),
    ("what was released isn't charged, though a node uses it", {"charge": charge_of_live}),
    ("what was released isn't counted, though a node uses it", {"has_room": room_for_live}),
    ("what was released can be named, since a node uses it",
     {"is_live": lambda context, name: name in context.objects}),
    ("what a node used is held for good", used_for_good(REMOVE_NODE)),
    ("what a graph used is held for good", used_for_good(RELEASE)),
    ("a graph's virtual images are released with it", with_outcome(RELEASE, release_with_virtual)),
)
