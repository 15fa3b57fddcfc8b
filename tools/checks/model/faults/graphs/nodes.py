"""Misreadings about the nodes of a graph, and refusals of AddNode."""

import struct

from feqyldan import wire
from checks import model
from checks.model.faults.fault import right, with_outcome
from checks.model.faults.graphs.fault import graph_faults, graphs_of
from checks.model.state import ADD_NODE, IMMEDIATE, REMOVE_NODE


def add_node_as(number_for):
    """Numbers a new node by a function of the graph, which may have the number already, and the
    context."""
    def add_node(limits, state, name, node):
        context = state.context
        right.add_node(limits, state, name, node)
        graph = context.objects[name]
        nodes = [*graph.nodes.items()]
        number = number_for(context, graph._replace(nodes=dict(nodes[:-1])))
        context.objects[name] = graph._replace(nodes={**dict(nodes[:-1]), number: node})
        return struct.pack(">I", number)

    return with_outcome(ADD_NODE, add_node)


def number_from_zero(_, graph):
    return graph.next_number - 2


def number_after_last(_, graph):
    return max(graph.nodes, default=0) + 1


def least_number(_, graph):
    return next(number for number in range(1, 1000) if number not in graph.nodes)


def number_in_context(context, _):
    context.nodes = getattr(context, "nodes", 0) + 1
    return context.nodes


def add_node_to(most):
    return with_outcome(ADD_NODE, lambda limits,
                        *values: right.add_node(limits._replace(nodes=most), *values))


def add_node_of_all(limits, state, name, node):
    """Removed nodes count too."""
    graph = state.context.objects.get(name)
    given = graph.next_number - 1 if isinstance(graph, model.Graph) else 0
    full = limits._replace(nodes=len(graph.nodes) if given >= limits.nodes else limits.nodes)
    return right.add_node(full, state, name, node)


def add_node_with_number(limits, state, name, node):
    try:
        return right.add_node(limits, state, name, node)
    except model.Refused:
        graph = graphs_of(state.context).get(name)
        if graph is not None:
            state.context.objects[name] = graph._replace(next_number=graph.next_number + 1)
        raise


def add_node_verified(limits, state, name, node):
    """A node that makes its graph faulty isn't added."""
    before = state.context.objects.get(name)
    body = right.add_node(limits, state, name, node)
    try:
        right.verified(limits, state.context, right.nodes_of(state, name))
    except model.Refused:
        state.context.objects[name] = before
        raise
    return body


def remove_node_at(limits, state, name, place):
    """The nodes are renumbered."""
    numbers = [*right.object_of(state.context, name, model.Graph).nodes]
    return right.remove_node(limits, state, name,
                             numbers[place - 1] if 1 <= place <= len(numbers) else 0)


def remove_node_or_none(limits, state, name, number):
    is_there = number in right.object_of(state.context, name, model.Graph).nodes
    return right.remove_node(limits, state, name, number) if is_there else b""


def remove_node_told(code):
    def remove_node(limits, state, name, number):
        model.refuse_if(number not in right.object_of(state.context, name, model.Graph).nodes, code)
        return right.remove_node(limits, state, name, number)

    return with_outcome(REMOVE_NODE, remove_node)


NODE_FAULTS = graph_faults(
    ("a removed node's number is given again where it was the last",
     add_node_as(number_after_last)),
    ("a removed node's number is given again", add_node_as(least_number)),
    ("nodes have numbers from 0", add_node_as(number_from_zero)),
    ("the nodes of all graphs of a client are counted together", add_node_as(number_in_context)),
    ("an AddNode that is refused uses a number", with_outcome(ADD_NODE, add_node_with_number)),
    ("a graph has 255 nodes at most", add_node_to(255)),
    ("a graph may have 257 nodes", add_node_to(257)),
    ("nodes that were removed count among those of a graph",
     with_outcome(ADD_NODE, add_node_of_all)),
    ("a node that makes its graph faulty isn't added", with_outcome(ADD_NODE, add_node_verified)),
    ("nodes are counted anew where one is removed", with_outcome(REMOVE_NODE, remove_node_at)),
    ("a node that isn't there can be removed", with_outcome(REMOVE_NODE, remove_node_or_none)),
    ("a node that isn't there is told as INVALID_VALUE", remove_node_told(wire.INVALID_VALUE)),
)


def add_refusals_in(*order):
    return {"ADD_NODE_REFUSALS": [right.ADD_NODE_REFUSALS[k] for k in order]}


def add_refusal_at(k, applies=None, code=None):
    """Replaces the condition or the code of one of AddNode's refusals."""
    rows = [*right.ADD_NODE_REFUSALS]
    rows[k] = (applies or rows[k][0], code or rows[k][1])
    return {"ADD_NODE_REFUSALS": rows}


def one_after_another(refusals):
    """Checks the graph, and then each operand, completely before the next."""
    def of_one(applies, k):
        return lambda operands: applies([operands[0], *operands[k : k + 1]])

    return [(of_one(applies, k), code) for k in range(5) for applies, code in refusals]


def add_node_to_graph_first(limits, state, name, node):
    right.object_of(state.context, name, model.Graph)
    return right.add_node(limits, state, name, node)


def add_node_if_not_full(after):
    """Checks for a full graph after this many of the refusals."""
    def add_node(limits, state, name, node):
        context, cell = state.context, model.Cell(name, model.NO_SLOT)
        graph = model.Operand(cell, right.found(context, cell), model.Graph)
        right.refuse_first(right.ADD_NODE_REFUSALS[:after],
                           [graph, *right.operands_of(context, node)])
        is_full = isinstance(graph.thing, model.Graph) and len(graph.thing.nodes) >= limits.nodes
        model.refuse_if(is_full, wire.NO_RESOURCES)
        return right.add_node(limits, state, name, node)

    return with_outcome(ADD_NODE, add_node)


def immediate_refusals(*rows):
    return {"IMMEDIATE_REFUSALS": rows}


NAMES, KINDS, SLOTS, AWAY = right.IMMEDIATE_REFUSALS


def immediate_away_last(limits, state, node):
    """Virtual images are checked after the verdict."""
    right.refuse_first((NAMES, KINDS, SLOTS), right.operands_of(state.context, node))
    right.verified(limits, state.context, [node])
    return right.immediate(limits, state, node)


ADD_NODE_FAULTS = graph_faults(
    ("AddNode tries kinds before names", add_refusals_in(1, 0, 2, 3)),
    ("AddNode tries other graphs' images before names", add_refusals_in(2, 0, 1, 3)),
    ("AddNode tries other graphs' images before kinds", add_refusals_in(0, 2, 1, 3)),
    ("AddNode tries slots before other graphs' images", add_refusals_in(0, 1, 3, 2)),
    ("AddNode tries slots before kinds", add_refusals_in(0, 3, 1, 2)),
    ("AddNode tries its operands one after another",
     {"ADD_NODE_REFUSALS": one_after_another(right.ADD_NODE_REFUSALS)}),
    ("AddNode tries the graph before its operands",
     with_outcome(ADD_NODE, add_node_to_graph_first)),
    ("a full graph is told before names", add_node_if_not_full(0)),
    ("a full graph is told before kinds", add_node_if_not_full(1)),
    ("a full graph is told before slots", add_node_if_not_full(3)),
    ("a virtual image of another graph may be named", add_refusal_at(2, lambda _: False)),
    ("a virtual image of another graph is told as INVALID_REFERENCE",
     add_refusal_at(2, code=wire.INVALID_REFERENCE)),
    ("a virtual image of another graph is told as INVALID_TYPE",
     add_refusal_at(2, code=wire.INVALID_TYPE)),
    ("Immediate tries virtual images before names", immediate_refusals(AWAY, NAMES, KINDS, SLOTS)),
    ("Immediate tries virtual images before kinds", immediate_refusals(NAMES, AWAY, KINDS, SLOTS)),
    ("Immediate tries virtual images before slots", immediate_refusals(NAMES, KINDS, AWAY, SLOTS)),
    ("Immediate tries virtual images after its verdict",
     with_outcome(IMMEDIATE, immediate_away_last)),
    ("Immediate tells a virtual image as INVALID_SCOPE",
     immediate_refusals(NAMES, KINDS, SLOTS, (right.names_virtual, wire.INVALID_SCOPE))),
)
