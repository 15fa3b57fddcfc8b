"""Misreadings about accumulating nodes."""

from feqyldan import wire
from checks.model.faults.fault import right, with_outcome
from checks.model.faults.graphs.fault import graph_faults, is_virtual
from checks.model.faults.graphs.runs import run_in
from checks.model.faults.graphs.verdicts import CYCLE, LINK, TWO_WRITERS
from checks.model.faults.refusals import verdict_at
from checks.model.state import PROCESS_GRAPH


def writers_that_add_not(nodes, *graph):
    """Several nodes may add to one image."""
    return right.two_writers([node for node in nodes if not node.function.accumulates], *graph)


def cycle_of_sums(nodes, *graph):
    """An accumulating node counts as a reader of its output."""
    return wire.INVALID_GRAPH if right.cells_added_to(nodes) else right.cycle(nodes, *graph)


def missing_writer(nodes, things, _):
    """A node may add to a virtual image, which is 0 when a run begins."""
    unwritten = {*right.cells_read(nodes)} - {*right.cells_written(nodes)}
    return wire.INVALID_LINK if any(is_virtual(things[cell]) for cell in unwritten) else None


def unread_sums(nodes, things, work):
    """A node may add to a virtual image that another node reads."""
    sums = {*right.cells_added_to(nodes)} - {*right.cells_read(nodes)}
    if any(is_virtual(things[cell]) for cell in sums):
        return wire.INVALID_LINK
    return missing_writer(nodes, things, work)


def virtual_sum(nodes, things, _):
    is_added = any(is_virtual(things[cell]) for cell in right.cells_added_to(nodes))
    return wire.INVALID_LINK if is_added else None


def virtual_sum_at(at):
    """A node that adds to a virtual image is reported at this position among the verdicts."""
    rows = [right.two_writers, right.cycle, missing_writer, right.faulty_node, right.too_much_work]
    return {"VERDICTS": [*rows[:at], virtual_sum, *rows[at:]]}


def sum_of_other_format(node, things):
    """A virtual image to which a node adds is reported as a wrong format."""
    return bool(virtual_sum([node], things, None)) or right.has_other_formats(node, things)


def order_without_sums(nodes):
    """Nodes that read sums run before the accumulating nodes, which come last."""
    return sorted(right.in_order(nodes), key=lambda node: node.function.accumulates)


def run_adding(times):
    """Accumulating nodes run several times, each time on the previous result."""
    def run(nodes, things):
        for node in right.in_order(nodes):
            for _ in range(times(nodes) if node.function.accumulates else 1):
                things = {**things, **right.given(node, things, things)}
        return things

    return {"run": run}


def run_from_zero(nodes, things):
    """A run begins with sums of 0."""
    before = {cell: right.new_image(*things[cell][:3]) for cell in right.cells_added_to(nodes)}
    return right.run(nodes, {**things, **before})


def process_adding(limits, state, name):
    """A refused graph adds anyway."""
    try:
        return right.process_graph(limits, state, name)
    except right.Refused:
        if right.is_of_kind(right.found(state.context, right.Cell(name, right.NO_SLOT)),
                            right.Graph):
            add_alone(limits, state.context, right.nodes_of(state, name))
        raise


def add_alone(limits, context, nodes):
    """Runs each accumulating node by itself, if possible."""
    for node in nodes:
        if node.function.accumulates:
            try:
                right.run_nodes(limits, context, [node])
            except right.Refused:
                continue


ACCUMULATOR_FAULTS = graph_faults(
    ("several nodes may add to one image", {
        **verdict_at(TWO_WRITERS, writers_that_add_not), **run_adding(lambda _: 1)}),
    ("a node that adds to its output is a cycle", verdict_at(CYCLE, cycle_of_sums)),
    ("a node may add to a virtual image", verdict_at(LINK, missing_writer)),
    ("a node may add to a virtual image that is read", verdict_at(LINK, unread_sums)),
    ("a node that adds to a virtual image answers INVALID_FORMAT", {
        **verdict_at(LINK, missing_writer),
        "NODE_REFUSALS": ((sum_of_other_format, wire.INVALID_FORMAT), right.NODE_REFUSALS[1])}),
    ("a node that adds to a virtual image is told before two writers", virtual_sum_at(0)),
    ("a node that adds to a virtual image is told before a cycle", virtual_sum_at(1)),
    ("a node that adds to a virtual image is told after a faulty node", virtual_sum_at(4)),
    ("what reads sums runs before they are new", run_in(order_without_sums)),
    ("a node adds twice", run_adding(lambda _: 2)),
    ("a node adds as often as its graph has nodes", run_adding(len)),
    ("a run begins with sums of 0", {"run": run_from_zero}),
    ("a graph that is refused has added", with_outcome(PROCESS_GRAPH, process_adding)),
)
