"""Misreadings about runs and kept verifications."""

from feqyldan import wire
from feqyldan.wire import SUCCESS
from checks import model
from checks.model.faults.fault import right, with_outcome
from checks.model.faults.graphs.fault import graph_faults, graphs_of, is_virtual, with_outcomes
from checks.model.faults.graphs.verdicts import with_cells
from checks.model.state import ADD_NODE, AGE_DELAY, PROCESS_GRAPH, REMOVE_NODE, VERIFY_GRAPH


def keeping(dropped_by, is_kept):
    """VerifyGraph and ProcessGraph use the graph as it was first verified, until one of these
    requests."""
    def kept(state):
        if not hasattr(state.context, "kept"):
            state.context.kept = {}
        return state.context.kept

    def nodes_of(state, name):
        now = right.nodes_of(state, name)
        nodes = kept(state).get(name, now)
        cells = [cell for node in nodes for cell in right.cells_of(node)]
        return nodes if all(right.held(state.context, cell) for cell in cells) else now

    def outcome_of(op):
        def outcome(limits, state, name):
            nodes = nodes_of(state, name)
            code = right.verdict(nodes, {cell: right.held(state.context, cell) for node in nodes
                                         for cell in right.cells_of(node)}, limits.work)
            if is_kept(code):
                kept(state)[name] = nodes
            return right.REQUESTS[op].outcome(limits, state, name)

        return outcome

    def dropping(op):
        def outcome(limits, state, name, *values):
            body = right.REQUESTS[op].outcome(limits, state, name, *values)
            if op in dropped_by:
                kept(state).pop(name, None)
            return body

        return outcome

    outcomes = {op: outcome_of(op) for op in (VERIFY_GRAPH, PROCESS_GRAPH)}
    outcomes.update({op: dropping(op) for op in (ADD_NODE, REMOVE_NODE)})
    return {"nodes_of": nodes_of, **with_outcomes(outcomes)}


def process_verified(limits, state, name):
    """A graph that wasn't verified isn't run."""
    graph = right.object_of(state.context, name, model.Graph)
    model.refuse_if(getattr(state.context, "verified", {}).get(name) != graph, wire.INVALID_GRAPH)
    return right.process_graph(limits, state, name)


def verify_for_process(limits, state, name):
    body = right.verify_graph(limits, state, name)
    state.context.verified = {**getattr(state.context, "verified", {}),
                              name: state.context.objects[name]}
    return body


KEPT_FAULTS = graph_faults(
    ("a verification is kept after RemoveNode", keeping((ADD_NODE,), lambda code: code == SUCCESS)),
    ("a verification is kept after AddNode", keeping((REMOVE_NODE,), lambda code: code == SUCCESS)),
    ("a refusal is kept after RemoveNode", keeping((ADD_NODE,), lambda code: code != SUCCESS)),
    ("a graph that wasn't verified isn't run",
     with_outcomes({PROCESS_GRAPH: process_verified, VERIFY_GRAPH: verify_for_process})),
)


def run_in(order):
    """Runs all nodes once, in another order."""
    def run(nodes, things):
        before = things
        for node in order(nodes):
            things = {**things, **right.given(node, things, before)}
        return things

    return {"run": run}


def run_for(rounds):
    def run(nodes, things):
        before = things
        for _ in nodes[:rounds]:
            values = {cell: thing for node in nodes
                      for cell, thing in right.given(node, things, before).items()}
            things = {**things, **values}
        return things

    return {"run": run}


def run_on_old_images(limits, context, nodes):
    """Inputs that aren't virtual are read as they were before the run."""
    things = right.verified(limits, context, nodes)
    before = after = right.started(nodes, things)
    for node in right.in_order(nodes):
        seen = {cell: after[cell] if is_virtual(thing) else before[cell]
                for cell, thing in things.items()}
        after = {**after, **right.given(node, seen, before)}
    for cell in right.cells_written(nodes):
        if not is_virtual(things[cell]):
            right.put(context, cell, after[cell])
    return b""


def run_with(change):
    """Changes the contents of cells after a run, as a function of the contents before and after."""
    def run(nodes, things):
        after = right.run(nodes, things)
        return {cell: change(things[cell], thing, nodes, cell) for cell, thing in after.items()}

    return {"run": run}


def counts_added(before, after, *_):
    if not isinstance(after, model.Distribution) or before is after:
        return after
    return after._replace(counts=tuple(map(sum, zip(before.counts, after.counts))))


def valid_as_before(before, after, *_):
    return after._replace(valid=before.valid) if isinstance(after, model.Image) else after


def unless_read(before, after, nodes, cell):
    """Cells that a node of the graph reads stay unchanged."""
    return before if cell in right.cells_read(nodes) else after


def verify_and_run(limits, state, name):
    return right.process_graph(limits, state, name)


def process_in_part(limits, state, name):
    """The nodes before the first faulty one run even if the graph is refused."""
    try:
        return right.process_graph(limits, state, name)
    except model.Refused as refusal:
        if refusal.code in (wire.INVALID_FORMAT, wire.INVALID_DIMENSION, wire.NO_RESOURCES):
            run_before_fault(limits, state.context, right.in_order(right.nodes_of(state, name)))
        raise


def run_before_fault(limits, context, nodes):
    for count in range(len(nodes), 0, -1):
        try:
            right.run_nodes(limits, context, nodes[:count])
            return
        except model.Refused:
            continue


def age_with_nodes(limits, state, name):
    """A node that names a slot keeps its image when the delay ages."""
    body = right.age_delay(limits, state, name)
    count = len(state.context.objects[name].images)
    for graph_name, graph in graphs_of(state.context).items():
        nodes = with_cells(graph.nodes.values(),
                           lambda cell: cell._replace(slot=(cell.slot + 1) % count)
                           if cell.name == name else cell)
        state.context.objects[graph_name] = graph._replace(nodes=dict(zip(graph.nodes, nodes)))
    return body


def process_and_age(limits, state, name):
    """Delays with a written slot age."""
    nodes = right.nodes_of(state, name)
    body = right.process_graph(limits, state, name)
    for delay in {cell.name for cell in right.cells_written(nodes) if cell.slot != model.NO_SLOT}:
        state.context.objects[delay] = right.aged(state.context.objects[delay])
    return body


RUN_FAULTS = graph_faults(
    ("the nodes run in the order of adding", run_in(lambda nodes: nodes)),
    ("the nodes run in the order of adding, the last first", run_in(lambda nodes: nodes[::-1])),
    ("a node reads what was there before the run", run_for(1)),
    ("a node reads what was there before the run, but of virtual images",
     {"run_nodes": run_on_old_images}),
    ("a node reads what was there before the node before it", run_for(2)),
    ("a run is ten rounds at most", run_for(10)),
    ("counts of an earlier run are left", run_with(counts_added)),
    ("a run leaves the valid rectangles", run_with(valid_as_before)),
    ("what a node writes and another reads isn't written", run_with(unless_read)),
    ("VerifyGraph runs the graph", with_outcome(VERIFY_GRAPH, verify_and_run)),
    ("a graph that is refused has run in part", with_outcome(PROCESS_GRAPH, process_in_part)),
    ("a node goes on with an image that its delay moves", with_outcome(AGE_DELAY, age_with_nodes)),
    ("a run ages the delays that it writes", with_outcome(PROCESS_GRAPH, process_and_age)),
)
