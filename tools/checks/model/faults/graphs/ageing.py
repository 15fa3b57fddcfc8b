"""Misreadings about automatic ageing."""

from collections import Counter

from checks import model
from checks.model.faults.fault import Fault, right, with_outcome
from checks.model.faults.graphs.fault import graphs_of, with_outcomes
from checks.model.state import (
    ADD_NODE, IMMEDIATE, PROCESS_GRAPH, REGISTER_AUTO_AGING, REMOVE_NODE, VERIFY_GRAPH)


def age_each(context, delays):
    for delay in delays:
        if delay in context.objects:
            context.objects[delay] = right.aged(context.objects[delay])


def all_registered(context):
    return {delay for graph in graphs_of(context).values() for delay in graph.delays}


def verify_and_age(limits, state, name):
    body = right.verify_graph(limits, state, name)
    right.age_registered(state.context, name)
    return body


def age_and_process(limits, state, name):
    right.verify_graph(limits, state, name)
    right.age_registered(state.context, name)
    return right.run_nodes(limits, state.context, right.nodes_of(state, name))


def process_or_age(limits, state, name):
    """A refused graph ages its delays too."""
    try:
        return right.process_graph(limits, state, name)
    except model.Refused:
        if name in graphs_of(state.context):
            right.age_registered(state.context, name)
        raise


def run_and_age(limits, state, node):
    body = right.immediate(limits, state, node)
    age_each(state.context, all_registered(state.context))
    return body


def counting():
    """A delay ages as many times as it was registered."""
    def register(limits, state, name, delay):
        body = right.register_auto_aging(limits, state, name, delay)
        counts = getattr(state.context, "counts", Counter())
        state.context.counts = counts + Counter([(name, delay)])
        return body

    def age_registered(context, name):
        for delay in context.objects[name].delays:
            age_each(context, [delay] * context.counts[name, delay])

    return {"age_registered": age_registered, **with_outcome(REGISTER_AUTO_AGING, register)}


def registering(change):
    """Changes the effect of a registration on a graph's delays, as a function of the old delays and
    the new one."""
    def register(limits, state, name, delay):
        graph = graphs_of(state.context).get(name)
        body = right.register_auto_aging(limits, state, name, delay)
        state.context.objects[name] = graph._replace(delays=change(graph.delays, {delay}))
        return body

    return with_outcome(REGISTER_AUTO_AGING, register)


def register_with_one(limits, state, name, delay):
    """A delay is registered only with the latest graph."""
    body = right.register_auto_aging(limits, state, name, delay)
    for other, graph in graphs_of(state.context).items():
        if other != name:
            state.context.objects[other] = graph._replace(delays=graph.delays - {delay})
    return body


def register_graph_first(limits, state, name, delay):
    """All faults of the graph are checked before the delay."""
    right.object_of(state.context, name, model.Graph)
    right.object_of(state.context, delay, model.Delay)
    return right.register_auto_aging(limits, state, name, delay)


def names_held(context):
    return right.names_used(context) | (all_registered(context) & {*context.objects})


def age_live(context, name):
    age_each(context, [delay for delay in context.objects[name].delays
                       if right.is_live(context, delay)])


def age_with_nodes(context, name):
    if context.objects[name].nodes:
        right.age_registered(context, name)


def age_all(context, _):
    age_each(context, all_registered(context))


def age_used(context, name):
    """Delays that the graph's own nodes don't use don't age."""
    graph = context.objects[name]
    used = {cell.name for node in graph.nodes.values() for cell in right.cells_of(node)}
    age_each(context, graph.delays & used)


def ended_by(op):
    """A request that changes a graph's nodes ends its registrations."""
    def outcome(limits, state, name, *values):
        body = right.REQUESTS[op].outcome(limits, state, name, *values)
        graph = state.context.objects[name]
        state.context.objects[name] = graph._replace(delays=frozenset())
        return body

    return outcome


AGEING_FAULTS = tuple(Fault(words, REGISTER_AUTO_AGING, changes) for words, changes in (
    ("VerifyGraph ages what is registered", with_outcome(VERIFY_GRAPH, verify_and_age)),
    ("what is registered is aged before the run", with_outcome(PROCESS_GRAPH, age_and_process)),
    ("a delay that is registered twice is aged twice", counting()),
    ("a registration holds its delay", {"names_used": names_held}),
    ("a graph that is refused ages what is registered",
     with_outcome(PROCESS_GRAPH, process_or_age)),
    ("Immediate ages what is registered", with_outcome(IMMEDIATE, run_and_age)),
    ("what is registered isn't aged", {"age_registered": lambda *_: None}),
    ("a delay that is registered again isn't any more",
     registering(lambda before, now: before ^ now)),
    ("a graph ages the delay that was registered last alone",
     registering(lambda before, now: frozenset(now))),
    ("a delay ages by the graph alone that it was registered with last",
     with_outcome(REGISTER_AUTO_AGING, register_with_one)),
    ("a graph ages what is registered with another one", {"age_registered": age_all}),
    ("a delay that was released ages no more", {"age_registered": age_live}),
    ("a delay that its graph doesn't use isn't aged", {"age_registered": age_used}),
    ("a graph without nodes ages nothing", {"age_registered": age_with_nodes}),
    ("a registration ends when the graph's nodes change",
     with_outcomes({op: ended_by(op) for op in (ADD_NODE, REMOVE_NODE)})),
    ("kinds are told before names where a delay is registered",
     {"REGISTER_REFUSALS": right.REGISTER_REFUSALS[::-1]}),
    ("the graph is refused before the delay's name is looked at",
     with_outcome(REGISTER_AUTO_AGING, register_graph_first)),
))
