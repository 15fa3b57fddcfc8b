"""Common helpers for misreadings about graphs."""

from checks import model
from checks.model.faults.fault import Fault, right
from checks.model.state import CREATE_GRAPH


def with_outcomes(outcomes):
    """Replaces the effects of requests."""
    rows = {op: right.REQUESTS[op]._replace(outcome=outcome) for op, outcome in outcomes.items()}
    return {"REQUESTS": {**right.REQUESTS, **rows}}


def graph_faults(*rows):
    return tuple(Fault(words, CREATE_GRAPH, changes) for words, changes in rows)


def graphs_of(context):
    """Returns the graphs whose names are live, by name."""
    return {name: thing for name, thing in context.objects.items()
            if isinstance(thing, model.Graph) and right.is_live(context, name)}


def is_virtual(thing):
    return isinstance(thing, model.VirtualImage)
