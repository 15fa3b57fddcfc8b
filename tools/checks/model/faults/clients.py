"""Misreadings about clients."""

from checks import model
from checks.model.faults.fault import Fault, right, with_outcome


def charged_together():
    contexts = []

    class Clients(model.Clients):
        def __init__(self, limits):
            super().__init__(limits)
            contexts.clear()

    class Context(model.Context):
        def __init__(self):
            super().__init__()
            contexts.append(self)

    return {"Clients": Clients, "Context": Context,
            "charge": lambda _: sum(map(right.charge, contexts))}


class ClientsByLowByte(model.Clients):
    def state_of(self, client):
        return super().state_of(client % 256)


def open_anew(_, state):
    state.context = model.Context()
    return b""


def open_as_before(limits, state):
    right.open_context(limits, state)
    state.context.next_name = getattr(state, "following", 1)
    return b""


def release_for_now(limits, state):
    state.following = state.context.next_name
    return right.release_context(limits, state)


def names_that_go_on():
    outcomes = {right.OPEN_CONTEXT: open_as_before, right.RELEASE_CONTEXT: release_for_now}
    rows = {op: right.REQUESTS[op]._replace(outcome=outcome) for op, outcome in outcomes.items()}
    return {"REQUESTS": {**right.REQUESTS, **rows}}


CLIENT_FAULTS = (
    Fault("the clients are charged together", None, charged_together()),
    Fault("a client is the low byte of its number", None, {"Clients": ClientsByLowByte}),
    Fault("a second OpenContext opens a context anew", None,
          with_outcome(right.OPEN_CONTEXT, open_anew)),
    Fault("names go on where a context is opened again", right.RELEASE_CONTEXT, names_that_go_on()),
)
