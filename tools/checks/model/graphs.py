"""The verdict on a graph, and its run. Nodes are linked by the cells that they read and write.

Nothing here depends on clients. `nodes` are the nodes of a graph, in the order of adding. `things`
has the contents of each cell of these nodes; those of a virtual image are its declaration.
"""

from feqyldan.wire import (
    INVALID_DIMENSION, INVALID_FORMAT, INVALID_GRAPH, INVALID_LINK, MULTIPLE_WRITERS, NO_RESOURCES,
    SUCCESS)
from checks.model.functions import (
    IN1, INPUTS, OUTPUTS, Image, VirtualImage, format_of, is_open, new_image, same_size,
    sample_bytes)


def cells_of(node, operands=INPUTS + OUTPUTS):
    """Returns the cells of those operands that are present."""
    return [node.cells[k] for k in operands if node.cells[k] is not None]


def cells_written(nodes):
    return [cell for node in nodes for cell in cells_of(node, OUTPUTS)]


def cells_read(nodes):
    return [cell for node in nodes for cell in cells_of(node, INPUTS)]


def cells_added_to(nodes):
    return [cell for node in nodes if node.function.accumulates for cell in cells_of(node, OUTPUTS)]


def in_order(nodes):
    """Returns the nodes in topological order, without those on a cycle or after one."""
    order, left = [], [*nodes]
    while True:
        unwritten = {*cells_written(left)}
        ready = [node for node in left if unwritten.isdisjoint(cells_of(node, INPUTS))]
        if not ready:
            return order
        order += ready
        left = [node for node in left if not unwritten.isdisjoint(cells_of(node, INPUTS))]


# ---- virtual images


def filled(thing, node, first):
    """Resolves the undeclared fields of an output from the node's in1, as far as in1 is
    resolved."""
    if not isinstance(thing, VirtualImage) or not is_open(thing):
        return thing
    fmt, width, height = node.function.opened(first.fmt), first.width, first.height
    return thing._replace(fmt=thing.fmt or fmt, width=thing.width or width,
                          height=thing.height or height)


def filled_by(nodes, things):
    """Resolves the outputs of all nodes in one pass."""
    return {cell: filled(things[cell], node, things[node.cells[IN1]])
            for node in nodes for cell in cells_of(node, OUTPUTS)}


def described(nodes, things):
    """Resolves the undeclared fields of virtual images from their writers, in as many passes as
    there are nodes. It stops after a pass that changes nothing."""
    for _ in nodes:
        before, things = things, {**things, **filled_by(nodes, things)}
        if things == before:
            break
    return things


# ---- the verdict


def two_writers(nodes, *_):
    """Checks if one cell is written twice, by two nodes or by one."""
    written = cells_written(nodes)
    return MULTIPLE_WRITERS if len({*written}) < len(written) else None


def cycle(nodes, *_):
    return INVALID_GRAPH if len(in_order(nodes)) < len(nodes) else None


def loose_end(nodes, things, _):
    """Checks if a virtual image is read and no node writes it, or a node adds to one."""
    cells = ({*cells_read(nodes)} - {*cells_written(nodes)}) | {*cells_added_to(nodes)}
    return INVALID_LINK if any(isinstance(things[cell], VirtualImage) for cell in cells) else None


def has_other_formats(node, things):
    return tuple(format_of(things.get(cell)) for cell in node.cells) not in node.function.formats


def has_other_size(node, things):
    images = [things[cell]
              for cell in cells_of(node) if isinstance(things[cell], (Image, VirtualImage))]
    return any(not same_size(image, things[node.cells[IN1]]) for image in images)


NODE_REFUSALS = ((has_other_formats, INVALID_FORMAT), (has_other_size, INVALID_DIMENSION))


def faulty_node(nodes, things, _):
    """Returns the first fault of the first faulty node."""
    codes = (code for node in nodes for applies, code in NODE_REFUSALS if applies(node, things))
    return next(codes, None)


def work_bytes(nodes, things):
    """Returns the sample bytes of all virtual images that the nodes write."""
    images = [things[cell]
              for cell in cells_written(nodes) if isinstance(things[cell], VirtualImage)]
    return sum(image.width * image.height * sample_bytes(image.fmt) for image in images)


def too_much_work(nodes, things, work):
    return NO_RESOURCES if work_bytes(nodes, things) > work else None


# Each check returns the code with which it refuses a graph, or None, from the nodes, the resolved
# contents of their cells, and the allowed work bytes. The first code decides.
VERDICTS = (two_writers, cycle, loose_end, faulty_node, too_much_work)
VERDICT_CODES = {
    MULTIPLE_WRITERS, INVALID_GRAPH, INVALID_LINK, INVALID_FORMAT, INVALID_DIMENSION, NO_RESOURCES,
    SUCCESS}


def verdict(nodes, things, work):
    things = described(nodes, things)
    codes = (refusal(nodes, things, work) for refusal in VERDICTS)
    return next((code for code in codes if code is not None), SUCCESS)


# ---- runs, of graphs whose verdict is SUCCESS


def started(nodes, things):
    """Returns the contents of the cells when a run begins: a virtual image is a new one."""
    return {cell: new_image(*thing[1:]) if isinstance(thing, VirtualImage) else thing
            for cell, thing in described(nodes, things).items()}


def given(node, things, before):
    """Returns the new contents of each cell that a node writes, from its inputs and the prior
    contents."""
    operands = [None if cell is None else (before if k in OUTPUTS else things)[cell]
                for k, cell in enumerate(node.cells)]
    return {node.cells[k]: thing for k, thing in node.function.gives(node, operands).items()}


def run(nodes, things):
    """Returns the contents of the cells after a run: each node runs once, after the writers of its
    inputs."""
    before = things
    for node in in_order(nodes):
        things = {**things, **given(node, things, before)}
    return things


def run_in_rounds(nodes, things):
    """Computes the same in passes: in each of as many passes as there are nodes, all of them run on
    the previous result."""
    before = things
    for _ in nodes:
        values = (given(node, things, before) for node in nodes)
        things = {**things, **{cell: thing for value in values for cell, thing in value.items()}}
    return things
