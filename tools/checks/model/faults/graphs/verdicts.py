"""Misreadings about the verdict."""

from feqyldan import wire
from checks import model
from checks.model import functions
from checks.model.faults.fault import right
from checks.model.faults.graphs.fault import graph_faults, is_virtual
from checks.model.faults.refusals import verdict_at, verdicts_in
from checks.model.functions import IN1, INPUTS, OUT2, OUTPUTS

TWO_WRITERS, CYCLE, LINK, NODE, WORK = range(5)


def with_cells(nodes, change):
    """Replaces the cells of nodes."""
    return [node._replace(cells=[cell and change(cell) for cell in node.cells]) for node in nodes]


def of_delay(cell):
    return cell._replace(slot=model.NO_SLOT)


def of_other_nodes(nodes, *_):
    """Checks only pairs of nodes."""
    written = [cell for node in nodes for cell in {*right.cells_of(node, OUTPUTS)}]
    return wire.MULTIPLE_WRITERS if len({*written}) < len(written) else None


def of_one_node(nodes, *_):
    """Checks only single nodes."""
    return wire.MULTIPLE_WRITERS if any(map(right.two_writers,
                                            ([node] for node in nodes))) else None


def of_images(nodes, things, _):
    """An object that isn't an image may have two writers."""
    images = (model.Image, model.VirtualImage)
    written = [cell for cell in right.cells_written(nodes) if isinstance(things[cell], images)]
    return wire.MULTIPLE_WRITERS if len({*written}) < len(written) else None


def of_virtual(nodes, things, _):
    """An object that isn't virtual may have two writers."""
    written = [cell for cell in right.cells_written(nodes) if is_virtual(things[cell])]
    return wire.MULTIPLE_WRITERS if len({*written}) < len(written) else None


def reads_itself(node):
    return not {*right.cells_of(node, INPUTS)}.isdisjoint(right.cells_of(node, OUTPUTS))


def feeds(one, other):
    return not {*right.cells_of(one, OUTPUTS)}.isdisjoint(right.cells_of(other, INPUTS))


def cycle_of_others(nodes, *_):
    """A node that reads its own output isn't a cycle."""
    def without_own(node):
        own = right.cells_of(node, OUTPUTS)
        return node._replace(cells=[None if k in INPUTS and cell in own else cell
                                    for k, cell in enumerate(node.cells)])

    return right.cycle([*map(without_own, nodes)])


def cycle_of_one(nodes, *_):
    return wire.INVALID_GRAPH if any(map(reads_itself, nodes)) else None


def cycle_of_two(nodes, *_):
    """Only cycles of one and two nodes count."""
    pairs = ((one, other) for one in nodes for other in nodes if feeds(one, other))
    return wire.INVALID_GRAPH if any(feeds(other, one) for one, other in pairs) else None


def cycle_of_virtual(nodes, things, _):
    """Only cycles through virtual images count."""
    real = {cell for cell, thing in things.items() if not is_virtual(thing)}
    nodes = [node._replace(cells=[None if cell in real else cell for cell in node.cells])
             for node in nodes]
    return right.cycle(nodes)


def without(k):
    """This output makes no cycle."""
    def cycle(nodes, *_):
        return right.cycle([node._replace(cells=[None if at == k else cell
                                                 for at, cell in enumerate(node.cells)])
                            for node in nodes])

    return cycle


def is_cyclic(nodes, *_):
    """A node that can be reached again from itself, through readers of its outputs, is on a
    cycle."""
    after = {k: {j for j, other in enumerate(nodes) if feeds(node, other)}
             for k, node in enumerate(nodes)}
    for middle in after:
        for reached in after.values():
            if middle in reached:
                reached |= after[middle]
    return wire.INVALID_GRAPH if any(k in reached for k, reached in after.items()) else None


def missing_first_writer(nodes, things, _):
    """Inputs other than in1 may be unwritten."""
    read = {cell for node in nodes for cell in right.cells_of(node, (IN1,))}
    unwritten = read - {*right.cells_written(nodes)}
    return wire.INVALID_LINK if any(is_virtual(things[cell]) for cell in unwritten) else None


def missing_reader(nodes, things, work):
    """A virtual image that no node reads is a fault too."""
    unread = {*right.cells_written(nodes)} - {*right.cells_read(nodes)}
    if any(is_virtual(things[cell]) for cell in unread):
        return wire.INVALID_LINK
    return right.loose_end(nodes, things, work)


def missing_open_writer(nodes, things, work):
    """A fully declared virtual image needs no writer."""
    is_open = {cell: thing
               for cell, thing in things.items() if not is_virtual(thing) or right.is_open(thing)}
    read = {*right.cells_read(nodes)} - {*right.cells_written(nodes)}
    return wire.INVALID_LINK if any(is_virtual(is_open.get(cell)) for cell in read) else None


def latest_faulty(nodes, things, work):
    return right.faulty_node(nodes[::-1], things, work)


def first_faulty_in_run(nodes, things, work):
    return right.faulty_node(right.in_order(nodes), things, work)


def by_codes(order):
    """Checks one code on all nodes before the other one."""
    def faulty_node(nodes, things, _):
        codes = (code for applies, code in right.NODE_REFUSALS[::order]
                 for node in nodes if applies(node, things))
        return next(codes, None)

    return faulty_node


def first_input_alone(node, things):
    """in2 may have any format."""
    found = [right.format_of(things.get(cell)) for cell in node.cells]
    taken = {(formats[IN1], *formats[2:]) for formats in node.function.formats}
    return (found[IN1], *found[2:]) not in taken


def too_much_by(work_bytes, slack=0):
    def too_much_work(nodes, things, work):
        return wire.NO_RESOURCES if work_bytes(nodes, things) > work + slack else None

    return verdict_at(WORK, too_much_work)


def bytes_of(thing):
    return thing.width * thing.height * right.sample_bytes(thing.fmt)


def work_samples(nodes, things):
    images = [things[cell] for cell in right.cells_written(nodes) if is_virtual(things[cell])]
    return sum(image.width * image.height for image in images)


def work_of_read(nodes, things):
    read = {*right.cells_read(nodes)}
    images = [things[cell]
              for cell in right.cells_written(nodes) if is_virtual(things[cell]) and cell in read]
    return sum(map(bytes_of, images))


def work_of_all(nodes, things):
    """Charges all written images."""
    images = [things[cell] for cell in right.cells_written(nodes)]
    return sum(bytes_of(image)
               for image in images if isinstance(image, (model.Image, model.VirtualImage)))


def work_at_once(nodes, things):
    """Charges only images that are live at the same step, from their writers to their last
    readers."""
    order = right.in_order(nodes)
    lives = []
    for step, node in enumerate(order):
        for cell in right.cells_of(node, OUTPUTS):
            if is_virtual(things[cell]):
                readers = [k for k, other in enumerate(order)
                           if cell in right.cells_of(other, INPUTS)]
                lives.append((step, max(readers, default=step), bytes_of(things[cell])))
    sums = (sum(size for first, last, size in lives if first <= step <= last)
            for step in range(len(order)))
    return max(sums, default=0)


def work_of_largest(nodes, things):
    images = [things[cell] for cell in right.cells_written(nodes) if is_virtual(things[cell])]
    return max(map(bytes_of, images), default=0)


def verified_within_quota(limits, context, nodes):
    """Charges work bytes to the quota, too."""
    things = right.verified(limits, context, nodes)
    work = right.work_bytes(nodes, right.described(nodes, things))
    model.refuse_if(right.charge(context) + work > limits.quota, wire.NO_RESOURCES)
    return things


def empty_is(code):
    def verified(limits, context, nodes):
        model.refuse_if(not nodes, code)
        return right.verified(limits, context, nodes)

    return {"verified": verified}


VERDICT_FAULTS = graph_faults(
    ("a cycle is told before two writers", verdicts_in(1, 0, 2, 3, 4)),
    ("a faulty node is told before two writers", verdicts_in(3, 0, 1, 2, 4)),
    ("a missing writer is told before two writers", verdicts_in(2, 0, 1, 3, 4)),
    ("a missing writer is told before a cycle", verdicts_in(0, 2, 1, 3, 4)),
    ("a faulty node is told before a missing writer", verdicts_in(0, 1, 3, 2, 4)),
    ("too many work bytes are told before a faulty node", verdicts_in(0, 1, 2, 4, 3)),
    ("two nodes may write one image", verdict_at(TWO_WRITERS, of_one_node)),
    ("one node may write an image twice", verdict_at(TWO_WRITERS, of_other_nodes)),
    ("a distribution may have two writers", verdict_at(TWO_WRITERS, of_images)),
    ("what isn't virtual may have two writers", verdict_at(TWO_WRITERS, of_virtual)),
    ("two slots of a delay have one writer",
     verdict_at(TWO_WRITERS, lambda nodes,
                *graph: right.two_writers(with_cells(nodes, of_delay), *graph))),
    ("two slots of a delay make a cycle",
     verdict_at(CYCLE, lambda nodes, *graph: right.cycle(with_cells(nodes, of_delay), *graph))),
    ("there may be cycles",
     {**verdict_at(CYCLE, lambda *_: None), "in_order": lambda nodes: [*nodes]}),
    ("a node that reads what it writes is no cycle", {
        **verdict_at(CYCLE, cycle_of_others), "in_order": lambda nodes: [*nodes]}),
    ("a cycle is one node that reads what it writes", {
        **verdict_at(CYCLE, cycle_of_one), "in_order": lambda nodes: [*nodes]}),
    ("a cycle has two nodes at most", {
        **verdict_at(CYCLE, cycle_of_two), "in_order": lambda nodes: [*nodes]}),
    ("a cycle is one of virtual images", {
        **verdict_at(CYCLE, cycle_of_virtual), "in_order": lambda nodes: [*nodes]}),
    ("in2 makes no cycle",
     {**verdict_at(CYCLE, without(functions.IN2)), "in_order": lambda nodes: [*nodes]}),
    ("out2 makes no cycle",
     {**verdict_at(CYCLE, without(OUT2)), "in_order": lambda nodes: [*nodes]}),
    ("in2 needs no writer", verdict_at(LINK, missing_first_writer)),
    ("a virtual image needs a reader", verdict_at(LINK, missing_reader)),
    ("a virtual image of which all is declared needs no writer",
     verdict_at(LINK, missing_open_writer)),
    ("the node that was added last decides", verdict_at(NODE, latest_faulty)),
    ("the faulty node that would run first decides", verdict_at(NODE, first_faulty_in_run)),
    ("formats of all nodes are tried before sizes", verdict_at(NODE, by_codes(1))),
    ("sizes of all nodes are tried before formats", verdict_at(NODE, by_codes(-1))),
    ("as many work bytes as are allowed are too many", too_much_by(right.work_bytes, -1)),
    ("one work byte more is allowed", too_much_by(right.work_bytes, 1)),
    ("work bytes are samples", too_much_by(work_samples)),
    ("virtual images that nobody reads take no work bytes", too_much_by(work_of_read)),
    ("all images that are written take work bytes", too_much_by(work_of_all)),
    ("work bytes are counted once for virtual images that share them", too_much_by(work_at_once)),
    ("work bytes are those of the largest virtual image", too_much_by(work_of_largest)),
    ("work bytes are charged", {"verified": verified_within_quota}),
    ("a graph without nodes answers INVALID_GRAPH", empty_is(wire.INVALID_GRAPH)),
)
