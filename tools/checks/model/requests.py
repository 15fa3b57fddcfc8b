"""The effect of each request: checks that precede any change, and the body of the reply."""

import struct
from collections import namedtuple

from feqyldan import wire
from feqyldan.wire import (
    INVALID_DIMENSION, INVALID_FORMAT, INVALID_PARAMETERS, INVALID_REFERENCE, INVALID_SCOPE,
    INVALID_TYPE, INVALID_VALUE, NO_RESOURCES, OPTIMIZED_AWAY, SUCCESS, U8)
from checks.model.fields import description_bytes, encoded_samples, rectangle_bytes, take_cell
from checks.model.functions import (
    EMPTY, FUNCTIONS, NO_EXTREMES, OUTPUTS, Border, Delay, Distribution, Extremes, Image, Node,
    VirtualImage, aged, confined, is_within, new_delay, new_distribution, new_image, same_size)
from checks.model.graphs import cells_of, cells_written, run, started, verdict
from checks.model.state import (
    NO_NODES, NO_SLOT, NO_SUCH_SLOT, Cell, Context, Graph, forget, found, has_room, held, is_live,
    is_of_kind, put, refuse_if)
from checks.model.texts import picture_of, text_of


def open_context(_, state):
    refuse_if(state.context is not None, INVALID_VALUE)
    state.context = Context()
    return b""


def release_context(_, state):
    state.context = None
    return b""


def create(limits, state, thing):
    context = state.context
    refuse_if(not has_room(limits, context, thing), NO_RESOURCES)
    name = context.next_name
    context.objects[name] = thing
    context.next_name += 1
    return struct.pack(">I", name)


def create_image(limits, state, fmt, width, height):
    return create(limits, state, new_image(fmt, width, height))


def create_lut(limits, state, table):
    return create(limits, state, table)


def create_threshold(limits, state, threshold):
    return create(limits, state, threshold)


def create_convolution(limits, state, convolution):
    return create(limits, state, convolution)


def create_distribution(limits, state, bins):
    return create(limits, state, new_distribution(bins))


def create_min_max(limits, state):
    return create(limits, state, NO_EXTREMES)


def any_image_in(context, cell):
    """Returns the image or the virtual image of a reference."""
    thing = found(context, cell)
    refuse_if(thing is None, INVALID_REFERENCE)
    refuse_if(not is_of_kind(thing, Image), INVALID_TYPE)
    refuse_if(thing is NO_SUCH_SLOT, INVALID_VALUE)
    return thing


def image_in(context, cell):
    """Returns the image of a reference."""
    thing = any_image_in(context, cell)
    refuse_if(isinstance(thing, VirtualImage), OPTIMIZED_AWAY)
    return thing


def query_image(_, state, cell):
    image = any_image_in(state.context, cell)
    valid = EMPTY if isinstance(image, VirtualImage) else image.valid
    return description_bytes(image) + rectangle_bytes(valid)


def write_image(_, state, cell, picture):
    image = image_in(state.context, cell)
    refuse_if(picture.fmt != image.fmt, INVALID_FORMAT)
    refuse_if(not same_size(picture, image), INVALID_DIMENSION)
    put(state.context, cell, picture)
    return b""


def write_image_pgm(limits, state, cell, text):
    image_in(state.context, cell)
    return write_image(limits, state, cell, picture_of(text))


def read_image(_, state, cell):
    image = image_in(state.context, cell)
    return description_bytes(image) + encoded_samples(image)


def read_image_pgm(_, state, cell):
    image = image_in(state.context, cell)
    refuse_if(image.fmt != U8, INVALID_FORMAT)
    return text_of(image)


def set_valid(_, state, cell, rectangle):
    image = image_in(state.context, cell)
    refuse_if(not is_within(rectangle, image.width, image.height), INVALID_VALUE)
    put(state.context, cell, confined(image, rectangle))
    return b""


def release(_, state, name):
    refuse_if(not is_live(state.context, name), INVALID_REFERENCE)
    state.context.released.add(name)
    forget(state.context)
    return b""


def object_of(context, name, kind):
    """Returns the object of that name, which must be of a kind."""
    thing = found(context, Cell(name, NO_SLOT))
    refuse_if(thing is None, INVALID_REFERENCE)
    refuse_if(not isinstance(thing, kind), INVALID_TYPE)
    return thing


def read_distribution(_, state, name):
    counts = object_of(state.context, name, Distribution).counts
    return struct.pack(f">H{len(counts)}I", len(counts), *counts)


def read_min_max(_, state, name):
    found = object_of(state.context, name, Extremes)
    return struct.pack(">hhII4H", *found[:4], *found.min_at, *found.max_at)


# ---- nodes


def take_border(fields):
    mode = fields.byte()
    refuse_if(mode not in (wire.UNDEFINED, wire.CONSTANT, wire.REPLICATE), INVALID_PARAMETERS)
    constant = fields.byte()
    refuse_if(constant != 0 and mode != wire.CONSTANT, INVALID_PARAMETERS)
    return Border(mode, constant)


def take_policy(fields, function):
    policy = fields.byte()
    refuse_if(policy not in function.policies, INVALID_PARAMETERS)
    return policy


def take_amount(fields, function):
    amount = fields.byte()
    if function.greatest_amount is None:
        refuse_if(amount != 0, INVALID_PARAMETERS)
    else:
        refuse_if(amount > function.greatest_amount, INVALID_VALUE)
    return amount


def take_operand(fields, kind, may_be_absent):
    cell = take_cell(fields)
    is_absent = cell == Cell(0, NO_SLOT)
    refuse_if(is_absent != (kind is None) and not (is_absent and may_be_absent), INVALID_PARAMETERS)
    return None if is_absent else cell


def take_node(fields):
    number = fields.byte()
    refuse_if(number not in FUNCTIONS, INVALID_PARAMETERS)
    function = FUNCTIONS[number]
    border = take_border(fields)
    policy = take_policy(fields, function)
    amount = take_amount(fields, function)
    cells = [take_operand(fields, kind, k in function.optional)
             for k, kind in enumerate(function.kinds)]
    refuse_if(all(cells[k] is None for k in OUTPUTS), INVALID_PARAMETERS)
    return Node(function, border, policy, amount, cells)


# An operand of a request: its cell, the object found there, and the required kind.
Operand = namedtuple("Operand", "cell thing kind")


def operands_of(context, node):
    pairs = zip(node.cells, node.function.kinds)
    return [Operand(cell, found(context, cell), kind) for cell, kind in pairs if cell is not None]


def names_nothing(operands):
    return any(thing is None for _, thing, _ in operands)


def is_of_other_kind(operands):
    return any(thing is not None and not is_of_kind(thing, kind) for _, thing, kind in operands)


def is_of_other_graph(operands):
    """Checks if an operand is a virtual image of another graph. The graph itself is the first
    operand."""
    graph = operands[0].cell.name
    return any(isinstance(thing, VirtualImage) and thing.graph != graph for _, thing, _ in operands)


def names_no_slot(operands):
    return any(thing is NO_SUCH_SLOT for _, thing, _ in operands)


def names_virtual(operands):
    return any(isinstance(thing, VirtualImage) for _, thing, _ in operands)


# Each check runs on all operands before the next check.
ADD_NODE_REFUSALS = (
    (names_nothing, INVALID_REFERENCE),
    (is_of_other_kind, INVALID_TYPE),
    (is_of_other_graph, INVALID_SCOPE),
    (names_no_slot, INVALID_VALUE),
)
IMMEDIATE_REFUSALS = (
    (names_nothing, INVALID_REFERENCE),
    (is_of_other_kind, INVALID_TYPE),
    (names_no_slot, INVALID_VALUE),
    (names_virtual, OPTIMIZED_AWAY),
)


def refuse_first(refusals, operands):
    for applies, code in refusals:
        refuse_if(applies(operands), code)


# ---- graphs


def create_graph(limits, state):
    return create(limits, state, NO_NODES)


def create_virtual_image(limits, state, graph, *declared):
    object_of(state.context, graph, Graph)
    return create(limits, state, VirtualImage(graph, *declared))


def add_node(limits, state, name, node):
    context, cell = state.context, Cell(name, NO_SLOT)
    refuse_first(ADD_NODE_REFUSALS,
                 [Operand(cell, found(context, cell), Graph), *operands_of(context, node)])
    graph = held(context, cell)
    number, nodes = graph.next_number, graph.nodes
    refuse_if(len(nodes) >= limits.nodes or number > limits.numbers, NO_RESOURCES)
    put(context, cell, graph._replace(next_number=number + 1, nodes={**nodes, number: node}))
    return struct.pack(">I", number)


def remove_node(_, state, name, number):
    graph = object_of(state.context, name, Graph)
    refuse_if(number not in graph.nodes, INVALID_REFERENCE)
    nodes = {other: node for other, node in graph.nodes.items() if other != number}
    put(state.context, Cell(name, NO_SLOT), graph._replace(nodes=nodes))
    forget(state.context)
    return b""


def verified(limits, context, nodes):
    """Returns the contents of the cells of nodes whose verdict is SUCCESS."""
    things = {cell: held(context, cell) for node in nodes for cell in cells_of(node)}
    code = verdict(nodes, things, limits.work)
    refuse_if(code != SUCCESS, code)
    return things


def run_nodes(limits, context, nodes):
    after = run(nodes, started(nodes, verified(limits, context, nodes)))
    for cell in cells_written(nodes):
        if not isinstance(held(context, cell), VirtualImage):
            put(context, cell, after[cell])
    return b""


def nodes_of(state, name):
    return [*object_of(state.context, name, Graph).nodes.values()]


def verify_graph(limits, state, name):
    verified(limits, state.context, nodes_of(state, name))
    return b""


def process_graph(limits, state, name):
    body = run_nodes(limits, state.context, nodes_of(state, name))
    age_registered(state.context, name)
    return body


def immediate(limits, state, node):
    refuse_first(IMMEDIATE_REFUSALS, operands_of(state.context, node))
    return run_nodes(limits, state.context, [node])


# ---- delays


def create_delay(limits, state, cell, slots):
    return create(limits, state, new_delay(image_in(state.context, cell), slots))


def age_delay(_, state, name):
    state.context.objects[name] = aged(object_of(state.context, name, Delay))
    return b""


REGISTER_REFUSALS = ((names_nothing, INVALID_REFERENCE), (is_of_other_kind, INVALID_TYPE))


def register_auto_aging(_, state, name, delay):
    context, cell = state.context, Cell(name, NO_SLOT)
    refuse_first(REGISTER_REFUSALS,
                 [Operand(of, found(context, of), kind)
                  for of, kind in ((cell, Graph), (Cell(delay, NO_SLOT), Delay))])
    graph = held(context, cell)
    put(context, cell, graph._replace(delays=graph.delays | {delay}))
    return b""


def age_registered(context, name):
    """Ages each delay of the graph that still exists, after a run."""
    for delay in context.objects[name].delays:
        if delay in context.objects:
            context.objects[delay] = aged(context.objects[delay])
