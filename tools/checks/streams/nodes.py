"""Draws random nodes: for Immediate, for AddNode (linked with other nodes of the graph), and for a
graph with a given fault. Most fit the client's objects."""

from feqyldan import wire
from feqyldan.wire import (
    INVALID_DIMENSION, INVALID_FORMAT, INVALID_GRAPH, INVALID_LINK, MULTIPLE_WRITERS, SUCCESS)
from checks import model
from checks.model.functions import (
    FUNCTIONS, IN1, IN2, OUT1, OUT2, OUTPUTS, format_of, is_open, new_image, same_size)
from checks.model.graphs import cells_of, cells_read, cells_written, described, verdict
from checks.streams.draw import byte, cell_bytes, long


def cells_like(cells, image, kind, fmt):
    """Returns the cells of a kind and a format; for images also of an image's size."""
    if kind is None or (kind is model.Image and fmt is None):
        return [None]
    return [cell for cell, thing in cells if isinstance(thing, kind) and format_of(thing) == fmt
            and (kind is not model.Image or same_size(thing, image))]


def are_apart(cells):
    """Checks that no output is an input or the other output."""
    written = [cell for cell in cells[OUT1:] if cell is not None]
    return len({*written}.difference(cells[:OUT1])) == len(written)


def formats_for(draw, allowed):
    """Draws formats that a function accepts, preferably those with two outputs."""
    weights = [6 ** sum(fmt is not None for fmt in formats) for formats in allowed]
    return draw.rng.choices(allowed, weights)[0]


def fitting(draw, function):
    """Draws operands that the function accepts, or None if there are none."""
    cells = draw.cells()
    images = [thing for _, thing in cells if isinstance(thing, model.Image)]
    for _ in range(12 if images else 0):
        image = draw.pick(images)
        operands = zip(function.kinds, formats_for(draw, function.formats))
        choices = [cells_like(cells, image, kind, fmt) for kind, fmt in operands]
        chosen = [draw.pick(choice) for choice in choices] if all(choices) else None
        if chosen and (are_apart(chosen) or draw.chance(0.05)):
            return chosen
    return None


def of_kinds(draw, function):
    """Draws operands of the function's kinds, with different images if possible."""
    images = [cell for cell, _ in draw.cells(model.Image)]
    draw.rng.shuffle(images)

    def cell(kind):
        if kind is model.Image and images:
            return images.pop()
        return None if kind is None else draw.cell(kind)

    return [cell(kind) for kind in function.kinds]


def missing_slots(draw):
    """Returns cells of slots that delays don't have."""
    return [model.Cell(name, slot) for name, delay in draw.objects(model.Delay)
            for slot in (len(delay.images), 254)]


def other_cell(draw, cell, kind):
    """Draws a replacement of a cell: of another size or format, any of the kind, any object, or
    none."""
    thing = draw.thing(cell)
    images = draw.cells(model.Image) if isinstance(thing, model.Image) else []
    resized = [cell for cell, image in images
               if image.fmt == thing.fmt and not same_size(image, thing)]
    reformatted = [cell for cell, image in images
                   if image.fmt != thing.fmt and same_size(image, thing)]
    of_kind, of_any, virtual = ([cell for cell, _ in draw.cells(of)]
                                for of in (kind, object, model.VirtualImage))
    pools = resized, reformatted, of_kind, of_any, virtual, missing_slots(draw), []
    cells = draw.rng.choices(pools, (6, 8, 2, 6, 3, 4, 4))[0]
    other = draw.pick(cells) if cells else model.Cell(draw.no_name(), model.NO_SLOT)
    share = 0.3 if isinstance(draw.thing(other), model.VirtualImage) else 0.15
    return other._replace(slot=draw.slot(share)) if other.slot == model.NO_SLOT else other


def disturbed(draw, function, cells):
    """Draws operands, often with some that don't fit."""
    if draw.chance(0.3):
        for k in draw.rng.sample(range(4), draw.pick((1, 2, 3))):
            cells[k] = None if cells[k] is None else other_cell(draw, cells[k], function.kinds[k])
    if function.kinds[OUT2] is not None and draw.chance(0.2):
        # Two outputs that are one image, or a second output that is the input.
        cells[OUT1] = cells[OUT1] or cells[OUT2]
        cells[OUT2] = cells[draw.pick((OUT1, OUT1, IN1))]
    if draw.chance(0.02):
        # A required operand is absent, or an extra one is present.
        k = draw.rng.randrange(4)
        cells[k] = draw.cell(model.Image) if cells[k] is None else None
    return cells


def refused_cell(draw, name, kind):
    """Draws a cell that a node of this graph, or Immediate, must refuse in place of one of the
    kind."""
    cells = draw.cells()
    foreign = [cell for cell, thing in cells
               if isinstance(thing, model.VirtualImage) and thing.graph != name]
    others = [cell for cell, thing in cells if not model.is_of_kind(thing, kind)]
    slots = [cell._replace(slot=draw.pick((0, 1, 254)))
             for cell, thing in cells if not isinstance(thing, model.Image)]
    pools = foreign, foreign, missing_slots(draw), missing_slots(draw), others, slots
    return draw.pick(draw.pick([*filter(None, pools),
                                [model.Cell(draw.no_name(), draw.slot(0.2))]]))


def with_refused(draw, name, function, cells):
    """Draws operands that AddNode refuses for this graph."""
    chosen = draw.rng.sample(range(4), draw.pick((1, 2, 2, 3, 4)))
    return [refused_cell(draw, name, function.kinds[k]) if k in chosen and cell is not None
            else cell
            for k, cell in enumerate(cells)]


# ---- nodes

# The functions with a border mode.
WINDOWED = range(wire.BOX, wire.CONVOLVE + 1)
BORDERS = (wire.UNDEFINED, wire.CONSTANT, wire.REPLICATE)
# Functions that run more often, because they have more cases.
MANIFOLD = (
    wire.SOBEL, wire.SOBEL, wire.CONVOLVE, wire.CONVOLVE, wire.HISTOGRAM, wire.ACCUMULATE,
    wire.ACCUMULATE_SQUARE)


def border(draw, number):
    """Draws a border mode and a constant."""
    if draw.chance(0.02):
        return draw.pick(((3, 0), (255, 0), (wire.UNDEFINED, 1), (wire.REPLICATE, 255)))
    mode = draw.rng.choices(BORDERS, (4, 4, 5) if number in WINDOWED else (7, 2, 1))[0]
    return mode, draw.pick((0, 255, draw.rng.randrange(256))) if mode == wire.CONSTANT else 0


def any_function(draw):
    return draw.pick((*FUNCTIONS, *MANIFOLD))


def node_fields(draw, number, cells):
    function = FUNCTIONS[number]
    policy = draw.pick((1, 2, 255)) if draw.chance(0.015) else draw.pick(function.policies)
    greatest = function.greatest_amount or 0
    if draw.chance(0.12 if greatest or function.accumulates else 0.01):
        amount = draw.pick((greatest + 1, 255))
    else:
        amount = draw.rng.randint(0, greatest)
    mode, constant = border(draw, number)
    if draw.chance(0.01):
        number = draw.pick((0, 255, max(FUNCTIONS) + 1, draw.rng.randrange(256)))
    return [*map(byte, (number, mode, constant, policy, amount)), *map(cell_bytes, cells)]


def immediate(draw):
    number = any_function(draw)
    function = FUNCTIONS[number]
    cells = fitting(draw, function) or of_kinds(draw, function)
    if draw.chance(0.06):
        cells = with_refused(draw, None, function, cells)
    else:
        cells = disturbed(draw, function, cells)
    return node_fields(draw, number, cells)


# ---- nodes of a graph

# Largest images in graphs, because a graph may have many nodes.
MOST_SAMPLES = 150


def fits_graph(thing, name):
    """Checks that a graph may name the object, and would run on it quickly."""
    if isinstance(thing, model.VirtualImage):
        return thing.graph == name
    return not isinstance(thing, model.Image) or thing.width * thing.height <= MOST_SAMPLES


def things_for(draw, name, nodes):
    """Returns the objects that nodes of a graph may name, resolved by its nodes."""
    things = {cell: thing for cell, thing in draw.cells() if fits_graph(thing, name)}
    of_nodes = {cell: model.held(draw.state.context, cell) for node in nodes
                for cell in cells_of(node)}
    return {cell: thing
            for cell, thing in described(nodes, {**things, **of_nodes}).items() if cell in things}


def as_output(thing, function, first):
    """Returns the resolved output of a node of the function; a virtual image becomes an image."""
    if not isinstance(thing, model.VirtualImage) or function.opened is None:
        return thing
    return new_image(thing.fmt or function.opened(first.fmt), thing.width or first.width,
                     thing.height or first.height)


def as_input(thing):
    """Returns the input, or None for a virtual image with undeclared fields."""
    if not isinstance(thing, model.VirtualImage):
        return thing
    return None if is_open(thing) else new_image(thing.fmt, thing.width, thing.height)


def operands_in_graph(draw, number, things, written):
    """Draws operands that the function accepts after these cells are written, or None if there are
    none."""
    function = FUNCTIONS[number]
    readable = [(cell, as_input(thing)) for cell, thing in things.items()
                if cell in written or not isinstance(thing, model.VirtualImage)]
    images = [(cell, thing) for cell, thing in readable if isinstance(thing, model.Image)]
    linked = [(cell, thing) for cell, thing in images if cell in written]
    if not images:
        return None
    cell, first = draw.pick(linked if linked and draw.chance(0.7) else images)
    allowed = [formats for formats in function.formats if formats[IN1] == first.fmt]
    if not allowed:
        return None
    _, second_format, *output_formats = formats_for(draw, allowed)
    outputs = [(cell, as_output(thing, function, first))
               for cell, thing in things.items() if cell not in written
               and not (function.accumulates and isinstance(thing, model.VirtualImage))]
    choices = [cells_like(readable, first, function.kinds[IN2], second_format)]
    choices += [cells_like(outputs, first, function.kinds[k], fmt)
                for k, fmt in zip(OUTPUTS, output_formats)]
    if not all(choices):
        return None
    virtual = [[cell for cell in choice if isinstance(things.get(cell), model.VirtualImage)]
               for choice in choices]
    chosen = [draw.pick(some if some and draw.chance(0.6) else choice)
              for some, choice in zip(virtual, choices)]
    return [cell, *chosen]


def node_of(fields):
    """Returns the node of these fields, or None if they are refused."""
    try:
        return model.take_node(model.Fields(b"".join(fields)))
    except model.Refused:
        return None


def verdict_on(draw, nodes, work):
    things = {cell: model.held(draw.state.context, cell) for node in nodes
              for cell in cells_of(node)}
    return verdict(nodes, things, work)


def of_other_size(things, cells):
    """Returns the images whose size differs from in1's, in most cases with the format of one of the
    operands."""
    first, formats = things[cells[IN1]], [format_of(things.get(cell)) for cell in cells]
    images = [(cell, as_input(thing)) for cell, thing in things.items()]
    return [cell for cell, image in images if isinstance(image, model.Image)
            and not same_size(image, first) and image.fmt in formats]


def spoiled_operands(draw, cells, number, things, nodes, wanted):
    """Replaces one operand so that the verdict may be this one."""
    written = cells_written(nodes)
    others = [cell for cell in cells[OUT1:] if cell is not None]
    virtual = [cell for cell, thing in things.items() if isinstance(thing, model.VirtualImage)]
    unwritten = [cell for cell in virtual if cell not in written]
    loose = (OUT1,) if FUNCTIONS[number].accumulates and draw.chance(0.8) else (IN1, IN2)
    operands, pool = {
        MULTIPLE_WRITERS: (OUTPUTS, written + others),
        INVALID_GRAPH: (draw.pick((OUTPUTS, (IN1, IN2))),
                        cells_read(nodes) + cells[:OUT1] + others),
        INVALID_LINK: (loose, unwritten),
        INVALID_DIMENSION: ((IN2, *OUTPUTS), of_other_size(things, cells)),
    }.get(wanted, (range(4), [*things]))
    k = draw.pick(operands)
    kind = FUNCTIONS[number].kinds[k]
    pool = [cell for cell in pool
            if kind and cell is not None and model.is_of_kind(draw.thing(cell), kind)]
    return [draw.pick(pool) if at == k and pool else cell for at, cell in enumerate(cells)]


# Functions that cause these faults more often than others.
ACCUMULATORS = tuple(number for number, function in FUNCTIONS.items() if function.accumulates)
OFTEN_BY = {
    MULTIPLE_WRITERS: (*(wire.HISTOGRAM, wire.MIN_MAX_LOCATION) * 3, *ACCUMULATORS),
    INVALID_LINK: ACCUMULATORS}


def node_for(draw, name, nodes, wanted=SUCCESS, work=None):
    """Draws the fields of a node that gives a graph this verdict, and the node, or None if none is
    found."""
    things, written = things_for(draw, name, nodes), {*cells_written(nodes)}
    for _ in range(16 if wanted == SUCCESS else 60):
        number = any_function(draw)
        if wanted in OFTEN_BY and draw.chance(0.6):
            number = draw.pick(OFTEN_BY[wanted])
        cells = operands_in_graph(draw, number, things, written)
        if cells and wanted != SUCCESS:
            cells = spoiled_operands(draw, cells, number, things, nodes, wanted)
        fields = cells and node_fields(draw, number, cells)
        node = fields and node_of(fields)
        # The number may since have become another function's, whose operand kinds don't fit.
        if not node or node.function is not FUNCTIONS[number]:
            continue
        if verdict_on(draw, [*nodes, node], draw.limits.work if work is None else work) == wanted:
            return fields, node
    return None


def any_nodes(draw, name, count, work):
    """Draws nodes of a graph with the verdict SUCCESS, as many as are found, in topological
    order."""
    found = []
    for _ in range(count):
        following = node_for(draw, name, [node for _, node in found], work=work)
        if following is None:
            break
        found.append(following)
    return found


def with_virtual_sum(draw, nodes):
    """Returns the nodes, one of which now adds to a virtual image that is read, and the list of
    such nodes: one or none."""
    read = {*cells_read([node for _, node in nodes])}
    places = [at for at, (_, node) in enumerate(nodes) if node.cells[OUT1] in read
              and isinstance(draw.thing(node.cells[OUT1]), model.VirtualImage)]
    if not places:
        return nodes, []
    at, number = draw.pick(places), draw.pick(ACCUMULATORS)
    cells = nodes[at][1].cells
    fields = node_fields(draw, number, [cells[IN1], None, cells[OUT1], None])
    added = fields, node_of(fields)
    return [*nodes[:at], added, *nodes[at + 1 :]], [added]


FAULTS = (MULTIPLE_WRITERS, INVALID_GRAPH, INVALID_GRAPH, INVALID_LINK, INVALID_FORMAT,
          INVALID_DIMENSION)


def some_faults(draw):
    """Draws the fault of a graph: one fault, several, or two nodes whose order decides."""
    if draw.chance(0.35):
        return INVALID_FORMAT, INVALID_DIMENSION
    return draw.rng.sample(FAULTS, draw.pick((1, 1, 1, 2, 2, 3)))


def refused_node(draw, name):
    number = any_function(draw)
    function = FUNCTIONS[number]
    return [long(name),
            *node_fields(draw, number,
                         with_refused(draw, name, function, of_kinds(draw, function)))]


def add_node(draw):
    """Draws a node for AddNode, mostly one that is refused, or one that fits a graph."""
    name = draw.name(model.Graph)
    if draw.chance(0.7):
        return refused_node(draw, name)
    graph = draw.live().get(name)
    nodes = [*graph.nodes.values()] if isinstance(graph, model.Graph) else []
    number = any_function(draw)
    things = {} if draw.state.context is None else things_for(draw, name, nodes)
    cells = operands_in_graph(draw, number, things, {*cells_written(nodes)})
    function = FUNCTIONS[number]
    cells = cells or fitting(draw, function) or of_kinds(draw, function)
    return [long(name), *node_fields(draw, number, disturbed(draw, function, cells))]
