"""Misreadings about virtual images and their undeclared fields."""

from feqyldan import wire
from feqyldan.wire import OPEN, S16, U8
from checks import model
from checks.model.faults.fault import at_once, right, with_outcome, with_row
from checks.model.faults.graphs.fault import graph_faults, is_virtual
from checks.model.state import CREATE_VIRTUAL_IMAGE, PROCESS_GRAPH, QUERY_IMAGE, VERIFY_GRAPH


def held_with_slot(context, cell):
    """A virtual image with a slot is that image."""
    thing = context.objects.get(cell.name)
    return thing if is_virtual(thing) else right.held(context, cell)


def virtual_as(code):
    def image_in(context, cell):
        thing = right.any_image_in(context, cell)
        model.refuse_if(is_virtual(thing), code)
        return thing

    return {"image_in": image_in}


def image_or_declared(context, cell):
    """Returns the declaration of a virtual image."""
    thing = right.any_image_in(context, cell)
    return right.new_image(*thing[1:]) if is_virtual(thing) else thing


def write_declared(limits, state, cell, picture):
    """A virtual image has its declared format and size, as far as there are any."""
    image = right.any_image_in(state.context, cell)
    if is_virtual(image):
        model.refuse_if(image.fmt not in (OPEN, picture.fmt), wire.INVALID_FORMAT)
        size = picture.width, picture.height
        is_other = (image.width or picture.width, image.height or picture.height) != size
        model.refuse_if(is_other, wire.INVALID_DIMENSION)
    return right.write_image(limits, state, cell, picture)


def text_before_virtual(limits, state, cell, text):
    if is_virtual(right.any_image_in(state.context, cell)):
        right.picture_of(text)
    return right.write_image_pgm(limits, state, cell, text)


def set_valid_declared(limits, state, cell, rectangle):
    image = right.any_image_in(state.context, cell)
    width, height = (side or right.GREATEST_SIDE for side in (image.width, image.height))
    beyond = is_virtual(image) and not right.is_within(rectangle, width, height)
    model.refuse_if(beyond, wire.INVALID_VALUE)
    return right.set_valid(limits, state, cell, rectangle)


def delay_of_declared(limits, state, cell, slots):
    """A fully declared virtual image may be the exemplar."""
    image = right.any_image_in(state.context, cell)
    if is_virtual(image) and not right.is_open(image):
        return right.create(limits, state, right.new_delay(right.new_image(*image[1:]), slots))
    return right.create_delay(limits, state, cell, slots)


def query_of_images(_, state, cell):
    image = right.image_in(state.context, cell)
    return right.description_bytes(image) + right.rectangle_bytes(image.valid)


def query_of_declared(limits, state, cell):
    """The whole declared size is valid."""
    image = right.any_image_in(state.context, cell)
    if not is_virtual(image):
        return right.query_image(limits, state, cell)
    valid = right.whole(image.width, image.height) if image.width and image.height else model.EMPTY
    return right.description_bytes(image) + right.rectangle_bytes(valid)


def declared_by(op):
    """A verdict of SUCCESS declares the undeclared fields."""
    def outcome(limits, state, name):
        nodes = right.nodes_of(state, name)
        body = right.REQUESTS[op].outcome(limits, state, name)
        things = {cell: right.held(state.context, cell) for node in nodes
                  for cell in right.cells_of(node)}
        for cell, thing in right.described(nodes, things).items():
            if is_virtual(thing):
                state.context.objects[cell.name] = thing
        return body

    return with_outcome(op, outcome)


def charged_virtual(thing):
    if not is_virtual(thing):
        return right.object_bytes(thing)
    return thing.width * thing.height * right.sample_bytes(thing.fmt or U8)


def without_count(kind):
    def has_room(limits, context, thing):
        more = sum(isinstance(held, kind) for held in (thing, *context.objects.values()))
        return right.has_room(limits._replace(objects=limits.objects + more), context, thing)

    return {"has_room": has_room}


def no_room_at_quota(limits, context, thing):
    return right.has_room(limits, context,
                          thing) and not (is_virtual(thing)
                                          and right.charge(context) == limits.quota)


def taken_as(take):
    rows = {**right.REQUESTS,
            CREATE_VIRTUAL_IMAGE: right.REQUESTS[CREATE_VIRTUAL_IMAGE]._replace(take=take)}
    return {"REQUESTS": rows}


def take_by_height(fields):
    name, fmt, height, width = right.take_virtual_image(fields)
    return name, fmt, width, height


def take_smaller(fields):
    """Its sides are at most 4096."""
    name, fmt, *sides = right.take_virtual_image(fields)
    model.refuse_if(any(side > 4096 for side in sides), wire.INVALID_DIMENSION)
    return name, fmt, *sides


def take_whole_or_none(fields):
    """Either format and size are declared, or nothing."""
    name, *declared = right.take_virtual_image(fields)
    model.refuse_if(any(declared) and not all(declared), wire.INVALID_PARAMETERS)
    return name, *declared


def take_declared(fields):
    return right.take_name(fields), *right.take_description(fields)


def virtual_of(code):
    """Changes the refusal of a name that isn't a graph."""
    def create_virtual_image(limits, state, graph, *declared):
        thing = right.found(state.context, model.Cell(graph, model.NO_SLOT))
        model.refuse_if(thing is not None and not isinstance(thing, model.Graph), code)
        return right.create_virtual_image(limits, state, graph, *declared)

    return with_outcome(CREATE_VIRTUAL_IMAGE, create_virtual_image)


def virtual_room_first(limits, state, graph, *declared):
    model.refuse_if(not right.has_room(limits, state.context, model.VirtualImage(graph, *declared)),
                    wire.NO_RESOURCES)
    return right.create_virtual_image(limits, state, graph, *declared)


VIRTUAL_FAULTS = graph_faults(
    ("a virtual image with a slot is that image", {"held": held_with_slot}),
    ("a virtual image is told as INVALID_TYPE", virtual_as(wire.INVALID_TYPE)),
    ("a virtual image is told as INVALID_REFERENCE", virtual_as(wire.INVALID_REFERENCE)),
    ("WriteImage compares with what is declared before it tells a virtual image",
     with_outcome(right.WRITE_IMAGE, write_declared)),
    ("WriteImagePgm tells a text's fault before a virtual image",
     with_outcome(right.WRITE_IMAGE_PGM, text_before_virtual)),
    ("SetValid compares with what is declared before it tells a virtual image",
     with_outcome(right.SET_VALID, set_valid_declared)),
    ("a declared virtual image may be a delay's exemplar",
     with_outcome(right.CREATE_DELAY, delay_of_declared)),
    ("QueryImage isn't answered of a virtual image", with_outcome(QUERY_IMAGE, query_of_images)),
    ("QueryImage tells what is declared as valid", with_outcome(QUERY_IMAGE, query_of_declared)),
    ("QueryImage tells what VerifyGraph found", declared_by(VERIFY_GRAPH)),
    ("QueryImage tells what ProcessGraph found", declared_by(PROCESS_GRAPH)),
    ("a virtual image is charged what is declared", {"object_bytes": charged_virtual}),
    ("a virtual image isn't counted among the objects", without_count(model.VirtualImage)),
    ("a graph isn't counted among the objects", without_count(model.Graph)),
    ("at the quota no virtual image finds room", {"has_room": no_room_at_quota}),
    ("a virtual image that is cut short is told before its format",
     taken_as(at_once(right.take_virtual_image, 9))),
    ("a virtual image has its height before its width", taken_as(take_by_height)),
    ("a virtual image's sides are 4096 at most", taken_as(take_smaller)),
    ("a virtual image is wholly open or not at all", taken_as(take_whole_or_none)),
    ("a virtual image has to be declared", taken_as(take_declared)),
    ("a virtual image of what isn't a graph answers INVALID_GRAPH", virtual_of(wire.INVALID_GRAPH)),
    ("a virtual image's room is tried before its graph",
     with_outcome(CREATE_VIRTUAL_IMAGE, virtual_room_first)),
)


def filled_over(thing, node, first):
    """Declared fields are resolved again too."""
    return right.filled(thing._replace(fmt=OPEN, width=OPEN, height=OPEN) if is_virtual(thing)
                        else thing, node, first)


def filled_sizes(thing, node, first):
    return right.filled(thing._replace(width=OPEN, height=OPEN) if is_virtual(thing) else thing,
                        node, first)


def filled_formats(thing, node, first):
    return right.filled(thing._replace(fmt=OPEN) if is_virtual(thing) else thing, node, first)


def filled_if_open(thing, node, first):
    """Treats all fields as undeclared if one is."""
    return filled_over(thing, node, first) if is_virtual(thing) and right.is_open(thing) else thing


def described_once(nodes, things):
    """Resolves in the order of adding."""
    for node in nodes:
        things = {**things, **right.filled_by([node], things)}
    return things


def described_in_rounds(nodes, things):
    for _ in nodes:
        things = {**things, **right.filled_by(nodes, things)}
    return things


def opened(number, fmt_of):
    return with_row(number, opened=fmt_of)


OPEN_FAULTS = graph_faults(
    ("a writer overrules what is declared", {"filled": filled_over}),
    ("a writer overrules the size that is declared", {"filled": filled_sizes}),
    ("a writer overrules the format that is declared", {"filled": filled_formats}),
    ("where something is open all of it is", {"filled": filled_if_open}),
    ("what is open is filled once, in the order of adding", {"described": described_once}),
    ("an open sum of U8 is U8", opened(wire.ADD, right.same_format)),
    ("an open difference of U8 is U8", opened(wire.SUBTRACT, right.same_format)),
    ("an open product of U8 is U8", opened(wire.MULTIPLY, right.same_format)),
    ("an open distance is U8", opened(wire.ABSOLUTE_DIFFERENCE, right.always(U8))),
    ("an open minimum is U8", opened(wire.MIN_PIXEL, right.always(U8))),
    ("an open maximum is S16", opened(wire.MAX_PIXEL, right.always(S16))),
    ("an open Threshold has in1's format", opened(wire.THRESHOLD, right.same_format)),
    ("an open TableLookup is U8", opened(wire.TABLE_LOOKUP, right.always(U8))),
    ("an open ConvertDepth is U8", opened(wire.CONVERT_DEPTH, right.always(U8))),
    ("an open ConvertDepth is S16", opened(wire.CONVERT_DEPTH, right.always(S16))),
    ("an open Sobel has in1's format", opened(wire.SOBEL, right.same_format)),
    ("an open Convolve has in1's format", opened(wire.CONVOLVE, right.same_format)),
    ("an open Integral is S16", opened(wire.INTEGRAL, right.always(S16))),
)
