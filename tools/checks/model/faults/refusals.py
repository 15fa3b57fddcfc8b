"""Misreadings about refusals."""

from feqyldan import wire
from feqyldan.wire import (
    INVALID_DIMENSION, INVALID_FORMAT, INVALID_GRAPH, INVALID_TYPE, MULTIPLE_WRITERS)
from checks import model
from checks.model.faults.delays import object_without_delay, with_cells_at
from checks.model.faults.fault import Fault, right, with_outcome, with_row
from checks.model.functions import INPUTS, OUT1, OUT2, OUTPUTS


def refusals_in(*order):
    return {"IMMEDIATE_REFUSALS": [right.IMMEDIATE_REFUSALS[k] for k in order]}


def one_after_another(refusals):
    """Checks each operand completely before the next. A graph comes first."""
    def of_one(applies, k):
        return lambda operands: applies([operands[0], *operands[k : k + 1]])

    *earlier, last = refusals
    return [*((of_one(applies, k), code) for k in range(5) for applies, code in earlier), last]


def immediate_with(refusal, code, after):
    """Adds a check of the node to Immediate after this many of its refusals."""
    def immediate(limits, state, node):
        right.refuse_first(right.IMMEDIATE_REFUSALS[:after], right.operands_of(state.context, node))
        model.refuse_if(refusal(node), code)
        return right.immediate(limits, state, node)

    return with_outcome(right.IMMEDIATE, immediate)


def reads_own_output(node):
    return not {*right.cells_of(node, INPUTS)}.isdisjoint(right.cells_of(node, OUTPUTS))


def writes_twice(node):
    written = right.cells_of(node, OUTPUTS)
    return len({*written}) < len(written)


def verdicts_in(*order):
    return {"VERDICTS": [right.VERDICTS[k] for k in order]}


def verdict_at(k, refusal):
    """Replaces the condition of one of the verdicts."""
    rows = [*right.VERDICTS]
    rows[k] = refusal
    return {"VERDICTS": rows}


def without_second(node):
    """The function has no out2."""
    return node._replace(cells=[*node.cells[:OUT2], None])


def write_image_by_size(limits, state, cell, picture):
    image = right.image_in(state.context, cell)
    model.refuse_if(not right.same_size(picture, image), INVALID_DIMENSION)
    return right.write_image(limits, state, cell, picture)


def image_by_kind(context, cell):
    model.refuse_if(cell.slot != model.NO_SLOT and not right.is_live(context, cell.name),
                    INVALID_TYPE)
    return right.image_in(context, cell)


def has_formats_but_of_second(node, things):
    taken = {formats[:OUT2] for formats in node.function.formats}
    return tuple(right.format_of(things.get(cell)) for cell in node.cells[:OUT2]) not in taken


def window_clamped(image, border, radii, fmt, value):
    return right.window_image(image, border, radii, fmt,
                              lambda samples: right.clamp(value(samples), fmt))


def is_of_any_kind(thing, kind):
    """A missing slot is of any kind."""
    return thing is model.NO_SUCH_SLOT or right.is_of_kind(thing, kind)


REFUSAL_FAULTS = (
    Fault("a node's kinds are tried before its names", None, refusals_in(1, 0, 2, 3)),
    Fault("a node's slots are tried before its names", right.CREATE_DELAY, refusals_in(2, 0, 1, 3)),
    Fault("a node's slots are tried before its kinds", right.CREATE_DELAY, refusals_in(0, 2, 1, 3)),
    Fault("a node's own output is tried before its kinds", None,
          immediate_with(reads_own_output, INVALID_GRAPH, 1)),
    Fault("a node's own output is tried before its slots", right.CREATE_DELAY,
          immediate_with(reads_own_output, INVALID_GRAPH, 2)),
    Fault("a node's formats are tried before its own output", None, verdicts_in(0, 2, 3, 1, 4)),
    Fault("a node's sizes are tried before its formats", None,
          {"NODE_REFUSALS": right.NODE_REFUSALS[::-1]}),
    Fault("a node's operands are tried one after another", None,
          {"IMMEDIATE_REFUSALS": one_after_another(right.IMMEDIATE_REFUSALS)}),
    Fault("two outputs may be one image", None, verdict_at(0, lambda *_: None)),
    Fault("two outputs that are one image answer INVALID_GRAPH", None,
          verdict_at(0, lambda *graph: right.two_writers(*graph) and INVALID_GRAPH)),
    Fault("two outputs that are one image are told before their kinds", None,
          immediate_with(writes_twice, MULTIPLE_WRITERS, 1)),
    Fault("two outputs that are one image are told after one that is read", None,
          verdicts_in(1, 0, 2, 3, 4)),
    Fault("two outputs that are one image are told last", None, verdicts_in(1, 2, 3, 4, 0)),
    Fault("a node may read its second output", None,
          verdict_at(1, lambda nodes, *graph: right.cycle([*map(without_second, nodes)], *graph))),
    Fault("the second output may have another format", None,
          {"NODE_REFUSALS": ((has_formats_but_of_second, INVALID_FORMAT), right.NODE_REFUSALS[1]),
           "window_image": window_clamped}),
    Fault("the second output may have another size", None,
          {"NODE_REFUSALS": (right.NODE_REFUSALS[0], (
              lambda node, things: right.has_other_size(without_second(node), things),
              INVALID_DIMENSION))}),
    Fault("Sobel has both outputs", None, with_row(wire.SOBEL, optional=())),
    Fault("Sobel has its first output", None, with_row(wire.SOBEL, optional=(OUT2,))),
    Fault("Sobel has its second output", None, with_row(wire.SOBEL, optional=(OUT1,))),
    Fault("a slot that isn't there is of any kind", right.CREATE_DELAY,
          {"is_of_kind": is_of_any_kind}),
    Fault("an operand of another kind answers INVALID_FORMAT", None,
          {"IMMEDIATE_REFUSALS": [(applies, INVALID_FORMAT if code == INVALID_TYPE else code)
                                  for applies, code in right.IMMEDIATE_REFUSALS]}),
    Fault("Convolve gives S16 alone", None, with_row(wire.CONVOLVE, formats=right.CONVOLVED[1:])),
    Fault("MinMaxLoc takes U8 alone", None, with_row(wire.MIN_MAX_LOCATION, formats=right.COUNTED)),
    Fault("Histogram takes S16 too", None, with_row(wire.HISTOGRAM, formats=right.COMPARED)),
    Fault("a slot of an object that isn't a delay is passed over", None,
          with_cells_at(object_without_delay)),
    Fault("a slot is told before a name that is no object's", None, {"image_in": image_by_kind}),
    Fault("WriteImage tries sizes before formats", None,
          with_outcome(right.WRITE_IMAGE, write_image_by_size)),
)
