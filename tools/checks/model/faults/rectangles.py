"""Misreadings about valid rectangles. They show only after SetValid or QueryImage: without these
all rectangles are whole, and none is returned."""

from feqyldan.wire import INVALID_PARAMETERS, INVALID_VALUE
from checks import model
from checks.model.faults.fault import Fault, right, whole_of, with_fields, with_outcome
from checks.model.functions import EMPTY, IN1, IN2, OUT1
from checks.model.state import QUERY_IMAGE, SET_VALID


def uncleared(image, valid):
    return image._replace(valid=valid)


def hidden_samples(image):
    """Samples outside the valid rectangle are only hidden, and keep their bytes."""
    return right.encoded_samples(right.confined(image, image.valid))


def cleared_by_rows(image, valid):
    rows = valid._replace(left=0, right=image.width)
    return right.confined(image, rows if valid != EMPTY else valid)._replace(valid=valid)


def cleared(image, valid):
    return right.made(image.fmt, image.width, image.height, valid, lambda _: 0)


def confined_further(image, valid):
    return right.confined(image, right.meet(image.valid, valid))


def is_within_if(applies):
    """The part beyond the image is cut off instead of refused."""
    def confined(image, valid):
        return right.confined(image, right.meet(valid, whole_of(image)))

    return {"is_within": applies, "confined": confined}


def set_valid_before_refusal(limits, state, cell, rectangle):
    image = right.image_in(state.context, cell)
    right.set_valid(limits, state, cell, right.meet(rectangle, whole_of(image)))
    return right.set_valid(limits, state, cell, rectangle)


def set_valid_in_all_slots(limits, state, cell, rectangle):
    right.set_valid(limits, state, cell, rectangle)
    thing = state.context.objects[cell.name]
    for slot in range(len(thing.images) if isinstance(thing, model.Delay) else 0):
        right.set_valid(limits, state, cell._replace(slot=slot), rectangle)
    return b""


def any_rectangle(fields):
    return model.Rectangle(*(fields.short() for _ in range(4)))


def refused_unless(is_rectangle, code=INVALID_VALUE):
    def take(fields):
        rectangle = any_rectangle(fields)
        model.refuse_if(not is_rectangle(rectangle), code)
        return right.meet(rectangle, rectangle)

    return with_fields(SET_VALID, right.take_cell, take)


def is_ordered(rectangle):
    return rectangle.left <= rectangle.right and rectangle.top <= rectangle.bottom


def is_rectangle_of_places(rectangle):
    return right.is_rectangle(rectangle) and rectangle != EMPTY


def rectangle_turned_back(fields):
    one, other, three, four = any_rectangle(fields)
    return model.Rectangle(min(one, three), min(other, four), max(one, three), max(other, four))


def rectangle_with_last(fields):
    rectangle = right.take_rectangle(fields)
    return rectangle._replace(right=rectangle.right + 1, bottom=rectangle.bottom + 1)


def rectangle_by_axes(fields):
    left, end, top, bottom = any_rectangle(fields)
    model.refuse_if(not right.is_rectangle(model.Rectangle(left, top, end, bottom)), INVALID_VALUE)
    return model.Rectangle(left, top, end, bottom)


def rectangle_by_numbers(fields):
    """Refuses as soon as the first three numbers are known."""
    left, _, end = (fields.short() for _ in range(3))
    model.refuse_if(left > end, INVALID_VALUE)
    fields.at -= 6
    return right.take_rectangle(fields)


def rectangle_after_image():
    """An inverted rectangle has the code of one beyond the image."""
    def set_valid(limits, state, cell, rectangle):
        right.image_in(state.context, cell)
        model.refuse_if(not right.is_rectangle(rectangle), INVALID_VALUE)
        return right.set_valid(limits, state, cell, rectangle)

    row = right.REQUESTS[SET_VALID]._replace(take=right.each(right.take_cell, any_rectangle),
                                             outcome=set_valid)
    return {"REQUESTS": {**right.REQUESTS, SET_VALID: row}}


def query_of_whole(_, state, cell):
    image = right.image_in(state.context, cell)
    return right.description_bytes(image) + right.rectangle_bytes(whole_of(image))


def query_of_samples(_, state, cell):
    """Returns the bounding rectangle of all nonzero samples."""
    image = right.image_in(state.context, cell)
    places = [divmod(place, image.width)
              for place, sample in enumerate(image.samples) if sample != 0]
    rows, columns = [y for y, _ in places], [x for _, x in places]
    valid = (min(columns), min(rows), max(columns) + 1, max(rows) + 1) if places else EMPTY
    return right.description_bytes(image) + right.rectangle_bytes(valid)


def told_as(order):
    """Changes the numbers of returned rectangles."""
    return {"rectangle_bytes": lambda rectangle: right.rectangle_bytes(order(*rectangle))}


def write_valid_samples(limits, state, cell, picture):
    valid = right.image_in(state.context, cell).valid
    right.write_image(limits, state, cell, picture)
    right.put(state.context, cell, right.confined(picture, valid))
    return b""


def write_samples_alone(limits, state, cell, picture):
    valid = right.image_in(state.context, cell).valid
    right.write_image(limits, state, cell, picture)
    right.put(state.context, cell, picture._replace(valid=valid))
    return b""


def aged_without_rectangles(delay):
    pairs = zip(right.aged(delay).images, delay.images)
    return model.Delay(tuple(image._replace(valid=there.valid) for image, there in pairs))


def aged_to_whole(delay):
    return model.Delay(tuple(image._replace(valid=whole_of(image))
                             for image in right.aged(delay).images))


def delay_with_rectangle(image, slots):
    return model.Delay(tuple(new._replace(valid=image.valid)
                             for new in right.new_delay(image, slots).images))


def joined(one, other):
    """Returns the bounding rectangle of two rectangles."""
    if EMPTY in (one, other):
        return other if one == EMPTY else one
    return model.Rectangle(*map(min, one[:2], other[:2]), *map(max, one[2:], other[2:]))


def meet_in_any_spelling(one, other):
    left, top = max(one.left, other.left), max(one.top, other.top)
    return model.Rectangle(left, top, max(left, min(one.right, other.right)),
                           max(top, min(one.bottom, other.bottom)))


def with_output(change, numbers=right.FUNCTIONS):
    """Changes the output images of functions, as a function of the new image, the prior contents
    and the inputs."""
    def changed(function):
        def gives(node, things):
            given = function.gives(node, things)
            return {k: change(image, things[k], things[:OUT1]) for k, image in given.items()}

        writes_images = function.kinds[OUT1] is model.Image
        return function._replace(gives=gives) if writes_images else function

    return {"FUNCTIONS": {**right.FUNCTIONS,
                          **{number: changed(right.FUNCTIONS[number]) for number in numbers}}}


def valid_as(k):
    """Gives an output the rectangle of an input."""
    return lambda image, _, inputs: image._replace(valid=inputs[k].valid)


def wholly_valid(image, *_):
    return image._replace(valid=whole_of(image))


def valid_as_before(image, before, _):
    return image._replace(valid=before.valid)


def valid_in_both(image, before, _):
    return right.confined(image, right.meet(image.valid, before.valid))


def over_the_old(image, before, _):
    inside = right.made(image.fmt, image.width, image.height, image.valid, lambda _: True).samples
    samples = [new if is_inside else old
               for new, old, is_inside in zip(image.samples, before.samples, inside)]
    return image._replace(samples=samples)


def rectangles_of(number):
    """Replaces the rectangles of one function's outputs."""
    kinds = right.FUNCTIONS[number].kinds
    if kinds[OUT1] is model.Image:
        yield Fault(f"function {number} gives an image that is wholly valid", SET_VALID,
                    with_output(wholly_valid, [number]))
    if kinds == right.TWO_IMAGES:
        for k, words in ((IN1, "first"), (IN2, "second")):
            yield Fault(
                f"function {number} gives an image that is valid where the {words} input is",
                SET_VALID, with_output(valid_as(k), [number]))
    if right.FUNCTIONS[number].accumulates:
        yield Fault(f"function {number} gives an image that is valid where in1 is", SET_VALID,
                    with_output(valid_as(IN1), [number]))
        yield Fault(f"function {number} gives an image that is valid where it was before",
                    SET_VALID, with_output(valid_as_before, [number]))
        yield Fault(f"function {number} keeps the sums outside the rectangle", SET_VALID,
                    with_output(over_the_old, [number]))


RECTANGLE_FAULTS = (
    Fault("SetValid leaves the samples outside", SET_VALID, {"confined": uncleared}),
    Fault("samples come back where they become valid again", SET_VALID,
          {"confined": uncleared, "encoded_samples": hidden_samples}),
    Fault("SetValid leaves the samples beside the rectangle", SET_VALID,
          {"confined": cleared_by_rows}),
    Fault("SetValid makes all samples 0", SET_VALID, {"confined": cleared}),
    Fault("a valid rectangle can't become greater", SET_VALID, {"confined": confined_further}),
    Fault("SetValid in a slot is for all slots of the delay", SET_VALID,
          with_outcome(SET_VALID, set_valid_in_all_slots)),
    Fault("a rectangle is cut off at the image's ends", SET_VALID, is_within_if(lambda *_: True)),
    Fault("a rectangle may end one place beyond the image", SET_VALID,
          is_within_if(lambda rectangle, width,
                       height: right.is_within(rectangle, width + 1, height + 1))),
    Fault("a rectangle ends before the image's last place", SET_VALID,
          is_within_if(lambda rectangle, width,
                       height: right.is_within(rectangle, width - 1, height - 1))),
    Fault("a rectangle may end below the image", SET_VALID,
          is_within_if(lambda rectangle, width, _: rectangle.right <= width)),
    Fault("a rectangle may end beside the image", SET_VALID,
          is_within_if(lambda rectangle, _, height: rectangle.bottom <= height)),
    Fault("width and height are exchanged for a rectangle", SET_VALID,
          is_within_if(lambda rectangle, width, height: right.is_within(rectangle, height, width))),
    Fault("a SetValid that is refused changes the image", SET_VALID,
          with_outcome(SET_VALID, set_valid_before_refusal)),
    Fault("the empty rectangle has many spellings", SET_VALID, refused_unless(is_ordered)),
    Fault("the empty rectangle can't be set", SET_VALID, refused_unless(is_rectangle_of_places)),
    Fault("a rectangle that is turned answers INVALID_PARAMETERS", SET_VALID,
          refused_unless(right.is_rectangle, INVALID_PARAMETERS)),
    Fault("a rectangle that is turned is turned back", SET_VALID,
          with_fields(SET_VALID, right.take_cell, rectangle_turned_back)),
    Fault("a rectangle's last column and row belong to it", SET_VALID,
          with_fields(SET_VALID, right.take_cell, rectangle_with_last)),
    Fault("SetValid has the columns before the rows", SET_VALID,
          with_fields(SET_VALID, right.take_cell, rectangle_by_axes)),
    Fault("a rectangle that is cut short is looked at", SET_VALID,
          with_fields(SET_VALID, right.take_cell, rectangle_by_numbers)),
    Fault("a rectangle that is turned is told after what is wrong with its image", SET_VALID,
          rectangle_after_image()),
    Fault("QueryImage tells the whole image as valid", SET_VALID,
          with_outcome(QUERY_IMAGE, query_of_whole)),
    Fault("QueryImage tells where samples aren't 0", QUERY_IMAGE,
          with_outcome(QUERY_IMAGE, query_of_samples)),
    Fault("QueryImage tells a rectangle's size", SET_VALID,
          told_as(lambda left, top, end, bottom: (left, top, end - left, bottom - top))),
    Fault("QueryImage tells a rectangle's last column and row", QUERY_IMAGE,
          told_as(lambda left, top, end, bottom: (left, top, max(end, 1) - 1, max(bottom, 1) - 1))),
    Fault("QueryImage tells the columns before the rows", QUERY_IMAGE,
          told_as(lambda left, top, end, bottom: (left, end, top, bottom))),
    Fault("WriteImage writes where the image is valid", SET_VALID,
          with_outcome(right.WRITE_IMAGE, write_valid_samples)),
    Fault("WriteImage leaves the valid rectangle", SET_VALID,
          with_outcome(right.WRITE_IMAGE, write_samples_alone)),
    Fault("ageing leaves the rectangles where they were", SET_VALID,
          {"aged": aged_without_rectangles}),
    Fault("ageing makes the images wholly valid", SET_VALID, {"aged": aged_to_whole}),
    Fault("the slots of a new delay are valid where its exemplar is", SET_VALID,
          {"new_delay": delay_with_rectangle}),
    Fault("an output is valid where one of its inputs is", SET_VALID, {"meet": joined}),
    Fault("an output that is valid nowhere has an empty rectangle in another spelling", SET_VALID,
          {"meet": meet_in_any_spelling}),
    Fault("an output keeps its rectangle", SET_VALID, with_output(valid_as_before)),
    Fault("an output is valid only where it was before", SET_VALID, with_output(valid_in_both)),
    Fault("an output keeps its samples outside the rectangle", SET_VALID,
          with_output(over_the_old)),
    *(fault for number in right.FUNCTIONS for fault in rectangles_of(number)),
)
