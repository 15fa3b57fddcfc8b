"""Misreadings about objects."""

from feqyldan import wire
from feqyldan.wire import NO_RESOURCES, SUCCESS, U32
from checks import model
from checks.model.faults.fault import Fault, right, with_outcome
from checks.model.functions import EMPTY


def image_of_ones(fmt, width, height):
    return right.new_image(fmt, width, height)._replace(samples=b"\1" * (width * height))


def image_in_part(fmt, width, height):
    valid = right.whole(width - 1, height) if width > 1 else EMPTY
    return right.new_image(fmt, width, height)._replace(valid=valid)


def put_over(context, cell, value):
    if isinstance(value, model.Image):
        samples = [one or other
                   for one, other in zip(value.samples, right.held(context, cell).samples)]
        value = value._replace(samples=samples)
    right.put(context, cell, value)


def write_as_many_samples(limits, state, cell, picture):
    image = right.image_in(state.context, cell)
    if picture.fmt == image.fmt and len(picture.samples) == len(image.samples):
        picture = image._replace(samples=picture.samples)
    return right.write_image(limits, state, cell, picture)


def with_room_for(objects=0, quota=0):
    """Raises limits by this much."""
    def has_room(limits, context, thing):
        greater = limits._replace(objects=limits.objects + objects, quota=limits.quota + quota)
        return right.has_room(greater, context, thing)

    return {"has_room": has_room}


def bytes_of_four(thing):
    return right.object_bytes(thing._replace(fmt=U32) if isinstance(thing, model.Image) else thing)


def with_bytes(kind, count):
    """Charges objects of a kind this much."""
    return {"object_bytes": lambda thing: count(thing) if isinstance(thing, kind)
            else right.object_bytes(thing)}


def without_count(*kinds):
    """Doesn't count objects of some kinds among a client's objects."""
    def has_room(limits, context, thing):
        more = sum(isinstance(held, kinds) for held in (thing, *context.objects.values()))
        return right.has_room(limits._replace(objects=limits.objects + more), context, thing)

    return {"has_room": has_room}


def create_with_name(limits, state, thing):
    try:
        return right.create(limits, state, thing)
    except model.Refused:
        state.context.next_name += 1
        raise


def create_with_last_name(limits, state, thing):
    try:
        return right.create(limits, state, thing)
    except model.Refused:
        state.context.next_name = max(1, state.context.next_name - 1)
        raise


def answer_with_name(limits, state, op, body):
    code, reply = right.answer(limits, state, op, body)
    if op in wire.CREATES and code not in (SUCCESS, NO_RESOURCES) and state.context is not None:
        state.context.next_name += 1
    return code, reply


def release_to_give_again(limits, state, name):
    body = right.release(limits, state, name)
    state.context.next_name = min(state.context.next_name, name)
    return body


def still_charged():
    """Charges objects that are gone."""
    def release(limits, state, name):
        before = dict(state.context.objects)
        body = right.release(limits, state, name)
        gone = [thing for name, thing in before.items() if name not in state.context.objects]
        state.context.gone = [*getattr(state.context, "gone", ()), *gone]
        return body

    def charge(context):
        return right.charge(context) + sum(map(right.object_bytes, getattr(context, "gone", ())))

    return {**with_outcome(right.RELEASE, release), "charge": charge}


OBJECT_FAULTS = (
    Fault("a new image isn't 0", None, {"new_image": image_of_ones}),
    Fault("a new image isn't valid in its last column", None, {"new_image": image_in_part}),
    Fault("what is written leaves the old sample where the new one is 0", None, {"put": put_over}),
    Fault("a picture may have another shape and as many samples", None,
          with_outcome(right.WRITE_IMAGE, write_as_many_samples)),
    Fault("a create that finds no room uses a name", None, {"create": create_with_name}),
    Fault("after a create that finds no room the last name is given again", None,
          {"create": create_with_last_name}),
    Fault("a create whose fields are refused uses a name", None, {"answer": answer_with_name}),
    Fault("a client may hold one object less", None, with_room_for(objects=-1)),
    Fault("a client may hold one object more", None, with_room_for(objects=1)),
    Fault("the quota is one byte less", None, with_room_for(quota=-1)),
    Fault("the quota is one byte more", None, with_room_for(quota=1)),
    Fault("every sample is charged 4 bytes", None, {"object_bytes": bytes_of_four}),
    Fault("a table is charged", None, with_bytes(model.Lut, lambda table: len(table.entries))),
    Fault("a convolution is charged", None,
          with_bytes(model.Convolution, lambda convolution: 2 * len(convolution.coefficients))),
    Fault("a distribution is charged", None,
          with_bytes(model.Distribution, lambda found: 4 * len(found.counts))),
    Fault("extremes are charged", None, with_bytes(model.Extremes, lambda _: 20)),
    Fault("a convolution isn't counted among the objects", None, without_count(model.Convolution)),
    Fault("a distribution isn't counted among the objects", None,
          without_count(model.Distribution)),
    Fault("extremes aren't counted among the objects", None, without_count(model.Extremes)),
    Fault("the name of an object that was released is given again", right.RELEASE,
          with_outcome(right.RELEASE, release_to_give_again)),
    Fault("an image that was released is still charged", right.RELEASE, still_charged()),
)
