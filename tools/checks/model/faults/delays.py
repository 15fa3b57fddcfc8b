"""Misreadings about delays."""

from feqyldan.wire import INVALID_VALUE
from checks import model
from checks.model.faults.fault import Fault, right, with_fields


def aged_back(delay):
    return delay._replace(images=delay.images[1:] + delay.images[:1])


def aged_to_new(delay):
    newest = right.new_delay(delay.images[0], 1)
    return delay._replace(images=newest.images + delay.images[:-1])


def with_cells_at(place):
    """Replaces the cells of a request by others."""
    def held(context, cell):
        return right.held(context, place(context, cell))

    def put(context, cell, image):
        right.put(context, place(context, cell), image)

    return {"held": held, "put": put}


def from_the_oldest(context, cell):
    delay = context.objects.get(cell.name)
    count = len(delay.images) if isinstance(delay, model.Delay) else 0
    return cell._replace(slot=count - 1 - cell.slot) if cell.slot < count else cell


def newest_without_slot(context, cell):
    is_delay = isinstance(context.objects.get(cell.name), model.Delay)
    return cell._replace(slot=0) if is_delay and cell.slot == model.NO_SLOT else cell


def object_without_delay(context, cell):
    is_delay = isinstance(context.objects.get(cell.name), model.Delay)
    return cell if is_delay else cell._replace(slot=model.NO_SLOT)


def held_or_no_kind(context, cell):
    thing = right.held(context, cell)
    return model.NO_DELAY if thing is model.NO_SUCH_SLOT else thing


def bytes_of_one_slot(thing):
    return right.object_bytes(thing.images[0] if isinstance(thing, model.Delay) else thing)


def delay_of_copies(image, slots):
    return model.Delay((image,) * slots)


def places_of(thing):
    return len(thing.images) if isinstance(thing, model.Delay) else 1


def has_room_for_slots(limits, context, thing):
    more = sum(map(places_of,
                   context.objects.values())) - len(context.objects) + places_of(thing) - 1
    return right.has_room(limits._replace(objects=limits.objects - more), context, thing)


def slots_to_17(fields):
    slots = fields.byte()
    model.refuse_if(not 1 <= slots <= 17, INVALID_VALUE)
    return slots


DELAY_FAULTS = (
    Fault("a delay ages the other way round", right.AGE_DELAY, {"aged": aged_back}),
    Fault("ageing puts a new image into slot 0", right.AGE_DELAY, {"aged": aged_to_new}),
    Fault("ageing changes nothing", right.AGE_DELAY, {"aged": lambda delay: delay}),
    Fault("slots are counted from the oldest", right.AGE_DELAY, with_cells_at(from_the_oldest)),
    Fault("a delay without a slot is its newest one", right.CREATE_DELAY,
          with_cells_at(newest_without_slot)),
    Fault("a slot that isn't there is told as INVALID_TYPE", right.CREATE_DELAY,
          {"held": held_or_no_kind}),
    Fault("a delay has copies of its exemplar", right.CREATE_DELAY, {"new_delay": delay_of_copies}),
    Fault("a delay may have 17 slots", right.CREATE_DELAY,
          with_fields(right.CREATE_DELAY, right.take_cell, slots_to_17)),
    Fault("a delay is charged for one slot", right.CREATE_DELAY,
          {"object_bytes": bytes_of_one_slot}),
    Fault("a delay is as many objects as it has slots", right.CREATE_DELAY,
          {"has_room": has_room_for_slots}),
)
