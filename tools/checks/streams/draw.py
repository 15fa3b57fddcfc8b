"""Draws random values: fields, and references to the objects of a client."""

import struct

from feqyldan import wire
from feqyldan.wire import S16, U32, U8
from checks import model
from checks.model.functions import GREATEST_SIDE, SAMPLES


def byte(value):
    return struct.pack(">B", value)


def short(value):
    return struct.pack(">H", value)


def signed_short(value):
    return struct.pack(">h", value)


def long(value):
    return struct.pack(">I", value)


# Samples near the limits of the formats, of their bytes and of each other. They are few, so that
# equal samples are frequent.
ENDS = {
    U8: (0, 1, 2, 9, 10, 11, 127, 128, 200, 254, 255),
    S16: (-32768, -32767, -256, -129, -3, -1, 0, 1, 9, 10, 11, 127, 255, 256, 32766, 32767),
    U32: (0, 1, 255, 65535, 65536, 2**31 - 1, 2**31, 2**32 - 1),
}


def is_large(thing):
    image = thing.images[0] if isinstance(thing, model.Delay) else thing
    return isinstance(image, model.Image) and len(image.samples) > 100_000


def cells_of(name, thing):
    """Returns the cell of an object and those of a delay's slots, with their contents."""
    images = thing.images if isinstance(thing, model.Delay) else ()
    slots = [(model.Cell(name, slot), image) for slot, image in enumerate(images)]
    return [(model.Cell(name, model.NO_SLOT), thing), *slots]


class Draw:
    """Random values for the requests of one client, most of which fit its objects and limits."""

    def __init__(self, rng, state, limits, size):
        self.rng, self.state, self.limits = rng, state, limits
        # Few sizes, so that images often have the same size; and the given small one, because
        # graphs run on small images.
        near = [(size[0] + 1, size[1])] if rng.random() < 0.3 else []
        self.sizes = [size, *near, *(self.any_size() for _ in range(rng.choice((0, 0, 1, 1, 2))))]

    def chance(self, share):
        return self.rng.random() < share

    def pick(self, values):
        return self.rng.choice(list(values))

    def live(self):
        """Returns the graphs and other objects whose names are live, by name."""
        context = self.state.context
        if context is None:
            return {}
        return {name: thing
                for name, thing in context.objects.items() if name not in context.released}

    def objects(self, kind=object):
        """Returns names and objects of a kind, without images that only use up a quota."""
        return [(name, thing)
                for name, thing in self.live().items() if isinstance(thing, kind)
                and not is_large(thing)]

    def thing(self, cell):
        """Returns the contents of a cell, from the model."""
        return None if self.state.context is None else model.found(self.state.context, cell)

    def cells(self, kind=object):
        """Returns the cells that contain an object of a kind, with the contents: objects, and
        images in delay slots."""
        cells = [pair for name, thing in self.objects() for pair in cells_of(name, thing)]
        return [(cell, thing) for cell, thing in cells if isinstance(thing, kind)]

    def slots_of(self, names):
        """Returns the cells of the slots of these delays."""
        return [cell for cell, _ in self.cells(model.Image)
                if cell.name in names and cell.slot != model.NO_SLOT]

    def fmt(self, allowed=(U8, S16, U32)):
        if self.chance(0.03):
            return self.pick((0, 3, 4, 255))
        return self.rng.choices(allowed, (5, 4, 2)[: len(allowed)])[0]

    def any_size(self):
        most = self.rng.choices((1, 4, 12, 40), (2, 4, 4, 2))[0]
        width, height = self.rng.randint(1, most), self.rng.randint(1, most)
        if self.chance(0.08):
            width, height = self.pick(((65, 1), (1, 65), (130, 2), (GREATEST_SIDE, 1),
                                       (1, GREATEST_SIDE)))
        return width, height

    def size(self):
        return self.pick(self.sizes) if self.chance(0.9) else self.any_size()

    def bad_size(self):
        width, height = self.size()
        bad = self.pick((0, GREATEST_SIDE + 1, 65535))
        return self.pick(((bad, height), (width, bad), (bad, bad)))

    def declared(self):
        """Draws a declaration of a virtual image: often nothing, and often some fields."""
        width, height = self.bad_size() if self.chance(0.03) else self.size()
        fields = byte(self.fmt()), short(width), short(height)
        share = self.pick((0, 0, 0, 0.5, 0.5, 1))
        return [field if self.chance(share) else bytes(len(field)) for field in fields]

    def name(self, kind=object):
        """Draws the name of an object of the kind, sometimes any object's or none's."""
        objects = self.objects() if self.chance(0.1) else self.objects(kind)
        if objects and self.chance(0.95):
            return self.pick(objects)[0]
        return self.no_name()

    def no_name(self):
        """Draws a name without an object: 0, a future one, or a released one."""
        live = self.live()
        following = 1 if self.state.context is None else self.state.context.next_name
        gone = [name for name in range(max(1, following - 50), following) if name not in live]
        return self.pick((0, following, following, following + 1, following + 256, 2**32 - 1,
                          *gone[-3:]))

    def slot(self, share):
        return self.pick((0, 1, 254,
                          self.rng.randrange(255))) if self.chance(share) else model.NO_SLOT

    def slot_of(self, delay):
        """Draws a slot, mostly one that the delay has."""
        count = len(delay.images)
        has_not = self.pick((count, count, count + 1, 16, 254, self.rng.randrange(count, 255)))
        return self.rng.choices((self.rng.randrange(count), has_not, model.NO_SLOT), (7, 3, 2))[0]

    def cell(self, kind):
        """Draws a cell, mostly one of the kind. A name without an object often has a slot, so that
        there are two faults."""
        kinds = (kind, model.Delay) if kind is model.Image else kind
        name = self.name(model.VirtualImage if self.chance(0.07)
                         and self.objects(model.VirtualImage) else kinds)
        thing = self.live().get(name)
        if isinstance(thing, model.Delay):
            return model.Cell(name, self.slot_of(thing))
        share = 0.3 if thing is None or isinstance(thing, model.VirtualImage) else 0.03
        return model.Cell(name, self.slot(share))

    def sample(self, fmt, share_of_ends=0.5):
        if self.chance(share_of_ends):
            return self.pick(ENDS[fmt])
        return self.rng.randint(*SAMPLES[fmt])

    def samples(self, fmt, count):
        """Draws the bytes of samples: any, the limits of the format, or all the same."""
        if self.chance(0.4):
            return self.rng.randbytes(count * model.sample_bytes(fmt))
        if self.chance(0.1):
            values = [self.sample(fmt)] * count
        else:
            values = self.rng.choices(ENDS[fmt], k=count)
        return struct.pack(f">{count}{wire.SAMPLE_LETTERS[fmt]}", *values)


def cell_fields(cell):
    return [long(cell.name), byte(cell.slot)]


def cell_bytes(cell):
    return wire.ABSENT if cell is None else wire.reference(*cell)
