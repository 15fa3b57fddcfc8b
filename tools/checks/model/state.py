"""The state of one client: limits, objects, and charges."""

from collections import namedtuple

from checks.model.functions import Delay, Image, VirtualImage, object_bytes
from checks.model.graphs import cells_of

# The ops of the protocol. All others get INVALID_PARAMETERS, even if they have a row in REQUESTS.
STANDING = {*range(1, 28)}

OPEN_CONTEXT, RELEASE_CONTEXT, CREATE_IMAGE, QUERY_IMAGE, WRITE_IMAGE = 1, 2, 3, 4, 5
WRITE_IMAGE_PGM = 6
READ_IMAGE, READ_IMAGE_PGM, SET_VALID, RELEASE, CREATE_LUT, CREATE_THRESHOLD = 7, 8, 9, 10, 11, 12
CREATE_CONVOLUTION, CREATE_DISTRIBUTION, READ_DISTRIBUTION = 13, 14, 15
CREATE_MIN_MAX, READ_MIN_MAX = 16, 17
CREATE_GRAPH, CREATE_VIRTUAL_IMAGE, ADD_NODE, REMOVE_NODE = 18, 19, 20, 21
VERIFY_GRAPH, PROCESS_GRAPH = 22, 23
IMMEDIATE, CREATE_DELAY, AGE_DELAY, REGISTER_AUTO_AGING = 24, 25, 26, 27

# Limits of a client: sample bytes of its images and delays, objects and graphs, and the greatest
# name. Limits of a graph: sample bytes of the virtual images that it writes, nodes, and the
# greatest node number.
Limits = namedtuple("Limits", "quota objects names work nodes numbers")
LIMITS = Limits(268_435_456, 1024, 4_294_967_295, 268_435_456, 256, 4_294_967_295)


class Refused(Exception):
    """The refusal of a request, with its code. The state is unchanged."""

    def __init__(self, code):
        super().__init__(code)
        self.code = code


def refuse_if(applies, code):
    if applies:
        raise Refused(code)


# ---- a client's state

# An object or a graph (with NO_SLOT), or the image in a slot of a delay.
Cell = namedtuple("Cell", "name slot")
NO_SLOT = 255

# The nodes by number, in the order of adding, and the names of delays registered for ageing after a
# run. Some of those may be gone.
Graph = namedtuple("Graph", "next_number nodes delays")
NO_NODES = Graph(1, {}, frozenset())


class Context:
    """The next name, the existing objects and graphs by name, and the released names among them."""

    def __init__(self):
        self.next_name, self.objects, self.released = 1, {}, set()


class State:
    """The state of one client: its context, or None."""

    def __init__(self):
        self.context = None


# The contents of a cell whose delay has no such slot, and of a slot of an object that isn't a
# delay.
NO_SUCH_SLOT, NO_DELAY = "a slot that isn't there", "a slot of no delay"


def held(context, cell):
    """Returns an object, the image in a slot of a delay, one of the two values above, or None if no
    object has the name."""
    thing = context.objects.get(cell.name)
    if thing is None or cell.slot == NO_SLOT:
        return thing
    if not isinstance(thing, Delay):
        return NO_DELAY
    return thing.images[cell.slot] if cell.slot < len(thing.images) else NO_SUCH_SLOT


def is_live(context, name):
    return name in context.objects and name not in context.released


def found(context, cell):
    """Returns the object that a request finds in a cell, or None if its name isn't live."""
    return held(context, cell) if is_live(context, cell.name) else None


def put(context, cell, value):
    """Replaces the object, or the image in a slot, of a cell."""
    thing = context.objects[cell.name]
    if isinstance(thing, Delay):
        value = Delay(thing.images[: cell.slot] + (value,) + thing.images[cell.slot + 1 :])
    context.objects[cell.name] = value


def is_of_kind(thing, kind):
    """Checks the kind of a cell's object. A virtual image is an image, and so is any slot of a
    delay."""
    if kind is Image and (thing is NO_SUCH_SLOT or isinstance(thing, VirtualImage)):
        return True
    return isinstance(thing, kind)


def names_used(context):
    """Returns the names in the nodes of unreleased graphs."""
    graphs = [thing for name, thing in context.objects.items()
              if isinstance(thing, Graph) and is_live(context, name)]
    return {cell.name for graph in graphs for node in graph.nodes.values()
            for cell in cells_of(node)}


def forget(context):
    """Drops objects that are released and that no node uses."""
    for name in context.released - names_used(context):
        context.released.remove(name)
        del context.objects[name]


def charge(context):
    return sum(object_bytes(thing) for thing in context.objects.values())


def has_room(limits, context, thing):
    return (context.next_name <= limits.names and len(context.objects) < limits.objects
            and charge(context) + object_bytes(thing) <= limits.quota)
