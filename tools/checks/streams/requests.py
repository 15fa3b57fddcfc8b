"""The table of random requests: the function that draws each body, and the frequency of each
request."""

from checks import model
from checks.model.functions import FUNCTIONS
from checks.model.state import (
    ADD_NODE, AGE_DELAY, CREATE_CONVOLUTION, CREATE_DELAY, CREATE_DISTRIBUTION, CREATE_GRAPH,
    CREATE_IMAGE, CREATE_LUT, CREATE_MIN_MAX, CREATE_THRESHOLD, CREATE_VIRTUAL_IMAGE, IMMEDIATE,
    OPEN_CONTEXT, PROCESS_GRAPH, QUERY_IMAGE, READ_DISTRIBUTION, READ_IMAGE, READ_IMAGE_PGM,
    READ_MIN_MAX, REGISTER_AUTO_AGING, RELEASE, RELEASE_CONTEXT, REMOVE_NODE, SET_VALID,
    VERIFY_GRAPH, WRITE_IMAGE, WRITE_IMAGE_PGM)
from checks.streams import bodies
from checks.streams import nodes as random_nodes

BODIES = {
    OPEN_CONTEXT: bodies.nothing,
    RELEASE_CONTEXT: bodies.nothing,
    CREATE_IMAGE: bodies.create_image,
    QUERY_IMAGE: bodies.query_image,
    WRITE_IMAGE: bodies.write_image,
    WRITE_IMAGE_PGM: bodies.write_image_pgm,
    READ_IMAGE: bodies.read_image,
    READ_IMAGE_PGM: bodies.read_image,
    SET_VALID: bodies.set_valid,
    RELEASE: bodies.release,
    CREATE_LUT: bodies.create_lut,
    CREATE_THRESHOLD: bodies.create_threshold,
    CREATE_CONVOLUTION: bodies.create_convolution,
    CREATE_DISTRIBUTION: bodies.create_distribution,
    READ_DISTRIBUTION: bodies.read_distribution,
    CREATE_MIN_MAX: bodies.nothing,
    READ_MIN_MAX: bodies.read_min_max,
    CREATE_GRAPH: bodies.nothing,
    CREATE_VIRTUAL_IMAGE: bodies.create_virtual_image,
    ADD_NODE: random_nodes.add_node,
    REMOVE_NODE: bodies.remove_node,
    VERIFY_GRAPH: bodies.verify_graph,
    PROCESS_GRAPH: bodies.verify_graph,
    IMMEDIATE: random_nodes.immediate,
    CREATE_DELAY: bodies.create_delay,
    AGE_DELAY: bodies.age_delay,
    REGISTER_AUTO_AGING: bodies.register_auto_aging,
}

# The creates, with their frequency for a client with few objects, and for one that collects many.
FEW = {
    CREATE_IMAGE: 16, CREATE_LUT: 3, CREATE_THRESHOLD: 4, CREATE_CONVOLUTION: 3,
    CREATE_DISTRIBUTION: 3, CREATE_MIN_MAX: 2, CREATE_DELAY: 4, CREATE_GRAPH: 2,
    CREATE_VIRTUAL_IMAGE: 3}
MANY = {
    CREATE_IMAGE: 20, CREATE_LUT: 1, CREATE_THRESHOLD: 15, CREATE_CONVOLUTION: 5,
    CREATE_DISTRIBUTION: 5, CREATE_MIN_MAX: 15, CREATE_DELAY: 2, CREATE_GRAPH: 10,
    CREATE_VIRTUAL_IMAGE: 15}

# The positions of names in a body, and those of written objects. Each of a node's four operands has
# 5 bytes.
NAMES_AT = {
    QUERY_IMAGE: (0,), WRITE_IMAGE: (0,), WRITE_IMAGE_PGM: (0,), READ_IMAGE: (0,),
    READ_IMAGE_PGM: (0,), SET_VALID: (0,), RELEASE: (0,), READ_DISTRIBUTION: (0,),
    READ_MIN_MAX: (0,), IMMEDIATE: (5, 10, 15, 20), CREATE_DELAY: (0,), AGE_DELAY: (0,),
    CREATE_VIRTUAL_IMAGE: (0,), ADD_NODE: (0, 9, 14, 19, 24), REMOVE_NODE: (0,),
    VERIFY_GRAPH: (0,), PROCESS_GRAPH: (0,), REGISTER_AUTO_AGING: (0, 4)}
WRITTEN_AT = {WRITE_IMAGE: (0,), WRITE_IMAGE_PGM: (0,), SET_VALID: (0,), IMMEDIATE: (15, 20)}
# The positions of operands whose samples a node reads, by the byte of its function: inputs, and an
# output that it adds to.
TAKEN_AT = {bytes([number]): (5, 10, 15) if function.accumulates else (5, 10)
            for number, function in FUNCTIONS.items()}

# The queries about an object of a kind, or about an image in a slot.
QUESTIONS = {
    model.Image: (QUERY_IMAGE, READ_IMAGE), model.VirtualImage: (QUERY_IMAGE,),
    model.Distribution: (READ_DISTRIBUTION,), model.Extremes: (READ_MIN_MAX,)}

# Entries that are not ops: an unknown op, and the first of many requests about a graph.
UNKNOWN, GRAPH = None, "graph"
# The objects that count when a client collects objects.
NO_GRAPH = (
    model.Image, model.Delay, model.Lut, model.Threshold, model.Convolution, model.Distribution,
    model.Extremes)

# The frequency of each op for a client with some objects.
WEIGHTS = {
    OPEN_CONTEXT: 2,
    RELEASE_CONTEXT: 1,
    CREATE_IMAGE: 7,
    QUERY_IMAGE: 12,
    WRITE_IMAGE: 12,
    WRITE_IMAGE_PGM: 36,
    READ_IMAGE: 10,
    READ_IMAGE_PGM: 9,
    SET_VALID: 12,
    RELEASE: 6,
    CREATE_LUT: 3,
    CREATE_THRESHOLD: 4,
    CREATE_CONVOLUTION: 5,
    CREATE_DISTRIBUTION: 4,
    READ_DISTRIBUTION: 7,
    CREATE_MIN_MAX: 2,
    READ_MIN_MAX: 8,
    CREATE_GRAPH: 2,
    CREATE_VIRTUAL_IMAGE: 4,
    ADD_NODE: 24,
    REMOVE_NODE: 4,
    VERIFY_GRAPH: 5,
    PROCESS_GRAPH: 8,
    IMMEDIATE: 120,
    CREATE_DELAY: 3,
    AGE_DELAY: 8,
    REGISTER_AUTO_AGING: 8,
    UNKNOWN: 2,
    GRAPH: 25,
}
