"""A model of the server's replies to one client, in plain Python, written from docs/wire.md and
docs/model.md. tools/check_streams compares the program with it.

`answer` returns the reply to one request of one client, and changes that client's state. It knows
no other client, and never returns NO_MEMORY. `Clients` answers frames. A request is a row of
REQUESTS: the fields of its body, its effect, and its codes.

`functions` has images and vision functions, `graphs` has graphs, `state` the state of a client,
`fields` and `texts` the parsers of bodies and PGM texts, `requests` the effect of each request, and
`clients` the table of requests. The names below are used elsewhere.
"""

from checks.model.clients import Clients, codes_of, parts_of
from checks.model.fields import Fields, description_bytes, rectangle_bytes
from checks.model.functions import (
    EMPTY, Bins, Border, Convolution, Delay, Distribution, Extremes, Image, Lut, Rectangle,
    Threshold, VirtualImage, new_image, object_bytes, range_size, sample_bytes, whole)
from checks.model.requests import Operand, take_node
from checks.model.state import (
    LIMITS, NO_DELAY, NO_NODES, NO_SLOT, NO_SUCH_SLOT, STANDING, Cell, Context, Graph, Refused,
    charge, found, held, is_of_kind, refuse_if)

__all__ = [
    "EMPTY", "LIMITS", "NO_DELAY", "NO_NODES", "NO_SLOT", "NO_SUCH_SLOT", "STANDING", "Bins",
    "Border", "Cell", "Clients", "Context", "Convolution", "Delay", "Distribution", "Extremes",
    "Fields", "Graph", "Image", "Lut", "Operand", "Rectangle", "Refused", "Threshold",
    "VirtualImage", "charge", "codes_of", "description_bytes", "found", "held", "is_of_kind",
    "new_image", "object_bytes", "parts_of", "range_size", "rectangle_bytes", "refuse_if",
    "sample_bytes", "take_node", "whole",
]
