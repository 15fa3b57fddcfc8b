"""Exceptions: a class for each status code of the protocol, and classes for all other errors."""

from __future__ import annotations

from typing import Any, Dict, NamedTuple, Optional, Tuple, Type

from . import wire
from .ranges import PARAMETER_RANGES, SHIFTS, SIDES_OF_CONVOLUTIONS


class FeqyldanError(Exception):
    """The base class of this package's exceptions."""


class Closed(FeqyldanError, ValueError):
    """A context, a server or a connection is used after it was closed."""


class NestedCall(FeqyldanError):
    """A signal's handler makes a call while it interrupts another call of the same server. The
    interrupted call goes on."""


class ServerEnded(FeqyldanError):
    """
    The server has ended, or has closed its connection, and won't answer any more. `status` is its
    exit status, the negative number of the signal that killed it, or None if it isn't known; `said`
    is the text that it wrote to standard error.
    """

    def __init__(self, words: str, status: Optional[int] = None, said: str = "") -> None:
        super().__init__(words)
        self.status, self.said = status, said


class TimedOut(FeqyldanError, TimeoutError):
    """The server didn't answer within the timeout. The connection is closed."""


class ProgramNotFound(FeqyldanError, FileNotFoundError):
    """The server's program was not found in any of the places that are searched."""


class OrderWarning(UserWarning):
    """A node of a graph writes an object that a node added earlier reads. The writer runs first."""


class NotYet(FeqyldanError, TimeoutError):
    """A reply hasn't come within the timeout of Result.value(). It can still be awaited."""


class BadPicture(FeqyldanError):
    """
    A value can't be written to an image: it isn't a picture, or its format or size isn't the
    image's. The subclasses are NotAPicture, a TypeError; WrongPicture, a ValueError; and the
    server's refusals WrongPictureSize, WrongPictureFormat and WrongPictureSample.
    """


class NotAPicture(BadPicture, TypeError):
    """A value of this type can't be a picture, such as an array of floats, a path or None."""


class WrongPicture(BadPicture, ValueError):
    """The shape of a picture or one of its numbers is wrong, such as a colour picture, rows of
    different lengths, or a sample of 256."""


class UnexpectedReply(FeqyldanError):
    """The bytes that were read aren't a reply to the request: the other end isn't this server."""


class Fault(NamedTuple):
    """
    The cause of a refusal in words. For a graph, `nodes` are the numbers of the nodes at fault,
    such as those of a cycle, and `operand` is the parameter at fault of the last of them. Each is
    empty if it isn't known.
    """

    words: str = ""
    nodes: Tuple[int, ...] = ()
    operand: str = ""


class Refused(FeqyldanError):
    """
    The server refused a request, which has changed nothing. `code` is the number of the status
    code, `name` its name in docs/wire.md, `request` the request in words, `advice` what to do.
    `place` is the call in its pipeline, and `fault` the fault of a graph in words. `nodes` are the
    numbers of the nodes at fault, and `operand` the parameter at fault of the last of them. Each is
    empty if it isn't known.
    """

    code = -1
    advice = "This package doesn't know the code: use the package of the server's version."

    def __init__(self, request: str, op: Optional[int] = None, advice: Optional[str] = None,
                 place: str = "", fault: str = "", nodes: Tuple[int, ...] = (),
                 operand: str = "") -> None:
        self.request, self.name = request, wire.CODES[self.code]
        self.place, self.fault, self.nodes, self.operand = place, fault, nodes, operand
        self.advice = ADVICE.get((self.code, op), self.advice) if advice is None else advice
        where = f" ({place})" if place else ""
        words = f"{request}{where}: {self.name}.", fault, self.advice
        super().__init__(" ".join(filter(None, words)))

    def in_words(self, request: Optional[str] = None, more: str = "") -> Refused:
        """Returns the same refusal with the request in other words, or with more words about its
        fault."""
        fault = " ".join(filter(None, (self.fault, more)))
        return type(self)(request or self.request, None, self.advice, self.place, fault,
                          self.nodes, self.operand)

    def __reduce__(self) -> Tuple[Type[Refused], Tuple[Any, ...]]:
        # For pickle, which by default would pass the message as the request.
        return type(self), (self.request, None, self.advice, self.place, self.fault, self.nodes,
                            self.operand)


class NoMemory(Refused):
    code = wire.NO_MEMORY
    advice = ("The machine, or the limit of its operator, had no memory for it, and nothing has "
              "changed: close something, or try again.")


class InvalidParameters(Refused):
    code = wire.INVALID_PARAMETERS
    advice = ("The server doesn't know this request, or a field of it: use the server and the "
              "package of one version.")


class InvalidReference(Refused, Closed):
    """An object was used after it was closed."""

    code = wire.INVALID_REFERENCE
    advice = "An object that it uses was closed: create another, or close it later."


class InvalidScope(Refused):
    code = wire.INVALID_SCOPE
    advice = "A virtual image belongs to one graph: create one by this graph's virtual_image()."


class InvalidFormat(Refused):
    code = wire.INVALID_FORMAT
    advice = "The function doesn't take this combination of formats."


class InvalidDimension(Refused, ValueError):
    code = wire.INVALID_DIMENSION
    advice = "All images of one call must have the same size."


class InvalidValue(Refused, ValueError):
    code = wire.INVALID_VALUE
    advice = "A number is out of range: the call's docstring gives the range."


class InvalidType(Refused):
    code = wire.INVALID_TYPE
    advice = ("An operand is of another kind than the call takes. For a delay, give a slot, as in "
              "delay[0].")


class InvalidGraph(Refused):
    code = wire.INVALID_GRAPH
    advice = ("The nodes form a cycle: remove one of them, or let it read an older slot of a "
              "delay.")


class InvalidLink(Refused):
    code = wire.INVALID_LINK
    advice = ("A node reads a virtual image that no node writes, or accumulates into one: add the "
              "node that writes it, or accumulate into an image.")


class MultipleWriters(Refused):
    code = wire.MULTIPLE_WRITERS
    advice = ("Two outputs are one object: give each its own, such as a virtual image in "
              "between.")


class OptimizedAway(Refused):
    code = wire.OPTIMIZED_AWAY
    advice = ("A virtual image has samples only while its graph runs: let the node write an image "
              "that you can read.")


class NoResources(Refused):
    code = wire.NO_RESOURCES
    advice = ("The client's 1,024 objects or its quota are used up: close what isn't needed, or "
              "start the server with a greater quota, as in vx.Server(quota=2**30).")


class BrokerFull(NoResources):
    """The door or the broker has as many connections as it allows. connect(retry=) waits for a free
    connection."""


class WrongPictureSize(InvalidDimension, BadPicture):
    """A picture has another size than the image that it is written to."""


class WrongPictureFormat(InvalidFormat, BadPicture):
    """A picture has another format than the image that it is written to, or a text isn't PGM."""


class WrongPictureSample(InvalidValue, BadPicture):
    """A sample of a PGM text is above its maxval."""


CLASSES: Dict[int, Type[Refused]] = {
    kind.code: kind for kind in (
        NoMemory, InvalidParameters, InvalidReference, InvalidScope, InvalidFormat,
        InvalidDimension, InvalidValue, InvalidType, InvalidGraph, InvalidLink, MultipleWriters,
        OptimizedAway, NoResources)}

# The classes for a code in the reply to a certain op.
OWN_CLASSES: Dict[Tuple[int, Optional[int]], Type[Refused]] = {
    (wire.NO_RESOURCES, wire.OPEN_CONTEXT): BrokerFull,
    **{(kind.code, op): kind for op in (wire.WRITE_IMAGE, wire.WRITE_IMAGE_PGM)
       for kind in (WrongPictureSize, WrongPictureFormat, WrongPictureSample)},
}

# Advice for a code in the reply to a certain op.
_SIDES = (f"An image has from {PARAMETER_RANGES['image.width']} columns, and from "
          f"{PARAMETER_RANGES['image.height']} rows.")
_SIDES_OF_CONVOLUTIONS = (f"{', '.join(map(str, SIDES_OF_CONVOLUTIONS[:-1]))} or "
                          f"{SIDES_OF_CONVOLUTIONS[-1]}")
_SIZE_OF_A_PICTURE = ("The picture must have the size of the image: write another one, or create "
                      "an image of this size.")
_OF_A_NODE = ("The images of a node differ in size. A virtual image without a size gets it from "
              "the input of the node that writes it.")
_FORMATS_OF_A_NODE = ("The function doesn't take these formats. A virtual image without a format "
                      "gets it from the node that writes it.")
_OF_A_CALL = "A border must be vx.UNDEFINED, vx.REPLICATE or vx.constant(value)."
_SHIFTS = ("A shift is out of range. The ranges are "
           f"{', '.join(f'{shift} for {function}' for function, shift in SHIFTS.items())}.")
_NO_NODES = ("The graph's virtual images need more than the work bytes: use smaller pictures, or "
             "start the server with more work bytes, as in vx.Server(work=2**30).")
ADVICE: Dict[Tuple[int, Optional[int]], str] = {
    (wire.INVALID_VALUE, wire.OPEN_CONTEXT):
        "Another program has a context open under this client number: use another server.",
    (wire.NO_RESOURCES, wire.OPEN_CONTEXT):
        "The door or the broker has its limit of connections in all, of this process or of this "
        "user, or can start no server, as its log says: close one, or start it with a higher limit "
        "(--connections, --per-process, --per-user).",
    (wire.INVALID_REFERENCE, wire.REMOVE_NODE):
        "The graph was closed, or the node was removed already.",
    (wire.INVALID_DIMENSION, wire.CREATE_IMAGE): _SIDES,
    (wire.INVALID_DIMENSION, wire.CREATE_VIRTUAL_IMAGE): _SIDES,
    (wire.INVALID_DIMENSION, wire.WRITE_IMAGE): _SIZE_OF_A_PICTURE,
    (wire.INVALID_DIMENSION, wire.WRITE_IMAGE_PGM): _SIZE_OF_A_PICTURE,
    (wire.INVALID_DIMENSION, wire.CREATE_CONVOLUTION):
        f"A convolution must have {_SIDES_OF_CONVOLUTIONS} rows, and {_SIDES_OF_CONVOLUTIONS} "
        "columns.",
    (wire.INVALID_FORMAT, wire.WRITE_IMAGE):
        "The samples must have the format of the image: uint8 for U8, int16 for S16, uint32 for "
        "U32.",
    (wire.INVALID_FORMAT, wire.WRITE_IMAGE_PGM):
        "The bytes aren't a PGM text of the image's format: a maxval up to 255 is for U8, one up "
        "to 32767 for S16.",
    (wire.INVALID_VALUE, wire.WRITE_IMAGE_PGM):
        "A sample of the PGM text is above its maxval: correct the text.",
    (wire.INVALID_FORMAT, wire.READ_IMAGE_PGM):
        "Only U8 images can be read as PGM text: convert an S16 image by convert_depth.",
    (wire.INVALID_FORMAT, wire.CREATE_LUT): "A lookup table must be of U8 or S16.",
    (wire.INVALID_FORMAT, wire.CREATE_THRESHOLD): "A threshold must be of U8 or S16.",
    (wire.INVALID_VALUE, wire.CREATE_THRESHOLD):
        "Each limit must be a sample of the format, and the upper one at least the lower one.",
    (wire.INVALID_VALUE, wire.SET_VALID):
        "A rectangle must have its start below its end, and lie within the image; the empty one is "
        "four zeros.",
    (wire.INVALID_FORMAT, wire.VERIFY_GRAPH): _FORMATS_OF_A_NODE,
    (wire.INVALID_FORMAT, wire.PROCESS_GRAPH): _FORMATS_OF_A_NODE,
    (wire.INVALID_DIMENSION, wire.VERIFY_GRAPH): _OF_A_NODE,
    (wire.INVALID_DIMENSION, wire.PROCESS_GRAPH): _OF_A_NODE,
    (wire.NO_RESOURCES, wire.VERIFY_GRAPH): _NO_NODES,
    (wire.NO_RESOURCES, wire.PROCESS_GRAPH): _NO_NODES,
    (wire.INVALID_PARAMETERS, wire.ADD_NODE): _OF_A_CALL,
    (wire.INVALID_PARAMETERS, wire.IMMEDIATE): _OF_A_CALL,
    (wire.INVALID_VALUE, wire.ADD_NODE): _SHIFTS,
    (wire.INVALID_VALUE, wire.IMMEDIATE): _SHIFTS,
    (wire.INVALID_VALUE, wire.CREATE_CONVOLUTION): "The scale must be a power of 2 up to 2^31.",
    (wire.INVALID_VALUE, wire.CREATE_DELAY):
        f"A delay has from {PARAMETER_RANGES['delay.slots']} slots.",
    (wire.INVALID_VALUE, wire.CREATE_DISTRIBUTION):
        f"There are from {PARAMETER_RANGES['distribution.bins']} bins, the offset is from "
        f"{PARAMETER_RANGES['distribution.offset']} and the range from "
        f"{PARAMETER_RANGES['distribution.range']}.",
    (wire.NO_RESOURCES, wire.ADD_NODE): "A graph has at most 256 nodes.",
    (wire.INVALID_GRAPH, wire.IMMEDIATE):
        "The call reads an image that it writes: give it another output.",
    (wire.MULTIPLE_WRITERS, wire.IMMEDIATE):
        "Both outputs are one image: give each an image of its own.",
}


def refusal(code: int, request: str, op: Optional[int], place: str = "",
            fault: Fault = Fault()) -> Refused:
    """Returns the exception for a reply with a code that isn't 0."""
    return OWN_CLASSES.get((code, op), CLASSES[code])(request, op, None, place, *fault)
