"""
A client of the vision server Feqyldan.

    import feqyldan as vx

    with vx.Server() as server, server.context() as context:
        before, after = context.read_pgm("before.pgm"), context.read_pgm("after.pgm")
        changed = context.image_like(before)
        context.vxu.absdiff(before, after, changed)
        vx.write_png("changed.png", changed)

`Server` starts the program; `connect` reaches a running one by a Unix socket. A `Context` creates
objects. It runs functions in immediate mode by `vxu`, and as nodes of a `Graph`. A refused request
raises a subclass of `Refused`, one for each status code.
"""

from typing import List

from . import wire
from .context import Context, Vxu
from .errors import (
    BadPicture, BrokerFull, Closed, FeqyldanError, InvalidDimension, InvalidFormat, InvalidGraph,
    InvalidLink, InvalidParameters, InvalidReference, InvalidScope, InvalidType, InvalidValue,
    MultipleWriters, NestedCall, NoMemory, NoResources, NotAPicture, NotYet, OptimizedAway,
    OrderWarning, ProgramNotFound, Refused, ServerEnded, TimedOut, UnexpectedReply, WrongPicture,
    WrongPictureFormat, WrongPictureSample, WrongPictureSize)
from .functions import FUNCTIONS, REPLICATE, UNDEFINED, Border, Policy, constant
from .graph_files import GraphFile, GraphFileError, graph_text
from .graphs import Graph, Node, VirtualImage
from .images import AnyImage, Delay, Image, Slot
from .objects import (
    Convolution, Description, Distribution, Extremes, Lut, MinMax, Rectangle, Threshold)
from .pictures import png, write_pgm, write_png
from .pipeline import Pipeline, Result
from .profiles import Profile, Timing
from .ranges import PARAMETER_RANGES, Range
from .regions import Region, regions
from .samples import Format, Picture
from .server import Server
from .sockets import SocketServer, connect, status
from .streams import Station, stream
from .thumbnails import thumbnail
from .usage import Usage
from .watching import Watch, Written

U8, S16, U32 = Format.U8, Format.S16, Format.U32
WRAP, SATURATE = Policy.WRAP, Policy.SATURATE

__version__ = "0.1.0"
__all__ = [
    "AnyImage", "BadPicture", "Border", "BrokerFull", "Closed", "Context", "Convolution", "Delay",
    "Description", "Distribution", "Extremes", "FUNCTIONS", "FeqyldanError", "Format", "Graph",
    "GraphFile", "GraphFileError", "Image", "InvalidDimension", "InvalidFormat", "InvalidGraph",
    "InvalidLink", "InvalidParameters", "InvalidReference", "InvalidScope", "InvalidType",
    "InvalidValue", "Lut", "MinMax", "MultipleWriters", "NestedCall", "NoMemory", "NoResources",
    "Node", "NotAPicture", "NotYet", "OptimizedAway", "OrderWarning", "PARAMETER_RANGES",
    "Picture", "Pipeline", "Policy", "Profile", "ProgramNotFound", "REPLICATE", "Range",
    "Rectangle", "Refused", "Region", "Result", "S16", "SATURATE", "Server", "ServerEnded", "Slot",
    "SocketServer", "Station", "Threshold", "TimedOut", "Timing", "U32", "U8", "UNDEFINED",
    "UnexpectedReply", "Usage", "VirtualImage", "Vxu", "WRAP", "Watch", "Written", "WrongPicture",
    "WrongPictureFormat", "WrongPictureSample", "WrongPictureSize", "connect", "constant",
    "graph_text", "png", "regions", "status", "stream", "thumbnail", "wire", "write_pgm",
    "write_png"]


def __dir__() -> List[str]:
    """Returns the public names, without those of the modules."""
    return [*__all__, "__version__"]
