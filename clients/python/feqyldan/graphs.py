"""Graphs: nodes that are linked by the images that they read and write, and run together."""

from __future__ import annotations

import warnings
import weakref
from typing import (
    TYPE_CHECKING, Any, Callable, Dict, Iterable, Iterator, NoReturn, Optional, Sequence, Set,
    Tuple, TypeVar, Union, overload)

from . import wire
from .errors import InvalidReference, OptimizedAway, OrderWarning
from .functions import Call, Functions
from .hints import OF_GRAPHS
from .images import AnyImage, Delay, Slot
from .objects import (
    Asked, Description, Distribution, Extremes, Made, MinMax, Named, Rectangle, description_of,
    in_words, side_of_frame)
from .samples import Format, Picture, Readable, format_of
from .uncopied import Uncopied
from .verdicts import ADDING, Member, explained, member_of, overwritten

if TYPE_CHECKING:
    from .context import Context
    from .profiles import Profile
    from .storage import Path
    from .watching import Watch

Frame = TypeVar("Frame")


class VirtualImage(Named, Readable):
    """
    An image between nodes of one graph, which has samples only while the graph runs. `fmt`, `width`
    and `height` are as declared. Those that are None are resolved from the node that writes the
    image.
    """

    __slots__ = ("_declared",)
    _kind = "virtual image"
    _is_virtual = True

    def __init__(self, graph: Graph, made: Made, declared: Description) -> None:
        super().__init__(graph.context, made, in_words(*declared[:3]))
        self._declared = declared

    @property
    def fmt(self) -> Optional[Format]:
        return self._declared.fmt

    @property
    def width(self) -> Optional[int]:
        return self._declared.width

    @property
    def height(self) -> Optional[int]:
        return self._declared.height

    def read(self) -> NoReturn:
        """Raises OptimizedAway: only the nodes of its graph can access its samples."""
        raise OptimizedAway(f"read {self}")

    def _reading(self) -> NoReturn:
        """Raises OptimizedAway, as read() does."""
        raise OptimizedAway(f"read {self}")

    def write(self, samples: Any) -> NoReturn:
        """Raises OptimizedAway, as read() does."""
        raise OptimizedAway(f"write samples to {self}")

    def __array__(self, dtype: Any = None, copy: Optional[bool] = None) -> NoReturn:
        raise OptimizedAway(f"read {self}")

    def query(self) -> Description:
        """Returns the declared description: None for what is open, and an empty valid rectangle."""
        return self._context._ask(*self._querying())

    def _querying(self) -> Asked[Description]:
        """Returns the request of query(), for a pipeline."""
        return (f"query {self}", lambda client: wire.query_image(client, self._reference),
                description_of, None)


class Node(Uncopied):
    """A node of a graph. `number` is its number in the graph, `function` the name of its
    function."""

    __slots__ = ("_graph", "_number", "_call", "__weakref__")

    def __init__(self, graph: Graph, number: int, call: Call) -> None:
        self._graph, self._number, self._call = graph, number, call

    @property
    def graph(self) -> Graph:
        return self._graph

    @property
    def number(self) -> int:
        return self._number

    @property
    def function(self) -> str:
        return self._call.name

    def remove(self) -> None:
        """Removes the node from its graph. Does nothing if the node was removed before, or the
        graph was closed."""
        self._graph._context._settle()
        if self._is_there and not self._graph.closed:
            self._graph._remove(self)

    @property
    def _is_there(self) -> bool:
        return self._number in self._graph._calls

    def __str__(self) -> str:
        return f"node {self._number} of {self._graph}, {self._call}"

    def __repr__(self) -> str:
        return f"<{self}{'' if self._is_there else ', removed'}>"


class Graph(Named, Functions[Node]):
    """
    A graph of at most 256 nodes, which process() runs. Each vision function is a method that adds a
    node.

    Nodes are linked by the images, slots and virtual images that they name. A node that writes an
    image runs before all nodes that read it, in whatever order they were added. So a graph can't
    read an image first and then write it: that takes two graphs.
    """

    __slots__ = ("_virtual_images", "_calls", "_aging")
    _kind = "graph"

    def __init__(self, context: Context, made: Made) -> None:
        super().__init__(context, made)
        self._virtual_images: weakref.WeakSet[VirtualImage] = weakref.WeakSet()
        # The call of each node, by its number. Each change makes a new dictionary.
        self._calls: Dict[int, Call] = {}
        # The names of the delays that each run ages.
        self._aging: Set[int] = set()

    @property
    def nodes(self) -> Tuple[Node, ...]:
        """The nodes, in the order in which they were added."""
        self._context._settle()
        return tuple(Node(self, number, call) for number, call in self._calls.items())

    @property
    def _uses(self) -> Set[int]:
        """The names of the objects that nodes use."""
        return self._reads | self._writes

    @property
    def _reads(self) -> Set[int]:
        """The names of the objects that nodes read; for a slot, that of its delay."""
        return {name_of(operand) for call in self._calls.values()
                for operand in call.operands[: 3 if call.name in ADDING else 2]
                if operand is not None}

    @property
    def _writes(self) -> Set[int]:
        """The names of the objects that nodes write; for a slot, that of its delay."""
        return {name_of(operand) for call in self._calls.values() for operand in call.operands[2:]
                if operand is not None}

    def virtual_image(self, fmt: Optional[Format] = None, width: Optional[int] = None,
                      height: Optional[int] = None, *, name: str = "") -> VirtualImage:
        """Returns a virtual image of this graph, which passes one node's output to others. A format
        or size that isn't declared is resolved from the node that writes the image. From add,
        subtract, multiply, sobel3x3 and convolve the format is then S16."""
        columns, rows = (None if side is None else side_of_frame(side, f"a virtual image's {what}")
                         for side, what in ((width, "width"), (height, "height")))
        declared = Description(None if fmt is None else format_of(fmt), columns, rows,
                               Rectangle(0, 0, 0, 0))
        number = self._context._create(
            f"create a virtual image of {self}", wire.create_virtual_image, self.name,
            *(wire.OPEN if one is None else one for one in declared[:3]))
        image = VirtualImage(self, Made(number, name), declared)
        self._virtual_images.add(image)
        return image

    def verify(self, warn: bool = True) -> None:
        """
        Checks whether the graph can run as it is now. If it can't, raises the refusal, which says
        what is at fault. process() checks the graph too.

        A node that writes an object runs first even if a node that reads the object was added
        earlier. Because this may surprise, verify() then gives a Python warning, OrderWarning,
        unless `warn` is False.
        """
        self._judge("verify", wire.verify_graph)
        for words in overwritten(self._members) if warn else ():
            warnings.warn(words, OrderWarning, stacklevel=2)

    def process(self) -> None:
        """Runs each node once, after the nodes whose outputs it reads. If the graph is refused, no
        node has run."""
        self._judge("process", wire.process_graph)

    @overload
    def stream(self, frames: Iterable[Frame], camera: AnyImage, out: AnyImage,
               ahead: int = 2) -> Iterator[Tuple[Frame, Picture]]:
        ...

    @overload
    def stream(self, frames: Iterable[Frame], camera: AnyImage, out: Distribution,
               ahead: int = 2) -> Iterator[Tuple[Frame, Tuple[int, ...]]]:
        ...

    @overload
    def stream(self, frames: Iterable[Frame], camera: AnyImage, out: MinMax,
               ahead: int = 2) -> Iterator[Tuple[Frame, Extremes]]:
        ...

    @overload
    def stream(self, frames: Iterable[Frame], camera: AnyImage,
               out: Sequence[Union[AnyImage, Distribution, MinMax]],
               ahead: int = 2) -> Iterator[Tuple[Frame, Tuple[Any, ...]]]:
        ...

    def stream(self, frames: Iterable[Frame], camera: AnyImage, out: Any,
               ahead: int = 2) -> Iterator[Tuple[Frame, Any]]:
        """
        Writes each frame to the image `camera`, runs the graph, and yields the frame with the
        result of out.read(), in the order of the frames. `out` may be several images, distributions
        and extremes; their values come as a tuple.

        Up to `ahead` further frames are sent before a result has come, and each result is yielded
        as soon as it has come. An error is raised at the frame that failed, after the results of
        earlier frames: a refusal of one of its requests, BadPicture, or an error of `frames`. For a
        frame that isn't a picture for the camera, the graph doesn't run, nor for later frames.

        Lists, tuples and arrays of frames are used as they are. Any other iterator runs in a thread
        of its own, which takes each frame before the previous one was sent. So each frame has to be
        an array of its own, and the iterator can't use this context. When the stream is left, the
        iterator still yields the frame that was asked for, and no further one.
        """
        from .streams import Station, stream
        return stream(frames, [Station(self, camera, out)], ahead)

    def profile(self, rounds: int = 5) -> Profile:
        """
        Runs each node by itself in immediate mode, and returns the time of each in seconds: the
        least of `rounds` runs. The result prints as a table. The runs use images of their own, so
        the graph's outputs don't change; these images count towards the quota. Can't be called
        within a pipeline.
        """
        from .profiles import profile
        return profile(self, rounds)

    def save(self, path: Path, inputs: Optional[Sequence[AnyImage]] = None) -> None:
        """
        Writes the graph and its objects to a JSON file, for Context.load_graph() and the command
        line. `inputs` are the images that get a picture before each run. The file includes the
        samples and the valid rectangles of all other images that nodes read and no node writes, and
        the valid rectangles that were set of sums. Without `inputs` nodes may read only one image
        that no node writes.
        """
        from .graph_files import write_graph
        self._context._settle()
        if self._is_closed:
            # Its nodes are gone: an empty graph would replace the file.
            raise InvalidReference(f"save {self}")
        write_graph(self, path, inputs)

    def watch(self) -> Watch:
        """
        Runs each node once by itself, and returns what the nodes wrote, also to virtual images:
        `graph.watch()[image].value` has the samples, and `.valid` the valid rectangle. The runs
        use images of their own, so the graph's outputs, sums and delays don't change; these images
        count towards the quota. Can't be called within a pipeline.
        """
        from .watching import watch
        return watch(self)

    def to_dot(self) -> str:
        """Returns the graph in Graphviz's language: nodes, images and other objects."""
        from .drawing import drawing_of
        return drawing_of(self._calls).dot

    def _repr_svg_(self) -> str:
        """Returns a drawing of the graph for a notebook: by Graphviz if it is installed, else by a
        small layout of this package."""
        from .drawing import drawing_of
        return drawing_of(self._calls).svg

    def register_auto_aging(self, delay: Delay) -> None:
        """
        Registers a delay: each process() that succeeds then ages it once, after the run.
        Registering it again changes nothing. A delay may be registered with several graphs, each of
        which ages it. A delay that is closed still ages as long as a node uses it.
        """
        if not isinstance(delay, Delay):
            raise TypeError(f"register_auto_aging takes a delay, not {type(delay).__name__}")
        words = f"register {delay} for auto-aging with {self}"
        self._context._look_at(words, delay)
        self._context._change(words, wire.register_auto_aging, self.name, delay.name,
                              note=lambda: self._aging.add(delay.name))

    def _remove(self, node: Node) -> None:
        """Removes a node, as Node.remove() does."""
        def note() -> None:
            self._calls = {number: call for number, call in self._calls.items()
                           if number != node.number}

        self._context._change(f"remove {node}", wire.remove_node, self.name, node.number,
                              note=note)

    def close(self) -> None:
        """Releases the graph with its nodes and its virtual images."""
        for image in list(self._virtual_images):
            image.close()
        super().close()
        self._calls = {}

    def _values(self) -> str:
        count = len(self._calls)
        return f", {count} node{'' if count == 1 else 's'}"

    @classmethod
    def _others(cls) -> Dict[str, str]:
        return {**super()._others(), **OF_GRAPHS}

    @property
    def _members(self) -> Tuple[Member, ...]:
        """The nodes with their operands' descriptions, to find the fault of the graph."""
        return tuple(member_of(number, call) for number, call in self._calls.items())

    def _judge(self, verb: str, make: Callable[..., bytes]) -> None:
        # In a pipeline the graph may have changed by the time the reply comes.
        calls, context = self._calls, self._context
        context._tell(f"{verb} {self._words}", make, self.name, explain=lambda code: explained(
            code, [member_of(number, call) for number, call in calls.items()],
            context.server.work))

    def _run(self, call: Call) -> Node:
        number = self._context._add_node(self, call, lambda number: (
            setattr(self, "_calls", {**self._calls, number: call})))
        return Node(self, number, call)


def kept_by(graph: Graph) -> str:
    """Returns in words what a graph keeps from one run to the next; empty if it keeps nothing."""
    for call in graph._calls.values():
        if call.name in ADDING:
            return f"sums, by {call}"
        delays = [str(operand.delay) for operand in call.operands if isinstance(operand, Slot)]
        if delays:
            return delays[0]
    return "a delay that it ages" if graph._aging else ""


def name_of(operand: Any) -> int:
    """Returns the name of an object; for a slot, that of its delay."""
    delay = getattr(operand, "delay", None)
    return int(operand.name if delay is None else delay.name)
