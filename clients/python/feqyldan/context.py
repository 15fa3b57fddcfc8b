"""A client's context on a server: it creates objects and runs functions, and has a client number of
its own."""

from __future__ import annotations

import asyncio
import contextlib
import struct
import sys
import threading
import weakref
from collections import deque
from functools import partial
from itertools import starmap
from types import TracebackType
from typing import (
    TYPE_CHECKING, Any, Callable, Deque, Dict, Iterator, List, Optional, Set, Tuple, Type,
    TypeVar, Union)

from . import wire
from .connection import (
    GREATEST_REQUEST, Body, Connection, Explain, Part, Request, is_interrupted)
from .direct import DirectConnection
from .errors import Closed, Fault, FeqyldanError, InvalidDimension, InvalidScope, NestedCall
from .files import picture_in
from .forks import HELD
from .functions import FUNCTIONS, Call, Functions, functions_for_names
from .graph_files import GraphFile, GraphFileError, read_graph
from .graphs import Graph
from .hints import OF_CONTEXTS, attribute_of
from .images import AnyImage, Delay, Image
from .objects import Convolution, Distribution, Lut, Made, MinMax, Named, Threshold, sides_of_frame
from .pgm import GREATEST_WIDE_MAXVAL, header_of, is_pgm
from .pipeline import Pipeline, Stretch, calling_frame
from .ranges import PARAMETER_RANGES
from .samples import (
    Format, Numbers, Rows, Samples, Size, entries_of, format_of, has_truths, lengths_in_words,
    samples_of)
from .storage import Path, name_of_file, naming, read_bytes
from .uncopied import Uncopied
from .usage import Usage, Used, wanted_bytes
from .verdicts import formats_in_words, narrowing_for, parameter_for
from .whole import BYTE, NO_SEQUENCE, SIGNED, UNSIGNED, whole, within

if TYPE_CHECKING:
    from .server import Server

Value = TypeVar("Value")
# What ends a `with` for good: an error, the closing of a generator, and the cancelling of a task.
# Other exceptions, such as KeyboardInterrupt, are interruptions.
ENDS = Exception, GeneratorExit, asyncio.CancelledError
# How often work after an interruption is tried that others interrupt.
TRIES = 100


class Vxu(Uncopied, Functions[None]):
    """Immediate mode: each vision function is a method, and runs when it is called."""

    __slots__ = ("_context",)

    def __init__(self, context: Context) -> None:
        self._context = context

    def _run(self, call: Call) -> None:
        references = self._context._references_of(call)
        self._context._tell(str(call), wire.immediate, *call.fields(references),
                            explain=lambda code: fault_of(call, code))


def fault_of(call: Call, code: int) -> Fault:
    """Returns the fault in a call's own arguments, given the code of its refusal."""
    if code == wire.INVALID_FORMAT:
        one, other = (getattr(operand, "fmt", None) for operand in call.operands[:2])
        return Fault(f"{call.name} takes {formats_in_words(call.name)}"
                     f"{parameter_for(call.name, one, other)}{narrowing_for(call.name, one)}.")
    if code == wire.INVALID_VALUE:
        return Fault(f"Its shift is {call.amount}.", operand="shift")
    if code == wire.INVALID_PARAMETERS:
        return Fault(f"Its border is {call.border}.", operand="border")
    return Fault()


class Death(weakref.ref):  # type: ignore[type-arg]
    """
    Notes when Python frees an object that has a name on the server.

    Its callback is a function in C. A callback in Python could be interrupted by an exception, such
    as KeyboardInterrupt, which would be lost there.
    """

    __slots__ = ("name",)
    name: int


class Context(Uncopied):
    """
    A client's context, as Server.context() opens it. It ends at the end of its `with`, by close(),
    or with the server, and all of its objects end with it. Only one thread may use it at a time;
    several threads may use contexts of one server.

    Each object can have a name=, which messages use.
    """

    __slots__ = ("_server", "_connection", "_number", "_borrowed", "_pipeline", "_stretch",
                 "_alive", "_dead", "_unclaimed", "_releasing", "_used", "_barred", "_is_closed",
                 "_is_unsettled", "__weakref__")

    def __init__(self, server: Server, connection: Union[Connection, DirectConnection],
                 number: int) -> None:
        self._server, self._connection, self._number = server, connection, number
        # The client number, until it is given back. Another context may have it from then on.
        self._borrowed = [number]
        # The open pipeline, and its refusals. The reference is weak: after an interruption within
        # __enter__ nobody holds the pipeline, and it counts as closed.
        self._pipeline: Optional[weakref.ref[Pipeline]] = None
        self._stretch: Optional[Stretch] = None
        # The objects in Python by their names on the server; and those that Python has freed, which
        # are released before the next request.
        self._alive: Dict[int, Death] = {}
        self._dead: Deque[Death] = deque()
        # The objects on the server that no Python object has yet, with the thread that asked for
        # each. If one is left at that thread's next request, an interruption came between.
        self._unclaimed: Dict[int, int] = {}
        # Held by the thread that releases what Python has forgotten.
        self._releasing = threading.RLock()
        self._used = Used()
        # The threads that may not use the context: they run the iterators of its streams.
        self._barred: Set[int] = set()
        self._is_closed = False
        # Whether an interruption may have come before the reply to a request for a change.
        self._is_unsettled = False
        self._tell("open a context", wire.open_context)

    @property
    def server(self) -> Server:
        return self._server

    @property
    def number(self) -> int:
        """The client number on the server."""
        return self._number

    @property
    def vxu(self) -> Vxu:
        """The functions in immediate mode."""
        # Made anew, since a stored one would refer back to the context and keep it alive.
        return Vxu(self)

    if not TYPE_CHECKING:
        def __getattr__(self, name: str) -> Any:
            ours = {name: f"vxu.{name}" for name in FUNCTIONS}
            return attribute_of(self, name,
                                {**functions_for_names("vxu."), **ours, **OF_CONTEXTS})

    # ---- objects

    def image(self, fmt: Format, width: int, height: int, *, name: str = "") -> Image:
        """Returns a new image of width by height samples, from 1 to 8192 each. All samples are 0,
        and the whole image is valid."""
        made, (columns, rows) = format_of(fmt), sides_of_frame(width, height)
        words = f"create a {made} image of {columns} by {rows}"
        number = self._create(words, wire.create_image, made, columns, rows,
                              size=columns * rows * made.sample_bytes)
        return Image(self, Made(number, name), made, columns, rows)

    def image_like(self, exemplar: AnyImage, fmt: Optional[Format] = None, *,
                   name: str = "") -> Image:
        """Returns a new image with the size of `exemplar`, and its format unless `fmt` is given. No
        sample is copied."""
        self._look_at("image_like", exemplar)
        if not isinstance(exemplar, AnyImage):
            raise TypeError(f"image_like takes an image, not {type(exemplar).__name__}: give the "
                            "format and the size to context.image()")
        return self.image(exemplar.fmt if fmt is None else fmt, exemplar.width, exemplar.height,
                          name=name)

    def image_from(self, samples: Any, fmt: Optional[Format] = None, *, name: str = "") -> Image:
        """
        Returns an image of these samples: a NumPy array of shape (height, width) and dtype uint8,
        int16 or uint32, another buffer of that shape, or rows of numbers, which are U8 unless a
        format is given. Raises BadPicture for anything else, and TypeError if the samples have
        another format than `fmt`.
        """
        if fmt is None:
            return self._image_of(samples_of(samples), name)
        given = samples_of(samples, Size(format_of(fmt), 0, 0))
        if given.fmt != fmt:
            raise TypeError(f"these samples are {given.fmt}, not {format_of(fmt)}: convert them, "
                            f"or give the format vx.{given.fmt}")
        return self._image_of(given, name)

    def image_from_pgm(self, text: bytes, *, name: str = "") -> Image:
        """Returns an image of the picture in a PGM text, P5 or P2: U8 for a maxval up to 255, S16
        for one up to 32767. Raises BadPicture for anything else."""
        header = header_of(text)
        image = self.image(header.fmt, header.width, header.height, name=name)
        with closed_if_refused(image):
            image.write_pgm(text)
        return image

    def read_pgm(self, path: Path, *, name: str = "") -> Image:
        """Returns an image of the picture in a PGM file."""
        text = read_bytes(path)
        with naming(name_of_file(path)):
            return self.image_from_pgm(text, name=name)

    def load(self, path: Path, scale: bool = False, *, name: str = "") -> Image:
        """
        Returns an image of the picture in a file. PGM is read by the server, .npy by NumPy, and
        other formats, as PNG and JPEG, by OpenCV or PIL if one of them is installed. Colours are
        converted to grey. Samples of 8 bits give U8, wider ones S16 if all are below 32768. Raises
        OSError if the file can't be read, and BadPicture if it has no whole picture.

        Samples are used as the file has them. With `scale` the image is U8, and the greatest
        possible sample becomes 255: the maxval of a PGM file, 65535 in other files of 16 bits.
        """
        content = read_bytes(path)
        with naming(name_of_file(path)):
            if is_pgm(content) and not scale and header_of(content).maxval <= GREATEST_WIDE_MAXVAL:
                return self.image_from_pgm(content, name=name)
            return self.image_from(picture_in(content, scale), name=name)

    def lut(self, fmt: Format, entries: Numbers, *, name: str = "") -> Lut:
        """Returns a lookup table of U8 with 256 entries, or of S16 with 65,536. The first entry is
        for the least sample. Raises ValueError for another number of entries."""
        made = format_of(fmt)
        content = entries_of(entries, made)
        wanted = {Format.U8: 256, Format.S16: 2 * 65536}.get(made)
        if wanted is not None and len(content) != wanted:
            raise ValueError(f"a lookup table of {made} needs {wanted // made.sample_bytes:,} "
                             "entries, one for each sample value, not "
                             f"{len(content) // made.sample_bytes:,}")
        number = self._create(f"create a {made} lookup table", wire.create_lut_of, made, content)
        return Lut(self, Made(number, name), made, content)

    def threshold(self, fmt: Format, above: Optional[int] = None,
                  between: Optional[Tuple[int, int]] = None,
                  true_value: int = 255, false_value: int = 0, *, name: str = "") -> Threshold:
        """
        Returns a threshold of U8 or S16 samples. A sample passes if it is greater than `above`
        (VX_THRESHOLD_TYPE_BINARY), or if it is `between` two limits, both included
        (VX_THRESHOLD_TYPE_RANGE). The output is the true value where a sample passes, and the false
        value elsewhere; both are from 0 to 255.
        """
        if (above is None) == (between is None):
            given = "neither was" if above is None else "both were"
            raise TypeError("a threshold needs either above=limit or between=(lower, upper), and "
                            f"{given} given")
        limits = tuple(within(limit, "a threshold's limit", SIGNED,
                              "a whole number, a sample of its format")
                       for limit in ((above,) if between is None else two_limits(between)))
        if has_truths((true_value, false_value)):
            raise TypeError("a threshold's true and false values are samples, and one is True or "
                            "False: write 255 or 0")
        outputs = (within(true_value, *_AN_OUTPUT), within(false_value, *_AN_OUTPUT))
        made = format_of(fmt)
        kind = "above" if between is None else "between"
        words = f"create a {made} threshold {kind} {' and '.join(map(str, limits))}"
        number = self._create(words, wire.create_threshold, made, limits, *outputs)
        return Threshold(self, Made(number, name), made, limits, outputs)

    def convolution(self, coefficients: Rows, scale: int = 1, *, name: str = "") -> Convolution:
        """
        Returns a convolution. The coefficients are rows of numbers, or an array, from -32768 to
        32767, in 3, 5, 7 or 9 rows and columns. The weighted sums are divided by the scale, a power
        of 2 up to 2^31.
        """
        rows = rows_of_kernel(coefficients)
        divisor = whole(scale, "the scale of a convolution", "a whole number, a power of 2")
        exponent = divisor.bit_length() - 1
        is_power = divisor >= 1 and divisor == 1 << exponent
        if not is_power or exponent > BYTE.greatest:
            raise ValueError("the scale of a convolution must be a power of 2 up to 2^31, not "
                             f"{scale}")
        columns = len(rows[0]) if rows else 0
        words = f"create a convolution of {columns} by {len(rows)}"
        if max(columns, len(rows)) > BYTE.greatest:
            # A frame can't express it.
            raise InvalidDimension(words, wire.CREATE_CONVOLUTION)
        flat = [value for row in rows for value in row]
        number = self._create(words, wire.create_convolution, columns, len(rows), exponent, flat)
        return Convolution(self, Made(number, name), rows, divisor)

    def distribution(self, bins: int, offset: int = 0, range: int = 256, *,
                     name: str = "") -> Distribution:
        """Returns a distribution of 1 to 256 bins of the same width. The bins begin at the offset,
        from 0 to 255, and together cover `range` values, from 1 to 256."""
        sides = (within(bins, "a distribution's number of bins", UNSIGNED,
                        PARAMETER_RANGES["distribution.bins"].whole),
                 within(offset, "a distribution's offset", UNSIGNED,
                        PARAMETER_RANGES["distribution.offset"].whole),
                 within(range, "a distribution's range", UNSIGNED,
                        PARAMETER_RANGES["distribution.range"].whole))
        words = f"create a distribution of {bins} bins from {offset} on, {range} long"
        number = self._create(words, wire.create_distribution, *sides)
        return Distribution(self, Made(number, name), sides)

    def min_max(self, *, name: str = "") -> MinMax:
        """Returns an object for the results of vxu.min_max_loc."""
        return MinMax(self, Made(self._create("create extremes", wire.create_min_max), name))

    def delay(self, exemplar: AnyImage, slots: int, *, name: str = "") -> Delay:
        """Returns a delay of 1 to 16 slots with new images. They have the format and the size of
        `exemplar`, whose samples aren't used."""
        self._look_at("delay", exemplar)
        if not isinstance(exemplar, AnyImage):
            raise TypeError("delay takes an image, whose format and size its slots get, not "
                            f"{type(exemplar).__name__}")
        count = within(slots, "the number of a delay's slots", BYTE,
                       PARAMETER_RANGES["delay.slots"].whole)
        words = f"create a delay of {count} slots like {exemplar}"
        number = self._create(words, wire.create_delay, exemplar._reference, count,
                              size=count * wanted_bytes(exemplar))
        return Delay(self, Made(number, name), exemplar, count)

    def graph(self, *, name: str = "") -> Graph:
        """Returns a graph without nodes."""
        graph = Graph(self, Made(self._create("create a graph", wire.create_graph), name))
        self._used.add_graph(graph)
        return graph

    def load_graph(self, path: Path) -> GraphFile:
        """
        Returns the graph of a JSON file, which Graph.save(), another program or a person wrote. The
        result has the `graph`, its `inputs` and `outputs` by name, and all `objects` by name.
        Raises GraphFileError if the file doesn't describe a graph.
        """
        return read_graph(self, path)

    def graph_faults(self, path: Path) -> Tuple[GraphFileError, ...]:
        """Returns all faults of a graph file: of its objects, of its nodes, and those for which the
        server refuses the graph. An empty tuple says that load_graph() and process() accept it.
        Can't be called within a pipeline."""
        from .graph_drafts import graph_faults
        return graph_faults(self, path)

    def usage(self) -> Usage:
        """
        Returns how many objects this context has, and how many bytes of the quota its images take.
        The package counts them itself. An object counts until it is closed or Python frees it, and
        after that while a node of a graph uses it.
        """
        if not self.closed:
            self._release_forgotten()
        return self._used.usage(self._server.quota)

    def _image_of(self, samples: Samples, name: str) -> Image:
        image = self.image(samples.fmt, samples.width, samples.height, name=name)
        with closed_if_refused(image):
            self._tell(f"write samples to {image}", wire.write_image_head, image._reference,
                       *samples[:3], content=samples.content)
        return image

    # ---- requests

    def pipeline(self) -> Pipeline:
        """Returns a pipeline: requests within its `with` are sent ahead of their replies."""
        return Pipeline(self)

    def _enter_pipeline(self, pipeline: Pipeline) -> None:
        """Opens a pipeline: calls without a result no longer wait for their replies."""
        self._look_at_thread("open a pipeline")
        if self._pipeline is not None:
            is_there = self._open_pipeline() is not None
            self._close_pipeline()
            if is_there:
                raise ValueError(f"{self} already has an open pipeline, which is closed now, since "
                                 "an interruption may have left it open: make the calls of both in "
                                 "one, or leave the 'with' of the first one before")
        if self._why_closed is not None:
            raise Closed(f"open a pipeline: {self._why_closed}")
        self._stretch, self._pipeline = pipeline._stretch, weakref.ref(pipeline)

    def _close_pipeline(self) -> None:
        """Closes a pipeline that an interruption at the very end of its `with` has left open.
        Raises its first refusal unless it was raised before."""
        stretch, self._pipeline, self._stretch = self._stretch, None, None
        if stretch is not None and self._connection.fault is None:
            self._connection.wait()
            stretch.raise_untold()

    def _look_at_thread(self, words: str) -> None:
        if threading.get_ident() in self._barred:
            raise ValueError(f"{words}: the iterator of a stream runs in another thread, so it "
                             "can't use the stream's context: open one for it by "
                             "server.context(), or give the stream a list")

    def _look_at_pipeline(self, words: str) -> None:
        """Raises ValueError within a pipeline, for a call whose result depends on a refusal, or on
        the time until a reply comes."""
        if self._open_pipeline() is not None:
            raise ValueError(f"{words}: within a pipeline requests don't wait for their replies: "
                             "make this call before the 'with' of the pipeline, or after it")

    def _open_pipeline(self) -> Optional[Pipeline]:
        return None if self._pipeline is None else self._pipeline()

    def _send(self, words: str, make: Callable[..., bytes], arguments: Tuple[Any, ...] = (),
              content: Optional[Part] = None, explain: Optional[Explain] = None,
              on_success: Optional[Callable[[memoryview], None]] = None,
              body: Optional[Body] = None, into: Optional[memoryview] = None,
              waits: bool = False) -> Request:
        """
        Sends a request. `make` returns its frame for the client number and these arguments;
        `content` follows the frame. With `waits` the reply has come on return, except in a
        pipeline, which notes a refusal for later. `explain` returns the fault of a refused request.
        `body` is the expected body of a success, if the op alone doesn't determine it. The samples
        of the reply are read `into` a place, if one is given.
        """
        if self._is_closed or self._server._ended_by is not None:
            raise Closed(f"{words}: {self._why_closed}")
        if self._barred:
            self._look_at_thread(words)
        pipeline = self._open_pipeline()
        if pipeline is None and self._pipeline is not None:
            self._close_pipeline()
        try:
            frame = make(self._number, *arguments)
        except (struct.error, ValueError) as error:
            raise ValueError(f"{words}: {error}") from None
        size = len(frame) - 4 + (0 if content is None else len(content))
        if size > GREATEST_REQUEST:
            # The server would end.
            raise ValueError(f"{words}: the request has {size:,} bytes, and at most "
                             f"{GREATEST_REQUEST:,} are allowed")
        if self._unclaimed or self._dead:
            self._release_forgotten()
        if self._server._dead:
            self._server._release_dead()
        request = Request(words, self._number, frame[6], explain, body)
        request.on_success, request.into = on_success, into
        parts = [frame] if content is None else [frame, content]
        if pipeline is not None:
            pipeline._take(request)
            self._connection.send(request, parts, pipeline._is_followed)
        elif waits:
            self._connection.ask(request, parts)
        else:
            self._connection.send(request, parts)
        return request

    def _tell(self, words: str, make: Callable[..., bytes], *arguments: Any,
              content: Optional[Part] = None,
              explain: Optional[Explain] = None,
              on_success: Optional[Callable[[memoryview], None]] = None) -> None:
        """Sends a request without a result; waits for its reply unless a pipeline is open."""
        request = self._send(words, make, arguments, content, explain, on_success, waits=True)
        if self._pipeline is None or self._pipeline() is None:
            self._await_reply_to(request)

    def _change(self, words: str, make: Callable[..., bytes], *arguments: Any,
                note: Callable[[], None]) -> None:
        """
        Sends a request that changes what this package knows of the server, as _tell() does. When
        the reply comes, also after an interruption, `note` is called unless it is a refusal. In a
        pipeline it is called at once. It may be called twice.
        """
        self._is_unsettled = True
        self._tell(words, make, *arguments, on_success=lambda _: note())
        note()
        self._is_unsettled = False

    def _settle(self) -> None:
        """Waits for the reply to an interrupted request for a change, if there is one. Within a
        signal's handler, or if the server has ended, does nothing."""
        if self._is_unsettled:
            with contextlib.suppress(FeqyldanError):
                self._connection.wait()
                self._is_unsettled = False

    def _ask(self, words: str, make: Callable[..., bytes], decode: Callable[[memoryview], Value],
             body: Optional[Body] = None, into: Optional[memoryview] = None) -> Value:
        """Sends a request, waits for its reply, and returns the decoded result. In a pipeline a
        result after a refused request may be of an older picture, so that refusal is raised
        instead. After an interruption nothing more is written `into` the place."""
        try:
            request = self._send(words, make, body=body, into=into, waits=True)
            value = decode(self._reply_to(request))
        except BaseException:
            tries = TRIES
            while into is not None and tries:
                try:
                    tries -= 1
                    self._connection.let_go(into)
                    into = None
                except BaseException:
                    # Another interruption. The call ends by the first one.
                    pass
            raise
        pipeline = self._open_pipeline()
        if pipeline is not None:
            pipeline._raise_before(request)
        return value

    def _create(self, words: str, make: Callable[..., bytes], *arguments: Any,
                size: int = 0) -> int:
        """Sends a request that creates an object, waits for the reply, and returns the object's
        name. The object takes `size` bytes of the quota."""
        thread = threading.get_ident()
        request = self._send(words, make, arguments, None, self._limit_for(size), waits=True,
                             on_success=lambda reply: self._note_made(reply, size, thread))
        return int(wire.name_of(self._reply_to(request)))

    def _note_made(self, reply: memoryview, size: int, thread: int) -> None:
        """Notes a new object for the thread that asked for it. The caller is the thread that reads
        the reply, which may be another one."""
        name = wire.name_of(reply)
        self._used.add(name, size)
        self._unclaimed[name] = thread

    def _claim(self, name: int, thing: Named) -> None:
        """Gives the name of an object on the server to an object in Python. The name is released
        when Python frees the Python object."""
        death = Death(thing, self._dead.append)  # type: ignore[arg-type]
        death.name = name
        self._alive[name] = death
        self._unclaimed.pop(name, None)

    def _add_node(self, graph: Graph, call: Call, added: Callable[[int], None]) -> int:
        """Sends a request that adds a node to a graph, waits for the reply, and returns the node's
        number. When the reply comes, also after an interruption, `added` is called with the
        number."""
        fields = call.fields(self._references_of(call))
        self._is_unsettled = True
        request = self._send(f"add {call} to {graph}", wire.add_node, (graph.name, *fields),
                             waits=True, explain=lambda code: fault_of(call, code),
                             on_success=lambda reply: added(wire.node_of(reply)))
        number = int(wire.node_of(self._reply_to(request)))
        self._is_unsettled = False
        return number

    def _release(self, name: int, words: str) -> None:
        """Releases an object, unless the server is known to be gone. After an interruption it may
        only be released when Python frees it."""
        if self._connection.fault is None:
            self._tell(f"release {words}", wire.release, name)
        self._used.release(name)
        self._alive.pop(name, None)

    def _references_of(self, call: Call) -> List[Optional[bytes]]:
        """Returns the references of a call's operands, as frames have them; None for an operand
        that is absent."""
        self._look_at(call.name, *call.operands, words=call)
        return [None if operand is None else operand._reference for operand in call.operands]

    def _look_at(self, what: str, *operands: Any, words: object = None) -> None:
        """Raises TypeError if an operand isn't an object, and InvalidScope if it is of another
        context."""
        for operand in operands:
            if not isinstance(operand, (AnyImage, Named, type(None))):
                raise TypeError(f"{what} takes images and other objects of its context, not "
                                f"{type(operand).__name__}: context.image_from() makes an image of "
                                "an array; context.threshold(), lut() and convolution() make the "
                                "parameters")
            # Names count up from 1 in each context, so this context has other objects with the same
            # names.
            if operand is not None and operand.context is not self:
                advice = f"{operand} belongs to another context: create it in this one."
                raise InvalidScope(str(words or what), None, advice)

    def _limit_for(self, size: int) -> Explain:
        """Returns an Explain that says which limit a new object of this many bytes exceeds."""
        return lambda code: Fault("" if code != wire.NO_RESOURCES
                                  else self._used.fault(size, self._server.quota))

    def _reply_to(self, request: Request) -> memoryview:
        """Waits for the reply to a request, and returns it. Raises the refusal in it."""
        self._await_reply_to(request)
        return request.take_reply()

    def _await_reply_to(self, request: Request) -> None:
        """Waits for the reply to a request. Raises the refusal in it."""
        # An open pipeline needn't note the refusal.
        request.on_refusal = None
        if request.answer is None:
            self._connection.wait(request)
        error = request.error
        if error is not None:
            pipeline = self._open_pipeline()
            if pipeline is not None:
                # It was noted if the reply had come before this call.
                pipeline._stretch.drop(request)
            raise error

    def _release_forgotten(self) -> None:
        """Releases the objects that Python has freed. After an interruption it may release some
        again; the server refuses the second request. A call in a signal's handler leaves them to
        the call that it interrupts, which may have asked for one of them."""
        thread = threading.get_ident()
        left = [name for name, maker in list(self._unclaimed.items()) if maker == thread]
        if is_interrupted(self, None if left else self._releasing):
            return
        for name in left:
            self._release_unseen(name)
            self._unclaimed.pop(name, None)
        with self._releasing:
            while self._dead:
                name = self._dead[0].name
                self._release_unseen(name)
                self._alive.pop(name, None)
                self._dead.popleft()

    def _release_unseen(self, name: int) -> None:
        frame = wire.release(self._number, name)
        self._used.release(name)
        self._connection.send(Request("release what Python forgot", self._number, frame[6]),
                              [frame])

    # ---- its end

    @property
    def closed(self) -> bool:
        """Whether the context was closed, or its server or its connection has ended."""
        return self._why_closed is not None or self._connection.fault is not None

    @property
    def _why_closed(self) -> Optional[str]:
        return "the context was closed" if self._is_closed else self._server._ended_by

    def close(self) -> None:
        """
        Ends the context with all of its objects. Does nothing if the context was closed before, or
        if the server is known to be gone. After an interruption it may be called again.
        """
        self._settle()
        if self._why_closed is not None:
            return
        self._pipeline = None
        if self._connection.fault is not None:
            self._end(False)
            return
        try:
            self._change("release the context", wire.release_context,
                         note=partial(self._end, True))
        except NestedCall:
            # Nothing was sent.
            raise
        except FeqyldanError:
            self._end(False)
            raise

    def _end(self, is_released: bool) -> None:
        """Notes that the context has ended, and whether the server has released it. Only the first
        call counts; after an interruption there may be another one."""
        self._server._give_back(self, is_released)
        self._is_closed = True

    def _close_within(self, thing: Any, error: Optional[BaseException]) -> None:
        """
        Closes an object, or this context, at the end of its `with`. An error within the `with`
        isn't replaced by an error of the closing. After an interruption, such as KeyboardInterrupt,
        nothing is closed, because closing waits for a reply.
        """
        if error is not None and not isinstance(error, ENDS):
            return
        if isinstance(error, GeneratorExit) and not may_send(self._server):
            # An object of the generator is released when Python frees it.
            if thing is self:
                self._server._leave(self)
            return
        try:
            thing.close()
        except FeqyldanError:
            if error is None:
                raise

    def __enter__(self) -> Context:
        return self

    def __exit__(self, kind: Optional[Type[BaseException]], error: Optional[BaseException],
                 trace: Optional[TracebackType]) -> None:
        self._close_within(self, error)

    async def run(self, function: Callable[..., Value], *arguments: Any) -> Value:
        """Runs a function that uses this context in a thread, and awaits it, so that other tasks of
        the event loop go on. Only one task may use a context at a time. A StopIteration, as of
        next() without a default, becomes a RuntimeError."""
        loop = asyncio.get_running_loop()
        # A future can't hold StopIteration: whoever awaits it would wait forever. So it ends a list
        # here. No frame of this package is added, see may_send().
        call_all: Callable[[Iterator[Value]], List[Value]] = list
        results = await loop.run_in_executor(None, call_all, starmap(function, [arguments]))
        if not results:
            raise RuntimeError("the function raised StopIteration, which can't be awaited: give "
                               "next() a default, as in context.run(next, frames, None)")
        return results[0]

    async def __aenter__(self) -> Context:
        return self

    async def __aexit__(self, kind: Optional[Type[BaseException]], error: Optional[BaseException],
                        trace: Optional[TracebackType]) -> None:
        await self.run(self.__exit__, kind, error, trace)

    def __repr__(self) -> str:
        return f"<context of client {self._number}{', closed' if self.closed else ''}>"


@contextlib.contextmanager
def closed_if_refused(image: Image) -> Iterator[None]:
    """Closes an image that couldn't be written. Python frees it only later, since the error refers
    to it."""
    try:
        yield
    except FeqyldanError:
        image.close()
        raise


def may_send(server: Server) -> bool:
    """
    Returns whether a generator that is closed in this thread may send requests to a server.

    The garbage collector closes generators at any moment: within a call of this package, which may
    have sent half a request; after it has closed the pipes of a server that it frees too; and at
    the end of the program, when other threads have stopped, maybe in a call.
    """
    if sys.is_finalizing() or server not in HELD:
        return False
    frame = calling_frame().f_back
    while frame is not None and frame.f_globals.get("__package__") != __package__:
        frame = frame.f_back
    return frame is None


_AN_OUTPUT = ("a threshold's true or false value", BYTE,
              PARAMETER_RANGES["threshold.true_value"].whole)


def two_limits(between: Any) -> Tuple[Any, Any]:
    """Returns the two limits of `between`. Raises TypeError for anything else."""
    try:
        lower, upper = between
    except (*NO_SEQUENCE, ValueError):
        raise TypeError(f"between must be two limits, (lower, upper), not {between!r}") from None
    return lower, upper


def rows_of_kernel(coefficients: Rows) -> Tuple[Tuple[int, ...], ...]:
    """Returns the coefficients of a convolution, row by row. Raises TypeError or ValueError unless
    they are whole numbers in rows of the same length."""
    try:
        # The rows of a memoryview can't be had one by one.
        told: Any = coefficients
        given = [list(row) for row in (told.tolist() if isinstance(told, memoryview) else told)]
    except (TypeError, NotImplementedError):
        raise TypeError("the coefficients of a convolution must be rows of numbers, as [[1, 2, 1], "
                        f"[2, 4, 2], [1, 2, 1]], not {coefficients!r}") from None
    rows = tuple(tuple(map(coefficient_of, row)) for row in given)
    if any(len(row) != len(rows[0]) for row in rows):
        raise ValueError("a convolution must have rows of the same length, not "
                         f"{lengths_in_words(rows)}")
    return rows


def coefficient_of(value: Any) -> int:
    """Returns a coefficient of a convolution as an int. Raises TypeError or ValueError if it isn't
    a whole number from -32768 to 32767."""
    try:
        return within(value, "a coefficient of a convolution", SIGNED,
                      PARAMETER_RANGES["convolution.coefficient"].whole)
    except TypeError as error:
        raise TypeError(f"{error}: multiply all coefficients by a power of 2, round them, and give "
                        "that power as the scale, as in context.convolution("
                        "(256 * kernel).round().astype(int), scale=256)") from None
