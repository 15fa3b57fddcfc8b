"""Streams of pictures through graphs: the graph runs for each picture, and its outputs are read."""

from __future__ import annotations

import select
from collections import deque
from typing import (
    TYPE_CHECKING, Any, Deque, Iterable, Iterator, NamedTuple, Optional, Sequence, Tuple, TypeVar,
    Union)

from . import wire
from .connection import Request
from .errors import FeqyldanError, InvalidReference, NotAPicture, Refused, WrongPicture
from .graphs import Graph, VirtualImage, kept_by, name_of
from .images import AnyImage, Slot
from .log import LOG
from .objects import Distribution, MinMax, Named
from .pipeline import Pipeline, Result
from .samples import Samples, is_array, samples_of
from .sources import source_of
from .verdicts import ADDING
from .whole import NO_SEQUENCE, whole

if TYPE_CHECKING:
    from .context import Context

Frame = TypeVar("Frame")


class Station(NamedTuple):
    """A graph, the image that gets the frames, and the objects that are read after each run: an
    image, a distribution, extremes, or several of them."""

    graph: Graph
    camera: AnyImage
    out: Union[AnyImage, Distribution, MinMax, Sequence[Union[AnyImage, Distribution, MinMax]]]


def stream(frames: Iterable[Frame], stations: Sequence[Station],
           ahead: int = 2) -> Iterator[Tuple[Frame, Any]]:
    """
    Yields each frame with the results of a graph, as Graph.stream() does, in the order of the
    frames. The stations take turns: if each has a server of its own, they compute frames at the
    same time. Besides one frame for each station, up to `ahead` frames are sent before the first
    result has come. A graph with a delay or with sums needs all frames, so it must be the only one.
    """
    if whole(ahead, "ahead, the number of frames sent ahead,") < 0:
        raise ValueError(f"ahead, the number of frames sent ahead, must be 0 or more, not {ahead}")
    turns = [Turn(station) for station in stations_in(stations)]
    look_at_frames(frames, turns[0].camera)
    return _run(frames, turns, ahead + len(turns))


def stations_in(given: Any) -> Sequence[Station]:
    """Returns the stations of a list. Raises TypeError or ValueError for anything else."""
    if isinstance(given, (Station, Graph, memoryview)) or not hasattr(given, "__iter__"):
        raise TypeError("the stations of a stream must be in a list, as in vx.stream(frames, "
                        f"[vx.Station(graph, camera, out)]), not {given!r}")
    stations = [station_of(one) for one in given]
    if not stations:
        raise ValueError("a stream needs at least one station, and the list is empty")
    return stations


def station_of(given: Any) -> Station:
    """Returns a station, given one or the tuple of its three parts."""
    if isinstance(given, tuple) and len(given) == 3 and isinstance(given[0], Graph):
        return Station(*given)
    raise TypeError(f"a station must be vx.Station(graph, camera, out), not {given!r}")


def look_at_frames(frames: Any, camera: AnyImage) -> None:
    """Raises TypeError for a path and for a value that isn't iterable, and BadPicture for a single
    picture, whose rows would be used as frames."""
    if isinstance(frames, memoryview) and frames.ndim > 1:
        raise TypeError("the frames of a stream must be pictures in a list, and this is a "
                        f"memoryview of shape {frames.shape}: a picture is [picture]")
    if isinstance(frames, str) or not (hasattr(frames, "__iter__")
                                       or hasattr(frames, "__getitem__")):
        raise TypeError("the frames of a stream must be pictures in a list, or from an iterator, "
                        f"not {frames!r}")
    shape: Tuple[int, ...] = getattr(frames, "shape", ()) if is_array(frames) else ()
    if len(shape) == 2 and shape[1] != camera.size:
        raise WrongPicture("the frames of a stream are several pictures, and this is one array of "
                           f"shape {shape}: pass [picture], or an array of shape (frames, height, "
                           "width)")


def _run(frames: Iterable[Frame], turns: Sequence[Turn],
         window: int) -> Iterator[Tuple[Frame, Any]]:
    sent: Deque[Sent] = deque()
    number = 0
    error: Optional[BaseException] = None
    for turn in turns:
        turn.look_at_graph(is_alone=len(turns) == 1)
    with source_of(frames, [turn.context for turn in turns]) as source:
        while sent or not source.has_ended:
            if sent and sent[0].is_there:
                source.let_go(sent[0].frame)
                first = sent.popleft()
                yield first.frame, value_of(first, sent)
            elif source.has_frame and len(sent) < window:
                number += 1
                try:
                    sent.append(turns[(number - 1) % len(turns)].send(source.take(), number))
                except Exception as fault:
                    # Raised after the results of the earlier frames.
                    LOG.warning("the stream ends at frame %d: %s", number, fault)
                    error = fault
                    source.close()
            else:
                _wait(sent, None if source.has_ended or len(sent) >= window else source.descriptor)
    error = error or source.error
    if error is not None:
        raise error


def _wait(sent: Sequence[Sent], wake: Optional[int]) -> None:
    """Waits for the reply to the oldest frame, or until a frame has come."""
    if sent:
        sent[0].results[-1]._wait(wake)
    elif wake is not None:
        poll = select.poll()
        poll.register(wake, select.POLLIN)
        poll.poll()


class FramePipeline(Pipeline):
    """The requests of one frame: a refusal is raised by the results of that frame alone."""

    __slots__ = ("_number",)

    def __init__(self, context: Context, number: int) -> None:
        super().__init__(context)
        self._number = number
        # One system call sends all requests of the frame.
        self._is_followed = True

    @property
    def number(self) -> int:
        return self._number

    @property
    def has_run(self) -> bool:
        """Whether the graph has run. The replies to all requests must have come."""
        return all(request.op != wire.PROCESS_GRAPH for request in self._stretch.refused)

    def _take(self, request: Request) -> None:
        super()._take(request)
        request.is_ahead = True

    def _words(self) -> str:
        return f"frame {self._number} of the stream"


class Sent(NamedTuple):
    """A frame that was sent, and its requests."""

    frame: Any
    pipeline: FramePipeline
    results: Tuple[Result[Any], ...]
    is_single: bool

    @property
    def is_there(self) -> bool:
        return self.results[-1].is_there

    def value(self) -> Any:
        values = tuple(result.value() for result in self.results)
        return values[0] if self.is_single else values


def value_of(first: Sent, later: Iterable[Sent]) -> Any:
    """Returns the results of the oldest frame that was sent. A refusal says for which frames the
    graph has run: the server handles requests that were sent ahead after a refused one too."""
    try:
        return first.value()
    except Refused as error:
        number = first.pipeline.number
        ran = [str(sent.pipeline.number) for sent in (first, *later) if has_run(sent)]
        words = ran_before(number)
        if ran:
            words += (f" It also ran for what had been sent already: "
                      f"{'frames' if len(ran) > 1 else 'frame'} {' and '.join(ran)}.")
        raise error.in_words(more=words) from None


def has_run(sent: Sent) -> bool:
    """Waits for the replies of a frame, and returns whether the graph has run for it."""
    try:
        sent.results[-1]._wait()
    except FeqyldanError:
        return False
    return sent.pipeline.has_run


def ran_before(number: int) -> str:
    """Returns in words for which frames the graph has run, if it hasn't for the frame with this
    number."""
    if number < 3:
        return f"The graph ran for {'no frame' if number == 1 else 'frame 1 only'}."
    return f"The graph ran for frames 1 to {number - 1} only."


class Turn:
    """Sends the frames of a stream to one station."""

    def __init__(self, station: Station) -> None:
        graph, self._camera, out = station
        self._graph, self._context = graph, graph.context
        self._is_single = is_object(out)
        self._out = (out,) if self._is_single else several(out)
        self._context._look_at("a stream", self._camera, *self._out)
        look_at_camera(self._camera)
        for thing in self._out:
            look_at_output(thing)
        # A slot is closed with its delay.
        self._used = [thing.delay if isinstance(thing, Slot) else thing
                      for thing in (graph, self._camera, *self._out)]

    @property
    def context(self) -> Context:
        return self._context

    @property
    def camera(self) -> AnyImage:
        return self._camera

    def look_at_graph(self, is_alone: bool) -> None:
        """Raises ValueError if the graph doesn't use the objects of the stream, or if it can't
        share the frames with other stations."""
        look_at_nodes(self._graph, self._camera, self._out)
        kept = "" if is_alone else kept_by(self._graph)
        if kept:
            raise ValueError(f"{self._graph} keeps {kept} from one frame to the next, so it can't "
                             "share the frames with other stations: give the stream one station")

    def send(self, frame: Any, number: int) -> Sent:
        """Sends all requests of a frame. Raises BadPicture if the frame isn't a picture for the
        camera, and InvalidReference if an object was closed. Then nothing was sent, because the
        server would run the graph on the samples of the frame before."""
        pipeline = FramePipeline(self._context, number)
        samples = self._samples_of(frame, pipeline)
        self._context._enter_pipeline(pipeline)
        try:
            self._camera._write_samples(samples)
            self._graph.process()
            results = [pipeline.read(thing) for thing in self._out[:-1]]
            pipeline._is_followed = False
            results.append(pipeline.read(self._out[-1]))
        finally:
            self._context._pipeline = None
            # Something is left unsent only after an exception.
            self._context._connection.own_unsent()
        return Sent(frame, pipeline, tuple(results), self._is_single)

    def _samples_of(self, frame: Any, pipeline: FramePipeline) -> Samples:
        number, place = pipeline.number, str(pipeline._place())
        for thing in self._used:
            if thing.closed and not self._context.closed:
                raise InvalidReference("run the stream", None, "Close it after the stream.", place,
                                       f"It uses {thing}. {ran_before(number)}")
        try:
            samples = samples_of(frame, self._camera._described)
            self._camera._look_at_samples(samples, place)
        except (NotAPicture, WrongPicture) as fault:
            raise type(fault)(f"frame {number} of the stream: {fault}. "
                              f"{ran_before(number)}") from None
        except Refused as refused:
            raise refused.in_words(more=ran_before(number)) from None
        return samples


def is_object(out: Any) -> bool:
    """Returns whether a value is a single object, or None, and not a sequence of objects."""
    return out is None or isinstance(out, (AnyImage, Named))


def several(out: Any) -> Tuple[Any, ...]:
    """Returns the objects of a sequence. Raises TypeError for another value, and
    ValueError for an empty sequence."""
    try:
        things = tuple(out)
    except NO_SEQUENCE:
        raise TypeError(f"{_READ}, or a list of them, not {type(out).__name__}") from None
    if not things:
        raise ValueError("a stream must read at least one object after each run, and the list is "
                         "empty")
    return things


def look_at_camera(camera: Any) -> None:
    """Raises TypeError or OptimizedAway if frames can't be written to the camera."""
    if isinstance(camera, VirtualImage):
        camera.write(None)
    if not isinstance(camera, AnyImage):
        raise TypeError("a stream writes frames to an image or to a slot of a delay, not to "
                        f"{type(camera).__name__}")


def look_at_output(thing: Any) -> None:
    """Raises TypeError or OptimizedAway if an output can't be read after each run."""
    if isinstance(thing, VirtualImage):
        thing.read()
    if not isinstance(thing, (AnyImage, Distribution, MinMax)):
        raise TypeError(f"{_READ}, not {type(thing).__name__}")


def look_at_nodes(graph: Graph, camera: AnyImage, out: Sequence[Any]) -> None:
    """Raises ValueError if no node reads the camera, if a node overwrites it, if an output is used
    by no node, or if no node writes an output: results would have no meaning."""
    if graph.closed and not graph.context.closed:
        raise InvalidReference("run the stream", None, "Close it after the stream.", "",
                               f"It uses {graph}.")
    read, written = graph._reads | graph._aging, graph._writes
    if name_of(camera) not in read:
        raise ValueError(f"the frames of a stream go to {camera}, which no node of {graph} reads: "
                         "are camera and out in the order of stream(frames, camera, out)?")
    for member in graph._members:
        if member.function not in ADDING and member.writes(camera._reference):
            raise ValueError(f"the frames of a stream go to {camera}, and {member}, writes over "
                             "them: give the stream an image that no node writes")
    unused = [thing for thing in out if name_of(thing) not in read | written]
    if unused or not any(name_of(thing) in written for thing in out):
        raise ValueError(f"a stream reads {(unused or out)[0]}, which no node of {graph} writes: "
                         "are camera and out in the order of stream(frames, camera, out)?")


_READ = "a stream reads images, distributions and extremes"
