"""
Runs graphs on a cluster of dask.distributed: each worker process has a server of its own.

A server starts when the first picture reaches its worker. It ends with the worker, however that
ends, because the worker's end closes the pipe that is the server's input.
"""

from __future__ import annotations

import socket
import threading
import uuid
from collections import OrderedDict
from typing import TYPE_CHECKING, Any, Callable, Dict, Iterable, List, NamedTuple, Optional, Tuple

from .context import Context
from .errors import FeqyldanError, ServerEnded
from .graphs import Graph, kept_by
from .images import AnyImage
from .log import LOG
from .samples import array_from, is_array, of_two_sides, rows_in, samples_of
from .server import Server
from .streams import look_at_nodes

if TYPE_CHECKING:
    from distributed import Client, Future

Build = Callable[[Context, int, int], Tuple[Graph, AnyImage, AnyImage]]
# The most idle graphs that a worker keeps for further pictures, each in a context of its own.
IDLE_GRAPHS = 8


def map_pictures(client: Client, graph: Build, pictures: Iterable[Any], *,
                 program: Optional[str] = None, quota: Optional[int] = None,
                 work: Optional[int] = None, retries: int = 0, **options: Any) -> List[Future]:
    """
    Runs a graph on each picture somewhere on the cluster. Returns a future for each, in the order
    of the pictures, as Client.map does: client.gather(futures) has the outputs,
    distributed.as_completed(futures) yields each when it has come.

        def edges(context, width, height):
            camera = context.image(vx.U8, width, height)
            out = context.image(vx.U8, width, height)
            graph = context.graph()
            smooth = graph.virtual_image()
            graph.gaussian3x3(camera, smooth)
            graph.absdiff(camera, smooth, out)
            return graph, camera, out

        outputs = client.gather(map_pictures(client, edges, pictures, program="/usr/bin/vx_main"))

    `graph` is a function, because functions can be sent to workers and objects of a context can't.
    It is called as graph(context, width, height), in samples, and returns the graph, the image that
    each picture is written to, and the image that is read after the run. A worker calls it for each
    size, and again for each further graph that has to run at the same time. So each call has to
    create its own objects, in the context that it is given. A worker may reuse what the function
    returned. Objects that no node uses are dropped when the function returns. A graph with a delay
    or with sums keeps something from one picture to the next, so it can't be spread over servers:
    its pictures fail with ValueError.

    `pictures` are NumPy arrays of shape (height, width), rows of numbers, or futures of them. The
    picture of a future never passes through the client. Other pictures are sent with their task.
    The scheduler keeps each until its future is dropped, so that another worker can use it if the
    first one ends. An output is a NumPy array, or rows of numbers on a worker without NumPy.

    `program` is the path of vx_main on the workers; without it each worker finds the program as
    Server does. `quota` and `work` are those of Server, `options` those of Client.map.

    If a worker ends before its outputs were gathered, dask runs their tasks elsewhere, up to the
    cluster's limit (distributed.scheduler.allowed-failures); a future is one output, however often
    it ran. An error on a worker is the future's exception: a refusal, or ServerEnded, after which
    the next picture gets a new server. `retries` is how often dask retries a picture after such an
    error. One or two are right if servers may be killed: all pictures on that server fail with
    ServerEnded. A refusal would be the same each time.
    """
    if not callable(graph):
        raise TypeError("the graph must be a function of a context, a width and a height, not "
                        f"{graph!r}")
    if getattr(pictures, "ndim", 0) == 2:
        raise TypeError("map_pictures takes several pictures, and this is one array of shape "
                        f"{getattr(pictures, 'shape')}: pass [picture]")
    job = Job(uuid.uuid4().hex, graph, program, quota, work)
    send: Callable[..., List[Future]] = client.map
    # Impure, since equal pictures would share one future.
    return send(job.run, [carried(picture) for picture in pictures],
                **{"pure": False, "retries": retries, **options})


class Rows:
    """Rows of numbers in a task. In a plain list dask would look for futures among the numbers."""

    def __init__(self, rows: Any) -> None:
        self.rows = rows


def carried(picture: Any) -> Any:
    """Returns a picture in the form in which it is sent to a worker."""
    return Rows(picture) if isinstance(picture, (list, tuple)) else picture


class Line(NamedTuple):
    """A graph that a job's function has built, in a context of its own."""

    context: Context
    graph: Graph
    source: AnyImage
    target: AnyImage

    def run(self, picture: Any) -> Any:
        self.source.write(picture)
        self.graph.process()
        output = self.target.read()
        # Without NumPy the output is a memoryview, which can't be sent.
        return output if is_array(output) else output.tolist()


def line_of(context: Context, built: Any) -> Line:
    """Returns the line of what a job's function has built. Raises TypeError if that isn't a graph
    and two images, InvalidScope if they are of another context, and ValueError if the graph doesn't
    use them, overwrites its input, or needs every picture."""
    if not (isinstance(built, tuple) and len(built) == 3 and isinstance(built[0], Graph)
            and isinstance(built[1], AnyImage) and isinstance(built[2], AnyImage)):
        raise TypeError("the function that builds the graph must return a tuple of the graph, its "
                        f"input image and its output image, not {built!r}")
    graph, source, target = built
    # A function that kept what it made for another context would give two threads one graph.
    context._look_at("map_pictures", graph, source, target)
    look_at_nodes(graph, source, [target])
    kept = kept_by(graph)
    if kept:
        raise ValueError(f"{graph} keeps {kept} from one picture to the next, and each worker gets "
                         "only some of the pictures: run it on one server by graph.stream()")
    return Line(context, graph, source, target)


class WorkerServer:
    """The server of a worker, and the idle graphs on it."""

    def __init__(self, server: Server) -> None:
        self.server = server
        self._lock = threading.Lock()
        # The line that has been idle for the longest time is first.
        self._idle: OrderedDict[Line, Tuple[str, int, int]] = OrderedDict()

    def take(self, key: Tuple[str, int, int], build: Build) -> Line:
        """Returns an idle line for a job's pictures of this width and height, or builds one."""
        with self._lock:
            line = next((line for line, its_key in self._idle.items() if its_key == key), None)
            if line is not None:
                del self._idle[line]
                return line
        context = self.server.context()
        try:
            return line_of(context, build(context, *key[1:]))
        except BaseException:
            close(context)
            raise

    def give_back(self, line: Line, key: Tuple[str, int, int]) -> None:
        with self._lock:
            self._idle[line] = key
            oldest = self._idle.popitem(last=False)[0] if len(self._idle) > IDLE_GRAPHS else None
        if oldest is not None:
            close(oldest.context)


class Job(NamedTuple):
    """The data of a task without its picture. `number` identifies the call of map_pictures."""

    number: str
    build: Build
    program: Optional[str]
    quota: Optional[int]
    work: Optional[int]

    def run(self, picture: Any) -> Any:
        """Returns the output for a picture. Runs on a worker, in one of its threads."""
        picture = picture.rows if isinstance(picture, Rows) else picture
        height, width = shape_of(picture)
        key = self.number, width, height
        worker = worker_server_of(self)
        line = None
        try:
            line = worker.take(key, self.build)
            output = line.run(picture)
        except BaseException as error:
            if line is not None:
                close(line.context)
            if isinstance(error, ServerEnded):
                drop(worker)
            raise
        worker.give_back(line, key)
        return output


def shape_of(picture: Any) -> Tuple[int, int]:
    """Returns the height and the width of a picture. Raises BadPicture if the value is no
    picture."""
    if is_array(picture):
        height, width = of_two_sides(array_from(picture)).shape
    elif isinstance(picture, (list, tuple)):
        # The samples are of the format of the graph's input, which isn't built yet.
        rows = rows_in(picture)
        height, width = len(rows), len(rows[0])
    else:
        _, width, height, _ = samples_of(picture)
    return height, width


# The servers of this process, by program, quota and work bytes.
SERVERS: Dict[Tuple[Optional[str], Optional[int], Optional[int]], WorkerServer] = {}
SERVERS_LOCK = threading.Lock()


def worker_server_of(job: Job) -> WorkerServer:
    """Returns this process's server for a job, and starts one if there is none. If the process was
    forked from one with a server, that server is closed here, and a new one starts."""
    with SERVERS_LOCK:
        key = job.program, job.quota, job.work
        worker = SERVERS.get(key)
        if worker is None or worker.server.closed:
            worker = SERVERS[key] = WorkerServer(server_of(job))
        return worker


def server_of(job: Job) -> Server:
    """Starts a server. An error names the worker's machine, because its message may be read on
    another machine."""
    try:
        return Server(job.program, quota=job.quota, work=job.work)
    except OSError as error:
        where = f"on the worker's machine {socket.gethostname()}"
        if error.errno is None:
            raise type(error)(f"{where}: {error}") from None
        raise type(error)(error.errno, f"{error.strerror}, {where}", error.filename) from None


def drop(worker: WorkerServer) -> None:
    """
    Drops a server that has ended: the next picture starts another server. The ended one isn't
    closed here, so that other threads that use it learn why it ended.
    """
    LOG.warning("%r has ended: the next picture starts another server", worker.server)
    with SERVERS_LOCK:
        for key in [key for key, other in SERVERS.items() if other is worker]:
            del SERVERS[key]


def close(context: Context) -> None:
    """Closes a context, even if its server has ended."""
    try:
        context.close()
    except FeqyldanError:
        pass
