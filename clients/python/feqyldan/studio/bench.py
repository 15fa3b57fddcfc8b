"""
Runs a graph that is being edited, and returns the samples of each of its images.

The server and what it holds are kept from run to run. Nodes whose outputs are still right from the
last run don't run again. A run of a graph with sums or delays goes on to later pictures.
"""

from __future__ import annotations

import contextlib
import gc
import threading
import time
from collections import OrderedDict
from typing import Any, Dict, Iterator, List, NamedTuple, Optional, Sequence, Tuple

from ..context import Context
from ..errors import FeqyldanError, NoResources, Refused
from ..files import load
from ..graph_drafts import base_of
from ..graph_files import GraphFileError, Place, input_of
from ..images import AnyImage
from ..server import Server
from ..storage import cause_of
from .drafts import Blobs, Pool, PooledDraft, remembers, state_of
from .runs import RememberingRun, Run, Shown

# The bytes of the pictures that are kept in memory.
FRAME_BYTES = 2**28
# The bytes that the images of the server may take.
QUOTA = 2**31


class Outcome(NamedTuple):
    """The faults, the nodes that wait for an object or a node at fault, what each object holds,
    whether that depends on earlier pictures, and the seconds of each step."""

    faults: List[GraphFileError]
    waiting: Dict[int, Place]
    shown: Dict[str, Shown]
    remembers: bool
    seconds: Dict[str, float]


class Bench:
    """A server that runs the graph, and what it keeps from run to run. It starts when it is needed,
    and again after it has ended."""

    def __init__(self, path: str, pictures: Sequence[str], blobs: Blobs) -> None:
        self.path, self.pictures, self._blobs = path, list(pictures), blobs
        self._ends, self._turn = contextlib.ExitStack(), threading.RLock()
        self._context: Optional[Context] = None
        self._frames: OrderedDict[Tuple[str, Any], Any] = OrderedDict()
        self._forget()

    def _forget(self) -> None:
        self._pool = Pool()
        # The object that holds the samples of each name, and the key of all that they depend on.
        self._held: Dict[str, Tuple[Any, str]] = {}
        self.shown: Dict[str, Shown] = {}
        # The last run, if it can go on to later pictures.
        self._kept: Optional[RememberingRun] = None

    def close(self) -> None:
        """Ends the server. The next run starts another one."""
        self._context = None
        self._forget()
        with contextlib.suppress(FeqyldanError):
            self._ends.close()

    @contextlib.contextmanager
    def opened(self) -> Iterator[Context]:
        """Yields the server's context to one thread at a time. After an error that isn't a refusal
        the server ends."""
        with self._turn:
            if self._context is None:
                self._context = self._ends.enter_context(
                    self._ends.enter_context(Server(quota=QUOTA)).context())
            try:
                yield self._context
            except (Refused, GraphFileError):
                self.invalidate()
                raise
            except BaseException:
                self.close()
                raise

    def run(self, contents: Dict[str, Any], at: int, only: Optional[str] = None) -> Outcome:
        """Runs a file's contents on the picture at an index. Reads all objects, or `only` one."""
        with self._turn:
            try:
                outcome = self._run(contents, at, only)
                if not any(fault.code == "NO_RESOURCES" and fault.object
                           for fault in outcome.faults):
                    return outcome
            except NoResources:
                pass
            # Objects of earlier runs may have used up the quota. Those of a pipeline are in a cycle
            # of references with its requests.
            self._forget()
            gc.collect()
            return self._run(contents, at, only)

    def _run(self, contents: Dict[str, Any], at: int, only: Optional[str]) -> Outcome:
        with self.opened() as context:
            begin = time.perf_counter()
            run = self._run_for(context, contents, at)
            judged = time.perf_counter()
            shown = run.shown(only)
            end = time.perf_counter()
            if only is None:
                self.shown = shown
            if isinstance(run, RememberingRun):
                self._kept = run
            self._held = {name: held for name, held in self._held.items()
                          if base_of(name) in contents["objects"]}
            self._pool.trim(len(contents["objects"]))
        return Outcome(run.faults, run.waiting, shown, run.draft.remembers,
                       {"verdict": judged - begin, "graph": end - judged})

    def _run_for(self, context: Context, contents: Dict[str, Any], at: int) -> Run:
        """Returns a new run, or the kept one if it can go on to this picture."""
        kept, self._kept = self._kept, None
        if kept is not None and kept.go_on(contents, at):
            return kept
        # The server's memory needn't suffice for the objects of both runs.
        del kept
        return (RememberingRun if remembers(contents) else Run)(self, context, contents, at)

    def state(self, at: int) -> Any:
        """Returns the state of the picture's file at an index; None without pictures."""
        return state_of(self.pictures[at]) if self.pictures else None

    def frame(self, at: int) -> Any:
        """Returns the picture at an index, as its file is now."""
        path, state = self.pictures[at], self.state(at)
        if (path, state) not in self._frames:
            self._frames[path, state] = load(path)
        self._frames.move_to_end((path, state))
        while len(self._frames) > 1 and sum(frame.nbytes for frame in self._frames.values()) > (
                FRAME_BYTES):
            self._frames.popitem(last=False)
        return self._frames[path, state]

    def put(self, image: AnyImage, name: str, at: int, key: str) -> None:
        """Writes the picture at an index to the input."""
        self.drop(name)
        image.write(self.frame(at))
        self.note(name, image, key)

    def invalidate(self) -> None:
        """Lets all nodes run again."""
        self._held.clear()

    def holds(self, name: str, thing: Any, key: str) -> bool:
        return self._held.get(name) == (thing, key)

    def note(self, name: str, thing: Any, key: str) -> None:
        self._held[name] = thing, key

    def drop(self, name: str) -> None:
        self._held.pop(name, None)

    def draft(self, context: Context, contents: Dict[str, Any]) -> PooledDraft:
        return PooledDraft(context, self.path, contents, self._pool, self._blobs)

    def double(self, context: Context, name: str, cell: Any) -> AnyImage:
        """Returns the image that a virtual image's samples are in."""
        image: AnyImage = self._pool.get(
            ("virtual", name), [int(cell.fmt), cell.width, cell.height],
            lambda: context.image(cell.fmt, cell.width, cell.height, name=name))
        return image


def fault_for_run(path: str) -> str:
    """Returns why `python3 -m feqyldan run` refuses a graph file, also if it finds no server; empty
    if it doesn't."""
    try:
        with Server() as server, server.context() as context:
            station = context.load_graph(path)
            station.graph.verify(warn=False)
            input_of(station, path)
    except (FeqyldanError, OSError, ValueError) as error:
        return cause_of(error)
    return ""
