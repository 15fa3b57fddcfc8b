"""Drafts of graphs for the studio, whose objects are kept from run to run."""

from __future__ import annotations

import hashlib
import json
import os
from collections import OrderedDict
from typing import Any, Callable, Dict, Tuple

from ..context import Context
from ..graph_drafts import Draft, outputs_of
from ..graphs import Graph
from ..verdicts import ADDING

# The fields of a graph file that may be long: the page gets a short word for them.
LONG_FIELDS = "samples", "entries"
LONG = 4000


def digest(value: Any) -> str:
    """Returns a short text that differs for different JSON values."""
    return hashlib.sha1(json.dumps(value, sort_keys=True).encode()).hexdigest()


def state_of(path: str) -> Any:
    """Returns what changes when a file is written anew; None if there is no such file."""
    try:
        found = os.stat(path)
    except (OSError, ValueError):
        # A file of a graph may name one as no file can be named, by a byte 0.
        return None
    return found.st_mtime_ns, found.st_ctime_ns, found.st_size, found.st_ino


def state_in(graph: str, described: Any) -> Any:
    """Returns the state of the picture file that an object of a graph file names; None if it names
    none."""
    file = described.get("file") if isinstance(described, dict) else None
    return state_of(os.path.join(os.path.dirname(graph), file)) if isinstance(file, str) else None


class Blobs:
    """The long fields of a graph file, which the page doesn't need. It gets {"kept": digest} in
    place of each, and of those that are JSON objects, which it couldn't tell from such a word."""

    def __init__(self) -> None:
        self._fields: Dict[str, Any] = {}

    def lightened(self, contents: Dict[str, Any]) -> Dict[str, Any]:
        """Returns a file's contents with a short word in place of each long field."""
        return self._each(contents, self._short)

    def whole(self, contents: Dict[str, Any]) -> Dict[str, Any]:
        """Returns a file's contents with all long fields. Raises KeyError for an unknown one."""
        return self._each(contents, self._long)

    def whole_object(self, described: Dict[str, Any]) -> Dict[str, Any]:
        return {field: self._long(value) if field in LONG_FIELDS else value
                for field, value in described.items()}

    def _each(self, contents: Dict[str, Any], change: Callable[[Any], Any]) -> Dict[str, Any]:
        objects = {name: {field: change(value) if field in LONG_FIELDS else value
                          for field, value in described.items()}
                   if isinstance(described, dict) else described
                   for name, described in contents["objects"].items()}
        return {**contents, "objects": objects}

    def _short(self, value: Any) -> Any:
        if not isinstance(value, dict) and len(json.dumps(value)) <= LONG:
            return value
        key = digest(value)
        self._fields[key] = value
        return {"kept": key}

    def _long(self, value: Any) -> Any:
        return self._fields[value["kept"]] if isinstance(value, dict) else value


class Pool:
    """The objects of the last runs: an object with the same role and description isn't created
    again."""

    def __init__(self) -> None:
        self._things: OrderedDict[Tuple[str, str, str], Any] = OrderedDict()

    def get(self, role: Tuple[str, str], described: Any, make: Callable[[], Any]) -> Any:
        key = *role, digest(described)
        if key not in self._things:
            self._things[key] = make()
        self._things.move_to_end(key)
        return self._things[key]

    def trim(self, used: int) -> None:
        """Releases the objects that were not used for long, given how many a graph uses."""
        while len(self._things) > 2 * used + 16:
            self._things.popitem(last=False)


def remembers(contents: Dict[str, Any]) -> bool:
    """Returns whether a file's graph has sums or a delay, which depend on earlier runs."""
    return any(isinstance(described, dict) and described.get("kind") == "delay"
               for described in contents["objects"].values()) or any(
        isinstance(node, dict) and str(node.get("function")) in ADDING
        for node in contents["nodes"])


def no_action(name: str, thing: Any) -> None:
    """Does nothing with an object."""


class PooledDraft(Draft):
    """A draft that takes objects from a pool. Each run of a graph with sums or a delay gets new
    ones, because the samples of the last run would add to it."""

    def __init__(self, context: Context, path: str, contents: Dict[str, Any], pool: Pool,
                 blobs: Blobs) -> None:
        super().__init__(context, path)
        self._contents, self._pool, self._blobs = contents, pool, blobs
        self._written = {name for node in contents["nodes"] for name in outputs_of(node).values()}
        self.remembers = remembers(contents)
        self._on_made: Callable[[str, Any], None] = no_action

    @property
    def graph(self) -> Graph:
        return self._graph

    def fill_with(self, on_made: Callable[[str, Any], None]) -> None:
        """Creates what has no fault. `on_made` is called with each object; its errors are faults of
        the object."""
        self._on_made = on_made
        try:
            self.fill(self._contents)
        finally:
            # Otherwise the caller and the draft would refer to each other, and Python would keep
            # their objects.
            self._on_made = no_action

    def _made(self, name: str, told: Any) -> Any:
        thing = self._kept(name, told)
        self._on_made(name, thing)
        return thing

    def _kept(self, name: str, told: Any) -> Any:
        def make() -> Any:
            return super(PooledDraft, self)._made(
                name, self._blobs.whole_object(told) if isinstance(told, dict) else told)

        kind = told.get("kind") if isinstance(told, dict) else None
        if kind == "virtual image" or self.remembers and self.is_changed(name):
            return make()
        # An image that nodes wrote isn't 0 any more when no node writes it.
        return self._pool.get(("written" if name in self._written else "", name),
                              [told, state_in(self._path, told)], make)

    def is_changed(self, name: str) -> bool:
        """Returns whether a run changes an object."""
        described = self._contents["objects"][name]
        return name in self._written or (
            isinstance(described, dict) and described.get("kind") == "delay")
