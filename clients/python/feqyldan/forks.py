"""
Closes connections in the child of a fork, as multiprocessing may make it. The child has a copy of
each connection, but the replies belong to the parent. Closing the copies leaves one reader for each
reply, and lets a server's input end when the parent ends.
"""

from __future__ import annotations

import os
import threading
import weakref
from typing import Iterator, Set

# Why a server can't be used in the child.
FORKED = "its server was opened before this process was forked: open a server in this process"


class Forked:
    """The base class of things that are closed in the child of a fork."""

    __slots__ = ()

    def _lose(self) -> None:
        """Closes the child's copies of the parent's connections, and sends nothing to the server.
        No other thread runs meanwhile."""
        raise NotImplementedError


class Held:
    """The things that Python hasn't freed yet. The callbacks are in C, unlike those of a WeakSet,
    so no interruption is lost in them."""

    def __init__(self) -> None:
        self._references: Set[weakref.ref[Forked]] = set()

    def add(self, thing: Forked) -> None:
        self._references.add(weakref.ref(thing, self._references.discard))

    def __contains__(self, thing: Forked) -> bool:
        return weakref.ref(thing) in self._references

    def __iter__(self) -> Iterator[Forked]:
        things = (reference() for reference in list(self._references))
        return (thing for thing in things if thing is not None)


# Held from the opening of a pipe or a socket until its owner is in HELD.
OPENING = threading.RLock()
HELD = Held()


def _in_child() -> None:
    try:
        for thing in HELD:
            thing._lose()
    finally:
        OPENING.release()


os.register_at_fork(before=OPENING.acquire, after_in_parent=OPENING.release,
                    after_in_child=_in_child)
