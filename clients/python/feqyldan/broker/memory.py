"""The memory of the broker's process: the part that its servers may take, and the reserve."""

import ctypes
import mmap
import resource
import threading
from contextlib import suppress
from typing import Callable, Dict, List, Optional, TypeVar, Union

from ..service.lines import Unusable
from ..service.options import part_of_memory

Made = TypeVar("Made")
# A long frame or reply has pages of its own, which the system provides as they are written.
Memory = Union[bytearray, mmap.mmap]
# The default share of the machine's memory for the broker with its servers, and the largest part of
# it for the reserve.
MEMORY_PART, RESERVE_PART = 3 / 4, 1 / 4
# The least bytes of memory that the servers have to be left.
LEAST_LEFT = 2**25
# The most bytes of pages that are free.
MOST_FREE = 2**24
# Bytes that Python keeps for its small objects: at least, for each connection, and at most. An
# arena of its allocator has at least ARENA bytes, and objects of OBJECT bytes are small ones.
KEPT, KEPT_EACH, MOST_KEPT, ARENA, OBJECT = 2**22, 4096, 2**26, 2**18, 400
# The parameter of mallopt() for the number of heaps.
M_ARENA_MAX = -8


class Reserve:
    """A part of this process's memory that no server gets, since the limit includes it only in a
    `with`. It is for frames and replies, and for the broker's own work, where these find no other
    memory."""

    def __init__(self) -> None:
        self.limit = self.bytes = 0
        self.users, self.lock = 0, threading.Lock()

    def begin(self, limit: int, size: int) -> None:
        """Limits the memory of the process, `size` bytes of which are the reserve."""
        self.limit, self.bytes = limit, size
        self.allow(limit - size)

    def allow(self, limit: int) -> None:
        if self.limit:
            hard = resource.getrlimit(resource.RLIMIT_AS)[1]
            resource.setrlimit(resource.RLIMIT_AS, (limit, hard))

    def __enter__(self) -> None:
        with self.lock:
            self.users += 1
            self.allow(self.limit)

    def __exit__(self, *_: object) -> None:
        with self.lock:
            self.users -= 1
            if not self.users:
                self.allow(self.limit - self.bytes)


RESERVE = Reserve()


def with_reserve(make: Callable[..., Made], *arguments: object) -> Made:
    """Returns what a function returns. If there is no memory for it, calls the function again with
    the reserve."""
    try:
        return make(*arguments)
    except MemoryError:
        with RESERVE:
            return make(*arguments)


class Pages:
    """Pages for long frames and replies. Those that were given back are used again, since new ones
    cost more time than to fill them. They have bytes of earlier frames, so each is filled before it
    is read."""

    def __init__(self) -> None:
        self.free: Dict[int, List[mmap.mmap]] = {}
        self.bytes, self.lock = 0, threading.Lock()

    def take(self, size: int) -> mmap.mmap:
        """Returns memory of this many bytes. Raises MemoryError if there is none."""
        with self.lock:
            if self.free.get(size):
                self.bytes -= size
                return self.free[size].pop()
        try:
            return mmap.mmap(-1, size, mmap.MAP_PRIVATE | mmap.MAP_ANONYMOUS)
        except OSError as error:
            self.drop()
            raise MemoryError from error

    def give(self, memory: object) -> None:
        """Takes memory back, if it is pages. The system gets those that there is no memory to
        note."""
        if isinstance(memory, mmap.mmap) and len(memory) <= MOST_FREE:
            if self.bytes + len(memory) > MOST_FREE:
                self.drop()
            with self.lock, suppress(MemoryError):
                self.free.setdefault(len(memory), []).append(memory)
                self.bytes += len(memory)

    def drop(self) -> None:
        with self.lock:
            self.free.clear()
            self.bytes = 0


PAGES = Pages()


def memory_for(size: int, largest: int) -> Memory:
    """Returns memory of this many bytes; pages if it has more than `largest`."""
    if size > largest:
        return with_reserve(PAGES.take, size)
    return with_reserve(bytearray, size)


def use_one_heap() -> None:
    """Lets all threads have one heap, so that one server can use what another one gives back."""
    with suppress(AttributeError):
        ctypes.CDLL(None).mallopt(M_ARENA_MAX, 1)


def limit_memory(asked: Optional[int], reserve: int) -> None:
    """Limits the address space of this process to the asked bytes, or to its hard limit if that is
    lower; 0 stands for the default. Raises Unusable if too few would be left for the servers."""
    hard = resource.getrlimit(resource.RLIMIT_AS)[1]
    asked = part_of_memory(MEMORY_PART) if asked == 0 else asked
    limits = [limit for limit in (asked, hard)
              if limit is not None and limit != resource.RLIM_INFINITY]
    if limits:
        limit = min(limits)
        reserve = min(reserve, int(limit * RESERVE_PART))
        with open("/proc/self/statm") as file:
            least = int(file.read().split()[0]) * resource.getpagesize() + LEAST_LEFT
        if limit - reserve < least:
            raise Unusable(f"{limit} bytes are too few for the broker and its servers: allow at "
                           f"least {reserve + least} (--memory), or start fewer servers "
                           "(--servers)")
        RESERVE.begin(limit, reserve)


def kept_for_python(connections: int) -> List[bytes]:
    """Returns objects for whose sake Python's allocator of small objects keeps the memory that it
    needs for these connections. So the images of clients can't take it."""
    count = min(KEPT + KEPT_EACH * connections, MOST_KEPT) // OBJECT
    return [bytes(OBJECT) for _ in range(count)][:: ARENA // 2 // OBJECT]
