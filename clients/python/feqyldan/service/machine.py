"""The resources of the machine, and this program's limits."""

import contextlib
import os
import resource
import sys
from typing import Iterator, Optional

from .lines import Unusable

# Files for this program itself: its own sockets, and the connections that are answered once.
OWN_FILES = 256
# The control groups of the machine, and the file that says which of them this program is in.
GROUPS, OWN_GROUPS = "/sys/fs/cgroup", "/proc/self/cgroup"


def open_standard_files() -> None:
    """Opens /dev/null as each of the descriptors 0 to 2 that is closed. Otherwise a connection
    would get the number, and be read or written in place of a standard file."""
    for descriptor in range(3):
        try:
            os.fstat(descriptor)
        except OSError:
            os.set_inheritable(os.open(os.devnull, os.O_RDWR), True)
    # Python has none if the descriptor was closed.
    sys.stderr = sys.stderr or open(2, "w", closefd=False)


def processors() -> int:
    """Returns how many processors this program may use."""
    return len(os.sched_getaffinity(0))


def memory_bytes() -> int:
    """Returns the bytes of memory that this program may use: the machine's, or fewer if a control
    group allows fewer."""
    return min([os.sysconf("SC_PAGE_SIZE") * os.sysconf("SC_PHYS_PAGES"), *group_limits()])


def group_limits() -> Iterator[int]:
    """Yields the memory limits, in bytes, of this program's control groups and of the groups above
    them, of both versions."""
    try:
        with open(OWN_GROUPS, errors="surrogateescape") as file:
            groups = [line.rstrip("\n").split(":", 2) for line in file]
    except OSError:
        return
    for _, kinds, path in groups:
        if kinds == "" or "memory" in kinds.split(","):
            root, name = (GROUPS, "memory.max") if kinds == "" else (f"{GROUPS}/memory",
                                                                     "memory.limit_in_bytes")
            for folder in folders_up(path):
                limit = number_in(f"{root}{folder}/{name}")
                if limit is not None:
                    yield limit


def folders_up(path: str) -> Iterator[str]:
    """Yields a group's path, those of the groups above it, and the root, which is its own in a
    container."""
    while path.strip("/"):
        yield path
        path = os.path.dirname(path)
    yield ""


def number_in(path: str) -> Optional[int]:
    with contextlib.suppress(OSError, ValueError), open(path) as file:
        return int(file.read())
    return None


def raise_file_limit(whose: str, files: int) -> None:
    """Raises the limit on open files, so that `files` more can be open besides the program's own.
    Raises Unusable if the hard limit is lower."""
    wanted = files + OWN_FILES
    soft, hard = resource.getrlimit(resource.RLIMIT_NOFILE)
    if hard != resource.RLIM_INFINITY and hard < wanted:
        raise Unusable(f"{whose} need {wanted} open files, and {hard} are allowed: allow more "
                       "(ulimit -Hn), or lower --connections")
    if soft != resource.RLIM_INFINITY and soft < wanted:
        resource.setrlimit(resource.RLIMIT_NOFILE, (wanted, hard))


def address_space(memory: Optional[int]) -> int:
    """Returns the limit of a server's address space, in bytes: `memory` or this program's own
    limit, the smaller one. If `memory` is None, only the own limit counts."""
    allowed = resource.getrlimit(resource.RLIMIT_AS)[1]
    limits = [limit for limit in (memory, allowed)
              if limit is not None and limit != resource.RLIM_INFINITY]
    return min(limits, default=resource.RLIM_INFINITY)
