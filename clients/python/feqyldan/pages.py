"""
Lends memory to a pipe by vmsplice(2): a server reads a picture from its own pages, without a copy.
"""

from __future__ import annotations

import fcntl
import os
import select
import struct
import termios
from functools import lru_cache
from itertools import accumulate
from typing import Any, List

from .modules import imported

# Bytes. A shorter part is copied, which takes less time.
LEAST = 1 << 16
# SPLICE_F_NONBLOCK: the call returns immediately if the pipe is full.
NONBLOCK = 2


@lru_cache(maxsize=None)
def vmsplice() -> Any:
    """Returns the C function; None if there is none."""
    import ctypes
    try:
        function = ctypes.CDLL(None, use_errno=True).vmsplice
    except (AttributeError, OSError):
        return None
    function.argtypes = ctypes.c_int, ctypes.c_void_p, ctypes.c_size_t, ctypes.c_uint
    function.restype = ctypes.c_ssize_t
    return function


def can_lend() -> bool:
    """Returns whether NumPy is in use, which gives addresses of memory, and the system supports
    lending."""
    return imported("numpy") is not None and vmsplice() is not None


def lend(counts: List[int], pipe: int, part: Any) -> None:
    """
    Lends a part to a pipe, and appends the new total of bytes that the pipe has taken to the
    counts, as connection.moved() does. The part must not change until the server has read it.
    Raises BlockingIOError if the pipe is full, and another OSError if memory of this kind can't be
    lent.
    """
    import ctypes
    numpy = imported("numpy")
    start = numpy.frombuffer(part, numpy.uint8).__array_interface__["data"][0]
    # A struct iovec.
    vector = (ctypes.c_size_t * 2)(start, len(part))
    call = map(vmsplice(), (pipe,), (ctypes.byref(vector),), (1,), (NONBLOCK,))
    del counts[:-1]
    # A refused call gives -1.
    counts.extend(accumulate(map(max, call, (0,)), initial=counts[0]))
    if counts[-1] == counts[0]:
        number = ctypes.get_errno()
        raise OSError(number, os.strerror(number))


def is_read(pipe: int) -> bool:
    """Returns whether everything in a pipe was read, or nobody will read it any more."""
    unread: int = struct.unpack("i", fcntl.ioctl(pipe, termios.FIONREAD, bytes(4)))[0]
    if unread == 0:
        return True
    poll = select.poll()
    poll.register(pipe, 0)
    return bool(poll.poll(0))
