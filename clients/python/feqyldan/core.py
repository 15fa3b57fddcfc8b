"""The server as a library in this process, libfeqyldan-core.so, which ctypes loads."""

from __future__ import annotations

import ctypes
import os
from functools import lru_cache, partial
from typing import Any, Optional, Tuple

from . import program
from .errors import FeqyldanError, ProgramNotFound
from .modules import imported

VARIABLE = "FEQYLDAN_CORE"
# The name by which the dynamic linker finds the library, for example that of Debian's package
# libfeqyldan0. If the processor allows it, the linker takes the faster build.
INSTALLED = "libfeqyldan-core.so.0"
# A result of the calls: FEQYLDAN_NO_MEMORY.
NO_MEMORY = 6


class Handle(ctypes.Structure):
    """struct feqyldan_handle: a server, or none."""

    _fields_ = ("at", ctypes.c_void_p), ("held", ctypes.c_bool)


def find() -> Optional[str]:
    """Returns the path of the library: the value of FEQYLDAN_CORE, else the one inside this
    package, else the one built in this checkout, else INSTALLED if the dynamic linker finds it;
    None if there is none. The value may be a name that the dynamic linker finds. Raises
    ProgramNotFound if it is a path without a file."""
    told = os.environ.get(VARIABLE)
    if told:
        if "/" in told and not os.path.isfile(told):
            raise ProgramNotFound(f"{VARIABLE} is {told}, and there is no such file: set it to "
                                  "the path of libfeqyldan-core.so, or unset it")
        return told
    path = next(iter(program.cores()), None)
    return path or (INSTALLED if why_not_installed() is None else None)


def require(instead: str) -> str:
    """Returns the path of the library. If there is none, raises ProgramNotFound, which says what to
    do, or else to do `instead`."""
    path = find()
    if path is None:
        raise ProgramNotFound(
            f"the server's library wasn't found: {VARIABLE} isn't set, neither the package nor a "
            "checkout has libfeqyldan-core.so for this processor, and the system has none: "
            f"{why_not_installed()}. Install the wheel with the server or Debian's package "
            f"libfeqyldan0, build it by tools/build, or {instead}")
    return path


def why_not_installed() -> Optional[str]:
    """Returns why the dynamic linker doesn't load the library by its name; None if it does."""
    if not program.runs_plain():
        return "this machine's processor can't run it"
    try:
        ctypes.CDLL(INSTALLED)
    except OSError as error:
        return str(error)
    return None


@lru_cache(maxsize=None)
def load(path: str) -> Any:
    """Returns the library at a path, or of a name, which is never that of a file in the current
    folder. Raises ProgramNotFound if there is none, or if it lacks a call."""
    try:
        library = ctypes.CDLL(os.path.abspath(path) if "/" in path else path)
        library.feqyldan_open.argtypes = ctypes.c_uint64, ctypes.c_uint64, ctypes.c_void_p
        library.feqyldan_connect.argtypes = ctypes.c_void_p, ctypes.c_void_p
        # Its callers convert the arguments, which takes half of the time that argtypes take.
        library.feqyldan_serve.restype = ctypes.c_uint32
        library.feqyldan_disconnect.argtypes = ctypes.c_void_p, ctypes.c_uint32
        library.feqyldan_close.argtypes = ctypes.c_void_p,
        library.feqyldan_close.restype = None
    except (OSError, AttributeError) as error:
        from . import __version__
        raise ProgramNotFound(f"{path} isn't the server's library of feqyldan {__version__}: "
                              f"{error}. Install the library of this version, set {VARIABLE} to "
                              "the path of libfeqyldan-core.so, or start a process by "
                              "vx.Server(process=True)") from None
    return library


# Arguments of feqyldan_serve: the number of a connection, and a size.
number_of, size_of = ctypes.c_uint32.from_param, ctypes.c_size_t.from_param


class Core:
    """A server in this process. The caller makes one call at a time. `serve` is the library's
    feqyldan_serve. Its first two arguments are `address`, and number_of() a connection; the others
    are made by size_of(), argument_of() and ctypes.byref()."""

    def __init__(self, path: str, quota: int, work: int) -> None:
        self._handle, self._is_lost = Handle(), False
        library = load(path)
        self._connect, self._disconnect = library.feqyldan_connect, library.feqyldan_disconnect
        self._close = library.feqyldan_close
        self.serve = library.feqyldan_serve
        self.address = ctypes.byref(self._handle)
        self._open = partial(library.feqyldan_open, quota, work, self.address)
        self.open()

    def open(self) -> None:
        """Makes the server, unless it is there."""
        if self._open() == NO_MEMORY:
            raise FeqyldanError("start a server in this process: the system refuses the memory")

    def connect(self) -> int:
        """Opens a connection, whose clients no other connection sees, and returns its number."""
        number = ctypes.c_uint32()
        if self._connect(self.address, ctypes.addressof(number)) == NO_MEMORY:
            raise FeqyldanError("connect to the server in this process: the system refuses the "
                                "memory")
        return number.value

    def disconnect(self, number: int) -> None:
        """Closes a connection with all of its contexts. Does nothing if it isn't open."""
        self._disconnect(self.address, number)

    def close(self) -> None:
        """Frees the server with all of its connections, until it is opened again. Does nothing if
        that was done."""
        if not self._is_lost:
            self._close(self.address)

    def lose(self) -> None:
        """Leaves the server in the child of a fork, where it can't be used, not even to close
        it."""
        self._is_lost = True

    def __del__(self) -> None:
        if hasattr(self, "address"):
            self.close()


def argument_of(memory: Any) -> Tuple[Any, Any]:
    """Returns the arguments for bytes or a memoryview: the address, which is valid as long as the
    memory and the argument are kept, and the size."""
    size = size_of(len(memory))
    if isinstance(memory, bytes) or not len(memory):
        return memory or b"", size
    if not memory.readonly:
        return ctypes.byref(ctypes.c_char.from_buffer(memory)), size
    numpy = imported("numpy")
    if numpy is None:
        return bytes(memory), size
    address = numpy.frombuffer(memory, numpy.uint8).__array_interface__["data"][0]
    return ctypes.c_void_p.from_param(address), size


# The arguments for no bytes.
NOTHING = argument_of(b"")
