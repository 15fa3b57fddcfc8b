"""A server whose memory is read."""

import os
from typing import ContextManager, Dict, NamedTuple, Type

from feqyldan import wire
from checks import lockstep
from checks.lockstep import PATIENCE, Fault

MIB = 1 << 20
# Makes the C library return freed memory to the system immediately. Otherwise it would count as the
# server's.
ENVIRONMENT = {**os.environ, "GLIBC_TUNABLES": "glibc.malloc.mmap_threshold=32768"}
QUOTA = 256 * MIB


class TooMuchMemory(Fault):
    """More memory than allowed."""


class TooLittleMemory(Fault):
    """Less memory than the samples take: the reading isn't the server's memory."""


def in_mib(count: int) -> str:
    return f"{count / MIB:.1f} MiB"


def check_bounds(words: str, taken: int, most: int, least: int = 0) -> str:
    """Returns the words if the number of bytes is within the bounds; else raises them as a
    fault."""
    if taken > most:
        raise TooMuchMemory(words)
    if taken < least:
        raise TooLittleMemory(words)
    return words


class Server(lockstep.Server):
    def create(self, request: bytes) -> int:
        return wire.name_of(self.ask(request))

    def memory(self, field: str = "VmRSS") -> int:
        """Returns a line of /proc/PID/status in bytes: VmRSS is the current memory, VmHWM the
        peak."""
        return memory_of(self.process.pid, field)


def memory_of(process: int, field: str) -> int:
    with open(f"/proc/{process}/status", encoding="utf-8") as status:
        lines = dict(line.split(":", 1) for line in status)
    return int(lines[field].split()[0]) * 1024


class Program(NamedTuple):
    """The server's program, with a preloaded library if a fault is planted."""

    path: str
    environment: Dict[str, str] = {}
    server: Type[Server] = Server


def serving(program: Program, quota: int, patience: float = PATIENCE) -> ContextManager[Server]:
    return lockstep.serving(program.server, [program.path, "serve", f"--quota={quota}"], patience,
                            {**ENVIRONMENT, **program.environment})
