"""The server's program, and the plan of the servers."""

import contextlib
import os
import shutil
from typing import BinaryIO, List, NamedTuple, Optional

from .. import program
from ..service.lines import Unusable

# Where a package has the programs that its starter script chooses from.
PROGRAMS = os.path.join("..", "lib", "feqyldan")


class Plan(NamedTuple):
    """The plan of a server: the program; the limits of address space, in bytes, of each server and
    of all; the nice value; whether each server runs as its connection's user; and the seconds for
    which replies may wait to be read, and requests may take to come."""

    command: List[str]
    memory: Optional[int]
    total: Optional[int]
    nice: int
    is_of_peer: bool
    patience: float
    idle: Optional[float]

    @property
    def lateness(self) -> str:
        """What a program did whose connection was ended for its lateness."""
        took_nothing = f"took no reply for {self.patience:g} s (--patience)"
        if self.idle is None:
            return took_nothing
        return f"sent no request for {self.idle:g} s (--idle), or {took_nothing}"


def chosen(command: List[str]) -> List[str]:
    """Returns the command with the path of its program. A package's starter script is replaced by
    the program that it would start. Raises Unusable if the program doesn't exist."""
    path = shutil.which(command[0])
    if path is None:
        raise Unusable(f"there is no program {command[0]} that can be run: give the server's path "
                       "after --")
    path = os.path.abspath(path)
    folder = os.path.join(os.path.dirname(os.path.realpath(path)), PROGRAMS)
    with opened(path) as file:
        is_script = file.read(2) == b"#!"
    if is_script and os.path.isfile(os.path.join(folder, program.PLAIN)):
        builds = program.in_folder(folder)
        path = os.path.normpath(builds[0] if os.access(builds[0], os.X_OK) else builds[-1])
    return [path, *command[1:]]


def opened(path: str) -> BinaryIO:
    """Returns the open file of a program. Raises Unusable if it can't be read."""
    try:
        return open(path, "rb", buffering=0)
    except OSError as error:
        raise Unusable(f"can't read {path}: {error.strerror}; let the door's user read the "
                       "program") from error


class Program:
    """The words of a command, and the open file of its program. It stays the same file while
    another one takes its path."""

    def __init__(self, command: List[str]) -> None:
        self.words = chosen(command)
        self.file = opened(self.words[0])

    def __str__(self) -> str:
        return " ".join(self.words)

    @property
    def arguments(self) -> List[str]:
        """The words that the program gets. It refuses words that aren't UTF-8, and doesn't use its
        path."""
        path, *words = self.words
        return [path.encode("ascii", "replace").decode(), *words]

    @property
    def target(self) -> str:
        """The path to execute, which gives the process its name. Empty if it doesn't lead to the
        file any more: then the file itself is executed."""
        with contextlib.suppress(OSError):
            if os.path.samestat(os.stat(self.words[0]), os.fstat(self.file.fileno())):
                return self.words[0]
        return ""
