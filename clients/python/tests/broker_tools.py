"""Common tools of the tests of the broker and the door: one that runs, connections to it, and
frames of the plain server (plain_server.py, or plain_library.py in the broker)."""

import contextlib
import json
import os
import select
import socket
import struct
import subprocess
import sys
import tempfile
import time
import unittest
from typing import Any, Callable, Dict, List, Optional, Sequence, Tuple

HERE = os.path.dirname(os.path.abspath(__file__))
PACKAGE = os.path.join(HERE, "..")
sys.path[:0] = [HERE, PACKAGE, os.path.join(HERE, "..", "..", "..", "tools")]

import feqyldan as vx  # noqa: E402
from feqyldan import program, wire  # noqa: E402
from plain_server import HOLD, WHO_ASKED  # noqa: E402
from program import PROGRAM  # noqa: E402

if os.environ.get("FEQYLDAN_CORE"):
    raise unittest.SkipTest("FEQYLDAN_CORE is set: a door and a broker have servers of their own")


def found_library() -> Optional[str]:
    """Returns the path of the library in the package or this checkout, or next to the program."""
    home, name = os.path.split(os.path.realpath(PROGRAM or ""))
    beside = os.path.join(home, f"libfeqyldan-core-{name.partition('-')[2] or 'default'}.so")
    return next(iter(program.cores()), beside if os.path.isfile(beside) else None)


# The library of a broker with the vision server.
LIBRARY = found_library()
needs_library = unittest.skipUnless(LIBRARY, "libfeqyldan-core.so is neither in this checkout nor "
                                             "next to the program of FEQYLDAN_PROGRAM")
PLAIN = [sys.executable, os.path.join(HERE, "plain_server.py"), "serve"]
# The command of a broker with the library, which has no words for it.
REAL: List[str] = []
# Seconds after which a test gives up waiting, even on a slow or busy machine.
LATE = 60.0
# The client number that programs send, unless a test says otherwise.
CLIENT = 7


def listens_at(path: str) -> bool:
    """Returns whether a program listens at a socket: the file is there somewhat earlier."""
    with open("/proc/net/unix", encoding="utf-8", errors="replace") as file:
        found = [line.split() for line in file]
    return any(words[3] == "00010000" and words[-1] == path for words in found)


class Program:
    """A program's connection to the broker, which sends and reads complete frames."""

    def __init__(self, path: str) -> None:
        self.sock = socket.socket(socket.AF_UNIX, socket.SOCK_STREAM)
        # With a timeout connect() would fail immediately while many others wait to connect.
        self.sock.connect(path)
        self.sock.settimeout(LATE)

    def __enter__(self) -> "Program":
        return self

    def __exit__(self, *_: object) -> None:
        self.sock.close()

    def send(self, data: bytes) -> None:
        self.sock.sendall(data)

    def bytes(self, count: int) -> bytes:
        """Reads this many bytes, or fewer if the connection ends before."""
        got = bytearray()
        while len(got) < count:
            try:
                data = self.sock.recv(count - len(got))
            except ConnectionResetError:
                break
            if not data:
                break
            got += data
        return bytes(got)

    def reply(self) -> bytes:
        """Reads the next reply; returns no bytes at the connection's end."""
        head = self.bytes(4)
        return head + self.bytes(int.from_bytes(head, "big"))

    def ask(self, frame: bytes) -> bytes:
        self.send(frame)
        return self.reply()

    def ask_ahead(self, frames: List[bytes]) -> List[bytes]:
        """Sends all frames as soon as possible, reads replies meanwhile, and returns the
        replies."""
        waiting, got, replies = memoryview(b"".join(frames)), b"", []
        while len(replies) < len(frames):
            readable, writable, _ = select.select([self.sock], [self.sock] if waiting else [], [],
                                                  LATE)
            if writable:
                waiting = waiting[self.sock.send(waiting[:65536]) :]
            if readable:
                data = self.sock.recv(65536)
                if not data:
                    break
                got += data
                while len(got) >= 8 and len(got) >= 4 + int.from_bytes(got[:4], "big"):
                    end = 4 + int.from_bytes(got[:4], "big")
                    replies.append(got[:end])
                    got = got[end:]
            if not readable and not writable:
                break
        return replies

    def who_asked(self) -> List[Tuple[int, int]]:
        """Returns the clients and ops of the frames that the plain server has received so far."""
        return [struct.unpack_from(">HB", entry)
                for entry in cut(self.ask(plain(WHO_ASKED))[8:], 3)]

    def has_ended(self) -> bool:
        """Returns whether the broker ends the connection without sending a byte."""
        return self.bytes(1) == b""

    def is_turned_away(self) -> bool:
        """Returns whether the first request is answered NO_RESOURCES, and nothing comes after
        it."""
        return self.ask(plain(1)) == wire.reply_frame(CLIENT, 1,
                                                      wire.NO_RESOURCES) and self.has_ended()


def cut(data: bytes, size: int) -> List[bytes]:
    return [data[at : at + size] for at in range(0, len(data), size)]


def plain(op: int, body: bytes = b"", client: int = CLIENT) -> bytes:
    """Returns a request frame of the plain server."""
    return wire.frame(client, op, body)


def success(op: int, body: bytes = b"", client: int = CLIENT) -> bytes:
    return wire.reply_frame(client, op, 0, body)


def all_of(sock: socket.socket) -> bytes:
    """Returns the bytes that come until the other side ends the connection."""
    got = b""
    while True:
        data = sock.recv(65536)
        if not data:
            return got
        got += data


class Gate:
    """A named pipe at which a server waits until the test releases it. So the test knows when the
    server has a request, and decides when the request ends."""

    def __init__(self, folder: str) -> None:
        self.path = os.path.join(folder, "gate")
        os.mkfifo(self.path)
        self.writer: Optional[int] = None

    @property
    def frame(self) -> bytes:
        """Returns the request with which the plain server waits here."""
        return plain(HOLD, self.path.encode())

    def is_reached(self) -> bool:
        """Returns whether a server waits here. From then on it waits until let_go()."""
        if self.writer is None:
            # Fails as long as nobody reads from the pipe.
            with contextlib.suppress(OSError):
                self.writer = os.open(self.path, os.O_WRONLY | os.O_NONBLOCK)
        return self.writer is not None

    def let_go(self) -> None:
        if self.writer is not None:
            os.close(self.writer)
            self.writer = None


# Makes sockets accept descriptors, as on a Linux before 6.16.
WITHOUT_REFUSAL = "from feqyldan.service import descriptors; descriptors.SO_PASSRIGHTS = 9999"
# Puts the stand-in for the library into a broker.
WITH_PLAIN_LIBRARY = f"import sys; sys.path.insert(0, {HERE!r})\n" """
import plain_library
plain_library.install()
"""
# Runs a module after other code.
RUN_MODULE = """
import runpy, sys
runpy.run_module(sys.argv.pop(1), run_name="__main__", alter_sys=True)
"""


class Broker:
    """A running broker in a folder of its own, with the stand-in for the library unless `command`
    says otherwise. It has one server by default, or as many as the broker chooses if `servers` is
    None. The words `before` come before its command, and the Python code `prelude` runs before its
    module."""

    module = "feqyldan.broker"

    def words_of(self, command: Optional[List[str]]) -> List[str]:
        """Returns the words by which the server is given."""
        return []

    def prelude_of(self, command: Optional[List[str]]) -> str:
        if command is not None and LIBRARY is None:
            raise unittest.SkipTest("there is no libfeqyldan-core.so for the broker")
        return WITH_PLAIN_LIBRARY if command is None else ""

    def __init__(self, *options: str, command: Optional[List[str]] = None,
                 path: Optional[str] = None,
                 environment: Optional[dict] = None, tells_state: bool = False,
                 servers: Optional[str] = "1", before: Sequence[str] = (),
                 refuses_descriptors: bool = True, stderr: Any = None, prelude: str = "") -> None:
        self.folder = tempfile.TemporaryDirectory()
        self.status_path = os.path.join(self.folder.name, "status")
        if tells_state:
            options = ("--status", self.status_path, *options)
        self.path = os.path.join(self.folder.name, "socket") if path is None else path
        self.log = open(os.path.join(self.folder.name, "log"), "w+")
        if servers is not None:
            options = ("--servers", servers, *options)
        prelude = self.prelude_of(command) + prelude
        if not refuses_descriptors:
            prelude += WITHOUT_REFUSAL
        run = ["-c", f"{prelude}{RUN_MODULE}"] if prelude else ["-m"]
        words = [*before, sys.executable, *run, self.module, "--socket", self.path,
                 "--per-process", "64", *options, *self.words_of(command)]
        paths = [PACKAGE, *filter(None, [os.environ.get("PYTHONPATH")])]
        environment = {**os.environ, "PYTHONPATH": os.pathsep.join(paths),
                       "PYTHONDONTWRITEBYTECODE": "1", "FEQYLDAN_CORE": LIBRARY or "",
                       **(environment or {})}
        # In a process group of its own, as a shell starts a command.
        self.process = subprocess.Popen(words, stderr=stderr or self.log, env=environment,
                                        start_new_session=True)

    def __enter__(self) -> "Broker":
        return self

    def __exit__(self, *_: object) -> None:
        self.close()

    def words(self) -> str:
        """Returns what the broker has written to standard error so far."""
        with open(self.log.name) as log:
            return log.read()

    def wait_for(self, condition: Callable[[], bool]) -> bool:
        """Returns whether the condition becomes true in time, while the broker runs or right
        after."""
        end = time.monotonic() + LATE
        while time.monotonic() < end:
            if condition():
                return True
            if self.process.poll() is not None:
                return condition()
            time.sleep(0.01)
        return False

    def listens(self) -> bool:
        return self.wait_for(lambda: "listening at" in self.words())

    def says(self, words: str) -> bool:
        return self.wait_for(lambda: words in self.words())

    def state(self) -> Dict[str, Any]:
        """Returns the state from its status socket."""
        # A report is given to others too, for some milliseconds.
        time.sleep(0.05)
        with socket.socket(socket.AF_UNIX, socket.SOCK_STREAM) as sock:
            sock.connect(self.status_path)
            sock.settimeout(LATE)
            sock.shutdown(socket.SHUT_WR)
            return dict(json.loads(all_of(sock)))

    def program(self) -> Program:
        return Program(self.path)

    def children(self) -> List[int]:
        """Returns the processes that it has started for connections."""
        return children_of(self.process.pid)

    def status(self) -> int:
        return self.process.wait(LATE)

    def stop(self) -> int:
        self.process.terminate()
        return self.status()

    def close(self) -> None:
        if self.process.poll() is None:
            self.process.terminate()
            try:
                self.process.wait(LATE)
            except subprocess.TimeoutExpired:
                self.process.kill()
                self.process.wait()
        self.log.close()
        self.folder.cleanup()


class Door(Broker):
    """A running door."""

    module = "feqyldan.door"

    def __init__(self, *options: str, **keywords: Any) -> None:
        super().__init__(*options, **{"servers": None, **keywords})

    def words_of(self, command: Optional[List[str]]) -> List[str]:
        return ["--", *(command or PLAIN)]

    def prelude_of(self, command: Optional[List[str]]) -> str:
        return ""

    @property
    def starter(self) -> int:
        """The process that starts the servers."""
        return super().children()[0]

    def children(self) -> List[int]:
        return super().children()[1:] + children_of(self.starter)


def files_of(process: int) -> int:
    """Returns how many files a process has open."""
    return len(os.listdir(f"/proc/{process}/fd"))


def children_of(process: int) -> List[int]:
    """Returns the processes that the threads of a process have started."""
    found: List[int] = []
    for thread in os.listdir(f"/proc/{process}/task"):
        with open(f"/proc/{process}/task/{thread}/children", encoding="utf-8") as file:
            found += map(int, file.read().split())
    return found


def runs(process: int) -> bool:
    """Returns whether a process exists and hasn't ended."""
    try:
        with open(f"/proc/{process}/stat") as file:
            return file.read().rpartition(")")[2].split()[0] not in "ZX"
    except OSError:
        return False


class BrokerTest(unittest.TestCase):
    kind: "type[Broker]" = Broker

    def begin(self, *options: str, **keywords: object) -> Broker:
        """Starts a broker, and returns it when it listens."""
        broker = self.begin_any(*options, **keywords)
        self.assertTrue(broker.listens(), broker.words())
        return broker

    def begin_any(self, *options: str, **keywords: object) -> Broker:
        broker = self.kind(*options, **keywords)  # type: ignore[arg-type]
        self.addCleanup(broker.close)
        return broker

    def gate(self, broker: Broker) -> Gate:
        made = Gate(broker.folder.name)
        self.addCleanup(made.let_go)
        return made

    def connect(self, broker: Broker) -> Program:
        program = broker.program()
        self.addCleanup(program.sock.close)
        return program

    def asked_of(self, broker: Broker, wanted: List[Tuple[int, int]]) -> bool:
        """Returns whether the plain server receives exactly these requests in time, apart from
        those of this program."""

        def is_so() -> bool:
            with broker.program() as program:
                asked = program.who_asked()
            own = asked[-1][0]
            return [entry for entry in asked if entry[0] != own] == wanted

        return broker.wait_for(is_so)


def passes_longest(path: str) -> bool:
    """Returns whether the longest write and the longest reply pass a socket unchanged."""
    samples = bytes(range(256)) * (8192 * 8192 * 4 // 256)
    with vx.connect(path) as server, server.context() as context:
        image = context.image(vx.U32, 8192, 8192)
        image.write(samples)
        return image.read_bytes() == samples


def peak_bytes(pid: int) -> int:
    """Returns the peak memory of a process in bytes."""
    with open(f"/proc/{pid}/status") as status:
        return next(int(line.split()[1]) * 1024 for line in status if line.startswith("VmHWM"))
