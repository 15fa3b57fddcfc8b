"""What a hostile program does to the door and the broker as another user, through a file system of
its own, or through the limits of both, with a plain server (plain_server.py).

Other users need root, and a FUSE file system needs /dev/fuse and fusepy. Without them their tests
are skipped.
"""

import array
import contextlib
import os
import select
import signal
import socket
import struct
import subprocess
import sys
import tempfile
import threading
import time
import unittest
from typing import List, Optional

from broker_tools import (
    CLIENT, HERE, LATE, PLAIN, PROGRAM, Broker, BrokerTest, Door, listens_at, plain, runs, success)
from test_broker_faults import SOON, Lingering
from feqyldan import wire
from feqyldan.door.loop import KILL_SECONDS
from feqyldan.service.peers import Ranges
from plain_server import SLOW
import feqyldan as vx

needs_root = unittest.skipIf(os.geteuid(), "root alone starts programs as other users")
needs_program = unittest.skipUnless(PROGRAM, "FEQYLDAN_PROGRAM doesn't name the server's program")
# A user that no other program of this machine has.
USER = 61_357
SHORT = wire.QUERY_IMAGE

AS_USER = """
import ctypes, os, signal, socket, sys, time
os.setgroups([])
os.setgid(int(sys.argv[1]))
os.setuid(int(sys.argv[1]))
path = sys.argv[2]

def connect():
    sock = socket.socket(socket.AF_UNIX)
    sock.connect(path)
    return sock
"""
# Connects, and sends a signal to all processes of its user while their servers start.
SIGNALS_ALL = """
held = []
for _ in range(20):
    held.append(connect())
    end = time.monotonic() + 0.05
    while time.monotonic() < end:
        os.kill(-1, int(sys.argv[3]))
print("done", flush=True)
sys.stdin.read()
"""
# Traces the process that it is told, and never waits for it.
TRACES = """
sock = connect()
print(flush=True)
libc = ctypes.CDLL(None, use_errno=True)
PTRACE_SEIZE = 0x4206
print(libc.ptrace(PTRACE_SEIZE, int(sys.stdin.readline()), None, None), flush=True)
sys.stdin.read()
"""
# Takes the other end of its connection from its server, a process that it is told, and lets that
# end take descriptors. Sends one that is slow to close, out of band, and takes the byte with which
# it came.
TAKES_THE_OTHER_END = """
import array, struct
sock = connect()
print(flush=True)
server = int(sys.stdin.readline())
os.kill(server, signal.SIGSTOP)
PIDFD_GETFD, SO_PASSRIGHTS = 438, 83
taken = ctypes.CDLL(None).syscall(PIDFD_GETFD, os.pidfd_open(server), 0, 0)
if taken >= 0:
    other_end = socket.socket(fileno=taken)
    try:
        other_end.setsockopt(socket.SOL_SOCKET, SO_PASSRIGHTS, 1)
    except OSError:
        pass
    with socket.socket() as here:
        here.bind(("127.0.0.1", 0))
        here.listen(1)
        slow = socket.create_connection(here.getsockname())
        peer, _ = here.accept()
    slow.setblocking(False)
    try:
        while True:
            slow.send(bytes(65536))
    except BlockingIOError:
        pass
    slow.setblocking(True)
    slow.setsockopt(socket.SOL_SOCKET, socket.SO_LINGER, struct.pack("ii", 1, 60))
    numbers = array.array("i", [slow.fileno()])
    sock.sendmsg([b"x"], [(socket.SOL_SOCKET, socket.SCM_RIGHTS, numbers)], socket.MSG_OOB)
    other_end.recv(1, socket.MSG_OOB)
    for each in (slow, other_end, sock):
        each.close()
print(taken >= 0, flush=True)
sys.stdin.read()
"""
# Connects as often as it can, keeps the connections, and asks on some of them.
FLOODS = """
held, count = [], 0
print("begins", flush=True)
while True:
    try:
        sock = socket.socket(socket.AF_UNIX)
        sock.setblocking(False)
        sock.connect(path)
        count += 1
        if count % 3 == 0:
            sock.send(b"GET /metrics HTTP/1.0\\r\\n\\r\\n")
        held.append(sock)
    except OSError:
        pass
    if len(held) > 500:
        del held[:250]
"""
# Connects often, and keeps the connections.
CONNECTS_OFTEN = """
held = [connect() for _ in range(20)]
print("done", flush=True)
sys.stdin.read()
"""
# Connects once, and sends nothing.
WAITS = """
sock = connect()
sys.stdin.read()
"""
# Connects once, and says whether the connection is served.
CONNECTS = """
sock = connect()
sock.sendall(bytes((0, 0, 0, 3, 0, 7, 1)))
print(sock.recv(8)[7], flush=True)
sys.stdin.read()
"""


class Hostile(BrokerTest):
    kind = Door

    def as_user(self, user: int, code: str, *words: str) -> "subprocess.Popen[str]":
        """Starts a program of a user, which ends with the test."""
        run = subprocess.Popen([sys.executable, "-c", AS_USER + code, str(user), *words], text=True,
                               stdin=subprocess.PIPE, stdout=subprocess.PIPE)
        self.addCleanup(run.communicate)
        self.addCleanup(run.kill)
        return run

    def line_of(self, run: "subprocess.Popen[str]") -> str:
        assert run.stdout is not None
        return run.stdout.readline().rstrip("\n")

    def begin_for_all(self, *options: str, **keywords: object) -> Broker:
        """Starts a door or a broker that every user may connect to."""
        broker = self.begin("--mode", "0666", *options, tells_state=True, **keywords)
        os.chmod(broker.folder.name, 0o755)
        return broker

    def is_answered_soon(self, broker: Broker) -> None:
        start = time.monotonic()
        with broker.program() as program:
            program.sock.settimeout(SOON)
            self.assertEqual(program.ask(plain(50)), success(50))
        self.assertGreater(broker.state()["uptime_seconds"], 0)
        self.assertLess(time.monotonic() - start, SOON)


@needs_root
class Users(Hostile):
    """Servers that run as the users of their connections."""

    def test_no_signal_during_a_start_reaches_the_door(self) -> None:
        with open(PLAIN[1], encoding="utf-8") as file:
            # Not all users can read the file in every checkout.
            command = [sys.executable, "-c", file.read(), "serve"]
        for which in (signal.SIGSTOP, signal.SIGTERM):
            door = self.begin_for_all("--user-of-peer", "--grace", "1", command=command)
            hostile = self.as_user(USER, SIGNALS_ALL, door.path, str(int(which)))
            self.assertTrue(select.select([hostile.stdout], [], [], SOON)[0])
            self.is_answered_soon(door)
            self.assertNotIn("ends because", door.words())
            door.process.terminate()
            self.assertEqual(door.process.wait(SOON), 0)

    def test_another_user_s_connections_delay_nobody(self) -> None:
        """The first server of a user is started after one of each other user, whoever connected
        first."""
        door = self.begin_for_all("--per-process", "64")
        door.process.send_signal(signal.SIGSTOP)
        self.assertEqual(self.line_of(self.as_user(USER, CONNECTS_OFTEN, door.path)), "done")
        honest = self.connect(door)
        door.process.send_signal(signal.SIGCONT)
        self.assertEqual(honest.ask(plain(1)), success(1))
        self.assertTrue(door.wait_for(lambda: len(door.state()["servers"]) == 21))
        processes = [server["of_process"] for server in door.state()["servers"]]
        self.assertEqual(processes.index(os.getpid()), 1)

    def test_a_traced_server_doesnt_hold_up_the_end(self) -> None:
        door = self.begin_for_all("--user-of-peer", command=["/bin/cat"])
        hostile = self.as_user(USER, TRACES, door.path)
        server = self.tell_server(door, hostile)
        if self.line_of(hostile) != "0":
            self.skipTest("this system lets no user trace a process")
        for _ in range(2):
            door.process.terminate()
            self.assertTrue(door.says("ends because of SIGTERM"))
        self.assertEqual(door.process.wait(KILL_SECONDS + SOON), 0)
        self.assertFalse(runs(server))

    def test_who_takes_its_server_s_connection_delays_nobody(self) -> None:
        """Not even by descriptors that the connection doesn't take from others."""
        door = self.begin_for_all("--user-of-peer", command=["/bin/cat"])
        hostile = self.as_user(USER, TAKES_THE_OTHER_END, door.path)
        self.tell_server(door, hostile)
        if self.line_of(hostile) != "True":
            self.skipTest("this system lets no user take a descriptor of another process")
        start = time.monotonic()
        with door.program() as program:
            program.sock.settimeout(SOON)
            program.send(b"x")
            self.assertEqual(program.bytes(1), b"x")
        self.assertTrue(door.wait_for(lambda: door.state()["servers"] == []))
        self.assertLess(time.monotonic() - start, SOON)
        door.process.terminate()
        self.assertEqual(door.process.wait(SOON), 0)

    def tell_server(self, door: Broker, hostile: "subprocess.Popen[str]") -> int:
        """Tells a program that has connected the process of its server, and returns it."""
        self.line_of(hostile)
        self.assertTrue(door.wait_for(lambda: self.runs_cat(door)))
        server, = door.state()["servers"]
        assert hostile.stdin is not None
        hostile.stdin.write(f"{server['process']}\n")
        hostile.stdin.flush()
        return int(server["process"])

    def runs_cat(self, door: Broker) -> bool:
        for server in door.state()["servers"]:
            with open(f"/proc/{server['process']}/comm") as file:
                return file.read() == "cat\n"
        return False

    def test_a_server_has_nothing_of_the_door_s_environment(self) -> None:
        door = self.begin_for_all("--user-of-peer", command=["/bin/cat"],
                                  environment={"SECRET": "word"})
        self.as_user(USER, WAITS, door.path)
        self.assertTrue(door.wait_for(lambda: self.runs_cat(door)))
        server, = door.state()["servers"]
        with open(f"/proc/{server['process']}/environ", "rb") as file:
            self.assertEqual(file.read(), f"PATH={os.defpath}\0".encode())

    def test_users_of_a_range_count_as_its_owner(self) -> None:
        with tempfile.TemporaryDirectory() as folder:
            ranges = os.path.join(folder, "subuid")
            with open(ranges, "w") as file:
                file.write(f"{USER}:{USER + 1}:4\n")
            for self.kind in (Door, Broker):
                # Only this door or broker sees the file in place of /etc/subuid.
                broker = self.begin_for_all("--per-user", "2", before=(
                    "unshare", "-m", "sh", "-c",
                    f'[ -e /etc/subuid ] || : > /etc/subuid; mount --bind {ranges} /etc/subuid '
                    '&& exec "$@"', "sh"))
                codes = [self.line_of(self.as_user(USER + k, CONNECTS, broker.path))
                         for k in (1, 2, 3, 0, 5)]
                refused = str(int(wire.NO_RESOURCES))
                self.assertEqual(codes, ["0", "0", refused, refused, "0"])


class RangesOfUsers(unittest.TestCase):
    def test_lines(self) -> None:
        with tempfile.NamedTemporaryFile("w") as file:
            file.write("root:100000:65536\n#\nnobody-has-this-name:1:5\n7:200000:x\n"
                       "7:300000:10\n\n")
            file.flush()
            # A name in another encoding.
            file.buffer.write(b"M\xfcller:500000:1\n")
            file.flush()
            ranges = Ranges(file.name)
            self.assertEqual([ranges.owner_of(user) for user in (
                99_999, 100_000, 165_535, 165_536, 3, 200_000, 300_009, 300_010)],
                [99_999, 0, 0, 165_536, 3, 200_000, 7, 300_010])
            file.write("8:400000:1\n")
            file.flush()
            os.utime(file.name, ns=(1, 1))
            self.assertEqual(ranges.owner_of(400_000), 8)
        self.assertEqual(Ranges("/no/such/file").owner_of(5), 5)


SLOW_FILES = """
import os, stat, sys, time
from fusepy import FUSE, Operations

class Files(Operations):
    def getattr(self, path, fh=None):
        if path == "/":
            return {"st_mode": stat.S_IFDIR | 0o755, "st_nlink": 2}
        return {"st_mode": stat.S_IFREG | 0o666, "st_nlink": 1, "st_size": 4096}

    def open(self, path, flags):
        return 1

    def flush(self, path, fh):
        time.sleep(1000)

    release = flush

FUSE(Files(), sys.argv[1], foreground=True, allow_other=True)
"""


def python_with_fuse() -> Optional[str]:
    for python in (sys.executable, "/usr/bin/python3"):
        with contextlib.suppress(OSError):
            if not subprocess.run([python, "-c", "import fusepy"], stderr=subprocess.DEVNULL,
                                  check=False).returncode:
                return python
    return None


class SlowFile:
    """A file of a FUSE file system: closing a descriptor of it ends only with the file system."""

    def __init__(self, python: str) -> None:
        self.folder = tempfile.TemporaryDirectory()
        self.path = os.path.join(self.folder.name, "file")
        self.daemon = subprocess.Popen([python, "-c", SLOW_FILES, self.folder.name],
                                       stderr=subprocess.DEVNULL)
        self.opened: List[int] = []
        end = time.monotonic() + LATE
        while not os.path.exists(self.path) and time.monotonic() < end:
            time.sleep(0.01)

    def send(self, sock: socket.socket, data: bytes) -> None:
        self.opened.append(os.open(self.path, os.O_RDWR))
        sock.sendmsg([data], [(socket.SOL_SOCKET, socket.SCM_RIGHTS,
                               array.array("i", self.opened[-1:]))])

    def close(self) -> None:
        """Ends the file system, and with it all calls that wait."""
        os.kill(self.daemon.pid, signal.SIGKILL)
        self.daemon.wait()
        for descriptor in self.opened:
            with contextlib.suppress(OSError):
                os.close(descriptor)
        subprocess.run(["umount", "-l", self.folder.name], check=False)
        self.folder.cleanup()


class SentFiles(Hostile):
    """Descriptors that are sent on a Linux where sockets can't refuse them."""

    @needs_root
    @unittest.skipUnless(os.path.exists("/dev/fuse") and python_with_fuse(),
                         "/dev/fuse or Python's fusepy isn't there")
    def test_a_file_that_is_never_closed_delays_nobody(self) -> None:
        """On a connection, on one that is turned away, and on one that asks for the state."""
        python = python_with_fuse()
        assert python is not None
        for self.kind in (Broker, Door):
            broker = self.begin_for_all("--connections", "2", "--grace", "1",
                                        refuses_descriptors=False)
            # No process is started while it is open: that closes descriptors too.
            slow = SlowFile(python)
            try:
                self.send_to_all(broker, slow)
                broker.process.terminate()
                self.assertEqual(broker.process.wait(SOON), 0)
            finally:
                slow.close()

    def send_to_all(self, broker: Broker, slow: SlowFile) -> None:
        first = self.connect(broker)
        self.assertEqual(first.ask(plain(1)), success(1))
        first.sock.settimeout(SOON)
        let_in, away = self.connect(broker), self.connect(broker)
        asks = socket.socket(socket.AF_UNIX)
        self.addCleanup(asks.close)
        asks.connect(broker.status_path)
        for sock, data in ((let_in.sock, plain(1)), (away.sock, plain(1)), (asks, b"x")):
            slow.send(sock, data)
            self.assertEqual(first.ask(plain(50)), success(50))
        for sock in (let_in.sock, away.sock, asks):
            sock.close()
        self.assertTrue(broker.wait_for(lambda: broker.state()["connections"]["open"] == 1))

    def test_bytes_out_of_band_show_theirs(self) -> None:
        for self.kind in (Broker, Door):
            broker = self.begin_for_all("--connections", "1", refuses_descriptors=False)
            first, away = self.connect(broker), self.connect(broker)
            self.assertEqual(first.ask(plain(1)), success(1))
            lingering = Lingering(3)
            self.addCleanup(lingering.close)
            broker.process.send_signal(signal.SIGSTOP)
            numbers = array.array("i", [sender.fileno() for sender in lingering.senders])
            away.sock.sendmsg([b"x"], [(socket.SOL_SOCKET, socket.SCM_RIGHTS, numbers)],
                              socket.MSG_OOB)
            for sender in lingering.senders:
                sender.close()
            away.send(plain(1))
            broker.process.send_signal(signal.SIGCONT)
            first.sock.settimeout(SOON)
            self.assertEqual(first.ask(plain(50)), success(50))

    def test_more_than_there_are_free_numbers(self) -> None:
        for self.kind in (Broker, Door):
            broker = self.begin_for_all("--connections", "1", refuses_descriptors=False)
            first, away = self.connect(broker), self.connect(broker)
            self.assertEqual(first.ask(plain(1)), success(1))
            self.assertGreater(broker.state()["uptime_seconds"], 0)
            process = broker.process.pid
            used = max(int(name) for name in os.listdir(f"/proc/{process}/fd"))
            lingering = Lingering(20)
            self.addCleanup(lingering.close)
            broker.process.send_signal(signal.SIGSTOP)
            subprocess.run(["prlimit", f"--pid={process}", f"--nofile={used + 4}:{used + 4}"],
                           check=True)
            lingering.send(away.sock, plain(1))
            broker.process.send_signal(signal.SIGCONT)
            first.sock.settimeout(SOON)
            self.assertEqual(first.ask(plain(50)), success(50))

    def test_who_sends_some_is_ended(self) -> None:
        broker = Broker(tells_state=True, refuses_descriptors=False)
        self.addCleanup(broker.close)
        self.assertTrue(broker.listens())
        program = self.connect(broker)
        self.assertEqual(program.ask(plain(1)), success(1))
        with open(os.devnull) as file:
            socket.send_fds(program.sock, [plain(50)], [file.fileno()])
        self.assertTrue(program.has_ended())
        self.assertTrue(broker.says("is ended: it sent file descriptors"))
        # The process that closed the connection has ended.
        self.assertTrue(broker.wait_for(lambda: not broker.children()))


class StatusSockets(Hostile):
    def test_it_has_a_mode_and_a_group_of_its_own(self) -> None:
        for self.kind in (Door, Broker):
            broker = self.begin("--mode", "0666", tells_state=True)
            self.assertEqual((os.stat(broker.path).st_mode & 0o777,
                              os.stat(broker.status_path).st_mode & 0o777), (0o666, 0o600))
            groups = [*os.getgroups(), os.getgid()]
            group = USER if os.geteuid() == 0 else groups[0]
            broker = self.begin("--status-mode", "0660", "--status-group", str(group),
                                tells_state=True)
            found = os.stat(broker.status_path)
            self.assertEqual((found.st_mode & 0o777, found.st_gid), (0o660, group))
            self.assertEqual(os.stat(broker.path).st_mode & 0o777, 0o600)
            for wrong in ("no-such-group", str(2**32 - 1), str(10**11)):
                self.assertEqual(self.begin_any("--status-group", wrong).status(), 2)

    def test_it_has_a_path_of_its_own(self) -> None:
        for self.kind in (Door, Broker):
            with tempfile.TemporaryDirectory() as folder:
                path = os.path.join(folder, "one")
                broker = self.begin_any("--status", path, path=path)
                self.assertEqual(broker.status(), 2)
                self.assertTrue(broker.says(f"--socket and --status are both {path}: give two"))

    @needs_root
    def test_a_flood_leaves_an_operator_an_answer(self) -> None:
        """bench/hostile measures how soon."""
        for self.kind in (Door, Broker):
            broker = self.begin_for_all("--status-mode", "0666")
            honest = self.connect(broker)
            self.assertEqual(honest.ask(plain(1)), success(1))
            for _ in range(6):
                self.assertEqual(self.line_of(self.as_user(USER, FLOODS, broker.status_path)),
                                 "begins")
            for _ in range(10):
                state = vx.status(broker.status_path, timeout=LATE)
                self.assertEqual(state["connections"]["open"], 1)
                self.assertEqual(honest.ask(plain(50)), success(50))


class AnsweringState:
    """A status socket that sends some bytes to each visitor again and again, with pauses."""

    def __init__(self, folder: str, data: bytes, pause: float) -> None:
        self.path = os.path.join(folder, "status")
        self.sock = socket.socket(socket.AF_UNIX)
        self.sock.bind(self.path)
        self.sock.listen(5)
        self.data, self.pause = data, pause
        self.thread = threading.Thread(target=self.serve, daemon=True)
        self.thread.start()

    def serve(self) -> None:
        with contextlib.suppress(OSError):
            sock, _ = self.sock.accept()
            with sock:
                while True:
                    sock.sendall(self.data)
                    time.sleep(self.pause)

    def close(self) -> None:
        self.sock.close()
        self.thread.join(LATE)


class StatesWithoutEnd(unittest.TestCase):
    """vx.status() of a socket of another program."""

    def state_of(self, data: bytes, pause: float, timeout: float) -> None:
        with tempfile.TemporaryDirectory() as folder:
            answering = AnsweringState(folder, data, pause)
            self.addCleanup(answering.close)
            vx.status(answering.path, timeout=timeout)

    def test_it_comes_in_time_or_not_at_all(self) -> None:
        start = time.monotonic()
        with self.assertRaises(TimeoutError):
            self.state_of(b" ", 0.2, 1.0)
        self.assertLess(time.monotonic() - start, SOON)

    def test_it_has_an_end(self) -> None:
        with self.assertRaisesRegex(vx.UnexpectedReply, "has more than 67108864 bytes"):
            self.state_of(bytes(1 << 20), 0, LATE)


class Memory(Hostile):
    @needs_program
    def test_a_server_has_its_limit_before_it_runs(self) -> None:
        """Also if requests wait before it starts."""
        door = self.begin("--memory", "67108864", command=[str(PROGRAM), "serve"])
        door.process.send_signal(signal.SIGSTOP)
        programs = [self.connect(door) for _ in range(30)]
        for program in programs:
            program.send(wire.open_context(CLIENT)
                         + wire.create_image(CLIENT, wire.U8, 8192, 8192))
        door.process.send_signal(signal.SIGCONT)
        codes = [(wire.code_of(program.reply()), wire.code_of(program.reply()))
                 for program in programs]
        self.assertEqual({*codes}, {(wire.SUCCESS, wire.NO_MEMORY)})

    def test_no_memory_for_a_turn_ends_one_connection(self) -> None:
        broker = Broker(tells_state=True, prelude="""
from feqyldan.broker.incoming import Incoming
take = Incoming.take_short
def take_or_fail(self, *words):
    if b"no memory" in self.held:
        raise MemoryError
    return take(self, *words)
Incoming.take_short = take_or_fail
""")
        self.addCleanup(broker.close)
        self.assertTrue(broker.listens())
        honest, other = self.connect(broker), self.connect(broker)
        self.assertEqual(honest.ask(plain(1)), success(1))
        other.send(plain(50, b"no memory"))
        self.assertTrue(other.has_ended())
        self.assertTrue(broker.says("the broker has no memory for its requests (--memory)"))
        self.assertEqual(honest.ask(plain(50)), success(50))
        self.assertEqual(broker.stop(), 0)

    def test_short_frames_count_in_the_total(self) -> None:
        broker = Broker("--total-held", "1000000", tells_state=True)
        self.addCleanup(broker.close)
        self.assertTrue(broker.listens())
        programs = [self.connect(broker) for _ in range(40)]
        for program in programs:
            program.send(plain(50, bytes(60_000))[:-1])
        self.assertTrue(broker.says("(--total-held)"))
        self.assertLessEqual(broker.state()["bytes_held"], 1_000_000)
        for program in programs:
            program.sock.close()
        self.assertTrue(broker.wait_for(lambda: broker.state()["bytes_held"] == 0))


class SharedServers(Hostile):
    kind = Broker

    def test_quick_requests_before_long_ones_bring_nothing(self) -> None:
        """However quick its requests were, a connection has one turn with one request that may take
        long, before a connection that has used less."""
        broker = self.begin()
        hostile, other = [self.connect(broker) for _ in range(5)], self.connect(broker)
        for program in hostile:
            self.assertEqual(program.ask_ahead([plain(SLOW)] * 200), [success(SLOW)] * 200)
        self.assertEqual(other.ask(plain(SHORT)), success(SHORT))
        for program in hostile:
            program.send(plain(SLOW, struct.pack(">H", 200)) * 8)
        time.sleep(0.1)
        rounds = 10
        for _ in range(rounds):
            self.assertEqual(other.ask(plain(SHORT)), success(SHORT))
        asked = other.who_asked()
        own = [at for at, (client, op) in enumerate(asked) if op == SHORT]
        waits = [[op for _, op in asked[begin:end]].count(SLOW)
                 for begin, end in zip(own, own[1:])]
        self.assertLessEqual(waits[0], len(hostile))
        self.assertLessEqual(max(waits[1:]), 2)


@needs_root
@needs_program
class AllKinds(unittest.TestCase):
    def test_polite_programs_are_served_next_to_all_kinds_at_the_same_time(self) -> None:
        """Their times are no part of the test, since they depend on the machine's other load."""
        script = os.path.join(HERE, "..", "..", "..", "bench", "hostile")
        run = subprocess.run([sys.executable, script, str(PROGRAM), "--seconds", "5", "--each",
                              "2"], stdout=subprocess.PIPE, text=True, timeout=10 * LATE,
                             check=False)
        rows = [row.split()[:2] for row in run.stdout.splitlines()[1:5]]
        self.assertEqual(rows, [[way, crowd] for way in ("door", "broker")
                                for crowd in ("polite", "hostile")], run.stdout)


class StandardFiles(Hostile):
    def test_closed_ones_are_no_reason_to_end(self) -> None:
        for self.kind in (Door, Broker):
            broker = self.begin_any(tells_state=True, before=(
                "/bin/sh", "-c", 'exec "$@" <&- >&- 2>&-', "sh"))
            self.assertTrue(broker.wait_for(lambda: listens_at(broker.status_path)))
            program = self.connect(broker)
            self.assertEqual(program.ask(plain(1)), success(1))
            program.send(bytes(8))
            self.assertTrue(program.has_ended())
            self.assertEqual(self.connect(broker).ask(plain(1)), success(1))
            self.assertEqual(broker.stop(), 0)


if __name__ == "__main__":
    unittest.main()
