"""Attacks of hostile programs, and want of resources, on the broker and the door, with a plain
server (plain_server.py, plain_library.py)."""

import array
import contextlib
import fcntl
import importlib.util
import itertools
import multiprocessing
import os
import select
import signal
import socket
import struct
import subprocess
import sys
import tempfile
import time
import unittest
from typing import Any, List, Tuple
from unittest import mock

from broker_tools import (
    HERE, LATE, PACKAGE, Broker, BrokerTest, Door, Program, files_of, listens_at, peak_bytes, plain,
    success)
from feqyldan import wire
from feqyldan.broker.incoming import SHARED_TURN_BYTES
from feqyldan.service import descriptors, listener
from feqyldan.service.admission import ACCEPT_PAUSE
from feqyldan.service.front import Front
from feqyldan.service.lines import Unusable
from plain_server import HOLD, MANY_BYTES, WAIT

# Lets the system watch no further descriptor while a file exists, as if the user had as many in
# epoll as allowed.
WATCHES_NO_MORE = """
import os
from feqyldan.service.events import Events
watch, watch_end = Events.watch, Events.watch_end
def unless_full(method):
    def watch(self, descriptor, wanted, *words):
        if wanted and descriptor not in self.handlers and os.path.exists({!r}):
            raise OSError(28, "no space for a watch")
        method(self, descriptor, wanted, *words)
    return watch
Events.watch, Events.watch_end = map(unless_full, (Events.watch, Events.watch_end))
"""
# Has no memory for another watched descriptor at the first try, while a file exists.
NEEDS_MEMORY_TO_WATCH = """
import os
from feqyldan.service.events import Events
class Handlers(dict):
    tried = None
    def __setitem__(self, descriptor, handler):
        if os.path.exists({!r}) and descriptor not in self and descriptor != self.tried:
            self.tried = descriptor
            raise MemoryError
        super().__setitem__(descriptor, handler)
begin = Events.__init__
def begin_without(self, *words):
    begin(self, *words)
    self.handlers = Handlers()
Events.__init__ = begin_without
"""
# Seconds that closing a descriptor takes, and seconds within which other programs must have their
# answers.
LINGER, SOON = 60, 20.0
SHORT = wire.QUERY_IMAGE
# Has no memory to learn whose the first connections are: as many times as this says.
NEEDS_MEMORY_TO_ADMIT = """
from feqyldan.service import admission
peer_of, left = admission.peer_of, [None] * {}
def refusing(sock):
    if left:
        left.pop()
        raise MemoryError
    return peer_of(sock)
admission.peer_of = refusing
"""
# Has no memory for the first report of the state.
NEEDS_MEMORY_TO_REPORT = """
from feqyldan.broker import loop
memory_of, left = loop.memory_of, [None]
def refusing(*given):
    if left:
        left.pop()
        raise MemoryError
    return memory_of(*given)
loop.memory_of = refusing
"""
# Listens at both sockets of a command's words, and hands them over to it, as systemd does, when the
# socket's path has .go after it.
HANDS_OVER = """
import os, socket, sys, time
words, held = sys.argv[1:], []
for option in ("--socket", "--status"):
    held.append(socket.socket(socket.AF_UNIX))
    held[-1].bind(words[words.index(option) + 1])
    held[-1].listen(50)
while not os.path.exists(words[words.index("--socket") + 1] + ".go"):
    time.sleep(0.01)
for k, sock in enumerate(held):
    os.dup2(sock.fileno(), 100 + k)
for k in range(2):
    os.dup2(100 + k, 3 + k)
    os.close(100 + k)
os.environ.update(LISTEN_FDS="2", LISTEN_PID=str(os.getpid()))
os.execvp(words[0], words)
"""


def refusing() -> bool:
    """Returns whether a socket can refuse descriptors on this Linux."""
    with socket.socket(socket.AF_UNIX) as sock:
        return descriptors.refuse(sock)


class Lingering:
    """TCP sockets with unsent bytes: closing the last copy waits as long as nobody reads them."""

    def __init__(self, count: int) -> None:
        pairs = [self.pair() for _ in range(count)]
        self.senders, self.peers = [one for one, _ in pairs], [other for _, other in pairs]

    def pair(self) -> Tuple[socket.socket, socket.socket]:
        with socket.socket() as here:
            here.bind(("127.0.0.1", 0))
            here.listen(1)
            sender = socket.create_connection(here.getsockname())
            peer, _ = here.accept()
        peer.setsockopt(socket.SOL_SOCKET, socket.SO_RCVBUF, 4096)
        sender.setblocking(False)
        with contextlib.suppress(BlockingIOError):
            while True:
                sender.send(bytes(65536))
        sender.setsockopt(socket.SOL_SOCKET, socket.SO_LINGER, struct.pack("ii", 1, LINGER))
        sender.setblocking(True)
        return sender, peer

    def send(self, sock: socket.socket, data: bytes) -> None:
        """Sends the descriptors, so that the last copies are in the message. Raises PermissionError
        if they are refused."""
        numbers = array.array("i", [sender.fileno() for sender in self.senders])
        sock.sendmsg([data], [(socket.SOL_SOCKET, socket.SCM_RIGHTS, numbers)])
        for sender in self.senders:
            sender.close()

    def close(self) -> None:
        """Closes the sockets; nobody waits for them after that."""
        for sock in self.senders:
            with contextlib.suppress(OSError):
                sock.setsockopt(socket.SOL_SOCKET, socket.SO_LINGER, struct.pack("ii", 1, 0))
        for sock in self.senders + self.peers:
            sock.close()


class Descriptors(BrokerTest):
    """A program that sends descriptors doesn't delay others while they are closed."""

    def attack(self, broker: Broker, path: str, data: bytes) -> socket.socket:
        """Sends descriptors while the broker is stopped, so that it has the last copies of them."""
        sock = socket.socket(socket.AF_UNIX, socket.SOCK_STREAM)
        self.addCleanup(sock.close)
        sock.connect(path)
        # It is accepted, and is let in or turned away.
        self.assertEqual(broker.state()["uptime_seconds"] > 0, True)
        broker.process.send_signal(signal.SIGSTOP)
        lingering = Lingering(3)
        self.addCleanup(lingering.close)
        try:
            lingering.send(sock, data)
        finally:
            broker.process.send_signal(signal.SIGCONT)
        return sock

    def test_they_are_refused_where_linux_can(self) -> None:
        if not refusing():
            self.skipTest("this Linux can't refuse descriptors")
        for self.kind in (Broker, Door):
            broker = self.begin(tells_state=True)
            for path in (broker.path, broker.status_path):
                with self.assertRaises(PermissionError):
                    self.attack(broker, path, plain(1))

    def test_they_are_closed_elsewhere_where_it_cant(self) -> None:
        """Those of a connection, of one that is turned away, of one that asks for the state, and of
        one that is closed before it is read."""
        for self.kind in (Broker, Door):
            broker = self.begin("--connections", "3", tells_state=True, refuses_descriptors=False)
            honest, first = self.connect(broker), self.connect(broker)
            for program in (honest, first):
                self.assertEqual(program.ask(plain(1)), success(1))
            program = self.attack(broker, broker.path, plain(1) * 2)
            away = self.attack(broker, broker.path, plain(1))
            self.is_answered(broker, honest)
            self.attack(broker, broker.status_path, b"x").close()
            self.is_answered(broker, honest)
            for sock in (program, away):
                sock.close()
            self.is_answered(broker, honest)
            # Nothing is kept of them.
            files = files_of(broker.process.pid)
            first.sock.close()
            self.assertTrue(broker.wait_for(lambda: files_of(broker.process.pid) < files))
            self.assertEqual(broker.stop(), 0)

    def test_they_are_closed_elsewhere_on_connections_from_before_it_began(self) -> None:
        """Linux can't refuse those that were sent to a socket before its new owner asked for it:
        those of a connection, of one that is turned away, and of one that asks for the state."""
        for self.kind in (Broker, Door):
            broker = self.begin_any("--connections", "2", tells_state=True,
                                    before=(sys.executable, "-c", HANDS_OVER))
            self.assertTrue(broker.wait_for(lambda: accepts(broker.status_path)))
            honest, program, away = (self.connect(broker) for _ in range(3))
            with socket.socket(socket.AF_UNIX) as asker:
                asker.connect(broker.status_path)
                for sock, data in ((program.sock, plain(1) * 2), (away.sock, plain(1)),
                                   (asker, b"x")):
                    lingering = Lingering(3)
                    self.addCleanup(lingering.close)
                    lingering.send(sock, data)
                with open(f"{broker.path}.go", "w"):
                    pass
                honest.sock.settimeout(SOON)
                self.assertEqual(honest.ask(plain(1)), success(1))
                self.is_answered(broker, honest)
            for sock in (program.sock, away.sock):
                sock.close()
            self.is_answered(broker, honest)
            self.assertEqual(broker.stop(), 0)

    def test_no_connection_comes_before_they_are_refused(self) -> None:
        listens: List[int] = []

        def refuse(sock: socket.socket) -> bool:
            listens.append(sock.getsockopt(socket.SOL_SOCKET, socket.SO_ACCEPTCONN))
            return True

        with tempfile.TemporaryDirectory() as folder, \
                mock.patch.object(listener, "refuse", refuse):
            listener.listen_at(os.path.join(folder, "socket"),
                               0o600).close(descriptors.Descriptors())
        self.assertEqual(listens, [0])

    def test_they_wait_in_a_connection_that_was_never_accepted(self) -> None:
        """They don't delay the end of a broker or a door."""
        for self.kind in (Broker, Door):
            broker = self.begin(tells_state=True, refuses_descriptors=False)
            broker.process.send_signal(signal.SIGSTOP)
            with socket.socket(socket.AF_UNIX) as sock:
                sock.connect(broker.path)
                lingering = Lingering(3)
                self.addCleanup(lingering.close)
                lingering.send(sock, plain(1))
                broker.process.terminate()
                start = time.monotonic()
                broker.process.send_signal(signal.SIGCONT)
                self.assertEqual(broker.status(), 0)
                self.assertLess(time.monotonic() - start, SOON)

    def is_answered(self, broker: Broker, honest: Program) -> None:
        start = time.monotonic()
        self.assertEqual(honest.ask(plain(50)), success(50))
        self.assertEqual(broker.state()["connections"]["open"] > 0, True)
        self.assertLess(time.monotonic() - start, SOON)


def accepts(path: str) -> bool:
    with socket.socket(socket.AF_UNIX) as sock:
        return sock.connect_ex(path) == 0


class EarlySignals(unittest.TestCase):
    def test_as_soon_as_programs_can_connect(self) -> None:
        """The broker and the door end as at any other time, and leave no socket."""
        for kind, number in itertools.product((Broker, Door), (signal.SIGTERM, signal.SIGINT)):
            with kind(tells_state=True) as broker:
                until = time.monotonic() + LATE
                while not accepts(broker.path) and time.monotonic() < until:
                    time.sleep(0.0005)
                broker.process.send_signal(number)
                self.assertEqual(broker.process.wait(LATE), 0, broker.words())
                self.assertEqual(os.listdir(broker.folder.name), ["log"])


# Gets a signal when it closes its sockets.
WITH_LATE_SIGNAL = """
import os, signal
from feqyldan.service.front import Front
close = Front.close
def close_after_a_signal(self):
    for number in (signal.SIGTERM, signal.SIGINT, signal.SIGHUP):
        os.kill(os.getpid(), number)
    close(self)
Front.close = close_after_a_signal
"""


class LateSignals(BrokerTest):
    def test_while_the_sockets_are_closed(self) -> None:
        for self.kind in (Broker, Door):
            broker = self.begin(tells_state=True, prelude=WITH_LATE_SIGNAL)
            self.assertEqual(broker.stop(), 0)
            self.assertEqual(os.listdir(broker.folder.name), ["log"])


class StandardError(BrokerTest):
    """Lines on standard error never wait for their reader."""

    def bad(self, broker: Broker) -> None:
        with broker.program() as program:
            program.send(bytes(8))
            program.has_ended()

    def test_a_pipe_that_nobody_reads(self) -> None:
        for self.kind in (Broker, Door):
            reader, writer = os.pipe()
            self.addCleanup(os.close, reader)
            broker = self.begin_any(stderr=writer)
            self.assertIn(b"listening at", os.read(reader, 1000))
            honest = self.connect(broker)
            self.assertEqual(honest.ask(plain(1)), success(1))
            os.set_blocking(writer, False)
            with contextlib.suppress(BlockingIOError):
                while True:
                    os.write(writer, b"x" * 1024)
            os.set_blocking(writer, True)
            os.close(writer)
            for _ in range(30):
                self.bad(broker)
            self.assertEqual(honest.ask(plain(50)), success(50))
            os.read(reader, 65536)
            self.bad(broker)
            deadline = time.monotonic() + LATE
            said = b""
            while b"left out" not in said and time.monotonic() < deadline:
                self.bad(broker)
                said += os.read(reader, 65536) if select.select([reader], [], [], 0.2)[0] else b""
            self.assertIn(b"lines are left out here", said)
            self.assertEqual(broker.stop(), 0)

    def test_a_full_disk(self) -> None:
        for self.kind in (Broker, Door):
            with open("/dev/full", "w") as full:
                broker = self.begin_any(stderr=full, tells_state=True)
            self.assertTrue(broker.wait_for(lambda: listens_at(broker.status_path)))
            for _ in range(30):
                self.bad(broker)
            self.assertEqual(self.connect(broker).ask(plain(50)), success(50))
            self.assertEqual(broker.stop(), 0)
            with open("/dev/full", "w") as full:
                # It can't start.
                self.assertEqual(self.begin_any(path="", stderr=full).status(), 2)


class Memory(BrokerTest):
    """The memory of half frames and replies, over all connections."""

    def test_the_one_that_has_most_is_ended_where_there_would_be_too_much(self) -> None:
        broker = self.begin("--total-held", "20000000", tells_state=True)
        before, honest = peak_bytes(broker.process.pid), self.connect(broker)
        self.assertEqual(honest.ask(plain(1)), success(1))
        hostile = [self.connect(broker) for _ in range(8)]
        halves = [memoryview(plain(50, bytes(10_000_000)))[:-1] for _ in hostile]
        for program in hostile:
            program.sock.setblocking(False)
        ended, frame = 0, plain(50, bytes(1_000_000))
        deadline = time.monotonic() + LATE
        while any(halves) and time.monotonic() < deadline:
            for k, program in enumerate(hostile):
                try:
                    halves[k] = halves[k][program.sock.send(halves[k][:500_000]) :]
                except BlockingIOError:
                    pass
                except (BrokenPipeError, ConnectionResetError):
                    halves[k], ended = halves[k][:0], ended + 1
            self.assertEqual(honest.ask(frame), success(50))
        self.assertGreaterEqual(ended, 6)
        self.assertTrue(broker.says("(--total-held)"))
        self.assertLessEqual(broker.state()["bytes_held"], 20_000_000)
        for program in hostile:
            program.sock.close()
        self.assertTrue(broker.wait_for(lambda: broker.state()["bytes_held"] == 0))
        self.assertLess(peak_bytes(broker.process.pid) - before, 40_000_000)

    def test_replies_count_too(self) -> None:
        broker = self.begin("--total-held", "5000000", tells_state=True)
        deaf = [self.connect(broker) for _ in range(5)]
        for program in deaf:
            program.send(plain(MANY_BYTES, struct.pack(">I", 3_000_000)))
        self.assertTrue(broker.says("(--total-held)"))
        self.assertLessEqual(broker.state()["bytes_held"], 5_000_000)
        self.assertEqual(self.connect(broker).ask(plain(50)), success(50))

    def test_a_reply_larger_than_all_that_may_be_held(self) -> None:
        broker = self.begin("--total-held", "5000000")
        self.connect(broker).send(plain(MANY_BYTES, struct.pack(">I", 6_000_000)))
        self.assertTrue(broker.says("its frames and replies need 6000008 bytes, the most of "
                                    "6000008 in all, and no more are held (--total-held)"))

    def test_replies_that_nobody_takes_end_no_other_connection(self) -> None:
        broker = self.begin("--total-held", "5000000", tells_state=True)
        deaf = [self.connect(broker) for _ in range(4)]
        for program in deaf:
            program.send(plain(MANY_BYTES, struct.pack(">I", 1_400_000)))
        self.assertTrue(broker.wait_for(lambda: broker.state()["bytes_held"] > 4_000_000))
        late = self.connect(broker)
        late.send(plain(MANY_BYTES, struct.pack(">I", 1_200_000)))
        # One of the others holds more than this reply.
        self.assertTrue(broker.says("(--total-held)"))
        self.assertEqual(len(late.reply()), 1_200_008)

    def test_it_lives_where_its_memory_is_used_up(self) -> None:
        broker = self.begin("--memory", "200000000", "--total-held", "100000000000")
        honest = self.connect(broker)
        self.assertEqual(honest.ask(plain(1)), success(1))
        for _ in range(3):
            program = self.connect(broker)
            with contextlib.suppress(BrokenPipeError, ConnectionResetError):
                program.send(plain(50, bytes(250_000_000))[:-1])
            self.assertTrue(program.has_ended())
            self.assertEqual(honest.ask(plain(50, bytes(1_000_000))), success(50))
        self.assertTrue(broker.says("the broker has no memory for its frame (--memory)"))
        self.assertEqual(broker.stop(), 0)

    def test_short_replies_that_nobody_takes_need_little_more_than_their_bytes(self) -> None:
        broker, long = self.begin(tells_state=True), plain(wire.VERIFY_GRAPH, bytes(2))
        before, deaf = peak_bytes(broker.process.pid), [self.connect(broker) for _ in range(8)]
        for program in deaf:
            # Each is a turn, and has a reply of its own.
            program.send(long * 5000)
        self.assertTrue(broker.wait_for(lambda: broker.state()["requests"] == 8 * 5000))
        self.assertLess(peak_bytes(broker.process.pid) - before, 5_000_000)
        self.assertEqual([program.bytes(8 * 5000) for program in deaf],
                         [success(wire.VERIFY_GRAPH) * 5000] * 8)

    def test_no_memory_to_admit_a_connection_is_no_end(self) -> None:
        """The reserve has some. Without it, the connection is closed."""
        for refusals in (1, 2):
            broker = self.begin("--per-process", "1", prelude=NEEDS_MEMORY_TO_ADMIT.format(
                refusals))
            if refusals == 2:
                self.assertTrue(self.connect(broker).has_ended())
                self.assertTrue(broker.says("a connection is closed: there is no memory for it"))
            self.assertEqual(self.connect(broker).ask(plain(1)), success(1))

    def test_no_memory_for_a_report_is_no_end_of_who_asks(self) -> None:
        broker = self.begin(tells_state=True, prelude=NEEDS_MEMORY_TO_REPORT)
        with socket.socket(socket.AF_UNIX) as asks:
            asks.connect(broker.status_path)
            asks.settimeout(LATE)
            asks.send(b"GET /status HTTP/1.0\r\n")
            self.assertIn(b"200 OK", asks.recv(100))

    # Without memory Python 3.12 and later may end by SIGSEGV, in code of their own.
    @unittest.skipUnless(importlib.util.find_spec("_testcapi") and sys.version_info < (3, 12),
                         "this Python has no _testcapi, or is 3.12 or later")
    def test_no_allocation_that_is_refused_ends_more_than_its_connection(self) -> None:
        ended = subprocess.run([sys.executable, os.path.join(HERE, "refused_broker.py")],
                               stdout=subprocess.PIPE, stderr=subprocess.DEVNULL, timeout=10 * LATE,
                               env={**os.environ, "PYTHONPATH": PACKAGE, "FEQYLDAN_CORE": ""})
        self.assertEqual((ended.stdout.decode(), ended.returncode), ("", 0))


class Turns(BrokerTest):
    """Which connections wait for which."""

    def test_a_short_request_after_another_is_before_a_long_one(self) -> None:
        """One long turn for three short requests or so, and not for each."""
        broker, rounds = self.begin(), 30
        slow, other = [self.connect(broker) for _ in range(4)], self.connect(broker)
        for program in slow:
            program.send(plain(WAIT, struct.pack(">H", 60)) * 40)
        self.assertEqual(slow[0].reply(), success(WAIT))
        for _ in range(rounds):
            self.assertEqual(other.ask(plain(SHORT)), success(SHORT))
        asked = other.who_asked()
        own = [at for at, (client, op) in enumerate(asked) if op == SHORT]
        waits = [op for _, op in asked[own[0] : own[-1]] if op == WAIT]
        self.assertLess(len(waits), rounds * 2 // 3)

    def test_floods_of_small_requests_share_the_broker_s_time(self) -> None:
        broker = self.begin()
        floods, other = [self.connect(broker) for _ in range(6)], self.connect(broker)
        self.assertEqual(other.ask(plain(SHORT)), success(SHORT))
        gate, held = self.gate(broker), self.connect(broker)
        held.send(gate.frame)
        self.assertTrue(broker.wait_for(gate.is_reached))
        for flood in floods:
            flood.send(plain(SHORT) * 9000)
        other.send(plain(SHORT))
        gate.let_go()
        self.assertEqual([held.reply(), other.reply()], [success(HOLD), success(SHORT)])
        asked = other.who_asked()
        own = [at for at, entry in enumerate(asked) if entry == (asked[-1][0], SHORT)]
        # A turn of each, and one more that had begun.
        self.assertLess(own[1] - own[0], 8 * SHARED_TURN_BYTES // len(plain(SHORT)))

    def test_those_that_asked_and_went_leave_the_line(self) -> None:
        broker = self.begin("--connections", "64", tells_state=True)
        busy, gate = self.connect(broker), self.gate(broker)
        busy.send(gate.frame)
        self.assertTrue(broker.wait_for(gate.is_reached))
        before = peak_bytes(broker.process.pid)
        for _ in range(3000):
            with broker.program() as program:
                program.send(plain(50))
        self.assertTrue(broker.wait_for(
            lambda: broker.state()["connections"]["accepted"] > 3000))
        server, = broker.state()["servers"]
        self.assertLessEqual(server["waiting"], 64)
        self.assertLess(peak_bytes(broker.process.pid) - before, 2_000_000)
        gate.let_go()
        self.assertEqual(busy.reply(), success(HOLD))
        self.assertEqual(self.connect(broker).ask(plain(50)), success(50))


class Hangs(BrokerTest):
    """A server that hangs."""

    def test_one_that_may_hang_gets_no_newcomers(self) -> None:
        broker = self.begin("--patience", "1", "--servers", "2", tells_state=True)
        hung, gate, others = self.connect(broker), self.gate(broker), []
        hung.send(gate.frame)
        self.assertTrue(broker.wait_for(
            lambda: broker.state()["servers"][0]["busy_seconds"] > 1))
        for _ in range(10):
            others.append(self.connect(broker))
            self.assertEqual(others[-1].ask(plain(1)), success(1))
        self.assertTrue(gate.is_reached())
        gate.let_go()
        self.assertEqual(hung.reply(), success(HOLD))


def listen_together(path: str, barrier: Any, heard: Any, is_over: Any) -> None:
    barrier.wait()
    try:
        listening = listener.listen_at(path, 0o600)
    except Unusable as reason:
        heard.put(str(reason))
    else:
        heard.put("listens")
        is_over.wait()
        listening.close(descriptors.Descriptors())


class Beginning(BrokerTest):
    """Starting: two brokers at one path, and too few files."""

    def test_of_those_that_begin_together_one_listens(self) -> None:
        processes = multiprocessing.get_context("fork")
        with tempfile.TemporaryDirectory() as folder:
            for k in range(60):
                path = os.path.join(folder, str(k))
                with socket.socket(socket.AF_UNIX) as stale:
                    stale.bind(path)
                barrier, heard, is_over = processes.Barrier(3), processes.Queue(), processes.Event()
                begun = [processes.Process(target=listen_together,
                                           args=(path, barrier, heard, is_over)) for _ in range(3)]
                for process in begun:
                    process.start()
                said = sorted(heard.get(timeout=LATE) for _ in begun)
                # Whoever connects reaches the one that listens.
                with socket.socket(socket.AF_UNIX) as sock:
                    sock.connect(path)
                is_over.set()
                for process in begun:
                    process.join()
                refused = f"another program listens at {path}: end it, or choose another path"
                self.assertEqual(said, [refused] * 2 + ["listens"])
            self.assertEqual(os.listdir(folder), [])

    def test_the_end_removes_no_other_program_s_socket(self) -> None:
        """Not even if its file has the number that the file of the one that ends had."""
        with tempfile.TemporaryDirectory() as folder:
            path, nothing = os.path.join(folder, "socket"), descriptors.Descriptors()
            first = listener.listen_at(path, 0o600)
            first.close(nothing)
            other = listener.listen_at(path, 0o600)
            # As at the end of a broker or a door, after the grace.
            first.close(nothing)
            self.assertTrue(accepts(path))
            other.close(nothing)
            self.assertEqual(os.listdir(folder), [])

    def test_nothing_is_left_where_the_group_is_refused(self) -> None:
        with tempfile.TemporaryDirectory() as folder:
            with mock.patch("os.chown", side_effect=PermissionError(1, "not permitted")):
                with self.assertRaisesRegex(Unusable, "can't listen at .*: not permitted"):
                    listener.listen_at(os.path.join(folder, "socket"), 0o600, 5)
            self.assertEqual(os.listdir(folder), [])

    @unittest.skipIf(os.geteuid(), "root alone gives a file to any group")
    def test_no_link_at_the_path_leads_to_another_file_s_group(self) -> None:
        with tempfile.TemporaryDirectory() as folder:
            path, other = os.path.join(folder, "socket"), os.path.join(folder, "other")
            with open(other, "w"):
                pass

            def bind(_sock: socket.socket, path: str) -> None:
                os.symlink(other, path)

            before = os.stat(other).st_gid
            with mock.patch.multiple(socket.socket, bind=bind, listen=mock.DEFAULT):
                listener.listen_at(path, 0o600, before + 1).sock.close()
            self.assertEqual(os.stat(other).st_gid, before)

    def test_a_path_that_cant_be_tried_or_locked(self) -> None:
        with tempfile.TemporaryDirectory() as folder:
            path, directory = os.path.join(folder, "s" * 107), os.open(folder, os.O_RDONLY)
            self.addCleanup(os.close, directory)
            with socket.socket(socket.AF_UNIX) as stale:
                stale.bind(f"/proc/self/fd/{directory}/{'s' * 107}"[:107])
            os.rename(os.path.join(folder, os.listdir(folder)[0]), path)
            with self.assertRaisesRegex(Unusable, "can't listen at .*: AF_UNIX path too long"):
                listener.listen_at(path, 0o600)
            with mock.patch("fcntl.flock", side_effect=OSError(95, "not supported")):
                with self.assertRaisesRegex(Unusable, r"can't lock .*\.lock: not supported"):
                    listener.listen_at(path, 0o600)

    def test_a_lock_that_is_held(self) -> None:
        with tempfile.TemporaryDirectory() as folder:
            path = os.path.join(folder, "socket")
            with open(f"{path}.lock", "w") as file, mock.patch.object(listener, "LOCK_SECONDS",
                                                                      0.1):
                fcntl.flock(file, fcntl.LOCK_EX)
                with self.assertRaisesRegex(Unusable, "another program has been starting at"):
                    listener.listen_at(path, 0o600)

    def test_a_listener_that_accepts_nobody(self) -> None:
        with tempfile.TemporaryDirectory() as folder, contextlib.ExitStack() as ends:
            path = os.path.join(folder, "socket")
            busy = ends.enter_context(socket.socket(socket.AF_UNIX))
            busy.bind(path)
            busy.listen(0)
            with contextlib.suppress(BlockingIOError):
                while True:
                    waiting = ends.enter_context(socket.socket(socket.AF_UNIX))
                    waiting.setblocking(False)
                    waiting.connect(path)
            with self.assertRaisesRegex(Unusable, f"another program listens at {path}"):
                listener.listen_at(path, 0o600)

    def test_an_empty_path(self) -> None:
        for self.kind in (Broker, Door):
            broker = self.begin_any(path="")
            self.assertEqual(broker.status(), 2)
            self.assertIn("the path of a socket is empty", broker.words())
            self.assertNotIn("Traceback", broker.words())

    def test_too_few_files(self) -> None:
        few = "prlimit", "--nofile=300:300"
        broker = self.begin_any(before=few)
        self.assertEqual(broker.status(), 2)
        self.assertIn("64 connections need 320 open files, and 300 are allowed", broker.words())
        broker = self.begin("--servers", "9", "--connections", "40", before=few)
        programs = [self.connect(broker) for _ in range(40)]
        self.assertEqual([program.ask(plain(1)) for program in programs], [success(1)] * 40)
        self.assertNotIn("Too many open files", broker.words())

    def test_what_cant_be_watched_ends_alone(self) -> None:
        for self.kind in (Broker, Door):
            with tempfile.TemporaryDirectory() as folder:
                full = os.path.join(folder, "full")
                broker = self.begin("--connections", "2", tells_state=True,
                                    prelude=WATCHES_NO_MORE.format(full))
                honest = self.connect(broker)
                self.assertEqual(honest.ask(plain(1)), success(1))
                with open(full, "w"):
                    self.assertTrue(self.connect(broker).has_ended())
                    self.assertTrue(broker.says("can't be watched: [Errno 28]"))
                with socket.socket(socket.AF_UNIX) as asks:
                    asks.connect(broker.status_path)
                    self.assertEqual(asks.recv(1), b"")
                self.assertEqual(honest.ask(plain(50)), success(50))
                os.unlink(full)
                self.assertTrue(broker.wait_for(
                    lambda: broker.state()["connections"]["open"] == 1))
                self.assertEqual(self.connect(broker).ask(plain(1)), success(1))
                with open(full, "w"):
                    # One that is turned away.
                    self.assertTrue(self.connect(broker).has_ended())
                self.assertEqual(honest.ask(plain(50)), success(50))
                os.unlink(full)
                self.assertGreater(broker.state()["uptime_seconds"], 0)

    def test_no_memory_to_watch_a_connection_is_no_end(self) -> None:
        """Neither of one that asks for the state: the reserve has some."""
        with tempfile.TemporaryDirectory() as folder:
            full = os.path.join(folder, "full")
            broker = self.begin(tells_state=True, prelude=NEEDS_MEMORY_TO_WATCH.format(full))
            with open(full, "w"):
                pass
            self.assertEqual(self.connect(broker).ask(plain(1)), success(1))
            self.assertEqual(broker.state()["connections"]["open"], 1)

    def test_a_listening_socket_that_cant_be_watched_is_tried_again(self) -> None:
        front = mock.Mock(now=5.0, accepts_from=0.0, is_listening=False)
        front.may_listen.return_value = True
        front.pause = lambda error: Front.pause(front, error)
        front.events.watch.side_effect = OSError(28, "no space for a watch")
        Front.listen_or_not(front)
        self.assertEqual((front.is_listening, front.accepts_from), (False, 5.0 + ACCEPT_PAUSE))
        front.events.watch.side_effect = None
        for front.now, listens in ((5.5, False), (6.0, True)):
            Front.listen_or_not(front)
            self.assertEqual(front.is_listening, listens)

    def test_no_loop_spins_where_no_file_is_left(self) -> None:
        """Not even if more connections ask for the state than there are files."""
        for self.kind in (Broker, Door):
            broker = self.begin("--connections", "1", tells_state=True)
            process = broker.process.pid
            files = files_of(process)
            subprocess.run(["prlimit", f"--pid={process}", f"--nofile={files + 3}:{files + 3}"],
                           check=True)
            silent = []
            for _ in range(10):
                silent.append(socket.socket(socket.AF_UNIX))
                silent[-1].connect(broker.status_path)
                self.addCleanup(silent[-1].close)
            time.sleep(0.5)
            before = self.processor_seconds(process)
            time.sleep(2.0)
            self.assertLess(self.processor_seconds(process) - before, 0.5)
            for sock in silent:
                sock.close()
            self.assertTrue(broker.wait_for(lambda: broker.state()["connections"]["open"] == 0))

    def processor_seconds(self, process: int) -> float:
        with open(f"/proc/{process}/stat") as file:
            words: List[str] = file.read().rpartition(")")[2].split()
        return (int(words[11]) + int(words[12])) / os.sysconf("SC_CLK_TCK")


if __name__ == "__main__":
    unittest.main()
