"""The broker's servers, its start and end, and what it reports to an operator: with a plain server
(plain_library.py), and with the server's library if there is one."""

import contextlib
import ctypes
import json
import os
import re
import shutil
import signal
import socket
import stat
import struct
import subprocess
import sys
import tempfile
import threading
import unittest
from collections import deque
from typing import IO, Any, Dict, Union
from unittest import mock

from broker_tools import (
    CLIENT, LATE, LIBRARY, PACKAGE, REAL, RUN_MODULE, WITH_PLAIN_LIBRARY, Broker, BrokerTest,
    Program, all_of, needs_library, plain, success)
from feqyldan import wire
import feqyldan as vx
from feqyldan.service import machine
from feqyldan.service.manager import Manager
from feqyldan.service.metrics import memory_of
from feqyldan.service.options import part_of_memory
from feqyldan.broker.command_line import servers_unless_told
from feqyldan.broker.memory import MEMORY_PART
from feqyldan.broker.server import ARRIVAL_TURNS, OK, SHORT_REPLY, TOO_SHORT, Library, Server
from plain_server import HOLD, MANY_BYTES, REFUSE, WHO_ASKED

# What a line says of this program's connections.
OWNER = f"process {os.getpid()} of user {os.getuid()}"
HasFileno = Union[socket.socket, IO[Any]]


class Servers(BrokerTest):
    """Which connections a server has, and what happens to its requests when the broker ends."""

    def test_connections_go_to_the_server_with_the_fewest(self) -> None:
        broker = self.begin("--servers", "4")
        programs = [self.connect(broker) for _ in range(8)]
        for program in programs:
            self.assertEqual(program.ask(plain(1)), success(1))
        opened = [[client for client, op in program.who_asked() if op == 1] for program in programs]
        self.assertEqual(opened, [[k % 4, k % 4 + 4] for k in range(8)])

    def test_a_new_connection_waits_for_some_turns(self) -> None:
        """Whether these are short or long."""
        server = Server(mock.Mock(), mock.Mock(), deque(), lambda: None)
        for seconds in (1e-5, 1.0):
            for _ in range(50):
                server.end(mock.Mock(connection=mock.Mock(used=0.0), seconds=seconds, count=1), 0.0)
            arrived = mock.Mock()
            server.add(arrived)
            self.assertAlmostEqual(arrived.used / seconds, ARRIVAL_TURNS, places=1)

    def test_unless_told_there_are_as_many_as_processors_and_at_most_eight(self) -> None:
        every = os.sched_getaffinity(0)
        # What starts a program may allow it some of the machine's processors alone.
        for allowed in ({min(every)}, every):
            os.sched_setaffinity(0, allowed)
            try:
                broker = self.begin(servers=None, tells_state=True)
            finally:
                os.sched_setaffinity(0, every)
            self.assertEqual(len(broker.state()["servers"]), min(len(allowed), 8))
        with mock.patch("os.sched_getaffinity", return_value=set(range(64))):
            self.assertEqual(servers_unless_told(), 8)

    def test_a_signal_to_reload_ends_nothing(self) -> None:
        broker = self.begin()
        program = self.connect(broker)
        self.assertEqual(program.ask(plain(1)), success(1))
        broker.process.send_signal(signal.SIGHUP)
        self.assertTrue(broker.says("SIGHUP changes nothing: a new library needs a new broker"))
        self.assertEqual(program.who_asked(), [(0, 1), (0, WHO_ASKED)])
        self.assertEqual(broker.stop(), 0)

    def test_a_fault_of_a_server_s_thread_ends_the_broker(self) -> None:
        """Not even its other servers go on, since they share its memory."""
        broker = self.begin("--servers", "2")
        program, other = self.connect(broker), self.connect(broker)
        self.assertEqual(other.ask(plain(1)), success(1))
        # Its body should be four bytes.
        program.send(plain(MANY_BYTES))
        self.assertTrue(program.has_ended() and other.has_ended())
        self.assertEqual(broker.status(), 1)

    def test_signals_end_it_after_what_was_asked(self) -> None:
        for which in (signal.SIGTERM, signal.SIGINT):
            broker = self.begin()
            busy, idle = self.connect(broker), self.connect(broker)
            self.assertEqual(idle.ask(plain(1)), success(1))
            gate = self.gate(broker)
            busy.send(gate.frame + plain(50))
            self.assertTrue(broker.wait_for(gate.is_reached))
            broker.process.send_signal(which)
            self.assertTrue(broker.says(f"ends because of {which.name}"))
            gate.let_go()
            self.assertEqual(busy.reply(), success(HOLD))
            self.assertTrue(busy.has_ended() and idle.has_ended())
            self.assertEqual(broker.status(), 0)
            self.assertFalse(os.path.exists(broker.path))

    def test_it_ends_in_time_beside_a_long_request(self) -> None:
        broker = self.begin("--grace", "1", "--servers", "2")
        busy, other, gate = self.connect(broker), self.connect(broker), self.gate(broker)
        busy.send(gate.frame)
        self.assertEqual(other.ask(plain(50)), success(50))
        self.assertTrue(broker.wait_for(gate.is_reached))
        # In time, since nobody lets the request go.
        self.assertEqual(broker.stop(), 0)
        self.assertIn("a request is given up: it takes longer than 1 s (--grace)", broker.words())
        self.assertTrue(busy.has_ended())

    def test_a_second_signal_ends_it_at_once(self) -> None:
        broker = self.begin("--grace", "1000")
        gate = self.gate(broker)
        self.connect(broker).send(gate.frame)
        self.assertTrue(broker.wait_for(gate.is_reached))
        broker.process.send_signal(signal.SIGINT)
        self.assertTrue(broker.says("ends because of SIGINT"))
        broker.process.send_signal(signal.SIGINT)
        self.assertEqual(broker.status(), 0)
        self.assertIn("a request is given up: the broker was told twice to end", broker.words())


def address_space_of(process: int) -> str:
    """Returns the limit of a process's address space in bytes."""
    with open(f"/proc/{process}/limits") as limits:
        return next(line for line in limits if line.startswith("Max address space")).split()[3]


def whole_memory() -> int:
    return os.sysconf("SC_PAGE_SIZE") * os.sysconf("SC_PHYS_PAGES")


# Takes all memory, and then 20 MB: as an image does, from the reserve, and as an image does again.
USES_RESERVE = """
from feqyldan.broker.memory import PAGES, limit_memory, with_reserve
limit_memory(2**29, 2**25)
taken = []

def has(make):
    try:
        taken.append(make())
    except MemoryError:
        return "no"
    return "yes"

size = 2**24
while size:
    size = size if has(lambda: PAGES.take(size)) == "yes" else size // 2
print(has(lambda: PAGES.take(20_000_000)), has(lambda: with_reserve(lambda: bytes(20_000_000))),
      has(lambda: PAGES.take(20_000_000)))
"""


def fill(program: Program, side: int) -> int:
    """Makes images until the server has no memory for one more; returns the code of that reply, or
    of the reply to the last of many requests."""
    code = wire.SUCCESS
    for _ in range(200):
        code = wire.code_of(program.ask(wire.create_image(CLIENT, wire.U8, side, side)))
        if code == wire.NO_MEMORY:
            break
    return code


class Memory(BrokerTest):
    """Under a limit, a request is answered NO_MEMORY, and every connection goes on."""

    LIMIT = 400_000_000

    def opened(self, broker: Broker) -> Program:
        """Returns a connection with a context and an image of 8x8."""
        program = self.connect(broker)
        for frame in (wire.open_context(CLIENT), wire.create_image(CLIENT, wire.U8, 8, 8)):
            self.assertEqual(wire.code_of(program.ask(frame)), wire.SUCCESS)
        return program

    @needs_library
    def test_a_server_under_a_limit(self) -> None:
        broker = self.begin("--memory", str(self.LIMIT), "--quota", "1000000000", "--servers", "2",
                            command=REAL, tells_state=True)
        great, other = self.opened(broker), self.opened(broker)
        codes = [wire.code_of(great.ask(wire.create_image(CLIENT, wire.U8, 4096, 4096)))
                 for _ in range(30)]
        self.assertEqual({*codes}, {wire.SUCCESS, wire.NO_MEMORY})
        # What was there before still is, and there is memory for what is small.
        for program in (great, other):
            self.assertEqual(program.ask(wire.read_image(CLIENT, 1))[13:], bytes(64))
            self.assertEqual(wire.code_of(program.ask(wire.create_image(CLIENT, wire.U8, 8, 8))),
                             wire.SUCCESS)
        state = broker.state()
        self.assertEqual(state["refusals"], {"NO_MEMORY": codes.count(wire.NO_MEMORY)})
        self.assertTrue(0 < state["memory_bytes"] <= state["peak_memory_bytes"] <= self.LIMIT)
        self.assertEqual(broker.stop(), 0)

    @needs_library
    def test_a_server_without_connections_keeps_no_memory(self) -> None:
        """Another server has room for images of its quota after programs that are gone."""
        broker = self.begin("--memory", str(self.LIMIT), "--quota", "200000000", "--servers", "3",
                            command=REAL, tells_state=True)
        alone, *others = [self.opened(broker) for _ in range(3)]
        wide = wire.create_image(CLIENT, wire.S16, 2048, 2048)
        for program in others:
            self.assertEqual({wire.code_of(program.ask(wide)) for _ in range(13)}, {wire.SUCCESS})
            program.sock.close()
        self.assertTrue(broker.wait_for(lambda: broker.state()["connections"] == {
            "open": 1, "releasing": 0, "accepted": 3, "turned_away": 0}))
        deep = wire.create_image(CLIENT, wire.U8, 2048, 4096)
        self.assertEqual({wire.code_of(alone.ask(deep)) for _ in range(20)}, {wire.SUCCESS})
        self.assertEqual(broker.stop(), 0)

    def test_a_server_is_closed_after_its_last_connection(self) -> None:
        """And not before, if a connection is closed twice: there was no memory to note it."""
        with mock.patch("feqyldan.broker.server.Core") as core:
            library = Library("", 1, 1)
        core().connect.side_effect = 1, 2
        self.assertEqual((library.connect(), library.connect()), (1, 2))
        for link, closes in ((1, 0), (1, 0), (2, 1)):
            library.disconnect(link)
            self.assertEqual(core().close.call_count, closes)

    def test_the_greatest_memory_never_falls(self) -> None:
        self.assertEqual(memory_of(os.getpid(), 2**50)[1], 2**50)

    @needs_library
    def test_images_that_take_all_memory_end_no_connection(self) -> None:
        """Neither those that are open nor newcomers, and the state is still reported."""
        broker = self.begin("--memory", str(self.LIMIT), "--quota", "1000000000", "--servers", "2",
                            command=REAL, tells_state=True)
        honest = self.opened(broker)
        hostile = [self.opened(broker) for _ in range(6)]
        for side in (8192, 4096, 1024, 256, 128, 64, 32, 16, 8):
            codes = {fill(program, side) for program in hostile}
            if side > 64:
                self.assertEqual(codes, {wire.NO_MEMORY})
        for _ in range(20):
            self.assertEqual(honest.ask(wire.read_image(CLIENT, 1))[13:], bytes(64))
            with broker.program() as newcomer:
                self.assertIn(newcomer.ask(wire.open_context(CLIENT))[7:],
                              (b"\0", bytes([wire.NO_MEMORY])), broker.words())
            self.assertGreater(broker.state()["memory_bytes"], 0)
        self.assertNotIn("is ended", broker.words())
        for program in hostile:
            program.sock.close()
        self.assertTrue(broker.wait_for(lambda: broker.state()["connections"]["releasing"] == 0))
        self.assertEqual(fill(honest, 8192), wire.NO_MEMORY)
        self.assertEqual(honest.ask(wire.read_image(CLIENT, 2))[:8],
                         wire.reply_frame(CLIENT, wire.READ_IMAGE, 0, bytes(8192 * 8192 + 5))[:8])
        self.assertEqual(broker.stop(), 0)

    def test_no_memory_for_a_connection_is_no_end(self) -> None:
        broker = self.begin(prelude="""
connect = plain_library.PlainLibrary.connect
refused = iter((True, True, False))
plain_library.PlainLibrary.connect = lambda self: None if next(refused) else connect(self)
""")
        program = self.connect(broker)
        refusal = wire.reply_frame(CLIENT, 50, wire.NO_MEMORY)
        self.assertEqual([program.ask(plain(50)) for _ in range(3)],
                         [refusal, refusal, success(50)])

    def test_no_memory_for_a_reply_whose_length_is_known_is_no_end(self) -> None:
        """A long reply takes a second call, for which the server may have no memory."""
        refusal = wire.reply_frame(CLIENT, wire.READ_DISTRIBUTION, wire.NO_MEMORY)
        with mock.patch("feqyldan.broker.server.Core") as core:
            library = Library("", 1, 1)
        for size in (SHORT_REPLY + 1, 1_000_000):
            lengths = iter((size, len(refusal)))

            def serve(*words: Any) -> int:
                library.length.value = next(lengths)
                if library.length.value > SHORT_REPLY:
                    return TOO_SHORT
                ctypes.memmove(words[6], refusal, len(refusal))
                return OK

            core().serve.side_effect = serve
            self.assertEqual(library.answer(1, b"frame", memoryview(b""), size), refusal)

    def test_the_reserve_is_for_what_asks_for_it(self) -> None:
        ended = subprocess.run([sys.executable, "-c", USES_RESERVE], timeout=LATE,
                               stdout=subprocess.PIPE, env={**os.environ, "PYTHONPATH": PACKAGE})
        self.assertEqual(ended.stdout, b"no yes no\n")

    def test_the_limits_of_control_groups(self) -> None:
        """By default the broker has three quarters of the lowest of these limits."""
        own = "5:cpu,memory:/a/b\n1:name=systemd:/\n0::/c/d"
        for limits, least in (({}, None), ({"c/memory.max": "400000000"}, 400_000_000),
                              ({"memory.max": "max", "c/d/memory.max": "300000000"}, 300_000_000),
                              ({"memory/memory.limit_in_bytes": "200000000"}, 200_000_000),
                              ({"memory/a/b/memory.limit_in_bytes": "500000000",
                                "memory/a/memory.limit_in_bytes": "9223372036854771712"},
                               500_000_000)):
            with self.subTest(limits=limits), tempfile.TemporaryDirectory() as folder:
                for name, text in {"own": own, **limits}.items():
                    path = os.path.join(folder, name)
                    os.makedirs(os.path.dirname(path), exist_ok=True)
                    with open(path, "w") as file:
                        file.write(f"{text}\n")
                with mock.patch.multiple(machine, GROUPS=folder,
                                         OWN_GROUPS=os.path.join(folder, "own")):
                    self.assertEqual(part_of_memory(MEMORY_PART),
                                     (least or whole_memory()) * 3 // 4)

    def test_the_broker_has_the_limit(self) -> None:
        """It never gets more than LimitAS= of a unit, or `ulimit -v` in a shell, allows. The part
        that no image gets isn't in the limit that holds now."""
        allowed, held = 2**32, 1_000_000
        within = ["sh", "-c", f'ulimit -v {allowed // 1024} && exec "$@"', "sh"]
        for before, words, limit in (
                ([], ["--memory", "523456789"], "522456789"),
                ([], ["--memory", "unlimited"], "unlimited"),
                ([], [], str(part_of_memory(MEMORY_PART) - held)),
                (within, ["--memory", str(2 * allowed)], str(allowed - held)),
                (within, ["--memory", "unlimited"], str(allowed - held)),
                (within, ["--memory", "523456789"], "522456789")):
            broker = self.begin(*words, "--total-held", str(held), before=before)
            self.assertEqual(address_space_of(broker.process.pid), limit)

    def test_a_limit_that_is_too_low(self) -> None:
        broker = self.begin_any("--memory", "20000000")
        self.assertEqual(broker.status(), 2)
        self.assertIn("20000000 bytes are too few for the broker and its servers: allow at least",
                      broker.words())
        self.assertFalse(os.path.exists(broker.path))


class Status(BrokerTest):
    """What an operator can see."""

    def test_the_state(self) -> None:
        broker = self.begin("--servers", "2", tells_state=True)
        self.assertEqual(stat.S_IMODE(os.lstat(broker.status_path).st_mode), 0o600)
        program, other = self.connect(broker), self.connect(broker)
        self.assertEqual(program.ask(plain(1)), success(1))
        self.assertEqual(other.ask(plain(50, bytes(93))), success(50))
        other.sock.close()
        self.assertTrue(broker.wait_for(lambda: broker.state()["connections"] == {
            "open": 1, "releasing": 0, "accepted": 2, "turned_away": 0}))
        gate = self.gate(broker)
        program.send(gate.frame)
        self.assertTrue(broker.wait_for(
            lambda: broker.state()["servers"][0]["busy_seconds"] > 0.05))
        state = broker.state()
        # The release of contexts isn't among them.
        self.assertEqual((state["requests"], state["bytes_in"], state["bytes_out"]),
                         (2, 7 + 100 + len(gate.frame), 16))
        self.assertEqual([server["connections"] for server in state["servers"]], [1, 0])
        self.assertTrue(gate.is_reached())
        gate.let_go()
        self.assertEqual(program.reply(), success(HOLD))
        self.assertGreater(broker.state()["longest_request_seconds"], 0.05)
        self.assertEqual(broker.stop(), 0)
        self.assertFalse(os.path.exists(broker.status_path))

    def test_the_state_of_what_goes_wrong(self) -> None:
        broker = self.begin("--connections", "2", tells_state=True)
        program, other = self.connect(broker), self.connect(broker)
        self.assertEqual(other.ask(plain(1)), success(1))
        for code in (wire.NO_MEMORY, wire.INVALID_VALUE, wire.NO_MEMORY, 77):
            self.assertEqual(program.ask(plain(REFUSE, bytes([code]))),
                             wire.reply_frame(CLIENT, REFUSE, code))
        for _ in range(3):
            self.assertTrue(self.connect(broker).is_turned_away())
        state = broker.state()
        self.assertEqual(state["refusals"], {"NO_MEMORY": 2, "INVALID_VALUE": 1, "code 77": 1})
        self.assertEqual(state["connections"],
                         {"open": 2, "releasing": 0, "accepted": 2, "turned_away": 3})

    def test_prometheus_is_told_all_of_the_state(self) -> None:
        broker = self.begin("--servers", "2", "--connections", "2", tells_state=True)
        program, other = self.connect(broker), self.connect(broker)
        for code in (wire.NO_MEMORY, wire.NO_MEMORY, wire.INVALID_LINK):
            program.ask(plain(REFUSE, bytes([code])))
        self.assertEqual(other.ask(plain(1)), success(1))
        self.assertTrue(self.connect(broker).is_turned_away())
        text = self.page(broker, "/metrics").partition("\r\n\r\n")[2]
        told, state = self.metrics(text), broker.state()
        # Of the numbers of the state these alone change while nobody asks anything.
        self.assertEqual(told.pop("uptime_seconds", {}), {})
        for name in ("memory_bytes", "peak_memory_bytes"):
            self.assertGreater(told.pop(name)[""], 0)
        servers = {f'server="{server["server"]}"': server for server in state["servers"]}
        for name, at in (("connections", "connections"), ("requests_total", "requests"),
                         ("waiting", "waiting"), ("busy_seconds", "busy_seconds")):
            self.assertEqual(told.pop(f"server_{name}"), {
                label: server[at] for label, server in servers.items()}, name)
        self.assertEqual(told.pop("refusals_total"),
                         {'code="NO_MEMORY"': 2, 'code="INVALID_LINK"': 1})
        connections = state["connections"]
        self.assertEqual(told, {name: {"": value} for name, value in (
            ("connections", connections["open"]),
            ("connections_releasing", connections["releasing"]),
            ("connections_total", connections["accepted"]),
            ("turned_away_total", connections["turned_away"]),
            ("requests_total", state["requests"]), ("request_bytes_total", state["bytes_in"]),
            ("reply_bytes_total", state["bytes_out"]),
            ("held_bytes", state["bytes_held"]),
            ("longest_request_seconds", state["longest_request_seconds"]))})

    def metrics(self, text: str) -> Dict[str, Dict[str, float]]:
        """Returns the values of each metric by its labels, in Prometheus' text format: first its
        help, then its type, then the values."""
        found: Dict[str, Dict[str, float]] = {}
        for line in text.splitlines():
            described = re.fullmatch(r"# HELP feqyldan_([a-z_]+) (\S.*)\.", line)
            typed = re.fullmatch(r"# TYPE feqyldan_([a-z_]+) (gauge|counter)", line)
            valued = re.fullmatch(r"feqyldan_([a-z_]+)(?:\{([a-z]+=\"[^\"]*\")\})? (\S+)", line)
            if described:
                self.assertNotIn(described[1], found)
                found[described[1]] = {}
            elif typed:
                self.assertEqual((typed[1], [*found][-1]), ([*found][-1], typed[1]))
                self.assertEqual(typed[2] == "counter", typed[1].endswith("_total"), line)
            elif valued:
                self.assertEqual(valued[1], [*found][-1])
                found[valued[1]][valued[2] or ""] = float(valued[3])
            else:
                self.fail(f"no line of Prometheus' text: {line!r}")
        return found

    def test_pages(self) -> None:
        broker = self.begin(tells_state=True)
        self.assertEqual(self.connect(broker).ask(plain(1)), success(1))
        head, _, body = self.page(broker, "/metrics").partition("\r\n\r\n")
        self.assertTrue(head.startswith("HTTP/1.0 200 OK\r\n"), head)
        self.assertIn("\nfeqyldan_requests_total 1\n", body)
        self.assertIn("\n# TYPE feqyldan_requests_total counter\n", body)
        self.assertRegex(body, r'\nfeqyldan_server_requests_total\{server="0"\} 1\n')
        head, _, body = self.page(broker, "/status").partition("\r\n\r\n")
        self.assertEqual(json.loads(body)["requests"], 1)
        self.assertTrue(self.page(broker, "/other").startswith("HTTP/1.0 404 "))
        self.assertTrue(self.page(broker, "/status", "POST").startswith("HTTP/1.0 405 "))

    def page(self, broker: Broker, path: str, method: str = "GET") -> str:
        with socket.socket(socket.AF_UNIX, socket.SOCK_STREAM) as sock:
            sock.settimeout(LATE)
            sock.connect(broker.status_path)
            sock.sendall(f"{method} {path} HTTP/1.1\r\nHost: here\r\n\r\n".encode())
            return all_of(sock).decode()

    def test_who_asks_and_says_nothing_is_ended(self) -> None:
        broker = self.begin(tells_state=True)
        silent = []
        for _ in range(70):
            sock = socket.socket(socket.AF_UNIX, socket.SOCK_STREAM)
            self.addCleanup(sock.close)
            sock.connect(broker.status_path)
            sock.settimeout(LATE)
            silent.append(sock)
        self.assertEqual(broker.state()["requests"], 0)
        self.assertEqual({sock.recv(1) for sock in silent}, {b""})

    def test_lines_say_who_and_how_much(self) -> None:
        broker = self.begin("--report", "1")
        program = self.connect(broker)
        self.assertEqual(program.ask(plain(1)), success(1))
        program.send(b"\0\0\0\0")
        self.assertTrue(broker.says(f"connection 0 of {OWNER} is ended: bad length"))
        # One line or two tell it, by when they come.
        told = (("accepted", 1), ("requests", 1), ("bytes in", 7), ("bytes out", 8))
        for words, count in told:
            self.assertTrue(broker.wait_for(lambda: sum(map(
                int, re.findall(rf"(\d+) {words}", broker.words()))) == count),
                            (words, broker.words()))

    def test_each_line_on_a_connection_says_who(self) -> None:
        broker = self.begin("--patience", "1", "--idle", "5", "--bytes-held", "1000",
                            "--per-process", "5", "--per-user", "5")
        half, deaf, long, cut, idle = (self.connect(broker) for _ in range(5))
        self.assertEqual(idle.ask(plain(1)), success(1))
        self.assertTrue(self.connect(broker).is_turned_away())
        half.send(plain(50)[:5])
        deaf.send(plain(MANY_BYTES, struct.pack(">I", 3_000_000)))
        long.send(plain(50, bytes(1000)))
        cut.send(plain(50)[:3])
        cut.sock.shutdown(socket.SHUT_WR)
        said = ("connection {} of {} is ended: ", (
            (0, "sent nothing of the rest of a frame for 1 s"), (1, "its reply would have"),
            (2, "a frame of 1007 bytes"), (3, "it ended within a frame"),
            (4, "asked nothing for 5 s")))
        for number, words in said[1]:
            begin = said[0].format(number, OWNER)
            self.assertTrue(broker.wait_for(lambda: any(
                begin in line and words in line for line in broker.words().splitlines())),
                (begin, words, broker.words()))
        self.assertIn(f"{OWNER} is turned away: it has 5 connections, the limit ",
                      broker.words())


class Beginning(BrokerTest):
    """The socket's file, the command line, and the notifications of a service manager."""

    def test_the_socket_is_its_owner_s_alone_unless_asked(self) -> None:
        for options, mode in (((), 0o600), (("--mode", "0660"), 0o660), (("--mode", "666"), 0o666)):
            broker = self.begin(*options)
            status = os.lstat(broker.path)
            self.assertTrue(stat.S_ISSOCK(status.st_mode))
            self.assertEqual(stat.S_IMODE(status.st_mode), mode)

    def test_a_file_that_a_broker_left_is_replaced(self) -> None:
        broker = self.begin()
        server_ended = self.connect(broker)
        broker.process.kill()
        broker.process.wait()
        self.assertTrue(server_ended.has_ended())
        self.assertTrue(os.path.exists(broker.path))
        again = self.begin(path=broker.path)
        self.assertEqual(self.connect(again).ask(plain(50)), success(50))

    def test_a_socket_that_is_used_is_not(self) -> None:
        broker = self.begin()
        other = self.begin_any(path=broker.path)
        self.assertEqual(other.status(), 2)
        self.assertIn("another program listens", other.words())
        self.assertEqual(self.connect(broker).ask(plain(50)), success(50))

    def test_another_file_is_not(self) -> None:
        with tempfile.NamedTemporaryFile() as file:
            broker = self.begin_any(path=file.name)
            self.assertEqual(broker.status(), 2)
            self.assertIn("exists and isn't a socket: remove it", broker.words())
            self.assertTrue(os.path.exists(file.name))

    def test_what_cant_begin_ends_with_status_2(self) -> None:
        wrong = (
            ("--mode", "0800"), ("--mode", "1777"), ("--connections", "0"),
            ("--connections", "65537"), ("--bytes-held", "-1"), ("--bytes-held", "536870917"),
            ("--patience", "0"), ("--patience", "nan"), ("--servers", "0"), ("--memory", "1000"),
            ("--grace", "0"), ("--idle", "0"), ("--per-user", "0"), ("--quota", "0"),
            ("--contexts", "65536"), ("--status", "/no/such/folder/socket"))
        for options in (*wrong, ("--no-such-option",)):
            with self.subTest(options=options):
                self.assertEqual(self.begin_any(*options).status(), 2)
        self.assertEqual(self.begin_any(path="/no/such/folder/socket").status(), 2)
        self.assertEqual(self.begin_any(path="/tmp/" + "x" * 200).status(), 2)

    def test_too_few_threads_end_it_with_words(self) -> None:
        broker = self.begin_any("--servers", "256", tells_state=True, before=(
            "sh", "-c", 'ulimit -s 8192 && ulimit -v 1000000 && exec "$@"', "sh"))
        self.assertEqual(broker.status(), 2)
        self.assertIn("feqyldan broker: can't start a thread for each of 256 servers: ",
                      broker.words())
        self.assertNotIn("Traceback", broker.words())
        self.assertEqual(os.listdir(broker.folder.name), ["log"])

    def test_what_is_refused_is_refused_with_words(self) -> None:
        for options, words in (
                (("--longest", "5"), "--longest is refused: a request can't be interrupted"),
                (("--own-memory", "5"), "--own-memory is refused: the broker and its servers are"),
                (("--", "vx_main", "serve", "--quota", "7"),
                 "the broker starts no program: leave out -- vx_main serve --quota 7; give --quota "
                 "and --work to the broker")):
            broker = self.begin_any(*options)
            self.assertEqual(broker.status(), 2)
            self.assertIn(words, broker.words())

    def test_without_the_library_it_says_so(self) -> None:
        for variable, words in (("/no/such/library", "FEQYLDAN_CORE is /no/such/library, and"),
                                (__file__, "isn't the server's library")):
            broker = self.begin_any(command=REAL, environment={"FEQYLDAN_CORE": variable})
            self.assertEqual(broker.status(), 2)
            self.assertIn(words, broker.words())
            self.assertFalse(os.path.exists(broker.path))
        broker = self.begin_any(prelude="from feqyldan import core; core.find = lambda: None\n",
                                command=REAL,
                                environment={"FEQYLDAN_CORE": ""})
        self.assertEqual(broker.status(), 2)
        self.assertIn("the server's library wasn't found: FEQYLDAN_CORE isn't set", broker.words())

    @needs_library
    def test_the_library_may_be_one_of_the_system(self) -> None:
        """By its name, as in the unit of the package."""
        with tempfile.TemporaryDirectory() as folder:
            shutil.copy(str(LIBRARY), os.path.join(folder, "libfeqyldan-core.so.0"))
            broker = self.begin(command=REAL, environment={
                "FEQYLDAN_CORE": "libfeqyldan-core.so.0", "LD_LIBRARY_PATH": folder})
            self.assertEqual(self.connect(broker).ask(wire.open_context(CLIENT)),
                             success(wire.OPEN_CONTEXT))

    def test_what_others_send_a_service_manager_keeps_no_sign_of_life_away(self) -> None:
        with tempfile.TemporaryDirectory() as folder, socket.socket(
                socket.AF_UNIX, socket.SOCK_DGRAM) as taker, socket.socket(
                socket.AF_UNIX, socket.SOCK_DGRAM) as flood:
            path = os.path.join(folder, "notify")
            taker.bind(path)
            taker.settimeout(LATE)
            with mock.patch.dict(os.environ, {"NOTIFY_SOCKET": path, "WATCHDOG_USEC": "2000000"}):
                manager = Manager()

            def fill() -> None:
                flood.setblocking(False)
                with contextlib.suppress(BlockingIOError):
                    while True:
                        flood.sendto(b"x", path)

            # One that the manager takes no message of is sent again at once.
            fill()
            for _ in range(2):
                manager.is_alive()
                self.assertEqual(manager.told_at, 0.0)
            # One that has to wait for another one's message is sent after it.
            taken = threading.Timer(0.2, taker.recv, [9])
            taken.start()
            with mock.patch("feqyldan.service.manager.START_WAIT", LATE):
                manager.is_listening()
            taken.join()
            taker.setblocking(False)
            with self.assertRaises(BlockingIOError):
                found = []
                while True:
                    found.append(taker.recv(9))
            self.assertEqual(found[-1], b"READY=1")
            manager.is_alive()
            self.assertEqual(taker.recv(10), b"WATCHDOG=1")
            manager.is_alive()
            self.assertGreater(manager.told_at, 0.0)

    def test_a_service_manager_is_told_when_it_listens(self) -> None:
        with tempfile.TemporaryDirectory() as folder, socket.socket(socket.AF_UNIX,
                                                                    socket.SOCK_DGRAM) as manager:
            manager.bind(os.path.join(folder, "notify"))
            manager.settimeout(LATE)
            self.begin(environment={"NOTIFY_SOCKET": os.path.join(folder, "notify")})
            self.assertEqual(manager.recv(100), b"READY=1")

    def test_a_socket_that_is_handed_over(self) -> None:
        with tempfile.TemporaryDirectory() as folder, socket.socket(socket.AF_UNIX,
                                                                    socket.SOCK_STREAM) as held:
            path = os.path.join(folder, "socket")
            held.bind(path)
            held.listen(5)
            for _ in range(2):
                # Who connects while there is no broker waits for the next one.
                program = Program(path)
                self.addCleanup(program.sock.close)
                program.send(plain(50))
                broker = self.hand_over(held)
                self.assertEqual(program.reply(), success(50))
                broker.terminate()
                self.assertEqual(broker.wait(LATE), 0)
                self.assertTrue(program.has_ended())
                self.assertTrue(os.path.exists(path))

    def test_the_second_socket_that_is_handed_over_tells_the_state(self) -> None:
        """The sockets are as in feqyldan.socket. Programs that connected while there was no broker
        are served by it."""
        with tempfile.TemporaryDirectory() as folder:
            held = [self.listening(os.path.join(folder, name)) for name in ("socket", "status")]
            early = [Program(os.path.join(folder, "socket")) for _ in range(3)]
            asker = socket.socket(socket.AF_UNIX, socket.SOCK_STREAM)
            for sock in (asker, *(program.sock for program in early)):
                self.addCleanup(sock.close)
            asker.settimeout(LATE)
            asker.connect(os.path.join(folder, "status"))
            broker = self.hand_over(*held)
            self.assertEqual([program.ask(plain(1)) for program in early], [success(1)] * 3)
            asker.sendall(b"\n")
            self.assertEqual(json.loads(all_of(asker))["connections"]["open"], 3)
            broker.terminate()
            self.assertEqual(broker.wait(LATE), 0)
            self.assertEqual(sorted(os.listdir(folder)), ["socket", "status"])

    def test_the_status_socket_is_known_by_its_name(self) -> None:
        with tempfile.TemporaryDirectory() as folder:
            held = [self.listening(os.path.join(folder, name)) for name in ("status", "socket")]
            self.hand_over(*held, names="status:programs")
            self.assertEqual(vx.status(os.path.join(folder, "status"))["connections"]["open"], 0)
            with Program(os.path.join(folder, "socket")) as program:
                self.assertEqual(program.ask(plain(1)), success(1))

    def test_sockets_that_are_meant_for_another_process(self) -> None:
        with tempfile.TemporaryDirectory() as folder:
            held = self.listening(os.path.join(folder, "socket"))
            broker = self.hand_over(held, process="1")
            self.assertEqual(broker.wait(LATE), 2)

    def test_what_is_handed_over_has_to_listen(self) -> None:
        with tempfile.TemporaryFile() as file, socket.socket(socket.AF_UNIX) as deaf:
            for held in (file, deaf):
                self.assertEqual(self.hand_over(held).wait(LATE), 2)

    def listening(self, path: str) -> socket.socket:
        held = socket.socket(socket.AF_UNIX, socket.SOCK_STREAM)
        self.addCleanup(held.close)
        held.bind(path)
        held.listen(5)
        return held

    def hand_over(self, *held: HasFileno, process: str = "$$",
                  names: str = "") -> "subprocess.Popen[bytes]":
        """Returns a broker with sockets as its descriptors from 3 on, as a service manager starts
        it."""
        # First to places that none of them has.
        moves = [f"exec {100 + k}<&{one.fileno()}" for k, one in enumerate(held)]
        moves += [f"exec {3 + k}<&{100 + k}" for k in range(len(held))]
        script = "; ".join([*moves,
                            f"LISTEN_FDS={len(held)} LISTEN_PID={process} LISTEN_FDNAMES={names} "
                            'exec "$@"'])
        words = [sys.executable, "-c", WITH_PLAIN_LIBRARY + RUN_MODULE, "feqyldan.broker",
                 "--servers", "1"]
        broker = subprocess.Popen(["/bin/bash", "-c", script, "sh", *words],
                                  pass_fds=[one.fileno() for one in held],
                                  stderr=subprocess.DEVNULL,
                                  env={**os.environ, "PYTHONPATH": PACKAGE})
        self.addCleanup(broker.wait)
        self.addCleanup(broker.kill)
        return broker

    def test_where_to_listen_has_to_be_told(self) -> None:
        words = [sys.executable, "-c", WITH_PLAIN_LIBRARY + RUN_MODULE, "feqyldan.broker"]
        ended = subprocess.run(words, stderr=subprocess.PIPE,
                               env={**os.environ, "PYTHONPATH": PACKAGE}, timeout=LATE)
        self.assertEqual(ended.returncode, 2)
        self.assertIn(b"--socket", ended.stderr)


if __name__ == "__main__":
    unittest.main()
