"""The broker's connections: frames, turns and ends, with a plain server (plain_library.py)."""

import contextlib
import os
import random
import socket
import struct
import subprocess
import sys
import time
import unittest
from typing import List

from broker_tools import CLIENT, LATE, Broker, BrokerTest, peak_bytes, plain, success
from feqyldan import wire
from feqyldan.broker.incoming import TURN_BYTES, Incoming, Total
from feqyldan.service.descriptors import Descriptors
from plain_server import ECHO, HOLD, MANY_BYTES, WAIT, WHO_ASKED

# A quick op of the vision server, and one that may take long. The plain server treats them alike.
SHORT, LONG = wire.QUERY_IMAGE, wire.IMMEDIATE
BAD_LENGTHS = (0, 1, 2, 536_870_913, 4_294_967_295)


class Frames(BrokerTest):
    """Frames are passed on and come back whole, those of each connection as a connection of its
    server."""

    def test_each_connection_is_one_of_the_server(self) -> None:
        broker = self.begin()
        programs = [self.connect(broker) for _ in range(3)]
        for program in programs:
            self.assertEqual(program.ask(plain(1)), success(1))
        self.assertEqual(programs[0].who_asked(), [(0, 1), (1, 1), (2, 1), (0, WHO_ASKED)])

    def test_a_reply_has_the_client_that_its_request_had(self) -> None:
        program = self.connect(self.begin())
        for client in (0, 7, 256, 65_535):
            self.assertEqual(program.ask(plain(50, b"x", client)), success(50, b"", client))

    def test_replies_come_in_order_to_frames_sent_ahead(self) -> None:
        program = self.connect(self.begin())
        frames = [plain(k % 90, bytes(k % 50)) for k in range(3000)]
        self.assertEqual(program.ask_ahead(frames), [success(k % 90) for k in range(3000)])

    def test_turns_of_all_kinds_of_requests_keep_their_clients_and_their_order(self) -> None:
        rng = random.Random(4)
        broker = self.begin()

        def frames_of_many() -> List[List[int]]:
            return [[rng.choice((SHORT, SHORT, LONG, 50, 90)), rng.choice((0, 1, 300)),
                     rng.randrange(65_536)]
                    for _ in range(2000)]

        for _ in range(3):
            program, fields = self.connect(broker), frames_of_many()
            got = program.ask_ahead([plain(op, bytes(size), client) for op, size, client in fields])
            self.assertEqual(got, [success(op, b"", client) for op, _, client in fields])

    def test_several_at_once_get_their_own(self) -> None:
        broker = self.begin()
        processes = [subprocess.Popen([sys.executable, "-c", STREAM, broker.path, str(client)])
                     for client in range(4)]
        self.assertEqual([process.wait(LATE) for process in processes], [0] * 4)

    def test_long_frames_and_replies_are_whole(self) -> None:
        program = self.connect(self.begin())
        for size in (65_529, 65_530, 1_000_003):
            frames = [plain(50, bytes(size)), plain(MANY_BYTES, struct.pack(">I", size)), plain(51)]
            self.assertEqual(
                program.ask_ahead(frames * 2),
                [success(50), success(MANY_BYTES, bytes(size)), success(51)] * 2)

    def test_long_frames_and_replies_are_their_connection_s(self) -> None:
        """Also where the memory of earlier ones is used again."""
        broker = self.begin("--servers", "2")
        programs, size = [self.connect(broker) for _ in range(4)], 300_000
        for turn in range(5):
            for k, program in enumerate(programs):
                program.send(plain(ECHO, bytes([turn * 4 + k]) * size))
            for k, program in enumerate(programs):
                self.assertEqual(program.reply(), success(ECHO, bytes([turn * 4 + k]) * size))

    def test_which_requests_the_loop_makes(self) -> None:
        """Those whose time grows with their frames, and those on few samples."""
        here, there = socket.socketpair()
        with here, there:
            incoming = Incoming(2**20, Total(2**20), Descriptors())

            def is_quick(frame: bytes) -> bool:
                there.sendall(frame)
                incoming.receive(here)
                return incoming.take(TURN_BYTES)[-1]

            on_images = wire.bitwise_not(CLIENT, 1, 2), wire.read_image(CLIENT, 1)
            self.assertTrue(is_quick(wire.open_context(CLIENT)))
            for side, are_quick in ((8, True), (30, True), (9, False)):
                self.assertFalse(is_quick(wire.create_image(CLIENT, wire.U8, side, side)))
                self.assertEqual([is_quick(frame) for frame in on_images], [are_quick] * 2)
            self.assertFalse(is_quick(wire.process_graph(CLIENT, 3)))

    def test_a_frame_may_come_byte_by_byte(self) -> None:
        program = self.connect(self.begin())
        for byte in plain(50, b"abc") + plain(51):
            program.send(bytes([byte]))
        self.assertEqual([program.reply(), program.reply()], [success(50), success(51)])

    def test_requests_sent_before_the_end_of_writing_are_answered(self) -> None:
        program = self.connect(self.begin())
        program.send(b"".join(plain(k) for k in range(90)))
        program.sock.shutdown(socket.SHUT_WR)
        self.assertEqual([program.reply() for _ in range(90)], [success(k) for k in range(90)])
        self.assertTrue(program.has_ended())


class Ends(BrokerTest):
    """The context of a connection that ends, or is ended, is released, and other connections go
    on."""

    def test_contexts_are_released_before_another_connection_comes(self) -> None:
        broker = self.begin("--connections", "1")
        for _ in range(3):
            with broker.program() as program:
                self.assertEqual(program.ask(plain(1)), success(1))
        program = self.connect(broker)
        self.assertEqual([op for _, op in program.who_asked()], [1, 2, 1, 2, 1, 2, WHO_ASKED])

    def test_a_connection_that_asked_nothing_has_nothing_released(self) -> None:
        broker = self.begin("--connections", "1")
        broker.program().sock.close()
        self.assertTrue(broker.wait_for(lambda: self.answers(broker)))
        self.assertNotIn((0, 2), self.connect(broker).who_asked()[:1])

    def answers(self, broker: Broker) -> bool:
        with broker.program() as program:
            program.send(plain(60))
            return program.reply() == success(60)

    def test_a_connection_has_so_many_contexts(self) -> None:
        for options, most in (((), 1), (("--contexts", "3"), 3)):
            program = self.connect(self.begin(*options))
            # One more is refused, until one is released. One that is open may be asked for again.
            for client in range(most):
                self.assertEqual(program.ask(plain(1, b"", client)), success(1, b"", client))
            for _ in range(2):
                self.assertEqual(program.ask(plain(1, b"", 9)),
                                 wire.reply_frame(9, 1, wire.NO_RESOURCES))
            self.assertEqual(program.ask(plain(1, b"", 0)), success(1, b"", 0))
            self.assertEqual(program.ask(plain(2, b"", 0)), success(2, b"", 0))
            self.assertEqual(program.ask(plain(1, b"", 9)), success(1, b"", 9))
            self.assertEqual(program.who_asked().count((0, 1)), most + 2)

    def test_an_end_within_a_frame(self) -> None:
        broker = self.begin()
        for size in (1, 3, 4, 6, 9):
            with broker.program() as program:
                self.assertEqual(program.ask(plain(1)), success(1))
                program.send(plain(50, b"abc")[:size])
        self.assertTrue(broker.says("it ended within a frame"))
        self.assertTrue(self.asked_released(broker, 5))

    def asked_released(self, broker: Broker, times: int) -> bool:
        """Returns whether op 1 comes to be asked this many times, each followed by a ReleaseContext
        of the same number."""

        def is_so() -> bool:
            with broker.program() as program:
                asked = program.who_asked()
            opened = [client for client, op in asked if op == 1]
            released = [client for client, op in asked if op == 2]
            return len(opened) == times and not (set(opened) - set(released)) and (
                50 not in dict(asked).values())

        return broker.wait_for(is_so)

    def test_a_bad_length_ends_its_connection_after_the_replies_before_it(self) -> None:
        broker = self.begin()
        other = self.connect(broker)
        for length in BAD_LENGTHS:
            program = self.connect(broker)
            program.send(plain(1) + plain(50) + struct.pack(">I", length) + plain(51))
            self.assertEqual([program.reply(), program.reply()], [success(1), success(50)])
            self.assertTrue(program.has_ended())
            self.assertTrue(broker.says(f"bad length {length}"))
            self.assertEqual(other.ask(plain(52)), success(52))
        self.assertNotIn(51, [op for _, op in other.who_asked()])

    def test_a_reply_to_a_connection_that_has_ended_goes_to_nobody(self) -> None:
        broker = self.begin("--connections", "8")
        other = self.connect(broker)
        self.assertEqual(other.ask(plain(1)), success(1))
        for _ in range(5):
            with broker.program() as program:
                program.send(plain(WAIT, b"\0\x14") + plain(MANY_BYTES, struct.pack(">I", 300_000)))
            self.assertEqual(other.ask(plain(50)), success(50))
        with broker.program() as program:
            self.assertEqual(program.ask(plain(51)), success(51))

    def test_a_connection_that_keeps_a_frame_or_its_replies_waiting_is_ended(self) -> None:
        broker = self.begin("--patience", "1")
        idle, half, deaf = (self.connect(broker) for _ in range(3))
        self.assertEqual(idle.ask(plain(1)), success(1))
        half.send(plain(50, bytes(10))[:9])
        deaf.send(plain(MANY_BYTES, struct.pack(">I", 3_000_000)))
        self.assertTrue(half.has_ended())
        self.assertTrue(broker.says("sent nothing of the rest of a frame for 1 s"))
        self.assertTrue(broker.says("bytes of replies for 1 s"))
        self.assertEqual(idle.ask(plain(51)), success(51))

    def test_a_slow_reader_is_not_ended(self) -> None:
        patience = 3.0
        program = self.connect(self.begin("--patience", f"{patience:g}"))
        size, began = 2_000_000, time.monotonic()
        program.send(plain(MANY_BYTES, struct.pack(">I", size)) * 2)
        got = 0
        while got < 2 * (size + 8):
            data = program.bytes(min(400_000, 2 * (size + 8) - got))
            self.assertTrue(data)
            got += len(data)
            # It is the pauses that are tested: short ones, that together are longer than the
            # patience.
            time.sleep(patience / 6)
        self.assertGreater(time.monotonic() - began, patience)

    def test_the_server_is_not_asked_more_by_one_that_takes_no_replies(self) -> None:
        broker = self.begin()
        deaf, other = self.connect(broker), self.connect(broker)
        deaf.sock.setblocking(False)
        try:
            while True:
                deaf.sock.send(plain(MANY_BYTES, struct.pack(">I", 100_000)) * 1000)
        except BlockingIOError:
            pass
        for _ in range(20):
            self.assertEqual(other.ask(plain(50)), success(50))
        before = len(other.who_asked())
        for _ in range(20):
            self.assertEqual(other.ask(plain(50)), success(50))
        self.assertEqual(len(other.who_asked()), before + 21)

    def test_the_bytes_held(self) -> None:
        broker = self.begin("--bytes-held", "100000")
        program = self.connect(broker)
        self.assertEqual(program.ask(plain(50, bytes(100_000 - 7))), success(50))
        program.send(plain(50, bytes(100_000 - 6)))
        self.assertTrue(program.has_ended())
        self.assertTrue(broker.says("a frame of 100001 bytes"))
        program = self.connect(broker)
        self.assertEqual(len(program.ask(plain(MANY_BYTES, struct.pack(">I", 100_000 - 8)))),
                         100_000)
        program.send(plain(51) + plain(MANY_BYTES, struct.pack(">I", 100_000 - 7)))
        self.assertEqual(program.reply(), success(51))
        self.assertTrue(program.has_ended())
        self.assertTrue(broker.says("its reply would have 100001 bytes"))

    def test_the_memory_that_half_frames_take(self) -> None:
        broker = self.begin("--bytes-held", "4000000")
        before = peak_bytes(broker.process.pid)
        programs = [self.connect(broker) for _ in range(20)]
        for program in programs:
            program.send(plain(50, bytes(4_000_000 - 7))[:-1])
        self.assertEqual(self.connect(broker).ask(plain(51)), success(51))
        # An eighth more, since Python takes memory ahead for bytes that grow, and some megabytes
        # for all.
        self.assertLess(peak_bytes(broker.process.pid) - before, 20 * 4_065_536 * 9 / 8 + 8_000_000)
        for program in programs:
            program.send(b"\0")
        self.assertEqual([program.reply() for program in programs], [success(50)] * 20)

    def test_more_connections_than_allowed_are_turned_away(self) -> None:
        broker = self.begin("--connections", "2")
        first, second = self.connect(broker), self.connect(broker)
        self.assertEqual([first.ask(plain(1)), second.ask(plain(1))], [success(1)] * 2)
        for _ in range(3):
            self.assertTrue(self.connect(broker).is_turned_away())
        self.assertTrue(broker.says("all have 2 connections, the limit (--connections)"))
        self.assertEqual(first.ask(plain(50)), success(50))
        second.sock.close()
        self.assertTrue(broker.wait_for(lambda: self.is_let_in(broker)))

    def is_let_in(self, broker: Broker) -> bool:
        with broker.program() as program:
            return program.ask(plain(51)) == success(51)

    def test_a_process_has_so_many_and_leaves_others_theirs(self) -> None:
        broker = self.begin("--per-process", "2")
        programs = [self.connect(broker) for _ in range(3)]
        self.assertEqual([program.ask(plain(1)) for program in programs[:2]], [success(1)] * 2)
        self.assertTrue(programs[2].is_turned_away())
        self.assertTrue(broker.says(f"process {os.getpid()} of user {os.getuid()} is turned away: "
                                    "it has 2 connections, the limit (--per-process)"))
        other = subprocess.run([sys.executable, "-c", ASK_ONCE, broker.path],
                               stdout=subprocess.PIPE, timeout=LATE)
        self.assertEqual(other.stdout, success(1))
        programs[0].sock.close()
        self.assertTrue(broker.wait_for(lambda: self.is_let_in(broker)))

    def test_a_user_has_so_many(self) -> None:
        broker = self.begin("--per-user", "2")
        programs = [self.connect(broker) for _ in range(3)]
        self.assertEqual([program.ask(plain(1)) for program in programs[:2]], [success(1)] * 2)
        self.assertTrue(programs[2].is_turned_away())
        self.assertTrue(broker.says("its user has 2 connections, the limit (--per-user)"))

    def test_who_is_turned_away_is_told_though_its_frame_is_long(self) -> None:
        broker = self.begin("--connections", "1")
        self.assertEqual(self.connect(broker).ask(plain(1)), success(1))
        program = self.connect(broker)
        with contextlib.suppress(BrokenPipeError, ConnectionResetError):
            program.send(plain(50, bytes(3_000_000), 9))
        self.assertEqual(program.reply(), wire.reply_frame(9, 50, wire.NO_RESOURCES))

    def test_those_who_are_turned_away_and_say_nothing_are_ended(self) -> None:
        broker = self.begin("--connections", "1")
        self.assertEqual(self.connect(broker).ask(plain(1)), success(1))
        silent = [self.connect(broker) for _ in range(100)]
        self.assertTrue(all(program.has_ended() for program in silent[:30]))

    def test_one_that_asks_nothing_is_ended_where_that_is_told(self) -> None:
        broker = self.begin("--idle", "1")
        idle, busy, gate = self.connect(broker), self.connect(broker), self.gate(broker)
        self.assertEqual(idle.ask(plain(1)), success(1))
        busy.send(gate.frame)
        self.assertTrue(broker.wait_for(gate.is_reached))
        self.assertTrue(idle.has_ended())
        self.assertTrue(broker.says("asked nothing for 1 s"))
        # A request that takes longer isn't asking nothing.
        gate.let_go()
        self.assertEqual(busy.reply(), success(HOLD))


# What a process of its own asks.
ASK_ONCE = """
import socket, sys
sock = socket.socket(socket.AF_UNIX)
sock.connect(sys.argv[1])
sock.sendall(bytes((0, 0, 0, 3, 0, 7, 1)))
sys.stdout.buffer.write(sock.recv(8))
"""


# A process that streams short frames of many clients, and looks at each reply.
STREAM = """
import socket, struct, sys, threading
sock = socket.socket(socket.AF_UNIX)
sock.connect(sys.argv[1])
clients = [(int(sys.argv[2]) * 1000 + k) % 65536 for k in range(20_000)]
frames = b"".join(struct.pack(">IHB", 3, client, 4) for client in clients)
threading.Thread(target=sock.sendall, args=(frames,), daemon=True).start()
wanted, got = b"".join(struct.pack(">IHBB", 4, client, 4, 0) for client in clients), b""
while len(got) < len(wanted):
    data = sock.recv(65536)
    got += data
    if not data:
        sys.exit(2)
sys.exit(got != wanted)
"""


class Turns(BrokerTest):
    """A connection waits for at most one request of each other connection."""

    def test_a_flood_gets_its_turn_and_no_more(self) -> None:
        broker = self.begin()
        floods, each = [self.connect(broker) for _ in range(3)], 2000
        for flood in floods:
            flood.send(plain(WAIT, b"\0\3") * each)
        other = self.connect(broker)
        # All at once, so that it is never this program that is waited for.
        self.assertEqual(other.ask_ahead([plain(50)] * 20), [success(50)] * 20)
        asked = other.who_asked()
        own = [at for at, entry in enumerate(asked) if entry == (asked[-1][0], 50)]
        waits = [op for _, op in asked[own[0] : own[-1]] if op == WAIT]
        # At most one turn of each flood.
        self.assertLessEqual(len(waits), 20 * 3)

    def test_a_short_request_waits_for_one_long_one_alone(self) -> None:
        broker = self.begin()
        slow, other = [self.connect(broker) for _ in range(6)], self.connect(broker)
        for program in slow:
            program.send(plain(WAIT, struct.pack(">H", 100)) * 10)
        self.assertEqual(slow[0].reply(), success(WAIT))
        for _ in range(10):
            self.assertEqual(other.ask(plain(50)), success(50))
        asked = other.who_asked()
        begin = asked.index((asked[-1][0], 50))
        waited = [op for _, op in asked[begin : len(asked) - 1] if op == WAIT]
        # One for each request of six that wait; more where this program was kept waiting by the
        # machine.
        self.assertLess(len(waited), 3 * 10)
        for program in slow:
            self.assertEqual(program.reply(), success(WAIT))

    def test_long_requests_have_their_turns_beside_short_ones(self) -> None:
        broker = self.begin()
        slow, others = self.connect(broker), [self.connect(broker) for _ in range(3)]
        for program in others:
            program.sock.setblocking(False)
        floods = [memoryview(plain(SHORT) * 100_000) for _ in others]
        slow.send(plain(WAIT, struct.pack(">H", 30)) * 10)
        slow.sock.settimeout(0.001)
        replies, end = b"", time.monotonic() + LATE
        while len(replies) < 10 * 8 and time.monotonic() < end:
            for k, program in enumerate(others):
                with contextlib.suppress(BlockingIOError):
                    floods[k] = floods[k][program.sock.send(floods[k][:65536]) :] or floods[k]
                with contextlib.suppress(BlockingIOError):
                    program.sock.recv(65536)
            with contextlib.suppress(socket.timeout):
                replies += slow.sock.recv(8)
        self.assertEqual(replies, success(WAIT) * 10)

    def test_a_stream_of_short_requests_is_a_turn_each_few_thousand_bytes(self) -> None:
        broker = self.begin()
        stream, other = self.connect(broker), self.connect(broker)
        stream.send(plain(SHORT, b"") * 4000)
        self.assertEqual(other.ask(plain(SHORT)), success(SHORT))
        asked = other.who_asked()
        before = asked.index((asked[-1][0], SHORT))
        self.assertLess(before, 3 * TURN_BYTES // len(plain(SHORT)))
        self.assertEqual([stream.reply() for _ in range(4000)], [success(SHORT)] * 4000)

    def test_the_half_of_a_long_frame_stops_nobody(self) -> None:
        broker = self.begin()
        slow, other = self.connect(broker), self.connect(broker)
        frame = plain(50, bytes(10_000_000))
        slow.send(frame[:-100])
        for _ in range(50):
            self.assertEqual(other.ask(plain(51)), success(51))
        slow.send(frame[-100:])
        self.assertEqual(slow.reply(), success(50))

    def test_long_frames_of_others_are_waited_for_once_each(self) -> None:
        broker = self.begin()
        great = [self.connect(broker) for _ in range(2)]
        other = self.connect(broker)
        for program in great:
            program.sock.setblocking(False)
        frames = [memoryview(plain(50, bytes(2_000_000)) * 20) for _ in great]
        asked = 0
        end = time.monotonic() + LATE
        while any(frames) and time.monotonic() < end:
            for k, program in enumerate(great):
                try:
                    frames[k] = frames[k][program.sock.send(frames[k][:262_144]) :]
                except BlockingIOError:
                    pass
            self.assertEqual(other.ask(plain(51)), success(51))
            asked += 1
        self.assertGreaterEqual(asked, 40)


if __name__ == "__main__":
    unittest.main()
