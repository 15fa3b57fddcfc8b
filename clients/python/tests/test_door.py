"""The door: a server for each connection, its limits, ends and reports, with a plain server
(plain_server.py), and with the server's program if the environment variable FEQYLDAN_PROGRAM has
its path."""

import concurrent.futures
import contextlib
import os
import re
import select
import signal
import socket
import stat
import struct
import subprocess
import sys
import tempfile
import threading
import time
import unittest
import unittest.mock
from typing import Dict, List

from broker_tools import (
    CLIENT, HERE, LATE, PACKAGE, PLAIN, PROGRAM, Broker, BrokerTest, Door, Program, all_of,
    files_of, plain, runs, success)
import feqyldan as vx
from feqyldan import program, wire
from feqyldan.door.program import Program as ServerProgram, chosen
from feqyldan.door.server import set_time
from feqyldan.door.starter import Starter
from feqyldan.door.starting import NICE
from feqyldan.door.trial import TRIAL_SECONDS
from feqyldan.door.waiting import USERS, Waiting
from feqyldan.service.admission import MOST_TOLD, Accepted, Admission, Owner
from feqyldan.service.descriptors import Descriptors
from feqyldan.service.events import Events
from feqyldan.service.lines import LINES_OF_A_USER, Lines, Unusable
from feqyldan.service.listener import listen_at
from feqyldan.service.peers import Peer, Ranges
from feqyldan.service.visitors import VISITORS_AT_ONCE, StatusSocket, Visitors
from plain_server import EXIT, HOLD, MANY_BYTES, MISTAKE, WHO_ASKED

# A door that looks for no events while the file `pause` of a folder exists. It makes the file
# `pauses` there.
WITH_PAUSE = """
import os, time
from feqyldan.service.events import Events
os.chdir({!r})
ready = Events.ready
def ready_after_pause(*words):
    while os.path.exists("pause"):
        open("pauses", "w").close()
        time.sleep(0.01)
    return ready(*words)
Events.ready = ready_after_pause
"""
# Runs a program of bench/door that takes a second to close its connection, and prints the processes
# that run after its end.
CLOSES_SLOWLY = """
import importlib.util, multiprocessing, os, sys, time
from importlib.machinery import SourceFileLoader
multiprocessing.set_start_method("fork")
sys.path.insert(0, sys.argv[1])
loader = SourceFileLoader("door", os.path.join(sys.argv[1], "door"))
door = importlib.util.module_from_spec(importlib.util.spec_from_loader("door", loader))
loader.exec_module(door)
class Way:
    connect = context = __enter__ = lambda self: self
    def __exit__(self, *_):
        time.sleep(1)
door.Programs(1, lambda context: lambda: None, Way(), 0.01).ended()
print(multiprocessing.active_children())
"""
# A program whose name isn't in any encoding.
NAMES_ITSELF = """
import ctypes, sys
ctypes.CDLL(None).prctl(15, b"\\xff", 0, 0, 0)
sys.stdin.read()
"""
needs_program = unittest.skipUnless(PROGRAM, "FEQYLDAN_PROGRAM doesn't name the server's program")


def program_of(process: int) -> str:
    """Returns the name of the program that a process runs."""
    with open(f"/proc/{process}/comm") as file:
        return file.read().rstrip("\n")


class DoorTest(BrokerTest):
    kind = Door

    def server_of(self, door: Broker, at: int = -1) -> int:
        """Returns the process of a server, by default of the last one."""
        process: int = door.state()["servers"][at]["process"]
        return process

    def has_nothing(self, door: Broker) -> bool:
        """Returns whether no server is left, and the door has no more open files than at its
        start."""
        return door.wait_for(lambda: not door.children()
                             and not door.state()["servers"])


class Connections(DoorTest):
    """Each connection has a server of its own, and the door delays nobody."""

    def test_each_has_a_server_of_its_own(self) -> None:
        door = self.begin(tells_state=True)
        programs = [self.connect(door) for _ in range(3)]
        for asked in programs:
            self.assertEqual(asked.ask(plain(1)), success(1))
        self.assertEqual([asked.who_asked() for asked in programs],
                         [[(CLIENT, 1), (CLIENT, WHO_ASKED)]] * 3)
        servers = {server["process"] for server in door.state()["servers"]}
        self.assertEqual(len(servers), 3)
        # It has the connection and standard error, and nothing of the door.
        self.assertEqual({files_of(server) for server in servers}, {3})

    def test_frames_and_replies_pass_as_they_are(self) -> None:
        asker = self.connect(self.begin())
        for client in (0, 7, 65_535):
            self.assertEqual(asker.ask(plain(50, b"x", client)), success(50, b"", client))
        frames = [plain(k % 90, bytes(k % 50)) for k in range(3000)]
        self.assertEqual(asker.ask_ahead(frames), [success(k % 90) for k in range(3000)])
        for size in (65_529, 1_000_003):
            frames = [plain(50, bytes(size)), plain(MANY_BYTES, struct.pack(">I", size)), plain(51)]
            self.assertEqual(asker.ask_ahead(frames * 2),
                             [success(50), success(MANY_BYTES, bytes(size)), success(51)] * 2)
        asker.send(plain(1) * 90)
        asker.sock.shutdown(socket.SHUT_WR)
        self.assertEqual([asker.reply() for _ in range(91)], [success(1)] * 90 + [b""])

    def test_a_server_s_end_is_its_connection_s_alone(self) -> None:
        door = self.begin()
        one, other = self.connect(door), self.connect(door)
        for asker in (one, other):
            self.assertEqual(asker.ask(plain(1)), success(1))
        for op, words in ((plain(EXIT, b"\3"), "ended with status 3: its connection's frames"),
                          (plain(EXIT, b"\x63"), "ended with status 99")):
            one.send(op)
            self.assertTrue(one.has_ended())
            self.assertTrue(door.says(words))
            one = self.connect(door)
            self.assertEqual(one.who_asked(), [(CLIENT, WHO_ASKED)])
        self.assertEqual(other.ask(plain(50)), success(50))
        self.assertIn(f"for process {os.getpid()} of user {os.getuid()} ended", door.words())

    def test_one_that_hangs_or_is_killed_is_nobody_else_s_affair(self) -> None:
        door = self.begin(tells_state=True)
        one, other = self.connect(door), self.connect(door)
        for asker in (one, other):
            self.assertEqual(asker.ask(plain(1)), success(1))
        os.kill(self.server_of(door, 0), signal.SIGSTOP)
        one.send(plain(50))
        self.assertEqual(other.ask(plain(50)), success(50))
        self.assertEqual(self.connect(door).ask(plain(1)), success(1))
        os.kill(self.server_of(door, 0), signal.SIGKILL)
        self.assertTrue(one.has_ended())
        self.assertTrue(door.says("was ended by signal 9"))
        self.assertEqual(other.ask(plain(50)), success(50))

    def test_who_lies_about_its_replies_lies_to_its_own_program(self) -> None:
        asker = self.connect(self.begin())
        self.assertEqual(asker.ask(plain(MISTAKE)), success(MISTAKE, b"", CLIENT + 1))


class Ends(DoorTest):
    """When a connection ends, its server ends, and nothing of it is left."""

    def test_nothing_is_left_of_those_that_came_and_went(self) -> None:
        door = self.begin(tells_state=True)
        self.assertTrue(self.has_nothing(door))
        before = files_of(door.process.pid)
        for _ in range(20):
            askers = [self.connect(door) for _ in range(5)]
            self.assertEqual([asker.ask(plain(1)) for asker in askers], [success(1)] * 5)
            askers[0].send(plain(50)[:5])
            for asker in askers:
                asker.sock.close()
        self.assertTrue(self.has_nothing(door))
        self.assertEqual(files_of(door.process.pid), before)
        state = door.state()
        self.assertEqual(state["connections"], {"open": 0, "accepted": 100, "turned_away": 0})
        self.assertEqual(state["servers_ended"], 100)

    def test_one_that_has_ended_before_it_is_accepted_gets_no_server(self) -> None:
        """Nor is it turned away, although there is no free connection."""
        door = self.begin("--connections", "1", tells_state=True)
        asker = self.connect(door)
        self.assertEqual(asker.ask(plain(1)), success(1))
        door.process.send_signal(signal.SIGSTOP)
        for _ in range(50):
            self.connect(door).sock.close()
        door.process.send_signal(signal.SIGCONT)
        self.assertTrue(door.wait_for(lambda: door.state()["connections"]["accepted"] == 51))
        state = door.state()
        self.assertEqual((state["connections"]["turned_away"], state["servers_ended"]), (0, 0))

    def test_a_request_that_nobody_waits_for_ends_with_its_connection(self) -> None:
        door = self.begin("--grace", "1000", tells_state=True)
        gate, asker = self.gate(door), self.connect(door)
        asker.send(gate.frame)
        self.assertTrue(door.wait_for(gate.is_reached))
        asker.sock.close()
        self.assertTrue(self.has_nothing(door))
        self.assertEqual((door.state()["servers_failed"], door.state()["servers_ended"]), (0, 1))

    def test_both_may_end_at_the_same_time(self) -> None:
        """The door finds out about the ends of a server and of its connection together."""
        with tempfile.TemporaryDirectory() as folder:
            door = self.begin(tells_state=True, prelude=WITH_PAUSE.format(folder))
            asker = self.connect(door)
            self.assertEqual(asker.ask(plain(1)), success(1))
            server, pause = self.server_of(door), os.path.join(folder, "pause")
            with open(pause, "w"):
                # Wakes it up.
                self.connect(door).sock.close()
            self.assertTrue(door.wait_for(lambda: os.path.exists(f"{pause}s")))
            os.kill(server, signal.SIGKILL)
            self.assertTrue(door.wait_for(lambda: not runs(server)))
            asker.sock.close()
            os.unlink(pause)
            self.assertTrue(self.has_nothing(door))
            self.assertEqual(self.connect(door).ask(plain(1)), success(1))

    def test_a_stopped_server_ends_with_its_connection(self) -> None:
        door = self.begin("--grace", "1000", "--connections", "1", tells_state=True)
        asker = self.connect(door)
        self.assertEqual(asker.ask(plain(1)), success(1))
        os.kill(self.server_of(door), signal.SIGSTOP)
        asker.sock.close()
        self.assertTrue(self.has_nothing(door))
        self.assertEqual(self.connect(door).ask(plain(1)), success(1))

    def test_one_that_writes_no_more_but_reads_is_not_gone(self) -> None:
        door = self.begin("--grace", "1")
        gate, asker = self.gate(door), self.connect(door)
        asker.send(gate.frame)
        asker.sock.shutdown(socket.SHUT_WR)
        self.assertTrue(door.wait_for(gate.is_reached))
        time.sleep(2.5)
        gate.let_go()
        self.assertEqual(asker.reply(), success(HOLD))
        self.assertTrue(asker.has_ended())

    @needs_program
    def test_who_takes_no_replies_is_ended_after_the_patience(self) -> None:
        door = self.begin("--patience", "1", command=[str(PROGRAM), "serve"], tells_state=True)
        deaf = self.connect(door)
        deaf.send(wire.open_context(CLIENT) + wire.create_image(CLIENT, wire.U8, 4096, 4096)
                  + wire.read_image(CLIENT, 1))
        self.assertTrue(self.has_nothing(door))
        self.assertTrue(door.says("ended: its program took no reply for 1 s (--patience)"))

    @needs_program
    def test_who_sends_nothing_is_ended_where_that_is_told(self) -> None:
        door = self.begin("--idle", "1", command=[str(PROGRAM), "serve"])
        idle, half = self.connect(door), self.connect(door)
        self.assertEqual(wire.code_of(idle.ask(wire.open_context(CLIENT))), wire.SUCCESS)
        half.send(wire.open_context(CLIENT)[:5])
        self.assertTrue(idle.has_ended() and half.has_ended())
        self.assertTrue(door.says("ended: its program sent no request for 1 s (--idle), or took no "
                                  "reply for 30 s (--patience)"))

    def test_what_was_sent_is_answered_when_the_door_is_told_to_end(self) -> None:
        for which in (signal.SIGTERM, signal.SIGINT):
            door = self.begin()
            busy, idle, gate = self.connect(door), self.connect(door), self.gate(door)
            self.assertEqual(idle.ask(plain(1)), success(1))
            busy.send(gate.frame + plain(50))
            self.assertTrue(door.wait_for(gate.is_reached))
            # As a terminal does.
            os.killpg(door.process.pid, which)
            self.assertTrue(door.says(f"ends because of {which.name}"))
            self.assertTrue(idle.has_ended())
            gate.let_go()
            self.assertEqual([busy.reply(), busy.reply(), busy.reply()],
                             [success(HOLD), success(50), b""])
            self.assertEqual(door.status(), 0)
            self.assertFalse(os.path.exists(door.path))

    def test_it_ends_in_time(self) -> None:
        for signals, grace, words in ((1, "1", "its request takes longer than 1 s (--grace)"),
                                      (2, "1000", "the door was told twice to end")):
            door = self.begin("--grace", grace, tells_state=True)
            busy, gate = self.connect(door), self.gate(door)
            busy.send(gate.frame)
            self.assertTrue(door.wait_for(gate.is_reached))
            server = self.server_of(door)
            for _ in range(signals):
                door.process.terminate()
                self.assertTrue(door.says("ends because of SIGTERM"))
            self.assertEqual(door.status(), 0)
            self.assertIn(words, door.words())
            self.assertTrue(busy.has_ended())
            self.assertFalse(runs(server))

    def test_programs_go_on_where_the_door_is_killed(self) -> None:
        door = self.begin(tells_state=True)
        asker = self.connect(door)
        self.assertEqual(asker.ask(plain(1)), success(1))
        server = self.server_of(door)
        door.process.kill()
        door.process.wait()
        for _ in range(100):
            self.assertEqual(asker.ask(plain(50)), success(50))
        # Another one takes the place of the first, and begins with no connection.
        again = self.begin(path=door.path)
        self.assertEqual(self.connect(again).ask(plain(1)), success(1))
        self.assertEqual(asker.ask(plain(50)), success(50))
        asker.sock.close()
        self.assertTrue(again.wait_for(lambda: not runs(server)))

    def test_nothing_is_said_where_the_door_is_killed(self) -> None:
        """Not even if it hasn't read that a server has ended."""
        door = self.begin(tells_state=True)
        self.assertEqual(self.connect(door).ask(plain(1)), success(1))
        server, starter = self.server_of(door), door.starter
        door.process.send_signal(signal.SIGSTOP)
        os.kill(server, signal.SIGKILL)
        self.assertTrue(door.wait_for(lambda: not os.path.exists(f"/proc/{server}")))
        time.sleep(0.1)
        door.process.kill()
        door.process.wait()
        end = time.monotonic() + LATE
        while runs(starter) and time.monotonic() < end:
            time.sleep(0.01)
        self.assertNotIn("Traceback", door.words())

    def test_programs_go_on_where_the_process_that_starts_servers_is_killed(self) -> None:
        door = self.begin()
        asker = self.connect(door)
        self.assertEqual(asker.ask(plain(1)), success(1))
        os.kill(door.starter, signal.SIGKILL)
        self.assertEqual(door.status(), 2)
        self.assertIn("the process that starts the servers has ended", door.words())
        self.assertEqual(asker.ask(plain(50)), success(50))


class OneEnd(unittest.TestCase):
    def test_a_wait_whose_time_is_over_is_none(self) -> None:
        starter = Starter.__new__(Starter)
        starter.sock, other = socket.socketpair()
        with starter.sock, other:
            late = threading.Timer(1.0, other.send, [b"x"])
            late.start()
            self.assertEqual(starter.wait(select.POLLIN, -1e-6), 0)
            late.join()

    def test_the_shortest_time_is_not_without_end(self) -> None:
        here, there = socket.socketpair()
        with here, there:
            for seconds, told in ((1e-9, (0, 1)), (0.25, (0, 250_000)), (1e6, (1_000_000, 0))):
                with unittest.mock.patch.object(socket.socket, "setsockopt") as called:
                    set_time(here, socket.SO_RCVTIMEO, seconds)
                self.assertEqual(struct.unpack("@ll", called.call_args[0][2]), told)


class Admissions(unittest.TestCase):
    """Whom the connections of the users in a user's range count for."""

    def setUp(self) -> None:
        events, lines = Events(), Lines("test")
        self.addCleanup(events.close)
        self.admission = Admission(2, 64, Accepted(), lines, events, Descriptors())
        self.addCleanup(self.admission.turned_away.end_all)
        said = unittest.mock.patch.object(lines, "say")
        self.say = said.start()
        self.addCleanup(said.stop)

    def turn_away(self, owner: Owner) -> socket.socket:
        here, there = socket.socketpair()
        self.addCleanup(there.close)
        self.admission.turn_away(here, owner, "why")
        return here

    def test_a_process_may_be_several_users(self) -> None:
        owners = [Owner(5, 100_000 + k, 7) for k in range(3)]
        for owner in owners[:2]:
            self.assertIsNone(self.admission.reason_against(owner))
            self.admission.let_in(owner)
        self.assertEqual(self.admission.reason_against(owners[2]),
                         "it has 2 connections, the limit (--per-process)")
        self.assertIsNone(self.admission.reason_against(Owner(5, 8, 8)))
        self.assertEqual(self.admission.present, 2)
        for owner in owners[:2]:
            self.admission.let_out(owner)
        self.assertEqual((self.admission.present, dict(self.admission.processes)), (0, {}))

    def test_those_of_a_range_push_none_of_another_user_out(self) -> None:
        honest = self.turn_away(Owner(4, 8, 8))
        for k in range(VISITORS_AT_ONCE + 5):
            self.turn_away(Owner(5, 100_000 + k, 7))
        self.assertIn(honest, self.admission.turned_away.present)
        self.assertEqual(len(self.admission.turned_away.present), VISITORS_AT_ONCE)

    def test_nor_where_they_ask_for_the_state(self) -> None:
        events, descriptors = Events(), Descriptors()
        self.addCleanup(events.close)
        with tempfile.TemporaryDirectory() as folder, socket.socket(socket.AF_UNIX) as asker:
            path, ranges = os.path.join(folder, "status"), os.path.join(folder, "subuid")
            with open(ranges, "w") as file:
                file.write("7:100000:9\n")
            status = StatusSocket(listen_at(path, 0o600), events, descriptors, dict, str,
                                  Ranges(ranges))
            asker.connect(path)
            with unittest.mock.patch("feqyldan.service.visitors.peer_of",
                                     return_value=Peer(5, 100_003, 0)):
                status.accept(0)
            self.assertEqual([one.user for one in status.visitors.present.values()], [7])
            status.close()

    def test_so_many_processes_are_remembered(self) -> None:
        self.admission.told.update(Owner(k, 7, 7) for k in range(MOST_TOLD))
        self.turn_away(Owner(MOST_TOLD, 7, 7))
        self.turn_away(Owner(MOST_TOLD, 7, 7))
        self.say.assert_called_once_with(f"process {MOST_TOLD} of user 7 is turned away: why")
        self.assertLessEqual(len(self.admission.told), MOST_TOLD)


class Logs(unittest.TestCase):
    def test_one_user_fills_no_log(self) -> None:
        """Nor does it keep the lines about others away."""
        lines = Lines("test")
        with unittest.mock.patch.object(lines, "write") as write, \
                unittest.mock.patch("time.monotonic", side_effect=range(1000, 3000)):
            for _ in range(1000):
                lines.say_of(7, "of user 7")
            lines.say_of(8, "of user 8")
        written = [call[0][0] for call in write.call_args_list]
        self.assertEqual(written, ["of user 7"] * LINES_OF_A_USER + [
            f"{1000 - LINES_OF_A_USER} lines are left out here", "of user 8"])


class Turns(unittest.TestCase):
    """The order in which servers are started."""

    def setUp(self) -> None:
        self.waiting = Waiting()
        self.sock = socket.socket(socket.AF_UNIX)
        self.addCleanup(self.sock.close)

    def add(self, process: int, user: int) -> None:
        # Users of a range count as its owner.
        self.waiting.add(self.sock, Owner(process, 100_000 + process, user))

    def take(self, count: int) -> List[int]:
        return [self.waiting.take()[1].process for _ in range(count)]

    def test_users_take_turns(self) -> None:
        for process, user in enumerate((1, 1, 1, 1, 2, 3, 3)):
            self.add(process, user)
        self.assertEqual(self.take(3), [0, 4, 5])
        # A user without a start goes first.
        self.add(7, 4)
        self.assertEqual(self.take(5), [7, 1, 6, 2, 3])
        self.assertEqual(len(self.waiting), 0)

    def test_the_last_start_longest_ago_goes_first(self) -> None:
        for process in range(3):
            self.add(process, process)
            self.take(1)
        for process in (2, 0, 1):
            self.add(process, process)
        self.assertEqual(self.take(3), [0, 1, 2])

    def test_old_starts_are_forgotten(self) -> None:
        for process in range(2 * USERS):
            self.add(process, process)
            self.take(1)
        self.assertEqual(len(self.waiting.last), USERS)
        for process in (2 * USERS - 1, 0):
            self.add(process, process)
        self.assertEqual(self.take(2), [0, 2 * USERS - 1])


class Limits(DoorTest):
    """Connections and memory."""

    def test_more_connections_than_allowed_are_turned_away(self) -> None:
        for options, words in ((("--connections", "2"),
                                "all have 2 connections, the limit (--connections)"),
                               (("--per-process", "2"),
                                "it has 2 connections, the limit (--per-process)"),
                               (("--per-user", "2"),
                                "its user has 2 connections, the limit (--per-user)"),
                               (("--memory", "100000000", "--total-memory", "250000000"),
                                "2 servers may take 200000000 bytes, and one more would exceed "
                                "250000000 (--total-memory)")):
            door = self.begin(*options)
            askers = [self.connect(door) for _ in range(2)]
            self.assertEqual([asker.ask(plain(1)) for asker in askers], [success(1)] * 2)
            for _ in range(3):
                self.assertTrue(self.connect(door).is_turned_away())
            self.assertTrue(door.says(f"process {os.getpid()} of user {os.getuid()} is turned "
                                      f"away: {words}"))
            askers[0].sock.close()
            self.assertTrue(door.wait_for(lambda: self.is_let_in(door)))
            self.assertEqual(askers[1].ask(plain(50)), success(50))

    def is_let_in(self, door: Broker) -> bool:
        with door.program() as asker:
            return asker.ask(plain(51)) == success(51)

    def test_each_server_has_its_part_of_the_memory(self) -> None:
        for words, limit in ((("--memory", "123456789"), "123456789"),
                             (("--memory", "unlimited"), "unlimited"),
                             (("--total-memory", "6400000000"), "100000000"),
                             (("--total-memory", "unlimited"), "unlimited"),
                             (("--total-memory", "900000000", "--connections", "3"), "300000000")):
            door = self.begin(*words, tells_state=True)
            self.assertEqual(self.connect(door).ask(plain(1)), success(1))
            with open(f"/proc/{self.server_of(door)}/limits") as limits:
                line = next(line for line in limits if line.startswith("Max address space"))
            self.assertEqual(line.split()[3], limit)

    @needs_program
    def test_a_server_under_a_limit_answers_and_lives(self) -> None:
        door = self.begin("--memory", "100000000", command=[str(PROGRAM), "serve"],
                          tells_state=True)
        great, other = self.connect(door), self.connect(door)
        for asker in (great, other):
            self.assertEqual(wire.code_of(asker.ask(wire.open_context(CLIENT))), wire.SUCCESS)
        codes = [wire.code_of(great.ask(wire.create_image(CLIENT, wire.U8, 4096, 4096)))
                 for _ in range(12)]
        self.assertEqual({*codes}, {wire.SUCCESS, wire.NO_MEMORY})
        # The other has all of its own.
        self.assertEqual(wire.code_of(other.ask(wire.create_image(CLIENT, wire.U8, 4096, 4096))),
                         wire.SUCCESS)
        for server in door.state()["servers"]:
            self.assertLessEqual(server["peak_memory_bytes"], 100_000_000)

    def test_servers_that_are_nice(self) -> None:
        for words, nice in ((("--nice", "7"), 7), ((), 0)):
            door = self.begin(*words, tells_state=True)
            self.assertEqual(self.connect(door).ask(plain(1)), success(1))
            self.assertEqual(os.getpriority(os.PRIO_PROCESS, self.server_of(door)), nice)

    @unittest.skipIf(os.geteuid(), "root alone raises a priority")
    def test_the_door_goes_before_its_servers(self) -> None:
        door = self.begin()
        self.assertEqual(self.connect(door).ask(plain(1)), success(1))
        self.assertEqual(os.getpriority(os.PRIO_PROCESS, door.process.pid), NICE)
        with open(f"/proc/{door.process.pid}/autogroup") as file:
            self.assertEqual(file.read().split()[1:], ["nice", str(NICE)])

    @unittest.skipIf(os.geteuid(), "root alone starts servers as other users")
    def test_each_server_runs_as_its_connection_s_user(self) -> None:
        door = self.begin("--user-of-peer", "--mode", "0666", tells_state=True,
                          command=["/bin/cat"])
        os.chmod(door.folder.name, 0o755)
        asks = ("import os, socket, sys\nos.setgroups([])\nos.setgid(4321)\nos.setuid(1234)\n"
                "sock = socket.socket(socket.AF_UNIX)\nsock.connect(sys.argv[1])\n"
                "print(flush=True)\nsys.stdin.read()")
        other = subprocess.Popen([sys.executable, "-c", asks, door.path], stdin=subprocess.PIPE,
                                 stdout=subprocess.PIPE)
        self.addCleanup(other.communicate)
        assert other.stdout is not None
        other.stdout.readline()
        self.assertTrue(door.wait_for(lambda: len(door.state()["servers"]) == 1))
        server, = door.state()["servers"]
        self.assertEqual((server["of_process"], server["of_user"]), (other.pid, 1234))
        self.assertTrue(door.wait_for(lambda: program_of(server["process"]) == "cat"))
        with open(f"/proc/{server['process']}/status") as file:
            lines = dict(line.rstrip("\n").split(":\t", 1) for line in file if ":\t" in line)
        self.assertEqual((lines["Uid"], lines["Gid"], lines["Groups"].strip()),
                         ("1234\t" * 3 + "1234", "4321\t" * 3 + "4321", ""))
        with open(f"/proc/{server['process']}/limits") as file:
            line = next(line for line in file if line.startswith("Max processes"))
        self.assertEqual(line.split()[2:4], ["0", "0"])

    def test_so_many_files_as_connections(self) -> None:
        """Under a low limit on open files the door says so, or serves all of its connections."""
        low = ("prlimit", "--nofile=300:300")
        door = self.begin_any(before=low)
        self.assertEqual(door.status(), 2)
        self.assertIn("64 connections need 320 open files, and 300 are allowed: allow more (ulimit "
                      "-Hn), or lower --connections",
                      door.words())
        door = self.begin("--connections", "44", before=low, tells_state=True)
        askers = [self.connect(door) for _ in range(44)]
        self.assertEqual([asker.ask(plain(1)) for asker in askers], [success(1)] * 44)
        silent = [self.connect(door) for _ in range(70)]
        self.assertTrue(silent[0].has_ended())
        self.assertEqual([asker.ask(plain(1)) for asker in askers], [success(1)] * 44)


class Programs(DoorTest):
    """The program that is started."""

    def write(self, path: str, text: str) -> None:
        os.makedirs(os.path.dirname(path), exist_ok=True)
        with open(path + ".new", "w") as file:
            file.write(text)
        os.chmod(path + ".new", 0o755)
        os.replace(path + ".new", path)

    def test_a_new_program_by_a_signal(self) -> None:
        with tempfile.TemporaryDirectory() as folder:
            path, link = os.path.join(folder, "first"), os.path.join(folder, "program")
            self.write(path, f"#!/bin/sh\nexec {' '.join(PLAIN)}\n")
            os.symlink(path, link)
            door = self.begin(command=[link])
            before = self.connect(door)
            self.assertEqual(before.ask(plain(1)), success(1))
            os.unlink(link)
            door.process.send_signal(signal.SIGHUP)
            self.assertTrue(door.says(f"keeps {link} after SIGHUP: there is no program {link} "))
            self.write(link, "#!/bin/sh\nexit 7\n")
            door.process.send_signal(signal.SIGHUP)
            self.assertTrue(door.says(f"{link} ended with status 7 on empty input, not with 0: "))
            self.write(link, f"#!/bin/sh\nexec {' '.join(PLAIN)}\n")
            door.process.send_signal(signal.SIGHUP)
            self.assertTrue(door.says("for new connections after SIGHUP"))
            self.assertEqual(self.connect(door).ask(plain(1)), success(1))
            self.assertEqual(before.ask(plain(50)), success(50))

    def test_a_program_that_cant_be_started_turns_a_connection_away(self) -> None:
        with tempfile.TemporaryDirectory() as folder:
            path, shell = os.path.join(folder, "program"), os.path.join(folder, "shell")
            os.symlink("/bin/sh", shell)
            self.write(path, f"#!{shell}\nexec {' '.join(PLAIN)}\n")
            door = self.begin(command=[path], tells_state=True)
            os.unlink(shell)
            self.assertTrue(self.connect(door).is_turned_away())
            self.assertTrue(door.says("is turned away: no server could be started"))
            os.symlink("/bin/sh", shell)
            self.assertEqual(self.connect(door).ask(plain(1)), success(1))
            self.assertEqual(door.state()["connections"]["open"], 1)

    def test_the_file_that_was_tried_is_the_one_that_runs(self) -> None:
        """Also after another one has taken its path, or nothing is there."""
        with tempfile.TemporaryDirectory() as folder:
            path = os.path.join(folder, "program")
            self.write(path, f"#!/bin/sh\nexec {' '.join(PLAIN)}\n")
            door = self.begin(command=[path])
            self.write(path, "#!/bin/sh\nexit 7\n")
            self.assertEqual(self.connect(door).ask(plain(1)), success(1))
            door.process.send_signal(signal.SIGHUP)
            self.assertTrue(door.says(f"keeps {path} after SIGHUP: {path} ended with status 7"))
            self.assertEqual(self.connect(door).ask(plain(1)), success(1))
            os.unlink(path)
            self.assertEqual(self.connect(door).ask(plain(1)), success(1))

    @unittest.skipIf(os.geteuid(), "root alone starts servers as other users")
    def test_a_program_that_root_alone_may_run_fails_its_trial(self) -> None:
        """A connection's user couldn't run it."""
        with tempfile.TemporaryDirectory() as folder:
            os.chmod(folder, 0o755)
            path = os.path.join(folder, "program")
            self.write(path, "#!/bin/sh\nexec cat\n")
            door = self.begin("--user-of-peer", command=[path])
            self.write(path, "#!/bin/sh\nexec cat\n")
            os.chmod(path, 0o700)
            door.process.send_signal(signal.SIGHUP)
            self.assertTrue(door.says(f"keeps {path} after SIGHUP: {path} can't be started as "
                                      "another user (--user-of-peer): [Errno 13]"))
            again = self.begin_any("--user-of-peer", command=[path])
            self.assertEqual(again.status(), 2)
            self.assertIn("let all users execute it", again.words())

    def test_a_trial_that_hangs_delays_nobody(self) -> None:
        with tempfile.TemporaryDirectory() as folder:
            path = os.path.join(folder, "program")
            self.write(path, f"#!/bin/sh\nexec {' '.join(PLAIN)}\n")
            door = self.begin(command=[path], tells_state=True)
            self.write(path, "#!/bin/sh\nexec sleep 1000\n")
            door.process.send_signal(signal.SIGHUP)
            self.assertTrue(door.wait_for(lambda: door.children() != []))
            start = time.monotonic()
            self.assertEqual(self.connect(door).ask(plain(1)), success(1))
            self.assertLess(time.monotonic() - start, TRIAL_SECONDS / 2)
            self.assertTrue(door.says("still runs 10 s after the end of its input"))
            self.assertEqual(self.connect(door).ask(plain(1)), success(1))
            self.assertTrue(door.wait_for(lambda: len(door.children()) == 2))

    def test_no_trial_is_left_where_the_door_ends(self) -> None:
        """Also if the process that starts the servers has been slow."""
        with tempfile.TemporaryDirectory() as folder:
            path = os.path.join(folder, "program")
            self.write(path, f"#!/bin/sh\nexec {' '.join(PLAIN)}\n")
            door = self.begin(command=[path])
            self.write(path, "#!/bin/sh\nexec sleep 1000\n")
            door.process.send_signal(signal.SIGHUP)
            self.assertTrue(door.wait_for(lambda: door.children() != []))
            trial, = door.children()
            starter = door.starter
            os.kill(starter, signal.SIGSTOP)
            door.process.terminate()
            self.assertTrue(door.says("ends because of SIGTERM"))
            time.sleep(0.2)
            with contextlib.suppress(ProcessLookupError):
                os.kill(starter, signal.SIGCONT)
            self.assertEqual(door.status(), 0)
            is_left = runs(trial)
            if is_left:
                os.kill(trial, signal.SIGKILL)
            self.assertFalse(is_left)

    def test_a_package_s_starter_is_asked_once(self) -> None:
        """The door starts the program that the starter would start."""
        with tempfile.TemporaryDirectory() as folder:
            starter = os.path.join(folder, "bin", "feqyldan")
            self.write(starter, "#!/bin/sh\nexit 9\n")
            for name in (program.PLAIN, program.FASTER):
                self.write(os.path.join(folder, "lib", "feqyldan", name), "#!/bin/sh\nexit 0\n")
            link = os.path.join(folder, "link")
            os.symlink(starter, link)
            for words in (starter, link):
                path, serve = chosen([words, "serve"])
                self.assertEqual(serve, "serve")
                self.assertIn(os.path.relpath(path, os.path.realpath(folder)),
                              [os.path.relpath(each, folder) for each in program.in_folder(
                                  os.path.join(folder, "lib", "feqyldan"))][:1])
            # As the starter does without the faster build.
            os.unlink(os.path.join(folder, "lib", "feqyldan", program.FASTER))
            self.assertEqual(os.path.basename(chosen([starter])[0]), program.PLAIN)
            with self.assertRaisesRegex(Unusable,
                                        "there is no program /no/such/program that can be run"):
                chosen(["/no/such/program"])

    def test_a_path_in_no_encoding(self) -> None:
        """The server refuses words that aren't UTF-8, and gets none for its path."""
        with tempfile.TemporaryDirectory() as folder:
            path = os.path.join(folder, os.fsdecode(b"\xff"))
            os.symlink(sys.executable, path)
            door = self.begin(command=[path, *PLAIN[1:]], tells_state=True)
            self.assertEqual(self.connect(door).ask(plain(1)), success(1))
            with open(f"/proc/{self.server_of(door)}/cmdline", "rb") as file:
                self.assertEqual(file.read().split(b"\0")[:2],
                                 [os.path.join(folder, "?").encode(), PLAIN[1].encode()])

    def test_a_program_that_goes_while_the_door_begins_is_no_crash(self) -> None:
        with unittest.mock.patch("feqyldan.door.program.chosen", return_value=["/no/such"]):
            with self.assertRaisesRegex(Unusable, "can't read /no/such: No such file"):
                ServerProgram(["/no/such"])

    def test_what_cant_begin_ends_with_status_2(self) -> None:
        for options in (("--mode", "0800"), ("--connections", "0"), ("--memory", "1000"),
                        ("--grace", "0"), ("--idle", "0"), ("--nice", "20"), ("--servers", "2"),
                        ("--status", "/no/such/folder/socket"), ("--total-memory", "none")):
            with self.subTest(options=options):
                self.assertEqual(self.begin_any(*options).status(), 2)
        for keywords in ({"command": ["/no/such/program"]}, {"command": ["/bin/false"]},
                         {"path": "/no/such/folder/socket"}, {"path": "/tmp/" + "x" * 200}):
            with self.subTest(keywords=keywords):
                self.assertEqual(self.begin_any(**keywords).status(), 2)

    def test_no_process_to_start_servers_ends_it_with_words(self) -> None:
        door = self.begin_any(tells_state=True, prelude="""
import subprocess
def refuse(*_, **__):
    raise BlockingIOError(11, "no more processes")
subprocess.Popen = refuse
""")
        self.assertEqual(door.status(), 2)
        self.assertEqual(door.words(), "feqyldan door: can't start the process that starts the "
                                       "servers: [Errno 11] no more processes\n")
        self.assertEqual(os.listdir(door.folder.name), ["log"])


class Telling(DoorTest):
    """What an operator and a service manager can see."""

    def test_the_state(self) -> None:
        door = self.begin("--connections", "2", tells_state=True)
        self.assertEqual(stat.S_IMODE(os.lstat(door.status_path).st_mode), 0o600)
        self.assertEqual(stat.S_IMODE(os.lstat(door.path).st_mode), 0o600)
        one, other = self.connect(door), self.connect(door)
        for asker in (one, other):
            self.assertEqual(asker.ask(plain(50, bytes(100_000))), success(50))
        self.assertTrue(self.connect(door).is_turned_away())
        state = door.state()
        self.assertEqual(state["connections"], {"open": 2, "accepted": 2, "turned_away": 1})
        self.assertEqual(state["program"], os.path.abspath(sys.executable))
        for server in state["servers"]:
            self.assertEqual((server["of_process"], server["of_user"]), (os.getpid(), os.getuid()))
            self.assertTrue(0 < server["memory_bytes"] <= server["peak_memory_bytes"])
            self.assertGreater(server["bytes_in"], 100_000)
            self.assertGreaterEqual(server["processor_seconds"], 0)
        other.send(plain(EXIT, b"\3"))
        self.assertTrue(other.has_ended())
        self.assertTrue(door.wait_for(lambda: door.state()["servers_failed"] == 1))
        state = door.state()
        self.assertEqual((state["servers_ended"], len(state["servers"])), (1, 1))
        self.assertGreater(state["processor_seconds"], 0)
        # Nobody sees requests.
        self.assertNotIn("requests", state)

    def test_a_server_s_name_may_have_any_bytes(self) -> None:
        door = self.begin(command=[sys.executable, "-c", NAMES_ITSELF], tells_state=True)
        self.connect(door)
        self.assertTrue(door.wait_for(lambda: bool(door.children())))
        process, = door.children()

        def has_its_name() -> bool:
            with open(f"/proc/{process}/comm", "rb") as file:
                return file.read() == b"\xff\n"

        self.assertTrue(door.wait_for(has_its_name))
        server, = door.state()["servers"]
        self.assertEqual(server["process"], process)
        self.assertGreater(server["memory_bytes"], 0)

    def test_the_package_reads_the_state(self) -> None:
        door = self.begin(tells_state=True)
        self.assertEqual(vx.status(door.status_path)["connections"]["open"], 0)
        with self.assertRaisesRegex(vx.UnexpectedReply,
                                    f"{door.path} answers b'', .* give the path of --status"):
            vx.status(door.path)
        with self.assertRaisesRegex(FileNotFoundError, "'/no/such/socket'"):
            vx.status("/no/such/socket")
        for wrong, kind in ((None, TypeError), ("1", TypeError), (float("nan"), ValueError),
                            (1e300, ValueError), (0, ValueError)):
            with self.assertRaisesRegex(kind, "timeout .*must be a number of seconds"):
                vx.status(door.status_path, timeout=wrong)

    def test_a_state_that_is_longer_than_a_socket_holds(self) -> None:
        state = b"x" * 3_000_000
        watched = Events()
        self.addCleanup(watched.close)
        visitors = Visitors(watched, Descriptors(), 64, lambda data, is_all: state)
        here, there = socket.socketpair()
        self.addCleanup(there.close)
        there.send(b"\n")
        visitors.add(here, 0)
        with concurrent.futures.ThreadPoolExecutor() as pool:
            got = pool.submit(all_of, there)
            while visitors.present:
                for handler, mask in watched.ready(LATE):
                    handler(mask)
            self.assertEqual(got.result(LATE), state)

    def test_both_formats_are_of_one_report(self) -> None:
        """A report takes time, and so is given to all for nine times as long."""
        made: List[None] = []

        def state() -> Dict[str, int]:
            made.append(None)
            return {"made": len(made)}

        events, descriptors = Events(), Descriptors()
        self.addCleanup(events.close)
        with tempfile.TemporaryDirectory() as folder:
            status = StatusSocket(listen_at(os.path.join(folder, "status"), 0o600), events,
                                  descriptors, state, lambda state: str(state["made"]), Ranges())
            with unittest.mock.patch("time.process_time", side_effect=(0.0, LATE)):
                self.assertEqual(status.answer(b"\n", False), b'{"made": 1}\n')
            page = status.answer(b"GET /metrics HTTP/1.0\r\n", False)
            status.close()
        assert page is not None
        self.assertEqual(page.partition(b"\r\n\r\n")[2], b"1")

    def test_prometheus_is_told_all_of_the_state(self) -> None:
        door = self.begin(tells_state=True)
        self.assertEqual(self.connect(door).ask(plain(1)), success(1))
        told, state = self.metrics(door), door.state()
        server, = state["servers"]
        label = f'process="{server["process"]}"'
        for name in ("seconds", "processor_seconds_total", "memory_bytes", "peak_memory_bytes"):
            self.assertGreaterEqual(told.pop(f"server_{name}")[label], 0)
        self.assertEqual(told.pop("server_user"), {label: os.getuid()})
        self.assertEqual(told.pop("server_request_bytes_total"), {label: server["bytes_in"]})
        self.assertEqual(told.pop("server_reply_bytes_total"), {label: server["bytes_out"]})
        self.assertEqual(told, {name: {"": value} for name, value in (
            ("connections", 1), ("connections_total", 1), ("turned_away_total", 0),
            ("servers_ended_total", 0), ("servers_failed_total", 0),
            ("processor_seconds_total", 0))})

    def metrics(self, door: Broker) -> Dict[str, Dict[str, float]]:
        with socket.socket(socket.AF_UNIX, socket.SOCK_STREAM) as sock:
            sock.settimeout(LATE)
            sock.connect(door.status_path)
            sock.sendall(b"GET /metrics HTTP/1.0\r\n\r\n")
            text = b"".join(iter(lambda: sock.recv(65536), b"")).decode()
        found: Dict[str, Dict[str, float]] = {}
        for name, label, value in re.findall(r"^feqyldan_([a-z_]+)(?:\{(.*)\})? (\S+)$", text,
                                             re.M):
            found.setdefault(name, {})[label] = float(value)
        return found

    def test_lines_say_how_much(self) -> None:
        door = self.begin("--report", "1")
        with door.program() as asker:
            self.assertEqual(asker.ask(plain(1)), success(1))
        self.assertTrue(door.says("1 accepted"))
        self.assertTrue(door.wait_for(lambda: sum(map(
            int, re.findall(r"(\d+) servers ended", door.words()))) == 1))

    def test_a_service_manager_is_told_that_it_listens_and_lives(self) -> None:
        for kind in (Door, Broker):
            with tempfile.TemporaryDirectory() as folder, socket.socket(
                    socket.AF_UNIX, socket.SOCK_DGRAM) as manager:
                manager.bind(os.path.join(folder, "notify"))
                manager.settimeout(LATE)
                door = kind(environment={"NOTIFY_SOCKET": os.path.join(folder, "notify"),
                                         "WATCHDOG_USEC": "1000000"})
                self.addCleanup(door.close)
                told, times = [], []
                for _ in range(5):
                    told.append(manager.recv(100))
                    times.append(time.monotonic())
                self.assertEqual(told, [b"READY=1"] + [b"WATCHDOG=1"] * 4)
                # Later than after one second, systemd would kill it.
                self.assertLess((times[4] - times[1]) / 3, 0.9)

    def test_no_server_can_notify_the_service_manager(self) -> None:
        door = self.begin(tells_state=True, environment={
            "NOTIFY_SOCKET": "/no/such/socket", "WATCHDOG_USEC": "1000000", "WATCHDOG_PID": "1"})
        self.assertEqual(self.connect(door).ask(plain(1)), success(1))
        for process in (self.server_of(door), door.starter):
            with open(f"/proc/{process}/environ", "rb") as file:
                names = {word.partition(b"=")[0] for word in file.read().split(b"\0")}
            self.assertIn(b"PATH", names)
            self.assertFalse({name for name in names
                              if name.startswith((b"NOTIFY", b"WATCHDOG"))})

    def test_sockets_that_are_handed_over(self) -> None:
        with tempfile.TemporaryDirectory() as folder:
            held = []
            for name in ("socket", "status"):
                held.append(socket.socket(socket.AF_UNIX, socket.SOCK_STREAM))
                held[-1].bind(os.path.join(folder, name))
                held[-1].listen(5)
                self.addCleanup(held[-1].close)
            early = Program(os.path.join(folder, "socket"))
            self.addCleanup(early.sock.close)
            script = (f'exec 103<&{held[0].fileno()} 104<&{held[1].fileno()}; exec 3<&103 4<&104; '
                      'LISTEN_FDS=2 LISTEN_PID=$$ exec "$@"')
            door = subprocess.Popen(
                ["/bin/bash", "-c", script, "sh", sys.executable, "-m", "feqyldan.door", "--",
                 *PLAIN], pass_fds=[one.fileno() for one in held], stderr=subprocess.DEVNULL,
                env={**os.environ, "PYTHONPATH": PACKAGE})
            self.addCleanup(door.wait)
            self.addCleanup(door.kill)
            self.assertEqual(early.ask(plain(1)), success(1))
            door.terminate()
            self.assertEqual(door.wait(LATE), 0)
            self.assertEqual(sorted(os.listdir(folder)), ["socket", "status"])

    def test_what_is_handed_over_has_to_be_there(self) -> None:
        script = 'exec 3<&-; LISTEN_FDS=1 LISTEN_PID=$$ exec "$@"'
        for self.kind in (Door, Broker):
            door = self.begin_any(before=("/bin/bash", "-c", script, "sh"))
            self.assertEqual(door.status(), 2)
            self.assertIn("descriptor 3, which was handed over (LISTEN_FDS), can't be used",
                          door.words())


class Bench(unittest.TestCase):
    def test_programs_end_before_their_servers(self) -> None:
        bench = os.path.join(HERE, "..", "..", "..", "bench")
        found = subprocess.run([sys.executable, "-c", CLOSES_SLOWLY, bench], text=True, check=True,
                               stdout=subprocess.PIPE, timeout=LATE).stdout
        self.assertEqual(found, "[]\n")


if __name__ == "__main__":
    unittest.main()
