"""
50 programs use the broker at the same time, some of them hostile, with the vision server. Each
reply is compared with that of the model in tools/checks/model.

The library is the one built in this checkout, or the one next to the program that the environment
variable FEQYLDAN_PROGRAM names; without it the tests are skipped.
"""

import contextlib
import multiprocessing
import os
import random
import select
import signal
import socket
import struct
import threading
import time
import traceback
import unittest
from types import SimpleNamespace
from typing import Any, Callable, Dict, Iterable, Iterator, List, Set, Tuple
from unittest import mock

from broker_tools import (
    CLIENT, LATE, PROGRAM, REAL, Broker, BrokerTest, Program, listens_at, needs_library,
    passes_longest)
from documents import programs_in
from program import closing_each
from feqyldan import wire
import feqyldan as vx

# Seconds for which the broker waits for the rest of a frame, and for a byte of replies to be taken.
PATIENCE = 4.0
BAD_LENGTHS = (0, 1, 2, 536_870_913, 4_294_967_295)
OPENED = wire.reply_frame(CLIENT, wire.OPEN_CONTEXT)
# The answer to one that comes while too many of its process's connections are being released.
TURNED_AWAY = wire.reply_frame(CLIENT, wire.OPEN_CONTEXT, wire.NO_RESOURCES)


def well_behaved(path: str, seed: int, _: object) -> None:
    """Sends random requests, good and bad, and compares each reply with the model's for this
    program alone."""
    from checks.streams.stream import Stream
    stream = Stream(seed, False)
    while len(stream.frames) < 150:
        stream.ask_something(CLIENT)
    # Another number than the one that the broker gives; the others have it too.
    with Program(path) as program:
        if seed % 2:
            replies = [program.ask(frame) for frame in stream.frames]
        else:
            replies = program.ask_ahead(stream.frames)
    for frame, reply, wanted in zip(stream.frames, replies, stream.replies):
        if reply != wanted:
            raise AssertionError(f"{frame.hex(' ')} is answered {reply.hex(' ')} and not "
                                 f"{wanted.hex(' ')}")
    if len(replies) != len(stream.frames):
        raise AssertionError(f"{len(replies)} replies to {len(stream.frames)} requests")


def write_of(side: int) -> bytes:
    return wire.write_image(CLIENT, 1, wire.U8, side, side, bytes(side * side))


def half_frame_and_end(path: str, seed: int, is_over: "multiprocessing.Event") -> None:
    """Ends the connection within a frame again and again, at any byte."""
    frames = wire.open_context(CLIENT) + wire.create_image(CLIENT, wire.U8, 8, 8) + write_of(8)
    rng = random.Random(seed)
    while not is_over.wait(0.02):
        with contextlib.suppress(BrokenPipeError, ConnectionResetError), Program(path) as program:
            program.send(frames[: rng.randrange(1, len(frames))])


def half_frame_and_wait(path: str, _: int, is_over: "multiprocessing.Event") -> None:
    """Waits within a frame until the broker's patience ends the connection, and connects again."""
    while not is_over.is_set():
        with Program(path) as program:
            program.send(wire.open_context(CLIENT) + write_of(200)[:-1])
            reply = program.reply()
            if reply not in (OPENED, TURNED_AWAY) or not program.has_ended():
                raise AssertionError(f"half a frame was taken, after {reply.hex(' ')}")


def bad_lengths(path: str, _: int, is_over: "multiprocessing.Event") -> None:
    while not is_over.is_set():
        for length in BAD_LENGTHS:
            with Program(path) as program:
                program.send(wire.open_context(CLIENT) + struct.pack(">I", length) + bytes(100))
                reply = program.reply()
                if reply not in (OPENED, TURNED_AWAY) or not program.has_ended():
                    raise AssertionError(f"a bad length was taken, after {reply.hex(' ')}")
        is_over.wait(0.02)


def takes_no_replies(path: str, _: int, is_over: "multiprocessing.Event") -> None:
    """Reads an image again and again without taking the replies, until the connection is ended, and
    connects again."""
    is_first = True
    while is_first or not is_over.is_set():
        with contextlib.suppress(BrokenPipeError, ConnectionResetError), Program(path) as program:
            program.send(wire.open_context(CLIENT) + wire.create_image(CLIENT, wire.U8, 200, 200))
            program.sock.settimeout(0.1)
            while is_first or not is_over.is_set():
                with contextlib.suppress(socket.timeout):
                    program.sock.send(wire.read_image(CLIENT, 1) * 1000)
        is_first = False


def flood(program: Program, is_over: "multiprocessing.Event") -> float:
    """Sends as fast as it can and takes its replies, until the time is over or the broker ends the
    connection. Returns the longest time, in seconds, in which it took none."""
    waiting, longest, took_at = b"", 0.0, time.monotonic()
    while not is_over.is_set():
        waiting = waiting or wire.bitwise_not(CLIENT, 1, 1) * 1000
        readable, writable, _ = select.select([program.sock], [program.sock], [], 0.1)
        try:
            if writable:
                waiting = waiting[program.sock.send(waiting) :]
            has_ended = bool(readable) and not program.sock.recv(65536)
        except (BrokenPipeError, ConnectionResetError):
            has_ended = True
        now = time.monotonic()
        longest = max(longest, now - took_at)
        if has_ended:
            break
        took_at = now if readable else took_at
    return longest


def floods(path: str, _: int, is_over: "multiprocessing.Event") -> None:
    """Floods until the time is over. If the machine left no time to take replies, the broker may
    end the connection; then it connects again."""
    while not is_over.is_set():
        with Program(path) as program:
            program.send(wire.open_context(CLIENT))
            reply = program.reply()
            if reply == TURNED_AWAY:
                continue
            if reply != OPENED:
                raise AssertionError(f"a flood begins with {reply.hex(' ')}")
            program.send(wire.create_image(CLIENT, wire.U8, 8, 8))
            longest = flood(program, is_over)
        if not is_over.is_set() and longest < PATIENCE / 2:
            raise AssertionError(f"a flood was ended that took replies every {longest:.2f} s")


def comes_and_goes(path: str, _: int, is_over: "multiprocessing.Event") -> None:
    """Connects and ends before its replies come, as fast as it can."""
    while not is_over.is_set():
        with contextlib.suppress(BrokenPipeError, ConnectionResetError), Program(path) as program:
            program.send(wire.open_context(CLIENT) + wire.create_image(CLIENT, wire.U8, 8, 8) * 5)


def looks_for_others(path: str, seed: int, is_over: "multiprocessing.Event") -> None:
    """Asks under all client numbers for objects of others. It finds none, and can't release
    another's context."""
    rng = random.Random(seed)
    with Program(path) as program:
        while not is_over.is_set():
            client, name = rng.choice((rng.randrange(64), rng.randrange(65_536))), rng.randrange(8)
            asked = rng.choice((
                wire.read_image(client, name), wire.query_image(client, name),
                wire.release(client, name), wire.release_context(client)))
            wanted = wire.reply_frame(client, asked[6], wire.INVALID_REFERENCE)
            reply = program.ask(asked)
            if reply != wanted:
                raise AssertionError(f"{asked.hex(' ')} is answered {reply.hex(' ')}")


def sends_descriptors(path: str, _: int, is_over: "multiprocessing.Event") -> None:
    """Sends descriptors. If they aren't refused, the reader closes them."""
    reader, writer = os.pipe()
    numbers = struct.pack("i", writer) * 50
    sent = [(socket.SOL_SOCKET, socket.SCM_RIGHTS, numbers)]
    while not is_over.wait(0.01):
        with contextlib.suppress(OSError), Program(path) as program:
            program.send(wire.open_context(CLIENT)[:5])
            program.sock.sendmsg([wire.open_context(CLIENT)[5:]], sent)
            program.reply()


HOSTILE = {
    half_frame_and_end: 2, half_frame_and_wait: 2, bad_lengths: 2, takes_no_replies: 2, floods: 2,
    comes_and_goes: 2, looks_for_others: 1, sends_descriptors: 1}


def run_and_exit(role: Callable, *words: object) -> None:
    """Runs a child process; its status says whether it found a fault."""
    try:
        role(*words)
    except BaseException:  # noqa: B902
        traceback.print_exc()
        os._exit(1)
    os._exit(0)


class Crowd(BrokerTest):
    """50 programs at the same time, of which 14 are hostile."""

    # So many that no process can take another's: 36 of one connection, and 14 of at most 4.
    OPTIONS = ("--patience", str(PATIENCE), "--connections", "100", "--per-process", "4")

    def serve_all(self, *options: str, honest: Callable = well_behaved,
                  meanwhile: Callable[[Broker], None] = lambda _: None,
                  **keywords: Any) -> Broker:
        """Serves all of them, and checks what each reports of its replies."""
        broker = self.begin_any(*self.OPTIONS, *options, command=[str(PROGRAM), "serve"],
                                tells_state=True, **keywords)
        self.assertTrue(broker.wait_for(lambda: listens_at(broker.status_path)))
        processes = multiprocessing.get_context("fork")
        is_over = processes.Event()
        roles = [role for role, count in HOSTILE.items() for _ in range(count)]
        hostile = [processes.Process(target=run_and_exit, args=(role, broker.path, seed, is_over))
                   for seed, role in enumerate(roles)]
        polite = [processes.Process(target=run_and_exit, args=(honest, broker.path, seed, is_over))
                  for seed in range(50 - len(hostile))]
        start = time.monotonic()
        for process in hostile + polite:
            process.start()
        end = start + 3 * LATE
        while any(process.is_alive() for process in polite) and time.monotonic() < end:
            meanwhile(broker)
            time.sleep(0.02)
        unfinished = [process for process in polite if process.exitcode is None]
        took = time.monotonic() - start
        is_over.set()
        for process in hostile:
            process.join(LATE)
        for process in hostile + polite:
            if process.exitcode is None:
                process.kill()
            process.join()
        self.assertEqual(len(unfinished), 0, f"of {len(polite)} after {took:.1f} s")
        self.assertEqual([process.exitcode for process in polite], [0] * len(polite))
        self.check_hostile({role.__name__
                            for role, process in zip(roles, hostile) if process.exitcode})
        return broker

    def check_hostile(self, failed: Set[str]) -> None:
        """Checks the reports of the hostile programs."""
        self.assertEqual(failed, set())


@needs_library
class ManyPrograms(Crowd):
    """The crowd at the broker."""

    def test_each_gets_what_it_would_get_alone(self) -> None:
        self.check_after(self.serve_all())

    def test_each_gets_it_of_several_servers(self) -> None:
        self.check_after(self.serve_all("--servers", "4"))

    def check_after(self, broker: Broker) -> None:
        """Checks that all contexts are released: a newcomer has none, whatever its number."""
        for _ in range(100):
            self.assertTrue(broker.wait_for(lambda: self.has_nothing(broker)))
        self.assertEqual(broker.stop(), 0)

    def has_nothing(self, broker: Broker) -> bool:
        """Returns whether a newcomer finds no objects of others; False if it is turned away because
        earlier connections are still being released."""
        with broker.program() as program:
            code = wire.code_of(program.ask(wire.read_image(CLIENT, 1)))
            if code == wire.NO_RESOURCES:
                return False
            self.assertEqual(code, wire.INVALID_REFERENCE)
            self.assertEqual(program.ask(wire.open_context(CLIENT)), OPENED)
        return True


@needs_library
class ThePackage(BrokerTest):
    """The package's own connections to the broker."""

    def test_connect_waits_for_a_broker_that_begins(self) -> None:
        broker = self.begin(command=REAL)
        path = broker.path
        self.assertEqual(broker.stop(), 0)
        with self.assertRaises(FileNotFoundError):
            vx.connect(path)
        found: List[vx.Context] = []
        pause, has_tried = time.sleep, threading.Event()

        def noted_pause(seconds: float) -> None:
            has_tried.set()
            pause(seconds)

        waiting = threading.Thread(target=lambda: found.append(vx.connect(path,
                                                                          retry=LATE).context()))
        with mock.patch("time.sleep", noted_pause):
            waiting.start()
            self.assertTrue(has_tried.wait(LATE))
        self.assertEqual(found, [])
        again = self.begin(command=REAL, path=path)
        waiting.join(LATE)
        self.assertEqual(found[0].image(vx.U8, 2, 1).read_bytes(), bytes(2))
        found[0].close()
        self.assertEqual(again.stop(), 0)

    def test_a_context_that_is_built_again(self) -> None:
        """By the programs in docs/deploying.md and docs/python.md: each picture is answered once
        and in order, also where the broker is killed, or told to end, in between. They end with
        their pictures."""
        for run, pauses in self.programs():
            self.run_through_ends(run)
            self.assertEqual(pauses, [1, 1])

    def test_a_context_that_no_server_serves(self) -> None:
        """The same programs give up where each connection is closed, as by systemd if none is
        free: the early one and the new one."""
        for run, pauses in self.programs():
            with closing_each() as (path, came), self.assertRaises(vx.ServerEnded):
                list(run(path, lambda _: self.fail("it has no context"), iter([b"1234"])))
            self.assertEqual((len(came), pauses), (2, []))

    def programs(self) -> Iterator[Tuple[Callable[..., Iterator[Any]], List[float]]]:
        """Yields the program of each document, and the pauses that it makes."""
        for document, heading in (("deploying.md", "When a server ends"),
                                  ("python.md", "A robot that survives the end of a server")):
            pauses: List[float] = []
            program: Dict[str, Any] = {"vx": vx, "Callable": Callable, "Iterable": Iterable,
                                       "Iterator": Iterator,
                                       "time": SimpleNamespace(sleep=pauses.append)}
            exec(programs_in("docs", document)[heading][0], program)

            def station(path: str, build: Any, pictures: Any) -> Iterator[Any]:
                program["build"] = build
                return iter(program["station"](path, pictures))

            yield program.get("robot", station), pauses

    def run_through_ends(self, run: Callable[..., Iterator[Any]]) -> None:
        broker = self.begin(command=REAL, tells_state=True)
        built: List[vx.Context] = []

        def build(context: vx.Context) -> Tuple[vx.Graph, vx.Image, vx.Image]:
            camera, out = context.image(vx.U8, 2, 2), context.image(vx.U8, 2, 2)
            graph = context.graph()
            graph.not_(camera, out)
            built.append(context)
            return graph, camera, out

        pictures = [bytes([k] * 4) for k in range(8)]
        outputs = []
        for output in run(broker.path, build, iter(pictures)):
            outputs.append(bytes(output))
            if len(outputs) in (2, 4):
                broker.process.send_signal(signal.SIGKILL if len(outputs) == 2 else signal.SIGTERM)
                broker.status()
                broker = self.begin(command=REAL, path=broker.path)
        self.assertEqual(outputs, [bytes([255 - k] * 4) for k in range(8)])
        self.assertEqual(len(built), 3)
        self.assertEqual(broker.stop(), 0)

    def test_the_longest_write_and_the_longest_reply_pass(self) -> None:
        broker = self.begin(command=REAL)
        self.assertTrue(passes_longest(broker.path))

    def test_who_is_turned_away_is_told_why(self) -> None:
        broker = self.begin("--connections", "1", command=REAL)
        with vx.connect(broker.path) as server, server.context() as context:
            context.image(vx.U8, 1, 1)
            with self.assertRaises(vx.BrokerFull) as caught:
                server.context()
            self.assertIsInstance(caught.exception, vx.NoResources)
            self.assertIn("--connections", str(caught.exception))

    def test_who_waits_gets_the_next_connection(self) -> None:
        broker = self.begin("--connections", "1", command=REAL, tells_state=True)
        with vx.connect(broker.path, retry=LATE) as server:
            context = server.context()
            self.assertEqual(vx.status(broker.status_path)["connections"]["open"], 1)
            has_tried, pause = threading.Event(), time.sleep

            def noted_pause(seconds: float) -> None:
                has_tried.set()
                pause(seconds)

            found: List[vx.Context] = []
            waiting = threading.Thread(target=lambda: found.append(server.context()))
            with mock.patch("time.sleep", noted_pause):
                waiting.start()
                self.assertTrue(has_tried.wait(LATE))
                self.assertEqual(found, [])
                context.close()
                waiting.join(LATE)
            self.assertEqual(found[0].image(vx.U8, 2, 1).read_bytes(), bytes(2))

    def test_contexts_of_one_program_and_the_server_s_end(self) -> None:
        broker = self.begin(command=REAL)
        with self.assertRaises(vx.ServerEnded), vx.connect(broker.path) as server:
            pictures = []
            for sample in (10, 20):
                context = server.context()
                source, target = context.image(vx.U8, 4, 2), context.image(vx.U8, 4, 2)
                source.write(bytes([sample] * 8))
                context.vxu.not_(source, target)
                pictures.append(target.read_bytes())
            self.assertEqual(pictures, [bytes([245] * 8), bytes([235] * 8)])
            self.assertEqual(broker.stop(), 0)
            context.image(vx.U8, 1, 1)


if __name__ == "__main__":
    unittest.main()
