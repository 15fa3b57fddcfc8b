"""
50 programs use the door at the same time, some of them hostile, with the vision server. Each reply
is compared with that of the model in tools/checks/model, and nothing is left over.

The program is the one that the environment variable FEQYLDAN_PROGRAM names; without it the tests
are skipped.
"""

import contextlib
import os
import random
import shutil
import signal
import subprocess
import tempfile
import time
import unittest
from typing import Any, List, Set

from broker_tools import (
    CLIENT, HERE, LATE, PROGRAM, Broker, Door, Program, files_of, listens_at, passes_longest,
    peak_bytes, runs)
from test_broker_programs import PATIENCE, Crowd
from feqyldan import wire
import feqyldan as vx


def stream_of(seed: int) -> Any:
    """Returns random requests, good and bad, with the model's replies to this program alone."""
    from checks.streams.stream import Stream
    stream = Stream(seed, False)
    while len(stream.frames) < 150:
        stream.ask_something(CLIENT)
    return stream


def until_all_are_answered(path: str, seed: int, _: object) -> None:
    """Sends requests until all are answered; each reply is the model's. If the connection ends, it
    connects again and starts from the beginning, as a program does that rebuilds its context."""
    stream, answered = stream_of(seed), 0
    while answered < len(stream.frames):
        answered = 0
        with contextlib.suppress(BrokenPipeError, ConnectionResetError), Program(path) as program:
            for frame, wanted in zip(stream.frames, stream.replies):
                reply = program.ask(frame)
                if not wanted.startswith(reply):
                    raise AssertionError(f"{frame.hex(' ')} is answered {reply.hex(' ')} and not "
                                         f"{wanted.hex(' ')}")
                if reply != wanted:
                    # It ended here.
                    break
                answered += 1


@unittest.skipUnless(PROGRAM, "FEQYLDAN_PROGRAM doesn't name the server's program")
class ManyPrograms(Crowd):
    kind = Door
    # Half a frame is waited for as long as any request.
    OPTIONS = (*Crowd.OPTIONS, "--idle", str(PATIENCE))

    def check_after(self, door: Broker) -> None:
        """Checks that no process, file or memory is left: a newcomer finds what the first one
        found."""
        process = door.process.pid
        self.assertTrue(door.wait_for(lambda: not door.children()))
        state = door.state()
        self.assertEqual((state["connections"]["open"], state["servers"]), (0, []))
        with self.kind(*self.OPTIONS, command=[str(PROGRAM), "serve"], tells_state=True) as fresh:
            self.assertTrue(fresh.wait_for(lambda: listens_at(fresh.status_path)))
            fresh.state()
            self.assertEqual(files_of(process), files_of(fresh.process.pid))
            self.assertLess(peak_bytes(process) - peak_bytes(fresh.process.pid), 4_000_000)
        with door.program() as program:
            self.assertEqual(wire.code_of(program.ask(wire.read_image(CLIENT, 1))),
                             wire.INVALID_REFERENCE)
        self.assertEqual(door.stop(), 0)

    def test_each_gets_what_it_would_get_alone(self) -> None:
        self.check_after(self.serve_all())

    def test_where_no_file_is_left_over(self) -> None:
        """The door has only as many files as its connections need."""
        self.check_after(self.serve_all(before=("prlimit", "--nofile=356:356")))

    def test_where_the_disk_for_its_lines_is_full(self) -> None:
        with open("/dev/full", "w") as full:
            self.check_after(self.serve_all(stderr=full))

    def test_where_descriptors_cant_be_refused(self) -> None:
        door = self.serve_all(refuses_descriptors=False)
        self.assertTrue(door.wait_for(lambda: not door.state()["servers"]))
        # One closes what the others sent.
        self.assertLessEqual(len(door.children()), 1)
        self.assertEqual(door.stop(), 0)

    def test_where_servers_are_killed(self) -> None:
        rng, killed = random.Random(49), []

        def kill(door: Broker) -> None:
            servers = door.state()["servers"]
            if servers and len(killed) < 60:
                killed.append(rng.choice(servers)["process"])
                with contextlib.suppress(ProcessLookupError):
                    os.kill(killed[-1], signal.SIGKILL)

        # The faster the machine, the fewer servers are killed before all have their replies.
        for _ in range(20):
            self.check_after(self.serve_all(honest=until_all_are_answered, meanwhile=kill))
            if len(killed) > 10:
                break
        self.assertGreater(len(killed), 10)

    def check_hostile(self, failed: Set[str]) -> None:
        """Checks that their connections end when a server is killed, before their replies come."""
        if "killed" not in self._testMethodName:
            super().check_hostile(failed)

    def test_where_the_door_is_killed(self) -> None:
        """Running programs go on, each with the same replies."""
        door = self.begin("--connections", "36", command=[str(PROGRAM), "serve"], tells_state=True)
        streams = [stream_of(seed) for seed in range(36)]
        programs = [self.connect(door) for _ in streams]

        def ask_all(begin: int, end: int) -> None:
            for stream, program in zip(streams, programs):
                self.assertEqual([program.ask(frame) for frame in stream.frames[begin:end]],
                                 stream.replies[begin:end])

        ask_all(0, 50)
        servers = [server["process"] for server in door.state()["servers"]]
        door.process.kill()
        door.process.wait()
        ask_all(50, 150)
        for program in programs:
            program.sock.close()
        end = time.monotonic() + LATE
        while any(map(runs, servers)) and time.monotonic() < end:
            time.sleep(0.01)
        self.assertFalse(any(map(runs, servers)))


@unittest.skipUnless(PROGRAM, "FEQYLDAN_PROGRAM doesn't name the server's program")
class ThePackage(Crowd):
    """The package's own connections to the door."""

    kind = Door

    def test_contexts_of_one_program(self) -> None:
        door = self.begin(command=[str(PROGRAM), "serve"], tells_state=True)
        with self.assertRaises(vx.ServerEnded), vx.connect(door.path) as server:
            pictures, contexts = [], []
            for sample in (10, 20):
                context = server.context()
                # Python would free the first one otherwise, and its server would end.
                contexts.append(context)
                source, target = context.image(vx.U8, 4, 2), context.image(vx.U8, 4, 2)
                source.write(bytes([sample] * 8))
                context.vxu.not_(source, target)
                pictures.append(target.read_bytes())
            self.assertEqual(pictures, [bytes([245] * 8), bytes([235] * 8)])
            # Each has a server of its own.
            self.assertEqual(len(self.processes(door)), 2)
            os.kill(self.processes(door)[1], signal.SIGKILL)
            context.image(vx.U8, 1, 1)

    def processes(self, door: Broker) -> List[int]:
        return [server["process"] for server in door.state()["servers"]]

    def test_its_state_is_told_to_the_package(self) -> None:
        door = self.begin(command=[str(PROGRAM), "serve"], tells_state=True)
        with vx.connect(door.path) as server, server.context():
            self.assertEqual(vx.status(door.status_path)["connections"]["open"], 1)

    def test_the_longest_write_and_the_longest_reply_pass(self) -> None:
        door = self.begin("--memory", "2000000000", command=[str(PROGRAM), "serve"])
        self.assertTrue(passes_longest(door.path))

    def test_who_is_turned_away_is_told_why(self) -> None:
        door = self.begin("--connections", "1", command=[str(PROGRAM), "serve"])
        with vx.connect(door.path) as server, server.context() as context:
            context.image(vx.U8, 1, 1)
            with self.assertRaises(vx.NoResources) as caught:
                server.context()
            self.assertIn("--connections", str(caught.exception))


@unittest.skipUnless(PROGRAM, "FEQYLDAN_PROGRAM doesn't name the server's program")
class EachWay(Crowd):
    """Programs in Python and in C reach servers by systemd, by the door and by the broker alike."""

    @classmethod
    def setUpClass(cls) -> None:
        folder = tempfile.TemporaryDirectory()
        cls.addClassCleanup(folder.cleanup)
        library = os.path.join(folder.name, "c")
        cls.edges = os.path.join(library, "out", "edges")
        if shutil.which("cc") and shutil.which("make"):
            shutil.copytree(os.path.join(HERE, "..", "..", "c"), library,
                            ignore=shutil.ignore_patterns("out"))
            subprocess.run(["make", "-s", "-C", library, "VERSION=0", "out/edges"], check=True)

    def try_all(self, path: str) -> None:
        with vx.connect(path, retry=LATE) as server, server.context() as context:
            image, out = context.image_from([[1, 2]]), context.image(vx.U8, 2, 1)
            context.vxu.not_(image, out)
            self.assertEqual(out.read_bytes(), bytes([254, 253]))
        if os.path.exists(self.edges):
            found = [subprocess.run([self.edges], env={**os.environ, "FEQYLDAN_SOCKET": socket},
                                    stdout=subprocess.PIPE, timeout=LATE, check=True).stdout
                     for socket in (path, "")]
            self.assertEqual(found[0][:15], b"P5\n256 256\n255\n")
            self.assertEqual(found[0], found[1])

    def test_the_door_and_the_broker(self) -> None:
        for self.kind in (Door, Broker):
            self.try_all(self.begin(command=[str(PROGRAM), "serve"]).path)

    @unittest.skipUnless(shutil.which("systemd-socket-activate"), "systemd isn't there")
    def test_systemd(self) -> None:
        """systemd starts a server as feqyldan.socket says: Accept=yes, StandardInput=socket."""
        with tempfile.TemporaryDirectory() as folder:
            path = os.path.join(folder, "socket")
            run = subprocess.Popen(["systemd-socket-activate", "--accept", "--inetd", "-l", path,
                                    str(PROGRAM), "serve"], stderr=subprocess.DEVNULL)
            try:
                self.try_all(path)
            finally:
                run.terminate()
                run.wait()


if __name__ == "__main__":
    unittest.main()
