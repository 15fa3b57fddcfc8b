"""Requests that aren't answered in time, by a server that this program started and by one behind a
socket."""

import contextlib
import os
import signal
import socket
import tempfile
import threading
import time
import unittest
from unittest import mock

from program import SERVED, answering, needs_program, skip_module_in_process, vx
from feqyldan import wire
from test_interruptions import Everywhere

skip_module_in_process("no call can be given up there")

OPENED = wire.reply_frame(0, wire.OPEN_CONTEXT)
NAMED = wire.reply_frame(0, wire.CREATE_IMAGE, 0, b"\0\0\0\1")
GRAPH = wire.reply_frame(0, wire.CREATE_GRAPH, 0, b"\0\0\0\2")
RELEASED = wire.reply_frame(0, wire.RELEASE_CONTEXT)
# Seconds: enough to start a server on a busy machine, and enough for a reply of a running one.
TIMEOUT, SHORT = 5.0, 1.0


class TestOwnServers(unittest.TestCase):
    def test_a_reply_that_is_late(self):
        start = time.monotonic()
        with vx.Server(answering(OPENED, 60.0, NAMED), timeout=TIMEOUT) as server:
            context = server.context()
            with self.assertRaisesRegex(vx.TimedOut,
                                        "create a U8 image of 1 by 1: no answer in 5 "
                                        "seconds") as caught:
                context.image(vx.U8, 1, 1)
            self.assertIsInstance(caught.exception, TimeoutError)
            self.assertIsInstance(caught.exception, vx.FeqyldanError)
            # Nothing more is asked, and nothing more waits.
            for call in (context.graph, server.context, lambda: context.image(vx.U8, 1, 1)):
                self.assertRaises(vx.TimedOut, call)
        self.assertLess(time.monotonic() - start, 40)

    def test_samples_that_nobody_takes(self):
        with vx.Server(answering(OPENED, NAMED, 60.0), timeout=TIMEOUT) as server:
            image = server.context().image(vx.U8, 2000, 2000)
            with self.assertRaisesRegex(vx.TimedOut, "write 2000 by 2000 U8 samples to image 1"):
                image.write(bytes(4_000_000))

    def test_each_request_has_its_own_time(self):
        replies = [OPENED, *6 * [1.0, GRAPH], RELEASED]
        with vx.Server(answering(*replies), timeout=TIMEOUT) as server, server.context() as context:
            graphs = [context.graph() for _ in range(6)]
            self.assertEqual(len(graphs), 6)

    def test_a_reply_that_came_while_nobody_read_it_is_in_time(self):
        with vx.Server(answering(OPENED, NAMED, wire.reply_frame(0, wire.WRITE_IMAGE), RELEASED),
                       timeout=TIMEOUT) as server, server.context() as context:
            image = context.image(vx.U8, 1, 1)
            with context.pipeline():
                image.write(b"1")
                # Long after that, by the clock.
                clock = time.monotonic
                later = mock.patch("time.monotonic", lambda: clock() + 10 * TIMEOUT)
                later.start()
                self.addCleanup(later.stop)

    def test_no_timeout(self):
        with vx.Server(answering(OPENED, 0.5, GRAPH,
                                 RELEASED)) as server, server.context() as context:
            graph = context.graph()
            self.assertEqual(graph.name, 2)

    def test_what_is_no_timeout(self):
        for wrong in (0, -1, float("nan"), float("inf")):
            self.assertRaises(ValueError, vx.Server, answering(), timeout=wrong)
            self.assertRaises(ValueError, vx.connect, "/no/such/socket", timeout=wrong)
        for call in (vx.Server, vx.connect):
            for wrong in ("5", True):
                with self.assertRaisesRegex(TypeError, f"timeout must be .*, not {wrong!r}"):
                    call("/no/such", timeout=wrong)
        self.assertRaisesRegex(ValueError, "retry must be .*, not '5'", vx.connect, "/no/such",
                               retry="5")
        for wrong in (-1, float("nan"), True):
            with self.assertRaisesRegex(ValueError, f"retry must be .*, not {wrong}"):
                vx.connect("/no/such/socket", retry=wrong)


@needs_program
class TestStoppedServers(unittest.TestCase):
    """Servers that don't even hear that they should end."""

    def stopped(self, **options):
        server = vx.Server(SERVED, **options)
        self.addCleanup(lambda: server.closed or server.close())
        context = server.context()
        os.kill(server._process.pid, signal.SIGSTOP)
        # SIGTERM would end a process that doesn't stand yet.
        while "T (stopped)" not in self.status_of(server._process.pid):
            time.sleep(0.001)
        return server, context

    def status_of(self, process):
        with open(f"/proc/{process}/status") as file:
            return file.read()

    def seconds_of(self, call):
        start = time.monotonic()
        call()
        return time.monotonic() - start

    def test_a_call_that_times_out(self):
        server, context = self.stopped(timeout=SHORT)
        self.assertRaises(vx.TimedOut, context.graph)
        self.assertLess(self.seconds_of(server.close), 5)

    def test_no_close(self):
        server, context = self.stopped(timeout=SHORT)
        self.assertRaises(vx.TimedOut, context.graph)
        self.assertEqual(server._process.wait(5), -signal.SIGKILL)

    def test_an_error_in_a_with(self):
        def fail():
            with self.assertRaises(KeyError):
                with self.stopped()[0]:
                    raise KeyError

        self.assertLess(self.seconds_of(fail), 5)


class TestSockets(unittest.TestCase):
    def setUp(self):
        folder = tempfile.TemporaryDirectory()
        self.addCleanup(folder.cleanup)
        self.path = os.path.join(folder.name, "socket")
        self.listener = socket.socket(socket.AF_UNIX, socket.SOCK_STREAM)
        self.addCleanup(self.listener.close)
        self.listener.bind(self.path)

    def serve(self, *replies):
        """Answers frames with these replies in turn. Then waits until the client ends its
        connection, and notes that."""
        self.ended = threading.Event()

        def run():
            stream, _ = self.listener.accept()
            with stream, stream.makefile("rb") as source:
                for reply in replies:
                    source.read(int.from_bytes(source.read(4), "big"))
                    stream.sendall(reply)
                source.read()
                self.ended.set()

        self.listener.listen()
        thread = threading.Thread(target=run)
        thread.start()
        self.addCleanup(thread.join)

    def test_a_first_connection_that_has_ended(self):
        """The first context gets another one, as later contexts do: a door or a broker ends those
        that are idle, and may have been restarted."""
        self.listener.listen()
        with vx.connect(self.path) as server:
            self.listener.accept()[0].close()
            self.serve(OPENED)
            # Where no other connection comes, nobody waits for it.
            self.addCleanup(self.listener.shutdown, socket.SHUT_RDWR)
            self.assertFalse(server.context().closed)

    def test_connections_after_interruptions(self):
        """None stays open, whichever line was interrupted."""
        threads = []

        def answer(stream):
            with stream:
                if stream.recv(7):
                    stream.sendall(OPENED)
                while stream.recv(100):
                    pass

        def accept():
            with contextlib.suppress(OSError):
                while True:
                    threads.append(threading.Thread(target=answer,
                                                    args=self.listener.accept()[:1], daemon=True))
                    threads[-1].start()

        self.listener.listen()
        accepting = threading.Thread(target=accept)
        accepting.start()
        with vx.connect(self.path) as server:
            number = 1
            while Everywhere(number, ("sockets.py",), ("line", "return")).interrupts(
                    server.context):
                number += 1
        self.assertGreater(number, 30)
        self.listener.shutdown(socket.SHUT_RDWR)
        accepting.join()
        for thread in threads:
            thread.join(10)
            self.assertFalse(thread.is_alive())

    def test_a_server_that_is_closed_while_a_context_opens(self):
        """The other thread's call ends, and uses no descriptor that was closed meanwhile."""
        def open_one():
            with self.assertRaises((vx.ServerEnded, vx.Closed)):
                server.context()
            ended.set()

        self.listener.listen()
        server, ended = vx.connect(self.path), threading.Event()
        opening = threading.Thread(target=open_one)
        opening.start()
        self.addCleanup(opening.join)
        with self.listener.accept()[0] as stream:
            # It waits for the reply now.
            self.assertEqual(stream.recv(7, socket.MSG_WAITALL), wire.open_context(0))
            server.close()
            self.assertTrue(ended.wait(TIMEOUT))

    def test_a_reply_that_is_late(self):
        self.serve(OPENED)
        with vx.connect(self.path, timeout=SHORT) as server:
            context = server.context()
            with self.assertRaisesRegex(vx.TimedOut, "create a graph: no answer in 1 seconds"):
                context.graph()
            # The other side learns at once that nobody waits any more.
            self.assertTrue(self.ended.wait(10))
            self.assertRaises(vx.TimedOut, context.graph)
            # It was told.
            self.assertTrue(context.closed)
            context.close()

    def test_a_socket_that_is_there_later(self):
        self.assertRaisesRegex(FileNotFoundError, "/socket.late", vx.connect, self.path + ".late",
                               retry=0.2)
        # Until it listens, connections are refused; it does once that was tried twice more.
        self.assertRaises(ConnectionRefusedError, vx.connect, self.path)
        pauses = []

        def pause(seconds):
            pauses.append(seconds)
            if len(pauses) == 2:
                self.listener.listen()

        with mock.patch("time.sleep", pause):
            vx.connect(self.path, retry=30).close()
        self.assertEqual(len(pauses), 2)

    def test_a_socket_that_is_removed_meanwhile(self):
        """A door that is starting removes an old one, maybe after it has refused a connection. So
        connecting is tried again."""
        with mock.patch("os.stat", side_effect=FileNotFoundError):
            self.assertRaises(ConnectionRefusedError, vx.connect, self.path)
        # An abstract socket has no file.
        self.assertRaises(ConnectionRefusedError, vx.connect, "\0" + self.path)

    def test_retry_limits_both_waits(self):
        """The wait for a free connection, and then the wait for somebody who listens."""
        now = [0.0]

        def pause(seconds):
            now[0] += seconds
            if now[0] >= 5 and os.path.exists(self.path):
                os.unlink(self.path)

        self.listener.listen()
        full = vx.BrokerFull("open a context", wire.OPEN_CONTEXT)
        with vx.connect(self.path, retry=10) as server, \
                mock.patch("time.monotonic", lambda: now[0]), mock.patch("time.sleep", pause), \
                mock.patch.object(type(server), "_context_on", side_effect=full):
            self.assertRaises(FileNotFoundError, server.context)
        self.assertLess(9, now[0])
        self.assertLess(now[0], 11)

    def test_a_signal_while_a_connection_waits(self):
        """Its handler interrupts connect(), and Python takes the socket for connected."""
        self.listener.listen(0)
        came = []

        def note(_, frame):
            if frame.f_code.co_filename.endswith("sockets.py"):
                came.append(frame.f_lineno)
            if len(came) == 3:
                # Now there is room.
                self.addCleanup(self.listener.accept()[0].close)

        self.addCleanup(signal.signal, signal.SIGALRM, signal.signal(signal.SIGALRM, note))
        with vx.connect(self.path):
            signal.setitimer(signal.ITIMER_REAL, 0.01, 0.01)
            try:
                # Nobody owns what isn't connected.
                vx.connect(self.path, owner=os.getuid()).close()
            finally:
                signal.setitimer(signal.ITIMER_REAL, 0)
        self.assertGreaterEqual(len(came), 3)

    def test_a_connection_that_nobody_accepts(self):
        self.listener.listen(0)
        waiting = []
        self.addCleanup(lambda: [server.close() for server in waiting])
        self.addCleanup(socket.setdefaulttimeout, socket.getdefaulttimeout())
        # The timeout that a program sets for its own sockets changes nothing.
        for default in (None, 60):
            socket.setdefaulttimeout(default)
            for error, words, call in (
                    (vx.TimedOut, "not accepted in 1 seconds",
                     lambda: waiting.append(vx.connect(self.path, timeout=SHORT))),
                    (TimeoutError, "not accepted in 1 seconds",
                     lambda: vx.status(self.path, timeout=SHORT))):
                start = time.monotonic()
                with self.assertRaisesRegex(error, words):
                    for _ in range(5):
                        call()
                self.assertLess(SHORT / 2, time.monotonic() - start)
                self.assertLess(time.monotonic() - start, 40)


if __name__ == "__main__":
    unittest.main()
