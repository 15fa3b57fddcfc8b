"""
Interruptions at any moment, as by Ctrl-C. No byte is lost, so the context goes on, or ends
silently.

feqyldan promises this for an exception from any signal handler. To run it by hand:

    FEQYLDAN_PROGRAM=PROGRAM python3 clients/python/tests/test_interruptions.py 1000
"""

import contextlib
import errno
import fcntl
import gc
import os
import random
import signal
import subprocess
import sys
import tempfile
import threading
import time
import unittest
from functools import partial
from unittest import mock

from program import SERVED, ProgramTest, answering, needs_program, of_a_process, vx
from feqyldan import pages, samples, storage, wire
from feqyldan.connection import Body, Connection, Request
from feqyldan.forks import HELD, Forked
from feqyldan.pipes import enlarge
from feqyldan.sources import Taker
from test_processes import ProcessTest

OPENED = wire.reply_frame(0, wire.OPEN_CONTEXT)
SIZES = (16, 16), (640, 480), (1280, 720)
# Interruptions for each size, and the greatest number of seconds before one.
TIMES, LATEST = 15, 0.004


def interrupt(*_):
    raise KeyboardInterrupt


@contextlib.contextmanager
def interrupting():
    """Returns a function that lets SIGALRM raise KeyboardInterrupt after some seconds."""
    before = signal.signal(signal.SIGALRM, interrupt)
    try:
        yield lambda seconds: signal.setitimer(signal.ITIMER_REAL, seconds)
    finally:
        signal.setitimer(signal.ITIMER_REAL, 0)
        signal.signal(signal.SIGALRM, before)


class Loop:
    """The loop of a station."""

    def __init__(self, context, width, height, in_pipeline):
        self.context, self.in_pipeline = context, in_pipeline
        self.part, self.out = (context.image(vx.U8, width, height) for _ in range(2))
        self.graph = context.graph()
        self.graph.not_(self.part, self.out)
        self.pictures = [bytes([shade]) * (width * height) for shade in (10, 20, 30)]
        # NumPy is imported by now: an import may swallow an interruption.
        self.one(self.pictures[0])

    def run(self):
        while True:
            for picture in self.pictures:
                self.one(picture)

    def one(self, picture):
        if self.in_pipeline:
            with self.context.pipeline() as ahead:
                self.part.write(picture)
                self.graph.process()
                out = ahead.read(self.out)
            out = out.value()
        else:
            self.part.write(picture)
            self.graph.process()
            out = self.out.read()
        if out[0, 0] != 255 - picture[0] or out[-1, -1] != 255 - picture[0]:
            raise AssertionError("this isn't what was asked for")


def interrupt_often(times, width, height, in_pipeline, seed=1):
    """Interrupts a loop at random moments; the same context goes on each time."""
    chance = random.Random(seed)
    with interrupting() as after, vx.Server(SERVED) as server, server.context() as context:
        loop = Loop(context, width, height, in_pipeline)
        for _ in range(times):
            try:
                after(chance.uniform(1e-6, LATEST))
                loop.run()
            except KeyboardInterrupt:
                pass
            loop.one(loop.pictures[0])
        # Nothing is left over: what was made in between was given back.
        assert context.usage().objects == 3, context.usage()


@needs_program
class TestAtRandom(unittest.TestCase):
    def test_a_loop_goes_on(self):
        for width, height in SIZES:
            for in_pipeline in (False, True):
                with self.subTest(size=(width, height), in_pipeline=in_pipeline):
                    interrupt_often(TIMES, width, height, in_pipeline)

    def test_what_is_made_is_released(self):
        """An interruption may lose the name of an image, but the image is released."""
        chance = random.Random(2)
        with interrupting() as after, vx.Server(SERVED, quota=500_000) as server:
            with server.context() as context:
                for _ in range(100):
                    with contextlib.suppress(KeyboardInterrupt):
                        after(chance.uniform(1e-6, LATEST))
                        while True:
                            context.image(vx.U8, 300, 300)
                    # The reply to what was interrupted comes first.
                    context.min_max()
                    context.image(vx.U8, 600, 600)

    def test_a_stream_goes_on(self):
        chance = random.Random(3)
        with interrupting() as after, vx.Server(SERVED) as server, server.context() as context:
            loop = Loop(context, 300, 200, False)
            for times in range(TIMES):
                frames = [loop.pictures[number % 3] for number in range(10_000)]
                with contextlib.suppress(KeyboardInterrupt):
                    after(chance.uniform(1e-6, 2 * LATEST))
                    for frame, out in loop.graph.stream(frames if times % 2 else iter(frames),
                                                        loop.part, loop.out):
                        self.assertEqual(out[0, 0], 255 - frame[0])
                loop.one(loop.pictures[times % 3])

    def test_a_handler_that_makes_calls(self):
        """They are answered, or refused if they interrupt another call, which goes on."""
        found, until = set(), time.monotonic() + 30
        with vx.Server(SERVED) as server, server.context() as context, server.context() as other:
            loop, small = Loop(context, 300, 200, False), other.image_from([[3]])

            def work(*_):
                try:
                    found.add(small.read()[0, 0])
                except vx.NestedCall:
                    found.add("nested")

            before = signal.signal(signal.SIGALRM, work)
            signal.setitimer(signal.ITIMER_REAL, 0.01, 0.01)
            try:
                while found != {3, "nested"} and time.monotonic() < until:
                    loop.one(loop.pictures[0])
            finally:
                signal.setitimer(signal.ITIMER_REAL, 0)
                signal.signal(signal.SIGALRM, before)
            self.assertEqual(found, {3, "nested"})

    def test_a_handler_that_closes_the_server(self):
        """It is closed, or goes on if the handler interrupts a call."""
        chance, found = random.Random(4), []
        for _ in range(20):
            server = vx.Server(SERVED)
            loop = Loop(server.context(), 300, 200, False)

            def close(*_, server=server):
                try:
                    server.close()
                except vx.NestedCall:
                    found.append(server)

            before = signal.signal(signal.SIGALRM, close)
            signal.setitimer(signal.ITIMER_REAL, chance.uniform(1e-6, LATEST))
            try:
                while server not in found:
                    loop.one(loop.pictures[0])
                loop.one(loop.pictures[1])
                server.close()
            except vx.Closed:
                self.assertNotIn(server, found)
            finally:
                signal.signal(signal.SIGALRM, before)


class Everywhere:
    """Raises KeyboardInterrupt, or acts otherwise, before the n-th line that runs in the package's
    connections, or before the n-th event in other files."""

    def __init__(self, number, files=("connection.py", "pipeline.py"), events=("line",),
                 act=interrupt):
        self.left, self.files, self.events, self.act = number, files, events, act

    def __call__(self, frame, event, _):
        if not frame.f_code.co_filename.endswith(self.files):
            return None
        if event in self.events:
            self.left -= 1
            if self.left == 0:
                self.act()
        return self

    def interrupts(self, call, *arguments):
        """Calls a function, and returns whether it was interrupted. Fails if the interruption was
        lost."""
        left = self.left
        # It would be lost in the end of an object that the collector frees.
        gc.disable()
        try:
            sys.settrace(self)
            call(*arguments)
        except KeyboardInterrupt:
            return True
        finally:
            sys.settrace(None)
            gc.enable()
        has_come = self.left <= 0 < left
        if has_come and self.act is interrupt:
            raise AssertionError("the interruption was lost")
        return has_come


def can_lend():
    return samples.numpy_module() is not None and pages.can_lend()


def answer_slowly(source, target, got, size):
    """Reads this many bytes with pauses, and then answers."""
    while size:
        got.append(os.read(source, 60_000))
        size -= len(got[-1])
        time.sleep(0.0005)
    os.write(target, wire.reply_frame(7, 1))


def write_slowly(target, data):
    """Writes with pauses, so that it is read in pieces."""
    for at in range(0, len(data), 50_000):
        os.write(target, data[at : at + 50_000])
        time.sleep(0.0005)


@of_a_process
class TestEachLine(unittest.TestCase):
    """An exception before each line of a connection's code in turn."""

    def exchange(self, interrupted_at):
        """Sends four requests of two lengths with different replies. The pipes can hold all
        requests and a part of the replies. Returns whether it was interrupted."""
        (theirs, writer), (reader, ours) = os.pipe(), os.pipe()
        enlarge(writer)
        connection = Connection(writer, reader, lambda _: vx.ServerEnded("ended"), lambda: None)
        requests = [Request(f"request {number}", 7, number, body=Body(70_000 * (number % 2)))
                    for number in range(1, 5)]
        frames = [wire.frame(7, number, bytes([number]) * (9 if number % 2 else 40_000))
                  for number in range(1, 5)]
        replies = b"".join(wire.reply_frame(7, number, 0, bytes([number]) * (70_000 * (number % 2)))
                           for number in range(1, 5))
        # The server: it answers all as soon as something comes.
        os.set_blocking(ours, False)
        at = 0
        is_interrupted = False
        trace = Everywhere(interrupted_at)
        taken = []
        for number, request in enumerate(requests):
            is_interrupted |= trace.interrupts(connection.send, request, [frames[number]])
            taken.append(request.end > 0 and request in connection._line)
            if not taken[-1]:
                connection.send(request, [frames[number]])
        while requests[-1].answer is None:
            with contextlib.suppress(BlockingIOError):
                at += os.write(ours, replies[at:])
            is_interrupted |= trace.interrupts(connection.look)
        os.close(writer)
        with open(theirs, "rb") as sent:
            self.assertEqual(sent.read(), b"".join(frames))
        self.assertEqual(b"".join(bytes(request.reply) for request in requests), replies)
        for descriptor in (reader, ours):
            os.close(descriptor)
        return is_interrupted

    def test_what_has_no_room_is_sent_later(self):
        """look() sends what the pipe could not take; later changes of the caller's buffer don't
        matter."""
        (theirs, writer), (reader, ours) = os.pipe(), os.pipe()
        fcntl.fcntl(writer, 1031, 4096)
        connection = Connection(writer, reader, lambda _: vx.ServerEnded("ended"), lambda: None)
        samples, got = bytearray(b"1" * 3000), b""
        for number in range(5):
            connection.send(Request("one", 7, number), [b"head", memoryview(samples)])
            samples[:] = b"%d" % number * 3000
        samples[:] = b"X" * 3000
        while len(got) < 5 * 3004:
            connection.look()
            got += os.read(theirs, 1000)
        self.assertEqual(got, b"".join(b"head" + one * 3000
                                       for one in (b"1", b"0", b"1", b"2", b"3")))
        for descriptor in (theirs, writer, reader, ours):
            os.close(descriptor)

    def lend(self, interrupted_at):
        """Sends a picture with lent pages, which the program changes after an interruption; its
        reader doesn't see the change. Returns whether it was interrupted."""
        (theirs, writer), (reader, ours) = os.pipe(), os.pipe()
        connection = Connection(writer, reader, lambda _: vx.ServerEnded("ended"), lambda: None)
        picture, got = bytearray(b"1" * 300_000), []
        server = threading.Thread(target=answer_slowly, args=(theirs, ours, got, 300_004))
        server.start()
        request = Request("one", 7, 1)
        is_interrupted = Everywhere(interrupted_at).interrupts(
            connection.ask, request, [b"head", memoryview(picture)])
        picture[:] = b"2" * len(picture)
        if request in connection._line:
            connection.wait(request)
        else:
            # Nothing of it was taken.
            connection.ask(request, [b"head", b"1" * 300_000])
        server.join()
        self.assertEqual(b"".join(got), b"head" + b"1" * 300_000)
        self.assertTrue(request.has_lent or is_interrupted)
        for descriptor in (theirs, writer, reader, ours):
            os.close(descriptor)
        return is_interrupted

    def place(self, interrupted_at):
        """Reads into a place, and returns whether the read was interrupted. After an interruption
        nothing more comes there, and the next read is right."""
        (theirs, writer), (reader, ours) = os.pipe(), os.pipe()
        connection = Connection(writer, reader, lambda _: vx.ServerEnded("ended"), lambda: None)
        place = memoryview(bytearray(200_000))
        replies = b"".join(wire.reply_frame(7, number, 0, b"12345" + b"%d" % number * 200_000)
                           for number in (1, 2))
        server = threading.Thread(target=write_slowly, args=(ours, replies))
        server.start()
        requests = [Request("one", 7, number, body=Body(200_005)) for number in (1, 2)]
        requests[0].into = place
        connection.send(requests[0], [b"head"])
        is_interrupted = Everywhere(interrupted_at).interrupts(connection.wait, requests[0])
        if is_interrupted:
            connection.let_go(place)
            place[:] = b"X" * 200_000
        connection.send(requests[1], [b"head"])
        connection.wait(requests[1])
        server.join()
        self.assertEqual(bytes(place), (b"X" if is_interrupted else b"1") * 200_000)
        self.assertEqual(bytes(requests[1].reply), replies[-200_013:])
        for descriptor in (theirs, writer, reader, ours):
            os.close(descriptor)
        return is_interrupted

    def test_what_was_interrupted_comes_nowhere(self):
        number = 1
        while self.place(number):
            number += 1
        self.assertGreater(number, 50)

    @unittest.skipUnless(can_lend(), "no memory can be lent here")
    def test_what_was_lent_is_read_as_it_was(self):
        number = 1
        while self.lend(number):
            number += 1
        self.assertGreater(number, 50)

    @unittest.skipUnless(can_lend(), "no memory can be lent here")
    def test_memory_that_cant_be_lent_is_copied(self):
        def refuse(*_):
            raise OSError(errno.EINVAL, "no such memory")

        (theirs, writer), (reader, ours) = os.pipe(), os.pipe()
        enlarge(writer)
        connection = Connection(writer, reader, lambda _: vx.ServerEnded("ended"), lambda: None)
        os.write(ours, wire.reply_frame(7, 1))
        with mock.patch.object(pages, "lend", refuse):
            connection.ask(Request("one", 7, 1), [b"head", memoryview(b"1" * 300_000)])
        self.assertEqual(os.read(theirs, 400_000), b"head" + b"1" * 300_000)
        for descriptor in (theirs, writer, reader, ours):
            os.close(descriptor)

    def test_nothing_is_lost(self):
        number = 1
        while self.exchange(number):
            number += 1
        self.assertGreater(number, 100)


class TestChanges(ProgramTest):
    @unittest.skipUnless(samples.numpy_module(), "NumPy isn't installed")
    def test_a_read_that_is_interrupted_again(self):
        """While the first interruption ends it. Nothing more comes into the array."""
        numpy = samples.numpy_module()
        image, out = self.context.image_from([[1, 2]]), numpy.zeros((1, 2), "uint8")
        connection = self.context._connection
        let_go, left = connection.let_go, []

        def interrupted(place):
            left.append(place)
            if len(left) < 3:
                interrupt()
            let_go(place)

        with mock.patch.object(type(connection), "let_go", lambda _, place: interrupted(place)), \
                mock.patch.object(type(self.context), "_reply_to", lambda *_: interrupt()):
            self.assertRaises(KeyboardInterrupt, image.read, out)
        self.assertEqual(len(left), 3)
        out[:] = 9
        self.holds(image, [[1, 2]])
        self.assertEqual(out.tolist(), [[9, 9]])

    """After an interruption before each line in turn, the package and the server agree."""

    FILES = ("connection.py", "context.py", "direct.py", "graphs.py", "server.py")

    def interruptions(self, call_of, act=interrupt):
        """Calls what `call_of` returns, interrupted before each line in turn, and yields after each
        interruption, and in the end without one."""
        number, is_interrupted = 0, True
        while is_interrupted:
            number += 1
            is_interrupted = Everywhere(number, self.FILES, act=act).interrupts(call_of())
            yield
        self.assertGreater(number, 30)

    def agree(self, graph, out):
        """Fails unless the server runs the nodes of a graph: none, or one that inverts 1."""
        nodes = graph.nodes
        out.fill(0)
        graph.process()
        self.assertEqual(out.read()[0, 0], 254 * len(nodes))

    def test_adding_a_node(self):
        part, out = self.context.image_from([[1]]), self.context.image(vx.U8, 1, 1)
        graphs = []

        def call():
            graphs.append(self.context.graph())
            return lambda: graphs[-1].not_(part, out)

        for _ in self.interruptions(call):
            self.agree(graphs.pop(), out)

    def test_removing_a_node(self):
        part, out = self.context.image_from([[1]]), self.context.image(vx.U8, 1, 1)
        nodes = []

        def call():
            nodes.append(self.context.graph().not_(part, out))
            return nodes[-1].remove

        for _ in self.interruptions(call):
            node = nodes.pop()
            self.agree(node.graph, out)
            node.remove()
            self.assertEqual(node.graph.nodes, ())
            self.agree(node.graph, out)

    def test_closing_a_context(self):
        """It can be closed again, and the server has released it."""
        contexts = []

        def call():
            contexts.append(self.server.context())
            contexts[-1].image(vx.U8, 8, 8)
            return contexts[-1].close

        for _ in self.interruptions(call):
            context = contexts.pop()
            context.close()
            self.assertTrue(context.closed)
            # Refused if the server still has a context with this number.
            type(context)(self.server, self.server._connection, context.number).close()

    @unittest.skipUnless(samples.numpy_module(), "NumPy isn't installed")
    def test_the_value_of_a_result(self):
        """Its samples are converted in place. The next value() doesn't convert them back."""
        for fmt, rows in ((vx.U8, [[1, 2, 3]]), (vx.S16, [[1, -2, 300]]), (vx.U32, [[1, 2, 9**9]])):
            image, number, is_interrupted = self.context.image_from(rows, fmt), 0, True
            while is_interrupted:
                number += 1
                with self.context.pipeline() as ahead:
                    result = ahead.read(image)
                trace = Everywhere(number, ("pipeline.py", "samples.py"), ("line", "return"))
                is_interrupted = trace.interrupts(result.value)
                self.assertEqual(result.value().tolist(), rows, number)
            self.assertGreater(number, 20)

    def test_a_handler_between_the_lines_of_a_call(self):
        """Its own call releases nothing that the interrupted one asked for, and nothing twice."""
        small, made = self.context.image_from([[3]]), []

        def handle():
            with contextlib.suppress(vx.NestedCall):
                self.assertEqual(small.read()[0, 0], 3)

        def call():
            # Python frees it at once, so the next call releases it.
            self.context.image(vx.U8, 4, 4)
            return lambda: made.append(self.context.image(vx.U8, 8, 8))

        for _ in self.interruptions(call, handle):
            image = made.pop()
            image.fill(7)
            self.assertEqual(image.read()[7, 7], 7)
            image.close()
            self.assertEqual(self.context.usage().objects, 1)

    def test_a_handler_that_opens_contexts(self):
        """No two open contexts have one number."""
        made = []

        def handle():
            with contextlib.suppress(vx.NestedCall):
                made.append(self.server.context())

        def call():
            # Python frees the first.
            self.server.context()
            other = self.server.context()

            def close_and_open():
                other.close()
                handle()

            return close_and_open

        for _ in self.interruptions(call, handle):
            self.assertEqual(len({context.number for context in made}), len(made))
            for context in made:
                self.assertEqual(context.usage().objects, 0)
                context.image(vx.U8, 1, 1)
            while made:
                made.pop().close()

    def test_a_handler_that_changes_something(self):
        """What interrupts a call of the server is refused, changes nothing, and can be done
        later."""
        part, out = self.context.image_from([[1]]), self.context.image(vx.U8, 1, 1)
        node, delay = self.context.graph().not_(part, out), self.context.delay(part, 2)
        image, other = self.context.image(vx.U8, 8, 8), self.server.context()
        changes = node.remove, image.close, other.close, delay.close
        objects, is_nested, way = self.context.usage().objects, [], type(self.server._connection)
        name = "_wait" if way is Connection else "_serve"
        kept = getattr(way, name)

        def within_a_call(*arguments):
            for change in changes if not is_nested else ():
                self.assertRaises(vx.NestedCall, change)
            is_nested.append(True)
            return kept(*arguments)

        with mock.patch.object(way, name, within_a_call):
            part.read()
        self.assertTrue(is_nested)
        self.assertEqual([one.number for one in node.graph.nodes], [node.number])
        self.assertFalse(image.closed or delay.closed or other.closed)
        self.assertEqual((image.read().shape, self.context.usage().objects), ((8, 8), objects))
        for change in changes:
            change()
        self.agree(node.graph, out)
        self.assertTrue(image.closed and delay.closed and other.closed)
        self.assertEqual(self.context.usage().objects, objects - 2)


class TestStreams(ProgramTest):
    def test_each_line_of_the_start(self):
        """The iterator ends, and its thread too."""
        loop, number, is_interrupted = Loop(self.context, 4, 4, False), 0, True
        while is_interrupted:
            number += 1
            begun, ended = [], []

            def frames(begun=begun, ended=ended):
                begun.append(True)
                try:
                    yield from loop.pictures
                finally:
                    ended.append(True)

            def start(frames=frames):
                for _ in loop.graph.stream(frames(), loop.part, loop.out):
                    pass

            files = "streams.py", "sources.py"
            is_interrupted = Everywhere(number, files).interrupts(start)
            for thread in threading.enumerate():
                if isinstance(thread, Taker):
                    thread.join(10)
                    self.assertFalse(thread.is_alive(), number)
            self.assertEqual(ended, begun, number)
            loop.one(loop.pictures[0])
        self.assertGreater(number, 50)

    def interrupted(self, number):
        """Returns whether a stream was interrupted at the n-th line or return of its code or the
        locks that it uses. The stream ends, and another one goes on."""
        loop = self.loop
        files = "streams.py", "sources.py", "threading.py"
        trace = Everywhere(number, files, ("line", "return"))
        stream = loop.graph.stream(iter(loop.pictures), loop.part, loop.out)
        # Its thread is there.
        next(stream)
        try:
            sys.settrace(trace)
            for _ in stream:
                pass
        except KeyboardInterrupt:
            sys.settrace(None)
            with self.assertRaises(StopIteration):
                next(stream)
            loop.one(loop.pictures[0])
            return True
        finally:
            sys.settrace(None)
        return False

    def test_each_line_of_a_stream(self):
        self.loop, number = Loop(self.context, 4, 4, False), 1

        def stuck(*_):
            raise AssertionError(f"stuck after the {number}th event")

        before = signal.signal(signal.SIGALRM, stuck)
        try:
            signal.alarm(60)
            while self.interrupted(number):
                number += 1
        finally:
            signal.alarm(0)
            signal.signal(signal.SIGALRM, before)
        self.assertGreater(number, 50)


class TestHeld(unittest.TestCase):
    def test_what_python_frees(self):
        """No interruption is lost, and nothing of it is left."""
        class Thing(Forked):
            pass

        held, kept, number = type(HELD)(), Thing(), 1
        held.add(kept)
        while Everywhere(number, ("forks.py", "_weakrefset.py"), ("line", "return")).interrupts(
                lambda: held.add(Thing())):
            self.assertEqual(list(held), [kept])
            number += 1
        self.assertGreater(number, 2)
        self.assertTrue(kept in held)
        self.assertFalse(Thing() in held)


LOOP = """
import feqyldan as vx

with vx.Server() as server, server.context() as context:
    part, out = (context.image(vx.U8, 1280, 720) for _ in range(2))
    graph = context.graph()
    graph.not_(part, out)
    picture = bytes(1280 * 720)
    # NumPy is imported by now: an import may swallow an interruption.
    out.read()
    try:
        print(server._process.pid, flush=True)
        while True:
            part.write(picture)
            graph.process()
            out.read()
    except KeyboardInterrupt:
        print("interrupted", flush=True)
print("ended well", flush=True)
"""


@needs_program
@of_a_process
class TestPrograms(ProcessTest):
    def test_ctrl_c_in_the_plainest_loop(self):
        """The program ends normally, and no server is left."""
        chance = random.Random(5)
        for _ in range(5):
            client = self.start(LOOP)
            server = int(self.line_of(client)[0])
            time.sleep(chance.uniform(0.01, 0.05))
            os.killpg(client.pid, signal.SIGINT)
            self.assertEqual(self.line_of(client), ["interrupted"])
            self.assertEqual(self.line_of(client), ["ended", "well"])
            self.assertEqual(client.wait(60), 0)
            self.ends(server)


class TestFiles(unittest.TestCase):
    def test_each_line(self):
        """No file stays open, and none is left beside the one that was to be written."""
        folder = tempfile.TemporaryDirectory()
        self.addCleanup(folder.cleanup)
        path = os.path.join(folder.name, "picture")
        storage.write_bytes(path, [b"old"])
        # What earlier tests have left would be closed meanwhile.
        gc.collect()
        for call in (partial(storage.read_bytes, path),
                     partial(storage.write_bytes, path, [b"new"])):
            number, is_interrupted = 0, True
            while is_interrupted:
                number += 1
                opened = os.listdir("/proc/self/fd")
                trace = Everywhere(number, ("storage.py",), ("line", "return"))
                is_interrupted = trace.interrupts(call)
                self.assertEqual(os.listdir("/proc/self/fd"), opened)
                self.assertEqual(os.listdir(folder.name), ["picture"])
                self.assertIn(storage.read_bytes(path), (b"old", b"new"))
            self.assertGreater(number, 8)

    def test_each_line_after_an_error(self):
        """The new file is removed, too, if its removal is interrupted."""
        def save():
            with self.assertRaises(OSError):
                storage.write_bytes(path, [b"new"])

        folder = tempfile.TemporaryDirectory()
        self.addCleanup(folder.cleanup)
        path = os.path.join(folder.name, "picture")
        with mock.patch("os.fsync", side_effect=OSError):
            number, is_interrupted = 0, True
            while is_interrupted:
                number += 1
                trace = Everywhere(number, ("storage.py",), ("line", "return"))
                is_interrupted = trace.interrupts(save)
                self.assertEqual(os.listdir(folder.name), [])
        self.assertGreater(number, 8)


@of_a_process
class TestQuietEnds(ProgramTest):
    def test_a_server_that_is_gone(self):
        """A program that got the error that the server ended doesn't get it again, and one that
        didn't gets it."""
        with self.server.context() as context, context.image(vx.U8, 1, 1):
            os.kill(self.server._process.pid, signal.SIGKILL)
            self.assertRaises(vx.ServerEnded, context.graph)
            self.assertTrue(context.closed and self.server.closed)
            self.assertRaises(vx.ServerEnded, context.graph)
        self.context.close()
        self.server.close()
        with self.assertRaises(vx.ServerEnded):
            with vx.Server() as server, server.context():
                os.kill(server._process.pid, signal.SIGKILL)

    def test_a_server_whose_start_is_interrupted(self):
        """It ends, and leaves no descriptor."""
        started, start = [], subprocess.Popen

        def popen(*words, **options):
            started.append(start(*words, **options))
            return started[-1]

        opened = os.listdir("/proc/self/fd")
        with mock.patch("subprocess.Popen", popen), \
                mock.patch("feqyldan.process.enlarge", interrupt):
            self.assertRaises(KeyboardInterrupt, vx.Server, process=True)
        self.assertEqual(started[0].wait(60), 0)
        self.assertEqual(os.listdir("/proc/self/fd"), opened)

    def test_a_server_that_was_too_slow(self):
        with vx.Server(answering(OPENED, 60.0), timeout=5) as server, server.context() as context:
            self.assertRaises(vx.TimedOut, context.graph)


def by_hand(times):
    for width, height in SIZES:
        for in_pipeline in (False, True):
            seed = random.randrange(2**32)
            interrupt_often(times // 2, width, height, in_pipeline, seed)
            print(f"{width}x{height}, {'a pipeline each' if in_pipeline else 'each call waits'}: "
                  f"{times // 2} interruptions, and the context goes on (seed {seed})", flush=True)


if __name__ == "__main__":
    if len(sys.argv) == 2 and sys.argv[1].isdigit():
        by_hand(int(sys.argv[1]))
    else:
        unittest.main()
