"""
Servers in the process of the tests, and how vx.Server() chooses between the two ways. The
library is the one that FEQYLDAN_CORE names, or the one built in this checkout.
"""

import contextlib
import ctypes
import gc
import os
import shutil
import subprocess
import sys
import tempfile
import threading
import time
import unittest
from unittest import mock

from program import CORE, HERE, PROGRAM, needs_program, vx
from feqyldan import core, program, samples, wire
from feqyldan.connection import Body, Buffers, Request
from feqyldan.core import Core
from feqyldan.direct import DirectConnection
from test_interruptions import Everywhere, Loop, interrupting

PATH = CORE or next(iter(program.cores()), None)
ROOT = os.path.realpath(os.path.join(HERE, "..", "..", ".."))
PACKAGE = os.path.realpath(os.path.join(HERE, ".."))
needs_core = unittest.skipUnless(PATH, "FEQYLDAN_CORE isn't set, and this checkout has built no "
                                       "libfeqyldan-core.so")
# Another process finds the library alone.
VARIABLES = {"FEQYLDAN_CORE": PATH or "", "PYTHONPATH": PACKAGE, "FEQYLDAN_PROGRAM": "",
             "PYTHONDONTWRITEBYTECODE": "1"}
GREATEST = 2**40


def run(script):
    """Runs a script with the library, and returns its status and its output."""
    done = subprocess.run([sys.executable, "-c", script], env={**os.environ, **VARIABLES},
                          stdout=subprocess.PIPE, stderr=subprocess.STDOUT, text=True, timeout=120)
    return done.returncode, done.stdout


def opened():
    """Returns a connection to a server of its own with an open context of client 7."""
    connection = DirectConnection(Core(PATH, GREATEST, GREATEST))
    connection.ask(Request("open", 7, wire.OPEN_CONTEXT), [wire.open_context(7)])
    return connection


@needs_core
class TestChoice(unittest.TestCase):
    def setUp(self):
        variables = {name: value for name, value in os.environ.items()
                     if name not in (core.VARIABLE, program.VARIABLE)}
        for patch in (mock.patch.dict(os.environ, variables, clear=True),
                      mock.patch.object(program, "INSIDE", "/no/such/package"),
                      mock.patch.object(program, "CRATE", "/no/such/crate"),
                      mock.patch.object(core, "INSTALLED", "libfeqyldan-none.so.0")):
            patch.start()
            self.addCleanup(patch.stop)

    def is_here(self, *arguments, **options):
        with vx.Server(*arguments, **options) as server, server.context() as context:
            self.assertEqual(context.image_from([[1]]).read().tolist(), [[1]])
            self.assertEqual("in this process" in repr(server), server._process is None)
            return server._process is None

    def test_the_library_is_used_where_it_is_found(self):
        os.environ[core.VARIABLE] = PATH
        self.assertTrue(self.is_here())
        self.assertTrue(self.is_here(process=False))
        del os.environ[core.VARIABLE]
        with mock.patch.object(program, "cores", return_value=[PATH]):
            self.assertTrue(self.is_here(quota=100, work=100))

    @unittest.skipUnless(PROGRAM, "FEQYLDAN_PROGRAM isn't set")
    def test_a_program_wins(self):
        os.environ[core.VARIABLE] = PATH
        self.assertFalse(self.is_here(PROGRAM))
        self.assertFalse(self.is_here(PROGRAM, timeout=60))
        os.environ[program.VARIABLE] = PROGRAM
        self.assertFalse(self.is_here())
        self.assertFalse(self.is_here(process=True))
        self.assertFalse(self.is_here(timeout=60))
        self.assertTrue(self.is_here(process=False))

    def test_what_is_refused(self):
        with self.assertRaisesRegex(vx.ProgramNotFound, "FEQYLDAN_CORE isn't set, .* the system "
                                    "has none: libfeqyldan-none.so.0: "):
            vx.Server(process=False)
        os.environ[core.VARIABLE] = PATH
        # 0 is as good as False.
        for process in (False, 0):
            with self.assertRaisesRegex(ValueError, "a program can't run in this process"):
                vx.Server("/usr/bin/vx_main", process=process)
            with self.assertRaisesRegex(ValueError, "timeout=5 can't be kept.*process=False"):
                vx.Server(process=process, timeout=5)
        os.environ[core.VARIABLE] = "/no/such/library"
        with self.assertRaisesRegex(vx.ProgramNotFound, "FEQYLDAN_CORE is /no/such/library"):
            vx.Server()
        os.environ[core.VARIABLE] = __file__
        with self.assertRaisesRegex(vx.ProgramNotFound, "isn't the server's library"):
            vx.Server()

    def test_the_kind_for_the_processor(self):
        with tempfile.TemporaryDirectory() as folder:
            for name in (program.FASTER_CORE, program.PLAIN_CORE):
                with open(os.path.join(folder, name), "wb"):
                    pass
            with mock.patch.object(program, "INSIDE", folder):
                plain, all_flags = program.PLAIN_FLAGS, program.PLAIN_FLAGS | program.FASTER_FLAGS
                for flags, wanted in ((all_flags, program.FASTER_CORE), (plain, program.PLAIN_CORE),
                                      (set(), None)):
                    with mock.patch.object(program, "_flags", return_value=flags):
                        found = core.find()
                    self.assertEqual(found and os.path.basename(found), wanted)

    def test_the_kind_for_arm(self):
        """The plain one of a checkout, for x86-64, isn't taken."""
        with tempfile.TemporaryDirectory() as folder:
            built = os.path.join(folder, "out", program.ARM_CORE)
            os.mkdir(os.path.dirname(built))
            with mock.patch.object(program, "CRATE", folder), \
                    mock.patch.object(program, "is_arm", return_value=True):
                for name, found in ((program.PLAIN_CORE, None), (program.ARM_CORE, built)):
                    with open(os.path.join(folder, "out", name), "wb"):
                        pass
                    # An emulated processor may have the flags of the real one.
                    for flags in (set(), program.PLAIN_FLAGS | program.FASTER_FLAGS):
                        with mock.patch.object(program, "_flags", return_value=flags):
                            self.assertEqual(core.find(), found)

    def test_an_installed_library_is_the_last(self):
        with mock.patch.object(core, "INSTALLED", PATH):
            self.assertTrue(self.is_here())
            with mock.patch.object(program, "_flags", return_value=set()):
                self.assertIsNone(core.find())
            with mock.patch.object(program, "cores", return_value=["/the/first"]):
                self.assertEqual(core.find(), "/the/first")


# Prints where the server is that is neither in the package nor in this checkout.
INSTALLED = """
import feqyldan as vx
from feqyldan import program
program.INSIDE = program.CRATE = "/no/such/folder"
try:
    with vx.Server() as server, server.context() as context:
        print(server, context.image_from([[1]]).read().tolist())
except vx.ProgramNotFound as error:
    print(error)
"""


@needs_core
class TestInstalled(unittest.TestCase):
    """The dynamic linker finds the library by its name, as that of the package libfeqyldan0."""

    def setUp(self):
        folder = tempfile.TemporaryDirectory()
        self.addCleanup(folder.cleanup)
        self.installed, self.other = (os.path.join(folder.name, name) for name in ("lib", "other"))
        self.library = os.path.join(self.installed, core.INSTALLED)
        for path in (self.installed, self.other):
            os.mkdir(path)

    def said(self, **variables):
        """Returns what the script prints in another folder."""
        environment = {**os.environ, **VARIABLES, "FEQYLDAN_CORE": "", "PATH": "/nowhere",
                       "LD_LIBRARY_PATH": self.installed, **variables}
        return subprocess.run([sys.executable, "-c", INSTALLED], cwd=self.other, env=environment,
                              stdout=subprocess.PIPE, stderr=subprocess.STDOUT, text=True,
                              timeout=120, check=False).stdout

    def test_it_is_found(self):
        shutil.copy(PATH, self.library)
        self.assertEqual(self.said(), "<server, in this process> [[1]]\n")

    def test_the_current_folder_is_not_searched(self):
        shutil.copy(PATH, self.library)
        with open(os.path.join(self.other, core.INSTALLED), "w", encoding="utf-8") as file:
            file.write("no library")
        for told in ("", core.INSTALLED):
            self.assertEqual(self.said(FEQYLDAN_CORE=told), "<server, in this process> [[1]]\n")

    @unittest.skipUnless(shutil.which("cc"), "there is no C compiler")
    def test_one_of_another_version_is_refused(self):
        source = os.path.join(self.other, "core.c")
        with open(source, "w", encoding="utf-8") as file:
            file.write("int feqyldan_open(void) { return 0; }\n")
        subprocess.run(["cc", "-shared", "-fPIC", source, "-o", self.library], check=True)
        self.assertRegex(self.said(), rf"^{core.INSTALLED} isn't the server's library of feqyldan "
                         rf"{vx.__version__}: .*undefined symbol: feqyldan_connect. Install .* of "
                         r"this version, .* vx.Server\(process=True\)\n$")


class CoreTest(unittest.TestCase):
    limits = {}

    def setUp(self):
        with mock.patch.dict(os.environ, {core.VARIABLE: PATH}):
            self.server = vx.Server(process=False, **self.limits)
        self.addCleanup(self.server.close)
        self.context = self.server.context()


OK, NOT_CONNECTED = 0, 7


@needs_core
class TestConnections(unittest.TestCase):
    """Several connections on one handle."""

    def setUp(self):
        self.core = Core(PATH, GREATEST, GREATEST)
        self.addCleanup(self.core.close)

    def serve(self, number, frame):
        """Returns the status and the reply to a frame of a connection."""
        reply, length = ctypes.create_string_buffer(2000), ctypes.c_size_t()
        status = self.core.serve(
            self.core.address, core.number_of(number), *core.argument_of(frame), *core.NOTHING,
            ctypes.byref(reply), core.size_of(len(reply)), *core.NOTHING, ctypes.byref(length))
        return status, reply.raw[:length.value]

    def ask(self, number, frame, code=wire.SUCCESS):
        status, reply = self.serve(number, frame)
        self.assertEqual((status, wire.code_of(reply)), (OK, code))
        return reply

    def test_the_same_client_and_the_same_names(self):
        """No connection sees the pixels of another one."""
        numbers = [self.core.connect() for _ in range(3)]
        self.assertEqual(len({*numbers}), 3)
        for shade, number in enumerate(numbers):
            self.ask(number, wire.create_image(7, vx.U8, 9, 5), wire.INVALID_REFERENCE)
            self.ask(number, wire.open_context(7))
            for _ in range(shade + 1):
                made = self.ask(number, wire.create_image(7, vx.U8, 9, 5))
            self.assertEqual(wire.name_of(made), shade + 1)
            self.ask(number, wire.write_image(7, 1, vx.U8, 9, 5, bytes([shade]) * 45))
        for shade, number in enumerate(numbers):
            rows = wire.rows_of(self.ask(number, wire.read_image(7, 1)))
            self.assertEqual(rows, [(shade,) * 9] * 5)
            self.ask(number, wire.read_image(7, shade + 2), wire.INVALID_REFERENCE)

    def test_a_closed_connection(self):
        """Its number is refused. The next connection has no context and none of its pixels."""
        first, second = self.core.connect(), self.core.connect()
        for number in (first, second):
            self.ask(number, wire.open_context(7))
            self.ask(number, wire.create_image(7, vx.U8, 9, 5))
            self.ask(number, wire.write_image(7, 1, vx.U8, 9, 5, b"\xc8" * 45))
        self.core.disconnect(first)
        self.core.disconnect(first)
        self.assertEqual(self.serve(first, wire.read_image(7, 1)), (NOT_CONNECTED, b""))
        third = self.core.connect()
        self.assertNotIn(third, (first, second))
        self.ask(third, wire.read_image(7, 1), wire.INVALID_REFERENCE)
        self.ask(third, wire.open_context(7))
        self.ask(third, wire.create_image(7, vx.U8, 9, 5))
        for number, sample in ((third, 0), (second, 200)):
            rows = wire.rows_of(self.ask(number, wire.read_image(7, 1)))
            self.assertEqual(rows, [(sample,) * 9] * 5)

    def test_the_most_contexts(self):
        """All connections together have 65,535; then OpenContext finds no memory."""
        first, second = self.core.connect(), self.core.connect()
        for client in range(65535):
            self.ask((first, second)[client % 2], wire.open_context(client))
        for number in (first, second):
            self.ask(number, wire.open_context(65535), wire.Code.NO_MEMORY)
        self.core.disconnect(first)
        self.ask(second, wire.open_context(65535))

    def test_memory_of_a_closed_connection(self):
        """The process holds it no longer, but for what the server keeps for later images."""
        status, output = run(HOLDING)
        self.assertEqual(status, 0, output)
        before, during, after = map(int, output.split())
        self.assertGreater(during - before, 250)
        self.assertLess(after - before, 100)


# Prints the megabytes that the process holds before a connection with four large pictures, with it
# and after it. The server keeps at most 64 megabytes of them.
HOLDING = """
import ctypes, os
from feqyldan import core, wire
def held():
    with open("/proc/self/statm") as numbers:
        return int(numbers.read().split()[1]) * os.sysconf("SC_PAGESIZE") >> 20
def ask(number, frame):
    reply, length = ctypes.create_string_buffer(28), ctypes.c_size_t()
    status = server.serve(
        server.address, core.number_of(number), *core.argument_of(frame), *core.NOTHING,
        ctypes.byref(reply), core.size_of(28), *core.NOTHING, ctypes.byref(length))
    assert (status, reply.raw[7]) == (0, 0), (status, reply.raw)
server = core.Core(core.find(), 2**40, 2**40)
other, number = server.connect(), server.connect()
print(held())
ask(number, wire.open_context(7))
for _ in range(4):
    ask(number, wire.create_image(7, wire.U8, 8192, 8192))
for name in range(1, 5):
    ask(number, wire.bitwise_not(7, name, name % 4 + 1))
print(held())
server.disconnect(number)
print(held())
"""


@needs_core
class TestCalls(CoreTest):
    def test_memory_of_all_kinds(self):
        """Samples are read from where they are, and a result belongs to the caller."""
        rows = [[1, 2, 3], [4, 5, 6]]
        for given in (rows, bytes(range(1, 7)), bytearray(range(1, 7)),
                      memoryview(bytes(range(1, 7)))):
            image = self.context.image(vx.U8, 3, 2)
            image.write(given)
            self.assertEqual(image.read().tolist(), rows)
        for fmt, least in ((vx.S16, -32768), (vx.U32, 2**32 - 1)):
            image = self.context.image_from([[least, 1]], fmt)
            self.assertEqual(image.read().tolist(), [[least, 1]])
        if samples.numpy_module() is not None:
            self.arrays(samples.numpy_module())

    def arrays(self, numpy):
        picture = numpy.arange(60000, dtype=numpy.uint8).reshape(200, 300)
        fixed = picture.copy()
        fixed.setflags(write=False)
        for given in (picture, fixed, picture[::2, ::3]):
            image = self.context.image_from(given)
            self.assertTrue((image.read() == given).all())
            place = numpy.zeros(given.shape, numpy.uint8)
            self.assertIs(image.read(place), place)
            self.assertTrue((place == given).all())
        mine = image.read()
        mine[:] = 0
        self.assertTrue((image.read() == picture[::2, ::3]).all())

    def test_refusals_and_the_end(self):
        with self.assertRaises(vx.InvalidDimension):
            self.context.image(vx.U8, 2, 2).write([[1]])
        self.server.close()
        self.server.close()
        self.assertTrue(self.server.closed and self.context.closed)
        self.assertRaises(vx.Closed, self.context.graph)
        self.assertRaises(vx.Closed, self.server.context)

    def test_threads(self):
        """Each thread has a context of its own on one server."""
        wrong = []

        def loop(shade):
            with self.server.context() as context:
                one = Loop(context, 64, 64, shade % 2 == 0)
                for _ in range(200):
                    one.one(bytes([shade]) * 64 * 64)

        def guarded(shade):
            try:
                loop(shade)
            except BaseException as error:
                wrong.append(error)

        threads = [threading.Thread(target=guarded, args=(shade,)) for shade in range(8)]
        for thread in threads:
            thread.start()
        for thread in threads:
            thread.join()
        self.assertEqual(wrong, [])

    def test_a_reply_of_another_size(self):
        """The server's state is unchanged, and nothing is written past the memory."""
        connection = opened()
        image = Request("image", 7, wire.CREATE_IMAGE)
        connection.ask(image, [wire.create_image(7, vx.U8, 100, 100)])
        with self.assertRaisesRegex(vx.UnexpectedReply, "10,013 bytes, more than 58"):
            connection.ask(Request("read", 7, wire.READ_IMAGE, body=Body(50)),
                           [wire.read_image(7, wire.name_of(image.reply))])
        self.assertRaises(vx.UnexpectedReply, connection.wait)
        connection.close()

    def test_a_place_of_another_size(self):
        """Nothing is written past it."""
        connection = opened()
        image = Request("image", 7, wire.CREATE_IMAGE)
        connection.ask(image, [wire.create_image(7, vx.U8, 10, 10)])
        memory = bytearray(b"X" * 60)
        read = Request("read", 7, wire.READ_IMAGE, body=Body(55))
        read.into = memoryview(memory)[:50]
        with self.assertRaisesRegex(vx.UnexpectedReply, "113 bytes, more than 63"):
            connection.ask(read, [wire.read_image(7, wire.name_of(image.reply))])
        self.assertEqual(memory[50:], b"X" * 10)
        connection.close()

    def test_a_refusal_leaves_a_place(self):
        connection, place = opened(), bytearray(b"X" * 100)
        read = Request("read", 7, wire.READ_IMAGE, body=Body(105))
        read.into = memoryview(place)
        connection.ask(read, [wire.read_image(7, 1)])
        self.assertEqual((len(read.reply), read.reply[7]), (8, wire.INVALID_REFERENCE))
        self.assertEqual(place, b"X" * 100)
        connection.close()

    def test_bytes_that_are_no_frame(self):
        connection = opened()
        with self.assertRaisesRegex(vx.FeqyldanError, "takes no frame of 3 bytes"):
            connection.ask(Request("wrong", 7, 1), [b"abc"])
        connection.close()

    def test_servers_that_python_forgets(self):
        """Their memory is given back."""
        def megabytes():
            with open("/proc/self/status", encoding="utf-8") as file:
                return next(int(line.split()[1]) for line in file if line[:6] == "VmRSS:") / 1024

        before = megabytes()
        with mock.patch.dict(os.environ, {core.VARIABLE: PATH}):
            for _ in range(40):
                server = vx.Server(process=False)
                server.context().image(vx.U8, 2000, 2000).fill(1)
                del server
                gc.collect()
        self.assertLess(megabytes() - before, 60)


@needs_core
class TestInterruptions(CoreTest):
    def test_at_each_line(self):
        """No reply is lost: what was made is released, and the context goes on."""
        def work():
            image = self.context.image_from([[1, 2]])
            other = self.context.image_like(image)
            self.context.vxu.not_(image, other)
            return other.read().tolist()

        number, files = 1, ("direct.py", "connection.py")
        while Everywhere(number, files).interrupts(work):
            self.assertEqual(work(), [[254, 253]])
            self.assertEqual(self.context.usage().objects, 0)
            number += 1
        self.assertGreater(number, 50)

    def test_a_stream_after_each_line(self):
        """Its thread finds no lock that the interrupted call has left locked."""
        def request(number):
            return Request("image", 7, number), [wire.frame(7, number)]

        number, is_interrupted = 1, True
        while is_interrupted:
            with contextlib.closing(opened()) as connection:
                is_interrupted = Everywhere(number, ("direct.py", "connection.py")).interrupts(
                    connection.ask, *request(wire.CREATE_GRAPH))
                ahead, parts = request(wire.CREATE_MIN_MAX)
                ahead.is_ahead = True
                connection.send(ahead, parts)
                self.assertTrue(connection.wait(ahead, 10), number)
            number += 1
        self.assertGreater(number, 15)

    def test_a_place_at_each_line(self):
        """After an interruption nothing more comes into the place, and the next reads are
        right."""
        connection = opened()
        connection.ask(Request("image", 7, wire.CREATE_IMAGE), [wire.create_image(7, vx.U8, 8, 8)])
        connection.ask(Request("write", 7, wire.WRITE_IMAGE),
                       [wire.write_image(7, 1, vx.U8, 8, 8, b"1" * 64)])
        number = 1
        while self.place(connection, number):
            number += 1
        self.assertGreater(number, 15)
        connection.close()

    def place(self, connection, interrupted_at):
        """Reads into a place, and returns whether the read was interrupted."""
        place, other = (memoryview(bytearray(64)) for _ in range(2))
        requests = [Request("read", 7, wire.READ_IMAGE, body=Body(69)) for _ in range(3)]
        requests[0].into, requests[1].into = place, other
        frames = [wire.read_image(7, 1)]
        is_interrupted = Everywhere(interrupted_at, ("direct.py", "connection.py")).interrupts(
            connection.ask, requests[0], frames)
        if is_interrupted:
            connection.let_go(place)
            place[:] = b"X" * 64
        for request in requests[1:]:
            connection.ask(request, frames)
        self.assertEqual(bytes(place), (b"X" if is_interrupted else b"1") * 64)
        self.assertEqual(bytes(other), b"1" * 64)
        self.assertEqual(bytes(requests[2].reply[13:]), b"1" * 64)
        self.assertEqual(bytes(requests[1].reply), bytes(requests[2].reply[:13]))
        return is_interrupted

    def test_a_call_ends_first(self):
        """Ctrl-C interrupts before the call or when the server has answered, and then the whole
        result is there."""
        image = self.context.image(vx.U8, 4096, 4096)
        image.fill(7)
        graph = self.context.graph()
        images = [image, *(graph.virtual_image() for _ in range(15)),
                  self.context.image_like(image)]
        for one, other in zip(images, images[1:]):
            graph.median3x3(one, other, border=vx.REPLICATE)
        graph.verify()
        before, after_it = (bytes([shade]) * 4096 * 4096 for shade in (0, 7))
        found = before
        with interrupting() as after:
            # It comes before the call where this process has to wait for a processor.
            for _ in range(100):
                with self.assertRaises(KeyboardInterrupt):
                    after(0.001)
                    graph.process()
                    time.sleep(60)
                found = images[-1].read_bytes()
                if found != before:
                    break
        self.assertTrue(found == after_it)

    def test_the_start_of_the_thread(self):
        """A stream's first frame starts it. An interruption is KeyboardInterrupt at every line of
        Python's own code too, and the connection goes on."""
        def send(connection):
            request = Request("image", 7, wire.CREATE_IMAGE)
            request.is_ahead = True
            connection.send(request, [wire.create_image(7, vx.U8, 1, 1)])
            return request

        number, is_interrupted = 1, True
        while is_interrupted:
            with contextlib.closing(opened()) as connection:
                is_interrupted = Everywhere(number, ("direct.py", "threading.py")).interrupts(
                    send, connection)
                request = send(connection)
                self.assertTrue(connection.wait(request, 30))
                self.assertIsNone(request.error)
            number += 1
        self.assertGreater(number, 8)

    def test_the_wait_of_a_stream_at_each_line(self):
        """No interruption is lost, and what a wait opens is used by the next one."""
        serve = DirectConnection._serve_in_thread

        def serve_late(connection):
            while not connection._bells and connection.fault is None:
                time.sleep(0.0001)
            serve(connection)

        def wait(connection):
            request = Request("image", 7, wire.CREATE_IMAGE)
            request.is_ahead = True
            connection.send(request, [wire.create_image(7, vx.U8, 1, 1)])
            self.assertTrue(connection.wait(request, 30))
            self.assertIsNone(request.error)

        with contextlib.closing(opened()) as connection, \
                mock.patch.object(DirectConnection, "_serve_in_thread", serve_late):
            number = 1
            while Everywhere(number, ("direct.py",), ("line", "return")).interrupts(
                    wait, connection):
                wait(connection)
                number += 1
            self.assertGreater(number, 30)
            files = len(os.listdir("/proc/self/fd"))
            for _ in range(100):
                wait(connection)
            self.assertLessEqual(len(os.listdir("/proc/self/fd")), files)

    def test_a_stream_at_random(self):
        loop = Loop(self.context, 300, 200, False)
        with interrupting() as after:
            for times in range(20):
                frames = [loop.pictures[number % 3] for number in range(10_000)]
                with contextlib.suppress(KeyboardInterrupt):
                    after(0.001 + times / 2000)
                    for frame, out in loop.graph.stream(frames if times % 2 else iter(frames),
                                                        loop.part, loop.out):
                        self.assertEqual(out[0, 0], 255 - frame[0])
                loop.one(loop.pictures[times % 3])


class TestAddresses(unittest.TestCase):
    def test_in_the_middle_of_an_import_of_numpy(self):
        """By another thread, or by what a signal's handler has interrupted: memory is copied, and
        what needs NumPy says why it isn't there."""
        script = """if True:
            import os, sys, tempfile
            from feqyldan import core, pages, samples
            kept = tempfile.TemporaryDirectory()
            with open(os.path.join(kept.name, "numpy.py"), "w") as file:
                print("from feqyldan import core, pages, samples",
                      "print(core.argument_of(memoryview(bytes(4)))[0], pages.can_lend())",
                      "try:", "    samples.numpy_module()", "except ImportError as error:",
                      "    print(error)", sep=chr(10), file=file)
            sys.path.insert(0, kept.name)
            print(samples.numpy_module() is sys.modules["numpy"])"""
        self.assertEqual(run(script), (0, (
            "b'\\x00\\x00\\x00\\x00' False\nnumpy was being imported when this signal came: "
            "import it before the signal's handler is set\nTrue\n")))


# A handler of signals makes calls while a stream runs, in the stream's context or in another one.
HANDLERS = """if True:
    import faulthandler, random, signal, sys, time
    import feqyldan as vx
    faulthandler.dump_traceback_later(110, exit=True)
    random.seed(1)
    with vx.Server(process=False) as server, server.context() as context, server.context() as two:
        camera, out = (context.image(vx.U8, 64, 48) for _ in range(2))
        mine, graph = two.image(vx.U8, 8, 8), context.graph()
        graph.not_(camera, out)
        def handler(*_):
            try:
                CALL
            except vx.NestedCall:
                pass
            signal.setitimer(signal.ITIMER_REAL, random.uniform(0.0001, 0.002))
        signal.signal(signal.SIGALRM, handler)
        signal.setitimer(signal.ITIMER_REAL, 0.002)
        frames = [bytes([number]) * 64 * 48 for number in range(200)]
        end = time.monotonic() + 3
        while time.monotonic() < end:
            for frame, marks in graph.stream(frames, camera, out):
                assert bytes(marks)[0] == 255 - frame[0]
                kept = context.image(vx.U8, 300, 300)
        signal.setitimer(signal.ITIMER_REAL, 0)
    print("done")"""


@needs_core
class TestHandlers(CoreTest):
    def test_calls_while_a_stream_runs(self):
        """They run or raise NestedCall. The stream's thread and a handler waited for each other's
        lock."""
        for call in ("context.image(vx.U8, 8, 8)", "mine.fill(3)"):
            with self.subTest(call):
                self.assertEqual(run(HANDLERS.replace("CALL", call)), (0, "done\n"))


@needs_core
class TestStreams(CoreTest):
    def stations(self, count):
        """Returns stations on servers of their own."""
        for _ in range(count):
            with mock.patch.dict(os.environ, {core.VARIABLE: PATH}):
                server = vx.Server(process=False)
            self.addCleanup(server.close)
            context = server.context()
            part, out = (context.image(vx.U8, 640, 480) for _ in range(2))
            graph = context.graph()
            graph.not_(part, out)
            yield vx.Station(graph, part, out)

    def test_replies_without_memory(self):
        """The stream raises MemoryError, as other calls do, and the context goes on."""
        station, = self.stations(1)
        pictures = [bytes([shade]) * 640 * 480 for shade in range(5)]
        with mock.patch.object(Buffers, "take", side_effect=MemoryError):
            self.assertRaises(MemoryError, list,
                              station.graph.stream(pictures, station.camera, station.out))
            self.assertRaises(MemoryError, station.out.read)
        got = [(frame[0], out[0, 0])
               for frame, out in station.graph.stream(pictures, station.camera, station.out)]
        self.assertEqual(got, [(shade, 255 - shade) for shade in range(5)])

    def test_the_order_of_several_servers(self):
        stations = list(self.stations(3))
        pictures = [bytes([shade]) * 640 * 480 for shade in range(50)]
        for frames in (pictures, iter(pictures)):
            got = [(frame[0], out[0, 0]) for frame, out in vx.stream(frames, stations)]
            self.assertEqual(got, [(shade, 255 - shade) for shade in range(50)])

    def test_calls_between_the_results(self):
        """They are answered after what was sent before them."""
        station, = self.stations(1)
        pictures = [bytes([shade]) * 640 * 480 for shade in range(20)]
        for frame, out in station.graph.stream(pictures, station.camera, station.out):
            with station.graph.context.image_from([[frame[0]]]) as image:
                self.assertEqual(image.read()[0, 0], frame[0])
            self.assertLessEqual(station.out.read()[0, 0], out[0, 0])

    def test_servers_work_at_the_same_time(self):
        """The thread of each server makes its calls: the one that takes frames makes none."""
        stations = list(self.stations(2))
        callers = [noting_callers(station.graph.context) for station in stations]
        pictures = [bytes([shade]) * 640 * 480 for shade in range(20)]
        self.assertEqual(len(list(vx.stream(pictures, stations))), 20)
        self.assertEqual(len(set.union(*callers) - {threading.get_ident()}), 2)
        self.assertNotIn(threading.get_ident(), set.union(*callers))

    def test_the_thread_ends_with_the_server(self):
        for is_closed in (True, False):
            with mock.patch.dict(os.environ, {core.VARIABLE: PATH}):
                server = vx.Server(process=False)
            context = server.context()
            callers = noting_callers(context)
            loop = Loop(context, 8, 8, False)
            list(loop.graph.stream(loop.pictures, loop.part, loop.out))
            own, = callers - {threading.get_ident()}
            if is_closed:
                server.close()
            del server, context, loop
            gc.collect()
            until = time.monotonic() + 30
            while own in sys._current_frames() and time.monotonic() < until:
                time.sleep(0.01)
            self.assertNotIn(own, sys._current_frames())

    def test_a_server_that_is_closed_in_a_stream(self):
        station, = self.stations(1)
        frames = [bytes(640 * 480)] * 9
        stream = station.graph.stream(frames, station.camera, station.out)
        next(stream)
        station.graph.context.server.close()
        with self.assertRaises(vx.Closed):
            list(stream)


def noting_callers(context):
    """Returns a set that has each thread that calls the context's server from now on."""
    callers, own = set(), context._connection._core
    serve = own.serve

    def call(*arguments):
        callers.add(threading.get_ident())
        return serve(*arguments)
    own.serve = call
    return callers


FORK = """
import os, sys
import feqyldan as vx

server = vx.Server(process=False)
context = server.context()
image = context.image_from([[1, 2]])
child = os.fork()
if child == 0:
    for call in (image.read, context.graph, server.context):
        try:
            call()
            print("called")
        except vx.Closed as error:
            print(error)
    server.close()
    with vx.Server(process=False) as own, own.context() as other:
        print(other.image_from([[3]]).read().tolist())
    # The handle's end in the child doesn't free the parent's server.
    del server, context, image
    sys.exit(7)
print(os.waitpid(child, 0)[1] >> 8, image.read().tolist())
"""
LEFT = """
import feqyldan as vx

server = vx.Server(process=False)
context = server.context()
part, out = (context.image(vx.U8, 2000, 2000) for _ in range(2))
graph = context.graph()
graph.median3x3(part, out)
next(graph.stream([bytes(4_000_000)] * 99, part, out))
print("left")
"""


@needs_core
class TestPrograms(unittest.TestCase):
    def test_a_fork(self):
        status, said = run(FORK)
        lines = said.splitlines()
        self.assertEqual(status, 0, said)
        for line, words in zip(lines, ("read image", "create a graph", "open a context")):
            self.assertRegex(line, f"^{words}.*before this process was forked")
        self.assertEqual(lines[3:], ["[[3]]", "7 [[1, 2]]"])

    def test_a_program_that_leaves_everything(self):
        self.assertEqual(run(LEFT), (0, "left\n"))

    def test_memory_that_the_system_refuses(self):
        """The request is refused, and the context goes on."""
        status, said = run("""
import resource
import feqyldan as vx

with vx.Server(process=False, quota=2**40) as server, server.context() as context:
    kept = context.image_from([[1, 2]])
    # The first read imports NumPy, which takes memory too.
    kept.read()
    with open("/proc/self/statm") as file:
        limit = int(file.read().split()[0]) * resource.getpagesize() + 100_000_000
    resource.setrlimit(resource.RLIMIT_AS, (limit, limit))
    images = []
    try:
        while len(images) < 60:
            images.append(context.image(vx.U8, 4096, 4096))
    except vx.NoMemory as error:
        print(error.code.name, 0 < len(images), kept.read().tolist())
    images.pop()
    context.image(vx.U8, 100, 100)
""")
        self.assertEqual((status, said), (0, "NO_MEMORY True [[1, 2]]\n"))

    @unittest.skipUnless(shutil.which("strace"), "strace isn't there")
    def test_the_first_example_starts_no_program(self):
        with tempfile.TemporaryDirectory() as folder:
            trace = os.path.join(folder, "trace")
            done = subprocess.run(
                ["strace", "-f", "-e", "trace=execve", "-o", trace, sys.executable,
                 os.path.join(ROOT, "examples", "first.py")], cwd=folder, timeout=120,
                env={**os.environ, **VARIABLES}, stderr=subprocess.PIPE, text=True)
            self.assertEqual((done.returncode, done.stderr), (0, ""))
            with open(trace, encoding="utf-8") as file:
                started = [line for line in file if "execve(" in line]
            self.assertEqual(len(started), 1, started)
            self.assertTrue(os.path.exists(os.path.join(folder, "outlines.png")))


@needs_core
@needs_program
class TestBothWays(unittest.TestCase):
    @unittest.skipUnless(PROGRAM, "FEQYLDAN_PROGRAM isn't set")
    def test_the_same_bytes(self):
        """The first example writes the same picture in both ways."""
        pictures = []
        for variables in (VARIABLES, {**VARIABLES, "FEQYLDAN_PROGRAM": PROGRAM}):
            with tempfile.TemporaryDirectory() as folder:
                subprocess.run([sys.executable, os.path.join(ROOT, "examples", "first.py")],
                               cwd=folder, check=True, timeout=120, env={**os.environ, **variables})
                with open(os.path.join(folder, "outlines.png"), "rb") as file:
                    pictures.append(file.read())
        self.assertEqual(*pictures)


if __name__ == "__main__":
    unittest.main()
