"""Servers: their limits, client numbers, and those behind a socket."""

import asyncio
import os
import queue
import socket
import subprocess
import tempfile
import threading
import unittest

from program import PROGRAM, SERVED, ProgramTest, needs_program, of_a_process, vx


class TestServers(ProgramTest):
    def test_contexts_have_numbers_of_their_own(self):
        others = [self.server.context() for _ in range(3)]
        self.assertEqual([context.number for context in (self.context, *others)], [0, 1, 2, 3])
        others[0].close()
        self.assertEqual(self.server.context().number, 1)

    def test_contexts_see_nothing_of_each_other(self):
        mine = self.context.image_from([[1, 2]])
        with self.server.context() as other:
            self.assertEqual(other.image(vx.U8, 2, 1).name, mine.name)
        self.holds(mine, [[1, 2]])

    def test_close(self):
        self.server.close()
        self.server.close()
        self.assertTrue(self.server.closed and self.context.closed)
        self.assertRaises(vx.Closed, self.server.context)
        self.assertRaises(vx.Closed, self.context.graph)
        self.context.close()

    def test_limits(self):
        with vx.Server(SERVED, quota=100, work=50) as server, server.context() as context:
            image = context.image(vx.U8, 10, 10)
            self.assertRaises(vx.NoResources, context.image, vx.U8, 1, 1)
            graph = context.graph()
            graph.not_(image, graph.virtual_image())
            with self.assertRaisesRegex(vx.NoResources, "work bytes"):
                graph.verify()

    def test_limits_that_are_none(self):
        for name in ("quota", "work"):
            for wrong in (-1, 0, 2**40 + 1):
                with self.assertRaisesRegex(ValueError, f"the {name} of a server must be from 1 to "
                                                        f"1,099,511,627,776 bytes, not {wrong:,}"):
                    vx.Server(SERVED, **{name: wrong})

    def test_async_with(self):
        async def run():
            async with vx.Server(SERVED) as server, server.context() as context:
                self.holds(await context.run(context.image_from, [[7]]), [[7]])
            return server

        self.assertTrue(asyncio.run(run()).closed)

    @of_a_process
    def test_what_is_logged(self):
        with self.assertLogs("feqyldan", "INFO") as log:
            with vx.Server(SERVED) as server, server.context() as context:
                with self.assertRaises(vx.InvalidDimension):
                    context.image(vx.U8, 1, 1).write([[1, 2]])
            with self.assertRaises(vx.ServerEnded), vx.Server(SERVED) as server:
                context = server.context()
                server._process.kill()
                context.graph()
        number = r"process \d+"
        for record, level, words in zip(log.records, (
                "INFO", "WARNING", "INFO", "INFO", "WARNING"), (
                f"server started: {number}, {PROGRAM}", "refused: write 2 by 1 U8 samples to image",
                f"server of {number} ended with status 0", f"server started: {number}",
                rf"server of {number} ended with status -9 \(Killed\)")):
            self.assertEqual(record.levelname, level, record)
            self.assertRegex(record.getMessage(), words)
        self.assertEqual(len(log.records), 5)

    @of_a_process
    def test_a_default_timeout_of_sockets(self):
        """A server's long reply waits for room in the socket that it is written to."""
        self.addCleanup(socket.setdefaulttimeout, socket.getdefaulttimeout())
        socket.setdefaulttimeout(60)
        with vx.Server(SERVED) as server, server.context() as context:
            self.assertEqual(context.image(vx.U8, 2000, 2000).read_bytes(), bytes(4_000_000))

    @of_a_process
    def test_words_of_a_command(self):
        with vx.Server(["env", PROGRAM]) as server, server.context() as context:
            context.image(vx.U8, 1, 1)

    @of_a_process
    def test_memory_that_the_server_hasnt(self):
        """Under a limit on its address space, such as a shell's, the server refuses and goes on."""
        limited = ["sh", "-c", 'ulimit -v 100000 && exec "$0" "$@"', PROGRAM]
        with vx.Server(limited) as server, server.context() as context:
            kept, images = context.image_from([[1, 2]]), []
            with self.assertRaisesRegex(vx.NoMemory, "create a U8 image of 4096 by 4096"):
                while len(images) < 16:
                    images.append(context.image(vx.U8, 4096, 4096))
            self.assertLess(0, len(images))
            self.holds(kept, [[1, 2]])
            # What is given back is there again, for an image and for the frame that writes it.
            while images:
                images.pop().close()
            again = context.image(vx.U8, 4096, 4096)
            again.write(bytes([7]) * 4096 * 4096)
            self.assertEqual(again.read_bytes(), bytes([7]) * 4096 * 4096)

    def test_words_that_the_program_refuses(self):
        with self.assertRaises(vx.ServerEnded) as caught:
            with vx.Server(["env", "sh", "-c", "echo usage >&2; exit 2"], quota=1) as server:
                server.context()
        self.assertEqual((caught.exception.status, caught.exception.said), (2, "usage"))


@needs_program
@of_a_process
class TestSockets(unittest.TestCase):
    """A socket at which each connection gets a server program of its own."""

    def setUp(self):
        folder = tempfile.TemporaryDirectory()
        self.addCleanup(folder.cleanup)
        self.path = os.path.join(folder.name, "socket")
        self.listener = socket.socket(socket.AF_UNIX, socket.SOCK_STREAM)
        self.listener.bind(self.path)
        self.listener.listen()
        # The programs in the order in which they were started: a client may be answered before its
        # own stands here.
        self.programs = queue.Queue()
        thread = threading.Thread(target=self.serve)
        thread.start()
        self.addCleanup(self.stop, thread)

    def serve(self):
        while True:
            try:
                stream, _ = self.listener.accept()
            except OSError:
                return
            with stream:
                self.programs.put(subprocess.Popen([PROGRAM, "serve"], stdin=stream, stdout=stream))

    def stop(self, thread):
        self.listener.shutdown(socket.SHUT_RDWR)
        thread.join()
        self.listener.close()
        while not self.programs.empty():
            self.programs.get().wait()

    def test_contexts_have_connections_of_their_own(self):
        with vx.connect(self.path) as server:
            with server.context() as one, server.context() as other:
                images = [one.image_from([[1, 2]]), other.image_from([[3, 4]])]
                self.assertEqual([image.read().tolist() for image in images], [[[1, 2]], [[3, 4]]])
            with server.context() as again:
                self.assertEqual(again.image(vx.U8, 1, 1).name, 1)
            self.assertRaises(vx.Closed, one.graph)
        self.assertRaises(vx.Closed, server.context)
        for _ in range(3):
            self.assertEqual(self.programs.get(timeout=10).wait(), 0)
        self.assertTrue(self.programs.empty())

    def test_contexts_that_python_forgets(self):
        """Their connections are closed, so their programs end."""
        with vx.connect(self.path) as server:
            for _ in range(5):
                server.context().image(vx.U8, 9, 9).query()
            with server.context() as context:
                for _ in range(5):
                    self.assertEqual(self.programs.get(timeout=10).wait(10), 0)
                context.graph()
                # Also before another context's request.
                server.context()
                context.graph()
                mine, other = (self.programs.get(timeout=10) for _ in range(2))
                self.assertEqual(other.wait(10), 0)
            self.assertEqual(mine.wait(10), 0)

    def test_much_both_ways(self):
        with vx.connect(self.path) as server, server.context() as context:
            image, results = context.image(vx.U8, 1024, 1024), []
            with context.pipeline() as ahead:
                for k in range(8):
                    image.write(bytes([k]) * 1024 * 1024)
                    results.append(ahead.read(image))
            self.assertEqual([result.value()[1023, 1023] for result in results], list(range(8)))

    def test_a_server_that_ends(self):
        words = "closed the connection; a broker's or a door's standard error says why"
        with self.assertLogs("feqyldan", "WARNING"), \
                self.assertRaisesRegex(vx.ServerEnded, words):
            with vx.connect(self.path) as server, server.context() as context:
                program = self.programs.get(timeout=10)
                program.kill()
                program.wait()
                context.graph()


if __name__ == "__main__":
    unittest.main()
