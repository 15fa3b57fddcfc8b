"""
Ends of a `with` that are no errors: a generator is closed, or a task of asyncio is cancelled.

The garbage collector may close a generator in the middle of any code, also of this package.
"""

import asyncio
import contextlib
import gc
import os
import signal
import sys
import threading
import unittest
from unittest import mock

from program import SERVED, ProgramTest, of_a_process, vx

PATIENCE = 60
SIDE = 300


def holding(server, other, held):
    """A generator with a context of its own, and with an image of another one."""
    with server.context() as own, own.image(vx.U8, 2, 1), other.image(vx.U8, 2, 1) as image:
        held += [own, image]
        yield


class EndTest(ProgramTest):
    def has_ended(self, held, number=1):
        """Checks that a context and an image are closed, and that the context's number is free."""
        self.assertEqual([thing.closed for thing in held], [True, True])
        self.assertEqual(self.context.usage().objects, 0)
        with self.server.context() as again:
            self.assertEqual(again.number, number)


class TestGenerators(EndTest):
    def test_what_a_closed_generator_holds(self):
        for end in (lambda generator: generator.close(),
                    lambda generator: self.assertRaises(GeneratorExit, generator.throw,
                                                        GeneratorExit)):
            held = []
            generator = holding(self.server, self.context, held)
            next(generator)
            end(generator)
            self.has_ended(held)

    def test_what_a_freed_generator_holds(self):
        held = []
        for _ in holding(self.server, self.context, held):
            break
        self.has_ended(held)
        generator = holding(self.server, self.context, held)
        next(generator)
        cycle = [generator]
        cycle.append(cycle)
        del cycle, generator
        gc.collect()
        self.has_ended(held[2:])

    def test_an_interrupted_generator(self):
        held = []
        generator = holding(self.server, self.context, held)
        next(generator)
        self.assertRaises(KeyboardInterrupt, generator.throw, KeyboardInterrupt)
        self.assertEqual([thing.closed for thing in held], [False, False])
        own, image = held
        self.assertEqual(own.image(vx.U8, 1, 1).read()[0, 0], 0)
        self.holds(image, [[0, 0]])

    @of_a_process
    def test_a_server_that_is_gone(self):
        with contextlib.suppress(vx.ServerEnded), vx.Server(SERVED) as server:
            generator = holding(server, server.context(), [])
            next(generator)
            os.kill(server._process.pid, signal.SIGKILL)
            generator.close()


class TestTasks(EndTest):
    async def hold(self, held, wait):
        async with self.server.context() as own:
            with self.context.image(vx.U8, 2, 1) as image:
                held += [own, image]
                await wait(own)

    def cancelled(self, wait):
        """Returns what a task held that was cancelled while it waited."""
        held = []

        async def cancel():
            task = asyncio.ensure_future(self.hold(held, wait))
            while not held:
                await asyncio.sleep(0.001)
            task.cancel()
            await asyncio.wait([task])
            self.assertTrue(task.cancelled())

        asyncio.run(cancel())
        return held

    def test_a_cancelled_task(self):
        self.has_ended(self.cancelled(lambda _: asyncio.sleep(PATIENCE)))

    def test_a_cancelled_call(self):
        """The call runs on in its thread, and can't use the context any more."""
        goes_on, seen = threading.Event(), []

        def let_go(context):
            if context.closed:
                goes_on.set()
            else:
                asyncio.get_running_loop().call_later(0.01, let_go, context)

        def call(context):
            self.assertTrue(goes_on.wait(PATIENCE))
            try:
                context.graph()
            except vx.Closed as fault:
                seen.append(fault)

        async def wait(context):
            try:
                await context.run(call, context)
            finally:
                let_go(context)

        held = self.cancelled(wait)
        self.assertEqual(len(seen), 1)
        self.has_ended(held)

    def test_the_end_of_an_iterator(self):
        """A future can't hold StopIteration: this would wait forever."""
        async def run(function, *arguments):
            return await asyncio.wait_for(self.context.run(function, *arguments), PATIENCE)

        with self.assertRaisesRegex(RuntimeError, "give next.. a default"):
            asyncio.run(run(next, iter([])))
        self.assertIsNone(asyncio.run(run(next, iter([]), None)))

    def test_an_async_generator(self):
        async def generator(held):
            async with self.server.context() as own:
                with self.context.image(vx.U8, 2, 1) as image:
                    held += [own, image]
                    yield

        async def close(held):
            async for _ in generator(held):
                break

        held = []
        asyncio.run(close(held))
        self.has_ended(held)


class Closing:
    """Closes a generator before the n-th line that runs in the package, as the garbage collector
    may."""

    def __init__(self, number, generator):
        self.left, self.generator = number, generator

    def __call__(self, frame, event, _):
        if frame.f_globals.get("__package__") != vx.__package__:
            return None
        if event == "line":
            self.left -= 1
            if self.left == 0:
                self.generator.close()
        return self


class TestCollections(EndTest):
    def work(self, context):
        """Calls of many kinds. Some requests are longer than what a pipe takes at once."""
        with context.image_from([[1, 2]]) as part, context.graph() as graph:
            out, wide = context.image_like(part), context.image(vx.U8, SIDE, SIDE)
            graph.not_(part, out)
            graph.process()
            self.holds(out, [[254, 253]])
            with context.pipeline() as ahead:
                for shade in range(2):
                    wide.write(bytes([shade]) * SIDE**2)
                    result = ahead.read(wide)
            self.assertEqual(bytes(result.value()), bytes([1]) * SIDE**2)
        with self.server.context() as second:
            self.holds(second.image_from([[3, 4]]), [[3, 4]])

    def closed_at(self, number):
        """Closes a generator before the n-th line of the work. Returns whether it came to that
        line."""
        with self.server.context() as context:
            generator = holding(self.server, context, [])
            next(generator)
            trace = Closing(number, generator)
            try:
                sys.settrace(trace)
                self.work(context)
            finally:
                sys.settrace(None)
            self.assertEqual(context.usage().objects, 0 if trace.left <= 0 else 1)
            generator.close()
        return trace.left <= 0

    def test_each_line(self):
        number = 1
        while self.closed_at(number):
            number += 1
        self.assertGreater(number, 200)
        # Their contexts were closed later.
        self.assertLess(next(self.server._numbers), 5)

    def test_a_server_that_is_freed_too(self):
        """The collector may have closed its pipes first."""
        with mock.patch.object(sys, "unraisablehook") as hook:
            server = vx.Server(SERVED)
            generator = holding(server, server.context(), [])
            next(generator)
            cycle = [generator, server]
            cycle.append(cycle)
            del cycle, generator, server
            gc.collect()
        hook.assert_not_called()


if __name__ == "__main__":
    unittest.main()
