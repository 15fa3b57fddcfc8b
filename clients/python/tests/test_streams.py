"""Streams, polled results, and results that can't be of an older picture."""

import asyncio
import itertools
import os
import pathlib
import resource
import socket
import sys
import threading
import time
import types
import unittest
from unittest import mock

from program import ProgramTest, answering, needs_program, vx
from feqyldan import samples, sources, wire
from test_processes import ProcessTest

OPENED = wire.reply_frame(0, wire.OPEN_CONTEXT)
PATIENCE = 60


class StationTest(ProgramTest):
    """A station whose outputs are its input pictures."""

    def setUp(self):
        super().setUp()
        self.part, self.out = (self.context.image(vx.U8, 6, 4) for _ in range(2))
        self.graph = self.context.graph()
        self.graph.median3x3(self.part, self.out, border=vx.REPLICATE)

    def picture(self, number, columns=6):
        return [[number] * columns for _ in range(4)]

    def shades(self, stream):
        return [(frame[0][0], result[0, 0]) for frame, result in stream]


class TestFrames(unittest.TestCase):
    def test_while_another_thread_imports_numpy(self):
        """A module that is being imported is in sys.modules, and has no names yet."""
        with mock.patch.dict(sys.modules, numpy=types.ModuleType("numpy")):
            prints = sources.Prints()
            for frame in (bytes(4), memoryview(bytes(4)).cast("B", (2, 2))):
                prints.take(frame)
                prints.let_go(frame)

    def test_a_default_timeout_of_sockets(self):
        """A frame is ready before its byte has come, so the reader waits for the byte."""
        self.addCleanup(socket.setdefaulttimeout, socket.getdefaulttimeout())
        socket.setdefaulttimeout(60)
        with sources.Threaded(iter([]), []) as source:
            self.assertTrue(os.get_blocking(source.descriptor))


class TestResultsAfterRefusals(StationTest):
    def camera(self):
        """Yields pictures; from the fourth on they have another size."""
        return [self.picture(number, 6 if number < 3 else 7) for number in range(8)]

    def test_no_result_is_of_an_older_picture(self):
        told = []
        with self.context.pipeline() as ahead:
            asked = []
            for picture in self.camera():
                self.part.write(picture)
                self.graph.process()
                asked.append(ahead.read(self.out))
            for result in asked:
                try:
                    told.append(result.value()[0, 0])
                except vx.BadPicture as refused:
                    self.assertIsInstance(refused, vx.InvalidDimension)
                    self.assertIn("call 10 of the pipeline, test_streams.py", refused.place)
                    told.append(None)
        self.assertEqual(told, [0, 1, 2, *5 * [None]])
        # What was told isn't told again at the end.
        self.assertEqual(len(ahead.refusals), 5)
        # Who wants the reply itself asks for it by name.
        self.assertEqual(asked[5].raw()[0, 0], 2)

    def test_what_is_asked_before_a_refusal(self):
        with self.assertRaises(vx.InvalidDimension):
            with self.context.pipeline() as ahead:
                self.part.write(self.picture(5))
                before = ahead.read(self.part)
                self.part.write([[1]])
                after = ahead.read(self.part)
        self.assertEqual(before.value()[0, 0], 5)
        self.assertRaises(vx.InvalidDimension, after.value)

    def test_calls_that_wait(self):
        counts = self.context.distribution(2)
        with self.context.pipeline():
            self.part.write([[1]])
            for call in (self.part.read, self.part.read_bytes, self.part.query, counts.read,
                         lambda: self.part.valid):
                self.assertRaises(vx.InvalidDimension, call)
            # An object that is made is no picture.
            self.context.image(vx.U8, 1, 1)
        self.assertEqual(self.part.read()[0, 0], 0)

    def test_after_wait(self):
        with self.context.pipeline() as ahead:
            self.part.write([[1]])
            before = ahead.read(self.part)
            self.assertRaises(vx.InvalidDimension, ahead.wait)
            self.part.write(self.picture(7))
            after = ahead.read(self.part)
            self.assertEqual(after.value()[0, 0], 7)
            self.assertRaises(vx.InvalidDimension, before.value)

    def test_wait_after_it_was_told(self):
        with self.context.pipeline() as ahead:
            self.part.write([[1]])
            self.assertRaises(vx.InvalidDimension, ahead.read(self.part).value)
            ahead.wait()
            self.assertEqual(ahead.refusals, [])
            self.assertEqual(ahead.read(self.part).value()[0, 0], 0)

    def test_a_result_that_is_refused_itself(self):
        deep = self.context.image(vx.S16, 1, 1)
        with self.context.pipeline() as ahead:
            result = ahead.read_pgm(deep)
            for _ in range(2):
                self.assertRaisesRegex(vx.InvalidFormat, "read a PGM text", result.value)
                self.assertRaisesRegex(vx.InvalidFormat, "read a PGM text", result.raw)


class TestRefusedFrames(StationTest):
    """A graph doesn't run for a frame that is refused, nor for the frames after it."""

    def setUp(self):
        super().setUp()
        self.sums = self.context.image(vx.S16, 6, 4)
        self.old = self.context.delay(self.part, 6)
        self.adding = self.context.graph()
        self.adding.accumulate(self.part, self.sums)
        self.adding.max(self.part, self.part, self.old[0])
        self.adding.register_auto_aging(self.old)

    def has_run_for(self, *shades):
        """Checks for which frames the graph has run since the last call."""
        self.assertEqual(self.sums.read()[0, 0], sum(shades))
        aged = [self.old[-k].read()[0, 0] for k in range(1, 6)]
        self.assertEqual(aged[: len(shades)], [*reversed(shades)])
        self.assertEqual(aged[len(shades)], 0)
        for thing in (self.sums, *self.old):
            thing.fill(0)

    def test_frames_of_a_wrong_size_or_format(self):
        deep = memoryview(bytes(48)).cast("h", [4, 6])
        for wrong, kind in ((self.picture(9, 7), vx.WrongPictureSize),
                            (deep, vx.WrongPictureFormat), (None, vx.NotAPicture),
                            ([[9], [9, 9]], vx.WrongPicture)):
            for take, ahead in ((list, 0), (list, 2), (iter, 2), (iter, 9)):
                frames = take([*map(self.picture, (1, 2, 3)), wrong, *map(self.picture, (4, 5))])
                with self.subTest(kind=kind, ahead=ahead):
                    with self.assertLogs("feqyldan", "WARNING") as log, self.assertRaisesRegex(
                            kind, "frame 4 .* The graph ran for frames 1 to 3"):
                        [*self.adding.stream(frames, self.part, self.sums, ahead)]
                    self.assertIn("the stream ends at frame 4: ", log.output[0])
                    self.has_run_for(1, 2, 3)

    def test_frames_that_are_added_after_the_fault(self):
        frames, shades = [self.picture(1), self.picture(2), [[1]]], []
        with self.assertRaisesRegex(vx.BadPicture, "frame 3 .* The graph ran for frames 1 to 2"):
            for frame, _ in self.adding.stream(frames, self.part, self.sums):
                shades.append(frame[0][0])
                frames.append(self.picture(3))
                self.assertLess(len(frames), 10)
        self.assertEqual(shades, [1, 2])
        self.has_run_for(1, 2)

    def test_the_first_and_the_second_frame(self):
        for count, words in ((0, "for no frame"), (1, "for frame 1 only")):
            with self.assertRaisesRegex(vx.BadPicture, f"The graph ran {words}"):
                [*self.adding.stream([*map(self.picture, range(1, count + 1)), [[1]]], self.part,
                                     self.sums)]
            self.has_run_for(*range(1, count + 1))

    def test_objects_that_are_closed_meanwhile(self):
        for at in range(2):
            camera, out = self.context.image(vx.U8, 6, 4), self.context.image(vx.U8, 6, 4)
            graph = self.context.graph()
            graph.not_(camera, out)
            graph.accumulate(camera, self.sums)
            stream = graph.stream([*map(self.picture, (1, 2))], camera, out, ahead=0)
            next(stream)
            (camera, out)[at].close()
            with self.assertRaisesRegex(vx.InvalidReference, "frame 2 of the stream.*uses closed "
                                                             "image .*The graph ran for frame 1"):
                next(stream)
            self.assertEqual(self.sums.read()[0, 0], 1)
            self.sums.fill(0)

    def test_a_graph_that_is_closed_before(self):
        self.graph.close()
        with self.assertRaisesRegex(vx.Closed, "run the stream: .* It uses closed graph"):
            next(self.graph.stream([self.picture(1)], self.part, self.out))

    def test_a_refusal_that_the_package_cant_foresee(self):
        """Frames that were sent ahead have run."""
        made = [wire.reply_frame(0, op, 0, bytes([0, 0, 0, number])) for op, number in (
            (wire.CREATE_IMAGE, 1), (wire.CREATE_IMAGE, 2), (wire.CREATE_GRAPH, 3),
            (wire.ADD_NODE, 1))]
        done = [wire.reply_frame(0, wire.WRITE_IMAGE), wire.reply_frame(0, wire.PROCESS_GRAPH),
                wire.reply_frame(0, wire.READ_IMAGE, 0, b"\1\0\1\0\1\7")]
        full = wire.reply_frame(0, wire.WRITE_IMAGE, wire.NO_MEMORY)
        skipped = wire.reply_frame(0, wire.PROCESS_GRAPH, wire.NO_MEMORY)
        for second, third, words in (
                ([full, *done[1:]], done, "ran for frame 1 only. It also ran for what had been "
                                          "sent already: frames 2 and 3"),
                ([done[0], skipped, done[2]], done, "sent already: frame 3"),
                ([full, skipped, done[2]], [full, skipped, done[2]],
                 "The graph ran for frame 1 only. The machine, or the limit of")):
            # It answers when all three frames were sent.
            replies = OPENED, *made, *8 * [b""], b"".join((*done, *second, *third))
            with vx.Server(answering(*replies, end="source.read()")) as server:
                context = server.context()
                camera, out = (context.image(vx.U8, 1, 1) for _ in range(2))
                graph = context.graph()
                graph.not_(camera, out)
                stream = graph.stream([[[k]] for k in range(3)], camera, out)
                self.assertEqual(next(stream)[1].tolist(), [[7]])
                with self.assertRaisesRegex(vx.NoMemory, f"frame 2 of the stream.*{words}"):
                    next(stream)


class TestPolling(StationTest):
    def test_is_there_becomes_true_by_itself(self):
        with self.context.pipeline() as ahead:
            self.part.write(self.picture(9))
            self.graph.process()
            result, until = ahead.read(self.out), time.monotonic() + PATIENCE
            while not result.is_there and time.monotonic() < until:
                time.sleep(0.001)
            self.assertTrue(result.is_there)
            with mock.patch.object(self.context._connection, "_await") as waits:
                self.assertEqual(result.value()[0, 0], 9)
            waits.assert_not_called()

    def test_a_value_that_isnt_there_in_time(self):
        read = wire.reply_frame(0, wire.READ_MIN_MAX, 0, bytes(20))
        made = wire.reply_frame(0, wire.CREATE_MIN_MAX, 0, b"\0\0\0\1")
        # It answers the first read when the second one has come.
        with vx.Server(answering(OPENED, made, b"", 2 * read, wire.reply_frame(
                0, wire.RELEASE_CONTEXT))) as server, server.context() as context:
            found = context.min_max()
            with context.pipeline() as ahead:
                result = ahead.read(found)
                self.assertRaisesRegex(TypeError, "a timeout must be a number of .*, not '5'",
                                       result.value, "5")
                for wrong in (-1, float("nan")):
                    self.assertRaisesRegex(ValueError, "a timeout must be at least 0 seconds",
                                           result.value, wrong)
                with self.assertRaisesRegex(vx.NotYet, "read extremes 1: no reply in 0.01 seconds"):
                    result.value(timeout=0.01)
                self.assertIsInstance(vx.NotYet("x"), TimeoutError)
                # It goes on, and so does the connection.
                for again in (ahead.read(found), result):
                    self.assertEqual(again.value(timeout=PATIENCE).max, 0)

    def test_is_there_after_the_servers_end(self):
        made = wire.reply_frame(0, wire.CREATE_MIN_MAX, 0, b"\0\0\0\1")
        with vx.Server(answering(OPENED, made, status=3)) as server:
            context = server.context()
            found = context.min_max()
            with self.assertRaises(vx.ServerEnded):
                with context.pipeline() as ahead:
                    result = ahead.read(found)
                    while not result.is_there:
                        pass
                    result.value()


class TestStreams(StationTest):
    def test_results_come_in_order(self):
        for ahead in (0, 1, 2, 10):
            for kind in (list, iter):
                pictures = kind([self.picture(number) for number in range(6)])
                stream = self.graph.stream(pictures, self.part, self.out, ahead=ahead)
                self.assertEqual(self.shades(stream), [(number, number) for number in range(6)])
        self.assertEqual([*self.graph.stream([], self.part, self.out)], [])

    def test_several_outputs(self):
        extremes, counts = self.context.min_max(), self.context.distribution(1)
        self.graph.min_max_loc(self.part, extremes)
        self.graph.histogram(self.part, counts)
        pictures = [self.picture(3), self.picture(4)]
        outs = extremes, counts, self.out
        found = [values for _, values in self.graph.stream(pictures, self.part, outs)]
        self.assertEqual([(one.max, count, out[0, 0]) for one, count, out in found],
                         [(3, (24,), 3), (4, (24,), 4)])
        self.assertEqual([one.max for _, one in self.graph.stream(pictures, self.part, extremes)],
                         [3, 4])

    def test_it_raises_at_the_frame_that_failed(self):
        for wrong, kind in ((self.picture(3, 7), vx.InvalidDimension), ([[1.5]], vx.BadPicture),
                            (None, TypeError)):
            for take in (list, iter):
                pictures = [*map(self.picture, range(3)), wrong, self.picture(4)]
                seen = []
                with self.assertRaises(kind) as caught:
                    for frame, result in self.graph.stream(take(pictures), self.part, self.out):
                        seen.append((frame[0][0], result[0, 0]))
                self.assertEqual(seen, [(0, 0), (1, 1), (2, 2)])
                self.assertIsInstance(caught.exception, vx.BadPicture)
        self.assertEqual(self.shades(self.graph.stream([self.picture(8)], self.part, self.out)),
                         [(8, 8)])

    def test_a_refusal_says_which_frame(self):
        pictures = [self.picture(0), [[1]]]
        with self.assertRaises(vx.InvalidDimension) as caught:
            for _ in self.graph.stream(pictures, self.part, self.out):
                pass
        self.assertRegex(caught.exception.place, "^frame 2 of the stream, test_streams.py:")

    def test_what_is_no_picture_says_which_frame(self):
        for wrong, kind, fault in ((None, TypeError, "None is no picture"),
                                   ([[1, 256]], ValueError, "a sample of U8 must be")):
            with self.assertRaisesRegex(vx.BadPicture, f"frame 2 of the stream: {fault}") as caught:
                [*self.graph.stream([self.picture(0), wrong], self.part, self.out)]
            self.assertIsInstance(caught.exception, kind)

    @unittest.skipUnless(samples.numpy_module(), "NumPy isn't installed")
    def test_one_array(self):
        numpy = samples.numpy_module()
        picture = numpy.full((4, 6), 7, numpy.uint8)
        self.assertRaisesRegex(vx.BadPicture, r"one array of shape \(4, 6\): pass \[picture\]",
                               self.graph.stream, picture, self.part, self.out)
        # Frames by rows, as bytes have them, and an array of frames.
        for frames in (picture.reshape(1, 24), picture[None]):
            (_, out), = self.graph.stream(frames, self.part, self.out)
            self.assertEqual(out[0, 0], 7)

    @unittest.skipUnless(samples.numpy_module(), "NumPy isn't installed")
    def test_frames_that_are_indexed_by_labels(self):
        """A series of pandas, after it was sorted."""
        numpy = samples.numpy_module()
        frames = [numpy.full((4, 6), number, numpy.uint8) for number in (1, 2, 3)]

        class Series:
            iloc = None

            def __len__(self):
                return len(frames)

            def __getitem__(self, label):
                return frames[[1, 2, 0][label]]

            def __array__(self, dtype=None, copy=None):
                found = numpy.empty(len(frames), object)
                found[:] = frames
                return found

        self.assertEqual(self.shades(self.graph.stream(Series(), self.part, self.out)),
                         [(1, 1), (2, 2), (3, 3)])

    def test_descriptors_that_select_does_not_take(self):
        soft, hard = resource.getrlimit(resource.RLIMIT_NOFILE)
        if hard != resource.RLIM_INFINITY and hard < 2048:
            self.skipTest("no process may have so many files")
        resource.setrlimit(resource.RLIMIT_NOFILE, (max(soft, 2048), hard))
        self.addCleanup(resource.setrlimit, resource.RLIMIT_NOFILE, (soft, hard))
        opened = [os.open(os.devnull, os.O_RDONLY) for _ in range(1100)]
        for one in opened:
            self.addCleanup(os.close, one)

        def camera():
            for number in range(3):
                time.sleep(0.01)
                yield self.picture(number)

        self.assertEqual(self.shades(self.graph.stream(camera(), self.part, self.out)),
                         [(number, number) for number in range(3)])

    def test_an_error_of_the_frames(self):
        def camera():
            yield self.picture(1)
            raise KeyError("no camera")

        seen = []
        with self.assertRaisesRegex(KeyError, "no camera"):
            for _, result in self.graph.stream(camera(), self.part, self.out):
                seen.append(result[0, 0])
        self.assertEqual(seen, [1])

    def test_by_asyncio(self):
        async def run():
            stream = self.graph.stream([self.picture(7)], self.part, self.out)
            _, result = await self.context.run(next, stream, None)
            self.assertEqual(result[0, 0], 7)
            self.assertIsNone(await self.context.run(next, stream, None))
            # asyncio itself can't pass its end on.
            with self.assertRaisesRegex(RuntimeError, "give next.. a default"):
                await asyncio.wait_for(self.context.run(next, stream), PATIENCE)

        asyncio.run(run())

    def test_a_result_comes_before_the_next_frame(self):
        """A camera that waits until the previous result was seen."""
        seen = threading.Semaphore(1)

        def camera():
            for number in range(5):
                self.assertTrue(seen.acquire(timeout=PATIENCE))
                yield self.picture(number)

        shades = []
        for _, result in self.graph.stream(camera(), self.part, self.out, ahead=2):
            shades.append(result[0, 0])
            seen.release()
        self.assertEqual(shades, list(range(5)))

    def test_an_iterator_that_uses_the_context(self):
        """The iterator can use another context of the server."""
        def camera(context):
            for number in range(5):
                with context.image(vx.U8, 6, 4) as image:
                    image.fill(number)
                    yield image.read().tolist()

        with self.server.context() as other:
            stream = self.graph.stream(camera(other), self.part, self.out)
            self.assertEqual(self.shades(stream), [(number, number) for number in range(5)])
        with self.assertRaisesRegex(ValueError, "create a U8 image .*: the iterator of a stream"):
            [*self.graph.stream(camera(self.context), self.part, self.out)]
        with self.assertRaisesRegex(ValueError, "open a pipeline: the iterator of a stream"):
            [*self.graph.stream((self.context.pipeline().__enter__() for _ in range(1)), self.part,
                                self.out)]
        self.assertEqual(self.shades(self.graph.stream(iter([self.picture(3)]), self.part,
                                                       self.out)), [(3, 3)])
        until = time.monotonic() + PATIENCE
        while self.context._barred and time.monotonic() < until:
            time.sleep(0.001)
        self.assertEqual(self.context._barred, set())

    @unittest.skipUnless(samples.numpy_module(), "NumPy isn't installed")
    def test_an_array_that_is_filled_again(self):
        """Refilling an array too early is detected; once its result has come, it is allowed."""
        numpy = samples.numpy_module()
        seen, buffer = threading.Semaphore(1), numpy.zeros((4, 6), numpy.uint8)

        def camera(count, waits=False):
            for number in range(count):
                if waits:
                    self.assertTrue(seen.acquire(timeout=PATIENCE))
                buffer[3] = number
                yield buffer

        with self.assertRaisesRegex(vx.BadPicture, "overwrote an array .*: yield array.copy()"):
            [*self.graph.stream(camera(100), self.part, self.out)]
        shades = []
        for _, out in self.graph.stream(camera(9, waits=True), self.part, self.out):
            shades.append(out[3, 3])
            seen.release()
        self.assertEqual(shades, [*range(9)])
        # A frame of a wrong size that begins where the frame before it does.
        stream, seen = self.graph.stream(iter([buffer, buffer[:3]]), self.part, self.out), []
        with self.assertRaises(vx.WrongPictureSize):
            seen.extend(frame for frame, _ in stream)
        self.assertEqual(len(seen), 1)
        # Arrays of their own, and one that stays as it is.
        for frames in ((frame.copy() for frame in camera(9)), itertools.repeat(buffer, 9)):
            self.assertEqual(len([*self.graph.stream(frames, self.part, self.out)]), 9)

    def test_a_stream_that_is_left(self):
        """A stream of endless frames is left; the context goes on."""
        for take in (lambda: (self.picture(number % 256) for number in itertools.count()),):
            for _, result in self.graph.stream(take(), self.part, self.out, ahead=5):
                break
        self.part.write(self.picture(77))
        self.graph.process()
        self.assertEqual(self.out.read()[0, 0], 77)

    def test_other_calls_between(self):
        """In the body of the loop each call waits, and raises its own refusal."""
        other = self.context.image(vx.U8, 1, 1)
        for frame, _ in self.graph.stream([*map(self.picture, range(4))], self.part, self.out):
            other.write([[frame[0][0]]])
            self.assertEqual(other.read()[0, 0], frame[0][0])
            self.assertRaises(vx.InvalidDimension, other.write, [[1, 2]])

    def test_servers_take_turns(self):
        with vx.Server() as second, second.context() as context:
            part, out = context.image(vx.U8, 6, 4), context.image(vx.U8, 6, 4)
            graph = context.graph()
            graph.not_(part, out)
            stations = vx.Station(self.graph, self.part, self.out), vx.Station(graph, part, out)
            found = self.shades(vx.stream([*map(self.picture, range(5))], stations))
        self.assertEqual(found, [(0, 0), (1, 254), (2, 2), (3, 252), (4, 4)])

    def test_graphs_that_need_every_frame(self):
        """Two servers would each see every second frame."""
        stations = []
        for build in (lambda graph, part, out: graph.accumulate(part, out),
                      lambda graph, part, out: graph.not_(part, self.delay[0])):
            graph, sums = self.context.graph(), self.context.image(vx.S16, 6, 4)
            self.delay = self.context.delay(self.part, 2)
            build(graph, self.part, sums)
            station = graph, self.part, sums if graph._writes == {sums.name} else self.delay[0]
            stations.append(station)
            self.assertEqual(len([*vx.stream([self.picture(1)], [station])]), 1)
            with self.assertRaisesRegex(ValueError, "graph .* keeps (sums|delay).* one station"):
                next(vx.stream([self.picture(1)], [(self.graph, self.part, self.out), station]))
        aging = self.context.graph()
        aging.not_(self.part, self.out)
        aging.register_auto_aging(self.delay)
        with self.assertRaisesRegex(ValueError, "keeps a delay that it ages"):
            next(vx.stream([self.picture(1)], 2 * [vx.Station(aging, self.part, self.out)]))

    def test_virtual_images(self):
        virtual = self.graph.virtual_image(vx.U8)
        for camera, out in ((virtual, self.out), (self.part, virtual), (self.part, [virtual])):
            self.assertRaisesRegex(vx.OptimizedAway, "virtual image 4.* only while its graph runs",
                                   self.graph.stream, [], camera, out)

    def test_what_the_graph_doesnt_use(self):
        """Also input and output in the wrong order."""
        other, frames = self.context.image(vx.U8, 6, 4), [self.picture(1)]
        for camera, out, fault in (
                (self.out, self.part, "frames of a stream go to image 2"),
                (other, self.out, "frames of a stream go to image 4"),
                (self.part, other, "a stream reads image 4"),
                (self.part, [self.out, other], "a stream reads image 4"),
                (self.part, self.part, "a stream reads image 1"),
                (self.part, self.context.min_max(), "a stream reads extremes 5")):
            with self.subTest(fault):
                with self.assertRaisesRegex(ValueError, f"{fault}.*which no node of graph 3"):
                    next(self.graph.stream(frames, camera, out))

    def test_a_camera_that_the_graph_overwrites(self):
        """No result would depend on a frame."""
        marks, delay = self.context.image_like(self.out), self.context.delay(self.out, 2)
        for camera in (self.out, delay[0]):
            graph = self.context.graph()
            graph.not_(self.part, camera)
            graph.not_(camera, marks)
            with self.assertRaisesRegex(ValueError, "and node [0-9]+, not_.*, writes over them"):
                next(graph.stream([self.picture(1)], camera, marks))

    def test_all_that_the_graph_uses(self):
        """Inputs next to an output; slots of a delay of which the graph names others; sums that
        frames are added to; and nodes that are added after the stream was opened."""
        delay, sums = self.context.delay(self.part, 2), self.context.image(vx.S16, 6, 4)
        stream = self.graph.stream([self.picture(1)], self.part, [self.out, self.part, delay[-1]])
        self.graph.not_(self.part, delay[0])
        self.graph.register_auto_aging(delay)
        self.assertEqual([out[0, 0] for out in next(stream)[1]], [1, 1, 254])
        adding = self.context.graph()
        adding.accumulate(self.part, sums)
        self.assertEqual(next(adding.stream([self.picture(2)], sums, sums))[1][0, 0], 3)
        reading = self.context.graph()
        reading.not_(delay[-1], self.out)
        reading.register_auto_aging(delay)
        frames = [self.picture(3), self.picture(4)]
        self.assertEqual(self.shades(reading.stream(frames, delay[0], self.out)),
                         [(3, 1), (4, 252)])
        aging = self.context.graph()
        aging.not_(self.part, self.out)
        aging.register_auto_aging(delay)
        self.assertEqual(len([*aging.stream(frames, delay[0], self.out)]), 2)

    def test_what_is_no_station(self):
        station = vx.Station(self.graph, self.part, self.out)
        for wrong, words in ((station, "must be in a list"), (self.graph, "must be in a list"),
                             (None, "must be in a list"), ([self.graph], "must be vx.Station"),
                             ([(self.part, self.out)], "must be vx.Station"),
                             ([(self.part, self.graph, self.out)], "must be vx.Station")):
            with self.subTest(words), self.assertRaisesRegex(TypeError, words):
                vx.stream([self.picture(1)], wrong)
        (_, out), = vx.stream([self.picture(1)], [tuple(station)])
        self.assertEqual(out[0, 0], 1)

    def test_what_is_no_stream(self):
        for call in (lambda: self.graph.stream([], self.part, self.out, ahead=-1),
                     lambda: vx.stream([], []),
                     lambda: [*self.graph.stream([], self.part, [])]):
            self.assertRaises(ValueError, call)
        for ahead in (1.5, None, "2"):
            self.assertRaisesRegex(TypeError, "ahead, .* must be a whole number", self.graph.stream,
                                   [], self.part, self.out, ahead)
        self.assertRaisesRegex(TypeError, "a list of them, not int", self.graph.stream, [],
                               self.part, 5)
        for wrong in (None, "out", self.context.delay(self.part, 2), [self.out, None]):
            with self.subTest(wrong):
                self.assertRaisesRegex(TypeError, "distributions and extremes|other objects",
                                       self.graph.stream, [], self.part, wrong)
        self.assertRaisesRegex(TypeError, "to an image", self.graph.stream, [], None, self.out)
        for frames in (7, None, "film.mp4", pathlib.Path("film.mp4")):
            with self.assertRaisesRegex(TypeError, "must be pictures in a list, .*, not .*(7|N|f)"):
                self.graph.stream(frames, self.part, self.out)
        # Without NumPy, read() returns one.
        with self.assertRaisesRegex(TypeError, r"a memoryview of shape \(4, 6\)"):
            self.graph.stream(memoryview(bytes(24)).cast("B", (4, 6)), self.part, self.out)
        with self.server.context() as other:
            with self.assertRaises(vx.InvalidScope):
                next(self.graph.stream([[[1]]], other.image(vx.U8, 1, 1), self.out))


LEFT = """
import os, sys, threading, time
import feqyldan as vx
from feqyldan import sources

asked = threading.Event()
sources.PATIENCE = PATIENCE

def say(word):
    os.write(1, word.encode() + b" ")

def camera():
    try:
        yield [[1]]
        say("asked")
        asked.set()
        time.sleep(SECONDS)
        say("taken")
        yield [[2]]
    finally:
        say("left")

with vx.Server() as server, server.context() as context:
    part, out = (context.image(vx.U8, 1, 1) for _ in range(2))
    graph = context.graph()
    graph.not_(part, out)
    stream = graph.stream(camera(), part, out)
    next(stream)
    say("first")
    asked.wait()
    if HOW == "fault":
        raise ValueError("a fault of mine")
    if HOW == "close":
        stream.close()
"""


FORKED = """
import os
from feqyldan.sources import Threaded

source = Threaded(iter([[[1]]]), [])
child = os.fork()
if child == 0:
    source.close()
    os._exit(0)
print(os.waitpid(child, 0)[1])
source.close()
"""


# A child goes on with a stream of its parent.
FORKED_WITHIN = """
import os
import feqyldan as vx

with vx.Server() as server, server.context() as context:
    part, out, graph = context.image(vx.U8, 2, 1), context.image(vx.U8, 2, 1), context.graph()
    graph.not_(part, out)
    for frames in ([[[1, 2]]] * 9, iter([[[1, 2]]] * 9)):
        stream = graph.stream(frames, part, out)
        next(stream)
        child = os.fork()
        if child == 0:
            try:
                print("went on to the end of", len([*stream]), flush=True)
            except vx.Closed:
                print("closed", flush=True)
            os._exit(0)
        os.waitpid(child, 0)
        print(len([*stream]), flush=True)
"""


class TestForks(ProcessTest):
    def test_while_the_thread_of_an_iterator_runs(self):
        said = self.start(FORKED).communicate(timeout=PATIENCE)[0]
        self.assertEqual(said, "0\n")

    @needs_program
    def test_in_the_middle_of_a_stream(self):
        said = self.start(FORKED_WITHIN).communicate(timeout=PATIENCE)[0]
        self.assertEqual(said, "closed\n8\n" * 2)


@needs_program
class TestEnds(ProcessTest):
    """Programs that end while the iterator of a stream waits for a frame."""

    def ended(self, seconds, how, patience):
        """Runs a program, and returns its exit status and output."""
        client = self.start(f"SECONDS, HOW, PATIENCE = {seconds}, {how!r}, {patience}\n{LEFT}")
        said = client.communicate(timeout=PATIENCE)[0]
        return client.returncode, sorted(said.split())

    def test_an_iterator_is_left_before_the_program_ends(self):
        """A thread in C++ at the end would abort the program."""
        for how, status in (("close", 0), ("fault", 1), ("nothing", 0)):
            self.assertEqual(self.ended(0.3, how, PATIENCE),
                             (status, ["asked", "first", "left", "taken"]))

    def test_an_iterator_that_hangs(self):
        self.assertEqual(self.ended(1e6, "close", sources.PATIENCE), (0, ["asked", "first"]))


if __name__ == "__main__":
    unittest.main()
