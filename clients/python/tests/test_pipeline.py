"""Requests that are sent ahead: many bytes in both directions, refusals, threads and
interruptions."""

import signal
import struct
import threading
import time
import unittest

from program import INTERRUPT, ProgramTest, answering, of_a_process, vx
from feqyldan import wire

OPENED = wire.reply_frame(0, wire.OPEN_CONTEXT)
SIDE, PICTURES = 1024, 12


class TestPipelines(ProgramTest):
    def test_many_megabytes_each_way(self):
        """No result is read before everything is sent: both pipes are full long before."""
        image = self.context.image(vx.U8, SIDE, SIDE)
        results = []
        with self.context.pipeline() as ahead:
            for k in range(PICTURES):
                image.write(bytes([k]) * SIDE * SIDE)
                results.append(ahead.read(image))
        for k, result in enumerate(results):
            self.assertTrue(result.is_there)
            self.assertEqual(bytes(result.value()), bytes([k]) * SIDE * SIDE)

    def test_many_small_ones(self):
        image, results = self.context.image(vx.S16, 3, 1), []
        with self.context.pipeline() as ahead:
            for k in range(3000):
                image.write([[k, -k, 7]])
                results.append(ahead.read(image))
        self.assertEqual([result.value().tolist() for result in results],
                         [[[k, -k, 7]] for k in range(3000)])

    def test_what_was_written_may_change_at_once(self):
        image, results = self.context.image(vx.U8, 300, 300), []
        samples = bytearray(300 * 300)
        with self.context.pipeline() as ahead:
            for k in range(20):
                samples[:] = bytes([k]) * len(samples)
                image.write(samples)
                results.append(ahead.read(image))
                samples[:] = bytes(len(samples))
        self.assertEqual([bytes(result.value())[-1] for result in results], list(range(20)))

    def test_all_that_can_be_asked_ahead(self):
        image, out = self.context.image_from([[5, 9, 9]]), self.context.image(vx.U8, 3, 1)
        counts, found = self.context.distribution(2), self.context.min_max()
        virtual = self.context.graph().virtual_image(vx.U8)
        with self.context.pipeline() as ahead:
            self.context.vxu.histogram(image, counts)
            self.context.vxu.min_max_loc(image, found)
            self.context.vxu.not_(image, out)
            results = [ahead.read(counts), ahead.read(found), ahead.read_pgm(out)]
            results += [ahead.query(out), ahead.query(virtual)]
            # What gives something else waits, and comes in its turn.
            self.assertEqual(out.read().tolist(), [[250, 246, 246]])
            self.assertTrue(results[-1].is_there)
        values = [result.value() for result in results]
        self.assertEqual(values[0], (3, 0))
        self.assertEqual(values[1], (5, 9, 1, 2, (0, 0), (1, 0)))
        self.assertEqual(values[2], b"P5\n3 1\n255\n\xfa\xf6\xf6")
        self.assertEqual(values[3:],
                         [(vx.U8, 3, 1, (0, 0, 3, 1)), (vx.U8, None, None, (0, 0, 0, 0))])

    def test_refusals(self):
        image, short = self.context.image(vx.U8, 3, 1), self.context.image(vx.S16, 3, 1)
        with self.assertRaises(vx.InvalidFormat):
            with self.context.pipeline() as ahead:
                self.context.vxu.not_(image, short)
                image.write([[1, 2]])
                image.write([[1, 2, 3]])
                result, pgm = ahead.read(image), ahead.read_pgm(short)
        kinds = vx.InvalidFormat, vx.InvalidDimension, vx.InvalidFormat
        self.assertEqual(len(ahead.refusals), len(kinds))
        for refused, kind in zip(ahead.refusals, kinds):
            self.assertIsInstance(refused, kind)
        self.assertRaisesRegex(vx.InvalidFormat, r"not_\(image 1 .*call 1 of", result.value)
        self.assertEqual(result.raw().tolist(), [[1, 2, 3]])
        self.assertRaisesRegex(vx.InvalidFormat, "read a PGM text of image 2", pgm.value)
        line = self.test_refusals.__code__.co_firstlineno
        self.assertEqual([refused.place for refused in ahead.refusals],
                         [f"call {call} of the pipeline, test_pipeline.py:{line + below}"
                          for call, below in ((1, 4), (2, 5), (5, 7))])
        self.assertIn("(call 5 of the pipeline, test_pipeline.py:", str(ahead.refusals[-1]))
        # Outside each call raises its own again.
        self.assertRaises(vx.InvalidFormat, self.context.vxu.not_, image, short)

    def test_wait(self):
        image = self.context.image(vx.U8, 3, 1)
        with self.context.pipeline() as ahead:
            image.write([[1, 2]])
            self.assertRaises(vx.InvalidDimension, ahead.wait)
            image.write([[1, 2, 3]])
            ahead.wait()
        self.assertRaises(vx.InvalidDimension, image.write, [[1, 2]])

    def test_a_create_that_is_refused_within(self):
        with self.context.pipeline() as ahead:
            with self.assertRaises(vx.InvalidDimension):
                self.context.image(vx.U8, 8193, 1)
        self.assertEqual(ahead.refusals, [])

    def test_objects_of_another_context(self):
        """Each context has objects of the same names."""
        mine = self.context.image_from([[1]])
        with self.server.context() as other, self.context.pipeline() as ahead:
            theirs = other.image_from([[2]])
            for ask in (ahead.read, ahead.read_pgm, ahead.query):
                with self.assertRaisesRegex(vx.InvalidScope, "belongs to another context"):
                    ask(theirs)
            self.assertEqual(ahead.read(mine).value().tolist(), [[1]])

    def test_one_that_is_entered_again(self):
        """It tells its refusals each time, and none of an earlier time."""
        image, ahead = self.context.image(vx.U8, 2, 1), self.context.pipeline()
        for _ in range(2):
            with self.assertRaises(vx.InvalidDimension), ahead:
                image.write([[1]])
        with ahead:
            image.write([[1, 2]])
            result = ahead.read(image)
        self.assertEqual(result.value().tolist(), [[1, 2]])

    def test_a_wait_without_end(self):
        """poll() takes no such wait."""
        image, out = (self.context.image(vx.U8, SIDE, SIDE) for _ in range(2))
        for timeout in (float("inf"), 1e300):
            with self.context.pipeline() as ahead:
                for _ in range(PICTURES):
                    self.context.vxu.not_(image, out)
                result = ahead.read(out)
                self.assertEqual(result.value(timeout)[0, 0], 255)

    def test_one_at_a_time(self):
        with self.context.pipeline():
            with self.assertRaises(ValueError):
                with self.context.pipeline():
                    pass
        with self.context.pipeline(), self.server.context() as other, other.pipeline():
            pass

    def test_a_result_of_a_pipeline_that_has_ended(self):
        """Its request belongs to the open pipeline, so it tells that one's refusals."""
        image = self.context.image_from([[1, 2]])
        with self.context.pipeline() as ended:
            pass
        with self.assertRaises(vx.InvalidDimension), self.context.pipeline():
            image.write([[3]])
            result = ended.read(image)
        self.assertRaises(vx.InvalidDimension, result.value)
        self.assertEqual(result.raw().tolist(), [[1, 2]])

    def test_an_error_within(self):
        image = self.context.image(vx.U8, 3, 1)
        with self.assertRaises(KeyError):
            with self.context.pipeline():
                image.write([[1, 2]])
                raise KeyError
        image.write([[4, 5, 6]])
        self.holds(image, [[4, 5, 6]])

    def test_what_it_cant_read(self):
        image, graph = self.context.image(vx.U8, 2, 1), self.context.graph()
        with self.context.pipeline() as ahead:
            for call, wrong in ((ahead.read, graph), (ahead.read, self.context.delay(image, 2)),
                                (ahead.read_pgm, None), (ahead.query, [image])):
                self.assertRaisesRegex(TypeError, "this call of a pipeline takes .*, not", call,
                                       wrong)

    def test_one_that_an_interruption_left_open(self):
        """The next one says so and closes it."""
        image, ahead = self.context.image(vx.U8, 2, 1), self.context.pipeline()
        ahead.__enter__()
        with self.assertRaisesRegex(ValueError, "has an open pipeline, which is closed now, since"):
            self.context.pipeline().__enter__()
        with self.context.pipeline() as second:
            image.write([[1, 2]])
            result = second.read(image)
        self.assertEqual(result.value().tolist(), [[1, 2]])

    def test_refusals_in_one_that_an_interruption_left_open(self):
        """They aren't lost: the next call, or the next pipeline, raises the first one."""
        image, graph = self.context.image(vx.U8, 2, 1), self.context.graph()
        for _ in range(2):
            graph.not_(self.context.image(vx.U8, 2, 1), image)
        for is_there, call in ((True, self.context.pipeline().__enter__), (False, image.read),
                               (False, lambda: image.write([[1, 2]]))):
            ahead = self.context.pipeline()
            ahead.__enter__()
            graph.process()
            if not is_there:
                del ahead
            self.assertRaises(vx.MultipleWriters, call)
            image.write([[3, 4]])
            self.holds(image, [[3, 4]])

    def test_threads(self):
        """Threads, each with a context of its own, on one server."""
        faults = []

        def work(number):
            with self.server.context() as context:
                image, out = context.image(vx.U8, 40, 40), context.image(vx.U8, 40, 40)
                for k in range(20):
                    with context.pipeline() as ahead:
                        image.write(bytes([number + k]) * 1600)
                        context.vxu.not_(image, out)
                        result = ahead.read(out)
                    if bytes(result.value()) != bytes([255 - number - k]) * 1600:
                        faults.append((number, k))

        threads = [threading.Thread(target=work, args=(10 * k,)) for k in range(8)]
        for thread in threads:
            thread.start()
        for thread in threads:
            thread.join()
        self.assertEqual(faults, [])
        self.assertEqual(len({context.number
                              for context in [self.server.context() for _ in range(3)]}), 3)


@of_a_process
class TestInterruptions(unittest.TestCase):
    def interrupted(self, call):
        """Makes a call that the server interrupts by SIGALRM, as SIGINT would."""
        def interrupt(*_):
            raise KeyboardInterrupt

        before = signal.signal(signal.SIGALRM, interrupt)
        try:
            self.assertRaises(KeyboardInterrupt, call)
        finally:
            signal.signal(signal.SIGALRM, before)

    def test_a_reply_that_comes_later(self):
        """The awaited reply comes after the interruption, and isn't mistaken for another one."""
        first, second = (wire.reply_frame(0, wire.CREATE_GRAPH, 0, bytes([0, 0, 0, k]))
                         for k in (1, 2))
        server = vx.Server(answering(OPENED, INTERRUPT, b"", first + second,
                                     end="source.read()"))
        context = server.context()
        self.interrupted(context.graph)
        self.assertEqual(context.graph().name, 2)
        server.close()

    def test_an_end_that_waits_for_nothing(self):
        def hang():
            with vx.Server(answering(OPENED, INTERRUPT,
                                     end="source.read()")) as server, server.context() as context:
                context.graph()

        start = time.monotonic()
        self.interrupted(hang)
        self.assertLess(time.monotonic() - start, 20)

    def test_samples_that_are_half_sent(self):
        named = wire.reply_frame(0, wire.CREATE_IMAGE, 0, b"\0\0\0\1")
        written = wire.reply_frame(0, wire.WRITE_IMAGE)
        body = struct.pack(">BHH4H", wire.U8, 1000, 1000, 0, 0, 1000, 1000)
        seen = wire.reply_frame(0, wire.QUERY_IMAGE, 0, body)
        server = vx.Server(answering(OPENED, named, INTERRUPT, written, seen))
        context = server.context()
        image = context.image(vx.U8, 1000, 1000)
        self.interrupted(lambda: image.write(bytes(1000 * 1000)))
        # Its frame goes on to its end with the next request.
        self.assertEqual(image.query(), (vx.U8, 1000, 1000, (0, 0, 1000, 1000)))
        server.close()


if __name__ == "__main__":
    unittest.main()
