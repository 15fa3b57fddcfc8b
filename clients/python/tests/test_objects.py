"""Objects of a context: writing to them, reading from them, and releasing them."""

import array
import gc
import sys
import threading
import unittest
from unittest import mock

from program import ProgramTest, vx
from feqyldan import connection, samples

U8, S16, U32 = vx.U8, vx.S16, vx.U32
ROWS = {
    U8: [[0, 1, 2], [253, 254, 255]],
    S16: [[-32768, -1, 0], [1, 256, 32767]],
    U32: [[0, 1, 2], [3, 2**31, 2**32 - 1]],
}
numpy = samples.numpy_module()
needs_numpy = unittest.skipUnless(numpy, "NumPy isn't installed")


def flat(rows):
    return [sample for row in rows for sample in row]


class TestSamples(ProgramTest):
    def test_rows_come_back(self):
        for fmt, rows in ROWS.items():
            image = self.context.image(fmt, 3, 2)
            self.holds(image, [[0, 0, 0], [0, 0, 0]])
            image.write(rows)
            self.holds(image, rows)
            self.holds(self.context.image_from(rows, fmt), rows)

    def test_images_like_others(self):
        source = self.context.image_from([[1, 2, 3], [4, 5, 6]])
        self.holds(self.context.image_like(source), [[0, 0, 0], [0, 0, 0]])
        for image in (source, self.context.delay(source, 2)[-1]):
            wide = self.context.image_like(image, vx.S16)
            self.assertEqual((wide.fmt, wide.shape), (vx.S16, (2, 3)))

    def test_buffers_come_back(self):
        for fmt, rows in ROWS.items():
            image = self.context.image(fmt, 3, 2)
            numbers = array.array(samples.LETTERS[fmt], flat(rows))
            shaped = memoryview(numbers).cast("B").cast(samples.LETTERS[fmt], [2, 3])
            for given in (numbers, numbers.tobytes(), bytearray(numbers.tobytes()),
                          memoryview(numbers), shaped):
                image.write([[0, 0, 0], [0, 0, 0]])
                image.write(given)
                self.holds(image, rows)
            self.assertEqual(image.read_bytes(), numbers.tobytes())
            self.holds(self.context.image_from(shaped), rows)

    def test_what_is_read_is_the_callers_own(self):
        for fmt, rows in ROWS.items():
            image = self.context.image_from(rows, fmt)
            seen = image.read()
            self.assertEqual((tuple(seen.shape), seen[1, 2]), ((2, 3), rows[1][2]))
            seen[0, 0] = 7
            self.assertEqual(seen[0, 0], 7)
            self.holds(image, rows)

    def test_memory_is_used_again_when_nobody_has_it(self):
        """Memory isn't reused while an array of a picture, or a part of one, is left."""
        side = 300
        image = self.context.image(U8, side, side)
        seen, kept = [], []
        for shade in range(12):
            image.fill(shade)
            picture = image.read()
            seen.append(picture)
            part = picture[10:20] if numpy else memoryview(picture).cast("B")[3000:6000]
            kept.append((shade, part))
            if shade % 3 == 0:
                seen.clear()
                del picture, part
                kept = kept[::2]
            for wanted, one in kept:
                self.assertEqual(set(one.tolist() if not numpy else one.ravel().tolist()), {wanted})
        if connection.ALONE is not None:
            del picture, part, one, seen, kept
            before = image.read()
            where = memoryview(before).obj if not numpy else before.ctypes.data
            del before
            for _ in range(5):
                again = image.read()
                self.assertEqual(memoryview(again).obj if not numpy else again.ctypes.data, where)
                del again

    def test_without_numpy(self):
        with mock.patch.object(samples, "numpy_module", return_value=None):
            self.test_rows_come_back()
            self.test_buffers_come_back()
            self.test_what_is_read_is_the_callers_own()
            image = self.context.image(U8, 3, 2)
            self.assertIsInstance(image.read(), memoryview)

    def test_numpy_that_must_not_be_imported(self):
        """None stands for such a module. It is no NumPy that memory could be lent by."""
        entries, rows = range(-32768, 32768), [[7] * 512] * 512
        with mock.patch.dict(sys.modules, {"numpy": None}):
            for _ in range(2):
                self.context.lut(S16, entries)
                self.assertEqual(self.context.image_from(rows).read().tolist(), rows)

    @needs_numpy
    def test_arrays_come_back(self):
        for fmt, dtype in ((U8, "uint8"), (S16, "int16"), (U32, "uint32")):
            pixels = numpy.array(ROWS[fmt], dtype)
            image = self.context.image(fmt, 3, 2)
            wide = numpy.zeros((4, 6), dtype)
            wide[::2, ::2] = pixels
            swapped = pixels.astype(pixels.dtype.newbyteorder(">"))
            for given in (pixels, wide[::2, ::2], numpy.asfortranarray(pixels), swapped,
                          pixels.reshape(-1)):
                image.write([[0, 0, 0], [0, 0, 0]])
                image.write(given)
                self.holds(image, ROWS[fmt])
            seen = image.read()
            self.assertEqual((seen.dtype, seen.dtype.isnative, seen.flags.aligned),
                             (numpy.dtype(dtype), True, True))
            self.assertTrue((seen == pixels).all())
            self.holds(self.context.image_from(pixels), ROWS[fmt])
            self.assertEqual(self.context.image_from(pixels).fmt, fmt)

    def test_what_is_no_picture(self):
        image = self.context.image(U8, 3, 2)
        for wrong in (b"12345", [[1, 2], [3]], [[1, 2, 256]], [[1, -1, 0]], [], [[]]):
            with self.assertRaises(ValueError):
                image.write(wrong)
        for wrong in (5, None, [["a"]], array.array("f", [1] * 6), array.array("d", [1] * 6)):
            with self.assertRaises((TypeError, ValueError)):
                image.write(wrong)
        for fmt in (None, U8):
            with self.assertRaisesRegex(ValueError, "6 bytes in one line have no width and height"):
                self.context.image_from(b"123456", fmt)
        with self.assertRaises(vx.InvalidDimension):
            image.write([[1, 2], [3, 4]])
        with self.assertRaises(vx.InvalidFormat):
            image.write(memoryview(array.array("h", range(6))).cast("B").cast("h", [2, 3]))
        self.holds(image, [[0, 0, 0], [0, 0, 0]])

    @needs_numpy
    def test_what_is_no_grey_array(self):
        image = self.context.image(U8, 3, 2)
        for wrong in (numpy.zeros((2, 3)), numpy.zeros((2, 3), "uint16"),
                      numpy.zeros((2, 3), bool)):
            self.assertRaises(TypeError, image.write, wrong)
        for wrong in (numpy.zeros((2, 3, 3), "uint8"), numpy.zeros((0, 3), "uint8")):
            self.assertRaises(ValueError, image.write, wrong)

    def test_valid_rectangles(self):
        image = self.context.image_from(ROWS[U8])
        self.assertEqual(image.query(), (U8, 3, 2, (0, 0, 3, 2)))
        image.valid = (1, 0, 3, 1)
        self.assertEqual(image.valid, (1, 0, 3, 1))
        self.holds(image, [[0, 1, 2], [0, 0, 0]])
        image.valid = 0, 0, 0, 0
        self.assertEqual(image.valid, (0, 0, 0, 0))
        for wrong in ((0, 0, 4, 1), (1, 0, 1, 2)):
            with self.assertRaises(vx.InvalidValue):
                image.valid = wrong


class TestParameters(ProgramTest):
    def test_delays(self):
        exemplar = self.context.image_from(ROWS[U8])
        delay = self.context.delay(exemplar, 3)
        for k, slot in enumerate(delay):
            slot.write([[k] * 3] * 2)
        delay.age()
        self.assertEqual([slot.read()[0, 0] for slot in (delay[0], delay[-1], delay[-2])],
                         [2, 0, 1])
        self.assertEqual((len(delay), delay[-1].shape, delay[-1].valid), (3, (2, 3), (0, 0, 3, 2)))
        self.assertEqual([slot.number for slot in delay], [0, -1, -2])
        self.assertEqual([slot.number for slot in reversed(delay)], [-2, -1, 0])
        for wrong in (1, -3):
            self.assertRaises(IndexError, delay.__getitem__, wrong)
        again = self.context.delay(delay[-1], 1)
        self.assertEqual((again.fmt, again.width, again.height), (U8, 3, 2))
        self.assertRaises(TypeError, self.context.delay, 5, 2)
        with self.assertRaises(vx.InvalidValue):
            self.context.delay(exemplar, 17)

    def test_tables_of_arrays_and_bytes(self):
        image, out = self.context.image_from([[0, 128, 255]]), self.context.image(U8, 3, 1)
        turned = bytes(range(255, -1, -1))
        givens = [turned, list(turned), array.array("B", turned)]
        if numpy:
            givens += [numpy.frombuffer(turned, "uint8"), numpy.arange(255, -1, -1)]
        for given in givens:
            out.write([[1, 1, 1]])
            self.context.vxu.table_lookup(image, self.context.lut(U8, given), out)
            self.holds(out, [[255, 127, 0]])
        for wrong in (turned[1:], [256] * 256):
            self.assertRaises(ValueError, self.context.lut, U8, wrong)
        with self.assertRaises(vx.InvalidFormat):
            self.context.lut(U32, [0] * 256)

    def test_thresholds(self):
        self.assertRaises(TypeError, self.context.threshold, U8)
        self.assertRaises(TypeError, self.context.threshold, U8, 5, (1, 2))
        self.assertRaises(ValueError, self.context.threshold, U8, 40000)
        for wrong in (5, (1,), (1, 2, 3)):
            with self.assertRaisesRegex(TypeError, r"two limits, \(lower, upper\), not [(5]"):
                self.context.threshold(U8, between=wrong)
        for outputs in ({"true_value": True}, {"true_value": 1, "false_value": False}):
            with self.assertRaisesRegex(TypeError, "are samples, .*: write 255 or 0"):
                self.context.threshold(U8, above=1, **outputs)
        for limits in ({"above": 256}, {"between": (20, 10)}):
            with self.assertRaises(vx.InvalidValue):
                self.context.threshold(U8, **limits)

    def test_convolutions(self):
        for wrong in ({"scale": 3}, {"scale": 0}, {"scale": -2}):
            self.assertRaises(ValueError, self.context.convolution, [[1] * 3] * 3, **wrong)
        self.assertRaises(ValueError, self.context.convolution, [[1, 2, 3], [1, 2], [1, 2, 3]])
        for wrong in ([1, 2, 1], 5, None):
            with self.assertRaisesRegex(TypeError, r"must be rows of numbers, .*, not [\[5N]"):
                self.context.convolution(wrong)
        for wrong in ([[1] * 4] * 3, [[1] * 3] * 300, [[1] * 300] * 3):
            with self.assertRaisesRegex(vx.InvalidDimension, "must have 3, 5, 7 or 9 rows"):
                self.context.convolution(wrong)
        with self.assertRaises(vx.InvalidValue):
            self.context.convolution([[1] * 3] * 3, scale=2**32)

    def test_new_ones(self):
        self.assertEqual(self.context.distribution(3).read(), (0, 0, 0))
        self.assertEqual(self.context.min_max().read(), (0, 0, 0, 0, (0, 0), (0, 0)))
        with self.assertRaises(vx.InvalidValue):
            self.context.distribution(257)


class TestReleases(ProgramTest):
    limits = {"quota": 100}

    def test_close(self):
        image = self.context.image(U8, 10, 10)
        self.assertRaises(vx.NoResources, self.context.image, U8, 1, 1)
        image.close()
        image.close()
        self.assertTrue(image.closed)
        with self.context.image(U8, 10, 10) as other:
            self.assertFalse(other.closed)
        self.assertTrue(other.closed)
        self.context.image(U8, 10, 10)
        self.assertRaises(vx.InvalidReference, image.read)

    def test_a_close_that_is_interrupted(self):
        """The object isn't lost: it counts until Python frees it, and is then released."""
        image = self.context.image(U8, 10, 10)
        with mock.patch.object(vx.Context, "_tell", side_effect=KeyboardInterrupt):
            self.assertRaises(KeyboardInterrupt, image.close)
        self.assertEqual(self.context.usage().objects, 1)
        self.assertRaises(vx.NoResources, self.context.image, U8, 1, 1)
        del image
        gc.collect()
        self.context.image(U8, 10, 10)

    def test_what_python_forgets(self):
        for _ in range(3):
            self.context.image(U8, 10, 10)
            gc.collect()
        for _ in range(1100):
            self.context.threshold(U8, above=1)
        gc.collect()
        self.context.image(U8, 10, 10)

    def test_what_a_graph_uses_stays(self):
        source, target = self.context.image_from([[1, 2, 3]]), self.context.image(U8, 3, 1)
        graph = self.context.graph()
        graph.threshold(source, self.context.threshold(U8, above=1), target)
        del source
        gc.collect()
        graph.process()
        self.holds(target, [[0, 255, 255]])

    def test_after_the_context(self):
        objects = [self.context.image(U8, 1, 1), self.context.graph(), self.context.min_max()]
        node = objects[1].not_(objects[0], self.context.image(U8, 1, 1))
        self.context.close()
        self.context.close()
        for thing in objects:
            thing.close()
            self.assertTrue(thing.closed)
        node.remove()
        self.assertRaises(vx.Closed, objects[0].read)
        self.assertRaises(vx.Closed, self.context.image, U8, 1, 1)

    def test_an_error_in_a_with_is_told(self):
        with self.assertRaises(KeyError):
            with self.context.image(U8, 1, 1):
                raise KeyError
        with self.assertRaises(KeyError):
            with self.server.context() as other, other.image(U8, 1, 1):
                other.close()
                raise KeyError


class TestForgottenContexts(ProgramTest):
    def test_contexts_that_python_forgets(self):
        """Without a garbage collection, and with objects, graphs and errors of their own."""
        self.addCleanup(gc.enable)
        gc.disable()
        for _ in range(300):
            context = self.server.context()
            image, out = (context.image(vx.U8, 1000, 1000) for _ in range(2))
            graph = context.graph()
            graph.not_(image, out)
            graph.process()
            context.vxu.not_(image, out)
            self.assertRaises(vx.InvalidDimension, image.write, [[1]])
            with context.pipeline() as ahead:
                result = ahead.read(context.min_max())
            self.assertEqual(result.value().max, 0)
        opened = next(self.server._numbers)
        self.assertLess(opened, 5)
        if self.server._process is not None:
            with open(f"/proc/{self.server._process.pid}/status") as file:
                status = dict(line.split(":", 1) for line in file)
            self.assertLess(int(status["VmRSS"].split()[0]), 50_000)
        # Another context's request releases them too.
        del context, image, out, graph, ahead, result
        self.context.graph()
        self.assertEqual(len(self.server._free_numbers), opened - 1)


class TestThreads(ProgramTest):
    def test_threads_that_make_and_forget_objects_of_one_context(self):
        """No thread releases what another one has just created."""
        faults = []

        def work(shade):
            try:
                for _ in range(200):
                    image = self.context.image_from([[shade, 0]])
                    out = self.context.image_like(image)
                    self.context.vxu.not_(image, out)
                    if out.read().tolist() != [[255 - shade, 255]]:
                        raise AssertionError("this isn't what was asked for")
            except Exception as fault:
                faults.append(fault)

        threads = [threading.Thread(target=work, args=(shade,)) for shade in (10, 20, 30)]
        for thread in threads:
            thread.start()
        for thread in threads:
            thread.join()
        self.assertEqual(faults, [])
        self.assertEqual(self.context.usage().objects, 0)


if __name__ == "__main__":
    unittest.main()
