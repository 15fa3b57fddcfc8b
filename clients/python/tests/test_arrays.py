"""Images as Python's arrays, pictures and copies: NumPy, notebooks, copy and pickle."""

import array
import copy
import ctypes
import mmap
import pickle
import sys
import threading
import unittest
from unittest import mock

from program import ProgramTest, vx
from feqyldan import samples
from test_pictures import decoded

U8, S16, U32 = vx.U8, vx.S16, vx.U32
numpy = samples.numpy_module()
needs_numpy = unittest.skipUnless(numpy, "NumPy isn't installed")


@needs_numpy
class TestArrays(ProgramTest):
    def test_asarray(self):
        for fmt, dtype in ((U8, "uint8"), (S16, "int16"), (U32, "uint32")):
            image = self.context.image_from([[1, 2, 3], [4, 5, 6]], fmt)
            for thing in (image, self.context.delay(image, 2)[-1]):
                thing.write([[1, 2, 3], [4, 5, 6]])
                for pixels in (numpy.asarray(thing), numpy.array(thing)):
                    self.assertEqual((pixels.dtype, pixels.tolist()),
                                     (numpy.dtype(dtype), [[1, 2, 3], [4, 5, 6]]))
                self.assertEqual(numpy.asarray(thing, "float64").tolist(),
                                 [[1.0, 2.0, 3.0], [4.0, 5.0, 6.0]])
        self.assertEqual(int(numpy.sum(image)), 21)

    def test_read_into_an_array(self):
        for width, height in ((3, 2), (300, 200), (1000, 700)):
            for fmt, dtype in ((U8, "uint8"), (S16, "int16"), (U32, "uint32")):
                pixels = numpy.arange(width * height).reshape(height, width).astype(dtype)
                image = self.context.image_from(pixels)
                for out in (numpy.zeros_like(pixels),
                            numpy.zeros((height, 2 * width), dtype)[:, ::2],
                            numpy.zeros_like(pixels.T).T):
                    self.assertIs(image.read(out), out)
                    self.assertTrue((out == pixels).all())
                    # The next replies are whole.
                    self.assertEqual(image.query().width, width)
                    self.assertTrue((image.read() == pixels).all())

    def test_an_array_that_was_read_into_is_the_callers_alone(self):
        """Nothing keeps its memory, which the caller may want to close."""
        for side in (3, 300):
            image = self.context.image_from(numpy.full((side, side), 7, numpy.uint8))
            memory = mmap.mmap(-1, side * side)
            image.read(out=numpy.frombuffer(memory, numpy.uint8).reshape(side, side))
            self.assertEqual(memory[-1], 7)
            memory.close()

    def test_read_into_an_array_in_a_pipeline(self):
        image, out = self.context.image_from([[1, 2], [3, 4]]), numpy.zeros((2, 2), "uint8")
        with self.context.pipeline() as ahead:
            first = ahead.read(image)
            image.write([[5, 6], [7, 8]])
            self.assertEqual(image.read(out=out).tolist(), [[5, 6], [7, 8]])
        self.assertEqual(first.value().tolist(), [[1, 2], [3, 4]])

    def test_an_array_that_a_picture_cant_be_read_into(self):
        image, fixed = self.context.image_from([[1, 2]]), numpy.zeros((1, 2), "uint8")
        fixed.flags.writeable = False
        for out in (numpy.zeros((2, 1), "uint8"), numpy.zeros((1, 2), "int16"), fixed,
                    numpy.ma.masked_equal(numpy.zeros((1, 2), "uint8"), 0), bytearray(2)):
            with self.assertRaisesRegex(vx.BadPicture, "read into a NumPy array"):
                image.read(out)
        self.assertEqual(image.read().tolist(), [[1, 2]])

    def test_a_picture_isnt_read_into_samples_that_overlap(self):
        """The later rows would replace the earlier ones."""
        image, memory = self.context.image(vx.U8, 4, 3), numpy.zeros(24, "uint8")
        image.write(numpy.arange(12, dtype="uint8").reshape(3, 4))
        for strides in ((0, 1), (4, 0), (1, 1), (3, 1), (1, 2)):
            with self.assertRaisesRegex(vx.WrongPicture, "whose samples overlap in memory"):
                image.read(numpy.lib.stride_tricks.as_strided(memory, (3, 4), strides))
        self.assertFalse(memory.any())
        for out in (memory.reshape(6, 4)[::-2], memory.reshape(3, 8)[:, ::-2],
                    memory.reshape(4, 6)[:, :3].T):
            self.assertEqual(image.read(out).tolist(), image.read().tolist())

    def test_both_signatures(self):
        """NumPy 1 calls it with nothing or a type; NumPy 2 also says whether a copy may be made."""
        image = self.context.image_from([[1, 2]])
        for pixels in (image.__array__(), image.__array__(None), image.__array__("int32"),
                       image.__array__(copy=True),
                       image.__array__(dtype=None, copy=None)):
            self.assertEqual(pixels.tolist(), [[1, 2]])
        self.assertEqual(image.__array__("int32").dtype, numpy.dtype("int32"))
        with self.assertRaisesRegex(ValueError, r"image 1 \(U8, 2 by 1\) are on its server"):
            image.__array__(copy=False)
        if int(numpy.__version__.split(".")[0]) >= 2:
            self.assertRaises(ValueError, numpy.asarray, image, copy=False)

    def test_what_is_asked_is_the_callers_own(self):
        image = self.context.image_from([[1, 2]])
        numpy.asarray(image)[0, 0] = 9
        self.holds(image, [[1, 2]])

    def test_one_channel(self):
        image = self.context.image(S16, 3, 2)
        pixels = numpy.arange(6, dtype="int16").reshape(2, 3, 1)
        wide = numpy.zeros((4, 6, 1), "int16")
        wide[::2, ::2] = pixels
        for given in (pixels, wide[::2, ::2]):
            image.write([[0] * 3] * 2)
            image.write(given)
            self.holds(image, [[0, 1, 2], [3, 4, 5]])
            self.holds(self.context.image_from(given), [[0, 1, 2], [3, 4, 5]])
        self.assertEqual(decoded(vx.png(pixels)), decoded(vx.png(pixels[:, :, 0])))

    def test_dlpack_alone(self):
        """As libraries offer it whose arrays NumPy doesn't know."""
        class Tensor:
            def __init__(self, pixels):
                self.pixels = pixels

            def __dlpack__(self, stream=None):
                return self.pixels.__dlpack__(stream=stream)

            def __dlpack_device__(self):
                return self.pixels.__dlpack_device__()

        class Remote(Tensor):
            def __dlpack__(self, stream=None):
                raise BufferError("it is on a graphics card")

        image = self.context.image_from(Tensor(numpy.array([[1, -2]], numpy.int16)))
        self.assertEqual(image.fmt, S16)
        self.holds(image, [[1, -2]])
        with self.assertRaisesRegex(vx.NotAPicture, "Remote by DLPack: it is on a graphics card; "
                                                    "copy them to a NumPy array"):
            self.context.image_from(Remote(numpy.zeros((1, 1), numpy.uint8)))

    def test_arrays_that_refuse(self):
        """As tensors do on a graphics card, or if they record their gradient. An error of a file
        that an array reads isn't one of its type."""
        class Tensor:
            def __init__(self, error):
                self.error = error

            def __array__(self, dtype=None, copy=None):
                raise self.error

        for error in TypeError("use Tensor.cpu"), RuntimeError("use Tensor.detach"):
            with self.assertRaisesRegex(vx.NotAPicture, f"of this Tensor: {error}; copy them"):
                self.context.image_from(Tensor(error))
        for error in OSError("read"), vx.ServerEnded("it has ended"):
            with self.assertRaises(type(error)) as caught:
                self.context.image_from(Tensor(error))
            self.assertIs(caught.exception, error)

    def test_one_image_into_another(self):
        image, other = self.context.image_from([[1, 2]]), self.context.image(U8, 2, 1)
        other.write(image)
        self.holds(other, [[1, 2]])


class TestBuffers(ProgramTest):
    def test_buffers_of_ctypes(self):
        for number, fmt, values in ((ctypes.c_uint8, U8, (1, 255)), (ctypes.c_int16, S16, (-2, 9)),
                                    (ctypes.c_uint32, U32, (1, 2**32 - 1))):
            rows = (number * 2 * 2)(values, values[::-1])
            image = self.context.image_from(rows)
            self.assertEqual(image.fmt, fmt)
            self.holds(image, [[*values], [*values[::-1]]])
            image.write((number * 4)(*values, *values))
            self.holds(image, [[*values], [*values]])

    def test_true_and_false(self):
        """An array of bool is refused too: a mask's samples are 0 and 255."""
        image = self.context.image(U8, 2, 1)
        for rows in ([[True, False]], [[1, True]], [(0, False)]):
            with self.assertRaisesRegex(vx.NotAPicture, "True and False are no samples"):
                image.write(rows)
        self.assertRaisesRegex(vx.NotAPicture, "True and False are no samples", image.fill, True)
        self.holds(image, [[0, 0]])
        for entries in ([True] * 256, [0] * 255 + [False]):
            with self.assertRaisesRegex(TypeError, "an entry of U8 .* one is True or False"):
                self.context.lut(U8, entries)

    @needs_numpy
    def test_true_and_false_of_numpy(self):
        mask = numpy.array([[True, False]])
        with self.assertRaisesRegex(vx.NotAPicture, "True and False are no samples"):
            self.context.image_from(list(mask))
        with self.assertRaisesRegex(TypeError, "one is True or False"):
            self.context.lut(U8, numpy.arange(256) > 99)
        with self.assertRaisesRegex(vx.BadPicture, "some of these samples are masked"):
            self.context.lut(U8, numpy.ma.masked_equal(numpy.arange(256, dtype="uint8"), 7))

    def test_a_list_of_rows_in_memory(self):
        """Two pictures, for example, as read() returns them without NumPy."""
        picture = memoryview(bytes(4)).cast("B", [2, 2])
        with self.assertRaisesRegex(vx.NotAPicture, "rows of numbers, not list"):
            self.context.image_from([picture, picture])

    def test_entries_of_odd_memory(self):
        for wrong in (memoryview(bytes(256)).cast("B", [4, 8, 8]), memoryview(ctypes.c_int16(7)),
                      (ctypes.c_int16 * 256)()):
            with self.assertRaisesRegex(TypeError, "must be whole numbers in a row"):
                self.context.lut(U8, memoryview(wrong))


class TestWithoutNumpy(ProgramTest):
    def test_one_channel(self):
        image = self.context.image(S16, 3, 2)
        shaped = memoryview(array.array("h", range(6))).cast("B").cast("h", [2, 3, 1])
        with mock.patch.object(samples, "numpy_module", return_value=None):
            image.write(shaped)
            self.holds(image, [[0, 1, 2], [3, 4, 5]])


class TestNotebooks(ProgramTest):
    def test_pictures(self):
        image = self.context.image_from([[1, 2, 3]])
        for thing in (image, self.context.delay(image, 1)[0]):
            self.assertEqual(decoded(thing._repr_png_())[:4], (3, 1, 8, 0))
        self.assertEqual(decoded(self.context.image_from([[1, 256]], S16)._repr_png_())[4],
                         [b"\0\xff"])

    def test_samples_are_scaled(self):
        for rows, fmt in (([[-300, -200, -100]], S16), ([[0, 2**31, 2**32 - 1]], U32)):
            image = self.context.image_from(rows, fmt)
            self.assertEqual(decoded(image._repr_png_()), (3, 1, 8, 0, [b"\0\x7f\xff"]))
        self.assertEqual(decoded(self.context.image_from([[-1]], S16)._repr_png_())[4], [b"\0"])

    def test_the_valid_rectangle_is_framed(self):
        image = self.context.image_from([[9] * 5] * 4)
        image.valid = 1, 0, 4, 3
        width, height, depth, kind, rows = decoded(image._repr_png_())
        self.assertEqual((width, height, depth, kind), (5, 4, 8, 2))
        shown = [[rows[y][3 * x : 3 * x + 3] for x in range(5)] for y in range(4)]
        red, grey, black = bytes((230, 30, 30)), b"\x09" * 3, bytes(3)
        self.assertEqual(shown, [[black, red, red, red, black], [black, red, grey, red, black],
                                 [black, red, red, red, black], [black] * 5])
        image.valid = 0, 0, 0, 0
        self.assertEqual(decoded(image._repr_png_())[:2], (5, 4))

    def test_what_is_no_picture(self):
        closed = self.context.image(U8, 1, 1)
        closed.close()
        self.assertIsNone(closed._repr_png_())

    def test_delays_and_graphs(self):
        image = self.context.image_from([[1]])
        self.assertEqual(self.context.delay(image, 3)._repr_html_().count("<img"), 3)
        graph = self.context.graph()
        graph.not_(image, self.context.image(U8, 1, 1))
        self.assertIn("<svg", graph._repr_svg_())


class TestCopies(ProgramTest):
    def test_they_are_refused(self):
        image, graph = self.context.image_from([[7, 8]]), self.context.graph()
        things = [image, self.context.delay(image, 2), self.context.delay(image, 2)[0], graph,
                  graph.virtual_image(),
                  graph.not_(image, image), self.context.threshold(U8, above=1),
                  self.context.min_max(), self.context.distribution(2), self.context, self.server,
                  self.context.pipeline()]
        with self.context.pipeline() as ahead:
            things.append(ahead.read(image))
        for thing in things:
            for call in (copy.copy, copy.deepcopy, pickle.dumps,
                         lambda thing: copy.deepcopy([thing])):
                with self.assertRaisesRegex(TypeError,
                                            "is on its server, so it can't be copied or pickled"):
                    call(thing)
        del thing, things
        # A copy's end would have released it.
        self.holds(image, [[7, 8]])

    def test_what_may_be_copied(self):
        for thing in (vx.U8, vx.WRAP, vx.REPLICATE, vx.constant(3),
                      self.context.image(U8, 1, 1).valid):
            for again in (copy.copy(thing), copy.deepcopy(thing),
                          pickle.loads(pickle.dumps(thing))):
                self.assertEqual(again, thing)


class TestManyContexts(ProgramTest):
    def test_numbers_are_found_without_a_search(self):
        """A thousand contexts take a thousand steps, and no number is given twice."""
        contexts = [self.server.context() for _ in range(1000)]
        self.assertEqual({context.number for context in contexts}, set(range(1, 1001)))
        for context in contexts[::2]:
            context.close()
        again = [self.server.context() for _ in range(501)]
        self.assertEqual({context.number for context in again}, {1001, *range(1, 1001, 2)})
        steps = []
        taking = self.server._take_number
        sys.setprofile(lambda *event: steps.append(event[1]))
        try:
            taking()
        finally:
            sys.setprofile(None)
        self.assertLess(len(steps), 20)

    def test_numbers_of_threads(self):
        found, lock = [], threading.Lock()

        def work():
            for _ in range(50):
                with self.server.context() as context:
                    with lock:
                        self.assertNotIn(context.number, found)
                        found.append(context.number)
                    context.graph()
                    with lock:
                        found.remove(context.number)

        threads = [threading.Thread(target=work) for _ in range(4)]
        for thread in threads:
            thread.start()
        for thread in threads:
            thread.join()
        self.assertEqual(found, [])


if __name__ == "__main__":
    unittest.main()
