"""Thumbnails, with and without NumPy; ranges of parameters."""

import array
import contextlib
import ctypes
import unittest
import warnings
from unittest import mock

from program import ProgramTest, vx
from feqyldan import samples, thumbnails
from feqyldan.ranges import SHIFTS, SIDES_OF_CONVOLUTIONS
from feqyldan.samples import samples_of

numpy = samples.numpy_module()


def without_numpy():
    return mock.patch.object(thumbnails, "numpy_module", return_value=None)


@contextlib.contextmanager
def without_numpy_everywhere():
    with without_numpy(), mock.patch.object(samples, "numpy_module", return_value=None):
        yield


def view(rows, letter):
    flat = [sample for row in rows for sample in row]
    packed = memoryview(bytearray(len(flat) * {"B": 1, "h": 2, "I": 4}[letter])).cast(letter)
    packed[:] = memoryview(array.array(letter, flat))
    return packed.cast("B").cast(letter, (len(rows), len(rows[0])))


class TestThumbnails(unittest.TestCase):
    def test_memory_of_other_types(self):
        for letter in "?c":
            self.assertRaises(vx.BadPicture, vx.thumbnail,
                              memoryview(bytes(4)).cast(letter, [2, 2]))
        rows = (ctypes.c_int16 * 2 * 2)((0, 255), (255, 0))
        self.assertEqual(vx.thumbnail(memoryview(rows)).tolist(), [[0, 255], [255, 0]])

    def test_it_is_the_callers_own(self):
        picture = numpy.zeros((2, 2), numpy.uint8) if numpy else view([[0, 0], [0, 0]], "B")
        vx.thumbnail(picture)[0, 0] = 9
        self.assertEqual(picture[0, 0], 0)

    @unittest.skipUnless(numpy, "NumPy isn't installed")
    def test_means_and_marks(self):
        pixels = numpy.zeros((50, 70), numpy.uint8)
        pixels[49, 69] = pixels[11, 11] = 255
        marks = vx.thumbnail(pixels, 7, keeps_marks=True)
        self.assertEqual(marks.shape, (5, 7))
        self.assertEqual([tuple(map(int, at)) for at in zip(*marks.nonzero())], [(1, 1), (4, 6)])
        self.assertEqual(int(vx.thumbnail(pixels, 7)[1, 1]), 2)
        # Sides that aren't multiples of the step: nothing at the edge is lost.
        pixels = numpy.zeros((11, 13), numpy.uint8)
        pixels[10, 12] = 9
        self.assertEqual(vx.thumbnail(pixels, 4, keeps_marks=True).tolist(),
                         [[0, 0, 0, 0], [0, 0, 0, 0], [0, 0, 0, 9]])

    def test_a_single_mark_stays(self):
        for letter, mark in (("B", 255), ("B", 1), ("h", 32767), ("I", 2**32 - 1)):
            for width, height, x, y in ((7, 5, 6, 4), (7, 5, 1, 1), (6, 4, 3, 0), (1, 9, 0, 8)):
                rows = [[0] * width for _ in range(height)]
                rows[y][x] = mark
                for way in (contextlib.nullcontext, without_numpy):
                    with self.subTest(letter, at=(x, y), way=way), way():
                        step = 3
                        small = thumbnails.reduced(view(rows, letter), step, keeps_marks=True)
                        self.assertEqual(small.tolist(), [
                            [mark * ((column, row) == (x // step, y // step))
                             for column in range(-(-width // step))]
                            for row in range(-(-height // step))])

    @unittest.skipUnless(numpy, "NumPy isn't installed")
    def test_both_ways_keep_the_same_marks(self):
        chance = numpy.random.default_rng(1)
        for few in ([0, 9], [7, 9], [0, 1, 2], range(256)):
            pixels = chance.choice(numpy.array(few, numpy.uint8), (23, 41))
            wanted = thumbnails.reduced(pixels, 3, keeps_marks=True).tolist()
            with without_numpy():
                small = thumbnails.reduced(memoryview(pixels), 3, keeps_marks=True)
            self.assertEqual(small.tolist(), wanted)

    def test_what_is_no_picture(self):
        for picture, words in ((None, "None is no picture"), ([[1, 2], [3]], "same length"),
                               (7, "must be an array"), ("a.png", "a path is no picture"),
                               (memoryview(bytes(24)).cast("B", (2, 3, 4)), "24 bytes")):
            for way in (contextlib.nullcontext, without_numpy):
                with self.subTest(picture), way(), self.assertRaisesRegex(vx.BadPicture, words):
                    vx.thumbnail(picture)
        for side, error in ((0, ValueError), (-1, ValueError), (1.5, TypeError)):
            with self.assertRaisesRegex(error, "the side of a thumbnail must be "):
                vx.thumbnail([[1]], side)

    @unittest.skipUnless(numpy, "NumPy isn't installed")
    def test_an_array_of_another_shape(self):
        with self.assertRaisesRegex(vx.WrongPicture, "must have the shape"):
            vx.thumbnail(numpy.zeros((3, 3, 3), numpy.uint8))

    @unittest.skipUnless(numpy, "NumPy isn't installed")
    def test_arrays_of_other_types(self):
        """Also of those that NumPy can't sum, or not without a warning."""
        for dtype in ("float64", "complex64", "bool", "object", "U1", "M8[s]"):
            for side in (9, 100):
                with self.subTest(dtype, side=side), warnings.catch_warnings():
                    warnings.simplefilter("error")
                    self.assertRaisesRegex(vx.BadPicture, "samples must be uint8, ", vx.thumbnail,
                                           numpy.zeros((50, 50), dtype), side)

    def test_rows_of_numbers(self):
        for way in (contextlib.nullcontext, without_numpy_everywhere):
            with way():
                self.assertEqual(vx.thumbnail([[0, 1], [2, 9]], 1, keeps_marks=True).tolist(),
                                 [[9]])

    def test_small_pictures_stay(self):
        for rows in ([[1, 2], [3, 4]], [[0]]):
            self.assertEqual(vx.thumbnail(view(rows, "B")).tolist(), rows)
            with without_numpy():
                self.assertEqual(vx.thumbnail(view(rows, "B")).tolist(), rows)

    def test_wide_formats_are_scaled(self):
        for letter, rows in (("h", [[-100, 0], [100, 410]]), ("I", [[0, 100], [200, 510]])):
            wanted = [[0, 50], [100, 255]]
            self.assertEqual(vx.thumbnail(view(rows, letter)).tolist(), wanted)
            with without_numpy():
                self.assertEqual(vx.thumbnail(view(rows, letter)).tolist(), wanted)

    def test_the_first_sample_without_numpy(self):
        rows = [[x + 10 * y for x in range(6)] for y in range(4)]
        with without_numpy():
            self.assertEqual(vx.thumbnail(view(rows, "B"), 2).tolist(), [[0, 3], [30, 33]])

    def test_both_ways_scale_alike(self):
        rows = [[-9, 4, 70], [3, 300, -500]]
        for valid in ((0, 0, 3, 2), (1, 0, 3, 1), (0, 0, 0, 0)):
            given = samples_of(view(rows, "h"))
            by_array = thumbnails.greys(given, valid)
            with without_numpy():
                self.assertEqual(thumbnails.greys(given, valid), by_array)


class TestThumbnailsOfImages(ProgramTest):
    def test_an_image(self):
        for fmt in (vx.U8, vx.S16):
            image = self.context.image(fmt, 4, 2)
            image.write([[0, 0, 0, 0], [0, 0, 0, 255]])
            # An image is read as a memoryview without NumPy.
            for way in (contextlib.nullcontext, without_numpy_everywhere):
                with self.subTest(fmt, way=way), way():
                    self.assertEqual(vx.thumbnail(image, 2, keeps_marks=True).tolist(), [[0, 255]])


class TestRanges(ProgramTest):
    """The server accepts the ends of each range, and nothing outside it."""

    def accepts(self, is_accepted, call):
        try:
            call()
            done = True
        except (vx.Refused, ValueError):
            done = False
        self.assertEqual(done, is_accepted)

    def test_ranges(self):
        one = self.context.image(vx.U8, 1, 1)
        deep = self.context.image(vx.S16, 1, 1)
        vxu, context = self.context.vxu, self.context
        calls = {
            "image.width": lambda n: context.image(vx.U8, n, 1).close(),
            "image.height": lambda n: context.image(vx.U8, 1, n).close(),
            "delay.slots": lambda n: context.delay(one, n).close(),
            "threshold.U8": lambda n: context.threshold(vx.U8, above=n).close(),
            "threshold.S16": lambda n: context.threshold(vx.S16, above=n).close(),
            "threshold.true_value": lambda n: context.threshold(vx.U8, 1, true_value=n).close(),
            "threshold.false_value": lambda n: context.threshold(vx.U8, 1, false_value=n).close(),
            "convolution.coefficient": lambda n: context.convolution([[n] * 3] * 3).close(),
            "distribution.bins": lambda n: context.distribution(n).close(),
            "distribution.offset": lambda n: context.distribution(1, n, 1).close(),
            "distribution.range": lambda n: context.distribution(1, 0, n).close(),
            "border": lambda n: vxu.box3x3(one, one_like(one), vx.constant(n)),
            "multiply.shift": lambda n: vxu.multiply(one, one, n, vx.WRAP, deep),
            "convert_depth.shift": lambda n: vxu.convert_depth(one, deep, vx.WRAP, n),
            "accumulate_square.shift": lambda n: vxu.accumulate_square(one, n, deep)}
        self.assertEqual(set(calls), set(vx.PARAMETER_RANGES))
        self.assertEqual(set(SHIFTS), {key.partition(".")[0] for key in calls if "shift" in key})
        for name, (least, greatest) in vx.PARAMETER_RANGES.items():
            for number in (least - 1, least, greatest, greatest + 1):
                with self.subTest(name, number=number):
                    self.accepts(least <= number <= greatest, lambda: calls[name](number))

    def test_sides_of_convolutions(self):
        for side in range(1, 12):
            with self.subTest(side):
                self.accepts(side in SIDES_OF_CONVOLUTIONS,
                             lambda: self.context.convolution([[1] * side] * 3).close())


def one_like(image):
    return image.context.image_like(image)
