"""Tests that numbers that aren't whole are refused wherever a number goes into a frame."""

import array
import decimal
import fractions
import unittest

from program import SERVED, ProgramTest, vx
from feqyldan import samples

U8, S16, U32 = vx.U8, vx.S16, vx.U32
numpy = samples.numpy_module()
# Some are equal to a whole number.
NOT_WHOLE = [0.5, 2.0, "2", None, fractions.Fraction(1, 2), decimal.Decimal(2), 1j]
if numpy:
    NOT_WHOLE += [numpy.float32(0.5), numpy.float64(2), numpy.array([1, 2])]


class TestWholeNumbers(ProgramTest):
    def refuses(self, call, words):
        for wrong in NOT_WHOLE:
            with self.subTest(wrong=wrong), self.assertRaisesRegex(TypeError, words):
                call(wrong)

    def test_coefficients(self):
        words = (r"a coefficient of a convolution must be a whole number from -32768 to 32767, not "
                 r".*: multiply all coefficients by a power of 2, round them, and give that power "
                 r"as the scale")
        self.refuses(lambda wrong: self.context.convolution([[0, 0, 0], [0, wrong, 0], [0, 0, 0]]),
                     words)
        self.refuses(lambda wrong: self.context.convolution([[1] * 3] * 3, wrong),
                     "the scale of a convolution must be")
        with self.assertRaisesRegex(ValueError, "from -32768 to 32767, not 32768"):
            self.context.convolution([[32768] * 3] * 3)
        with self.assertRaisesRegex(ValueError, "a power of 2 up to 2"):
            self.context.convolution([[1] * 3] * 3, 2**300)

    @unittest.skipUnless(numpy, "NumPy isn't installed")
    def test_a_normalised_kernel(self):
        """A kernel as cv2.getGaussianKernel returns it must not become zeros, which would give a
        black picture."""
        side = numpy.array([0.25, 0.5, 0.25])
        kernel = numpy.outer(side, side)
        for wrong in (kernel, kernel.astype("float32"), (16 * kernel)):
            self.assertRaises(TypeError, self.context.convolution, wrong)
        image, out = self.context.image_from([[16 * x
                                               for x in range(6)]] * 5), self.context.image(U8, 6,
                                                                                            5)
        whole = (16 * kernel).round().astype(int)
        self.context.vxu.convolve(image, self.context.convolution(whole, scale=16), out,
                                  border=vx.REPLICATE)
        self.assertEqual(out.read().tolist(), [[4, 16, 32, 48, 64, 76]] * 5)

    def test_entries(self):
        for fmt, count in ((U8, 256), (S16, 65536)):
            self.refuses(lambda wrong: self.context.lut(fmt, [0] * (count - 1) + [wrong]),
                         "an entry of .* must be a whole number")
        if numpy:
            with self.assertRaisesRegex(TypeError,
                                        "an entry of U8 must be a whole number, not 0.0"):
                self.context.lut(U8, numpy.linspace(0, 255, 256))
            shaped = numpy.arange(255, -1, -1).reshape(1, 256)
            image, out = self.context.image_from([[1, 2]]), self.context.image(U8, 2, 1)
            self.context.vxu.table_lookup(image, self.context.lut(U8, shaped), out)
            self.holds(out, [[254, 253]])
        shaped = memoryview(bytes(range(255, -1, -1))).cast("B", (16, 16))
        image, out = self.context.image_from([[1, 2]]), self.context.image(U8, 2, 1)
        self.context.vxu.table_lookup(image, self.context.lut(U8, shaped), out)
        self.holds(out, [[254, 253]])
        kernel = self.context.convolution(memoryview(bytes(range(9))).cast("B", (3, 3)))
        self.assertEqual(kernel.coefficients, ((0, 1, 2), (3, 4, 5), (6, 7, 8)))
        with self.assertRaisesRegex(ValueError, "needs 256 entries, .*, not 3"):
            self.context.lut(U8, [1, 2, 3])
        # The keys of a dictionary aren't its entries.
        for wrong in (None, {value: 255 - value for value in range(256)}, set(range(256))):
            with self.assertRaisesRegex(TypeError, "entries of a lookup table must be .*, not "):
                self.context.lut(U8, wrong)

    def test_limits_and_values(self):
        for wanted in ({"above": 0}, {"between": (0, 9)}):
            for name in wanted:
                self.refuses(lambda wrong: self.context.threshold(
                    U8, **{name: wrong if name == "above" else (0, wrong)}),
                             "must be a whole number|either above")
            for name in ("true_value", "false_value"):
                self.refuses(lambda wrong: self.context.threshold(U8, **wanted, **{name: wrong}),
                             "must be a whole number")
        with self.assertRaises(TypeError):
            self.context.threshold(U8, between=(1, 2, 3))

    def test_numbers_of_objects(self):
        image = self.context.image(U8, 4, 4)
        self.refuses(lambda wrong: self.context.image(U8, wrong, 1),
                     "an image's width must be a whole number")
        self.refuses(lambda wrong: self.context.image(U8, 1, wrong),
                     "an image's height must be a whole number")
        self.refuses(lambda wrong: self.context.image(wrong, 1, 1),
                     "a format must be vx.U8, vx.S16 or vx.U32")
        self.refuses(lambda wrong: self.context.delay(image, wrong),
                     "a delay's slots must be a whole number")
        slots = self.context.delay(image, 3)
        self.refuses(lambda wrong: slots[wrong], "the number of a slot must be a whole number")
        for wrong in (-0.5, -1.0):
            with self.assertRaisesRegex(TypeError, f"a whole number, not {wrong}"):
                slots[wrong]
        self.refuses(lambda wrong: self.context.distribution(wrong),
                     "number of bins must be a whole number")
        self.refuses(lambda wrong: self.context.distribution(8, wrong),
                     "offset must be a whole number")
        self.refuses(lambda wrong: self.context.distribution(8, 0, wrong),
                     "range must be a whole number")
        for side in range(4):
            def set_valid(wrong):
                image.valid = [wrong if k == side else 1 for k in range(4)]
            self.refuses(set_valid, "valid rectangle must be a whole number")
        for wrong in ((0, 0, 1), (0, 0, 1, 1, 1)):
            with self.assertRaises(ValueError):
                image.valid = wrong
        graph = self.context.graph()
        for wrong in (0.5, 2.0, "2"):
            self.assertRaises(TypeError, graph.virtual_image, U8, wrong)
            self.assertRaises(TypeError, graph.virtual_image, wrong)
        self.assertRaises(ValueError, graph.virtual_image, U8, 70000, 1)

    def test_limits_of_servers(self):
        wrong = [value for value in NOT_WHOLE if value is not None]
        for name in ("quota", "work"):
            for value in (*wrong, 1e6):
                with self.subTest(name=name, value=value), self.assertRaisesRegex(
                        TypeError, f"the {name} of a server must be a whole number, not"):
                    vx.Server(SERVED, **{name: value})

    def test_shifts_and_borders(self):
        image, deep = self.context.image(U8, 2, 2), self.context.image(S16, 2, 2)
        graph = self.context.graph()
        for functions in (self.context.vxu, graph):
            self.refuses(lambda wrong: functions.multiply(image, image, wrong, vx.WRAP, deep),
                         "multiply: a shift must be")
            self.refuses(lambda wrong: functions.convert_depth(image, deep, vx.WRAP, wrong),
                         "convert_depth: a shift must be")
            self.refuses(lambda wrong: functions.add(image, image, wrong, deep),
                         "add: a policy must be vx.WRAP or")
        self.refuses(vx.constant, "a border's value must be a whole number from 0 to 255")
        for wrong in (-1, 256):
            self.assertRaises(ValueError, vx.constant, wrong)
        graph.verify()

    def test_rows(self):
        for fmt in (U8, S16, U32):
            image = self.context.image_from([[7, 7, 7]], fmt)
            self.refuses(lambda wrong: image.write([[1, wrong, 3]]),
                         "a sample of .* must be a whole number|length")
            self.refuses(lambda wrong: self.context.image_from([[1, wrong, 3]], fmt),
                         "a sample of .* must be a whole number")
            self.holds(image, [[7, 7, 7]])

    @unittest.skipUnless(numpy, "NumPy isn't installed")
    def test_arrays(self):
        image = self.context.image(U8, 3, 2)
        for dtype in ("float16", "float32", "float64"):
            for call in (image.write, self.context.image_from):
                with self.assertRaisesRegex(TypeError,
                                            rf"uint8, int16 or uint32, not {dtype}: scale, "
                                            "round and clip them"):
                    call(numpy.full((2, 3), 0.5, dtype))
        for dtype in ("int8", "uint16", "int32", "int64", "bool", "complex64", "object"):
            self.assertRaises(TypeError, image.write, numpy.zeros((2, 3), dtype))
        with self.assertRaisesRegex(ValueError,
                                    r"not \(2, 3, 3\): make a grey one of it, as by "
                                    r"cv2.cvtColor"):
            image.write(numpy.zeros((2, 3, 3), "uint8"))
        with self.assertRaisesRegex(TypeError,
                                    "these samples are U8, not S16: .* the format vx.U8"):
            self.context.image_from(numpy.zeros((2, 3), "uint8"), S16)

    def test_buffers(self):
        wide = self.context.image(U8, 24, 1)
        for letter in "fd":
            self.assertRaises((TypeError, ValueError), wide.write, array.array(letter, [0.5] * 6))
            self.assertRaises((TypeError, ValueError), wide.write, array.array(letter, [0.5] * 3))
        self.holds(wide, [[0] * 24])

    def test_truths(self):
        """True at the place of a number is an argument at a wrong place, not a 1."""
        context, vxu = self.context, self.context.vxu
        image, deep = context.image(U8, 2, 2), context.image(S16, 2, 2)
        slots = context.delay(image, 2)
        for wrong in [True, False] + ([numpy.bool_(True)] if numpy else []):
            for call in (lambda: vxu.multiply(image, image, wrong, vx.WRAP, deep),
                         lambda: vxu.convert_depth(image, deep, vx.WRAP, wrong),
                         lambda: vxu.accumulate_square(image, wrong, deep),
                         lambda: vx.constant(wrong), lambda: context.image(wrong, 1, 1),
                         lambda: context.image(U8, 1, wrong), lambda: context.delay(image, wrong),
                         lambda: context.threshold(U8, above=wrong), lambda: slots[wrong],
                         lambda: context.distribution(8, wrong),
                         lambda: context.convolution([[wrong] * 3] * 3),
                         lambda: setattr(image, "valid", (0, 0, 1, wrong)),
                         lambda: vx.Server(SERVED, quota=wrong)):
                self.assertRaisesRegex(TypeError, f"not {wrong!r}", call)
        self.assertEqual(image.valid, (0, 0, 2, 2))

    def test_what_is_whole(self):
        class Three:
            def __index__(self):
                return 3

        self.assertEqual(self.context.image(U8, Three(), 1).shape, (1, 3))
        if numpy:
            self.assertEqual(self.context.image(U8, numpy.int64(3), numpy.uint8(2)).shape, (2, 3))

    def test_a_frame_that_would_be_too_long(self):
        """A server that reads such a length ends, for all of its clients."""
        image = self.context.image(U8, 1, 1)
        with self.assertRaisesRegex(ValueError, "the request has 536,[0-9,]+ bytes, and at most "
                                                "536,870,912 are allowed"):
            image.write_pgm(bytes(2**29))
        if numpy:
            with self.assertRaisesRegex(ValueError, "and at most 536,870,912 are allowed"):
                image.write(numpy.zeros((24000, 22500), "uint8"))
        self.holds(image, [[0]])


if __name__ == "__main__":
    unittest.main()
