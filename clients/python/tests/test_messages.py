"""Messages for values that aren't pictures, for formats, and for arguments that a call doesn't
take."""

import array
import os
import pathlib
import re
import unittest
import unittest.mock
import warnings

from documents import ROOT
from program import ProgramTest, vx
from feqyldan import hints, samples, verdicts
from feqyldan.functions import FUNCTIONS

numpy = samples.numpy_module()
needs_numpy = unittest.skipUnless(numpy, "NumPy isn't installed")


class TestPictures(ProgramTest):
    def setUp(self):
        super().setUp()
        self.image = self.context.image(vx.U8, 4, 3)

    def says(self, given, words, kind=vx.BadPicture):
        for call in (self.image.write, self.context.image_from):
            with self.subTest(words), self.assertRaisesRegex(kind, words):
                call(given)

    def test_rows_in_memory_where_a_list_is_expected(self):
        rows, graph = memoryview(bytes(64)).cast("B", (8, 8)), self.context.graph()
        graph.not_(self.image, self.context.image(vx.U8, 4, 3))
        for kind, call in (
                (ValueError, lambda: setattr(self.image, "valid", rows)),
                (TypeError, lambda: graph.save("a.json", rows)),
                (TypeError, lambda: graph.stream([], self.image, rows)),
                (TypeError, lambda: vx.stream([], rows)),
                (TypeError, lambda: self.context.threshold(vx.U8, between=rows))):
            self.assertRaises(kind, call)

    def test_what_is_no_picture(self):
        self.says(None, r"None is no picture: cv2.imread\(\) returns it if it can't read a file",
                  TypeError)
        for path in ("part.png", pathlib.Path("part.png")):
            self.says(path, r"a path is no picture, and this is 'part.png': context.load\(path\)",
                      TypeError)
        self.says(7, "rows of numbers, not int", TypeError)
        self.says([[1, 2], [3, 256]], "from 0 to 255, not 256; it is in row 1, column 1",
                  ValueError)
        self.says([[1, 2, -1]], "not -1; it is in row 0, column 2", ValueError)
        self.says([[1, 1.5]], "a whole number, not 1.5: scale and round it first", TypeError)
        self.says([[1], [2, 3]], "rows of the same length, .*, not rows of 1 and 2", ValueError)
        self.says(memoryview(array.array("f", [1] * 12)).cast("B").cast("f", [3, 4]),
                  "samples .* the type 'B'.*, not 'f'", TypeError)

    @needs_numpy
    def test_arrays_of_other_types(self):
        zeros = numpy.zeros((3, 4), numpy.uint8)
        for dtype, words in (
                ("uint16", r"are array.astype\(numpy.int16\); of 16 bits \(array >> 1\).astype"),
                ("bool", r"a mask of 0 and 255 is mask.astype\(numpy.uint8\) \* 255"),
                ("float32", r"clip\(\(255 \* array\).round\(\), 0, 255\).astype\(numpy.uint8\)"),
                ("int32", r"numpy.clip\(array, 0, 255\).astype\(numpy.uint8\)"),
                ("int64", r"astype\(\) alone would wrap"), ("complex64", "array of whole numbers")):
            self.says(zeros.astype(dtype), f"uint8, int16 or uint32, not {dtype}: .*{words}",
                      TypeError)
        self.says(numpy.zeros((3, 4, 3), numpy.uint8), r"\(3, 4, 3\): make a grey one", ValueError)
        for empty in (zeros[9:], memoryview(zeros[9:])):
            self.says(empty, r"\(0, 4\): it is empty, as a slice outside of an array is",
                      vx.WrongPicture)
        self.says(zeros[None], r"\(1, 3, 4\): that is a batch of one picture, which is array\[0\]",
                  ValueError)
        self.says(numpy.ma.masked_less(zeros, 1), "a picture has no mask", ValueError)

    @needs_numpy
    def test_the_recipes_are_right(self):
        """Following the messages' advice gives the intended samples."""
        mono12 = numpy.array([[0, 4095]], numpy.uint16)
        self.holds(self.context.image_from(mono12.astype(numpy.int16)), [[0, 4095]])
        mono16 = numpy.array([[0, 40000, 65535]], numpy.uint16)
        self.holds(self.context.image_from((mono16 >> 1).astype(numpy.int16)), [[0, 20000, 32767]])
        self.holds(self.context.image_from((mono16 >> 8).astype(numpy.uint8)), [[0, 156, 255]])
        mask = numpy.array([[True, False]])
        self.holds(self.context.image_from(mask.astype(numpy.uint8) * 255), [[255, 0]])

    def test_one_class_for_a_wrong_frame(self):
        """The class of the exception is the same, whatever is wrong with the frame and whoever
        finds it."""
        wrong = [[[1, 2]], b"123", None, "part.png", [[1.0] * 4] * 3,
                 array.array("h", range(12)), memoryview(bytes(24)).cast("h", [3, 4])]
        if numpy:
            wrong += [numpy.zeros((3, 4), name) for name in ("int16", "float64", "uint16")]
            wrong += [numpy.zeros((4, 3), "uint8"), numpy.zeros((3, 4, 3), "uint8")]
        for given in wrong:
            with self.subTest(type(given)):
                self.assertRaises(vx.BadPicture, self.image.write, given)
        for text in (b"P5 1 1 255\n1", b"P6", b"", b"P2 4 3 1 " + b"2 " * 12):
            self.assertRaises(vx.BadPicture, self.image.write_pgm, text)
        self.holds(self.image, [[0] * 4] * 3)

    def test_sizes_in_the_order_of_shapes(self):
        with self.assertRaisesRegex(vx.InvalidDimension,
                                    r"The samples have the shape \(4, 3\), and the image \(3, 4\)"):
            self.image.write([[1] * 3] * 4)

    @needs_numpy
    def test_pictures_that_stand_by_columns(self):
        rows = numpy.arange(300 * 500).reshape(300, 500) % 251
        for dtype in ("uint8", "int16", "uint32"):
            pixels = rows.astype(dtype)
            for given in (numpy.asfortranarray(pixels), numpy.asfortranarray(pixels)[::-1, ::-2],
                          pixels.T, pixels.astype(pixels.dtype.newbyteorder(">")).T):
                self.assertTrue((self.context.image_from(given).read() == given).all())

    def test_what_is_no_text(self):
        for wrong in (pathlib.Path("a.pgm"), "P5 1 1 255 a", None):
            with self.assertRaisesRegex(vx.NotAPicture, "must be bytes, .*load.path. reads a file"):
                self.context.image_from_pgm(wrong)

    def test_texts(self):
        for begin, words in ((b"\xff\xd8\xff", "a JPEG, which context.load"),
                             (b"\x89PNG\r\n", "a PNG"), (b"P6 1 1", "a colour picture, PPM"),
                             (b"", "there are no bytes"), (b"abcd", "they begin with 61 62 63 64")):
            with self.assertRaisesRegex(vx.BadPicture, words):
                self.context.image_from_pgm(begin)


class TestCalls(ProgramTest):
    def test_formats_of_each_function(self):
        self.assertEqual(set(verdicts.TAKEN), set(FUNCTIONS))
        for function, words in (("max", "U8 and U8 to U8; S16 and S16 to S16"),
                                ("not_", "U8 to U8"), ("histogram", "U8"),
                                ("convolve", "U8 to U8; U8 to S16"),
                                ("threshold", "U8 or S16 to U8; the threshold has the input's "
                                              "format"),
                                ("add", "U8 and U8 to U8; each U8 or S16, to S16")):
            self.assertEqual(verdicts.formats_in_words(function), words)

    def test_immediate_mode_says_what_it_takes(self):
        deep = self.context.image(vx.S16, 4, 3)
        with self.assertRaisesRegex(vx.InvalidFormat, "median3x3 takes U8 to U8; .*The function"):
            self.context.vxu.median3x3(deep, self.context.image_like(deep))

    def test_wide_samples_for_a_filter(self):
        """In both modes. Functions that take S16 don't say so."""
        wide, out = self.context.image(vx.S16, 2, 2), self.context.image(vx.U8, 2, 2)
        graph, words = self.context.graph(), r"convert_depth\(.* makes U8 of an S16 image"
        graph.gaussian3x3(wide, out)
        for call in (lambda: self.context.vxu.gaussian3x3(wide, out), graph.verify,
                     lambda: self.context.vxu.histogram(wide, self.context.distribution(2))):
            self.assertRaisesRegex(vx.InvalidFormat, words, call)
        with self.assertRaisesRegex(vx.InvalidFormat, "absdiff takes (?!.*convert_depth)"):
            self.context.vxu.absdiff(wide, wide, out)

    def test_open_outputs_of_a_wrong_input(self):
        """What they would be isn't at fault."""
        graph = self.context.graph()
        graph.sobel3x3(self.context.image(vx.S16, 2, 2), graph.virtual_image(),
                       graph.virtual_image())
        with self.assertRaises(vx.InvalidFormat) as caught:
            graph.verify()
        self.assertIn("sobel3x3 takes U8 to S16; convert_depth(image, out, vx.SATURATE, shift) "
                      "makes U8 of an S16 image.", caught.exception.fault)
        self.assertNotIn("because node", caught.exception.fault)
        self.assertEqual(caught.exception.operand, "input")

    def test_an_open_image_that_became_s16(self):
        one, out = self.context.image(vx.U8, 4, 3), self.context.image(vx.U8, 4, 3)
        graph = self.context.graph()
        difference, most = graph.virtual_image(name="difference"), graph.virtual_image()
        graph.subtract(one, one, vx.SATURATE, difference)
        graph.max(difference, one, most)
        graph.not_(most, out)
        with self.assertRaisesRegex(
                vx.InvalidFormat,
                r"Node 2, max\(.*\): max takes U8 and U8 to U8; S16 and S16 to S16. Virtual "
                r'image 4 "difference" \(open\) is S16, 4 by 3, because node 1, subtract, writes '
                r"it and its format is open; graph.virtual_image\(vx.U8\) has one. "):
            graph.verify()

    def test_a_threshold_of_another_format(self):
        """The advice can be followed: U8 can't be written by absdiff of S16."""
        byte, wide = self.context.image(vx.U8, 4, 3), self.context.image(vx.S16, 4, 3)
        graph, limit = self.context.graph(), self.context.threshold(vx.U8, above=9)
        far = graph.virtual_image(name="far")
        graph.absdiff(wide, wide, far)
        node = graph.threshold(far, limit, byte)
        with self.assertRaisesRegex(
                vx.InvalidFormat,
                r"; the threshold has the input's format; context.threshold\(vx.S16, ..\) makes "
                r'one for this input. Virtual image 5 "far" \(open\) is S16, 4 by 3, because node '
                "1, absdiff, writes it and its format is open. The function"):
            graph.verify()
        node.remove()
        graph.threshold(far, self.context.threshold(vx.S16, above=9), byte)
        graph.verify()
        graph = self.context.graph()
        less = graph.virtual_image()
        graph.subtract(byte, byte, vx.WRAP, less)
        graph.table_lookup(less, self.context.lut(vx.U8, range(256)), self.context.image_like(byte))
        with self.assertRaisesRegex(vx.InvalidFormat, r"context.lut\(vx.S16, ..\) makes one for "
                                    r"this input. .*; graph.virtual_image\(vx.U8\) has one"):
            graph.verify()
        with self.assertRaisesRegex(vx.InvalidFormat, r"context.threshold\(vx.S16, ..\) makes one"):
            self.context.vxu.threshold(wide, limit, byte)

    def test_policies_and_shifts(self):
        """Policies and shifts aren't mistaken for each other; an argument that isn't a policy is
        reported with its position."""
        byte, wide = self.context.image(vx.U8, 4, 3), self.context.image(vx.S16, 4, 3)
        order = r"convert_depth\(input, output, policy, shift\)"
        for functions in (self.context.vxu, self.context.graph()):
            for call, kind, words in (
                    (lambda: functions.convert_depth(wide, byte, 0, vx.SATURATE),
                     vx.InvalidParameters, "convert_depth: INVALID_PARAMETERS. A policy must be "
                     f"vx.WRAP or vx.SATURATE, not 0; it is argument 3 of {order}"),
                    (lambda: functions.convert_depth(wide, byte, vx.WRAP, vx.SATURATE), TypeError,
                     "a shift must be a whole number, not the policy vx.SATURATE; it is argument 4 "
                     f"of {order}"),
                    (lambda: functions.multiply(byte, byte, vx.SATURATE, 0, byte),
                     vx.InvalidParameters, r"not 0; it is argument 4 of multiply\(in1, in2, "
                                           r"shift, policy, output\)"),
                    (lambda: functions.add(byte, byte, True, wide), vx.InvalidParameters, "True"),
                    (lambda: functions.subtract(byte, byte, "WRAP", wide), TypeError,
                     r"not 'WRAP'; it is argument 3 of subtract\(in1, in2, policy, output\)"),
                    (lambda: functions.subtract(byte, byte, wide), TypeError,
                     "missing 1 required positional argument: 'output'; none of them is a policy, "
                     r"vx.WRAP or vx.SATURATE. Call it as subtract\(in1, in2, policy, output\)$"),
                    (lambda: functions.add(byte, byte, vx.WRAP), TypeError,
                     r"missing 1 .*: 'output'. Call it as add\(in1, in2, policy, output\)$"),
                    (lambda: functions.multiply(byte, byte, 16, vx.WRAP, wide), vx.InvalidValue,
                     "Its shift is 16. A shift is out of range"),
                    (lambda: functions.box3x3(byte, byte, vx.Border(9)), vx.InvalidParameters,
                     r"Its border is Border\(mode=9, value=0\). A border must be")):
                with self.subTest(words), self.assertRaisesRegex(kind, words):
                    call()
        wide.fill(300)
        self.context.vxu.convert_depth(wide, byte, vx.wire.SATURATE, 0)
        self.assertEqual(byte.read()[0, 0], 255)

    def test_a_delay_like_something_else(self):
        with self.assertRaisesRegex(TypeError, "delay takes an image, .* not MinMax"):
            self.context.delay(self.context.min_max(), 2)

    def test_both_kinds_of_a_threshold(self):
        for limits, words in (({}, "neither was given"),
                              ({"above": 1, "between": (1, 2)}, "both were given")):
            self.assertRaisesRegex(TypeError, words, self.context.threshold, vx.U8, **limits)

    def test_valid_rectangles(self):
        image = self.context.image(vx.U8, 3, 2)
        for wrong in (None, 3, (1, 2, 3), (1, 2, 3, 4, 5), "ab"):
            with self.assertRaisesRegex(ValueError, r"must be \(x0, y0, x1, y1\), not .* "
                                                    r"\(0, 0, 3, 2\) is all of it"):
                image.valid = wrong
        image.valid = iter((0, 0, 2, 1))
        self.assertEqual(image.valid, (0, 0, 2, 1))

    def test_one_class_for_a_wrong_size(self):
        """Whether the server refuses the number or a frame can't express it."""
        graph = self.context.graph()
        for make in (lambda side: self.context.image(vx.U8, side, 1),
                     lambda side: self.context.image(vx.U8, 1, side),
                     lambda side: graph.virtual_image(vx.U8, side)):
            for side in (-1, 8193, 70000):
                with self.assertRaisesRegex(vx.InvalidDimension, "8192") as caught:
                    make(side)
                self.assertIsInstance(caught.exception, ValueError)
        for slots in (-1, 17, 300):
            self.assertRaises(ValueError, self.context.delay, self.context.image(vx.U8, 1, 1),
                              slots)

    def test_none(self):
        out = self.context.image(vx.U8, 4, 3)
        for call, words in ((lambda f: f.not_(None, out), "not_: .*Its input is None."),
                            (lambda f: f.min(out, None, out), "min: .*Its second input is None."),
                            (lambda f: f.threshold(out, None, out), "Its threshold is None."),
                            (lambda f: f.not_(out, None),
                             "not_: .*Its output is None: give an object"),
                            (lambda f: f.sobel3x3(out, None, None),
                             "sobel3x3: .*Its output is None")):
            for functions in (self.context.vxu, self.context.graph()):
                with self.assertRaisesRegex(vx.InvalidParameters, words):
                    call(functions)

    def test_closed(self):
        image = self.context.image(vx.U8, 4, 3)
        image.close()
        for call in (image.read, image.query, lambda: self.context.vxu.not_(image, image)):
            with self.assertRaises(vx.Closed) as caught:
                call()
            self.assertIsInstance(caught.exception, vx.InvalidReference)

    def test_virtual_images_have_no_samples(self):
        virtual = self.context.graph().virtual_image(vx.U8, 4, 3)
        calls = [virtual.read, lambda: virtual.write([[1]]), lambda: vx.png(virtual),
                 lambda: self.context.image_from(virtual)]
        if numpy:
            calls.append(lambda: numpy.asarray(virtual))
        for call in calls:
            with self.assertRaisesRegex(vx.OptimizedAway, r"virtual image 2 \(U8, 4 by 3\)"):
                call()
        with self.context.pipeline() as ahead:
            self.assertRaises(vx.OptimizedAway, ahead.read, virtual)
        with self.assertRaisesRegex(TypeError, "image_like takes an image"):
            self.context.image_like(virtual)

    def test_without_numpy(self):
        with unittest.mock.patch.object(samples, "numpy_module", return_value=None):
            with self.assertRaisesRegex(ImportError, "as an array needs NumPy"):
                self.context.image(vx.U8, 1, 1).__array__()

    def test_a_node_that_overwrites_what_an_earlier_one_reads(self):
        part, mean = self.context.image(vx.U8, 4, 3), self.context.image(vx.U8, 4, 3)
        sums, zero = self.context.image(vx.S16, 4, 3), self.context.image(vx.S16, 4, 3)
        part.fill(64)
        for _ in range(2):
            self.context.vxu.accumulate(part, sums)
        graph = self.context.graph()
        graph.convert_depth(sums, mean, vx.SATURATE, 1)
        graph.subtract(zero, zero, vx.WRAP, sums)
        with self.assertWarnsRegex(vx.OrderWarning, r"node 1, convert_depth\(.*\), reads image 3 "
                                   r".*, which node 2, subtract\(.*\), writes. The node that "
                                   "writes runs first") as caught:
            graph.verify()
        self.assertEqual(caught.filename, __file__)
        with warnings.catch_warnings():
            warnings.simplefilter("error")
            graph.verify(warn=False)
            graph.process()
            # As OpenVX has it: the sums are 0 before their mean is taken.
            self.assertEqual(mean.read()[0, 0], 0)
            # Neither an order that needs no second thought, nor a virtual image warns.
            graph = self.context.graph()
            late = graph.virtual_image(vx.U8)
            graph.not_(late, mean)
            graph.not_(part, late)
            graph.verify()


class TestCompletion(ProgramTest):
    def test_names_of_the_inside_begin_with_a_line(self):
        image, graph = self.context.image_from([[1]]), self.context.graph()
        public = {
            self.context: "closed close convolution delay distribution graph graph_faults image "
                          "image_from image_from_pgm image_like load load_graph lut min_max number "
                          "pipeline read_pgm run server threshold usage vxu",
            self.server: "close closed context quota work",
            image: "close closed context copy dtype fill fmt height label name ndim query read "
                   "read_bytes read_pgm save shape size valid width write write_pgm",
            self.context.delay(image, 2)[0]: "context copy delay dtype fill fmt height ndim number "
                                             "query read read_bytes read_pgm save shape size valid "
                                             "width write write_pgm",
            graph.virtual_image(): "close closed context fmt height label name query read width "
                                   "write",
            self.context.pipeline(): "query read read_pgm refusals wait",
            self.context.vxu: " ".join(FUNCTIONS),
            graph: " ".join(FUNCTIONS) + " close closed context label name nodes process profile "
                   "register_auto_aging save stream to_dot verify virtual_image watch"}
        for thing, names in public.items():
            # Completion by the class shows the same names as completion by dir().
            for found in (dir(thing), dir(type(thing))):
                self.assertEqual({name for name in found if name[:1] != "_"}, set(names.split()),
                                 type(thing))
        with self.context.pipeline() as ahead:
            result = ahead.read(image)
        self.assertEqual([name for name in dir(type(result)) if name[:1] != "_"],
                         ["is_there", "raw", "value"])


class TestNames(ProgramTest):
    """Names of other libraries and misspelled names: the hint is in the error's text."""

    def hints(self, thing, name, words):
        with self.subTest(name), self.assertRaises(AttributeError) as caught:
            getattr(thing, name)
        self.assertEqual(str(caught.exception),
                         f"{type(thing).__name__!r} object has no attribute {name!r}{words}")
        self.assertFalse(hasattr(thing, name))

    def test_of_functions(self):
        graph, vxu = self.context.graph(), self.context.vxu
        for thing in (graph, vxu):
            for name, ours in (("medianBlur", "median3x3"), ("GaussianBlur", "gaussian3x3"),
                               ("vxuAbsDiff", "absdiff"), ("vxMinMaxLocNode", "min_max_loc"),
                               ("Convolve", "convolve"), ("inRange", "threshold")):
                self.hints(thing, name, f": here it is {ours}")
            for name, ours in (("medain3x3", "median3x3"), ("gaussian", "gaussian3x3"),
                               ("AbsDif", "absdiff")):
                self.hints(thing, name, f": did you mean {ours!r}?")
            for name in ("qqqq", "_repr_json_", "_medianBlur", "__array_interface__"):
                self.hints(thing, name, "")
        self.hints(graph, "run", ": here it is process()")
        self.hints(graph, "proces", ": did you mean 'process'?")
        for name, ours in (("absdiff", "vxu.absdiff"), ("medianBlur", "vxu.median3x3"),
                           ("imread", "load(path)")):
            self.hints(self.context, name, f": here it is {ours}")
        self.hints(self.context, "imge", ": did you mean 'image'?")

    def test_those_of_the_manual(self):
        with open(os.path.join(ROOT, "docs", "from_opencv.md"), encoding="utf-8") as file:
            rows = re.findall(r"^\| `vxu.*?\| (.*?) \| `f\.(.*) \|$", file.read(), re.M)
        names = {name for row, _ in rows for name in re.findall(r"`(?:Mat::)?(\w+)", row)}
        names -= {*FUNCTIONS, "THRESH_BINARY"}
        self.assertGreater(len(names), 12)
        self.assertLessEqual(names, set(hints.OTHERS))
        self.assertLessEqual(set(hints.OTHERS.values()), set(FUNCTIONS))

    def test_an_error_within_a_property_is_not_hidden(self):
        with unittest.mock.patch.object(vx.Graph, "nodes", property(lambda graph: graph.label.x)):
            with self.assertRaisesRegex(AttributeError, "'str' object has no attribute 'x'"):
                self.context.graph().nodes


if __name__ == "__main__":
    unittest.main()
