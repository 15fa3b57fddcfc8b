"""
The tests of the reader of graph files: it builds what the Python package builds of the same files,
and finds the same faults in the same places. Needs json-glib and NumPy.
"""

import os
import re
import subprocess
import sys
import unittest
from unittest import mock

sys.dont_write_bytecode = True
HERE = os.path.dirname(os.path.abspath(__file__))
sys.path[:0] = [HERE, os.path.join(HERE, "../../python/tests")]
import run  # noqa: E402
import test_graph_files  # noqa: E402
from program import ProgramTest, needs_program, vx  # noqa: E402
from feqyldan import graph_files  # noqa: E402
from feqyldan.functions import FUNCTIONS  # noqa: E402

try:
    import numpy
except ImportError:
    numpy = None

SOURCES = os.path.join(HERE, "../graph_files")
TYPES = {vx.U8: "uint8", vx.S16: "int16", vx.U32: "uint32"}
PLACE = re.compile(r'(.*?\.json: )(object "[^"]*": |node \d+: )?')
ORIGINAL = vx.Context.load_graph
RUNS = 3
program = ""


def flags_of(package):
    """The flags for compiling and linking with a package; None where it isn't installed."""
    try:
        run = subprocess.run(["pkg-config", "--cflags", "--libs", package], check=False,
                             stdout=subprocess.PIPE, text=True)
    except FileNotFoundError:
        return None
    return run.stdout.split() if run.returncode == 0 else None


def setUpModule():
    global program
    flags = flags_of("json-glib-1.0")
    if flags is None or numpy is None:
        raise unittest.SkipTest("json-glib's headers or NumPy aren't installed")
    run.setUpModule()
    program = os.path.join(run.folder, "graph_files")
    sources = [os.path.join(SOURCES, name) for name in sorted(os.listdir(SOURCES))
               if name.endswith(".c")]
    run.cc(run.MEMORY, os.path.join(HERE, "graph_files.c"), *sources, run.library(run.MEMORY),
           *flags, "-o", program)


def tearDownModule():
    run.tearDownModule()


def frames_of(fmt, width, height):
    chance = numpy.random.default_rng(width * 1000 + height)
    info = numpy.iinfo(TYPES[fmt])
    return [chance.integers(info.min, info.max, (height, width), TYPES[fmt], endpoint=True)
            for _ in range(RUNS)]


def line_of(name, value):
    """An output as the C program prints it."""
    if hasattr(value, "min_at"):
        low, high, lows, highs, first, last = value
        numbers = [low, high, lows, highs, *first, *last]
    else:
        numbers = numpy.asarray(value).ravel().tolist()
    return " ".join(map(str, [name, *numbers]))


def lines_in_python(path, runs):
    """The outputs of each run by the Python package, and the pictures of all runs."""
    lines, pictures = [], b""
    with vx.Server() as server, server.context() as context:
        loaded = ORIGINAL(context, path)
        frames = {name: frames_of(image.fmt, image.width, image.height)
                  for name, image in loaded.inputs.items()}
        for number in range(runs):
            for name, image in loaded.inputs.items():
                image.write(frames[name][number])
                pictures += frames[name][number].tobytes()
            loaded.graph.process()
            lines += [line_of(name, thing.read()) for name, thing in loaded.outputs.items()]
    return lines, pictures


def lines_in_c(path, runs=0, pictures=b"", size=(0, 0)):
    words = [program, path, *map(str, size), str(runs)]
    # GLib then ends the program at a wrong call of its own.
    strict = {**os.environ, "G_DEBUG": "fatal-criticals"}
    ended = subprocess.run(words, input=pictures, timeout=run.PATIENCE, check=False, env=strict,
                           stdout=subprocess.PIPE, stderr=subprocess.PIPE)
    assert ended.returncode == 0, ended.stderr.decode()
    return ended.stdout.decode().splitlines()


def compared_load(context, path):
    """Context.load_graph, after the C program has read the same file: with the same outputs, or a
    fault in the same place."""
    try:
        loaded = ORIGINAL(context, path)
    except vx.GraphFileError as error:
        fault, = lines_in_c(path)
        assert PLACE.match(str(error))[0] == PLACE.match(fault)[0], f"{fault}\n{error}"
        raise
    runs = RUNS if loaded.outputs else 0
    lines, pictures = lines_in_python(path, runs)
    assert lines_in_c(path, runs, pictures) == lines
    return loaded


@needs_program
class SameFiles(test_graph_files.TestFiles):
    """The Python package's own tests of files, with each file also read in C."""

    def setUp(self):
        super().setUp()
        patch = mock.patch.object(vx.Context, "load_graph", compared_load)
        patch.start()
        self.addCleanup(patch.stop)

    def test_brackets_that_are_nested_too_deeply_for_the_parser(self):
        """The parser would take comments and other quotes, in which brackets could hide."""
        for text in ("[" * 100_000, '{"feqyldan": ' * 100_000, '/* " */' + "[" * 100_000,
                     '# "\n' + "[" * 100_000, "['\"'," + "[" * 100_000,
                     '["\\"",' + "[" * 100_000):
            path = self.put("a.json", text)
            with self.subTest(text[:20]):
                self.assertRaises(vx.GraphFileError, self.context.load_graph, path)

    def test_a_file_that_is_too_large_to_be_read(self):
        path = self.put("a.json", "")
        os.truncate(path, 2**27 + 1)
        self.assertRegex(lines_in_c(path)[0], "has 134217729 bytes, and at most 134217728 are read")


FORMATS = {**dict.fromkeys(("add", "subtract", "multiply", "convert_depth", "convolve",
                            "accumulate", "accumulate_square", "sobel3x3"), vx.S16),
           "integral_image": vx.U32}


def graph_of(context, function, width, height):
    """A graph of one node, and its input."""
    camera = context.image(vx.U8, width, height, name="camera")
    other = context.image(vx.U8, width, height, name="other")
    other.fill(77)
    fmt = FORMATS.get(function, vx.U8)
    output, across, down = (context.image(fmt, width, height, name=name)
                            for name in ("output", "across", "down"))
    arguments = {
        "input": camera, "in1": camera, "in2": other, "output": output, "accum": output,
        "output_x": across, "output_y": down, "policy": vx.SATURATE, "shift": 3,
        "border": vx.constant(7), "threshold": context.threshold(vx.U8, between=(90, 180)),
        "lut": context.lut(vx.U8, [(7 * entry + 3) % 256 for entry in range(256)]),
        "convolution": context.convolution([[1, 2, 3], [-4, 5, -6], [0, 8, 1]], scale=4),
        "distribution": context.distribution(10, 20, 200, name="counts"),
        "extremes": context.min_max(name="found")}
    graph = context.graph()
    getattr(graph, function)(*[arguments[name] for name in graph_files.parameters_of(function)])
    return graph, camera


class EachFunction(test_graph_files.FolderTest, ProgramTest):

    def test_each_function_in_each_size(self):
        """At the file's size, and at another one."""
        for function in FUNCTIONS:
            with self.subTest(function):
                for name, (width, height) in (("a.json", (16, 12)), ("b.json", (33, 7))):
                    with self.server.context() as context:
                        graph, camera = graph_of(context, function, width, height)
                        graph.save(self.path(name), inputs=[camera])
                for name, size in (("a.json", (0, 0)), ("a.json", (33, 7))):
                    lines, pictures = lines_in_python(
                        self.path("b.json" if any(size) else name), RUNS)
                    self.assertEqual(lines_in_c(self.path(name), RUNS, pictures, size), lines)

    def test_content_ties_a_graph_to_its_size(self):
        image = {"kind": "image", "format": "U8", "width": 2, "height": 1}
        nodes = [{"function": "and_", "in1": "camera", "in2": "mask", "output": "out"}]
        vx.write_pgm(self.path("mask.pgm"), [[9, 8]])
        for mask, words in (({"samples": "eJxjYAAAAAIAAQ=="}, "samples"),
                            ({"valid": [0, 0, 1, 1]}, "valid"), ({"file": "mask.pgm"}, "file")):
            whole = {**image, **mask} if "file" not in mask else {"kind": "image", **mask}
            path = self.put("a.json", {"feqyldan": 1, "nodes": nodes, "objects": {
                "camera": {**image, "input": True}, "mask": whole, "out": image}})
            self.assertEqual(lines_in_c(path), [])
            self.assertEqual(lines_in_c(path, size=(3, 1)), [
                f'{path}: object "mask": its "{words}" is for 2 by 1, and the pictures are 3 by 1: '
                'give it a "fill", or pictures of its size'])

    def test_other_images_keep_their_size(self):
        image = {"kind": "image", "format": "U8", "width": 2, "height": 1}
        small = {**image, "width": 1, "samples": "eJxjAAAAAQAB"}
        path = self.put("a.json", {
            "feqyldan": 1, "objects": {"camera": {**image, "input": True}, "out": image,
                                       "small": small, "dot": {**image, "width": 1}},
            "nodes": [{"function": "not_", "input": "camera", "output": "out"},
                      {"function": "not_", "input": "small", "output": "dot"}]})
        self.assertEqual(lines_in_c(path, 1, b"\1\2\3", (3, 1)), ["out 254 253 252", "dot 255"])

    def test_pictures_that_are_no_pgm(self):
        image = {"kind": "image", "file": "a.png"}
        path = self.put("a.json", {"feqyldan": 1, "objects": {"a": image}, "nodes": []})
        vx.write_png(self.path("a.png"), [[9, 8]])
        self.assertEqual(lines_in_c(path), [
            f'{path}: object "a": a.png isn\'t a whole PGM file (P5): convert it to PGM, or save '
            "the graph from Python, which stores the samples in its file"])
        for text in (b"P5 3 1 255\n12", b"P5 3 1", b"", b"P5 9000 1 255\n", b"P5 1 1 70000\n00",
                     b"P53 1 255\n123", b"P5 3 1 255", b"P5 8192 8192 255", b"P5 3 1 255\n1234",
                     b"P5 8192 8192 255\n", b"P5 3 1 255#123", b"P5 -3 1 255\n123",
                     b"P5 3 1 0\n000"):
            with open(self.path("a.png"), "wb") as file:
                file.write(text)
            with self.subTest(text):
                self.assertIn("isn't a whole PGM file", lines_in_c(path)[0])
        for text, greatest in ((b"P5 2 1 300\n\1\x2c\1\x2d", 300),
                               (b"P5 1 1 40000\n\x80\0", 32767)):
            with open(self.path("a.png"), "wb") as file:
                file.write(text)
            with self.subTest(text):
                self.assertIn(f"a.png has a sample above {greatest}", lines_in_c(path)[0])

    def test_what_a_pgm_may_be(self):
        for text, fmt in ((b"P5\n# made by hand\n2 1\n255\n#\n", "U8"),
                          (b"P5#1\r#2\n 2 #4\n1\t255\r\0\1", "U8"), (b"P5 02 1 0255 12", "U8"),
                          (b"P5 2 1 40000\n\x7f\xff\0\1", "S16")):
            with open(self.path("a.pgm"), "wb") as file:
                file.write(text)
            image = {"kind": "image", "format": fmt, "width": 2, "height": 1}
            path = self.put("a.json", {
                "feqyldan": 1, "objects": {"a": {"kind": "image", "file": "a.pgm"}, "b": image,
                                           "found": {"kind": "extremes"}},
                "nodes": [{"function": "max", "in1": "a", "in2": "a", "output": "b"},
                          {"function": "min_max_loc", "input": "a", "extremes": "found"}]})
            with self.subTest(text):
                self.assertEqual(lines_in_c(path, 1), lines_in_python(path, 1)[0])

    def test_an_input_of_the_size_of_its_picture(self):
        vx.write_pgm(self.path("a.pgm"), [[9, 8]])
        path = self.put("a.json", {
            "feqyldan": 1, "nodes": [{"function": "not_", "input": "a", "output": "b"}],
            "objects": {"a": {"kind": "image", "file": "a.pgm", "input": True},
                        "b": {"kind": "virtual image", "width": 0}}})
        self.assertEqual(lines_in_c(path), [])
        self.assertIn('its "file" is for 2 by 1, and the pictures are 64 by 48',
                      lines_in_c(path, size=(64, 48))[0])
        self.assertIn("at most 8192 columns and rows, and not 9000 by 1",
                      lines_in_c(path, size=(9000, 1))[0])

    def test_what_only_the_parser_takes(self):
        """Numbers that it takes for others, and texts that C would cut."""
        whole = '{"feqyldan": 1, "objects": {"a": {"kind": "image", "format": "U8", "width": 8, ' \
                '"height": 1}}, "nodes": []}'
        self.assertEqual(lines_in_c(self.put("a.json", "\ufeff" + whole)), [])
        pair = whole.replace('"a"', '"\\ud83d\\uDE00\\u00e9\\\\u"')
        self.assertEqual(lines_in_c(self.put("a.json", pair)), [])
        for old, new in (("8,", "010,"), ("8,", "0x8,"), ("8,", "- 8,"), ("8,", "+8,"),
                         ("8,", ".8,"), ("8,", "8.,"), ("8,", "8e,"),
                         ("1, ", "01, "), ('"a"', '"\\q"'),
                         ('"a"', '"a\\u0000"'), ('"a"', '"a\\ud800xy"'), ('"a"', '"\\udc00a"'),
                         ('"a"', '"\\ud800\\u0041"'), ('"a"', '"\\ude00\\ud83d"'),
                         ('"a"', '"a\n"'), ("[]", "[nil]"), ("{", "var x = {")):
            path = self.put("a.json", whole.replace(old, new, 1))
            with self.subTest(new):
                self.assertIn("the file isn't JSON", lines_in_c(path)[0])
        for number in ("18446744073709551624", "-1000000000000000000"):
            path = self.put("a.json", whole.replace("8,", f"{number},", 1))
            self.assertIn(f"a number of {len(number.lstrip('-'))} digits, and no number has more "
                          "than 18", lines_in_c(path)[0])

    def test_what_is_no_file(self):
        """A named pipe waited for somebody to write to it."""
        os.mkfifo(self.path("a.json"))
        self.assertIn("isn't a regular file", lines_in_c(self.path("a.json"))[0])
        os.mkfifo(self.path("a.pgm"))
        path = self.put("b.json", {"feqyldan": 1, "nodes": [],
                                   "objects": {"a": {"kind": "image", "file": "a.pgm"}}})
        self.assertIn("isn't a regular file", lines_in_c(path)[0])

    def test_a_part_of_a_picture_in_another_size(self):
        """A file without a width beside "valid" gave a warning of GLib's."""
        image = {"kind": "image", "format": "U8", "width": 2, "height": 1}
        vx.write_pgm(self.path("mask.pgm"), [[9, 8, 7]])
        path = self.put("a.json", {"feqyldan": 1, "objects": {
            "camera": {**image, "input": True}, "out": image,
            "mask": {"kind": "image", "file": "mask.pgm", "valid": [0, 0, 1, 1]}},
            "nodes": [{"function": "not_", "input": "camera", "output": "out"}]})
        self.assertEqual(lines_in_c(path, 1, b"\1\2\3", (3, 1)), ["out 254 253 252"])

    def test_what_else_is_wrong(self):
        """Values of other types than a field has."""
        image = {"kind": "image", "format": "U8", "width": 2, "height": 1}
        for thing, words in (
                ({**image, "width": "2"}, "width must be a whole number from 1 to 8192, not '2'"),
                ({**image, "width": 2.5}, "width must be .*, not 2.5"),
                ({**image, "fill": 256}, "fill must be a whole number from 0 to 255, not 256"),
                ({**image, "fill": 1, "file": "a"}, "only one of samples, file and fill"),
                ({**image, "samples": 5}, "'samples' must be a text, not 5"),
                ({**image, "samples": "eJxjAAAAAQAB"}, "its samples have 1 bytes, and it needs 2"),
                ({"kind": "threshold", "format": "U8"}, "above or between, and neither was given"),
                ({"kind": "threshold", "format": "U8", "between": [1]}, "must be .lower, upper."),
                ({"kind": "lookup table", "format": "U8", "entries": [1]}, "needs 256 entries"),
                ({"kind": "convolution", "rows": [[1, 2, 3], [4], [5]]}, "lists of one length"),
                ({"kind": "convolution", "rows": [[1] * 3] * 3, "scale": 3}, "a power of 2"),
                ({"kind": "distribution", "bins": 0}, "bins must be .* to 256, not 0")):
            path = self.put("a.json", {"feqyldan": 1, "objects": {"a": thing}, "nodes": []})
            with self.subTest(words):
                self.assertRegex(lines_in_c(path)[0], f'{path}: object "a": .*{words}')
                self.assertRaises(vx.GraphFileError, ORIGINAL, self.context, path)

    def test_the_header_compiles_alone(self):
        for compiler, standard in (("cc", "c99"), ("c++", "c++11")):
            language = "c" if compiler == "cc" else "c++"
            subprocess.run([compiler, f"-std={standard}", *run.ALL_WARNINGS, "-c", "-x", language,
                            "-o", os.devnull, "-I" + os.path.join(HERE, "../include"), "-"],
                           input="#include <feqyldan/graph_file.h>\n", text=True, check=True)


if __name__ == "__main__":
    unittest.main()
