"""Graphs in files, drawn, measured, and run from the command line; pictures in files; regions."""

import base64
import csv
import importlib.util
import itertools
import json
import os
import pickle
import random
import shutil
import signal
import struct
import subprocess
import sys
import tempfile
import time
import tracemalloc
import unittest
import xml.etree.ElementTree
import zlib
from functools import partial
from unittest import mock

from program import HERE, SERVED, VARIABLES, ProgramTest, needs_program, vx
from feqyldan import files, graph_files, json_files, samples
from feqyldan.functions import FUNCTIONS
from feqyldan.json_files import packed
from feqyldan.storage import read_bytes

numpy = samples.numpy_module()
PACKAGE = os.path.realpath(os.path.join(HERE, ".."))


def station(context):
    """Returns a graph with all kinds of objects, and its input."""
    camera = context.image(vx.U8, 8, 6, name="camera")
    clean = context.image_from([[x * y for x in range(8)] for y in range(6)], name="clean")
    graph = context.graph(name="station")
    smooth, away = context.delay(camera, 2, name="smooth"), graph.virtual_image(name="away")
    bright, mixed = graph.virtual_image(vx.U8), graph.virtual_image(vx.S16, 8, 6, name="mixed")
    graph.gaussian3x3(camera, smooth[0], border=vx.REPLICATE)
    graph.absdiff(smooth[0], clean, away)
    graph.table_lookup(away, context.lut(vx.U8, range(255, -1, -1), name="turned"), bright)
    graph.add(bright, smooth[-1], vx.WRAP, mixed)
    marks = context.image(vx.U8, 8, 6, name="marks")
    graph.threshold(mixed, context.threshold(vx.S16, between=(100, 300), name="limit"), marks)
    graph.sobel3x3(camera, None, context.image(vx.S16, 8, 6, name="down"), vx.constant(7))
    graph.convolve(camera, context.convolution([[0, 1, 0], [1, -4, 1], [0, 1, 0]], scale=2),
                   context.image(vx.S16, 8, 6, name="edges"))
    graph.multiply(camera, clean, 3, vx.SATURATE, context.image(vx.S16, 8, 6, name="product"))
    graph.accumulate(camera, context.image(vx.S16, 8, 6, name="sums"))
    graph.histogram(marks, context.distribution(3, 0, 256, name="counts"))
    graph.min_max_loc(marks, context.min_max(name="found"))
    graph.register_auto_aging(smooth)
    return graph, camera


def pictures(count):
    chance = random.Random(4)
    return [[[chance.randrange(256) for _ in range(8)] for _ in range(6)] for _ in range(count)]


def values_of(stream):
    return [[value.tolist() if hasattr(value, "tolist") else value for value in values]
            for _, values in stream]


class FolderTest(unittest.TestCase):
    def setUp(self):
        super().setUp()
        folder = tempfile.TemporaryDirectory()
        self.addCleanup(folder.cleanup)
        self.folder = folder.name

    def path(self, name):
        return os.path.join(self.folder, name)

    def put(self, name, told):
        with open(self.path(name), "w", encoding="utf-8") as file:
            file.write(told if isinstance(told, str) else json.dumps(told))
        return self.path(name)


class TestFiles(FolderTest, ProgramTest):
    def test_a_graph_comes_back(self):
        graph, camera = station(self.context)
        graph.save(self.path("a.json"), inputs=[camera])
        names = ["marks", "down", "edges", "product", "sums", "counts", "found"]
        with self.server.context() as other:
            again = other.load_graph(self.path("a.json"))
            self.assertEqual([*again.inputs], ["camera"])
            self.assertEqual(sorted(again.outputs), sorted(names))
            self.assertEqual(again.graph.label, "a")
            things = {call.label: call for node in graph._calls.values()
                      for call in node.operands if getattr(call, "label", "") in names}
            ours = graph.stream(pictures(3), camera, [things[name] for name in names])
            theirs = again.graph.stream(pictures(3), again.inputs["camera"],
                                        [again.outputs[name] for name in names])
            self.assertEqual(values_of(ours), values_of(theirs))
            # What is saved of it is the same file.
            again.graph.save(self.path("b.json"), inputs=[again.inputs["camera"]])
        with open(self.path("a.json")) as one, open(self.path("b.json")) as two:
            self.assertEqual(json.load(one), json.load(two))

    def test_one_input_needs_no_word(self):
        one, out, graph = self.context.image(vx.U8, 2, 1), self.context.image(
            vx.U8, 2, 1), self.context.graph()
        graph.not_(one, out)
        graph.save(self.path("a.json"))
        self.assertEqual([*self.context.load_graph(self.path("a.json")).inputs], ["image_1"])
        other = self.context.image_from([[1, 2]])
        graph.min(one, other, self.context.image(vx.U8, 2, 1))
        with self.assertRaisesRegex(ValueError, r"reads 2 images that none of its nodes writes .*"
                                    r"inputs=\[camera\]"):
            graph.save(self.path("a.json"))

    def test_names_that_differ_in_the_file(self):
        """A name that is taken gets the object's number, and may be taken with that too."""
        first, second, third = (self.context.image_from([[number]], name=name)
                                for number, name in ((1, "a_3"), (2, "a"), (3, "a")))
        delay = self.context.delay(first, 2, name="last\nframe")
        outs = [self.context.image(vx.U8, 1, 1, name=f"out{number}") for number in range(3)]
        graph = self.context.graph()
        for image, out in zip((first, second, third), outs):
            graph.max(image, delay[-1], out)
        graph.save(self.path("a.json"), inputs=[first])
        again = self.context.load_graph(self.path("a.json"))
        again.inputs["a_3"].write([[7]])
        again.graph.process()
        self.assertEqual([again.outputs[f"out{number}"].read()[0, 0] for number in range(3)],
                         [7, 2, 3])

    def test_what_is_no_input(self):
        camera, out, other = (self.context.image(vx.U8, 2, 1, name=name)
                              for name in ("camera", "out", "other"))
        graph, delay = self.context.graph(), self.context.delay(camera, 2)
        virtual = graph.virtual_image()
        graph.not_(camera, virtual)
        graph.max(virtual, delay[0], out)
        for inputs, kind, words in (
                ([camera, out], ValueError, r"\"out\" .* can't be an input of graph 4: node 2, "
                                            r"max\(.*\), writes it"),
                ([other], ValueError, '"other" .* no node reads it'),
                ([delay[0]], ValueError, "slot 0 of .*: a slot of a delay gets its picture from a "
                                         r"node: let graph.max\(camera, camera, slot\)"),
                ([virtual], ValueError, "virtual image 6 .* an input must be an image"),
                (["camera"], ValueError, "camera can't be an input .* an input must be an image"),
                (camera, TypeError, r"a list of images, as in save\(path, inputs=\[camera\]\), "
                                    'not image 1 "camera"'),
                ("camera", TypeError, "a list of images, .*, not camera")):
            with self.subTest(words), self.assertRaisesRegex(kind, words):
                graph.save(self.path("a.json"), inputs=inputs)
        self.assertEqual(os.listdir(self.folder), [])
        with self.server.context() as stranger:
            foreign = stranger.image(vx.U8, 2, 1)
            with self.assertRaisesRegex(ValueError,
                                        "an input must be an image of the graph's context"):
                graph.save(self.path("a.json"), inputs=[foreign])
        for inputs in ((camera,), {"camera": camera}.values(), iter([camera])):
            graph.save(self.path("a.json"), inputs=inputs)
            self.assertEqual([*self.context.load_graph(self.path("a.json")).inputs], ["camera"])

    def test_valid_rectangles_come_back(self):
        """Valid rectangles of an image that is only read, and of sums; statistics count the same
        pixels as before."""
        camera, window = (self.context.image(vx.U8, 8, 6, name=name)
                          for name in ("camera", "window"))
        sums, bins = self.context.image(vx.S16, 8, 6), self.context.distribution(1, name="bins")
        window.fill(255)
        window.valid, sums.valid = (1, 2, 5, 6), (3, 0, 8, 6)
        graph, found = self.context.graph(), self.context.min_max(name="found")
        part = graph.virtual_image(vx.U8)
        graph.and_(camera, window, part)
        graph.histogram(part, bins)
        graph.accumulate(camera, sums)
        graph.min_max_loc(sums, found)
        graph.save(self.path("a.json"), inputs=[camera])
        again = self.context.load_graph(self.path("a.json"))
        for one, outputs in ((graph, {"bins": bins, "found": found}), (again.graph, again.outputs)):
            one.process()
            self.assertEqual(outputs["bins"].read(), (16,))
            self.assertEqual(outputs["found"].read().min_count, 30)
        self.assertEqual(again.objects["window"].valid, (1, 2, 5, 6))

    def test_sums_are_saved_as_before_the_first_run(self):
        """A run leaves a smaller valid rectangle, which would tie the graph to a size, and leave
        samples of later pictures out."""
        camera, sums = self.context.image(vx.U8, 8, 6), self.context.image(vx.S16, 8, 6)
        graph = self.context.graph()
        graph.accumulate(camera, sums)
        for given, kept in ((None, None), ((1, 0, 7, 6), [1, 0, 7, 6])):
            if given:
                sums.valid = given
            for _ in range(2):
                graph.save(self.path("a.json"), inputs=[camera])
                with open(self.path("a.json")) as file:
                    objects = json.load(file)["objects"]
                self.assertEqual([thing.get("valid") for thing in objects.values()], [None, kept])
                camera.fill(7)
                camera.valid = (0, 0, 3, 3)
                graph.process()
            sums.fill(0)

    def test_sums_that_were_reset_are_saved_as_wholly_valid(self):
        """A run leaves a rectangle within the one that was set before the reset."""
        camera, sums = self.context.image(vx.U8, 8, 6), self.context.image(vx.S16, 8, 6)
        graph = self.context.graph()
        graph.accumulate(camera, sums)
        for reset in (lambda: sums.fill(0), lambda: sums.write([[0] * 8] * 6),
                      lambda: sums.write_pgm(b"P2 8 6 300 " + b"0 " * 48)):
            sums.valid = (1, 0, 7, 6)
            reset()
            camera.fill(7)
            camera.valid = (2, 1, 4, 4)
            graph.process()
            graph.save(self.path("a.json"), inputs=[camera])
            again = self.context.load_graph(self.path("a.json"))
            self.assertEqual(again.objects[f"image_{sums.name}"].valid, (0, 0, 8, 6))

    def test_a_constant_image_has_one_number(self):
        """It comes back, and ties the graph to no size."""
        for fmt, value in ((vx.U8, 200), (vx.S16, -5)):
            camera, mask, out = (self.context.image(fmt, 5, 4, name=name)
                                 for name in ("camera", "mask", "out"))
            mask.fill(value)
            graph = self.context.graph()
            graph.min(camera, mask, out)
            graph.save(self.path("a.json"), inputs=[camera])
            with open(self.path("a.json")) as file:
                described = json.load(file)["objects"]["mask"]
            self.assertEqual(described, {"kind": "image", "format": str(fmt), "width": 5,
                                         "height": 4, "fill": value})
            again = self.context.load_graph(self.path("a.json"))
            self.holds(again.objects["mask"], [[value] * 5] * 4)

    def test_samples_of_another_program(self):
        """They are the bytes of all samples, compressed by zlib, in base64."""
        content = zlib.compress(struct.pack(">4h", 1, -2, 300, -32768))
        path = self.put("a.json", {"feqyldan": 1, "nodes": [], "objects": {
            "a": {"kind": "image", "format": "S16", "width": 2, "height": 2,
                  "samples": base64.b64encode(content).decode()}}})
        self.holds(self.context.load_graph(path).objects["a"], [[1, -2], [300, -32768]])

    def test_each_function_can_be_said(self):
        for function in FUNCTIONS:
            for parameter in graph_files.parameters_of(function):
                self.assertTrue(parameter in graph_files.OPERANDS
                                or parameter in ("policy", "shift", "border"), parameter)

    def test_each_kind_has_its_fields(self):
        graph, camera = station(self.context)
        graph.multiply(camera, graph.virtual_image(), 0, vx.WRAP, graph.virtual_image(vx.S16, 8))
        graph.save(self.path("a.json"), inputs=[camera])
        with open(self.path("a.json")) as file:
            objects = json.load(file)["objects"].values()
        self.assertEqual({described["kind"] for described in objects}, set(graph_files.FIELDS))
        for described in objects:
            self.assertLessEqual(set(described), {"kind", *graph_files.FIELDS[described["kind"]]})

    def test_a_picture_of_another_file(self):
        vx.write_pgm(self.path("clean.pgm"), [[9, 8]])
        path = self.put("a.json", {"feqyldan": 1, "nodes": [], "objects": {
            "clean": {"kind": "image", "file": "clean.pgm"},
            "part": {"kind": "image", "file": "clean.pgm", "valid": [1, 0, 2, 1]}}})
        objects = self.context.load_graph(path).objects
        self.holds(objects["clean"], [[9, 8]])
        self.holds(objects["part"], [[0, 8]])

    def test_what_an_object_says_about_its_picture(self):
        """Fields beside "file" that aren't those of the picture were taken without a word."""
        vx.write_pgm(self.path("clean.pgm"), [[9, 8]])
        image = {"kind": "image", "file": "clean.pgm"}
        for fields in ({"format": "U8"}, {"width": 2, "height": 1}):
            path = self.put("a.json", {"feqyldan": 1, "nodes": [],
                                       "objects": {"a": {**image, **fields}}})
            self.holds(self.context.load_graph(path).objects["a"], [[9, 8]])
        for fields in ({"format": "S16"}, {"width": 3}, {"height": 2}, {"width": 2.0}):
            path = self.put("a.json", {"feqyldan": 1, "nodes": [],
                                       "objects": {"a": {**image, **fields}}})
            with self.subTest(fields), self.assertRaisesRegex(
                    vx.GraphFileError, "its file has U8 samples of 2 by 1 pixels, and its format, "
                                       "width or height says something else: leave them out"):
                self.context.load_graph(path)

    def test_what_is_wrong_and_where(self):
        image = {"kind": "image", "format": "U8", "width": 2, "height": 1}
        both = {"a": image, "b": image}
        for objects, nodes, words in (
                ({"a": {**image, "format": "U9"}}, [], 'object "a": a format must be one of U8, '
                                                       "S16, U32, not 'U9'"),
                ({"a": {**image, "format": []}}, [], 'object "a": a format must be one of U8, '
                                                     r"S16, U32, not \[\]"),
                ({"a": {"kind": "image", "format": "U8"}}, [], "object \"a\": 'width' is missing"),
                ({"a": {"kind": "image", "file": 5}}, [],
                 'object "a": "file" must be a path, not 5'),
                ({"a": {**image, "width": 9000}}, [], 'object "a": create a U8 image of 9000 by 1'),
                ({"a": {**image, "valid": [0, 0, 3, 1]}}, [], 'object "a": make .* the valid rect'),
                ({"a": {**image, "valid": 3}}, [], r'object "a": .* must be \(x0, .*, not 3'),
                ({"a": {"kind": "film"}}, [],
                 'object "a": a kind must be one of image, .*\'film\''),
                ({"a": 7}, [], 'object "a": an object must be .* a "kind", not 7'),
                ({"a": {"kind": "image", "file": "none.pgm"}}, [], 'object "a": .*none.pgm'),
                (both, [{"function": "not"}],
                 "node 1: there is no function 'not'; the functions are and_"),
                (both, [{"function": "not_", "input": "a", "output": "b"},
                        {"function": "not_", "input": "a"}], "node 2: 'output' is missing"),
                (both, [{"function": "not_", "input": "a", "output": "c"}],
                 "node 1: there is no object 'c': add it to \"objects\""),
                (both, [{"function": "not_", "input": "a[-1]", "output": "b"}],
                 r"node 1: 'a' isn't a delay, so it has no slots: leave out \[-1\]"),
                (both, [{"function": "not_", "input": "a", "output": "b", "policy": "WRAP"}],
                 "node 1: not_ has no parameter 'policy'; it has input, output"),
                (both, [{"function": "add", "in1": "a", "in2": "a", "output": "b", "policy": "X"}],
                 "node 1: a policy must be one of WRAP, SATURATE, not 'X'"),
                ({**both, "b": {**image, "input": True}},
                 [{"function": "not_", "input": "a", "output": "b"}],
                 "object \"b\": it can't be an input: node 1, not_.*, writes it"),
                ({**both, "old": {**image, "kind": "delay", "slots": 2}},
                 [{"function": "not_", "input": "old[-2]", "output": "b"}],
                 r"node 1: there is no slot 'old\[-2\]': delay .* \"old\" .* has 2 slots, from 0 "
                 "down to -1, and no slot -2"),
                ({"a": {**image, "samples": "AAAA"}}, [],
                 "object \"a\": its samples aren't compressed text: Error -3 while decomp"),
                ({"a": {**image, "samples": "A"}}, [], "object \"a\": its samples aren't compres"),
                ({"a": {**image, "samples": 7}}, [], 'object "a": samples must be text, .* not 7'),
                ({"a": {**image, "samples": packed(b"123")}}, [],
                 'object "a": its samples must have 2 bytes when unpacked, and there are more'),
                ({"a": {**image, "samples": packed(b"1")}}, [],
                 'object "a": its samples must have 2 bytes when unpacked, and there are 1'),
                ({"a": {**image, "input": "false"}}, [],
                 "object \"a\": \"input\" must be true or false, not 'false'"),
                ({"a": {**image, "kind": "delay", "slots": 2, "ages": 1}}, [],
                 'object "a": "ages" must be true or false, not 1'),
                ({"a": {**image, "fill": 256}}, [], 'object "a": .*256'),
                ({"a": {**image, "fill": 0, "samples": "AAAA"}}, [],
                 'object "a": give only one of samples, file and fill'),
                ({"a": {"kind": "threshold", "format": "U8", "above": 9, "true_valeu": 0}}, [],
                 "object \"a\": the kind 'threshold' has no field 'true_valeu'; it has format, "
                 "above, between, true_value, false_value$"),
                ({"a": {"kind": "extremes", "bins": 3}}, [],
                 "object \"a\": the kind 'extremes' has no field 'bins'; it has nothing more$"),
                ({"a": {**image, "slots": 3}}, [],
                 "object \"a\": the kind 'image' has no field 'slots'"),
                ({"a": {**image, "input": True}}, [],
                 "object \"a\": it can't be an input: no node reads"),
                (both, [{"function": "box3x3", "input": "a", "output": "b", "border": "X"}],
                 "node 1: a border must be UNDEFINED, REPLICATE or a number, not 'X'"),
                (both, [{"function": "box3x3", "input": "a", "output": "b", "border": True}],
                 "node 1: \"border\" can't be true"),
                ({"a": {**image, "width": True}}, [], "object \"a\": \"width\" can't be true"),
                ({"a": {"kind": "convolution", "rows": [[1, 0, 1], [0, False, 0], [0, 0, 0]]}}, [],
                 "object \"a\": \"rows\" can't be false"),
                ({"a": {"kind": "convolution", "rows": "smooth"}}, [],
                 "object \"a\": 'rows' must be a list of lists"),
                ({"a": {"kind": "convolution", "rows": {}}}, [],
                 "object \"a\": 'rows' must be a list of lists"),
                (both, [{"function": "not_", "input": 5, "output": "b"}],
                 "node 1: an operand must be the name of an object, not 5"),
                ({"a": {"kind": "lookup table", "format": "U32", "entries": [300] * 256}}, [],
                 "object \"a\": create a U32 lookup table: INVALID_FORMAT"),
                ({"a": {"kind": "threshold", "format": "U32", "above": 3}}, [],
                 "object \"a\": create a U32 threshold above 3: INVALID_FORMAT"),
                ({"a": {"kind": "threshold", "format": "U8", "above": 3, "true_value": None}}, [],
                 "object \"a\": .* not None"),
                ({"a": {"kind": "distribution", "bins": 3, "range": None}}, [],
                 "object \"a\": .* not None"),
                ({"a": {"kind": "convolution", "rows": [[1] * 3] * 3, "scale": None}}, [],
                 "object \"a\": .* not None"),
                ({"a": {"kind": "convolution", "rows": [[1, 2], [3, 4]]}}, [],
                 "object \"a\": create a convolution of 2 by 2: INVALID_DIMENSION"),
                ({"a": {"kind": "threshold", "format": "U8", "between": [9, 3]}}, [],
                 "object \"a\": create a U8 threshold between 9 and 3: INVALID_VALUE"),
                ({"a": {**image, "valid": [2, 0, 1, 1]}}, [], 'object "a": make .* the valid rect'),
                ({"a": {**image, "samples": packed(b"12").replace("J", "\u00fc")}}, [],
                 "object \"a\": its samples aren't compressed text"),
                ({**both, "b": {**image, "format": "S16"}},
                 [{"function": "sobel3x3", "input": "a", "output_x": None}],
                 "node 1: "),
                ({"old": {**image, "kind": "delay", "slots": 2}, "b": image},
                 [{"function": "not_", "input": f"old[-{'9' * 5000}]", "output": "b"}],
                 "node 1: it has a number of 5,000 digits, and no number has more than 18$"),
                ({"a[-1]": image}, [], r"'a\[-1\]' is the name of a slot"),
                ({"a\ud800": image}, [], r"the name 'a\\ud800' isn't text: give the object"),
                ({"a\0": image}, [], r"the name 'a\\x00' isn't text: give the object"),
                ({"": image}, [], "the name of an object can't be empty")):
            path = self.put("a.json", {"feqyldan": 1, "objects": objects, "nodes": nodes})
            with self.subTest(words), self.assertRaisesRegex(vx.GraphFileError,
                                                             f"{path}: {words}"):
                self.context.load_graph(path)
        for text, words in (
                ("{", "the file isn't JSON: "), ("[]", 'it lacks "feqyldan": 1; '),
                ('{"feqyldan": true, "objects": {}, "nodes": []}', 'it lacks "feqyldan": 1; '),
                ('{"feqyldan": 1.0, "objects": {}, "nodes": []}', 'it lacks "feqyldan": 1; '),
                ('{"feqyldan": 1, "objects": {}, "nodes": []} {}', "the file isn't JSON: "),
                ('{"feqyldan": 1}', 'needs "objects"'), ("[" * 100_000, "nested too deeply"),
                ('{"feqyldan": ' + "[" * 2000 + "]" * 2000 + "}", "nested too deeply"),
                ('{"feqyldan": 1, "objects": {}, "nodes": [], "node": []}', "has no field 'node'"),
                ('{"feqyldan": 1, "objects": {"a": {}, "a": {}}, "nodes": []}',
                 "the key 'a' twice"),
                ('{"feqyldan": 1, "objects": {}, "nodes": [-' + "9" * 6000 + "]}",
                 "it has a number of 6,000 digits, and no number has more than 18$"),
                ({"feqyldan": 1, "objects": {}, "nodes": 257 * [{}]}, "at most 256 nodes"),
                ({"feqyldan": 1, "objects": {str(k): {} for k in range(1025)}, "nodes": []},
                 "at most 1,024 objects, and this one has 1,025")):
            path = self.put("a.json", text)
            for load in (self.context.load_graph, graph_files.drawing_of_file):
                with self.subTest(words), self.assertRaisesRegex(vx.GraphFileError,
                                                                 f"{path}: .*{words}"):
                    load(path)

    def test_the_encoding_of_a_file(self):
        """UTF-8, with a mark at its beginning or without one."""
        path, text = self.path("a.json"), '{"feqyldan": 1, "objects": {}, "nodes": []}'
        for encoding in ("utf-8", "utf-8-sig", "utf-16", "utf-32"):
            with open(path, "w", encoding=encoding) as file:
                file.write(text)
            if encoding.startswith("utf-8"):
                self.context.load_graph(path)
            else:
                with self.assertRaisesRegex(vx.GraphFileError, "the file isn't JSON: "):
                    self.context.load_graph(path)

    def test_errors_that_are_not_about_the_file(self):
        """A program that reaches a server again has to know that it has ended."""
        path = self.put("a.json", {"feqyldan": 1, "nodes": [], "objects": {
            "limit": {"kind": "threshold", "format": "U8", "above": 24}}})
        for error in (vx.ServerEnded("the server ended", -9), vx.TimedOut("no answer"),
                      vx.UnexpectedReply("another server"), vx.NestedCall("a handler's call")):
            for read in (self.context.load_graph, self.context.graph_faults):
                with mock.patch.object(vx.Context, "threshold", side_effect=error):
                    with self.assertRaises(type(error)) as caught:
                        read(path)
                self.assertIs(caught.exception, error)

    def test_samples_that_unpack_to_more(self):
        """Only what the image takes is unpacked."""
        path = self.put("a.json", {"feqyldan": 1, "nodes": [], "objects": {"a": {
            "kind": "image", "format": "U8", "width": 2, "height": 1,
            "samples": packed(bytes(100_000_000))}}})
        tracemalloc.start()
        self.addCleanup(tracemalloc.stop)
        with self.assertRaisesRegex(vx.GraphFileError, "must have 2 bytes when unpacked, .* more"):
            self.context.load_graph(path)
        self.assertLess(tracemalloc.get_traced_memory()[1], 10_000_000)
        graph, camera = station(self.context)
        with mock.patch.object(json_files, "GREATEST_FILE", 1000):
            with self.assertRaisesRegex(ValueError, "at most 1,000 are read: save large images"):
                graph.save(self.path("b.json"), inputs=[camera])
        self.assertFalse(os.path.exists(self.path("b.json")))
        with open(self.path("a.json"), "wb") as file:
            file.truncate(2**27 + 1)
        self.assertRaisesRegex(OSError, "at most 134,217,728", self.context.load_graph,
                               path)

    def test_a_field_that_the_file_does_not_have(self):
        told = {"feqyldan": 1, "objects": {}, "nodes": [], "node": []}
        with self.assertRaisesRegex(vx.GraphFileError, "a.json: a graph file has no field 'node'; "
                                    "it has 'feqyldan', 'objects' and 'nodes'"):
            self.context.load_graph(self.put("a.json", told))
        with self.assertRaisesRegex(ValueError, "no field 'node'"):
            vx.graph_text(told)

    def test_a_text_keeps_files(self):
        graph, camera = station(self.context)
        graph.save(self.path("a.json"), inputs=[camera])
        with open(self.path("a.json"), encoding="utf-8") as file:
            text = file.read()
        contents = json.loads(text)
        self.assertEqual(vx.graph_text(contents), text)
        contents["objects"]["clean"] = {"kind": "image", "file": "clean.pgm"}
        self.assertEqual(json.loads(vx.graph_text(contents)), contents)

    def test_a_text_that_would_be_refused(self):
        """It isn't written."""
        def lists(count):
            found = []
            for _ in range(count):
                found = [found]
            return found

        for nodes, words in ((lists(100_000), "nested too deeply"), (lists(100), "too deeply"),
                             ([10**18], "a number of 19 digits")):
            with self.subTest(words), self.assertRaisesRegex(ValueError, words):
                vx.graph_text({"feqyldan": 1, "objects": {}, "nodes": nodes})
        out, graph = self.context.image(vx.U8, 1, 1, name="\ud800"), self.context.graph()
        graph.not_(self.context.image(vx.U8, 1, 1), out)
        with self.assertRaisesRegex(ValueError, "isn't text"):
            graph.save(self.path("a.json"))
        self.assertEqual(os.listdir(self.folder), [])

    def test_a_fault_as_data(self):
        image = {"kind": "image", "format": "U8", "width": 2, "height": 1}
        for objects, nodes, place, code, operand in (
                ({"a": {"kind": "film"}}, [], ("a", 0), "", ""),
                ({"a": {**image, "width": 9000}}, [], ("a", 0), "INVALID_DIMENSION", ""),
                ({"a": image}, [{"function": "not_", "input": "a"}], ("", 1), "", "output"),
                ({"a": image}, [{"function": "multiply", "in1": "a", "in2": "a", "shift": 16,
                                 "policy": "WRAP", "output": "a"}], ("", 1), "INVALID_VALUE",
                 "shift")):
            path = self.put("a.json", {"feqyldan": 1, "objects": objects, "nodes": nodes})
            with self.assertRaises(vx.GraphFileError) as caught:
                self.context.load_graph(path)
            for error in (caught.exception, pickle.loads(pickle.dumps(caught.exception))):
                self.assertEqual((error.object, error.node), place)
                self.assertEqual((error.code, error.operand), (code, operand))
                self.assertEqual(str(error), f"{path}: {error.place}: {error.words}")


class TestAllFaults(FolderTest, ProgramTest):
    """Context.graph_faults()."""

    limits = {"work": 5000}

    def faults(self, nodes, **objects):
        image = {"kind": "image", "format": "U8", "width": 8, "height": 6}
        objects = {"camera": {**image, "input": True}, "out": image,
                   "mid": {"kind": "virtual image"}, "deep": {**image, "format": "S16"},
                   "wide": {**image, "width": 9}, **objects}
        path = self.put("a.json", {"feqyldan": 1, "objects": objects, "nodes": nodes})
        return self.context.graph_faults(path)

    def places(self, *arguments, **objects):
        return [(fault.object or fault.node, fault.code, fault.operand)
                for fault in self.faults(*arguments, **objects)]

    def test_a_file_without_faults(self):
        graph, camera = station(self.context)
        graph.save(self.path("a.json"), inputs=[camera])
        self.assertEqual(self.context.graph_faults(self.path("a.json")), ())

    def test_each_verdict(self):
        def node(function, source, output, **others):
            return {"function": function, "input": source, "output": output, **others}

        start = node("not_", "camera", "mid")
        for nodes, expected in (
                ([start, node("not_", "camera", "mid")], [(2, "MULTIPLE_WRITERS", "output")]),
                ([node("not_", "mid", "mid"), node("not_", "camera", "out")],
                 [(1, "INVALID_GRAPH", "")]),
                ([node("not_", "mid", "out"), node("box3x3", "camera", "wide")],
                 [(1, "INVALID_LINK", "input"), (2, "INVALID_DIMENSION", "output")]),
                ([node("not_", "camera", "deep")], [(1, "INVALID_FORMAT", "output")]),
                ([node("not_", "camera", "wide")], [(1, "INVALID_DIMENSION", "output")]),
                ([{"function": "accumulate", "input": "camera", "accum": "mid"}],
                 [(1, "INVALID_LINK", "accum")]),
                ([node("convert_depth", "camera", "deep", policy="WRAP", shift=8)],
                 [(1, "INVALID_VALUE", "shift")])):
            with self.subTest(nodes):
                self.assertEqual(self.places(nodes), expected)

    def test_work_bytes(self):
        big = {"kind": "image", "format": "U8", "width": 100, "height": 60}
        found, = self.faults([{"function": "not_", "input": "camera", "output": "out"},
                              {"function": "not_", "input": "big", "output": "mid"}], big=big)
        self.assertEqual((found.object, found.node, found.code), ("", 0, "NO_RESOURCES"))
        self.assertIn("6,000 bytes, and its work bytes are 5,000", str(found))

    def test_several_at_once(self):
        """Every fault is there, and none that only follows from another one."""
        nodes = [{"function": "noth", "input": "camera", "output": "mid"},
                 {"function": "not_", "input": "mid", "output": "out"},
                 {"function": "not_", "input": "film", "output": "deep"},
                 {"function": "min", "in1": "camera", "in2": "wide", "output": "late"},
                 {"function": "max", "in1": "camera", "in2": "nowhere", "output": "other"}]
        self.assertEqual(self.places(nodes, film={"kind": "film"}, late={"kind": "virtual image"},
                                     other={"kind": "virtual image"}),
                         [("film", "", ""), (1, "", ""), (5, "", ""),
                          (2, "INVALID_LINK", "input"), (4, "INVALID_DIMENSION", "in2")])

    def test_words_have_the_names_of_the_file(self):
        found, = self.faults([{"function": "add", "in1": "camera", "in2": "camera",
                               "policy": "WRAP", "output": "mid"},
                              {"function": "not_", "input": "mid", "output": "out"}])
        self.assertEqual(found.words, "not_ takes U8 to U8. \"mid\" is S16, 8 by 6, "
                         "because node 1, add, writes it and its format is open; "
                         "graph.virtual_image(vx.U8) has one.")
        self.assertTrue(found.advice)

    def test_inputs(self):
        self.assertEqual(self.places([]), [("camera", "", "")])
        self.assertEqual(self.places([{"function": "not_", "input": "out", "output": "camera"}]),
                         [("camera", "", "")])
        cycle = [{"function": "not_", "input": one, "output": other}
                 for one, other in (("out", "camera"), ("camera", "out"))]
        found = self.faults(cycle)
        self.assertEqual([fault.code for fault in found], ["INVALID_GRAPH"] * 2 + [""])
        self.assertEqual(found[2].words, "it can't be an input: node 1, not_, writes it")
        _, found = self.faults([{"function": "noth"}, cycle[0]])
        self.assertEqual(found.words, "it can't be an input: node 2, not_, writes it")

    def test_no_graph_file(self):
        fault, = self.context.graph_faults(self.put("a.json", "{"))
        self.assertIn("isn't JSON", fault.words)


class TestWatching(FolderTest, ProgramTest):
    def test_virtual_images(self):
        source = self.context.image_from([[1, 2, 3], [4, 5, 6], [7, 8, 9]])
        graph, out = self.context.graph(), self.context.image(vx.U8, 3, 3)
        negative, wide = graph.virtual_image(), graph.virtual_image()
        graph.not_(source, negative)
        graph.dilate3x3(source, wide)
        graph.min(negative, wide, out)
        seen = graph.watch()
        self.assertEqual(seen[negative].value.tolist(),
                         [[254, 253, 252], [251, 250, 249], [248, 247, 246]])
        self.assertEqual(seen[wide].value.tolist(), [[0, 0, 0], [0, 9, 0], [0, 0, 0]])
        self.assertEqual(seen[wide].valid, (1, 1, 2, 2))
        # The output itself isn't written.
        self.holds(out, [[0] * 3] * 3)
        graph.process()
        self.assertEqual(seen[out].value.tolist(), out.read().tolist())
        self.assertRaisesRegex(KeyError, "no node of the graph wrote image 1", seen.__getitem__,
                               source)
        self.assertEqual(len([*seen]), 3)

    def test_every_kind_of_output(self):
        graph, camera = station(self.context)
        camera.write(pictures(1)[0])
        usage = self.context.usage()
        seen = graph.watch()
        self.assertEqual(self.context.usage(), usage)
        graph.process()
        outputs = {operand._reference: operand for call in graph._calls.values()
                   for operand in call.operands[2:] if operand is not None}
        self.assertEqual(len(seen), len(outputs))
        for operand in outputs.values():
            one = seen[operand]
            if getattr(operand, "_is_virtual", False):
                continue
            # The delay aged after the run.
            accumulated = graph._calls[1].operands[2]
            read = accumulated.delay[-1] if isinstance(operand, vx.Slot) else operand
            self.assertEqual(values_of([(None, [one.value])]), values_of([(None, [read.read()])]))
            if isinstance(read, vx.AnyImage):
                self.assertEqual(one.valid, read.valid)

    def test_a_graph_that_is_refused(self):
        graph = self.context.graph()
        graph.not_(graph.virtual_image(), graph.virtual_image())
        self.assertRaises(vx.InvalidLink, graph.watch)


class TestDrawings(ProgramTest):
    def test_dot(self):
        graph, _ = station(self.context)
        text = graph.to_dot()
        for words in ("camera", "smooth[0]", "smooth[-1]", "absdiff", "node 2", "shape=ellipse"):
            self.assertIn(words, text)
        self.assertEqual(text.count(" -> "), sum(
            operand is not None for call in graph._calls.values() for operand in call.operands))

    def test_labels(self):
        graph = self.context.graph()
        old = self.context.delay(self.context.image(vx.U8, 2, 1), 2, name='old "one"')
        graph.not_(self.context.image(vx.U8, 2, 1, name="top of (box)"), old[0])
        graph.not_(old[-1], graph.virtual_image(vx.U8))
        text = graph.to_dot()
        for words in (r'"top of (box)\nU8, 2 by 1"', r'"old \"one\"[0]\nU8, 2 by 1"',
                      r'"old \"one\"[-1]\nU8, 2 by 1"', r'\nU8, open by open"'):
            self.assertIn(words, text)

    def test_svg_without_graphviz(self):
        graph, _ = station(self.context)
        with mock.patch("shutil.which", return_value=None):
            drawn = xml.etree.ElementTree.fromstring(graph._repr_svg_())
        texts = [text.text for text in drawn.iter("{http://www.w3.org/2000/svg}text")]
        self.assertIn("camera", texts)
        # A cycle has an end.
        cycle = self.context.graph()
        one, other = cycle.virtual_image(), cycle.virtual_image()
        cycle.not_(one, other)
        cycle.not_(other, one)
        with mock.patch("shutil.which", return_value=None):
            self.assertEqual(cycle._repr_svg_().count("<rect"), 4)
            self.assertIn("<svg", self.context.graph()._repr_svg_())

    def test_names_with_characters_that_xml_lacks(self):
        graph = self.context.graph()
        graph.not_(self.context.image(vx.U8, 2, 1, name="a\x01\ud800z"), graph.virtual_image())
        self.assertIn("a\ufffd\ufffdz", graph.to_dot())
        with mock.patch("shutil.which", return_value=None):
            drawn = xml.etree.ElementTree.fromstring(graph._repr_svg_())
        self.assertIn("a\ufffd\ufffdz", "".join(drawn.itertext()))


class TestDrawingsOfFiles(FolderTest):
    """Without a server."""

    def graph(self, node, objects):
        return self.put("a.json", {"feqyldan": 1, "objects": objects, "nodes": [node]})

    def test_what_is_wrong_and_where(self):
        absdiff = {"function": "absdiff", "in1": "a"}
        for node, objects, words in (
                (7, {}, 'a node must be a JSON object with a "function", not 7'),
                ({}, {}, "'function' is missing"),
                ({"function": ["absdiff"]}, {}, r"there is no function \['absdiff'\]; the func"),
                (absdiff, {"a": 7}, 'an object must be a JSON object with a "kind", not 7')):
            path = self.graph(node, objects)
            with self.subTest(words), self.assertRaisesRegex(vx.GraphFileError,
                                                             f"{path}: node 1: {words}"):
                graph_files.drawing_of_file(path)
        # The names of objects that aren't there are drawn.
        drawn = graph_files.drawing_of_file(self.graph({**absdiff, "in2": 5}, {"a": {"kind": 7}}))
        self.assertEqual([box.title for box in drawn.boxes.values()], ["absdiff", "a", "5"])

    def test_a_closed_pipe(self):
        path, (reader, writer) = self.graph({"function": "not_"}, {}), os.pipe()
        os.close(reader)
        environment = {**os.environ, "PYTHONPATH": PACKAGE, "PYTHONUNBUFFERED": ""}
        with open(writer, "wb") as closed:
            run = subprocess.run([sys.executable, "-m", "feqyldan", "draw", path], stdout=closed,
                                 stderr=subprocess.PIPE, env=environment, timeout=90)
        self.assertEqual((run.returncode, run.stderr), (1, b""))


class TestProfiles(ProgramTest):
    def test_each_node_is_measured_and_nothing_changes(self):
        graph, camera = station(self.context)
        camera.write(pictures(1)[0])
        graph.process()
        objects = [operand for call in graph._calls.values() for operand in call.operands
                   if hasattr(operand, "read") and not operand._is_virtual]
        before = [values_of([(None, [thing.read()])]) for thing in objects]
        usage = self.context.usage()
        self.assertRaisesRegex(TypeError, "the number of rounds of a profile must be a whole",
                               graph.profile, "2")
        profile = graph.profile(rounds=2)
        self.assertEqual(sorted(one.node.number for one in profile), [*range(1, 12)])
        self.assertTrue(all(one.seconds > 0 for one in profile))
        self.assertIn("convolve", str(profile))
        self.assertIn("<table>", profile._repr_html_())
        self.assertEqual([values_of([(None, [thing.read()])]) for thing in objects], before)
        self.assertEqual(self.context.usage(), usage)


class TestHelpers(FolderTest, ProgramTest):
    def test_fill_and_copy(self):
        for fmt, value in ((vx.U8, 200), (vx.S16, -5), (vx.U32, 2**32 - 1)):
            image = self.context.image(fmt, 5, 4)
            image.fill(value)
            image.valid = 1, 1, 3, 2
            copied = image.copy()
            self.holds(copied, image.read().tolist())
            self.assertEqual((copied.valid, copied.fmt), ((1, 1, 3, 2), fmt))
            self.assertRaises((TypeError, ValueError), image.fill, 0.5)
        self.assertRaises(ValueError, self.context.image(vx.U8, 1, 1).fill, 256)

    def test_pictures_in_files(self):
        image = self.context.image_from([[0, 9, 255], [1, 2, 3]])
        kinds = [".pgm"]
        if numpy:
            kinds.append(".npy")
            if any(map(importlib.util.find_spec, ("cv2", "PIL"))):
                kinds += [".png", ".tif"]
        for kind in kinds:
            image.save(self.path("a" + kind))
            self.holds(self.context.load(self.path("a" + kind), name="b"), image.read().tolist())
        if numpy:
            for fmt, rows in ((vx.S16, [[-1, 300]]), (vx.U32, [[2**32 - 1] * 3] * 70)):
                deep = self.context.image_from(rows, fmt)
                deep.save(self.path("deep.npy"))
                there = numpy.load(self.path("deep.npy"))
                self.assertEqual((there.tolist(), there.dtype.itemsize), (rows, fmt.sample_bytes))
            self.context.image_from([[-1, 300]], vx.S16).save(self.path("deep.npy"))
            self.holds(self.context.load(self.path("deep.npy")), [[-1, 300]])
        self.assertRaisesRegex(FileNotFoundError, "none.png", self.context.load,
                               self.path("none.png"))

    @unittest.skipUnless(numpy and importlib.util.find_spec("cv2"), "OpenCV isn't installed")
    def test_a_format_of_two_values(self):
        """OpenCV writes any picture to a bitmap."""
        self.context.image_from([[0, 255]]).save(self.path("mask.pbm"))
        self.holds(self.context.load(self.path("mask.pbm")), [[0, 255]])
        grey = self.context.image_from([[0, 100, 255]])
        with self.assertRaisesRegex(ValueError, "grey.pbm: .pbm can't hold the uint8 samples of "
                                    "this picture: save it as .png$"):
            grey.save(self.path("grey.pbm"))
        grey.save(self.path("grey.jpg"))
        self.assertEqual({*os.listdir(self.folder)}, {"mask.pbm", "grey.jpg"})

    @unittest.skipUnless(numpy and importlib.util.find_spec("cv2")
                         and importlib.util.find_spec("PIL"), "OpenCV or PIL isn't installed")
    def test_by_either_reader(self):
        import cv2
        import PIL.Image
        colours = numpy.random.default_rng(1).integers(0, 256, (6, 8, 3), numpy.uint8)
        cv2.imwrite(self.path("colours.png"), colours)
        wide = numpy.array([[0, 32767, 5]], numpy.uint16)
        cv2.imwrite(self.path("wide.png"), wide)
        cv2.imwrite(self.path("wider.png"), wide * 2)
        big = PIL.Image.frombytes("I;16B", wide.shape[::-1], wide.astype(">u2").tobytes())
        big.save(self.path("big.tif"))
        self.put("text.png", "no picture")
        self.put("empty.png", "")
        with open(self.path("cut.png"), "wb") as file:
            file.write(read_bytes(self.path("colours.png"))[:-30])
        for missing in ((), ("cv2",), ("PIL.Image",)):
            importer = importlib.import_module
            with mock.patch.object(importlib, "import_module", lambda name: (
                    importer(name if name not in missing else "no_such_module"))):
                grey = self.context.load(self.path("colours.png"))
                wanted = cv2.cvtColor(colours, cv2.COLOR_BGR2GRAY).astype(int)
                self.assertLessEqual(abs(grey.read().astype(int) - wanted).max(), 1)
                for name in ("wide.png", "big.tif"):
                    self.holds(self.context.load(self.path(name)), [[0, 32767, 5]])
                with self.assertRaisesRegex(vx.BadPicture, "0 to 65534, and S16 holds those from"):
                    self.context.load(self.path("wider.png"))
                for name, fault in (
                        ("text", "this isn't a picture"), ("empty", "the file is empty"),
                        ("cut", "this is a PNG file without its end: it is cut off after")):
                    with self.assertRaisesRegex(vx.BadPicture, f"{name}.png: {fault}"):
                        self.context.load(self.path(f"{name}.png"))
        with mock.patch.object(files, "_module", return_value=None):
            with self.assertRaisesRegex(ImportError, "needs OpenCV or PIL"):
                self.context.load(self.path("wide.png"))
            with self.assertRaisesRegex(ImportError, "needs OpenCV or PIL"):
                grey.save(self.path("a.jpg"))
        # Without NumPy, to install PIL alone wouldn't help.
        with mock.patch.object(files, "numpy_module", return_value=None):
            for call in (lambda: self.context.load(self.path("wide.png")),
                         lambda: grey.save(self.path("a.jpg"))):
                self.assertRaisesRegex(ImportError, "NumPy isn't installed: install both", call)

    @unittest.skipUnless(numpy and (importlib.util.find_spec("cv2")
                                    or importlib.util.find_spec("scipy")), "no OpenCV, no SciPy")
    def test_regions(self):
        pixels = numpy.zeros((20, 30), numpy.uint8)
        pixels[2:5, 3:9] = 255
        pixels[10, 10] = pixels[11, 11] = 1
        pixels[19, 29] = 255
        marks = self.context.image_from(pixels)
        for missing in ([], ["cv2"]):
            if missing and not importlib.util.find_spec("scipy"):
                continue
            with mock.patch.dict(sys.modules, dict.fromkeys(missing)):
                found = vx.regions(marks)
                self.assertEqual([(one.pixels, one.around) for one in found],
                                 [(18, (3, 2, 9, 5)), (2, (10, 10, 12, 12)),
                                  (1, (29, 19, 30, 20))])
                self.assertEqual(found[0].middle, (5.5, 3.0))
                self.assertEqual(len(vx.regions(marks.read(), least=2)), 2)
        with mock.patch.dict(sys.modules, {"cv2": None, "scipy": None}):
            self.assertRaisesRegex(ImportError, "neither is installed", vx.regions, marks)
        for mask in (pixels > 0, pixels.astype("float32"), pixels.tolist(), pixels[..., None]):
            self.assertEqual(len(vx.regions(mask)), 3)
        for least, kind in ((0, ValueError), (1.5, TypeError), (None, TypeError)):
            self.assertRaisesRegex(kind, "least", vx.regions, marks, least)
        for wrong, words in (
                (numpy.ma.masked_less(pixels, 9), "some of these samples are masked"),
                ("marks.png", "this is 'marks.png': context.load"), (None, "None is no picture"),
                (numpy.zeros((4, 5, 3), "uint8"), r"\(4, 5, 3\): make a grey one of it"),
                (numpy.zeros((0, 5), "uint8"), r"not \(0, 5\)"), (pixels[0], r"not \(30,\)"),
                (numpy.array([["a"]]), "not ndarray of the type <U1"),
                (self.context.min_max(), "not MinMax"), ([[1], [2, 3]], "marks")):
            with self.subTest(words), self.assertRaisesRegex(vx.BadPicture, words):
                vx.regions(wrong)
        with self.assertRaisesRegex(vx.OptimizedAway, "virtual image"):
            vx.regions(self.context.graph().virtual_image(vx.U8))

    @unittest.skipUnless(numpy and importlib.util.find_spec("PIL"), "PIL isn't installed")
    def test_regions_of_a_palette(self):
        """In this picture of PIL, 0 is the number of white."""
        import PIL.Image
        marks = PIL.Image.new("P", (2, 1))
        marks.putpalette([255, 255, 255, 0, 0, 0])
        self.assertRaisesRegex(vx.BadPicture, "with a palette", vx.regions, marks)


@needs_program
class TestCommandLine(FolderTest):
    def run_command(self, *words, status=0, stdout=subprocess.PIPE, before=""):
        """Runs a command. `before` is run first, by the shell that starts the command."""
        command = [sys.executable, "-m", "feqyldan", *words]
        if before:
            command = ["bash", "-c", f'{before}"$0" "$@"', *command]
        run = subprocess.run(command, cwd=self.folder,
                             env={**os.environ, "PYTHONPATH": PACKAGE, **VARIABLES,
                                  "PYTHONDONTWRITEBYTECODE": "1"}, timeout=90,
                             stdin=subprocess.DEVNULL, stdout=stdout, stderr=subprocess.PIPE,
                             text=True, errors="surrogateescape")
        self.assertEqual(run.returncode, status, run.stderr)
        return run.stdout, run.stderr

    def setUp(self):
        super().setUp()
        with vx.Server(SERVED) as server, server.context() as context:
            graph, camera = station(context)
            graph.save(self.path("station.json"), inputs=[camera])
        for number, picture in enumerate(pictures(3)):
            vx.write_pgm(self.path(f"part{number}.pgm"), picture)

    def test_pictures_and_numbers(self):
        self.run_command("run", "station.json", "--in", "part*.pgm", "--out", "marks/", "--csv",
                         "found.csv")
        with open(self.path("found.csv"), newline="") as file:
            lines = [*csv.DictReader(file)]
        self.assertEqual([line["picture"] for line in lines], [f"part{k}.pgm" for k in range(3)])
        for line in lines:
            self.assertEqual(sum(int(line[f"counts.{k}"]) for k in range(3)), 48)
            self.assertEqual(line["marks.marked"], line["counts.2"])
        _, said = self.run_command("run", "station.json", "--in", "part1.pgm", "--out", "found.csv",
                                   status=1)
        self.assertEqual(said, "feqyldan: --out found.csv isn't a folder: name another one\n")
        left = os.listdir(self.path("marks"))
        self.assertIn("part2.marks.png", left)
        # PNG has no negative samples.
        self.assertIn("part2.edges.npy", left)

    def test_without_a_folder_numbers_are_printed(self):
        said, _ = self.run_command("run", "station.json", "--in", "part1.pgm")
        self.assertEqual(said.splitlines()[1].split(",")[0], "part1.pgm")

    def test_a_name_that_controls_a_terminal(self):
        self.put("a\x1b]0;b\x07\x9b.pgm", "")
        _, said = self.run_command("run", "station.json", "--in", "a*.pgm", "--skip", status=3)
        self.assertIn(r"skipped a\x1b]0;b\x07\x9b.pgm: ", said)

    def test_pictures_that_are_skipped(self):
        vx.write_pgm(self.path("part1.pgm"), [[1, 2]])
        self.put("part3.pgm", "P5 8 6 255 cut")
        self.put("part4.pgm", "")
        words = "run", "station.json", "--in", "part*.pgm"
        for more, status in ((("--skip", "--csv", "a.csv"), 3), (("--csv", "b.csv"), 1)):
            _, said = self.run_command(*words, *more, status=status)
            self.assertIn("part1.pgm: write 2 by 1 U8 samples", said)
            with open(self.path(more[-1]), newline="") as file:
                lines = [line["picture"] for line in csv.DictReader(file)]
            self.assertEqual(lines, ["part0.pgm", "part2.pgm"] if status == 3 else ["part0.pgm"])
            if status == 3:
                self.assertRegex(said, r"skipped part3.pgm: .*cut off(.|\n)*skipped part4.pgm: .* "
                                       r"is empty(.|\n)*feqyldan: 3 of 5 pictures were skipped$")
        _, said = self.run_command("run", "station.json", "--in", "part3.pgm", "part4.pgm",
                                   "--skip", "--out", "marks", status=3)
        self.assertIn("2 of 2 pictures were skipped", said)
        # It may have been removed meanwhile; a pattern without a file is a mistake.
        _, said = self.run_command("run", "station.json", "--in", "none.pgm", "part2.pgm", "--skip",
                                   status=3)
        self.assertIn("skipped none.pgm: No such file", said)
        self.run_command("run", "station.json", "--in", "none*.pgm", "--skip", status=1)

    def test_images_of_an_earlier_run(self):
        """Those of a picture that is skipped now were taken for results of this run, and so were
        those in the other format."""
        words = "run", "station.json", "--in", "part1.pgm", "none.pgm", "part2.pgm", "--out", "out"
        self.run_command(*words, "--skip", status=3)
        there = sorted(os.listdir(self.path("out")))
        for name in ("part1.edges.png", "none.marks.png", "part1.marks.npy", "part3.marks.png"):
            self.put(f"out/{name}", "older")
        vx.write_pgm(self.path("part2.pgm"), [[1, 2]])
        self.run_command(*words, "--skip", status=3)
        self.assertEqual(sorted(os.listdir(self.path("out"))), sorted(
            ["part1.marks.npy", "part3.marks.png",
             *(name for name in there if not name.startswith("part2"))]))
        # Without --skip a run that fails removes nothing.
        self.put("out/part2.marks.png", "older")
        self.run_command(*words, status=1)
        self.assertIn("part2.marks.png", os.listdir(self.path("out")))

    def test_a_file_whose_name_is_the_pattern(self):
        """It hid the other files that match."""
        def pictures_of(*words, **others):
            lines, said = self.run_command("run", "station.json", "--in", *words, **others)
            return said or [line.partition(",")[0] for line in lines.splitlines()[1:]]

        for name in ("part*.pgm", "part[12].pgm", "one[3].pgm"):
            shutil.copy(self.path("part0.pgm"), self.path(name))
        self.assertEqual(pictures_of("part*.pgm"), ["part0.pgm", "part1.pgm", "part2.pgm",
                                                    "part*.pgm", "part[12].pgm"])
        self.assertEqual(pictures_of("part[12].pgm", status=1),
                         "feqyldan: part[12].pgm is the name of a file, and a pattern that matches "
                         "part1.pgm: rename the file, or name it alone, as in 'part[[]12].pgm'\n")
        self.assertEqual(pictures_of("part[[]12].pgm", "one[3].pgm"), ["part[12].pgm",
                                                                       "one[3].pgm"])

    def test_a_csv_file_of_an_earlier_run(self):
        """It stays until there is a result."""
        self.put("cut.pgm", "P5 8 6 255 cut")
        self.put("found.csv", "of an earlier run")
        words = "run", "station.json", "--csv", "found.csv", "--in", "cut.pgm"
        self.run_command(*words, status=1)
        self.assertEqual(read_bytes(self.path("found.csv")), b"of an earlier run")
        # No picture has a result.
        self.run_command(*words, "--skip", status=3)
        lines = read_bytes(self.path("found.csv")).splitlines()
        self.assertTrue(len(lines) == 1 and lines[0].startswith(b"picture,"), lines)

    def test_a_pattern_of_what_cannot_be_read(self):
        """A link to nothing and a named pipe were left out without a word."""
        os.symlink("nothing.pgm", self.path("part3.pgm"))
        os.mkfifo(self.path("part4.pgm"))
        words = "run", "station.json", "--in", "part[234].pgm"
        _, said = self.run_command(*words, "--skip", status=3)
        self.assertRegex(said, r"skipped part3.pgm: No such file(.|\n)*skipped part4.pgm: it isn't "
                               r"a regular file(.|\n)*feqyldan: 2 of 3 pictures were skipped$")
        self.run_command(*words, status=1)

    def test_a_message_names_its_picture(self):
        """Also one whose name is among the words."""
        self.copying(8, 6)
        for name in ("1", "U8", "write"):
            vx.write_pgm(self.path(name), [[1, 2]])
        _, said = self.run_command("run", "copy.json", "--in", "1", "U8", "write", "--skip",
                                   status=3)
        self.assertEqual([line.partition(" 2 by 1 U8 ")[0] for line in said.splitlines()[:3]],
                         [f"feqyldan: skipped {name}: write" for name in ("1", "U8", "write")])
        _, said = self.run_command("run", "copy.json", "--in", "part1.pgm", "1", status=1)
        self.assertTrue(said.startswith("feqyldan: 1: write 2 by 1 U8 "), said)

    def test_patterns_in_two_options(self):
        words = "run", "station.json", "--in", "part1.pgm"
        self.assertEqual(self.run_command(*words, "part2.pgm"),
                         self.run_command(*words, "--in", "part2.pgm"))

    def test_standard_output(self):
        words = "run", "station.json", "--in", "part1.pgm"
        plain, _ = self.run_command(*words)
        said, _ = self.run_command(*words, "--csv", "-", "--out", "marks")
        self.assertEqual(said, plain)
        self.assertFalse(os.path.exists(self.path("-")))
        # It is closed.
        for command in (words, ("draw", "station.json"), ("--help",)):
            _, said = self.run_command(*command, status=1, before=">&- ")
            self.assertEqual(said, "feqyldan: standard output is closed: send it to a file, as in "
                                   "> FILE\n")
        self.run_command(*words, "--out", "marks", before=">&- ")
        self.run_command("run", "none.json", "--in", "part1.pgm", status=1, before="2>&- ")
        # Its reader has ended, before the words of argparse or ours come.
        for command in (("--help",), ("run", "--help"), words):
            _, said = self.run_command(*command, status=1, before="exec > >(exec true); sleep 1; ")
            self.assertEqual(said, "")

    def test_a_reader_of_the_numbers_that_ends(self):
        """The lines are more than a pipe holds, so the run can't end before its reader."""
        self.counting()
        os.mkfifo(self.path("pipe"))
        reader = "timeout 60 head -c 1 pipe > /dev/null 2>&1 & "
        _, said = self.run_command("run", "counts.json", "--in", *["part1.pgm"] * 200, "--csv",
                                   "pipe", status=1, before=reader)
        self.assertEqual(said, "feqyldan: [Errno 32] Broken pipe: 'pipe'\n")

    def test_full_disks(self):
        words = "run", "station.json", "--in", "part*.pgm"
        # Python may write each text at once, or what is left at the end.
        for is_at_once, command in itertools.product(("", "1"), (
                words, ("draw", "station.json"), ("--help",), ("--version",))):
            with open("/dev/full", "w") as full:
                _, said = self.run_command(*command, status=1, stdout=full,
                                           before=f"PYTHONUNBUFFERED={is_at_once} ")
            self.assertEqual(said, "feqyldan: [Errno 28] No space left on device: 'standard output'"
                                   "\n")
        _, said = self.run_command(*words, "--csv", "/dev/full", status=1)
        self.assertEqual(said, "feqyldan: [Errno 28] No space left on device: '/dev/full'\n")
        # A file may have 1,024 bytes.
        self.copying(64, 64)
        vx.write_pgm(self.path("noise.pgm"), memoryview(os.urandom(4096)).cast("B", [64, 64]))
        _, said = self.run_command("run", "copy.json", "--in", "noise.pgm", "--out", "marks",
                                   status=1, before="ulimit -f 1; ")
        self.assertEqual(said, "feqyldan: [Errno 27] File too large: 'marks/noise.png'\n")
        self.assertEqual(os.listdir(self.path("marks")), [])

    def test_an_older_csv_file_stays_until_there_is_a_result(self):
        """Neither an image nor the first lines that can't be saved replace it. A file may have
        1,024 bytes."""
        self.copying(64, 64)
        vx.write_pgm(self.path("noise.pgm"), memoryview(os.urandom(4096)).cast("B", [64, 64]))
        self.counting()
        for words, file in ((("copy.json", "--in", "noise.pgm", "--out", "marks"),
                             "marks/noise.png"),
                            (("counts.json", "--in", "part1.pgm"), "found.csv")):
            self.put("found.csv", "old")
            _, said = self.run_command("run", *words, "--csv", "found.csv", status=1,
                                       before="ulimit -f 1; ")
            self.assertEqual(said, f"feqyldan: [Errno 27] File too large: '{file}'\n")
            self.assertEqual(read_bytes(self.path("found.csv")), b"old")
            self.assertEqual([name for name in os.listdir(self.folder) if name[0] == "."], [])

    def test_each_line_of_a_csv_file_is_whole(self):
        """Also the last one on a full disk."""
        words = "run", "station.json", "--in", *["part1.pgm"] * 60, "--csv", "found.csv"
        self.run_command(*words)
        whole = read_bytes(self.path("found.csv")).splitlines(keepends=True)
        self.run_command(*words, status=1, before="ulimit -f 1; ")
        found = read_bytes(self.path("found.csv")).splitlines(keepends=True)
        self.assertEqual(found, whole[: len(found)])
        self.assertLess(1024, sum(map(len, whole[: len(found) + 1])))

    def test_a_signal_leaves_no_file(self):
        """It comes when a picture is on its way to the disk, and another one when the file is
        removed."""
        self.copying(8, 6)
        both = [signal.SIGTERM, signal.SIGHUP]
        for first, second in (both, both[::-1]):
            # nohup has programs ignore SIGHUP.
            code = ("import os, signal, sys\n"
                    f"for number in {[*map(int, both)]}:\n"
                    "    signal.signal(number, signal.SIG_DFL)\n"
                    "def written(_):\n"
                    "    os.unlink = removed\n"
                    f"    os.kill(os.getpid(), {int(first)})\n"
                    "def removed(path):\n"
                    f"    os.kill(os.getpid(), {int(second)})\n"
                    "    os.remove(path)\n"
                    "os.fsync = written\n"
                    "from feqyldan.__main__ import main\n"
                    "sys.exit(main(sys.argv[1:]))")
            run = subprocess.run([sys.executable, "-c", code, "run", "copy.json", "--in",
                                  "part1.pgm", "--out", "marks"], cwd=self.folder, timeout=90,
                                 env={**os.environ, "PYTHONPATH": PACKAGE, **VARIABLES})
            self.assertEqual(run.returncode, 128 + first)
            self.assertEqual(os.listdir(self.path("marks")), [])

    def counting(self):
        """Writes a graph of 256 counts to a file."""
        self.put("counts.json", {"feqyldan": 1, "objects": {
            "camera": {"kind": "image", "format": "U8", "width": 8, "height": 6, "input": True},
            "counts": {"kind": "distribution", "bins": 256}}, "nodes": [
                {"function": "histogram", "input": "camera", "distribution": "counts"}]})

    def copying(self, width, height):
        """Writes a graph that copies its input to a file."""
        image = {"kind": "image", "format": "U8", "width": width, "height": height}
        self.put("copy.json", {
            "feqyldan": 1, "objects": {"camera": {**image, "input": True}, "marks": image},
            "nodes": [{"function": "max", "in1": "camera", "in2": "camera", "output": "marks"}]})

    @unittest.skipUnless(numpy and (importlib.util.find_spec("cv2")
                                    or importlib.util.find_spec("scipy")), "no OpenCV, no SciPy")
    def test_counts_of_regions(self):
        self.copying(5, 1)
        vx.write_pgm(self.path("two.pgm"), [[9, 9, 0, 0, 9]])
        for least, count in ((1, 2), (2, 1), (3, 0)):
            said, _ = self.run_command("run", "copy.json", "--in", "two.pgm", "--regions",
                                       str(least))
            self.assertEqual(said.splitlines(), ["picture,marks.marked,marks.regions",
                                                 f"two.pgm,3,{count}"])

    def test_names_that_arent_utf_8(self):
        name = os.fsdecode(b"part\xff.pgm")
        os.rename(self.path("part1.pgm"), self.path(name))
        said, _ = self.run_command("run", "station.json", "--in", name)
        self.assertIn(f"{name},", said)
        self.run_command("run", "station.json", "--in", name, "--csv", "a.csv", "--out", "marks")
        self.assertIn(os.fsencode(name) + b",", read_bytes(self.path("a.csv")))
        self.assertIn(os.fsdecode(b"part\xff.marks.png"), os.listdir(self.path("marks")))

    def test_what_is_no_file(self):
        """A named pipe would wait for somebody who writes to it, and for a socket it retries."""
        os.mkfifo(self.path("pipe"))
        for words, fault in ((("station.json", "--in", "pipe"), "isn't a regular file"),
                             (("pipe", "--in", "part1.pgm"), "isn't a regular file"),
                             (("station.json", "--in", "part1.pgm", "--socket", "station.json"),
                              "this isn't a socket")):
            start = time.monotonic()
            _, said = self.run_command("run", *words, status=1)
            self.assertRegex(said, f"^feqyldan: .*{fault}")
            self.assertRegex(said, "(pipe|station.json)")
            self.assertLess(time.monotonic() - start, 8)

    def test_version(self):
        said, _ = self.run_command("--version")
        self.assertEqual(said, f"feqyldan {vx.__version__}\n")

    def test_drawings(self):
        said, _ = self.run_command("draw", "station.json")
        self.assertIn("<svg", said)
        dot, _ = self.run_command("draw", "station.json", "--dot")
        self.assertIn("smooth[-1]", dot)
        # In any locale.
        self.plain("\u03a9")
        for words in ((), ("--dot",)):
            said, _ = self.run_command("draw", "plain.json", *words,
                                       before="PYTHONIOENCODING=latin-1 ")
            self.assertIn("\u03a9", said)

    def test_faults(self):
        vx.write_pgm(self.path("short.pgm"), [[1, 2]])
        for words, fault in (
                (("run", "station.json", "--in", "none*.pgm"), "no file matches none*.pgm"),
                (("run", "none.json", "--in", "part1.pgm"), "none.json"),
                (("run", "part1.pgm", "--in", "part1.pgm"), "part1.pgm"),
                (("run", "station.json", "--in", "."), "feqyldan: . is a folder: name its pic"),
                (("run", "station.json", "--in", "part1.pgm", "short.pgm"),
                 "feqyldan: short.pgm: write 2 by 1 U8 samples to image 2 \"camera\" (U8, 8 by 6) "
                 "(frame 2 of the stream): INVALID_DIMENSION")):
            _, said = self.run_command(*words, status=1)
            self.assertIn(fault, said)
            self.assertEqual(len(said.splitlines()), 1, said)
        self.run_command("walk", status=2)
        # No column would have their number.
        _, errors = self.run_command("run", "station.json", "--in", "part1.pgm", "--out", "out",
                                     "--regions", "40", status=2)
        self.assertIn("which --out alone doesn't save: give --csv", errors)
        for least in ("0", "-1", "x"):
            self.run_command("run", "station.json", "--in", "part1.pgm", "--regions", least,
                             status=2)

    def plain(self, *outputs):
        """Writes a graph with these outputs to a file, and twelve pictures of two samples, also as
        PNG."""
        image = {"kind": "image", "format": "U8", "width": 2, "height": 1}
        vx.write_pgm(self.path("clean.pgm"), [[0, 0]])
        self.put("plain.json", {
            "feqyldan": 1, "objects": {"camera": {**image, "input": True},
                                       "clean": {"kind": "image", "file": "clean.pgm"},
                                       **{name: image for name in outputs}},
            "nodes": [{"function": "not_", "input": "camera", "output": name} for name in outputs]})
        for folder in ("a", "b"):
            os.makedirs(self.path(folder), exist_ok=True)
            for number in range(12):
                vx.write_pgm(self.path(f"{folder}/f{number}.pgm"), [[number, 0]])
                vx.write_png(self.path(f"{folder}/f{number}.png"), [[number, 0]])

    def contents(self, folder):
        """Returns the files in a folder."""
        return {name: read_bytes(self.path(f"{folder}/{name}"))
                for name in os.listdir(self.path(folder))}

    def test_nothing_is_written_over_what_is_read(self):
        self.plain("marks")
        os.symlink("a", self.path("link"))
        # Folders that would be created, and a link to one.
        os.symlink("new/deep", self.path("far"))
        before = self.contents("a"), read_bytes(self.path("plain.json"))
        for words in (("--out", "a"), ("--out", "link"), ("--csv", "a/f7.png"),
                      ("--csv", "plain.json"), ("--csv", "clean.pgm"), ("--out", "new/../a"),
                      ("--csv", "new/../plain.json"),
                      ("--out", "new/deep", "--csv", "far/../../a/f7.png")):
            with self.subTest(words):
                _, said = self.run_command("run", "plain.json", "--in", "a/*.png", *words, status=1)
                self.assertRegex(said, "would overwrite .*, which is read: name another")
        self.assertEqual((self.contents("a"), read_bytes(self.path("plain.json"))), before)
        self.assertFalse(os.path.exists(self.path("new")))
        _, said = self.run_command("run", "plain.json", "--in", "b/f1.pgm", "--out", "c", "--csv",
                                   "c/f1.png", status=1)
        self.assertRegex(said, "--csv c/f1.png would be overwritten by the image of b/f1.pgm")
        # Of other names they may be where the pictures are.
        self.run_command("run", "plain.json", "--in", "b/f1.pgm", "--out", "b", "--csv", "b/b.csv")
        self.assertTrue(os.path.exists(self.path("b/b.csv")))

    def test_what_is_no_file_at_the_name_of_an_image(self):
        """By a link, two images went to one file, or one to a file that isn't in the folder. A pipe
        waited for a reader."""
        self.plain("marks")
        self.put("a text", "words")
        os.mkdir(self.path("marks"))
        there = self.path("marks/f1.png")
        for make in (*(partial(os.symlink, target) for target in ("f2.png", "../a text",
                                                                  "../b/none")),
                     os.mkfifo, os.mkdir):
            make(there)
            _, said = self.run_command("run", "plain.json", "--in", "a/*.pgm", "--out", "marks",
                                       status=1)
            self.assertIn("the image of a/f1.pgm would be marks/f1.png, which is a link, a folder "
                          "or a pipe, and no file: remove it", said)
            self.assertEqual(os.listdir(self.path("marks")), ["f1.png"])
            (os.rmdir if make is os.mkdir else os.remove)(there)
        self.assertEqual(read_bytes(self.path("a text")), b"words")

    def test_folders_that_cannot_be_made(self):
        self.plain("marks")
        for words, named in ((("--out", ""), "--out ''"), (("--out", "a text/b"), "--out a text/b"),
                             (("--csv", "a text/b"), "the folder of --csv a text/b")):
            self.put("a text", "words")
            _, said = self.run_command("run", "plain.json", "--in", "a/f1.pgm", *words, status=1)
            self.assertEqual(said, f"feqyldan: {named} isn't a folder: name another one\n")

    def test_numbers_for_standard_output_of_another_encoding(self):
        """They are in UTF-8, as in a file."""
        self.plain("m\xe4rk")
        printed, _ = self.run_command("run", "plain.json", "--in", "a/f1.pgm",
                                      before="PYTHONIOENCODING=ascii PYTHONUTF8=0 ")
        self.assertIn("m\xe4rk.marked", printed)

    def test_pictures_of_one_name(self):
        self.plain("marks")
        _, said = self.run_command("run", "plain.json", "--in", "a/*.pgm", "b/*.pgm", "--out",
                                   "marks", status=1)
        self.assertIn("the images of a/f0.pgm and of b/f0.pgm would both be marks/f0.png", said)
        self.assertFalse(os.path.exists(self.path("marks")))
        # One picture several times is no fault, unless its images may differ.
        self.run_command("run", "plain.json", "--in", "a/*.pgm", "a/f1.pgm", "--out", "marks")
        self.assertEqual(len(os.listdir(self.path("marks"))), 12)
        image = {"kind": "image", "width": 2, "height": 1}
        self.put("sums.json", {
            "feqyldan": 1, "objects": {"camera": {**image, "format": "U8", "input": True},
                                       "sums": {**image, "format": "S16"}},
            "nodes": [{"function": "accumulate", "input": "camera", "accum": "sums"}]})
        _, said = self.run_command("run", "sums.json", "--in", "a/f1.pgm", "a/f1.pgm", "--out",
                                   "sums", status=1)
        self.assertIn("a/f1.pgm is named twice, and its images may differ, since the graph keeps "
                      "sums, by accumulate", said)

    def test_outputs_with_a_slash(self):
        self.plain("marks", "../evil")
        words = "run", "plain.json", "--in", "a/f1.pgm"
        _, said = self.run_command(*words, "--out", "marks", status=1)
        self.assertIn('plain.json: the name "../evil" has a "/"', said)
        self.run_command(*words)

    def test_outputs_with_a_letter(self):
        """It is shown as it is."""
        self.plain("marks", "Ma\xdf/e")
        _, said = self.run_command("run", "plain.json", "--in", "a/f1.pgm", "--out", "marks",
                                   status=1)
        self.assertIn('the name "Ma\xdf/e" has a "/"', said)

    def test_outputs_with_too_long_a_name(self):
        self.plain("marks", "\xe4" * 125)
        _, said = self.run_command("run", "plain.json", "--in", "a/f1.pgm", "--out", "marks",
                                   status=1)
        self.assertRegex(said, "the image of a/f1.pgm would be marks/f1.\xe4+.png, which has 257 "
                         "bytes, and a file name at most 255: rename the picture, or the image")
        self.assertFalse(os.path.exists(self.path("marks")))

    def test_outputs_that_are_in_no_file_name(self):
        for name, fault, before in (
                ("a\0b", "the name 'a\\x00b' isn't text", ""),
                ("\u03a9", r'the name "\u03a9" has a character that a file name',
                 "LC_ALL=C PYTHONCOERCECLOCALE=0 PYTHONUTF8=0 ")):
            self.plain("marks", name)
            _, said = self.run_command("run", "plain.json", "--in", "a/f1.pgm", "--out", "marks",
                                       status=1, before=before)
            self.assertIn(fault, said)
            self.assertFalse(os.path.exists(self.path("marks")))

    def test_natural_order(self):
        """Folders aren't pictures; the folder of the CSV file is created."""
        self.plain("marks")
        os.mkdir(self.path("a/f30.pgm"))
        self.run_command("run", "plain.json", "--in", "a/*.pgm", "--csv", "new/found.csv")
        with open(self.path("new/found.csv"), newline="") as file:
            lines = [*csv.DictReader(file)]
        self.assertEqual([line["picture"] for line in lines],
                         [f"a/f{number}.pgm" for number in range(12)])

    def test_help(self):
        said, _ = self.run_command("run", "--help")
        said = " ".join(said.split())
        for words in ("natural order", "standard output", ".npy for U32", "folder is created"):
            self.assertIn(words, said)
        self.assertNotIn("times", said)


if __name__ == "__main__":
    unittest.main()
