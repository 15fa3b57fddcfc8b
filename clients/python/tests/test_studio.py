"""The studio without a browser: runs of edited graphs, and the graph file."""

import contextlib
import gc
import importlib.util
import io
import json
import os
import random
import socket
import stat
import tempfile
import threading
import time
import unittest
from unittest import mock

from program import PROGRAM, needs_program, of_a_process, vx
from studio_edits import check_edits
from test_graph_files import FolderTest
from feqyldan.__main__ import main
from feqyldan.functions import FUNCTIONS, parameters_of
from feqyldan.graph_drafts import outputs_of
from feqyldan.images import AnyImage
from feqyldan.samples import numpy_module
from feqyldan.studio.bench import Bench
from feqyldan.studio.calls import Studio
from feqyldan.studio.document import Document
from feqyldan.studio.drafts import Blobs
from feqyldan.studio.web import Refusal
from feqyldan.verdicts import TAKEN

WIDTH, HEIGHT = 12, 9


def image(**fields):
    return {"kind": "image", "format": "U8", "width": WIDTH, "height": HEIGHT, **fields}


def contents(*nodes, **objects):
    return {"feqyldan": 1, "objects": {"camera": image(input=True), **objects}, "nodes": [*nodes]}


def unpacked(packed):
    """Returns the head and the parts of a reply, as the page reads them."""
    content = packed.content()
    length = int.from_bytes(content[:4], "little")
    head = json.loads(content[4 : 4 + length])
    return head, [content[4 + length + at : 4 + length + at + size] for at, size in head["parts"]]


class StudioTest(FolderTest):
    """A folder with three pictures and a graph file."""

    def setUp(self):
        super().setUp()
        chance = random.Random(2)
        self.pictures = [self.path(f"part{number}.pgm") for number in range(3)]
        self.rows = [[[chance.randrange(256) for _ in range(WIDTH)] for _ in range(HEIGHT)]
                     for _ in self.pictures]
        for path, rows in zip(self.pictures, self.rows):
            vx.write_pgm(path, rows)
        self.file = self.path("station.json")

    def studio(self, told=None, pictures=None):
        if told is not None:
            self.put("station.json", vx.graph_text(told))
        made = Studio(self.file, self.pictures if pictures is None else pictures)
        self.addCleanup(made.close)
        return made.calls

    def save(self, calls, told, name="station.json", **more):
        """Saves contents as a page does that has just been loaded."""
        about = calls["about"]({})
        stamp = about["stamp"] if name == about["name"] else None
        return calls["save"]({"contents": told, "name": name, "stamp": stamp, **more})

    def bench(self, pictures=None):
        made = Bench(self.file, self.pictures if pictures is None else pictures, Blobs())
        self.addCleanup(made.close)
        return made


INVERTING = {"function": "not_", "input": "camera", "output": "out"}


BLACK = [[0] * WIDTH] * HEIGHT
REMEMBERING = contents(
    {"function": "accumulate", "input": "camera", "accum": "sums"},
    {"function": "max", "in1": "camera", "in2": "camera", "output": "old[0]"},
    {"function": "absdiff", "in1": "camera", "in2": "old[-1]", "output": "moved"},
    sums=image(format="S16"), moved={"kind": "virtual image"},
    old=image(kind="delay", slots=2, ages=True))


def difference(rows, others):
    """Returns the samples of AbsDiff in a list."""
    return [abs(one - other) for pair in zip(rows, others) for one, other in zip(*pair)]


class Work:
    """Counts what runs ask of the server within a `with`: pictures that are written, runs of whole
    graphs, and runs of single nodes by their functions."""

    def __init__(self):
        self.done = {"pictures": 0, "graphs": 0}
        self._patches = contextlib.ExitStack()

    def __enter__(self):
        for kind, method, name in ((AnyImage, "write", lambda *_: "pictures"),
                                   (vx.Graph, "process", lambda *_: "graphs"),
                                   (vx.Vxu, "_run", lambda _, call: call.name)):
            self._patches.enter_context(mock.patch.object(
                kind, method, self._counting(getattr(kind, method), name)))
        return self

    def _counting(self, method, name):
        def counted(*arguments):
            what = name(*arguments)
            self.done[what] = self.done.get(what, 0) + 1
            return method(*arguments)

        return counted

    def __exit__(self, *_):
        self._patches.close()


@needs_program
class TestRuns(StudioTest):
    def test_random_edits(self):
        seen = check_edits(80)
        for kind in ("graphs", "graphs with sums or delays", "virtual images", "runs with faults"):
            self.assertGreater(seen[kind], 0, kind)

    def test_only_nodes_below_a_change_run(self):
        told = contents(INVERTING, {"function": "threshold", "input": "out", "threshold": "limit",
                                    "output": "marks"},
                        out={"kind": "virtual image"}, marks=image(),
                        limit={"kind": "threshold", "format": "U8", "above": 9})
        bench = self.bench()
        bench.run(told, 0)
        ran, run = [], vx.Vxu._run
        with mock.patch.object(vx.Vxu, "_run", autospec=True, side_effect=lambda vxu, call: (
                ran.append(call.name), run(vxu, call))):
            bench.run(told, 0)
            self.assertEqual(ran, [])
            told["objects"]["limit"]["above"] = 99
            outcome = bench.run(told, 0)
            self.assertEqual(ran, ["threshold"])
            bench.run(told, 1)
            self.assertEqual(ran, ["threshold", "not_", "threshold"])
        self.assertEqual(outcome.shown["marks"].samples.tolist(), [
            [255 * (255 - sample > 99) for sample in row] for row in self.rows[0]])

    def test_a_node_at_fault_and_the_rest(self):
        told = contents(INVERTING, {"function": "not_", "input": "deep", "output": "bad"},
                        {"function": "not_", "input": "bad", "output": "late"},
                        out={"kind": "virtual image"}, bad=image(), late=image(),
                        deep=image(format="S16"))
        outcome = self.bench().run(told, 0)
        self.assertEqual([(fault.node, fault.code) for fault in outcome.faults],
                         [(2, "INVALID_FORMAT")])
        self.assertEqual({at: str(place) for at, place in outcome.waiting.items()}, {3: "node 2"})
        self.assertEqual(set(outcome.shown), {"camera", "out", "deep"})
        self.assertEqual(outcome.shown["out"].samples.tolist(),
                         [[255 - sample for sample in row] for row in self.rows[0]])

    def test_a_picture_of_another_size(self):
        other = self.path("other.pgm")
        vx.write_pgm(other, [[1, 2], [3, 4]])
        told = contents(INVERTING, out=image())
        bench = self.bench([*self.pictures, other])
        fault, = bench.run(told, 3).faults
        self.assertEqual((fault.object, fault.code), ("camera", "INVALID_DIMENSION"))
        self.assertIn("(2, 2)", fault.words)
        self.assertEqual(bench.run(told, 1).faults, [])
        # A graph with sums runs on all pictures before.
        told = contents({"function": "accumulate", "input": "camera", "accum": "sums"},
                        sums=image(format="S16"))
        bench = self.bench([other, *self.pictures])
        fault, = bench.run(told, 2).faults
        self.assertIn("other.pgm", fault.words)

    def test_sums_and_delays(self):
        told = contents({"function": "accumulate", "input": "camera", "accum": "sums"},
                        {"function": "max", "in1": "camera", "in2": "camera",
                         "output": "old[0]"},
                        {"function": "absdiff", "in1": "camera", "in2": "old[-1]",
                         "output": "moved"},
                        sums=image(format="S16"), moved={"kind": "virtual image"},
                        old=image(kind="delay", slots=2, ages=True))
        bench = self.bench()
        for at in (2, 0, 1, 1):
            shown = bench.run(told, at).shown
            self.assertEqual(shown["sums"].samples.tolist(), [
                [sum(rows[y][x] for rows in self.rows[: at + 1]) for x in range(WIDTH)]
                for y in range(HEIGHT)])
            before = self.rows[at - 1] if at else [[0] * WIDTH] * HEIGHT
            self.assertEqual(shown["old[-1]"].samples.tolist(), before)
            self.assertEqual(shown["old[0]"].samples.tolist(), self.rows[at])
            self.assertEqual(shown["moved"].samples.tolist(), [
                [abs(now - then) for now, then in zip(*rows)]
                for rows in zip(self.rows[at], before)])

    def test_the_graph_runs_once_on_each_picture(self):
        """Sums and delays depend on earlier pictures. The strip goes through all of them once."""
        pictures = self.pictures * 4
        calls = self.studio(REMEMBERING, pictures)
        told = {"contents": REMEMBERING, "name": "moved"}
        with Work() as work:
            heads = [unpacked(calls["strip"]({**told, "at": at}))[0] for at in range(len(pictures))]
        self.assertEqual(work.done, {"pictures": 12, "graphs": 0, "accumulate": 12, "max": 12,
                                     "absdiff": 12})
        self.assertEqual([head["marked"] for head in heads], [
            sum(map(bool, difference(self.rows[at % 3], self.rows[at % 3 - 1] if at else BLACK)))
            for at in range(len(pictures))])

    def test_a_run_goes_on_to_a_later_picture(self):
        bench = self.bench(self.pictures * 4)
        with Work() as work:
            for at in (1, 1, 2, 7, 7, 11):
                shown = bench.run(REMEMBERING, at).shown
                self.assertEqual(shown["sums"].samples.tolist(), self.sums(at), at)
        self.assertEqual(work.done, {"pictures": 12, "graphs": 8, "accumulate": 4, "max": 4,
                                     "absdiff": 4})
        # An earlier picture, and other contents, need the sums anew.
        for at, told in ((4, REMEMBERING), (6, {**REMEMBERING, "nodes": REMEMBERING["nodes"][:1]})):
            with Work() as work:
                shown = bench.run(told, at).shown
            self.assertEqual(shown["sums"].samples.tolist(), self.sums(at))
            self.assertEqual((work.done["pictures"], work.done["graphs"]), (at + 1, at))

    def sums(self, at):
        """Returns the sums of the pictures up to an index."""
        return [[sum(self.rows[picture % 3][y][x] for picture in range(at + 1))
                 for x in range(WIDTH)] for y in range(HEIGHT)]

    def test_a_bad_picture_among_those_before(self):
        other = self.path("other.pgm")
        vx.write_pgm(other, [[1, 2], [3, 4]])
        bench = self.bench([*self.pictures, other, *self.pictures])
        for at, is_bad in ((2, False), (3, True), (5, True), (3, True), (1, False)):
            with Work() as work:
                outcome = bench.run(REMEMBERING, at)
            self.assertEqual([fault.object for fault in outcome.faults], ["camera"] * is_bad)
            self.assertEqual({*map(str, outcome.waiting.values())}, {'object "camera"'} & {
                'object "camera"' * is_bad})
            self.assertEqual(bool(outcome.shown), not is_bad)
            # It isn't run again up to the bad picture.
            self.assertEqual(work.done["graphs"], 0 if is_bad else at)
        fault, = bench.run(REMEMBERING, 5).faults
        self.assertEqual(fault.code, "INVALID_DIMENSION")
        self.assertRegex(fault.words, r"^/.*/other.pgm: .*\(2, 2\)")

    def test_a_picture_that_is_written_anew_with_the_same_time(self):
        """In place, and of the same length."""
        bench, path = self.bench(), self.pictures[0]
        self.assertEqual(bench.run(REMEMBERING, 0).shown["camera"].samples.tolist(), self.rows[0])
        there = os.stat(path)
        with open(self.pictures[1], "rb") as other, open(path, "r+b") as file:
            file.write(other.read())
        os.utime(path, ns=(there.st_atime_ns, there.st_mtime_ns))
        self.assertEqual(bench.run(REMEMBERING, 0).shown["camera"].samples.tolist(), self.rows[1])

    def test_a_bad_picture_whose_name_is_in_the_words(self):
        self.addCleanup(os.chdir, os.getcwd())
        os.chdir(self.folder)
        vx.write_pgm("2", [[1, 2]])
        fault, = self.bench(["2", *self.pictures]).run(REMEMBERING, 1).faults
        self.assertRegex(fault.words, r"^2: .*\(1, 2\)")

    def test_values_of_other_types(self):
        """Each is a fault of its object or its node, and the rest of the graph runs."""
        told = contents({"function": ["not_"]}, INVERTING, out=image(),
                        table={"kind": "lookup table", "format": "U8", "entries": {}},
                        stored=image(samples={"kept": []}),
                        nameless={"kind": "image", "file": "a\0b.pgm"})
        calls = self.studio(told)
        light = calls["about"]({})["contents"]
        head, _ = unpacked(calls["run"]({"contents": light, "at": 0}))
        self.assertEqual([fault["object"] or fault["node"] for fault in head["faults"]],
                         ["table", "stored", "nameless", 1])
        self.assertEqual({*head["shown"]}, {"camera", "out"})
        self.save(calls, light)
        with open(self.file, encoding="utf-8") as file:
            self.assertEqual(json.load(file), told)

    def test_advice_for_an_input_that_is_not_connected(self):
        told = contents({"function": "absdiff", "in1": "camera", "output": "out"},
                        {"function": "threshold", "input": "camera", "output": "marks"},
                        out=image(), marks=image())
        head, _ = unpacked(self.studio()["run"]({"contents": told, "at": 0}))
        self.assertEqual([(fault["operand"], fault["advice"]) for fault in head["faults"]], [
            ("in2", "Choose an image in its menu, or drag a wire to it."), ("threshold", "")])

    def test_a_picture_that_is_written_anew(self):
        """Also one that the graph compares with, or that a run has passed."""
        told = contents({"function": "absdiff", "in1": "camera", "in2": "good", "output": "out"},
                        out=image(), good={"kind": "image", "file": "good.pgm"})
        vx.write_pgm(self.path("good.pgm"), BLACK)
        bench = self.bench()
        for name, shade in (("part1.pgm", 7), ("good.pgm", 5), ("part1.pgm", 9)):
            bench.run(told, 1)
            vx.write_pgm(self.path(name), [[shade] * WIDTH] * HEIGHT)
        self.assertEqual(bench.run(told, 1).shown["out"].samples.tolist(), [[4] * WIDTH] * HEIGHT)
        self.assertEqual(bench.run(REMEMBERING, 1).shown["moved"].samples.tolist()[0][0],
                         abs(self.rows[0][0][0] - 9))
        vx.write_pgm(self.path("part0.pgm"), [[3] * WIDTH] * HEIGHT)
        shown = bench.run(REMEMBERING, 2).shown
        self.assertEqual(shown["sums"].samples.tolist(),
                         [[sample + 12 for sample in row] for row in self.rows[2]])

    def test_a_picture_that_is_gone(self):
        told = contents(INVERTING, out=image(), good={"kind": "image", "file": "gone.pgm"})
        bench = self.bench([*self.pictures, self.path("gone.pgm")])
        for at, names in ((0, ["good"]), (3, ["camera", "good"])):
            faults = bench.run(told, at).faults
            self.assertEqual([fault.object for fault in faults], names)
            for fault in faults:
                self.assertEqual(fault.words, f"{self.path('gone.pgm')}: No such file or directory")
        fault, = self.bench([self.path("gone.pgm"), *self.pictures]).run(REMEMBERING, 2).faults
        self.assertEqual(fault.words, f"{self.path('gone.pgm')}: No such file or directory")

    def test_a_graph_that_no_longer_remembers(self):
        told = contents(INVERTING, out={"kind": "virtual image"})
        bench = self.bench()
        bench.run(told, 0)
        bench.run({**told, "objects": {**told["objects"], **REMEMBERING["objects"]}}, 1)
        self.assertEqual(bench.run(told, 0).shown["out"].samples.tolist(),
                         [[255 - sample for sample in row] for row in self.rows[0]])

    def test_objects_of_earlier_runs_make_room(self):
        """Pictures that need more than half the quota, of ever other sizes."""
        with mock.patch("feqyldan.studio.bench.QUOTA", 2**21):
            bench = self.bench([])
            for width in range(900, 1000, 9):
                big = {"kind": "image", "format": "U8", "width": width, "height": 1000}
                told = contents(INVERTING, camera=big, out={**big})
                outcome = bench.run(told, 0)
                self.assertEqual((outcome.faults, set(outcome.shown)), ([], {"camera", "out"}))
            big["width"] = 3000
            faults = bench.run(contents(INVERTING, camera=big, out={**big}), 0).faults
            self.assertEqual([(fault.object, fault.code) for fault in faults],
                             [("camera", "NO_RESOURCES"), ("out", "NO_RESOURCES")])

    def test_objects_with_ever_other_names_are_released(self):
        bench = self.bench([])
        for number in range(60):
            node = {**INVERTING, "output": f"out{number}"}
            bench.run(contents(node, **{f"out{number}": image()}), 0)
        gc.collect()
        self.assertLess(bench._context.usage().objects, 30)

    @unittest.skipUnless(importlib.util.find_spec("cv2") and numpy_module(), "no OpenCV")
    def test_pictures_of_other_formats(self):
        import cv2
        numpy = numpy_module()
        paths = [self.path(f"a.{kind}") for kind in ("png", "tif", "npy")]
        wide = numpy.array(self.rows[0], numpy.uint16) * 100
        for path in paths[:2]:
            cv2.imwrite(path, wide)
        numpy.save(paths[2], wide.astype(numpy.int16))
        for path in paths:
            told = Document(self.file, [path], Blobs()).read("station.json")["contents"]
            self.assertEqual(told["objects"]["camera"]["format"], "S16")
            shown = self.bench([path]).run(told, 0).shown["camera"]
            self.assertEqual(shown.samples.tolist(), wide.tolist())

    def test_an_image_that_was_written_is_black_again(self):
        bench, told = self.bench(), contents(INVERTING, out=image())
        self.assertTrue(any(map(any, bench.run(told, 0).shown["out"].samples.tolist())))
        told["nodes"] = []
        self.assertEqual(bench.run(told, 0).shown["out"].samples.tolist(),
                         [[0] * WIDTH] * HEIGHT)

    @of_a_process
    def test_a_server_that_ended(self):
        calls, told = self.studio(), contents(INVERTING, out=image())
        calls["run"]({"contents": told, "at": 0})
        bench = calls["run"].__self__._chosen
        bench._context.server._process.kill()
        with self.assertRaisesRegex(Refusal, "The next change starts another server") as caught:
            calls["run"]({"contents": told, "at": 1})
        self.assertEqual(caught.exception.status, 503)
        head, _ = unpacked(calls["run"]({"contents": told, "at": 1}))
        self.assertEqual((head["faults"], set(head["shown"])), ([], {"camera", "out"}))

    @unittest.skipUnless(numpy_module() and any(map(importlib.util.find_spec, ("cv2", "PIL"))),
                         "NumPy, and OpenCV or PIL, aren't installed")
    def test_each_function_by_run(self):
        """A saved file gives the shown images byte for byte: every function, border and policy."""
        for function in FUNCTIONS:
            for told in variants(function):
                with self.subTest(function, nodes=told["nodes"]):
                    self.compare_with_run(told)

    def compare_with_run(self, told):
        calls = self.studio(told)
        head, _ = unpacked(calls["run"]({"contents": told, "at": 2}))
        self.assertEqual(head["faults"], [])
        self.save(calls, told)
        self.assertEqual(main(["run", self.file, "--in", *self.pictures, "--out",
                               self.path("out"), "--csv", self.path("out.csv"), "--quiet"]), 0)
        shown = calls["run"].__self__._chosen.shown
        for name in {name for node in told["nodes"] for name in outputs_of(node).values()}:
            self.assertEqual(self.result(name, told), self.numbers_of(shown[name]), name)
        calls["run"].__self__.close()

    def numbers_of(self, one):
        if one.kind == "image":
            return one.samples.tolist()
        if one.kind == "distribution":
            return one.about["counts"]
        about = one.about
        return [about["min"], about["max"], about["min_count"], about["max_count"],
                *about["min_at"], *about["max_at"]]

    def result(self, name, told):
        """Returns what `run` has written of an object for the last picture."""
        images = [key for node in told["nodes"] for key in outputs_of(node).values()
                  if told["objects"][key]["kind"] == "image"]
        if name not in images:
            with open(self.path("out.csv"), encoding="utf-8") as file:
                heads, *lines = [line.strip().split(",") for line in file]
            return [int(value) for head, value in zip(heads, lines[-1])
                    if head.startswith(f"{name}.")]
        stem = self.path(os.path.join("out", f"part2.{name}" if len(images) > 1 else "part2"))
        with vx.Server(PROGRAM) as server, server.context() as context:
            path = next(stem + end for end in (".npy", ".png") if os.path.exists(stem + end))
            rows = context.load(path).read().tolist()
            for end in (".npy", ".png"):
                if os.path.exists(stem + end):
                    os.unlink(stem + end)
        return rows


# The arguments of a function's node, and the objects that they name.
ARGUMENTS = {"input": "camera", "in1": "camera", "in2": "good", "threshold": "limit",
             "lut": "table", "convolution": "kernel", "shift": 3, "distribution": "counts",
             "extremes": "found", "accum": "sums", "output": "out", "output_x": "across",
             "output_y": "down"}
OBJECTS = {"good": {"kind": "image", "file": "part1.pgm"},
           "limit": {"kind": "threshold", "format": "U8", "above": 99},
           "table": {"kind": "lookup table", "format": "U8", "entries": [*range(255, -1, -1)]},
           "kernel": {"kind": "convolution", "rows": [[0, 1, 0], [1, -5, 2], [0, 1, 0]]},
           "counts": {"kind": "distribution", "bins": 5}, "found": {"kind": "extremes"},
           "sums": image(format="S16"), "across": image(format="S16"), "down": image(format="S16")}


def variants(function):
    """Yields graph files with a node of a function, for each policy and border that it takes."""
    parameters = parameters_of(function)
    output = next(str(formats[2]) for formats in sorted(TAKEN[function], key=str)
                  if formats[0] == vx.U8 and formats[1] in (None, vx.U8))
    node = {"function": function, **{key: ARGUMENTS[key] for key in parameters
                                     if key in ARGUMENTS}}
    names = {"camera", *node.values()}
    objects = {name: told for name, told in {**OBJECTS, "out": image(format=output)}.items()
               if name in names}
    for policy in ["WRAP", "SATURATE"] if "policy" in parameters else [None]:
        for border in ["UNDEFINED", "REPLICATE", 9] if "border" in parameters else [None]:
            values = {"policy": policy, "border": border}
            yield contents({**node, **{key: value for key, value in values.items()
                                       if value is not None}}, **objects)


class TestCommand(StudioTest):
    """What `python3 -m feqyldan studio` refuses before it serves the page."""

    def refuses(self, words, *arguments):
        with mock.patch("sys.stderr", new_callable=io.StringIO) as said, mock.patch(
                "feqyldan.studio.web.Site.serve_forever", side_effect=AssertionError("it serves")):
            try:
                status = main(["studio", "--no-browser", *arguments])
            except SystemExit as end:
                status = end.code
        self.assertNotEqual(status, 0)
        self.assertRegex(said.getvalue(), words)

    def test_arguments(self):
        os.mkdir(self.path("empty"))
        self.put("data.json", "{}")
        for words, arguments in (
                ("a port must be from 0 to 65535, not 70000", ["--port", "70000"]),
                ("a port must be from 0 to 65535, not http", ["--port", "http"]),
                ("there is no folder .*/new: create it", [self.path("new/station.json")]),
                ("empty has no picture", [self.file, self.path("empty")]),
                ("no file matches .*none.png", [self.file, self.path("none.png")]),
                ("this isn't a graph file", [self.path("data.json")])):
            self.refuses(words, *arguments)

    @unittest.skipUnless(numpy_module(), "NumPy isn't installed")
    def test_a_first_picture_of_no_grey_samples(self):
        numpy, path = numpy_module(), self.path("part.npy")
        for shape, kind, words in (((4, 5, 3), "uint8", r"not \(4, 5, 3\): make a grey one"),
                                   ((4, 5), "float32", "must be uint8, int16 or uint32")):
            numpy.save(path, numpy.zeros(shape, kind))
            self.refuses(f"part.npy: .*{words}", self.file, path)

    def test_a_port_in_use(self):
        with socket.create_server(("127.0.0.1", 0)) as other:
            port = other.getsockname()[1]
            self.refuses(f"port {port} at 127.0.0.1: .*: give another one by --port",
                         "--port", str(port), self.file)

    def test_the_default_file(self):
        """The first word is the graph file only if it ends so."""
        with mock.patch("feqyldan.studio.serve") as serve:
            for arguments, wanted in (
                    ([], ("station.json", [])), ([self.folder], ("station.json", self.pictures)),
                    (["a.json", self.pictures[1]], ("a.json", self.pictures[1:2])),
                    ([self.path("part?.pgm")], ("station.json", self.pictures))):
                self.assertEqual(main(["studio", *arguments]), 0)
                self.assertEqual(serve.call_args[0], (*wanted, 0, True))


@needs_program
class TestFile(StudioTest):
    def text(self, name="station.json"):
        with open(self.path(name), "rb") as file:
            return file.read()

    def refused(self, status, call, words, **told):
        with self.assertRaisesRegex(Refusal, words) as caught:
            call(told)
        self.assertEqual(caught.exception.status, status)

    def test_a_new_file(self):
        calls = self.studio()
        about = calls["about"]({})
        self.assertEqual(about["contents"], contents())
        self.assertEqual((about["name"], calls["graphs"]({})), ("station.json", []))
        self.assertFalse(os.path.exists(self.file))
        told = contents(INVERTING, out=image())
        reply = self.save(calls, told)
        self.assertEqual((reply["fault"], calls["graphs"]({})), ("", ["station.json"]))
        self.assertEqual(self.text().decode(), vx.graph_text(told))
        self.assertEqual(stat.S_IMODE(os.stat(self.file).st_mode), 0o644)

    def test_what_run_refuses(self):
        reply = self.save(self.studio(), contents())
        self.assertIn("it can't be an input: no node reads it", reply["fault"])

    def test_a_saved_file_that_no_server_reads(self):
        """The page learns that the file is saved, and its stamp."""
        calls, told = self.studio(), contents(INVERTING, out=image())
        for error in (vx.ServerEnded("the server ended"), vx.ProgramNotFound("no program")):
            with mock.patch("feqyldan.studio.bench.Server", side_effect=error):
                reply = self.save(calls, told)
            self.assertEqual((reply["fault"], reply["stamp"]),
                             (str(error), calls["about"]({})["stamp"]))

    def test_contents_that_no_file_can_have(self):
        calls = self.studio()
        about = calls["about"]({})
        for told, words in ((contents(*[INVERTING] * 257), "^a graph file has at most 256 nodes"),
                            ({**contents(), "more": 1}, "^a graph file has no field 'more'")):
            self.refused(400, calls["save"], words, **{**about, "contents": told})
        self.assertFalse(os.path.exists(self.file))

    def test_a_file_that_changes_while_it_is_read(self):
        """Its text isn't written for other contents."""
        first, second = contents(), contents(INVERTING, out=image())
        made = Document(self.file, self.pictures, Blobs())
        with mock.patch("feqyldan.studio.document.told_by", return_value=second), \
                mock.patch("feqyldan.studio.document.content_of", side_effect=[
                    vx.graph_text(told).encode() for told in (first, second, second, second)]):
            self.assertEqual(made.read("station.json")["contents"], second)
        made.save(second, "station.json", None, True)
        self.assertEqual(self.text().decode(), vx.graph_text(second))

    def test_the_same_contents_keep_the_bytes(self):
        told = contents(INVERTING, out=image())
        text = json.dumps(told, indent=4).encode() + b"\n\n"
        with open(self.file, "wb") as file:
            file.write(text)
        os.chmod(self.file, 0o640)
        calls = self.studio()
        self.save(calls, told)
        self.assertEqual(self.text(), text)
        self.assertEqual(stat.S_IMODE(os.stat(self.file).st_mode), 0o640)
        changed = contents(INVERTING, out=image(), more=image())
        self.save(calls, changed)
        self.assertEqual(self.text().decode(), vx.graph_text(changed))

    def test_a_value_of_another_type_is_changed(self):
        """Python holds 24.0 and 24 for equal, and 1 and true. `run` refuses 24.0 and 1 here."""
        node = {"function": "threshold", "input": "camera", "threshold": "limit", "output": "out"}
        for above, is_input in ((24.0, True), (24, 1)):
            limit = {"kind": "threshold", "format": "U8", "above": above}
            calls = self.studio(contents(node, out=image(), limit=limit,
                                         camera=image(input=is_input)))
            told = contents(node, out=image(), limit={**limit, "above": 24})
            self.assertEqual(self.save(calls, told)["fault"], "")
            self.assertEqual(self.text().decode(), vx.graph_text(told))

    def test_a_file_that_another_program_changed(self):
        told = contents(INVERTING, out=image())
        calls = self.studio(told)
        words = {"contents": told, "name": "station.json", "stamp": calls["about"]({})["stamp"]}
        for change in (lambda: self.put("station.json", "{}"), lambda: os.unlink(self.file)):
            change()
            self.refused(409, calls["save"], "changed by another program", **words)
            calls["save"]({**words, "sure": True})
            self.assertEqual(self.text().decode(), vx.graph_text(told))

    def test_two_pages(self):
        """A page doesn't replace what the other one has saved, and has a file of its own."""
        calls = self.studio(contents())
        one, other = calls["about"]({}), calls["about"]({})
        told = {"contents": contents(INVERTING, out=image()), "name": "station.json"}
        saved = calls["save"]({**told, "stamp": one["stamp"]})
        self.refused(409, calls["save"], "changed by another program or window", **told,
                     stamp=other["stamp"])
        self.put("other.json", vx.graph_text(contents(mine={"kind": "image", "file": "b.pgm"})))
        calls["open"]({"name": "other.json"})
        calls["save"]({**told, "contents": contents(), "stamp": saved["stamp"]})
        self.assertEqual(self.text().decode(), vx.graph_text(contents()))
        # The pictures of the other page's file stay pictures of this one.
        self.studio(contents(mine={"kind": "image", "file": "part0.pgm"}), pictures=[])
        self.assertEqual(calls["about"]({"name": "other.json"})["files"],
                         ["b.pgm", "part0.pgm", "part1.pgm", "part2.pgm"])

    def test_what_was_saved_is_there_after_a_reload(self):
        calls = self.studio()
        told = contents(INVERTING, out=image())
        self.save(calls, told)
        about = calls["about"]({"name": "station.json"})
        self.assertEqual((about["name"], about["contents"]), ("station.json", told))
        self.save(calls, contents(), "other.json")
        for name, wanted in (("other.json", contents()), ("station.json", told), ("", told),
                             ("data.json", told), ("../station.json", told)):
            self.assertEqual(calls["about"]({"name": name})["contents"], wanted, name)

    def test_another_name(self):
        told, calls = contents(INVERTING, out=image()), self.studio()
        self.put("other.json", vx.graph_text(contents()))
        self.put("data.json", "{}")
        for name in ("../a.json", "/tmp/a.json", "a.txt", ".a.json", "", "sub/a.json", "data.json"):
            self.refused(403, calls["save"], "", contents=told, name=name)
        for name, words in (("a\0.json", "has a character that a file name can't have"),
                            ("\ud800.json", "has a character that a file name can't have"),
                            ("\xe4" * 126 + ".json", "has 257 bytes, and a file name at most 255")):
            self.refused(403, calls["save"], words, contents=told, name=name)
        self.refused(409, calls["save"], "other.json exists already", contents=told,
                     name="other.json")
        self.assertEqual(self.save(calls, told, "new.json")["name"], "new.json")
        self.assertEqual(self.text("new.json").decode(), vx.graph_text(told))
        self.assertEqual(self.text("data.json"), b"{}")
        self.assertFalse(os.path.exists(self.file))

    def test_a_link_out_of_the_folder(self):
        """It may be the studio's own file, but no other one."""
        told = contents(INVERTING, out=image())
        with tempfile.TemporaryDirectory() as other:
            target = os.path.join(other, "target.json")
            for name in ("link.json", "station.json"):
                os.symlink(target, self.path(name))
            with open(target, "w", encoding="utf-8") as file:
                file.write(vx.graph_text(contents()))
            calls = self.studio()
            self.refused(403, calls["save"], "link.json is a link to a file in ", contents=told,
                         name="link.json", sure=True)
            self.save(calls, told, "station.json", sure=True)
            with open(target, encoding="utf-8") as file:
                self.assertEqual(file.read(), vx.graph_text(told))

    def test_open(self):
        calls = self.studio(contents())
        self.put("other.json", vx.graph_text(contents(INVERTING, out=image())))
        self.put("data.json", "{}")
        self.assertEqual(calls["graphs"]({}), ["other.json", "station.json"])
        for name in ("data.json", "../other.json", "part0.pgm", os.path.abspath(self.file)):
            self.refused(403, calls["open"], "none of the graph files", name=name)
        reply = calls["open"]({"name": "other.json"})
        self.assertEqual((reply["name"], reply["contents"]["nodes"]), ("other.json", [INVERTING]))
        self.assertEqual(calls["about"]({})["name"], "station.json")

    def test_a_file_that_the_page_cannot_show(self):
        for told, words in (({"a": 7}, 'object "a": an object must be a JSON object'),
                            ({}, "node 1: a node must be a JSON object"),
                            ({"a": {"width": float("inf")}}, 'object "a": it has a number that')):
            text = json.dumps({"feqyldan": 1, "objects": told, "nodes": [None]})
            self.put("station.json", text.replace("Infinity", "1e999"))
            with self.assertRaisesRegex(vx.GraphFileError, words):
                self.studio()

    def test_a_number_that_the_page_would_change(self):
        """JavaScript takes 100.0 for 100, and `run` refuses it."""
        calls = self.studio()
        for value, number in ((100.0, 100), ([[7, 1e2]], 100), (100.5, ""), (1e21, ""), (100, "")):
            self.put("real.json", {**contents(limit={"kind": "threshold", "above": value})})
            note = calls["open"]({"name": "real.json"})["note"]
            self.assertEqual(note, number and "The file has the number 100.0, which run refuses, "
                             "and this page shows 100: save the graph to write that.")

    def test_the_end_of_the_studio_waits_for_a_file(self):
        """Threads of calls end with the program."""
        studio, goes_on = Studio(self.file, []), threading.Event()
        with mock.patch("os.fsync", lambda _: goes_on.wait(30)):
            saving = threading.Thread(target=studio.calls["save"],
                                      args=({"contents": contents(), "name": "new.json"},))
            saving.start()
            while not any(name.startswith(".feq") for name in os.listdir(self.folder)):
                time.sleep(0.01)
            threading.Timer(0.3, goes_on.set).start()
            studio.close()
            self.assertEqual(self.text("new.json").decode(), vx.graph_text(contents()))
            saving.join()

    def test_only_the_studios_pictures(self):
        secret = self.path("secret.pgm")
        vx.write_pgm(secret, [[1, 2]])
        for file in ("secret.pgm", secret, "/etc/passwd", "../part0.pgm", "./part0.pgm"):
            told = contents(stolen={"kind": "image", "file": file})
            for name in ("run", "save", "strip"):
                self.refused(403, self.studio()[name], "none of the studio's picture files",
                             contents=told, at=0, name="stolen")
        told = contents(mine={"kind": "image", "file": "part0.pgm"})
        head, _ = unpacked(self.studio()["run"]({"contents": told, "at": 0}))
        self.assertIn("mine", head["shown"])
        # A picture that the file names is one of the studio's.
        self.studio(contents(mine={"kind": "image", "file": "secret.pgm"}))["run"](
            {"contents": contents(mine={"kind": "image", "file": "secret.pgm"}), "at": 0})

    def test_long_fields_stay_in_python(self):
        table = {"kind": "lookup table", "format": "S16", "entries": [7] * 65536}
        told = contents({"function": "table_lookup", "input": "deep", "lut": "table",
                         "output": "out"}, table=table, deep=image(format="S16"),
                        out=image(format="S16"))
        calls = self.studio(told)
        light = calls["about"]({})["contents"]
        self.assertLess(len(json.dumps(light)), 2000)
        head, _ = unpacked(calls["run"]({"contents": light, "at": 0}))
        self.assertEqual(head["faults"], [])
        light["nodes"].append(INVERTING)
        light["objects"]["out2"] = image()
        self.save(calls, light)
        self.assertEqual(json.loads(self.text())["objects"]["table"], table)

    def test_a_full_disk_keeps_the_file(self):
        told = contents(INVERTING, out=image())
        calls = self.studio(told)
        before = self.text()
        with mock.patch("os.fsync", side_effect=OSError(28, "No space left on device")):
            with self.assertRaises(OSError):
                self.save(calls, contents())
        self.assertEqual(self.text(), before)
        self.assertEqual([name for name in os.listdir(self.folder) if name.startswith(".")], [])

    def test_pictures_of_another_folder(self):
        os.mkdir(self.path("graphs"))
        made = Document(self.path("graphs/a.json"), self.pictures, Blobs())
        self.assertEqual(made.files, [f"../part{number}.pgm" for number in range(3)])

    def test_a_folder_by_a_link(self):
        """Paths from a graph's folder begin where the link leads. A link to a picture stays one."""
        os.makedirs(self.path("data/graphs"))
        os.symlink("data/graphs", self.path("link"))
        os.symlink("part0.pgm", self.path("good.pgm"))
        vx.write_pgm(self.path("data/part1.pgm"), BLACK)
        made = Studio(self.path("link/station.json"), [self.path("part1.pgm"),
                                                       self.path("good.pgm")])
        self.addCleanup(made.close)
        files = made.calls["about"]({})["files"]
        self.assertEqual(files, ["../../good.pgm", "../../part1.pgm"])
        told = contents(**{file: {"kind": "image", "file": file} for file in files})
        made.calls["run"]({"contents": told})
        self.assertEqual([made._chosen.shown[file].samples.tolist() for file in files],
                         self.rows[:2])

    def test_natural_order(self):
        names = ["part2.pgm", "part10.pgm", "part1.pgm"]
        for name in names:
            vx.write_pgm(self.path(name), [[1]])
        made = Document(self.file, [self.path(name) for name in names], Blobs())
        self.assertEqual(made.files, ["part1.pgm", "part2.pgm", "part10.pgm"])

    def test_the_first_picture_is_broken(self):
        """The input has the size of the first picture that can be read."""
        self.put("part.png", "")
        gone = self.path("gone.png")
        calls = self.studio(pictures=[gone, self.path("part.png"), *self.pictures])
        self.assertEqual(calls["about"]({})["contents"], contents())
        with self.assertRaisesRegex(OSError, "gone.png"):
            self.studio(pictures=[gone])


if __name__ == "__main__":
    unittest.main()
