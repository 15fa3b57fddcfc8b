"""Runs the programs in docs/python.md, which must do what the text says, and checks its table of
functions. Programs of other documents are in test_examples.py, test_against_cv2.py and
test_broker_programs.py."""

import asyncio
import collections.abc
import importlib.util
import os
import re
import subprocess
import sys
import tempfile
import unittest

from documents import ROOT, programs_in
from program import HERE, VARIABLES, ProgramTest, needs_program, vx
from feqyldan import samples, verdicts
from feqyldan.functions import FUNCTIONS
from test_pictures import decoded

numpy = samples.numpy_module()
PROGRAMS = programs_in("docs", "python.md")
TYPES = {name: getattr(collections.abc, name) for name in ("Callable", "Iterable", "Iterator")}
WIDTH, HEIGHT = 640, 480
needs_numpy = unittest.skipUnless(numpy, "NumPy isn't installed")


class TestAll(unittest.TestCase):
    def test_each_is_here(self):
        self.assertEqual({heading: len(programs) for heading, programs in PROGRAMS.items()},
                         {"": 1, "Pictures": 2, "Graphs": 1, "Streams": 2, "Requests ahead": 1,
                          "Files and the command line": 1, "asyncio": 1,
                          "Pictures over a cluster": 1,
                          "Compare with a reference, and tolerate small shifts": 1,
                          "Find the regions of marks": 1, "Measure a part of a picture": 1,
                          "Turned parts, and light that changes": 1, "Cameras of 10 or 12 bits": 1,
                          "Several types of workpiece": 1,
                          "A live camera": 1, "A robot that survives the end of a server": 1,
                          "A background that follows the light": 1})
        self.assertEqual(len(programs_in("clients", "python", "README.md")[""]), 1)

    def test_the_formats_in_the_table_of_functions(self):
        with open(os.path.join(ROOT, "docs", "python.md"), encoding="utf-8") as file:
            rows = re.findall(r"^\| `vxu.*?\| `(\w+)\(.*\| (.*) \|$", file.read(), re.M)
        self.assertEqual(dict(rows),
                         {name: verdicts.formats_in_words(name) for name in FUNCTIONS})


@needs_program
class TestWhole(unittest.TestCase):
    """Complete programs, each in a folder of its own."""

    def setUp(self):
        folder = tempfile.TemporaryDirectory()
        self.addCleanup(folder.cleanup)
        self.folder = folder.name

    def run_there(self, text):
        with open(os.path.join(self.folder, "program.py"), "w", encoding="utf-8") as file:
            file.write(text)
        run = subprocess.run([sys.executable, "program.py"], cwd=self.folder, timeout=300,
                             stdin=subprocess.DEVNULL, stdout=subprocess.PIPE,
                             stderr=subprocess.PIPE, text=True, check=False,
                             env={**os.environ, **VARIABLES,
                                  "PYTHONPATH": os.path.realpath(os.path.join(HERE, ".."))})
        self.assertEqual(run.returncode, 0, run.stderr)
        return run.stdout

    def test_what_changed(self):
        before = [[10] * 5 for _ in range(4)]
        after = [list(row) for row in before]
        after[2][3] = 35
        after[1][1] = 34
        for name, rows in (("before", before), ("after", after)):
            vx.write_pgm(os.path.join(self.folder, f"{name}.pgm"), rows)
        self.run_there(PROGRAMS[""][0])
        os.rename(os.path.join(self.folder, "changed.png"), os.path.join(self.folder, "old.png"))
        self.run_there(programs_in("clients", "python", "README.md")[""][0])
        self.assertIn("changed.png", os.listdir(self.folder))
        os.replace(os.path.join(self.folder, "old.png"), os.path.join(self.folder, "changed.png"))
        with open(os.path.join(self.folder, "changed.png"), "rb") as file:
            width, height, _, _, rows = decoded(file.read())
        self.assertEqual((width, height), (5, 4))
        self.assertEqual([(x, y) for y, row in enumerate(rows) for x, sample in enumerate(row)
                          if sample], [(3, 2)])

    @unittest.skipUnless(importlib.util.find_spec("distributed"), "distributed isn't installed")
    def test_pictures_over_a_cluster(self):
        program = PROGRAMS["Pictures over a cluster"][0]
        said = self.run_there(f"{program}    print(len(outputs), outputs[0].shape)\n")
        self.assertEqual(said, "100 (48, 64)\n")


class TestParts(ProgramTest):
    """Programs that use names of the text around them."""

    def setUp(self):
        super().setUp()
        self.camera, self.out = (self.context.image(vx.U8, WIDTH, HEIGHT) for _ in range(2))
        self.names = {"vx": vx, "context": self.context, "camera": self.camera, "out": self.out,
                      **TYPES}

    def run_part(self, heading, which=0, **names):
        """Runs a part of a document, and returns its results."""
        self.names.update(names)
        exec(PROGRAMS[heading][which], self.names)
        return self.names

    def plain(self, sample):
        return bytes([sample]) * (WIDTH * HEIGHT)

    def inverting(self):
        graph = self.context.graph()
        graph.not_(self.camera, self.out)
        return graph

    @needs_numpy
    def test_pictures(self):
        as_samples = self.run_part("Pictures", numpy=numpy)["as_samples"]
        for given, wanted in (([[0, 4095]], "uint16"), ([[0, 1]], "bool")):
            given = numpy.array(given, wanted)
            self.context.image_from(as_samples(given))
        self.holds(self.context.image_from(as_samples(numpy.array([[0.0, 0.5, 1.0, 1.004, -0.1]]))),
                   [[0, 128, 255, 255, 0]])
        self.holds(self.context.image_from(as_samples(numpy.array([[True, False]]))), [[255, 0]])
        self.run_part("Pictures", 1, kernel=numpy.full((3, 3), 1 / 9))

    def test_a_graph(self):
        self.camera.write(self.plain(25))
        self.run_part("Graphs")
        self.assertEqual(self.out.read_bytes()[WIDTH + 1], 255)
        # Its node is removed at the end.
        self.assertRaises(vx.InvalidLink, self.names["graph"].process)

    def test_requests_ahead(self):
        pictures = [self.plain(number) for number in range(5)]
        names = self.run_part("Requests ahead", graph=self.inverting(), pictures=pictures,
                              results=[])
        self.assertEqual([shown[0, 0] for shown in names["shown"]], [255, 254, 253, 252, 251])

    def test_streams(self):
        frames = [self.plain(number) for number in range(5)]
        names = self.run_part("Streams", graph=self.inverting(), frames=frames, shown=[])
        self.assertEqual([marks[0, 0] for _, marks in names["shown"]], [255, 254, 253, 252, 251])

        def build(context):
            camera, out = (context.image(vx.U8, WIDTH, HEIGHT) for _ in range(2))
            graph = context.graph()
            graph.not_(camera, out)
            return vx.Station(graph, camera, out)

        on_servers = self.run_part("Streams", 1)["on_servers"]
        with vx.Server() as one, vx.Server() as other:
            found = [out[0, 0] for _, out in on_servers(frames, build, [one, other])]
        self.assertEqual(found, [255, 254, 253, 252, 251])

    def test_files(self):
        camera = self.context.image(vx.U8, WIDTH, HEIGHT, name="camera")
        graph, marks = self.context.graph(), self.context.image(vx.U8, WIDTH, HEIGHT, name="marks")
        graph.not_(camera, marks)
        with tempfile.TemporaryDirectory() as folder:
            before = os.getcwd()
            self.addCleanup(os.chdir, before)
            os.chdir(folder)
            names = self.run_part("Files and the command line", graph=graph, camera=camera,
                                  frames=[self.plain(9)], shown=[])
            os.chdir(before)
        self.assertEqual(names["shown"][0][0, 0], 246)

    def test_asyncio(self):
        inspect = self.run_part("asyncio")["inspect"]
        picture = samples.samples_of([[7] * 3] * 3).content.cast("B", (3, 3))
        self.assertEqual(asyncio.run(inspect(self.server, picture))[1, 1], 7)


SIDE = 40


@needs_numpy
class TestRecipes(ProgramTest):
    def setUp(self):
        super().setUp()
        self.names = {"vx": vx, "numpy": numpy, **TYPES}
        for programs in PROGRAMS.values():
            for program in programs:
                if program.startswith(("def ", "class ")):
                    exec(program, self.names)
        chance = numpy.random.default_rng(1)
        self.reference = (chance.integers(0, 2, (SIDE // 5, SIDE // 5), numpy.uint8) * 100
                          + 50).repeat(5, 0).repeat(5, 1)

    def scratched(self):
        """Returns the reference, moved two pixels to the right, with a bright square."""
        part = numpy.roll(self.reference, 2, 1)
        part[:, :2] = self.reference[:, :2]
        part[10:20, 12:22] = 255
        return part

    def test_shifts_are_tolerated(self):
        graph, part, marks = self.names["build"](self.context, self.reference)
        part.write(numpy.roll(self.reference, 1, 0))
        graph.process()
        self.assertEqual(marks.read()[2:].max(), 0)
        part.write(self.scratched())
        graph.process()
        found = marks.read() > 0
        self.assertTrue(found[11:19, 13:21].all())
        found[9:21, 11:23] = False
        self.assertFalse(found.any())

    @unittest.skipUnless(importlib.util.find_spec("cv2") or importlib.util.find_spec("scipy"),
                         "neither OpenCV nor SciPy is installed")
    def test_regions(self):
        built = self.names["build"](self.context, self.reference)
        good, bad = self.names["inspect"](self.context, *built,
                                          [self.reference, self.scratched()])
        self.assertEqual(good, [])
        self.assertEqual(len(bad), 1)

    @unittest.skipUnless(importlib.util.find_spec("cv2"), "OpenCV isn't installed")
    def test_turned_parts(self):
        import cv2
        self.names.update(numpy=numpy, cv2=cv2)
        reference = numpy.full((120, 160), 60, numpy.uint8)
        cv2.rectangle(reference, (40, 30), (120, 90), 160, -1)
        reference = cv2.GaussianBlur(reference, (0, 0), 2)
        white = numpy.repeat(numpy.linspace(120, 230, 160)[None], 120, 0).astype(numpy.uint8)
        move = cv2.getRotationMatrix2D((80, 60), 2.5, 1) + [[0, 0, 3], [0, 0, -2]]
        turned = cv2.warpAffine(reference, move, (160, 120), borderMode=cv2.BORDER_REPLICATE)
        picture = (turned * (white / 250)).astype(numpy.uint8)
        even = self.names["levelled"](picture, white, float(reference.mean()))
        for given, limit in ((picture, 90), (even, 40),
                             (self.names["aligned"](even, reference), 0)):
            differing = abs(given.astype(int) - reference) > 12
            self.assertGreaterEqual(int(differing.sum()), limit)
        self.assertEqual(int(differing.sum()), 0)
        self.assertRaises(cv2.error, self.names["aligned"], 0 * reference, reference)
        # The light is off.
        self.assertFalse(self.names["levelled"](0 * picture, white, 100.0).any())

    def test_the_examples_compare_as_the_recipe_does(self):
        """The function is the same, but for the names of types that Python 3.8 lacks."""
        recipe = PROGRAMS["Compare with a reference, and tolerate small shifts"][0]
        with open(os.path.join(ROOT, "examples", "comparison.py"), encoding="utf-8") as file:
            self.assertIn(recipe.strip(), file.read().replace("Tuple[", "tuple["))

    @needs_numpy
    def test_a_camera_of_12_bits(self):
        graph, camera, smooth, extremes = self.names["twelve_bits"](self.context, 3, 3)
        camera.write(numpy.full((3, 3), 4095, numpy.int16))
        graph.process()
        self.holds(smooth, [[255] * 3] * 3)
        self.assertEqual(extremes.read()[:2], (4095, 4095))

    def test_a_part(self):
        camera = self.context.image(vx.U8, SIDE, SIDE)
        graph, extremes, counts = self.names["measuring"](self.context, camera,
                                                          vx.Rectangle(10, 20, 25, 22))
        for value in (7, 200):
            picture = numpy.full((SIDE, SIDE), 99, numpy.uint8)
            picture[20:22, 10:25] = value
            picture[21, 24] = value + 1
            camera.write(picture)
            graph.process()
            self.assertEqual(extremes.read(), (value, value + 1, 29, 1, (10, 20), (24, 21)))
            self.assertEqual(counts.read()[value // 16], 30)

    def test_a_part_of_a_wide_picture(self):
        """As the text says for S16; the picture's own valid rectangle is lost."""
        camera, window = (self.context.image(vx.S16, SIDE, SIDE) for _ in range(2))
        window.fill(-32768)
        window.valid = (10, 20, 25, 22)
        graph, extremes = self.context.graph(), self.context.min_max()
        inside = graph.virtual_image(vx.S16)
        graph.max(camera, window, inside)
        graph.min_max_loc(inside, extremes)
        camera.valid = (0, 0, 1, 1)
        camera.fill(-300)
        graph.process()
        self.assertEqual(extremes.read()[:3], (-300, -300, 30))
        self.assertEqual(camera.valid, (0, 0, SIDE, SIDE))

    def test_a_station(self):
        station = self.names["Station"](self.context, {
            name: numpy.roll(self.reference, 7 * name, 0) for name in range(5)})
        for name in range(5):
            picture = numpy.roll(self.reference, 7 * name, 0)
            self.assertEqual(station.marks_of(name, picture).max(), 0)
            self.assertRaises(vx.BadPicture, station.marks_of, name, picture[1:])
            self.assertGreater(station.marks_of(name, 255 - picture).max(), 0)

    def test_a_live_camera(self):
        frames = (numpy.full((SIDE, SIDE), shade, numpy.uint8) for shade in (50, 60, 140))
        found = [(frame[0, 0], moved[9, 9]) for frame, moved in
                 self.names["watch"](frames, self.context, SIDE, SIDE)]
        self.assertEqual(found, [(60, 0), (140, 255)])

    def test_a_background(self):
        camera, background = (self.context.image(vx.U8, 4, 3) for _ in range(2))
        add, renew = self.names["renewing"](self.context, camera, background)
        for shade in (16, 80):
            camera.fill(shade)
            for _ in range(16):
                add()
            renew()
            self.assertEqual(background.read()[0, 0], shade)


if __name__ == "__main__":
    unittest.main()
