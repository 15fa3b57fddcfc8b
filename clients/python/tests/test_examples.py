"""Runs the examples of the repository, and the first program in README.md."""

import contextlib
import importlib
import importlib.util
import io
import os
import subprocess
import sys
import tempfile
import unittest
from unittest import mock

from program import (
    HERE, SERVED, VARIABLES, closing_each, needs_program, of_a_process, vx)
from test_pictures import decoded

ROOT = os.path.join(HERE, "..", "..", "..")
EXAMPLES = os.path.join(ROOT, "examples")


def text_of(*path):
    with open(os.path.join(ROOT, *path), encoding="utf-8") as file:
        return file.read()


def picture_of(*path):
    """Returns the width, the height, and the rows of bytes of a PNG file: one byte a pixel for
    grey, three for colour."""
    with open(os.path.join(*path), "rb") as file:
        width, height, _, _, rows = decoded(file.read())
    return width, height, rows


def sides_of(*path):
    return picture_of(*path)[:2]


class InFolder(unittest.TestCase):
    def setUp(self):
        folder = tempfile.TemporaryDirectory()
        self.addCleanup(folder.cleanup)
        self.folder = folder.name

    def imported(self, name):
        """Returns an example as a module."""
        sys.path.insert(0, EXAMPLES)
        self.addCleanup(sys.path.remove, EXAMPLES)
        with mock.patch.object(sys, "dont_write_bytecode", True):
            return importlib.import_module(name)


class TestWithoutServer(InFolder):
    def test_a_folder_that_cannot_be_made_ends_with_a_line(self):
        file = os.path.join(self.folder, "file")
        with open(file, "w", encoding="utf-8"):
            pass
        for words, line in (([], "usage: flanges.py FOLDER .."), ([""], "usage: .*"),
                            (["--help"], "usage: .*"), ([file], ".* File exists: give another .*"),
                            ([os.path.join(file, "inside")], ".* Not a directory: .*")):
            run = subprocess.run([sys.executable, os.path.join(EXAMPLES, "flanges.py"), *words],
                                 cwd=self.folder, stderr=subprocess.PIPE, text=True,
                                 env={**os.environ, "PYTHONPATH": os.path.join(HERE, ".."),
                                      "PYTHONDONTWRITEBYTECODE": "1"})
            self.assertEqual(run.returncode, 1, words)
            self.assertRegex(run.stderr, f"^{line}\n$")
        self.assertEqual(os.listdir(self.folder), ["file"])

    def test_a_folder_that_cannot_be_written_to_ends_with_a_line(self):
        folder = self.imported("folder")
        with mock.patch("os.access", return_value=False), \
                mock.patch.object(sys, "argv", ["live.py", self.folder]), \
                self.assertRaisesRegex(SystemExit, "^live.py: no file can be written to "):
            folder.folder_told()

    @unittest.skipUnless(importlib.util.find_spec("cv2"), "OpenCV isn't installed")
    def test_a_video_that_fails_ends(self):
        with mock.patch("cv2.VideoCapture") as opened, mock.patch("threading.excepthook"):
            opened.return_value.read.side_effect = MemoryError
            camera = self.imported("video").Camera("belt.avi")
            camera.start()
            camera.join()
        self.assertTrue(camera._has_ended)
        self.assertIsNone(camera.take())


@needs_program
class Examples(InFolder):

    def run_example(self, name, *words):
        """Runs an example in the folder for pictures, and returns its output."""
        environment = {**os.environ, "PYTHONPATH": os.path.realpath(os.path.join(HERE, "..")),
                       "PYTHONDONTWRITEBYTECODE": "1",
                       **VARIABLES}
        run = subprocess.run([sys.executable, os.path.realpath(os.path.join(EXAMPLES, name)),
                              *words], cwd=self.folder,
                             env=environment, timeout=90, stdin=subprocess.DEVNULL,
                             stdout=subprocess.PIPE, stderr=subprocess.PIPE, text=True)
        self.assertEqual((run.returncode, run.stderr), (0, ""))
        return run.stdout

    def test_the_first_program_is_readmes(self):
        shown = text_of("README.md").split("```python\n")[1].split("```")[0]
        self.assertEqual(shown, text_of("examples", "first.py"))
        self.assertLessEqual(len([line for line in shown.splitlines() if line]), 10)

    def test_the_first_program_leaves_a_picture(self):
        self.run_example("first.py")
        self.assertEqual(sides_of(self.folder, "outlines.png"), (256, 256))

    @of_a_process
    def test_two_clients_see_their_own(self):
        lines = self.run_example("first_stream.py").splitlines()
        self.assertTrue(lines[5].endswith("255 245 235 225 / 215 205 195 0"), lines[5])
        self.assertTrue(lines[9].endswith("INVALID_REFERENCE"), lines[9])

    def test_a_scratch_is_found_where_it_was_drawn(self):
        good, bad = self.run_example("inspection.py", self.folder).splitlines()
        self.assertIn("nothing found", good)
        # It was drawn 2.6 pixels wide from (77, 41) to (64, 95).
        words = bad.replace(",", "").split()
        x0, x1, y0, y1 = (int(words[words.index(side) + at]) for side in ("columns", "rows")
                          for at in (1, 3))
        for found, drawn in zip((x0, x1, y0, y1), (64, 77, 41, 95)):
            self.assertLessEqual(abs(found - drawn), 3, bad)
        self.assertEqual(sides_of(self.folder, "inspection.png"), (818, 144))

    def test_readme_has_the_picture_of_the_inspection(self):
        self.assertIn("docs/pictures/inspection.png", text_of("README.md"))
        stored = os.path.join(ROOT, "docs", "pictures", "inspection.png")
        self.assertLessEqual(os.path.getsize(stored), 40000)
        self.run_example("inspection.py", self.folder)
        *sides, rows = picture_of(stored)
        *made_sides, made = picture_of(self.folder, "inspection.png")
        self.assertEqual(sides, made_sides)
        # Another machine's sines may round a few samples otherwise.
        differing = sum(a != b for one, other in zip(rows, made) for a, b in zip(one, other))
        self.assertLessEqual(differing, sides[0] * sides[1] // 1000)

    @unittest.skipUnless(importlib.util.find_spec("cv2"), "OpenCV isn't installed")
    def test_a_video_is_watched(self):
        """The number of dropped frames depends on the machine; each frame is seen or dropped."""
        seen, times = self.run_example("video.py", self.folder).splitlines()
        numbers = [int(word)
                   for word in seen.replace(",", "").replace(":", "").split() if word.isdigit()]
        self.assertEqual(numbers[:3], [1920, 1080, 25])
        self.assertEqual(numbers[3] + numbers[4], 75, seen)
        self.assertIn(f"something moved in {numbers[3] - 1} of {numbers[3] - 1}", times)
        self.assertEqual(sides_of(self.folder, "video.png"), (4 * 480, 270))

    @unittest.skipUnless(importlib.util.find_spec("cv2"), "OpenCV isn't installed")
    def test_few_frames_of_a_long_video_are_kept(self):
        video = self.imported("video")
        some = video.Thinned()
        for number in range(1000):
            some.add(number, None)
            kept = [one.frame for one in some.kept]
            self.assertLessEqual(len(kept), video.KEPT)
            step = kept[1] if number else 1
            self.assertEqual(kept, list(range(0, number + 1, step)))

    @unittest.skipUnless(importlib.util.find_spec("cv2"), "OpenCV isn't installed")
    def test_a_station_with_recipes(self):
        *parts, wrong, wide, usage = self.run_example("station.py", self.folder).splitlines()
        self.assertEqual(len(parts), 4)
        for line in parts:
            words = line.replace(",", "").split()
            # As many as were made, where none of them touch.
            self.assertEqual(words[2], words[5], line)
        self.assertIn("The samples have the shape (2040, 2448), and the image (2048, 2448)", wrong)
        self.assertIn("a wrong frame: samples must be uint8, int16 or uint32, not uint16", wide)
        self.assertIn("Usage(objects=", usage)
        self.assertEqual(sides_of(self.folder, "station.png"), (612, 512))

    @unittest.skipUnless(importlib.util.find_spec("cv2"), "OpenCV isn't installed")
    def test_parts_that_are_turned_in_light_that_changes(self):
        lines = self.run_example("aligned.py", self.folder).splitlines()
        found = {name.strip(): [int(word) for word in words.split() if word.isdigit()][:4]
                 for name, words in (line.split(":") for line in lines)}
        self.assertEqual(found.pop("levelled and aligned"), [0, 20, 10, 10])
        # Each step alone isn't enough.
        self.assertEqual(set(found), {"as taken", "light levelled", "aligned"})
        for name, (alarms, *others) in found.items():
            self.assertGreater(alarms, 10, name)
            self.assertEqual(others, [20, 10, 10], name)
        self.assertEqual(sides_of(self.folder, "aligned.png"), (2 * 612, 512))

    @unittest.skipUnless(importlib.util.find_spec("cv2"), "OpenCV isn't installed")
    def test_a_live_camera(self):
        seen, late = self.run_example("live.py", self.folder).splitlines()
        # The box crosses in 30 frames, and in the last one covers nothing that it didn't before.
        self.assertIn("60 frames of 1280 by 720; something moved in 29", seen)
        self.assertRegex(late, r"a result came [0-9.]+ ms after its frame")
        self.assertEqual(sides_of(self.folder, "live.png"), (2560, 720))

    @unittest.skipUnless(importlib.util.find_spec("cv2"), "OpenCV isn't installed")
    def test_a_live_camera_without_a_frame(self):
        live = self.imported("live")
        with mock.patch.object(live, "FRAMES", 0), \
                mock.patch.object(sys, "argv", ["live.py", self.folder]), \
                self.assertRaisesRegex(SystemExit, "live.py: no frame came"):
            live.main()

    @unittest.skipUnless(importlib.util.find_spec("cv2"), "OpenCV isn't installed")
    def test_a_live_camera_may_run_for_months(self):
        live, cameras = self.imported("live"), []

        class Camera(live.Camera):
            def __init__(self, source):
                super().__init__(source)
                cameras.append(self)

        with contextlib.redirect_stdout(io.StringIO()), \
                mock.patch.multiple(live, Camera=Camera, WIDTH=64, HEIGHT=36, RATE=1e6), \
                mock.patch.object(sys, "argv", ["live.py", self.folder]), \
                mock.patch.dict(os.environ, VARIABLES):
            live.main()
        self.assertEqual(len(cameras[0].times), 0)

    def test_parts_for_the_studio(self):
        said = self.run_example("flanges.py", self.folder, "64", "36")
        self.assertIn("scratched are 2, 4, 6, 9, 11", said)
        self.assertEqual(len(os.listdir(os.path.join(self.folder, "parts"))), 12)
        for words in (["640"], ["a", "b"], ["0", "36"], ["-5", "7"], ["3", "3"], ["36", "64"],
                      ["8193", "36"], ["9" * 5000, "36"]):
            run = subprocess.run([sys.executable, os.path.join(EXAMPLES, "flanges.py"), self.folder,
                                  *words], stderr=subprocess.PIPE, text=True,
                                 env={**os.environ, "PYTHONPATH": os.path.join(HERE, "..")})
            self.assertEqual(run.returncode, 1)
            self.assertRegex(run.stderr, "give WIDTH and HEIGHT in pixels, not [^\n]*\n$")

    def test_a_scratch_changes_each_sample_once(self):
        flanges = self.imported("flanges")
        for number, (*_, change) in flanges.SCRATCHES.items():
            samples = [100.0] * (640 * 360)
            flanges.scratch(samples, 640, 360, number)
            self.assertEqual(set(samples), {100.0, 100.0 + change if change > 0 else 60.0})

    @of_a_process
    def test_a_robot(self):
        *programs, end = self.run_example("robot.py").splitlines()
        self.assertEqual(programs, ["    belt: 40 pictures, built 2 times",
                                    "    front: 40 pictures, built 2 times"])
        self.assertEqual(end, "    the door ended with status 0")

    def test_a_robot_gives_up_where_no_picture_is_done(self):
        """The socket closes each connection: the early one and the new one of a context. A third
        one would be the last."""
        robot = self.imported("robot")
        with closing_each() as (path, came), self.assertRaises(vx.ServerEnded), \
                mock.patch("time.sleep") as pause:
            pause.side_effect = AssertionError("it tries again")
            robot.work(path, "front", robot.clean, mock.Mock(), mock.Mock())
        self.assertEqual(len(came), 2)

    def test_bounds_of_any_size(self):
        bounds = self.imported("bounds")
        with vx.Server(SERVED) as server, server.context() as context:
            for width, height, marked in ((4096, 300, [(4095, 299)]), (300, 1000, [(0, 0)]),
                                          (5, 4096, [(1, 9), (3, 4095)]),
                                          (700, 600, [(300, 400), (280, 450), (500, 410)]),
                                          (1, 1, [(0, 0)]), (257, 257, [])):
                marks = context.image(vx.U8, width, height)
                samples = bytearray(width * height)
                for x, y in marked:
                    samples[y * width + x] = 255
                marks.write(samples)
                graph = context.graph()
                extremes = bounds.add_bounds(graph, marks, width, height)
                graph.process()
                found = bounds.rectangle_of([one.read() for one in extremes], width)
                columns, rows = [x for x, _ in marked], [y for _, y in marked]
                self.assertEqual(found,
                                 (min(columns), min(rows), max(columns) + 1, max(rows) + 1)
                                 if marked else None)


if __name__ == "__main__":
    unittest.main()
