"""Type checks of programs that use the package, by mypy, strict, if it is installed."""

import os
import re
import subprocess
import sys
import tempfile
import textwrap
import unittest

from documents import ROOT, programs_in
from program import HERE

# Definitions that the manual's programs need from the text around them.
AROUND = """
from __future__ import annotations
import asyncio
from collections.abc import Callable, Iterable, Iterator
import time
import cv2
import numpy
import feqyldan as vx

def around(context: vx.Context, camera: vx.Image, out: vx.Image, graph: vx.Graph,
           kernel: numpy.typing.NDArray[numpy.float64], frames: list[vx.Picture],
           pictures: list[vx.Picture], results: list[vx.Result[vx.Picture]],
           shown: list[object]) -> None:
    pass
"""
# A program with NumPy. Its comments have the errors that mypy must find.
PROGRAM = """
from __future__ import annotations
import feqyldan as vx
import numpy as np
import numpy.typing as npt

def build(context: vx.Context, reference: npt.NDArray[np.uint8]) -> tuple[vx.Graph, vx.Image]:
    ref = context.image_from(reference)
    out = context.image_like(ref, name="out")
    g = context.graph()
    v = g.virtual_image()
    n: vx.Node = g.absdiff(ref, out, v)
    g.not_(v, out)
    return g, out

with vx.Server() as server, server.context() as context:
    g, out = build(context, np.zeros((3, 4), np.uint8))
    out.valid = (0, 0, 3, 3)
    print(out.valid.x1, vx.Image.valid.__doc__)
    print(out.read().mean(), out.read()[0, 1], out.read().tolist())
    extremes, counts, delay = context.min_max(), context.distribution(4), context.delay(out, 2)
    with context.pipeline() as ahead:
        picture: vx.Result[vx.Picture] = ahead.read(out)
        found: vx.Result[vx.Extremes] = ahead.read(extremes)
        many: vx.Result[tuple[int, ...]] = ahead.read(counts)
        slot: vx.Result[vx.Picture] = ahead.read(delay[-1])
    print(picture.value().mean(), found.value().max_at, many.value()[0], slot.value(timeout=0.5))
    context.lut(vx.U8, np.arange(256, dtype=np.uint8))
    context.lut(vx.U8, range(256))
    context.convolution((256 * np.ones((3, 3))).round().astype(int), scale=256)
    context.convolution([[1, 2, 1]] * 3, 16)
    for frame, shown in g.stream([np.zeros((3, 4), np.uint8)], out, out):
        print(frame.shape, shown.mean())
    for frame, one in g.stream([np.zeros((3, 4), np.uint8)], out, extremes):
        print(one.max)
    out.valid = vx.Rectangle(0, 0, 1, 1)
    vx.write_png("x.png", picture.value())
    context.image(17, 3, 4)                 # error: arg-type
    context.image(vx.U8, 3.5, 4)            # error: arg-type
    context.vxu.absdiff(out, "oops", out)   # error: arg-type
    context.vxu.convert_depth(out, out, 0, 0)   # error: arg-type
    g.medianBlur(out, out)                  # error: attr-defined
    context.imread("part.png")              # error: attr-defined
    out.width = 3                           # error: misc
    out.valid = (0, 3)                      # error: assignment
    out.vaild = 3                           # error: attr-defined
"""


def mypy():
    """Returns a command that runs mypy."""
    for python in (sys.executable, "/usr/bin/python3"):
        if os.path.exists(python) and subprocess.run(
                [python, "-c", "import mypy, numpy"], stderr=subprocess.DEVNULL).returncode == 0:
            return [python, "-m", "mypy", "--strict", "--config-file=", "--ignore-missing-imports",
                    "--no-error-summary", "--show-error-codes"]
    return None


MYPY = mypy()


@unittest.skipUnless(MYPY, "no Python here has mypy and NumPy")
class TestTypes(unittest.TestCase):
    def setUp(self):
        folder = tempfile.TemporaryDirectory()
        self.addCleanup(folder.cleanup)
        self.folder = folder.name

    def put(self, name, text):
        path = os.path.join(self.folder, name)
        with open(path, "w", encoding="utf-8") as file:
            file.write(text)
        return path

    def test_programs(self):
        """The programs of the manual and the examples have no errors, and each error of the program
        above is found."""
        examples = os.path.join(ROOT, "examples")
        paths = [self.put("program.py", PROGRAM), *self.manuals()]
        paths += [os.path.join(examples, name) for name in sorted(os.listdir(examples))
                  if name.endswith(".py")]
        run = subprocess.run([*MYPY, "--scripts-are-modules", *paths], stdout=subprocess.PIPE,
                             stderr=subprocess.STDOUT, text=True, cwd=self.folder, check=False,
                             env={**os.environ, "MYPYPATH": os.pathsep.join(
                                 (os.path.realpath(os.path.join(HERE, "..")), examples))})
        found = {(match[1], int(match[2]), match[3]) for match in re.finditer(
            r"^(\S+?):(\d+): error: .*\[(\S+)\]$", run.stdout, re.M)}
        wanted = {("program.py", number, match[1])
                  for number, line in enumerate(PROGRAM.splitlines(), 1)
                  for match in [re.search("# error: (.*)", line)] if match}
        self.assertEqual({(os.path.basename(name), *rest) for name, *rest in found}, wanted,
                         run.stdout)

    def manuals(self):
        """Writes a file for each program of the manual, with the names that it needs."""
        for heading, programs in programs_in("docs", "python.md").items():
            for number, text in enumerate(programs):
                name = re.sub(r"\W+", "_", f"manual_{heading}_{number}.py")[:-3] + ".py"
                if text.startswith(("import", "from")):
                    # dask's calls have no types, where it is installed.
                    asked = "# mypy: allow-untyped-calls\n" if "import distributed" in text or (
                        "from distributed" in text) else ""
                    yield self.put(name, f"{asked}from __future__ import annotations\n{text}")
                elif text.startswith(("def ", "async def", "class ")):
                    yield self.put(name, AROUND + self.needed(heading) + text)
                else:
                    yield self.put(name, AROUND.replace("    pass\n", textwrap.indent(text,
                                                                                      "    ")))

    def needed(self, heading):
        """Returns the recipe of the manual that another recipe calls."""
        first = "Compare with a reference, and tolerate small shifts"
        return programs_in("docs", "python.md")[first][0] if heading == (
            "Several types of workpiece") else ""


if __name__ == "__main__":
    unittest.main()
