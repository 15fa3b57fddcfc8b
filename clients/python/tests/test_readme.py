"""Runs each command in README.md, in the order of the page."""

import os
import re
import subprocess
import tempfile
import unittest

from documents import ROOT
from program import PROGRAM, needs_program, of_a_process, vx
from test_pictures import decoded

# Takes too long here: tools/test runs all tests, this one among them.
NOT_PASTED = ["tools/test"]


def text_of(*path):
    with open(os.path.join(ROOT, *path), encoding="utf-8") as file:
        return file.read()


def commands():
    """Returns the lines of README.md that are indented by four blanks and aren't part of a program,
    without their comments."""
    text = "".join(text_of("README.md").split("```")[::2])
    return [line.partition(" #")[0].strip() for line in text.splitlines()
            if line.startswith("    ")]


class TestCommands(unittest.TestCase):
    def test_two_do_the_set_up(self):
        self.assertEqual(commands()[1:3], ["examples/run", "tools/test"])

    def test_one_looks_first(self):
        self.assertIn("rt try -- apply dilate) < examples/flange.pgm", commands()[0])

    def test_the_toolchain_is_the_one_that_is_trusted(self):
        names = [re.findall(r"rattle-kit-\S+ logic [0-9a-f]+", text_of(*path))
                 for path in (("README.md",), ("docs", "proved.md"))]
        self.assertEqual(names[0], names[1])
        self.assertEqual(len(names[0]), 1)

    def test_what_is_not_pasted_is_there(self):
        for command in NOT_PASTED:
            self.assertIn(command, commands())
            self.assertTrue(os.access(os.path.join(ROOT, command), os.X_OK), command)

    @needs_program
    @of_a_process
    def test_each_works_when_pasted(self):
        with tempfile.TemporaryDirectory() as folder:
            checkout, temporary = (os.path.join(folder, name) for name in ("checkout", "tmp"))
            os.mkdir(checkout)
            os.mkdir(temporary)
            self.put_toolchain(temporary)
            for name in ("clients", "crates", "examples", "tools"):
                os.symlink(os.path.realpath(os.path.join(ROOT, name)),
                           os.path.join(checkout, name))
            for command in commands():
                if command not in NOT_PASTED:
                    run = subprocess.run(
                        ["bash", "-c", command], cwd=checkout, timeout=300, check=False, text=True,
                        stdin=subprocess.DEVNULL, stdout=subprocess.PIPE, stderr=subprocess.STDOUT,
                        env={**os.environ, "FEQYLDAN_PROGRAM": PROGRAM, "TMPDIR": temporary,
                             "PATH": f"{temporary}:{os.environ['PATH']}",
                             "PYTHONDONTWRITEBYTECODE": "1"})
                    self.assertEqual(run.returncode, 0, f"{command}:\n{run.stdout}")
            with open(os.path.join(checkout, "outlines.png"), "rb") as file:
                self.assertEqual(decoded(file.read())[:2], (256, 256))
            with vx.Server(PROGRAM) as server, server.context() as context:
                flange = context.load(os.path.join(ROOT, "examples", "flange.pgm"))
                wide = context.image_like(flange)
                context.vxu.dilate3x3(flange, wide)
                with open(os.path.join(checkout, "wide.pgm"), "rb") as file:
                    self.assertEqual(file.read(), wide.read_pgm())

    def put_toolchain(self, folder):
        """Writes a command rt whose `rt try -- ..` runs the program, without compiling it for some
        minutes."""
        path = os.path.join(folder, "rt")
        with open(path, "w", encoding="utf-8") as file:
            file.write('#!/bin/sh\n[ "$1 $2" = "try --" ] && shift 2 && '
                       'exec "$FEQYLDAN_PROGRAM" "$@"\n')
        os.chmod(path, 0o755)


if __name__ == "__main__":
    unittest.main()
