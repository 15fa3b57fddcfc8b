"""Finding the server's program if no path is given."""

import os
import stat
import tempfile
import unittest
from unittest import mock

from program import PROGRAM, needs_program, skip_module_in_process, vx
from feqyldan import core, program

skip_module_in_process("it is about the program of a process")


class TestFinding(unittest.TestCase):
    def setUp(self):
        folder = tempfile.TemporaryDirectory()
        self.addCleanup(folder.cleanup)
        self.folder = folder.name
        # A checkout without a build, and nothing on PATH, inside the package or installed.
        self.crate = os.path.join(self.folder, "crate")
        for patch in (mock.patch.dict(os.environ, {"PATH": os.path.join(self.folder, "bin")}),
                      mock.patch.object(program, "INSIDE", os.path.join(self.folder, "inside")),
                      mock.patch.object(program, "CRATE", self.crate),
                      mock.patch.object(core, "INSTALLED", "libfeqyldan-none.so.0")):
            patch.start()
            self.addCleanup(patch.stop)
        os.environ.pop(program.VARIABLE, None)

    def put(self, *path):
        """Writes an executable file."""
        whole = os.path.join(self.folder, *path)
        os.makedirs(os.path.dirname(whole), exist_ok=True)
        with open(whole, "w", encoding="utf-8") as file:
            file.write("#!/bin/sh\nexit 9\n")
        os.chmod(whole, stat.S_IRWXU)
        return whole

    def test_the_order_of_the_places(self):
        plain = self.put("crate", "out", "vx_main-default")
        self.assertEqual(program.find(), plain)
        faster = self.put("crate", "out", "vx_main-x86-64-v3")
        for flags, wanted in ((program.FASTER_FLAGS | {"sse2"}, faster), (set(), plain),
                              ({"avx2"}, plain)):
            with mock.patch.object(program, "_flags", return_value=flags):
                self.assertEqual(program.find(), wanted)
        arm = self.put("crate", "out", "vx_main-aarch64")
        with mock.patch.object(program, "is_arm", return_value=True):
            self.assertEqual(program.find(), arm)
        inside = self.put("inside", "vx_main-default")
        self.assertEqual(program.find(), inside)
        for name in ("vx_main", "feqyldan"):
            on_path = self.put("bin", name)
            self.assertEqual(program.find(), on_path)
        told = self.put("elsewhere")
        with mock.patch.dict(os.environ, {program.VARIABLE: told}):
            self.assertEqual(program.find(), told)

    def test_what_cant_be_run_is_none(self):
        os.chmod(self.put("bin", "vx_main"), stat.S_IRUSR)
        self.assertRaises(vx.ProgramNotFound, program.find)

    def test_nowhere(self):
        with self.assertRaises(vx.ProgramNotFound) as caught:
            vx.Server()
        self.assertIsInstance(caught.exception, FileNotFoundError)
        for words in ("FEQYLDAN_PROGRAM isn't set", "feqyldan and vx_main aren't on PATH",
                      "has none inside", "isn't in a checkout", "the wheel with the server",
                      "tools/build", "vx.Server(path)"):
            self.assertIn(words, str(caught.exception))
        os.makedirs(self.crate)
        with self.assertRaisesRegex(vx.ProgramNotFound, r"there is no .*crate/out/vx_main-default"):
            vx.Server()

    def test_what_the_variable_says_is_meant(self):
        self.put("bin", "vx_main")
        with mock.patch.dict(os.environ, {program.VARIABLE: os.path.join(self.folder, "gone")}):
            with self.assertRaisesRegex(vx.ProgramNotFound,
                                        "FEQYLDAN_PROGRAM is .*/gone, and there is no such file"):
                vx.Server()

    def test_a_program_in_the_current_folder(self):
        """Not the one of its name on PATH."""
        self.put("bin", "mine")
        mine = self.put("here", "mine")
        self.addCleanup(os.chdir, os.getcwd())
        os.chdir(os.path.dirname(mine))
        with mock.patch.dict(os.environ, {program.VARIABLE: "mine"}):
            self.assertEqual(program.find(), os.path.realpath(mine))

    @needs_program
    def test_a_server_of_it(self):
        with mock.patch.dict(os.environ, {program.VARIABLE: PROGRAM}):
            with vx.Server() as server, server.context() as context:
                self.assertEqual(context.image_from([[1]]).read().tolist(), [[1]])


class TestProcessors(unittest.TestCase):
    def test_a_root_without_proc(self):
        with mock.patch("builtins.open", side_effect=FileNotFoundError):
            self.assertTrue(program.runs_plain())
            self.assertFalse(program.runs_faster())


if __name__ == "__main__":
    unittest.main()
