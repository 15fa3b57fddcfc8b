"""Each allocation of a server in this process refused in turn: the request is answered NO_MEMORY
and has changed nothing. The program refused_memory.py does it, next to a library that refuses."""

import os
import shutil
import subprocess
import sys
import tempfile
import unittest

from program import HERE
from test_direct import VARIABLES, needs_core


@needs_core
@unittest.skipUnless(shutil.which("cc"), "there is no C compiler")
class TestRefusedMemory(unittest.TestCase):
    def test_each_allocation(self):
        with tempfile.TemporaryDirectory() as folder:
            library = os.path.join(folder, "refusing.so")
            subprocess.run(["cc", "-O1", "-Wall", "-Wextra", "-Werror", "-shared", "-fPIC", "-o",
                            library, os.path.join(HERE, "refusing.c")], check=True)
            done = subprocess.run([sys.executable, os.path.join(HERE, "refused_memory.py")],
                                  env={**os.environ, **VARIABLES, "LD_PRELOAD": library},
                                  stdout=subprocess.PIPE, stderr=subprocess.STDOUT, text=True,
                                  timeout=300)
        self.assertEqual(done.returncode, 0, done.stdout)
        self.assertRegex(done.stdout, r"^\d+ allocations refused\n$")


if __name__ == "__main__":
    unittest.main()
