"""Tests of tools/processor_minutes on a command that looks like the prover."""

import contextlib
import io
import os
import subprocess
import sys
import unittest
from unittest import mock

from program import TOOLS
from checks import processor_minutes

# A process with the prover's name that works on the crate `planted` for some seconds, in which even
# a busy machine counts once.
PROVER = ["bash", "-c", "exec -a rattle bash -c 'sleep 6; :' --crate-name planted"]


class TestProcessorMinutes(unittest.TestCase):
    def test_a_command_line_that_is_not_utf_8_is_passed_over(self):
        other = subprocess.Popen([sys.executable, "-c", "import time; time.sleep(30)", b"\xff"])
        try:
            run = subprocess.run([os.path.join(TOOLS, "processor_minutes"), *PROVER],
                                 capture_output=True, timeout=60, text=True)
        finally:
            other.kill()
            other.wait()
        self.assertEqual((run.returncode, run.stderr), (0, ""))
        self.assertRegex(run.stdout, r"(?m)^planted +0\.0 ")

    @mock.patch.object(processor_minutes, "sample", side_effect=KeyError("planted"))
    def test_a_count_that_breaks_off_is_an_error(self, _):
        for command, status in (["sleep", "1"], 1), (["bash", "-c", "sleep 1; exit 3"], 3), (
                ["bash", "-c", "sleep 1; kill -9 $$"], 137):
            with mock.patch("sys.argv", ["processor_minutes", *command]), \
                    contextlib.redirect_stderr(io.StringIO()) as said:
                self.assertEqual(processor_minutes.main(), status)
            self.assertIn("the count broke off, so no minutes are printed: KeyError('planted')",
                          said.getvalue())
