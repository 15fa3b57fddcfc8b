"""Tests of tools/more_edits and tools/test, next to a command rt that does nothing."""

import os
import shutil
import subprocess
import tempfile
import unittest

from program import TOOLS


class TestTools(unittest.TestCase):
    def setUp(self):
        folder = tempfile.TemporaryDirectory()
        self.addCleanup(folder.cleanup)
        self.root = os.path.join(folder.name, "repository")

    def write(self, path, text=""):
        whole = os.path.join(self.root, path)
        os.makedirs(os.path.dirname(whole), exist_ok=True)
        with open(whole, "w", encoding="utf-8") as file:
            file.write(text)
        return whole

    def run_tool(self, name, *words, rt="true"):
        """Runs a tool in a repository of its own, with this command of the shell for rt."""
        target = self.write(os.path.join("tools", name))
        shutil.copy(os.path.join(TOOLS, name), target)
        rt = self.write("bin/rt", f"#!/bin/sh\n{rt}\n")
        os.chmod(rt, 0o755)
        path = f"{os.path.dirname(rt)}:{os.environ['PATH']}"
        return subprocess.run([target, *words], stdout=subprocess.PIPE, stderr=subprocess.PIPE,
                              text=True, timeout=60, env={**os.environ, "PATH": path})

    def track_an_edit(self):
        """Makes a repository of git whose crate `one` has an edit in more-edits."""
        self.write("crates/one/must-fail/of_the_gate.edit")
        self.write("crates/below/must-fail/of_the_gate.edit")
        self.write("crates/one/more-edits/old.edit")
        for words in (["init", "-q"], ["add", "."]):
            subprocess.run(["git", "-C", self.root, *words], check=True)

    @unittest.skipUnless(shutil.which("git"), "git isn't installed")
    def test_an_edit_that_git_does_not_track_yet_is_tried(self):
        self.track_an_edit()
        self.write("crates/one/more-edits/new.edit")
        for words in ((), ("one",)):
            run = self.run_tool("more_edits", *words, rt='echo "$@"; ls crates/*/must-fail')
            self.assertEqual((run.returncode, run.stdout.split()),
                             (0, ["ci", "one", "new.edit", "old.edit"]), run.stderr)

    @unittest.skipUnless(shutil.which("git"), "git isn't installed")
    def test_an_edit_that_is_not_refused_or_can_not_be_applied_is_an_error(self):
        self.track_an_edit()
        for rt in ("exit 1", "echo 'rt: must-fail one/old.edit: BAD EDIT: the old text is gone'"):
            self.assertEqual(self.run_tool("more_edits", "one", rt=rt).returncode, 1)

    def test_the_gate_does_not_begin_at_a_word_that_it_does_not_know(self):
        for words in (["--help"], ["--arch64"], ["--aarch64", "--aarch64"]):
            run = self.run_tool("test", *words)
            self.assertEqual((run.returncode, run.stdout), (2, ""))
            self.assertEqual(run.stderr, "usage: tools/test [--aarch64]\n")


if __name__ == "__main__":
    unittest.main()
