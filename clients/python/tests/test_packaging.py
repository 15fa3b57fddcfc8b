"""The package as pip installs it, without a network and without leaving files in the checkout; and
its types."""

import importlib.util
import os
import subprocess
import sys
import tempfile
import unittest
import zipfile

from program import HERE, PROGRAM, skip_module_in_process

skip_module_in_process("it needs no server")

PYTHON = os.path.realpath(os.path.join(HERE, ".."))


def missing(*modules):
    """Returns the modules that aren't installed."""
    return [name for name in modules if importlib.util.find_spec(name) is None]


def files_of(folder):
    """Returns the files in a folder with their lengths, without Python's caches of compiled
    tests."""
    return {os.path.join(at, name): os.lstat(os.path.join(at, name)).st_size
            for at, _, names in os.walk(folder) for name in names
            if os.path.join("tests", "__pycache__") not in at}


@unittest.skipIf(missing("pip", "venv"), f"not installed: {', '.join(missing('pip', 'venv'))}")
class TestPackage(unittest.TestCase):
    def setUp(self):
        folder = tempfile.TemporaryDirectory()
        self.addCleanup(folder.cleanup)
        self.folder = folder.name
        # Python's own variables would have the checkout's package found.
        self.environment = {name: value
                            for name, value in os.environ.items() if not name.startswith("PYTHON")}

    def run_there(self, *words):
        run = subprocess.run(words, cwd=self.folder, env=self.environment, timeout=120,
                             stdin=subprocess.DEVNULL,
                             stdout=subprocess.PIPE, stderr=subprocess.STDOUT, text=True)
        self.assertEqual(run.returncode, 0, run.stdout)
        return run.stdout

    def test_an_install(self):
        before = files_of(PYTHON)
        python = os.path.join(self.folder, "venv", "bin", "python")
        self.run_there(sys.executable, "-m", "venv", "--system-site-packages", "--without-pip",
                       "venv")
        self.run_there(python, "-m", "pip", "install", "--no-index", "--no-deps", PYTHON)
        self.assertEqual(files_of(PYTHON), before)
        where = self.run_there(python, "-c", "import feqyldan; print(feqyldan.__file__)").strip()
        self.assertTrue(where.startswith(os.path.join(self.folder, "venv")), where)
        # The studio's page is one of the package's files.
        said = self.run_there(python, "-c", "from feqyldan.studio.web import Site; "
                              "print(*Site(0, 'token', {}).files)")
        self.assertIn("index.html", said.split())
        for name in ("feqyldan-door", "feqyldan-broker"):
            said = self.run_there(os.path.join(os.path.dirname(python), name), "--help")
            self.assertIn("--socket", said)
        if PROGRAM:
            self.environment["FEQYLDAN_PROGRAM"] = os.path.realpath(PROGRAM)
            self.assertEqual(self.run_there(python, "-c",
                                            "import feqyldan as vx\nwith vx.Server() as server, "
                                            "server.context() as context:\n    "
                                            "print(context.image_from([[1, "
                                            "2]]).read().tolist())"), "[[1, 2]]\n")

    def test_what_a_wheel_has(self):
        self.run_there(sys.executable, "-m", "pip", "wheel", "--no-index", "--no-deps", PYTHON)
        wheel, = (name for name in os.listdir(self.folder) if name.endswith(".whl"))
        with zipfile.ZipFile(os.path.join(self.folder, wheel)) as archive:
            names = archive.namelist()
            about = {os.path.basename(name): archive.read(name).decode()
                     for name in names if ".dist-info/" in name}
        with open(os.path.join(PYTHON, "..", "..", "LICENSE"), encoding="utf-8") as file:
            self.assertEqual(about["LICENSE"], file.read())
        for line in ("License: Apache-2.0", "Project-URL: OpenVX, https://",
                     "Requires-Python: >=3.9"):
            self.assertIn(line, about["METADATA"])
        for name in ("door", "broker"):
            self.assertIn(f"feqyldan-{name} = feqyldan.{name}:main", about["entry_points.txt"])
        sources = {os.path.relpath(path, PYTHON)
                   for path in files_of(os.path.join(PYTHON, "feqyldan"))
                   if path.endswith((".py", ".html", ".css", ".js", ".svg"))}
        self.assertIn(os.path.join("feqyldan", "studio", "page", "main.js"), sources)
        self.assertEqual({name for name in names if name.startswith("feqyldan/")},
                         sources | {"feqyldan/py.typed"})

    @unittest.skipIf(missing("ensurepip"), "ensurepip isn't installed")
    def test_a_new_virtual_environment_without_a_network(self):
        """It has pip alone."""
        before = files_of(PYTHON)
        self.run_there(sys.executable, "-m", "venv", "venv")
        python = os.path.join(self.folder, "venv", "bin", "python")
        for words in ((), ("--editable",)):
            self.run_there(python, "-m", "pip", "install", "--no-index", *words, PYTHON)
            where = self.run_there(python, "-B", "-c",
                                   "import feqyldan; print(feqyldan.__file__)")
            self.assertTrue(where.startswith(PYTHON if words else self.folder), where)
            self.run_there(python, "-m", "pip", "uninstall", "--yes", "feqyldan")
        self.assertEqual(files_of(PYTHON), before)

    def test_an_archive_of_the_sources(self):
        """Building from the archive gives the same wheel, byte for byte."""
        build = ("import sys\nsys.dont_write_bytecode = True\nsys.path.insert(0, sys.argv[1])\n"
                 "import build_backend\n"
                 "print(build_backend.build_sdist('.'), build_backend.build_wheel('.'))\n")
        archive, wheel = self.run_there(sys.executable, "-c", build, PYTHON).split()
        self.run_there("tar", "xf", archive)
        os.rename(os.path.join(self.folder, wheel), os.path.join(self.folder, "first"))
        self.run_there(sys.executable, "-c", build, archive[:-len(".tar.gz")])
        one, other = (open(os.path.join(self.folder, name), "rb") for name in ("first", wheel))
        with one, other:
            self.assertEqual(one.read(), other.read())


if __name__ == "__main__":
    unittest.main()
