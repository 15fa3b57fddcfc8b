"""The packages that tools/package builds, installed on their own: the first program runs, and
removing them leaves nothing. Versions agree everywhere."""

import contextlib
import gzip
import importlib.machinery
import importlib.util
import io
import os
import re
import shutil
import subprocess
import sys
import tempfile
import unittest
import urllib.request
import zipfile
from unittest import mock

from program import PROGRAM, TOOLS, skip_module_in_process, vx
from feqyldan import program
from feqyldan.broker import command_line as broker
from feqyldan.door import command_line as door
from packages import library
from test_packaging import files_of, missing

skip_module_in_process("it is about programs in packages")

CROSS = "aarch64-linux-gnu-"

ROOT = os.path.realpath(os.path.join(TOOLS, ".."))
FIRST = os.path.join(ROOT, "examples", "first.py")
MULTIARCH = "usr/lib/x86_64-linux-gnu"
# Needs of these tests that this machine lacks.
ABSENT = [*missing("pip", "venv"),
          *(name for name in ("dpkg", "dpkg-deb") if shutil.which(name) is None),
          *(["FEQYLDAN_PROGRAM"] * (not PROGRAM))]


def text_of(*path):
    with open(os.path.join(ROOT, *path), encoding="utf-8") as file:
        return file.read()


def folder_for(test):
    folder = tempfile.TemporaryDirectory()
    test.addCleanup(folder.cleanup)
    return folder.name


def package_for_arm(path, folder):
    return subprocess.run([sys.executable, os.path.join(TOOLS, "package"), "--machine=aarch64",
                           f"--aarch64={path}", folder], capture_output=True, text=True,
                          check=False)


class TestVersions(unittest.TestCase):
    def test_the_tree_has_one(self):
        said = text_of("crates", "vx_programs", "src", "command_line.rt")
        self.assertEqual(re.search(r'VERSION: &str = "(.*)";', said)[1], vx.__version__)
        self.assertEqual(re.search(r"\d+\.\d+\.\d+", text_of("CHANGELOG.md"))[0], vx.__version__)


class TestBuild(unittest.TestCase):
    def test_a_program_that_runs_is_replaced_and_not_rewritten(self):
        """So a door that has tried it keeps what it has tried."""
        folder = folder_for(self)
        program = os.path.join(folder, "vx_main-default")
        os.mkdir(os.path.join(folder, "out"))
        for path in (program, f"{folder}/vx_main", f"{folder}/out/libvx_embed.a"):
            shutil.copy2("/bin/sleep", path)
        before, build = os.stat(program), self.build()
        run = subprocess.Popen(["sleep", "1000"], executable=program)
        self.addCleanup(run.wait)
        self.addCleanup(run.kill)
        with mock.patch.multiple(build, OUT=folder, EMBED=folder, call=mock.DEFAULT,
                                 say=mock.DEFAULT, Progress=mock.DEFAULT):
            build.prove_and_build_alone("default", program, f"{folder}/archive")
        self.assertFalse(os.path.samestat(os.stat(program), before))
        self.assertEqual(sorted(os.listdir(folder)),
                         ["archive", "out", "vx_main", "vx_main-default"])

    def build(self):
        """Returns tools/build as a module."""
        path = os.path.join(TOOLS, "build")
        loader = importlib.machinery.SourceFileLoader("build", path)
        module = importlib.util.module_from_spec(importlib.util.spec_from_loader("build", loader))
        with mock.patch.object(sys, "argv", [path, "--which"]), \
                contextlib.redirect_stdout(io.StringIO()):
            loader.exec_module(module)
        return module


class TestStarter(unittest.TestCase):
    def setUp(self):
        self.folder = folder_for(self)
        self.cpuinfo = os.path.join(self.folder, "cpuinfo")
        self.starter = self.put("bin/feqyldan", text_of("deploy", "starter").replace(
            "/proc/cpuinfo", self.cpuinfo))
        for name in (program.PLAIN, program.FASTER):
            self.put(f"lib/feqyldan/{name}", f"#!/bin/sh\nprintf '<%s>' {name} \"$@\"\nexit 3\n")

    def put(self, name, text):
        path = os.path.join(self.folder, name)
        os.makedirs(os.path.dirname(path), exist_ok=True)
        with open(path, "w", encoding="utf-8") as file:
            file.write(text)
        os.chmod(path, 0o755)
        return path

    def started(self, *processors, starter=None, words=()):
        """Returns which program the starter starts on processors with these flags."""
        self.put("cpuinfo", "".join(f"processor\t: 0\nflags\t\t: {' '.join(sorted(flags))}\n\n"
                                    for flags in processors))
        run = subprocess.run([starter or self.starter, *words], stdout=subprocess.PIPE, text=True,
                             check=False)
        self.assertEqual(run.returncode, 3)
        return re.findall("<(.*?)>", run.stdout, re.DOTALL)

    def test_the_rule_is_that_of_the_python_package(self):
        every = program.FASTER_FLAGS | {"sse2", "avx512f"}
        self.assertEqual(self.started(every, every), [program.FASTER])
        self.assertEqual(self.started(), [program.PLAIN])
        for flag in program.FASTER_FLAGS:
            self.assertEqual(self.started(every, every - {flag} | {flag + "_"}), [program.PLAIN])

    def test_words_pass_through(self):
        words = ("serve", "--quota", "", "two words", "*", "line\nline")
        self.assertEqual(self.started(set(), words=words), [program.PLAIN, *words])

    def test_which_says_the_path(self):
        self.put("cpuinfo", "")
        said = subprocess.run([self.starter, "--which"], stdout=subprocess.PIPE, text=True,
                              check=True).stdout
        self.assertTrue(os.path.samefile(
            said.strip(), os.path.join(self.folder, "lib", "feqyldan", program.PLAIN)), said)

    def test_the_version_is_the_programs_and_the_name_the_commands(self):
        for word in ("--version", "-V"):
            self.put(f"lib/feqyldan/{program.PLAIN}",
                     f"#!/bin/sh\n[ \"$*\" = {word} ] && echo vx_main 9.8.7\n")
            self.put("cpuinfo", "")
            said = subprocess.run([self.starter, word], stdout=subprocess.PIPE, text=True,
                                  check=True).stdout
            self.assertEqual(said, "feqyldan 9.8.7\n")

    def test_a_version_that_is_not_said_or_not_heard_is_a_failure(self):
        self.assertEqual(self.started(set(), words=["--version"]), [])
        self.put(f"lib/feqyldan/{program.PLAIN}", "#!/bin/sh\necho vx_main 9.8.7\n")
        with open("/dev/full", "w", encoding="utf-8") as full:
            run = subprocess.run([self.starter, "--version"], stdout=full,
                                 stderr=subprocess.DEVNULL, check=False)
        self.assertEqual(run.returncode, 4)

    def test_help_and_refusals_have_the_commands_name(self):
        self.put("cpuinfo", "")
        self.put(f"lib/feqyldan/{program.PLAIN}", "#!/bin/sh\ncase $1 in\n"
                 "serve) [ $# != 3 ] || exec cat; echo Usage: vx_main serve >&2; exit 2 ;;\n"
                 "apply) cat; exit 5 ;;\n"
                 "help) echo Usage: vx_main; exit ;;\nesac\necho Usage: vx_main >&2; exit 2\n")
        for words, status, out, error in (
                (["nonsense"], 2, "", "Usage: feqyldan\n"), ([], 2, "", "Usage: feqyldan\n"),
                (["serve", "--quota=x"], 2, "", "Usage: feqyldan serve\n"),
                (["help"], 0, "Usage: feqyldan\n", ""),
                # What is no refusal gets the input.
                (["serve", "--quota", "5"], 0, "vx_main", ""),
                (["serve", "--work", "5"], 0, "vx_main", ""), (["apply"], 5, "vx_main", "")):
            run = subprocess.run([self.starter, *words], input="vx_main", capture_output=True,
                                 text=True, check=False)
            self.assertEqual((run.returncode, run.stdout, run.stderr), (status, out, error), words)

    def test_without_the_faster_build_the_flags_decide_nothing(self):
        os.remove(os.path.join(self.folder, "lib", "feqyldan", program.FASTER))
        self.assertEqual(self.started(program.FASTER_FLAGS), [program.PLAIN])

    def test_by_another_name(self):
        link = os.path.join(self.folder, "link")
        os.symlink(self.starter, link)
        self.assertEqual(self.started(set(), starter=link), [program.PLAIN])


@unittest.skipIf(ABSENT, f"not there: {', '.join(ABSENT)}")
class TestPackages(unittest.TestCase):
    @classmethod
    def setUpClass(cls):
        folder = tempfile.TemporaryDirectory()
        cls.addClassCleanup(folder.cleanup)
        cls.wheel, *cls.debian = cls.packages(folder.name)

    @staticmethod
    def packages(folder):
        """Returns the packages' paths. The program of these tests is packed for both kinds of
        processor."""
        run = subprocess.run([sys.executable, os.path.join(TOOLS, "package"), folder,
                              f"--default={PROGRAM}", f"--x86-64-v3={PROGRAM}"],
                             stdout=subprocess.PIPE, text=True, check=True)
        return run.stdout.splitlines()

    def test_a_program_for_another_processor_is_refused(self):
        run = package_for_arm(PROGRAM, folder_for(self))
        self.assertEqual((run.returncode, run.stdout), (1, ""))
        self.assertIn(f"{PROGRAM} isn't a program for aarch64", run.stderr)

    def setUp(self):
        self.folder = folder_for(self)
        self.root = os.path.join(self.folder, "root")
        # Nothing of the checkout is found by these.
        self.environment = {"PATH": "/usr/bin:/bin:/usr/sbin:/sbin", "HOME": self.folder,
                            "PYTHONDONTWRITEBYTECODE": "1"}

    def run_there(self, *words):
        run = subprocess.run(words, cwd=self.folder, env=self.environment, timeout=120,
                             stdin=subprocess.DEVNULL, stdout=subprocess.PIPE,
                             stderr=subprocess.STDOUT, text=True, check=False)
        self.assertEqual(run.returncode, 0, run.stdout)
        return run.stdout

    def unpack(self):
        """Unpacks the packages for Debian in a folder of their own, which is searched before all
        others."""
        for package in self.debian:
            self.run_there("dpkg", "-x", package, self.root)
        self.environment["PATH"] = f"{self.root}/usr/bin:{self.environment['PATH']}"
        self.environment["PYTHONPATH"] = f"{self.root}/usr/lib/python3/dist-packages"

    def first_program_runs(self, python, found):
        """Checks that the first program draws its picture, with the server at this path."""
        shutil.copy(FIRST, self.folder)
        self.run_there(python, "first.py")
        with open(os.path.join(self.folder, "outlines.png"), "rb") as file:
            self.assertEqual(file.read(8), b"\x89PNG\r\n\x1a\n")
        where = self.run_there(python, "-c", "from feqyldan.program import find; print(find())")
        self.assertEqual(where.strip(), found)

    def test_the_wheel(self):
        venv = os.path.join(self.folder, "venv")
        self.run_there(sys.executable, "-m", "venv", "--system-site-packages", "--without-pip",
                       venv)
        python, before = os.path.join(venv, "bin", "python"), files_of(venv)
        self.run_there(python, "-m", "pip", "install", "--no-index", self.wheel)
        where = self.run_there(python, "-c", "import feqyldan; print(feqyldan.__path__[0])").strip()
        self.assertTrue(where.startswith(venv), where)
        names = {os.path.basename(path) for path in program.built()}
        faster = program.FASTER if program.FASTER in names else program.PLAIN
        self.first_program_runs(python, os.path.join(where, "programs", faster))
        self.run_there(python, "-m", "pip", "uninstall", "--yes", "feqyldan")
        self.assertEqual(files_of(venv), before)

    def test_each_package_needs_what_it_says(self):
        """The server works without Python, Python without the server, the library without both."""
        names = [os.path.basename(package).partition("_")[0] for package in self.debian]
        self.assertEqual(names[:5], ["feqyldan-server", "python3-feqyldan", "feqyldan",
                                     "libfeqyldan0", "libfeqyldan-dev"])
        # It is built where GStreamer's headers are installed.
        self.assertIn(names[5:], ([], ["gstreamer1.0-feqyldan"]))
        packages, version = dict(zip(names, self.debian)), vx.__version__
        needs = {name: self.run_there("dpkg-deb", "--field", package, "Depends").strip()
                 for name, package in packages.items()}
        for name in ("feqyldan-server", "libfeqyldan0"):
            self.assertRegex(needs[name], r"^libc6 \(>= [\d.]+\)$")
        self.assertEqual(needs["python3-feqyldan"], "python3 (>= 3.9)")
        # A server of its own needs one of these, and a connection to a socket none.
        self.assertEqual(self.run_there("dpkg-deb", "--field", packages["python3-feqyldan"],
                                        "Recommends", "Breaks"),
                         "Recommends: libfeqyldan0, feqyldan-server\n"
                         f"Breaks: libfeqyldan0 (<< {version})\n")
        self.assertEqual(needs["feqyldan"], f"python3 (>= 3.9), feqyldan-server (= {version}), "
                                            f"python3-feqyldan (= {version})")
        self.assertEqual(needs["libfeqyldan-dev"], f"libfeqyldan0 (= {version})")
        for name in names[5:]:
            self.assertRegex(needs[name], r"^libc6 \(>= [\d.]+\), libgstreamer1.0-0 \(>= 1.20\), ")
        files = [name for package in self.debian
                 for name in self.run_there("dpkg-deb", "--contents", package).split()
                 if name.startswith("./") and not name.endswith("/")]
        self.assertEqual(len(files), len(set(files)))

    @unittest.skipIf(shutil.which("lintian") is None, "lintian isn't installed")
    def test_lintian_finds_no_error(self):
        self.run_there("lintian", "--allow-root", "--fail-on", "error", *self.debian)

    def test_the_first_program_with_the_debian_packages(self):
        self.unpack()
        self.first_program_runs(sys.executable, f"{self.root}/usr/bin/feqyldan")
        documents = f"{self.root}/usr/share/doc/feqyldan"
        for name in ("README.md", "copyright", "changelog.gz", "docs/wire.md", "examples/first.py",
                     "CHANGELOG.md", "SECURITY.md"):
            self.assertTrue(os.path.isfile(os.path.join(documents, name)), name)

    def test_the_server_in_the_process_with_the_debian_packages(self):
        """No program is on PATH, and the linker looks in the system's folders."""
        self.unpack()
        self.environment.update(PATH="/nowhere", LD_LIBRARY_PATH=f"{self.root}/{MULTIARCH}")
        self.run_there(sys.executable, FIRST)
        said = self.run_there(sys.executable, "-c", "import feqyldan as vx\n"
                              "with vx.Server() as server:\n    print(server)\n")
        self.assertEqual(said, "<server, in this process>\n")

    def test_the_studio_with_the_debian_packages(self):
        """It serves its page."""
        self.unpack()
        run = subprocess.Popen([sys.executable, "-m", "feqyldan", "studio", "--no-browser"],
                               cwd=self.folder, env=self.environment, stdout=subprocess.PIPE,
                               text=True)
        try:
            address = re.search(r"http://\S+/", run.stdout.readline())[0]
            with urllib.request.urlopen(address + "main.js", timeout=60) as reply:
                self.assertIn(b"class Studio", reply.read())
        finally:
            run.terminate()
            run.communicate(timeout=30)

    def test_the_example_in_c_with_the_debian_packages(self):
        self.unpack()
        example = f"{self.root}/usr/share/doc/libfeqyldan-dev/examples/edges.c"
        library, made = f"{self.root}/{MULTIARCH}", os.path.join(self.folder, "edges")
        self.run_there("cc", f"-I{self.root}/usr/include", example, f"-L{library}", "-lfeqyldan",
                       "-o", made)
        # It runs where there is no compiler, nor anything else that the starter doesn't need.
        few = os.path.join(self.folder, "few")
        os.mkdir(few)
        for name in ("dirname", "grep", "readlink", "sh", "sort"):
            os.symlink(shutil.which(name), os.path.join(few, name))
        # With the server in its own process it needs nothing.
        for words in ({"PATH": f"{self.root}/usr/bin:{few}", "FEQYLDAN_SERVER": "process"},
                      {"PATH": "/nowhere"}):
            run = subprocess.run([made], stdout=subprocess.PIPE, timeout=120, check=True,
                                 env={"LD_LIBRARY_PATH": library, **words})
            self.assertTrue(run.stdout.startswith(b"P5\n256 256\n255\n"))
            self.assertEqual(set(run.stdout[15:]), {0, 255})

    def test_the_door_and_the_broker_of_the_debian_packages(self):
        self.unpack()
        socket = os.path.join(self.folder, "socket")
        # The broker's unit has this name, and the linker looks in the system's folders.
        core = {"LD_LIBRARY_PATH": f"{self.root}/{MULTIARCH}",
                "FEQYLDAN_CORE": "libfeqyldan-core.so.0"}
        for name, words in (("door", ("--", "feqyldan", "serve")), ("broker", ("--servers", "1"))):
            run = subprocess.Popen(
                [sys.executable, f"{self.root}/usr/bin/feqyldan-{name}", "--socket", socket,
                 *words], env={**self.environment, **core}, stderr=subprocess.PIPE)
            try:
                with vx.connect(socket, retry=30) as server, server.context() as context:
                    self.assertEqual(context.image_from([[1, 2]]).read().tolist(), [[1, 2]])
            finally:
                run.terminate()
                said = run.communicate(timeout=30)[1]
            self.assertEqual(run.returncode, 0, said)
            if name == "door":
                # It has asked the starter once.
                self.assertIn(f"{self.root}/usr/lib/feqyldan/vx_main-".encode(), said)

    def test_the_units_name_what_the_package_has(self):
        self.unpack()
        units = f"{self.root}/usr/lib/systemd/system"
        texts = {}
        for name in os.listdir(units):
            with open(os.path.join(units, name), encoding="utf-8") as file:
                texts[name] = file.read()
            self.assertNotIn("/opt", texts[name])
        self.assertEqual(set(texts), set(os.listdir(os.path.join(ROOT, "deploy"))) - {
            "man", "starter", "sysusers.conf"})
        self.assertIn("-- /usr/bin/feqyldan serve", texts["feqyldan-door.service"])
        self.assertIn("\nEnvironment=FEQYLDAN_CORE=libfeqyldan-core.so.0\n",
                      texts["feqyldan-broker.service"])
        self.assertIn("\nExecStart=/run/feqyldan/program serve ", texts["feqyldan@.service"])
        self.assertIn("/run/feqyldan/program'\n", texts["feqyldan.socket"])

    def test_the_socket_s_unit_chooses_the_program(self):
        """By the command that the unit runs before it listens."""
        self.unpack()
        with open(f"{self.root}/usr/lib/systemd/system/feqyldan.socket", encoding="utf-8") as file:
            commands = re.findall("^ExecStartPre=(.*)$", file.read(), re.M)
        for command in commands:
            command = command.replace("$$", "$").replace("/run/", f"{self.folder}/run/").replace(
                "/usr/bin/feqyldan", f"{self.root}/usr/bin/feqyldan")
            self.run_there("/bin/sh", "-c", command)
        said = self.run_there(f"{self.folder}/run/feqyldan/program", "--version")
        self.assertEqual(said.split()[0], "vx_main")

    def test_the_removal_s_script_fails_nowhere(self):
        """It succeeds even if the folder is gone, or systemd refuses."""
        for package in self.debian[:3]:
            self.run_script(package, "exit 1", "prerm", "remove")

    def test_an_install_and_a_removal_succeed_where_systemd_refuses(self):
        for package in (self.debian[0], self.debian[2]):
            for name, *words in (("postinst", "configure"), ("postrm", "remove")):
                said = self.run_script(package, 'echo "$*"; exit 1', name, *words)
                self.assertIn("daemon-reload\n", said)

    def test_an_upgrade_reaches_the_new_connections_of_a_running_door(self):
        """The door looks up the server's program again."""
        said = self.run_script(self.debian[0], 'echo "$*"', "postinst", "configure", "0.0.1")
        self.assertIn("reload feqyldan-door\n", said)
        # Nothing is started.
        said = self.run_script(self.debian[0], 'echo "$*"; [ "$1" = daemon-reload ]', "postinst",
                               "configure", "0.0.1")
        self.assertEqual(said, "daemon-reload\n--quiet is-active feqyldan-door\n")

    def run_script(self, package, systemctl, name, *words):
        """Runs a maintainer's script of a package with a script in place of systemctl. Returns what
        both say."""
        folder = tempfile.mkdtemp(dir=self.folder)
        self.run_there("dpkg-deb", "--control", package, os.path.join(folder, "control"))
        os.mkdir(os.path.join(folder, "bin"))
        for command, text in (("systemctl", systemctl), ("systemd-sysusers", "exit 0")):
            path = os.path.join(folder, "bin", command)
            with open(path, "w", encoding="utf-8") as file:
                file.write(f"#!/bin/sh\n{text}\n")
            os.chmod(path, 0o755)
        with open(os.path.join(folder, "control", name), encoding="utf-8") as file:
            script = file.read().replace("/run/systemd/system", "/").replace(
                "/usr/lib/python3", "/no/such/folder").replace("/run/feqyldan", folder + "/run")
        return self.run_there("/bin/sh", "-c",
                              f"PATH={folder}/bin:$PATH; DPKG_ROOT=; {script}", name, *words)

    @unittest.skipIf(os.geteuid(), "dpkg installs for root alone")
    def test_an_install_and_a_purge(self):
        kept = os.path.join(self.root, "var", "lib", "dpkg")
        for name in ("info", "updates", "triggers"):
            os.makedirs(os.path.join(kept, name))
        for name in ("status", "available"):
            with open(os.path.join(kept, name), "w", encoding="utf-8"):
                pass
        dpkg = ("dpkg", f"--root={self.root}", f"--log={self.folder}/log",
                "--force-script-chrootless", "--force-depends")
        self.run_there(*dpkg, "--install", *self.debian)
        library = os.path.join(self.root, "usr/lib/python3/dist-packages/feqyldan")
        # What Python would have left there.
        os.mkdir(os.path.join(library, "__pycache__"))
        names = [os.path.basename(package).partition("_")[0] for package in self.debian]
        self.run_there(*dpkg, "--purge", *names)
        self.assertEqual(os.listdir(self.root), ["var"])
        self.assertEqual(os.listdir(os.path.join(self.root, "var")), ["lib"])
        self.assertFalse([path for path in files_of(kept) if "feqyldan" in path])

    def test_versions_agree(self):
        self.assertEqual(self.run_there(PROGRAM, "--version").split()[1], vx.__version__)
        for package in self.debian:
            said = self.run_there("dpkg-deb", "--field", package, "Version")
            self.assertEqual(said.strip(), vx.__version__)
        for path in (self.wheel, *self.debian):
            self.assertRegex(os.path.basename(path), rf"feqyldan\S*[-_]{vx.__version__}[-_]")
        self.unpack()
        self.assertEqual(self.run_there("feqyldan", "--version"), f"feqyldan {vx.__version__}\n")
        for name in ("feqyldan.1", "feqyldan-door.1", "feqyldan-broker.1"):
            self.assertIn(f'"feqyldan {vx.__version__}"', self.manual(name))
        library = f"{self.root}/{MULTIARCH}/pkgconfig/feqyldan.pc"
        with open(library, encoding="utf-8") as file:
            self.assertIn(f"Version: {vx.__version__}\n", file.read())

    def manual(self, name):
        path = f"{self.root}/usr/share/man/man1/{name}.gz"
        with gzip.open(path, "rt", encoding="utf-8") as file:
            return file.read().replace("\\-", "-")

    def test_the_manual_pages_have_every_option(self):
        self.unpack()
        helps = [self.run_there(PROGRAM, *words, "--help")
                 for words in ((), ("serve",), ("apply",))]
        options = {"feqyldan.1": re.findall("--[a-z]+", "".join(helps)),
                   **{f"feqyldan-{name}.1": re.findall(r"^  (?:-h, )?(--[a-z-]+)",
                                                       module.parser().format_help(), re.M)
                      for name, module in (("door", door), ("broker", broker))}}
        for name, words in options.items():
            self.assertGreater(len(words), 5)
            for word in words:
                self.assertIn(word, self.manual(name))

    def test_the_same_tree_gives_the_same_bytes(self):
        for path, again in zip((self.wheel, *self.debian), self.packages(self.folder)):
            with open(path, "rb") as first, open(again, "rb") as second:
                self.assertEqual(first.read(), second.read(), path)

    def test_the_library_says_nothing_of_where_it_was_built(self):
        self.unpack()
        for name in ("libfeqyldan.a", "libfeqyldan.so.0"):
            with open(f"{self.root}/{MULTIARCH}/{name}", "rb") as file:
                data = file.read()
            for folder in (ROOT, tempfile.gettempdir()):
                self.assertNotIn(folder.encode() + b"/", data)

    def test_a_program_of_another_version_is_refused(self):
        other = os.path.join(self.folder, "other")
        with open(other, "w", encoding="utf-8") as file:
            file.write("#!/bin/sh\necho vx_main 9.9.9\n")
        os.chmod(other, 0o755)
        run = subprocess.run([sys.executable, os.path.join(TOOLS, "package"), self.folder,
                              f"--default={other}", f"--x86-64-v3={PROGRAM}"],
                             stderr=subprocess.PIPE, text=True, check=False)
        self.assertEqual(run.returncode, 1)
        self.assertIn("is vx_main 9.9.9, and the Python package", run.stderr)
        self.assertEqual(os.listdir(self.folder), ["other"])


@unittest.skipIf(ABSENT or shutil.which(f"{CROSS}gcc") is None,
                 f"not there: {', '.join([*ABSENT, 'or a cross compiler'])}")
class TestPackagesForArm(unittest.TestCase):
    """Packages with stand-ins for the program and its libraries, which nothing here can run."""

    @classmethod
    def setUpClass(cls):
        folder = tempfile.TemporaryDirectory()
        cls.addClassCleanup(folder.cleanup)
        cls.folder = folder.name
        cls.program = cls.built("vx_main-aarch64")
        cls.built("libfeqyldan-core-aarch64.so", "-shared")
        subprocess.run([f"{CROSS}ar", "rcs", os.path.join(cls.folder, "libfeqyldan-core-aarch64.a"),
                        cls.built("core.o", "-c")], check=True)
        run = package_for_arm(cls.program, os.path.join(cls.folder, "packages"))
        assert run.returncode == 0, run.stderr
        cls.wheel, *cls.debian = run.stdout.splitlines()

    @classmethod
    def built(cls, name, *words):
        path = os.path.join(cls.folder, name)
        subprocess.run([f"{CROSS}gcc", "-fPIC", *words, "-x", "c", "-", "-o", path], text=True,
                       input="void feqyldan_open(void) {}\nint main(void) { return 0; }\n",
                       check=True)
        return path

    def test_their_names(self):
        version = vx.__version__
        self.assertRegex(self.wheel, rf"/feqyldan-{version}-py3-none-manylinux\S+_aarch64\.whl$")
        self.assertEqual([os.path.basename(package) for package in self.debian], [
            f"{name}_{version}_{kind}.deb" for name, kind in (
                ("feqyldan-server", "arm64"), ("python3-feqyldan", "all"), ("feqyldan", "all"),
                ("libfeqyldan0", "arm64"), ("libfeqyldan-dev", "arm64"))])

    def test_the_debian_packages_have_the_server_as_a_library(self):
        root = folder_for(self)
        for package in self.debian[3:]:
            subprocess.run(["dpkg", "-x", package, root], check=True)
        self.assertEqual(sorted(os.listdir(f"{root}/usr/lib/aarch64-linux-gnu")), [
            "libfeqyldan-core.a", "libfeqyldan-core.so.0", "libfeqyldan.a", "libfeqyldan.so",
            "libfeqyldan.so.0", "pkgconfig"])
        self.assertEqual(sorted(os.listdir(f"{root}/usr/include/feqyldan")),
                         ["context.h", "core.h"])

    def test_the_python_package_finds_what_is_in_the_wheel(self):
        folder = folder_for(self)
        with zipfile.ZipFile(self.wheel) as archive:
            archive.extractall(folder)
        home = os.path.join(folder, "feqyldan", "programs")
        with mock.patch.object(program, "INSIDE", home), \
                mock.patch.object(program, "is_arm", return_value=True):
            found = [program.cores()[0], *program.inside()]
        self.assertEqual(found, [os.path.join(home, name) for name in sorted(os.listdir(home))])

    def test_each_library_is_needed(self):
        for name in ("libfeqyldan-core-aarch64.so", "libfeqyldan-core-aarch64.a"):
            path = os.path.join(self.folder, name)
            os.rename(path, path + "_")
            self.addCleanup(os.rename, path + "_", path)
            with self.assertRaisesRegex(SystemExit, f"{path} isn't there: build it by tools/build"):
                library.core_of(self.program)
            self.doCleanups()


if __name__ == "__main__":
    unittest.main()
