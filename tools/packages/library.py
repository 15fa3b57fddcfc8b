"""The Debian packages of the C library: the library itself, which has the server as a library, and
the files for building programs. Neither needs Python, or a server's program on the same machine."""

import os
import pathlib
import shutil
import subprocess
import sys
import tempfile
from typing import Callable, Dict, List, Tuple

import feqyldan

from . import ROOT, Machine, debian

LIBRARY = os.path.join(ROOT, "clients", "c")
TOOLS = {"CC": "gcc", "LD": "ld", "AR": "ar", "OBJCOPY": "objcopy"}
NAME, DEVELOPMENT = "libfeqyldan0", "libfeqyldan-dev"
# The Makefile's variable for each build of the server as a library.
CORES = {"default": "CORE", "x86-64-v3": "FASTER_CORE", "aarch64": "CORE"}
DESCRIPTION = """OpenVX's calls for the vision server Feqyldan{what}
 A C library with the names, types and signatures of OpenVX 1.3. A server does
 the computing: in the program's own process, in one that the library starts,
 or behind a socket.
 .
 {contents}"""
LIBRARY_CONTENTS = "This package has the shared libraries: OpenVX's calls, and the server."
DEVELOPMENT_CONTENTS = """This package has the headers, the static libraries, a manual page and an
 example."""


def libraries(stage: str, machine: Machine) -> pathlib.Path:
    return pathlib.Path(stage, "usr/lib", machine.multiarch)


def shared_libraries(stage: str, machine: Machine) -> List[pathlib.Path]:
    return sorted(libraries(stage, machine).rglob("*.so.0"))


def core_of(program: str) -> str:
    """Returns the path of a program's server as a library, without the ending. Fails if a library
    is missing."""
    home, name = os.path.split(program)
    core = os.path.join(home, f"libfeqyldan-core-{name.partition('-')[2] or 'default'}")
    for path in (f"{core}.a", f"{core}.so"):
        if not os.path.exists(path):
            sys.exit(f"tools/package: {path} isn't there: build it by tools/build")
    return os.path.abspath(core)


def install(stage: str, programs: Dict[str, str], machine: Machine) -> None:
    """Builds the library from a copy of its sources, strips it, and installs it with the server as
    a library, in each build that the machine has."""
    cores = [f"{CORES[kind]}={core_of(programs[kind])}" for kind in machine.kinds]
    strip = f"{machine.prefix}strip"
    with tempfile.TemporaryDirectory() as folder:
        copy = shutil.copytree(LIBRARY, os.path.join(folder, "c"),
                               ignore=shutil.ignore_patterns("out"))
        subprocess.run(["make", "-s", "-C", copy, "install", "PREFIX=/usr",
                        f"LIBDIR=/usr/lib/{machine.multiarch}", f"DESTDIR={stage}",
                        *(f"{name}={machine.prefix}{tool}" for name, tool in TOOLS.items()),
                        f"VERSION={feqyldan.__version__}", "CFLAGS=-O2 -g0", "RUNPATH=", *cores],
                       stdout=sys.stderr, check=True)
    for path in shared_libraries(stage, machine):
        subprocess.run([strip, "--strip-unneeded", path], check=True)
        path.chmod(0o644)
    for path in libraries(stage, machine).glob("*.a"):
        subprocess.run([strip, "--strip-debug", "--enable-deterministic-archives", path],
                       check=True)


def build_library(made: str, target: str, c_library: Tuple[int, int],
                  machine: Machine) -> str:
    with tempfile.TemporaryDirectory() as stage:
        for path in shared_libraries(made, machine):
            place = os.path.join(stage, os.path.relpath(path, made))
            os.makedirs(os.path.dirname(place), exist_ok=True)
            shutil.move(str(path), place)
        shutil.rmtree(libraries(made, machine) / "glibc-hwcaps", ignore_errors=True)
        debian.put(stage, {"DEBIAN/shlibs": f"libfeqyldan 0 {NAME}\n",
                           "DEBIAN/triggers": "activate-noawait ldconfig\n"}, 0o644)
        return debian.finish(stage, target, {}, name=NAME, architecture=machine.debian,
                             section="libs",
                             description=DESCRIPTION.format(what="", contents=LIBRARY_CONTENTS),
                             relations="Multi-Arch: same\nDepends: libc6 (>= {}.{})\n"
                                       "Recommends: feqyldan-server".format(*c_library))


def build_development(made: str, target: str, machine: Machine) -> str:
    example = f"usr/share/doc/{DEVELOPMENT}/examples/edges.c"
    debian.put(made, {**debian.manual("libfeqyldan.3"),
                      example: debian.text_of("clients", "c", "examples", "edges.c")}, 0o644)
    return debian.finish(
        made, target, {}, name=DEVELOPMENT, architecture=machine.debian, section="libdevel",
        description=DESCRIPTION.format(what=" (development)", contents=DEVELOPMENT_CONTENTS),
        relations=f"Multi-Arch: same\nDepends: {NAME} (= {feqyldan.__version__})")


def build(folder: str, programs: Dict[str, str],
          oldest: Callable[[Dict[str, bytes]], Tuple[int, int]], machine: Machine) -> List[str]:
    """Builds the packages, and returns their paths. The server as a library is that of these
    programs. `oldest` returns the version of the oldest C library that some data needs."""
    with tempfile.TemporaryDirectory() as made:
        install(made, programs, machine)
        needed = oldest({str(path): path.read_bytes()
                         for path in shared_libraries(made, machine)})
        return [build_library(made, folder, needed, machine),
                build_development(made, folder, machine)]
