"""The command tools/package."""

import argparse
import os
import platform
import re
import subprocess
import sys
import tempfile
from typing import Dict, Tuple

import feqyldan
from feqyldan import program

from . import MACHINES, ROOT, Machine, gstreamer, library, services, wheels

KIND_NAMES = [kind for machine in MACHINES.values() for kind in machine.kinds]


def path_of(asked: argparse.Namespace, kind: str) -> str:
    """Returns the path of the program for a kind of processor."""
    return vars(asked)[kind] or os.path.join(program.CRATE, "out", f"vx_main-{kind}")


def programs_of(asked: argparse.Namespace, machine: Machine) -> Dict[str, bytes]:
    """Returns the bytes of each program by its name in a package. Fails if one is missing, or has
    another version."""
    here = program.in_folder("")
    found = {}
    for kind, name in machine.kinds.items():
        path = path_of(asked, kind)
        if not os.access(path, os.X_OK):
            sys.exit(f"tools/package: {path} isn't a program that can be run: build it by "
                     "tools/build, with --cpu or --target")
        if name in here and machine.wheel == platform.machine():
            check_version(path)
        with open(path, "rb") as file:
            found[name] = file.read()
        if found[name][18:20] != machine.number.to_bytes(2, "little"):
            sys.exit(f"tools/package: {path} isn't a program for {machine.wheel}")
    return found


def cores_of(asked: argparse.Namespace, machine: Machine) -> Dict[str, bytes]:
    """Returns the bytes of the server as a library by its name in the wheel, for each program that
    has the library next to it."""
    found = {}
    for kind in machine.kinds:
        folder = os.path.dirname(vars(asked)[kind] or os.path.join(program.CRATE, "out", "vx_main"))
        path = os.path.join(folder, f"libfeqyldan-core-{kind}.so")
        if not os.path.isfile(path):
            print(f"tools/package: there is no {path}, so the wheel doesn't have it: tools/build "
                  "makes it", file=sys.stderr)
            continue
        with open(path, "rb") as file:
            found[os.path.basename(path)] = file.read()
    return found


def check_version(path: str) -> None:
    said = subprocess.run([path, "--version"], stdout=subprocess.PIPE, text=True, check=True).stdout
    if said.split()[1:] != [feqyldan.__version__]:
        sys.exit(f"tools/package: {path} is {said.strip()}, and the Python package "
                 f"{feqyldan.__version__}: build the program anew by tools/build")


def c_library(programs: Dict[str, bytes]) -> Tuple[int, int]:
    """Returns the oldest version of the C library that has all symbols that the programs use."""
    named = [found for data in programs.values()
             for found in re.findall(rb"GLIBC_(\d+)\.(\d+)", data)]
    return max((int(major), int(minor)) for major, minor in named)


def date() -> str:
    """Returns the date of every file in the packages, in seconds since 1970. It is that of the last
    commit, or 1980, the earliest date that a wheel can have."""
    run = subprocess.run(["git", "-C", ROOT, "log", "-1", "--format=%ct"], text=True, check=False,
                         stdout=subprocess.PIPE, stderr=subprocess.DEVNULL)
    return run.stdout.strip() or "315532800"


def main() -> None:
    parser = argparse.ArgumentParser(prog="tools/package")
    parser.add_argument("folder", nargs="?", default=os.path.join(ROOT, "out"),
                        help="folder for the packages (default: out)")
    for kind in KIND_NAMES:
        parser.add_argument(f"--{kind}", dest=kind, metavar="PROGRAM",
                            help=f"server program for {kind} (default: tools/build's)")
    parser.add_argument("--machine", choices=list(MACHINES), default="x86_64",
                        help="the processor of the packages (default: x86_64)")
    asked = parser.parse_args()
    machine = MACHINES[asked.machine]
    programs, cores = programs_of(asked, machine), cores_of(asked, machine)
    oldest = c_library({**programs, **cores})
    os.environ.setdefault("SOURCE_DATE_EPOCH", date())
    os.umask(0o022)
    os.makedirs(asked.folder, exist_ok=True)
    with tempfile.TemporaryDirectory() as folder:
        pure = wheels.pure(folder)
        print(wheels.with_programs(pure, {**programs, **cores}, oldest, asked.folder, machine))
        print(*services.build(pure, programs, oldest, asked.folder, machine), sep="\n")
    paths = {kind: path_of(asked, kind) for kind in machine.kinds}
    print(*library.build(asked.folder, paths, c_library, machine),
          *gstreamer.build(asked.folder, c_library, machine), sep="\n")
