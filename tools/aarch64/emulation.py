"""Runs programs for aarch64 under qemu-user. Needs no binfmt_misc, and so no privileges."""

import os
import shutil
import subprocess

from . import C_LIBRARY, EMULATOR

HERE = os.path.dirname(os.path.abspath(__file__))
# The folder of a command cc that compiles for aarch64.
COMPILERS = os.path.join(HERE, "bin")


def launcher(program: str, place: str) -> str:
    """Builds a program that runs another one under emulation, and returns its path."""
    paths = {"QEMU": str(shutil.which(EMULATOR)), "C_LIBRARY": C_LIBRARY,
             "PROGRAM": os.path.abspath(program)}
    subprocess.run(["/usr/bin/cc", "-O1", "-static", "-Wall", "-Wextra",
                    *(f'-D{name}="{path}"' for name, path in paths.items()),
                    "-o", place, os.path.join(HERE, "launch.c")], check=True)
    return place
