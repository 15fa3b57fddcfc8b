"""The server's program and its libraries for aarch64, built and tested on an x86-64 machine.

The toolchain proves and compiles for aarch64. Debian's cross packages have the C library and the
start-up code. `libc.c` and `os.c` have six small functions in C, the *shim*, which the toolchain
has only for x86-64.
"""

import os
import shutil

TARGET = "aarch64-unknown-linux-gnu"
# The prefix of the names of Debian's cross tools.
PREFIX = "aarch64-linux-gnu-"
COMPILER = f"{PREFIX}gcc"
EMULATOR = "qemu-aarch64-static"
C_LIBRARY = "/usr/aarch64-linux-gnu"
PACKAGES = "gcc-aarch64-linux-gnu libc6-dev-arm64-cross qemu-user-static"


def kit() -> str:
    """Returns the folder of the Rattle toolchain whose command rt is on PATH."""
    return os.path.dirname(os.path.dirname(os.path.realpath(str(shutil.which("rt")))))
