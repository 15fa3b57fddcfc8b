"""Links a proved program for aarch64, and checks what a program or a library calls.

The processor Cortex-A53 has an erratum (843419: an address that is computed near the end of a page
can be wrong). A program is linked twice: as the toolchain links it for x86-64, and with lld's
workaround for the erratum. Both must give the same code, so the program has no place that the
erratum affects. A shared library is linked once, with the workaround of GNU ld.
"""

import os
import re
import shutil
import subprocess
import sys
from typing import List, Set

from . import COMPILER, PACKAGES, PREFIX, TARGET

HERE = os.path.dirname(os.path.abspath(__file__))
# What the toolchain's linker reads of a C library.
C_LIBRARY_FILES = (
    "Scrt1.o crti.o crtn.o crtbeginS.o crtendS.o libc.so.6 libm.so.6 libc_nonshared.a "
    "ld-linux-aarch64.so.1 libgcc.a libgcc_s.so.1").split()
# The shim: the heap, which a library needs too; and what only a program needs.
HEAP = "libc.c"
SHIM = (HEAP, "os.c")
# The toolchain's own options for C code, and warnings.
SHIM_FLAGS = (
    "-std=c11 -O2 -fPIC -fno-lto -fstack-clash-protection -Wall -Wextra -Wpedantic -Wconversion "
    "-Wsign-conversion -Wshadow -Wstrict-prototypes -Wmissing-prototypes -Wcast-qual -Wcast-align "
    "-Werror").split()
# The compiler's words for a link with the workaround.
WORKING_AROUND = [COMPILER, "-mfix-cortex-a53-843419"]
# All functions of the C library that the server calls, as a library and as a program. In each line
# the last ones are calls of the start-up code.
LIBRARY_CALLS = set("malloc realloc free memcpy memmove memset __cxa_finalize".split())
CALLS = LIBRARY_CALLS | set(
    "__errno_location read write lseek __sysv_signal __libc_start_main abort".split())
# Functions that the start-up code calls if they exist.
OPTIONAL = re.compile("_ITM_|__gmon_start__")
# The verdict on a crate that was proved from nothing. Libraries that `rt lib` built rest on
# earlier checks of their own crates (`incremental`), those of `rt ci` don't.
VERDICT = re.compile(
    rf"logic=proved .*\btarget={TARGET}\b.* logic-built=trusted libraries-built=trusted "
    "statements=trusted(?P<of_rt_lib> incremental=trusted)?")
CODE_SECTIONS = (".init", ".plt", ".text", ".fini")
WORKAROUND = """#!/bin/sh
exec "{linker}" --fix-cortex-a53-843419 "$@"
"""


def output(words: List[str], executable: str = "") -> str:
    """Returns a command's output. If it fails, ends with this output."""
    ran = subprocess.run(words, executable=executable or words[0], stdin=subprocess.DEVNULL,
                         stdout=subprocess.PIPE, stderr=subprocess.STDOUT, text=True, check=False)
    if ran.returncode:
        sys.exit(f"{ran.stdout}\ntools/build: {os.path.basename(words[0])} ended with status "
                 f"{ran.returncode}")
    return ran.stdout


def require_compiler() -> None:
    if shutil.which(COMPILER) is None:
        sys.exit(f"tools/build: there is no {COMPILER}: install Debian's {PACKAGES}")


def check_verdict(crate: str, said: str, is_gate: bool) -> None:
    """Ends tools/build unless the last line is the verdict on a crate that was proved for aarch64:
    in the gate, over libraries of `rt ci`."""
    verdict = said.splitlines()[-1]
    found = VERDICT.fullmatch(verdict)
    if not found or is_gate and found["of_rt_lib"]:
        sys.exit(f"tools/build: {crate} isn't proved for {TARGET}: {verdict}")


def check_calls(kit: str, path: str, allowed: Set[str]) -> None:
    """Ends tools/build if a program or a shared library, for any processor, calls other functions
    of the C library."""
    # The toolchain's clang is also LLVM's other tools, by the name under which it is called.
    listed = output(["llvm-nm", "-D", "--undefined-only", "-j", path],
                    executable=f"{kit}/toolchain/bin/clang")
    names = {name.partition("@")[0] for name in listed.split()}
    if beyond := {name for name in names if not OPTIONAL.match(name)} - allowed:
        sys.exit(f"tools/build: {path} calls {', '.join(sorted(beyond))} of the C library")


def compile_shim(name: str, made: str) -> str:
    """Compiles a part of the shim, and returns the path of the object."""
    output([COMPILER, *SHIM_FLAGS, "-c", "-o", made, os.path.join(HERE, name)])
    return made


class Toolchain:
    """The toolchain's tools, in a folder with a C library for aarch64."""

    def __init__(self, kit: str, place: str) -> None:
        self.kit, self.place = kit, place
        shutil.rmtree(place, ignore_errors=True)
        os.makedirs(os.path.join(place, "lib"))
        os.symlink(f"{kit}/toolchain/bin", os.path.join(place, "bin"))
        for name in C_LIBRARY_FILES:
            found = output([COMPILER, f"-print-file-name={name}"]).strip()
            if not os.path.isabs(found):
                sys.exit(f"tools/build: {COMPILER} has no {name}: install Debian's {PACKAGES}")
            shutil.copyfile(found, os.path.join(place, "lib", name))

    def work_around(self) -> None:
        """From now on, links with the workaround for the erratum."""
        tools = os.path.join(self.place, "bin")
        os.remove(tools)
        os.makedirs(tools)
        for name in os.listdir(f"{self.kit}/toolchain/bin"):
            os.symlink(f"{self.kit}/toolchain/bin/{name}", os.path.join(tools, name))
        linker = os.path.join(tools, "ld.lld")
        os.remove(linker)
        with open(linker, "w", encoding="utf-8") as script:
            script.write(WORKAROUND.format(linker=f"{self.kit}/toolchain/bin/ld.lld"))
        os.chmod(linker, 0o755)

    def link(self, made: str, program: str) -> None:
        shim = [compile_shim(name, os.path.join(self.place, f"{name}.o")) for name in SHIM]
        output([f"{self.kit}/bin/rattle-link", "--target", TARGET, "--toolchain", self.place,
                "-o", program, made, *shim])


def code_of(program: str) -> bytes:
    """Returns the instructions of a program."""
    copied = f"{program}.code"
    output([f"{PREFIX}objcopy", "-O", "binary",
            *(f"--only-section={name}" for name in CODE_SECTIONS), program, copied])
    with open(copied, "rb") as file:
        code = file.read()
    os.remove(copied)
    return code


def link(kit: str, made: str, program: str) -> None:
    """Links a compiled program. Ends with an error if it calls other functions of the C library
    than the server may, or if the erratum affects it."""
    place = f"{program}.toolchain"
    toolchain = Toolchain(kit, place)
    toolchain.link(made, program)
    check_calls(kit, program, CALLS)
    toolchain.work_around()
    other = f"{program}.worked-around"
    toolchain.link(made, other)
    if code_of(program) != code_of(other):
        sys.exit("tools/build: the program has code that Cortex-A53's erratum 843419 affects")
    os.remove(other)
    shutil.rmtree(place)
