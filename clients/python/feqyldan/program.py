"""Finds the server's program, or its library for this process, if no path is given."""

from __future__ import annotations

import os
import shutil
from typing import List, Set

from .errors import ProgramNotFound

VARIABLE = "FEQYLDAN_PROGRAM"
# The names of the program on PATH.
NAMES = ("feqyldan", "vx_main")
HERE = os.path.dirname(os.path.abspath(__file__))
# The folder of the programs in a wheel that includes them (tools/package).
INSIDE = os.path.join(HERE, "programs")
# The crate where tools/build puts the program, if this package is in a checkout.
CRATE = os.path.normpath(os.path.join(HERE, "../../../crates/vx_main"))
# The build for processors with AVX2, and the build for all. The faster one needs these flags of
# /proc/cpuinfo (abm is lzcnt; xsave is osxsave where the system allows it).
FASTER, PLAIN = "vx_main-x86-64-v3", "vx_main-default"
FASTER_FLAGS = set("abm avx avx2 bmi1 bmi2 f16c fma movbe xsave".split())
# The two builds as a library, and the flags that the plain one needs. The program checks them
# itself; a library can't.
FASTER_CORE, PLAIN_CORE = "libfeqyldan-core-x86-64-v3.so", "libfeqyldan-core-default.so"
PLAIN_FLAGS = set("cx16 lahf_lm popcnt sse4_1 sse4_2 ssse3".split())
# The only build for ARM processors of 64 bits, which all of them can run, as a program and as a
# library. In a package the program's name is PLAIN.
ARM, ARM_CORE = "vx_main-aarch64", "libfeqyldan-core-aarch64.so"


def find() -> str:
    """Returns the path of the program: the value of FEQYLDAN_PROGRAM, else the program on PATH,
    else the one inside this package, else the one built in this checkout. Raises ProgramNotFound if
    there is no such file."""
    told = os.environ.get(VARIABLE)
    if told:
        if not os.path.isfile(told):
            raise ProgramNotFound(f"{VARIABLE} is {told}, and there is no such file: set it to "
                                  "the server's program, or unset it")
        # A name without a folder would be looked up on PATH.
        return os.path.abspath(told)
    on_path = (shutil.which(name) for name in NAMES)
    found = next((path for path in (*on_path, *inside(), *built())
                  if path and os.access(path, os.X_OK)), None)
    if found is None:
        checkout = "this package isn't in a checkout"
        if built():
            checkout = f"there is no {' and no '.join(built())}"
        raise ProgramNotFound(f"the server's program wasn't found: {VARIABLE} isn't set, "
                              f"{' and '.join(NAMES)} aren't on PATH, the package has none "
                              f"inside, and {checkout}. Install the wheel with the server, build "
                              "it by tools/build, or give its path, as in vx.Server(path)")
    return found


def inside() -> List[str]:
    """Returns the paths of the programs inside this package; none if it was installed without
    them."""
    return in_folder(INSIDE) if os.path.isdir(INSIDE) else []


def built() -> List[str]:
    """Returns the paths of the builds in this checkout that this machine's processor can run, the
    fastest first; none outside a checkout."""
    plain = ARM if is_arm() else PLAIN
    return in_folder(os.path.join(CRATE, "out"), plain=plain) if os.path.isdir(CRATE) else []


def in_folder(folder: str, faster: str = FASTER, plain: str = PLAIN) -> List[str]:
    """Returns the paths of the builds in a folder that this machine's processor can run, the
    fastest first."""
    names = [faster, plain] if runs_faster() else [plain]
    return [os.path.join(folder, name) for name in names]


def cores() -> List[str]:
    """Returns the paths of the libraries inside this package, and of those built in this checkout,
    that exist and that this machine's processor can run, the fastest first."""
    plain = ARM_CORE if is_arm() else PLAIN_CORE
    paths = [path for folder in (INSIDE, os.path.join(CRATE, "out"))
             for path in in_folder(folder, FASTER_CORE, plain) if os.path.isfile(path)]
    return paths if paths and runs_plain() else []


def is_arm() -> bool:
    """Returns whether this machine has an ARM processor of 64 bits."""
    return os.uname().machine == "aarch64"


def runs_plain() -> bool:
    """Returns whether this machine's processor can run the plain build, or that for ARM, as a
    library."""
    return is_arm() or PLAIN_FLAGS <= _flags()


def runs_faster() -> bool:
    """Returns whether this machine's processor can run the faster build."""
    # On an emulated processor, /proc/cpuinfo may have the flags of the real one.
    return not is_arm() and FASTER_FLAGS <= _flags()


def _flags() -> Set[str]:
    """Returns the flags that every processor of the machine has. In a root without /proc these are
    taken to be the ones that the plain build needs."""
    try:
        with open("/proc/cpuinfo", encoding="utf-8") as text:
            found = [set(line.split(":", 1)[1].split())
                     for line in text if line.startswith("flags")]
    except OSError:
        return PLAIN_FLAGS
    return set.intersection(*found) if found else set()
