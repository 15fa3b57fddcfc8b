"""The parts of tools/package: a wheel, and Debian packages."""

import os
import sys
from typing import Dict, NamedTuple

ROOT = os.path.realpath(os.path.join(os.path.dirname(os.path.abspath(__file__)), "..", ".."))
PYTHON = os.path.join(ROOT, "clients", "python")
sys.path.insert(0, PYTHON)


class Machine(NamedTuple):
    """The names of a processor: Debian's, that of a wheel's tag, that of Debian's folders, and the
    prefix of Debian's cross tools; its number in an ELF file; and the names of its builds in a
    package, by tools/build's --cpu."""

    debian: str
    wheel: str
    multiarch: str
    prefix: str
    number: int
    kinds: Dict[str, str]


MACHINES = {
    "x86_64": Machine("amd64", "x86_64", "x86_64-linux-gnu", "", 62,
                      {"default": "vx_main-default", "x86-64-v3": "vx_main-x86-64-v3"}),
    "aarch64": Machine("arm64", "aarch64", "aarch64-linux-gnu", "aarch64-linux-gnu-", 183,
                       {"aarch64": "vx_main-default"}),
}
