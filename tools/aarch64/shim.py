"""Tests the C functions of the shim: for aarch64 under emulation, and on this machine under
sanitizers. The toolchain's own functions for x86-64 must pass the same test. The test must find
each of the planted faults.
"""

import os
import subprocess
import tempfile
from typing import Dict, List, Tuple

from . import C_LIBRARY, COMPILER, EMULATOR, kit, linking

HERE = os.path.dirname(os.path.abspath(__file__))
SHIM, TEST = [os.path.join(HERE, name) for name in linking.SHIM], os.path.join(HERE, "shim_test.c")
WARNINGS = "-std=c11 -Wall -Wextra -Wpedantic -Wconversion -Wshadow -Werror".split()
# An empty argument, bytes that aren't ASCII, and more bytes than the test's buffer has.
ARGUMENTS = [b"", b"one", b"\xff\x80 caf\xc3\xa9", b"0" * 70]
FAULTS = [
    ("size != 0 ? size : alignment", "size"),
    ("p != NULL ? p : &nothing", "p"),
    ("{p != NULL, ", "{true, "),
    ("i >= count", "i > count"),
    ("length == room", "length + 1 >= room"),
    ("return -2;", "return -1;"),
    ("realloc(p, some", "realloc(NULL, some"),
    ("errno = error", "(void)error"),
    ("return errno;", "return 0;"),
    ("count = (size_t)argc;", "count = (size_t)argc - 1;"),
]


def fails(words: List[str], **environment: str) -> str:
    """Runs a test program, and returns what it printed if it failed."""
    ran = subprocess.run([*words, *ARGUMENTS], stdout=subprocess.PIPE, stderr=subprocess.STDOUT,
                         env={**os.environ, **environment}, check=False)
    said = ran.stdout.decode(errors="replace")
    return f"{said}status {ran.returncode}" if ran.returncode else ""


def build(compiler: str, target: str, *words: str) -> str:
    subprocess.run([compiler, "-O1", *words, "-o", target], check=True)
    return target


def real(folder: str) -> Dict[str, Tuple[List[str], Dict[str, str]]]:
    """Builds the tests that must pass. Returns each one's command and environment."""
    emulated = build(COMPILER, f"{folder}/emulated", *WARNINGS, TEST, *SHIM)
    here = build("cc", f"{folder}/here", *WARNINGS, "-g", "-fsanitize=address,undefined", TEST,
                 *SHIM)
    archives = [f"{kit()}/c/libos_c.a", f"{kit()}/c/liblibc_c.a"]
    theirs = build("cc", f"{folder}/theirs", *WARNINGS, TEST, *archives)
    return {
        "for aarch64": ([EMULATOR, "-L", C_LIBRARY, emulated], {}),
        "under sanitizers": ([here], {"ASAN_OPTIONS": "allocator_may_return_null=1"}),
        "the toolchain's functions": ([theirs], {}),
    }


def is_found(folder: str, old: str, new: str) -> bool:
    places, copies = 0, [os.path.join(folder, name) for name in linking.SHIM]
    for path, copy in zip(SHIM, copies):
        with open(path, encoding="utf-8") as file:
            text = file.read()
        places += text.count(old)
        with open(copy, "w", encoding="utf-8") as file:
            file.write(text.replace(old, new))
    assert places == 1, old
    return bool(fails([build("cc", f"{folder}/faulty", "-w", TEST, *copies)]))


def test() -> List[str]:
    """Returns a line for each test that failed, and for each fault that wasn't found."""
    with tempfile.TemporaryDirectory() as folder:
        lines = [f"{name}: {said}" for name, (words, environment) in real(folder).items()
                 if (said := fails(words, **environment))]
        lines += [f"not found: {new}, and not {old}" for old, new in FAULTS
                  if not is_found(folder, old, new)]
    return lines
