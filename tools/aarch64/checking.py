"""The command tools/check_aarch64."""

import argparse
import os
import shutil
import subprocess
import sys
import tempfile
import time
from typing import Dict, List

from . import COMPILER, EMULATOR, PACKAGES, PREFIX, shim
from .emulation import COMPILERS, launcher

ROOT = os.path.realpath(os.path.join(os.path.dirname(os.path.abspath(__file__)), "..", ".."))
TOOLS = os.path.join(ROOT, "tools")
PYTHON_TESTS = os.path.join(ROOT, "clients", "python", "tests")
C_TESTS = os.path.join(ROOT, "clients", "c", "tests", "run.py")
# Segments and dynamic entries that harden a program.
HARDENED = ("GNU_RELRO", "BIND_NOW", "DYN (Position-Independent Executable file)")
# The endings of the names of the server's libraries.
ENDINGS = ("a", "so")
# Tests of the Python package that talk to a server of their own, and measure neither the time nor
# the memory of the emulator.
SHORT = ("test_ends", "test_functions", "test_pipeline")
LONG = ("test_arrays", "test_attributes", "test_errors", "test_graphs", "test_messages",
        "test_objects", "test_pipeline", "test_verdicts")
# Tests of the C library with the server in the process of a program.
C_SHORT = """
    test_the_server_in_this_process
    test_a_program_has_its_server_linked_in
    test_the_server_is_found_next_to_the_shared_library
    test_the_server_as_a_library_has_no_data_that_threads_or_handles_share
    test_the_server_as_a_library_exports_its_calls
    test_the_example_writes_a_picture""".split()
# Tests of the C library that neither need a sanitizer, valgrind or another compiler, nor measure
# the emulator.
C_LONG = """
    test_random_streams_through_the_server_in_this_process
    test_a_graph_with_a_fault_is_refused_and_the_log_names_the_node
    test_a_node_reads_the_scalar_that_another_one_wrote_in_the_same_run
    test_random_graphs_in_parts_give_what_their_nodes_give_one_after_another
    test_programs_in_the_style_of_published_ones
    test_functions_at_once_and_in_graphs_give_what_they_give_in_python
    test_programs_of_the_standards_introduction
    test_random_sequences_of_wrong_calls_end_in_a_status
    test_each_mistake_has_its_status
    test_each_object_tells_its_attributes
    test_parameters_of_nodes_and_of_graphs
    test_several_threads_use_one_context
    test_a_program_that_is_no_server_gives_no_context""".split()


def is_here() -> bool:
    """Returns whether this machine has the cross compiler and the emulator."""
    return shutil.which(COMPILER) is not None and shutil.which(EMULATOR) is not None


def core_of(program: str, ending: str) -> str:
    """Returns the path of the server as a library, which tools/build puts next to the program."""
    home, name = os.path.split(os.path.abspath(program))
    return os.path.join(home, f"libfeqyldan-core-{name.partition('-')[2]}.{ending}")


def hardening(program: str) -> List[str]:
    """Returns what a program lacks of the x86-64 program's hardening."""
    said = subprocess.run(["readelf", "--wide", "--file-header", "--program-headers", "--dynamic",
                           program], stdout=subprocess.PIPE, text=True, check=True).stdout
    lines = [f"no {word}" for word in HARDENED if word not in said]
    stack = [line.split() for line in said.splitlines() if line.strip().startswith("GNU_STACK")]
    if not stack or stack[0][-2] != "RW":
        lines.append("the stack is executable")
    needed = [line.split("[")[1] for line in said.splitlines() if "(NEEDED)" in line]
    return lines + [f"needs {name}" for name in needed if name != "libc.so.6]"]


class Check:
    """Runs commands on a program and its libraries under emulation, and notes those that fail."""

    def __init__(self, program: str, folder: str) -> None:
        self.program = launcher(program, os.path.join(folder, os.path.basename(program)))
        for ending in ENDINGS:
            os.symlink(core_of(program, ending), core_of(self.program, ending))
        path = f"{COMPILERS}{os.pathsep}{os.environ['PATH']}"
        self.environment: Dict[str, str] = {
            **os.environ, "PATH": path, "FEQYLDAN_PROGRAM": self.program,
            # For make, which finds the compiler on PATH.
            "AR": f"{PREFIX}ar", "LD": f"{PREFIX}ld", "OBJCOPY": f"{PREFIX}objcopy"}
        self.failed: List[str] = []

    def note(self, name: str, lines: List[str]) -> None:
        print("\n".join(lines or [f"{name}: ok"]), flush=True)
        if lines:
            self.failed.append(name)

    def run(self, *words: str) -> None:
        start = time.time()
        ended = subprocess.run(words, env=self.environment, cwd=ROOT, check=False)
        name = " ".join(os.path.relpath(word, ROOT) if word.startswith(ROOT) else word
                        for word in words if word != self.program)
        state = f"status {ended.returncode}" if ended.returncode else "ok"
        print(f"{name}: {state}, {time.time() - start:.0f} s", flush=True)
        if ended.returncode:
            self.failed.append(name)

    def tool(self, name: str, *words: str) -> None:
        self.run(os.path.join(TOOLS, name), self.program, *words)

    def c_tests(self, names: List[str]) -> None:
        self.run(sys.executable, C_TESTS, *(f"Library.{name}" for name in names))

    def python_tests(self, names: List[str]) -> None:
        paths = [os.path.join(PYTHON_TESTS, f"{name}.py") for name in names]
        for path in paths:
            self.run(sys.executable, "-m", "unittest", "discover", "-s", PYTHON_TESTS, "-p",
                     os.path.basename(path))


def main() -> None:
    parser = argparse.ArgumentParser(prog="tools/check_aarch64")
    parser.add_argument("--all", action="store_true", help="run the long checks too")
    parser.add_argument("--streams", default="40", help="number of random streams (default: 40)")
    parser.add_argument("--graphs", default="40", help="number of random graphs (default: 40)")
    parser.add_argument("program", metavar="PROGRAM")
    asked = parser.parse_args()
    if not is_here():
        print(f"aarch64 not checked: install Debian's {PACKAGES}")
        return
    with tempfile.TemporaryDirectory() as folder:
        check = Check(asked.program, folder)
        check.note("the shim", shim.test())
        check.note("hardening", hardening(asked.program))
        check.note("libraries", [f"there is no {path}: build it by tools/build --target=aarch64"
                                 for path in (core_of(asked.program, each) for each in ENDINGS)
                                 if not os.path.exists(path)])
        check.run(os.path.join(TOOLS, "check_lanes"), asked.program)
        check.tool("check_functions")
        check.tool("check_streams", "--streams", asked.streams)
        check.tool("check_bands", "--graphs", asked.graphs)
        check.tool("check_pgm")
        check.python_tests([*SHORT, *(LONG if asked.all else ())])
        check.c_tests([*C_SHORT, *(C_LONG if asked.all else ())])
        if asked.all:
            check.tool("check_program")
            check.tool("refused_growths")
    if check.failed:
        sys.exit("\n".join(f"failed: {name}" for name in check.failed))
