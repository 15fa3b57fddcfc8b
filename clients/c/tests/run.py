"""
The tests of the C library: builds its sources and each test program under the sanitizers of
addresses and of undefined behaviour, and runs them on the program that FEQYLDAN_PROGRAM names.
Tests in both ways run them also with the server in the process, by the library next to the program.
"""

import functools
import os
import re
import shutil
import signal
import socket
import subprocess
import sys
import tempfile
import time
import unittest
import unittest.mock

sys.dont_write_bytecode = True
HERE = os.path.dirname(os.path.abspath(__file__))
HOME = os.path.join(HERE, "..")
sys.path.insert(0, os.path.join(HOME, "..", "python"))
import feqyldan as vx  # noqa: E402
from feqyldan import wire  # noqa: E402

FLAGS = ["-std=c11", "-Wall", "-Wextra", "-Werror", "-pedantic", "-D_POSIX_C_SOURCE=200809L", "-g",
         "-O1", "-fno-sanitize-recover=all", "-pthread", "-I" + os.path.join(HOME, "include")]
MEMORY, THREADS = "address,undefined", "thread"
HEADERS = (*(f"VX/{name}" for name in sorted(os.listdir(os.path.join(HOME, "include/VX")))),
           "feqyldan/context.h")
STANDARDS = (("cc", "c89"), ("cc", "c99"), ("cc", "c11"), ("cc", "c2x"), ("c++", "c++98"),
             ("c++", "c++11"), ("c++", "c++17"), ("c++", "c++23"))
ALL_WARNINGS = ["-Wall", "-Wextra", "-Werror", "-pedantic", "-Wconversion", "-Wsign-conversion",
                "-Wshadow", "-Wundef", "-Wno-long-long"]
WIDTH, HEIGHT = 13, 9
# What the library calls that may find no memory.
TAKING_MEMORY = ("malloc", "calloc", "realloc", "posix_memalign",
                 "posix_spawn_file_actions_adddup2")
# Has the linker take the server's library, which the C library uses if it is there.
LINKED = ("-Wl,-u,feqyldan_open",)
# Longer than any test program runs, in seconds.
PATIENCE = 300
folder = ""
# Answers two requests, reads a little more and ends.
ENDING_SERVER = """#!/usr/bin/env python3
import os, sys
for name in (b"", bytes((0, 0, 0, 1))):
    length = int.from_bytes(os.read(0, 4), "big")
    op = os.read(0, length)[2]
    os.write(1, (4 + len(name)).to_bytes(4, "big") + bytes((0, 0, op, 0)) + name)
os.read(0, 100000)
print("lost", file=sys.stderr)
"""
# Opens a context, and doesn't end by itself.
ENDLESS_SERVER = """#!/bin/sh
printf '\\0\\0\\0\\4\\0\\0\\1\\0'
exec sleep 60
"""
# Opens a context and ends, each of them when it is allowed by a file.
STEPPING_SERVER = """#!/bin/sh
: > "$STEPS/started"
until [ -e "$STEPS/open" ]; do sleep 0.01; done
printf '\\0\\0\\0\\4\\0\\0\\1\\0'
cat > /dev/null
: > "$STEPS/ending"
until [ -e "$STEPS/end" ]; do sleep 0.01; done
"""
# Passes requests to the server, but answers the request of one place among those of its operation
# with NO_MEMORY. REFUSED has the operations and the places.
REFUSING_SERVER = """#!/usr/bin/env python3
import os, subprocess, sys
refused = [tuple(map(int, word.split(":"))) for word in os.environ["REFUSED"].split()]
server = subprocess.Popen([os.environ["SERVER_PROGRAM"], *sys.argv[1:]], stdin=subprocess.PIPE,
                          stdout=subprocess.PIPE)
seen = {}
def take(pipe):
    head = pipe.read(4)
    return head + pipe.read(int.from_bytes(head, "big"))
while frame := take(sys.stdin.buffer):
    op = frame[6]
    seen[op] = seen.get(op, 0) + 1
    if (op, seen[op]) in refused:
        reply = b"\\0\\0\\0\\4" + frame[4:7] + b"\\1"
    else:
        server.stdin.write(frame)
        server.stdin.flush()
        reply = take(server.stdout)
    sys.stdout.buffer.write(reply)
    sys.stdout.buffer.flush()
server.stdin.close()
"""
FIRST_CXX = """#include <VX/vx.h>
#include <VX/vxu.h>
int main() {
    vx_context context = vxCreateContext();
    vx_image a = vxCreateImage(context, 2, 2, VX_DF_IMAGE_U8);
    vx_image b = vxCreateImage(context, 2, 2, VX_DF_IMAGE_U8);
    vx_imagepatch_addressing_t addr = VX_IMAGEPATCH_ADDR_INIT;
    return addr.dim_x + vxuNot(context, a, b) + vxReleaseContext(&context);
}
"""

IN_LOCALE = """#include <VX/vx.h>
#include <locale.h>
int main(void) {
    if (setlocale(LC_ALL, "") == NULL)
        return 2;
    vx_context context = vxCreateContext();
    return context != NULL && vxReleaseContext(&context) == VX_SUCCESS ? 0 : 1;
}
"""

MARKING = """#include <stdio.h>
__attribute__((constructor)) static void leave_mark(void) { fclose(fopen("MARK", "w")); }
"""


def setUpModule():
    global folder
    folder = tempfile.mkdtemp()


def tearDownModule():
    shutil.rmtree(folder)


def installed():
    """The folder in which the library is installed, made from a copy of its sources."""
    prefix = os.path.join(folder, "installed")
    if not os.path.exists(prefix):
        home = os.path.join(folder, "copy")
        shutil.copytree(os.path.join(HOME, ".."), home, ignore=shutil.ignore_patterns("out"))
        subprocess.run(["make", "-s", "-C", os.path.join(home, "c"), "install",
                        "PREFIX=" + prefix], check=True)
    return prefix


def example():
    """The path of the example, which is built with the library."""
    installed()
    return os.path.join(folder, "copy", "c", "out", "edges")


def cc(sanitizer, *words):
    subprocess.run(["cc", *FLAGS, "-fsanitize=" + sanitizer, *words], check=True)


def library(sanitizer):
    """The path of the library for a sanitizer."""
    path = os.path.join(folder, sanitizer + ".a")
    if not os.path.exists(path):
        sources, objects = os.path.join(HOME, "src"), []
        for name in sorted(os.listdir(sources)):
            if name.endswith(".c"):
                objects.append(os.path.join(folder, name[:-2] + ".o"))
                cc(sanitizer, "-c", os.path.join(sources, name), "-o", objects[-1])
        subprocess.run(["ar", "rcs", path, *objects], check=True)
    return path


def build(name, *flags, sanitizer=MEMORY):
    """The path of a test program."""
    path = os.path.join(folder, f"{name}-{sanitizer}")
    cc(sanitizer, *flags, os.path.join(HERE, name + ".c"), library(sanitizer), "-o", path)
    return path


def run(name, *flags, sanitizer=MEMORY, env=None):
    """What a test program prints, which ends with status 0 and says nothing of a fault."""
    path = build(name, *flags, sanitizer=sanitizer)
    ended = subprocess.run([path], capture_output=True, text=True, timeout=PATIENCE,
                           env={**os.environ, **(env or {})}, check=False)
    assert ended.returncode == 0, f"{name}: status {ended.returncode}\n{ended.stderr}"
    return ended.stdout


def core(ending):
    """The path of the server as a library, which tools/build puts next to the program."""
    home, name = os.path.split(os.environ["FEQYLDAN_PROGRAM"])
    kind = name.partition("-")[2] or "default"
    return os.path.join(os.path.abspath(home), f"libfeqyldan-core-{kind}.{ending}")


def in_both_ways(test):
    """Runs a test with a server's process, and again with the server in the process."""
    @functools.wraps(test)
    def run_twice(self):
        for way in ("process", "core"):
            environment = {"FEQYLDAN_SERVER": way}
            if way == "core":
                environment["FEQYLDAN_CORE"] = core("so")
            with self.subTest(server=way), unittest.mock.patch.dict(os.environ, environment):
                if way == "core":
                    self.need_core()
                test(self)
    return run_twice


def program_of(name, text):
    """The path of a program that is made of a script."""
    path = os.path.join(folder, name)
    with open(path, "w", encoding="utf-8") as script:
        script.write(text)
    os.chmod(path, 0o755)
    return path


def has_thread_sanitizer():
    source = os.path.join(folder, "empty.c")
    with open(source, "w", encoding="utf-8") as text:
        text.write("int main(void) { return 0; }\n")
    try:
        cc(THREADS, source, "-o", os.path.join(folder, "empty"))
    except subprocess.CalledProcessError:
        return False
    return True


def can_make_setuid(home):
    """Whether this process can make a program in a folder that runs as root."""
    with open("/proc/self/status", encoding="utf-8") as status:
        is_bound = "NoNewPrivs:\t1" in status.read()
    return os.geteuid() == 0 and not is_bound and not os.statvfs(home).f_flag & os.ST_NOSUID


def numbers(seed):
    """As next_number of the test programs."""
    for _ in range(WIDTH * HEIGHT):
        seed = (seed * 1664525 + 1013904223) & 0xFFFFFFFF
        yield seed >> 8


def image(context, fmt, seed):
    made = context.image(fmt, WIDTH, HEIGHT)
    wide = fmt == vx.S16
    found = [number & (0xFFFF if wide else 0xFF) for number in numbers(seed)]
    found = [number - 0x10000 if wide and number >= 0x8000 else number for number in found]
    made.write([found[y * WIDTH:(y + 1) * WIDTH] for y in range(HEIGHT)])
    return made


def line_of(word, border, out):
    """As the test program prints an image."""
    digits = {vx.U8: 2, vx.S16: 4, vx.U32: 8}[out.fmt]
    samples = "".join(f"{int(sample) & (1 << 4 * digits) - 1:0{digits}x}"
                      for row in out.read().tolist() for sample in row)
    return f"{word} {border} {','.join(map(str, out.valid))} {samples}"


def expected_lines(context):
    """What each function gives from Python, twice, as the program prints it."""
    a, b = image(context, vx.U8, 1), image(context, vx.U8, 2)
    s, t = image(context, vx.S16, 3), image(context, vx.S16, 4)
    b.valid = (1, 1, WIDTH, HEIGHT - 1)
    above = context.threshold(vx.U8, above=99)
    between = context.threshold(vx.S16, between=(-900, 20000))
    short = context.lut(vx.U8, [(7 * i + 3) & 255 for i in range(256)])
    words = context.lut(vx.S16, [((31 * i + 0x8000) & 0xFFFF) - 0x8000 for i in range(65536)])
    kernel = context.convolution([[3 * y + x - 6 for x in range(3)] for y in range(5)], scale=4)
    f, wrap, near, lines = context.vxu, vx.WRAP, vx.SATURATE, []

    def add(word, fmt, function, border=0):
        out = context.image(fmt, WIDTH, HEIGHT)
        function(out)
        lines.extend([line_of(word, border, out)] * 2)

    add("and_", vx.U8, lambda out: f.and_(a, b, out))
    add("or_", vx.U8, lambda out: f.or_(a, b, out))
    add("xor", vx.U8, lambda out: f.xor(a, b, out))
    add("not_", vx.U8, lambda out: f.not_(a, out))
    add("add", vx.U8, lambda out: f.add(a, b, wrap, out))
    add("add16", vx.S16, lambda out: f.add(s, b, near, out))
    add("subtract", vx.S16, lambda out: f.subtract(a, t, near, out))
    add("multiply", vx.S16, lambda out: f.multiply(s, a, 8, wrap, out))
    add("absdiff", vx.U8, lambda out: f.absdiff(a, b, out))
    add("absdiff16", vx.S16, lambda out: f.absdiff(s, t, out))
    add("min", vx.S16, lambda out: f.min(s, t, out))
    add("max", vx.U8, lambda out: f.max(a, b, out))
    add("threshold", vx.U8, lambda out: f.threshold(a, above, out))
    add("threshold16", vx.U8, lambda out: f.threshold(s, between, out))
    add("table_lookup", vx.U8, lambda out: f.table_lookup(a, short, out))
    add("table_lookup16", vx.S16, lambda out: f.table_lookup(s, words, out))
    add("convert_depth", vx.U8, lambda out: f.convert_depth(s, out, near, 3))
    for word, adds in (("accumulate", lambda sums: f.accumulate(b, sums)),
                       ("accumulate_square", lambda sums: f.accumulate_square(b, 3, sums))):
        sums = image(context, vx.S16, 5)
        sums.valid = (0, 2, WIDTH - 1, HEIGHT)
        for _ in range(2):
            adds(sums)
        lines += [line_of(word, 0, sums)] * 2
    for number, border in enumerate((vx.UNDEFINED, vx.constant(77), vx.REPLICATE)):
        for name in ("box3x3", "gaussian3x3", "median3x3", "erode3x3", "dilate3x3"):
            add(name, vx.U8, lambda out: getattr(f, name)(a, out, border=border), number)
        add("sobel_x", vx.S16, lambda out: f.sobel3x3(a, out, None, border=border), number)
        add("sobel_y", vx.S16, lambda out: f.sobel3x3(a, None, out, border=border), number)
        add("convolve", vx.S16, lambda out: f.convolve(a, kernel, out, border=border), number)
        add("integral_image", vx.U32, lambda out: f.integral_image(a, out), number)
    counts, extremes = context.distribution(10, 20, 200), context.min_max()
    f.histogram(a, counts)
    f.min_max_loc(s, extremes)
    least, greatest, leasts, greatests, first, last = extremes.read()
    lines += [" ".join(map(str, ("histogram", 0, *counts.read())))] * 2
    lines += [" ".join(map(str, ("min_max_loc", 0, least, greatest, leasts, greatests, *first,
                                 *last)))] * 2
    return lines


class Library(unittest.TestCase):

    @in_both_ways
    def test_a_graph_with_a_fault_is_refused_and_the_log_names_the_node(self):
        run("verdicts")

    @in_both_ways
    def test_a_node_reads_the_scalar_that_another_one_wrote_in_the_same_run(self):
        run("links")

    @in_both_ways
    def test_random_graphs_in_parts_give_what_their_nodes_give_one_after_another(self):
        run("parts")

    @in_both_ways
    def test_programs_in_the_style_of_published_ones(self):
        run("published")

    def test_other_processes_descriptors_and_time(self):
        run("processes", env=self.server_to_kill())

    def test_other_processes_and_descriptors_with_the_server_in_the_process(self):
        self.need_core()
        for sanitizer in (MEMORY, *[THREADS] * has_thread_sanitizer()):
            run("processes", sanitizer=sanitizer,
                env={"FEQYLDAN_SERVER": "core", "FEQYLDAN_CORE": core("so")})

    def test_a_connection_by_arguments_faults_and_cancelled_calls(self):
        run("context", env=self.server_to_kill())

    def test_arguments_and_cancelled_calls_with_the_server_in_the_process(self):
        self.need_core()
        for sanitizer in (MEMORY, *[THREADS] * has_thread_sanitizer()):
            run("context", sanitizer=sanitizer, env={"FEQYLDAN_CORE": core("so")})

    @in_both_ways
    def test_valgrind_is_silent(self):
        if shutil.which("valgrind") is None:
            self.skipTest("valgrind isn't installed")
        prefix = installed()
        for name in ("published", "verdicts", "links"):
            program = os.path.join(folder, f"{name}-plain")
            subprocess.run(["cc", "-std=c11", "-g", "-I" + os.path.join(prefix, "include"),
                            os.path.join(HERE, name + ".c"),
                            os.path.join(prefix, "lib/libfeqyldan.a"), "-o", program], check=True)
            subprocess.run(["valgrind", "-q", "--error-exitcode=9", "--leak-check=full",
                            "--child-silent-after-fork=yes", program], timeout=PATIENCE,
                           stderr=subprocess.DEVNULL, check=True)

    def need_core(self):
        for path in (core("a"), core("so")):
            if not os.path.exists(path):
                self.skipTest(f"there is no {path}")

    def test_the_server_in_this_process(self):
        self.need_core()
        program = os.path.join(folder, "core-checked")
        cc(MEMORY, os.path.join(HERE, "core.c"), core("a"), "-o", program)
        subprocess.run([program], timeout=PATIENCE, check=True)

    def test_valgrind_is_silent_on_the_server_in_this_process(self):
        if shutil.which("valgrind") is None:
            self.skipTest("valgrind isn't installed")
        self.need_core()
        program = os.path.join(folder, "core-plain")
        subprocess.run(["cc", "-std=c11", "-g", "-I" + os.path.join(HOME, "include"),
                        os.path.join(HERE, "core.c"), core("so"), "-o", program], check=True)
        loaded = os.path.join(folder, "libfeqyldan-core.so.0")
        shutil.copy(core("so"), loaded)
        subprocess.run(["valgrind", "-q", "--error-exitcode=9", "--leak-check=full", program],
                       timeout=PATIENCE, check=True,
                       env={**os.environ, "LD_LIBRARY_PATH": folder})

    def test_random_streams_through_the_server_in_this_process(self):
        self.need_core()
        program = os.path.join(folder, "stream")
        cc(MEMORY, os.path.join(HERE, "stream.c"), core("a"), "-o", program)
        check = os.path.join(HOME, "..", "..", "tools", "check_streams")
        subprocess.run([check, program, "--seconds", "20"], stdout=subprocess.DEVNULL,
                       timeout=PATIENCE, check=True)

    def context_of(self, program, **variables):
        """The standard error of a program that makes a context; empty where it has one."""
        environment = {name: value for name, value in os.environ.items()
                       if not name.startswith("FEQYLDAN_")}
        return subprocess.run([program], env={**environment, **variables}, timeout=PATIENCE,
                              stdout=subprocess.PIPE, stderr=subprocess.PIPE, text=True,
                              check=False).stderr

    def test_a_program_has_its_server_linked_in(self):
        self.need_core()
        program = build("queries", *LINKED, core("a"))
        self.assertEqual(self.context_of(program, PATH="/nowhere"), "")

    def test_the_server_is_found_next_to_the_shared_library(self):
        self.need_core()
        home, program = os.path.join(folder, "next"), os.path.join(folder, "queries-shared")
        shutil.copytree(os.path.join(installed(), "lib"), home, symlinks=True)
        subprocess.run(["cc", "-std=c11", "-I" + os.path.join(HOME, "include"),
                        os.path.join(HERE, "queries.c"), "-L" + home, "-lfeqyldan", "-o", program],
                       check=True)
        wanted = {"PATH": "/nowhere", "LD_LIBRARY_PATH": home}
        self.assertIn("vxCreateContext: ", self.context_of(program, **wanted))
        shutil.copy(core("so"), os.path.join(home, "libfeqyldan-core.so.0"))
        self.assertEqual(self.context_of(program, **wanted), "")

    def test_settings_choose_the_server(self):
        self.need_core()
        program, has_core = build("queries"), {"FEQYLDAN_CORE": core("so"), "PATH": "/nowhere"}
        self.assertEqual(self.context_of(program, **has_core), "")
        self.assertEqual(self.context_of(program, **has_core, FEQYLDAN_SERVER="core"), "")
        for variables, words in (
                ({"FEQYLDAN_SERVER": "process"}, "can't start feqyldan or vx_main: No such file"),
                ({"FEQYLDAN_SERVER": "thread"},
                 "FEQYLDAN_SERVER is thread, and has to be core or process"),
                ({"FEQYLDAN_SOCKET": "/nowhere"}, "can't connect to /nowhere: No such file"),
                ({"FEQYLDAN_QUOTA": "0"},
                 "FEQYLDAN_QUOTA is 0, and has to be 1 to 1099511627776 bytes"),
                ({"FEQYLDAN_QUOTA": "1k"}, "FEQYLDAN_QUOTA is 1k, and has to be"),
                ({"FEQYLDAN_TIMEOUT": "2"}, "FEQYLDAN_TIMEOUT is set, and a call of a server in "
                 "this process can't be given up: unset it, or set FEQYLDAN_SERVER to process"),
                ({"FEQYLDAN_CORE": "/nowhere"}, "can't load the server: /nowhere: cannot open"),
                ({"FEQYLDAN_CORE": "libm.so.6"}, "libm.so.6 isn't a server: it lacks calls")):
            with self.subTest(variables):
                self.assertIn("vxCreateContext: " + words,
                              self.context_of(program, **{**has_core, **variables}))

    def test_where_the_server_is_linked_in_a_process_is_started_if_it_is_needed(self):
        self.need_core()
        program = build("queries", *LINKED, core("a"))
        for variables in {"FEQYLDAN_SERVER": "process"}, {"FEQYLDAN_TIMEOUT": "2"}:
            self.assertIn("can't start feqyldan or vx_main",
                          self.context_of(program, PATH="/nowhere", **variables))

    def test_with_the_server_in_the_process_nothing_is_started(self):
        self.need_core()
        if shutil.which("strace") is None:
            self.skipTest("strace isn't installed")
        calls = os.path.join(folder, "calls")
        for way, started in (("core", 1), ("process", 2)):
            subprocess.run(["strace", "-f", "-e", "trace=execve", "-o", calls, example()],
                           check=True, stdout=subprocess.DEVNULL, env={
                               **os.environ, "FEQYLDAN_SERVER": way, "FEQYLDAN_CORE": core("so")})
            with open(calls, encoding="utf-8") as text:
                self.assertEqual(text.read().count("execve("), started, way)

    def test_the_server_as_a_library_has_no_data_that_threads_or_handles_share(self):
        self.need_core()
        listed = subprocess.run(["nm", core("a")], capture_output=True, text=True, check=True)
        # Of `nothing` only the address is used, as that of an empty block. On aarch64, $d marks the
        # place of data.
        self.assertEqual([line.split()[2] for line in listed.stdout.splitlines()
                          if len(line.split()) == 3 and line.split()[1] in "bBdDC" and
                          line.split()[2] != "$d"], ["nothing"])
        sections = subprocess.run(["readelf", "-lW", core("so")], capture_output=True, text=True,
                                  check=True).stdout
        self.assertIn("LOAD", sections)
        self.assertNotIn("TLS", sections)

    def test_the_server_as_a_library_exports_its_calls(self):
        self.need_core()
        wanted = ["feqyldan_close", "feqyldan_connect", "feqyldan_disconnect", "feqyldan_open",
                  "feqyldan_serve"]
        for words in (["-g", "--defined-only", core("a")],
                      ["-D", "--defined-only", core("so")]):
            said = subprocess.run(["nm", *words], capture_output=True, text=True, check=True)
            names = [line.split()[2] for line in said.stdout.splitlines() if line[:1].isalnum()
                     and len(line.split()) == 3]
            self.assertEqual(sorted(names), wanted)

    @in_both_ways
    def test_functions_at_once_and_in_graphs_give_what_they_give_in_python(self):
        with vx.Server() as server, server.context() as context:
            expected = expected_lines(context)
        self.assertEqual(run("functions").splitlines(), expected)

    @in_both_ways
    def test_programs_of_the_standards_introduction(self):
        run("programs")

    @in_both_ways
    def test_random_sequences_of_wrong_calls_end_in_a_status(self):
        counts = dict(map(int, line.split()) for line in run("wrong").splitlines())
        self.assertEqual(sum(counts.values()), 1000 * 25)
        # They reach what lies behind the first check: some succeed, the others fail in many ways.
        self.assertGreater(counts[0], 1000)
        self.assertGreater(len(counts), 10)

    @in_both_ways
    def test_each_mistake_has_its_status(self):
        run("statuses")

    @in_both_ways
    def test_each_object_tells_its_attributes(self):
        run("queries")

    @in_both_ways
    def test_parameters_of_nodes_and_of_graphs(self):
        run("parameters")

    def test_each_allocation_refused_is_told_and_the_call_can_be_made_anew(self):
        run("refused", *(f"-Wl,--wrap={name}" for name in TAKING_MEMORY))

    def test_a_request_that_the_server_refuses_for_want_of_memory_changes_nothing(self):
        program = os.path.join(folder, "refusing")
        with open(program, "w", encoding="utf-8") as script:
            script.write(REFUSING_SERVER)
        os.chmod(program, 0o755)
        # The first SetValid is the program's own.
        refused = " ".join((f"{wire.WRITE_IMAGE}:2", f"{wire.READ_MIN_MAX}:1",
                            f"{wire.REMOVE_NODE}:1", f"{wire.SET_VALID}:2"))
        run("unchanged", env={"FEQYLDAN_PROGRAM": program, "REFUSED": refused,
                              "SERVER_PROGRAM": os.environ["FEQYLDAN_PROGRAM"]})

    def test_each_allocation_refused_to_the_server_in_the_process_is_told(self):
        self.need_core()
        run("refused", *(f"-Wl,--wrap={name}" for name in TAKING_MEMORY), *LINKED, core("a"),
            env={"FEQYLDAN_SERVER": "core"})

    @in_both_ways
    def test_several_threads_use_one_context(self):
        run("threads")

    @in_both_ways
    def test_the_sanitizer_of_threads_is_silent(self):
        if not has_thread_sanitizer():
            self.skipTest("cc has no sanitizer of threads")
        for name in ("threads", "programs", "published", "links"):
            run(name, sanitizer=THREADS)

    def test_the_sanitizer_of_threads_is_silent_on_a_servers_process(self):
        if not has_thread_sanitizer():
            self.skipTest("cc has no sanitizer of threads")
        for name in ("ended", "processes", "context"):
            run(name, sanitizer=THREADS, env=self.server_to_kill())

    def server_after(self, line):
        """The environment of a server before which a line of shell is run."""
        program = program_of("starter", f'#!/bin/sh\n{line}\nexec "$SERVER_PROGRAM" "$@"\n')
        return {"FEQYLDAN_PROGRAM": program, "SERVER_PROGRAM": os.environ["FEQYLDAN_PROGRAM"]}

    def server_to_kill(self):
        """The environment of a server that says its process's number."""
        process = os.path.join(folder, "process")
        return {**self.server_after(f'echo $$ > "{process}"'), "SERVER_PROCESS": process}

    def test_a_servers_malloc_uses_huge_pages_unless_the_environment_tells_it_something(self):
        said = os.path.join(folder, "tunables")
        environment = self.server_after(f'echo "$GLIBC_TUNABLES" > "{said}"')
        own = "glibc.malloc.arena_max=1"
        for given, expected in (({}, "glibc.malloc.hugetlb=1"), ({"GLIBC_TUNABLES": own}, own)):
            run("queries", env={**environment, **given})
            with open(said, encoding="utf-8") as text:
                self.assertEqual(text.read(), expected + "\n")

    def test_after_a_killed_server_each_call_fails(self):
        run("ended", env=self.server_to_kill())

    def test_a_log_callback_may_release_what_the_call_at_fault_uses(self):
        run("callbacks", env=self.server_to_kill())

    def interrupted(self):
        """A program in a process group of its own, as a shell starts one, that waits to be
        interrupted; and the process of its server."""
        environment = self.server_to_kill()
        program = subprocess.Popen([build("interrupted")], stdout=subprocess.PIPE, text=True,
                                   start_new_session=True, env={**os.environ, **environment})
        self.addCleanup(program.stdout.close)
        self.addCleanup(program.wait)
        self.addCleanup(program.kill)
        self.assertEqual(program.stdout.readline(), "ready\n")
        with open(environment["SERVER_PROCESS"], encoding="utf-8") as text:
            return program, int(text.read())

    def ends(self, process):
        """Whether a process that isn't this one's child comes to be gone, or to be waited for."""
        until = time.monotonic() + PATIENCE
        while time.monotonic() < until:
            try:
                with open(f"/proc/{process}/stat", encoding="utf-8") as text:
                    if text.read().rpartition(")")[2].split()[0] in "ZX":
                        return True
            except FileNotFoundError:
                return True
            time.sleep(0.01)
        return False

    def test_ctrl_c_reaches_the_program_and_not_its_server(self):
        program, server = self.interrupted()
        self.assertNotEqual(os.getsid(server), os.getsid(program.pid))
        os.killpg(program.pid, signal.SIGINT)
        self.assertEqual(program.wait(PATIENCE), 0)
        self.assertTrue(self.ends(server))

    def test_the_server_ends_with_a_program_that_is_killed(self):
        program, server = self.interrupted()
        os.killpg(program.pid, signal.SIGKILL)
        self.assertTrue(self.ends(server))

    def test_the_server_ends_with_a_program_whose_child_lives_on(self):
        environment = self.server_to_kill()
        program = subprocess.Popen([build("orphan")], stdout=subprocess.PIPE, text=True,
                                   env={**os.environ, **environment})
        self.addCleanup(program.stdout.close)
        child = int(program.stdout.readline())
        self.addCleanup(os.kill, child, signal.SIGKILL)
        with open(environment["SERVER_PROCESS"], encoding="utf-8") as text:
            server = int(text.read())
        program.kill()
        program.wait(PATIENCE)
        self.assertTrue(self.ends(server))

    def test_a_server_that_finds_no_memory_is_told_from_one_that_ended(self):
        run("scarce", env=self.server_after("ulimit -v 65536"))

    def test_a_server_that_ends_makes_each_call_fail(self):
        said = run("ending", env={"FEQYLDAN_PROGRAM": program_of("ending_server", ENDING_SERVER)})
        self.assertEqual(said, "the server has ended: lost\n" * 3)

    def test_signals_make_no_timeout_longer_and_a_refused_write_ends_the_connection(self):
        run("waiting", "-Wl,--wrap=sendmsg", env={
            "FEQYLDAN_SOCKET": os.path.join(tempfile.mkdtemp(dir=folder), "socket"),
            "ENDLESS_SERVER": program_of("endless_server", ENDLESS_SERVER)})

    def test_a_child_has_no_part_of_a_context_that_another_thread_makes_or_releases(self):
        run("forking", "-Wl,--wrap=posix_spawnp", env={
            "FEQYLDAN_PROGRAM": program_of("stepping_server", STEPPING_SERVER),
            "STEPS": tempfile.mkdtemp(dir=folder)})

    def test_which_server_is_looked_for_and_what_helps_where_there_is_none(self):
        run("reaching", "-Wl,--wrap=posix_spawnp")

    def test_without_a_server_there_is_no_context(self):
        path = build("ending")
        for variable in ("FEQYLDAN_PROGRAM", "FEQYLDAN_SOCKET"):
            ended = subprocess.run([path], env={**os.environ, variable: "/nowhere"},
                                   stderr=subprocess.PIPE, text=True, check=False)
            self.assertEqual(ended.returncode, 3)
            self.assertIn("vxCreateContext: ", ended.stderr)
            self.assertIn("/nowhere: No such file or directory; set FEQYLDAN_PROGRAM to a server, "
                          "or FEQYLDAN_SOCKET to a socket", ended.stderr)

    def test_a_server_that_accepts_nobody_is_given_up(self):
        path = os.path.join(tempfile.mkdtemp(dir=folder), "socket")
        with socket.socket(socket.AF_UNIX) as listener, socket.socket(socket.AF_UNIX) as other:
            listener.bind(path)
            listener.listen(0)
            other.connect(path)
            ended = subprocess.run([build("ending")], stderr=subprocess.PIPE, text=True,
                                   timeout=PATIENCE, check=False,
                                   env={**os.environ, "FEQYLDAN_SOCKET": path,
                                        "FEQYLDAN_TIMEOUT": "0.1"})
        self.assertEqual(ended.returncode, 3)
        self.assertIn("allow more time by FEQYLDAN_TIMEOUT", ended.stderr)

    def make_marking_library(self, home, mark):
        """Makes libraries that leave a mark when they are loaded."""
        source, library = os.path.join(home, "core.c"), os.path.join(home, "core.so")
        with open(source, "w", encoding="utf-8") as text:
            text.write(MARKING.replace("MARK", mark))
        subprocess.run(["cc", "-shared", "-fPIC", source, "-o", library], check=True)
        shutil.copy(library, os.path.join(home, "libfeqyldan-core.so.0"))

    def test_a_setuid_program_starts_nothing_that_its_user_names(self):
        home = tempfile.mkdtemp()
        self.addCleanup(shutil.rmtree, home)
        if not can_make_setuid(home):
            self.skipTest("setuid programs can't be made here")
        os.chmod(home, 0o777)
        program, mark = os.path.join(home, "ending"), os.path.join(home, "mark")
        subprocess.run(["cc", "-I" + os.path.join(HOME, "include"),
                        os.path.join(HERE, "ending.c"),
                        os.path.join(installed(), "lib/libfeqyldan.a"), "-o", program], check=True)
        for name in ("feqyldan", "vx_main"):
            with open(os.path.join(home, name), "w", encoding="utf-8") as script:
                script.write(f"#!/bin/sh\necho started > {mark}\n")
            os.chmod(script.name, 0o755)
        self.make_marking_library(home, mark)
        for mode, starts in ((0o755, True), (0o4755, False)):
            os.chmod(program, mode)
            for words in ({}, {"FEQYLDAN_PROGRAM": os.path.join(home, "feqyldan")},
                          {"FEQYLDAN_CORE": os.path.join(home, "core.so")},
                          {"LD_LIBRARY_PATH": home}):
                subprocess.run([program], env={"PATH": home, **words}, user=65534,
                               stderr=subprocess.DEVNULL, check=False)
                self.assertEqual(os.path.exists(mark), starts)
                if starts:
                    os.remove(mark)

    def test_a_timeout_has_a_point_where_the_programs_locale_has_a_comma(self):
        if shutil.which("localedef") is None:
            self.skipTest("localedef isn't installed")
        locale = os.path.join(folder, "de_DE.UTF-8")
        subprocess.run(["localedef", "-i", "de_DE", "-f", "UTF-8", locale],
                       stderr=subprocess.DEVNULL, check=False)
        if not os.path.exists(locale):
            self.skipTest("localedef doesn't know de_DE")
        source, program = os.path.join(folder, "in_locale.c"), os.path.join(folder, "in_locale")
        with open(source, "w", encoding="utf-8") as text:
            text.write(IN_LOCALE)
        cc(MEMORY, source, library(MEMORY), "-o", program)
        subprocess.run([program], check=True, env={
            **os.environ, "LOCPATH": folder, "LC_ALL": "de_DE.UTF-8", "FEQYLDAN_TIMEOUT": "99.5"})

    def test_a_program_that_is_no_server_gives_no_context(self):
        path = build("ending")
        for program in ("true", "echo", "cat"):
            ended = subprocess.run([path], env={**os.environ, "FEQYLDAN_PROGRAM": program},
                                   stderr=subprocess.PIPE, text=True, timeout=PATIENCE, check=False)
            self.assertEqual(ended.returncode, 3, program)
            self.assertIn("vxCreateContext: the server has ended", ended.stderr)

    def started_broker(self, *options):
        """The path of the socket of a broker, which ends with the test."""
        self.need_core()
        path = os.path.join(tempfile.mkdtemp(dir=folder), "socket")
        words = [sys.executable, "-m", "feqyldan.broker", "--socket", path, *options]
        found_by = {"PYTHONPATH": os.path.join(HOME, "..", "python"), "FEQYLDAN_CORE": core("so")}
        broker = subprocess.Popen(words, env={**os.environ, **found_by})
        self.addCleanup(broker.wait)
        self.addCleanup(broker.terminate)
        vx.connect(path, retry=30).close()
        return path

    def test_a_broker_answers_as_a_server_of_ones_own(self):
        path = self.started_broker()
        for name in ("programs", "published"):
            run(name, env={"FEQYLDAN_SOCKET": path, "FEQYLDAN_PROGRAM": "/nowhere"})

    @in_both_ways
    def test_installed_it_serves_c_and_cxx(self):
        prefix = installed()
        source = os.path.join(folder, "first.cc")
        with open(source, "w", encoding="utf-8") as text:
            text.write(FIRST_CXX)
        with open(os.path.join(prefix, "lib/pkgconfig/feqyldan.pc"), encoding="utf-8") as text:
            described = text.read()
        self.assertIn(f"prefix={prefix}\n", described)
        self.assertIn(f"Version: {vx.__version__}\n", described)
        program = os.path.join(folder, "first")
        library = os.path.join(prefix, "lib")
        subprocess.run(["g++", "-Wall", "-Wextra", "-Werror", "-I" + os.path.join(
            prefix, "include"), source, "-L" + library, "-lfeqyldan", "-o", program], check=True)
        subprocess.run([program], env={**os.environ, "LD_LIBRARY_PATH": library}, check=True)

    def test_it_exports_what_the_headers_declare_and_nothing_else(self):
        declared = []
        for header in HEADERS:
            with open(os.path.join(HOME, "include", header), encoding="utf-8") as text:
                declared += re.findall(r"VX_API_CALL\s+(\w+)\(", text.read())
        self.assertGreater(len(declared), 250)
        for name, words in (("libfeqyldan.so", ["-D"]), ("libfeqyldan.a", ["-g"])):
            listed = subprocess.run(["nm", *words, "--defined-only",
                                     os.path.join(installed(), "lib", name)],
                                    stdout=subprocess.PIPE, text=True, check=True).stdout
            self.assertEqual(sorted(line.split()[-1] for line in listed.splitlines()
                                    if len(line.split()) == 3), sorted(declared), name)

    def test_what_a_failed_step_of_make_wrote_is_not_taken_by_the_next_make(self):
        installed()
        home = os.path.join(folder, "copy", "c")
        linked, make = os.path.join(home, "out", "feqyldan.o"), ["make", "-s", "-C", home]
        self.assertTrue(os.path.exists(linked))
        failed = subprocess.run([*make, "OBJCOPY=false", "-W", "src/log.c", "out/feqyldan.o"],
                                stderr=subprocess.DEVNULL, check=False)
        self.assertNotEqual(failed.returncode, 0)
        self.assertFalse(os.path.exists(linked))
        subprocess.run(make, check=True)

    def test_a_program_may_have_names_of_its_own(self):
        prefix, program = installed(), os.path.join(folder, "names")
        subprocess.run(["cc", *FLAGS, os.path.join(HERE, "names.c"),
                        os.path.join(prefix, "lib/libfeqyldan.a"), "-o", program], check=True)
        subprocess.run([program], check=True)

    def test_each_header_compiles_alone_without_a_warning(self):
        everything = "".join(f"#include <{header}>\n" for header in HEADERS)
        for compiler, standard in STANDARDS:
            for text in [everything] + ([f"#include <{header}>\n" for header in HEADERS]
                                        if standard in ("c99", "c++11") else []):
                subprocess.run([compiler, "-std=" + standard, *ALL_WARNINGS, "-c", "-x",
                                "c" if compiler == "cc" else "c++", "-o", os.devnull,
                                "-I" + os.path.join(HOME, "include"), "-"],
                               input=text, text=True, check=True)

    @in_both_ways
    def test_a_program_of_each_standard_compiles_without_a_warning_and_runs(self):
        library, program = os.path.join(installed(), "lib"), os.path.join(folder, "sample")
        for compiler, standard in STANDARDS:
            subprocess.run([compiler, "-std=" + standard, *ALL_WARNINGS, "-x",
                            "c" if compiler == "cc" else "c++", os.path.join(HERE, "sample.c"),
                            "-x", "none", "-I" + os.path.join(installed(), "include"),
                            os.path.join(library, "libfeqyldan.a"), "-o", program], check=True)
            subprocess.run([program], check=True)

    def test_the_document_lists_the_names(self):
        said = subprocess.run([os.path.join(HOME, "names")], stdout=subprocess.PIPE, text=True,
                              check=True).stdout
        with open(os.path.join(HOME, "../../docs/from_openvx.md"), encoding="utf-8") as text:
            self.assertIn(said, text.read(), "run clients/c/names --write")

    def test_a_refused_context_says_why(self):
        broker = self.started_broker("--per-process", "1")
        said = subprocess.run([build("crowd")], capture_output=True, text=True, check=True,
                              env={**os.environ, "FEQYLDAN_SOCKET": broker})
        self.assertEqual(said.stdout, "1\n")
        self.assertIn("the server refused OpenContext: NO_RESOURCES: it has too many connections; "
                      "close one, or allow more (--connections)", said.stderr)

    def test_too_few_descriptors_are_told_from_too_little_memory(self):
        said = subprocess.run(["sh", "-c", f"ulimit -n 7; exec {build('crowd')}"],
                              capture_output=True, text=True, check=True)
        self.assertEqual(said.stdout, "0\n")
        self.assertIn("Too many open files", said.stderr)

    @in_both_ways
    def test_the_example_writes_a_picture(self):
        text = subprocess.run([example()], stdout=subprocess.PIPE, check=True).stdout
        self.assertTrue(text.startswith(b"P5\n256 256\n255\n"))
        self.assertEqual(set(text[15:]), {0, 255})

    def test_the_example_fails_on_a_full_disk(self):
        with open("/dev/full", "wb") as full:
            ended = subprocess.run([example()], stdout=full, stderr=subprocess.PIPE, check=False)
        self.assertEqual((ended.returncode, ended.stderr), (1, b"write: status -1\n"))


if __name__ == "__main__":
    unittest.main()
