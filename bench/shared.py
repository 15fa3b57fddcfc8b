"""Shared parts of the benchmarks: a server, the best time of some rounds, OpenCV's times."""

import json
import os
import subprocess
import sys
import time

HERE = os.path.dirname(os.path.abspath(__file__))
sys.path.insert(0, os.path.join(HERE, "..", "clients", "python"))
from feqyldan import wire  # noqa: E402

CLIENT = 7
ROUNDS = 5


class Server:
    """A server as the package starts it, with one client's context. The quota is large enough for
    all images of a benchmark."""

    def __init__(self, program):
        command = [program, "serve", "--quota", str(2**30)]
        self.process = subprocess.Popen(command, stdin=subprocess.PIPE, stdout=subprocess.PIPE)
        self.run([wire.open_context(CLIENT)])

    def run(self, requests):
        """Returns the bodies of the replies to the requests. Fails if a request is refused."""
        self.process.stdin.write(b"".join(requests))
        self.process.stdin.flush()
        return [self.body() for _ in requests]

    def body(self):
        head = self.process.stdout.read(8)
        if head[7:] != b"\0":
            sys.exit(f"a request was refused: {wire.say(head)}" if head else
                     f"the server ended with status {self.process.wait()}")
        return self.process.stdout.read(int.from_bytes(head[:4], "big") - 4)

    def create(self, request):
        return int.from_bytes(self.run([request])[0], "big")

    def memory(self, field):
        """Returns a line of /proc/PID/status in megabytes: VmRSS is the current memory, VmHWM the
        peak."""
        with open(f"/proc/{self.process.pid}/status", encoding="ascii") as status:
            lines = dict(line.split(":", 1) for line in status)
        return int(lines[field].split()[0]) * 1024 / 1e6

    def close(self):
        self.process.stdin.close()
        self.process.wait()


def library_of(program):
    """Returns the path of the library that tools/build puts next to a program."""
    home, name = os.path.split(os.path.abspath(program))
    return os.path.join(home, f"libfeqyldan-core-{name.partition('-')[2] or 'default'}.so")


def best_seconds(function, count=1):
    """Returns the least seconds of a call, over several rounds of `count` calls."""
    function()
    best = float("inf")
    for _ in range(ROUNDS):
        start = time.perf_counter()
        for _ in range(count):
            function()
        best = min(best, (time.perf_counter() - start) / count)
    return best


def opencv():
    """Returns the path of a python3 that has OpenCV; None without one, after printing a line that
    says so."""
    for python in (sys.executable, "/usr/bin/python3"):
        try:
            if subprocess.run([python, "-c", "import cv2"], capture_output=True).returncode == 0:
                return python
        except OSError:
            pass
    print("No python3 here has OpenCV (Debian's package python3-opencv): the server's times stand "
          "alone.\n")
    return None


def opencv_times(python, program, *words):
    """Returns OpenCV's name of the function and the seconds, for each case that OpenCV has. A peer
    program prints them. Its arrays use pages of the usual size, like the server's images and
    OpenCV's own; NumPy would ask for huge pages."""
    command = [python, os.path.join(HERE, program), *map(str, words)]
    environment = dict(os.environ, NUMPY_MADVISE_HUGEPAGE="0")
    run = subprocess.run(command, capture_output=True, text=True, check=True, env=environment)
    return json.loads(run.stdout)


def built_client(folder):
    """Builds c_client.c with the C library, and returns its path."""
    library, path = os.path.join(HERE, "..", "clients", "c"), os.path.join(folder, "c_client")
    subprocess.run(["make", "-s", "-C", library, "out/libfeqyldan.a"], check=True)
    subprocess.run(["cc", "-O2", "-pthread", "-I" + os.path.join(library, "include"),
                    os.path.join(HERE, "c_client.c"),
                    os.path.join(library, "out", "libfeqyldan.a"), "-ldl", "-o", path], check=True)
    return path
