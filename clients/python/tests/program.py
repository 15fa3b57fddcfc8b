"""
Paths for the tests: the package next to them, the model in tools/checks, and the server's program,
from the environment variable FEQYLDAN_PROGRAM. Without it the tests that need the program are
skipped.

If the environment variable FEQYLDAN_CORE is set to the path of libfeqyldan-core.so, servers run in
the process of the tests instead, and tests about a server's process are skipped.
"""

import contextlib
import faulthandler
import os
import socket
import sys
import tempfile
import threading
import unittest
from typing import Iterator, List, Tuple

sys.dont_write_bytecode = True
HERE = os.path.dirname(os.path.abspath(__file__))
TOOLS = os.path.join(HERE, "..", "..", "..", "tools")
sys.path[:0] = os.path.join(HERE, ".."), TOOLS
import feqyldan as vx  # noqa: E402

PROGRAM = os.environ.get("FEQYLDAN_PROGRAM")
if PROGRAM:
    # A path that is valid in every folder, because some tests run the program elsewhere.
    PROGRAM = os.environ["FEQYLDAN_PROGRAM"] = os.path.realpath(PROGRAM)
CORE = os.environ.get("FEQYLDAN_CORE")
if CORE:
    CORE = os.environ["FEQYLDAN_CORE"] = os.path.realpath(CORE)
    # It would win over the library.
    os.environ.pop("FEQYLDAN_PROGRAM", None)
# The program of vx.Server(), which has none in this process; and the variables by which another
# process finds the same kind of server.
SERVED = None if CORE else PROGRAM
VARIABLES = {"FEQYLDAN_CORE": CORE} if CORE else {"FEQYLDAN_PROGRAM": PROGRAM}
of_a_process = unittest.skipIf(CORE, "it is about a server's process")


def skip_module_in_process(why):
    """Skips a test module if servers run in the process of the tests."""
    if CORE:
        raise unittest.SkipTest(f"FEQYLDAN_CORE is set: {why}")


needs_program = unittest.skipUnless(SERVED or CORE,
                                    "FEQYLDAN_PROGRAM isn't set to the path of the server's "
                                    "program")
# Users' programs have output that is buffered, whatever the environment of these tests says.
os.environ.pop("PYTHONUNBUFFERED", None)
# The seconds after which a test that waits forever ends the run, which says where it was.
LONGEST = 1200
INTERRUPT = "interrupt"
start_test = unittest.TestResult.startTest


def start_within_limit(result, test):
    faulthandler.dump_traceback_later(LONGEST, exit=True)
    start_test(result, test)


unittest.TestResult.startTest = start_within_limit


def answering(*replies, end="", said="", status=0):
    """
    Returns a server that reads a request for each of these replies, in bytes, answers it, and ends
    after the last one. In place of a reply, a number makes it sleep for that many seconds.
    INTERRUPT makes it interrupt its parent by SIGALRM when the next request begins to come and the
    sender waits.
    """
    script = (
        "import os, signal, sys, time\n"
        "source, target = sys.stdin.buffer, sys.stdout.buffer\n"
        # The state of the first thread. A signal just before the thread waits wouldn't end the
        # wait.
        "def waits(process):\n"
        "    with open(f'/proc/{process}/stat') as file:\n"
        "        return file.read().rpartition(')')[2].split()[0] == 'S'\n"
        f"for reply in {replies!r}:\n"
        "    if isinstance(reply, float):\n"
        "        time.sleep(reply)\n"
        "        continue\n"
        f"    if reply == {INTERRUPT!r}:\n"
        "        source.peek(1)\n"
        "        while not waits(os.getppid()):\n"
        "            time.sleep(0.001)\n"
        "        os.kill(os.getppid(), signal.SIGALRM)\n"
        "        continue\n"
        "    source.read(int.from_bytes(source.read(4), 'big'))\n"
        "    target.write(reply)\n"
        "    target.flush()\n"
        f"{end}\n"
        f"sys.stderr.write({said!r})\n"
        "sys.stderr.flush()\n"
        f"os._exit({status})\n")
    return [sys.executable, "-c", script]


@contextlib.contextmanager
def closing_each() -> Iterator[Tuple[str, List[socket.socket]]]:
    """Yields the path of a socket that closes each connection, as systemd does where none is free,
    and these connections. After the third one it refuses them."""
    came: List[socket.socket] = []

    def close_each() -> None:
        with contextlib.suppress(OSError):
            for _ in range(3):
                came.append(listener.accept()[0])
                came[-1].close()
            listener.shutdown(socket.SHUT_RDWR)

    with tempfile.TemporaryDirectory() as folder, socket.socket(socket.AF_UNIX) as listener:
        path = os.path.join(folder, "socket")
        listener.bind(path)
        listener.listen()
        closing = threading.Thread(target=close_each)
        closing.start()
        yield path, came
        listener.shutdown(socket.SHUT_RDWR)
        closing.join()


@needs_program
class ProgramTest(unittest.TestCase):
    """A test with a server and a context of its own."""

    limits = {}

    def setUp(self):
        self.server = vx.Server(SERVED, **self.limits)
        self.addCleanup(self.server.close)
        self.context = self.server.context()

    def holds(self, image, rows):
        self.assertEqual(image.read().tolist(), rows)
