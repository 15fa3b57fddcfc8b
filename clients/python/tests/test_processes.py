"""The server and this program as processes: interruptions from a terminal, silent ends, and
forks."""

import contextlib
import os
import select
import signal
import subprocess
import sys
import tempfile
import time
import unittest

from program import HERE, PROGRAM, answering, needs_program, of_a_process, vx
from feqyldan import wire

OPENED = wire.reply_frame(0, wire.OPEN_CONTEXT)
PACKAGE = os.path.realpath(os.path.join(HERE, ".."))
PATIENCE = 60


def is_there(process):
    """Returns whether a process runs, and isn't a zombie."""
    try:
        with open(f"/proc/{process}/stat", encoding="utf-8") as file:
            return file.read().rpartition(")")[2].split()[0] not in "ZX"
    except FileNotFoundError:
        return False


def heed_signals():
    """Restores the signal handlers of a program that a shell starts at a terminal. The tests may
    run with SIGINT ignored, as `tools/test &` in a script does, and a program would inherit
    that."""
    for number in (signal.SIGINT, signal.SIGTERM):
        signal.signal(number, signal.SIG_DFL)


class ProcessTest(unittest.TestCase):
    def start(self, script):
        """Starts a program in a process group of its own, as a shell does."""
        client = subprocess.Popen([sys.executable, "-c", script], stdin=subprocess.PIPE,
                                  stdout=subprocess.PIPE,
                                  env={**os.environ, "PYTHONPATH": PACKAGE,
                                       "PYTHONDONTWRITEBYTECODE": "1"},
                                  stderr=subprocess.DEVNULL, start_new_session=True, text=True,
                                  preexec_fn=heed_signals)
        self.addCleanup(client.wait)
        self.addCleanup(self.kill_group, client.pid)
        self.addCleanup(client.stdout.close)
        self.addCleanup(client.stdin.close)
        return client

    def kill_group(self, group):
        with contextlib.suppress(ProcessLookupError):
            os.killpg(group, signal.SIGKILL)

    def line_of(self, client):
        """Returns a line that it writes."""
        self.assertTrue(select.select([client.stdout], [], [], PATIENCE)[0], "no line came")
        return client.stdout.readline().split()

    def ends(self, process):
        limit = time.monotonic() + PATIENCE
        while is_there(process) and time.monotonic() < limit:
            time.sleep(0.01)
        self.assertFalse(is_there(process), f"process {process} is there")


HEAD = """
import os, sys, time
import feqyldan as vx

def server_of(server):
    return server._process.pid if server._process else 0

server = vx.Server()
context = server.context()
image = context.image_from([[1, 2]])
"""


@needs_program
@of_a_process
class TestInterruptions(ProcessTest):
    def test_ctrl_c_interrupts_the_program_alone(self):
        """A terminal sends SIGINT to the whole group."""
        client = self.start(HEAD + """
try:
    print(server_of(server), flush=True)
    time.sleep(1000)
except KeyboardInterrupt:
    print("goes on with", *image.read().tolist()[0], flush=True)
sys.stdin.readline()
server.close()
print("closed", flush=True)
""")
        server = int(self.line_of(client)[0])
        self.assertNotEqual(os.getpgid(server), client.pid)
        self.assertNotEqual(os.getsid(server), os.getsid(client.pid))
        os.killpg(client.pid, signal.SIGINT)
        self.assertEqual(self.line_of(client), ["goes", "on", "with", "1", "2"])
        client.stdin.write("\n")
        client.stdin.flush()
        self.assertEqual(self.line_of(client), ["closed"])
        self.assertEqual(client.wait(PATIENCE), 0)
        self.ends(server)

    def test_the_server_ends_with_its_program(self):
        for number in (signal.SIGKILL, signal.SIGTERM, signal.SIGINT):
            client = self.start(HEAD + "print(server_of(server), flush=True)\ntime.sleep(1000)\n")
            server = int(self.line_of(client)[0])
            self.assertTrue(is_there(server))
            os.killpg(client.pid, number)
            client.wait(PATIENCE)
            self.ends(server)

    def test_an_end_by_an_error_waits_for_no_answer(self):
        start = time.monotonic()
        with self.assertRaises(KeyError):
            with vx.Server(answering(OPENED, 30.0)) as server:
                server.context()
                raise KeyError
        self.assertLess(time.monotonic() - start, 10)


FORKED = HEAD + """
import multiprocessing

def says(call):
    try:
        return repr(call())
    except vx.Closed as error:
        return str(error)

def child(pipe):
    calls = image.read, context.graph, server.context, context.pipeline().__enter__
    pipe.send([says(call) for call in calls])
    server.close()
    context.close()
    image.close()
    with vx.Server() as own, own.context() as other:
        pipe.send(other.image_from([[5, 6]]).read().tolist())

ours, theirs = multiprocessing.get_context("fork").Pipe()
process = multiprocessing.get_context("fork").Process(target=child, args=(theirs,))
process.start()
for word in ours.recv():
    print(word, flush=True)
print(ours.recv(), image.read().tolist(), flush=True)
process.join()
print(process.exitcode, flush=True)
# It raises where the server didn't end with its input.
server.close()
print("closed", flush=True)
"""
CHILD_LIVES = HEAD + """
if os.fork() == 0:
    time.sleep(1000)
    os._exit(0)
print(server_of(server), flush=True)
time.sleep(1000)
"""
CLOSED_WHILE_CHILD_LIVES = HEAD + """
child = os.fork()
if child == 0:
    time.sleep(1000)
    os._exit(0)
# It raises where the server didn't end with its input.
server.close()
print("closed", flush=True)
os.kill(child, 9)
"""
THREADS = HEAD + """
import threading

def work():
    with server.context() as context:
        image = context.image(vx.U8, 64, 64)
        while not done:
            image.write(bytes(4096))
            image.read()

done = False
threads = [threading.Thread(target=work) for _ in range(3)]
for thread in threads:
    thread.start()
statuses = []
for _ in range(30):
    child = os.fork()
    if child == 0:
        status = 1
        try:
            image.read()
        except vx.Closed:
            status = 0
        os._exit(status)
    statuses.append(os.waitpid(child, 0)[1])
done = True
for thread in threads:
    thread.join()
server.close()
print(set(statuses), flush=True)
"""


@needs_program
class TestForks(ProcessTest):
    def test_a_child_is_told_and_the_parent_goes_on(self):
        client = self.start(FORKED)
        for words in ("read image 1 (U8, 2 by "
                      "1)", "create a graph", "open a context", "open a pipeline"):
            self.assertEqual(" ".join(self.line_of(client)),
                             f"{words}: its server was opened before this process was forked: open "
                             "a server in this process")
        self.assertEqual("".join(self.line_of(client)), "[[5,6]][[1,2]]")
        self.assertEqual([self.line_of(client) for _ in range(2)], [["0"], ["closed"]])
        self.assertEqual(client.wait(PATIENCE), 0)

    @of_a_process
    def test_the_server_ends_with_the_parent_though_a_child_lives(self):
        client = self.start(CHILD_LIVES)
        server = int(self.line_of(client)[0])
        client.kill()
        client.wait(PATIENCE)
        self.ends(server)

    def test_it_is_closed_at_once_though_a_child_lives(self):
        self.assertEqual(self.line_of(self.start(CLOSED_WHILE_CHILD_LIVES)), ["closed"])

    def test_forks_while_threads_use_the_server(self):
        """A lock that another thread had at the fork belongs to nobody in the child."""
        self.assertEqual(self.line_of(self.start(THREADS)), ["{0}"])

    @of_a_process
    def test_sockets(self):
        """A child's copy of a socket is closed, and so the door sees its end."""
        with tempfile.TemporaryDirectory() as folder:
            path = os.path.join(folder, "socket")
            door = subprocess.Popen([sys.executable, "-m", "feqyldan.door", "--socket", path, "--",
                                     PROGRAM, "serve"], env={**os.environ, "PYTHONPATH": PACKAGE},
                                    stderr=subprocess.DEVNULL)
            self.addCleanup(door.wait)
            self.addCleanup(door.terminate)
            with vx.connect(path, retry=PATIENCE) as server, server.context() as context:
                image = context.image_from([[1, 2]])
                child = os.fork()
                if child == 0:
                    status = 1
                    try:
                        image.read()
                    except vx.Closed as error:
                        status = 0 if "forked" in str(error) else 2
                    finally:
                        os._exit(status)
                self.assertEqual(os.waitpid(child, 0)[1], 0)
                self.assertEqual(image.read().tolist(), [[1, 2]])


if __name__ == "__main__":
    unittest.main()
