"""
The process that starts a door's servers.

The more a process has imported, the more a fork of it costs, because both processes then copy the
pages that they write. This process imports little, so a start takes less than half the processor
time that it would take in the door. The door runs this file as a script:

    python3 -I -S starting.py DESCRIPTOR

DESCRIPTOR is a socket of whole messages (SOCK_SEQPACKET). The words of a message have a zero byte
between them. The door gives each server a number of its own. It sends two orders; the files of the
stream and of the program come with the first one:

    start NUMBER TARGET MEMORY NICE USER GROUP WORD ..
    kill NUMBER

This process tells what comes of them. It ends when the door does. Its servers go on.

    began NUMBER PROCESS
    failed NUMBER REASON             the process couldn't become the program, or there is none
    ended NUMBER STATUS SECONDS      with the exit status and the processor time
"""

from __future__ import annotations

import os
import resource
import select
import signal
import socket
import sys

START, KILL = "start", "kill"
BEGAN, FAILED, ENDED = "began", "failed", "ended"
# The most bytes of a message, and the most characters of a reason.
MOST_BYTES, MOST_REASON = 65_536, 512
# The signals that this process never takes: they end or reload the door, and may come to both.
WAITING = signal.SIGTERM, signal.SIGINT, signal.SIGHUP
# The nice value of the door and of this process. They work little, and however many servers work,
# each new connection waits for them.
NICE = -10
# The exit status of a process that couldn't become the program; a shell uses it for the same.
NOT_STARTED = 126
# The environment of a server that runs as another user. That user can read it.
CLEAN = {"PATH": os.defpath}
# The sizes of objects whose memory is used again by the calls that start the program. Below a limit
# that is less than what this process has, the system gives no more, and the last calls need some.
SPARE_SIZES = [65_536] + [450] * 600
# More bytes than this process ever has.
MORE_MEMORY = 2**28


def joined(words: list[str]) -> bytes:
    """Returns a message. Words of a command may have any bytes but zeros."""
    return b"\0".join(map(os.fsencode, words))


def words_of(message: bytes) -> list[str]:
    return list(map(os.fsdecode, message.split(b"\0")))


def set_nice(value: int) -> None:
    """Sets the nice value of this process, as far as the system allows it."""
    try:
        os.setpriority(os.PRIO_PROCESS, 0, value)
        # The scheduler may have a separate nice value for the session (autogroup). It begins with
        # 0, and isn't this process's business in the session of another one.
        if value and os.getsid(0) == os.getpid():
            with open("/proc/self/autogroup", "w") as file:
                file.write(str(value))
    except OSError:
        pass


class Starting:
    """The socket to the door, and the processes that it has started."""

    def __init__(self, sock: socket.socket) -> None:
        # No server gets it: the door has to see the end of this process.
        sock.set_inheritable(False)
        self.sock = sock
        # The number of each process.
        self.numbers: dict[int, str] = {}
        self.null = os.open(os.devnull, os.O_RDWR)
        # A byte in this pipe says that a process has ended.
        self.woken, self.waker = os.pipe()
        os.set_blocking(self.waker, False)

    def run(self) -> None:
        set_nice(NICE)
        # A program that is started expects the defaults of the signals that Python ignores.
        for which in (signal.SIGPIPE, signal.SIGXFSZ):
            signal.signal(which, signal.SIG_DFL)
        signal.signal(signal.SIGCHLD, lambda *_: None)
        signal.set_wakeup_fd(self.waker, warn_on_full_buffer=False)
        signal.pthread_sigmask(signal.SIG_SETMASK, WAITING)
        poll = select.poll()
        poll.register(self.sock, select.POLLIN)
        poll.register(self.woken, select.POLLIN)
        while True:
            ready = dict(poll.poll())
            if self.woken in ready:
                os.read(self.woken, 512)
                self.bury()
            if self.sock.fileno() in ready and not self.take_order():
                return

    def tell(self, *words: object) -> None:
        self.sock.send(joined([str(word) for word in words]))

    def bury(self) -> None:
        """Removes the processes that have ended, and tells the door."""
        while self.numbers:
            process, status, usage = os.wait4(-1, os.WNOHANG)
            if process == 0:
                return
            self.tell(ENDED, self.numbers.pop(process), os.waitstatus_to_exitcode(status),
                      usage.ru_utime + usage.ru_stime)

    def take_order(self) -> bool:
        """Does what the door orders. Returns False if the door has ended."""
        try:
            message, files, _, _ = socket.recv_fds(self.sock, MOST_BYTES, 2)
        except ConnectionResetError:
            # The door has ended, and hasn't read all that it was told.
            return False
        if not message:
            return False
        order, number, *words = words_of(message)
        if order == START:
            self.start(number, files, words)
        else:
            self.kill(number)
        for file in files:
            os.close(file)
        return True

    def kill(self, number: str) -> None:
        """Kills the process with this number, unless it has ended."""
        for process in [process for process, its in self.numbers.items() if its == number]:
            os.kill(process, signal.SIGKILL)

    def start(self, number: str, files: list[int], words: list[str]) -> None:
        """Starts a process that becomes the program. Doesn't wait for it: a user can stop a process
        of that user at any time."""
        try:
            process = os.fork()
        except OSError as error:
            self.tell(FAILED, number, str(error)[:MOST_REASON])
            self.tell(ENDED, number, NOT_STARTED, 0)
            return
        if process == 0:
            try:
                self.become(files, words[:5], words[5:])
            except BaseException as error:
                self.tell(FAILED, number, str(error)[:MOST_REASON])
            finally:
                os._exit(NOT_STARTED)
        self.numbers[process] = number
        self.tell(BEGAN, number, process)

    def become(self, files: list[int], plan: list[str], words: list[str]) -> None:
        """Makes this process the program. All limits hold before it runs, and before a user can
        reach the process. The files of this process close by themselves."""
        (stream, program), (target, memory, nice, user, group) = files, plan
        # Its messages aren't needed: its status says the same.
        for descriptor, source in enumerate((stream, stream, self.null)):
            os.dup2(source, descriptor)
        # They came as files that a program keeps. A script is opened again by its interpreter.
        os.set_inheritable(stream, False)
        os.set_inheritable(program, not target)
        limit = int(memory)
        # Python and the C library keep the memory of these objects.
        spare = [bytes(size) for size in SPARE_SIZES if 0 <= limit < MORE_MEMORY]
        resource.setrlimit(resource.RLIMIT_AS, (limit, limit))
        del spare[:-1]
        signal.pthread_sigmask(signal.SIG_SETMASK, ())
        # In a session of its own, so that a terminal that ends the door doesn't end it. Up to here
        # it has the priority of the door.
        os.setsid()
        set_nice(int(nice))
        if user:
            os.setgroups([])
            os.setgid(int(group))
            os.setuid(int(user))
            # Nor can a user that traces the server have it start others next to the door.
            resource.setrlimit(resource.RLIMIT_NPROC, (0, 0))
        os.execve(target or program, words, CLEAN if user else os.environ)


if __name__ == "__main__":
    Starting(socket.socket(fileno=int(sys.argv[1]))).run()
