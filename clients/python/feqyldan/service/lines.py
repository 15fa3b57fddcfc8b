"""Lines on standard error."""

import contextlib
import os
import select
import sys
import time
from collections import Counter

# The most lines that are written in a second, and about the connections of a user between two
# reports.
LINES_A_SECOND, LINES_OF_A_USER = 20, 60


class Unusable(Exception):
    """The program can't start; the message says why."""


class Lines:
    """Writes lines to standard error. Few are of one user, so that a connection that ends again and
    again neither fills a disk nor keeps the lines about others away. A line that would have to wait
    for its reader is dropped."""

    def __init__(self, name: str) -> None:
        self.name = name
        self.second, self.count, self.left_out = 0, 0, 0
        # How many lines there were about each user since the last report.
        self.of_users: "Counter[int]" = Counter()

    def say_of(self, user: int, words: str) -> None:
        """Writes a line about a connection of a user."""
        self.of_users[user] += 1
        if self.of_users[user] > LINES_OF_A_USER:
            self.left_out += 1
        else:
            self.say(words)

    def say(self, words: str) -> None:
        second = int(time.monotonic())
        if second != self.second:
            self.second, self.count = second, 0
            if self.left_out and self.write(f"{self.left_out} lines are left out here"):
                self.left_out = 0
        self.count += 1
        if self.count > LINES_A_SECOND or not self.write(words):
            self.left_out += 1

    def write(self, words: str) -> bool:
        """Writes a line, and returns whether it was written. A write to a full pipe would wait
        forever if the reader of standard error has ended or reads no more."""
        with contextlib.suppress(OSError, ValueError):
            ready = select.poll()
            ready.register(sys.stderr.fileno(), select.POLLOUT)
            if ready.poll(0):
                line = f"feqyldan {self.name}: {words}\n"
                # What a full disk refuses stays in no buffer: Python couldn't write it at the end
                # either, and would end with status 120.
                os.write(sys.stderr.fileno(), line.encode(sys.stderr.encoding, "backslashreplace"))
                return True
        return False
