"""Runs the server on streams of bytes, and compares its replies."""

import os
import subprocess
import sys
import tempfile
from typing import Sequence, Tuple, Union

from feqyldan import wire
from checks.sessions.rows import Row, reply_to

# An argument of a command line.
Word = Union[str, bytes]


def check(condition: object, what: str) -> None:
    if not condition:
        sys.exit(f"check_program: {what}")


def shown(stream: bytes) -> str:
    if len(stream) <= 64:
        return stream.hex(" ")
    return f"{stream[:64].hex(' ')} .. ({len(stream)} bytes)"


class Program:
    def __init__(self, path: str) -> None:
        self.path, self.runs = os.path.abspath(path), 0

    def run(self, stream: bytes, words: Sequence[Word] = ("serve",)) -> Tuple[int, bytes, bytes]:
        """Returns the program's status, output and line on standard error."""
        self.runs += 1
        run = subprocess.run([self.path, *words], input=stream, capture_output=True, timeout=120)
        return run.returncode, run.stdout, run.stderr

    def run_on_file(self, front: bytes, length: int, end: bytes = b"",
                    words: Sequence[Word] = ("serve",)) -> Tuple[int, bytes, bytes, int]:
        """Returns the program's status, output and line on standard error, and the number of bytes
        read. The input is a file of this length, with zeros between its front and its end. No
        process but the program may have the whole file in memory."""
        self.runs += 1
        with tempfile.TemporaryFile() as stream:
            stream.write(front)
            stream.seek(length - len(end))
            stream.write(end)
            stream.truncate(length)
            stream.seek(0)
            run = subprocess.run([self.path, *words], stdin=stream, capture_output=True,
                                 timeout=120)
            at = os.lseek(stream.fileno(), 0, os.SEEK_CUR)
        return run.returncode, run.stdout, run.stderr, at

    def check(self, name: str, stream: bytes, output: bytes, status: int = 0, line: bytes = b"",
              words: Sequence[Word] = ("serve",)) -> None:
        got = self.run(stream, words)
        check(got[1] == output, f"{name}: {shown(got[1])}, not {shown(output)}")
        check(got[0] == status and got[2] == line,
              f"{name}: status {got[0]} and {got[2]!r}, not {status} and {line!r}")

    def check_rows(self, name: str, rows: Sequence[Row],
                   words: Sequence[Word] = ("serve",)) -> None:
        """Sends the requests of rows in one stream, and compares the replies, each a code or the
        body of a success."""
        status, output, _ = self.run(b"".join(request for request, _ in rows), words)
        replies = wire.replies(output)
        check(status == 0 and len(replies) == len(rows),
              f"{name}: status {status}, {len(replies)} replies to {len(rows)} requests")
        for at, (reply, (request, wanted)) in enumerate(zip(replies, rows)):
            expected = reply_to(request, wanted)
            check(reply == expected,
                  f"{name}: request {at}, {shown(request)}: {shown(reply)}, not {shown(expected)}")
