"""The process of a server's program, and the pipes to it."""

from __future__ import annotations

import logging
import os
import signal
import socket
import subprocess
import tempfile
from typing import List, Optional

from .connection import Connection
from .errors import ProgramNotFound, ServerEnded
from .log import LOG
from .pipes import enlarge

# Seconds that a server may take to end after its input has ended; and the most bytes of its
# standard error that a message quotes.
PATIENCE = 10.0
SAID_BYTES = 4096


class Process:
    """A server's program that runs in a process of its own, started by these words of a command."""

    def __init__(self, words: List[str], timeout: Optional[float]) -> None:
        self._name = words[0]
        # A file, because a pipe could fill up while nobody reads it.
        self._said = tempfile.TemporaryFile()
        # Replies come by a socket: its buffers stay in the processor's cache, while a pipe takes
        # new pages for each picture.
        self._output, replies = socket.socketpair()
        reader, writer = os.pipe()
        requests, self._input = (open(reader, "rb", buffering=0), open(writer, "wb", buffering=0))
        self._is_ending = self._is_end_logged = False
        try:
            with requests, replies:
                # A server doesn't expect what socket.setdefaulttimeout() does to them.
                replies.setblocking(True)
                self._process = subprocess.Popen(words, stdin=requests, stdout=replies.fileno(),
                                                 stderr=self._said, start_new_session=True)
            enlarge(self._input.fileno())
            self.pid, self.terminate, self.kill = (
                self._process.pid, self._process.terminate, self._process.kill)
            self.connection = Connection(self._input.fileno(), self._output.fileno(), self._ended,
                                         self.kill, timeout)
        except BaseException as error:
            # A server that has started ends with its input. An input of Popen's own would stay
            # open after an interruption.
            self._input.close()
            self._output.close()
            self._said.close()
            if isinstance(error, FileNotFoundError):
                raise ProgramNotFound(error.errno, "there is no such program", words[0]) from None
            raise

    def __str__(self) -> str:
        return f"process {self.pid}, {self._name}"

    def wait(self, patience: float) -> int:
        """Waits up to `patience` seconds for the process to end, and returns its status. Raises
        subprocess.TimeoutExpired if it doesn't."""
        return self._process.wait(patience)

    def end(self, patience: float) -> ServerEnded:
        """Closes the server's input, and kills the process unless it ends within `patience`
        seconds. Returns how it ended."""
        self._is_ending = True
        self._input.close()
        self._output.close()
        if not self._has_ended(patience):
            self.kill()
        ended = self._ended(False)
        self._said.close()
        return ended

    def lose(self) -> None:
        """Closes the pipes in the child of a fork; the process belongs to the parent."""
        self._input.close()
        self._output.close()
        self._said.close()
        # Only the parent can wait for the process.
        self._process.returncode = 0

    def _has_ended(self, patience: float) -> bool:
        """Waits up to `patience` seconds for the server to end, and returns whether it has."""
        try:
            self._process.wait(patience)
        except subprocess.TimeoutExpired:
            return False
        return True

    def _ended(self, is_within_frame: bool) -> ServerEnded:
        """Returns how the server ended, after it has closed its output."""
        if not self._has_ended(PATIENCE):
            return ServerEnded("the server closed its output but is still running: is the program "
                               "a Feqyldan server?")
        status = self._process.returncode
        self._said.seek(0)
        said = self._said.read()[-SAID_BYTES:].decode(errors="replace").strip()
        where = " in the middle of a reply" if is_within_frame else ""
        # For example a machine without memory kills programs.
        by = f" ({signal.strsignal(-status)})" if status < 0 else ""
        words = f"ended{where} with status {status}{by}{': ' if said else ''}{said}"
        if not self._is_end_logged:
            self._is_end_logged = True
            LOG.log(logging.INFO if self._is_ending else logging.WARNING,
                    "server of process %d %s", self.pid, words)
        return ServerEnded(f"the server {words}", status, said)
