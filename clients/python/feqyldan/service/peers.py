"""The process and the user at the other end of a connection. A user may have a range of other users
(subuid(5)), and run programs as any of them."""

import contextlib
import os
import pwd
import socket
import struct
from typing import List, NamedTuple

RANGES = "/etc/subuid"


class Peer(NamedTuple):
    """The process at the other end of a connection, its user and its group."""

    process: int
    user: int
    group: int


def peer_of(sock: socket.socket) -> Peer:
    return Peer(*struct.unpack("iII", sock.getsockopt(socket.SOL_SOCKET, socket.SO_PEERCRED, 12)))


class Range(NamedTuple):
    """The users from `first` up to, and without, `end`, and their owner."""

    owner: int
    first: int
    end: int


class Ranges:
    """The ranges in /etc/subuid. They are read again after the file has changed."""

    def __init__(self, path: str = RANGES) -> None:
        self.path, self.changed_at = path, -1
        self.ranges: List[Range] = []

    def owner_of(self, user: int) -> int:
        """Returns the user in whose range a user is; the user itself if it is in none."""
        self.read_changes()
        return next((each.owner for each in self.ranges
                     if each.first <= user < each.end), user)

    def read_changes(self) -> None:
        with contextlib.suppress(OSError):
            changed_at = os.stat(self.path).st_mtime_ns
            if changed_at != self.changed_at:
                # Names may have any bytes.
                with open(self.path, encoding="utf-8", errors="surrogateescape") as file:
                    self.ranges = [found for line in file for found in ranges_in(line)]
                self.changed_at = changed_at


def ranges_in(line: str) -> List[Range]:
    """Returns the range of a line; none if the line is faulty, or nobody has its owner's name."""
    name, _, numbers = line.strip().partition(":")
    first, _, count = numbers.partition(":")
    with contextlib.suppress(ValueError, KeyError):
        owner = int(name) if name.isdecimal() else pwd.getpwnam(name).pw_uid
        return [Range(owner, int(first), int(first) + int(count))]
    return []
