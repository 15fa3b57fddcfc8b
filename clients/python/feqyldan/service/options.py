"""The common options of the command lines of the door and the broker."""

import argparse
import contextlib
import grp
import os
from functools import partial
from typing import Optional, Tuple

from .descriptors import Descriptors
from .lines import Unusable
from .listener import Listener, handed_over, listen_at
from .machine import memory_bytes

# A client number is from 0 to 65,535.
MOST_CONNECTIONS = 65_536
LEAST_MEMORY, MOST_MEMORY = 2**24, 2**48
CONNECTIONS, PER_PROCESS, PER_USER = 64, 8, MOST_CONNECTIONS
PATIENCE, GRACE, REPORT = 30.0, 10.0, 60.0
# As a group it means no change.
NO_GROUP = 2**32 - 1


def number_from(least: int, greatest: int, words: str) -> int:
    if not (words.isascii() and words.isdigit() and least <= int(words) <= greatest):
        raise argparse.ArgumentTypeError(
            f"must be a number from {least} to {greatest}, not {words!r}")
    return int(words)


def mode_from(words: str) -> int:
    is_octal = words.isascii() and words.isdigit() and set(words) <= set("01234567")
    if not (is_octal and int(words, 8) <= 0o777):
        raise argparse.ArgumentTypeError(f"must be an octal number up to 0777, not {words!r}")
    return int(words, 8)


def group_from(words: str) -> int:
    with contextlib.suppress(KeyError):
        number = int(words) if words.isdecimal() else grp.getgrnam(words).gr_gid
        if number < NO_GROUP:
            return number
    raise argparse.ArgumentTypeError(
        f"must be a group of this machine, not {words!r}: add it by groupadd")


def seconds_from(words: str) -> float:
    try:
        seconds = float(words)
    except ValueError:
        seconds = 0.0
    if not 0 < seconds <= 1e6:
        raise argparse.ArgumentTypeError(f"must be a number of seconds above 0 and up to "
                                         f"1000000, not {words!r}")
    return seconds


def memory_from(words: str) -> Optional[int]:
    return None if words == "unlimited" else number_from(LEAST_MEMORY, MOST_MEMORY, words)


def part_of_memory(part: float) -> int:
    """Returns a part of the memory, in bytes, that the machine has or a control group allows."""
    return max(LEAST_MEMORY, int(memory_bytes() * part))


def parser(name: str, arguments: str, description: str, epilog: str) -> argparse.ArgumentParser:
    """Returns a parser with the options for the sockets and the reports."""
    made = argparse.ArgumentParser(
        prog=name, formatter_class=argparse.RawDescriptionHelpFormatter,
        usage=f"%(prog)s --socket PATH [OPTION ..]{arguments}", description=description,
        epilog=epilog)
    add = made.add_argument
    add("--socket", metavar="PATH", help="path of the Unix socket that programs connect to")
    add("--mode", type=mode_from, default=0o600, metavar="OCTAL",
        help="permissions of the socket's file; a program needs write permission to connect "
             "(default: 0600, the owner only)")
    add("--status", metavar="PATH",
        help="path of a second socket that reports the state (default: none). A client that "
             "sends a line, or shuts down its side, gets one line of JSON. HTTP clients get the "
             "same from GET /status, and Prometheus text from GET /metrics")
    add("--status-mode", type=mode_from, default=0o600, metavar="OCTAL",
        help="permissions of the status socket's file (default: 0600, the owner only)")
    add("--status-group", type=group_from, metavar="GROUP",
        help="group of the status socket's file, as a name or a number (default: the group of "
             "this program)")
    add("--report", type=seconds_from, default=REPORT, metavar="SECONDS",
        help="seconds between two lines of counts on standard error (default: "
             f"{REPORT:g}); a line is left out if nothing has happened")
    return made


def add_admission(made: argparse.ArgumentParser, among: str) -> None:
    """Adds the options for the limits on connections."""
    connections = partial(number_from, 1, MOST_CONNECTIONS)
    add = made.add_argument
    add("--connections", type=connections, default=CONNECTIONS, metavar="N",
        help=f"most open connections{among} (default: {CONNECTIONS})")
    add("--per-process", type=connections, default=PER_PROCESS, metavar="N",
        help=f"most connections of one process (default: {PER_PROCESS})")
    add("--per-user", type=connections, default=PER_USER, metavar="N",
        help="most connections of all processes of one user, including those of the users in the "
             "user's range in /etc/subuid (default: same as --connections)")


def listeners(told: argparse.Namespace) -> Tuple[Listener, Optional[Listener]]:
    """Returns the listening sockets for programs and for the state. Sockets that a service manager
    passed come first, in this order."""
    handed = handed_over()
    if not handed and told.socket is None:
        raise Unusable("there is no socket to listen at: give --socket PATH, or hand one over "
                       "(LISTEN_FDS)")
    if None not in (told.socket, told.status) and (
            os.path.realpath(told.socket) == os.path.realpath(told.status)):
        raise Unusable(f"--socket and --status are both {told.socket}: give two paths")
    listener = handed[0] if handed else listen_at(told.socket, told.mode)
    if len(handed) > 1:
        return listener, handed[1]
    if told.status is None:
        return listener, None
    try:
        return listener, listen_at(told.status, told.status_mode, told.status_group)
    except Unusable:
        listener.close(Descriptors())
        raise
