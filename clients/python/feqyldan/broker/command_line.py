"""The broker's command line."""

import argparse
import os
import traceback
from functools import partial
from typing import List, Optional

from .. import core, wire
from ..errors import FeqyldanError
from ..server import GREATEST_LIMIT, QUOTA, WORK
from ..service import options
from ..service.lines import Lines, Unusable
from ..service.machine import open_standard_files, processors, raise_file_limit
from ..service.options import memory_from, number_from, part_of_memory, seconds_from
from ..service.signals import held
from .connection import Limits
from .incoming import AHEAD
from .loop import Broker
from .memory import kept_for_python, limit_memory, use_one_heap
from .server import Library

MOST_SERVERS, MOST_SERVERS_UNLESS_TOLD = 256, 8
BYTES_HELD = 268_500_992
# The default share of the machine's memory for the frames and replies that are buffered.
HELD_PART = 1 / 8
# The least limit on what all connections hold: two reads.
LEAST_HELD = 2 * AHEAD
# A context has a number of 16 bits in its server, and one number is spare.
MOST_CONTEXTS = 65_535
USAGE = """
Memory: --memory limits the address space of the broker with all of its servers. Of it, --total-held
bytes, or a quarter if that is less, are kept for frames, replies and the broker itself. A request
gets NO_MEMORY if too little is left for its images. For each connection the broker buffers at most
one request frame and one reply, of at most --bytes-held bytes each, and 131,072 bytes more. Frames
and replies of all connections together take at most --total-held bytes. The broker closes a
connection whose frame or reply exceeds its limit. If the total would be exceeded, it closes the
connection with the most bytes. Not counted in --total-held: the kernel's socket buffers, the frame
and the reply of each server's request, and the images of the servers' clients (their --quota).

Signals: SIGTERM and SIGINT stop the broker with status 0 once the requests in progress are
answered, or after --grace seconds. SIGHUP changes nothing: a new library needs a new broker, and
all connections end with the old one.

Failures: if the broker fails, all connections end. It ends with status 2 if it can't start.

Socket activation: a service manager may pass one or two listening sockets (LISTEN_FDS) instead of
--socket and --status.
"""
# Options of earlier versions, and why they are refused.
REFUSED = {
    "--longest": "a request can't be interrupted; --work bounds how long a graph takes, and the "
                 "status socket reports the time of the present request",
    "--own-memory": "the broker and its servers are one process, which --memory limits"}


class Refused(argparse.Action):
    """An option that is refused with words."""

    def __call__(self, made: argparse.ArgumentParser, namespace: argparse.Namespace,
                 values: object, option: Optional[str] = None) -> None:
        made.error(f"{option} is refused: {REFUSED[str(option)]}")


def servers_unless_told() -> int:
    return min(processors(), MOST_SERVERS_UNLESS_TOLD)


def parser() -> argparse.ArgumentParser:
    made = options.parser("feqyldan-broker", "", "Shares vision servers among several programs, "
                          "through a Unix socket. The servers run in the broker's process, each on "
                          "a thread.", USAGE)
    add = made.add_argument
    add("--servers", type=partial(number_from, 1, MOST_SERVERS), metavar="N",
        help=f"number of servers, 1 to {MOST_SERVERS} (default: one for each processor, at most "
             f"{MOST_SERVERS_UNLESS_TOLD})")
    options.add_admission(made, ", including those whose contexts are still being released")
    add_memory(made)
    add_times(made)
    for name in REFUSED:
        add(name, action=Refused, help=argparse.SUPPRESS)
    add("command", nargs="*", help=argparse.SUPPRESS)
    return made


def add_memory(made: argparse.ArgumentParser) -> None:
    add, limit = made.add_argument, partial(number_from, 1, GREATEST_LIMIT)
    add("--quota", type=limit, default=QUOTA, metavar="BYTES",
        help=f"most sample bytes of the images of a context (default: {QUOTA})")
    add("--work", type=limit, default=WORK, metavar="BYTES",
        help=f"most sample bytes of the virtual images of a graph (default: {WORK})")
    add("--contexts", type=partial(number_from, 1, MOST_CONTEXTS), default=1, metavar="N",
        help="most contexts of a connection, each of a client; one more is refused NO_RESOURCES "
             "(default: 1)")
    add("--memory", type=memory_from, default=0, metavar="BYTES",
        help="most bytes of address space of the broker with all of its servers, or 'unlimited' "
             "(default: three quarters of the memory of the machine, or of the broker's control "
             "group)")
    add("--bytes-held", type=partial(number_from, 7, wire.GREATEST_LENGTH + 4), default=BYTES_HELD,
        metavar="BYTES", help="most bytes of a request frame, and of a reply (default: "
                              f"{BYTES_HELD}, enough for an image of 8192x8192 U32)")
    add("--total-held", type=partial(number_from, LEAST_HELD, options.MOST_MEMORY), metavar="BYTES",
        help="most bytes of frames and waiting replies of all connections together, at least "
             f"{LEAST_HELD} (default: an eighth of the same memory)")


def add_times(made: argparse.ArgumentParser) -> None:
    add = made.add_argument
    add("--patience", type=seconds_from, default=options.PATIENCE, metavar="SECONDS",
        help="seconds after which a connection that sends no more of an unfinished frame, or "
             f"takes none of its replies, is closed (default: {options.PATIENCE:g}); between "
             "frames there is no limit")
    add("--idle", type=seconds_from, metavar="SECONDS",
        help="seconds without a request after which a connection is closed (default: never)")
    add("--grace", type=seconds_from, default=options.GRACE, metavar="SECONDS",
        help="seconds for requests in progress after the broker is told to stop; then they are "
             f"given up (default: {options.GRACE:g})")


def told_by(words: Optional[List[str]]) -> Limits:
    """Returns what the command line says. Without words, that is the command line of this
    process."""
    made = parser()
    told = made.parse_args(words)
    if told.command:
        made.error(f"the broker starts no program: leave out -- {' '.join(told.command)}; give "
                   "--quota and --work to the broker, and the library by FEQYLDAN_CORE")
    told.total_held = told.total_held or part_of_memory(HELD_PART)
    return told


def main(words: Optional[List[str]] = None) -> int:
    """Runs the broker until it ends, and returns its exit status."""
    open_standard_files()
    told = told_by(words)
    use_one_heap()
    # A signal that comes as soon as programs can connect doesn't leave the sockets behind.
    with held():
        return run(told)


def run(told: Limits) -> int:
    """Runs the broker, and returns its exit status."""
    try:
        path = core.require(f"set {core.VARIABLE}")
        raise_file_limit(f"{told.connections} connections", told.connections)
        kept = kept_for_python(told.connections)
        libraries = [Library(path, told.quota, told.work)
                     for _ in range(told.servers or servers_unless_told())]
        broker = Broker(*options.listeners(told), libraries, told)
        try:
            limit_memory(told.memory, told.total_held)
        except Unusable:
            broker.close()
            raise
    except (Unusable, FeqyldanError) as reason:
        Lines("broker").write(str(reason))
        return 2
    status = 0
    try:
        broker.run()
    except Exception:
        traceback.print_exc()
        status = 1
    del kept
    if broker.is_serving:
        # The call of a thread goes on until the process ends, and needs its memory until then.
        os._exit(status)
    return status
