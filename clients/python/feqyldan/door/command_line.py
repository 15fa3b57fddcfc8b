"""The door's command line."""

import argparse
import os
from functools import partial
from typing import List, Optional

from ..service import options
from ..service.lines import Lines, Unusable
from ..service.machine import open_standard_files, raise_file_limit
from ..service.options import memory_from, number_from, part_of_memory, seconds_from
from ..service.signals import held
from .loop import Door, Limits
from .program import Plan, Program

# The default share of the memory for all servers together.
SERVERS_PART = 3 / 4
USAGE = """
Memory: --memory limits each server's address space. A request that needs more gets NO_MEMORY. The
door refuses a connection if the limits of all servers would exceed --total-memory. The door itself
buffers no requests or replies; it neither sees nor counts them.

Signals: SIGTERM and SIGINT stop the door with status 0. It closes the servers' inputs. They answer
the requests that they have received, and are killed after --grace seconds. A second signal kills
them immediately. After SIGHUP the door looks up the program again, and tries it on an empty input.
New connections get it if the trial succeeds; otherwise they get the same program file as before.

Failures: if the door is killed or crashes, its servers and their programs keep running. It ends
with status 2 if it can't start itself, or if the process that starts its servers has ended.

Socket activation: a service manager may pass one or two listening sockets (LISTEN_FDS) instead of
--socket and --status.
"""


def parser() -> argparse.ArgumentParser:
    made = options.parser("feqyldan-door", " -- PROGRAM serve [WORD ..]", "Starts a vision server "
                          "for each connection to a Unix socket.", USAGE)
    options.add_admission(made, "")
    add = made.add_argument
    add("command", nargs="+", metavar="PROGRAM serve ..",
        help="the server's program and its arguments")
    add("--memory", type=memory_from, default=0, metavar="BYTES",
        help="most bytes of address space of each server, or 'unlimited' (default: --total-memory "
             "divided by --connections)")
    add("--total-memory", type=memory_from, default=0, metavar="BYTES",
        help="most bytes that the limits of all servers may add up to, or 'unlimited' (default: "
             "three quarters of the memory of the machine, or of the door's control group)")
    add("--nice", type=partial(number_from, 0, 19), default=0, metavar="N",
        help="nice value of the servers, 0 to 19 (default: 0). The door itself has -10 where the "
             "system allows it")
    add("--user-of-peer", action="store_true",
        help="run each server as the user of its connection's process; needs root, and a program "
             "that all users may execute (default: as the door's user)")
    add_times(made)
    return made


def add_times(made: argparse.ArgumentParser) -> None:
    add = made.add_argument
    add("--patience", type=seconds_from, default=options.PATIENCE, metavar="SECONDS",
        help="seconds after which a connection that takes none of its replies is closed "
             f"(default: {options.PATIENCE:g})")
    add("--idle", type=seconds_from, metavar="SECONDS",
        help="seconds after which a connection that sends nothing while its server waits for "
             "input, even within a frame, is closed (default: never)")
    add("--grace", type=seconds_from, default=options.GRACE, metavar="SECONDS",
        help="seconds for pending requests after the door is told to stop; then their servers are "
             f"killed (default: {options.GRACE:g})")


def plan_of(told: argparse.Namespace) -> Plan:
    """Returns the plan: which program each server runs, and how."""
    total = part_of_memory(SERVERS_PART) if told.total_memory == 0 else told.total_memory
    memory = told.memory
    if memory == 0:
        memory = None if total is None else max(options.LEAST_MEMORY, total // told.connections)
    if told.user_of_peer and os.geteuid() != 0:
        raise Unusable(f"--user-of-peer needs root, and this is user {os.geteuid()}: start the "
                       "door as root, or leave it out")
    return Plan(told.command, memory, total, told.nice, told.user_of_peer, told.patience, told.idle)


def main(words: Optional[List[str]] = None) -> int:
    """Runs the door until it ends, and returns its exit status."""
    open_standard_files()
    told = parser().parse_args(words)
    limits = Limits(told.connections, told.per_process, told.per_user, told.grace, told.report)
    try:
        plan = plan_of(told)
        program = Program(plan.command)
        raise_file_limit(f"{limits.connections} connections", limits.connections)
        # A signal that comes as soon as programs can connect doesn't leave the sockets behind.
        with held():
            return Door(*options.listeners(told), program, plan, limits).run()
    except Unusable as reason:
        Lines("door").write(str(reason))
        return 2
