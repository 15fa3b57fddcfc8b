"""The command line of the random checks, which run graphs or streams of consecutive seeds."""

import argparse
import os
import random
from typing import Any, Callable, Optional

# Runs this many graphs or streams from a seed on, or as many as the seconds allow if the number is
# None.
Check = Callable[[str, float, Optional[int], int], Any]
# Runs the planted faults from a seed on.
CheckFaults = Callable[[str, int], Any]
# As Check, through the library at a path, over at most this many open connections.
CheckConnections = Callable[[str, int, float, Optional[int], int], Any]


def run(name: str, drawn: str, check: Check, check_faults: CheckFaults, faults_help: str,
        check_connections: Optional[CheckConnections] = None) -> None:
    """Runs the check of this name with the arguments of its command line. `drawn` is 'graph' or
    'stream'."""
    parser = argparse.ArgumentParser(prog=f"tools/{name}")
    parser.add_argument("program", metavar="PROGRAM")
    parser.add_argument("--seconds", type=float, default=20,
                        help=f"seconds during which new {drawn}s are started (default: 20)")
    parser.add_argument(f"--{drawn}s", type=int, dest="count", metavar="N",
                        help=f"number of {drawn}s, regardless of time (default: no limit)")
    parser.add_argument("--seed", type=int,
                        help=f"seed of the first {drawn}; the others count up from it (default: "
                        "random)")
    parser.add_argument("--faults", action="store_true", help=faults_help)
    if check_connections:
        parser.add_argument("--connections", type=int, metavar="N",
                            help="PROGRAM is libfeqyldan-core.so; its servers are checked, each "
                            "with up to N open connections")
    asked = parser.parse_args()
    program = os.path.abspath(asked.program)
    if asked.faults:
        check_faults(program, 1 if asked.seed is None else asked.seed)
        return
    seed = random.randrange(1_000_000_000) if asked.seed is None else asked.seed
    print(f"{name}: the seed of the first {drawn} is {seed}", flush=True)
    if check_connections and asked.connections:
        check_connections(program, asked.connections, asked.seconds, asked.count, seed)
    else:
        check(program, asked.seconds, asked.count, seed)
