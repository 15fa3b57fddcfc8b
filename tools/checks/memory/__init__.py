"""Measures the server's resident memory while blocks of samples are freed and reused."""

import argparse
import os
import sys

from checks.lockstep import Fault
from checks.memory.again import again, registered
from checks.memory.great import rising, small_in_great, written
from checks.memory.planted import check_faults
from checks.memory.server import Program
from checks.memory.soak import REQUESTS, soak


def main() -> None:
    parser = argparse.ArgumentParser(prog="tools/check_memory")
    parser.add_argument("program", metavar="PROGRAM")
    parser.add_argument("--requests", type=int, default=REQUESTS,
                        help=f"approximate number of random requests (default: {REQUESTS})")
    parser.add_argument("--faults", action="store_true",
                        help="plant faulty servers and wrong readings, and check that they are "
                        "found")
    asked = parser.parse_args()
    program = Program(os.path.abspath(asked.program))
    if asked.faults:
        check_faults(program.path)
        return
    try:
        told = [measure(program)
                for measure in (small_in_great, written, rising, registered, again)]
        told.append(soak(program, asked.requests))
    except Fault as fault:
        sys.exit(f"check_memory: {fault}")
    print(f"check_memory: {'; '.join(told)}")
