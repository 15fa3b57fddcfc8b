"""Tables of streams, written from docs/wire.md, with every byte of the program's replies."""

import sys

from checks.tables.apply import check_apply, check_longest
from checks.tables.bodies import check_bodies
from checks.tables.devices import check_devices
from checks.tables.endings import check_streams
from checks.tables.limits import check_quota, check_told_limits
from checks.tables.program import Program
from checks.tables.sessions import check_greatest_integrals, check_sessions
from checks.tables.words import check_refused_words, check_words


def main() -> None:
    if len(sys.argv) != 2:
        sys.exit("usage: tools/check_program PROGRAM")
    program = Program(sys.argv[1])
    check_streams(program)
    bodies = check_bodies(program)
    asked = check_sessions(program)
    check_greatest_integrals(program)
    check_quota(program)
    check_told_limits(program)
    check_apply(program)
    check_longest(program)
    check_refused_words(program)
    check_words(program)
    check_devices(program)
    print(f"check_program: {program.runs} runs, {bodies} bodies and {asked} requests of sessions "
          "were answered as the tables say")
