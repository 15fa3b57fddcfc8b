"""Every session, request by request, and integral images with the greatest sums."""

import struct

from feqyldan import wire
from feqyldan.wire import INTEGRAL, SUCCESS, U32, U8
from checks.sessions import sessions
from checks.sessions.rows import CLIENT
from checks.tables.program import Program, check


def check_sessions(program: Program) -> int:
    asked = 0
    for words, rows in sessions():
        program.check_rows(words, rows)
        asked += len(rows)
    return asked


# Width and height of white pictures, and the last sample of the integral image: the greatest sum up
# to 2^32 - 1 of a square picture, one just above that, and the greatest of all.
GREATEST_INTEGRALS = (
    (4096, 4096, 4_278_190_080), (4097, 4112, 983_024), (8192, 8192, 4_227_858_432))


def check_greatest_integrals(program: Program) -> None:
    for width, height, last in GREATEST_INTEGRALS:
        check_integral(program, width, height, last)


def check_integral(program: Program, width: int, height: int, last: int) -> None:
    """Checks the integral image of samples of 255: 255 * (x + 1) * (y + 1) modulo 2^32."""
    name, quota = f"the integral of {width} by {height}", f"--quota={2**30}"
    status, output, _ = program.run(b"".join((
        wire.open_context(CLIENT), wire.create_image(CLIENT, U8, width, height),
        wire.create_image(CLIENT, U32, width, height),
        wire.write_image(CLIENT, 1, U8, width, height, b"\xff" * (width * height)),
        wire.immediate(CLIENT, INTEGRAL, 1, None, 2), wire.read_image(CLIENT, 2))),
        ("serve", quota))
    # The output may be long, and isn't copied.
    replies = wire.replies(memoryview(output))
    check(status == 0 and [wire.code_of(reply) for reply in replies] == [SUCCESS] * 6,
          f"{name}: status {status}")
    samples = replies[-1][13:]
    check(samples[-4:] == struct.pack(">I", last), f"{name}: it ends with {samples[-4:].hex(' ')}")
    for y in (0, 1, height // 2 - 1, height // 2, height - 1):
        row = struct.unpack_from(f">{width}I", samples, 4 * width * y)
        check(row == tuple(255 * (y + 1) * x % 2**32 for x in range(1, width + 1)),
              f"{name}: row {y}")
