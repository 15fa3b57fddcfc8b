"""Devices that fail: a directory as input, and a full device as output; and devices that move few
bytes per call, one call of which fails."""

import os
import subprocess
import tempfile
from typing import Sequence, Tuple

from feqyldan import wire
from feqyldan.wire import NOT_BITS, U8
from checks import shim
from checks.sessions.images import pictures_in_long_bodies
from checks.sessions.rows import CLIENT, holds, made, opened, ran, wrote
from checks.tables.apply import SQUARE
from checks.tables.endings import Pairs, pairs_of
from checks.tables.program import Program, check, shown

# Two images of one sample; the second is the inverse of the first.
STORED = [
    opened(), made(1, U8), made(2, U8), wrote(1, U8, [10]), ran(NOT_BITS, 1, None, 2),
    holds(2, U8, [245])]


def run_on_a_folder(program: Program, words: Sequence[str]) -> Tuple[int, bytes, bytes]:
    """Checks that a directory can't be read."""
    with tempfile.TemporaryDirectory() as folder:
        entry = os.open(folder, os.O_RDONLY)
        run = subprocess.run([program.path, *words], stdin=entry, capture_output=True, timeout=60)
        os.close(entry)
    return run.returncode, run.stdout, run.stderr


def run_into_a_full_device(program: Program, words: Sequence[str],
                           stream: bytes) -> Tuple[int, bytes]:
    """Checks that /dev/full can't be written."""
    with open("/dev/full", "wb") as full:
        run = subprocess.run([program.path, *words], input=stream, stdout=full,
                             stderr=subprocess.PIPE, timeout=60)
    return run.returncode, run.stderr


def check_pieces(program: Program) -> None:
    """Runs streams in pieces of all sizes, and in single bytes with each read and each write
    failing in turn."""
    with shim.built("tables/fail_call.c") as library:
        for pairs in pairs_of(STORED), pairs_of(pictures_in_long_bodies()):
            check_sizes(program, library, pairs)
            check_failing_reads(program, library, pairs)
            check_failing_writes(program, library, pairs)


def joined(pairs: Pairs) -> Tuple[bytes, bytes]:
    """Returns the stream of the requests, and that of the replies."""
    return b"".join(request for request, _ in pairs), b"".join(reply for _, reply in pairs)


def check_sizes(program: Program, library: str, pairs: Pairs) -> None:
    """Runs in pieces of at most this many bytes, up to the longest frame."""
    stream, output = joined(pairs)
    for size in range(1, max(len(frame) for pair in pairs for frame in pair) + 1):
        got = run_in_pieces(program, library, stream, PIECE=size)
        check(got == (0, output, b""), f"in pieces of {size}: {got}")


def check_failing_reads(program: Program, library: str, pairs: Pairs) -> None:
    """Fails each read in turn. The replies to all frames that were read completely must be there.
    The last read finds the end of the stream."""
    stream, output = joined(pairs)
    number = 0
    for k, (request, _) in enumerate(pairs):
        answered = joined(pairs[:k])[1]
        for _ in request:
            number += 1
            got = run_in_pieces(program, library, stream, FAIL_READ=number)
            check(got == (4, answered, b"read failed\n"), f"read {number}: {got}")
    got = run_in_pieces(program, library, stream, FAIL_READ=number + 1)
    check(got == (4, output, b"read failed\n"), f"the read of the end: {got}")


def check_failing_writes(program: Program, library: str, pairs: Pairs) -> None:
    """Fails each write in turn. All bytes before it must be there, and none after the reply whose
    write failed. The program may still write the rest of that reply at its end."""
    stream, number = joined(pairs)[0], 0
    for k, (_, reply) in enumerate(pairs):
        before, most = number, joined(pairs[:k + 1])[1]
        for number in range(before + 1, before + 1 + len(reply)):
            status, output, line = run_in_pieces(program, library, stream, FAIL_WRITE=number)
            check((status, line) == (4, b"write failed\n"), f"write {number}: {status}, {line!r}")
            check(len(output) >= number - 1 and most.startswith(output),
                  f"write {number}: {shown(output)}")


def run_in_pieces(program: Program, library: str, stream: bytes,
                  **told: int) -> Tuple[int, bytes, bytes]:
    """Runs the program in pieces of this size, or with a failure of this call. Returns its status,
    output and line."""
    environment = {**os.environ, "LD_PRELOAD": library}
    environment.update({variable: str(number) for variable, number in told.items()})
    program.runs += 1
    run = subprocess.run([program.path, "serve"], input=stream, capture_output=True,
                         env=environment, timeout=60)
    return run.returncode, run.stdout, run.stderr


def check_devices(program: Program) -> None:
    check_pieces(program)
    for words in (("serve",), ("apply", "not")):
        got = run_on_a_folder(program, words)
        check(got == (4, b"", b"read failed\n"), f"a reader that fails under {words}: {got}")
    # Arguments are refused before anything is read, and a text before anything is written.
    got = run_on_a_folder(program, ("apply", "sobel"))
    check(got[:2] == (2, b"") and got[2].startswith(b"error: "),
          f"a word that is refused before a reader that fails: {got}")
    for words, stream, wanted in (
        (("serve",), wire.open_context(CLIENT), (4, b"write failed\n")),
        (("apply", "not"), SQUARE, (4, b"write failed\n")),
        (("apply", "not"), b"P5", (5, b"INVALID_FORMAT\n")),
        (("apply", "not"), b"P2 1 1 300 5", (5, b"INVALID_FORMAT\n")),
        (("apply", "not"), b"P5 0 1 255\n", (5, b"INVALID_DIMENSION\n")),
    ):
        ended = run_into_a_full_device(program, words, stream)
        check(ended == wanted,
              f"a writer that fails under {words}, {stream!r}: {ended}, not {wanted}")
