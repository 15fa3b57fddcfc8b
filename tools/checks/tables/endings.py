"""Ends of streams: bytes read, bytes written, the status and the line; and clients in turn."""

import subprocess
from typing import List, Sequence, Tuple

from checks.graphs.worked import graph_before_and_after_ageing
from checks.sessions.images import pictures_in_long_bodies
from checks.sessions.rows import Row, reply_to
from checks.tables.program import Program, check, shown

# Requests with their replies.
Pairs = List[Tuple[bytes, bytes]]

TRUNCATED, BAD_LENGTH = (3, b"truncated\n"), (3, b"bad length\n")
ENDINGS = (
    ("nothing", "", "", 0, b""),
    ("within a length", "00 00 00", "", *TRUNCATED),
    ("within a length of large bytes", "ff ff ff", "", *TRUNCATED),
    ("after a length", "00 00 00 04", "", *TRUNCATED),
    ("before the last byte", "00 00 00 04 00 07 01", "", *TRUNCATED),
    ("within the head", "00 00 00 03 00 07", "", *TRUNCATED),
    ("a length of 2", "00 00 00 02", "", *BAD_LENGTH),
    ("a length of 2, and more", "00 00 00 02 00 07", "", *BAD_LENGTH),
    ("a length of 0", "00 00 00 00", "", *BAD_LENGTH),
    ("a length above 2^27", "08 00 00 01", "", *TRUNCATED),
    ("a length above 2^27, begun", "08 00 00 01 00 07 01", "", *TRUNCATED),
    ("the greatest length", "20 00 00 00", "", *TRUNCATED),
    ("the greatest length, begun", "20 00 00 00 00 07 01", "", *TRUNCATED),
    ("a WriteImage of 2^27 bytes, begun", "08 00 00 00 00 07 05", "", *TRUNCATED),
    ("a length one too great", "20 00 00 01 00 07 01", "", *BAD_LENGTH),
    ("the greatest number", "ff ff ff ff", "", *BAD_LENGTH),
    ("the least frame", "00 00 00 03 00 07 01", "00 00 00 04 00 07 01 00", 0, b""),
    ("the greatest client and op", "00 00 00 03 ff ff ff", "00 00 00 04 ff ff ff 02", 0, b""),
    ("a frame and a byte", "00 00 00 03 ff ff c8 ff", "00 00 00 04 ff ff c8 02", *TRUNCATED),
    ("a frame and a bad length", "00 00 00 03 00 07 01 00 00 00 01", "00 00 00 04 00 07 01 00",
     *BAD_LENGTH),
    ("a body for an op that has none, an unknown op, and on",
     "00 00 00 04 00 07 01 00  00 00 00 03 00 07 c8  00 00 00 03 00 07 01",
     "00 00 00 04 00 07 01 02  00 00 00 04 00 07 c8 02  00 00 00 04 00 07 01 00", 0, b""),
)

# Clients 1 and 2 in turn: each opens a context, creates an image of one U8 sample, writes 10 or 20
# and reads it.
TURNS = (
    ("00 00 00 03 00 01 01", "00 00 00 04 00 01 01 00"),
    ("00 00 00 03 00 02 01", "00 00 00 04 00 02 01 00"),
    ("00 00 00 08 00 01 03 01 00 01 00 01", "00 00 00 08 00 01 03 00 00 00 00 01"),
    ("00 00 00 08 00 02 03 01 00 01 00 01", "00 00 00 08 00 02 03 00 00 00 00 01"),
    ("00 00 00 0e 00 01 05 00 00 00 01 ff 01 00 01 00 01 0a", "00 00 00 04 00 01 05 00"),
    ("00 00 00 0e 00 02 05 00 00 00 01 ff 01 00 01 00 01 14", "00 00 00 04 00 02 05 00"),
    ("00 00 00 08 00 01 07 00 00 00 01 ff", "00 00 00 0a 00 01 07 00 01 00 01 00 01 0a"),
    ("00 00 00 08 00 02 07 00 00 00 01 ff", "00 00 00 0a 00 02 07 00 01 00 01 00 01 14"),
)


def pairs_of(rows: Sequence[Row]) -> Pairs:
    return [(request, reply_to(request, wanted)) for request, wanted in rows]


def check_streams(program: Program) -> None:
    for words, stream, output, status, line in ENDINGS:
        program.check(words, bytes.fromhex(stream), bytes.fromhex(output), status, line)
    turns = [(bytes.fromhex(request), bytes.fromhex(reply)) for request, reply in TURNS]
    check_prefixes(program, "the turns", turns)
    check_turns(program, turns)
    check_alone(program, turns)
    check_long_frames(program)
    check_prefixes(program, "a graph on a delay", pairs_of(graph_before_and_after_ageing()))
    check_prefixes(program, "pictures in long bodies", pairs_of(pictures_in_long_bodies()))


def check_long_frames(program: Program) -> None:
    """Sends frames above 2^27 bytes, and of the greatest length, with zeros after their ops,
    followed by OpenContext."""
    opened, then = bytes.fromhex("00 00 00 03 00 07 01"), "00 00 00 04 00 07 01 00"
    for words, head, reply in (
        ("a body above 2^27 bytes for an op that has none", "08 00 00 01 00 07 01",
         "00 00 00 04 00 07 01 02"),
        ("the longest frame, an op that isn't known", "20 00 00 00 00 07 c8",
         "00 00 00 04 00 07 c8 02"),
        ("the longest frame, WriteImagePgm", "20 00 00 00 00 07 06", "00 00 00 04 00 07 06 03"),
    ):
        front = bytes.fromhex(head)
        length = 4 + int.from_bytes(front[:4], "big") + len(opened)
        *got, _ = program.run_on_file(front, length, opened)
        wanted = [0, bytes.fromhex(reply + then), b""]
        check(got == wanted, f"{words}: {got}, not {wanted}")


def check_prefixes(program: Program, words: str, pairs: Pairs) -> None:
    """Sends each prefix of a stream. The replies to its complete frames must be there. The stream
    counts as truncated unless the prefix ends between frames."""
    stream, ends = b"".join(request for request, _ in pairs), {0: b""}
    for request, reply in pairs:
        ends[max(ends) + len(request)] = ends[max(ends)] + reply
    for length in range(len(stream) + 1):
        output = ends[max(end for end in ends if end <= length)]
        program.check(f"the first {length} bytes of {words}", stream[:length], output,
                      *((0, b"") if length in ends else TRUNCATED))


def check_turns(program: Program, turns: Pairs) -> None:
    """Checks that each reply is there before any byte of the next request is sent. Requests are
    sent one byte at a time."""
    process = subprocess.Popen([program.path, "serve"], stdin=subprocess.PIPE,
                               stdout=subprocess.PIPE, bufsize=0)
    assert process.stdin is not None and process.stdout is not None
    for request, reply in turns:
        for byte in request:
            process.stdin.write(bytes([byte]))
        got = b""
        while len(got) < len(reply):
            part = process.stdout.read(len(reply) - len(got))
            check(part, f"in turns: it ended at {shown(request)}")
            got += part
        check(got == reply, f"in turns: {shown(got)}, not {shown(reply)}")
    process.stdin.close()
    check(process.stdout.read() == b"" and process.wait() == 0,
          "in turns: more than the replies came")


def check_alone(program: Program, turns: Pairs) -> None:
    """Each client's replies are those of the stream without the other's frames."""
    for client in (1, 2):
        own = [pair for pair in turns if int.from_bytes(pair[0][4:6], "big") == client]
        program.check(f"the turns of client {client} alone",
                      b"".join(request for request, _ in own),
                      b"".join(reply for _, reply in own))
