"""Checks `apply` on PGM texts: its output is the text of one function's result."""

import array
import fcntl
import subprocess
import termios
import time
from typing import IO

from feqyldan import wire
from feqyldan.wire import U8
from checks.sessions.rows import TEN_TO_FORTY
from checks.sessions.texts import FAULTY_TEXTS, TEXTS, raw
from checks.sessions.windows import ONE_TO_NINE, centred
from checks.tables.program import Program, check, shown

SQUARE, COUNT = raw(2, 2, TEN_TO_FORTY), raw(3, 3, ONE_TO_NINE)
# The arguments after `apply`, the input text, and the width, the height and the samples of the
# output.
APPLIED = (
    (("box", "--border", "replicate"), SQUARE, (2, 2, [20, 23, 26, 30])),
    (("box", "--border=replicate"), SQUARE, (2, 2, [20, 23, 26, 30])),
    (("--border", "replicate", "box"), SQUARE, (2, 2, [20, 23, 26, 30])),
    (("box",), SQUARE, (2, 2, [0] * 4)),
    (("box", "--border", "undefined"), SQUARE, (2, 2, [0] * 4)),
    (("not",), raw(2, 1, [10, 20]), (2, 1, [245, 235])),
    *((("not", *border), SQUARE, (2, 2, [245, 235, 225, 215])) for border in (
        (), ("--border", "undefined"), ("--border=undefined",), ("--border", "replicate"))),
    *((words, COUNT, (3, 3, samples)) for function, centre, replicated in (
        ("not", None, [254, 253, 252, 251, 250, 249, 248, 247, 246]),
        ("box", 5, [2, 3, 3, 4, 5, 5, 6, 7, 7]), ("gaussian", 5, [2, 2, 3, 4, 5, 5, 6, 7, 8]),
        ("median", 5, [2, 3, 3, 4, 5, 6, 7, 7, 8]), ("erode", 1, [1, 1, 2, 1, 1, 2, 4, 4, 5]),
        ("dilate", 9, [5, 6, 6, 8, 9, 9, 8, 9, 9]),
    ) for words, samples in (
        ((function, "--border", "replicate"), replicated),
        ((function, "--border=undefined"), centred(centre) if centre else replicated),
        ((function,), centred(centre) if centre else replicated))),
    *((("box", "--border=replicate"), text, (2, 2, [20, 23, 26, 30])) for text in (
        b"P2 # a\n2 2 255 10 20 30 40 # z\n", b"P2 2 2 40 010 20 0030 40",
        b"P5#\r2\t2\r\n40 \x0a\x14\x1e\x28")),
    *(((function, "--border", "replicate"), raw(1, 1, [7]), (1, 1, [7]))
      for function in ("box", "gaussian", "median", "erode", "dilate")),
)

# The longest text that is accepted.
LONGEST = 536_870_912


def check_apply(program: Program) -> None:
    for words, text, (width, height, samples) in APPLIED:
        program.check(f"apply {words} on {text}", text, raw(width, height, samples),
                      words=("apply", *words))
    for text, fmt, width, height, samples in TEXTS:
        turned = raw(width, height, [255 - sample for sample in samples]) if fmt == U8 else b""
        ended = (0, b"") if fmt == U8 else (5, b"INVALID_FORMAT\n")
        program.check(f"apply not on {text}", text, turned, *ended, ("apply", "not"))
    for code, texts in FAULTY_TEXTS.items():
        for text in texts:
            program.check(f"apply on {text}", text, b"", 5, wire.CODES[code].encode() + b"\n",
                          ("apply", "median", "--border=replicate"))
    for words in ("not",), ("box", "--border", "replicate"):
        program.check(f"apply {words} on a picture of S16", b"P2 1 1 300 5", b"", 5,
                      b"INVALID_FORMAT\n", ("apply", *words))
    program.check("apply on the largest picture", b"P5 8192 8192 255\n" + bytes(2**26),
                  b"P5\n8192 8192\n255\n" + b"\xff" * 2**26, words=("apply", "not"))
    check_pieces(program)


def waiting_in(pipe: IO[bytes]) -> int:
    """Returns the number of unread bytes in a pipe."""
    count = array.array("i", [0])
    fcntl.ioctl(pipe, termios.FIONREAD, count)
    return count[0]


def sleeps(process: int) -> bool:
    """Checks if a process is waiting."""
    with open(f"/proc/{process}/stat", encoding="utf-8") as file:
        return file.read().rpartition(")")[2].split()[0] == "S"


def check_pieces(program: Program) -> None:
    """Sends a text in pieces; the program waits for its end."""
    with subprocess.Popen([program.path, "apply", "not"], stdin=subprocess.PIPE,
                          stdout=subprocess.PIPE, bufsize=0) as process:
        assert process.stdin is not None and process.stdout is not None
        for piece in (SQUARE[:1], SQUARE[1:12], SQUARE[12:]):
            process.stdin.write(piece)
            while waiting_in(process.stdin) or not sleeps(process.pid):
                check(process.poll() is None, "apply on pieces: it doesn't wait for the next")
                time.sleep(0.001)
        process.stdin.close()
        output = process.stdout.read()
    check((process.returncode, output) == (0, raw(2, 2, [245, 235, 225, 215])),
          f"apply on pieces: {process.returncode}, {shown(output)}")
    program.runs += 1


def check_longest(program: Program) -> None:
    """Sends texts of the greatest length, and one byte longer. The longer one is refused regardless
    of its contents, which are zeros in a comment. The program reads no byte beyond the limit, and
    waits for none."""
    apply, too_long = ("apply", "not"), (5, b"", b"NO_RESOURCES\n", LONGEST + 1)
    for front, length, end, wanted in (
        (b"P2 1 1 255 5#", LONGEST, b"\n", (0, raw(1, 1, [250]), b"", LONGEST)),
        (b"P5", LONGEST, b"", (5, b"", b"INVALID_FORMAT\n", LONGEST)),
        (b"P2 1 1 255 5#", LONGEST + 1, b"\n", too_long),
        (b"P5 0 1 255\n", LONGEST + 1, b"", too_long),
        (b"", LONGEST + 65_536, b"", too_long),
    ):
        got = program.run_on_file(front, length, end, apply)
        check(got == wanted, f"apply on {front!r} and zeros up to {length} bytes: {got}")
    with subprocess.Popen([program.path, *apply], stdin=subprocess.PIPE, stdout=subprocess.PIPE,
                          stderr=subprocess.PIPE) as process:
        assert process.stdin and process.stdout and process.stderr
        for _ in range(LONGEST // 2**16):
            process.stdin.write(bytes(2**16))
        process.stdin.write(b"\0")
        process.stdin.flush()
        ended = process.wait(timeout=120), process.stdout.read(), process.stderr.read()
    check(ended == too_long[:3], f"a pipe that isn't closed: {ended}")
    program.runs += 1
