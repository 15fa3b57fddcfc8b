"""Refuses each allocation of the program in turn."""

import os
import subprocess
import sys
from itertools import accumulate
from typing import List, NamedTuple, Tuple

from feqyldan import wire

Ended = subprocess.CompletedProcess[bytes]


def check(condition: object, what: str) -> None:
    if not condition:
        sys.exit(f"refused_growths: {what}")


class Refusing(NamedTuple):
    """A program with a preloaded library that refuses growths."""

    command: List[str]
    library: str
    # The file to which the library writes its counts.
    counts: str

    def run(self, stream: bytes, refused: int = 0, again: bool = False) -> Ended:
        """Runs the program on a stream, and refuses the growth with this number (0: none). With
        `again`, also refuses each later growth of the same size or less, until a reply is
        written."""
        environment = dict(os.environ, LD_PRELOAD=self.library, REFUSE_GROWTH=str(refused),
                           GROWTHS=self.counts, **({"REFUSE_AGAIN": "1"} if again else {}))
        return subprocess.run(self.command, input=stream, capture_output=True, env=environment,
                              timeout=60)

    def counted(self) -> Tuple[int, int]:
        """Returns the number of growths in the last run, and the bytes written before the
        refusal."""
        with open(self.counts) as text:
            growths, written = text.read().split()
        return int(growths), int(written)


NOT_STARTED = -1
# Requests that take no memory.
NEVER_LOST = {
    wire.RELEASE_CONTEXT, wire.QUERY_IMAGE, wire.READ_IMAGE, wire.READ_IMAGE_PGM, wire.SET_VALID,
    wire.RELEASE, wire.READ_MIN_MAX, wire.REMOVE_NODE, wire.IMMEDIATE, wire.AGE_DELAY}


class Refused(NamedTuple):
    """The effect of one refused growth."""

    # The frame that was being answered, or NOT_STARTED.
    frame: int
    is_lost: bool


def op_of(frame: bytes) -> int:
    return frame[6]


def answers(program: Refusing, stream: List[bytes]) -> List[bytes]:
    """Returns the replies to a stream without refusals."""
    ended = program.run(b"".join(stream))
    check(ended.returncode == 0, f"with ample memory: status {ended.returncode}")
    return wire.replies(ended.stdout)


def refuse(program: Refusing, stream: List[bytes], whole: List[bytes], number: int,
           again: bool) -> Refused:
    """Refuses one growth, once or repeatedly. If the program needs it, exactly one reply must be
    NO_MEMORY, and all others those of the stream without that frame. If it continues without the
    growth, all replies must be those of the stream."""
    ended = program.run(b"".join(stream), number, again)
    if ended.returncode == 5:
        check(ended.stdout == b"" and ended.stderr == b"NO_MEMORY\n",
              f"growth {number}: status 5 with {ended.stderr!r}")
        return Refused(NOT_STARTED, True)
    check(ended.returncode == 0, f"growth {number}: status {ended.returncode}, {ended.stderr!r}")
    got = wire.replies(ended.stdout)
    check(len(got) == len(stream), f"growth {number}: {len(got)} replies to {len(stream)} frames")
    before = program.counted()[1]
    k = sum(end <= before for end in accumulate(map(len, whole)))
    if got == whole:
        return Refused(k, False)
    lost = [at for at, reply in enumerate(got) if wire.code_of(reply) == wire.NO_MEMORY]
    check(lost == [k], f"growth {number}, of frame {k}: frames {lost} are lost")
    check(op_of(stream[k]) not in NEVER_LOST,
          f"growth {number}: frame {k} is lost, which takes no memory")
    check(got[:k] + got[k + 1 :] == answers(program, stream[:k] + stream[k + 1 :]),
          f"growth {number}: frame {k} left a trace")
    resent = program.run(b"".join(stream[: k + 1] + stream[k:]), number, again)
    check(wire.replies(resent.stdout) == got[: k + 1] + whole[k:],
          f"growth {number}: frame {k} sent again")
    return Refused(k, True)


def refuse_each(program: Refusing, stream: List[bytes], again: bool) -> List[Refused]:
    """Refuses each growth of a stream in turn, from the start of the program on."""
    whole = answers(program, stream)
    check(all(wire.code_of(reply) != wire.NO_MEMORY for reply in whole),
          "with ample memory: a reply is NO_MEMORY")
    growths = program.counted()[0]
    return [refuse(program, stream, whole, number, again) for number in range(1, growths + 1)]


def refuse_in_apply(program: Refusing) -> Tuple[int, int]:
    """Returns the number of refused growths of `apply`, and of those that it continued without."""
    text = b"P2 30 20 255" + b" 9" * 600
    whole = program.run(text)
    check((whole.returncode, whole.stderr) == (0, b""), f"apply with ample memory: {whole}")
    growths = program.counted()[0]
    ended = [program.run(text, number) for number in range(1, growths + 1)]
    for number, got in enumerate(ended, 1):
        answer = (got.returncode, got.stdout, got.stderr)
        check(answer in ((5, b"", b"NO_MEMORY\n"), (0, whole.stdout, b"")),
              f"growth {number} of apply: {answer}")
    check(any(got.returncode for got in ended), "no growth of apply was refused")
    return growths, sum(got.returncode == 0 for got in ended)
