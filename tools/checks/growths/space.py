"""Limits the program's address space, and lets images use it up before functions run."""

import subprocess
from typing import List

from feqyldan import wire
from feqyldan.wire import Function, reference
from checks.growths.refusing import check

CLIENT = 1
# Limits of the address space in KiB, over the size of an image. What the images leave of it thereby
# varies, by less than the stack that a function needs.
LIMITS = range(20_000, 21_000, 16)
SIDE, COUNT = 1000, 40
# Two images of U8, two of S16, one of U32, and a convolution.
IN, OUT, WIDE, OTHER, SUMS, KERNEL = (reference(name) for name in range(1, 7))


def requests() -> List[bytes]:
    """Creates operands, then more images than there is space for."""
    operands = [wire.create_image(CLIENT, fmt, 8, 8)
                for fmt in (wire.U8, wire.U8, wire.S16, wire.S16, wire.U32)]
    return [wire.open_context(CLIENT), *operands,
            wire.create_convolution(CLIENT, 9, 9, 4, [1] * 81),
            *[wire.create_image(CLIENT, wire.U8, SIDE, SIDE)] * COUNT]


def runs() -> List[bytes]:
    """Runs functions that have rows on the stack."""
    return [*(wire.immediate(CLIENT, function, IN, None, OUT) for function in (
                Function.NOT_BITS, Function.BOX, Function.GAUSSIAN, Function.MEDIAN,
                Function.ERODE, Function.DILATE)),
            wire.immediate(CLIENT, Function.SOBEL, IN, None, WIDE, out2=OTHER),
            wire.immediate(CLIENT, Function.CONVOLVE, IN, KERNEL, WIDE),
            wire.immediate(CLIENT, Function.INTEGRAL, IN, None, SUMS)]


def check_space(program: str) -> str:
    """Under each limit images are refused, and functions run: the program has its stack before the
    images."""
    stream, last = b"".join([*requests(), *runs()]), len(runs())
    with open(program, "rb") as file:
        if file.read(2) == b"#!":
            return "an emulator's address space isn't limited"
    for limit in LIMITS:
        ended = subprocess.run(
            ["sh", "-c", 'ulimit -v "$0" && exec "$@"', str(limit), program, "serve"],
            input=stream, capture_output=True, timeout=60)
        words = f"with an address space of {limit} KiB it"
        check(ended.returncode == 0, f"{words} ends with status {ended.returncode}")
        codes = [*map(wire.code_of, wire.replies(ended.stdout))]
        check(wire.NO_MEMORY in codes[:-last] and codes[-last:] == [wire.SUCCESS] * last,
              f"{words} gives the codes {codes}")
    return f"functions run under {len(LIMITS)} limits of the address space"
