"""Counts the vector instructions of the kernels in a built program.

A kernel of lane_rows is small, so the compiler inlines it, and no symbol separates its instructions
from others. The check therefore counts each kernel's characteristic instruction in all functions of
the program except the standard library's. If there are fewer than in the table, the kernel is no
longer vectorized, or it uses other instructions and the table must be updated. For `pand`, `por`
and `pxor`, which other kernels have too, the count means little.
"""

import re
import shutil
import subprocess
import sys
from collections import Counter
from typing import Iterable, NamedTuple

FUNCTION = re.compile(r"^[0-9a-f]+ <(.*)>:$")
# The name without the v of AVX. On aarch64, the type of the result's lanes follows.
INSTRUCTION = re.compile(r"^ +[0-9a-f]+:\s+v?([a-z0-9]+)(?:\s+v\d+(\.\w+))?")
LIBRARY = re.compile(r"^(core|io|libc|memchr|os|std|std_\w+)::")

OWN = ""
WINDOWS = "window_kernels::"


class Kernel(NamedTuple):
    """A kernel's characteristic instruction. There must be at least `least` of it in the functions
    whose names contain `word`."""

    name: str
    instruction: str
    least: int
    word: str = OWN


KERNELS = [
    Kernel("and_u8", "pand", 1),
    Kernel("or_u8", "por", 1),
    Kernel("xor_u8, not_u8", "pxor", 1),
    Kernel("add_u8, wrapping", "paddb", 1),
    Kernel("add_u8, saturating", "paddusb", 1),
    Kernel("sub_u8, wrapping", "psubb", 1),
    Kernel("sub_u8, saturating", "psubusb", 1),
    Kernel("min_u8, absdiff_u8", "pminub", 1),
    Kernel("max_u8, absdiff_u8", "pmaxub", 1),
    Kernel("add_s16, wrapping", "paddw", 1),
    Kernel("add_s16, saturating", "paddsw", 1),
    Kernel("sub_s16, absdiff_s16, saturating", "psubsw", 1),
    Kernel("min_s16", "pminsw", 1),
    Kernel("max_s16", "pmaxsw", 1),
    Kernel("mul_u8, mul_s16", "pmullw", 1),
    Kernel("mul_s16", "pmulhw", 1),
    Kernel("threshold_s16", "pcmpgtw", 1),
    Kernel("threshold_u8, threshold_s16", "pblendvb", 1),
    Kernel("shift_up", "psllw", 1),
    Kernel("narrow", "psraw", 1),
    Kernel("accumulate, accumulate_square", "pminuw", 1),
    Kernel("accumulate_square", "psrlw", 1),
    # Only Convolution scales, so these instructions are in its function.
    Kernel("scale_u8, scale_s16", "psrad", 1, WINDOWS),
    Kernel("scale_u8", "packuswb", 1, WINDOWS),
    Kernel("scale_s16", "packssdw", 1, WINDOWS),
    # Multiplies sixteen numbers and adds neighbouring products, in half the time of single 32-bit
    # products.
    Kernel("convolution", "pmaddwd", 4, WINDOWS),
    Kernel("convolution, by single products", "pmulld", 0, WINDOWS),
]

FOR_AARCH64 = [
    Kernel("and_u8", "and.16b", 1),
    Kernel("or_u8", "orr.16b", 1),
    Kernel("xor_u8", "eor.16b", 1),
    Kernel("not_u8", "mvn.16b", 1),
    Kernel("add_u8, wrapping", "add.16b", 1),
    Kernel("add_u8, saturating", "uqadd.16b", 1),
    Kernel("sub_u8, wrapping", "sub.16b", 1),
    Kernel("sub_u8, saturating", "uqsub.16b", 1),
    Kernel("absdiff_u8", "uabd.16b", 1),
    Kernel("min_u8", "umin.16b", 1),
    Kernel("max_u8", "umax.16b", 1),
    Kernel("add_s16, wrapping", "add.8h", 1),
    Kernel("add_s16, saturating", "sqadd.8h", 1),
    Kernel("sub_s16, wrapping", "sub.8h", 1),
    Kernel("sub_s16, absdiff_s16, saturating", "sqsub.8h", 1),
    Kernel("min_s16", "smin.8h", 1),
    Kernel("max_s16", "smax.8h", 1),
    Kernel("mul_u8", "umull.8h", 1),
    Kernel("mul_s16", "smull.4s", 1),
    Kernel("threshold_u8", "cmhi.16b", 1),
    Kernel("threshold_s16", "cmgt.8h", 1),
    Kernel("shift_up", "ushl.8h", 1),
    Kernel("narrow", "sshl.8h", 1),
    Kernel("narrow, saturating", "sqxtun.8b", 1),
    Kernel("accumulate, accumulate_square", "umin.8h", 1),
    Kernel("erode3, median3", "umin.16b", 4, WINDOWS),
    Kernel("dilate3, median3", "umax.16b", 4, WINDOWS),
    Kernel("box3, gaussian3, sobel3", "add.8h", 4, WINDOWS),
    Kernel("scale_u8, scale_s16", "sshl.4s", 1, WINDOWS),
    Kernel("scale_s16", "sqxtn.4h", 1, WINDOWS),
    Kernel("convolution", "smlal.4s", 4, WINDOWS),
]
# The machine in the header of a program, with the kernels' instructions and a disassembler.
AARCH64 = (183).to_bytes(2, "little")
MACHINES = {AARCH64: (FOR_AARCH64, "aarch64-linux-gnu-objdump")}

Counts = dict[str, Counter[str]]


def counted(lines: Iterable[str]) -> Counts:
    """Returns the number of each instruction in each function of a disassembly."""
    counts: Counts = {}
    function = ""
    for line in lines:
        if start := FUNCTION.match(line):
            function = start[1]
        elif (found := INSTRUCTION.match(line)) and "::" in function:
            if not LIBRARY.match(function):
                counts.setdefault(function, Counter())[found[1] + (found[2] or "")] += 1
    return counts


def wrong(counts: Counts, kernels: Iterable[Kernel]) -> list[str]:
    """Returns a line for each kernel that isn't vectorized as it should be."""
    lines = []
    for kernel in kernels:
        there = sum(of[kernel.instruction] for name, of in counts.items() if kernel.word in name)
        if there < kernel.least or kernel.least == 0 < there:
            wanted = f"at least {kernel.least}" if kernel.least else "none"
            lines.append(f"{kernel.name}: {there} {kernel.instruction}, and not {wanted}")
    return lines


def planted(counts: Counts, kernel: Kernel) -> Counts:
    """Returns the counts of a program in which this kernel is scalar."""
    if kernel.least == 0:
        return {**counts, f"{kernel.word}planted": Counter({kernel.instruction: 1})}
    return {
        name: Counter({word: n for word, n in of.items() if word != kernel.instruction})
        for name, of in counts.items()
    }


def main() -> None:
    arguments = [word for word in sys.argv[1:] if word != "--faults"]
    if len(arguments) != 1:
        sys.exit("usage: tools/check_lanes [--faults] PROGRAM")
    with open(arguments[0], "rb") as file:
        machine = file.read(20)[18:]
    kernels, disassembler = MACHINES.get(machine, (KERNELS, "objdump"))
    if shutil.which(disassembler) is None:
        print(f"vector instructions not counted: no {disassembler}")
        return
    command = [disassembler, "-d", "--no-show-raw-insn", arguments[0]]
    listing = subprocess.run(command, check=True, capture_output=True, text=True).stdout
    counts = counted(listing.splitlines())
    if "--faults" in sys.argv:
        hidden = [k.name for k in kernels if not wrong(planted(counts, k), [k])]
        print(f"{len(kernels) - len(hidden)} of {len(kernels)} planted kernels are found")
        sys.exit("\n".join(f"not found: {name}" for name in hidden) or None)
    lines = wrong(counts, kernels)
    print(f"{len(kernels) - len(lines)} of {len(kernels)} kernels run in their lanes")
    sys.exit("\n".join(lines) or None)
