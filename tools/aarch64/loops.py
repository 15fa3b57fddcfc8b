"""Lists the inner loops of a program for aarch64: what each one loads, computes and stores.

An inner loop is a backward jump within a function that encloses no other one. A *vector* loop has
instructions on 16-byte registers; any other loop is scalar.
"""

import re
import subprocess
import sys
from collections import Counter
from typing import Dict, Iterable, Iterator, List, NamedTuple, Optional, Tuple

DISASSEMBLER = "aarch64-linux-gnu-objdump"
FUNCTION = re.compile(r"^[0-9a-f]+ <(.*)>:$")
INSTRUCTION = re.compile(r"^ +([0-9a-f]+):\s+(\S+)(?:\s+(.*))?$")
JUMP = re.compile(r"(?:b|b\..*|cbn?z|tbn?z)$")
TARGET = re.compile(r"(?:^|, )([0-9a-f]+) <")
# A whole vector register in a load or a store, and a vector of lanes in any instruction.
WHOLE, LANES = re.compile(r"\bq\d+"), re.compile(r"\bv\d+\.(\d+[bhsd])\b")
BYTES = {"b": 1, "h": 2, "w": 4, "x": 8, "s": 4, "d": 8, "q": 16}


class Instruction(NamedTuple):
    address: int
    name: str
    operands: str

    def jumps_to(self) -> Optional[int]:
        found = TARGET.search(self.operands) if JUMP.match(self.name) else None
        return int(found[1], 16) if found else None

    def moved(self) -> int:
        """Returns how many bytes a load or a store moves."""
        if self.name.startswith(("ld1", "st1", "ld2", "st2")):
            return 16 * len(LANES.findall(self.operands.partition("[")[0]))
        registers = self.operands.partition("[")[0].rstrip(", ").split(", ")
        narrow = {"b": 1, "h": 2}.get(self.name[-1], 0) if self.name[3:] in (
            "b", "h", "sb", "sh", "ub") else 0
        return sum(narrow or BYTES.get(name[:1], 0) for name in registers)


class Loop(NamedTuple):
    function: str
    body: List[Instruction]

    def bytes_of(self, kind: str) -> int:
        return sum(it.moved() for it in self.body if it.name.startswith(kind))

    def lanes(self) -> Dict[str, int]:
        """Returns how often each vector instruction occurs, with the type of its lanes."""
        found = ((it.name, LANES.search(it.operands)) for it in self.body)
        counts = Counter(f"{name}.{lanes[1]}" for name, lanes in found if lanes)
        return dict(counts.most_common())

    def is_vector(self) -> bool:
        return any(LANES.search(it.operands) or WHOLE.search(it.operands) for it in self.body)


def functions(lines: Iterable[str]) -> Iterator[Tuple[str, List[Instruction]]]:
    name = ""
    body: List[Instruction] = []
    for line in lines:
        if start := FUNCTION.match(line):
            yield name, body
            name, body = start[1], []
        elif found := INSTRUCTION.match(line):
            body.append(Instruction(int(found[1], 16), found[2], found[3] or ""))
    yield name, body


def inner_loops(name: str, body: List[Instruction]) -> List[Loop]:
    """Returns the loops of a function that enclose no other loop."""
    first = body[0].address if body else 0
    spans = sorted({(target, it.address) for it in body
                    if (target := it.jumps_to()) is not None and first <= target <= it.address})
    return [Loop(name, [it for it in body if start <= it.address <= end]) for start, end in spans
            if not any((start, end) != other and start <= other[0] and other[1] <= end
                       for other in spans)]


def row(loop: Loop) -> str:
    stored, count = loop.bytes_of("st"), len(loop.body)
    kind = "vector" if loop.is_vector() else "scalar"
    each = f"{count / stored:.2f}" if stored else "-"
    lanes = " ".join(f"{n} {name}" if n > 1 else name for name, n in loop.lanes().items())
    return (f"{loop.body[0].address:8x}  {kind}  {count:4} instructions"
            f"  loads {loop.bytes_of('ld'):4}  stores {stored:4}  {each:>5} a byte  {lanes}")


def main() -> None:
    if len(sys.argv) != 3:
        sys.exit("usage: tools/inner_loops PROGRAM WORD")
    command = [DISASSEMBLER, "-d", "--no-show-raw-insn", sys.argv[1]]
    listing = subprocess.run(command, check=True, capture_output=True, text=True).stdout
    for name, body in functions(listing.splitlines()):
        if sys.argv[2] in name:
            loops = inner_loops(name, body)
            print("\n".join([name, *(f"  {row(loop)}" for loop in loops)]))
