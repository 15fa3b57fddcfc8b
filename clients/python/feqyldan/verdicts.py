"""
Finds the fault of a graph. The server only returns a status code for a graph that can't run. Here
the fault is found again from the operands of the nodes, by the rules in docs/wire.md under
"Verdicts". If these rules give another code, or none, nothing is reported.
"""

from __future__ import annotations

from typing import (
    Any, Callable, Dict, FrozenSet, List, NamedTuple, Optional, Sequence, Set, Tuple)

from . import wire
from .errors import Fault
from .functions import OPERANDS, Call, parameters_of
from .objects import in_words
from .samples import Format

U8, S16, U32 = Format.U8, Format.S16, Format.U32
# The formats of in1, of in2 and of an output; None for an operand that is absent or has no format.
Formats = Tuple[Optional[Format], Optional[Format], Optional[Format]]
_BITS: FrozenSet[Formats] = frozenset({(U8, U8, U8)})
_ALIKE: FrozenSet[Formats] = frozenset({(U8, U8, U8), (S16, S16, S16)})
_SUMS: FrozenSet[Formats] = frozenset({(U8, U8, U8),
                                       *((one, other, S16) for one in (U8, S16)
                                         for other in (U8, S16))})
_BYTES: FrozenSet[Formats] = frozenset({(U8, None, U8)})
# The functions that add to their output.
ADDING = frozenset({"accumulate", "accumulate_square"})
# The combinations of formats that each function takes.
TAKEN: Dict[str, FrozenSet[Formats]] = {
    **dict.fromkeys(("and_", "or_", "xor"), _BITS),
    **dict.fromkeys(("absdiff", "min", "max", "table_lookup"), _ALIKE),
    **dict.fromkeys(("add", "subtract", "multiply"), _SUMS),
    **dict.fromkeys(("not_", "box3x3", "gaussian3x3", "median3x3", "erode3x3", "dilate3x3"),
                    _BYTES),
    "threshold": frozenset({(U8, U8, U8), (S16, S16, U8)}),
    "convert_depth": frozenset({(U8, None, S16), (S16, None, U8)}),
    **dict.fromkeys(("sobel3x3", *ADDING), frozenset({(U8, None, S16)})),
    "convolve": frozenset({(U8, None, U8), (U8, None, S16)}),
    "histogram": frozenset({(U8, None, None)}), "integral_image": frozenset({(U8, None, U32)}),
    "min_max_loc": frozenset({(U8, None, None), (S16, None, None)}),
}
# What in2 is, in words, for functions where it is no image. It has the format of in1.
_PARAMETERS = {"threshold": "the threshold", "table_lookup": "the table"}
# The format of a virtual output that leaves it open. For other functions it is the format of in1.
OPENED = {
    **dict.fromkeys(("and_", "or_", "xor", "not_", "threshold", "box3x3", "gaussian3x3",
                     "median3x3", "erode3x3", "dilate3x3"), U8),
    **dict.fromkeys(("add", "subtract", "multiply", "sobel3x3", "convolve", *ADDING), S16),
    "integral_image": U32,
}


def formats_in_words(function: str) -> str:
    """Returns the combinations of formats that a function takes, in words."""
    outputs = sorted({formats[2] for formats in TAKEN[function]}, key=lambda fmt: fmt or 0)
    words = "; ".join(f"{_inputs_in_words(function, output)}{f' to {output}' if output else ''}"
                      for output in outputs)
    if function in _PARAMETERS:
        words += f"; {_PARAMETERS[function]} has the input's format"
    return words


def _inputs_in_words(function: str, output: Optional[Format]) -> str:
    """Returns the input formats for a format of the output, in words."""
    pairs = sorted((one or 0, 0 if other is None or function in _PARAMETERS else other)
                   for one, other, out in TAKEN[function] if out == output)
    if len(pairs) == 4:
        return "each U8 or S16,"
    return " or ".join(" and ".join(str(Format(fmt)) for fmt in pair if fmt) for pair in pairs)


def parameter_for(function: str, fmt: Optional[Format], other: Optional[Format]) -> str:
    """Returns in words how to create the threshold or the table for an input of the format `fmt`,
    if the given one has another format; else an empty text."""
    if function not in _PARAMETERS or fmt == other or fmt not in (U8, S16):
        return ""
    makes = {"threshold": "threshold", "table_lookup": "lut"}[function]
    return f"; context.{makes}(vx.{fmt}, ..) makes one for this input"


def narrowing_for(function: str, fmt: Optional[Format]) -> str:
    """Returns in words how to make U8 of an S16 input, if a function takes U8 alone; else an empty
    text."""
    if fmt != S16 or any(formats[0] == S16 for formats in TAKEN[function]):
        return ""
    return "; convert_depth(image, out, vx.SATURATE, shift) makes U8 of an S16 image"


class Cell(NamedTuple):
    """
    An operand of a node: an object, or the image in a slot of a delay. Its reference identifies it.
    The format and the size are None if the operand has none, or if a virtual image leaves them
    open.
    """

    reference: bytes
    words: str
    is_virtual: bool
    is_image: bool
    fmt: Optional[Format]
    width: Optional[int]
    height: Optional[int]


class Member(NamedTuple):
    """A node of a graph with its operands; an operand that the function doesn't have is None."""

    number: int
    function: str
    words: str
    in1: Cell
    in2: Optional[Cell]
    outputs: Tuple[Cell, ...]
    # The parameters of the inputs and outputs, in this order.
    parameters: Tuple[str, ...]

    @property
    def inputs(self) -> List[Cell]:
        return [cell for cell in (self.in1, self.in2) if cell is not None]

    @property
    def operands(self) -> List[Tuple[str, Cell]]:
        """The inputs and outputs, each with its parameter."""
        return list(zip(self.parameters, (*self.inputs, *self.outputs)))

    def writes(self, reference: bytes) -> bool:
        """Returns whether the node writes the object of a reference."""
        return any(cell.reference == reference for cell in self.outputs)

    def __str__(self) -> str:
        return f"node {self.number}, {self.words}"


class Verdict(NamedTuple):
    code: int
    fault: Fault


def member_of(number: int, call: Call) -> Member:
    in1, in2, *outputs = (None if operand is None else _cell_of(operand)
                          for operand in call.operands)
    assert in1 is not None
    parameters = (parameter for parameter in parameters_of(call.name) if parameter in OPERANDS
                  and call.operands[OPERANDS[parameter]] is not None)
    return Member(number, call.name, str(call), in1, in2,
                  tuple(cell for cell in outputs if cell is not None), tuple(parameters))


def _cell_of(operand: Any) -> Cell:
    width, height = getattr(operand, "width", None), getattr(operand, "height", None)
    is_virtual = operand._is_virtual
    return Cell(operand._reference, str(operand), is_virtual, is_virtual or width is not None,
                getattr(operand, "fmt", None), width, height)


def explained(code: int, members: Sequence[Member], work: Optional[int]) -> Fault:
    """Returns the fault of a graph of these nodes, which the server refused with `code`; empty if
    the fault isn't known. `work` is the limit in bytes, or None if it isn't known."""
    verdict = verdict_on(members, code, work)
    return verdict.fault if verdict is not None and verdict.code == code else Fault()


def verdict_on(members: Sequence[Member], refused_with: int = wire.SUCCESS,
               work: Optional[int] = None) -> Optional[Verdict]:
    """
    Returns the first fault of a graph, or None. Only the server knows whether a graph takes too
    many bytes, so that fault is found only if the server refused the graph with its code.
    """
    fault = _two_writers(members)
    if fault is not None:
        return Verdict(wire.MULTIPLE_WRITERS, fault)
    ordered, cycle = _ordered(members)
    if cycle:
        words = f"These nodes form a cycle: {'; '.join(map(str, cycle))}."
        return Verdict(wire.INVALID_GRAPH, Fault(words, tuple(member.number for member in cycle)))
    fault = _loose_end(members)
    if fault is not None:
        return Verdict(wire.INVALID_LINK, fault)
    known = _descriptions(ordered)
    for member in members:
        verdict = _fault_of(member, known, members)
        if verdict is not None:
            return verdict
    if refused_with == wire.NO_RESOURCES:
        limit = "more than its work bytes" if work is None else f"and its work bytes are {work:,}"
        return Verdict(wire.NO_RESOURCES, Fault(
            f"Its virtual images need {_virtual_bytes(known):,} bytes, {limit}."))
    return None


def in_order(members: Sequence[Member]) -> List[Member]:
    """Returns the nodes of a graph without faults, each after the nodes whose outputs it reads."""
    return _ordered(members)[0]


def resolved(members: Sequence[Member]) -> Dict[bytes, Cell]:
    """Returns the resolved description of each operand of a graph without faults, by reference."""
    return _descriptions(in_order(members))


def _two_writers(members: Sequence[Member]) -> Optional[Fault]:
    """Returns which two nodes write the same object; None if none do."""
    writers: Dict[bytes, Member] = {}
    for member in members:
        for parameter, cell in member.operands[len(member.inputs):]:
            other = writers.setdefault(cell.reference, member)
            if other is not member:
                return Fault(f"{cell.words} is written by {other}, and by {member}.",
                             (other.number, member.number), parameter)
            if sum(output.reference == cell.reference for output in member.outputs) > 1:
                return Fault(f"{cell.words} is written twice by {member}.", (member.number,),
                             member.parameters[-1])
    return None


def _ordered(members: Sequence[Member]) -> Tuple[List[Member], List[Member]]:
    """Returns the nodes, each after the nodes whose outputs it reads, and an empty list; or an
    empty list and a cycle of nodes, if there is one."""
    writers = {cell.reference: member for member in members for cell in member.outputs}
    ordered: List[Member] = []
    done: Set[int] = set()
    left = list(members)
    while left:
        ready = [member for member in left
                 if all(writers[cell.reference].number in done
                        for cell in member.inputs if cell.reference in writers)]
        if not ready:
            return [], _cycle_among(left, writers)
        ordered += ready
        done.update(member.number for member in ready)
        left = [member for member in left if member.number not in done]
    return ordered, []


def _cycle_among(left: Sequence[Member], writers: Dict[bytes, Member]) -> List[Member]:
    """Returns a cycle of nodes, each of which writes an object that the next one reads."""
    numbers = {member.number for member in left}
    path = [left[0]]
    while path[-1] not in path[:-1]:
        path.append(next(writers[cell.reference] for cell in path[-1].inputs
                         if cell.reference in writers
                         and writers[cell.reference].number in numbers))
    return path[:path.index(path[-1]):-1]


def _loose_end(members: Sequence[Member]) -> Optional[Fault]:
    """Returns which virtual image is read or added to but not written; None if there is none."""
    written = {cell.reference for member in members for cell in member.outputs}
    operands = [(member, parameter, cell, at >= len(member.inputs)) for member in members
                for at, (parameter, cell) in enumerate(member.operands) if cell.is_virtual]
    unwritten = (Fault(f"{cell.words} is read by {member}, and written by no node.",
                       (member.number,), parameter)
                 for member, parameter, cell, is_output in operands
                 if not is_output and cell.reference not in written)
    sums = (Fault(f"{cell.words} has no samples before a run, so {member}, has nothing to add to.",
                  (member.number,), parameter)
            for member, parameter, cell, is_output in operands
            if is_output and member.function in ADDING)
    return next((fault for faults in (unwritten, sums) for fault in faults), None)


def _descriptions(ordered: Sequence[Member]) -> Dict[bytes, Cell]:
    """Returns the description of each operand. Those of virtual images are resolved from their
    writers."""
    known: Dict[bytes, Cell] = {}
    for member in ordered:
        in1 = known.setdefault(member.in1.reference, member.in1)
        if member.in2 is not None:
            known.setdefault(member.in2.reference, member.in2)
        for cell in member.outputs:
            known[cell.reference] = _closed(cell, member.function, in1) if cell.is_virtual else cell
    return known


def _closed(cell: Cell, function: str, in1: Cell) -> Cell:
    """Returns the resolved description of a virtual image that a function writes."""
    opened = OPENED.get(function, in1.fmt)
    if function == "convert_depth":
        opened = U8 if in1.fmt == S16 else S16
    return cell._replace(fmt=cell.fmt or opened, width=cell.width or in1.width,
                         height=cell.height or in1.height)


def _fault_of(member: Member, known: Dict[bytes, Cell],
              members: Sequence[Member]) -> Optional[Verdict]:
    """Returns the fault of a single node, or None."""
    in1 = known[member.in1.reference]
    in2 = None if member.in2 is None else known[member.in2.reference]
    node = f"{str(member)[0].upper()}{str(member)[1:]}"
    everything = [*member.inputs, *member.outputs]
    for parameter, output in member.operands[len(member.inputs):]:
        formats = in1.fmt, None if in2 is None else in2.fmt, known[output.reference].fmt
        if formats not in TAKEN[member.function]:
            at = _not_taken(member.function, formats)
            found = _found(member.inputs[: at + 1] if at < 2 else everything, known, members,
                           _of_format)
            takes = (f"{member.function} takes {formats_in_words(member.function)}"
                     f"{parameter_for(member.function, *formats[:2])}"
                     f"{'' if found else narrowing_for(member.function, in1.fmt)}")
            operand = (*member.parameters[:2], parameter)[at]
            return Verdict(wire.INVALID_FORMAT, Fault(f"{node}: {takes}.{found}", (member.number,),
                                                      operand))
    for parameter, other in member.operands[1:]:
        cell = known[other.reference]
        if cell.is_image and (cell.width, cell.height) != (in1.width, in1.height):
            found = _found(everything, known, members, _of_size)
            words = f"{node}, has images of different sizes.{found}"
            return Verdict(wire.INVALID_DIMENSION, Fault(words, (member.number,), parameter))
    return None


def _not_taken(function: str, formats: Formats) -> int:
    """Returns the index of the first format that doesn't go with those before it: 0 for in1, 1 for
    in2, 2 for the output."""
    return next(at for at in range(3) if not any(
        taken[: at + 1] == formats[: at + 1] for taken in TAKEN[function]))


def _of_format(cell: Cell) -> Any:
    return cell.fmt


def _of_size(cell: Cell) -> Any:
    return cell.width, cell.height


def _found(cells: Sequence[Cell], known: Dict[bytes, Cell], members: Sequence[Member],
           part: Callable[[Cell], Any]) -> str:
    """Returns in words how a part of the descriptions of virtual images among the cells was
    resolved, and why: the format or the size."""
    writers = {cell.reference: other for other in members for cell in other.outputs}
    opened = {cell.reference: cell for cell in cells if part(cell) != part(known[cell.reference])}
    return "".join(_closing(cell, writers[cell.reference], known, part is _of_format)
                   for cell in opened.values())


def _closing(cell: Cell, writer: Member, known: Dict[bytes, Cell], is_format: bool) -> str:
    """Returns in words what a virtual image gets from its writer, and how to give it another
    format, if that is asked for and possible."""
    now = known[cell.reference]
    resolved_as = in_words(now.fmt, now.width, now.height)
    words = (f" {cell.words[0].upper()}{cell.words[1:]} is {resolved_as}, because node "
             f"{writer.number}, {writer.function}, writes it")
    if is_format:
        inputs = [known[read.reference].fmt for read in (writer.in1, writer.in2) if read]
        as_bytes = (*inputs, *[None] * (2 - len(inputs)), U8)
        is_free = now.fmt != U8 and as_bytes in TAKEN[writer.function]
        words += " and its format is open"
        words += "; graph.virtual_image(vx.U8) has one" if is_free else ""
    return f"{words}."


def overwritten(members: Sequence[Member]) -> List[str]:
    """Returns in words where a node writes an object that a node added earlier reads. The earlier
    node then reads the new samples. Virtual images don't count, because they have no old
    samples."""
    return [f"{reader}, reads {cell.words}, which {writer}, writes. The node that writes runs "
            "first, though it was added later. To read the old samples take two graphs, or "
            "immediate mode; verify(warn=False) is silent"
            for at, writer in enumerate(members) for cell in writer.outputs
            for reader in members[:at] if not cell.is_virtual
            and any(read.reference == cell.reference for read in reader.inputs)]


def _virtual_bytes(known: Dict[bytes, Cell]) -> int:
    """Returns how many bytes of samples the virtual images have together."""
    return sum(cell.fmt.sample_bytes * cell.width * cell.height for cell in known.values()
               if cell.is_virtual and cell.fmt and cell.width and cell.height)
