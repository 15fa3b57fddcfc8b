"""Plants faults of a wrong band execution into requests and replies."""

import struct
import subprocess
import sys
from typing import Dict, List, NamedTuple, Sequence, Set, Type

from feqyldan import wire
from checks.bands.compared import AS_A_WHOLE, fault_of
from checks.bands.draw import graph_of
from checks.bands.graph import LARGE
from checks.bands.pictures import Rectangle
from checks.lockstep import Server

# The number of graphs within which a fault must be found.
FAULT_GRAPHS = 240
# The row at which a band begins.
EDGE = 16


class Wrongly(Server):
    """Changes replies to the client that runs graphs. Only large images that nodes write are
    changed, because their graphs run in bands."""

    def __init__(self, process: "subprocess.Popen[bytes]") -> None:
        super().__init__(process)
        # Since the client's context was opened: the replies to reads, the images that nodes write,
        # and the number of runs.
        self.before: Dict[bytes, bytes] = {}
        self.written: Set[bytes] = set()
        self.runs = 0

    def answer(self, request: bytes) -> bytes:
        if int.from_bytes(request[4:6], "big") != AS_A_WHOLE:
            return super().answer(request)
        self.note(request)
        if self.is_left_out(request):
            return wire.reply_frame(AS_A_WHOLE, request[6])
        right = super().answer(request)
        if wire.code_of(right) != wire.SUCCESS:
            return right
        reply = self.changed(request, right)
        if len(right) > 8:
            self.before[request] = right
        return reply

    def note(self, request: bytes) -> None:
        if request[6] == wire.OPEN_CONTEXT:
            self.before, self.written, self.runs = {}, set(), 0
        elif request[6] == wire.PROCESS_GRAPH:
            self.runs += 1
        elif request[6] == wire.ADD_NODE:
            self.written |= {request[-10:-5], request[-5:]}

    def is_left_out(self, _: bytes) -> bool:
        """Returns whether this request is dropped."""
        return False

    def concerns(self, cell: bytes) -> bool:
        return cell in self.written

    def changed(self, request: bytes, reply: bytes) -> bytes:
        if request[6] not in (wire.READ_IMAGE, wire.QUERY_IMAGE) or not self.concerns(request[7:]):
            return reply
        fmt, width, height = wire.size_of(reply)
        if width * height < LARGE:
            return reply
        if request[6] == wire.READ_IMAGE:
            return self.image(request, reply, width * wire.sample_bytes(fmt), height)
        left, top, right, bottom = wire.description_of(reply)[3]
        return reply[:13] + struct.pack(">4H", *self.valid(request, (left, top, right, bottom)))

    def image(self, _: bytes, reply: bytes, __: int, ___: int) -> bytes:
        """Returns the changed reply to ReadImage, whose rows have this length and number."""
        return reply

    def valid(self, _: bytes, valid: Rectangle) -> Sequence[int]:
        return valid


def with_row(reply: bytes, length: int, number: int, row: bytes) -> bytes:
    start = 13 + length * number
    return reply[:start] + row + reply[start + length :]


def row_of(reply: bytes, length: int, number: int) -> bytes:
    return reply[13 + length * number : 13 + length * (number + 1)]


class OtherAtEdge(Wrongly):
    """Changes a sample of the first row of a band."""

    def image(self, _: bytes, reply: bytes, length: int, height: int) -> bytes:
        if height <= EDGE:
            return reply
        row = row_of(reply, length, EDGE)
        return with_row(reply, length, EDGE, row[:-1] + bytes([row[-1] ^ 1]))


class RowAbove(Wrongly):
    """Starts a band with the last row of the previous band."""

    def image(self, _: bytes, reply: bytes, length: int, height: int) -> bytes:
        if height <= EDGE:
            return reply
        return with_row(reply, length, EDGE, row_of(reply, length, EDGE - 1))


class BandTwice(Wrongly):
    """Repeats the previous band."""

    def image(self, _: bytes, reply: bytes, length: int, height: int) -> bytes:
        if height < 2 * EDGE:
            return reply
        end = 13 + EDGE * length
        return reply[:end] + reply[13:end] + reply[end + EDGE * length :]


class NoLastRow(Wrongly):
    """Drops the last row if the height isn't a multiple of the band height."""

    def image(self, _: bytes, reply: bytes, length: int, height: int) -> bytes:
        if height <= EDGE or height % EDGE == 0:
            return reply
        return with_row(reply, length, height - 1, bytes(length))


class OldRow(Wrongly):
    """Keeps a row at the edge of a band from the previous run."""

    def image(self, request: bytes, reply: bytes, length: int, height: int) -> bytes:
        old = self.before.get(request)
        if old is None or height <= EDGE:
            return reply
        return with_row(reply, length, EDGE, row_of(old, length, EDGE))


class SourceChanged(Wrongly):
    """Clears a row of an image that nodes only read."""

    def concerns(self, cell: bytes) -> bool:
        return cell not in self.written

    def image(self, _: bytes, reply: bytes, length: int, height: int) -> bytes:
        return with_row(reply, length, height // 2, bytes(length))


class ShorterValid(Wrongly):
    """Returns a valid rectangle that is one row too short."""

    def valid(self, _: bytes, valid: Rectangle) -> Sequence[int]:
        return (*valid[:3], valid[3] - 1) if valid[3] - valid[1] > 1 else valid


class ValidOfBand(Wrongly):
    """Returns the valid rectangle of the first band."""

    def valid(self, _: bytes, valid: Rectangle) -> Sequence[int]:
        return (*valid[:3], min(valid[3], EDGE)) if valid[1] < EDGE else valid


class ValidInRows(Wrongly):
    """Returns the empty rectangle for one row that isn't the first."""

    def valid(self, _: bytes, valid: Rectangle) -> Sequence[int]:
        return (0, 0, 0, 0) if valid[1] and valid[3] == valid[1] + 1 else valid


class OldValid(Wrongly):
    """Returns the valid rectangle of the previous run."""

    def valid(self, request: bytes, valid: Rectangle) -> Sequence[int]:
        old = self.before.get(request)
        return valid if old is None else wire.description_of(old)[3]


class OneRun(Wrongly):
    """Never runs a graph again."""

    def is_left_out(self, request: bytes) -> bool:
        return request[6] == wire.PROCESS_GRAPH and self.runs > 1


class NoAgeing(Wrongly):
    """Never ages a delay after a run."""

    def is_left_out(self, request: bytes) -> bool:
        return request[6] == wire.REGISTER_AUTO_AGING


class BandCounted(Wrongly):
    """Returns statistics that miss some bands."""

    def changed(self, request: bytes, reply: bytes) -> bytes:
        if request[6] not in (wire.READ_DISTRIBUTION, wire.READ_MIN_MAX):
            return super().changed(request, reply)
        return reply[:12] + bytes([reply[12] ^ 1]) + reply[13:]


class LostRequests(Wrongly):
    """Plants no fault: before each request a third client asks for a missing image."""

    def answer(self, request: bytes) -> bytes:
        Server.answer(self, wire.query_image(AS_A_WHOLE + 2, 1))
        return super().answer(request)


class Planted(NamedTuple):
    words: str
    server: Type[Server]


PLANTED = (
    Planted("a sample at a band's edge is another", OtherAtEdge),
    Planted("a band begins with the row above", RowAbove),
    Planted("a band is the one above", BandTwice),
    Planted("the last row isn't written", NoLastRow),
    Planted("a row is that of the run before", OldRow),
    Planted("a row of an image that is only read is cleared", SourceChanged),
    Planted("a valid rectangle ends a row sooner", ShorterValid),
    Planted("a valid rectangle is that of the first band", ValidOfBand),
    Planted("a valid rectangle of one row is lost", ValidInRows),
    Planted("a valid rectangle is that of the run before", OldValid),
    Planted("a graph doesn't run again", OneRun),
    Planted("no delay ages", NoAgeing),
    Planted("what is counted isn't that of all bands", BandCounted),
)


def check_faults(program: str, seed: int) -> None:
    missed: List[str] = []
    graphs = [graph_of(at) for at in range(seed, seed + FAULT_GRAPHS)]
    for fault in PLANTED:
        found = fault_of(program, graphs, fault.server)
        if found is None:
            missed.append(f"not found in {FAULT_GRAPHS} graphs: {fault.words}")
            continue
        at = found[0].seed - seed + 1
        print(f"  found in graph {at:2}: {fault.words}: {found[1]}", flush=True)
    found = fault_of(program, graphs, LostRequests)
    if found is not None:
        missed.append(f"no fault, but found: {found[1]}")
    if missed:
        sys.exit("\n".join(f"check_bands: {words}" for words in missed))
    print(f"check_bands: {len(PLANTED)} servers that run graphs wrongly were all found, with seeds "
          f"from {seed} on")
