"""Request frames, as they come from a connection and as they wait for a turn."""

import socket
import struct
from typing import Optional, Tuple

from .. import wire
from ..service.descriptors import Descriptors
from ..service.visitors import HEAD, LEAST_FRAME
from .memory import Memory, memory_for, with_reserve

# Bytes of short frames that are read ahead from a connection. A longer frame counts as long.
AHEAD = 65_536
# The most bytes of a long frame or of a reply that are moved in one step, so that other connections
# get their turn.
CHUNK = 262_144
# Bytes of quick requests in a turn, which take half a millisecond at most. With other connections
# in line a turn is shorter, so that they share the time well.
TURN_BYTES, SHARED_TURN_BYTES = 512, 256
# The requests whose time grows with their frames, and whose replies are short. Any other one may
# take long, and its reply may be long.
QUICK = frozenset(map(int, (
    wire.OPEN_CONTEXT, wire.QUERY_IMAGE, wire.WRITE_IMAGE, wire.CREATE_LUT, wire.CREATE_THRESHOLD,
    wire.CREATE_CONVOLUTION, wire.CREATE_DISTRIBUTION, wire.CREATE_MIN_MAX, wire.READ_MIN_MAX,
    wire.CREATE_GRAPH, wire.CREATE_VIRTUAL_IMAGE, wire.ADD_NODE, wire.REMOVE_NODE, wire.AGE_DELAY,
    wire.REGISTER_AUTO_AGING)))
# The same where a connection has asked for at most FEW_SAMPLES samples in all: then no function
# takes more than some microseconds.
QUICK_ON_FEW, FEW_SAMPLES = QUICK | {int(wire.IMMEDIATE)}, 1024
# The width and the height in a frame that makes an image.
SIDES = struct.Struct(">8xHH")
# Where bytes are read before it is known how many come.
READ_AHEAD = memoryview(bytearray(AHEAD))


# The requests of a turn: whole short frames of which none may take long, or the first bytes of one
# long frame; the memory of the long frame; and whether the loop may make the requests.
Requests = Tuple[bytes, Optional[Memory], bool]


class TotalReached(Exception):
    """All connections together hold as many bytes as they may. Nothing was read or changed."""


class Total:
    """The total bytes of frames and of waiting replies, over all connections."""

    def __init__(self, most: int) -> None:
        self.most, self.bytes = most, 0

    def look_for(self, count: int) -> None:
        if self.bytes + count > self.most:
            raise TotalReached

    def take(self, count: int) -> None:
        self.look_for(count)
        self.bytes += count

    def give(self, count: int) -> None:
        self.bytes -= count


class Incoming:
    """The bytes that a connection has sent and that wait for a turn: short frames, or one long
    frame. The last frame may be incomplete."""

    def __init__(self, most: int, total: Total, descriptors: Descriptors) -> None:
        self.most, self.total, self.descriptors = most, total, descriptors
        # Bytes of the total that are taken for this connection.
        self.taken = 0
        self.held = bytearray()
        # The size of the first frame in bytes, or 0 until its length has come; whether it is
        # complete; and what is wrong with the length.
        self.size, self.is_whole = 0, False
        self.fault: Optional[str] = None
        # The memory of a long frame, and how many bytes of it have come.
        self.memory: Optional[Memory] = None
        self.filled = 0
        # The samples of all images that the connection has asked for.
        self.samples = 0

    @property
    def announced(self) -> int:
        """The size of a long frame for which no memory is taken yet, else 0."""
        return self.size if self.size > AHEAD and self.memory is None else 0

    @property
    def has_room(self) -> bool:
        return not self.is_whole if self.size > AHEAD else len(self.held) < AHEAD

    @property
    def has_part(self) -> bool:
        """Whether there is an incomplete frame and nothing else."""
        return bool(self.held or self.memory) and not self.is_whole

    def receive(self, sock: socket.socket) -> int:
        """Reads the bytes that have come, as far as there is room, and returns how many."""
        if self.size > AHEAD:
            return self.receive_long(sock)
        held = self.held
        most = AHEAD - len(held)
        self.total.look_for(most)
        count = self.descriptors.read_into(sock, READ_AHEAD[:most])
        self.take_share(count)
        with_reserve(lambda: held.extend(READ_AHEAD[:count]))
        self.look()
        return count

    def receive_long(self, sock: socket.socket) -> int:
        if self.memory is None:
            self.take_share(self.size - len(self.held))
            self.memory, self.filled = memory_for(self.size, 0), len(self.held)
            self.memory[: self.filled] = self.held
            self.held.clear()
        with memoryview(self.memory) as whole, whole[self.filled : self.filled + CHUNK] as room:
            count = self.descriptors.read_into(sock, room)
        self.filled += count
        self.is_whole = self.filled == self.size
        return count

    # The share is computed first: without memory for it, neither number changes.

    def take_share(self, count: int) -> None:
        taken = self.taken + count
        self.total.take(count)
        self.taken = taken

    def give_share(self, count: int) -> None:
        taken = self.taken - count
        self.total.give(count)
        self.taken = taken

    def look(self) -> None:
        """Reads the length of the first frame, if it has come."""
        held = self.held
        self.size, self.is_whole = 0, False
        if len(held) < 4:
            return
        length = int.from_bytes(held[:4], "big")
        if not wire.LEAST_LENGTH <= length <= wire.GREATEST_LENGTH:
            self.fault = (f"bad length {length}: {wire.LEAST_LENGTH} to {wire.GREATEST_LENGTH} are "
                          "allowed")
        elif 4 + length > self.most:
            self.fault = (f"it sent a frame of {4 + length} bytes, and at most {self.most} are "
                          "held (--bytes-held)")
        else:
            self.size, self.is_whole = 4 + length, 4 + length <= len(held)

    def take(self, turn_bytes: int) -> Requests:
        """Returns the requests of a turn. The first frame must be complete."""
        if self.memory is None:
            requests = self.take_short(turn_bytes)
        else:
            requests, self.memory = (self.memory[:LEAST_FRAME], self.memory, False), None
        self.give_share(self.taken - len(self.held))
        self.look()
        return requests

    def take_short(self, turn_bytes: int) -> Requests:
        held, at, is_quick, has_few = self.held, 0, True, self.samples <= FEW_SAMPLES
        quick = QUICK_ON_FEW if has_few else QUICK
        while is_quick and len(held) - at >= LEAST_FRAME:
            length, _client, op = HEAD.unpack_from(held, at)
            end = at + 4 + length
            is_next = not at or (end <= turn_bytes and op in quick
                                 and wire.LEAST_LENGTH <= length <= self.most - 4)
            if end > len(held) or not is_next:
                break
            at, is_quick = end, op in quick
        if not is_quick:
            self.note_samples(op)
        front = with_reserve(lambda: bytes(held[:at]))
        del held[:at]
        return front, None, is_quick or (has_few and op == wire.READ_IMAGE)

    def note_samples(self, op: int) -> None:
        """Adds the samples for which the first frame asks."""
        if op == wire.CREATE_IMAGE and self.size == SIDES.size:
            width, height = SIDES.unpack_from(self.held)
            self.samples += width * height
        elif op == wire.CREATE_DELAY:
            self.samples = FEW_SAMPLES + 1

    def clear(self) -> None:
        self.held, self.memory = bytearray(), None
        self.look()
        self.give_share(self.taken)
