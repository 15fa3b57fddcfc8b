"""Faulty servers and wrong readings of their memory, each of which a measurement must find."""

import os
import subprocess
import sys
from typing import Callable, Dict, Iterator, List, NamedTuple, Tuple, Type

from feqyldan import wire
from checks import shim
from checks.lockstep import Fault, WrongAnswer
from checks.memory.again import SIDE, again, registered
from checks.memory.great import rising, small_in_great, written
from checks.memory.server import (
    Program, Server, TooLittleMemory, TooMuchMemory, memory_of)
from checks.memory.soak import soak

HERE = os.path.dirname(os.path.abspath(__file__))
# A request, as its op; for a release, also the op that created the object.
Event = Tuple[int, int]
Measure = Callable[[Program], str]
# The client whose images are the blocks that a faulty server leaks.
KEEPER = 65_535


class Kinds(Server):
    """A server that tracks the object of each request."""

    def __init__(self, process: "subprocess.Popen[bytes]") -> None:
        super().__init__(process)
        self.made_by: Dict[Tuple[int, int], int] = {}

    def event(self, request: bytes) -> Event:
        client, op = int.from_bytes(request[4:6], "big"), request[6]
        if op != wire.RELEASE:
            return op, 0
        return op, self.made_by[client, int.from_bytes(request[7:11], "big")]

    def answer(self, request: bytes) -> bytes:
        reply = super().answer(request)
        if request[6] in wire.CREATES and wire.code_of(reply) == wire.SUCCESS:
            self.made_by[int.from_bytes(request[4:6], "big"), wire.name_of(reply)] = request[6]
        return reply


def keeping(*event: int) -> Type[Server]:
    """Returns a kind of server that leaks one block after each of these events."""
    wanted = event if len(event) == 2 else (*event, 0)

    class Keeping(Kinds):
        def __init__(self, process: "subprocess.Popen[bytes]") -> None:
            super().__init__(process)
            super().answer(wire.open_context(KEEPER))

        def answer(self, request: bytes) -> bytes:
            found = self.event(request)
            reply = super().answer(request)
            if found == wanted:
                super().answer(wire.create_image(KEEPER, wire.U8, SIDE, SIDE))
            return reply

    return Keeping


def without(op: int) -> Type[Server]:
    """Returns a kind of server that ignores this request, and replies SUCCESS."""
    class Without(Server):
        def answer(self, request: bytes) -> bytes:
            if request[6] != op:
                return super().answer(request)
            return wire.reply_frame(int.from_bytes(request[4:6], "big"), op)

    return Without


def unclear(op: int) -> Type[Server]:
    """Returns a kind of server whose new objects of one kind contain old data instead of 0."""
    class Unclear(Server):
        def answer(self, request: bytes) -> bytes:
            reply = super().answer(request)
            if request[6] == op:
                self.fill(int.from_bytes(request[4:6], "big"), wire.name_of(reply))
            return reply

        def fill(self, client: int, name: int) -> None:
            cell: wire.Reference = name if op == wire.CREATE_IMAGE else wire.reference(name, 0)
            fmt, width, height = wire.size_of(super().answer(wire.read_image(client, cell)))
            samples = b"\1" * (width * height * wire.sample_bytes(fmt))
            super().answer(wire.write_image(client, cell, fmt, width, height, samples))

    return Unclear


def making_more(op: int, at: int) -> Type[Server]:
    """Returns a kind of server that creates another image before each of these requests, and keeps
    it. The image's format and size are those in the request, from byte `at` on."""
    class MakingMore(Server):
        def answer(self, request: bytes) -> bytes:
            if request[6] == op:
                super().answer(wire.open_context(KEEPER))
                super().answer(wire.frame(KEEPER, wire.CREATE_IMAGE, request[at:at + 5]))
            return super().answer(request)

    return MakingMore


class InKib(Server):
    def memory(self, field: str = "VmRSS") -> int:
        return super().memory(field) // 1024


class OfTheCheck(Server):
    def memory(self, field: str = "VmRSS") -> int:
        return memory_of(os.getpid(), field)


class AsAtFirst(Server):
    """Returns the first reading of the memory forever."""

    def __init__(self, process: "subprocess.Popen[bytes]") -> None:
        super().__init__(process)
        self.at_first = {field: super(AsAtFirst, self).memory(field)
                         for field in ("VmRSS", "VmHWM")}

    def memory(self, field: str = "VmRSS") -> int:
        return self.at_first[field]


class Asking(Server):
    """Before each request, asks for an image that doesn't exist."""

    def answer(self, request: bytes) -> bytes:
        super().answer(wire.query_image(int.from_bytes(request[4:6], "big"), 0))
        return super().answer(request)


class Planted(NamedTuple):
    """A fault: its description, the measurement that finds it, the kind of finding, and the server
    or the memory that its allocator keeps."""

    words: str
    measure: Measure
    found: Type[Fault]
    server: Type[Server] = Server
    keeps: str = ""


MEASURES: Tuple[Measure, ...] = (small_in_great, written, rising, registered, again, soak)
# Measurements that find a reading of too little memory.
READERS: Tuple[Measure, ...] = (small_in_great, soak)
PLANTED = (
    Planted("blocks that are far too large stay so", small_in_great, TooMuchMemory, keeps="shrunk"),
    Planted("no free block is given up", rising, TooMuchMemory, keeps="great"),
    Planted("the memory of each new image is lost", soak, TooMuchMemory,
            making_more(wire.CREATE_IMAGE, 7)),
    Planted("what is registered is kept", registered, TooMuchMemory, keeps="small"),
    *(Planted(words, again, TooMuchMemory, keeping(*event)) for words, event in (
        ("a new image leaves a block", (wire.CREATE_IMAGE,)),
        ("a new delay leaves a block", (wire.CREATE_DELAY,)),
        ("a picture that is written leaves a block", (wire.WRITE_IMAGE,)),
        ("a text that is written leaves a block", (wire.WRITE_IMAGE_PGM,)),
        ("a node by itself keeps a block", (wire.IMMEDIATE,)),
        ("a verdict keeps a block", (wire.VERIFY_GRAPH,)),
        ("a run keeps a block", (wire.PROCESS_GRAPH,)),
        ("a delay that ages loses a block", (wire.AGE_DELAY,)),
        ("a node that is removed keeps a block", (wire.REMOVE_NODE,)),
        ("an image that is released keeps its block", (wire.RELEASE, wire.CREATE_IMAGE)),
        ("a delay that is released keeps a block", (wire.RELEASE, wire.CREATE_DELAY)),
        ("a graph that is released keeps a block", (wire.RELEASE, wire.CREATE_GRAPH)),
        ("a context that is released keeps a block", (wire.RELEASE_CONTEXT,)))),
    *(Planted(words, soak, WrongAnswer, server) for words, server in (
        ("new images are what was there", unclear(wire.CREATE_IMAGE)),
        ("a slot of a new delay is what was there", unclear(wire.CREATE_DELAY)),
        ("pictures aren't written", without(wire.WRITE_IMAGE)),
        ("graphs don't run", without(wire.PROCESS_GRAPH)),
        ("delays don't age", without(wire.AGE_DELAY)))),
    *(Planted(words, measure, TooLittleMemory, server) for words, server in (
        ("the memory is told in KiB", InKib), ("it is the check's own", OfTheCheck),
        ("it is told as it was at first", AsAtFirst)) for measure in READERS),
    # Last, because the check itself takes memory for the pictures.
    Planted("a picture is copied", written, TooMuchMemory, making_more(wire.WRITE_IMAGE, 12)),
)


def failure(program: Program, measure: Measure) -> str:
    """Returns the kind of fault that a measurement finds, or None."""
    try:
        measure(program)
    except Fault as fault:
        return type(fault).__name__
    return ""


def missed(path: str, library: str) -> Iterator[str]:
    for fault in PLANTED:
        environment = {"LD_PRELOAD": library, "KEEP_MEMORY": fault.keeps} if fault.keeps else {}
        found = failure(Program(path, environment, fault.server), fault.measure)
        told = f"{fault.words}: {fault.measure.__name__} finds {found or 'nothing'}"
        print(f"  {told}", flush=True)
        if found != fault.found.__name__:
            yield f"{told}, and not {fault.found.__name__}"
    right = Program(path, {"LD_PRELOAD": library, "KEEP_MEMORY": "nothing"}, Asking)
    for measure in MEASURES:
        found = failure(right, measure)
        if found:
            yield f"no fault, but {measure.__name__} finds {found}"


def check_faults(path: str) -> None:
    with shim.built("memory/keep_memory.c") as library:
        wrong: List[str] = [*missed(path, library)]
    if wrong:
        sys.exit("\n".join(f"check_memory: {words}" for words in wrong))
    print(f"check_memory: {len(PLANTED)} wrong servers and readings were all found")
