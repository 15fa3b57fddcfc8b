"""Measures the memory of large images while they are written, and after they are released."""

from feqyldan import wire
from checks.lockstep import WrongAnswer
from checks.memory.server import (
    MIB, QUOTA, Program, Server, TooLittleMemory, check_bounds, in_mib, serving)

# The largest side of an image.
GREATEST_SIDE = 8192
# Large images, and the number of them that a client has; the server keeps all of their blocks when
# they are freed.
SIDE, AT_ONCE = 4096, 4
GREAT = SIDE * SIDE * 4
# The allocator's overhead for an object and its block: a page.
OBJECT_BYTES = 4096
OBJECTS = 1024
# The number of clients, and of repetitions for each of them.
SQUATTERS, ROUNDS = 4, 3
# The number of samples of each format for which the server keeps free blocks, and its other memory
# in bytes.
KEPT, BESIDE = 1 << 26, 16 * MIB


def small_in_great(program: Program) -> str:
    """Creates small images while freed blocks of large ones are available."""
    with serving(program, AT_ONCE * GREAT + OBJECTS * 4) as server:
        server.ask(wire.open_context(0))
        at_first = server.memory()
        for client in range(1, SQUATTERS + 1):
            squat(server, client, at_first)
            compare_held(server, at_first, client * OBJECTS)
        name = server.create(wire.create_image(0, wire.U32, SIDE, SIDE))
        server.ask(wire.release(0, name))
        return compare_held(server, at_first, SQUATTERS * OBJECTS)


def squat(server: Server, client: int, at_first: int) -> None:
    """Creates large images for a client repeatedly, and small ones after each time, up to 1,024."""
    server.ask(wire.open_context(client))
    small = wire.create_image(client, wire.U32, 1, 1)
    held = 0
    for _ in range(ROUNDS):
        great = wire.create_image(client, wire.U32, SIDE, SIDE)
        names = [server.create(great) for _ in range(AT_ONCE)]
        compare_seen(server, at_first)
        for name in names:
            server.ask(wire.release(client, name))
        for _ in range(AT_ONCE):
            server.create(small)
            held += 1
    while held < OBJECTS:
        server.create(small)
        held += 1


def compare_seen(server: Server, at_first: int) -> None:
    """Checks that the server's memory covers the samples of new images, which were all set to 0."""
    taken = server.memory() - at_first
    if taken < AT_ONCE * GREAT:
        raise TooLittleMemory(f"{in_mib(taken)} for {AT_ONCE} great images, at least "
                              f"{in_mib(AT_ONCE * GREAT)}")


def compare_held(server: Server, at_first: int, objects: int) -> str:
    """Checks the memory of this many small objects: their own, and at most one large block."""
    taken = server.memory() - at_first
    most = objects * OBJECT_BYTES + GREAT
    told = f"{in_mib(taken)} for {objects} images of one sample, at most {in_mib(most)}"
    return check_bounds(told, taken, most)


def written(program: Program) -> str:
    """Writes, rewrites and reads an image of each format. Memory covers the image and one request
    or reply, and no more."""
    return [written_in(program, fmt) for fmt in wire.Format][-1]


def written_in(program: Program, fmt: wire.Format) -> str:
    places = GREAT // wire.sample_bytes(fmt)
    width = min(GREATEST_SIDE, places // SIDE)
    size = width, places // width
    with serving(program, GREAT) as server:
        server.ask(wire.open_context(1))
        at_first = server.memory()
        name = server.create(wire.create_image(1, fmt, *size))
        for sample in b"\1", b"\2":
            server.ask(wire.write_image(1, name, fmt, *size, sample * GREAT))
        if server.ask(wire.read_image(1, name))[13:] != b"\2" * GREAT:
            raise WrongAnswer(f"an image of {fmt.name}, {width} by {size[1]}, isn't what was "
                              "written last, bytes of 2")
        taken = server.memory("VmHWM") - at_first
    most = 2 * GREAT + BESIDE
    told = (f"at most {in_mib(taken)} while an image of {in_mib(GREAT)} was written and read, for "
            f"which {in_mib(most)} are allowed")
    return check_bounds(told, taken, most, GREAT)


def rising(program: Program) -> str:
    """Creates ever larger and fewer images of each format, as many as the quota allows, and
    releases all of them each time."""
    with serving(program, QUOTA) as server:
        server.ask(wire.open_context(1))
        at_first, told = server.memory(), ""
        for fmt in wire.Format:
            for count in (OBJECTS >> k for k in range(11)):
                had_at_once(server, fmt, count)
                told = compare_free(server, at_first)
        return told


def had_at_once(server: Server, fmt: wire.Format, count: int) -> None:
    """Creates this many images that fill the quota, if their sides allow it, and releases them."""
    places = QUOTA // count // wire.sample_bytes(fmt)
    width = 1 << places.bit_length() // 2
    if max(width, places // width) <= GREATEST_SIDE:
        image = wire.create_image(1, fmt, width, places // width)
        for name in [server.create(image) for _ in range(count)]:
            server.ask(wire.release(1, name))


def compare_free(server: Server, at_first: int) -> str:
    taken = server.memory() - at_first
    most = KEPT * sum(map(wire.sample_bytes, wire.Format)) + BESIDE
    told = f"{in_mib(taken)} after images of rising sizes, at most {in_mib(most)}"
    return check_bounds(told, taken, most)
