"""Checks which repeated requests take no memory, and which do."""

from typing import List

from feqyldan import wire
from checks.growths.refusing import Refusing, check

CLIENT, TIMES = 7, 20
SAMPLES = bytes(range(256))
# Images 1 and 2, graph 3 with virtual image 4, delay 5, extremes 6 and S16 image 7. The graph has
# run, so its plan is kept, and a free block for its virtual image exists.
BEFORE = [
    wire.open_context(CLIENT),
    wire.create_image(CLIENT, wire.U8, 64, 4),
    wire.create_image(CLIENT, wire.U8, 64, 4),
    wire.create_graph(CLIENT),
    wire.create_virtual_image(CLIENT, 3),
    wire.create_delay(CLIENT, 1, 3),
    wire.create_min_max(CLIENT),
    wire.create_image(CLIENT, wire.S16, 64, 4),
    wire.add_node(CLIENT, 3, wire.NOT_BITS, 1, None, 4),
    wire.add_node(CLIENT, 3, wire.NOT_BITS, 4, None, 2),
    wire.process_graph(CLIENT, 3),
]
# Requests that take no memory when they are repeated. A picture is read into memory that becomes
# the image's. The image's old memory is kept for the next picture.
NONE = {
    "VerifyGraph of a graph that can run": wire.verify_graph(CLIENT, 3),
    "ProcessGraph of a graph that has run": wire.process_graph(CLIENT, 3),
    "WriteImage of U8": wire.write_image(CLIENT, 1, wire.U8, 64, 4, SAMPLES),
    "WriteImage of S16": wire.write_image(CLIENT, 7, wire.S16, 64, 4, SAMPLES * 2),
    "ReadImage": wire.read_image(CLIENT, 1),
    "ReadImagePgm": wire.read_image_pgm(CLIENT, 1),
    "QueryImage": wire.query_image(CLIENT, 1),
    "SetValid": wire.set_valid(CLIENT, 1, (0, 0, 64, 4)),
    "Immediate of a window": wire.immediate(CLIENT, wire.BOX, 1, None, 2),
    "Immediate of extremes": wire.immediate(CLIENT, wire.MIN_MAX_LOCATION, 1, None, 6),
    "ReadMinMax": wire.read_min_max(CLIENT, 6),
    "AgeDelay": wire.age_delay(CLIENT, 5),
}


def growths_of(program: Refusing, asked: List[bytes]) -> int:
    """Returns the number of allocations for a whole stream. All replies must be SUCCESS."""
    served = program.run(b"".join([*BEFORE, *asked]))
    codes = {wire.code_of(reply) for reply in wire.replies(served.stdout)}
    check(served.returncode == 0 and codes == {wire.SUCCESS}, f"{asked[0].hex()}: {codes}")
    return program.counted()[0]


def images_in_turn() -> List[bytes]:
    """Returns requests that create images, and release each before the next."""
    return [request for name in range(8, 8 + TIMES) for request in (
        wire.create_image(CLIENT, wire.U8, 64, 4), wire.release(CLIENT, name))]


def changed_graphs() -> List[bytes]:
    """Returns requests that verify a graph after a node was added and removed."""
    return [request for number in range(3, 3 + TIMES) for request in (
        wire.add_node(CLIENT, 3, wire.MIN_MAX_LOCATION, 1, None, 6),
        wire.remove_node(CLIENT, 3, number), wire.verify_graph(CLIENT, 3))]


def check_kept(program: Refusing) -> str:
    """Checks that repeated requests take no memory, and that a changed graph takes memory for its
    new plan."""
    def more(asked: List[bytes], first: int = 1) -> int:
        """Returns the allocations of all these requests beyond those of the first one."""
        return growths_of(program, asked) - growths_of(program, asked[:first])

    for words, request in NONE.items():
        taken = more([request] * TIMES)
        check(taken == 0, f"{TIMES - 1} times {words}: {taken} growths")
    taken = more(images_in_turn(), 2)
    check(taken == 0, f"{TIMES - 1} images in turn: {taken} growths")
    taken = more(changed_graphs(), 3)
    check(taken >= TIMES - 1, f"{TIMES - 1} verdicts on changed graphs: {taken} growths")
    return f"{len(NONE) + 1} kinds of requests take no memory again"
