"""The default limits, and others."""

from typing import Iterator, List, Tuple

from feqyldan import wire
from feqyldan.wire import HISTOGRAM, NO_RESOURCES, S16, U32, U8
from checks import graphs
from checks.sessions.rows import (
    CLIENT, CREATES, TURNED, Row, aged, closed, counted, delayed, holds, made, name, no_room,
    opened, ran, released, threshold)
from checks.tables.program import Program

QUOTA_ROWS = (
    # Four images of 67,108,864 bytes use up the quota: a fifth is refused, and so is any other
    # image, but not objects that are charged nothing.
    *(made(number, U32, 4096, 4096) for number in (1, 2, 3, 4)),
    (wire.create_image(CLIENT, U32, 4096, 4096), NO_RESOURCES),
    (wire.create_image(CLIENT, U8, 1, 1), NO_RESOURCES),
    (TURNED, name(5)),
    (wire.create_image(CLIENT, S16, 1, 1), NO_RESOURCES),
    (threshold(S16), name(6)),
    # Releasing a table frees no quota; releasing an image frees its bytes.
    released(5),
    (wire.create_image(CLIENT, U8, 1, 1), NO_RESOURCES),
    released(2),
    made(7, S16, 4096, 4096),
    made(8, S16, 4096, 4096),
    (wire.create_image(CLIENT, U8, 1, 1), NO_RESOURCES),
)


# Images with the greatest sides: one of U32 uses up the quota, as two of S16 or four of U8 do.
GREATEST_ROWS = (
    *(made(number, U8, 8192, 8192) for number in (1, 2, 3, 4)), no_room(U8, 1, 1),
    *(released(number) for number in (1, 2, 3, 4)),
    *(made(number, S16, 8192, 8192) for number in (5, 6)), no_room(U8, 1, 1), released(5),
    no_room(U32, 8192, 4097), released(6), made(7, U8), no_room(U32, 8192, 8192), released(7),
    made(8, U32, 8192, 8192), no_room(U8, 1, 1),
)


def check_quota(program: Program) -> None:
    program.check_rows("the default quota",
                       [opened(), *QUOTA_ROWS, opened(8), made(1, U8, client=8),
                        holds(1, U8, [0], client=8)])
    nearly = [*(made(number, U32, 4096, 4096) for number in (1, 2, 3)), made(4, U8, 4096, 4096),
              made(5, S16, 4096, 4095),
              made(6, U8, 4095, 2), (wire.create_image(CLIENT, S16, 4096, 2049), NO_RESOURCES),
              released(6), made(7, S16, 4096, 2049),
              (wire.create_image(CLIENT, U8, 1, 1), NO_RESOURCES)]
    program.check_rows("just below the default quota", [opened(), *nearly])
    program.check_rows("images of the greatest sides", [opened(), *GREATEST_ROWS])


def quotas() -> Iterator[Tuple[str, List[Row]]]:
    """Yields the arguments for quotas, and the rows of a stream for each of them."""
    two = [opened(), made(1, U8, 2, 2), made(2, U8, 2, 2)]
    # Each client has the whole quota, released bytes are free again, and a refused create uses no
    # name.
    eight = [*two, no_room(U8, 1, 1), (TURNED, name(3)), opened(8), made(1, S16, 2, 2, client=8),
             no_room(U8, 1, 1, client=8),
             released(1), no_room(U32, 2, 1), made(4, U32, 1, 1), no_room(U8, 1, 1), closed(),
             opened(), made(1, U32, 2, 1)]
    for word in ("8", "08", "0" * 30 + "8"):
        yield (word, eight)
    # A delay is charged for all of its slots, and frees as much. A refused one uses no name.
    four = (wire.create_delay(CLIENT, 1, 4), NO_RESOURCES)
    yield ("16",
           [opened(), made(1, U8, 2, 2), four, delayed(2, 1, 3), no_room(U8, 1, 1), aged(2),
            no_room(U8, 1, 1),
            released(2), four, made(3, U8, 3, 4), no_room(U8, 1, 1)])
    # Objects other than images are charged nothing, and are accepted even if the quota is used up.
    yield ("4", [opened(), made(1, U8, 2, 2), no_room(U8, 1, 1),
                 *((request, name(number)) for number, request in enumerate(CREATES[1:], 2)),
                 no_room(U8, 1, 1), ran(HISTOGRAM, 1, None, 5), counted(5, [4, 0, 0]), released(1),
                 made(8, U8, 2, 2), no_room(U8, 1, 1)])
    yield ("1", [opened(), no_room(S16, 1, 1), no_room(U8, 2, 1), made(1, U8), no_room(U8, 1, 1)])
    yield ("7",
           [opened(), made(1, U8, 2, 2), no_room(U8, 2, 2), made(2, U8, 3, 1), no_room(U8, 1, 1)])
    yield ("9", [*two, made(3, U8), no_room(U8, 1, 1)])
    yield ("268435456", [opened(), *QUOTA_ROWS])
    # More than the default.
    more = [opened(), *(made(number, U32, 4096, 4096) for number in (1, 2, 3, 4)), made(5, U8)]
    yield ("268435457", [*more, no_room(U8, 1, 1)])
    yield ("1099511627776", [*more, made(6, S16)])


def check_told_limits(program: Program) -> None:
    for word, rows in quotas():
        for words in (("serve", "--quota", word), ("serve", f"--quota={word}")):
            program.check_rows(f"the words {words}", rows, words)
    for words, rows in graphs.told_limits():
        program.check_rows(f"the words serve {words}", rows, ("serve", *words))
