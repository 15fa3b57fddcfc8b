"""Refuses each allocation of the server in turn. A growth is an allocation."""

import os
import sys
import tempfile
from typing import Iterator, List, Set, Tuple

from feqyldan import wire
from checks import shim
from checks.graphs.accumulators import sum_and_its_depth, sums_in_rows
from checks.graphs.ageing import aged_after_each_run
from checks.graphs.limits import under_quotas
from checks.graphs.worked import (
    graph_before_and_after_ageing, image_read_twice_and_released, reused_buffers)
from checks.growths.graphs import graphs
from checks.growths.kept import check_kept
from checks.growths.refusing import (
    NEVER_LOST, NOT_STARTED, Refusing, check, op_of, refuse_each, refuse_in_apply)
from checks.growths.session import first_objects, session
from checks.growths.space import check_space
from checks.sessions.images import pictures_in_long_bodies
from checks.sessions.nodes import counts_and_tables, nodes_that_run
from checks.sessions.statistics import histograms, places_of_extremes
from checks.sessions.texts import faulty_pgm_texts, pgm_texts
from checks.tables.endings import TURNS

DEFAULT = 268_435_456


def streams() -> Iterator[Tuple[str, int, List[bytes]]]:
    """Yields a description, the quota and the frames of each stream."""
    yield "without graphs", DEFAULT, session()
    yield "with graphs", DEFAULT, graphs()
    yield "of first objects", DEFAULT, first_objects()
    yield "of two clients in turn", DEFAULT, [bytes.fromhex(request) for request, _ in TURNS]
    quota, rows = next(under_quotas())
    for words, limit, of in (
        ("with a graph on a delay", DEFAULT, graph_before_and_after_ageing()),
        ("with a delay that ages by itself", DEFAULT, aged_after_each_run()),
        ("with sums", DEFAULT, sums_in_rows()),
        ("with a sum that is shown", DEFAULT, sum_and_its_depth()),
        ("with an image that is read twice", DEFAULT, image_read_twice_and_released()),
        ("with reused buffers", DEFAULT, reused_buffers()), ("under a small quota", quota, rows),
        ("of pictures in long bodies", DEFAULT, pictures_in_long_bodies()),
        ("of nodes by themselves", DEFAULT, nodes_that_run()),
        ("of counts and tables", DEFAULT, counts_and_tables()),
        ("of histograms", DEFAULT, histograms()), ("of extremes", DEFAULT, places_of_extremes()),
        ("of PGM texts", DEFAULT, pgm_texts()),
        ("of PGM texts with a fault", DEFAULT, faulty_pgm_texts()),
    ):
        yield words, limit, [request for request, _ in of]


def check_lost(program: str, library: str, counts: str) -> Iterator[str]:
    """Refuses each growth of each stream in turn. Every request occurs in the streams, and each
    request that takes memory is lost at least once."""
    seen: Set[int] = set()
    lost: Set[int] = set()
    for words, quota, stream in streams():
        command = [program, "serve", f"--quota={quota}", f"--work={DEFAULT}"]
        refusing = Refusing(command, library, counts)
        refused = refuse_each(refusing, stream, True)
        served = [each for each in refused if each.frame != NOT_STARTED]
        # Growths before the stream come first; the program may continue without some of them.
        first = next(at for at, each in enumerate(refused) if each in served and each.is_lost)
        without = [each.frame for each in refused[first:] if not each.is_lost]
        check(not without, f"{words}: growths of frames {without} are done without")
        seen.update(map(op_of, stream))
        lost.update(op_of(stream[each.frame]) for each in refused[first:])
        # After one refusal the server gives up free blocks. Some growths succeed when it asks
        # again.
        found = [each for each in refuse_each(refusing, stream, False)[first:] if not each.is_lost]
        yield (f"{words} {first} growths before the stream, {len(refused) - first} in it, of which "
               f"{len(found)} are found when they are asked for again")
    ops = set(map(int, wire.Op))
    check(seen >= ops, f"no frame of op {ops - seen}")
    kept = ops - NEVER_LOST - lost
    check(not kept, f"no frame of op {kept} was lost")


def main() -> None:
    check(len(sys.argv) == 2, "usage: tools/refused_growths PROGRAM")
    program = os.path.abspath(sys.argv[1])
    space = check_space(program)
    with shim.built("growths/refuse_growth.c") as library, tempfile.TemporaryDirectory() as folder:
        counts = os.path.join(folder, "counts")
        said = [*check_lost(program, library, counts),
                check_kept(Refusing([program, "serve"], library, counts))]
        applying = Refusing([program, "apply", "box", "--border=replicate"], library, counts)
        applied, without = refuse_in_apply(applying)
    print(f"refused_growths: {'; '.join(said)}; {applied} of apply, which does without {without}; "
          f"{space}")
