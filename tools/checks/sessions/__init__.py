"""Sessions of clients, written from docs/wire.md: requests, with the code or the body of each
reply. The docstring of a session says which objects its names are, or what it tests."""

from functools import partial

from feqyldan import wire
from feqyldan.wire import S16, U32, U8
from checks import graphs
from checks.graphs.by_graphs import by_graphs
from checks.sessions.accumulators import refusals_of_sums, sums, sums_beside_the_valid
from checks.sessions.clients import (
    clients_have_their_own, contexts_released, first_names, without_context)
from checks.sessions.delays import delays, delays_as_exemplars, nodes_on_slots, refusals_of_slots
from checks.sessions.images import (
    full_context, full_of_extremes, objects_released, pictures, pictures_in_long_bodies,
    refusals_beside_one_image, refusals_of_pictures, sides, sizes)
from checks.sessions.nodes import counts_and_tables, nodes_that_run, refusals_of_nodes
from checks.sessions.rectangles import (
    refusals_of_rectangles, valid_blocks, valid_in_delays, valid_outputs, valid_rectangles)
from checks.sessions.refusals import refusals_in_order, refusals_of_kinds, refusals_of_other_objects
from checks.sessions.rows import CLIENT, EXTREMES
from checks.sessions.statistics import (
    histograms, integrals, places_of_extremes, statistics_of_slots)
from checks.sessions.texts import (
    faulty_pgm_texts, pgm_images, pgm_texts, refusals_of_texts, sizes_of_texts)
from checks.sessions.windows import convolutions, two_outputs, windows, windows_beside_the_valid

# The name of a session without graphs, and the function that returns its rows.
SESSIONS = (
    ("clients have their own", clients_have_their_own),
    ("without a context", without_context),
    ("pictures", pictures),
    ("pictures in long bodies", pictures_in_long_bodies),
    ("refusals of pictures", refusals_of_pictures),
    ("refusals beside one image", refusals_beside_one_image),
    ("sides", sides),
    ("objects that are released", objects_released),
    ("contexts that are released", contexts_released),
    ("nodes that run", nodes_that_run),
    ("counts and tables", counts_and_tables),
    ("refusals of nodes", refusals_of_nodes),
    ("valid rectangles", valid_rectangles),
    ("valid rectangles of rows and columns", valid_blocks),
    ("valid rectangles of outputs", valid_outputs),
    ("valid rectangles in delays", valid_in_delays),
    ("refusals of rectangles", refusals_of_rectangles),
    ("delays", delays),
    ("delays and what is made after them", delays_as_exemplars),
    ("nodes on slots", nodes_on_slots),
    ("refusals of slots", refusals_of_slots),
    ("1,024 objects", full_context),
    ("1,024 extremes", full_of_extremes),
    ("names of extremes", partial(first_names, EXTREMES)),
    ("names of graphs", partial(first_names, wire.create_graph(CLIENT))),
    ("windows", windows),
    ("windows and valid rectangles", windows_beside_the_valid),
    ("convolutions", convolutions),
    ("two outputs", two_outputs),
    ("histograms", histograms),
    ("integrals", integrals),
    ("extremes", places_of_extremes),
    ("statistics of slots and of clients", statistics_of_slots),
    ("sums", sums),
    ("sums and valid rectangles", sums_beside_the_valid),
    ("refusals of sums", refusals_of_sums),
    ("refusals of other objects", refusals_of_other_objects),
    ("refusals of windows and statistics", refusals_of_kinds),
    ("what comes first in windows and statistics", refusals_in_order),
    ("PGM texts", pgm_texts),
    ("PGM texts that stand for no picture", faulty_pgm_texts),
    ("PGM texts and images", pgm_images),
    ("refusals of PGM texts", refusals_of_texts),
    *((f"sizes of format {fmt}", partial(sizes, fmt, size)) for fmt, size in (
        (U8, 1), (S16, 2), (U32, 4))),
    ("sizes of PGM texts", sizes_of_texts),
)
# A graph of the same node gives the same result as Immediate in these sessions.
BY_GRAPHS = (
    nodes_that_run, counts_and_tables, refusals_of_nodes, valid_outputs, valid_in_delays, delays,
    nodes_on_slots, refusals_of_slots, windows, windows_beside_the_valid, convolutions, two_outputs,
    histograms, integrals, places_of_extremes, statistics_of_slots, sums, sums_beside_the_valid,
    refusals_of_sums, refusals_of_kinds, refusals_in_order,
)


def sessions():
    """Yields the names and the rows of all sessions."""
    for words, rows in SESSIONS:
        yield words, rows()
    yield from graphs.sessions()
    for rows in BY_GRAPHS:
        yield f"{rows.__name__}, by graphs", [*by_graphs(rows())]
