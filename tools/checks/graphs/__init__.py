"""Sessions on graphs and virtual images, written from docs/wire.md. The docstring of a session says
which objects its names are, or what it tests."""

from feqyldan.wire import ADD, NO_RESOURCES, U8, node
from checks.graphs.accumulators import (
    sums_in_graphs, sums_in_rows, sums_in_slots, sums_that_change)
from checks.graphs.ageing import (
    refusals_of_registrations, registrations, registrations_in_rows, registrations_of_clients,
    registrations_of_several, registrations_of_the_released, released_after_a_run)
from checks.graphs.cast import inverse
from checks.graphs.held import (
    graphs_of_clients, places_of_objects, released_graphs, released_objects)
from checks.graphs.limits import largest_graphs, under_quotas, under_work_bytes
from checks.graphs.refusals import (
    full_graphs, refusals_of_graphs, refusals_of_names_and_kinds, refusals_of_scopes_and_slots,
    virtual_images_in_requests)
from checks.graphs.runs import runs, squares, through_virtual_images, valid_in_graphs
from checks.graphs.verdicts import verdicts
from checks.graphs.virtual import declarations, open_outputs
from checks.graphs.worked import (
    details, graphs_on_delays, image_read_twice, long_graphs, removed_nodes, reused_buffers,
    sums_that_wrap)
from checks.sessions.rows import added, graph, made, no_room, opened, processed, virtual


def told_limits():
    """Yields command line arguments after `serve`, and the rows of a stream under these limits."""
    for option, table in (("--quota", under_quotas()), ("--work", under_work_bytes())):
        for number, rows in table:
            yield (option, str(number)), rows
            yield (f"{option}=00{number}",), rows
    for words, fits_more in (((), False), (("--work", "268435456"), False),
                             (("--work=268435457",), True),
                             (("--work", "1099511627776"), True)):
        yield words, largest_graphs(fits_more)
    # Both options, in either order. Each leaves the other at its default.
    rows = [opened(), made(1, U8, 2, 2), made(2, U8, 2, 2), no_room(U8, 1, 1), graph(3),
            virtual(4, 3),
            added(3, 1, inverse(1, 4)), processed(3), added(3, 2, node(ADD, 4, 4, 2)), processed(3),
            virtual(5, 3), added(3, 3, inverse(4, 5)), processed(3, NO_RESOURCES)]
    for words in (("--quota", "8", "--work", "4"), ("--work=4", "--quota=8"),
                  ("--work", "4", "--quota=08")):
        yield words, rows


def sessions():
    """Yields the names and the rows of all sessions under the default limits."""
    yield from verdicts()
    yield "declared virtual images", declarations()
    yield "open outputs", open_outputs()
    yield "runs", runs()
    yield "functions between virtual images", through_virtual_images()
    yield "graphs of squares", squares()
    yield "valid rectangles in graphs", valid_in_graphs()
    yield "details", details()
    yield "graphs on delays", graphs_on_delays()
    yield "delays that age by themselves", registrations()
    yield "delays that age by several graphs", registrations_of_several()
    yield "delays of rows that age by themselves", registrations_in_rows()
    yield "released delays that age by themselves", released_after_a_run()
    yield "refusals of delays that age by themselves", refusals_of_registrations()
    yield "delays of clients that age by themselves", registrations_of_clients()
    yield "1,024 objects, and delays that age by themselves", registrations_of_the_released()
    yield "graphs in reused buffers", reused_buffers()
    yield "an image that is read twice", image_read_twice()
    yield "nodes that are removed", removed_nodes()
    yield "sums that wrap", sums_that_wrap()
    yield "sums of graphs", sums_in_graphs()
    yield "sums of graphs that change", sums_that_change()
    yield "sums of graphs in slots", sums_in_slots()
    yield "sums of graphs in rows", sums_in_rows()
    yield "graphs of 256 nodes in a row", long_graphs()
    yield "refusals of graphs", refusals_of_graphs()
    yield "refusals of names and kinds in graphs", refusals_of_names_and_kinds()
    yield "refusals of other graphs' images and of slots", refusals_of_scopes_and_slots()
    yield "virtual images in requests", virtual_images_in_requests()
    yield "graphs of 256 nodes", full_graphs()
    yield "released objects of graphs", released_objects()
    yield "released graphs", released_graphs()
    yield "1,024 objects of graphs", places_of_objects()
    yield "graphs of clients", graphs_of_clients()
