"""Misreadings of docs/wire.md on graphs and virtual images, and right readings in other words."""

from checks.model.faults.fault import right
from checks.model.faults.graphs.accumulators import ACCUMULATOR_FAULTS
from checks.model.faults.graphs.ageing import AGEING_FAULTS
from checks.model.faults.graphs.held import HOLD_FAULTS
from checks.model.faults.graphs.nodes import ADD_NODE_FAULTS, NODE_FAULTS
from checks.model.faults.graphs.runs import KEPT_FAULTS, RUN_FAULTS
from checks.model.faults.graphs.verdicts import CYCLE, VERDICT_FAULTS, is_cyclic
from checks.model.faults.graphs.virtual import OPEN_FAULTS, VIRTUAL_FAULTS, described_in_rounds
from checks.model.faults.refusals import verdict_at

GRAPH_FAULTS = (
    *HOLD_FAULTS, *NODE_FAULTS, *ADD_NODE_FAULTS, *VIRTUAL_FAULTS, *VERDICT_FAULTS, *OPEN_FAULTS,
    *KEPT_FAULTS, *RUN_FAULTS, *AGEING_FAULTS, *ACCUMULATOR_FAULTS)

# Right readings, which must not be found.
IN_OTHER_WORDS = (
    ("a run is as many rounds of all nodes at once as there are nodes",
     {"run": right.run_in_rounds}),
    ("a cycle leads from a node back to it", verdict_at(CYCLE, is_cyclic)),
    ("what is open is filled in as many rounds as there are nodes",
     {"described": described_in_rounds}),
)
