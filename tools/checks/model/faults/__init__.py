"""Misreadings of docs/wire.md, which random streams must tell from the right reading. A docstring
here states what the misreading says."""

from checks.model.faults.bodies import BODY_FAULTS
from checks.model.faults.clients import CLIENT_FAULTS
from checks.model.faults.delays import DELAY_FAULTS
from checks.model.faults.functions import FUNCTION_FAULTS
from checks.model.faults.graphs import GRAPH_FAULTS, IN_OTHER_WORDS
from checks.model.faults.objects import OBJECT_FAULTS
from checks.model.faults.other_objects import CONVOLUTION_FAULTS, STATISTIC_OBJECT_FAULTS
from checks.model.faults.rectangles import RECTANGLE_FAULTS
from checks.model.faults.refusals import REFUSAL_FAULTS
from checks.model.faults.statistics import STATISTIC_FAULTS
from checks.model.faults.texts import PGM_FAULTS
from checks.model.faults.windows import WINDOW_FAULTS

__all__ = ["FAULTS", "IN_OTHER_WORDS"]

FAULTS = (
    *FUNCTION_FAULTS, *WINDOW_FAULTS, *STATISTIC_FAULTS, *OBJECT_FAULTS, *RECTANGLE_FAULTS,
    *PGM_FAULTS, *CONVOLUTION_FAULTS, *STATISTIC_OBJECT_FAULTS, *DELAY_FAULTS, *CLIENT_FAULTS,
    *BODY_FAULTS, *REFUSAL_FAULTS, *GRAPH_FAULTS)
