"""Random graphs, run as a whole and node by node."""

from checks import seeded
from checks.bands.many import check_bands
from checks.bands.planted import check_faults


def main() -> None:
    seeded.run("check_bands", "graph", check_bands, check_faults,
               "plant faults in the band execution, and check that the graphs find them")
