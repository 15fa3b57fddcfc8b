"""The logger `feqyldan`: which servers started, ended and were waited for, and what was refused."""

import logging

LOG = logging.getLogger(__package__)
# Without a handler of the program, Python would write warnings to standard error.
LOG.addHandler(logging.NullHandler())
