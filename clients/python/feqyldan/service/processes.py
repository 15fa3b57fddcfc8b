"""Child processes that are forked from a loop."""

import os
import signal
from typing import Iterable

from .signals import TAKEN, held


def fork() -> int:
    """Forks, and returns the child's process; 0 in the child. A signal to the child has its default
    effect, and never reaches the loop of the parent, to whose socket Python's handlers would
    write."""
    with held():
        process = os.fork()
        if process == 0:
            signal.set_wakeup_fd(-1)
            for which in TAKEN:
                signal.signal(which, signal.SIG_DFL)
    return process


def close_all_but(kept: Iterable[int]) -> None:
    """Closes all descriptors from 3 on but these."""
    begin = 3
    for descriptor in sorted(kept):
        os.closerange(begin, descriptor)
        begin = descriptor + 1
    os.closerange(begin, os.sysconf("SC_OPEN_MAX"))
