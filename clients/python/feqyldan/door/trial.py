"""A trial of the server's program."""

import os
import time
from typing import Optional

from ..service.peers import Peer
from .program import Plan, Program
from .starter import Ended, Starter

# The seconds that a server with empty input may take to end.
TRIAL_SECONDS = 10.0
# With --user-of-peer, whom a trial runs as: the user and the group without rights, `nobody`. What
# root may execute, the users of connections may not.
NOBODY = Peer(0, 65_534, 65_534)


class Trial:
    """A run of a program on empty input, which shows whether it is a server."""

    def __init__(self, wanted: Program, plan: Plan, starter: Starter) -> None:
        self.program, self.starter, self.is_of_peer = wanted, starter, plan.is_of_peer
        null = os.open(os.devnull, os.O_RDWR)
        try:
            self.number = starter.start(wanted, null, plan, NOBODY if plan.is_of_peer else None)
        finally:
            os.close(null)
        self.until = time.monotonic() + TRIAL_SECONDS

    def fault(self, end: Optional[Ended]) -> Optional[str]:
        """Returns in words what is wrong with the program; None if nothing is. `end` is None if it
        didn't end."""
        words = self.program.words
        if end is None:
            return (f"{self.program} still runs {TRIAL_SECONDS:g} s after the end of its input: is "
                    "it a Feqyldan server?")
        if end.reason is not None and self.is_of_peer:
            return (f"{words[0]} can't be started as another user (--user-of-peer): {end.reason}; "
                    "let all users execute it")
        if end.reason is not None:
            return f"{words[0]} can't be started: {end.reason}; give the server's path after --"
        if end.status != 0:
            return (f"{self.program} ended with status {end.status} on empty input, not with 0: is "
                    "it a Feqyldan server, and are its arguments right?")
        return None

    def wait(self) -> Optional[Ended]:
        """Returns how the program ended, before any other one was started; None if it doesn't end
        in time."""
        while time.monotonic() < self.until:
            for told in self.starter.told(self.until - time.monotonic()):
                if isinstance(told, Ended):
                    return told
        return None
