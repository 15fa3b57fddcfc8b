"""The door's counts, and how it reports them."""

import signal
from typing import Any, Dict, Tuple

from ..service.admission import Accepted
from ..service.metrics import ACCEPTED, MEMORY, metric, metrics_of, metrics_of_servers

# The meanings of a server's exit status (docs/wire.md). The server's own messages aren't logged:
# most are of programs that left before their replies came.
MEANINGS = {
    2: "its arguments are refused", 3: "its connection's frames have a fault, or ended within one",
    5: "there was no memory to start with"}
# The exit status of a server whose connection failed: its program was late, or left while the
# server wrote a reply.
LATE = 4
# The exit statuses of servers whose connection ended between two frames, or failed.
USUAL = (0, LATE)
# The same after the connection ended: then the door kills the server, perhaps within a frame.
USUAL_ENDS = (*USUAL, 3, -signal.SIGKILL)


class Counts(Accepted):
    """The counts since the door began."""

    def __init__(self) -> None:
        super().__init__()
        self.ended = self.failed = 0
        self.processor_seconds = 0.0

    def told(self) -> Tuple[float, ...]:
        return self.accepted, self.turned_away, self.ended, self.failed, self.processor_seconds

    def as_words(self, before: Tuple[float, ...]) -> str:
        accepted, away, ended, failed, seconds = (
            now - then for now, then in zip(self.told(), before))
        return (f"{accepted:.0f} accepted, {away:.0f} turned away, {ended:.0f} servers ended, "
                f"{failed:.0f} of them by a fault, after {seconds:.3f} s of the processors")


def meaning_of(status: int) -> str:
    if status < 0:
        return f"was ended by signal {-status}"
    words = MEANINGS.get(status)
    return f"ended with status {status}{': ' if words else ''}{words or ''}"


METRICS = (
    *ACCEPTED,
    ("servers_ended_total", "servers_ended", "counter", "Servers that have ended"),
    ("servers_failed_total", "servers_failed", "counter",
     "Servers that have ended by a fault or a signal"),
    ("processor_seconds_total", "processor_seconds", "counter",
     "What the servers that have ended have had of the processors"))
SERVER_METRICS = (
    ("server_seconds", "seconds", "gauge", "How long a server has run"),
    ("server_processor_seconds_total", "processor_seconds", "counter",
     "What a server has had of the processors"),
    ("server_request_bytes_total", "bytes_in", "counter", "Bytes that a server has read"),
    ("server_reply_bytes_total", "bytes_out", "counter", "Bytes that a server has written"),
    *MEMORY)


def as_metrics(state: Dict[str, Any]) -> str:
    """Returns the state in Prometheus' text format."""
    whose = metric("server_user", "gauge", "The user whose connection a server has", [
        (f'{{process="{server["process"]}"}}', server["of_user"]) for server in state["servers"]])
    lines = (*metrics_of(state, METRICS), *metrics_of_servers(state, SERVER_METRICS), *whose)
    return "".join(f"{line}\n" for line in lines)
