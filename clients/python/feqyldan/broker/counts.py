"""The broker's counts, and how it reports them."""

from typing import Any, Dict, Tuple

from .. import wire
from ..service.admission import Accepted
from ..service.metrics import ACCEPTED, metric, metrics_of, metrics_of_servers
from .connection import Turn


class Counts(Accepted):
    """The counts since the broker began."""

    def __init__(self) -> None:
        super().__init__()
        self.requests = self.bytes_in = self.bytes_out = 0
        # By status code. The entry of success stays 0.
        self.refusals = [0] * 256
        # The seconds of the longest request: since the broker began, and since the last report.
        self.longest = self.longest_lately = 0.0

    def note(self, turn: Turn) -> None:
        """Notes what a server has answered in a turn."""
        self.requests += turn.count
        for code in turn.refusals:
            self.refusals[code] += 1
        if turn.count:
            self.longest_lately = max(self.longest_lately, turn.seconds / turn.count)
            self.longest = max(self.longest, self.longest_lately)

    def told(self) -> Tuple[float, ...]:
        return (self.accepted, self.turned_away, self.requests, sum(self.refusals), self.bytes_in,
                self.bytes_out)

    def as_words(self, before: Tuple[float, ...]) -> str:
        accepted, away, requests, refusals, bytes_in, bytes_out = (
            now - then for now, then in zip(self.told(), before))
        words = (f"{accepted} accepted, {away} turned away, {requests} requests, {refusals} "
                 f"refused, {bytes_in} bytes in, {bytes_out} bytes out, the longest request "
                 f"{self.longest_lately:.3f} s")
        self.longest_lately = 0.0
        return words

    def refusals_by_name(self) -> Dict[str, int]:
        return {name_of(code): count for code, count in enumerate(self.refusals) if count}


def name_of(code: int) -> str:
    return wire.CODES[code] if code < len(wire.CODES) else f"code {code}"


# ---- Prometheus' text

METRICS = (
    *ACCEPTED,
    ("connections_releasing", "connections.releasing", "gauge",
     "Connections whose contexts are being released"),
    ("requests_total", "requests", "counter", "Requests that were answered"),
    ("request_bytes_total", "bytes_in", "counter", "Bytes of requests that were passed on"),
    ("reply_bytes_total", "bytes_out", "counter", "Bytes of replies that were passed on"),
    ("held_bytes", "bytes_held", "gauge", "Bytes of frames and replies that wait"),
    ("longest_request_seconds", "longest_request_seconds", "gauge", "The longest request so far"),
    ("memory_bytes", "memory_bytes", "gauge", "The memory that the broker has"),
    ("peak_memory_bytes", "peak_memory_bytes", "gauge", "The most memory that it has had"))
SERVER_METRICS = (
    ("server_connections", "connections", "gauge", "Connections whose contexts a server has"),
    ("server_requests_total", "requests", "counter", "Requests that a server has answered"),
    ("server_waiting", "waiting", "gauge", "Connections that wait for a turn"),
    ("server_busy_seconds", "busy_seconds", "gauge", "How long a server has worked on its turn"))


def as_metrics(state: Dict[str, Any]) -> str:
    """Returns the state in Prometheus' text format."""
    refusals = metric("refusals_total", "counter", "Refusals by code", [
        (f'{{code="{code}"}}', count) for code, count in state["refusals"].items()])
    servers = metrics_of_servers(state, SERVER_METRICS, "server")
    lines = (*metrics_of(state, METRICS), *refusals, *servers)
    return "".join(f"{line}\n" for line in lines)
