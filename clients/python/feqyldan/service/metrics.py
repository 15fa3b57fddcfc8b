"""The state in Prometheus' text format, with what the system knows about processes."""

from typing import Any, Dict, Iterator, List, Sequence, Tuple

# The metrics of a program or of each of its servers: the name, the key in the state, the type
# (counter or gauge), and the help text.
Metrics = Sequence[Tuple[str, str, str, str]]
ACCEPTED = (
    ("connections", "connections.open", "gauge", "Connections that are open"),
    ("connections_total", "connections.accepted", "counter", "Connections that were accepted"),
    ("turned_away_total", "connections.turned_away", "counter",
     "Connections that were turned away"))
MEMORY = (
    ("server_memory_bytes", "memory_bytes", "gauge", "The memory that a server has"),
    ("server_peak_memory_bytes", "peak_memory_bytes", "gauge",
     "The most memory that a server has had"))


def found(state: Dict[str, Any], path: str) -> Any:
    for name in path.split("."):
        state = state[name]
    return state


def metrics_of(state: Dict[str, Any], metrics: Metrics) -> Iterator[str]:
    for name, path, kind, words in metrics:
        yield from metric(name, kind, words, [("", found(state, path))])


def metrics_of_servers(state: Dict[str, Any], metrics: Metrics,
                       label: str = "process") -> Iterator[str]:
    """Yields the metrics of each server, with one of its values as the label."""
    for name, path, kind, words in metrics:
        yield from metric(name, kind, words, [
            (f'{{{label}="{server[label]}"}}', server[path]) for server in state["servers"]])


def metric(name: str, kind: str, words: str, values: List[Tuple[str, Any]]) -> Iterator[str]:
    yield f"# HELP feqyldan_{name} {words}."
    yield f"# TYPE feqyldan_{name} {kind}"
    for labels, value in values:
        yield f"feqyldan_{name}{labels} {value}"


def memory_of(process: int, peak: int) -> Tuple[int, int]:
    """Returns the bytes of memory that a process has, and the most that it has had: at least the
    `peak` of the last call, because Linux counts in parts and may say a little less than before. If
    the process has ended, it has 0."""
    found = {"VmRSS": 0, "VmHWM": peak}
    try:
        # A process may have given itself a name of any bytes.
        with open(f"/proc/{process}/status", errors="replace") as file:
            for line in file:
                name, _, words = line.partition(":")
                if name in found:
                    found[name] = max(found[name], int(words.split()[0]) * 1024)
    except OSError:
        pass
    return found["VmRSS"], found["VmHWM"]
