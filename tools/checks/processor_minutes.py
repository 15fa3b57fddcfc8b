"""Measures the processor minutes of the prover for each crate while a command runs."""

import collections
import os
import subprocess
import sys
import threading
import time
from concurrent.futures import ThreadPoolExecutor
from typing import DefaultDict, Dict, List, Optional, Tuple

TICKS = os.sysconf("SC_CLK_TCK")
KINDS = ("proof", "tests", "edits", "build")
# A process by its number and start time; a crate with the kind of work, or None.
Process = Tuple[int, str]
Work = Optional[Tuple[str, str]]
Sums = DefaultDict[str, Dict[str, float]]


def read(path: str) -> str:
    """Returns a file's text. Any process may have bytes in its name or command line that aren't
    UTF-8."""
    with open(path, errors="surrogateescape") as file:
        return file.read()


def stat(pid: str) -> Tuple[Process, int, float]:
    """Returns a process by number and start time, its parent's number, and the processor seconds of
    it and its finished children."""
    fields = read(f"/proc/{pid}/stat").rsplit(")", 1)[1].split()
    ticks = sum(map(int, fields[11:15]))
    return (int(pid), fields[19]), int(fields[1]), ticks / TICKS


def work_of(pid: int) -> Work:
    """Returns the crate and the kind of work of a prover process, or None for any other process."""
    words = read(f"/proc/{pid}/cmdline").split("\0")
    if os.path.basename(words[0]) != "rattle" or "--crate-name" not in words:
        return None
    if "--test" in words:
        kind = "tests"
    elif os.path.basename(os.readlink(f"/proc/{pid}/cwd")).startswith("rt-edit-"):
        kind = "edits"
    elif "--crate-checked" in words:
        kind = "build"
    else:
        kind = "proof"
    return words[words.index("--crate-name") + 1], kind


def sample(root: int, times: Dict[Process, float], works: Dict[Process, Work]) -> None:
    """Records the current time of each prover process below the root."""
    found: Dict[int, Tuple[Process, int, float]] = {}
    for entry in os.listdir("/proc"):
        if entry.isdigit():
            try:
                found[int(entry)] = stat(entry)
            except (OSError, IndexError, ValueError):
                pass
    for pid, (process, _, _) in found.items():
        # A process may become the prover later.
        if works.get(process) is None:
            try:
                works[process] = work_of(pid)
            except OSError:
                pass
    for pid, (process, parent, seconds) in found.items():
        # A forked copy of the prover counts with its parent once it has ended.
        is_copy = parent in found and works.get(found[parent][0]) is not None
        if works.get(process) and not is_copy and below(pid, root, found):
            alive = sum(its for _, its_parent, its in found.values() if its_parent == pid)
            times[process] = max(times.get(process, 0), seconds + alive)


def below(pid: int, root: int, found: Dict[int, Tuple[Process, int, float]]) -> bool:
    while pid in found and pid != root:
        pid = found[pid][1]
    return pid == root


def line(words: str, minutes: Dict[str, float]) -> str:
    """Returns the minutes by kind, and their sum."""
    kinds = "  ".join(f"{minutes[kind]:7.1f}" for kind in KINDS)
    return f"{words:22} {kinds}  {sum(minutes.values()):7.1f}"


def run(command: List[str]) -> Tuple[int, Sums, Optional[BaseException]]:
    """Runs a command. Returns its status as shells have it, the minutes of each crate by kind, and
    the error at which the count broke off, if it did."""
    process = subprocess.Popen(command)
    times: Dict[Process, float] = {}
    works: Dict[Process, Work] = {}
    ended = threading.Event()

    def watch() -> None:
        while not ended.wait(0.25):
            sample(process.pid, times, works)

    with ThreadPoolExecutor(max_workers=1) as pool:
        watching = pool.submit(watch)
        try:
            status = process.wait()
        finally:
            ended.set()
    sums: Sums = collections.defaultdict(lambda: dict.fromkeys(KINDS, 0.0))
    for counted, seconds in times.items():
        work = works[counted]
        if work is not None:
            crate, kind = work
            sums[crate][kind] += seconds / 60
    return status if status >= 0 else 128 - status, sums, watching.exception()


def main() -> int:
    if len(sys.argv) < 2 or sys.argv[1].startswith("-"):
        sys.exit("usage: tools/processor_minutes COMMAND [WORD ..]")
    start = time.time()
    try:
        status, sums, failure = run(sys.argv[1:])
    except OSError as error:
        sys.exit(f"processor_minutes: {sys.argv[1]} can't be run: {error.strerror}")
    if failure is not None:
        print(f"processor_minutes: the count broke off, so no minutes are printed: {failure!r}; "
              f"{sys.argv[1]} ended with status {status}", file=sys.stderr)
        return status or 1
    print(f"\nprocessor minutes      {'  '.join(f'{kind:>7}' for kind in KINDS)}      all")
    for crate, minutes in sums.items():
        print(line(crate, minutes))
    total = {kind: sum(minutes[kind] for minutes in sums.values()) for kind in KINDS}
    print(line("all", total))
    print(f"{(time.time() - start) / 60:.1f} minutes on {os.cpu_count()} processors")
    return status
