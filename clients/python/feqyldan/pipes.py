"""The pipes to and from a server's program."""

import contextlib
import fcntl

# Bytes that a pipe to a server holds, if the system allows it.
PIPE_BYTES = 1 << 20


def enlarge(pipe: int) -> None:
    """Enlarges the buffer of a pipe, if possible, so that the processes at its ends wake up less
    often."""
    with contextlib.suppress(OSError):
        fcntl.fcntl(pipe, getattr(fcntl, "F_SETPIPE_SZ", 1031), PIPE_BYTES)
