"""Notifies a service manager (sd_notify(3)), if it asks for that."""

import contextlib
import os
import socket
import time
from typing import Optional

# The most seconds that a message waits for space among those of others. Every program of the
# machine can send some to the service manager.
START_WAIT, ALIVE_WAIT = 5.0, 0.05
# The most seconds between two checks of a loop's clock.
LOOK_SECONDS = 1.0


class Manager:
    """The service manager systemd, if this program runs as a service that notifies it."""

    def __init__(self) -> None:
        # Removed from the environment, because the servers have nothing to notify.
        self.address = os.environ.pop("NOTIFY_SOCKET", "")
        microseconds = os.environ.pop("WATCHDOG_USEC", "")
        os.environ.pop("WATCHDOG_PID", None)
        # Seconds between two signs of life of the loop: half of what systemd asks for.
        self.pause: Optional[float] = int(microseconds) / 2e6 if microseconds.isdigit() else None
        self.told_at = 0.0
        # Seconds between two checks of the clock, so that each sign of life is in time.
        self.look_seconds = min(LOOK_SECONDS, (self.pause or LOOK_SECONDS * 2) / 2)

    def is_listening(self) -> None:
        self.tell(b"READY=1", START_WAIT)

    def is_alive(self) -> None:
        """Sends a sign of life if it is time for one. One that isn't taken is sent again at the
        next call."""
        now = time.monotonic()
        if (self.pause is not None and now > self.told_at + self.pause
                and self.tell(b"WATCHDOG=1", ALIVE_WAIT)):
            self.told_at = now

    def tell(self, words: bytes, seconds: float) -> bool:
        """Sends words, and returns whether the service manager takes them in time."""
        if self.address[:1] not in ("/", "@"):
            return False
        address = "\0" + self.address[1:] if self.address[0] == "@" else self.address
        with contextlib.suppress(OSError), socket.socket(socket.AF_UNIX,
                                                         socket.SOCK_DGRAM) as sock:
            sock.settimeout(seconds)
            # A socket with a peer can wait for it.
            sock.connect(address)
            sock.send(words)
            return True
        return False
