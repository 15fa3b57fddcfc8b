"""The connections that wait for their servers."""

import socket
from collections import deque
from typing import Deque, Dict, Tuple

from ..service.admission import Owner

Connection = Tuple[socket.socket, Owner]
# The most users whose last starts are known.
USERS = 1024


class Waiting:
    """Connections in the order in which their servers are started. The next one is of the user
    whose last start is the longest ago. So however many connections of others wait, a user that
    connects seldom waits for no more than the start in progress."""

    def __init__(self) -> None:
        self.queues: Dict[int, Deque[Connection]] = {}
        # How many starts there were up to a user's last one, in the order of these starts.
        self.starts = 0
        self.last: Dict[int, int] = {}

    def __len__(self) -> int:
        return sum(map(len, self.queues.values()))

    def add(self, sock: socket.socket, owner: Owner) -> None:
        self.queues.setdefault(owner.counted, deque()).append((sock, owner))

    def take(self) -> Connection:
        """Removes and returns the connection whose server is started next."""
        user = min(self.queues, key=lambda each: self.last.get(each, 0))
        taken = self.queues[user].popleft()
        if not self.queues[user]:
            del self.queues[user]
        self.count_start(user)
        return taken

    def count_start(self, user: int) -> None:
        self.starts += 1
        self.last.pop(user, None)
        self.last[user] = self.starts
        if len(self.last) > USERS:
            # The oldest start is as good as none.
            del self.last[next(iter(self.last))]
