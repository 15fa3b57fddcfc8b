"""The events of a loop: descriptors that can be read or written."""

import select
from typing import Any, Callable, Dict, List, Optional, Tuple

READ, WRITE = select.EPOLLIN, select.EPOLLOUT
Handler = Callable[[int], None]
# Calls a function that may need more memory, with arguments, and returns what it returns.
Take = Callable[..., Any]
# The most events that are handled before others are looked for. Their list is small enough for the
# memory that Python keeps for itself.
EVENTS_AT_ONCE = 40


class Events:
    """The watched descriptors, each with the function that handles its events. Uses epoll directly,
    because the layer of `selectors` costs as much as a small request."""

    def __init__(self) -> None:
        self.epoll = select.epoll()
        self.handlers: Dict[int, Handler] = {}
        self.take: Take = lambda call, *arguments: call(*arguments)

    def watch(self, descriptor: int, wanted: int, handler: Handler) -> None:
        """Watches a descriptor for READ, WRITE or both. For 0, stops watching it."""
        if not wanted:
            self.forget(descriptor)
            return
        if descriptor in self.handlers:
            self.epoll.modify(descriptor, wanted)
            self.handlers[descriptor] = handler
        else:
            self.take(self.add, descriptor, wanted, handler)

    def watch_end(self, descriptor: int, handler: Handler) -> None:
        """Watches a connection only for the end of both of its directions."""
        self.take(self.add, descriptor, 0, handler)

    def add(self, descriptor: int, wanted: int, handler: Handler) -> None:
        # First, because it may need memory: a descriptor that epoll has can't be added again.
        self.handlers[descriptor] = handler
        try:
            self.epoll.register(descriptor, wanted)
        except BaseException:
            del self.handlers[descriptor]
            raise

    def forget(self, descriptor: int) -> None:
        """Stops watching a descriptor that is about to be closed."""
        if self.handlers.pop(descriptor, None):
            self.epoll.unregister(descriptor)

    def ready(self, seconds: Optional[float]) -> List[Tuple[Handler, int]]:
        """Returns the events that come within this many seconds. A descriptor at its end, or
        broken, is ready for everything."""
        return [
            (self.handlers[descriptor],
             (READ if mask & ~WRITE else 0) | (WRITE if mask & ~READ else 0))
            for descriptor, mask in self.epoll.poll(seconds, EVENTS_AT_ONCE)
            if descriptor in self.handlers]

    def close(self) -> None:
        self.epoll.close()
