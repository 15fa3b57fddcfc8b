"""
The broker: a Unix socket that shares servers among several programs. The servers are in this
process: each is one of the library (feqyldan.core), and a thread calls it.

    python3 -m feqyldan.broker --socket PATH [--servers N] [OPTION ..]

Each connection of the socket is a connection of one of the servers (feqyldan_connect), which has
its clients apart. So frames and replies pass as they are. What connections can rely on, and how it
is ensured:

- A frame is served only once all of it has come.
- All frames of a connection go to one server: the one with the fewest connections when it sent its
  first frame.
- The connections of a server take turns. A turn is either several short requests, up to some
  thousand bytes, or one request that may take long. The next turn goes to the connection that has
  used the least of the server's time. So a short request waits only for the current turn, and
  connections with long requests share the server's time.
- A reply that its connection doesn't read waits in the broker, and delays only that connection: no
  further request of it is served meanwhile. So the broker holds a request, a reply and a little
  more for each connection.
- When a connection ends, for whatever reason, its contexts are released. Until then it counts as a
  connection of its process, so that a program that connects and leaves as fast as it can doesn't
  use up the others' connections.

One thread has one loop over the descriptors that are ready. It makes no call that waits for a
connection. It calls a server only where that takes some microseconds, as little as to wake the
server's thread; every other turn is the thread's.
"""

from .command_line import main

__all__ = ["main"]
