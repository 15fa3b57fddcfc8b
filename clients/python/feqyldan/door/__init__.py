"""
The door: a Unix socket at which each connection gets a server of its own.

    python3 -m feqyldan.door --socket PATH [OPTION..] -- PROGRAM serve [WORD..]

The door listens at the path. For each connection it starts the program, with the connection as its
standard input and output. No byte of a request or a reply passes through the door.

What connections can rely on, and how it is ensured:

- The kernel isolates servers from each other, gives each its share of the processors, and counts
  what it uses. Whatever one program sends, leaves half sent or doesn't read affects only its own
  server.
- When a connection ends, its server is killed, since nobody can read its replies any more.
- A server that ends affects only its own connection. Nothing is started again: the program connects
  again.
- The door's own end affects no connection: if it is killed, servers and programs go on.

The door counts connections: all, those of a process and those of a user. It turns away those over a
limit. One server is started after another, by a small process of the door that does nothing else.
The next one is for the user whose last start is the longest ago.
"""

from .command_line import main

__all__ = ["main"]
