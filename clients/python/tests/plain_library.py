"""
A stand-in for the server's library, for tests of the broker. It answers as plain_server.py does, in
the broker's process, and records the connection and the op of each frame.
"""

import itertools
from typing import Any

import plain_server
from feqyldan import core, wire
from feqyldan.broker import command_line
from feqyldan.broker.server import ReplyTooLong
from feqyldan.service.visitors import HEAD


class PlainLibrary:
    # No two connections have the same number, not even those of two servers.
    numbers = itertools.count()

    def __init__(self, *_: Any) -> None:
        self.asked = bytearray()

    def note(self, link: int, op: int) -> None:
        self.asked += link.to_bytes(2, "big") + bytes([op])

    def connect(self) -> int:
        return next(self.numbers)

    def answer(self, link: int, front: bytes, rest: memoryview, most: int) -> bytes:
        _length, client, op = HEAD.unpack_from(front)
        self.note(link, op)
        text = front[HEAD.size :] + bytes(rest)
        body = plain_server.answer(op, text, bytes(self.asked))
        code = text[0] if op == plain_server.REFUSE else 0
        if len(body) + 8 > most:
            raise ReplyTooLong(f"its reply would have {len(body) + 8} bytes")
        return wire.reply_frame(client, op, code, body)

    def disconnect(self, link: int) -> None:
        self.note(link, wire.RELEASE_CONTEXT)


def install() -> None:
    """Puts the stand-in in the place of the library."""
    core.find = lambda: "the stand-in"
    command_line.Library = PlainLibrary  # type: ignore[assignment, misc]
