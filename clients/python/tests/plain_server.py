"""
A server for tests of the broker and the door. It answers each frame SUCCESS, and records the client
and the op. Some ops do what a vision server never would.

    plain_server.py serve
"""

import struct
import sys
import time

# Ops of this server. WAIT: waits u16 milliseconds. SLOW: the same, by the number of an op of the
# vision server that may take long (VERIFY_GRAPH). MANY_BYTES: answers u32 bytes. WHO_ASKED:
# answers the client (u16) and the op (u8) of each frame. EXIT: ends with a status (u8). MISTAKE:
# answers another client. HOLD: waits until the named pipe at a path was written to its end. REFUSE:
# refuses with a code (u8). ECHO: answers its body.
WAIT, MANY_BYTES, WHO_ASKED, EXIT, MISTAKE, HOLD, REFUSE = 100, 101, 102, 103, 104, 105, 106
ECHO = 107
SLOW = 22


def answer(op: int, body: bytes, asked: bytes) -> bytes:
    if op in (WAIT, SLOW):
        time.sleep(int.from_bytes(body[:2], "big") / 1000)
    if op == HOLD:
        with open(body, "rb") as pipe:
            pipe.read()
    if op == MANY_BYTES:
        return bytes(struct.unpack(">I", body)[0])
    if op == EXIT:
        sys.exit(body[0])
    return {WHO_ASKED: asked, ECHO: body}.get(op, b"")


def main() -> None:
    source, sink = sys.stdin.buffer, sys.stdout.buffer
    asked = bytearray()
    while True:
        head = source.read(4)
        if not head:
            return
        frame = source.read(int.from_bytes(head, "big"))
        client, op = struct.unpack_from(">HB", frame)
        asked += frame[:3]
        body, code = answer(op, frame[3:], bytes(asked)), frame[3] if op == REFUSE else 0
        sink.write(struct.pack(">IHBB", len(body) + 4, client + (op == MISTAKE), op, code) + body)
        sink.flush()


if __name__ == "__main__":
    main()
