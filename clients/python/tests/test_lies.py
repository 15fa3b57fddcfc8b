"""Servers that send replies against the protocol: each reply is checked before memory is allocated
for it, and ends the connection."""

import os
import pwd
import resource
import socket
import struct
import tempfile
import threading
import unittest

from program import answering, skip_module_in_process, vx
from feqyldan import wire

skip_module_in_process("a library found by this package is trusted")

OPENED = wire.reply_frame(0, wire.OPEN_CONTEXT)


def made(op):
    return wire.reply_frame(0, op, 0, struct.pack(">I", 1))


IMAGE, COUNTS = made(wire.CREATE_IMAGE), made(wire.CREATE_DISTRIBUTION)
# By the op of the wrong reply: the replies before it, the length of a right body, and the call.
ASKS = {
    wire.CREATE_IMAGE: ((), 4, lambda context: context.image(vx.U8, 3, 2)),
    wire.WRITE_IMAGE: ((IMAGE,), 0, lambda context: context.image(vx.U8, 3, 2).write(bytes(6))),
    wire.READ_IMAGE: ((IMAGE,), 11, lambda context: context.image(vx.U8, 3, 2).read()),
    wire.READ_IMAGE_PGM: ((IMAGE,), 17, lambda context: context.image(vx.U8, 3, 2).read_pgm()),
    wire.QUERY_IMAGE: ((IMAGE,), 13, lambda context: context.image(vx.U8, 3, 2).query()),
    wire.READ_DISTRIBUTION: ((COUNTS,), 22, lambda context: context.distribution(5).read()),
    wire.READ_MIN_MAX: ((made(wire.CREATE_MIN_MAX),), 20, lambda context: context.min_max().read()),
    wire.PROCESS_GRAPH: ((made(wire.CREATE_GRAPH),), 0, lambda context: context.graph().process())}


class TestLies(unittest.TestCase):
    def test_a_body_of_another_length(self):
        for op, (before, size, ask) in ASKS.items():
            for other in {0, 1, size - 1, size + 1, size + 1000} - {size, -1}:
                with self.subTest(op=op, size=other):
                    self.is_unexpected(ask, before, wire.reply_frame(0, op, 0, bytes(other)),
                                       f"has a body of {other} bytes, not of {size}")

    def test_a_refusal_with_a_body(self):
        for op, (before, _, ask) in ASKS.items():
            self.is_unexpected(ask, before, wire.reply_frame(0, op, wire.NO_MEMORY, b"\0"),
                               "with code NO_MEMORY has a body of 1 bytes, not of 0")

    def test_what_is_of_another_object(self):
        before, _, ask = ASKS[wire.READ_IMAGE]
        for words in (">BHH", 1, 2, 3), (">BHH", 2, 3, 1):
            body = struct.pack(*words) + bytes(6)
            self.is_unexpected(ask, before, wire.reply_frame(0, wire.READ_IMAGE, 0, body),
                               "the reply is of another object: its body begins with 0.*, not with "
                               "01 00 03 00 02")
        before, _, ask = ASKS[wire.READ_DISTRIBUTION]
        lie = wire.reply_frame(0, wire.READ_DISTRIBUTION, 0, b"\0\6" + bytes(20))
        self.is_unexpected(ask, before, lie, "the reply is of another object")

    def test_a_format_that_no_image_has(self):
        before, _, ask = ASKS[wire.QUERY_IMAGE]
        lie = wire.reply_frame(0, wire.QUERY_IMAGE, 0, struct.pack(">BHH4H", 9, 3, 2, 0, 0, 3, 2))
        released = [wire.reply_frame(0, op) for op in (wire.RELEASE, wire.RELEASE_CONTEXT)]
        program = answering(OPENED, *before, lie, *released)
        with vx.Server(program) as server, server.context() as context:
            with self.assertRaisesRegex(vx.UnexpectedReply, "an image of the unknown format 9; "
                                        r"the formats are 1 \(U8\), 2 \(S16\), 3 \(U32\)"):
                ask(context)

    def is_unexpected(self, ask, before, lie, words):
        program = answering(OPENED, *before, lie, end="source.read()")
        with self.assertRaisesRegex(vx.UnexpectedReply, words):
            with vx.Server(program) as server, server.context() as context:
                try:
                    ask(context)
                finally:
                    # Nothing more is asked of such a server.
                    self.assertIsNotNone(context._connection.fault)

    def test_no_memory_is_taken_for_the_head_of_a_great_reply(self):
        before, _, ask = ASKS[wire.READ_IMAGE]
        head = struct.pack(">IHBB", 4 + 5 + 4 * 8192 * 8192, 0, wire.READ_IMAGE, 0)
        peak = resource.getrusage(resource.RUSAGE_SELF).ru_maxrss
        self.is_unexpected(ask, before, head, "has a body of 268435461 bytes, not of 11")
        self.assertLess(resource.getrusage(resource.RUSAGE_SELF).ru_maxrss - peak, 50_000)


class TestOwner(unittest.TestCase):
    """The owner of a listening socket is checked if one is given."""

    def setUp(self):
        folder = tempfile.TemporaryDirectory()
        self.addCleanup(folder.cleanup)
        self.path = os.path.join(folder.name, "socket")
        self.listener = socket.socket(socket.AF_UNIX)
        self.addCleanup(self.listener.close)
        self.listener.bind(self.path)
        self.listener.listen(5)

    def answer_one(self):
        sock, _ = self.listener.accept()
        with sock:
            sock.recv(7)
            sock.sendall(OPENED)
            sock.recv(7)

    def test_the_owner_that_was_given(self):
        for owner in (os.getuid(), pwd.getpwuid(os.getuid()).pw_name):
            answers = threading.Thread(target=self.answer_one)
            answers.start()
            with vx.connect(self.path, owner=owner) as server:
                server.context()
            answers.join()

    def test_another_user(self):
        for owner in (os.getuid() + 1, "nobody" if os.getuid() != 65534 else "root"):
            with self.assertRaisesRegex(PermissionError, f"user {os.getuid()} listens there, "
                                        "not the owner that was given, user "):
                vx.connect(self.path, owner=owner)
            # It was told nothing.
            sock, _ = self.listener.accept()
            self.assertEqual(sock.recv(1), b"")
            sock.close()

    def test_no_such_user(self):
        for wrong in ("no such user", b"root", 1.5):
            with self.assertRaisesRegex(ValueError, f"owner .* of this machine, not {wrong!r}"):
                vx.connect(self.path, owner=wrong)


if __name__ == "__main__":
    unittest.main()
