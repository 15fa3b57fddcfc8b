"""Clients that send requests ahead over the server's pipes, in each of the ways that docs/wire.md
calls safe, and in one that isn't; and the longest reply."""

import os
import select
import subprocess
import threading
import time
import unittest
from typing import List

from program import PROGRAM, needs_program, skip_module_in_process
from feqyldan import wire

skip_module_in_process("it is about the pipes of a process")

CLIENT = 7
# Seconds after which a test gives up waiting.
LATE = 60.0
# Bytes of replies that always fit in their pipe, however long each reply is.
AHEAD = 32_768
SIDE, COUNT = 200, 300
READ = wire.read_image(CLIENT, 1)
# Bytes of the reply to a read: length, client, op and code; format, width and height; samples.
REPLY_BYTES = 8 + 5 + SIDE * SIDE
# Bytes of the reply to ReadImage for U32 samples of 8192 by 8192.
LONGEST_REPLY = 268_435_469


def sleeps(process: int) -> bool:
    """Returns whether a process is waiting for something."""
    with open(f"/proc/{process}/stat") as file:
        return file.read().rpartition(")")[2].split()[0] == "S"


@needs_program
class TestSendingAhead(unittest.TestCase):
    def setUp(self) -> None:
        # It says so where a test ends within a request.
        process = subprocess.Popen([str(PROGRAM), "serve"], stdin=subprocess.PIPE,
                                   stdout=subprocess.PIPE, stderr=subprocess.DEVNULL, bufsize=0)
        assert process.stdin is not None and process.stdout is not None
        self.process, self.requests, self.replies = process, process.stdin, process.stdout
        self.addCleanup(process.wait)
        self.addCleanup(self.replies.close)
        self.addCleanup(self.requests.close)

    def opens(self, fmt: int, side: int) -> None:
        """Opens a context with an image, one request at a time."""
        for request in (wire.open_context(CLIENT), wire.create_image(CLIENT, fmt, side, side)):
            self.requests.write(request)
            self.assertEqual(wire.code_of(self.reply()), wire.SUCCESS)

    def bytes(self, count: int) -> bytes:
        got = bytearray()
        while len(got) < count:
            data = self.replies.read(count - len(got))
            self.assertTrue(data, "the server has ended")
            got += data
        return bytes(got)

    def reply(self) -> bytes:
        head = self.bytes(4)
        return head + self.bytes(int.from_bytes(head, "big"))

    def is_whole(self, got: bytes) -> None:
        """Checks that these bytes are the replies to all requests."""
        one = got[:REPLY_BYTES]
        self.assertEqual(int.from_bytes(one[:4], "big"), REPLY_BYTES - 4)
        self.assertEqual(one[4:8], bytes([0, CLIENT, wire.READ_IMAGE, wire.SUCCESS]))
        self.assertEqual(got, one * COUNT)

    def takes_more(self) -> bool:
        """Returns whether the server's pipe of requests can take more."""
        return bool(select.select([], [self.requests], [], 0)[1])

    def test_one_that_reads_no_reply_stops_until_it_does(self) -> None:
        self.opens(wire.U8, SIDE)
        os.set_blocking(self.requests.fileno(), False)
        asked, until = memoryview(READ * 20_000), time.monotonic() + LATE
        # Once it sleeps though there are requests to read, it waits for its reply to be taken.
        while asked and (self.takes_more() or not sleeps(self.process.pid)):
            asked = asked[self.requests.write(asked) or 0 :]
            self.assertLess(time.monotonic(), until)
        self.assertTrue(asked, "all was taken, with no reply read")
        for _ in range(20_000 - -(-len(asked) // len(READ))):
            self.assertEqual(len(self.reply()), REPLY_BYTES)

    def test_by_poll(self) -> None:
        self.opens(wire.U8, SIDE)
        for pipe in (self.requests, self.replies):
            os.set_blocking(pipe.fileno(), False)
        ready = select.poll()
        ready.register(self.replies, select.POLLIN)
        ready.register(self.requests, select.POLLOUT)
        asked, got = memoryview(READ * COUNT), bytearray()
        while len(got) < COUNT * REPLY_BYTES:
            for descriptor, _ in ready.poll(LATE * 1000) or self.fail("nothing is ready"):
                if descriptor == self.replies.fileno():
                    got += self.replies.read(65_536) or b""
                elif asked:
                    asked = asked[self.requests.write(asked) or 0 :]
                else:
                    ready.unregister(self.requests)
        self.is_whole(bytes(got))

    def test_by_a_thread(self) -> None:
        self.opens(wire.U8, SIDE)
        got: List[bytes] = []
        reader = threading.Thread(target=lambda: got.append(self.bytes(COUNT * REPLY_BYTES)))
        reader.start()
        for _ in range(COUNT):
            self.requests.write(READ)
        reader.join(LATE)
        self.is_whole(got[0])

    def test_so_much_ahead_that_its_replies_fit_into_the_pipe(self) -> None:
        # Of 2,100 bytes or so, of which a pipe holds fewest, and of more and less.
        self.opens(wire.U8, 1024)
        great = memoryview(wire.write_image(CLIENT, 1, wire.U8, 1024, 1024, bytes(1024 * 1024)))
        for name, side in enumerate((10, 45, 46, 64, 90), 2):
            self.requests.write(wire.create_image(CLIENT, wire.U8, side, side))
            self.assertEqual(wire.name_of(self.reply()), name)
            size = 13 + side * side
            count = (AHEAD - 8) // size
            # The last request has no room in its pipe: none of the replies is read before the
            # server has taken that.
            for _ in range(count):
                self.requests.write(wire.read_image(CLIENT, name))
            left = great
            while left:
                left = left[self.requests.write(left) or 0 :]
            self.assertEqual([len(self.reply()) for _ in range(count)], [size] * count)
            self.assertEqual(self.reply(), wire.reply_frame(CLIENT, wire.WRITE_IMAGE))

    def test_the_longest_reply(self) -> None:
        self.opens(wire.U32, 8192)
        self.requests.write(READ)
        self.assertEqual(int.from_bytes(self.bytes(8)[:4], "big") + 4, LONGEST_REPLY)
        left = LONGEST_REPLY - 8
        while left:
            left -= len(self.bytes(min(left, 1_000_000)))
        # A refused request has a reply of eight bytes, whatever it asked for.
        self.requests.write(wire.read_image(CLIENT, 2))
        self.assertEqual(self.reply(),
                         wire.reply_frame(CLIENT, wire.READ_IMAGE, wire.INVALID_REFERENCE))


if __name__ == "__main__":
    unittest.main()
