#!/usr/bin/env python3
"""A first stream: client 7 computes Not of an image, and client 8 can't read the result.

    examples/first_stream.py [--bytes]

Starts the server, sends the requests and prints the decoded replies. With --bytes it writes the
bytes of the stream to standard output. `examples/first_stream.py --bytes | PROGRAM serve | xxd`
then shows the reply frames themselves.
"""

import subprocess
import sys

from feqyldan import program, wire

SAMPLES = bytes([0, 10, 20, 30, 40, 50, 60, 255])
REQUESTS = [
    ("client 7 opens a context", wire.open_context(7)),
    ("... makes a U8 image of 4 by 2", wire.create_image(7, wire.U8, 4, 2)),
    ("... and another one", wire.create_image(7, wire.U8, 4, 2)),
    ("... writes 0 10 20 30 / 40 50 60 255 to the "
     "first", wire.write_image(7, 1, wire.U8, 4, 2, SAMPLES)),
    ("... computes Not of the first into the second", wire.bitwise_not(7, 1, 2)),
    ("... and reads the second", wire.read_image(7, 2)),
    ("client 8 opens a context", wire.open_context(8)),
    ("... and makes an image: it has name 1 too", wire.create_image(8, wire.S16, 2, 1)),
    ("... which is 0 everywhere", wire.read_image(8, 1)),
    ("... and can't read what client 7 calls 2", wire.read_image(8, 2)),
]


def main() -> None:
    stream = b"".join(request for _, request in REQUESTS)
    if sys.argv[1:] == ["--bytes"]:
        sys.stdout.buffer.write(stream)
        return
    run = subprocess.run([program.find(), "serve"], input=stream, stdout=subprocess.PIPE,
                         check=True)
    for (words, _), reply in zip(REQUESTS, wire.replies(run.stdout)):
        print(f"{words:55} {wire.say(reply)}")


main()
