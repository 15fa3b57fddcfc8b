"""Exchanges PGM texts between the server, Netpbm and OpenCV: each reads the others' output."""

import os
import random
import shutil
import struct
import subprocess
import sys
from typing import Iterator, List, NamedTuple, Sequence, Tuple, Union

from feqyldan import wire

CLIENT = 7
INVALID_FORMAT = 5
SIZES = ((1, 1), (1, 7), (9, 1), (16, 4), (33, 17), (200, 150), (8192, 2))
# Netpbm treats pictures with a maxval of 1 as bitmaps, and writes no grey maps of them.
MAXVALS = (2, 15, 100, 254, 255, 256, 1000, 4095, 32767, 65535)
GREATEST = 32767

# The width, the height and the samples of a text.
Read = Tuple[int, int, List[int]]


class Picture(NamedTuple):
    width: int
    height: int
    maxval: int
    samples: List[int]


class Text(NamedTuple):
    """A text that another program made of a picture, and the command that made it."""

    words: str
    text: bytes
    picture: Picture


def check(condition: object, what: str) -> None:
    if not condition:
        sys.exit(f"check_pgm: {what}")


def pictures() -> Iterator[Picture]:
    """Returns noise that includes the least and the greatest sample."""
    rng = random.Random(7)
    for maxval in MAXVALS:
        for width, height in SIZES:
            samples = [rng.randint(0, maxval) for _ in range(width * height - 1)]
            yield Picture(width, height, maxval,
                          [maxval, *samples] if maxval % 2 else [*samples, 0])


def is_byte(picture: Picture) -> bool:
    return picture.maxval < 256


def plain(picture: Picture) -> bytes:
    """Returns the simplest text of a picture, as input for Netpbm."""
    head = f"P2 {picture.width} {picture.height} {picture.maxval}\n"
    return (head + "\n".join(map(str, picture.samples)) + "\n").encode()


# ---- the other programs: their output, and their readings


class Netpbm:
    name, package = "Netpbm", "netpbm"
    # Tools that convert a picture, and tools that make one.
    COPIES = (("pnmtopnm",), ("pamtopnm",), ("pnmtoplainpnm",))
    MAKERS = (
        ("pgmmake", "0.3", "31", "5"), ("pgmmake", "-maxval=1000", "0.7", "5", "31"),
        ("pgmmake", "-plain", "1", "3", "3"), ("pgmramp", "-lr", "300", "4"),
        ("pgmramp", "-tb", "-maxval=32767", "4", "300"), ("pgmramp", "-plain", "-lr", "40", "2"),
        ("pgmnoise", "-randomseed=1", "50", "40"),
        ("pgmnoise", "-randomseed=1", "-plain", "-maxval=999", "50", "40"),
    )

    @staticmethod
    def is_here() -> bool:
        return shutil.which("pnmtoplainpnm") is not None

    @staticmethod
    def run(words: Sequence[str], text: bytes = b"") -> bytes:
        return subprocess.run(words, input=text, capture_output=True, timeout=60, check=True).stdout

    def numbers(self, text: bytes) -> List[int]:
        """Returns the width, the height, the maxval and the samples."""
        magic, *numbers = self.run(("pnmtoplainpnm",), text).split()
        check(magic == b"P2", f"Netpbm makes {magic!r} of {text[:20]!r}")
        return [*map(int, numbers)]

    def read(self, texts: Sequence[bytes]) -> Iterator[Read]:
        """Returns the width, the height and the samples of each text."""
        for text in texts:
            width, height, _, *samples = self.numbers(text)
            yield width, height, samples

    def texts(self) -> Iterator[Text]:
        here = [words for words in self.COPIES if shutil.which(words[0])]
        for picture in pictures():
            for words in here:
                yield Text(f"{words[0]} of a maxval of {picture.maxval}",
                           self.run(words, plain(picture)), picture)
        for maker in self.MAKERS:
            if shutil.which(maker[0]):
                text = self.run(maker)
                width, height, maxval, *samples = self.numbers(text)
                yield Text(" ".join(maker), text, Picture(width, height, maxval, samples))


# Reads a line for each picture, and answers in one line. "read TEXT" returns the width, the height
# and the samples. "raw" and "plain", with a width, a height, the bytes of a sample and the samples,
# return the text. All bytes are in hex.
OPENCV = """
import sys, cv2, numpy
for line in sys.stdin:
    word, *fields = line.split()
    if word == "read":
        text = numpy.frombuffer(bytes.fromhex(fields[0]), numpy.uint8)
        picture = cv2.imdecode(text, cv2.IMREAD_UNCHANGED)
        print(picture.shape[1], picture.shape[0], *picture.ravel())
    else:
        width, height, size = map(int, fields[:3])
        samples = numpy.frombuffer(bytes.fromhex(fields[3]), numpy.uint8 if size == 1 else ">u2")
        picture = samples.astype(numpy.uint8 if size == 1 else numpy.uint16).reshape(height, width)
        is_raw = [cv2.IMWRITE_PXM_BINARY, int(word == "raw")]
        print(cv2.imencode(".pgm", picture, is_raw)[1].tobytes().hex())
"""


class OpenCv:
    name, package = "OpenCV", "python3-opencv"

    def __init__(self) -> None:
        self.python = next((python
                            for python in (sys.executable, "/usr/bin/python3")
                            if self.has_opencv(python)), None)

    @staticmethod
    def has_opencv(python: str) -> bool:
        try:
            return subprocess.run([python, "-c", "import cv2"], capture_output=True,
                                  timeout=60).returncode == 0
        except OSError:
            return False

    def is_here(self) -> bool:
        return self.python is not None

    def ask(self, lines: List[str]) -> List[str]:
        run = subprocess.run([str(self.python), "-c", OPENCV], input="\n".join(lines),
                             capture_output=True, text=True,
                             timeout=120, check=True)
        return run.stdout.splitlines()

    def read(self, texts: Sequence[bytes]) -> Iterator[Read]:
        for answer in self.ask([f"read {text.hex()}" for text in texts]):
            width, height, *samples = map(int, answer.split())
            yield width, height, samples

    def texts(self) -> Iterator[Text]:
        """Yields OpenCV's texts of the pictures. It writes only the maxvals 255 and 65535."""
        known = [(word, picture) for word in ("raw", "plain") for picture in pictures()
                 if picture.maxval in (255, 65535)]
        lines = []
        for word, picture in known:
            letter = "B" if is_byte(picture) else "H"
            samples = struct.pack(f">{len(picture.samples)}{letter}", *picture.samples)
            size = f"{picture.width} {picture.height} {struct.calcsize(letter)}"
            lines.append(f"{word} {size} {samples.hex()}")
        for (word, picture), answer in zip(known, self.ask(lines)):
            yield Text(f"OpenCV's {word} text of a maxval of {picture.maxval}",
                       bytes.fromhex(answer), picture)


# A program whose texts are compared with the server's.
Program = Union[Netpbm, OpenCv]


# ---- comparison with the server


def requests_on(name: int, fmt: int, text: Text) -> List[bytes]:
    """Returns the requests that write a text to an image, and read it back in both ways."""
    width, height = text.picture.width, text.picture.height
    return [wire.create_image(CLIENT, fmt, width, height),
            wire.write_image_pgm(CLIENT, name, text.text),
            wire.read_image(CLIENT, name), wire.read_image_pgm(CLIENT, name)]


def served(program: str, texts: Sequence[Text]) -> List[Text]:
    """Checks how the server reads the texts, and returns its own text of each one-byte picture."""
    requests = [wire.open_context(CLIENT)]
    for name, text in enumerate(texts, 1):
        requests += requests_on(name, wire.U8 if is_byte(text.picture) else wire.S16, text)
    run = subprocess.run([program, "serve"], input=b"".join(requests), capture_output=True,
                         timeout=120, check=True)
    replies = wire.replies(run.stdout)
    check(len(replies) == len(requests), f"{len(replies)} replies to {len(requests)} requests")
    written = []
    for text, (_, wrote, read, text_read) in zip(texts, zip(*[iter(replies[1:])] * 4)):
        allowed = text.picture.maxval <= GREATEST
        codes = [wire.code_of(wrote), wire.code_of(text_read)]
        check(codes[0] == (0 if allowed else INVALID_FORMAT), f"{text.words}: code {codes[0]}")
        if allowed:
            samples = [sample for row in wire.rows_of(read) for sample in row]
            check(samples == text.picture.samples, f"{text.words}: other samples")
        check(codes[1] == (0 if is_byte(text.picture) else INVALID_FORMAT),
              f"{text.words}, read as a text: code {codes[1]}")
        if is_byte(text.picture):
            written.append(Text(f"ReadImagePgm after {text.words}", wire.text_of(text_read),
                                text.picture))
    return written


FUNCTIONS = {"not": wire.NOT_BITS, "box": wire.BOX, "gaussian": wire.GAUSSIAN,
             "median": wire.MEDIAN,
             "erode": wire.ERODE, "dilate": wire.DILATE}


def immediate(program: str, text: Text, function: str) -> List[int]:
    """Returns the result of Immediate on a text's picture with REPLICATE."""
    width, height = text.picture.width, text.picture.height
    stream = [wire.open_context(CLIENT), *requests_on(1, wire.U8, text),
              wire.create_image(CLIENT, wire.U8, width, height),
              wire.immediate(CLIENT, FUNCTIONS[function], 1, None, 2, border=wire.REPLICATE),
              wire.read_image(CLIENT, 2)]
    run = subprocess.run([program, "serve"], input=b"".join(stream), capture_output=True,
                         timeout=120, check=True)
    return [sample for row in wire.rows_of(wire.replies(run.stdout)[-1]) for sample in row]


def applied(program: str, texts: Sequence[Text]) -> Iterator[Text]:
    """Compares the output of `apply` with the samples of Immediate. It refuses texts of two
    bytes."""
    words = list(FUNCTIONS)
    for at, text in enumerate(texts):
        function = words[at % len(words)]
        run = subprocess.run([program, "apply", function, "--border=replicate"], input=text.text,
                             capture_output=True,
                             timeout=120)
        what = f"apply {function} on {text.words}"
        if not is_byte(text.picture):
            told = run.returncode, run.stdout, run.stderr
            check(told == (5, b"", b"INVALID_FORMAT\n"), f"{what}: {told}")
            continue
        check((run.returncode, run.stderr) == (0, b""),
              f"{what}: status {run.returncode}, {run.stderr!r}")
        yield Text(what, run.stdout,
                   text.picture._replace(samples=immediate(program, text, function)))


def check_read_back(reader: Program, texts: Sequence[Text]) -> None:
    read = [*reader.read([text.text for text in texts])]
    check(len(read) == len(texts),
          f"{reader.name} reads {len(read)} pictures of {len(texts)} texts")
    for text, got in zip(texts, read):
        wanted = text.picture.width, text.picture.height, text.picture.samples
        check(got == wanted, f"{text.words}: {reader.name} reads another picture")


def main() -> None:
    if len(sys.argv) != 2:
        sys.exit("usage: tools/check_pgm PROGRAM")
    program = os.path.abspath(sys.argv[1])
    others: List[Program] = []
    candidates: Tuple[Program, ...] = (Netpbm(), OpenCv())
    for other in candidates:
        if other.is_here():
            others.append(other)
        else:
            print(f"check_pgm: {other.name} isn't here (Debian's package {other.package}), and "
                  "isn't compared")
    if not others:
        return
    texts = [text for other in others for text in other.texts()]
    written = [*served(program, texts), *applied(program, texts)]
    for other in others:
        check_read_back(other, written)
    names = " and ".join(other.name for other in others)
    print(f"check_pgm: {len(texts)} texts of {names} were read as they were meant, "
          f"and {len(written)} of the server's read back")
