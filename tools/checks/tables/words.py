"""Command line arguments: refused ones, and the effect of the others."""

import os
import subprocess
import tempfile
from typing import Tuple

from feqyldan import wire
from checks.sessions.rows import CLIENT
from checks.tables.program import Program, Word, check

# Arguments that are not a number from 1 to 2^40 in decimal digits.
NO_BYTES = (
    "", "0", "00", "1099511627777", "18446744073709551615", "18446744073709551616",
    "18446744073709551624", "9" * 40, "+8", "-8", "--8", "++8", "8+", "eight", "8k", "k8", "0x8",
    "8h", "ff", "1e3", "8.0", "8,000", "1_000", " 8", "8 ", "8\n", "\u0668", "\u00b2", "--help8",
)


def refused_for(option: str) -> Tuple[Tuple[Word, ...], ...]:
    """Returns arguments of numeric options that are refused."""
    return (
        *(("serve", option, word) for word in NO_BYTES),
        *(("serve", f"{option}={word}") for word in NO_BYTES),
        ("serve", option), ("serve", option, "8", option, "8"),
        ("serve", f"{option}=8", option, "9"), ("serve", option, "8", "9"),
        ("serve", option, b"\xff"), ("serve", option.encode() + b"=8\xff"),
        ("serve", option[:-1], "8"), ("serve", option.upper(), "8"), ("serve", option[1:], "8"),
        ("serve", "--", option, "8"), ("serve", option[2:], "8"), (option, "8"),
        (option, "8", "serve"))


REFUSED_WORDS: Tuple[Tuple[Word, ...], ...] = (
    *refused_for("--quota"), *refused_for("--work"),
    ("serve", "--quota", "8", "--work"), ("serve", "--quota", "--work", "8"),
    ("serve", "--quota", "8", "--work", "0"), ("serve", "--quota", "0", "--work", "8"),
    ("serve", "--work=8", "--quota=8", "--work=8"),
    ("serve", "--quota", "8", "--border", "replicate"), ("--quota", "8", "serve", "--work", "8"),
    ("serve", "serve"),
)

NO_FUNCTIONS: Tuple[Word, ...] = (
    "", "Not", "NOT", "NotBits", "and", "sobel", "convolve", "histogram", "boxes", "bo", " box",
    "box ", "box\n", "box,not", "4", "14", "-", "-box", "--box", "undefined", "replicate",
    "picture.pgm", b"box\xff",
)
NO_BORDERS: Tuple[Word, ...] = (
    "", "Undefined", "REPLICATE", "constant", "constant=5", "mirror", "undef", " replicate",
    "replicate ", "undefined,replicate", "0", "2", "-1", "box", "--border", b"\xff",
)
BOX_WITH = ("apply", "box")
REFUSED_APPLY_WORDS: Tuple[Tuple[Word, ...], ...] = (
    *(("apply", word, *border) for word in NO_FUNCTIONS
      for border in ((), ("--border", "replicate"))),
    *((*BOX_WITH, "--border", word) for word in NO_BORDERS),
    *((*BOX_WITH, f"--border={word}") for word in NO_BORDERS if isinstance(word, str)),
    ("apply",), ("apply", "--border", "replicate"), (*BOX_WITH, "--border"),
    (*BOX_WITH, "--border", "replicate", "--border", "replicate"),
    (*BOX_WITH, "--border=replicate", "--border=undefined"), (*BOX_WITH, "--bord", "replicate"),
    (*BOX_WITH, "--Border", "replicate"), (*BOX_WITH, "-b", "replicate"),
    (*BOX_WITH, "-border", "replicate"), (*BOX_WITH, "border", "replicate"),
    (*BOX_WITH, "replicate"), (*BOX_WITH, "box"), (*BOX_WITH, "not"),
    (*BOX_WITH, "--", "not"), (*BOX_WITH, "-"), (*BOX_WITH, "--constant", "5"),
    (*BOX_WITH, "--quota", "8"), (*BOX_WITH, "--work", "8"), ("apply", "--quota", "8", "box"),
    ("apply", *BOX_WITH), ("--border", "replicate", *BOX_WITH), ("serve", "--border", "replicate"),
    ("serve", "box"), ("serve", *BOX_WITH), ("box",), ("box", "apply"), ("Apply", "box"),
    ("appl", "box"), (b"apply\xff", "box"),
)
WORDS: Tuple[Tuple[Tuple[Word, ...], int, bytes, bytes], ...] = (
    # Arguments, the status, and the expected standard output and standard error.
    (("--version",), 0, b"vx_main 0.1.0\n", b""),
    (("--help",), 0, b"Usage: vx_main", b""),
    (("serve", "--help"), 0, b"Usage: vx_main serve", b""),
    (("serve", "--help"), 0,
     b"--quota <BYTES>  Most sample bytes of each client's images, 1 to 1099511627776 "
     b"[default: 268435456]", b""),
    (("serve", "--help"), 0, b"--work <BYTES> ", b""),
    (("serve", "--help"), 0, b"\n  kept graphs  ", b""),
    ((), 2, b"", b"Usage: vx_main"),
    (("apply", "--help"), 0, b"Usage: vx_main apply", b""),
    (("apply",), 2, b"", b"Usage: vx_main"),
    (("apply", "box", "--border"), 2, b"", b"--border"),
    (("serve", "now"), 2, b"", b"Usage: vx_main"),
    (("serve", "--quota", "0"), 2, b"", b"invalid value '0' for '--quota <BYTES>': it must be"),
    (("apply", "blur"), 2, b"", b"invalid value 'blur' for '<FUNCTION>': it must be not, box"),
    (("apply", "box", "--border", "wrap"), 2, b"",
     b"invalid value 'wrap' for '--border <BORDER>': it must be undefined or replicate"),
    (("serve", "--quota"), 2, b"", b"'--quota <BYTES>'"),
    (("serve", "--quota", "8", "--quota", "8"), 2, b"", b"Usage: vx_main serve"),
    (("serve", "--work", "0"), 2, b"", b"Usage: vx_main serve"),
    (("serve", "--work"), 2, b"", b"'--work <BYTES>'"),
    (("serve", "--work", "8", "--work", "8"), 2, b"", b"Usage: vx_main serve"),
    (("--work", "8", "serve"), 2, b"", b"Usage: vx_main"),
    ((b"\xff",), 2, b"", b"error: the command line has a word that isn't UTF-8\n"),
)


def check_refused_words(program: Program) -> None:
    """Checks that nothing is read, and nothing is written to standard output."""
    with tempfile.TemporaryFile() as stream:
        stream.write(wire.open_context(CLIENT))
        stream.flush()
        for words in REFUSED_WORDS + REFUSED_APPLY_WORDS:
            stream.seek(0)
            run = subprocess.run([program.path, *words], stdin=stream, capture_output=True,
                                 timeout=60)
            program.runs += 1
            check((run.returncode, run.stdout) == (2, b"") and run.stderr.startswith(b"error: "),
                  f"the words {words}: {run}")
            check(os.lseek(stream.fileno(), 0, os.SEEK_CUR) == 0,
                  f"the words {words}: standard input was read")


def check_words(program: Program) -> None:
    for words, status, output, line in WORDS:
        got = program.run(wire.open_context(CLIENT), words)
        check(got[0] == status and output in got[1] and line in got[2]
              and bool(output) == bool(got[1]) and bool(line) == bool(got[2]),
              f"the words {words}: {got}")
