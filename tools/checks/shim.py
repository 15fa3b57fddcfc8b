"""Libraries in C that a check loads before the C library (LD_PRELOAD), to change what that does."""

import contextlib
import os
import subprocess
import tempfile
from typing import Iterator


@contextlib.contextmanager
def built(source: str) -> Iterator[str]:
    """Builds a library from a source in tools/checks, which is gone after the context. Yields its
    path."""
    path = os.path.join(os.path.dirname(os.path.abspath(__file__)), source)
    with tempfile.TemporaryDirectory() as folder:
        library = os.path.join(folder, "shim.so")
        subprocess.run(["cc", "-O1", "-shared", "-fPIC", "-o", library, path, "-ldl"], check=True)
        yield library
