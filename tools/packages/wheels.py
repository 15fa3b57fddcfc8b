"""Builds wheels: the Python package alone, and with the server as programs and as libraries."""

import base64
import hashlib
import os
import subprocess
import sys
import time
import zipfile
from typing import Dict, Tuple

from . import Machine, PYTHON

# The folder in which feqyldan.program looks for the programs and the libraries.
FOLDER = "feqyldan/programs"
PURE_TAG = "py3-none-any"


def python() -> str:
    """Returns a Python that has pip."""
    asked = "from importlib.util import find_spec\nraise SystemExit(not find_spec('pip'))"
    for path in (sys.executable, "/usr/bin/python3"):
        if not subprocess.run([path, "-c", asked], check=False).returncode:
            return path
    sys.exit("tools/package: neither python3 nor /usr/bin/python3 has pip: install it (Debian's "
             "python3-pip)")


def pure(folder: str) -> str:
    """Builds the wheel of the Python package in a folder, and returns its path."""
    run = subprocess.run([python(), "-m", "pip", "wheel", "--no-index", "--no-deps",
                          "--wheel-dir", folder, PYTHON],
                         stdout=subprocess.PIPE, stderr=subprocess.STDOUT, text=True, check=False)
    if run.returncode:
        sys.exit(f"{run.stdout}\ntools/package: pip ended with status {run.returncode}")
    name, = os.listdir(folder)
    return os.path.join(folder, name)


def entries_of(path: str) -> Dict[str, bytes]:
    """Returns the files of a wheel by name, except RECORD."""
    with zipfile.ZipFile(path) as archive:
        return {name: archive.read(name)
                for name in archive.namelist() if not name.endswith(".dist-info/RECORD")}


def with_programs(path: str, programs: Dict[str, bytes], c_library: Tuple[int, int],
                  folder: str, machine: Machine) -> str:
    """Builds a wheel with the programs, for machines with at least this C library. Returns its
    path."""
    tag = f"py3-none-manylinux_{c_library[0]}_{c_library[1]}_{machine.wheel}"
    entries = entries_of(path)
    about, = (name for name in entries if name.endswith(".dist-info/WHEEL"))
    said = entries[about].decode()
    entries[about] = (said.replace(PURE_TAG, tag)
                      .replace("Root-Is-Purelib: true", "Root-Is-Purelib: false").encode())
    entries.update((f"{FOLDER}/{name}", data) for name, data in programs.items())
    listed = about.replace("WHEEL", "RECORD")
    entries[listed] = record(entries, listed)
    target = os.path.join(folder, os.path.basename(path).replace(PURE_TAG, tag))
    write(target, entries)
    return target


def record(entries: Dict[str, bytes], listed: str) -> bytes:
    """Returns the RECORD of a wheel, with the digest and the length of each file."""
    lines = []
    for name, data in entries.items():
        digest = base64.urlsafe_b64encode(hashlib.sha256(data).digest()).rstrip(b"=").decode()
        lines.append(f"{name},sha256={digest},{len(data)}\n")
    return "".join([*lines, f"{listed},,\n"]).encode()


def write(path: str, entries: Dict[str, bytes]) -> None:
    date = time.gmtime(int(os.environ["SOURCE_DATE_EPOCH"]))[:6]
    with zipfile.ZipFile(path, "w", zipfile.ZIP_DEFLATED) as archive:
        for name, data in entries.items():
            info = zipfile.ZipInfo(name, date)
            mode = 0o100755 if name.startswith(FOLDER) else 0o100644
            info.external_attr, info.compress_type = mode << 16, zipfile.ZIP_DEFLATED
            archive.writestr(info, data)
