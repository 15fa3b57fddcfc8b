"""The Debian package of the GStreamer element. It has the C library inside, and needs a server: a
program, a socket, or the library of the package libfeqyldan0."""

import os
import platform
import shutil
import subprocess
import sys
import tempfile
from typing import Callable, Dict, List, Tuple

import feqyldan

from . import ROOT, Machine, debian

CLIENTS = os.path.join(ROOT, "clients")
NAME = "gstreamer1.0-feqyldan"
HEADERS = ("gstreamer-video-1.0", "json-glib-1.0")
DESCRIPTION = """GStreamer element for the vision server Feqyldan
 The element feqyldan runs a graph of OpenVX functions on each grey frame of a
 pipeline. Scalars, counts and extremes leave as messages and with the frames. A
 server does the computing. The element starts one, connects to a socket, or runs
 the server of libfeqyldan0 in the pipeline's process."""
# The oldest versions that have what the plugin uses: custom metas came with GStreamer 1.20.
NEEDED = ("libgstreamer1.0-0 (>= 1.20)", "libgstreamer-plugins-base1.0-0 (>= 1.20)",
          "libglib2.0-0 (>= 2.66)", "libjson-glib-1.0-0 (>= 1.6)")


def has_headers() -> bool:
    return (shutil.which("pkg-config") is not None and
            subprocess.run(["pkg-config", "--exists", *HEADERS], check=False).returncode == 0)


def install(stage: str, machine: Machine) -> str:
    """Builds the plugin from a copy of its sources, strips it and installs it. Returns its path."""
    library = f"/usr/lib/{machine.multiarch}"
    with tempfile.TemporaryDirectory() as folder:
        for name in ("c", "gstreamer"):
            shutil.copytree(os.path.join(CLIENTS, name), os.path.join(folder, name),
                            ignore=shutil.ignore_patterns("out"))
        subprocess.run(["make", "-s", "-C", os.path.join(folder, "gstreamer"), "install",
                        f"LIBDIR={library}", f"DESTDIR={stage}",
                        f"VERSION={feqyldan.__version__}", "CFLAGS=-O3 -g0"],
                       stdout=sys.stderr, check=True)
    plugin = f"{stage}{library}/gstreamer-1.0/libgstfeqyldan.so"
    subprocess.run(["strip", "--strip-unneeded", plugin], check=True)
    return plugin


def build(folder: str, oldest: Callable[[Dict[str, bytes]], Tuple[int, int]],
          machine: Machine) -> List[str]:
    """Builds the package, and returns its path in a list; an empty one for another machine, or
    where GStreamer's headers aren't installed."""
    if machine.wheel != platform.machine():
        print(f"tools/package: {NAME} is left out: it is built only on a machine of its own kind",
              file=sys.stderr)
        return []
    if not has_headers():
        print(f"tools/package: {NAME} is left out: it needs the headers of GStreamer and json-glib "
              "(Debian's libgstreamer-plugins-base1.0-dev and libjson-glib-dev)", file=sys.stderr)
        return []
    with tempfile.TemporaryDirectory() as stage:
        plugin = install(stage, machine)
        with open(plugin, "rb") as file:
            needed = oldest({NAME: file.read()})
        return [debian.finish(
            stage, folder, {}, name=NAME, architecture=machine.debian, section="libs",
            description=DESCRIPTION,
            relations="Multi-Arch: same\nDepends: libc6 (>= {}.{}), {}\n"
                      "Recommends: feqyldan-server\n"
                      "Suggests: libfeqyldan0".format(*needed, ", ".join(NEEDED)))]
