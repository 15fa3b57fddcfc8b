"""Builds the Debian packages of the server, of the Python package, and of the services for several
programs (the door and the broker, with the documents).

The server needs no Python. The Python package can use a server at a socket, so it doesn't depend on
the server's package.
"""

import glob
import os
import subprocess
import sys
import tempfile
from typing import Dict, List, Tuple

import feqyldan

from . import ROOT, Machine, debian, wheels
from .debian import Data

SERVER, PYTHON, SERVICES = "feqyldan-server", "python3-feqyldan", "feqyldan"
SERVER_DESCRIPTION = """vision server with the behaviour of OpenVX
 Images, graphs, virtual images, delays, immediate mode and 25 vision functions
 on 8-bit and 16-bit grey images, for many clients. No client sees another's
 pixels.
 .
 This package has each build of the server for the machine's processors, and a
 systemd socket that starts a server for each connection."""
PYTHON_DESCRIPTION = """vision server Feqyldan from Python
 Images, graphs, delays, immediate mode and 25 vision functions on NumPy arrays
 and other pictures. A server does the computing: in the program's own process,
 by the library of libfeqyldan0, in a process that it starts, or behind a
 socket."""
SERVICES_DESCRIPTION = """vision server Feqyldan for several programs
 Two services on a Unix socket: the door starts a server for each connection,
 and the broker lets programs share servers. Both limit connections per process
 and per user, and report their state.
 .
 This package has both services and the documents of Feqyldan."""
# A command that runs a module of the Python package.
COMMAND = """\
#!/usr/bin/python3
import sys

from feqyldan.{module} import main

sys.exit(main())
"""
COMMANDS = ("door", "broker")
# The units of deploy/ for each package, and the replacements made in them when they are packaged.
SERVER_UNITS = ("feqyldan.slice", "feqyldan.socket", "feqyldan@.service")
SERVICE_UNITS = tuple(f"feqyldan-{module}{kind}" for module in COMMANDS
                      for kind in (".service", ".socket", "-status.socket"))
PROGRAM = "/opt/feqyldan/bin/vx_main"
# A link to the program for this machine's processors, made once before the socket listens.
CHOSEN = "/run/feqyldan/program"
CHANGES = {
    "feqyldan.socket": {
        "Accept=yes\n": "Accept=yes\nExecStartPre=/usr/bin/install -d -m 755 /run/feqyldan\n"
                        "ExecStartPre=/bin/sh -c 'exec ln -sfn \"$$(/usr/bin/feqyldan --which)\" "
                        f"{CHOSEN}'\n"},
    "feqyldan@.service": {PROGRAM: CHOSEN},
    "feqyldan-door.service": {"Environment=PYTHONPATH=/opt/feqyldan/python\n": "",
                              PROGRAM: "/usr/bin/feqyldan"},
    "feqyldan-broker.service": {"Environment=PYTHONPATH=/opt/feqyldan/python\n": "",
                                "/opt/feqyldan/lib/libfeqyldan-core.so": "libfeqyldan-core.so.0"}}
# Starts nothing and adds no user when installing into another system's root (DPKG_ROOT).
AFTER_INSTALL = """\
#!/bin/sh
set -e
if [ "$1" = configure ] && [ -z "$DPKG_ROOT" ]; then
{lines}
fi
"""
ADD_USER = "    if command -v systemd-sysusers > /dev/null; then systemd-sysusers feqyldan.conf; fi"
COMPILE = "    if command -v py3compile > /dev/null; then py3compile -p python3-feqyldan; fi"
# A systemd that refuses doesn't prevent the installation.
RELOAD = "    if [ -d /run/systemd/system ]; then systemctl daemon-reload || true; fi"
# New connections to a running door get the new program.
RELOAD_DOOR = """
    if [ -d /run/systemd/system ] && systemctl --quiet is-active feqyldan-door; then
        systemctl reload feqyldan-door || true
    fi"""
# A missing or masked unit doesn't prevent removal of the package.
BEFORE_REMOVAL = """\
#!/bin/sh
set -e
if [ "$1" = remove ] && [ -z "$DPKG_ROOT" ] && [ -d /run/systemd/system ]; then
    for unit in {units}; do
        systemctl disable --now "$unit" || true
    done{more}
fi
"""
STOP_ALL = "\n    systemctl stop 'feqyldan@*.service' || true"
FORGET_COMPILED = """\
#!/bin/sh
set -e
find "$DPKG_ROOT/usr/lib/python3/dist-packages/feqyldan" -name __pycache__ -prune \\
    -exec rm -r {} + || true
"""
AFTER_REMOVAL = """\
#!/bin/sh
set -e
if [ "$1" = remove ] && [ -z "$DPKG_ROOT" ]; then
    rm -rf /run/feqyldan
    if [ -d /run/systemd/system ]; then systemctl daemon-reload || true; fi
fi
"""


def unit(name: str) -> str:
    """Returns a unit of deploy/ with the paths of the package."""
    said = debian.text_of("deploy", name)
    for before, after in CHANGES.get(name, {}).items():
        if said.count(before) != 1:
            sys.exit(f"tools/package: deploy/{name} must have {before!r} once, not "
                     f"{said.count(before)} times")
        said = said.replace(before, after)
    return said


def units(names: Tuple[str, ...]) -> Dict[str, Data]:
    return {f"usr/lib/systemd/system/{name}": unit(name) for name in names}


def documents() -> Dict[str, Data]:
    """Returns the documents with their paths in the checkout, so that links between them work."""
    paths = ["README.md", "CHANGELOG.md", "SECURITY.md", "clients/python/README.md",
             "examples/first.py", "clients/c/examples/edges.c"]
    paths += [os.path.relpath(path, ROOT) for path in glob.glob(f"{ROOT}/docs/*.md")]
    return {f"usr/share/doc/{SERVICES}/{path}": debian.text_of(path) for path in paths}


def build_server(programs: Dict[str, bytes], c_library: Tuple[int, int], folder: str,
                 machine: Machine) -> str:
    with tempfile.TemporaryDirectory() as stage:
        places = {f"usr/lib/feqyldan/{name}": data for name, data in programs.items()}
        debian.put(stage, {**units(SERVER_UNITS), **debian.manual("feqyldan.1"),
                           "usr/lib/sysusers.d/feqyldan.conf":
                               debian.text_of("deploy", "sysusers.conf")}, 0o644)
        debian.put(stage, {**places, "usr/bin/feqyldan": debian.text_of("deploy", "starter")},
                   0o755)
        # Remove debug information.
        subprocess.run([f"{machine.prefix}strip", "--strip-unneeded",
                        *(os.path.join(stage, place) for place in places)], check=True)
        return debian.finish(
            stage, folder,
            {"postinst": AFTER_INSTALL.format(lines=f"{ADD_USER}\n{RELOAD}{RELOAD_DOOR}"),
             "prerm": BEFORE_REMOVAL.format(units="feqyldan.socket", more=STOP_ALL),
             "postrm": AFTER_REMOVAL},
            name=SERVER, architecture=machine.debian, section="science",
            description=SERVER_DESCRIPTION,
            relations="Depends: libc6 (>= {}.{})\nSuggests: feqyldan, libfeqyldan-dev, "
                      "python3-feqyldan".format(*c_library))


def build_python(wheel: str, folder: str) -> str:
    with tempfile.TemporaryDirectory() as stage:
        debian.put(stage, {f"usr/lib/python3/dist-packages/{name}": data
                           for name, data in wheels.entries_of(wheel).items()}, 0o644)
        return debian.finish(
            stage, folder,
            {"postinst": AFTER_INSTALL.format(lines=COMPILE), "prerm": FORGET_COMPILED},
            name=PYTHON, architecture="all", section="python", description=PYTHON_DESCRIPTION,
            relations="Depends: python3 (>= 3.9)\nRecommends: libfeqyldan0, feqyldan-server\n"
                      "Suggests: python3-numpy, python3-distributed\n"
                      f"Breaks: libfeqyldan0 (<< {feqyldan.__version__})")


def build_services(folder: str) -> str:
    with tempfile.TemporaryDirectory() as stage:
        pages = [debian.manual(f"feqyldan-{module}.1") for module in COMMANDS]
        debian.put(stage, {**units(SERVICE_UNITS), **pages[0], **pages[1], **documents()}, 0o644)
        debian.put(stage, {f"usr/bin/feqyldan-{module}": COMMAND.format(module=module)
                           for module in COMMANDS}, 0o755)
        version = feqyldan.__version__
        return debian.finish(
            stage, folder,
            {"postinst": AFTER_INSTALL.format(lines=RELOAD),
             "prerm": BEFORE_REMOVAL.format(
                 units=" \\\n        ".join(sorted(SERVICE_UNITS, reverse=True)), more=""),
             "postrm": AFTER_REMOVAL.replace("    rm -rf /run/feqyldan\n", "")},
            name=SERVICES, architecture="all", section="science", description=SERVICES_DESCRIPTION,
            relations=f"Depends: python3 (>= 3.9), {SERVER} (= {version}), {PYTHON} (= {version})\n"
                      "Recommends: libfeqyldan0\nSuggests: libfeqyldan-dev")


def build(wheel: str, programs: Dict[str, bytes], c_library: Tuple[int, int],
          folder: str, machine: Machine) -> List[str]:
    """Builds the packages, with the Python package from a wheel, and returns their paths."""
    return [build_server(programs, c_library, folder, machine), build_python(wheel, folder),
            build_services(folder)]
