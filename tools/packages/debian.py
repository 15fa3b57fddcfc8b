"""Common parts of the Debian packages: files, digests, and control fields."""

import glob
import gzip
import hashlib
import os
import shutil
import subprocess
import sys
from email.utils import formatdate
from typing import Dict, Iterable, Mapping, Union

import feqyldan

from . import ROOT

# The contents of a file.
Data = Union[str, bytes]
MAINTAINER = "Feqyldan maintainers <maintainers@users.noreply.feqyldan.example>"
CONTROL = """\
Package: {name}
Source: feqyldan
Version: {version}
Architecture: {architecture}
Maintainer: {maintainer}
Installed-Size: {size}
{relations}
Section: {section}
Priority: optional
Description: {description}
"""
COPYRIGHT = """\
Format: https://www.debian.org/doc/packaging-manuals/copyright-format/1.0/
Upstream-Name: Feqyldan

Files: *
Copyright: 2026 the authors of Feqyldan
License: Apache-2.0
 On Debian systems the whole text of the Apache License, version 2.0, is in
 /usr/share/common-licenses/Apache-2.0.
"""
CHANGELOG = """\
feqyldan ({version}) unstable; urgency=medium

  * Version {version}: see CHANGELOG.md of the package feqyldan.

 -- {maintainer}  {date}
"""


def text_of(*path: str) -> str:
    with open(os.path.join(ROOT, *path), encoding="utf-8") as file:
        return file.read()


def packed(text: str) -> bytes:
    return gzip.compress(text.encode(), mtime=0)


def manual(name: str) -> Dict[str, Data]:
    """Returns a manual page of deploy/man, by its path in a package."""
    said = text_of("deploy", "man", name).replace("@VERSION@", feqyldan.__version__)
    return {f"usr/share/man/man{name[-1]}/{name}.gz": packed(said)}


def documents(name: str) -> Dict[str, Data]:
    """Returns the changelog and the copyright file of a package."""
    date = formatdate(int(os.environ["SOURCE_DATE_EPOCH"]))
    said = CHANGELOG.format(version=feqyldan.__version__, maintainer=MAINTAINER, date=date)
    return {f"usr/share/doc/{name}/copyright": COPYRIGHT,
            f"usr/share/doc/{name}/changelog.gz": packed(said)}


def put(stage: str, files: Mapping[str, Data], mode: int) -> None:
    for name, data in files.items():
        path = os.path.join(stage, name)
        os.makedirs(os.path.dirname(path), exist_ok=True)
        with open(path, "wb") as file:
            file.write(data.encode() if isinstance(data, str) else data)
        os.chmod(path, mode)


def digests(stage: str, paths: Iterable[str]) -> str:
    lines = []
    for path in sorted(paths):
        with open(path, "rb") as file:
            digest = hashlib.md5(file.read()).hexdigest()
        lines.append(f"{digest}  {os.path.relpath(path, stage)}\n")
    return "".join(lines)


def finish(stage: str, folder: str, scripts: Mapping[str, Data], **fields: str) -> str:
    """Packs a folder into a package with these fields and the maintainer's scripts. Returns its
    path."""
    if shutil.which("dpkg-deb") is None:
        sys.exit("tools/package: there is no command dpkg-deb on the PATH: install dpkg")
    os.chmod(stage, 0o755)
    put(stage, documents(fields["name"]), 0o644)
    installed = [path for path in glob.glob(f"{stage}/usr/**", recursive=True)
                 if os.path.isfile(path) and not os.path.islink(path)]
    control = CONTROL.format(version=feqyldan.__version__, maintainer=MAINTAINER,
                             size=sum(map(os.path.getsize, installed)) // 1024 + 1, **fields)
    put(stage, {"DEBIAN/control": control, "DEBIAN/md5sums": digests(stage, installed)}, 0o644)
    put(stage, {f"DEBIAN/{name}": data for name, data in scripts.items()}, 0o755)
    path = os.path.join(
        folder, f"{fields['name']}_{feqyldan.__version__}_{fields['architecture']}.deb")
    subprocess.run(["dpkg-deb", "--root-owner-group", "--build", stage, path],
                   stdout=subprocess.DEVNULL, check=True)
    return path
