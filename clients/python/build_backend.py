"""
Builds the package for pip, as the build backend that pyproject.toml names. It needs only Python, so
it works in a new virtual environment without a network. It writes nothing next to the sources.
"""

import base64
import contextlib
import hashlib
import importlib.util
import io
import os
import re
import tarfile
import zipfile

HERE = os.path.dirname(os.path.abspath(__file__))
# Files of the source archive besides the package.
ALSO = ("LICENSE", "README.md", "build_backend.py", "pyproject.toml")
# A fixed date makes builds reproducible.
DATE = (1980, 1, 1, 0, 0, 0)
METADATA = """\
Metadata-Version: 2.1
Name: feqyldan
Version: {version}
Summary: A client of the vision server Feqyldan: OpenVX's functions from Python
License: Apache-2.0
Project-URL: OpenVX, https://www.khronos.org/openvx/
Classifier: License :: OSI Approved :: Apache Software License
Classifier: Operating System :: POSIX :: Linux
Classifier: Programming Language :: Python :: 3
Classifier: Topic :: Scientific/Engineering :: Image Processing
Classifier: Typing :: Typed
Requires-Python: >=3.9
Description-Content-Type: text/markdown
Provides-Extra: numpy
Requires-Dist: numpy ; extra == 'numpy'
Provides-Extra: dask
Requires-Dist: distributed ; extra == 'dask'

{readme}"""
WHEEL = b"""\
Wheel-Version: 1.0
Generator: feqyldan
Root-Is-Purelib: true
Tag: py3-none-any
"""
# The ends of the names of the package's files: modules, and the page of the studio.
ENDINGS = ".py", ".html", ".css", ".js", ".svg"
COMMANDS = b"""\
[console_scripts]
feqyldan-broker = feqyldan.broker:main
feqyldan-door = feqyldan.door:main
"""

# Python has kept the compiled form of this file by now.
with contextlib.suppress(OSError):
    cached = importlib.util.cache_from_source(__file__)
    os.remove(cached)
    os.rmdir(os.path.dirname(cached))


def build_wheel(wheel_directory, config_settings=None, metadata_directory=None):
    return write_wheel(wheel_directory, sources())


def build_editable(wheel_directory, config_settings=None, metadata_directory=None):
    return write_wheel(wheel_directory, {"feqyldan.pth": f"{HERE}\n".encode()})


def build_sdist(sdist_directory, config_settings=None):
    name = f"feqyldan-{version()}"
    files = {**sources(), **{path: read(path) for path in ALSO}, "PKG-INFO": metadata()}
    with tarfile.open(os.path.join(sdist_directory, f"{name}.tar.gz"), "w:gz") as archive:
        for path, content in files.items():
            entry = tarfile.TarInfo(f"{name}/{path}")
            entry.size = len(content)
            archive.addfile(entry, io.BytesIO(content))
    return f"{name}.tar.gz"


def write_wheel(folder, files):
    """Writes a wheel of these files, by their paths in it. Returns its name."""
    name = f"feqyldan-{version()}"
    about = {"METADATA": metadata(), "LICENSE": read("LICENSE"), "WHEEL": WHEEL,
             "entry_points.txt": COMMANDS, "top_level.txt": b"feqyldan\n"}
    files = {**files, **{f"{name}.dist-info/{key}": content for key, content in about.items()}}
    record = f"{name}.dist-info/RECORD"
    lines = [f"{path},sha256={digest(content)},{len(content)}\n"
             for path, content in files.items()]
    files[record] = "".join([*lines, f"{record},,\n"]).encode()
    target = f"{name}-py3-none-any.whl"
    with zipfile.ZipFile(os.path.join(folder, target), "w", zipfile.ZIP_DEFLATED) as archive:
        for path, content in files.items():
            entry = zipfile.ZipInfo(path, DATE)
            entry.external_attr, entry.compress_type = 0o100644 << 16, zipfile.ZIP_DEFLATED
            archive.writestr(entry, content)
    return target


def metadata():
    return METADATA.format(version=version(), readme=read("README.md").decode()).encode()


def version():
    said = read("feqyldan", "__init__.py").decode()
    return re.search(r'^__version__ = "(.*)"$', said, re.MULTILINE)[1]


def sources():
    """The package's files, by their paths in the wheel."""
    found = {}
    for at, _, names in sorted(os.walk(os.path.join(HERE, "feqyldan"))):
        for name in sorted(names):
            if name.endswith(ENDINGS) or name == "py.typed":
                path = os.path.relpath(os.path.join(at, name), HERE)
                found[path] = read(path)
    return found


def read(*path):
    with open(os.path.join(HERE, *path), "rb") as file:
        return file.read()


def digest(content):
    return base64.urlsafe_b64encode(hashlib.sha256(content).digest()).rstrip(b"=").decode()
