"""The results of `python3 -m feqyldan run`: pictures in a folder, and numbers in a CSV file."""

from __future__ import annotations

import argparse
import contextlib
import csv
import io
import json
import os
import stat
import sys
from contextlib import ExitStack
from typing import Any, Dict, Iterable, Iterator, List, Optional, Sequence, TextIO, Tuple

from . import wire
from .graph_files import GraphFile, files_in
from .graphs import kept_by
from .images import AnyImage
from .objects import Distribution, MinMax
from .pictures import write_npy, write_png
from .regions import regions
from .samples import Format, numpy_module
from .storage import fault_of_name, remove_result, write_bytes

# The value of --csv for standard output, and its name in messages.
STANDARD_OUTPUT, STANDARD_OUTPUT_NAME = "-", "standard output"


class Report:
    """The destination of the results: pictures go to a folder, numbers to a CSV file, or to
    standard output if neither is given."""

    def __init__(self, told: argparse.Namespace, paths: Sequence[str], others: Sequence[str],
                 station: GraphFile, ends: ExitStack) -> None:
        self._folder: Optional[str] = told.out
        self._least: Optional[int] = told.regions
        self._images = {name: thing for name, thing in station.outputs.items()
                        if isinstance(thing, AnyImage)}
        self._kept = kept_by(station.graph)
        self._look_at_files(told, paths, others)
        if self._folder is not None:
            make_folder(f"--out {self._folder or repr(self._folder)}", self._folder)
        # What the first lines follow, until they are written.
        self._head = [["picture", *columns_of(station.outputs, self._least)]]
        self._file_name: Optional[str] = told.csv
        self._lines: Any = None
        if told.csv == STANDARD_OUTPUT or told.csv is None and self._folder is None:
            self._file_name, self._lines = STANDARD_OUTPUT_NAME, standard_output("utf-8")
            self._write_lines()
        elif told.csv is not None:
            self._lines = ends.enter_context(contextlib.closing(CsvFile(told.csv)))

    def _look_at_files(self, told: argparse.Namespace, paths: Sequence[str],
                       others: Sequence[str]) -> None:
        """Raises ValueError if a result would overwrite an input file, the result of another
        picture, or something else than a file."""
        read = {identity(path): path for path in (*paths, *others)}
        if told.csv not in (None, STANDARD_OUTPUT) and identity(told.csv) in read:
            raise ValueError(f"--csv {told.csv} would overwrite {read[identity(told.csv)]}, which "
                             "is read: name another file")
        if self._folder is None:
            return
        for name, fault in ((name, fault_of_name(name)) for name in self._images):
            if fault and len(self._images) > 1:
                quoted = json.dumps(name, ensure_ascii=False)
                raise ValueError(f"{told.graph}: the name {quoted} {fault}, and --out names files "
                                 "by images: rename the image")
        numbers = None if told.csv in (None, STANDARD_OUTPUT) else identity(told.csv)
        writers: Dict[str, Tuple[int, str]] = {}
        for number, path, file in self._files_of(paths):
            fault = fault_of_name(os.path.basename(file))
            if fault:
                raise ValueError(f"--out {self._folder}: the image of {path} would be {file}, "
                                 f"which {fault}: rename the picture, or the image in the graph")
            there = identity(file)
            if there == numbers:
                raise ValueError(f"--csv {told.csv} would be overwritten by the image of {path}: "
                                 "name another file")
            if there in read:
                raise ValueError(f"--out {self._folder}: the image of {path} would overwrite "
                                 f"{read[there]}, which is read: name another folder")
            if os.path.lexists(file) and not stat.S_ISREG(os.lstat(file).st_mode):
                # What a link leads to may be the image of another picture, or anybody's; a pipe
                # may have no reader.
                raise ValueError(f"--out {self._folder}: the image of {path} would be {file}, "
                                 "which is a link, a folder or a pipe, and no file: remove it, or "
                                 "name another folder")
            first, other = writers.setdefault(file, (number, path))
            if first == number:
                continue
            if identity(other) != identity(path):
                raise ValueError(f"--out {self._folder}: the images of {other} and of {path} would "
                                 f"both be {file}: run them one after the other, each with its own "
                                 "folder")
            if self._kept:
                raise ValueError(f"--out {self._folder}: {path} is named twice, and its images may "
                                 f"differ, since the graph keeps {self._kept}: copy the picture to "
                                 "another name")

    def _files_of(self, paths: Sequence[str]) -> Iterator[Tuple[int, str, str]]:
        """Yields each picture's number and path with each file that may be written for it."""
        return ((number, path, stem + ending) for number, path in enumerate(paths)
                for name, stem in self._stems_of(path).items()
                for ending in ENDINGS[self._images[name].fmt])

    def _stems_of(self, path: str) -> Dict[str, str]:
        """Returns the paths of a picture's output images, without file name extensions."""
        stem = os.path.join(self._folder or "", os.path.splitext(os.path.basename(path))[0])
        return {name: f"{stem}.{name}" if len(self._images) > 1 else stem for name in self._images}

    def add(self, path: str, values: Dict[str, Any]) -> None:
        """Adds the results of a picture. Until the first ones an older CSV file stays as it was."""
        if self._folder is not None:
            for name, stem in self._stems_of(path).items():
                write(stem, values[name], ENDINGS[self._images[name].fmt])
        if self._file_name is not None:
            self._write_lines([path, *(number for value in values.values()
                                       for number in numbers_in(value, self._least))])

    def skip(self, path: str) -> None:
        """Removes the images of a picture that an earlier run has left, since this run has none."""
        for _, _, file in self._files_of([path] if self._folder is not None else []):
            remove_result(file)

    def end(self) -> None:
        """Writes the head of the CSV file if there was no result."""
        if self._file_name is not None and self._head:
            self._write_lines()

    def _write_lines(self, *lines: Sequence[Any]) -> None:
        text = io.StringIO()
        csv.writer(text).writerows([*self._head, *lines])
        with writing_to(str(self._file_name)):
            self._lines.write(text.getvalue())
        self._head = []


class CsvFile:
    """A file that lines are written to. It is created with the first ones, in a folder that needn't
    exist, and then replaces an older one. Lines are written whole or not at all."""

    def __init__(self, path: str) -> None:
        self._path = path
        self._file: Optional[io.FileIO] = None

    def write(self, text: str) -> None:
        # A file's name may have bytes that are no UTF-8.
        data = text.encode("utf-8", "surrogateescape")
        if self._file is None:
            make_folder(f"the folder of --csv {self._path}", os.path.dirname(self._path) or ".")
            is_replaced = self._can_be_replaced()
            if is_replaced:
                write_bytes(self._path, [data])
                data = b""
            self._file = open(self._path, "ab" if is_replaced else "wb", buffering=0)
        self._append(self._file, data)

    def _can_be_replaced(self) -> bool:
        """Returns False for a pipe, a device, or a file in a folder of somebody else."""
        real = os.path.realpath(self._path)
        is_file = os.path.isfile(real) or not os.path.exists(self._path)
        return is_file and os.access(os.path.dirname(real), os.W_OK)

    def _append(self, file: io.FileIO, data: bytes) -> None:
        size, sent = os.fstat(file.fileno()).st_size, 0
        try:
            while sent < len(data):
                sent += file.write(data[sent:])
        except BaseException:
            with contextlib.suppress(OSError):
                file.truncate(size)
            raise

    def close(self) -> None:
        if self._file is not None:
            self._file.close()


def make_folder(words: str, path: str) -> None:
    """Creates the folder of an option, if it doesn't exist. The words name it in an error."""
    try:
        os.makedirs(path, exist_ok=True)
    except (FileNotFoundError, FileExistsError, NotADirectoryError):
        raise NotADirectoryError(f"{words} isn't a folder: name another one") from None


@contextlib.contextmanager
def writing_to(name: str) -> Iterator[None]:
    """Yields once; an error of the disk within the `with` names the file, which Python leaves
    out."""
    try:
        yield
    except OSError as error:
        if error.errno is None:
            # One of this package, which has its own words.
            raise
        raise type(error)(error.errno, error.strerror, name) from None


def standard_output(encoding: Optional[str] = None) -> TextIO:
    """Returns standard output, which writes each line when it is complete, in an encoding, or else
    in that of the locale. Raises ValueError if it is closed."""
    if sys.stdout is None:
        raise ValueError("standard output is closed: send it to a file, as in > FILE")
    if hasattr(sys.stdout, "reconfigure"):
        # A file's name may have bytes that are no UTF-8.
        sys.stdout.reconfigure(encoding=encoding, errors="surrogateescape", line_buffering=True)
    return sys.stdout


def files_read(path: str, contents: Dict[str, Any]) -> List[str]:
    """Returns the path of a graph file, and those of the picture files that its contents name."""
    return [path, *(os.path.join(os.path.dirname(path), file) for file in files_in(contents))]


def identity(path: str) -> Tuple[Any, ...]:
    """Returns the identity of a file, whatever its path."""
    # A folder before a ".." may not exist until it is created for the results. The real path leads
    # to the file already. A path such as /dev/stdin may have no real one.
    real = os.path.realpath(path)
    for name in (path, real):
        with contextlib.suppress(OSError):
            there = os.stat(name)
            return there.st_dev, there.st_ino
    return (real,)


# File name extensions for images of each format: PNG has no negative and no U32 samples.
ENDINGS = {Format.U8: (".png",), Format.S16: (".png", ".npy"), Format.U32: (".npy",)}


def write(path: str, picture: Any, endings: Sequence[str]) -> None:
    """Writes a PNG file, or an .npy file if there are negative or U32 samples. An earlier run may
    have left a file with the other one of the endings, which is removed."""
    ending = ".png"
    try:
        write_png(f"{path}.png", picture)
    except ValueError:
        ending = ".npy"
        write_npy(f"{path}.npy", picture)
    for other in endings:
        if other != ending:
            remove_result(path + other)


def columns_of(outputs: Dict[str, Any], least: Optional[int]) -> Iterator[str]:
    """Yields the column heads for the numbers of the outputs. `least` is the value of --regions."""
    for name, thing in outputs.items():
        if isinstance(thing, Distribution):
            yield from (f"{name}.{number}" for number in range(thing.bins))
        elif isinstance(thing, MinMax):
            yield from (f"{name}.{field}" for field in (
                "min", "max", "min_count", "max_count", "min_x", "min_y", "max_x", "max_y"))
        else:
            yield f"{name}.marked"
            yield from () if least is None else (f"{name}.regions",)


def numbers_in(value: Any, least: Optional[int]) -> Iterable[int]:
    """Returns the counts of a distribution, the numbers of extremes, or the number of samples of a
    picture that aren't 0, and the number of their regions."""
    if isinstance(value, wire.Extremes):
        return [*value[:4], *value.min_at, *value.max_at]
    if isinstance(value, tuple):
        return value
    numpy = numpy_module()
    count = (int(numpy.count_nonzero(value)) if numpy is not None
             else sum(sample != 0 for row in value.tolist() for sample in row))
    return [count] if least is None else [count, len(regions(value, least))]
