"""
The graph files that the studio's pages edit: opened, saved, and saved under another name.

Several pages may edit a file. Each has the stamp of the bytes that it has read or saved, so that no
page replaces what it doesn't know without a question.
"""

from __future__ import annotations

import hashlib
import json
import os
from typing import Any, Dict, List, Optional, Sequence, Set, Tuple

from ..errors import BadPicture
from ..files import load
from ..graph_files import (
    VERSION, GraphFileError, Place, at_place, checked, files_in, graph_text, told_by)
from ..json_files import GREATEST_FILE
from ..samples import Format, samples_of
from ..storage import fault_of_name, naming, natural, read_bytes, write_bytes
from .drafts import Blobs
from .web import Refusal

# The format and the sides of the input of a new graph without pictures.
NEW_SHAPE = Format.U8, 640, 480
# JavaScript writes whole numbers from this one on with an exponent, as Python does real ones.
LEAST_WITH_EXPONENT = 1e21


class Document:
    """The graph files of a folder. Pages get contents with a short word for each long field."""

    def __init__(self, path: str, pictures: Sequence[str], blobs: Blobs) -> None:
        # The system follows a link before a "..", so paths lead from real folder to real folder.
        self.folder = os.path.realpath(os.path.dirname(path))
        if not os.path.isdir(self.folder):
            raise FileNotFoundError(f"{path}: there is no folder {self.folder}: create it first")
        self._blobs, self._pictures = blobs, list(pictures)
        self._files: Set[str] = {os.path.relpath(in_real_folder(picture), self.folder)
                                 for picture in pictures}
        # The contents and the bytes of the files that were read, by name.
        self._read: Dict[str, Tuple[Dict[str, Any], Optional[bytes]]] = {}
        self._name = os.path.basename(path)
        self.read(self._name)

    @property
    def files(self) -> List[str]:
        """The picture files that an image of the graph may be, by their paths from its folder."""
        return sorted(self._files, key=natural)

    def path_of(self, name: str) -> str:
        return os.path.join(self.folder, name)

    def read(self, name: str) -> Dict[str, Any]:
        """Reads a graph file of the folder, or begins a new one. Returns what a page has to know of
        it."""
        path = self.path_of(name)
        text = content_of(path)
        contents = new_contents(self._pictures) if text is None else told_by(path)
        check_objects(path, contents)
        if content_of(path) != text:
            # Another program has written the file since. The text must be that of the contents.
            return self.read(name)
        self._read[name] = contents, text
        self._files |= set(files_in(contents))
        return {"name": name, "folder": self.folder, "files": self.files, "stamp": stamp_of(text),
                "contents": self._blobs.lightened(contents), "note": note_of(contents)}

    def graphs(self) -> List[str]:
        """Returns the names of the graph files in the folder."""
        return [name for name in sorted(os.listdir(self.folder), key=natural)
                if name.endswith(".json") and is_graph_file(self.path_of(name))]

    def begin(self, name: str) -> Dict[str, Any]:
        """Reads the file that a page had before it was reloaded, or else the studio's first one."""
        return self.read(name if name in self._read else self._name)

    def open(self, name: str) -> Dict[str, Any]:
        """Reads another graph file of the folder."""
        if name not in self.graphs():
            raise Refusal(403, f"{name} is none of the graph files in {self.folder}")
        return self.read(name)

    def checked(self, contents: Any) -> Dict[str, Any]:
        """Returns contents from the page. Raises Refusal unless they are those of a graph file, and
        name only the studio's picture files."""
        if not (isinstance(contents, dict) and isinstance(contents.get("objects"), dict)
                and isinstance(contents.get("nodes"), list)):
            raise Refusal(400, "these aren't the contents of a graph file")
        for file in files_in(contents):
            if file not in self._files:
                raise Refusal(403, f"{file} is none of the studio's picture files: name it on the "
                              "command line")
        return contents

    def save(self, contents: Dict[str, Any], name: str, stamp: Optional[str],
             is_sure: bool) -> Dict[str, Any]:
        """Replaces the page's file, which had the stamp, or without one writes a file of another
        name. Unless `is_sure`, refuses to replace what the page doesn't know. Returns what a page
        has to know of the file."""
        self._check_name(name)
        now = stamp_of(content_of(self.path_of(name)))
        if not is_sure and now != (stamp or ""):
            raise Refusal(409, f"{name} exists already" if stamp is None else
                          f"{name} was changed by another program or window since it was read")
        whole = self._blobs.whole(contents)
        try:
            text = self._text_of(whole)
        except ValueError as error:
            # No file can have so many nodes, objects or bytes.
            raise Refusal(400, str(error)) from None
        write_bytes(self.path_of(name), [text])
        self._read.setdefault(name, (whole, text))
        self._files |= set(files_in(contents))
        return {"name": name, "files": self.files, "stamp": stamp_of(text)}

    def _text_of(self, whole: Dict[str, Any]) -> bytes:
        """Returns the text of a graph file. With every edit undone, a file keeps its own layout."""
        for contents, text in self._read.values():
            if text is not None and is_same(contents, whole):
                return text
        return graph_text(whole).encode()

    def _check_name(self, name: str) -> None:
        is_plain = name == os.path.basename(name) and name.endswith(".json") and (
            not name.startswith("."))
        if not is_plain:
            raise Refusal(403, f"{name!r} is no name for a graph file: give a name that ends in "
                          ".json, without a folder")
        fault = fault_of_name(name)
        if fault:
            raise Refusal(403, f"the name {name!r} {fault}: give another name")
        path = self.path_of(name)
        if name not in self._read and os.path.lexists(path) and not is_graph_file(path):
            raise Refusal(403, f"{name} exists, and isn't a graph file: give another name")
        there = os.path.dirname(os.path.realpath(path))
        if name != self._name and there != self.folder:
            raise Refusal(403, f"{name} is a link to a file in {there}: give another name")


def in_real_folder(path: str) -> str:
    """Returns the path of a file without links to folders. A link to the file itself stays."""
    return os.path.join(os.path.realpath(os.path.dirname(path)), os.path.basename(path))


def is_same(one: Dict[str, Any], other: Dict[str, Any]) -> bool:
    """Returns whether contents are the same for a graph's reader. It takes 24 and not 24.0, which
    Python holds for equal, as it does 1 and True."""
    return one == other and json.dumps(one, sort_keys=True) == json.dumps(other, sort_keys=True)


def stamp_of(text: Optional[bytes]) -> str:
    """Returns a short text that differs for different bytes of a file; empty if there is none."""
    return "" if text is None else hashlib.sha1(text).hexdigest()


def check_objects(path: str, contents: Dict[str, Any]) -> None:
    """Raises GraphFileError if an object or a node isn't a JSON object, or has a number such as
    1e999, which the page couldn't show."""
    for name, told in contents["objects"].items():
        with at_place(path, Place(name)):
            check_numbers(checked(told, "an object", "kind"))
    for position, told in enumerate(contents["nodes"], 1):
        with at_place(path, Place(node=position)):
            check_numbers(checked(told, "a node", "function"))


def check_numbers(told: Dict[str, Any]) -> None:
    try:
        json.dumps(told, allow_nan=False)
    except ValueError:
        raise ValueError("it has a number that is too large, or NaN: write another one") from None


def note_of(contents: Dict[str, Any]) -> str:
    """Returns words about a number such as 100.0, which JavaScript takes for 100; empty if there is
    none."""
    found: List[str] = []
    json.loads(json.dumps(contents), parse_float=found.append)
    for digits in found:
        if float(digits).is_integer() and abs(float(digits)) < LEAST_WITH_EXPONENT:
            return (f"The file has the number {digits}, which run refuses, and this page shows "
                    f"{float(digits):.0f}: save the graph to write that.")
    return ""


def new_contents(pictures: Sequence[str]) -> Dict[str, Any]:
    """Returns the contents of a new graph file, whose input has the size of the first picture that
    can be read."""
    fmt, width, height = shape_of_first(pictures) if pictures else NEW_SHAPE
    return {"feqyldan": VERSION, "nodes": [], "objects": {"camera": {
        "kind": "image", "format": str(fmt), "width": width, "height": height, "input": True}}}


def shape_of_first(pictures: Sequence[str]) -> Tuple[Format, int, int]:
    """Returns the format and the sides of the first picture that can be read. If there is none,
    raises the error of the first picture."""
    errors: List[Exception] = []
    for path in pictures:
        try:
            picture = load(path)
            with naming(path):
                return samples_of(picture)[:3]
        except (BadPicture, ImportError, OSError) as error:
            errors.append(error)
    raise errors[0]


def content_of(path: str) -> Optional[bytes]:
    """Returns the bytes of a file; None if there is no such file."""
    try:
        return read_bytes(path, GREATEST_FILE)
    except FileNotFoundError:
        return None


def is_graph_file(path: str) -> bool:
    try:
        told_by(path)
    except (GraphFileError, OSError):
        return False
    return True
