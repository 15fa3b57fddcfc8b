"""The calls that the page makes: runs of the edited graph, its pictures, and its file."""

from __future__ import annotations

import os
import threading
from typing import Any, Dict, Mapping, Sequence

from ..errors import ServerEnded
from ..functions import FUNCTIONS, OPERANDS, Functions, parameters_of
from ..graph_files import FIELDS, GraphFileError
from ..ranges import PARAMETER_RANGES, SIDES_OF_CONVOLUTIONS
from ..thumbnails import word_for
from ..verdicts import OPENED, TAKEN, formats_in_words
from .bench import Bench, Outcome, fault_for_run
from .document import Document
from .drafts import Blobs
from .runs import Shown
from .views import histogram, marked, masks_in, part_of, thumb
from .web import Call, Packed, Refusal

# The parameters that take an image, and what to do if one has none.
IMAGES = "input", "in1", "in2"
CONNECT = "Choose an image in its menu, or drag a wire to it."


class Studio:
    """A graph file, and two servers that run it: one on the chosen picture, the other one on all
    pictures in turn."""

    def __init__(self, path: str, pictures: Sequence[str]) -> None:
        self._pictures = list(pictures)
        self._blobs = Blobs()
        self._document = Document(path, pictures, self._blobs)
        self._chosen = Bench(path, pictures, self._blobs)
        self._others = Bench(path, pictures, self._blobs)
        self._filing = threading.Lock()

    @property
    def calls(self) -> Mapping[str, Call]:
        return {"about": self._about, "run": self._run, "part": self._part,
                "histogram": self._histogram, "pixel": self._pixel, "strip": self._strip,
                "graphs": self._graphs, "open": self._open, "save": self._save}

    def close(self) -> None:
        self._chosen.close()
        self._others.close()
        # The threads of calls end with the program, and a file that is being saved is whole before.
        with self._filing:
            pass

    def _about(self, told: Dict[str, Any]) -> Any:
        with self._filing:
            file = self._document.begin(str(told.get("name")))
        return {
            **file, "pictures": [os.path.basename(path) for path in self._pictures],
            "functions": {name: about(name) for name in FUNCTIONS}, "operands": OPERANDS,
            "fields": FIELDS, "ranges": PARAMETER_RANGES, "sides": SIDES_OF_CONVOLUTIONS}

    def _graphs(self, _: Dict[str, Any]) -> Any:
        return self._document.graphs()

    def _open(self, told: Dict[str, Any]) -> Any:
        with self._filing:
            return self._document.open(str(told["name"]))

    def _save(self, told: Dict[str, Any]) -> Any:
        contents, name = self._document.checked(told["contents"]), str(told["name"])
        with self._filing:
            saved = self._document.save(contents, name, told.get("stamp"), bool(told.get("sure")))
        return {**saved, "fault": fault_for_run(self._document.path_of(name))}

    def _run(self, told: Dict[str, Any]) -> Packed:
        """Runs the contents. The reply has the thumbnails that the page doesn't have yet, and the
        parts of images that it wants."""
        contents, has = self._document.checked(told["contents"]), told.get("has", {})
        outcome = ran(self._chosen, contents, self._index(told))
        masks, shown = masks_in(contents), outcome.shown
        head: Dict[str, Any] = {**faults(outcome), "shown": {}, "remembers": outcome.remembers,
                                "seconds": outcome.seconds}
        packed = Packed(head)
        for name, one in shown.items():
            about = head["shown"][name] = described(one, name in masks)
            if one.kind == "image" and has.get(name) != about["mark"]:
                small = thumb(one.samples, name in masks)
                about["thumb"] = {"width": small.width, "height": small.height,
                                  "times": small.times, "part": packed.add(small.content)}
        for want in told.get("want", []):
            about = head["shown"].get(want["name"], {})
            if about.get("kind") == "image" and want.get("mark") != about["mark"]:
                about["full"] = full(packed, shown[want["name"]], want, about["mask"])
        return packed

    def _part(self, told: Dict[str, Any]) -> Packed:
        """Returns a part of an image of the page's last run."""
        one = self._of_last_run(told)
        is_mask = bool(told.get("mask"))
        head = described(one, is_mask)
        packed = Packed(head)
        head["full"] = full(packed, one, told, is_mask)
        return packed

    def _histogram(self, told: Dict[str, Any]) -> Any:
        """Returns the histogram of an image of the page's last run, if there is NumPy."""
        one = self._of_last_run(told)
        return histogram(one.samples, one.about["valid"])

    def _of_last_run(self, told: Dict[str, Any]) -> Shown:
        one = self._chosen.shown.get(told["name"])
        if one is None or one.kind != "image" or not is_marked(one, told.get("mark")):
            raise Refusal(409, "another window has run its graph since")
        return one

    def _pixel(self, told: Dict[str, Any]) -> Any:
        """Returns the sample of each image of the page's last run at a pixel."""
        x, y, marks = int(told["x"]), int(told["y"]), told["marks"]
        return {name: int(one.samples[y, x]) for name, one in self._chosen.shown.items()
                if one.kind == "image" and is_marked(one, marks.get(name))
                and 0 <= x < one.about["width"] and 0 <= y < one.about["height"]}

    def _strip(self, told: Dict[str, Any]) -> Packed:
        """Runs another picture. Returns a thumbnail of one image, and how many samples aren't 0."""
        contents, name = self._document.checked(told["contents"]), str(told["name"])
        outcome = ran(self._others, contents, self._index(told), name)
        head: Dict[str, Any] = {"marked": None, "fault": ""}
        packed, one = Packed(head), outcome.shown.get(name)
        if one is not None and one.kind == "image":
            is_mask = name in masks_in(contents)
            small = thumb(one.samples, is_mask)
            head.update(marked=marked(one.samples), mask=is_mask, width=small.width,
                        height=small.height, part=packed.add(small.content))
        elif outcome.faults:
            head["fault"] = outcome.faults[0].words
        return packed

    def _index(self, told: Dict[str, Any]) -> int:
        at = told.get("at", 0)
        if not isinstance(at, int) or not 0 <= at < max(1, len(self._pictures)):
            raise Refusal(400, f"there is no picture {at}")
        return at


def ran(bench: Bench, contents: Dict[str, Any], at: int, only: str = "") -> Outcome:
    """Runs the contents. If the server ends, this is refused, and the next run starts another."""
    try:
        return bench.run(contents, at, only or None)
    except ServerEnded as error:
        words = str(error).rstrip(".")
        raise Refusal(503, f"{words}. The next change starts another server.") from None


def about(name: str) -> Dict[str, Any]:
    """Returns what the page has to know of a function."""
    words = (getattr(Functions, name).__doc__ or "").split("\n\n")[0]
    return {"openvx": FUNCTIONS[name].openvx, "parameters": parameters_of(name),
            "words": " ".join(words.split()), "formats": formats_in_words(name),
            "opened": str(OPENED.get(name) or ""),
            "taken": [[fmt and str(fmt) for fmt in formats] for formats in TAKEN[name]]}


def faults(outcome: Outcome) -> Dict[str, Any]:
    return {"faults": [in_json(fault) for fault in outcome.faults],
            "waiting": {position: str(place) for position, place in outcome.waiting.items()}}


def in_json(fault: GraphFileError) -> Dict[str, Any]:
    is_unconnected = fault.operand in IMAGES and not fault.code
    return {"object": fault.object, "node": fault.node, "operand": fault.operand,
            "code": fault.code, "words": fault.words,
            "advice": fault.advice or (CONNECT if is_unconnected else "")}


def described(one: Shown, is_mask: bool) -> Dict[str, Any]:
    return {"kind": one.kind, "mark": f"{one.mark}{' mask' if is_mask else ''}", "mask": is_mask,
            **one.about}


def is_marked(one: Shown, mark: Any) -> bool:
    """Returns whether a page has this mark for these samples, as a mask or not."""
    return str(mark).partition(" ")[0] == one.mark


def full(packed: Packed, one: Shown, want: Dict[str, Any], is_mask: bool) -> Dict[str, Any]:
    """Adds a part of an image to a reply, and describes it."""
    place, content = part_of(one.samples, want, is_mask)
    return {"place": place, "part": packed.add(content), "taken": word_for(is_mask)}
