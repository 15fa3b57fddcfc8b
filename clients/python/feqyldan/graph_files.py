"""
Graphs as JSON files: the objects by their names, and the nodes by the names of their functions'
parameters.

    {"feqyldan": 1,
     "objects": {
       "camera": {"kind": "image", "format": "U8", "width": 640, "height": 480, "input": true},
       "clean": {"kind": "image", "file": "reference.png"},
       "away": {"kind": "virtual image", "format": "U8"},
       "limit": {"kind": "threshold", "format": "U8", "above": 24},
       "marks": {"kind": "image", "format": "U8", "width": 640, "height": 480}},
     "nodes": [
       {"function": "absdiff", "in1": "camera", "in2": "clean", "output": "away"},
       {"function": "threshold", "input": "away", "threshold": "limit", "output": "marks"}]}

A slot of a delay is written as `smooth[0]` or `smooth[-1]`. An image may have a valid rectangle, as
`"valid": [x0, y0, x1, y1]`, and one value for all samples, as `"fill": 0`. In place of the value,
`"samples"` has the bytes of all samples, row by row, with the most significant byte of each first.
They are compressed by zlib, and then in base64. An image of a `"file"` has the format and the size
of the picture there. FIELDS lists the fields of each kind of object; a file with any other field is
refused.
"""

from __future__ import annotations

import contextlib
import os
import re
from typing import (
    TYPE_CHECKING, Any, ContextManager, Dict, Iterator, List, NamedTuple, Optional, Sequence, Tuple)

from . import wire
from .drawing import Box, Drawing
from .errors import (
    FeqyldanError, NestedCall, Refused, ServerEnded, TimedOut, UnexpectedReply)
from .functions import (
    FUNCTIONS, OPERANDS, REPLICATE, UNDEFINED, Border, Call, Policy, constant, parameters_of)
from .images import AnyImage, Delay, Image, Slot
from .json_files import contents_of, number_of, packed, text_of, unpacked
from .objects import Convolution, Distribution, Lut, MinMax, Named, Threshold
from .samples import Format, samples_of
from .storage import Path, cause_of, name_of_file, write_bytes
from .usage import MOST_OBJECTS
from .verdicts import ADDING

if TYPE_CHECKING:
    from .context import Context
    from .graphs import Graph, VirtualImage

VERSION = 1
# The most nodes of a graph.
MOST_NODES = 256
SLOT = re.compile(r"(.+)\[(0|-[0-9]+)\]", re.DOTALL)


class Place(NamedTuple):
    """A place in a graph file: an object by its name, or a node by its position, from 1."""

    object: str = ""
    node: int = 0

    def __str__(self) -> str:
        return f"node {self.node}" if self.node else f'object "{self.object}"'


class GraphFileError(FeqyldanError, ValueError):
    """
    A file doesn't describe a graph. The message names the object or the node, and what is wrong,
    which `words` says alone. `object` is the object's name, or `node` the node's position in the
    file, from 1, and `operand` the node's parameter at fault. `code` is the name of the server's
    status code, and `advice` what to do. Each is empty, or 0, if it isn't known.
    """

    def __init__(self, path: Path, words: str, place: Place = Place(), code: str = "",
                 operand: str = "", advice: str = "") -> None:
        self.path, self.words, self.place = path, words, place
        self.object, self.node = place
        self.code, self.operand, self.advice = code, operand, advice
        text = ": ".join(filter(None, (str(path), str(place) if any(place) else "", words)))
        super().__init__(text)

    def __reduce__(self) -> Tuple[Any, ...]:
        # For pickle, which by default would pass the message as the path.
        return type(self), (self.path, self.words, self.place, self.code, self.operand, self.advice)


def fault_at(path: Path, place: Place, error: Exception) -> GraphFileError:
    """Returns an error in reading a place of a file as a fault of the file."""
    if isinstance(error, KeyError):
        parameter = str(error.args[0])
        return GraphFileError(path, f"{parameter!r} is missing", place,
                              operand=parameter if place.node else "")
    if isinstance(error, Refused):
        return GraphFileError(path, str(error), place, error.name, error.operand, error.advice)
    return GraphFileError(path, cause_of(error), place)


class GraphFile(NamedTuple):
    """The graph of a file, the images that get a picture before each run, the outputs of a run
    (images, distributions and extremes), and all objects, each by its name in the file."""

    graph: Graph
    inputs: Dict[str, AnyImage]
    outputs: Dict[str, Any]
    objects: Dict[str, Any]


# ---- writing

def write_graph(graph: Graph, path: Path, inputs: Optional[Sequence[AnyImage]]) -> None:
    """Writes a graph and its objects to a file, see Graph.save()."""
    written = {operand._reference for call in graph._calls.values() for operand in call.operands[2:]
               if operand is not None}
    names = Names(graph)
    chosen = {image._reference for image in _inputs_of(graph, written, inputs)}
    objects = {name: _description(thing, graph, written, chosen)
               for name, thing in names.things.items()}
    nodes = [_node(call, names) for call in graph._calls.values()]
    text = graph_text({"feqyldan": VERSION, "objects": objects, "nodes": nodes})
    write_bytes(path, [text.encode()])


def _inputs_of(graph: Graph, written: Any,
               inputs: Optional[Sequence[AnyImage]]) -> Sequence[AnyImage]:
    if inputs is not None:
        return _checked_inputs(graph, inputs)
    found = {operand._reference: operand for call in graph._calls.values()
             for operand in call.operands[:2]
             if isinstance(operand, Image) and operand._reference not in written}
    if len(found) > 1:
        raise ValueError(f"{graph} reads {len(found)} images that none of its nodes writes "
                         f"({', '.join(map(str, found.values()))}): name those that get a picture "
                         "before each run, as in save(path, inputs=[camera])")
    return list(found.values())


def _checked_inputs(graph: Graph, inputs: Any) -> Sequence[AnyImage]:
    """Returns the input images, after checking that a run reads each of them unchanged."""
    if isinstance(inputs, (str, memoryview)) or not hasattr(inputs, "__iter__"):
        raise TypeError("inputs must be a list of images, as in save(path, inputs=[camera]), not "
                        f"{inputs}")
    images = list(inputs)
    for image in images:
        fault = fault_of_input(graph, image)
        if fault:
            raise ValueError(f"{image} can't be an input of {graph}: {fault}")
    return images


def fault_of_input(graph: Graph, image: Any) -> str:
    """Returns why an object can't be an input image of a saved graph; empty if it can."""
    if isinstance(image, Slot):
        return ("a slot of a delay gets its picture from a node: let graph.max(camera, camera, "
                "slot) copy it from an image, which is the input")
    if not isinstance(image, Image) or image.context is not graph.context:
        return "an input must be an image of the graph's context"
    for member in graph._members:
        if member.writes(image._reference):
            return f"{member}, writes it"
    return "" if image.name in graph._reads else "no node reads it"


class Names:
    """Distinct names of the objects that a graph's nodes use: their labels, or their kind and
    number."""

    def __init__(self, graph: Graph) -> None:
        self.things: Dict[str, Named] = {}
        self._names: Dict[int, str] = {}
        for call in graph._calls.values():
            for operand in call.operands:
                if operand is not None:
                    self._enter(operand.delay if isinstance(operand, Slot) else operand)

    def _enter(self, thing: Any) -> None:
        if thing.name not in self._names:
            name = thing.label or f"{thing._kind.replace(' ', '_')}_{thing.name}"
            while name in self.things or SLOT.fullmatch(name):
                name = f"{name}_{thing.name}"
            self.things[name] = thing
            self._names[thing.name] = name

    def of(self, operand: Any) -> str:
        if isinstance(operand, Slot):
            return f"{self._names[operand.delay.name]}[{operand.number}]"
        return self._names[operand.name]


def _description(thing: Any, graph: Graph, written: Any, inputs: Any) -> Dict[str, Any]:
    described: Dict[str, Any] = {"kind": thing._kind}
    if isinstance(thing, (Image, Delay)):
        described.update(format=str(thing.fmt), width=thing.width, height=thing.height)
    elif thing._is_virtual:
        sides = {"width": thing.width, "height": thing.height}
        described.update({"format": str(thing.fmt)} if thing.fmt else {})
        described.update({side: value for side, value in sides.items() if value})
    if isinstance(thing, Image) and thing._reference in inputs:
        described["input"] = True
    elif isinstance(thing, Image):
        described.update(_content(thing, graph, thing._reference in written))
    elif isinstance(thing, Delay):
        described.update(slots=len(thing), ages=thing.name in graph._aging)
    else:
        described.update(_parameters(thing))
    return described


def _content(image: Image, graph: Graph, is_written: bool) -> Dict[str, Any]:
    """Returns the content of an image that a run depends on: the samples, if no node writes them,
    and the valid rectangle, if no node writes the image or a node adds to it."""
    is_sum = any(call.name in ADDING and call.operands[2] is image
                 for call in graph._calls.values())
    content: Dict[str, Any] = {} if is_written else _samples(image)
    if is_sum or not is_written:
        valid = _valid_of_sums(image) if is_written else image.valid
        content.update({} if valid == (0, 0, image.width, image.height) else {"valid": valid})
    return content


def _valid_of_sums(image: Image) -> Tuple[int, ...]:
    """Returns the valid rectangle that sums begin with: the one that was set, unless they were
    written since, and not the one that a run has left."""
    x0, y0, x1, y1 = image.valid
    given = image._given_valid
    if given and x0 >= given[0] and y0 >= given[1] and x1 <= given[2] and y1 <= given[3]:
        return given
    return 0, 0, image.width, image.height


def _samples(image: Image) -> Dict[str, Any]:
    """Returns an image's samples: one value if all are the same, else their bytes."""
    samples = bytes(samples_of(image.read()).content)
    sample = samples[:image.fmt.sample_bytes]
    if samples == sample * image.size:
        return {"fill": int.from_bytes(sample, "big", signed=image.fmt == Format.S16)}
    return {"samples": packed(samples)}


def _parameters(thing: Any) -> Dict[str, Any]:
    if isinstance(thing, Threshold):
        limits: Dict[str, Any] = ({"above": thing.above} if thing.above is not None else
                                  {"between": list(thing.between or ())})
        return {"format": str(thing.fmt), **limits, "true_value": thing.true_value,
                "false_value": thing.false_value}
    if isinstance(thing, Lut):
        return {"format": str(thing.fmt), "entries": list(thing.entries)}
    if isinstance(thing, Convolution):
        return {"rows": [list(row) for row in thing.coefficients], "scale": thing.scale}
    if isinstance(thing, Distribution):
        return {"bins": thing.bins, "offset": thing.offset, "range": thing.range}
    return {}


def _node(call: Call, names: Names) -> Dict[str, Any]:
    node: Dict[str, Any] = {"function": call.name}
    for parameter in parameters_of(call.name):
        if parameter in OPERANDS:
            operand = call.operands[OPERANDS[parameter]]
            node[parameter] = None if operand is None else names.of(operand)
        elif parameter == "policy":
            node[parameter] = call.policy.name
        elif parameter == "shift":
            node[parameter] = call.amount
        elif call.border != UNDEFINED:
            node[parameter] = "REPLICATE" if call.border == REPLICATE else call.border.value
    return node


def function_of(node: Any) -> str:
    """Returns the name of a node's function. Raises ValueError if there is no such function."""
    name = checked(node, "a node", "function")["function"]
    if not isinstance(name, str) or name not in FUNCTIONS:
        raise ValueError(f"there is no function {name!r}; the functions are "
                         f"{', '.join(FUNCTIONS)}")
    return name


def checked(told: Any, what: str, field: str) -> Dict[str, Any]:
    """Returns a node or an object of a file. Raises ValueError if it isn't a JSON object with the
    field."""
    if not isinstance(told, dict):
        raise ValueError(f'{what} must be a JSON object with a "{field}", not {told!r}')
    return told


# The errors of reading a place of a file, and those of a call, which aren't about the file.
FAULTS = KeyError, TypeError, ValueError, OSError, ImportError, FeqyldanError
OTHERS = NestedCall, ServerEnded, TimedOut, UnexpectedReply


@contextlib.contextmanager
def at_place(path: Path, place: Place) -> Iterator[None]:
    """Yields once; errors within the `with` name the file and the place in it."""
    try:
        yield
    except OTHERS:
        raise
    except FAULTS as error:
        raise fault_at(path, place, error) from None


# ---- drawing

def drawing_of_file(path: Path) -> Drawing:
    """Returns the drawing of the graph of a file, without a server."""
    told = told_by(path)
    drawing = Drawing({}, [])
    for number, node in enumerate(told["nodes"], 1):
        with at_place(path, Place(node=number)):
            _draw_node(drawing, number, node, told["objects"])
    return drawing


def _draw_node(drawing: Drawing, number: int, node: Any, objects: Dict[str, Any]) -> None:
    key, function = f"node{number}", function_of(node)
    drawing.boxes[key] = Box(key, function, f"node {number}", "node")
    for parameter in parameters_of(function):
        if parameter in OPERANDS and node.get(parameter) is not None:
            other = _entered(drawing, str(node[parameter]), objects)
            drawing.arrows.append((other, key) if OPERANDS[parameter] < 2 else (key, other))


def _entered(drawing: Drawing, name: str, objects: Dict[str, Any]) -> str:
    """Adds an object's box, and returns its key."""
    slot = SLOT.fullmatch(name)
    described = checked(objects.get(slot[1] if slot else name, {}), "an object", "kind")
    fields = [str(described[field]) for field in ("format", "width", "height", "above", "bins")
              if described.get(field) is not None]
    kind = str(described.get("kind", ""))
    key = f"object{name.encode('utf-8', 'surrogatepass').hex()}"
    drawing.boxes[key] = Box(key, name, " ".join([kind, *fields]),
                             "virtual" if kind == "virtual image" else "object")
    return key


# ---- reading

def told_by(path: Path) -> Dict[str, Any]:
    """Returns the contents of a graph file. Raises GraphFileError if they lack objects or nodes."""
    path = name_of_file(path)
    try:
        told = contents_of(path)
    except ValueError as error:
        raise GraphFileError(path, str(error)) from None
    fault = fault_of_contents(told)
    if fault:
        raise GraphFileError(path, fault)
    contents: Dict[str, Any] = told
    return contents


def fault_of_contents(told: Any) -> str:
    """Returns why a JSON value can't be the contents of a graph file; empty if it can."""
    version = told.get("feqyldan") if isinstance(told, dict) else None
    if type(version) is not int or version != VERSION:
        return (f'this isn\'t a graph file of version {VERSION}: it lacks "feqyldan": {VERSION}; '
                "Graph.save() writes it")
    if not isinstance(told.get("objects"), dict) or not isinstance(told.get("nodes"), list):
        return 'a graph file needs "objects", by their names, and "nodes", a list'
    unknown = [field for field in told if field not in ("feqyldan", "objects", "nodes")]
    if unknown:
        return (f"a graph file has no field {unknown[0]!r}; it has 'feqyldan', 'objects' and "
                "'nodes': leave it out")
    for name in told["objects"]:
        if not name:
            return "the name of an object can't be empty"
        if SLOT.fullmatch(name):
            return f"{name!r} is the name of a slot: give the object a name without its end"
        if not _is_text(name):
            return f"the name {name!r} isn't text: give the object another name"
    for things, most in (("objects", MOST_OBJECTS), ("nodes", MOST_NODES)):
        if len(told[things]) > most:
            return (f"a graph file has at most {most:,} {things}, and this one has "
                    f"{len(told[things]):,}")
    return ""


def _is_text(name: str) -> bool:
    """Returns whether a name can be written. JSON may have halves of characters, such as \\ud800.
    Those that stand for the bytes of a file's name can be written, as these bytes. The character 0
    would end a name in C."""
    try:
        name.encode("utf-8", "surrogateescape")
    except UnicodeEncodeError:
        return False
    return "\0" not in name


def graph_text(contents: Dict[str, Any]) -> str:
    """Returns the text of a graph file with these contents, laid out as Graph.save() does. An image
    keeps its "file". Raises ValueError if load_graph() would refuse the file before it reads an
    object."""
    fault = fault_of_contents(contents)
    if fault:
        raise ValueError(fault)
    return text_of(contents).decode()


def read_graph(context: Context, path: Path) -> GraphFile:
    """Creates the graph of a file, see Context.load_graph()."""
    name = name_of_file(path)
    return Reader(context, name).read(told_by(name))


def input_of(graph: GraphFile, path: Path) -> AnyImage:
    """Returns the input of a graph for `python3 -m feqyldan run`. Raises ValueError unless there is
    one, and an output."""
    if len(graph.inputs) != 1 or not graph.outputs:
        raise ValueError(f"{path}: the graph must have one input (an image with \"input\": true) "
                         f"and at least one output, not {len(graph.inputs)} and "
                         f"{len(graph.outputs)}")
    return next(iter(graph.inputs.values()))


def files_in(contents: Dict[str, Any]) -> List[str]:
    """Returns the picture files that the objects of a graph file name."""
    return [described["file"] for described in contents["objects"].values()
            if isinstance(described, dict) and isinstance(described.get("file"), str)]


# The fields of each kind of object.
_IMAGE = ("format", "width", "height")
FIELDS: Dict[str, Tuple[str, ...]] = {
    "image": (*_IMAGE, "input", "samples", "file", "fill", "valid"), "virtual image": _IMAGE,
    "delay": (*_IMAGE, "slots", "ages"),
    "threshold": ("format", "above", "between", "true_value", "false_value"),
    "lookup table": ("format", "entries"), "convolution": ("rows", "scale"),
    "distribution": ("bins", "offset", "range"), "extremes": ()}
# The fields that are true or false.
SWITCHES = "input", "ages"


class Reader:
    """Creates the objects and nodes of a file; an error names the object or the node."""

    def __init__(self, context: Context, path: str) -> None:
        self._context, self._path = context, path
        self._graph = context.graph(name=os.path.splitext(os.path.basename(path))[0])
        self._things: Dict[str, Any] = {}

    def read(self, told: Dict[str, Any]) -> GraphFile:
        """Creates everything in the file's contents."""
        objects = told["objects"]
        for name, described in objects.items():
            with self._at(Place(name)):
                self._things[name] = self._made(name, described)
        for number, node in enumerate(told["nodes"], 1):
            with self._at(Place(node=number)):
                self._add(node)
        for name, described in objects.items():
            if described.get("ages"):
                with self._at(Place(name)):
                    self._graph.register_auto_aging(self._things[name])
        inputs = {name: self._things[name] for name, described in objects.items()
                  if described.get("input")}
        for name, thing in inputs.items():
            with self._at(Place(name)):
                self._check_input(thing)
        return GraphFile(self._graph, inputs, self._outputs(), self._things)

    def _outputs(self) -> Dict[str, Any]:
        written = self._graph._writes
        return {name: thing for name, thing in self._things.items()
                if isinstance(thing, (Image, Distribution, MinMax)) and thing.name in written}

    def _check_input(self, thing: Any) -> None:
        fault = fault_of_input(self._graph, thing)
        if fault:
            raise ValueError(f"it can't be an input: {fault}")

    def _at(self, place: Place) -> ContextManager[None]:
        return at_place(self._path, place)

    def _made(self, name: str, told: Any) -> Any:
        makers: Dict[str, Any] = {
            "image": self._image, "virtual image": self._virtual_image, "delay": self._delay,
            "threshold": self._threshold, "lookup table": self._lut,
            "convolution": self._convolution, "distribution": self._distribution,
            "extremes": lambda name, told: self._context.min_max(name=name)}
        kind = checked(told, "an object", "kind")["kind"]
        if not isinstance(kind, str) or kind not in makers:
            raise ValueError(f"a kind must be one of {', '.join(makers)}, not {kind!r}")
        unknown = [field for field in told if field not in ("kind", *FIELDS[kind])]
        if unknown:
            raise ValueError(f"the kind {kind!r} has no field {unknown[0]!r}; it has "
                             f"{', '.join(FIELDS[kind]) or 'nothing more'}")
        for field, value in told.items():
            if field in SWITCHES and not isinstance(value, bool):
                raise ValueError(f'"{field}" must be true or false, not {value!r}')
            if field not in SWITCHES:
                check_numbers(field, value)
        return makers[kind](name, told)

    def _image(self, name: str, told: Dict[str, Any]) -> Image:
        image = self._whole_image(name, told)
        if "valid" in told:
            image.valid = told["valid"]
        return image

    def _whole_image(self, name: str, told: Dict[str, Any]) -> Image:
        if len({"samples", "file", "fill"} & told.keys()) > 1:
            raise ValueError("give only one of samples, file and fill")
        if "file" in told:
            if not isinstance(told["file"], str):
                raise ValueError(f'"file" must be a path, not {told["file"]!r}')
            return self._of_file(name, told)
        image = self._context.image(format_named(told["format"]), told["width"], told["height"],
                                    name=name)
        if "fill" in told:
            image.fill(told["fill"])
        if "samples" in told:
            content = unpacked(told["samples"], image.size * image.fmt.sample_bytes)
            self._context._tell(f"write samples to {image}", wire.write_image_head,
                                image._reference, image.fmt, image.width, image.height,
                                content=content)
        return image

    def _of_file(self, name: str, told: Dict[str, Any]) -> Image:
        image = self._context.load(os.path.join(os.path.dirname(self._path), told["file"]),
                                   name=name)
        there = {"format": str(image.fmt), "width": image.width, "height": image.height}
        if any(repr(told.get(field, value)) != repr(value) for field, value in there.items()):
            raise ValueError(f"its file has {image.fmt} samples of {image.width} by {image.height} "
                             "pixels, and its format, width or height says something else: leave "
                             "them out")
        return image

    def _virtual_image(self, name: str, told: Dict[str, Any]) -> VirtualImage:
        fmt = told.get("format")
        return self._graph.virtual_image(None if fmt is None else format_named(fmt),
                                         told.get("width"), told.get("height"), name=name)

    def _delay(self, name: str, told: Dict[str, Any]) -> Delay:
        with self._context.image(format_named(told["format"]), told["width"],
                                 told["height"]) as exemplar:
            return self._context.delay(exemplar, told["slots"], name=name)

    def _threshold(self, name: str, told: Dict[str, Any]) -> Threshold:
        return self._context.threshold(
            format_named(told["format"]), told.get("above"), told.get("between"),
            told.get("true_value", 255), told.get("false_value", 0), name=name)

    def _lut(self, name: str, told: Dict[str, Any]) -> Lut:
        return self._context.lut(format_named(told["format"]), told["entries"], name=name)

    def _convolution(self, name: str, told: Dict[str, Any]) -> Convolution:
        rows = told["rows"]
        if not isinstance(rows, list) or not all(isinstance(row, list) for row in rows):
            raise ValueError("'rows' must be a list of lists")
        return self._context.convolution(rows, told.get("scale", 1), name=name)

    def _distribution(self, name: str, told: Dict[str, Any]) -> Distribution:
        return self._context.distribution(told["bins"], told.get("offset", 0),
                                          told.get("range", 256), name=name)

    def _add(self, told: Any) -> None:
        function = function_of(told)
        parameters = parameters_of(function)
        unknown = [name for name in told if name not in ("function", *parameters)]
        if unknown:
            raise ValueError(f"{function} has no parameter {unknown[0]!r}; it has "
                             f"{', '.join(parameters)}")
        for name in parameters:
            check_numbers(name, told.get(name))
        arguments = [self._argument(name, told.get(name) if name in ("border", "output_x",
                                                                     "output_y") else told[name])
                     for name in parameters]
        getattr(self._graph, function)(*arguments)

    def _argument(self, name: str, value: Any) -> Any:
        if name in OPERANDS:
            return None if value is None else self._operand(value)
        if name == "policy":
            return one_of(Policy, value, "a policy")
        return border_named(value) if name == "border" else value

    def _operand(self, name: Any) -> Any:
        if not isinstance(name, str):
            raise ValueError(f"an operand must be the name of an object, not {name!r}")
        slot = SLOT.fullmatch(name)
        thing = self._things.get(slot[1] if slot else name)
        if thing is None:
            raise ValueError(f'there is no object {name!r}: add it to "objects"')
        if slot:
            if not isinstance(thing, Delay):
                raise ValueError(f"{slot[1]!r} isn't a delay, so it has no slots: leave out "
                                 f"[{slot[2]}]")
            try:
                return thing[number_of(slot[2])]
            except IndexError as error:
                raise ValueError(f"there is no slot {name!r}: {error}") from None
        return thing


def check_numbers(field: str, value: Any) -> None:
    """Raises ValueError if a value is true or false, which Python takes for 1 and 0, or has one."""
    for one in value if isinstance(value, list) else (value,):
        if isinstance(one, bool):
            raise ValueError(f'"{field}" can\'t be {"true" if one else "false"}')
        if isinstance(one, list):
            check_numbers(field, one)


def format_named(name: Any) -> Format:
    fmt: Format = one_of(Format, name, "a format")
    return fmt


def one_of(kind: Any, name: Any, what: str) -> Any:
    """Returns the member of an enumeration with this name."""
    try:
        return kind[name]
    except (KeyError, TypeError):
        names = ", ".join(member.name for member in kind)
        raise ValueError(f"{what} must be one of {names}, not {name!r}") from None


def border_named(value: Any) -> Border:
    """Returns the border of a node in a file: UNDEFINED, REPLICATE or a constant value."""
    if value is None or value == "UNDEFINED":
        return UNDEFINED
    if value == "REPLICATE":
        return REPLICATE
    if isinstance(value, str):
        raise ValueError(f"a border must be UNDEFINED, REPLICATE or a number, not {value!r}")
    return constant(value)
