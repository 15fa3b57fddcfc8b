"""
A run of a graph that is being edited.

A graph file's contents may have faults while they are edited. A draft of the graph gets the
server's verdict, and leaves out the nodes at fault. Its other nodes run in immediate mode, with an
image for each virtual image, so that every image can be read.
"""

from __future__ import annotations

from typing import TYPE_CHECKING, Any, Dict, List, NamedTuple, Optional

from ..context import Context
from ..errors import BadPicture
from ..graph_drafts import base_of, inputs_of, outputs_of
from ..graph_files import GraphFileError, Place, fault_at
from ..images import AnyImage, Delay
from ..objects import Description, Distribution, MinMax
from ..pipeline import Result
from ..verdicts import in_order, resolved
from .drafts import digest, state_in

if TYPE_CHECKING:
    from .bench import Bench


class Shown(NamedTuple):
    """What a run left in an object. Equal marks mean equal samples."""

    kind: str
    mark: str
    about: Dict[str, Any]
    samples: Any = None


class Run:
    """A run of the contents on a picture. `faults` and `waiting` are those of its draft, and what
    the picture adds to them."""

    def __init__(self, bench: Bench, context: Context, contents: Dict[str, Any], at: int) -> None:
        self._bench, self._context, self._contents, self._at = bench, context, contents, at
        self._input = next((name for name, described in contents["objects"].items()
                            if isinstance(described, dict) and described.get("input")), "")
        self.draft = bench.draft(context, contents)
        self._described = described_in(bench.path, contents)
        self._keys = self._keys_on_picture()
        self.draft.fill_with(self._write_input)
        self.faults, self.waiting = self.draft.faults, self.draft.waiting

    def _keys_on_picture(self) -> Dict[str, str]:
        """Returns the keys of the objects before the nodes run."""
        keys, pictures = dict(self._described), self._bench.pictures
        if self._input and pictures:
            keys[self._input] = digest([keys[self._input], pictures[self._at],
                                        self._bench.state(self._at)])
        return keys

    def _write_input(self, name: str, image: Any) -> None:
        if name == self._input and isinstance(image, AnyImage) and self._bench.pictures and (
                not self._bench.holds(name, image, self._keys[name])):
            self._bench.put(image, name, self._at, self._keys[name])

    def shown(self, only: Optional[str]) -> Dict[str, Shown]:
        """Runs the nodes, and returns what each object holds then."""
        if any(not any(fault.place) for fault in self.draft.faults):
            return {}
        things = self._run()
        wanted = {name: thing for name, thing in self._readable(things).items()
                  if only is None or name == only}
        return self._read(wanted)

    def _run(self) -> Dict[str, Any]:
        """Runs the graph, and returns the objects that can be read then, by name."""
        return self._run_nodes()

    def _run_nodes(self) -> Dict[str, Any]:
        """Runs the nodes whose outputs aren't right yet. Returns the objects by name."""
        graph, things = self.draft.graph, dict(self.draft.things)
        doubles: Dict[bytes, Any] = {}
        cells = resolved(graph._members)
        for name, thing in self.draft.things.items():
            cell = cells.get(thing._reference) if thing._is_virtual else None
            if cell is not None:
                doubles[thing._reference] = self._bench.double(self._context, name, cell)
                things[name] = doubles[thing._reference]
        positions = {node.number: position for position, node in self.draft.nodes.items()}
        with self._context.pipeline():
            for member in in_order(graph._members):
                position = positions[member.number]
                if self._is_stale(position, things):
                    call = graph._calls[member.number]
                    self._context.vxu._run(call._replace(operands=tuple(
                        None if one is None else doubles.get(one._reference, one)
                        for one in call.operands)))
        return things

    def _is_stale(self, position: int, things: Dict[str, Any]) -> bool:
        """Returns whether a node has to run, and notes what its outputs hold then."""
        node = self._contents["nodes"][position - 1]
        outputs = outputs_of(node)
        key = digest([node, [self._keys[name] for name in inputs_of(node).values()]])
        for parameter, name in outputs.items():
            self._keys[name] = digest([self._keys[name], key, parameter])
        stale = [name for name in outputs.values()
                 if not self._bench.holds(name, things[name], self._keys[name])]
        for name in stale:
            self._bench.note(name, things[name], self._keys[name])
        return bool(stale)

    def _readable(self, things: Dict[str, Any]) -> Dict[str, Any]:
        """Returns the objects that hold something: those that a node has written, and those that no
        node of the file writes. Delays are shown by their slots."""
        nodes = self._contents["nodes"]
        written = {name: position for position, node in enumerate(nodes, 1)
                   for name in outputs_of(node).values()}
        found: Dict[str, Any] = {}
        for name, thing in things.items():
            slots = {f"{name}[{slot.number}]": slot for slot in thing} if isinstance(
                thing, Delay) else {name: thing}
            found.update((key, one) for key, one in slots.items()
                         if isinstance(one, (AnyImage, Distribution, MinMax))
                         and (key not in written or written[key] in self.draft.nodes))
        return found

    def _read(self, wanted: Dict[str, Any]) -> Dict[str, Shown]:
        """Reads the objects whose samples aren't those of the last run."""
        last, marks = self._bench.shown, {name: self._mark(name) for name in wanted}
        with self._context.pipeline() as ahead:
            results = {name: (ahead.read(thing), ahead.query(thing)
                              if isinstance(thing, AnyImage) else None)
                       for name, thing in wanted.items()
                       if name not in last or last[name].mark != marks[name]}
        return {name: last[name] if name not in results
                else shown(thing, marks[name], *results[name]) for name, thing in wanted.items()}

    def _mark(self, name: str) -> str:
        return self._keys.get(name) or digest([self._keys[base_of(name)], name])


class RememberingRun(Run):
    """
    A run of a graph with sums or delays, which depend on earlier pictures. The graph runs on all
    pictures up to the wanted one. Then the run can go on to a later picture, so that going through
    all pictures runs the graph once on each.
    """

    def __init__(self, bench: Bench, context: Context, contents: Dict[str, Any], at: int) -> None:
        self._digest = digest_of(bench, contents)
        # The states of the pictures' files on which the graph has run.
        self._seen: List[Any] = []
        super().__init__(bench, context, contents, at)
        # The last picture on which the graph has run, and the objects if its nodes ran one by one.
        self._last = -1
        self._things: Optional[Dict[str, Any]] = None

    def go_on(self, contents: Dict[str, Any], at: int) -> bool:
        """Takes another picture for the next call of shown(). Returns whether that is possible."""
        is_later = at > self._last or at == self._last and self._things is not None
        is_same = self._digest == digest_of(self._bench, contents) and (
            self._seen == [self._bench.state(seen) for seen in range(len(self._seen))])
        if not is_later or not is_same:
            return False
        self._at = at
        return True

    def _write_input(self, name: str, image: Any) -> None:
        """Writes nothing: the pictures are written one after another."""

    def _run(self) -> Dict[str, Any]:
        self.faults, self.waiting = self.draft.faults, self.draft.waiting
        for at in range(self._last + 1, self._at + 1):
            state = self._bench.state(at)
            if not self._takes(at):
                return {}
            self._seen.append(state)
            self._age_delays()
            if at < self._at:
                self.draft.graph.process()
            else:
                self._keys = self._keys_on_picture()
                self._things = self._run_nodes()
            self._last = at
        return self._things or {}

    def _takes(self, at: int) -> bool:
        """Writes a picture to the input. Returns False, and notes the fault, if it doesn't suit."""
        image, pictures = self.draft.things.get(self._input), self._bench.pictures
        if not isinstance(image, AnyImage) or not pictures:
            return True
        try:
            self._bench.put(image, self._input, at, "")
        except (BadPicture, ImportError, OSError) as error:
            place = Place(self._input)
            fault = fault_at(self._bench.path, place, error.with_traceback(None))
            if at < self._at and not fault.words.startswith(f"{pictures[at]}: "):
                fault = GraphFileError(fault.path, f"{pictures[at]}: {fault.words}", place,
                                       fault.code, fault.operand, fault.advice)
            self.faults = [*self.draft.faults, fault]
            self.waiting = {**self.draft.waiting, **dict.fromkeys(self.draft.nodes, place)}
            return False
        return True

    def _age_delays(self) -> None:
        """Ages the delays after a run of single nodes. A run of the graph ages them itself."""
        if self._things is None:
            return
        self._things = None
        aging = self.draft.graph._aging
        for delay in [thing for thing in self.draft.things.values() if thing.name in aging]:
            delay.age()

    def _keys_on_picture(self) -> Dict[str, str]:
        """Returns other keys for each picture, except of objects that stay as they are."""
        keys, before = super()._keys_on_picture(), digest([self._digest, self._at, self._seen])
        return {**keys, **{name: digest([before, name])
                           for name in keys if self.draft.is_changed(name)}}

    def _is_stale(self, position: int, things: Dict[str, Any]) -> bool:
        for name in outputs_of(self._contents["nodes"][position - 1]).values():
            self._bench.drop(name)
        return True


def digest_of(bench: Bench, contents: Dict[str, Any]) -> str:
    """Returns a digest of a graph file's contents, with the states of the files that it names."""
    return digest([bench.path, contents, described_in(bench.path, contents)])


def described_in(graph: str, contents: Dict[str, Any]) -> Dict[str, str]:
    """Returns a digest of each object of a graph file, with the state of the file that it names."""
    return {name: digest([told, state_in(graph, told)])
            for name, told in contents["objects"].items()}


def shown(thing: Any, mark: str, read: Result[Any],
          described: Optional[Result[Description]]) -> Shown:
    """Returns what an object holds, after its pipeline."""
    value = read.value()
    if isinstance(thing, Distribution):
        return Shown("distribution", mark, {"counts": list(value)})
    if described is None:
        return Shown("extremes", mark, value._asdict())
    return Shown("image", mark, {"fmt": str(thing.fmt), "width": thing.width,
                                 "height": thing.height,
                                 "valid": list(described.value().valid)}, value)
