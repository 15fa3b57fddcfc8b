"""Graph files that may have faults: each fault at its place, and a graph of the nodes without
one."""

from __future__ import annotations

import contextlib
from typing import TYPE_CHECKING, Any, Callable, Dict, Iterator, List, Tuple

from . import wire
from .errors import Fault, Refused
from .functions import OPERANDS, parameters_of
from .graph_files import (
    FAULTS, OTHERS, SLOT, GraphFileError, Place, Reader, fault_at, function_of, told_by)
from .graphs import Node
from .storage import Path, name_of_file
from .verdicts import ADDING, Cell, Member, explained

if TYPE_CHECKING:
    from .context import Context


def graph_faults(context: Context, path: Path) -> Tuple[GraphFileError, ...]:
    """Returns all faults of a graph file, see Context.graph_faults()."""
    name = name_of_file(path)
    context._look_at_pipeline(f"find the faults of {name}")
    try:
        contents = told_by(name)
    except GraphFileError as error:
        return (error,)
    draft = Draft(context, name)
    draft.fill(contents)
    return (*draft.faults, *draft.faults_of_inputs())


class Draft(Reader):
    """
    A graph of those nodes of a file that have no fault, and the faults of the others. Nodes are
    named by their positions in the file, from 1.

    `faults` lists the faults, `nodes` the graph's nodes by position. `waiting` has the other nodes
    that can't run, each with the object or the node at fault that it waits for.
    """

    def __init__(self, context: Context, path: str) -> None:
        super().__init__(context, path)
        self.faults: List[GraphFileError] = []
        self.nodes: Dict[int, Node] = {}
        self.waiting: Dict[int, Place] = {}
        self._contents: Dict[str, Any] = {}

    @property
    def things(self) -> Dict[str, Any]:
        """The objects without a fault, by name."""
        return self._things

    def fill(self, contents: Dict[str, Any]) -> None:
        """Creates what has no fault in a file's contents."""
        self._contents = contents
        for name, described in contents["objects"].items():
            with self._noting(Place(name)):
                self._things[name] = self._made(name, described)
        for position, node in enumerate(contents["nodes"], 1):
            with self._noting(Place(node=position)):
                self._add_unless_waiting(position, node)
        self._drop_readers()
        while self.nodes and self._drop_a_fault():
            pass
        for name, described in self._described():
            with self._noting(Place(name)):
                if described.get("ages"):
                    self._graph.register_auto_aging(self._things[name])
                if described.get("input") and self._things[name].name in self._graph._uses:
                    self._check_input(self._things[name])

    def faults_of_inputs(self) -> List[GraphFileError]:
        """Returns a fault for each input that a node of the file writes or that none reads, unless
        it was found before: the draft may have dropped these nodes."""
        at_fault = {fault.object for fault in self.faults}
        return [GraphFileError(self._path, f"it can't be an input: {words}", Place(name))
                for name, described in self._described() if described.get("input")
                for words in [self._fault_of_input(name)] if words and name not in at_fault]

    def _check_input(self, thing: Any) -> None:
        """Raises ValueError if a node of the draft writes an input that a node uses. Names the node
        by its position in the file, which isn't its number if the draft lacks an earlier node."""
        for member in self._members():
            if member.writes(thing._reference):
                raise ValueError(f"it can't be an input: {member}, writes it")

    def _described(self) -> List[Tuple[str, Dict[str, Any]]]:
        return [(name, self._contents["objects"][name]) for name in self._things]

    def _fault_of_input(self, name: str) -> str:
        nodes = self._contents["nodes"]
        for position, node in enumerate(nodes, 1):
            if name in outputs_of(node).values():
                return f"node {position}, {node['function']}, writes it"
        is_read = any(name in inputs_of(node).values() for node in nodes)
        return "" if is_read else "no node reads it"

    @contextlib.contextmanager
    def _noting(self, place: Place) -> Iterator[None]:
        try:
            yield
        except OTHERS:
            raise
        except FAULTS as error:
            # The connection keeps its last refusal. Its traceback would keep this draft too.
            self.faults.append(fault_at(self._path, place, error.with_traceback(None)))

    def _add_unless_waiting(self, position: int, node: Any) -> None:
        for name in (*inputs_of(node).values(), *outputs_of(node).values()):
            base = base_of(name)
            if base in self._contents["objects"] and base not in self._things:
                self.waiting[position] = Place(base)
                return
        self._add(node)
        self.nodes[position] = self._graph.nodes[-1]

    def _drop_readers(self) -> None:
        """Drops the nodes that read what another node would have written, which isn't there."""
        contents = self._contents["nodes"]
        gone = [position for position in range(1, len(contents) + 1) if position not in self.nodes]
        for writer in gone:
            missing = set(outputs_of(contents[writer - 1]).values())
            for reader in [position for position in self.nodes
                           if missing & set(inputs_of(contents[position - 1]).values())]:
                self.nodes.pop(reader).remove()
                self.waiting[reader] = Place(node=writer)
                gone.append(reader)

    def _drop_a_fault(self) -> bool:
        """Drops the nodes that the server's verdict is about. Returns whether there are some."""
        try:
            self._graph.verify(warn=False)
            return False
        except Refused as error:
            refused = error.with_traceback(None)
        fault = explained(refused.code, self._members(), self._context.server.work)
        if not fault.nodes:
            self._note(Place(), refused, fault)
            return False
        # Of two writers the later one is at fault, and of a cycle every node.
        is_pair = refused.code == wire.MULTIPLE_WRITERS
        for position in fault.nodes[-1:] if is_pair else fault.nodes:
            self._note(Place(node=position), refused, fault)
            self.nodes.pop(position).remove()
        self._drop_readers()
        return True

    def _note(self, place: Place, refused: Refused, fault: Fault) -> None:
        # The place is said once.
        node = self._contents["nodes"][place.node - 1] if place.node else {}
        words = fault.words.removeprefix(f"Node {place.node}, {node.get('function')}").lstrip(":, ")
        self.faults.append(GraphFileError(self._path, words or str(refused), place, refused.name,
                                          fault.operand, refused.advice))

    def _members(self) -> List[Member]:
        """Returns the graph's nodes by their positions and the names of their objects in the
        file."""
        members = {member.number: member for member in self._graph._members}
        return [_in_file(members[node.number], position, self._contents["nodes"][position - 1])
                for position, node in self.nodes.items()]


def _in_file(member: Member, position: int, node: Dict[str, Any]) -> Member:
    def named(parameter: str, cell: Cell) -> Cell:
        return cell._replace(words=f'"{node[parameter]}"')

    cells = [named(parameter, cell) for parameter, cell in member.operands]
    inputs = len(member.inputs)
    return member._replace(
        number=position, words=member.function, in1=cells[0],
        in2=cells[1] if inputs == 2 else None, outputs=tuple(cells[inputs:]))


def inputs_of(node: Any) -> Dict[str, str]:
    """Returns the names of the objects that a node of a file reads, by parameter. What it adds to
    is one of them."""
    return _operands_of(node, lambda at: at < 2 or node["function"] in ADDING)


def outputs_of(node: Any) -> Dict[str, str]:
    """Returns the names of the objects that a node of a file writes, by parameter."""
    return _operands_of(node, lambda at: at >= 2)


def _operands_of(node: Any, is_wanted: Callable[[int], bool]) -> Dict[str, str]:
    try:
        parameters = parameters_of(function_of(node))
    except (KeyError, ValueError):
        return {}
    return {parameter: str(node[parameter]) for parameter in parameters
            if parameter in OPERANDS and node.get(parameter) is not None
            and is_wanted(OPERANDS[parameter])}


def base_of(name: str) -> str:
    """Returns the name of an object; for a slot, that of its delay."""
    slot = SLOT.fullmatch(name)
    return slot[1] if slot else name
