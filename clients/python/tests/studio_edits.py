"""
Random edits of graph files in the studio's bench. After each edit every image that the studio
shows, also virtual ones and slots, has the samples that a new bench finds. If the graph has no
fault, they are those that Graph.process() and Graph.watch() give too.

    FEQYLDAN_PROGRAM=PROGRAM python3 clients/python/tests/studio_edits.py --graphs 2000
"""

import argparse
import collections
import copy
import json
import os
import random
import tempfile

from program import PROGRAM, vx
from feqyldan.files import load
from feqyldan.functions import FUNCTIONS, parameters_of
from feqyldan.graph_drafts import base_of, inputs_of, outputs_of
from feqyldan.studio.bench import Bench
from feqyldan.studio.drafts import Blobs

WIDTH, HEIGHT = 23, 17
PICTURES = 4
# Edits of one graph, after which another one begins.
EDITS = 20
POLICIES, BORDERS = ["WRAP", "SATURATE"], ["UNDEFINED", "REPLICATE", 7]
VALUES = ["shift", "border", "policy"]


def image(**fields):
    return {"kind": "image", "format": "U8", "width": WIDTH, "height": HEIGHT, **fields}


class Editor:
    """Edits the contents of a graph file at random."""

    def __init__(self, seed, has_delays):
        self.chance, self.has_delays = random.Random(seed), has_delays
        self.count = 0
        self.contents = {"feqyldan": 1, "nodes": [], "objects": {
            "camera": image(input=True), "good": {"kind": "image", "file": "p3.pgm"},
            "zero": image()}}

    @property
    def objects(self):
        return self.contents["objects"]

    @property
    def nodes(self):
        return self.contents["nodes"]

    def images(self):
        return [name for name, told in self.objects.items()
                if told["kind"] in ("image", "virtual image")] + [
            f"{name}[{-slot}]" for name, told in self.objects.items() if told["kind"] == "delay"
            for slot in range(told["slots"])]

    def new(self, **told):
        self.count += 1
        name = f"{told['kind'][0]}{self.count}"
        self.objects[name] = told
        return name

    def argument(self, parameter):
        one, some = self.chance.choice, self.chance.randrange
        makers = {
            "policy": lambda: one(POLICIES), "shift": lambda: some(9),
            "border": lambda: one(BORDERS),
            "threshold": lambda: self.new(kind="threshold", format=one(["U8", "U8", "S16"]),
                                          above=some(255)),
            "lut": lambda: self.new(kind="lookup table", format="U8",
                                    entries=[some(256) for _ in range(256)]),
            "convolution": lambda: self.new(kind="convolution", scale=2, rows=[
                [some(-3, 4) for _ in range(3)] for _ in range(3)]),
            "distribution": lambda: self.new(kind="distribution", bins=16),
            "extremes": lambda: self.new(kind="extremes"),
            "accum": lambda: self.new(**image(format="S16"))}
        if parameter in makers:
            return makers[parameter]()
        if parameter in ("input", "in1", "in2"):
            return one(self.images())
        if self.has_delays and self.chance.random() < 0.1:
            return self.new(**image(kind="delay", slots=one([1, 2, 3]), ages=True)) + "[0]"
        return self.new(**(image(format=one(["U8", "U8", "S16"])) if self.chance.random() < 0.4
                           else {"kind": "virtual image"}))

    def add(self):
        function = self.chance.choice([*FUNCTIONS])
        if function.startswith("accumulate") and not self.has_delays:
            return
        node = {"function": function}
        for parameter in parameters_of(function):
            node[parameter] = self.argument(parameter)
        self.nodes.append(node)

    def change_a_value(self):
        some = self.chance.randrange
        fields = [(node, field) for node in self.nodes for field in VALUES if field in node]
        fields += [(told, told["kind"]) for told in self.objects.values()
                   if told["kind"] in ("threshold", "lookup table", "convolution")]
        if not fields:
            return
        told, field = self.chance.choice(fields)
        changes = {"shift": lambda: told.update(shift=some(18)),
                   "border": lambda: told.update(border=self.chance.choice(BORDERS)),
                   "policy": lambda: told.update(policy=self.chance.choice(POLICIES)),
                   "threshold": lambda: told.update(above=some(255)),
                   "lookup table": lambda: told["entries"].__setitem__(some(256), some(256)),
                   "convolution": lambda: told["rows"][1].__setitem__(1, some(-9, 9))}
        changes[field]()

    def connect(self):
        node = self.chance.choice(self.nodes)
        inputs = [parameter for parameter in ("input", "in1", "in2") if parameter in node]
        node[self.chance.choice(inputs)] = self.chance.choice(self.images())

    def make_virtual_or_not(self):
        outputs = [name for node in self.nodes for name in outputs_of(node).values()
                   if self.objects.get(name, {}).get("kind") in ("image", "virtual image")
                   and "accum" not in node]
        if outputs:
            name = self.chance.choice(outputs)
            self.objects[name] = image() if self.objects[name]["kind"] != "image" else {
                "kind": "virtual image"}

    def edit(self):
        """Edits the contents, or undoes the edit."""
        before = copy.deepcopy(self.contents)
        for _ in range(self.chance.choice([1, 1, 1, 2])):
            choice = self.chance.random()
            if choice < 0.35 or not self.nodes:
                self.add()
            elif choice < 0.75:
                self.change_a_value()
            elif choice < 0.83:
                self.nodes.pop(self.chance.randrange(len(self.nodes)))
            elif choice < 0.9:
                self.connect()
            else:
                self.make_virtual_or_not()
        if self.chance.random() < 0.1:
            self.contents = before


def plain(shown):
    """Returns what is shown as values that can be compared."""
    return {name: (one.kind, json.dumps(one.about, sort_keys=True),
                   None if one.samples is None else one.samples.tobytes())
            for name, one in shown.items()}


def plain_faults(outcome):
    # The messages of refused objects have the numbers of objects on the server.
    return sorted((fault.object, fault.node, fault.code, fault.operand) for fault in outcome.faults)


class Checker:
    """Compares the studio's bench, which keeps what it can, with a new one, and with graphs."""

    def __init__(self, folder):
        self.path = os.path.join(folder, "graph.json")
        chance = random.Random(5)
        self.pictures = [os.path.join(folder, f"p{number}.pgm") for number in range(PICTURES)]
        for path in self.pictures:
            vx.write_pgm(path, [[chance.randrange(256) for _ in range(WIDTH)]
                                for _ in range(HEIGHT)])
        self.frames = [load(path) for path in self.pictures]
        self.fresh = self.bench()
        self.server = vx.Server(PROGRAM)
        self.seen = collections.Counter()

    def bench(self):
        return Bench(self.path, self.pictures, Blobs())

    def close(self):
        self.fresh.close()
        self.server.close()

    def check(self, bench, contents, at, where):
        outcome = bench.run(contents, at)
        # A new context has no object of an earlier run.
        self.fresh.close()
        other = self.fresh.run(contents, at)
        assert plain_faults(outcome) == plain_faults(other), where
        assert outcome.waiting == other.waiting, where
        assert plain(outcome.shown) == plain(other.shown), where
        self.seen["runs"] += 1
        self.seen["runs with faults"] += bool(outcome.faults)
        self.seen["images"] += len(outcome.shown)
        if not outcome.faults and contents["nodes"]:
            self.check_graph(outcome.shown, contents, at, where)

    def check_graph(self, shown, contents, at, where):
        """Compares what is shown with a graph of the file."""
        reads = {name for node in contents["nodes"] for name in inputs_of(node).values()}
        contents = copy.deepcopy(contents)
        if "camera" not in reads:
            del contents["objects"]["camera"]["input"]
        with open(self.path, "w", encoding="utf-8") as file:
            file.write(vx.graph_text(contents))
        with self.server.context() as context:
            file = context.load_graph(self.path)
            camera = file.objects["camera"]
            for number in range(at):
                camera.write(self.frames[number])
                file.graph.process()
            camera.write(self.frames[at])
            seen = file.graph.watch()
            for name, one in shown.items():
                if any(name in outputs_of(node).values() for node in contents["nodes"]):
                    operand = operand_of(file, name)
                    self.compare(one, seen[operand], (where, name))
            file.graph.process()
            for name, thing in file.outputs.items():
                assert values_of(thing.read()) == values_of_shown(shown[name]), (where, name)
                self.seen["outputs"] += 1
        self.seen["graphs"] += 1
        self.seen["graphs with sums or delays"] += any(
            told["kind"] == "delay" for told in contents["objects"].values()) or any(
            "accum" in node for node in contents["nodes"])

    def compare(self, shown, written, where):
        assert values_of(written.value) == values_of_shown(shown), where
        if shown.kind == "image":
            assert list(written.valid) == shown.about["valid"], where
        self.seen["virtual images"] += getattr(written.operand, "_is_virtual", False)


def operand_of(file, name):
    thing = file.objects[base_of(name)]
    return thing if base_of(name) == name else thing[int(name.rpartition("[")[2][:-1])]


def values_of(value):
    return value.tobytes() if hasattr(value, "tobytes") else [*map(list_of, value)]


def values_of_shown(one):
    if one.kind == "image":
        return one.samples.tobytes()
    return [*map(list_of, one.about["counts"] if one.kind == "distribution"
                 else one.about.values())]


def list_of(value):
    return list(value) if isinstance(value, (tuple, list)) else value


def check_edits(graphs, seed=0):
    """Checks this many edited graphs. Returns how many there were of each kind."""
    with tempfile.TemporaryDirectory() as folder:
        checker = Checker(folder)
        try:
            for number in range(0, graphs, EDITS):
                editor = Editor(seed * 100000 + number, has_delays=number // EDITS % 2 == 1)
                bench, at = checker.bench(), 0
                try:
                    for step in range(min(EDITS, graphs - number)):
                        editor.edit()
                        if editor.chance.random() < 0.2:
                            at = editor.chance.randrange(PICTURES)
                        if editor.chance.random() < 0.2:
                            # As the strip does: another picture, of which one object is read.
                            bench.run(editor.contents, editor.chance.randrange(PICTURES), "camera")
                        checker.check(bench, editor.contents, at, (seed, number, step))
                finally:
                    bench.close()
        finally:
            checker.close()
    return checker.seen


def main():
    parser = argparse.ArgumentParser(description=__doc__)
    parser.add_argument("--graphs", type=int, default=2000, help="edited graphs (default: 2000)")
    parser.add_argument("--seed", type=int, default=0)
    told = parser.parse_args()
    print(dict(check_edits(told.graphs, told.seed)))


if __name__ == "__main__":
    main()
