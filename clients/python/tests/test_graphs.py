"""Graphs: nodes, virtual images, verdicts and runs."""

import gc
import json
import os
import tempfile
import unittest

from program import ProgramTest, vx

U8, S16 = vx.U8, vx.S16


class TestGraphs(ProgramTest):
    limits = {"work": 12}

    def setUp(self):
        super().setUp()
        self.source = self.context.image_from([[10, 10, 10, 90, 10, 10]])
        self.target = self.context.image(U8, 6, 1)
        self.graph = self.context.graph()

    def marking(self):
        """Adds the nodes that mark pixels that differ strongly from their surroundings, as in the
        example of docs/wire.md."""
        smooth, difference = self.graph.virtual_image(), self.graph.virtual_image(U8, 6, 1)
        return [
            self.graph.threshold(difference, self.context.threshold(U8, above=30), self.target),
            self.graph.gaussian3x3(self.source, smooth, border=vx.REPLICATE),
            self.graph.absdiff(self.source, smooth, difference),
        ]

    def test_a_run(self):
        nodes = self.marking()
        self.assertEqual([node.number for node in nodes], [1, 2, 3])
        self.graph.verify()
        self.graph.process()
        self.holds(self.target, [[0, 0, 0, 255, 0, 0]])
        self.source.write([[90, 10, 10, 10, 10, 10]])
        self.graph.process()
        self.holds(self.target, [[0] * 6])

    def test_what_a_pipeline_cant_answer(self):
        """A refusal of the graph would come later, and a time would be that of the sending."""
        self.graph.not_(self.source, self.target)
        image = {"kind": "image", "format": "U8", "width": 1, "height": 1}
        with tempfile.TemporaryDirectory() as folder:
            path = os.path.join(folder, "a.json")
            with open(path, "w", encoding="utf-8") as file:
                json.dump({"feqyldan": 1, "objects": {"one": image, "wide": {**image, "width": 2}},
                           "nodes": [{"function": "not_", "input": "one", "output": "wide"}]}, file)
            with self.context.pipeline() as ahead:
                for call in (self.graph.profile, self.graph.watch,
                             lambda: self.context.graph_faults(path)):
                    with self.assertRaisesRegex(ValueError, "before the 'with' of the pipeline"):
                        call()
                result = ahead.read(self.source)
            self.assertEqual(result.value().tolist(), [[10, 10, 10, 90, 10, 10]])
            fault, = self.context.graph_faults(path)
        # The node is named once.
        self.assertEqual(str(fault), f"{path}: node 1: has images of different sizes.")
        self.assertEqual(len(self.graph.profile()), 1)

    def test_what_is_watched_is_of_one_context(self):
        """Each context has objects of the same names."""
        self.graph.not_(self.source, self.target)
        seen = self.graph.watch()
        self.assertEqual(seen[self.target].value.tolist(), [[245, 245, 245, 165, 245, 245]])
        with self.server.context() as other:
            theirs = [other.image(U8, 6, 1) for _ in range(2)]
            self.assertEqual(theirs[1]._reference, self.target._reference)
            self.assertRaises(KeyError, seen.__getitem__, theirs[1])

    def test_nodes_are_removed(self):
        nodes = self.marking()
        nodes[1].remove()
        nodes[1].remove()
        self.assertIn("removed", repr(nodes[1]))
        self.assertRaises(vx.InvalidLink, self.graph.verify)
        self.assertRaises(vx.InvalidLink, self.graph.process)

    def test_virtual_images(self):
        part = self.graph.virtual_image(width=5)
        self.assertEqual(part.query(), (None, 5, None, (0, 0, 0, 0)))
        self.assertEqual((part.fmt, part.width, part.height), (None, 5, None))
        whole = self.graph.virtual_image(S16, 5, 6)
        self.assertEqual(whole.query(), (S16, 5, 6, (0, 0, 0, 0)))
        with self.assertRaises(vx.OptimizedAway):
            self.context.vxu.not_(whole, self.target)
        with self.assertRaises(vx.InvalidScope):
            self.context.graph().not_(whole, self.target)
        with self.assertRaises(vx.InvalidDimension):
            self.graph.virtual_image(U8, 8193, 1)

    def test_verdicts(self):
        self.graph.verify()
        wrong = {
            vx.InvalidGraph: lambda: self.graph.not_(self.source, self.source),
            vx.InvalidFormat: lambda: self.graph.not_(self.source, self.context.image(S16, 6, 1)),
            vx.InvalidDimension: lambda: self.graph.not_(self.source, self.context.image(U8, 1, 6)),
            vx.InvalidLink: lambda: self.graph.not_(self.graph.virtual_image(), self.target),
            vx.NoResources: lambda: self.graph.sobel3x3(self.source,
                                                        *(self.graph.virtual_image()
                                                          for _ in range(2))),
        }
        for kind, add in wrong.items():
            node = add()
            self.assertRaises(kind, self.graph.verify)
            self.assertRaises(kind, self.graph.process)
            node.remove()
        for _ in range(2):
            self.graph.not_(self.source, self.target)
        self.assertRaises(vx.MultipleWriters, self.graph.verify)

    def test_delays(self):
        camera = self.context.delay(self.source, 2)
        self.graph.absdiff(camera[0], camera[-1], self.target)
        for shade, wanted in ((5, 5), (7, 2), (4, 3)):
            camera[0].write(bytes([shade] * 6))
            self.graph.process()
            self.holds(self.target, [[wanted] * 6])
            camera.age()

    def test_sums(self):
        """Each run adds once, and a node that reads the sums reads the new ones, in either order of
        adding."""
        for is_shown_first in (False, True):
            picture, sums = self.context.image_from([[10]]), self.context.image(S16, 1, 1)
            shown = self.context.image(U8, 1, 1)
            sums.write([[5]])
            with self.context.graph() as graph:
                adds = [lambda: graph.accumulate(picture, sums),
                        lambda: graph.convert_depth(sums, shown, vx.SATURATE, 0)]
                for add in adds[::-1] if is_shown_first else adds:
                    add()
                graph.verify(warn=False)
                for wanted in (15, 25):
                    graph.process()
                    self.holds(sums, [[wanted]])
                    self.holds(shown, [[wanted]])
                graph.not_(graph.virtual_image(), shown)
                self.assertRaises(vx.MultipleWriters, graph.process)
                self.holds(sums, [[25]])

    def test_sums_in_immediate_mode(self):
        picture, sums = self.context.image_from([[200, 255]]), self.context.image(S16, 2, 1)
        for wanted in ([200, 255], [400, 510], [600, 765]):
            self.context.vxu.accumulate(picture, sums)
            self.holds(sums, [wanted])
        self.context.vxu.accumulate_square(picture, 1, sums)
        self.holds(sums, [[20600, 32767]])
        sums.write([[-32768, 0]])
        sums.valid = (0, 0, 1, 1)
        self.context.vxu.accumulate_square(picture, 15, sums)
        self.holds(sums, [[-32767, 0]])
        self.assertEqual(sums.valid, (0, 0, 1, 1))

    def test_sums_that_are_refused(self):
        picture, sums = self.context.image_from([[200]]), self.context.image(S16, 1, 1)
        vxu = self.context.vxu
        self.assertRaises(vx.InvalidGraph, vxu.accumulate, sums, sums)
        self.assertRaises(vx.InvalidFormat, vxu.accumulate, picture, self.context.image(U8, 1, 1))
        self.assertRaises(vx.InvalidDimension, vxu.accumulate, self.source, sums)
        for shift in (16, 255):
            with self.assertRaisesRegex(vx.InvalidValue, "0 to 15 for accumulate_square"):
                vxu.accumulate_square(picture, shift, sums)
        self.assertRaises(vx.OptimizedAway, vxu.accumulate, picture, self.graph.virtual_image(S16))
        self.graph.accumulate(picture, self.graph.virtual_image(S16, 1, 1))
        self.assertRaises(vx.InvalidLink, self.graph.process)
        self.holds(sums, [[0]])

    def slots_hold(self, delay, *samples):
        self.assertEqual([slot.read().tolist() for slot in delay],
                         [[[sample] * slot.width] for slot, sample in zip(delay, samples)])

    def test_delays_that_age_by_themselves(self):
        delay = self.context.delay(self.context.image(U8, 1, 1), 2)
        for slot, sample in zip(delay, (10, 20)):
            slot.write([[sample]])
        self.graph.not_(delay[-1], delay[0])
        self.graph.verify()
        for _ in range(2):
            self.graph.register_auto_aging(delay)
        self.slots_hold(delay, 10, 20)
        self.graph.process()
        self.slots_hold(delay, 20, 235)
        self.graph.process()
        self.slots_hold(delay, 235, 20)
        self.graph.not_(delay[0], delay[-1])
        self.assertRaises(vx.InvalidGraph, self.graph.process)
        self.assertRaises(vx.InvalidGraph, self.graph.verify)
        self.slots_hold(delay, 235, 20)

    def test_a_delay_ages_by_several_graphs(self):
        delay = self.context.delay(self.context.image(U8, 1, 1), 3)
        for slot, sample in zip(delay, (1, 2, 3)):
            slot.write([[sample]])
        graphs = self.graph, self.context.graph()
        with self.context.pipeline():
            for graph in graphs:
                graph.register_auto_aging(delay)
            for graph in graphs:
                graph.process()
        self.slots_hold(delay, 2, 3, 1)
        graphs[1].close()
        graphs[0].process()
        self.slots_hold(delay, 1, 2, 3)

    def test_a_delay_that_python_forgets_ages_as_long_as_a_node_uses_it(self):
        delay = self.context.delay(self.source, 3)
        for slot, sample in zip(delay, (1, 2, 3)):
            slot.write([[sample] * 6])
        self.graph.not_(delay[-1], self.target)
        self.graph.register_auto_aging(delay)
        self.graph.register_auto_aging(self.context.delay(self.source, 2))
        del delay, slot
        gc.collect()
        for wanted in (253, 254, 252, 253):
            self.graph.process()
            self.holds(self.target, [[wanted] * 6])

    def test_what_isnt_registered(self):
        delay = self.context.delay(self.source, 2)
        for wrong in (self.source, delay[0], self.graph, 3, None):
            with self.assertRaisesRegex(TypeError, "register_auto_aging takes a delay, not "):
                self.graph.register_auto_aging(wrong)
        with self.server.context() as other:
            foreign = other.delay(other.image(U8, 1, 1), 2)
            with self.assertRaisesRegex(vx.InvalidScope, "register .* belongs to another context"):
                self.graph.register_auto_aging(foreign)
        delay.close()
        with self.assertRaises(vx.InvalidReference) as caught:
            self.graph.register_auto_aging(delay)
        self.assertEqual(caught.exception.request,
                         "register closed delay 4 (U8, 6 by 1) for auto-aging with graph 3")

    def test_close(self):
        for _ in range(600):
            with self.context.graph() as graph:
                graph.not_(self.source, graph.virtual_image())
                kept = graph.virtual_image()
        self.assertTrue(kept.closed)
        graph.close()
        self.assertRaises(vx.InvalidReference, graph.process)
        self.assertRaises(vx.InvalidReference, graph.not_, self.source, self.target)

    def test_a_graph_without_nodes(self):
        """A profile of none takes no time. A closed graph has none, and doesn't replace a file."""
        self.assertEqual(str(self.graph.profile()), "    0.000 ms together, one by one")
        with tempfile.TemporaryDirectory() as folder:
            path = os.path.join(folder, "station.json")
            with self.context.graph() as graph:
                graph.not_(self.source, self.target)
                graph.save(path)
            with self.assertRaisesRegex(vx.InvalidReference, "save closed graph 4: "):
                graph.save(path)
            self.assertEqual(len(self.context.load_graph(path).graph.nodes), 1)

    def test_a_node_keeps_its_graph(self):
        node = self.context.graph().not_(self.source, self.target)
        gc.collect()
        node.graph.process()
        self.holds(self.target, [[245, 245, 245, 165, 245, 245]])

    def test_many_nodes(self):
        for _ in range(256):
            self.graph.not_(self.source, self.target)
        with self.assertRaisesRegex(vx.NoResources, "256"):
            self.graph.not_(self.source, self.target)


if __name__ == "__main__":
    unittest.main()
