"""Messages for a graph that can't run: the node at fault, the cycle, the unwritten virtual input.
They agree with the server's verdict."""

import pickle
import random
import unittest
from unittest import mock

from program import ProgramTest, of_a_process, vx
from feqyldan import verdicts, wire

U8, S16, U32 = vx.U8, vx.S16, vx.U32
GRAPHS, NODES = 400, 6


class TestWords(ProgramTest):
    limits = {"work": 100}

    def setUp(self):
        super().setUp()
        self.source = self.context.image_from([[10, 20, 30]])
        self.target = self.context.image(U8, 3, 1)
        self.graph = self.context.graph()

    def says(self, kind, words):
        for call, name in ((self.graph.verify, "verify"), (self.graph.process, "process")):
            with self.assertRaises(kind) as caught:
                call()
            self.assertEqual(caught.exception.fault, words)
            self.assertTrue(str(caught.exception).startswith(f"{name} graph 3: "
                                                             f"{caught.exception.name}. {words} "))

    def test_two_writers(self):
        self.graph.not_(self.source, self.target)
        self.graph.min(self.source, self.source, self.target)
        image = "image 1 (U8, 3 by 1)"
        self.says(vx.MultipleWriters,
                  f"image 2 (U8, 3 by 1) is written by node 1, not_({image}, image 2 (U8, 3 by "
                  f"1)), and by node 2, min({image}, {image}, image 2 (U8, 3 by 1)).")

    def test_two_outputs(self):
        out = self.context.image(S16, 3, 1)
        self.graph.sobel3x3(self.source, out, out)
        self.says(vx.MultipleWriters,
                  "image 4 (S16, 3 by 1) is written twice by node 1, sobel3x3(image 1 (U8, 3 by "
                  "1), image 4 (S16, 3 by 1), image 4 (S16, 3 by 1)).")

    def test_a_cycle(self):
        one, other = self.graph.virtual_image(), self.graph.virtual_image(U8)
        self.graph.not_(self.source, self.target)
        self.graph.and_(self.source, other, one)
        self.graph.not_(one, other)
        self.says(vx.InvalidGraph,
                  "These nodes form a cycle: node 2, and_(image 1 (U8, 3 by 1), virtual image 5 "
                  "(U8, open by open), virtual image 4 (open)); node 3, not_(virtual image 4 "
                  "(open), virtual image 5 (U8, open by open)).")

    def test_a_loose_end(self):
        self.graph.not_(self.graph.virtual_image(), self.target)
        self.says(vx.InvalidLink,
                  "virtual image 4 (open) is read by node 1, not_(virtual image 4 (open), image 2 "
                  "(U8, 3 by 1)), and written by no node.")

    def test_a_sum_that_nothing_holds(self):
        """A virtual image that is read but not written is reported first."""
        self.graph.accumulate(self.source, self.graph.virtual_image(S16))
        self.says(vx.InvalidLink,
                  "virtual image 4 (S16, open by open) has no samples before a run, so node 1, "
                  "accumulate(image 1 (U8, 3 by 1), virtual image 4 (S16, open by open)), has "
                  "nothing to add to.")
        self.graph.not_(self.graph.virtual_image(), self.target)
        self.says(vx.InvalidLink,
                  "virtual image 5 (open) is read by node 2, not_(virtual image 5 (open), image 2 "
                  "(U8, 3 by 1)), and written by no node.")

    def test_formats_that_were_open(self):
        between = self.graph.virtual_image()
        self.graph.not_(between, self.target)
        self.graph.add(self.source, self.source, vx.WRAP, between)
        self.says(vx.InvalidFormat,
                  "Node 1, not_(virtual image 4 (open), image 2 (U8, 3 by 1)): not_ takes U8 to U8."
                  " Virtual image 4 (open) is S16, 3 by 1, because node 2, add, writes it and its "
                  "format is open; graph.virtual_image(vx.U8) has one.")

    def test_sizes_that_were_open(self):
        """A format that was open has nothing to do with it."""
        between, wide = self.graph.virtual_image(), self.context.image(S16, 4, 1)
        self.graph.add(self.source, self.source, vx.WRAP, between)
        self.graph.absdiff(between, wide, self.graph.virtual_image())
        self.says(vx.InvalidDimension,
                  "Node 2, absdiff(virtual image 4 (open), image 5 (S16, 4 by 1), virtual image 6 "
                  "(open)), has images of different sizes. Virtual image 4 (open) is S16, 3 by 1, "
                  "because node 1, add, writes it. Virtual image 6 (open) is S16, 3 by 1, because "
                  "node 2, absdiff, writes it.")

    def test_a_size_that_was_declared(self):
        self.graph.not_(self.source, self.graph.virtual_image(None, 4, 1))
        self.says(vx.InvalidDimension,
                  "Node 1, not_(image 1 (U8, 3 by 1), virtual image 4 (open, 4 by 1)), has images "
                  "of different sizes.")

    def test_sizes(self):
        wide = self.context.image(U8, 4, 1)
        self.graph.not_(self.source, self.target)
        self.graph.not_(self.source, wide)
        self.says(vx.InvalidDimension,
                  "Node 2, not_(image 1 (U8, 3 by 1), image 4 (U8, 4 by 1)), has images of "
                  "different sizes.")

    def test_work_bytes(self):
        self.graph.convert_depth(self.context.image(U8, 10, 6), self.graph.virtual_image(), vx.WRAP,
                                 0)
        self.says(vx.NoResources, "Its virtual images need 120 bytes, and its work bytes are 100.")
        verdict = verdicts.verdict_on(self.graph._members, wire.NO_RESOURCES)
        self.assertEqual(verdict.fault.words,
                         "Its virtual images need 120 bytes, more than its work bytes.")

    def test_work_bytes_that_nobody_said(self):
        with vx.Server() as server, server.context() as context:
            self.assertEqual(server.work, 2**28)
            camera, graph = context.image(U8, 8192, 8192), context.graph()
            for _ in range(5):
                graph.not_(camera, graph.virtual_image())
            with self.assertRaisesRegex(vx.NoResources, "335,544,320 bytes, and its work bytes are "
                                        r"268,435,456\. .*vx.Server\(work="):
                graph.verify()

    def test_nodes_that_were_removed(self):
        node = self.graph.not_(self.source, self.source)
        self.graph.not_(self.graph.virtual_image(), self.target)
        node.remove()
        self.says(vx.InvalidLink,
                  "virtual image 4 (open) is read by node 2, not_(virtual image 4 (open), image 2 "
                  "(U8, 3 by 1)), and written by no node.")

    def test_in_a_pipeline(self):
        """The graph has changed when the reply comes."""
        node = self.graph.not_(self.source, self.source)
        with self.assertRaises(vx.InvalidGraph) as caught:
            with self.context.pipeline():
                self.graph.verify()
                node.remove()
                self.graph.verify()
        self.assertIn("These nodes form a cycle: node 1, not_(image 1", caught.exception.fault)
        self.assertIn("call 1 of the pipeline, test_verdicts.py", caught.exception.place)

    def test_in_a_pipeline_of_several_faults(self):
        """Each refusal says which call it was, and the fault of its own graph."""
        other = self.context.graph()
        other.not_(other.virtual_image(U8), self.target)
        self.graph.not_(self.source, self.context.image(U8, 4, 1))
        with self.assertRaises(vx.InvalidDimension) as caught:
            with self.context.pipeline() as ahead:
                self.source.write([[1, 2, 3]])
                self.graph.process()
                other.process()
                result = ahead.read(self.target)
        first, second = ahead.refusals
        self.assertIs(first, caught.exception)
        line = self.test_in_a_pipeline_of_several_faults.__code__.co_firstlineno
        for refused, call, words in (
                (first, 2, "process graph 3 (call 2 of the pipeline, test_verdicts.py:{}): "
                           "INVALID_DIMENSION. Node 1, not_(image 1 (U8, 3 by 1), image 6 (U8, 4 "
                           "by 1)), has images of different sizes."),
                (second, 3, "process graph 4 (call 3 of the pipeline, test_verdicts.py:{}): "
                            "INVALID_LINK. virtual image 5 (U8, open by open) is read by node 1, "
                            "not_(virtual image 5 (U8, open by open), image 2 (U8, 3 by 1)), and "
                            "written by no node.")):
            self.assertTrue(str(refused).startswith(words.format(line + 6 + call)), refused)
        self.assertRaises(vx.InvalidDimension, result.value)
        self.assertEqual(result.raw().tolist(), [[0, 0, 0]])

    def test_nothing_is_said_that_isnt_known(self):
        self.graph.not_(self.source, self.source)
        with mock.patch.object(verdicts, "verdict_on", return_value=None):
            with self.assertRaises(vx.InvalidGraph) as caught:
                self.graph.verify()
        self.assertEqual(caught.exception.fault, "")

    @of_a_process
    def test_after_an_interruption(self):
        """The reply to the interrupted call comes later, and has the number of the node."""
        with mock.patch.object(type(self.context._connection), "_wait",
                               side_effect=KeyboardInterrupt):
            self.assertRaises(KeyboardInterrupt, self.graph.not_, self.source, self.source)
        self.assertRaises(vx.InvalidGraph, self.graph.verify)
        self.assertEqual([node.number for node in self.graph.nodes], [1])
        self.says(vx.InvalidGraph,
                  "These nodes form a cycle: node 1, not_(image 1 (U8, 3 by 1), image 1 (U8, 3 by "
                  "1)).")


class TestFaultsAsData(ProgramTest):
    """The nodes and the operand of a refusal."""

    limits = {"work": 100}

    def setUp(self):
        super().setUp()
        self.source, self.target = (self.context.image(U8, 3, 1) for _ in range(2))
        self.graph = self.context.graph()

    def says(self, kind, nodes, operand):
        with self.assertRaises(kind) as caught:
            self.graph.process()
        self.assertEqual((caught.exception.nodes, caught.exception.operand), (nodes, operand))
        again = pickle.loads(pickle.dumps(caught.exception))
        self.assertEqual((again.fault, again.nodes, again.operand),
                         (caught.exception.fault, nodes, operand))

    def test_two_writers(self):
        self.graph.not_(self.source, self.target)
        self.graph.sobel3x3(self.source, None, self.target)
        self.says(vx.MultipleWriters, (1, 2), "output_y")

    def test_a_node_that_writes_twice(self):
        self.graph.sobel3x3(self.source, self.target, self.target)
        self.says(vx.MultipleWriters, (1,), "output_y")

    def test_a_cycle(self):
        one, other = self.graph.virtual_image(), self.graph.virtual_image()
        self.graph.not_(self.source, self.target)
        self.graph.and_(self.source, other, one)
        self.graph.not_(one, other)
        self.says(vx.InvalidGraph, (2, 3), "")

    def test_a_virtual_input_that_is_not_written(self):
        self.graph.not_(self.source, self.target)
        self.graph.max(self.source, self.graph.virtual_image(), self.context.image(U8, 3, 1))
        self.says(vx.InvalidLink, (2,), "in2")

    def test_sums_in_a_virtual_image(self):
        self.graph.accumulate(self.source, self.graph.virtual_image())
        self.says(vx.InvalidLink, (1,), "accum")

    def test_formats(self):
        deep = self.context.image(S16, 3, 1)
        limit = self.context.threshold(S16, above=3)
        for add, operand in (
                (lambda: self.graph.not_(deep, self.target), "input"),
                (lambda: self.graph.threshold(self.source, limit, self.target), "threshold"),
                (lambda: self.graph.min(self.source, deep, self.target), "in2"),
                (lambda: self.graph.not_(self.source, deep), "output"),
                (lambda: self.graph.histogram(deep, self.context.distribution(4)), "input"),
                (lambda: self.graph.sobel3x3(self.source, None, self.target), "output_y")):
            node = add()
            with self.subTest(operand):
                self.says(vx.InvalidFormat, (node.number,), operand)
            node.remove()

    def test_sizes(self):
        wide = self.context.image(U8, 4, 1)
        for images, operand in (((wide, self.source, self.target), "in2"),
                                ((self.source, self.source, wide), "output")):
            node = self.graph.min(*images)
            self.says(vx.InvalidDimension, (node.number,), operand)
            node.remove()

    def test_work_bytes(self):
        self.graph.not_(self.context.image(U8, 11, 10), self.graph.virtual_image())
        self.says(vx.NoResources, (), "")

    def test_arguments_of_a_call(self):
        with self.assertRaises(vx.InvalidValue) as caught:
            self.context.vxu.multiply(self.source, self.source, 16, vx.WRAP, self.target)
        self.assertEqual((caught.exception.nodes, caught.exception.operand), ((), "shift"))


class Maker:
    """Makes random graphs with few objects, so that nodes share them."""

    def __init__(self, context, seed):
        self.noise, self.context, self.graph = random.Random(seed), context, context.graph()
        sides = ((3, 2), (3, 2), (3, 2), (2, 3))
        images = [context.image(self.noise.choice((U8, U8, S16, U32)), *self.noise.choice(sides))
                  for _ in range(4)]
        delay = context.delay(images[0], 2)
        self.images = [*images, *delay]
        self.virtual = [self.graph.virtual_image(self.noise.choice((None, None, U8, S16)),
                                                 *self.noise.choice(((None, None), (None, None),
                                                                     (3, None), (2, 3))))
                        for _ in range(4)]
        self.tables = [context.lut(U8, range(256)), context.lut(S16, [0] * 65536)]
        self.thresholds = [context.threshold(fmt, above=1) for fmt in (U8, S16)]
        self.convolution = context.convolution([[1] * 3] * 3)
        self.counts, self.extremes = context.distribution(4), context.min_max()

    def image(self):
        return self.noise.choice(self.images + self.virtual)

    def output(self):
        return self.noise.choice(self.images[:2] + 2 * self.virtual)

    def add(self):
        name, graph = self.noise.choice(list(vx.FUNCTIONS)), self.graph
        source, other, out = self.image(), self.image(), self.output()
        policy = vx.WRAP
        calls = {
            "threshold": lambda: graph.threshold(source, self.noise.choice(self.thresholds), out),
            "table_lookup": lambda: graph.table_lookup(source, self.noise.choice(self.tables), out),
            "convolve": lambda: graph.convolve(source, self.convolution, out),
            "histogram": lambda: graph.histogram(source, self.counts),
            "min_max_loc": lambda: graph.min_max_loc(source, self.extremes),
            "convert_depth": lambda: graph.convert_depth(source, out, policy, 0),
            "multiply": lambda: graph.multiply(source, other, 0, policy, out),
            "accumulate_square": lambda: graph.accumulate_square(source, 1, out),
            "add": lambda: graph.add(source, other, policy, out),
            "subtract": lambda: graph.subtract(source, other, policy, out),
            "sobel3x3": lambda: graph.sobel3x3(source, *self.noise.choice(
                ((out, None), (None, out), (out, self.output())))),
        }
        two = {"and_", "or_", "xor", "absdiff", "min", "max"}
        if name in calls:
            return calls[name]()
        operands = (source, other, out) if name in two else (source, out)
        return getattr(graph, name)(*operands)


class TestRandomGraphs(ProgramTest):
    limits = {"work": 11}

    def test_the_servers_verdicts(self):
        met = {}
        for seed in range(GRAPHS):
            context = self.server.context()
            with context:
                maker = Maker(context, seed)
                for _ in range(maker.noise.randint(1, NODES)):
                    maker.add()
                    code = self.code_of(maker.graph)
                    # That there are too many bytes is taken from the server's code.
                    verdict = verdicts.verdict_on(maker.graph._members, code)
                    self.assertEqual(verdict.code if verdict else wire.SUCCESS, code,
                                     f"seed {seed}")
                    met[code] = met.get(code, 0) + 1
        for code in (wire.SUCCESS, wire.MULTIPLE_WRITERS, wire.INVALID_GRAPH, wire.INVALID_LINK,
                     wire.INVALID_FORMAT,
                     wire.INVALID_DIMENSION, wire.NO_RESOURCES):
            self.assertGreaterEqual(met.get(code, 0), 5, met)

    def code_of(self, graph):
        try:
            graph.verify()
        except vx.Refused as refused:
            self.assertNotEqual(refused.fault, "")
            return refused.code
        return wire.SUCCESS

    def test_formats_of_each_function(self):
        """Each function by itself, with all formats of images."""
        with self.server.context() as context:
            images = {fmt: context.image(fmt, 3, 1) for fmt in (U8, S16, U32)}
            graph = context.graph()
            self.assertEqual(set(verdicts.TAKEN), set(vx.FUNCTIONS))
            for name in ("not_", "box3x3", "gaussian3x3", "median3x3", "erode3x3", "dilate3x3",
                         "integral_image", "accumulate"):
                for fmt in images:
                    for made in images:
                        out = context.image(made, 3, 1)
                        node = getattr(graph, name)(images[fmt], out)
                        verdict = verdicts.verdict_on(graph._members)
                        self.assertEqual(verdict.code if verdict else 0, self.code_of(graph),
                                         (name, fmt, made))
                        node.remove()


if __name__ == "__main__":
    unittest.main()
