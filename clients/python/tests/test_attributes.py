"""The attributes of objects: those that can be read, names, values, usage."""

import contextlib
import gc
import inspect
import signal
import time
import unittest

from program import ProgramTest, vx


class TestAttributes(ProgramTest):
    def things(self):
        image, graph = self.context.image(vx.U8, 6, 4), self.context.graph()
        delay = self.context.delay(image, 2)
        with self.context.pipeline() as ahead:
            result = ahead.read(image)
        return [image, delay, delay[-1], graph, graph.virtual_image(), graph.not_(image, delay[0]),
                self.context.threshold(vx.U8, above=3), self.context.lut(vx.U8, range(256)),
                self.context.convolution([[1] * 3] * 3), self.context.distribution(2),
                self.context.min_max(), ahead, result, self.context, self.context.vxu, self.server]

    def test_no_attribute_is_made_by_a_misspelling(self):
        for thing in self.things():
            with self.subTest(type(thing).__name__):
                with self.assertRaises(AttributeError):
                    thing.vaild = (1, 1, 3, 3)
                self.assertFalse(hasattr(thing, "__dict__"))

    def test_what_was_made_stays(self):
        for thing in self.things():
            for name in dir(thing):
                if isinstance(getattr(type(thing), name, None), property) and name != "valid":
                    with self.subTest(f"{type(thing).__name__}.{name}"):
                        with self.assertRaises(AttributeError):
                            setattr(thing, name, 3)

    def test_completion_shows_what_programs_use(self):
        shown = {type(thing): {name for name in dir(thing) if name[0] != "_"}
                 for thing in self.things()}
        for inner in ("tell", "ask", "create", "forget", "look_at", "send", "connection"):
            self.assertNotIn(inner, shown[vx.Context])
        self.assertLessEqual({"image", "image_from", "vxu", "pipeline", "close"},
                             shown[vx.Context])
        self.assertNotIn("reading", shown[vx.Image])
        self.assertIn("valid", shown[vx.Image])
        self.assertEqual(set(dir(vx)), {*vx.__all__, "__version__"})

    def test_values(self):
        image = self.context.image(vx.S16, 6, 4)
        self.assertEqual((str(image.dtype), image.ndim, image.size, image.shape),
                         ("int16", 2, 24, (4, 6)))
        above = self.context.threshold(vx.U8, above=24, true_value=1)
        self.assertEqual((above.above, above.between, above.true_value, above.false_value),
                         (24, None, 1, 0))
        self.assertEqual(repr(above), "<threshold 2 (U8), above 24 gives 1, else 0>")
        between = self.context.threshold(vx.S16, between=(-1, 2))
        self.assertEqual((between.above, between.between), (None, (-1, 2)))
        self.assertEqual(self.context.lut(vx.U8, range(255, -1, -1)).entries[:2], (255, 254))
        kernel = self.context.convolution([[1, 2, 1]] * 3, scale=16)
        self.assertEqual((kernel.coefficients, kernel.scale), (((1, 2, 1),) * 3, 16))
        self.assertIn("1 2 1 / 1 2 1 / 1 2 1 over 16", repr(kernel))
        counts = self.context.distribution(3, 1, 30)
        self.assertEqual((counts.bins, counts.offset, counts.range), (3, 1, 30))

    def test_nodes(self):
        image, out = self.context.image(vx.U8, 6, 4), self.context.image(vx.U8, 6, 4)
        graph = self.context.graph()
        first, second = graph.not_(image, out), graph.box3x3(image, self.context.image(vx.U8, 6, 4))
        self.assertEqual([node.function for node in graph.nodes], ["not_", "box3x3"])
        self.assertIn("2 nodes", repr(graph))
        graph.nodes[0].remove()
        self.assertIn("removed", repr(first))
        self.assertEqual([node.number for node in graph.nodes], [second.number])

    def test_labels(self):
        camera = self.context.image(vx.U8, 6, 4, name="camera")
        graph = self.context.graph(name="watch")
        moved = graph.virtual_image(name="moved")
        things = [self.context.image_like(camera, name="n"),
                  self.context.image_from([[1]], name="n"),
                  self.context.image_from_pgm(b"P2 1 1 255 3", name="n"),
                  self.context.delay(camera, 2, name="n"),
                  self.context.threshold(vx.U8, above=1, name="n"),
                  self.context.lut(vx.U8, range(256), name="n"),
                  self.context.convolution([[1] * 3] * 3, name="n"),
                  self.context.distribution(1, name="n"), self.context.min_max(name="n")]
        for thing in things:
            self.assertEqual(thing.label, "n")
            self.assertIn(' "n"', str(thing))
        for wrong in (3, b"n", ["n"]):
            with self.assertRaisesRegex(TypeError, "the name of an object must be text, not "):
                self.context.image(vx.U8, 6, 4, name=wrong)
        self.assertEqual(self.context.usage().objects, 3 + len(things))
        graph.not_(moved, camera)
        moved_words, camera_words = r'virtual image 3 "moved" \(open\)', r'image 1 "camera" \(U8'
        with self.assertRaisesRegex(vx.InvalidLink,
                                    rf'verify graph 2 "watch": INVALID_LINK. {moved_words} is read '
                                    rf'by node 1, not_\({moved_words}, {camera_words}, 6 by 4'):
            graph.verify()


class TestUsage(ProgramTest):
    limits = {"quota": 1000}

    def test_it_counts(self):
        self.assertEqual(self.context.usage(), (0, 1024, 0, 1000))
        image = self.context.image(vx.S16, 10, 10)
        delay = self.context.delay(self.context.image(vx.U8, 10, 10), 3)
        gc.collect()
        self.assertEqual(self.context.usage(), (2, 1024, 500, 1000))
        graph = self.context.graph()
        graph.not_(delay[0], delay[-1])
        delay.close()
        image.close()
        # The graph uses the delay.
        self.assertEqual(self.context.usage(), (2, 1024, 300, 1000))
        graph.close()
        self.assertEqual(self.context.usage(), (0, 1024, 0, 1000))

    def test_a_context_that_was_closed(self):
        """Another context may have its number, and objects of the same names."""
        image = self.context.image(vx.U8, 2, 1)
        self.context.close()
        with self.server.context() as other:
            kept = other.image_from([[1, 2]])
            self.assertEqual((other._number, kept.name), (self.context._number, image.name))
            del image
            gc.collect()
            self.context.usage()
            self.holds(kept, [[1, 2]])

    def test_a_graph_that_is_made_meanwhile(self):
        """By a signal's handler, while usage() looks through the graphs."""
        kept = [self.context.graph() for _ in range(200)]

        def handler(*_):
            with contextlib.suppress(vx.NestedCall):
                kept.append(self.context.graph())
            del kept[300:]

        self.addCleanup(signal.signal, signal.SIGALRM, signal.signal(signal.SIGALRM, handler))
        signal.setitimer(signal.ITIMER_REAL, 0.001, 0.001)
        self.addCleanup(signal.setitimer, signal.ITIMER_REAL, 0)
        end = time.monotonic() + 1
        while time.monotonic() < end:
            self.context.usage()

    def test_what_is_gone_is_forgotten(self):
        """Usage stays small, however many objects come and go."""
        for _ in range(3000):
            self.context.min_max()
        self.assertLess(len(self.context._used._sizes), 200)

    def test_it_is_the_servers_count(self):
        """An image of the bytes left in the quota by this count can be created, and one of a byte
        more can't."""
        source, kept = self.context.image(vx.U8, 10, 10), self.context.image(vx.U8, 10, 10)
        graph = self.context.graph()
        graph.not_(source, kept)
        source.close()
        left = 1000 - self.context.usage().image_bytes
        self.context.image(vx.U8, left, 1).close()
        self.assertRaises(vx.NoResources, self.context.image, vx.U8, left + 1, 1)
        objects = [self.context.min_max() for _ in range(1024 - self.context.usage().objects)]
        self.assertRaises(vx.NoResources, self.context.min_max)
        self.assertEqual(self.context.usage().objects, 1024)
        del objects

    def test_which_limit(self):
        kept = self.context.image(vx.U8, 600, 1)
        with self.assertRaisesRegex(vx.NoResources, "The object needs 500 bytes of the quota, and "
                                    "600 of 1,000 are used. The client's"):
            self.context.image(vx.U8, 50, 10)
        with self.assertRaisesRegex(vx.NoResources, "The object needs 1,200 bytes of the quota, "
                                                    "and 600"):
            self.context.delay(kept, 2)
        many = [self.context.min_max() for _ in range(1023)]
        with self.assertRaisesRegex(vx.NoResources, "The context has 1,024 objects, the most that"):
            many.append(self.context.min_max())


class TestSignatures(unittest.TestCase):
    def test_each_object_takes_a_name(self):
        for make in ("image", "image_like", "image_from", "image_from_pgm", "read_pgm", "load",
                     "lut", "threshold", "convolution", "distribution", "min_max", "delay",
                     "graph"):
            self.assertIn("name", inspect.signature(getattr(vx.Context, make)).parameters)


if __name__ == "__main__":
    unittest.main()
