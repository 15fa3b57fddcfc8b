"""Exceptions: a class for each status code, and the ends of servers."""

import errno
import os
import pickle
import socket
import tempfile
import unittest
from unittest import mock

from documents import ROOT
from program import ProgramTest, answering, of_a_process, vx
from feqyldan import errors, wire

OPENED = wire.reply_frame(0, wire.OPEN_CONTEXT)


class TestCodes(unittest.TestCase):
    def test_each_code_has_a_class_and_an_advice(self):
        self.assertEqual(sorted(errors.CLASSES), list(range(1, len(wire.CODES))))
        for code, kind in errors.CLASSES.items():
            self.assertIs(getattr(vx, kind.__name__), kind)
            self.assertEqual(kind.__name__.upper(), wire.CODES[code].replace("_", ""))
            refused = errors.refusal(code, "some request", None)
            self.assertEqual((refused.code, refused.name, refused.request),
                             (code, wire.CODES[code], "some request"))
            self.assertEqual(str(refused), f"some request: {wire.CODES[code]}. {refused.advice}")
            self.assertIsInstance(refused, vx.Refused)

    def test_they_travel(self):
        one = errors.refusal(wire.INVALID_LINK, "verify graph 1", wire.VERIFY_GRAPH,
                             "call 2 of the pipeline, a.py:3",
                             errors.Fault("node 1 reads nothing.", (1,), "input"))
        again = pickle.loads(pickle.dumps(one))
        self.assertEqual((str(again), vars(again)), (str(one), vars(one)))
        self.assertTrue(str(one).startswith("verify graph 1 (call 2 of the pipeline, a.py:3): "
                                            "INVALID_LINK. node 1 reads nothing. A node "
                                            "reads"), one)

    def test_advice_for_a_request(self):
        for (code, op), advice in errors.ADVICE.items():
            self.assertIn(advice, str(errors.refusal(code, "some request", op)))


class TestFrames(unittest.TestCase):
    def test_a_stream_that_is_cut_off(self):
        reply = wire.reply_frame(7, 1, 0, b"ab")
        self.assertEqual(wire.replies(reply * 2), [reply] * 2)
        for cut in (reply[:-1], reply + b"\0", bytes(8)):
            with self.assertRaisesRegex(ValueError, "no whole frame begins at byte"):
                wire.replies(cut)


class TestNames(unittest.TestCase):
    def test_each_is_called_in_vx_and_in_the_manual_what_a_traceback_calls_it(self):
        with open(os.path.join(ROOT, "docs", "python.md"), encoding="utf-8") as file:
            manual = file.read()
        kinds = {vx.OrderWarning, *self.below(vx.FeqyldanError)}
        self.assertIn(errors.WrongPictureSize, kinds)
        for kind in kinds:
            self.assertIs(getattr(vx, kind.__name__, None), kind)
            self.assertIn(kind.__name__, vx.__all__)
            self.assertIn(f"`vx.{kind.__name__}`", manual)

    def below(self, kind):
        """Returns the class and all of its subclasses in this package."""
        ours = (other for other in kind.__subclasses__() if other.__module__.startswith("feqyldan"))
        return {kind}.union(*map(self.below, ours))


class TestRefusals(ProgramTest):
    limits = {"quota": 1000}

    def test_what_a_refusal_says(self):
        one, other = self.context.image(vx.U8, 2, 1), self.context.image(vx.U8, 1, 2)
        with self.assertRaises(vx.InvalidDimension) as caught:
            self.context.vxu.absdiff(one, one, other)
        request = "absdiff(image 1 (U8, 2 by 1), image 1 (U8, 2 by 1), image 2 (U8, 1 by 2))"
        self.assertEqual(caught.exception.request, request)
        self.assertEqual(str(caught.exception),
                         f"{request}: INVALID_DIMENSION. All images of one call must have the same "
                         "size.")

    def test_what_an_operand_is(self):
        image, deep = self.context.image(vx.U8, 2, 1), self.context.image(vx.S16, 2, 1)
        threshold, delay = self.context.threshold(vx.S16, above=1), self.context.delay(image, 2)
        with self.assertRaisesRegex(vx.InvalidFormat,
                                    r"threshold\(slot -1 of delay 4 \(U8, 2 by 1\), threshold 3 "
                                    r"\(S16\), image 1 \(U8, 2 by 1\)\)"):
            self.context.vxu.threshold(delay[-1], threshold, image)
        deep.close()
        with self.assertRaisesRegex(vx.InvalidReference,
                                    r"not_\(image 1 \(U8, 2 by 1\), closed image 2 \(S16, 2 by 1"):
            self.context.vxu.not_(image, deep)
        with self.assertRaisesRegex(vx.InvalidDimension,
                                    r"write 3 by 1 U8 samples to image 1 \(U8, 2 by 1\)"):
            image.write([[1, 2, 3]])
        with self.assertRaisesRegex(TypeError,
                                    "takes images and other objects of its context, not int"):
            self.context.vxu.threshold(image, 24, image)

    def test_each_request_on_an_image_says_its_format_and_size(self):
        """The server refuses each of them, because the objects were released."""
        image, deep = self.context.image(vx.U8, 2, 1), self.context.image(vx.S16, 1, 2)
        wide, delay = self.context.image(vx.U32, 3, 1), self.context.delay(deep, 2)
        graph, counts = self.context.graph(), self.context.distribution(2)
        virtual = graph.virtual_image(vx.S16, 5)
        kept = self.context.image(vx.U8, 2, 1)
        words = {image: "image 1 (U8, 2 by 1)", deep: "image 2 (S16, 1 by 2)",
                 wide: "image 3 (U32, 3 by 1)", delay[-1]: "slot -1 of delay 4 (S16, 1 by 2)"}
        for thing in (image, deep, wide, delay, virtual):
            # The package goes on to take it for open.
            self.context._tell("release", wire.release, thing.name)

        def set_valid(thing):
            thing.valid = (0, 0, 1, 1)

        for thing, about in words.items():
            width, height = thing.width, thing.height
            for call, said in (
                    (thing.read, f"read {about}"), (thing.read_pgm, f"read a PGM text of {about}"),
                    (thing.query, f"query {about}"),
                    (lambda: thing.write([[1] * width] * height),
                     f"write {width} by {height} {thing.fmt} samples to {about}"),
                    (lambda: thing.write_pgm(b"P5 2 1 255 .."), f"write a PGM text to {about}"),
                    (lambda: set_valid(thing),
                     f"make (0, 0, 1, 1) the valid rectangle of {about}"),
                    (lambda: self.context.delay(thing, 2),
                     f"create a delay of 2 slots like {about}"),
                    (lambda: self.context.vxu.min(kept, thing, kept),
                     f"min(image 8 (U8, 2 by 1), {about}, image 8 (U8, 2 by 1))"),
                    (lambda: self.context.vxu.histogram(thing, counts),
                     f"histogram({about}, distribution 6 (2 bins))"),
                    (lambda: graph.not_(thing, kept),
                     f"add not_({about}, image 8 (U8, 2 by 1)) to graph 5")):
                self.refused_of(call, said)
        self.refused_of(delay.age, "age delay 4 (S16, 1 by 2)")
        self.refused_of(virtual.query, "query virtual image 7 (S16, 5 by open)")
        self.refused_of(lambda: graph.not_(kept, virtual),
                        "add not_(image 8 (U8, 2 by 1), virtual image 7 (S16, 5 by open)) to "
                        "graph 5")
        for thing, about in ((image, words[image]), (delay, "delay 4 (S16, 1 by 2)")):
            self.refused_of(thing.close, f"release {about}")

    def refused_of(self, call, words):
        with self.subTest(words), self.assertRaises(vx.InvalidReference) as caught:
            call()
        self.assertEqual(caught.exception.request, words)

    def test_advice_on_policies_and_borders(self):
        image, deep = self.context.image(vx.U8, 2, 1), self.context.image(vx.S16, 2, 1)
        with self.assertRaisesRegex(vx.InvalidParameters, "vx.WRAP or vx.SATURATE"):
            self.context.vxu.add(image, image, 2, deep)
        for wrong in (deep, "SATURATE", None, 0.0):
            with self.assertRaisesRegex(TypeError,
                                        "add: a policy must be vx.WRAP or vx.SATURATE, not"):
                self.context.vxu.add(image, image, wrong, deep)
        with self.assertRaisesRegex(ValueError, "box3x3: a border's value must be a whole number "
                                                "from 0 to 255, not 300"):
            self.context.vxu.box3x3(image, image, vx.Border(1, 300))
        with self.assertRaisesRegex(ValueError, "box3x3: a border's mode must be that of "
                                                "vx.UNDEFINED, .* not 256"):
            self.context.vxu.box3x3(image, image, vx.Border(256))
        for wrong in (2, None, "REPLICATE", (2, 0), vx.constant):
            with self.assertRaisesRegex(TypeError,
                                        r"box3x3: a border must be vx.UNDEFINED, "
                                        r".*vx.constant\(value\), not"):
                self.context.graph().box3x3(image, image, border=wrong)
        with self.assertRaisesRegex(ValueError,
                                    "an image's width must be a whole number from 1 to 8192, not "
                                    "70000"):
            self.context.image(vx.U8, 70000, 1)
        for sides in ((8193, 1), (1, 8193)):
            with self.assertRaisesRegex(vx.InvalidDimension, "from 1 to 8192 columns, and from 1"):
                self.context.image(vx.U8, *sides)
        with self.assertRaisesRegex(vx.InvalidValue,
                                    "0 to 15 for multiply, 0 to 7 for convert_depth, 0 "
                                    "to 15 for accumulate_square"):
            self.context.vxu.multiply(image, image, 16, vx.WRAP, deep)

    def test_codes_of_the_program(self):
        image, byte = self.context.image(vx.U8, 2, 1), self.context.image(vx.S16, 2, 1)
        closed = self.context.image(vx.U8, 2, 1)
        closed.close()
        vxu, graph = self.context.vxu, self.context.graph()
        for kind, call in (
                (vx.InvalidReference, lambda: vxu.not_(image, closed)),
                (vx.InvalidType, lambda: vxu.not_(image, self.context.min_max())),
                (vx.InvalidType, lambda: vxu.not_(image, self.context.delay(image, 2))),
                (vx.InvalidFormat, lambda: vxu.not_(image, byte)),
                (vx.InvalidValue, lambda: vxu.multiply(image, image, 16, vx.WRAP, byte)),
                (vx.InvalidGraph, lambda: vxu.not_(image, image)),
                (vx.MultipleWriters, lambda: vxu.sobel3x3(image, byte, byte)),
                (vx.InvalidParameters, lambda: vxu.sobel3x3(image, None, None)),
                (vx.InvalidParameters, lambda: vxu.add(image, image, 2, byte)),
                (vx.OptimizedAway, lambda: vxu.not_(image, graph.virtual_image())),
                (vx.InvalidDimension, lambda: self.context.image(vx.U8, 0, 1)),
                (vx.NoResources, lambda: self.context.image(vx.U8, 1001, 1)),
                (vx.InvalidFormat, byte.read_pgm)):
            with self.subTest(kind):
                self.assertRaises(kind, call)

    def test_what_is_wrong_before_it_is_sent(self):
        image = self.context.image(vx.U8, 2, 1)
        graph, vxu = self.context.graph(), self.context.vxu
        with mock.patch.object(self.context._connection, "send") as send:
            for call in (lambda: vxu.not_(b"12", image), lambda: graph.not_([[1, 2]], image),
                         lambda: vxu.add(image, image, "WRAP", image),
                         lambda: graph.add(image, image, None, image),
                         lambda: vxu.box3x3(image, image, border="REPLICATE"),
                         lambda: graph.box3x3(image, image, border=0),
                         lambda: self.context.image(vx.U8, 2.0, 1),
                         lambda: graph.virtual_image(vx.U8, "2")):
                self.assertRaises(TypeError, call)
            for call in (lambda: self.context.image(vx.U8, 70000, 1),
                         lambda: self.context.image(vx.U8, 1, -1),
                         lambda: self.context.image(9, 1, 1),
                         lambda: graph.virtual_image(vx.U8, 70000, 1),
                         lambda: image.write(bytes(70000)),
                         lambda: vxu.multiply(image, image, 300, vx.WRAP, image),
                         lambda: vxu.box3x3(image, image, border=vx.constant(256))):
                self.assertRaises(ValueError, call)
        send.assert_not_called()
        self.holds(image, [[0, 0]])

    def test_objects_of_another_context(self):
        with self.server.context() as other:
            mine, foreign = self.context.image(vx.U8, 1, 1), other.image(vx.U8, 1, 1)
            self.assertEqual(mine.name, foreign.name)
            for call in (lambda: self.context.vxu.not_(mine, foreign),
                         lambda: self.context.graph().not_(foreign, mine),
                         lambda: self.context.delay(foreign, 2)):
                self.assertRaises(vx.InvalidScope, call)


@of_a_process
class TestEnds(unittest.TestCase):
    def ends(self, program, kind, words, status=None, said=""):
        with self.assertRaisesRegex(kind, words) as caught:
            with vx.Server(program) as server, server.context() as context:
                context.image(vx.U8, 1, 1)
        if kind is vx.ServerEnded:
            self.assertEqual((caught.exception.status, caught.exception.said), (status, said))

    def test_what_a_server_said_at_its_end(self):
        self.ends(answering(said="NO_MEMORY\n", status=5), vx.ServerEnded, "status 5: NO_MEMORY", 5,
                  "NO_MEMORY")
        self.ends(answering(OPENED, status=3), vx.ServerEnded, "status 3$", 3)

    def test_an_end_in_the_middle_of_a_reply(self):
        half = wire.reply_frame(0, wire.CREATE_IMAGE, 0, b"\0\0\0\1")
        for cut in (1, 4, 9):
            self.ends(answering(OPENED, half[:cut]), vx.ServerEnded,
                      "middle of a reply with status 0", 0)

    def test_no_reply_to_the_request(self):
        for reply in (wire.reply_frame(0, wire.CREATE_LUT), wire.reply_frame(1, wire.CREATE_IMAGE),
                      b"\0\0\0\3\0\0\3", b"\xff\xff\xff\xff\0\0\3\0",
                      # One byte longer than ReadImage's of 8192 by 8192 U32.
                      b"\x10\0\0\x0a\0\0\3\0",
                      wire.reply_frame(0, wire.CREATE_IMAGE, 77)):
            self.ends(answering(OPENED, reply, end="source.read()"), vx.UnexpectedReply, "")

    def test_no_memory(self):
        lost = wire.reply_frame(0, wire.CREATE_IMAGE, wire.NO_MEMORY)
        released = wire.reply_frame(0, wire.RELEASE_CONTEXT)
        self.ends(answering(OPENED, lost, released), vx.NoMemory,
                  "create a U8 image of 1 by 1: NO_MEMORY")

    def test_after_the_end(self):
        server = vx.Server(answering(OPENED, status=4, said="write failed"))
        context = server.context()
        for _ in range(3):
            self.assertRaises(vx.ServerEnded, context.graph)
        self.assertRaises(vx.ServerEnded, server.context)
        server.close()
        server.close()
        self.assertRaises(vx.Closed, server.context)
        context.close()

    def test_a_status_at_the_close(self):
        server = vx.Server(answering(OPENED, end="source.read()", status=3, said="truncated"))
        server.context()
        self.assertRaisesRegex(vx.ServerEnded, "status 3: truncated", server.close)
        server.close()

    def test_no_such_program(self):
        with self.assertRaisesRegex(vx.ProgramNotFound, "such program: ./no/such/program") as no:
            vx.Server("/no/such/program")
        self.assertEqual((no.exception.errno, no.exception.filename),
                         (errno.ENOENT, "/no/such/program"))
        for wrong in (5, [], b"/no/such/program"):
            with self.assertRaisesRegex(TypeError, "a program must be a path, or the words of"):
                vx.Server(wrong)
        nobody = "no server listens at this path: start a door or a broker, .*: '"
        self.assertRaisesRegex(FileNotFoundError, f"{nobody}/no/such/socket", vx.connect,
                               "/no/such/socket")
        # It isn't tried again.
        self.assertRaisesRegex(OSError, f"this isn't a socket: .*{__file__}", vx.connect, __file__,
                               retry=1e6)
        self.assertRaisesRegex(OSError, 200 * "long", vx.connect, 200 * "long")

    def test_a_socket_that_is_gone_by_the_next_context(self):
        with tempfile.TemporaryDirectory() as folder:
            path = os.path.join(folder, "socket")
            with socket.socket(socket.AF_UNIX) as listener:
                listener.bind(path)
                listener.listen()
                server = vx.connect(path)
                self.addCleanup(server.close)
                with listener.accept()[0]:
                    pass
            self.assertRaises(vx.ServerEnded, server.context)
            self.assertRaisesRegex(ConnectionRefusedError, f"no server listens.*{path}",
                                   server.context)
            os.unlink(path)
            self.assertRaisesRegex(FileNotFoundError, path, server.context)


if __name__ == "__main__":
    unittest.main()
