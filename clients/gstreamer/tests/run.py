"""
The tests of the GStreamer element, headless: appsrc and appsink, and a registry of their own. The
Python package computes what the element's frames have to be. Needs GStreamer's and json-glib's
headers, GStreamer's Python package and NumPy (CONTRIBUTING.md names Debian's packages).
"""

import contextlib
import glob
import os
import re
import shutil
import signal
import socket
import socketserver
import subprocess
import sys
import tempfile
import threading
import time
import unittest
from unittest import mock

sys.dont_write_bytecode = True
HERE = os.path.dirname(os.path.abspath(__file__))
HOME = os.path.join(HERE, "..")
ROOT = os.path.realpath(os.path.join(HOME, "../.."))
sys.path[:0] = [os.path.join(HOME, "../c/tests"), os.path.join(HOME, "../python/tests")]
import graph_files as c_tests  # noqa: E402
import test_graph_files  # noqa: E402
from program import PROGRAM, VARIABLES, ProgramTest, vx  # noqa: E402
from feqyldan.functions import FUNCTIONS  # noqa: E402

try:
    import gi
    gi.require_version("Gst", "1.0")
    gi.require_version("GstVideo", "1.0")
    import numpy
    from gi.repository import Gst, GstVideo
except (ImportError, ValueError):
    Gst = None

PLUGIN = os.path.join(HOME, "out", "libgstfeqyldan.so")
# Seconds that a frame or a message may take on a busy machine.
PATIENCE = 60
TYPES = {"GRAY8": "uint8", "GRAY16_LE": "uint16"}
folder = ""


def setUpModule():
    global folder
    if Gst is None or not all(map(c_tests.flags_of, ("gstreamer-video-1.0", "json-glib-1.0"))):
        raise unittest.SkipTest("GStreamer's headers, its Python package or NumPy aren't installed")
    subprocess.run(["make", "-s", "-C", HOME], check=True)
    folder = tempfile.mkdtemp()
    os.environ.update(GST_REGISTRY=os.path.join(folder, "registry"), G_DEBUG="fatal-criticals",
                      GST_PLUGIN_PATH=os.path.dirname(PLUGIN))
    Gst.init(None)


def tearDownModule():
    shutil.rmtree(folder)


def caps(fmt, width, height):
    return f"video/x-raw,format={fmt},width={width},height={height},framerate=30/1"


def frames_of(count, width, height, kind="uint8"):
    chance = numpy.random.default_rng(width * 1000 + height)
    return [chance.integers(0, numpy.iinfo(kind).max, (height, width), kind, endpoint=True)
            for _ in range(count)]


class Line:
    """A pipeline of an appsrc, the element and an appsink."""

    def __init__(self, element, width, height, fmt="GRAY8", after="", starts=True):
        self.count, self.fmt = 0, fmt
        self.pipeline = Gst.parse_launch(
            f"appsrc name=in format=time caps={caps(fmt, width, height)} ! feqyldan name=t "
            f"{element} ! {after} appsink name=out sync=false")
        self.source, self.sink = map(self.pipeline.get_by_name, ("in", "out"))
        if starts:
            self.start()

    def __enter__(self):
        return self

    def __exit__(self, *_):
        self.pipeline.set_state(Gst.State.NULL)

    def start(self):
        self.pipeline.set_state(Gst.State.PLAYING)

    def push(self, frame, stride=None, offset=0):
        """Pushes a frame; with a stride, its layout is in a GstVideoMeta."""
        height, width = frame.shape
        row = width * frame.itemsize
        step = (row + 3) // 4 * 4 if stride is None else stride
        content = numpy.full(offset + step * height, 0xAA, "uint8")
        for y in range(height):
            start = offset + y * step
            content[start:start + row] = frame[y].view("uint8")
        buffer = Gst.Buffer.new_wrapped(content.tobytes())
        buffer.pts, buffer.duration = self.count * Gst.SECOND // 30, Gst.SECOND // 30
        self.count += 1
        if stride is not None:
            GstVideo.buffer_add_video_meta_full(
                buffer, 0, GstVideo.VideoFormat.from_string(self.fmt), width, height, 1,
                [offset, 0, 0, 0], [step, 0, 0, 0])
        return self.source.emit("push-buffer", buffer)

    def push_bytes(self, *memories, layout=None):
        """Pushes a frame in memories of these bytes. The layout is the format, the offset and the
        stride of a GstVideoMeta."""
        buffer = Gst.Buffer.new()
        for content in filter(None, memories):
            buffer = buffer.append(Gst.Buffer.new_wrapped(content))
        if layout is not None:
            fmt, offset, stride = layout
            caps = self.source.get_property("caps").get_structure(0)
            GstVideo.buffer_add_video_meta_full(
                buffer, 0, GstVideo.VideoFormat.from_string(fmt), caps.get_value("width"),
                caps.get_value("height"), 1, [offset, 0, 0, 0], [stride, 0, 0, 0])
        return self.source.emit("push-buffer", buffer)

    def resize(self, width, height):
        self.source.set_property("caps", Gst.Caps.from_string(caps(self.fmt, width, height)))

    def end(self):
        self.source.emit("end-of-stream")

    def sample(self, seconds=PATIENCE):
        return self.sink.emit("try-pull-sample", seconds * Gst.SECOND)

    def pull(self, seconds=PATIENCE):
        """The next frame, an array; None where none comes."""
        sample = self.sample(seconds)
        if sample is None:
            return None
        info = GstVideo.VideoInfo.new_from_caps(sample.get_caps())
        meta = GstVideo.buffer_get_video_meta(sample.get_buffer())
        place = meta or info
        kind = numpy.dtype(TYPES[info.finfo.name])
        with sample.get_buffer().map(Gst.MapFlags.READ) as mapped:
            return numpy.ndarray((info.height, info.width), kind, mapped.data, place.offset[0],
                                 (place.stride[0], kind.itemsize)).copy()

    def pull_all(self):
        self.end()
        found = []
        while (frame := self.pull()) is not None:
            found.append(frame)
        return found

    def messages(self, kind, seconds=0):
        """The messages of a kind from the element, after waiting for the first of them."""
        bus, found = self.pipeline.get_bus(), []
        while True:
            message = bus.timed_pop_filtered(
                0 if found else int(seconds * Gst.SECOND), kind)
            if message is None:
                return found
            if message.src.name == "t":
                found.append(message)

    def error(self):
        """The words of the element's error; there is only one."""
        message, = self.messages(Gst.MessageType.ERROR, PATIENCE)
        return message.parse_error()[0].message


# Requests, by their numbers on the wire.
OPEN_CONTEXT, READ_DISTRIBUTION, ADD_NODE, PROCESS_GRAPH = 1, 15, 20, 23


class Door(socketserver.ThreadingUnixStreamServer):
    """
    A socket that starts a server for each connection. The connections end one after another at
    these requests, before the server gets them, or get no answer; further ones go on.
    """

    daemon_threads, request_queue_size = True, 64

    def __init__(self, path, *last, is_silent=False):
        with contextlib.suppress(FileNotFoundError):
            os.unlink(path)
        super().__init__(path, None)
        self.last, self.connections, self.ended = list(last), [], 0
        self.is_silent, self.is_closed = is_silent, threading.Event()
        threading.Thread(target=self.serve_forever, args=(0.01,), daemon=True).start()

    def finish_request(self, request, client_address):
        last = self.last.pop(0) if self.last else None
        self.connections.append(request)
        with contextlib.suppress(OSError), request.makefile("rwb") as client, subprocess.Popen(
                [PROGRAM, "serve"], stdin=subprocess.PIPE, stdout=subprocess.PIPE) as server:
            while head := client.read(4):
                frame = client.read(int.from_bytes(head, "big"))
                if frame[2] == last:
                    self.ended += 1
                    if self.is_silent:
                        self.is_closed.wait()
                    break
                server.stdin.write(head + frame)
                server.stdin.flush()
                head = server.stdout.read(4)
                client.write(head + server.stdout.read(int.from_bytes(head, "big")))
                client.flush()

    def close(self):
        """Refuses connections, and ends those that are open."""
        self.is_closed.set()
        self.shutdown()
        self.server_close()
        for connection in self.connections:
            with contextlib.suppress(OSError):
                connection.shutdown(socket.SHUT_RDWR)


class ElementTest(test_graph_files.FolderTest, ProgramTest):

    def setUp(self):
        super().setUp()
        self.others = []
        self.others = self.servers()

    def servers(self, starter=os.getpid()):
        """The numbers of the servers that a process started for elements."""
        run = subprocess.run(["ps", "--ppid", str(starter), "-o", "pid=,args="], check=False,
                             stdout=subprocess.PIPE, text=True)
        return [int(line.split()[0]) for line in run.stdout.splitlines()
                if "serve" in line and int(line.split()[0]) not in self.others]

    def same(self, found, wanted):
        self.assertEqual(len(found), len(wanted))
        for number, (one, other) in enumerate(zip(found, wanted)):
            numpy.testing.assert_array_equal(one, other, f"frame {number}")

    def save(self, name, make, width, height):
        """Saves the graph that make(context, width, height) gives; returns its path."""
        with self.server.context() as context:
            graph, camera = make(context, width, height)
            graph.save(self.path(name), inputs=[camera])
        return self.path(name)

    def in_python(self, path, frames, output):
        """The frames that the package computes, as GStreamer has them."""
        with self.server.context() as context:
            loaded = context.load_graph(path)
            (camera,), found = loaded.inputs.values(), []
            for frame in frames:
                camera.write(frame.astype(c_tests.TYPES[camera.fmt]))
                loaded.graph.process()
                out = loaded.outputs[output].read().copy()
                found.append(out if out.dtype == "uint8" else out.clip(0).astype("uint16"))
            return found

    def run_line(self, element, frames, fmt="GRAY8"):
        height, width = frames[0].shape
        with Line(element, width, height, fmt) as line:
            for frame in frames:
                line.push(frame)
            return line.pull_all()


def six(context, width, height):
    """A graph of six nodes, and its input."""
    camera, marks = (context.image(vx.U8, width, height, name=name) for name in ("camera", "marks"))
    graph = context.graph()
    a, b, c, d, e = (graph.virtual_image(vx.U8) for _ in range(5))
    graph.median3x3(camera, a, border=vx.REPLICATE)
    graph.gaussian3x3(a, b, border=vx.REPLICATE)
    graph.absdiff(a, b, c)
    graph.threshold(c, context.threshold(vx.U8, above=24), d)
    graph.erode3x3(d, e, border=vx.REPLICATE)
    graph.dilate3x3(e, marks, border=vx.REPLICATE)
    return graph, camera


def measured(context, width, height):
    graph, camera = six(context, width, height)
    marks = next(call.operands[2] for call in graph._calls.values() if call.name == "dilate3x3")
    graph.min_max_loc(camera, context.min_max(name="extremes"))
    graph.histogram(marks, context.distribution(2, name="counts"))
    return graph, camera


def counted(context, width, height):
    camera, graph = context.image(vx.U8, width, height), context.graph()
    graph.histogram(camera, context.distribution(256, name="counts"))
    return graph, camera


def motion(context, width, height):
    camera, moved = (context.image(vx.U8, width, height, name=name) for name in ("camera", "moved"))
    smooth, graph = context.delay(camera, 2, name="smooth"), context.graph()
    difference = graph.virtual_image(vx.U8)
    graph.gaussian3x3(camera, smooth[0], border=vx.REPLICATE)
    graph.absdiff(smooth[0], smooth[-1], difference)
    graph.threshold(difference, context.threshold(vx.U8, above=24), moved)
    graph.register_auto_aging(smooth)
    return graph, camera


def copied(fmt):
    def graph(context, width, height):
        camera, out = (context.image(fmt, width, height, name=name) for name in ("camera", "out"))
        graph = context.graph()
        graph.max(camera, camera, out)
        return graph, camera
    return graph


class Frames(ElementTest):

    def test_each_function(self):
        """One graph file for all widths, since nothing in it is of one size."""
        for function in FUNCTIONS:
            for width, height in ((1, 1), (3, 5), (33, 7), (321, 11)):
                def make(context, width, height):
                    return c_tests.graph_of(context, function, width, height)
                small = self.save("a.json", make, 16, 12)
                path = self.save("b.json", make, width, height)
                frames = frames_of(2, width, height)
                with self.server.context() as context:
                    outputs = [name for name, thing in context.load_graph(path).outputs.items()
                               if getattr(thing, "fmt", vx.U32) != vx.U32]
                for output in outputs:
                    with self.subTest(function=function, size=(width, height), output=output):
                        self.same(self.run_line(f"graph={small} output={output}", frames),
                                  self.in_python(path, frames, output))

    def test_the_packages_own_graph_file(self):
        """All kinds of objects, delays and sums, of one size; each output in turn."""
        with self.server.context() as context:
            graph, camera = test_graph_files.station(context)
            graph.save(self.path("a.json"), inputs=[camera])
        frames = [numpy.array(frame, "uint8") for frame in test_graph_files.pictures(5)]
        for output in ("marks", "down", "edges", "product", "sums"):
            with self.subTest(output):
                self.same(self.run_line(f"graph={self.path('a.json')} output={output}", frames),
                          self.in_python(self.path("a.json"), frames, output)[1:])

    def test_an_input_that_its_picture_describes(self):
        """Its format and size are those of the picture in the file."""
        frames = frames_of(2, 33, 7)
        vx.write_pgm(self.path("a.pgm"), frames[0])
        path = self.put("a.json", {
            "feqyldan": 1, "nodes": [{"function": "not_", "input": "a", "output": "b"}],
            "objects": {"a": {"kind": "image", "file": "a.pgm", "input": True},
                        "b": {"kind": "image", "format": "U8", "width": 33, "height": 7}}})
        self.same(self.run_line(f"graph={path}", frames), [255 - frame for frame in frames])

    def test_a_picture_that_is_replaced(self):
        """A new server gets the picture that was there at the start."""
        (good, frame), name = frames_of(2, 8, 8), self.path("good.pgm")
        image = {"kind": "image", "format": "U8", "width": 8, "height": 8}
        path = self.put("a.json", {
            "feqyldan": 1, "objects": {"a": {**image, "input": True}, "out": image,
                                       "good": {"kind": "image", "file": "good.pgm"}},
            "nodes": [{"function": "xor", "in1": "a", "in2": "good", "output": "out"}]})
        for other in (frame, frames_of(1, 9, 9)[0], None):
            vx.write_pgm(name, good)
            with self.subTest(other is None or other.shape), Line(f"graph={path}", 8, 8) as line:
                line.push(frame)
                self.same([line.pull()], [frame ^ good])
                os.unlink(name)
                if other is not None:
                    vx.write_pgm(name, other)
                os.kill(self.servers()[0], signal.SIGKILL)
                line.push(frame)
                self.same([line.pull()], [frame ^ good])

    def test_strides_and_offsets(self):
        for fmt, graph, kind in (("GRAY8", vx.U8, "uint8"), ("GRAY16_LE", vx.S16, "uint16")):
            path = self.save("a.json", copied(graph), 61, 50)
            frames = [frame >> 1 for frame in frames_of(3, 61, 50, kind)]
            with Line(f"graph={path}", 61, 50, fmt) as line:
                for frame, stride, offset in zip(frames, (128, 256, 130), (64, 2, 0)):
                    line.push(frame, stride, offset)
                self.same(line.pull_all(), frames)

    def test_sixteen_bits(self):
        path, frames = self.save("a.json", copied(vx.S16), 50, 40), frames_of(3, 50, 40, "uint16")
        for rule, wanted in (("clamp", [frame.clip(None, 32767) for frame in frames]),
                             ("halve", [frame & 0xFFFE for frame in frames]), ("wrap", frames)):
            with self.subTest(rule):
                self.same(self.run_line(f"graph={path} gray16={rule}", frames, "GRAY16_LE"), wanted)

    def test_frames_whose_memory_is_not_what_is_said(self):
        """Samples beyond the memory would be those of something else, or none."""
        for fmt, graph, kind in (("GRAY8", vx.U8, "uint8"), ("GRAY16_LE", vx.S16, "uint16")):
            path, size = self.save("a.json", copied(graph), 8, 8), numpy.dtype(kind).itemsize
            row, whole = 8 * size, 64 * size
            after = f" on: they must follow one another in its memory, which has {whole} bytes"
            other = {"GRAY8": "GRAY16_LE", "GRAY16_LE": "GRAY8"}[fmt]
            for layout, words in (
                    ((fmt, 0, 99), f"rows of {row} bytes are 99 bytes apart, from byte 0{after}"),
                    ((fmt, 1, row), f"{row} bytes apart, from byte 1{after}"),
                    ((fmt, 0, row - 1), f"{row - 1} bytes apart, from byte 0{after}"),
                    ((fmt, whole - row, -row), f"-{row} bytes apart, from byte {whole - row}"),
                    ((other, 0, row), f"a frame is {fmt} by its caps, and {other} by its Gst")):
                with self.subTest(words), Line(f"graph={path}", 8, 8, fmt) as line:
                    line.push_bytes(bytes(whole), layout=layout)
                    self.assertIn(words, line.error())
            for count in (0, whole - 1):
                with self.subTest(count), Line(f"graph={path}", 8, 8, fmt) as line:
                    line.push_bytes(bytes(count))
                    self.assertEqual(line.error(), f"{path}: a frame has {count} bytes, and its "
                                                   f"caps need {whole}")

    def test_a_frame_in_two_memories(self):
        """GStreamer joins them where no meta has the layout, and else has the first one alone."""
        path, frame = self.save("a.json", copied(vx.U8), 8, 8), frames_of(1, 8, 8)[0]
        half = frame[:4].tobytes(), frame[4:].tobytes()
        with Line(f"graph={path}", 8, 8) as line:
            line.push_bytes(*half)
            self.same([line.pull()], [frame])
            line.push_bytes(*half, layout=("GRAY8", 0, 8))
            self.assertIn("in its memory, which has 32 bytes", line.error())

    def test_a_meta_of_another_size_than_the_caps(self):
        """A larger frame is cropped, and a smaller one is refused."""
        for fmt, graph, kind in (("GRAY8", vx.U8, "uint8"), ("GRAY16_LE", vx.S16, "uint16")):
            path = self.save("a.json", copied(graph), 8, 8)
            large, small = (frames_of(1, side, side, kind)[0] >> 1 for side in (16, 4))
            with self.subTest(fmt), Line(f"graph={path}", 8, 8, fmt) as line:
                line.push(large, 16 * large.itemsize)
                self.same([line.pull()], [large[:8, :8]])
                line.push(small, 4 * small.itemsize)
                self.assertEqual(line.error(), f"{path}: a frame is 8 by 8 by its caps, and 4 by 4 "
                                               "by its GstVideoMeta")

    def test_the_first_pipeline_of_the_document(self):
        """It writes the samples that `python3 -m feqyldan run` writes for that frame."""
        with open(os.path.join(ROOT, "docs/gstreamer.md"), encoding="utf-8") as file:
            shown = file.read().split("    gst-launch-1.0 ")[1].split("\n\n")[0]
        self.assertIn("location=edges.png", shown)
        there = shown.replace("edges.png", self.path("edges.png"))
        head = shown.split("feqyldan")[0].replace("\\\n", "")
        for line in (there, f"{head} pngenc ! filesink location={self.path('in.png')}"):
            subprocess.run(f"gst-launch-1.0 -q {line}", shell=True, check=True, timeout=PATIENCE,
                           cwd=ROOT)
        subprocess.run([sys.executable, "-m", "feqyldan", "run", f"{ROOT}/examples/edges.json",
                        "--in", "in.png", "--out", "out"], check=True, cwd=self.folder,
                       env={**os.environ, **VARIABLES, "PYTHONPATH": test_graph_files.PACKAGE})
        with self.server.context() as context:
            shown, wanted = (context.load(self.path(name)).read()
                             for name in ("edges.png", "out/in.png"))
        numpy.testing.assert_array_equal(shown, wanted)
        self.assertEqual(set(numpy.unique(shown)), {0, 255})

    def test_the_example_prints_its_messages(self):
        run = subprocess.run([sys.executable, f"{ROOT}/examples/messages.py"], check=True,
                             stdout=subprocess.PIPE, text=True, timeout=PATIENCE)
        self.assertRegex(run.stdout, r"^1 \d+ samples changed\n(\d \d+ samples changed\n){8}$")


class Results(ElementTest):

    def test_messages_and_meta(self):
        path = self.save("a.json", measured, 50, 40)
        frames = [numpy.zeros((40, 50), "uint8") for _ in range(2)]
        frames[1][10, 20] = 200
        for after in ("", "videoconvert ! video/x-raw,format=GRAY8 ! "):
            with Line(f"graph={path} output=-", 50, 40, after=after) as line:
                for frame in frames:
                    line.push(frame)
                samples = [line.sample() for _ in frames]
                last = line.messages(Gst.MessageType.ELEMENT, PATIENCE)[-1].get_structure()
            self.assertEqual((last.get_name(), last.get_uint64("frame")[1],
                              last.get_uint64("timestamp")[1]), ("feqyldan", 1, Gst.SECOND // 30))
            self.assertEqual(list(last.get_value("counts")), [2000, 0])
            found = last.get_value("extremes")
            self.assertEqual([found.get_value(name) for name in (
                "min", "max", "min-count", "max-count", "max-x", "max-y")],
                [0, 200, 1999, 1, 20, 10])
            buffer = samples[1].get_buffer()
            structure = buffer.get_custom_meta("GstFeqyldanMeta").get_structure()
            self.assertIn("200", structure.to_string())
            self.assertTrue(structure.has_field("results"))

    def test_a_graph_without_an_image_passes_the_frame(self):
        path, frames = self.save("a.json", counted, 9, 9), frames_of(3, 20, 10)
        self.same(self.run_line(f"graph={path}", frames), frames)

    def test_the_meta_is_of_the_last_element(self):
        before, frame = self.save("a.json", measured, 50, 40), frames_of(1, 50, 40)[0]
        for make, fields in ((counted, ["counts"]), (six, [])):
            path = self.save("b.json", make, 50, 40)
            with self.subTest(fields), Line(f"graph={before} output=-", 50, 40,
                                            after=f"feqyldan graph={path} ! ") as line:
                line.push(frame)
                buffer = line.sample().get_buffer()
                meta = buffer.get_custom_meta("GstFeqyldanMeta")
                # The results are a part of it, as long as it is there.
                structure = meta and meta.get_structure()
                results = structure and structure.get_value("results")
                self.assertEqual([name for name in ("counts", "extremes")
                                  if results and results.has_field(name)], fields)

    def test_times_of_a_stream_of_bytes(self):
        path = self.save("a.json", counted, 40, 50)
        with open(self.path("frames"), "wb") as file:
            file.write(bytes(4000))
        run = subprocess.run(
            ["gst-launch-1.0", "-m", "filesrc", f"location={self.path('frames')}", "blocksize=2000",
             "!", caps("GRAY8", 40, 50), "!", "feqyldan", f"graph={path}", "!", "fakesink"],
            check=True, stdout=subprocess.PIPE, text=True, timeout=PATIENCE)
        times = re.findall(r"frame=.*stream-time=\(guint64\)(\d+), running-time=\(guint64\)(\d+)",
                           run.stdout)
        self.assertEqual(times, [(str(2 ** 64 - 1),) * 2] * 2)


class Faults(ElementTest):

    def write(self, name, nodes, **images):
        image = {"kind": "image", "format": "U8", "width": 9, "height": 9}
        return self.put(name, {"feqyldan": 1, "nodes": nodes,
                               "objects": {key: {**image, **more} for key, more in images.items()}})

    def test_each_is_one_error(self):
        path = self.save("a.json", six, 320, 240)
        moving = self.save("m.json", motion, 320, 240)
        none = {"function": "not_", "input": "a", "output": "zz"}
        missing = self.write("b.json", [none], a={"input": True}, m={})
        cycle = self.write("c.json", [
            {"function": "and_", "in1": "a", "in2": "m", "output": "b"},
            {"function": "not_", "input": "b", "output": "m"}], a={"input": True}, b={}, m={})
        deep = self.write("d.json", [{"function": "integral_image", "input": "a", "output": "m"}],
                          a={"input": True}, m={"format": "U32"})
        sobel = self.write("s.json", [
            {"function": "sobel3x3", "input": "a", "output_x": "m", "output_y": "n"}],
            a={"input": True}, m={"format": "S16"}, n={"format": "S16"})
        both = self.write("e.json", [{"function": "and_", "in1": "a", "in2": "b", "output": "m"}],
                          a={"input": True}, b={"input": True}, m={})
        large = self.write("l.json", [{"function": "not_", "input": "b", "output": "m"},
                                      {"function": "not_", "input": "a", "output": "n"}],
                           a={"input": True}, b={"width": 20}, m={"width": 20}, n={})
        few = self.save("f.json", counted, 320, 240)
        named = self.put("n.json", {
            "feqyldan": 1, "nodes": [{"function": "histogram", "input": "a",
                                      "distribution": "frame"}],
            "objects": {"a": {"kind": "image", "format": "U8", "width": 9, "height": 9,
                              "input": True}, "frame": {"kind": "distribution", "bins": 2}}})
        for element, words in (
                ("", "the property graph isn't set"), ("graph=/none.json", "/none.json: "),
                (f"graph={large} output=m", '"m" is 20 by 9, and its input 9 by 9'),
                (f"graph={named}", '"frame" has the name of another field'),
                (f"graph={missing} output=-", f"{missing}: node 1: there is no object 'zz'"),
                (f"graph={cycle} output=m", f"{cycle}: "), (f"graph={deep}", '"m" is U32'),
                (f"graph={sobel}", "writes the images m, n: choose one by output="),
                (f"graph={both}", "it has 2 images with"),
                (f"graph={path} output=camera", "writes the images marks: choose"),
                (f"graph={few} output=n", 'it writes no image, and output is "n": leave it out'),
                (f"graph={path} server=/none", "can't start /none: No such file"),
                (f"graph={path} server=/bin/false", "the server has ended"),
                (f"graph={path} server=/bin/cat timeout=0.0001", "the timeout is 0.0001"),
                (f"graph={moving} servers=2", "servers is 2, and a graph with delays or sums")):
            with self.subTest(words), Line(element, 320, 240) as line:
                line.push(numpy.zeros((240, 320), "uint8"))
                self.assertIn(words, line.error())

    def test_caps_that_the_graph_does_not_take(self):
        image = {"kind": "image", "format": "U8", "width": 2, "height": 1}
        path = self.put("a.json", {
            "feqyldan": 1, "objects": {
                "camera": {**image, "input": True}, "out": image,
                "clean": {**image, "samples": "eJxjYAAAAAIAAQ=="}},
            "nodes": [{"function": "and_", "in1": "camera", "in2": "clean", "output": "out"}]})
        simple, size = self.save("b.json", six, 320, 240), "any size up to 8192 by 8192"
        for graph, fits, asked in (
                (path, "2 by 1", "video/x-raw, format=(string)GRAY8, width=(int)3, height=(int)1"),
                (path, "2 by 1", "video/x-raw, format=(string)BGR, width=(int)2, height=(int)1"),
                (simple, size, "video/x-raw, format=(string)GRAY8, width=(int)9000, height=(int)1"),
                (simple, size, "video/x-raw, format=(string)GRAY8, width=(int)9"),
                (simple, size, "video/x-raw(memory:DMABuf), format=(string)GRAY8, width=(int)9, "
                 "height=(int)9"),
                (simple, size, "video/x-bayer, format=(string)bggr")):
            with self.subTest(asked), Line(f"graph={graph}", 2, 1, starts=False) as line:
                line.source.set_property("caps", Gst.Caps.from_string(asked))
                line.start()
                line.push(numpy.zeros((1, 2), "uint8"))
                self.assertEqual(
                    line.error(), f'{graph}: its input "camera" takes video/x-raw, GRAY8 of {fits},'
                    f" and the caps are {asked}: convert the frames by videoconvert and videoscale "
                    "before the element")

    def test_caps_that_an_element_upstream_asks_for(self):
        """The error is that element's own, and a line of the log says what the graph takes."""
        path = self.save("a.json", six, 320, 240)
        # After such an error gst-launch-1.0 may stay in its main loop, whatever the elements do.
        run = subprocess.run(
            ["timeout", "20", "gst-launch-1.0", "videotestsrc", "!", "video/x-raw,format=GRAY16_LE",
             "!", "feqyldan", f"graph={path}", "!", "fakesink"], check=False,
            stdout=subprocess.PIPE, text=True, stderr=subprocess.STDOUT,
            env={**os.environ, "GST_DEBUG": "feqyldan:3", "GST_DEBUG_NO_COLOR": "1"})
        self.assertRegex(run.stdout, r"caps refused: the sink pad takes video/x-raw, "
                                     r"format=\S*GRAY8, .*, and the caps there are video/x-raw, "
                                     r"format=\S*GRAY16_LE")
        self.assertEqual(re.findall("ERROR: from element .*/(.*?):", run.stdout),
                         ["GstVideoTestSrc"])

    def test_an_error_that_is_too_long(self):
        """A letter of two bytes that is cut isn't one."""
        for count in (1, 2):
            path = self.put("a.json", {"feqyldan": 1, "nodes": [], "objects": {
                "a": {"kind": "x" * count + "\u00e9" * 2000}}})
            with self.subTest(count), Line(f"graph={path}", 8, 8) as line:
                self.assertRegex(line.error(), "x\u00e9+.?$")

    def test_the_details_of_an_error_without_a_graph_file(self):
        with Line("", 320, 240) as line:
            message, = line.messages(Gst.MessageType.ERROR, PATIENCE)
            self.assertTrue(message.parse_error()[1].endswith("\nno graph file"))

    def test_a_killed_server(self):
        """No frame is lost or repeated, with one warning."""
        path, frames = self.save("a.json", six, 320, 240), frames_of(8, 320, 240)
        wanted = self.in_python(path, frames, "marks")
        for servers in (1, 3):
            with self.subTest(servers), Line(f"graph={path} servers={servers}", 320, 240) as line:
                for frame in frames[:4]:
                    line.push(frame)
                found = [line.pull() for _ in range(5 - servers)]
                os.kill(self.servers()[0], signal.SIGKILL)
                for frame in frames[4:]:
                    line.push(frame)
                self.same(found + line.pull_all(), wanted)
                warning, = line.messages(Gst.MessageType.WARNING, PATIENCE)
                self.assertIn("the server has ended; starting a new server",
                              warning.parse_warning()[0].message)

    def test_a_server_that_is_late(self):
        path, frames = self.save("a.json", six, 320, 240), frames_of(2, 320, 240)
        with Line(f"graph={path} timeout=2", 320, 240) as line:
            line.push(frames[0])
            found = [line.pull()]
            os.kill(self.servers()[0], signal.SIGSTOP)
            line.push(frames[1])
            self.same(found + line.pull_all(), self.in_python(path, frames, "marks"))
            warning, = line.messages(Gst.MessageType.WARNING, PATIENCE)
            self.assertIn("didn't answer within the 2 s that the program allows",
                          warning.parse_warning()[0].message)

    def test_a_stopped_server_ends_with_the_pipeline(self):
        path, frame = self.save("a.json", six, 320, 240), frames_of(1, 320, 240)[0]
        for servers in (1, 2):
            with self.subTest(servers), Line(f"graph={path} servers={servers} timeout=60", 320,
                                             240) as line:
                for _ in range(servers):
                    line.push(frame)
                self.assertIsNotNone(line.pull())
                stopped = self.servers()
                for process in stopped:
                    os.kill(process, signal.SIGSTOP)
                for _ in range(servers):
                    line.push(frame)
                time.sleep(0.5)
                start = time.monotonic()
                line.pipeline.set_state(Gst.State.NULL)
                self.assertLess(time.monotonic() - start, 1)
                self.assertEqual(set(stopped) & set(self.servers()), set())
                self.assertEqual(line.messages(Gst.MessageType.ERROR), [])


class DoorTest(ElementTest):
    """Servers behind a socket."""

    def setUp(self):
        super().setUp()
        self.frames = frames_of(3, 64, 48)
        self.graph = self.save("a.json", six, 64, 48)

    def door(self, *last, **kind):
        door = Door(self.path("door"), *last, **kind)
        self.addCleanup(door.close)
        return door

    def line(self, more="", **kind):
        return Line(f"graph={self.graph} server={self.path('door')} {more}", 64, 48, **kind)


class Restarts(DoorTest):
    """Servers whose replacements fail too."""

    def warnings(self, line):
        return [message.parse_warning()[0].message
                for message in line.messages(Gst.MessageType.WARNING)]

    def test_no_frame_is_lost(self):
        wanted = self.in_python(self.graph, self.frames, "marks")
        for last in ((PROCESS_GRAPH, ADD_NODE), (PROCESS_GRAPH, OPEN_CONTEXT, PROCESS_GRAPH),
                     (PROCESS_GRAPH, ADD_NODE, OPEN_CONTEXT)):
            self.door(*last)
            with self.subTest(last), self.line() as line:
                for frame in self.frames:
                    line.push(frame)
                self.same(line.pull_all(), wanted)
                warnings = self.warnings(line)
                self.assertEqual(len(warnings), len(last))
                for words in warnings:
                    self.assertEqual(words, f"{self.graph}: the server has ended; starting a new "
                                            "server")

    def test_an_error_after_three_new_servers(self):
        self.door(PROCESS_GRAPH, ADD_NODE, OPEN_CONTEXT, PROCESS_GRAPH)
        with self.line() as line:
            start = time.monotonic()
            line.push(self.frames[0])
            self.assertEqual(line.error(), f"{self.graph}: the server has ended")
            # A second before the second and the third.
            self.assertGreaterEqual(time.monotonic() - start, 2)

    def test_three_warnings_before_an_error(self):
        self.door(PROCESS_GRAPH, ADD_NODE, ADD_NODE, ADD_NODE)
        with self.line() as line:
            line.push(self.frames[0])
            self.assertEqual(line.pull_all(), [])
            self.assertEqual(len(self.warnings(line)), 3)

    def test_a_socket_that_is_away_for_a_while(self):
        wanted = self.in_python(self.graph, self.frames, "marks")
        for has_file in (True, False):
            door = self.door()
            with self.subTest(has_file), self.line() as line:
                line.push(self.frames[0])
                found = [line.pull()]
                door.close()
                if not has_file:
                    os.unlink(self.path("door"))
                for frame in self.frames[1:]:
                    line.push(frame)
                time.sleep(0.5)
                self.door()
                self.same(found + line.pull_all(), wanted)
                ended, *refused = self.warnings(line)
                self.assertIn("the server has ended", ended)
                self.assertNotEqual(refused, [])
                for words in refused:
                    self.assertIn("can't connect to", words)

    def test_new_caps_while_the_socket_is_away(self):
        door, small = self.door(), frames_of(1, 32, 24)
        wanted = self.in_python(self.graph, self.frames[:1], "marks")
        wanted += self.in_python(self.save("b.json", six, 32, 24), small, "marks")
        with self.line() as line:
            line.push(self.frames[0])
            found = [line.pull()]
            door.close()
            line.resize(32, 24)
            line.push(small[0])
            time.sleep(0.5)
            self.door()
            self.same(found + line.pull_all(), wanted)
            self.assertIn("the server has ended", self.warnings(line)[0])

    def test_a_server_that_ends_before_its_results_are_read(self):
        self.graph = self.save("a.json", measured, 64, 48)
        wanted = self.in_python(self.graph, self.frames, "marks")
        self.door(READ_DISTRIBUTION)
        with self.line() as line:
            for frame in self.frames:
                line.push(frame)
            self.same(line.pull_all(), wanted)
            said = line.messages(Gst.MessageType.WARNING | Gst.MessageType.ELEMENT)
            self.assertEqual([message.has_name("feqyldan") and
                              sum(message.get_structure().get_value("counts"))
                              for message in said], [False] + [64 * 48] * 3)

    def test_a_pipeline_that_stops_while_the_element_waits(self):
        for servers in (1, 2):
            door = self.door(*[PROCESS_GRAPH] * 9)
            with self.subTest(servers), self.line(f"servers={servers}") as line:
                for frame in self.frames[:servers]:
                    line.push(frame)
                while door.ended < 2 * servers:
                    time.sleep(0.01)
                time.sleep(0.1)
                start = time.monotonic()
                line.pipeline.set_state(Gst.State.READY)
                self.assertLess(time.monotonic() - start, 0.5)
                self.assertEqual(len(self.warnings(line)), servers)
                self.assertEqual(line.messages(Gst.MessageType.ERROR), [])


class Stops(DoorTest):
    """Pipelines that stop while the element builds its graph on a server that says nothing."""

    def stop(self, line):
        start = time.monotonic()
        line.pipeline.set_state(Gst.State.READY)
        self.assertLess(time.monotonic() - start, 4)
        error = line.pipeline.get_bus().pop_filtered(Gst.MessageType.ERROR)
        self.assertIsNone(error and error.parse_error())

    def test_at_a_socket_of_which_nobody_takes_connections(self):
        for first in (0, 1):
            with self.subTest(first), socket.socket(socket.AF_UNIX) as listener, \
                    socket.socket(socket.AF_UNIX) as other:
                with contextlib.suppress(FileNotFoundError):
                    os.unlink(self.path("door"))
                listener.bind(self.path("door"))
                listener.listen(0)
                # It fills the queue.
                if first:
                    other.connect(self.path("door"))
                with self.line("timeout=9") as line:
                    line.push(self.frames[0])
                    time.sleep(0.3)
                    self.stop(line)

    def test_at_a_request_of_the_graph(self):
        for servers in (1, 2):
            door = self.door(*[ADD_NODE] * 9, is_silent=True)
            with self.subTest(servers), self.line(f"timeout=9 servers={servers}") as line:
                line.push(self.frames[0])
                while door.ended < 1:
                    time.sleep(0.01)
                self.stop(line)
                self.assertEqual(len(door.connections), 1)

    def test_before_the_first_caps(self):
        door, caps_came = self.door(ADD_NODE, is_silent=True), threading.Event()

        def stop_at_caps(pad, info):
            if info.get_event().type == Gst.EventType.CAPS:
                caps_came.set()
                while pad.get_parent_element().next_state != Gst.State.READY:
                    time.sleep(0.01)
                time.sleep(0.2)
            return Gst.PadProbeReturn.OK
        with self.line("timeout=9", starts=False) as line:
            line.pipeline.get_by_name("t").get_static_pad("sink").add_probe(
                Gst.PadProbeType.EVENT_DOWNSTREAM, stop_at_caps)
            line.start()
            caps_came.wait()
            self.stop(line)
            self.assertEqual(door.ended, 0)


class Streams(ElementTest):

    def test_a_delay_begins_anew_after_a_flush(self):
        path, frames = self.save("a.json", motion, 320, 240), frames_of(4, 320, 240)
        wanted = self.in_python(path, frames, "moved")[1:]
        with Line(f"graph={path}", 320, 240) as line:
            for _ in range(2):
                for frame in frames:
                    line.push(frame)
                self.same([line.pull() for _ in wanted], wanted)
                self.assertIsNone(line.pull(0.1))
                line.source.send_event(Gst.Event.new_flush_start())
                line.source.send_event(Gst.Event.new_flush_stop(True))
            self.assertEqual(line.messages(Gst.MessageType.WARNING), [])

    def test_a_server_that_ended_before_a_flush(self):
        path, frames = self.save("a.json", motion, 320, 240), frames_of(4, 320, 240)
        with Line(f"graph={path}", 320, 240) as line:
            line.push(frames[1])
            line.push(frames[2])
            self.assertIsNotNone(line.pull())
            os.kill(self.servers()[0], signal.SIGKILL)
            line.source.send_event(Gst.Event.new_flush_start())
            line.source.send_event(Gst.Event.new_flush_stop(True))
            for frame in frames:
                line.push(frame)
            self.same(line.pull_all(), self.in_python(path, frames, "moved")[1:])

    def test_new_caps(self):
        path = self.save("a.json", six, 16, 12)
        sizes, wanted = ((320, 240), (131, 101), (320, 240)), []
        for servers in (1, 3):
            with self.subTest(servers), Line(f"graph={path} servers={servers}", 320, 240) as line:
                wanted = []
                for number, size in enumerate(sizes):
                    frames = frames_of(4, *size)
                    there = self.save(f"{number}.json", six, *size)
                    wanted += self.in_python(there, frames, "marks")
                    line.resize(*size)
                    for frame in frames:
                        line.push(frame)
                self.same(line.pull_all(), wanted)

    def test_several_servers(self):
        """Each frame leaves once and in order, and all of them before the end of the stream."""
        path, frames = self.save("a.json", six, 320, 240), frames_of(20, 320, 240)
        wanted = self.in_python(path, frames, "marks")
        for servers in (2, 3, 30):
            with self.subTest(servers):
                self.same(self.run_line(f"graph={path} servers={servers}", frames), wanted)

    def test_a_drain_query_pushes_the_frames_under_way(self):
        path, frames = self.save("a.json", six, 64, 48), frames_of(2, 64, 48)
        with Line(f"graph={path} servers=4", 64, 48) as line:
            pad, found = line.pipeline.get_by_name("t").get_static_pad("sink"), []

            # An appsink answers it when its frames are taken.
            def drain():
                while len(found) < len(frames):
                    pad.query(Gst.Query.new_drain())
                    time.sleep(0.01)
            for frame in frames:
                line.push(frame)
            threading.Thread(target=drain, daemon=True).start()
            for _ in frames:
                found.append(line.pull(5))
            self.same(found, self.in_python(path, frames, "marks"))

    def test_the_server_in_the_process(self):
        library = c_tests.run.core("so")
        if not os.path.exists(library):
            self.skipTest(f"there is no {library}")
        path, frames = self.save("a.json", six, 320, 240), frames_of(8, 320, 240)
        wanted = self.in_python(path, frames, "marks")
        with mock.patch.dict(os.environ, FEQYLDAN_CORE=library, FEQYLDAN_PROGRAM="/nowhere"):
            for servers in (1, 3):
                with self.subTest(servers), Line(f"graph={path} server=core servers={servers}",
                                                 320, 240) as line:
                    for frame in frames:
                        line.push(frame)
                    found = [line.pull()]
                    self.assertEqual(self.servers(), [])
                    self.same(found + line.pull_all(), wanted)

    def test_properties_that_are_set_while_the_element_runs(self):
        """They are for its next start: a new server is the same program, and a delay has one."""
        path, frames = self.save("a.json", motion, 64, 48), frames_of(4, 64, 48)
        small = frames_of(4, 32, 24)
        wanted = self.in_python(path, frames[:2], "moved")[1:]
        wanted += self.in_python(path, frames[2:], "moved")[1:]
        wanted += self.in_python(self.save("b.json", motion, 32, 24), small, "moved")[1:]
        with Line(f"graph={path} server={PROGRAM}", 64, 48) as line:
            for frame in frames[:2]:
                line.push(frame)
            found = [line.pull()]
            element = line.pipeline.get_by_name("t")
            for name, value in (("graph", "/none.json"), ("server", "/none"), ("servers", 2)):
                element.set_property(name, value)
                self.assertEqual(element.get_property(name), value)
            os.kill(self.servers()[0], signal.SIGKILL)
            for frame in frames[2:]:
                line.push(frame)
            line.resize(32, 24)
            for frame in small:
                line.push(frame)
            self.same(found + line.pull_all(), wanted)
            warning, = line.messages(Gst.MessageType.WARNING)
            self.assertTrue(warning.parse_warning()[0].message.startswith(f"{path}: the server"))
            line.pipeline.set_state(Gst.State.READY)
            line.start()
            self.assertIn("/none.json: ", line.error())

    def test_which_server_is_refused(self):
        path = self.save("a.json", six, 320, 240)
        with mock.patch.dict(os.environ, FEQYLDAN_CORE="/none", FEQYLDAN_PROGRAM="/nowhere"):
            for words, fault in (
                    ("server=core", "can't load the server: /none: cannot open"),
                    ("server=core timeout=5", "the timeout is set, and a call of a server in this "
                     "process can't be given up: unset it, or set server to process"),
                    ("server=process", "can't start /nowhere: No such file"),
                    ("", "can't start /nowhere: No such file")):
                with self.subTest(words), Line(f"graph={path} {words}", 320, 240) as line:
                    line.push(numpy.zeros((240, 320), "uint8"))
                    self.assertIn(fault, line.error())

    def test_a_seek(self):
        path = self.save("a.json", six, 64, 48)
        for servers in (1, 3):
            line = Gst.parse_launch(
                f"videotestsrc num-buffers=30 ! {caps('GRAY8', 64, 48)} ! feqyldan graph={path} "
                f"servers={servers} ! appsink name=out sync=false")
            line.set_state(Gst.State.PAUSED)
            line.get_state(PATIENCE * Gst.SECOND)
            line.seek_simple(Gst.Format.TIME, Gst.SeekFlags.FLUSH, Gst.SECOND // 3)
            line.set_state(Gst.State.PLAYING)
            pull = line.get_by_name("out").emit
            times = []
            while (sample := pull("try-pull-sample", PATIENCE * Gst.SECOND)) is not None:
                times.append(sample.get_buffer().pts)
            line.set_state(Gst.State.NULL)
            self.assertEqual(times, sorted(set(times)))
            self.assertGreaterEqual(times[0], Gst.SECOND // 3 - 10)

    def test_the_latency_of_several_servers(self):
        """It is known when the element's message says that it has changed."""
        path, query = self.save("a.json", six, 64, 48), Gst.Query.new_latency()

        def note(_, message, pads, latencies):
            if message.type == Gst.MessageType.LATENCY and message.src.name == "t":
                for ask in (pads[0].query, pads[1].peer_query):
                    self.assertTrue(ask(query))
                    latencies.append(query.parse_latency()[1])
            return Gst.BusSyncReply.PASS
        for servers, frames in ((1, 0), (4, 3)):
            line = Gst.parse_launch(
                f"videotestsrc is-live=true ! {caps('GRAY8', 64, 48)} ! feqyldan name=t "
                f"graph={path} servers={servers} ! fakesink")
            pads = [line.get_by_name("t").get_static_pad(name) for name in ("src", "sink")]
            latencies = []
            line.get_bus().set_sync_handler(note, pads, latencies)
            line.set_state(Gst.State.PLAYING)
            line.get_state(PATIENCE * Gst.SECOND)
            line.set_state(Gst.State.NULL)
            self.assertEqual(latencies[0] - latencies[1], frames * Gst.SECOND // 30)


class Plugin(ElementTest):

    def test_it_exports_the_entry_points_alone(self):
        run = subprocess.run(["nm", "-D", "--defined-only", PLUGIN], check=True,
                             stdout=subprocess.PIPE, text=True)
        self.assertEqual([line.split()[-1] for line in run.stdout.splitlines()],
                         ["gst_plugin_feqyldan_get_desc", "gst_plugin_feqyldan_register"])

    def test_inspection_says_what_properties_are_for(self):
        run = subprocess.run(["gst-inspect-1.0", "feqyldan"], check=True, stdout=subprocess.PIPE,
                             text=True)
        for name in ("graph", "output", "server", "timeout", "servers", "gray16"):
            self.assertRegex(run.stdout, rf"\n  {name} +: \S+ \S+")

    def build(self, name, package, *flags):
        """The path of a test program."""
        path = os.path.join(folder, name)
        subprocess.run(["cc", "-g", *flags, os.path.join(HERE, f"{name}.c"), "-o", path,
                        *c_tests.flags_of(package)], check=True)
        return path

    def harness(self, *flags):
        return self.build("harness", "gstreamer-check-1.0", *flags)

    def test_a_harness(self):
        path = self.save("a.json", motion, 32, 24)
        said = subprocess.run([self.harness(), f"feqyldan graph={path}"], check=True,
                              stdout=subprocess.PIPE, text=True, timeout=PATIENCE).stdout
        self.assertEqual(said.split(), ["none", "0", "0", "255", "255", "none", "0"])

    def test_where_no_thread_can_be_made(self):
        path = self.save("a.json", six, 32, 24)
        said = subprocess.run(
            [self.harness("-DNO_THREADS"), f"feqyldan graph={path} servers=2"], check=True,
            stdout=subprocess.PIPE, text=True, timeout=PATIENCE).stdout
        self.assertEqual(said.split(), ["not-negotiated"] * 7)

    def test_pools_of_few_buffers(self):
        path, program = self.save("a.json", six, 64, 48), self.build("pools", "gstreamer-video-1.0")
        line = (f"videotestsrc num-buffers=9 ! {caps('GRAY8', 64, 48)} ! feqyldan name=t "
                f"graph={path} servers=4")
        for words in ([f"{line} ! fakesink", "src"], [f"{line} ! fakesink", "src", "strict"],
                      [f"{line} ! fakesink", "sink"], [f"{line} output=- ! fakesink", "src"],
                      [f"{line} output=- ! fakesink", "sink"]):
            with self.subTest(words[1:]):
                run = subprocess.run([program, *words], check=True, stdout=subprocess.PIPE,
                                     text=True, timeout=PATIENCE)
                self.assertEqual(run.stdout, "eos\n")

    def test_valgrind_is_silent(self):
        if shutil.which("valgrind") is None:
            self.skipTest("valgrind isn't installed")
        path = self.save("a.json", motion, 32, 24)
        # GLib drops its table of names when it makes a larger one, and the names of all plugins of
        # a machine may need that. So there is only this plugin.
        environment = {
            **os.environ, "G_SLICE": "always-malloc", "ORC_CODE": "backup",
            "GST_PLUGIN_SYSTEM_PATH_1_0": self.folder, "GST_REGISTRY": self.path("registry")}
        run = subprocess.run(
            ["valgrind", "-q", "--error-exitcode=9", "--leak-check=full",
             "--errors-for-leak-kinds=definite", "--child-silent-after-fork=yes",
             self.harness(), f"feqyldan graph={path}"],
            env=environment, check=False, stdout=subprocess.DEVNULL, stderr=subprocess.PIPE,
            text=True, timeout=5 * PATIENCE)
        self.assertEqual(run.returncode, 0, run.stderr[-3000:])


class Threads(ElementTest):
    """The sanitizer of threads, on pipelines that one thread runs, one seeks and stops, and one
    queries."""

    program = ""

    @classmethod
    def setUpClass(cls):
        super().setUpClass()
        with open(os.path.join(HERE, "threads.c"), encoding="utf-8") as file:
            wrapped = sorted(set(re.findall(r"__real_(\w+)", file.read())))
        sources = [path for name in ("gstreamer/src", "c/src", "c/graph_files")
                   for path in glob.glob(f"{ROOT}/clients/{name}/*.c")]
        cls.program = os.path.join(folder, "threads")
        run = subprocess.run(
            ["cc", "-g", "-O1", "-fsanitize=thread", "-std=gnu11", "-D_POSIX_C_SOURCE=200809L",
             '-DPLUGIN_VERSION="0"', f"-I{ROOT}/clients/c/include", os.path.join(HERE, "threads.c"),
             *sources, "-o", cls.program, *(f"-Wl,--wrap={name}" for name in wrapped),
             *c_tests.flags_of("gstreamer-video-1.0"), *c_tests.flags_of("json-glib-1.0"),
             "-pthread", "-ldl"], stderr=subprocess.PIPE, text=True, check=False)
        if "ltsan" in run.stderr:
            raise unittest.SkipTest("cc has no sanitizer of threads")
        assert run.returncode == 0, run.stderr

    def start(self, *elements):
        """Starts the program on a pipeline for each element."""
        environment = {
            **os.environ, "GST_PLUGIN_PATH": "", "GST_REGISTRY": self.path("registry"),
            "TSAN_OPTIONS": "halt_on_error=1 ignore_noninstrumented_modules=1"}
        return subprocess.Popen(
            [self.program, *(f"videotestsrc num-buffers=60 ! {caps('GRAY8', 320, 240)} ! "
                             f"feqyldan name=t {element} ! fakesink" for element in elements)],
            stdout=subprocess.PIPE, stderr=subprocess.PIPE, text=True, env=environment)

    def elements(self):
        paths = [self.save(f"{make.__name__}.json", make, 320, 240)
                 for make in (six, motion, measured)]
        return [f"graph={path} servers={servers}" for path, servers in zip(paths, (3, 1, 2))]

    def test_streams(self):
        elements, library = self.elements(), c_tests.run.core("so")
        if os.path.exists(library):
            elements.append(f"{elements[0]} server=core")
        with mock.patch.dict(os.environ, FEQYLDAN_CORE=library), self.start(*elements) as run:
            self.assertEqual(run.communicate(timeout=5 * PATIENCE), ("", ""))
        self.assertEqual(run.returncode, 0)

    def test_killed_servers(self):
        """A frame may fail if its new servers are killed too, and so may a graph that is built anew
        after a seek: then there is an error."""
        with self.start(*self.elements()) as run:
            while run.poll() is None:
                for server in self.servers(run.pid)[:1]:
                    with contextlib.suppress(ProcessLookupError):
                        os.kill(server, signal.SIGKILL)
                time.sleep(0.05)
            self.assertEqual((run.communicate()[1], run.returncode), ("", 0))


if __name__ == "__main__":
    unittest.main()
