"""Pictures in files: PGM in and out, PNG out, and files of OpenCV and PIL."""

import contextlib
import importlib
import importlib.util
import io
import os
import resource
import stat
import struct
import subprocess
import tempfile
import unittest
import zlib
from unittest import mock

from program import ProgramTest, vx
from feqyldan import files, pgm, samples

numpy = samples.numpy_module()
ROWS = [[0, 10, 20], [30, 40, 255]]
needs_both = unittest.skipUnless(numpy and all(map(importlib.util.find_spec, ("cv2", "PIL"))),
                                 "OpenCV or PIL isn't installed")


@contextlib.contextmanager
def greatest_file(size):
    """Within the `with` this process writes at most `size` bytes to a file, as on a full disk."""
    limits = resource.getrlimit(resource.RLIMIT_FSIZE)
    resource.setrlimit(resource.RLIMIT_FSIZE, (size, limits[1]))
    try:
        yield
    finally:
        resource.setrlimit(resource.RLIMIT_FSIZE, limits)


@contextlib.contextmanager
def without(module):
    """Within the `with` this package can't import a module."""
    importer = importlib.import_module
    with mock.patch.object(importlib, "import_module", lambda name: (
            importer(name if name != module else "no_such_module"))):
        yield


def chunks_of(png):
    """Returns the kind and the content of each chunk of a PNG file, after checking the
    checksums."""
    assert png[:8] == b"\x89PNG\r\n\x1a\n"
    at, chunks = 8, []
    while at < len(png):
        (length,) = struct.unpack_from(">I", png, at)
        kind, content = png[at + 4 : at + 8], png[at + 8 : at + 8 + length]
        (total,) = struct.unpack_from(">I", png, at + 8 + length)
        assert total == zlib.crc32(kind + content)
        chunks.append((kind, content))
        at += 12 + length
    return chunks


def decoded(png):
    """Returns the width, the height, the bits of a sample, the kind of pixels, and the rows of
    bytes, all of them unfiltered."""
    (_, header), (_, content), (last, _) = chunks_of(png)
    assert last == b"IEND"
    width, height, depth, kind, *rest = struct.unpack(">IIBBBBB", header)
    assert rest == [0, 0, 0]
    lines = zlib.decompress(content)
    length = len(lines) // height
    rows = [lines[at : at + length] for at in range(0, len(lines), length)]
    assert all(row[0] == 0 for row in rows)
    return width, height, depth, kind, [row[1:] for row in rows]


class TestPng(unittest.TestCase):
    def test_grey(self):
        wanted = 3, 2, 8, 0, [bytes(row) for row in ROWS]
        shaped = memoryview(bytes(sum(ROWS, []))).cast("B", [2, 3])
        for given in [ROWS, shaped] + ([numpy.array(ROWS, "uint8")] if numpy else []):
            self.assertEqual(decoded(vx.png(given)), wanted)

    def test_two_bytes(self):
        shaped = memoryview(struct.pack("=3h", 0, 256, 32767)).cast("B").cast("h", [1, 3])
        self.assertEqual(decoded(vx.png(shaped)), (3, 1, 16, 0, [b"\0\0\1\0\x7f\xff"]))
        for kind, words in (("h", r"S16 .* negative ones: save it as .npy, or convert_depth\("),
                            ("I", r"U32: save it as .npy, or scale its array, as \(255.0 ")):
            wrong = memoryview(struct.pack(f"=2{kind}", 0, 65535 if kind == "I" else -1))
            with self.assertRaisesRegex(ValueError, words):
                vx.png(wrong.cast("B").cast(kind, [1, 2]))

    def test_coloured(self):
        rows = [[(255, 0, 0), (0, 255, 0)], [(0, 0, 255), (1, 2, 3)], [(4, 5, 6), (7, 8, 9)]]
        wanted = 2, 3, 8, 2, [bytes(sum(row, ())) for row in rows]
        for given in [rows] + ([numpy.array(rows, "uint8")] if numpy else []):
            self.assertEqual(decoded(vx.png(given)), wanted)
        for wrong, words in (([[(1, 2)]], "not 2 numbers in rows of 1"),
                             ([[(1, 2, 3)], [(1, 2, 3), (4, 5, 6)]], "in rows of 1 and 2"),
                             ([[(1, 2), (3, 4, 5, 6)]], "not 6 numbers in rows of 2"),
                             ([[(1, 2, 256)]], "must be from 0 to 255, not 256")):
            with self.assertRaisesRegex(ValueError, words):
                vx.png(wrong)

    @unittest.skipUnless(numpy, "NumPy isn't installed")
    def test_masked_samples(self):
        """The mask would be lost."""
        for shape in ((2, 3), (2, 3, 3)):
            masked = numpy.ma.masked_less(numpy.arange(numpy.prod(shape)).reshape(shape), 2)
            with self.assertRaisesRegex(vx.BadPicture, "some of these samples are masked"):
                vx.png(masked.astype("uint8"))

    def test_what_is_no_picture(self):
        for wrong in ([], [[]], [[1], [1, 2]], b"123", [[256]]):
            self.assertRaises(ValueError, vx.png, wrong)

    def test_another_program_reads_it(self):
        try:
            from PIL import Image
        except ImportError:
            self.skipTest("Pillow isn't installed")
        with tempfile.TemporaryDirectory() as folder:
            path = os.path.join(folder, "picture.png")
            vx.write_png(path, ROWS)
            with Image.open(path) as picture:
                self.assertEqual((picture.mode, picture.size, list(picture.getdata())),
                                 ("L", (3, 2), sum(ROWS, [])))


class TestTexts(ProgramTest):
    def test_what_is_no_text(self):
        image = self.context.image(vx.U8, 1, 1)
        for wrong in ("P2 1 1 255 3", None, [1], io.BytesIO(b"P2 1 1 255 3"),
                      memoryview(b"P2 1 1 255 3")[::2]):
            for call in (image.write_pgm, self.context.image_from_pgm):
                self.assertRaisesRegex(vx.NotAPicture, "a PGM text must be bytes, not", call, wrong)

    def test_advice_for_wide_samples(self):
        for fmt, instead in ((vx.S16, "save it as .npy, or convert_depth it to U8$"),
                             (vx.U32, "save it as .npy$")):
            with tempfile.TemporaryDirectory() as folder:
                self.assertRaisesRegex(ValueError, instead, self.context.image(fmt, 1, 1).save,
                                       os.path.join(folder, "a.pgm"))


class TestFiles(ProgramTest):
    def setUp(self):
        super().setUp()
        folder = tempfile.TemporaryDirectory()
        self.addCleanup(folder.cleanup)
        self.path = os.path.join(folder.name, "picture")

    def write(self, text):
        with open(self.path, "wb") as file:
            file.write(text)

    def test_pgm_files_are_read(self):
        texts = {
            b"P5\n3 2\n255\n" + bytes(sum(ROWS, [])): (vx.U8, ROWS),
            b"P2 # a comment\n3 2 255\n0 10 20\n30 40 255\n": (vx.U8, ROWS),
            b"P5 # 9 9 9\n#\n02 001 00256 \1\0\0\7": (vx.S16, [[256, 7]]),
        }
        for text, (fmt, rows) in texts.items():
            self.write(text)
            image = self.context.read_pgm(self.path)
            self.assertEqual((image.fmt, image.shape), (fmt, (len(rows), len(rows[0]))))
            self.holds(image, rows)

    def test_pgm_files_that_are_cut_off(self):
        self.path += ".pgm"
        whole = b"P5 4 3 255 " + bytes(12)
        plain = b"P2 4 3 255" + b" 7" * 12
        for text, taken in ((whole, 13), (b"P5 4 3 4095 " + bytes(24), 25), (plain, 24)):
            for size in (1, len(text) - 20, len(text) // 2):
                self.write(text[: len(text) - min(size, taken - 1)])
                for load in (self.context.load, self.context.read_pgm, files.load):
                    with self.subTest(text=text, size=size, load=load):
                        with self.assertRaisesRegex(vx.BadPicture, "picture.pgm: .*is cut off"):
                            load(self.path)

    def test_errors_name_the_file(self):
        self.path += ".pgm"
        for text, kind, words in (
                (b"P6 1 1 255 abc", vx.WrongPicture, "a colour picture, PPM"),
                (b"P5 0 1 255 ", vx.InvalidDimension, "create a U8 image of 0 by 1"),
                (b"P5 9999 1 255 " + bytes(9999), vx.InvalidDimension, "of 9999 by 1"),
                (b"P2 1 1 9 10", vx.InvalidValue, "above its maxval"),
                (b"P5 1 1 255 ab", vx.InvalidFormat, "1 bytes follow its last sample"),
                (b"P5 1 1 0 1", vx.InvalidFormat, "maxval is 0")):
            self.write(text)
            with self.subTest(words), self.assertRaisesRegex(kind, f"picture.pgm: .*{words}"):
                self.context.read_pgm(self.path)

    def test_samples_of_8_bits_that_can_not_be_too_great(self):
        """To look at each of them takes seconds for a large picture without NumPy."""
        with mock.patch.object(pgm, "_greatest", side_effect=AssertionError):
            pixels = pgm.pixels_of(b"P5 2 1 255 \x00\xff", scale=False)
        self.assertEqual(pixels.tolist(), [[0, 255]])

    def test_maxvals(self):
        """Samples are as in the file, or scaled so that the maxval becomes 255."""
        for text, plain, scaled in (
                (b"P5 4 1 15 \0\1\7\x0f", [0, 1, 7, 15], [0, 17, 119, 255]),
                (b"P2 4 1 15 0 1 7 # sevens\n 15\n", [0, 1, 7, 15], [0, 17, 119, 255]),
                (b"P5 3 1 4095 \0\0\x08\0\x0f\xff", [0, 2048, 4095], [0, 128, 255]),
                (b"P5 2 1 65535 \x0f\xff\0\1", [4095, 1], [16, 0]),
                (b"P5 2 1 255 \0\7", [0, 7], [0, 7])):
            self.write(text)
            image = self.context.load(self.path)
            self.holds(image, [plain])
            self.assertEqual(files.load(self.path).tolist(), [plain])
            eight = self.context.load(self.path, scale=True, name="eight")
            self.assertEqual((eight.fmt, eight.label), (vx.U8, "eight"))
            self.holds(eight, [scaled])
        self.write(b"P5 2 1 65535 \xff\xff\0\1")
        for load in (self.context.load, files.load):
            with self.assertRaisesRegex(vx.BadPicture, "picture: it has samples up to 65535, .*"
                                                       r"scale=True\) makes a U8 image"):
                load(self.path)
        self.holds(self.context.load(self.path, scale=True), [[255, 0]])
        for text, words in ((b"P2 2 1 255 7 x", "numbers after its header"),
                            (b"P2 2 1 255 7 8 9", "numbers after its header"),
                            (b"P2 2 1 255 7 999999999", "a sample of 999999, above its maxval"),
                            (b"P2 1 1 65536 65536", "its maxval is 65536, .* is at most 65535"),
                            (b"P5 1 1 65536 \0\1", "its maxval is 65536, .* is at most 65535"),
                            (b"P5 2 1 255ab\n", "no whitespace byte follows its maxval")):
            self.write(text)
            with self.assertRaisesRegex(vx.WrongPicture, f"picture: .*{words}"):
                files.load(self.path)

    def test_pgm_files_that_are_none(self):
        for text, kind in ((b"P6 1 1 255 ", ValueError), (b"", ValueError),
                           (b"P5 0 1 255 ", vx.InvalidDimension),
                           (b"P5 9999999999 1 255 ", ValueError), (b"P5 1 1 0 1", vx.InvalidFormat),
                           (b"P5 2 2 255 1", vx.InvalidFormat), (b"P2 1 1 9 10", vx.InvalidValue)):
            self.write(text)
            self.assertRaises(kind, self.context.read_pgm, self.path)
        self.assertRaises(FileNotFoundError, self.context.read_pgm, self.path + "s")

    def test_a_closed_context(self):
        self.write(b"P5 1 1 255 a")
        self.context.close()
        for load in (self.context.load, self.context.read_pgm):
            with self.assertRaisesRegex(vx.Closed, "picture: .*: the context was closed"):
                load(self.path)

    def test_pgm_files_are_written(self):
        image = self.context.image_from(ROWS)
        for given in (image, ROWS, image.read()):
            vx.write_pgm(self.path, given)
            with open(self.path, "rb") as file:
                self.assertEqual(file.read(), image.read_pgm())
            self.holds(self.context.read_pgm(self.path), ROWS)
        self.assertRaises(ValueError, vx.write_pgm, self.path, self.context.image(vx.S16, 1, 1))

    def test_pgm_texts_into_images(self):
        delay = self.context.delay(self.context.image(vx.U8, 3, 2), 2)
        delay[-1].write_pgm(b"P2 3 2 255 0 10 20 30 40 255")
        self.holds(delay[-1], ROWS)
        self.assertRaises(vx.InvalidDimension, delay[0].write_pgm, b"P2 1 1 255 7")

    def test_what_is_no_file(self):
        """A named pipe would wait for somebody who writes to it."""
        pipe = self.path + ".pipe"
        os.mkfifo(pipe)
        for load in (self.context.load, self.context.read_pgm, self.context.load_graph, files.load):
            with self.assertRaisesRegex(OSError, "isn't a regular file: .*picture.pipe"):
                load(pipe)
            self.assertRaises(IsADirectoryError, load, os.path.dirname(pipe))
        with open(self.path, "wb") as file:
            file.truncate(2**29 + 1)
        with self.assertRaisesRegex(OSError, "536,870,913 bytes, .* at most .*picture'"):
            self.context.load(self.path)

    def test_paths(self):
        image = self.context.image_from(ROWS)
        for call in (lambda: vx.write_png(ROWS, self.path), lambda: vx.write_pgm(image, self.path),
                     lambda: image.save(7), lambda: self.context.load(7),
                     lambda: self.context.load(None)):
            self.assertRaisesRegex(TypeError, "a path must be text, bytes or an os.PathLike", call)
        for call in (self.context.load, self.context.load_graph, image.save):
            self.assertRaisesRegex(ValueError, "the path of the file, not its bytes", call,
                                   b"P5 1 1 255 \0")
        for wrong in ({}, {1: 2}, self.path, None, [["a"]]):
            self.assertRaises(vx.BadPicture, vx.write_png, self.path, wrong)
        self.assertFalse(os.path.exists(self.path))
        name = os.fsencode(self.path) + b"\xff.pgm"
        image.save(name)
        for path in (name, os.fsdecode(name)):
            self.holds(self.context.load(path), ROWS)

    def test_a_file_is_replaced_when_it_is_complete(self):
        noise = os.urandom(4096)
        image, graph = self.context.image(vx.U8, 64, 64), self.context.graph()
        image.write(noise)
        graph.not_(image, self.context.image_like(image))
        graph.max(image, image, self.context.image_like(image))
        endings = [".pgm", ".png", ".npy", ".json"]
        if files._module("cv2") or files._module("PIL.Image"):
            endings += [".jpg", ".bmp", ".webp", ".tif"]
        for ending in endings:
            save = image.save if ending != ".json" else (
                lambda path: graph.save(path, inputs=[]))
            path, link = self.path + ending, self.path + ".link" + ending
            with open(path, "wb") as file:
                file.write(b"good")
            os.chmod(path, 0o640)
            os.symlink(path, link)
            with self.subTest(ending):
                with greatest_file(100), self.assertRaisesRegex(OSError, f"link{ending}"):
                    save(link)
                with open(path, "rb") as file:
                    self.assertEqual(file.read(), b"good")
                save(link)
                self.assertGreater(os.path.getsize(path), 100)
                self.assertTrue(os.path.islink(link))
                self.assertEqual(stat.S_IMODE(os.stat(path).st_mode), 0o640)
            os.remove(link)
            os.remove(path)
        self.assertEqual(os.listdir(os.path.dirname(self.path)), [])
        with self.assertRaisesRegex(FileNotFoundError, "none/a.png"):
            image.save(os.path.join(os.path.dirname(self.path), "none/a.png"))
        # A device can't be replaced, nor a pipe, such as that at /dev/stdout.
        vx.write_pgm("/dev/null", image)
        self.assertFalse(os.path.isfile("/dev/null"))
        reader, writer = os.pipe()
        with open(reader, "rb") as there:
            with open(writer, "wb"):
                vx.write_pgm(f"/dev/fd/{writer}", ROWS)
            self.assertEqual(there.read(), b"P5\n3 2\n255\n" + bytes(sum(ROWS, [])))

    def test_a_file_that_is_write_protected(self):
        vx.write_png(self.path, ROWS)
        with mock.patch("os.access", return_value=False):
            self.assertRaisesRegex(PermissionError, "picture", vx.write_png, self.path, ROWS)

    def test_png_files_are_written(self):
        image = self.context.image_from(ROWS)
        vx.write_png(self.path, self.context.delay(image, 1)[0])
        vx.write_png(self.path, image)
        with open(self.path, "rb") as file:
            self.assertEqual(decoded(file.read())[4], [bytes(row) for row in ROWS])


@needs_both
class TestOtherFiles(ProgramTest):
    """Files that OpenCV or PIL reads or writes."""

    def setUp(self):
        super().setUp()
        folder = tempfile.TemporaryDirectory()
        self.addCleanup(folder.cleanup)
        self.folder = folder.name
        import cv2
        noise = numpy.random.default_rng(1).integers(0, 256, (60, 80), numpy.uint8)
        self.picture = cv2.GaussianBlur(noise, (0, 0), 2)

    def put(self, name, content):
        path = os.path.join(self.folder, name)
        with open(path, "wb") as file:
            file.write(content)
        return path

    def encoded(self, ending, *options):
        import cv2
        return cv2.imencode(ending, self.picture, options)[1].tobytes()

    def readers(self):
        """Runs the body of a loop with OpenCV alone, and with PIL alone."""
        for missing in ("PIL.Image", "cv2"):
            with without(missing):
                yield missing

    def test_a_file_that_is_cut_off(self):
        import cv2
        whole = {"a.jpg": self.encoded(".jpg"), "b.png": self.encoded(".png"),
                 "c.jpg": self.encoded(".jpg", cv2.IMWRITE_JPEG_PROGRESSIVE, 1)}
        # A thumbnail in a segment has an end of its own.
        thumbnail = b"\xff\xe1\0\x0a....\xff\xd8\xff\xd9"
        whole["d.jpg"] = whole["a.jpg"][:2] + thumbnail + whole["a.jpg"][2:]
        for _ in self.readers():
            for name, content in whole.items():
                for kept in (len(content) - 1, len(content) - 2, len(content) - 9,
                             len(content) // 2, 40):
                    path = self.put(name, content[:kept])
                    with self.assertRaisesRegex(vx.BadPicture, f"{name}: this is a (PNG|JPEG) file "
                                                               "without its end: it is cut off"):
                        self.context.load(path)
                # Bytes after the end are no fault.
                for more in (b"", bytes(200), b"\xff\xd8 more"):
                    image = self.context.load(self.put(name, content + more))
                    self.assertEqual(image.shape, self.picture.shape)

    def test_names_that_arent_utf_8(self):
        """OpenCV crashes on them."""
        image = self.context.image_from(self.picture)
        for _ in self.readers():
            for ending in (b".png", b".bmp", b".jpg"):
                path = os.path.join(os.fsencode(self.folder), b"part\xff" + ending)
                image.save(os.fsdecode(path))
                again = self.context.load(path)
                self.assertLess(abs(again.read().astype(int) - self.picture).max(), 30)

    def test_wide_samples(self):
        """Formats of 8 bits would clip them."""
        for rows in ([[-300, 5, 300]], [[0, 5, 300]], [[0, 5, 255]]):
            deep = self.context.image_from(rows, vx.S16)
            for _ in self.readers():
                for ending in (".jpg", ".bmp", ".webp"):
                    path = os.path.join(self.folder, "a" + ending)
                    with self.assertRaisesRegex(ValueError, f"a{ending}: .*{ending}.*"):
                        deep.save(path)
                    self.assertFalse(os.path.exists(path))
            with without("PIL.Image"):
                deep.save(os.path.join(self.folder, "a.tif"))
                self.holds(self.context.load(os.path.join(self.folder, "a.tif")), rows)
        self.assertRaises(ValueError, self.context.image(vx.U32, 2, 2).save, path)
        for _ in self.readers():
            self.assertRaisesRegex(ValueError, "a.text: .* can't write this picture as .text",
                                   self.context.image(vx.U8, 2, 2).save,
                                   os.path.join(self.folder, "a.text"))

    def test_a_file_of_too_many_pixels(self):
        """It isn't unpacked: a file of 100 kB could take 10 GB."""
        path = os.path.join(self.folder, "a.png")
        for shape, words in (((1, 8193), "8,193 by 1"), ((8193, 1), "1 by 8,193")):
            vx.write_png(path, numpy.zeros(shape, numpy.uint8))
            for missing in self.readers():
                with mock.patch.object(files, "_by_cv2" if missing != "cv2" else "_by_pil") as read:
                    with self.assertRaisesRegex(vx.BadPicture, f"a.png: it has {words} pixels"):
                        self.context.load(path)
                read.assert_not_called()

    def test_scaled_samples(self):
        import cv2
        wide = numpy.array([[0, 32896, 65535]], numpy.uint16)
        path = self.put("wide.png", cv2.imencode(".png", wide)[1].tobytes())
        for _ in self.readers():
            self.assertRaises(vx.BadPicture, self.context.load, path)
            self.holds(self.context.load(path, scale=True), [[0, 128, 255]])
        numpy.save(os.path.join(self.folder, "a.npy"), numpy.array([[0.5]]))
        for scale, words in ((False, "a.npy: samples must be uint8, int16 or uint32, not float64"),
                             (True, "a.npy: scale=True takes unsigned samples")):
            with self.assertRaisesRegex(vx.BadPicture, words):
                self.context.load(os.path.join(self.folder, "a.npy"), scale)
        whole = files.read_bytes(os.path.join(self.folder, "a.npy"))
        for content in b"\x93NUMPY\1\0", whole[:-3], whole.replace(b"(1, 1)", b"(1, 1,"):
            with self.assertRaisesRegex(vx.BadPicture, "b.npy: this isn't a whole .npy file"):
                self.context.load(self.put("b.npy", content))

    def test_samples_of_12_bits(self):
        """They give the same image from a PNG and from a .npy file in either byte order."""
        import cv2
        wide = numpy.array([[0, 2048, 4095]], numpy.uint16)
        path = os.path.join(self.folder, "a.npy")
        self.put("a.png", cv2.imencode(".png", wide)[1].tobytes())
        for name, order in (("a.png", ""), ("a.npy", "<u2"), ("a.npy", ">u2")):
            if order:
                numpy.save(path, wide.astype(order))
            image = self.context.load(os.path.join(self.folder, name))
            self.assertEqual(image.fmt, vx.S16)
            self.holds(image, wide.tolist())
        for wrong, words in ((16 * wide, "it has samples from 0 to 65520"),
                             (wide[:0], "samples must be"), (wide[None], "a grey picture must")):
            numpy.save(path, wrong)
            with self.assertRaisesRegex(vx.BadPicture, f"a.npy: {words}"):
                self.context.load(path)

    def test_palettes(self):
        """The numbers of a palette image aren't its greys."""
        import PIL.Image
        palette = PIL.Image.fromarray(numpy.array([[0, 1, 2]], numpy.uint8), "P")
        palette.putpalette([10, 10, 10, 200, 200, 200, 90, 90, 90])
        path = os.path.join(self.folder, "a.png")
        palette.save(path)
        for _ in self.readers():
            self.holds(self.context.load(path), [[10, 200, 90]])
        with self.assertRaisesRegex(vx.NotAPicture, r"numbers of colours: image.convert\('L'\)"):
            self.context.image_from(palette)
        self.holds(self.context.image_from(palette.convert("L")), [[10, 200, 90]])
        self.holds(self.context.image_from(numpy.asarray(palette)), [[0, 1, 2]])

    def test_16_bits_in_colours(self):
        """PIL reads them as 8 bits."""
        for kind, samples_of_pixel in ((2, 3), (4, 2), (6, 4)):
            line = b"\0" + struct.pack(">H", 0x1234) * samples_of_pixel
            path = self.put("a.png", files.PNG + b"".join(
                struct.pack(">I", len(content)) + name + content
                + struct.pack(">I", zlib.crc32(name + content)) for name, content in (
                    (b"IHDR", struct.pack(">IIBBBBB", 1, 1, 16, kind, 0, 0, 0)),
                    (b"IDAT", zlib.compress(line)), (b"IEND", b""))))
            for missing in self.readers():
                if missing == "cv2":
                    self.assertRaisesRegex(vx.BadPicture, "which PIL reads as 8 bits: install Open",
                                           self.context.load, path)
                else:
                    self.assertEqual(self.context.load(path).fmt, vx.S16)

    def test_tiff_files_of_16_bits_in_colours(self):
        """PIL reads them as 8 bits."""
        for order in "<>":
            content = struct.pack(order + "6H", *[1000] * 3, *[30000] * 3)
            path = self.put("a.tif", self.tiff((1, 2), [16] * 3, content, order=order))
            for missing in self.readers():
                if missing == "cv2":
                    self.assertRaisesRegex(vx.BadPicture, "which PIL reads as 8 bits: install Open",
                                           self.context.load, path)
                else:
                    self.holds(self.context.load(path), [[1000, 30000]])
            path = self.put("a.tif", self.tiff((1, 2), [8] * 3, bytes(6 * [77]), order=order))
            for missing in self.readers():
                self.holds(self.context.load(path), [[77, 77]])

    def test_jpeg_2000_of_16_bits_in_colours(self):
        """PIL reads them as 8 bits."""
        import cv2
        try:
            there, content = cv2.imencode(".jp2", numpy.full((200, 200, 3), 1000, numpy.uint16))
        except cv2.error:
            there = False
        if not there:
            self.skipTest("OpenCV writes no JPEG 2000 here")
        whole = content.tobytes()
        # A file may also lack the boxes around its first segment.
        for begin in (0, whole.index(b"\xff\x4f\xff\x51")):
            path = self.put("a.jp2", whole[begin:])
            for missing in self.readers():
                if missing == "cv2":
                    self.assertRaisesRegex(vx.BadPicture, "which PIL reads as 8 bits: install Open",
                                           self.context.load, path)
                else:
                    self.assertEqual(self.context.load(path).read()[7, 9], 1000)

    def test_sgi_files_of_16_bits(self):
        """PIL reads them as 8 bits."""
        for samples_of_pixel in (1, 3, 4):
            head = struct.pack(">H2B4H2i", 474, 0, 1, 2 if samples_of_pixel == 1 else 3, 2, 1,
                               samples_of_pixel, 0, 255).ljust(512, b"\0")
            narrow = self.put("a.sgi", head + bytes([9, 200]) * samples_of_pixel)
            wide = self.put("b.sgi", head[:3] + b"\2" + head[4:]
                            + struct.pack(">2H", 1000, 30000) * samples_of_pixel)
            for missing in self.readers():
                if missing == "cv2":
                    self.holds(self.context.load(narrow), [[9, 200]])
                for scale in (False, True):
                    self.assertRaisesRegex(vx.BadPicture, "b.sgi: this is an SGI file of 16 bits",
                                           self.context.load, wide, scale=scale)

    def test_fits(self):
        """PIL swaps the bytes of its samples."""
        cards = ("SIMPLE  = T", "BITPIX  = 32", "NAXIS   = 2", "NAXIS1  = 2", "NAXIS2  = 1", "END")
        path = self.put("a.fits", "".join(card.ljust(80) for card in cards).encode().ljust(2880)
                        + struct.pack(">2i", 5 << 24, 7 << 24).ljust(2880, b"\0"))
        for _ in self.readers():
            self.assertRaisesRegex(vx.BadPicture, "a.fits: this isn't a picture that",
                                   self.context.load, path)

    def test_tiff_files_of_32_bits(self):
        """PIL takes the greatest unsigned samples for negative ones."""
        for order in "<>":
            content = struct.pack(order + "2I", 5, 2**32 - 7)
            signed = self.put("a.tif", self.tiff((1, 2), [32], content, (339, 2), order=order))
            others = [self.put(f"{number}.tif", self.tiff((1, 2), [32], content, *tags,
                                                          order=order))
                      for number, tags in enumerate(([(339, 1)], []))]
            for _ in self.readers():
                self.holds(self.context.load(signed), [[5, -7]])
                for path in others:
                    self.assertRaises(vx.BadPicture, self.context.load, path)

    def test_colours_of_another_maxval(self):
        """PIL scales them to 8 bits, and OpenCV some of them."""
        wide = struct.pack(">6H", *[1000] * 3, *[30000] * 3)
        for content, wanted, taken in (
                (b"P6 2 1 65535 " + wide, [[1000, 30000]], ("PIL.Image",)),
                (b"P6 # c\n2 1 0100\n" + bytes(6 * [50]), [[50, 50]], ("PIL.Image",)),
                (b"P3 1 1 100 50 50 50\n", None, ()),
                (b"P3 1 1 255 50 50 50\n", [[50]], ("cv2", "PIL.Image")),
                (b"P6 1 1 255 " + bytes(3 * [77]), [[77]], ("cv2", "PIL.Image"))):
            path = self.put("a.ppm", content)
            for missing in self.readers():
                with self.subTest(content, missing=missing):
                    if missing in taken:
                        self.holds(self.context.load(path), wanted)
                    else:
                        self.assertRaisesRegex(vx.BadPicture, "a.ppm: this is a PPM file with the "
                                               "maxval [0-9]+, whose", self.context.load, path)

    def test_sun_rasters(self):
        """OpenCV returns zeros for one without a map of colours."""
        path = self.put("a.ras", struct.pack(">8I", 0x59a66a95, 2, 1, 8, 2, 1, 0, 0) + b"\x09\xc8")
        for missing in self.readers():
            if missing == "cv2":
                self.holds(self.context.load(path), [[9, 200]])
            else:
                self.assertRaisesRegex(vx.BadPicture, "a Sun raster, which takes PIL",
                                       self.context.load, path)

    def tiff(self, shape, bits, content, *tags, order="<"):
        """Returns a TIFF file of a grey picture, or of a coloured one for three numbers of bits.
        Each of the tags is its number and its value."""
        def entry(tag, value, count=1):
            return struct.pack(order + "HHI", tag, 3, count) + (
                struct.pack(order + "HH", value, 0) if count == 1 else
                struct.pack(order + "I", value))

        height, width = shape
        start = 14 + len(content)
        entries = [entry(256, width), entry(257, height),
                   entry(258, bits[0] if len(bits) == 1 else 8, len(bits)), entry(259, 1),
                   entry(262, 1 if len(bits) == 1 else 2), entry(273, 14),
                   *(entry(*tag) for tag in tags), entry(277, len(bits)), entry(278, height),
                   entry(279, len(content))]
        return (struct.pack(order + "2sHI6s", b"II" if order == "<" else b"MM", 42, start,
                            struct.pack(order + "3H", *(bits * 3)[:3]))
                + content + struct.pack(order + "H", len(entries)) + b"".join(entries) + bytes(4))

    def test_tiff_files_that_are_turned(self):
        """PIL knows the sides of one that lies on its side only after it is loaded."""
        rows = numpy.arange(0, 120, 5, numpy.uint8).reshape(3, 8)
        turned = {1: rows, 3: rows[::-1, ::-1], 5: rows.T, 6: rows[::-1].T, 8: rows.T[::-1]}
        for orientation, wanted in turned.items():
            path = self.put("a.tif", self.tiff((3, 8), [8], rows.tobytes(), (274, orientation)))
            for missing in self.readers():
                with self.subTest(orientation, missing=missing):
                    self.holds(self.context.load(path), wanted.tolist())

    def test_tiff_files_of_12_bits(self):
        """OpenCV multiplies their samples by 16."""
        for order in "<>":
            wide = numpy.array([[0, 2048, 4095]], numpy.uint16)
            path = self.put("a.tif", self.tiff((1, 3), [16], wide.astype(f"{order}u2").tobytes(),
                                               order=order))
            for _ in self.readers():
                self.holds(self.context.load(path), wide.tolist())
            for bits in ([12], [10], [14], [12, 12, 12]):
                path = self.put("a.tif", self.tiff((1, 1), bits, bytes(6), order=order))
                for _ in self.readers():
                    for scale in (False, True):
                        with self.assertRaisesRegex(vx.BadPicture, "a.tif: this is a TIFF file of "
                                                    f"{bits[0]} bits a sample, which OpenCV and"):
                            self.context.load(path, scale)

    def test_big_tiff_files(self):
        """BigTIFF has the faults of TIFF."""
        twelve = "a.tif: this is a TIFF file of 12 bits a sample"
        for order in "<>":
            path = self.put("a.tif", self.big_tiff((1, 1), [8], bytes([77]), order))
            for missing in self.readers():
                # PIL reads none of the other byte order.
                if order == "<" or missing != "cv2":
                    self.holds(self.context.load(path), [[77]])
            for bits in ([12], [12] * 3):
                path = self.put("a.tif", self.big_tiff((1, 1), bits, bytes(6), order))
                for _ in self.readers():
                    self.assertRaisesRegex(vx.BadPicture, twelve, self.context.load, path)
            path = self.put("a.tif", self.big_tiff((1, 1), [16] * 3,
                                                   struct.pack(order + "3H", *[1000] * 3), order))
            for missing in self.readers():
                if missing == "cv2":
                    self.assertRaisesRegex(vx.BadPicture, "which PIL reads as 8 bits: install Open",
                                           self.context.load, path)
                else:
                    self.holds(self.context.load(path), [[1000]])

    def big_tiff(self, shape, bits, content, order):
        """Returns a BigTIFF file, whose values of 8 bytes hold the bits of up to four samples."""
        def entry(tag, *values):
            kind, letter = (3, "H") if max(values) < 65536 else (16, "Q")
            return struct.pack(order + "HHQ", tag, kind, len(values)) + struct.pack(
                f"{order}{len(values)}{letter}", *values).ljust(8, b"\0")

        entries = [entry(256, shape[1]), entry(257, shape[0]), entry(258, *bits), entry(259, 1),
                   entry(262, 1 if len(bits) == 1 else 2), entry(273, 232), entry(277, len(bits)),
                   entry(278, shape[0]), entry(279, len(content))]
        return (struct.pack(order + "2s3H2Q", b"II" if order == "<" else b"MM", 43, 8, 0, 16,
                            len(entries)) + b"".join(entries) + bytes(28) + content)

    def test_no_program_is_run(self):
        """A file of PostScript is one, which may have no end."""
        endless = b"%!PS-Adobe-3.0 EPSF-3.0\n%%BoundingBox: 0 0 9 9\n%%EndComments\n{} loop\n"
        of_dos = struct.pack("<4s6IH", b"\xc5\xd0\xd3\xc6", 30, len(endless), 0, 0, 0, 0, 0xffff)
        for _ in self.readers():
            for content in (endless, of_dos + endless):
                with mock.patch.object(subprocess, "Popen", side_effect=OSError) as started:
                    with self.assertRaisesRegex(vx.BadPicture, "a.png: this isn't a picture that"):
                        self.context.load(self.put("a.png", content))
                started.assert_not_called()

    def test_jpeg_2000(self):
        """OpenCV writes other samples than it got."""
        path = os.path.join(self.folder, "noise.jp2")
        noise = self.context.image_from(numpy.frombuffer(os.urandom(64 * 64), "uint8").reshape(
            64, 64))
        try:
            noise.save(path)
        except ValueError as error:
            self.assertIn("noise.jp2", str(error))
            self.assertFalse(os.path.exists(path))
        else:
            self.holds(self.context.load(path), noise.read().tolist())


if __name__ == "__main__":
    unittest.main()
