"""
Reads and writes picture files: PGM and PNG by this package, .npy by NumPy, and others by OpenCV or
PIL, if one of them is installed. These libraries get and return bytes and never a file's name,
because OpenCV crashes on a name that isn't UTF-8, and doesn't notice a full disk.
"""

from __future__ import annotations

import io
import os
import re
from typing import Any, Callable, Dict, List, Literal, Tuple

from .errors import NotAPicture, WrongPicture
from .modules import imported_now
from .pgm import PPM_HEADER, TOO_GREAT, is_pgm, pixels_of
from .pictures import npy, pgm, png
from .samples import Readable, needed_numpy, numpy_module
from .storage import Path, name_of_file, naming, read_bytes, write_bytes
from .wire import GREATEST_SIDE

# The first bytes of files of some kinds.
NPY, PNG, JPEG = b"\x93NUMPY", b"\x89PNG\r\n\x1a\n", b"\xff\xd8\xff"
# A JPEG 2000 file, with or without boxes, and the first bytes of its segment with the sizes.
JPEG_2000 = b"\0\0\0\x0cjP  \r\n\x87\n", b"\xff\x4f\xff\x51"
SIZES = JPEG_2000[1]
SUN_RASTER = b"\x59\xa6\x6a\x95"
POSTSCRIPT = b"%!PS", b"\xc5\xd0\xd3\xc6"
# The begin of an SGI file of 16 bits, without or with compression; and that of a FITS file.
WIDE_SGI = b"\x01\xda\0\2", b"\x01\xda\1\2"
FITS = b"SIMPLE"
# The byte order of a TIFF file by its first bytes, and the bytes of its places and counts: BigTIFF
# has longer ones. And its tags with the bits of each sample, and with the kind of its number.
TIFF: Dict[bytes, Tuple[Literal["little", "big"], int]] = {
    b"II*\0": ("little", 4), b"MM\0*": ("big", 4), b"II+\0": ("little", 8), b"MM\0+": ("big", 8)}
BITS_OF_SAMPLE, KIND_OF_SAMPLE, SIGNED = 258, 339, 2
# Endings of formats that change U8 samples a little.
LOSSY = {".jpg", ".jpeg", ".jpe", ".jfif", ".mpo", ".webp", ".avif"}
# A marker of a JPEG file. Within samples 0xff is followed by 0, or by 0xd0 to 0xd7.
MARKER = re.compile(rb"\xff+([\x01-\xcf\xd8-\xfe])")
END_OF_JPEG = b"\xd9"


def load(path: Path, scale: bool = False) -> Any:
    """
    Returns the picture in a file: a grey array of uint8 or int16, or a memoryview of them. Colours
    are converted to grey. Raises OSError if the file can't be read, BadPicture if it has no
    picture, and ImportError if no installed package reads such files.
    """
    name = name_of_file(path)
    content = read_bytes(name)
    with naming(name):
        return picture_in(content, scale)


def picture_in(content: bytes, scale: bool) -> Any:
    """Returns the picture in the bytes of a file, see load()."""
    if not content:
        raise WrongPicture("the file is empty: copy it again")
    if is_pgm(content):
        return pixels_of(content, scale)
    is_npy = content.startswith(NPY)
    pixels = _in_npy(content) if is_npy else _decoded(content)
    if scale:
        return _scaled(pixels)
    # An .npy file may have the samples of any image, and these stay as they are.
    is_wide = not is_npy or (pixels.dtype.kind, pixels.dtype.itemsize) == ("u", 2)
    return _narrowed(pixels) if is_wide else pixels


def _in_npy(content: bytes) -> Any:
    numpy = needed_numpy("reading .npy")
    try:
        return numpy.load(io.BytesIO(content), allow_pickle=False)
    except Exception as error:
        # NumPy raises errors of many classes for a file that is damaged.
        raise WrongPicture(f"this isn't a whole .npy file of numbers: {error}") from None


def _decoded(content: bytes) -> Any:
    """Returns the grey picture that OpenCV or PIL finds in the bytes of a file."""
    cv2, pil = _module("cv2"), _module("PIL.Image")
    if cv2 is None and pil is None:
        raise _absent("reading this", "convert the file to PGM")
    for begin, kind, is_whole in ((PNG, "PNG", is_whole_png), (JPEG, "JPEG", is_whole_jpeg)):
        if content.startswith(begin) and not is_whole(content):
            # OpenCV takes a JPEG file that is cut off, and PIL some PNG files.
            raise WrongPicture(f"this is a {kind} file without its end: it is cut off after "
                               f"{len(content):,} bytes; copy it again")
    _look_at_sides(content)
    bits = bits_of_tiff(content)
    if 8 < max(bits) < 16:
        # OpenCV multiplies the samples of such a file so that they fill 16 bits, and PIL doesn't.
        raise WrongPicture(f"this is a TIFF file of {max(bits)} bits a sample, which OpenCV and "
                           "PIL read differently: convert it to 16 bits")
    if cv2 is None and (is_wide_in_colours(content) or len(bits) > 1 and max(bits) > 8):
        raise WrongPicture("this is a file of 16 bits in colours or with alpha, which PIL reads as "
                           "8 bits: install OpenCV, or convert the file to grey")
    if content.startswith(WIDE_SGI):
        raise WrongPicture("this is an SGI file of 16 bits, which OpenCV doesn't read, and PIL "
                           "reads as 8 bits: convert the file to PNG")
    maxval = maxval_of_ppm(content)
    if maxval != 255 and (cv2 is None or maxval < 255 and content.startswith(b"P3")):
        raise WrongPicture(f"this is a PPM file with the maxval {maxval}, whose samples "
                           f"{'PIL' if cv2 is None else 'OpenCV'} changes: convert the file to "
                           "grey, as PGM")
    if content.startswith(SUN_RASTER):
        # OpenCV returns zeros for one without a map of colours.
        cv2 = None
        if pil is None:
            raise WrongPicture("this is a Sun raster, which takes PIL: install it, or convert the "
                               "file to PNG")
    pixels = _by_cv2(cv2, content) if cv2 is not None else _by_pil(pil, content)
    if pixels is None:
        reader = "PIL" if cv2 is None else "OpenCV"
        raise WrongPicture(f"this isn't a picture that {reader} can read: is it damaged, or "
                           "another kind of file?")
    return pixels


def _look_at_sides(content: bytes) -> None:
    """Raises BadPicture for a PNG file that is too large for an image, before it is unpacked: a
    small file can have very many pixels."""
    width, height = (int.from_bytes(content[at : at + 4], "big") for at in (16, 20))
    if content.startswith(PNG) and max(width, height) > GREATEST_SIDE:
        raise WrongPicture(f"it has {width:,} by {height:,} pixels, and an image has at most "
                           f"{GREATEST_SIDE:,} columns and rows")


def is_wide_in_colours(content: bytes) -> bool:
    """Returns whether a file is a PNG or JPEG 2000 of more than 8 bits in colours or with alpha."""
    if content.startswith(JPEG_2000):
        # The samples of a pixel, and the bits of the first one less 1, without its sign.
        at = content.find(SIZES) + 40
        bits = int.from_bytes(content[at + 2 : at + 3], "big") & 127
        return content[at : at + 2] > b"\0\1" and bits > 7
    return content.startswith(PNG) and content[24:25] == b"\x10" and content[25:26] != b"\0"


def maxval_of_ppm(content: bytes) -> int:
    """Returns the maxval of a PPM file; 255 for any other file. PIL scales the samples of another
    maxval so that it becomes 255, and OpenCV those of P3 if it is below 255."""
    header = PPM_HEADER.match(content)
    return int(header[3]) if header else 255


def bits_of_tiff(content: bytes, tag: int = BITS_OF_SAMPLE) -> Tuple[int, ...]:
    """Returns the bits of the samples of a pixel in the first picture of a TIFF file, such as 8, 8
    and 8, or the numbers of another tag; a single 0 if there are none, as in any other file."""
    if content[:4] not in TIFF:
        return (0,)
    order, long = TIFF[content[:4]]

    def number(at: int, size: int) -> int:
        return int.from_bytes(content[at : at + size], order)

    # The entries follow their number. Each has a tag, a type, a count and a value.
    start, head, size = number(long, long), 2 if long == 4 else 8, 4 + 2 * long
    first = start + head
    for entry in range(first, first + size * min(65535, number(start, head)), size):
        count = number(entry + 4, long)
        if number(entry, 2) == tag and count:
            # The value is the numbers, if they have room in it, or else their place.
            at = entry + 4 + long
            at = at if 2 * count <= long else number(at, long)
            return tuple(number(at + 2 * sample, 2) for sample in range(min(4, count)))
    return (0,)


def is_whole_png(content: bytes) -> bool:
    """Returns whether the chunks of a PNG file lead to its last one."""
    at = len(PNG)
    while at < len(content) and content[at + 4 : at + 8] != b"IEND":
        at += 12 + int.from_bytes(content[at : at + 4], "big")
    return at + 12 <= len(content)


def is_whole_jpeg(content: bytes) -> bool:
    """Returns whether the segments of a JPEG file lead to its end."""
    marker = MARKER.search(content, 2)
    while marker is not None and marker[1] != END_OF_JPEG:
        length = int.from_bytes(content[marker.end() : marker.end() + 2], "big")
        marker = MARKER.search(content, marker.end() + length)
    return marker is not None


def _module(name: str) -> Any:
    """Returns a module that needs NumPy here; None if the module or NumPy isn't installed."""
    try:
        return imported_now(name) if numpy_module() is not None else None
    except ImportError:
        return None


def _absent(what: str, instead: str) -> ImportError:
    """Returns the error for what takes NumPy and a package that reads and writes pictures."""
    if numpy_module() is None:
        return ImportError(f"{what} needs NumPy, and OpenCV or PIL, and NumPy isn't installed: "
                           f"install both, or {instead}")
    return ImportError(f"{what} needs OpenCV or PIL, and neither is installed: install one, or "
                       f"{instead}")


def _by_cv2(cv2: Any, content: bytes) -> Any:
    kinds = {3: cv2.COLOR_BGR2GRAY, 4: cv2.COLOR_BGRA2GRAY}
    try:
        pixels = cv2.imdecode(numpy_module().frombuffer(content, "uint8"), cv2.IMREAD_UNCHANGED)
        if pixels is None or pixels.ndim == 2:
            return pixels
        return cv2.cvtColor(pixels, kinds[pixels.shape[2]])
    except (cv2.error, KeyError):
        return None


def _by_pil(pil: Any, content: bytes) -> Any:
    numpy = numpy_module()
    if content.startswith((*POSTSCRIPT, FITS)):
        # A file of PostScript is a program, which needn't end. PIL would let Ghostscript run it. It
        # swaps the bytes of FITS.
        return None
    try:
        with pil.open(io.BytesIO(content)) as picture:
            # This turns a TIFF file by its orientation, which may change the picture's sides.
            picture.load()
            # "I;16B" and the like are 16 bits in some byte order.
            is_grey = picture.mode in ("L", "F") or picture.mode.startswith("I")
            pixels = numpy.asarray(picture if is_grey else picture.convert("L"))
    except Exception:
        # PIL raises errors of many classes for a file that is truncated or damaged.
        return None
    if pixels.dtype == numpy.int32 and bits_of_tiff(content) == (32,) and (
            bits_of_tiff(content, KIND_OF_SAMPLE) != (SIGNED,)):
        # PIL takes the greatest unsigned samples of 32 bits for negative ones.
        return pixels.view(numpy.uint32)
    # PIL holds the unsigned samples of a PNG file of 16 bits in 32.
    is_wide = pixels.dtype.kind == "i" and content.startswith(PNG)
    return pixels.astype(numpy.uint16) if is_wide else pixels


def _narrowed(pixels: Any) -> Any:
    """Converts samples of 16 bits or more to int16. Raises BadPicture if they don't fit."""
    numpy = numpy_module()
    if pixels.dtype.kind in "iu" and pixels.dtype.itemsize > 1 and pixels.size:
        least, greatest = int(pixels.min()), int(pixels.max())
        if least < -32768 or greatest > 32767:
            raise NotAPicture(f"it has samples from {least} to {greatest}, and {TOO_GREAT}")
        return pixels.astype(numpy.int16)
    return pixels


def _scaled(pixels: Any) -> Any:
    """Converts samples to uint8: the greatest number of their type becomes 255."""
    numpy = numpy_module()
    if pixels.dtype.kind != "u" or pixels.dtype.itemsize > 2:
        raise NotAPicture("scale=True takes unsigned samples of 8 or 16 bits, and these are "
                          f"{pixels.dtype}: load the file without it, and scale the array")
    greatest = numpy.iinfo(pixels.dtype).max
    return (pixels * (255.0 / greatest)).round().astype(numpy.uint8)


def save(path: Path, picture: Any) -> None:
    """Writes an image or an array to a file in the format of the name's extension."""
    name = name_of_file(path)
    pixels = picture.read() if isinstance(picture, Readable) else picture
    ending = os.path.splitext(name)[1].lower()
    makers: Dict[str, Callable[[Any], List[Any]]] = {
        ".pgm": pgm, ".png": lambda pixels: [png(pixels)], ".npy": npy}
    with naming(name):
        parts = makers[ending](pixels) if ending in makers else [_encoded(ending, pixels)]
    write_bytes(name, parts)


def _encoded(ending: str, pixels: Any) -> bytes:
    """Returns the bytes of a file of another format, by OpenCV or PIL. Raises ValueError if it
    can't hold the samples."""
    cv2, pil = _module("cv2"), _module("PIL.Image")
    if cv2 is None and pil is None:
        raise _absent(f"writing {ending or 'a file without an ending'}",
                      "write .pgm, .png or .npy")
    content = _cv2_file(cv2, ending, pixels) if cv2 is not None else (
        _pil_file(pil, ending, pixels))
    if not _has_samples(content, pixels, ending):
        instead = {1: ".png", 2: ".npy, or convert_depth it to U8"}.get(pixels.dtype.itemsize,
                                                                        ".npy")
        raise ValueError(f"{ending} can't hold the {pixels.dtype} samples of this picture: save it "
                         f"as {instead}")
    return content


def _has_samples(content: bytes, pixels: Any, ending: str) -> bool:
    """Returns whether the bytes of a file have the samples of a picture. OpenCV clips wide samples
    to 8 bits for formats that have no more, and all samples to one bit for .pbm."""
    is_narrow: bool = pixels.dtype.itemsize == 1
    if is_narrow and ending in LOSSY:
        return True
    try:
        there = _decoded(content)
    except WrongPicture:
        # Some formats, such as PDF, can only be written.
        return is_narrow
    is_wide_enough: bool = there.dtype.itemsize >= pixels.dtype.itemsize
    return is_wide_enough and bool(numpy_module().array_equal(there, pixels))


def _cv2_file(cv2: Any, ending: str, pixels: Any) -> bytes:
    try:
        is_done, content = cv2.imencode(ending, pixels)
    except cv2.error as error:
        raise ValueError(f"OpenCV can't write this picture as {ending or 'a file without ending'}: "
                         f"{' '.join(str(error).split())}") from None
    if not is_done:
        raise ValueError(f"OpenCV can't write this picture as {ending}")
    encoded: bytes = content.tobytes()
    return encoded


def _pil_file(pil: Any, ending: str, pixels: Any) -> bytes:
    target = io.BytesIO()
    try:
        pil.fromarray(pixels).save(target, pil.registered_extensions()[ending])
    except (KeyError, OSError, TypeError) as error:
        raise ValueError(f"PIL can't write this picture as {ending or 'a file without ending'}: "
                         f"{error}") from None
    return target.getvalue()
