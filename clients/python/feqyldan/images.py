"""Images, and delays with images in their slots."""

from __future__ import annotations

import struct
from functools import partial
from typing import TYPE_CHECKING, Any, Iterator, Optional, Tuple, Union, overload

from . import wire
from .connection import Body
from .errors import Fault, FeqyldanError, refusal
from .files import save
from .objects import (
    Asked, Description, Made, Named, Rectangle, description_of, in_words, sides_of_frame)
from .pgm import content_of, fault_of
from .pictures import shown
from .samples import (
    Format, Picture, Readable, Samples, Size, dtype_of, needed_numpy, picture_of, place_in,
    samples_of, turned)
from .storage import Path
from .uncopied import Uncopied
from .whole import NO_SEQUENCE, UNSIGNED, whole, within

if TYPE_CHECKING:
    import numpy

    from .context import Context


class ValidRectangle:
    """
    The valid rectangle x0, y0, x1, y1: the columns x0 to x1 - 1 of the rows y0 to y1 - 1. Setting
    it makes each sample outside it 0; setting a larger rectangle later doesn't restore the samples.
    A rectangle without pixels is 0, 0, 0, 0.
    """

    # A property would have one type: mypy would refuse a tuple that is set.
    @overload
    def __get__(self, image: None, owner: Any) -> ValidRectangle:
        ...

    @overload
    def __get__(self, image: AnyImage, owner: Any) -> Rectangle:
        ...

    def __get__(self, image: Optional[AnyImage], owner: Any) -> Union[Rectangle, ValidRectangle]:
        return self if image is None else image.query().valid

    def __set__(self, image: AnyImage, rectangle: Tuple[int, int, int, int]) -> None:
        try:
            given = tuple(rectangle)
        except NO_SEQUENCE:
            given = ()
        if len(given) != 4:
            raise ValueError(f"the valid rectangle of {image} must be (x0, y0, x1, y1), not "
                             f"{rectangle!r}; (0, 0, {image.width}, {image.height}) is all of it")
        sides = tuple(within(side, f"a side of {image}'s valid rectangle", UNSIGNED,
                             f"a whole number up to {wire.GREATEST_SIDE}") for side in given)
        image.context._tell(f"make {sides} the valid rectangle of {image}", wire.set_valid,
                            image._reference, sides)
        image._note_valid(sides)


class AnyImage(Readable):
    """
    An image of `width` by `height` samples of the format `fmt`, or such an image in a slot of a
    delay. Its samples outside its valid rectangle are 0.
    """

    __slots__ = ()
    _is_virtual = False
    # The reference, as frames have it.
    _reference: bytes
    valid = ValidRectangle()

    @property
    def context(self) -> Context:
        raise NotImplementedError

    @property
    def _described(self) -> Size:
        raise NotImplementedError

    @property
    def fmt(self) -> Format:
        return self._described.fmt

    @property
    def width(self) -> int:
        return self._described.width

    @property
    def height(self) -> int:
        return self._described.height

    @property
    def shape(self) -> Tuple[int, int]:
        """(height, width) in samples, as NumPy has it."""
        return self.height, self.width

    @property
    def dtype(self) -> Any:
        """NumPy's type of the samples: uint8, int16 or uint32; its name without NumPy."""
        return dtype_of(self.fmt)

    @property
    def ndim(self) -> int:
        """The number of dimensions, 2, as NumPy has it."""
        return 2

    @property
    def size(self) -> int:
        """The number of samples, as NumPy has it."""
        return self.width * self.height

    def write(self, samples: Any) -> None:
        """
        Replaces all samples; the whole image is then valid.

        `samples` is a NumPy array of shape (height, width) and of the dtype of the image's format:
        uint8, int16 or uint32. It may also be bytes or another buffer of that many samples, row by
        row in this machine's byte order, or rows of numbers. Raises BadPicture for anything else.
        """
        self._write_samples(samples_of(samples, self._described))

    def _write_samples(self, given: Samples) -> None:
        """Replaces all samples by those that samples_of() returned."""
        fmt, width, height, content = given
        if (fmt, width, height) != self._described:
            sides_of_frame(width, height)
        self.context._tell(self._words_for(given), wire.write_image_head, self._reference, fmt,
                           width, height, content=content,
                           explain=lambda code: self._fault_of(given, code))
        self._note_valid(None)

    def _look_at_samples(self, given: Samples, place: str) -> None:
        """Raises the server's refusal of samples whose format or size isn't the image's, without
        asking the server. `place` is the call in its pipeline."""
        fmt, width, height = self._described
        if given.fmt != fmt:
            code = wire.INVALID_FORMAT
        elif (given.width, given.height) != (width, height):
            code = wire.INVALID_DIMENSION
        else:
            return
        raise refusal(code, self._words_for(given), wire.WRITE_IMAGE, place,
                      self._fault_of(given, code))

    def _words_for(self, given: Samples) -> str:
        # _name_ is the same as str(fmt), but faster.
        return (f"write {given.width} by {given.height} {given.fmt._name_} samples to "
                f"{self}")

    def _fault_of(self, given: Samples, code: int) -> Fault:
        return Fault("" if code != wire.INVALID_DIMENSION else (
            f"The samples have the shape {(given.height, given.width)}, and the image "
            f"{self.shape}."))

    def _note_valid(self, given: Optional[Tuple[int, ...]]) -> None:
        """Notes the valid rectangle that was set; None after all samples were written."""

    def fill(self, value: int) -> None:
        """Writes one value to all samples; the whole image is then valid."""
        line = samples_of([[value] * self.width], Size(self.fmt, self.width, 1)).content
        self.context._tell(f"fill {self} with {value}", wire.write_image_head, self._reference,
                           self.fmt, self.width, self.height, content=bytes(line) * self.height)
        self._note_valid(None)

    def read(self, out: Optional[numpy.ndarray[Any, Any]] = None) -> Picture:
        """
        Returns all samples as a NumPy array of shape (height, width) and dtype uint8, int16 or
        uint32; without NumPy as a memoryview of that shape. The caller owns the result, and may
        change it. With `out`, an array of that shape and dtype, reads the samples into `out` and
        returns it. Raises BadPicture for any other `out`, and if its samples overlap in memory.
        """
        if out is None:
            return self.context._ask(*self._reading())
        pixels, place = out, place_in(out, self._described)
        if place is None:
            pixels[...] = self.read()
            return pixels
        words, make, _, body = self._reading()
        return self.context._ask(words, make, lambda _: turned(pixels), body, place)

    def _reading(self) -> Asked[Picture]:
        """Returns the request of read(), for a pipeline."""
        fmt, width, height = self._described
        described = struct.pack(">BHH", fmt, width, height)
        return (f"read {self}", lambda client: wire.read_image(client, self._reference),
                partial(picture_of, native=[]),
                Body(len(described) + width * height * fmt.sample_bytes, described))

    def copy(self) -> Image:
        """Returns a new image with the same samples and valid rectangle."""
        image = self.context.image_from(self)
        valid = self.valid
        if valid != (0, 0, *self.shape[::-1]):
            image.valid = valid
        return image

    def save(self, path: Path) -> None:
        """
        Writes the picture to a file in the format of the name's extension: .pgm, .png and NumPy's
        .npy by this package, any other by OpenCV or PIL if one of them is installed.
        """
        save(path, self)

    def __array__(self, dtype: Any = None, copy: Optional[bool] = None) -> numpy.ndarray[Any, Any]:
        """Returns a copy of the samples on the server, for numpy.asarray(image)."""
        if copy is False:
            raise ValueError(f"the samples of {self} are on its server, so NumPy only gets a copy: "
                             "leave out copy=False")
        pixels: numpy.ndarray[Any, Any] = needed_numpy(f"{self} as an array").asarray(self.read(),
                                                                                      dtype)
        return pixels

    def _repr_png_(self) -> Optional[bytes]:
        """
        Returns the picture as PNG for a notebook, with a frame around the valid rectangle unless
        that is the whole image. S16 and U32 samples are scaled so that the least is black and the
        greatest white. Returns None if the image can't be read any more.
        """
        try:
            return shown(self.read(), self.valid)
        except FeqyldanError:
            return None

    def read_bytes(self) -> bytes:
        """Returns all samples, row by row, in this machine's byte order."""
        return bytes(self.read().tobytes())

    def write_pgm(self, text: bytes) -> None:
        """Replaces all samples by those of a PGM text, P5 or P2, whose picture has the image's
        format and size."""
        content = content_of(text)
        self.context._tell(f"write a PGM text to {self}", wire.write_image_pgm_head,
                           self._reference, len(content), content=content,
                           explain=lambda code: fault_of(text, code))
        self._note_valid(None)

    def read_pgm(self) -> bytes:
        """Returns the picture of a U8 image as a PGM text (P5)."""
        return self.context._ask(*self._reading_pgm())

    def _reading_pgm(self) -> Asked[bytes]:
        """Returns the request of read_pgm(), for a pipeline."""
        head = f"P5\n{self.width} {self.height}\n255\n".encode()
        return (f"read a PGM text of {self}",
                lambda client: wire.read_image_pgm(client, self._reference),
                lambda reply: bytes(wire.text_of(reply)), Body(len(head) + self.size, head))

    def query(self) -> Description:
        """Returns the format, the width, the height and the valid rectangle, as the server has
        them."""
        return self.context._ask(*self._querying())

    def _querying(self) -> Asked[Description]:
        """Returns the request of query(), for a pipeline."""
        return (f"query {self}", lambda client: wire.query_image(client, self._reference),
                description_of, None)


class Image(Named, AnyImage):
    """An image that isn't in a slot of a delay."""

    __slots__ = ("_size", "_given_valid")
    _kind = "image"

    def __init__(self, context: Context, made: Made, fmt: Format, width: int, height: int) -> None:
        Named.__init__(self, context, made, in_words(fmt, width, height))
        self._size = Size(fmt, width, height)
        # The valid rectangle that was set since the samples were written, if any; a run may leave a
        # smaller one.
        self._given_valid: Optional[Tuple[int, ...]] = None

    def _note_valid(self, given: Optional[Tuple[int, ...]]) -> None:
        self._given_valid = given

    @property
    def _described(self) -> Size:
        return self._size


class Slot(Uncopied, AnyImage):
    """The image in a slot of a delay. After the delay ages, the slot has another image."""

    __slots__ = ("_delay", "_number", "_reference", "__weakref__")

    def __init__(self, delay: Delay, number: int) -> None:
        self._delay, self._number = delay, number
        self._reference: bytes = wire.reference(delay.name, -number)

    @property
    def context(self) -> Context:
        return self._delay.context

    @property
    def delay(self) -> Delay:
        return self._delay

    @property
    def number(self) -> int:
        return self._number

    @property
    def _title(self) -> str:
        return f"{self._delay._title}[{self._number}]"

    @property
    def _about(self) -> str:
        return self._delay._about

    @property
    def _described(self) -> Size:
        return self._delay._size

    def __str__(self) -> str:
        return f"slot {self.number} of {self.delay}"

    def __repr__(self) -> str:
        return f"<{self}>"


class Delay(Named):
    """Images of one format and size in slots: delay[0] is the newest, delay[-1] the one before it,
    and so on."""

    __slots__ = ("_size", "_slots")
    _kind = "delay"

    def __init__(self, context: Context, made: Made, exemplar: AnyImage, slots: int) -> None:
        super().__init__(context, made, in_words(exemplar.fmt, exemplar.width, exemplar.height))
        self._size = Size(exemplar.fmt, exemplar.width, exemplar.height)
        self._slots = slots

    @property
    def fmt(self) -> Format:
        return self._size.fmt

    @property
    def width(self) -> int:
        return self._size.width

    @property
    def height(self) -> int:
        return self._size.height

    def __len__(self) -> int:
        return self._slots

    def __getitem__(self, number: int) -> Slot:
        number = whole(number, "the number of a slot")
        if not -self._slots < number <= 0:
            raise IndexError(f"{self} has {self._slots} slots, from 0 down to {1 - self._slots}, "
                             f"and no slot {number}")
        return Slot(self, number)

    def __iter__(self) -> Iterator[Slot]:
        """Iterates over the slots, the newest first."""
        return (Slot(self, -k) for k in range(self._slots))

    def __reversed__(self) -> Iterator[Slot]:
        """Iterates over the slots, the oldest first. By default Python would begin with slot 1."""
        return (Slot(self, k) for k in range(1 - self._slots, 1))

    def _values(self) -> str:
        return f", {self._slots} slots"

    def _repr_html_(self) -> str:
        """Returns the pictures of all slots for a notebook, the newest first."""
        from .drawing import html_of
        return html_of((f"slot {slot.number}", slot._repr_png_()) for slot in self)

    def age(self) -> None:
        """Moves each image to the next older slot, 0 to -1 and so on, and the image of the last
        slot to slot 0. Each run of a graph does this after Graph.register_auto_aging()."""
        self._context._tell(f"age {self}", wire.age_delay, self.name)
