"""
Runs each row of the tables of docs/from_opencv.md: the column "Here" on the program, and the column
"OpenCV's or NumPy's" next to it, on the same pictures. Skipped if OpenCV isn't installed.
"""

import os
import re
import unittest
from collections import namedtuple

from program import HERE, ProgramTest, vx

try:
    import cv2
    import numpy as np
except ImportError:
    cv2 = np = None

PAGE = os.path.join(HERE, "..", "..", "..", "docs", "from_opencv.md")
# Heights and widths, from the least to some that aren't multiples of a vector's length.
SIZES = ((1, 1), (2, 3), (7, 1), (33, 17), (64, 96), (121, 250))
OUTPUTS = {"out": vx.U8, "other": vx.U8, "third": vx.U8, "fourth": vx.U8,
           "wide": vx.S16, "across": vx.S16, "down": vx.S16, "zero": vx.S16, "sums": vx.U32}
ROWS = [[1, -2, 3], [4, 5, -6], [-7, 8, 9]]

# An operation, its code on both sides, and how far this package's result may be below and above the
# other's.
Row = namedtuple("Row", "what here there less more")


def section(title):
    with open(PAGE, encoding="utf-8") as file:
        return file.read().split(f"\n## {title}\n")[1].split("\n## ")[0]


def rows_of(title):
    """Returns the rows of a table. The cell for differences says by how much the two sides differ,
    if they do."""
    row = r"^\| ([^`|]*)\|? ?`([^`]+)` \| `([^`]+)` \|(.*)$"
    for cells in re.findall(row, section(title), re.M):
        what, here, there, result = cells
        apart = re.search(r"at most (\d+) (less|apart)", what + result)
        less = int(apart[1]) if apart else 0
        yield Row(what.strip(), here, there, less, less if apart and apart[2] == "apart" else 0)


def functions_of(title):
    """Returns the definitions of a section's program."""
    defined = {"np": np}
    for text in re.findall(r"```python\n(.*?)```", section(title), re.S):
        exec(text, defined)
    return defined


def pictures(shape):
    """Returns pairs of U8 and of S16 pictures: noise, and extremes alone."""
    noise = np.random.default_rng(shape[0])
    yield ([noise.integers(0, 256, shape, np.uint8) for _ in range(2)],
           [noise.integers(-32768, 32768, shape, np.int16) for _ in range(2)])
    yield ([noise.choice(np.array([0, 255], np.uint8), shape) for _ in range(2)],
           [noise.choice(np.array([-32768, 32767, 0], np.int16), shape) for _ in range(2)])


def named(bytes_, shorts):
    """Returns the arrays of one comparison, by their names in the tables."""
    mask = np.where(bytes_[1] > 99, 255, 0).astype(np.uint8)
    return {"a": bytes_[0], "b": bytes_[1], "s": shorts[0], "t": shorts[1], "mask": mask}


def shared(shape):
    """Returns the names that have the same value on both sides."""
    height, width = shape
    return {"np": np, "entries": np.random.default_rng(1).permutation(256).astype(np.uint8),
            "rows": ROWS, "turned": np.array(ROWS, np.float32)[::-1, ::-1], "five": [1, 4, 6, 4, 1],
            "part": (width // 4, height // 4, width - width // 4, height - height // 4)}


def result_here(text, names):
    """Evaluates code, and returns the value of its last part. If that is None, returns the samples
    of the last output that it names."""
    *before, last = text.split("; ")
    for part in before:
        exec(part, names)
    value = eval(last, names)
    if value is None:
        value = names[[word for word in re.findall(r"\w+", last) if word in OUTPUTS][-1]].read()
    return value


def numbers(value):
    """Returns the numbers of a value in one dimension: of an array, a number, or points."""
    if isinstance(value, tuple):
        return np.concatenate([numbers(part) for part in value])
    return np.asarray(value, np.float64).ravel()


@unittest.skipIf(cv2 is None, "OpenCV isn't installed")
class TestAgainstOpenCV(ProgramTest):
    def names_here(self, arrays):
        context = self.context
        height, width = arrays["a"].shape
        return {
            "vx": vx, "context": context, "f": context.vxu, **shared((height, width)),
            **functions_of("How to say it"),
            **{name: context.image_from(array) for name, array in arrays.items()},
            **{name: context.image(fmt, width, height) for name, fmt in OUTPUTS.items()},
            "counts": context.distribution(256), "eighths": context.distribution(8),
            "extremes": context.min_max()}

    def compare(self, row, arrays):
        """Returns the greatest difference of the two sides."""
        here = numbers(result_here(row.here, self.names_here(arrays)))
        there = numbers(eval(row.there, {"cv2": cv2, **shared(arrays["a"].shape), **arrays}))
        self.assertEqual(here.shape, there.shape)
        apart = there - here
        self.assertLessEqual(apart.max(), row.less)
        self.assertGreaterEqual(apart.min(), -row.more)
        return abs(apart).max()

    def compare_all(self, title):
        """Checks all rows; those that are said to differ do so for some picture."""
        rows = list(rows_of(title))
        # None of the lines but the heading was taken for something else.
        self.assertEqual(len(rows), len(re.findall(r"^\| ", section(title), re.M)) - 1)
        for row in rows:
            with self.subTest(row.here):
                arrays = [named(*given) for shape in SIZES for given in pictures(shape)]
                apart = [self.compare(row, one) for one in arrays]
                self.assertEqual(max(apart), max(row.less, row.more))

    def test_byte_for_byte(self):
        self.compare_all("Byte for byte")

    def test_how_to_say_it(self):
        self.compare_all("How to say it")

    def test_all_functions_are_compared(self):
        here = " ".join(row.here for row in rows_of("Byte for byte"))
        self.assertEqual(set(re.findall(r"\bf\.(\w+)", here)), set(vx.FUNCTIONS))


if __name__ == "__main__":
    unittest.main()
