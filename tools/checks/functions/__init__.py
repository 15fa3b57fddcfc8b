"""Compares every vision function with its formula, sample by sample, on every format."""

import os
import sys

from checks.functions.formats import formats
from checks.functions.session import HEIGHT, WIDE, WIDTHS, Session
from checks.functions.shapes import SHAPES, Shape
from checks.functions.worked import WORKED, WORKED_PICTURES, worked, worked_pictures

# A width and a rectangle that begins and ends off the boundaries of vectors.
PART = 70, (3, 1, 68, 2)


def main():
    if len(sys.argv) != 2:
        sys.exit("usage: tools/check_functions PROGRAM")
    program = os.path.abspath(sys.argv[1])
    session = Session()
    worked(session)
    worked_pictures(session)
    session.check(program)
    ran = refused = 0
    for width, valid in (*((width, (0, 0, width, HEIGHT)) for width in WIDTHS + WIDE), PART):
        session = Session()
        values, refusals = formats(session, width, valid)
        session.check(program)
        ran, refused = ran + values, refused + refusals
    for seed, (width, height) in enumerate(SHAPES):
        shape = Shape(width, height, seed)
        shape.session.check(program)
        ran += shape.ran
    examples = len(WORKED) + len(WORKED_PICTURES) + len(WIDTHS)
    print(f"check_functions: {examples} worked examples, {ran} nodes gave their formulas, "
          f"{refused} were refused for their formats")
