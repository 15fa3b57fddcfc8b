"""Every vision function, in immediate mode and as a node, against the formulas of
tools/checks/model."""

import inspect
import os
import random
import re
import unittest
from collections import namedtuple

from program import HERE, ProgramTest, vx
from checks.model import functions as formulas

WIDTH, HEIGHT = 9, 6
# The valid rectangles of inputs, and of outputs before the call.
VALID, VALID_BEFORE = (1, 0, 8, 5), (0, 1, 7, 6)
U8, S16, U32 = vx.U8, vx.S16, vx.U32
IN1, IN2, OUT1, OUT2, POLICY, AMOUNT = range(6)

# The order of parameters in the OpenVX 1.3 specification of vxuAnd, vxuAdd and so on, after the
# context. The scale of vxuMultiply is the amount here, and there is no rounding policy.
ONE, TWO, ARITHMETIC = (IN1, OUT1), (IN1, IN2, OUT1), (IN1, IN2, POLICY, OUT1)
PARAMETERS = {
    "and_": TWO, "or_": TWO, "xor": TWO, "not_": ONE, "add": ARITHMETIC, "subtract": ARITHMETIC,
    "multiply": (IN1, IN2, AMOUNT, POLICY, OUT1), "absdiff": TWO, "min": TWO, "max": TWO,
    "threshold": TWO, "table_lookup": TWO, "convert_depth": (IN1, OUT1, POLICY, AMOUNT),
    "box3x3": ONE, "gaussian3x3": ONE, "median3x3": ONE, "erode3x3": ONE, "dilate3x3": ONE,
    "sobel3x3": (IN1, OUT1, OUT2), "convolve": TWO, "histogram": ONE, "integral_image": ONE,
    "min_max_loc": ONE, "accumulate": ONE, "accumulate_square": (IN1, AMOUNT, OUT1),
}

# A call: the formats of in1, in2 and the outputs, or functions that make other operands.
Case = namedtuple("Case", "name in1 in2 out1 out2 policy amount border")


def case(name, in1, in2, out1, out2=None, policy=vx.WRAP, amount=0, border=None):
    return Case(name, in1, in2, out1, out2, policy, amount, border)


def threshold(context):
    return context.threshold(U8, above=99, true_value=200, false_value=7), formulas.Threshold(U8,
                                                                                              (99,),
                                                                                              200,
                                                                                              7)


def between(context):
    return context.threshold(S16, between=(-900, 20000)), formulas.Threshold(S16, (-900, 20000),
                                                                             255, 0)


def bytes_table(context):
    entries = random.Random(2).sample(range(256), 256)
    return context.lut(U8, entries), formulas.Lut(U8, entries)


def shorts_table(context):
    entries = [(7 * k) % 65536 - 32768 for k in range(65536)]
    return context.lut(S16, entries), formulas.Lut(S16, entries)


def convolution(context):
    rows = [[1, -2, 3], [4, 50, -6], [7, 8, 9], [-10, 11, 12], [13, 14, -15]]
    return context.convolution(rows, scale=16), formulas.Convolution(3, 5, 4,
                                                                     [one for row in rows
                                                                      for one in row])


def distribution(context):
    return context.distribution(5, 3, 200), formulas.new_distribution(formulas.Bins(5, 3, 200))


def extremes(context):
    return context.min_max(), formulas.NO_EXTREMES


FILTERS = ("box3x3", "gaussian3x3", "median3x3", "erode3x3", "dilate3x3")
BORDERS = (None, vx.UNDEFINED, vx.REPLICATE, vx.constant(77))
CASES = (
    *(case(name, U8, U8, U8) for name in ("and_", "or_", "xor", "absdiff", "min", "max")),
    *(case(name, S16, S16, S16) for name in ("absdiff", "min", "max")),
    case("not_", U8, None, U8),
    *(case(name, in1, in2, out1, policy=policy)
      for name in ("add", "subtract")
      for in1, in2, out1 in ((U8, U8, U8), (U8, S16, S16), (S16, S16, S16))
      for policy in (vx.WRAP, vx.SATURATE)),
    *(case("multiply", in1, U8, out1, policy=policy, amount=amount)
      for in1, out1 in ((U8, U8), (S16, S16)) for policy in (vx.WRAP, vx.SATURATE)
      for amount in (0, 8)),
    case("threshold", U8, threshold, U8), case("threshold", S16, between, U8),
    case("table_lookup", U8, bytes_table, U8), case("table_lookup", S16, shorts_table, S16),
    case("convert_depth", U8, None, S16, amount=7),
    case("convert_depth", S16, None, U8, policy=vx.SATURATE, amount=3),
    case("convert_depth", S16, None, U8, policy=vx.WRAP),
    *(case(name, U8, None, U8, border=border) for name in FILTERS for border in BORDERS),
    *(case("sobel3x3", U8, None, *outputs, border=border)
      for outputs in ((S16, S16), (S16, None), (None, S16)) for border in BORDERS),
    *(case("convolve", U8, convolution, out1, border=border) for out1 in (U8, S16)
      for border in BORDERS),
    case("histogram", U8, None, distribution), case("integral_image", U8, None, U32),
    case("min_max_loc", U8, None, extremes), case("min_max_loc", S16, None, extremes),
    case("accumulate", U8, None, S16),
    *(case("accumulate_square", U8, None, S16, amount=amount) for amount in (0, 4, 15)),
)


class Operands:
    """The operands of a case's call, and the same for the formulas."""

    def __init__(self, context, a_case):
        self.context, self.noise = context, random.Random(str(a_case))
        made = [self.made(of, valid)
                for of, valid in zip(a_case[1:5], (VALID, VALID, VALID_BEFORE, VALID_BEFORE))]
        self.ours, self.theirs = [one for one, _ in made], [other for _, other in made]

    def made(self, of, valid):
        if of is None:
            return None, None
        if callable(of):
            return of(self.context)
        image = self.context.image(of, WIDTH, HEIGHT)
        least, greatest = formulas.SAMPLES[of]
        rows = [[self.noise.randint(least, greatest) for _ in range(WIDTH)] for _ in range(HEIGHT)]
        image.write(rows)
        image.valid = valid
        written = formulas.Image(of, WIDTH, HEIGHT, None,
                                 [sample for row in rows for sample in row])
        return image, formulas.confined(written, formulas.Rectangle(*valid))


def wanted(a_case, things):
    """Returns the formulas' results for out1 and out2."""
    row = formulas.FUNCTIONS[vx.FUNCTIONS[a_case.name].number]
    node = formulas.Node(row, formulas.Border(*(a_case.border or vx.UNDEFINED)), a_case.policy,
                         a_case.amount, None)
    given = row.gives(node, things)
    return [given.get(OUT1), given.get(OUT2)]


def call(functions, a_case, ours):
    values = [*ours, a_case.policy, a_case.amount]
    border = {} if a_case.border is None else {"border": a_case.border}
    return getattr(functions, a_case.name)(*(values[k] for k in PARAMETERS[a_case.name]), **border)


class TestFunctions(ProgramTest):
    def shows(self, output, thing):
        if output is None:
            self.assertIsNone(thing)
        elif isinstance(thing, formulas.Image):
            self.assertEqual([sample for row in output.read().tolist() for sample in row],
                             list(thing.samples))
            self.assertEqual(output.valid, tuple(thing.valid))
        elif isinstance(thing, formulas.Extremes):
            self.assertEqual(tuple(output.read()), tuple(thing))
        else:
            self.assertEqual(output.read(), tuple(thing.counts))

    def test_in_immediate_mode(self):
        for a_case in CASES:
            with self.subTest(a_case):
                operands = Operands(self.context, a_case)
                self.assertIsNone(call(self.context.vxu, a_case, operands.ours))
                for output, thing in zip(operands.ours[OUT1:], wanted(a_case, operands.theirs)):
                    self.shows(output, thing)

    def test_as_nodes(self):
        for a_case in CASES:
            with self.subTest(a_case):
                operands = Operands(self.context, a_case)
                with self.context.graph() as graph:
                    self.assertEqual(call(graph, a_case, operands.ours).number, 1)
                    graph.process()
                for output, thing in zip(operands.ours[OUT1:], wanted(a_case, operands.theirs)):
                    self.shows(output, thing)


class TestTable(unittest.TestCase):
    def test_all_functions_have_cases_and_parameters(self):
        self.assertEqual({a_case.name for a_case in CASES}, set(vx.FUNCTIONS))
        self.assertEqual(set(PARAMETERS), set(vx.FUNCTIONS))
        self.assertEqual(sorted(one.number for one in vx.FUNCTIONS.values()), list(range(1, 26)))

    def test_windows_alone_have_borders(self):
        for name in vx.FUNCTIONS:
            parameters = list(inspect.signature(getattr(vx.Graph, name)).parameters)[1:]
            has_border = name in FILTERS + ("sobel3x3", "convolve")
            self.assertEqual(len(parameters), len(PARAMETERS[name]) + has_border, name)
            self.assertEqual(parameters[-1] == "border", has_border, name)

    def test_docstrings_have_the_names_of_openvx(self):
        for name, function in vx.FUNCTIONS.items():
            for place in (vx.Vxu, vx.Graph):
                text = inspect.getdoc(getattr(place, name))
                self.assertTrue(text.endswith(f"OpenVX: vxu{function.openvx}, "
                                              f"vx{function.openvx}Node."), name)

    def test_the_manual_has_all_of_them(self):
        manual = os.path.join(HERE, "..", "..", "..", "docs", "python.md")
        with open(manual, encoding="utf-8") as file:
            rows = re.findall(r"^\| `vxu(\w+)`, `vx(\w+)Node` \| `(\w+)\(", file.read(), re.M)
        self.assertEqual(
            [(function.openvx, function.openvx, name) for name, function in vx.FUNCTIONS.items()],
            rows)


if __name__ == "__main__":
    unittest.main()
