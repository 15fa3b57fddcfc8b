"""
The vision functions by their OpenVX names, with the standard's order of parameters. `Context.vxu`
runs them immediately, as vxuAbsDiff does; a `Graph` adds them as nodes, as vxAbsDiffNode does. Each
is defined here once, for both.

The valid pixels of an output are those that are valid in all input images. An output that is added
to stays valid only where it was valid before. Some functions below make fewer pixels valid. All
other samples of an output become 0.
"""

from __future__ import annotations

import functools
import inspect
from enum import IntEnum
from typing import (
    TYPE_CHECKING, Any, Callable, Dict, Generic, NamedTuple, Optional, Sequence, Tuple, TypeVar,
    Union, cast)

from . import wire
from .errors import InvalidParameters
from .hints import OTHERS, attribute_of
from .images import AnyImage
from .objects import Convolution, Distribution, Lut, MinMax, Named, Threshold
from .ranges import NO_SHIFT, PARAMETER_RANGES, SHIFTS
from .whole import BYTE, within

if TYPE_CHECKING:
    from .graphs import VirtualImage

# An image, a slot of a delay or, in a graph, one of its virtual images.
Operand = Union[AnyImage, "VirtualImage"]
# What each method returns: None in immediate mode, the node in a graph.
Given = TypeVar("Given")
Method = TypeVar("Method", bound=Callable[..., Any])


class Policy(IntEnum):
    """The policy for results outside the output's range: WRAP takes them modulo 2^8 or 2^16,
    SATURATE takes the nearest sample."""

    WRAP = wire.WRAP
    SATURATE = wire.SATURATE


class Border(NamedTuple):
    """
    The border mode: what a window sees outside the valid pixels of its input. With UNDEFINED an
    output pixel is valid only if its whole window is valid; with REPLICATE the window sees the
    nearest valid pixel; with constant(value) it sees that value, from 0 to 255.
    """

    mode: int
    value: int = 0


UNDEFINED, REPLICATE = Border(wire.UNDEFINED), Border(wire.REPLICATE)


# Callers may also use the policies of `wire`.
POLICIES = Policy, wire.Policy


def constant(value: int) -> Border:
    """Returns the border mode in which a window sees this value, from 0 to 255, outside the valid
    pixels."""
    return Border(wire.CONSTANT,
                  within(value, "a border's value", BYTE, PARAMETER_RANGES["border"].whole))


class Function(NamedTuple):
    """A function: its number in frames, and its OpenVX name without vx or vxu."""

    number: int
    openvx: str


# The functions by the names of their methods.
FUNCTIONS: Dict[str, Function] = {}


def function(number: int, openvx: str) -> Callable[[Method], Method]:
    """Adds a method to FUNCTIONS, and its OpenVX names to its docstring."""

    def entered(method: Method) -> Method:
        FUNCTIONS[method.__name__] = Function(number, openvx)
        words = inspect.cleandoc(method.__doc__ or "")
        method.__doc__ = f"{words}\n\nOpenVX: vxu{openvx}, vx{openvx}Node."
        return telling_order(method) if "policy" in inspect.signature(method).parameters else method

    return entered


def telling_order(method: Method) -> Method:
    """Wraps a method that has a policy. If the number of arguments is wrong, the error lists them,
    because the policy is often forgotten."""

    @functools.wraps(method)
    def called(*arguments: Any, **named: Any) -> Any:
        try:
            return method(*arguments, **named)
        except TypeError as error:
            # An error that was raised within the method has a frame of that method.
            if error.__traceback__ is None or error.__traceback__.tb_next is not None:
                raise
            words = str(error)
        if not any(isinstance(value, POLICIES) for value in (*arguments, *named.values())):
            words += "; none of them is a policy, vx.WRAP or vx.SATURATE"
        raise TypeError(f"{words}. Call it as {order_of(method.__name__)}")

    return cast(Method, called)


def functions_for_names(before: str) -> Dict[str, str]:
    """Returns `before` and the name of each function here, by the function's names in OpenCV and
    OpenVX."""
    names = {**OTHERS, **{other: name for name, function in FUNCTIONS.items()
                          for other in (function.openvx, f"vxu{function.openvx}",
                                        f"vx{function.openvx}Node")}}
    return {other: f"{before}{name}" for other, name in names.items()}


def order_of(name: str) -> str:
    """Returns a function's name and parameters in order, in words."""
    return f"{name}({', '.join(parameters_of(name))})"


def place_of(name: str, parameter: str) -> str:
    """Returns the position of a parameter among a function's arguments, in words."""
    parameters = list(inspect.signature(getattr(Functions, name)).parameters)
    return f"it is argument {parameters.index(parameter)} of {order_of(name)}"


# The index of each parameter among the operands of a call.
OPERANDS = {"input": 0, "in1": 0, "in2": 1, "threshold": 1, "lut": 1, "convolution": 1, "output": 2,
            "accum": 2, "distribution": 2, "extremes": 2, "output_x": 2, "output_y": 3}


@functools.lru_cache(maxsize=None)
def parameters_of(function: str) -> Tuple[str, ...]:
    """Returns the names of a function's parameters."""
    return (*inspect.signature(getattr(Functions, function)).parameters,)[1:]


class Call(NamedTuple):
    """A call of a function. The operands are in1, in2, out1 and out2; those that the function
    doesn't have are None."""

    name: str
    operands: Tuple[Optional[Union[Operand, Named]], ...]
    policy: Policy
    amount: int
    border: Border

    def __str__(self) -> str:
        operands = (str(operand) for operand in self.operands if operand is not None)
        return f"{self.name}({', '.join(operands)})"

    def fields(self, references: Sequence[Optional[bytes]]) -> Tuple[Any, ...]:
        """Returns the fields of the call in the order of wire.immediate; each operand is a
        reference."""
        in1, in2, out1, out2 = references
        return FUNCTIONS[
            self.name].number, in1, in2, out1, self.policy, self.amount, *self.border, out2


# What in2 is, in words, for the functions that have one.
BINARY = {**dict.fromkeys(("and_", "or_", "xor", "add", "subtract", "multiply", "absdiff", "min",
                           "max"), "its second input"),
          "threshold": "its threshold", "table_lookup": "its table", "convolve": "its convolution"}


def call_of(name: str, operands: Tuple[Optional[Union[Operand, Named]], ...], policy: Policy,
            amount: int,
            border: Border) -> Call:
    """Returns a call. Raises InvalidParameters, TypeError or ValueError if a frame can't express
    it."""
    for at, what in enumerate(("its input", BINARY.get(name, ""))):
        if what and operands[at] is None:
            words = f"{what[0].upper()}{what[1:]} is None: give an object."
            raise InvalidParameters(name, None, words)
    if operands[2] is None and operands[3] is None:
        raise InvalidParameters(name, None, "Its output is None: give an object to write to.")
    if border is not UNDEFINED and border is not REPLICATE:
        require_border(name, border)
    if not isinstance(policy, POLICIES):
        raise not_a_policy(name, policy)
    if isinstance(amount, POLICIES):
        raise TypeError(f"{name}: a shift must be a whole number, not the policy vx.{amount.name}; "
                        f"{place_of(name, 'shift')}")
    return Call(name, operands, policy,
                within(amount, f"{name}: a shift", BYTE, SHIFTS.get(name, NO_SHIFT).whole), border)


def require_border(name: str, border: Any) -> None:
    """Raises TypeError or ValueError for a border that a frame can't express."""
    modes = "vx.UNDEFINED, vx.REPLICATE or vx.constant(value)"
    if not isinstance(border, Border):
        raise TypeError(f"{name}: a border must be {modes}, not {border!r}")
    within(border.mode, f"{name}: a border's mode", BYTE, f"that of {modes}")
    within(border.value, f"{name}: a border's value", BYTE, PARAMETER_RANGES["border"].whole)


def not_a_policy(name: str, value: Any) -> Exception:
    """Returns the exception for an argument that should be a policy. For a number it is the
    server's refusal."""
    words = f"a policy must be vx.WRAP or vx.SATURATE, not {value!r}; {place_of(name, 'policy')}"
    if isinstance(value, int):
        return InvalidParameters(name, None, f"{words[0].upper()}{words[1:]}.")
    return TypeError(f"{name}: {words}")


class Functions(Generic[Given]):
    """The methods that immediate mode and graphs share. All images of one call have the same
    size."""

    __slots__ = ()

    def _run(self, call: Call) -> Given:
        raise NotImplementedError

    if not TYPE_CHECKING:
        def __getattr__(self, name: str) -> Any:
            return attribute_of(self, name, self._others())

    @classmethod
    def _others(cls) -> Dict[str, str]:
        """Returns this class's names for the functions and methods of other libraries."""
        return functions_for_names("")

    def _do(self, name: str, in1: Operand, in2: Optional[Union[Operand, Named]],
            out1: Optional[Union[Operand, Named]], out2: Optional[Operand] = None,
            policy: Policy = Policy.WRAP, amount: int = 0, border: Border = UNDEFINED) -> Given:
        return self._run(call_of(name, (in1, in2, out1, out2), policy, amount, border))

    @function(wire.AND_BITS, "And")
    def and_(self, in1: Operand, in2: Operand, output: Operand) -> Given:
        """Writes the bits that are 1 in both inputs. U8 and U8 to U8."""
        return self._do("and_", in1, in2, output)

    @function(wire.OR_BITS, "Or")
    def or_(self, in1: Operand, in2: Operand, output: Operand) -> Given:
        """Writes the bits that are 1 in either input. U8 and U8 to U8."""
        return self._do("or_", in1, in2, output)

    @function(wire.XOR_BITS, "Xor")
    def xor(self, in1: Operand, in2: Operand, output: Operand) -> Given:
        """Writes the bits that differ between the inputs. U8 and U8 to U8."""
        return self._do("xor", in1, in2, output)

    @function(wire.NOT_BITS, "Not")
    def not_(self, input: Operand, output: Operand) -> Given:
        """Writes 255 - a. U8 to U8."""
        return self._do("not_", input, None, output)

    @function(wire.ADD, "Add")
    def add(self, in1: Operand, in2: Operand, policy: Policy, output: Operand) -> Given:
        """
        Writes a + b by the policy, WRAP or SATURATE. U8 and U8 to U8; or two inputs of U8 or S16,
        in any combination, to S16. A virtual output of open format becomes S16.
        """
        return self._do("add", in1, in2, output, policy=policy)

    @function(wire.SUBTRACT, "Subtract")
    def subtract(self, in1: Operand, in2: Operand, policy: Policy, output: Operand) -> Given:
        """Writes a - b by the policy. Formats as for add."""
        return self._do("subtract", in1, in2, output, policy=policy)

    @function(wire.MULTIPLY, "Multiply")
    def multiply(self, in1: Operand, in2: Operand, shift: int, policy: Policy,
                 output: Operand) -> Given:
        """
        Writes a * b / 2^shift by the policy; the quotient is rounded toward zero. Formats as for
        add.

        The shift, from 0 to 15, is the standard's scale 1 / 2^shift: scale 1 is shift 0, 1/256 is
        shift 8. The scale 1/255 is not supported. VX_ROUND_POLICY_TO_ZERO is the only rounding
        policy.
        """
        return self._do("multiply", in1, in2, output, policy=policy, amount=shift)

    @function(wire.ABSOLUTE_DIFFERENCE, "AbsDiff")
    def absdiff(self, in1: Operand, in2: Operand, output: Operand) -> Given:
        """Writes the absolute difference of a and b, at most 32767. U8 and U8 to U8; S16 and S16 to
        S16."""
        return self._do("absdiff", in1, in2, output)

    @function(wire.MIN_PIXEL, "Min")
    def min(self, in1: Operand, in2: Operand, output: Operand) -> Given:
        """Writes the smaller of a and b. U8 and U8 to U8; S16 and S16 to S16."""
        return self._do("min", in1, in2, output)

    @function(wire.MAX_PIXEL, "Max")
    def max(self, in1: Operand, in2: Operand, output: Operand) -> Given:
        """Writes the greater of a and b. U8 and U8 to U8; S16 and S16 to S16."""
        return self._do("max", in1, in2, output)

    @function(wire.THRESHOLD, "Threshold")
    def threshold(self, input: Operand, threshold: Threshold, output: Operand) -> Given:
        """Writes the threshold's true value where a sample passes, and its false value elsewhere.
        The input has the threshold's format; the output is U8."""
        return self._do("threshold", input, threshold, output)

    @function(wire.TABLE_LOOKUP, "TableLookup")
    def table_lookup(self, input: Operand, lut: Lut, output: Operand) -> Given:
        """Writes the table's entry for each sample. U8 to U8 or S16 to S16, as the table is."""
        return self._do("table_lookup", input, lut, output)

    @function(wire.CONVERT_DEPTH, "ConvertDepth")
    def convert_depth(self, input: Operand, output: Operand, policy: Policy, shift: int) -> Given:
        """
        Converts samples to the other format. U8 to S16: a * 2^shift. S16 to U8: a / 2^shift,
        rounded down, by the policy. The shift is from 0 to 7.
        """
        return self._do("convert_depth", input, None, output, policy=policy, amount=shift)

    @function(wire.BOX, "Box3x3")
    def box3x3(self, input: Operand, output: Operand, border: Border = UNDEFINED) -> Given:
        """Writes the mean of the 3x3 window around each pixel, rounded down. U8 to U8."""
        return self._do("box3x3", input, None, output, border=border)

    @function(wire.GAUSSIAN, "Gaussian3x3")
    def gaussian3x3(self, input: Operand, output: Operand, border: Border = UNDEFINED) -> Given:
        """Writes the mean of the 3x3 window by the weights 1 2 1, 2 4 2, 1 2 1, rounded down. U8 to
        U8."""
        return self._do("gaussian3x3", input, None, output, border=border)

    @function(wire.MEDIAN, "Median3x3")
    def median3x3(self, input: Operand, output: Operand, border: Border = UNDEFINED) -> Given:
        """Writes the median of the 3x3 window. U8 to U8."""
        return self._do("median3x3", input, None, output, border=border)

    @function(wire.ERODE, "Erode3x3")
    def erode3x3(self, input: Operand, output: Operand, border: Border = UNDEFINED) -> Given:
        """Writes the least sample of the 3x3 window. U8 to U8."""
        return self._do("erode3x3", input, None, output, border=border)

    @function(wire.DILATE, "Dilate3x3")
    def dilate3x3(self, input: Operand, output: Operand, border: Border = UNDEFINED) -> Given:
        """Writes the greatest sample of the 3x3 window. U8 to U8."""
        return self._do("dilate3x3", input, None, output, border=border)

    @function(wire.SOBEL, "Sobel3x3")
    def sobel3x3(self, input: Operand, output_x: Optional[Operand], output_y: Optional[Operand],
                 border: Border = UNDEFINED) -> Given:
        """
        Writes the gradients in x and in y: the sums of the 3x3 window by the weights -1 0 1, -2 0
        2, -1 0 1, and by -1 -2 -1, 0 0 0, 1 2 1. U8 to S16. One of the outputs may be None.
        """
        return self._do("sobel3x3", input, None, output_x, out2=output_y, border=border)

    @function(wire.CONVOLVE, "Convolve")
    def convolve(self, input: Operand, convolution: Convolution, output: Operand,
                 border: Border = UNDEFINED) -> Given:
        """
        Writes the sum of the window's samples, weighted by the convolution's coefficients. The sum
        is divided by the convolution's scale, rounded toward zero and saturated. The first
        coefficient is for the window's last pixel. U8 to U8 or S16. A virtual output of open format
        becomes S16.
        """
        return self._do("convolve", input, convolution, output, border=border)

    @function(wire.HISTOGRAM, "Histogram")
    def histogram(self, input: Operand, distribution: Distribution) -> Given:
        """Counts the valid samples of a U8 image in the bins of a distribution. The counts begin
        at 0 in each run."""
        return self._do("histogram", input, None, distribution)

    @function(wire.INTEGRAL, "IntegralImage")
    def integral_image(self, input: Operand, output: Operand) -> Given:
        """Writes at each valid pixel the sum of the valid samples up to its column and its row,
        both included, modulo 2^32. U8 to U32."""
        return self._do("integral_image", input, None, output)

    @function(wire.MIN_MAX_LOCATION, "MinMaxLoc")
    def min_max_loc(self, input: Operand, extremes: MinMax) -> Given:
        """
        Finds the least and the greatest valid sample of a U8 or S16 image, how many pixels have
        each, and the first such pixel.

        The standard's six outputs are one object here, which MinMax.read() returns. Of the
        standard's lists of locations it has the first location.
        """
        return self._do("min_max_loc", input, None, extremes)

    @function(wire.ACCUMULATE, "AccumulateImage")
    def accumulate(self, input: Operand, accum: AnyImage) -> Given:
        """
        Adds each sample to the sample of accum at the same pixel. A sum above 32767 becomes 32767.
        U8, to S16.

        In a graph each run adds once, and nodes that read accum read the new sums. accum can't be a
        virtual image, because that holds nothing between runs.
        """
        return self._do("accumulate", input, None, accum)

    @function(wire.ACCUMULATE_SQUARE, "AccumulateSquareImage")
    def accumulate_square(self, input: Operand, shift: int, accum: AnyImage) -> Given:
        """
        Adds a * a / 2^shift, rounded down, to the sample of accum at the same pixel, as accumulate
        does. The shift is from 0 to 15. U8, to S16.
        """
        return self._do("accumulate_square", input, None, accum, amount=shift)
