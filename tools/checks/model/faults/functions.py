"""Misreadings of samples and functions."""

from feqyldan import wire
from feqyldan.wire import S16
from checks.model.faults.fault import Fault, right, with_row
from checks.model.functions import OUT1


def with_value(number, value):
    """A pixelwise function with another value."""
    return with_row(number, gives=right.pixelwise(value))


def with_sum(number, value):
    """An accumulating function with another value."""
    return with_row(number, gives=right.pixelwise(value, OUT1))


def narrowed_by(narrow):
    """Treats both policies as one."""
    return {"narrow": lambda value, fmt, _: narrow(value, fmt)}


def multiplied(quotient):
    """Multiply with another quotient."""
    def multiply(a, b, way):
        return right.narrow(quotient(a * b, way.amount), way.fmt, way.policy)

    return with_value(wire.MULTIPLY, multiply)


def rounded_up(value, exponent):
    return -(-value // 2**exponent)


def rounded_down(value, exponent):
    return value // 2**exponent


def to_the_nearest(value, exponent):
    return round(value / 2**exponent)


def difference_wrapped(a, b, way):
    return right.wrap(abs(a - b), way.fmt)


def difference_turned(a, b, way):
    return right.subtract(b, a, way)


def smaller_without_sign(a, b, _):
    return min(a, b, key=lambda sample: sample % 2**16)


def converted_to_zero(a, b, way):
    quotient = right.over_power(a, way.amount)
    if way.fmt == S16:
        return right.converted(a, b, way)
    return right.narrow(quotient, way.fmt, way.policy)


def passes_at_limit(threshold, sample):
    return right.passes(threshold, sample) or sample == threshold.limits[0]


def passes_below_upper(threshold, sample):
    return right.passes(threshold,
                        sample) and (len(threshold.limits) == 1 or sample < threshold.limits[1])


def next_entry(table, sample):
    return table.entries[(sample
                          - right.SAMPLES[table.fmt][0] + (table.fmt == S16)) % len(table.entries)]


def entry_from_zero(table, sample):
    return table.entries[sample % len(table.entries)]


def sum_wrapped(a, c, way):
    return right.wrap(c + a, way.fmt)


def shifted_before(a, c, way):
    """A sample is shifted before it is squared."""
    return right.clamp(c + (a // 2**way.amount)**2, way.fmt)


def sum_shifted(a, c, way):
    return right.clamp((c + a * a) // 2**way.amount, way.fmt)


def square_rounded_up(a, c, way):
    return right.clamp(c + rounded_up(a * a, way.amount), way.fmt)


def square_clamped(a, c, way):
    """A square is narrowed to S16 before it is added."""
    return right.clamp(c + right.clamp(a * a // 2**way.amount, way.fmt), way.fmt)


def sum_of_samples_from_zero(a, c, way):
    """Negative values count as 0."""
    return right.clamp(max(c, 0) + a, way.fmt)


FUNCTION_FAULTS = (
    Fault("Multiply rounds up", None, multiplied(rounded_up)),
    Fault("Multiply rounds down", None, multiplied(rounded_down)),
    Fault("Multiply rounds to the nearest", None, multiplied(to_the_nearest)),
    Fault("WRAP saturates", None, narrowed_by(right.clamp)),
    Fault("SATURATE wraps", None, narrowed_by(right.wrap)),
    Fault("Subtract takes in1 from in2", None, with_value(wire.SUBTRACT, difference_turned)),
    Fault("AbsoluteDifference wraps", None,
          with_value(wire.ABSOLUTE_DIFFERENCE, difference_wrapped)),
    Fault("MinPixel compares without the sign", None,
          with_value(wire.MIN_PIXEL, smaller_without_sign)),
    Fault("ConvertDepth rounds to zero", None, with_value(wire.CONVERT_DEPTH, converted_to_zero)),
    Fault("a threshold passes at its limit", None, {"passes": passes_at_limit}),
    Fault("a range ends before its upper limit", None, {"passes": passes_below_upper}),
    Fault("a table of S16 is one entry off", None, {"entry_for": next_entry}),
    Fault("a table begins with the entry for 0", None, {"entry_for": entry_from_zero}),
    Fault("Accumulate writes the sample", None,
          with_sum(wire.ACCUMULATE, lambda a, c, way: a)),
    Fault("Accumulate wraps", None, with_sum(wire.ACCUMULATE, sum_wrapped)),
    Fault("Accumulate adds to 0 where the sum is below", None,
          with_sum(wire.ACCUMULATE, sum_of_samples_from_zero)),
    Fault("Accumulate has an amount", None, with_row(wire.ACCUMULATE, greatest_amount=15)),
    Fault("AccumulateSquare shifts a sample before it is squared", None,
          with_sum(wire.ACCUMULATE_SQUARE, shifted_before)),
    Fault("AccumulateSquare shifts the sum", None, with_sum(wire.ACCUMULATE_SQUARE, sum_shifted)),
    Fault("AccumulateSquare rounds up", None,
          with_sum(wire.ACCUMULATE_SQUARE, square_rounded_up)),
    Fault("AccumulateSquare saturates the square", None,
          with_sum(wire.ACCUMULATE_SQUARE, square_clamped)),
    Fault("AccumulateSquare adds the sample", None,
          with_sum(wire.ACCUMULATE_SQUARE, right.accumulated)),
    Fault("AccumulateSquare has an amount of 16", None,
          with_row(wire.ACCUMULATE_SQUARE, greatest_amount=16)),
)
