"""Misreadings about window functions."""

from feqyldan import wire
from feqyldan.wire import CONSTANT, REPLICATE, S16, UNDEFINED
from checks.model.faults.fault import Fault, right, whole_of, with_row
from checks.model.faults.functions import rounded_down, rounded_up, to_the_nearest
from checks.model.functions import EMPTY, IN1, IN2, OUT1, OUTPUTS
from checks.model.state import SET_VALID


def with_window(number, value):
    """A 3x3 window function with another value."""
    return with_row(number, gives=right.windowed(value))


def cross_of(nine):
    """Uses the middle sample and its four neighbours."""
    return [nine[k] for k in (1, 3, 4, 5, 7)]


def without_middle(nine):
    return [*nine[:4], *nine[5:]]


def median_of_rows(nine):
    return sorted(sorted(nine[k : k + 3])[1] for k in (0, 3, 6))[1]


def gaussian_by_steps(nine):
    """Rounds along rows, and then along columns."""
    above, there, below = (right.weighted(nine[k : k + 3], (1, 2, 1)) // 4 for k in (0, 3, 6))
    return (above + 2 * there + below) // 4


def with_gradients(gradient_x, gradient_y):
    return with_row(wire.SOBEL, gives=right.windowed(gradient_x, gradient_y))


def plain_gradient(nine):
    return right.weighted(nine, (-1, 0, 1, -1, 0, 1, -1, 0, 1))


def opposite(gradient):
    return lambda nine: -gradient(nine)


def size_of(gradient):
    return lambda nine: abs(gradient(nine))


def gradients_in_order(node, things):
    """The first output has gx, even if it should have gy."""
    written = [k for k in OUTPUTS if things[k] is not None]
    values = zip(written, (right.gradient_x, right.gradient_y))
    return {k: right.window_image(things[IN1], node.border, (1, 1), things[k].fmt, value)
            for k, value in values}


def convolved_to(result):
    """Convolve with another result, as a function of the sum, the exponent and the output's
    format."""
    def gives(node, things):
        convolution, fmt = things[IN2], things[OUT1].fmt
        weights = right.turned(convolution)
        radii = convolution.columns // 2, convolution.rows // 2

        def value(samples):
            return result(right.weighted(samples, weights), convolution.exponent, fmt)

        return {OUT1: right.window_image(things[IN1], node.border, radii, fmt, value)}

    return with_row(wire.CONVOLVE, gives=gives)


def divided_by(quotient):
    return convolved_to(lambda total, exponent, fmt: right.clamp(quotient(total, exponent), fmt))


def convolved_of_shorts(total, exponent, fmt):
    return right.clamp(right.over_power(right.wrap(total, S16), exponent), fmt)


def rows_of(convolution):
    columns = convolution.columns
    return [convolution.coefficients[k : k + columns]
            for k in range(0, columns * convolution.rows, columns)]


def turned_across(convolution):
    return [weight for row in rows_of(convolution) for weight in row[::-1]]


def turned_by_columns(convolution):
    """The coefficients are in column order."""
    rows = convolution.rows
    return [convolution.coefficients[column * rows + row] for row in range(rows)
            for column in range(convolution.columns)][::-1]


def look_from_image(mode):
    """With one mode the border begins only outside the image."""
    def look(image, border, x, y):
        return right.look(image._replace(valid=whole_of(image)) if border.mode == mode else image,
                          border, x, y)

    return {"look": look}


def mirrored(start, end, at):
    return 2 * start - at if at < start else 2 * (end - 1) - at if at >= end else at


def look_mirrored(image, border, x, y):
    left, top, end, bottom = image.valid
    if border.mode == REPLICATE:
        x, y = mirrored(left, end, x), mirrored(top, bottom, y)
    return right.look(image, border, x, y)


def look_at_zero(image, border, x, y):
    return right.look(image, border._replace(constant=0), x, y)


def valid_after_with(radii):
    """Other radii by which the rectangle shrinks."""
    return {"valid_after": lambda valid, border, *of: right.valid_after(valid, border, *radii(*of))}


def shrunk_by(mode):
    """The rectangle also shrinks with this mode."""
    def valid_after(valid, border, *radii):
        shrinking = border._replace(mode=UNDEFINED) if border.mode == mode else border
        return right.valid_after(valid, shrinking, *radii)

    return {"valid_after": valid_after}


def window_within_image(image, border, radii, fmt, value):
    """With UNDEFINED the rectangle shrinks from the sides of the image."""
    if border.mode != UNDEFINED:
        return right.window_image(image, border, radii, fmt, value)
    wide = right.window_image(image._replace(valid=whole_of(image)), border, radii, fmt, value)
    return right.confined(wide, right.meet(wide.valid, image.valid))


def window_of_constant(image, border, radii, fmt, value):
    """With CONSTANT an image without valid pixels has a border everywhere."""
    if border.mode != CONSTANT or image.valid != EMPTY:
        return right.window_image(image, border, radii, fmt, value)
    constant = value([border.constant] * ((2 * radii[0] + 1) * (2 * radii[1] + 1)))
    return right.made(fmt, image.width, image.height, whole_of(image), lambda _: constant)


WINDOW_FAULTS = (
    Fault("Box rounds to the nearest", None,
          with_window(wire.BOX, lambda nine: (sum(nine) + 4) // 9)),
    Fault("Box rounds up", None, with_window(wire.BOX, lambda nine: -(-sum(nine) // 9))),
    Fault("Box leaves out the middle", None,
          with_window(wire.BOX, lambda nine: sum(without_middle(nine)) // 8)),
    Fault("Gaussian rounds to the nearest", None,
          with_window(wire.GAUSSIAN,
                      lambda nine: (right.weighted(nine, (1, 2, 1, 2, 4, 2, 1, 2, 1)) + 8) // 16)),
    Fault("Gaussian rounds along rows and again along columns", None,
          with_window(wire.GAUSSIAN, gaussian_by_steps)),
    Fault("Median is the median of the rows' medians", None,
          with_window(wire.MEDIAN, median_of_rows)),
    Fault("Median is the fourth by size", None,
          with_window(wire.MEDIAN, lambda nine: sorted(nine)[3])),
    Fault("Median is the sixth by size", None,
          with_window(wire.MEDIAN, lambda nine: sorted(nine)[5])),
    Fault("Erode looks at a cross", None,
          with_window(wire.ERODE, lambda nine: min(cross_of(nine)))),
    Fault("Erode leaves out the middle", None,
          with_window(wire.ERODE, lambda nine: min(without_middle(nine)))),
    Fault("Erode is the greatest", None, with_window(wire.ERODE, max)),
    Fault("Dilate looks at a cross", None,
          with_window(wire.DILATE, lambda nine: max(cross_of(nine)))),
    Fault("Dilate leaves out the middle", None,
          with_window(wire.DILATE, lambda nine: max(without_middle(nine)))),
    Fault("Dilate is the least", None, with_window(wire.DILATE, min)),
    Fault("Sobel's outputs are exchanged", None,
          with_gradients(right.gradient_y, right.gradient_x)),
    Fault("gx falls to the right", None,
          with_gradients(opposite(right.gradient_x), right.gradient_y)),
    Fault("gy falls to below", None, with_gradients(right.gradient_x, opposite(right.gradient_y))),
    Fault("gx weighs the three rows alike", None, with_gradients(plain_gradient, right.gradient_y)),
    Fault("Sobel gives no number below 0", None,
          with_gradients(size_of(right.gradient_x), size_of(right.gradient_y))),
    Fault("Sobel's only output is gx", None, with_row(wire.SOBEL, gives=gradients_in_order)),
    Fault("Convolve doesn't turn the coefficients", None,
          {"turned": lambda convolution: convolution.coefficients}),
    Fault("Convolve turns columns alone", None, {"turned": turned_across}),
    Fault("a convolution's coefficients stand by columns", None, {"turned": turned_by_columns}),
    Fault("Convolve rounds down", None, divided_by(rounded_down)),
    Fault("Convolve rounds up", None, divided_by(rounded_up)),
    Fault("Convolve rounds to the nearest", None, divided_by(to_the_nearest)),
    Fault("Convolve doesn't divide", None, divided_by(lambda total, _: total)),
    Fault("Convolve divides by 2^15 at most", None,
          divided_by(lambda total, exponent: right.over_power(total, min(exponent, 15)))),
    Fault("Convolve wraps", None,
          convolved_to(lambda total, exponent,
                       fmt: right.wrap(right.over_power(total, exponent), fmt))),
    Fault("Convolve has sums of 16 bits", None, convolved_to(convolved_of_shorts)),
    Fault("REPLICATE counts from the image's ends", SET_VALID, look_from_image(REPLICATE)),
    Fault("CONSTANT counts from the image's ends", SET_VALID, look_from_image(CONSTANT)),
    Fault("REPLICATE mirrors", None, {"look": look_mirrored}),
    Fault("CONSTANT counts 0", None, {"look": look_at_zero}),
    Fault("UNDEFINED shrinks nothing", None, valid_after_with(lambda *_: (0, 0))),
    Fault("UNDEFINED shrinks by one place, whatever the window", None,
          valid_after_with(lambda *_: (1, 1))),
    Fault("UNDEFINED shrinks by rows across and by columns down", None,
          valid_after_with(lambda across, down: (down, across))),
    Fault("UNDEFINED shrinks by the window's whole sides", None,
          valid_after_with(lambda across, down: (2 * across, 2 * down))),
    Fault("UNDEFINED shrinks the image and not its rectangle", SET_VALID,
          {"window_image": window_within_image}),
    Fault("CONSTANT shrinks the rectangle", None, shrunk_by(CONSTANT)),
    Fault("REPLICATE shrinks the rectangle", None, shrunk_by(REPLICATE)),
    Fault("with CONSTANT the output of an image that is valid nowhere is wholly valid", SET_VALID,
          {"window_image": window_of_constant}),
)
