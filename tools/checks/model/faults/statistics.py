"""Misreadings about statistics."""

from itertools import accumulate

from feqyldan import wire
from feqyldan.wire import HISTOGRAM, MIN_MAX_LOCATION, U32
from checks.model.faults.fault import Fault, right, whole_of, with_row
from checks.model.functions import EMPTY, IN1, OUT1
from checks.model.state import SET_VALID


def with_bin(bin_of):
    """A histogram whose bin is another function of the distance from the offset."""
    def bin_there(bins, sample):
        return None if right.bin_of(bins, sample) is None else bin_of(bins, sample - bins.offset)

    return {"bin_of": bin_there}


def bin_of_last(bins, sample):
    """Samples beyond the last bin count there."""
    if sample < bins.offset:
        return None
    return right.bin_of(bins, min(sample, bins.offset + bins.range - 1))


def bin_of_first(bins, sample):
    """Samples before the first bin count there."""
    return right.bin_of(bins, max(sample, bins.offset))


def bin_to_range(bins, sample):
    """The range is an end, not a length."""
    return right.bin_of(bins, sample) if sample < bins.range else None


def bin_with_end(bins, sample):
    return bins.bins - 1 if sample == bins.offset + bins.range else right.bin_of(bins, sample)


def histogram_added(node, things):
    distribution = right.histogram(node, things)[OUT1]
    counts = map(sum, zip(distribution.counts, things[OUT1].counts))
    return {OUT1: distribution._replace(counts=tuple(counts))}


def of_whole(gives):
    """A function that also uses samples that aren't valid."""
    return lambda node, things: gives(node,
                                      [things[IN1]._replace(valid=whole_of(things[IN1])),
                                       *things[1:]])


def unless_empty(gives):
    """A function that writes nothing if nothing is valid."""
    return lambda node, things: {} if things[IN1].valid == EMPTY else gives(node, things)


def nearest_bin(bins, distance):
    return min((2 * distance * bins.bins + bins.range) // (2 * bins.range), bins.bins - 1)


def with_sums(sum_at):
    """An integral image with another formula of the image and a valid pixel."""
    def gives(_, things):
        image = things[IN1]
        return {OUT1: right.made(U32, image.width, image.height, image.valid,
                                 lambda place: sum_at(image, place % image.width,
                                                      place // image.width))}

    return with_row(wire.INTEGRAL, gives=gives)


def sum_of(image, x, y):
    """Sums the valid samples strictly left of and above a pixel."""
    part = image.valid._replace(right=x, bottom=y)
    return sum(right.sample_at(image, x, y) for x, y in right.places(part))


def sum_of_row(image, x, y):
    return sum(right.sample_at(image, k, y) for k in range(image.valid.left, x + 1))


def saturated_row(above, samples):
    return [right.clamp(one + other, U32) for one, other in zip(above, accumulate(samples))]


def with_extremes(extremes_of):
    return {"extremes_of": extremes_of}


def extremes_at_last(samples, at):
    """Returns the last pixel with each extreme."""
    return right.extremes_of(samples[::-1], at[::-1])


def extremes_by_columns(samples, at):
    """Returns the first pixel with each extreme in column order."""
    found = sorted(zip(samples, at), key=lambda one: one[1])
    return right.extremes_of([sample for sample, _ in found], [place for _, place in found])


def extremes_from_start(samples, at):
    """Counts coordinates from the start of the valid rectangle."""
    left, top = at[0] if at else (0, 0)
    return right.extremes_of(samples, [(x - left, y - top) for x, y in at])


def extremes_without_sign(samples, at):
    order = {sample % 2**16: sample for sample in samples}
    found = right.extremes_of([sample % 2**16 for sample in samples], at)
    return found._replace(min=order[found.min], max=order[found.max]) if samples else found


def extremes_of_all_runs(node, things):
    found, before = right.extremes(node, things)[OUT1], things[OUT1]
    if before.min_count and before.min < found.min:
        found = found._replace(min=before.min, min_count=before.min_count, min_at=before.min_at)
    return {OUT1: found}


STATISTIC_FAULTS = (
    Fault("Histogram adds to what was counted before", None,
          with_row(HISTOGRAM, gives=histogram_added)),
    Fault("Histogram counts samples that aren't valid", SET_VALID,
          with_row(HISTOGRAM, gives=of_whole(right.histogram))),
    Fault("Histogram leaves the counts where nothing is valid", SET_VALID,
          with_row(HISTOGRAM, gives=unless_empty(right.histogram))),
    Fault("bins have a whole number of samples, rounded up", None,
          with_bin(lambda bins, distance: distance // -(-bins.range // bins.bins))),
    Fault("bins have a whole number of samples, rounded down", None,
          with_bin(lambda bins,
                   distance: min(distance // max(1, bins.range // bins.bins), bins.bins - 1))),
    Fault("a sample's bin is rounded to the nearest", None, with_bin(nearest_bin)),
    Fault("a sample beyond the range counts in the last bin", None, {"bin_of": bin_of_last}),
    Fault("a sample below the offset counts in the first bin", None, {"bin_of": bin_of_first}),
    Fault("a range is where the bins end", None, {"bin_of": bin_to_range}),
    Fault("the sample at a range's end counts", None, {"bin_of": bin_with_end}),
    Fault("Integral has the sums at all places", SET_VALID,
          with_row(wire.INTEGRAL, gives=of_whole(right.integral))),
    Fault("Integral leaves out a place's row and column", None, with_sums(sum_of)),
    Fault("Integral leaves out a place's row", None,
          with_sums(lambda image, x, y: sum_of(image, x + 1, y))),
    Fault("Integral begins anew in each row", None, with_sums(sum_of_row)),
    Fault("Integral has sums of 16 bits", None,
          with_sums(lambda image, x, y: sum_of(image, x + 1, y + 1) % 2**16)),
    Fault("Integral's sums saturate", None, {"row_of_sums": saturated_row}),
    Fault("MinMaxLoc tells the last places", None, with_extremes(extremes_at_last)),
    Fault("MinMaxLoc tells the first places by columns", None, with_extremes(extremes_by_columns)),
    Fault("MinMaxLoc counts places from the valid rectangle's start", SET_VALID,
          with_extremes(extremes_from_start)),
    Fault("MinMaxLoc compares without the sign", None, with_extremes(extremes_without_sign)),
    Fault("MinMaxLoc looks at samples that aren't valid", SET_VALID,
          with_row(MIN_MAX_LOCATION, gives=of_whole(right.extremes))),
    Fault("MinMaxLoc leaves the extremes where nothing is valid", SET_VALID,
          with_row(MIN_MAX_LOCATION, gives=unless_empty(right.extremes))),
    Fault("MinMaxLoc finds the least of all runs", None,
          with_row(MIN_MAX_LOCATION, gives=extremes_of_all_runs)),
)
