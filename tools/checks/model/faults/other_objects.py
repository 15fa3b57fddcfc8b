"""Misreadings about convolutions, distributions and extremes."""

from feqyldan.wire import (
    INVALID_DIMENSION, INVALID_PARAMETERS, INVALID_REFERENCE, INVALID_VALUE, S16)
from checks import model
from checks.model.faults.fault import Fault, at_once, right, with_fields, with_outcome
from checks.model.state import (
    CREATE_CONVOLUTION, CREATE_DISTRIBUTION, READ_DISTRIBUTION, READ_MIN_MAX)


def length_in(*allowed):
    """A convolution of other sizes."""
    def take(fields):
        length = fields.byte()
        model.refuse_if(length not in allowed, INVALID_DIMENSION)
        return length

    return {"take_length": take}


def length_as_value(fields):
    length = fields.byte()
    model.refuse_if(length not in (3, 5, 7, 9), INVALID_VALUE)
    return length


def exponent_to(greatest, code=INVALID_VALUE):
    def take(fields):
        exponent = fields.byte()
        model.refuse_if(exponent > greatest, code)
        return exponent

    return {"take_exponent": take}


def convolution_of_rows(fields):
    """Rows come before columns."""
    rows, columns = right.take_length(fields), right.take_length(fields)
    exponent = right.take_exponent(fields)
    return model.Convolution(columns, rows, exponent,
                             right.take_samples(fields, S16, columns * rows))


def number_refused(fields, least, greatest):
    number = fields.short()
    model.refuse_if(not least <= number <= greatest, INVALID_PARAMETERS)
    return number


def number_up_to_end(fields, least, greatest):
    number = fields.short()
    model.refuse_if(not least <= number <= greatest + 1, INVALID_VALUE)
    return number


def number_from_zero(fields, _, greatest):
    return right.take_number(fields, 0, greatest)


def number_below(fields, least, _):
    return right.take_number(fields, least, 255)


def bins_by_range(fields):
    bins, length = right.take_number(fields, 1, 256), right.take_number(fields, 1, 256)
    return model.Bins(bins, right.take_number(fields, 0, 255), length)


def bins_to_256(fields):
    """Bins don't extend beyond the samples of the format."""
    bins = right.take_bins(fields)
    model.refuse_if(bins.offset + bins.range > 256, INVALID_VALUE)
    return bins


def distribution_of_ones(bins):
    return model.Distribution(bins, (1,) * bins.bins)


def counts_without_bins(limits, state, name):
    return right.read_distribution(limits, state, name)[2:]


def counts_of_shorts(limits, state, name):
    body = right.read_distribution(limits, state, name)
    return body[:2] + b"".join(body[k + 2 : k + 4] for k in range(2, len(body), 4))


def read_and_clear(op, cleared):
    """A read returns the initial contents."""
    def read(limits, state, name):
        body = right.REQUESTS[op].outcome(limits, state, name)
        state.context.objects[name] = cleared(state.context.objects[name])
        return body

    return with_outcome(op, read)


def told_extremes(order):
    """ReadMinMax with the fields in another order, given as byte positions."""
    def read_min_max(limits, state, name):
        body = right.read_min_max(limits, state, name)
        return b"".join(body[start:end] for start, end in order)

    return with_outcome(READ_MIN_MAX, read_min_max)


def of_code(code):
    """An object of another kind has another code."""
    def object_of(context, name, kind):
        thing = context.objects.get(name)
        model.refuse_if(thing is not None and not isinstance(thing, kind), code)
        return right.object_of(context, name, kind)

    return {"object_of": object_of}


CONVOLUTION_FAULTS = tuple(Fault(words, CREATE_CONVOLUTION, changes) for words, changes in (
    ("a convolution may have even sides", length_in(*range(2, 10))),
    ("a convolution may have a side of 11", length_in(3, 5, 7, 9, 11)),
    ("a convolution has 7 rows and columns at most", length_in(3, 5, 7)),
    ("a convolution's sides are told as INVALID_VALUE", {"take_length": length_as_value}),
    ("an exponent is 15 at most", exponent_to(15)),
    ("an exponent may be 32", exponent_to(32)),
    ("an exponent is told as INVALID_PARAMETERS", exponent_to(31, INVALID_PARAMETERS)),
    ("a convolution that is cut short is told before its sides",
     with_fields(CREATE_CONVOLUTION, at_once(right.take_convolution, 3))),
    ("a convolution has its rows before its columns",
     with_fields(CREATE_CONVOLUTION, convolution_of_rows)),
))

STATISTIC_OBJECT_FAULTS = tuple(Fault(words, CREATE_DISTRIBUTION, changes) for words, changes in (
    ("bins that aren't allowed answer INVALID_PARAMETERS", {"take_number": number_refused}),
    ("a bins' number may be greater by one", {"take_number": number_up_to_end}),
    ("a bins' number may be 0", {"take_number": number_from_zero}),
    ("bins have numbers to 255", {"take_number": number_below}),
    ("bins have their range before their offset", with_fields(CREATE_DISTRIBUTION, bins_by_range)),
    ("bins may not go beyond 255", with_fields(CREATE_DISTRIBUTION, bins_to_256)),
    ("bins that are cut short are told before their numbers",
     with_fields(CREATE_DISTRIBUTION, at_once(right.take_bins, 6))),
    ("a new distribution isn't 0", {"new_distribution": distribution_of_ones}),
    ("ReadDistribution doesn't tell how many bins there are",
     with_outcome(READ_DISTRIBUTION, counts_without_bins)),
    ("ReadDistribution tells counts of two bytes",
     with_outcome(READ_DISTRIBUTION, counts_of_shorts)),
    ("ReadDistribution clears the counts",
     read_and_clear(READ_DISTRIBUTION, lambda found: right.new_distribution(found.bins))),
)) + tuple(Fault(words, right.CREATE_MIN_MAX, changes) for words, changes in (
    ("new extremes are the ends of S16",
     {"NO_EXTREMES": right.NO_EXTREMES._replace(min=32767, max=-32768)}),
    ("ReadMinMax tells the greatest first",
     told_extremes(((2, 4), (0, 2), (8, 12), (4, 8), (16, 20), (12, 16)))),
    ("ReadMinMax tells a place's row before its column",
     told_extremes(((0, 12), (14, 16), (12, 14), (18, 20), (16, 18)))),
    ("ReadMinMax clears the extremes", read_and_clear(READ_MIN_MAX, lambda _: right.NO_EXTREMES)),
    ("an object of another kind is told as INVALID_REFERENCE", of_code(INVALID_REFERENCE)),
))
