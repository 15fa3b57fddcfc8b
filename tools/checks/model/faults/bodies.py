"""Misreadings of request bodies."""

from feqyldan.wire import INVALID_PARAMETERS, INVALID_REFERENCE, REPLICATE
from checks import model
from checks.model.faults.fault import Fault, at_once, right


class EndlessFields(model.Fields):
    def end(self):
        pass


def answer_context_first(limits, state, op, body):
    if op in model.STANDING and right.needs_context(op) and state.context is None:
        return INVALID_REFERENCE, b""
    return right.answer(limits, state, op, body)


def description_is(take):
    rows = {**right.REQUESTS,
            right.CREATE_IMAGE: right.REQUESTS[right.CREATE_IMAGE]._replace(take=take)}
    return {"take_description": take, "REQUESTS": rows}


def limit_unordered(fields, fmt, least=None):
    return right.take_limit(fields, fmt)


def amount_as_parameter(fields, function):
    amount = fields.byte()
    model.refuse_if(amount > (function.greatest_amount or 0), INVALID_PARAMETERS)
    return amount


def border_without_constant(fields):
    mode = fields.byte()
    model.refuse_if(mode > REPLICATE, INVALID_PARAMETERS)
    return model.Border(mode, fields.byte())


def operand_absent_by_name(fields, kind, may_be_absent):
    cell = right.take_cell(fields)
    is_fault = kind is not None and not may_be_absent if cell.name == 0 else kind is None
    model.refuse_if(is_fault, INVALID_PARAMETERS)
    return cell if cell.name else None


BODY_FAULTS = (
    Fault("a byte after the last field is passed over", None, {"Fields": EndlessFields}),
    Fault("a missing context is told before the fields", None, {"answer": answer_context_first}),
    Fault("a description that is cut short is told before its format", None,
          description_is(at_once(right.take_description, 5))),
    Fault("a side is 4096 at most", None, {"GREATEST_SIDE": 4096}),
    Fault("a side may be 8193", None, {"GREATEST_SIDE": 8193}),
    Fault("a range may end below its start", None, {"take_limit": limit_unordered}),
    Fault("an amount that is too great answers INVALID_PARAMETERS", None,
          {"take_amount": amount_as_parameter}),
    Fault("a constant without CONSTANT is passed over", None,
          {"take_border": border_without_constant}),
    Fault("an operand is absent by its name alone", None, {"take_operand": operand_absent_by_name}),
)
