"""What a call gives when it gives no result, and how the rules tell which of them were used."""
from typing import NamedTuple


class Refusal(NamedTuple):
    """01, "Refusals": a number and a place."""
    number: int
    place: int


class Refused(Exception):
    """Raised by the first rule that refuses; `args[0]` is the refusal."""


def refuse(number, place):
    raise Refused(Refusal(number, place))


def unnoted(rule):
    """Takes note of no rule: the default of every `note` parameter."""
