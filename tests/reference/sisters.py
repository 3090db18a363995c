"""02, request 7, "The sister boats": limits of the exact difference of two boats' premiums, and the program `sisters`."""
import re
from typing import NamedTuple

from .outcome import Refusal, Refused, refuse
from .ranges import UNIT
from .rating import rate, ranges_of
from .sheet import NUMERAL, Loading, load, text_lines
from .text import MOST_INPUT, box_ends, parted, printed


class Difference(NamedTuple):
    """Limits, in units, of what the second boat's premium is above the first one's."""
    low: int
    high: int


def rated(sheet, ends):
    """What rating a class comes to, "plain rating, uncut": its result, or its refusal."""
    try:
        return rate(sheet, list(ends))
    except Refused as refused:
        return refused.args[0]


class Sisters:
    """The request's rules as methods, so that a test can put one wrong rule in the place of a right one.

    `rated` can be lent, too: wrong rules rate the classes that the right ones do, so a test lends a function that remembers.
    """
    loading = Loading

    def __init__(self, rated=rated):
        self.rated = rated

    # ---- the limits

    def apart(self, first, second):
        """Each "factor's difference": the second boat's value less the first one's, whole numbers or fractions."""
        return [y - x for x, y in zip(first, second)]

    def least(self, slope, d):
        return min(slope.low * d, slope.high * d)

    def greatest(self, slope, d):
        return max(slope.low * d, slope.high * d)

    def least_sum(self, slopes, apart):
        """"the sum of the least [...] products of each slope's ends with that factor's difference"."""
        return sum(self.least(slope, d) for slope, d in zip(slopes, apart))

    def greatest_sum(self, slopes, apart):
        return sum(self.greatest(slope, d) for slope, d in zip(slopes, apart))

    def down(self, products):
        """A sum of products of units with units, in units, toward minus infinity."""
        return products // UNIT

    def up(self, products):
        return -(-products // UNIT)

    def limits(self, result, first, second):
        apart = self.apart(first, second)
        return Difference(self.down(self.least_sum(result.slopes, apart)), self.up(self.greatest_sum(result.slopes, apart)))

    # ---- the call

    def boats(self, factors, values):
        """The values of either boat, the first boat's first; 8 where there are not two numbers per factor."""
        if values is None or len(values) != 2 * factors:
            refuse(8, 0)
        return values[:factors], values[factors:]

    def outside(self, r, value):
        return not r.low <= value <= r.high

    def check_inside(self, ranges, first, second):
        """"both inside accepted ranges of one class": 9 at the lowest factor of which a boat's value is not."""
        for factor, (r, *values) in enumerate(zip(ranges, first, second), 1):
            if any(self.outside(r, value) for value in values):
                refuse(9, factor)

    def rated_class(self, sheet, ends):
        """The class's result, or its own refusal: 10, 8, 9, 11 or 12."""
        result = self.rated(sheet, tuple(ends))
        if isinstance(result, Refusal):
            refuse(*result)
        return result

    def call(self, sheet, ends, values):
        """The call: the class's own refusal first, then 8 and 9 of the boats."""
        result = self.rated_class(sheet, ends)
        first, second = self.boats(sheet.factors, values)
        self.check_inside(ranges_of(sheet, ends), first, second)
        return self.limits(result, first, second)

    # ---- the program

    def check_length(self, text):
        """The boat lines count, too."""
        if len(text) > MOST_INPUT:
            refuse(1, 0)

    def parts(self, text):
        """An input of `rate`, and the bytes of the boat lines: the first line `boats` that has its byte 10 parts them. None without such a line."""
        return parted(text, b"boats")

    def sheet(self, text):
        return load(parted(self.parts(text)[0])[0], rules=self.loading)

    def ends(self, text):
        """The numbers of the box lines, or 8 for a line of another form."""
        return box_ends(parted(self.parts(text)[0])[1])

    def values(self, text, factors):
        """The numbers of the boat lines, or None where these are of another form or number, which is no list of two numbers per factor."""
        lines, ended = text_lines(self.parts(text)[1] or b"")
        if not ended or len(lines) != 2:
            return None
        form = re.compile(rb"\t".join([NUMERAL] * factors))
        boats = [form.fullmatch(line) for line in lines]
        return None if None in boats else [int(value) for boat in boats for value in boat.groups()]

    def answer(self, text):
        self.check_length(text)
        sheet = self.sheet(text)
        return self.call(sheet, self.ends(text), self.values(text, sheet.factors))

    def run(self, text):
        """The limits or the refusal of an input."""
        try:
            return self.answer(text)
        except Refused as refused:
            return refused.args[0]


def difference_printed(answer):
    """The text of limits or of a refusal."""
    return printed(answer) if isinstance(answer, Refusal) else b"difference\t%d\t%d\n" % answer


def sisters_printed(text, rules=Sisters):
    """What the program prints."""
    return difference_printed(rules().run(text))
