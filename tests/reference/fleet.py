"""02, request 3, "The fleet page": figures over a list of boats, and the program `fleet`."""
import re
from typing import NamedTuple

from .outcome import Refusal, Refused, refuse
from .rating import Result, Rules, rate
from .sheet import NUMERAL, Loading, load, text_lines
from .text import parted, printed

RECORD = 8  # "records, eight numbers each"
MOST_BOATS = 1000
MOST_INPUT = 102_400
BOAT_LINE = re.compile(rb"\t".join([NUMERAL] * RECORD))


class Report(NamedTuple):
    """The figures in the order in which they are printed. `range`, `divisor` and `limit` count the boats refused under 9, 11 and 12."""
    boats: int
    accepted: int
    range: int
    divisor: int
    limit: int
    low: int
    high: int
    greatest: int


def rated(sheet, ends, rules=Rules):
    """What a rating comes to: its result, or its refusal."""
    try:
        return rate(sheet, ends, rules)
    except Refused as refused:
        return refused.args[0]


class Fleet:
    """The request's rules as methods, so that a test can put one wrong rule in the place of a right one.

    `rated` can be lent, too: a test that meets one boat many times lends a function that remembers what it came to.
    """
    most_boats = MOST_BOATS
    loading = Loading

    def __init__(self, rated=rated):
        self.rated = rated

    # ---- the figures

    def point(self, sheet, boat):
        """"the first n are the factor values, the rest are ignored", and "both ends of every range at its value"."""
        return tuple(end for value in boat[:sheet.factors] for end in (value, value))

    def rating(self, sheet, boat):
        return self.rated(sheet, self.point(sheet, boat))

    def accepted(self, ratings):
        """The value ranges of the accepted boats by position, "from 1"."""
        return {position: rating.value for position, rating in enumerate(ratings, 1) if isinstance(rating, Result)}

    def refused_under(self, number, ratings):
        return sum(isinstance(rating, Refusal) and rating.number == number for rating in ratings)

    def summed(self, ratings):
        """The value ranges whose low and high ends are added up."""
        return list(self.accepted(ratings).values())

    def greatest(self, ratings):
        """"the position, from 1, of the first accepted boat with the greatest high end (0 if none)"."""
        accepted = self.accepted(ratings)
        most = max((value.high for value in accepted.values()), default=None)
        return next((position for position, value in accepted.items() if value.high == most), 0)

    def figures(self, ratings):
        values = self.summed(ratings)
        return Report(
            len(ratings), len(self.accepted(ratings)), *(self.refused_under(number, ratings) for number in (9, 11, 12)),
            sum(value.low for value in values), sum(value.high for value in values), self.greatest(ratings))

    def report(self, sheet, boats):
        """The call: "An empty desk gives 10 first, and a list of more than 1,000 boats [...] gets 14 with place 0 next"."""
        if sheet is None:
            refuse(10, 0)
        if len(boats) > self.most_boats:
            refuse(14, 0)
        return self.figures([self.rating(sheet, boat) for boat in boats])

    # ---- the program

    def parted(self, text):
        """The sheet's bytes, and those of the boat lines or None."""
        return parted(text, b"boats")

    def boats(self, text):
        """The records of the boat lines, or 14 where there is no line `boats` or one of them has another form."""
        if text is None:
            refuse(14, 0)
        lines, ended = text_lines(text)
        forms = [BOAT_LINE.fullmatch(line) for line in lines]
        if not ended or None in forms:
            refuse(14, 0)
        return [tuple(map(int, form.groups())) for form in forms]

    def listed(self, text):
        """The boats of a whole input, or 14. It has no say in what the sheet is refused for: loading comes first."""
        if len(text) > MOST_INPUT:
            refuse(14, 0)
        return self.boats(self.parted(text)[1])

    def run(self, text):
        """The report or the refusal of an input. The program reads one byte beyond the most there may be, which is enough: a sheet that is not
        refused with 1 for its length has ended by then, and the list is refused with 14."""
        try:
            sheet = load(self.parted(text)[0], rules=self.loading)
            return self.report(sheet, self.listed(text))
        except Refused as refused:
            return refused.args[0]


def fleet_printed(answer):
    """The text of a report or refusal: each figure behind its name."""
    if isinstance(answer, Refusal):
        return printed(answer)
    return "".join(f"{name}\t{figure}\n" for name, figure in answer._asdict().items()).encode()
