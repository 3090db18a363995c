"""02, request 6, "Classes cut finer": rating to a depth, and the program `cut`."""
import re

from .outcome import Refusal, Refused, refuse
from .ranges import Range
from .rating import Result, rate_ranges, ranges_of
from .sheet import NUMERAL, Loading, load
from .text import MOST_INPUT, box_ends, parted, printed

MOST_DEPTH = 6
NARROW = 2  # "when the widest range is under 2 units"
DEPTH_LINE = re.compile(rb"depth\t" + NUMERAL)


def rated(sheet, ranges):
    """What the rating of one part comes to, "as now": its result, or its refusal."""
    try:
        return rate_ranges(sheet, ranges)
    except Refused as refused:
        return refused.args[0]


def hull(a, b):
    return Range(min(a.low, b.low), max(a.high, b.high))


class Cutting:
    """The request's rules as methods, so that a test can put one wrong rule in the place of a right one.

    `rated` can be lent, too: the parts of wrong rules are mostly those of the right ones, so a test lends a function that remembers.
    """
    most_depth = MOST_DEPTH
    narrow = NARROW
    loading = Loading

    def __init__(self, rated=rated):
        self.rated = rated

    # ---- the parts

    def width(self, r):
        return r.high - r.low

    def widest(self, ranges):
        """"the widest range, the lowest factor on equal width"; factors are counted from 0 here."""
        widths = [self.width(r) for r in ranges]
        return widths.index(max(widths))

    def uncut(self, ranges, depth):
        """"At depth 0, or when the widest range is under 2 units, the ranges are rated as now"."""
        return depth == 0 or self.width(ranges[self.widest(ranges)]) < self.narrow

    def cut_point(self, r):
        """"half the sum of its ends, rounded down"."""
        return (r.low + r.high) // 2

    def parts(self, r):
        """The lower and the upper part of a range, "both parts keeping the cut point"."""
        at = self.cut_point(r)
        return Range(r.low, at), Range(at, r.high)

    def halves(self, ranges):
        """The ranges with the lower part of the widest one in its place, and with the upper part."""
        a = self.widest(ranges)
        return tuple((*ranges[:a], part, *ranges[a + 1:]) for part in self.parts(ranges[a]))

    def left(self, depth):
        """The depths that are left for the lower and for the upper half: "one depth fewer"."""
        return depth - 1, depth - 1

    # ---- the answer

    def rating(self, sheet, ranges, depth):
        """The result or the refusal of ranges that 8 and 9 are not due for: "each half is then treated in the same way"."""
        if self.uncut(ranges, depth):
            return self.rated(sheet, ranges)
        return self.both(*(self.rating(sheet, half, left) for half, left in zip(self.halves(ranges), self.left(depth))))

    def both(self, lower, upper):
        """"A refusal of the lower half comes before one of the upper"; without one, both are hulled."""
        if isinstance(lower, Refusal):
            return lower
        return upper if isinstance(upper, Refusal) else self.hulled(lower, upper)

    def hulled(self, lower, upper):
        """"The answer is the hull of both, end by end." The sets do not depend on the ranges, so both have the same."""
        slopes = tuple(self.hull_of(*pair) for pair in zip(lower.slopes, upper.slopes))
        value, bend, full = (self.hull_of(getattr(lower, field), getattr(upper, field)) for field in ("value", "bend", "full"))
        return Result(value, slopes, lower.depends, lower.bent, bend, full)

    def hull_of(self, a, b):
        return hull(a, b)

    def check_depth(self, depth):
        if not 0 <= depth <= self.most_depth:
            refuse(16, 0)

    def call(self, sheet, ends, depth):
        """The call: "A depth outside 0 to 6 gets 16 with place 0, between 10 and 8; 8 and 9 are checked on the uncut ranges"."""
        if sheet is None:
            refuse(10, 0)
        self.check_depth(depth)
        return self.rating(sheet, tuple(ranges_of(sheet, ends)), depth)

    # ---- the program

    def first_line(self, text):
        """The first line without its byte 10, and all that comes behind it: nothing where the input has no byte 10."""
        first, _, behind = text.partition(b"\n")
        return first, behind

    def check_length(self, text):
        """The first line counts, too."""
        if len(text) > MOST_INPUT:
            refuse(1, 0)

    def sheet(self, text):
        """The sheet, or the refusal of loading it, with places counted from the line behind the first."""
        return load(parted(self.first_line(text)[1])[0], rules=self.loading)

    def box(self, text):
        """The bytes of the box lines, or None where there is no line `box` behind the first line."""
        return parted(self.first_line(text)[1])[1]

    def depth(self, text):
        """The depth that the first line names, or 16; a line of another form counts as a depth outside 0 to 6."""
        form = DEPTH_LINE.fullmatch(self.first_line(text)[0])
        if form is None:
            refuse(16, 0)
        depth = int(form[1])
        self.check_depth(depth)
        return depth

    def ends(self, text):
        """The numbers of the box lines, or 8 for a line of another form."""
        return box_ends(self.box(text))

    def answer(self, text):
        self.check_length(text)
        sheet, depth = self.sheet(text), self.depth(text)
        return self.call(sheet, self.ends(text), depth)

    def run(self, text):
        """The result or the refusal of an input."""
        try:
            return self.answer(text)
        except Refused as refused:
            return refused.args[0]


def cut_printed(text, rules=Cutting):
    """What the program prints: as `rate` does."""
    return printed(rules().run(text))
