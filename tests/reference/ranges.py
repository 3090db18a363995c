"""01, "Range arithmetic". Ends are unlimited whole numbers of units; a step whose range passes the limit raises `PastLimit`."""
from math import isqrt
from typing import NamedTuple

from .outcome import unnoted

UNIT = 10_000
LIMIT = 2_000_000_000


class Range(NamedTuple):
    low: int
    high: int


ZERO = Range(0, 0)
ONE = Range(UNIT, UNIT)


class PastLimit(Exception):
    """An end of a range produced by the step `args[0]` passes the limit (refusal 12; its place is the caller's)."""


class Arithmetic:
    """The operations as methods, so that a test can put one wrong operation in the place of a right one.

    Each step that counts for refusal 12 has a name, for instance `mul.G`; `uncounted` is the step that a test leaves out.
    """
    uncounted = None

    def __init__(self, note=unnoted):
        self.note = note

    def kept(self, r, step):
        """The range a step produced, if no end of it passes the limit."""
        if (r.low < -LIMIT or r.high > LIMIT) and step != self.uncounted:
            raise PastLimit(step)
        if r.low == -LIMIT or r.high == LIMIT:
            self.note("an end at the limit itself")
        return r

    def down(self, dividend, divisor):
        """The quotient toward minus infinity."""
        return dividend // divisor

    def up(self, dividend, divisor):
        """The quotient toward plus infinity."""
        return -(-dividend // divisor)

    def root_up(self, x):
        """The square root, rounded up."""
        root = isqrt(x)
        return root if root * root == x else root + 1

    def sum(self, a, b, step):
        return self.kept(Range(a.low + b.low, a.high + b.high), step)

    def negation(self, a):
        return Range(-a.high, -a.low)

    def multiple(self, count, a, step):
        """A whole-number multiple, the number not negative."""
        return self.kept(Range(count * a.low, count * a.high), step)

    def product_ends(self, a, b):
        """A product that is no step of its own: one summand of a sum over factors."""
        ends = [x * y for x in a for y in b]
        return Range(self.down(min(ends), UNIT), self.up(max(ends), UNIT))

    def product(self, a, b, step):
        r = self.product_ends(a, b)
        if r.low < 0 and min(x * y for x in a for y in b) % UNIT:
            self.note("a negative low end rounded")
        return self.kept(r, step)

    def inverse(self, a):
        """Of a range without 0; its ends are at most 100,000,000."""
        self.note("inverse of a positive range" if a.low > 0 else "inverse of a negative range")
        return Range(self.down(UNIT * UNIT, a.high), self.up(UNIT * UNIT, a.low))

    def hull(self, a, b):
        """The least range that holds both."""
        return Range(min(a.low, b.low), max(a.high, b.high))

    def power_down(self, magnitude, e):
        """D: every step rounded down."""
        power = magnitude
        for _ in range(e - 1):
            power = self.down(power * magnitude, UNIT)
        return power

    def power_up(self, magnitude, e, step):
        """U: every step rounded up, and every step an end."""
        power = magnitude
        for _ in range(e - 1):
            power = self.up(power * magnitude, UNIT)
            self.kept(Range(0, power), step)
        return power

    def power(self, a, e, step):
        if e == 0:
            self.note("power 0")
            return ONE
        even = e % 2 == 0
        parity = "even" if even else "odd"
        if a.low >= 0:
            self.note(parity + " power, low end not negative")
            return Range(self.power_down(a.low, e), self.power_up(a.high, e, step))
        if a.high <= 0:
            self.note(parity + " power, high end not positive")
            least, most = self.power_down(-a.high, e), self.power_up(-a.low, e, step)
            return Range(least, most) if even else Range(-most, -least)
        self.note(parity + " power across 0")
        if even:
            return Range(0, self.power_up(max(-a.low, a.high), e, step))
        return Range(-self.power_up(-a.low, e, step), self.power_up(a.high, e, step))
