"""01, "Sets and bends" and refusals 8 to 12, with requests 2, 4 and 9 of 02. Factors are counted from 0 here, and from 1 in refusals and in print.

A sheet of 2016 is rated by 01's table, one of 2014 by Table 2 of source document 001, which is written out apart: all they have in common is values,
slopes and depends-on sets, which are the same in both, and how sums over factors are rounded.
"""
from typing import NamedTuple

from .outcome import Refusal, Refused, refuse, unnoted
from .ranges import LIMIT, ONE, UNIT, ZERO, Arithmetic, PastLimit, Range
from .sheet import EARLIER, PRESENT

SPECIAL_LIMIT = 1_000_000_000  # of A, B and C (02, request 4)


class Line(NamedTuple):
    value: Range        # V
    slopes: tuple       # G, one range per factor
    depends: frozenset  # P
    bent: frozenset     # B
    bend: Range         # E


class Result(NamedTuple):
    value: Range
    slopes: tuple
    depends: frozenset
    bent: frozenset
    bend: Range
    full: Range


class Rules(Arithmetic):
    """The tables of both years. Every operation below counts its own ends (refusal 12), but for the summands of a sum over factors."""

    def __init__(self, factors, note=unnoted, year=PRESENT):
        super().__init__(note)
        self.factors = factors
        self.all_factors = frozenset(range(factors))
        self.year = year

    # ---- parts of 01's table

    def lift(self, bend, bent, larger):
        if bent == larger:
            self.note("lift to an equal set")
            return bend
        self.note("lift to a larger set")
        return self.hull(bend, ZERO)

    def join(self, a, a_bent, b, b_bent, step):
        if a_bent and b_bent and not a_bent & b_bent:
            self.note("join by hull")
            return self.hull(a, b)
        self.note("join by sum, sets overlap" if a_bent & b_bent else "join by sum, a set is empty")
        union = a_bent | b_bent
        return self.sum(self.lift(a, a_bent, union), self.lift(b, b_bent, union), step)

    def largest_squares(self, slopes, over):
        return [max(slopes[a].low ** 2, slopes[a].high ** 2) for a in over]

    def squares(self, slopes, over):
        """"the exact sum of the largest squares, divided by 10,000 and rounded up a single time" (02, request 2): no step of its own."""
        return self.up(sum(self.largest_squares(slopes, over)), UNIT)

    def sq(self, slopes, over, step):
        if len(over) == 1:
            self.note("Sq, one factor")
            (a,) = over
            return self.power(slopes[a], 2, step + ".one")
        self.note("Sq, more factors")
        return self.kept(Range(0, self.squares(slopes, over)), step + ".sum")

    def beta(self, g, h, over):
        """"the square root, rounded up, of the product of the two sums used in Sq", which are rounded already."""
        return self.root_up(self.squares(g, over) * self.squares(h, over))

    def products(self, g, h, over):
        """"the sum of the products", each rounded: no step of its own."""
        each = [self.product_ends(g[a], h[a]) for a in over]
        return Range(sum(p.low for p in each), sum(p.high for p in each))

    def cross(self, g, h, over):
        if len(over) == 1:
            self.note("Cross, one factor")
            (a,) = over
            return self.multiple(2, self.product(g[a], h[a], "mul.Cross.one.product"), "mul.Cross.one")
        beta = self.beta(g, h, over)
        self.note("Cross, more factors, root above 0" if beta else "Cross, more factors, root 0")
        around = self.kept(Range(-beta, beta), "mul.Cross.root")
        products = self.kept(self.products(g, h, over), "mul.Cross.products")
        return self.sum(products, around, "mul.Cross.sum")

    # ---- special cases of `mul` (02, request 4)

    def special_case(self, x, y):
        """The case of 000's Table 6 that a product is, 4, 7 or 10, or None: "lines whose depends-on sets are one factor each, different, at
        least one bent"."""
        if len(x.depends) != 1 or len(y.depends) != 1 or x.depends == y.depends:
            return None
        return {(True, False): 4, (False, True): 7, (True, True): 10}.get((bool(x.bent), bool(y.bent)))

    def special_bend(self, x, y):
        products = self.special_products(x, y)
        for name, r in zip("ABC", products):
            self.within(r, f"mul.{name}")
        for name, r in zip("ABC", products):
            if r.low == -SPECIAL_LIMIT:
                self.note(f"mul.{name}.low at 10^9 itself")
            if r.high == SPECIAL_LIMIT:
                self.note(f"mul.{name}.high at 10^9 itself")
        bend = self.eigenvalues(*products)
        self.note("special bend above 0" if bend.low > 0 else "special bend below 0" if bend.high < 0 else "special bend with 0")
        return self.kept(bend, "mul.special")

    def special_products(self, x, y):
        """A, B and C."""
        return self.product_ends(y.value, x.bend), self.product_ends(x.value, y.bend), self.product_ends(*self.own_slopes(x, y))

    def within(self, r, step):
        """"Refusal 12 is also given [...] when an end of A, B or C passes 1,000,000,000 units, either sign." The two ends are steps of their own,
        so that a test can leave out one of them."""
        for end, beyond in ((step + ".low", -r.low - SPECIAL_LIMIT), (step + ".high", r.high - SPECIAL_LIMIT)):
            if beyond > 0 and end != self.uncounted:
                if beyond == 1:
                    self.note(f"{end} a unit past 10^9")
                raise PastLimit(end)

    def own_slopes(self, x, y):
        """"the two slopes": each line's at its own factor, the only one that is not zero."""
        (i,), (j,) = x.depends, y.depends
        return x.slopes[i], y.slopes[j]

    def eigenvalues(self, a, b, c):
        """000's (4.21): of all symmetric two-by-two matrices with A and B on the diagonal and C beside it. R and R' are no ends."""
        most = self.largest_magnitude(c)
        low = self.half_down(a.low + b.low - self.special_root(a.low, b.low, most))
        high = self.half_up(a.high + b.high + self.special_root(a.high, b.high, most))
        return Range(low, high)

    def largest_magnitude(self, r):
        return max(abs(r.low), abs(r.high))

    def special_root(self, a, b, most):
        return self.root_up((a - b) ** 2 + 4 * most ** 2)

    def half_down(self, x):
        return self.down(x, 2)

    def half_up(self, x):
        return self.up(x, 2)

    # ---- values, slopes and depends-on sets, in either year

    def factor_slopes(self, i):
        return tuple(ONE if a == i else ZERO for a in range(self.factors))

    def added(self, x, y):
        value = self.sum(x.value, y.value, "add.V")
        return value, tuple(self.sum(g, h, "add.G") for g, h in zip(x.slopes, y.slopes)), x.depends | y.depends

    def shifted(self, x, c):
        return self.sum(x.value, Range(c, c), "addc.V"), x.slopes, x.depends

    def scaled(self, x, c):
        constant = Range(c, c)
        return self.product(constant, x.value, "mulc.V"), tuple(self.product(constant, g, "mulc.G") for g in x.slopes), x.depends

    def multiplied(self, x, y):
        value = self.product(x.value, y.value, "mul.V")
        slopes = tuple(
            self.sum(self.product(x.value, h, "mul.ViGj"), self.product(y.value, g, "mul.VjGi"), "mul.G")
            for g, h in zip(x.slopes, y.slopes))
        return value, slopes, x.depends | y.depends

    def raised(self, x, m):
        value = self.power(x.value, m, "pow.V")
        outer = self.power(x.value, m - 1, "pow.V^(m-1)")
        return value, tuple(self.multiple(m, self.product(outer, g, "pow.V^(m-1)G"), "pow.G") for g in x.slopes), x.depends

    def inverted(self, x):
        """The square of the line's own value, too."""
        value = self.inverse(x.value)
        square = self.power(value, 2, "inv.V^2")
        return (value, tuple(self.negation(self.product(square, g, "inv.G")) for g in x.slopes), x.depends), square

    # ---- the lines of 2016: 01's table

    def factor(self, i, r):
        return Line(r, self.factor_slopes(i), frozenset([i]), frozenset(), ZERO)

    def add(self, x, y):
        return Line(*self.added(x, y), x.bent | y.bent, self.join(x.bend, x.bent, y.bend, y.bent, "add.join"))

    def addc(self, x, c):
        return Line(*self.shifted(x, c), x.bent, x.bend)

    def mulc(self, x, c):
        return Line(*self.scaled(x, c), x.bent, self.product(Range(c, c), x.bend, "mulc.E"))

    def mul(self, x, y):
        plain = self.multiplied(x, y)
        case = self.special_case(x, y)
        if case:
            self.note(f"mul, case {case}")
        return Line(*plain, x.depends | y.depends, self.special_bend(x, y) if case else self.general_bend(x, y))

    def general_bend(self, x, y):
        both = x.depends | y.depends
        x_bend = self.product(y.value, x.bend, "mul.VjEi")
        y_bend = self.product(x.value, y.bend, "mul.ViEj")
        lifted = self.lift(self.join(x_bend, x.bent, y_bend, y.bent, "mul.join"), x.bent | y.bent, both)
        return self.sum(self.cross(x.slopes, y.slopes, both), lifted, "mul.E")

    def pow(self, x, m):
        plain = self.raised(x, m)
        squares = self.multiple(m - 1, self.sq(x.slopes, x.depends, "pow.Sq"), "pow.(m-1)Sq")
        lifted = self.lift(x.bend, x.bent, x.depends)
        inner = self.sum(squares, self.product(x.value, lifted, "pow.VE"), "pow.inner")
        once = self.product(self.power(x.value, m - 2, "pow.V^(m-2)"), inner, "pow.V^(m-2)inner")
        return Line(*plain, x.depends, self.multiple(m, once, "pow.E"))

    def inv(self, x):
        plain, square = self.inverted(x)
        value, _, _ = plain
        twice = self.multiple(2, self.product(value, self.sq(x.slopes, x.depends, "inv.Sq"), "inv.VSq"), "inv.2VSq")
        lifted = self.lift(x.bend, x.bent, x.depends)
        bend = self.product(square, self.sum(twice, self.negation(lifted), "inv.inner"), "inv.E")
        return Line(*plain, x.depends, bend)

    # ---- the lines of 2014: source document 001, Table 2, with (23) and (24), "with every line's bent set all factors"

    def published(self, plain, bend):
        """A line of Table 2, whose λ is 01's bend."""
        return Line(*plain, self.all_factors, bend)

    def lambda_s(self, slopes, step):
        """(23): "if n = 1", and not where a line depends on one factor."""
        if self.factors == 1:
            self.note("2014: Λs, n = 1")
            return self.power(slopes[0], 2, step + ".one")
        self.note("2014: Λs, n > 1")
        return self.kept(Range(0, self.squares(slopes, self.all_factors)), step)

    def lambda_t(self, g, h):
        """(24)."""
        if self.factors == 1:
            self.note("2014: Λt, n = 1")
            return self.multiple(2, self.product(g[0], h[0], "2014.mul.Λt.one.product"), "2014.mul.Λt.one")
        beta = self.beta(g, h, self.all_factors)
        self.note("2014: Λt, n > 1, root above 0" if beta else "2014: Λt, n > 1, root 0")
        around = self.kept(Range(-beta, beta), "2014.mul.Λt.root")
        products = self.kept(self.products(g, h, self.all_factors), "2014.mul.Λt.products")
        return self.sum(around, products, "2014.mul.Λt")

    def factor_2014(self, i, r):
        """var: [0, 0]."""
        return self.published((r, self.factor_slopes(i), frozenset([i])), ZERO)

    def add_2014(self, x, y):
        """add: λ_i + λ_j, "join as a plain sum"."""
        return self.published(self.added(x, y), self.sum(x.bend, y.bend, "2014.add"))

    def addc_2014(self, x, c):
        """addConst: λ_i."""
        return self.published(self.shifted(x, c), x.bend)

    def mulc_2014(self, x, c):
        """mulByConst: c λ_i."""
        return self.published(self.scaled(x, c), self.product(Range(c, c), x.bend, "2014.mulc"))

    def mul_2014(self, x, y):
        """mul: y_j λ_i + y_i λ_j + Λt(y'_i, y'_j); the first two are added first, as 01 does it."""
        plain = self.multiplied(x, y)
        crossed = self.lambda_t(x.slopes, y.slopes)
        scaled = self.sum(
            self.product(y.value, x.bend, "2014.mul.VjEi"), self.product(x.value, y.bend, "2014.mul.ViEj"), "2014.mul.VjEi+ViEj")
        return self.published(plain, self.sum(crossed, scaled, "2014.mul"))

    def pow_2014(self, x, m):
        """powNat: m y_i^(m-2) ((m-1) Λs(y'_i) + y_i λ_i)."""
        plain = self.raised(x, m)
        squares = self.multiple(m - 1, self.lambda_s(x.slopes, "2014.pow.Λs"), "2014.pow.(m-1)Λs")
        inner = self.sum(squares, self.product(x.value, x.bend, "2014.pow.VE"), "2014.pow.inner")
        once = self.product(self.power(x.value, m - 2, "2014.pow.V^(m-2)"), inner, "2014.pow.V^(m-2)inner")
        return self.published(plain, self.multiple(m, once, "2014.pow"))

    def inv_2014(self, x):
        """oneOver: y_k^2 (2 y_k Λs(y'_i) - λ_i)."""
        plain, square = self.inverted(x)
        value, _, _ = plain
        twice = self.multiple(2, self.product(value, self.lambda_s(x.slopes, "2014.inv.Λs"), "2014.inv.VΛs"), "2014.inv.2VΛs")
        inner = self.sum(twice, self.negation(x.bend), "2014.inv.inner")
        return self.published(plain, self.product(square, inner, "2014.inv"))

    # ---- a rating

    def row(self, name):
        """The rule of a line by the sheet's year."""
        return getattr(self, name + "_2014" if self.year == EARLIER else name)

    def factor_line(self, i, r):
        return self.row("factor")(i, r)

    def line(self, operation, lines):
        """The next line, or refusal 11 or 12 at its number."""
        name, numbers = operation
        place = len(lines) + 1
        x = lines[numbers[0] - 1]
        try:
            if name in ("add", "mul"):
                line = self.row(name)(x, lines[numbers[1] - 1])
            elif name in ("addc", "mulc", "pow"):
                line = self.row(name)(x, numbers[1])
            else:
                if x.value.low <= 0 <= x.value.high:
                    self.note("11: inverse of a range with 0")
                    refuse(11, place)
                line = self.row("inv")(x)
        except PastLimit as past:
            self.note("12 by " + past.args[0])
            raise Refused(Refusal(12, place)) from None
        self.note(("2014: line " if self.year == EARLIER else "line ") + name)
        return line

    def result(self, line):
        """"The full bend is E lifted to all factors", in 2014 over which every bend is."""
        full = line.bend if self.year == EARLIER else self.lift(line.bend, line.bent, self.all_factors)
        return Result(line.value, line.slopes, line.depends, line.bent, line.bend, full)


def ranges_of(sheet, ends, note=unnoted):
    """The ranges whose ends are a flat list, or refusal 8 or 9."""
    if len(ends) != 2 * sheet.factors:
        note("8: number")
        refuse(8, 0)
    ranges = [Range(*ends[2 * a:2 * a + 2]) for a in range(sheet.factors)]
    for factor, r in enumerate(ranges, 1):
        if r.low > r.high:
            note("9: low end above high end")
            refuse(9, factor)
        if r.low < -LIMIT or r.high > LIMIT:
            note("9: low end beyond the limit" if r.low < -LIMIT else "9: high end beyond the limit")
            refuse(9, factor)
    return ranges


def rate_ranges(sheet, ranges, rules=Rules, note=unnoted):
    """The result of ranges that 8 and 9 are not due for, or refusal 11 or 12."""
    table = rules(sheet.factors, note, sheet.year)
    lines = [table.factor_line(a, r) for a, r in enumerate(ranges)]
    for operation in sheet.operations:
        lines.append(table.line(operation, lines))
    return table.result(lines[-1])


def rate(sheet, ends, rules=Rules, note=unnoted):
    """The result of ranges, their ends as a flat list, against a sheet (None: the desk is empty), or the first refusal."""
    if sheet is None:
        refuse(10, 0)
    return rate_ranges(sheet, ranges_of(sheet, ends, note), rules, note)
