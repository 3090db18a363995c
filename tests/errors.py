"""Wrong rules, each in the place of a right one: the comparison has to tell them all from the right ones.

Of rating, the first five are the errors that 01 names at its end, then come the results "From the buyer" wants turned down, then other
readings of sentences that decide a result, near misses of 02's request 2, the sum of squares, of its request 4: of which products are
special cases, of their bends, and of what is refused; of its request 8, of a division by a sum and of the limit before it; and of its request 9,
of the bends and sets of 2014. Those of loading are near misses of request 5: of which lines are refused with 15, of its number and place, and of when
it comes; and of request 9: of which years are taken, of what else stands in a third field, and of when 17 comes. Those of tidying (request 1) are near
misses of what is used, what is kept, how it is renumbered and when the year is named; those of the fleet page (request 3), of what a boat is, of what
is counted, summed and compared, and of which lists are taken; those of classes cut finer (request 6), of which range is cut, where and how often, of
what is made of the two halves, of which depths are taken, and of the first line; those of sister boats (request 7), of which products are summed and
how the sums are rounded, of which boats are taken and when that is asked, and of the boat lines. Of these three the year can be forgotten, too.
Those of the committee's laws (request 11), some of which have another place above, break a law: with references exchanged they give something else,
or ranges inside accepted ones are refused or get wider limits.
Those of the C functions (request 10) are near misses of the code, of what is written and when, of which bytes of a class are empty, of which doubles
are whole numbers, of the order of refusals, and of the two records; class_errors.py has those of the class number and of the desk's four classes.
"""
import re
import struct
from math import isfinite, isqrt

from reference.cut import DEPTH_LINE, Cutting
from reference.fleet import MOST_INPUT, RECORD, Fleet, rated
from reference.outcome import Refusal, Refused, refuse, unnoted
from reference.quoting import DESK, ENTRY, HEAD, RANGES, RESULT, Quoting
from reference.ranges import LIMIT, UNIT, ZERO, PastLimit, Range
from reference.rating import SPECIAL_LIMIT, Result, Rules, ranges_of
from reference.sheet import (
    EARLIER, MOST_BYTES, MOST_FACTORS, NUMERAL, PRESENT, REFERENCES, Loading, Operation, load, sheet_text, sheet_text_with, text_lines)
from reference.sisters import Difference, Sisters
from reference.text import MOST_INPUT as MOST_RATED
from reference.text import parted
from reference.tidy import Tidying, last_line, operation_at
from years import THIRD_FIELD


# ---- rating

class TowardZero(Rules):
    """Dividing toward zero, so that a low end of -0.5 units becomes 0."""
    def down(self, dividend, divisor):
        quotient = abs(dividend) // abs(divisor)
        return quotient if dividend * divisor >= 0 else -quotient


class MultiplesLowered(Rules):
    """A multiple of the divisor below 0 divided to one less than its quotient."""
    def down(self, dividend, divisor):
        quotient = super().down(dividend, divisor)
        return quotient - 1 if quotient < 0 and dividend % divisor == 0 else quotient


class NothingAdded(Rules):
    """Rounding up without d - 1 in the sum, and so down."""
    def up(self, dividend, divisor):
        return self.down(dividend, divisor)


class AddedTooLittle(Rules):
    """Rounding up by a sum with d - 2."""
    def up(self, dividend, divisor):
        return self.down(dividend + abs(divisor) - 2 if divisor > 0 else dividend - abs(divisor) + 2, divisor)


class AddedTooMuch(Rules):
    """Rounding up by a sum with d, so that a multiple of the divisor is divided to one more than its quotient."""
    def up(self, dividend, divisor):
        return self.down(dividend, divisor) + 1


class LimitTowardZero(Rules):
    """The limit tested of a product's quotients toward zero, so that less than a unit past it is taken."""
    def product(self, a, b, step):
        if max(abs(x * y) for x in a for y in b) // UNIT <= LIMIT:
            r = self.product_ends(a, b)
            return Range(max(r.low, -LIMIT), min(r.high, LIMIT))
        return super().product(a, b, step)


class DividendAtLimit(Rules):
    """A product refused where its dividend reaches 10,000 times the limit."""
    def product(self, a, b, step):
        if max(abs(x * y) for x in a for y in b) >= LIMIT * UNIT:
            raise PastLimit(step)
        return super().product(a, b, step)


class SquareByEnds(Rules):
    """Squaring -1..2 by its ends."""
    def power(self, a, e, step):
        if a.low < 0 < a.high and e % 2 == 0 and e > 0:
            return Range(*sorted(self.power_up(abs(x), e, step) for x in a))
        return super().power(a, e, step)


class HullOfOverlap(Rules):
    """Hulling bends whose sets overlap."""
    def join(self, a, a_bent, b, b_bent, step):
        return self.hull(a, b) if a_bent & b_bent else super().join(a, a_bent, b, b_bent, step)


class BendForFull(Rules):
    """Printing the bend where the full bend belongs."""
    def result(self, line):
        return super().result(line)._replace(full=line.bend)


class RootDown(Rules):
    """Rounding β down."""
    def beta(self, g, h, over):
        return isqrt(self.squares(g, over) * self.squares(h, over))


class WholeLimit(Rules):
    """Bounds of the whole limit and both sets full for every class."""
    def result(self, line):
        span, full = Range(-LIMIT, LIMIT), frozenset(range(self.factors))
        return super().result(line)._replace(value=span, slopes=(span,) * self.factors, depends=full, bent=full, bend=span, full=span)


class FirstOperationCopied(Rules):
    """Slopes and bend worked out for the first operation only and copied on."""
    def line(self, operation, lines):
        line = super().line(operation, lines)
        first = lines[self.factors] if len(lines) > self.factors else line
        return line._replace(slopes=first.slopes, bend=first.bend)


class EarlyRefusal(Rules):
    """Refusal 12 before any end has passed the limit."""
    def kept(self, r, step):
        if r.low == -LIMIT or r.high == LIMIT:
            raise PastLimit(step)
        return super().kept(r, step)


class InventedPlace(Rules):
    """A refusal of rating placed at the text line and not at the codelist line."""
    def line(self, operation, lines):
        try:
            return super().line(operation, lines)
        except Refused as refused:
            refuse(refused.args[0].number, len(lines) - self.factors + 2)


class ExactConstant(Rules):
    """The constant of `mulc` taken as exact, one end rounded like the other."""
    def mulc(self, x, c):
        def scaled(r):
            return self.kept(Range(*sorted(self.down(c * end, UNIT) for end in r)), "mulc.V")
        return x._replace(value=scaled(x.value), slopes=tuple(map(scaled, x.slopes)), bend=scaled(x.bend))


class LinesOnly(Rules):
    """Only V, G and E of a line count as ends, not the ranges inside their formulas."""
    def kept(self, r, step):
        return r

    def line(self, operation, lines):
        line = super().line(operation, lines)
        for r in (line.value, *line.slopes, line.bend):
            if r.low < -LIMIT or r.high > LIMIT:
                refuse(12, len(lines) + 1)
        return line


class ProductsRoundedOnce(Rules):
    """The sum of the products in Cross rounded once, not each product."""
    def products(self, g, h, over):
        ends = [[x * y for x in g[a] for y in h[a]] for a in over]
        return Range(self.down(sum(map(min, ends)), UNIT), self.up(sum(map(max, ends)), UNIT))


class SquaresRoundedEach(Rules):
    """Each square rounded up, and the rounded ones added (the rule before request 2)."""
    def squares(self, slopes, over):
        return sum(self.up(square, UNIT) for square in self.largest_squares(slopes, over))


class SquaresRoundedEachInSq(Rules):
    """Each square rounded up in Sq, and their sum in Cross."""
    def sq(self, slopes, over, step):
        return SquaresRoundedEach(self.factors).sq(slopes, over, step)


class SquaresRoundedEachInCross(Rules):
    """Each square rounded up in Cross, and their sum in Sq."""
    def beta(self, g, h, over):
        return SquaresRoundedEach(self.factors).beta(g, h, over)


class SquaresOfHighEnds(Rules):
    """The squares of the high ends taken for the largest ones."""
    def largest_squares(self, slopes, over):
        return [slopes[a].high ** 2 for a in over]


class SquaresRoundedDown(Rules):
    """The exact sum of the squares rounded down."""
    def squares(self, slopes, over):
        return self.down(sum(self.largest_squares(slopes, over)), UNIT)


class RestsForgotten(Rules):
    """What the squares leave when each is divided by 10,000 taken for one unit at the most."""
    def squares(self, slopes, over):
        squares = self.largest_squares(slopes, over)
        return sum(square // UNIT for square in squares) + any(square % UNIT for square in squares)


class RootOfExactSums(Rules):
    """Cross's root taken of the exact sums of squares, rounded only then."""
    def beta(self, g, h, over):
        exact = sum(self.largest_squares(g, over)) * sum(self.largest_squares(h, over))
        return self.up(self.root_up(exact), UNIT)


class SquaresInCrossCount(Rules):
    """The two sums inside Cross taken for ends."""
    def cross(self, g, h, over):
        for slopes in (g, h):
            if len(over) > 1:
                self.kept(Range(0, self.squares(slopes, over)), "mul.Cross.squares")
        return super().cross(g, h, over)


class SquareForProduct(Rules):
    """`mul` of a line with itself taken for its second power."""
    def mul(self, x, y):
        line = super().mul(x, y)
        return line._replace(value=self.power(x.value, 2, "mul.V")) if x is y else line


class ProductForSquare(Rules):
    """Sq over one factor taken for the product of the slope with itself."""
    def sq(self, slopes, over, step):
        if len(over) == 1:
            (a,) = over
            return self.product(slopes[a], slopes[a], step)
        return super().sq(slopes, over, step)


class NoLift(Rules):
    """A bend kept as it is when its set grows."""
    def lift(self, bend, bent, larger):
        return bend


class ZeroInHull(Rules):
    """A bend over the same set hulled with zero."""
    def lift(self, bend, bent, larger):
        return self.hull(bend, ZERO)


class BentSetKept(Rules):
    """A power's bent set kept from the line it raises, where that has one."""
    def pow(self, x, m):
        return super().pow(x, m)._replace(bent=x.bent or x.depends)


class ZerothPowerOne(Rules):
    """Power 0 taken for one unit and not for the range one."""
    def power(self, a, e, step):
        return Range(1, 1) if e == 0 else super().power(a, e, step)


# ---- special cases of a product: which they are

class CasesNotApplied(Rules):
    """No product taken for a special case (01's rule before request 4)."""
    def special_case(self, x, y):
        return None


class CaseLeftOut(Rules):
    case = None

    def special_case(self, x, y):
        found = super().special_case(x, y)
        return None if found == self.case else found


class CaseFourLeftOut(CaseLeftOut):
    """Case 4 left out: of two lines of which the first one alone is bent."""
    case = 4


class CaseSevenLeftOut(CaseLeftOut):
    """Case 7 left out: of two lines of which the second one alone is bent."""
    case = 7


class CaseTenLeftOut(CaseLeftOut):
    """Case 10 left out: of two bent lines."""
    case = 10


class UnbentSpecial(Rules):
    """Two unbent lines taken for a special case."""
    def special_case(self, x, y):
        return len(x.depends) == len(y.depends) == 1 and x.depends != y.depends


class ZeroBendUnbent(Rules):
    """A line whose bend is 0 taken for unbent."""
    def special_case(self, x, y):
        return super().special_case(x, y) if (x.bend, y.bend) != (ZERO, ZERO) else None


class OneFactorSpecial(Rules):
    """Two lines of one and the same factor taken for a special case."""
    def special_case(self, x, y):
        return len(x.depends) == len(y.depends) == 1 and x.bent | y.bent


class BentSetsSpecial(Rules):
    """Bent sets of one factor each taken for depends-on sets of one factor each."""
    def special_case(self, x, y):
        ours, theirs = (line.bent or line.depends for line in (x, y))
        return len(ours) == len(theirs) == 1 and ours != theirs and x.bent | y.bent

    def own_slopes(self, x, y):
        (i,), (j,) = x.bent or x.depends, y.bent or y.depends
        return x.slopes[i], y.slopes[j]


class TwoFactorsSpecial(Rules):
    """Two factors together taken for one each."""
    def special_case(self, x, y):
        return len(x.depends | y.depends) == 2 and x.bent | y.bent

    def own_slopes(self, x, y):
        i, j = min(x.depends - y.depends or x.depends), min(y.depends - x.depends or y.depends)
        return x.slopes[i], y.slopes[j]


class SheetsOfTwoFactors(Rules):
    """Special cases looked for only where the sheet has two factors."""
    def special_case(self, x, y):
        return super().special_case(x, y) if self.factors == 2 else None


# ---- special cases of a product: their bends

class HalvesTowardZero(Rules):
    """Both halves rounded toward zero."""
    def half_down(self, x):
        return x // 2 if x >= 0 else -(-x // 2)

    half_up = half_down


class HalvesAwayFromZero(Rules):
    """Both halves rounded away from zero."""
    def half_down(self, x):
        return -(-x // 2) if x >= 0 else x // 2

    half_up = half_down


class LowHalfUp(Rules):
    """The low end's half rounded up."""
    def half_down(self, x):
        return super().half_up(x)


class HighHalfDown(Rules):
    """The high end's half rounded down."""
    def half_up(self, x):
        return super().half_down(x)


class HalvesApart(Rules):
    """The halves of A + B and of the root rounded apart."""
    def eigenvalues(self, a, b, c):
        most = self.largest_magnitude(c)
        low = self.half_down(a.low + b.low) - self.half_up(self.special_root(a.low, b.low, most))
        high = self.half_up(a.high + b.high) + self.half_up(self.special_root(a.high, b.high, most))
        return Range(low, high)


class SpecialRootDown(Rules):
    """R and R' rounded down."""
    def special_root(self, a, b, most):
        return isqrt((a - b) ** 2 + 4 * most ** 2)


class TwiceForFourTimes(Rules):
    """2·M² in the place of 4·M²."""
    def special_root(self, a, b, most):
        return self.root_up((a - b) ** 2 + 2 * most ** 2)


class RootOfLowEnds(Rules):
    """R taken for R', which is that of the high ends."""
    def eigenvalues(self, a, b, c):
        root = self.special_root(a.low, b.low, self.largest_magnitude(c))
        return Range(self.half_down(a.low + b.low - root), self.half_up(a.high + b.high + root))


class HullAndMagnitude(Rules):
    """The hull of A and B, and M added on either side."""
    def eigenvalues(self, a, b, c):
        most = self.largest_magnitude(c)
        return Range(min(a.low, b.low) - most, max(a.high, b.high) + most)


class MagnitudeOfHighEnd(Rules):
    """M of C's high end only."""
    def largest_magnitude(self, r):
        return abs(r.high)


class SlopesRoundedInward(Rules):
    """C rounded inward, so that M is rounded down."""
    def special_products(self, x, y):
        a, b, _ = super().special_products(x, y)
        g, h = self.own_slopes(x, y)
        ends = [end * other for end in g for other in h]
        return a, b, Range(self.up(min(ends), UNIT), self.down(max(ends), UNIT))


class SlopeOfOtherFactor(Rules):
    """The second line's slope taken at the first one's factor."""
    def own_slopes(self, x, y):
        (i,) = x.depends
        return x.slopes[i], y.slopes[i]


class OwnValues(Rules):
    """Each bend multiplied by its own line's value."""
    def special_products(self, x, y):
        c = super().special_products(x, y)[2]
        return self.product_ends(x.value, x.bend), self.product_ends(y.value, y.bend), c


class ExtendedTable(Rules):
    """Case 4 by 000's extended table, which has V_j and E_i in the places of A and B."""
    def special_products(self, x, y):
        a, b, c = super().special_products(x, y)
        return (a, b, c) if y.bent else (y.value, x.bend, c)


# ---- special cases of a product: what is refused

class BillionNotTested(Rules):
    """A, B and C refused beyond 01's limit only."""
    def within(self, r, step):
        self.kept(r, step)


class BillionRefused(Rules):
    """An end of A, B or C at 1,000,000,000 units refused."""
    def within(self, r, step):
        if r.low == -SPECIAL_LIMIT or r.high == SPECIAL_LIMIT:
            raise PastLimit(step)
        super().within(r, step)


class BillionAndOneTaken(Rules):
    """An end of A, B or C one unit beyond 1,000,000,000 units taken for one at it."""
    def within(self, r, step):
        super().within(Range(r.low + 1, r.high - 1), step)


class BillionOfEveryProduct(Rules):
    """V_j·E_i and V_i·E_j of every product refused beyond 1,000,000,000 units."""
    def mul(self, x, y):
        self.within(self.product_ends(y.value, x.bend), "mul.A")
        self.within(self.product_ends(x.value, y.bend), "mul.B")
        return super().mul(x, y)


# Cross alone would not pass the limit: it is hardly more than C, which is within half of it. Its sum with A or B can.
class CrossCounted(Rules):
    """Cross worked out all the same, and what 01's rule makes of it counted."""
    def special_bend(self, x, y):
        self.general_bend(x, y)
        return super().special_bend(x, y)


class CrossForSlopes(Rules):
    """Cross, and not C, refused beyond 1,000,000,000 units."""
    def special_bend(self, x, y):
        self.within(self.cross(x.slopes, y.slopes, x.depends | y.depends), "mul.C")
        return super().special_bend(x, y)


class SpecialRootsCounted(Rules):
    """R and R' taken for ends."""
    def special_root(self, a, b, most):
        root = super().special_root(a, b, most)
        self.kept(Range(-root, root), "mul.root")
        return root


class SumWithinBillion(Rules):
    """A + B refused beyond 1,000,000,000 units, as A and B are."""
    def special_bend(self, x, y):
        a, b, _ = self.special_products(x, y)
        self.within(Range(a.low + b.low, a.high + b.high), "mul.A+B")
        return super().special_bend(x, y)


class BendWithinBillion(Rules):
    """The bend itself refused beyond 1,000,000,000 units."""
    def special_bend(self, x, y):
        bend = super().special_bend(x, y)
        self.within(bend, "mul.special")
        return bend


# ---- the year 2014 (02, request 9): these differ from the right rules in sheets of 2014 only

class YearForgotten(Rules):
    """A sheet of 2014 rated by the rules of 2016."""
    def __init__(self, factors, note=unnoted, year=PRESENT):
        super().__init__(factors, note, PRESENT)


class SparseIn2014(YearForgotten):
    """2016's bent sets, with lift and join, in 2014: only the result is lifted to all factors, and these are printed."""
    def special_case(self, x, y):
        return None

    def result(self, line):
        result = super().result(line)
        return result._replace(bent=self.all_factors, bend=result.full)


class OverOwnFactors(Rules):
    """Λs and Λt of a line told which factors it depends on."""
    over = frozenset()

    def mul_2014(self, x, y):
        self.over = x.depends | y.depends
        return super().mul_2014(x, y)

    def pow_2014(self, x, m):
        self.over = x.depends
        return super().pow_2014(x, m)

    def inv_2014(self, x):
        self.over = x.depends
        return super().inv_2014(x)


class SqOfOneFactorIn2014(OverOwnFactors):
    """Sq's one-factor rule in 2014 for a line that depends on one factor of more."""
    def lambda_s(self, slopes, step):
        return self.sq(slopes, self.over, step)


class CrossOfOneFactorIn2014(OverOwnFactors):
    """Cross's one-factor rule in 2014 for lines that depend on one and the same factor of more."""
    def lambda_t(self, g, h):
        return self.cross(g, h, self.over)


class OneForMoreFactors(Rules):
    """(23) and (24) for more factors than one where n = 1."""
    def lambda_s(self, slopes, step):
        return self.kept(Range(0, self.squares(slopes, self.all_factors)), step)

    def lambda_t(self, g, h):
        beta = self.beta(g, h, self.all_factors)
        return self.sum(Range(-beta, beta), self.products(g, h, self.all_factors), "2014.mul.Λt")


class SpecialIn2014(Rules):
    """Request 4 in 2014: for products of lines that depend on one factor each, different ones; all lines are bent."""
    def special_in_2014(self, x, y):
        return len(x.depends) == len(y.depends) == 1 and x.depends != y.depends

    def mul_2014(self, x, y):
        if self.special_in_2014(x, y):
            return self.published(self.multiplied(x, y), self.special_bend(x, y))
        return super().mul_2014(x, y)


class SpecialOfBendsIn2014(SpecialIn2014):
    """Request 4 in 2014 where, besides, at least one bend is not 0."""
    def special_in_2014(self, x, y):
        return super().special_in_2014(x, y) and (x.bend, y.bend) != (ZERO, ZERO)


class BillionIn2014(SpecialIn2014):
    """Request 4's refusal in 2014, and not its bend."""
    def mul_2014(self, x, y):
        if self.special_in_2014(x, y):
            self.special_bend(x, y)
        return Rules.mul_2014(self, x, y)


class HullIn2014(Rules):
    """The hull for the sum of two bends in 2014."""
    def add_2014(self, x, y):
        return super().add_2014(x, y)._replace(bend=self.hull(x.bend, y.bend))


class HullOfApartIn2014(Rules):
    """The hull for the sum of two bends in 2014 where the lines share no factor."""
    def add_2014(self, x, y):
        if x.depends & y.depends:
            return super().add_2014(x, y)
        return self.published(self.added(x, y), self.hull(x.bend, y.bend))


class HullInProductIn2014(Rules):
    """The hull of V_j·E_i and V_i·E_j in 2014 where the lines share no factor."""
    def mul_2014(self, x, y):
        if x.depends & y.depends:
            return super().mul_2014(x, y)
        scaled = self.hull(self.product(y.value, x.bend, "2014.mul.VjEi"), self.product(x.value, y.bend, "2014.mul.ViEj"))
        return self.published(self.multiplied(x, y), self.sum(self.lambda_t(x.slopes, y.slopes), scaled, "2014.mul"))


# Over more factors than one every bend of 2014 has 0 in it, by Λs and Λt, so that hulling it with zero changes nothing: n = 1 tells.
class LiftIn2014(Rules):
    """A bend of 2014 hulled with zero before a power or an inverse is made of its line."""
    def pow_2014(self, x, m):
        return super().pow_2014(x._replace(bend=self.hull(x.bend, ZERO)), m)

    def inv_2014(self, x):
        return super().inv_2014(x._replace(bend=self.hull(x.bend, ZERO)))


class FullLiftedIn2014(Rules):
    """The full bend of 2014 hulled with zero."""
    def result(self, line):
        return super().result(line)._replace(full=self.hull(line.bend, ZERO))


class AddedFromTheLeft(Rules):
    """A product's bend of 2014 added up from the left, Λt first: another sum counts as a step."""
    def mul_2014(self, x, y):
        left = self.sum(self.lambda_t(x.slopes, y.slopes), self.product(y.value, x.bend, "2014.mul.VjEi"), "2014.mul.left")
        return self.published(self.multiplied(x, y), self.sum(left, self.product(x.value, y.bend, "2014.mul.ViEj"), "2014.mul"))


class EachRoundedIn2014(Rules):
    """Each square rounded up in 2014, and request 2 in 2016 only."""
    def squares(self, slopes, over):
        return sum(self.up(square, UNIT) for square in self.largest_squares(slopes, over))


class RootOfExactSumsIn2014(Rules):
    """The root in Λt taken of the exact sums of squares, rounded only then."""
    def beta(self, g, h, over):
        exact = sum(self.largest_squares(g, over)) * sum(self.largest_squares(h, over))
        return self.up(self.root_up(exact), UNIT)


class SumsOnlyRounded(Rules):
    """The sum of the products in Λt rounded once, and not each product."""
    def products(self, g, h, over):
        ends = [[x * y for x in g[a] for y in h[a]] for a in over]
        return Range(self.down(sum(map(min, ends)), UNIT), self.up(sum(map(max, ends)), UNIT))


class ResultIn2014(Rules):
    """Another set in a result of 2014."""
    def sets(self, line):
        raise NotImplementedError

    def result(self, line):
        return super().result(line)._replace(**self.sets(line))


class LastFactorUnbent(ResultIn2014):
    """A bent set of 2014 without the last factor."""
    def sets(self, line):
        return {"bent": line.bent - {self.factors - 1}}


class LastFactorLeftOutIn2014(Rules):
    """Λs and Λt of 2014 over all factors but the last of more."""
    def squares(self, slopes, over):
        return super().squares(slopes, [a for a in over if a < self.factors - 1 or self.factors == 1])


class BentAsDependsOn(ResultIn2014):
    """The depends-on set printed for the bent set of 2014."""
    def sets(self, line):
        return {"bent": line.depends}


class DependsOnAll(ResultIn2014):
    """All factors for the depends-on set of 2014."""
    def sets(self, line):
        return {"depends": self.all_factors}


class SlopesDependOn(ResultIn2014):
    """The factors whose slopes are not 0 for the depends-on set of 2014."""
    def sets(self, line):
        return {"depends": frozenset(a for a, slope in enumerate(line.slopes) if slope != ZERO)}


class StraightLinesUnbent(Rules):
    """The bent set of a factor empty in 2014, and so those of sums and of lines with a constant, until a line bends."""
    def factor_2014(self, i, r):
        return super().factor_2014(i, r)._replace(bent=frozenset())

    def add_2014(self, x, y):
        return super().add_2014(x, y)._replace(bent=x.bent | y.bent)

    def addc_2014(self, x, c):
        return super().addc_2014(x, c)._replace(bent=x.bent)

    def mulc_2014(self, x, c):
        return super().mulc_2014(x, c)._replace(bent=x.bent)


YEAR_ERRORS = [
    YearForgotten, SparseIn2014, SqOfOneFactorIn2014, CrossOfOneFactorIn2014, OneForMoreFactors, SpecialIn2014, SpecialOfBendsIn2014, BillionIn2014,
    HullIn2014, HullOfApartIn2014, HullInProductIn2014, LiftIn2014, FullLiftedIn2014, AddedFromTheLeft, EachRoundedIn2014, RootOfExactSumsIn2014,
    SumsOnlyRounded, LastFactorUnbent, LastFactorLeftOutIn2014, BentAsDependsOn, DependsOnAll, SlopesDependOn, StraightLinesUnbent,
]


ERRORS = [
    TowardZero, SquareByEnds, HullOfOverlap, BendForFull, RootDown,
    WholeLimit, FirstOperationCopied, EarlyRefusal, InventedPlace,
    ExactConstant, LinesOnly, ProductsRoundedOnce, SquaresInCrossCount, SquareForProduct, ProductForSquare,
    SquaresRoundedEach, SquaresRoundedEachInSq, SquaresRoundedEachInCross, SquaresOfHighEnds, SquaresRoundedDown, RestsForgotten,
    RootOfExactSums,
    NoLift, ZeroInHull, BentSetKept, ZerothPowerOne,
    UnbentSpecial, OneFactorSpecial, BentSetsSpecial, TwoFactorsSpecial, BillionOfEveryProduct,
    MultiplesLowered, NothingAdded, AddedTooLittle, AddedTooMuch, LimitTowardZero, DividendAtLimit,
]

# Those that differ from the right rules in special cases of a product only.
SPECIAL_ERRORS = [
    CasesNotApplied, CaseFourLeftOut, CaseSevenLeftOut, CaseTenLeftOut, ZeroBendUnbent, SheetsOfTwoFactors,
    HalvesTowardZero, HalvesAwayFromZero, LowHalfUp, HighHalfDown, HalvesApart, SpecialRootDown, TwiceForFourTimes, RootOfLowEnds, HullAndMagnitude,
    MagnitudeOfHighEnd, SlopesRoundedInward, SlopeOfOtherFactor, OwnValues, ExtendedTable,
    BillionNotTested, BillionRefused, BillionAndOneTaken, CrossCounted, CrossForSlopes, SpecialRootsCounted, SumWithinBillion, BendWithinBillion,
]

# The ends of A, B and C, which are refused beyond 1,000,000,000 units (02, request 4).
SPECIAL_STEPS = ["mul.A.low", "mul.A.high", "mul.B.low", "mul.B.high", "mul.C.low", "mul.C.high"]

# The steps that can be the only one to pass the limit. The others never are: powers of V pass with V^m or at its start, and what is
# then doubled or taken m times passes with its multiple; the root and the sum of the products pass with their sum; the bend of a
# special case is at most M beyond A or B, and so within the limit.
STEPS = [
    "add.V", "add.G", "add.join", "addc.V", "mulc.V", "mulc.G", "mulc.E",
    "mul.V", "mul.ViGj", "mul.VjGi", "mul.G", "mul.VjEi", "mul.ViEj", "mul.join", "mul.Cross.one", "mul.Cross.sum", "mul.E", *SPECIAL_STEPS,
    "pow.V", "pow.G", "pow.(m-1)Sq", "pow.VE", "pow.inner", "pow.E",
    "inv.V^2", "inv.G", "inv.Sq.one", "inv.Sq.sum", "inv.2VSq", "inv.inner", "inv.E",
]

# Those of the bends of 2014. Λt over more factors is not among them: every bend over more factors has 0 in it, and so Λt's sum with others passes, too.
YEAR_STEPS = [
    "2014.add", "2014.mulc", "2014.mul.VjEi", "2014.mul.ViEj", "2014.mul.VjEi+ViEj", "2014.mul.Λt.one", "2014.mul",
    "2014.pow.(m-1)Λs", "2014.pow.VE", "2014.pow.inner", "2014.pow",
    "2014.inv.Λs.one", "2014.inv.Λs", "2014.inv.2VΛs", "2014.inv.inner", "2014.inv",
]


def uncounted(step):
    """The right rules but for one step, whose ends do not count."""
    return type("Uncounted", (Rules,), {"uncounted": step})


# ---- loading: multiplication by 0

class WrongLoading(Loading):
    rules = Rules  # those of the rating behind it


class TimesZeroTaken(WrongLoading):
    """`mulc` by 0 taken (01's rule before request 5)."""
    def check_multiplier(self, operation, codelist_line, place):
        pass


class PlusZeroRefused(WrongLoading):
    """`addc` by 0 refused, too."""
    def check_multiplier(self, operation, codelist_line, place):
        super().check_multiplier(operation._replace(name=operation.name.replace("addc", "mulc")), codelist_line, place)


class PowerZeroRefused(WrongLoading):
    """The exponent 0 refused with 15."""
    def check_exponent(self, operation, codelist_line, place):
        self.check_multiplier(operation._replace(name=operation.name.replace("pow", "mulc")), codelist_line, place)
        super().check_exponent(operation, codelist_line, place)


class FractionsRefused(WrongLoading):
    """A constant of less than 1, which is 10,000 units, taken for 0."""
    def check_multiplier(self, operation, codelist_line, place):
        super().check_multiplier(operation._replace(numbers=tuple(abs(number) // UNIT for number in operation.numbers)), codelist_line, place)


class NegativesRefused(WrongLoading):
    """A constant below 0 refused, too."""
    def check_multiplier(self, operation, codelist_line, place):
        super().check_multiplier(operation._replace(numbers=tuple(max(number, 0) for number in operation.numbers)), codelist_line, place)


class MinusZeroTaken(WrongLoading):
    """`-0` taken for 0, and refused with 15."""
    def sheet(self, text):
        return super().sheet(re.sub(rb"^(mulc\t[^\t\n]*\t)-0$", rb"\g<1>0", text, flags=re.MULTILINE))


class SomeTimesZero(WrongLoading):
    """Only some lines refused with 15, of a sheet that is refused for nothing else."""
    def found(self, sheet, line):
        raise NotImplementedError

    def sheet(self, text):
        try:
            sheet = TimesZeroTaken().sheet(text)
        except Refused:
            return super().sheet(text)
        for line, operation in enumerate(sheet.operations, sheet.factors + 1):
            if self.found(sheet, line):
                self.check_multiplier(operation, line, line - sheet.factors + 1)
        return sheet


class TimesZeroInUse(SomeTimesZero):
    """Only a line refused with 15 that the last line uses."""
    def found(self, sheet, line):
        return line in Tidying().used(sheet)


class TimesZeroAtTheEnd(SomeTimesZero):
    """Only the last line refused with 15."""
    def found(self, sheet, line):
        return line == last_line(sheet)


class FactorTimesZero(WrongLoading):
    """Only a factor times 0 refused, and no other line's."""
    def check_multiplier(self, operation, codelist_line, place):
        if operation.numbers[0] <= codelist_line - place + 1:
            super().check_multiplier(operation, codelist_line, place)


class LineTimesZero(WrongLoading):
    """Only an operation line times 0 refused, and no factor's."""
    def check_multiplier(self, operation, codelist_line, place):
        if operation.numbers[0] > codelist_line - place + 1:
            super().check_multiplier(operation, codelist_line, place)


# ---- loading: number and place of 15

class AnotherRefusal(WrongLoading):
    """Something else in the place of 15 and its text line."""
    def given(self, codelist_line, place):
        raise NotImplementedError

    def check_multiplier(self, operation, codelist_line, place):
        try:
            super().check_multiplier(operation, codelist_line, place)
        except Refused:
            refuse(*self.given(codelist_line, place))


class SevenForFifteen(AnotherRefusal):
    """7 in the place of 15."""
    def given(self, codelist_line, place):
        return 7, place


class FifteenAtZero(AnotherRefusal):
    """15 with place 0."""
    def given(self, codelist_line, place):
        return 15, 0


class FifteenInCodelist(AnotherRefusal):
    """15 placed at the codelist line and not at the text line."""
    def given(self, codelist_line, place):
        return 15, codelist_line


# ---- loading: when 15 comes

class FifteenBeforeLastByte(WrongLoading):
    """15 ahead of 2 for the missing byte 10."""
    def sheet(self, text):
        return super().sheet(re.sub(rb"(\nmulc\t[^\t\n]*\t0)\Z", rb"\1\n", text))


class FifteenBeforeForm(WrongLoading):
    """15 ahead of 2 for a field too many."""
    def sheet(self, text):
        return super().sheet(re.sub(rb"^(mulc\t[^\t\n]*\t0)\t[^\n]*$", rb"\1", text, flags=re.MULTILINE))


class FifteenBeforeFour(WrongLoading):
    """15 ahead of 4."""
    def check_number(self, operation, codelist_line, place):
        self.check_multiplier(operation, codelist_line, place)
        super().check_number(operation, codelist_line, place)


class FifteenBeforeFive(WrongLoading):
    """15 ahead of 5, and behind 4."""
    def check_references(self, operation, codelist_line, place):
        self.check_multiplier(operation, codelist_line, place)
        super().check_references(operation, codelist_line, place)


class FifteenAfterLines(WrongLoading):
    """15 looked for once every line is read: whatever a later line is refused for comes first."""
    def sheet(self, text):
        sheet = TimesZeroTaken().sheet(text)
        for line, operation in enumerate(sheet.operations, sheet.factors + 1):
            self.check_multiplier(operation, line, line - sheet.factors + 1)
        return sheet


class TimesZeroInRating(Rules):
    """15 given by rating, at its text line."""
    def line(self, operation, lines):
        Loading().check_multiplier(operation, len(lines) + 1, len(lines) - self.factors + 2)
        return super().line(operation, lines)


class FifteenInRating(TimesZeroTaken):
    """15 given by rating and not by loading: 8, 9 and whatever an earlier line is refused for come first."""
    rules = TimesZeroInRating


class TimesZeroInEarlier(WrongLoading):
    """`mulc` by 0 taken in 2014, and request 5 in 2016 only."""
    now = PRESENT

    def year(self, field):
        self.now = super().year(field)
        return self.now

    def check_multiplier(self, operation, codelist_line, place):
        if self.now == PRESENT:
            super().check_multiplier(operation, codelist_line, place)


# A constant or an exponent that is written 0 or -0. The wrong rules below are tried where there is one: elsewhere no more than two of them can differ
# from the right ones, those that refuse other constants, too.
ZERO_FIELD = re.compile(rb"^(?:addc|mulc|pow)\t[^\t\n]*\t-?0(?:\t|$)", re.MULTILINE)

LOADING_ERRORS = [
    TimesZeroTaken, PlusZeroRefused, PowerZeroRefused, FractionsRefused, NegativesRefused, MinusZeroTaken, TimesZeroInUse, TimesZeroAtTheEnd,
    FactorTimesZero, LineTimesZero, SevenForFifteen, FifteenAtZero, FifteenInCodelist, FifteenBeforeLastByte, FifteenBeforeForm, FifteenBeforeFour,
    FifteenBeforeFive, FifteenAfterLines, FifteenInRating, TimesZeroInEarlier,
]


# ---- loading: the year (02, request 9)

class SeventeenBeforeThree(WrongLoading):
    """17 ahead of 3."""
    def first_line(self, count, year):
        self.year(year)
        return super().first_line(count, year)


class SeventeenAfterLines(WrongLoading):
    """17 given once every line is read: whatever an operation line is refused for comes first, and 4 for want of one."""
    field = None

    def year(self, field):
        self.field = field
        return PRESENT

    def sheet(self, text):
        sheet = super().sheet(text)
        return sheet._replace(year=Loading.year(self, self.field))


class SeventeenAfterFour(WrongLoading):
    """4 for want of an operation line ahead of 17, and no other refusal."""
    def sheet(self, text):
        try:
            return super().sheet(text)
        except Refused as refused:
            if refused.args[0].number == 17 and text.count(b"\n") == 1:
                refuse(4, 1)
            raise


class SeventeenInRating(WrongLoading):
    """17 given by rating and not by loading: the sheet of another year loads."""
    def year(self, field):
        return PRESENT if field is None else int(field)

    class rules(Rules):
        def __init__(self, factors, note=unnoted, year=PRESENT):
            super().__init__(factors, note, year)
            if year not in (PRESENT, EARLIER):
                refuse(17, 1)


class YearRead(WrongLoading):
    """The year's numeral read otherwise."""
    def read(self, year):
        raise NotImplementedError

    def year(self, field):
        return super().year(None if field is None else self.read(int(field)))


class PresentRefused(YearRead):
    """2016 refused where it is named."""
    def read(self, year):
        return 0 if year == PRESENT else year


class EarlierRefused(YearRead):
    """2014 refused."""
    def read(self, year):
        return 0 if year == EARLIER else year


class YearsExchanged(YearRead):
    """2014 taken for 2016, and 2016, where it is named, for 2014."""
    def read(self, year):
        return {EARLIER: PRESENT, PRESENT: EARLIER}.get(year, year)


class EarlierIgnored(YearRead):
    """2014 taken for 2016."""
    def read(self, year):
        return PRESENT if year == EARLIER else year


class OthersPresent(YearRead):
    """Another numeral taken for 2016, so that 17 is not given."""
    def read(self, year):
        return year if year == EARLIER else PRESENT


class OthersEarlier(YearRead):
    """Another numeral taken for 2014."""
    def read(self, year):
        return year if year == PRESENT else EARLIER


class BetweenEarlier(YearRead):
    """2015 taken for 2014."""
    def read(self, year):
        return EARLIER if year == EARLIER + 1 else year


class BetweenPresent(YearRead):
    """2015 taken for 2016."""
    def read(self, year):
        return PRESENT if year == EARLIER + 1 else year


class BeforeEarlier(YearRead):
    """Years before 2014 taken for 2014, down to the year 1."""
    def read(self, year):
        return EARLIER if 1 <= year < EARLIER else year


class AfterPresent(YearRead):
    """Years after 2016 taken for 2016."""
    def read(self, year):
        return min(year, PRESENT)


class ZeroPresent(YearRead):
    """The year 0 taken for none."""
    def read(self, year):
        return year or PRESENT


class MinusIgnored(YearRead):
    """The minus sign of a year ignored."""
    def read(self, year):
        return abs(year)


class YearOf8Bits(YearRead):
    """The last 8 bits of a year looked at."""
    def read(self, year):
        return {EARLIER % 2 ** 8: EARLIER, PRESENT % 2 ** 8: PRESENT}.get(year % 2 ** 8, year)


class YearOf16Bits(YearRead):
    """The year kept in 16 bits."""
    def read(self, year):
        return year % 2 ** 16


class YearOf32Bits(YearRead):
    """The year kept in 32 bits."""
    def read(self, year):
        return year % 2 ** 32


class FourDigits(YearRead):
    """The first four digits of a year looked at."""
    def read(self, year):
        return int(str(year)[:4]) if year > 0 else year


class AnotherThanSeventeen(WrongLoading):
    """Something else in the place of 17 at text line 1."""
    instead = None

    def year(self, field):
        try:
            return super().year(field)
        except Refused:
            refuse(*self.instead)


class TwoForSeventeen(AnotherThanSeventeen):
    """2 in the place of 17."""
    instead = 2, 1


class ThreeForSeventeen(AnotherThanSeventeen):
    """3 in the place of 17."""
    instead = 3, 1


class SeventeenAtZero(AnotherThanSeventeen):
    """17 with place 0."""
    instead = 17, 0


class SeventeenForTwo(WrongLoading):
    """17 for a third field that is no numeral."""
    def sheet(self, text):
        found = re.match(rb"factors\t" + NUMERAL + rb"\t([^\t\n]*)\n", text)
        if found and not re.fullmatch(NUMERAL, found[2]):
            self.check_count(int(found[1]))
            refuse(17, 1)
        return super().sheet(text)


class FirstLineRewritten(WrongLoading):
    """A first line read as if it were written otherwise."""
    found, instead = b"", b""

    def sheet(self, text):
        line, ended, more = text.partition(b"\n")
        return super().sheet(re.sub(rb"\A(factors\t[^\t]*)" + self.found + rb"\Z", rb"\1" + self.instead, line) + ended + more)


class ThirdFieldIgnored(FirstLineRewritten):
    """All that stands behind the number of factors ignored, so that every sheet is of 2016."""
    found, instead = rb"\t.*", b""


class NoNumeralIgnored(FirstLineRewritten):
    """A third field that is no numeral ignored."""
    found, instead = rb"\t(?!(?:0|-?[1-9][0-9]{0,9})\Z)[^\t]*", b""


class EmptyYearIgnored(FirstLineRewritten):
    """An empty third field taken for none."""
    found, instead = rb"\t", b""


class YearZerosTaken(FirstLineRewritten):
    """Zeros before the year taken."""
    found, instead = rb"\t0+([1-9][0-9]*)", rb"\t\2"


class YearPlusTaken(FirstLineRewritten):
    """A plus sign before the year taken."""
    found, instead = rb"\t\+([0-9]+)", rb"\t\2"


class YearBlanksSkipped(FirstLineRewritten):
    """Blanks beside the year skipped."""
    found, instead = rb"\t *([0-9]+) *", rb"\t\2"


class YearTabsSkipped(FirstLineRewritten):
    """Two tabs before the year taken for one."""
    found, instead = rb"\t\t([0-9]+)", rb"\t\2"


class YearTabBehindSkipped(FirstLineRewritten):
    """A tab behind the year skipped."""
    found, instead = rb"\t([0-9]+)\t", rb"\t\2"


class YearByte13Skipped(FirstLineRewritten):
    """Byte 13 behind the year skipped."""
    found, instead = rb"\t([0-9]+)\r", rb"\t\2"


class YearByte0Skipped(FirstLineRewritten):
    """Byte 0 behind the year skipped."""
    found, instead = rb"\t([0-9]+)\x00", rb"\t\2"


class YearLettersIgnored(FirstLineRewritten):
    """What follows the digits of a year ignored."""
    found, instead = rb"\t([0-9]+)[^0-9\t][^\t]*", rb"\t\2"


class FourthFieldIgnored(FirstLineRewritten):
    """A fourth field ignored, whatever it is."""
    found, instead = rb"\t([0-9]+)\t[^\t]*", rb"\t\2"


class LastYearTaken(FirstLineRewritten):
    """The last of two years taken."""
    found, instead = rb"\t[0-9]+\t([0-9]+)", rb"\t\2"


class YearDigitsDropped(FirstLineRewritten):
    """Digits behind the tenth of a year dropped."""
    found, instead = rb"\t([0-9]{10})[0-9]+", rb"\t\2"


class SeventeenBeforeByte10(WrongLoading):
    """17 ahead of 2 for the missing byte 10."""
    def sheet(self, text):
        return super().sheet(text + b"\n" if re.fullmatch(rb"factors\t[1-8]\t" + NUMERAL, text) else text)


class AbsentEarlier(WrongLoading):
    """2014 taken where no year is named."""
    def year(self, field):
        return EARLIER if field is None else super().year(field)


# Those that can differ only where one of the two years is named, and those that can only where there is another third field, or none that is a year.
NAMED_YEAR_ERRORS = [PresentRefused, EarlierRefused, YearsExchanged, EarlierIgnored, ThirdFieldIgnored]

OTHER_FIELD_ERRORS = [
    SeventeenBeforeThree, SeventeenAfterLines, SeventeenAfterFour, SeventeenInRating,
    OthersPresent, OthersEarlier, BetweenEarlier, BetweenPresent, BeforeEarlier,
    AfterPresent, ZeroPresent, MinusIgnored, YearOf8Bits, YearOf16Bits, YearOf32Bits, FourDigits,
    TwoForSeventeen, ThreeForSeventeen, SeventeenAtZero, SeventeenForTwo,
    NoNumeralIgnored, EmptyYearIgnored, YearZerosTaken, YearPlusTaken, YearBlanksSkipped, YearTabsSkipped, YearTabBehindSkipped,
    YearByte13Skipped, YearByte0Skipped, YearLettersIgnored, FourthFieldIgnored, LastYearTaken, YearDigitsDropped, SeventeenBeforeByte10,
]

YEAR_LOADING_ERRORS = NAMED_YEAR_ERRORS + OTHER_FIELD_ERRORS


def year_errors_of(text):
    """Of the wrong readings of a third field those that can differ in a sheet that begins with these bytes."""
    line = text.partition(b"\n")[0]
    if not THIRD_FIELD.match(line):
        return []
    return NAMED_YEAR_ERRORS if line.split(b"\t", 2)[2] in (b"%d" % EARLIER, b"%d" % PRESENT) else OTHER_FIELD_ERRORS


# ---- tidying

class SecondOfProductUnused(Tidying):
    """The second reference of a product not followed."""
    def references(self, sheet, line):
        found = super().references(sheet, line)
        return found[:1] if found and operation_at(sheet, line).name == "mul" else found


class SecondOfSumUnused(Tidying):
    """The second reference of a sum not followed."""
    def references(self, sheet, line):
        found = super().references(sheet, line)
        return found[:1] if found and operation_at(sheet, line).name == "add" else found


class ExponentUsed(Tidying):
    """An exponent taken for a reference."""
    def references(self, sheet, line):
        if line > sheet.factors and operation_at(sheet, line).name == "pow":
            return [number for number in operation_at(sheet, line).numbers if number < line]
        return super().references(sheet, line)


class DirectUseOnly(Tidying):
    """Only direct use by the last line counted."""
    def used(self, sheet):
        last = last_line(sheet)
        return {last, *self.references(sheet, last)}


class TwoStepsOnly(Tidying):
    """Use followed through one other line, and no further."""
    def used(self, sheet):
        found = {last_line(sheet)}
        for _ in range(2):
            found |= {i for line in found for i in self.references(sheet, line)}
        return found


class NamedAtAll(Tidying):
    """A line dropped only where no line names it, so that a dead line keeps those it uses."""
    def used(self, sheet):
        return {last_line(sheet)} | {i for line in range(1, last_line(sheet) + 1) for i in self.references(sheet, line)}


class OperationsReplaced(Tidying):
    """A used line dropped, and another one used in its place."""
    def replaced(self, sheet, line):
        raise NotImplementedError

    def tidied(self, sheet):
        def replaced(i):
            return i if i <= sheet.factors else self.replaced(sheet, i)

        def changed(name, numbers):
            count = REFERENCES[name]
            return Operation(name, tuple(map(replaced, numbers[:count])) + numbers[count:])
        return super().tidied(sheet._replace(operations=tuple(changed(*operation) for operation in sheet.operations)))


class EqualLinesMerged(OperationsReplaced):
    """A used line dropped where an equal line precedes it."""
    def replaced(self, sheet, line):
        return sheet.factors + 1 + sheet.operations.index(operation_at(sheet, line))


class PlusZeroDropped(OperationsReplaced):
    """A used line dropped where it adds 0 to another."""
    def replaced(self, sheet, line):
        name, numbers = operation_at(sheet, line)
        return numbers[0] if name == "addc" and numbers[1] == 0 else line


class InversesKept(Tidying):
    """A dead inverse kept with what it uses, since it may be refused."""
    def used(self, sheet):
        found = super().used(sheet)
        for line in range(last_line(sheet), sheet.factors, -1):
            if line in found or operation_at(sheet, line).name == "inv":
                found |= {line, *self.references(sheet, line)}
        return found


class LastFactorDropped(Tidying):
    """The last factor dropped where it is unused."""
    def dropped(self, sheet):
        return {sheet.factors} - self.used(sheet)

    def kept(self, sheet):
        return [line for line in super().kept(sheet) if line not in self.dropped(sheet)]

    def tidied(self, sheet):
        return super().tidied(sheet)._replace(factors=sheet.factors - len(self.dropped(sheet)))


class UnusedFactorsDropped(LastFactorDropped):
    """Every unused factor dropped."""
    def dropped(self, sheet):
        return set(range(1, sheet.factors + 1)) - self.used(sheet)


class OldNumbers(Tidying):
    """References left with their old numbers."""
    def new_number(self, line, kept):
        return line


class SecondLeftOld(Tidying):
    """The second reference left with its old number."""
    def renumbered(self, operation, kept):
        name, numbers = super().renumbered(operation, kept)
        return Operation(name, numbers[:1] + operation.numbers[1:])


class LessAllDropped(Tidying):
    """A reference behind a dropped line lessened by the number of all dropped lines, not of those before it."""
    def new_number(self, line, kept):
        new = super().new_number(line, kept)
        return line if new == line else line - (max(kept) - len(kept))


class ExponentRenumbered(Tidying):
    """An exponent renumbered as a reference is."""
    def renumbered(self, operation, kept):
        name, numbers = super().renumbered(operation, kept)
        return Operation(name, tuple(self.new_number(number, kept) for number in operation.numbers) if name == "pow" else numbers)


class ReferencesSorted(Tidying):
    """The two references of a line written in rising order."""
    def renumbered(self, operation, kept):
        name, numbers = super().renumbered(operation, kept)
        return Operation(name, tuple(sorted(numbers)) if REFERENCES[name] == 2 else numbers)


# ---- tidying: the year

class YearAlwaysNamed(Tidying):
    """2016 named, too."""
    def tidied_text(self, text, loading=Loading):
        sheet = load(text, rules=loading)
        return sheet_text_with((sheet.year,), self.tidied(sheet))


class YearNeverNamed(Tidying):
    """No year named."""
    def tidied_text(self, text, loading=Loading):
        return sheet_text_with((), self.tidied(load(text, rules=loading)))


class YearAsItCame(Tidying):
    """The first line kept as it came, with 2016 where it is named."""
    def tidied_text(self, text, loading=Loading):
        return text.partition(b"\n")[0] + b"\n" + super().tidied_text(text, loading).partition(b"\n")[2]


class YearLostWithLines(Tidying):
    """The year named only where no line is dropped."""
    def tidied_text(self, text, loading=Loading):
        sheet = load(text, rules=loading)
        return sheet_text(self.tidied(sheet)) if self.tidied(sheet) == sheet else sheet_text_with((), self.tidied(sheet))


YEAR_TIDY_ERRORS = [YearAlwaysNamed, YearNeverNamed, YearAsItCame, YearLostWithLines]

TIDY_ERRORS = [
    SecondOfProductUnused, SecondOfSumUnused, ExponentUsed, DirectUseOnly, TwoStepsOnly, NamedAtAll, EqualLinesMerged, PlusZeroDropped,
    InversesKept, LastFactorDropped, UnusedFactorsDropped, OldNumbers, SecondLeftOld, LessAllDropped, ExponentRenumbered, ReferencesSorted,
]


# ---- the fleet page: a boat

class EightForN(Fleet):
    """All eight numbers of a boat taken for factor values."""
    def point(self, sheet, boat):
        return tuple(end for value in boat for end in (value, value))


class LastNumbers(Fleet):
    """The last n numbers taken and not the first."""
    def point(self, sheet, boat):
        return super().point(sheet, boat[RECORD - sheet.factors:])


class NumbersInPairs(Fleet):
    """The numbers taken two by two for the ends of ranges."""
    def point(self, sheet, boat):
        return boat[:2 * sheet.factors] if 2 * sheet.factors <= RECORD else super().point(sheet, boat)


class RecordsOfN(Fleet):
    """The next boat taken to begin behind the first n numbers of this one."""
    def report(self, sheet, boats):
        numbers, n = [number for boat in boats for number in boat], sheet.factors
        return super().report(sheet, [tuple(numbers[k:k + n]) for k in range(0, len(numbers) - n + 1, n)])


class RestChecked(Fleet):
    """A number past the first n refused where it is beyond the limit."""
    def rating(self, sheet, boat):
        return Refusal(9, 1) if any(abs(number) > LIMIT for number in boat) else super().rating(sheet, boat)


class LimitRefused(Fleet):
    """A factor value at the limit itself refused."""
    def rating(self, sheet, boat):
        return Refusal(9, 1) if LIMIT in map(abs, boat[:sheet.factors]) else super().rating(sheet, boat)


class OneBeyondTaken(Fleet):
    """A factor value one unit beyond the limit taken for one at the limit."""
    def point(self, sheet, boat):
        return super().point(sheet, [number - (number == LIMIT + 1) + (number == -LIMIT - 1) for number in boat])


# ---- the fleet page: counts and sums

class RefusedAccepted(Fleet):
    """A refused boat counted as accepted, too, with ends 0."""
    def figures(self, ratings):
        return super().figures(ratings)._replace(accepted=len(ratings))


class RangeForLimit(Fleet):
    """9 counted as 12, and 12 as 9."""
    def refused_under(self, number, ratings):
        return super().refused_under({9: 12, 12: 9}.get(number, number), ratings)


class RangeForDivisor(Fleet):
    """9 counted as 11, and 11 as 9."""
    def refused_under(self, number, ratings):
        return super().refused_under({9: 11, 11: 9}.get(number, number), ratings)


class DivisorForLimit(Fleet):
    """11 counted as 12, and 12 as 11."""
    def refused_under(self, number, ratings):
        return super().refused_under({11: 12, 12: 11}.get(number, number), ratings)


class RefusalOfThePage(Fleet):
    """The page refused with the first boat that is refused."""
    def figures(self, ratings):
        for rating in ratings:
            if isinstance(rating, Refusal):
                refuse(*rating)
        return super().figures(ratings)


class EndsLeftOver(Fleet):
    """The ends of the boat before a refused one added once more."""
    def summed(self, ratings):
        values = []
        for rating in ratings:
            values.append(rating.value if isinstance(rating, Result) else values[-1] if values else ZERO)
        return values


class CutOff(Rules):
    """Ends beyond the limit cut off at it, so that 12 does not come up."""
    def kept(self, r, step):
        return Range(max(r.low, -LIMIT), min(r.high, LIMIT))

    def power(self, a, e, step):
        return self.kept(super().power(a, e, step), step)

    def within(self, r, step):
        """A, B and C are not tested either."""


class RefusedSummed(Fleet):
    """A boat refused with 12 added all the same, its ends cut off at the limit."""
    def report(self, sheet, boats):
        report = super().report(sheet, boats)
        ratings = [self.rating(sheet, boat) for boat in boats]
        past = [boat for boat, rating in zip(boats, ratings) if isinstance(rating, Refusal) and rating.number == 12]
        added = self.summed([rated(sheet, self.point(sheet, boat), CutOff) for boat in past])
        return report._replace(low=report.low + sum(value.low for value in added), high=report.high + sum(value.high for value in added))


class HighEndsTwice(Fleet):
    """The high ends summed for the low ones."""
    def figures(self, ratings):
        report = super().figures(ratings)
        return report._replace(low=report.high)


class SumsOf32Bits(Fleet):
    """The sums kept in 32 bits."""
    def figures(self, ratings):
        report = super().figures(ratings)
        low, high = ((end + 2 ** 31) % 2 ** 32 - 2 ** 31 for end in (report.low, report.high))
        return report._replace(low=low, high=high)


# ---- the fleet page: the greatest

class LastGreatest(Fleet):
    """The last boat with the greatest high end, not the first."""
    def greatest(self, ratings):
        last = super().greatest(ratings[::-1])
        return len(ratings) + 1 - last if last else 0


class PositionFromZero(Fleet):
    """The position counted from 0."""
    def greatest(self, ratings):
        return max(super().greatest(ratings) - 1, 0)


class PositionAmongAccepted(Fleet):
    """The position counted among the accepted boats."""
    def greatest(self, ratings):
        return super().greatest([rating for rating in ratings if isinstance(rating, Result)])


class GreatestAboveZero(Fleet):
    """Only high ends above 0 taken for the greatest: the search begins with 0."""
    def greatest(self, ratings):
        return super().greatest([rating if isinstance(rating, Result) and rating.value.high > 0 else None for rating in ratings])


class RefusedGreatest(Fleet):
    """A refused boat, whose ends are 0, taken for the greatest."""
    def greatest(self, ratings):
        nothing = Result(ZERO, (), frozenset(), frozenset(), ZERO, ZERO)
        return super().greatest([rating if isinstance(rating, Result) else nothing for rating in ratings])


class GreatestLow(Fleet):
    """The greatest low end looked for, not the greatest high end."""
    def accepted(self, ratings):
        return {position: Range(value.low, value.low) for position, value in super().accepted(ratings).items()}

    def summed(self, ratings):
        return list(super().accepted(ratings).values())


# ---- the fleet page: the list

class ThousandRefused(Fleet):
    """A list of 1,000 boats refused."""
    most_boats = Fleet.most_boats - 1


class ThousandAndOneTaken(Fleet):
    """A list of 1,001 boats taken."""
    most_boats = Fleet.most_boats + 1


class FirstThousand(Fleet):
    """The first 1,000 boats of a longer list taken."""
    def report(self, sheet, boats):
        return super().report(sheet, boats[:self.most_boats])


class EmptyListRefused(Fleet):
    """An empty list refused with 14."""
    def boats(self, text):
        return super().boats(text or None)


class NoLineForEmptyList(Fleet):
    """No line `boats` taken for an empty list."""
    def boats(self, text):
        return super().boats(text or b"")


class ListBeforeSheet(Fleet):
    """14 ahead of the refusals of loading."""
    def run(self, text):
        try:
            if len(self.listed(text)) > self.most_boats:
                refuse(14, 0)
        except Refused as refused:
            return refused.args[0]
        return super().run(text)


class BytesBeforeSheet(Fleet):
    """14 for too many bytes, and only that, ahead of the refusals of loading."""
    def run(self, text):
        return Refusal(14, 0) if len(text) > MOST_INPUT else super().run(text)


class TooManyBytesOne(Fleet):
    """Too many bytes refused with 1, as `rate` does."""
    def run(self, text):
        return Refusal(1, 0) if len(text) > MOST_INPUT else super().run(text)


class BytesOfRate(Fleet):
    """As many bytes taken as `rate` takes."""
    def run(self, text):
        return Refusal(1, 0) if len(text) > MOST_RATED else super().run(text)


class LastLineParts(Fleet):
    """The last line `boats` taken for the end of the sheet, not the first."""
    def parted(self, text):
        before, parting, after = text.rpartition(b"\nboats\n")
        return (before + b"\n", after) if parting else super().parted(text)


class BlankLinesSkipped(Fleet):
    """Blank lines between the boats skipped."""
    def boats(self, text):
        return super().boats(None if text is None else re.sub(rb"^\n", b"", text, flags=re.MULTILINE))


class LastByteForgiven(Fleet):
    """A last boat line without its byte 10 taken."""
    def boats(self, text):
        return super().boats(text + b"\n" if text and not text_lines(text)[1] else text)


class Byte13Forgiven(Fleet):
    """Byte 13 before byte 10 dropped."""
    def boats(self, text):
        return super().boats(None if text is None else text.replace(b"\r\n", b"\n"))


class UnfinishedDropped(Fleet):
    """A last record of fewer than eight numbers dropped."""
    def boats(self, text):
        lines = (text or b"").split(b"\n")
        return super().boats(b"\n".join(lines[:-2] + lines[-1:]) if len(lines) > 1 and 0 < lines[-2].count(b"\t") < RECORD - 1 else text)


class NinthDropped(Fleet):
    """A ninth number and what follows it dropped."""
    def boats(self, text):
        if text is None:
            return super().boats(text)
        return super().boats(b"\n".join(b"\t".join(line.split(b"\t")[:RECORD]) for line in text.split(b"\n")))


class LooseNumerals(Fleet):
    """Signs and zeros in front, and more than ten digits, taken for numerals."""
    def boats(self, text):
        loose = rb"(?<![^\t\n])[+-]?[0-9]{1,20}(?![^\t\n])"
        most = 10 ** 10 - 1
        return super().boats(None if text is None else re.sub(loose, lambda found: b"%d" % max(-most, min(most, int(found[0]))), text))


# ---- the fleet page: multiplication by 0

class TimesZeroReported(Fleet):
    """A page of a sheet with `mulc` by 0."""
    loading = TimesZeroTaken


class TimesZeroUnusedReported(Fleet):
    """A page of a sheet with `mulc` by 0 in lines that the last one does not use."""
    loading = TimesZeroInUse


class ListBeforeTimesZero(Fleet):
    """15 given once the list is read: 14 ahead of it."""
    loading = TimesZeroTaken

    def report(self, sheet, boats):
        report = super().report(sheet, boats)
        load(sheet_text(sheet))
        return report


# ---- the fleet page: the year

class PageOfPresent(Fleet):
    """The boats of a sheet of 2014 rated by the rules of 2016."""
    def rating(self, sheet, boat):
        return super().rating(sheet._replace(year=PRESENT), boat)


class PageOfEarlier(Fleet):
    """All boats rated by the rules of 2014."""
    def rating(self, sheet, boat):
        return super().rating(sheet._replace(year=EARLIER), boat)


class FirstBoatOfEarlier(Fleet):
    """The first boat of a sheet of 2014 rated by its rules, and the others by those of 2016."""
    def report(self, sheet, boats):
        self.rated_now = 0
        return super().report(sheet, boats)

    def rating(self, sheet, boat):
        self.rated_now += 1
        return super().rating(sheet if self.rated_now == 1 else sheet._replace(year=PRESENT), boat)


class ListBeforeSeventeen(Fleet):
    """14 ahead of 17, and behind the other refusals of loading."""
    loading = OthersPresent

    def run(self, text):
        answer = super().run(text)
        return answer if isinstance(answer, Refusal) else Fleet(self.rated).run(text)


FLEET_ERRORS = [
    PageOfPresent, PageOfEarlier, FirstBoatOfEarlier, ListBeforeSeventeen,
    EightForN, LastNumbers, NumbersInPairs, RecordsOfN, RestChecked, LimitRefused, OneBeyondTaken,
    RefusedAccepted, RangeForLimit, RangeForDivisor, DivisorForLimit, RefusalOfThePage, EndsLeftOver, RefusedSummed, HighEndsTwice, SumsOf32Bits,
    LastGreatest, PositionFromZero, PositionAmongAccepted, GreatestAboveZero, RefusedGreatest, GreatestLow,
    ThousandRefused, ThousandAndOneTaken, FirstThousand, EmptyListRefused, NoLineForEmptyList, ListBeforeSheet, BytesBeforeSheet, TooManyBytesOne,
    BytesOfRate, LastLineParts, BlankLinesSkipped, LastByteForgiven, Byte13Forgiven, UnfinishedDropped, NinthDropped, LooseNumerals,
    TimesZeroReported, TimesZeroUnusedReported, ListBeforeTimesZero,
]


# ---- classes cut finer: the parts

class UpperFromNext(Cutting):
    """The upper part begun a unit above the cut point."""
    def parts(self, r):
        lower, upper = super().parts(r)
        return lower, upper._replace(low=upper.low + 1)


class LowerToBefore(Cutting):
    """The lower part ended a unit below the cut point."""
    def parts(self, r):
        lower, upper = super().parts(r)
        return lower._replace(high=lower.high - 1), upper


class CutTowardZero(Cutting):
    """Half the sum rounded toward zero."""
    def cut_point(self, r):
        return (r.low + r.high) // 2 if r.low + r.high >= 0 else -(-(r.low + r.high) // 2)


class CutRoundedUp(Cutting):
    """Half the sum rounded up."""
    def cut_point(self, r):
        return -(-(r.low + r.high) // 2)


def in_32_bits(number):
    return (number + 2 ** 31) % 2 ** 32 - 2 ** 31


class CutOf32Bits(Cutting):
    """The sum of the ends kept in 32 bits, and a cut point outside the range put at its nearer end."""
    def cut_point(self, r):
        return min(max(in_32_bits(r.low + r.high) // 2, r.low), r.high)


class WidthOf32Bits(Cutting):
    """The width kept in 32 bits."""
    def width(self, r):
        return in_32_bits(r.high - r.low)


class HighestOnEqualWidth(Cutting):
    """The highest factor cut on equal width."""
    def widest(self, ranges):
        return len(ranges) - 1 - super().widest(ranges[::-1])


class FirstFactorCut(Cutting):
    """Factor 1 cut, whatever the widths are."""
    def widest(self, ranges):
        return 0


class WidestOnceForAll(Cutting):
    """The widest of the uncut ranges cut again and again."""
    chosen = None

    def widest(self, ranges):
        if self.chosen is None:
            self.chosen = super().widest(ranges)
        return self.chosen


class FactorsInTurn(Cutting):
    """The factors cut in turn."""
    def rating(self, sheet, ranges, depth):
        self.turn = -depth % len(ranges)
        return super().rating(sheet, ranges, depth)

    def widest(self, ranges):
        return self.turn


class FarthestCut(Cutting):
    """The range cut that comes farthest from 0."""
    def widest(self, ranges):
        far = [max(abs(end) for end in r) for r in ranges]
        return far.index(max(far))


class TwoUnitsUncut(Cutting):
    """A widest range of 2 units not cut."""
    narrow = 3


class OneUnitCut(Cutting):
    """A widest range of 1 unit cut. The upper part is then the range itself, so that only a refusal of the lower one tells."""
    narrow = 1


class AnyNarrowUncut(Cutting):
    """Nothing cut where any range is under 2 units, and not the widest one."""
    def uncut(self, ranges, depth):
        return depth == 0 or min(map(self.width, ranges)) < self.narrow


# ---- classes cut finer: the depth

class OneTooMany(Cutting):
    """One depth too many."""
    def uncut(self, ranges, depth):
        return super().uncut(ranges, depth + 1)


class OneTooFew(Cutting):
    """One depth too few."""
    def uncut(self, ranges, depth):
        return super().uncut(ranges, max(depth - 1, 0))


class CutOnce(Cutting):
    """The halves not cut again."""
    def left(self, depth):
        return 0, 0


class LowerOnce(Cutting):
    """The lower half not cut again."""
    def left(self, depth):
        return 0, depth - 1


class UpperOnce(Cutting):
    """The upper half not cut again."""
    def left(self, depth):
        return depth - 1, 0


class DepthKept(Cutting):
    """The depth not falling in a half, where the ranges are narrow enough to be cut to the end."""
    few_units = 12
    narrow_now = False

    def uncut(self, ranges, depth):
        self.narrow_now = sum(map(self.width, ranges)) <= self.few_units
        return super().uncut(ranges, depth)


class LowerDepthKept(DepthKept):
    """The depth not falling in the lower half."""
    def left(self, depth):
        return depth - (not self.narrow_now), depth - 1


class UpperDepthKept(DepthKept):
    """The depth not falling in the upper half."""
    def left(self, depth):
        return depth - 1, depth - (not self.narrow_now)


# ---- classes cut finer: the answer

class UpperRefusalFirst(Cutting):
    """A refusal of the upper half ahead of one of the lower."""
    def both(self, lower, upper):
        return upper if isinstance(upper, Refusal) else super().both(lower, upper)


class EarlierLineFirst(Cutting):
    """Of two refusals the one at the earlier line, not the lower half's."""
    def both(self, lower, upper):
        if isinstance(lower, Refusal) and isinstance(upper, Refusal):
            return min(lower, upper, key=lambda refusal: refusal.place)
        return super().both(lower, upper)


class DivisorFirst(Cutting):
    """Of two refusals 11 ahead of 12, not the lower half's."""
    def both(self, lower, upper):
        if isinstance(lower, Refusal) and isinstance(upper, Refusal):
            return min(lower, upper, key=lambda refusal: refusal.number)
        return super().both(lower, upper)


class RefusedHalfLeftOut(Cutting):
    """A refused half left out, and the other one's answer given."""
    def both(self, lower, upper):
        return upper if isinstance(lower, Refusal) else lower if isinstance(upper, Refusal) else super().both(lower, upper)


class UncutRatedFirst(Cutting):
    """Refused where the uncut ranges are."""
    def call(self, sheet, ends, depth):
        answer = super().call(sheet, ends, depth)
        uncut = super().call(sheet, ends, 0)
        return uncut if isinstance(uncut, Refusal) else answer


class UncutRefusal(Cutting):
    """The refusal of the uncut ranges given, where a part is refused."""
    def call(self, sheet, ends, depth):
        answer = super().call(sheet, ends, depth)
        return super().call(sheet, ends, 0) if isinstance(answer, Refusal) else answer


class Intersected(Cutting):
    """What both halves have in common, and not the hull."""
    def hull_of(self, a, b):
        return Range(max(a.low, b.low), min(a.high, b.high))


class LowFromLower(Cutting):
    """The low ends from the lower half, and the high ones from the upper."""
    def hull_of(self, a, b):
        return Range(a.low, b.high)


class HulledWithZero(Cutting):
    """The hull begun with zero."""
    def hull_of(self, a, b):
        return Range(min(a.low, b.low, 0), max(a.high, b.high, 0))


class FieldsOfOneHalf(Cutting):
    """Some fields of one half alone."""
    half = None  # 0 the lower one, 1 the upper one
    fields = ()

    def hulled(self, lower, upper):
        one = (lower, upper)[self.half]
        return super().hulled(lower, upper)._replace(**{field: getattr(one, field) for field in self.fields})


class ValueOfLower(FieldsOfOneHalf):
    """The value of the lower half alone."""
    half, fields = 0, ("value",)


class ValueOfUpper(FieldsOfOneHalf):
    """The value of the upper half alone."""
    half, fields = 1, ("value",)


class SlopesOfLower(FieldsOfOneHalf):
    """The slopes of the lower half alone."""
    half, fields = 0, ("slopes",)


class SlopesOfUpper(FieldsOfOneHalf):
    """The slopes of the upper half alone."""
    half, fields = 1, ("slopes",)


class BendsOfLower(FieldsOfOneHalf):
    """Both bends of the lower half alone."""
    half, fields = 0, ("bend", "full")


class BendsOfUpper(FieldsOfOneHalf):
    """Both bends of the upper half alone."""
    half, fields = 1, ("bend", "full")


class FullOfLower(FieldsOfOneHalf):
    """The full bend of the lower half alone."""
    half, fields = 0, ("full",)


class FullOfUpper(FieldsOfOneHalf):
    """The full bend of the upper half alone."""
    half, fields = 1, ("full",)


class BendForFullHulled(Cutting):
    """The hulled bend given for the full bend."""
    def hulled(self, lower, upper):
        hulled = super().hulled(lower, upper)
        return hulled._replace(full=hulled.bend)


class FirstSlopeHulled(Cutting):
    """The first slope hulled, and the others of the lower half alone."""
    def hulled(self, lower, upper):
        hulled = super().hulled(lower, upper)
        return hulled._replace(slopes=hulled.slopes[:1] + lower.slopes[1:])


# ---- classes cut finer: which depths are taken, and when that is asked

class SevenTaken(Cutting):
    """Depth 7 taken."""
    most_depth = 7


class SixRefused(Cutting):
    """Depth 6 refused."""
    most_depth = 5


class ZeroRefused(Cutting):
    """Depth 0 refused."""
    def check_depth(self, depth):
        super().check_depth(depth or -1)


class NegativeTaken(Cutting):
    """A depth below 0 taken for 0."""
    def uncut(self, ranges, depth):
        return super().uncut(ranges, max(depth, 0))

    def check_depth(self, depth):
        super().check_depth(max(depth, 0))


class DepthReduced(Cutting):
    """Another number taken for the depth that is read."""
    def reduced(self, depth):
        raise NotImplementedError

    def check_depth(self, depth):
        super().check_depth(self.reduced(depth))

    def call(self, sheet, ends, depth):
        return super().call(sheet, ends, self.reduced(depth))


class AboveTakenForSix(DepthReduced):
    """A depth above 6 taken for 6."""
    def reduced(self, depth):
        return min(depth, self.most_depth)


class DepthOf8Bits(DepthReduced):
    """The depth kept in 8 bits."""
    def reduced(self, depth):
        return (depth + 2 ** 7) % 2 ** 8 - 2 ** 7


class DepthOf32Bits(DepthReduced):
    """The depth kept in 32 bits."""
    def reduced(self, depth):
        return in_32_bits(depth)


class SixteenAtOne(Cutting):
    """16 with place 1, the line that it is about."""
    def run(self, text):
        answer = super().run(text)
        return Refusal(16, 1) if answer == Refusal(16, 0) else answer


class SixteenBeforeLoading(Cutting):
    """16 ahead of the refusals of loading, and behind 1 for the whole input."""
    def sheet(self, text):
        self.depth(text)
        return super().sheet(text)


class SixteenBeforeLength(Cutting):
    """16 ahead of 1 for the whole input."""
    def check_length(self, text):
        if len(text) > MOST_RATED:
            self.depth(text)
        super().check_length(text)


class EightBeforeSixteen(Cutting):
    """8 ahead of 16."""
    def depth(self, text):
        if len(self.ends(text)) != 2 * self.sheet(text).factors:
            refuse(8, 0)
        return super().depth(text)


class FormBeforeSixteen(Cutting):
    """8 for box lines of another form ahead of 16, and 8 for their number behind it."""
    def depth(self, text):
        self.ends(text)
        return super().depth(text)


class NineBeforeSixteen(Cutting):
    """9 ahead of 16, and 8 behind it."""
    def depth(self, text):
        try:
            ranges_of(self.sheet(text), self.ends(text))
        except Refused as refused:
            if refused.args[0].number == 9:
                raise
        return super().depth(text)


class LinesBeforeSixteen(Cutting):
    """All that rating the uncut ranges is refused for ahead of 16."""
    def depth(self, text):
        answer = self.call(self.sheet(text), self.ends(text), 0)
        if isinstance(answer, Refusal):
            refuse(*answer)
        return super().depth(text)


class NineOfParts(Cutting):
    """9 looked for in each part, and not in the uncut ranges."""
    def call(self, sheet, ends, depth):
        self.check_depth(depth)
        if len(ends) != 2 * sheet.factors:
            refuse(8, 0)
        plain = self.rated

        def checked(sheet, ranges):
            try:
                ranges_of(sheet, [end for r in ranges for end in r])
            except Refused as refused:
                return refused.args[0]
            return plain(sheet, ranges)
        self.rated = checked
        return self.rating(sheet, tuple(Range(*ends[k:k + 2]) for k in range(0, len(ends), 2)), depth)


# ---- classes cut finer: the first line

class PlacesFromFirstLine(Cutting):
    """Places of loading's refusals counted from the first line."""
    def sheet(self, text):
        try:
            return super().sheet(text)
        except Refused as refused:
            number, place = refused.args[0]
            refuse(number, place and place + 1)


class FirstLineUncounted(Cutting):
    """The bytes of the first line not counted."""
    def check_length(self, text):
        super().check_length(self.first_line(text)[1])


class FirstLineInSheet(Cutting):
    """The bytes of the first line counted as the sheet's, too."""
    def sheet(self, text):
        first, behind = self.first_line(text)
        if len(first) + 1 + len(parted(behind)[0]) > MOST_BYTES:
            refuse(1, 0)
        return super().sheet(text)


class LengthAfterLoading(Cutting):
    """1 for the whole input behind the refusals of loading."""
    def check_length(self, text):
        self.sheet(text)
        super().check_length(text)


class SheetEndSoughtFirst(Cutting):
    """The line `box` looked for before the first line is cut off."""
    def sheet(self, text):
        return load(b"" if text.startswith(b"box\n") else parted(self.first_line(text)[1])[0])


class OtherForm(Cutting):
    """Something else made of a first line of another form."""
    def otherwise(self, first):
        raise NotImplementedError

    def depth(self, text):
        first, behind = self.first_line(text)
        return super().depth((first if DEPTH_LINE.fullmatch(first) else self.otherwise(first)) + b"\n" + behind)


class OtherFormZero(OtherForm):
    """A first line of another form taken for depth 0."""
    def otherwise(self, first):
        return b"depth\t0"


class OtherFormTwo(Cutting):
    """A first line of another form refused with 2 at 1, ahead of loading."""
    def sheet(self, text):
        if not DEPTH_LINE.fullmatch(self.first_line(text)[0]):
            refuse(2, 1)
        return super().sheet(text)


class OtherFormEight(OtherForm):
    """A first line of another form refused with 8, as box lines are."""
    def otherwise(self, first):
        refuse(8, 0)


class OtherFormFirst(Cutting):
    """16 for a first line of another form, and only for that, ahead of loading."""
    def sheet(self, text):
        if not DEPTH_LINE.fullmatch(self.first_line(text)[0]):
            refuse(16, 0)
        return super().sheet(text)


class NoFirstLineSixteen(Cutting):
    """16 where the input has no byte 10, and so nothing behind the first line."""
    def sheet(self, text):
        if b"\n" not in text:
            refuse(16, 0)
        return super().sheet(text)


class FirstLineLeftOut(Cutting):
    """An input of `rate`, without a line of its own for the depth, rated to depth 0."""
    def first_line(self, text):
        return (b"depth\t0", text) if text.startswith(b"factors\t") else super().first_line(text)


class TimesZeroRated(Cutting):
    """A class rated by a sheet with `mulc` by 0."""
    loading = TimesZeroTaken


class SixteenBeforeFifteen(Cutting):
    """16 ahead of 15, and behind the other refusals of loading."""
    loading = TimesZeroTaken

    def depth(self, text):
        depth = super().depth(text)
        Cutting().sheet(text)
        return depth


class SixteenBeforeSeventeen(Cutting):
    """16 ahead of 17, and behind the other refusals of loading."""
    loading = OthersPresent

    def depth(self, text):
        depth = super().depth(text)
        Cutting().sheet(text)
        return depth


class Rewritten(OtherForm):
    """A first line read as if it were written otherwise."""
    found, instead, flags = b"", b"", 0

    def otherwise(self, first):
        return re.sub(self.found, self.instead, first, flags=self.flags)


class ZerosInFrontTaken(Rewritten):
    """Zeros before the depth taken."""
    found, instead = rb"\A(depth\t-?)0+(?=[0-9])", rb"\1"


class MinusZeroDepth(Rewritten):
    """`-0` taken for depth 0."""
    found, instead = rb"\t-0\Z", rb"\t0"


class PlusTaken(Rewritten):
    """A plus sign before the depth taken."""
    found, instead = rb"\t\+", rb"\t"


class BlanksTaken(Rewritten):
    """Blanks taken for the tab."""
    found, instead = rb"\A(depth) +", rb"\1\t"


class BlanksAroundTaken(Rewritten):
    """Blanks around the depth skipped."""
    found, instead = rb"\t *([0-9]+) *\Z", rb"\t\1"


class TabsTaken(Rewritten):
    """Tabs taken for one."""
    found, instead = rb"\t+", rb"\t"


class CapitalsTaken(Rewritten):
    """`Depth` and `DEPTH` taken."""
    found, instead, flags = rb"\Adepth\t", rb"depth\t", re.IGNORECASE


class AnyWordTaken(Rewritten):
    """Any word before the depth taken."""
    found, instead = rb"\A[^\t]*\t", rb"depth\t"


class NoWordTaken(Rewritten):
    """The depth alone taken."""
    found, instead = rb"\A([0-9]+)\Z", rb"depth\t\1"


class Byte13Skipped(Rewritten):
    """Byte 13 before byte 10 dropped."""
    found, instead = rb"\r\Z", b""


class FieldsBehindIgnored(Rewritten):
    """What stands behind the depth and a tab ignored."""
    found, instead = rb"\A(depth\t[^\t]*)\t.*\Z", rb"\1"


class NoNumeralZero(Rewritten):
    """`depth` without a number taken for depth 0."""
    found, instead = rb"\Adepth\t?\Z", b"depth\t0"


class EmptyLineZero(Rewritten):
    """An empty first line taken for depth 0."""
    found, instead = rb"\A\Z", b"depth\t0"


# ---- classes cut finer: the year

class CutOfPresent(Cutting):
    """A class of 2014 rated by the rules of 2016."""
    def rating(self, sheet, ranges, depth):
        return super().rating(sheet._replace(year=PRESENT), ranges, depth)


class CutOfEarlier(Cutting):
    """Every class rated by the rules of 2014."""
    def rating(self, sheet, ranges, depth):
        return super().rating(sheet._replace(year=EARLIER), ranges, depth)


class UncutOfPresent(Cutting):
    """The year forgotten where nothing is cut."""
    def call(self, sheet, ends, depth):
        return super().call(sheet if depth else sheet._replace(year=PRESENT), ends, depth)


class PartsOfPresent(Cutting):
    """The year forgotten where a range is cut."""
    def call(self, sheet, ends, depth):
        return super().call(sheet._replace(year=PRESENT) if depth else sheet, ends, depth)


class HalfOfPresent(Cutting):
    """The year forgotten in one half."""
    half = None  # 0 the lower one, 1 the upper one

    def rating(self, sheet, ranges, depth):
        if self.uncut(ranges, depth):
            return self.rated(sheet, ranges)
        sheets = [sheet._replace(year=PRESENT) if half == self.half else sheet for half in (0, 1)]
        answers = [self.rating(now, part, left) for now, part, left in zip(sheets, self.halves(ranges), self.left(depth))]
        return self.both(*answers)


class LowerOfPresent(HalfOfPresent):
    """The year forgotten in the lower half; the printed sets are the upper one's."""
    half = 0

    def hulled(self, lower, upper):
        return super().hulled(lower, upper)._replace(bent=upper.bent)


class UpperOfPresent(HalfOfPresent):
    """The year forgotten in the upper half."""
    half = 1


CUT_ERRORS = [
    CutOfPresent, CutOfEarlier, UncutOfPresent, PartsOfPresent, LowerOfPresent, UpperOfPresent,
    UpperFromNext, LowerToBefore, CutTowardZero, CutRoundedUp, CutOf32Bits, WidthOf32Bits, HighestOnEqualWidth, FirstFactorCut, WidestOnceForAll,
    FactorsInTurn, FarthestCut, TwoUnitsUncut, OneUnitCut, AnyNarrowUncut,
    OneTooMany, OneTooFew, CutOnce, LowerOnce, UpperOnce, LowerDepthKept, UpperDepthKept,
    UpperRefusalFirst, EarlierLineFirst, DivisorFirst, RefusedHalfLeftOut, UncutRatedFirst, UncutRefusal,
    Intersected, LowFromLower, HulledWithZero, ValueOfLower, ValueOfUpper, SlopesOfLower, SlopesOfUpper, BendsOfLower, BendsOfUpper, FullOfLower,
    FullOfUpper, BendForFullHulled, FirstSlopeHulled,
]

# Those that differ from the right rules before a range is cut.
FIRST_LINE_ERRORS = [
    SevenTaken, SixRefused, ZeroRefused, NegativeTaken, AboveTakenForSix, DepthOf8Bits, DepthOf32Bits, SixteenAtOne,
    SixteenBeforeLoading, SixteenBeforeLength, EightBeforeSixteen, FormBeforeSixteen, NineBeforeSixteen, LinesBeforeSixteen, NineOfParts,
    PlacesFromFirstLine, FirstLineUncounted, FirstLineInSheet, LengthAfterLoading, SheetEndSoughtFirst,
    OtherFormZero, OtherFormTwo, OtherFormEight, OtherFormFirst, NoFirstLineSixteen, FirstLineLeftOut, TimesZeroRated, SixteenBeforeFifteen,
    SixteenBeforeSeventeen,
    ZerosInFrontTaken, MinusZeroDepth, PlusTaken, BlanksTaken, BlanksAroundTaken, TabsTaken, CapitalsTaken, AnyWordTaken, NoWordTaken, Byte13Skipped,
    FieldsBehindIgnored, NoNumeralZero, EmptyLineZero,
]


# ---- sister boats: the limits

class LowEndForLeast(Sisters):
    """The low end of a slope taken for the least product, whatever the sign of the difference."""
    def least(self, slope, d):
        return slope.low * d


class HighEndForGreatest(Sisters):
    """The high end of a slope taken for the greatest product, whatever the sign of the difference."""
    def greatest(self, slope, d):
        return slope.high * d


class HighEndForLeast(Sisters):
    """The high end of a slope taken for the least product."""
    def least(self, slope, d):
        return slope.high * d


class LowEndForGreatest(Sisters):
    """The low end of a slope taken for the greatest product."""
    def greatest(self, slope, d):
        return slope.low * d


class LeastAndGreatestExchanged(Sisters):
    """The sum of the greatest products for the low limit, and that of the least ones for the high."""
    def least(self, slope, d):
        return super().greatest(slope, d)

    def greatest(self, slope, d):
        return super().least(slope, d)


class OneSlopeEndForAll(Sisters):
    """The low end of every slope, or the high end of every slope: the less of the two sums, and the greater."""
    def sums(self, slopes, apart):
        return [sum(slope[end] * d for slope, d in zip(slopes, apart)) for end in (0, 1)]

    def least_sum(self, slopes, apart):
        return min(self.sums(slopes, apart))

    def greatest_sum(self, slopes, apart):
        return max(self.sums(slopes, apart))


class SomeFactors(Sisters):
    """Some factors left out of the sums."""
    left = slice(None)

    def least_sum(self, slopes, apart):
        return super().least_sum(slopes[self.left], apart[self.left])

    def greatest_sum(self, slopes, apart):
        return super().greatest_sum(slopes[self.left], apart[self.left])


class FirstFactorSummed(SomeFactors):
    """The first factor's products alone."""
    left = slice(1)


class LastFactorLeftOut(SomeFactors):
    """The last factor left out of the sums."""
    left = slice(-1)


class FirstFactorLeftOut(SomeFactors):
    """The first factor left out of the sums."""
    left = slice(1, None)


class LastFactorSummed(SomeFactors):
    """The last factor's products alone."""
    left = slice(-1, None)


class LowRoundedUp(Sisters):
    """The low limit rounded up."""
    def down(self, products):
        return self.up(products)


class HighRoundedDown(Sisters):
    """The high limit rounded down."""
    def up(self, products):
        return self.down(products)


class RoundedInward(Sisters):
    """The low limit rounded up, and the high one down."""
    def down(self, products):
        return super().up(products)

    def up(self, products):
        return super().down(products)


class LimitsTowardZero(Sisters):
    """Both limits rounded toward zero."""
    def down(self, products):
        return abs(products) // UNIT * (1 if products >= 0 else -1)

    up = down


class LimitsAwayFromZero(Sisters):
    """Both limits rounded away from zero."""
    def down(self, products):
        return -(-abs(products) // UNIT) * (1 if products >= 0 else -1)

    up = down


class LimitsToNearest(Sisters):
    """Both limits rounded to the nearest unit."""
    def down(self, products):
        return (products + UNIT // 2) // UNIT

    up = down


class LowLessOne(Sisters):
    """The low limit divided toward zero and lowered by a unit where it is below 0, rounded or not."""
    def down(self, products):
        return products // UNIT if products >= 0 else -(-products // UNIT) - 1


class HighPlusOne(Sisters):
    """The high limit divided and raised by a unit, rounded or not."""
    def up(self, products):
        return products // UNIT + 1


class ProductsRounded(Sisters):
    """Each product rounded by itself, and the rounded ones summed."""
    def least(self, slope, d):
        return super().down(super().least(slope, d))

    def greatest(self, slope, d):
        return super().up(super().greatest(slope, d))

    def down(self, products):
        return products

    up = down


class NotDivided(Sisters):
    """The sums not divided."""
    def down(self, products):
        return products

    up = down


class OtherWayRound(Sisters):
    """The first boat's value less the second one's."""
    def apart(self, first, second):
        return super().apart(second, first)


class MagnitudesApart(Sisters):
    """How far the values are apart, without the sign."""
    def apart(self, first, second):
        return [abs(d) for d in super().apart(first, second)]


class ApartOf32Bits(Sisters):
    """The differences kept in 32 bits."""
    def apart(self, first, second):
        return [in_32_bits(d) for d in super().apart(first, second)]


class SumsOfBits(Sisters):
    """The sums kept in fewer bits than they need."""
    def kept(self, total):
        raise NotImplementedError

    def least_sum(self, slopes, apart):
        return self.kept(super().least_sum(slopes, apart))

    def greatest_sum(self, slopes, apart):
        return self.kept(super().greatest_sum(slopes, apart))


class SumsOf64Bits(SumsOfBits):
    """The sums kept in 64 bits."""
    def kept(self, total):
        return (total + 2 ** 63) % 2 ** 64 - 2 ** 63


class SumsAtMost63Bits(SumsOfBits):
    """The sums held at the ends of 64 bits."""
    def kept(self, total):
        return max(-2 ** 63, min(total, 2 ** 63 - 1))


class SumsOf64BitsAndSign(SumsOfBits):
    """The sums kept in 64 bits beside the sign."""
    def kept(self, total):
        return abs(total) % 2 ** 64 * (1 if total >= 0 else -1)


class SumsWithinLimit(Sisters):
    """The limits held at twice the limit of 01, which no difference of two premiums passes."""
    def limits(self, result, first, second):
        return Difference(*(max(-2 * LIMIT, min(end, 2 * LIMIT)) for end in super().limits(result, first, second)))


class WithinValue(Sisters):
    """The limits no wider than the value's range allows, which holds of the exact difference, but is not asked for."""
    def limits(self, result, first, second):
        low, high = super().limits(result, first, second)
        width = result.value.high - result.value.low
        return Difference(max(low, -width), min(high, width))


class OfValueAlone(Sisters):
    """The limits that the value's range gives."""
    def limits(self, result, first, second):
        width = result.value.high - result.value.low
        return Difference(-width, width)


class WithZero(Sisters):
    """0 always inside the limits."""
    def limits(self, result, first, second):
        low, high = super().limits(result, first, second)
        return Difference(min(low, 0), max(high, 0))


class BothSigns(Sisters):
    """The limits made so wide that they hold for the boats exchanged, too."""
    def limits(self, result, first, second):
        low, high = super().limits(result, first, second)
        far = max(-low, high)
        return Difference(-far, far)


class MiddleOfSlope(Sisters):
    """The middle of a slope taken for both products."""
    def least(self, slope, d):
        return (slope.low + slope.high) // 2 * d

    greatest = least


class OtherRanges(Sisters):
    """The slopes of other ranges than the class's, inside them, so that these are accepted, too."""
    def others(self, first, second):
        raise NotImplementedError

    def limits(self, result, first, second):
        others = [end for pair in self.others(first, second) for end in pair]
        return super().limits(self.rated_class(self.now, others), first, second)

    def call(self, sheet, ends, values):
        self.now = sheet
        return super().call(sheet, ends, values)


class RangesBetweenBoats(OtherRanges):
    """The slopes of the least ranges that hold both boats. These limits hold, too, and are narrower; but the class's slopes are asked for."""
    def others(self, first, second):
        return map(sorted, zip(first, second))


class SlopesAtFirst(OtherRanges):
    """The slopes at the first boat."""
    def others(self, first, second):
        return zip(first, first)


class SlopesAtSecond(OtherRanges):
    """The slopes at the second boat."""
    def others(self, first, second):
        return zip(second, second)


class OfClassCut(Sisters):
    """The slopes of the class cut to depth 1, and not "plain rating, uncut"."""
    def rated_class(self, sheet, ends):
        super().rated_class(sheet, ends)
        return Cutting().call(sheet, list(ends), 1)


class ClassOfPresent(Sisters):
    """A class of 2014 rated by the rules of 2016. The slopes are the same: only a refusal tells."""
    def rated_class(self, sheet, ends):
        return super().rated_class(sheet._replace(year=PRESENT), ends)


class ClassOfEarlier(Sisters):
    """Every class rated by the rules of 2014."""
    def rated_class(self, sheet, ends):
        return super().rated_class(sheet._replace(year=EARLIER), ends)


# ---- sister boats: which boats are taken, and when that is asked

class OneBoatUntested(Sisters):
    """One boat not tested."""
    tested = None

    def check_inside(self, ranges, *boats):
        super().check_inside(ranges, boats[self.tested], boats[self.tested])


class SecondUntested(OneBoatUntested):
    """Only the first boat tested."""
    tested = 0


class FirstUntested(OneBoatUntested):
    """Only the second boat tested."""
    tested = 1


class FirstRangeForAll(Sisters):
    """Each factor's values tested against the first factor's range."""
    def check_inside(self, ranges, first, second):
        super().check_inside(ranges[:1] * len(ranges), first, second)


class FirstFactorTested(Sisters):
    """Only the first factor's values tested."""
    def check_inside(self, ranges, first, second):
        super().check_inside(ranges[:1], first, second)


class LastFactorUntested(Sisters):
    """The last factor's values not tested."""
    def check_inside(self, ranges, first, second):
        super().check_inside(ranges[:-1], first, second)


class HighestFactor(Sisters):
    """9 at the highest factor."""
    def check_inside(self, ranges, first, second):
        for factor in range(len(ranges), 0, -1):
            if any(self.outside(ranges[factor - 1], boat[factor - 1]) for boat in (first, second)):
                refuse(9, factor)


class FirstBoatFirst(Sisters):
    """9 of the first boat ahead of 9 of the second in a lower factor."""
    def check_inside(self, ranges, first, second):
        super().check_inside(ranges, first, first)
        super().check_inside(ranges, second, second)


class SecondBoatFirst(Sisters):
    """9 of the second boat ahead of 9 of the first in a lower factor."""
    def check_inside(self, ranges, first, second):
        super().check_inside(ranges, second, second)
        super().check_inside(ranges, first, first)


class BothBoatsOutside(Sisters):
    """9 only where both boats are outside in a factor."""
    def check_inside(self, ranges, first, second):
        for factor, (r, *values) in enumerate(zip(ranges, first, second), 1):
            if all(self.outside(r, value) for value in values):
                refuse(9, factor)


class LowEndExcluded(Sisters):
    """The low end no longer in the range."""
    def outside(self, r, value):
        return not r.low < value <= r.high


class HighEndExcluded(Sisters):
    """The high end no longer in the range."""
    def outside(self, r, value):
        return not r.low <= value < r.high


class EndsExcluded(Sisters):
    """Neither end in the range."""
    def outside(self, r, value):
        return not r.low < value < r.high


class BelowTaken(Sisters):
    """A value below the range taken."""
    def outside(self, r, value):
        return value > r.high


class AboveTaken(Sisters):
    """A value above the range taken."""
    def outside(self, r, value):
        return value < r.low


class NextBelowTaken(Sisters):
    """A value one unit below the range taken."""
    def outside(self, r, value):
        return not r.low - 1 <= value <= r.high


class NextAboveTaken(Sisters):
    """A value one unit above the range taken."""
    def outside(self, r, value):
        return not r.low <= value <= r.high + 1


class OnlyLimitTested(Sisters):
    """The values tested against the limit, and not against the class's ranges."""
    def outside(self, r, value):
        return abs(value) > LIMIT


class BeyondTaken(Sisters):
    """A value outside the range put at its nearer end."""
    def check_inside(self, ranges, first, second):
        pass

    def call(self, sheet, ends, values):
        if values is not None and len(values) == len(ends):
            values = [max(low, min(value, high)) for low, high, value in zip(ends[::2] * 2, ends[1::2] * 2, values)]
        return super().call(sheet, ends, values)


class ValuesOf32Bits(Sisters):
    """The boats' values kept in 32 bits."""
    def values(self, text, factors):
        values = super().values(text, factors)
        return None if values is None else [in_32_bits(value) for value in values]


class NinePlaced(Sisters):
    """9 of the boats at another place."""
    def place(self, factor, boat):
        raise NotImplementedError

    def check_inside(self, ranges, first, second):
        for factor, (r, *values) in enumerate(zip(ranges, first, second), 1):
            for boat, value in enumerate(values, 1):
                if self.outside(r, value):
                    refuse(9, self.place(factor, boat))


class NineAtZero(NinePlaced):
    """9 of the boats with place 0."""
    def place(self, factor, boat):
        return 0


class NineAtBoat(NinePlaced):
    """9 of the boats with the boat as place."""
    def place(self, factor, boat):
        return boat


class NineFromZero(NinePlaced):
    """9 of the boats with factors counted from 0."""
    def place(self, factor, boat):
        return factor - 1


class Interleaved(Sisters):
    """The boats' numbers taken two per factor, and not boat by boat."""
    def boats(self, factors, values):
        super().boats(factors, values)
        return values[::2], values[1::2]


class EqualBoatsFirst(Sisters):
    """0 and 0 for equal boats, wherever they are, ahead of the class's 11 and 12."""
    def call(self, sheet, ends, values):
        if values and len(values) == len(ends) == 2 * sheet.factors and values[:sheet.factors] == values[sheet.factors:]:
            ranges_of(sheet, ends)
            return Difference(0, 0)
        return super().call(sheet, ends, values)


class EqualBoatsUntested(Sisters):
    """0 and 0 for equal boats of an accepted class, outside its ranges, too."""
    def check_inside(self, ranges, first, second):
        if first != second:
            super().check_inside(ranges, first, second)


class NineBeforeEight(Sisters):
    """9 of the boats ahead of 8, for the numerals that can be read."""
    def boats(self, factors, values):
        try:
            return super().boats(factors, values)
        except Refused:
            rows = [line.split(b"\t") for line in self.lines[:2]]
            for a, r in enumerate(self.ranges):
                fields = [row[a] for row in rows if len(row) > a and re.fullmatch(NUMERAL, row[a])]
                if any(self.outside(r, int(field)) for field in fields):
                    refuse(9, a + 1)
            raise

    def call(self, sheet, ends, values):
        self.rated_class(sheet, ends)
        self.ranges = ranges_of(sheet, ends)
        return super().call(sheet, ends, values)

    def answer(self, text):
        self.lines = text_lines(self.parts(text)[1] or b"")[0]
        return super().answer(text)


class BoatsEarlier(Sisters):
    """The boats' refusals ahead of some of the class's."""
    earlier = ()  # of the boats' own
    later = ()    # of the class's

    def call(self, sheet, ends, values):
        own = self.rated(sheet, tuple(ends))
        if isinstance(own, Refusal) and own.number in self.later:
            ranges = [Range(*ends[k:k + 2]) for k in range(0, len(ends), 2)]
            try:
                boats = self.boats(sheet.factors, values)
                self.check_inside(ranges, *boats)
            except Refused as refused:
                if refused.args[0].number in self.earlier:
                    raise
        return super().call(sheet, ends, values)


class BoatsBeforeClass(BoatsEarlier):
    """The boats' 8 and 9 ahead of the class's 8, 9, 11 and 12."""
    earlier, later = (8, 9), (8, 9, 11, 12)


class BoatsBeforeLines(BoatsEarlier):
    """The boats' 8 and 9 behind the class's 8 and 9, and ahead of 11 and 12."""
    earlier, later = (8, 9), (11, 12)


class EightBeforeNine(BoatsEarlier):
    """The boats' 8 ahead of the class's 9."""
    earlier, later = (8,), (9, 11, 12)


class EightBeforeLines(BoatsEarlier):
    """The boats' 8 ahead of 11 and 12, and their 9 behind."""
    earlier, later = (8,), (11, 12)


class NineBeforeLines(BoatsEarlier):
    """The boats' 9 ahead of 11 and 12, and their 8 behind."""
    earlier, later = (9,), (11, 12)


class NineBeforeBox(Sisters):
    """The boats' 9, for a value beyond the limit, ahead of the class's 8 for the form of its box lines."""
    def ends(self, text):
        try:
            return super().ends(text)
        except Refused:
            factors = self.sheet(text).factors
            values = self.values(text, factors) or []
            beyond = [k % factors + 1 for k, value in enumerate(values) if abs(value) > LIMIT]
            if beyond:
                refuse(9, min(beyond))
            raise


class BoatsBeforeLoading(Sisters):
    """8 for the boat lines ahead of loading's refusals, by the number of numerals in the first of them."""
    def sheet(self, text):
        if len(text) <= MOST_RATED:
            behind = self.parts(text)[1]
            if self.values(text, (behind or b"").partition(b"\n")[0].count(b"\t") + 1) is None:
                refuse(8, 0)
        return super().sheet(text)


# ---- sister boats: the boat lines

class PartedWithoutByte10(Sisters):
    """A last line `boats` parting the input without its byte 10."""
    def parts(self, text):
        return super().parts(text + b"\n" if text.endswith(b"\nboats") else text)


class PartedAtLast(Sisters):
    """The last line `boats` parting the input, and not the first."""
    def parts(self, text):
        before, parting, behind = text.rpartition(b"\nboats\n")
        return (before + b"\n", behind) if parting else super().parts(text)


class BoxSoughtFirst(Sisters):
    """A line `boats` before the line `box` taken for a line of the sheet."""
    def parts(self, text):
        sheet, box = parted(text)
        if box is None:
            return text, None
        before, behind = parted(box, b"boats")
        return sheet + b"box\n" + before, behind


class BoxBehindBoats(Sisters):
    """A line `box` sought behind the boat lines, too."""
    def ends(self, text):
        before, behind = self.parts(text)
        if parted(before)[1] is None and behind is not None and parted(behind)[1] is not None:
            before += b"box\n" + parted(behind)[1]
        return super().ends(before)

    def values(self, text, factors):
        before, behind = self.parts(text)
        if parted(before)[1] is None and behind is not None:
            behind = parted(behind)[0]
        return super().values(b"boats\n" + behind if behind is not None else text, factors)


class NearlyBoats(Sisters):
    """A blank, a tab or byte 13 beside the word `boats` skipped."""
    def parts(self, text):
        return super().parts(re.sub(rb"(?m)^[ \t]*boats[ \t\r]*$", b"boats", text))


class CapitalBoats(Sisters):
    """`Boats` and `BOATS` taken."""
    def parts(self, text):
        return super().parts(re.sub(rb"(?mi)^boats$", b"boats", text))


class BoatsWithoutLine(Sisters):
    """The last two lines taken for the boats, where there is no line `boats`."""
    def parts(self, text):
        before, behind = super().parts(text)
        if behind is None and text.endswith(b"\n") and text.count(b"\n") > 3:
            lines = text_lines(text)[0]
            return b"\n".join(lines[:-2]) + b"\n", b"\n".join(lines[-2:]) + b"\n"
        return before, behind


class EmptyWithoutLine(Sisters):
    """Two boats of zeros where there is no line `boats`."""
    def values(self, text, factors):
        return [0] * 2 * factors if self.parts(text)[1] is None else super().values(text, factors)


class BoatLinesUncounted(Sisters):
    """The bytes of the boat lines not counted."""
    def check_length(self, text):
        super().check_length(self.parts(text)[0])


class BoatLinesCountedApart(Sisters):
    """The bytes from the line `boats` on counted by themselves."""
    def check_length(self, text):
        before, behind = self.parts(text)
        super().check_length(before)
        super().check_length(b"boats\n" + (behind or b""))


class BoatLinesInSheet(Sisters):
    """All but the box lines counted as the sheet's bytes."""
    def sheet(self, text):
        before, behind = self.parts(text)
        if len(parted(before)[0]) + (0 if behind is None else len(b"boats\n" + behind)) > MOST_BYTES:
            refuse(1, 0)
        return super().sheet(text)


class LengthBehindLoading(Sisters):
    """1 for the whole input behind the refusals of loading."""
    def check_length(self, text):
        self.sheet(text)
        super().check_length(text)


class TimesZeroInClass(Sisters):
    """A class rated by a sheet with `mulc` by 0."""
    loading = TimesZeroTaken


class AnotherRefusal(Sisters):
    """Boat lines of another form refused otherwise."""
    instead = None

    def boats(self, factors, values):
        try:
            return super().boats(factors, values)
        except Refused:
            refuse(*self.instead)


class EightAtOne(AnotherRefusal):
    """8 for the boat lines with place 1."""
    instead = 8, 1


class FourteenForBoats(AnotherRefusal):
    """14 for the boat lines, as for a list of boats (request 3)."""
    instead = 14, 0


class TwoForBoats(AnotherRefusal):
    """2 for the boat lines, as for lines of a sheet."""
    instead = 2, 1


class OtherLines(Sisters):
    """The boat lines read as if they were others."""
    def lines(self, behind, factors):
        raise NotImplementedError

    def values(self, text, factors):
        behind = self.parts(text)[1]
        return super().values(text if behind is None else b"boats\n" + self.lines(behind, factors), factors)


class OneBoatTwice(OtherLines):
    """One boat line taken for both boats."""
    def lines(self, behind, factors):
        return behind * 2 if behind.count(b"\n") == 1 else behind


class LastByte10Missing(OtherLines):
    """The last boat line taken without its byte 10."""
    def lines(self, behind, factors):
        return behind if behind.endswith(b"\n") else behind + b"\n"


class UnfinishedLeftOut(OtherLines):
    """What stands behind the last byte 10 ignored."""
    def lines(self, behind, factors):
        return behind.rpartition(b"\n")[0] + b"\n"


class LinesBehindIgnored(OtherLines):
    """What stands behind the second boat line ignored."""
    def lines(self, behind, factors):
        return b"".join(line + b"\n" for line in behind.split(b"\n")[:2]) if behind.count(b"\n") > 1 else behind


class FirstLinesIgnored(OtherLines):
    """The last two lines taken, where there are more."""
    def lines(self, behind, factors):
        return b"".join(line + b"\n" for line in behind.split(b"\n")[-3:-1]) if behind.endswith(b"\n") else behind


class EmptyLinesSkipped(OtherLines):
    """Empty lines skipped."""
    def lines(self, behind, factors):
        return re.sub(rb"(?m)^\n", b"", behind)


class BoatsLinesSkipped(OtherLines):
    """Further lines `boats` skipped."""
    def lines(self, behind, factors):
        return re.sub(rb"(?m)^boats\n", b"", behind)


class MoreNumerals(OtherLines):
    """Numerals behind the n-th of a line ignored, as in a list of boats."""
    def lines(self, behind, factors):
        return b"\n".join(b"\t".join(line.split(b"\t")[:factors]) for line in behind.split(b"\n"))


class FewerNumerals(OtherLines):
    """0 for the numerals that a line lacks."""
    def lines(self, behind, factors):
        *lines, last = behind.split(b"\n")
        return b"".join(b"\t".join((line.split(b"\t") + [b"0"] * factors)[:max(factors, line.count(b"\t") + 1)]) + b"\n" for line in lines) + last


class EightNumerals(OtherLines):
    """Eight numerals a line wanted, the first n of which count."""
    def lines(self, behind, factors):
        *lines, last = behind.split(b"\n")
        rows = [line.split(b"\t") for line in lines]
        return b"".join(b"\t".join(row[:factors]) + b"\n" if len(row) == MOST_FACTORS else b"\n" for row in rows) + last


class AnyLines(OtherLines):
    """The numerals of all lines taken one after another, however many are in a line."""
    def lines(self, behind, factors):
        if not behind.endswith(b"\n"):
            return behind
        fields = behind[:-1].replace(b"\n", b"\t").split(b"\t")
        return b"\t".join(fields[:factors]) + b"\n" + b"\t".join(fields[factors:]) + b"\n"


class LinePerFactor(OtherLines):
    """A line for each factor with both boats' values, as in the box, taken, too."""
    def lines(self, behind, factors):
        rows = [line.split(b"\t") for line in behind.split(b"\n")[:-1]]
        if len(rows) != factors or any(len(row) != 2 for row in rows) or factors == 2:
            return behind
        return b"".join(b"\t".join(row[boat] for row in rows) + b"\n" for boat in (0, 1))


class OneNumeralMore(OtherLines):
    """A numeral more than there are factors wanted in each line, the first one being ignored."""
    def lines(self, behind, factors):
        *lines, last = behind.split(b"\n")
        return b"".join(line.partition(b"\t")[2] + b"\n" for line in lines) + last


class FieldsRewritten(OtherLines):
    """Boat lines read as if they were written otherwise."""
    found, instead = b"", b""

    def lines(self, behind, factors):
        return re.sub(b"(?m)" + self.found, self.instead, behind)


class BoatsZerosInFront(FieldsRewritten):
    """Zeros before a value taken."""
    found, instead = rb"(^|\t)(-?)0+(?=[0-9])", rb"\1\2"


class BoatsMinusZero(FieldsRewritten):
    """`-0` taken for the value 0."""
    found, instead = rb"(^|\t)-0(?=$|\t)", rb"\g<1>0"


class BoatsPlus(FieldsRewritten):
    """A plus sign before a value taken."""
    found, instead = rb"(^|\t)\+", rb"\1"


class BoatsMinusAlone(FieldsRewritten):
    """A minus sign alone taken for 0."""
    found, instead = rb"(^|\t)-(?=$|\t)", rb"\g<1>0"


class BoatsTwoMinus(FieldsRewritten):
    """Two minus signs taken for none."""
    found, instead = rb"(^|\t)--", rb"\1"


class BoatsEmptyField(FieldsRewritten):
    """An empty field taken for 0."""
    found, instead = rb"(^|(?<=\t))(?=$|\t)", b"0"


class BoatsElevenDigits(FieldsRewritten):
    """The first digit of eleven dropped."""
    found, instead = rb"(^|\t)(-?)10{9}(?=[0-9](?:$|\t))", rb"\1\2"


class BoatsElevenDigitsOutside(FieldsRewritten):
    """A value of eleven digits taken for one that is outside, so that 9 is due for it."""
    found, instead = rb"(^|\t)-?[1-9][0-9]{10}(?=$|\t)", rb"\g<1>9999999999"


class BoatsPoint(FieldsRewritten):
    """A point and what follows it ignored."""
    found, instead = rb"\.[0-9]*", b""


class BoatsLetters(FieldsRewritten):
    """Letters and what follows them in a field ignored."""
    found, instead = rb"(?<=[0-9])[a-z][^\t\n]*", b""


class BoatsBlanksAround(FieldsRewritten):
    """Blanks beside a value skipped."""
    found, instead = rb"^ +| +$|(?<=\t) +| +(?=\t)", b""


class BoatsBlanks(FieldsRewritten):
    """Blanks taken for tabs."""
    found, instead = rb" +", b"\t"


class BoatsTabs(FieldsRewritten):
    """Tabs taken for one."""
    found, instead = rb"\t+", b"\t"


class BoatsTabInFront(FieldsRewritten):
    """A tab at a line's start skipped."""
    found, instead = rb"^\t", b""


class BoatsTabBehind(FieldsRewritten):
    """A tab at a line's end skipped."""
    found, instead = rb"\t$", b""


class BoatsByte13(FieldsRewritten):
    """Byte 13 before byte 10 dropped."""
    found, instead = rb"\r$", b""


class BoatsByte0(FieldsRewritten):
    """Byte 0 skipped."""
    found, instead = rb"\x00", b""


SISTER_LIMIT_ERRORS = [
    LowEndForLeast, HighEndForGreatest, HighEndForLeast, LowEndForGreatest, LeastAndGreatestExchanged, OneSlopeEndForAll,
    FirstFactorSummed, LastFactorLeftOut, FirstFactorLeftOut, LastFactorSummed,
    LowRoundedUp, HighRoundedDown, RoundedInward, LimitsTowardZero, LimitsAwayFromZero, LimitsToNearest, LowLessOne, HighPlusOne, ProductsRounded,
    NotDivided, OtherWayRound, MagnitudesApart, ApartOf32Bits, SumsOf64Bits, SumsAtMost63Bits, SumsOf64BitsAndSign, SumsWithinLimit, WithinValue,
    OfValueAlone, WithZero, BothSigns, MiddleOfSlope, RangesBetweenBoats, SlopesAtFirst, SlopesAtSecond, OfClassCut,
]

SISTER_BOAT_ERRORS = [
    ClassOfPresent, ClassOfEarlier,
    SecondUntested, FirstUntested, FirstRangeForAll, FirstFactorTested, LastFactorUntested, HighestFactor, FirstBoatFirst, SecondBoatFirst,
    BothBoatsOutside, LowEndExcluded, HighEndExcluded, EndsExcluded, BelowTaken, AboveTaken, NextBelowTaken, NextAboveTaken, OnlyLimitTested,
    BeyondTaken, ValuesOf32Bits, NineAtZero, NineAtBoat, NineFromZero, Interleaved, EqualBoatsFirst, EqualBoatsUntested,
    NineBeforeEight, BoatsBeforeClass, BoatsBeforeLines, EightBeforeNine, EightBeforeLines, NineBeforeLines, NineBeforeBox, BoatsBeforeLoading,
]

SISTER_LINE_ERRORS = [
    PartedWithoutByte10, PartedAtLast, BoxSoughtFirst, BoxBehindBoats, NearlyBoats, CapitalBoats, BoatsWithoutLine, EmptyWithoutLine,
    BoatLinesUncounted, BoatLinesCountedApart, BoatLinesInSheet, LengthBehindLoading, TimesZeroInClass, EightAtOne, FourteenForBoats, TwoForBoats,
    OneBoatTwice, LastByte10Missing, UnfinishedLeftOut, LinesBehindIgnored, FirstLinesIgnored, EmptyLinesSkipped, BoatsLinesSkipped, MoreNumerals,
    FewerNumerals, EightNumerals, AnyLines, LinePerFactor, OneNumeralMore,
    BoatsZerosInFront, BoatsMinusZero, BoatsPlus, BoatsMinusAlone, BoatsTwoMinus, BoatsEmptyField, BoatsElevenDigits, BoatsElevenDigitsOutside,
    BoatsPoint, BoatsLetters, BoatsBlanksAround, BoatsBlanks, BoatsTabs, BoatsTabInFront, BoatsTabBehind, BoatsByte13, BoatsByte0,
]


# ---- the C functions, on the bytes of one class

class PlaceTimesTen(Quoting):
    """A code with 10 times the place."""
    def code(self, refusal):
        return refusal.number + 10 * refusal.place


class PlaceForgotten(Quoting):
    """A code without the place."""
    def code(self, refusal):
        return refusal.number


class PlaceFirst(Quoting):
    """A code with 100 times the number, and the place."""
    def code(self, refusal):
        return 100 * refusal.number + refusal.place


class CodeOfOneByte(Quoting):
    """A code of which one byte is left."""
    def code(self, refusal):
        return super().code(refusal) % 256


class TenBehindLoading(Quoting):
    """A desk of another length refused after the refusals of loading."""
    def loaded(self, desk, text):
        load(text, rules=self.loading)
        return super().loaded(desk, text)


class TenBehindOne(Quoting):
    """A desk of another length refused after 1."""
    def loaded(self, desk, text):
        if len(text) > MOST_BYTES:
            refuse(1, 0)
        return super().loaded(desk, text)


class ClearedByRefusal(Quoting):
    """A class emptied by a refused load."""
    def desk_refused(self, desk):
        return bytes(len(desk))


class ClearedBehindRefusal(Quoting):
    """A class of which a refused load leaves the first eight bytes only."""
    def desk_refused(self, desk):
        return desk[:HEAD] + bytes(max(0, len(desk) - HEAD))


class OnlyUsedWritten(Quoting):
    """An accepted load that leaves the bytes behind the last operation as they were."""
    def load(self, desk, text):
        code, left = super().load(desk, text)
        if code:
            return code, left
        used = HEAD + ENTRY * left.desk[1]
        return code, left._replace(desk=left.desk[:used] + desk[used:])


class HeadZerosUnwritten(Quoting):
    """An accepted load that leaves bytes 3 to 7 as they were."""
    def load(self, desk, text):
        code, left = super().load(desk, text)
        return code, left if code else left._replace(desk=left.desk[:3] + desk[3:HEAD] + left.desk[HEAD:])


class YearUnwritten(Quoting):
    """The year of a sheet not written."""
    def encoded(self, sheet):
        return super().encoded(sheet._replace(year=PRESENT))


class YearInFull(Quoting):
    """The year written as its number, in two bytes."""
    def encoded(self, sheet):
        desk = super().encoded(sheet)
        return desk[:2] + struct.pack("<H", sheet.year) + desk[4:]


class ConstantHighestFirst(Quoting):
    """A constant written with the highest byte first."""
    def entry(self, name, numbers):
        entry = super().entry(name, numbers)
        return entry[:4] + entry[:3:-1]


class ConstantUnshifted(Quoting):
    """A constant written with its sign, and nothing added to it."""
    def entry(self, name, numbers):
        return super().entry(name, numbers)[:4] + struct.pack("<i", numbers[1] if name in ("addc", "mulc") else 0)


class LinesFromZero(Quoting):
    """Line numbers written from 0."""
    def entry(self, name, numbers):
        entry = super().entry(name, numbers)
        return entry[:1] + bytes([entry[1] - 1]) + entry[2:]


class KindsFromZero(Quoting):
    """Kinds written from 0."""
    def entry(self, name, numbers):
        entry = super().entry(name, numbers)
        return bytes([entry[0] - 1]) + entry[1:]


class LinesCounted(Quoting):
    """All codelist lines counted, factors too, in the place of the operations."""
    def encoded(self, sheet):
        desk = super().encoded(sheet)
        return desk[:1] + bytes([desk[0] + desk[1]]) + desk[2:]


CALLED_LOAD_ERRORS = [
    PlaceTimesTen, PlaceForgotten, PlaceFirst, CodeOfOneByte, TenBehindLoading, TenBehindOne, ClearedByRefusal, ClearedBehindRefusal, OnlyUsedWritten,
    HeadZerosUnwritten, YearUnwritten, YearInFull, ConstantHighestFirst, ConstantUnshifted, LinesFromZero, KindsFromZero, LinesCounted,
]


class NotCleared(Quoting):
    """A result that keeps its bytes after a refusal."""
    def result_refused(self, result):
        return result


class AlwaysCleared(Quoting):
    """A result of another length cleared, too."""
    def result_refused(self, result):
        return bytes(len(result))


class ClearedIfLong(Quoting):
    """The first 192 bytes of a longer result cleared, too."""
    def result_refused(self, result):
        return bytes(RESULT) + result[RESULT:] if len(result) >= RESULT else result


class ClearedBehindTen(Quoting):
    """A result that keeps its bytes after 10."""
    def rate(self, desk, ranges, result):
        code, left = super().rate(desk, ranges, result)
        return code, left._replace(result=result) if code == 10 else left


class ClearedBehindEight(Quoting):
    """A result that keeps its bytes after 8."""
    def rate(self, desk, ranges, result):
        code, left = super().rate(desk, ranges, result)
        return code, left._replace(result=result) if code == 8 else left


class LongerResultTaken(Quoting):
    """A longer result taken, its last bytes left as they were."""
    def rate(self, desk, ranges, result):
        code, left = super().rate(desk, ranges, result[:RESULT])
        return code, left._replace(result=left.result + result[RESULT:])


class LongerRangesTaken(Quoting):
    """Longer ranges taken."""
    def rate(self, desk, ranges, result):
        code, left = super().rate(desk, ranges[:RANGES], result)
        return code, left._replace(ranges=ranges)


class RangesOfFactorsTaken(Quoting):
    """Shorter ranges taken where they have the doubles of all factors."""
    def rate(self, desk, ranges, result):
        code, left = super().rate(desk, ranges.ljust(RANGES, b"\0") if len(ranges) >= 16 * (desk[:1] or b"\x08")[0] else ranges, result)
        return code, left._replace(ranges=ranges)


class EightBeforeTen(Quoting):
    """The lengths of the records tested before the desk."""
    def rated(self, desk, ranges, result):
        self.check_lengths(ranges, result)
        return super().rated(desk, ranges, result)


class EighteenBeforeTen(Quoting):
    """18 before 10, by the desk's first byte."""
    def rated(self, desk, ranges, result):
        if len(desk) == DESK and len(ranges) == RANGES and 1 <= desk[0] <= MOST_FACTORS:
            self.ends(desk[0], ranges)
        return super().rated(desk, ranges, result)


class EighteenBeforeEight(Quoting):
    """18 before 8 for a result of another length."""
    def check_lengths(self, ranges, result):
        super().check_lengths(ranges, bytes(RESULT))
        self.result = result

    def ends(self, factors, ranges):
        ends = super().ends(factors, ranges)
        super().check_lengths(ranges, self.result)
        return ends


class EighteenBehindNine(Quoting):
    """18 after 9 of the ranges that have whole numbers."""
    def ends(self, factors, ranges):
        numbers = [self.whole(ranges[8 * k:8 * k + 8]) for k in range(2 * factors)]
        for a, (low, high) in enumerate(zip(numbers[::2], numbers[1::2]), 1):
            if low is not None and high is not None and (low > high or low < -LIMIT or high > LIMIT):
                refuse(9, a)
        return super().ends(factors, ranges)


class EighteenInTurn(Quoting):
    """18 and 9 factor by factor."""
    def ends(self, factors, ranges):
        for a in range(1, factors + 1):
            low, high = super().ends(a, ranges)[-2:]
            if low > high or low < -LIMIT or high > LIMIT:
                refuse(9, a)
        return super().ends(factors, ranges)


class EighteenHighestFactor(Quoting):
    """18 with the highest factor."""
    def ends(self, factors, ranges):
        bad = [k for k in range(2 * factors) if self.whole(ranges[8 * k:8 * k + 8]) is None]
        if bad:
            refuse(18, bad[-1] // 2 + 1)
        return super().ends(factors, ranges)


class EighteenFromZero(Quoting):
    """18 with the factor counted from 0."""
    def code(self, refusal):
        return super().code(refusal._replace(place=refusal.place - 1) if refusal.number == 18 else refusal)


class EighteenAtDouble(Quoting):
    """18 with the number of the double."""
    def ends(self, factors, ranges):
        bad = [k for k in range(2 * factors) if self.whole(ranges[8 * k:8 * k + 8]) is None]
        if bad:
            refuse(18, bad[0] + 1)
        return super().ends(factors, ranges)


class EighteenAtZero(Quoting):
    """18 with the place 0."""
    def code(self, refusal):
        return super().code(refusal._replace(place=0) if refusal.number == 18 else refusal)


class LowEndsTested(Quoting):
    """Only low ends tested for whole numbers; a high one is rounded."""
    def ends(self, factors, ranges):
        numbers = []
        for k in range(2 * factors):
            (x,) = struct.unpack("<d", ranges[8 * k:8 * k + 8])
            number = self.whole(ranges[8 * k:8 * k + 8])
            if number is None and (k % 2 == 0 or not isfinite(x)):
                refuse(18, k // 2 + 1)
            numbers.append(round(x))
        return numbers


class PastLastTested(Quoting):
    """All sixteen doubles tested for whole numbers."""
    def ends(self, factors, ranges):
        return super().ends(MOST_FACTORS, ranges)[:2 * factors]


class OneMoreTested(Quoting):
    """The doubles of one factor more tested."""
    def ends(self, factors, ranges):
        return super().ends(min(MOST_FACTORS, factors + 1), ranges)[:2 * factors]


class MinusZeroRefused(Quoting):
    """Minus zero refused with 18."""
    def whole(self, eight):
        return None if eight == struct.pack("<d", -0.0) else super().whole(eight)


class FractionsDropped(Quoting):
    """Fractions dropped."""
    def whole(self, eight):
        (x,) = struct.unpack("<d", eight)
        return int(x) if isfinite(x) else None


class FractionsRounded(Quoting):
    """Fractions rounded."""
    def whole(self, eight):
        (x,) = struct.unpack("<d", eight)
        return round(x) if isfinite(x) else None


class NearlyWholeTaken(Quoting):
    """A number nearer than a millionth to a whole one taken."""
    def whole(self, eight):
        (x,) = struct.unpack("<d", eight)
        return round(x) if isfinite(x) and abs(x - round(x)) < 1e-6 else None


class SubnormalsTaken(Quoting):
    """A subnormal number taken for 0."""
    def whole(self, eight):
        return 0 if not struct.unpack("<Q", eight)[0] >> 52 & 0x7FF else super().whole(eight)


class InfinityBeyond(Quoting):
    """An infinity refused with 9, as beyond the limit."""
    def whole(self, eight):
        (x,) = struct.unpack("<d", eight)
        return 2 * LIMIT * (1 if x > 0 else -1) if abs(x) == float("inf") else super().whole(eight)


class NaNTaken(Quoting):
    """A NaN taken for 0."""
    def whole(self, eight):
        (x,) = struct.unpack("<d", eight)
        return 0 if x != x else super().whole(eight)


class SignallingTaken(Quoting):
    """A signalling NaN taken for 0."""
    def whole(self, eight):
        (x,) = struct.unpack("<d", eight)
        return 0 if x != x and not struct.unpack("<Q", eight)[0] >> 51 & 1 else super().whole(eight)


class HugeRefused(Quoting):
    """A whole number beyond 64 bits refused with 18."""
    def whole(self, eight):
        number = super().whole(eight)
        return None if number is not None and not -2 ** 63 <= number < 2 ** 63 else number


class BeyondExactRefused(Quoting):
    """A whole number beyond 2^53 refused with 18."""
    def whole(self, eight):
        number = super().whole(eight)
        return None if number is not None and abs(number) > 2 ** 53 else number


class BeyondLimitRefused(Quoting):
    """A whole number beyond the limit refused with 18."""
    def whole(self, eight):
        number = super().whole(eight)
        return None if number is not None and abs(number) > LIMIT else number


class WholeOf32Bits(Quoting):
    """A whole number of which 32 bits are left."""
    def whole(self, eight):
        number = super().whole(eight)
        return number if number is None else (number + 2 ** 31) % 2 ** 32 - 2 ** 31


class WholeOf64Bits(Quoting):
    """A whole number of which 64 bits are left."""
    def whole(self, eight):
        number = super().whole(eight)
        return number if number is None else (number + 2 ** 63) % 2 ** 64 - 2 ** 63


class HighestFirst(Quoting):
    """Doubles read with the highest byte first."""
    def whole(self, eight):
        return super().whole(eight[::-1])


class ByteBehindIgnored(Quoting):
    """Bytes behind the last operation not looked at."""
    def decoded(self, desk):
        used = HEAD + ENTRY * desk[1] if len(desk) == DESK else 0
        return super().decoded(desk[:used].ljust(DESK, b"\0") if 0 < used < DESK else desk)


class LastByteIgnored(Quoting):
    """The last byte of a desk not looked at where no operation stands there."""
    def decoded(self, desk):
        return super().decoded(desk[:-1] + b"\0" if len(desk) == DESK and desk[1] < 63 else desk)


class HeadZerosIgnored(Quoting):
    """Bytes 3 to 7 not looked at."""
    def decoded(self, desk):
        return super().decoded(desk[:3] + bytes(5) + desk[HEAD:] if len(desk) == DESK else desk)


class YearIgnored(Quoting):
    """Every desk rated by 2016."""
    def decoded(self, desk):
        sheet = super().decoded(desk)
        return sheet and sheet._replace(year=PRESENT)


class AnyYear(Quoting):
    """Every year byte but 0 taken for 2014."""
    def decoded(self, desk):
        return super().decoded(desk[:2] + bytes([min(1, desk[2])]) + desk[3:] if len(desk) == DESK else desk)


class EntryRewritten(Quoting):
    def operation(self, entry, earlier):
        kind, i, j, zero, shifted = struct.unpack("<BBBBI", entry)
        return super().operation(struct.pack("<BBBBI", *self.rewritten(kind, i, j, zero, shifted)), earlier)


class FourthByteIgnored(EntryRewritten):
    """The fourth byte of an operation not looked at."""
    def rewritten(self, kind, i, j, zero, shifted):
        return kind, i, j, 0, shifted


class SecondLineIgnored(EntryRewritten):
    """The third byte of an operation with a constant, or of an inverse, not looked at."""
    def rewritten(self, kind, i, j, zero, shifted):
        return kind, i, 0 if kind in (3, 4, 6) else j, zero, shifted


class ConstantIgnored(EntryRewritten):
    """The last four bytes of an operation without a constant not looked at."""
    def rewritten(self, kind, i, j, zero, shifted):
        return kind, i, j, zero, shifted if kind in (3, 4) else 0


class TimesZeroOnDesk(EntryRewritten):
    """A multiplication by 0 on the desk rated, as one by a unit."""
    def rewritten(self, kind, i, j, zero, shifted):
        return kind, i, j, zero, shifted + 1 if kind == 4 and shifted == LIMIT else shifted


class ConstantCut(EntryRewritten):
    """A constant beyond the limit on the desk taken for the limit."""
    def rewritten(self, kind, i, j, zero, shifted):
        return kind, i, j, zero, min(shifted, 2 * LIMIT) if kind in (3, 4) else shifted


class ExponentCut(EntryRewritten):
    """An exponent above 8 on the desk taken for 8."""
    def rewritten(self, kind, i, j, zero, shifted):
        return kind, i, min(j, 8) if kind == 5 else j, zero, shifted


class ExponentRaised(EntryRewritten):
    """An exponent of 1 on the desk taken for 2."""
    def rewritten(self, kind, i, j, zero, shifted):
        return kind, i, 2 if kind == 5 and j == 1 else j, zero, shifted


class ReferenceRaised(EntryRewritten):
    """A line 0 on the desk taken for 1."""
    def rewritten(self, kind, i, j, zero, shifted):
        return kind, i or 1, j or 1 if kind in (1, 2) else j, zero, shifted


class OwnLineTaken(Quoting):
    """An operation on the desk that names its own line taken for one of the line before."""
    def operation(self, entry, earlier):
        own = earlier + 1
        kind, i, j = entry[:3]
        return super().operation(bytes((kind, earlier if i == own else i, earlier if kind in (1, 2) and j == own else j)) + entry[3:], earlier)


class ZerosRated(Quoting):
    """A desk of zeros rated by a sheet of one operation."""
    def decoded(self, desk):
        return super().decoded(desk if any(desk) else bytes((1, 1, 0, 0, 0, 0, 0, 0, 6, 1)).ljust(DESK, b"\0"))


class BendBehindFull(Quoting):
    """The full bend before the bend."""
    def record(self, result):
        return super().record(result._replace(bend=result.full, full=result.bend))


class BentBeforeDepends(Quoting):
    """The bent set before the set of factors that count."""
    def record(self, result):
        return super().record(result._replace(depends=result.bent, bent=result.depends))


class HighBeforeLow(Quoting):
    """High ends before low ones."""
    def record(self, result):
        turned = [Range(r.high, r.low) for r in (result.value, result.bend, result.full)]
        value, bend, full = turned
        slopes = tuple(Range(r.high, r.low) for r in result.slopes)
        return super().record(result._replace(value=value, slopes=slopes, bend=bend, full=full))


class SlopesOfFactors(Quoting):
    """The slopes of n factors and not of eight, the sets right behind them."""
    def record(self, result):
        record = super().record(result)
        used = 16 * (1 + len(result.slopes))
        return (record[:used] + record[144:]).ljust(RESULT, b"\0")


class MaskFromTwo(Quoting):
    """A set as the sum of 2^i over its factors i."""
    def mask(self, members):
        return 2 * super().mask(members)


class SetCounted(Quoting):
    """A set as the number of its factors."""
    def mask(self, members):
        return len(members)


class MinusZeroWritten(Quoting):
    """0 written as minus zero in a high end."""
    def record(self, result):
        numbers = struct.unpack("<24d", super().record(result))
        return struct.pack("<24d", *(-0.0 if number == 0 and k % 2 else number for k, number in enumerate(numbers)))


class WrittenHighestFirst(Quoting):
    """Doubles written with the highest byte first."""
    def record(self, result):
        return struct.pack(">24d", *struct.unpack("<24d", super().record(result)))


class SinglesWritten(Quoting):
    """Numbers of a result rounded to 24 bits."""
    def record(self, result):
        return struct.pack("<24d", *struct.unpack("<24f", struct.pack("<24f", *struct.unpack("<24d", super().record(result)))))


class PlaceAsTextLine(Quoting):
    """11 and 12 with the line of the text."""
    def rated(self, desk, ranges, result):
        try:
            return super().rated(desk, ranges, result)
        except Refused as refused:
            number, place = refused.args[0]
            refuse(number, place - desk[0] + 1 if number in (11, 12) else place)


CALLED_RATE_ERRORS = [
    PlaceTimesTen, PlaceForgotten, PlaceFirst, CodeOfOneByte, NotCleared, AlwaysCleared, ClearedIfLong, ClearedBehindTen, ClearedBehindEight,
    LongerResultTaken, LongerRangesTaken, RangesOfFactorsTaken, EightBeforeTen, EighteenBeforeTen, EighteenBeforeEight, EighteenBehindNine,
    EighteenInTurn, EighteenHighestFactor, EighteenFromZero, EighteenAtDouble, EighteenAtZero, LowEndsTested, PastLastTested, OneMoreTested,
    MinusZeroRefused, FractionsDropped, FractionsRounded, NearlyWholeTaken, SubnormalsTaken, InfinityBeyond, NaNTaken, SignallingTaken, HugeRefused,
    BeyondExactRefused, BeyondLimitRefused, WholeOf32Bits, WholeOf64Bits, HighestFirst, ByteBehindIgnored, LastByteIgnored, HeadZerosIgnored,
    YearIgnored, AnyYear, FourthByteIgnored, SecondLineIgnored, ConstantIgnored, TimesZeroOnDesk, ConstantCut, ExponentCut, ExponentRaised,
    ReferenceRaised, OwnLineTaken, ZerosRated, BendBehindFull, BentBeforeDepends, HighBeforeLow, SlopesOfFactors, MaskFromTwo, SetCounted,
    MinusZeroWritten, WrittenHighestFirst, SinglesWritten, PlaceAsTextLine,
]


# ---- the committee's laws (02, request 11): these give another answer where references are exchanged

class FirstSlopesLeftOut(Rules):
    """A product's slopes without V_j·G_i, the first line's."""
    def multiplied(self, x, y):
        value, _, depends = super().multiplied(x, y)
        return value, tuple(self.product(x.value, h, "mul.ViGj") for h in y.slopes), depends


class SecondBendLeftOut(Rules):
    """A product's bend without V_i·E_j, the second line's; of a special case as it should be."""
    def general_bend(self, x, y):
        return super().general_bend(x, y._replace(bend=ZERO))


class SecondBendLeftOutIn2014(Rules):
    """A product's bend of 2014 without V_i·E_j, the second line's."""
    def mul_2014(self, x, y):
        return super().mul_2014(x, y._replace(bend=ZERO))


class RootOfFirstSquares(Rules):
    """β taken of the first line's slopes alone."""
    def beta(self, g, h, over):
        return super().beta(g, g, over)


class BentAsFirst(Rules):
    """The bent set of a sum taken from its first line, where that is bent."""
    def add(self, x, y):
        return super().add(x, y)._replace(bent=x.bent or y.bent)


class BillionOfFirstBend(Rules):
    """A refused beyond 1,000,000,000 units, and B not."""
    def within(self, r, step):
        if step != "mul.B":
            super().within(r, step)


class ReferencesRise(WrongLoading):
    """5 given where the first reference is above the second."""
    def check_references(self, operation, codelist_line, place):
        super().check_references(operation, codelist_line, place)
        references = operation.numbers[:REFERENCES[operation.name]]
        if list(references) != sorted(references):
            refuse(5, place)


class SecondZeroTaken(WrongLoading):
    """0 taken as a second reference, for the line before."""
    def check_references(self, operation, codelist_line, place):
        if REFERENCES[operation.name] == 2 and operation.numbers[1] == 0:
            operation = operation._replace(numbers=(operation.numbers[0], codelist_line - 1))
        super().check_references(operation, codelist_line, place)


EXCHANGE_ERRORS = [
    FirstSlopesLeftOut, SecondBendLeftOut, SecondBendLeftOutIn2014, RootOfFirstSquares, BentAsFirst, BillionOfFirstBend, CaseFourLeftOut,
    CaseSevenLeftOut, ExtendedTable,
]

EXCHANGE_LOADING_ERRORS = [ReferencesRise, SecondZeroTaken]

EXCHANGE_TIDY_ERRORS = [SecondOfProductUnused, SecondOfSumUnused, SecondLeftOld]


# ---- the committee's laws: these refuse ranges inside accepted ones, or give an end outside theirs, or another set. How a step rounds, be it to the
# nearest unit, is not among them: whatever keeps the order of two numbers keeps the law.

class PointsRefused(Rules):
    """A range of one point refused with 9."""
    def factor_line(self, i, r):
        if r.low == r.high:
            refuse(9, i + 1)
        return super().factor_line(i, r)


class PointsWidened(Rules):
    """A value of one point given a unit on either side."""
    def result(self, line):
        low, high = line.value
        return super().result(line._replace(value=Range(low - 1, high + 1)) if low == high else line)


NARROWING_ERRORS = [SquareByEnds, SquaresOfHighEnds, MagnitudeOfHighEnd, SlopesDependOn, PointsRefused, PointsWidened]
