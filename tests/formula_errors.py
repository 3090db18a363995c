"""Wrong rules of formulas (02, request 12), each in the place of a right one: the comparison has to tell them all from the right ones.

They are near misses of which texts are formulas, and of the place of one that is none; of which constants meet, and of when 20 comes; of the order in
which signs are taken; of the lines that each sign becomes; of factors and counts; and of the program's first line and last byte.
"""
import re

from reference.formula import (
    ATOM, BEGIN, BINDING, CARET, CLOSING, DIGITS, FOLLOWING, LETTER, MOST_TEXT, OPENING, PART, POINT, POWER, SIGNS, WHOLE, Constant, Formulas,
    constant, table)
from reference.outcome import Refusal, Refused, refuse
from reference.ranges import LIMIT, UNIT
from reference.sheet import MOST_BYTES, MOST_FACTORS, NUMERAL, Operation, Sheet, sheet_text_with


def also(last, following):
    """The bytes that can follow, with more of them behind what was read last."""
    return table({**FOLLOWING, last: {**FOLLOWING[last], **following}})


def only(last, following):
    """The bytes that can follow, with these alone behind what was read last."""
    return table({**FOLLOWING, last: following})


# ---- which texts are formulas

class FifteenOpen(Formulas):
    """The 16th open bracket refused."""
    most_open = 15


class SeventeenOpen(Formulas):
    """A 17th open bracket taken."""
    most_open = 17


class AnyOpen(Formulas):
    """Any number of open brackets taken."""
    most_open = MOST_TEXT


class BracketsCounted(Formulas):
    """The 17th bracket refused, though others have been closed."""
    def place(self, text):
        found = [at for at, byte in enumerate(text, 1) if byte == OPENING[0]][self.most_open:]
        return min([place for place in (super().place(text), *found[:1]) if place is not None], default=None)


class FiveDigits(Formulas):
    """The sixth digit refused."""
    most_digits = {**Formulas.most_digits, WHOLE: 5}


class SevenDigits(Formulas):
    """A seventh digit taken."""
    most_digits = {**Formulas.most_digits, WHOLE: 7}


class ThreeDecimals(Formulas):
    """The fourth decimal refused."""
    most_digits = {**Formulas.most_digits, PART: 3}


class FiveDecimals(Formulas):
    """A fifth decimal taken, and dropped."""
    most_digits = {**Formulas.most_digits, PART: 5}

    def units(self, numeral):
        whole, point, part = numeral.partition(b".")
        return super().units(whole + point + part[:4])


class DigitsTogether(Formulas):
    """Ten digits taken, on whichever side of the point."""
    most_digits = {WHOLE: 10, PART: 9}

    def after(self, state, byte):
        then = super().after(state, byte)
        return None if then and then.last == PART and then.digits > 4 else then


class ZeroInFrontRefused(Formulas):
    """A digit behind a first 0 refused."""
    def place(self, text):
        zero = re.search(rb"(?<![0-9.f^])0[0-9]", text)
        place = super().place(text)
        return min(place or len(text) + 1, zero.end()) if zero else place


class PointAtEnd(Formulas):
    """A point without decimals taken."""
    following = also(POINT, {SIGNS: BEGIN, b"^": CARET, b")": ATOM})
    ending = (*Formulas.ending, POINT)

    def tokens(self, text):
        return super().tokens(re.sub(rb"\.(?![0-9])", b"", text))


class PointInFront(Formulas):
    """A point without digits before it taken."""
    following = also(BEGIN, {b".": POINT})

    def tokens(self, text):
        return super().tokens(re.sub(rb"(?<![0-9])\.", b"0.", text))


class SecondPower(Formulas):
    """A second `^` taken."""
    following = also(POWER, {b"^": CARET})


class TwoDigitExponent(Formulas):
    """A second digit of an exponent taken."""
    following = also(POWER, {DIGITS: POWER})


class ExponentFromTwo(Formulas):
    """An exponent of 0, 1 or 9 refused as text."""
    following = only(CARET, {b"2345678": POWER})


class ExponentNineRefused(Formulas):
    """An exponent of 9 refused as text."""
    following = only(CARET, {b"012345678": POWER})


class FactorNine(Formulas):
    """`f9` taken for a factor beyond the count."""
    following = only(LETTER, {b"123456789": ATOM})


class FactorZero(Formulas):
    """`f0` taken."""
    following = only(LETTER, {b"012345678": ATOM})


class SevenFactors(Formulas):
    """`f8` refused as text."""
    following = only(LETTER, {b"1234567": ATOM})


class MinusInFront(Formulas):
    """A minus sign before an operand taken, as if 0 stood before it."""
    following = also(BEGIN, {b"-": BEGIN})

    def tokens(self, text):
        return super().tokens(re.sub(rb"(?<![0-9)])-", b"0-", text))


class PlusInFront(Formulas):
    """A plus sign before an operand taken, and dropped."""
    following = also(BEGIN, {b"+": BEGIN})

    def tokens(self, text):
        return super().tokens(re.sub(rb"(?<![0-9)])\+", b"", text))


class SignLeftOut(Formulas):
    """A product without its sign taken before a bracket and before `f`."""
    following = table({
        **FOLLOWING, **{last: {**FOLLOWING[last], b"f": LETTER, b"(": BEGIN} for last in (WHOLE, PART, ATOM)},
        POWER: {**FOLLOWING[POWER], b"(": BEGIN}})

    def tokens(self, text):
        return super().tokens(re.sub(rb"(?<=[0-9)])(?=[f(])", b"*", text))


class SpacesSkipped(Formulas):
    """Spaces taken, and dropped."""
    def call(self, text, count):
        return super().call(text.replace(b" ", b""), count)


class ByteThirteenSkipped(Formulas):
    """Byte 13 at the end taken, and dropped."""
    def call(self, text, count):
        return super().call(text.removesuffix(b"\r"), count)


class CapitalFactors(Formulas):
    """`F1` taken for `f1`."""
    def call(self, text, count):
        return super().call(text.replace(b"F", b"f"), count)


class UnclosedTaken(Formulas):
    """Brackets that are not closed taken, as if they were at the end."""
    def call(self, text, count):
        behind, state = self.read(text)
        return super().call(text + b")" * state.open if behind == text else text, count)


class EmptyBrackets(Formulas):
    """`)` behind `(` found one byte too late."""
    def place(self, text):
        place = super().place(text)
        return place + 1 if place and text[place - 2:place] == b"()" else place


# ---- the place of 19

class PlaceFromZero(Formulas):
    """The place of 19 counted from 0."""
    def place(self, text):
        place = super().place(text)
        return place and place - 1


class PlaceBehind(Formulas):
    """The place of 19 one byte behind the one that can't follow."""
    def place(self, text):
        place = super().place(text)
        return place and min(place + 1, len(text) + 1)


class LastForEnd(Formulas):
    """The last byte for a text that stops early."""
    def place(self, text):
        place = super().place(text)
        return place and min(place, max(len(text), 1))


class UnclosedAtBracket(Formulas):
    """The bracket that is not closed for a text that ends otherwise."""
    def place(self, text):
        behind, state = self.read(text)
        if behind != text or not state.open or state.last not in self.ending:
            return super().place(text)
        opened = []
        for at, byte in enumerate(text, 1):
            if byte == OPENING[0]:
                opened.append(at)
            elif byte == CLOSING[0]:
                opened.pop()
        return opened[-1]


class DeepAfterwards(Formulas):
    """The 17th open bracket found where the byte behind it is looked at."""
    def place(self, text):
        behind, state = self.read(text)
        deep = state.open == self.most_open and state.last == BEGIN and text[len(behind):].startswith(OPENING)
        return super().place(text) + 1 if deep else super().place(text)


class AtToken(Formulas):
    """The first byte of a factor or constant for one that is none."""
    def place(self, text):
        place = super().place(text)
        if place is None:
            return None
        token = re.search(rb"(?:f|[0-9]+\.?[0-9]*)\Z", text[:place - 1])
        number = token and (token[0] in (b"f",) or token[0].endswith(b".") or text[place - 1:place].isdigit())
        return token.start() + 1 if number else place


class AtCaret(Formulas):
    """`^` itself for an exponent that is none."""
    def place(self, text):
        place = super().place(text)
        return place - 1 if place and text[:place - 1].endswith(b"^") else place


class AtPoint(Formulas):
    """The point itself for decimals that are none."""
    def place(self, text):
        place = super().place(text)
        return place - 1 if place and text[:place - 1].endswith(b".") else place


class BracketsFirst(Formulas):
    """A closing bracket too many found before all else."""
    def place(self, text):
        opened = 0
        for at, byte in enumerate(text, 1):
            opened += (byte == OPENING[0]) - (byte == CLOSING[0])
            if opened < 0:
                return at
        return super().place(text)


class EmptyAtZero(Formulas):
    """The place 0 for the empty text."""
    def place(self, text):
        return super().place(text) if text else 0


class ShortTexts(Formulas):
    """A text of 1,024 bytes refused with 19 at 1,025."""
    def check_length(self, text):
        if len(text) >= self.most_text:
            refuse(19, MOST_TEXT + 1)


class LongTexts(Formulas):
    """A text of 1,025 bytes read on."""
    most_text = MOST_TEXT + 1


class EndCounted(Formulas):
    """The final byte 10 counted as a byte of the text."""
    def ended(self, behind):
        self.check_length(behind)
        return super().ended(behind)


class LongAfterwards(Formulas):
    """1,025 only where no earlier byte of a longer text can't follow."""
    def check_length(self, text):
        if len(text) > self.most_text:
            behind, _ = self.read(text[:self.most_text])
            refuse(19, len(behind) + 1)


class LongAtEnd(Formulas):
    """One past the end for a longer text."""
    def check_length(self, text):
        if len(text) > self.most_text:
            refuse(19, len(text) + 1)


class LongAsSheet(Formulas):
    """1 for a longer text."""
    def check_length(self, text):
        if len(text) > self.most_text:
            refuse(1, 0)


# ---- constants

class Folding(Formulas):
    """Constants that meet worked out, rounded down to a unit; a text with no operation left to loading."""
    def met(self, sign, left, right):
        if not constant(left):
            return super().met(sign, left, right)
        x, y = left.units, right.units
        if sign == b"/" and y == 0:
            refuse(20, 0)
        return Constant(x + y if sign == b"+" else x - y if sign == b"-" else x * y // UNIT if sign == b"*" else x * UNIT // y)

    def powered(self, operand, exponent):
        return Constant(operand.units ** exponent // UNIT ** (exponent - 1) if exponent else UNIT)

    def joined(self, lines, sign, left, right):
        if sign == b"/" and constant(right) and not constant(left) and right.units:
            return lines.write("mulc", left, UNIT * UNIT // right.units)
        return super().joined(lines, sign, left, right)

    def check_operations(self, lines, operand):
        """Nothing: loading finds that there is no operation."""


class SumsOfConstants(Formulas):
    """Two constants at `+` worked out."""
    def met(self, sign, left, right):
        return Constant(left.units + right.units) if sign == b"+" else super().met(sign, left, right)


class DifferencesOfConstants(Formulas):
    """Two constants at `-` worked out."""
    def met(self, sign, left, right):
        return Constant(left.units - right.units) if sign == b"-" else super().met(sign, left, right)


class ProductsOfConstants(Formulas):
    """Two constants at `*` worked out."""
    def met(self, sign, left, right):
        return Constant(left.units * right.units // UNIT) if sign == b"*" else super().met(sign, left, right)


class ConstantDivisors(Formulas):
    """A line over a constant taken."""
    def joined(self, lines, sign, left, right):
        if sign == b"/" and constant(right) and not constant(left) and right.units:
            return lines.write("mulc", left, UNIT * UNIT // right.units)
        return super().joined(lines, sign, left, right)


class QuotientsOfConstants(Formulas):
    """A constant over a constant worked out."""
    def met(self, sign, left, right):
        if sign == b"/" and constant(left) and right.units:
            return Constant(left.units * UNIT // right.units)
        return super().met(sign, left, right)


class PoweredConstants(Formulas):
    """A powered constant worked out."""
    def powered(self, operand, exponent):
        return Constant(operand.units ** exponent // UNIT ** (exponent - 1) if exponent else UNIT)


class FactorsAlone(Formulas):
    """A factor alone left to loading."""
    def check_operations(self, lines, operand):
        if constant(operand):
            super().check_operations(lines, operand)


class ConstantsAlone(Formulas):
    """A constant alone left to loading."""
    def check_operations(self, lines, operand):
        if not constant(operand):
            super().check_operations(lines, operand)


class FactorKept(Formulas):
    """A factor alone written with 0 added."""
    def check_operations(self, lines, operand):
        if not lines and not constant(operand):
            lines.write("addc", operand, 0)
        super().check_operations(lines, operand)


class BracketsCount(Formulas):
    """A bracket alone counted as an operation."""
    def lines(self, text, factors):
        if re.fullmatch(rb"\(+f[1-8]\)+", text):
            return []
        return super().lines(text, factors)


class NoBracketedConstants(Formulas):
    """A bracket round a constant alone refused with 20."""
    def bracketed(self, operand):
        return self.powered(operand, 1) if constant(operand) else operand


class NeighboursMeet(Formulas):
    """20 for two constants next to each other, as in `f1*2*3`."""
    def lines(self, text, factors):
        if re.search(rb"(?<![f0-9.^])[0-9.]+[-+*][0-9]", text) or re.search(rb"[*+-][0-9.]+[-+*][0-9]", text):
            refuse(20, 0)
        return super().lines(text, factors)


class TwentyAtOne(Formulas):
    """20 with the place 1."""
    def call(self, text, count):
        try:
            return super().call(text, count)
        except Refused as refused:
            number, place = refused.args[0]
            refuse(number, 1 if number == 20 else place)


class AnyOperations(Formulas):
    def check_operations(self, lines, operand):
        pass


def mixed_before(text):
    """Whether constants meet before the byte that can't follow: in the longest start of the text that is a formula once its brackets are closed."""
    rules = AnyOperations()
    behind, _ = rules.read(text)
    for end in range(len(behind), 0, -1):
        start = behind[:end] + b")" * rules.read(behind[:end])[1].open
        if rules.place(start) is None:
            try:
                rules.lines(start, MOST_FACTORS)
            except Refused:
                return True
            return False
    return False


class TwentyAtOnce(Formulas):
    """20 for constants that meet before a byte that can't follow."""
    def place(self, text):
        place = super().place(text)
        if place is not None and mixed_before(text):
            refuse(20, 0)
        return place


class TwentyBehindCount(Formulas):
    """3 before 20."""
    def sheet(self, text, count):
        try:
            return super().sheet(text, count)
        except Refused:
            if not 1 <= count <= MOST_FACTORS:
                refuse(3, 1)
            raise


# ---- the order of signs

class FromTheRight(Formulas):
    """Signs of one sort taken from the right."""
    def sooner(self, waiting, sign):
        return BINDING[waiting] > BINDING[sign]


class SumsFromTheRight(Formulas):
    """`+` and `-` taken from the right."""
    def sooner(self, waiting, sign):
        return super().sooner(waiting, sign) and not BINDING[waiting] == BINDING[sign] == 1


class ProductsFromTheRight(Formulas):
    """`*` and `/` taken from the right."""
    def sooner(self, waiting, sign):
        return super().sooner(waiting, sign) and not BINDING[waiting] == BINDING[sign] == 2


class MinusAfterPlus(Formulas):
    """`+` before `-`."""
    def sooner(self, waiting, sign):
        return super().sooner(waiting, sign) and (waiting, sign) != (b"-", b"+")


class OverAfterTimes(Formulas):
    """`*` before `/`."""
    def sooner(self, waiting, sign):
        return super().sooner(waiting, sign) and (waiting, sign) != (b"/", b"*")


class AllAlike(Formulas):
    """All four signs taken from the left alike."""
    def sooner(self, waiting, sign):
        return True


class PowersOfProducts(Formulas):
    """`^` taken after `*` and `/`."""
    def tokens(self, text):
        return super().tokens(re.sub(rb"(?<![\^f0-9.])[f0-9.]+(?:[*/][f0-9.]+)+(?=\^)", rb"(\g<0>)", text))


class RightFirst(Formulas):
    """The lines of the right operand written before those of the left one."""
    def ordered(self, text):
        parts = []
        for token in super().ordered(text):
            if token in BINDING:
                right, left = parts.pop(), parts.pop()
                parts.append(right + left + [token])
            elif token == CLOSING or token.startswith(b"^"):
                parts[-1] = parts[-1] + [token]
            else:
                parts.append([token])
        return parts[0]

    def joined(self, lines, sign, left, right):
        return super().joined(lines, sign, right, left)


# ---- lines

class SumTurned(Formulas):
    """The right operand of a sum named first."""
    def plus(self, lines, left, right):
        return super().plus(lines, right, left)


class ProductTurned(Formulas):
    """The right operand of a product named first."""
    def times(self, lines, left, right):
        return super().times(lines, right, left)


class NegatedFirst(Formulas):
    """A difference with the negated line named first."""
    def minus(self, lines, left, right):
        return super().minus(lines, left, right) if constant(left) or constant(right) else lines.write("add", self.negated(lines, right), left)


class InverseFirst(Formulas):
    """A quotient with the inverse named first."""
    def over(self, lines, left, right):
        return super().over(lines, left, right) if constant(left) else lines.write("mul", lines.write("inv", right), left)


class LeftNegated(Formulas):
    """A difference the other way round."""
    def minus(self, lines, left, right):
        return super().minus(lines, left, right) if constant(left) or constant(right) else lines.write("add", self.negated(lines, left), right)


class LeftInverted(Formulas):
    """A quotient the other way round."""
    def over(self, lines, left, right):
        return super().over(lines, left, right) if constant(left) else lines.write("mul", lines.write("inv", left), right)


class AddedThenNegated(Formulas):
    """A constant less a line as `addc` and then `mulc`."""
    def minus(self, lines, left, right):
        return self.negated(lines, lines.write("addc", right, -left.units)) if constant(left) else super().minus(lines, left, right)


class ConstantLessUnnegated(Formulas):
    """A constant less a line as a line less the constant."""
    def minus(self, lines, left, right):
        return lines.write("addc", right, -left.units) if constant(left) else super().minus(lines, left, right)


class LessConstantAdded(Formulas):
    """A line less a constant with the constant's sign forgotten."""
    def minus(self, lines, left, right):
        return lines.write("addc", left, right.units) if constant(right) else super().minus(lines, left, right)


class MultipliedThenInverted(Formulas):
    """A constant over a line as `mulc` and then `inv`."""
    def over(self, lines, left, right):
        return lines.write("inv", lines.write("mulc", right, left.units)) if constant(left) else super().over(lines, left, right)


class ConstantOverAsProduct(Formulas):
    """A constant over a line as their product."""
    def over(self, lines, left, right):
        return lines.write("mulc", right, left.units) if constant(left) else super().over(lines, left, right)


class OneOverShort(Formulas):
    """1 over a line as `inv` alone."""
    def over(self, lines, left, right):
        return lines.write("inv", right) if left == Constant(UNIT) else super().over(lines, left, right)


class MinusOneUnit(Formulas):
    """A minus as `mulc` by −1."""
    def negated(self, lines, operand):
        return lines.write("mulc", operand, -1)


class MinusZeroWritten(Formulas):
    """A subtracted 0 written `-0`."""
    def minus(self, lines, left, right):
        return lines.write("addc", left, "-0") if right == Constant(0) else super().minus(lines, left, right)


class SubtractedZeroLeftOut(Formulas):
    """A subtracted 0 left out."""
    def minus(self, lines, left, right):
        return left if right == Constant(0) else super().minus(lines, left, right)


class AddedZeroLeftOut(Formulas):
    """An added 0 left out."""
    def plus(self, lines, left, right):
        return left if right == Constant(0) else right if left == Constant(0) else super().plus(lines, left, right)


class TimesOneLeftOut(Formulas):
    """A multiplication by 1 left out."""
    def times(self, lines, left, right):
        return left if right == Constant(UNIT) else right if left == Constant(UNIT) else super().times(lines, left, right)


class ZeroFirstLeftOut(Formulas):
    """0 less a line as `mulc` alone."""
    def minus(self, lines, left, right):
        return self.negated(lines, right) if left == Constant(0) else super().minus(lines, left, right)


class SquaresAsProducts(Formulas):
    """A second power as a product."""
    def power(self, lines, operand, exponent):
        return lines.write("mul", operand, operand) if exponent == 2 and not constant(operand) else super().power(lines, operand, exponent)


class FirstPowerLeftOut(Formulas):
    """The exponent 1 left out."""
    def power(self, lines, operand, exponent):
        return operand if exponent == 1 else super().power(lines, operand, exponent)


class ItselfAsMultiple(Formulas):
    """A line added to itself as twice the line."""
    def plus(self, lines, left, right):
        return lines.write("mulc", left, 2 * UNIT) if left == right else super().plus(lines, left, right)


class WholeUnits(Formulas):
    """Constants as whole numbers of units, without those behind the point."""
    def units(self, numeral):
        return int(numeral.partition(b".")[0])


class DecimalsDropped(Formulas):
    """The digits behind the point dropped."""
    def units(self, numeral):
        return super().units(numeral.partition(b".")[0])


class DecimalsUnshifted(Formulas):
    """The digits behind the point as so many units."""
    def units(self, numeral):
        whole, _, part = numeral.partition(b".")
        return int(whole) * UNIT + int(part or b"0")


class FourthDecimalDropped(Formulas):
    """The fourth decimal dropped."""
    def units(self, numeral):
        return super().units(numeral) // 10 * 10


class ConstantsAsDoubles(Formulas):
    """Constants by doubles, and what is behind the point dropped."""
    def units(self, numeral):
        return int(float(numeral) * UNIT)


class ConstantsOf32Bits(Formulas):
    """Constants of which 32 bits are left."""
    def units(self, numeral):
        return super().units(numeral) % 2 ** 32


class ConstantsCut(Formulas):
    """Constants beyond the limit taken for the limit."""
    def units(self, numeral):
        return min(super().units(numeral), LIMIT)


class OctalZeros(Formulas):
    """Digits behind a first 0 read as octal ones."""
    def units(self, numeral):
        whole, point, part = numeral.partition(b".")
        octal = len(whole) > 1 and whole.startswith(b"0") and not {*whole} & {*b"89"}
        return super().units((b"%d" % int(whole, 8) if octal else whole) + point + part)


# ---- factors, counts and the sheet

class CountAsGiven(Formulas):
    """A count outside 1 to 8 written and counted as it is."""
    def counted(self, count):
        return count


class CountAsEight(Formulas):
    """A count above 8 taken for 8."""
    def counted(self, count):
        return min(super().counted(count), MOST_FACTORS) if count > MOST_FACTORS else super().counted(count)


class CountAsOne(Formulas):
    """A count below 1 taken for 1."""
    def counted(self, count):
        return 1 if count < 1 else super().counted(count)


class CountOfOneByte(Formulas):
    """A count of which 8 bits are left."""
    def counted(self, count):
        return super().counted(count % 256)


class CountUnsigned(Formulas):
    """The minus sign of a count forgotten."""
    def counted(self, count):
        return super().counted(abs(count))


class CountOf32Bits(Formulas):
    """A count of which 32 bits are left."""
    def counted(self, count):
        return super().counted(count % 2 ** 32)


class CountFirst(Formulas):
    """3 before 19."""
    def check_text(self, text):
        if not 1 <= self.count <= MOST_FACTORS:
            refuse(3, 1)
        super().check_text(text)

    def call(self, text, count):
        self.count = count
        return super().call(text, count)


class CountBeforeLength(Formulas):
    """3 before 19 of a text that is too long."""
    def first_line(self, data):
        count, behind = super().first_line(data)
        if not 1 <= count <= MOST_FACTORS:
            refuse(3, 1)
        return count, behind


class CountBeforeOne(Formulas):
    """3 before 1."""
    def sheet(self, text, count):
        sheet = super().sheet(text, count)
        if not 1 <= count <= MOST_FACTORS:
            refuse(3, 1)
        return sheet


class BeyondAsItself(Formulas):
    """A factor beyond the count written as itself."""
    def factor(self, number, factors):
        return number


class BeyondAsText(Formulas):
    """19 for a factor beyond the count."""
    def call(self, text, count):
        self.check_text(text)
        if 1 <= count <= MOST_FACTORS:
            for found in re.finditer(rb"f([1-8])", text):
                if int(found[1]) > count:
                    refuse(19, found.end())
        return super().call(text, count)


class BeyondFirst(Formulas):
    """5 for a factor beyond the count before all that loading refuses."""
    def call(self, text, count):
        try:
            return super().call(text, count)
        except Refused as refused:
            sheet = self.sheet(text, count) if refused.args[0].number not in (3, 19, 20) else b""
            for place, line in enumerate(sheet.split(b"\n"), 1):
                if re.match(rb"[a-z]+\t0\b|(?:add|mul)\t\d+\t0$", line):
                    refuse(5, place)
            raise


class BeyondByOne(Formulas):
    """The factor behind the last one taken as within the count."""
    def factor(self, number, factors):
        return number if number <= factors + 1 else 0


class LastFactorBeyond(Formulas):
    """The last factor taken for one beyond the count."""
    def factor(self, number, factors):
        return number if number < factors or factors == 1 else 0


class LinesFromOne(Formulas):
    """Lines numbered without the factors."""
    def sheet(self, text, count):
        factors = self.counted(count)
        lines = [Operation(name, tuple(number - factors if number > factors and k < (2 if name in ("add", "mul") else 1) else number
                                       for k, number in enumerate(numbers))) for name, numbers in self.lines(text, factors)]
        return sheet_text_with((), Sheet(factors, tuple(lines)))


class YearWritten(Formulas):
    """The year named in the sheet."""
    def sheet(self, text, count):
        factors = self.counted(count)
        return sheet_text_with((2016,), Sheet(factors, tuple(self.lines(text, factors))))


class SheetCut(Formulas):
    """A sheet over 4,096 bytes cut off there, and loaded."""
    def sheet(self, text, count):
        return super().sheet(text, count)[:MOST_BYTES]


class NotLoaded(Formulas):
    """The sheet printed without being loaded."""
    def call(self, text, count):
        self.check_text(text)
        return self.sheet(text, count)


class PlaceOfLine(Formulas):
    """The codelist line for the text line of what loading refuses."""
    def call(self, text, count):
        try:
            return super().call(text, count)
        except Refused as refused:
            number, place = refused.args[0]
            refuse(number, place + count - 1 if number in (4, 5, 6, 7, 15) else place)


# ---- the program

class OtherFirstLine(Formulas):
    def first_line(self, data):
        line, ended, behind = data.partition(b"\n")
        return super().first_line(self.rewritten(line) + ended + behind)


class ThirdFieldTaken(OtherFirstLine):
    """A year in the first line taken, and dropped."""
    def rewritten(self, line):
        return re.sub(rb"\A(factors\t[^\t]*)\t" + NUMERAL + rb"\Z", rb"\1", line)


class ZeroInCount(OtherFirstLine):
    """Zeros in front of the count taken."""
    def rewritten(self, line):
        return re.sub(rb"\A(factors\t-?)0+(?=[0-9])", rb"\1", line)


class PlusInCount(OtherFirstLine):
    """A plus sign before the count taken."""
    def rewritten(self, line):
        return line.replace(b"\t+", b"\t")


class BlankInFirstLine(OtherFirstLine):
    """A blank for the tab taken."""
    def rewritten(self, line):
        return line.replace(b" ", b"\t", 1)


class ByteThirteenInFirstLine(OtherFirstLine):
    """Byte 13 at the end of the first line taken."""
    def rewritten(self, line):
        return line.removesuffix(b"\r")


class NegativeCountRefused(OtherFirstLine):
    """2 at 1 for a count below 0."""
    def rewritten(self, line):
        return line.replace(b"\t-", b"\t--")


class LongCountRefused(OtherFirstLine):
    """2 at 1 for a count of more digits than one."""
    def rewritten(self, line):
        return line if len(line) <= 9 else b""


class CountNineRefused(OtherFirstLine):
    """2 at 1 for a count of 9 or 0."""
    def rewritten(self, line):
        return b"" if line in (b"factors\t9", b"factors\t0") else line


class AnyFirstLine(Formulas):
    """3 at 1 for a first line of another form."""
    def first_line(self, data):
        try:
            return super().first_line(data)
        except Refused:
            refuse(3, 1)


class FirstLineUnended(Formulas):
    """2 at 2 for a first line without its byte 10."""
    def first_line(self, data):
        return super().first_line(data if b"\n" in data else data + b"\n")


class EndNotAsked(Formulas):
    """A text without its byte 10 taken."""
    def check_end(self, ended):
        pass


class NothingIsEmpty(Formulas):
    """Nothing behind the first line taken for the empty text."""
    def ended(self, behind):
        return super().ended(behind or b"\n")


class EndAtOne(Formulas):
    """2 at 1 for a text without its byte 10."""
    def check_end(self, ended):
        if not ended:
            refuse(2, 1)


class EndBeforeLength(Formulas):
    """2 at 2 before 19 at 1,025."""
    def ended(self, behind):
        text, ended = super().ended(behind)
        self.check_end(ended)
        return text, ended


class EndBehindText(Formulas):
    """2 at 2 behind 19 and 20."""
    def check_end(self, ended):
        self.unended = not ended

    def sheet(self, text, count):
        sheet = super().sheet(text, count)
        super().check_end(not self.unended)
        return sheet


class EndBehindFaults(Formulas):
    """2 at 2 behind 19, and before 20."""
    def check_end(self, ended):
        self.unended = not ended

    def check_text(self, text):
        super().check_text(text)
        super().check_end(not self.unended)


class FirstByteTen(Formulas):
    """The text ended by its first byte 10, and what is behind it dropped."""
    def ended(self, behind):
        text, ended, _ = behind.partition(b"\n")
        return text, bool(ended)


class SecondLineRefused(Formulas):
    """2 at 3 for a byte 10 within the text."""
    def ended(self, behind):
        text, ended = super().ended(behind)
        if b"\n" in text:
            refuse(2, 3)
        return text, ended


class EmptyLinesBehind(Formulas):
    """Empty lines behind the text dropped."""
    def ended(self, behind):
        return (behind.rstrip(b"\n"), True) if behind.endswith(b"\n") else (behind, False)


class LengthFirst(Formulas):
    """19 at 1,025 before 2 at 1."""
    def first_line(self, data):
        self.check_length(self.ended(data.partition(b"\n")[2])[0])
        return super().first_line(data)


class EmptyAsConstants(Formulas):
    """20 for the empty text."""
    def place(self, text):
        return super().place(text) if text else refuse(20, 0)


class InputTooLong(Formulas):
    """1 for an input over 8,192 bytes."""
    def first_line(self, data):
        if len(data) > 8192:
            refuse(1, 0)
        return super().first_line(data)


# ---- where each of them can give something else: by the refusal that the right rules give

TWO_ERRORS = [
    ThirdFieldTaken, ZeroInCount, PlusInCount, BlankInFirstLine, ByteThirteenInFirstLine, AnyFirstLine, FirstLineUnended, LengthFirst, InputTooLong,
    EndNotAsked, NothingIsEmpty, EndAtOne, EndBehindText, EndBehindFaults,
]

NINETEEN_ERRORS = [
    SeventeenOpen, AnyOpen, SevenDigits, FiveDecimals, DigitsTogether, PointAtEnd, PointInFront, SecondPower, TwoDigitExponent, FactorNine,
    FactorZero, MinusInFront, PlusInFront, SignLeftOut, SpacesSkipped, ByteThirteenSkipped, CapitalFactors, UnclosedTaken, EmptyBrackets,
    PlaceFromZero, PlaceBehind, LastForEnd, UnclosedAtBracket, DeepAfterwards, AtToken, AtCaret, AtPoint, BracketsFirst, EmptyAtZero,
    EmptyAsConstants, LongTexts, LongAfterwards, LongAtEnd, LongAsSheet, TwentyAtOnce, CountFirst, CountBeforeLength, EndBeforeLength, FirstByteTen,
    SecondLineRefused, EmptyLinesBehind,
]

TWENTY_ERRORS = [
    Folding, SumsOfConstants, DifferencesOfConstants, ProductsOfConstants, ConstantDivisors, QuotientsOfConstants, PoweredConstants, FactorsAlone,
    ConstantsAlone, FactorKept, BracketsCount, TwentyAtOne, TwentyBehindCount,
]

COUNT_ERRORS = [
    CountAsGiven, CountAsEight, CountAsOne, CountOfOneByte, CountUnsigned, CountOf32Bits, CountBeforeOne, NegativeCountRefused, LongCountRefused,
    CountNineRefused,
]

SHEET_ERRORS = [
    FifteenOpen, BracketsCounted, FiveDigits, ThreeDecimals, ZeroInFrontRefused, ExponentFromTwo, ExponentNineRefused, SevenFactors, ShortTexts,
    EndCounted, NoBracketedConstants, NeighboursMeet, FromTheRight, SumsFromTheRight, ProductsFromTheRight, MinusAfterPlus, OverAfterTimes, AllAlike,
    PowersOfProducts, RightFirst, SumTurned, ProductTurned, NegatedFirst, InverseFirst, LeftNegated, LeftInverted, AddedThenNegated,
    ConstantLessUnnegated, LessConstantAdded, MultipliedThenInverted, ConstantOverAsProduct, OneOverShort, MinusOneUnit, MinusZeroWritten,
    SubtractedZeroLeftOut, AddedZeroLeftOut, TimesOneLeftOut, ZeroFirstLeftOut, SquaresAsProducts, FirstPowerLeftOut, ItselfAsMultiple, WholeUnits,
    DecimalsDropped, DecimalsUnshifted, FourthDecimalDropped, ConstantsAsDoubles, ConstantsOf32Bits, ConstantsCut, OctalZeros, BeyondAsItself,
    BeyondAsText, BeyondFirst, BeyondByOne, LastFactorBeyond, LinesFromOne, YearWritten, SheetCut, NotLoaded, PlaceOfLine,
]

FORMULA_ERRORS = TWO_ERRORS + NINETEEN_ERRORS + TWENTY_ERRORS + COUNT_ERRORS + SHEET_ERRORS


def errors_of(answer):
    """Those that are tried on an input of which the right rules give this."""
    number = answer.number if isinstance(answer, Refusal) else None
    return {1: COUNT_ERRORS + SHEET_ERRORS, 2: TWO_ERRORS, 3: COUNT_ERRORS, 19: NINETEEN_ERRORS, 20: TWENTY_ERRORS}.get(number, SHEET_ERRORS)
