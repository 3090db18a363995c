"""Compares the program `sisters` with 02, request 7 (tests/reference/sisters.py): every printed byte.

Besides, of what the program printed: the exact difference of the two premiums is inside, equal boats have the limits 0 and 0, and the boats exchanged
have the limits with their signs turned and their places exchanged. And of the class's slopes: at two random points of the class, with fractions, the
two sums of products, not rounded, have the exact difference between them. What an input is counted as comes from its bytes, not from the name it was
made under.
"""
import random
import re
from fractions import Fraction
from functools import lru_cache

import years
from errors import SISTER_BOAT_ERRORS, SISTER_LIMIT_ERRORS, SISTER_LINE_ERRORS, YEAR_LOADING_ERRORS, in_32_bits, year_errors_of
from orders import BOX_COUNT, BOX_FORM, DIVISOR, INPUT, PAST, TOO_FAR, TURNED, held, loosely, number_of
from pairs import FAR, MISSPELT, NEXT
from reference.exact import TooLarge, exact_difference, some_point
from reference.outcome import Refusal
from reference.ranges import LIMIT, UNIT, Range
from reference.rating import Result
from reference.sheet import EARLIER, MOST_BYTES, MOST_FACTORS, MOST_LINES, NUMERAL, PRESENT, REFERENCES, text_lines
from reference.sisters import Difference, Sisters, difference_printed, rated
from reference.text import BOX_LINE, MOST_INPUT, parted
from reference.tidy import last_line
from tally import Tally, print_of, unlike

POINTS_SHARE = 0.5  # of the accepted inputs: two points with fractions
DUE_SHARE = 0.25  # of the accepted inputs: whether no refusal is due
EXCHANGED_SHARE = 0.3  # of the accepted inputs: by the program once more, the boats exchanged

FIELD = re.compile(NUMERAL)
MOST_SHOWN = 20  # boat lines: there is no way that takes more
EIGHT, NINE = "the boats' 8", "the boats' 9"
LOADING = (*range(1, 8), 15, 17)
BOX_KINDS = (BOX_FORM, BOX_COUNT, TURNED, TOO_FAR, DIVISOR, PAST)
SIGNS = {-1: "below 0", 0: "0", 1: "above 0"}
SLOPES = ("above 0", "below 0", "across 0", "0 itself", "from 0 on", "up to 0")

# How boat lines are of another form or number: of the bytes behind the line `boats`, as lines, whether the last one has its byte 10, and n. Where a
# line is asked for its numerals, it has no other fields.
WAYS = {
    "no boat line": lambda lines, ended, n: not lines,
    "one boat line": lambda lines, ended, n: ended and counts(lines) == [n],
    "three boat lines": lambda lines, ended, n: ended and counts(lines) == [n] * 3,
    "four boat lines": lambda lines, ended, n: ended and counts(lines) == [n] * 4,
    "an empty line in front": lambda lines, ended, n: ended and not lines[0] and counts(lines[1:]) == [n, n],
    "an empty line between": lambda lines, ended, n: ended and not lines[1] and counts(lines[:1] + lines[2:]) == [n, n],
    "an empty line behind": lambda lines, ended, n: ended and not lines[-1] and counts(lines[:-1]) == [n, n],
    "two empty lines": lambda lines, ended, n: ended and lines == [b"", b""],
    "bytes behind": lambda lines, ended, n: not ended and counts(lines[:-1]) == [n, n],
    "a line `boats` between": lambda lines, ended, n: ended and lines[1] == b"boats" and counts(lines[:1] + lines[2:]) == [n, n],
    "a line `boats` behind": lambda lines, ended, n: ended and lines[-1] == b"boats" and counts(lines[:-1]) == [n, n],
    "the line `boats` twice": lambda lines, ended, n: ended and lines[0] == b"boats" and counts(lines[1:]) == [n, n],
    "no byte 10 at the end": lambda lines, ended, n: not ended and counts(lines) == [n, n],
    "no byte 10 between": lambda lines, ended, n: ended and n > 1 and counts(lines) == [2 * n - 1],
    "a numeral too many in the first line": lambda lines, ended, n: ended and counts(lines) == [n + 1, n],
    "a numeral too many in the second line": lambda lines, ended, n: ended and counts(lines) == [n, n + 1],
    "a numeral too many in both lines": lambda lines, ended, n: ended and counts(lines) == [n + 1, n + 1],
    "a numeral too few in the first line": lambda lines, ended, n: ended and counts(lines) == [n - 1, n],
    "a numeral too few in the second line": lambda lines, ended, n: ended and counts(lines) == [n, n - 1],
    "a numeral too few in both lines": lambda lines, ended, n: ended and counts(lines) == [n - 1, n - 1],
    "a numeral of the first line in the second": lambda lines, ended, n: ended and counts(lines) == [n - 1, n + 1],
    "a numeral of the second line in the first": lambda lines, ended, n: ended and counts(lines) == [n + 1, n - 1],
    "eight numerals a line": lambda lines, ended, n: ended and n < MOST_FACTORS and counts(lines) == [MOST_FACTORS] * 2,
    "all numerals in one line": lambda lines, ended, n: ended and counts(lines) == [2 * n],
    "a line for each numeral": lambda lines, ended, n: ended and n > 1 and counts(lines) == [1] * 2 * n,
    "a line for each factor": lambda lines, ended, n: ended and n > 2 and counts(lines) == [2] * n,
    "blanks for the tabs": lambda lines, ended, n: ended and n > 1 and counts(line.replace(b" ", b"\t") for line in lines) == [n, n],
    "two tabs together": lambda lines, ended, n: ended and counts(line.replace(b"\t\t", b"\t") for line in lines) == [n, n],
    "a tab in front": lambda lines, ended, n: ended and counts(line.removeprefix(b"\t") for line in lines) == [n, n],
    "a tab behind": lambda lines, ended, n: ended and counts(line.removesuffix(b"\t") for line in lines) == [n, n],
    "byte 13 before byte 10": lambda lines, ended, n: ended and counts(line.removesuffix(b"\r") for line in lines) == [n, n],
}

LIMIT_RULES = [
    *(f"sisters: accepted, n = {factors}" for factors in range(1, MOST_FACTORS + 1)),
    *(f"sisters: accepted, by `{name}` at the end" for name in REFERENCES),
    "sisters: equal boats, n = 1", "sisters: equal boats, n > 1", "sisters: apart in one factor of more", "sisters: apart in some factors",
    "sisters: apart in all factors, n = 1", "sisters: apart in all factors, n > 1", "sisters: apart in all of eight factors",
    "sisters: apart in a factor that does not count",
    *(f"sisters: a difference {SIGNS[sign]}, of a slope {slope}" for sign in (-1, 1) for slope in SLOPES),
    "sisters: differences of both signs",
    *(f"sisters: the {boat} boat at the {end} end of a range" for boat in ("first", "second") for end in ("low", "high")),
    "sisters: from the low end of a range to the high one", "sisters: from the high end of a range to the low one", "sisters: a range of one point",
    *(f"sisters: the exact difference is {sign}, of different boats" for sign in SIGNS.values()),
    *(f"sisters: the {end} limit is the exact difference, of different boats" for end in ("low", "high")),
    "sisters: both limits are the exact difference, and it is not 0", "sisters: neither limit is the exact difference",
    *(f"sisters: the {end} limit is rounded, {sign}" for end in ("low", "high") for sign in ("above 0", "below 0")),
    "sisters: rounding each product would give wider limits",
    "sisters: a limit beyond what the value's range allows", "sisters: a difference above 2^31", "sisters: a difference of 4·10^9",
    *(f"sisters: {what}" for what in (
        "a least sum below -2^63", "a greatest sum above 2^63", "a least sum below -2^64", "a greatest sum above 2^64", "sums of 6.4·10^19",
        "a least sum below -2^63, and no greatest one above 0", "a greatest sum above 2^63, and no least one below 0",
        "a sum under 2^63 by less than 2·10^9", "a sum above 2^63 by less than 2·10^9", "a sum under 2^64 by less than 2·10^9",
        "a sum above 2^64 by less than 2·10^9")),
    "sisters: exact: the difference inside the limits", "sisters: exact: two points with fractions", "sisters: exact: two points, all factors apart",
    "sisters: exact: two points, one factor apart", "sisters: exact: one point twice",
    "sisters: exact: the least sum is the difference", "sisters: exact: the greatest sum is the difference",
    "sisters: exchanged", "sisters: exchanged, and the limits are others",
]

NINE_RULES = [
    "sisters: 9 by the first boat alone", "sisters: 9 by the second boat alone", "sisters: 9 by both boats in one factor",
    "sisters: 9 by the first boat, and by the second in a later factor", "sisters: 9 by the second boat, and by the first in a later factor",
    "sisters: 9 by equal boats",
    *(f"sisters: 9 by a value {by} units {side}" for by in ("1", "some", "4·10^9", "more than 4·10^9") for side in ("below", "above")),
    "sisters: 9 by a value that is inside in 32 bits", "sisters: 9 by a value beyond the limit", "sisters: 9 by a value of ten digits",
    *(f"sisters: 9 at factor {factor}" for factor in range(1, MOST_FACTORS + 1)),
    "sisters: 9 at a factor that does not count",
]

EIGHT_RULES = [
    "sisters: 8, no line `boats`", *(f"sisters: 8, {way}" for way in WAYS), *(f"sisters: 8, {way}" for way in MISSPELT),
]

ORDER_RULES = [
    *(f"sisters: {number}, and the boats are well" for number in (*LOADING, *BOX_KINDS) if number != TURNED),  # nothing is inside such a range
    *(f"sisters: {number} over {later}" for number in (*LOADING, *BOX_KINDS) for later in (EIGHT, NINE)),
    f"sisters: {EIGHT} over {NINE}", f"sisters: 9 of the ranges over {NINE} at a lower factor", "sisters: equal boats of a refused class",
    "sisters: no line `box`", f"sisters: no line `box`, over {EIGHT}",
]

EDGE_RULES = [
    "sisters: empty input", "sisters: no byte 10", "sisters: `boats` at the start", "sisters: `boats` before `box`", "sisters: two lines `boats`",
    "sisters: `boats` without its byte 10", "sisters: `boats` without its byte 10 behind a class that would be refused otherwise",
    "sisters: nearly a line `boats`", "sisters: a line `box` behind `boats`",
    "sisters: 8,192 bytes, the class's 8", "sisters: 8,192 bytes, the boats' 8", "sisters: 8,193 bytes",
    "sisters: 1, but for the bytes of the boat lines", "sisters: 4,096 bytes of sheet", "sisters: 4,097 bytes of sheet",
    "sisters: accepted, 64 codelist lines with 8 factors",
]

YEAR_RULES = years.rules_of("sisters") + [
    *(f"sisters: 2014, {rule}" for rule in (
        "limits, and the same in 2016", "limits, and 2016 refuses the class", "the class refused, and not in 2016", "a boat outside", "exact")),
]


@lru_cache(maxsize=64)
def remembered(sheet, ends):
    """A class, rated once for the right rules and the wrong ones."""
    return rated(sheet, ends)


RIGHT = Sisters(remembered)


def loading_by(wrong):
    """The right rules but for those of loading."""
    rules = Sisters(remembered)
    rules.loading = wrong
    return rules


class SistersComparison(Tally):
    rules = LIMIT_RULES + NINE_RULES + EIGHT_RULES + ORDER_RULES + EDGE_RULES + YEAR_RULES
    errors = SISTER_LIMIT_ERRORS + SISTER_BOAT_ERRORS + SISTER_LINE_ERRORS + YEAR_LOADING_ERRORS

    def __init__(self, sisters):
        super().__init__()
        self.sisters = sisters

    def least(self, rule):
        """The random classes meet what two boats can have often; all else has inputs of its own, which are made a few times."""
        return 5 if rule in LIMIT_RULES else 3 if rule in NINE_RULES else 2

    def compare(self, name, text, expected=None):
        """One input; what the program prints of it is handed back."""
        rng = random.Random(text)
        answer = RIGHT.run(text)
        ours = difference_printed(answer)
        got = print_of(self.sisters, text)
        if expected is not None and ours != expected:
            complaint = f"--- figure\n{expected.decode()}--- reference\n{ours.decode()}"
        else:
            complaint = unlike(got, ours)
        if isinstance(answer, Refusal) or rng.random() < DUE_SHARE:
            complaint += self.order_complaint(text, answer)
        self.note_edges(text, answer)
        self.note_year(text, answer)
        self.catch_errors(ours, lambda wrong: difference_printed(loading_by(wrong).run(text)), year_errors_of(text))
        if isinstance(answer, Difference):
            complaint += self.limits_complaint(rng, text, read(got))
            self.catch(text, ours, SISTER_LIMIT_ERRORS)
        else:
            self.catch(text, ours, SISTER_LINE_ERRORS)
        self.catch(text, ours, SISTER_BOAT_ERRORS)
        self.judge(name, text, complaint)
        return got

    def catch(self, text, ours, errors):
        self.catch_errors(ours, lambda wrong: difference_printed(wrong(remembered).run(text)), errors)

    # ---- what is refused

    def order_complaint(self, text, answer):
        """Which refusals the input fits; the first one must be given, and none where there are limits."""
        due = [*due_of(text)]
        if isinstance(answer, Difference):
            return f"--- limits, and yet refusals are due: {due}\n" if due else ""
        kind, place = due[0] if due else (INPUT, -1)
        if (number_of_any(kind), place) != tuple(answer):
            return f"--- the first condition that holds is not the refusal's: {due}\n"
        others = dict(reversed(due[1:]))  # of one kind the first place
        if kind == EIGHT:
            self.note_eight(text)
        elif kind == NINE:
            self.note_nine(text)
        else:
            self.note_refused(text, kind, place, others)
        if kind == EIGHT and NINE in others:
            self.note(f"sisters: {EIGHT} over {NINE}")
        return ""

    def note_refused(self, text, kind, place, others):
        """A refusal of loading or of the class, and what the boats would be refused for."""
        name = kind if kind in BOX_KINDS else number_of(kind)
        behind = [later for later in (EIGHT, NINE) if later in others]
        self.met.update(f"sisters: {name} over {later}" for later in behind)
        if not behind:
            self.note(f"sisters: {name}, and the boats are well")
        before, boats = RIGHT.parts(text)
        if kind == BOX_FORM and parted(before)[1] is None:
            self.note("sisters: no line `box`")
            self.met.update(f"sisters: no line `box`, over {later}" for later in behind)
        conditions = {
            f"sisters: 9 of the ranges over {NINE} at a lower factor": kind in (TURNED, TOO_FAR) and NINE in others and others[NINE] < place,
            "sisters: equal boats of a refused class": kind in (DIVISOR, PAST) and EIGHT not in others and len(set(text_lines(boats)[0])) == 1,
        }
        self.met.update(rule for rule, holds in conditions.items() if holds)

    def note_eight(self, text):
        behind = RIGHT.parts(text)[1]
        if behind is None:
            self.note("sisters: 8, no line `boats`")
            return
        lines, ended = text_lines(behind)
        if len(lines) > MOST_SHOWN:
            return
        n = RIGHT.sheet(text).factors
        found = {way for way, holds in WAYS.items() if holds_of(holds, lines, ended, n)}
        rows = [line.split(b"\t") for line in lines]
        if ended and [len(row) for row in rows] == [n, n]:
            wrong = [field for row in rows for field in row if not FIELD.fullmatch(field)]
            found |= {way for way, fields in MISSPELT.items() if len(wrong) == 1 and wrong[0] in fields}
        self.met.update(f"sisters: 8, {way}" for way in found)

    def note_nine(self, text):
        sheet, ranges, boats = read_class(text)
        away = [[off(r, value) for r, value in zip(ranges, boat)] for boat in boats]
        first, second = ([a for a, by in enumerate(boat) if by] for boat in away)
        a = min(first + second)
        here = [(boat[a], values[a]) for boat, values in zip(away, boats) if boat[a]]
        depends = remembered(sheet, tuple(RIGHT.ends(text))).depends
        conditions = {
            "sisters: 9 by the first boat alone": first and not second,
            "sisters: 9 by the second boat alone": second and not first,
            "sisters: 9 by both boats in one factor": a in first and a in second,
            "sisters: 9 by the first boat, and by the second in a later factor": second and a in first and a not in second,
            "sisters: 9 by the second boat, and by the first in a later factor": first and a in second and a not in first,
            "sisters: 9 by equal boats": boats[0] == boats[1],
            "sisters: 9 by a value that is inside in 32 bits": not all(off(ranges[a], in_32_bits(value)) for _, value in here),
            "sisters: 9 by a value beyond the limit": any(abs(value) > LIMIT for _, value in here),
            "sisters: 9 by a value of ten digits": any(abs(value) == 9999999999 for _, value in here),
            f"sisters: 9 at factor {a + 1}": True,
            "sisters: 9 at a factor that does not count": a not in depends,
        }
        self.met.update(rule for rule, holds in conditions.items() if holds)
        for by, _ in here:
            far = {NEXT: "1", FAR: "4·10^9"}.get(abs(by), "some" if abs(by) < FAR else "more than 4·10^9")
            self.note(f"sisters: 9 by a value {far} units {'below' if by < 0 else 'above'}")

    def note_edges(self, text, answer):
        before, behind = RIGHT.parts(text)
        sheet, box = parted(before)
        unended = text.endswith(b"\nboats")
        conditions = {
            "sisters: empty input": not text,
            "sisters: no byte 10": text and b"\n" not in text and len(text) <= MOST_INPUT,
            "sisters: `boats` at the start": text.startswith(b"boats\n"),
            "sisters: `boats` before `box`": box is None and behind is not None and parted(behind)[1] is not None,
            "sisters: two lines `boats`": behind is not None and parted(behind, b"boats")[1] is not None,
            "sisters: `boats` without its byte 10": unended,
            "sisters: `boats` without its byte 10 behind a class that would be refused otherwise": unended and RIGHT.run(text + b"\n") != answer,
            "sisters: nearly a line `boats`": behind is None and re.search(rb"(?mi)^\s*boats?[\t\r \x00]*$", text),
            "sisters: a line `box` behind `boats`": box is not None and behind is not None and parted(behind)[1] is not None,
            "sisters: 8,192 bytes, the class's 8": len(text) == MOST_INPUT and answer == Refusal(8, 0) and len(before) > MOST_INPUT - 99,
            "sisters: 8,192 bytes, the boats' 8": len(text) == MOST_INPUT and answer == Refusal(8, 0) and len(before) < 99,
            "sisters: 8,193 bytes": len(text) == MOST_INPUT + 1,
            "sisters: 1, but for the bytes of the boat lines": len(before) <= MOST_INPUT < len(text) and len(sheet) <= MOST_BYTES,
            "sisters: 4,096 bytes of sheet": len(sheet) == MOST_BYTES and not isinstance(answer, Difference) and answer.number in (2, 4),
            "sisters: 4,097 bytes of sheet": len(sheet) == MOST_BYTES + 1 and len(text) <= MOST_INPUT,
        }
        self.met.update(rule for rule, holds in conditions.items() if holds)

    def note_year(self, text, answer):
        """What 02's request 9 is about: 2014 gives the limits of 2016, where the class is not refused in one of them."""
        self.met.update(years.met("sisters", parted(RIGHT.parts(text)[0])[0], answer))
        if isinstance(answer, Refusal) and answer.number not in (9, 12) or RIGHT.sheet(text).year != EARLIER:
            return
        sheet, ends = RIGHT.sheet(text), RIGHT.ends(text)
        own, present = (remembered(of_year, tuple(ends)) for of_year in (sheet, sheet._replace(year=PRESENT)))
        limits = isinstance(answer, Difference)
        conditions = {
            "sisters: 2014, limits, and the same in 2016": limits and isinstance(present, Result) and own.slopes == present.slopes,
            "sisters: 2014, limits, and 2016 refuses the class": limits and isinstance(present, Refusal),
            "sisters: 2014, the class refused, and not in 2016": isinstance(own, Refusal) and isinstance(present, Result),
            "sisters: 2014, a boat outside": isinstance(own, Result) and isinstance(answer, Refusal),
        }
        self.met.update(rule for rule, holds in conditions.items() if holds)

    # ---- limits

    def limits_complaint(self, rng, text, got):
        """Two boats of an accepted class; `got` is what the program printed of them, or None where it is no print of limits."""
        sheet, ranges, boats = read_class(text)
        result = remembered(sheet, tuple(RIGHT.ends(text)))
        self.note_boats(sheet, ranges, boats, result)
        complaint = ""
        if boats[0] == boats[1] and got not in (None, Difference(0, 0)):
            complaint += "--- limits of equal boats that are not 0 and 0\n"
        try:
            complaint += self.exact_complaint(sheet, boats, result, got)
            if rng.random() < POINTS_SHARE:
                complaint += self.points_complaint(rng, sheet, ranges, result)
        except TooLarge:
            pass
        if rng.random() < EXCHANGED_SHARE:
            complaint += self.exchanged_complaint(text, got)
        return complaint

    def exact_complaint(self, sheet, boats, result, got):
        """The exact difference of the boats' premiums is inside the printed limits."""
        exact = exact_difference(sheet, *([Fraction(value, UNIT) for value in boat] for boat in boats))
        if exact is None:
            return "--- a divisor is 0 at one of the boats\n"
        units = exact * UNIT
        self.note("sisters: exact: the difference inside the limits")
        if sheet.year == EARLIER:
            self.note("sisters: 2014, exact")
        self.note_exact(boats, RIGHT.limits(result, *boats), units)
        if got is None or got.low <= units <= got.high:
            return ""
        return f"--- the exact difference, {units} units, is not inside the printed limits\n"

    def points_complaint(self, rng, sheet, ranges, result):
        """Two points of the class: the sums of products, not rounded, have the exact difference between them."""
        first, second = some_point(rng, ranges), some_point(rng, ranges)
        factors = range(sheet.factors)
        differ = rng.choice((factors, factors, [rng.choice(factors)], [rng.choice(factors)], rng.sample(factors, rng.randint(0, sheet.factors))))
        if len(differ) == 1 and rng.random() < 0.6:  # at ends of the other ranges the slope of a product comes to its own ends
            first = [x if a in differ else Fraction(rng.choice(r), UNIT) for a, (x, r) in enumerate(zip(first, ranges))]
        second = [y if a in differ else x for a, (x, y) in enumerate(zip(first, second))]
        exact = exact_difference(sheet, first, second)
        if exact is None:
            return "--- a divisor is 0 at a point of the class\n"
        apart = RIGHT.apart(first, second)
        least, greatest = (Fraction(total) / UNIT for total in (RIGHT.least_sum(result.slopes, apart), RIGHT.greatest_sum(result.slopes, apart)))
        conditions = {
            "sisters: exact: two points with fractions": any((UNIT * x).denominator > 1 for x in first + second),
            "sisters: exact: two points, all factors apart": all(apart),
            "sisters: exact: two points, one factor apart": apart.count(0) == sheet.factors - 1,
            "sisters: exact: one point twice": not any(apart),
            "sisters: exact: the least sum is the difference": least == exact and least != greatest,
            "sisters: exact: the greatest sum is the difference": greatest == exact and least != greatest,
        }
        self.met.update(rule for rule, holds in conditions.items() if holds)
        if not least <= exact <= greatest:
            where = [[str(x) for x in point] for point in (first, second)]
            return f"--- the exact difference, {exact}, is not between the sums of products, {least} and {greatest}, at {where}\n"
        return ""

    def exchanged_complaint(self, text, got):
        """The second boat before the first: the limits are the negative ones, the low one of the high one and the high one of the low."""
        before, behind = RIGHT.parts(text)
        first, second = text_lines(behind)[0]
        exchanged = print_of(self.sisters, before + b"boats\n" + second + b"\n" + first + b"\n")
        self.note("sisters: exchanged")
        if got is None:  # no limits were printed; that was said already
            return ""
        if got != (-got.high, -got.low):
            self.note("sisters: exchanged, and the limits are others")
        complaint = unlike(exchanged, difference_printed(Difference(-got.high, -got.low)))
        return complaint and f"--- the boats exchanged\n{complaint}"

    def note_boats(self, sheet, ranges, boats, result):
        """How the boats lie in their class, and what products that makes."""
        first, second = boats
        n = sheet.factors
        apart = RIGHT.apart(first, second)
        count = n - apart.count(0)
        least, greatest = RIGHT.least_sum(result.slopes, apart), RIGHT.greatest_sum(result.slopes, apart)
        limits = RIGHT.limits(result, first, second)
        each = [(RIGHT.least(slope, d), RIGHT.greatest(slope, d)) for slope, d in zip(result.slopes, apart)]
        width = result.value.high - result.value.low
        sizes = [abs(total) for total in (least, greatest)]
        conditions = {
            f"sisters: accepted, n = {n}": True,
            f"sisters: accepted, by `{sheet.operations[-1].name}` at the end": True,
            f"sisters: equal boats, n {'= 1' if n == 1 else '> 1'}": not count,
            f"sisters: apart in all factors, n {'= 1' if n == 1 else '> 1'}": count == n,
            "sisters: apart in all of eight factors": count == n == MOST_FACTORS,
            "sisters: apart in one factor of more": count == 1 < n,
            "sisters: apart in some factors": 1 < count < n,
            "sisters: apart in a factor that does not count": any(d and a not in result.depends for a, d in enumerate(apart)),
            "sisters: differences of both signs": min(apart) < 0 < max(apart),
            "sisters: from the low end of a range to the high one": any(r == (x, y) and x < y for r, x, y in zip(ranges, first, second)),
            "sisters: from the high end of a range to the low one": any(r == (y, x) and y < x for r, x, y in zip(ranges, first, second)),
            "sisters: a range of one point": any(r.low == r.high for r in ranges),
            "sisters: rounding each product would give wider limits":
                limits != (sum(RIGHT.down(low) for low, _ in each), sum(RIGHT.up(high) for _, high in each)),
            "sisters: a limit beyond what the value's range allows": limits.low < -width or limits.high > width,
            "sisters: a difference above 2^31": any(abs(d) > 2 ** 31 for d in apart),
            "sisters: a difference of 4·10^9": any(abs(d) == 2 * LIMIT for d in apart),
            "sisters: a least sum below -2^63": least < -2 ** 63,
            "sisters: a greatest sum above 2^63": greatest > 2 ** 63,
            "sisters: a least sum below -2^64": least < -2 ** 64,
            "sisters: a greatest sum above 2^64": greatest > 2 ** 64,
            "sisters: a least sum below -2^63, and no greatest one above 0": least < -2 ** 63 and greatest <= 0,
            "sisters: a greatest sum above 2^63, and no least one below 0": greatest > 2 ** 63 and least >= 0,
            "sisters: sums of 6.4·10^19": max(sizes) == MOST_FACTORS * LIMIT * 2 * LIMIT,
            **{f"sisters: a sum under 2^{bits} by less than 2·10^9": any(0 <= 2 ** bits - size < LIMIT for size in sizes) for bits in (63, 64)},
            **{f"sisters: a sum above 2^{bits} by less than 2·10^9": any(0 < size - 2 ** bits < LIMIT for size in sizes) for bits in (63, 64)},
            "sisters: accepted, 64 codelist lines with 8 factors": n == MOST_FACTORS and last_line(sheet) == MOST_LINES,
        }
        for name, boat in (("first", first), ("second", second)):
            for which, end in enumerate(("low", "high")):
                at_end = any(x == r[which] for r, x in zip(ranges, boat) if r.low < r.high)
                conditions[f"sisters: the {name} boat at the {end} end of a range"] = at_end
        for end, total in (("low", least), ("high", greatest)):
            conditions[f"sisters: the {end} limit is rounded, {'above' if total > 0 else 'below'} 0"] = total % UNIT
        self.met.update(rule for rule, holds in conditions.items() if holds)
        self.met.update({
            f"sisters: a difference {SIGNS[1 if d > 0 else -1]}, of a slope {sort_of(slope)}" for slope, d in zip(result.slopes, apart) if d})

    def note_exact(self, boats, limits, exact):
        """Where the exact difference lies between the limits."""
        if boats[0] == boats[1]:
            return
        conditions = {
            f"sisters: the exact difference is {SIGNS[(exact > 0) - (exact < 0)]}, of different boats": True,
            "sisters: the low limit is the exact difference, of different boats": limits.low == exact,
            "sisters: the high limit is the exact difference, of different boats": limits.high == exact,
            "sisters: both limits are the exact difference, and it is not 0": limits == (exact, exact) and exact,
            "sisters: neither limit is the exact difference": exact not in limits,
        }
        self.met.update(rule for rule, holds in conditions.items() if holds)

    def conclude(self):
        self.show(self.rules)


def counts(lines):
    """The number of numerals of each line; 0 for a line that has other fields, too."""
    rows = [line.split(b"\t") for line in lines]
    return [len(row) if all(FIELD.fullmatch(field) for field in row) else 0 for row in rows]


def holds_of(way, lines, ended, n):
    try:
        return way(lines, ended, n)
    except IndexError:  # too few lines for it
        return False


def sort_of(slope):
    """The signs that a slope can have."""
    low, high = slope
    if low < 0 < high:
        return "across 0"
    if low == high == 0:
        return "0 itself"
    return "above 0" if low > 0 else "below 0" if high < 0 else "from 0 on" if low == 0 else "up to 0"


def off(r, value):
    """How far a value is outside a range, below 0 where it is below it."""
    return min(value - r.low, 0) + max(value - r.high, 0)


def number_of_any(kind):
    return {EIGHT: 8, NINE: 9}.get(kind) or number_of(kind)


def read_class(text):
    """The sheet, the ranges and the two boats of an input that all can be read of."""
    sheet = RIGHT.sheet(text)
    ends = RIGHT.ends(text)
    values = RIGHT.values(text, sheet.factors)
    return sheet, [Range(*ends[k:k + 2]) for k in range(0, len(ends), 2)], (values[:sheet.factors], values[sheet.factors:])


def due_of(text):
    """The kind and the place of each refusal that an input fits, in order: 1 for the whole of it, those of loading and of the class, the boats' own.

    The boats' are looked at even where others come first, as far as the number of factors, the ranges and the numerals can be read.
    """
    before, behind = RIGHT.parts(text)
    if len(text) > MOST_INPUT:
        yield INPUT, 0
    for condition in held(before):
        if condition.kind != INPUT:
            yield condition.kind, condition.place
    sheet, box = parted(before)
    count = loosely(sheet.partition(b"\n")[0]).numbers[:1]
    rows = [line.split(b"\t") for line in text_lines(behind or b"")[0]]
    factors = count[0] if count and count[0] is not None and 1 <= count[0] <= MOST_FACTORS else max(1, *map(len, rows)) if rows else 1
    if RIGHT.values(text, factors) is None:
        yield EIGHT, 0
    forms = [BOX_LINE.fullmatch(line) for line in text_lines(box or b"")[0]]
    for a, form in enumerate(forms[:factors]):
        values = [int(row[a]) for row in rows[:2] if len(row) > a and FIELD.fullmatch(row[a])]
        if form and any(RIGHT.outside(Range(*map(int, form.groups())), value) for value in values):
            yield NINE, a + 1
            return


def read(text):
    """A print taken back to the limits, or None where it is another."""
    form = re.fullmatch(rb"difference\t(-?\d+)\t(-?\d+)\n", text or b"")
    return Difference(int(form[1]), int(form[2])) if form else None
