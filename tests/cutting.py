"""Compares the program `cut` with 02, request 6 (tests/reference/cut.py): every printed byte, and for a share the same by `cut_many`,
which makes the call several times.

Besides, of what the program printed: the sets are those of the sheet, the full bend is the lifted bend, the limits are inside those of the uncut
ranges where these are accepted, and inside those of the depth before (02, request 11); and the exact premium and its derivatives are inside at random
points of the class, at cut points and beside them. What an input is counted as comes from its bytes, not from the name it was made under.
"""
import random
from fractions import Fraction
from functools import lru_cache
from typing import NamedTuple, Union

import years
from cuts import MISSPELT, OUTSIDE
from errors import CUT_ERRORS, FIRST_LINE_ERRORS, YEAR_LOADING_ERRORS, CutTowardZero, HighestOnEqualWidth, year_errors_of
from orders import BOX_COUNT, BOX_FORM, DIVISOR, INPUT, PAST, TOO_FAR, TURNED, held, number_of
from reference.cut import DEPTH_LINE, MOST_DEPTH, Cutting, rated
from reference.exact import TooLarge, broken_at, some_point
from reference.outcome import Refusal
from reference.ranges import LIMIT, UNIT, Range
from reference.rating import Result
from reference.sheet import EARLIER, MOST_BYTES, MOST_FACTORS, MOST_LINES, PRESENT, REFERENCES
from reference.text import MOST_INPUT, parted, printed
from reference.tidy import last_line
from sets import sets_of
from tally import Tally, difference, print_of, unlike

EXACT_SHARE = 0.6  # of the accepted inputs
DEEPER_SHARE = 0.5  # of the classes that are rated to a depth below 6: cut once more
MANY_SHARE = 0.25  # of all inputs: by `cut_many`, too
OTHER_YEAR_SHARE = 0.2  # of the classes of 2014 that are cut deeper than `FEW_PARTS`: beside what they would come to in 2016
FEW_PARTS = 2

HALVES = ("lower", "upper")
LOADING = (*range(1, 8), 15, 17)
SIXTEEN = "16"
ENDS = [f"{end} end of {what}" for what in ("the value", "a slope", "the bend") for end in ("low", "high")]

CLASS_RULES = [
    *(f"cut: accepted, depth {depth}" for depth in range(MOST_DEPTH + 1)),
    *(f"cut: refused, depth {depth}" for depth in range(MOST_DEPTH + 1)),
    *(f"cut: accepted, n = {factors}" for factors in range(1, MOST_FACTORS + 1)),
    *(f"cut: accepted, by `{name}` at the end" for name in REFERENCES),
    "cut: accepted, an empty bent set", "cut: accepted, the full bend is not the bend", "cut: accepted, an end at the limit",
    "cut: 64 parts", "cut: a class of one point", "cut: a class under 2 units, and not a point", "cut: under 2 units before the depth is used up",
    "cut: 2 units cut", "cut: 3 units cut",
    *(f"cut: first at factor {factor}" for factor in range(1, MOST_FACTORS + 1)),
    "cut: another factor in the next step", "cut: three factors, one after another", "cut: one factor in the lower half, another in the upper",
    "cut: one factor again and again", "cut: equal widths", "cut: equal widths, and the highest factor would differ",
    "cut: an odd sum above 0", "cut: an odd sum below 0", "cut: an odd sum below 0, and rounding toward 0 would differ", "cut: at 0 itself",
    "cut: a sum of ends above 2^31", "cut: a sum of ends below -2^31", "cut: a width above 2^31", "cut: the whole span up to the limit",
]

HALF_RULES = [
    *(f"cut: {number} in the {half} half alone" for number in (11, 12) for half in HALVES),
    "cut: both halves refused alike", "cut: 11 in the lower half, 12 in the upper", "cut: 12 in the lower half, 11 in the upper",
    "cut: both halves refused, the upper one at an earlier line", "cut: both halves refused, the upper one at a later line",
    "cut: a half accepted only where it is cut again",
    "cut: accepted where the uncut ranges get 11", "cut: accepted where the uncut ranges get 12", "cut: refused otherwise than the uncut ranges",
    *(f"cut: {end} from the {half} half" for end in ENDS for half in HALVES),
]

LIMIT_RULES = [
    "cut: uncut accepted, and so cut", *(f"cut: {what} narrower than uncut" for what in ("the value", "a slope", "the bend", "the full bend")),
    "cut: no limit narrower than uncut",
    *(f"cut: depth {depth} inside depth {depth - 1}" for depth in range(1, MOST_DEPTH + 1)), "cut: a limit narrower by one depth more",
    "cut: accepted by one depth more",
    *(f"cut: exact: {what}" for what in (
        "value inside its range", "first derivatives inside the slopes", "first derivative 0 outside the depends-on set",
        "second derivatives 0 outside the bent set", "v'Hv inside the bend", "v'Hv inside the full bend", "same premium elsewhere",
        "same first derivatives elsewhere", "v'Hv in the direction of an eigenvector", "at a cut point", "beside a cut point",
        "anywhere in the class", "where the uncut ranges are refused")),
    "cut: made more than once by `cut_many`",
]

# What is refused ahead of the parts, by the kinds of orders.py. The first four come behind 16, too; so do 11 and 12 of the uncut ranges.
BOX_KINDS = (BOX_FORM, BOX_COUNT, TURNED, TOO_FAR)
REFUSAL_RULES = [
    *(f"cut: refused by loading, {number}" for number in LOADING), *(f"cut: {number} over 16" for number in LOADING),
    *(f"cut: {kind} behind a good depth" for kind in BOX_KINDS), "cut: no line `box` behind a good depth",
    *(f"cut: 16 over {kind}" for kind in (*BOX_KINDS, DIVISOR, PAST)), "cut: 16, and no line `box`",
    "cut: 16, and all else is well", *(f"cut: 16 for depth {sort}" for sort in OUTSIDE), *(f"cut: 16 for {way}" for way in MISSPELT),
    "cut: 9 over 11 or 12 of the lower half",
]

EDGE_RULES = [
    "cut: empty input", "cut: no byte 10", "cut: nothing behind the first line", "cut: `box` right behind the first line",
    "cut: the first line left out", "cut: 8,192 bytes, 8", "cut: 8,192 bytes, 16", "cut: 8,193 bytes", "cut: 1, but for the bytes of the first line",
    "cut: 4,096 bytes of sheet", "cut: 4,097 bytes of sheet", "cut: 64 codelist lines with 8 factors, depth 6",
]

YEAR_RULES = years.rules_of("cut") + [
    *(f"cut: 2014, accepted, depth {depth}" for depth in range(MOST_DEPTH + 1)),
    *(f"cut: 2014, {rule}" for rule in (
        "another bend or bent set than in 2016", "refused, and accepted in 2016", "one half alone refused, and none in 2016",
        "uncut refused with 12, and accepted where it is cut", "a limit narrower by one depth more", "exact")),
]


@lru_cache(maxsize=4096)
def remembered(sheet, ranges):
    """A rating of a part, made once for the right rules and the wrong ones that come to it."""
    return rated(sheet, ranges)


RIGHT = Cutting(remembered)


class Part(NamedTuple):
    """Ranges of a class with what they come to, cut or not."""
    ranges: tuple
    depth: int                 # what is left of it
    factor: Union[int, None]   # that is cut, or None
    halves: tuple              # the lower and the upper one, or none
    answer: Union[Result, Refusal]


def parted_class(sheet, ranges, depth):
    """The class with all its parts."""
    if RIGHT.uncut(ranges, depth):
        return Part(ranges, depth, None, (), remembered(sheet, ranges))
    halves = tuple(parted_class(sheet, half, depth - 1) for half in RIGHT.halves(ranges))
    return Part(ranges, depth, RIGHT.widest(ranges), halves, RIGHT.both(*(half.answer for half in halves)))


def with_parts(part):
    """A part and all that it is cut into."""
    yield part
    for half in part.halves:
        yield from with_parts(half)


def paths(part):
    """The factors that are cut one after another, for each part that is not cut."""
    if not part.halves:
        yield ()
    for half in part.halves:
        for path in paths(half):
            yield (part.factor, *path)


class CutComparison(Tally):
    rules = CLASS_RULES + HALF_RULES + LIMIT_RULES + REFUSAL_RULES + EDGE_RULES + YEAR_RULES
    errors = CUT_ERRORS + FIRST_LINE_ERRORS + YEAR_LOADING_ERRORS

    def __init__(self, cut, cut_many=None):
        super().__init__()
        self.cut = cut
        self.cut_many = cut_many
        if not cut_many:
            self.rules = [rule for rule in self.rules if not rule.endswith("by `cut_many`")]

    def least(self, rule):
        """The random classes meet what a class can have often; all else has inputs of its own, which are made a few times."""
        return 3 if rule in REFUSAL_RULES else 2 if rule in EDGE_RULES + YEAR_RULES else 5

    def compare(self, name, text, expected=None):
        """One input; what the program prints of it is handed back."""
        rng = random.Random(text)
        answer = RIGHT.run(text)
        ours = printed(answer)
        got = print_of(self.cut, text)
        if expected is not None and ours != expected:
            complaint = f"--- figure\n{expected.decode()}--- reference\n{ours.decode()}"
        else:
            complaint = unlike(got, ours)
        if self.cut_many and rng.random() < MANY_SHARE:
            times = rng.choice((1, 2, 3))
            if times > 1:
                self.note("cut: made more than once by `cut_many`")
            complaint += difference(self.cut_many, text, ours, str(times))
        complaint += self.order_complaint(text, answer)
        self.note_edges(text, answer)
        sheet = parted(RIGHT.first_line(text)[1])[0]
        self.met.update(years.met("cut", sheet, answer))
        self.catch_errors(ours, lambda wrong: printed(loading_by(wrong).run(text)), year_errors_of(sheet))
        if comes_to_parts(answer):
            complaint += self.class_complaint(rng, text, answer, read(got))
            self.catch_errors(ours, lambda wrong: printed(wrong(remembered).run(text)), CUT_ERRORS)
        self.catch_errors(ours, lambda wrong: printed(wrong(remembered).run(text)), FIRST_LINE_ERRORS)
        self.judge(name, text, complaint)
        return got

    # ---- what is refused ahead of the parts

    def order_complaint(self, text, answer):
        """Which refusals the input fits; the first one must be given, and none where the class is rated."""
        due = [*due_of(text)]
        ahead = [kind for kind, _ in due if kind not in (DIVISOR, PAST)]
        if comes_to_parts(answer):
            return f"--- rated, and yet refusals are due: {ahead}\n" if ahead else ""
        kind, place = due[0] if ahead else (DIVISOR, 0)
        if (number_of(kind), place) != tuple(answer):
            return f"--- the first condition that holds is not the refusal's: {due}\n"
        if answer.number in LOADING:
            self.note(f"cut: {answer.number} over 16" if SIXTEEN in ahead else f"cut: refused by loading, {answer.number}")
        elif answer.number == 16:
            self.met.update({f"cut: 16 over {later}" for later, _ in due[1:]})
            if len(due) == 1:
                self.note("cut: 16, and all else is well")
            if RIGHT.box(text) is None:
                self.note("cut: 16, and no line `box`")
            self.note_first_line(RIGHT.first_line(text)[0])
        else:
            self.note(f"cut: {kind} behind a good depth")
            if RIGHT.box(text) is None:
                self.note("cut: no line `box` behind a good depth")
            if answer.number == 9 and self.lower_half_refused(text):
                self.note("cut: 9 over 11 or 12 of the lower half")
        return ""

    def note_first_line(self, first):
        """Why 16 is given."""
        form = DEPTH_LINE.fullmatch(first)
        self.met.update(f"cut: 16 for depth {sort}" for sort, depths in OUTSIDE.items() if form and int(form[1]) in depths)
        self.met.update(f"cut: 16 for {way}" for way, lines in MISSPELT.items() if first in lines)

    def lower_half_refused(self, text):
        """Whether the lower half of ranges that 9 is due for, and which has nothing to do with it, is refused."""
        ends = RIGHT.ends(text)
        ranges = tuple(Range(*ends[k:k + 2]) for k in range(0, len(ends), 2))
        if RIGHT.uncut(ranges, RIGHT.depth(text)):
            return False
        lower, _ = RIGHT.halves(ranges)
        good = all(-LIMIT <= r.low <= r.high <= LIMIT for r in lower)
        return good and isinstance(remembered(RIGHT.sheet(text), lower), Refusal)

    def note_edges(self, text, answer):
        first, behind = RIGHT.first_line(text)
        sheet = len(parted(behind)[0])
        conditions = {
            "cut: empty input": not text,
            "cut: no byte 10": text and b"\n" not in text and len(text) <= MOST_INPUT,
            "cut: nothing behind the first line": text.endswith(b"\n") and text.count(b"\n") == 1,
            "cut: `box` right behind the first line": behind.startswith(b"box\n"),
            "cut: the first line left out": answer == Refusal(2, 1) and first.startswith(b"factors\t"),
            "cut: 8,192 bytes, 8": len(text) == MOST_INPUT and answer == Refusal(8, 0),
            "cut: 8,192 bytes, 16": len(text) == MOST_INPUT and answer == Refusal(16, 0),
            "cut: 8,193 bytes": len(text) == MOST_INPUT + 1,
            "cut: 1, but for the bytes of the first line": len(behind) <= MOST_INPUT < len(text) and sheet <= MOST_BYTES,
            "cut: 4,096 bytes of sheet": sheet == MOST_BYTES and answer.number in (2, 4),
            "cut: 4,097 bytes of sheet": sheet == MOST_BYTES + 1 and len(text) <= MOST_INPUT,
        }
        self.met.update(rule for rule, holds in conditions.items() if holds)

    # ---- a class

    def class_complaint(self, rng, text, answer, got):
        """A class that is rated to a depth; `got` is what the program printed of it, or None where it is no print."""
        sheet, depth = RIGHT.sheet(text), RIGHT.depth(text)
        ends = RIGHT.ends(text)
        whole = parted_class(sheet, tuple(Range(*ends[k:k + 2]) for k in range(0, len(ends), 2)), depth)
        uncut = remembered(sheet, whole.ranges)
        self.note_class(sheet, whole)
        if whole.halves:
            self.note_halves(sheet, whole, uncut)
        if sheet.year == EARLIER and (depth <= FEW_PARTS or rng.random() < OTHER_YEAR_SHARE):
            self.note_earlier(sheet, whole, uncut)
        complaint = sets_complaint(sheet, got) if isinstance(got, Result) else ""
        if isinstance(uncut, Result):
            self.note("cut: uncut accepted, and so cut")
            complaint += inside_complaint(got, uncut, "the uncut ranges'")
            if depth and isinstance(got, Result):
                self.note_narrower(got, uncut)
        if depth < MOST_DEPTH and rng.random() < DEEPER_SHARE:
            complaint += self.deeper_complaint(text, sheet, whole, got)
        if isinstance(answer, Result) and rng.random() < EXACT_SHARE:
            complaint += self.exact_complaint(rng, sheet, whole, uncut)
        return complaint

    def note_narrower(self, got, uncut):
        narrower = [
            name for name, ours, theirs in (
                ("the value", [got.value], [uncut.value]), ("a slope", got.slopes, uncut.slopes), ("the bend", [got.bend], [uncut.bend]),
                ("the full bend", [got.full], [uncut.full]))
            if list(ours) != list(theirs)]
        self.met.update(f"cut: {name} narrower than uncut" for name in narrower)
        if not narrower:
            self.note("cut: no limit narrower than uncut")

    def deeper_complaint(self, text, sheet, whole, got):
        """The same class cut once more: what the program prints of it is inside what it printed."""
        deeper = print_of(self.cut, b"depth\t%d\n" % (whole.depth + 1) + text.partition(b"\n")[2])
        complaint = unlike(deeper, printed(RIGHT.rating(sheet, whole.ranges, whole.depth + 1)))
        deeper = read(deeper)
        if isinstance(got, Refusal) and isinstance(deeper, Result):
            self.note("cut: accepted by one depth more")
        if not isinstance(got, Result):
            return complaint
        self.note(f"cut: depth {whole.depth + 1} inside depth {whole.depth}")
        if deeper != got:
            self.note("cut: a limit narrower by one depth more")
            if sheet.year == EARLIER:
                self.note("cut: 2014, a limit narrower by one depth more")
        return complaint + inside_complaint(deeper, got, "the depth before's")

    def exact_complaint(self, rng, sheet, whole, uncut):
        """The promises at one point of the class: anywhere in it, or at a cut point or beside it."""
        cuts = [part for part in with_parts(whole) if part.halves]
        where = "anywhere in the class"
        point = some_point(rng, whole.ranges)
        if cuts and rng.random() < 0.6:
            part = rng.choice(cuts)
            low, high = part.ranges[part.factor]
            beside = rng.choice((0, 0, -1, 1, Fraction(-1, 3), Fraction(1, 7), Fraction(1, 2)))
            units = min(max(RIGHT.cut_point(part.ranges[part.factor]) + beside, low), high)
            where = "beside a cut point" if beside else "at a cut point"
            point = some_point(rng, part.ranges)
            point[part.factor] = Fraction(units) / UNIT
        try:
            broken = broken_at(rng, sheet, point, whole.answer, lambda rule: self.note(f"cut: {rule}"))
        except TooLarge:
            return ""
        self.note(f"cut: exact: {where}")
        if sheet.year == EARLIER:
            self.note("cut: 2014, exact")
        if isinstance(uncut, Refusal):
            self.note("cut: exact: where the uncut ranges are refused")
        return "".join(f"--- does not hold of the reference's result: {what}\n" for what in broken)

    def note_class(self, sheet, whole):
        """What there is to cut in a class, and how it is cut."""
        answer, accepted = whole.answer, isinstance(whole.answer, Result)
        parts = [*with_parts(whole)]
        cuts = [part for part in parts if part.halves]
        ranges = [part.ranges[part.factor] for part in cuts]
        widths = [r.high - r.low for r in ranges]
        sums = [r.low + r.high for r in ranges]
        leaves = len(parts) - len(cuts)
        most = max(r.high - r.low for r in whole.ranges)
        tie = any([r.high - r.low for r in part.ranges].count(width) > 1 for part, width in zip(cuts, widths))
        odd_below = any(s < 0 and s % 2 for s in sums)
        ways = [*paths(whole)]

        def differs(wrong):
            return wrong(remembered).rating(sheet, whole.ranges, whole.depth) != answer
        conditions = {
            f"cut: {'accepted' if accepted else 'refused'}, depth {whole.depth}": True,
            f"cut: accepted, n = {sheet.factors}": accepted,
            f"cut: accepted, by `{sheet.operations[-1].name}` at the end": accepted,
            "cut: accepted, an empty bent set": accepted and cuts and not answer.bent,
            "cut: accepted, the full bend is not the bend": accepted and cuts and answer.full != answer.bend,
            "cut: accepted, an end at the limit": accepted and cuts and LIMIT in (
                abs(end) for r in (answer.value, *answer.slopes, answer.bend) for end in r),
            "cut: 64 parts": leaves == 2 ** MOST_DEPTH,
            "cut: a class of one point": whole.depth and not most,
            "cut: a class under 2 units, and not a point": whole.depth and most == 1,
            "cut: under 2 units before the depth is used up": cuts and any(part.depth and not part.halves for part in parts),
            "cut: 2 units cut": 2 in widths,
            "cut: 3 units cut": 3 in widths,
            f"cut: first at factor {(whole.factor or 0) + 1}": cuts,
            "cut: another factor in the next step": any(len(set(way[:2])) == 2 for way in ways),
            "cut: three factors, one after another": any(len(set(way)) > 2 for way in ways),
            "cut: one factor in the lower half, another in the upper": any(
                len({half.factor for half in part.halves if half.halves}) == 2 for part in cuts),
            "cut: one factor again and again": sheet.factors > 1 and any(len(way) > 2 and len(set(way)) == 1 for way in ways),
            "cut: equal widths": tie,
            "cut: equal widths, and the highest factor would differ": tie and differs(HighestOnEqualWidth),
            "cut: an odd sum above 0": any(s > 0 and s % 2 for s in sums),
            "cut: an odd sum below 0": odd_below,
            "cut: an odd sum below 0, and rounding toward 0 would differ": odd_below and differs(CutTowardZero),
            "cut: at 0 itself": any(s // 2 == 0 for s in sums),
            "cut: a sum of ends above 2^31": any(s > 2 ** 31 for s in sums),
            "cut: a sum of ends below -2^31": any(s < -2 ** 31 for s in sums),
            "cut: a width above 2^31": any(width > 2 ** 31 for width in widths),
            "cut: the whole span up to the limit": any(width == 2 * LIMIT for width in widths),
            "cut: 64 codelist lines with 8 factors, depth 6":
                accepted and whole.depth == MOST_DEPTH and last_line(sheet) == MOST_LINES and sheet.factors == MOST_FACTORS,
        }
        self.met.update(rule for rule, holds in conditions.items() if holds)

    def note_halves(self, sheet, whole, uncut):
        """What the two halves of a class come to."""
        answers = [half.answer for half in whole.halves]
        refused = [isinstance(answer, Refusal) for answer in answers]
        if sum(refused) == 1:
            half = refused.index(True)
            self.note(f"cut: {answers[half].number} in the {HALVES[half]} half alone")
        if all(refused):
            self.note_both_refused(*answers)
        conditions = {
            "cut: a half accepted only where it is cut again": any(
                isinstance(half.answer, Result) and isinstance(remembered(sheet, half.ranges), Refusal) for half in whole.halves),
            f"cut: accepted where the uncut ranges get {uncut.number if isinstance(uncut, Refusal) else 0}":
                isinstance(whole.answer, Result) and isinstance(uncut, Refusal),
            "cut: refused otherwise than the uncut ranges": isinstance(whole.answer, Refusal) and whole.answer != uncut,
        }
        self.met.update(rule for rule, holds in conditions.items() if holds)
        if not any(refused):
            self.note_ends(*answers)

    def note_earlier(self, sheet, whole, uncut):
        """A class of 2014, beside what it would come to in 2016."""
        present = parted_class(sheet._replace(year=PRESENT), whole.ranges, whole.depth)
        accepted, accepted_now = (isinstance(answer, Result) for answer in (whole.answer, present.answer))
        refused, refused_now = (sum(isinstance(half.answer, Refusal) for half in part.halves) for part in (whole, present))
        conditions = {
            f"cut: 2014, accepted, depth {whole.depth}": accepted,
            "cut: 2014, another bend or bent set than in 2016": accepted and accepted_now and whole.answer != present.answer,
            "cut: 2014, refused, and accepted in 2016": not accepted and accepted_now,
            "cut: 2014, one half alone refused, and none in 2016": refused == 1 and whole.halves and not refused_now,
            "cut: 2014, uncut refused with 12, and accepted where it is cut": isinstance(uncut, Refusal) and uncut.number == 12 and accepted,
        }
        self.met.update(rule for rule, holds in conditions.items() if holds)

    def note_both_refused(self, lower, upper):
        if lower == upper:
            self.note("cut: both halves refused alike")
        elif lower.number != upper.number:
            self.note(f"cut: {lower.number} in the lower half, {upper.number} in the upper")
        if upper.place != lower.place:
            self.note(f"cut: both halves refused, the upper one at {'an earlier' if upper.place < lower.place else 'a later'} line")

    def note_ends(self, lower, upper):
        """Which half an end of the hull is from, where the other one has another."""
        fields = [("the value", lower.value, upper.value), ("the bend", lower.bend, upper.bend)]
        fields += [("a slope", *pair) for pair in zip(lower.slopes, upper.slopes)]
        found = set()
        for what, a, b in fields:
            if a.low != b.low:
                found.add(f"cut: low end of {what} from the {HALVES[b.low < a.low]} half")
            if a.high != b.high:
                found.add(f"cut: high end of {what} from the {HALVES[b.high > a.high]} half")
        self.met.update(found)

    def conclude(self):
        self.show(self.rules)


def comes_to_parts(answer):
    """Whether the depth and the ranges were accepted, so that the parts decide the answer."""
    return isinstance(answer, Result) or answer.number in (11, 12)


def due_of(text):
    """The kind and the place of each refusal that an input fits, in order: 1 for the whole of it, those of loading, 16, those of the uncut ranges."""
    first, behind = RIGHT.first_line(text)
    form = DEPTH_LINE.fullmatch(first)
    asked = form is not None and 0 <= int(form[1]) <= MOST_DEPTH
    if len(text) > MOST_INPUT:
        yield INPUT, 0
    for condition in held(behind):
        if not asked and condition.stage in ("box", "factor", "codelist line"):
            yield SIXTEEN, 0
            asked = True
        if condition.kind != INPUT:
            yield condition.kind, condition.place
    if not asked:
        yield SIXTEEN, 0


def read(text):
    """A print taken back to the result or the refusal, or None where it is neither."""
    try:
        rows = [line.split("\t") for line in text.decode().split("\n")[:-1]]
        if rows[0][0] == "refused":
            answer = Refusal(*map(int, rows[0][1:]))
        else:
            (value, *slopes), (depends, bent), (bend, full) = rows[:-4], rows[-4:-2], rows[-2:]
            answer = Result(
                Range(*map(int, value[1:])), tuple(Range(*map(int, slope[2:])) for slope in slopes),
                *(frozenset(int(factor) - 1 for factor in row[1:]) for row in (depends, bent)), *(Range(*map(int, row[1:])) for row in (bend, full)))
    except (AttributeError, IndexError, TypeError, ValueError):
        return None
    return answer if printed(answer) == text else None


def loading_by(wrong):
    """The right rules but for those of loading."""
    rules = Cutting(remembered)
    rules.loading = wrong
    return rules


def sets_complaint(sheet, got):
    """The printed sets are the sheet's, and the printed full bend is the lift of the printed bend."""
    complaint = "" if (got.depends, got.bent) == sets_of(sheet) else "--- the printed sets are not the sheet's\n"
    lifted = got.bend if len(got.bent) == sheet.factors else Range(min(got.bend.low, 0), max(got.bend.high, 0))
    return complaint + ("" if got.full == lifted else "--- the printed full bend is not the lift of the printed bend\n")


def inside_complaint(got, wider, whose):
    """Limits that are printed are inside wider ones that are accepted."""
    if got is None:  # no print; that was said already
        return ""
    if isinstance(got, Refusal):
        return f"--- refused, though {whose} limits are not\n"
    pairs = zip((got.value, *got.slopes, got.bend, got.full), (wider.value, *wider.slopes, wider.bend, wider.full))
    inside = all(theirs.low <= ours.low and ours.high <= theirs.high for ours, theirs in pairs)
    complaint = "" if inside else f"--- a printed limit is not inside {whose}\n"
    return complaint + ("" if (got.depends, got.bent) == (wider.depends, wider.bent) else f"--- the printed sets are not {whose}\n")
