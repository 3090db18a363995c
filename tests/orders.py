"""The order of refusals: which conditions hold of one input at once, and inputs of which two hold.

01: "Loading: 1 first, then text lines from the top, within a line in the order 2, 3, 4, 5, 6, 7; a sheet without operations is found last.
Rating: 10, 8, 9 (lowest factor), then codelist lines in order, 11 before 12." 02, request 5: 15 is "checked right after 7 in its line"; request 9: 17
is given at "text line 1, after 3", and so before all that the operation lines are refused for, and before 4 for want of one.

A program that tests two of them the other way round is told from the right one only by an input of which both conditions hold. So every pair
that can meet is listed here (`ORDERS`), an input of each is made, and the comparison fails where one was never met. Pairs that cannot meet:
3 or 17 with 4 to 7 or 15 in one line (only the first line has a count and a year, and it has nothing else), 6 with 7 or 15 in one line (an operation
has an exponent or a constant), and 7 with 15 in one line (0 is within the limit): "right after 7" shows as behind 2, 4 and 5. 11 and 12 can meet in
one line: Sq of the slopes, and Λs of 2014, need no inverse. 10 comes up in no input of the program `rate`, which loads a sheet before it rates:
crates/engine_calls has it. 16, between loading and 8, comes up in inputs of the program `cut` only: cutting.py has its pairs. 8 and 9 of two boats,
behind all of these, come up in inputs of `sisters` only: sister_boats.py has theirs.
"""
import re
from typing import NamedTuple

from reference.outcome import Refused
from reference.ranges import LIMIT, PastLimit, Range
from reference.rating import Rules
from reference.sheet import (
    EARLIER, FIRST_LINE, MOST_BYTES, MOST_FACTORS, MOST_LINES, NUMERAL, OPERATION, PRESENT, REFERENCES, Operation, text_lines)
from reference.text import BOX_LINE, MOST_INPUT, parted
from years import other_year, some_fault, some_year

# The kinds of a refusal that are told apart: 2 by the line's form or by its missing byte 10, 4 by its line or for want of one, and so on.
INPUT, SHEET, FORM, END, COUNT, BEYOND, NONE = "1 (input)", "1 (sheet)", "2 (form)", "2 (byte 10)", "3", "4", "4 (no operation)"
YEAR, REFERENCE, EXPONENT, CONSTANT, MULTIPLIER, BOX_FORM, BOX_COUNT = "17", "5", "6", "7", "15", "8 (form)", "8 (number)"
TURNED, TOO_FAR, DIVISOR, PAST = "9 (low above high)", "9 (limit)", "11", "12"


def number_of(kind):
    return int(kind.split(" ")[0])


class Held(NamedTuple):
    """A condition that holds: its kind, the refusal's place, and the text line, factor or codelist line that orders it in its stage."""
    kind: str
    place: int
    stage: str
    at: int

    @property
    def number(self):
        return number_of(self.kind)


# ---- which conditions hold

class Loose(NamedTuple):
    """A text line read as far as it can be: the word before its first tab, and its other fields, None where one is no numeral."""
    word: bytes
    numbers: list


def loosely(line):
    word, *fields = line.split(b"\t")
    return Loose(word, [int(field) if re.fullmatch(NUMERAL, field) else None for field in fields])


def year_named(numbers):
    """The year that a first line names, by its numbers; None where it names none that can be read."""
    return numbers[1] if len(numbers) > 1 else None


def line_kinds(line, place, ended, factors):
    """What a text line breaks, in the order 2, 3, 17, 4 to 7, 15. A field is looked at even where another one spoils the line's form."""
    word, numbers = loosely(line)
    if not (FIRST_LINE if place == 1 else OPERATION).fullmatch(line):
        yield FORM
    if not ended:
        yield END
    if place == 1:
        if word == b"factors" and factors is not None and not 1 <= factors <= MOST_FACTORS:
            yield COUNT
        if word == b"factors" and year_named(numbers) not in (None, PRESENT, EARLIER):
            yield YEAR
        return
    if factors is None:
        return
    own = factors + place - 1
    if own > MOST_LINES:
        yield BEYOND
    name = word.decode("latin-1")
    if name not in REFERENCES:
        return
    count = REFERENCES[name]
    if any(i is not None and not 1 <= i < own for i in numbers[:count]):
        yield REFERENCE
    if len(numbers) > count and numbers[count] is not None:
        if name == "pow" and not 2 <= numbers[count] <= 8:
            yield EXPONENT
        if name in ("addc", "mulc") and abs(numbers[count]) > LIMIT:
            yield CONSTANT
        if name == "mulc" and numbers[count] == 0:
            yield MULTIPLIER


def rated_kinds(factors, year, lines, ranges):
    """Refusals 11 and 12 of every line whose operands are there, beyond the first one that is refused, too."""
    rules = Rules(factors, year=year)
    known = [None if r is None else rules.factor_line(a, r) for a, r in enumerate(ranges)]
    for text in lines[:MOST_LINES]:
        form = OPERATION.fullmatch(text)
        if form is None:
            known.append(None)
            continue
        name, *fields = [field for field in form.groups() if field is not None]
        operation = Operation(name.decode(), tuple(map(int, fields)))
        references = operation.numbers[:REFERENCES[operation.name]]
        if not all(1 <= i <= len(known) and known[i - 1] for i in references) or (name == b"pow" and not 2 <= int(fields[1]) <= 8):
            known.append(None)
            continue
        own = len(known) + 1
        try:
            known.append(rules.line(operation, known))
        except Refused as refused:
            yield Held(str(refused.args[0].number), own, "codelist line", own)
            if refused.args[0].number == 11 and sq_passes(rules, known[references[0] - 1]):
                yield Held(PAST, own, "codelist line", own)
            known.append(None)


def sq_passes(rules, line):
    """Beside refusal 11 refusal 12 can be due in one line, by a step that needs no inverse: Sq of the slopes, and Λs in 2014."""
    try:
        if rules.year == EARLIER:
            rules.lambda_s(line.slopes, "2014.inv.Λs")
        else:
            rules.sq(line.slopes, line.depends, "inv.Sq")
    except PastLimit:
        return True
    return False


def held(text):
    """Every condition that holds of an input, in 01's order: the first one is the refusal."""
    if len(text) > MOST_INPUT:
        yield Held(INPUT, 0, "bytes", 0)
    sheet, box = parted(text)
    if len(sheet) > MOST_BYTES:
        yield Held(SHEET, 0, "bytes", 1)
    lines, ended = text_lines(sheet)
    lines = lines or [b""]
    numbers = loosely(lines[0]).numbers
    factors = numbers[0] if numbers else None
    year = EARLIER if year_named(numbers) == EARLIER else PRESENT
    for place, line in enumerate(lines, 1):
        for kind in line_kinds(line, place, ended or place < len(lines), factors):
            yield Held(kind, place, "text line", place)
    if not any(OPERATION.fullmatch(line) for line in lines[1:]):
        yield Held(NONE, 1, "last", 0)
    yield from held_of_box(factors, year, lines, box)


def held_of_box(factors, year, lines, box):
    """Refusals 8 to 12, of the box lines that can be read."""
    rows, ended = text_lines(box or b"")
    forms = [BOX_LINE.fullmatch(row) for row in rows]
    if box is None or not ended or None in forms:
        yield Held(BOX_FORM, 0, "box", 0)
    elif len(forms) != factors:
        yield Held(BOX_COUNT, 0, "box", 0)
    ranges = []
    for factor, form in enumerate(forms, 1):
        r = Range(*map(int, form.groups())) if form else None
        bad = r and (TURNED if r.low > r.high else TOO_FAR if r.low < -LIMIT or r.high > LIMIT else None)
        if bad:
            yield Held(bad, factor, "factor", factor)
        ranges.append(None if bad else r)
    if factors is not None and 1 <= factors <= MOST_LINES:
        yield from rated_kinds(factors, year, lines[1:], (ranges + [None] * factors)[:factors])


# ---- the orders

def order(first, other):
    """The name of the order that an input keeps of which both hold: the first one is the refusal, and the other one is not."""
    if first.stage == other.stage == "text line" and first.at != other.at:
        return f"order of text lines: {first.number} before {other.number}"
    if first.stage == other.stage and first.at != other.at:
        return f"order of {first.stage}s: {first.kind} before {other.kind}"
    if first.stage == other.stage:
        return f"order in a line: {first.kind} over {other.kind}"
    if other.stage == "last":
        return f"order: {first.kind} over {other.kind}"
    return f"order: {first.number if first.stage == 'text line' else first.kind} over {other.number}"


def orders_of(text, refusal):
    """The orders that a refused input keeps, and whether the first condition that holds is the refusal itself."""
    first, *others = held(text)
    names = {order(first, other) for other in others if (first.number, first.place) != (other.number, other.place)}
    return names, (first.number, first.place) == tuple(refusal)


def some_damage(rng, fields, needed):
    """The fields of a line that is of no form any longer, the first `needed` of which are left as they are."""
    if needed < len(fields) and rng.random() < 0.5:
        return fields[:needed] + rng.choice(([], [b"-0"], [b"x"], [b""]))
    return fields + [rng.choice((b"", b"1", b"x"))]


def some_first_line(rng, count, kinds):
    """The fields of a first line that breaks those kinds: of either year, if it is not for its year that it is refused."""
    year = other_year(rng) if YEAR in kinds else some_year(rng)
    fields = [b"factors", b"%d" % count]
    if year != PRESENT or rng.random() < 0.3:
        fields.append(b"%d" % year)
    if FORM not in kinds:
        return fields
    if YEAR in kinds or (len(fields) == 3 and rng.random() < 0.5):
        return fields + [rng.choice((b"", b"1", b"x", b"2014"))]
    return fields[:2] + [some_fault(rng)]


def bad_line(rng, kinds, own):
    """An operation line, the codelist line `own`, that breaks those rules and no other but by its place."""
    names = ["pow"] if EXPONENT in kinds else ["mulc"] if MULTIPLIER in kinds else ["addc", "mulc"] if CONSTANT in kinds else list(REFERENCES)
    name = rng.choice(names)
    earlier, later = rng.randint(1, 3), rng.choice((0, -1, own, own + 1, 99, 9999999999))
    references = [later if REFERENCE in kinds else earlier for _ in range(REFERENCES[name])]
    last = []
    if name == "pow":
        last = [rng.choice((-2, 0, 1, 9, 10, 257) if EXPONENT in kinds else (2, 3, 8))]
    elif MULTIPLIER in kinds:
        last = [0]
    elif name in ("addc", "mulc"):
        last = [rng.choice((-1, 1)) * (rng.randint(LIMIT + 1, 9999999999) if CONSTANT in kinds else rng.randint(1, 9))]
    fields = [name.encode(), *(b"%d" % number for number in references + last)]
    if FORM in kinds:
        needed = len(fields) if kinds & {EXPONENT, CONSTANT, MULTIPLIER} else 2 if REFERENCE in kinds else 0
        fields = some_damage(rng, fields, needed)
    return b"\t".join(fields)


def broken(rng, *lines, also=()):
    """An input with operation lines that break those kinds, a set for each, and which breaks the kinds `also` elsewhere.

    Factor 1 ranges about 0, factor 2 above 1; the later factors are left for bad ranges.
    """
    factors = rng.randint(4, 7)
    count = rng.choice((9, 12)) if COUNT in also else factors
    first = some_first_line(rng, count, also)
    rows = []

    def good():
        rows.append(b"addc\t%d\t%d" % (rng.randint(1, 2), rng.randint(0, 9)))

    def own():
        return count + len(rows) + 1
    if NONE not in also:
        for _ in range(rng.randint(1, 3)):
            good()
    for kinds in lines:
        while BEYOND in kinds and own() <= MOST_LINES:
            good()
        if DIVISOR in kinds and PAST in kinds:
            rows.append(b"mulc\t1\t%d" % (rng.choice((-1, 1)) * rng.randint(5_000_000, LIMIT)))
            rows.append(b"inv\t%d" % (own() - 1))
        elif DIVISOR in kinds:
            rows.append(b"inv\t1")
        elif PAST in kinds:
            rows.append(b"mulc\t2\t%d" % (rng.choice((-1, 1)) * rng.randint(LIMIT - 9, LIMIT)))
        else:
            rows.append(bad_line(rng, kinds, own()))
        if END not in kinds and NONE not in also and rng.random() < 0.5:
            good()
    if SHEET in also:
        rows += [b"addc\t1\t0"] * 460 if NONE not in also and rng.random() < 0.5 else [b"x" * MOST_BYTES]
    sheet = b"\n".join([b"\t".join(first), *rows])
    if END in also or any(END in kinds for kinds in lines):
        return sheet
    return sheet + b"\nbox\n" + box_rows(rng, factors, also)


def box_rows(rng, factors, also):
    ranges = [(-rng.randint(0, 5), rng.randint(0, 5)), (rng.randint(20000, 30000), 40000)]
    ranges += [(0, rng.randint(1, 9)) for _ in range(factors - 2)]
    bad = [kind for kind in also if kind in (TURNED, TOO_FAR)]
    for at, kind in zip((2, 3), bad):
        ranges[at] = (1, 0) if kind == TURNED else rng.choice(((0, LIMIT + 1), (-LIMIT - 1, 0)))
    rows = [b"%d\t%d" % r for r in ranges]
    if BOX_COUNT in also:
        rows = rows[:-1] if rng.random() < 0.5 and factors > 4 else rows + [b"0\t0"]
    if BOX_FORM in also:
        rows.insert(3, rng.choice((b"", b"0", b"0\t-0", b"x", b"0\t0\t0")))
    text = b"".join(row + b"\n" for row in rows)
    return text + b"0\t0\n" * (MOST_INPUT // 4) if INPUT in also else text


def makers():
    """Each order that can come up, with what is to be broken for it: the kinds of its lines and those elsewhere."""
    one_line = [BEYOND, REFERENCE, EXPONENT, CONSTANT, MULTIPLIER]
    for two in (FORM, END):
        for other in (COUNT, YEAR, *one_line):
            yield f"order in a line: {two} over {other}", (([], [two, other, NONE]) if other in (COUNT, YEAR) else ([{two, other}], []))
    yield f"order in a line: {COUNT} over {YEAR}", ([], [COUNT, YEAR])
    yield f"order in a line: {COUNT} over {YEAR}", ([], [COUNT, YEAR, NONE])
    for first, others in ((BEYOND, one_line[1:]), (REFERENCE, one_line[2:])):
        for other in others:
            yield f"order in a line: {first} over {other}", ([{first, other}], [])
    yield f"order in a line: {DIVISOR} over {PAST}", ([{DIVISOR, PAST}], [])
    later = [FORM, BEYOND, REFERENCE, EXPONENT, CONSTANT, MULTIPLIER]
    for first in [FORM, COUNT, YEAR, *later[1:]]:
        for other in later:
            name = f"order of text lines: {number_of(first)} before {number_of(other)}"
            yield name, (([{other}], [first]) if first in (COUNT, YEAR) else ([{first}, {other}], []))
    for other in later:
        yield f"order of text lines: 2 before {number_of(other)}", ([{other}], [FORM])
    yield f"order: {FORM} over {NONE}", ([{FORM}], [NONE])
    yield f"order: {END} over {NONE}", ([], [END, NONE])
    yield f"order: {COUNT} over {NONE}", ([], [COUNT, NONE])
    yield f"order: {YEAR} over {NONE}", ([], [YEAR, NONE])
    ranges = [(BOX_FORM, [], [BOX_FORM]), (BOX_COUNT, [], [BOX_COUNT]), (TURNED, [], [TURNED]), (TOO_FAR, [], [TOO_FAR]),
              (DIVISOR, [{DIVISOR}], []), (PAST, [{PAST}], [])]
    for first in (INPUT, SHEET):
        for other in later:
            yield f"order: {first} over {number_of(other)}", ([{other}], [first])
        yield f"order: {first} over {COUNT}", ([], [first, COUNT])
        yield f"order: {first} over {YEAR}", ([], [first, YEAR])
        yield f"order: {first} over {NONE}", ([], [first, NONE])
    for first in (INPUT, SHEET, FORM, COUNT, YEAR, BEYOND, REFERENCE, EXPONENT, CONSTANT, MULTIPLIER, NONE):
        for other, lines, also in ranges:
            if first == NONE and lines:
                continue
            name = first if first in (INPUT, SHEET, NONE) else number_of(first)
            elsewhere = first in (INPUT, SHEET, COUNT, YEAR, NONE)
            what = (lines, also + [first]) if elsewhere else (lines + [{first}], also)
            yield f"order: {name} over {number_of(other)}", what
    for first in (BOX_FORM, BOX_COUNT, TURNED, TOO_FAR):
        for other, lines, also in ranges:
            if number_of(other) not in (8, number_of(first)):
                yield f"order: {first} over {number_of(other)}", (lines, [first] + also)
    for first in (TURNED, TOO_FAR):
        for other in (TURNED, TOO_FAR):
            yield f"order of factors: {first} before {other}", ([], [first, other])
    for first in (DIVISOR, PAST):
        for other in (DIVISOR, PAST):
            yield f"order of codelist lines: {first} before {other}", ([{first}, {other}], [])


MAKERS = list(makers())
ORDERS = list(dict.fromkeys(name for name, _ in MAKERS))


def cases(rng):
    """An input for each order."""
    for name, (lines, also) in MAKERS:
        yield name, broken(rng, *lines, also=also)
