"""Inputs for `sisters`: classes with two boats, inside their ranges or not, boat lines of another form or number, and classes that are refused.

Two sorts: random ones (`case`), and one for each way in which boat lines can be of another form or number, for each refusal beside it and for each
edge (`cases`).
"""
from functools import lru_cache

import generate
from cuts import KEPT, SUM, turned
from fleets import BROKEN
from generate import Growing, box_text, input_text, magnitude, scratched
from orders import BOX_COUNT, BOX_FORM, DIVISOR, END, INPUT, NONE, PAST, TOO_FAR, TURNED, broken, loosely
from orders import cases as order_cases
from reference.ranges import LIMIT, UNIT, Range
from reference.sheet import EARLIER, MOST_BYTES, MOST_FACTORS, MOST_LINES, PRESENT, Operation, Sheet, sheet_text, text_lines
from reference.text import BOX_LINE, MOST_INPUT, parted
from years import cases as year_cases
from years import dated

GOOD = input_text(KEPT, [Range(7, 9)])

# fields that are no numerals
MISSPELT = {
    "an empty field": (b"",),
    "a zero in front": (b"08", b"00", b"-08", b"0000000008"),
    "`-0`": (b"-0",),
    "a plus sign": (b"+8", b"+0"),
    "a minus sign alone": (b"-",),
    "two minus signs": (b"--8",),
    "eleven digits": (b"10000000000", b"10000000001", b"-10000000000", b"00000000008"),
    "a point": (b"8.0", b"8.", b".5"),
    "a letter": (b"x", b"8x", b"0x8"),
    "a blank beside the digits": (b" 8", b"8 "),
    "a blank between numerals": (b"8 8",),
    "a word": (b"boats", b"box", b"factors"),
    "byte 13": (b"8\r", b"\r8"),
    "byte 0": (b"8\x00", b"\x008"),
    "a byte above 127": (b"\xb8", b"\xef\xbb\xbf8"),
}

# how far a value may be from the range that it is outside of, in units
NEXT = 1
FAR = 4 * 10 ** 9
ROUND = 2 ** 32  # nothing in 32 bits
TEN_DIGITS = (9999999999, -9999999999)


# ---- text

def boat_line(values):
    return b"\t".join(b"%d" % value for value in values) + b"\n"


def boats_text(*boats):
    return b"boats\n" + b"".join(map(boat_line, boats))


def sisters_text(sheet, ranges, boats):
    return input_text(sheet, ranges) + boats_text(*boats)


# ---- boats

def some_value(rng, r):
    """A value inside a range: one of its ends as often as not."""
    return rng.choice((r.low, r.high, rng.randint(*r), rng.randint(*r)))


def other_value(rng, r, value):
    """Another value inside a range, where it has more than one."""
    if r.low == r.high:
        return value
    found = some_value(rng, r)
    return found if found != value else r.low if value != r.low else r.high


def some_boats(rng, ranges):
    """Two boats inside the ranges: equal, or apart in one factor, in some, in all that can be."""
    first = [some_value(rng, r) for r in ranges]
    all_factors = range(len(ranges))
    choice = rng.random()
    if choice < 0.06:
        differ = ()
    elif choice < 0.25:
        differ = (rng.choice(all_factors),)
    elif choice < 0.5:
        differ = rng.sample(all_factors, rng.randint(1, len(ranges)))
    else:
        differ = all_factors
    return first, moved_inside(rng, ranges, first, differ)


def moved_inside(rng, ranges, boat, factors):
    """A boat with other values in some factors (from 0), still inside the ranges."""
    return [other_value(rng, r, x) if a in factors else x for a, (r, x) in enumerate(zip(ranges, boat))]


def beyond(rng, r):
    """A value outside a range, below it or above: by one unit more often than not, or far off."""
    by = rng.choice((NEXT, NEXT, NEXT, NEXT, rng.randint(1, 9), magnitude(rng), FAR))
    near = [r.low - by, r.high + by]
    return rng.choice((*near, *near, rng.choice((*TEN_DIGITS, r.high - ROUND, r.low + ROUND))))


def moved(rng, ranges, boats, *where):
    """Boats with values outside the ranges, each place a boat (0, 1) and a factor (from 0)."""
    boats = [list(boat) for boat in boats]
    for boat, a in where:
        boats[boat][a] = beyond(rng, ranges[a])
    return boats


# ---- random classes

def some_class(rng):
    """A sheet on its ranges, of one of the sorts that `rate` and `cut` are compared with, accepted."""
    factors = rng.choice((1, 1, 2, 2, 3, 4, 5, 6, 7, 8))
    choice = rng.random()
    if choice < 0.25:
        growing = generate.small(rng)
    elif choice < 0.45:
        growing = generate.steep(rng)
    elif choice < 0.65:
        growing = turned(rng, [narrow_or_wide(rng) for _ in range(factors)])
    else:
        growing = generate.accepted(rng, factors, factors + rng.choice((1, 2, 3, 4, 6, 8, 12)))
    return growing.sheet(), growing.ranges


def narrow_or_wide(rng):
    """Of a few units, of a few thousand, or of some ten thousand; about 0, above it or below."""
    width = rng.choice((1, 9, 999, UNIT, 4 * UNIT))
    low = rng.choice((0, -width, -rng.randint(0, width), rng.randint(0, 2 * width), -rng.randint(width, 3 * width)))
    return Range(low, low + rng.randint(0, width))


def inside(rng):
    """Both boats inside."""
    sheet, ranges = some_class(rng)
    return sisters_text(sheet, ranges, some_boats(rng, ranges))


def outside(rng):
    """One boat outside in a factor, or both, in one factor or in different ones."""
    sheet, ranges = some_class(rng)
    where = {(rng.randrange(2), rng.randrange(len(ranges))) for _ in range(rng.choice((1, 1, 2, 2, 3)))}
    return sisters_text(sheet, ranges, moved(rng, ranges, some_boats(rng, ranges), *where))


def linear(rng):
    """A sum of factors times constants: each slope is a number, so that both limits are the exact difference, or next to it."""
    factors = rng.randint(1, MOST_FACTORS)
    growing = Growing([narrow_or_wide(rng) for _ in range(factors)])
    unit = rng.choice((1, 1, UNIT // 4, UNIT))
    terms = [growing.appended("mulc", a, rng.choice((-1, 1)) * unit * rng.randint(1, 99)) for a in range(1, factors + 1)]
    growing.add_up(terms)
    return sisters_text(growing.sheet(), growing.ranges, some_boats(rng, growing.ranges))


def products(rng):
    """Factors multiplied, and boats apart in one of them, or nearly so: at ends of the others the exact difference comes to a limit."""
    factors = rng.randint(2, 4)
    ranges = [narrow_or_wide(rng) for _ in range(factors)]
    growing = Growing(ranges)
    line = 1
    for a in range(2, factors + 1):
        line = growing.appended("mul", line, a)
    first = [rng.choice(r) for r in ranges]
    differ = rng.sample(range(factors), rng.choice((1, 1, 2)))
    return sisters_text(growing.sheet(), ranges, (first, moved_inside(rng, ranges, first, differ)))


def level(rng):
    """Different boats of one premium: of a sheet in x·x at -x and x, or apart in a factor that does not count."""
    factors = rng.randint(1, 4)
    ranges = [Range(-width, width) for width in (rng.randint(1, 3 * UNIT) for _ in range(factors))]
    growing = Growing(ranges)
    growing.add_up([growing.appended("pow", a, rng.choice((2, 4))) for a in rng.sample(range(1, factors + 1), rng.randint(1, factors))])
    first = [some_value(rng, r) for r in ranges]
    return sisters_text(growing.sheet(), ranges, (first, [-x for x in first]))


def few_units(rng):
    """Ranges of a few units, and slopes so small that the sum of the products is a part of a unit, or a few."""
    factors = rng.randint(1, MOST_FACTORS)
    ranges = []
    for _ in range(factors):
        low = rng.randint(-9, 9)
        ranges.append(Range(low, low + rng.randint(0, 9)))
    growing = Growing(ranges)
    growing.add_up([growing.appended("mulc", a, rng.choice((-1, 1)) * rng.choice((1, 67, 999, UNIT // 2, UNIT))) for a in range(1, factors + 1)])
    if rng.random() < 0.3:
        growing.append("pow", len(growing.lines), 2)
    return sisters_text(growing.sheet(), ranges, some_boats(rng, ranges))


@lru_cache(maxsize=None)
def steepest(factors, power, sign=1):
    """Slopes as large as they may be, on ranges as wide as they may be, of eight factors at once.

    A factor times one unit, three times over, is a unit or less, and so is its slope; a power of it is no larger, but its slope is rounded up first
    and then multiplied by the exponent. So with the exponent 8, and with eight factors that bring the value to the limit together, each slope is at
    the limit by itself: -2·10^9 to 2·10^9. With an odd exponent the slopes have one sign.
    """
    growing = Growing([Range(-LIMIT, LIMIT)] * factors)
    terms = []
    for a in range(1, factors + 1):
        for _ in range(3):
            a = growing.appended("mulc", a, 1)
        terms.append(growing.appended("pow", a, power))
    growing.add_up(terms)
    growing.append("mulc", growing.appended("mulc", len(growing.lines), LIMIT), sign * LIMIT // (MOST_FACTORS * 20))
    return growing.sheet()


def far_apart(rng):
    """Slopes and differences so large that the sum of the products takes more than 64 bits, or nearly."""
    factors = rng.choice((1, 2, 2, 3, 3, 4, 5, 6, 7, 8))
    sheet = steepest(factors, rng.choice((7, 8)), rng.choice((-1, 1)))
    ranges = [Range(-LIMIT, LIMIT)] * factors
    boats = [[sign * (LIMIT - rng.choice((0, 0, 1, rng.randint(0, LIMIT)))) for _ in ranges] for sign in rng.choice(((-1, 1), (1, -1)))]
    for a in range(factors):
        if rng.random() < 0.15:
            boats[0][a], boats[1][a] = boats[1][a], boats[0][a]
    return sisters_text(sheet, ranges, boats)


def refused(rng):
    """A class that is refused at a line, or of any other sort; its boats are well, or not."""
    sheet, ranges = generate.loaded(rng, (0, 0, 4, 2, 3))[:2]
    ranges = [Range(*ranges[k:k + 2]) for k in range(0, len(ranges), 2)]
    boats = some_boats(rng, ranges)
    if rng.random() < 0.3:
        boats = moved(rng, ranges, boats, (rng.randrange(2), rng.randrange(len(ranges))))
    return sisters_text(sheet, ranges, boats)


def whole(rng):
    """Any input of `rate` before boat lines, good ones more often than not."""
    _, text = generate.case(rng)
    return text + (boats_for(rng, text) if rng.random() < 0.6 else bad_boats(rng, text))


def damaged(rng):
    """Boat lines with bytes changed, doubled, dropped or cut off."""
    sheet, ranges = some_class(rng)
    boats = boats_text(*some_boats(rng, ranges))
    return input_text(sheet, ranges) + scratched(rng, boats, (1, 1, 1, 2, 3), b"\t\n\r -019boats")


KINDS = [
    (inside, 42), (outside, 16), (linear, 8), (products, 12), (level, 4), (few_units, 10), (far_apart, 6), (refused, 6), (whole, 6), (damaged, 4),
]


def case(rng):
    """A kind's name and an input of it."""
    kind = rng.choices([kind for kind, _ in KINDS], [weight for _, weight in KINDS])[0]
    return f"sisters, {kind.__name__}", dated(rng, kind(rng))


# ---- boat lines for any input of `rate`

def read_loosely(text):
    """The number of factors and the ranges of an input of `rate`, as far as they can be read."""
    sheet, box = parted(text)
    numbers = loosely(sheet.partition(b"\n")[0]).numbers[:1]
    factors = numbers[0] if numbers and numbers[0] is not None and 1 <= numbers[0] <= MOST_FACTORS else 4
    forms = [BOX_LINE.fullmatch(line) for line in text_lines(box or b"")[0]][:factors]
    ranges = [Range(*map(int, form.groups())) if form else Range(0, 0) for form in forms]
    return factors, ranges + [Range(0, 0)] * (factors - len(ranges))


def boats_of(rng, text):
    _, ranges = read_loosely(text)
    return [[rng.choice(r) for r in ranges] for _ in range(2)]


def boats_for(rng, text):
    """Good boat lines."""
    return boats_text(*boats_of(rng, text))


def outside_for(rng, text):
    """Boat lines of the right form, with a boat outside in the first factor or another one."""
    factors, ranges = read_loosely(text)
    a = rng.choice((0, 0, rng.randrange(factors)))
    return boats_text(*moved(rng, ranges, boats_of(rng, text), (rng.randrange(2), a)))


def misshapen_for(rng, text):
    """Boat lines of another form or number."""
    return rng.choice([*shapes(rng, boats_of(rng, text))])[1]


def both_for(rng, text):
    """Boat lines of which the second has a field too many, and one of them a value outside."""
    return outside_for(rng, text)[:-1] + b"\t0\n"


def bad_boats(rng, text):
    return rng.choice((outside_for, misshapen_for, both_for))(rng, text)


# ---- 8 by the boat lines

def shapes(rng, boats):
    """The boat lines of two boats in each way in which they are of another form or number: the way, and the bytes from the line `boats` on."""
    first, second = map(boat_line, boats)
    zero = b"%d" % rng.choice((0, 0, boats[1][-1]))
    line = b"boats\n"
    yield "no line `boats`", b""
    yield "no boat line", line
    yield "one boat line", line + first
    yield "three boat lines", line + first + second + rng.choice((first, second))
    yield "four boat lines", line + (first + second) * 2
    yield "an empty line in front", line + b"\n" + first + second
    yield "an empty line between", line + first + b"\n" + second
    yield "an empty line behind", line + first + second + b"\n"
    yield "two empty lines", line + b"\n\n"
    yield "bytes behind", line + first + second + rng.choice((b"0", b"x", b" ", b"\t", b"boats", b"\x00"))
    yield "a line `boats` between", line + first + line + second
    yield "a line `boats` behind", line + first + second + line
    yield "the line `boats` twice", line * 2 + first + second
    yield "no byte 10 at the end", line + first + second[:-1]
    yield "no byte 10 between", line + first[:-1] + second
    yield "a numeral too many in the first line", line + first[:-1] + b"\t" + zero + b"\n" + second
    yield "a numeral too many in the second line", line + first + second[:-1] + b"\t" + zero + b"\n"
    yield "a numeral too many in both lines", line + first[:-1] + b"\t" + zero + b"\n" + second[:-1] + b"\t" + zero + b"\n"
    if len(boats[0]) > 1:
        yield "a numeral too few in the first line", line + boat_line(boats[0][:-1]) + second
        yield "a numeral too few in the second line", line + first + boat_line(boats[1][:-1])
        yield "a numeral too few in both lines", line + boat_line(boats[0][:-1]) + boat_line(boats[1][:-1])
        yield "a numeral of the first line in the second", line + boat_line(boats[0][:-1]) + boat_line(boats[0][-1:] + boats[1])
        yield "a numeral of the second line in the first", line + boat_line(boats[0] + boats[1][:1]) + boat_line(boats[1][1:])
        yield "a line for each factor", line + b"".join(b"%d\t%d\n" % pair for pair in zip(*boats))
        yield "blanks for the tabs", line + (first + second).replace(b"\t", b" ")
        yield "two tabs together", line + rng.choice((first.replace(b"\t", b"\t\t", 1) + second, first + second.replace(b"\t", b"\t\t", 1)))
    if len(boats[0]) < MOST_FACTORS:
        yield "eight numerals a line", line + b"".join(boat_line([*boat, *[0] * (MOST_FACTORS - len(boat))]) for boat in boats)
    yield "all numerals in one line", line + boat_line([*boats[0], *boats[1]])
    yield "a line for each numeral", line + b"".join(b"%d\n" % value for boat in boats for value in boat)
    yield "a tab in front", line + rng.choice((b"\t" + first + second, first + b"\t" + second))
    yield "byte 13 before byte 10", line + rng.choice(((first + second).replace(b"\n", b"\r\n"), first + second[:-1] + b"\r\n"))
    yield "a tab behind", line + rng.choice((first[:-1] + b"\t\n" + second, first + second[:-1] + b"\t\n"))


def some_good(rng):
    """An accepted class of 1 to 8 factors, of which boats are easily made."""
    factors = rng.randint(1, MOST_FACTORS)
    growing = Growing([Range(-rng.randint(9, UNIT), rng.randint(9, UNIT)) for _ in range(factors)])
    growing.add_up(range(1, factors + 1))
    return growing.sheet(), growing.ranges


def shape_cases(rng):
    """Each way by itself, with a boat outside, and some behind a class that is refused; each field that is no numeral, in either boat's line."""
    for factors in (1, 2, rng.randint(3, MOST_FACTORS)):
        growing = Growing([Range(7, 9)] * factors)
        growing.add_up(range(1, factors + 1))
        sheet, ranges = growing.sheet(), growing.ranges
        boats = [[some_value(rng, r) for r in ranges] for _ in range(2)]
        for way, lines in shapes(rng, boats):
            yield f"sisters, boat lines with {way}", input_text(sheet, ranges) + lines
        for way, lines in shapes(rng, moved(rng, ranges, boats, (rng.randrange(2), rng.randrange(factors)))):
            yield f"sisters, boat lines with {way}, and a boat outside", input_text(sheet, ranges) + lines
    for way, field, boat in [(way, field, boat) for way, fields in MISSPELT.items() for field in fields for boat in (0, 1)]:
        sheet, ranges = some_good(rng)
        rows = [[b"%d" % value for value in values] for values in some_boats(rng, ranges)]
        rows[boat][rng.randrange(len(ranges))] = field
        yield f"sisters, boat lines with {way}", input_text(sheet, ranges) + b"boats\n" + b"".join(b"\t".join(row) + b"\n" for row in rows)
    for _ in range(4):
        text = later(rng)
        for way, lines in rng.sample([*shapes(rng, boats_of(rng, text))], 6):
            yield f"sisters, boat lines with {way}, beside a class's refusal", text + lines


# ---- the orders

# what is broken before the boat lines (`orders.broken`), in operation lines and elsewhere; the boats' refusals come behind
OF_THE_CLASS = {
    "8 (form)": ([], [BOX_FORM]), "8 (number)": ([], [BOX_COUNT]), "9 (low above high)": ([], [TURNED]), "9 (limit)": ([], [TOO_FAR]),
    "11": ([{DIVISOR}], []), "12": ([{PAST}], []),
}
OF_LOADING = [*BROKEN.items(), (4, ([], [NONE])), (1, ([], [INPUT]))]


def later(rng):
    """A class that is refused, and not by loading."""
    lines, also = rng.choice(list(OF_THE_CLASS.values()))
    return broken(rng, *lines, also=also)


def refusal_cases(rng):
    """Each refusal of loading and of the class before boat lines that are well, of another form, outside, and both."""
    for number, (lines, also) in [*OF_LOADING, *OF_THE_CLASS.items()]:
        for name, behind in (("well", boats_for), ("of another form", misshapen_for), ("outside", outside_for), ("both", both_for)):
            text = broken(rng, *lines, also=also)
            yield f"sisters, {number} before boat lines that are {name}", text + behind(rng, text)
    for value in TEN_DIGITS:
        boats = [[value] * MOST_FACTORS, [0] * MOST_FACTORS]
        yield "sisters, 8 for the form before 9 for ten digits", b"factors\t8\naddc\t1\t0\nbox\nx\n" + boats_text(*rng.sample(boats, 2))
    text = broken(rng, also=[END])
    yield "sisters, 2 for byte 10 that is missing before `boats`", text + boats_for(rng, text)
    for sheet in (KEPT, SUM):
        for behind in (boats_for, misshapen_for, outside_for, both_for):
            yield "sisters, no line `box`", sheet_text(sheet) + behind(rng, sheet_text(sheet))


def ordered_cases(rng):
    """An input of `rate` that two refusals fit, before good boat lines or bad ones."""
    for name, text in order_cases(rng):
        yield f"sisters, {name}", text + (boats_for if rng.random() < 0.5 else bad_boats)(rng, text)


def nine_cases(rng):
    """9 by either boat or both, in one factor or in different ones, next to a range and far off."""
    for factors in range(1, MOST_FACTORS + 1):
        ranges = [Range(low, low + rng.randint(0, 2 * UNIT)) for low in (rng.randint(-UNIT, UNIT) for _ in range(factors))]
        growing = Growing(ranges)
        growing.add_up(range(1, factors + 1))
        sheet = growing.sheet()

        def text(*where):
            return sisters_text(sheet, ranges, moved(rng, ranges, some_boats(rng, ranges), *where))
        for boat in (0, 1):
            yield "sisters, 9 in the first factor", text((boat, 0))
            yield "sisters, 9 in the last factor", text((boat, factors - 1))
            yield "sisters, 9 in all factors", text(*((boat, a) for a in range(factors)))
        yield "sisters, 9 by both boats", text((0, factors // 2), (1, factors // 2))
        if factors > 1:
            a, b = sorted(rng.sample(range(factors), 2))
            yield "sisters, 9 by the first boat, and by the second in a later factor", text((0, a), (1, b))
            yield "sisters, 9 by the second boat, and by the first in a later factor", text((1, a), (0, b))
        low, high = ranges[0]
        for value in (low - NEXT, high + NEXT, low - FAR, high + FAR, high - ROUND, low + ROUND, *TEN_DIGITS):
            boats = some_boats(rng, ranges)
            rng.choice(boats)[0] = value
            yield "sisters, 9 by a value next to a range or far off", sisters_text(sheet, ranges, boats)
        equal, _ = some_boats(rng, ranges)
        equal[-1] = beyond(rng, ranges[-1])
        yield "sisters, 9 by equal boats", sisters_text(sheet, ranges, (equal, equal))


# ---- edges

def line_cases(rng):
    """Where the input is parted."""
    boats = boats_text([7], [9])
    yield "sisters, empty input", b""
    yield "sisters, a line `boats` alone", b"boats\n"
    yield "sisters, `boats` alone, without its byte 10", b"boats"
    yield "sisters, an empty line alone", b"\n"
    yield "sisters, boat lines alone", boats
    yield "sisters, no line `boats`", GOOD
    for sheet in (KEPT, SUM):
        lines = boat_line([7] * sheet.factors) + boat_line([9] * sheet.factors)
        yield "sisters, no line `boats`, and boat lines", input_text(sheet, [Range(7, 9)] * sheet.factors) + lines
    yield "sisters, `boats` without its byte 10", GOOD + b"boats"
    yield "sisters, `boats` without its byte 10, and no `box`", sheet_text(KEPT) + b"boats"
    for lines, also in OF_THE_CLASS.values():
        yield "sisters, `boats` without its byte 10 behind a class that is refused", broken(rng, *lines, also=also) + b"boats"
    for word in (b"boats ", b" boats", b"boats\t", b"\tboats", b"boats\r", b"Boats", b"BOATS", b"boat", b"boats\x00", b"boatss"):
        yield "sisters, nearly a line `boats`", GOOD + word + b"\n" + boat_line([7]) + boat_line([9])
    for sheet in (KEPT, SUM):
        box, both = box_text([Range(7, 9)] * sheet.factors), boats_text([7] * sheet.factors, [9] * sheet.factors)
        yield "sisters, `boats` before `box`", sheet_text(sheet) + both + box
    yield "sisters, `boats` before `box` and behind", sheet_text(KEPT) + b"boats\n" + box_text([Range(7, 9)]) + boats
    yield "sisters, `boats` at the start", boats + GOOD
    yield "sisters, `boats` at the start, before an input", b"boats\n" + GOOD + boats
    yield "sisters, `boats` behind the first line", b"factors\t1\n" + boats + b"addc\t1\t0\n" + box_text([Range(7, 9)])
    yield "sisters, two lines `boats`, and both have boats", GOOD + boats + boats
    yield "sisters, two lines `boats`, and the second has boats", GOOD + b"boats\n" + boats
    yield "sisters, a line `box` behind `boats`", GOOD + b"boats\n" + box_text([Range(7, 9)]) + boat_line([7]) + boat_line([9])
    yield "sisters, `boats` for a box line", sheet_text(SUM) + b"box\n7\t9\n" + boats_text([7, 7], [9, 9]) + b"7\t9\n"
    yield "sisters, no byte 10 before `boats`", GOOD[:-1] + boats
    yield "sisters, `box` without a line", sheet_text(KEPT) + b"box\n" + boats
    yield "sisters, `box` without its byte 10", sheet_text(KEPT) + b"box" + boats
    yield "sisters, a first line `depth`", b"depth\t0\n" + GOOD + boats
    yield "sisters, no byte 10 at the end", GOOD + boats[:-1]


def length_cases(rng):
    """As many bytes as there may be, and more; the boat lines count for the whole input, and not for the sheet."""
    boats = boats_text([7], [9])
    for length in (MOST_INPUT - 1, MOST_INPUT, MOST_INPUT + 1, MOST_INPUT + len(boats), MOST_INPUT + len(boats) + 1):
        text = GOOD + b"0\t0\n" * (MOST_INPUT // 4 + 9)
        yield f"sisters, {length} bytes, most of them box lines", text[:length - len(boats) - 1] + b"\n" + boats
        text = GOOD + boats + b"0\n" * (MOST_INPUT // 2 + 99)
        yield f"sisters, {length} bytes, most of them boat lines", text[:length - 1] + b"\n"
        yield f"sisters, {length} bytes, most of them in a boat line", (GOOD + boats[:-1] + b"0" * MOST_INPUT)[:length - 1] + b"\n"
        yield f"sisters, {length} bytes, and no byte 10", b"0" * length
    for length in (MOST_BYTES - 1, MOST_BYTES, MOST_BYTES + 1):
        sheet = (b"factors\t1\n" + b"inv\t1\n" * 700)[:length - 1] + b"\n"
        yield f"sisters, a sheet of {length} bytes", sheet + box_text([Range(7, 9)]) + boats
        yield f"sisters, a sheet of {length} bytes before boat lines of another form", sheet + box_text([Range(7, 9)]) + boats + b"\n"
        yield f"sisters, a sheet of {length} bytes, and no `box`", sheet + boats


def largest_cases(rng):
    """As many factors and lines as there may be, and the largest sums."""
    growing = Growing([Range(-UNIT, rng.randint(1, UNIT)) for _ in range(MOST_FACTORS)])
    for a in range(1, MOST_FACTORS + 1):
        growing.append("mul", a, rng.randint(1, MOST_FACTORS))
    growing.add_up(range(MOST_FACTORS + 1, 2 * MOST_FACTORS + 1))
    while len(growing.lines) < MOST_LINES:
        growing.append("addc", len(growing.lines), rng.randint(-9, 9))
    yield "sisters, as many lines as there may be", sisters_text(growing.sheet(), growing.ranges, some_boats(rng, growing.ranges))
    low, high = [-LIMIT] * MOST_FACTORS, [LIMIT] * MOST_FACTORS
    ranges = [Range(-LIMIT, LIMIT)] * MOST_FACTORS
    for power in (7, 8):
        for sign in (-1, 1):
            for boats in ((low, high), (high, low), (low, low)):
                yield "sisters, the largest sums", sisters_text(steepest(MOST_FACTORS, power, sign), ranges, boats)
    # the slopes are at the limit, so that the differences alone decide whether the sum passes a number of 63 or 64 bits
    for bits in (63, 64):
        within = 2 ** bits // LIMIT
        for total, factors in ((total, factors) for total in (within, within + 1) for factors in (3, MOST_FACTORS)):
            apart = [total // factors + (a < total % factors) for a in range(factors)]
            boats = [[-LIMIT] * factors, [d - LIMIT for d in apart]]
            for first, second in (boats, boats[::-1]):
                yield "sisters, sums next to so many bits", sisters_text(steepest(factors, 8), ranges[:factors], (first, second))


def dated_cases(rng):
    """A class for each field that can stand behind the number of factors; one that only 2014 refuses, since bends are added up; and one that only 2016
    refuses, since a product is a special case."""
    for name, text in year_cases(rng, linear(rng)):
        yield f"sisters, {name}", text
    factors = rng.randint(2, 4)
    growing = Growing([Range(-rng.randint(0, 9), rng.randint(0, 9)) for _ in range(factors)])
    bend = rng.randint(LIMIT // 4 + 1, LIMIT // 2)
    growing.add_up([growing.appended("mulc", growing.appended("pow", a, 2), bend) for a in range(1, factors + 1)])
    for year in (EARLIER, PRESENT) * 3:
        boats = some_boats(rng, growing.ranges)
        yield f"sisters, bends added up in {year}", sisters_text(growing.sheet()._replace(year=year), growing.ranges, boats)
    product = Sheet(2, (Operation("pow", (1, 2)), Operation("mul", rng.choice(((2, 3), (3, 2))))))
    ranges = [Range(0, 0), Range(LIMIT // 4 - rng.randint(0, 9), LIMIT // 4 + rng.randint(1, 9))]
    for year in (EARLIER, PRESENT) * 3:
        yield f"sisters, A or B past 10^9 in {year}", sisters_text(product._replace(year=year), ranges, some_boats(rng, ranges))


def cases(rng):
    """An input for each way of being refused, for each order of two refusals, for each edge, and for each field of the sheet's first line."""
    for kind in (shape_cases, refusal_cases, ordered_cases, nine_cases, line_cases, length_cases, largest_cases, dated_cases):
        yield from kind(rng)
