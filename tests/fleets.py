"""Inputs for `fleet`: lists whose boats are accepted or refused each for itself, lists that are refused, and sheets that loading refuses.

Two sorts: random ones (`case`), and one for each way in which a list can be refused or come to an edge (`cases`).
"""
from generate import Growing, damaged, loaded, long, magnitude, misplaced
from orders import BEYOND, CONSTANT, COUNT, EXPONENT, FORM, MULTIPLIER, NONE, REFERENCE, SHEET, YEAR, broken
from reference.fleet import MOST_BOATS, MOST_INPUT, RECORD
from reference.ranges import LIMIT, UNIT, Range
from reference.sheet import EARLIER, MOST_FACTORS, MOST_LINES, PRESENT, Operation, Sheet, sheet_text
from reference.text import parted
from years import cases as year_cases
from years import dated

PARTING = b"boats\n"
KEPT = Sheet(1, (Operation("addc", (1, 0)),))  # the premium is the factor itself
EDGES = (LIMIT, -LIMIT, LIMIT + 1, -LIMIT - 1, 9999999999, -9999999999)


# ---- text

def boat_lines(boats):
    return b"".join(b"\t".join(b"%d" % number for number in boat) + b"\n" for boat in boats)


def page_text(sheet, boats):
    return sheet_text(sheet) + PARTING + boat_lines(boats)


# ---- boats

def boat(rng, values):
    """A boat with these factor values. What comes past them is ignored, so it may be beyond the limit."""
    return (*values, *(rng.choice((0, 1, magnitude(rng), *EDGES)) for _ in range(RECORD - len(values))))


def some_value(rng, r):
    """A factor value: one of the range's, 0, of any size, or at the limit."""
    choice = rng.random()
    if choice < 0.6:
        return rng.choice((*r, rng.randint(*r)))
    if choice < 0.75:
        return 0
    return rng.choice((-1, 1)) * magnitude(rng) if choice < 0.9 else rng.choice(EDGES)


def some_boats(rng, ranges):
    """Few boats: most of them inside the ranges, some elsewhere, some twice."""
    boats = []
    for _ in range(rng.choice((1, 2, 3, 4, 5, 6, 9))):
        if boats and rng.random() < 0.15:
            boats.append(rng.choice(boats))
        elif rng.random() < 0.6:
            boats.append(boat(rng, [rng.randint(*r) for r in ranges]))
        else:
            boats.append(boat(rng, [some_value(rng, r) for r in ranges]))
    return boats


def plain(rng):
    """A sheet whose premium is one of its factors."""
    factors = rng.randint(1, MOST_FACTORS)
    return Sheet(factors, (Operation("addc", (rng.randint(1, factors), 0)),))


# ---- random pages

def mixed(rng):
    """Boats inside and outside the ranges that a sheet was made for."""
    given = loaded(rng, (6, 4, 2, 2, 1))
    ranges = [Range(*given.ends[k:k + 2]) for k in range(0, len(given.ends), 2)]
    return page_text(given.sheet, some_boats(rng, ranges))


def tied(rng):
    """The factor divided by a few: numbers that are no multiple of it are rounded up to the high end of the next one that is."""
    divisor = rng.choice((2, 4, 5))
    greatest = rng.randint(-50, 50)
    values = [divisor * greatest - rng.randrange(divisor) for _ in range(rng.randint(2, 4))]
    values += [rng.randint(-999, divisor * (greatest - 1)) for _ in range(rng.randint(0, 4))]
    rng.shuffle(values)
    return page_text(Sheet(1, (Operation("mulc", (1, UNIT // divisor)),)), [boat(rng, [value]) for value in values])


def negative(rng):
    """No high end above 0, and perhaps refused boats, whose ends are 0, between the others."""
    values = [-rng.choice((rng.randint(1, 9), magnitude(rng))) for _ in range(rng.randint(1, 5))]
    values += [rng.choice((0, LIMIT + 1)) for _ in range(rng.randrange(3))]
    rng.shuffle(values)
    return page_text(KEPT, [boat(rng, [value]) for value in values])


def small(rng):
    """Premiums of less than a unit of either sign: the low ends are -1 or 0, the high ends 0 or 1."""
    values = [rng.randint(1 - UNIT, UNIT - 1) for _ in range(rng.randint(2, 6))]
    return page_text(Sheet(1, (Operation("mulc", (1, 1)),)), [boat(rng, [value]) for value in values])


def large(rng):
    """Sums of numbers near the limit, which no 32 bits hold."""
    sign = rng.choice((-1, 1))
    return page_text(KEPT, [boat(rng, [sign * (LIMIT - rng.randrange(9))]) for _ in range(rng.randint(2, 6))])


def edged(rng):
    """Any number of factors, each accepted up to the limit itself."""
    factors = rng.randint(1, MOST_FACTORS)
    growing = Growing([Range(-LIMIT, LIMIT)] * factors)
    for a in range(1, factors + 1):
        growing.append("mulc", a, rng.choice((-1, 1)) * rng.randint(1, UNIT // MOST_FACTORS))
    growing.add_up(range(factors + 1, 2 * factors + 1))
    return page_text(growing.sheet(), [
        boat(rng, [rng.choice((LIMIT, -LIMIT, rng.randint(-9, 9), *(EDGES if a == bad else ()))) for a in range(factors)])
        for bad in rng.choices(range(-1, factors), k=rng.randint(1, 6))])


def divided(rng):
    """A divisor that is 0, next to 0, or neither: refused under 11, under 12, or accepted; now and then a factor beyond the limit."""
    factors = rng.randint(1, MOST_FACTORS)
    a, zero = rng.randint(1, factors), rng.randint(-9, 9) * UNIT
    sheet = Sheet(factors, (Operation("addc", (a, -zero)), Operation("inv", (factors + 1,))))

    def values():
        found = [rng.randint(-UNIT, UNIT) for _ in range(factors)]
        found[a - 1] = zero + rng.choice((0, 0, 1, -1, rng.randint(UNIT, 9 * UNIT), -rng.randint(UNIT, 9 * UNIT)))
        if rng.random() < 0.2:
            found[rng.randrange(factors)] = rng.choice(EDGES)
        return found
    return page_text(sheet, [boat(rng, values()) for _ in range(rng.randint(1, 9))])


def unread(rng):
    """Sheets damaged somewhere, before boats that are well formed or not."""
    sheet, _ = parted(rng.choice((misplaced, damaged, long))(rng))
    boats = [boat(rng, []) for _ in range(rng.randrange(3))]
    return sheet + PARTING + boat_lines(boats) + rng.choice((b"", b"", b"\n", b"x\n"))


def spoilt(rng):
    """Bytes of a page changed, doubled, dropped or cut off."""
    text = bytearray(tied(rng))
    at = rng.randrange(len(text) + 1)
    choice = rng.randrange(4)
    if choice == 0:
        text[at:at + 1] = bytes([rng.randrange(256)])
    elif choice == 1:
        text[at:at] = bytes([rng.choice(b"\t\n\r -019boats")])
    elif choice == 2:
        del text[at:at + rng.choice((1, 1, len(text)))]
    else:
        text[at:at] = text[at:at + rng.randint(1, 20)]
    return bytes(text)


KINDS = [(mixed, 36), (tied, 9), (negative, 8), (small, 6), (large, 6), (edged, 12), (divided, 13), (unread, 5), (spoilt, 5)]


def case(rng):
    """A kind's name and an input of it."""
    kind = rng.choices([kind for kind, _ in KINDS], [weight for _, weight in KINDS])[0]
    return f"fleet, {kind.__name__}", dated(rng, kind(rng))


# ---- lists of another form

# a field that is no numeral
BAD_FIELDS = {
    "`-0`": (b"-0",),
    "a zero in front": (b"01", b"00", b"-01", b"0000000000"),
    "a plus sign": (b"+1", b"+0"),
    "eleven digits": (b"10000000000", b"-10000000000", b"99999999999"),
    "a minus sign alone": (b"-",),
    "an empty field": (b"",),
    "a point": (b"1.0", b"1.", b".5"),
    "a letter": (b"x", b"1e5", b"0x1"),
    "a blank beside the digits": (b" 1", b"1 ", b"- 1"),
    "byte 0": (b"\x00", b"1\x00"),
}

# a line made of the fields of a good one, or one that is put in
BAD_LINES = {
    "seven fields": lambda rng, fields: b"\t".join(fields[1:]),
    "nine fields": lambda rng, fields: b"\t".join(fields + [b"%d" % magnitude(rng)]),
    "sixteen fields": lambda rng, fields: b"\t".join(fields * 2),
    "one field": lambda rng, fields: fields[0],
    "a tab in front": lambda rng, fields: b"\t" + b"\t".join(fields),
    "a tab behind": lambda rng, fields: b"\t".join(fields) + b"\t",
    "two tabs together": lambda rng, fields: b"\t".join(fields).replace(b"\t", b"\t\t", 1),
    "blanks for tabs": lambda rng, fields: b" ".join(fields),
    "byte 13": lambda rng, fields: b"\t".join(fields) + b"\r",
    "a blank line": lambda rng, fields: b"",
    "a second line `boats`": lambda rng, fields: b"boats",
    "a line `box`": lambda rng, fields: b"box",
}
UNENDED = "the last byte 10 missing"
WAYS = [*BAD_LINES, *BAD_FIELDS, UNENDED]


def malformed(rng, way, boats, at):
    """The boat lines with one more, at place `at`, that is of no form in this way and in no other."""
    rows = boat_lines(boats).split(b"\n")[:-1]
    if way == UNENDED:
        return b"\n".join(rows)
    fields = [b"%d" % number for number in boat(rng, [rng.randint(1, UNIT)])]
    if way in BAD_FIELDS:
        fields[rng.randrange(RECORD)] = rng.choice(BAD_FIELDS[way])
        line = b"\t".join(fields)
    else:
        line = BAD_LINES[way](rng, fields)
    return b"".join(row + b"\n" for row in rows[:at] + [line] + rows[at:])


def malformed_cases(rng):
    """Each way, with the line before all boats, between them and behind them. All else is well."""
    start = sheet_text(plain(rng)) + PARTING
    boats = [boat(rng, []) for _ in range(rng.randint(2, 4))]
    for way in WAYS:
        places = (0, rng.randint(1, len(boats) - 1), len(boats))
        for at in places[-1:] if way == UNENDED else places:
            yield f"fleet, {way}", start + malformed(rng, way, boats, at)
    yield "fleet, no boat but one of seven fields", start + malformed(rng, "seven fields", [], 0)


# what stands where the line `boats` belongs
MISSPELT = {
    "`box`": b"box\n", "`boat`": b"boat\n", "`Boats`": b"Boats\n", "`boats` and a blank": b"boats \n", "`boats` behind a blank": b" boats\n",
    "`boats` and a tab": b"boats\t\n", "`boats` and byte 13": b"boats\r\n", "`boats` and a number": b"boats\t1\n",
}


def parting_cases(rng):
    """Another line in the place of `boats`, or none, or nothing behind it."""
    sheet = sheet_text(plain(rng))
    for name, line in MISSPELT.items():
        yield f"fleet, {name} for `boats`", sheet + line + boat_lines([boat(rng, [])])
    yield "fleet, `boats` without its byte 10", sheet + b"boats"
    yield "fleet, no line `boats`", sheet
    yield "fleet, no boats", sheet + PARTING


# ---- lists of other numbers of boats or bytes

def some_of(rng, boats, count):
    """So many boats, few of them different, so that the reference has little to rate."""
    return rng.choices(boats, k=count)


def filled_up(text, length):
    """The input with boat lines behind it, all of them good, up to that many bytes."""
    shortest = boat_lines([(0,) * RECORD])
    count, more = divmod(length - len(text), len(shortest))
    first = min(more, 9)  # digits that the last line has more than the others, in its first two numbers
    return text + shortest * (count - 1) + boat_lines([(10 ** first, 10 ** (more - first), *(0,) * (RECORD - 2))])


def number_cases(rng):
    """At the most boats there may be, and past it."""
    turned = Sheet(1, (Operation("inv", (1,)),))
    few = [boat(rng, [value]) for value in (0, 1, LIMIT + 1, rng.randint(UNIT, 9 * UNIT), -rng.randint(UNIT, 9 * UNIT))]
    for count in (MOST_BOATS - 1, MOST_BOATS, MOST_BOATS + 1, MOST_BOATS + rng.randint(2, 99)):
        yield f"fleet, {count} boats", page_text(turned, some_of(rng, few, count))
    for sign in (-1, 1):
        yield "fleet, the greatest sum", page_text(KEPT, [boat(rng, [sign * LIMIT])] * MOST_BOATS)
    for count in (MOST_BOATS, MOST_BOATS + 1):
        lines = malformed(rng, rng.choice(list(BAD_FIELDS)), some_of(rng, few, count - 1), count - 1)
        yield f"fleet, {count} boats, the last one malformed", sheet_text(KEPT) + PARTING + lines
    yield "fleet, 1,000 boats and a blank line", page_text(KEPT, some_of(rng, few, MOST_BOATS)) + b"\n"


def byte_cases(rng):
    """The longest page that is reported, 97,267 bytes; then as many bytes as there may be, and more. Since no good page comes near them, 14 is due
    for as many, too, by form or by number."""
    def longest():
        return -rng.randint(10 ** 9, LIMIT)
    sheet = Sheet(1, tuple(Operation("addc", (k, longest())) for k in range(1, MOST_LINES)))
    few = [tuple(longest() for _ in range(RECORD)), (-9999999999,) * RECORD]
    yield "fleet, the longest page", page_text(sheet, some_of(rng, few, MOST_BOATS))
    start = page_text(plain(rng), [boat(rng, []) for _ in range(3)])
    for length in (MOST_INPUT, MOST_INPUT + 1, MOST_INPUT + rng.randint(2, 40_000)):
        yield f"fleet, {length} bytes, all boats", filled_up(start, length)
        yield f"fleet, {length} bytes, one line of zeros", start + b"0" * (length - len(start) - 1) + b"\n"
    yield "fleet, a line `boats` beyond the bytes that are read", b"x" * (MOST_INPUT + rng.randint(0, 9)) + b"\n" + PARTING


# ---- lists behind sheets that loading refuses

# what is broken for each refusal of loading (`orders.broken`): in an operation line, and elsewhere
BROKEN = {
    1: ([], [SHEET]), 2: ([{FORM}], []), 3: ([], [COUNT]), 4: ([{BEYOND}], []), 5: ([{REFERENCE}], []), 6: ([{EXPONENT}], []), 7: ([{CONSTANT}], []),
    15: ([{MULTIPLIER}], []), 17: ([], [YEAR]),
}


def refused_cases(rng):
    """Each refusal of loading before a good list, and before each that would be refused with 14."""
    for number, (lines, also) in [*BROKEN.items(), (4, ([], [NONE]))]:
        sheet, _ = parted(broken(rng, *lines, also=also))
        boats = [boat(rng, []) for _ in range(rng.randint(1, 3))]
        start = sheet + PARTING
        yield f"fleet, {number} before good boats", start + boat_lines(boats)
        yield f"fleet, {number} over 14 (form)", start + malformed(rng, rng.choice(WAYS), boats, rng.randint(0, len(boats)))
        yield f"fleet, {number} over 14 (number)", start + boat_lines(some_of(rng, boats, MOST_BOATS + 1))
        yield f"fleet, {number} over 14 (bytes)", filled_up(start, MOST_INPUT + rng.choice((1, rng.randint(2, 999))))
        yield f"fleet, {number} over 14 (no line)", sheet


def dated_cases(rng):
    """A page for each field that can stand behind the number of factors; what 17 is behind, and what is behind 17; boats that only 2014 refuses, since
    bends are added up; and boats that only 2016 refuses, since a product is a special case."""
    for name, text in year_cases(rng, tied(rng)):
        yield f"fleet, {name}", text
    later = (FORM, BEYOND, REFERENCE, EXPONENT, CONSTANT, MULTIPLIER)
    for lines, also in [([], [COUNT, YEAR]), ([], [YEAR, NONE]), *(([{kind}], [YEAR]) for kind in later)]:
        yield "fleet, 3 before 17, or 17 before another refusal of loading", parted(broken(rng, *lines, also=also))[0] + PARTING
    factors = rng.randint(2, 4)
    growing = Growing([Range(0, 0)] * factors)
    bend = rng.randint(LIMIT // 4 + 1, LIMIT // 2)
    growing.add_up([growing.appended("mulc", growing.appended("pow", a, 2), bend) for a in range(1, factors + 1)])
    for year in (EARLIER, PRESENT) * 2:
        boats = [boat(rng, [rng.randint(-9, 9) for _ in range(factors)]) for _ in range(rng.randint(1, 4))]
        yield f"fleet, bends added up in {year}", page_text(growing.sheet()._replace(year=year), boats)
    product = Sheet(2, (Operation("pow", (1, 2)), Operation("mul", rng.choice(((2, 3), (3, 2))))))
    for year in (EARLIER, PRESENT) * 2:
        boats = [boat(rng, [0, rng.choice((-1, 1)) * rng.randint(LIMIT // 4 - 1, LIMIT // 4 + 2)]) for _ in range(rng.randint(3, 6))]
        yield f"fleet, A or B past 10^9 in {year}", page_text(product._replace(year=year), boats + [boat(rng, [0, LIMIT // 4 + 1])])


def cases(rng):
    """An input for each way of being refused, for each edge, and for each field of a first line."""
    for kind in (malformed_cases, parting_cases, number_cases, byte_cases, refused_cases, dated_cases):
        yield from kind(rng)
