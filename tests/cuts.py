"""Inputs for `cut`: classes that are cut, depths outside 0 to 6, first lines of another form, and inputs that are refused ahead of the depth.

Two sorts: random ones (`case`), and one for each way in which a first line can be of another form, for each refusal beside it and for each edge
(`cases`).
"""
import generate
from fleets import BROKEN
from generate import Growing, box_text, input_text, magnitude
from orders import BOX_COUNT, BOX_FORM, DIVISOR, END, INPUT, NONE, PAST, TOO_FAR, TURNED, broken
from orders import cases as order_cases
from reference.cut import MOST_DEPTH
from reference.ranges import LIMIT, UNIT, Range
from reference.sheet import EARLIER, MOST_BYTES, MOST_FACTORS, MOST_LINES, PRESENT, Operation, Sheet, sheet_text
from reference.text import MOST_INPUT
from years import cases as year_cases
from years import dated

KEPT = Sheet(1, (Operation("addc", (1, 0)),))  # the premium is the factor itself
SUM = Sheet(2, (Operation("add", (1, 2)),))
GOOD = input_text(KEPT, [Range(7, 9)])

# depths outside 0 to 6; some of them come to 0 to 6 in 8, 16 or 32 bits
OUTSIDE = {
    "-1": (-1,), "7": (7,), "below -1": (-2, -6, -7, -100), "above 7": (8, 9, 10, 16, 64),
    "6 or less in 8 bits": (256, 259, 262, -256, -250), "6 or less in 16 bits": (65536, 65539, -65530),
    "6 or less in 32 bits": (2 ** 32, 2 ** 32 + 3, 2 ** 32 + 6, -2 ** 32, 6 - 2 ** 32),
    "next to 2^31": (2 ** 31 - 1, 2 ** 31, -2 ** 31), "ten digits": (9999999999, -9999999999, 1000000000),
}

# first lines of another form
MISSPELT = {
    "no tab": (b"depth", b"depth3", b"depth0"),
    "a blank for the tab": (b"depth 3", b"depth  0"),
    "two tabs together": (b"depth\t\t3",),
    "a tab behind": (b"depth\t3\t", b"depth\t0\t"),
    "a tab in front": (b"\tdepth\t3",),
    "a field too many": (b"depth\t3\t3", b"depth\t0\tx"),
    "an empty field": (b"depth\t",),
    "a zero in front": (b"depth\t03", b"depth\t00", b"depth\t06", b"depth\t0000000003"),
    "`-0`": (b"depth\t-0",),
    "a plus sign": (b"depth\t+3", b"depth\t+0"),
    "a minus sign alone": (b"depth\t-",),
    "eleven digits": (b"depth\t10000000000", b"depth\t-10000000000", b"depth\t00000000003"),
    "a point": (b"depth\t3.0", b"depth\t3.", b"depth\t.5"),
    "a letter": (b"depth\tx", b"depth\t3x", b"depth\t0x3"),
    "a blank beside the digits": (b"depth\t 3", b"depth\t3 "),
    "a blank beside the word": (b" depth\t3", b"depth \t3"),
    "a capital letter": (b"Depth\t3", b"DEPTH\t3"),
    "another word": (b"deep\t3", b"dept\t3", b"depths\t3", b"box\t3", b"addc\t3"),
    "`factors`": (b"factors\t1", b"factors\t3"),
    "a number alone": (b"3", b"0", b"\t3"),
    "an empty line": (b"",),
    "`box`": (b"box",),
    "byte 13": (b"depth\t3\r", b"depth\t0\r"),
    "byte 0": (b"depth\t3\x00", b"depth\x003"),
    "a byte above 127": (b"depth\t\xb3", b"\xef\xbb\xbfdepth\t3"),
}


# ---- text

def depth_line(depth):
    return b"depth\t%d\n" % depth


def cut_text(depth, sheet, ranges):
    return depth_line(depth) + input_text(sheet, ranges)


def bad_line(rng):
    """A first line that is refused with 16, of either sort."""
    if rng.random() < 0.5:
        return depth_line(rng.choice(rng.choice(list(OUTSIDE.values()))))
    return rng.choice(rng.choice(list(MISSPELT.values()))) + b"\n"


# ---- depths and ranges

def some_depth(rng, sheet):
    """The fewer there is to work out for a part, the deeper."""
    work = sheet.factors * len(sheet.operations)
    return rng.randint(0, 6 if work <= 12 else 5 if work <= 20 else 4 if work <= 40 else 2)


def wide_range(rng, width):
    """A range of about that width: across 0, above or below it."""
    width = max(2, round(width * rng.uniform(0.6, 1.7)))
    low = rng.choice((-rng.randint(0, width), -rng.randint(0, width), rng.randint(0, width), -width - rng.randint(0, width)))
    return Range(low, low + width)


def some_ranges(rng, factors, width):
    """Ranges of about one width, so that different factors are cut one after another; at times of the very same width."""
    ranges = [wide_range(rng, width) for _ in range(factors)]
    if rng.random() < 0.4:
        like = rng.choice(ranges)
        ranges = [Range(r.low, r.low + like.high - like.low) for r in ranges]
    return ranges


# ---- random classes

def turning(rng, growing, a, times=UNIT):
    """A line (x - r)·(x - s) of factor `a`, both zeros inside its range or next to it: uncut its limits are wider than need be. `times` something,
    where the range has few units."""
    low, high = growing.ranges[a - 1]
    x = growing.appended("mulc", a, times) if times != UNIT else a

    def less(zero):
        return growing.appended("addc", x, -zero * times // UNIT)
    r, s = (rng.choice((0, low, rng.randint(low, high), rng.randint(low, high), rng.randint(low, high))) for _ in range(2))
    i = less(r)
    return growing.appended("mul", i, rng.choice((i, less(s))))


def some_line(rng, growing):
    """One more line of any sort on the last ones; one that would be refused is left out."""
    i, j = len(growing.lines), rng.randint(1, len(growing.lines))
    constant = rng.choice((-1, 1)) * rng.randint(1, 3 * UNIT)
    growing.append(*rng.choice((
        ("mul", i, j), ("mul", i, j), ("add", i, j), ("addc", i, constant), ("mulc", i, constant), ("pow", i, rng.choice((2, 3))), ("inv", i))))


def turned(rng, ranges):
    """A sheet on these ranges whose premium turns somewhere in the class, by one factor or two."""
    growing = Growing(ranges)
    terms = [turning(rng, growing, a) for a in rng.sample(range(1, len(ranges) + 1), rng.randint(1, min(2, len(ranges))))]
    if len(terms) == 2:
        growing.append(rng.choice(("add", "mul")), *terms)
    for _ in range(rng.choice((0, 1, 2))):
        some_line(rng, growing)
    return growing


def narrowed(rng):
    """Accepted uncut, and mostly narrower where it is cut."""
    width = rng.choice((UNIT, 2 * UNIT, rng.randint(2, 4 * UNIT)))
    growing = turned(rng, some_ranges(rng, rng.choice((1, 1, 1, 2, 2, 3)), width))
    sheet = growing.sheet()
    return cut_text(some_depth(rng, sheet), sheet, growing.ranges)


def grown(rng):
    """Accepted uncut, of the sorts that `rate` is compared with."""
    growing = generate.small(rng)
    sheet = growing.sheet()
    return cut_text(some_depth(rng, sheet), sheet, growing.ranges)


def widened(rng):
    """Accepted in a part of the class, and uncut perhaps not."""
    growing = turned(rng, some_ranges(rng, rng.choice((1, 1, 2, 2, 3)), rng.choice((UNIT // 2, UNIT))))
    more = rng.choice((UNIT, 9 * UNIT, 99 * UNIT, magnitude(rng, 8)))
    ranges = [Range(low - rng.randint(0, 1) * rng.randint(1, more), high + rng.randint(0, 1) * rng.randint(1, more)) for low, high in growing.ranges]
    sheet = growing.sheet()
    return cut_text(some_depth(rng, sheet), sheet, ranges)


def divided(rng):
    """The inverse of x·x + c: uncut its divisor has 0 in it, and cut often enough it does not."""
    factors = rng.choice((1, 1, 2))
    ranges = some_ranges(rng, factors, rng.choice((UNIT, 2 * UNIT, 3 * UNIT)))
    a = rng.randint(1, factors)
    width = ranges[a - 1].high - ranges[a - 1].low
    ranges[a - 1] = Range(-rng.randint(1, width), width)
    c = rng.choice((-1, 1)) * rng.randint(1, max(2, width // 2))
    sheet = Sheet(factors, (Operation("mul", (a, a)), Operation("addc", (factors + 1, c)), Operation("inv", (factors + 2,))))
    return cut_text(rng.choice((0, 1, 1, 2, 2, 3, 4, 5, 6)), sheet, ranges)


def past_uncut(rng):
    """x·(c - x), and perhaps something more: uncut it passes the limit, and cut often enough it does not, or in one half only."""
    high = rng.randint(4_500_000, 8_500_000)
    operations = [Operation("mulc", (1, -UNIT)), Operation("addc", (2, high + rng.randint(0, high // 4))), Operation("mul", (1, 3))]
    if rng.random() < 0.3:
        operations.append(Operation("addc", (4, rng.choice((-1, 1)) * rng.randint(1, LIMIT))))
    return cut_text(rng.choice((0, 1, 1, 2, 3, 4)), Sheet(1, tuple(operations)), [Range(0, high)])


def one_refused(rng):
    """A divisor that is 0 somewhere in the class, in either half or at the cut point, or a step that passes the limit near one of its ends."""
    low = rng.randint(-3 * UNIT, UNIT)
    high = low + rng.randint(2, 3 * UNIT)
    cut = (low + high) // 2
    if rng.random() < 0.6:
        zero = rng.choice((rng.randint(low, high), low, high, cut, cut + 1, cut - 1))
        operations = [Operation("addc", (1, -zero)), Operation("inv", (2,))]
    else:
        operations = [Operation("addc", (1, rng.choice((LIMIT - rng.randint(0, max(high, 0)), rng.randint(0, max(-low, 0)) - LIMIT))))]
    return cut_text(rng.randint(0, MOST_DEPTH), Sheet(1, tuple(operations)), [Range(low, high)])


def both_refused(rng):
    """Two lines, each refused at one end of the class: an inverse at its 0, and a product that passes the limit far from its own 0, or another
    inverse."""
    factors = rng.choice((1, 1, 2))
    low = rng.randint(-2 * UNIT, UNIT)
    width = rng.randint(UNIT, 3 * UNIT)
    far, near = rng.sample((low, low + width), 2)
    a = rng.randint(1, factors)
    operations = []

    def append(name, *numbers):
        operations.append(Operation(name, numbers))
        return factors + len(operations)

    def near_end():
        append("inv", append("addc", a, -(near + (far - near) * rng.randint(0, 30) // 100)))

    def far_end():
        if rng.random() < 0.5:
            append("inv", append("addc", a, -far))
        else:
            append("mulc", append("addc", a, -near), rng.choice((-1, 1)) * min(LIMIT, 2 * UNIT * LIMIT // width))
    for step in rng.sample((near_end, far_end), 2):
        step()
    ranges = [Range(0, rng.randint(0, width)) for _ in range(factors)]
    ranges[a - 1] = Range(low, low + width)
    sheet = Sheet(factors, tuple(operations))
    return cut_text(rng.choice((1, 1, 2, 3, 4)), sheet, ranges)


def few_units(rng):
    """Ranges of a few units, and factors that make much of each."""
    factors = rng.choice((1, 1, 2, 2, 3))
    ranges = []
    for _ in range(factors):
        low = rng.randint(-12, 8)
        ranges.append(Range(low, low + rng.choice((0, 1, 2, 2, 3, 3, 4, 5, 7, 9, 12))))
    growing = Growing(ranges)
    terms = [turning(rng, growing, a, rng.randint(10 ** 5, 3 * 10 ** 6)) for a in range(1, factors + 1) if rng.random() < 0.7]
    if len(terms) > 1 and rng.random() < 0.3:
        growing.append("mul", *terms[:2])
    else:
        growing.add_up(terms)
    sheet = growing.sheet()
    return cut_text(some_depth(rng, sheet), sheet, ranges)


def last_units(rng):
    """A divisor that is 0 at the high end of a range of one unit, or of what is left of a wider one: its point below is refused with 12, not 11."""
    low = rng.randint(-9, 9)
    high = low + rng.choice((1, 1, 2, 3, 4, 8))
    factors = rng.choice((1, 2))
    a = rng.randint(1, factors)
    ranges = [Range(5, 5 + rng.randint(0, 1)) for _ in range(factors)]
    ranges[a - 1] = Range(low, high)
    sheet = Sheet(factors, (Operation("addc", (a, -rng.randint(low + 1, high))), Operation("inv", (factors + 1,))))
    return cut_text(rng.randint(1, MOST_DEPTH), sheet, ranges)


def tied(rng):
    """Equal widths, of factors that count differently."""
    factors = rng.choice((2, 2, 3, 4, 8))
    width = rng.choice((2, 3, 2 * UNIT, rng.randint(2, 4 * UNIT)))
    ranges = []
    for _ in range(factors):
        low = rng.choice((-width // 2, 0, -rng.randint(0, width), rng.randint(-width, width)))
        ranges.append(Range(low, low + (width if rng.random() < 0.8 else max(0, width - 1))))
    growing = Growing(ranges)
    times = UNIT if width >= UNIT else 10 ** 6
    growing.add_up([
        growing.appended("mulc", turning(rng, growing, a, times), rng.randint(-UNIT, UNIT) or 1)
        for a in rng.sample(range(1, factors + 1), rng.choice((1, 1, 2)))])
    sheet = growing.sheet()
    return cut_text(rng.choice((1, 1, 2, 3)), sheet, ranges)


def far_out(rng):
    """Ranges at the limit: all there is, or so far from 0 that the sum of their ends passes 2^31."""
    factors = rng.choice((1, 1, 2, 3))
    ranges = []
    for _ in range(factors):
        choice = rng.random()
        if choice < 0.3:
            ranges.append(Range(-LIMIT + rng.choice((0, 0, 1, rng.randint(0, UNIT))), LIMIT - rng.choice((0, 0, 1, rng.randint(0, UNIT)))))
        elif choice < 0.65:
            low, high = LIMIT - rng.randint(2, 3 * UNIT), LIMIT - rng.choice((0, 0, 1))
            ranges.append(Range(low, high))
        else:
            low, high = -LIMIT + rng.choice((0, 0, 1)), -LIMIT + rng.randint(2, 3 * UNIT)
            ranges.append(Range(low, high))
    growing = Growing(ranges)
    if rng.random() < 0.2:  # the value comes to the limit, too
        growing.append("addc", rng.randint(1, factors), 0)
    else:
        for a, r in enumerate(ranges, 1):
            turning(rng, growing, a, rng.randint(1, 5) if r.high - r.low > LIMIT else UNIT)
        growing.add_up(sorted(growing.unused))
    sheet = growing.sheet()
    return cut_text(some_depth(rng, sheet), sheet, ranges)


def eight(rng):
    """As many factors as there may be, or nearly, each of them the widest at times."""
    factors = rng.choice((5, 6, 7, 8, 8))
    ranges = some_ranges(rng, factors, rng.choice((UNIT, 2 * UNIT)))
    if rng.random() < 0.7:
        a = rng.choice((4, factors - 1, factors, factors))
        ranges[a - 1] = Range(ranges[a - 1].low - rng.randint(0, UNIT), ranges[a - 1].high + 2 * UNIT)
    growing = Growing(ranges)
    for a in rng.sample(range(1, factors + 1), rng.randint(1, 3)):
        turning(rng, growing, a)
    growing.add_up(sorted(growing.unused))
    sheet = growing.sheet()
    return cut_text(rng.choice((1, 1, 2, 3)), sheet, growing.ranges)


def whole(rng):
    """Any input of `rate` behind a first line, a good one more often than not."""
    _, text = generate.case(rng)
    return (depth_line(rng.choice((0, 0, 1, 1, 2))) if rng.random() < 0.7 else bad_line(rng)) + text


def misspelt(rng):
    """A first line with bytes changed, doubled or dropped."""
    line = bytearray(depth_line(rng.randint(0, MOST_DEPTH))[:-1])
    at = rng.randrange(len(line) + 1)
    choice = rng.randrange(3)
    if choice == 0:
        line[at:at + 1] = bytes([rng.randrange(256)])
    elif choice == 1:
        line[at:at] = bytes([rng.choice(b"\t\n\r -019depth")])
    else:
        del line[at:at + 1]
    return bytes(line) + b"\n" + GOOD


KINDS = [
    (narrowed, 28), (grown, 8), (widened, 10), (divided, 8), (past_uncut, 4), (one_refused, 6), (both_refused, 8), (few_units, 14), (last_units, 3),
    (tied, 8), (far_out, 8), (eight, 6), (whole, 6), (misspelt, 3),
]


def case(rng):
    """A kind's name and an input of it."""
    kind = rng.choices([kind for kind, _ in KINDS], [weight for _, weight in KINDS])[0]
    return f"cut, {kind.__name__}", dated(rng, kind(rng))


# ---- 16, beside other refusals

# what is broken behind the first line (`orders.broken`), in operation lines and elsewhere; 16 comes first
LATER = {
    "8 (form)": ([], [BOX_FORM]), "8 (number)": ([], [BOX_COUNT]), "9 (low above high)": ([], [TURNED]), "9 (limit)": ([], [TOO_FAR]),
    "11": ([{DIVISOR}], []), "12": ([{PAST}], []),
}


def later(rng):
    """Something behind the first line that 16 comes before."""
    lines, also = rng.choice(list(LATER.values()))
    return broken(rng, *lines, also=also)


def earlier(rng):
    """A sheet that loading refuses, or too long an input."""
    lines, also = rng.choice([*BROKEN.values(), ([], [NONE]), ([], [END]), ([], [INPUT])])
    return broken(rng, *lines, also=also)


def sixteen_cases(rng):
    """Each depth outside 0 to 6 and each first line of another form: where all else is well, before a later refusal, and behind one of loading."""
    named = [(f"depth {sort}", depth_line(rng.choice(depths))) for sort, depths in OUTSIDE.items()]
    named += [(f"first line with {way}", rng.choice(lines) + b"\n") for way, lines in MISSPELT.items()]
    for name, line in named:
        yield f"cut, {name}", line + GOOD
        yield f"cut, {name}, beside a later refusal", line + later(rng)
        yield f"cut, {name}, beside one of loading", line + earlier(rng)
    for name, (lines, also) in LATER.items():
        yield f"cut, 16 over {name}", bad_line(rng) + broken(rng, *lines, also=also)
    for sheet in (KEPT, SUM):
        yield "cut, 16 over 8 (no box)", bad_line(rng) + sheet_text(sheet)
    for number, (lines, also) in [*BROKEN.items(), (4, ([], [NONE])), (2, ([], [END])), (1, ([], [INPUT]))]:
        text = broken(rng, *lines, also=also)
        yield f"cut, {number} over 16", bad_line(rng) + text
        yield f"cut, {number} behind a good depth", depth_line(rng.randint(0, MOST_DEPTH)) + text


def ordered_cases(rng):
    """An input of `rate` that two refusals fit, behind a good first line or a bad one."""
    for name, text in order_cases(rng):
        yield f"cut, {name}", (depth_line(rng.randint(0, 2)) if rng.random() < 0.6 else bad_line(rng)) + text


# ---- edges

def line_cases(rng):
    """What the first line is, and where the sheet begins."""
    depth = depth_line(rng.randint(0, MOST_DEPTH))
    yield "cut, empty input", b""
    for text in (depth[:-1], b"box", b"x" * rng.randint(1, 99), sheet_text(KEPT)[:9]):
        yield "cut, no byte 10", text
    yield "cut, a first line alone", depth
    yield "cut, an empty first line alone", b"\n"
    yield "cut, an empty line behind the first", depth + b"\n" + GOOD
    yield "cut, `box` behind the first line", depth + box_text([Range(7, 9)])
    yield "cut, `box` as the first line", b"box\n" + GOOD
    yield "cut, `box` as the first line and behind it", b"box\n" + box_text([Range(7, 9)])
    yield "cut, the first line twice", depth * 2 + GOOD
    yield "cut, the first line behind the sheet", GOOD + depth
    yield "cut, the first line before the box", sheet_text(KEPT) + depth + box_text([Range(7, 9)])
    yield "cut, the first line left out", GOOD
    for sheet in (KEPT, SUM):
        yield "cut, no line `box`", depth + sheet_text(sheet)
    yield "cut, `box` without its byte 10", depth + sheet_text(KEPT) + b"box"


def length_cases(rng):
    """As many bytes as there may be, and more; the first line counts for the whole input, and not for the sheet."""
    depth = depth_line(rng.randint(0, MOST_DEPTH))
    for length in (MOST_INPUT - 1, MOST_INPUT, MOST_INPUT + 1, MOST_INPUT + len(depth), MOST_INPUT + len(depth) + 1):
        text = depth + GOOD + b"0\t0\n" * (MOST_INPUT // 4 + 9)
        yield f"cut, {length} bytes, most of them box lines", text[:length - 1] + b"\n"
    for length in (MOST_INPUT, MOST_INPUT + 1, MOST_INPUT + rng.randint(2, 99)):
        yield f"cut, {length} bytes, most of them in the first line", depth[:-1] + b"0" * (length - len(depth) - len(GOOD)) + b"\n" + GOOD
        yield f"cut, {length} bytes, and no byte 10", b"0" * length
    for length in (MOST_BYTES - 1, MOST_BYTES, MOST_BYTES + 1):
        sheet = (b"factors\t1\n" + b"inv\t1\n" * 700)[:length - 1] + b"\n"
        yield f"cut, a sheet of {length} bytes", depth + sheet + box_text([Range(7, 9)])
        yield f"cut, a sheet of {length} bytes behind a bad first line", bad_line(rng) + sheet + box_text([Range(7, 9)])
    yield "cut, a first line as long as a sheet", b"x" * MOST_BYTES + b"\n" + GOOD


def nine_cases(rng):
    """Ranges that 9 is due for, of which the lower half alone has nothing to do with it, or is refused for something else."""
    for depth in range(1, MOST_DEPTH + 1):
        inverse = Sheet(2, (Operation("inv", (1,)),))
        yield "cut, 9 over 11 of the lower half", cut_text(depth, inverse, [Range(0, LIMIT + 1), Range(7, 9)])
        yield "cut, 9 over 9 of the lower half", cut_text(depth, inverse, [Range(1, LIMIT + rng.randint(1, 9)), Range(9, 7)])
        yield "cut, 9 for a factor that is not cut", cut_text(depth, inverse, [Range(UNIT, 9 * UNIT), Range(9, 7)])
        yield "cut, 9 over 12 of the lower half", cut_text(depth, inverse, [Range(1, 2), Range(-9, LIMIT + 1)])
        yield "cut, 9 for a low end", cut_text(depth, inverse, [Range(1, 2), Range(-LIMIT - 1, 9)])


def largest_cases(rng):
    """As many factors and lines as there may be, to the greatest depth; the reference takes a while for them."""
    factors = MOST_FACTORS
    growing = Growing([Range(-UNIT, rng.randint(1, UNIT)) for _ in range(factors)])
    for a in range(1, factors + 1):
        growing.append("mul", a, rng.randint(1, factors))
    growing.add_up(range(factors + 1, 2 * factors + 1))
    while len(growing.lines) < MOST_LINES:
        growing.append("addc", len(growing.lines), rng.randint(-9, 9))
    yield "cut, the largest", cut_text(MOST_DEPTH, growing.sheet(), growing.ranges)


def dated_cases(rng):
    """A class for each field that can stand behind the number of factors, and one that only 2014 refuses, in its upper half: the bends of two fourth
    powers are added, 12·c·x² each."""
    for name, text in year_cases(rng, narrowed(rng)):
        yield f"cut, {name}", text
    c = rng.randint(29_000_000, 33_000_000)
    operations = (("pow", (1, 4)), ("mulc", (3, c)), ("pow", (2, 4)), ("mulc", (5, c)), ("add", rng.choice(((4, 6), (6, 4)))))
    sheet = Sheet(2, tuple(Operation(*operation) for operation in operations))
    for year in (EARLIER, PRESENT):
        for depth in (0, 1, 2):
            yield f"cut, bends added up in {year}, depth {depth}", cut_text(depth, sheet._replace(year=year), [Range(0, 2 * UNIT)] * 2)


def cases(rng):
    """An input for each way of being refused, for each order of two refusals, for each edge, and for each field of the sheet's first line."""
    for kind in (sixteen_cases, ordered_cases, line_cases, length_cases, nine_cases, largest_cases, dated_cases):
        yield from kind(rng)
