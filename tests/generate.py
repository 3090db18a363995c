"""Random inputs for `rate`: accepted ones, ones at the brink of a refusal, and damaged ones. A third of the sheets is made for 2014."""
from math import isqrt

from reference.outcome import Refused
from reference.ranges import LIMIT, UNIT, Range
from reference.rating import SPECIAL_LIMIT, Result, Rules
from reference.sheet import MOST_LINES, PRESENT, REFERENCES, Loading, Operation, Sheet, sheet_text
from reference.text import run
from years import named, some_year

NAMES = ("add", "mul", "addc", "mulc", "pow", "inv")


# ---- text

def box_text(ranges):
    return b"box\n" + "".join(f"{low}\t{high}\n" for low, high in ranges).encode()


def input_text(sheet, ranges):
    return sheet_text(sheet) + box_text(ranges)


# ---- numbers and ranges

def magnitude(rng, most=9):
    """A number of units of any order of magnitude."""
    return min(LIMIT, rng.randint(1, 10 ** rng.randint(1, most)))


def constant(rng):
    choice = rng.random()
    if choice < 0.05:
        return rng.choice((0, 1, -1, UNIT, -UNIT, LIMIT, -LIMIT))
    return rng.choice((-1, 1)) * (magnitude(rng) if choice < 0.5 else rng.randint(1, 5 * UNIT))


def some_range(rng):
    """Narrow, wide, a single point, of both signs, of few units, or at the limit."""
    kind = rng.randrange(9)
    if kind == 0:
        center = rng.choice((-1, 1)) * magnitude(rng)
        return Range(center, center)
    if kind == 1:
        center = rng.choice((-1, 1)) * magnitude(rng, 6)
        width = rng.randint(0, 5)
        return Range(center - width, center + width)
    if kind == 2:
        return Range(-magnitude(rng, 6), magnitude(rng, 6))
    if kind == 3:
        return Range(*sorted(rng.randint(-20, 20) for _ in range(2)))
    if kind == 4 and rng.random() < 0.3:
        return Range(*sorted(rng.choice((-LIMIT, 1 - LIMIT, 0, LIMIT - 1, LIMIT)) for _ in range(2)))
    low = rng.randint(1, 4 * UNIT)
    high = low + rng.randint(0, 3 * UNIT)
    return Range(low, high) if kind < 7 else Range(-high, -low)


# ---- sheets

class Growing:
    """A sheet that loads and rates with its ranges, grown a line at a time."""

    def __init__(self, ranges, year=PRESENT):
        self.ranges = ranges
        self.rules = Rules(len(ranges), year=year)
        self.lines = [self.rules.factor_line(a, r) for a, r in enumerate(ranges)]
        self.operations = []
        self.unused = set(range(1, len(ranges) + 1))

    def append(self, name, *numbers):
        """Whether the line was accepted: one that would be refused is left out."""
        operation = Operation(name, numbers)
        try:
            Loading().check(operation, len(self.lines) + 1, len(self.operations) + 2)
            self.lines.append(self.rules.line(operation, self.lines))
        except Refused:
            return False
        self.operations.append(operation)
        self.unused -= set(numbers[:REFERENCES[name]])
        self.unused.add(len(self.lines))
        return True

    def appended(self, name, *numbers):
        """The number of a line that is known to be accepted."""
        self.append(name, *numbers)
        return len(self.lines)

    def less_itself(self, a):
        """The number of a line with the slope 0, not bent, that depends on a factor: x - x. Accepted where its range is no wider than the limit."""
        return self.appended("add", a, self.appended("mulc", a, -UNIT))

    def append_any(self, rng, near):
        """`near` in 0..1 says how often the last few lines are taken; of the others the unused ones come first."""
        earlier = len(self.lines)

        def reference():
            if rng.random() < near:
                return rng.randint(max(1, earlier - 2), earlier)
            return rng.choice(sorted(self.unused)) if rng.random() < 0.6 else rng.randint(1, earlier)
        return self.append(*some_operation(rng, reference))

    def add_up(self, terms):
        """One line that is the sum of some, less those that cannot be added."""
        terms = list(terms)
        while len(terms) > 1 and len(self.lines) < MOST_LINES:
            if self.append("add", terms[-1], terms[-2]):
                terms[-2:] = [len(self.lines)]
            else:
                terms.pop()

    def sheet(self):
        if not self.operations:
            self.append("addc", 1, 0)  # accepted with any ranges
        return Sheet(len(self.ranges), tuple(self.operations), self.rules.year)


def followed_by(sheet, operation):
    return sheet._replace(operations=sheet.operations + (operation,))


def some_operation(rng, reference):
    """A name and its numbers, with references from a function."""
    name = rng.choices(NAMES, (5, 5, 3, 5, 3, 3))[0]
    if name in ("add", "mul"):
        return name, reference(), reference()
    if name in ("addc", "mulc"):
        return name, reference(), constant(rng)
    if name == "pow":
        return name, reference(), rng.choice((2, 2, 2, 3, 3, 4, 5, 6, 7, 8))
    return name, reference()


def accepted(rng, factors, count):
    """A sheet of about `count` codelist lines on random ranges."""
    growing = Growing([some_range(rng) for _ in range(factors)], some_year(rng))
    near = rng.choice((0.0, 0.3, 0.6, 0.95))
    tries = 4 * count
    while len(growing.lines) < count and tries:
        growing.append_any(rng, near)
        tries -= 1
    return growing


def small(rng):
    factors = rng.randint(1, 4)
    return accepted(rng, factors, factors + rng.randint(1, 5))


def steep(rng):
    """Large slopes on ranges near 0: the sums of squares and the root of Cross come to the limit before the value does."""
    factors = rng.randint(2, 8)
    growing = Growing([Range(*sorted(rng.randint(-3, 3) for _ in range(2))) for _ in range(factors)], some_year(rng))
    terms = []
    for _ in range(rng.randint(2, 5)):
        if growing.append("mulc", rng.randint(1, factors), rng.choice((-1, 1)) * magnitude(rng)):
            terms.append(len(growing.lines))
    growing.add_up(terms[:rng.randint(1, len(terms))] if terms else [])
    for _ in range(rng.randint(1, 3)):
        earlier = len(growing.lines)
        i, j = rng.randint(max(1, earlier - 1), earlier), rng.randint(1, earlier)
        choice = rng.random()
        if choice < 0.6:
            growing.append("mul", i, j)
        elif choice < 0.8:
            growing.append("pow", i, 2)
        elif growing.append("addc", i, rng.choice((-1, 1)) * rng.randint(1, 20) * UNIT):
            growing.append("inv", len(growing.lines))
    return growing


def prescribed(rng):
    """Two lines c + sum of (b x_a + a x_a^2) at and near 0, so that V, G and E are each of any size, and an operation on them."""
    factors = rng.choice((1, 1, 2, 3))
    growing = Growing([Range(-rng.randrange(2), rng.randrange(2)) for _ in range(factors)], some_year(rng))

    def number():
        return rng.choice((-1, 1)) * rng.choice((magnitude(rng), rng.randint(1, 5 * UNIT), rng.randint(UNIT, LIMIT)))

    def operand():
        terms = []
        for a in rng.sample(range(1, factors + 1), rng.randint(1, factors)):
            if rng.random() < 0.8 and growing.append("mulc", a, number()):
                terms.append(len(growing.lines))
            if rng.random() < 0.6 and growing.append("pow", a, 2) and growing.append("mulc", len(growing.lines), number()):
                terms.append(len(growing.lines))
        growing.add_up(terms)
        if rng.random() < 0.8:
            growing.append("addc", len(growing.lines), number())
        return len(growing.lines)
    i, j = operand(), operand()
    name = rng.choice(NAMES)
    numbers = {"add": (i, j), "mul": (i, j), "addc": (i, number()), "mulc": (i, number()), "inv": (i,),
               "pow": (i, rng.choice((2, 3, 3, 4, 5, 8)))}[name]
    return growing, Operation(name, numbers)


def size(rng):
    """Factors and codelist lines: mostly small, now and then the most there may be."""
    factors = rng.choice((1, 1, 2, 2, 2, 3, 3, 4, 4, 5, 6, 7, 8))
    count = factors + rng.choice((1, 2, 3, 4, 6, 8, 12, 16, 24))
    return factors, 64 if rng.random() < 0.06 else count


# ---- kinds of cases

def grown(rng):
    growing = accepted(rng, *size(rng))
    return input_text(growing.sheet(), growing.ranges)


def blind(rng):
    """Nothing looked at: often refused by 11 or 12 after some lines."""
    factors, count = size(rng)
    operations = []
    for k in range(factors, max(count, factors + 1)):
        name, *numbers = some_operation(rng, lambda: rng.randint(max(1, k - 2), k) if rng.random() < 0.5 else rng.randint(1, k))
        operations.append(Operation(name, tuple(numbers)))
    return input_text(Sheet(factors, tuple(operations), some_year(rng)), [some_range(rng) for _ in range(factors)])


def sums(rng):
    """Terms of one factor or two each, added up: bends that share factors and bends that do not."""
    factors = rng.randint(1, 8)
    growing = Growing([some_range(rng) for _ in range(factors)], some_year(rng))
    terms = []
    for _ in range(rng.randint(1, 6)):
        i, j = rng.randint(1, factors), rng.randint(1, factors)
        name, *numbers = rng.choice((
            ("pow", i, 2), ("pow", i, rng.randint(2, 4)), ("inv", i), ("mul", i, j),
            ("mulc", i, constant(rng)), ("addc", i, constant(rng))))
        if growing.append(name, *numbers):
            terms.append(len(growing.lines))
            if rng.random() < 0.5 and growing.append("mulc", terms[-1], constant(rng)):
                terms[-1] = len(growing.lines)
    growing.add_up(terms)
    if rng.random() < 0.4:
        growing.append_any(rng, 1.0)
    return input_text(growing.sheet(), growing.ranges)


def overreaching(rng):
    """A last line that nothing was asked about: refused by 11 or 12 as often as not."""
    growing = rng.choice((small, steep))(rng)
    sheet, earlier = growing.sheet(), len(growing.lines)
    name, *numbers = some_operation(rng, lambda: rng.randint(max(1, earlier - 1), earlier))
    return input_text(followed_by(sheet, Operation(name, tuple(numbers))), growing.ranges)


def scaled(rng):
    """A last line that takes one end of V, G or E to the limit or next to it."""
    growing = small(rng)
    sheet, last = growing.sheet(), growing.lines[-1]
    ends = [abs(end) for r in (last.value, *last.slopes, last.bend) for end in r]
    end = max(ends) if rng.random() < 0.7 else rng.choice(ends)
    c = LIMIT * UNIT // max(end, UNIT) + rng.randint(-1, 1)
    c = rng.choice((-1, 1)) * min(c, LIMIT)
    return input_text(followed_by(sheet, Operation("mulc", (len(growing.lines), c))), growing.ranges)


def brink(rng):
    """The last constant or end that is accepted, or the first that is refused, found by halving."""
    growing = rng.choice((small, steep))(rng)
    return at_brink(rng, growing.sheet(), growing.ranges)


def prescribed_brink(rng):
    """The same for one operation on operands of any size; refused at once where they are too large."""
    growing, last = prescribed(rng)
    sheet = followed_by(growing.sheet(), last)
    if isinstance(run(input_text(sheet, growing.ranges)).answer, Result):
        return at_brink(rng, sheet, growing.ranges)
    return input_text(sheet, growing.ranges)


def at_brink(rng, sheet, ranges):
    constants = [k for k, operation in enumerate(sheet.operations) if operation.name in ("addc", "mulc")]
    if constants and rng.random() < 0.7:
        k = rng.choice(constants)
        name, (i, start) = sheet.operations[k]

        def with_number(c):
            operations = sheet.operations[:k] + (Operation(name, (i, c)),) + sheet.operations[k + 1:]
            return input_text(sheet._replace(operations=operations), ranges)
    else:
        k = rng.randrange(sheet.factors)
        start = ranges[k].high

        def with_number(c):
            return input_text(sheet, ranges[:k] + [Range(min(ranges[k].low, c), c)] + ranges[k + 1:])
    good, bad = start, rng.choice((-1, 1)) * (LIMIT + 1)
    while abs(bad - good) > 1:
        middle = (good + bad) // 2
        if isinstance(run(with_number(middle)).answer, Result):
            good = middle
        else:
            bad = middle
    return with_number(rng.choice((good, bad)))


def with_squares(rng, count, total):
    """So many numbers of either sign whose squares add up to `total`, or to less than a unit below it; none is 0."""
    numbers = []
    while total - sum(number ** 2 for number in numbers) >= UNIT:
        numbers = [rng.randint(1, isqrt(total // count)) for _ in range(count - 1)]
        numbers.append(isqrt(total - sum(number ** 2 for number in numbers)))
    rng.shuffle(numbers)
    return [rng.choice((-1, 1)) * number for number in numbers]


def squares_at_limit(rng):
    """Slopes whose squares add up to the limit, divided and rounded up once, or to a unit more: in Sq of an inverse, in twice the Sq of a
    square, in both sums of Cross."""
    operations = []
    total = UNIT * (LIMIT + rng.choice((0, 0, 1)))
    last = rng.choice(("inv", "pow", "mul"))
    counts = [rng.randint(2, 4), rng.randint(2, 4)] if last == "mul" else [rng.randint(2, 8)]
    factors = sum(counts)

    def append(name, *numbers):
        operations.append(Operation(name, numbers))
        return factors + len(operations)

    def slopes(first, count):
        line = None
        for a, slope in enumerate(with_squares(rng, count, total // 2 if last == "pow" else total), first):
            term = append("mulc", a, slope)
            line = term if line is None else append("add", line, term)
        return line
    line = slopes(1, counts[0])
    if last == "mul":
        append("mul", line, slopes(1 + counts[0], counts[1]))
    elif last == "pow":
        append("pow", line, 2)
    else:
        append("inv", append("addc", line, rng.choice((-1, 1)) * rng.randint(UNIT, LIMIT)))
    return input_text(Sheet(factors, tuple(operations), some_year(rng)), [Range(0, 0)] * factors)


def unsloped(rng):
    """A product over more factors than one of a line whose slopes are all 0, a factor less itself or a power of one that is 0: Cross's root is 0."""
    factors = rng.randint(2, 4)
    ranges = [Range(*sorted(rng.randint(-3 * UNIT, 3 * UNIT) for _ in range(2))) for _ in range(factors)]
    a, powered = rng.randint(1, factors), rng.random() < 0.5
    if powered:
        ranges[a - 1] = Range(0, 0)
    growing = Growing(ranges, some_year(rng))
    i = growing.appended("pow", a, rng.randint(2, 8)) if powered else growing.less_itself(a)
    j = growing.appended("add", *rng.sample(range(1, factors + 1), 2))
    if rng.random() < 0.6:
        j = growing.appended(*rng.choice((("pow", j, 2), ("mulc", j, constant(rng)), ("addc", j, constant(rng)))))
    growing.append("mul", *rng.choice(((i, j), (j, i))))
    if rng.random() < 0.3:
        growing.append_any(rng, 1.0)
    return input_text(growing.sheet(), growing.ranges)


def of_one_factor(rng, growing, a):
    """A line that depends on a factor alone, or the factor itself."""
    line = a
    for _ in range(rng.choice((0, 1, 1, 2, 3))):
        name, *numbers = rng.choice((
            ("pow", line, rng.choice((2, 2, 3, 4))), ("inv", line), ("mulc", line, constant(rng)), ("addc", line, constant(rng)),
            ("mul", line, a), ("add", line, a)))
        if growing.append(name, *numbers):
            line = len(growing.lines)
    return line


def special(rng):
    """A product of two lines of one factor each: mostly of two different ones, at times with a third one in it, or with a line behind it. In 2014 it is
    a product as any other; so are those of the next three kinds."""
    factors = rng.choice((2, 2, 2, 3, 4, 8))
    growing = Growing([some_range(rng) for _ in range(factors)], some_year(rng))
    a, b = rng.sample(range(1, factors + 1), 2)
    i, j = of_one_factor(rng, growing, a), of_one_factor(rng, growing, b if rng.random() < 0.9 else a)
    if rng.random() < 0.1 and growing.append("add", i, rng.randint(1, factors)):
        i = len(growing.lines)
    if not growing.append("mul", i, j):
        return input_text(followed_by(growing.sheet(), Operation("mul", (i, j))), growing.ranges)
    if rng.random() < 0.3:
        growing.append_any(rng, 1.0)
    return input_text(growing.sheet(), growing.ranges)


def special_far(rng):
    """A product of two such lines, both bent, with values so far from 0 that A and B outweigh C: mostly the bend has one sign."""
    growing = Growing([Range(*sorted(rng.randint(-UNIT, UNIT) for _ in range(2))) for _ in range(2)], some_year(rng))

    def operand(a):
        scaled = growing.appended("mulc", growing.appended("pow", a, rng.choice((2, 2, 4))), rng.choice((-1, 1)) * rng.randint(1, UNIT))
        return growing.appended("addc", scaled, rng.choice((-1, 1)) * rng.randint(20 * UNIT, 300 * UNIT))
    growing.append("mul", operand(1), operand(2))
    return input_text(growing.sheet(), growing.ranges)


def near_special_limit(rng):
    """Two numbers whose product, divided and rounded away from 0, is 1,000,000,000 units or one more, of either sign. The first is even and small."""
    first = 2 * rng.randint(UNIT // 4 + 1, UNIT // 2)
    second = UNIT * (SPECIAL_LIMIT + rng.choice((0, 0, 1))) // first
    return rng.choice((-1, 1)) * first, rng.choice((-1, 1)) * second


def special_at_limit(rng):
    """A product of v + g x + (e/2) x^2 and w + h y + (f/2) y^2 at 0, with one of A = w e, B = v f and C = g h, or more, next to their limit."""
    factors = rng.choice((2, 2, 3))
    growing = Growing([Range(0, 0)] * factors, some_year(rng))
    (v, g, e), (w, h, f) = ([rng.choice((0, rng.randint(-999, 999))) for _ in range(3)] for _ in range(2))
    for name in rng.sample("ABC", rng.choice((1, 1, 1, 2, 3))):
        if name == "A":
            w, e = near_special_limit(rng)
        elif name == "B":
            v, f = near_special_limit(rng)
        else:
            g, h = near_special_limit(rng)

    def operand(a, value, slope, bend):
        line = growing.appended("mulc", a, slope) if slope else growing.less_itself(a)
        if bend:
            half = growing.appended("mulc", growing.appended("pow", a, 2), UNIT // 2)
            line = growing.appended("add", line, growing.appended("mulc", half, bend))
        elif rng.random() < 0.6:  # bent all the same: of x^3 all is 0 there
            line = growing.appended("add", line, growing.appended("pow", a, 3))
        return growing.appended("addc", line, value)
    a, b = rng.sample(range(1, factors + 1), 2)
    i, j = operand(a, v, g, e), operand(b, w, h, f)
    return input_text(followed_by(growing.sheet(), Operation("mul", rng.choice(((i, j), (j, i))))), growing.ranges)


def special_end_at_limit(rng):
    """A product of (e/2) x^2 at 0 and y, or of x^2 and h y at 0, with one end of A, B or C next to their limit, and the other one nearer to 0."""
    first, second = near_special_limit(rng)
    bend = rng.random() < 0.7
    end = first if bend else first // 2
    wide, zero = Range(*sorted((end, rng.randint(-abs(end), abs(end))))), Range(0, 0)
    if bend:
        lines = [("pow", (1, 2)), ("mulc", (3, UNIT // 2)), ("mulc", (4, second)), ("mul", rng.choice(((5, 2), (2, 5))))]
    else:
        lines = [("pow", (1, 2)), ("mulc", (2, second)), ("mul", rng.choice(((3, 4), (4, 3))))]
    sheet = Sheet(2, tuple(Operation(*line) for line in lines), some_year(rng))
    return input_text(sheet, [zero, wide] if bend else [wide, zero])


def misplaced(rng):
    """One field of an accepted input replaced by one that is wrong, or nearly so."""
    growing = small(rng)
    rows = [line.split(b"\t") for line in input_text(growing.sheet(), growing.ranges).split(b"\n")]
    row = rng.randrange(len(rows) - 1)
    own = len(growing.ranges) + row
    numerals = [b"0", b"-1", b"1", b"2", b"8", b"9", b"2000000000", b"2000000001", b"-2000000000", b"-2000000001", b"9999999999",
                b"-9999999999", b"%d" % own, b"%d" % (own - 1), b"%d" % (own + 1)]
    others = [b"-0", b"01", b"00", b"-", b"", b"+1", b"1.0", b" 1", b"1 ", b"0x1", b"10000000000", b"-10000000000", b"factors", b"box",
              b"inv", b"pow", b"add", b"INV", b"addc", b"1\r", b"1\x00"]
    choice = rng.random()
    if rows[row][0] == b"pow" and choice < 0.4:
        rows[row][2] = rng.choice((b"-2", b"0", b"1", b"9", b"10"))
    elif rows[row][0] == b"mulc" and choice < 0.4:
        rows[row][2] = rng.choice((b"0", b"0", b"-0", b"1", b"-1"))
    elif choice < 0.6:
        rows[row][-1 if rng.random() < 0.5 else min(1, len(rows[row]) - 1)] = rng.choice(numerals)
    elif choice < 0.8:
        rows[row][rng.randrange(len(rows[row]))] = rng.choice(others)
    elif choice < 0.88:
        rows[row].append(rng.choice(numerals + others))
    elif choice < 0.96:
        rows[row].pop()
    else:
        rows.insert(row, [b"factors", b"1"])
    return b"\n".join(b"\t".join(fields) for fields in rows)


def scratched(rng, text, times, more):
    """Bytes of a text changed, doubled, dropped or cut off, so many times as one of `times` says; a byte that is put in is one of `more`."""
    text = bytearray(text)
    for _ in range(rng.choice(times)):
        at = rng.randrange(len(text) + 1)
        choice = rng.randrange(5)
        if choice == 0:
            text[at:at + 1] = bytes([rng.randrange(256)])
        elif choice == 1:
            text[at:at] = bytes([rng.choice(more)])
        elif choice == 2:
            del text[at:at + 1]
        elif choice == 3:
            del text[at:]
        else:
            text[at:at] = text[at:at + rng.randint(1, 12)]
    return bytes(text)


def damaged(rng):
    """Inputs with bytes changed, doubled, dropped or cut off."""
    growing = accepted(rng, *size(rng)) if rng.random() < 0.2 else small(rng)
    return scratched(rng, input_text(growing.sheet(), growing.ranges), (1, 1, 1, 2, 5), b"\t\n\r -0129abox")


def boxes(rng):
    """An accepted sheet with box lines of another form, number or order."""
    growing = small(rng)
    sheet, ranges = growing.sheet(), growing.ranges
    rows = [b"%d\t%d" % r for r in ranges]
    row = rng.randrange(len(rows))
    low, high = ranges[row]
    choice = rng.randrange(12)
    if choice == 0:
        rows[row] = b"%d\t%d" % (high + 1, high)
    elif choice == 1:
        rows[row] = b"%d\t%d" % (low, LIMIT + rng.randint(0, 1))
    elif choice == 2:
        rows[row] = b"%d\t%d" % (-LIMIT - rng.randint(0, 1), high)
    elif choice == 3:
        rows.append(b"0\t0")
    elif choice == 4:
        rows.pop()
    elif choice == 5:
        rows.append(rng.choice((b"", b"box", b"\t")))
    elif choice == 6:
        rows[row] = rng.choice((
            b"-0\t0", b"0\t-0", b"01\t2", b"0\t12345678901", b"0 1", b"0\t1\t2", b"0", b"", b"0\t1\r", b"0\t\t1", b"\t0\t1"))
    elif choice == 7:
        rows[row] = rng.choice((b"0\t9999999999", b"-9999999999\t0", b"9999999999\t-9999999999"))
        rows[rng.randrange(len(rows))] = b"2\t1"
    if choice == 8:
        return sheet_text(sheet)
    if choice == 9:
        return sheet_text(sheet) + rng.choice((b"", b"box", b"box ", b"Box\n", b"box\t\n", b"box\r\n")) + b"\n".join(rows) + b"\n"
    text = sheet_text(sheet) + b"box\n" + b"".join(line + b"\n" for line in rows)
    if choice == 10:
        text = text[:-1]
    if choice == 11:
        text = rng.choice((b"box\n", b"\n")) + text
    return text


def long(rng):
    """At the bounds of bytes and lines."""
    choice = rng.randrange(4)
    if choice == 0:
        factors = rng.randint(1, 8)
        count = 64 - factors + rng.randint(0, 2)
        operations = [Operation("addc", (rng.randint(1, factors), rng.randint(-9, 9))) for _ in range(count)]
        if rng.random() < 0.2:
            operations[-1] = Operation("inv", (rng.choice((0, 65, 99)),))
        text = input_text(Sheet(factors, tuple(operations), some_year(rng)), [Range(-1, 1)] * factors)
        return text.replace(b"addc", b"addd") if rng.random() < 0.1 else text
    if choice == 1:
        length = rng.choice((4095, 4096, 4097))
        return (b"factors\t1\n" + b"inv\t1\n" * 700)[:length - 1] + b"\n" + rng.choice((b"", b"box\n1\t1\n"))
    if choice == 2:
        length = rng.choice((8191, 8192, 8193))
        growing = small(rng)
        return (input_text(growing.sheet(), growing.ranges) + b"0\t0\n" * 2100)[:length - 1] + b"\n"
    return rng.choice((b"", b"\n", b"factors", b"box\n", b"factors\t%d\n" % rng.randint(-1, 10), b"factors\t1\nbox\n1\t1\n"))


KINDS = [
    (grown, 25), (unsloped, 1), (blind, 7), (sums, 12), (overreaching, 8), (scaled, 7), (brink, 6), (prescribed_brink, 12), (squares_at_limit, 2),
    (special, 7), (special_far, 1), (special_at_limit, 2), (special_end_at_limit, 2), (misplaced, 9), (damaged, 6), (boxes, 6), (long, 2),
]


def loaded(rng, weights):
    """What an input comes to whose sheet loads: of well-formed kinds by their weights, again where one has a multiplication by 0."""
    while True:
        kind = rng.choices((grown, sums, overreaching, scaled, blind), weights)[0]
        outcome = run(kind(rng))
        if outcome.sheet:
            return outcome


def case(rng):
    """A kind's name and an input of it."""
    kind = rng.choices([kind for kind, _ in KINDS], [weight for _, weight in KINDS])[0]
    return kind.__name__, named(rng, kind(rng))
