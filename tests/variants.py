"""Variants of an input that 02's request 11 speaks of: the two references of some `add` and `mul` lines exchanged, in its bytes, whatever its other
lines are; and ranges inside its ranges.

Besides, an input with such lines for each way in which one is refused ahead of its lines (`refused`): few of the random ones have any.
"""
import re

import years
from generate import Growing, box_text
from reference.ranges import LIMIT, UNIT, Range
from reference.sheet import MOST_BYTES, MOST_FACTORS, MOST_LINES, NUMERAL, sheet_text
from reference.text import MOST_INPUT

# a whole line, with its byte 10; its references may be no earlier lines
PAIR = re.compile(rb"^(add|mul)\t" + NUMERAL + rb"\t" + NUMERAL + rb"(?=\n)", re.MULTILINE)


# ---- references exchanged

def exchangeable(text):
    """The lines of sums and products with two references that are not the same, as matches."""
    return [pair for pair in PAIR.finditer(text) if pair[2] != pair[3]]


def some_pairs(rng, pairs):
    """One of them, all, or some."""
    count = rng.choice((1, len(pairs), rng.randint(1, len(pairs))))
    return rng.sample(pairs, count)


def exchanged(text, pairs):
    """The text with the references of these lines exchanged: it keeps its length, and all other bytes."""
    for pair in pairs:
        text = text[:pair.start()] + b"\t".join((pair[1], pair[3], pair[2])) + text[pair.end():]
    return text


def text_line(text, pair):
    """The number of a pair's text line, from 1."""
    return text.count(b"\n", 0, pair.start()) + 1


def same_but_exchanged(text, other):
    """Whether two texts are the same, line by line, but for exchanged references."""
    def in_order(pair):
        return b"\t".join((pair[1], *sorted((pair[2], pair[3]))))
    return PAIR.sub(in_order, text) == PAIR.sub(in_order, other)


# ---- narrower ranges

def one_end(rng, ranges):
    """One end moved in, by a unit, by some, or up to the other end."""
    ranges = list(ranges)
    a = rng.choice([a for a, r in enumerate(ranges) if r.low < r.high])
    low, high = ranges[a]
    by = rng.choice((1, high - low, rng.randint(1, high - low)))
    ranges[a] = rng.choice((Range(low + by, high), Range(low, high - by)))
    return ranges


def all_ends(rng, ranges):
    """Both ends of each range moved in, where it has two units or more."""
    def moved(r):
        if r.high - r.low < 2:
            return r
        if rng.random() < 0.3:
            return Range(r.low + 1, r.high - 1)
        return Range(*sorted(rng.randint(r.low + 1, r.high - 1) for _ in range(2)))
    return [moved(r) for r in ranges]


def one_point(rng, ranges):
    """Each range to a point of it: an end, 0, or anywhere."""
    points = [rng.choice((r.low, r.high, min(max(0, r.low), r.high), rng.randint(*r))) for r in ranges]
    return [Range(x, x) for x in points]


def some_ends(rng, ranges):
    """Each end moved in or not."""
    def moved(r):
        return Range(*sorted(rng.choice((r.low, r.high, rng.randint(*r), rng.randint(*r))) for _ in range(2)))
    return [moved(r) for r in ranges]


WAYS = (one_end, one_end, all_ends, all_ends, one_point, some_ends)


def narrowed(rng, ranges):
    """Ranges inside these, and other ones; none where all of these are points, which nothing else is inside of."""
    if all(low == high for low, high in ranges):
        return None
    narrower = rng.choice(WAYS)(rng, ranges)
    return narrower if narrower != list(ranges) else one_end(rng, ranges)


# ---- refused, with references to exchange

def refused(rng):
    """A sheet with a sum and a product of different lines, refused in each way: programs, names and inputs."""
    growing = Growing([Range(rng.randint(1, 9), rng.randint(10, UNIT)) for _ in range(rng.randint(2, 4))], years.some_year(rng))
    for name in ("add", "mul", rng.choice(("add", "mul"))):
        growing.append(name, *rng.sample(range(1, len(growing.lines) + 1), 2))
    first, *operations = sheet_text(growing.sheet()).split(b"\n")[:-1]
    box = box_text(growing.ranges)
    factors = len(growing.ranges)

    def text(first=first, operations=operations, box=box):
        return b"".join(line + b"\n" for line in (first, *operations)) + box

    def with_line(line):
        """One more line among the others, in front of them or behind them."""
        at = rng.randint(0, len(operations))
        return text(operations=operations[:at] + [line] + operations[at:])

    def pair(i, j):
        return b"\t".join((rng.choice((b"add", b"mul")), *(b"%d" % reference for reference in rng.sample((i, j), 2))))
    later = (0, -1, MOST_LINES, 99, 9999999999, -9999999999)
    unnamed = b"factors\t%d" % factors
    yield "rate", "a sheet too long", text(operations=operations + [pair(1, 2)] * (MOST_BYTES // 8))
    yield "rate", "an input too long", text(box=box + b"0\t0\n" * (MOST_INPUT // 4))
    yield "rate", "a wrong first line", text(first=rng.choice((b"", b"factor\t2", b"factors", b"factors 2", b"factors\t02", b"box\t2", pair(1, 2))))
    yield "rate", "a third field that is no numeral", text(first=unnamed + b"\t" + years.some_fault(rng))
    yield "rate", "another line of no form", with_line(rng.choice((b"", b"add", b"add\t1", b"mul\t1\t2\t1", b"mul\t1\t02", b"add 1 2", b"Mul\t1\t2")))
    yield "rate", "no byte 10 at the end", text(box=b"")[:-1]
    yield "rate", "a wrong count", text(first=b"factors\t%d" % rng.choice((0, -1, MOST_FACTORS + 1)))
    yield "rate", "another year", text(first=unnamed + b"\t%d" % years.other_year(rng))
    yield "rate", "a line beyond the 64th", text(operations=operations + [pair(1, 2) for _ in range(MOST_LINES + 1 - factors - len(operations))])
    yield "rate", "one reference that is not earlier", with_line(pair(1, rng.choice(later)))
    yield "rate", "two references that are not earlier", with_line(pair(*rng.sample(later, 2)))
    yield "rate", "a reference to the line itself", text(operations=[pair(1, factors + 1), *operations])
    yield "rate", "a reference of another line that is not earlier", with_line(b"inv\t%d" % rng.choice(later))
    yield "rate", "a wrong exponent", with_line(b"pow\t1\t%d" % rng.choice((-2, 0, 1, 9)))
    yield "rate", "a constant beyond the limit", with_line(b"addc\t1\t%d" % rng.choice((LIMIT + 1, -LIMIT - 1)))
    yield "rate", "a multiplication by 0", with_line(b"mulc\t1\t0")
    yield "rate", "no box", text(box=b"")
    yield "rate", "a box line too few", text(box=box_text(growing.ranges[1:]))
    yield "rate", "a box line of no form", text(box=box + b"x\n")
    yield "rate", "a range turned round", text(box=box_text([*growing.ranges[:-1], Range(1, 0)]))
    yield "rate", "a divisor with 0", text(operations=[*operations, b"inv\t1"], box=box_text([Range(-1, 1), *growing.ranges[1:]]))
    yield "fleet", "a boat of too few numbers", text(box=b"boats\n1\t2\n")
    yield "fleet", "no line `boats`", text(box=b"")
    yield "cut", "a depth outside 0 to 6", b"depth\t%d\n" % rng.choice((-1, 7)) + text()
    yield "cut", "a first line of no form", b"depth\n" + text()
    yield "sisters", "no line `boats`", text()
