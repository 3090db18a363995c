"""Calls of the two C functions (02, requests 10 and 13): random ones, calls of unknown classes with all else that can be wrong, and a good class with
each of its bytes changed.

A random case is a sheet that is loaded as one of the four classes, of the kinds of generate.py, and some ratings by it, beside other classes that do not
change from call to call. The class's bytes, the length of the desk, those of the records, the numbers in them and the class number are each damaged now
and then, one apart from the others, so that refusals of all sorts meet in one call.
"""
import math
import struct
from typing import NamedTuple, Union

import generate
from desks import (
    DESK_LENGTHS, ENCODED, GOOD, UNKNOWN_NUMBERS, changed, desk_with, known_number, misfit, neighbours, of_length, slot_to_rate, some_slot,
    unknown_number)
from generate import magnitude, some_range
from reference.classes import CLASSES, DESK, Load, Rate
from reference.outcome import Refused
from reference.quoting import RANGES, RESULT
from reference.ranges import LIMIT
from reference.sheet import MOST_FACTORS, MOST_LINES, PRESENT, Operation, Sheet, load, sheet_text
from reference.text import box_ends, parted
from years import named, some_year

RATINGS = 4  # by each sheet
UNKNOWN_SHARE = 0.04  # of random calls, which are for no class
MISFITS = 40  # of each class
RANGES_LENGTHS = (0, 1, 8, 64, 112, 120, 127, 129, 136, 192, 256)
RESULT_LENGTHS = (0, 1, 8, 128, 184, 191, 193, 200, 256, 384)

KINDS = [
    (generate.grown, 20), (generate.blind, 14), (generate.sums, 12), (generate.overreaching, 8), (generate.scaled, 5), (generate.special, 6),
    (generate.squares_at_limit, 1), (generate.special_at_limit, 1), (generate.misplaced, 14), (generate.damaged, 8), (generate.boxes, 4),
    (generate.long, 4),
]


class Case(NamedTuple):
    """A call, and the good bytes that its class's were made of by a change, where they were."""
    call: Union[Load, Rate]
    good: Union[bytes, None] = None


# ---- doubles

def double(x):
    return struct.pack("<d", x)


def not_a_number(rng, quiet):
    """A NaN of either sign: its highest fraction bit tells the two kinds apart, and of a signalling one another bit is set."""
    fraction = rng.getrandbits(51) if rng.random() < 0.7 else rng.choice((1, 1 << 50))
    bits = rng.getrandbits(1) << 63 | 0x7FF << 52 | (1 << 51 if quiet else 0) | (fraction if quiet else fraction or 1)
    return struct.pack("<Q", bits)


def fraction(rng):
    """Next to a whole number of any size, or between two."""
    near = rng.choice((-1, 1)) * rng.choice((0, 1, magnitude(rng), LIMIT, 2 ** 32, 2 ** 51, 2 ** 52 - 1))
    choice = rng.randrange(4)
    if choice == 0:
        return double(math.nextafter(near, rng.choice((-math.inf, math.inf)))) if abs(near) < 2 ** 52 - 1 else double(near + 0.5)
    return double(near + rng.choice((0.5, -0.5, 0.25 if abs(near) < 2 ** 51 else 0.5)))


NO_WHOLES = [
    (fraction, 6), (lambda rng: double(rng.choice((0.1, -0.1, 0.5, -0.5, 1.5, 5e-324, -5e-324, 2.2250738585072014e-308, 0.9999999999999999))), 3),
    (lambda rng: double(rng.choice((-math.inf, math.inf))), 3), (lambda rng: not_a_number(rng, quiet=True), 3),
    (lambda rng: not_a_number(rng, quiet=False), 3),
]

# whole numbers beyond the limit; some of them come to one within it in 32 or 64 bits
BEYONDS = (
    LIMIT + 1, 2 ** 31, 2 ** 32, 2 ** 32 + 10_000, 2 ** 53, 2 ** 63, 2 ** 63 + 2 ** 11, 2 ** 64, 2 ** 64 + 2 ** 12, 2 ** 65, 2 ** 100, 1e300,
    1.7976931348623157e308)


def no_whole(rng):
    """A double that 18 is for."""
    return rng.choices([kind for kind, _ in NO_WHOLES], [weight for _, weight in NO_WHOLES])[0](rng)


def beyond(rng):
    """A double that 9 is for."""
    return double(rng.choice((-1, 1)) * (rng.choice(BEYONDS) if rng.random() < 0.7 else 1e300))


def rubbish(rng):
    """A double that stands behind the last factor."""
    choice = rng.randrange(5)
    return rng.randbytes(8) if choice == 0 else no_whole(rng) if choice == 1 else beyond(rng) if choice == 2 else double((0.0, -0.0)[choice - 3])


# ---- records

def ends_of(rng, factors, box):
    """The ends of an input's box, or others where it is not one of ranges."""
    try:
        ends = box_ends(box)
    except Refused:
        ends = []
    if len(ends) != 2 * factors:
        ends = [end for _ in range(factors) for end in some_range(rng)]
    return ends


def doubles_of(rng, ends):
    """The doubles of the ends: now and then one is a minus zero, no whole number, beyond the limit, or in the other's place, or more of this."""
    doubles = [double(float(end)) for end in ends]
    if rng.random() < 0.12:
        zeros = [k for k, end in enumerate(ends) if end == 0]
        at = rng.choice(zeros) if zeros else rng.randrange(len(ends))
        doubles[at] = double(-0.0)
    for damage, share in ((no_whole, 0.3), (beyond, 0.12)):
        if rng.random() < share:
            for _ in range(rng.choice((1, 1, 1, 2, 3))):
                doubles[rng.randrange(len(doubles))] = damage(rng)
    if rng.random() < 0.05:
        a = rng.randrange(len(doubles) // 2)
        doubles[2 * a:2 * a + 2] = doubles[2 * a + 1], doubles[2 * a]
    return doubles


def record_of(rng, ends):
    """A record of ranges: doubles of the ends, and others behind the last factor."""
    doubles = doubles_of(rng, ends)
    return b"".join(doubles + [rubbish(rng) for _ in range(2 * MOST_FACTORS - len(doubles))])


def rating(rng, number, slots, sheet, ends):
    """A rating of a class by a sheet."""
    slot, good = slot_to_rate(rng, sheet)
    desk, ranges, result = desk_with(slots, number, slot), record_of(rng, ends), rng.randbytes(RESULT)
    if rng.random() < 0.04:
        desk, good = of_length(rng, desk, DESK_LENGTHS), None
    if rng.random() < 0.05:
        ranges = of_length(rng, ranges, RANGES_LENGTHS)
    if rng.random() < 0.05:
        result = of_length(rng, result, RESULT_LENGTHS)
    return Case(Rate(number, desk, ranges, result), good)


# ---- cases

def case(rng):
    """A kind's name, a load, and ratings by the sheet where it is one, or by what was there."""
    kind = rng.choices([kind for kind, _ in KINDS], [weight for _, weight in KINDS])[0]
    text = named(rng, kind(rng))
    sheet_part, box = parted(text)
    given = text if rng.random() < 0.02 else sheet_part
    number, slots = known_number(rng), neighbours(rng)
    desk = desk_with(slots, number, some_slot(rng))
    calls = [Case(Load(number, of_length(rng, desk, DESK_LENGTHS) if rng.random() < 0.06 else desk, given))]
    try:
        sheet = load(given)
    except Refused:
        ranges = b"".join(double(float(end)) for _ in range(MOST_FACTORS) for end in some_range(rng))
        calls.append(Case(Rate(number, desk, ranges, rng.randbytes(RESULT))))
    else:
        ends = ends_of(rng, sheet.factors, box)
        if rng.random() < 0.02:
            calls.append(Case(Load(number, desk_with(slots, number, ENCODED(sheet)), given)))
        calls += [rating(rng, number, slots, sheet, ends) for _ in range(RATINGS)]
    return kind.__name__, [Case(call._replace(number=unknown_number(rng))) if rng.random() < UNKNOWN_SHARE else Case(call, good) for call, good in calls]


def loads(rng):
    """Loads at the edges of an encoding: one operation and 63 of them, each kind, constants at the limit and 0."""
    for factors in range(1, MOST_FACTORS + 1):
        for count in (1, MOST_LINES - factors):
            yield f"{factors} factors, {count} operations", sheet_text(long_sheet(rng, factors, count))
    for name in ("addc", "mulc"):
        for constant in (-LIMIT, -1, 0, 1, LIMIT):
            yield f"{name} {constant}", sheet_text(Sheet(1, (Operation(name, (1, constant)),), some_year(rng)))


def long_sheet(rng, factors, count, year=PRESENT):
    """A sheet with all six kinds in turn, whose numbers stay small: accepted with ranges of some units."""
    operations = []
    for k in range(count):
        line = factors + k
        operations.append(Operation(*(
            ("addc", (rng.randint(1, factors), 20_000)), ("mulc", (line, 10_001)), ("inv", (line,)), ("pow", (line, 2)),
            ("add", (line, rng.randint(1, factors))), ("mul", (rng.randint(1, factors), line)))[k % 6]))
    return Sheet(factors, tuple(operations), year)


def small_ranges(rng, factors):
    """Ranges of some units for the factors, and any bytes behind them."""
    ranges = b"".join(double(float(end)) for _ in range(factors) for end in (rng.randint(-9, 0), rng.randint(1, 9)))
    return ranges + rng.randbytes(RANGES - len(ranges))


def barely_empty(rng, number):
    """Ratings of a class that would have limits but for the desk's length, some with ranges of another length, or for one operation or byte."""
    sheet = long_sheet(rng, rng.randint(1, MOST_FACTORS), 12, some_year(rng))
    slots, good, ranges = rng.sample(GOOD, CLASSES), ENCODED(sheet), small_ranges(rng, sheet.factors)
    desk = desk_with(slots, number, good)
    for length in 3 * DESK_LENGTHS:
        for other in (ranges, of_length(rng, ranges, RANGES_LENGTHS)):
            yield Rate(number, of_length(rng, desk, [length]), other, rng.randbytes(RESULT))
    for slot in (good[:-1] + b"\1", *(misfit(rng, sheet) for _ in range(MISFITS))):
        yield Rate(number, desk_with(slots, number, slot), ranges, rng.randbytes(RESULT))


def sweep(rng, number, sheet):
    """A rating of a class by a good sheet with each of its bytes changed to some others."""
    good, slots, ranges = ENCODED(sheet), rng.sample(GOOD, CLASSES), small_ranges(rng, sheet.factors)
    for at, byte in enumerate(good):
        others = {byte ^ 1 << rng.randrange(8), (byte + rng.choice((-1, 1))) % 256, rng.randrange(256)} - {byte}
        for other in sorted(others):
            desk = desk_with(slots, number, good[:at] + bytes([other]) + good[at + 1:])
            yield Case(Rate(number, desk, ranges, rng.randbytes(RESULT)), good)


# ---- unknown classes

BAD_SHEETS = {
    1: b"factors\t1\n" + b"addc\t1\t0\n" * 500, 2: b"factors\t1\naddc\t1 0\n", 3: b"factors\t9\nadd\t1\t2\n", 4: b"factors\t2\n",
    5: b"factors\t1\ninv\t2\n", 6: b"factors\t1\npow\t1\t9\n", 7: b"factors\t1\naddc\t1\t2000000001\n", 15: b"factors\t1\nmulc\t1\t0\n",
    17: b"factors\t1\t2015\ninv\t1\n",
}


def of_no_class(rng):
    """Calls of each unknown number, with nothing wrong beside it, and with one thing that is: of the desk, of the sheet, or of the records. Every class
    that is not empty has one factor, so that the records are good or bad for each of them."""
    slots = [ENCODED(Sheet(1, (Operation("addc", (1, 10_000 * k)), Operation(name, numbers)), some_year(rng)))
             for k, (name, numbers) in enumerate((("mulc", (2, 5)), ("pow", (2, 2)), ("mul", (1, 2)), ("add", (2, 2))))]
    inverses = [ENCODED(Sheet(1, (Operation("inv", (1,)),), some_year(rng)))] * CLASSES
    loaded, past_limit = b"".join(slots), b"".join(inverses)
    sheet = sheet_text(Sheet(1, (Operation("pow", (1, 2)),), some_year(rng)))
    good, turned, points = (b"".join(map(double, ends)) for ends in ((10_000.0, 30_000.0), (3.0, 2.0), (1.0, 1.0)))
    fraction = double(10_000.5) + double(30_000.0)
    for number in UNKNOWN_NUMBERS:
        desks = {"": loaded, ", empty": bytes(DESK), ", damaged": b"".join(changed(rng, slot) for slot in slots), ", any bytes": rng.randbytes(DESK)}
        desks |= {f", a desk of {length} bytes": of_length(rng, loaded, [length]) for length in DESK_LENGTHS}
        for name, desk in desks.items():
            yield f"load of class {number}{name}", Load(number, desk, sheet)
            yield f"rate of class {number}{name}", Rate(number, desk, good + rng.randbytes(RANGES - 16), rng.randbytes(RESULT))
        for refusal, text in BAD_SHEETS.items():
            yield f"load of class {number}, a sheet for {refusal}", Load(number, loaded, text)
        records = {"18": (loaded, fraction), "9": (loaded, turned), "12": (past_limit, points), "11": (past_limit, double(-1.0) + double(1.0))}
        for refusal, (desk, ends) in records.items():
            yield f"rate of class {number}, {refusal}", Rate(number, desk, ends + bytes(RANGES - 16), rng.randbytes(RESULT))
        for ranges, result in ((RANGES_LENGTHS, [RESULT]), ([RANGES], RESULT_LENGTHS), (RANGES_LENGTHS, RESULT_LENGTHS)):
            records = of_length(rng, good + bytes(RANGES - 16), ranges), of_length(rng, rng.randbytes(RESULT), result)
            yield f"rate of class {number}, records of {len(records[0])} and {len(records[1])} bytes", Rate(number, loaded, *records)
