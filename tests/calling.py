"""Compares the two C functions with 02, requests 10 and 13 (tests/reference/classes.py), by ctypes: the code, every byte of desk, text and records, and
every byte beside them.

The buffers of a call lie in one stretch of random bytes, in any order, at any address. What a call is counted as comes from its bytes, not from the
kind that it was made under: here by the bytes of its own class, and in class_counts.py by its number and by the other classes.
"""
import ctypes
import random
import struct
from functools import lru_cache
from typing import NamedTuple

from class_counts import CLASS_RULES, LOADING, NUMBERS, OTHER_BYTES, SEQUENCE_RULES, ZEROS, of_class_load, of_class_rate
from class_errors import CLASS_LOAD_ERRORS, CLASS_RATE_ERRORS
from errors import CALLED_LOAD_ERRORS, CALLED_RATE_ERRORS
from reference.classes import DESK, SLOT, Classes, Load, Rate
from reference.outcome import Refused, refuse
from reference.quoting import ENTRY, HEAD, RANGES, RESULT, Quoting, refusal_of
from reference.ranges import LIMIT
from reference.rating import rate
from reference.sheet import EARLIER, MOST_FACTORS, MOST_LINES, PRESENT, REFERENCES, load
from tally import TIMES_CAUGHT, Tally

MOST_TOGETHER = 1 << 15  # bytes of a call, with those beside its buffers
FEWEST_BESIDE, MOST_BESIDE = 16, 47  # bytes before each buffer, and behind the last

# sorts of a double
FRACTION, SUBNORMAL, MINUS_ZERO, WITHIN = "a fraction", "a subnormal", "minus zero", "a whole number within the limit"
INFINITIES = ("an infinity above 0", "an infinity below 0")
NANS = tuple(f"a {kind} NaN, {sign}" for kind in ("quiet", "signalling") for sign in ("plus", "minus"))
HUGE, HUGE_BELOW = "1e300", "-1e300"
BEYONDS = ("beyond the limit, and not 64 bits", "beyond 64 bits", HUGE, HUGE_BELOW)
NO_WHOLES = (FRACTION, SUBNORMAL, *INFINITIES, *NANS)

ANOTHER = "another sheet"
LENGTHS = ("no bytes", "fewer bytes", "more bytes")

# bytes of a class by what they are for; a change of the second ones can make another sheet
ZERO_FIELDS = ("the zeros behind the year", "an operation's fourth byte", "a third byte that is not used", "a constant that is not used",
               "the zeros behind the operations", "the number of operations")
FIELDS = ("the number of factors", "the year", "a kind", "a first line", "a second line", "an exponent", "a constant")

LOAD_RULES = [
    *(f"load: {number}" for number in LOADING), *(f"load: 10 over {number}" for number in LOADING), "load: 10, and the sheet is good",
    *(f"load: 10, a desk of {length}" for length in LENGTHS),
    *(f"load: {outcome}, {slot}" for outcome in ("accepted", "refused") for slot in (ZEROS, ANOTHER, OTHER_BYTES)),
    "load: accepted, the same sheet", "load: accepted, of 2014", "load: accepted, of 2016",
    *(f"load: accepted, {factors} factors" for factors in range(1, MOST_FACTORS + 1)), "load: accepted, 1 operation", "load: accepted, 63 operations",
    *(f"load: accepted, `{name}`" for name in REFERENCES), *(f"load: accepted, `addc` of {constant}" for constant in (-LIMIT, 0, LIMIT)),
    *(f"load: accepted, `mulc` of {constant}" for constant in (-LIMIT, LIMIT)), "load: a place above 9", "load: place 65",
]

REFUSED_RULES = [
    f"rate: 10, {ZEROS}", f"rate: 10, {OTHER_BYTES}", *(f"rate: 10, a desk of {length}" for length in LENGTHS),
    *(f"rate: 10 over {number}" for number in (8, 18, 9)),
    *(f"rate: 8, {record} of {length}" for record in ("ranges", "a result") for length in LENGTHS), "rate: 8, both records",
    "rate: 8 over 18", "rate: 8 over 9",
    *(f"rate: 18, {sort}" for sort in NO_WHOLES), *(f"rate: 18 at factor {factor}" for factor in range(1, MOST_FACTORS + 1)),
    "rate: 18, by the low end", "rate: 18, by the high end", "rate: 18, by both ends", "rate: 18, and a later factor's",
    "rate: 18 over 9 at a lower factor", "rate: 18 over 9 at a higher factor",
    *(f"rate: 9, {sort}" for sort in BEYONDS), "rate: 9, turned round", *(f"rate: 9 at factor {factor}" for factor in range(1, MOST_FACTORS + 1)),
    *(f"rate: {number}, of {year}" for number in (11, 12) for year in (PRESENT, EARLIER)),
]

ACCEPTED_RULES = [
    *(f"rate: accepted, of {year}" for year in (PRESENT, EARLIER)), *(f"rate: accepted, {factors} factors" for factors in range(1, MOST_FACTORS + 1)),
    "rate: accepted, 63 operations", "rate: accepted, a low end of minus zero", "rate: accepted, a high end of minus zero",
    *(f"rate: accepted, {sort} past the last factor" for sort in (*NO_WHOLES, *BEYONDS, MINUS_ZERO)),
    *(f"rate: accepted, {what}" for what in (
        "0 in the result", "a number below 0", "a number above 2^24", "an empty bent set", "a full bend that is not the bend",
        "all eight factors count")),
]

BYTE_RULES = [f"changed: byte {at}" for at in range(SLOT)]
QUOTED_ON_RULES = [f"changed: byte {at} of class {k}, and the others quote on" for k in NUMBERS for at in range(SLOT)]
CHANGED_RULES = [
    *(f"changed: {field}, and 10" for field in ZERO_FIELDS + FIELDS), *(f"changed: {field}, and another sheet" for field in FIELDS),
    "changed: another sheet, and its result", "changed: another sheet, and its refusal",
]

ADDRESS_RULES = [
    f"{buffer} at {offset} beyond a multiple of 8"
    for buffer in ("load: desk", "load: text", "rate: desk", "rate: ranges", "rate: result") for offset in range(8)]


@lru_cache(maxsize=256)
def outcome(sheet, ends):
    try:
        return rate(sheet, ends), None
    except Refused as refused:
        return None, refused.args[0]


def remembered(sheet, ends):
    """A class, rated once for the right rules and the wrong ones."""
    result, refusal = outcome(sheet, tuple(ends))
    return refuse(*refusal) if refusal else result


@lru_cache(maxsize=1024)
def decoded(slot):
    return Quoting().decoded(slot)


class Remembering(Quoting):
    """The right rules. The bytes of a class are decoded once for all that ask for its sheet, since those of other classes come again and again."""
    def decoded(self, desk):
        return decoded(desk)


RIGHT = Classes(remembered, Remembering)


class Wrong(NamedTuple):
    """A wrong rule, of one class or of four, in one of the two functions: it has to be told from the right one in each that it can be seen in."""
    function: str
    rules: type

    def called(self, call):
        return (self.rules(remembered) if issubclass(self.rules, Classes) else Classes(remembered, self.rules)).called(call)


ERRORS = {
    "load": [Wrong("load", rules) for rules in CALLED_LOAD_ERRORS + CLASS_LOAD_ERRORS],
    "rate": [Wrong("rate", rules) for rules in CALLED_RATE_ERRORS + CLASS_RATE_ERRORS],
}


class Library:
    """The functions of a shared library that was made of the archive."""

    def __init__(self, path):
        library = ctypes.CDLL(str(path))
        self.functions = {Load: library.motmotdivan_load, Rate: library.motmotdivan_rate}
        for call, function in self.functions.items():
            function.argtypes = [ctypes.c_uint64] + [ctypes.c_void_p, ctypes.c_size_t] * (len(call._fields) - 1)
            function.restype = ctypes.c_uint64
        self.together = ctypes.create_string_buffer(MOST_TOGETHER)

    def called(self, call, rng):
        """The code, the call's bytes as they are left, their addresses, and whether a byte beside them has changed."""
        start, names, places, at = ctypes.addressof(self.together), call._fields[1:], {}, 0
        for name in rng.sample(names, len(names)):
            at += rng.randint(FEWEST_BESIDE, MOST_BESIDE)
            places[name] = at
            at += len(getattr(call, name))
        before = bytearray(rng.randbytes(at + rng.randint(FEWEST_BESIDE, MOST_BESIDE)))
        for name, buffer in zip(names, call[1:]):
            before[places[name]:places[name] + len(buffer)] = buffer
        ctypes.memmove(start, bytes(before), len(before))
        arguments = [argument for name, buffer in zip(names, call[1:]) for argument in (start + places[name], len(buffer))]
        code = self.functions[type(call)](call.number, *arguments)
        after = ctypes.string_at(start, len(before))
        left = type(call)(call.number, *(after[places[name]:places[name] + len(buffer)] for name, buffer in zip(names, call[1:])))
        for name, buffer in zip(names, left[1:]):
            before[places[name]:places[name] + len(buffer)] = buffer
        return code, left, {name: start + place for name, place in places.items()}, after != before


class CallComparison(Tally):
    rules = LOAD_RULES + REFUSED_RULES + ACCEPTED_RULES + CLASS_RULES + BYTE_RULES + CHANGED_RULES + ADDRESS_RULES + QUOTED_ON_RULES + SEQUENCE_RULES
    errors = ERRORS["load"] + ERRORS["rate"]

    def __init__(self, library):
        super().__init__()
        self.library = library
        self.untold = dict(ERRORS)  # wrong rules that are still tried

    def compare(self, name, call, good=None):
        """Compares one call with the reference, and gives the library's code and what it left."""
        code, left = expected = RIGHT.called(call)
        got, got_left, addresses, beside = self.library.called(call, random.Random(name))
        complaint = "--- a byte beside the buffers has changed\n" if beside else ""
        if (got, got_left) != expected:
            complaint += f"--- expected {code}\n{shown(left)}--- got {got}\n{shown(got_left)}"
        function = "load" if isinstance(call, Load) else "rate"
        self.met.update(f"{function}: {buffer} at {address % 8} beyond a multiple of 8" for buffer, address in addresses.items())
        if isinstance(call, Load):
            self.met.update(f"load: {rule}" for rule in of_class_load(RIGHT, call, code))
            self.met.update(f"load: {rule}" for rule in of_load(call, code, left))
        else:
            self.met.update(f"rate: {rule}" for rule in of_class_rate(RIGHT, call, code))
            self.met.update(f"rate: {rule}" for rule in of_rate(call, code, left, good))
            if good is not None:
                self.met.update(f"changed: {rule}" for rule in of_change(RIGHT.slot(call.desk, call.number), good, code))
        self.catch_errors(expected, lambda wrong: wrong.called(call), self.untold[function])
        self.untold[function] = [wrong for wrong in self.untold[function] if self.caught[wrong] < TIMES_CAUGHT]
        self.judge(name, shown(call).encode(), complaint)
        return got, got_left

    def said_of(self, wrong):
        return f"{wrong.function}: {wrong.rules.__doc__}"

    def conclude(self):
        """Prints how often each rule was met."""
        self.show(LOAD_RULES + REFUSED_RULES + ACCEPTED_RULES + CLASS_RULES + CHANGED_RULES + SEQUENCE_RULES)
        for rules, what in (
                (BYTE_RULES, "a byte of a good class changed"), (QUOTED_ON_RULES, "a byte changed, and the other three classes quote on"),
                (ADDRESS_RULES, "addresses of buffers, modulo 8")):
            print(f"{min(self.met[rule] for rule in rules):9}  {what}: the least often met of {len(rules)}")
        print(f"{len(self.errors):9}  wrong rules that have to be told from the right ones")


def shown(call):
    """The class number of a call, and its buffers, a line each."""
    buffers = zip(call._fields[1:], call[1:])
    return f"class {call.number}\n" + "".join(f"{name}, {len(buffer)} bytes: {buffer.hex()}\n" for name, buffer in buffers)


# ---- what a call is counted as

def length_of(buffer, length):
    """How a buffer is of another length."""
    return LENGTHS[0] if not buffer else LENGTHS[1] if len(buffer) < length else LENGTHS[2]


def sort_of_slot(slot):
    return ZEROS if not any(slot) else OTHER_BYTES if RIGHT.one.decoded(slot) is None else ANOTHER


def of_load(call, code, left):
    """What a load of a class is counted as."""
    refusal, slot = refusal_of(code), RIGHT.slot(call.desk, call.number)
    if code == 21:
        return
    if code == 10:
        yield f"10, a desk of {length_of(call.desk, DESK)}"
        try:
            load(call.text)
        except Refused as refused:
            yield f"10 over {refused.args[0].number}"
        else:
            yield "10, and the sheet is good"
    elif refusal:
        yield str(refusal.number)
        yield f"refused, {sort_of_slot(slot)}"
        if refusal.place > 9:
            yield "a place above 9"
        if refusal.place == 65:
            yield "place 65"
    else:
        yield "accepted, the same sheet" if call.desk == left.desk else f"accepted, {sort_of_slot(slot)}"
        sheet = load(call.text)
        yield f"accepted, of {sheet.year}"
        yield f"accepted, {sheet.factors} factors"
        if len(sheet.operations) in (1, MOST_LINES - 1):
            yield f"accepted, {len(sheet.operations)} operation{'s' if len(sheet.operations) > 1 else ''}"
        for name, numbers in set(sheet.operations):
            yield f"accepted, `{name}`"
            if name in ("addc", "mulc") and numbers[1] in (-LIMIT, 0, LIMIT):
                yield f"accepted, `{name}` of {numbers[1]}"


def sort_of(eight):
    """The sort of a double, by its bits."""
    (bits,) = struct.unpack("<Q", eight)
    (x,) = struct.unpack("<d", eight)
    sign, exponent, fraction = bits >> 63, bits >> 52 & 0x7FF, bits & (1 << 52) - 1
    if exponent == 0x7FF:
        return NANS[2 * (not fraction >> 51) + sign] if fraction else INFINITIES[sign]
    if exponent == 0:
        return SUBNORMAL if fraction else MINUS_ZERO if sign else WITHIN
    if not x.is_integer():
        return FRACTION
    if abs(x) == 1e300:
        return HUGE_BELOW if sign else HUGE
    return WITHIN if abs(x) <= LIMIT else BEYONDS[0] if -2 ** 63 <= x < 2 ** 63 else BEYONDS[1]


def bad_ranges(sorts, doubles):
    """The factors, from 0, whose ends are whole numbers and that 9 is for."""
    return [a for a, (low, high) in enumerate(zip(doubles[::2], doubles[1::2]))
            if not set(sorts[2 * a:2 * a + 2]) & set(NO_WHOLES) and (low > high or low < -LIMIT or high > LIMIT)]


def of_rate(call, code, left, good):
    """What a rating of a class is counted as. An empty class is given as many factors as it says, or as the good one has that it was made of."""
    if code == 21:
        return
    number, desk, ranges, result = call
    slot = RIGHT.slot(desk, number)
    sheet, refusal = RIGHT.one.decoded(slot), refusal_of(code)
    factors = sheet.factors if sheet else (good or slot or b"\0")[0]
    factors = factors if 1 <= factors <= MOST_FACTORS else 0
    sorts = [sort_of(ranges[8 * k:8 * k + 8]) for k in range(len(ranges) // 8)]
    doubles = struct.unpack(f"<{len(sorts)}d", ranges[:8 * len(sorts)])
    first = sorts[:2 * factors]
    broken = [k // 2 for k, sort in enumerate(first) if sort in NO_WHOLES]
    turned = bad_ranges(first, doubles[:2 * factors])
    lengths = len(ranges) != RANGES or len(result) != RESULT
    due = [number for number, holds in ((8, lengths), (18, broken), (9, turned)) if holds]
    if code == 10:
        yield f"10, a desk of {length_of(desk, DESK)}" if len(desk) != DESK else f"10, {OTHER_BYTES if any(slot) else ZEROS}"
        yield from (f"10 over {number}" for number in due)
    elif code == 8:
        if len(ranges) != RANGES:
            yield f"8, ranges of {length_of(ranges, RANGES)}"
        if len(result) != RESULT:
            yield f"8, a result of {length_of(result, RESULT)}"
        if len(ranges) != RANGES and len(result) != RESULT:
            yield "8, both records"
        yield from (f"8 over {number}" for number in due if number != 8)
    elif refusal and refusal.number == 18:
        a = broken[0]
        ends = [sort in NO_WHOLES for sort in first[2 * a:2 * a + 2]]
        yield f"18 at factor {a + 1}"
        yield from (f"18, {sort}" for sort in set(first[2 * a:2 * a + 2]) & set(NO_WHOLES))
        yield "18, by both ends" if all(ends) else "18, by the low end" if ends[0] else "18, by the high end"
        if broken[-1] > a:
            yield "18, and a later factor's"
        if turned:
            yield f"18 over 9 at a {'lower' if turned[0] < a else 'higher'} factor"
    elif refusal and refusal.number == 9:
        a = turned[0]
        yield f"9 at factor {a + 1}"
        beyond = set(first[2 * a:2 * a + 2]) & set(BEYONDS)
        yield from (f"9, {sort}" for sort in beyond or ["turned round"])
    elif refusal:
        yield f"{refusal.number}, of {sheet.year}"
    else:
        yield f"accepted, of {sheet.year}"
        yield f"accepted, {factors} factors"
        if len(sheet.operations) == MOST_LINES - 1:
            yield "accepted, 63 operations"
        if MINUS_ZERO in first[::2]:
            yield "accepted, a low end of minus zero"
        if MINUS_ZERO in first[1::2]:
            yield "accepted, a high end of minus zero"
        yield from (f"accepted, {sort} past the last factor" for sort in set(sorts[2 * factors:]) - {WITHIN})
        yield from of_result(struct.unpack("<24d", left.result))


def of_result(numbers):
    """What the numbers of a result are counted as."""
    conditions = {
        "0 in the result": 0 in numbers, "a number below 0": min(numbers) < 0, "a number above 2^24": max(numbers) > 2 ** 24,
        "an empty bent set": numbers[19] == 0, "a full bend that is not the bend": numbers[20:22] != numbers[22:],
        "all eight factors count": numbers[18] == 255,
    }
    yield from (f"accepted, {what}" for what, holds in conditions.items() if holds)


def of_change(slot, good, code):
    """What a class with one byte changed is counted as."""
    changed = [at for at in range(SLOT) if slot[at] != good[at]]
    if len(changed) != 1:
        return
    (at,) = changed
    yield f"byte {at}"
    yield f"{field_of(good, at)}, and {'10' if code == 10 else 'another sheet'}"
    if code != 10:
        yield f"another sheet, and its {'refusal' if code else 'result'}"


def field_of(good, at):
    """What a byte of a class is for."""
    if at < HEAD:
        return (FIELDS[0], "the number of operations", FIELDS[1], *["the zeros behind the year"] * 5)[at]
    k, at = divmod(at - HEAD, ENTRY)
    if k >= good[1]:
        return "the zeros behind the operations"
    kind = good[HEAD + ENTRY * k]
    third = {1: "a second line", 2: "a second line", 5: "an exponent"}.get(kind, "a third byte that is not used")
    last = "a constant" if kind in (3, 4) else "a constant that is not used"
    return ("a kind", "a first line", third, "an operation's fourth byte", *[last] * 4)[at]
