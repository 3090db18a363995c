"""Years in the first line of a sheet (02, request 9): fields that a first line can have behind its count, an input for each of them, and what all
five comparisons count of them.

A third of the sheets is of 2014, and some name 2016; the others have no third field, but for a few with another numeral, or with one that is none.
"""
import re

from reference.outcome import Refusal, Refused
from reference.sheet import EARLIER, NUMERAL, PRESENT, load

EARLIER_SHARE = 1 / 3

# other numerals than the two years, which 17 is for; some of them come to a year in 8, 16 or 32 bits, or without their sign or some of their digits
OTHERS = {
    "0": (0,), "below 0": (-1, -9999999999), "the year with a minus sign": (-EARLIER, -PRESENT), "the year before 2014": (EARLIER - 1,),
    "earlier still": (1, 14, 16, 201, 999, 1914), "the year between": (EARLIER + 1,), "the year after 2016": (PRESENT + 1,),
    "later still": (2024, 2106, 4096, 9999), "digits behind the year": (20140, 20160, 201400, 2014000000),
    "the year in 8 bits": (EARLIER % 2 ** 8, PRESENT % 2 ** 8), "the year in 16 bits": (EARLIER + 2 ** 16, PRESENT + 2 ** 16, EARLIER - 2 ** 16),
    "the year in 32 bits": (EARLIER + 2 ** 32, PRESENT + 2 ** 32, EARLIER - 2 ** 32), "ten digits": (9999999999,),
}

# what stands behind the count and a tab, and is no numeral, or more than one field
MISSPELT = {
    "an empty field": (b"",),
    "a zero in front": (b"02014", b"02016", b"0002014", b"00"),
    "`-0`": (b"-0",),
    "a plus sign": (b"+2014", b"+2016"),
    "a minus sign alone": (b"-",),
    "eleven digits": (b"20140000000", b"00000002014", b"10000000000"),
    "a point": (b"2014.0", b"2014.", b"20.14"),
    "a letter": (b"x", b"2014x", b"0x7de"),
    "a blank behind": (b"2014 ", b"2016 "),
    "a blank in front": (b" 2014", b" 2016"),
    "byte 13": (b"2014\r", b"2016\r"),
    "byte 0": (b"2014\x00",),
    "a tab in front": (b"\t2014", b"\t2016"),
    "a tab behind": (b"2014\t", b"2016\t"),
    "a fourth field": (b"2014\t2014", b"2016\t2014", b"2014\t1", b"2015\t2016"),
    "a fourth field that is no numeral": (b"2014\tx", b"2016\t-0"),
}

THIRD_FIELD = re.compile(rb"\Afactors\t[^\t\n]*\t")
COUNTED = re.compile(rb"^(factors\t" + NUMERAL + rb")$", re.MULTILINE)


# ---- inputs

def some_year(rng):
    """The year of a sheet that is to be made."""
    return EARLIER if rng.random() < EARLIER_SHARE else PRESENT


def other_year(rng):
    """A numeral that is no year."""
    return rng.choice(rng.choice(list(OTHERS.values())))


def some_fault(rng):
    """What a first line with two fields is of no form with."""
    return rng.choice(rng.choice(list(MISSPELT.values())))


def with_field(text, field):
    """An input with a field put behind the count of its first line of a sheet, where it has none."""
    return COUNTED.sub(lambda found: found[0] + b"\t" + field, text, count=1)


def named(rng, text):
    """An input of a sheet that was made for its year: now and then with 2016 named, where it has no third field, or with one that is refused."""
    choice = rng.random()
    if choice < 0.16:
        return with_field(text, b"%d" % PRESENT)
    if choice < 0.18:
        return with_field(text, b"%d" % other_year(rng))
    return with_field(text, some_fault(rng)) if choice < 0.19 else text


def dated(rng, text):
    """An input of a sheet that was made for no year: a third of them with 2014 put in, where there is no third field."""
    return with_field(text, b"%d" % EARLIER) if rng.random() < EARLIER_SHARE else named(rng, text)


def cases(rng, text):
    """An input with each numeral of the list that is no year, and with each field that is none; one that ends with such a numeral; and with both years.
    It has no third field of its own."""
    for sort, numeral in [(sort, numeral) for sort, numerals in OTHERS.items() for numeral in numerals]:
        yield f"a year: {sort}", with_field(text, b"%d" % numeral)
    for way, field in [(way, field) for way, fields in MISSPELT.items() for field in fields]:
        yield f"a third field with {way}", with_field(text, field)
    yield "a year, and nothing behind it", text[:COUNTED.search(text).end()] + b"\t%d" % other_year(rng)
    for year in (EARLIER, PRESENT):
        yield f"{year} named", with_field(text, b"%d" % year)


# ---- what is counted

NOT_NAMED, PRESENT_NAMED, EARLIER_NAMED = "no year named, and not refused", "2016 named, and not refused", "2014 named, and not refused"
UNENDED = "2 for the byte 10 behind a year that is none"
THREE_FIRST = "3 over 17"
LATER = (2, 4, 5, 6, 7, 15)  # what an operation line is refused for, and 4 also for want of one
NO_OPERATION = "17 over 4 for want of an operation"


def rules_of(program):
    """What the comparison of a program has to meet."""
    return [
        f"{program}: {rule}" for rule in (
            NOT_NAMED, PRESENT_NAMED, EARLIER_NAMED, *(f"17 for {sort}" for sort in OTHERS), *(f"2 for a third field with {way}" for way in MISSPELT),
            UNENDED, THREE_FIRST, *(f"17 over {number}" for number in LATER), NO_OPERATION)]


def refused_for(sheet):
    """The refusal of loading, or None."""
    try:
        load(sheet)
    except Refused as refused:
        return refused.args[0]
    return None


def met(program, sheet, answer):
    """Which of them an input meets whose sheet begins with these bytes."""
    line = sheet.partition(b"\n")[0]
    field = line.split(b"\t", 2)[2] if THIRD_FIELD.match(line) else None
    if not isinstance(answer, Refusal):
        found = [NOT_NAMED if field is None else EARLIER_NAMED if int(field) == EARLIER else PRESENT_NAMED]
    elif answer == Refusal(17, 1):
        found = [f"17 for {sort}" for sort, numerals in OTHERS.items() if int(field) in numerals]
        later = refused_for(re.sub(rb"\t[^\t]*\Z", b"", line) + sheet[len(line):])
        found += [f"17 over {later.number}"] if later else []
        found += [NO_OPERATION] if later == Refusal(4, 1) else []
    elif answer == Refusal(3, 1):
        found = [THREE_FIRST] if field and int(field) not in (EARLIER, PRESENT) else []
    elif answer == Refusal(2, 1):
        found = [f"2 for a third field with {way}" for way, fields in MISSPELT.items() if field in fields]
        found += [UNENDED] if field and b"\n" not in sheet and re.fullmatch(NUMERAL, field) and int(field) not in (EARLIER, PRESENT) else []
    else:
        found = []
    return {f"{program}: {rule}" for rule in found}
