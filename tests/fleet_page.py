"""Compares the program `fleet` with 02, request 3 (tests/reference/fleet.py): every printed byte. It hands its boats over as structs; the job
`numbers` of `rate_many` hands them over as a flat list, and has to print the same. What an input is counted as comes from its bytes, not from the
name it was made under.
"""
import re
from functools import lru_cache

import years
from errors import FLEET_ERRORS, YEAR_LOADING_ERRORS, year_errors_of
from fleets import BAD_FIELDS, BROKEN, MISSPELT, UNENDED, WAYS
from reference.fleet import MOST_BOATS, MOST_INPUT, RECORD, Fleet, Report, fleet_printed, rated
from reference.outcome import Refusal
from reference.ranges import LIMIT
from reference.rating import Result
from reference.sheet import EARLIER, MOST_FACTORS, NUMERAL, PRESENT, REFERENCES, load, text_lines
from reference.text import parted
from reference.tidy import last_line
from tally import Tally, difference, print_of, unlike

# What 14 is given for. More than one can hold of an input; behind an accepted sheet too many bytes never do alone.
FAULTS = ("form", "number", "bytes", "no line")
NO_BYTE_10 = "`boats` without its byte 10"

LOADING_RULES = [
    *(f"fleet: refused by loading, {number}" for number in BROKEN),
    *(f"fleet: {number} over 14 ({fault})" for number in BROKEN for fault in FAULTS),
    *(f"fleet: 2 for {name} in the place of `boats`" for name in (*MISSPELT, NO_BYTE_10)),
]

LIST_RULES = [
    "fleet: 14 (no line)", *(f"fleet: 14 (form): {way}" for way in WAYS),
    *(f"fleet: 14 (form), the {place} of several lines" for place in ("first", "last", "middle")),
    "fleet: 14 (form), only in a number past n", "fleet: 14 (form), the 1,000th line",
    "fleet: 14 (number)", "fleet: 14 (number), 1,001 boats", "fleet: 14 (number) and the 1,001st line malformed",
    "fleet: 14 (bytes) and (number)", "fleet: 14 (bytes) and (form)", "fleet: 14 for 102,400 bytes", "fleet: 14 for 102,401 bytes",
]

REPORT_RULES = [
    *(f"fleet: a boat accepted, n = {factors}" for factors in range(1, MOST_FACTORS + 1)),
    *(f"fleet: a boat accepted, by `{name}` at the end" for name in REFERENCES), "fleet: a boat accepted, 15 codelist lines or more",
    *(f"fleet: a boat refused under {number}" for number in (9, 11, 12)), "fleet: accepted, 9, 11 and 12 in one list",
    "fleet: one boat", "fleet: every boat accepted", "fleet: no boat accepted",
    "fleet: a value above the limit", "fleet: a value below minus the limit", "fleet: a value one unit beyond the limit",
    "fleet: accepted at the limit", "fleet: accepted at minus the limit", "fleet: accepted with a number past n beyond the limit",
    "fleet: a number of ten digits behind a minus sign",
    "fleet: the greatest high end more than once", "fleet: the greatest high end more than once, low ends apart",
    "fleet: the greatest is the first of several", "fleet: the greatest is the last of several", "fleet: the greatest is between others",
    "fleet: a refused boat before the greatest", "fleet: every high end below 0", "fleet: every high end below 0, and a boat refused",
    "fleet: the greatest high end 0", "fleet: the first greatest low end at another boat",
    "fleet: low and high sums apart", "fleet: a low sum below 0, a high one above 0",
    *(f"fleet: a high sum above 2^{power}" for power in (31, 32)), *(f"fleet: a low sum below -2^{power}" for power in (31, 32)),
]

YEAR_RULES = years.rules_of("fleet") + [
    *(f"fleet: 2014, {rule}" for rule in (
        "a boat accepted", *(f"a boat refused under {number}" for number in (9, 11, 12)), "a boat refused under 12, and accepted in 2016",
        "a boat accepted, and refused under 12 in 2016", "every boat as in 2016")),
]

EDGE_RULES = [
    "fleet: no boats", "fleet: 1,000 boats", "fleet: the longest page, 97,267 bytes", "fleet: 1,000 times the limit", "fleet: 1,000 times minus the limit",
]


@lru_cache(maxsize=None)
def remembered(sheet, ends):
    """A rating, made once for all the inputs and wrong rules that come to it."""
    return rated(sheet, ends)


RIGHT = Fleet(remembered)


def loading_by(wrong):
    """The right rules but for those of loading."""
    rules = Fleet(remembered)
    rules.loading = wrong
    return rules


class FleetComparison(Tally):
    rules = LOADING_RULES + LIST_RULES + EDGE_RULES + REPORT_RULES + YEAR_RULES
    errors = FLEET_ERRORS + YEAR_LOADING_ERRORS

    def __init__(self, fleet, rate_many=None):
        super().__init__()
        self.fleet = fleet
        self.rate_many = rate_many

    def least(self, rule):
        """The random lists meet what a report can have often; all else has inputs of its own, which are made a few times."""
        return 5 if rule in REPORT_RULES else 3

    def compare(self, name, text, expected=None):
        """One input; what the program prints of it is handed back."""
        answer = RIGHT.run(text)
        ours = fleet_printed(answer)
        got = print_of(self.fleet, text)
        if expected is not None and ours != expected:
            complaint = f"--- figure\n{expected.decode()}--- reference\n{ours.decode()}"
        else:
            complaint = unlike(got, ours)
        if self.rate_many:
            complaint += difference(self.rate_many, text, ours, "1", "numbers")
        faults = faults_of(text)
        if isinstance(answer, Report):
            complaint += f"--- reported, and yet 14 is due: {faults}\n" if faults else ""
            self.note_report(text, answer)
        elif answer.number != 14:
            self.note_loading(text, answer, faults)
        elif faults:
            self.note_list(text, faults)
        else:
            complaint += "--- refused with 14, which nothing is due for\n"
        given = parted(text, b"boats")[0]
        self.met.update(years.met("fleet", given, answer))
        self.catch_errors(ours, lambda wrong: fleet_printed(loading_by(wrong).run(text)), year_errors_of(given))
        self.catch_errors(ours, lambda wrong: fleet_printed(wrong(remembered).run(text)), FLEET_ERRORS)
        self.judge(name, text, complaint)
        return got

    def note_loading(self, text, refusal, faults):
        """A refusal of loading, and what 14 is due for behind it."""
        if not faults:
            self.note(f"fleet: refused by loading, {refusal.number}")
        self.met.update(f"fleet: {refusal.number} over 14 ({fault})" for fault in faults)
        if refusal.number == 2 and "no line" in faults:
            line, *later = text.split(b"\n")[refusal.place - 1:]
            found = [name for name, misspelt in MISSPELT.items() if later and line + b"\n" == misspelt]
            found += [NO_BYTE_10] if line == b"boats" and not later else []
            self.met.update(f"fleet: 2 for {name} in the place of `boats`" for name in found)

    def note_list(self, text, faults):
        """A list that is refused with 14: what for; and where one line alone is malformed, in what way and at which place."""
        if "no line" in faults:
            self.note("fleet: 14 (no line)")
            return
        given, listed = parted(text, b"boats")
        lines, ended = text_lines(listed)
        bad = [place for place, line in enumerate(lines, 1) if not well_formed(line)]
        if faults == {"form"} and not bad:
            self.note(f"fleet: 14 (form): {UNENDED}")
        elif faults == {"form"} and len(bad) == 1 and ended:
            fields = lines[bad[0] - 1].split(b"\t")
            self.met.update(f"fleet: 14 (form): {way}" for way in ways_of(fields))
            if len(fields) == RECORD and all(map(is_numeral, fields[:load(given).factors])):
                self.note("fleet: 14 (form), only in a number past n")
            if len(lines) > 1:
                place = "first" if bad == [1] else "last" if bad == [len(lines)] else "middle"
                self.note(f"fleet: 14 (form), the {place} of several lines")
        conditions = {
            "fleet: 14 (form), the 1,000th line": bad == [MOST_BOATS] == [len(lines)],
            "fleet: 14 (number)": faults == {"number"},
            "fleet: 14 (number), 1,001 boats": faults == {"number"} and len(lines) == MOST_BOATS + 1,
            "fleet: 14 (number) and the 1,001st line malformed": bad == [MOST_BOATS + 1] == [len(lines)],
            "fleet: 14 (bytes) and (number)": faults == {"bytes", "number"},
            "fleet: 14 (bytes) and (form)": faults == {"bytes", "form"},
            "fleet: 14 for 102,400 bytes": len(text) == MOST_INPUT,
            "fleet: 14 for 102,401 bytes": len(text) == MOST_INPUT + 1,
        }
        self.met.update(rule for rule, holds in conditions.items() if holds)

    def note_report(self, text, report):
        given, lines = parted(text, b"boats")
        sheet, boats = load(given), RIGHT.boats(lines)
        ratings = [RIGHT.rating(sheet, boat) for boat in boats]
        refused = {rating.number for rating in ratings if isinstance(rating, Refusal)}
        self.met.update(f"fleet: a boat refused under {number}" for number in refused)
        values = [number for boat in boats for number in boat[:sheet.factors]]
        accepted = [boat for boat, rating in zip(boats, ratings) if isinstance(rating, Result)]
        taken = [number for boat in accepted for number in boat[:sheet.factors]]
        conditions = {
            f"fleet: a boat accepted, n = {sheet.factors}": accepted,
            f"fleet: a boat accepted, by `{sheet.operations[-1].name}` at the end": accepted,
            "fleet: a boat accepted, 15 codelist lines or more": accepted and last_line(sheet) >= 15,
            "fleet: accepted, 9, 11 and 12 in one list": accepted and refused == {9, 11, 12},
            "fleet: no boats": not boats,
            "fleet: one boat": len(boats) == 1,
            "fleet: 1,000 boats": len(boats) == MOST_BOATS,
            "fleet: every boat accepted": boats and not refused,
            "fleet: no boat accepted": boats and not accepted,
            "fleet: a value above the limit": max(values, default=0) > LIMIT,
            "fleet: a value below minus the limit": min(values, default=0) < -LIMIT,
            "fleet: a value one unit beyond the limit": LIMIT + 1 in map(abs, values),
            "fleet: accepted at the limit": LIMIT in taken,
            "fleet: accepted at minus the limit": -LIMIT in taken,
            "fleet: accepted with a number past n beyond the limit": any(abs(number) > LIMIT for boat in accepted for number in boat),
            "fleet: a number of ten digits behind a minus sign": any(number <= -10 ** 9 for boat in boats for number in boat),
            "fleet: the longest page, 97,267 bytes": len(text) == 97_267,
            "fleet: low and high sums apart": report.low != report.high,
            "fleet: a low sum below 0, a high one above 0": report.low < 0 < report.high,
            "fleet: 1,000 times the limit": report.high == MOST_BOATS * LIMIT,
            "fleet: 1,000 times minus the limit": report.low == -MOST_BOATS * LIMIT,
        }
        for power in (31, 32):
            conditions[f"fleet: a high sum above 2^{power}"] = report.high > 2 ** power
            conditions[f"fleet: a low sum below -2^{power}"] = report.low < -2 ** power
        self.met.update(rule for rule, holds in conditions.items() if holds)
        if accepted:
            self.note_greatest(RIGHT.accepted(ratings), refused)
        if sheet.year == EARLIER:
            present = [RIGHT.rating(sheet._replace(year=PRESENT), boat) for boat in boats]
            conditions = {
                "fleet: 2014, a boat accepted": accepted,
                **{f"fleet: 2014, a boat refused under {number}": True for number in refused},
                "fleet: 2014, a boat refused under 12, and accepted in 2016": any(
                    isinstance(ours, Refusal) and ours.number == 12 and isinstance(theirs, Result) for ours, theirs in zip(ratings, present)),
                "fleet: 2014, a boat accepted, and refused under 12 in 2016": any(
                    isinstance(ours, Result) and isinstance(theirs, Refusal) for ours, theirs in zip(ratings, present)),
                "fleet: 2014, every boat as in 2016": boats and RIGHT.figures(present) == report,
            }
            self.met.update(rule for rule, holds in conditions.items() if holds)

    def note_greatest(self, accepted, refused):
        """Where the greatest high end stands among the accepted boats, which are given by their positions."""
        positions = list(accepted)
        highs = [value.high for value in accepted.values()]
        lows = [value.low for value in accepted.values()]
        greatest = highs.index(max(highs))
        alone = len(highs) > 1 and highs.count(max(highs)) == 1
        conditions = {
            "fleet: the greatest high end more than once": highs.count(max(highs)) > 1,
            "fleet: the greatest high end more than once, low ends apart": len({low for low, high in accepted.values() if high == max(highs)}) > 1,
            "fleet: the greatest is the first of several": alone and greatest == 0,
            "fleet: the greatest is the last of several": alone and greatest == len(highs) - 1,
            "fleet: the greatest is between others": alone and 0 < greatest < len(highs) - 1,
            "fleet: a refused boat before the greatest": positions[greatest] != greatest + 1,
            "fleet: every high end below 0": max(highs) < 0,
            "fleet: every high end below 0, and a boat refused": max(highs) < 0 and refused,
            "fleet: the greatest high end 0": max(highs) == 0,
            "fleet: the first greatest low end at another boat": lows.index(max(lows)) != greatest,
        }
        self.met.update(rule for rule, holds in conditions.items() if holds)

    def conclude(self):
        self.show(self.rules)


def is_numeral(field):
    return re.fullmatch(NUMERAL, field) is not None


@lru_cache(maxsize=None)  # long lists repeat few lines
def well_formed(line):
    fields = line.split(b"\t")
    return len(fields) == RECORD and all(map(is_numeral, fields))


def faults_of(text):
    """All that 14 is due for, whatever the sheet is."""
    _, listed = parted(text, b"boats")
    lines, ended = text_lines(listed or b"")
    holds = (not ended or not all(map(well_formed, lines)), len(lines) > MOST_BOATS, len(text) > MOST_INPUT, listed is None)
    return {fault for fault, due in zip(FAULTS, holds) if due}


def ways_of(fields):
    """The names of the ways in which a line is malformed: one, where it is malformed in one way only."""
    bad = [field for field in fields if not is_numeral(field)]
    if len(fields) == RECORD and len(bad) == 1:
        if bad == fields[-1:] and bad[0].endswith(b"\r"):
            return ["byte 13"]
        return [way for way, examples in BAD_FIELDS.items() if bad[0] in examples]
    conditions = {
        "seven fields": len(fields) == 7 and not bad,
        "nine fields": len(fields) == 9 and not bad,
        "sixteen fields": len(fields) == 16 and not bad,
        "one field": len(fields) == 1 and not bad,
        "a tab in front": len(fields) == 9 and bad == [b""] == fields[:1],
        "a tab behind": len(fields) == 9 and bad == [b""] == fields[-1:],
        "two tabs together": len(fields) == 9 and bad == [b""] and b"" in fields[1:-1],
        "blanks for tabs": len(fields) == 1 and well_formed(fields[0].replace(b" ", b"\t")),
        "a blank line": fields == [b""],
        "a second line `boats`": fields == [b"boats"],
        "a line `box`": fields == [b"box"],
    }
    return [way for way, holds in conditions.items() if holds]
