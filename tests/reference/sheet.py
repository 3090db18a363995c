"""01, "The sheet" and refusals 1 to 7, with 15 of 02's request 5 and the year and 17 of its request 9: from bytes to a codelist, and back."""
import re
from typing import NamedTuple

from .outcome import refuse, unnoted
from .ranges import LIMIT

MOST_FACTORS = 8
MOST_LINES = 64
MOST_BYTES = 4096

# "2016, or absent, means the rules so far; 2014 means source document 001, Table 2"
PRESENT, EARLIER = 2016, 2014

# "an optional minus sign and 1 to 10 decimal digits, with no leading zero except `0` itself, and no `-0`"
NUMERAL = rb"(0|-?[1-9][0-9]{0,9})"
FIRST_LINE = re.compile(rb"factors\t" + NUMERAL + rb"(?:\t" + NUMERAL + rb")?")
OPERATION = re.compile(
    rb"(add|mul|addc|mulc|pow)\t" + NUMERAL + rb"\t" + NUMERAL + rb"|(inv)\t" + NUMERAL)

REFERENCES = {"add": 2, "mul": 2, "addc": 1, "mulc": 1, "pow": 1, "inv": 1}


class Operation(NamedTuple):
    """One operation line: its references first, then the constant or the exponent."""
    name: str
    numbers: tuple


class Sheet(NamedTuple):
    factors: int
    operations: tuple
    year: int = PRESENT


def text_lines(text):
    """The lines of a text without their byte 10, and whether the last one has it."""
    lines = text.split(b"\n")
    ended = lines[-1] == b""
    return (lines[:-1] if ended else lines), ended


def sheet_text(sheet):
    """The bytes that a sheet is written in: `load` takes them back to it. They name "the year only for 2014"; a sheet of 2016 is accepted with its year
    named, too, and in no third way."""
    return sheet_text_with((sheet.year,) if sheet.year == EARLIER else (), sheet)


def sheet_text_with(more, sheet):
    """The bytes of a sheet with these fields behind the number of its factors."""
    rows = [("factors", sheet.factors, *more)] + [(name, *numbers) for name, numbers in sheet.operations]
    return "".join("\t".join(map(str, row)) + "\n" for row in rows).encode()


class Loading:
    """The rules as methods, so that a test can put one wrong rule in the place of a right one."""

    def __init__(self, note=unnoted):
        self.note = note

    def sheet(self, text):
        """The sheet written in the bytes, or the first refusal."""
        if len(text) > MOST_BYTES:
            self.note("1: sheet over 4,096 bytes")
            refuse(1, 0)
        lines, ended = text_lines(text)
        if not lines:
            self.note("2: no first line")
            refuse(2, 1)
        factors, year = 0, PRESENT
        operations = []
        for place, line in enumerate(lines, 1):
            form = (FIRST_LINE if place == 1 else OPERATION).fullmatch(line)
            if place == len(lines) and not ended:
                self.note("2: final byte 10 missing")
                refuse(2, place)
            if form is None:
                self.note(first_line_fault(line) if place == 1 else "2: operation line's form")
                refuse(2, place)
            if place == 1:
                factors, year = self.first_line(*form.groups())
                continue
            fields = [field for field in form.groups() if field is not None]
            operation = Operation(fields[0].decode(), tuple(int(field) for field in fields[1:]))
            self.check(operation, factors + place - 1, place)
            operations.append(operation)
        if not operations:
            self.note("4: no operation line")
            refuse(4, 1)
        return Sheet(factors, tuple(operations), year)

    def first_line(self, count, year):
        """The number of factors and the year, from the fields of a first line of its form: refusal 3, then 17. The year's is None where it is absent."""
        factors = int(count)
        self.check_count(factors)
        return factors, self.year(year)

    def check_count(self, factors):
        if not 1 <= factors <= MOST_FACTORS:
            self.note("3: factors below 1" if factors < 1 else "3: factors above 8")
            refuse(3, 1)

    def year(self, field):
        """"Any other numeral there gets 17, text line 1, after 3"."""
        year = PRESENT if field is None else int(field)
        if year not in (PRESENT, EARLIER):
            self.note("17: a year before 2014" if year < EARLIER else "17: a year after 2016" if year > PRESENT else "17: the year between")
            refuse(17, 1)
        return year

    def check(self, operation, codelist_line, place):
        """Refusals 4 to 7 and 15 of one operation line, in this order: 15 is "checked right after 7 in its line"."""
        self.check_number(operation, codelist_line, place)
        self.check_references(operation, codelist_line, place)
        self.check_exponent(operation, codelist_line, place)
        self.check_constant(operation, codelist_line, place)
        self.check_multiplier(operation, codelist_line, place)

    def check_number(self, operation, codelist_line, place):
        if codelist_line > MOST_LINES:
            self.note("4: codelist line beyond the 64th")
            refuse(4, place)

    def check_references(self, operation, codelist_line, place):
        for reference in operation.numbers[:REFERENCES[operation.name]]:
            if not 1 <= reference < codelist_line:
                self.note("5: reference below 1" if reference < 1 else "5: reference not earlier")
                refuse(5, place)

    def check_exponent(self, operation, codelist_line, place):
        if operation.name == "pow" and not 2 <= operation.numbers[1] <= 8:
            self.note("6: exponent below 2" if operation.numbers[1] < 2 else "6: exponent above 8")
            refuse(6, place)

    def check_constant(self, operation, codelist_line, place):
        if operation.name in ("addc", "mulc") and not -LIMIT <= operation.numbers[1] <= LIMIT:
            self.note("7: constant beyond the limit")
            refuse(7, place)

    def check_multiplier(self, operation, codelist_line, place):
        """"`mulc` with the constant 0", in a line that is used or not."""
        if operation.name == "mulc" and operation.numbers[1] == 0:
            self.note("15: multiplication by 0")
            refuse(15, place)


def first_line_fault(line):
    """What 2 is given for in a first line: a third field, a fourth, or something else."""
    word, *fields = line.split(b"\t")
    if word != b"factors" or len(fields) < 2 or not all(re.fullmatch(NUMERAL, field) for field in fields[:1]):
        return "2: first line's form"
    if len(fields) == 2:
        return "2: a third field that is no numeral"
    return "2: a fourth field" if re.fullmatch(NUMERAL, fields[1]) else "2: first line's form"


def load(text, note=unnoted, rules=Loading):
    return rules(note).sheet(text)
