"""Compares the program `formula` with 02, request 12 (tests/reference/formula.py): every printed byte.

Besides, of the sheet that the program printed: "Wherever the formula is defined, the sheet's exact premium equals it", at random points with
fractions, and where a divisor of the formula is 0, neither has a value; and no line of it is dead, so that tidying leaves it as it is. What an input
is counted as comes from its bytes, not from the name it was made under.
"""
import random
import re
from fractions import Fraction

from formula_errors import FORMULA_ERRORS, Folding, errors_of, mixed_before
from formulas import BYTES, FAULTS, FINISHED, FIRST_LINES, OTHER, PRODUCTS, SIGNS, STOP_FORMS, SUMS, UNFINISHED
from orders import BEYOND, CONSTANT, EXPONENT, MULTIPLIER, REFERENCE, SHEET, held, order
from reference.exact import TooLarge, exact_lines
from reference.formula import (
    BINDING, CLOSING, COUNT_LINE, MOST_DECIMALS, MOST_DIGITS, MOST_OPEN, MOST_TEXT, OPENING, Formulas, formula_text, value_at)
from reference.outcome import Refusal, Refused
from reference.ranges import LIMIT, UNIT
from reference.sheet import MOST_BYTES, MOST_FACTORS, MOST_LINES, load
from reference.tidy import tidy_printed
from tally import Tally, print_of, unlike

RIGHT = Formulas()
POINTS = 2  # for each accepted formula

LOADING = (1, 3, 4, 5, 6, 7, 15)  # what loading can refuse of a sheet that a formula became
OPERANDS = ("factor", "line", "constant")
CLOSED = "`)`"
OPEN_NAMES = {0: "no bracket", 1: "one bracket", MOST_OPEN - 1: "15 brackets", MOST_OPEN: "16 brackets"}
ONE, TWO = "the only one of a sign", ["the first of a sign's two", "the second of a sign's two"]

# ---- what has to be met

FAULT_RULES = [
    *(f"formula: 19 for {byte} {stop}" for byte, stop in FAULTS),
    *(f"formula: 19 for `)` {stop}, and no bracket open" for stop in FINISHED),
    *(f"formula: 19 for the 17th open bracket {stop}" for stop in ("behind a sign", "behind `(`")),
    *(f"formula: 19 one past the end {stop}" for stop in UNFINISHED),
    *(f"formula: 19 one past the end {stop}, and a bracket is open" for stop in FINISHED),
]

LENGTH_RULES = [
    *(f"formula: {rule}" for rule in (
        "1,024 bytes, accepted", "1,024 bytes, 19 at a byte before the end", "1,024 bytes, 19 at 1,025", "1,024 bytes, 20",
        "1,024 bytes, refused by loading", "1,024 bytes without byte 10 behind them",
        "1,025 bytes with byte 10 at the end, which belongs to the text", "1,025 bytes of a formula",
        "1,025 bytes, and a byte before can't follow", "1,025 bytes, and constants meet",
        "1,025 bytes without byte 10 behind them", "more than 1,025 bytes", "more than 65,536 bytes")),
]

BRACKET_RULES = [
    *(f"formula: accepted, {count} open at once" for count in OPEN_NAMES.values()),
    "formula: accepted, more than 16 brackets, 16 of them open at once", "formula: accepted, 16 brackets round a constant",
]

DIGIT_RULES = [
    *(f"formula: accepted, a constant of {digits} digits" for digits in range(1, MOST_DIGITS + 1)),
    *(f"formula: accepted, a constant of {decimals} decimals" for decimals in range(MOST_DECIMALS + 1)),
    "formula: accepted, a constant with zeros in front", "formula: accepted, a constant with zeros behind",
    *(f"formula: accepted, {what} in `{name}`" for name in ("addc", "mulc") for what in ("the limit", "one unit")),
    "formula: accepted, the limit subtracted",
]

CONVERSION_RULES = [
    *(f"formula: accepted, {left} {sign} {right}" for sign in SIGNS for left in OPERANDS for right in OPERANDS
      if (left, right) != ("constant", "constant") and (sign, right) != ("/", "constant")),
    *(f"formula: accepted, a {operand} powered" for operand in OPERANDS[:2]),
    *(f"formula: accepted, exponent {exponent}" for exponent in range(2, 9)),
    *(f"formula: accepted, {rule}" for rule in (
        "a subtracted 0", "0 less a line", "an added 0", "a constant in brackets", "a factor in brackets", "a line and itself",
        "a line and itself, divided")),
    *(f"formula: accepted, {first} and then {sign}, from the left" for first in SIGNS for sign in SIGNS if first in PRODUCTS or sign in SUMS),
    *(f"formula: accepted, {first} in brackets, and then {sign}" for first in SIGNS for sign in SIGNS),
    *(f"formula: accepted, {first} before {sign}" for first in PRODUCTS for sign in SUMS),
    *(f"formula: accepted, {first} in brackets behind {sign}" for first in SIGNS for sign in SIGNS),
    *(f"formula: accepted, a power {side} {sign}" for side in ("before", "behind") for sign in SIGNS),
    *(f"formula: accepted, {sign} in brackets powered" for sign in SIGNS), "formula: accepted, a power in brackets powered",
    *(f"formula: accepted, {count} factors" for count in range(1, MOST_FACTORS + 1)),
    *(f"formula: accepted, f{factor}" for factor in range(1, MOST_FACTORS + 1)), "formula: accepted, the last factor of the count",
]

TWENTY_RULES = [
    *(f"formula: 20, {cause}{brackets}" for brackets in ("", ", in brackets") for cause in (
        *(f"two constants at {sign}" for sign in ("+", "-", "*")), "a line over a constant", "a constant over a constant", "a powered constant",
        "a factor alone", "a constant alone")),
    "formula: 20, constants that meet from the left, and a line behind",
    "formula: accepted, constants next to each other that do not meet",
    "formula: 19 over 20", *(f"formula: 20 over {number}" for number in LOADING), "formula: 19 over 3",
]

LOADING_RULES = [
    *(f"formula: refused with {number}" for number in LOADING),
    *(f"formula: 3 for a count {count}" for count in (
        "of 0", "of 9", "below 0", "above 9", "of ten digits", "that is 1 to 8 in 8 bits", "that is 1 to 8 in 32 bits")),
    *(f"formula: 5 for a factor {where}" for where in ("first", "second", "alone", "next to the count")),
    "formula: 5 at text line 2", "formula: 5 at another line",
    *(f"formula: 6 for {exponent}" for exponent in (0, 1, 9)),
    *(f"formula: 7 for {what}" for what in (
        "a unit too many in `addc`", "a unit too many in `mulc`", "a unit too many subtracted", "9,999,999,999 units",
        "9,999,999,999 units subtracted")),
    *(f"formula: 15 for 0 {sign}" for sign in ("*", "/")), "formula: 15 for * 0", "formula: 15 for 0.0 or the like",
    "formula: accepted, 64 codelist lines", *(f"formula: 4 at codelist line 65, {line}" for line in (ONE, *TWO)),
    *(f"formula: a sheet of {length} bytes, {count} outside 1 to 8" for length in ("4,096", "4,097") for count in ("count", "no count")),
    *(f"formula: order in a line: {first} over {other}" for first, others in (
        (BEYOND, (REFERENCE, EXPONENT, CONSTANT, MULTIPLIER)), (REFERENCE, (EXPONENT, CONSTANT, MULTIPLIER))) for other in others),
    *(f"formula: order of text lines: {first} before {other}" for first in (5, 6, 7, 15) for other in (4, 5, 6, 7, 15)),
    *(f"formula: order of text lines: 4 before {other}" for other in (5, 6, 7, 15)),
    *(f"formula: order of text lines: 3 before {other}" for other in (4, 6, 7, 15)),
    *(f"formula: order: {SHEET} over {other}" for other in (3, 4, 5, 6, 7, 15)),
]
ORDERS = {rule for rule in LOADING_RULES if rule.startswith("formula: order")}

PROGRAM_RULES = [
    "formula: 2 at 1, no input", "formula: 2 at 1, no byte 10 behind a good count", "formula: 2 at 1, no byte 10", "formula: 2 at 1, a long line",
    *(f"formula: 2 at 1, {way}" for way in FIRST_LINES),
    *(f"formula: 2 at 1 over {later}" for later in (
        "19", "19 at 1,025", "20", "loading", "2 at 2", "2 at 2 for nothing behind the first line", "nothing else")),
    "formula: 2 at 2, nothing behind the first line", *(f"formula: 2 at 2 over {later}" for later in ("19", "20", "nothing else", *LOADING)),
    "formula: 19 at 1,025 over 2 at 2", "formula: the empty text", "formula: byte 10 behind a formula, and byte 10",
]

EXACT_RULES = [
    *(f"formula: exact: {rule}" for rule in (
        "a value", "a value below 0", "a value of 0", "a value at a point with fractions", "no value", "no value, and then multiplied by 0",
        "no value of a divisor that is a factor", "no value of a divisor that is a line")),
    *(f"formula: exact: a value, by {sign} at the end" for sign in (*SIGNS, "^")),
    "formula: tidied, and the same",
]


class FormulaComparison(Tally):
    rules = FAULT_RULES + LENGTH_RULES + BRACKET_RULES + DIGIT_RULES + CONVERSION_RULES + TWENTY_RULES + LOADING_RULES + PROGRAM_RULES + EXACT_RULES
    errors = FORMULA_ERRORS

    def __init__(self, formula):
        super().__init__()
        self.formula = formula
        self.given_up = 0

    def compare(self, name, data, expected=None):
        """One input; what the program prints of it is handed back."""
        rng = random.Random(data)
        answer = RIGHT.run(data)
        ours = formula_text(answer)
        got = print_of(self.formula, data)
        if expected is not None and ours != expected:
            complaint = f"--- figure\n{expected.decode()}--- reference\n{ours.decode()}"
        else:
            complaint = unlike(got, ours)
        if isinstance(answer, Refusal):
            complaint += self.refusal_complaint(data, answer)
        else:
            complaint += self.sheet_complaint(rng, data, answer, got)
        self.note_length(data, answer)
        self.catch_errors(ours, lambda wrong: formula_text(wrong().run(data)), errors_of(answer))
        self.judge(name, data, complaint)
        return got

    def note_all(self, conditions):
        self.met.update("formula: " + rule for rule, holds in conditions.items() if holds)

    # ---- what is refused

    def refusal_complaint(self, data, answer):
        """What a refused input is counted as; of a sheet that was refused, that the first condition that holds is the refusal's."""
        if answer == (2, 1):
            self.note_first_line(data)
            return ""
        count, text, ended = taken(data)
        if not ended and answer == (2, 2):
            later = RIGHT.run(data + b"\n")
            self.note_all({
                "2 at 2, nothing behind the first line": not text,
                f"2 at 2 over {later.number if isinstance(later, Refusal) else 'nothing else'}": True})
        elif answer.number == 19:
            self.note_fault(text, count)
        elif answer.number == 20:
            self.note_twenty(text, count)
        else:
            return self.loading_complaint(text, count, answer)
        return ""

    def note_first_line(self, data):
        """The line itself, and what is refused behind it: with another first line in its place."""
        line, ended, behind = data.partition(b"\n")
        self.note_all({
            "2 at 1, no input": not data,
            "2 at 1, no byte 10": data and not ended,
            "2 at 1, no byte 10 behind a good count": not ended and COUNT_LINE.fullmatch(line),
            "2 at 1, a long line": len(line) > MOST_TEXT,
            **{f"2 at 1, {way}": ended and line in lines for way, lines in FIRST_LINES.items()}})
        if ended:
            later = RIGHT.run(b"factors\t2\n" + behind)
            if not isinstance(later, Refusal):
                name = "nothing else"
            elif later == (2, 2):
                name = "2 at 2" if behind else "2 at 2 for nothing behind the first line"
            elif later.number == 19:
                name = "19 at 1,025" if len(behind) > MOST_TEXT + 1 else "19"
            else:
                name = "20" if later.number == 20 else "loading"
            self.note(f"formula: 2 at 1 over {name}")

    def note_fault(self, text, count):
        """Which byte can't follow, and behind what, by the last bytes before it."""
        if len(text) > MOST_TEXT:
            return
        before, _ = RIGHT.read(text)
        stop = next(stop for stop, form in STOP_FORMS.items() if form.search(before))
        opened = before.count(OPENING) - before.count(CLOSING)
        at_end = f", and {'a' if opened else 'no'} bracket {'is ' if opened else ''}open" if stop in FINISHED else ""
        if before == text:
            self.note(f"formula: 19 one past the end {stop}{at_end}")
        else:
            byte = next((name for name, these in BYTES.items() if text[len(before)] in these), OTHER)
            if byte == "`(`" and stop in UNFINISHED and (byte, stop) not in FAULTS:
                self.note(f"formula: 19 for the 17th open bracket {stop}")
            else:
                self.note(f"formula: 19 for {byte} {stop}{at_end if byte == CLOSED else ''}")
        self.note_all({
            "19 over 20": mixed_before(text), "19 over 3": not 1 <= count <= MOST_FACTORS, "the empty text": not text,
            "byte 10 behind a formula, and byte 10": text.endswith(b"\n") and RIGHT.place(text[:-1]) is None})

    def note_twenty(self, text, count):
        """The only cause of 20 that a text has, if it has no other; and what loading would refuse were constants worked out."""
        walk = Walk(text)
        if len(walk.causes) == 1:
            self.note(f"formula: 20, {walk.causes[0]}")
        later = called(Folding(), text, count)
        alone = isinstance(later, Refusal) and later == (4, 1)  # which only a text without an operation is
        self.note_all({
            f"20 over {later.number if isinstance(later, Refusal) else 0}": isinstance(later, Refusal) and later.number in LOADING and not alone,
            "20, constants that meet from the left, and a line behind": walk.met_before_line})

    def loading_complaint(self, text, count, answer):
        sheet = RIGHT.sheet(text, count)
        due = [condition for condition in held(sheet) if condition.stage in ("text line", "bytes")]
        first, *others = due
        self.met.update({f"formula: {name}" for name in (order(first, other) for other in others) if f"formula: {name}" in ORDERS})
        self.note_loading(text, count, sheet, answer)
        return "" if (first.number, first.place) == tuple(answer) else f"--- the first condition that holds is not the refusal's: {due}\n"

    def note_loading(self, text, count, sheet, answer):
        number, place = answer
        name, *fields = sheet.split(b"\n")[place - 1].split(b"\t")
        name, numbers = name.decode(), [int(field) for field in fields]
        outside = "count" if not 1 <= count <= MOST_FACTORS else "no count"
        conditions = {
            f"refused with {number}": True, f"a sheet of {MOST_BYTES:,} bytes, {outside} outside 1 to 8": len(sheet) == MOST_BYTES,
            f"a sheet of {MOST_BYTES + 1:,} bytes, {outside} outside 1 to 8": len(sheet) == MOST_BYTES + 1}
        if number == 3:
            conditions |= {
                "3 for a count of 0": count == 0, "3 for a count of 9": count == 9, "3 for a count below 0": count < 0,
                "3 for a count above 9": count > 9, "3 for a count of ten digits": abs(count) > 999999999,
                "3 for a count that is 1 to 8 in 8 bits": 1 <= count % 2 ** 8 <= MOST_FACTORS,
                "3 for a count that is 1 to 8 in 32 bits": 1 <= count % 2 ** 32 <= MOST_FACTORS}
        elif number == 4:
            conditions[f"4 at codelist line 65, {Walk(text).lines[place - 2]}"] = True
        elif number == 5:
            two = name in ("add", "mul")
            conditions |= {
                "5 for a factor first": two and numbers[0] == 0, "5 for a factor second": two and numbers[1] == 0, "5 for a factor alone": not two,
                "5 for a factor next to the count": b"f%d" % (count + 1) in RIGHT.tokens(text), "5 at text line 2": place == 2,
                "5 at another line": place > 2}
        elif number == 6:
            conditions[f"6 for {numbers[1]}"] = True
        elif number == 7:
            conditions |= {
                f"7 for a unit too many in `{name}`": numbers[1] == LIMIT + 1, "7 for a unit too many subtracted": numbers[1] == -LIMIT - 1,
                "7 for 9,999,999,999 units": numbers[1] == 9999999999, "7 for 9,999,999,999 units subtracted": numbers[1] == -9999999999}
        elif number == 15:
            conditions |= {f"15 for {what}": True for what in Walk(text).zeros[0]}
        self.note_all(conditions)

    def note_length(self, data, answer):
        """Texts of as many bytes as there may be, and longer ones."""
        if answer == (2, 1):
            return
        _, text, ended = taken(data)
        number = answer.number if isinstance(answer, Refusal) else None
        if len(text) == MOST_TEXT:
            self.note_all({
                "1,024 bytes, accepted": number is None, "1,024 bytes, 19 at a byte before the end": number == 19 and answer.place <= MOST_TEXT,
                "1,024 bytes, 19 at 1,025": answer == (19, MOST_TEXT + 1), "1,024 bytes, 20": number == 20,
                "1,024 bytes, refused by loading": number in LOADING, "1,024 bytes without byte 10 behind them": not ended})
        elif len(text) > MOST_TEXT:
            self.note_all({
                "1,025 bytes with byte 10 at the end, which belongs to the text": len(text) == MOST_TEXT + 1 and text.endswith(b"\n") and ended,
                "1,025 bytes of a formula": len(text) == MOST_TEXT + 1 and RIGHT.place(text) is None,
                "1,025 bytes, and a byte before can't follow": len(text) == MOST_TEXT + 1 and len(RIGHT.read(text)[0]) < MOST_TEXT,
                "1,025 bytes, and constants meet": len(text) == MOST_TEXT + 1 and mixed_before(text),
                "1,025 bytes without byte 10 behind them": len(text) == MOST_TEXT + 1 and not ended,
                "more than 1,025 bytes": len(text) > MOST_TEXT + 1, "more than 65,536 bytes": len(text) > 2 ** 16,
                "19 at 1,025 over 2 at 2": not ended})

    # ---- what is accepted

    def sheet_complaint(self, rng, data, sheet, got):
        """The printed sheet's exact premium beside the formula, and that no line of it is dead."""
        count, text, _ = taken(data)
        walk = Walk(text)
        self.note_all(walk.found)
        self.note_accepted(text, count, sheet)
        try:
            loaded = load(got or b"")
        except Refused:
            return "--- what was printed is no sheet\n" if got == sheet else ""  # that it is another print was said already
        if any(token > b"f%d" % loaded.factors for token in RIGHT.tokens(text) if token.startswith(b"f")):
            return "--- a sheet, and yet a factor is beyond its count\n"
        complaint = "" if tidy_printed(got) == got else "--- a line of the sheet is dead\n"
        self.note("formula: tidied, and the same")
        for _ in range(POINTS):
            complaint += self.point_complaint(rng, text, loaded, walk)
        return complaint

    def point_complaint(self, rng, text, sheet, walk):
        point = some_point(rng, sheet.factors)
        try:
            exact, value = exact_lines(sheet, point, derivatives=False), value_at(text, point)
        except TooLarge:
            self.given_up += 1
            return ""
        values = [line and line.value for line in exact]
        premium = values[-1]
        divided = [numbers[0] for name, numbers in sheet.operations if name == "inv" and values[numbers[0] - 1] == 0]
        products = [[values[i - 1] for i in numbers] for name, numbers in sheet.operations if name == "mul"]
        self.note_all({
            "exact: a value": value is not None, "exact: a value below 0": value is not None and value < 0, "exact: a value of 0": value == 0,
            "exact: a value at a point with fractions": value is not None and any(x.denominator > 1 for x in point), "exact: no value": value is None,
            "exact: no value, and then multiplied by 0": any(None in pair and 0 in pair for pair in products),
            "exact: no value of a divisor that is a factor": any(line <= sheet.factors for line in divided),
            "exact: no value of a divisor that is a line": any(line > sheet.factors for line in divided),
            f"exact: a value, by {walk.last} at the end": value is not None})
        if premium == value:
            return ""
        return f"--- the sheet's exact premium is {premium}, and the formula is {value}, at {[str(x) for x in point]}\n"

    def note_accepted(self, text, count, sheet):
        """Counts, constants and brackets of an accepted formula."""
        tokens = RIGHT.tokens(text)
        factors = {token for token in tokens if token.startswith(b"f")}
        constants = [token.partition(b".") for token in tokens if token[:1].isdigit()]
        open_now = most_open = 0
        for token in tokens:
            open_now += (token == OPENING) - (token == CLOSING)
            most_open = max(most_open, open_now)
        operations = [line.split(b"\t") for line in sheet.split(b"\n")[1:-1]]
        written = {(name.decode(), int(numbers[1])) for name, *numbers in operations if name in (b"addc", b"mulc")}
        self.note_all({
            f"accepted, {count} factors": True, **{f"accepted, {token.decode()}": True for token in factors},
            "accepted, the last factor of the count": b"f%d" % count in factors,
            **{f"accepted, a constant of {len(whole)} digits": True for whole, _, _ in constants},
            **{f"accepted, a constant of {len(part)} decimals": True for _, _, part in constants},
            "accepted, a constant with zeros in front": any(len(whole) > 1 and whole.startswith(b"0") for whole, _, _ in constants),
            "accepted, a constant with zeros behind": any(part.endswith(b"0") for _, _, part in constants),
            **{f"accepted, the limit in `{name}`": (name, LIMIT) in written for name in ("addc", "mulc")},
            **{f"accepted, one unit in `{name}`": (name, 1) in written for name in ("addc", "mulc")},
            "accepted, the limit subtracted": ("addc", -LIMIT) in written,
            f"accepted, {OPEN_NAMES.get(most_open)} open at once": most_open in OPEN_NAMES,
            "accepted, more than 16 brackets, 16 of them open at once": most_open == MOST_OPEN < tokens.count(OPENING),
            "accepted, 16 brackets round a constant": re.search(rb"\({16}[0-9.]+\){16}", text),
            "accepted, 64 codelist lines": count + len(operations) == MOST_LINES,
            "accepted, constants next to each other that do not meet": re.search(rb"(?<![f^0-9.])[0-9.]+[-+*][0-9]", text)})

    def add(self, other):
        super().add(other)
        self.given_up += other.given_up

    def conclude(self):
        self.show([rule for rule in self.rules if rule not in FAULT_RULES])
        least = min(self.met[rule] for rule in FAULT_RULES)
        print(f"{least:9}  formula: 19 for each byte where it can't follow: the least often met of {len(FAULT_RULES)}")
        print(f"{self.given_up:9}  formula: points given up: the fractions grew too long")


class Operand:
    """An operand as a text has it: of which sort, by which sign or `^` it came about, of what, and whether in brackets; of a numeral its units."""

    def __init__(self, sort, made=None, of=None):
        self.sort, self.made, self.of = sort, made, of
        self.units = RIGHT.units(of) if sort == "constant" and of else None
        self.bracketed = False


class Walk:
    """A formula's operations in their order, by the sorts of their operands alone: what is met on the way, each cause of 20, each multiplication by
    0, and which line of a sign each line is."""

    def __init__(self, text):
        self.found, self.causes, self.zeros, self.lines = {}, [], [], []
        self.met_before_line = False
        self.last = None
        operands = []
        for token in RIGHT.ordered(text):
            if token in BINDING:
                right, left = operands.pop(), operands.pop()
                operands.append(self.joined(token.decode(), left, right))
            elif token == CLOSING:
                operands[-1].bracketed = True
            elif token.startswith(b"^"):
                operands.append(self.power(operands.pop(), int(token[1:])))
            elif token.startswith(b"f"):
                operands.append(Operand("factor", of=token))
            else:
                operands.append(Operand("constant", of=token))
        (self.whole,) = operands
        if self.last is None:
            self.cause(f"a {self.whole.sort} alone", self.whole.bracketed)

    def cause(self, what, bracketed):
        self.causes.append(what + (", in brackets" if bracketed else ""))

    def meet(self, rule, holds=True):
        if holds:
            self.found[f"accepted, {rule}"] = True

    def power(self, base, exponent):
        self.last = "^"
        if base.sort == "constant":
            self.cause("a powered constant", base.bracketed)
            return Operand("constant")
        self.lines.append(ONE)
        self.meet(f"a {base.sort} powered")
        self.meet(f"exponent {exponent}")
        self.meet("a factor in brackets", base.sort == "factor" and base.bracketed)
        self.meet("a power in brackets powered" if base.made == "^" else f"{base.made} in brackets powered", base.made)
        return Operand("line", made="^", of=(base.of, exponent))

    def joined(self, sign, left, right):
        self.last = sign
        both = {left.sort, right.sort}
        bracketed = any(operand.bracketed for operand in (left, right) if operand.sort == "constant")
        if both == {"constant"}:
            self.cause("a constant over a constant" if sign == "/" else f"two constants at {sign}", bracketed)
            return Operand("constant", made=sign)
        if sign == "/" and right.sort == "constant":
            self.cause("a line over a constant", bracketed)
        if left.sort == "constant" and left.made and not left.bracketed:
            self.met_before_line = True
        self.meet(f"{left.sort} {sign} {right.sort}")
        self.meet("a constant in brackets", "constant" in both and bracketed)
        self.meet("a factor in brackets", any(operand.sort == "factor" and operand.bracketed for operand in (left, right)))
        self.meet("a subtracted 0", sign == "-" and right.units == 0)
        self.meet("0 less a line", sign == "-" and left.units == 0)
        self.meet("an added 0", sign == "+" and 0 in (left.units, right.units))
        self.meet("a line and itself", left.of is not None and left.of == right.of)
        self.meet("a line and itself, divided", left.of is not None and left.of == right.of and sign == "/")
        if left.units == 0 and sign in PRODUCTS or right.units == 0 and sign == "*":
            zero = left if left.units == 0 else right
            self.zeros.append({f"0 {sign}" if zero is left else "* 0", *(["0.0 or the like"] if zero.of != b"0" else [])})
        self.lines += [ONE] if sign in ("+", "*") or sign == "-" and right.sort == "constant" else TWO
        self.beside(sign, left, right)
        return Operand("line", made=sign, of=(left.of, sign, right.of))

    def beside(self, sign, left, right):
        """Which sign or power is worked out before this one, and whether brackets say so."""
        if left.made in SIGNS:
            self.meet(f"{left.made} in brackets, and then {sign}" if left.bracketed else f"{left.made} and then {sign}, from the left")
        if right.made in SIGNS:
            self.meet(f"{right.made} in brackets behind {sign}" if right.bracketed else f"{right.made} before {sign}")
        self.meet(f"a power before {sign}", left.made == "^" and not left.bracketed)
        self.meet(f"a power behind {sign}", right.made == "^" and not right.bracketed)


def taken(data):
    """The count, the text and whether it ended, of an input whose first line is well."""
    count, behind = RIGHT.first_line(data)
    return (count, *RIGHT.ended(behind))


def called(rules, text, count):
    try:
        return rules.call(text, count)
    except Refused as refused:
        return refused.args[0]


def some_point(rng, factors):
    """Whole numbers near 0, where divisors are often 0, fractions, or both."""
    kind = rng.random()

    def coordinate():
        if kind < 0.35 or kind < 0.6 and rng.random() < 0.5:
            return Fraction(rng.randint(-2, 2))
        return Fraction(rng.randint(-40, 40), rng.choice((1, 2, 3, 7, 10, UNIT)))
    return [coordinate() for _ in range(factors)]
