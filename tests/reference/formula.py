"""02, request 12, "Formulas as members write them": from a formula's text to a sheet, and the program `formula`.

Where a text is outside the rules is found by an automaton, which knows of the bytes so far what was read last, how many digits these are, and how
many brackets are open. How a text within them is to be taken comes from its tokens alone: they are put in an order in which each operation stands
behind its operands (`f1 f2 +` for `f1+f2`), so that both lines and values are worked out from the left to the right, with a stack of operands.
"""
import re
from fractions import Fraction
from typing import NamedTuple

from .exact import MOST_BITS, TooLarge, bits
from .outcome import Refusal, Refused, refuse
from .ranges import UNIT
from .sheet import MOST_FACTORS, NUMERAL, Loading, Operation, Sheet, load, sheet_text
from .text import printed

MOST_TEXT = 1024
MOST_OPEN = 16
MOST_DIGITS = 6
MOST_DECIMALS = 4
UNCOUNTED = 9  # what a count outside 1 to 8 is taken for, and written as
COUNT_LINE = re.compile(rb"factors\t" + NUMERAL)

SIGNS = b"+-*/"
DIGITS = b"0123456789"
BINDING = {b"+": 1, b"-": 1, b"*": 2, b"/": 2}  # `*` and `/` "before `+` and `-`"
TOKEN = re.compile(rb"f[0-9]|[0-9]+(?:\.[0-9]+)?|\^[0-9]+|[-+*/()]")
OPENING, CLOSING = b"(", b")"

# What was read last: something that an operand has to follow (nothing at all, a sign, a bracket that was opened); the `f` of a factor; digits before
# the point, the point, and digits behind it; a factor or a bracket that was closed; `^`, and the exponent.
BEGIN, LETTER, WHOLE, POINT, PART, ATOM, CARET, POWER = (
    "an operand is due", "`f`", "digits", "the point", "decimals", "a factor or bracket", "`^`", "an exponent")

# Which bytes can follow, and what has then been read last.
FOLLOWING = {
    BEGIN: {b"f": LETTER, DIGITS: WHOLE, b"(": BEGIN},
    LETTER: {b"12345678": ATOM},
    WHOLE: {DIGITS: WHOLE, b".": POINT, b"^": CARET, SIGNS: BEGIN, b")": ATOM},
    POINT: {DIGITS: PART},
    PART: {DIGITS: PART, b"^": CARET, SIGNS: BEGIN, b")": ATOM},
    ATOM: {b"^": CARET, SIGNS: BEGIN, b")": ATOM},
    CARET: {DIGITS: POWER},
    POWER: {SIGNS: BEGIN, b")": ATOM},
}


def table(following):
    """The same, byte by byte."""
    return {(last, byte): then for last, row in following.items() for these, then in row.items() for byte in these}


class State(NamedTuple):
    """What was read last, how many digits of its sort are behind one another, and how many brackets are open."""
    last: str = BEGIN
    digits: int = 0
    open: int = 0


class Constant(NamedTuple):
    """An operand that is a constant, in units; any other operand is the number of a codelist line."""
    units: int


def constant(operand):
    return isinstance(operand, Constant)


class Lines(list):
    """The operation lines so far, behind so many factors."""

    def __init__(self, factors):
        super().__init__()
        self.factors = factors

    def write(self, name, *numbers):
        """One line more; its number."""
        self.append(Operation(name, numbers))
        return self.factors + len(self)


class Formulas:
    """The request's rules as methods, so that a test can put one wrong rule in the place of a right one."""
    loading = Loading
    most_text = MOST_TEXT
    most_open = MOST_OPEN
    most_digits = {WHOLE: MOST_DIGITS, PART: MOST_DECIMALS}
    following = table(FOLLOWING)
    ending = (WHOLE, PART, ATOM, POWER)

    # ---- which texts are formulas

    def after(self, state, byte):
        """The state behind one byte more, or None where it can't follow."""
        last = self.following.get((state.last, byte))
        digits = (state.digits if last == state.last else 0) + 1 if last in self.most_digits else 0
        opened = state.open + (byte == OPENING[0]) - (byte == CLOSING[0])
        if last is None or digits > self.most_digits.get(last, 0) or not 0 <= opened <= self.most_open:
            return None
        return State(last, digits, opened)

    def read(self, text):
        """The bytes that can follow one another, as many as there are, and the state behind them."""
        state = State()
        for at, byte in enumerate(text):
            then = self.after(state, byte)
            if then is None:
                return text[:at], state
            state = then
        return text, state

    def ends(self, state):
        """Whether a formula can end here."""
        return state.last in self.ending and state.open == 0

    def place(self, text):
        """"its place the first byte, from 1, that can't follow the bytes before it in any such formula of any length, one past the end if the text
        stops early"; None of a formula."""
        behind, state = self.read(text)
        return None if len(behind) == len(text) and self.ends(state) else len(behind) + 1

    def check_length(self, text):
        """"1,025 for every longer text"."""
        if len(text) > self.most_text:
            refuse(19, self.most_text + 1)

    def check_text(self, text):
        self.check_length(text)
        place = self.place(text)
        if place is not None:
            refuse(19, place)

    # ---- what a formula becomes

    def tokens(self, text):
        return TOKEN.findall(text)

    def sooner(self, waiting, sign):
        """Whether a sign that waits for its second operand has it when another one comes: "all from the left"."""
        return BINDING[waiting] >= BINDING[sign]

    def ordered(self, text):
        """The tokens with each sign behind its operands; `)` stands behind what was in brackets, and `^` with its digit is behind its atom."""
        done, waiting = [], []
        for token in self.tokens(text):
            if token == OPENING:
                waiting.append(token)
            elif token == CLOSING:
                while waiting[-1] != OPENING:
                    done.append(waiting.pop())
                waiting.pop()
                done.append(token)
            elif token in BINDING:
                while waiting and waiting[-1] != OPENING and self.sooner(waiting[-1], token):
                    done.append(waiting.pop())
                waiting.append(token)
            else:
                done.append(token)
        return done + waiting[::-1]

    def counted(self, count):
        """"one outside 1 to 8 counts and is written as 9"."""
        return count if 1 <= count <= MOST_FACTORS else UNCOUNTED

    def factor(self, number, factors):
        """"a factor beyond the count is written as reference 0"."""
        return number if number <= factors else 0

    def units(self, numeral):
        whole, _, part = numeral.partition(b".")
        return int(whole) * UNIT + int(part.ljust(MOST_DECIMALS, b"0"))

    def bracketed(self, operand):
        """"A bracket round a constant alone is that constant.\""""
        return operand

    def lines(self, text, factors):
        """The operation lines of a formula, or 20."""
        lines, operands = Lines(factors), []
        for token in self.ordered(text):
            if token in BINDING:
                right, left = operands.pop(), operands.pop()
                operands.append(self.joined(lines, token, left, right))
            elif token == CLOSING:
                operands.append(self.bracketed(operands.pop()))
            elif token.startswith(b"^"):
                operands.append(self.power(lines, operands.pop(), int(token[1:])))
            elif token.startswith(b"f"):
                operands.append(self.factor(int(token[1:]), factors))
            else:
                operands.append(Constant(self.units(token)))
        self.check_operations(lines, *operands)
        return lines

    def check_operations(self, lines, operand):
        """"a whole text with no operation gets 20"."""
        if not lines:
            refuse(20, 0)

    def joined(self, lines, sign, left, right):
        """What two operands become: "Two constants meeting, a constant divisor [...] gets 20"."""
        if constant(left) and constant(right) or constant(right) and sign == b"/":
            return self.met(sign, left, right)
        return {b"+": self.plus, b"-": self.minus, b"*": self.times, b"/": self.over}[sign](lines, left, right)

    def met(self, sign, left, right):
        refuse(20, 0)

    def power(self, lines, operand, exponent):
        """"a powered constant" gets 20, too."""
        return self.powered(operand, exponent) if constant(operand) else lines.write("pow", operand, exponent)

    def powered(self, operand, exponent):
        refuse(20, 0)

    # "a constant operand becomes `addc` or `mulc`"; of two lines the left one is named first

    def plus(self, lines, left, right):
        if constant(right):
            return lines.write("addc", left, right.units)
        return lines.write("addc", right, left.units) if constant(left) else lines.write("add", left, right)

    def negated(self, lines, operand):
        return lines.write("mulc", operand, -UNIT)

    def minus(self, lines, left, right):
        """"a minus is `mulc` by −10000 and `add`", "constant minus formula: `mulc` by −10000, then `addc`", "a subtracted 0 is written `0`"."""
        if constant(right):
            return lines.write("addc", left, -right.units)
        return self.plus(lines, left, self.negated(lines, right))

    def times(self, lines, left, right):
        if constant(right):
            return lines.write("mulc", left, right.units)
        return lines.write("mulc", right, left.units) if constant(left) else lines.write("mul", left, right)

    def over(self, lines, left, right):
        """"a division `inv` and `mul`", "constant over formula: `inv`, then `mulc`"."""
        return self.times(lines, left, lines.write("inv", right))

    def sheet(self, text, count):
        """The bytes of the sheet that a formula becomes, which names no year."""
        factors = self.counted(count)
        return sheet_text(Sheet(factors, tuple(self.lines(text, factors))))

    # ---- the call

    def call(self, text, count):
        """The sheet that was loaded: "19 comes before 20, and both before loading"."""
        self.check_text(text)
        sheet = self.sheet(text, count)
        load(sheet, rules=self.loading)
        return sheet

    # ---- the program

    def first_line(self, data):
        """The count, and the bytes behind the first line; 2 at 1 where this is of another form, or has no byte 10."""
        line, ended, behind = data.partition(b"\n")
        form = COUNT_LINE.fullmatch(line)
        if not ended or form is None:
            refuse(2, 1)
        return int(form[1]), behind

    def ended(self, behind):
        """The text without its byte 10, and whether it has one: the last byte, so that any other byte 10 belongs to the text."""
        return (behind[:-1], True) if behind.endswith(b"\n") else (behind, False)

    def check_end(self, ended):
        if not ended:
            refuse(2, 2)

    def answer(self, data):
        count, behind = self.first_line(data)
        text, ended = self.ended(behind)
        self.check_length(text)
        self.check_end(ended)
        return self.call(text, count)

    def run(self, data):
        """The bytes of the sheet, or the refusal of an input."""
        try:
            return self.answer(data)
        except Refused as refused:
            return refused.args[0]


def value_at(text, point):
    """What a formula comes to at a point, by the same order of its tokens; None where a divisor is 0, there or in an operand. The point has a
    fraction for each factor."""
    values = []
    for token in Formulas().ordered(text):
        if token in BINDING:
            y, x = values.pop(), values.pop()
            if x is None or y is None or token == b"/" and y == 0:
                values.append(None)
            else:
                values.append(x + y if token == b"+" else x - y if token == b"-" else x * y if token == b"*" else x / y)
        elif token.startswith(b"^"):
            x = values.pop()
            values.append(None if x is None else x ** int(token[1:]))
        elif token.startswith(b"f"):
            values.append(point[int(token[1:]) - 1])
        elif token != CLOSING:
            values.append(Fraction(token.decode()))
        if values[-1] is not None and bits(values[-1]) > MOST_BITS:
            raise TooLarge
    return values[0]


def formula_text(answer):
    """The text of a sheet or of a refusal."""
    return printed(answer) if isinstance(answer, Refusal) else answer


def formula_printed(data, rules=Formulas):
    """What the program prints."""
    return formula_text(rules().run(data))
