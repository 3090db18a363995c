"""Inputs for `formula`: formulas that are accepted, formulas whose constants, exponents or factors are refused, texts that are none, and first lines
of another form.

Two sorts: random ones (`case`), and one for each byte that can't follow what was read last, for each row of the conversion, for each cause of 20, for
each refusal of loading beside it and for each edge (`cases`).
"""
import re
from typing import NamedTuple

from generate import scratched
from reference.formula import MOST_DECIMALS, MOST_DIGITS, MOST_OPEN, MOST_TEXT, Formulas
from reference.ranges import LIMIT, UNIT
from reference.sheet import MOST_BYTES, MOST_FACTORS, MOST_LINES

SIGNS = ("+", "-", "*", "/")
SUMS, PRODUCTS = SIGNS[:2], SIGNS[2:]

# Bytes by what they can be in a formula.
BYTES = {
    "`f`": b"f", "`0`": b"0", "`1` to `8`": b"12345678", "`9`": b"9", "a point": b".", "`^`": b"^", **{f"`{sign}`": sign.encode() for sign in SIGNS},
    "`(`": b"(", "`)`": b")", "a space": b" ", "byte 10": b"\n",
}
OTHER = "another byte"
OTHERS = b"\t\r\x00FxXe,;:=_%[]{}'\"\\!&|~$#\x0b\x7f\x80\xb7\xd7\xe2\xff"

DIGIT = {"`0`", "`1` to `8`", "`9`"}
OPERAND = {"`f`", "`(`", *DIGIT}
BEHIND = {"`)`", *(f"`{sign}`" for sign in SIGNS)}  # the bracket only where one is open

# What a text can stop behind, by its last bytes, the first form that fits; and what can follow there.
STOPS = {
    "at the start": (rb"\A", OPERAND),
    "behind a sign": (rb"[-+*/]", OPERAND),
    "behind `(`": (rb"\(", OPERAND),
    "behind `f`": (rb"f", {"`1` to `8`"}),
    "behind a factor": (rb"f[1-8]", {"`^`", *BEHIND}),
    "behind `^`": (rb"\^", DIGIT),
    "behind an exponent": (rb"\^[0-9]", BEHIND),
    "behind a point": (rb"\.", DIGIT),
    "behind four decimals": (rb"\.[0-9]{4}", {"`^`", *BEHIND}),
    "behind fewer decimals": (rb"\.[0-9]{1,3}", {"`^`", *DIGIT, *BEHIND}),
    "behind six digits": (rb"[0-9]{6}", {"a point", "`^`", *BEHIND}),
    "behind fewer digits": (rb"[0-9]", {"a point", "`^`", *DIGIT, *BEHIND}),
    "behind a closed bracket": (rb"\)", {"`^`", *BEHIND}),
}
STOP_FORMS = {stop: re.compile(form + rb"\Z") for stop, (form, _) in STOPS.items()}
UNFINISHED = [stop for stop, (_, follow) in STOPS.items() if not follow & BEHIND]
FINISHED = [stop for stop in STOPS if stop not in UNFINISHED]
FAULTS = [(byte, stop) for stop, (_, follow) in STOPS.items() for byte in (*BYTES, OTHER) if byte not in follow]

# first lines of another form, without their byte 10
FIRST_LINES = {
    "an empty line": (b"",),
    "another word": (b"factor\t2", b"Factors\t2", b"factorss\t2", b"depth\t2", b"box", b"\t2", b"2"),
    "no count": (b"factors", b"factors\t"),
    "a blank for the tab": (b"factors 2", b"factors2"),
    "two tabs together": (b"factors\t\t2",),
    "a third field": (b"factors\t2\t2016", b"factors\t2\t2014", b"factors\t2\t2", b"factors\t2\tx"),
    "an empty third field": (b"factors\t2\t",),
    "a zero in front": (b"factors\t02", b"factors\t00", b"factors\t-02"),
    "`-0`": (b"factors\t-0",),
    "a plus sign": (b"factors\t+2", b"factors\t+8", b"factors\t+3"),
    "a minus sign alone": (b"factors\t-", b"factors\t--2"),
    "eleven digits": (b"factors\t10000000000", b"factors\t00000000002", b"factors\t-10000000000"),
    "a point": (b"factors\t2.0", b"factors\t2."),
    "a letter": (b"factors\tx", b"factors\t2x", b"factors\tf2"),
    "a blank beside the count": (b"factors\t 2", b"factors\t2 "),
    "bytes in front": (b" factors\t2", b"\tfactors\t2", b"\xef\xbb\xbffactors\t2"),
    "byte 13": (b"factors\t2\r", b"factors\t3\r", b"factors\t8\r"),
    "byte 0": (b"factors\t2\x00",),
    "the formula": (b"f1+f2", b"0.8*f1^2+f2/(f1+1.5)"),
    "the formula beside the count": (b"factors\t2\tf1+f2", b"factors\t2 f1+f2"),
}
OUTSIDE = (0, -1, -2, -MOST_FACTORS, -9999999999, 9, 10, 16, 64, 255, 256, 257, 2 ** 32 + 1, 9999999999)


# ---- text

def given(text, count=2):
    return b"factors\t%d\n" % count + (text.encode() if isinstance(text, str) else text) + b"\n"


def numeral(rng, units):
    """A constant of so many units in one of the ways in which it can be written."""
    whole, part = divmod(units, UNIT)
    digits = str(whole)
    if rng.random() < 0.15:
        digits = digits.zfill(rng.randint(len(digits), MOST_DIGITS))
    decimals = f"{part:04}"
    shortest = len(decimals.rstrip("0"))
    kept = shortest if rng.random() < 0.8 else rng.randint(shortest, MOST_DECIMALS)
    return digits + ("." + decimals[:kept] if kept else "")


def shaped(rng, digits, decimals):
    """A constant of so many digits and decimals."""
    def some(count):
        return "".join(rng.choice("0123456789") for _ in range(count))
    return some(digits) + ("." + some(decimals) if decimals else "")


class Written(NamedTuple):
    """A text, how loosely it binds (an atom 0, a power 1, a product 2, a sum 3), and how many of its brackets are open at once."""
    text: str
    rank: int = 0
    deep: int = 0


def in_brackets(written, times=1):
    return Written("(" * times + written.text + ")" * times, 0, written.deep + times)


class Writer:
    """Writes random formulas of so many factors. A careful one keeps clear of all that is refused, but for the number of lines."""

    def __init__(self, rng, factors, careful=True):
        self.rng = rng
        self.factors = factors
        self.careful = careful

    def factor(self):
        most = self.factors if self.careful or self.rng.random() < 0.9 else MOST_FACTORS
        return Written(f"f{self.rng.randint(1, most)}")

    def units(self, least):
        choice = self.rng.random()
        if choice < 0.5:
            return self.rng.randint(1, 99) * self.rng.choice((1, 10, 100, 1000, UNIT))
        if choice < 0.6:
            return self.rng.choice((least, 1, UNIT, LIMIT, LIMIT - 1))
        return self.rng.randint(least, self.rng.choice((9 * UNIT, LIMIT, LIMIT if self.careful else 9999999999)))

    def constant(self, least=1):
        found = Written(numeral(self.rng, self.units(least if self.careful else 0)))
        return in_brackets(found, self.rng.choice((1, 1, 2))) if self.rng.random() < 0.12 else found

    def exponent(self):
        return self.rng.choice("2222333445678" if self.careful or self.rng.random() < 0.8 else "019")

    def within(self, written, rank):
        """An operand that binds as fast as it has to: in brackets where it does not, or another one where no more can be opened."""
        if written.rank <= rank and (self.rng.random() < 0.94 or written.deep == MOST_OPEN):
            return written
        return in_brackets(written) if written.deep < MOST_OPEN else self.factor()

    def power(self, written):
        return Written(self.within(written, 0).text + "^" + self.exponent(), 1, written.deep + bool(written.rank))

    def two(self, left, sign, right):
        rank = 3 if sign in SUMS else 2
        left, right = self.within(left, rank), self.within(right, rank - 1)
        return Written(left.text + sign + right.text, rank, max(left.deep, right.deep))

    def leaf(self):
        if not self.careful and self.rng.random() < 0.08:
            return self.constant()
        found = self.factor()
        return in_brackets(found, self.rng.choice((1, 1, 1, 2, 3))) if self.rng.random() < 0.08 else found

    def grown(self, operations):
        """A formula of so many operations."""
        if not operations:
            return self.leaf()
        choice = self.rng.random()
        if choice < 0.15:
            return self.power(self.grown(operations - 1))
        sign = self.rng.choice(SIGNS)
        if choice < 0.45:
            other = self.grown(operations - 1)
            constant = self.constant(0 if sign in SUMS else 1)
            first = self.rng.random() < 0.5 or sign == "/" and (self.careful or self.rng.random() < 0.8)
            return self.two(constant, sign, other) if first else self.two(other, sign, constant)
        left = self.rng.randrange(operations)
        return self.two(self.grown(left), sign, self.grown(operations - 1 - left))


def some_writer(rng, careful=True):
    return Writer(rng, rng.choice((1, 2, 2, 3, 3, 4, 5, 6, 7, 8)), careful)


def some_size(rng):
    return rng.choice((1, 1, 2, 2, 3, 3, 4, 5, 6, 8, 10, 14, 20))


def some_text(rng):
    """A formula, mostly a short one."""
    return some_writer(rng, rng.random() < 0.7).grown(rng.choice((0, 1, 1, 2, 3, 5))).text


def filled(rng, text, length, most=MOST_OPEN):
    """A sum with further terms, in up to so many brackets, so that it has exactly that length: two bytes more than it has or longer."""
    while length - len(text) > 12:
        deep = rng.randint(0, most)
        term = rng.choice("+-") + "(" * deep + f"f{rng.randint(1, 2)}" + ")" * deep
        if len(text) + len(term) <= length - 2:
            text += term
    left = length - len(text) - 1
    digits = left if left <= MOST_DIGITS else rng.randint(left - 1 - MOST_DECIMALS, min(MOST_DIGITS, left - 2))
    return text + "+" + "1" * digits + ("." + "5" * (left - digits - 1) if digits < left else "")


# ---- random inputs

def careful(rng):
    writer = some_writer(rng)
    return given(writer.grown(some_size(rng)).text, writer.factors)


def careless(rng):
    """Constants that meet, exponents and factors of any number, counts that are too low or none."""
    writer = some_writer(rng, careful=False)
    count = rng.choice(OUTSIDE) if rng.random() < 0.1 else rng.randint(1, MOST_FACTORS) if rng.random() < 0.3 else writer.factors
    return given(writer.grown(some_size(rng)).text, count)


def many_lines(rng):
    """About as many lines as there may be, and more."""
    writer = some_writer(rng, rng.random() < 0.9)
    return given(writer.grown(rng.randint(30, 60)).text, writer.factors)


def damaged(rng):
    writer = some_writer(rng, rng.random() < 0.7)
    text = writer.grown(some_size(rng)).text.encode()
    return given(scratched(rng, text, (1, 1, 1, 1, 2, 4), b"f0189.^+-*/() \n\r\tF,"), writer.factors)


def of_bytes(rng):
    """Bytes that formulas have, in any order."""
    return given(bytes(rng.choice(b"fff0123456789..^^+-*/(())") for _ in range(rng.randint(0, 12))), rng.randint(1, MOST_FACTORS))


def long(rng):
    """As many bytes as there may be, one fewer or one more, some of them damaged."""
    text = filled(rng, some_text(rng), MOST_TEXT + rng.choice((-1, 0, 0, 1, 1))).encode()
    return given(scratched(rng, text, (1,), b"f09.^+() ") if rng.random() < 0.3 else text, rng.randint(2, MOST_FACTORS))


def scratched_input(rng):
    """The whole input damaged, its first line and its last byte too."""
    return scratched(rng, careful(rng), (1, 1, 2), b"\t\n\r -0129f")


KINDS = [(careful, 46), (careless, 22), (many_lines, 4), (damaged, 20), (of_bytes, 3), (long, 2), (scratched_input, 3)]


def case(rng):
    """A kind's name and an input of it."""
    kind = rng.choices([kind for kind, _ in KINDS], [weight for _, weight in KINDS])[0]
    return kind.__name__, kind(rng)


# ---- texts that are no formulas

def some_byte(rng, byte):
    return bytes([rng.choice(BYTES.get(byte, OTHERS))])


def some_stop(rng, stop, opened):
    """Bytes that stop there, with so many brackets open."""
    if stop == "at the start":
        return b""
    lead = "" if rng.random() < 0.4 else some_text(rng) + rng.choice(SIGNS)
    lead += "(" * opened
    if stop == "behind `(`":
        return (lead if opened else lead + "(").encode()
    if stop == "behind a sign":
        return (lead + f"f{rng.randint(1, 8)}" + rng.choice(SIGNS)).encode()
    digits, factor = shaped(rng, rng.randint(1, MOST_DIGITS), 0), f"f{rng.randint(1, 8)}"
    return (lead + {
        "behind `f`": "f", "behind a factor": factor, "behind `^`": rng.choice((factor, "(f1)", digits)) + "^",
        "behind an exponent": f"{factor}^{rng.randint(0, 9)}", "behind a point": digits + ".",
        "behind four decimals": shaped(rng, rng.randint(1, MOST_DIGITS), MOST_DECIMALS),
        "behind fewer decimals": shaped(rng, rng.randint(1, MOST_DIGITS), rng.randint(1, MOST_DECIMALS - 1)),
        "behind six digits": shaped(rng, MOST_DIGITS, 0), "behind fewer digits": shaped(rng, rng.randint(1, MOST_DIGITS - 1), 0),
        "behind a closed bracket": f"({rng.choice((factor, digits))})",
    }[stop]).encode()


def some_tail(rng):
    return rng.choice((b"", b"", b"1", b"+f1", b")", b"\n", some_text(rng).encode()))


def fault_cases(rng):
    """Each byte where it can't follow, and an end where none can be."""
    for byte, stop in FAULTS:
        text = some_stop(rng, stop, rng.choice((0, 0, 1, 3)))
        yield f"formula, {byte} {stop}", given(text + some_byte(rng, byte) + some_tail(rng))
    for stop in STOPS:
        if stop in FINISHED:
            yield f"formula, `)` {stop}, and no bracket open", given(some_stop(rng, stop, 0) + b")" + some_tail(rng))
            yield f"formula, ends {stop}, and a bracket is open", given(some_stop(rng, stop, rng.randint(1, MOST_OPEN - 1)))
        else:
            yield f"formula, ends {stop}", given(some_stop(rng, stop, rng.choice((0, 0, 1))))
    for opened in (MOST_OPEN - 1, MOST_OPEN, MOST_OPEN + 1, MOST_OPEN + 2, 40):
        for lead in ("", "f1*", "(f2+1)*", "f1+(((f2)))/"):
            yield f"formula, {opened} brackets open", given(lead + "(" * opened + "f1+1" + ")" * opened)
            yield f"formula, {opened} brackets open, and a constant in them", given(lead + "(" * opened + "1.5" + ")" * opened + "+f1")
    for text in ("f1+" + "(" * 16 + "f1*(f2)" + ")" * 16, "(" * 15 + "(f1)+(f2)" + ")" * 15, "(" * 16 + "f1)+(f2" + ")" * 16, "(f1)+" * 17 + "(f2)",
                 "(" * 17, "(" * 16, "(" * 16 + "f1+" + "(", "f1+(" * 17, "f1+(" * 16 + "f2" + ")" * 16, "(" * 18 + "x", "(" * 16 + "x"):
        yield "formula, brackets one in another and behind one another", given(text)
    for text in ("f1 +f2", "f1+f2 ", " f1+f2", "f1+ f2", "f1+\nf2", "f1\n+f2", "\nf1+f2", "f1+f2\n", "f1+f2\r", "\n", "\n\n", " ", "f1+f2\n\n", "\nx",
                 "f1+f2\nf1+f2", "f1^2^3", "f1^2^", "(f1^2)^3", "-f1", "+f1", "f1--f2", "f1+-f2", "f1*-1", "(-f1)", "()", "f1+()", "f1()", "(f1)(f2)",
                 "2f1", "f1f2", "f12", "f01", "f0", "f9", "f", "ff1", "F1+1", "f1.5", "1.", "1.+f1", ".5*f1", "1..5", "1.5.5", "1e3*f1", "1,5*f1",
                 "F1*f2", "f1+F2", "f1*f2\r", "2*f1\r", "f1+()*f2", "f1*(f2+())", "f1^2^2+f2", "(f1+f2)^2^3",
                 "f1^", "f1^f2", "f1^(2)", "f1^-2", "f1^12", "f1^2.5", "f1+", "f1*", "f1)", "(f1", "((f1)", "(f1))", ")f1(", "f1x", "f1**2", "f1^^2",
                 "0x1"):
        yield "formula, a text that is none, or nearly so", given(text)


def digit_cases(rng):
    """Constants of each number of digits and decimals, and one more of each; zeros in front."""
    for digits in range(1, MOST_DIGITS + 2):
        for decimals in range(MOST_DECIMALS + 2):
            yield f"formula, {digits} digits and {decimals} decimals", given("f1+" + shaped(rng, digits, decimals))
        yield f"formula, {digits} digits at the start", given(shaped(rng, digits, 0) + "*f1")
    for text in ("007*f1", "000000+f1", "000001.5*f1", "0000001*f1", "00.00+f1", "01*f1", "0.0001*f1", "0.00001*f1", "1.0000*f1", "1.00000*f1",
                 "1234567*f1", "f1*1234567", "f1+12345.12345", "f1+123456.1234", "f1+123456.12345", "f1+1234567.1", "1.0000^2+f1", "123456^2+f1"):
        yield "formula, digits", given(text)


# ---- what a formula becomes

def operands():
    """An operand of each sort: a factor, a line, a constant."""
    return {"factor": ("f1", "f2", "f3"), "line": ("f1^2", "(f2+1.5)", "(f1*f3)"), "constant": ("2.5", "(3)", "0.0125", "((40))")}


def conversion_cases(rng):
    """Each sign between operands of each sort, and each order of two signs, with brackets and without."""
    sorts = operands()
    for sign in SIGNS:
        for left in sorts:
            for right in sorts:
                text = rng.choice(sorts[left]) + sign + rng.choice(sorts[right])
                yield f"formula, {left} {sign} {right}", given(text, 3)
                yield f"formula, {left} {sign} {right}, and more", given(f"f3/({text})-f2", 3)
        for other in SIGNS:
            a, b, c = (rng.choice(("f1", "f2", "f3", "f3^2")) for _ in range(3))
            for text in (a + sign + b + other + c, f"({a}{sign}{b}){other}{c}", f"{a}{sign}({b}{other}{c})", f"({a}{sign}{b}{other}{c})^3"):
                yield f"formula, {sign} and {other}", given(text, 3)
            yield f"formula, {sign} and {other}, with a constant", given(a + sign + rng.choice(("0.5", "(2)")) + other + c, 3)
            yield f"formula, {sign} and {other}, a constant behind", given(a + sign + b + other + "1.25", 3)
        yield f"formula, a power behind {sign}", given(f"f1{sign}f2^3")
        yield f"formula, a power before {sign}", given(f"f1^3{sign}f2")
        yield f"formula, a constant before {sign} and a power", given(f"0.75{sign}f1^4")
    for exponent in range(10):
        for atom in ("f1", "(f1+f2)", "((f2))", "(f1^2)"):
            yield f"formula, exponent {exponent}", given(f"{atom}^{exponent}")
        yield f"formula, exponent {exponent}, and more", given(f"2*f1^{exponent}-f2^2")
    for text in ("f1-0", "f1-0.0000", "f1-(0)", "0-f1", "f1+0", "0+f1", "f1-0+f2", "f1*f2-000", "(f1-0)*f2", "f1-0-0", "f1-f1", "f1/f1", "f1*f1",
                 "f1+f1"):
        yield "formula, a 0 added or subtracted, or a factor and itself", given(text)
    for factors in range(1, MOST_FACTORS + 1):
        names = [f"f{factor}" for factor in range(1, factors + 1)]
        rng.shuffle(names)
        yield f"formula, all of {factors} factors", given("*".join(names) + "+1", factors)
        yield f"formula, {factors} factors, and the last one alone", given(f"1/f{factors}", factors)
    yield "formula, the committee's", given("0.8*f1^2+f2/(f1+1.5)")


def constant_cases(rng):
    """Each cause of 20 by itself, with constants in brackets and without, at the start, at the end and inside; what is near to one and is none."""
    for sign in SIGNS:
        for left, right in (("2", "3"), ("(2)", "3"), ("2", "((3))"), ("0", "0")):
            both = left + sign + right
            for text in (both, *rng.sample((f"f1+({both})", f"({both})*f1", f"({both})^2+f1", f"f1-({both})/f2"), 2)):
                yield f"formula, two constants at {sign}", given(text)
            yield f"formula, two constants at {sign}, from the left", given(f"{both}{rng.choice('*/' if sign in PRODUCTS else SIGNS)}f1")
    for divisor in ("2", "(2)", "0.5", "0", "((1))"):
        for text in (f"f1/{divisor}", f"f1^2/{divisor}", f"(f1+f2)/{divisor}", f"f1+f2/{divisor}", f"f1/{divisor}/f2", f"1+f1/{divisor}"):
            yield "formula, a constant divisor", given(text)
        yield "formula, a constant divisor of a constant", given(f"f1+1/{divisor}")
    for base in ("2", "(2)", "0", "0.5", "((1))"):
        for text in (f"{base}^2", f"{base}^2*f1", f"f1+{base}^3", f"f1*{base}^0", f"f1^2+{base}^9", f"f1/{base}^2"):
            yield "formula, a powered constant", given(text)
    for text in ("f1", "f2", "(f1)", "((f2))", "2", "0", "1.5", "(2)", "((0.5))", "(" * 16 + "f1" + ")" * 16, "007"):
        for count in (2, rng.choice(OUTSIDE)):
            yield "formula, no operation", given(text, count)
    yield "formula, no operation, and a factor beyond the count", given("f3", 2)
    for text in ("f1*2*3", "f1+2+3", "f1-2-3", "2*f1*3", "2+f1+3", "(f1*2)*3", "(f1+2)*(f2+3)", "2*f1+3*f2", "2/f1/f2", "2/f1*3", "2-f1-3",
                 "((1.25))+f1", "(2)*f1", "f1*(2)", "f1+(((3)))", "(2)/f1", "2*(f1)", "(f1)+(2)", "(f1)^2", "(f1)*2", "2*3*f1", "2*(3*f1)",
                 "f1*(2*3)", "f1/(1/2)", "f1/(1/f2)"):
        yield "formula, constants that meet or do not", given(text)


# ---- the refusals of loading

# terms whose last line is refused, where the count is 2
FLAWS = {5: ("f3*f1", "f8+f1", "f1-f4", "f5/f2", "1.5+f7", "f6^2"), 6: ("f1^9", "f2^1", "f1^0", "(f1+f2)^9"),
         7: ("(f1+300000)", "200000.0001*f2", "(f2-200000.0001)", "999999.9999/f1"), 15: ("0*f1", "f2*0", "0/f1", "(f1*f2)*0.0")}
# the same with two faults in one line, a reference first
BOTH = {6: ("f3^9", "f8^1"), 7: ("(f3+300000)", "f3*200000.0001"), 15: ("0*f3", "f4*0")}
LIMITS = ("199999.9999", "200000", "200000.0000", "200000.0001", "200001", "999999.9999")


def plus_many(rng, text, lines, factors=2):
    """A sum with terms added that make one line each, to so many codelist lines."""
    found = len(Formulas().lines(text.encode(), factors))
    return text + "".join(rng.choice(("+f1", "+f2", "-1", "+2")) for _ in range(lines - factors - found))


def loading_cases(rng):
    """Each refusal of loading, and two of them, in one line and in two; as many lines and bytes as there may be, and one more."""
    for number, terms in FLAWS.items():
        for term in terms:
            yield f"formula, {number}", given(term)
        for other in FLAWS:
            yield f"formula, {number} before {other}", given(rng.choice(terms) + "+" + rng.choice(FLAWS[other]))
        term = rng.choice(terms)
        yield f"formula, {number}, and a count outside", given(term, rng.choice(OUTSIDE))
        yield f"formula, {number}, and constants that meet", given(rng.choice((f"{term}+2^2", f"2*3+{term}", f"{term}+f1/2")))
        yield f"formula, {number}, and a byte that can't follow", given(f"{term}+")
        yield f"formula, {number} behind 64 lines", given(plus_many(rng, "f1+f2", 64) + "+" + term)
        yield f"formula, {number} before 65 lines", given(plus_many(rng, term, 66))
        yield f"formula, {number} behind 65 lines", given(plus_many(rng, "f1+f2", 66) + "+" + term)
    for number, terms in BOTH.items():
        for term in terms:
            yield f"formula, 5 over {number}", given(term)
    for limit in LIMITS:
        for text in (f"f1+{limit}", f"{limit}+f1", f"f1-{limit}", f"{limit}-f1", f"f1*{limit}", f"{limit}*f1", f"{limit}/f1", f"({limit})+f1"):
            yield f"formula, the constant {limit}", given(text)
    for count in (*OUTSIDE, *range(1, MOST_FACTORS + 1)):
        for text in ("f1+f8", *rng.sample(("f8^2", "2", "f1+", "f1*f1", "0*f1+f3"), 2)):
            yield f"formula, {count} factors, and {text}", given(text, count)
    for factors in range(1, MOST_FACTORS + 1):
        for lines in (MOST_LINES, MOST_LINES + 1):
            text = plus_many(rng, "f1^2", lines - 1, factors).replace("f2", f"f{factors}")
            yield f"formula, {lines} lines with {factors} factors", given(text + "+f1", factors)
            yield f"formula, {lines} lines with {factors} factors, and one beyond", given(text + f"+f{min(factors + 1, MOST_FACTORS)}", factors)
            yield f"formula, {lines + 1} lines with {factors} factors, two of them of one sign", given(text + rng.choice(("-f1", "/f1")), factors)
    for name, text in (
            ("reference", "+f3"), ("exponent", "+f1^9"), ("constant", "+300000"), ("multiplier", "+0*f1"), ("power of a factor beyond", "+f8^9")):
        for lines in (MOST_LINES - 1, MOST_LINES):
            yield f"formula, a bad {name} behind {lines} lines", given(plus_many(rng, "f1^2", lines) + text)
    for count in (0, 1, -1, 10, 9999999999, rng.randint(2, 8)):
        for length in (MOST_BYTES, MOST_BYTES + 1):
            yield f"formula, a sheet of {length} bytes, {count} factors", given(of_sheet_length(rng, length, count), count)
        yield f"formula, 161 minus signs, {count} factors", given("f1-" * 161 + "f1", count)
        yield f"formula, 160 minus signs, {count} factors", given("f1-" * 160 + "f1", count)
    for term in ("+f3", "^9", "+300000", "*0", "+2^2", "/2"):
        for count in (rng.choice((1, 2)), 0):
            yield f"formula, a sheet that is too long, with {term}", given("(f1)" + term + "-f1" * 170, count)


def of_sheet_length(rng, length, count):
    """A formula whose sheet has exactly so many bytes."""
    text = "f1" + "-f1" * 150
    missing = length - len(Formulas().sheet(text.encode(), count))
    # behind lines of three digits, a difference with f1 has 26 bytes, a sum with f1 10, and one with a constant of 1 to 10 digits 11 to 20
    while missing > 20:
        more, size = rng.choice((("-f1", 26), ("+f1", 10))) if missing > 40 else ("+f1", 10)
        text, missing = text + more, missing - size
    return text + "+" + numeral(rng, rng.randint(10 ** (missing - 11), 10 ** (missing - 10) - 1))


# ---- first lines, ends and lengths

def first_line_cases(rng):
    """First lines of another form, before a text that is well, that is none, that is too long, that does not end, and before nothing."""
    for way, lines in FIRST_LINES.items():
        for line in lines:
            yield f"formula, a first line with {way}", line + b"\n" + rng.choice((b"f1+f2\n", b"f1*f2\n", b"0.8*f1^2+f2/(f1+1.5)\n"))
        behind = rng.choice((b"f1+\n", b"2*3\n", b"f3^9\n", b"x" * 1025 + b"\n", b"f1+f2", b"", b"\n"))
        yield f"formula, a first line with {way}, and more", rng.choice(lines) + b"\n" + behind
    for line in (b"", b"factors\t2", b"factors\t8", b"factors\t0", b"factors", b"f1+f2", b"factors\t2\t", b"x" * 1025, b"factors\t2 f1+f2",
                 b"0" * 70000, b"factors\t" + b"2" * 9000):
        yield "formula, no byte 10", line
    for behind in (b"f1+\n", b"2*3\n", b"f3^9\n", b"x" * 1025 + b"\n", b"x" * 1025, b"f1+f2", b"", b"\n"):
        yield "formula, an empty first line, and more", b"\n" + behind
        yield "formula, a count of two fields, and more", b"factors\t9\t2014\n" + behind
    yield "formula, a long first line", b"factors\t2" + b"\t" * 3000 + b"\nf1+f2\n"
    yield "formula, a first line twice", b"factors\t2\nfactors\t2\nf1+f2\n"


def end_cases(rng):
    """Texts without their byte 10."""
    for text in (b"", b"", b"f1+f2", b"f1", b"2*3", b"f1+", b"x", b"f1^9", b"f1+f3", b"f1+300000", b"0*f1", b"\nf1+f2", b"f1+\nf2",
                 b"f1-" * 161 + b"f1", b"f1" + b"+f1" * 64):
        yield "formula, no byte 10 at the end", b"factors\t2\n" + text
        yield "formula, no byte 10 at the end, and a count outside", given(text, rng.choice(OUTSIDE))[:-1]
    for text in (b"", b"f1+f2"):
        yield "formula, an end", b"factors\t2\n" + text + b"\n"
        yield "formula, two ends", b"factors\t2\n" + text + b"\n\n"


def length_cases(rng):
    """As many bytes as a text may have, one fewer, and more: of a formula that is accepted, of many lines, of one that is refused, of none."""
    for length in (MOST_TEXT - 1, MOST_TEXT, MOST_TEXT + 1, MOST_TEXT + 2):
        accepted = filled(rng, "(" * 16 + "f1*f2" + ")" * 16 + ("+" + "(" * 16 + "f1" + ")" * 16) * 20, length)
        texts = {
            "that is accepted or nearly so": accepted, "of many lines": filled(rng, "f1", length, 0),
            "with constants that meet": filled(rng, "2*3+f1", length), "with a constant divisor at the end": filled(rng, "f1", length - 2) + "/2",
            "with a first byte that can't follow": "x" * length, "with a byte that can't follow": filled(rng, "f1+*f2", length),
            "that stops early": filled(rng, "f1", length - 1) + "+",
            "that stops early, with constants that meet": filled(rng, "2*3", length - 1) + "*",
            "with a bracket that is not closed": "(" + filled(rng, "f1", length - 1),
            "with a last byte that can't follow": filled(rng, "f1", length - 1) + ")", "of brackets": "(" * length, "of digits": "1" * length,
            "with byte 10 at the end": filled(rng, "f1", length - 1) + "\n", "with an exponent 9": filled(rng, "f1^9", length),
            "with a factor beyond the count": filled(rng, "f1*f3", length),
        }
        for name, text in texts.items():
            yield f"formula, {length} bytes {name}", given(text)
        for text in (accepted, "x" * length, filled(rng, "2*3", length)):
            yield f"formula, {length} bytes, and no byte 10", given(text)[:-1]
        yield f"formula, {length} bytes, and a count outside", given(accepted, rng.choice(OUTSIDE))
        yield f"formula, {length} bytes, and a first line of another form", b"factors 2\n" + accepted.encode() + b"\n"
    yield "formula, 70,000 bytes", given("f1+" * 24000 + "f1")
    yield "formula, 70,000 bytes, and no byte 10", given("f1+" * 24000 + "f1")[:-1]


def cases(rng):
    """An input for each byte that can't follow, each row of the conversion, each cause of 20, each refusal of loading, and each edge."""
    for kind in (fault_cases, digit_cases, conversion_cases, constant_cases, loading_cases, first_line_cases, end_cases, length_cases):
        yield from kind(rng)
