#!/usr/bin/env python3
"""Compares the programs `rate`, `tidy`, `fleet`, `cut`, `sisters` and `formula` with the papers' rules over unlimited whole numbers and exact
fractions (tests/reference).

tests/compare.py --binary PATH [--tidy PATH [--tidy-into PATH]] [--fleet PATH [--rate-many PATH]] [--cut PATH [--cut-many PATH]] [--sisters PATH]
        [--formula PATH] [--seed N] [--count N] [--dead-lines N] [--fleets N] [--cuts N] [--pairs N] [--formulas N] [--jobs N]
    `rate`: the figures of the papers, the examples, inputs that two refusals fit, and random ones: every printed byte; the bends beside those
    with each square rounded (02, request 2) and those without special cases of a product (request 4), which must be no narrower; for a share of the
    accepted random ones also the exact premium and its derivatives, as fractions, at a point inside the ranges; and for a share of all that come to
    a line the same sheet in the other year (request 9), with the same value, slopes and depends-on set where both are accepted
    `tidy`: the sheets of all these, and sheets with dead lines put in (dead_lines.py): every printed byte, and `rate` of the tidied sheet
    `tidy_into`: a share of them, with buffers that are too short, just long enough and longer: the outcome and every byte of the buffer
    `fleet`: lists of boats (fleets.py), the figures of the request and the example: every printed byte
    `cut`: classes that are cut finer (cuts.py), the figures of the request and the examples: every printed byte; of what is printed also that a deeper
    cut is no wider, and for a share the exact premium and its derivatives, at cut points among others (cutting.py)
    `sisters`: two boats of a class (pairs.py), the figures of the request and the example: every printed byte; of what is printed also that the exact
    difference of the premiums is inside, and for a share that of two points with fractions, and the boats exchanged (sister_boats.py)
    `formula`: formulas as members write them (formulas.py), the figures of the request and the examples: every printed byte; of the sheets that are
    printed also that their exact premium is the formula's value, at points where a divisor is 0 among others (formula_texts.py)
    `rate_many`: the lists of `fleet`, by the other form in which boats are handed over
    `cut_many`: a share of the inputs of `cut`, each made a few times
    the laws of 02's request 11 (laws.py): a share of the inputs of the first five programs, accepted or refused, with references exchanged, and a
    share of those that `rate` accepts with narrower ranges (variants.py), beside what was printed of them
tests/compare.py --self-test VECTORS [--program NAME]
    the reference alone against a file of vectors, one JSON object a line with "input" (hex) and "expected"; the program is the one that is named, or
    else the vector's "kind", or `rate` where that is no program's name

Fails, too, where a rule, a refusal, a wrong rule of errors.py or of formula_errors.py or an order of two refusals (orders.py) was never met, or less
often than it has to be (fleet_page.py, cutting.py, sister_boats.py). The same seed gives the same inputs, for any number of processes that they are
dealt out to (--jobs). The closing line counts each input once for each program, and once more for each law that was asked of it.
"""
import argparse
import json
import os
import random
import sys
from pathlib import Path

import cuts
import dead_lines
import fleets
import formulas
import pairs
import variants
import years
from cutting import CutComparison, read
from errors import (
    ERRORS, LOADING_ERRORS, SPECIAL_ERRORS, SPECIAL_STEPS, STEPS, YEAR_ERRORS, YEAR_LOADING_ERRORS, YEAR_STEPS, ZERO_FIELD, AbsentEarlier,
    CasesNotApplied, SquaresRoundedEachInCross, SquaresRoundedEachInSq, uncounted, year_errors_of)
from figures import APART, CONVERTED, FIGURES, LIMITED, REPORTED, TIDIED
from fleet_page import FleetComparison
from formula_texts import FormulaComparison
from generate import box_text, case, input_text
from laws import LawsComparison
from orders import ORDERS, cases, orders_of
from reference.cut import cut_printed
from reference.exact import TooLarge, broken_promises
from reference.fleet import Fleet, fleet_printed
from reference.formula import formula_printed
from reference.outcome import Refusal
from reference.ranges import UNIT, Range
from reference.rating import Result
from reference.sheet import EARLIER, PRESENT, load, sheet_text_with
from reference.sisters import sisters_printed
from reference.text import parted, printed, run
from reference.tidy import tidy_printed
from sets import HULLED, SPECIAL, present_lines, sets_of_lines
from shares import all_compared, missed_by
from sister_boats import SistersComparison
from tally import DIFFERENCES_SHOWN, Tally, difference, print_of, unlike
from tidying import TidyComparison

EXAMPLES = Path(__file__).resolve().parent.parent / "examples"
EXACT_SHARE = 0.5
OTHER_YEAR_SHARE = 0.2  # beside the figures
ORDER_ROUNDS = 3  # inputs for each order
FLEET_ROUNDS = 3  # inputs for each way in which a list of boats is refused, and for each of its edges
CUT_ROUNDS = 2  # inputs for each way in which a first line is refused, for each order behind one, and for each edge
LAW_ROUNDS = 10  # inputs for each way in which a sheet with references to exchange is refused
SISTERS_ROUNDS = 2  # inputs for each way in which boat lines are refused, for each order before them, and for each edge
FORMULA_ROUNDS = 1  # inputs for each way in which a text is refused, for each row of the conversion, and for each edge

SPECIAL_CASES = ["mul, case 4", "mul, case 7", "mul, case 10"]

# Refusal 10 is not among them: the program loads a sheet before it rates.
RULES = [
    "1: sheet over 4,096 bytes", "1: input over 8,192 bytes",
    "2: no first line", "2: first line's form", "2: a third field that is no numeral", "2: a fourth field", "2: operation line's form",
    "2: final byte 10 missing",
    "3: factors below 1", "3: factors above 8",
    "17: a year before 2014", "17: the year between", "17: a year after 2016",
    "4: codelist line beyond the 64th", "4: no operation line",
    "5: reference below 1", "5: reference not earlier",
    "6: exponent below 2", "6: exponent above 8",
    "7: constant beyond the limit", "15: multiplication by 0",
    "8: no box", "8: form", "8: number",
    "9: low end above high end", "9: low end beyond the limit", "9: high end beyond the limit",
    "11: inverse of a range with 0",
    *(f"12 by {step} alone" for step in STEPS + YEAR_STEPS),
    "line add", "line addc", "line mulc", "line mul", "line pow", "line inv",
    "an end at the limit itself", "a negative low end rounded",
    "inverse of a positive range", "inverse of a negative range",
    "power 0",
    "even power, low end not negative", "odd power, low end not negative",
    "even power, high end not positive", "odd power, high end not positive",
    "even power across 0", "odd power across 0",
    "lift to an equal set", "lift to a larger set",
    "join by hull", "join by sum, sets overlap", "join by sum, a set is empty",
    "Sq, one factor", "Sq, more factors",
    "Cross, one factor", "Cross, more factors, root above 0", "Cross, more factors, root 0",
    *SPECIAL_CASES, "special bend with 0", "special bend above 0", "special bend below 0",
    *(f"{step} {where}" for step in SPECIAL_STEPS for where in ("at 10^9 itself", "a unit past 10^9")),
    "one rounding differs in Sq", "one rounding differs in Cross",
    "accepted where rounding each square in Sq gives 12", "accepted where rounding each square in Cross gives 12",
    "special cases differ", "accepted where without special cases there is 12", "refused by A, B or C, and accepted without special cases",
    "printed: 1 factor", "printed: 8 factors", "printed: 64 codelist lines", "printed: empty bent set",
    "printed: full bend is not the bend",
    "exact: value inside its range", "exact: first derivatives inside the slopes",
    "exact: first derivative 0 outside the depends-on set", "exact: second derivatives 0 outside the bent set",
    "exact: v'Hv inside the bend", "exact: v'Hv inside the full bend",
    "exact: same premium elsewhere", "exact: same first derivatives elsewhere",
    *(f"exact: a sheet with {case}" for case in SPECIAL_CASES), "exact: v'Hv in the direction of an eigenvector", "exact: a sheet of 2014",
]

# 02, request 9. What 2016 would do is told by its sets, which a line of 2014 has not.
YEAR_RULES = [
    *years.rules_of("rate"),
    *(f"2014: line {name}" for name in ("add", "addc", "mulc", "mul", "pow", "inv")),
    "2014: Λs, n = 1", "2014: Λs, n > 1", "2014: Λt, n = 1", "2014: Λt, n > 1, root above 0", "2014: Λt, n > 1, root 0",
    *(f"2014: {rule}" for rule in (
        "accepted, a plain sum in `add` where 2016 would have a hull", "accepted, a plain sum in `mul` where 2016 would have a hull",
        "accepted, a product that is a special case in 2016", "refused with 12 at a plain sum where 2016 would have a hull",
        "refused with 12 at a product that is a special case in 2016", "accepted, a line on one factor of more bent",
        "accepted, the result not bent in 2016", "accepted, a factor that does not count")),
    *(f"both years: {rule}" for rule in (
        "accepted, and all else is the same", "another bend", "the same bend", "a wider full bend in 2014", "the same full bend",
        "another bent set", "the same bent set", "refused alike", "12 in 2014 only", "12 in 2016 only, by A, B or C",
        "12 in 2014 at an earlier line", "2016 named and not named print the same")),
]


class Comparison(Tally):
    rules = RULES + YEAR_RULES + ORDERS
    errors = ERRORS + SPECIAL_ERRORS + YEAR_ERRORS + LOADING_ERRORS + YEAR_LOADING_ERRORS + [AbsentEarlier]

    def __init__(self, binary):
        super().__init__()
        self.binary = binary
        self.passing = []
        self.cases = set()
        self.given_up = 0

    def note(self, rule):
        """A rule was met; the step that gave a refusal 12 is kept to see whether it alone did, and special cases to see what they change."""
        if rule.startswith("12 by ") and not rule.endswith(" alone"):
            self.passing = [rule.removeprefix("12 by ")]
            return
        if rule in SPECIAL_CASES:
            self.cases.add(rule)
        super().note(rule)

    def compare(self, name, text, expected=None, rng=None):
        """One input: the program's print against the reference's, and the reference's result against the exact side. What the reference comes to is
        handed back, and the print."""
        self.passing, self.cases = [], set()
        outcome = run(text, note=self.note)
        ours = printed(outcome.answer)
        got = print_of(self.binary, text)
        if expected is not None and ours != expected:
            complaint = f"--- figure\n{expected.decode()}--- reference\n{ours.decode()}"
        else:
            complaint = unlike(got, ours)
        if isinstance(outcome.answer, Result):
            self.note_result(outcome)
            if rng is not None and rng.random() < EXACT_SHARE:
                complaint += self.exact_complaint(outcome, rng)
        else:
            complaint += self.note_orders(text, outcome.answer)
        self.met.update(years.met("rate", parted(text)[0], outcome.answer))
        if comes_to_lines(outcome):
            self.try_errors(text, ours, outcome.sheet.year)
            complaint += self.rounding_complaint(text, outcome) + self.special_complaint(text, outcome)
            if outcome.sheet.year == EARLIER:
                self.note_earlier(outcome)
            if expected is not None or random.Random(text).random() < OTHER_YEAR_SHARE:
                complaint += self.other_year_complaint(text, outcome)
        loading = (LOADING_ERRORS if ZERO_FIELD.search(text) else []) + (year_errors_of(text) or [AbsentEarlier])
        self.catch_errors(ours, lambda wrong: printed(run(text, wrong.rules, loading=wrong).answer), loading)
        self.judge(name, text, complaint)
        return outcome, got

    def exact_complaint(self, outcome, rng):
        ranges = [Range(*outcome.ends[k:k + 2]) for k in range(0, len(outcome.ends), 2)]
        try:
            broken = broken_promises(rng, outcome.sheet, ranges, outcome.answer, self.note)
        except TooLarge:
            self.given_up += 1
            return ""
        for case in self.cases:
            self.note(f"exact: a sheet with {case}")
        if outcome.sheet.year == EARLIER:
            self.note("exact: a sheet of 2014")
        return "".join(f"--- does not hold of the reference's result: {what}\n" for what in broken)

    def note_orders(self, text, refusal):
        """Which other refusals the input would fit, but for the order; the first condition that holds must be the refusal's."""
        orders, agreed = orders_of(text, refusal)
        self.met.update(orders)
        return "" if agreed else "--- the first condition that holds is not the refusal's\n"

    def note_result(self, outcome):
        sheet, _, result = outcome
        if sheet.factors in (1, 8):
            self.note("printed: 1 factor" if sheet.factors == 1 else "printed: 8 factors")
        if sheet.factors + len(sheet.operations) == 64:
            self.note("printed: 64 codelist lines")
        if not result.bent:
            self.note("printed: empty bent set")
        if result.full != result.bend:
            self.note("printed: full bend is not the bend")

    def rounding_complaint(self, text, outcome):
        """02, request 2: whether rounding each square would give something else. Then it must be wider, or refused with 12."""
        if outcome.sheet.factors == 1:
            return ""
        complaint = ""
        for where, rules in (("Sq", SquaresRoundedEachInSq), ("Cross", SquaresRoundedEachInCross)):
            each = run(text, rules).answer
            if each == outcome.answer:
                continue
            self.note(f"one rounding differs in {where}")
            if isinstance(outcome.answer, Result) and isinstance(each, Refusal) and each.number == 12:
                self.note(f"accepted where rounding each square in {where} gives 12")
            elif not narrower(outcome.answer, each):
                complaint += f"--- not narrower than with each square rounded in {where}\n{printed(each).decode()}"
        return complaint

    def special_complaint(self, text, outcome):
        """02, request 4: whether the rule without special cases would give something else. Then it must be wider, or refused with 12, unless A, B or
        C passes 10^9."""
        without = run(text, CasesNotApplied).answer if self.cases else outcome.answer
        if without == outcome.answer:
            return ""
        self.note("special cases differ")
        if isinstance(outcome.answer, Result) and isinstance(without, Refusal) and without.number == 12:
            self.note("accepted where without special cases there is 12")
        elif set(self.passing) & set(SPECIAL_STEPS):
            if isinstance(without, Result):
                self.note("refused by A, B or C, and accepted without special cases")
        elif not narrower(outcome.answer, without):
            return f"--- not narrower than without special cases\n{printed(without).decode()}"
        return ""

    def note_earlier(self, outcome):
        """What 2016 would do otherwise in a sheet of 2014."""
        sheet, _, answer = outcome
        unlike_present = present_lines(sheet)
        if isinstance(answer, Refusal):
            if answer.number == 12 and HULLED in unlike_present[answer.place]:
                self.note("2014: refused with 12 at a plain sum where 2016 would have a hull")
            if answer.number == 12 and SPECIAL in unlike_present[answer.place]:
                self.note("2014: refused with 12 at a product that is a special case in 2016")
            return
        found = {(sheet.operations[line - sheet.factors - 1].name, sort) for line, sorts in unlike_present.items() for sort in sorts}
        depends, bent = sets_of_lines(sheet._replace(year=PRESENT))[-1]
        conditions = {
            "2014: accepted, a plain sum in `add` where 2016 would have a hull": ("add", HULLED) in found,
            "2014: accepted, a plain sum in `mul` where 2016 would have a hull": ("mul", HULLED) in found,
            "2014: accepted, a product that is a special case in 2016": ("mul", SPECIAL) in found,
            "2014: accepted, a line on one factor of more bent": len(depends) == 1 < sheet.factors and bent,
            "2014: accepted, the result not bent in 2016": not bent,
            "2014: accepted, a factor that does not count": len(depends) < sheet.factors,
        }
        self.met.update(rule for rule, holds in conditions.items() if holds)

    def other_year_complaint(self, text, outcome):
        """The same sheet in the other year: what the program prints of it, and that it is the same but for bends and bent sets where both are accepted.
        Of a sheet of 2016 that names no year the same is printed with it named."""
        sheet, _, answer = outcome
        other = EARLIER if sheet.year == PRESENT else PRESENT
        behind = b"box\n" + parted(text)[1]
        others = sheet_text_with((other,), sheet) + behind
        theirs = run(others).answer
        got = print_of(self.binary, others)
        complaint = unlike(got, printed(theirs))
        complaint = complaint and f"--- the same sheet in {other}\n{complaint}"
        self.note_both(*((answer, theirs) if sheet.year == EARLIER else (theirs, answer)))
        got = read(got)
        if isinstance(got, Result) and isinstance(answer, Result) and got[:3] != answer[:3]:
            complaint += f"--- another value, slope or depends-on set in {other}\n"
        if sheet.year == PRESENT and not years.THIRD_FIELD.match(text):
            self.note("both years: 2016 named and not named print the same")
            complaint += difference(self.binary, sheet_text_with((PRESENT,), sheet) + behind, printed(answer))
        return complaint

    def note_both(self, earlier, present):
        """What a sheet comes to in 2014 and in 2016."""
        refused = [isinstance(answer, Refusal) for answer in (earlier, present)]
        conditions = {
            "both years: refused alike": all(refused) and earlier == present,
            "both years: 12 in 2014 only": refused == [True, False],
            "both years: 12 in 2016 only, by A, B or C": refused == [False, True],
            "both years: 12 in 2014 at an earlier line": all(refused) and earlier.number == 12 and earlier.place < present.place,
        }
        if not any(refused):
            wider = earlier.full != present.full and earlier.full.low <= present.full.low and present.full.high <= earlier.full.high
            conditions |= {
                "both years: accepted, and all else is the same": earlier[:3] == present[:3],
                f"both years: {'the same' if earlier.bend == present.bend else 'another'} bend": True,
                "both years: a wider full bend in 2014": wider,
                "both years: the same full bend": earlier.full == present.full,
                f"both years: {'the same' if earlier.bent == present.bent else 'another'} bent set": True,
            }
        self.met.update(rule for rule, holds in conditions.items() if holds)

    def try_errors(self, text, ours, year):
        """Which wrong rules this input tells from the right ones."""
        for step in self.passing:
            if printed(run(text, uncounted(step)).answer) != ours:
                self.note(f"12 by {step} alone")
        errors = ERRORS + (SPECIAL_ERRORS if self.cases else []) + (YEAR_ERRORS if year == EARLIER else [])
        self.catch_errors(ours, lambda wrong: printed(run(text, wrong).answer), errors)

    def add(self, other):
        super().add(other)
        self.given_up += other.given_up

    def conclude(self):
        """Prints how often each rule was met."""
        self.show(RULES + YEAR_RULES)
        for kind in dict.fromkeys(order.split(":")[0] for order in ORDERS):
            counts = [self.met[order] for order in ORDERS if order.split(":")[0] == kind]
            print(f"{min(counts):9}  {kind}: the least often met of {len(counts)}")
        print(f"{self.given_up:9}  points given up: the fractions grew too long")


def comes_to_lines(outcome):
    """Whether the ranges were accepted, so that an operation decides the answer."""
    return isinstance(outcome.answer, Result) or outcome.answer.number in (11, 12)


def narrower(answer, wider):
    """Whether a result has the same value, slopes and sets as a wider one, and bends inside its bends; a refusal, whether it comes no earlier."""
    if isinstance(answer, Refusal) or isinstance(wider, Refusal):
        return isinstance(wider, Refusal) and wider.number == 12 and answer.place >= wider.place
    inside = all(theirs.low <= ours.low and ours.high <= theirs.high for ours, theirs in ((answer.bend, wider.bend), (answer.full, wider.full)))
    return inside and answer[:4] == wider[:4]


# The inputs come in two parts: fixed ones, which are there or quickly made together, and random ones, each from a generator of its own, made only
# where it is in the share. A share is a slice of either part; no input depends on it.

def inputs(seed, count, share):
    """Inputs of `rate`: a name, the bytes, the print where it is written down, and what random points are taken from."""
    for name, text, expected in [*fixed_inputs(seed)][share]:
        yield name, text, expected, None
    for number in range(count)[share]:
        rng = random.Random(f"{seed}/{number}")
        kind, text = case(rng)
        yield f"case {number} ({kind})", text, None, rng


def fixed_inputs(seed):
    for name, text, expected in FIGURES:
        yield f"figure '{name}'", text, expected
    for example in sorted(EXAMPLES.glob("*.in")):
        yield f"example '{example.stem}'", example.read_bytes(), example.with_suffix(".out").read_bytes()
    for number in range(ORDER_ROUNDS):
        for name, text in cases(random.Random(f"{seed}/order/{number}")):
            yield f"'{name}', {number}", text, None
        rng = random.Random(f"{seed}/year/{number}")
        for name, text in years.cases(rng, unnamed(rng)):
            yield f"'{name}', {number}", text, None


def unnamed(rng):
    """An accepted input of a sheet that names no year."""
    ranges = [Range(0, rng.randint(1, UNIT)) for _ in range(rng.randint(1, 4))]
    return input_text(cuts.turned(rng, ranges).sheet(), ranges)


def tidy_inputs(seed, count, share):
    """Further ones for `tidy`: a name, the bytes with a box, and the tidied sheet where it is written down."""
    yield from [*fixed_tidy_inputs()][share]
    for number in range(count)[share]:
        kind, text = dead_lines.case(random.Random(f"{seed}/dead/{number}"))
        yield f"case {number} ({kind})", text, None


def fixed_tidy_inputs():
    for name, text, expected in TIDIED:
        yield f"figure '{name}'", text, expected
    for example in sorted(EXAMPLES.glob("*.sheet")):
        sheet = example.read_bytes()
        box = box_text([Range(UNIT, 2 * UNIT)] * load(sheet).factors)
        yield f"example '{example.stem}'", sheet + box, example.with_suffix(".tidied").read_bytes()


def fleet_inputs(seed, count, share):
    """Inputs of `fleet`: a name, the bytes, and the print where it is written down."""
    yield from [*fixed_fleet_inputs(seed)][share]
    for number in range(count)[share]:
        kind, text = fleets.case(random.Random(f"{seed}/fleet/{number}"))
        yield f"case {number} ({kind})", text, None


def fixed_fleet_inputs(seed):
    for name, text, expected in REPORTED:
        yield f"figure '{name}'", text, expected
    for example in sorted(EXAMPLES.glob("*.fleet")):
        yield f"example '{example.stem}'", example.read_bytes(), example.with_suffix(".page").read_bytes()
    for number in range(FLEET_ROUNDS):
        for name, text in fleets.cases(random.Random(f"{seed}/list/{number}")):
            yield f"'{name}', {number}", text, None


def cut_inputs(seed, count, share):
    """Inputs of `cut`: a name, the bytes, and the print where it is written down."""
    yield from [*fixed_cut_inputs(seed)][share]
    for number in range(count)[share]:
        kind, text = cuts.case(random.Random(f"{seed}/cut/{number}"))
        yield f"case {number} ({kind})", text, None


def fixed_cut_inputs(seed):
    for name, text, expected in LIMITED:
        yield f"figure '{name}'", text, expected
    for example in sorted(EXAMPLES.glob("*.cut")):
        yield f"example '{example.stem}'", example.read_bytes(), example.with_suffix(".out").read_bytes()
    for number in range(CUT_ROUNDS):
        for name, text in cuts.cases(random.Random(f"{seed}/first/{number}")):
            yield f"'{name}', {number}", text, None


def sisters_inputs(seed, count, share):
    """Inputs of `sisters`: a name, the bytes, and the print where it is written down."""
    yield from [*fixed_sisters_inputs(seed)][share]
    for number in range(count)[share]:
        kind, text = pairs.case(random.Random(f"{seed}/sisters/{number}"))
        yield f"case {number} ({kind})", text, None


def fixed_sisters_inputs(seed):
    for name, text, expected in APART:
        yield f"figure '{name}'", text, expected
    for example in sorted((EXAMPLES / "sisters").glob("*.in")):
        yield f"example '{example.stem}'", example.read_bytes(), example.with_suffix(".out").read_bytes()
    for number in range(SISTERS_ROUNDS):
        for name, text in pairs.cases(random.Random(f"{seed}/boats/{number}")):
            yield f"'{name}', {number}", text, None


def formula_inputs(seed, count, share):
    """Inputs of `formula`: a name, the bytes, and the print where it is written down."""
    yield from [*fixed_formula_inputs(seed)][share]
    for number in range(count)[share]:
        kind, text = formulas.case(random.Random(f"{seed}/formula/{number}"))
        yield f"case {number} ({kind})", text, None


def fixed_formula_inputs(seed):
    for name, text, expected in CONVERTED:
        yield f"figure '{name}'", text, expected
    for example in sorted((EXAMPLES / "formulas").glob("*.in")):
        yield f"example '{example.stem}'", example.read_bytes(), example.with_suffix(".out").read_bytes()
    for number in range(FORMULA_ROUNDS):
        for name, text in formulas.cases(random.Random(f"{seed}/text/{number}")):
            yield f"'{name}', {number}", text, None


def law_inputs(seed, share):
    """Inputs for the laws alone: a program, a name, and the bytes."""
    for number in range(LAW_ROUNDS)[share]:
        for program, name, text in variants.refused(random.Random(f"{seed}/law/{number}")):
            yield program, f"'{name}', {number}", text


def law_examples():
    """The examples for the committee: a program, a name, an input, a variant of it, and what is printed of the variant."""
    committee = EXAMPLES / "committee"
    for program, given, variant in (
            ("rate", EXAMPLES / "motor-boat.in", "motor-boat.in"), ("rate", EXAMPLES / "dinghy.in", "dinghy.in"),
            ("cut", committee / "cut-at-0.cut", "cut-at-0.cut"), ("cut", committee / "cut-at-0.cut", "cut-below-0.cut")):
        other = committee / variant
        yield program, f"example 'committee/{other.stem}'", given.read_bytes(), other.read_bytes(), other.with_suffix(".out").read_bytes()


PRINTS = {
    "rate": lambda text: printed(run(text).answer),
    "tidy": tidy_printed,
    "fleet": lambda text: fleet_printed(Fleet().run(text)),
    "cut": cut_printed,
    "sisters": sisters_printed,
    "formula": formula_printed,
}


def self_test(path, program):
    passed = failed = 0
    with open(path) as vectors:
        for number, line in enumerate(vectors, 1):
            vector = json.loads(line)
            text = bytes.fromhex(vector["input"])
            ours = PRINTS.get(program or vector.get("kind"), PRINTS["rate"])(text)
            if ours == vector["expected"].encode():
                passed += 1
                continue
            failed += 1
            if failed <= DIFFERENCES_SHOWN:
                print(f"vector {number}: input\n{text.decode('latin-1')}\n--- expected\n{vector['expected']}--- reference\n{ours.decode()}")
    print(f"{passed} passed, {failed} failed")
    return failed == 0


def main():
    parser = argparse.ArgumentParser(description=__doc__, formatter_class=argparse.RawDescriptionHelpFormatter)
    parser.add_argument("--binary", help="the program `rate`")
    parser.add_argument("--tidy", help="the program `tidy`")
    parser.add_argument("--tidy-into", help="the program `tidy_into`, beside it")
    parser.add_argument("--fleet", help="the program `fleet`")
    parser.add_argument("--cut", help="the program `cut`")
    parser.add_argument("--sisters", help="the program `sisters`")
    parser.add_argument("--formula", help="the program `formula`")
    parser.add_argument("--rate-many", help="the program `rate_many`, beside `fleet`")
    parser.add_argument("--cut-many", help="the program `cut_many`, beside `cut`")
    parser.add_argument("--seed", type=int, default=1)
    parser.add_argument("--count", type=int, default=6000, help="random inputs, beside the figures")
    parser.add_argument("--dead-lines", type=int, default=1500, help="random inputs with dead lines, where `tidy` is compared")
    parser.add_argument("--fleets", type=int, default=600, help="random lists of boats, where `fleet` is compared")
    parser.add_argument("--cuts", type=int, default=2500, help="random classes that are cut, where `cut` is compared")
    parser.add_argument("--pairs", type=int, default=2500, help="random classes with two boats, where `sisters` is compared")
    parser.add_argument("--formulas", type=int, default=1500, help="random formulas, where `formula` is compared")
    parser.add_argument("--jobs", type=int, default=os.cpu_count() or 1, help="processes that the inputs are dealt out to")
    parser.add_argument("--self-test", metavar="VECTORS")
    parser.add_argument("--program", choices=PRINTS, help="whose vectors they are, if not their kind's")
    arguments = parser.parse_args()
    if arguments.self_test:
        sys.exit(not self_test(arguments.self_test, arguments.program))
    if not arguments.binary:
        parser.error("--binary or --self-test")
    programs = ("binary", "tidy", "tidy_into", "fleet", "rate_many", "cut", "cut_many", "sisters", "formula")
    for path in (getattr(arguments, program) for program in programs):
        if path and not Path(path).is_file():
            parser.error(f"no program {path}")
    if arguments.jobs < 1:
        parser.error("--jobs: at least 1")
    sys.exit(not concluded(all_compared(compared, arguments)))


def compared(arguments, share):
    """The comparisons, with a share of the inputs."""
    rating = Comparison(Path(arguments.binary).resolve())
    into = Path(arguments.tidy_into).resolve() if arguments.tidy_into else None
    tidying = TidyComparison(Path(arguments.tidy).resolve(), rating.binary, into) if arguments.tidy else None
    beside = {program: getattr(arguments, program) for program in ("tidy", "fleet", "cut", "sisters")}
    laws = LawsComparison({"rate": rating.binary, **{program: Path(path).resolve() for program, path in beside.items() if path}})
    for name, text, expected, rng in inputs(arguments.seed, arguments.count, share):
        outcome, got = rating.compare(name, text, expected, rng)
        laws.compare(name, text, outcome, got)
        if tidying:
            laws.compare_of("tidy", name, parted(text)[0], tidying.compare(name, text, outcome, rng=rng))
    if tidying:
        for name, text, expected in tidy_inputs(arguments.seed, arguments.dead_lines, share):
            outcome, got = rating.compare(name, text)
            laws.compare(name, text, outcome, got)
            laws.compare_of("tidy", name, parted(text)[0], tidying.compare(name, text, outcome, expected))
    for program, *made in law_inputs(arguments.seed, share):
        if program in laws.programs:
            laws.compare_made(program, *made)
    for program, *example in [*law_examples()][share]:
        if program in laws.programs:
            laws.compare_example(program, *example)
    numbers = Path(arguments.rate_many).resolve() if arguments.rate_many else None
    paging = FleetComparison(Path(arguments.fleet).resolve(), numbers) if arguments.fleet else None
    if paging:
        for name, text, expected in fleet_inputs(arguments.seed, arguments.fleets, share):
            laws.compare_of("fleet", name, text, paging.compare(name, text, expected))
    many = Path(arguments.cut_many).resolve() if arguments.cut_many else None
    cutting = CutComparison(Path(arguments.cut).resolve(), many) if arguments.cut else None
    if cutting:
        for name, text, expected in cut_inputs(arguments.seed, arguments.cuts, share):
            laws.compare_of("cut", name, text, cutting.compare(name, text, expected))
    sisters = SistersComparison(Path(arguments.sisters).resolve()) if arguments.sisters else None
    if sisters:
        for name, text, expected in sisters_inputs(arguments.seed, arguments.pairs, share):
            laws.compare_of("sisters", name, text, sisters.compare(name, text, expected))
    converting = FormulaComparison(Path(arguments.formula).resolve()) if arguments.formula else None
    if converting:
        for name, text, expected in formula_inputs(arguments.seed, arguments.formulas, share):
            converting.compare(name, text, expected)
    return [comparison for comparison in (rating, tidying, paging, cutting, sisters, converting, laws) if comparison]


def concluded(comparisons):
    """Prints what was met, what was not, and the count; whether all is well."""
    missed = missed_by(comparisons)
    passed, failed = (sum(counts) for counts in zip(*((comparison.passed, comparison.failed) for comparison in comparisons)))
    print(f"{passed} passed, {failed} failed")
    return not missed and failed == 0


if __name__ == "__main__":
    main()
