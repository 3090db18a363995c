"""02, request 11, "Laws for the committee", of what the programs print.

"Swapping the two references of any `add` or `mul` changes no field of any result, and no number or place of a refusal": `rate`, `fleet`, `cut` and
`sisters` print the same bytes for an input with references exchanged (variants.py), accepted or refused, whatever its other lines are, and so does
`tidy`, but that references are exchanged in its text, too. "In plain rating, uncut, ranges inside accepted ranges, no low end above its high end, are
accepted too, and each end they give lies inside the wider one": `rate` prints limits inside those that it printed, with the same sets. That "a deeper
cut of the same ranges never widens a limit" is asked where all else of `cut` is (cutting.py). "Both hold for either year."

A law is asked of two prints of one program: no rule of the papers is rendered here. What an input is counted as comes from its bytes.
"""
import random

from cutting import inside_complaint, read
from errors import EXCHANGE_ERRORS, EXCHANGE_LOADING_ERRORS, EXCHANGE_TIDY_ERRORS, NARROWING_ERRORS
from generate import box_text
from reference.outcome import Refusal
from reference.ranges import Range
from reference.rating import Result
from reference.sheet import EARLIER, PRESENT, REFERENCES
from reference.text import parted, printed, run
from reference.tidy import last_line, operation_at, tidy_printed
from sets import SPECIAL, present_lines, sets_of_lines
from tally import Tally, print_of, unlike
from variants import exchangeable, exchanged, narrowed, same_but_exchanged, some_pairs, text_line

# of the inputs that have references to exchange; those of `rate` that come to no line are all taken, since few of them have
EXCHANGED_SHARES = {"rate": 0.35, "tidy": 0.15, "fleet": 1, "cut": 0.3, "sisters": 0.2}
NARROWED_SHARE = 0.4  # of the accepted inputs of `rate`

YEARS = (PRESENT, EARLIER)
IN_SPECIAL = "exchanged: in a special case of a product"

EXCHANGE_RULES = [
    "exchanged: one line of more", "exchanged: some lines", "exchanged: all lines of more",
    *(f"exchanged: in `{name}`, {year}" for name in ("add", "mul") for year in YEARS),
    *(f"{IN_SPECIAL}, {rule}" for rule in ("one line bent", "both lines bent", "refused with 12")),
    "exchanged: accepted", *(f"exchanged: refused with {number}" for number in (*range(1, 10), 11, 12, 15, 17)),
    "exchanged: 2 at the first line", "exchanged: 2 at another line", "exchanged: 5 at another line",
    *(f"exchanged: {number} at an exchanged line" for number in (4, 5, 12)),
]

PROGRAM_RULES = {
    "tidy": ["exchanged: `tidy`, and so is its text", "exchanged: `tidy`, in lines that are dropped", "exchanged: `tidy`, refused"],
    "fleet": ["exchanged: `fleet`, accepted", "exchanged: `fleet`, refused", "exchanged: `fleet`, refused with 14"],
    "cut": ["exchanged: `cut`, accepted", "exchanged: `cut`, refused", "exchanged: `cut`, refused with 16"],
    "sisters": ["exchanged: `sisters`, accepted", "exchanged: `sisters`, refused"],
}

NARROWER_RULES = [
    "narrower: one end moved in", "narrower: all ends moved in", "narrower: to a point", "narrower: some ends of more than one factor",
    "narrower: a range across 0 to one side", *(f"narrower: {year}" for year in YEARS), "narrower: the same limits",
    *(f"narrower: an end of {field}" for field in ("the value", "a slope", "the bend", "the full bend")),
    *(f"narrower: an end of the bend, {sort}" for sort in (*YEARS, "with a special case of a product")),
    *(f"narrower: an end, by `{name}` at the end" for name in REFERENCES),
]


class LawsComparison(Tally):
    """Of the programs whose paths are given, by name; `rate` is one of them."""

    def __init__(self, programs):
        super().__init__()
        self.programs = programs
        self.rules = EXCHANGE_RULES + [rule for program in programs for rule in PROGRAM_RULES.get(program, [])] + NARROWER_RULES
        self.errors = EXCHANGE_ERRORS + EXCHANGE_LOADING_ERRORS + (EXCHANGE_TIDY_ERRORS if "tidy" in programs else []) + NARROWING_ERRORS

    def compare(self, name, text, outcome, got):
        """An input of `rate`, what the reference gives of it, and what the program printed: a share of them by either law."""
        rng = random.Random(b"laws of rate\n" + text)
        accepted = isinstance(outcome.answer, Result)
        comes_to_lines = accepted or outcome.answer.number in (11, 12)
        if not comes_to_lines or rng.random() < EXCHANGED_SHARES["rate"]:
            self.exchange_rated(rng, name, text, outcome, got)
        if accepted and rng.random() < NARROWED_SHARE:
            self.narrow(rng, name, text, outcome, got)

    def compare_of(self, program, name, text, got):
        """An input of another program, and what it printed: a share of them by the law of references."""
        rng = random.Random(b"laws of %s\n" % program.encode() + text)
        if rng.random() < EXCHANGED_SHARES[program]:
            self.exchange_of(rng, program, name, text, got)

    def compare_made(self, program, name, text):
        """An input that was made for the laws; of `rate` with every printed byte."""
        rng = random.Random(text)
        got = print_of(self.programs[program], text)
        if program == "rate":
            outcome = run(text)
            self.judge(name, text, unlike(got, printed(outcome.answer)))
            self.exchange_rated(rng, name, text, outcome, got)
        else:
            self.exchange_of(rng, program, name, text, got)

    def compare_example(self, program, name, text, other, expected):
        """An example for the committee: an input, a variant of it, and what is written down of the variant. `cut` has one of what is not claimed: a
        class inside a class, cut as deep, with limits that are not inside."""
        got, others = (print_of(self.programs[program], given) for given in (text, other))
        complaint = unlike(others, expected)
        if same_but_exchanged(text, other):
            complaint += unlike(others, got or b"")
        elif not isinstance(read(got), Result):
            complaint += "--- no limits of the wider ranges\n"
        else:
            outside = inside_complaint(read(others), read(got), "the wider ranges'")
            complaint += outside if program == "rate" else "" if outside else "--- inside the wider ranges', which is not claimed\n"
        self.judge(name, other, complaint)

    # ---- references

    def exchange(self, program, name, other, got):
        """An input with references exchanged, beside what was printed before; what is printed now is handed back."""
        others = print_of(self.programs[program], other)
        tidied_alike = program == "tidy" and None not in (got, others) and same_but_exchanged(got, others)
        self.judge(f"{name}, exchanged, `{program}`", other, "" if tidied_alike else unlike(others, got or b""))
        return others

    def exchange_rated(self, rng, name, text, outcome, got):
        pairs = exchangeable(text)
        if not pairs:
            return
        chosen = some_pairs(rng, pairs)
        other = exchanged(text, chosen)
        self.exchange("rate", name, other, got)
        self.note_exchanged(text, outcome, pairs, chosen)
        self.catch_errors(True, lambda wrong: run(text, wrong).answer == run(other, wrong).answer, EXCHANGE_ERRORS)
        self.catch_errors(True, lambda wrong: run(text, loading=wrong).answer == run(other, loading=wrong).answer, EXCHANGE_LOADING_ERRORS)

    def exchange_of(self, rng, program, name, text, got):
        pairs = exchangeable(text)
        if not pairs:
            return
        other = exchanged(text, some_pairs(rng, pairs))
        others = self.exchange(program, name, other, got)
        self.note_program(program, got or b"", others)
        if program == "tidy":
            self.catch_errors(True, lambda wrong: same_but_exchanged(*(tidy_printed(given, wrong) for given in (text, other))), EXCHANGE_TIDY_ERRORS)

    def note_exchanged(self, text, outcome, pairs, chosen):
        """Which lines of an input were exchanged, and what it is accepted or refused for."""
        sheet, _, answer = outcome
        number, place = answer if isinstance(answer, Refusal) else (None, None)
        lines = [text_line(text, pair) for pair in chosen]
        conditions = {
            "exchanged: one line of more": len(chosen) == 1 < len(pairs),
            "exchanged: some lines": 1 < len(chosen) < len(pairs),
            "exchanged: all lines of more": 1 < len(chosen) == len(pairs),
            "exchanged: accepted": number is None,
            f"exchanged: refused with {number}": number,
            f"exchanged: {number} at an exchanged line": number in (4, 5) and place in lines,
            f"exchanged: {number} at {'the first' if place == 1 else 'another'} line": number == 2 or number == 5 and place not in lines,
        }
        self.met.update(rule for rule, holds in conditions.items() if holds)
        if number in (None, 11, 12):
            self.note_lines(sheet, answer, [sheet.factors + line - 1 for line in lines])

    def note_lines(self, sheet, answer, lines):
        """Of an input that comes to its lines, those that were exchanged, up to the one that is refused."""
        refused = answer.place if isinstance(answer, Refusal) else None
        sets, sorts = sets_of_lines(sheet), present_lines(sheet)
        found = set()
        for line in lines:
            if refused and line > refused:
                continue
            name, numbers = operation_at(sheet, line)
            found.add(f"exchanged: in `{name}`, {sheet.year}")
            if line == refused:
                found.add("exchanged: 12 at an exchanged line")
            if sheet.year == PRESENT and SPECIAL in sorts[line]:
                found.add(f"{IN_SPECIAL}, {'both lines' if all(sets[i - 1][1] for i in numbers) else 'one line'} bent")
                if line == refused:
                    found.add(f"{IN_SPECIAL}, refused with 12")
        self.met.update(found)

    def note_program(self, program, got, others):
        """What another program printed."""
        if got.startswith(b"refused\t"):
            number = got.split(b"\t")[1].decode()
            self.met.update({f"exchanged: `{program}`, refused", f"exchanged: `{program}`, refused with {number}"} & {*PROGRAM_RULES[program]})
        elif program == "tidy":
            self.note("exchanged: `tidy`, in lines that are dropped" if others == got else "exchanged: `tidy`, and so is its text")
        else:
            self.note(f"exchanged: `{program}`, accepted")

    # ---- ranges

    def narrow(self, rng, name, text, outcome, got):
        """Accepted ranges, and others inside them."""
        ranges = [Range(*outcome.ends[k:k + 2]) for k in range(0, len(outcome.ends), 2)]
        narrower = narrowed(rng, ranges)
        wider = read(got)
        if narrower is None or not isinstance(wider, Result):  # that it is no result was said already
            return
        other = parted(text)[0] + box_text(narrower)
        others = print_of(self.programs["rate"], other)
        answer = read(others)
        complaint = "--- neither result nor refusal\n" if answer is None else inside_complaint(answer, wider, "the wider ranges'")
        shown = f"--- of the wider ranges\n{got.decode()}--- got\n{(others or b'').decode('latin-1')}"
        self.judge(f"{name}, narrower", other, complaint and complaint + shown)
        if isinstance(answer, Result):
            self.note_narrower(outcome.sheet, ranges, narrower, wider, answer)

        def inside(wrong):
            """Whether the law holds of other rules, which may refuse the wider ranges."""
            wide = run(text, wrong).answer
            return isinstance(wide, Refusal) or not inside_complaint(run(other, wrong).answer, wide, "")
        self.catch_errors(True, inside, NARROWING_ERRORS)

    def note_narrower(self, sheet, ranges, narrower, wider, answer):
        """Which ends were moved in, and which limits with them."""
        both = [*zip(ranges, narrower)]
        moved = [end != other for r, s in both for end, other in zip(r, s)]
        special = sheet.year == PRESENT and any(SPECIAL in sorts for sorts in present_lines(sheet).values())
        changed = {
            "the value": answer.value != wider.value, "a slope": answer.slopes != wider.slopes, "the bend": answer.bend != wider.bend,
            "the full bend": answer.full != wider.full,
        }
        conditions = {
            "narrower: one end moved in": sum(moved) == 1,
            "narrower: all ends moved in": all(moved),
            "narrower: to a point": all(s.low == s.high for s in narrower),
            "narrower: some ends of more than one factor": sum(r != s for r, s in both) > 1 and not all(moved),
            "narrower: a range across 0 to one side": any(r.low < 0 < r.high and not s.low < 0 < s.high for r, s in both),
            f"narrower: {sheet.year}": True,
            "narrower: the same limits": not any(changed.values()),
            **{f"narrower: an end of {field}": holds for field, holds in changed.items()},
            f"narrower: an end of the bend, {sheet.year}": changed["the bend"],
            "narrower: an end of the bend, with a special case of a product": changed["the bend"] and special,
            f"narrower: an end, by `{operation_at(sheet, last_line(sheet)).name}` at the end": any(changed.values()),
        }
        self.met.update(rule for rule, holds in conditions.items() if holds)

    def conclude(self):
        self.show(self.rules)
