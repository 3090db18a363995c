"""Compares the program `tidy` with 02, request 1 (tests/reference/tidy.py): every printed byte, the same for its own print, and what `rate`
prints of the tidied sheet beside what it prints of the sheet that came. The program `tidy_into` shows the call with a buffer of any length, every
byte of which is compared.
"""
import random

import years
from errors import LOADING_ERRORS, TIDY_ERRORS, YEAR_LOADING_ERRORS, YEAR_TIDY_ERRORS, ZERO_FIELD, year_errors_of
from reference.outcome import Refusal, Refused
from reference.rating import Result
from reference.sheet import EARLIER, REFERENCES, load, sheet_text, sheet_text_with
from reference.text import parted, printed, run
from reference.tidy import Tidying, last_line, operation_at, tidy, tidy_printed
from tally import Tally, difference, print_of, unlike

RIGHT = Tidying()
UNNAMED_SHARE = 0.3  # of the sheets that name 2016, tidied without it, too
BUFFER_SHARE = 0.2  # of the random sheets, tidied into a buffer of a length of its own

LOADING = (*range(1, 8), 15, 17)  # the refusals that loading gives, and tidying passes on

BUFFER_RULES = [
    *(f"tidy into: refused by loading, {number}, the buffer as it was" for number in LOADING),
    "tidy into: an empty buffer", "tidy into: one byte too short", "tidy into: shorter still", "tidy into: just long enough",
    "tidy into: bytes past the text kept",
]

# The last five are met only where a line was dropped, since only then the tidied sheet is rated.
TIDY_RULES = [
    *(f"tidy: refused by loading, {number}" for number in LOADING),
    "tidy: nothing dropped", "tidy: a line dropped", *(f"tidy: `{name}` dropped" for name in REFERENCES),
    "tidy: a dropped line used by another dropped line", "tidy: a dropped line equal to a kept one",
    "tidy: an unused factor kept", "tidy: a factor kept that only dropped lines use", "tidy: a line used only through others kept",
    "tidy: a reference renumbered", *(f"tidy: `{name}` with a reference renumbered" for name in REFERENCES),
    "tidy: 64 codelist lines",
    "tidy: accepted as before", "tidy: refused by 8 as before", "tidy: refused by 9 as before",
    "tidy: refused at a used line, at its new number", "tidy: accepted only because a dropped line was refused",
]

# The last one is met where the sheet without the field is tidied, too.
YEAR_RULES = years.rules_of("tidy") + [
    *(f"tidy: {rule}" for rule in (
        "2014 named as it came, a line dropped", "2014 named as it came, nothing dropped", "2016 no longer named, a line dropped",
        "2016 no longer named, and nothing else dropped", "accepted as before in 2014", "refused at a used line in 2014, at its new number",
        "the same with 2016 named and not named")),
]


class TidyComparison(Tally):
    errors = TIDY_ERRORS + YEAR_TIDY_ERRORS + LOADING_ERRORS + YEAR_LOADING_ERRORS

    def __init__(self, tidy, rate, into=None):
        super().__init__()
        self.tidy = tidy
        self.rate = rate
        self.into = into
        self.rules = TIDY_RULES + YEAR_RULES + (BUFFER_RULES if into else [])

    def compare(self, name, text, outcome, expected=None, rng=None):
        """The sheet of one input of `rate`, and the outcome that the reference gives of the whole input; what the program prints is handed back."""
        given, box = parted(text)
        ours = tidy_printed(given)
        got = print_of(self.tidy, given)
        if expected is not None and ours != expected:
            complaint = f"--- figure\n{expected.decode()}--- reference\n{ours.decode()}"
        else:
            complaint = unlike(got, ours)
        try:
            sheet = load(given)
        except Refused as refused:
            self.note(f"tidy: refused by loading, {refused.args[0].number}")
            self.met.update(years.met("tidy", given, refused.args[0]))
        else:
            self.note_sheet(sheet)
            self.met.update(years.met("tidy", given, None))
            complaint += self.year_complaint(given, sheet, ours)
            self.catch_errors(ours, lambda wrong: sheet_text(wrong().tidied(sheet)), TIDY_ERRORS)
            self.catch_errors(ours, lambda wrong: tidy_printed(given, wrong), YEAR_TIDY_ERRORS)
            if ours != given:  # where the two sheets are one, nothing is left to compare
                complaint += difference(self.tidy, ours, ours)
                complaint += self.rating_complaint(sheet, outcome, ours if box is None else ours + b"box\n" + box)
        loading = (LOADING_ERRORS if ZERO_FIELD.search(given) else []) + year_errors_of(given)
        self.catch_errors(ours, lambda wrong: tidy_printed(given, loading=wrong), loading)
        if self.into and (rng is None or rng.random() < BUFFER_SHARE):
            complaint += self.buffer_complaint(given, ours)
        self.judge(name + ", tidied", given, complaint)
        return got

    def year_complaint(self, given, sheet, ours):
        """02, request 9: "A tidied sheet names the year only for 2014"; and with 2016 named a sheet is tidied as it is without."""
        dropped = "a line dropped" if ours.count(b"\n") < given.count(b"\n") else None
        if sheet.year == EARLIER:
            self.note(f"tidy: 2014 named as it came, {dropped or 'nothing dropped'}")
            return "" if ours.startswith(b"factors\t%d\t2014\n" % sheet.factors) else "--- 2014 not named\n"
        complaint = "" if ours.startswith(b"factors\t%d\n" % sheet.factors) else "--- 2016 named\n"
        if years.THIRD_FIELD.match(given):
            self.note(f"tidy: 2016 no longer named, {dropped or 'and nothing else dropped'}")
            if random.Random(given).random() < UNNAMED_SHARE:
                self.note("tidy: the same with 2016 named and not named")
                complaint += difference(self.tidy, sheet_text_with((), sheet), ours)
        return complaint

    def buffer_complaint(self, given, ours):
        """The call with a buffer of its own length and bytes, none of them 0, since an argument of a program has none."""
        rng = random.Random(given)
        length = rng.choice((len(ours) - 1, len(ours), len(ours) + rng.randint(1, 40), rng.randint(0, len(ours)), 0))
        before = bytes(rng.randint(1, 255) for _ in range(length))
        answer, after = tidy(given, before)
        self.note_buffer(answer, length, len(ours))
        said = printed(answer) if isinstance(answer, Refusal) else f"written\t{answer}\n".encode()
        return difference(self.into, given, said + after, before)

    def note_buffer(self, answer, length, needed):
        if not length:
            self.note("tidy into: an empty buffer")
        if not isinstance(answer, Refusal):
            self.note("tidy into: just long enough" if length == needed else "tidy into: bytes past the text kept")
        elif answer.number == 13:
            self.note("tidy into: one byte too short" if length == needed - 1 else "tidy into: shorter still")
        else:
            self.note(f"tidy into: refused by loading, {answer.number}, the buffer as it was")

    def rating_complaint(self, sheet, outcome, tidied_text):
        """`rate` of the tidied sheet with the same ranges: by what the request says of it, and by the reference's rating of it."""
        if outcome.sheet is None:  # more bytes than `rate` takes, most of them behind the sheet
            return ""
        ours = run(tidied_text).answer
        expected = self.expected(sheet, outcome.answer, ours)
        complaint = "" if ours == expected else f"--- expected by the request\n{printed(expected).decode()}--- reference\n{printed(ours).decode()}"
        return complaint + difference(self.rate, tidied_text, printed(expected))

    def expected(self, sheet, before, ours):
        """"Wherever the original sheet is accepted with some ranges, the tidied one gives the same result; where a dropped line was the one
        refused, it may be accepted"; 8 and 9 ask only for the factors, all of which are kept."""
        if isinstance(before, Result):
            self.note("tidy: accepted as before")
            if sheet.year == EARLIER:
                self.note("tidy: accepted as before in 2014")
            return before
        number, place = before
        if number in (8, 9):
            self.note(f"tidy: refused by {number} as before")
            return before
        kept = RIGHT.kept(sheet)
        if place in kept:
            new = RIGHT.new_number(place, kept)
            if new != place:
                self.note("tidy: refused at a used line, at its new number")
                if sheet.year == EARLIER:
                    self.note("tidy: refused at a used line in 2014, at its new number")
            return Refusal(number, new)
        if isinstance(ours, Result):
            self.note("tidy: accepted only because a dropped line was refused")
        return ours

    def note_sheet(self, sheet):
        """What there is to tidy in a sheet."""
        last, kept, used = last_line(sheet), RIGHT.kept(sheet), RIGHT.used(sheet)
        operations = range(sheet.factors + 1, last + 1)
        dropped = [line for line in operations if line not in kept]
        direct = {last, *RIGHT.references(sheet, last)}
        named_by_dropped = {i for line in dropped for i in RIGHT.references(sheet, line)}
        kept_operations = [operation_at(sheet, line) for line in operations if line in used]
        moved = [operation for operation in kept_operations if RIGHT.renumbered(operation, kept) != operation]
        self.note("tidy: a line dropped" if dropped else "tidy: nothing dropped")
        self.met.update({f"tidy: `{operation_at(sheet, line).name}` dropped" for line in dropped})
        self.met.update({f"tidy: `{operation.name}` with a reference renumbered" for operation in moved})
        conditions = {
            "tidy: a dropped line used by another dropped line": named_by_dropped & set(dropped),
            "tidy: a dropped line equal to a kept one": {operation_at(sheet, line) for line in dropped} & set(kept_operations),
            "tidy: an unused factor kept": set(kept) - used,
            "tidy: a factor kept that only dropped lines use": named_by_dropped & (set(kept) - used),
            "tidy: a line used only through others kept": used - direct - set(range(1, sheet.factors + 1)),
            "tidy: a reference renumbered": moved,
            "tidy: 64 codelist lines": last == 64,
        }
        self.met.update(rule for rule, holds in conditions.items() if holds)

    def conclude(self):
        self.show(self.rules)
