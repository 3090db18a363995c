"""Sequences of calls on one desk (02, request 13): loads and ratings of its four classes, accepted, refused and damaged, each on the bytes that the call
before it left.

Every call is compared with the reference, every byte of the desk among them. What a class gives behind a step that is none of its own is compared, besides,
with what the library itself gave for it before: "leaves the other three and every result for them as they were".
"""
import random
from functools import lru_cache
from typing import NamedTuple

import generate
from calling import RIGHT
from calls import double, ends_of, long_sheet, record_of, rubbish, small_ranges
from class_counts import NUMBERS
from desks import DESK_LENGTHS, ENCODED, changed, desk_with, known_number, neighbours, of_length, unknown_number
from reference.classes import CLASSES, DESK, SLOT, Load, Rate
from reference.outcome import Refused
from reference.quoting import RESULT
from reference.sheet import EARLIER, MOST_FACTORS, PRESENT, load
from reference.text import parted
from years import named

STEPS = 14  # of a sequence
KINDS = (generate.grown, generate.sums, generate.blind, generate.special, generate.long, generate.misplaced, generate.damaged)
STOCKED, REFUSED = 60, 30  # sheets that sequences draw from: few, so that most ratings are remembered
PARTS = 8  # of the bytes of a class that is damaged in each of them
DAMAGED_SHEETS = ((2, 7, EARLIER), (1, 63, PRESENT), (5, 12, EARLIER), (8, 20, PRESENT))  # factors, operations and year, a class each


class Stocked(NamedTuple):
    """A sheet that loads, and ends of ranges for it that are accepted."""
    text: bytes
    ends: list


def plain(rng, ends):
    """A record of ranges with nothing damaged in it."""
    return b"".join([double(float(end)) for end in ends] + [rubbish(rng) for _ in range(2 * MOST_FACTORS - len(ends))])


@lru_cache(maxsize=1)
def stock(seed):
    """Sheets with limits, and texts that are refused."""
    rng, good, refused = random.Random(f"{seed}/stock"), [], []
    while len(good) < STOCKED or len(refused) < REFUSED:
        text, box = parted(named(rng, rng.choice(KINDS)(rng)))
        try:
            sheet = load(text)
            ends = ends_of(rng, sheet.factors, box)
            RIGHT.one.rating(sheet, ends)
        except Refused:
            if RIGHT.load(1, bytes(DESK), text)[0]:
                refused.append(text)
        else:
            good.append(Stocked(text, ends))
    return good[:STOCKED], refused[:REFUSED]


# ---- sequences

class Sequence:
    """A desk, the bytes that each class has by its last accepted load or by what the caller wrote since, the ranges that it is rated with, and what it
    gave when it was rated last."""

    def __init__(self, comparison, seed, number):
        self.comparison, self.rng, self.name, self.calls = comparison, random.Random(f"{seed}/sequence/{number}"), f"sequence {number}", 0
        self.good, self.refused = stock(seed)
        if self.rng.random() < 0.25:
            self.slots = dict(zip(NUMBERS, neighbours(self.rng)))
            self.records = {k: small_ranges(self.rng, MOST_FACTORS) for k in NUMBERS}
        else:
            stocked = dict(zip(NUMBERS, self.rng.sample(self.good, CLASSES)))
            self.slots = {k: ENCODED(load(each.text)) for k, each in stocked.items()}
            self.records = {k: plain(self.rng, each.ends) for k, each in stocked.items()}
        self.desk = b"".join(self.slots.values())
        self.damaged = set()
        self.answers = self.quoted()

    def compared(self, call):
        self.calls += 1
        return self.comparison.compare(f"{self.name}/{self.calls}", call)

    def quoted(self):
        """The code and the result of each class."""
        answers = {}
        for k in NUMBERS:
            code, left = self.compared(Rate(k, self.desk, self.records[k], self.rng.randbytes(RESULT)))
            answers[k] = code, left.result
        return answers

    def step(self):
        """One of the steps, and all four classes rated behind it. A step gives the classes that have to give what they gave, and what it is counted as."""
        steps = {
            self.loaded: 10, self.not_loaded: 4, self.changed: 4, self.emptied: 2, self.copied: 2, self.unknown: 1, self.other_length: 1,
            self.either_order: 2,
        }
        before = self.answers
        kept, rules = self.rng.choices([*steps], [*steps.values()])[0](known_number(self.rng))
        self.answers = self.quoted()
        if self.desk != b"".join(self.slots.values()):
            self.complain("a class has other bytes than its last accepted load has left")
        for k in kept:
            if self.answers[k] != before[k]:
                what = f"class {k} gave {before[k][0]} {before[k][1].hex()}\nand now {self.answers[k][0]} {self.answers[k][1].hex()}"
                self.complain(f"{'; '.join(rules)}: {what}")
        if not any(before[k][0] for k in kept):
            self.comparison.met.update(f"sequence: {rule}" for rule in rules)

    def complain(self, what):
        self.comparison.judge(f"{self.name}/{self.calls}", b"", f"--- {what}\n")

    def some_class(self):
        """A sheet and a record for it, mostly a good one."""
        text, ends = self.rng.choice(self.good)
        return text, plain(self.rng, ends) if self.rng.random() < 0.85 else record_of(self.rng, ends)

    def load(self, number, text):
        code, left = self.compared(Load(number, self.desk, text))
        self.desk = left.desk
        if code == 0 and number in self.slots:
            self.slots[number] = ENCODED(load(text))

    # ---- steps

    def loaded(self, number):
        if self.damaged and self.rng.random() < 0.6:
            number = self.rng.choice(sorted(self.damaged))
        text, record = self.some_class()
        self.load(number, text)
        self.records[number] = record
        rules = [f"class {number} loaded, and three others have the limits they had"]
        if number in self.damaged:
            self.damaged.remove(number)
            rules.append(f"class {number} damaged, and loaded anew")
        return others(number), rules

    def not_loaded(self, number):
        self.load(number, self.rng.choice(self.refused))
        return NUMBERS, [f"class {number} refused, and all four have the limits they had"]

    def changed(self, number):
        """Bytes changed by the caller: mostly so that the class is empty, now and then so that it is another sheet."""
        was_loaded = RIGHT.sheet(self.desk, number) is not None
        self.put(number, self.rng.randbytes(SLOT) if self.rng.random() < 0.1 else changed(self.rng, self.slots[number]))
        if RIGHT.sheet(self.desk, number) is not None:
            return others(number), []
        self.damaged.add(number)
        return others(number), [f"class {number} damaged, and three others have the limits they had"] if was_loaded else []

    def emptied(self, number):
        self.put(number, bytes(SLOT))
        return others(number), [f"class {number} emptied, and three others have the limits they had"]

    def copied(self, number):
        """The bytes of a class mean the same for another one."""
        to = self.rng.choice(others(number))
        self.put(to, self.slots[number])
        self.records[to] = self.records[number]
        code, left = self.compared(Rate(to, self.desk, self.records[to], self.rng.randbytes(RESULT)))
        if (code, left.result) != self.answers[number]:
            self.complain(f"class {to} has the bytes of class {number}, and gives something else")
        return others(to), [f"class {number} copied to another, and its limits with it"]

    def unknown(self, _):
        self.load(unknown_number(self.rng), self.rng.choice(self.good).text)
        return NUMBERS, ["an unknown class loaded, and all four have the limits they had"]

    def other_length(self, number):
        """A part of the desk, or more than the desk, lent in its place."""
        lent = of_length(self.rng, self.desk, DESK_LENGTHS)
        _, left = self.compared(Load(number, lent, self.rng.choice(self.good).text))
        self.desk = (left.desk + self.desk[len(lent):])[:DESK]
        return NUMBERS, ["a desk of another length loaded, and all four have the limits they had"]

    def either_order(self, number):
        """Two classes loaded, and the same two on the desk as it was, the second one first."""
        desk, second = self.desk, self.rng.choice(others(number))
        loads = [(k, *self.some_class()) for k in (number, second)]
        left = []
        for order in (loads[::-1], loads):
            self.desk = desk
            for k, text, record in order:
                self.load(k, text)
                self.records[k] = record
                self.damaged.discard(k)
            left.append(self.desk)
        if left[0] != left[1]:
            self.complain(f"classes {number} and {second}: another desk by the order of their loads")
        return [k for k in others(number) if k != second], ["two classes loaded in either order"]

    def put(self, number, slot):
        """Bytes of a class as the caller writes them."""
        self.desk, self.slots[number] = RIGHT.with_slot(self.desk, number, slot), slot
        self.damaged.discard(number)


def others(number):
    return [k for k in NUMBERS if k != number]


# ---- a class damaged in each of its bytes

def quote_on(comparison, seed, number, part):
    """Each byte of a class changed, in one of so many parts, while the other three classes give what they gave."""
    rng = random.Random(f"{seed}/quote on/{number}/{part}")
    slots, records = [], {}
    for k, each in zip(NUMBERS, rng.sample(stock(seed)[0], CLASSES)):
        slots.append(ENCODED(load(each.text)))
        records[k] = plain(rng, each.ends)
    factors, count, year = DAMAGED_SHEETS[number - 1]
    good, records[number] = ENCODED(long_sheet(rng, factors, count, year)), small_ranges(rng, factors)

    def given(k, slot, what, made_of=None):
        call = Rate(k, desk_with(slots, number, slot), records[k], rng.randbytes(RESULT))
        code, left = comparison.compare(f"class {number}, {what}: class {k}", call, made_of)
        return code, left.result
    before = {k: given(k, good, f"before part {part}") for k in NUMBERS}
    for at in range(part, SLOT, PARTS):
        slot = good[:at] + bytes([(good[at] + rng.randrange(1, 256)) % 256]) + good[at + 1:]
        given(number, slot, f"byte {at} changed", good)
        for k in others(number):
            if given(k, slot, f"byte {at} changed") != before[k]:
                comparison.judge(f"class {number}, byte {at} changed", b"", f"--- class {k} gives something else than before\n")
        if not any(before[k][0] for k in others(number)):
            comparison.note(f"changed: byte {at} of class {number}, and the others quote on")


def compare_all(comparison, seed, count, share):
    """All the sequences of a share."""
    for number in range(count)[share]:
        sequence = Sequence(comparison, seed, number)
        for _ in range(STEPS):
            sequence.step()
    for number, part in [(number, part) for number in NUMBERS for part in range(PARTS)][share]:
        quote_on(comparison, seed, number, part)
