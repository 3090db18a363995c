"""What a call of the two C functions is counted as by its class number, and by what stands in the other classes (02, request 13).

As all that is counted, it comes from the bytes of the call, not from the kind that it was made under. What an unknown class is counted as comes from
what the four classes would give for the same bytes: where all four are refused with one number, 21 came ahead of that one.
"""
from reference.classes import CLASSES, DESK, SLOT
from reference.quoting import RANGES, RESULT, refusal_of

NUMBERS = range(1, CLASSES + 1)
LOADING = (*range(1, 8), 15, 17)
ZEROS, OTHER_BYTES = "zeros", "bytes that are no sheet's"
EDGES = {0: "0", CLASSES + 1: "5", 2 ** 64 - 1: "2^64 - 1"}
CUT_SHORT = {bits: f"a class's number in {bits} bits" for bits in (8, 16, 32, 63)}
BY = (*EDGES.values(), *CUT_SHORT.values(), "another number")
OTHER_LENGTH, RANGES_LENGTH, RESULT_LENGTH = "a desk of another length", "ranges of another length", "a result of another length"

CLASS_LOAD_RULES = [
    *(f"load: 21 by {number}" for number in BY), *(f"load: 21 over {number}" for number in LOADING), f"load: 21 over {OTHER_LENGTH}",
    "load: 21, and nothing else is wrong",
    *(f"load: {outcome}, class {k}{beside}" for outcome in ("accepted", "refused") for k in NUMBERS for beside in ("", " beside three loaded ones")),
    *(f"load: accepted, class {k} of {sort}" for k in NUMBERS for sort in (ZEROS, OTHER_BYTES)),
    *(f"load: accepted, class {k} beside {OTHER_BYTES}" for k in NUMBERS), *(f"load: 10, class {k} would fit" for k in NUMBERS),
]

CLASS_RATE_RULES = [
    *(f"rate: 21 by {number}" for number in BY),
    *(f"rate: 21 over {what}" for what in (OTHER_LENGTH, RANGES_LENGTH, RESULT_LENGTH, "four empty classes", 18, 9, 11, 12)),
    "rate: 21, and every class has limits", "rate: 21, and one class alone is loaded",
    *(f"rate: accepted, class {k}{beside}" for k in NUMBERS for beside in ("", *(f" beside {what}" for what in (
        "three loaded ones", "three empty ones", OTHER_BYTES)))),
    *(f"rate: 10, class {k} of {sort} beside three loaded ones" for k in NUMBERS for sort in (ZEROS, OTHER_BYTES)),
    *(f"rate: 10, class {k} would be good" for k in NUMBERS),
]

CLASS_RULES = CLASS_LOAD_RULES + CLASS_RATE_RULES

# of sequences.py: what the classes give before a step and behind it
SEQUENCE_RULES = [
    *(f"sequence: class {k} {step}" for k in NUMBERS for step in (
        "loaded, and three others have the limits they had", "refused, and all four have the limits they had",
        "damaged, and three others have the limits they had", "emptied, and three others have the limits they had",
        "damaged, and loaded anew", "copied to another, and its limits with it")),
    "sequence: an unknown class loaded, and all four have the limits they had",
    "sequence: a desk of another length loaded, and all four have the limits they had", "sequence: two classes loaded in either order",
]


def by(number):
    """The sort of a number that is no class's."""
    cut_short = [what for bits, what in CUT_SHORT.items() if 1 <= number % 2 ** bits <= CLASSES]
    return EDGES.get(number) or (cut_short or ["another number"])[-1]


def beside(right, call):
    """How many of the other classes are loaded, and whether one has bytes that are neither zeros nor a sheet's."""
    others = [k for k in NUMBERS if k != call.number]
    loaded = [k for k in others if right.sheet(call.desk, k)]
    return len(loaded), any(any(right.slot(call.desk, k)) for k in others if k not in loaded)


def of_class_load(right, call, code):
    """What a load is counted as, by its class."""
    if code == 21:
        yield f"21 by {by(call.number)}"
        (would,) = {right.load(k, call.desk, call.text)[0] for k in NUMBERS}
        yield f"21 over {OTHER_LENGTH}" if would == 10 else f"21 over {would % 100}" if would else "21, and nothing else is wrong"
    elif len(call.desk) != DESK:
        if len(call.desk) >= SLOT * call.number:
            yield f"10, class {call.number} would fit"
    else:
        outcome, (loaded, damaged) = f"{'refused' if code else 'accepted'}, class {call.number}", beside(right, call)
        yield outcome
        if loaded == CLASSES - 1:
            yield f"{outcome} beside three loaded ones"
        if code == 0:
            if damaged:
                yield f"{outcome} beside {OTHER_BYTES}"
            if right.sheet(call.desk, call.number) is None:
                yield f"{outcome} of {OTHER_BYTES if any(right.slot(call.desk, call.number)) else ZEROS}"


def of_class_rate(right, call, code):
    """What a rating is counted as, by its class."""
    if code == 21:
        yield f"21 by {by(call.number)}"
        yield from over_in_rating(right, call)
    elif len(call.desk) != DESK:
        if right.sheet(call.desk.ljust(DESK, b"\0")[:DESK], call.number) and len(call.desk) >= SLOT * call.number:
            yield f"10, class {call.number} would be good"
    elif code in (0, 10):
        outcome, (loaded, damaged) = f"{'10' if code else 'accepted'}, class {call.number}", beside(right, call)
        if code:
            if loaded == CLASSES - 1:
                yield f"{outcome} of {OTHER_BYTES if any(right.slot(call.desk, call.number)) else ZEROS} beside three loaded ones"
            return
        yield outcome
        if loaded in (0, CLASSES - 1):
            yield f"{outcome} beside three {'loaded' if loaded else 'empty'} ones"
        if damaged:
            yield f"{outcome} beside {OTHER_BYTES}"


def over_in_rating(right, call):
    """What 21 comes ahead of."""
    codes = [right.rate(k, *call[1:])[0] for k in NUMBERS]
    numbers = {code and refusal_of(code).number for code in codes}
    if len(call.desk) != DESK:
        yield f"21 over {OTHER_LENGTH}"
    elif numbers == {10}:
        yield "21 over four empty classes"
    elif numbers == {8}:
        if len(call.ranges) != RANGES:
            yield f"21 over {RANGES_LENGTH}"
        if len(call.result) != RESULT:
            yield f"21 over {RESULT_LENGTH}"
    elif len(numbers) == 1:
        yield f"21 over {codes[0] % 100}" if codes[0] else "21, and every class has limits"
    elif codes.count(10) == CLASSES - 1:
        yield "21, and one class alone is loaded"
