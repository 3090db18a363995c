"""Desks for the calls of the two C functions (02, requests 10 and 13): the bytes of a class, good ones and damaged ones, those of the other three beside
them, and class numbers, known ones and others."""
import random
import struct

from generate import some_operation
from reference.classes import CLASSES, DESK, SLOT
from reference.quoting import ENTRY, HEAD, Quoting
from reference.ranges import LIMIT
from reference.sheet import MOST_FACTORS, MOST_LINES, Operation, Sheet
from years import some_year

# of a whole desk: none, those of one to three classes, of all four and more, and lengths beside these
DESK_LENGTHS = (
    0, 1, HEAD, SLOT - 1, SLOT, SLOT + 1, 2 * SLOT, 3 * SLOT, 3 * SLOT + HEAD, DESK - HEAD, DESK - 1, DESK + 1, DESK + HEAD, 5 * SLOT, 2 * DESK)
ENCODED = Quoting().encoded


# ---- class numbers

EDGES = (0, CLASSES + 1, 2 ** 64 - 1)

# these come to a class's number where bits or the sign are left out
CUT_SHORT = tuple(2 ** bits + k for bits in (8, 16, 32, 63) for k in range(1, CLASSES + 1)) + tuple(2 ** 64 - k for k in range(2, CLASSES + 1))
OTHERS = (6, 7, 8, 9, 12, 16, 100, 255, 256, 512, 2 ** 31, 2 ** 32, 2 ** 63 - 1, 2 ** 63, 2 ** 63 + 5, 2 ** 64 - 5)
UNKNOWN_NUMBERS = EDGES + CUT_SHORT + OTHERS


def known_number(rng):
    return rng.randint(1, CLASSES)


def unknown_number(rng):
    """A number that 21 is for."""
    choice = rng.random()
    return rng.choice(EDGES if choice < 0.4 else CUT_SHORT if choice < 0.7 else OTHERS) if choice < 0.9 else rng.randrange(CLASSES + 1, 2 ** 64)


# ---- the bytes of a class

def some_sheet(rng):
    """A sheet that loads; nothing is asked about what it rates to."""
    factors = rng.randint(1, MOST_FACTORS)
    count = min(rng.choice((1, 2, 3, 5, 9, MOST_LINES)), MOST_LINES - factors)
    operations = []
    for earlier in range(factors, factors + count):
        name, *numbers = some_operation(rng, lambda: rng.randint(1, earlier))
        operations.append(Operation(name, (numbers[0], numbers[1] or 1) if name == "mulc" else tuple(numbers)))
    return Sheet(factors, tuple(operations), some_year(rng))


GOOD = [ENCODED(some_sheet(random.Random(f"good/{number}"))) for number in range(64)]


def some_slot(rng):
    """The bytes of a class to load into: zeros, another sheet, that with bytes changed, or any bytes."""
    choice = rng.randrange(4)
    if choice == 0:
        return bytes(SLOT)
    if choice == 3:
        return rng.randbytes(SLOT)
    slot = ENCODED(some_sheet(rng))
    return slot if choice == 1 else changed(rng, slot)


def changed(rng, slot):
    """The bytes of a class with one changed, or a few."""
    slot = bytearray(slot)
    used = HEAD + ENTRY * slot[1] if slot[1] < MOST_LINES else SLOT
    for _ in range(rng.choice((1, 1, 1, 1, 2, 3))):
        at = rng.randrange(rng.choice((HEAD, used, used, SLOT)))
        slot[at] = rng.choice((0, 1, 2, 6, 7, slot[at] ^ 1 << rng.randrange(8), rng.randrange(256)))
    return bytes(slot)


def misfit(rng, sheet):
    """The bytes of a class with one operation that loading would refuse."""
    k = rng.randrange(len(sheet.operations))
    earlier = sheet.factors + k
    entry = rng.choice((
        (1, rng.choice((0, earlier + 1, 255)), 1, 0), (2, 1, rng.choice((0, earlier + 1, 255)), 0), (3, 0, 0, LIMIT), (3, 1, 0, 2 * LIMIT + 1),
        (3, 1, 0, 2 ** 32 - 1), (4, 1, 0, LIMIT), (4, 1, 0, 2 * LIMIT + 1), (4, earlier + 1, 0, 0), (5, 1, rng.choice((0, 1, 9, 255)), 0),
        (6, rng.choice((0, earlier + 1)), 0, 0), (0, 1, 1, 0), (7, 1, 1, 0), (6, 1, 1, 0), (3, 1, 1, 0), (5, 1, 2, LIMIT), (1, 1, 1, 1)))
    slot, at = ENCODED(sheet), HEAD + ENTRY * k
    return slot[:at] + struct.pack("<BBHI", *entry) + slot[at + ENTRY:]


def slot_to_rate(rng, sheet):
    """The bytes of a class that is rated: mostly those of the sheet. Behind them the good ones, where they were made of such by a change."""
    good, choice = ENCODED(sheet), rng.random()
    if choice < 0.83:
        return good, None
    if choice < 0.93:
        return changed(rng, good), good
    if choice < 0.98:
        return misfit(rng, sheet), None
    return (bytes(SLOT) if choice < 0.99 else rng.randbytes(SLOT)), None


# ---- desks

def neighbours(rng):
    """Four classes, of which one makes room for that of a call: mostly all loaded, or none, or of any sort."""
    choice = rng.random()
    if choice < 0.6:
        return rng.sample(GOOD, CLASSES)
    if choice < 0.75:
        return [bytes(SLOT)] * CLASSES
    return [rng.choice((rng.choice(GOOD), bytes(SLOT), changed(rng, rng.choice(GOOD)), rng.randbytes(SLOT))) for _ in range(CLASSES)]


def desk_with(slots, number, slot):
    """A desk of four classes, with these bytes for one of them."""
    return b"".join((*slots[:number - 1], slot, *slots[number:]))


def of_length(rng, given, lengths):
    """Bytes cut off or put behind, so that there are as many as one of the lengths."""
    length = rng.choice(lengths)
    return given[:length] + (bytes if rng.random() < 0.5 else rng.randbytes)(max(0, length - len(given)))
