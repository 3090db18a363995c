"""02, request 13: four classes on one desk, as the C functions have them. Of its 2,048 bytes each class has 512, which are request 10's (quoting.py)."""
from typing import NamedTuple

from . import quoting
from .outcome import Refusal
from .quoting import Quoting
from .rating import rate

CLASSES = 4  # numbered from 1
SLOT = quoting.DESK  # bytes of a class
DESK = CLASSES * SLOT
UNKNOWN = Refusal(21, 0)  # "a class number outside 1 to 4 gets 21 with place 0, before everything else"


class Load(NamedTuple):
    """What `motmotdivan_load` is handed: the class number, of 64 bits, and bytes."""
    number: int
    desk: bytes
    text: bytes


class Rate(NamedTuple):
    """What `motmotdivan_rate` is handed."""
    number: int
    desk: bytes
    ranges: bytes
    result: bytes


class Classes:
    """The two calls. The rules are methods, so that a test can put one wrong rule in the place of a right one; one of request 10's can be wrong, too."""

    def __init__(self, rating=rate, of_one=Quoting):
        self.one = of_one(rating)

    # ---- the calls: each gives its code, and all that it was handed as it leaves it

    def called(self, call):
        return self.load(*call) if isinstance(call, Load) else self.rate(*call)

    def load(self, number, desk, text):
        """"Loading one class, accepted or refused, leaves the other three and every result for them as they were"."""
        if not self.is_class(number):
            return self.code_of_unknown(number), Load(number, desk, text)
        code, left = self.one.load(self.slot(desk, number), text)
        return code, Load(number, self.with_slot(desk, number, left.desk), text)

    def rate(self, number, desk, ranges, result):
        if not self.is_class(number):
            return self.code_of_unknown(number), Rate(number, desk, ranges, self.one.result_refused(result))
        code, left = self.one.rate(self.slot(desk, number), ranges, result)
        return code, Rate(number, desk, ranges, left.result)

    # ---- the class number

    def is_class(self, number):
        return 1 <= number <= CLASSES

    def code_of_unknown(self, number):
        return self.one.code(UNKNOWN)

    # ---- the bytes of a class

    def start(self, number):
        return SLOT * (number - 1)

    def slot(self, desk, number):
        """A class's own bytes. A desk of another length has none, which is another length, too: it is empty in every class, and loading gives 10."""
        return desk[self.start(number):self.start(number) + SLOT] if len(desk) == DESK else b""

    def with_slot(self, desk, number, slot):
        """The desk with other bytes for a class, where it has any."""
        start = self.start(number)
        return desk[:start] + slot + desk[start + SLOT:] if len(desk) == DESK else desk

    def sheet(self, desk, number):
        """The sheet of a class; None where it is empty: "bytes that no accepted load of their class could have written"."""
        return self.one.decoded(self.slot(desk, number))
