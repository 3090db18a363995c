"""Wrong rules of four classes on one desk (02, request 13), each in the place of a right one: near misses of which numbers are classes, of when 21 comes
and what is left behind it, of where the bytes of a class are, of what a load does to the other three, of which classes are empty, and of desks of
another length. Those of one class's bytes are in errors.py, and are tried on each class as well.
"""
from reference.classes import CLASSES, DESK, SLOT, Classes, Load, Rate
from reference.outcome import Refused
from reference.quoting import HEAD, RANGES, RESULT
from reference.sheet import MOST_BYTES

NUMBERS = range(1, CLASSES + 1)


# ---- which numbers are classes

class Renumbered(Classes):
    def load(self, number, desk, text):
        code, left = super().load(self.taken_for(number), desk, text)
        return code, left._replace(number=number)

    def rate(self, number, desk, ranges, result):
        code, left = super().rate(self.taken_for(number), desk, ranges, result)
        return code, left._replace(number=number)


class ZeroAsOne(Renumbered):
    """Class 0 taken as 1."""
    def taken_for(self, number):
        return number or 1


class FiveAsFour(Renumbered):
    """Class 5 taken as 4."""
    def taken_for(self, number):
        return 4 if number == 5 else number


class BeyondAsFour(Renumbered):
    """Every number above 4 taken as 4."""
    def taken_for(self, number):
        return min(number, CLASSES)


class ModuloFour(Renumbered):
    """A class number of which two bits are left, 0 for 4."""
    def taken_for(self, number):
        return number % 4 or 4


class FromZero(Renumbered):
    """Classes counted from 0 to 3."""
    def taken_for(self, number):
        return (number + 1) % 2 ** 64


class NumberOf8Bits(Renumbered):
    """A class number of which 8 bits are left."""
    def taken_for(self, number):
        return number % 2 ** 8


class NumberOf16Bits(Renumbered):
    """A class number of which 16 bits are left."""
    def taken_for(self, number):
        return number % 2 ** 16


class NumberOf32Bits(Renumbered):
    """A class number of which 32 bits are left."""
    def taken_for(self, number):
        return number % 2 ** 32


class NumberOf63Bits(Renumbered):
    """A class number of which 63 bits are left."""
    def taken_for(self, number):
        return number % 2 ** 63


class NegativeAsOne(Renumbered):
    """A number that is negative with 64 bits taken as 1."""
    def taken_for(self, number):
        return 1 if number >= 2 ** 63 else number


class SignDropped(Renumbered):
    """A number that is negative with 64 bits taken without its sign."""
    def taken_for(self, number):
        return 2 ** 64 - number if number >= 2 ** 63 else number


class NumberIgnored(Renumbered):
    """The class number not looked at, and class 1 taken."""
    def taken_for(self, number):
        return 1


# ---- when 21 comes

class FoundFirst(Classes):
    """An unknown class refused as class 1 is, where `ahead` says so of its code."""
    def ahead(self, code, call):
        raise NotImplementedError

    def load(self, number, desk, text):
        code, left = super().load(1, desk, text)
        if not self.is_class(number) and self.ahead(code, left):
            return code, left._replace(number=number)
        return super().load(number, desk, text)

    def rate(self, number, desk, ranges, result):
        code, left = super().rate(1, desk, ranges, result)
        if not self.is_class(number) and self.ahead(code, left):
            return code, left._replace(number=number)
        return super().rate(number, desk, ranges, result)


class BehindTheDesk(FoundFirst):
    """21 after 10 for a desk of another length."""
    def ahead(self, code, call):
        return len(call.desk) != DESK


class BehindOne(FoundFirst):
    """21 after 1."""
    def ahead(self, code, call):
        return len(call.text) > MOST_BYTES and len(call.desk) == DESK


class BehindLoading(FoundFirst):
    """21 after the refusals of loading."""
    def ahead(self, code, call):
        return code not in (0, 10)


class BehindEmptyDesk(FoundFirst):
    """21 after 10 for a desk with no class loaded."""
    def ahead(self, code, call):
        return len(call.desk) == DESK and all(self.sheet(call.desk, k) is None for k in NUMBERS)


class BehindFirstClass(FoundFirst):
    """21 after 10 of class 1."""
    def ahead(self, code, call):
        return code == 10 and len(call.desk) == DESK


class BehindRanges(FoundFirst):
    """21 after 8 for ranges of another length."""
    def ahead(self, code, call):
        return code == 8 and len(call.ranges) != RANGES


class BehindResult(FoundFirst):
    """21 after 8 for a result of another length."""
    def ahead(self, code, call):
        return code == 8 and len(call.result) != RESULT


class BehindEighteen(FoundFirst):
    """21 after 18."""
    def ahead(self, code, call):
        return code % 100 == 18


class BehindNine(FoundFirst):
    """21 after 9."""
    def ahead(self, code, call):
        return code % 100 == 9


class BehindRating(FoundFirst):
    """21 after 11 and 12."""
    def ahead(self, code, call):
        return code % 100 in (11, 12)


# ---- what an unknown class is refused with, and what is left behind it

class PlaceOfClass(Classes):
    """21 with the class number as its place."""
    def code_of_unknown(self, number):
        return (21 + 100 * number) % 2 ** 64


class PlaceOne(Classes):
    """21 with the place 1."""
    def code_of_unknown(self, number):
        return 121


class UnknownIsEmpty(Classes):
    """An unknown class refused with 10."""
    def code_of_unknown(self, number):
        return 10


class UnknownAccepted(Classes):
    """An unknown class accepted, and nothing done."""
    def code_of_unknown(self, number):
        return 0


class UnknownClearsDesk(Classes):
    """A desk emptied by a load of an unknown class."""
    def load(self, number, desk, text):
        code, left = super().load(number, desk, text)
        return code, left if self.is_class(number) else left._replace(desk=bytes(len(desk)))


class UnknownKeepsResult(Classes):
    """A result that keeps its bytes after 21."""
    def rate(self, number, desk, ranges, result):
        code, left = super().rate(number, desk, ranges, result)
        return code, left if self.is_class(number) else left._replace(result=result)


class UnknownClearsAny(Classes):
    """A result of another length cleared after 21."""
    def rate(self, number, desk, ranges, result):
        code, left = super().rate(number, desk, ranges, result)
        return code, left if self.is_class(number) else left._replace(result=bytes(len(result)))


class UnknownClearsLonger(Classes):
    """The first 192 bytes of a longer result cleared after 21."""
    def rate(self, number, desk, ranges, result):
        code, left = super().rate(number, desk, ranges, result)
        longer = not self.is_class(number) and len(result) > RESULT
        return code, left._replace(result=bytes(RESULT) + result[RESULT:]) if longer else left


# ---- where the bytes of a class are

class SlotBefore(Classes):
    """The bytes of the class before, for class 1 those of class 4."""
    def start(self, number):
        return SLOT * ((number - 2) % CLASSES)


class SlotBehind(Classes):
    """The bytes of the class behind, for class 4 those of class 1."""
    def start(self, number):
        return SLOT * (number % CLASSES)


class SlotsReversed(Classes):
    """The classes from the last to the first."""
    def start(self, number):
        return SLOT * (CLASSES - number)


class MiddleExchanged(Classes):
    """The bytes of classes 2 and 3 exchanged."""
    def start(self, number):
        return super().start({2: 3, 3: 2}.get(number, number))


class LastExchanged(Classes):
    """The bytes of classes 3 and 4 exchanged."""
    def start(self, number):
        return super().start({3: 4, 4: 3}.get(number, number))


class SlotsOverlapping(Classes):
    """The bytes of a class eight before the end of those of the class before."""
    def start(self, number):
        return (SLOT - HEAD) * (number - 1)


class SlotsInterleaved(Classes):
    """The classes byte by byte in turn."""
    def slot(self, desk, number):
        return desk[number - 1::CLASSES] if len(desk) == DESK else b""

    def with_slot(self, desk, number, slot):
        if len(desk) != DESK:
            return desk
        desk = bytearray(desk)
        desk[number - 1::CLASSES] = slot
        return bytes(desk)


# ---- what a load does to the other three

class BesidesLoaded(Classes):
    """Something done to the desk behind an accepted load."""
    def load(self, number, desk, text):
        code, left = super().load(number, desk, text)
        return code, left if code else left._replace(desk=self.besides(number, left.desk))

    def cleared(self, desk, numbers):
        for number in numbers:
            desk = self.with_slot(desk, number, bytes(SLOT))
        return desk


class TwoClearsThree(BesidesLoaded):
    """Class 3 emptied by a load of class 2."""
    def besides(self, number, desk):
        return self.cleared(desk, [3] if number == 2 else [])


class ClearsBehind(BesidesLoaded):
    """The classes behind a loaded one emptied."""
    def besides(self, number, desk):
        return self.cleared(desk, range(number + 1, CLASSES + 1))


class ClearsOthers(BesidesLoaded):
    """The other three classes emptied by an accepted load."""
    def besides(self, number, desk):
        return self.cleared(desk, [k for k in NUMBERS if k != number])


class ClearsDamaged(BesidesLoaded):
    """Other classes whose bytes are no sheet's cleared by an accepted load."""
    def besides(self, number, desk):
        return self.cleared(desk, [k for k in NUMBERS if self.sheet(desk, k) is None])


class LoadsAll(BesidesLoaded):
    """A sheet loaded into all four classes."""
    def besides(self, number, desk):
        return CLASSES * self.slot(desk, number)


class OneByteBehind(BesidesLoaded):
    """One byte behind the class cleared by an accepted load."""
    def besides(self, number, desk):
        end = SLOT * number
        return (desk[:end] + b"\0" + desk[end + 1:])[:DESK]


class OneByteBefore(BesidesLoaded):
    """One byte before the class cleared by an accepted load."""
    def besides(self, number, desk):
        start = SLOT * (number - 1)
        return desk[:start - 1] + b"\0" + desk[start:] if start else desk


class LastByteUnwritten(Classes):
    """The last byte of the desk left as it was by a load of class 4."""
    def load(self, number, desk, text):
        code, left = super().load(number, desk, text)
        return code, left._replace(desk=left.desk[:-1] + desk[-1:])


class RefusedClearsAll(Classes):
    """All four classes emptied by a refused load."""
    def load(self, number, desk, text):
        code, left = super().load(number, desk, text)
        return code, left._replace(desk=bytes(len(desk))) if code and self.is_class(number) else left


class RefusedClearsOthers(Classes):
    """The other three classes emptied by a refused load."""
    def load(self, number, desk, text):
        code, left = super().load(number, desk, text)
        refused = code and self.is_class(number) and len(desk) == DESK
        return code, left._replace(desk=self.with_slot(bytes(DESK), number, self.slot(desk, number))) if refused else left


class LoadedKept(Classes):
    """A class that is loaded not loaded again."""
    def load(self, number, desk, text):
        code, left = super().load(number, desk, text)
        return code, left._replace(desk=desk) if self.is_class(number) and self.sheet(desk, number) else left


class FirstEmptyLoaded(Classes):
    """A sheet put into the first empty class."""
    def load(self, number, desk, text):
        empty = [k for k in NUMBERS if self.sheet(desk, k) is None]
        code, left = super().load(empty[0] if empty and self.is_class(number) else number, desk, text)
        return code, left._replace(number=number)


class DamagedNotLoaded(Classes):
    """A load refused with 10 where the class's bytes are neither zeros nor a sheet's."""
    def load(self, number, desk, text):
        damaged = self.is_class(number) and any(self.slot(desk, number)) and self.sheet(desk, number) is None
        return (10, Load(number, desk, text)) if damaged else super().load(number, desk, text)


class BesideDamagedNotLoaded(Classes):
    """A load refused with 10 where another class's bytes are neither zeros nor a sheet's."""
    def load(self, number, desk, text):
        code, left = super().load(number, desk, text)
        beside = [k for k in NUMBERS if k != number and any(self.slot(desk, k)) and self.sheet(desk, k) is None]
        return (10, left._replace(desk=desk)) if beside and self.is_class(number) else (code, left)


# ---- which classes are empty

class Emptied(Classes):
    """A rating refused with 10 where `emptied` says so, too."""
    def rate(self, number, desk, ranges, result):
        if self.is_class(number) and len(desk) == DESK and self.emptied(number, desk):
            return 10, Rate(number, desk, ranges, self.one.result_refused(result))
        return super().rate(number, desk, ranges, result)


class DamagedEmptiesAll(Emptied):
    """All classes empty where one has bytes that are neither zeros nor a sheet's."""
    def emptied(self, number, desk):
        return any(any(self.slot(desk, k)) and self.sheet(desk, k) is None for k in NUMBERS)


class EmptyEmptiesAll(Emptied):
    """All classes empty where one is."""
    def emptied(self, number, desk):
        return None in [self.sheet(desk, k) for k in NUMBERS]


class FirstEmptiesAll(Emptied):
    """All classes empty where class 1 is."""
    def emptied(self, number, desk):
        return self.sheet(desk, 1) is None


class BeforeEmpties(Emptied):
    """A class empty where the one before it is."""
    def emptied(self, number, desk):
        return number > 1 and self.sheet(desk, number - 1) is None


class EmptyRatedByAnother(Classes):
    """An empty class rated by the first one that is loaded."""
    def rate(self, number, desk, ranges, result):
        loaded = [k for k in NUMBERS if self.sheet(desk, k)]
        by = loaded[0] if loaded and self.is_class(number) and self.sheet(desk, number) is None else number
        code, left = super().rate(by, desk, ranges, result)
        return code, left._replace(number=number)


class YearOfFirst(Classes):
    """The year of class 1 taken for all four."""
    def slot(self, desk, number):
        slot = super().slot(desk, number)
        return slot[:2] + desk[2:3] + slot[3:]


class FactorsOfFirst(Classes):
    """18 looked for among the factors of class 1, too."""
    def rate(self, number, desk, ranges, result):
        code, left = super().rate(number, desk, ranges, result)
        first = self.sheet(desk, 1)
        if code or first is None:
            return code, left
        try:
            self.one.ends(first.factors, ranges)
        except Refused as refused:
            return self.one.code(refused.args[0]), left._replace(result=self.one.result_refused(result))
        return code, left


class RatingClearsDamaged(Classes):
    """Bytes that are no sheet's cleared by a rating of their class."""
    def rate(self, number, desk, ranges, result):
        code, left = super().rate(number, desk, ranges, result)
        damaged = code == 10 and self.is_class(number)
        return code, left._replace(desk=self.with_slot(desk, number, bytes(SLOT))) if damaged else left


# ---- desks of another length

class LongerDeskLoaded(Classes):
    """A longer desk loaded into, its last bytes left as they were."""
    def load(self, number, desk, text):
        code, left = super().load(number, desk[:DESK], text)
        return code, left._replace(desk=left.desk + desk[DESK:])


class ShorterDeskLoaded(Classes):
    """A shorter desk loaded into, as far as it goes."""
    def load(self, number, desk, text):
        code, left = super().load(number, desk.ljust(DESK, b"\0"), text)
        return code, left._replace(desk=left.desk[:len(desk)])


class LongerDeskRated(Classes):
    """A longer desk taken."""
    def rate(self, number, desk, ranges, result):
        code, left = super().rate(number, desk[:DESK], ranges, result)
        return code, left._replace(desk=desk)


class ShorterDeskRated(Classes):
    """A shorter desk taken as if zeros stood behind it."""
    def rate(self, number, desk, ranges, result):
        code, left = super().rate(number, desk.ljust(DESK, b"\0"), ranges, result)
        return code, left._replace(desk=desk)


class FittingDesk(Classes):
    """A desk of another length taken for the classes that fit in it."""
    def slot(self, desk, number):
        return super().slot(desk.ljust(DESK, b"\0")[:DESK] if len(desk) >= SLOT * number else desk, number)

    def with_slot(self, desk, number, slot):
        start = self.start(number)
        return desk[:start] + slot + desk[start + SLOT:] if len(desk) >= start + SLOT else desk


class WholeClasses(FittingDesk):
    """A desk of any number of whole classes taken for those."""
    def slot(self, desk, number):
        return super().slot(desk, number) if len(desk) % SLOT == 0 else b""

    def with_slot(self, desk, number, slot):
        return super().with_slot(desk, number, slot) if len(desk) % SLOT == 0 else desk


class DeskOfOneClass(Classes):
    """A desk of 512 bytes taken for that of class 1."""
    def slot(self, desk, number):
        return desk if number == 1 and len(desk) == SLOT else super().slot(desk, number)

    def with_slot(self, desk, number, slot):
        return slot if number == 1 and len(desk) == SLOT else super().with_slot(desk, number, slot)


class LengthKeepsResult(Classes):
    """A result that keeps its bytes after 10 for a desk of another length."""
    def rate(self, number, desk, ranges, result):
        code, left = super().rate(number, desk, ranges, result)
        return code, left._replace(result=result) if code == 10 and len(desk) != DESK else left


class EightBeforeLength(Classes):
    """8 before 10 for a desk of another length."""
    def rate(self, number, desk, ranges, result):
        code, left = super().rate(number, desk, ranges, result)
        return (8 if code == 10 and len(desk) != DESK and (len(ranges), len(result)) != (RANGES, RESULT) else code), left


CLASS_ERRORS = [
    ZeroAsOne, FiveAsFour, BeyondAsFour, ModuloFour, FromZero, NumberOf8Bits, NumberOf16Bits, NumberOf32Bits, NumberOf63Bits, NegativeAsOne,
    SignDropped, NumberIgnored, BehindTheDesk, PlaceOfClass, PlaceOne, UnknownIsEmpty, UnknownAccepted, SlotBefore, SlotBehind, SlotsReversed,
    MiddleExchanged, LastExchanged, SlotsOverlapping, SlotsInterleaved, FittingDesk, WholeClasses, DeskOfOneClass,
]

CLASS_LOAD_ERRORS = CLASS_ERRORS + [
    BehindOne, BehindLoading, UnknownClearsDesk, TwoClearsThree, ClearsBehind, ClearsOthers, ClearsDamaged, LoadsAll, OneByteBehind, OneByteBefore,
    LastByteUnwritten, RefusedClearsAll, RefusedClearsOthers, LoadedKept, FirstEmptyLoaded, DamagedNotLoaded, BesideDamagedNotLoaded,
    LongerDeskLoaded, ShorterDeskLoaded,
]

CLASS_RATE_ERRORS = CLASS_ERRORS + [
    BehindEmptyDesk, BehindFirstClass, BehindRanges, BehindResult, BehindEighteen, BehindNine, BehindRating, UnknownKeepsResult, UnknownClearsAny,
    UnknownClearsLonger, DamagedEmptiesAll, EmptyEmptiesAll, FirstEmptiesAll, BeforeEmpties, EmptyRatedByAnother, YearOfFirst, FactorsOfFirst,
    RatingClearsDamaged, LongerDeskRated, ShorterDeskRated, LengthKeepsResult, EightBeforeLength,
]
