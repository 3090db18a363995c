"""02, request 10: load and rate as the C functions do them, on bytes. The desk's are those of docs/STATE.md, a double is what `struct` takes it
for."""
import struct
from typing import NamedTuple

from .outcome import Refusal, Refused, refuse
from .ranges import LIMIT
from .rating import rate
from .sheet import EARLIER, MOST_FACTORS, MOST_LINES, PRESENT, Loading, Operation, Sheet, load

DESK, RANGES, RESULT = 512, 128, 192  # bytes of the three
HEAD = ENTRY = 8  # bytes of a desk before its operations, and of each of them

YEARS = {0: PRESENT, 1: EARLIER}
KINDS = {1: "add", 2: "mul", 3: "addc", 4: "mulc", 5: "pow", 6: "inv"}


class Load(NamedTuple):
    """What `motmotdivan_load` is handed."""
    desk: bytes
    text: bytes


class Rate(NamedTuple):
    """What `motmotdivan_rate` is handed."""
    desk: bytes
    ranges: bytes
    result: bytes


class Quoting:
    """The two calls. The rules are methods, so that a test can put one wrong rule in the place of a right one."""
    loading = Loading

    def __init__(self, rating=rate):
        self.rating = rating

    # ---- the calls: each gives its code, and all the bytes it was handed as it leaves them

    def called(self, call):
        return self.load(*call) if isinstance(call, Load) else self.rate(*call)

    def load(self, desk, text):
        try:
            sheet = self.loaded(desk, text)
        except Refused as refused:
            return self.code(refused.args[0]), Load(self.desk_refused(desk), text)
        return 0, Load(self.encoded(sheet), text)

    def rate(self, desk, ranges, result):
        try:
            answer = self.rated(desk, ranges, result)
        except Refused as refused:
            return self.code(refused.args[0]), Rate(desk, ranges, self.result_refused(result))
        return 0, Rate(desk, ranges, self.record(answer))

    def code(self, refusal):
        """"the refusal's number plus 100 times its place"."""
        return refusal.number + 100 * refusal.place

    # ---- load

    def loaded(self, desk, text):
        """The sheet, or the first refusal: "A desk of another length is empty too, and loading into it gives 10, ahead of 1"."""
        if len(desk) != DESK:
            refuse(10, 0)
        return load(text, rules=self.loading)

    def desk_refused(self, desk):
        return desk

    def encoded(self, sheet):
        """The one encoding of a sheet."""
        (year,) = [byte for byte, year in YEARS.items() if year == sheet.year]
        entries = b"".join(self.entry(*operation) for operation in sheet.operations)
        return (bytes((sheet.factors, len(sheet.operations), year)).ljust(HEAD, b"\0") + entries).ljust(DESK, b"\0")

    def entry(self, name, numbers):
        """The eight bytes of an operation."""
        (kind,) = [kind for kind, other in KINDS.items() if other == name]
        if name in ("addc", "mulc"):
            return struct.pack("<BBBBI", kind, numbers[0], 0, 0, numbers[1] + LIMIT)
        return bytes((kind, *numbers)).ljust(ENTRY, b"\0")

    # ---- rate

    def rated(self, desk, ranges, result):
        """The result, or the first refusal: 10, 8, 18, 9, and then 11 or 12."""
        sheet = self.decoded(desk)
        if sheet is None:
            refuse(10, 0)
        self.check_lengths(ranges, result)
        return self.rating(sheet, self.ends(sheet.factors, ranges))

    def check_lengths(self, ranges, result):
        if len(ranges) != RANGES or len(result) != RESULT:
            refuse(8, 0)

    def decoded(self, desk):
        """The sheet that a desk holds; None where it is empty: "desk bytes that no accepted load could have left"."""
        if len(desk) != DESK:
            return None
        factors, count, year = desk[:3]
        if not 1 <= factors <= MOST_FACTORS or not 1 <= count <= MOST_LINES - factors or year not in YEARS or any(desk[3:HEAD]):
            return None
        operations = [self.operation(desk[HEAD + ENTRY * k:HEAD + ENTRY * (k + 1)], factors + k) for k in range(count)]
        if None in operations or any(desk[HEAD + ENTRY * count:]):
            return None
        return Sheet(factors, tuple(operations), YEARS[year])

    def operation(self, entry, earlier):
        """The operation of eight bytes behind so many lines, or None."""
        kind, i, j, zero, shifted = struct.unpack("<BBBBI", entry)
        name = KINDS.get(kind)
        if name is None or zero or not 1 <= i <= earlier:
            return None
        if name in ("addc", "mulc"):
            constant = shifted - LIMIT
            good = j == 0 and constant <= LIMIT and (name == "addc" or constant != 0)
            return Operation(name, (i, constant)) if good else None
        if shifted:
            return None
        if name == "inv":
            return Operation(name, (i,)) if j == 0 else None
        return Operation(name, (i, j)) if (2 <= j <= 8 if name == "pow" else 1 <= j <= earlier) else None

    def ends(self, factors, ranges):
        """The ends of the factors' ranges, or 18: "A number that is no whole number, infinite ones and NaN among them, gets 18 with its factor, the
        lowest first"; "those past the last factor are ignored"."""
        numbers = [self.whole(ranges[8 * k:8 * k + 8]) for k in range(2 * factors)]
        if None in numbers:
            refuse(18, numbers.index(None) // 2 + 1)
        return numbers

    def whole(self, eight):
        """The whole number that a double is, or None. "Minus zero counts as 0"."""
        (x,) = struct.unpack("<d", eight)
        return int(x) if x.is_integer() else None

    def result_refused(self, result):
        """"every other field is 0" (01); of another length "such a result record is not written"."""
        return bytes(RESULT) if len(result) == RESULT else result

    def record(self, result):
        """"in the order value, eight slopes, depends, bent, bend, full, low before high"."""
        slopes = [end for slope in result.slopes for end in slope]
        numbers = (*result.value, *slopes, *[0] * (2 * MOST_FACTORS - len(slopes)), self.mask(result.depends), self.mask(result.bent),
                   *result.bend, *result.full)
        return struct.pack("<24d", *numbers)

    def mask(self, members):
        """"a set as the sum of 2^(i-1) over its factors i": here counted from 0."""
        return sum(2 ** a for a in members)


def refusal_of(code):
    """The refusal of a code, or None for 0."""
    return Refusal(code % 100, code // 100) if code else None
