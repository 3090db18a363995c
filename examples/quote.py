"""quote.py LIBRARY INPUT...: the limits of up to four classes, through the C functions, from inputs of the program `rate` (examples/dinghy.in).

LIBRARY is a shared library made of the archive; README.md, "Use from C and Python", says how. The inputs are loaded onto one desk, as class 1, class 2
and so on, and for each it prints what `rate` prints. Then it prints the refusals of a sheet that names the year 2015, which leaves its class as it was,
and of a fifth class.
"""
import ctypes
import struct
import sys

STATE_LENGTH, RANGES_LENGTH, RESULT_LENGTH = 2048, 128, 192
CLASS_LENGTH = 512  # of the desk, for each of the four


def functions(path):
    """The two functions of the library. A class number comes first; a slice of bytes is two arguments, its address and its length."""
    library = ctypes.CDLL(path)
    load, rate = library.motmotdivan_load, library.motmotdivan_rate
    load.argtypes = [ctypes.c_uint64] + [ctypes.c_char_p, ctypes.c_size_t] * 2
    rate.argtypes = [ctypes.c_uint64] + [ctypes.c_char_p, ctypes.c_size_t] * 3
    load.restype = rate.restype = ctypes.c_uint64
    return load, rate


def refused(code):
    """The line of a refusal: its number and its place."""
    return f"refused\t{code % 100}\t{code // 100}"


def members(mask):
    """The factors of a set."""
    return [factor for factor in range(1, 9) if int(mask) >> (factor - 1) & 1]


def printed(record, factors):
    """The lines of a result."""
    limits = struct.unpack("<24d", record)
    rows = [("value", *limits[:2])]
    rows += [("slope", factor, *limits[2 * factor:2 * factor + 2]) for factor in range(1, factors + 1)]
    rows += [("depends", *members(limits[18])), ("bent", *members(limits[19])), ("bend", *limits[20:22]), ("full", *limits[22:])]
    return "\n".join("\t".join([word, *(f"{number:.0f}" for number in numbers)]) for word, *numbers in rows)


def record(box):
    """The ranges behind a line `box` as 16 doubles."""
    ends = [float(end) for end in box.split()]
    return struct.pack("<16d", *ends, *[0.0] * (16 - len(ends)))


def main():
    path, *inputs = sys.argv[1:]
    load, rate = functions(path)
    desk = ctypes.create_string_buffer(STATE_LENGTH)
    result = ctypes.create_string_buffer(RESULT_LENGTH)
    boxes = {}
    for number, name in enumerate(inputs, 1):
        with open(name, "rb") as given:
            sheet, boxes[number] = given.read().split(b"box\n")
        code = load(number, desk, STATE_LENGTH, sheet, len(sheet))
        if code:
            print(refused(code))
    for number, box in boxes.items():
        code = rate(number, desk, STATE_LENGTH, record(box), RANGES_LENGTH, result, RESULT_LENGTH)
        if code:
            print(refused(code))
        else:
            print(printed(result.raw, factors=desk.raw[CLASS_LENGTH * (number - 1)]))  # which are in the first byte of a class

    before = desk.raw
    sheet = b"factors\t2\t2015\nadd\t1\t2\n"
    print(refused(load(1, desk, STATE_LENGTH, sheet, len(sheet))))
    print(refused(load(5, desk, STATE_LENGTH, sheet, len(sheet))))
    assert desk.raw == before


if __name__ == "__main__":
    main()
