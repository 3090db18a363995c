"""Random inputs for `rate` whose sheets have dead lines put in: operation lines that the last line does not use."""
from generate import input_text, loaded, some_operation
from reference.outcome import Refused
from reference.ranges import LIMIT, UNIT, Range
from reference.rating import rate
from reference.sheet import MOST_LINES, REFERENCES, Operation, load, sheet_text
from reference.tidy import Tidying, last_line, operation_at
from years import named

USED = Tidying().used
TRIES = 6  # random lines that are tried before one is made for its refusal


def inserted(sheet, place, name, *numbers):
    """The sheet with one more operation as codelist line `place`: what stood there and behind it moves on, and with it each reference to it."""
    def moved(operation):
        count = REFERENCES[operation.name]
        return Operation(operation.name, tuple(i + (i >= place) for i in operation.numbers[:count]) + operation.numbers[count:])
    at = place - sheet.factors - 1
    before, after = sheet.operations[:at], sheet.operations[at:]
    return sheet._replace(operations=before + (Operation(name, numbers),) + tuple(map(moved, after)))


def some_place(rng, sheet):
    """Where a line can be put in: before an operation, the first one or the last one, too."""
    return rng.randint(sheet.factors + 1, last_line(sheet))


def with_some_line(rng, sheet):
    """A dead line of any kind: a copy of the line it stands before, or one on any earlier lines, half of them unused: factors or dead lines."""
    place = some_place(rng, sheet)
    if rng.random() < 0.15:
        name, numbers = operation_at(sheet, place)
        return inserted(sheet, place, name, *numbers)
    used = USED(sheet)
    unused = [line for line in range(1, place) if line not in used]

    def reference():
        return rng.choice(unused) if unused and rng.random() < 0.5 else rng.randint(1, place - 1)
    return inserted(sheet, place, *some_operation(rng, reference))


def with_refused_line(rng, sheet):
    """Dead lines of which one is always refused: a line less itself, whose range has 0 in it, and its inverse (11), or more than the limit added to
    it in two steps (12)."""
    place = some_place(rng, sheet)
    i = rng.randint(1, place - 1)
    sheet = inserted(inserted(sheet, place, "mulc", i, -UNIT), place + 1, "add", i, place)
    if rng.random() < 0.5:
        return inserted(sheet, place + 2, "inv", place + 1)
    sheet = inserted(sheet, place + 2, "addc", place + 1, LIMIT)
    return inserted(sheet, place + 3, "addc", place + 2, rng.randint(1, LIMIT))


def with_unloaded_line(rng, sheet):
    """A dead line that multiplies by 0: loading refuses it, used or not."""
    place = some_place(rng, sheet)
    return inserted(sheet, place, "mulc", rng.randint(1, place - 1), 0)


def loads(sheet):
    try:
        load(sheet_text(sheet))
    except Refused:
        return False
    return True


def refused_at_dead_line(sheet, ends):
    try:
        rate(sheet, ends)
    except Refused as refused:
        number, place = refused.args[0]
        return number in (11, 12) and place not in USED(sheet)
    return False


def harmless(rng, sheet, ends):
    """Dead lines that are all accepted: the rating comes to what it came to without them."""
    for _ in range(rng.choice((1, 1, 2, 3, 5, 9))):
        longer = with_some_line(rng, sheet)
        if loads(longer) and not refused_at_dead_line(longer, ends):
            sheet = longer
    return sheet


def refused(rng, sheet, ends):
    """A dead line that is refused before any other line is, and perhaps harmless ones before that."""
    sheet = harmless(rng, sheet, ends) if rng.random() < 0.5 else sheet
    tried = [with_some_line(rng, sheet) for _ in range(TRIES)] + [with_refused_line(rng, sheet)]
    for longer in tried:
        if loads(longer) and refused_at_dead_line(longer, ends):
            return longer
    return sheet


def unlooked(rng, sheet, ends):
    """Dead lines up to the most lines there may be, and nothing looked at; now and then one of them is for loading to refuse."""
    for _ in range(rng.randint(1, 12)):
        if last_line(sheet) < MOST_LINES:
            sheet = with_unloaded_line(rng, sheet) if rng.random() < 0.02 else with_some_line(rng, sheet)
    return sheet


def case(rng):
    """A kind's name and an input of it."""
    given = loaded(rng, (4, 2, 5, 2, 1))
    kind = rng.choices((harmless, refused, unlooked), (5, 3, 2))[0]
    ranges = [Range(*given.ends[k:k + 2]) for k in range(0, len(given.ends), 2)]
    return f"dead lines, {kind.__name__}", named(rng, input_text(kind(rng, given.sheet, given.ends), ranges))
