"""The sets of a sheet's lines by the sheet alone, without ranges, and what the rules of 2016 make of a line by them."""
from reference.sheet import EARLIER, PRESENT

HULLED, SPECIAL = "join by hull", "a special case"


def sets_of_lines(sheet):
    """The depends-on and the bent set of each line by 01's table, and by request 9 for 2014: no ranges are asked for."""
    lines = [(frozenset([a]), frozenset()) for a in range(sheet.factors)]
    for name, numbers in sheet.operations:
        depends, bent = lines[numbers[0] - 1]
        if name in ("add", "mul"):
            others = lines[numbers[1] - 1]
            depends, bent = depends | others[0], bent | others[1]
        lines.append((depends, depends if name in ("mul", "pow", "inv") else bent))
    return [(depends, frozenset(range(sheet.factors))) for depends, _ in lines] if sheet.year == EARLIER else lines


def sets_of(sheet):
    return sets_of_lines(sheet)[-1]


def present_lines(sheet):
    """For each operation line what it would be in 2016, by the sets that it would have there: a join by hull, a special case of a product."""
    sets = sets_of_lines(sheet._replace(year=PRESENT))
    found = {}
    for line, (name, numbers) in enumerate(sheet.operations, sheet.factors + 1):
        found[line] = set()
        if name in ("add", "mul"):
            (depends, bent), (others_depend, others_bent) = (sets[i - 1] for i in numbers)
            if name == "mul" and len(depends) == len(others_depend) == 1 and depends != others_depend and (bent or others_bent):
                found[line] = {SPECIAL}
            elif bent and others_bent and not bent & others_bent:
                found[line] = {HULLED}
    return found
