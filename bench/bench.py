#!/usr/bin/env python3
"""Times ratings of the proved engine beside plain C, and pages of boats, classes cut finer and the C functions beside ratings, on the sheets of
bench/sheets.

bench/bench.py PATH_TO_RATE_MANY [PATH_TO_AN_EARLIER_ONE]
bench/bench.py --in-2014 PATH_TO_RATE_MANY
bench/bench.py --pages PATH_TO_RATE_MANY
bench/bench.py --cuts PATH_TO_CUT_MANY
bench/bench.py --quoting PATH_TO_THE_ARCHIVE PATH_TO_RATE_MANY [PATH_TO_AN_EARLIER_ARCHIVE]

PATH N < SHEET loads the sheet once and rates it N times; bench/reference.c, built here with cc -O3, does the same. Both run in turn.
Nanoseconds are the least processor time of all rounds, and the ratio is that of the two; the median is that of the rounds' own ratios, which a busy
machine moves. Both are printed, since they differ. A run of one rating is taken off, so that starting and loading do not count. An earlier build is
timed beside the engine in the same way, sheet by sheet; what it prints is not compared, since its rules may be those of earlier requests.

The same sheets are timed with the year 2014 put in (02, request 9), beside the C as before and not beside an earlier build: first both have to accept each
of them and to print the same. --in-2014 times these alone.

PATH N numbers < FLEET and PATH N boats < FLEET read a sheet and its boats once and make the fleet page N times (02, request 3), from a flat slice of
numbers and from a slice of structs. A page of 1,000 boats is timed in the same way, beside ratings of the middle of the class, a class of one point.
--pages times the pages alone.

--cuts times classes cut finer (02, request 6), and nothing else: PATH N < CLASS reads a sheet and its ranges once and rates the class N times to the depth
that its first line gives, PATH N rate < SHEET rates it N times uncut. What is compared is the time of a part, the whole call's over 2 to the depth.

--quoting times `motmotdivan_rate` of an archive (02, requests 10 and 13), and nothing else: bench/quoting.c, built here with it, calls the function N times
from C, for the first class and for the last one of a desk with four, and with another job rates by reference.c with the same bytes in and out. All run in
turn with ratings of the engine, PATH N < SHEET, and with the function of an archive from before request 13, of one class, where one is named.
"""
import argparse
import os
import shutil
import statistics
import subprocess
import sys
import tempfile
import time
from math import exp, log
from pathlib import Path
from typing import NamedTuple

BENCH = Path(__file__).resolve().parent
SHEETS = BENCH / "sheets"
ROUNDS = 20
LONG_RUN = 0.04  # seconds a long run should take
FORMS = {"numbers": "numbers", "structs": "boats"}  # the forms of a list of boats, and the job of each
RECORD = 8  # numbers of a boat
BOATS = 1000  # of a page
MOST_IN_2014 = 2  # the bar: the time of a rating in 2014, in ratings of the C, by the geometric mean; the mean has to be below it
MOST_PER_BOAT = 1.1  # the bar: the time of a boat on a page, in plain ratings of the same point
DEPTHS = range(7)  # to which a class can be cut
MOST_PER_PART = 1.25  # the bar: the time of a part, in plain ratings of the uncut class, by the geometric mean
MOST_PER_PART_OF_A_CLASS = 1.5  # and on each class
MOST_BESIDE_ENGINE = 1.3  # the bar: the time of a call of `motmotdivan_rate`, in ratings of the engine, by the geometric mean
MOST_BESIDE_C = 2  # and in ratings of the C with the same records
MOST_BESIDE_ONE_CLASS = 1.05  # and in calls of the archive of one class
TIMED_CLASSES = (1, 4)  # of a desk with the sheet in all four
SIGNS = "signs"  # the sheet whose ranges change sign from line to line, which is in no mean
STEPS = (1, 3, 7, 9, 11, 13, 17, 19)  # a factor each, none with a divisor in common with BOATS


def build(folder, name="reference", *archives, called=None):
    """A C program of this folder, built in one that is removed afterwards; `archives` may have options for it, too."""
    program = Path(folder) / (called or name)
    compiler = os.environ.get("CC", "cc")
    if shutil.which(compiler) is None:
        sys.exit(f"no C compiler {compiler}")
    subprocess.run([compiler, "-O3", "-I", BENCH.parent / "include", "-o", program, BENCH / f"{name}.c", *archives, "-lm"], check=True)
    return program


def run(program, times, sheet, *job):
    """Processor seconds of one run, and what it printed."""
    with open(sheet, "rb") as given, tempfile.TemporaryFile() as printed:
        process = subprocess.Popen([program, str(times), *job], stdin=given, stdout=printed)
        _, status, used = os.wait4(process.pid, 0)
        process.returncode = os.waitstatus_to_exitcode(status)
        if process.returncode != 0:
            sys.exit(f"{program} ended with {process.returncode} on {sheet.name}")
        printed.seek(0)
        return used.ru_utime + used.ru_stime, printed.read()


def peak_memory(program, sheet, times, *job):
    """The most memory held at once, in KiB, from the system's count for the running process. The rusage of a child will not do: it keeps
    the size of the process that started it."""
    with open(sheet, "rb") as given:
        process = subprocess.Popen([program, str(times), *job], stdin=given, stdout=subprocess.DEVNULL)
        peak = 0
        while process.poll() is None:
            try:
                status = Path(f"/proc/{process.pid}/status").read_text()
            except OSError:
                return None
            peak = max([peak] + [int(line.split()[1]) for line in status.splitlines() if line.startswith("VmHWM")])
            time.sleep(0.005)
    return peak


class Timed:
    """One program on one sheet, with the job that its second argument names, if it has one."""

    def __init__(self, program, sheet, *job):
        self.program, self.sheet, self.job = program, sheet, job
        self.times = 16
        while (used := run(program, self.times, sheet, *job)[0]) < LONG_RUN / 4 and self.times < 1 << 26:
            self.times *= 4
        self.times = max(2, int(self.times * LONG_RUN / max(used, 1e-4)))
        self.short, self.long, self.printed = [], [], b""

    def round(self):
        self.short.append(run(self.program, 1, self.sheet, *self.job)[0])
        used, self.printed = run(self.program, self.times, self.sheet, *self.job)
        self.long.append(used)

    def nanoseconds(self):
        """Per rating, page or cut, for each round."""
        start = min(self.short)
        return [max(used - start, 1e-9) / (self.times - 1) * 1e9 for used in self.long]


class Row(NamedTuple):
    factors: int
    lines: int
    engine: float
    plain: float
    ratio: float
    median: float


def shape(sheet):
    """Factors and codelist lines of a sheet."""
    lines = sheet.read_text().split("box\n")[0].splitlines()
    factors = int(lines[0].split("\t")[1])
    return factors, factors + len(lines) - 1


def measure(engine, plain, sheets, same_rules):
    """For each sheet the nanoseconds of the engine and of the other program, and their ratios. All run in turn: a slow minute hits all alike.
    Programs of the same rules must print the same."""
    pairs = [(Timed(engine, sheet), Timed(plain, sheet)) for sheet in sheets]
    for _ in range(ROUNDS):
        for ours, theirs in pairs:
            ours.round()
            theirs.round()
            if same_rules and ours.printed != theirs.printed:
                sys.exit(f"{ours.sheet.name}: the two programs print different results")
    measured = []
    for ours, theirs in pairs:
        a, b = ours.nanoseconds(), theirs.nanoseconds()
        measured.append((min(a), min(b), min(a) / min(b), statistics.median(x / y for x, y in zip(a, b))))
    return measured


def table(title, sheets, engine, plain, other="C"):
    print(f"\n{title}\n{'sheet':<20}{'factors':>8}{'lines':>7}{'engine ns':>12}{other + ' ns':>12}{'ratio':>8}{'median':>8}", flush=True)
    rows = []
    for sheet, (ours, theirs, ratio, median) in zip(sheets, measure(engine, plain, sheets, same_rules=other == "C")):
        factors, lines = shape(sheet)
        print(f"{sheet.stem:<20}{factors:>8}{lines:>7}{ours:>12.0f}{theirs:>12.0f}{ratio:>8.3f}{median:>8.3f}")
        rows.append(Row(factors, lines, ours, theirs, ratio, median))
    return rows


def geometric_mean(ratios):
    return exp(statistics.fmean(map(log, ratios)))


def means(rows):
    for name in ("ratio", "median"):
        print(f"  geometric mean of the {name}s: {geometric_mean(getattr(row, name) for row in rows):.3f}")


def fits(rows, size, other="C"):
    """The straight line nearest to each program's times, and how near they are to it."""
    sizes = [getattr(row, size) for row in rows]
    for name, times in (("engine", [row.engine for row in rows]), (other, [row.plain for row in rows])):
        slope, start = statistics.linear_regression(sizes, times)
        nearness = statistics.correlation(sizes, times) ** 2
        print(f"  {name}: {start:.0f} ns + {slope:.1f} ns for each of the {size}, R² {nearness:.4f}")


def in_2014(sheet, folder):
    """A sheet with the year put into its first line, in a file of the same name."""
    path = Path(folder) / "2014" / sheet.name
    path.parent.mkdir(exist_ok=True)
    first, rest = sheet.read_text().split("\n", 1)
    path.write_text(f"{first}\t2014\n{rest}")
    return path


def compare(engine, plain, sheets):
    """Both programs accept each sheet and print the same."""
    for sheet in sheets:
        printed = [run(program, 1, sheet)[1] for program in (engine, plain)]
        if printed[0] != printed[1]:
            sys.exit(f"{sheet.name} in {sheet.parent.name}: the two programs print different results")
        if printed[0].startswith(b"refused"):
            sys.exit(f"{sheet.name} in {sheet.parent.name} is refused")


def tables_in_2014(all_sheets, classes, engine, plain, folder):
    classes = [in_2014(sheet, folder) for sheet in classes]
    by_factors = [in_2014(sheet, folder) for sheet in all_sheets if sheet.stem.startswith("growth-factors-")]
    by_signs = [in_2014(sheet, folder) for sheet in all_sheets if sheet.stem == SIGNS]
    compare(engine, plain, classes + by_factors + by_signs)
    rows = table("Classes in 2014, nanoseconds per rating", classes, engine, plain)
    means(rows)
    mean = geometric_mean(row.ratio for row in rows)
    print(f"  by the mean {'below' if mean < MOST_IN_2014 else 'NOT BELOW'} {MOST_IN_2014} ratings of the C: {mean:.3f}")
    fits(table("Growth with the factors in 2014, 32 lines", by_factors, engine, plain), "factors")
    table("Ranges that change sign from line to line, in 2014", by_signs, engine, plain)
    return rows


def rating_tables(all_sheets, classes, engine, earlier, folder):
    plain = build(folder)
    by_lines = [sheet for sheet in all_sheets if sheet.stem.startswith("growth-lines-")]
    by_factors = [sheet for sheet in all_sheets if sheet.stem.startswith("growth-factors-")]
    by_signs = [sheet for sheet in all_sheets if sheet.stem == SIGNS]

    if earlier:
        before = earlier.resolve()
        means(table("Beside the earlier build, nanoseconds per rating", classes, engine, before, "earlier"))
        fits(table("Beside the earlier build, growth with the factors", by_factors, engine, before, "earlier"), "factors", "earlier")
        table("Beside the earlier build, ranges that change sign from line to line", by_signs, engine, before, "earlier")
    rows = table("Classes, nanoseconds per rating", classes, engine, plain)
    means(rows)
    fits(table("Growth with the lines, 4 factors", by_lines, engine, plain), "lines")
    fits(table("Growth with the factors, 32 lines", by_factors, engine, plain), "factors")
    table("Ranges that change sign from line to line", by_signs, engine, plain)

    rows_in_2014 = tables_in_2014(all_sheets, classes, engine, plain, folder)
    for name, times in (("engine", "engine"), ("C", "plain")):
        mean = geometric_mean(getattr(old, times) / getattr(new, times) for old, new in zip(rows_in_2014, rows))
        print(f"  {name}: a rating in 2014 takes {mean:.3f} times one in 2016, by the geometric mean over the classes")

    largest = max(classes, key=lambda sheet: shape(sheet)[::-1])
    print(f"\nPeak memory on {largest.stem}")
    for name, program in (("engine", engine), ("C", plain)):
        times = Timed(program, largest).times
        print(f"  {name}: {peak_memory(program, largest, 4 * times)} KiB")


def box(sheet):
    """The ends of a sheet's ranges, a pair for each factor."""
    return [tuple(map(int, line.split("\t"))) for line in sheet.read_text().split("box\n")[1].splitlines()]


def middle(ends):
    return [(low + high) // 2 for low, high in ends]


def alike(ends):
    """The middle of the ranges, as often as a page has boats."""
    return [middle(ends)] * BOATS


def spread(ends):
    """Boats all over the ranges: each factor takes evenly spaced values from end to end, each value once, in an order of its own."""
    return [[low + (high - low) * (k * step % BOATS) // (BOATS - 1) for step, (low, high) in zip(STEPS, ends)] for k in range(BOATS)]


def written(sheet, word, records, path):
    """A sheet's formula with other lines behind it, in a file: a line with the word, then the numbers of each record."""
    formula = sheet.read_text().split("box\n")[0]
    path.write_text(formula + word + "\n" + "".join("\t".join(map(str, record)) + "\n" for record in records))
    return path


class Pages:
    """Ratings of the middle of a sheet's ranges, and pages of boats by either form of the list."""

    def __init__(self, engine, sheet, listed, folder):
        self.sheet, ends = sheet, box(sheet)
        point = written(sheet, "box", [(value, value) for value in middle(ends)], Path(folder) / f"{sheet.stem}-point.txt")
        boats = [boat + [0] * (RECORD - len(boat)) for boat in listed(ends)]
        page = written(sheet, "boats", boats, Path(folder) / f"{sheet.stem}-boats.txt")
        self.rating, self.forms = Timed(engine, point), [Timed(engine, page, job) for job in FORMS.values()]

    def round(self):
        for timed in (self.rating, *self.forms):
            timed.round()
        if len({form.printed for form in self.forms}) != 1:
            sys.exit(f"{self.sheet.name}: the forms print different pages")

    def accepted(self):
        printed = self.forms[0].printed.decode()
        figures = dict(line.split("\t", 1) for line in printed.splitlines())
        if figures.get("boats") != str(BOATS):
            sys.exit(f"{self.sheet.name}: no page of {BOATS} boats, but {printed}")
        return int(figures["accepted"])

    def rows(self):
        """For each form the nanoseconds of a boat beside those of a rating."""
        plain = self.rating.nanoseconds()
        for form in self.forms:
            boat = [page / BOATS for page in form.nanoseconds()]
            median = statistics.median(x / y for x, y in zip(boat, plain))
            yield Row(*shape(self.sheet), min(boat), min(plain), min(boat) / min(plain), median)


def page_table(title, sheets, engine, listed, folder):
    """The table of the boats that `listed` makes of each sheet's ranges, and its rows by form. All run in turn, as in `measure`."""
    print(f"\n{title}\n{'sheet':<12}{'factors':>8}{'lines':>6}{'accepted':>9}{'rating ns':>10}", end="")
    print("".join(f"{form + ' ns':>12}{'ratio':>7}{'page ms':>8}" for form in FORMS), flush=True)
    timed = [Pages(engine, sheet, listed, folder) for sheet in sheets]
    for _ in range(ROUNDS):
        for each in timed:
            each.round()
    table_rows = [list(each.rows()) for each in timed]
    for each, rows in zip(timed, table_rows):
        print(f"{each.sheet.stem:<12}{rows[0].factors:>8}{rows[0].lines:>6}{each.accepted():>9}{rows[0].plain:>10.0f}", end="")
        print("".join(f"{row.engine:>12.0f}{row.ratio:>7.3f}{row.engine * BOATS / 1e6:>8.3f}" for row in rows))
    return zip(FORMS, zip(*table_rows))


def page_tables(sheets, engine, folder):
    for form, rows in page_table(f"Pages of {BOATS:,} boats, all the middle of the class, beside a rating of it", sheets, engine, alike, folder):
        print(f"{form}: {'at most' if geometric_mean(row.ratio for row in rows) <= MOST_PER_BOAT else 'ABOVE'} {MOST_PER_BOAT} ratings a boat")
        means(rows)
    for form, rows in page_table(f"Pages of {BOATS:,} boats all over the class, beside a rating of its middle", sheets, engine, spread, folder):
        print(f"{form}:")
        means(rows)


class Cuts:
    """Ratings of a class, and the class cut to each depth."""

    def __init__(self, engine, sheet, folder):
        self.sheet, self.rating = sheet, Timed(engine, sheet, "rate")
        self.depths = []
        for depth in DEPTHS:
            path = Path(folder) / f"{sheet.stem}-depth-{depth}.txt"
            path.write_text(f"depth\t{depth}\n{sheet.read_text()}")
            self.depths.append(Timed(engine, path))

    def round(self):
        self.rating.round()
        for timed in self.depths:
            timed.round()
        if any(timed.printed.startswith(b"refused") for timed in (self.rating, *self.depths)):
            sys.exit(f"{self.sheet.name}: a cut is refused")
        if self.depths[0].printed != self.rating.printed:
            sys.exit(f"{self.sheet.name}: depth 0 prints another result than the rating")

    def rows(self):
        """For each depth the nanoseconds of a part beside those of a rating."""
        plain = self.rating.nanoseconds()
        for depth, timed in zip(DEPTHS, self.depths):
            part = [whole / 2**depth for whole in timed.nanoseconds()]
            yield Row(*shape(self.sheet), min(part), min(plain), min(part) / min(plain), statistics.median(x / y for x, y in zip(part, plain)))


def cut_table(sheets, engine, folder):
    """The seven depths side by side: the time of a part over that of a rating. All run in turn, as in `measure`."""
    print(f"\nClasses cut finer, the time of a part in plain ratings\n{'sheet':<12}{'factors':>8}{'lines':>6}{'rating ns':>10}", end="")
    print("".join(f"{f'depth {depth}':>9}" for depth in DEPTHS) + f"{'depth 6 µs':>12}", flush=True)
    timed = [Cuts(engine, sheet, folder) for sheet in sheets]
    for _ in range(ROUNDS):
        for each in timed:
            each.round()
    table_rows = [list(each.rows()) for each in timed]
    for each, rows in zip(timed, table_rows):
        print(f"{each.sheet.stem:<12}{rows[0].factors:>8}{rows[0].lines:>6}{rows[0].plain:>10.0f}", end="")
        print("".join(f"{row.ratio:>9.3f}" for row in rows) + f"{rows[-1].engine * 2**DEPTHS[-1] / 1e3:>12.1f}")
    for name in ("ratio", "median"):
        print(f"{'mean, ' + name:<36}" + "".join(f"{geometric_mean(getattr(row, name) for row in rows):>9.3f}" for rows in zip(*table_rows)))
    by_depth = list(zip(*table_rows))
    mean = max(geometric_mean(row.ratio for row in rows) for rows in by_depth)
    greatest = max(row.ratio for rows in by_depth for row in rows)
    print(f"  by the mean {'at most' if mean <= MOST_PER_PART else 'ABOVE'} {MOST_PER_PART} ratings a part: {mean:.3f}")
    print(f"  on each class {'at most' if greatest <= MOST_PER_PART_OF_A_CLASS else 'ABOVE'} {MOST_PER_PART_OF_A_CLASS}: {greatest:.3f}")
    deepest = max(timed, key=lambda each: shape(each.sheet)[::-1])
    print(f"\nPeak memory on {deepest.sheet.stem}")
    for name, each in (("a rating", deepest.rating), ("cut to depth 6", deepest.depths[-1])):
        print(f"  {name}: {peak_memory(engine, each.sheet, 4 * each.times, *each.job)} KiB")


class Quotes:
    """Ratings of a class by `motmotdivan_rate`, as the first class and as the last one, by the engine, by the C with the same records, and by the function
    of the archive of one class, where there is one."""

    def __init__(self, engine, program, one_class, sheet):
        self.sheet = sheet
        self.calls = {number: Timed(program, sheet, str(number)) for number in TIMED_CLASSES}
        self.others = {"engine": Timed(engine, sheet), "C": Timed(program, sheet, "c")}
        if one_class:
            self.others["one class"] = Timed(one_class, sheet, "1")

    def round(self):
        timed = (*self.others.values(), *self.calls.values())
        for each in timed:
            each.round()
        if len({each.printed for each in timed}) != 1 or timed[0].printed.startswith(b"refused"):
            sys.exit(f"{self.sheet.name}: refused, or different results")

    def rows(self):
        """For each class the nanoseconds of a call beside those of each other way to rate."""
        for number, call in self.calls.items():
            ours = call.nanoseconds()
            for name, other in self.others.items():
                times = other.nanoseconds()
                median = statistics.median(x / y for x, y in zip(ours, times))
                yield (number, name), Row(*shape(self.sheet), min(ours), min(times), min(ours) / min(times), median)


def quoting_table(sheets, engine, archive, earlier, folder):
    """All run in turn, as in `measure`."""
    program = build(folder, "quoting", archive)
    one_class = build(folder, "quoting", "-DONE_CLASS", earlier, called="one-class") if earlier else None
    timed = [Quotes(engine, program, one_class, sheet) for sheet in sheets]
    others = [*timed[0].others]
    print(f"\nThe C functions, nanoseconds per rating\n{'sheet':<12}{'factors':>8}{'lines':>6}", end="")
    print("".join(f"{f'class {number}':>10}" for number in TIMED_CLASSES) + "".join(f"{name:>10}" for name in others), end="")
    print("".join(f"{f'{number} / {name}':>15}" for number in TIMED_CLASSES for name in others), flush=True)
    for _ in range(ROUNDS):
        for each in timed:
            each.round()
    table_rows = [dict(each.rows()) for each in timed]
    for each, rows in zip(timed, table_rows):
        factors, lines = shape(each.sheet)
        print(f"{each.sheet.stem:<12}{factors:>8}{lines:>6}", end="")
        print("".join(f"{rows[number, others[0]].engine:>10.0f}" for number in TIMED_CLASSES), end="")
        print("".join(f"{rows[TIMED_CLASSES[0], name].plain:>10.0f}" for name in others), end="")
        print("".join(f"{row.ratio:>15.3f}" for row in rows.values()))
    bars = {"engine": MOST_BESIDE_ENGINE, "C": MOST_BESIDE_C, "one class": MOST_BESIDE_ONE_CLASS}
    for number, name in table_rows[0]:
        rows = [each[number, name] for each in table_rows]
        print(f"class {number} beside {'the archive of one class' if name == 'one class' else f'the {name}'}:")
        means(rows)
        mean = geometric_mean(row.ratio for row in rows)
        print(f"  by the mean {'at most' if mean <= bars[name] else 'ABOVE'} {bars[name]}: {mean:.3f}")


def main():
    parser = argparse.ArgumentParser(description=__doc__, formatter_class=argparse.RawDescriptionHelpFormatter)
    parser.add_argument("engine", metavar="PATH", type=Path, help="the program `rate_many`, or with --cuts `cut_many`")
    parser.add_argument("earlier", metavar="PATH_TO_AN_EARLIER_ONE", type=Path, nargs="?", help="with --quoting, an archive from before request 13")
    parser.add_argument("--in-2014", action="store_true", help="ratings in 2014 alone")
    parser.add_argument("--pages", action="store_true", help="pages of boats alone")
    parser.add_argument("--cuts", action="store_true", help="classes cut finer, by `cut_many`")
    parser.add_argument("--quoting", metavar="ARCHIVE", type=Path, help="the C functions of an archive alone")
    arguments = parser.parse_args()
    if (arguments.in_2014 or arguments.pages or arguments.cuts) and arguments.earlier:
        parser.error("--in-2014, --pages and --cuts take no earlier build: it would have to know the year, the page, and the cut")
    engine = arguments.engine.resolve()
    all_sheets = sorted(SHEETS.glob("*.txt"), key=lambda sheet: (shape(sheet), sheet.stem))
    classes = [sheet for sheet in all_sheets if not sheet.stem.startswith("growth-") and sheet.stem != SIGNS]
    with tempfile.TemporaryDirectory() as folder:
        if arguments.cuts:
            cut_table(classes, engine, folder)
            return
        if arguments.quoting:
            quoting_table(classes, engine, arguments.quoting.resolve(), arguments.earlier and arguments.earlier.resolve(), folder)
            return
        if arguments.in_2014:
            tables_in_2014(all_sheets, classes, engine, build(folder), folder)
            return
        if not arguments.pages:
            rating_tables(all_sheets, classes, engine, arguments.earlier, folder)
        page_tables(classes, engine, folder)


if __name__ == "__main__":
    main()
