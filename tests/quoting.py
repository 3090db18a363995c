#!/usr/bin/env python3
"""Tests the library for C programs (02, requests 10 and 13): the header, the examples, and the two functions, by calls and by a fuzzer.

tests/quoting.py [--archive PATH] [--seed N] [--count N] [--sequences N] [--fuzz N] [--jobs N]
    the archive: proved and built by `./archive`, unless one is named
    README.md, "Use from C and Python": its commands as they stand there, in a folder that is removed afterwards, and what they print; examples/quote.c
    and examples/quote.py beside the files of what they print
    include/motmotdivan.h as C++, where there is a compiler for it; the bytes of docs/STATE.md
    calls of the two functions (calls.py) beside tests/reference: every code, and every byte that was handed over or lies beside it (calling.py); the
    figures and examples of `rate`, each as a load and a rating; calls of unknown classes, with each other refusal
    sequences of calls on one desk of four classes (sequences.py), and each byte of a class changed while the other three are rated on
    tests/fuzz.c: calls on random bytes, with the address and undefined-behaviour sanitizers where cc has them

Fails, too, where a rule was never met, a byte of a good class never changed, or a wrong rule of errors.py or class_errors.py never told from the right
ones, in either function. The same seed gives the same calls, for any number of processes that they are dealt out to (--jobs). The closing line counts
each call once, and each run of a program once.
"""
import argparse
import os
import random
import re
import shutil
import subprocess
import sys
import tempfile
from pathlib import Path

import calls
import sequences
from calling import CallComparison, Library
from desks import DESK_LENGTHS, ENCODED, desk_with, known_number, neighbours, of_length, some_slot
from documents import CALLED, parted_at, unremarked
from figures import FIGURES
from reference.classes import CLASSES, DESK, SLOT, Load, Rate
from reference.outcome import Refused
from reference.quoting import RESULT
from reference.sheet import EARLIER, MOST_FACTORS, PRESENT, load
from reference.text import box_ends, parted
from shares import all_compared, missed_by

ROOT = Path(__file__).resolve().parent.parent
README, STATE, EXAMPLES = ROOT / "README.md", ROOT / "docs" / "STATE.md", ROOT / "examples"
ARCHIVE = Path("target/staticlib/libmotmotdivan.a")
PRINTED = {"target/quote ": "quote-c.out", "python3 examples/quote.py ": "quote-py.out"}  # what the commands of the examples print
STRICT = ["-Wall", "-Wextra", "-Werror", "-pedantic"]
SANITIZERS = "-fsanitize=address,undefined"
# sheets of which each byte is changed: the class, factors, operations, and the year
SWEEPS = ((1, 1, 63, EARLIER), (4, 2, 7, PRESENT), (2, 8, 20, PRESENT), (3, 3, 12, EARLIER))
FIRST = 120  # random sheets, of each process

AS_CPP = """#include "motmotdivan.h"
int main() {
    uint8_t desk[MOTMOTDIVAN_STATE_LENGTH] = {0}, ranges[MOTMOTDIVAN_RANGES_LENGTH] = {0}, result[MOTMOTDIVAN_RESULT_LENGTH];
    const uint8_t text[] = {'x'};
    const int64_t below = -1; /* a negative number is a large one */
    bool loads = motmotdivan_load(1, desk, sizeof desk, text, sizeof text) == 102 && motmotdivan_load(below, desk, sizeof desk, text, sizeof text) == 21;
    bool ratings = motmotdivan_rate(4, desk, sizeof desk, ranges, sizeof ranges, result, sizeof result) == 10 &&
                   motmotdivan_rate(below, desk, sizeof desk, ranges, sizeof ranges, result, sizeof result) == 21;
    return loads && ratings ? 0 : 1;
}
"""


class Runs:
    """Programs that were run, and what came of it."""

    def __init__(self):
        self.passed = self.failed = 0

    def judge(self, what, complaint):
        print(f"{'failed' if complaint else 'passed'}: {what}", flush=True)
        if complaint:
            print(complaint, flush=True)
        self.failed += bool(complaint)
        self.passed += not complaint

    def run(self, what, command, folder, expected=None):
        """A command that has to end with 0, and to print what is expected where that is named."""
        done = subprocess.run(command, cwd=folder, shell=isinstance(command, str), stdout=subprocess.PIPE, stderr=subprocess.PIPE)
        printed = (done.stdout + done.stderr).decode("latin-1")
        if done.returncode:
            self.judge(what, f"{printed}--- ended with {done.returncode}")
        elif expected is not None and done.stdout + done.stderr != expected:
            self.judge(what, f"--- expected\n{expected.decode('latin-1')}--- got\n{printed}")
        else:
            self.judge(what, "")
        return done.returncode == 0


# ---- the documents

def section():
    """The commands of the section, each with the bytes that it prints, or None where the section does not show them."""
    found = []
    for line in parted_at(README, CALLED)[1].split("\n"):
        if line.startswith("    $ "):
            found.append((line.removeprefix("    $ "), []))
        elif line.startswith("    ") and found:
            found[-1][1].append(line)
    return [(command, unremarked(output) if output else None) for command, output in found]


def examples_in(folder, archive, runs):
    """README's commands, from its first to its last, in a folder that has what they use of a clone."""
    for name in ("include", "examples"):
        (folder / name).symlink_to(ROOT / name)
    (folder / ARCHIVE).parent.mkdir(parents=True)
    shutil.copy(archive, folder / ARCHIVE)
    commands = section()
    if not commands or commands[0] != ("./archive", None):
        runs.judge(f"{README.name}, '{CALLED}'", "its first command is not `./archive`")
    for command, output in commands[1:]:
        written = [EXAMPLES / name for word, name in PRINTED.items() if command.startswith(word)]
        expected = written[0].read_bytes() if written else output or b""
        runs.run(command, command, folder, expected)
        if written and output is not None and output != expected:
            runs.judge(f"{README.name} beside {written[0].name}", "they differ")
    for wanted in ("cc -std=c99 " + " ".join(STRICT), "cc -shared ", *PRINTED):
        if not any(command.startswith(wanted) for command, _ in commands):
            runs.judge(f"{README.name}, '{CALLED}'", f"no command `{wanted.strip()}`")


def class_of_document():
    """The bytes of a class that docs/STATE.md shows in hexadecimal, with their zeros."""
    rows = re.findall(r"^ {4}((?:[0-9a-f]{2} ){8})", STATE.read_text(), re.MULTILINE)
    return bytes.fromhex("".join(rows)).ljust(SLOT, b"\0")


def as_cpp(folder, archive, runs):
    compiler = next((compiler for compiler in ("c++", "g++", "clang++") if shutil.which(compiler)), None)
    if compiler is None:
        print("skipped: the header as C++, since there is no c++, g++ or clang++")
        return
    (folder / "header.cpp").write_text(AS_CPP)
    command = [compiler, "-std=c++11", *STRICT, "-I", ROOT / "include", "-o", "header", "header.cpp", archive]
    if runs.run(f"{compiler} of the header", command, folder, b""):
        runs.run("the header, from C++", ["./header"], folder, b"")


# ---- calls

def edges(rng):
    """Calls of unknown classes, of classes that are empty by little, loads at the edges of an encoding, and of sheets that are refused."""
    for name, call in calls.of_no_class(rng):
        yield name, call, None
    for number in range(1, CLASSES + 1):
        for k, call in enumerate(calls.barely_empty(rng, number)):
            yield f"empty by little, class {number}/{k}", call, None
        for name, text in calls.loads(rng):
            yield f"'{name}', class {number}", Load(number, desk_with(neighbours(rng), number, some_slot(rng)), text), None
        for refusal, text in calls.BAD_SHEETS.items():
            desk = b"".join(neighbours(rng))
            yield f"a sheet for {refusal}, class {number}", Load(number, desk, text), None
            yield f"a sheet for {refusal}, class {number} of a desk of another length", Load(number, of_length(rng, desk, DESK_LENGTHS), text), None


def of_rate(rng):
    """Figures and examples of `rate`, each as a load and a rating."""
    texts = [(f"figure '{name}'", text) for name, text, _ in FIGURES]
    texts += [(f"example '{path.stem}'", path.read_bytes()) for path in sorted(EXAMPLES.glob("*.in"))]
    for name, text in texts:
        (sheet, box), number, slots = parted(text), known_number(rng), neighbours(rng)
        yield f"{name}, load", Load(number, desk_with(slots, number, bytes(SLOT)), sheet), None
        yield f"{name}, load into a desk of another length", Load(number, of_length(rng, b"".join(slots), DESK_LENGTHS), sheet), None
        try:
            ends = box_ends(box)
            slot = ENCODED(load(sheet))
        except Refused:
            continue
        if len(ends) <= 2 * MOST_FACTORS:
            doubles = [calls.double(float(end)) for end in ends] + [calls.rubbish(rng) for _ in range(2 * MOST_FACTORS - len(ends))]
            yield f"{name}, rate", Rate(number, desk_with(slots, number, slot), b"".join(doubles), rng.randbytes(RESULT)), None


def fixed_cases(seed):
    """Calls that are there or quickly made: those at the edges in any order, so that every process gets some of each sort, and then each byte of a class
    changed, which takes longest."""
    rng = random.Random(f"{seed}/fixed")
    quick = [*edges(rng), *of_rate(rng)]
    rng.shuffle(quick)
    yield from quick
    for number, factors, count, year in SWEEPS:
        for k, case in enumerate(calls.sweep(rng, number, calls.long_sheet(rng, factors, count, year))):
            yield f"a changed byte, {number}/{k}", *case


def random_cases(seed, numbers):
    for number in numbers:
        kind, made = calls.case(random.Random(f"{seed}/call/{number}"))
        for k, case in enumerate(made):
            yield f"case {number}/{k} ({kind})", *case


def cases(seed, count, share):
    """A name, a call, and the good bytes that its class's were made of by a change, where they were. Some random ones come first, which tell most wrong
    rules from the right ones; then those that were made for the others, so that few rules are left to try on the rest."""
    numbers = range(count)[share]
    yield from random_cases(seed, numbers[:FIRST])
    yield from [*fixed_cases(seed)][share]
    yield from random_cases(seed, numbers[FIRST:])


def compared(arguments, share):
    comparison = CallComparison(Library(arguments.library))
    for name, call, good in cases(arguments.seed, arguments.count, share):
        comparison.compare(name, call, good)
    sequences.compare_all(comparison, arguments.seed, arguments.sequences, share)
    comparison.library = None  # which cannot be handed over to another process
    return [comparison]


# ---- the fuzzer

def fuzz(folder, archive, arguments, runs):
    command = ["cc", "-std=c99", "-O1", "-g", *STRICT, "-I", str(ROOT / "include"), "-o", "fuzz", str(ROOT / "tests" / "fuzz.c"), str(archive)]
    (folder / "nothing.c").write_text("int main(void) { return 0; }\n")
    probe = subprocess.run(["cc", SANITIZERS, "-o", "nothing", "nothing.c"], cwd=folder, capture_output=True)
    sanitized = probe.returncode == 0 and subprocess.run(["./nothing"], cwd=folder, capture_output=True).returncode == 0
    if sanitized:
        command[1:1] = [SANITIZERS, "-fno-sanitize-recover=all"]
    else:
        print(f"skipped: {SANITIZERS}, which cc has not")
    if runs.run("cc of tests/fuzz.c", command, folder, b""):
        done = subprocess.run(["./fuzz", str(arguments.fuzz), str(arguments.seed)], cwd=folder, stdout=subprocess.PIPE, stderr=subprocess.STDOUT)
        print(done.stdout.decode("latin-1"), end="")
        runs.judge(f"tests/fuzz.c{' with ' + SANITIZERS if sanitized else ''}", done.returncode and f"--- ended with {done.returncode}")


def main():
    parser = argparse.ArgumentParser(description=__doc__, formatter_class=argparse.RawDescriptionHelpFormatter)
    parser.add_argument("--archive", type=Path, help="the archive, if not the one of `./archive`")
    parser.add_argument("--seed", type=int, default=1)
    parser.add_argument("--count", type=int, default=7000, help="random sheets, each loaded and rated by")
    parser.add_argument("--sequences", type=int, default=120, help="of calls on one desk, with all four classes rated behind each step")
    parser.add_argument("--fuzz", type=int, default=1_000_000, help="calls of the fuzzer")
    parser.add_argument("--jobs", type=int, default=os.cpu_count() or 1, help="processes that the calls are dealt out to")
    arguments = parser.parse_args()
    if arguments.jobs < 1:
        parser.error("--jobs: at least 1")
    runs = Runs()
    if shutil.which("cc") is None:
        runs.judge("a C compiler", "cc is missing: the library for C programs is tested with it")
    elif arguments.archive or runs.run("./archive", ["./archive"], ROOT):
        archive = (arguments.archive or ROOT / ARCHIVE).resolve()
        with tempfile.TemporaryDirectory() as folder:
            test_archive(Path(folder), archive, arguments, runs)
    print(f"{runs.passed} passed, {runs.failed} failed")
    sys.exit(bool(runs.failed))


def test_archive(folder, archive, arguments, runs):
    clone = folder / "clone"
    clone.mkdir()
    examples_in(clone, archive, runs)
    as_cpp(folder, archive, runs)
    dinghy = parted((EXAMPLES / "dinghy.in").read_bytes())[0]
    arguments.library = folder / "libmotmotdivan.so"
    shared = ["cc", "-shared", "-o", arguments.library, "-Wl,--whole-archive", archive, "-Wl,--no-whole-archive"]
    if runs.run("a shared library of the archive", shared, folder, b""):
        comparisons = all_compared(compared, arguments)
        runs.failed += missed_by(comparisons) + sum(comparison.failed for comparison in comparisons)
        runs.passed += sum(comparison.passed for comparison in comparisons)
        _, left, _, _ = Library(arguments.library).called(Load(2, bytes(DESK), dinghy), random.Random(0))
        expected = desk_with([bytes(SLOT)] * CLASSES, 2, class_of_document())
        runs.judge(f"the desk of docs/{STATE.name}", "" if left.desk == expected else "another desk is left by examples/dinghy.in as class 2")
    fuzz(folder, archive, arguments, runs)


if __name__ == "__main__":
    main()
