#!/usr/bin/env python3
"""tests/documents.py --binary PATH --tidy PATH --fleet PATH --cut PATH --sisters PATH --formula PATH: runs the examples of README.md,
examples/README.md and docs/SHEET.md, and compares what the documents say is printed.

An example of SHEET.md is a block between lines ```: the input, a line `prints:`, the output. `→` is a tab, and `LINE × N` is that line N times.
With a line `tidied:` in the place of `prints:` the program is `tidy`, with `reported:` it is `fleet`, with `cut:` it is `cut`, with `sisters:` it is
`sisters`, with `formula:` it is `formula`, else it is `rate`. The first example of README.md and of SHEET.md is indented, and has a remark behind
the fields of each line; in the README blanks stand for the tabs. In the same way an indented paragraph of any of the three may have a command as its
first line, `$ crates/tidy/out/tidy < examples/FILE` (or `rate`, `fleet`, `cut`, `sisters`, `formula`) or `$ cat examples/FILE`, and what it prints below;
the file may be in a directory of examples/. The commands of README.md, "Use from C and Python", are left to tests/quoting.py, which has the library.

Fails, too, where an operation, a refusal or the year 2014 has no example, where a program has none in README.md, where a refusal that a program
prints is not in SHEET.md's table, or one of the table has no paragraph, and where the header for C, docs/STATE.md, SHEET.md and examples/quote.py
don't have the same lengths and refusals.
"""
import argparse
import re
import subprocess
import sys
from pathlib import Path
from typing import NamedTuple

ROOT = Path(__file__).resolve().parent.parent
OPERATIONS = ("add", "mul", "addc", "mulc", "pow", "inv")
PROGRAMS = {"prints:": "rate", "tidied:": "tidy", "reported:": "fleet", "cut:": "cut", "sisters:": "sisters", "formula:": "formula"}
# no program prints 10, since each loads a sheet first, nor 13, since `tidy` has room for every sheet, nor 18, since numerals are whole numbers, nor 21,
# since each has one class
REFUSALS = {"rate": [*range(1, 10), 11, 12, 15, 17], "fleet": [14], "cut": [16], "sisters": [8, 9], "formula": [19, 20]}
CALLED = "Use from C and Python"  # the section whose commands tests/quoting.py runs
CALLS = {"motmotdivan_load": [21, 10, *range(1, 8), 15, 17], "motmotdivan_rate": [21, 10, 8, 18, 9, 11, 12]}


def written(lines):
    """The bytes of lines as SHEET.md shows them."""
    out = []
    for line in lines:
        line, times, count = line.partition(" × ")
        out += [line.replace("→", "\t") + "\n"] * (int(count) if times else 1)
    return "".join(out).encode()


class Example(NamedTuple):
    where: str
    program: str
    given: bytes
    expected: bytes


def named(document):
    return str(document.relative_to(ROOT))


def blocks(document):
    """The examples of a document that stand between lines ```."""
    lines = document.read_text().split("\n")
    fences = [number for number, line in enumerate(lines) if line == "```"]
    for start, end in zip(fences[::2], fences[1::2]):
        block = lines[start + 1:end]
        words = [line for line in block if line in PROGRAMS]
        if len(words) != 1:
            raise SystemExit(f"{named(document)}:{start + 1}: a block without one line of {', '.join(PROGRAMS)}")
        at = block.index(words[0])
        yield Example(f"{named(document)}:{start + 1}", PROGRAMS[words[0]], written(block[:at]), written(block[at + 1:]))


def fields(line):
    """A line of an indented example without its remark: a word or numeral, and the numerals behind it; or a formula."""
    return re.match(r" {4}([a-z]+|-?\d+|[f\d.^*/+()-]+)((?:(?: +|→)-?\d+)*)(?:  |$)", line)


def unremarked(lines):
    """The bytes of an indented example's lines."""
    rows = [fields(line) for line in lines]
    return "".join("\t".join([row[1], *row[2].replace("→", " ").split()]) + "\n" for row in rows).encode()


def laid_out(document):
    """The indented example of a document: its input begins with `factors`, its output with `value`, and each ends with the paragraph."""
    paragraphs = document.read_text().split("\n\n")

    def paragraph(word):
        (found,) = [p for p in paragraphs if re.match(f"    {word}[ →]", p)]
        return unremarked(found.split("\n"))
    return Example(named(document), "rate", paragraph("factors"), paragraph("value"))


def parted_at(document, title):
    """A document without the section of that title, and the section, or nothing where there is none."""
    before, found, behind = document.read_text().partition(f"\n## {title}\n")
    section, next_one, rest = behind.partition("\n## ")
    return before + next_one + rest, found and section


def commands(document):
    """The examples of a document that begin with a command."""
    for paragraph in parted_at(document, CALLED)[0].split("\n\n"):
        command, *output = paragraph.strip("\n").split("\n")
        if not command.startswith("    $ "):
            continue
        form = re.fullmatch(r" {4}\$ (?:crates/(rate|tidy|fleet|cut|sisters|formula)/out/\1 <|(cat)) (examples/(?:\w+/)?[\w.-]+)", command)
        if form is None:
            raise SystemExit(f"{named(document)}: a command of another form: {command.strip()}")
        yield Example(f"{named(document)}: {command.strip()}", form[1] or form[2], (ROOT / form[3]).read_bytes(), unremarked(output))


def unshown(examples):
    """The operations without an accepted example that begins with them, the refusals without an example, the programs without one in README.md that
    is not refused, and the year without one."""
    accepted = [example for example in examples if not example.expected.startswith(b"refused")]
    first = {example.given.split(b"\n")[1].split(b"\t")[0].decode() for example in accepted if example.program == "rate"}
    refused = {(example.program, int(example.expected.split(b"\t")[1])) for example in examples if example not in accepted}
    missing = [f"`{name}`" for name in OPERATIONS if name not in first]
    missing += [f"refusal {number}" for program, numbers in REFUSALS.items() for number in numbers if (program, number) not in refused]
    first_page = {example.program for example in accepted if example.where.split(":")[0] == "README.md"}
    missing += [f"`{program}` in README.md" for program in PROGRAMS.values() if program not in first_page]
    named = [example for example in accepted if example.program == "rate" and re.match(rb"factors\t[1-8]\t2014\n", example.given)]
    return missing if named else missing + ["the year 2014"]


def disagreed():
    """What the documents of the C functions say differently."""
    header, state, sheet = ((ROOT / path).read_text() for path in ("include/motmotdivan.h", "docs/STATE.md", "docs/SHEET.md"))
    lengths = re.findall(r"^#define MOTMOTDIVAN_([A-Z]+)_LENGTH (\d+)", header, re.MULTILINE)
    titles = re.findall(r"^## The ([a-z]+): ([\d,]+) bytes", state, re.MULTILINE)
    same = [length for _, length in lengths] == [length.replace(",", "") for _, length in titles]
    if not same or [name for name, _ in lengths] != ["STATE", "RANGES", "RESULT"]:
        yield "the lengths of include/motmotdivan.h and docs/STATE.md"
    names, numbers = re.search(r"^(\w+(?:, \w+)*) = (\d+(?:, \d+)*)$", (ROOT / "examples" / "quote.py").read_text(), re.MULTILINE).groups()
    if [*zip(names.split(", "), numbers.split(", "))] != [(f"{name}_LENGTH", length) for name, length in lengths]:
        yield "the lengths of include/motmotdivan.h and examples/quote.py"
    listed = [int(number) for number in re.findall(r"^ +(\d+)  [a-z]", header, re.MULTILINE)]
    if listed != sorted(set().union(*CALLS.values())):
        yield "the refusals of include/motmotdivan.h and those of the two functions"
    in_order = {name: in_words(words) for name, words in re.findall(r"^- `(motmotdivan_\w+)`: (.*(?:\n  .*)*)", state, re.MULTILINE)}
    if in_order != CALLS:
        yield f"the order of refusals in docs/STATE.md, which has {in_order}"
    rows = [int(number) for number in re.findall(r"^\| (\d+) \|", sheet, re.MULTILINE)]
    paragraphs = [int(number) for number in re.findall(r"^### (\d+): ", sheet, re.MULTILINE)]
    if rows != paragraphs or rows != [*range(1, len(rows) + 1)] or not {*rows} >= {*listed}.union(*REFUSALS.values()):
        yield "the refusals of docs/SHEET.md: its table, its paragraphs, include/motmotdivan.h, and those that the programs print"


def in_words(words):
    """The numbers of refusals in a sentence, single ones and `1 to 7`. Those of three digits, and `2,048`, are lengths."""
    found = []
    for first, last in re.findall(r"\b(\d{1,2})(?: to (\d))?\b(?!,\d)", words):
        found += range(int(first), int(last or first) + 1)
    return found


def main():
    parser = argparse.ArgumentParser(description=__doc__, formatter_class=argparse.RawDescriptionHelpFormatter)
    parser.add_argument("--binary", required=True, help="the program `rate`")
    parser.add_argument("--tidy", required=True, help="the program `tidy`")
    parser.add_argument("--fleet", required=True, help="the program `fleet`")
    parser.add_argument("--cut", required=True, help="the program `cut`")
    parser.add_argument("--sisters", required=True, help="the program `sisters`")
    parser.add_argument("--formula", required=True, help="the program `formula`")
    arguments = parser.parse_args()
    paths = {program: getattr(arguments, "binary" if program == "rate" else program) for program in PROGRAMS.values()}
    binaries = {"cat": "cat", **{program: Path(path).resolve() for program, path in paths.items()}}
    readme, classes, sheet = ROOT / "README.md", ROOT / "examples" / "README.md", ROOT / "docs" / "SHEET.md"
    examples = [laid_out(readme), laid_out(sheet), *blocks(sheet)]
    examples += [example for document in (readme, classes, sheet) for example in commands(document)]
    passed = failed = 0
    for name, program, given, expected in examples:
        got = subprocess.run([binaries[program]], input=given, stdout=subprocess.PIPE, timeout=60).stdout
        if got == expected:
            passed += 1
        else:
            failed += 1
            print(f"{name}: input\n{given.decode()}--- the document says\n{expected.decode()}--- got\n{got.decode('latin-1')}")
    missing = unshown(examples)
    dinghy = ROOT / "examples" / "dinghy.in"
    if examples[0][2:] != (dinghy.read_bytes(), dinghy.with_suffix(".out").read_bytes()):
        missing.append("examples/dinghy in README.md as it stands")
    for what in missing:
        print(f"no example: {what}")
    different = [*disagreed()]
    for what in different:
        print(f"not the same: {what}")
    print(f"{passed} passed, {failed + len(missing) + len(different)} failed")
    sys.exit(bool(failed or missing or different))


if __name__ == "__main__":
    main()
