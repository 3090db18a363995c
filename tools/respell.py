#!/usr/bin/env python3
"""Brings the names of this repository's own definitions and lemmas to today's spelling: words in snake case.

usage: python3 tools/respell.py [ROOT]     run once, right after the kit's port.py, on its result

`rateOf` becomes `rate_of`, `sumOver-ext` `sum_over-ext`, `sumOverℚ` `sum_over_ℚ`; types and modules keep their capitals, and so does a
part that begins with one (`upTo-U` becomes `up_to-U`). The names are those that stand in the code of specs/ and proofs/; they are
respelled there, in the clauses and comments of src/, and in the must-fail edits. Names of Rattle source have no capitals inside, and stay.

A few lemmas (APART) would fall together with a definition then, since port.py had turned the dash of a plain word to `_`: they get it back.
"""
import os
import re
import sys

APART = ["box_of", "digit_and", "ends_of", "head_bytes", "high_sum", "left_by", "left_in", "low_sum", "minus_one", "no_line", "op_bytes", "pair_read", "refers_to"]
WORD = re.compile(r"[A-Za-z0-9_'ℤℚℕ]+")
# a name as it is written: words joined by dashes and signs
NAME = re.compile(r"[^\s(){}\[\],;.\"`λ∀⌜⌝]+")


def texts(root, endings):
    for folder, dirs, files in os.walk(os.path.join(root, "crates")):
        dirs[:] = sorted(d for d in dirs if d != "out")
        for f in sorted(files):
            if f.endswith(endings):
                yield os.path.join(folder, f)


def read(path):
    with open(path, encoding="utf-8", newline="") as f:
        return f.read()


def write(path, text):
    with open(path, "w", encoding="utf-8", newline="") as f:
        f.write(text)


def is_old(word):
    return re.match(r"[a-z]", word) and re.search(r"[a-z0-9ℤℚℕ][A-Z]|[a-z][ℤℚℕ]", word)


def respelled(word):
    word = re.sub(r"(?<=[a-z0-9ℤℚℕ])[A-Z]", lambda m: "_" + m.group().lower(), word)
    word = re.sub(r"(?<=[a-z])[ℤℚℕ]", lambda m: "_" + m.group(), word)
    return re.sub(r"(?<=[a-z])2014", "_2014", word)


def code(line):
    """A line of antt without its comment."""
    return "" if line.lstrip().startswith("--") else line.split(" -- ")[0]


def main(root):
    antt = list(texts(root, (".antt",)))
    old = set()
    for path in antt:
        for line in read(path).splitlines():
            for name in NAME.findall(code(line)):
                old |= {w for w in WORD.findall(name) if is_old(w)}
    new = {w: respelled(w) for w in old}
    for path in antt:
        text = read(path)
        for w in APART:
            # as a whole name, and not as a part of a path of generated names
            text = re.sub(rf"(?<![\w'.·-]){w}(?![\w'·-])", w.replace("_", "-"), text)
        write(path, text)
    for path in texts(root, (".antt", ".rt", ".edit")):
        text = read(path)
        turned = WORD.sub(lambda m: new.get(m.group(), m.group()), text)
        if turned != text:
            write(path, turned)
    print(f"respell: {len(new)} names, and {len(APART)} kept apart")


if __name__ == "__main__":
    main(sys.argv[1] if len(sys.argv) > 1 else ".")
