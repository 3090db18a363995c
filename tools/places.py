#!/usr/bin/env python3
"""Counts the places of docs/DESIGN-PASS.md in the sources: places.py [--list] [COMMIT].

Without a commit it reads the files as they lie. For each point it prints how many places it finds, crate by crate; with --list each place, too. It reads shapes and
not meanings, so that what it finds is a list to be read: the page says of each what was done with it.
"""
import collections
import os
import re
import subprocess
import sys

LIST = '--list' in sys.argv
COMMIT = next((a for a in sys.argv[1:] if not a.startswith('--')), None)


def sources():
    if COMMIT:
        names = subprocess.run(['git', 'ls-tree', '-r', '--name-only', COMMIT, 'crates'], capture_output=True, text=True, check=True).stdout.split()
    else:
        names = subprocess.run(['git', 'ls-files', '-co', '--exclude-standard', 'crates'], capture_output=True, text=True, check=True).stdout.split()
    for name in names:
        if re.fullmatch(r'crates/\w+/src/.*\.rt', name) and (COMMIT or os.path.exists(name)):
            text = subprocess.run(['git', 'show', f'{COMMIT}:{name}'], capture_output=True, text=True, check=True).stdout if COMMIT else open(name).read()
            yield name, text.split('#[cfg(test)]')[0]


FILES = dict(sources())
FOUND = collections.defaultdict(list)


def place(point, name, text, at, what):
    FOUND[point].append((name.split('/')[1], f'{name}:{text.count(chr(10), 0, at) + 1}', what))


def block(text, at):
    """From the first brace at or after `at` to the one that closes it."""
    start = text.index('{', at)
    depth = 0
    for i in range(start, len(text)):
        depth += {'{': 1, '}': -1}.get(text[i], 0)
        if depth == 0:
            return text[start:i + 1]
    return text[start:]


def functions(text):
    """Each function with a body: its name, head, body and place."""
    for m in re.finditer(r'^( *)((?:pub(?:\(crate\))? )?(?:extern "C" )?fn (\w+).*?)^\1\{$(.*?)^\1\}$|^( *)((?:pub(?:\(crate\))? )?fn (\w+)[^\n]*) \{$(.*?)^\5\}$', text, re.S | re.M):
        if m.group(3):
            yield m.group(3), m.group(2), m.group(4), m.start()
        else:
            yield m.group(7), m.group(6), m.group(8), m.start()


NONE = {'Bad', 'Refused', 'Fault', 'Unknown', 'Not', 'Nothing', 'Stuck', 'Absent'}
skeletons = collections.defaultdict(list)
clauses = collections.defaultdict(list)
groups = collections.defaultdict(list)

for name, text in FILES.items():
    bare = re.sub(r'//[^\n]*', lambda m: ' ' * len(m.group()), text)
    # 1: own enums of the shape of Option or Result
    for m in re.finditer(r'enum (\w+)', bare):
        variants = re.findall(r'^ +(\w+)', block(bare, m.end()), re.M)
        if NONE & set(variants):
            place('1 enums', name, text, m.start(), m.group(1))
    # 1: a flag, or an outcome, with a value beside it
    for m in re.finditer(r'struct (\w+)', bare):
        if ';' in bare[m.end():].split('{')[0]:
            continue
        fields = re.findall(r'(\w+): ([^,\n]+)', block(bare, m.end()))
        if len(fields) > 1 and any(t.strip() == 'bool' or t.strip() == 'Outcome' or f in ('finite', 'code') for f, t in fields):
            place('1 flags', name, text, m.start(), m.group(1))
        # 6: a buffer with a length beside, parallel arrays
        arrays = [f for f, t in fields if t.strip().startswith('[')]
        counts = [f for f, t in fields if f in ('len', 'count')]
        if arrays and counts or len(arrays) > 1:
            place('6 structs', name, text, m.start(), m.group(1))
    # 1: a number that stands for "none"
    for m in re.finditer(r'^ *//[^\n]*\b(0|10|256|-1)\b (if|where|past)[^\n]*|^const NO_\w+: [iu]\d+[^\n]*', text, re.M):
        if re.search(r'\b(0|10|256) (if there|where there|past)|0 if|0 past|const NO_', m.group()):
            place('1 numbers', name, text, m.start(), m.group().strip()[:90])
    # 3: loops that count by hand
    for m in re.finditer(r'^( *)while ([^\n]*) \{$(.*?)^\1\}$', bare, re.S | re.M):
        counted = re.findall(r'^ *(\w+) [+-]= 1;', m.group(3), re.M)
        if any(re.search(rf'\b{c}\b', m.group(2)) for c in counted) or re.search(r'^ *a \+= 1;', m.group(3), re.M):
            place('3 loops', name, text, m.start(), 'while ' + m.group(2))
    for f, head, body, at in functions(bare):
        # 4: conversions, equality and order by hand
        lines = [x.strip() for x in body.strip().split('\n')]
        if len(lines) == 1 and re.fullmatch(r'\w+(\.\w+)* as \w+', lines[0]) or f in ('lesser', 'greater', 'same', 'year_byte', 'year_of_byte', 'of_engine', 'of_cut', 'of_fleet', 'answered', 'as_rating', 'even') \
                or (f in ('is_zero', 'number', 'place') and 'result' in head):
            place('4 by hand', name, text, at, f)
        # 6: a slice and a place in it
        if re.search(r'\w+: &(mut )?\[\w+\],\s*\w*(at|from|i): (usize|u16)', head):
            place('6 places in slices', name, text, at, f)
        if len(lines) > 5:
            tokens = re.findall(r'"[^"]*"|\w+|[^\s\w]', body)
            kept = {'let', 'mut', 'while', 'if', 'else', 'match', 'return', 'for', 'in', 'true', 'false', 'loop'}
            skeletons[tuple(t if not re.fullmatch(r'\w+|"[^"]*"', t) or t in kept else 'x' for t in tokens)].append((name, at, f))
        crate = name.split('/')[1]
        for c in re.findall(r'requires(?: \w+)? \{(.*?)\}\n', head, re.S):
            for part in c.split('×'):
                fact = re.sub(r'\s+', ' ', part).strip().strip('()')
                clauses[crate, fact].append((name, at, f))
        params = re.findall(r'(\w+): (&?(?:mut )?\[?[\w:; ]+\]?)', head.split('ensures')[0].split('requires')[0])
        for i in range(len(params) - 1):
            pair = tuple(p[1].replace('mut ', '') + ' ' + p[0] for p in params[i:i + 2])
            groups[crate, pair].append((name, at, f))
    # 7: a switch on which step to run
    for m in re.finditer(r'match (form|sign|job)\b', bare):
        place('7 switches', name, text, m.start(), m.group())

for found in skeletons.values():
    if len(found) > 1:
        name, at, f = found[0]
        place('2 twins', name, FILES[name], at, ', '.join(g for _, _, g in found))
for (crate, fact), found in clauses.items():
    if len(found) > 2:
        name, at, f = found[0]
        place('5 facts', name, FILES[name], at, f'{fact}: {len(found)}')
for (crate, pair), found in groups.items():
    if len(found) > 2:
        name, at, f = found[0]
        place('5 parameters', name, FILES[name], at, f'{", ".join(pair)}: {len(found)}')

for point in sorted(FOUND):
    places = FOUND[point]
    crates = collections.Counter(c for c, _, _ in places)
    print(f'{point}: {len(places)} ({", ".join(f"{c} {n}" for c, n in crates.items())})')
    if LIST:
        for _, where, what in places:
            print(f'    {where}: {what}')
