#!/usr/bin/env python3
"""forms.py [FOLDER] : counts, in the sources of each crate, the older forms that docs/DESIGN-PASS.md speaks of, and
names each place. With --places it prints them, a line each; without it only the sums."""
import collections
import glob
import os
import re
import sys

words = [a for a in sys.argv[1:] if not a.startswith('-')]
root = words[0] if words else '.'
places = collections.defaultdict(list)


def code_of(path):
    """the text without comments and without the clauses of contracts, line for line"""
    out, clause = [], 0
    for line in open(path):
        bare = re.sub(r"^\s*//.*|(?<!b')(?<!\")//.*", '', line.rstrip('\n'))
        if clause or re.match(r'\s*(requires|ensures)\b', bare):
            clause += bare.count('{') - bare.count('}')
            out.append('')
        elif bare.startswith('ghost use'):
            out.append('')
        else:
            out.append(bare)
    return out


def clauses_of(path):
    """the clauses of contracts, each on one line"""
    found, kept, depth = [], '', 0
    for line in open(path):
        if depth or re.match(r'\s*requires\b', line):
            kept += ' ' + line.strip()
            depth += line.count('{') - line.count('}')
            if not depth:
                found.append(' '.join(kept.split()))
                kept = ''
    return found


def block(lines, i):
    """the lines of the block that opens in line i, and the line after it"""
    depth, j = 0, i
    while j < len(lines):
        depth += lines[j].count('{') - lines[j].count('}')
        j += 1
        if depth <= 0:
            return lines[i:j], j
    return lines[i:], j


def note(point, path, i, what):
    places[point].append('%s:%d: %s' % (os.path.relpath(path, root), i + 1, what.strip()))


def types(path, lines):
    for i, line in enumerate(lines):
        m = re.match(r'\s*(?:pub(?:\(crate\))? )?enum (\w+)', line)
        if m:
            body = [x.strip().rstrip(',') for x in block(lines, i)[0][1:-1] if x.strip()]
            bare = [b for b in body if '(' not in b]
            if any(b.startswith('Refused') for b in body):
                note('1a enum of the shape of Result', path, i, line)
            elif len(body) == 2 and len(bare) == 1:
                note('1b enum of the shape of Option', path, i, line)
        m = re.match(r'\s*(?:pub(?:\(crate\))? )?struct (\w+)', line)
        if m and line.endswith('{'):
            body = block(lines, i)[0][1:-1]
            if any(re.search(r': bool,', b) for b in body):
                note('1c flag with a value beside it', path, i, line)
            if any(re.search(r'\brefusal: ', b) for b in body):
                note('1d number for a refusal', path, i, line)


def numbers(path, lines):
    for i, line in enumerate(lines):
        if re.search(r'Refused\((\d+|[A-Z_]+)\)|refusal: \d+|refuse\(\d+\)', line):
            note('1d number for a refusal', path, i, line)
        if re.search(r'return [2-8];$|(?:refusal|fault|\ba) != (?:0|NO_FAULT)', line):
            note('1d number for a refusal', path, i, line)
        if re.match(r'\s*(?:b\'.\'|\d+) => ', line) and re.search(r'match (?:content|kind)\b', ' '.join(lines[max(0, i - 14):i])):
            note('1e number for a kind', path, i, line)


def loops(path, lines):
    for i, line in enumerate(lines):
        m = re.match(r'\s*while (.*) \{$', line)
        if not m:
            continue
        head = set(re.findall(r'\b[a-z_]\w*\b', m.group(1)))
        body = '\n'.join(block(lines, i)[0][1:])
        if any(re.search(r'(?<![.\w])%s [+-]= (1|ROW);' % v, body) for v in head):
            note('3 loop that counts by hand', path, i, line)


def by_hand(path, lines):
    for i, line in enumerate(lines):
        if re.search(r'fn (same|is_same|same_name|same_found)\b', line):
            note('4 equality by hand', path, i, line)
        if re.search(r'fn (put_cells|copy_cells|copy_fitting|move_down|move_up|move_cells|lesser|joined|byte_at|cell)\b', line):
            note('4 library method by hand', path, i, line)


def buffers(path, lines):
    text = '\n'.join(lines)
    for m in re.finditer(r'fn (\w+)(?:<[^>]*>)?\(([^)]*)\)', text):
        if re.search(r'out: &(\'\w+ )?mut \[u8\],\s*[nk]: usize', m.group(2)):
            note('6a lent bytes with a place beside them', path, text[:m.start()].count('\n'), m.group(0).replace('\n', ' ')[:90])


def twins(path, lines):
    for i, line in enumerate(lines):
        if re.search(r'\[0u64; SHORT_CELLS\]', line):
            note('2 a short and a long table', path, i, line)


asked = collections.Counter()
where = collections.defaultdict(list)
for path in sorted(glob.glob(root + '/crates/*/src/**/*.rt', recursive=True)):
    lines = code_of(path)
    for f in (types, numbers, loops, by_hand, buffers, twins):
        f(path, lines)
    for c in clauses_of(path):
        fact = re.sub(r'^requires \w* ?\{ ?(.*?) ?\}$', r'\1', c)
        asked[fact] += 1
        where[fact].append(os.path.relpath(path, root))
for fact, n in asked.most_common():
    if n >= 3:
        for f in where[fact]:
            places['5 fact asked by three contracts or more'].append('%s: %s' % (f, fact))
for point in sorted(places):
    print('%5d  %s' % (len(places[point]), point))
    if '--places' in sys.argv:
        for p in places[point]:
            print('         ' + p)
