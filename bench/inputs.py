#!/usr/bin/env python3
"""Makes the benchmark's gym files: `inputs.py DIRECTORY`.

The same files come out on every run and every machine: random choices come from
the xorshift generator below. `hard/` in the directory holds files that a search over simple paths answers late
or not at all (see `largest` with one accepting state, and `endless`).
"""
import os
import sys


class Rng:
    """xorshift64*, seeded."""

    def __init__(self, seed):
        self.x = (seed * 0x9E3779B97F4A7C15 + 1) % 2**64

    def below(self, n):
        x = self.x
        x ^= x >> 12
        x ^= (x << 25) % 2**64
        x ^= x >> 27
        self.x = x
        return ((x * 0x2545F4914F6CDD1D) % 2**64 >> 33) % n

    def pick(self, items):
        return items[self.below(len(items))]

    def some(self, items, count):
        """`count` different items, in the order of a shuffle."""
        items = list(items)
        for i in range(min(count, len(items))):
            j = i + self.below(len(items) - i)
            items[i], items[j] = items[j], items[i]
        return items[:count]


class Gym:
    """A gym file in the making. Ends are -1 for `$` and the label's number otherwise. In a file with kinds a name is `kind name`. `turns` is
    None, or, in a file with turns, the turn of each edge that has another than 0."""

    def __init__(self, labels, scopes):
        self.labels, self.scopes, self.kinds, self.turns = labels, scopes, False, None
        self.order, self.trans, self.accepts = set(), {}, set()
        self.edges, self.decls, self.open, self.queries = set(), set(), set(), []

    def total_order(self, ends):
        for i, a in enumerate(ends):
            for b in ends[i + 1:]:
                self.order.add((a, b))

    def end(self, e):
        return '$' if e < 0 else self.labels[e]

    def text(self):
        lab = self.labels
        assert len(self.order) <= 36 and len(self.trans) <= 128 and len(self.edges) <= 512
        assert len(self.decls) <= 512 and len(self.open) <= 576 and len(self.queries) <= 256
        out = ['label'] + list(lab)
        out += ['less more'] + [f'{self.end(a)} {self.end(b)}' for a, b in sorted(self.order)]
        out += ['state label next'] + [f'{s} {lab[l]} {n}' for (s, l), n in sorted(self.trans.items())]
        out += ['accept'] + [f'{s}' for s in sorted(self.accepts)]
        out += ['scopes', f'{self.scopes}']
        if self.turns is None:
            out += ['from label to'] + [f'{a} {lab[l]} {b}' for a, l, b in sorted(self.edges)]
        else:
            rows = sorted((a, l, self.turns.get((a, l, b), 0), b) for a, l, b in self.edges)
            out += ['from label turn to'] + [f'{a} {lab[l]} {t} {b}' for a, l, t, b in rows]
        out += ['at kind name mark' if self.kinds else 'at name mark'] + [f'{s} {n} {m}' for s, n, m in sorted(self.decls)]
        out += ['at open'] + [f'{s} {self.end(e)}' for s, e in sorted(self.open)]
        out += ['start kind seek' if self.kinds else 'start seek'] + [f'{s} {n}' for s, n in self.queries]
        text = '\n'.join(out) + '\n'
        assert len(text) <= 32768
        return text


I, P = 0, 1


def imports_and_parents(scopes):
    """Labels I and P, the automaton P*I*, and the order of document 01's example."""
    g = Gym('IP', scopes)
    g.total_order([-1, I, P])
    g.trans = {(0, I): 1, (0, P): 0, (1, I): 1}
    g.accepts = {0, 1}
    return g


def example():
    g = imports_and_parents(5)
    g.edges = {(1, P, 0), (2, I, 4), (2, P, 1), (3, P, 1)}
    g.decls = {(0, 'hours', 5), (1, 'service', 10), (2, 'service', 21), (4, 'hours', 40)}
    g.open = {(3, -1)}
    g.queries = [(2, 'service'), (3, 'service'), (2, 'hours')]
    return g


def realistic():
    """A site, 6 walls, 24 lanes and 33 makers' profiles that import their family's base."""
    r = Rng(1)
    g = imports_and_parents(64)
    site, walls, lanes, profiles = 0, range(1, 7), range(7, 31), range(31, 64)
    names = ['service', 'limit', 'hours', 'cycles', 'brake', 'webbing', 'firmware', 'recall']
    for n, name in enumerate(names[:3] + ['inspector']):
        g.decls.add((site, name, 100 + n))
    for w in walls:
        g.edges.add((w, P, site))
        g.edges.add((w, I, profiles[w]))
        for name in r.some(names, 2):
            g.decls.add((w, name, 200 + w))
    bases = profiles[:9]
    for p in profiles[9:]:
        for b in r.some(bases, 1 + (r.below(4) == 0)):
            g.edges.add((p, I, b))
        for name in r.some(names, 2 + r.below(3)):
            g.decls.add((p, name, 1000 + 10 * p + r.below(10)))
    for i, b in enumerate(bases):
        if i > 0:
            g.edges.add((b, I, bases[r.below(i)]))
        for name in r.some(names, 3):
            g.decls.add((b, name, 2000 + 10 * b + r.below(10)))
    g.edges.add((bases[0], I, bases[8]))  # families that import one another
    for n, lane in enumerate(lanes):
        g.edges.add((lane, P, walls[n // 4]))
        for p in r.some(profiles[9:], 1 + (r.below(4) == 0)):
            g.edges.add((lane, I, p))
        if r.below(3) == 0:
            g.decls.add((lane, r.pick(names), 3000 + lane))
    for lane in r.some(lanes, 4):
        g.open.add((lane, -1))
    for w in r.some(walls, 2):
        g.open.add((w, I))
    for p in r.some(profiles, 5):
        g.open.add((p, r.pick([-1, I])))
    for lane in lanes:
        for name in names:
            g.queries.append((lane, name))
    for w in walls:
        g.queries.append((w, 'inspector'))
    g.queries += [(site, 'hours'), (lanes[0], 'unknown')]
    return g


def with_kinds(g):
    """The same file with counters and limits: each declaration's kind is drawn, and each name sought in one kind or the other."""
    r = Rng(8)
    g.kinds = True
    g.decls = {(s, f'{r.pick("cl")} {n}', m) for s, n, m in sorted(g.decls)}
    g.queries = [(s, f'{r.pick("cl")} {n}') for s, n in g.queries]
    return g


def with_turns(g):
    """The same file with kinds and turns: each import's turn is drawn, and more lanes import a second profile, so that the later one wins."""
    r = Rng(12)
    for lane in range(7, 31):
        g.edges.add((lane, I, 40 + r.below(24)))
    g = with_kinds(g)
    g.turns = {(a, l, b): r.below(4) for a, l, b in sorted(g.edges) if l == I}
    return g


def clique(name_in_site, open_profile, parent_after_import=False):
    """Twenty profiles that all import one another, a lane that imports three of them, a site."""
    g = imports_and_parents(22)
    site, lane, profiles = 0, 1, range(2, 22)
    g.edges = {(a, I, b) for a in profiles for b in profiles if a != b}
    g.edges |= {(lane, P, site), (lane, I, 2), (lane, I, 9), (lane, I, 21)}
    if parent_after_import:
        g.trans = {(0, I): 0, (0, P): 0}
        g.edges |= {(p, P, site) for p in profiles}
    g.decls = {(p, 'limit', p) for p in profiles}
    if name_in_site:
        g.decls.add((site, 'service', 10))
    if open_profile:
        g.open.add((13, -1))
    g.queries = [(lane, 'service')] + [(p, 'service') for p in profiles]
    return g


def ladder(rungs, ordered, odd=False, marks=(1, 2)):
    """Scopes in a row, from each two labels to the next, the name in the last one, with these marks."""
    g = Gym('AB', rungs + 1)
    g.trans = {(0, 0): 0, (0, 1): 0}
    g.accepts = {0}
    if odd:  # only paths with an odd number of B
        g.trans = {(0, 0): 0, (0, 1): 1, (1, 0): 1, (1, 1): 0}
        g.accepts = {1}
    if ordered:
        g.order = {(0, 1)}
    for i in range(rungs):
        g.edges |= {(i, 0, i + 1), (i, 1, i + 1)}
    g.decls = {(rungs, 'service', mark) for mark in marks}
    g.open = {(rungs, -1)}
    g.queries = [(s, 'service') for s in range(rungs + 1)]
    return g


def exit_clique(size, by_label):
    """A clique that can be left only through a scope that declares the name; behind that one an
    open scope, cut off by the declaration, or (`by_label`) by a preferred edge to it."""
    g = Gym('IP', size + 4)
    g.total_order([-1, I, P])
    g.trans = {(0, I): 0, (0, P): 0}
    g.accepts = {0}
    start, members, way_out, behind, other = 0, range(1, size + 1), size + 1, size + 2, size + 3
    g.edges = {(a, I, b) for a in members for b in members if a != b}
    g.edges |= {(start, I, 1), (size, I, way_out), (way_out, P, behind), (way_out, I, other)}
    g.decls = {(other if by_label else way_out, 'service', 7)}
    g.open = {(behind, -1), (behind, P)}
    g.queries = [(start, 'service')] + [(m, 'service') for m in members] + [(behind, 'service')]
    return g


def grid(four_labels, side=8):
    """Edges all four ways, the name in the far corner."""
    g = Gym('ESWN' if four_labels else 'E', side * side)
    ways = [(1, 0), (0, 1), (-1, 0), (0, -1)]
    labels = range(len(g.labels))
    g.trans = {(0, l): 0 for l in labels}
    g.accepts = {0}
    g.total_order([-1] + list(labels))
    for y in range(side):
        for x in range(side):
            for w, (dx, dy) in enumerate(ways):
                if 0 <= x + dx < side and 0 <= y + dy < side:
                    g.edges.add((side * y + x, w if four_labels else 0, side * (y + dy) + x + dx))
    g.decls = {(side * side - 1, 'service', 9)}
    g.open = {(side * side - 1, 0)}
    g.queries = [(s, 'service') for s in range(0, side * side, 9)]
    return g


def largest(seed, ordered, opened, accepts=16, holders=32, regular=False, end_last=False):
    """Every section at its limit. `holders` scopes declare each sought name; `accepts` states
    accept; `regular`: from each scope one edge of each label, and each label permutes states."""
    r = Rng(seed)
    g = Gym('ABCDEFGH', 64)
    if ordered:
        g.total_order(list(range(8)) + [-1] if end_last else range(-1, 8))
    if regular:
        for l in range(8):
            for s, n in enumerate(r.some(range(16), 16)):
                g.trans[(s, l)] = n
            for a, b in enumerate(r.some(range(64), 64)):
                g.edges.add((a, l, b))
    else:
        for s in range(16):
            for l in range(8):
                g.trans[(s, l)] = r.below(16)
        while len(g.edges) < 512:
            a, b = r.below(64), r.below(64)
            if a != b:
                g.edges.add((a, r.below(8), b))
    g.accepts = set(r.some(range(16), accepts))
    names = [f'service_{i:02}_limit' for i in range(max(1, 512 // holders))]
    for name in names[:64]:
        for s in r.some(range(64), holders):
            g.decls.add((s, name, 10000 + r.below(55536)))
    while len(g.decls) < 512:
        g.decls.add((r.below(64), f'other_{r.below(10)}_filler'.ljust(16, 'x'), 10000 + r.below(55536)))
    if opened:
        g.open = {(s, e) for s in range(64) for e in range(-1, 8)}
    for q in range(256):
        g.queries.append((r.below(64), names[q % min(len(names), 64)]))
    return g


def longest():
    """The largest file in bytes: the longest names, marks and numbers everywhere."""
    r = Rng(99)
    g = largest(7, True, True)
    g.decls, g.queries = set(), []
    while len(g.decls) < 512:
        g.decls.add((10 + r.below(54), 'counter_of_' + f'{r.below(100000):05}', 10000 + r.below(55536)))
    g.edges = set()
    while len(g.edges) < 512:
        g.edges.add((10 + r.below(54), r.below(8), 10 + r.below(54)))
    names = sorted({n for _, n, _ in g.decls})
    g.queries = [(10 + r.below(54), r.pick(names)) for _ in range(256)]
    return g


def endless(size):
    """Only paths of 15 steps or more count, and the graph has none: from 0 into a clique of fewer
    than 15 scopes, the name in all of it. Walks that repeat a scope are long enough, so a table
    of walks does not see it, and whoever goes through simple paths goes through size! of them."""
    g = Gym('I', size + 1)
    g.trans = {(s, 0): min(s + 1, 15) for s in range(16)}
    g.accepts = {15}
    g.edges = {(a, 0, b) for a in range(1, size + 1) for b in range(1, size + 1) if a != b} | {(0, 0, 1)}
    g.decls = {(size, 'service', 1)}
    g.queries = [(0, 'service')]
    return g


def faulty_last_row():
    """The largest file with a last query at scope 64: all of it is read, and refused."""
    lines = longest().text().split('\n')
    lines[-2] = '64 ' + lines[-2].split(' ')[1]
    return '\n'.join(lines)


def cases(text, times):
    """Cases for the program of crate `trials`: a text read, and if it is accepted written back, `times` over. Each case after the
    first keeps the text of the one before."""
    room = 12288  # cells, the most that that program lends
    head = 'r {:<2x} {:<5x} {:<5x} {:<5x} {:<3x} {:<16x} {:<5x}\ncase\n'
    first = head.format(4, 0, len(text), len(text), 0, 0, room) + text + '\n'
    return first + (times - 1) * (head.format(4, len(text), 0, len(text), 0, 0, room) + '\n')


# Name, what it is, and what makes it. The sought name is declared in many scopes or, in the hard ones, in one.
RARE = dict(accepts=1, holders=1)
FILES = [
    ('empty', 'no text at all: what starting the program costs', lambda: ''),
    ('example', "document 01's example", example),
    ('realistic', 'a gym of 64 scopes with 200 queries', realistic),
    ('realistic_kinds', 'the same with kinds', lambda: with_kinds(realistic())),
    ('realistic_turns', 'the same with kinds and turns, and more imports', lambda: with_turns(realistic())),
    ('faulty_last_row', 'the largest file read whole, its last row refused', faulty_last_row),
    ('clique_nowhere', 'twenty profiles that all import one another, the name nowhere', lambda: clique(False, False)),
    ('clique_site', 'the same, the name in the site alone', lambda: clique(True, False)),
    ('clique_site_open', 'the same, and an open profile', lambda: clique(True, True)),
    ('clique_site_any', 'the same, and from each profile to the site', lambda: clique(True, True, True)),
    ('ladder', 'thirty rungs with two routes each, no order', lambda: ladder(30, False)),
    ('ladder_one', 'the same, all of them to one row', lambda: ladder(30, False, marks=(1,))),
    ('ladder_ordered', 'the ladder with an order', lambda: ladder(30, True)),
    ('ladder_odd', 'the same, one route an odd number of times', lambda: ladder(30, True, True)),
    ('exit_clique', 'twenty scopes left only through a declaration', lambda: exit_clique(20, False)),
    ('exit_clique_small', 'the same with six scopes', lambda: exit_clique(6, False)),
    ('exit_clique_label', 'twenty scopes left only beside a preferred edge', lambda: exit_clique(20, True)),
    ('grid', '8 by 8, one label, the name in the far corner', lambda: grid(False)),
    ('grid_ordered', 'the same with a label for each way', lambda: grid(True)),
    ('longest_file', 'the largest file in bytes', longest),
    ('largest_all', 'every section full, all pairs', lambda: largest(2, True, True)),
    ('largest_all_closed', 'the same, nothing open', lambda: largest(2, True, False)),
    ('largest_all_last', 'all pairs, `$` the last end', lambda: largest(2, True, True, end_last=True)),
    ('largest_none', 'every section full but the order, no pair', lambda: largest(2, False, True)),
    ('largest_none_closed', 'the same, nothing open', lambda: largest(2, False, False)),
    ('largest_all_regular', 'all pairs, one accepting state, each name once, one edge of each label',
     lambda: largest(4, True, True, regular=True, **RARE)),
    ('largest_all_regular_last', 'the same, `$` the last end',
     lambda: largest(4, True, True, regular=True, end_last=True, **RARE)),
    ('hard/largest_none_rare', 'no pair, one accepting state, each name once', lambda: largest(3, False, True, **RARE)),
    ('hard/largest_none_rare_closed', 'the same, nothing open', lambda: largest(3, False, False, **RARE)),
    ('hard/largest_all_rare', 'all pairs, one accepting state, each name once', lambda: largest(3, True, True, **RARE)),
    ('hard/largest_all_rare_closed', 'the same, nothing open', lambda: largest(3, True, False, **RARE)),
    ('hard/largest_none_some', 'no pair, four accepting states, each name in eight scopes', lambda: largest(11, False, True, accepts=4, holders=8)),
    ('hard/largest_all_some', 'all pairs, four accepting states, each name in eight scopes', lambda: largest(11, True, True, accepts=4, holders=8)),
    ('hard/endless_8', 'paths of 15 steps or more among 8 scopes', lambda: endless(8)),
    ('hard/endless_10', 'the same among 10 scopes', lambda: endless(10)),
    ('hard/endless_14', 'the same among 14 scopes', lambda: endless(14)),
]
CASES = [
    ('read', 'the largest file read 40 times, its last row refused (trial programs)', lambda: cases(faulty_last_row(), 40)),
    ('read_write', 'the largest file read and written back 40 times (trial programs)', lambda: cases(longest().text(), 40)),
]


def make(where):
    os.makedirs(os.path.join(where, 'hard'), exist_ok=True)
    for files, suffix in (FILES, '.gym'), (CASES, '.cases'):
        for name, _, made in files:
            text = made()
            with open(os.path.join(where, name + suffix), 'w', newline='\n') as f:
                f.write(text if isinstance(text, str) else text.text())


if __name__ == '__main__':
    make(sys.argv[1])
