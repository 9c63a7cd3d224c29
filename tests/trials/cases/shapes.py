"""Graphs in which every path is a beginning, with too many of them to list, and how many there are by another count than an enumerator's: a sum along a graph
without circles, falling factorials, the paths of a grid by its frontier."""
from cases.gyms import SMALLEST, changed


def plain(**sections):
    """A gym of two labels in which every path is lawful, without an order and with the name nowhere."""
    rows = dict(s0=["I", "P"], s2=["0 I 0", "0 P 0"], s3=["0"], s6=[], s7=[], s8=["0 a"])
    return changed(SMALLEST, **dict(rows, **sections))


def chain(scopes, **sections):
    return plain(s4=[str(scopes)], s5=["%d P %d" % (s, s + 1) for s in range(scopes - 1)], **sections)


def behind(edges, start):
    """How many paths a graph without circles has from a scope, in which every path is a beginning."""
    memo = {}

    def at(s):
        if s not in memo:
            memo[s] = 1 + sum(at(to) for from_, _, to in edges if from_ == s)
        return memo[s]

    return at(start)


def graph_of(edges, labels, scopes):
    """Every path lawful, no order, the name nowhere."""
    rows = ["%d %s %d" % e for e in sorted(edges, key=lambda e: (e[0], labels.index(e[1]), e[2]))]
    return plain(s0=list(labels), s2=["0 %s 0" % l for l in labels], s4=[str(scopes)], s5=rows)


def of_number(number, labels):
    """A graph with so many paths from 0: from each scope by every label to the next, and, for what is left over, by some labels to the last."""
    base, last = len(labels), 63
    edges, s = [], 0
    while number > 1:
        rest = (number - 1) % base
        edges += [(s, labels[i], last) for i in range(rest)]
        number = (number - 1 - rest) // base
        if number:
            edges += [(s, l, s + 1) for l in labels]
        s += 1
    assert s < last
    return edges


def factorial_sum(scopes):
    """The paths from one scope among so many that all lead to one another: 1 + (n-1) + (n-1)(n-2) + .."""
    total, term = 1, 1
    for left in range(scopes - 1, 0, -1):
        term *= left
        total += term
    return total


def clique(scopes):
    return [(a, "I", b) for a in range(scopes) for b in range(scopes) if a != b]


def routes(rungs):
    """From each rung to the next over either of two scopes: twice what lies behind it and 3 more."""
    return [e for r in range(rungs) for e in [(3 * r, "I", 3 * r + 1), (3 * r, "I", 3 * r + 2), (3 * r + 1, "P", 3 * r + 3), (3 * r + 2, "P", 3 * r + 3)]]


def grid(rows, columns):
    near = lambda y, x: [(y + b, x + a) for a, b in ((1, 0), (0, 1), (-1, 0), (0, -1)) if 0 <= y + b < rows and 0 <= x + a < columns]
    return [(columns * y + x, "I", columns * b + a) for y in range(rows) for x in range(columns) for b, a in near(y, x)]


# a scope inside a part of a path, and the one behind every scope where a path may end
INSIDE, BEHIND = -1, -2


def paths_in_grid(rows, columns):
    """The paths from a corner of a grid to anywhere, by its frontier: each is one to a scope more, BEHIND, that every scope leads to. Links are taken or not,
    one after the other. Of the scopes that have links to come, the first one and BEHIND, the other end of the part of the path that they are an end of is kept,
    or the scope itself where no link of it is taken."""
    last = lambda s: s + columns if s + columns < rows * columns else s + (s % columns < columns - 1)
    total, states = 0, {((BEHIND, BEHIND),): 1}
    for s in range(rows * columns):
        states = {tuple(sorted(mates + ((s, s),))): times for mates, times in states.items()}
        for a in [a for a, there in ((s - columns, s >= columns), (s - 1, s % columns)) if there] + [BEHIND]:
            more = dict(states)
            for mates, times in states.items():
                mate = dict(mates)
                p, q = mate[a], mate[s]
                twice = (a in (0, BEHIND) and p != a) or (s == 0 and q != s)
                if INSIDE in (p, q) or p == s or twice:
                    continue
                mate[a] = mate[s] = INSIDE
                mate[p], mate[q] = q, p
                if {p, q} != {0, BEHIND}:
                    key = tuple(sorted(mate.items()))
                    more[key] = more.get(key, 0) + times
                elif all(other in (t, INSIDE) for t, other in mate.items() if t not in (0, BEHIND)):
                    total += times
            states = more
        kept = {}
        for mates, times in states.items():
            gone = [(t, other) for t, other in mates if t not in (0, BEHIND) and last(t) == s]
            if all(other in (t, INSIDE) for t, other in gone):
                key = tuple(x for x in mates if x not in gone)
                kept[key] = kept.get(key, 0) + times
        states = kept
    return total
