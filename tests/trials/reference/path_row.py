"""Path rows, from document 01 ("Paths"): taken apart, made from their parts, and compared, with turns as document 02 (K12) has them and the number of equal steps
that its K7 asks for."""
import re

from reference.gym_file import EDGE, ORDER, Refused, read

NUMBER = rb"(?:0|[1-9][0-9]{0,4})"
ROW = re.compile(b"(%s) (%s)((?:[A-Z]%s)*)" % (NUMBER, NUMBER, NUMBER))
STEP = re.compile(b"([A-Z])(%s)" % NUMBER)


def row_of(row):
    """The mark, the start and the steps of a path row, or refusal 8."""
    m = ROW.fullmatch(row)
    if not m or len(row) > 256:
        raise Refused(8)
    mark, start = int(m[1]), int(m[2])
    steps = [(letter, int(scope)) for letter, scope in STEP.findall(m[3])]
    if mark > 65535 or len(steps) > 63 or any(s > 63 for s in [start] + [s for _, s in steps]):
        raise Refused(8)
    return mark, start, steps


def row_from(mark, start, letters, scopes, count):
    """The path row of a mark, a start and so many steps, each a letter and a scope, or refusal 8. Past the last of either a step has 0."""
    at = lambda s, i: s[i] if i < len(s) else 0
    well = mark <= 65535 and start <= 63 and count <= 63
    if not well or not all(65 <= at(letters, i) <= 90 and at(scopes, i) <= 63 for i in range(count)):
        raise Refused(8)
    return b"%d %d" % (mark, start) + b"".join(b"%c%d" % (at(letters, i), at(scopes, i)) for i in range(count))


def turns_of(edges):
    """The turns of edge rows, each by its from, label and to."""
    return {(at, label, to): turn for at, label, turn, to in edges}


def equal_steps(p, q):
    """How many steps two paths, each its start and its steps, share from the start on, in letter and scope; none if they start apart."""
    return next((n for n, (a, b) in enumerate(zip(p[1], q[1])) if a != b), min(len(p[1]), len(q[1]))) if p[0] == q[0] else 0


def more_specific(order, turns, p, q):
    """Is the path p, its start and its steps, more specific than q? `order` holds pairs of ends; a letter that is not listed is in none. `turns` holds those of
    the edge rows; a step that is none has no turn. At one label the higher turn is preferred."""
    if p[0] != q[0] or p[1] == q[1]:
        return False
    n = equal_steps(p, q)
    at = p[1][n - 1][1] if n else p[0]
    end = lambda steps: steps[n][0] if n < len(steps) else b"$"
    turn = lambda steps: turns.get((at, *steps[n])) if n < len(steps) else None
    a, b = turn(p[1]), turn(q[1])
    later = end(p[1]) == end(q[1]) and a is not None and b is not None and a > b
    return later or (end(p[1]), end(q[1])) in order


def compared(text, a, b, n, m):
    """The answer, and how many records go into each table; or Refused."""
    g = read(text)
    order, turns = set(g.rows[ORDER]), turns_of(g.rows[EDGE])
    p, q = row_of(a), row_of(b)
    if len(p[2]) > n or len(q[2]) > m:
        raise Refused(9)
    specific = lambda a, b: more_specific(order, turns, a[1:], b[1:])
    word = b"first" if specific(p, q) else b"second" if specific(q, p) else b"neither"
    return b"%s %d" % (word, equal_steps(p[1:], q[1:])), len(p[2]), len(q[2])
