"""Scopes numbered for storage, from document 02 (K13): the list, the file under it, and the way back from both.

The list is made by what it is, without a queue: as long as scopes in it lead to one outside, the next is the one met first, by the earliest scope of the list
and its first row."""
import re

from reference.gym_file import DECLARED, EDGE, NUMBER, OPEN, QUERY, SCOPES, Refused, read

# the columns of a row that hold scopes
SCOPE_COLUMNS = {EDGE: (0, 3), DECLARED: (0,), OPEN: (0,), QUERY: (0,)}
LIST = re.compile(rb"was\n(?:" + NUMBER + rb"\n)*")


def met_first(edges, scopes):
    """The scope outside the list that is met first, if any is."""
    for s in scopes:
        for from_, _, _, to in edges:
            if from_ == s and to not in scopes:
                return to
    return None


def sequence(g):
    """The old number of each new scope."""
    queries = g.rows[QUERY]
    scopes = [queries[0][0] if queries else 0]
    while (to := met_first(g.rows[EDGE], scopes)) is not None:
        scopes.append(to)
    return scopes + [s for s in range(g.rows[SCOPES][0][0]) if s not in scopes]


def renamed(g, number):
    """The text of the graph in which each scope has the number given for it. Rows are sorted again, but for the queries."""
    for k, columns in SCOPE_COLUMNS.items():
        rows = [tuple(number[x] if i in columns else x for i, x in enumerate(row)) for row in g.rows[k]]
        g.rows[k] = rows if k == QUERY else sorted(rows, key=lambda row: g.key(k, row))
    return g.text()


def renumber(text):
    """The file and the list, or Refused: 1 to 6."""
    g = read(text)
    scopes = sequence(g)
    number = {old: new for new, old in enumerate(scopes)}
    return renamed(g, number), b"was\n" + b"".join(b"%d\n" % s for s in scopes)


def listed(was, count):
    """The numbers of a list that has each scope once, or 17."""
    if not LIST.fullmatch(was):
        raise Refused(17)
    scopes = [int(line) for line in was.split(b"\n")[1:-1]]
    if sorted(scopes) != list(range(count)):
        raise Refused(17)
    return scopes


def back(text, was):
    """The file with the old numbers, or Refused: 1 to 6, then 17."""
    g = read(text)
    return renamed(g, dict(enumerate(listed(was, g.rows[SCOPES][0][0]))))
