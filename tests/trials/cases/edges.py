"""Cases of the rows that leave a scope, in tables that need not be sorted."""
from cases.case_file import Dice, case
from reference.edge_rows import places


def find(title, rows, scope, due=None, more=()):
    """The rows of a scope. `due` are the places that the case is there for; `more` are cells behind the last row that do not fill one."""
    found = places(rows, scope)
    assert due is None or due == found, (title, due, found)
    cells = [x for row in rows for x in row] + list(more)
    case(b"e", title, b"found" + b"".join(b" %d" % at for at in found) + b"\n", b"".join(b"%x " % x for x in cells), number=scope)


def rows_of(*scopes):
    return [(5, s, i % 8, (s + i) % 64, 0, 0) for i, s in enumerate(scopes)]


def cases():
    mixed = rows_of(0, 2, 1, 2, 3, 2)
    find("rows of scopes 0 2 1 2 3 2, scope 2: the first two", mixed, 2, [6, 18])
    find("the same, scope 0", mixed, 0, [0])
    find("the same, scope 1: behind a row of scope 2", mixed, 1, [])
    find("the same, scope 3: no later scope", mixed, 3, [24])
    find("the same, scope 4", mixed, 4, [])
    equal = [(5, 2, 1, 7, 0, 0)] * 2 + [(5, 3, 1, 7, 0, 0), (5, 2, 1, 7, 0, 0)]
    find("rows of scopes 2 2 3 2, equal rows, scope 2: each at its place", equal, 2, [0, 6])
    find("a later scope first, scope 2: none", rows_of(3, 2, 2), 2, [])
    find("ascending rows, scope 2: all", rows_of(0, 1, 2, 2, 2, 5), 2, [12, 18, 24])
    find("no rows", [], 2, [])
    find("cells that do not fill a row", [], 2, [], (5, 2, 1, 7, 0))
    find("rows and cells that do not fill one", rows_of(2, 2), 2, [0, 6], (5, 2, 1, 7, 0))
    find("a scope above all 64", rows_of(0, 63, (1 << 64) - 1, 64), 64, [])
    find("the largest number as scope", rows_of(0, 63, (1 << 64) - 1, 64), (1 << 64) - 1, [12])
    dice = Dice(14)
    for n in range(60):
        rows = rows_of(*[dice.below(5) for i in range(dice.below(9))])
        find("drawn rows %d" % n, rows, dice.below(5), None, [5, 2, 1, 7, 0][: dice.below(6)])
