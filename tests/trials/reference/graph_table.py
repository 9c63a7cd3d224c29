"""The graph table, from the layout of its cells (docs/ARCHITECTURE.md, "The graph table"): a graph as cells, and cells as a graph, or as a text."""
import re

from reference.gym_file import ACCEPT, DECLARED, EDGE, KIND, LABEL, NAME, OLD, OPEN, ORDER, QUERY, SCOPES, STEP, TURNS, USUAL, Graph, Refused


def packed(name):
    b = name + bytes(16 - len(name))
    return [int.from_bytes(b[:8], "big"), int.from_bytes(b[8:], "big")]


def cells_of(g):
    out = [g.form]
    for k in range(9):
        for v in g.rows[k]:
            row = [k]
            # the cells of an edge have its turn last
            v = v[:2] + (v[3], v[2]) if k == EDGE else v
            for i, x in enumerate(v):
                if not isinstance(x, bytes):
                    row.append(x)
                elif k == LABEL or (k in (DECLARED, QUERY) and i == 1):
                    row.append(x[0])
                elif k in (ORDER, OPEN):
                    row.append(g.end_number(x))
                elif k in (STEP, EDGE):
                    row.append(g.labels().index(x))
                else:
                    row += packed(x)
            out += row + [0] * (6 - len(row))
    return out


def name_of(high, low):
    """The name of two cells, or 2."""
    b = high.to_bytes(8, "big") + low.to_bytes(8, "big")
    name = b.rstrip(b"\0")
    if not re.fullmatch(NAME, name):
        raise Refused(2)
    return name


def kind_of(g, x):
    """The kind of a cell, or 2: a letter, and in a graph of the old form no other than that of an old file."""
    kind = bytes([x]) if x < 256 else b""
    if not re.fullmatch(KIND, kind) or (g.form == OLD and kind != USUAL):
        raise Refused(2)
    return kind


def turn_of(g, x):
    """The turn of a cell, or 2: a number, and in a graph without turns no other than 0."""
    if x > 99999 or (g.form != TURNS and x != 0):
        raise Refused(2)
    return x


def number_of(x):
    if x > 99999:
        raise Refused(2)
    return x


def values_of(g, k, c):
    """A row's five cells as its values, or 2. A label number with no label is out of its list: no letter stands for it."""
    letters = g.labels()
    label = lambda n: letters[n] if n < len(letters) else b"?"
    end = lambda n: b"$" if n == 0 else label(n - 1)
    if k == LABEL:
        if not 65 <= c[0] <= 90:
            raise Refused(2)
        v, used = (bytes([c[0]]),), 1
    elif k == ORDER:
        v, used = (end(c[0]), end(c[1])), 2
    elif k == EDGE:
        v, used = (number_of(c[0]), label(c[1]), turn_of(g, c[3]), number_of(c[2])), 4
    elif k == STEP:
        v, used = (number_of(c[0]), label(c[1]), number_of(c[2])), 3
    elif k in (ACCEPT, SCOPES):
        v, used = (number_of(c[0]),), 1
    elif k == DECLARED:
        v, used = (number_of(c[0]), kind_of(g, c[1]), name_of(c[2], c[3]), number_of(c[4])), 5
    elif k == OPEN:
        v, used = (number_of(c[0]), end(c[1])), 2
    else:
        v, used = (number_of(c[0]), kind_of(g, c[1]), name_of(c[2], c[3])), 4
    if any(c[used:]):
        raise Refused(2)
    return v


def graph_of(cells):
    """The graph of a table, or Refused. A table alone is never refused by 9."""
    if not cells or cells[0] > TURNS:
        raise Refused(2)
    g = Graph(cells[0])
    k = 0
    for at in range(1, len(cells), 6):
        row = cells[at : at + 6]
        if len(row) < 6 or not k <= row[0] <= 8 or (row[0] > SCOPES and not g.rows[SCOPES]):
            raise Refused(2)
        k = row[0]
        g.add(k, values_of(g, k, row[1:]))
    if not g.rows[SCOPES]:
        raise Refused(2)
    g.order()
    return g


def write(cells):
    """The text of a graph table, or Refused."""
    return graph_of(cells).text()
