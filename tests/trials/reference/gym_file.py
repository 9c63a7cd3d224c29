"""The gym file, from document 01 ("The gym file", "Who can cause a refusal") and, for kinds and turns, document 02 (K8, K12): its sections, its rows, what is
refused, and the name that a query seeks.

Nothing here is shared with the crates."""
import re

NAMES = [b"label", b"less more", b"state label next", b"accept", b"scopes", b"from label to", b"at name mark", b"at open", b"start seek"]
MOST = [8, 36, 128, 16, 1, 512, 512, 576, 256]
LABEL, ORDER, STEP, ACCEPT, SCOPES, EDGE, DECLARED, OPEN, QUERY = range(9)
NUMBER = rb"(0|[1-9][0-9]{0,4})"
LETTER = rb"([A-Z])"
END = rb"([$A-Z])"
NAME = rb"([a-z][a-z0-9_]{0,15})"
KIND = rb"([a-z])"

FORMS = [
    [LETTER],
    [END, END],
    [NUMBER, LETTER, NUMBER],
    [NUMBER],
    [NUMBER],
    [NUMBER, LETTER, NUMBER],
    [NUMBER, NAME, NUMBER],
    [NUMBER, END],
    [NUMBER, NAME],
]

# The three forms of file: the old one; the one with kinds, which has two names lines of its own and in their rows a kind as the second field; and the one with
# kinds and turns, which has the edges' names line of its own too and in its rows a turn as the third field. Where a file says no kinds each is `v`, and where
# it says no turns each is 0.
OLD, KINDS, TURNS = range(3)
KIND_NAMES = {DECLARED: b"at kind name mark", QUERY: b"start kind seek"}
TURN_NAMES = {**KIND_NAMES, EDGE: b"from label turn to"}
NAMES_OF = [[own.get(k, name) for k, name in enumerate(NAMES)] for own in ({}, KIND_NAMES, TURN_NAMES)]
WITH_KIND = [[NUMBER, KIND] + fields[1:] if k in (DECLARED, QUERY) else fields for k, fields in enumerate(FORMS)]
WITH_TURN = [[NUMBER, LETTER, NUMBER, NUMBER] if k == EDGE else fields for k, fields in enumerate(WITH_KIND)]
FIELDS_OF = [FORMS, WITH_KIND, WITH_TURN]
USUAL = b"v"


def fuller(form, k, v):
    """The values of a row with what its form does not say: a kind before the name, a turn before the scope that an edge leads to."""
    if k == EDGE and form != TURNS:
        return v[:2] + (0,) + v[2:]
    return v[:1] + (USUAL,) + v[1:] if k in (DECLARED, QUERY) and form == OLD else v


def barer(form, k, v):
    """The values of a row that its form says."""
    if k == EDGE and form != TURNS:
        return v[:2] + v[3:]
    return v[:1] + v[2:] if k in (DECLARED, QUERY) and form == OLD else v


class Refused(Exception):
    def __init__(self, number):
        self.number = number


class Graph:
    """The form, and the rows so far, each as its values: numbers, letters as bytes, names as bytes, an end as b'$' or a letter. A row with a name has its kind
    before it, and an edge is a scope, a label, a turn and a scope, whatever the form."""

    def __init__(self, form=OLD):
        self.form = form
        self.rows = [[] for _ in range(9)]

    def labels(self):
        return [r[0] for r in self.rows[LABEL]]

    def end_number(self, end):
        return 0 if end == b"$" else 1 + self.labels().index(end)

    def ranges(self, k, v):
        """Refusal 3: is every value of the row in its range or list?"""
        state = lambda x: 0 <= x <= 15
        scope = lambda x: 0 <= x < self.rows[SCOPES][0][0]
        mark = lambda x: 0 <= x <= 65535
        label = lambda x: x in self.labels()
        end = lambda x: x == b"$" or label(x)
        if k == ORDER:
            return end(v[0]) and end(v[1])
        if k == STEP:
            return state(v[0]) and label(v[1]) and state(v[2])
        if k == ACCEPT:
            return state(v[0])
        if k == SCOPES:
            return 1 <= v[0] <= 64
        if k == EDGE:
            return scope(v[0]) and label(v[1]) and 0 <= v[2] <= 99 and scope(v[3])
        if k == DECLARED:
            return scope(v[0]) and mark(v[3])
        if k == OPEN:
            return scope(v[0]) and end(v[1])
        if k == QUERY:
            return scope(v[0])
        return True

    def key(self, k, v):
        """What the rows of a section ascend by."""
        number = self.labels().index
        if k == ORDER:
            return (self.end_number(v[0]), self.end_number(v[1]))
        if k == STEP:
            return (v[0], number(v[1]))
        if k == ACCEPT:
            return (v[0],)
        if k == EDGE:
            return (v[0], number(v[1]), v[2], v[3])
        if k == DECLARED:
            return (v[0], v[1], v[2], v[3])
        if k == OPEN:
            return (v[0], self.end_number(v[1]))
        return None

    def add(self, k, v):
        """A row of its form: 5, 3, 4, or taken."""
        rows = self.rows[k]
        if len(rows) == MOST[k]:
            raise Refused(5)
        if not self.ranges(k, v):
            raise Refused(3)
        if k == LABEL:
            if v[0] in self.labels():
                raise Refused(4)
        elif self.key(k, v) is not None and rows and not self.key(k, rows[-1]) < self.key(k, v):
            raise Refused(4)
        # an edge that is there already, whatever its turn
        if k == EDGE and any((from_, label, to) == (v[0], v[1], v[3]) for from_, label, _, to in rows):
            raise Refused(4)
        rows.append(v)

    def order(self):
        """Refusal 6."""
        pairs = set(self.rows[ORDER])
        for a, b in pairs:
            if a == b:
                raise Refused(6)
            for c, d in pairs:
                if b == c and (a, d) not in pairs:
                    raise Refused(6)

    def text(self):
        lines = []
        for k in range(9):
            lines.append(NAMES_OF[self.form][k])
            for v in self.rows[k]:
                lines.append(b" ".join(x if isinstance(x, bytes) else b"%d" % x for x in barer(self.form, k, v)))
        return b"".join(x + b"\n" for x in lines)


def read(text):
    """The graph of a text, or Refused."""
    if len(text) > 32768:
        raise Refused(1)
    g = Graph()
    k = -1
    at = 0
    while at < len(text):
        end = text.find(b"\n", at)
        if end < 0:
            raise Refused(2)
        line = text[at:end]
        at = end + 1
        if b"a" <= line[:1] <= b"z":
            if k == 8 or (k == SCOPES and not g.rows[SCOPES]):
                raise Refused(2)
            k += 1
            # the edges' names line says turns; else that of the declarations says which form the file has
            if k == EDGE and line == NAMES_OF[TURNS][k]:
                g.form = TURNS
            if k == DECLARED and g.form == OLD and line == NAMES_OF[KINDS][k]:
                g.form = KINDS
            if line != NAMES_OF[g.form][k]:
                raise Refused(2)
            continue
        if k < 0:
            raise Refused(2)
        fields = FIELDS_OF[g.form][k]
        m = re.fullmatch(b" ".join(fields), line)
        if not m:
            raise Refused(2)
        v = tuple(int(x) if f is NUMBER else x for f, x in zip(fields, m.groups()))
        g.add(k, fuller(g.form, k, v))
    if k != 8:
        raise Refused(2)
    g.order()
    return g


def name_sought(text, query):
    """The name alone, without its kind."""
    try:
        rows = read(text).rows[QUERY]
    except Refused:
        return b""
    return rows[query][2] if query < len(rows) else b""
