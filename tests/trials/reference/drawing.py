"""Exchange with DOT, from document 02 (K14): the edges of a file as a graph that Graphviz draws, and such a graph put into a file.

A text of the subset is told by one pattern for the whole of it. Only what a number is, and which rows a file has, comes from the file's own reading."""
import re

from reference.gym_file import EDGE, LETTER, MOST, NUMBER, SCOPES, Refused, read

DROPPED = b"// turns dropped\n"
# what is free around tokens; between the two words at the top some of it must stand
FREE = rb"[ \t\n]*"
OPENING = FREE + rb"digraph[ \t\n]+scopes" + FREE + rb"\{"
SCOPE = FREE + NUMBER + FREE + rb";"
ARROW = FREE + FREE.join([NUMBER, rb"->", NUMBER, rb"\[", rb"label", rb"=", b'"' + LETTER + b'"', rb"\]", rb";"])
CLOSING = FREE + rb"\}" + FREE


def unnamed(pattern):
    return pattern.replace(b"(", b"(?:")


WHOLE = re.compile(b"(?:%s)?%s((?:%s)*)((?:%s)*)%s" % (DROPPED, OPENING, unnamed(SCOPE), unnamed(ARROW), CLOSING))


def dot(text):
    """The export, or Refused, 1 to 6."""
    g = read(text)
    edges = g.rows[EDGE]
    lines = [b"digraph scopes {"]
    lines += [b"%d;" % s for s in range(g.rows[SCOPES][0][0])]
    lines += [b'%d -> %d [label="%s"];' % (from_, to, label) for from_, label, _, to in edges]
    out = b"".join(line + b"\n" for line in lines + [b"}"])
    return DROPPED + out if any(turn != 0 for _, _, turn, _ in edges) else out


def taken_apart(drawn):
    """The scopes and the edges of a text of the subset, as they come; or Refused, 18."""
    whole = WHOLE.fullmatch(drawn)
    if not whole:
        raise Refused(18)
    scopes, arrows = whole.groups()
    return [int(n) for n in re.findall(SCOPE, scopes)], [(int(a), label, int(b)) for a, b, label in re.findall(ARROW, arrows)]


def undot(text, drawn):
    """The text with the edges of a drawing, or Refused: 1 to 6, 18, 19, then by the first row that is refused, 5, 3 or 4."""
    g = read(text)
    scopes, arrows = taken_apart(drawn)
    count = g.rows[SCOPES][0][0]
    if sorted(scopes) != list(range(count)):
        raise Refused(19)
    for n, (from_, label, to) in enumerate(arrows):
        if n >= MOST[EDGE]:
            raise Refused(5)
        if from_ >= count or to >= count or label not in g.labels():
            raise Refused(3)
        if (from_, label, to) in arrows[:n]:
            raise Refused(4)
    rows = [(from_, label, 0, to) for from_, label, to in arrows]
    g.rows[EDGE] = sorted(rows, key=lambda row: g.key(EDGE, row))
    return g.text()
