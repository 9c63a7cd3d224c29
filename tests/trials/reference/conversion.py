"""A file put into the other form, from document 02 (K9, K12): line by line, over the text itself. Only whether the text is refused comes from its reading."""
from reference.gym_file import DECLARED, EDGE, KINDS, NAMES_OF, OLD, QUERY, TURNS, USUAL, Refused, read


def sections(text):
    """The sections of an accepted text, each as its names line and its rows."""
    found = []
    for line in text.split(b"\n")[:-1]:
        if b"a" <= line[:1] <= b"z":
            found.append((line, []))
        else:
            found[-1][1].append(line)
    return found


def kind_of(row):
    return row.split(b" ")[1]


def without_kind(row):
    at, _, rest = row.split(b" ", 2)
    return at + b" " + rest


def turn_of(row):
    return row.split(b" ")[2]


def without_turn(row):
    from_, label, _, to = row.split(b" ")
    return b" ".join([from_, label, to])


def with_kind(row):
    at, rest = row.split(b" ", 1)
    return b" ".join([at, USUAL, rest])


def joined(parts):
    return b"".join(line + b"\n" for names, rows in parts for line in [names, *rows])


def other_form(parts, form, row_of):
    """The sections with the names lines of a form, and what `row_of` makes of each row of a section that has rows of its own there."""
    shown = lambda k, rows: [row_of[k](row) for row in rows] if k in row_of else rows
    return joined([(NAMES_OF[form][k], shown(k, rows)) for k, (_, rows) in enumerate(parts)])


def to_old(text):
    """The text in the old form, or Refused: 14 where a declaration or a query is of a kind, or an edge has a turn, that the old form does not say. A column of
    zero turns goes."""
    form = read(text).form
    if form == OLD:
        return text
    parts = sections(text)
    row_of = {DECLARED: without_kind, QUERY: without_kind}
    if any(kind_of(row) != USUAL for k in (DECLARED, QUERY) for row in parts[k][1]):
        raise Refused(14)
    if form == TURNS:
        row_of[EDGE] = without_turn
        if any(turn_of(row) != b"0" for row in parts[EDGE][1]):
            raise Refused(14)
    return other_form(parts, OLD, row_of)


def to_new(text):
    """The text in the form with kinds, or Refused. A text with turns has kinds."""
    if read(text).form != OLD:
        return text
    return other_form(sections(text), KINDS, {DECLARED: with_kind, QUERY: with_kind})
