"""The cases of the trial program, and how they stand in its input.

A case is a line `KIND WIDTH KEEP LENGTH TEXT ROW NUMBER ROOM` with numbers in hexadecimal, then a title of WIDTH bytes and LF, then LENGTH bytes
and LF. Its bytes are the first KEEP bytes of the case before and the LENGTH new ones: cases that differ a little cost a little. The first TEXT of
them are its text, the next ROW its first path row, and the rest its second.
  r  the text is read into a lent table of ROOM cells
  w  the text is cells in hexadecimal, written into a lent buffer of ROOM bytes; y  they are tested
  n  the name that query NUMBER of the text seeks
  z  the line of the text from place NUMBER on
  p  the first row is taken apart, and its parts are written into a lent buffer of ROOM bytes
  c  the two rows are compared by the text, NUMBER records lent for the first and ROOM for the second
  j  the first row is judged for query NUMBER of the text, ROOM records lent for its steps
  l  the listing of query NUMBER of the text, in a lent buffer of ROOM bytes
  s  the summary of the text, in a lent buffer of ROOM bytes
  d  the scopes that read declaration NUMBER of the text, in a lent buffer of ROOM bytes
  g  the text's edges in the DOT language, in a lent buffer of ROOM bytes, and that put into the text
  h  the text with the edges of the DOT text that is the second row, in a lent buffer of ROOM bytes
  e  the text is cells in hexadecimal, edge rows: where the rows stand that leave scope NUMBER
  b  how many lawful beginnings query NUMBER of the text has
  f  the same beside the listing of query NUMBER of the text, in a lent buffer of ROOM bytes
  x  the text with the path rules of the expression that is the first row, in a lent buffer of ROOM bytes
  a  the listings of the first NUMBER queries of the text and then its summary, each in a lent buffer of ROOM bytes
  o  the text is converted to the old form into a lent buffer of ROOM bytes, and what comes out to the form with kinds
  q  the text is cells in hexadecimal, a graph table's, and the first row five values: the place of that row in section NUMBER
  i  it is put into section NUMBER of the table, which has ROOM cells; t  it is taken out; m  the section's rows are replaced by the cells of the first row
  I  the text is cells in hexadecimal, and the first row six: these are put at place NUMBER of the table, which has ROOM cells; T  six are taken out there
  Q  the text is cells in hexadecimal, and the first row five values: has the table that edge, at whatever turn?
  k  the text is converted to the form with kinds into a lent buffer of ROOM bytes, and what comes out to the old form
  u  the text's scopes are renumbered into lent buffers of ROOM bytes for the file and NUMBER for the list, and go back by what comes out
  v  the text's scopes go back by the list that is the first row, into a lent buffer of ROOM bytes
"""

# the cases whose text is a gym file's, those of converting left out
OF_FILES = b"rncjlsa"  # counts, readers, numbering and drawings, b, f, d, u, v, g and h, have large files of their own

CASES = []
TITLES = set()


def bytes_of(s):
    return s if isinstance(s, bytes) else s.encode("latin-1")


def is_told(answer, due):
    """Is the answer the word that is due, and the number too where one is due?"""
    return bytes_of(str(due)) in (answer, answer.split()[0])


def case(kind, title, due, text=b"", first=b"", second=b"", number=0, room=0):
    """A case, and the bytes that are due after its title."""
    assert title not in TITLES and len(title) < 256, title
    assert len(text) + len(first) + len(second) < 65000 and len(first) < 4096 and room < 98305, title
    TITLES.add(title)
    CASES.append((kind, bytes_of(title), due, text, first, second, number, room))


def after_each_file(add):
    """Lets `add` make cases behind each that has a gym file: it is given the case's title and its text. The text behind the same text costs nothing."""
    there = CASES[:]
    CASES.clear()
    for before in there:
        CASES.append(before)
        kind, title, _, text = before[:4]
        if kind in OF_FILES:
            add(title.decode("latin-1"), text)


def common(a, b):
    n = min(len(a), len(b))
    return next((i for i in range(n) if a[i] != b[i]), n)


def written():
    """The input and the output of all cases. Those with a long text come last, sorted, so that the same text is not written twice."""
    put, due, before = [], [], b""
    for kind, title, answer, text, first, second, number, room in sorted(CASES, key=lambda c: c[3] if len(c[3]) > 5000 else b""):
        body = text + first + second
        keep = common(before, body)
        head = b"%s %-2x %-5x %-5x %-5x %-3x %-16x %-5x\n" % (kind, len(title), keep, len(body) - keep, len(text), len(first), number, room)
        put.append(head + title + b"\n" + body[keep:] + b"\n")
        due.append(title + b": " + answer)
        before = body
    return b"".join(put), b"".join(due)


def sum_of(numbers):
    s = 0
    for x in numbers:
        s = (s * 1000003 + x + 1) % 4294967291
    return s


class Dice:
    """The same numbers on every machine."""

    def __init__(self, seed):
        self.x = seed

    def below(self, n):
        self.x = (self.x * 6364136223846793005 + 1442695040888963407) % (1 << 64)
        return (self.x >> 33) % n

    def pick(self, items):
        return items[self.below(len(items))]
