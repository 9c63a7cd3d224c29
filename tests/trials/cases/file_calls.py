"""A text read, a table written and tested, a name sought: each as a case, with the output that is due by the reference."""
from cases.case_file import bytes_of, case, sum_of
from cases.gyms import text_of
from reference.graph_table import cells_of, graph_of, packed, write
from reference.gym_file import Refused, name_sought, read

TOP = (1 << 64) - 1


def halves(cells):
    for x in cells:
        yield x >> 32
        yield x & 0xFFFFFFFF


def try_read(text):
    try:
        return cells_of(read(text))
    except Refused as r:
        return r.number


def try_write(cells):
    try:
        return write(cells)
    except Refused as r:
        return r.number


def tested(cells):
    """The number by which a table is refused, 0 if it is a graph."""
    try:
        graph_of(cells)
        return 0
    except Refused as r:
        return r.number


def reads(title, text, room=None, due=None):
    """A text read. `due` is the answer that the case is there for: a refusal's number, or 0 for none."""
    out = try_read(text)
    if isinstance(out, list):
        room = len(out) + 7 if room is None else room
        if room < len(out):
            out = 9
    elif room is None:
        room = min(12288, 1 + 6 * text.count(b"\n"))
    assert due is None or due == (0 if isinstance(out, list) else out), (title, due, out if isinstance(out, int) else "accepted")
    if isinstance(out, list):
        assert try_write(out) == text, title
        answer = b"read %d sum %d, rest kept, back the same\n" % (len(out), sum_of(halves(out)))
    else:
        answer = b"refused %d, all kept\n" % out
    case(b"r", title, answer, text, room=room)


def writes(title, cells, room=None, due=None):
    """Cells written, and the same cells tested."""
    number = tested(cells)
    out = try_write(cells)
    if isinstance(out, bytes):
        room = len(out) + 9 if room is None else room
        if room < len(out):
            out = 9
    elif room is None:
        room = min(32768, 100 + 24 * (len(cells) // 6 + 1))
    assert due is None or due == (0 if isinstance(out, bytes) else out), (title, due, out if isinstance(out, int) else "accepted")
    if isinstance(out, bytes):
        assert try_read(out) == cells, title
        answer = b"written %d sum %d, rest kept, back the same\n" % (len(out), sum_of(out))
    else:
        answer = b"refused %d, all kept\n" % out
    body = b"%x\n" % cells[0] if cells else b""
    for at in range(1, len(cells), 6):
        body += b" ".join(b"%x" % x for x in cells[at : at + 6]) + b"\n"
    case(b"w", "table: " + title, answer, body, room=room)
    case(b"y", "tested: " + title, b"tested %d\n" % number, body)


def seeks(title, text, query, due):
    name = name_sought(text, query)
    assert name == due, title
    case(b"n", title, b"seeks <" + name + b">\n", text, number=query)


def rows_of(g):
    cells = try_read(text_of(g))
    return [cells[i : i + 6] for i in range(1, len(cells), 6)]


def table(rows, form=0):
    return [form] + [x for r in rows for x in r]


def row(*values):
    return list(values) + [0] * (6 - len(values))


def name_cells(s, kind="v"):
    """A kind and a name as cells."""
    return [ord(kind)] + packed(bytes_of(s))


def raw_cells(s):
    b = bytes_of(s)
    assert len(b) == 16
    return [int.from_bytes(b[:8], "big"), int.from_bytes(b[8:], "big")]
