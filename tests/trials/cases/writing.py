"""Cases of graph tables that are written, in all forms of file. The cells of a graph differ in the first alone, the form."""
from cases import file_calls
from cases.faults import full_sections
from cases.file_calls import TOP, name_cells, raw_cells, row, rows_of, table
from cases.gyms import EXAMPLE, FORMS, SMALLEST, WORD, largest
from reference.gym_file import ACCEPT, DECLARED, EDGE, LABEL, OLD, OPEN, ORDER, QUERY, SCOPES, STEP, TURNS

# the example's rows and its table, and where each section's first and last row stand
ROWS = rows_of(EXAMPLE)
WHOLE = table(ROWS)
FIRST = [next(i for i, r in enumerate(ROWS) if r[0] == k) for k in range(9)]
LAST = [max(i for i, r in enumerate(ROWS) if r[0] == k) for k in range(9)]
SMALL = table(rows_of(SMALLEST))
# the names that are put into rows
HOURS, SERVICE = name_cells("hours"), name_cells("service")
# by the refusal that a row then meets: a cell, and what is put there
FAULT = {2: (5, 100000), 3: (1, 99999)}
# lengths of a lent buffer about that of the longest file, 32,768 bytes
LONG = (32767, 32768, 32769, 65536)


def writing(f):
    """A call of a case whose cells are those of the old form, put into this one."""
    return lambda title, cells, *given, **named: file_calls.writes(f.title + title, [f.number] * bool(cells) + cells[1:], *given, **named)


def put(i, *cells, **at):
    """The table with cells of row i put in place: a whole row, or c1=.. for cell 1."""
    new = [list(r) for r in ROWS]
    if cells:
        new[i] = row(*cells)
    for c, v in at.items():
        new[i][int(c[1:])] = v
    return table(new)


def more(k, *cells):
    """The table with one more row at the end of a section."""
    new = [list(r) for r in ROWS]
    new.insert(LAST[k] + 1, row(k, *cells))
    return table(new)


def room_cases(f):
    writes = writing(f)
    length = len(f.text(EXAMPLE))
    writes("the example", WHOLE, due=0)
    writes("the example, a buffer of its length", WHOLE, room=length, due=0)
    writes("the example, a byte less", WHOLE, room=length - 1, due=9)
    writes("the example, one byte", WHOLE, room=1, due=9)
    writes("the example, no bytes", WHOLE, room=0, due=9)
    writes("the example, a long buffer", WHOLE, room=32768, due=0)
    length = len(f.text(SMALLEST))
    writes("the smallest graph", SMALL, room=length, due=0)
    writes("the smallest graph, a byte less", SMALL, room=length - 1, due=9)


def length_cases(f):
    writes = writing(f)
    for n in range(len(WHOLE)):
        if n < 15 or n % 6 == 1 or n % 11 == 0:
            writes("the first %d cells" % n, WHOLE[:n])
    for n in range(1, 6):
        writes("the example's cells and %d more of 0" % n, WHOLE + [0] * n, due=2)
        writes("the example's cells and %d more of 8" % n, WHOLE + [8] * n, due=2)
        writes("the smallest graph and %d cells more" % n, SMALL + [8, 0, 0, 0, 0][:n], due=2)
    writes("the example's cells and a row of 0", WHOLE + [0] * 6, due=2)
    writes("a full last section and a cut row", table(rows_of(full_sections()[QUERY][0])) + [8, 0], due=2)


def form_cases():
    writes = file_calls.writes
    for form in (1, 2, 10, 255, TOP):
        writes("form %d" % form, table(ROWS, form), due=0 if form <= TURNS else 2)
        writes("form %d alone" % form, [form], due=2)
    writes("form 0 alone", [0], due=2)


def section_cases(f):
    writes = writing(f)
    for i, r in enumerate(ROWS):
        if r[0] not in f.sections:
            continue
        for k in sorted({9, 256 + r[0], TOP}):
            new = put(i, c0=k)
            writes("row %d with section number %d" % (i, k), new, due=2)
        for k in sorted({0, r[0] - 1, r[0] + 1, 8} - {-1, 9, r[0]}):
            writes("row %d with section number %d" % (i, k), put(i, c0=k))
    for k in range(8):
        a, b = [r for r in ROWS if r[0] == k], [r for r in ROWS if r[0] == k + 1]
        rest = lambda lo, hi: [r for r in ROWS if lo <= r[0] < hi]
        writes("sections %s and %s turned" % (WORD[k], WORD[k + 1]), table(rest(0, k) + b + a + rest(k + 2, 9)))
        writes("without %s rows" % WORD[k], table([r for r in ROWS if r[0] != k]))
    writes("without query rows", table([r for r in ROWS if r[0] != QUERY]), due=0)


def scopes_cases(f):
    writes = writing(f)
    writes("scopes row last", table([r for r in ROWS if r[0] != SCOPES] + [row(SCOPES, 5)]), due=2)
    writes("two scopes rows", more(SCOPES, 5), due=5)
    writes("second scopes row 0", more(SCOPES, 0), due=5)
    writes("second scopes row 99999", more(SCOPES, 99999), due=5)
    writes("second scopes row 100000", more(SCOPES, 100000), due=2)
    writes("second scopes row, unused cell 1", more(SCOPES, 5, 0, 0, 0, 1), due=2)


def cell_cases(f):
    writes = writing(f)
    used = [1, 2, 3, 1, 1, 4 if f.number == TURNS else 3, 5, 2, 4]
    for k in f.sections:
        for c in range(used[k] + 1, 6):
            for v in (1, TOP):
                writes("%s unused cell %d is %d" % (WORD[k], c, v), put(LAST[k], **{"c%d" % c: v}), due=2)
    number_cells = {STEP: [1, 3], ACCEPT: [1], SCOPES: [1], EDGE: [1, 3] + [4] * (f.number == TURNS), DECLARED: [1, 5], OPEN: [1], QUERY: [1]}
    for k in f.sections:
        for c in number_cells.get(k, []):
            for v in (16, 65, 65535, 65536, 99999, 100000, 4294967296, 4294967297, TOP):
                writes("%s cell %d is %d" % (WORD[k], c, v), put(LAST[k], **{"c%d" % c: v}), due=2 if v > 99999 else None)
    for v in (0, 64, 65, 90, 91, 97, 256 + 65, 65536 + 65, TOP) if LABEL in f.sections else ():
        writes("label letter %d" % v, put(LAST[LABEL], LABEL, v))
    for k, c in ((ORDER, 1), (ORDER, 2), (STEP, 2), (EDGE, 2), (OPEN, 2)):
        if k not in f.sections:
            continue
        for v in (0, 1, 2, 3, 7, 8, 9, 36, 73, 256, 99999, 100000, TOP):
            title = "%s label cell %d is %d" % (WORD[k], c, v)
            writes(title, put(LAST[k], **{"c%d" % c: v}), due=3 if v > (2 if k in (ORDER, OPEN) else 1) else None)


def name_cases(f):
    writes = writing(f)
    for k in (DECLARED, QUERY):
        tail = [40] if k == DECLARED else []
        for title, pair in [
            ("nothing", [0, 0]), ("a in the low cell", [0, name_cells("a")[1]]), ("a capital", raw_cells("Hours" + "\0" * 11)),
            ("a digit first", raw_cells("9x" + "\0" * 14)), ("an underscore first", raw_cells("_x" + "\0" * 14)),
            ("a hole", raw_cells("ho\0rs" + "\0" * 11)), ("a hole at 8", raw_cells("hours12\0" + "a" + "\0" * 7)),
            ("a hole at 9", raw_cells("hours123\0a" + "\0" * 6)), ("a capital at 8", raw_cells("hours12Z" + "\0" * 8)),
            ("a capital at 9", raw_cells("hours123Z" + "\0" * 7)), ("a byte above 127", raw_cells("ho\xfcrs" + "\0" * 11)),
            ("a space", raw_cells("ho rs" + "\0" * 11)), ("LF", raw_cells("hours\n" + "\0" * 10)), ("a capital at 16", raw_cells("a" * 15 + "A")),
            ("NUL first", raw_cells("\0hours" + "\0" * 10)), ("the number 5", [5, 0]), ("the number 5 low", [0, 5]), ("all ones", [TOP, TOP]),
            ("the end of the alphabet and one", raw_cells("h{" + "\0" * 14)), ("backtick", raw_cells("`h" + "\0" * 14)),
        ]:  # fmt: skip
            writes("%s name is %s" % (WORD[k], title), put(LAST[k], k, 4, ord("v"), *pair, *tail), due=2)
        for name in ("a", "z", "a0", "z_9", "abcdefg", "abcdefgh", "abcdefghi", "abcdefghijklmno", "abcdefghijklmnop"):
            writes("%s name is %s" % (WORD[k], name), put(LAST[k], k, 4, *name_cells(name), *tail), due=0)


def sequence_cases(f):
    """Repeats and descents, key by key."""
    writes = writing(f)
    for title, k, cells, due in [
        ("again", LABEL, [80], 4), ("first again", LABEL, [73], 4), ("again", ORDER, [1, 2], 4), ("first again", ORDER, [0, 1], 4),
        ("equal ends", ORDER, [2, 2], 6), ("equal end marks", ORDER, [0, 0], 4), ("turned pair", ORDER, [2, 1], 6),
        ("again with another next", STEP, [1, 0, 5], 4), ("less", STEP, [0, 1, 0], 4), ("more", STEP, [1, 1, 0], 0),
        ("again", ACCEPT, [1], 4), ("less", ACCEPT, [0], 4), ("more", ACCEPT, [15], 0), ("again", EDGE, [3, 1, 1], 4), ("less in to", EDGE, [3, 1, 0], 4),
        ("less in label", EDGE, [3, 0, 4], 4), ("less in from", EDGE, [2, 1, 4], 4), ("more in to", EDGE, [3, 1, 2], 0),
        ("again", DECLARED, [4, *HOURS, 40], 4), ("less in mark", DECLARED, [4, *HOURS, 39], 4), ("more in mark", DECLARED, [4, *HOURS, 41], 0),
        ("less in name", DECLARED, [4, *name_cells("hour"), 99], 4), ("more in name", DECLARED, [4, *name_cells("hours_"), 0], 0),
        ("less in scope", DECLARED, [3, *SERVICE, 99], 4),
        ("again", OPEN, [3, 0], 4), ("more in end", OPEN, [3, 1], 0), ("less in scope", OPEN, [2, 2], 4), ("again", QUERY, [2, *HOURS], 0),
    ]:  # fmt: skip
        writes("%s: one more row, %s" % (WORD[k], title), more(k, *cells), due=due)
    nine, nine_a = name_cells("abcdefghi"), name_cells("abcdefgha")
    base = [r for r in ROWS if r[0] != DECLARED]
    at = LAST[EDGE] + 1
    for title, pair, due in [("ascending", [nine_a, nine], 0), ("descending", [nine, nine_a], 4), ("equal", [nine, nine], 4)]:
        new = base[:at] + [row(DECLARED, 0, *n, 7) for n in pair] + base[at:]
        writes("names that differ in the second cell, %s" % title, table(new), due=due)


def limit_cases(f):
    """Limits, and 2, 5, 3, 4 in a row."""
    writes = writing(f)
    for k, (g, _) in full_sections().items():
        if k not in f.sections:
            continue
        r = rows_of(g)
        t = table(r)
        out = f.text(g)
        end = max(i for i, x in enumerate(r) if x[0] == k) + 1
        writes("%s full" % WORD[k], t, room=len(out), due=0)
        name = name_cells("a") if k in (DECLARED, QUERY) else []
        for title, extra, due in [
            ("again", r[end - 1], 5), ("out of range", row(k, 90 if k == LABEL else 99999, *name), 5), ("malformed", r[end - 1][:5] + [100000], 2),
        ]:  # fmt: skip
            writes("%s one more than full: %s" % (WORD[k], title), table(r[:end] + [extra] + r[end:]), due=due)
        if len(r) < 300:
            writes("%s one more than full: cut" % WORD[k], table(r[:end] + [r[end - 1][:4]]), due=2)


def two_fault_cases(f):
    """Two faults on one row."""
    writes = writing(f)
    for title, cells, due in [
        ("2 and 3", put(LAST[STEP], STEP, 16, 0, 100000), 2), ("3 and 2", put(LAST[EDGE], EDGE, 9, 9, 100000), 2),
        ("2 and 4", put(LAST[EDGE], EDGE, 0, 1, 100000), 2), ("3 and 4", put(LAST[EDGE], EDGE, 0, 7, 0), 3),
        ("3 and 4 in order", put(LAST[ORDER], ORDER, 0, 9), 3), ("2 and 3 in order", put(LAST[ORDER], ORDER, 9, 9, 1), 2),
        ("3 and 4 in declared", put(LAST[DECLARED], DECLARED, 0, *HOURS, 65536), 3), ("2 and 4 in declared", put(LAST[DECLARED], DECLARED, 0, ord("v"), 0, 0, 0), 2),
        ("3 and 4 in open", more(OPEN, 0, 9), 3), ("2 and 3 in query", put(LAST[QUERY], QUERY, 9, ord("v"), 1, 1), 2), ("2 and 4 in label", more(LABEL, 73, 1), 2),
    ]:  # fmt: skip
        writes("a row with %s" % title, cells, due=due)


def later_fault_cases(f):
    """Two faults on two rows, and 6 after them all, 9 after 6."""
    writes = writing(f)
    for k in range(ORDER, 9):
        for j in range(k + 1, 9):
            for n, m in ((2, 3), (3, 2)):
                new = [list(r) for r in ROWS]
                for section, kind in ((k, n), (j, m)):
                    c, v = FAULT[kind]
                    new[LAST[section]][c] = v
                if (k + j) % 3 == 0:
                    writes("%d in %s, then %d in %s" % (n, WORD[k], m, WORD[j]), table(new), due=n)
    broken = [list(r) for r in ROWS]
    del broken[FIRST[ORDER] + 1]
    writes("with 6", table(broken), due=6)
    writes("with 6, no bytes", table(broken), room=0, due=6)
    for k in range(STEP, 9):
        for n in (2, 3):
            new = [list(r) for r in broken]
            c, v = FAULT[n]
            new[LAST[k] - 1][c] = v
            writes("with 6, and %d in %s" % (n, WORD[k]), table(new), due=n)
    writes("with 6, and a cut row", table(broken) + [8], due=2)
    writes("with 3, and a cut row", put(LAST[QUERY], c1=5) + [8], due=3)
    writes("with 6, and no scopes row", table([r for r in broken if r[0] < SCOPES]), due=2)
    writes("with 3, no bytes", put(LAST[QUERY], c1=5), room=0, due=3)


def largest_cases(f):
    writes = writing(f)
    big = table(rows_of(largest()))
    length = len(f.text(largest()))
    writes("the largest graph", big, room=length, due=0)
    writes("the largest graph, a byte less", big, room=length - 1, due=9)
    writes("the largest graph, a cut row after it", big + [8], room=length, due=2)
    for room in LONG:
        writes("the largest graph, %d bytes" % room, big, room=room, due=0)
        writes("the largest graph, a cut row after it, %d bytes" % room, big + [8], room=room, due=2)


def long_buffer_cases(f):
    """Buffers about the length of the longest file, which from there on get the text without a measure: graphs, and a table of each refusal."""
    writes = writing(f)
    broken = [list(r) for r in ROWS]
    del broken[FIRST[ORDER] + 1]
    tables = [
        ("no cells", [], 2), ("2 in the last row", put(LAST[QUERY], c5=1), 2), ("5", more(SCOPES, 5), 5), ("3 in the last row", put(LAST[QUERY], c1=5), 3),
        ("4", more(OPEN, 3, 0), 4), ("6", table(broken), 6), ("the smallest graph", SMALL, 0), ("the example again", WHOLE, 0),
    ]  # fmt: skip
    for title, cells, due in tables:
        for room in LONG:
            writes("%s, %d bytes" % (title, room), cells, room=room, due=due)


def cases():
    form_cases()
    for f in FORMS:
        room_cases(f)
        length_cases(f)
        section_cases(f)
        scopes_cases(f)
        cell_cases(f)
        name_cases(f)
        sequence_cases(f)
        limit_cases(f)
        two_fault_cases(f)
        later_fault_cases(f)
        largest_cases(f)
        long_buffer_cases(f)
