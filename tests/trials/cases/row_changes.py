"""Cases of graph tables that are changed: a row's place, an edge at any turn, a row put in, a row taken out, a section's rows replaced. The cells need be no
graph's."""
from cases.case_file import Dice, case, sum_of
from cases.faults import full_sections
from cases.file_calls import TOP, halves, name_cells, row, rows_of, table, try_write
from cases.gyms import EXAMPLE, SMALLEST, WORD, largest
from reference.gym_file import ACCEPT, DECLARED, EDGE, OPEN, ORDER, STEP
from reference.row_changes import KEY, apart, found, has_edge, inserted, key, put_at, removed, replaced, taken_at

# what a lent cell holds before it is used
CELL = 12297829382473034410
ROWS = rows_of(EXAMPLE)
WHOLE = table(ROWS)
FULL = table(rows_of(largest()))
ASCENDING = sorted(KEY)
# a row of each of them that the example lacks and that stands before, between or after its own
OTHERS = {
    ORDER: [[0, 0], [1, 0], [2, 2]], STEP: [[0, 2, 1], [1, 1, 1], [9, 0, 0]], ACCEPT: [[2], [15]],
    EDGE: [[0, 0, 0], [1, 1, 1], [2, 0, 0], [2, 0, 4, 1], [2, 1, 0, 3], [4, 0, 0], [3, 1, 1, 99]],
    DECLARED: [[0] + name_cells("a") + [0], [0] + name_cells("hours") + [6], [0] + name_cells("hours", "w") + [5], [1] + name_cells("servic") + [99], [4] + name_cells("hours_a") + [1]],
    OPEN: [[0, 0], [3, 1], [3, 2], [4, 0]],
}  # fmt: skip


def hexed(cells):
    return b"".join(b"%x " % x for x in cells)


def five(values):
    return (list(values) + [0] * 5)[:5]


def asks(title, cells, k, values, due=None):
    there, at = found(cells, k, five(values))
    assert due is None or due == (there, at), (title, due, there, at)
    case(b"q", "place: " + title, b"%s %d\n" % (b"there" if there else b"free", at), hexed(cells), hexed(values), number=k)


def changes(kind, verb, change):
    """A call of a case of a change: there is room for the cells, changed or not, and for seven more, if none is given. All lent cells are summed up afterwards."""

    def call(title, cells, k, given, room=None, due=None):
        used = cells if room is None else cells[:room]
        out = change(used, k, given)
        room = max(len(cells), len(out)) + 7 if room is None else room
        lent = (cells + [CELL] * room)[:room]
        assert due is None or due == out, title
        if room < len(out):
            answer = b"refused 9 sum %d\n" % sum_of(halves(lent))
        else:
            answer = b"used %d sum %d\n" % (len(out), sum_of(halves(out + lent[len(out) :])))
        case(kind, verb + title, answer, hexed(cells), hexed(given), number=k, room=room)

    return call


puts = changes(b"i", "put in: ", lambda cells, k, values: inserted(cells, k, five(values)))
takes = changes(b"t", "taken out: ", lambda cells, k, values: removed(cells, k, five(values)))
replaces = changes(b"m", "replaced: ", replaced)
puts_at = changes(b"I", "put at: ", put_at)
takes_at = changes(b"T", "taken at: ", lambda cells, place, given: taken_at(cells, place))


def seeks_edge(title, cells, values, due=None):
    there = has_edge(cells, five(values))
    assert due is None or due == there, title
    case(b"Q", "edge: " + title, b"has it\n" if there else b"has it not\n", hexed(cells), hexed(values))


def both_at(title, cells, place, row, room=None):
    puts_at(title, cells, place, row, room)
    takes_at(title, cells, place, [], room)


def all_three(title, cells, k, values):
    asks(title, cells, k, values)
    puts(title, cells, k, values)
    takes(title, cells, k, values)


def example_cases():
    """Rows that are there, first, last and only ones too: taken out and put in again, the table is what it was. Rows that are not there."""
    for i, r in enumerate(ROWS):
        k, title = r[0], "%s row %d of the example" % (WORD[r[0]], i)
        less = table(ROWS[:i] + ROWS[i + 1 :])
        if k in KEY:
            asks(title, WHOLE, k, r[1:], (True, 1 + 6 * i))
            asks(title + ", where it is not", less, k, r[1:], (False, 1 + 6 * i))
            takes(title, WHOLE, k, r[1:], due=less)
            puts(title + ", where it is not", less, k, r[1:], due=WHOLE)
            puts(title + ", where it is already", WHOLE, k, r[1:], due=table(ROWS[:i] + [r] + ROWS[i:]))
            takes(title + ", where it is not", less, k, r[1:], due=less)
        else:
            all_three(title, WHOLE, k, r[1:])
    for k in ASCENDING:
        for n, values in enumerate(OTHERS[k]):
            all_three("another %s row %d" % (WORD[k], n), WHOLE, k, values)
            new = inserted(WHOLE, k, five(values))
            assert removed(new, k, five(values)) == WHOLE
            # what is put into the example is a graph's, but for a label or a scope that it lacks
            assert isinstance(try_write([2] + new[1:]), bytes) or k in (ORDER, STEP, EDGE, OPEN), (k, values)
        all_three("an only %s row" % WORD[k], table(rows_of(SMALLEST)), k, OTHERS[k][0])
        all_three("the key of a %s row, other values" % WORD[k], WHOLE, k, [v if c + 1 in KEY[k] else 7 for c, v in enumerate(five(ROWS[[r[0] for r in ROWS].index(k)][1:]))])


def full_cases():
    """Full sections: a row between, a row that is there; and the section emptied and put in again."""
    for k in ASCENDING:
        rows = rows_of(full_sections()[k][0])
        own = [r for r in rows if r[0] == k]
        cells = table(rows)
        for at in (0, len(own) // 2, len(own) - 1):
            all_three("row %d of a full %s section" % (at, WORD[k]), cells, k, own[at][1:])
        all_three("a row past a full %s section" % WORD[k], cells, k, [TOP] * 5)
        all_three("a row before a full %s section" % WORD[k], cells, k, [0] * 5)
        replaces("a full %s section by none" % WORD[k], cells, k, [], due=table([r for r in rows if r[0] != k]))
        few = [x for r in own[-3:] for x in r]
        replaces("a full %s section by its last rows" % WORD[k], cells, k, few, due=table([r for r in rows if r[0] != k or r in own[-3:]]))
        replaces("no %s rows by three" % WORD[k], table([r for r in rows if r[0] != k]), k, few)
    for k in range(9):
        own = [r for r in apart(FULL)[1] if r[0] == k]
        all_three("a row of the largest table's %s section" % WORD[k], FULL, k, own[len(own) // 2][1:])
        replaces("the largest table's %s section by its first row" % WORD[k], FULL, k, own[0])


def replaced_cases():
    for k in range(10):
        own = [r for r in ROWS if r[0] == k]
        for n in range(len(own) + 3):
            new = [x for i in range(n) for x in row(k, 40 + i, i)]
            replaces("%s section by %d rows" % (WORD[k] if k < 9 else "no", n), WHOLE, k, new)
        replaces("section %d by itself" % k, WHOLE, k, [x for r in own for x in r], due=WHOLE)
        replaces("section %d by five cells" % k, WHOLE, k, [k, 1, 2, 3, 4])
        replaces("section %d of no cells" % k, [], k, [k, 1, 2, 3, 4, 5])


def room_cases():
    """A table with just room, with a cell less, with none, and one whose used cells are said to be more than there are."""
    for k in ASCENDING:
        for title, values in ("a new row", OTHERS[k][0]), ("a row that is there", next(r[1:] for r in ROWS if r[0] == k)):
            for room in (len(WHOLE) + 6, len(WHOLE) + 5, len(WHOLE) + 1, len(WHOLE), len(WHOLE) - 1, len(WHOLE) - 6, 8, 7, 6, 1, 0):
                t = "%s of the %s section, %d cells lent" % (title, WORD[k], room)
                puts(t, WHOLE, k, values, room)
                takes(t, WHOLE, k, values, room)
        for room in (len(WHOLE) + 12, len(WHOLE), 7, 0):
            replaces("the %s section by two rows, %d cells lent" % (WORD[k], room), WHOLE, k, row(k, 1, 1) + row(k, 2, 2), room)


def any_cases():
    """Cells that are no graph's: rows out of turn, sections mixed, cells that fill no row, large numbers."""
    for n in range(14):
        all_three("the example's first %d cells" % n, WHOLE[:n], [0, ORDER, OPEN][n % 3], [1, 1])
    for k in (9, 255, TOP):
        all_three("section %d" % k, WHOLE, k, [1, 2, 3, 4, 5])
    turned = table([r for r in reversed(ROWS)])
    for k in ASCENDING:
        all_three("the example's rows in reverse, %s" % WORD[k], turned, k, OTHERS[k][0])
    dice = Dice(33)
    for n in range(300):
        k = dice.pick(ASCENDING + [0, 4, 8])
        drawn = [[dice.pick([k, k, k, dice.below(9)])] + [dice.below(3) for i in range(5)] for j in range(dice.below(9))]
        if n % 2:
            drawn.sort(key=lambda r: (r[0], key(r[0], r)))
        cells = table(drawn, dice.below(3)) + [k, 1, 1, 0, 0][: dice.below(6) if n % 3 == 0 else 0]
        values = [dice.below(3) for i in range(5)]
        all_three("drawn cells %d" % n, cells, k, values)
        replaces("drawn cells %d" % n, cells, k, [dice.below(9) for i in range(dice.below(20))])


def place_cases():
    """At the form, at a row, inside one, at the last used cell and after it, past the used cells and past the table; with just room, a cell less and none."""
    new = row(OPEN, 3, 1)
    end = len(WHOLE)
    for place in (0, 1, 2, 6, 7, 10, end - 7, end - 6, end - 5, end - 1, end, end + 1, end + 6, end + 7, end + 13, end + 14, end + 1000, 1 << 32, TOP - 6, TOP):
        both_at("place %d of the example" % place, WHOLE, place, new)
        for room in (end + 6, end + 5, end, end - 1, 1, 0):
            both_at("place %d of the example, %d cells lent" % (place, room), WHOLE, place, new, room)
    for i, r in enumerate(ROWS):
        less = table(ROWS[:i] + ROWS[i + 1 :])
        takes_at("row %d of the example" % i, WHOLE, 1 + 6 * i, [], due=less)
        puts_at("row %d of the example" % i, less, 1 + 6 * i, r, due=WHOLE)
    for n in range(8):
        for place in range(9):
            both_at("place %d of %d cells" % (place, n), WHOLE[:n], place, row(TOP, 1, 2, 3, 4, 5))
    for place in (0, 1, 6001, 6004, len(FULL) - 6, len(FULL), len(FULL) + 1):
        both_at("place %d of the largest table" % place, FULL, place, new)


def edge_cases():
    """Edges that are there at their own turn and at another, edges that differ in one value, and rows that are no edges."""
    turned = [2] + [x for r in ROWS for x in (r[:4] + [7, 0] if r[0] == EDGE else r)]
    for i, r in enumerate(ROWS):
        if r[0] == EDGE:
            for turn in (0, 7, 99, TOP):
                seeks_edge("row %d of the example at turn %d" % (i, turn), WHOLE, r[1:4] + [turn], due=True)
                seeks_edge("row %d with turns, at turn %d" % (i, turn), turned, r[1:4] + [turn], due=True)
            seeks_edge("row %d, its last value another" % i, WHOLE, r[1:5] + [1], due=True)
            seeks_edge("row %d, where it is not" % i, table(ROWS[:i] + ROWS[i + 1 :]), r[1:], due=False)
            for c in (1, 2, 3):
                other = [v + 9 * (j == c) for j, v in enumerate(r)]
                seeks_edge("row %d, value %d another" % (i, c), WHOLE, other[1:], due=False)
            for k in sorted(set(range(10)) - {EDGE}):
                seeks_edge("row %d, of section %d there" % (i, k), table(ROWS[:i] + [[k] + r[1:]] + ROWS[i + 1 :]), r[1:], due=False)
    edges = [r for r in apart(FULL)[1] if r[0] == EDGE]
    for i in (0, 1, 255, 511):
        seeks_edge("row %d of the largest table's" % i, FULL, edges[i][1:], due=True)
    seeks_edge("none of the largest table's", FULL, [64, 0, 0], due=False)
    for n in range(14):
        seeks_edge("the first %d cells" % n, [0, EDGE, 1, 1, 0, 0, 0, EDGE, 2, 0, 4, 0, 0][:n], [2, 0, 4], due=n >= 13)
    seeks_edge("rows out of turn", table([r for r in reversed(ROWS)]), [2, 0, 4], due=True)
    seeks_edge("a place between two rows", [0, 0, EDGE, 1, 2, 3, 4, 5, 0, 0, 0, 0, 0], [1, 2, 3], due=False)
    dice = Dice(12)
    for n in range(100):
        drawn = [[dice.pick([EDGE, EDGE, EDGE, dice.below(9)])] + [dice.below(3) for i in range(5)] for j in range(dice.below(9))]
        seeks_edge("drawn cells %d" % n, table(drawn) + [EDGE, 1, 1, 1, 0][: dice.below(6)], [dice.below(3) for i in range(5)])


def cases():
    example_cases()
    full_cases()
    replaced_cases()
    room_cases()
    any_cases()
    place_cases()
    edge_cases()
