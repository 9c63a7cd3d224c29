"""Cases of files and tables with turns (02, K12), beside those that all forms of file have: the numbers, the sort, what repeats, the names lines mixed, the
cells."""
from cases.case_file import bytes_of
from cases.comparing import compare
from cases.faults import FAULTS, faulty, full_sections
from cases.file_calls import TOP, reads, row, rows_of, seeks, table, try_read, writes
from cases.gyms import EXAMPLE, OLD_FORM, SMALLEST, TURNS_OF_0, WITH_KINDS, WITH_TURNS, WORD, at_section, changed, kinds_text, text_of, turned, turns_text
from cases.judging import judge
from cases.kinds import many_kinds
from cases.listing import listed, summed
from reference.gym_file import DECLARED, EDGE, KINDS, LABEL, NAMES_OF, OLD, ORDER, QUERY, SCOPES, TURNS

# The example with kinds and turns; its edges are put in place.
BASE = WITH_TURNS.graph(EXAMPLE)


def edges(*rows):
    return turns_text(changed(BASE, s5=list(rows)))


def number_cases():
    for turn, due in [
        ("0", 0), ("1", 0), ("9", 0), ("10", 0), ("42", 0), ("98", 0), ("99", 0), ("100", 3), ("101", 3), ("255", 3), ("256", 3), ("999", 3), ("1000", 3), ("65535", 3),
        ("65536", 3), ("99999", 3), ("100000", 2), ("1000000", 2), ("00", 2), ("01", 2), ("09", 2), ("099", 2), ("0100", 2), ("-1", 2), ("+1", 2), ("1.0", 2), ("x", 2),
        ("P", 2), ("$", 2), ("", 2), (" 1", 2), ("1 ", 2), ("1 1", 2),
    ]:  # fmt: skip
        reads("turn %s" % (turn or "missing between two spaces"), WITH_TURNS.with_last(EDGE, "3 P %s 1" % turn), due=due)
    for first in range(0, 100, 10):
        reads("turns %d to %d at one scope" % (first, first + 9), at_ten(first), due=0)


def at_ten(first):
    """Ten turns in turn at one scope, to scopes that descend."""
    g = changed(BASE, s4=["12"], s5=["0 I %d %d" % (first + i, 11 - i) for i in range(10)])
    return turns_text(g)


def sort_cases():
    """By from, label, turn, to; and no from, label and to twice."""
    twelve = changed(BASE, s4=["12"])
    for rows, due in [
        (["1 I 2 4", "1 I 3 4"], 4), (["1 I 2 4", "1 I 2 4"], 4), (["1 I 3 4", "1 I 2 4"], 4), (["1 I 0 4", "1 I 99 4"], 4), (["1 I 2 4", "1 I 3 3"], 0),
        (["1 I 3 3", "1 I 2 4"], 4), (["1 I 2 3", "1 I 2 4"], 0), (["1 I 2 4", "1 I 2 3"], 4), (["1 I 9 4", "1 I 10 3"], 0), (["1 I 10 3", "1 I 9 4"], 4),
        (["1 I 99 0", "1 P 0 0"], 0), (["1 P 0 0", "1 I 99 0"], 4), (["1 I 99 4", "2 I 0 4"], 0), (["2 I 0 4", "1 I 99 4"], 4), (["1 I 1 4", "1 P 2 4"], 0),
        (["1 I 1 1", "1 I 2 1"], 4), (["1 I 1 1", "2 I 1 2"], 0), (["1 I 1 4", "1 I 2 3", "1 I 3 4"], 4), (["1 I 1 4", "1 I 2 3", "1 I 3 2", "1 I 4 4"], 4),
        (["1 I 1 4", "1 I 1 3"], 4), (["1 I 1 3", "1 I 1 4", "1 I 2 3"], 4), (["1 I 1 3", "1 I 1 4", "1 I 2 2"], 0), (["1 I 1 4", "1 I 2 3", "2 I 1 4", "2 I 2 3"], 0),
        (["1 I 1 4", "1 P 2 3", "2 I 0 4"], 0), (["1 I 1 4", "1 P 1 4", "1 P 2 4"], 4), (["0 I 1 4", "1 I 1 3", "1 I 2 4"], 0), (["1 I 5 0", "1 I 6 1", "1 I 7 2", "1 I 8 3", "1 I 9 0"], 4),
        (["1 I 5 0", "1 I 6 1", "1 I 7 2", "1 I 8 3", "1 I 9 3"], 4), (["1 I 5 0", "1 I 6 1", "1 I 7 2", "1 I 8 3", "1 I 9 4"], 0), ([], 0),
    ]:  # fmt: skip
        reads("edges with turns %s" % (" / ".join(rows) or "none"), edges(*rows), due=due)
    for rows, due in [(["1 I 2 9", "1 I 2 10"], 0), (["1 I 2 10", "1 I 2 9"], 4), (["1 I 2 10", "1 I 3 9"], 0), (["9 I 5 0", "10 I 4 0"], 0), (["10 I 4 0", "9 I 5 0"], 4)]:
        reads("edges with turns %s, twelve scopes" % " / ".join(rows), turns_text(changed(twelve, s5=rows)), due=due)
    other = changed(BASE, s0=["P", "I"], s1=[], s2=[])
    for rows, due in [(["1 P 9 0", "1 I 0 0"], 0), (["1 I 0 0", "1 P 9 0"], 4), (["1 P 1 0", "1 P 2 0"], 4)]:
        reads("edges with turns %s, labels P I" % " / ".join(rows), turns_text(changed(other, s5=rows)), due=due)
    all_of_one = ["0 I %d %d" % (min(i, 99), 63 - i) for i in range(64)]
    wide = changed(BASE, s4=["64"])
    reads("an edge to each scope by one label", turns_text(changed(wide, s5=all_of_one)), due=0)
    for to in (63, 62, 31, 1, 0):
        reads("an edge to each scope by one label, and one again to %d" % to, turns_text(changed(wide, s5=all_of_one + ["0 I 99 %d" % to])), due=4)
        reads("an edge to each scope by one label, and one by the other to %d" % to, turns_text(changed(wide, s5=all_of_one + ["0 P 0 %d" % to])), due=0)


def fault_cases():
    """2, 5, 3, 4 in one row."""
    for last, due in [
        ("1 I 03 4", 2), ("1 I 3", 2), ("1 I 3 4 4", 2), ("1 I 100000 4", 2), ("1 I 3 04", 2), ("1 I 100 4", 3), ("1 I 3 5", 3), ("1 Z 3 4", 3), ("5 I 3 4", 3), ("1 I 100 5", 3),
        ("0 I 100 4", 3), ("1 I 1 5", 3), ("1 I 2 4", 4), ("1 I 9 4", 4), ("1 I 1 3", 4), ("0 I 9 3", 4),
    ]:  # fmt: skip
        reads("edge %s behind 1 I 2 4" % last, edges("1 I 2 4", last), due=due)
    full, _ = full_sections()[EDGE]
    rows = ["%d Q 99 %d" % (i // 64, i % 64) for i in range(512)]
    most = changed(WITH_TURNS.graph(full), s5=rows)
    cells = try_read(turns_text(most))
    reads("edges full, each of turn 99", turns_text(most), room=len(cells), due=0)
    for title, more, due in [
        ("well", "8 Q 0 0", 5), ("again", "7 Q 99 63", 5), ("again at another turn", "7 Q 98 63", 5), ("turn 100", "8 Q 100 0", 5), ("unlisted", "8 Z 0 0", 5), ("turn 00", "8 Q 00 0", 2),
        ("without turn", "8 Q 0", 2),
    ]:  # fmt: skip
        reads("edges full, each of turn 99, and one more: %s" % title, turns_text(changed(most, s5=rows + [more])), due=due)
        reads("edges one less than full, and one more: %s" % title, turns_text(changed(most, s5=rows[:-1] + [more])), due={5: None}.get(due, due))


def line_cases():
    """Names lines that are nearly that of edges with turns, and that line at another section's place."""

    def under(k, line, names=WITH_TURNS.names):
        return text_of(BASE, [bytes_of(line) if i == k else name for i, name in enumerate(names)])

    for line in [
        "from label to turn", "from turn label to", "turn from label to", "from label turn", "label turn to", "from label  turn to", "from label turn to 0", "from label turn to ",
        "from label turns to", "from label Turn to", "from label to", "from label kind to", "at kind name mark",
    ]:  # fmt: skip
        reads("edges with turns under <%s>" % line, under(EDGE, line), due=2)
    for k in range(9):
        if k != EDGE:
            for f in (OLD_FORM, WITH_KINDS, WITH_TURNS):
                reads("from label turn to in place of %s, %sa file" % (f.names[k].decode(), f.title), under(k, WITH_TURNS.names[EDGE], f.names), due=2)
    for f, title in (OLD_FORM, "old form"), (WITH_KINDS, "with kinds"):
        example = f.graph(EXAMPLE)
        reads("edges with turns under the old line, %s" % title, text_of(at_section(example, EDGE, BASE[EDGE]), f.names), due=2)
        reads("an edge with a turn behind others, %s" % title, f.with_more(EDGE, "4 P 0 1"), due=2)
        reads("the line of edges with turns behind edges, %s" % title, f.with_more(EDGE, "from label turn to"), due=2)
        reads("the line of edges with turns behind theirs, %s" % title, text_of(at_section(example, EDGE, [WITH_TURNS.names[EDGE]] + BASE[EDGE]), f.names), due=2)
    reads("edges without turns under the line with turns", turns_text(at_section(BASE, EDGE, EXAMPLE[EDGE])), due=2)
    reads("an edge without a turn behind others", WITH_TURNS.with_more(EDGE, "4 P 1"), due=2)
    reads("the old line of edges behind edges with turns", WITH_TURNS.with_more(EDGE, "from label to"), due=2)
    reads("the old line of edges behind the line with turns", turns_text(at_section(BASE, EDGE, [b"from label to"] + BASE[EDGE])), due=2)
    reads("the line of edges with turns twice", turns_text(at_section(BASE, EDGE, [b"from label turn to"] + BASE[EDGE])), due=2)


def mixed(lines, g=EXAMPLE):
    """The names lines and the rows of edges, declarations and queries, each of a form of its own."""
    form = {EDGE: lines[0], DECLARED: lines[1], QUERY: lines[2]}
    of = [(OLD_FORM, WITH_KINDS, WITH_TURNS)[form.get(k, OLD)] for k in range(9)]
    rows = [[f.row(k, r) for r in section] for k, (f, section) in enumerate(zip(of, g))]
    return text_of(rows, [f.names[k] for k, f in enumerate(of)])


# The mixtures that are no form, by the forms of edges, declarations and queries, and the section at whose line they are 2.
MIXTURES = [
    ((TURNS, OLD, OLD), DECLARED, "edges with turns, declarations and queries without kinds"),
    ((TURNS, OLD, KINDS), DECLARED, "edges with turns, declarations without kinds"),
    ((TURNS, KINDS, OLD), QUERY, "edges with turns, queries without kinds"),
]


def mixture_cases(lines, at, title):
    """2 at that line: what is wrong above it comes first, what is wrong behind it does not come."""
    text = mixed(lines)
    reads(title, text, due=2)
    reads(title + ", no cells", text, room=0, due=2)
    for which, g in [
        ("no edges", changed(EXAMPLE, s5=[])), ("no declarations", changed(EXAMPLE, s6=[])), ("no queries", changed(EXAMPLE, s8=[])),
        ("no rows in any", changed(EXAMPLE, s5=[], s6=[], s8=[])), ("nothing but a count", SMALLEST), ("6", changed(EXAMPLE, s1=["I I"])), ("no scopes row", changed(EXAMPLE, s4=[])),
    ]:  # fmt: skip
        reads("%s, and %s" % (title, which), mixed(lines, g), due=2)
    reads(title + ", no last LF", text[:-1], due=2)
    reads(title + ", 32769 bytes", text + (b"2 hours\n" * 4096)[: 32769 - len(text)], due=1)
    for k in range(9):
        for n in FAULTS[k]:
            reads("%s, and %d in %s" % (title, n, WORD[k]), mixed(lines, faulty(EXAMPLE, k, n)), due=n if k < at else 2)
    reads("%s, and turn 100" % title, mixed(lines).replace(b"3 P 0 1\n", b"3 P 100 1\n"), due=3)
    reads("%s, and an edge again at another turn" % title, mixed(lines).replace(b"3 P 0 1\n", b"3 P 0 1\n3 P 1 1\n"), due=4)
    for query in (0, 3):
        listed(OLD_FORM, "%s, query %d" % (title, query), text, query, 2)
    summed(OLD_FORM, title, text, 2)
    seeks("name of query 0, " + title, text, 0, b"")
    judge(OLD_FORM, "judge: " + title, text, 0, "21 2", 2)
    compare("compare: " + title, text, "21 2", "10 2P1", 2)


ROWS = rows_of(EXAMPLE)
LAST = [max(i for i, r in enumerate(ROWS) if r[0] == k) for k in range(9)]
FIRST = [min(i for i, r in enumerate(ROWS) if r[0] == k) for k in range(9)]
# the cell of the turn, behind the section's number and an edge's other three values
CELL = 4


def put_turn(i, turn, **at):
    """The example's rows with a turn in row i, and further cells of the last edge put in place."""
    new = [list(r) for r in ROWS]
    new[i][CELL] = turn
    for c, v in at.items():
        new[LAST[EDGE]][int(c[1:])] = v
    return new


def cell_cases():
    """The cell of the turn, in each form of a table."""
    for turn in (0, 1, 2, 9, 50, 98, 99, 100, 101, 255, 65535, 99999, 100000, 1 << 32, (1 << 32) + 1, TOP):
        for form in (OLD, KINDS):
            writes("form %d, turn %d" % (form, turn), table(put_turn(LAST[EDGE], turn), form), due=0 if turn == 0 else 2)
        writes("form 2, turn %d" % turn, table(put_turn(LAST[EDGE], turn), TURNS), due=0 if turn < 100 else 3 if turn < 100000 else 2)
    for i in range(FIRST[EDGE], LAST[EDGE] + 1):
        for form, due in (OLD, 2), (KINDS, 2), (TURNS, 0):
            writes("form %d, turn 7 in edge row %d alone" % (form, i - FIRST[EDGE]), table(put_turn(i, 7), form), due=due)
            writes("form %d, turn 7 in edge row %d alone, no bytes" % (form, i - FIRST[EDGE]), table(put_turn(i, 7), form), room=0, due=due or 9)
    for form in (OLD, KINDS):
        for title, new in [
            ("and 3 in the same row", put_turn(LAST[EDGE], 1, c1=99999)), ("and 3 in a later row", put_turn(FIRST[EDGE], 1, c1=99999)),
            ("and 2 in a later row", put_turn(FIRST[EDGE], 1, c1=100000)), ("and 4 in the same row", put_turn(LAST[EDGE], 1, c1=0)),
            ("and 6", [r for i, r in enumerate(put_turn(LAST[EDGE], 1)) if i != FIRST[ORDER] + 1]),
        ]:  # fmt: skip
            writes("form %d, another turn than 0 %s" % (form, title), table(new, form), due=2)
        new = put_turn(LAST[EDGE], 1)
        new[FIRST[EDGE]][1] = 99999
        writes("form %d, another turn than 0 below 3" % form, table(new, form), due=3)
        new = put_turn(LAST[EDGE], 1)
        new[LAST[DECLARED]][1] = 99999
        writes("form %d, another turn than 0 above 3" % form, table(new, form), due=2)
    for title, new, due in [
        ("100 and a scope past the count", put_turn(LAST[EDGE], 100, c3=9), 3), ("100000 and a scope past the count", put_turn(LAST[EDGE], 100000, c3=9), 2),
        ("99 and a scope past the count", put_turn(LAST[EDGE], 99, c3=9), 3), ("1 and an unused cell", put_turn(LAST[EDGE], 1, c5=1), 2),
        ("100 and a row out of its sequence", put_turn(LAST[EDGE], 100, c1=0), 3),
    ]:  # fmt: skip
        writes("form 2, turn %s" % title, table(new, TURNS), due=due)


def table_sort_cases():
    for title, given, due in [
        ("1 then 2, another scope", [(0, 0, 2, 1), (0, 0, 1, 2)], 0), ("2 then 1, another scope", [(0, 0, 2, 2), (0, 0, 1, 1)], 4), ("again at a higher turn", [(0, 0, 2, 1), (0, 0, 2, 2)], 4),
        ("again at a lower turn", [(0, 0, 2, 2), (0, 0, 2, 1)], 4), ("again", [(0, 0, 2, 1), (0, 0, 2, 1)], 4), ("again behind another", [(0, 0, 2, 1), (0, 0, 1, 2), (0, 0, 2, 3)], 4),
        ("by the other label", [(0, 0, 2, 2), (0, 1, 2, 1)], 0), ("from another scope", [(0, 0, 2, 2), (1, 0, 2, 1)], 0), ("one turn, scopes that ascend", [(0, 0, 1, 5), (0, 0, 2, 5)], 0),
        ("one turn, scopes that descend", [(0, 0, 2, 5), (0, 0, 1, 5)], 4), ("a self-edge again", [(0, 0, 0, 1), (0, 0, 0, 2)], 4),
    ]:  # fmt: skip
        rows = [row(LABEL, 73), row(LABEL, 80), row(SCOPES, 3)] + [row(EDGE, *e) for e in given]
        writes("turns that sort: %s" % title, table(rows, TURNS), due=due)
    full = rows_of(full_sections()[EDGE][0])
    end = max(i for i, r in enumerate(full) if r[0] == EDGE) + 1
    for turn, dues in (0, (5, 5, 5)), (1, (2, 2, 5)), (99, (2, 2, 5)), (100, (2, 2, 5)), (100000, (2, 2, 2)):
        for form, due in enumerate(dues):
            more = full[end - 1][:CELL] + [turn, 0]
            writes("form %d, one edge more than full, of turn %d" % (form, turn), table(full[:end] + [more] + full[end:], form), due=due)
    for form in (3, 4, 255, 256, 258, 1 << 32, (1 << 32) + 2, TOP):
        writes("turns, form %d" % form, table(put_turn(LAST[EDGE], 7), form), due=2)
        writes("turns of 0, form %d" % form, table(ROWS, form), due=2)


def many_turns():
    """The largest graph of many kinds, with turns of two digits, as many as there are."""
    big = many_kinds()
    letters = [r.decode() for r in big[LABEL]]
    rows = [turned(r, 10 + i * 37 % 90) for i, r in enumerate(big[EDGE])]
    rank = lambda r: [int(x) if x.isdigit() else letters.index(x) for x in r.decode().split()]
    return changed(big, s5=sorted(rows, key=rank))


def largest_cases():
    text = turns_text(many_turns())
    cells = try_read(text)
    assert 29000 < len(text) <= 32768
    reads("the largest graph of many kinds and turns", text, room=len(cells), due=0)
    reads("the largest graph of many kinds and turns, a cell less", text, room=len(cells) - 1, due=9)
    writes("the largest graph of many kinds and turns", cells, room=len(text), due=0)
    writes("the largest graph of many kinds and turns, a byte less", cells, room=len(text) - 1, due=9)
    for form in (OLD, KINDS):
        writes("the largest graph of many kinds and turns, form %d" % form, [form] + cells[1:], room=len(text), due=2)


def zero_cases():
    """A column of zeros is read as it is, and kept."""
    for title, g in [("the example", EXAMPLE), ("nine names lines and a count", SMALLEST), ("no edges", changed(EXAMPLE, s5=[]))]:
        text = TURNS_OF_0.text(g)
        reads("turns of 0, %s" % title, text, due=0)
        cells = try_read(text)
        assert cells[1:] == try_read(WITH_KINDS.text(g))[1:] and cells[0] == TURNS
        writes("turns of 0, %s" % title, cells, room=len(text), due=0)


def cases():
    number_cases()
    sort_cases()
    fault_cases()
    line_cases()
    for mixture in MIXTURES:
        mixture_cases(*mixture)
    cell_cases()
    table_sort_cases()
    largest_cases()
    zero_cases()
