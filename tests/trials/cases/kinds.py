"""Cases of files and tables with kinds (02, K8), beside those that all forms of file have: the letters, the sort, the two forms mixed, the cells."""
from cases.case_file import bytes_of
from cases.comparing import compare
from cases.faults import FAULTS, faulty, full_sections
from cases.file_calls import TOP, name_cells, reads, row, rows_of, seeks, table, try_read, writes
from cases.gyms import EXAMPLE, FORMS, OLD_FORM, SMALLEST, WITH_KINDS, WORD, at_section, changed, kinded, kinds_text, largest, text_of
from cases.judging import judge
from cases.listing import listed, summed
from reference.gym_file import DECLARED, EDGE, KINDS, NAMES_OF, OLD, ORDER, QUERY, SCOPES, TURNS

LETTERS = "abcdefghijklmnopqrstuvwxyz"


def letter_cases():
    for letter in LETTERS:
        reads("kind %s declared" % letter, WITH_KINDS.with_last(DECLARED, "4 %s hours 40" % letter), due=0)
        reads("kind %s sought" % letter, WITH_KINDS.with_last(QUERY, "2 %s hours" % letter), due=0)
    for k, line, due in [
        (DECLARED, "4 hours 40", 2), (DECLARED, "4 v 40", 2), (DECLARED, "4 v h", 2), (DECLARED, "4 v hours", 2), (DECLARED, "4 h v 40", 0),
        (DECLARED, "4 v v 40", 0), (DECLARED, "4 v v hours 40", 2), (DECLARED, "4 hours v 40", 2), (DECLARED, "v 4 hours 40", 2),
        (DECLARED, "4 v seventeen_letters 40", 2), (DECLARED, "9 A hours 40", 2), (DECLARED, "0 A hours 40", 2), (DECLARED, "0 v hours 65536", 3),
        (DECLARED, "0 a hours 40", 4), (QUERY, "2 hours", 2), (QUERY, "2 v", 2), (QUERY, "2 v ", 2), (QUERY, "2 h v", 0), (QUERY, "2 v v", 0),
        (QUERY, "2 v v v", 2), (QUERY, "2 hours v", 2), (QUERY, "v 2 hours", 2), (QUERY, "9 A hours", 2), (QUERY, "9 v hours", 3),
    ]:  # fmt: skip
        reads("with kinds, %s row %s" % (WORD[k], line), WITH_KINDS.with_last(k, line), due=due)
    for k, line, due in [(DECLARED, "4 v hours 40", 2), (DECLARED, "4 v 40", 0), (QUERY, "2 v hours", 2), (QUERY, "2 v", 0)]:
        reads("old form, %s row %s" % (WORD[k], line), OLD_FORM.with_last(k, line), due=due)


def line_cases():
    """Names lines that are nearly those of the form with kinds, and those at another section's place."""

    def under(k, line):
        return text_of(WITH_KINDS.graph(EXAMPLE), [bytes_of(line) if i == k else name for i, name in enumerate(WITH_KINDS.names)])

    for line in [
        "at kind mark name", "at name kind mark", "kind at name mark", "at kind name", "at  kind name mark", "at kind name mark 0", "start kind seek",
        "at kind open",
    ]:  # fmt: skip
        reads("declarations under %s" % line, under(DECLARED, line), due=2)
    for line in "start seek kind", "kind start seek", "start kind", "at kind name mark", "start  kind seek", "start kind seek found awaits":
        reads("queries under %s" % line, under(QUERY, line), due=2)
    for k in range(9):
        if k != DECLARED:
            reads("at kind name mark in place of %s" % WITH_KINDS.names[k].decode(), under(k, WITH_KINDS.names[DECLARED]), due=2)


def sort_cases():
    """By scope, kind, name, mark."""
    for rows, due in [
        (["0 c x 1", "0 v x 1"], 0), (["0 v x 1", "0 c x 1"], 4), (["0 c x 1", "0 c x 1"], 4), (["0 c z 1", "0 v a 1"], 0), (["0 v a 1", "0 c z 1"], 4),
        (["0 c x 9", "0 v x 1"], 0), (["0 c x 1", "0 c x 2", "0 v x 0"], 0), (["0 c x 1", "0 v x 1", "0 c y 1"], 4),
        (["0 c x 1", "0 v x 1", "0 v x 1"], 4), (["0 c a 2", "0 c b 1"], 0), (["0 c b 1", "0 c a 2"], 4), (["0 c a 2", "0 c a 1"], 4),
        (["0 z z 9", "1 a a 0"], 0), (["1 a a 0", "0 z z 9"], 4), (["0 a zzzzzzzzzzzzzzzz 65535", "0 b a 0"], 0),
        (["0 b a 0", "0 a zzzzzzzzzzzzzzzz 65535"], 4), (["0 y b 1", "0 z a 0"], 0), (["0 z a 0", "0 y b 1"], 4), (["0 a bc 1", "0 b ac 1"], 0),
        (["0 b ac 1", "0 a bc 1"], 4), (["0 %s x 1" % c for c in LETTERS], 0), (["0 %s x 1" % c for c in LETTERS[::-1]], 4),
    ]:  # fmt: skip
        title = " / ".join(rows) if len(rows) < 4 else "of every kind, %s first" % rows[0][2]
        reads("declared rows with kinds %s" % title, kinds_text(changed(EXAMPLE, s6=rows, s8=[])), due=due)
    queries = ["2 v hours", "2 c hours", "2 v hours", "0 z a", "0 a z"]
    reads("queries of any kind in any sequence", kinds_text(changed(EXAMPLE, s6=[], s8=queries)), due=0)


def mixed(first, second, g=EXAMPLE, rows=None):
    """The names line of the declarations of one form, with rows of it, and that of the queries of another; their rows are of that form too, or of `rows`."""
    rows = second if rows is None else rows
    names = [NAMES_OF[second if k == QUERY else first][k] for k in range(9)]
    forms = [FORMS[rows if k == QUERY else first] for k in range(9)]
    return text_of([[f.row(k, r) for r in section] for k, (f, section) in enumerate(zip(forms, g))], names)


def mixture_cases(first, second, title):
    """2 at the second of the two lines: what is wrong above it comes first, what is wrong behind it does not come."""
    text = mixed(first, second)
    reads(title, text, due=2)
    reads(title + ", no cells", text, room=0, due=2)
    reads(title + ", the queries' rows of the declarations' form", mixed(first, second, rows=first), due=2)
    for which, g in [
        ("no queries", changed(EXAMPLE, s8=[])), ("no declarations", changed(EXAMPLE, s6=[])), ("no rows in either", changed(EXAMPLE, s6=[], s8=[])),
        ("nothing but a count", SMALLEST), ("6", changed(EXAMPLE, s1=["I I"])), ("no scopes row", changed(EXAMPLE, s4=[])),
        ("6 and no queries", changed(EXAMPLE, s1=["I I"], s8=[])),
    ]:  # fmt: skip
        reads("%s, and %s" % (title, which), mixed(first, second, g), due=2)
    reads(title + ", no last LF", text[:-1], due=2)
    reads(title + ", 32769 bytes", text + (b"2 hours\n" * 4096)[: 32769 - len(text)], due=1)
    for k in range(9):
        for n in FAULTS[k]:
            reads("%s, and %d in %s" % (title, n, WORD[k]), mixed(first, second, faulty(EXAMPLE, k, n)), due=2 if k == QUERY else n)
    for query in (0, 3):
        listed(OLD_FORM, "%s, query %d" % (title, query), text, query, 2)
    summed(OLD_FORM, title, text, 2)
    seeks("name of query 0, " + title, text, 0, b"")
    judge(OLD_FORM, "judge: " + title, text, 0, "21 2", 2)
    compare("compare: " + title, text, "21 2", "10 2P1", 2)


def other_rows_cases(f, other, title):
    """Rows of the other form under the lines of one form, and the other form's line behind a line or its rows."""
    example = f.graph(EXAMPLE)
    for k in (DECLARED, QUERY):
        reads("%s rows of the other form, %s" % (WORD[k], title), text_of(at_section(example, k, other.graph(EXAMPLE)[k]), f.names), due=2)
        reads("%s row of the other form behind rows, %s" % (WORD[k], title), f.with_more(k, other.last_row(k)), due=2)
        reads("%s names line of the other form behind rows, %s" % (WORD[k], title), f.with_more(k, other.names[k]), due=2)
        twice = text_of(at_section(example, k, [other.names[k]] + example[k]), f.names)
        reads("%s names line of the other form behind it, %s" % (WORD[k], title), twice, due=2)


ROWS = rows_of(EXAMPLE)
LAST = [max(i for i, r in enumerate(ROWS) if r[0] == k) for k in range(9)]
FIRST = [min(i for i, r in enumerate(ROWS) if r[0] == k) for k in range(9)]
C, V = ord("c"), ord("v")


def put_kind(i, kind, **at):
    """The example's rows with another kind in row i, and further cells of the last row of its section put in place."""
    new = [list(r) for r in ROWS]
    new[i][2] = kind
    for c, v in at.items():
        new[LAST[new[i][0]]][int(c[1:])] = v
    return new


def cell_cases(k):
    """The cell of the kind, in both forms of a table."""
    for kind in (0, 1, 65, 86, 96, 97, 99, 117, V, 119, 122, 123, V + 256, V + (1 << 32), TOP):
        writes("old form, kind %d in %s" % (kind, WORD[k]), table(put_kind(LAST[k], kind)), due=0 if kind == V else 2)
        writes("with kinds, kind %d in %s" % (kind, WORD[k]), table(put_kind(LAST[k], kind), KINDS), due=0 if 97 <= kind <= 122 else 2)
    for title, new in [
        ("in its first row", put_kind(FIRST[k], C)), ("and 3 in the same row", put_kind(LAST[k], C, c1=99999)),
        ("in its first row, and 3 in its last", put_kind(FIRST[k], C, c1=99999)), ("in its first row, and 2 in its last", put_kind(FIRST[k], C, c1=100000)),
    ]:  # fmt: skip
        writes("old form, another kind in %s %s" % (WORD[k], title), table(new), due=2)
        writes("old form, another kind in %s %s, no bytes" % (WORD[k], title), table(new), room=0, due=2)
    new = put_kind(LAST[k], C)
    new[LAST[EDGE]][1] = 99999
    writes("old form, another kind in %s, and 3 in edge" % WORD[k], table(new), due=3)
    new[LAST[EDGE]] = list(new[LAST[EDGE] - 1])
    writes("old form, another kind in %s, and 4 in edge" % WORD[k], table(new), due=4)
    new = put_kind(LAST[k], C)
    del new[LAST[ORDER]]
    writes("old form, another kind in %s, and 6" % WORD[k], table(new), due=2)
    full = rows_of(full_sections()[k][0])
    end = max(i for i, r in enumerate(full) if r[0] == k) + 1
    for kind, dues in (C, (2, 5)), (V, (5, 5)), (96, (2, 2)):
        for form, due in enumerate(dues):
            more = list(full[end - 1])
            more[2] = kind
            writes("form %d, one %s row more than full, of kind %d" % (form, WORD[k], kind), table(full[:end] + [more] + full[end:], form), due=due)


def table_cases():
    """Tables as they were before there were kinds, of forms that are none, and such that sort by kind."""
    before = [r[:2] + r[3:] + [0] if r[0] in (DECLARED, QUERY) else r for r in ROWS]
    two = put_kind(LAST[DECLARED], C)
    for form in (OLD, KINDS):
        writes("form %d, cells as they were before kinds" % form, table(before, form), due=2)
    for form in (OLD, KINDS, 2, 3, 255, 256, 1 << 32, (1 << 32) + 1, TOP):
        writes("two kinds, form %d" % form, table(two, form), due=0 if form in (KINDS, TURNS) else 2)
    for title, names, due in [
        ("c x above v x", [("x", "c"), ("x", "v")], 0), ("v x above c x", [("x", "v"), ("x", "c")], 4), ("c x twice", [("x", "c"), ("x", "c")], 4),
        ("c z above v a", [("z", "c"), ("a", "v")], 0), ("v a above c z", [("a", "v"), ("z", "c")], 4),
        ("a long name of kind a above a short one of b", [("z" * 16, "a"), ("a", "b")], 0),
    ]:  # fmt: skip
        rows = [row(SCOPES, 1)] + [row(DECLARED, 0, *name_cells(*name), 1) for name in names]
        writes("kinds that sort: %s" % title, table(rows, KINDS), due=due)


def many_kinds():
    """The largest graph, with kinds all over the alphabet."""
    big = largest()
    kind = lambda i: LETTERS[i * 7 % 26]
    fields = lambda r: [int(x) if x.isdigit() else x for x in r.split()]
    declared = sorted((kinded(DECLARED, r, kind(i)) for i, r in enumerate(big[DECLARED])), key=fields)
    return changed(big, s6=declared, s8=[kinded(QUERY, r, kind(i)) for i, r in enumerate(big[QUERY])])


def largest_cases():
    text = kinds_text(many_kinds())
    cells = try_read(text)
    reads("the largest graph of many kinds", text, room=len(cells), due=0)
    reads("the largest graph of many kinds, a cell less", text, room=len(cells) - 1, due=9)
    writes("the largest graph of many kinds", cells, room=len(text), due=0)
    writes("the largest graph of many kinds, a byte less", cells, room=len(text) - 1, due=9)


def cases():
    letter_cases()
    line_cases()
    sort_cases()
    mixture_cases(OLD, KINDS, "declarations without kinds, queries with them")
    mixture_cases(KINDS, OLD, "declarations with kinds, queries without")
    other_rows_cases(OLD_FORM, WITH_KINDS, "old form")
    other_rows_cases(WITH_KINDS, OLD_FORM, "with kinds")
    cell_cases(DECLARED)
    cell_cases(QUERY)
    table_cases()
    largest_cases()
