"""Cases of what a query sees by kind and name (02, K8): listings, names sought, rows judged and compared, and old files beside the same files with kinds."""
from cases.case_file import Dice
from cases.comparing import compare
from cases.file_calls import seeks, try_read
from cases.gyms import EXAMPLE, OLD_FORM, WITH_KINDS, at_section, changed, graph, kinds_text, random_gym, realistic, refused_files, text_of
from cases.judging import judge
from cases.kinds import LETTERS
from cases.listing import asked, ladder, put, summed, whole
from reference.gym_file import KINDS, QUERY

# The example with counters (c) and limits (l): the wall has one name in both kinds, lane 2 and its profile have limits alone.
TWO = changed(
    EXAMPLE,
    s6=["0 c hours 5", "0 l hours 6", "1 c service 10", "1 l service 11", "2 l service 21", "4 l hours 40"],
    s8=["2 c service", "2 l service", "3 c service", "3 l service", "3 v service", "2 c hours", "2 l hours", "2 v hours"],
)
# One scope with one name in two kinds, and nothing else.
BOTH = graph([], [], [], ["0"], ["1"], [], ["0 c x 1", "0 v x 1"], [], ["0 c x", "0 v x", "0 x x", "0 c v"])


def seen(title, g, query, values, *rows, room=None):
    """A listing. What the case is there for: its values, and its rows where some are given or none are found."""
    text = b"".join(b"%s\n" % line.encode() for line in ("start kind seek found awaits", values, "mark path", *rows))
    due = text if rows or " none " in values else values
    put(b"l", b"listed", "listing: " + title, kinds_text(g), query, room, due)


def two_kind_cases():
    for query, title, *due in [
        (0, "the wall's counter; the lane's own limit does not shadow it", "2 c service one -", "10 2P1"),
        (1, "the lane's own limit", "2 l service one -", "21 2"),
        (2, "one name in two kinds at a scope, the counter", "3 c service one 3$", "10 3P1"),
        (3, "one name in two kinds at a scope, the limit", "3 l service one 3$", "11 3P1"),
        (4, "an open $ awaits a kind that nothing has", "3 v service none 3$"),
        (5, "an import that holds the other kind shadows nothing", "2 c hours one -", "5 2P1P0"),
        (6, "an import that holds the kind", "2 l hours one -", "40 2I4"),
        (7, "a kind that nothing has", "2 v hours none -"),
    ]:  # fmt: skip
        seen(title, TWO, query, *due)
    whole(WITH_KINDS, "counters and limits as the program prints them", kinds_text(TWO), 65536)
    summed(WITH_KINDS, "counters and limits", kinds_text(TWO), "8 6 0 2 75")
    for query, *due in [(0, "0 c x one -", "1 0"), (1, "0 v x one -", "1 0"), (2, "0 x x none -"), (3, "0 c v none -")]:
        seen("0 c x 1 and 0 v x 1 together, query %d" % query, BOTH, query, *due)
    whole(WITH_KINDS, "0 c x 1 and 0 v x 1 together", kinds_text(BOTH), 65536)
    length = len("start kind seek found awaits\n2 c service one -\nmark path\n10 2P1\n")
    seen("2 c service, a buffer of its length", TWO, 0, "2 c service one -", "10 2P1", room=length)
    put(b"l", b"listed", "listing: 2 c service, a byte less", kinds_text(TWO), 0, length - 1, 9)


def open_cases():
    every = changed(BOTH, s7=["0 $"], s8=["0 %s x" % c for c in LETTERS])
    for query, c in enumerate(LETTERS):
        seen("an open $ awaits a query of kind %s" % c, every, query, "0 %s x %s 0$" % (c, "one" if c in "cv" else "none"))
    # the site's counter and the profile's limit, by what may still come
    for opened, counter, limit in [
        ("2 $", "2$", "2$"), ("2 I", "2I", "2I"), ("2 P", "2P", "-"), ("1 I", "1I", "-"), ("0 $", "0$", "-"), ("0 P", "-", "-"), ("4 $", "4$", "4$"), ("4 I", "4I", "-"),
    ]:  # fmt: skip
        g = changed(TWO, s7=[opened])
        seen("hours of kind c, open %s" % opened, g, 5, "2 c hours one " + counter)
        seen("hours of kind l, open %s" % opened, g, 6, "2 l hours one " + limit)


def route_cases():
    """`found` counts declarations of the kind sought (02, K2)."""
    for title, rows, *due in [
        ("two routes to one row, another kind beside it", ["1 c a 7", "1 v a 7"], "0 c a one -", "7 0I1", "7 0P1"),
        ("two routes, two marks of one kind", ["1 c a 7", "1 c a 8", "1 v a 9"], "0 c a several -", "7 0I1", "8 0I1", "7 0P1", "8 0P1"),
        ("two routes, equal marks at two scopes in two kinds", ["0 v a 7", "1 c a 7"], "0 c a one -", "7 0I1", "7 0P1"),
        ("two routes, the other kind alone", ["0 v a 7", "1 v a 7"], "0 c a none -"),
    ]:  # fmt: skip
        seen(title, ladder(1, rows, s8=["0 c a"]), 0, *due)


def name_cases():
    for query, name in enumerate([b"service"] * 5 + [b"hours"] * 3 + [b""]):
        seeks("name of query %d of counters and limits" % query, kinds_text(TWO), query, name)
    for name in (b"a", b"c", b"abcdefghijklmnop"):
        seeks("name of a query of kind c, " + name.decode(), kinds_text(at_section(TWO, QUERY, [b"0 c " + name])), 0, name)


def row_cases():
    """Rows judged and compared by a file with kinds."""
    text = kinds_text(TWO)
    for query, row, due in [
        (0, "10 2P1", "visible"), (0, "11 2P1", "unreached"), (0, "21 2", "unreached"), (1, "21 2", "visible"), (1, "11 2P1", "shadowed"),
        (1, "10 2P1", "unreached"), (1, "10 2", "unreached"), (2, "10 3P1", "visible"), (2, "11 3P1", "unreached"), (3, "11 3P1", "visible"),
        (3, "10 3P1", "unreached"), (4, "10 3P1", "unreached"), (5, "5 2P1P0", "visible"), (5, "6 2P1P0", "unreached"), (5, "40 2I4", "unreached"),
        (6, "40 2I4", "visible"), (6, "6 2P1P0", "shadowed"), (6, "5 2P1P0", "unreached"), (7, "40 2I4", "unreached"), (8, "10 2P1", 7), (0, "x", 8),
    ]:  # fmt: skip
        judge(WITH_KINDS, "judge: query %d of counters and limits, %s" % (query, row), text, query, row, due)
    judge(WITH_KINDS, "judge: counters and limits, no records", text, 0, "10 2P1", 9, 0)
    for a, b, due in [
        ("10 2P1", "40 2I4", "second"), ("21 2", "10 2P1", "first"), ("10 2P1", "11 2P1", "neither"), ("10 3P1", "10 2P1", "neither"), ("10 2P1", "x", 8),
        ("x", "10 2P1", 8),
    ]:  # fmt: skip
        compare("counters and limits: %s and %s" % (a, b), text, a, b, due)
    compare("counters and limits, no records", text, "10 2P1", "40 2I4", 9, 0, 63)
    for k, t in refused_files(WITH_KINDS).items():
        compare("with kinds: file refused %d, rows well" % k, t, "1 2I4", "1 2I4", k)
        compare("with kinds: file refused %d, rows malformed, no records" % k, t, "1 2i4", "1 2i4", k, 0, 0)


def sections_of(text):
    """The rows of an old file, section by section."""
    sections = []
    for line in text.splitlines():
        if b"a" <= line[:1] <= b"z":
            sections.append([])
        else:
            sections[-1].append(line)
    return sections


def without_query(out):
    """What a listing says of its query: found, awaits and the rows. A summary or a refusal as it is."""
    if not isinstance(out, bytes) or not out.startswith(b"start"):
        return out
    _, values, rest = out.split(b"\n", 2)
    return values.split()[-2:], rest


def same_cases():
    """An old file and the same file with every kind `v`: the same entries, `found` and `awaits`."""
    dice = Dice(118)
    gyms = [("the example", text_of(EXAMPLE)), ("a gym of 27 scopes", text_of(realistic()))]
    gyms += [("gym %d" % n, random_gym(dice, 3 + dice.below(6), 14)) for n in range(60)]
    for title, old in gyms:
        sections = sections_of(old)
        new = WITH_KINDS.text(sections)
        assert try_read(new) == [KINDS] + try_read(old)[1:], title
        for query in [None, *range(len(sections[QUERY]) + 1)]:
            assert without_query(asked(old, query)) == without_query(asked(new, query)), title
        whole(OLD_FORM, "both forms, %s" % title, old)
        whole(WITH_KINDS, "both forms, %s" % title, new)


def cases():
    two_kind_cases()
    open_cases()
    route_cases()
    name_cases()
    row_cases()
    same_cases()
