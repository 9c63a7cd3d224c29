"""Cases of listings and summaries, in all forms of file."""
from cases.case_file import Dice, bytes_of, case, sum_of
from cases.file_calls import TOP
from cases.gyms import EXAMPLE, FORMS, SMALLEST, changed, realistic, refused_files, with_rows
from reference.gym_file import DECLARED, EDGE, Refused
from reference.query import Gym


def asked(text, query):
    """A query's listing, or the summary where `query` is None; or a refusal's number."""
    try:
        gym = Gym(text)
        return gym.summary() if query is None else gym.listing(query)
    except Refused as r:
        return r.number


def shown(verb, out, room):
    if isinstance(out, bytes) and len(out) > room:
        out = 9
    if not isinstance(out, bytes):
        return b"refused %d, all kept\n" % out
    return b"%s %d sum %d, rest kept\n" % (verb, len(out), sum_of(out)) + (out if len(out) <= 4096 else b"")


def put(kind, verb, title, text, query, room, due):
    """`due` is what the case is there for: the whole output, its second line, or a refusal's number."""
    out = asked(text, query)
    if room is None:
        room = len(out) + 11 if isinstance(out, bytes) else 100
    number = 9 if isinstance(out, bytes) and len(out) > room else out
    if isinstance(due, int):
        assert number == due, (title, due, number)
    elif due is not None:
        due = bytes_of(due)
        assert due in (out, out.split(b"\n")[1]), (title, due, out)
    case(kind, title, shown(verb, out, room), text, number=query or 0, room=room)


def listed(f, title, text, query, due=None, room=None):
    """A query's listing. `due` is as the old form has it."""
    put(b"l", b"listed", "listing: " + f.title + title, text, query, room, f.due(due))


def summed(f, title, text, due=None, room=None):
    put(b"s", b"summed", "summary: " + f.title + title, text, None, room, due)


def whole(f, title, text, room=None):
    """Every query's listing, one past the last, and the summary."""
    count = len(Gym(text).queries) + 1
    outs = [asked(text, i) for i in range(count)]
    last = asked(text, None)
    if room is None:
        room = max(len(x) for x in outs + [last] if isinstance(x, bytes)) + 5
    answer = b"".join(shown(b"listed", x, room) for x in outs) + shown(b"summed", last, room)
    case(b"a", "listings: " + f.title + title, answer, text, number=count, room=room)


FIRST = b"start seek found awaits\n2 service one -\nmark path\n21 2\n"
SECOND = b"start seek found awaits\n3 service one 3$\nmark path\n10 3P1\n"
THIRD = b"start seek found awaits\n2 hours one -\nmark path\n40 2I4\n"
SUMMARY = b"queries one several none share\n3 3 0 0 100\n"


def marked_cases(f):
    text = f.text(EXAMPLE)
    listed(f, "M1: the example, 2 service", text, 0, FIRST)
    listed(f, "M2: the example, 3 service", text, 1, SECOND)
    listed(f, "M3: the example, 2 hours", text, 2, THIRD)
    summed(f, "the example", text, SUMMARY)
    whole(f, "the example as the program prints it", text, 65536)
    listed(f, "M4: without 3 $", f.text(changed(EXAMPLE, s7=[])), 1, "3 service one -")
    one = f.text(changed(EXAMPLE, s7=["1 $"]))
    listed(f, "M5: open 1 $, 3 service", one, 1, "3 service one 1$")
    listed(f, "M5: open 1 $, 2 service", one, 0, "2 service one -")
    listed(f, "M6: open 2 P alone", f.text(changed(EXAMPLE, s7=["2 P"])), 2, "2 hours one -")
    listed(f, "M7: open 2 I alone", f.text(changed(EXAMPLE, s7=["2 I"])), 2, "2 hours one 2I")
    listed(f, "M8: with 4 hours 41 too", f.text(with_rows(DECLARED, "4 hours 41")), 2, b"start seek found awaits\n2 hours several -\nmark path\n40 2I4\n41 2I4\n")
    ring = changed(with_rows(EDGE, "0 P 2"), s8=["0 service"])
    listed(f, "M9: with edge 0 P 2", f.text(ring), 0, b"start seek found awaits\n0 service one -\nmark path\n21 0P2\n")
    whole(f, "M9, all that one may ask", f.text(changed(ring, s8=["%d %s" % (s, n) for s in range(5) for n in ("hours", "service", "limit")])))


def unmarked_cases(f):
    text = f.text(EXAMPLE)
    ends = ["%d %s" % (s, e) for s in range(5) for e in "$IP"]
    every = ["%d %s" % (s, n) for s in range(5) for n in ("hours", "service", "limit")]
    whole(f, "no accept rows", f.text(changed(EXAMPLE, s3=[])))
    silent = f.text(changed(EXAMPLE, s3=[], s7=ends, s8=every))
    whole(f, "no accept rows, everything open", silent)
    listed(f, "no accept rows, everything open, 2 service", silent, 7, b"start seek found awaits\n2 service none -\nmark path\n")
    for title, change in [
        ("no transitions", dict(s2=[])), ("no order", dict(s1=[])), ("no edges", dict(s5=[])), ("no declarations", dict(s6=[])), ("accept 0 alone", dict(s3=["0"])),
        ("accept 1 alone", dict(s3=["1"])), ("accept 15 alone", dict(s3=["15"])), ("$ last", dict(s1=["I $", "I P", "P $"])), ("P first", dict(s1=["P $", "P I"])),
        ("only $ before P", dict(s1=["$ P"])), ("only I before P", dict(s1=["I P"])),
    ]:  # fmt: skip
        whole(f, "the example, %s" % title, f.text(changed(EXAMPLE, s8=every, **change)))
        whole(f, "the example, %s, everything open" % title, f.text(changed(EXAMPLE, s7=ends, s8=every, **change)))
    for end in ends:
        whole(f, "the example, open %s alone" % end, f.text(changed(EXAMPLE, s7=[end])))
    for n, due in [("64", None), ("65", 3), ("0", 3), ("100000", 2), ("1", None)]:
        last = "0" if due else str(int(n) - 1)
        t = f.text(changed(EXAMPLE, s4=[n], s5=["%s P 0" % last], s6=["0 a 7"], s7=["%s $" % last], s8=["%s a" % last]))
        listed(f, "scopes %s" % n, t, 0, due)
        summed(f, "scopes %s" % n, t, due)
    for name, due in [("sixteen_letters_", 0), ("seventeen_letters", 2), ("a", 0), ("abcdefgh", 0), ("abcdefghi", 0), ("z9_", 0)]:
        t = f.text(changed(EXAMPLE, s6=["0 %s 5" % name], s8=["2 " + name]))
        listed(f, "name %s" % name, t, 0, due or "2 %s one -" % name)
        t = f.text(changed(EXAMPLE, s6=["0 abcdefghijklmno 5"], s8=["2 " + name]))
        listed(f, "name %s, another is declared" % name, t, 0, due or "2 %s none -" % name)
        summed(f, "name %s" % name, t, due or None)
    for mark, due in [("0", 0), ("65535", 0), ("65536", 3), ("99999", 3), ("100000", 2), ("05", 2)]:
        t = f.text(changed(EXAMPLE, s6=["0 hours " + mark]))
        listed(f, "mark %s" % mark, t, 2, due or b"start seek found awaits\n2 hours one -\nmark path\n%s 2P1P0\n" % mark.encode())
    # A buffer of the exact length, a byte less, none, and longer ones.
    for title, query, out in [("2 service", 0, FIRST), ("3 service", 1, SECOND), ("2 hours", 2, THIRD)]:
        length = len(f.due(out))
        for more, due in [(0, out), (-1, 9), (1, out), (-2, 9), (1000, out), (65536, out)]:
            listed(f, "%s, a buffer of %d bytes and %d" % (title, length, more), text, query, due, length + more)
        for room in (0, 1, 24, 40, 50):
            listed(f, "%s, a buffer of %d bytes" % (title, room), text, query, 9, room)
    for more, due in [(0, SUMMARY), (-1, 9), (1, SUMMARY), (-2, 9), (1000, SUMMARY)]:
        summed(f, "a buffer of its length and %d" % more, text, due, len(SUMMARY) + more)
    for room in (0, 1, 31):
        summed(f, "a buffer of %d bytes" % room, text, 9, room)


def number_cases(f):
    text = f.text(EXAMPLE)
    none = f.text(changed(EXAMPLE, s8=[]))
    for query in (3, 4, 255, 256, 1 << 32, (1 << 32) + 1, TOP):
        listed(f, "query %d of three" % query, text, query, 7)
        listed(f, "query %d of three, no bytes" % query, text, query, 7, 0)
        listed(f, "query %d of none" % query, none, query, 7)
    listed(f, "query 0 of none", none, 0, 7)
    many = f.text(changed(EXAMPLE, s8=["%d %s" % (i % 5, n) for i in range(128) for n in ("hours", "service")]))
    listed(f, "query 255 of 256", many, 255, "2 service one -")
    listed(f, "query 256 of 256", many, 256, 7)
    summed(f, "256 queries", many)
    for k, t in refused_files(f).items():
        listed(f, "file refused %d, query 0" % k, t, 0, k)
        listed(f, "file refused %d, query 0, no bytes" % k, t, 0, k, 0)
        listed(f, "file refused %d, query past the last" % k, t, 99, k)
        listed(f, "file refused %d, query past the last, no bytes" % k, t, TOP, k, 0)
        summed(f, "file refused %d" % k, t, k)
        summed(f, "file refused %d, no bytes" % k, t, k, 0)
    listed(f, "empty text", b"", 0, 2)
    summed(f, "empty text", b"", 2)


def share_cases(f):
    summed(f, "no queries", f.text(changed(EXAMPLE, s8=[])), "0 0 0 0 -")
    summed(f, "no queries, the smallest graph", f.text(SMALLEST), "0 0 0 0 -")
    summed(f, "no queries, a buffer of its length", f.text(SMALLEST), "0 0 0 0 -", 41)
    summed(f, "no queries, a byte less", f.text(SMALLEST), 9, 40)
    one, none, several = "2 service", "2 limit", "4 twice"
    base = changed(EXAMPLE, s6=["0 hours 5", "1 service 10", "2 service 21", "4 hours 40", "4 twice 1", "4 twice 2"])
    for a, b, c, due in [
        (1, 0, 2, "3 1 0 2 33"), (2, 0, 1, "3 2 0 1 67"), (1, 1, 1, "3 1 1 1 33"), (2, 1, 0, "3 2 1 0 67"), (0, 0, 1, "1 0 0 1 0"), (0, 1, 0, "1 0 1 0 0"),
        (1, 0, 0, "1 1 0 0 100"), (1, 0, 99, "100 1 0 99 1"), (1, 0, 100, "101 1 0 100 1"), (99, 1, 0, "100 99 1 0 99"), (199, 1, 0, "200 199 1 0 100"),
        (255, 1, 0, "256 255 1 0 100"), (256, 0, 0, "256 256 0 0 100"), (0, 256, 0, "256 0 256 0 0"), (0, 0, 256, "256 0 0 256 0"), (5, 1, 1, "7 5 1 1 71"),
        (0, 1, 2, "3 0 1 2 0"), (1, 3, 4, "8 1 3 4 12"), (3, 0, 5, "8 3 0 5 38"), (5, 2, 1, "8 5 2 1 62"), (7, 1, 0, "8 7 1 0 88"),
        (1, 0, 199, "200 1 0 199 0"), (3, 0, 197, "200 3 0 197 2"), (5, 0, 195, "200 5 0 195 2"), (197, 1, 2, "200 197 1 2 98"), (1, 0, 255, "256 1 0 255 0"),
    ]:  # fmt: skip
        rows = [one] * a + [several] * b + [none] * c
        t = f.text(changed(base, s8=rows))
        summed(f, "%d one, %d several, %d none" % (a, b, c), t, due)
        if len(rows) < 10:
            summed(f, "%d none, %d several, %d one" % (c, b, a), f.text(changed(base, s8=rows[::-1])), due)


def wrong_ways(f):
    """What a wrong search would get wrong."""
    order = ["$ I", "$ P", "I P"]
    g = lambda **s: f.text(changed(EXAMPLE, **s))
    listed(f, "no order: the shorter path is not preferred", g(s1=[]), 0, b"start seek found awaits\n2 service several -\nmark path\n21 2\n10 2P1\n")
    listed(f, "$ after P: the longer path wins", g(s1=["P $"]), 0, b"start seek found awaits\n2 service one -\nmark path\n10 2P1\n")
    square = dict(s1=[], s2=["0 P 0"], s3=["0"], s4=["4"], s5=["0 P 1", "0 P 2", "1 P 3", "2 P 3"], s6=["3 a 7"], s7=[], s8=["0 a"])
    listed(f, "two paths to one scope", g(**square), 0, b"start seek found awaits\n0 a one -\nmark path\n7 0P1P3\n7 0P2P3\n")
    square.update(s5=["0 P 1", "0 P 2", "1 P 2", "1 P 3", "2 P 1", "2 P 3"])
    listed(f, "four paths to one scope", g(**square), 0, b"start seek found awaits\n0 a one -\nmark path\n7 0P1P2P3\n7 0P1P3\n7 0P2P1P3\n7 0P2P3\n")
    fork = dict(s1=order, s5=["0 I 1", "0 P 2"], s6=["1 b 1", "2 a 2"], s7=[], s8=["0 a"])
    listed(f, "a path without the name shadows nothing", g(**fork), 0, b"start seek found awaits\n0 a one -\nmark path\n2 0P2\n")
    fork.update(s2=["0 P 0", "1 I 1"], s6=["1 a 1", "2 a 2"])
    listed(f, "an unlawful path shadows nothing", g(**fork), 0, b"start seek found awaits\n0 a one -\nmark path\n2 0P2\n")
    fork.update(s2=["0 I 2", "0 P 0"])
    listed(f, "a path that is not accepted shadows nothing", g(**fork), 0, b"start seek found awaits\n0 a one -\nmark path\n2 0P2\n")
    fork.update(s2=["0 I 1", "0 P 0"])
    listed(f, "a reached path does", g(**fork), 0, b"start seek found awaits\n0 a one -\nmark path\n1 0I1\n")
    for opened, due in [("0 $", "0 a one 0$"), ("0 I", "0 a one 0I"), ("0 P", "0 a one -"), ("1 $", "0 a one 1$"), ("1 I", "0 a one -"), ("2 $", "0 a one -"), ("2 P", "0 a one -"), ("3 $", "0 a one -")]:
        listed(f, "a preferred label yields a path, open %s" % opened, g(**dict(fork, s7=[opened])), 0, due)
    fork.update(s6=["1 b 1", "2 a 2"])
    for opened, due in [("0 $", "0 a one 0$"), ("0 I", "0 a one 0I"), ("0 P", "0 a one 0P"), ("1 $", "0 a one 1$"), ("1 P", "0 a one -"), ("2 $", "0 a one 2$"), ("2 P", "0 a one -"), ("2 I", "0 a one -")]:
        listed(f, "a preferred edge that reaches nothing, open %s" % opened, g(**dict(fork, s7=[opened])), 0, due)
    listed(f, "the first of many open pairs", g(**dict(fork, s7=["2 $", "2 I", "3 $"])), 0, "0 a one 2$")
    listed(f, "a self-edge is on no path", g(**dict(square, s5=["0 P 0", "0 P 3", "3 P 3"])), 0, b"start seek found awaits\n0 a one -\nmark path\n7 0P3\n")
    sort = dict(s0=["P", "I"], s1=[], s2=["0 P 0", "0 I 0"], s3=["0"], s4=["12"], s7=[], s8=["0 a"])
    sort.update(s5=["0 P 9", "0 P 10", "0 I 1", "0 I 2", "9 I 11"], s6=["0 a 3", "1 a 9", "1 a 10", "2 a 0", "9 a 5", "10 a 4", "11 a 1"])
    due = b"start seek found awaits\n0 a several -\nmark path\n3 0\n5 0P9\n1 0P9I11\n4 0P10\n9 0I1\n10 0I1\n0 0I2\n"
    listed(f, "sorted by end, label number, scope, mark", g(**sort), 0, due)
    order_two = dict(s0=["P", "I"], s1=["I P"], s2=["0 P 0", "0 I 0"], s3=["0"], s5=["0 P 1", "0 I 2"], s6=["1 a 1", "2 a 2"], s7=["0 I"], s8=["0 a"])
    listed(f, "labels P I, I preferred", g(**order_two), 0, b"start seek found awaits\n0 a one 0I\nmark path\n2 0I2\n")


def ladder(rungs, declared, **sections):
    """From each scope to the next by either of two labels, without an order: so many rungs, twice as many routes with each. Each is visible."""
    edges = ["%d %s %d" % (s, label, s + 1) for s in range(rungs) for label in "IP"]
    rows = dict(s1=[], s2=["0 I 0", "0 P 0"], s3=["0"], s4=[str(rungs + 2)], s5=edges, s6=declared, s7=[], s8=["0 a"])
    return changed(EXAMPLE, **dict(rows, **sections))


def route_cases(f):
    """`found` counts declarations (02, K2), and all routes are listed."""
    head = b"start seek found awaits\n0 a %s -\nmark path\n"
    listed(f, "two routes to one row", f.text(ladder(1, ["1 a 7"])), 0, head % b"one" + b"7 0I1\n7 0P1\n")
    listed(f, "two routes to two marks at one scope", f.text(ladder(1, ["1 a 7", "1 a 8"])), 0, head % b"several" + b"7 0I1\n8 0I1\n7 0P1\n8 0P1\n")
    listed(f, "two scopes with equal marks", f.text(ladder(1, ["0 a 7", "1 a 7"])), 0, head % b"several" + b"7 0\n7 0I1\n7 0P1\n")
    listed(f, "two routes to one row, another name beside it", f.text(ladder(1, ["1 a 7", "1 b 8"])), 0, head % b"one" + b"7 0I1\n7 0P1\n")
    listed(f, "the second of two routes is shadowed", f.text(ladder(1, ["1 a 7"], s1=["I P"])), 0, head % b"one" + b"7 0I1\n")
    awaited = b"start seek found awaits\n0 a one 1$\nmark path\n7 0I1\n7 0P1\n"
    listed(f, "two routes to one row, its scope open", f.text(ladder(1, ["1 a 7"], s7=["1 $"])), 0, awaited)
    # With thirty rungs there are 2^30 routes, more than an enumerator can list. So what is due then is said here, and held to the reference for the same gym
    # with five rungs: the listing is longer than any buffer lent, the summary is the same.
    for title, rows, order, due in [
        ("to one row", lambda n: ["%d a 7" % n], [], b"1 1 0 0 100"),
        ("to two marks at one scope", lambda n: ["%d a 7" % n, "%d a 8" % n], [], b"1 0 1 0 0"),
        ("to two scopes with equal marks", lambda n: ["%d a 7" % (n - 1), "%d a 7" % n], [], b"1 0 1 0 0"),
        ("to one row, another that nothing leads to", lambda n: ["%d a 7" % n, "%d a 7" % (n + 1)], [], b"1 1 0 0 100"),
        ("to one row, another is shadowed", lambda n: ["%d a 7" % (n - 1), "%d a 7" % n], ["$ I", "$ P"], b"1 1 0 0 100"),
    ]:  # fmt: skip
        gym = lambda n: f.text(ladder(n, rows(n), s1=order))
        summary = b"queries one several none share\n" + due + b"\n"
        whole(f, "five rungs %s" % title, gym(5))
        summed(f, "five rungs %s" % title, gym(5), summary)
        case(b"l", "listing: " + f.title + "2^30 routes %s" % title, shown(b"listed", 9, 65536), gym(30), room=65536)
        case(b"s", "summary: " + f.title + "2^30 routes %s" % title, shown(b"summed", summary, 100), gym(30), room=100)


def long_cases(f):
    """One path along 64 scopes, with many declarations at its end: some 190 bytes a row."""
    path = b"0" + b"".join(b"P%d" % i for i in range(1, 64))

    def text(marks):
        return f.text(changed(SMALLEST, s0=["P"], s2=["0 P 0"], s3=["0"], s4=["64"], s5=["%d P %d" % (i, i + 1) for i in range(63)], s6=["63 a %d" % m for m in marks], s8=["0 a"]))

    head = len(f.due(b"start seek found awaits\n0 a several -\nmark path\n"))
    row = lambda mark: len(b"%d " % mark + path + b"\n")
    marks = list(range(450))
    length = head + sum(row(m) for m in marks)
    assert 65536 < length < 98304
    listed(f, "a listing of %d bytes" % length, text(marks), 0, None, length)
    listed(f, "a listing of %d bytes, a byte less" % length, text(marks), 0, 9, length - 1)
    listed(f, "a listing of %d bytes, a buffer of 65536" % length, text(marks), 0, 9, 65536)
    listed(f, "a listing of %d bytes, a long buffer" % length, text(marks), 0, None, 98304)
    summed(f, "a query with a long listing", text(marks), "1 0 1 0 0")
    # So many marks of three and of four digits that the listing has 65,536 bytes to the byte, or one more.
    for total, due in [(65536, None), (65537, 9)]:
        rows = (total - head) // row(100)
        fours = total - head - rows * row(100)
        assert fours <= rows
        marks = list(range(100, 100 + rows - fours)) + list(range(1000, 1000 + fours))
        assert len(asked(text(marks), 0)) == total
        listed(f, "a listing of %d bytes, a buffer of 65536" % total, text(marks), 0, due, 65536)


def random_cases(f):
    """Random gyms, with kinds and turns drawn where the form has them."""
    dice = Dice((64, 8, 12)[f.number])
    for n in range(450):
        scopes = 2 + dice.below(6)
        whole(f, "gym %d" % n, f.random(dice, scopes, 2 * scopes + 1))
    for n in range(40):
        whole(f, "wider gym %d" % n, f.random(dice, 9 + dice.below(4), 18))


def cases():
    for f in FORMS:
        marked_cases(f)
        unmarked_cases(f)
        number_cases(f)
        share_cases(f)
        wrong_ways(f)
        route_cases(f)
        long_cases(f)
        whole(f, "a gym of 27 scopes and 80 queries", f.text(realistic()))
        random_cases(f)
