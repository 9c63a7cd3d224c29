"""Cases of scopes numbered for storage (02, K13): files renumbered, each with its list, and files that go back by a list.

`due` is what a case is there for: the list as one string of numbers, the text that comes out, or a refusal's number."""
from cases.case_file import Dice, bytes_of, case
from cases.faults import shown as byte_names
from cases.gyms import EXAMPLE, FORMS, SMALLEST, changed, kinds_text, largest, realistic, refused_files, shuffled, turns_text, with_rows
from cases.kinds_asked import TWO
from cases.listing import shown
from cases.shapes import chain, clique, graph_of, grid, plain, routes
from cases.turns import many_turns
from cases.turns_asked import LANE, imports
from reference.gym_file import EDGE, QUERY, SCOPES, Refused, read
from reference.query import Gym, found
from reference.renumbering import back, renumber

# The most scopes of a random gym whose queries are asked before and after.
ASKED = 8


def told(call, *given):
    """What a call of the reference gives, or a refusal's number."""
    try:
        return call(*given)
    except Refused as r:
        return r.number


def was(scopes):
    """The list of scopes given as one string, or one by one."""
    scopes = scopes.split() if isinstance(scopes, str) else scopes
    return b"was\n" + b"".join(b"%s\n" % str(s).encode() for s in scopes)


def numbers(was):
    return [int(line) for line in was.split()[1:]]


def is_breadth_first(text, scopes):
    """Is the list the one that a walk with a queue makes?"""
    g = read(text)
    starts = [row[0] for row in g.rows[QUERY]] or [0]
    queue, at = [starts[0]], 0
    while at < len(queue):
        for to in [row[3] for row in g.rows[EDGE] if row[0] == queue[at]]:
            queue += [to] * (to not in queue)
        at += 1
    return scopes == queue + sorted(set(range(g.rows[SCOPES][0][0])) - set(queue))


def same_answers(text, made, scopes):
    """Does every query keep its entries, renamed by the list, with its `found`, and is it settled in both files or in neither?"""
    old, new = Gym(text), Gym(made)
    for (start, name), (now, also) in zip(old.queries, new.queries):
        under = [([(label, scopes[to]) for label, to in steps], mark) for steps, mark in new.entries(now, also)]
        entries = old.entries(start, name)
        assert (start, name) == (scopes[now], also)
        assert sorted(entries) == sorted(under)
        assert found(start, entries) == found(now, new.entries(now, also))
        assert (old.awaits(start, name) == b"-") == (new.awaits(now, also) == b"-")


def put_renumber(title, text, out, room=None, places=None):
    """A file renumbered into lent buffers of `room` and `places` bytes, the second for the list."""
    if isinstance(out, int):
        room, places = 100 if room is None else room, 100 if places is None else places
    else:
        room, places = len(out[0]) + 9 if room is None else room, len(out[1]) + 5 if places is None else places
        if room < len(out[0]) or places < len(out[1]):
            out = 9
    if isinstance(out, int):
        answer = b"refused %d, all kept\nlist, all kept\n" % out
    else:
        answer = shown(b"renumbered", out[0], room) + shown(b"list", out[1], places) + b"both, back the same\n"
    assert places <= 4096, title
    case(b"u", "renumber: " + title, answer, text, number=places, room=room)


def renumbered(title, text, due=None, room=None, places=None, asked=True):
    """A file renumbered. Its queries are asked before and after, unless there are too many paths."""
    out = told(renumber, text)
    if isinstance(out, tuple):
        made, list_ = out
        scopes = numbers(list_)
        assert is_breadth_first(text, scopes), title
        assert back(made, list_) == text, title
        if asked:
            same_answers(text, made, scopes)
    short = isinstance(out, tuple) and (room is not None and room < len(out[0]) or places is not None and places < len(out[1]))
    if isinstance(due, int):
        assert due == (9 if short else out), (title, due, out)
    elif due is not None:
        assert was(due) == out[1] and not short, (title, due, out[1])
    put_renumber(title, text, out, room, places)


def went_back(title, text, list_, due=None, room=None):
    """A file that goes back by a list."""
    list_ = bytes_of(list_)
    out = told(back, text, list_)
    if room is None:
        room = len(out) + 11 if isinstance(out, bytes) else len(text) + 60
    number = 9 if isinstance(out, bytes) and room < len(out) else out
    if due is not None:
        assert due == number, (title, due, number)
    case(b"v", "back: " + title, shown(b"back", out, room), text, first=list_, room=room)


def given_cases(f):
    """The example, and small changes of it."""
    t = f.titled(lambda title, g, due: renumbered(title, f.text(g), due))
    t("the example", EXAMPLE, "2 4 1 0 3")
    t("the example without queries", changed(EXAMPLE, s8=[]), "0 1 2 3 4")
    t("the example without queries, the site in lane 2", changed(with_rows(EDGE, "0 P 2"), s8=[]), "0 2 4 1 3")
    t("the example, the first query at lane 3", changed(EXAMPLE, s8=["3 service", "2 hours"]), "3 1 0 2 4")
    t("the example, the first query at the profile", changed(EXAMPLE, s8=["4 hours", "3 hours", "2 hours"]), "4 0 1 2 3")
    t("the example, the first query twice", changed(EXAMPLE, s8=["3 hours", "3 hours"]), "3 1 0 2 4")
    t("the example, a query for a name that is nowhere", changed(EXAMPLE, s8=["1 belay"]), "1 0 2 3 4")
    t("the example without edges", changed(EXAMPLE, s5=[]), "2 0 1 3 4")
    t("the example, nothing accepts", changed(EXAMPLE, s3=[]), "2 4 1 0 3")
    t("the example without transitions", changed(EXAMPLE, s2=[]), "2 4 1 0 3")
    t("the example, everything open", changed(EXAMPLE, s7=["%d %s" % (s, e) for s in range(5) for e in "$IP"]), "2 4 1 0 3")
    t("the example, labels P I", changed(EXAMPLE, s0=["P", "I"], s1=[], s2=["0 P 0"], s5=["1 P 0", "2 P 1", "2 I 4", "3 P 1"], s7=["3 P", "3 I"]), "2 1 4 0 3")
    t("one scope", SMALLEST, "0")
    t("one scope with edges to itself", plain(s5=["0 I 0", "0 P 0"], s6=["0 a 1"], s7=["0 $"]), "0")
    t("two scopes, the second first", plain(s4=["2"], s6=["0 a 1", "1 a 2"], s8=["1 a"]), "1 0")
    t("two scopes that lead to one another", plain(s4=["2"], s5=["0 P 1", "1 P 0"], s6=["0 a 1", "1 a 2"], s8=["1 a", "0 a"]), "1 0")


def walk_cases(f):
    """Which scope is met when."""
    t = f.titled(lambda title, g, due: renumbered(title, f.text(g), due))
    t("broad before deep", plain(s4=["5"], s5=["0 I 3", "0 P 1", "1 P 2", "3 P 4"]), "0 3 1 4 2")
    t("a scope met twice has its first place", plain(s4=["5"], s5=["0 I 4", "0 P 2", "2 P 1", "4 P 1", "4 P 3"]), "0 4 2 1 3")
    t("a scope met by a label and again by a later one", plain(s4=["3"], s5=["0 I 2", "0 P 1", "0 P 2"]), "0 2 1")
    t("edges of one label that change places", plain(s4=["4"], s5=["0 I 3", "0 P 1", "0 P 2", "0 P 3"], s6=["1 a 1", "2 a 2", "3 a 3"]), "0 3 1 2")
    t("edges of one label that all change places", plain(s4=["5"], s5=["0 I 4", "0 P 3", "3 I 1", "4 P 1", "4 P 2", "4 P 3"], s8=["0 a"]), "0 4 3 1 2")
    t("edges to itself at each scope", plain(s4=["3"], s5=["0 P 0", "0 P 2", "1 P 1", "2 I 2", "2 P 0", "2 P 1"]), "0 2 1")
    t("an edge back to the start", plain(s4=["3"], s5=["0 P 2", "1 P 2", "2 P 2"], s8=["2 a"]), "2 0 1")
    unlawful = dict(s0=["I", "P", "X"], s4=["4"], s5=["0 P 1", "0 X 3", "3 X 2"])
    t("edges that only an unlawful label has", plain(**unlawful), "0 1 3 2")
    t("edges of no lawful label at all", plain(s0=["X"], s2=[], s4=["4"], s5=["0 X 2", "2 X 1"], s7=["0 X"]), "0 2 1 3")
    t("unmet scopes, ascending", plain(s4=["6"], s5=["3 P 5"], s8=["3 a"]), "3 5 0 1 2 4")
    t("an unmet scope with an edge to itself", plain(s4=["3"], s5=["2 P 2"]), "0 1 2")
    t("unmet scopes that lead to one another", plain(s4=["5"], s5=["1 P 4", "2 P 0", "4 P 2"]), "0 1 2 3 4")
    t("unmet scopes that lead to met ones", plain(s4=["5"], s5=["1 P 0", "2 P 4", "3 P 2"], s6=["4 a 1"], s8=["2 a"]), "2 4 0 1 3")
    t("two queries, the second elsewhere", plain(s4=["4"], s5=["1 P 0", "3 P 2"], s6=["0 a 1", "2 a 2"], s8=["3 a", "1 a"]), "3 2 0 1")
    t("a circle of five from its middle", plain(s4=["5"], s5=["%d P %d" % (s, (s + 2) % 5) for s in range(5)], s8=["3 a"]), "3 0 2 4 1")
    t("declarations and open rows that change places", plain(s4=["3"], s5=["2 P 0", "2 P 1"], s6=["0 a 1", "0 b 0", "1 a 0", "2 b 9"], s7=["0 $", "0 P", "1 I", "2 $"], s8=["2 b", "0 a"]), "2 0 1")


def many_cases(f):
    """As many scopes and rows as a file may have, and files that get longer or shorter."""
    t = f.titled(lambda title, g, due=None: renumbered(title, f.text(g), due, asked=False))
    down = ["%d P %d" % (s, s - 1) for s in range(1, 64)]
    every = lambda numbers: " ".join(map(str, numbers))
    t("a chain of 64 numbered backwards", plain(s4=["64"], s5=down, s6=["0 a 1"], s8=["63 a"]), every(range(63, -1, -1)))
    t("a chain of 64 numbered backwards, from its middle", plain(s4=["64"], s5=down, s6=["0 a 1"], s8=["31 a"]), every([*range(31, -1, -1), *range(32, 64)]))
    t("a chain of 64 numbered backwards, without queries", plain(s4=["64"], s5=down, s8=[]), every(range(64)))
    t("a chain of 64", chain(64, s6=["63 a 1"]), every(range(64)))
    t("64 scopes without edges, from the last", plain(s4=["64"], s6=["%d a %d" % (s, s) for s in range(64)], s8=["63 a"]), every([63, *range(63)]))
    t("63 scopes around one", plain(s4=["64"], s5=["31 P %d" % s for s in range(64)], s8=["31 a"]), every([31, *range(31), *range(32, 64)]))
    t("a chain that goes to and fro", plain(s4=["64"], s5=sorted_edges([(s, 63 - s) for s in range(32)] + [(63 - s, s + 1) for s in range(31)])), every([x for s in range(32) for x in (s, 63 - s)]))
    busy = ["%d a %d" % (s, m) for s in range(8) for m in range(64)]
    t("a file that gets longer", plain(s4=["64"], s5=down[7:], s6=busy, s8=["63 a"]), every([*range(63, 6, -1), *range(7)]))
    t("a file that gets shorter", plain(s4=["64"], s5=down, s6=["%d a %d" % (s, m) for s in range(56, 64) for m in range(64)], s8=["63 a"]), every(range(63, -1, -1)))
    t("512 edges between 23 scopes", graph_of(clique(23)[:506] + [(s, "P", s) for s in range(6)], "IP", 23))
    t("30 scopes by two routes", changed(graph_of(routes(10), "IP", 31), s8=["30 a", "0 a"]))
    t("a grid of 49", changed(graph_of(grid(7, 7), "IP", 49), s8=["24 a"]))
    t("the largest graph", largest())
    t("the largest graph without queries", changed(largest(), s8=[]))


def sorted_edges(pairs):
    return ["%d P %d" % pair for pair in sorted(pairs)]


def kind_cases():
    t = lambda title, g, due=None: renumbered("with kinds: " + title, kinds_text(g), due)
    t("counters and limits", TWO, "2 4 1 0 3")
    t("kinds that stay with their scope", changed(TWO, s6=["0 a z 1", "0 z a 1", "1 c a 5", "4 b b 0"], s8=["1 z a", "0 a z"]), "1 0 2 3 4")


def turn_cases():
    """Of the edges of one label those of lower turns come first, whatever they lead to."""
    t = lambda title, g, due=None: renumbered("with turns: " + title, turns_text(g), due)
    t("the earlier import first", LANE, "2 3 4 1 0")
    t("turns against the numbers", imports(s5=["0 I 1 5", "0 I 2 1", "0 I 9 4", "0 I 10 2"]), "0 5 1 4 2 3")
    t("one turn, by number", imports(s5=["0 I 7 2", "0 I 7 5", "5 I 0 1"]), "0 2 5 1 3 4")
    t("edges of one turn that change places", imports(s4=["5"], s5=["0 I 1 4", "0 I 2 1", "4 I 3 1", "4 I 3 3", "4 I 4 2"]), "0 4 1 3 2")
    t("edges of one turn that change places again", imports(s4=["4"], s5=["0 I 1 3", "0 I 2 2", "3 I 5 1", "3 I 5 2", "3 I 5 3"], s6=["1 v a 1", "2 v a 2"]), "0 3 2 1")
    t("an edge to itself of a low turn", imports(s4=["3"], s5=["0 I 0 0", "0 I 1 2", "0 I 2 1"]), "0 2 1")
    renumbered("the largest graph of many kinds and turns", turns_text(many_turns()), asked=False)


def room_cases(f):
    """Either buffer of the exact length, one byte less, none, or more: if one is too short neither changes."""
    for title, g in ("the example", EXAMPLE), ("the smallest file", SMALLEST), ("the largest graph", largest()):
        text = f.text(g)
        made, list_ = renumber(text)
        n, m = len(made), len(list_)
        t = f.titled(lambda what, *given, due=9: renumbered("%s, %s" % (title, what), text, due, *given, asked=False))
        t("both buffers exact", n, m, due=None)
        t("the file's a byte less", n - 1, m)
        t("the list's a byte less", n, m - 1)
        t("both a byte less", n - 1, m - 1)
        t("the file's alone", 65536, 0)
        t("the list's alone", 0, 4096)
        t("neither", 0, 0)
        t("both long", 65536, 4096, due=None)
        t("the file's exact, the list's long", n, m + 60, due=None)
        t("the file's long, the list's exact", n + 60, m, due=None)
        t("the line `was` alone", n, 4)


def refused_cases(f):
    """1 to 6 before 9; both buffers are as they were."""
    for number, text in refused_files(f).items():
        for room in 0, 100, 65536:
            for places in 0, 100:
                renumbered("%sfile refused %d, %d and %d bytes" % (f.title, number, room, places), text, number, room, places)
    example = f.text(EXAMPLE)
    for text in b"", b"label\n", example[:-1], example + b"\n":
        renumbered("%stext of %d bytes" % (f.title, len(text)), text, 2)


WAS = "was\n2\n4\n1\n0\n3\n"

# What is wrong in a list for a file of five scopes, by itself.
FAULTY_LISTS = [
    ("no bytes", ""), ("no line `was`", WAS[4:]), ("`was` alone", "was\n"), ("`was` without LF", "was"), ("an LF alone", "\n"), ("`was` later", "2\n4\nwas\n1\n0\n3\n"),
    ("`was` last", WAS[4:] + "was\n"), ("`was` twice", "was\n" + WAS), ("Was", "W" + WAS[1:]), ("wa", "wa" + WAS[3:]), ("wass", "wass" + WAS[3:]), ("a space after `was`", "was " + WAS[3:]),
    ("a space before `was`", " " + WAS), ("an LF before `was`", "\n" + WAS), ("CR after `was`", "was\r" + WAS[3:]), ("`at` for `was`", "at" + WAS[3:]),
    ("0 twice, no 3", "was\n2\n4\n1\n0\n0\n"), ("2 twice, no 4", "was\n2\n2\n1\n0\n3\n"), ("3 twice, no 2", "was\n3\n4\n1\n0\n3\n"), ("one number five times", "was\n1\n1\n1\n1\n1\n"),
    ("the last missing", "was\n2\n4\n1\n0\n"), ("the first missing", "was\n4\n1\n0\n3\n"), ("one alone", "was\n0\n"), ("the greatest missing", "was\n2\n1\n0\n3\n"),
    ("5 for 4", "was\n2\n5\n1\n0\n3\n"), ("5 for 3", "was\n2\n4\n1\n0\n5\n"), ("1 to 5", "was\n1\n2\n3\n4\n5\n"), ("64 for 4", "was\n2\n64\n1\n0\n3\n"), ("63 for 4", "was\n2\n63\n1\n0\n3\n"),
    ("68 for 4", "was\n2\n68\n1\n0\n3\n"), ("260 for 4", "was\n2\n260\n1\n0\n3\n"), ("65540 for 4", "was\n2\n65540\n1\n0\n3\n"), ("99999 for 4", "was\n2\n99999\n1\n0\n3\n"),
    ("04", "was\n2\n04\n1\n0\n3\n"), ("00", "was\n2\n4\n1\n00\n3\n"), ("000000", "was\n2\n4\n1\n000000\n3\n"), ("00004", "was\n2\n00004\n1\n0\n3\n"), ("000004", "was\n2\n000004\n1\n0\n3\n"),
    ("100000", "was\n2\n100000\n1\n0\n3\n"), ("4 and 2^32", "was\n2\n4294967300\n1\n0\n3\n"), ("4 and 2^64", "was\n2\n18446744073709551620\n1\n0\n3\n"),
    ("no last LF", WAS[:-1]), ("no last number, LF before it", "was\n2\n4\n1\n0\n\n"), ("an empty line after `was`", "was\n\n2\n4\n1\n0\n3\n"), ("an empty line between", "was\n2\n4\n\n1\n0\n3\n"),
    ("an empty line at the end", WAS + "\n"), ("one too many, a scope again", WAS + "3\n"), ("one too many, past the scopes", WAS + "5\n"), ("one too many, without LF", WAS + "5"),
    ("the list twice", WAS + WAS), ("the numbers twice", WAS + WAS[4:]), ("a space before a number", "was\n2\n 4\n1\n0\n3\n"), ("a space after a number", "was\n2\n4 \n1\n0\n3\n"),
    ("two numbers on a line", "was\n2 4\n1\n0\n3\n"), ("all on one line", "was 2 4 1 0 3\n"), ("CR before LF", "was\n2\r\n4\r\n1\r\n0\r\n3\r\n"), ("CR for LF", WAS.replace("\n", "\r")),
    ("-4", "was\n2\n-4\n1\n0\n3\n"), ("+4", "was\n2\n+4\n1\n0\n3\n"), ("4.", "was\n2\n4.\n1\n0\n3\n"), ("4P", "was\n2\n4P\n1\n0\n3\n"), ("x", "was\n2\nx\n1\n0\n3\n"), ("/", "was\n2\n/\n1\n0\n3\n"),
    (":", "was\n2\n:\n1\n0\n3\n"), ("a tab", "was\n2\n\t4\n1\n0\n3\n"), ("a zero byte", "was\n2\n4\0\n1\n0\n3\n"), ("a zero byte at the end", WAS + "\0"), ("a byte of 8 bits", "was\n2\n\xb4\n1\n0\n3\n"),
]  # fmt: skip


def list_cases(f):
    """Every fault of a list, by itself, over the example; then lists of other sizes."""
    text = f.text(EXAMPLE)
    for title, list_ in FAULTY_LISTS:
        went_back("%slist with a fault: %s" % (f.title, title), text, list_, 17)
    for n in range(len(WAS)):
        went_back("%sthe list's first %d bytes" % (f.title, n), text, WAS[:n], 17)
    for n in 1, 4, 6, 63, 64, 65, 1000:
        went_back("%sa list of %d scopes for five" % (f.title, n), text, was(range(n)), 17)
    for n, due in (63, 17), (64, None), (65, 17):
        went_back("%sa list of %d scopes for 64" % (f.title, n), f.text(chain(64)), was(range(n)), due)
    went_back("%sa list of 4,000 bytes" % f.title, text, "was\n" + "0\n" * 1998, 17)
    went_back("%sone line of 4,000 digits" % f.title, text, "was\n" + "1" * 3995 + "\n", 17)
    for list_, due in ("was\n0\n", f.text(SMALLEST)), ("was\n1\n", 17), ("was\n", 17), ("was\n0\n0\n", 17):
        went_back("%sone scope, %s" % (f.title, byte_names(list_)), f.text(SMALLEST), list_, due)


def back_cases(f):
    """Lists with each scope once, breadth-first or not."""
    text = f.text(EXAMPLE)
    made, list_ = renumber(text)
    assert list_ == bytes_of(WAS)
    went_back(f.title + "the example", made, list_, text)
    went_back(f.title + "each scope its own", text, was("0 1 2 3 4"), text)
    went_back(f.title + "the example's list over the example", text, list_)
    for scopes in "4 3 2 1 0", "1 2 3 4 0", "4 0 1 2 3", "1 0 3 2 4", "0 1 3 4 2":
        went_back("%snot breadth-first, %s" % (f.title, scopes), text, was(scopes))
        went_back("%snot breadth-first, there and back by %s" % (f.title, scopes), back(text, was(scopes)), was([scopes.split().index(str(s)) for s in range(5)]), text)
    crossed = plain(s4=["4"], s5=["0 I 1", "0 P 1", "0 P 2", "0 P 3", "2 P 1", "2 P 3"], s6=["1 a 1", "2 a 2", "3 a 3"], s7=["1 $", "2 I", "3 P"], s8=["2 a", "0 a"])
    for scopes in "3 2 1 0", "1 3 0 2", "0 3 2 1":
        went_back("%sedges that change places, %s" % (f.title, scopes), f.text(crossed), was(scopes))
    for title, g in ("the largest graph", largest()), ("a gym of 27 scopes", realistic()), ("a grid of 49", graph_of(grid(7, 7), "IP", 49)):
        whole = f.text(g)
        made, list_ = renumber(whole)
        went_back(f.title + title, made, list_, whole)
        count = len(numbers(list_))
        went_back("%s%s, backwards" % (f.title, title), whole, was(range(count - 1, -1, -1)))


def sequence_cases(f):
    """1 to 6, then 17, then 9; the buffer is as it was."""
    text = f.text(EXAMPLE)
    for number, refused in refused_files(f).items():
        for title, list_ in ("a good list", WAS), ("no bytes of a list", ""), ("a number twice", "was\n2\n2\n1\n0\n3\n"):
            for room in 0, 1000:
                went_back("%sfile refused %d, %s, %d bytes" % (f.title, number, title, room), refused, list_, number, room)
    for title, list_ in ("no bytes of a list", ""), ("a number twice", "was\n2\n2\n1\n0\n3\n"), ("no last LF", WAS[:-1]):
        for room in 0, 1, len(text) - 1, len(text):
            went_back("%s17 before 9, %s, %d bytes" % (f.title, title, room), text, list_, 17, room)
    for title, g in ("the example", EXAMPLE), ("the largest graph", largest()):
        made, list_ = renumber(f.text(g))
        n = len(f.text(g))
        for room, due in (n, f.text(g)), (n - 1, 9), (1, 9), (0, 9), (65536, f.text(g)):
            went_back("%s%s in %d bytes" % (f.title, title, room), made, list_, due, room)


def random_cases(f):
    dice = Dice((1300, 1308, 1312)[f.number])
    renumbered("%sa gym of 27 scopes" % f.title, f.text(realistic()))
    for n in range(50):
        scopes = 2 + dice.below(ASKED - 1)
        text = f.random(dice, scopes, 2 * scopes + 1)
        renumbered("%sgym %d" % (f.title, n), text)
        went_back("%sgym %d by a list drawn" % (f.title, n), text, was(shuffled(dice, range(scopes))))
        list_ = bytearray(was(shuffled(dice, range(scopes))))
        list_[dice.below(len(list_))] = dice.pick(b"0123456789\n was")
        went_back("%sgym %d by a list with a byte changed" % (f.title, n), text, bytes(list_))
    for n in range(15):
        scopes = 9 + dice.below(56)
        text = f.random(dice, scopes, 120)
        renumbered("%swider gym %d" % (f.title, n), text, asked=False)
        went_back("%swider gym %d by a list drawn" % (f.title, n), text, was(shuffled(dice, range(scopes))))


def cases():
    kind_cases()
    turn_cases()
    for f in FORMS:
        given_cases(f)
        walk_cases(f)
        many_cases(f)
        room_cases(f)
        refused_cases(f)
        list_cases(f)
        back_cases(f)
        sequence_cases(f)
        random_cases(f)
