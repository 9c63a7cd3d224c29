"""Cases of the number of lawful beginnings (02, K11): alone, and beside a query's listing.

Where there are too many paths to list, the number comes from another count (`shapes`), which is held to the enumerator on small gyms of the same shape."""
from cases.case_file import Dice, case
from cases.file_calls import TOP
from cases.gyms import EXAMPLE, FORMS, OLD_FORM, changed, largest, realistic, refused_files, turns_text
from cases.listing import asked, ladder, shown
from cases.shapes import behind, chain, clique, factorial_sum, graph_of, grid, of_number, paths_in_grid, plain, routes
from cases.turns_asked import LANE, imports, lane
from reference.beginnings import MOST, counted
from reference.gym_file import Refused
from reference.query import Gym


def numbered(text, query):
    """A query's number, or a refusal's."""
    try:
        return b"count", counted(text, query)
    except Refused as r:
        return b"refused", r.number


def counts(title, text, query=0, due=None):
    """The number alone. `due` is what the case is there for: the number, or ("refused", N)."""
    word, number = numbered(text, query)
    if due is not None:
        assert due == (number if word == b"count" else (word.decode(), number)), (title, due, word, number)
    case(b"b", "count: " + title, b"%s %d\n" % (word, number), text, number=query)


def known(title, text, number):
    """The number of a file with too many paths to list, by another count."""
    case(b"b", "count: " + title, b"count %d\n" % min(number, MOST), text)


def beside(title, text, query=0, room=None):
    """The listing with the number beside it, which is unchanged where the listing is refused."""
    out = asked(text, query)
    if room is None:
        room = len(out) + 7 if isinstance(out, bytes) else 90
    refused = not isinstance(out, bytes) or len(out) > room
    number = b"number kept\n" if refused else b"number %d\n" % counted(text, query)
    case(b"f", "followed: " + title, shown(b"listed", out, room) + number, text, number=query, room=room)


def few_cases(f):
    """None, one, and each step of a chain."""
    t = f.titled(lambda title, g, due, query=0: counts(title, f.text(g), query, due))
    example = changed(EXAMPLE, s7=[])
    t("nothing accepts", changed(example, s3=[]), 0)
    t("a state accepts that nothing leads to", changed(example, s3=["2"]), 0)
    t("a state accepts that only another than 0 leads to", changed(example, s2=["1 I 2"], s3=["2"]), 0)
    t("no transitions, another state than 0 accepts", changed(example, s2=[], s3=["1"]), 0)
    t("no transitions, 0 accepts", changed(example, s2=[], s3=["0"], s6=[]), 1)
    t("a lone scope, 0 accepts", plain(), 1)
    t("a lone scope, 0 leads to acceptance", plain(s2=["0 P 1"], s3=["1"]), 1)
    t("a lone scope, 0 leads to acceptance by three steps", plain(s2=["0 P 1", "1 I 2", "2 I 3"], s3=["3"]), 1)
    t("a lone scope, 0 leads nowhere", plain(s2=["0 P 1"], s3=["2"]), 0)
    t("a lone scope with the name", plain(s6=["0 a 1"]), 1)
    t("a lone scope with an edge to itself", plain(s5=["0 I 0", "0 P 0"]), 1)
    t("the acceptance is out of the graph's reach", chain(3, s2=["%d P %d" % (q, q + 1) for q in range(9)], s3=["9"]), 3)
    t("a step into a state that leads nowhere", chain(5, s2=["0 P 1", "1 P 2", "2 P 3"], s3=["1"]), 2)
    t("a label without a transition", chain(5, s2=["0 I 0"]), 1)
    t("accepted at every second step", chain(6, s2=["0 P 1", "1 P 0"], s3=["1"]), 6)
    t("two scopes that lead to one another", plain(s4=["2"], s5=["0 P 1", "1 P 0"]), 2)
    for scopes in 2, 5, 63, 64:
        t("a chain of %d" % scopes, chain(scopes), scopes)
        t("a chain of %d, the name at its end" % scopes, chain(scopes, s1=["$ I", "$ P"], s6=["%d a 1" % (scopes - 1)]), scopes)
        t("a chain of %d, the name everywhere, no order" % scopes, chain(scopes, s6=["%d a 1" % s for s in range(scopes)]), scopes)
        t("a ring of %d" % scopes, plain(s4=[str(scopes)], s5=["%d P %d" % (s, (s + 1) % scopes) for s in range(scopes)]), scopes)
        t("a chain of %d from its middle" % scopes, chain(scopes, s8=["%d a" % (scopes // 2)]), scopes - scopes // 2)
        for at in sorted({0, 1, scopes // 2, scopes - 2}):
            t("a chain of %d, $ preferred, the name at %d" % (scopes, at), chain(scopes, s1=["$ P"], s6=["%d a 1" % at]), at + 1)
            t("a chain of %d, the label preferred, the name at %d" % (scopes, at), chain(scopes, s1=["P $"], s6=["%d a 1" % at]), scopes)
    t("the example, 2 service", EXAMPLE, 1, 0)
    t("the example, 3 service", EXAMPLE, 2, 1)
    t("the example, 2 hours", EXAMPLE, 2, 2)


def cut_cases(f):
    """Steps that are cut and steps that are not."""
    t = f.titled(lambda title, due, **sections: counts(title, f.text(plain(**sections)), 0, due))
    order, fork = ["$ I", "$ P", "I P"], ["0 I 1", "0 P 2"]
    t("a preferred label with a reached path", 2, s1=order, s4=["3"], s5=fork, s6=["1 a 1"])
    t("a preferred label without a reached path", 3, s1=order, s4=["3"], s5=fork)
    t("a preferred label, the name behind the other alone", 3, s1=order, s4=["3"], s5=fork, s6=["2 a 1"])
    t("a preferred label with a path of another name", 3, s1=order, s4=["3"], s5=fork, s6=["1 b 1", "2 a 1"])
    t("a preferred label with an unlawful path", 2, s1=order, s2=["0 P 0"], s4=["3"], s5=fork, s6=["1 a 1"])
    t("a preferred label with a path that is not accepted", 3, s1=order, s2=["0 I 1", "0 P 0", "1 I 0"], s4=["3"], s5=fork, s6=["1 a 1"])
    t("unordered labels with a reached path", 3, s1=["$ I", "$ P"], s4=["3"], s5=fork, s6=["1 a 1"])
    t("the less preferred label with a reached path", 3, s1=["$ I", "$ P", "P I"], s4=["3"], s5=["0 P 2", "0 I 1"][::-1], s6=["1 a 1"])
    far = ["0 I 1", "0 P 2", "1 I 3", "2 I 4", "2 P 3", "3 I 5", "4 I 5"]
    t("a reached path three steps on cuts the first", 4, s1=order, s4=["6"], s5=far, s6=["5 a 1"])
    t("the same without an order", 9, s4=["6"], s5=far, s6=["5 a 1"])
    t("the same, $ preferred alone", 9, s1=["$ I", "$ P"], s4=["6"], s5=far, s6=["5 a 1"])
    t("ending here is preferred to one label of two", 2, s1=["$ I"], s4=["3"], s5=fork, s6=["0 a 1"])
    t("ending here is preferred to both", 1, s1=["$ I", "$ P"], s4=["3"], s5=fork, s6=["0 a 1"])
    t("ending here is preferred, and is not lawful", 3, s1=["$ I", "$ P"], s2=["0 I 1", "0 P 1", "1 I 1", "1 P 1"], s3=["1"], s4=["3"], s5=fork, s6=["0 a 1"])
    # the only way to the name goes over the start, so that no path by I is reached
    back = ["0 I 1", "0 P 2", "1 I 0", "2 P 3"]
    t("a preferred label that leads to the name only over the path", 4, s1=order, s4=["4"], s5=back, s6=["3 a 1"])
    # 2P3 is cut behind 0P2 by 0P2I1, and not behind 0P1P2
    over = ["0 P 1", "0 P 2", "1 P 2", "2 I 1", "2 P 3"]
    t("the same step cut on one path and not on another", 6, s1=["I P"], s4=["4"], s5=over, s6=["1 a 1"])
    t("the name everywhere, $ last", 7, s1=["I $", "I P", "P $"], s4=["4"], s5=["0 P 1", "0 P 2", "1 P 2", "1 P 3", "2 P 3", "3 P 0"], s6=["%d a 1" % s for s in range(4)])


def turn_cases():
    """A step of one label and a lower turn is cut where a step of a higher one leads to the name."""
    t = lambda title, g, due: counts("with turns: " + title, turns_text(g), 0, due)
    t("the later import leads to the name", LANE, 2)
    t("the later import does not, the earlier does", lane(s6=["0 v hours 5", "3 v hours 30"]), 3)
    t("neither does, the site does", lane(s6=["0 v hours 5"]), 5)
    t("the name nowhere", lane(s6=[]), 5)
    t("equal turns", lane(s5=["1 P 0 0", "2 I 1 3", "2 I 1 4", "2 P 0 1"]), 3)
    t("three imports, the middle one leads to the name", imports(s5=["0 I 1 1", "0 I 2 2", "0 I 3 3"]), 3)
    t("three imports, the last one leads to the name", imports(s5=["0 I 1 1", "0 I 2 3", "0 I 3 2"]), 2)
    t("three imports, the first one leads to the name", imports(s5=["0 I 1 2", "0 I 2 1", "0 I 3 3"]), 4)
    t("turns 9 and 10", imports(s5=["0 I 9 1", "0 I 10 2"]), 2)
    t("turns of two labels decide nothing between them", imports(s0=["I", "P"], s2=["0 I 0", "0 P 0"], s5=["0 I 1 1", "0 P 2 2"]), 3)
    t("labels decide whatever the turns", imports(s0=["I", "P"], s1=["P I"], s2=["0 I 0", "0 P 0"], s5=["0 I 99 1", "0 P 0 2"]), 2)
    t("a later import leads there over the path alone", imports(s5=["0 I 0 1", "1 I 1 2", "1 I 2 3", "3 I 0 0"]), 4)


def many_cases(f):
    """Numbers about the largest that is given, and the files that must not take long."""
    t = f.titled(lambda title, edges, labels, scopes, number: known(title, f.text(graph_of(edges, labels, scopes)), number))
    for number in 999999998, MOST - 1, MOST, MOST + 1, 1073741824, 4294967296, 4294967297:
        for labels in "IP", "QWERTYUI", "IPD":
            edges = of_number(number, labels)
            assert behind(edges, 0) == number
            t("%d beginnings by %d labels" % (number, len(labels)), edges, labels, 64, number)
    for number in 1, 2, 3, 9, 64, 100, 1000:
        edges = of_number(number, "IP")
        counts("%s%d beginnings by two labels" % (f.title, number), f.text(graph_of(edges, "IP", 64)), 0, number)
    # the same behind the second of two steps, which is cut where the first leads to the name
    for number, due in (MOST - 3, MOST - 1), (MOST - 2, MOST), (MOST - 1, MOST + 1):
        edges = of_number(number, "IP") + [(61, "I", 62), (61, "P", 0)]
        g = changed(graph_of(edges, "IP", 64), s1=["I P"], s8=["61 a"])
        assert behind(edges, 61) == due
        known("%s%d beginnings, and none of them cut" % (f.title, due), f.text(g), due)
        known("%s%d beginnings without the name, and all but two cut" % (f.title, due), f.text(changed(g, s6=["62 a 1"])), 2)
    for rungs in 28, 29, 30:
        edges = [(s, l, s + 1) for s in range(rungs) for l in "IP"]
        assert behind(edges, 0) == 2 ** (rungs + 1) - 1
        t("%d rungs of two labels" % rungs, edges, "IP", rungs + 1, 2 ** (rungs + 1) - 1)
    for rungs in 5, 21:
        edges = routes(rungs)
        assert behind(edges, 0) == 2 ** (rungs + 2) - 3
        t("%d rungs of two routes" % rungs, edges, "IP", 3 * rungs + 1, 2 ** (rungs + 2) - 3)
    for scopes in 12, 13, 20:
        t("%d scopes that all lead to one another" % scopes, clique(scopes), "IP", scopes, factorial_sum(scopes))


# the paths in grids of eight rows, by their columns
GRIDS = {}


def grid_cases(f):
    """A grid takes longest; its form does not matter to the count."""
    t = f.titled(lambda title, columns, number: known(title, f.text(graph_of(grid(8, columns), "IP", 8 * columns)), number))
    for columns in 5, 6:
        t("a grid of 8 by %d" % columns, columns, GRIDS[columns])
    # it has all the paths of the one that is two columns less wide
    assert GRIDS[6] > MOST
    t("a grid of 8 by 8", 8, MOST)


def same_numbers():
    """The other counts are the enumerator's, on small gyms of each shape."""
    number = lambda edges, scopes: counted(OLD_FORM.text(graph_of(edges, "IP", scopes)), 0)
    for scopes in range(1, 7):
        assert number(clique(scopes), scopes) == factorial_sum(scopes)
    for rungs in range(1, 6):
        assert number(routes(rungs), 3 * rungs + 1) == behind(routes(rungs), 0)
    for rows, columns in (1, 1), (1, 4), (2, 2), (2, 3), (3, 2), (3, 3), (3, 4):
        assert number(grid(rows, columns), rows * columns) == paths_in_grid(rows, columns), (rows, columns)


def large_cases(f):
    """Every section full but the order. Each path is a beginning, as all states accept and each has a transition by every label; those alone that go to higher
    numbers are more than are counted."""
    letters = [x.decode() for x in largest()[0]]
    edges = [(s, l, (s + 1 + n) % 64) for s in range(64) for n, l in enumerate(letters)]
    assert behind([e for e in edges if e[0] < e[2]], 0) > MOST and len(edges) == 512
    g = changed(largest(), s1=[], s5=["%d %s %d" % e for e in edges])
    g = changed(g, s8=[b"0 " + row.split()[1] for row in g[8]])
    known("%sthe largest file without an order" % f.title, f.text(g), MOST)


def refused_cases(f):
    """1 to 6, then 7, and no other refusal."""
    text = f.text(EXAMPLE)
    for query in 3, 4, 255, 256, 1 << 32, TOP:
        counts("%squery %d of three" % (f.title, query), text, query, ("refused", 7))
    counts("%squery 0 of none" % f.title, f.text(changed(EXAMPLE, s8=[])), 0, ("refused", 7))
    for number, t in refused_files(f).items():
        for query in 0, 3, TOP:
            counts("%sfile refused %d, query %d" % (f.title, number, query), t, query, ("refused", number))
    for t in b"", b"label\n", text[:-1], text + b"\n":
        counts("%stext of %d bytes" % (f.title, len(t)), t, 0, ("refused", 2))


def beside_cases(f):
    """The number is written where the listing is not refused, by 9 neither."""
    text = f.text(EXAMPLE)
    for query in range(4):
        beside("%sthe example, query %d" % (f.title, query), text, query)
        beside("%sthe example, query %d, no bytes" % (f.title, query), text, query, 0)
        length = len(asked(text, query)) if query < 3 else 60
        beside("%sthe example, query %d, a buffer of its length" % (f.title, query), text, query, length)
        beside("%sthe example, query %d, a byte less" % (f.title, query), text, query, length - 1)
    for number, t in refused_files(f).items():
        beside("%sfile refused %d" % (f.title, number), t)
        beside("%sfile refused %d, query past the last, no bytes" % (f.title, number), t, 99, 0)
    for g, title in (changed(EXAMPLE, s3=[]), "nothing accepts"), (chain(64), "a chain of 64"), (ladder(5, ["5 a 7"]), "five rungs"), (realistic(), "a gym of 27 scopes"):
        beside(f.title + title, f.text(g))


def whole(title, text):
    for query in range(len(Gym(text).queries)):
        counts("%s, query %d" % (title, query), text, query)


def random_cases(f):
    whole("%sa gym of 27 scopes" % f.title, f.text(realistic()))
    dice = Dice((1100, 1108, 1112)[f.number])
    for n in range(300):
        scopes = 2 + dice.below(6)
        text = f.random(dice, scopes, 2 * scopes + 1)
        whole("%sgym %d" % (f.title, n), text)
        if n % 5 == 0:
            beside("%sgym %d" % (f.title, n), text)
    for n in range(30):
        whole("%swider gym %d" % (f.title, n), f.random(dice, 9 + dice.below(4), 18))


def cases():
    same_numbers()
    GRIDS.update({columns: paths_in_grid(8, columns) for columns in (5, 6)})
    turn_cases()
    grid_cases(OLD_FORM)
    for f in FORMS:
        few_cases(f)
        cut_cases(f)
        many_cases(f)
        large_cases(f)
        refused_cases(f)
        beside_cases(f)
        random_cases(f)
