"""Cases of who reads a declaration (02, K5).

`due` is what a case is there for: the scopes as one string, "" for none, or a refusal's number. Where there are too many paths to list, the scopes are
those of the same shape with fewer rungs or scopes, which the enumerator answers (`same_shapes`)."""
from cases.case_file import Dice, case
from cases.file_calls import TOP
from cases.gyms import EXAMPLE, FORMS, OLD_FORM, SMALLEST, changed, kinds_text, largest, realistic, refused_files, turns_text
from cases.kinds_asked import BOTH, TWO
from cases.listing import ladder, shown
from cases.shapes import chain, clique, graph_of, plain
from cases.turns_asked import LANE, imports, lane
from reference.gym_file import Refused
from reference.query import Gym
from reference.readers import readers


def told(text, place):
    """Who reads a declaration, or a refusal's number."""
    try:
        return readers(text, place)
    except Refused as r:
        return r.number


def printed(scopes):
    return b"at\n" + b"".join(b"%s\n" % s.encode() for s in scopes.split())


def put(title, text, place, out, room=None):
    if room is None:
        room = len(out) + 7 if isinstance(out, bytes) else 100
    case(b"d", "readers: " + title, shown(b"readers", out, room), text, number=place, room=room)


def read_by(title, text, place, due=None, room=None):
    """One declaration's readers, by the enumerator."""
    out = told(text, place)
    if due is not None:
        number = 9 if isinstance(out, bytes) and room is not None and room < len(out) else out
        assert due == number if isinstance(due, int) else printed(due) == number, (title, due, number)
    put(title, text, place, out, room)


def every(title, text, *due):
    """Each declaration's readers, and one past the last."""
    count = len(Gym(text).declared)
    assert not due or len(due) == count, (title, due)
    for place in range(count):
        read_by("%s, place %d" % (title, place), text, place, due[place] if due else None)
    read_by("%s, one past the last" % title, text, count, 11)


def given_cases(f):
    """The example, and small changes of it. Scopes 0, 1 and 4 have no query of their own."""
    t = f.titled(lambda title, g, *due: every(title, f.text(g), *due))
    # hours 5 at the site, service 10 at the wall, service 21 at lane 2, hours 40 at the profile
    t("the example", EXAMPLE, "0 1 3", "1 3", "2", "2 4")
    t("the example without queries", changed(EXAMPLE, s8=[]), "0 1 3", "1 3", "2", "2 4")
    t("the example without open rows", changed(EXAMPLE, s7=[]), "0 1 3", "1 3", "2", "2 4")
    t("the example, nothing accepts", changed(EXAMPLE, s3=[]), "", "", "", "")
    t("the example, one import exactly", changed(EXAMPLE, s3=["1"]), "", "", "", "2")
    t("the example without edges", changed(EXAMPLE, s5=[]), "0", "1", "2", "4")
    t("the example with the site in lane 2", changed(EXAMPLE, s5=["0 P 2"] + EXAMPLE[5]), "0 1 3", "1 3", "0 2", "2 4")
    t("two marks of one name at one scope", changed(EXAMPLE, s6=["0 hours 5", "1 service 10", "1 service 11", "1 service 12"]), "0 1 2 3", "1 2 3", "1 2 3", "1 2 3")
    t("equal marks at two scopes", changed(EXAMPLE, s6=["0 hours 7", "1 service 7", "2 service 7", "4 hours 7"]), "0 1 3", "1 3", "2", "2 4")
    t("a name and one that begins with it", changed(EXAMPLE, s6=["0 a 1", "1 ab 1", "2 a 1", "2 abc 1"]), "0 1 3", "1 2 3", "2", "2")


def shadowed_cases(f):
    """Declarations that some or all do not see."""
    t = f.titled(lambda title, g, *due: every(title, f.text(g), *due))
    first, last = ["$ I", "$ P"], ["I $", "P $"]
    names = ["0 a 1", "1 a 1", "2 a 1"]
    t("a chain, $ preferred", chain(3, s1=first, s6=names), "0", "1", "2")
    t("a chain, labels preferred: two rows that nobody reads", chain(3, s1=last, s6=names), "", "", "0 1 2")
    t("a chain without an order", chain(3, s6=names), "0", "0 1", "0 1 2")
    t("a chain, $ preferred, the middle without the name", chain(3, s1=first, s6=["0 a 1", "2 a 1"]), "0", "1 2")
    fork = dict(s4=["3"], s5=["0 I 1", "0 P 2"])
    t("two labels, the first preferred", plain(s1=["I P"], s6=["1 a 1", "2 a 2"], **fork), "0 1", "2")
    t("two labels, the second preferred", plain(s1=["P I"], s6=["1 a 1", "2 a 2"], **fork), "1", "0 2")
    t("two labels, unordered", plain(s6=["1 a 1", "2 a 2"], **fork), "0 1", "0 2")
    t("two labels, the preferred one unlawful", plain(s1=["I P"], s2=["0 P 0"], s6=["1 a 1", "2 a 2"], **fork), "1", "0 2")
    t("two labels, the preferred one to another name", plain(s1=["I P"], s6=["1 b 1", "2 a 2"], **fork), "0 1", "0 2")
    t("an even number of steps alone", chain(5, s2=["0 P 1", "1 P 0"], s6=["4 a 1"]), "0 2 4")
    t("one step exactly", chain(5, s2=["0 P 1"], s3=["1"], s6=["2 a 1", "4 a 1"]), "1", "3")
    t("two routes to one row", ladder(1, ["1 a 7"]), "0 1")
    t("two routes to one row, one of them cut", changed(ladder(1, ["1 a 7"]), s1=["I P"]), "0 1")
    diamond = dict(s4=["4"], s5=["0 I 1", "0 P 2", "1 P 3", "2 P 3"])
    t("a nearer row on the preferred route, the farther by the other", plain(s1=["$ P"], s6=["1 a 1", "3 a 3"], **diamond), "0 1", "0 2 3")
    t("a nearer row on the preferred route, all ordered", plain(s1=["$ I", "$ P", "I P"], s6=["1 a 1", "3 a 3"], **diamond), "0 1", "2 3")


def circle_cases(f):
    """Circles, self-edges and as many scopes as a file may have."""
    t = f.titled(lambda title, g, *due: every(title, f.text(g), *due))
    every_scope = " ".join(str(s) for s in range(64))
    t("an edge to itself", plain(s5=["0 I 0", "0 P 0"], s6=["0 a 1"]), "0")
    ring = lambda n: ["%d P %d" % (s, (s + 1) % n) for s in range(n)]
    t("a circle of three, $ preferred", plain(s1=["$ P"], s4=["3"], s5=ring(3), s6=["0 a 1", "1 a 1"]), "0 2", "1")
    t("a circle of three, the label preferred", plain(s1=["P $"], s4=["3"], s5=ring(3), s6=["0 a 1", "1 a 1"]), "1", "0 2")
    t("a circle of three without an order", plain(s4=["3"], s5=ring(3), s6=["0 a 1", "1 a 1"]), "0 1 2", "0 1 2")
    t("a circle of 64 that all read one row", plain(s4=["64"], s5=ring(64), s6=["63 a 1"]), every_scope)
    t("64 scopes around one that all read its row", plain(s4=["64"], s5=["%d P 0" % s for s in range(1, 64)], s6=["0 a 1"]), every_scope)
    t("64 scopes of which one reads", plain(s4=["64"], s6=["63 a 65535"]), "63")
    t("a chain of 64 to its end", chain(64, s6=["63 a 1"]), every_scope)
    t("a chain of 64 to its middle", chain(64, s6=["31 a 1"]), " ".join(str(s) for s in range(32)))


def kind_cases():
    """Kinds apart: one name in two kinds has two sets of readers."""
    t = lambda title, g, *due: every("with kinds: " + title, kinds_text(g), *due)
    # hours c 5 and l 6 at the site, service c 10 and l 11 at the wall, service l 21 at lane 2, hours l 40 at the profile
    t("counters and limits", TWO, "0 1 2 3", "0 1 3", "1 2 3", "1 3", "2", "2 4")
    t("one name in two kinds at one scope", BOTH, "0", "0")
    t("kinds a and z, equal names and marks", changed(TWO, s6=["1 a x 7", "1 z x 7", "2 a x 7"], s8=[]), "1 3", "1 2 3", "2")


def turn_cases():
    """Of the steps of one label the later that lead to the name decide."""
    t = lambda title, g, *due: every("with turns: " + title, turns_text(g), *due)
    # hours 5 at the site, 30 at the earlier profile, 40 at the later one
    t("the later import wins", LANE, "0 1", "3", "2 4")
    t("both of one turn", lane(s5=["1 P 0 0", "2 I 1 3", "2 I 1 4", "2 P 0 1"]), "0 1", "2 3", "2 4")
    t("the later without the name", lane(s6=["0 v hours 5", "3 v hours 30"]), "0 1", "2 3")
    t("the later with another kind of the name", lane(s6=["0 v hours 5", "3 v hours 30", "4 w hours 40"]), "0 1", "2 3", "2 4")
    t("turns 9 and 10", imports(s5=["0 I 9 1", "0 I 10 2"], s6=["1 v a 1", "2 v a 2"]), "1", "0 2")
    t("the later leads back to the start alone", imports(s5=["0 I 1 1", "0 I 2 2", "2 I 9 0"], s6=["1 v a 1"]), "0 1 2")
    t("a circle with turns", imports(s4=["3"], s5=["0 I 1 1", "0 I 2 2", "1 I 1 0", "1 I 2 2", "2 I 1 0", "2 I 2 1"], s6=["0 v a 1", "1 v a 1", "2 v a 1"]))


def place_cases(f):
    """Places at, before and past the number of declaration rows."""
    text = f.text(EXAMPLE)
    for place, due in (3, "2 4"), (4, 11), (5, 11), (512, 11), (99999, 11), (1 << 32, 11), (TOP, 11):
        read_by("%splace %d of four" % (f.title, place), text, place, due)
    for g, title in (SMALLEST, "the smallest file"), (changed(EXAMPLE, s6=[]), "no declarations"):
        for place in 0, 1, TOP:
            read_by("%s%s, place %d" % (f.title, title, place), f.text(g), place, 11)
    full = f.text(changed(SMALLEST, s3=["0"], s4=["64"], s6=["%d a %d" % (i // 8, i % 8) for i in range(512)]))
    for place, due in (0, "0"), (7, "0"), (8, "1"), (511, "63"), (512, 11):
        read_by("%splace %d of 512" % (f.title, place), full, place, due)
    read_by("%splace 512 of the largest file" % f.title, f.text(largest()), 512, 11)


def refused_cases(f):
    """1 to 6, then 11, then 9; the buffer is as it was."""
    text = f.text(EXAMPLE)
    for number, t in refused_files(f).items():
        for place in 0, 4, TOP:
            for room in 0, 100:
                read_by("%sfile refused %d, place %d, %d bytes" % (f.title, number, place, room), t, place, number, room)
    for t in b"", b"label\n", text[:-1], text + b"\n":
        read_by("%stext of %d bytes" % (f.title, len(t)), t, 0, 2)
    for place, due in (0, "0 1 3"), (2, "2"):
        length = len(printed(due))
        for room in 0, 1, 3, length - 1:
            read_by("%sthe example, place %d, %d bytes" % (f.title, place, room), text, place, 9, room)
        for room in length, length + 1, 4096:
            read_by("%sthe example, place %d, %d bytes" % (f.title, place, room), text, place, due, room)
        read_by("%sthe example, place 4 beside %d bytes" % (f.title, place), text, 4, 11, place)
    nobody = f.text(changed(EXAMPLE, s3=[]))
    for room, due in (0, 9), (2, 9), (3, ""), (4, ""):
        read_by("%snobody, %d bytes" % (f.title, room), nobody, 0, due, room)


def rungs(n):
    """Two routes at each of n rungs, the name at the last scope but one."""
    return ladder(n, ["%d a 7" % n])


def all_to_all(n):
    return changed(graph_of(clique(n), "IP", n), s6=["%d a 1" % (n - 1)])


def same_shapes():
    """What is due where there are too many paths to list is the enumerator's answer on small files of the shape."""
    for n in range(1, 6):
        assert told(OLD_FORM.text(rungs(n)), 0) == printed(" ".join(map(str, range(n + 1))))
        assert told(OLD_FORM.text(all_to_all(n)), 0) == printed(" ".join(map(str, range(n))))


def many_cases(f):
    for n, g, title in (30, rungs(30), "30 rungs"), (19, all_to_all(20), "20 scopes that all lead to one another"):
        put(f.title + title, f.text(g), 0, printed(" ".join(map(str, range(n + 1)))))


def random_cases(f):
    every("%sa gym of 27 scopes" % f.title, f.text(realistic()))
    dice = Dice((500, 508, 512)[f.number])
    for n in range(100):
        scopes = 2 + dice.below(6)
        every("%sgym %d" % (f.title, n), f.random(dice, scopes, 2 * scopes + 1))
    for n in range(10):
        every("%swider gym %d" % (f.title, n), f.random(dice, 9 + dice.below(4), 18))


def cases():
    same_shapes()
    kind_cases()
    turn_cases()
    for f in FORMS:
        given_cases(f)
        shadowed_cases(f)
        circle_cases(f)
        place_cases(f)
        refused_cases(f)
        many_cases(f)
        random_cases(f)
