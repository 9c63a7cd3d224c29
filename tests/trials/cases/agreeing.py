"""Cases of how far two rows agree and of where a judged path was caught (02, K7)."""
from cases.case_file import Dice
from cases.comparing import ORDERS, both_ways, by
from cases.gyms import EXAMPLE, FORMS, WITH_TURNS, changed, graph, text_of, turns_text
from cases.judging import judge, row_text, shadowed
from cases.path_rows import chain
from cases.turns_asked import LANE, imports
from reference.path_row import equal_steps, more_specific, turns_of
from reference.query import Gym

# The most steps that a row has.
MOST = 63


def row_cases():
    text = text_of(EXAMPLE)
    full = "1 0" + chain(MOST)
    for title, a, b, due in [
        ("equal rows without steps", "1 2", "1 2", "neither 0"), ("equal rows of one step", "10 3P1", "10 3P1", "neither 1"),
        ("equal rows, other marks", "10 2P1P0I4", "65535 2P1P0I4", "neither 3"), ("equal rows of 63 steps", full, full, "neither 63"),
        ("equal rows that are no path", "1 4P4X4I63", "1 4P4X4I63", "neither 3"),
        ("different starts without steps", "1 2", "1 3", "neither 0"), ("different starts, equal steps", "10 3P1P0", "10 2P1P0", "neither 0"),
        ("different starts, 63 equal steps", full, "1 1" + chain(MOST), "neither 0"), ("different starts, a row and more steps", "10 3P1", "10 2P1P0", "neither 0"),
        ("the same label to another scope", "1 3P1", "1 3P2", "neither 0"), ("the same label to another scope, second", "1 3P1P0", "1 3P1P2", "neither 1"),
        ("the same label to another scope, then equal steps", "1 3P1P0I4I4", "1 3P1P2I4I4", "neither 1"),
        ("the same label to another scope, the last of 63", full, "1 0" + chain(MOST - 1) + "P0", "neither 62"),
        ("another label to the same scope", "1 3I1", "1 3P1", "first 0"), ("another label to the same scope, second", "1 3P1I0", "1 3P1P0", "first 1"),
        ("another label to the same scope, then equal steps", "1 3P1I0P4P4", "1 3P1P0P4P4", "first 1"),
        ("another label to the same scope, the last of 63", "1 0" + chain(MOST - 1) + "I63", full, "first 62"),
        ("a row without steps and its extension", "1 2", "1 2P1P0", "first 0"), ("a row and its extension", "1 2P1", "1 2P1P0", "first 1"),
        ("a row and its extension by many steps", "1 2P1P0", "1 2P1P0" + chain(61), "first 2"), ("62 steps and one more", "1 0" + chain(MOST - 1), full, "first 62"),
        ("no step and 63", "1 0", full, "first 0"),
        ("equal unlisted letters", "1 2X4Y5", "1 2X4Y5", "neither 2"), ("other unlisted letters", "1 2X4Y5", "1 2X4Z5", "neither 1"),
        ("a preferred label after unlisted letters", "1 2X4Y5I1", "1 2X4Y5P1", "first 2"), ("an unlisted letter and a label", "1 2P1X0", "1 2P1P0", "neither 1"),
        ("a scope met again", "1 2P1P2I4", "1 2P1P2P1", "first 2"), ("one step, again and again", "1 2P2P2P2", "1 2P2P2", "second 2"),
        ("scopes past the count", "1 60P61I62", "1 60P61P62", "first 1"), ("one digit more", "1 3P1", "1 3P10", "neither 0"), ("one digit more, second", "1 3P1P6", "1 3P1P63", "neither 1"),
    ]:  # fmt: skip
        both_ways("equal steps: " + title, text, a, b, due)
    for n in range(MOST):
        shared = "1 0" + chain(n)
        both_ways("equal steps: a preferred label after %d" % n, text, shared + "I9", shared + "P9", "first %d" % n)
    # what each order says of I and P, and of the end and P
    for name, labels, end in [
        ("no order", "neither", "neither"), ("end first", "first", "first"), ("end last", "first", "second"), ("end aside", "first", "neither"),
        ("end in the middle", "first", "first"), ("only ends", "neither", "first"), ("letters turned", "second", "neither"),
    ]:  # fmt: skip
        ordered = by(*ORDERS[name])
        both_ways("equal steps: two labels, " + name, ordered, "1 2D1I3", "1 2D1P3", labels + " 1")
        both_ways("equal steps: an extension, " + name, ordered, "1 2D1I3", "1 2D1I3P0I2", end + " 2")
        both_ways("equal steps: equal rows, " + name, ordered, "1 2D1I3", "1 2D1I3", "neither 2")
        both_ways("equal steps: two starts, " + name, ordered, "1 2D1I3", "1 3D1I3", "neither 0")


def turn_cases():
    """Steps are equal by letter and scope, and then in their turns too."""
    text = turns_text(LANE)
    for title, a, b, due in [
        ("equal rows", "1 2I4", "1 2I4", "neither 1"), ("equal rows that are no path", "1 2I4P2I3", "1 2I4P2I3", "neither 3"), ("the later import", "1 2I4", "1 2I3", "first 0"),
        ("the later import after a shared step", "1 0P2I4", "1 0P2I3", "first 1"), ("the later import after shared imports", "1 2I4P2I4", "1 2I4P2I3", "first 2"),
        ("the later import after a step that is no edge row", "1 63Z2I4", "1 63Z2I3", "first 1"), ("a step that is no edge row", "1 0P2I1", "1 0P2I4", "neither 1"),
        ("different starts, equal imports", "1 2I4", "1 3I4", "neither 0"), ("the end after an import", "1 2I4", "1 2I4I3", "first 1"),
    ]:  # fmt: skip
        both_ways("equal steps with turns: " + title, text, a, b, due)
    equal = turns_text(changed(LANE, s5=["2 I 1 3", "2 I 1 4"]))
    both_ways("equal steps with turns: equal turns to two scopes", equal, "1 0P2I3", "1 0P2I4", "neither 1")


# A way by 0, 1 and 2, and off each of these scopes a profile.
WAY = graph(["I", "P"], [], ["0 I 0", "0 P 0"], ["0"], ["6"], ["0 I 3", "0 P 1", "1 I 4", "1 P 2", "2 I 5"], [], [], ["0 a"])
ENDS_FIRST, ENDS_LAST, LABELS = ["$ I", "$ P", "I P"], ["I $", "I P"], ["I P"]
# Its edges with others, in their sequence.
BACK = ["0 I 3", "0 P 1", "1 I 0", "1 P 2"]
ROUND = ["0 I 3", "0 P 1", "1 I 4", "1 P 2", "4 P 2"]
FURTHER = ["0 P 1", "1 I 4", "1 P 2", "4 P 5"]


def named(scopes):
    return ["%s a %s" % (s, s) for s in scopes.split()]


def caught_cases(f):
    def caught(title, g, row, due):
        judge(f, "judge: caught, " + title, f.text(g), 0, row, due)

    for order, pairs, scopes, due in [
        ("no order", [], "0 1 2 3 4 5", "visible"), ("I before P", LABELS, "2", "visible"), ("I before P", LABELS, "2 5", "visible"), ("I before P", LABELS, "0 1 2", "visible"),
        ("I before P", LABELS, "2 3", "shadowed 0"), ("I before P", LABELS, "2 4", "shadowed 1"), ("I before P", LABELS, "2 3 4", "shadowed 1"), ("I before P", LABELS, "0 1 2 3 4 5", "shadowed 1"),
        ("I before $", ENDS_LAST, "2 5", "shadowed 2"), ("I before $", ENDS_LAST, "2 3 5", "shadowed 2"), ("I before $", ENDS_LAST, "2 4 5", "shadowed 2"), ("I before $", ENDS_LAST, "2 3 4 5", "shadowed 2"),
        ("I before $", ENDS_LAST, "2 3", "shadowed 0"), ("I before $", ENDS_LAST, "0 1 2", "visible"),
        ("$ before all", ENDS_FIRST, "0 2", "shadowed 0"), ("$ before all", ENDS_FIRST, "1 2", "shadowed 1"), ("$ before all", ENDS_FIRST, "0 1 2", "shadowed 1"), ("$ before all", ENDS_FIRST, "0 2 4", "shadowed 1"),
        ("$ before all", ENDS_FIRST, "1 2 3", "shadowed 1"), ("$ before all", ENDS_FIRST, "2 3 4", "shadowed 1"), ("$ before all", ENDS_FIRST, "2 5", "visible"),
    ]:  # fmt: skip
        caught("%s, the name at %s" % (order, scopes), changed(WAY, s1=pairs, s6=named(scopes)), "2 0P1P2", due)
    own = changed(WAY, s1=ENDS_LAST, s6=named("0 1 3 4"))
    caught("the own end of a row without steps", own, "0 0", "shadowed 0")
    caught("the own end of one step", own, "1 0P1", "shadowed 1")
    law = changed(WAY, s1=LABELS, s6=named("2 3 4"))
    caught("the deeper way leads back", changed(law, s5=BACK), "2 0P1P2", "shadowed 0")
    caught("the deeper way leads round to the same end", changed(law, s5=ROUND, s6=named("2 3")), "2 0P1P2", "shadowed 1")
    caught("the way round itself", changed(law, s5=ROUND, s6=named("2 3")), "2 0P1I4P2", "shadowed 0")
    caught("the deeper way leads further", changed(law, s5=FURTHER, s6=named("2 5")), "2 0P1P2", "shadowed 1")
    caught("the deeper way is not lawful", changed(law, s2=["0 I 0", "0 P 1", "1 P 1"], s3=["0", "1"]), "2 0P1P2", "shadowed 0")
    caught("the upper way is not accepted", changed(law, s2=["0 I 2", "0 P 1", "1 I 1", "1 P 1"], s3=["1"]), "2 0P1P2", "shadowed 1")
    caught("the deeper place is open", changed(law, s6=named("2 3"), s7=["1 $", "1 I"]), "2 0P1P2", "shadowed 0")
    caught("one of two marks", changed(law, s6=["2 a 7", "2 a 8", "4 a 4"]), "8 0P1P2", "shadowed 1")
    caught("a mark that is not there", law, "3 0P1P2", "unreached")
    edges = ["%d P %d" % (i, i + 1) for i in range(MOST)]
    line = changed(WAY, s4=["64"], s5=edges)
    forked = changed(line, s1=LABELS, s5=edges[:-1] + ["62 I 63", "62 P 63"], s6=["63 a 7"])
    caught("the last of 63 steps", forked, "7 0" + chain(MOST), "shadowed 62")
    caught("a path that ends before the last of 63 steps", changed(line, s1=["$ P"], s6=["62 a 7", "63 a 7"]), "7 0" + chain(MOST), "shadowed 62")
    caught("a path that ends at each of 63 steps", changed(line, s1=["$ P"], s6=["%d a 7" % i for i in range(64)]), "7 0" + chain(MOST), "shadowed 62")
    caught("the own end of 62 steps", changed(line, s1=["P $"], s6=["62 a 7", "63 a 7"]), "7 0" + chain(MOST - 1), "shadowed 62")
    caught("the start before 63 steps", changed(line, s1=["$ P"], s6=["0 a 7", "63 a 7"]), "7 0" + chain(MOST), "shadowed 0")


def caught_by_turns():
    """A path is caught by a higher turn as by a preferred label."""
    both = dict(s0=["I", "P"], s1=["I P"], s2=["0 I 0", "0 P 0"])

    def caught(title, g, *rows):
        for row, due in rows:
            judge(WITH_TURNS, "judge: caught by turns, %s, %s" % (title, row), turns_text(g), 0, row, due)

    caught("two profiles", LANE, ("30 2I3", "shadowed 0"), ("5 2P1P0", "shadowed 0"))
    upper = imports(s5=["0 I 1 1", "0 I 2 2", "1 I 0 3", "1 P 0 4"], s6=["2 v a 2", "3 v a 3", "4 v a 4"], **both)
    caught("above a label", upper, ("4 0I1P4", "shadowed 1"), ("3 0I1I3", "shadowed 0"))
    caught("above a label, the label's way without the name", changed(upper, s6=["2 v a 2", "4 v a 4"]), ("4 0I1P4", "shadowed 0"))
    lower = imports(s5=["0 I 0 1", "0 P 0 2", "2 P 1 3", "2 P 2 4"], s6=["1 v a 1", "3 v a 3", "4 v a 4"], **both)
    caught("below a label", lower, ("3 0P2P3", "shadowed 1"), ("4 0P2P4", "shadowed 0"))
    caught("below a label, the higher turn without the name", changed(lower, s6=["1 v a 1", "3 v a 3"]), ("3 0P2P3", "shadowed 0"))
    caught("below a label, equal turns", changed(lower, s5=["0 I 0 1", "0 P 0 2", "2 P 2 3", "2 P 2 4"]), ("3 0P2P3", "shadowed 0"), ("4 0P2P4", "shadowed 0"))
    twice = imports(s5=["0 I 1 1", "0 I 2 2", "1 I 1 3", "1 I 2 4", "3 I 5 5"], s6=["2 v a 2", "4 v a 4", "5 v a 5"])
    caught("at two places", twice, ("5 0I1I3I5", "shadowed 1"), ("4 0I1I4", "shadowed 0"))
    caught("at two places and at its own end", changed(twice, s1=["I $"], s6=["2 v a 2", "3 v a 3", "4 v a 4", "5 v a 5"]), ("3 0I1I3", "shadowed 2"))


def places_cut(gym, start, name, steps):
    turns = turns_of(gym.edges)
    path = (start, steps)
    return {equal_steps((start, p), path) for p in gym.reached(start, name) if more_specific(gym.order, turns, (start, p), path)}


def random_caught(f):
    """Shadowed paths of random gyms that are cut at two places or more."""
    dice = Dice((707, 717, 727)[f.number])
    n = 0
    while n < 80:
        scopes = 4 + dice.below(4)
        text = f.random(dice, scopes, 2 * scopes)
        gym = Gym(text)
        for query, (start, name) in enumerate(gym.queries):
            deep = [steps for steps in shadowed(gym, query) if len(places_cut(gym, start, name, steps)) > 1]
            if not deep:
                continue
            steps = dice.pick(deep)
            mark = dice.pick([mark for at, m, mark in gym.declared if m == name and at == (steps[-1][1] if steps else start)])
            judge(f, "judge: cut at two places and more, row %d" % n, text, query, row_text(start, steps, mark), "shadowed")
            n += 1


def cases():
    row_cases()
    turn_cases()
    for f in FORMS:
        caught_cases(f)
        random_caught(f)
    caught_by_turns()
