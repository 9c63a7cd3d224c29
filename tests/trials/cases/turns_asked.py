"""Cases of what the later import wins (02, K12): listings, what they await, rows judged and compared, and old files beside the same files with turns."""
from cases.case_file import Dice
from cases.comparing import compare
from cases.file_calls import try_read
from cases.gyms import EXAMPLE, TURNS_OF_0, WITH_TURNS, changed, graph, random_gym, realistic, refused_files, text_of, turned, turns_text
from cases.judging import judge
from cases.kinds_asked import sections_of, without_query
from cases.listing import asked, put, summed, whole
from reference.gym_file import EDGE, TURNS

# A lane (2) in a wall (1) in a site (0), with two profiles (3 and 4): the later of two imports has the higher turn.
LANE = graph(
    ["I", "P"],
    ["$ I", "$ P", "I P"],
    ["0 I 1", "0 P 0", "1 I 1"],
    ["0", "1"],
    ["5"],
    ["1 P 0 0", "2 I 1 3", "2 I 2 4", "2 P 0 1"],
    ["0 v hours 5", "3 v hours 30", "4 v hours 40"],
    [],
    ["2 v hours"],
)
# Two imports of one scope, `$` in no pair: any path through 0 may end anywhere.
TWO_IMPORTS = graph(["I"], [], ["0 I 0"], ["0"], ["6"], ["0 I 1 1", "0 I 2 2"], ["2 v a 7"], [], ["0 v a"])


def lane(**sections):
    return changed(LANE, **sections)


def imports(**sections):
    return changed(TWO_IMPORTS, **sections)


def seen(title, g, values, *rows, query=0):
    """A listing. What the case is there for: its values, and its rows where some are given or none are found."""
    text = b"".join(b"%s\n" % line.encode() for line in ("start kind seek found awaits", values, "mark path", *rows))
    due = text if rows or " none " in values else values
    put(b"l", b"listed", "listing: " + title, turns_text(g), query, None, due)


def later_cases():
    both = ["1 P 0 0", "2 I 1 3", "2 I 1 4", "2 P 0 1"]
    seen("turns 1 and 2 to two profiles: the later's alone", LANE, "2 v hours one -", "40 2I4")
    seen("the later without the name: the earlier's", lane(s6=["0 v hours 5", "3 v hours 30"]), "2 v hours one -", "30 2I3")
    seen("neither with the name: the site's", lane(s6=["0 v hours 5"]), "2 v hours one -", "5 2P1P0")
    seen("the name nowhere", lane(s6=[]), "2 v hours none -")
    seen("both at turn 1: both", lane(s5=both), "2 v hours several -", "30 2I3", "40 2I4")
    seen("both at turn 1, one with the name", lane(s5=both, s6=["4 v hours 40"]), "2 v hours one -", "40 2I4")
    seen("both at turn 0: both", lane(s5=[r.replace(" 1 3", " 0 3").replace(" 1 4", " 0 4") for r in both]), "2 v hours several -", "30 2I3", "40 2I4")
    seen("both at turn 99: both", lane(s5=[r.replace("I 1", "I 99") for r in both]), "2 v hours several -", "30 2I3", "40 2I4")
    seen("turns 0 and 1", lane(s5=["2 I 0 3", "2 I 1 4"]), "2 v hours one -", "40 2I4")
    seen("turns 98 and 99", lane(s5=["2 I 98 3", "2 I 99 4"]), "2 v hours one -", "40 2I4")
    seen("turns 9 and 10: by number, not by digits", lane(s5=["2 I 9 3", "2 I 10 4"]), "2 v hours one -", "40 2I4")
    seen("the lane's own name", lane(s6=["2 v hours 20", "4 v hours 40"]), "2 v hours one -", "20 2")
    seen("a parent of turn 99 and imports of less, imports preferred", lane(s5=["1 P 0 0", "2 I 1 3", "2 I 2 4", "2 P 99 1"], s6=["1 v hours 10", "3 v hours 30"]), "2 v hours one -", "30 2I3")
    clash = lane(s1=["$ I", "$ P"], s6=["1 v hours 10", "4 v hours 40"])
    seen("a parent row and an import, unordered, clash", clash, "2 v hours several -", "40 2I4", "10 2P1")
    seen("a parent row and imports, unordered: of the imports the later", changed(clash, s6=["1 v hours 10", "3 v hours 30", "4 v hours 40"]), "2 v hours several -", "40 2I4", "10 2P1")
    seen("a parent row of turn 99 and imports, unordered", changed(clash, s5=["2 I 1 3", "2 I 2 4", "2 P 99 1"]), "2 v hours several -", "40 2I4", "10 2P1")
    five_four = imports(s5=["0 I 1 5", "0 I 2 4"], s6=["4 v a 40", "5 v a 50"])
    seen("0 I 1 5 and 0 I 2 4, the name at both: over 4", five_four, "0 v a one -", "40 0I4")
    seen("0 I 1 5 and 0 I 2 4, the name at 5 alone: over 5", changed(five_four, s6=["5 v a 50"]), "0 v a one -", "50 0I5")
    seen("0 I 1 5 and 0 I 2 4, the name at 4 alone: over 4", changed(five_four, s6=["4 v a 40"]), "0 v a one -", "40 0I4")
    three = ["0 I 1 3", "0 I 2 2", "0 I 3 1"]
    for name, due in [("1 2 3", ["1 0I1"]), ("2 3", ["2 0I2"]), ("3", ["3 0I3"]), ("1 3", ["1 0I1"])]:
        seen("three turns, the name at %s" % name, imports(s5=three, s6=["%s v a %s" % (s, s) for s in name.split()]), "0 v a one -", *due)
    four = ["0 I 1 3", "0 I 2 1", "0 I 2 4", "0 I 2 5", "0 I 3 2"]
    names = ["1 v a 1", "3 v a 3", "4 v a 4", "5 v a 5"]
    seen("the highest that leads on, at three scopes", imports(s5=four, s6=names), "0 v a several -", "1 0I1", "4 0I4", "5 0I5")


def path_cases():
    """A step is cut by paths that are reached, and by steps of its own scope alone."""
    fork = lambda *rows, **more: imports(s5=list(rows), **dict(dict(s6=["1 v a 1", "3 v a 3"]), **more))
    seen("the later leads on a step further", fork("0 I 1 1", "0 I 2 2", "2 I 0 3"), "0 v a one -", "3 0I2I3")
    seen("the later leads back to the start alone", fork("0 I 1 1", "0 I 2 2", "2 I 9 0"), "0 v a one -", "1 0I1")
    seen("the later leads to itself alone", fork("0 I 1 1", "0 I 2 2", "2 I 9 2"), "0 v a one -", "1 0I1")
    seen("the later is a self-edge", fork("0 I 1 1", "0 I 2 0"), "0 v a one -", "1 0I1")
    seen("the later of a later scope leads into the path", fork("0 I 1 2", "2 I 1 1", "2 I 2 0", "2 I 3 3", s6=["1 v a 1"]), "0 v a one -", "1 0I2I1")
    seen("turns of two scopes are not compared", fork("0 I 5 1", "0 I 5 2", "1 I 1 4", "2 I 9 3", s6=["3 v a 3", "4 v a 4"]), "0 v a several -", "4 0I1I4", "3 0I2I3")
    seen("the later of the second step", fork("0 I 0 2", "2 I 1 3", "2 I 2 1"), "0 v a one -", "1 0I2I1")
    seen("the later of the first step hides the later of the second", fork("0 I 1 2", "0 I 2 4", "2 I 99 3", s6=["3 v a 3", "4 v a 4"]), "0 v a one -", "4 0I4")
    law = lambda *rows, **more: imports(s0=["I", "P"], s5=list(rows), **dict(dict(s2=["0 I 1", "1 P 1"], s3=["1"], s6=["1 v a 1", "3 v a 3"]), **more))
    seen("the later's path is not lawful", law("0 I 1 1", "0 I 2 2", "2 I 0 3"), "0 v a one -", "1 0I1")
    seen("the later's path is lawful", law("0 I 1 1", "0 I 2 2", "2 P 0 3"), "0 v a one -", "3 0I2P3")
    seen("the later's path is not accepted", law("0 I 1 1", "0 I 2 2", "2 P 0 3", s2=["0 I 1", "1 P 2"]), "0 v a one -", "1 0I1")
    two = lambda *pairs, **more: law("0 I 3 1", "0 P 5 3", s1=list(pairs), **dict(dict(s2=["0 I 0", "0 P 0"], s3=["0"]), **more))
    seen("two labels, no order: turns decide nothing", two(), "0 v a several -", "1 0I1", "3 0P3")
    seen("two labels, I preferred", two("I P"), "0 v a one -", "1 0I1")
    seen("two labels, P preferred", two("P I"), "0 v a one -", "3 0P3")
    order = law("0 I 3 1", "0 I 3 2", "0 P 1 4", "0 P 1 5", s2=["0 I 0", "0 P 0"], s3=["0"], s6=["%d v a 1" % s for s in (1, 2, 4, 5)])
    seen("entries by label number, then scope", order, "0 v a several -", "1 0I1", "1 0I2", "1 0P4", "1 0P5")
    order = changed(order, s0=["P", "I"], s2=["0 P 0", "0 I 0"], s5=["0 P 1 4", "0 P 1 5", "0 I 3 1", "0 I 3 2"])
    seen("entries by label number, then scope, labels P I", order, "0 v a several -", "1 0P4", "1 0P5", "1 0I1", "1 0I2")
    order = changed(order, s5=["0 P 0 2", "0 P 1 4", "0 P 2 1", "0 I 3 1", "0 I 4 3"], s6=["2 v a 2", "3 v a 3", "4 v a 4"])
    seen("entries by label number, earlier turns where the later lead nowhere", order, "0 v a several -", "4 0P4", "3 0I3")
    ends = lambda *pairs: imports(s1=list(pairs), s6=["0 v a 0", "1 v a 1", "2 v a 2"])
    seen("ending beside two turns, no order", ends(), "0 v a several -", "0 0", "2 0I2")
    seen("ending before two turns", ends("$ I"), "0 v a one -", "0 0")
    seen("ending behind two turns", ends("I $"), "0 v a one -", "2 0I2")
    many = imports(s5=["0 I 1 1", "0 I 1 2", "0 I 2 3", "1 I 0 4", "2 I 0 4", "3 I 1 4", "3 I 2 5"], s6=["4 v a 4", "5 v a 5"])
    seen("three routes, the latest alone", many, "0 v a one -", "5 0I3I5")
    seen("three routes, the latest leads to the other's end", changed(many, s6=["4 v a 4"]), "0 v a one -", "4 0I3I4")


def kind_cases():
    """A step is cut by paths to the same kind and name."""
    g = lane(s6=["1 c hours 10", "3 c hours 31", "3 l hours 30", "4 l hours 40"], s8=["2 c hours", "2 l hours", "2 v hours"])
    seen("the later has the limit alone: the counter is the earlier's", g, "2 c hours one -", "31 2I3", query=0)
    seen("the later has the limit alone: the limit is the later's", g, "2 l hours one -", "40 2I4", query=1)
    seen("turns and a kind that nothing has", g, "2 v hours none -", query=2)
    whole(WITH_TURNS, "counters and limits of two imports", turns_text(g))
    summed(WITH_TURNS, "counters and limits of two imports", turns_text(g), "3 2 0 1 67")


def await_cases():
    """An open pair may matter though a row of its own label is there; the steps on the way to it are cut as always."""
    for opened, due in [("1 $", "-"), ("1 I", "-"), ("2 $", "2$"), ("2 I", "2I"), ("0 I", "0I"), ("0 $", "0$"), ("3 $", "-"), ("5 I", "-")]:
        seen("0 I 1 1 and 0 I 2 2, the name at 2, open %s" % opened, imports(s7=[opened]), "0 v a one " + due, "7 0I2")
    for opened, due in [("1 $", "1$"), ("1 I", "1I"), ("2 $", "2$"), ("2 I", "2I"), ("0 I", "0I")]:
        seen("0 I 1 1 and 0 I 2 2, the name at 1, open %s" % opened, imports(s6=["1 v a 7"], s7=[opened]), "0 v a one " + due, "7 0I1")
        seen("0 I 1 1 and 0 I 2 2, the name nowhere, open %s" % opened, imports(s6=[], s7=[opened]), "0 v a none " + due)
    for opened, due in [("1 $", "1$"), ("2 $", "2$"), ("0 I", "0I")]:
        seen("0 I 1 1 and 0 I 1 2, the name at 2, open %s" % opened, imports(s5=["0 I 1 1", "0 I 1 2"], s7=[opened]), "0 v a one " + due, "7 0I2")
    for turn in (0, 1, 50, 98, 99):
        g = lane(s5=["2 I %d 4" % turn, "2 P 0 1"], s6=["1 v hours 10", "4 v hours 40"])
        seen("turn %d and an open pair of its label" % turn, changed(g, s7=["2 I"]), "2 v hours one 2I", "40 2I4")
        seen("turn %d and an open pair of a label behind it" % turn, changed(g, s7=["2 P"]), "2 v hours one -", "40 2I4")
        seen("turn %d and an open pair of a label that no pair puts behind it" % turn, changed(g, s1=["$ I", "$ P"], s7=["2 P"]), "2 v hours several 2P", "40 2I4", "10 2P1")
        seen("turn %d and an open pair of a label before it" % turn, changed(g, s1=["$ I", "$ P", "P I"], s7=["2 P"]), "2 v hours one 2P", "10 2P1")
    seen("a preferred label with a reached path, open 2 P: settled", lane(s7=["2 P"]), "2 v hours one -", "40 2I4")
    seen("a preferred label with a reached path, open 1 P: settled", lane(s7=["1 P"]), "2 v hours one -", "40 2I4")
    seen("the lane's own name, open 2 I: settled", lane(s6=["2 v hours 20", "4 v hours 40"], s7=["2 I"]), "2 v hours one -", "20 2")
    seen("the lane's own name before nothing, open 2 I", lane(s1=["I P"], s6=["2 v hours 20"], s7=["2 I"]), "2 v hours one 2I", "20 2")
    for opened, due in [("3 $", "-"), ("3 I", "-"), ("4 $", "4$"), ("4 I", "-"), ("2 I", "2I"), ("2 $", "2$"), ("1 $", "-"), ("0 $", "-"), ("1 I", "-")]:
        seen("two profiles, open %s" % opened, lane(s7=[opened]), "2 v hours one " + due, "40 2I4")
    for opened, due in [("3 $", "3$"), ("3 I", "-"), ("4 $", "4$"), ("4 I", "4I"), ("2 I", "2I"), ("1 $", "-"), ("1 I", "-")]:
        seen("two profiles, the name at the earlier, open %s" % opened, lane(s6=["3 v hours 30"], s7=[opened]), "2 v hours one " + due, "30 2I3")
    long = imports(s5=["0 I 1 1", "0 I 2 2", "1 I 0 3", "2 I 1 3", "2 I 2 4"], s6=["4 v a 4"])
    for opened, due in [("1 I", "-"), ("1 $", "-"), ("2 I", "2I"), ("2 $", "2$"), ("3 $", "-"), ("3 I", "-"), ("4 I", "4I"), ("4 $", "4$")]:
        seen("a scope behind a step that is cut, open %s" % opened, changed(long, s7=[opened]), "0 v a one " + due, "4 0I2I4")
    for opened, due in [("3 $", "3$"), ("1 I", "1I"), ("4 $", "4$"), ("4 I", "4I"), ("2 I", "2I")]:
        seen("two routes to a scope, neither cut, open %s" % opened, changed(long, s6=[], s7=[opened]), "0 v a none " + due)
    seen("the first of many open pairs, by scope, then $, then label", changed(long, s7=["1 $", "1 I", "2 $", "2 I", "3 $"]), "0 v a one 2$", "4 0I2I4")


def judge_cases():
    def judged(title, g, *rows):
        text = turns_text(g)
        for row, due in rows:
            judge(WITH_TURNS, "judge: %s, %s" % (title, row), text, 0, row, due)

    judged("turns 1 and 2", LANE, ("40 2I4", "visible"), ("30 2I3", "shadowed"), ("5 2P1P0", "shadowed"), ("30 2I4", "unreached"), ("40 2I3", "unreached"), ("40 2P4", "unreached"), ("40 2I4I4", "unreached"), ("40 4", "unreached"))
    judged("the later without the name", lane(s6=["0 v hours 5", "3 v hours 30"]), ("30 2I3", "visible"), ("5 2P1P0", "shadowed"), ("30 2I4", "unreached"))
    both = ["1 P 0 0", "2 I 7 3", "2 I 7 4", "2 P 0 1"]
    judged("equal turns", lane(s5=both), ("30 2I3", "visible"), ("40 2I4", "visible"), ("5 2P1P0", "shadowed"))
    judged("a parent of a higher turn, unordered", lane(s1=[], s5=["1 P 0 0", "2 I 1 3", "2 I 2 4", "2 P 9 1"]), ("30 2I3", "shadowed"), ("40 2I4", "visible"), ("5 2P1P0", "visible"))
    judged("a self-edge of the highest turn", lane(s5=["1 P 0 0", "2 I 1 3", "2 I 2 4", "2 I 9 2", "2 P 0 1"]), ("30 2I3", "shadowed"), ("40 2I4", "visible"), ("40 2I2", "unreached"), ("40 2I2I4", "unreached"))
    long = imports(s5=["0 I 1 1", "0 I 2 2", "1 I 0 3", "2 I 1 3", "2 I 2 4"], s6=["3 v a 3", "4 v a 4"])
    judged("the second step", long, ("4 0I2I4", "visible"), ("3 0I2I3", "shadowed"), ("3 0I1I3", "shadowed"), ("3 0I1I4", "unreached"), ("3 0I2", "unreached"))
    judged("the second step, the latest without the name", changed(long, s6=["3 v a 3"]), ("3 0I2I3", "visible"), ("3 0I1I3", "shadowed"))
    judged("the later leads back to the start alone", imports(s5=["0 I 1 1", "0 I 2 2", "2 I 9 0"], s6=["1 v a 1"]), ("1 0I1", "visible"), ("1 0I2I0I1", "unreached"))
    text = turns_text(LANE)
    for n, due in [(0, 9), (1, "shadowed")]:
        judge(WITH_TURNS, "judge: turns 1 and 2, %d records" % n, text, 0, "30 2I3", due, n)
    judge(WITH_TURNS, "judge: turns 1 and 2, query past the last", text, 1, "30 2I3", 7)
    judge(WITH_TURNS, "judge: turns 1 and 2, a row malformed", text, 0, "30 2I03", 8)


def compare_cases():
    def both(title, g, a, b, due):
        text = g if isinstance(g, bytes) else turns_text(g)
        compare("turns: %s, %s and %s" % (title, a, b), text, a, b, due)
        compare("turns: %s, %s and %s, turned round" % (title, a, b), text, b, a, {"first": "second", "second": "first"}.get(due, due))

    both("the later import", LANE, "1 2I4", "1 2I3", "first")
    both("the later import, other marks", LANE, "0 2I4", "65535 2I3", "first")
    both("the later import, the longer row", LANE, "1 2I4I0P1", "1 2I3", "first")
    both("the later import, both longer", LANE, "1 2I4P0", "1 2I3I0", "first")
    both("equal rows", LANE, "1 2I4", "1 2I4", "neither")
    both("another label", LANE, "1 2I3", "1 2P1", "first")
    both("another label to the same scope", LANE, "1 2I3", "1 2P3", "first")
    both("the end", LANE, "1 2", "1 2I4", "first")
    both("another start", LANE, "1 2I4", "1 3I4", "neither")
    both("a step that is no edge row", LANE, "1 2I1", "1 2I4", "neither")
    both("a step that is no edge row", LANE, "1 2I3", "1 2I0", "neither")
    both("a step to a scope past the count", LANE, "1 2I63", "1 2I4", "neither")
    both("two steps that are no edge rows", LANE, "1 2I0", "1 2I1", "neither")
    both("a step that is no edge row, by the other label", LANE, "1 2I0", "1 2P0", "first")
    both("an edge the other way", LANE, "1 4I2", "1 4I3", "neither")
    both("scopes past the count", LANE, "1 60I3", "1 60I4", "neither")
    both("an unlisted letter", LANE, "1 2X4", "1 2I3", "neither")
    both("an unlisted letter twice", LANE, "1 2X4", "1 2X3", "neither")
    both("after a shared step", LANE, "1 0P2I4", "1 0P2I3", "first")
    both("after a shared step that is no edge row", LANE, "1 63Z2I4", "1 63Z2I3", "first")
    both("after shared steps that meet a scope again", LANE, "1 2P1P2I4", "1 2P1P2I3", "first")
    both("only the first difference counts", LANE, "1 2I3P2I4", "1 2I4P2I3", "second")
    both("a difference that decides nothing, then turns", LANE, "1 2I1P2I4", "1 2I0P2I3", "neither")
    self = lane(s5=["2 I 1 3", "2 I 2 4", "2 I 9 2"])
    both("a self-edge of the highest turn", self, "1 2I2", "1 2I4", "first")
    both("a self-edge of the highest turn", self, "1 2I2", "1 2I3", "first")
    both("a self-edge and a step that is no edge row", self, "1 2I2", "1 2I0", "neither")
    both("a self-edge, then the imports", self, "1 2I2I4", "1 2I2I3", "first")
    low = lane(s5=["2 I 0 2", "2 I 1 3", "2 I 2 4"])
    both("a self-edge of the lowest turn", low, "1 2I2", "1 2I3", "second")
    equal = lane(s5=["2 I 1 3", "2 I 1 4", "2 P 9 3"])
    both("equal turns", equal, "1 2I3", "1 2I4", "neither")
    both("a higher turn of another label, preferred by label", equal, "1 2I3", "1 2P3", "first")
    both("a higher turn of another label, unordered", changed(equal, s1=[]), "1 2I3", "1 2P3", "neither")
    both("a higher turn of another label, the other preferred", changed(equal, s1=["P I"]), "1 2I3", "1 2P3", "second")
    both("turns of 0", TURNS_OF_0.text(EXAMPLE), "1 2I4", "1 2I3", "neither")
    both("turns 0 and 1", lane(s5=["2 I 0 3", "2 I 1 4"]), "1 2I4", "1 2I3", "first")
    both("turns 9 and 10", lane(s5=["2 I 9 3", "2 I 10 4"]), "1 2I4", "1 2I3", "first")
    both("turns 0 and 99", lane(s5=["2 P 0 3", "2 P 99 4"]), "1 2P4", "1 2P3", "first")
    both("the edges of another scope", lane(s5=["1 I 5 3", "1 I 6 4", "2 I 1 4", "2 I 2 3"]), "1 2I3", "1 2I4", "first")
    many = imports(s4=["64"], s5=["63 I %d %d" % (i, 63 - i) for i in range(64)])
    both("the first and the last of 64", many, "1 63I0", "1 63I63", "first")
    both("neighbours of 64", many, "1 63I31", "1 63I32", "first")
    for k, t in refused_files(WITH_TURNS).items():
        compare("with turns: file refused %d, rows well" % k, t, "1 2I4", "1 2I3", k)
        compare("with turns: file refused %d, rows malformed, no records" % k, t, "1 2i4", "1 2i4", k, 0, 0)
    text = turns_text(LANE)
    for a, b, n, m, due in [("x", "1 2I3", 63, 63, 8), ("1 2I4", "x", 63, 63, 8), ("1 2I4", "1 2I3", 0, 63, 9), ("1 2I4", "1 2I3", 63, 0, 9), ("1 2I4", "1 2I3", 1, 1, "first")]:
        compare("turns: %s and %s, %d and %d records" % (a, b, n, m), text, a, b, due, n, m)


def random_compared():
    """Rows near one another, over random gyms with turns."""
    dice = Dice(1200)
    for n in range(300):
        text = WITH_TURNS.random(dice, 3 + dice.below(3), 16)
        edges = sections_of(text)[EDGE]
        way = lambda: "".join("%s%d" % (dice.pick("IPDX"), dice.below(5)) for _ in range(dice.below(3)))
        fields = [e.decode().split() for e in edges] or [["0", "I", "0", "0"]]
        one = dice.pick(fields)
        near = [e for e in fields if e[:2] == one[:2]]
        shared = way()
        start = one[0] if not shared else str(dice.below(5))
        shared = shared and shared.rstrip("0123456789") + one[0]
        rows = []
        for _ in range(2):
            from_, label, _, to = dice.pick(near) if dice.below(5) else [one[0], one[1], "0", str(dice.below(6))]
            rows.append("%d %s%s%s%s%s" % (dice.below(99), start, shared, label, to, way()))
        compare("random rows %d by a gym with turns" % n, text, *rows)


def same_cases():
    """An old file, and the same file with kinds `v` and one turn for each label: the same entries, `found` and `awaits`."""
    dice = Dice(119)
    gyms = [("the example", text_of(EXAMPLE)), ("a gym of 27 scopes", text_of(realistic()))]
    gyms += [("gym %d" % n, random_gym(dice, 3 + dice.below(6), 14)) for n in range(40)]
    for title, old in gyms:
        sections = sections_of(old)
        for f in (WITH_TURNS, TURNS_OF_0):
            new = f.text(sections)
            assert f is WITH_TURNS or try_read(new) == [TURNS] + try_read(old)[1:], title
            for query in [None, *range(len(sections[8]) + 1)]:
                assert without_query(asked(old, query)) == without_query(asked(new, query)), title
            whole(f, "as without turns, %s" % title, new)


def turned_cases():
    """A gym of a usual size, its imports with turns."""
    g = WITH_TURNS.graph(realistic())
    rows = [turned(r, 3 * i % 7) for i, r in enumerate(realistic()[EDGE])]
    rows.sort(key=lambda r: [int(x) if x.isdigit() else b"IP".index(x) for x in r.split()])
    whole(WITH_TURNS, "a gym of 27 scopes and 80 queries, turns drawn", turns_text(changed(g, s5=rows)))


def cases():
    later_cases()
    path_cases()
    kind_cases()
    await_cases()
    judge_cases()
    compare_cases()
    random_compared()
    same_cases()
    turned_cases()
