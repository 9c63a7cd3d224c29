"""Cases of the exchange with DOT (02, K14): files drawn, and drawings put into files.

`due` is what a case is there for: the text that comes out, or a refusal's number. What texts are drawings at all is tried in `drawn_texts`."""
import re

from cases.case_file import Dice, bytes_of, case, sum_of
from cases.gyms import EXAMPLE, FORMS, OLD_FORM, SMALLEST, TURNS_OF_0, WITH_TURNS, changed, largest, random_gym, realistic, refused_files, shuffled, turns_text
from cases.shapes import chain, plain
from cases.turns import many_turns
from cases.turns_asked import LANE
from reference.drawing import DROPPED, dot, undot
from reference.gym_file import EDGE, Refused, read


def answered(call, *given):
    """What comes out, or a refusal's number."""
    try:
        return call(*given)
    except Refused as r:
        return r.number


def put(kind, title, out, answer, due, room, text, drawn=b""):
    """A case of either call: a refusal, or what `answer` makes of the output. Where no room is given it is a little more than the output."""
    if room is None:
        room = len(out) + 9 if isinstance(out, bytes) else 400
    if isinstance(out, bytes) and room < len(out):
        out = 9
    assert due is None or due == out or (due == 0 and isinstance(out, bytes)), (title, due, out)
    case(kind, title, b"refused %d, all kept\n" % out if isinstance(out, int) else answer(out), text, second=drawn, room=room)


def draws(title, text, due=None, room=None):
    """A file drawn, and the drawing put into that file."""

    def answer(out):
        same = undot(text, out) == text
        assert same != out.startswith(DROPPED), title
        back = b"back the same" if same else b"back ANOTHER"
        return b"drawn %d sum %d, rest kept, %s\n" % (len(out), sum_of(out), back) + (out if len(out) <= 4096 else b"")

    put(b"g", "dot: " + title, answered(dot, text), answer, due, room, text)


def takes(title, text, drawn, due=None, room=None):
    """A drawing put into a file."""
    drawn = bytes_of(drawn)
    answer = lambda out: b"taken %d sum %d, rest kept\n" % (len(out), sum_of(out))
    put(b"h", "undot: " + title, answered(undot, text, drawn), answer, due, room, text, drawn)


def drawing(scopes, edges, tail="}\n"):
    """A drawing of scopes and edges as they are given: numbers, and triples or rows of the old form."""
    split = lambda e: e if isinstance(e, tuple) else tuple(bytes_of(e).decode("latin-1").split(" "))
    rows = "".join('%s -> %s [label="%s"];\n' % (a, b, label) for a, label, b in map(split, edges))
    return bytes_of("digraph scopes {\n" + "".join("%s;\n" % s for s in scopes) + rows + tail)


def tokens(drawn):
    """The tokens of a drawing, told by another way than the reference's."""
    return re.findall(rb'[a-z]+|[0-9]+|->|"[^"]*"|[^ \t\n]', drawn)


def export_cases():
    example = drawing(range(5), ["1 P 0", "2 I 4", "2 P 1", "3 P 1"])
    for f in FORMS:
        draws(f.title + "the example", f.text(EXAMPLE), (DROPPED if f is WITH_TURNS else b"") + example)
    draws("turns of 0: the example", TURNS_OF_0.text(EXAMPLE), example)
    for f in (*FORMS, TURNS_OF_0):
        for title, g in [
            ("nine names lines and a count", SMALLEST), ("no edges", changed(EXAMPLE, s5=[])), ("64 scopes and no edges", changed(SMALLEST, s4=["64"])), ("a chain of 64", chain(64)),
            ("labels P I", changed(EXAMPLE, s0=["P", "I"], s1=[], s2=[], s5=["1 P 0", "2 P 1", "2 I 4"])), ("edges to themselves", plain(s5=["0 I 0", "0 P 0"])),
            ("a gym of 27 scopes", realistic()), ("the largest graph", largest()),
        ]:  # fmt: skip
            text = f.text(g)
            draws(f.title + title, text, 0)
            length = len(dot(text))
            for room, due in (length, 0), (length - 1, 9), (0, 9):
                draws("%s%s, %d bytes" % (f.title, title, room), text, due, room)
    length = len(example)
    for room in (1, 16, 17, length - 2):
        draws("the example, %d bytes" % room, OLD_FORM.text(EXAMPLE), 9, room)
    for room in (length + 1, 4096, 98304):
        draws("the example, %d bytes" % room, OLD_FORM.text(EXAMPLE), example, room)
    many = turns_text(many_turns())
    draws("the largest graph of many kinds and turns", many, 0)
    takes("the largest graph of many kinds and turns, its own drawing", many, dot(many), 0)


def turn_cases():
    """Edges come in row sequence, by turn before the scope that they lead to, and one turn that is not 0 is told in the first line."""
    draws("two imports of other turns", turns_text(LANE), 0)
    draws("a higher turn first by scope", turns_text(changed(LANE, s5=["2 I 0 4", "2 I 1 3"])), DROPPED + drawing(range(5), ["2 I 4", "2 I 3"]))
    zeros = TURNS_OF_0.graph(EXAMPLE)
    for i in range(len(zeros[EDGE])):
        for turn in (1, 99):
            rows = list(zeros[EDGE])
            from_, label, _, to = rows[i].split(b" ")
            rows[i] = b"%s %s %d %s" % (from_, label, turn, to)
            text = turns_text(changed(zeros, s5=rows))
            draws("turn %d in edge %d alone" % (turn, i), text, DROPPED + dot(OLD_FORM.text(EXAMPLE)))
            takes("turn %d in edge %d alone, its own drawing" % (turn, i), text, dot(text), TURNS_OF_0.text(EXAMPLE))
            length = len(dot(text))
            for room, due in (length, 0), (length - 1, 9):
                draws("turn %d in edge %d alone, %d bytes" % (turn, i, room), text, due, room)


def own_cases():
    """A file's own drawing put into it gives the file, or the file with turns of 0."""
    for title, g in [("the example", EXAMPLE), ("nine names lines and a count", SMALLEST), ("no edges", changed(EXAMPLE, s5=[])), ("a chain of 64", chain(64)), ("a gym of 27 scopes", realistic()), ("the largest graph", largest())]:
        for f in (*FORMS, TURNS_OF_0):
            text = f.text(g)
            due = TURNS_OF_0.text(g) if f is WITH_TURNS else text
            takes(f.title + title + ", its own drawing", text, dot(text), due)
            for room, number in (len(due), due), (len(due) - 1, 9), (0, 9):
                takes("%s%s, its own drawing, %d bytes" % (f.title, title, room), text, dot(text), number, room)
            takes(f.title + title + ", its own drawing behind the comment", text, DROPPED + dot(OLD_FORM.text(g)), due)
    text = OLD_FORM.text(EXAMPLE)
    for room in (1, 100, len(text) - 2):
        takes("the example, its own drawing, %d bytes" % room, text, dot(text), 9, room)
    for room in (len(text) + 1, 4096, 98304):
        takes("the example, its own drawing, %d bytes" % room, text, dot(text), text, room)


def place_cases(f):
    """Other edges than the file's, in any sequence."""
    t = f.titled(takes)
    text = f.text(EXAMPLE)
    zeros = TURNS_OF_0 if f is WITH_TURNS else f
    with_edges = lambda rows, g=EXAMPLE: zeros.text(changed(g, s5=rows))
    own = EXAMPLE[EDGE]
    t("no edges in place of the example's", text, drawing(range(5), []), with_edges([]))
    t("one edge in place of the example's", text, drawing(range(5), ["4 P 4"]), with_edges(["4 P 4"]))
    t("edges where none were", f.text(changed(EXAMPLE, s5=[])), drawing(range(5), own), with_edges(own))
    t("the example's edges from the last to the first", text, drawing(range(5), own[::-1]), with_edges(own))
    t("the example's edges in another sequence", text, drawing(range(5), own[2:] + own[:2]), with_edges(own))
    t("edges of one scope in any sequence", text, drawing(range(5), ["0 P 4", "0 I 3", "0 P 0", "0 I 0", "0 P 1"]), with_edges(["0 I 0", "0 I 3", "0 P 0", "0 P 1", "0 P 4"]))
    by_place = changed(EXAMPLE, s0=["P", "I"], s1=[], s2=[], s5=[])
    t("labels P I: sorted by their place", f.text(by_place), drawing(range(5), ["0 I 0", "0 P 4", "0 P 3"]), with_edges(["0 P 3", "0 P 4", "0 I 0"], by_place))
    tens = changed(EXAMPLE, s4=["12"], s5=[])
    t("scopes 9 and 10: sorted as numbers", f.text(tens), drawing(range(12), ["10 P 0", "9 P 10", "9 P 9", "10 I 11"]), with_edges(["9 P 9", "9 P 10", "10 I 11", "10 P 0"], tens))
    for title, scopes in [("the last first", [4, 3, 2, 1, 0]), ("in any sequence", [2, 0, 4, 1, 3]), ("the first last", [1, 2, 3, 4, 0])]:
        t("scopes %s" % title, text, drawing(scopes, own), with_edges(own))
    big = largest()
    dice = Dice(14)
    t("the largest graph, its edges in any sequence", f.text(big), drawing(shuffled(dice, range(64)), shuffled(dice, big[EDGE])), with_edges(big[EDGE], big))
    full = changed(SMALLEST, s0=list("QWERTYUI"), s4=["64"])
    rows = ["%d Q %d" % (i // 64, i % 64) for i in range(512)]
    t("512 edges", f.text(full), drawing(range(64), shuffled(dice, rows)), with_edges(rows, full))


def scope_cases(f):
    t = f.titled(takes)
    text, own = f.text(EXAMPLE), EXAMPLE[EDGE]
    for missing in range(5):
        t("scope %d missing" % missing, text, drawing([s for s in range(5) if s != missing], own), 19)
        t("scope %d twice, at once" % missing, text, drawing(sorted([0, 1, 2, 3, 4, missing]), own), 19)
        t("scope %d twice, at the end" % missing, text, drawing([0, 1, 2, 3, 4, missing], own), 19)
        t("scope %d in place of the last" % missing, text, drawing([0, 1, 2, 3, missing], own), 19 if missing < 4 else 0)
        t("scope 5 in place of %d" % missing, text, drawing([s if s != missing else 5 for s in range(5)], own), 19)
    for more in (5, 6, 63, 64, 99999):
        t("scope %d too" % more, text, drawing([0, 1, 2, 3, 4, more], own), 19)
        t("scope %d first" % more, text, drawing([more, 0, 1, 2, 3, 4], own), 19)
    t("no scopes", text, drawing([], own), 19)
    t("no scopes and no edges", text, drawing([], []), 19)
    wide = f.text(changed(SMALLEST, s4=["64"]))
    t("64 scopes", wide, drawing(range(63, -1, -1), []), 0)
    t("63 of 64 scopes", wide, drawing(range(63), []), 19)
    t("64 scopes and one more", wide, drawing(range(65), []), 19)
    t("64 scopes, the last twice", wide, drawing([*range(64), 63], []), 19)
    t("64 scope lines, the first for the last", wide, drawing([*range(63), 0], []), 19)
    t("1000 scope lines", wide, drawing([s % 64 for s in range(1000)], []), 19)


def sequence_cases(f):
    """1 to 6, 18, 19, then row by row 5, 3, 4, then 9."""
    t = f.titled(takes)
    text, own = f.text(EXAMPLE), [r.decode() for r in EXAMPLE[EDGE]]
    whole = drawing(range(5), own)
    outside = whole.replace(b"}", b"")
    scopes = drawing(range(4), own)
    for number, refused in refused_files(f).items():
        for title, drawn in ("the example's drawing", whole), ("a drawing outside the subset", outside), ("a drawing of other scopes", scopes), ("nothing", b""):
            for room in 0, 400:
                t("file refused %d, %s, %d bytes" % (number, title, room), refused, drawn, number, room)
        draws("%sfile refused %d" % (f.title, number), refused, number)
        draws("%sfile refused %d, no bytes" % (f.title, number), refused, number, 0)
    for n, refused in enumerate((b"", b"\n", text[:-1], text + b"\n", b"1" * 32768)):
        t("text %d of %d bytes" % (n, len(refused)), refused, whole, 2)
        draws("%stext %d of %d bytes" % (f.title, n, len(refused)), refused, 2)
    far, unlisted, again = "0 P 5", "0 Z 0", own[0]
    for title, scope_rows, rows, due in [
        ("other scopes, an edge out of range", range(4), own + [far], 19), ("other scopes, an edge out of their range alone", range(4), own, 19), ("other scopes, a letter not listed", range(6), [unlisted], 19),
        ("other scopes, an edge again", range(6), own + [again], 19), ("an edge out of range, then one again", range(5), [far] + own + [again], 3), ("an edge again, then one out of range", range(5), own + [again, far], 4),
        ("a letter not listed, then an edge again", range(5), own + [unlisted, again], 3), ("an edge again, then a letter not listed", range(5), own + [again, unlisted], 4), ("an edge out of range, twice", range(5), [far, far], 3),
        ("a scope out of range and a letter not listed", range(5), ["5 Z 0"], 3),
    ]:  # fmt: skip
        for room in 0, 400:
            t("%s, %d bytes" % (title, room), text, drawing(scope_rows, rows), due, room)
        for where, broken in ("no last sign", drawing(scope_rows, rows, tail="")), ("a number 04", drawing([*scope_rows, "04"], rows)), ("CR", drawing(scope_rows, rows, tail="}\r\n")):
            t("%s, %s" % (title, where), text, broken, 18)
    for room in 0, 400:
        t("a drawing outside the subset, %d bytes" % room, text, outside, 18, room)
        t("a drawing of other scopes, %d bytes" % room, text, scopes, 19, room)


def repeat_cases(f):
    """An edge is the same by from, label and to, at once or far away; nothing else is a repeat."""
    t = f.titled(takes)
    text, own = f.text(EXAMPLE), [r.decode() for r in EXAMPLE[EDGE]]
    for i, row in enumerate(own):
        t("edge %d twice, at once" % i, text, drawing(range(5), own[: i + 1] + own[i:]), 4)
        t("edge %d again at the end" % i, text, drawing(range(5), own + [row]), 4)
        t("edge %d again at the start" % i, text, drawing(range(5), [row] + own), 4)
    t("the same scopes by two labels", text, drawing(range(5), ["1 P 0", "1 I 0"]), 0)
    t("the same scopes the other way round", text, drawing(range(5), ["1 P 0", "0 P 1"]), 0)
    t("one label to two scopes", text, drawing(range(5), ["1 P 2", "1 P 0"]), 0)
    t("edges to themselves, once each", text, drawing(range(5), ["3 P 3", "3 I 3", "0 P 0"]), 0)
    t("an edge to itself twice", text, drawing(range(5), ["3 P 3", "0 P 0", "3 P 3"]), 4)
    t("a repeat in other blanks", text, b'digraph scopes {0;1;2;3;4;1->0[label="P"];\n1\t->\n0 [ label = "P" ] ;}', 4)


def full_cases(f):
    """512 edges and one more."""
    t = f.titled(takes)
    text = f.text(changed(SMALLEST, s0=list("QWERTYUI"), s4=["64"]))
    rows = ["%d Q %d" % (i // 64, i % 64) for i in range(512)]
    for title, more, due in [
        ("well", ["8 Q 0"], 5), ("out of range", ["64 Q 0"], 5), ("to a scope out of range", ["8 Q 99999"], 5), ("unlisted", ["8 Z 0"], 5), ("the last again", ["7 Q 63"], 5), ("the first again", ["0 Q 0"], 5), ("malformed", ["8 q 0"], 18),
    ]:  # fmt: skip
        for room in 0, 400:
            t("513 edges, the last %s, %d bytes" % (title, room), text, drawing(range(64), rows + more), due, room)
    t("513 edges and other scopes", text, drawing(range(63), rows + ["8 Q 0"]), 19)
    t("513 edges, the 512th out of range", text, drawing(range(64), rows[:-1] + ["64 Q 0", "8 Q 0"]), 3)
    t("513 edges, the 512th the first again", text, drawing(range(64), rows[:-1] + ["0 Q 0", "8 Q 0"]), 4)
    t("513 edges, the first out of range", text, drawing(range(64), ["0 Z 0"] + rows), 3)
    t("513 edges, the second the first again", text, drawing(range(64), rows[:1] + rows), 4)
    t("512 edges, the last the first again", text, drawing(range(64), rows[:-1] + rows[:1]), 4)
    t("512 edges, the last the one above again", text, drawing(range(64), rows[:-1] + rows[-2:-1]), 4)
    t("512 edges, a byte too few", text, drawing(range(64), rows), 9, len(undot(text, drawing(range(64), rows))) - 1)
    t("1000 edges", text, drawing(range(64), rows + rows[:488]), 5)


def loosened(dice, drawn):
    """A drawing with other blanks between its tokens."""
    thick = dice.pick([1, 2, 6])
    out = b""
    for i, token in enumerate(tokens(drawn)):
        blanks = b"".join(dice.pick([b" ", b"\t", b"\n"]) for _ in range(dice.below(thick)))
        out += (blanks or b" " if i == 1 else blanks) + token
    return out + b"\n" * dice.below(2)


def damaged(dice, drawn):
    """A byte left out, put in, changed, or two parts exchanged."""
    i, j = dice.below(len(drawn)), dice.below(len(drawn))
    byte = dice.pick([b" ", b"\t", b"\n", b"0", b"7", b";", b"}", b"P", b'"', b"-", b"x", b"\r"])
    return dice.pick([drawn[:i] + drawn[i + 1 :], drawn[:i] + byte + drawn[i:], drawn[:i] + byte + drawn[i + 1 :], drawn[:i] + drawn[j:], drawn[i:]])


def random_cases(f):
    dice = Dice((1400, 1408, 1412)[f.number])
    for n in range(60):
        scopes = 1 + dice.below(7)
        text = f.random(dice, scopes, 2 * scopes + 1)
        draws("%sgym %d" % (f.title, n), text)
        g = read(text)
        edges = [(from_, label.decode(), to) for from_, label, _, to in g.rows[EDGE]]
        mixed = drawing(shuffled(dice, range(scopes)), shuffled(dice, edges))
        takes("%sgym %d, mixed" % (f.title, n), text, mixed, undot(text, dot(text)))
        takes("%sgym %d, mixed, other blanks" % (f.title, n), text, loosened(dice, mixed), undot(text, dot(text)))
        takes("%sgym %d, damaged" % (f.title, n), text, damaged(dice, mixed))
        letters = [label.decode() for label in g.labels()] + dice.pick([[], [], ["Z"]])
        more = dice.pick([0, 0, 0, 1])
        drawn = [(dice.below(scopes + more), dice.pick(letters), dice.below(scopes)) for _ in range(dice.below(2 * scopes))]
        takes("%sgym %d, drawn edges" % (f.title, n), text, drawing(range(scopes), drawn))
        other = random_gym(dice, dice.pick([scopes, scopes, scopes + 1]), 2 * scopes + 1)
        takes("%sgym %d, another gym's drawing" % (f.title, n), text, loosened(dice, dot(other)))


def cases():
    export_cases()
    turn_cases()
    own_cases()
    for f in FORMS:
        place_cases(f)
        scope_cases(f)
        sequence_cases(f)
        repeat_cases(f)
        full_cases(f)
        random_cases(f)
