"""Cases of files with turns converted from one form to another (02, K9 and K12): a column of zeros goes and does not come back, any other turn is 14."""
from cases.case_file import Dice
from cases.converting import convert, kinds_at
from cases.gyms import EXAMPLE, OLD_FORM, SMALLEST, TURNS_OF_0, WITH_KINDS, WITH_TURNS, changed, largest, random_gym, realistic, refused_files, turned, turns_text
from cases.turns import MIXTURES, many_turns, mixed
from reference.gym_file import EDGE, KINDS, OLD


def zero_cases():
    """To the old form without the column, as it is to that with kinds."""
    for title, g in [
        ("the example", EXAMPLE), ("nine names lines and a count", SMALLEST), ("a gym of 27 scopes", realistic()), ("no edges", changed(EXAMPLE, s5=[])),
        ("neither declarations nor queries", changed(EXAMPLE, s6=[], s8=[])), ("the largest graph", largest()),
    ]:  # fmt: skip
        text, old = TURNS_OF_0.text(g), OLD_FORM.text(g)
        convert(OLD, "turns of 0: " + title, text, due=old)
        convert(OLD, "turns of 0: %s, a buffer of its length" % title, text, len(old), due=old)
        convert(OLD, "turns of 0: %s, a byte less" % title, text, len(old) - 1, due=9)
        convert(KINDS, "turns of 0: " + title, text, due=text)
        convert(KINDS, "turns of 0: %s, a buffer of its length" % title, text, len(text), due=text)
        convert(KINDS, "turns of 0: %s, a byte less" % title, text, len(text) - 1, due=9)


def turn_cases():
    """Another turn than 0 in one row alone, whatever the buffer."""
    zeros = TURNS_OF_0.graph(EXAMPLE)
    for i in range(len(EXAMPLE[EDGE])):
        rows = list(zeros[EDGE])
        rows[i] = turned(EXAMPLE[EDGE][i], 1)
        text = turns_text(changed(zeros, s5=rows))
        convert(OLD, "turn 1 in edge %d alone" % i, text, due=14)
        convert(OLD, "turn 1 in edge %d alone, no bytes" % i, text, 0, due=14)
        convert(KINDS, "turn 1 in edge %d alone" % i, text, due=text)
        convert(KINDS, "turn 1 in edge %d alone, a byte less" % i, text, len(text) - 1, due=9)
    for turn in (0, 1, 9, 10, 50, 99):
        text = turns_text(changed(zeros, s5=zeros[EDGE][:-1] + [b"3 P %d 1" % turn]))
        convert(OLD, "turn %d in the last edge alone" % turn, text, due=14 if turn else OLD_FORM.text(EXAMPLE))
    big = TURNS_OF_0.graph(largest())
    text = turns_text(changed(big, s5=big[EDGE][:-1] + [turned(largest()[EDGE][-1], 99)]))
    convert(OLD, "the largest graph, turn 99 in its last edge alone", text, due=14)
    convert(KINDS, "the largest graph, turn 99 in its last edge alone", text, due=text)
    text = turns_text(many_turns())
    convert(OLD, "the largest graph of many kinds and turns", text, due=14)
    convert(KINDS, "the largest graph of many kinds and turns", text, due=text)
    for title, where in [("in the first declaration", (6, 0)), ("in the last query", (8, -1))]:
        for f, which in (TURNS_OF_0, "turns of 0"), (WITH_TURNS, "other turns"):
            kinds = kinds_at(EXAMPLE, "c", where)
            text = kinds.replace(b"from label to\n", b"from label turn to\n")
            for old, new in zip(EXAMPLE[EDGE], f.graph(EXAMPLE)[EDGE]):
                text = text.replace(b"\n" + old + b"\n", b"\n" + new + b"\n")
            convert(OLD, "%s, another kind %s" % (which, title), text, due=14)
            convert(KINDS, "%s, another kind %s" % (which, title), text, due=text)


def sequence_cases():
    """1 to 6, then 14, then 9."""
    for n, text in refused_files(WITH_TURNS).items():
        for form in (OLD, KINDS):
            convert(form, "other turns, file refused %d" % n, text, due=n)
            convert(form, "other turns, file refused %d, no bytes again" % n, text, 0, due=n)
    for lines, _, title in MIXTURES:
        for form in (OLD, KINDS):
            convert(form, title, mixed(lines), due=2)
    text = TURNS_OF_0.text(EXAMPLE)
    for title, old, new, n in [
        ("turn 100", b"3 P 0 1", b"3 P 100 1", 3), ("turn 00", b"3 P 0 1", b"3 P 00 1", 2), ("an edge again at another turn", b"3 P 0 1", b"3 P 0 1\n3 P 1 1", 4),
        ("turns that descend", b"3 P 0 1", b"3 P 1 1\n3 P 0 0", 4), ("another turn, and 6", b"I P\n", b"I I\n", 6),
    ]:  # fmt: skip
        t = text.replace(old, new)
        t = t.replace(b"2 P 0 1", b"2 P 5 1") if n == 6 else t
        for form in (OLD, KINDS):
            convert(form, title, t, due=n)
            convert(form, title + ", no bytes", t, 0, due=n)


def random_cases():
    """Gyms with kinds `v` and turns of 0, and the same with one turn put in place, which may break their sequence."""
    dice = Dice(912)
    for n in range(40):
        text = random_gym(dice, 2 + dice.below(6), 9, "v", [0])
        convert(OLD, "gym %d with turns of 0" % n, text)
        convert(KINDS, "gym %d with turns of 0" % n, text, due=text)
        head, rest = text.split(b"from label turn to\n")
        edges, rest = rest.split(b"at kind name mark\n")
        rows = edges.splitlines()
        if rows:
            i = dice.below(len(rows))
            fields = rows[i].split(b" ")
            fields[2] = b"%d" % dice.pick([0, 1, 2, 50, 99, 100])
            rows[i] = b" ".join(fields)
            edges = b"".join(r + b"\n" for r in rows)
            convert(OLD, "gym %d with a turn put in place" % n, head + b"from label turn to\n" + edges + b"at kind name mark\n" + rest)


def cases():
    zero_cases()
    turn_cases()
    sequence_cases()
    random_cases()
