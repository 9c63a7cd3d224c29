"""Cases of path rows that are judged for a query, in all forms of file."""
from cases.case_file import Dice, bytes_of, case, is_told
from cases.file_calls import TOP
from cases.gyms import EXAMPLE, FORMS, changed, refused_files, with_rows
from cases.path_rows import chain
from reference.gym_file import EDGE, Refused
from reference.judge import judged
from reference.query import Gym


def judge(f, title, text, query, row, due=None, room=63):
    """A row judged. `due` is the answer that the case is there for: a word, with the number behind `shadowed` or without, or a refusal's number."""
    row = bytes_of(row)
    try:
        word = judged(text, query, row, room)
        assert due is None or is_told(word, due), (title, due, word)
    except Refused as r:
        assert due is None or due == r.number, (title, due, r.number)
        word = b"refused %d" % r.number
    case(b"j", f.title + title, word + b"\n", text, row, number=query, room=room)


def example_cases(f):
    text = f.text(EXAMPLE)
    judge(f, "M10: 10 2P1 for 2 service", text, 0, "10 2P1", "shadowed 0")
    judge(f, "M10: 21 2 for 2 service", text, 0, "21 2", "visible")
    judge(f, "M10: 5 2P1P0 for 2 service", text, 0, "5 2P1P0", "unreached")
    for title, query, row, due in [
        ("the entry of 3 service", 1, "10 3P1", "visible"), ("the entry of 2 hours", 2, "40 2I4", "visible"), ("hours by the site", 2, "5 2P1P0", "shadowed"),
        ("a mark of no declaration", 0, "22 2", "unreached"), ("a mark of another scope", 0, "10 2", "unreached"), ("a mark of another name", 2, "21 2", "unreached"),
        ("a mark of no declaration, shadowed path", 0, "11 2P1", "unreached"), ("mark 65535", 0, "65535 2", "unreached"),
        ("another start", 0, "10 3P1", "unreached"), ("another start with the name", 1, "21 2", "unreached"), ("the last scope alone", 1, "10 1", "unreached"),
        ("an absent edge", 0, "21 2P3", "unreached"), ("an absent edge to the name", 2, "40 2P4", "unreached"), ("an edge the other way", 2, "40 2I4I2", "unreached"),
        ("an absent edge on the way", 2, "5 2P3P1P0", "unreached"), ("a scope past the count", 0, "21 2P5", "unreached"), ("a start past the count", 0, "21 63", "unreached"),
        ("an unlisted letter", 0, "10 2X1", "unreached"), ("an unlisted letter, the last", 2, "5 2P1Z0", "unreached"), ("letters A to H are no numbers", 2, "5 2B1B0", "unreached"),
        ("a scope met twice", 0, "10 2P1P2P1", "unreached"), ("the start met again", 0, "21 2P1P2", "unreached"), ("no name there", 2, "5 2P1", "unreached"),
        ("the name missing at the start", 2, "5 2", "unreached"), ("leading zero in the mark", 0, "021 2", 8), ("leading zero in the start", 0, "21 02", 8),
        ("leading zero in a scope", 0, "10 2P01", 8), ("scope 64", 0, "10 2P64", 8), ("start 64", 0, "10 64", 8), ("mark 65536", 0, "65536 2", 8), ("mark 100000", 0, "100000 2", 8),
        ("the empty row", 0, "", 8), ("a trailing LF", 0, "21 2\n", 8), ("a letter in lower case", 0, "10 2p1", 8), ("two spaces", 0, "21  2", 8),
        ("no mark", 0, " 2", 8), ("a letter without scope", 0, "10 2P", 8), ("byte 0 last", 0, "21 2\0", 8), ("byte 255 last", 0, "21 2\xff", 8),
        ("63 steps", 0, "21 2" + chain(63), "unreached"), ("64 steps", 0, "21 2" + chain(64), 8), ("257 bytes", 0, "21 2" + "P10" * 84 + "P", 8),
    ]:  # fmt: skip
        judge(f, "judge: " + title, text, query, row, due)
    ring = f.text(changed(with_rows(EDGE, "0 P 2", "4 P 4"), s8=["0 service", "2 service", "4 hours"]))
    judge(f, "judge: M9, the entry", ring, 0, "21 0P2", "visible")
    judge(f, "judge: M9, on along the ring", ring, 0, "10 0P2P1", "shadowed")
    judge(f, "judge: M9, round the ring", ring, 1, "21 2P1P0P2", "unreached")
    judge(f, "judge: a self-edge", ring, 2, "40 4P4", "unreached")
    judge(f, "judge: the scope of a self-edge", ring, 2, "40 4", "visible")
    every = f.text(changed(EXAMPLE, s1=[]))
    judge(f, "judge: no order, the shorter", every, 0, "21 2", "visible")
    judge(f, "judge: no order, the longer", every, 0, "10 2P1", "visible")
    judge(f, "judge: no accept rows", f.text(changed(EXAMPLE, s3=[])), 0, "21 2", "unreached")
    judge(f, "judge: accept 1 alone", f.text(changed(EXAMPLE, s3=["1"])), 0, "21 2", "unreached")
    judge(f, "judge: a transition missing", f.text(changed(EXAMPLE, s2=["0 P 0"])), 2, "40 2I4", "unreached")
    judge(f, "judge: a transition missing, the path behind it", f.text(changed(EXAMPLE, s2=["0 P 0"])), 2, "5 2P1P0", "visible")
    judge(f, "judge: open places change nothing", f.text(changed(EXAMPLE, s7=["2 $", "2 I", "2 P"])), 0, "10 2P1", "shadowed")
    two = f.text(changed(EXAMPLE, s6=["1 service 10", "2 service 21", "2 service 22"]))
    judge(f, "judge: one of two declarations", two, 0, "22 2", "visible")
    long = f.text(changed(EXAMPLE, s2=["0 P 0"], s4=["64"], s5=["%d P %d" % (i, i + 1) for i in range(63)], s6=["63 a 7"], s7=[], s8=["0 a"]))
    judge(f, "judge: 63 steps that are a path", long, 0, "7 0" + chain(63), "visible")
    judge(f, "judge: 62 of them", long, 0, "7 0" + chain(62), "unreached")


def refusal_cases(f):
    text = f.text(EXAMPLE)
    for n in (0, 1, 2, 3, 63, 64, 98304):
        judge(f, "judge: %d records, no step" % n, text, 0, "21 2", "visible", n)
        judge(f, "judge: %d records, one step" % n, text, 2, "40 2I4", 9 if n < 1 else "visible", n)
        judge(f, "judge: %d records, two steps" % n, text, 2, "5 2P1P0", 9 if n < 2 else "shadowed", n)
        judge(f, "judge: %d records, 63 steps" % n, text, 2, "5 2" + chain(63), 9 if n < 63 else "unreached", n)
        judge(f, "judge: %d records, malformed" % n, text, 2, "5 2p1", 8, n)
        judge(f, "judge: %d records, another start" % n, text, 2, "10 3P1", 9 if n < 1 else "unreached", n)
    for k, t in refused_files(f).items():
        judge(f, "judge: file refused %d" % k, t, 0, "21 2", k)
        judge(f, "judge: file refused %d, query past the last" % k, t, 99, "21 2", k)
        judge(f, "judge: file refused %d, row malformed" % k, t, 0, "x", k)
        judge(f, "judge: file refused %d, no records" % k, t, 0, "40 2I4", k, 0)
        judge(f, "judge: file refused %d, all at once" % k, t, 99, "x", k, 0)
    for query in (3, 4, 256, 1 << 32, TOP):
        judge(f, "judge: query %d of three" % query, text, query, "21 2", 7)
        judge(f, "judge: query %d of three, row malformed" % query, text, query, "x", 7)
        judge(f, "judge: query %d of three, no records" % query, text, query, "40 2I4", 7, 0)
        judge(f, "judge: query %d of three, row malformed, no records" % query, text, query, "40 2i4", 7, 0)
    judge(f, "judge: query 0 of none", f.text(changed(EXAMPLE, s8=[])), 0, "21 2", 7)


def row_text(start, steps, mark):
    return "%d %d" % (mark, start) + "".join("%s%d" % (label.decode(), to) for label, to in steps)


def shadowed(gym, query):
    visible = [steps for steps, _ in gym.entries(*gym.queries[query])]
    return [steps for steps in gym.reached(*gym.queries[query]) if steps not in visible]


def random_row(dice, gym, query):
    """A row near a path of the query: a shadowed or a reached one where there are, with its mark, or one with a small change."""
    start, name = gym.queries[query]
    reached, hidden = gym.reached(start, name), shadowed(gym, query)
    steps = list(dice.pick(hidden if hidden and dice.below(2) else reached if reached and dice.below(4) else gym.paths(start)))
    last = steps[-1][1] if steps else start
    marks = [mark for at, n, mark in gym.declared if n == name and at == last] or [mark for _, _, mark in gym.declared]
    mark = dice.pick(marks)
    change = dice.below(14)
    if change == 0:
        mark = dice.pick([0, 7, 10, 65535, 11])
    elif change == 1 and steps:
        i = dice.below(len(steps))
        steps[i] = (bytes_of(dice.pick("IPDXZ")), steps[i][1])
    elif change == 2 and steps:
        i = dice.below(len(steps))
        steps[i] = (steps[i][0], dice.below(gym.scopes + 1))
    elif change == 3 and steps:
        steps.append(dice.pick(steps))
    elif change == 4:
        start = dice.below(gym.scopes)
    row = row_text(start, steps, mark)
    if change == 5:
        i = dice.below(len(row))
        row = row[:i] + dice.pick(["", "0", " ", "i", "9", "\n"]) + row[i + 1 :]
    return row


def random_cases(f):
    dice = Dice((10, 88, 1212)[f.number])
    n = 0
    while n < 90:
        scopes = 2 + dice.below(6)
        text = f.random(dice, scopes, 2 * scopes + 1)
        gym = Gym(text)
        if dice.below(3) and not any(shadowed(gym, query) for query in range(len(gym.queries))):
            continue
        for i in range(5):
            query = dice.below(len(gym.queries))
            room = 63 if dice.below(10) else dice.below(3)
            judge(f, "gym %d judged, row %d" % (n, i), text, query, random_row(dice, gym, query), None, room)
        n += 1


def cases():
    for f in FORMS:
        example_cases(f)
        refusal_cases(f)
        random_cases(f)
