"""Cases of path rows that are compared."""
from cases.case_file import Dice, bytes_of, case, is_told
from cases.gyms import EXAMPLE, SMALLEST, changed, refused_files, text_of
from cases.path_rows import chain
from reference.gym_file import Refused
from reference.path_row import compared


def compare(title, text, a, b, due=None, n=63, m=63):
    """Two rows compared. `due` is the answer that the case is there for: a word, with the number of equal steps or without, or a refusal's number."""
    a, b = bytes_of(a), bytes_of(b)
    try:
        told, x, y = compared(text, a, b, n, m)
        assert due is None or is_told(told, due), (title, due, told)
        answer = b"%s, records %d and %d\n" % (told, x, y)
    except Refused as r:
        assert due is None or due == r.number, (title, due, r.number)
        answer = b"refused %d, records 0 and 0\n" % r.number
    case(b"c", title, answer, text, a, b, n, m)


PLAIN = changed(SMALLEST, s0=["I", "P", "D"])


def by(*pairs):
    return text_of(changed(PLAIN, s1=list(pairs)))


ORDERS = {
    "no order": [],
    "end first": ["$ I", "$ P", "$ D", "I P", "I D", "P D"],
    "end last": ["I $", "I P", "I D", "P $", "D $", "D P"],
    "end aside": ["I P"],
    "end in the middle": ["$ P", "I $", "I P"],
    "only ends": ["$ I", "$ P", "$ D"],
    "letters turned": ["P I", "D I", "D P"],
}

# Files with other labels, or the same ones in another sequence: the labels, and the pairs.
OTHER_ORDERS = {
    "labels P D I, end in the middle": ("PDI", ["$ I", "P $", "P I", "D $", "D I"]),
    "labels D I P, I and P over D": ("DIP", ["I D", "P D"]),
    "labels C A B": ("CAB", ["$ C", "$ A", "$ B", "C A", "C B", "A B"]),
}


def by_labels(name):
    labels, pairs = OTHER_ORDERS[name]
    return text_of(changed(SMALLEST, s0=list(labels), s1=pairs))


TURNED = {"first": "second", "second": "first", "neither": "neither"}


def both_ways(title, text, a, b, due):
    word, *number = due.split()
    compare(title, text, a, b, due)
    compare(title + ", turned round", text, b, a, " ".join([TURNED[word], *number]))


def unlisted_cases(name, text, labels, letters):
    """Letters that the file does not list, against each label, the end and one another, first and after a shared part: neither."""
    for shared in ("", labels[0] + "3"):
        at = "1 2" + shared
        tail = ", after %s, %s" % (shared or "the start", name)
        for x in letters:
            for y in labels:
                both_ways("unlisted %s against %s%s" % (x, y, tail), text, at + x + "1", at + y + "1", "neither")
            both_ways("unlisted %s against the end%s" % (x, tail), text, at + x + "1", at, "neither")
            compare("unlisted %s on both sides%s" % (x, tail), text, at + x + "1", at + x + "1", "neither")
            both_ways("unlisted %s to two scopes%s" % (x, tail), text, at + x + "1", at + x + "3", "neither")
        for i, x in enumerate(letters):
            for y in letters[i + 1 :]:
                both_ways("unlisted %s against unlisted %s%s" % (x, y, tail), text, at + x + "1", at + y + "1", "neither")


def label_cases():
    for name, pairs in ORDERS.items():
        unlisted_cases(name, by(*pairs), "IPD", "ABC")
    unlisted_cases("the example's order", text_of(EXAMPLE), "IP", "ABC")
    for name, (labels, pairs) in OTHER_ORDERS.items():
        unlisted_cases(name, by_labels(name), labels, "IPD" if "A" in labels else "ABC")
    for name, cases in {
        "labels P D I, end in the middle": [("P", "D", "neither"), ("P", "I", "first"), ("D", "I", "first"), ("P", "", "first"), ("D", "", "first"), ("I", "", "second")],
        "labels D I P, I and P over D": [("I", "D", "first"), ("P", "D", "first"), ("I", "P", "neither"), ("I", "", "neither"), ("D", "", "neither")],
        "labels C A B": [("C", "A", "first"), ("C", "B", "first"), ("A", "B", "first"), ("A", "", "second"), ("B", "", "second"), ("C", "", "second")],
    }.items():
        for x, y, due in cases:
            end = lambda z: z + "1" if z else ""
            both_ways("%s against %s, %s" % (x, y or "the end", name), by_labels(name), "1 2" + end(x), "1 2" + end(y), due)
            both_ways("%s against %s after an unlisted letter, %s" % (x, y or "the end", name), by_labels(name), "1 2X4" + end(x), "1 2X4" + end(y), due)


def specific_cases():
    example = text_of(EXAMPLE)
    for title, a, b, due in [
        ("equal paths", "10 3P1", "10 3P1", "neither"), ("equal paths, other marks", "10 3P1", "65535 3P1", "neither"),
        ("equal paths without steps", "1 2", "1 2", "neither"), ("different starts", "10 3P1", "10 2P1", "neither"),
        ("different starts, preferred labels", "10 3I1", "10 2P1", "neither"), ("different starts, one without steps", "10 3", "10 2P1", "neither"),
        ("different starts without steps", "10 3", "10 2", "neither"),
        ("the same label to different scopes", "10 3P1", "10 3P2", "neither"), ("the same label to different scopes, then preferred", "1 3P1I4", "1 3P2P4", "neither"),
        ("the same label to different scopes, one longer", "1 3P1", "1 3P2P4", "neither"),
        ("preferred label", "1 2I4", "1 2P1", "first"), ("preferred label of the second", "1 2P1", "1 2I4", "second"),
        ("preferred label to the same scope", "1 2I4", "1 2P4", "first"), ("preferred label, the longer path", "1 2I4I3I1", "1 2P1", "first"),
        ("preferred label after a shared part", "1 3P1P0I4", "1 3P1P0P2", "first"), ("only the first difference counts", "1 3P1I4P0", "1 3P1P2I0", "first"),
        ("a later difference does not count", "1 3P1P4I0", "1 3P1I2P0", "second"), ("a beginning, $ preferred to I", "1 2", "1 2I4", "first"),
        ("a beginning, $ preferred to P", "1 2P1", "1 2P1P0", "first"), ("a beginning of the first", "1 2P1P0", "1 2P1", "second"),
        ("a row that is no path of the graph", "1 4P4", "1 4I9", "second"), ("scopes past the count", "1 60P61", "1 60P61I62", "first"),
    ]:  # fmt: skip
        compare("example's order: " + title, example, a, b, due)
    begin, more = "7 2P1", "8 2P1I0"
    for name, due in [("end first", "first"), ("end last", "second"), ("no order", "neither"), ("end aside", "neither"), ("only ends", "first"), ("end in the middle", "second")]:
        order = by(*ORDERS[name])
        compare("a beginning, " + name, order, begin, more, due)
        compare("a beginning as second, " + name, order, more, begin, {"first": "second", "second": "first"}.get(due, due))
    for name, pairs in ORDERS.items():
        order = by(*pairs)
        for title, a, b in [
            ("one side", "1 2X1", "1 2I1"), ("other side", "1 2P1", "1 2X1"), ("the same on both sides", "1 2X1", "1 2X1"),
            ("the same to different scopes", "1 2X1", "1 2X3"), ("different ones", "1 2X1", "1 2Y1"), ("one side against the end", "1 2X1", "1 2"),
            ("after a shared part", "1 2I1X3", "1 2I1P3"), ("the last letter", "1 2Z0", "1 2A0"),
        ]:  # fmt: skip
            compare("unlisted letter, %s, %s" % (title, name), order, a, b, "neither")
        compare("unlisted letter in the shared part, %s" % name, order, "1 2X1I3", "1 2X1P3", {"letters turned": "second"}.get(name, "neither" if name in ("no order", "only ends") else "first"))
        compare("different unlisted letters, then a preferred one, %s" % name, order, "1 2X1I3", "1 2Y1P3", "neither")
    none = text_of(SMALLEST)
    compare("a file without labels", none, "1 2I1", "1 2P1", "neither")
    compare("a file without labels, a beginning", none, "1 2", "1 2P1", "neither")
    turned = text_of(changed(SMALLEST, s0=["P", "I"], s1=["$ P", "$ I", "P I"]))
    compare("labels P I, P preferred", turned, "1 2I1", "1 2P1", "second")
    eight = text_of(changed(SMALLEST, s0=list("QWERTYUI"), s1=["U I"]))
    compare("the last pair of eight labels", eight, "1 2I1", "1 2U1", "second")
    full = text_of(changed(SMALLEST, s0=list("QWERTYUI"), s1=["%s %s" % (a, b) for i, a in enumerate("$QWERTYUI") for b in "$QWERTYUI"[i + 1 :]]))
    compare("all 36 pairs, the last", full, "1 2U1", "1 2I1", "first")
    compare("all 36 pairs, the first", full, "1 2Q1", "1 2", "second")
    compare("all 36 pairs, an unlisted letter", full, "1 2Z1", "1 2", "neither")
    long = "1 0" + chain(62)
    compare("63 steps that differ in the last", by("I P"), long + "I63", long + "P63", "first")
    compare("63 steps that differ in the last scope", by("I P"), long + "I63", long + "I0", "neither")
    compare("63 steps that are equal", by("I P"), long + "I63", long + "I63", "neither")
    compare("62 steps and one more, end first", by(*ORDERS["end first"]), long, long + "P63", "first")


def room_cases():
    text = text_of(EXAMPLE)
    none, one, three, all = "1 2", "1 2I4", "1 2P1P0I4", "1 0" + chain(63)
    for n in (0, 1, 2, 3, 4, 62, 63, 64, 1000):
        for title, row, steps in [("no step", none, 0), ("one step", one, 1), ("three steps", three, 3), ("63 steps", all, 63)]:
            due = 9 if n < steps else None
            compare("%d records for the first row, %s" % (n, title), text, row, one, due, n, 63)
            compare("%d records for the second row, %s" % (n, title), text, one, row, due, 63, n)
    compare("no records for both, no steps", text, none, none, "neither", 0, 0)
    compare("no records for both, one step each", text, one, one, 9, 0, 0)
    compare("exact records for both", text, three, one, "second", 3, 1)
    compare("one short for both", text, three, one, 9, 2, 0)
    compare("the two rooms are not added", text, three, one, 9, 2, 2)
    compare("the two rooms are not taken one for the other", text, three, one, 9, 1, 3)
    compare("9 though the starts differ", text, "1 3P1", "1 2P1", 9, 0, 63)
    compare("the most records", text, three, one, "second", (1 << 64) - 1, 98304)


def refusal_cases():
    text = text_of(EXAMPLE)
    well, bad = "1 2I4", "1 2i4"
    for k, t in refused_files().items():
        compare("file refused %d, rows well" % k, t, well, well, k)
        compare("file refused %d, first row malformed" % k, t, bad, well, k)
        compare("file refused %d, second row malformed" % k, t, well, bad, k)
        compare("file refused %d, no records" % k, t, well, well, k, 0, 0)
        compare("file refused %d, rows malformed, no records" % k, t, bad, bad, k, 0, 0)
    compare("first row malformed", text, bad, well, 8)
    compare("second row malformed", text, well, bad, 8)
    compare("both rows malformed", text, bad, bad, 8)
    compare("first row malformed, the second needs 9", text, bad, well, 8, 63, 0)
    compare("second row malformed, the first needs 9", text, well, bad, 8, 0, 63)
    compare("both rows malformed, no records", text, bad, bad, 8, 0, 0)
    compare("first row empty", text, "", well, 8)
    compare("second row empty", text, well, "", 8)
    compare("both rows empty", text, "", "", 8)
    compare("empty text, both rows empty", b"", "", "", 2)
    for title, row in [
        ("257 bytes of steps", ("1 2" + "P10" * 99)[:257]), ("300 bytes", "1 2I4" + " " * 295), ("1000 bytes of steps", ("1 2" + "P10" * 400)[:1000]), ("256 bytes", ("1 2" + "P10" * 99)[:256]),
        ("a leading zero in the mark", "01 2I4"), ("a leading zero in the start", "1 02I4"), ("a leading zero in a scope", "1 2I04"), ("a leading zero in the last scope", "1 2I4P01"),
        ("mark 00", "00 2I4"), ("scope 00", "1 2I00"), ("no mark", " 2I4"), ("no mark and no space", "2I4"), ("no space", "12I4"), ("no start", "1 I4"), ("mark and space alone", "1 "),
        ("mark alone", "1"), ("a letter without scope", "1 2I"), ("a last letter without scope", "1 2I4P"), ("an inner letter without scope", "1 2IP4"), ("two spaces", "1  2I4"), ("steps alone", "I4"),
    ]:  # fmt: skip
        for rooms in ((63, 63), (0, 0)):
            compare("first row with %s, %d records" % (title, rooms[0]), text, row, well, 8, *rooms)
            compare("second row with %s, %d records" % (title, rooms[0]), text, well, row, 8, *rooms)
        compare("both rows with " + title, text, row, row, 8)
    for title, row in [("64 steps", "1 0" + chain(64)), ("64 steps and few records", "1 0" + chain(64)), ("a trailing LF", well + "\n"), ("scope 64", "1 2I64"), ("mark 65536", "65536 2I4")]:
        rooms = (2, 2) if "few" in title else (1000, 1000)
        compare("first row with " + title, text, row, well, 8, *rooms)
        compare("second row with " + title, text, well, row, 8, *rooms)


def random_row(dice, base, letters="IIPPDX"):
    """A row that goes a while along `base` and then its own way; now and then of a wrong form."""
    n = dice.below(len(base) + 1)
    steps = base[:n] + [(dice.pick(letters), dice.below(3)) for _ in range(dice.below(3))]
    start = 2 if dice.below(12) else 3
    row = "%d %d" % (dice.pick([0, 7, 10, 65535]), start) + "".join("%s%d" % s for s in steps)
    if dice.below(25) == 0:
        i = dice.below(len(row))
        row = row[:i] + dice.pick(["", "0", " ", "i", "9"]) + row[i + 1 :]
    return row


def random_cases():
    dice = Dice(1515)
    names = list(ORDERS)
    for n in range(420):
        name = names[n // 60]
        base = [(dice.pick("IPD"), dice.below(3)) for _ in range(dice.below(5))]
        rooms = [63, 63] if dice.below(8) else [dice.below(5), dice.below(5)]
        compare("random rows %d, %s" % (n, name), by(*ORDERS[name]), random_row(dice, base), random_row(dice, base), None, *rooms)
    for name in OTHER_ORDERS:
        for n in range(60):
            base = [(dice.pick("IPDAX"), dice.below(3)) for _ in range(dice.below(5))]
            compare("random rows %d, %s" % (n, name), by_labels(name), random_row(dice, base, "IPDABCX"), random_row(dice, base, "IPDABCX"))


def cases():
    label_cases()
    specific_cases()
    room_cases()
    refusal_cases()
    random_cases()
