"""Cases of path rows that are taken apart, and of rows written from their parts."""
from cases.case_file import bytes_of, case, sum_of
from reference.gym_file import Refused
from reference.path_row import row_from, row_of


def apart(title, row, due, room=300):
    """A row taken apart. `due` says whether it is of its form."""
    row = bytes_of(row)
    try:
        mark, start, steps = row_of(row)
    except Refused:
        assert not due, title
        case(b"p", "row: " + title, b"refused 8\n", first=row, room=room)
        return
    assert due, title
    answer = b"mark %d start %d steps %d" % (mark, start, len(steps))
    answer += b"".join(b" %s%d" % s for s in steps)
    case(b"p", "row: " + title, answer + b", " + written(row, room), first=row, room=room)


def written(row, room):
    """What is due where a row is written into a lent buffer of `room` bytes, and the memory behind them is looked at too."""
    if room < len(row):
        return b"refused 9, all kept\n"
    return b"written %d sum %d, rest kept, back the same\n" % (len(row), sum_of(row))


def parts(title, due, mark, start, letters, scopes, count=None, room=300):
    """A row written from its parts, which stand behind `=` in hexadecimal: mark, start, number of steps, how many letters and scopes are lent, then
    80 of each; behind those that are lent stand a letter and a scope that a row may have. Past the lent ones a step has 0. `due` says whether they make
    a row."""
    letters, scopes = bytes_of(letters), bytes(scopes)
    count = len(letters) if count is None else count
    try:
        row = row_from(mark, start, letters, scopes, count)
    except Refused:
        row = None
    assert (row is not None) == due, title
    numbers = [mark, start, count, len(letters), len(scopes)] + list(letters.ljust(80, b"P")) + list(scopes.ljust(80, b"\7"))
    body = b"=" + b"".join(b"%x " % n for n in numbers)
    case(b"p", "parts: " + title, written(row, room) if due else b"refused 8, all kept\n", first=body, room=room)


def chain(n, letter="P", first=1):
    """n steps, to the scopes from `first` on and round again."""
    return "".join("%s%d" % (letter, (first + i) % 64) for i in range(n))


def form_cases():
    for row in ("10 3P1", "21 2", "40 2I4", "5 2P1P0", "0 0", "65535 63Z63", "1 0A0", "9 9Z9A9"):
        apart(row, row, True)
    for title, row, due in [
        ("leading zero in the mark", "010 3P1", False), ("mark 00", "00 3P1", False), ("mark 0", "0 3P1", True),
        ("leading zero in the start", "10 03P1", False), ("start 00", "10 00P1", False), ("start 0", "10 0P1", True),
        ("leading zero in a scope", "10 3P01", False), ("scope 00", "10 3P00", False), ("scope 0", "10 3P0", True),
        ("leading zero in an inner scope", "10 3P01I2", False), ("leading zero in the last scope", "10 3P1I02", False),
        ("scope 63", "10 3P63", True), ("scope 64", "10 3P64", False), ("scope 99", "10 3P99", False), ("scope 630", "10 3P630", False),
        ("scope 65535", "10 3P65535", False), ("scope 65536", "10 3P65536", False), ("scope 100000", "10 3P100000", False),
        ("scope 256", "10 3P256", False), ("inner scope 63", "10 3P63I2", True), ("inner scope 64", "10 3P64I2", False),
        ("start 63", "10 63", True), ("start 64", "10 64", False), ("start 64 with a step", "10 64P1", False), ("start 100000", "10 100000", False),
        ("start 4294967296", "10 4294967296", False), ("start 256", "10 256P1", False), ("scope 18446744073709551616", "10 3P18446744073709551616", False),
        ("mark 65535", "65535 3P1", True), ("mark 65536", "65536 3P1", False), ("mark 99999", "99999 3P1", False), ("mark 100000", "100000 3P1", False),
        ("mark 18446744073709551616", "18446744073709551616 3P1", False), ("mark 9", "9 3", True), ("mark 9999", "9999 3", True),
        ("a letter in lower case", "10 3p1", False), ("a second letter in lower case", "10 3P1i2", False), ("letter a", "10 3a1", False),
        ("letter A", "10 3A1", True), ("letter Z", "10 3Z1", True), ("letter @", "10 3@1", False), ("letter [", "10 3[1", False),
        ("letter $", "10 3$1", False), ("two letters", "10 3PI1", False), ("the same letter twice", "10 3PP1", False),
        ("no mark", " 3P1", False), ("no mark and no space", "3P1", False), ("no space", "103P1", False), ("mark and space alone", "10 ", False),
        ("mark alone", "10", False), ("a space alone", " ", False), ("no start", "10 P1", False), ("a letter without scope", "10 3P", False),
        ("an inner letter without scope", "10 3PI4", False), ("a last letter without scope", "10 3P1I", False), ("a start alone", "3", False),
        ("a scope without letter", "10 3 1", False), ("two spaces", "10  3P1", False), ("a space first", " 10 3P1", False),
        ("a space last", "10 3P1 ", False), ("a space before a letter", "10 3 P1", False), ("a space after a letter", "10 3P 1", False),
        ("a tab for the space", "10\t3P1", False), ("a trailing LF", "10 3P1\n", False), ("a trailing LF without steps", "10 3\n", False),
        ("LF first", "\n10 3P1", False), ("LF for the space", "10\n3P1", False), ("CR last", "10 3P1\r", False), ("LF inside", "10 3P1\nI2", False),
        ("two rows", "10 3P1\n10 3P1", False), ("the empty row", "", False), ("one LF", "\n", False), ("$ alone", "$", False),
        ("a minus sign", "-1 3P1", False), ("a plus sign", "+1 3P1", False), ("a point", "10 3P1.", False), ("byte /", "10 3P/", False), ("byte :", "10 3P:", False),
        ("byte 0 first", "\x0010 3P1", False), ("byte 0 last", "10 3P1\0", False), ("byte 0 alone", "\0", False), ("byte 0 for the space", "10\x003P1", False),
        ("byte 0 for a letter", "10 3\x001", False), ("byte 0 for a scope", "10 3P\0", False), ("byte 255 first", "\xff10 3P1", False),
        ("byte 255 last", "10 3P1\xff", False), ("byte 255 alone", "\xff", False), ("byte 255 for the space", "10\xff3P1", False),
        ("byte 255 for a letter", "10 3\xff1", False), ("byte 255 for a scope", "10 3P\xff", False), ("a letter and 128", "10 3\xd01", False),
        ("a digit and 128", "10 3P\xb1", False), ("a scope met twice", "10 3P1P3", True), ("a step to its own scope", "10 3P3", True),
        ("the same step again", "10 3P1P1", True),
    ]:  # fmt: skip
        apart(title, row, due)
    for n in (1, 2, 9, 62, 63, 64, 65):
        apart("%d steps" % n, "10 3" + chain(n), n <= 63)
    apart("63 steps to one scope of one digit", "0 0" + "A0" * 63, True)
    apart("64 steps to one scope of one digit", "0 0" + "A0" * 64, False)
    apart("63 steps, the longest of all rows", "65535 63" + "Z63" * 63, True)
    apart("63 steps and a letter", "10 3" + chain(63) + "P", False)
    apart("63 steps and LF", "10 3" + chain(63) + "\n", False)
    # The longest row has 8 + 189 bytes, so a longer text is malformed in another way too; 8 either way.
    for n in (197, 198, 199):
        apart("%d bytes" % n, ("65535 63" + "Z63" * 63 + "Z6")[:n] if n > 197 else "65535 63" + "Z63" * 63, n == 197)
    for n in (255, 256, 257, 258, 512, 1000):
        apart("%d bytes of steps" % n, ("10 3" + "P10" * 400)[:n], False)
        apart("%d digits" % n, "1" * n, False)
        apart("a row and spaces, %d bytes" % n, "10 3P1" + " " * (n - 6), False)
        apart("a row and NUL, %d bytes" % n, "10 3P1" + "\0" * (n - 6), False)
    for row in ("10 3P1", "0 0", "65535 63Z63", "10 3" + chain(63), "65535 63" + "Z63" * 63):
        n = len(row)
        for room in sorted({0, 1, n - 2, n - 1, n, n + 1, n + 2, 256, 300, 400}):
            apart("%s.. of %d bytes in a buffer of %d" % (row[:11], n, room), row, True, room)
    for room in (5, 3, 2, 98304):
        apart("10 3P1 in a buffer of %d bytes" % room, "10 3P1", True, room)


def parts_cases():
    large = (1 << 64) - 1
    for title, due, mark, start, letters, scopes, count in [
        ("no steps", True, 10, 3, "", [], None), ("one step", True, 10, 3, "P", [1], None), ("two steps", True, 10, 3, "PI", [1, 4], None),
        ("all at their least", True, 0, 0, "A", [0], None), ("all at their most", True, 65535, 63, "Z" * 63, [63] * 63, None),
        ("a scope met twice", True, 10, 3, "PP", [3, 3], None), ("fewer steps than letters", True, 10, 3, "PIp", [1, 4, 64], 2),
        ("no steps, letters that are none", True, 10, 3, "p$", [64, 255], 0), ("63 steps of 80", True, 10, 3, "Q" * 80, range(80), 63),
        ("mark 65536", False, 65536, 3, "P", [1], None), ("mark 65536 without steps", False, 65536, 3, "", [], None), ("the largest mark", False, large, 3, "P", [1], None),
        ("mark 4294967306", False, (1 << 32) + 10, 3, "P", [1], None), ("start 64", False, 10, 64, "P", [1], None), ("start 64 without steps", False, 10, 64, "", [], None),
        ("start 256", False, 10, 256, "P", [1], None), ("start 4294967299", False, 10, (1 << 32) + 3, "P", [1], None), ("the largest start", False, 10, large, "P", [1], None),
        ("scope 64", False, 10, 3, "P", [64], None), ("scope 255", False, 10, 3, "P", [255], None), ("scope 64 in the middle", False, 10, 3, "PIP", [1, 64, 0], None),
        ("scope 64 at the end", False, 10, 3, "PIP", [1, 2, 64], None), ("a letter in lower case", False, 10, 3, "p", [1], None), ("letter $", False, 10, 3, "$", [1], None),
        ("letter @", False, 10, 3, "@", [1], None), ("letter [", False, 10, 3, "[", [1], None), ("letter 0", False, 10, 3, "0", [1], None), ("byte 0 for a letter", False, 10, 3, "\0", [1], None),
        ("byte 255 for a letter", False, 10, 3, "\xff", [1], None), ("a letter and 128", False, 10, 3, "\xd0", [1], None), ("LF for the last letter", False, 10, 3, "PI\n", [1, 2, 4], None),
        ("64 steps", False, 10, 3, "P" * 64, [1] * 64, None), ("65 steps", False, 10, 3, "P" * 65, [1] * 65, None), ("64 steps of 80", False, 10, 3, "P" * 80, [1] * 80, 64),
        ("one step more than letters", False, 10, 3, "P", [1, 4], 2), ("a step and no letters", False, 10, 3, "", [1], 1), ("a step and no scopes, which is scope 0", True, 10, 3, "P", [], 1),
        ("the second of two scopes missing", True, 10, 3, "PI", [1], 2), ("neither letters nor scopes", False, 10, 3, "", [], 1),
        ("more steps than any memory has", False, 10, 3, "P", [1], large), ("256 steps", False, 10, 3, "P" * 80, [1] * 80, 256),
        ("4294967297 steps", False, 10, 3, "P", [1], (1 << 32) + 1), ("all past their most", False, large, large, "p" * 64, [64] * 64, None),
    ]:  # fmt: skip
        parts(title, due, mark, start, letters, scopes, count)
        for room in (0, 400):
            parts("%s, a buffer of %d bytes" % (title, room), due, mark, start, letters, scopes, count, room)
    for room in range(9):
        parts("10 3P1 in a buffer of %d bytes" % room, True, 10, 3, "P", [1], None, room)
        parts("8 before 9, a buffer of %d bytes" % room, False, 10, 3, "p", [1], None, room)
    for room in (196, 197, 198):
        parts("the longest row in a buffer of %d bytes" % room, True, 65535, 63, "Z" * 63, [63] * 63, None, room)


def cases():
    form_cases()
    parts_cases()
