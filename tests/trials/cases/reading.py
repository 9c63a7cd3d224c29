"""Cases of gym files that are read, in all forms of file."""
from cases import file_calls
from cases.case_file import bytes_of
from cases.faults import BAD, FAULTS, faulty, full_sections, out_of_range, shown
from cases.file_calls import try_read
from cases.gyms import EXAMPLE, FORMS, SMALLEST, WORD, at_section, changed, largest
from reference.gym_file import ACCEPT, DECLARED, EDGE, LABEL, MOST, OLD, OPEN, ORDER, QUERY, SCOPES, STEP


def example_cases(f):
    reads = f.titled(file_calls.reads)
    text = f.text(EXAMPLE)
    n = len(try_read(text))
    reads("the example", text, due=0)
    reads("the example, a table of its length", text, room=n, due=0)
    reads("the example, a cell less", text, room=n - 1, due=9)
    reads("the example, a row less", text, room=n - 6, due=9)
    reads("the example, one cell", text, room=1, due=9)
    reads("the example, no cells", text, room=0, due=9)
    reads("the example, a long table", text, room=2000, due=0)
    reads("nine names lines and a count", f.text(SMALLEST), due=0)
    reads("nine names lines and a count, seven cells", f.text(SMALLEST), room=7, due=0)
    reads("nine names lines and a count, six cells", f.text(SMALLEST), room=6, due=9)
    reads("order fault, no cells: 6 before 9", f.text(changed(EXAMPLE, s1=["I I"])), room=0, due=6)
    reads("bad row, no cells: 2 before 9", f.with_last(QUERY, "x"), room=0, due=2)
    lines = text.split(b"\n")[:-1]
    for i in range(len(lines)):
        reads("the first %d lines" % i, b"".join(x + b"\n" for x in lines[:i]), due=0 if i > 28 else 2)
        if i % 4 == 3 or i > 28:
            reads("the first %d lines without the last LF" % i, b"\n".join(lines[:i]), due=2)
    reads("the example without its last LF", text[:-1], due=2)


def shape_cases(f):
    reads = f.titled(file_calls.reads)
    text = f.text(EXAMPLE)
    for title, t in [
        ("one LF", b"\n"), ("one letter", b"l"), ("label without LF", b"label"), ("a space", b" "), ("a row first", b"I\n" + text),
        ("LF first", b"\n" + text), ("LF last", text + b"\n"), ("a letter last", text + b"x"), ("a names line last", text + b"label\n"),
        ("the last names line again", text + f.names[QUERY] + b"\n"), ("NUL last", text + b"\0"), ("the example twice", text + text),
        ("a byte above 127 first", b"\xef" + text), ("a byte above 127 last", text + b"\xff"), ("CR LF", text.replace(b"\n", b"\r\n")),
        ("CR for LF", text.replace(b"\n", b"\r")), ("LF doubled", text.replace(b"\n", b"\n\n")),
    ]:  # fmt: skip
        reads("shape: " + title, t, due=2)
    example = f.graph(EXAMPLE)
    for k in f.sections:
        name = f.names[k]
        for title, put in [
            ("missing", None), ("doubled", name + b"\n" + name), ("with a space", name + b" "), ("after a space", b" " + name),
            ("with CR", name + b"\r"), ("cut", name[:-1]), ("longer", name + b"x"), ("capital", name.upper()),
            ("one byte changed", name[:-1] + bytes([name[-1] ^ 1])), ("a byte above 127", name[:-1] + bytes([name[-1] | 128])),
            ("with a NUL", name + b"\0"), ("the one after", f.names[(k + 1) % 9]),
        ]:  # fmt: skip
            t = b"".join((b"" if i == k and put is None else (put if i == k else f.names[i]) + b"\n") + b"".join(x + b"\n" for x in example[i]) for i in range(9))
            reads("names line %s %s" % (WORD[k], title), t, due=2)
        if k < 8:
            order = list(range(9))
            order[k], order[k + 1] = k + 1, k
            t = b"".join(f.names[i] + b"\n" + b"".join(x + b"\n" for x in example[i]) for i in order)
            reads("sections %s and %s in the other sequence" % (WORD[k], WORD[k + 1]), t, due=2)
            reads("rows of %s empty" % WORD[k], f.text(at_section(EXAMPLE, k, [])))
        t = f.text(EXAMPLE).replace(name + b"\n", name + b"\n\n", 1)
        reads("empty line after names line %s" % WORD[k], t, due=2)
    reads("rows of query empty", f.text(at_section(EXAMPLE, QUERY, [])), due=0)


def field_cases(f):
    reads = f.titled(file_calls.reads)
    for k in f.sections:
        fields = f.last_row(k).split(" ")
        row = f.last_row(k)
        for i, form in enumerate(f.fields[k]):
            for bad in BAD[form]:
                put = " ".join(fields[:i] + [bad] + fields[i + 1 :])
                reads("%s field %d is %s" % (WORD[k], i, shown(bad)), f.with_last(k, put), due=2)
            for out in out_of_range(f, k, i):
                put = " ".join(fields[:i] + [out] + fields[i + 1 :])
                reads("%s field %d is %s" % (WORD[k], i, out), f.with_last(k, put), due=3)
        for title, put in [
            ("a space after", row + " "), ("a space before", " " + row), ("a field more", row + " 1"), ("CR", row + "\r"),
            ("NUL", row + "\0"), ("a byte above 127", row + "\x80"), ("a tab before", "\t" + row), ("a names line's start", "la"),
        ]:  # fmt: skip
            reads("%s row: %s" % (WORD[k], title), f.with_last(k, put), due=2)
        if " " in row:
            reads("%s row: two spaces" % WORD[k], f.with_last(k, row.replace(" ", "  ", 1)), due=2)
            reads("%s row: a tab" % WORD[k], f.with_last(k, row.replace(" ", "\t", 1)), due=2)
            reads("%s row: a field less" % WORD[k], f.with_last(k, row.rsplit(" ", 1)[0]), due=2)
            reads("%s row: one field" % WORD[k], f.with_last(k, row.split(" ")[0]), due=2)
            reads("%s row: no space" % WORD[k], f.with_last(k, row.replace(" ", "", 1)), due=2)
    name16, name17 = "sixteen_letters_", "seventeen_letters"
    assert len(name16) == 16 and len(name17) == 17
    for mark, due in [("0", 0), ("1", 0), ("9999", 0), ("10000", 0), ("65535", 0), ("65536", 3), ("99999", 3), ("100000", 2), ("065535", 2)]:
        reads("mark %s" % mark, f.with_last(DECLARED, f.row(DECLARED, "4 hours " + mark)), due=due)
    for name, due in [(name16, 0), (name17, 2), ("a", 0), ("z", 0), ("a0", 0), ("a_", 0), ("z9z_", 0), ("abcdefg", 0), ("abcdefgh", 0), ("abcdefghi", 0)]:
        reads("declared name %s" % name, f.with_last(DECLARED, f.row(DECLARED, "4 %s 40" % name)), due=due)
        reads("sought name %s" % name, f.with_last(QUERY, f.row(QUERY, "2 " + name)), due=due)
    for n, due in [("1", 0), ("2", 0), ("63", 0), ("64", 0), ("65", 3), ("0", 3), ("99999", 3), ("100000", 2), ("00", 2), ("064", 2)]:
        reads("scopes %s" % n, f.text(at_section(SMALLEST, SCOPES, [n])), due=due)
    for n in (1, 2, 63, 64):
        g = at_section(EXAMPLE, SCOPES, [str(n)])
        g = changed(g, s5=[], s6=[], s7=[], s8=["%d x" % (n - 1)])
        reads("scopes %d, the last scope asked" % n, f.text(g), due=0)
        reads("scopes %d, one past the last asked" % n, f.text(at_section(g, QUERY, ["%d x" % n])), due=3)
    reads("no scopes row", f.text(at_section(EXAMPLE, SCOPES, [])), due=2)
    for second, due in [("5", 5), ("6", 5), ("0", 5), ("65", 5), ("99999", 5), ("05", 2), ("100000", 2), ("", 2), ("x", 2)]:
        reads("second scopes row %s" % shown(second), f.with_more(SCOPES, second), due=due)
    reads("state 15 everywhere", f.text(changed(EXAMPLE, s2=["0 I 15", "15 P 15"], s3=["15"])), due=0)
    reads("a self-edge", f.text(changed(EXAMPLE, s5=["1 P 1"])), due=0)
    reads("no labels, a step", f.text(changed(SMALLEST, s2=["0 I 0"])), due=3)
    reads("no labels, an end", f.text(changed(SMALLEST, s1=["$ I"])), due=3)
    reads("no labels, the end mark twice", f.text(changed(SMALLEST, s1=["$ $"])), due=6)
    reads("no labels, an open end mark", f.text(changed(SMALLEST, s7=["0 $"])), due=0)


def sequence_cases(f):
    """Rows that ascend, repeat or do not ascend, key by key."""
    reads = f.titled(file_calls.reads)
    twelve = changed(EXAMPLE, s4=["12"])
    turned = changed(EXAMPLE, s0=["P", "I"], s1=["$ P", "$ I", "P I"], s2=["0 P 1"], s5=["1 P 0"])
    for k in f.sections:
        due = 0 if k == QUERY else 5 if k == SCOPES else 4
        reads("%s row again" % WORD[k], f.with_more(k, f.last_row(k)), due=due)
        if k not in (LABEL, SCOPES, OPEN, QUERY):
            reads("%s rows turned" % WORD[k], f.text(at_section(EXAMPLE, k, EXAMPLE[k][::-1])), due=4)
    for base, k, rows, due in [
        (EXAMPLE, LABEL, ["I", "P", "I"], 4), (EXAMPLE, LABEL, ["I", "I"], 4), (EXAMPLE, LABEL, ["I", "P", "A"], 0),
        (EXAMPLE, LABEL, ["P", "I"], 4),
        (EXAMPLE, ORDER, ["I P", "$ P"], 4), (EXAMPLE, ORDER, ["$ P", "$ I"], 4), (EXAMPLE, ORDER, ["$ I", "$ I"], 4),
        (EXAMPLE, ORDER, ["P I"], 0), (EXAMPLE, ORDER, ["$ P", "I P"], 0), (EXAMPLE, ORDER, ["P $"], 0), (EXAMPLE, ORDER, ["P $", "I P"], 4),
        (turned, ORDER, ["$ P", "$ I", "P I"], 0), (turned, ORDER, ["$ I", "$ P", "P I"], 4), (turned, ORDER, ["I $", "P $"], 4),
        (EXAMPLE, STEP, ["0 I 1", "0 I 2"], 4), (EXAMPLE, STEP, ["0 P 1", "0 I 2"], 4), (EXAMPLE, STEP, ["1 I 0", "0 P 0"], 4),
        (EXAMPLE, STEP, ["0 I 9", "0 P 0", "1 I 0"], 0), (EXAMPLE, STEP, ["9 I 0", "10 I 0"], 0), (EXAMPLE, STEP, ["10 I 0", "9 I 0"], 4),
        (EXAMPLE, STEP, ["0 I 2", "0 I 1"], 4), (turned, STEP, ["0 P 0", "0 I 0"], 0), (turned, STEP, ["0 I 0", "0 P 0"], 4),
        (EXAMPLE, ACCEPT, ["1", "0"], 4), (EXAMPLE, ACCEPT, ["9", "10"], 0), (EXAMPLE, ACCEPT, ["10", "9"], 4), (EXAMPLE, ACCEPT, ["1", "15"], 0),
        (EXAMPLE, ACCEPT, ["0", "2", "1"], 4),
        (EXAMPLE, EDGE, ["1 P 1", "1 P 0"], 4), (EXAMPLE, EDGE, ["1 P 0", "1 I 4"], 4), (EXAMPLE, EDGE, ["1 I 4", "1 P 0"], 0),
        (EXAMPLE, EDGE, ["2 I 0", "1 P 4"], 4), (EXAMPLE, EDGE, ["1 P 0", "1 P 1"], 0), (twelve, EDGE, ["9 P 0", "10 P 0"], 0),
        (twelve, EDGE, ["10 P 0", "9 P 0"], 4), (twelve, EDGE, ["1 P 9", "1 P 10"], 0), (twelve, EDGE, ["1 P 10", "1 P 9"], 4),
        (turned, EDGE, ["1 P 4", "1 I 0"], 0), (turned, EDGE, ["1 I 0", "1 P 4"], 4),
        (EXAMPLE, DECLARED, ["0 a 2", "0 a 1"], 4), (EXAMPLE, DECLARED, ["0 a 1", "0 a 2"], 0), (EXAMPLE, DECLARED, ["0 a 9", "0 a 10"], 0),
        (EXAMPLE, DECLARED, ["0 a 10", "0 a 9"], 4), (EXAMPLE, DECLARED, ["0 ab 1", "0 a 2"], 4), (EXAMPLE, DECLARED, ["0 a 2", "0 ab 1"], 0),
        (EXAMPLE, DECLARED, ["0 a0 1", "0 a_ 1"], 0), (EXAMPLE, DECLARED, ["0 a_ 1", "0 a0 1"], 4), (EXAMPLE, DECLARED, ["0 a_ 1", "0 aa 1"], 0),
        (EXAMPLE, DECLARED, ["0 aa 1", "0 a_ 1"], 4), (EXAMPLE, DECLARED, ["0 b 1", "1 a 0"], 0), (EXAMPLE, DECLARED, ["1 a 0", "0 b 1"], 4),
        (EXAMPLE, DECLARED, ["0 b 0", "0 a 1"], 4), (EXAMPLE, DECLARED, ["0 abc 1", "0 b 0"], 0), (EXAMPLE, DECLARED, ["0 b 0", "0 abc 1"], 4),
        (EXAMPLE, DECLARED, ["0 abcdefgh 1", "0 abcdefgha 0"], 0), (EXAMPLE, DECLARED, ["0 abcdefgha 0", "0 abcdefgh 1"], 4),
        (EXAMPLE, DECLARED, ["0 abcdefghz 1", "0 abcdefgi 0"], 0), (EXAMPLE, DECLARED, ["0 abcdefgi 0", "0 abcdefghz 1"], 4),
        (EXAMPLE, DECLARED, ["0 abcdefghijklmnop 1", "0 abcdefghijklmnoq 0"], 0),
        (EXAMPLE, DECLARED, ["0 abcdefghijklmnoq 0", "0 abcdefghijklmnop 1"], 4),
        (EXAMPLE, DECLARED, ["0 abcdefghijklmno 1", "0 abcdefghijklmno0 0"], 0),
        (EXAMPLE, DECLARED, ["0 abcdefghijklmno0 0", "0 abcdefghijklmno 1"], 4),
        (EXAMPLE, OPEN, ["3 I", "3 $"], 4), (EXAMPLE, OPEN, ["3 $", "3 I", "3 P"], 0), (EXAMPLE, OPEN, ["3 P", "3 I"], 4),
        (EXAMPLE, OPEN, ["4 $", "3 P"], 4), (EXAMPLE, OPEN, ["3 P", "4 $"], 0), (twelve, OPEN, ["9 $", "10 $"], 0), (twelve, OPEN, ["10 $", "9 $"], 4),
        (turned, OPEN, ["3 P", "3 I"], 0), (turned, OPEN, ["3 I", "3 P"], 4),
        (EXAMPLE, QUERY, ["2 hours", "2 hours", "0 zz", "0 aa"], 0),
    ]:  # fmt: skip
        if k not in f.sections:
            continue
        which = "" if base is EXAMPLE else ", twelve scopes" if base is twelve else ", labels P I"
        reads("%s rows %s%s" % (WORD[k], " / ".join(rows), which), f.text(at_section(base, k, rows)), due=due)


def order_cases(f):
    reads = f.titled(file_calls.reads)
    four = changed(SMALLEST, s0=["A", "B", "C", "D"])
    for rows, due in [
        (["$ $"], 6), (["A A"], 6), (["A B", "B A"], 6), (["$ A", "A $"], 6), (["$ A", "A B"], 6), (["$ A", "$ B", "A B"], 0),
        (["A B", "B C"], 6), (["A B", "A C", "B C"], 0), (["A C", "B C"], 0), (["A B", "A C"], 0), (["A B", "C D"], 0),
        (["A B", "A C", "A D", "B C", "B D", "C D"], 0), (["A B", "A C", "A D", "B C", "C D"], 6), (["A B", "A C", "B C", "B D", "C D"], 6),
        (["A B", "B C", "C A"], 6), (["A B", "A C", "B A", "B C"], 6), (["B $", "A $"], 4), (["A $", "B $"], 0), (["$ D", "D A"], 6),
        (["D A", "D B"], 0), (["C B", "D C"], 6), (["C B", "D B", "D C"], 0), ([], 0),
        (["$ A", "$ B", "A B", "B B"], 6), (["A $", "A B", "A C", "$ C"], 4), (["$ C", "A $", "A B", "A C"], 0), (["$ C", "A $", "A B"], 6),
    ]:  # fmt: skip
        reads("pairs %s" % (" / ".join(rows) or "none"), f.text(changed(four, s1=rows)), due=due)


def two_fault_cases(f):
    reads = f.titled(file_calls.reads)
    for k in range(9):
        for n in sorted(FAULTS[k]):
            reads("%d in %s" % (n, WORD[k]), f.text(faulty(EXAMPLE, k, n)), due=n)
            for m in sorted(FAULTS[k]):
                if m != n and 5 not in (n, m):
                    reads("%d then %d in %s" % (n, m, WORD[k]), f.text(faulty(faulty(EXAMPLE, k, n), k, m)), due=n)
        for j in sorted({k + 1, QUERY} - {k, 9}):
            for n in sorted(FAULTS[k]):
                for m in sorted(FAULTS[j]):
                    if m != n:
                        t = f.text(faulty(faulty(EXAMPLE, k, n), j, m))
                        reads("%d in %s, then %d in %s" % (n, WORD[k], m, WORD[j]), t, due=n)
    bad_order = changed(EXAMPLE, s1=["$ I", "I P"])
    reads("6 alone", f.text(bad_order), due=6)
    for k in range(STEP, 9):
        for n in sorted(FAULTS[k]):
            reads("6, and %d in %s" % (n, WORD[k]), f.text(faulty(bad_order, k, n)), due=n)
    reads("6, and 4 in order", f.text(at_section(bad_order, ORDER, ["$ I", "I P", "I P"])), due=4)
    reads("6, and 3 in order", f.text(at_section(bad_order, ORDER, ["$ I", "I P", "P Z"])), due=3)
    reads("6, and no last LF", f.text(bad_order)[:-1], due=2)
    reads("6, and no scopes row", f.text(at_section(bad_order, SCOPES, [])), due=2)
    reads("6, and the last names line missing", f.text(at_section(bad_order, QUERY, [])).replace(f.names[QUERY] + b"\n", b""), due=2)
    reads("3, and no last LF", f.text(faulty(EXAMPLE, OPEN, 3))[:-1], due=3)
    reads("3 on the last line, and no last LF", f.text(faulty(EXAMPLE, QUERY, 3))[:-1], due=2)
    reads("4, and no scopes row", f.text(at_section(faulty(EXAMPLE, ACCEPT, 4), SCOPES, [])), due=4)
    reads("no scopes row, and 3 in edge", f.text(at_section(faulty(EXAMPLE, EDGE, 3), SCOPES, [])), due=2)
    # two faults on one line: the tests go 2, 5, 3, 4 whatever the fields' sequence
    for k in f.sections:
        fields = f.last_row(k).split(" ")
        for i, form in enumerate(f.fields[k]):
            for j in range(len(fields)):
                if i != j and out_of_range(f, k, j):
                    put = list(fields)
                    put[i], put[j] = BAD[form][1], out_of_range(f, k, j)[0]
                    reads("%s row %s: 2 and 3" % (WORD[k], " ".join(put)), f.with_last(k, " ".join(put)), due=2)
    for k, row, title, due in [
        (LABEL, "I ", "2 and 4", 2), (ORDER, "$ z", "2 and 4", 2), (ORDER, "$ Z", "3 and 4", 3), (ORDER, "Z $", "3 (and 4)", 3),
        (STEP, "0 I 01", "2 and 4", 2), (STEP, "0 Z 0", "3 and 4", 3), (STEP, "0 I 16", "3 and 4", 3), (ACCEPT, "00", "2 and 4", 2),
        (EDGE, "0 P  0", "2 and 4", 2), (EDGE, "0 Z 0", "3 and 4", 3), (EDGE, "0 P 5", "3 and 4", 3), (DECLARED, "0 hours 05", "2 and 4", 2),
        (DECLARED, "0 hours 65536", "3 and 4", 3), (OPEN, "0 z", "2 and 4", 2), (OPEN, "0 Z", "3 and 4", 3), (QUERY, "9 Hours", "2 and 3", 2),
        (SCOPES, "65", "3 and 5", 5), (SCOPES, "065", "2 and 5", 2), (ORDER, "Z Z", "3, equal ends", 3), (ORDER, "$ $", "4, equal ends", 4),
        (ORDER, "P P", "equal ends", 6),
    ]:  # fmt: skip
        reads("%s row %s more: %s" % (WORD[k], shown(row), title), f.with_more(k, f.row(k, row)), due=due)


def limit_cases(f):
    reads = f.titled(file_calls.reads)
    for k, (g, more) in full_sections().items():
        if k not in f.sections:
            continue
        assert len(g[k]) == MOST[k]
        text = f.text(g)
        n = len(try_read(text))
        reads("%s full" % WORD[k], text, room=n, due=0)
        reads("%s one less than full" % WORD[k], f.text(at_section(g, k, g[k][:-1])), due=2 if k == SCOPES else 0)
        for title, row in more.items():
            if row is None:
                reads("%s one more than full: %s" % (WORD[k], title), f.text(at_section(g, k, g[k] + [b"0 a"]))[:-1], due=2)
                continue
            due = 2 if title == "malformed" else 5
            reads("%s one more than full: %s" % (WORD[k], title), f.text(at_section(g, k, g[k] + [bytes_of(row)])), due=due)
        name, rows = f.names[k] + b"\n", b"".join(x + b"\n" for x in f.graph(g)[k])
        twice = text.replace(name, b"", 1).replace(rows, name + rows + name, 1)
        reads("%s full, then its names line again" % WORD[k], twice, due=2)
    text = f.text(largest())
    n = len(try_read(text))
    assert n == 1 + 6 * sum(MOST) and len(text) < (27000, 29000, 30000)[f.number]
    reads("the largest graph", text, room=n, due=0)
    reads("the largest graph, a cell less", text, room=n - 1, due=9)
    reads("the largest graph, order broken", text.replace(b"U I\n", b"I I\n", 1), room=n, due=6)


def size_cases(f):
    reads = f.titled(file_calls.reads)
    text = f.text(EXAMPLE)
    pad = lambda t, n: t + ((f.row(QUERY, "2 hours") + b"\n") * 4096)[: n - len(t)]
    bad = f.text(changed(EXAMPLE, s0=["I", "I"]))
    reads("32768 bytes, queries past their limit", pad(text, 32768), due=5)
    reads("32769 bytes, queries past their limit", pad(text, 32769), due=1)
    reads("32768 bytes, a repeated label", pad(bad, 32768), due=4)
    reads("32769 bytes, a repeated label, no cells lent", pad(bad, 32769), room=0, due=1)
    reads("32768 bytes in one line", b"1" * 32768, room=12, due=2)
    reads("empty text", b"", room=12, due=2)
    reads("empty text, no cells lent", b"", room=0, due=2)


def cases():
    for f in FORMS:
        example_cases(f)
        shape_cases(f)
        field_cases(f)
        sequence_cases(f)
        if f.number == OLD:
            order_cases(f)
        two_fault_cases(f)
        limit_cases(f)
        size_cases(f)
