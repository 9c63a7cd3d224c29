"""Cases of files with the path rules of an expression (02, K6)."""
import itertools
import re

from cases.case_file import Dice, bytes_of, case
from cases.faults import shown
from cases.gyms import EXAMPLE, FORMS, OLD_FORM, SMALLEST, changed, largest, realistic, refused_files, turns_text
from cases.listing import shown as put_out
from cases.turns import many_turns
from reference.gym_file import ACCEPT, STEP, Refused, read
from reference.path_rules import ruled, table


def answered(text, expression):
    try:
        return ruled(text, expression)
    except Refused as r:
        return r.number


def tried(letters, expression):
    """The reference's own table, on words of the letters that occur, and on words of these and one that is listed and does not occur: it accepts exactly
    what Python's `re` matches, which takes no star behind a star."""
    rows, accepts = table(expression, letters)
    next_ = {(q, letter): to for q, letter, to in rows}
    pattern = re.compile(re.sub(rb"\*+", b"*", expression))
    used = [letter for letter in letters if letter in expression]
    other = [letter for letter in letters if letter not in expression][:1]
    for some in (used, used + other) if other else (used,):
        for n in range({1: 8, 2: 5, 3: 3}.get(len(some), 2) + 1):
            for word in itertools.product(some, repeat=n):
                q = 0
                for letter in word:
                    q = next_.get((q, letter))
                assert (q in accepts) == bool(pattern.fullmatch(b"".join(word))), (letters, expression, word)


def counted(g):
    """How many states, transitions and accepting states a graph has."""
    steps, accepts = g.rows[STEP], g.rows[ACCEPT]
    return len({q for row in steps for q in (row[0], row[2])} | {row[0] for row in accepts}), len(steps), len(accepts)


def rules(title, text, expression, due=None, room=None):
    """A file with the rules of an expression. `due` is what the case is there for: the file, a refusal's number, or 0 for none; or how many states,
    transitions and accepting states the file has."""
    expression = bytes_of(expression)
    out = answered(text, expression)
    if room is None:
        room = len(out) + 9 if isinstance(out, bytes) else len(text) + 300
    number = 9 if isinstance(out, bytes) and room < len(out) else out
    if isinstance(due, int):
        assert due == (number if isinstance(number, int) else 0), (title, due, number)
    elif isinstance(due, tuple):
        assert due == counted(read(out)), (title, due, out)
    elif due is not None:
        assert due == out, (title, due, out)
    if isinstance(out, bytes):
        g = read(out)
        assert g.form == read(text).form
        tried(g.labels(), expression)
    case(b"x", "rules: " + title, put_out(b"ruled", out, room), text, expression, room=room)


def with_rules(g, steps, accepts, f=OLD_FORM):
    return f.text(changed(g, s2=steps, s3=accepts))


def given_cases():
    text = OLD_FORM.text(EXAMPLE)
    rules("P*I* gives the example's own rows", text, "P*I*", text)
    rules("P*I* in place of other rows", with_rules(EXAMPLE, [], []), "P*I*", text)
    rules("P*I* in place of more rows", with_rules(EXAMPLE, ["%d %s 15" % (q, l) for q in range(16) for l in "IP"], [str(q) for q in range(16)]), "P*I*", text)
    turned = changed(EXAMPLE, s0=["P", "I"], s1=["$ P"], s2=["0 P 1"], s5=["1 P 0"])
    rules("labels P I: numbered by their place", OLD_FORM.text(turned), "P*I*", with_rules(turned, ["0 P 0", "0 I 1", "1 I 1"], ["0", "1"]))
    # over I P their states have other numbers, as below
    for expression, steps, accepts in [("PI|IP", ["0 P 1", "0 I 2", "1 I 3", "2 P 3"], ["3"]), ("P*|I", ["0 P 1", "0 I 2", "1 P 1"], ["0", "1", "2"])]:
        rules("labels P I, %s: states numbered by the labels' places" % expression, OLD_FORM.text(turned), expression, with_rules(turned, steps, accepts))
    for expression, steps, accepts in [
        ("P**", ["0 P 0"], ["0"]), ("P*", ["0 P 0"], ["0"]), ("((P))", ["0 P 1"], ["1"]), ("P", ["0 P 1"], ["1"]), ("(P|I)*", ["0 I 0", "0 P 0"], ["0"]),
        ("P|I", ["0 I 1", "0 P 1"], ["1"]), ("PI", ["0 P 1", "1 I 2"], ["2"]), ("IP", ["0 I 1", "1 P 2"], ["2"]), ("P|PP", ["0 P 1", "1 P 2"], ["1", "2"]), ("PP*", ["0 P 1", "1 P 1"], ["1"]),
        ("P*P", ["0 P 1", "1 P 1"], ["1"]), ("P*P*", ["0 P 0"], ["0"]), ("(PP)*", ["0 P 1", "1 P 0"], ["0"]), ("(P*I*)*", ["0 I 0", "0 P 0"], ["0"]), ("P*|I", ["0 I 1", "0 P 2", "2 P 2"], ["0", "1", "2"]),
        ("P|P", ["0 P 1"], ["1"]), ("PI|II", ["0 I 1", "0 P 1", "1 I 2"], ["2"]), ("(P|I)(P|I)", ["0 I 1", "0 P 1", "1 I 2", "1 P 2"], ["2"]), ("PI|IP", ["0 I 1", "0 P 2", "1 P 3", "2 I 3"], ["3"]),
        ("(PI)*", ["0 P 1", "1 I 0"], ["0"]), ("PI*", ["0 P 1", "1 I 1"], ["1"]), ("P|I*", ["0 I 1", "0 P 2", "1 I 1"], ["0", "1", "2"]), ("(P|I*)*", ["0 I 0", "0 P 0"], ["0"]),
        ("((P*)*I)*", ["0 I 0", "0 P 1", "1 I 0", "1 P 1"], ["0"]),
    ]:  # fmt: skip
        rules("%s over the example" % expression, text, expression, with_rules(EXAMPLE, steps, accepts))
    for f in FORMS:
        own = f.text(EXAMPLE)
        rules("%sP*I* over the whole example" % f.title, own, "P*I*", own)
        rules("%sP* over the whole example" % f.title, own, "P*", with_rules(EXAMPLE, ["0 P 0"], ["0"], f))
        rules("%sP* over a gym of 27 scopes" % f.title, f.text(realistic()), "P*", with_rules(realistic(), ["0 P 0"], ["0"], f))
    many = turns_text(many_turns())
    rules("the largest file of many kinds and turns", many, "(Q|W|E|R|T|Y|U|I)*", 0)
    for expression in ("P", "", "()", "P*", "Z"):
        rules("a file without labels, %s" % (expression or "nothing"), OLD_FORM.text(SMALLEST), expression, 12)


def refused_cases():
    text = OLD_FORM.text(EXAMPLE)
    for expression in [
        "", "()", "|P", "P|", "P||I", "P|*", "*P", "(*P)", "P)", "(P", "(", ")", "|", "*", "**", "P()", "()P", "()*", "(P|)", "(|P)", "P|()", "((P)", "(P))", ")P(", "P(|)I", " ", " P", "P ", "P I",
        "P\n", "\n", "P\0", "\x80", "P\xff", "Z", "PZ", "PZI", "p", "Pi", "P+", "P?", "P.", "$", "P$", "P1", "1", "PI,", "[PI]", "P{2}", "P**|*", "(P*|*)",
    ]:  # fmt: skip
        rules("<%s> is no expression" % shown(expression), text, expression, 12)
    for title, expression, due in [
        ("ten letters", "P" * 10, 0), ("eleven letters", "P" * 11, 12), ("ten letters of two labels", "PIPIPIPIPI", 0), ("eleven letters of two labels", "PIPIPIPIPIP", 12),
        ("ten letters in 64 bytes", "(" * 27 + "P" * 10 + ")" * 27, 0), ("ten letters in 65 bytes", "(" * 27 + "P" * 10 + "*" + ")" * 27, 12),
        ("eleven letters in 64 bytes", "(" * 26 + "P" * 11 + "*" + ")" * 26, 12), ("one letter and 63 stars", "P" + "*" * 63, 0), ("one letter and 64 stars", "P" + "*" * 64, 12),
        ("31 brackets about a star", "(" * 31 + "P*" + ")" * 31, 0), ("31 brackets about two stars", "(" * 31 + "P**" + ")" * 31, 12), ("32 brackets", "(" * 32 + "P" + ")" * 31, 12),
        ("66 bytes", "P" * 66, 12), ("4000 bytes", "P*" * 2000, 12), ("ten letters, each starred", "P*I*" * 5, 0), ("ten sides", "P|I" + "|P" * 8, 0), ("eleven sides", "P|I" + "|P" * 9, 12),
    ]:  # fmt: skip
        rules(title, text, expression, due)
    # what the last four letters were decides: 16 states, two ways from each, half of them accepting
    rules("16 states", text, "(P|I)*P(P|I)(P|I)(P|I)", (16, 32, 8))
    rules("16 states and one letter more", text, "(P|I)*P(P|I)(P|I)(P|I)P", 13)
    rules("16 states by the other label", text, "(P|I)*I(P|I)(P|I)(P|I)", (16, 32, 8))
    rules("16 states, the other label behind", text, "(P|I)*P(P|I)(P|I)(P|I)I", 13)
    # two states before a round of 15, as P is a word and P 16 times over is none
    rules("17 states of one label", text, "P|(PPP)*|(PPPPP)*", 13)
    for title, expression in [
        ("eleven letters", "(P|I)*P(P|I)(P|I)(P|I)(P|I)"), ("a letter not listed", "(P|I)*P(P|I)(P|I)(P|I)Z"), ("a bracket more", "(P|I)*P(P|I)(P|I)(P|I)P)"),
        ("65 bytes", "(P|I)" + "*" * 43 + "P(P|I)(P|I)(P|I)P"),
    ]:  # fmt: skip
        rules("12 before 13, %s" % title, text, expression, 12)
    for room in (0, 1, 100):
        rules("13 before 9, %d bytes" % room, text, "(P|I)*P(P|I)(P|I)(P|I)P", 13, room)
        rules("12 before 9, %d bytes" % room, text, "P(", 12, room)
        rules("9, %d bytes" % room, text, "P*I*", 9, room)
    for expression in ("P*I*", "P", "(P|I)*P(P|I)(P|I)(P|I)"):
        n = len(answered(text, expression.encode()))
        rules("%s, a buffer of its length" % expression, text, expression, 0, n)
        rules("%s, a byte less" % expression, text, expression, 9, n - 1)
        rules("%s, a long buffer" % expression, text, expression, 0, 65536)
    for f in FORMS:
        for number, t in refused_files(f).items():
            for expression in ("P*I*", "", "(P|I)*P(P|I)(P|I)(P|I)P"):
                rules("%sfile refused %d, %s" % (f.title, number, expression or "nothing"), t, expression, number)
            rules("%sfile refused %d, no bytes" % (f.title, number), t, "P(", number, 0)
    for t in (b"", b"\n", b"label\n", text[:-1], text + b"\n", b"1" * 32768):
        rules("text of %d bytes" % len(t), t, "P", 2)


def label_cases():
    """Eight labels, those that are listed and those that are not."""
    big = OLD_FORM.text(largest())
    for expression, due in [
        ("Q|W|E|R|T|Y|U|I", 0), ("(Q|W|E|R|T|Y|U|I)*", 0), ("QWERTYUI", 0), ("IUYTREWQ", 0), ("(QW|ER)*(TY|UI)*", 0), ("QWERTYUIQW", 0), ("QWERTYUIQWE", 12), ("A", 12), ("QA", 12), ("I*U*Y*T*R*E*W*Q*", 0),
        ("(Q|W)*Q(Q|W)(Q|W)(Q|W)", (16, 32, 8)), ("(QWERTYUIQW)*", 0),
    ]:  # fmt: skip
        rules("%s over the largest graph" % expression, big, expression, due)
    rules("17 states, 16 and the one behind E", big, "(Q|W)*Q(Q|W)(Q|W)(Q|W)E", 13)
    one = OLD_FORM.text(changed(SMALLEST, s0=["P"]))
    for n in range(1, 10):
        rules("P %d times over, a star about all" % n, one, "(" + "P" * n + ")*", 0)
    for expression, due in [("(PPPP)*(PPPPP)*", 0), ("(P*P*P*P*P*P*P*P*P*P*)*", 0), ("(PP|PPP|PPPPP)*", 0), ("(PPP|PPPPPPP)*", 0), ("PPPPPPPPPP", 0), ("I", 12)]:
        rules("%s over one label" % expression, one, expression, due)


def drawn(dice, letters, depth):
    def item(depth):
        part = "(" + side(depth - 1) + ")" if depth and dice.below(5) < 2 else dice.pick(letters)
        return part + "*" * dice.pick([0, 0, 0, 1, 1, 2])

    def side(depth):
        sequence = lambda: "".join(item(depth) for _ in range(dice.pick([1, 1, 2, 2, 3])))
        return "|".join(sequence() for _ in range(dice.pick([1, 1, 2, 3])))

    return side(depth)


def random_cases():
    dice = Dice(6)
    n = 0
    while n < 400:
        f = FORMS[n % 3]
        text = f.random(dice, 2 + dice.below(4), 6)
        letters = [x.decode() for x in read(text).labels()]
        expression = drawn(dice, letters, dice.below(4))
        if dice.below(5) == 0:
            i = dice.below(len(expression) + 1)
            expression = expression[:i] + dice.pick(["(", ")", "*", "|", "P", "Z", " "]) + expression[i + dice.below(2) :]
        if len(expression) > 80 or (sum(c.isalpha() for c in expression) > 10 and dice.below(8)):
            continue
        rules("drawn expression %d" % n, text, expression)
        n += 1


def cases():
    given_cases()
    refused_cases()
    label_cases()
    random_cases()
