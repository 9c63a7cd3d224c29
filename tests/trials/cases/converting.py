"""Cases of files converted from one form to the other (02, K9)."""
from cases.case_file import Dice, after_each_file, case, sum_of
from cases.faults import FAULTS, faulty
from cases.gyms import EXAMPLE, FORMS, OLD_FORM, SMALLEST, WITH_KINDS, WORD, changed, kinded, kinds_text, largest, random_gym, realistic, refused_files
from cases.kinds import LETTERS, many_kinds, mixed
from cases.kinds_asked import BOTH, TWO
from reference.conversion import to_new, to_old
from reference.gym_file import DECLARED, KINDS, OLD, QUERY, TURNS, Refused, read

LETTER = {OLD: b"o", KINDS: b"k"}
WAY = {OLD: "to the old form", KINDS: "to the form with kinds"}


def converted(form, text):
    """The text in a form, or a refusal's number."""
    try:
        return to_old(text) if form == OLD else to_new(text)
    except Refused as r:
        return r.number


def put(form, title, text, room=None, due=None):
    """A text converted to a form. `due` is what the case is there for: the text that comes out, or a refusal's number."""
    out = converted(form, text)
    if room is None:
        room = len(out) + 9 if isinstance(out, bytes) else len(text) + 100
    if isinstance(out, bytes) and room < len(out):
        out = 9
    assert due is None or due == out, (title, due, out)
    if isinstance(out, int):
        answer = b"refused %d, all kept\n" % out
    else:
        # a column of zero turns does not come back
        back = b"as it was" if out == text else b"back the same" if converted(1 - form, out) == text else b"back ANOTHER"
        assert back != b"back ANOTHER" or read(text).form == TURNS, title
        answer = b"converted %d sum %d, rest kept, %s\n" % (len(out), sum_of(out), back)
    case(LETTER[form], title, answer, text, room=room)


def convert(form, title, text, room=None, due=None):
    put(form, "convert: %s, %s" % (title, WAY[form]), text, room, due)


def both_ways(title, g, room=lambda n: None, due=None):
    """A gym of the old form's rows in the old form and in that with kinds, each converted to both."""
    forms = [OLD_FORM, WITH_KINDS]
    texts = [f.text(g) for f in forms]
    for f, text in zip(forms, texts):
        for form, out in enumerate(texts):
            convert(form, f.title + title, text, room(len(out)), out if due is None else due)


def form_cases():
    for title, g in [
        ("the example", EXAMPLE), ("nine names lines and a count", SMALLEST), ("a gym of 27 scopes", realistic()), ("no declarations", changed(EXAMPLE, s6=[])),
        ("no queries", changed(EXAMPLE, s8=[])), ("neither declarations nor queries", changed(EXAMPLE, s6=[], s8=[])),
        ("names that are a kind's letter", changed(EXAMPLE, s6=["0 c 5", "1 v 10", "1 z 5"], s8=["2 v", "2 c", "2 z"])),
        ("names that stand in a names line", changed(EXAMPLE, s6=["0 kind 5", "1 seek 10", "1 start 5"], s8=["2 kind", "2 seek", "2 mark"])),
        ("names of sixteen bytes", changed(EXAMPLE, s6=["0 sixteen_letters_ 65535"], s8=["4 sixteen_letters_", "0 abcdefghijklmnop"])),
        ("the largest graph", largest()),
    ]:  # fmt: skip
        both_ways(title, g)


def room_cases():
    for title, g in [("the example", EXAMPLE), ("nine names lines and a count", SMALLEST), ("the largest graph", largest())]:
        both_ways(title + ", a buffer of its length", g, lambda n: n)
        both_ways(title + ", a byte less", g, lambda n: n - 1, 9)
        both_ways(title + ", no bytes", g, lambda n: 0, 9)
    for more in (1, 100, 65536):
        both_ways("the example, a buffer of %d bytes more" % more, EXAMPLE, lambda n: n + more)
    for less in (2, 12, 100):
        both_ways("the example, a buffer of %d bytes less" % less, EXAMPLE, lambda n: n - less, 9)


def kinds_at(g, kind, *places):
    """A gym of the old form's rows in the form with kinds, each kind `v` but at the places given, pairs of a section and a row's place in it."""
    new = WITH_KINDS.graph(g)
    for k, i in places:
        new[k][i] = kinded(k, g[k][i], kind)
    return kinds_text(new)


def lost(title, text):
    """A file that the old form cannot say; it is in the other form already."""
    convert(OLD, title, text, due=14)
    convert(KINDS, title, text, due=text)


def kind_cases():
    for k in (DECLARED, QUERY):
        for i in range(len(EXAMPLE[k])):
            lost("another kind in %s row %d alone" % (WORD[k], i), kinds_at(EXAMPLE, "c", (k, i)))
        for letter in LETTERS:
            text = kinds_at(EXAMPLE, letter, (k, -1))
            convert(OLD, "kind %s in the last %s row alone" % (letter, WORD[k]), text, due=OLD_FORM.text(EXAMPLE) if letter == "v" else 14)
        big = kinds_at(largest(), "w", (k, -1))
        lost("the largest graph, another kind in its last %s row alone" % WORD[k], big)
    lost("another kind in the only query, no declarations", kinds_text(changed(EXAMPLE, s6=[], s8=["2 c v"])))
    lost("another kind in the only declaration, no queries", kinds_text(changed(EXAMPLE, s6=["0 c v 5"], s8=[])))
    queries = ["2 v service", "2 v c", "2 v hours", "2 c v"]
    lost("a query of another kind that seeks the name v, behind others", kinds_text(changed(WITH_KINDS.graph(EXAMPLE), s8=queries)))
    lost("counters and limits", kinds_text(TWO))
    lost("0 c x 1 and 0 v x 1 together", kinds_text(BOTH))
    lost("the largest graph of many kinds", kinds_text(many_kinds()))


def of_kinds(text):
    """A text with kinds, whole or not, in which other kinds than `v` come."""
    first, last = text.find(b" v "), text.rfind(b" v ")
    at = lambda i: text[:i] + b" c " + text[i + 3 :]
    return [("in the first declaration", at(first)), ("in the last query", at(last)), ("everywhere", text.replace(b" v ", b" c "))]


def sequence_cases():
    """1 to 6, then 14, then 9."""
    for where, text in of_kinds(WITH_KINDS.text(EXAMPLE)):
        for room in (0, 1, len(text) - 1, len(text), len(OLD_FORM.text(EXAMPLE)) - 1, len(OLD_FORM.text(EXAMPLE))):
            convert(OLD, "another kind %s, a buffer of %d bytes" % (where, room), text, room, 14)
        convert(KINDS, "another kind %s, a byte less" % where, text, len(text) - 1, 9)
        convert(KINDS, "another kind %s, a buffer of its length" % where, text, len(text), text)
    for n, text in refused_files(WITH_KINDS).items():
        for where, t in of_kinds(text):
            for form in (OLD, KINDS):
                convert(form, "file refused %d, another kind %s" % (n, where), t, due=n)
                convert(form, "file refused %d, another kind %s, no bytes" % (n, where), t, 0, n)
    for k in range(9):
        for n in sorted(FAULTS[k]):
            for where, t in of_kinds(WITH_KINDS.text(faulty(EXAMPLE, k, n))):
                convert(OLD, "%d in %s, another kind %s" % (n, WORD[k], where), t, due=n)


def refused_cases():
    """1 to 6 of files in all forms, to the old one and that with kinds."""
    for form in (OLD, KINDS):
        for f in FORMS:
            for n, text in refused_files(f).items():
                convert(form, "%sfile refused %d" % (f.title, n), text, due=n)
                convert(form, "%sfile refused %d, no bytes" % (f.title, n), text, 0, n)
            for k in range(9):
                for n in sorted(FAULTS[k]):
                    convert(form, "%s%d in %s" % (f.title, n, WORD[k]), f.text(faulty(EXAMPLE, k, n)), due=n)
        for title, text, n in [
            ("empty text", b"", 2), ("one LF", b"\n", 2), ("32768 bytes in one line", b"1" * 32768, 2), ("32769 bytes in one line", b"1" * 32769, 1),
            ("declarations without kinds, queries with them", mixed(OLD, KINDS), 2), ("declarations with kinds, queries without", mixed(KINDS, OLD), 2),
        ]:  # fmt: skip
            convert(form, title, text, due=n)
            convert(form, title + ", no bytes", text, 0, n)


def random_cases():
    """Gyms whose every kind is `v`, and the same with one kind put in place, which may break their sequence."""
    dice = Dice(9)
    for n in range(60):
        text = random_gym(dice, 2 + dice.below(6), 9, "v")
        convert(OLD, "gym %d" % n, text)
        places = [i for i in range(len(text)) if text.startswith(b" v ", i)]
        i = dice.pick(places)
        convert(OLD, "gym %d with a kind put in place" % n, text[: i + 1] + dice.pick(LETTERS).encode() + text[i + 2 :])


def file_cases():
    """Every file of the cases above that is read, to the old form, or from it, and back."""
    seen = set()

    def other_form(title, text):
        if text in seen:
            return
        seen.add(text)
        try:
            form = read(text).form
        except Refused:
            return
        put(OLD if form else KINDS, title + ", converted", text)

    after_each_file(other_form)


def cases():
    file_cases()
    form_cases()
    room_cases()
    kind_cases()
    sequence_cases()
    refused_cases()
    random_cases()
