"""Cases of the name that a query seeks, in all forms of file."""
from cases import file_calls
from cases.faults import faulty
from cases.file_calls import TOP
from cases.gyms import EXAMPLE, FORMS, SMALLEST, at_section, changed, largest
from reference.gym_file import OPEN, QUERY, SCOPES


def form_cases(f):
    seeks = f.titled(file_calls.seeks)
    text = f.text(EXAMPLE)
    for q, due in [(0, b"service"), (1, b"service"), (2, b"hours"), (3, b""), (4, b""), (1 << 32, b""), (TOP, b"")]:
        seeks("name of query %d" % q, text, q, due)
    for q in (0, 1):
        seeks("name of query %d of none" % q, f.text(SMALLEST), q, b"")
        for title, t in [
            ("empty text", b""), ("no last LF", text[:-1]), ("3", f.text(faulty(EXAMPLE, QUERY, 3))), ("4", f.text(faulty(EXAMPLE, OPEN, 4))),
            ("5", f.with_more(SCOPES, "5")), ("6", f.text(changed(EXAMPLE, s1=["I I"]))), ("2", text + b"\n"),
        ]:  # fmt: skip
            seeks("name of query %d, file refused: %s" % (q, title), t, q, b"")
    seeks("name of query 0, file refused: 1", text + (f.row(QUERY, "2 hours") + b"\n") * 4096, 0, b"")
    for name in (b"a", b"abcdefgh", b"abcdefghijklmnop", b"z9_"):
        seeks("name of query 0, " + name.decode(), f.text(at_section(EXAMPLE, QUERY, ["0 " + name.decode()])), 0, name)
    big = largest()
    for q, due in [(255, True), (256, False)]:
        seeks("name of query %d of the largest graph" % q, f.text(big), q, big[QUERY][q].split()[1] if due else b"")


def cases():
    for f in FORMS:
        form_cases(f)
