"""Cases of a text's next line, from a place on."""
from cases.case_file import case
from cases.file_calls import TOP
from cases.gyms import EXAMPLE, text_of
from reference.lines import line_from


def lines(title, text, at, due=None):
    line = line_from(text, at)
    answer = b"line %d next %d\n" % line if line else b"no line\n"
    assert due is None or due == line, title
    case(b"z", "line: " + title, answer, text, number=at)


def each(title, text):
    """From every place of a text, from its end, and from past it."""
    for at in range(len(text) + 3):
        lines("%s, from %d" % (title, at), text, at)


def cases():
    for at in (0, 1, 2, TOP):
        assert line_from(b"", at) is None
        lines("no text, from %d" % at, b"", at)
    lines("LF first", b"\nscopes\n", 0, due=(0, 1))
    lines("LF alone", b"\n", 0, due=(0, 1))
    lines("after LF alone", b"\n", 1)
    lines("no LF", b"scopes", 0)
    lines("no LF after the last line", b"scopes\n5", 7)
    lines("an empty line between two", b"a\n\nb\n", 2, due=(2, 3))
    each("two lines", b"ab\nc\n")
    each("bytes that are no LF", b"\x00\r\x09\x0b\x8a\xff \n\r")
    text = text_of(EXAMPLE)
    at = 0
    while at < len(text):
        stop = text.index(b"\n", at)
        lines("of the example, from %d" % at, text, at, due=(stop, stop + 1))
        at = stop + 1
    lines("after the example's last one", text, len(text))
    long = b"a" * 40000
    lines("a long one", long + b"\n", 0, due=(40000, 40001))
    lines("a long one, from its LF", long + b"\n", 40000, due=(40000, 40001))
    lines("40000 bytes without LF", long, 0)
    for at in (len(text) + 1, 1 << 32, (1 << 63) + 1, TOP):
        lines("of the example, from %d" % at, text, at)
