"""Cases of which texts are drawings that a file takes (02, K14): blanks, tokens, statements, comments, numbers and letters. All else is 18."""
from cases.case_file import bytes_of
from cases.drawing import drawing, takes, tokens
from cases.faults import BAD_NUMBER, shown as spelled
from cases.gyms import EXAMPLE, OLD_FORM, SMALLEST, TURNS_OF_0, WITH_KINDS, WITH_TURNS, changed
from reference.drawing import DROPPED

# two scopes and two edges, for what is tried at every token
PAIR = changed(EXAMPLE, s4=["2"], s5=["0 P 1", "1 I 0"], s6=["0 hours 5"], s7=[], s8=["1 hours"])
PAIR_DRAWN = drawing(range(2), ["0 P 1", "1 I 0"])


def spaced(parts, i=None, blank=b""):
    """Tokens without a blank between them but the one that must stand between the two words at the top, and `blank` before token i."""
    before = [b" " if n == 1 else b"" for n in range(len(parts) + 1)]
    if i is not None:
        before[i] = blank
    return b"".join(b + token for b, token in zip(before, [*parts, b""]))


def blank_cases():
    """Blanks between all tokens, none, and at each place each kind of blank or what is none. A blank may not stand in a token."""
    text = OLD_FORM.text(PAIR)
    parts = tokens(PAIR_DRAWN)
    takes("no blanks but one", text, spaced(parts), text)
    takes("no blanks at all", text, b"".join(parts), 18)
    for blank in (b" ", b"\t", b"\n", b"  ", b"\t\t", b"\n\n", b" \t\n", b"\n\t "):
        takes("%s between all tokens" % spelled(blank.decode()), text, blank.join(parts), text)
        takes("%s about all tokens" % spelled(blank.decode()), text, blank + blank.join(parts) + blank, text)
    takes("`digraph scopes{`", text, PAIR_DRAWN.replace(b" {", b"{"), text)
    takes("no last LF", text, PAIR_DRAWN[:-1], text)
    takes("LFs behind the last", text, PAIR_DRAWN + b"\n\n\n", text)
    takes("blanks before the first word", text, b" \n\t" + PAIR_DRAWN, text)
    for i in range(len(parts) + 1):
        for blank in (" ", "\t", "\n", "\n \t"):
            takes("%s before token %d alone" % (spelled(blank), i), text, spaced(parts, i, bytes_of(blank)), text)
        for other in ("\r", "\r\n", "\v", "\f", "\0", "\x85", "\xa0", "/", ",", "#", "\\", ";", "//\n", "/**/"):
            takes("%s before token %d" % (spelled(other), i), text, b" ".join(parts[:i]) + b" " + bytes_of(other) + b" " + b" ".join(parts[i:]), 18)
    for i, token in enumerate(parts):
        for at in range(1, len(token)):
            for blank in (" ", "\n"):
                takes("token %d parted at %d by %s" % (i, at, spelled(blank)), text, b" ".join(parts[:i] + [token[:at] + bytes_of(blank) + token[at:]] + parts[i + 1 :]), 18)
    takes("CR before each LF", text, PAIR_DRAWN.replace(b"\n", b"\r\n"), 18)
    takes("blanks of %d bytes" % 60000, text, PAIR_DRAWN.replace(b"}", b" \t\n" * 20000 + b"}"), text)
    takes("blanks of %d bytes, then another sign" % 60000, text, PAIR_DRAWN.replace(b"}", b" \t\n" * 20000 + b"]"), 18)


def token_cases():
    """Each token left out, said twice, before the one before it, or another in its place."""
    text = OLD_FORM.text(PAIR)
    parts = tokens(PAIR_DRAWN)
    put = lambda title, new, due=18: takes(title, text, b" ".join(new), due)
    for i, token in enumerate(parts):
        put("token %d left out" % i, parts[:i] + parts[i + 1 :])
        put("token %d twice" % i, parts[:i] + [token] + parts[i:])
        if i and parts[i - 1] != token:
            put("token %d before the one before" % i, parts[: i - 1] + [token, parts[i - 1]] + parts[i + 1 :])
        put("nothing from token %d on" % i, parts[:i])
        for other in (b"{", b"}", b"[", b"]", b";", b"=", b"->", b'"P"', b"7", b"scopes", b"$"):
            if other != token and not (token.isdigit() and other.isdigit()) and not (token[:1] == other[:1] == b'"'):
                put("%s in place of token %d" % (other.decode(), i), parts[:i] + [other] + parts[i + 1 :])
    for title, old, news in [
        ("digraph", b"digraph", ["Digraph", "DIGRAPH", "graph", "digrap", "digraphs", "digraphdigraph", "strict digraph", '"digraph"', "digraph_", "digraph digraph"]),
        ("scopes", b"scopes", ["Scopes", "scope", "scopess", "", '"scopes"', "scopes scopes", "G", "scopes_", "scopes1"]),
        ("label", b"label", ["Label", "labe", "labels", '"label"', "", "color", "xlabel", "label1"]),
        ("->", b"->", ["- >", "--", "-", ">", "->>", "-->", "<-", "→", "=>"]),
        ("[", b"[", ["(", "[[", "{"]), ("]", b"]", [")", "]]", ",]", ";]", "][color=red]", ",color=red]"]), ("=", b"=", ["==", ":", ""]), ("{", b"{", ["(", "{{", "{{}", "{ node [shape=box];"]),
        (";", b";", [";;", ",", ":", ""]), ("}", b"}", ["}}", "}{}", "} digraph scopes {}", "};", "} }", "}x", "}0", "}\0"]),
    ]:  # fmt: skip
        for new in news:
            new = bytes_of(new.encode("utf-8") if new == "→" else new)
            for where, at in (("first", PAIR_DRAWN.find(old)), ("last", PAIR_DRAWN.rfind(old))):
                if where == "first" or at != PAIR_DRAWN.find(old):
                    takes("<%s> in place of the %s %s" % (spelled(new.decode("latin-1")), where, title), text, PAIR_DRAWN[:at] + new + PAIR_DRAWN[at + len(old) :], 18)
    # text behind the last sign
    for behind in ("x", "0", "0;", "}", "{", ";", "\r", "\r\n", "\0", "//", "// turns dropped\n", "digraph scopes {}", '1 -> 0 [label="I"];'):
        takes("%s behind the last line" % spelled(behind), text, PAIR_DRAWN + bytes_of(behind), 18)
    for title, drawn in [
        ("nothing", b""), ("a blank", b" "), ("an LF", b"\n"), ("the gym file itself", text), ("a word", b"digraph"), ("two words", b"digraph scopes"), ("a sign", b"{"), ("a zero byte", b"\0"),
        ("bytes past ASCII", b"\xff\xfe"), ("the comment alone", DROPPED), ("the comment without its LF", DROPPED[:-1]),
    ]:  # fmt: skip
        takes("%s as the drawing" % title, text, drawn, 18)
    takes("no statements", text, "digraph scopes {}", 19)
    takes("edges alone", text, drawing([], ["0 P 1", "1 I 0"]), 19)


def statement_cases():
    """What DOT has and the subset has not."""
    text = OLD_FORM.text(PAIR)
    edge = '0 -> 1 [label="P"];'
    for title, body in [
        ("a scope after an edge", "0; %s 1;" % edge), ("all scopes after the edge", "%s 0; 1;" % edge), ("a scope between two edges", '0; %s 1; 1 -> 0 [label="I"];' % edge), ("a scope twice, once after an edge", "0; 1; %s 1;" % edge),
        ("a scope without its sign", "0; 1 %s" % edge), ("an edge without its sign", "0; 1; " + edge[:-1]), ("an edge without a label", "0; 1; 0 -> 1;"), ("an edge with an empty list", "0; 1; 0 -> 1 [];"),
        ("an edge with another attribute", "0; 1; 0 -> 1 [color=red];"), ("an edge with two attributes", '0; 1; 0 -> 1 [label="P", color=red];'), ("an edge with its label twice", '0; 1; 0 -> 1 [label="P" label="P"];'),
        ("three scopes in a row", '0; 1; 0 -> 1 -> 0 [label="P"];'), ("an edge without direction", '0; 1; 0 -- 1 [label="P"];'), ("a scope with a label", '0 [label="P"]; 1;'), ("a scope with an empty list", "0 []; 1;"),
        ("an edge of a group", '0; 1; {0 1} -> 1 [label="P"];'), ("a subgraph", "subgraph x {0; 1;}"), ("an assignment", "rankdir=LR; 0; 1;"), ("node defaults", "node [shape=box]; 0; 1;"), ("a quoted scope", '"0"; 1;'),
        ("a port", '0; 1; 0:n -> 1 [label="P"];'), ("scopes parted by a comma", "0, 1;"), ("scopes without a sign", "0 1"), ("an empty statement", "0; ; 1;"), ("an empty statement at the end", "0; 1; %s ;" % edge),
        ("a group around all", "{0; 1;}"), ("an edge from nowhere", '0; 1; -> 1 [label="P"];'), ("an edge to nowhere", '0; 1; 0 -> [label="P"];'), ("the label before the edge", '0; 1; [label="P"] 0 -> 1;'),
        ("a label of two words", '0; 1; 0 -> 1 [label="P" + "I"];'), ("a label between angles", "0; 1; 0 -> 1 [label=<P>];"), ("a number as label", "0; 1; 0 -> 1 [label=1];"),
    ]:  # fmt: skip
        takes(title, text, "digraph scopes {%s}" % body, 18)


def comment_cases():
    text = OLD_FORM.text(PAIR)
    for f in (OLD_FORM, WITH_KINDS, WITH_TURNS, TURNS_OF_0):
        takes(f.title + "the comment first", f.text(PAIR), DROPPED + PAIR_DRAWN, (TURNS_OF_0 if f is WITH_TURNS else f).text(PAIR))
        takes(f.title + "the comment not there", f.text(PAIR), PAIR_DRAWN, (TURNS_OF_0 if f is WITH_TURNS else f).text(PAIR))
    takes("the comment, then blanks", text, DROPPED + b" \n\t" + PAIR_DRAWN, text)
    takes("the comment, no blanks but one", text, DROPPED + spaced(tokens(PAIR_DRAWN)), text)
    for title, drawn in [
        ("the comment twice", DROPPED + DROPPED + PAIR_DRAWN), ("the comment behind a blank", b" " + DROPPED + PAIR_DRAWN), ("the comment behind an LF", b"\n" + DROPPED + PAIR_DRAWN), ("the comment last", PAIR_DRAWN + DROPPED),
        ("the comment behind the opening", PAIR_DRAWN.replace(b"{\n", b"{\n" + DROPPED)), ("the comment without its LF, then the graph", DROPPED[:-1] + PAIR_DRAWN),
        ("the comment and CR", DROPPED[:-1] + b"\r\n" + PAIR_DRAWN), ("the comment and a blank", DROPPED[:-1] + b" \n" + PAIR_DRAWN), ("the comment in other letters", b"// Turns dropped\n" + PAIR_DRAWN),
        ("the comment without its blank", b"//turns dropped\n" + PAIR_DRAWN), ("the comment with two blanks", b"//  turns dropped\n" + PAIR_DRAWN), ("the comment with a full stop", b"// turns dropped.\n" + PAIR_DRAWN),
        ("half of the comment", b"// turns\n" + PAIR_DRAWN), ("an empty comment", b"//\n" + PAIR_DRAWN), ("another comment", b"// no turns dropped\n" + PAIR_DRAWN), ("a preprocessor line", b"# turns dropped\n" + PAIR_DRAWN),
        ("a comment between stars", b"/* turns dropped */\n" + PAIR_DRAWN), ("the comment, then another", DROPPED + b"// drawn by hand\n" + PAIR_DRAWN), ("a comment behind a statement", PAIR_DRAWN.replace(b"1;", b"1; // lane")),
        ("a byte order mark", b"\xef\xbb\xbf" + PAIR_DRAWN),
    ]:  # fmt: skip
        takes(title, text, drawn, 18)


def value_cases():
    """Numbers and letters: not of their form 18; of their form and not the file's, 19 for a scope's line, 3 in an edge."""
    text = OLD_FORM.text(PAIR)
    numbers = [(n, 18) for n in BAD_NUMBER + ["01", "04", "0x1", "1e0", '"0"', "'0'", "0 0", "1_", "000", "65536000"]]
    for n, wrong in numbers + [("2", None), ("5", None), ("64", None), ("65", None), ("9999", None), ("99999", None)]:
        spelt = spelled(n)
        takes("scope line <%s>" % spelt, text, drawing([0, n], ["0 P 1"]), wrong or 19)
        takes("a third scope line <%s>" % spelt, text, drawing([0, 1, n], ["0 P 1"]), wrong or 19)
        takes("an edge from <%s>" % spelt, text, drawing([0, 1], [(n, "P", "0")]), wrong or 3)
        takes("an edge to <%s>" % spelt, text, drawing([0, 1], [("0", "P", n)]), wrong or 3)
        takes("a second edge to <%s>" % spelt, text, drawing([0, 1], ["0 P 0", ("0", "P", n)]), wrong or 3)
    wide = OLD_FORM.text(changed(PAIR, s4=["64"]))
    for to, due in ("63", 0), ("64", 3):
        takes("an edge to %s of 64 scopes" % to, wide, drawing(range(64), ["63 P " + to]), due)
    for letter, due in [("I", 0), ("P", 0), ("A", 3), ("Z", 3), ("H", 3)] + [(x, 18) for x in ["", "p", "i", "a", "@", "[", "PI", "PP", "1", "$", " ", " P", "P ", "\\P", "P\n", "`", "\x80", "\xd0", '\\"', "\0"]]:
        takes("a label <%s>" % spelled(letter), text, drawing([0, 1], [("0", letter, "1")]), due)
        takes("a label <%s> in the last edge" % spelled(letter), text, drawing([0, 1], ["1 P 1", ("0", letter, "1")]), due)
    for value in ["P", "'P'", '"P', 'P"', '""P""', "“P”"]:
        takes("a label said as %s" % spelled(value), text, b"digraph scopes {0;1;0->1[label=" + value.encode("utf-8") + b"];}", 18)
    takes("a file without labels", OLD_FORM.text(SMALLEST), drawing([0], ["0 P 0"]), 3)
    takes("a file without labels, no edges", OLD_FORM.text(SMALLEST), drawing([0], []), OLD_FORM.text(SMALLEST))


def cases():
    blank_cases()
    token_cases()
    statement_cases()
    comment_cases()
    value_cases()
