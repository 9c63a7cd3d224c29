"""What is wrong in a field, in a row, in a section: the faults that the cases are made from."""
from cases.case_file import bytes_of
from cases.gyms import SMALLEST, at_section, changed, largest
from reference.gym_file import ACCEPT, DECLARED, EDGE, END, KIND, LABEL, LETTER, NAME, NUMBER, OLD, OPEN, ORDER, QUERY, SCOPES, STEP, TURNS

# What a field's text may not be (2), and what is of its form and out of its range (3).
BAD_NUMBER = ["", "00", "05", "000001", "100000", "99999999999999999999", "-1", "+1", "1a", "x", "/", ":", "1.", "\x80", "\0"]
BAD_LETTER = ["", "a", "@", "[", "PI", "1", "#", "%", "\xd0"]
BAD_NAME = ["", "H", "9x", "_x", "hoUrs", "ho-rs", "seventeen_letters", "h`", "h{", "h/", "h:", "h^", "\xe9t", "h\xe9", "h\0", "$"]
BAD_KIND = ["", "A", "V", "Z", "`", "{", "vv", "cv", "v1", "1", "0", "_", " ", "$", "-", "vc v", "\0", "\x80", "\xf6"]
BAD = {NUMBER: BAD_NUMBER, LETTER: BAD_LETTER + ["$"], END: BAD_LETTER + ["$$"], NAME: BAD_NAME, KIND: BAD_KIND}

# by section and field of the old form
OUT = {
    (ORDER, 0): ["Z"], (ORDER, 1): ["Z"],
    (STEP, 0): ["16", "99", "99999"], (STEP, 1): ["Z", "A"], (STEP, 2): ["16", "99999"],
    (ACCEPT, 0): ["16", "99999"],
    (SCOPES, 0): ["0", "65", "99999"],
    (EDGE, 0): ["5", "64", "99999"], (EDGE, 1): ["Z"], (EDGE, 2): ["5", "99999"],
    (DECLARED, 0): ["5", "99999"], (DECLARED, 2): ["65536", "99999"],
    (OPEN, 0): ["5", "99999"], (OPEN, 1): ["Z"],
    (QUERY, 0): ["5", "64", "99999"],
}  # fmt: skip


def out_of_range(f, k, i):
    """The same by a field of this form of file: no kind is out of range, a turn is from 100 on, and the fields behind them stand one further on."""
    if f.number != OLD and k in (DECLARED, QUERY) and i > 0:
        return OUT.get((k, i - 1), []) if i > 1 else []
    if f.number == TURNS and k == EDGE and i > 1:
        return OUT[k, 2] if i > 2 else ["100", "101", "999", "99999"]
    return OUT.get((k, i), [])


def shown(s):
    return "".join(c if "!" <= c <= "~" else "_%02x" % ord(c) for c in s) or "nothing"


# A row that is the fault of its number at the end of its section in the example.
FAULTS = {
    LABEL: {2: ["i"], 4: ["I"], 5: list("ABCDEFG")},
    ORDER: {2: ["I I I"], 3: ["P Z"], 4: ["I P"]},
    STEP: {2: ["2 I"], 3: ["2 I 16"], 4: ["1 I 2"]},
    ACCEPT: {2: ["02"], 3: ["16"], 4: ["1"], 5: [str(i) for i in range(2, 16)] + ["16"]},
    SCOPES: {2: ["5 "], 5: ["5"]},
    EDGE: {2: ["4 P 1 1"], 3: ["4 Z 1"], 4: ["3 P 1"]},
    DECLARED: {2: ["4 hours"], 3: ["4 hours 65536"], 4: ["4 hours 40"]},
    OPEN: {2: ["4"], 3: ["5 $"], 4: ["3 $"]},
    QUERY: {2: ["2  hours"], 3: ["5 hours"]},
}


def faulty(g, k, n):
    return at_section(g, k, g[k] + [bytes_of(x) for x in FAULTS[k][n]])


def full_sections():
    """For each section a graph with that section full and the rest short, and one row more of each kind of fault."""
    big = largest()
    eight = changed(SMALLEST, s0=list("QWERTYUI"), s4=["64"])
    many = range(512)
    return {
        LABEL: (changed(SMALLEST, s0=list("QWERTYUI")), {"well": "A", "malformed": "a", "again": "Q"}),
        ORDER: (at_section(eight, ORDER, big[ORDER]), {"malformed": "I  I", "out of range": "I Z", "again": "U I", "equal ends": "I I"}),
        STEP: (at_section(eight, STEP, big[STEP]), {"malformed": "15 I", "out of range": "16 Q 0", "again": "15 I 15"}),
        ACCEPT: (at_section(eight, ACCEPT, big[ACCEPT]), {"malformed": "016", "out of range": "16", "again": "15"}),
        SCOPES: (eight, {"well": "64", "malformed": "64 64", "out of range": "65"}),
        EDGE: (at_section(eight, EDGE, ["%d Q %d" % (i // 64, i % 64) for i in many]),
               {"well": "8 Q 0", "malformed": "8 Q", "out of range": "64 Q 0", "unlisted": "8 Z 0", "again": "7 Q 63", "first again": "0 Q 0"}),
        DECLARED: (at_section(eight, DECLARED, ["%d a %d" % (i // 16, i % 16) for i in many]),
                   {"well": "32 a 0", "malformed": "32 a 00", "out of range": "32 a 65536", "again": "31 a 15"}),
        OPEN: (at_section(eight, OPEN, big[OPEN]), {"malformed": "63 i", "out of range": "64 $", "again": "63 I"}),
        QUERY: (at_section(eight, QUERY, ["%d a" % (i % 64) for i in range(256)]),
                {"well": "0 a", "malformed": "0 A", "out of range": "64 a", "no last LF": None}),
    }  # fmt: skip
