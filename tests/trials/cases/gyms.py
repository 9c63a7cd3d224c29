"""The gyms that the cases are made from: document 01's example with sections put in place, the smallest, the largest, one of a usual size, random ones; and
the forms of file that they are put into."""
from cases.case_file import bytes_of
from reference.gym_file import DECLARED, EDGE, FIELDS_OF, KINDS, NAMES, NAMES_OF, OLD, OPEN, QUERY, TURNS


def text_of(g, names=NAMES):
    return b"".join(x + b"\n" for n, rows in zip(names, g) for x in [n] + rows)


def graph(*sections):
    return [[bytes_of(x) for x in rows] for rows in sections]


def changed(g, **sections):
    """The graph with some sections' rows put in place, as s6=[..]."""
    out = [list(rows) for rows in g]
    for name, rows in sections.items():
        out[int(name[1:])] = [bytes_of(x) for x in rows]
    return out


def at_section(g, k, rows):
    return changed(g, **{"s%d" % k: rows})


EXAMPLE = graph(
    ["I", "P"],
    ["$ I", "$ P", "I P"],
    ["0 I 1", "0 P 0", "1 I 1"],
    ["0", "1"],
    ["5"],
    ["1 P 0", "2 I 4", "2 P 1", "3 P 1"],
    ["0 hours 5", "1 service 10", "2 service 21", "4 hours 40"],
    ["3 $"],
    ["2 service", "3 service", "2 hours"],
)
SMALLEST = graph([], [], [], [], ["1"], [], [], [], [])
WORD = ["label", "order", "step", "accept", "scopes", "edge", "declared", "open", "query"]


def largest():
    """Every section full, each row as long as its section allows."""
    letters = "QWERTYUI"
    ends = "$" + letters
    pairs = ["%s %s" % (ends[i], ends[j]) for i in range(9) for j in range(i + 1, 9)]
    steps = ["%d %s %d" % (s, letters[n], 10 + (s + n) % 6) for s in range(16) for n in range(8)]
    edges = ["%d %s %d" % (s, letters[n], 10 + (s * 7 + n * 5) % 54) for s in range(10, 64) for n in range(8)]
    edges += ["%d I %d" % (s, t) for s in range(10, 64) for t in (62, 63)]
    rank = lambda e: (int(e.split()[0]), letters.index(e.split()[1]), int(e.split()[2]))
    edges = sorted(set(edges), key=rank)[-512:]
    names = ["profile_%02d_hours" % i for i in range(10, 64)]
    names = [n + "_" * (16 - len(n)) for n in names]
    declared = ["%d %s %d" % (s, names[(s + i) % 54 if i else 0], 10000 + s * 100 + i) for s in range(10, 64) for i in range(10)]
    declared = sorted(declared, key=lambda d: (int(d.split()[0]), d.split()[1], int(d.split()[2])))[:512]
    opens = ["%d %s" % (s, e) for s in range(64) for e in ends]
    queries = ["%d %s" % (10 + (i * 11) % 54, names[i % 54]) for i in range(256)]
    return graph(list(letters), pairs, steps, [str(s) for s in range(16)], ["64"], edges, declared, opens, queries)


def kinded(k, row, kind="v"):
    """A row of the old form in the form with kinds."""
    return bytes_of(row).replace(b" ", b" %s " % bytes_of(kind), 1) if k in (DECLARED, QUERY) else bytes_of(row)


def kinds_text(g):
    """The text of a graph whose rows have kinds."""
    return text_of(g, NAMES_OF[KINDS])


def turned(row, turn):
    """An edge row of the old line with a turn put in; a row of too few fields as it is."""
    fields = bytes_of(row).split(b" ", 2)
    return b" ".join(fields[:2] + [b"%d" % turn] + fields[2:]) if len(fields) == 3 else bytes_of(row)


def turns_text(g):
    """The text of a graph whose rows have kinds and turns."""
    return text_of(g, NAMES_OF[TURNS])


def by_letter(letter):
    """One turn for each label, so that none of them decides anything. Labels compared by their turns would be told."""
    return letter[0] % 10


class Form:
    """A form of file. Gyms are written down in the old form's rows; here they are put into this one, where it has kinds with the kind `v`, and where it has
    turns with those that `turn` gives to each label.

    `title` tells its cases from those of the other forms. `sections` are those whose own rows and lines are tried: all in the old form, in the form with
    kinds the ones that come after the line that says the form, and in the form with turns the edges, as the others are those of the form with kinds."""

    def __init__(self, number, title, sections, turn=by_letter):
        self.number, self.title, self.sections, self.turn = number, title, sections, turn
        self.names, self.fields = NAMES_OF[number], FIELDS_OF[number]

    def titled(self, call):
        """A call of a case that has this form's title before its own."""
        return lambda title, *given, **named: call(self.title + title, *given, **named)

    def row(self, k, row):
        row = bytes_of(row)
        if k == EDGE and self.number == TURNS and row.count(b" ") > 1:
            return turned(row, self.turn(row.split(b" ")[1] or b"0"))
        return row if self.number == OLD else kinded(k, row)

    def graph(self, g):
        return [[self.row(k, row) for row in rows] for k, rows in enumerate(g)]

    def text(self, g):
        return text_of(self.graph(g), self.names)

    def due(self, out):
        """A listing of the old form, or the line of its values, as this form has it. Of no output but a listing's is the form to be seen."""
        if self.number == OLD or not isinstance(out, (str, bytes)):
            return out
        names, *lines = bytes_of(out).split(b"\n")
        if not lines:
            return kinded(QUERY, names)
        return b"\n".join([names.replace(b"seek", b"kind seek"), kinded(QUERY, lines[0])] + lines[1:])

    def kinds(self, dice):
        """The kinds that a random gym draws from."""
        return {OLD: lambda: "", KINDS: lambda: dice.pick(["c", "cv", "cv", "alz"]), TURNS: lambda: dice.pick(["c", "v", "cv"])}[self.number]()

    def turns(self, dice):
        """The turns that a random gym draws from."""
        return () if self.number != TURNS else dice.pick([[0], [0, 1], [1, 2], [0, 1, 2, 99], [3, 9, 10, 50]])

    def random(self, dice, scopes, most_edges):
        return random_gym(dice, scopes, most_edges, self.kinds(dice), self.turns(dice))

    def last_row(self, k):
        return self.row(k, EXAMPLE[k][-1]).decode("latin-1")

    def with_last(self, k, row):
        """The example with another last row in a section, which is of this very form."""
        example = self.graph(EXAMPLE)
        return text_of(at_section(example, k, example[k][:-1] + [row]), self.names)

    def with_more(self, k, *rows):
        example = self.graph(EXAMPLE)
        return text_of(at_section(example, k, example[k] + list(rows)), self.names)


OLD_FORM = Form(OLD, "", range(9))
WITH_KINDS = Form(KINDS, "with kinds: ", (DECLARED, OPEN, QUERY))
WITH_TURNS = Form(TURNS, "with turns: ", (EDGE,))
FORMS = [OLD_FORM, WITH_KINDS, WITH_TURNS]
# Turns that are all 0 are the only ones that the other forms can say.
TURNS_OF_0 = Form(TURNS, "turns of 0: ", (EDGE,), lambda letter: 0)


def with_rows(k, *rows):
    """The example with more rows in a section, put where they belong."""
    number = lambda x: int(x) if x.isdigit() else "$IP".find(x.decode()) if x.decode() in "$IP" else x
    new = sorted(EXAMPLE[k] + [bytes_of(r) for r in rows], key=lambda r: [number(x) for x in r.split()])
    return changed(EXAMPLE, **{"s%d" % k: new})


def refused_files(f=FORMS[OLD]):
    """For each refusal of a file a text that meets it."""
    text = f.text(EXAMPLE)
    return {
        1: text + (f.row(QUERY, "2 hours") + b"\n") * 4096,
        2: text[:-1],
        3: f.text(changed(EXAMPLE, s3=["16"])),
        4: f.text(changed(EXAMPLE, s0=["I", "I"])),
        5: f.text(changed(EXAMPLE, s4=["5", "5"])),
        6: f.text(changed(EXAMPLE, s1=["I I"])),
    }


def realistic():
    """A site, four walls, sixteen lanes, six profiles."""
    walls, lanes, profiles = range(1, 5), range(5, 21), range(21, 27)
    edges = [(w, "P", 0) for w in walls] + [(l, "P", 1 + (l - 5) // 4) for l in lanes] + [(l, "I", 21 + l % 6) for l in lanes if l % 3]
    edges += [(3, "I", 21), (0, "I", 26)] + [(p, "I", p + 1) for p in profiles if p < 26] + [(26, "I", 22)]
    edges.sort(key=lambda e: (e[0], "IP".index(e[1]), e[2]))
    declared = [(0, "hours", 5), (0, "limit", 1), (2, "limit", 2), (3, "limit", 3)] + [(l, "service", 100 + l) for l in lanes if l % 2] + [(p, "limit", 200 + p) for p in profiles if p % 2]
    declared += [(22, "hours", 7), (22, "hours", 8), (24, "cable", 9), (1, "service", 50)]
    declared.sort()
    opens = ["0 $", "2 I", "6 $", "9 I", "17 P", "22 $", "24 $", "24 I"]
    queries = ["%d %s" % (l, n) for l in lanes for n in ("service", "hours", "limit", "cable", "belay")]
    return changed(EXAMPLE, s4=["27"], s5=["%d %s %d" % e for e in edges], s6=["%d %s %d" % d for d in declared], s7=opens, s8=queries)


def closed(pairs):
    while True:
        more = {(a, d) for a, b in pairs for c, d in pairs if b == c} - pairs
        if not more:
            return pairs
        pairs |= more


def shuffled(dice, items):
    items = list(items)
    return [items.pop(dice.below(len(items))) for _ in range(len(items))]


def random_gym(dice, scopes, most_edges, kinds="", turns=()):
    """A gym of the old form; where kinds are given, one with kinds drawn from them, and where turns are, one with turns drawn from them and with few labels and
    more edges, so that several leave a scope by one."""
    letters = shuffled(dice, "IPDX")[: 1 + dice.below(2 if turns else 4)]
    ends = ["$"] + letters
    rank = shuffled(dice, ends)
    thick = dice.below(4)
    pairs = closed({(a, b) for i, a in enumerate(rank) for b in rank[i + 1 :] if dice.below(3) < thick})
    states = range(1 + dice.below(3))
    steps = ["%d %s %d" % (s, l, dice.pick(states)) for s in states for l in letters if dice.below(5)]
    accept = [str(s) for s in states if dice.below(4)]
    # more of them with turns, but in wide gyms, where there would be too many paths to list
    fewest = scopes + scopes // 2 if turns and scopes < 8 else scopes // 2
    edges = sorted({(dice.below(scopes), dice.below(len(letters)), dice.below(scopes)) for _ in range(fewest + dice.below(most_edges))})
    rows = ["%d %s %d" % (a, letters[l], b) for a, l, b in edges]
    if turns:
        edges = sorted((a, l, dice.pick(turns), b) for a, l, b in edges)
        rows = ["%d %s %d %d" % (a, letters[l], turn, b) for a, l, turn, b in edges]
    names = ["a", "ab"][: 1 + dice.below(2)]
    name = lambda: "%s %s" % (dice.pick(kinds), dice.pick(names)) if kinds else dice.pick(names)
    declared = {(dice.below(scopes), name(), dice.pick([0, 7, 10, 65535])) for _ in range(2 + dice.below(2 * scopes))}
    thick = dice.below(5)
    opens = ["%d %s" % (s, e) for s in range(scopes) for e in ends if dice.below(10) < thick]
    queries = ["%d %s" % (dice.below(scopes), name()) for _ in range(1 + dice.below(4))]
    return (turns_text if turns else kinds_text if kinds else text_of)(graph(
        letters,
        ["%s %s" % (a, b) for a in ends for b in ends if (a, b) in pairs],
        steps,
        accept,
        [str(scopes)],
        rows,
        ["%d %s %d" % d for d in sorted(declared)],
        opens,
        queries,
    ))  # fmt: skip
