"""What a query sees, from document 01 ("Paths", "The listing"): all simple paths of a query are enumerated, kept where they are lawful and end at the
name, and compared with each other, two by two; `awaits` is decided by completions that are built.

A name is here a kind and a name (02, K8): a pair, whatever the file's form. An edge has a turn (02, K12), 0 where the file says none."""
from fractions import Fraction

from reference.gym_file import ACCEPT, DECLARED, EDGE, OLD, OPEN, ORDER, QUERY, SCOPES, STEP, Refused, read
from reference.path_row import more_specific, turns_of


class Gym:
    def __init__(self, text):
        g = read(text)
        self.labels = g.labels()
        self.order = set(g.rows[ORDER])
        self.next = {(state, label): after for state, label, after in g.rows[STEP]}
        self.accept = {row[0] for row in g.rows[ACCEPT]}
        self.states = {0} | self.accept | {s for s, _ in self.next} | set(self.next.values())
        self.scopes = g.rows[SCOPES][0][0]
        self.edges = list(g.rows[EDGE])
        self.form = g.form
        self.declared = [(at, (kind, name), mark) for at, kind, name, mark in g.rows[DECLARED]]
        self.opens = sorted(g.rows[OPEN], key=lambda row: (row[0], g.end_number(row[1])))
        self.queries = [(start, (kind, name)) for start, kind, name in g.rows[QUERY]]

    def paths(self, start):
        """The steps of each path from a scope: along edges, no scope twice."""
        out = {}
        for at, label, _, to in self.edges:
            out.setdefault(at, []).append((label, to))
        found = []

        def go(at, seen, steps):
            found.append(steps)
            for label, to in out.get(at, []):
                if to not in seen:
                    go(to, seen | {to}, steps + [(label, to)])

        go(start, {start}, [])
        return found

    def lawful(self, steps):
        state = 0
        for label, _ in steps:
            state = self.next.get((state, label))
        return state in self.accept

    def reached(self, start, name):
        here = {at for at, n, _ in self.declared if n == name}
        return [p for p in self.paths(start) if self.lawful(p) and (p[-1][1] if p else start) in here]

    def entries(self, start, name):
        """The entries of a query, sorted as the listing has them."""
        reached = self.reached(start, name)
        turns = turns_of(self.edges)
        visible = [p for p in reached if not any(more_specific(self.order, turns, (start, q), (start, p)) for q in reached)]
        last = lambda p: p[-1][1] if p else start
        entries = [(p, mark) for p in visible for at, n, mark in self.declared if n == name and at == last(p)]
        number = {label: i for i, label in enumerate(self.labels)}
        return sorted(entries, key=lambda e: ([(number[label], to) for label, to in e[0]], e[1]))

    def completed(self, at, end, name):
        """The completion that decides whether an open pair is decisive. For `$` it has one declaration more, with an unused mark. For a label it has one
        edge more, of a turn above all, to the first of a chain of new scopes that each declare the name; the chain is as long as the automaton has states, and
        each scope in it leads to the next by every label.

        Why this one is enough: let some completion H that adds at this pair only see other entries. Then H sees an entry that is new, since one that is
        lost is shadowed by a new path, and below that stands a visible new path. The new path p goes along old edges to `at` and there ends by a new
        declaration, or takes a new edge of this label; no reached path of the graph is more specific than p. Here stands a path p' that shares that
        beginning and that end: with the new mark, or into the chain, along a shortest word that leads the automaton from there to acceptance, which is
        shorter than the number of states. So p' is reached. A reached path of the graph that is more specific than p' differs from it no later than at this
        end, and there by a preferred label, as no turn is above that of p'; so it would be more specific than p too, and there is none. So whatever is visible at or below p' here is new, and the entries change."""
        more = Gym.__new__(Gym)
        more.__dict__.update(self.__dict__)
        more.declared, more.edges = list(self.declared), list(self.edges)
        unused = 1 + max([mark for _, _, mark in self.declared], default=0)
        if end == b"$":
            more.declared.append((at, name, unused))
            return more
        new = range(self.scopes, self.scopes + len(self.states))
        highest = max([turn for _, _, turn, _ in self.edges], default=0)
        more.edges.append((at, end, highest + 1, new[0]))
        more.edges += [(s, label, 0, s + 1) for s in new[:-1] for label in self.labels]
        more.declared += [(s, name, unused) for s in new]
        return more

    def awaits(self, start, name):
        entries = self.entries(start, name)
        for at, end in self.opens:
            if self.completed(at, end, name).entries(start, name) != entries:
                return b"%d%s" % (at, end)
        return b"-"

    def listing(self, query):
        if query >= len(self.queries):
            raise Refused(7)
        start, name = self.queries[query]
        entries = self.entries(start, name)
        shown = name[1] if self.form == OLD else b" ".join(name)
        names = b"start seek found awaits" if self.form == OLD else b"start kind seek found awaits"
        lines = [names, b"%d %s %s %s" % (start, shown, found(start, entries), self.awaits(start, name)), b"mark path"]
        for steps, mark in entries:
            lines.append(b"%d %d" % (mark, start) + b"".join(b"%s%d" % step for step in steps))
        return b"".join(line + b"\n" for line in lines)

    def summary(self):
        words = [found(start, self.entries(start, name)) for start, name in self.queries]
        one, several, none = (words.count(w) for w in (b"one", b"several", b"none"))
        # 02, K1: `round` takes a fraction's half to the even number
        share = b"%d" % round(Fraction(one * 100, len(words))) if words else b"-"
        return b"queries one several none share\n%d %d %d %d %s\n" % (len(words), one, several, none, share)


def found(start, entries):
    """02, K2: by the declarations, that is the scopes where the entries' paths end, with their marks; all have the name sought."""
    declared = {(steps[-1][1] if steps else start, mark) for steps, mark in entries}
    return b"none" if not declared else b"one" if len(declared) == 1 else b"several"
