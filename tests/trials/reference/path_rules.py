"""A file with the path rules of an expression, from document 02 (K6): the expression becomes an automaton with empty steps, that one a table of sets of its
states, and the table the smallest, by what its states accept. Neither derivatives nor positions come in."""
from reference.gym_file import ACCEPT, LABEL, STEP, Refused, read

MOST_BYTES, MOST_LETTERS, MOST_STATES = 64, 10, 16


class Reader:
    """Reads an expression into an automaton: `steps` are triples of a state, a label's letter (None for an empty step) and a state."""

    def __init__(self, text, letters):
        self.rest, self.letters, self.steps, self.states, self.count = text, letters, [], 0, 0

    def state(self):
        self.states += 1
        return self.states - 1

    def taken(self, byte):
        if self.rest[:1] != byte:
            return False
        self.rest = self.rest[1:]
        return True

    def choice(self):
        """Each part has a state where it begins and one where it ends."""
        begin, end = self.state(), self.state()
        while True:
            first, last = self.sequence()
            self.steps += [(begin, None, first), (last, None, end)]
            if not self.taken(b"|"):
                return begin, end

    def sequence(self):
        begin, end = self.starred()
        while self.rest and self.rest[:1] not in (b"|", b")"):
            first, last = self.starred()
            self.steps.append((end, None, first))
            end = last
        return begin, end

    def starred(self):
        if self.taken(b"("):
            begin, end = self.choice()
            if not self.taken(b")"):
                raise Refused(12)
        else:
            letter = self.rest[:1]
            if not letter or letter not in self.letters:
                raise Refused(12)
            self.taken(letter)
            self.count += 1
            begin, end = self.state(), self.state()
            self.steps.append((begin, letter, end))
        while self.taken(b"*"):
            outer, last = self.state(), self.state()
            self.steps += [(outer, None, begin), (end, None, begin), (outer, None, last), (end, None, last)]
            begin, end = outer, last
        return begin, end


def automaton(text, letters):
    if len(text) > MOST_BYTES:
        raise Refused(12)
    reader = Reader(text, letters)
    begin, end = reader.choice()
    if reader.rest or reader.count > MOST_LETTERS:
        raise Refused(12)
    return reader.steps, begin, end


def table(text, letters):
    """The transitions, by state and label's place, and the accepting states; or Refused, 12 or 13."""
    steps, begin, end = automaton(text, letters)

    def closed(states):
        states = set(states)
        while True:
            more = {b for a, letter, b in steps if letter is None and a in states} - states
            if not more:
                return frozenset(states)
            states |= more

    def after(states, letter):
        return closed(b for a, l, b in steps if l == letter and a in states)

    start = closed([begin])
    sets, next_ = [start], {}
    for s in sets:
        for letter in letters:
            t = after(s, letter)
            next_[s, letter] = t
            if t not in sets:
                sets.append(t)
    # states that look alike for ever longer words, until nothing more is told apart
    look = {s: int(end in s) for s in sets}
    while True:
        rows = {s: (look[s],) + tuple(look[next_[s, letter]] for letter in letters) for s in sets}
        number = {row: i for i, row in enumerate(dict.fromkeys(rows[s] for s in sets))}
        finer = {s: number[rows[s]] for s in sets}
        if len(number) == len(set(look.values())):
            break
        look = finer
    live = {look[s] for s in sets if end in s}
    while True:
        more = {look[s] for s in sets if any(look[next_[s, letter]] in live for letter in letters)} | live
        if more == live:
            break
        live = more
    some = {}
    for s in sets:
        some.setdefault(look[s], s)
    met, rows = [look[start]], []
    for state, kind in enumerate(met):
        for letter in letters:
            to = look[next_[some[kind], letter]]
            if to not in live:
                continue
            if to not in met:
                met.append(to)
            rows.append((state, letter, met.index(to)))
    if len(met) > MOST_STATES:
        raise Refused(13)
    return rows, [state for state, kind in enumerate(met) if end in some[kind]]


def ruled(text, expression):
    """The file with the expression's rows in place of its own, or Refused: 1 to 6, then 12, then 13."""
    g = read(text)
    rows, accepts = table(expression, [row[0] for row in g.rows[LABEL]])
    g.rows[STEP], g.rows[ACCEPT] = rows, [(state,) for state in accepts]
    return g.text()
