"""Path rules of expressions (02, K6) by another method than the crate path_rules: derivatives of the
expression, then refinement of the states by what they accept. `rules` gives the table of an expression,
`tried` tests one word by word, `random_text` draws an expression."""
import itertools
import re


class No(Exception):
    pass

# an expression is a tuple: ('none',), ('empty',), ('label', n), ('then', a, b), ('or', frozenset), ('star', a)
NONE, EMPTY = ('none',), ('empty',)

def then(a, b):
    if NONE in (a, b): return NONE
    if a == EMPTY: return b
    if b == EMPTY: return a
    if a[0] == 'then': return then(a[1], then(a[2], b))
    return ('then', a, b)

def union(parts):
    flat = set()
    for p in parts:
        if p[0] == 'or': flat |= p[1]
        elif p != NONE: flat.add(p)
    if not flat: return NONE
    if len(flat) == 1: return next(iter(flat))
    return ('or', frozenset(flat))

def star(a):
    if a in (NONE, EMPTY): return EMPTY
    if a[0] == 'star': return a
    return ('star', a)

def nullable(e):
    k = e[0]
    if k in ('none', 'label'): return False
    if k in ('empty', 'star'): return True
    if k == 'then': return nullable(e[1]) and nullable(e[2])
    return any(nullable(p) for p in e[1])

def derivative(e, l):
    k = e[0]
    if k in ('none', 'empty'): return NONE
    if k == 'label': return EMPTY if e[1] == l else NONE
    if k == 'star': return then(derivative(e[1], l), e)
    if k == 'or': return union(derivative(p, l) for p in e[1])
    d = then(derivative(e[1], l), e[2])
    return union([d, derivative(e[2], l)]) if nullable(e[1]) else d

def parse(text, labels):
    if len(text) > 64: raise No
    pos, letters = 0, 0
    def peek(): return text[pos] if pos < len(text) else None
    def choice():
        nonlocal pos
        parts = [sequence()]
        while peek() == '|':
            pos += 1
            parts.append(sequence())
        return union(parts)
    def sequence():
        nonlocal pos
        e = item()
        while peek() is not None and peek() not in '|)':
            e = then(e, item())
        return e
    def item():
        nonlocal pos, letters
        c = peek()
        if c == '(':
            pos += 1
            e = choice()
            if peek() != ')': raise No
            pos += 1
        elif c is not None and c not in '*|)' and c in labels[:8]:
            letters += 1
            pos += 1
            e = ('label', labels.index(c))
        else:
            raise No
        while peek() == '*':
            pos += 1
            e = star(e)
        return e
    e = choice()
    if pos != len(text) or letters > 10: raise No
    return e

def rules(labels, text):
    try:
        e = parse(text, labels)
    except No:
        return 12
    # all derivatives, then states that no word tells apart by refinement
    states, todo, next_ = {e: 0}, [e], []
    for s in todo:
        row = []
        for l in range(8):
            d = derivative(s, l)
            if d not in states:
                states[d] = len(todo)
                todo.append(d)
            row.append(states[d])
        next_.append(row)
    block = [int(nullable(s)) for s in todo]
    while True:
        keys = {}
        new = [keys.setdefault((block[i],) + tuple(block[j] for j in next_[i]), len(keys)) for i in range(len(todo))]
        if len(set(new)) == len(set(block)): break
        block = new
    # dead: no accepting state is reached
    live = {b for b, s in zip(block, todo) if nullable(s)}
    while True:
        more = live | {block[i] for i in range(len(todo)) if any(block[j] in live for j in next_[i])}
        if more == live: break
        live = more
    of = {}
    for i, b in enumerate(block): of.setdefault(b, i)
    number, line, rows = {block[0]: 0}, [block[0]], []
    for b in line:
        for l in range(8):
            t = block[next_[of[b]][l]]
            if t not in live: continue
            if t not in number:
                number[t] = len(line)
                line.append(t)
            rows.append((number[b], l, number[t]))
    if len(line) > 16: return 13
    return {(q, l): r for q, l, r in rows}, [nullable(todo[of[b]]) for b in line]

def remembering(r, labels):
    """What came some letters ago decides: such an expression needs many states."""
    a, b = labels[0], labels[1]
    both = '(%s|%s)' % (a, b)
    t = both + '*'
    while sum(c.isalpha() for c in t) < 9: t += r.choice([a, both, both, b + '*'])
    return t

def random_text(r, labels):
    if len(labels) > 1 and r.random() < 0.1: return remembering(r, labels)
    def choice(d): return '|'.join(sequence(d) for _ in range(r.choice([1, 1, 1, 2, 2, 3])))
    def sequence(d): return ''.join(item(d) for _ in range(r.choice([1, 1, 2, 2, 3, 4])))
    def item(d):
        e = '(' + choice(d - 1) + ')' if d > 0 and r.random() < 0.4 else r.choice(labels)
        return e + '*' * r.choice([0, 0, 0, 1, 1, 2])
    t = choice(r.choice([0, 1, 2, 3]))
    if r.random() < 0.15 and t:
        i = r.randrange(len(t))
        t = t[:i] + r.choice('()*|PZ ') + t[i + r.choice([0, 1]):]
    return t


def tried(labels, text, answer):
    """Does the table accept exactly the words that `re` matches, of all words up to a length, of the letters that occur and of these and a label that does not?"""
    if answer in (12, 13): return
    next_, accepts = answer
    # re takes no star after a star
    pattern = re.compile(re.sub(r'\*+', '*', text))
    used = sorted(set(text) & set(labels))
    other = [c for c in labels if c not in text][:1]
    for letters in (used, used + other) if other else (used,):
        for n in range({1: 10, 2: 6, 3: 4}.get(len(letters), 3) + 1):
            for word in itertools.product(letters, repeat=n):
                q = 0
                for c in word:
                    q = next_.get((q, labels.index(c))) if q is not None else None
                assert (q is not None and accepts[q]) == bool(pattern.fullmatch(''.join(word))), (labels, text, word)
