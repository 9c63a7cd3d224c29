"""The lawful beginnings that a query follows, from document 02 (K11): all simple paths from its start are enumerated, and kept where transitions alone can
still lead to acceptance and no step is cut by a reached path."""
from reference.gym_file import Refused
from reference.path_row import turns_of
from reference.query import Gym

# what is given for any greater number too
MOST = 1000000000


def leading_on(gym):
    """The states from which transitions alone can lead to acceptance."""
    states = set(gym.accept)
    while True:
        more = {q for (q, _), after in gym.next.items() if after in states} - states
        if not more:
            return states
        states |= more


def beginnings(gym, start, name):
    turns = turns_of(gym.edges)

    def end(steps, i):
        """The end by which a path goes on from its first i steps: a label with its turn, or `$`."""
        at = steps[i - 1][1] if i else start
        return (steps[i][0], turns[(at, *steps[i])]) if i < len(steps) else (b"$", None)

    def preferred(a, b):
        return (a[0], b[0]) in gym.order or (a[0] == b[0] and a[1] > b[1])

    # by what ends the reached paths go on from each of their first parts, and end
    onward = {}
    for r in gym.reached(start, name):
        for i in range(len(r) + 1):
            onward.setdefault(tuple(r[:i]), set()).add(end(r, i))

    def cut(p, i):
        return any(preferred(e, end(p, i)) for e in onward.get(tuple(p[:i]), ()))

    hopeful = leading_on(gym)

    def state(p):
        q = 0
        for label, _ in p:
            q = gym.next.get((q, label))
        return q

    return [p for p in gym.paths(start) if state(p) in hopeful and not any(cut(p, i) for i in range(len(p)))]


def counted(text, query):
    """The number, or Refused: 1 to 6, then 7."""
    gym = Gym(text)
    if query >= len(gym.queries):
        raise Refused(7)
    return min(len(beginnings(gym, *gym.queries[query])), MOST)
