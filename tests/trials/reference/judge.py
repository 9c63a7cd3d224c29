"""A path row judged for a query, from document 01 ("Paths"): its path is looked up among all simple paths of the query that are lawful and end at the name, and
held against each of them; the number behind `shadowed` is that of document 02 (K7)."""
from reference.gym_file import Refused
from reference.path_row import equal_steps, more_specific, row_of, turns_of
from reference.query import Gym


def judged(text, query, row, room):
    gym = Gym(text)
    if query >= len(gym.queries):
        raise Refused(7)
    start, name = gym.queries[query]
    mark, first, steps = row_of(row)
    if len(steps) > room:
        raise Refused(9)
    last = steps[-1][1] if steps else first
    reached = gym.reached(start, name)
    if first != start or steps not in reached or (last, name, mark) not in gym.declared:
        return b"unreached"
    path, turns = (start, steps), turns_of(gym.edges)
    caught = [equal_steps((start, p), path) for p in reached if more_specific(gym.order, turns, (start, p), path)]
    assert bool(caught) == ((steps, mark) not in gym.entries(start, name))
    return b"shadowed %d" % max(caught) if caught else b"visible"
