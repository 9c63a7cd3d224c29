"""Who reads a declaration, from document 02 (K5): every scope of the file asks for the declaration's kind and name, whether or not it has a query of its own,
and its entries are enumerated."""
from reference.gym_file import Refused
from reference.query import Gym


def reads(gym, start, declaration):
    """Does an entry of this scope's query end in the declaration?"""
    at, name, mark = declaration
    return any((steps[-1][1] if steps else start, m) == (at, mark) for steps, m in gym.entries(start, name))


def readers(text, place):
    """The listing: the line `at`, then the scopes; or Refused, 1 to 6, then 11."""
    gym = Gym(text)
    if place >= len(gym.declared):
        raise Refused(11)
    scopes = [s for s in range(gym.scopes) if reads(gym, s, gym.declared[place])]
    return b"at\n" + b"".join(b"%d\n" % s for s in scopes)
