"""The stored cases of a trial program, and the output that is due for them: crates/NAME/stdin and stdout."""
import os
import sys

CRATES = os.path.join(os.path.dirname(os.path.abspath(__file__)), "..", "crates")


class Stored:
    def __init__(self, name):
        self.name = name
        self.folder = os.path.join(CRATES, name)

    def write(self, put, due):
        for file, content in ("stdin", put), ("stdout", due):
            with open(os.path.join(self.folder, file), "wb") as f:
                f.write(content)

    def compare(self, put, due):
        """Ends the program where a stored file is another than was made, with the first line that differs."""
        for file, content in ("stdin", put), ("stdout", due):
            with open(os.path.join(self.folder, file), "rb") as f:
                stored = f.read()
            if stored != content:
                line, a, b = first_difference(stored, content)
                sys.exit("crates/%s/%s is not what is made: line %d is\n%s\nand not\n%s" % (self.name, file, line, a.decode("latin-1"), b.decode("latin-1")))
        print("%s: the stored cases are those that are made, %d lines due" % (self.name, due.count(b"\n")))

    def by_words(self, words, put, due):
        """What a program's words ask for: `compare`, or with none to write."""
        if words not in ([], ["compare"]):
            sys.exit("no word, `compare` or `list`")
        (self.compare if words else self.write)(put, due)


def first_difference(stored, made):
    """The number of the first line that differs, and that line of both; one that is missing is empty."""
    a, b = stored.split(b"\n"), made.split(b"\n")
    n = next((i for i, (x, y) in enumerate(zip(a, b)) if x != y), min(len(a), len(b)))
    return n + 1, *((lines + [b""])[min(n, len(lines))] for lines in (a, b))
