#!/usr/bin/env python3
"""Brings the repository's own definitions and lemmas to today's spelling: words in snake case (`isDigit` is `is_digit`,
`found-none` is `found_none`). Types, modules and constants keep theirs.

    tools/respell.py          rewrites the files of crates/ and docs/ in place; run once, after the kit's port.py
    tools/respell.py --list   prints the names and changes nothing

A name is turned in a file where the file declares it, imports it from a module of this repository, or has it as a field
or a constructor of a record of this repository. A name that a file imports from the kit's library is left alone there. Where
two names would fall together, the second column of APART says what stands for the first.
"""
import collections
import os
import re
import sys

ROOT = os.path.dirname(os.path.dirname(os.path.abspath(__file__)))
GENERATED = ("Proof.antt", "Answers.antt", "Invariants.antt")
# names whose plain respelling is another name already
APART = {"roomA": "room_a", "roomB": "room_b", "Found-None": "found_none", "same-end-is": "same_end_is_so", "same-end-self": "same_end_with_self"}
TOKEN = re.compile(r"[^\s(){}\[\].,;:\"λ\\@`]+")
DECLARED = re.compile(r"^\s*(?:(?:abbrev|unfoldable|pub|infixl|infixr|infix|instance|ruleset)\s+)*(?:(?:record|data|class)\s+)?([^\s(){}\[\].,;:\"=]+)(?=[^=]*?:(?!=))")
USE = re.compile(r"^\s*(?:pub )?(?:ghost )?use ([^\s{]+?)(?:\.\{(.*)\})?;?\s*$")


def files(*folders):
    for folder in folders:
        for at, below, names in os.walk(os.path.join(ROOT, folder)):
            below[:] = sorted(d for d in below if d not in ("out", "target", ".git"))
            for name in sorted(names):
                if name.endswith((".antt", ".rt", ".edit", ".md")):
                    yield os.path.join(at, name)


def is_generated(path):
    return os.path.basename(path) in GENERATED and os.path.basename(os.path.dirname(path)) != "proofs"


def spelled(name):
    if name in APART:
        return APART[name]
    name = name.replace("-", "_").replace("′", "'")
    name = re.sub(r"(?<=[a-z0-9])(?=[A-Z])", "_", name)
    name = re.sub(r"(?<=[A-Z])(?=[A-Z][a-z])", "_", name)
    return name


def turns(name):
    """Is it a word, and not a type or a constant, that has another spelling today?"""
    if not re.fullmatch(r"[A-Za-z][A-Za-z0-9_'′₀-₉\-]*", name):
        return False
    if re.match(r"[A-Z]", name):
        return "-" in name or "′" in name
    return bool(re.search(r"[A-Z′\-]", name))


def word(name):
    new = spelled(name)
    if re.match(r"[A-Z]", name):  # a fact keeps its capital, as in All-append
        return name.replace("-", "_").replace("′", "'") if name not in APART else new
    return new.lower() if re.search(r"[A-Z]", name) else new


def declared():
    names = collections.defaultdict(set)
    for path in files("crates"):
        if path.endswith(".rt"):
            with open(path, encoding="utf-8") as f:
                for alias in re.findall(r"^ghost use .* as ([a-z]\w*[A-Z]\w*)", f.read(), re.M):
                    names[alias].add(path)
        if not path.endswith(".antt") or is_generated(path):
            continue
        with open(path, encoding="utf-8") as f:
            for line in f:
                for alias in re.findall(r" as ([A-Za-z][\w\-']*)", line) if line.lstrip().startswith("use ") else []:
                    if re.match(r"[a-z]\w*[A-Z]\w*$", alias):
                        names[alias].add(path)
                if line.lstrip().startswith(("--", "use ")):
                    continue
                m = DECLARED.match(line)
                if m and m.group(1) not in ("let", "in", "λ", "elim", "where", "unfolding", "→", "×", "⊎", "|"):
                    names[m.group(1)].add(path)
                m = re.match(r"^\s+((?:[A-Za-z][\w\-']* )+): \S", line)
                if m and not re.match(r"(let|in|pub|abbrev|unfoldable|record|data)\b", m.group(1)):  # constructors in one line
                    for one in m.group(1).split():
                        names[one].add(path)
    return names


def imported(text):
    """The names that a file takes from the kit's library."""
    kit, own = set(), set()
    for line in text.splitlines():
        m = USE.match(line)
        if not m or m.group(2) is None:
            continue
        mine = re.match(r"Rattle\.(\w+)\.", m.group(1))
        to = own if mine and os.path.isdir(os.path.join(ROOT, "crates", mine.group(1))) else kit
        for part in m.group(2).split(","):
            to.add(part.strip().split(" as ")[0].strip())
            if " as " in part:
                own.add(part.split(" as ")[1].strip())
    return kit, own


def table():
    names = declared()
    names["roomA"], names["roomB"] = {"/specs/"}, {"/specs/"}  # parameters
    found = {n: word(n) for n in names if turns(n)}
    defined = {new for old, new in found.items() if "-" not in old}
    for old, new in found.items():  # a lemma with its function's name
        if "-" in old and old not in APART and (new in defined or new in names) and not any("/specs/" in p for p in names[old]):
            found[old] = new + "_lem"
    fallen = collections.defaultdict(set)
    for old, new in found.items():
        fallen[new].add(old)
    return names, {o: n for o, n in found.items() if o != n}, {n: os_ for n, os_ in fallen.items() if len(os_) > 1 or (n in names and n not in os_)}


def lemmas(path, text, fallen):
    """Lemmas of a file of proofs/ that have the new name of a function: `_lem` tells them apart."""
    if "/proofs/" not in path:
        return {}
    kit, own = imported(text)
    here = imported("".join(line for line in text.splitlines(keepends=True) if ".specs." not in line))[1]
    for line in text.splitlines():
        m = DECLARED.match(line)
        if m and not line.lstrip().startswith(("--", "use ")):
            here.add(m.group(1))
    return {n: n + "_lem" for n in fallen if n in here and n not in kit}


def turn(path, text, found, fallen):
    kit, own = imported(text)
    found = {o: n for o, n in found.items() if o not in kit}
    text = text if path.endswith(".md") else "".join(
        re.sub(r"(?<![^\s(){}\[\],;:])(" + "|".join(map(re.escape, also)) + r")(?![^\s(){}\[\],.;:])", lambda m: also[m.group(1)], line) if also else line
        for also in [lemmas(path, text, fallen)] for line in text.splitlines(keepends=True))
    rust = path.endswith(".rt")
    edit = path.endswith(".edit")
    page = path.endswith(".md")

    def one(line):
        if page:
            return re.sub(r"`[^`]+`", lambda m: TOKEN.sub(lambda t: found.get(t.group(0), t.group(0)), m.group(0)), line)
        if rust and not line.lstrip().startswith("//"):
            parts = re.split(r'(b?"(?:[^"\\]|\\.)*")', line)
        else:
            parts = [line]
        return "".join(p if i % 2 else TOKEN.sub(lambda t: found.get(t.group(0), t.group(0)), p) for i, p in enumerate(parts))

    return "".join(one(line) for line in text.splitlines(keepends=True))


def main():
    names, found, fallen = table()
    for new, olds in sorted(fallen.items()):
        print("falls together:", new, sorted(olds), file=sys.stderr)
    if sys.argv[1:] == ["--list"]:
        for old, new in sorted(found.items()):
            print(old + "\t" + new)
    clashes = 0
    for path in files("crates", "docs"):
        with open(path, encoding="utf-8") as f:
            text = f.read()
        new = turn(path, text, found, fallen)
        if not path.endswith(".md"):
            before = set(TOKEN.findall(text))
            for old in sorted(before & set(found)):
                if found[old] in before and found[old] not in fallen and old not in imported(text)[0]:
                    clashes += 1
                    print("two in one file:", os.path.relpath(path, ROOT), old, found[old], file=sys.stderr)
        if sys.argv[1:] != ["--list"] and new != text:
            with open(path, "w", encoding="utf-8") as f:
                f.write(new)
    print(len(found), "names,", len(fallen), "fall together,", clashes, "clashes", file=sys.stderr)


main()
