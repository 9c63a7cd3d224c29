"""A file of Rattle, read item by item and put out as Rust.

Contracts, `ghost` lines and the attributes that speak to the prover are left out; all else stays as it stands, comments
too. Three things change: a path that begins at a crate begins at that crate's module, types get the traits by which Rust
compares and shows them beside those that they derive, and a comment directly above an item becomes its documentation.
A struct that holds lent memory has a lifetime, and is only shown. Whatever is not understood is an error with file and line.
"""
import re

WORDS = frozenset('as break const continue crate else enum false fn for if impl in let loop match mod mut pub return self '
                  'Self struct super true type use while'.split())
# words that Rust keeps for itself, and those of Rattle that Rust does not have: neither is a name, and none is copied
REFUSED = frozenset('abstract async await become box do dyn ensures extern final gen ghost invariant macro move override '
                    'priv ref requires static trait try typeof unsafe unsized virtual where yield'.split())
# what a type may derive; a value may be let go only if its type has `Drop`, which in Rust all may
TRAITS = ('Clone', 'Copy', 'Debug', 'PartialEq', 'Eq', 'Default', 'Drop')
# attributes that speak to the prover alone: tactics for a file or a function, and what calls what in a circle
PROVERS = re.compile(r'(?:tactic|cycle)\(.*\)', re.DOTALL)
EXPORT = 'unsafe(no_mangle)'
# macros that Rust has too, and Rattle's way to ask the machine, which is in scope everywhere
MACROS = {'matches'}
MACHINE = 'HostRuntime'
# modules of Rattle's std that Rust has alike, in core
ALIKE = re.compile(r'::(?:array|cmp)\b')
NUMBERS = frozenset('u8 u16 u32 u64 usize i8 i16 i32 i64 isize'.split())

TOKEN = re.compile(r'''
    (?P<space>[ \n]+)
  | (?P<comment>//[^\n]*)
  | (?P<bytes>b"(?:[^"\\]|\\[nrt0\\"']|\\x[0-9a-fA-F]{2})*")
  | (?P<byte>b'(?:[^'\\\n]|\\[nrt0\\"']|\\x[0-9a-fA-F]{2})')
  | (?P<string>"[A-Za-z]*")
  | (?P<lifetime>'[a-z_][a-z0-9_]*)
  | (?P<number>(?:0x[0-9a-fA-F_]+|0b[01_]+|[0-9][0-9_]*)(?:[ui](?:8|16|32|64|size))?(?![A-Za-z0-9_]))
  | (?P<word>[A-Za-z_][A-Za-z0-9_]*)
  | (?P<sign><<=|>>=|\.\.=|::|->|=>|==|!=|<=|>=|&&|\|\||<<|>>|\.\.|[-+*/%&|^]=|[-+*/%&|^!<>=.,:;(){}\[\]\#?])
''', re.VERBOSE | re.ASCII)

PAIRS = {'(': ')', '[': ']', '{': '}'}


class Misread(Exception):
    """A place that is not understood: its message begins with file and line."""


class Token:
    def __init__(self, kind, text, start):
        self.kind, self.text, self.start, self.end = kind, text, start, start + len(text)


class Scope:
    """What a path of a file may begin with, beside what the file itself declares."""

    def __init__(self, module, crates, derived=(), std=None):
        self.module = module      # the module that the file's crate becomes
        self.crates = crates      # the crates that it may name, modules too
        self.derived = dict(derived)    # traits beyond the usual ones, by the type's name
        self.std = std            # the module that stands for Rattle's std, if the file may name it


class File:
    """One file. `rust` is its text as Rust, `modules` the names of its `mod` items."""

    def __init__(self, name, text, scope):
        self.name, self.text, self.scope = name, text, scope
        self.at = 0
        self.comments = []      # (start, does it stand alone on its line)
        self.edits = []         # (start, end, text in its place)
        self.documented = []    # where an item, a field or a variant begins
        self.modules, self.declared, self.roots, self.machines = [], set(), [], []
        self.ghosts = -1, -1    # the last run of ghost lines
        self.last = None
        self.next = None
        self.advance()
        self.file_attributes()
        while self.next:
            self.item()
        self.resolve_roots()
        self.document()
        self.rust = self.edited()

    # -- tokens

    def line(self, place):
        return self.text.count('\n', 0, place) + 1

    def fail(self, message, place=None):
        if place is None:
            place = self.next.start if self.next else len(self.text)
        raise Misread(f'{self.name}:{self.line(place)}: {message}')

    def advance(self):
        """Goes on to the next token; comments are noted on the way."""
        self.last, self.next = self.next, None
        while self.at < len(self.text):
            found = TOKEN.match(self.text, self.at)
            if not found:
                self.fail(f'{self.text[self.at]!r} is not understood', self.at)
            kind, start = found.lastgroup, self.at
            self.at = found.end()
            if kind == 'comment':
                before = self.text[self.text.rfind('\n', 0, start) + 1:start]
                self.comments.append((start, not before.strip()))
            elif kind != 'space':
                self.next = Token(kind, found.group(), start)
                return

    def take(self, *texts):
        """The next token, which must be one of these."""
        if not self.next or self.next.text not in texts:
            self.fail(f'{self.shown()} stands where {" or ".join(texts)} is due')
        self.advance()
        return self.last

    def name_due(self):
        if not self.next or self.next.kind != 'word' or self.next.text in WORDS | REFUSED:
            self.fail(f'{self.shown()} stands where a name is due')
        self.advance()
        return self.last

    def shown(self):
        return repr(self.next.text) if self.next else 'the end of the file'

    def sees(self, *texts):
        return self.next is not None and self.next.text in texts

    # -- parts of items

    def any(self):
        """Goes over one token of code, or over a bracketed part; notes where a path begins."""
        token = self.next
        if token is None or token.text in ')]}':
            self.fail(f'{self.shown()} has no part before it')
        if token.text in PAIRS:
            self.bracketed()
            return
        if token.text == '#' or token.kind == 'string':
            self.fail(f'{token.text} is not understood here')
        if token.kind == 'word' and token.text in REFUSED:
            self.fail(f'{token.text!r} is not understood here')
        before = self.last.text if self.last else ''
        self.advance()
        if token.kind == 'word':
            if self.sees('!') and self.text[token.end] == '!' and token.text not in MACROS:
                self.fail('macros are not understood')
            if self.sees('::') and before not in ('::', '.'):
                self.roots.append(token)
            if token.text == MACHINE and before != '::':
                self.machines.append(token)

    def until(self, *stops):
        """Goes over code up to one of these signs or words."""
        while not self.sees(*stops):
            self.any()

    def bracketed(self):
        close = PAIRS[self.next.text]
        start = self.next.start
        self.advance()
        while not self.sees(close):
            if self.next is None:
                self.fail(f'{self.text[start]} is not closed', start)
            self.any()
        self.advance()

    def members(self):
        """The fields of a struct or the variants of an enum, in braces."""
        self.take('{')
        while not self.sees('}'):
            self.documented.append(self.next.start if self.next else 0)
            self.visibility()
            self.name_due()
            self.until(',', '}')
            if not self.sees('}'):
                self.take(',')
        self.take('}')

    def visibility(self):
        if self.sees('pub'):
            self.take('pub')
            if self.sees('('):
                self.take('(')
                self.take('crate')
                self.take(')')

    def lifetimes(self):
        """`<'a, 'b>`, if there are any; how many."""
        number = 0
        if self.sees('<'):
            self.take('<')
            while not self.sees('>'):
                if self.next is None or self.next.kind != 'lifetime':
                    self.fail(f'{self.shown()} stands where a lifetime is due')
                self.advance()
                number += 1
                if not self.sees('>'):
                    self.take(',')
            self.take('>')
        return number

    def parameters(self):
        """What stands between `<` and `>` behind a function's name: lifetimes, types with their bounds, constants."""
        if not self.sees('<'):
            return
        self.take('<')
        depth = 1
        while depth:
            if self.sees('<'):
                depth += 1
            elif self.sees('>'):
                depth -= 1
            elif self.sees('>>'):
                depth -= 2
            if depth < 0:
                self.fail('a list of parameters is not closed')
            if self.sees('{', ';'):
                self.fail(f'{self.shown()} stands where a parameter is due')
            self.any()

    # -- items

    def item(self):
        if self.next is None:
            self.fail('an item is due')
        start = self.next.start
        if self.sees('ghost'):
            self.ghost_use()
            return
        attributes = []
        while self.sees('#'):
            attributes.append(self.attribute())
        shown = self.next.start if self.next else None
        self.visibility()
        word = self.next.text if self.next else ''
        if word in ('const', 'struct', 'enum', 'type', 'fn', 'extern', 'mod'):
            self.documented.append(start)
        if word == 'mod':
            self.take('mod')
            name = self.name_due().text
            self.take(';')
            self.modules.append(name)
            self.declared.add(name)
        elif word == 'use':
            self.use()
        elif word == 'const':
            self.take('const')
            self.name_due()
            self.until(';')
            self.take(';')
        elif word == 'type':
            self.take('type')
            self.declared.add(self.name_due().text)
            self.until(';')
            self.take(';')
        elif word in ('struct', 'enum'):
            attributes = self.type(word, start, attributes)
        elif word in ('fn', 'extern'):
            self.function(self.left_out(attributes), shown)
            attributes = []
        elif word == 'impl':
            self.take('impl')
            self.lifetimes()
            self.name_due()
            self.lifetimes()
            self.take('{')
            while not self.sees('}'):
                self.item()
            self.take('}')
        else:
            self.fail(f'{self.shown()} begins no item that is understood')
        for name, place, _ in attributes:
            if name != 'repr(C)' or word != 'struct':
                self.fail(f'the attribute {name} is not understood here', place)

    def file_attributes(self):
        """`#![tactic(..)]` above a root's first item: the line is left out."""
        while self.sees('#') and self.text[self.next.end:self.next.end + 1] == '!':
            name, place, end = self.attribute('!')
            if not PROVERS.fullmatch(name):
                self.fail(f'the attribute {name} is not understood here', place)
            self.edits.append((place, end + (self.text[end:end + 1] == '\n'), ''))

    def attribute(self, *signs):
        """Its text, its place and its end."""
        place = self.take('#').start
        for sign in *signs, '[':
            self.take(sign)
        inside = self.next.start if self.next else place
        noted = len(self.roots)
        while not self.sees(']'):
            if self.sees('unsafe'):
                self.advance()
            else:
                self.any()
        # no path in an attribute is one of Rust's
        del self.roots[noted:]
        end = self.take(']').end
        return self.text[inside:end - 1], place, end

    def left_out(self, attributes):
        """Takes out a function's attributes; those that do not speak to the prover alone."""
        for _, place, end in attributes:
            self.edits.append((place, re.compile('[ \n]*').match(self.text, end).end(), ''))
        return [name for name, _, _ in attributes if not PROVERS.fullmatch(name)]

    def ghost_use(self):
        """A line for the prover alone, in its own alphabet: it ends at the first semicolon. Of the empty lines about a run of them one stays."""
        start = self.next.start
        found = re.compile(r'ghost use [^;{}"\n]+(\{[^;{}"\n]*\})?;[ ]*\n').match(self.text, start)
        if not found:
            self.fail('a ghost line that is not understood')
        if start and self.text[start - 1] != '\n':
            self.fail('a ghost line that does not begin its line')
        end = found.end()
        if start != self.ghosts[1]:
            self.ghosts = start, end
        self.ghosts = first, _ = self.ghosts[0], end
        if self.text[max(first - 2, 0):first] in ('', '\n\n') and self.text[end:end + 1] == '\n':
            end += 1
        self.edits.append((start, end, ''))
        self.at = end
        self.advance()

    def use(self):
        self.take('use')
        root = self.next
        if root is None or root.kind != 'word' or root.text in REFUSED:
            self.fail(f'{self.shown()} stands where a path is due')
        self.advance()
        self.roots.append(root)
        if not self.sees('::'):
            self.fail('a path of one name is not understood', root.start)
        self.imported(root)
        self.take(';')

    def imported(self, last):
        """The rest of a path of a `use`, or each path of a group; a name that it brings in is one of this file's."""
        while self.sees('::'):
            self.take('::')
            if self.sees('{'):
                self.take('{')
                while not self.sees('}'):
                    if self.sees('self'):
                        self.take('self')
                        self.brought_in(last)
                    else:
                        self.imported(self.name_due())
                    if not self.sees('}'):
                        self.take(',')
                if self.last.text == '{':
                    self.fail('a group of no names is not understood')
                self.take('}')
                return
            last = self.name_due()
        self.brought_in(last)

    def brought_in(self, name):
        if self.sees('as'):
            self.take('as')
            name = self.name_due()
        self.declared.add(name.text)

    def type(self, word, start, attributes):
        """The attributes that are not the derived traits."""
        self.take(word)
        name = self.name_due()
        self.declared.add(name.text)
        lent = self.lifetimes()
        inside = self.at
        if self.sees('('):
            self.bracketed()
            self.take(';')
        elif self.sees('{'):
            self.members()
        else:
            self.fail(f'{self.shown()} stands where the parts of {name.text} are due')
        if not lent and '&' in self.text[inside:self.last.end]:
            self.fail(f'{name.text} holds a reference, so it is no plain data', name.start)
        traits, derives, others = [], [], []
        for attribute in attributes:
            (derives if attribute[0].startswith('derive(') else others).append(attribute)
        for text, place, _ in derives:
            traits = re.findall('[^ ,\n]+', text[len('derive('):-1])
            for trait in traits:
                if trait not in TRAITS:
                    self.fail(f'the derived trait {trait} is not understood', place)
        # what holds lent memory is neither compared nor copied, only shown
        traits += (['Debug'] if lent else ['Debug', 'PartialEq', 'Eq']) + self.scope.derived.pop(name.text, [])
        line = f'#[derive({", ".join(trait for trait in dict.fromkeys(traits) if trait != "Drop")})]'
        if not derives:
            self.edits.append((start, start, line + '\n'))
        for text, place, end in derives:
            self.edits.append((place, end, line))
            if len(derives) > 1:
                self.fail('a second list of derived traits is not understood', derives[1][1])
        return others

    def function(self, attributes, start):
        exported = self.sees('extern')
        if exported:
            self.take('extern')
            self.take('"C"')
        if attributes != [EXPORT] * exported:
            self.fail(f'an exported function has the attribute {EXPORT} and no other for its host, any other function none', start)
        if exported:
            # the name is for linkers and the calling convention for C: Rust calls it as any function
            where = self.text.index('extern', start)
            self.edits.append((where, self.next.start, ''))
        self.take('fn')
        self.declared.add(self.name_due().text)
        self.parameters()
        if not self.sees('('):
            self.fail(f'{self.shown()} stands where parameters are due')
        self.bracketed()
        if self.sees('->'):
            self.take('->')
            self.until('{', 'requires', 'ensures')
        signature_end = self.last.end
        noted = len(self.comments)
        while self.sees('requires', 'ensures'):
            self.clause()
        if not self.sees('{'):
            self.fail(f'{self.shown()} stands where a body is due')
        if len(self.comments) != noted:
            self.fail('a comment between a contract and its body is not understood', self.comments[noted][0])
        self.edits.append((signature_end, self.next.start, ' '))
        self.bracketed()

    def clause(self):
        """`requires NAME { .. }`: what stands in the braces is the prover's, and only its brackets are looked at."""
        self.take('requires', 'ensures')
        if not self.sees('{'):
            self.name_due()
        if not self.sees('{'):
            self.fail(f'{self.shown()} stands where a condition is due')
        open_at = []
        at = self.next.start
        closing = {close: opening for opening, close in PAIRS.items()}
        while True:
            sign = self.text[at] if at < len(self.text) else ''
            if not sign:
                self.fail(f'{self.text[open_at[-1]]} is not closed', open_at[-1])
            if sign == '"' or self.text.startswith(('//', '--'), at):
                self.fail(f'{sign!r} is not understood in a contract', at)
            if sign in PAIRS:
                open_at.append(at)
            elif sign in closing:
                if self.text[open_at[-1]] != closing[sign]:
                    self.fail(f'{sign} does not close {self.text[open_at[-1]]}', at)
                open_at.pop()
                if not open_at:
                    break
            at += 1
        self.at = at + 1
        self.advance()

    # -- what changes

    def resolve_roots(self):
        """A path's first name: a crate's module, a name of this file, or a number's type."""
        for root in self.roots:
            name = root.text
            in_use = re.search(r'\buse $', self.text[:root.start])
            here = name in self.modules if in_use else name in self.declared
            if name == 'crate':
                self.edits.append((root.start, root.end, f'crate::{self.scope.module}'))
            elif here and name in self.scope.crates:
                self.fail(f'{name} may be a crate or a name of this file', root.start)
            elif name in self.scope.crates:
                self.edits.append((root.start, root.end, f'crate::{name}'))
            elif name == 'std' and not here and ALIKE.match(self.text, root.end):
                self.edits.append((root.start, root.end, 'core'))
            elif name == 'std' and self.scope.std and not here:
                self.edits.append((root.start, root.end, f'crate::{self.scope.std}'))
            elif not here and name not in ('self', 'super') and (in_use or name not in NUMBERS):
                self.fail(f'the path begins at {name}, which is neither a crate listed for it nor a name of this file', root.start)
        for token in self.machines:
            if MACHINE not in self.declared:
                if not self.scope.std:
                    self.fail(f'{MACHINE} is not understood here', token.start)
                self.edits.append((token.start, token.start, f'crate::{self.scope.std}::rt::'))

    def document(self):
        """Comments directly above an item, field or variant are its documentation; the first lines are the file's."""
        alone = {self.line(start): start for start, is_alone in self.comments if is_alone}
        line = 1
        while line in alone:
            self.edits.append((alone[line], alone[line] + 2, '//!'))
            del alone[line]
            line += 1
        for place in self.documented:
            line = self.line(place) - 1
            while line in alone:
                self.edits.append((alone[line], alone[line] + 2, '///'))
                del alone[line]
                line -= 1

    def edited(self):
        out, at = [], 0
        for start, end, text in sorted(self.edits):
            if start < at:
                self.fail('two changes of one place', start)
            out += [self.text[at:start], text]
            at = end
        return ''.join(out) + self.text[at:]
