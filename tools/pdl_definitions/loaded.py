"""All definitions of some crates, as Python functions in one place."""

import sys

import definitions

from . import lexer, library, reader, writer

LIBRARIES = ("std", "toml", "core")


class Constant:
    """A definition without arguments, found once."""
    takes = 0

    def __init__(self, make):
        self.make, self.known = make, []

    def __call__(self):
        if not self.known:
            self.known.append(self.make())
        return self.known[0]


class Texts(dict):
    """Texts as lists of bytes."""

    def __missing__(self, text):
        self[text] = library.codes(text)
        return self[text]


class Definitions:
    """The functions that specs/ of the crates define, by crate, file and name."""

    def __init__(self, crates):
        sys.setrecursionlimit(1 << 30)
        self.sources, self.imports, self.read, self.failed = {}, {}, {}, {}
        self.space = {name: getattr(library, name) for name in
                      ("apply", "joined", "minus", "over", "modulo", "Made", "Record", "Later", "Partly", "now", "NAMES")}
        # The functions that were called.
        self.seen = set()
        self.space |= {"TEXTS": Texts(), "SEEN": self.seen}
        for crate in crates:
            self.add_crate(crate)
        self.define_all()

    def add_crate(self, crate):
        for path in sorted((definitions.TOP / "crates" / crate / "specs").glob("*.antt")):
            self.add(crate, path.stem, path.read_text())

    def define_all(self):
        """Makes each function whose names are all there."""
        for key in self.read:
            try:
                self.define(key)
            except KeyError as why:
                self.failed[key] = f"no {why}"

    def add(self, crate, file, text):
        """The functions of a file; those that give types aren't read."""
        rows = text.split("\n")
        self.imports[crate, file] = definitions.imports_of(rows)
        for it in functions_of(rows):
            if not gives_type(it.type) and it.clauses:
                self.sources[crate, file, it.name] = it
                self.note((crate, file, it.name), it)

    def note(self, key, it):
        try:
            self.read[key] = read(it)
        except lexer.Unreadable as why:
            self.failed[key] = str(why)

    def define(self, key):
        """Makes a function of what was read."""
        clauses = self.read[key]
        late = writer.late_arguments(clauses)
        written = writer.Writer(lambda name: self.find(key[:2], name), self.facts)
        written.function(self.name(key), clauses, late)
        exec(compile("\n".join(written.lines), ".".join(key), "exec"), self.space)
        if not clauses[0][0]:
            self.space[self.name(key)] = Constant(self.space[self.name(key)])

    @staticmethod
    def name(key):
        return writer.plain("__".join(key))

    def facts(self, name):
        """How many arguments a function takes, and which of them may be put off."""
        clauses = self.read[tuple(self.keys[name])]
        return len(clauses[0][0]), writer.late_arguments(clauses)

    @property
    def keys(self):
        if not hasattr(self, "by_name") or len(self.by_name) != len(self.read):
            self.by_name = {self.name(key): key for key in self.read}
        return self.by_name

    def find(self, place, name):
        """What a name of a file stands for, and the parts of it that are asked."""
        head, *parts = name.split(".")
        if (*place, head) in self.read:
            return "function", self.name((*place, head)), parts
        path, there = self.imports[place].get(head, (None, None))
        if path is None:
            return self.builtin(head), head, parts
        if there is None:
            there, *parts = parts
        return (*self.found(path, there), parts)

    @staticmethod
    def builtin(head):
        if head in library.NAMES:
            return "library"
        if head[0].isupper():
            return "made"
        raise KeyError(head)

    def found(self, path, name):
        """What a name of another file stands for."""
        pieces = path.split(".")
        if pieces[1] in LIBRARIES and (name in library.NAMES or name == "cond"):
            return "library", name
        onward = self.imports.get((pieces[1], "Lib"), {}).get(".".join(pieces[3:4]))
        if onward:
            return self.found(".".join([onward[0], *pieces[4:]]), name)
        key = (pieces[1], ".".join(pieces[3:]), name)
        if key in self.read:
            return "function", self.name(key)
        if name[0].isupper():
            return "made", name
        raise KeyError(f"{path}.{name}")

    def __getitem__(self, key):
        return self.space[self.name(key)]

    def changed(self, key, it):
        """Puts another function in the place of one, until `restored`."""
        self.kept = key, self.read[key], self.space[self.name(key)]
        clauses = read(it)
        self.read[key] = clauses
        try:
            self.define(key)
        except KeyError:
            self.restored()
            raise
        self.forget()

    def restored(self):
        key, clauses, made = self.kept
        self.read[key], self.space[self.name(key)] = clauses, made
        self.forget()

    def forget(self):
        for it in self.space.values():
            if isinstance(it, Constant):
                it.known.clear()


def functions_of(rows):
    """All functions of a file."""
    rows = [lexer.without_comment(row) for row in rows]
    begins = [k for k, row in enumerate(rows) if definitions.BEGINS.match(row)]
    for begin in begins:
        end = begin + 1
        while end < len(rows) and not (definitions.BEGINS.match(rows[end]) or definitions.USE.match(rows[end])):
            end += 1
        block = [row for row in rows[begin:end] if row.strip()]
        if block[0].startswith(("abbrev mutual", "mutual", "unfoldable mutual")):
            yield from lexer.functions(block[1:])
        elif block[0].startswith(("abbrev", "unfoldable")):
            yield from lexer.functions(block)


def gives_type(text):
    return text.rstrip().endswith("Type 0")


def read(it):
    """The clauses of a function: patterns, body and the functions inside."""
    found = []
    for text, inside in it.clauses:
        patterns, body = reader.clause(it.name, text)
        local = [(sub.name, [reader.clause(sub.name, piece) for piece, _ in sub.clauses]) for sub in inside]
        found.append((patterns, body, local))
    return found
