"""The relations of the grammar as rules of an Earley parser, which gives what the definitions of a pipe's text say.

A constructor is a rule: the tokens of its row, and between them the relations of its premises.
"""

import re
from itertools import product

from . import lexer, library
from .library import Made
from .reader import Reader
from .writer import Writer

PLACE = "pdl_syntax_grammar", "Grammar"
# A value for a name that no token binds, of which the definitions say that it may be any.
ANY = {"Word": library.Record(text=(), span=library.Record(start=0, end=0, line=0)), "ℕ": 0, "Option ℕ": library.NOTHING}
FINITE = {"Kind": [Made("R"), Made("W")], "LockKind": [Made("Queue"), Made("Bypass"), Made("Rename")], "Bool": [True, False]}


class Rule:
    """What a constructor says for fixed arguments of its relation."""
    __slots__ = "key", "symbols", "value", "known", "source"

    def __init__(self, key, symbols, value, known, source):
        """The relation's key, the symbols that stand for it, how its value is found from what these bind; its constructor."""
        self.key, self.symbols, self.value, self.known, self.source = key, symbols, value, known, source


def constructors(text):
    """Each relation's constructors: its name, and the text of each."""
    rows = [lexer.without_comment(row) for row in text.split("\n")]
    relation, found = None, []
    for row in rows:
        head = re.match(r"\s*pub data (\w+)", row)
        if head:
            relation = head[1]
        elif row.strip() and lexer.indent(row) == 0 or row.strip().startswith(("abbrev", "pub record", "mutual")):
            relation = None
        elif relation and re.match(r" +\w+ : ", row):
            found.append([relation, row.split(" : ", 1)[1]])
        elif relation and row.strip():
            found[-1][1] += " " + row.strip()
    return found


def outside(text, sign):
    """The parts of a text that a sign separates outside brackets."""
    parts, depth, at = [""], 0, 0
    while at < len(text):
        depth += (text[at] in "({") - (text[at] in ")}")
        if depth == 0 and text.startswith(sign, at):
            parts.append("")
            at += len(sign)
            continue
        parts[-1] += text[at]
        at += 1
    return [part.strip() for part in parts]


def binders(text):
    """The names that groups before a constructor bind, with their types, and what follows them."""
    told = {}
    while found := re.match(r"\s*[{(]([\w ]+) : ([^{}()]*)[})](?: → | )?", text):
        told |= {name: found[2].strip() for name in found[1].split()}
        text = text[found.end():]
    return told, text


class Grammar:
    """The rules of the relations of a text."""

    def __init__(self, all_definitions, text):
        self.all = all_definitions
        self.rules, self.made = {}, {}
        for relation, it in constructors(text):
            self.made.setdefault(relation, []).append(binders(it))

    def others(self, grammar):
        """The constructors that are others in another grammar."""
        return {(name, k) for name, made in self.made.items() for k, it in enumerate(made)
                if [it] != grammar.made[name][k : k + 1]}

    def evaluate(self, tree, known):
        """The value of a tree, where names have these values."""
        writer = Writer(lambda name: self.all.find(PLACE, name), self.all.facts)
        written = writer.write(tree, {name: f"known[{name!r}]" for name in known})
        return eval(written, self.all.space, {"known": known}) if "lambda" not in written else None

    def compiled(self, tree, names):
        writer = Writer(lambda name: self.all.find(PLACE, name), self.all.facts)
        written = writer.write(tree, {name: f"known[{name!r}]" for name in names})
        return eval(f"lambda known: {written}", self.all.space)

    def of(self, key):
        """The rules of a relation with its fixed arguments."""
        if key not in self.rules:
            self.rules[key] = [rule for number in range(len(self.made[key[0]])) for rule in self.rules_of(key, number)]
        return self.rules[key]

    def rules_of(self, key, number):
        """The rules of one constructor, the one of this number, for these arguments."""
        told, text = self.made[key[0]][number]
        *premises, conclusion = [Reader(part).joined(1) if "≡" not in part else part for part in outside(text, "→")]
        if conclusion[1][1] != key[0]:
            raise lexer.Unreadable(f"{conclusion[1][1]} as a constructor of {key[0]}")
        found = []
        for known in self.choices(told, premises):
            known = self.fixed(conclusion[2][: len(key) - 1], key[1:], known)
            if known is not None:
                asked = [it for it in premises if not isinstance(it, str)]
                known = {name: ANY[kind] for name, kind in told.items() if kind in ANY} | known
                symbols = self.symbols(conclusion[2][-2], conclusion[2][-1], asked, known)
                names = set(known) | set(told)
                found.append(Rule(key, symbols, self.compiled(conclusion[2][-3], names), known, (key[0], number)))
        return found

    def choices(self, told, premises):
        """What the names of small types, and those of an equation, may be."""
        small = [(name, FINITE[kind]) for name, kind in told.items() if kind in FINITE]
        choices = [dict(zip([name for name, _ in small], values)) for values in product(*[values for _, values in small])]
        if any(isinstance(it, str) for it in premises):
            choices = [{**it, "m": mark, "op": op} for it in choices for mark, op in self.operators()]
        return choices

    def operators(self):
        """The marks of operators, each with its operator."""
        operator_of = self.all[*PLACE, "operator_of"]
        pairs = [(mark, operator_of(mark)) for mark in self.marks()]
        return [(mark, op.parts[0]) for mark, op in pairs if op.name == "Some"]

    def marks(self):
        tokens = "pdl_syntax_tokens", "Tokens"
        return [it.mark for name in ("keywords", "symbols") for it in library.items(self.all[*tokens, name]())]

    def fixed(self, trees, values, known):
        """The known names with those that fixed arguments of a conclusion bind, or None where these differ."""
        for tree, value in zip(trees, values):
            if tree[0] == "name" and tree[1] not in known and tree[1][0].islower() or tree == ("name", "Rule"):
                known = {**known, tree[1]: value}
            elif tree[0] == "call" and tree[1] == ("name", "suc") and tree[2][0][0] == "name" and tree[2][0][1] not in known:
                if value == 0:
                    return None
                known = {**known, tree[2][0][1]: value - 1}
            elif self.evaluate(tree, known) != value:
                return None
        return known

    def symbols(self, row, end, premises, known):
        """The symbols of a row up to its end: tokens, and relations in the place of rows."""
        found = []
        while row != end:
            row = self.spread(row)
            if row[0] == "sign":
                found.append(("token", *self.token(row[2], known)))
                row = row[3]
                continue
            premise = next(it for it in premises if it[2][-2] == row)
            found.append(("relation", self.key(premise, known), premise[2][-3][1]))
            row = premise[2][-1]
        return found

    def spread(self, row):
        """A row that a definition gives, with that written out."""
        if row[0] == "call":
            patterns, body, _ = self.all.read[*PLACE, row[1][1]][0]
            return replaced(body, {pattern[1]: tree for pattern, tree in zip(patterns, row[2])})
        return row

    def token(self, tree, known):
        """The name of a token, what it has to be, and the names of its parts."""
        called, (word, kind) = tree[1][1], tree[2]
        if called == "at":
            return word[1], Made("Mark", (self.evaluate(kind, known),)), ()
        if kind[0] == "call":
            return word[1], Made(kind[1][1].split(".")[-1]), tuple(name for _, name in kind[2])
        return word[1], self.evaluate(kind, known), ()

    def key(self, premise, known):
        """A relation with its fixed arguments."""
        return premise[1][1] if premise[1][1] not in known else known[premise[1][1]], *[
            tree[1] if tree[1] in self.made else self.evaluate(tree, known) for tree in premise[2][:-3]]


def replaced(tree, values):
    """A tree with others in the places of names."""
    if isinstance(tree, tuple) and tree and tree[0] == "name":
        return values.get(tree[1], tree)
    if isinstance(tree, (tuple, list)):
        return type(tree)(replaced(part, values) for part in tree)
    return tree


class Misplaced(Exception):
    """The number of the first token out of place."""


class Ambiguous(Exception):
    """Some tokens are two values of a relation."""


class Parser:
    """Reads tokens by a grammar: its state is, for each token, the rules that are read so far."""

    def __init__(self, grammar):
        self.grammar, self.key, self.read, self.columns = grammar, None, [], []

    def parse(self, key, tokens):
        """The value of a relation for all tokens; `Misplaced` where no text begins so.

        What was read before is kept as far as it is the same.
        """
        self.begin(key)
        same = next((k for k, (old, new) in enumerate(zip(self.read, tokens)) if old != new), min(len(self.read), len(tokens)))
        self.read, self.columns = self.read[:same], self.columns[: same + 1]
        for token in tokens[same:]:
            self.go_on(token)
        if (key, 0) not in self.columns[-1].done:
            raise Misplaced(len(tokens))
        if any(column.twice for column in self.columns):
            raise Ambiguous
        return self.columns[-1].done[key, 0]

    def begin(self, key):
        if key != self.key:
            self.key, self.read, self.columns = key, [], [Column(self.grammar)]
            self.columns[0].begin(key)
            self.columns[0].close(self.columns, 0)

    def go_on(self, token):
        """Reads a token more."""
        column = Column(self.grammar)
        for (rule, dot, start), known in self.columns[-1].items.items():
            if dot < len(rule.symbols) and rule.symbols[dot][0] == "token":
                more = read_token(rule.symbols[dot], token)
                if more is not None:
                    column.add(rule, dot + 1, start, {**known, **more})
        if not column.items:
            raise Misplaced(len(self.read))
        self.columns.append(column)
        column.close(self.columns, len(self.read) + 1)
        self.read.append(token)

    def used(self):
        """The constructors that end somewhere in what was read."""
        return frozenset(source for column in self.columns for source in column.used)


def read_token(symbol, token):
    """What a token binds where it is the one that is asked."""
    _, name, kind, parts = symbol
    if token.kind.name != kind.name or not parts and token.kind != kind:
        return None
    return {name: library.Record(text=token.text, span=token.span), **dict(zip(parts, token.kind.parts))}



class Column:
    """The rules that are read up to a token, each with the place where it began, and the relations that end there."""

    def __init__(self, grammar):
        self.grammar, self.items, self.left, self.done, self.begun, self.waiting = grammar, {}, [], {}, set(), {}
        self.pending, self.used, self.twice = [], set(), False

    def add(self, rule, dot, start, known):
        key = rule, dot, start
        if key not in self.items:
            self.items[key] = known
            self.left.append(key)

    def begin(self, key):
        if key not in self.begun:
            self.begun.add(key)
            self.pending.append(key)

    def close(self, columns, here):
        """Goes on with rules until nothing is added."""
        while self.left or self.pending:
            if self.pending:
                self.add_all(self.grammar.of(self.pending.pop()), here)
            else:
                self.go_on(columns, here, *self.left.pop())

    def add_all(self, rules, here):
        for rule in rules:
            self.add(rule, 0, here, rule.known)

    def go_on(self, columns, here, rule, dot, start):
        known = self.items[rule, dot, start]
        if dot == len(rule.symbols):
            self.end(columns, rule, start, rule.value(known))
            self.used.add(rule.source)
        elif rule.symbols[dot][0] == "relation":
            _, key, name = rule.symbols[dot]
            self.waiting.setdefault(key, []).append((rule, dot, start))
            self.begin(key)
            if (key, here) in self.done:
                self.add(rule, dot + 1, start, {**known, name: self.done[key, here]})

    def end(self, columns, rule, start, value):
        if (rule.key, start) in self.done:
            self.twice = self.twice or self.done[rule.key, start] != value
            return
        self.done[rule.key, start] = value
        column = columns[start]
        for waits, dot, begun in list(column.waiting.get(rule.key, [])):
            known = column.items[waits, dot, begun]
            self.add(waits, dot + 1, begun, {**known, waits.symbols[dot][2]: value})
