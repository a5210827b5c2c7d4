"""From the text of a source to its tree, by the grammar of docs/language.md."""

import re
from typing import NamedTuple

from . import tree
from .forms import TAKEN, Forms

KEYWORDS = set(
    "pipe start uint comb delayed lock queue bypass rename if else call spec_call verify spec_check spec_barrier "
    "reserve acquire block release cat zext sext lts R W".split()
)
# The keywords that come with a form. Without it they are names.
FORM_KEYWORDS = {Forms.UPDATE: "update", Forms.ADVISORY: "advisory"}
TOKEN = re.compile(
    r"(?P<space>[ \t\r\n]+|//[^\n]*)"
    r"|(?P<literal>[0-9]+'(?:d[0-9]+|h[0-9a-f]+))"
    r"|(?P<number>[0-9]+)"
    r"|(?P<name>[a-z][a-z0-9_]*|[RW])"
    r"|(?P<symbol>---|==|!=|<<|>>|<-|[()\[\]{}<>:;,=+*&|^~?-])"
)
# The binary operators, from the loosest to the tightest.
LEVELS = [["|"], ["^"], ["&"], ["==", "!="], ["<"], ["<<", ">>"], ["+", "-"], ["*"]]
MOST_BRACKETS = 64
MOST_OPERATORS = 256


class Refused(Exception):
    """A source is refused: by which rule, and at which line."""

    def __init__(self, rule, line):
        super().__init__(f"refused {rule} line {line}")
        self.rule, self.line = rule, line


class Token(NamedTuple):
    kind: str
    text: str
    line: int


def is_too_long(kind, text):
    """Whether a name is too long, or the digits of a number or literal are too many."""
    if kind == "name":
        return len(text) > 32
    if kind == "number":
        return len(text) > 10
    if kind == "literal":
        width, digits = text.split("'")
        return len(width) > 10 or len(digits) > 1 + (39 if digits[0] == "d" else 32)
    return False


def tokens(text, forms=TAKEN):
    """The tokens of a text; the last one is an `end`, or a `bad` one where the bytes begin no token."""
    keywords = KEYWORDS | {word for form, word in FORM_KEYWORDS.items() if form in forms}
    found, at, line = [], 0, 1
    while at < len(text):
        match = TOKEN.match(text, at)
        if match is None or is_too_long(match.lastgroup, match.group()):
            return [*found, Token("bad", text[at], line)]
        kind, piece = match.lastgroup, match.group()
        if kind != "space":
            found.append(Token("keyword" if piece in keywords else kind, piece, line))
        line += piece.count("\n")
        at = match.end()
    return [*found, Token("end", "", line)]


class Parser:
    """Reads a text token by token. The first token that is out of place is refused as G1."""

    def __init__(self, text, forms=TAKEN):
        self.forms = forms
        self.tokens = tokens(text, forms)
        self.at = 0
        self.open = 0
        self.operators = 0

    # Single tokens

    def sees(self, text):
        """Whether the next token is this keyword or symbol."""
        token = self.tokens[self.at]
        return token.kind in ("keyword", "symbol") and token.text == text

    def refuse(self):
        raise Refused("G1", self.tokens[self.at].line)

    def advance(self):
        token = self.tokens[self.at]
        if token.text in ("(", "[", "{"):
            if self.open == MOST_BRACKETS:
                self.refuse()
            self.open += 1
        if token.text in (")", "]", "}"):
            self.open -= 1
        self.at += 1
        return token

    def take(self, text):
        """The next token, which has to be this keyword or symbol."""
        return self.advance() if self.sees(text) else self.refuse()

    def skip(self, text):
        """Goes past this keyword or symbol where it stands here, and says whether it did."""
        if self.sees(text):
            self.advance()
            return True
        return False

    def of_kind(self, kind):
        return self.advance().text if self.tokens[self.at].kind == kind else self.refuse()

    def name(self):
        return self.of_kind("name")

    def number(self):
        return int(self.of_kind("number"))

    def one_of(self, texts):
        return self.advance().text if any(self.sees(text) for text in texts) else self.refuse()

    def count_operator(self):
        """Another operator of this statement, which is the next token."""
        self.operators += 1
        if self.operators > MOST_OPERATORS:
            self.refuse()

    def line(self):
        return self.tokens[self.at].line

    def separated(self, read):
        """One or more of something, with commas between."""
        found = [read()]
        while self.skip(","):
            found.append(read())
        return tuple(found)

    # The pipe

    def pipe(self):
        self.take("pipe")
        name = self.name()
        self.take("(")
        parameters = self.separated(self.parameter)
        self.take(")")
        self.take("[")
        memories = self.separated(self.memory)
        self.take("]")
        body, end_line = self.items()
        start_line = self.line()
        self.take("start")
        start_name = self.name()
        self.take("(")
        start = self.separated(self.literal)
        self.take(")")
        self.take(";")
        if self.tokens[self.at].kind != "end":
            self.refuse()
        return tree.Pipe(name, parameters, memories, body, end_line, start_line, start_name, start)

    def type(self):
        self.take("uint")
        self.take("<")
        width = self.number()
        self.take(">")
        return width

    def parameter(self):
        line, name = self.line(), self.name()
        self.take(":")
        return tree.Parameter(line, name, self.type())

    def memory(self):
        line, name = self.line(), self.name()
        self.take(":")
        width = self.type()
        self.take("[")
        depth = self.number()
        self.take("]")
        kind = self.one_of(["comb", "delayed", *(["advisory"] if Forms.ADVISORY in self.forms else [])])
        lock, size = None, 0
        if kind != "advisory" and self.skip("lock"):
            lock = self.one_of(["queue", "bypass", "rename"])
            self.take("(")
            size = self.number()
            self.take(")")
        return tree.Memory(line, name, width, depth, kind == "delayed", lock, size, kind == "advisory")

    def items(self):
        """The statements between braces, and the line of the closing one."""
        self.take("{")
        found = []
        while not self.sees("}"):
            found.extend(self.item())
        return tuple(found), self.take("}").line

    # Statements

    def item(self):
        self.operators = 0
        line = self.line()
        if self.tokens[self.at].kind == "name":
            return [self.named(line, self.name())]
        if self.skip("---"):
            return [tree.Separator(line)]
        if self.skip("if"):
            return [self.branching(line)]
        word = self.one_of(
            ["reserve", "acquire", "block", "release", "call", "verify", "spec_check", "spec_barrier",
             *(["update"] if Forms.UPDATE in self.forms else [])])
        self.take("(")
        found = self.keyword_item(line, word)
        self.take(")")
        self.take(";")
        return found

    def keyword_item(self, line, word):
        """What stands between the brackets of a statement that begins with a keyword."""
        if word == "spec_check":
            return [tree.SpecCheck(line)]
        if word == "spec_barrier":
            return [tree.SpecBarrier(line)]
        if word == "call":
            return [tree.Call(line, self.arguments())]
        if word in ("verify", "update"):
            guess = self.name()
            self.take(",")
            return [{"verify": tree.Verify, "update": tree.Update}[word](line, guess, self.arguments())]
        memory, address = self.location()
        if word == "block":
            return [tree.Block(line, memory, address)]
        if word == "release":
            return [tree.Release(line, memory, address)]
        self.take(",")
        reserve = tree.Reserve(line, memory, address, self.one_of(["R", "W"]))
        return [reserve] if word == "reserve" else [reserve, tree.Block(line, memory, address)]

    def location(self):
        memory = self.name()
        self.take("[")
        address = self.name()
        self.take("]")
        return memory, address

    def named(self, line, name):
        """The rest of a statement that begins with a name."""
        if self.skip("<-"):
            found = tree.Ask(line, name, *self.location())
        elif self.skip("["):
            address = self.name()
            self.take("]")
            self.take("<-")
            found = tree.Write(line, name, address, self.expression())
        else:
            self.take("=")
            found = self.definition(line, name)
        self.take(";")
        return found

    def definition(self, line, name):
        """What stands after `name =`: a guess, a read in this cycle, or an expression."""
        if self.skip("spec_call"):
            self.take("(")
            arguments = self.arguments()
            self.take(")")
            return tree.SpecCall(line, name, arguments)
        here, following, third = [*self.tokens[self.at : self.at + 3], None, None][:3]
        if here.kind == "name" and following.text == "[" and third.kind == "name":
            return tree.Read(line, name, *self.location())
        return tree.Bind(line, name, self.expression())

    def branching(self, line):
        self.take("(")
        condition = self.expression()
        self.take(")")
        first, _ = self.items()
        second = self.items()[0] if self.skip("else") else ()
        return tree.If(line, condition, first, second)

    # Expressions

    def arguments(self):
        return self.separated(self.expression)

    def expression(self):
        condition = self.binary(0)
        if not self.sees("?"):
            return condition
        self.count_operator()
        self.take("?")
        first = self.expression()
        self.take(":")
        return tree.Choice(condition, first, self.expression())

    def binary(self, level):
        """Operators of this level and of tighter ones; those of one level group to the left."""
        if level == len(LEVELS):
            return self.inverse()
        found = self.binary(level + 1)
        while any(self.sees(operator) for operator in LEVELS[level]):
            self.count_operator()
            operator = self.advance().text
            found = tree.Binary(operator, found, self.binary(level + 1))
        return found

    def inverse(self):
        if not self.sees("~"):
            return self.primary()
        self.count_operator()
        self.take("~")
        return tree.Inverse(self.inverse())

    def primary(self):
        kind = self.tokens[self.at].kind
        if kind == "literal":
            return self.literal()
        if kind == "name":
            return self.variable()
        if self.skip("("):
            inner = self.expression()
            self.take(")")
            return inner
        return self.function()

    def literal(self):
        width, digits = self.of_kind("literal").split("'")
        return tree.Literal(int(digits[1:], 10 if digits[0] == "d" else 16), int(width))

    def variable(self):
        name = self.name()
        if not self.skip("["):
            return tree.Variable(name)
        high = self.number()
        self.take(":")
        low = self.number()
        self.take("]")
        return tree.Slice(name, high, low)

    def function(self):
        """`cat`, `lts`, `zext` or `sext` of its two arguments."""
        if any(self.sees(name) for name in ("cat", "lts", "zext", "sext")):
            self.count_operator()
        name = self.one_of(["cat", "lts", "zext", "sext"])
        self.take("(")
        left = self.expression()
        self.take(",")
        if name in ("cat", "lts"):
            found = tree.Binary(name, left, self.expression())
        else:
            found = tree.Extension(left, self.number(), name == "sext")
        self.take(")")
        return found


def parse(text, forms=TAKEN):
    """The pipe of a source text; `Refused` where the text isn't in the grammar."""
    return Parser(text, forms).pipe()
