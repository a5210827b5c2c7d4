"""From the tokens of a clause to trees, which are tuples that begin with a word."""

from .lexer import Token, Unreadable, tokens

# How tightly signs bind, and which group to the right.
TIGHT = {"||": 1, "&&": 2, "==": 4, "<": 4, "≤": 4, "∷": 5, "++": 5,
         "+": 6, "-": 6, "+ℤ": 6, "-ℤ": 6, "*": 7, "/": 7, "%": 7, "^": 8}
TO_RIGHT = {"∷", "++", "&&", "||", "^"}
ATOMS = {"name", "number", "text", "[]", "("}


class Reader:
    """Reads tokens one by one."""

    def __init__(self, text):
        self.tokens = [*tokens(text), Token("end", "")]
        self.at = 0

    def sees(self, *kinds):
        return self.tokens[self.at].kind in kinds

    def take(self, kind):
        token = self.tokens[self.at]
        if token.kind != kind:
            raise Unreadable(f"{token.text} where {kind} is due")
        self.at += 1
        return token.text

    def skip(self, kind):
        if self.sees(kind):
            self.at += 1
            return True
        return False

    # Expressions

    def expression(self):
        if self.skip("λ"):
            names = self.binders()
            return "function", names, self.expression()
        if self.skip("let"):
            name = self.take("name")
            self.take("=")
            value = self.expression()
            self.take("in")
            return "let", name, value, self.expression()
        if self.skip("if"):
            condition = self.expression()
            self.take("then")
            first = self.expression()
            self.take("else")
            return "if", condition, first, self.expression()
        return self.joined(1)

    def binders(self):
        """The names that a function takes, up to the point."""
        names = []
        while not self.skip("."):
            if self.skip("("):
                names.append(self.take("name"))
                while not self.skip(")"):
                    self.at += 1
            else:
                names.append(self.take("name"))
        return names

    def joined(self, least):
        """Operands with the signs between them that bind so tightly at least."""
        found = self.application()
        while TIGHT.get(self.tokens[self.at].kind, 0) >= least:
            sign = self.tokens[self.at].kind
            self.at += 1
            found = "sign", sign, found, self.operand(TIGHT[sign] + (sign not in TO_RIGHT))
        return found

    def operand(self, least):
        return self.expression() if self.sees("λ", "let", "if") else self.joined(least)

    def application(self):
        if self.sees("record"):
            return self.record()
        found = self.atom()
        arguments = []
        while self.sees(*ATOMS, "record"):
            arguments.append(self.record() if self.sees("record") else self.atom())
        return ("call", found, arguments) if arguments else found

    def atom(self):
        found = self.plain_atom()
        while self.sees("part"):
            found = "part", found, self.take("part")[1:]
        return found

    def plain_atom(self):
        if self.sees("name"):
            return "name", self.take("name")
        if self.sees("number"):
            return "number", int(self.take("number"))
        if self.sees("text"):
            return "text", self.take("text")
        if self.skip("[]"):
            return ("nil",)
        self.take("(")
        found = self.expression()
        while self.skip(","):
            found = "pair", found, self.expression()
        self.take(")")
        return found

    def record(self):
        """A record, or one with some of its parts changed."""
        self.take("record")
        old = None if self.sees("{") else self.atom()
        self.take("{")
        parts = []
        while not self.skip("}"):
            name = self.take("name")
            self.take("=")
            parts.append([name, self.expression()])
            self.skip(";")
        return "record", old, parts

    # Patterns

    def patterns(self):
        """The patterns up to `=`."""
        found = []
        while not self.skip("="):
            found.append(self.pattern_atom())
        return found

    def pattern_atom(self):
        if self.sees("name"):
            return "name", self.take("name")
        if self.sees("number"):
            return "number", int(self.take("number"))
        if self.skip("[]"):
            return ("nil",)
        self.take("(")
        found = self.pattern()
        while self.skip(","):
            found = "pair", found, self.pattern()
        self.take(")")
        return found

    def pattern(self):
        parts = [self.pattern_atom()]
        while self.sees(*ATOMS):
            parts.append(self.pattern_atom())
        found = parts[0] if len(parts) == 1 else ("call", parts[0], parts[1:])
        return ("sign", "∷", found, self.pattern()) if self.skip("∷") else found


def clause(name, text):
    """The patterns and the body of a clause of this name."""
    reader = Reader(text)
    if reader.take("name") != name:
        raise Unreadable(f"no clause of {name}: {text}")
    patterns = reader.patterns()
    body = reader.expression()
    reader.take("end")
    return patterns, body
