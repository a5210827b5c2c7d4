"""The tokens of a definition, and its parts: the lines of each clause."""

import re
from typing import NamedTuple

TOKEN = re.compile(
    r"(?P<space>\s+)|(?P<text>\"(?:[^\"\\]|\\.)*\")|(?P<number>\d+)"
    r"|(?P<name>[^\W\d][\w']*(?:\.[^\W\d][\w']*)*)|(?P<part>(?<=[\w')}])\.(?:[^\W\d][\w']*|\d+))"
    r"|(?P<sign>\[\]|\+\+|-ℤ|\+ℤ|==|&&|\|\||[∷+\-*/%^(){};,=.λ:≡≤<→×⊎≢])")
KEYWORDS = {"λ", "if", "then", "else", "let", "in", "record", "where"}


class Unreadable(Exception):
    """A definition has a form that isn't read."""


class Token(NamedTuple):
    kind: str
    text: str


def tokens(text):
    """The tokens of a text."""
    found, at = [], 0
    while at < len(text):
        match = TOKEN.match(text, at)
        if match is None:
            raise Unreadable(f"no token: {text[at : at + 20]}")
        kind, piece = match.lastgroup, match.group()
        if piece in KEYWORDS or kind == "sign":
            kind = piece
        if kind != "space":
            found.append(Token(kind, piece))
        at = match.end()
    return found


def without_comment(row):
    """A line without its comment; `--` in a text begins none."""
    found = re.match(r"((?:[^\"-]|\"(?:[^\"\\]|\\.)*\"|-(?!-))*)", row)
    return found[1].rstrip()


def indent(row):
    return len(row) - len(row.lstrip())


class Function(NamedTuple):
    """A name with its type and its clauses, each a text; of a clause with `where`, what stands there follows it."""
    name: str
    type: str
    clauses: list


def functions(rows):
    """The functions that lines define, which are indented alike."""
    head = re.compile(r"(?:abbrev |unfoldable )?(?:pub )?([^\W\d][\w']*)(?: \{\w+\})? :(?: |$)")
    found, at = [], 0
    while at < len(rows):
        match = head.match(rows[at].strip())
        at += 1
        if match:
            end = at
            while end < len(rows) and not (indent(rows[end]) <= indent(rows[at - 1]) and head.match(rows[end].strip())):
                end += 1
            found.append(function(match[1], rows[at - 1 : end]))
            at = end
    return found


def function(name, rows):
    """A function of its lines: those of its type, and then clauses, each from a line that begins with the name on."""
    begins = [k for k, row in enumerate(rows)
              if k and indent(row) == indent(rows[0]) and re.match(rf"{re.escape(name)}[ =]", row.strip() + " ")]
    parts = [rows[a:b] for a, b in zip([0, *begins], [*begins, len(rows)])]
    return Function(name, "\n".join(parts[0]), [clause(part) for part in parts[1:]])


def clause(rows):
    """The text of a clause, and the functions of its `where`."""
    at = next((k for k, row in enumerate(rows) if row.strip() == "where"), len(rows))
    return "\n".join(rows[:at]), functions(rows[at + 1 :])
