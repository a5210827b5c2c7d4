"""The rows of tests/, as .ci/rows says how they are written."""

import pathlib
import re
from typing import NamedTuple

TOP = pathlib.Path(__file__).resolve().parent.parent.parent
PIECE = re.compile(r"\s*(?:`([^`]*)`|([A-Za-z0-9_]+))(?:\*(\d+)|\.\.(\d+))?")
ESCAPE = re.compile(r"\\(n|t|\\|x[0-9a-f]{2})")
WORD = re.compile(r"\s*(`[^`]*`|[^ `]+)")


class Row(NamedTuple):
    """Where a row stands, the words that it asks, each file among them as its text, and its answer: a status and a text.

    A text of which the answer has one line stands in `line`.
    """
    place: str
    words: tuple
    status: int
    text: str
    line: bool


def plain(text):
    def of(found):
        told = found[1]
        return {"n": "\n", "t": "\t", "\\": "\\"}.get(told) or chr(int(told[1:], 16))
    return ESCAPE.sub(of, text)


class Rows:
    """Reads one file of rows."""

    def __init__(self, path):
        self.path, self.named, self.held, self.asked, self.last, self.found = path, {}, {}, "", "", []
        for number, line in enumerate(path.read_text("latin-1").split("\n"), 1):
            self.number = number
            self.take(line)

    def take(self, line):
        first = line.split(" ")[0]
        if line.startswith("|"):
            self.named[self.last] += line[1:] + "\n"
        elif first == "text":
            self.last = line.split(" ")[1]
            self.named[self.last] = self.text(line[5 + len(self.last) :])[0]
        elif first == "ask":
            self.asked = line[4:]
        elif first == "file":
            name = line.split(" ")[1]
            self.held[name] = line[6 + len(name) - 1 :]
        elif first == "row":
            self.row(*self.text(line[4:]))
        elif first == "prefixes":
            self.prefixes(*self.text(line[9:]))

    def text(self, line):
        """The text of pieces up to a colon or the end, and what follows that."""
        made, at = "", 0
        while line[at:].strip() and not line[at:].lstrip().startswith(": "):
            piece = PIECE.match(line, at)
            told = plain(piece[1]) if piece[1] is not None else self.named[piece[2]]
            if piece[3]:
                told *= int(piece[3])
            if piece[4]:
                room = int(piece[4]) - len(made)
                told = (told * (room // max(len(told), 1) + 1))[:room] if len(told) == 1 else told * room
            made, at = made + told, piece.end()
        return made, line[at:].lstrip()[2:]

    def row(self, own, answer):
        self.named["_"] = own
        words = tuple(self.word(found) for found in WORD.findall(self.asked))
        status, text, line = self.answer(answer)
        self.found.append(Row(f"tests/{self.path.name} line {self.number}", words, status, text, line))

    def word(self, word):
        """A word as it is, or the text of a file."""
        if word in self.held:
            return "file", self.text(self.held[word])[0]
        if word.startswith("`"):
            return "word", plain(word[1:-1])
        if word.startswith("examples/") and (TOP / word).is_file():
            return "file", (TOP / word).read_text("latin-1")
        return "word", word

    def answer(self, told):
        """The status, the text, and whether this is one line of what is printed."""
        if told[:1].isdigit():
            return int(told[0]), self.text(told[1:])[0], False
        if told.startswith("line "):
            return 0, self.text(told[5:])[0] + "\n", True
        status = {"accepted": 0, "usage": 1, "refused": 2, "read": 3, "full": 4, "no": 5}[told.split(" ")[0]]
        return status, told + "\n", False

    def prefixes(self, whole, answer):
        for size in range(len(whole)):
            own = whole[:size]
            self.row(own, re.sub(r"line end$", f"line {own.count(chr(10)) + 1}", answer))


def rows_of(names=()):
    """The rows of these files of tests/, or of all."""
    paths = [TOP / "tests" / name for name in names] or sorted((TOP / "tests").iterdir())
    return [row for path in paths for row in Rows(path).found]
