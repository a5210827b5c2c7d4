#!/usr/bin/env python3
"""Changes definitions by one step each, and says which changes the worked rows and lemmas of their crate let through.

    definition_mutants.py [--write] CRATE FILE..

FILE is a file of the crate's specs/, as Forks. Of each line of a definition it makes the texts that differ in one place: a
comparison by one, a sum for a difference, `and` for `or`, `true` for `false`, a number by one, a choice the wrong way round, a
test left out. It prints how many there are. With --write it puts them as edits into the crate's must-fail/, with names that
begin with `mutant_`, each of which has to be refused. `rt must-fail CRATE` then tries them: what it says is not refused is a
definition that could be wrong without notice, or a line that means the same. Do this in a clone, and throw that away.
"""

import pathlib
import re

import definitions
import usage

TOP = pathlib.Path(__file__).resolve().parent.parent
SWAPS = [(" < ", " ≤ "), (" ≤ ", " < "), (" + ", " - "), (" - ", " + "), (" && ", " || "), (" || ", " && "), (" ⊎ ", " × "),
         (" == ", " < "), ("true", "false"), ("false", "true"), ("Some", "None"), (" ++ ", None), ("nat_le", "nat_lt"),
         ("nat_lt", "nat_le"), (".from", ".to"), (".to", ".from"), (".span.line", ".span.start"), ("suc ", "")]


def numbered(row):
    """The row with each number one more, and where it isn't 0 one less."""
    for found in re.finditer(r"(?<![\w.])\d+(?![\w.])", row):
        for other in {int(found[0]) + 1, max(int(found[0]) - 1, 0)} - {int(found[0])}:
            yield row[:found.start()] + str(other) + row[found.end():]


def turned(row):
    """The row with each choice the wrong way round, and with each test that is turned left as it is."""
    for found in re.finditer(r"\bif (.+?) then (.+?) else (.+)$", row):
        yield f"{row[:found.start()]}if {found[1]} then {found[3]} else {found[2]}"
    for found in re.finditer(r"\bnot \(", row):
        yield row[:found.start()] + row[found.start() + 4:]
    for found in re.finditer(r"\bnot (?=[a-z_])(?!\()", row):
        yield row[:found.start()] + row[found.end():]


def swapped(row):
    """The row with one word or sign for another. Where no other is told, the lists that a `++` joins change places."""
    for old, new in SWAPS:
        for found in re.finditer(re.escape(old) if not old[0].isalpha() else rf"(?<![\w.]){old}(?![\w'])", row):
            if new is not None:
                yield row[:found.start()] + new + row[found.end():]
    found = re.match(r"(.* = )(\S+) \+\+ (\S+)$", row)
    if found:
        yield f"{found[1]}{found[3]} ++ {found[2]}"


LISTED = re.compile(
    r'(?:(?:range|spelt) )?(?:codes "[^"]*"|\(codes "[^"]*"\) [\w.]+|(?<![\w.) ])[a-z]\.\w+|(?<=∷ )[a-z]\.\w+) ∷ ')


def listed(row):
    """The row with each text a byte shorter, with each rule the next of its letter, and with an element of its list left out."""
    for found in re.finditer(r'(codes "[^"]+)(?<!\\)([^"\\])"', row):
        yield row[:found.start()] + found[1] + '"' + row[found.end():]
    for found in re.finditer(r"(?<![\w.])([A-Z])(\d)(?!\w)", row):
        yield row[:found.start()] + found[1] + str(int(found[2]) % 8 + 1) + row[found.end():]
    yield from (row[:found.start()] + row[found.end():] for found in LISTED.finditer(row))


def conditions(row):
    """The row with each condition of a `cond` turned."""
    for found in re.finditer(r"\bcond (?=\()", row):
        end = closing(row, found.end())
        if end:
            yield f"{row[:found.end()]}(not {row[found.end() : end]}){row[end:]}"
    for found in re.finditer(r"\bcond ([a-z][\w.]*)", row):
        yield f"{row[:found.start()]}cond (not {found[1]}){row[found.end():]}"


def closing(row, at):
    """The place after the bracket that closes the one at a place, or none where that stands in another row."""
    depth = 0
    for place in range(at, len(row)):
        depth += (row[place] == "(") - (row[place] == ")")
        if depth == 0:
            return place + 1
    return None


NEXT_MARKS = {"Comma": "Semicolon", "Semicolon": "Comma", "OpenRound": "OpenSquare", "OpenSquare": "OpenRound",
              "CloseRound": "CloseSquare", "CloseSquare": "CloseRound", "OpenBrace": "OpenRound", "CloseBrace": "CloseRound"}
TOKEN_OF_ROW = re.compile(r"(?:at|on) \w+ (?:mark\.\w+|kind\.\w+|\((?:kind|mark_of|lock_mark|pace_mark)[\w. ]*\)) ∷ ")
# What stands in a constructor of the grammar, and what may stand there instead.
RELATED = [
    ("suc (loose op)", "loose op"), ("(loose op)", "(suc (loose op))"), ("Level 0 e", "Full e"), ("Full x", "Level 0 x"),
    ("Full y", "Level 0 y"), ("Full e", "Level 0 e"), ("Full v", "Level 0 v"), ("x y)", "y x)"), ("Choose c x y", "Choose x c y"),
    ("x.span e.span", "e.span x.span"), ("w.span e.span", "e.span w.span"), ("s.span e.span", "e.span s.span"),
    ("m.span e.span", "e.span m.span"), ("end = e.span", "end = k.span"), ("(Reserve (", "(Block ("),
    ("first second", "second first"), ("number h high", "number l low"), ("number l low", "number h high"),
    ("location m a", "location a m"), ("ident x", "ident c"), ("number w n", "number d n")]


def token_mutants(row):
    """A line of a constructor of the grammar with a token left out or another, or with something that is related."""
    yield from (row[:found.start()] + row[found.end():] for found in TOKEN_OF_ROW.finditer(row))
    for found in re.finditer(r"mark\.(\w+)", row):
        yield f"{row[:found.start()]}mark.{NEXT_MARKS.get(found[1], 'Comma')}{row[found.end():]}"
    for old, new in RELATED:
        yield from (row[:found.start()] + new + row[found.end():] for found in re.finditer(re.escape(old), row))


def mutants(row):
    """The texts that differ from a row in one place, each once. The head of a definition, and its patterns, stay as they are."""
    head, sign, body = row.partition(" = ")
    if not sign:
        head, body = "", row
    made = {head + sign + it for by in (numbered, turned, swapped, listed, conditions) for it in by(body)}
    return sorted(made - {row})


def rows_of(path):
    """The rows of a file that define something: no comment, import, head of a record, or type."""
    text = path.read_text()
    for it in definitions.definitions_of(text.split("\n")):
        for row in it.text.split("\n"):
            if row.strip() and not re.match(r"\s*(abbrev|unfoldable|pub|record|data|mutual|private)\b|.* : ", row) and text.count(row) == 1:
                yield row


def edits_of(crate, name):
    """The edits of a file: of each the text that stands once, and the one in its place."""
    path = TOP / "crates" / crate / "specs" / f"{name.replace('.', '/')}.antt"
    if not path.is_file():
        usage.ends(f"`{crate}` has no file {name} in specs/")
    for row in rows_of(path):
        for other in mutants(row):
            yield f"file: {path.relative_to(TOP / 'crates' / crate)}\nold: {row}\nnew: {other}\n"


def main():
    usage.helps(__doc__)
    asked = usage.Words()
    asked.add_argument("crate")
    asked.add_argument("file", nargs="+")
    asked.add_argument("--write", action="store_true")
    it = asked.parse_args()
    for name in it.file:
        made = list(edits_of(it.crate, name))
        print(f"{len(made):5} of {it.crate} {name}")
        for number, text in enumerate(made if it.write else [], 1):
            folder = TOP / "crates" / it.crate / "must-fail"
            folder.mkdir(exist_ok=True)
            (folder / f"mutant_{name.replace('.', '_').lower()}_{number:03}.edit").write_text(text)


if __name__ == "__main__":
    usage.runs(main)
