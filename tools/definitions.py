#!/usr/bin/env python3
"""Lists the definitions that a contract rests on, with their sizes.

    definitions.py [--names | --read] [--without CRATE:FILE:NAME].. [CRATE SOURCE CALL]

It takes the names that the clauses of a public call cite, by default those of `top` (pdl_cli src/program.rt top), and
goes down through every definition that these name in the specs/ of the crates. It prints how many definitions and lines
there are, by crate and file, and with --names each definition, the longest first. With --read it prints the definitions
themselves in their place, each with the line above it and after those that it names, so in an order to read. A definition
of --without is passed over, and what it alone names. Lines are those that are not empty, without the comment above a definition.

What it says is a little too much: a name that a definition binds itself counts as the definition of that name in its file.
Not counted: the standard library, ported crates, and the types of the code, of which it says how many are named.
"""

import collections
import pathlib
import re
import sys

import usage

TOP = pathlib.Path(__file__).resolve().parent.parent
BEGINS = re.compile(r"(?:abbrev|unfoldable|pub|mutual|record|data|private)\b(?! mod\b)(?! use\b)")
USE = re.compile(r"(?:pub |ghost )?(?:ghost )?use ([\w.]+)(?:\.\{(.*)\})?(?: as (\w+))?;?\s*$")
NAMED = re.compile(r"(?<![\w.])([A-Za-z_][\w']*)")


class Definition:
    """The names that a block of lines defines, the lines, those of the comment above, and how many of the lines are not empty."""

    def __init__(self, block, line, comment):
        self.text = re.sub(r"--.*", "", "\n".join(block))
        self.shown = "\n".join(comment + block).rstrip()
        self.line = line
        self.size = sum(1 for row in block if row.strip())
        self.names = set(names_of(block))


def names_of(block):
    """What a block defines: its own name, those of a mutual block, and the constructors of its data."""
    in_mutual = block[0].strip().endswith("mutual")
    in_data = False
    for row in block:
        found = re.match(r"\s*(?:pub )?(record|data) ([A-Za-z_][\w']*)", row)
        if found:
            in_data = found[1] == "data"
            yield found[2]
            continue
        found = re.match(r"(?:abbrev|unfoldable) (?:pub )?([A-Za-z_][\w']*)", row)
        if found and found[1] not in ("mutual", "pub"):
            yield found[1]
        found = re.match(r"\s+pub ([A-Za-z_][\w']*)[^:]* :", row)
        if found and in_mutual:
            yield found[1]
        found = re.match(r"\s+([A-Za-z_][\w' ]*?) :", row)
        if found and in_data:
            yield from found[1].split()


def imports_of(rows):
    """What each name of a file stands for: a path, and a name there, or none where the path itself is named."""
    told = {}
    for row in rows:
        found = USE.match(row)
        if not found:
            continue
        path, names, alias = found.groups()
        if names is None:
            told[alias or path.split(".")[-1]] = path, None
            continue
        for name in filter(None, (part.strip() for part in names.split(","))):
            there, _, here = name.partition(" as ")
            told[(here or there).strip()] = path, there.strip()
    return told


def definitions_of(rows):
    """The definitions of a file, in order."""
    at = 0
    while at < len(rows):
        if not BEGINS.match(rows[at]):
            at += 1
            continue
        end = at + 1
        while end < len(rows) and not (rows[end].startswith("--") or BEGINS.match(rows[end]) or USE.match(rows[end])):
            end += 1
        above = at
        while above and rows[above - 1].startswith("--"):
            above -= 1
        yield Definition(rows[at:end], at + 1, rows[above:at])
        at = end


class Specs:
    """All files of the specs/ of all crates."""

    def __init__(self):
        self.imports, self.own = {}, collections.defaultdict(dict)
        self.types = set()
        for folder in sorted(TOP.glob("crates/*/specs")):
            for path in sorted(folder.rglob("*.antt")):
                place = folder.parent.name, ".".join(path.relative_to(folder).with_suffix("").parts)
                rows = path.read_text().split("\n")
                self.imports[place] = imports_of(rows)
                for it in definitions_of(rows):
                    for name in it.names:
                        self.own[place].setdefault(name, it)

    def place_of(self, path):
        """The crate and the file that a path leads to, also by way of a crate whose Lib passes it on."""
        parts = path.split(".")
        while parts[0] == "Rattle" and parts[2:3] == ["specs"]:
            onward = self.imports.get((parts[1], "Lib"), {}).get("".join(parts[3:4]))
            if not onward:
                return parts[1], ".".join(parts[3:])
            parts = onward[0].split(".") + parts[4:]
        return None

    def find(self, place, name, imports=None):
        """The place and the definition of a name in a file, or nothing."""
        for _ in range(8):
            if imports is None and name in self.own[place]:
                return place, self.own[place][name]
            path, there = (self.imports[place] if imports is None else imports).get(name, ("", None))
            imports = None
            if there is None:
                return None
            place, name = self.place_of(path), there
            if place not in self.imports:
                if place:
                    self.types.add((".".join(place).replace(".TheVariants", ""), name if "TheVariants" not in path else ""))
                return None
        return None

    def named_by(self, place, text, imports=None):
        """The definitions that a text of a file names."""
        told = self.imports[place] if imports is None else imports
        for alias, name in re.findall(r"\b([A-Za-z_]\w*)\.([A-Za-z_][\w']*)", text):
            path, there = told.get(alias, ("", 0))
            other = self.place_of(path) if there is None else None
            if other in self.imports:
                yield self.find(other, name)
        for crate, path, name in re.findall(r"Rattle\.(\w+)\.specs\.([\w.]+)\.(\w+)", text):
            other = self.place_of(f"Rattle.{crate}.specs.{path}")
            if other in self.imports:
                yield self.find(other, name)
        for name in set(NAMED.findall(text)):
            yield self.find(place, name, imports)

    def rests_on(self, place, it):
        """The other definitions that a definition names, by crate, file and line."""
        found = {id(other): (there, other) for there, other in filter(None, self.named_by(place, it.text)) if other is not it}
        return sorted(found.values(), key=lambda row: (row[0], row[1].line))

    def below(self, roots, without):
        """The roots, and all that they rest on, each after what it names."""
        ordered, seen = [], set()
        left = [(root, False) for root in sorted(filter(None, roots), key=lambda row: (row[0], row[1].line), reverse=True)]
        while left:
            (place, it), is_over = left.pop()
            if is_over:
                ordered.append((place, it))
            elif id(it) not in seen and it not in without:
                seen.add(id(it))
                left.append(((place, it), True))
                left += [(other, False) for other in reversed(self.rests_on(place, it))]
        return ordered


def clauses_of(path, call):
    """What the clauses of a call cite, and what the names of its file stand for."""
    rows = path.read_text().split("\n")
    begin = next((at for at, row in enumerate(rows) if re.match(rf"\s*pub fn {re.escape(call)}\b", row)), None)
    if begin is None:
        usage.ends(f"{path.relative_to(TOP)} has no public call `{call}`")
    end = next(at for at in range(begin, len(rows)) if rows[at].strip() in ("{", "{}"))
    return "\n".join(row for row in rows[begin:end] if not row.strip().startswith("//")), imports_of(rows)


def without_of(specs, told):
    """The definition that a word of --without tells."""
    crate, file, name = [*told.split(":"), "", ""][:3]
    if name not in specs.own.get((crate, file), {}):
        usage.ends(f"`{told}` is no CRATE:FILE:NAME of a definition")
    return specs.own[crate, file][name]


def main():
    usage.helps(__doc__)
    asked = usage.Words()
    asked.add_argument("call", nargs="*")
    asked.add_argument("--names", action="store_true")
    asked.add_argument("--read", action="store_true")
    asked.add_argument("--without", action="append", default=[])
    it = asked.parse_args()
    if len(it.call) not in (0, 3):
        usage.ends(f"{len(it.call)} words where it takes CRATE, SOURCE and CALL")
    specs = Specs()
    crate, source, call = it.call or ["pdl_cli", "src/program.rt", "top"]
    text, imports = clauses_of(TOP / "crates" / crate / source, call)
    found = specs.below(specs.named_by(None, text, imports), [without_of(specs, told) for told in it.without])
    show(found) if it.read else report(found, specs, it.names)


def show(found):
    """Prints the definitions, each with the line above it, and the file where the one before stands in another."""
    before = None
    for (crate, file), it in found:
        if (crate, file) != before:
            print(f"\n==== {crate}/specs/{file.replace('.', '/')}.antt")
        print(f"\n{it.shown}")
        before = crate, file


def report(found, specs, show):
    """Prints how many definitions and lines there are, by crate and file, and each definition where that is asked."""
    files = collections.defaultdict(lambda: [0, 0])
    for place, it in found:
        files[place][0] += 1
        files[place][1] += it.size
    print(f"{len(found)} definitions, {sum(it.size for _, it in found)} lines, and {len(specs.types)} types of the code")
    for name in sorted({place[0] for place in files}, key=lambda c: -sum(n for (d, _), (_, n) in files.items() if d == c)):
        own = sorted(((file, n) for (d, file), (_, n) in files.items() if d == name), key=lambda row: -row[1])
        print(f"{name:24} {sum(n for _, n in own):5}  " + ", ".join(f"{file} {n}" for file, n in own))
    if show:
        for place, it in sorted(found, key=lambda row: -row[1].size):
            print(f"{it.size:4}  {place[0]}/specs/{place[1].replace('.', '/')}.antt:{it.line}  {' '.join(sorted(it.names))}")


if __name__ == "__main__":
    usage.runs(main)
