#!/usr/bin/env python3
"""Changes definitions by one step each, and says which changes no row of tests/ notices.

    row_mutants.py [--tests NAME,..] [--only WORD] CRATE:FILE..

FILE is a file of the crate's specs/, as pdl_image:Images. The definitions are made Python functions (tools/pdl_definitions),
and answer the rows of tests/, of these files of it where they are named. What tools/definition_mutants.py makes of each line
of a clause is put in the place of that line, and so is the answer of the clause beside it. A change is noticed where a row
that calls the function is answered otherwise. The others are printed: definition and program could be wrong alike there
without notice, or the line means the same. Those that do, with their reasons, are in tools/pdl_definitions/alike.py, and
aren't printed. A change by which a value has another type, or that isn't read, is ill-formed. One by which a row's text has
two trees, and that no other row notices, is told as that. The last line of a file has the numbers.
"""

import collections

import definition_mutants
import definitions
import usage
from pdl_definitions import alike, answers, loaded, noticed, rows
from pdl_definitions.lexer import Function


def changes(it):
    """The functions that differ from one in a line of a clause, each with that line, old and new."""
    for place, (text, inside) in enumerate(it.clauses):
        for number, line in enumerate(text.split("\n")):
            for other in dict.fromkeys(definition_mutants.mutants(line) + beside(it, place, line)):
                clauses = [*it.clauses[:place], (with_line(text, number, other), inside), *it.clauses[place + 1 :]]
                yield Function(it.name, it.type, clauses), line.strip(), other.strip()


def with_line(text, number, line):
    """A text with another line in the place of the one of this number."""
    lines = text.split("\n")
    return "\n".join([*lines[:number], line, *lines[number + 1 :]])


def beside(it, place, line):
    """The line with the answer of the clause after it, where both are single words."""
    head, _, body = line.partition(" = ")
    if place + 1 < len(it.clauses):
        _, _, other = it.clauses[place + 1][0].partition(" = ")
        if body != other and all(word.replace(".", "").replace("_", "").isalnum() for word in (body, other)):
            return [f"{head} = {other}"]
    return []


def relation_changes(text):
    """The texts of the grammar that differ in one token of a constructor, each with the line, old and new."""
    inside = False
    for number, row in enumerate(text.split("\n")):
        inside = inside and (row.startswith(" ") or not row) or " data " in f" {row} "
        if inside and not row.strip().startswith("--"):
            others = definition_mutants.token_mutants(row)
            yield from ((with_line(text, number, other), row.strip(), other.strip()) for other in others)


def kind_of(by):
    """What became of a change that this noticed."""
    return "let through" if by is None else "noticed" if by.startswith("tests/") else by.split(":")[0]


def report(found, function, told):
    """Counts what noticed a function's changes, and prints those that nothing did, unless they are known to mean the same."""
    kinds = [kind_of(by) for by, _, _ in told]
    alike = alike_of(function, kinds.count("let through"))
    found.update("means the same" if kind == "let through" and alike else kind for kind in kinds)
    for kind, (by, old, new) in zip(kinds, told):
        if kind != "noticed" and not (kind == "let through" and alike):
            print(f"{by or kind}: {function}: {difference(old, new)}", flush=True)


def alike_of(function, count):
    return alike.ALIKE.get(function, (0, ""))[0] == count > 0


def difference(old, new):
    """A line with what differs of another one."""
    ends = zip(old, new), zip(reversed(old), reversed(new))
    first, last = (next((k for k, (a, b) in enumerate(pairs) if a != b), min(len(old), len(new))) for pairs in ends)
    last = min(last, min(len(old), len(new)) - first)
    begins, stops = max(first - 40, 0), 25
    head = "" if begins < 60 else old[:25] + ".. "
    change = f"[{old[first : len(old) - last]} > {new[first : len(new) - last]}]"
    return f"{head}{old[begins:first]}{change}{old[len(old) - last :][:stops]}"


def tried(asked, place, only):
    """What notices each change of a file."""
    found = collections.Counter()
    for key, it in list(asked.asked.all.sources.items()):
        if key[:2] == place and only in it.name:
            told = [(asked.function(key, other), old, new) for other, old, new in changes(it)]
            report(found, f"{key[0]}:{key[1]}.{key[2]}", told)
    return found


def asked_words():
    """The words of the call, of which each names something that is there."""
    words = usage.Words()
    words.add_argument("place", nargs="+")
    words.add_argument("--tests", default="")
    words.add_argument("--only", default="")
    it = words.parse_args()
    it.tests = [*filter(None, it.tests.split(","))]
    missing = next((name for name in it.tests if not (definitions.TOP / "tests" / name).is_file()), None)
    if missing:
        usage.ends(f"`{missing}` is no file of tests/")
    for place in it.place:
        crate, _, file = place.partition(":")
        if not (definitions.TOP / f"crates/{crate}/specs/{file}.antt").is_file() or crate not in answers.CRATES:
            usage.ends(f"`{place}` is no CRATE:FILE of definitions that answer rows")
    return it


def main():
    usage.helps(__doc__)
    it = asked_words()
    grammar_text = (definitions.TOP / "crates/pdl_syntax_grammar/specs/Grammar.antt").read_text()
    all_definitions = loaded.Definitions(answers.CRATES)
    asked = noticed.Noticed(answers.Answers(all_definitions, grammar_text), rows.rows_of(it.tests))
    print(f"{len(asked.known)} rows are answered right, {len(asked.wrong)} otherwise, {len(asked.slow)} not in time", flush=True)
    for place in it.place:
        print(f"==== {place}", flush=True)
        found = tried(asked, tuple(place.split(":")), it.only)
        if place == "pdl_syntax_grammar:Grammar" and not it.only:
            report(found, place, [(asked.relations(text), old, new) for text, old, new in relation_changes(grammar_text)])
        told = ", ".join(f"{count} {kind}" for kind, count in sorted(found.items()))
        print(f"{sum(found.values())} of {place}: {told}", flush=True)


if __name__ == "__main__":
    usage.runs(main)
