#!/usr/bin/env python3
"""Says more of why `pdl` did nothing: of a refusal the line that was refused, and the rule that it breaks.

    explain.py WORDS.. < REFUSAL

WORDS are the words after `pdl`, and REFUSAL is what it printed on the error output, as `refused L2 line 15`. It prints the
line with its neighbours, what of a source breaks the rule (`tools/why.py`), what the rule says and how to mend the source,
as the pages of docs/ have it. Of `usage` it prints the commands, and of `read fault` which file can't be read. Where the
input is nothing of these it prints nothing.
"""

import os
import pathlib
import re
import sys
import tomllib

import why

DOCS = pathlib.Path(__file__).resolve().parent.parent / "docs"

# Pages with a section for each rule, and pages with a table of rules.
RULES = ["rules.md", "rules_of_locks.md"]
SECTIONS = [*RULES, "assembler.md"]
TABLES = ["verilog.md", "images.md"]

# Which word of a command names the file that rules with this letter refuse; all others refuse its first file.
SECOND_FILE = "AI"

# Which letters have the rules of sources, and up to how many characters a source is asked what of it breaks one.
SOURCE_RULES = "GZNWFLSP"
LONGEST = 100_000

WIDEST = 120


def section(rule):
    """The paragraphs about a rule, of the page that has a section for it."""
    for page in SECTIONS:
        found = re.search(rf"^### {rule}\n(.*?)(?=^##|\Z)", (DOCS / page).read_text(), re.M | re.S)
        if found:
            text = re.sub(r"^```.*?^```$", "", found[1], flags=re.M | re.S)
            return page, [it.strip() for it in text.split("\n\n") if it.strip()]
    return None, []


def told(rule):
    """The page of a rule, what it says, and how a text that breaks it is mended, where the page says that."""
    page, paragraphs = section(rule)
    if page:
        says = [it for it in paragraphs if not it.startswith("`refused ")]
        return page, says[0], says[-1] if len(says) > 1 and page in RULES else ""
    for page in TABLES:
        found = re.search(rf"^\| {rule} \| (.*) \|$", (DOCS / page).read_text(), re.M)
        if found:
            return page, found[1], ""
    return None, "", ""


def files_of(words):
    """The files that a command names in its order, and its delay file."""
    files, delays, rest = [], None, iter(words[1:])
    for word in rest:
        if word == "--delays":
            delays = next(rest, None)
        elif word.startswith("--delays="):
            delays = word.removeprefix("--delays=")
        else:
            files.append(word)
    return files, delays


def refused_file(rule, words):
    """The file that a rule refuses, or None."""
    files, delays = files_of(words)
    if rule.startswith("Y"):
        return delays
    place = 1 if rule[0] in SECOND_FILE else 0
    return files[place] if place < len(files) else None


def plain(line):
    """A line as a terminal can show it."""
    shown = "".join(it if it.isprintable() else "?" for it in line.expandtabs(4).rstrip("\r"))
    return shown if len(shown) <= WIDEST else shown[: WIDEST - 3] + "..."


def around(text, number):
    """A line with the one before and the one after it, numbered; of a text that ends before it, the last line."""
    lines = text.split("\n")
    if lines[-1] == "":
        lines.pop()
    if number > len(lines):
        shown = [f"  {len(lines):>6} | {plain(lines[-1])}"] if lines else []
        return [*shown, "         (here the text ends)"]
    near = range(max(1, number - 1), min(len(lines), number + 1) + 1)
    return [f"{'>' if it == number else ' '} {it:>6} | {plain(lines[it - 1])}" for it in near]


def instruction(text, number):
    """An instruction of a table, by its number from 1; nothing where the table can't be read so far."""
    try:
        table = tomllib.loads(text)
    except tomllib.TOMLDecodeError as reason:
        return [f"  {reason}"]
    listed = table.get("insn")
    if not isinstance(listed, list) or not 1 <= number <= len(listed):
        return []
    return [f"> instruction {number}: {plain(str(listed[number - 1]))}"]


def commands(words):
    """The commands, as README has them: that of the first word, or all of them where it is none."""
    text = (DOCS.parent / "README.md").read_text()
    listed = re.search(r"^## The commands\n\n((?:    [^\n]*\n)+)(.*?)^## ", text, re.M | re.S)
    if not listed:
        return []
    lines = [it.strip() for it in listed[1].splitlines()]
    meant = [it for it in lines if words and it.split()[1] == words[0]]
    limits = re.search(r"^CYCLES and THREADS.*$", listed[2], re.M)
    return [f"  {it}" for it in meant or lines] + ([limits[0]] if limits else []) + ["(README.md)"]


def unread(words):
    """Which of the files that a command names can't be read, and why, as far as can be seen now."""
    files, delays = files_of(words)
    for file in [*files[:2], *([delays] if delays else [])]:
        path = pathlib.Path(file)
        if not path.exists():
            yield f"there is no file {file}"
        elif path.is_dir():
            yield f"{file} is a folder"
        elif not os.access(path, os.R_OK):
            yield f"{file} may not be read"
        elif path.stat().st_size > 268_435_456:
            yield f"{file} has more than 268,435,456 bytes"


def of_this_source(text, rule, number):
    """What of a source breaks the rule; nothing of a long one, nor where the model can't tell, whatever the reason."""
    try:
        return why.details(text, rule, number) if len(text) <= LONGEST else []
    except (Exception, RecursionError):
        return []


def explained(refusal, words):
    """The lines that say more of why nothing was done."""
    if refusal.strip() == "usage":
        return commands(words)
    if refusal.strip() == "read fault":
        return list(unread(words))[:1]
    found = re.fullmatch(r"refused ([A-Z]\d) (line|insn) (\d+)\s*", refusal)
    if not found or not words:
        return []
    rule, kind, number = found[1], found[2], int(found[3])
    file = refused_file(rule, words)
    lines = []
    # What is no regular file, as a pipe, was read by the program already, and can't be read again.
    if file and pathlib.Path(file).is_file():
        text = pathlib.Path(file).read_bytes().decode("utf-8", "replace")
        lines.append(f"{file}:")
        lines += around(text, number) if kind == "line" else instruction(text, number)
        if rule[0] in SOURCE_RULES:
            lines += [f"  {it}" for it in of_this_source(text, rule, number)]
    page, says, mending = told(rule)
    if page:
        lines.append(f"{rule}: {says}")
        lines += [f"To mend it: {mending}"] if mending else []
        lines.append(f"(docs/{page})")
    return lines


if __name__ == "__main__":
    for it in explained(sys.stdin.read(), sys.argv[1:]):
        print(it)
