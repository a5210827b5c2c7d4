"""The manual page `pdl.1`, made of README.md and docs/images.md."""

import re
import textwrap

from command_table import TOP, listed, readme, section

# A part of a page: lines of code between fences or indented, a table, or a paragraph.
PART = re.compile(r"(?m)^```\w*\n(?:.*\n)*?```$|(?:^    .*\n?)+|(?:^\|.*\n?)+|^.+$")
# How `man` shows these as they stand.
MARKS = str.maketrans({"\\": "\\e", "-": "\\-", "^": "\\(ha", "~": "\\(ti"})


def escaped(text):
    """A text that `man` shows as it stands."""
    return re.sub(r"(?m)^(?=[.'])", r"\\&", text.translate(MARKS))


def line(text):
    """A paragraph. What stands in backquotes is bold, what stands in stars italic."""
    text = re.sub(r"`(.+?)`", "\0B\\1\0R", text)
    text = re.sub(r"\*(\w.*?)\*", "\0I\\1\0R", text)
    return escaped(text).replace("\0", "\\f")


def code(text):
    """Lines of code."""
    return [".PP", ".RS 4", ".nf", escaped(text.rstrip("\n")).replace("'", "\\(aq"), ".fi", ".RE"]


def table(rows):
    """A table: a paragraph for each row, below its first cell, with the heads of the columns after the second."""
    heads, _, *cells = [[it.strip() for it in row.strip().strip("|").split("|")] for row in rows]
    for first, second, *others in cells:
        more = "".join(f" ({head}: {it})" for head, it in zip(heads[2:], others))
        yield from (".TP 6", line(f"`{first}`"), line(second + more))


def parts(text):
    """A text of a page as lines for `man`."""
    for part in PART.findall(text):
        if part.startswith("```"):
            yield from code(part.split("\n", 1)[1].removesuffix("```"))
        elif part.startswith("    "):
            yield from code(textwrap.dedent(part))
        elif part.startswith("|"):
            yield from table(part.splitlines())
        else:
            yield from (".PP", line(part))


def call(command):
    """How a command is called."""
    words = "".join(f" \\fI{it}\\fR" for it in command.words)
    return f"\\fBpdl {command.name}\\fR{words}" + (" [\\fB\\-\\-delays\\fR \\fIFILE\\fR]" if command.has_delays else "")


def manual():
    """The text of the page."""
    page, images = readme(), (TOP / "docs" / "images.md").read_text()
    commands = section(page, "The commands")
    lines = [
        '.\\" Written by tools/installed_files.py from README.md and docs/images.md.',
        '.TH PDL 1 "" "pdl" "User commands"', ".nh",
        ".SH NAME", "pdl \\- run processors written in PDL, and compile them to Verilog",
        ".SH SYNOPSIS", "\n.br\n".join(call(it) for it in listed()),
        ".SH DESCRIPTION", *parts(re.search(r"^# pdl\n\n(.*?)^Status:", page, re.M | re.S)[1]),
        ".SH COMMANDS", *[text for it in listed() for text in (".TP", call(it), line(f"It {it.says}"))],
        *parts(re.search(r"^CYCLES and THREADS.*$", commands, re.M)[0]),
        ".SH EXIT STATUS", *parts("".join(re.findall(r"^\|.*\n", commands, re.M))),
        ".SH IMAGES", *parts(section(images, "Images")),
        ".SH DELAY FILES", *parts(section(images, "Delay files")),
        ".SH EXAMPLE", *parts(section(page, "The counter")),
        ".SH SEE ALSO", "README.md and the pages of docs/ in the repository of \\fBpdl\\fR, which the texts above name."]
    return "\n".join(lines) + "\n"
