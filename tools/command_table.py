"""The commands of `pdl`, as README.md lists them, which have to be those that the program takes."""

import pathlib
import re
from dataclasses import dataclass

import usage

TOP = pathlib.Path(__file__).resolve().parent.parent
# Where the program is told its commands.
APP = TOP / "crates" / "pdl_cli_args" / "src" / "app.rt"
# How README.md names the words that the program has by other names.
NAMES = {"number": "N"}


@dataclass
class Command:
    """A command: its name, the words after it, whether it takes a delay file, and what README.md says that it does."""

    name: str
    words: list
    has_delays: bool
    says: str

    def brief(self):
        """The first part of what it does."""
        return re.split(r"[,.:(]", self.says.replace("`", ""))[0].strip()


def readme():
    return (TOP / "README.md").read_text()


def section(page, title):
    """What stands below a heading of a page."""
    found = re.search(rf"^## {title}\n\n(.*?)(?=^## |\Z)", page, re.M | re.S)
    return found[1] if found else usage.ends(f"a page has no heading `{title}`")


def listed():
    """The commands of README.md, each with its item of the list below them."""
    text = section(readme(), "The commands")
    says = dict(re.findall(r"^- `(\w+)` (.*)$", text, re.M))
    rows = re.findall(r"^    pdl (\w+) (.*?)( \[--delays FILE\])?$", text, re.M)
    return [Command(name, words.split(), bool(delays), says.get(name, "")) for name, words, delays in rows]


def taken():
    """The commands that the program takes: for each name the words after it, and whether it takes a delay file."""
    found = {}
    for body in re.findall(r"^fn \w+_command<'a>\(.*?^}", APP.read_text(), re.M | re.S):
        for name in re.findall(r'named\(alloc, "(\w+)"\)', body):
            words = re.findall(r'with_word\(.*alloc, "(\w+)"\)', body)
            options = re.findall(r'with_option\(.*alloc, "(\w+)"\)', body)
            found[name] = ([NAMES.get(it, it.upper()) for it in words], options == ["delays"])
    return found


def complaints():
    """What README.md says otherwise of the commands than the program takes."""
    commands = listed()
    if {it.name: (it.words, it.has_delays) for it in commands} != taken():
        yield "README.md lists other commands than crates/pdl_cli_args/src/app.rt"
    yield from (f"README.md does not say what `{it.name}` does" for it in commands if not it.says)
