#!/usr/bin/env python3
"""Runs a PDL pipe by the model of the language in tools/pdl_model.

    model.py check SRC
    model.py run SRC IMG CYCLES [--delays FILE]
    model.py view SRC IMG CYCLES [--delays FILE]
    model.py ports SRC IMG CYCLES [--delays FILE]
    model.py seq SRC IMG THREADS

Each call may end with `--forms FORMS`: the forms that the language has beside those that `pdl` takes, with commas between.
They are two-writes, nested-forks, update and advisory; `all` is all of them, `none` none. Without it the language is that
of `pdl`: `check`, `run`, `view` and `seq` print what it has to print. `ports` prints all ports of each cycle.
It needs nothing but Python, and is slow: a few thousand cycles in a second.
"""

import pathlib
import sys

import usage
from pdl_model import files, forms, rules
from pdl_model.syntax import Refused


def text_of(name):
    return pathlib.Path(name).read_bytes().decode("latin-1")


def lines_of(taken, command, source, more, delays):
    """What a command prints, as lines, in the language with the forms that are taken."""
    layout = rules.checked(text_of(source), taken)
    if command == "check":
        return [f"accepted stages {layout.count} depth {layout.depth()}"]
    image = files.read_image(layout.pipe, text_of(more[0]))
    count = int(more[1])
    if command == "seq":
        return files.seq_lines(layout, image, count)
    rows = files.read_delays(layout.pipe, text_of(delays)) if delays else []
    if command == "ports":
        return [files.port_line(layout, ports) for ports in files.turns(layout, image, count, rows)]
    show = {"run": files.run_lines, "view": files.view_lines}[command]
    return show(layout, image, count, rows)


def main():
    words, taken = forms.out_of(usage.words(__doc__, 2, 8))
    delays = None
    if taken is None:
        usage.ends("--forms names a form that there isn't")
    if "--delays" in words[:-1]:
        at = words.index("--delays")
        delays = words[at + 1]
        words = words[:at] + words[at + 2 :]
    needed = {"check": 2, "run": 4, "view": 4, "ports": 4, "seq": 4}
    if not words or needed.get(words[0]) != len(words):
        usage.ends(f"`{' '.join(words)}` is no call of it")
    try:
        for line in lines_of(taken, words[0], words[1], words[2:], delays):
            print(line)
    except (Refused, files.WrongFile) as refusal:
        print(refusal, file=sys.stderr)
        return 2


if __name__ == "__main__":
    usage.runs(main)
