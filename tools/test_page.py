#!/usr/bin/env python3
"""Asks of the page and the picture that pipeline.py makes of runs of examples/ what they have.

    test_page.py PDL

PDL is the program. A page has the cells and names of the drawing, the lines of `pdl run`, as many waits as these say, and of
some threads what is written here; it wants no other file. A picture has as many cells, commits, crossings and waits as the
page. Where Node.js is installed, it has to read the page's script. What docs/tour.md and docs/using.md say is typed, as it is
written there; the picture that it makes is the one of the tour.
"""

import json
import os
import pathlib
import re
import shutil
import subprocess
import sys
import tempfile
import xml.etree.ElementTree

import usage

TOP = pathlib.Path(__file__).resolve().parent.parent
SHOWN = ["--show", "pc", "word", "--table", "loadstore.toml"]
# What .ci/paths types.
TYPED = r"(?ms)^## The first hour\n.*?(?=^## )"
# Runs with guesses, with stalls, with memories that answer late, and with a fork; and what their pages have of some threads.
RUNS = [
    (["loadstore_guess.pdl", "array.img", "30", *SHOWN], {
        6: {"begun": 6, "label": "5 bne r1, r2, -3", "cells": "0 1 2 3 4"},
        7: {"begun": 7, "label": "6 li r1, 4", "cells": "0 1x", "squashed": True, "causes": {"8": "thread 6 in stage 2"}},
        8: {"begun": 8, "label": "7 ld r3, r1, 0", "cells": "0x", "squashed": True, "causes": {"8": "thread 6 in stage 2"}}}),
    (["loadstore_queue.pdl", "array.img", "40", *SHOWN], {
        2: {"begun": 2, "label": "1 addi r2, r1, 6", "cells": "0 1 2l 2l 2 3 4", "commits": {"8": ["r 2 000a"]}, "causes": {
            "4": "r[1], which thread 1 has written, and not released", "5": "r[1], which thread 1 has written, and not released"}},
        3: {"begun": 3, "label": "2 addi r3, r3, 3", "cells": "0 1n 1n 1 2 3 4", "commits": {"9": ["r 3 0003"]}, "causes": {
            "4": "thread 2 in stage 2", "5": "thread 2 in stage 2"}}}),
    (["loadstore_delayed.pdl", "array.img", "140", "--delays", "slow.delays", *SHOWN], {
        28: {"begun": 40, "label": "7 ld r3, r1, 0", "cells": "0 1 2 3 4a 4", "commits": {"45": ["r 3 0003"]}, "causes": {"44": "of data"}}}),
    (["multiply.pdl", "multiply.img", "15"], {
        3: {"begun": 3, "label": "", "cells": "0 1 5o 5o 5 6", "commits": {"8": ["r 5 08"]}, "causes": {
            "5": "thread 2 in stage 3, thread 1 in stage 4", "6": "thread 2 in stage 4"}}}),
]
# What a page would reach another file by.
REACHES = r"\b(src|href)=|url\(|https?:|\bimport\b|\bfetch\("


def said(*words):
    """What a command prints, in examples/; it has to end well."""
    return subprocess.run(words, cwd=TOP / "examples", capture_output=True, text=True, check=True).stdout


def drawn(program, *words):
    return said(sys.executable, "-B", str(TOP / "tools" / "pipeline.py"), program, *words)


def run_of(page):
    """The run that a page has."""
    return json.loads(re.search(r'<script type="application/json" id="run">(.*?)</script>', page, re.S)[1])


def lines_of(run):
    """The lines of `pdl run`, as a page has them, each memory's by itself."""
    lines = [f"{cycle} {it}" for row in run["threads"] for cycle, found in row.get("commits", {}).items() for it in found]
    return [*sorted(lines), run["end"]]


def wrong_data(program, words, known, run):
    """What a page has otherwise than the drawing, `pdl run` and what is known of some threads."""
    rows = drawn(program, *words, "--why").split("\n\n")[0].splitlines()[1:]
    if [f"{number} {it['label']} {it['cells']}".split() for number, it in enumerate(run["threads"], 1)] != [row.split() for row in rows]:
        yield "other cells than the drawing"
    *commits, end = said(program, "run", *words[:words.index("--show")] if "--show" in words else words).splitlines()
    if lines_of(run) != [*sorted(commits), end]:
        yield "other lines than `pdl run`"
    if f" waits {len(run['waits'])} " not in end:
        yield f"{len(run['waits'])} waits"
    yield from (f"thread {number} is {run['threads'][number - 1]}" for number, row in known.items() if run["threads"][number - 1] != row)


def wrong_page(page, folder):
    """What of a page isn't as it should be, whatever its run."""
    if re.search(REACHES, page):
        yield "it wants another file"
    if re.search("@[A-Z]+@", page):
        yield "a place of it is left open"
    script = folder / "page.mjs"
    script.write_text(re.search(r'<script type="module">(.*?)</script>', page, re.S)[1])
    if shutil.which("node") and subprocess.run(["node", "--check", script], capture_output=True).returncode:
        yield "Node.js doesn't read its script"


def wrong_picture(picture, run):
    """What a picture has otherwise than a page."""
    classes = [it.get("class", "") for it in xml.etree.ElementTree.fromstring(picture).iter()]
    found = [sum(bool(re.fullmatch(kind, it)) for it in classes) for kind in (r"gone|[st]\d+", "commit", "cross", "wait")]
    due = [sum(len(it["cells"].split()) for it in run["threads"]), sum(len(it.get("commits", {})) for it in run["threads"]),
           sum("squashed" in it for it in run["threads"]), len(run["waits"])]
    if found != due:
        yield f"the picture has {found} cells, commits, crossings and waits, and not {due}"


def wrong(program, words, known, folder):
    """What is wrong with the page and the picture of a run."""
    page, picture = folder / "page.html", folder / "picture.svg"
    if drawn(program, *words, "--html", str(page), "--svg", str(picture)):
        yield "something is printed beside the files"
    run = run_of(page.read_text())
    yield from wrong_data(program, words, known, run)
    yield from wrong_page(page.read_text(), folder)
    yield from wrong_picture(picture.read_text(), run)


def typed(program, folder):
    """Runs what the pages say is typed, in folders like examples/ and like the top, and says what is wrong with what it writes."""
    (folder / "bin").mkdir()
    (folder / "bin" / "pdl").symlink_to(program)
    (folder / "pdl").symlink_to(program)
    for name in ("examples", "tools"):
        (folder / name).symlink_to(TOP / name)
    inside = folder / "inside"
    inside.mkdir()
    for path in (TOP / "examples").iterdir():
        (inside / path.name).symlink_to(path)
    path = os.pathsep.join([str(folder / "bin"), str(TOP / "tools"), os.environ["PATH"]])
    for page, where, count in (("tour.md", inside, 2), ("using.md", folder, 1)):
        text = re.sub(TYPED, "", (TOP / "docs" / page).read_text())
        lines = re.findall(r"(?m)^ *((?:tools/)?pipeline\.py .*--(?:html|svg) (\S+))$", text)
        if len(lines) != count:
            yield f"docs/{page} has {len(lines)} commands that write a page or a picture"
        for line, file in lines:
            ran = subprocess.run(["bash", "-c", line], cwd=where, env={**os.environ, "PATH": path}, capture_output=True, text=True)
            if ran.returncode or ran.stdout or not (where / file).exists():
                yield f"docs/{page}: {line}: {(ran.stdout + ran.stderr)[-400:]}"
    if (inside / "guess.svg").read_text() != (TOP / "docs" / "guess.svg").read_text():
        yield "docs/guess.svg is not the picture that docs/tour.md says it is"


def main():
    program = usage.program(usage.words(__doc__, 1, 1)[0])
    with tempfile.TemporaryDirectory() as name:
        folder = pathlib.Path(name)
        found = [f"{words[0]}: {it}" for words, known in RUNS for it in wrong(program, words, known, folder)]
        found += typed(program, folder)
    print("".join(f"{it}\n" for it in found), end="")
    print(f"runs {len(RUNS)}, wrong {len(found)}")
    return 1 if found else 0


if __name__ == "__main__":
    usage.runs(main)
