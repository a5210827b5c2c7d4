#!/usr/bin/env python3
"""Counts what each lock needs: lock_costs.py PDL [--write]. docs/locks.md has what it prints.

The pipe of docs/locks.md is built by the program PDL with each lock of each size and three depths, as that page says. Of
each text it prints the registers, the cells, and two chains. A chain is as many cells as stand one after another between
registers, arrays and ports; constants, and parts, joined and repeated nets, are wires and count for none. The first chain
is the longest to the port that shows whether the stage moves, which is what the looks need and the few cells after them;
the second is the longest of all. With --write the page's table is written anew; without it the status is 1 where the page
has another table.
"""
import pathlib
import re
import subprocess
import tempfile

import usage

PAGE = pathlib.Path(__file__).resolve().parent.parent / "docs" / "locks.md"
KINDS = ("queue", "bypass", "rename")
SIZES = (1, 2, 4, 8, 16)
DEPTHS = (4, 32, 64)
HEAD = ["| lock | " + " | ".join(f"depth {depth}" for depth in DEPTHS) + " |", "|---" * (len(DEPTHS) + 1) + "|"]
TABLE = re.compile(r"^\| lock \| depth .*\n(?:\|.*\n)+", re.M)
WIRE = re.compile(r"\d+'h[0-9a-f]+|\w+\[\d+:\d+\]|\{.*\}")
CELL = re.compile(r"^assign n(\d+) = (.*);$", re.M)
NET = re.compile(r"\bn(\d+)\b")
MOVES = re.compile(r"^assign g_0 = (.*);$", re.M)


def source_of(pipe, lock, depth):
    """The page's pipe with another lock and another depth."""
    high = (depth - 1).bit_length() - 1
    return pipe.replace("rename(16)", lock).replace("[64]", f"[{depth}]").replace("[5:0]", f"[{high}:0]")


def costs(text):
    """Registers, cells, and the chains to the stage's move and to anything."""
    chains = []
    for number, cell in CELL.findall(text):
        assert int(number) == len(chains)
        before = max((chains[int(net)] for net in NET.findall(cell)), default=0)
        chains.append(before if WIRE.fullmatch(cell) else before + 1)
    moves = max((chains[int(net)] for net in NET.findall(MOVES.search(text)[1])), default=0)
    return len(re.findall(r"^reg .* r\d+;$", text, re.M)), len(chains), moves, max(chains)


def entry(program, pipe, lock, depth, folder):
    """What stands in the table of a lock at a depth."""
    (folder / "lock.pdl").write_text(source_of(pipe, lock, depth))
    text = subprocess.run([program, "build", folder / "lock.pdl"], check=True, capture_output=True, text=True).stdout
    return "%d, %d, %d, %d" % costs(text)


def table(program, pipe):
    """The lines of the table; a renaming lock has no more slots than its memory has words."""
    with tempfile.TemporaryDirectory() as name:
        yield from HEAD
        for kind in KINDS:
            for size in SIZES:
                lock = f"{kind}({size})"
                cells = ["" if kind == "rename" and depth < size else entry(program, pipe, lock, depth, pathlib.Path(name))
                         for depth in DEPTHS]
                yield f"| `{lock}` | " + " | ".join(cells) + " |"


def main():
    program, *more = usage.words(__doc__, 1, 2)
    usage.program(program)
    if more not in ([], ["--write"]):
        usage.ends(f"`{more[0]}` is no word of it")
    writes = bool(more)
    page = PAGE.read_text()
    pipe = re.search(r"^```pdl\n(.*?)^```$", page, re.M | re.S)[1]
    lines = "".join(line + "\n" for line in table(program, pipe))
    print(lines, end="")
    if writes:
        PAGE.write_text(TABLE.sub(lambda _: lines, page, count=1))
        return 0
    return 0 if lines in page else 1


if __name__ == "__main__":
    usage.runs(main)
