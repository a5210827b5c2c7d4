#!/usr/bin/env python3
"""Compares how the program PDL reads random images with how the model in tools/pdl_model does.

    random_images.py PDL [IMAGES [SEED]]

So many images of both kinds are made, and each is asked once more with a character changed, left out or said twice, a line
moved or said twice, or the ends of its ranges exchanged. `pdl run` of a pipe that shows all words of its memories has to
print what the model says, or to refuse the image by the rule and at the line that the model tells. IMAGES is 1000 and SEED
is 1 where they aren't given.
"""

import pathlib
import random
import re
import subprocess
import tempfile
from collections import Counter

import usage
from pdl_model import files, rules

CYCLES = 8
SOURCE = """pipe p(n: uint<3>)
[a: uint<8>[8] comb, b: uint<65>[2] comb, c: uint<128>[4] comb,
 x: uint<8>[8] comb lock queue(1), y: uint<65>[2] comb lock queue(1), z: uint<128>[4] comb lock queue(1)] {
i = n[0:0]; j = n[1:0];
v = a[n]; acquire(x[n], W); x[n] <- v; release(x[n]);
u = b[i]; acquire(y[i], W); y[i] <- u; release(y[i]);
w = c[j]; acquire(z[j], W); z[j] <- w; release(z[j]);
call(n + 3'd1);
} start p(3'd0);
"""
RANGE = re.compile(r"([0-9]+)\.\.([0-9]+)")
CHARACTERS = "0123456789abcdefmx. /\n-g"


def image(chance, memories):
    """The lines of an image in which no word is given twice; one of the second kind may give a range in a line."""
    most = chance.choice([1, 3, 8])
    lines = [f"image {1 if most == 1 else 2}"]
    for memory in memories:
        first = 0
        while first < memory.depth:
            last = min(first + chance.randint(1, most), memory.depth) - 1
            if chance.random() < 0.7:
                lines.append(line(chance, memory, first, last, most > 1))
            first = last + 1
    body = lines[1:]
    chance.shuffle(body)
    return [lines[0], *body]


def line(chance, memory, first, last, ranged):
    """A line that gives a memory's words from one address to another a value, where one word may be a range too."""
    value = chance.choice([0, 1, (1 << memory.width) - 1, chance.getrandbits(memory.width)])
    digits = f"{value:0{chance.choice([1, 1, 32])}x}"
    ends = [f"{it:0{chance.choice([1, 1, 3, 10])}}" for it in (first, last)]
    is_one = first == last and not (ranged and chance.random() < 0.2)
    return f"{memory.name} {ends[0] if is_one else '..'.join(ends)} {digits}"


def spoiled(chance, lines):
    """The text of these lines with one change."""
    kind = chance.randint(0, 5)
    if kind == 0 and len(lines) > 1:
        at = chance.randrange(1, len(lines))
        return text([*lines, lines[at]])
    if kind == 1:
        return text(chance.sample(lines, len(lines)))
    if kind == 2:
        return RANGE.sub(r"\2..\1", text(lines))
    whole = text(lines)
    at = chance.randrange(len(whole))
    put = "" if kind == 3 else whole[at] * 2 if kind == 4 else chance.choice(CHARACTERS)
    return whole[:at] + put + whole[at + 1 :]


def text(lines):
    return "\n".join(lines) + "\n"


def said(layout, written):
    """What the model says of a run from an image."""
    try:
        return "\n".join(files.run_lines(layout, files.read_image(layout.pipe, written), CYCLES)) + "\n"
    except files.WrongFile as wrong:
        return f"{wrong}\n"


def compare(program, count, seed):
    """Compares until so many images are read, and ends at the first difference."""
    chance, layout, done = random.Random(seed), rules.checked(SOURCE), Counter()
    memories = [memory for memory in layout.pipe.memories if memory.name in "abc"]
    with tempfile.TemporaryDirectory() as folder:
        paths = pathlib.Path(folder, "a.pdl"), pathlib.Path(folder, "i.img")
        paths[0].write_text(SOURCE)
        for _ in range(count):
            lines = image(chance, memories)
            for written in (text(lines), spoiled(chance, lines)):
                paths[1].write_text(written)
                answer = subprocess.run([program, "run", *map(str, paths), str(CYCLES)], capture_output=True, text=True)
                due = said(layout, written)
                done[due.split()[1] if due.startswith("refused") else "read"] += 1
                if answer.stdout + answer.stderr != due:
                    print(f"came {answer.stdout + answer.stderr}due {due}of\n{written}")
                    return 1
    print(", ".join(f"{name} {number}" for name, number in sorted(done.items())))
    return 0


def main():
    program, *more = usage.words(__doc__, 1, 3)
    return compare(usage.program(program), *[*map(usage.number, more), *[1000, 1][len(more) :]])


if __name__ == "__main__":
    usage.runs(main)
