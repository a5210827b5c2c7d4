#!/usr/bin/env python3
"""Times `pdl check`, `build` and `run` on the largest pipes, and counts what `build` writes: build.py PDL.

The pipes are of two kinds. Memories: one has 8, 16, 32 or 64 stages and 16 memories behind `bypass(16)`, of which each thread
reads and writes a word of each: it reads them one after another on its way through the stages, and writes all in the last
stage. Variables: one has 2, 16 or 64 stages, and 250 variables of its first stage of which the last one has 230 sums. A line
has the cells, the registers and the bytes of its text, and the CPU seconds for each command, the least of five
runs; `run` has 10,000 cycles of a pipe with memories, and 10 of one with variables. docs/measured.md has the figures.
"""

import pathlib
import re
import tempfile

from sim import EMPTY, run, seconds, usage

MEMORIES = range(16)
VARIABLES = range(250)
SUMS = range(230)


def pipe_with_memories(stages):
    """The pipe with so many stages, and memories that each thread reads and writes."""
    memories = ", ".join(f"m{k}: uint<32>[256] comb lock bypass(16)" for k in MEMORIES)
    texts = [[] for _ in range(stages)]
    texts[0] += ["a = n[7:0];", "b = n[7:0];", "call(n + 32'd7);"]
    texts[0] += [f"reserve(m{k}[a], R); reserve(m{k}[b], W);" for k in MEMORIES]
    for k in MEMORIES:
        texts[1 + k * (stages - 2) // len(MEMORIES)] += [f"block(m{k}[a]); x{k} = m{k}[a];"]
        texts[-1] += [f"block(m{k}[b]); m{k}[b] <- x{k} + n; release(m{k}[a]); release(m{k}[b]);"]
    body = "\n---\n".join("\n".join(lines) for lines in texts)
    return f"pipe p(n: uint<32>)[{memories}] {{\n{body}\n}} start p(32'd0);\n"


def pipe_with_variables(stages):
    """The pipe with so many stages, and variables of the first one that long sums of the last one need."""
    names = [f"x{k}" for k in VARIABLES]
    first = ["a = n[3:0];", "call(n + 16'd1);"] + [f"{name} = n + 16'd{k};" for k, name in enumerate(names)]
    last = [f"y{k} = {'+'.join(names[k:] + names[:k])};" for k in SUMS]
    last += ["acquire(m[a], W);", f"m[a] <- {' ^ '.join(f'y{k}' for k in SUMS)};", "release(m[a]);"]
    body = "\n---\n".join("\n".join(lines) for lines in [first] + [[]] * (stages - 2) + [last])
    return f"pipe p(n: uint<16>)[m: uint<16>[16] comb lock queue(16)] {{\n{body}\n}} start p(16'd0);\n"


def measure(program, kind, source, stages, cycles, folder):
    """Prints the line of a pipe."""
    (folder / "source.pdl").write_text(source)
    (folder / "image.img").write_text(EMPTY)
    text = run([program, "build", "source.pdl"], folder)
    registers, cells = (len(re.findall(form, text, re.M)) for form in (r"^reg .* r\d+;$", r"^assign n\d+ = "))
    commands = [["check", "source.pdl"], ["build", "source.pdl"], ["run", "source.pdl", "image.img", str(cycles)]]
    times = "  ".join(f"{words[0]} {seconds([program, *words], folder):.3f} s" for words in commands)
    print(f"{kind} {stages:2} stages {cells:6} cells {registers:6} registers {len(text):7} bytes  {times}", flush=True)


def main():
    program = usage.program(usage.words(__doc__, 1, 1)[0])
    with tempfile.TemporaryDirectory() as path:
        for stages in (8, 16, 32, 64):
            measure(program, "memories", pipe_with_memories(stages), stages, 10000, pathlib.Path(path))
        for stages in (2, 16, 64):
            measure(program, "variables", pipe_with_variables(stages), stages, 10, pathlib.Path(path))


if __name__ == "__main__":
    usage.runs(main)
