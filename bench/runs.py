#!/usr/bin/env python3
"""Times and weighs a program `pdl` on long runs: runs.py PDL [CYCLES]

A run has 1,000,000 cycles, or threads of `seq`, or so many as are given, and its output is thrown away. It prints the rows of
a table: the run, the bytes that it writes, the CPU seconds and the greatest memory, both the least of five runs.
It needs GNU time. docs/measured.md has the figures.
"""

import pathlib
import subprocess
import sys
import tempfile

sys.path.append(str(pathlib.Path(__file__).resolve().parent.parent / "tools"))
import usage

EXAMPLES = pathlib.Path(__file__).resolve().parent.parent / "examples"
RUNS = 5
# A loop without end, in which each turn writes a word of data.
LOOP = "li r2, 1\nagain: addi r1, r1, 1\nst r1, r0, 0\nbne r2, r0, again\n"
MACHINE = "loadstore_bypass.pdl"
CASES = [  # what the row says, the command, its source and its image
    ("`run` of the load/store machine with `array.img`", "run", MACHINE, "array.img"),
    ("`run` of it with the loop", "run", MACHINE, None),
    ("`run` of the counter", "run", "counter.pdl", "zeros.img"),
    ("`seq` of the load/store machine with the loop", "seq", MACHINE, None),
    ("`seq` of the counter", "seq", "counter.pdl", "zeros.img"),
    ("`wave` of the load/store machine with the loop", "wave", MACHINE, None),
]


def written(words):
    """How many bytes a command writes."""
    with subprocess.Popen(words, stdout=subprocess.PIPE) as ran:
        return sum(len(piece) for piece in iter(lambda: ran.stdout.read(1 << 20), b""))


def used(words, folder):
    """The CPU seconds and the kilobytes of memory that a command takes."""
    told = folder / "used"
    subprocess.run(["time", "-f", "%U %S %M", "-o", told, *words], stdout=subprocess.DEVNULL, check=True)
    user, system, kilobytes = told.read_text().split()
    return float(user) + float(system), int(kilobytes)


def measure(program, cycles, folder):
    """Prints a row for each case."""
    (folder / "loop.asm").write_text(LOOP)
    loop = folder / "loop.img"
    with loop.open("wb") as file:
        subprocess.run([program, "asm", EXAMPLES / "loadstore.toml", folder / "loop.asm"], stdout=file, check=True)
    for told, command, source, image in CASES:
        words = [program, command, EXAMPLES / source, EXAMPLES / image if image else loop, cycles]
        seconds, kilobytes = map(min, zip(*(used(words, folder) for _ in range(RUNS))))
        print(f"| {told} | {written(words):,} | {seconds:.2f} | {kilobytes * 1024 / 1e6:.1f} |", flush=True)


def main():
    given = usage.words(__doc__, 1, 2)
    program, cycles = usage.program(given[0]), str(usage.number(*given[1:2] or ["1000000"]))
    with tempfile.TemporaryDirectory() as path:
        measure(program, cycles, pathlib.Path(path))


if __name__ == "__main__":
    usage.runs(main)
