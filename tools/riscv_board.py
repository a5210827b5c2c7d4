#!/usr/bin/env python3
"""Makes the RV32I cores of docs/riscv.md for an iCE40-HX8K, and prints the page's table of what they take.

    riscv_board.py PDL [--write]

PDL is the program. It needs what examples/riscv/board/board.py does: yosys, nextpnr-ice40 and icestorm. Each core has the
words of sha256_O2. Its clock by nextpnr is the mean over three seeds, and that by icetime is of the first. The last columns are
the cycle in which the first word of the digest is written, and how long that is by nextpnr's clock. As many cores are made at a
time as there are processors: under `taskset -c 0` one. With --write the table is put into the page.
"""

import concurrent.futures
import os
import pathlib
import re
import subprocess
import sys
import tempfile
from dataclasses import dataclass

import usage
from riscv_cores import CORES, OPERANDS, VERIFY_LATER, put_table

sys.path.insert(0, str(CORES / "board"))
import board

PLACE, SEEDS = 357, (1, 2, 3)
IMAGE = CORES / "images" / "sha256_O2.img"
ROWS = (  # what the table says, a core of board.py, and what is changed in its source
    ("`rv32i`", "rv32i", None),
    ("`rv32i_guess`", "rv32i_guess", None),
    ("the same, verified in memory", "rv32i_guess", VERIFY_LATER),
    ("`rv32i_counters`", "rv32i_counters", None),
    ("`rv32i_delayed`", "rv32i_delayed", None),
    ("`rv32i_update`", "rv32i_update", None),
    ("`rv32i_btb`", "rv32i_btb", None),
    ("`rv32i_traps`", "rv32i_traps", None),
    ("`rv32i` with a stage for operands", "rv32i", OPERANDS),
)
HEAD = [
    "| core | look-up tables | flip-flops | logic cells | block memories | MHz by nextpnr | by icetime | cycles for `sha256_O2` | microseconds |",
    "|---|---|---|---|---|---|---|---|---|",
]
LAST = "| there are on the HX8K | | | 7,680 | 32 | 12 asked | | | |"


def changed(change):
    """A change of a source, which has to change something."""
    def change_of(text):
        new = re.sub(*change, text) if change else text
        if change and new == text:
            raise SystemExit(f"riscv_board.py: {change[0]} is nowhere in the source")
        return new
    return change_of


def last_write(program, folder):
    """The last cycle in which the word of the result is written."""
    lines = subprocess.run([program, "run", "core.pdl", IMAGE, "40000"], cwd=folder, check=True, capture_output=True, text=True).stdout
    return max(int(it.split()[0]) for it in lines.splitlines() if it.split()[1:3] == ["data", str(PLACE)])


@dataclass(frozen=True)
class Taken:
    """What a core takes of the HX8K, the clock of two tools in MHz, and the cycle of its result."""

    tables: int
    flops: int
    cells: int
    blocks: int
    clock: float
    by_icetime: float
    cycle: int


def clock(folder):
    """The clock by nextpnr in MHz of a core that is made, the mean over the seeds."""
    logs = [(folder / "top.log").read_text(), *(board.place(folder, seed) for seed in SEEDS[1:])]
    return sum(float(re.findall(r"Max frequency for clock .*?: ([\d.]+) MHz", it)[-1]) for it in logs) / len(SEEDS)


def tables(program, core, change):
    """The look-up tables alone of a core, which needs no place for it on the HX8K."""
    with tempfile.TemporaryDirectory() as name:
        folder = pathlib.Path(name)
        board.synthesise(program, core, IMAGE.read_text(), PLACE, folder, changed(change))
        return tables_in(folder)


def tables_in(folder):
    """How many look-up tables there are among the cells that Yosys left in a folder."""
    return int(re.search(r"SB_LUT4 +(\d+)", (folder / "cells.txt").read_text())[1])


def taken(program, core, change):
    """What a core takes, whose source is changed first."""
    with tempfile.TemporaryDirectory() as name:
        folder = pathlib.Path(name)
        board.make(program, core, IMAGE.read_text(), PLACE, folder, changed(change))
        cells, log = (folder / "cells.txt").read_text(), (folder / "top.log").read_text()
        timing = (folder / "icetime.log").read_text()
        return Taken(
            tables=tables_in(folder),
            flops=sum(map(int, re.findall(r"SB_DFF\w* +(\d+)", cells))),
            cells=int(re.search(r"ICESTORM_LC: +(\d+)", log)[1]),
            blocks=int(re.search(r"ICESTORM_RAM: +(\d+)", log)[1]),
            clock=clock(folder),
            by_icetime=float(re.findall(r"Timing estimate: .*\(([\d.]+) MHz\)", timing)[-1]),
            cycle=last_write(program, folder))


def row(program, told, core, change):
    """The row of a core."""
    it = taken(program, core, change)
    return (f"| {told} | {it.tables:,} | {it.flops} | {it.cells:,} | {it.blocks} | {it.clock:.1f} | {it.by_icetime:.1f} "
            f"| {it.cycle:,} | {it.cycle / it.clock:.0f} |")


def main():
    program, *more = usage.words(__doc__, 1, 2)
    program = usage.program(program)
    if more not in ([], ["--write"]):
        usage.ends(f"`{more[0]}` is no word of it")
    with concurrent.futures.ThreadPoolExecutor(len(os.sched_getaffinity(0))) as workers:
        rows = [*HEAD, *workers.map(lambda it: row(program, *it), ROWS), LAST]
    print("\n".join(rows))
    if more:
        put_table(rows)
    return 0


if __name__ == "__main__":
    usage.runs(main)
