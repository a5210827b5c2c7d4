#!/usr/bin/env python3
"""Prints the table of docs/riscv.md that puts the cores beside others: instructions a cycle, look-up tables and clock.

    riscv_table.py PDL PICORV32 [--write]

PDL is the program, and PICORV32 the text of that core, as riscv_picorv32.py takes it. Each core runs the prebuilt programs, all
of whose writes have to be the model's, and is made for an iCE40-HX8K as riscv_board.py makes it: that needs yosys,
nextpnr-ice40 and icestorm. PicoRV32 is measured as riscv_picorv32.py says. What others publish of their cores is written below
as they say it. With --write the table is put into the page.
"""

import concurrent.futures
import os
import tempfile

import riscv_board
import riscv_picorv32
import usage
from riscv_cores import BUFFER, COUNTERS, DELAYED, FIVE, GUESS, LOCK_OF_X, MULTIPLIES, OPERANDS, SINGLE, TRAPS, UPDATED, VERIFY_LATER, Figures, expected, put_table

BEHIND = (r"(?m)^    next = spec_call\(.*\);$", "    next = spec_call(pc + 32'd4);")


def with_lock(lock):
    return LOCK_OF_X, r"\g<1>" + lock


RENAMED = with_lock("rename(4)")

# What the table says of a core, the core, and what is changed in its source.
ROWS = (
    ("one stage", SINGLE, None),
    ("five stages", FIVE, None),
    ("the same, `queue(4)`", FIVE, with_lock("queue(4)")),
    ("the same, `rename(4)`", FIVE, RENAMED),
    ("the same, a stage for operands", FIVE, OPERANDS),
    ("with a guess", GUESS, None),
    ("the same, `queue(4)`", GUESS, with_lock("queue(4)")),
    ("the same, guessed behind", GUESS, BEHIND),
    ("the same, verified in memory", GUESS, VERIFY_LATER),
    ("with a table of counters", COUNTERS, None),
    ("with delayed memories", DELAYED, None),
    ("with a second guess", UPDATED, None),
    ("with a branch target buffer", BUFFER, None),
    ("with a multiplier", MULTIPLIES, None),
    ("with traps", TRAPS, None),
)
HEAD = [
    "| core | source | 24 programs | `records_O2` | `mix_O2` | look-up tables | MHz |",
    "|---|---|---|---|---|---|---|",
]
# What is published of PicoRV32, in its README. There it is cycles an instruction: 4.100 and 5.232, of Dhrystone.
OTHERS = (
    "| PicoRV32, with multiplication and look-ahead | its README | | Dhrystone: 0.24 | | | |",
    "| the same, without look-ahead | its README | | Dhrystone: 0.19 | | | |",
    "| PicoRV32, small, regular and large | its README | | | | 761, 917 and 2,019 of 7-Series | 250 to 450 on 7-Series |",
)


def speeds(figures, core, change):
    """Instructions a cycle: of the 24 programs together, and of each loop; the core with traps runs others."""
    if core is TRAPS:
        return [""] * 3
    version = core.with_change(*change) if change else core
    loops = [it for it in expected("expected_loops") if "_m_" not in it.name]
    lasts = figures.cycles(version, [(it, it.image()) for it in loops])
    return [figures.per_cycle(version), *(f"{it.instructions / last:.2f}" for it, last in zip(loops, lasts))]


def sizes(program, core, change):
    """Look-up tables and clock; a core that doesn't fit has no clock. That of one stage would have its memories as flip-flops."""
    name = core.source.removesuffix(".pdl")
    if core is SINGLE:
        return ["", ""]
    if core is MULTIPLIES or change == RENAMED:
        return [f"{riscv_board.tables(program, name, change):,}", ""]
    it = riscv_board.taken(program, name, change)
    return [f"{it.tables:,}", f"{it.clock:.1f}"]


def main():
    program, picorv32, *more = usage.words(__doc__, 2, 3)
    program, picorv32 = usage.program(program), riscv_picorv32.text(picorv32)
    if more not in ([], ["--write"]):
        usage.ends(f"`{more[0]}` is no word of it")
    with tempfile.TemporaryDirectory() as folder, concurrent.futures.ThreadPoolExecutor(len(os.sched_getaffinity(0))) as workers:
        made = [workers.submit(sizes, program, core, change) for _, core, change in ROWS]
        figures = Figures(program, folder)
        ran = [speeds(figures, core, change) for _, core, change in ROWS]
        cells = [[told, f"`{core.source}`", *fast, *large.result()] for (told, core, _), fast, large in zip(ROWS, ran, made)]
    rows = [*HEAD, *("| " + " | ".join(it) + " |" for it in cells), *riscv_picorv32.rows(picorv32), *OTHERS]
    print("\n".join(rows))
    if more:
        put_table(rows)
    return 0


if __name__ == "__main__":
    usage.runs(main)
