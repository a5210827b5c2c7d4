#!/usr/bin/env python3
"""Measures PicoRV32, a core that others wrote, as docs/riscv.md measures those here, and prints its rows of that page's table.

    riscv_picorv32.py PICORV32

PICORV32 is its text, `picorv32.v`. Debian 12 has one in the source package of nextpnr 0.4, as ice40/benchmark/picorv32.v. Each
prebuilt program runs on it by Verilator up to the ECALL at its end, with the whole memory that the model then has. Then it is
made for an iCE40-HX8K with 4 KiB and the words of sha256_O2, by yosys and nextpnr-ice40, as riscv_board.py makes a core.
"""

import pathlib
import re
import sys
import tempfile

import riscv_board
import usage
from riscv_cores import CORES, expected

sys.path.insert(0, str(CORES))
sys.path.insert(0, str(CORES / "board"))
import board
import elf_image
import rv32i_model

# What the table says of a core, and the parameters of board/top_picorv32.v.
ROWS = (
    ("PicoRV32 as it comes", {}),
    ("the same, memory without look-ahead", {"AHEAD": 0}),
    ("the same, a shift in one cycle, no counters", {"COUNTERS": 0, "SHIFTER": 1}),
)
MOST = 10_000_000


def memory_of(image):
    """The bytes of the memory that an image gives `data`."""
    found = bytearray(elf_image.BYTES)
    for (name, at), value in board.words_of(image).items():
        if name == "data":
            found[4 * at:4 * at + 4] = int(value, 16).to_bytes(4, "little")
    return found


def write_bytes(memory, size, folder):
    """The first bytes of a memory as four files, of which the first has the low ones of its words."""
    for lane in range(4):
        (folder / f"byte{lane}.hex").write_text("".join(f"{it:02x}\n" for it in memory[lane:size:4]))


def end_of(number, folder):
    """The memory that a run leaves on a core."""
    lanes = [re.sub(r"//.*|@\w+", "", (folder / f"end{number}{lane}.hex").read_text()).split() for lane in range(4)]
    return bytes(int(it, 16) for word in zip(*lanes) for it in word)


def bench():
    """A bench in which each core runs the same words up to its ECALL."""
    every = range(len(ROWS))
    given = ["".join(f", .{name}({value})" for name, value in parameters.items()) for _, parameters in ROWS]
    return "\n".join([
        "module bench;",
        "  reg clk = 0;",
        "  integer cycle = 0;",
        *(f"  integer cycles{k} = 0;\n  top #(.BITS(14){given[k]}) dut{k}(.clk(clk), .lamps());" for k in every),
        "  initial begin",
        f"    while (!({' && '.join(f'dut{k}.trap' for k in every)}) && cycle < {MOST}) begin",
        "      cycle = cycle + 1;",
        *(f"      if (!dut{k}.rst && !dut{k}.trap) cycles{k} = cycles{k} + 1;" for k in every),
        "      #1 clk = 1;",
        "      #1 clk = 0;",
        "    end",
        *(f'    $writememh("end{k}{lane}.hex", dut{k}.byte{lane});' for k in every for lane in range(4)),
        *(f'    $display("cycles {k} %0d", cycles{k});' for k in every),
        "    $finish;",
        "  end",
        "endmodule",
        ""])


def compiled(core, folder):
    """The program by Verilator that runs a memory's words on each core."""
    (folder / "bench.v").write_text(bench())
    flags = "--binary -Wno-fatal -Wno-lint -Wno-style -MAKEFLAGS OPT_GLOBAL=-O1 --top-module bench bench.v".split()
    board.run(["verilator", *flags, str(CORES / "board" / "top_picorv32.v"), str(core)], folder)
    return str(folder / "obj_dir" / "Vbench")


def cycles(program, run, folder):
    """The cycles of a prebuilt program up to its ECALL on each core, all of which leave the model's memory."""
    memory = memory_of(program.image())
    write_bytes(memory, len(memory), folder)
    found = re.findall(r"^cycles \d+ (\d+)$", board.run([run], folder), re.M)
    end = bytes(rv32i_model.Model(memory).run().memory)
    if len(found) != len(ROWS) or any(end_of(number, folder) != end for number in range(len(ROWS))):
        raise SystemExit(f"{program.name}: the memory at the end is not the model's")
    return [int(it) for it in found]


def speeds(core, folder):
    """Instructions a cycle of each core: of the 24 programs together, and of each loop."""
    run = compiled(core, folder)
    programs, loops = expected(), [it for it in expected("expected_loops") if "_m_" not in it.name]
    counts = {it.name: cycles(it, run, folder) for it in programs + loops}
    groups = [programs, *([it] for it in loops)]
    return [[f"{sum(it.instructions for it in group) / sum(counts[it.name][k] for it in group):.2f}" for group in groups]
            for k in range(len(ROWS))]


def sizes(core, parameters, folder):
    """Look-up tables, and the clock by nextpnr in MHz, on the HX8K."""
    write_bytes(memory_of(riscv_board.IMAGE.read_text()), 4 * board.WORDS, folder)
    (folder / "top.v").write_text((CORES / "board" / "top_picorv32.v").read_text())
    given = "".join(f" -set {name} {value}" for name, value in ({"LAMPS": riscv_board.PLACE} | parameters).items())
    synthesis = (f"read_verilog top.v {core}; chparam{given} top; synth_ice40 -abc9 -device hx -top top -json top.json; "
                 "tee -o cells.txt stat")
    board.run(["yosys", "-p", synthesis], folder)
    board.place(folder, riscv_board.SEEDS[0], "top")
    return [f"{riscv_board.tables_in(folder):,}", f"{riscv_board.clock(folder):.1f}"]


def rows(core):
    """The rows of the table."""
    with tempfile.TemporaryDirectory() as name:
        folder = pathlib.Path(name)
        for (told, parameters), speed in zip(ROWS, speeds(core, folder)):
            yield "| " + " | ".join([told, "its text", *speed, *sizes(core, parameters, folder)]) + " |"


def text(word):
    """The path of the core's text, from the top."""
    core = pathlib.Path(word).resolve()
    if "module picorv32 " not in core.read_text():
        usage.ends(f"{core.name} has no module picorv32")
    return core


def main():
    core, = usage.words(__doc__, 1, 1)
    for it in rows(text(core)):
        print(it, flush=True)
    return 0


if __name__ == "__main__":
    usage.runs(main)
