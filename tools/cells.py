#!/usr/bin/env python3
"""Counts the cells of netlists, and what Yosys leaves of the same texts: cells.py PDL SOURCE ..

Of each SOURCE the text that `PDL build` writes is counted: its registers, its cells, and its gates, which are the cells
without constants and without parts, joined and repeated nets: these are wires in Yosys. Beside them stand the gates that
Yosys leaves by the steps of `opt -full` that leave registers as they are, without registers and memories. The choice of
each register between its reset and its next value is a part of the register, and left out of the text for Yosys. It needs
`yosys`.
"""
import pathlib
import re
import subprocess
import tempfile

import usage

WIRE = re.compile(r"^(\d+'h[0-9a-f]+|\w+\[\d+:\d+\]|\{.*\})$")
STATE = re.compile(r"^\$(a?l?s?d?ffs?r?e?|s?dffc?e?|mem\w*)$")
RESET = re.compile(r"<= rst \? \d+'h[0-9a-f]+ : ")

# What `opt -full` does until nothing changes any more, but for the steps that change registers.
ROUND = "opt_muxtree; opt_reduce -full; opt_merge; opt_share; opt_clean; opt_expr -full; "
SCRIPT = f"read_verilog net.v; hierarchy -auto-top; proc; opt_expr -full; opt_merge; {ROUND * 6} tee -q -o stat.txt stat"


def gates_left(text, folder):
    """How many gates Yosys is left with."""
    (folder / "net.v").write_text(RESET.sub("<= ", text))
    subprocess.run(["yosys", "-q", "-p", SCRIPT], cwd=folder, check=True, capture_output=True)
    kinds = re.findall(r"^\s+(\$\w+)\s+(\d+)$", (folder / "stat.txt").read_text(), re.M)
    return sum(int(count) for kind, count in kinds if not STATE.match(kind))


def main():
    program, *sources = usage.words(__doc__, 2)
    usage.program(program)
    with tempfile.TemporaryDirectory() as name:
        for source in sources:
            text = subprocess.run([program, "build", source], check=True, capture_output=True, text=True).stdout
            cells = re.findall(r"^assign n\d+ = (.*);$", text, re.M)
            gates = sum(1 for cell in cells if not WIRE.match(cell))
            registers = len(re.findall(r"^reg .* r\d+;$", text, re.M))
            left = gates_left(text, pathlib.Path(name))
            print("%-24s registers %4d  cells %5d  gates %5d  of Yosys %5d  %.2f" % (
                pathlib.Path(source).stem, registers, len(cells), gates, left, gates / left), flush=True)


if __name__ == "__main__":
    usage.runs(main)
