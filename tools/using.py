#!/usr/bin/env python3
"""Runs the test bench of docs/using.md, with the memory that the page puts beside it, by Icarus Verilog.

    using.py PDL

PDL is the program. What the bench prints of examples/loadstore_delayed.pdl in its 140 cycles has to be what `pdl run`
prints without a delay file, but for the last line. Then each pipe of examples/ is looked at with 0 in all its registers,
before a reset: it may write no array, commit nothing, and ask for nothing.
"""

import pathlib
import re
import tempfile

import usage
from real_tools import Module, said

TOP = pathlib.Path(__file__).resolve().parent.parent
SOURCE, IMAGE = TOP / "examples" / "loadstore_delayed.pdl", TOP / "examples" / "array.img"
CONTENTS = TOP / "examples" / "riscv" / "board" / "board.py"


def shown(folder, *files):
    """What Icarus prints of a bench, or what it has against its files."""
    status, complaint = said(["iverilog", "-g2005", "-Wall", "-o", "bench.vvp", *files], folder)
    return complaint if status or complaint else said(["vvp", "-n", "bench.vvp"], folder)[1]


def built(program, source, folder):
    """The text of a source, which is left in a file too."""
    text = said([program, "build", str(source)], ".")[1]
    (folder / "core.v").write_text(text)
    return text


def prints_the_run(program, folder):
    """Whether the page's bench prints the commits of the run."""
    wanted = said([program, "run", str(SOURCE), str(IMAGE), "140"], ".")[1]
    commits = [line for line in wanted.splitlines() if not line.startswith("end ")]
    page = (TOP / "docs" / "using.md").read_text()
    for text, name in re.findall(r"^```verilog\n(module (\w+).*?^endmodule\n)```$", page, re.M | re.S):
        (folder / f"{name}.v").write_text(text)
    built(program, SOURCE, folder)
    said([str(CONTENTS), "contents", "core.v", str(IMAGE), "."], folder)
    same = bool(commits) and shown(folder, "bench.v", "ram.v", "core.v").splitlines() == commits
    print(f"commits {len(commits)}, {'as' if same else 'not as'} pdl run prints them")
    return same


def is_still_at_zero(program, source, folder):
    """Whether a pipe with 0 in all registers, and no answers, does nothing to a memory."""
    text = built(program, source, folder)
    module = Module(text)
    registers = re.findall(r"^reg \[\d+:0\] (r\d+);$", text, re.M)
    enables = re.findall(r"^if \((\w+)\)", text, re.M)
    asked = [f"core.{name}" for name in enables + [it for it, _ in module.outputs if re.match(r"c2?_|q_|squash", it)]]
    inputs = "".join(f", .p_{name}(1'd0), .pd_{name}({width}'d0)" for name, width in module.words.items())
    lines = [
        "module bench;",
        f"  {module.name} core(.clk(1'b0), .rst(1'b1){inputs});",
        "  initial begin",
        *[f"    core.{name} = 0;" for name in registers],
        f'    #1 $display("{"%b" * len(asked)}", {", ".join(asked)});',
        "  end",
        "endmodule",
        "",
    ]
    (folder / "zero.v").write_text("\n".join(lines))
    return shown(folder, "zero.v", "core.v").strip() == "0" * len(asked)


def main():
    program = usage.program(usage.words(__doc__, 1, 1)[0])
    with tempfile.TemporaryDirectory() as name:
        folder = pathlib.Path(name)
        same = prints_the_run(program, folder)
        sources = sorted((TOP / "examples").glob("**/*.pdl"))
        restless = [source.name for source in sources if not is_still_at_zero(program, source, folder)]
    print(f"pipes {len(sources)}, not still with 0 in all registers: {len(restless)} {' '.join(restless)}".rstrip())
    return 0 if same and not restless else 1


if __name__ == "__main__":
    usage.runs(main)
