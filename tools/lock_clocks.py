#!/usr/bin/env python3
"""Makes each lock for an iCE40-HX8K, and prints docs/locks.md's table of what it takes.

    lock_clocks.py PDL [--write]

PDL is the program. It builds the page's pipe with each lock of each size over a memory of 32 words of 32 bits, and needs yosys
and nextpnr-ice40. An entry has the look-up tables, the flip-flops, the longest path in nanoseconds, the mean over three seeds,
and the clock in MHz that it allows. As many locks are made at a time as there are processors: under `taskset -c 0` one. With
--write the table is put into the page.
"""

import concurrent.futures
import os
import pathlib
import re
import subprocess
import tempfile

import usage
from lock_costs import KINDS, PAGE, SIZES, source_of

DEPTH, WIDTH, SEEDS = 32, 32, (1, 2, 3)
HEAD = ["| lock | " + " | ".join(f"size {size}" for size in SIZES) + " |", "|---" * (len(SIZES) + 1) + "|"]
TABLE = re.compile(r"^\| lock \| size .*\n(?:\|.*\n)+", re.M)
# The ports' values stand in registers, so that what is measured begins and ends at registers.
TOP = """
module top(input wire clk, input wire rst, output reg out);
  {wires}
  {module} core(.clk(clk), .rst(rst){ports});
  reg [{high}:0] taken;
  always @(posedge clk) begin
    taken <= {{{names}}};
    out <= ^taken;
  end
endmodule
"""


def wrapped(text):
    """A module of few pins round one of `pdl build`."""
    name, ports = re.search(r"^module (\w+)\((.*?)\);", text, re.M | re.S).groups()
    outputs = re.findall(r"output wire \[(\d+):0\] (\w+)", ports)
    return TOP.format(
        module=name,
        wires="\n  ".join(f"wire [{high}:0] {port};" for high, port in outputs),
        ports="".join(f", .{port}({port})" for _, port in outputs),
        high=sum(int(high) + 1 for high, _ in outputs) - 1,
        names=", ".join(port for _, port in outputs),
    )


def ran(words, folder):
    """What a tool says, which has to end well."""
    done = subprocess.run(words, cwd=folder, capture_output=True, text=True)
    if done.returncode:
        raise SystemExit(f"{words[0]} ends with status {done.returncode}: {(done.stdout + done.stderr)[-1000:]}")
    return done.stdout + done.stderr


def longest(folder, seed):
    """The longest path by nextpnr, in nanoseconds."""
    said = ran(["nextpnr-ice40", "--hx8k", "--package", "ct256", "--json", "top.json", "--seed", str(seed)], folder)
    return 1000 / float(re.findall(r"Max frequency for clock .*?: ([\d.]+) MHz", said)[-1])


def entry(program, pipe, lock):
    """What stands in the table of a lock."""
    with tempfile.TemporaryDirectory() as name:
        folder = pathlib.Path(name)
        (folder / "lock.pdl").write_text(source_of(pipe, lock, DEPTH).replace("uint<8>", f"uint<{WIDTH}>"))
        text = ran([program, "build", "lock.pdl"], folder)
        (folder / "lock.v").write_text(text)
        (folder / "top.v").write_text(wrapped(text))
        cells = ran(["yosys", "-p", "read_verilog top.v lock.v; synth_ice40 -abc9 -device hx -top top -json top.json; stat"], folder)
        tables = int(re.findall(r"SB_LUT4 +(\d+)", cells)[-1])
        flops = sum(map(int, re.findall(r"SB_DFF\w* +(\d+)", cells.rsplit("Printing statistics", 1)[-1])))
        path = sum(longest(folder, seed) for seed in SEEDS) / len(SEEDS)
    return f"{tables:,}, {flops:,}, {path:.1f}, {1000 / path:.0f}"


def table(program, pipe):
    """The lines of the table."""
    locks = [f"{kind}({size})" for kind in KINDS for size in SIZES]
    with concurrent.futures.ThreadPoolExecutor(len(os.sched_getaffinity(0))) as workers:
        entries = dict(zip(locks, workers.map(lambda it: entry(program, pipe, it), locks)))
    yield from HEAD
    for kind in KINDS:
        yield f"| `{kind}` | " + " | ".join(entries[f"{kind}({size})"] for size in SIZES) + " |"


def main():
    program, *more = usage.words(__doc__, 1, 2)
    program = usage.program(program)
    if more not in ([], ["--write"]):
        usage.ends(f"`{more[0]}` is no word of it")
    page = PAGE.read_text()
    pipe = re.search(r"^```pdl\n(.*?)^```$", page, re.M | re.S)[1]
    lines = "".join(line + "\n" for line in table(program, pipe))
    print(lines, end="")
    if more:
        PAGE.write_text(TABLE.sub(lambda _: lines, page, count=1))
    return 0


if __name__ == "__main__":
    usage.runs(main)
