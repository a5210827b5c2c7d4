#!/usr/bin/env python3
"""Measures `pdl sim`, Icarus Verilog and Verilator on the same text.

    sim.py PDL [CYCLES [SOURCE IMAGE].. ]

PDL is the program. It needs `iverilog`, `vvp`, `verilator`, a C++ compiler and `valgrind`. Three pipes are built: the
load/store machine of five stages with a bypass lock, one of 64 stages, and one with eight memories that are all
read and written in each thread; then each SOURCE, with the words of its IMAGE. All three have to end as many threads.
The start of a program is measured by a run of no cycle, and taken off. A time is CPU time, the least of
five runs, and the instructions of `pdl sim` are counted by `valgrind`, over fewer cycles.
docs/measured.md has the figures.
"""

import pathlib
import re
import resource
import subprocess
import sys
import tempfile

sys.path.append(str(pathlib.Path(__file__).resolve().parent.parent / "tools"))
import usage
from real_tools import words_of

ROOT = pathlib.Path(__file__).resolve().parent.parent
EMPTY = "image 1\n"
RUNS = 5
# Verilator is done with the cycles too soon to be timed.
TIMES = {"verilator": 10}

MAIN = """#include "Vpdl.h"
#include "verilated.h"
#include <cstdio>
#include <cstdlib>
int main(int argc, char **argv) {
    Vpdl *top = new Vpdl;
    long cycles = atol(argv[1]), ended = 0;
    top->clk = 0; top->rst = 1; top->eval();
    top->clk = 1; top->eval();
    top->clk = 0; top->rst = 0; top->eval();
    for (long k = 0; k < cycles; k++) {
        ended += top->ended;
        top->clk = 1; top->eval();
        top->clk = 0; top->eval();
    }
    printf("ended %ld\\n", ended);
}
"""


def long_pipe():
    """A pipe of 64 stages, with a sum that each stage adds to."""
    lines = ["pipe p(n: uint<16>)[m: uint<16>[16] comb lock queue(16)] {", "a = n[3:0];", "x0 = n;", "call(n + 16'd1);"]
    for stage in range(1, 64):
        lines += ["---", f"x{stage} = x{stage - 1} * 16'd3 + 16'd{stage};"]
    lines += ["acquire(m[a], W);", "m[a] <- x63;", "release(m[a]);", "} start p(16'd0);", ""]
    return "\n".join(lines)


def memory_pipe():
    """A pipe of three stages with eight memories, of which each thread reads and writes a word."""
    memories = ", ".join(f"m{k}: uint<32>[256] comb lock bypass(4)" for k in range(8))
    lines = [f"pipe p(n: uint<32>)[{memories}] {{", "a = n[7:0];", "b = n[7:0];"]
    lines += [f"reserve(m{k}[a], R); reserve(m{k}[b], W);" for k in range(8)]
    lines += ["call(n + 32'd7);", "---"]
    lines += [f"block(m{k}[a]); x{k} = m{k}[a];" for k in range(8)]
    lines += ["---"]
    lines += [f"block(m{k}[b]); m{k}[b] <- x{k} + n;" for k in range(8)]
    lines += [f"release(m{k}[a]); release(m{k}[b]);" for k in range(8)]
    lines += ["} start p(32'd0);", ""]
    return "\n".join(lines)


def run(words, folder):
    """What a command writes; it has to end well."""
    return subprocess.run(words, cwd=folder, check=True, capture_output=True, text=True).stdout


def seconds(words, folder):
    """How much CPU time a command takes, the least of some runs."""
    times = []
    for k in range(RUNS + 1):
        if k:
            run(words, folder)
        used = resource.getrusage(resource.RUSAGE_CHILDREN)
        times.append(used.ru_utime + used.ru_stime)
    return min(after - before for before, after in zip(times, times[1:]))


def ended(words, folder):
    """How many threads a command says have ended."""
    return int(re.findall(r"ended (\d+)", run(words, folder))[-1])


def instructions(words, folder):
    """How many instructions a command takes."""
    counted = ["valgrind", "--tool=callgrind", "--callgrind-out-file=/dev/null", *words]
    said = subprocess.run(counted, cwd=folder, check=True, capture_output=True, text=True).stderr
    return int(re.search(r"Collected : (\d+)", said)[1])


def bench(text, cycles):
    """A test bench for Icarus without output in a cycle."""
    name = re.match(r"module (\w+)\(", text)[1]
    return "\n".join(
        [
            "module bench;",
            "  reg clk = 0;",
            "  reg rst = 1;",
            "  wire ended;",
            "  integer cycle;",
            "  integer count = 0;",
            f"  {name} dut(.clk(clk), .rst(rst), .ended(ended));",
            "  initial begin",
            "    #1 clk = 1;",
            "    #1 clk = 0;",
            "    rst = 0;",
            f"    for (cycle = 1; cycle <= {cycles}; cycle = cycle + 1) begin",
            "      #1 count = count + ended;",
            "      clk = 1;",
            "      #1 clk = 0;",
            "    end",
            '    $display("ended %0d", count);',
            "    $finish;",
            "  end",
            "endmodule",
            "",
        ]
    )


def with_words(text, image, folder):
    """The text with the words of an image put into its arrays, and zeros elsewhere."""
    words = {(name, address): f"{value:x}" for name, address, value in words_of(image)}
    loads = []
    for name, last in re.findall(r"^reg \[\d+:0\] a_(\w+) ?\[0:(\d+)\];", text, re.M):
        lines = [words.get((name, address), "0") for address in range(int(last) + 1)]
        (folder / f"{name}.hex").write_text("\n".join([*lines, ""]))
        loads.append(f'initial $readmemh("{name}.hex", a_{name});')
    return text.replace("endmodule", "\n".join([*loads, "endmodule"]))


def prepared(program, source, image, cycles, folder):
    """The commands of the three simulators, each with a number of cycles, and how many cells there are."""
    (folder / "source.pdl").write_text(source)
    (folder / "image.img").write_text(image)
    text = run([program, "build", "source.pdl"], folder)
    (folder / "build.v").write_text(text)
    (folder / "loaded.v").write_text(with_words(text, image, folder))
    (folder / "main.cpp").write_text(MAIN)
    for count in (0, cycles):
        (folder / "bench.v").write_text(bench(text, count))
        run(["iverilog", "-g2005", "-o", f"bench{count}.vvp", "bench.v", "loaded.v"], folder)
    verilated = ["verilator", "--cc", "--exe", "--build", "-O3", "-CFLAGS", "-O3", "--prefix", "Vpdl", "-Wno-fatal"]
    run([*verilated, "main.cpp", "loaded.v"], folder)
    return {
        "pdl sim": lambda count: [program, "sim", "build.v", "image.img", str(count)],
        "vvp": lambda count: ["vvp", "-n", f"bench{count}.vvp"],
        "verilator": lambda count: ["obj_dir/Vpdl", str(count)],
    }, len(re.findall(r"^wire ", text, re.M))


def measure(name, program, source, image, cycles):
    """Prints a line for each simulator."""
    with tempfile.TemporaryDirectory() as path:
        folder = pathlib.Path(path)
        commands, cells = prepared(program, source, image, cycles, folder)
        threads = {tool: ended(words(cycles), folder) for tool, words in commands.items()}
        if len(set(threads.values())) > 1:
            sys.exit(f"{name}: the simulators end different numbers of threads: {threads}")
        took = {}
        for tool, words in commands.items():
            times = TIMES.get(tool, 1)
            took[tool] = (seconds(words(cycles * times), folder) - seconds(words(0), folder)) / times
        words = commands["pdl sim"]
        few = min(cycles, 2000)
        each = (instructions(words(few), folder) - instructions(words(0), folder)) / few / cells
    for tool, time_taken in took.items():
        line = f"{name:15} {cells:5} cells  {tool:10} {cycles / time_taken:12.0f} cycles a second"
        line += f"  {time_taken * 1e9 / cycles / cells:7.2f} ns for a cell"
        print(line + (f"  {each:6.2f} instructions for a cell" if tool == "pdl sim" else ""))
    ours = took["pdl sim"]
    print(f"{name:15} {took['vvp'] / ours:6.1f} times Icarus, {took['verilator'] / ours:5.0%} of Verilator", flush=True)


def main():
    given = usage.words(__doc__, 1)
    program, cycles = usage.program(given[0]), usage.number(*given[1:2] or ["100000"], least=1)
    if len(given) > 2 and len(given) % 2:
        usage.ends("a SOURCE has no IMAGE")
    five = (ROOT / "examples" / "loadstore_bypass.pdl").read_text()
    pipes = [("five stages", five, EMPTY), ("64 stages", long_pipe(), EMPTY), ("eight memories", memory_pipe(), EMPTY)]
    for source, image in zip(given[2::2], given[3::2]):
        pipes.append((pathlib.Path(source).stem, pathlib.Path(source).read_text(), pathlib.Path(image).read_text()))
    for name, source, image in pipes:
        measure(name, program, source, image, cycles)


if __name__ == "__main__":
    usage.runs(main)
