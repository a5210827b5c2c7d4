#!/usr/bin/env python3
"""Writes a test bench for the netlist of a source, as docs/using.md has one: testbench.py PDL SOURCE IMAGE CYCLES FOLDER [NAMES]

PDL is the program. Into FOLDER go `core.v`, the text of `pdl build`; a `.hex` file for each memory, with the words of IMAGE;
`ram.v`, the memory of docs/using.md, where a memory is delayed; and `bench.v`, which resets the module, puts the words in,
prints the commits of CYCLES cycles as `pdl run` does, and dumps every net and register into `bench.vcd`. Its comments say of
which stage and of which memory the ports are. With NAMES, the program `pdl_names`, the bench has a scope for each stage and
each memory besides, and so its dump: with the variables, tickets and marks of the stage's thread by the names of
tools/names.py, `x` where it is empty, and with the registers of the memory's lock. It prints the two commands that run it by
Icarus Verilog.
"""

import functools
import pathlib
import re
import subprocess
import sys

import names
import usage
from pdl_model import rules
from port_groups import grouped, title
from real_tools import Module, write_words

# What a port shows, by the letters before its name.
SHOWS = {
    "v": "  // it holds a thread", "g": "  // its thread moves", "c": "  // it receives a word", "q": "  // it is asked for a word",
    "p": "  // it answers"}
PAGE = pathlib.Path(__file__).resolve().parent.parent / "docs" / "using.md"


def sized(width):
    return f"[{width - 1}:0] " if width > 1 else ""


def memories(module):
    """The memories with their arrays: those inside the module, and the delayed ones."""
    return [(name, f"core.a_{name}") for name in module.arrays] + [(name, f"ram_{name}.words") for name in module.words]


def ram(module, name, width, address):
    """A delayed memory beside the module, with what it is written where it has a lock."""
    zeros = ["1'b0", f"{address}'d0", f"{width}'d0"]
    first, second = [*module.commits_of(name), zeros, zeros][:2]
    written = ", ".join(f".{port}({net})" for port, net in zip(("c", "ca", "cd", "c2", "ca2", "cd2"), first + second))
    return [
        f"  ram #(.WIDTH({width}), .ADDRESS({address})) ram_{name}(.clk(clk), .rst(rst), .q(q_{name}), .qa(qa_{name}),",
        f"    .p(p_{name}), .pd(pd_{name}), {written});",
    ]


def wires(module, titles):
    """The wires of the ports, those of each stage and of each memory together, below what they belong to."""
    widths = dict(module.outputs)
    for name, width, _ in module.delayed():
        widths |= {f"p_{name}": 1, f"pd_{name}": width}
    for group, names in grouped(widths).items():
        yield f"  // {titles(group)}"
        yield from (f"  wire {sized(widths[name])}{name};{SHOWS.get(name.split('_')[0], '')}" for name in names)


def held(text):
    """Of each stage the register that says whether it holds a thread."""
    return {str(numbers[0]): net for net, role, numbers in text.roles if role == "holds"}


def scopes(module, text, layout):
    """A scope for each stage and each memory with its ports, and with its nets by their names."""
    widths = names.widths(text.text)
    there = held(text)
    groups = grouped([name for name, _ in module.outputs])
    for group, ports in groups.items():
        if group[0] == "run":
            continue
        yield f"  generate if (1) begin : {'_'.join(group)}"
        yield from (f"    wire {sized(module.width[port])}{port} = bench.{port};" for port in ports)
        for it in names.named(layout, text.roles):
            if it.group == group:
                width = widths[it.net]
                shown = f"core.{it.net}"
                if group[0] == "stage" and not it.role == "order":
                    shown = f"core.{there[group[1]]} ? {shown} : {width}'bx"
                yield f"    wire {sized(width)}\\{it.label} = {shown};  // {it.about}"
        yield "  end endgenerate"


def bench(module, cycles, source, titles, named=()):
    """The text of the bench for a source, whose groups of ports have these titles, with these lines for its names."""
    every = [name for name, _ in module.outputs] + [f"{port}_{name}" for name in module.words for port in ("p", "pd")]
    ports = "".join(f",\n    .{name}({name})" for name in every)
    return "\n".join([
        f"// A bench for {source}, whose stages and memories its comments name.",
        "module bench;",
        "  reg clk = 0;",
        "  reg rst = 1;",
        "  integer cycle;",
        *wires(module, titles),
        f"  {module.name} core(.clk(clk), .rst(rst){ports});",
        *named,
        *[line for it in module.delayed() for line in ram(module, *it)],
        "  initial begin",
        '    $dumpfile("bench.vcd");',
        "    $dumpvars(0, bench);",
        "    #1 clk = 1;                               // the one edge of the reset",
        "    #1 clk = 0;",
        "    rst = 0;",
        *[f'    $readmemh("{name}.hex", {array});' for name, array in memories(module)],
        f"    for (cycle = 1; cycle <= {cycles}; cycle = cycle + 1) begin",
        "      #1;",
        *[f'      if ({enable}) $display("%0d {name} %0d %h", cycle, {at}, {value});' for name, enable, at, value in module.commits()],
        "      clk = 1;",
        "      #1 clk = 0;",
        "    end",
        "    $finish;",
        "  end",
        "endmodule",
        "",
    ])


def main():
    program, source, image, cycles, folder, *naming = usage.words(__doc__, 5, 6)
    cycles, folder = usage.number(cycles), pathlib.Path(folder)
    folder.mkdir(parents=True, exist_ok=True)
    built = subprocess.run([program, "build", source], capture_output=True, text=True)
    if built.returncode:
        sys.stderr.write(built.stderr)
        return built.returncode
    module = Module(built.stdout)
    write_words(module, pathlib.Path(image).read_text(), folder)
    (folder / "core.v").write_text(built.stdout)
    text = pathlib.Path(source).read_bytes()
    layout = rules.checked(text.decode("latin-1"))
    titles = functools.partial(title, text=text.decode("utf-8", "replace"), layout=layout)
    named = ()
    if naming:
        netlist = names.netlist(usage.program(naming[0]), source)
        if netlist.text != built.stdout:
            usage.ends(f"{naming[0]} and {program} build {source} otherwise")
        named = scopes(module, netlist, layout)
    (folder / "bench.v").write_text(bench(module, cycles, pathlib.Path(source).name, titles, named))
    files = ["bench.v", "core.v"]
    if module.delayed():
        page = re.search(r"^```verilog\n(module ram .*?^endmodule\n)```$", PAGE.read_text(), re.M | re.S)
        (folder / "ram.v").write_text(page[1])
        files.append("ram.v")
    print(f"cd {folder} && iverilog -g2005 -o bench.vvp {' '.join(files)} && vvp -n bench.vvp")
    return 0


if __name__ == "__main__":
    usage.runs(main)
