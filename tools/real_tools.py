#!/usr/bin/env python3
"""Asks Icarus Verilog, Verilator and Yosys about the Verilog that `pdl build` writes.

    real_tools.py PDL [PIPES [SEED]] [--forms FORMS]

PDL is the program. The pipe of each run of examples/ and PIPES random ones of the whole language (200 where none is
given) are built. FORMS are those that the random ones have some of, as random_runs.py takes them. Each text is read by those of `iverilog -g2005 -Wall`, `verilator --lint-only -Wall` and `yosys check`
that are installed; they have to say nothing.
Then Icarus runs it in a test bench that answers the delayed memories as a random delay file says and shows all ports in
each cycle. No port may be unknown, and each is that of the machine of tools/pdl_model; the commits, the waits, the ended
threads and the squashes among them have to be the lines of `pdl sim`, and those of `pdl run`.
"""

import pathlib
import random
import re
import shutil
import subprocess
import tempfile
from collections import Counter

import usage
from pdl_model import files, rules
from pdl_model.forms import out_of
from random_runs import forms_in
from random_whole import RandomPipe, random_features, random_forms

EXAMPLES = pathlib.Path(__file__).resolve().parent.parent / "examples"
CYCLES = 60

# What the subset can't avoid, and why: docs/netlist.md says it in words.
VERILATOR_WITHOUT = ["CMPCONST", "UNDRIVEN", "UNSIGNED", "UNUSEDSIGNAL"]


def said(words, folder):
    """What a tool answers: its status, and all that it says."""
    ran = subprocess.run(words, cwd=folder, capture_output=True, text=True, timeout=600)
    return ran.returncode, ran.stdout + ran.stderr


def quiet(name, words, folder):
    """Complains where a tool ends badly or says anything."""
    status, text = said(words, folder)
    return [] if status == 0 and not text.strip() else [f"{name} (status {status}): {text.strip()[:2000]}"]


def lint(file, folder):
    """What the tools have against a text."""
    without = [f"-Wno-{it}" for it in VERILATOR_WITHOUT]
    yosys = f"read_verilog {file}; hierarchy -check; proc; check -assert"
    asked = [
        ["iverilog", "-g2005", "-Wall", "-o", "lint.vvp", file],
        ["verilator", "--lint-only", "-Wall", *without, file],
        ["yosys", "-q", "-p", yosys],
    ]
    return [it for words in asked if shutil.which(words[0]) for it in quiet(words[0], words, folder)]


class Module:
    """The ports and arrays of a text, in order."""

    def __init__(self, text):
        head = text[: text.index(");")]
        self.name = re.match(r"module (\w+)\(", head)[1]
        self.file = f"{self.name}.v"
        self.outputs = [(name, int(high) + 1) for high, name in re.findall(r"output wire \[(\d+):0\] (\w+)", head)]
        self.words = {name: int(high) + 1 for high, name in re.findall(r"input wire \[(\d+):0\] pd_(\w+)", head)}
        found = re.findall(r"^reg \[(\d+):0\] a_(\w+) \[0:(\d+)\];$", text, re.M)
        self.arrays = {name: (int(high) + 1, int(last) + 1) for high, name, last in found}
        self.width = dict(self.outputs)

    def memories(self):
        """The memories that commit."""
        return [name[2:] for name, _ in self.outputs if name.startswith("c_")]

    def commits(self):
        """The commits of a cycle in order: each a memory, and the ports that tell whether, where and what it receives."""
        ports = [(name, *(f"{it}{second}_{name}" for it in ("c", "ca", "cd"))) for name in self.memories() for second in ("", "2")]
        return [it for it in ports if it[1] in self.width]

    def commits_of(self, memory):
        """The ports of a memory's commits."""
        return [ports for name, *ports in self.commits() if name == memory]

    def delayed(self):
        """The delayed memories: a name, the width of a word, and that of an address."""
        return [(name, width, self.width[f"qa_{name}"]) for name, width in self.words.items()]

    def depths(self):
        """The memories inside the module and beside it, each with how many words it has."""
        inside = {name: depth for name, (_, depth) in self.arrays.items()}
        return inside | {name: 1 << address for name, _, address in self.delayed()}


def words_of(image):
    """The words of an image text, each with its memory and its address; a line gives one, or a range of them."""
    lines = [it for it in image.splitlines()[1:] if it and not it.startswith("//")]
    for name, place, value in map(str.split, lines):
        first, _, last = place.partition("..")
        yield from ((name, address, int(value, 16)) for address in range(int(first), int(last or first) + 1))


def kept_outside(name, width, address, commits):
    """A delayed memory of the test bench: what declares it, its answer in a cycle, and what the cycle leaves."""
    declared = [
        f"  reg p_{name} = 0;",
        f"  reg [{width - 1}:0] pd_{name} = 0;",
        f"  reg asked_{name} = 0;",
        f"  reg [{address - 1}:0] at_{name} = 0;",
        f"  reg [{width - 1}:0] m_{name} [0:{(1 << address) - 1}];",
    ]
    answered = [
        f"      p_{name} = asked_{name} && replies_{name}[cycle];",
        f"      pd_{name} = p_{name} ? m_{name}[at_{name}] : 0;",
    ]
    left = [f"      if ({enable}) m_{name}[{at}] = {value};" for enable, at, value in commits]
    left += [
        f"      if (p_{name}) asked_{name} = 0;",
        f"      if (q_{name}) begin asked_{name} = 1; at_{name} = qa_{name}; end",
    ]
    return declared, answered, left


def write_words(module, image, folder):
    """Writes the words of an image into a folder, a file `NAME.hex` for each memory."""
    given = {(name, address): value for name, address, value in words_of(image)}
    for name, depth in module.depths().items():
        (folder / f"{name}.hex").write_text("".join(f"{given.get((name, at), 0):x}\n" for at in range(depth)))


def loads(module):
    """The statements that put the words of these files into the arrays and the delayed memories."""
    found = [f"dut.a_{name}" for name in module.arrays] + [f"m_{name}" for name in module.words]
    return [f'    $readmemh("{name}.hex", {array});' for name, array in zip(module.depths(), found)]


def bench(module, replies, cycles, nets=()):
    """A test bench: one reset cycle, the words of the memories from their files, and in each cycle the answers, and a line with all ports and these nets."""
    outside = [kept_outside(*it, module.commits_of(it[0])) for it in module.delayed()]
    rows = [replies(cycle) for cycle in range(1, cycles + 1)]
    bits = {name: "".join(str(int(name in row)) for row in rows) for name in module.words}
    declared = [f"  wire [1:{cycles}] replies_{name} = {cycles}'b{row};" for name, row in bits.items()]
    wires = [f"  wire [{width - 1}:0] {name};" for name, width in module.outputs]
    inputs = "".join(f", .p_{name}(p_{name}), .pd_{name}(pd_{name})" for name in module.words)
    ports = "".join(f", .{name}({name})" for name, _ in module.outputs)
    every = [name for name, _ in module.outputs] + [f"dut.{net}" for net in nets]
    form = " ".join("%h" for _ in every)
    shown = "".join(f", {name}" for name in every)
    return "\n".join(
        [
            "module bench;",
            "  reg clk = 0;",
            "  reg rst = 1;",
            "  integer cycle;",
            *wires,
            *declared,
            *[line for it in outside for line in it[0]],
            f"  {module.name} dut(.clk(clk), .rst(rst){inputs}{ports});",
            "  initial begin",
            "    #1 clk = 1;",
            "    #1 clk = 0;",
            "    rst = 0;",
            *loads(module),
            f"    for (cycle = 1; cycle <= {cycles}; cycle = cycle + 1) begin",
            *[line for it in outside for line in it[1]],
            f'      #1 $display("{form}"{shown});',
            *[line for it in outside for line in it[2]],
            "      clk = 1;",
            "      #1 clk = 0;",
            "    end",
            "    $finish;",
            "  end",
            "endmodule",
            "",
        ]
    )


def port_lines(module, shown):
    """The ports of each cycle as the model says them."""
    names = [name for name, _ in module.outputs]
    return [" ".join(f"{name}={value:x}" for name, value in zip(names, row)) for row in shown]


def ports_shown(module, image, replies, cycles, folder, nets=()):
    """The values of all ports and of these nets in each cycle by Icarus, or what it has against the test bench."""
    write_words(module, image, folder)
    (folder / "bench.v").write_text(bench(module, replies, cycles, nets))
    status, text = said(["iverilog", "-g2005", "-o", "bench.vvp", "bench.v", module.file], folder)
    if status:
        return None, f"iverilog: {text}"
    status, text = said(["vvp", "-n", "bench.vvp"], folder)
    rows = [line.split() for line in text.splitlines() if not line.startswith("bench.v:")]
    if status or len(rows) != cycles or any(not re.fullmatch("[0-9a-f]+", it) for row in rows for it in row):
        return None, f"vvp (status {status}): {text[:500]}"
    return [[int(it, 16) for it in row] for row in rows], None


def differing(by_icarus, by_model):
    """The first cycle in which a port differs."""
    for cycle, (icarus, model) in enumerate(zip(by_icarus, by_model), 1):
        if icarus != model:
            return [f"cycle {cycle}: vvp and the model differ:\n{icarus}\n{model}"]
    return []


def judged(program, source, image, delays, cycles, folder):
    """All that is wrong with the netlist of a source, run from an image with a delay file."""
    (folder / "source.pdl").write_text(source)
    (folder / "image.img").write_text(image)
    (folder / "delays").write_text(delays)
    status, text = said([program, "build", "source.pdl"], folder)
    if status:
        return [f"pdl build (status {status}): {text}"]
    layout = rules.checked(source)
    words, rows = files.read_image(layout.pipe, image), files.read_delays(layout.pipe, delays)
    module = Module(text)
    (folder / module.file).write_text(text)
    option = ["--delays", "delays"] if delays else []
    sim = said([program, "sim", module.file, "image.img", str(cycles), *option], folder)
    run = said([program, "run", "source.pdl", "image.img", str(cycles), *option], folder)
    wrong = lint(module.file, folder)
    if sim[0] or sim != run:
        wrong.append(f"pdl sim and pdl run differ: {sim} {run}")
    if run[1].splitlines() != files.run_lines(layout, words, cycles, rows):
        wrong.append(f"pdl run and the model differ: {run}")
    shown, complaint = ports_shown(module, image, lambda cycle: files.replies_of(layout.pipe, rows, cycle), cycles, folder)
    if complaint:
        return [*wrong, complaint]
    by_model = [files.port_line(layout, ports) for ports in files.turns(layout, words, cycles, rows)]
    return wrong + differing(port_lines(module, shown), by_model)


def examples():
    """The runs of examples/, with their images."""
    for line in (EXAMPLES / "runs").read_text().splitlines():
        words = line.split()
        if words[1] == "run":
            yield " ".join(words[2:4]), (EXAMPLES / words[2]).read_text(), (EXAMPLES / words[3]).read_text(), ""


def random_pipes(program, count, seed, taken, folder):
    """Random pipes with some of these forms that the program accepts."""
    made, number = 0, 0
    while made < count:
        chance = random.Random(f"{seed} {number}")
        forms = random_forms(chance, taken)
        pipe = RandomPipe(chance, random_features(chance, forms), forms)
        source = pipe.source()
        (folder / "maybe.pdl").write_text(source)
        if said([program, "check", "maybe.pdl"], folder)[0] == 0:
            made += 1
            yield f"random pipe {seed} {number}", source, pipe.image(), pipe.delay_rows(CYCLES)
        number += 1


def main():
    given, taken = out_of(usage.words(__doc__, 1, 5))
    if taken is None or not 1 <= len(given) <= 3:
        usage.ends("it takes PDL [PIPES [SEED]] [--forms FORMS], with forms that there are")
    program = usage.program(given[0])
    count, seed = map(usage.number, given[1:] + ["200", "1"][len(given) - 1 :])
    asked = wrong = 0
    counts = Counter()
    for words in (["iverilog", "-V"], ["verilator", "--version"], ["yosys", "-V"]):
        print(said(words, ".")[1].splitlines()[0] if shutil.which(words[0]) else f"{words[0]} is not installed")
    with tempfile.TemporaryDirectory() as name:
        folder = pathlib.Path(name)
        for what, source, image, delays in [*examples(), *random_pipes(program, count, seed, taken, folder)]:
            asked += 1
            counts.update(forms_in(rules.checked(source)))
            found = judged(program, source, image, delays, CYCLES, folder)
            wrong += bool(found)
            for it in found:
                print(f"{what}: {it}")
    print(f"pipes {asked}" + "".join(f", with {form} {number}" for form, number in sorted(counts.items())) + f", wrong {wrong}")
    return 1 if wrong else 0


if __name__ == "__main__":
    usage.runs(main)
