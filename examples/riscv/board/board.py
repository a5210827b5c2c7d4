#!/usr/bin/env python3
"""Puts the RV32I core on a board with an iCE40-HX8K, where yosys, nextpnr-ice40, icestorm and iverilog are installed.

    board.py make PDL CORE IMAGE LAMPS FOLDER   writes top.bin, the bitstream, and what it took
    board.py try PDL IMAGE LAMPS CYCLES FOLDER  runs the netlist that `make` left, and compares it with `pdl run`
    board.py contents NETLIST IMAGE FOLDER    adds the words of an image to the arrays of any text of `pdl build`

PDL is the program, CORE a key of WRAPPERS, IMAGE an image of examples/riscv, LAMPS the word of `data` whose low byte the
lamps show, and FOLDER a folder for what is made. The core has memories of 4 KiB in place of 64: eight block memories each.
"""
import pathlib
import re
import subprocess
import sys

HERE = pathlib.Path(__file__).resolve().parent
WORDS = 1024
# A core, and the module round it.
WRAPPERS = {"rv32i": "top.v", "rv32i_guess": "top.v", "rv32i_counters": "top.v", "rv32i_traps": "top.v",
            "rv32i_delayed": "top_delayed.v", "rv32i_update": "top_delayed.v", "rv32i_btb": "top_delayed.v"}
CELLS = "/usr/share/yosys/ice40/cells_sim.v"


def run(words, folder, log=None):
    """What a tool prints; it has to end well."""
    ran = subprocess.run([str(it) for it in words], cwd=folder, capture_output=True, text=True)
    if log:
        (folder / log).write_text(ran.stdout + ran.stderr)
    if ran.returncode:
        raise SystemExit("%s ends with status %d: %s" % (words[0], ran.returncode, (ran.stdout + ran.stderr)[-2000:]))
    return ran.stdout


def write_core(name, folder, change):
    """The source of a core with small memories: their depths, and the bits of an address that name a word."""
    text = change((HERE.parent / (name + ".pdl")).read_text())
    high = WORDS.bit_length()
    text = text.replace("[16384]", "[%d]" % WORDS).replace("[15:2]", "[%d:2]" % high)
    (folder / "core.pdl").write_text(text)


def words_of(image):
    """The words of an image, by memory and address; a line gives one, or a range of them."""
    words = {}
    for line in (it for it in image.splitlines()[1:] if it and not it.startswith("//")):
        memory, place, value = line.split()
        first, _, last = place.partition("..")
        words.update(((memory, address), value) for address in range(int(first), int(last or first) + 1))
    return words


def write_words(name, depth, image, folder):
    """The words of a memory as NAME.hex, one a line; those that the image doesn't give are 0."""
    given = {address: value for (memory, address), value in words_of(image).items() if memory == name}
    if max(given, default=0) >= depth:
        raise SystemExit("%s has %d words, and the image gives word %d" % (name, depth, max(given)))
    (folder / (name + ".hex")).write_text("".join(given.get(at, "0") + "\n" for at in range(depth)))


def with_contents(text, image, folder):
    """A text of `pdl build` whose arrays begin with the words of an image: one line for each before its `endmodule`.

    The words of the array a_m stand in m.hex, and those of a delayed memory, which stands outside, in a file of its name.
    """
    loads = []
    for name, last in re.findall(r"^reg \[\d+:0\] a_(\w+) \[0:(\d+)\];$", text, re.M):
        write_words(name, int(last) + 1, image, folder)
        loads.append('initial $readmemh("%s.hex", a_%s);\n' % (name, name))
    for high, name in re.findall(r"output wire \[(\d+):0\] qa_(\w+)", text):
        write_words(name, 2 << int(high), image, folder)
    return text.replace("endmodule", "".join(loads) + "endmodule")


def place(folder, seed, name="seed"):
    """Places and routes the cells that Yosys left of a core as NAME.asc, and gives what nextpnr says, which NAME.log has."""
    run(["nextpnr-ice40", "--hx8k", "--package", "ct256", "--json", "top.json", "--pcf", HERE / "hx8k.pcf",
         "--asc", name + ".asc", "--freq", "12", "--seed", str(seed)], folder, name + ".log")
    return (folder / (name + ".log")).read_text()


def synthesise(pdl, core, image, lamps, folder, change=lambda text: text):
    """Makes cells of the iCE40 of a core, whose source may be changed first: top.json, and cells.txt with their numbers."""
    write_core(core, folder, change)
    text = run([pdl, "build", "core.pdl"], folder)
    (folder / "core.v").write_text(with_contents(text, image, folder))
    module = re.search(r"^module (\w+)\(", text, re.M)[1]
    (folder / "top.v").write_text((HERE / WRAPPERS.get(core, "top.v")).read_text().replace("pdl_rv32i ", module + " "))
    synthesis = ("read_verilog top.v core.v; chparam -set LAMPS %d top; synth_ice40 -abc9 -device hx -top top -json top.json; "
                 "write_verilog -noattr netlist.v; tee -o cells.txt stat" % lamps)
    run(["yosys", "-p", synthesis], folder, "yosys.log")


def make(pdl, core, image, lamps, folder, change=lambda text: text):
    """Makes the bitstream of a core, whose source may be changed first, and says what it takes."""
    synthesise(pdl, core, image, lamps, folder, change)
    log = place(folder, 1, "top")
    run(["icepack", "top.asc", "top.bin"], folder)
    run(["icetime", "-d", "hx8k", "-m", "-r", "icetime.txt", "top.asc"], folder, "icetime.log")
    return "\n".join([
        (folder / "cells.txt").read_text(),
        *re.findall(r"Info:\s+((?:ICESTORM_(?:LC|RAM)|SB_\w+):.*)", log),
        re.findall(r"Max frequency for clock .*", log)[-1],
        re.findall(r"Timing estimate: .*", (folder / "icetime.log").read_text())[-1]])


BENCH = """
module bench;
  reg clk = 0;
  wire [7:0] lamps;
  integer cycle = 0;
  top dut(.clk(clk), .lamps(lamps));
  initial begin
    while (cycle < %d) begin
      #1 if (!dut.rst) begin
        cycle = cycle + 1;
        if (dut.c_data !== 0) $display("%%0d data %%0d %%h", cycle, dut.ca_data, dut.cd_data);
      end
      clk = 1;
      #1 clk = 0;
    end
    #1 $display("lamps %%h", lamps);
    $finish;
  end
endmodule
"""


def attempt(pdl, image, lamps, cycles, folder):
    """Compares the writes of `data` in the netlist with those of `pdl run`, cycle by cycle, and the lamps at the end."""
    (folder / "bench.v").write_text(BENCH % cycles)
    (folder / "core.img").write_text(image)
    run(["iverilog", "-g2005", "-DNO_ICE40_DEFAULT_ASSIGNMENTS", "-o", "bench.vvp", "bench.v", "netlist.v", CELLS], folder)
    lines = [it for it in run(["vvp", "-n", "bench.vvp"], folder).splitlines() if not it.startswith("bench.v:")]
    text = run([pdl, "run", "core.pdl", "core.img", cycles], folder)
    wanted = [line for line in text.splitlines() if " data " in line]
    shown = [line.split()[3][-2:] for line in wanted if line.split()[2] == str(lamps)]
    wanted.append("lamps " + (shown or ["00"])[-1])
    if lines != wanted:
        first = next((pair for pair in zip(lines + [""], wanted + [""]) if pair[0] != pair[1]), None)
        raise SystemExit("the netlist and `pdl run` differ: %s" % (first,))
    print("%d cycles, %d writes of data, %s: the same" % (cycles, len(wanted) - 1, lines[-1]))


def main(words):
    if words[:1] == ["make"] and len(words) == 6 and words[2] in WRAPPERS:
        folder = pathlib.Path(words[5])
        folder.mkdir(parents=True, exist_ok=True)
        print(make(pathlib.Path(words[1]).resolve(), words[2], pathlib.Path(words[3]).read_text(), int(words[4]), folder))
    elif words[:1] == ["try"] and len(words) == 6:
        attempt(pathlib.Path(words[1]).resolve(), pathlib.Path(words[2]).read_text(), int(words[3]), int(words[4]), pathlib.Path(words[5]))
    elif words[:1] == ["contents"] and len(words) == 4:
        sys.stdout.write(with_contents(pathlib.Path(words[1]).read_text(), pathlib.Path(words[2]).read_text(), pathlib.Path(words[3])))
    else:
        sys.exit(__doc__)


if __name__ == "__main__":
    main(sys.argv[1:])
