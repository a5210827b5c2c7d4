#!/usr/bin/env python3
"""Makes and checks the programs of examples/riscv, where riscv64-unknown-elf-gcc, qemu-riscv32 and gcc are installed.

    riscv.py make [TABLE ..]        compiles the programs of examples/riscv/c, and writes their images and the tables of
                                    what they write: examples/riscv/expected, expected_rv32im with multiplication,
                                    expected_loops with and without it, expected_traps for the core that takes traps
    riscv.py check PDL [LEVEL ..]   compiles each at these levels (-O0 -O1 -O2 -Os where none is named), and runs it
                                    by the program PDL on each version of the core; with multiplication on the one
                                    that has it, and with traps on the one that takes them
    riscv.py verilator PDL          runs the prebuilt images on the netlists of all versions by Verilator, which has
                                    to print each line that PDL prints
    riscv.py figures PDL            runs the prebuilt images with each lock, and writes the tables of docs/riscv.md

Five things have to agree on each program: what `main` returns on this computer, the whole memory at the end of a run by
qemu, the model (examples/riscv/rv32i_model.py, and traps_model.py), and, for `check`, each write of each memory in the run
by PDL and the memory at its end. A program with traps runs on qemu-system-riscv32, in machine mode. The last two commands
need no compiler for RISC-V.
"""

import hashlib
import itertools
import os
import re
import subprocess
import sys
import tempfile
import time
from dataclasses import dataclass

import riscv_cores
import riscv_verilator
import usage
from riscv_cores import CORES, MULTIPLIES, SLOW, TRAPS, VERSIONS

sys.path.insert(0, str(CORES))
import elf_image
import rv32i_model
import traps_model

NAMES = "access compares crc fib float jumps loops matrix queens sha256 sort strings".split()
# Those that multiply and divide, for RV32IM.
MULTIPLYING = "float jumps matrix products".split()
# Loops in the manner of known benchmarks.
LOOPS = "records mix".split()
# Those that take traps: by calls, and by instructions of RV32IM that the core doesn't have.
TRAPPING = "calls jumps matrix products".split()
FLAGS = ("-mabi=ilp32 -ffreestanding -fno-builtin -nostdlib -nostartfiles -static -Wall -Wextra "
         "-Wl,--build-id=none -Wl,--no-warn-rwx-segments -T link.ld lib.c").split()
COMPILER = "riscv64-unknown-elf-gcc"


@dataclass(frozen=True)
class Way:
    """A way to compile a program: what its image's name has for it, the instructions, and the files of its start."""

    mark: str
    architecture: str
    start: tuple

    def stem(self, name, level):
        return "_".join(it for it in (name, self.mark, level) if it)


PLAIN = Way("", "rv32i", ("crt0.S",))
WITH_M = Way("m", "rv32im", ("crt0.S",))
WITH_TRAPS = Way("t", "rv32im", ("crt_traps.S", "traps.c", f"-Wl,--defsym=origin={traps_model.START:#x}"))
# The tables: the ways, the programs and the levels of each.
TABLES = {
    "expected": ((PLAIN,), NAMES, ("O2", "Os")),
    "expected_rv32im": ((WITH_M,), MULTIPLYING, ("O2", "Os")),
    "expected_loops": ((PLAIN, WITH_M), LOOPS, ("O2",)),
    "expected_traps": ((WITH_TRAPS,), TRAPPING, ("O2",)),
}


def run(words, **more):
    return subprocess.run(words, cwd=CORES / "c", check=True, **more)


def say_versions(*tools):
    """Prints the first line that each tool says of its version."""
    for tool in tools:
        print(run([tool, "--version"], capture_output=True, text=True).stdout.splitlines()[0])


def native(name, folder):
    """What `main` returns when the same file is compiled for this computer."""
    source = os.path.join(folder, name + ".native.c")
    with open(source, "w") as out:
        out.write('#define main its_main\n#include "%s"\n#undef main\n#include <stdio.h>\n'
                  'int main(void) { printf("%%08x", (unsigned)its_main()); }\n' % (CORES / "c" / (name + ".c")))
    run(["gcc", "-O1", "-fwrapv", "-w", source, "-o", source[:-2]])
    return int(run([source[:-2]], capture_output=True, text=True).stdout, 16)


def by_qemu(stem):
    """The whole memory at the end of a run by qemu, whose program writes it and ends."""
    return run(["qemu-riscv32", stem], capture_output=True).stdout


def by_machine(stem):
    """The whole memory at the end of a run by qemu as a machine, whose program stands still at its end."""
    words = ["qemu-system-riscv32", *"-machine virt -cpu rv32,g=false,m=false,c=false -icount shift=0 -bios none".split()]
    words += ["-kernel", stem, *"-display none -serial none -monitor stdio".split()]
    machine = subprocess.Popen(words, stdin=subprocess.PIPE, stdout=subprocess.PIPE, text=True)
    time.sleep(3)
    machine.communicate(f"pmemsave {traps_model.START:#x} {elf_image.BYTES} \"{stem}.end\"\nquit\n", timeout=60)
    with open(stem + ".end", "rb") as stream:
        return stream.read()


class Program:
    """A program at one level of optimisation: its memory at the start, the model's run, and where its result stands."""

    def __init__(self, name, level, folder, way=PLAIN):
        self.stem = way.stem(name, level)
        stem = os.path.join(folder, self.stem)
        run([COMPILER, "-" + level, "-march=" + way.architecture, *FLAGS, *way.start, name + ".c", "-lgcc", "-o", stem])
        with open(stem, "rb") as stream:
            self.memory = elf_image.memory_of(stream.read())
        self.name, self.level = name, level
        self.model = (traps_model.Traps if way is WITH_TRAPS else rv32i_model.Model)(self.memory).run()
        symbols = run(["riscv64-unknown-elf-nm", stem], capture_output=True, text=True).stdout
        address = next(int(line.split()[0], 16) for line in symbols.splitlines() if line.endswith(" result"))
        self.place = address % elf_image.BYTES // 4
        self.end = (by_machine if way is WITH_TRAPS else by_qemu)(stem)
        self.result = int.from_bytes(self.end[4 * self.place:4 * self.place + 4], "little")
        if self.end != bytes(self.model.memory):
            raise SystemExit("%s at -%s: the model's memory is not qemu's" % (name, level))
        if self.result != native(name, folder):
            raise SystemExit("%s at -%s: the result is not that of this computer" % (name, level))

    def image(self):
        return elf_image.image_of(self.memory)

    def digest(self):
        """SHA-256 of the lines `x ADDRESS VALUE` of all writes to x, and then those of data and of csr."""
        lines = ["%s %d %08x\n" % (mem, *pair) for mem in riscv_cores.WRITTEN for pair in self.model.writes.get(mem, ())]
        return hashlib.sha256("".join(lines).encode()).hexdigest()

    def expected(self):
        return "%s %d %d %08x %s" % (self.stem, self.model.count, self.place, self.result, self.digest())

    def is_right(self, run):
        """Whether each write of a run is the model's, and the memory at its end qemu's."""
        words = bytearray(self.memory)
        for address, value in run.writes("data"):
            words[4 * address:4 * address + 4] = value.to_bytes(4, "little")
        return all(run.writes(memory) == writes for memory, writes in self.model.writes.items()) and words == self.end


def make(tables, folder):
    """Writes the images and the tables of these names, or all."""
    for file in tables or TABLES:
        ways, names, levels = TABLES[file]
        with open(CORES / file, "w") as table:
            print("# a program and its level, its instructions, where its result stands in data, the result, "
                  "and SHA-256 of its writes", file=table)
            for name, way, level in itertools.product(names, ways, levels):
                program = Program(name, level, folder, way)
                (CORES / "images" / f"{program.stem}.img").write_text(program.image())
                print(program.expected(), file=table)


def check(pdl, levels, folder):
    say_versions(COMPILER, "qemu-riscv32")
    wrong = runs = 0
    for way, names, versions in ((PLAIN, NAMES + LOOPS, VERSIONS), (WITH_M, MULTIPLYING + LOOPS, [MULTIPLIES]), (WITH_TRAPS, TRAPPING, [TRAPS])):
        for name, level in itertools.product(names, levels or ("O0", "O1", "O2", "Os")):
            program = Program(name, level, folder, way)
            for version in versions:
                runs += 1
                stem = os.path.join(folder, "run%d" % runs)
                found = riscv_cores.run_core(pdl, version, program.image(), version.cycles * program.model.count, stem)
                right = program.is_right(found)
                wrong += not right
                says = f"right: {program.model.count} instructions in {found.last()} cycles" if right else "WRONG"
                print(f"{program.stem:14} {version.name:22} {says}", flush=True)
    print(f"runs {runs} wrong {wrong}")
    return wrong


def by_verilator(pdl, folder):
    """Runs the prebuilt images on the netlist of each version, and compares each line with that of `pdl run`."""
    say_versions("verilator")
    slow = os.path.join(folder, "slow.delays")
    with open(slow, "w") as out:
        out.write("\n".join(SLOW) + "\n")
    wrong = runs = lines = 0
    netlists = {}
    for version in VERSIONS:
        if version.source not in netlists:
            place = os.path.join(folder, version.source + ".netlist")
            netlists[version.source] = riscv_verilator.Verilated(pdl, CORES / version.source, place)
        for program in riscv_cores.expected():
            runs += 1
            cycles = version.cycles * program.instructions
            stem = os.path.join(folder, "run%d" % runs)
            wanted = riscv_cores.text_of_run(pdl, version, program.image(), cycles, stem)
            found = netlists[version.source].run(program.image(), cycles, slow if version.slow else None)
            lines += len(found.splitlines())
            if found != wanted:
                wrong += 1
                print(f"{program.name} on {version.source}: Verilator prints other lines")
    print(f"runs {runs} lines {lines} wrong {wrong}")
    return wrong


def main():
    words = usage.words(__doc__, 1)
    with tempfile.TemporaryDirectory() as folder:
        pdl = os.path.abspath(words[1]) if len(words) > 1 else None
        if words[:1] == ["make"] and TABLES.keys() >= set(words[1:]):
            make(words[1:], folder)
        elif words[:1] == ["check"] and pdl:
            return 1 if check(pdl, words[2:], folder) else 0
        elif words[:1] == ["verilator"] and len(words) == 2:
            return 1 if by_verilator(pdl, folder) else 0
        elif words[:1] == ["figures"] and len(words) == 2:
            figures = riscv_cores.Figures(pdl, folder)
            for table in (figures.versions, figures.products, figures.guesses, figures.second_guesses, figures.locks,
                          figures.loops, figures.traps):
                riscv_cores.put_table(table())
        else:
            usage.ends(f"`{' '.join(words)}` is no call of it")
    return 0


if __name__ == "__main__":
    usage.runs(main)
