#!/usr/bin/env python3
"""Reads the dumps that `pdl wave` writes, as docs/waves.md says and with the readers of GTKWave.

    waves.py PDL [CYCLES]

PDL is the program. The pipe of each run of examples/ is dumped for 10,000 cycles and read by what a dump says: its name
and ports have to be those of the netlist that `build` writes, and the commits, the ended threads and the squashes among
its ports the lines of `pdl run`, and those of `pdl sim`. Then it is dumped for CYCLES cycles (60 where none is given), and
what that dump says has to be what Icarus Verilog computes of the netlist, and what each of GTKWave's own formats has of it
after the way there and back: FST, LXT2 and VZT.
"""

import pathlib
import re
import subprocess
import tempfile

import usage
from pdl_model.dump import NoDump, Wave
from real_tools import Module, examples, ports_shown, said

# How many cycles are held against `run` and `sim`.
LONG = 10000

# The way into each format, and the way back.
FORMATS = {
    "FST": (["vcd2fst", "-v", "it.vcd", "-f", "it.fst"], ["fst2vcd", "-f", "it.fst"]),
    "LXT2": (["vcd2lxt2", "it.vcd", "it.lxt2"], ["lxt2vcd", "it.lxt2"]),
    "VZT": (["vcd2vzt", "it.vcd", "it.vzt"], ["vzt2vcd", "it.vzt"]),
}


class Dump:
    """A value change dump: its scope, its ports with their widths, and when each of them changes."""

    def __init__(self, text):
        head, changes = text.split("$enddefinitions $end\n", 1)
        self.scopes = re.findall(r"\$scope module (\S+) \$end", head)
        found = re.findall(r"\$var (?:wire|reg) (\d+) (\S+) (\w+)(?: \[\d+(?::\d+)?\])? \$end", head)
        self.widths = {name: int(width) for width, _, name in found}
        self.ports = {code: name for _, code, name in found}
        self.changes = {name: {} for name in self.widths}
        self.last = 0
        for line in changes.splitlines():
            self.take(line)

    def take(self, line):
        """One line after the declarations: a time, a vector, a single bit, or a `$` word that only groups them."""
        if line.startswith("#"):
            self.last = int(line[1:])
        elif line.startswith("b"):
            value, code = line[1:].split()
            self.changes[self.ports[code]][self.last] = value
        elif line and not line.startswith("$"):
            self.changes[self.ports[line[1:]]][self.last] = line[0]

    def value(self, port, cycle):
        """The value of a port in a cycle: its last change up to then, filled as the standard fills a short vector."""
        times = [time for time in self.changes[port] if time <= cycle]
        digits = self.changes[port][max(times)] if times else "x"
        if set(digits) - {"0", "1"}:
            return None
        return int(digits, 2)


def against(what, dump, module, shown):
    """All that a dump from another format says otherwise than these values of the ports."""
    wrong = []
    if dump.scopes[-1:] != [module.name]:
        wrong.append(f"{what}: the scopes are {dump.scopes}")
    if dump.widths != module.width:
        wrong.append(f"{what}: the ports are {dump.widths}")
        return wrong
    if dump.last != len(shown) + 1:
        wrong.append(f"{what}: the last time is {dump.last}")
    for cycle, row in enumerate(shown, 1):
        for (name, _), wanted in zip(module.outputs, row):
            found = dump.value(name, cycle)
            if found != wanted:
                wrong.append(f"{what}: {name} is {found} in cycle {cycle}, and not {wanted}")
    return wrong


def through(there, back, folder):
    """The text that comes back from another format, and a complaint where a converter ends badly."""
    status, text = said(there, folder)
    if status:
        return None, f"{there[0]} (status {status}): {text[:500]}"
    ran = subprocess.run(back, cwd=folder, capture_output=True, text=True, timeout=600)
    return ran.stdout, f"{back[0]} (status {ran.returncode}): {ran.stderr[:500]}" if ran.returncode else None


def dumped(program, module, cycles, folder):
    """The text of a dump and the values of all ports in each cycle, or what is wrong with it."""
    status, text = said([program, "wave", "source.pdl", "image.img", str(cycles)], folder)
    if status:
        return text, None, f"pdl wave (status {status}): {text}"
    try:
        wave = Wave(text)
    except NoDump as reason:
        return text, None, f"what is dumped is no dump: {reason}"
    if (f"pdl_{wave.name}", wave.ports, wave.cycles) != (module.name, module.outputs, cycles):
        return text, None, f"the dump is of {wave.name} with {wave.ports} and {wave.cycles} cycles"
    return text, wave.rows(), None


def lines_of(module, shown, cycles):
    """The lines that `pdl sim` has to print for these ports, of a pipe whose memories answer at once."""
    lines, ended, squashes = [], 0, 0
    for cycle, row in enumerate(shown, 1):
        port = dict(zip([name for name, _ in module.outputs], row))
        for memory, enable, at, value in module.commits():
            if port[enable] == 1:
                digits = (module.width[value] + 3) // 4
                lines.append(f"{cycle} {memory} {port[at]} {port[value]:0{digits}x}")
        ended += port["ended"]
        squashes += port["squash"]
    return "\n".join([*lines, f"end cycles {cycles} ended {ended} waits 0 squashes {squashes}", ""])


def printed(program, module, folder):
    """What is wrong with a long dump, held against the lines of `run` and `sim`."""
    _, rows, complaint = dumped(program, module, LONG, folder)
    if complaint:
        return [complaint]
    lines = 0, lines_of(module, rows, LONG)
    wanted = {
        "run": said([program, "run", "source.pdl", "image.img", str(LONG)], folder),
        "sim": said([program, "sim", module.file, "image.img", str(LONG)], folder),
    }
    return [f"the dump and pdl {name} differ" for name, it in wanted.items() if it != lines]


def opened(program, module, image, cycles, folder):
    """What is wrong with a dump, held against Icarus and the readers of GTKWave."""
    text, rows, complaint = dumped(program, module, cycles, folder)
    shown, unshown = ports_shown(module, image, lambda _: set(), cycles, folder)
    if complaint or unshown:
        return [complaint or unshown]
    wrong = [] if rows == shown else ["the dump and Icarus differ"]
    (folder / "it.vcd").write_text(text)
    for name, (there, back) in FORMATS.items():
        text, complaint = through(there, back, folder)
        wrong += [f"{name}: {complaint}"] if complaint else against(name, Dump(text), module, rows)
    return wrong


def judged(program, source, image, cycles, folder):
    """All that is wrong with the dumps of a source, run from an image, and how many values they have."""
    (folder / "source.pdl").write_text(source)
    (folder / "image.img").write_text(image)
    status, text = said([program, "build", "source.pdl"], folder)
    if status:
        return [f"pdl build (status {status}): {text}"], 0
    module = Module(text)
    (folder / module.file).write_text(text)
    wrong = printed(program, module, folder) + opened(program, module, image, cycles, folder)
    return wrong, (LONG + (1 + len(FORMATS)) * cycles) * len(module.outputs)


def main():
    words = usage.words(__doc__, 1, 2)
    program, cycles = usage.program(words[0]), usage.number(*words[1:] or ["60"])
    asked = compared = bad = 0
    print(said(["iverilog", "-V"], ".")[1].splitlines()[0])
    for what, source, image, _ in examples():
        with tempfile.TemporaryDirectory() as name:
            wrong, values = judged(program, source, image, cycles, pathlib.Path(name))
        asked, compared, bad = asked + 1, compared + values, bad + bool(wrong)
        for it in wrong[:20]:
            print(f"{what}: {it}")
    print(f"dumps {asked} values {compared} wrong {bad}")
    return 1 if bad else 0


if __name__ == "__main__":
    usage.runs(main)
