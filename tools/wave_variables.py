#!/usr/bin/env python3
"""Adds the variables of the threads to a dump of `pdl wave`, for a waveform viewer.

    wave_variables.py PDL SOURCE IMAGE CYCLES [--delays FILE] [--table TABLE NAME] > DUMP

PDL is the program, whose ports come first, as `pdl wave` prints them. Below them stands a scope for each stage, with its ports
once more, the number of the thread that stands there, and each variable that it has at the end of the cycle, by its name in
the source; where the stage is empty, or the variable is not bound, its value is `x`. Each memory that has ports has a scope
with these. The variables are those of the model in tools/pdl_model, which has to show the same stages and moves as the ports,
cycle by cycle. With --table the variable NAME has beside it, as text, the instruction that it is with the table of `pdl asm`.
tools/wave_groups.py writes what GTKWave shows of such a dump.
"""

import pathlib

import listing
import usage
from pdl_model import files, rules
from pdl_model.deeds import carry_out
from pdl_model.dump import Wave
from pdl_model.machine import Machine
from pipeline import said
from port_groups import grouped

NUMBER = 32


def code(number):
    """The code of a variable, by its number: two or more of the printable characters."""
    letters = ""
    while number or len(letters) < 2:
        number, rest = divmod(number, 94)
        letters += chr(33 + rest)
    return letters


def at_end(machine, bits):
    """For each stage the thread that stands there, and what it has at the end of the cycle; None for an empty one."""
    layout, state = machine.layout, machine.state
    answers = {name: state.arrays[name][it.address] for name, it in state.requests.items() if it and name in bits}
    found = []
    for stage, thread in enumerate(state.stages):
        deeds = carry_out(layout, state, stage, answers) if thread else None
        found.append((thread.number, (deeds or thread).values) if thread else None)
    return found


def modelled(layout, image, replies, wave):
    """What stands in each stage in each cycle. The stages and moves have to be those of the ports."""
    machine, rows = Machine(layout, image), []
    ports = {name: number for number, (name, _) in enumerate(wave.ports)}
    for cycle in range(1, wave.cycles + 1):
        bits = files.replies_of(layout.pipe, replies, cycle)
        rows.append(at_end(machine, bits))
        seen = machine.cycle(bits)
        shown = [[wave.value(ports[f"{port}_{stage}"], cycle) == 1 for stage in range(layout.count)] for port in "vg"]
        if shown != [seen.valid, seen.moves]:
            raise SystemExit(f"wave_variables.py: in cycle {cycle} the model stands otherwise than the ports say")
    return rows


def variables(layout, rows, table):
    """What is declared: for each stage its variables with their widths, in the order in which they were met."""
    found = [{"thread": NUMBER} for _ in range(layout.count)]
    for row in rows:
        for stage, it in enumerate(row):
            for name, value in it[1].items() if it else ():
                found[stage].setdefault(name, value.width)
                if table and name == table.word:
                    found[stage].setdefault("instruction", "text")
    return [(stage, name, width) for stage, names in enumerate(found) for name, width in names.items()]


def shown(it, name, width, table):
    """The value of a variable as a dump has it, without its code."""
    number, values = it or (None, {})
    if width == "text":
        value = values.get(table.word)
        text = table.instruction(value.value) if value else None
        return "s" + (text or "").replace(" ", "\\x20")
    value = number if name == "thread" else values[name].value if name in values else None
    return f"b{'x' if value is None else format(value, 'b')}"


def header(wave, declared, codes):
    """The lines that declare the ports, and then for each stage and each memory these once more, with the stage's variables."""
    ports = {name: f"$var wire {width} {code(k)} {name} $end" for k, (name, width) in enumerate(wave.ports)}
    yield from ("$timescale 1 ns $end", f"$scope module pdl_{wave.name} $end", *ports.values())
    for (kind, of), names in grouped(ports).items():
        if kind != "run":
            yield f"$scope module {kind}_{of} $end"
            yield from (ports[name] for name in names)
            yield from (f"$var {'string 1' if width == 'text' else f'wire {width}'} {letters} {name} $end"
                        for letters, (stage, name, width) in zip(codes, declared) if (kind, of) == ("stage", str(stage)))
            yield "$upscope $end"
    yield from ("$upscope $end", "$enddefinitions $end")


def dumped(wave, layout, rows, table):
    """The lines of the dump."""
    declared = variables(layout, rows, table)
    codes = [code(len(wave.ports) + k) for k in range(len(declared))]
    yield from header(wave, declared, codes)
    before = {}
    for cycle, row in enumerate(rows, 1):
        now = {code(k): f"b{wave.value(k, cycle):b}" for k in range(len(wave.ports))}
        now |= {letters: shown(row[stage], name, width, table) for letters, (stage, name, width) in zip(codes, declared)}
        yield f"#{cycle}"
        yield from (f"{value} {letters}" for letters, value in now.items() if before.get(letters) != value)
        before = now
    yield f"#{wave.cycles + 1}"


def main():
    usage.helps(__doc__)
    asked = usage.Words()
    for name in ("program", "source", "image", "cycles"):
        asked.add_argument(name)
    asked.add_argument("--delays")
    asked.add_argument("--table", nargs=2, metavar=("TABLE", "NAME"))
    it = asked.parse_args()
    words = [it.source, it.image, it.cycles, *(["--delays", it.delays] if it.delays else [])]
    wave = Wave(said([it.program, "wave", *words]))
    layout = rules.checked(pathlib.Path(it.source).read_bytes().decode("latin-1"))
    image = files.read_image(layout.pipe, pathlib.Path(it.image).read_text())
    replies = files.read_delays(layout.pipe, pathlib.Path(it.delays).read_text()) if it.delays else []
    table = None
    if it.table:
        table = listing.read(it.table[0])
        table.word = it.table[1]
    rows = modelled(layout, image, replies, wave)
    if table and not any(it and table.word in it[1] for row in rows for it in row):
        usage.ends(f"no thread has a variable `{table.word}`")
    for line in dumped(wave, layout, rows, table):
        print(line)


if __name__ == "__main__":
    usage.runs(main)
