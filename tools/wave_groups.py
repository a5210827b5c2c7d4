#!/usr/bin/env python3
"""Writes what GTKWave shows of a dump of a run: a group for each stage, one for each memory, and one for the run.

    wave_groups.py DUMP [SOURCE] > SAVE

DUMP is a dump of `pdl wave`, of tools/wave_variables.py, or of a bench of tools/testbench.py. A group of a stage has its two
ports, with the thread, the instruction and the variables where the dump has them, those that earlier stages bind in a closed
group. One of a memory has what the memory receives, is asked and answers. With SOURCE a group of a stage says its name and
its lines, and one of a memory its lock. `gtkwave DUMP SAVE` opens both.
"""

import pathlib
import re
from dataclasses import dataclass

import usage
from pdl_model import rules, syntax
from port_groups import group_of, grouped, title

# The window, its columns, and how long a cycle is; no marker is set.
HEAD = ["[timestart] 0", "[size] 1400 900", "[sst_expanded] 0", "[signals_width] 280", "*-1.000000" + 27 * " -1"]
# How GTKWave shows what comes next: a bit, a number in hexadecimal or in decimal; the ends of a group, and of a closed one.
BIT, HEXADECIMAL, DECIMAL = "@28", "@22", "@24"
BEGIN, END, BEGIN_CLOSED, END_CLOSED = "@800200", "@1000200", "@c00200", "@1401200"
# What each stage has for itself.
OWN = ("thread", "instruction")


@dataclass(frozen=True)
class Shown:
    """A variable of a dump: the path of its scope, its name, its kind, and how many bits it has."""

    scope: tuple
    name: str
    kind: str
    width: int

    def format(self):
        if self.kind == "wire" and self.width == 1:
            return BIT
        return DECIMAL if self.name == "thread" else HEXADECIMAL

    def path(self):
        """How GTKWave names it."""
        bits = f"[{self.width - 1}:0]" if self.kind == "wire" and self.width > 1 else ""
        return ".".join([*self.scope, self.name]) + bits


def declared(text):
    """The variables that a dump declares."""
    scope, found = [], []
    for line in text.partition("$enddefinitions")[0].splitlines():
        word = line.split()
        if word[:1] == ["$scope"]:
            scope.append(word[2])
        elif word[:1] == ["$upscope"]:
            scope.pop()
        elif word[:1] == ["$var"]:
            found.append(Shown(tuple(scope), word[4], "string" if word[1] == "string" else "wire", int(word[2])))
    return found


def groups(shown):
    """The variables of each group: those of the scope that is the group's, or else the ports in the first scope that has one."""
    outer = next((it.scope for it in shown if group_of(it.name)), None)
    ports = {it.name: it for it in shown if it.scope == outer}
    found = {group: [ports[name] for name in names] for group, names in grouped(ports).items()}
    for it in shown:
        inner = re.fullmatch(r"(stage|memory)_(\w+)", it.scope[-1]) if it.scope[:-1] == outer else None
        if inner and inner.groups() in found and it not in found[inner.groups()]:
            found[inner.groups()] = [of for of in found[inner.groups()] if of.scope != outer] + [it]
    return found


def carried(found):
    """Of each stage's group the variables that an earlier stage has too."""
    before, late = set(), {}
    for group, shown in found.items():
        late[group] = [it for it in shown if it.name in before and it.name not in OWN]
        before |= {it.name for it in shown} if group[0] == "stage" else set()
    return late


def saved(found, names):
    """The lines of the save file. What a stage only carries on stands in a closed group inside its own."""
    late = carried(found)
    yield from HEAD
    for group, shown in found.items():
        yield from (BEGIN, f"-{names[group]}")
        ports = [it for it in shown if group_of(it.name)]
        own = sorted((it for it in shown if it not in ports + late[group]), key=lambda it: it.name not in OWN)
        yield from (line for it in ports + own for line in (it.format(), it.path()))
        if late[group]:
            yield from (BEGIN_CLOSED, "-carried on")
            yield from (line for it in late[group] for line in (it.format(), it.path()))
            yield from (END_CLOSED, "-carried on")
        yield from (END, f"-{names[group]}")


def main():
    dump, *source = usage.words(__doc__, 1, 2)
    found = groups(declared(pathlib.Path(dump).read_text(errors="replace")))
    if not found:
        usage.ends(f"{dump} has no port of a pipe")
    text, layout = None, None
    if source:
        text = pathlib.Path(source[0]).read_bytes().decode("utf-8", "replace")
        try:
            layout = rules.checked(pathlib.Path(source[0]).read_bytes().decode("latin-1"))
        except syntax.Refused as refusal:
            usage.ends(f"{source[0]}: {refusal}")
        if any(kind == "stage" and int(of) >= layout.count or kind == "memory" and not layout.pipe.memory(of) for kind, of in found):
            usage.ends(f"{dump} is no dump of {source[0]}")
    print("\n".join(saved(found, {group: title(group, text, layout) for group in found})))


if __name__ == "__main__":
    usage.runs(main)
