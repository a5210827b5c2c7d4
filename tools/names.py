#!/usr/bin/env python3
"""Says which variable, stage and lock the registers and cells of a source's netlist are.

    names.py NAMES SOURCE

NAMES is the program `pdl_names`, which writes the text of `pdl build` and below it what its nets stand for. Each stage, each
memory and its ports come with a line for each net: its name in the text, and what it is. A variable is named as in the
source, with `_out` behind it as the stage's statements leave it where a register of the stage keeps it too. docs/names.md
has all words. tools/testbench.py puts the same names into a bench and its dump.
"""

import pathlib
import re
import subprocess
from dataclasses import dataclass

import usage
from pdl_model import rules, syntax, tree
from port_groups import group_of, title

COMMENT = re.compile(r"// ([inr]\d+) (\w+) (\d+(?: \d+)*)")
# The parts of a net's name in a text that say that it is a register.
REGISTER = "r"
# What is behind the name of a variable as the statements of a stage leave it, where a register of the stage keeps it too.
OUT = "_out"


@dataclass(frozen=True)
class Named:
    """A net with a name: its name in the text, its role with its numbers, its group, its name there, and what it is."""

    net: str
    role: str
    numbers: tuple
    group: tuple
    label: str
    about: str

    def is_register(self):
        return self.net.startswith(REGISTER)


@dataclass(frozen=True)
class Variable:
    """A variable: its name, what it is, and of the condition of an `if` the number of its guard."""

    name: str
    about: str
    guard: int | None = None


@dataclass(frozen=True)
class Netlist:
    """The text of `pdl build`, and the names of its nets, each with its role and its numbers."""

    text: str
    roles: tuple


def variables(layout):
    """The variables by their numbers.

    The parameters come first, then, in the order of the text, what a statement binds and the condition of each `if` that is
    no plain variable.
    """
    found = [Variable(parameter.name, f"the parameter `{parameter.name}`") for parameter in layout.pipe.parameters]
    for it in layout.statements:
        statement = it.statement
        if isinstance(statement, (tree.Bind, tree.Read, tree.Ask)):
            found.append(Variable(statement.name, f"`{statement.name}`"))
        elif isinstance(statement, tree.If) and not isinstance(statement.condition, tree.Variable):
            line = statement.line
            found.append(Variable(f"if_{line}", f"the condition of the `if` in line {line}", it.guard))
    return found


def lock_place(memory, place):
    """A register of a memory's lock by its place, as docs/locks.md has them: its name, and what it is."""
    if place < 2:
        return ("head", "the ticket of the oldest pending write") if place == 0 else ("tail", "the ticket of the next one")
    part, slot = divmod(place - 2, memory.size)
    if part > 2:
        address = place - 2 - 3 * memory.size
        return f"map_{address}", f"where the word of address {address} stands"
    content = "place" if memory.lock == "rename" else "value"
    name = ("address", "written", content)[part]
    about = {"address": "the address", "written": "whether the value is there", "value": "the value", "place": "where the value stands"}
    return f"slot_{slot}_{name}", f"{about[name]} of the pending write in slot {slot}"


def asked_stages(layout, memory):
    """The stages in which a thread awaits the answer of a delayed memory, in the order of its port's registers."""
    stage = layout.stage_of_first(tree.Ask, memory)
    fork = layout.fork_of(stage)
    if fork is None:
        return [layout.next_stage(stage, ())]
    return [within[0] if within else fork.merge for within in (fork.first, fork.second)]


def described(layout, role, numbers):
    """The group of a net with this role, its name there, and what it is."""
    names = variables(layout)
    memories = layout.pipe.memories
    stage = ("stage", str(numbers[0]))
    match role, numbers:
        case "holds", _:
            return stage, "valid", "whether it holds a thread"
        case "moves", _:
            return stage, "moves", "whether its thread moves"
        case "keeps", (_, variable):
            return stage, names[variable].name, names[variable].about
        case "ends", (_, variable):
            return stage, f"{names[variable].name}{OUT}", f"{names[variable].about} after the statements"
        case "held" | "late", (_, memory, variable):
            location = f"{memories[memory].name}[{names[variable].name}]"
            about = "is reserved for writing" if role == "held" else "is the thread's second reservation of the memory"
            return stage, f"{role}_{memories[memory].name}_{names[variable].name}", f"whether {location} {about}"
        case "ticket", (_, memory):
            return stage, f"ticket_{memories[memory].name}", f"its thread's ticket of the lock of {memories[memory].name}"
        case "guess", (_, place):
            return stage, f"guess_{names[place].name}", f"what its thread guessed for {names[place].about}"
        case "tail", (_, memory):
            return stage, f"tail_{memories[memory].name}", f"where its squash would cut the lock of {memories[memory].name}"
        case "order", (_, place):
            name, about = (("inside", "how many"), ("branches", "in which branch the"))[place]
            return stage, f"fork_{name}", f"{about} threads are inside the fork, a bit for each, the oldest lowest"
        case "lock", (memory, place):
            return ("memory", memories[memory].name), *lock_place(memories[memory], place)
        case "port", (memory, 0):
            return ("memory", memories[memory].name), "orphan", "whether a request is outstanding whose thread is gone"
        case "port", (memory, place):
            of = asked_stages(layout, memories[memory].name)[place - 1]
            return ("memory", memories[memory].name), f"asked_by_{of}", f"whether the thread of stage {of} awaits its word"


def free(label, taken):
    """A name that isn't taken yet, and that is from now on."""
    while label in taken:
        label += "_"
    taken.add(label)
    return label


def netlist(program, source):
    """The netlist of a source with its names, or the words with which it is refused."""
    ran = subprocess.run([program, source], capture_output=True, text=True)
    if ran.returncode:
        usage.ends(f"{source}: {ran.stderr.strip()}")
    lines = ran.stdout.splitlines(keepends=True)
    roles = (COMMENT.match(it) for it in lines if it.startswith("//"))
    return Netlist(
        "".join(it for it in lines if not it.startswith("//")),
        tuple((it[1], it[2], tuple(map(int, it[3].split()))) for it in roles))


def named(layout, roles):
    """The nets with their names, those of a stage or a memory together; what a stage keeps that never changes is left out.

    A variable that a stage's statements make has its plain name where no register of the stage keeps it.
    """
    found, taken = [], {}
    kept = {numbers for net, role, numbers in roles if role == "keeps" and net.startswith(REGISTER)}
    for net, role, numbers in roles:
        group, label, about = described(layout, role, numbers)
        if role == "ends" and numbers not in kept:
            label = label.removesuffix(OUT)
        if role in ("keeps", "guess") and not net.startswith(REGISTER) or role in ("holds", "moves"):
            continue
        within = taken.setdefault(group, {"thread", "instruction"})
        found.append(Named(net, role, numbers, group, free(label, within), about))
    order = {"stage": 0, "memory": 1}
    return sorted(found, key=lambda it: (order[it.group[0]], int(it.group[1]) if it.group[0] == "stage" else 0))


def registers(text):
    """The registers that a text declares."""
    return set(re.findall(r"^reg \[\d+:0\] (r\d+);$", text, re.M))


def widths(text):
    """The width of each register and cell of a text."""
    return {net: int(high) + 1 for high, net in re.findall(r"^(?:reg|wire) \[(\d+):0\] ([rn]\d+);$", text, re.M)}


def ports(text):
    """The output ports of a text with the nets that they show, by their groups."""
    found = {}
    for port, net in re.findall(r"^assign (\w+) = ([inr]\d+);$", text, re.M):
        if group_of(port):
            found.setdefault(group_of(port), []).append((net, port))
    return found


def table(text, layout, source):
    """The lines of the table."""
    by_group = {}
    for it in named(layout, text.roles):
        by_group.setdefault(it.group, []).append((it.net, it.label, it.about))
    shown = ports(text.text)
    for group in dict.fromkeys([*shown, *by_group]):
        yield title(group, source, layout)
        for net, port in shown.get(group, []):
            yield f"  {net:6} {port:20} port"
        for net, label, about in by_group.get(group, []):
            yield f"  {net:6} {label:20} {about}"


def checked(source):
    """The text of a source, and its layout."""
    data = pathlib.Path(source).read_bytes()
    try:
        return data.decode("utf-8", "replace"), rules.checked(data.decode("latin-1"))
    except syntax.Refused as refusal:
        usage.ends(f"{source}: {refusal}")


def main():
    program, source = usage.words(__doc__, 2, 2)
    text, layout = checked(source)
    for line in table(netlist(usage.program(program), source), layout, text):
        print(line)


if __name__ == "__main__":
    usage.runs(main)
