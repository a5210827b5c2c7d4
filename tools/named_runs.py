#!/usr/bin/env python3
"""Holds what the registers and cells of netlists are named for against the machine of tools/pdl_model.

    named_runs.py NAMES [PIPES [SEED]]

NAMES is the program `pdl_names`. The pipe of each run of examples/ and PIPES random ones of the whole language (200 where none
is given) run by Icarus Verilog, with random replies. In each cycle each net that has a name has to show what the machine has
there: a variable of the stage's thread, a mark, a ticket or a guess of it, a pending write of a lock, who awaits an answer,
who is inside a fork. Each register has to have a name.
"""

import pathlib
import random
import tempfile
from collections import Counter

import names
import usage
from pdl_model import files, rules
from pdl_model.deeds import carry_out
from pdl_model.forms import TAKEN
from pdl_model.machine import Machine
from pdl_model.moves import moving
from pdl_model.syntax import Refused
from random_whole import RandomPipe, random_features, random_forms
from real_tools import Module, examples, ports_shown

CYCLES = 60


class Moment:
    """A cycle of the machine, as it begins: what each named net has to show. Where nothing is said of a net that is None."""

    def __init__(self, layout, state, bits, heads):
        """`heads` has of the number of each memory with a lock that has a head what that shows."""
        self.layout, self.state, self.heads = layout, state, heads
        self.variables = names.variables(layout)
        answers = {name: state.arrays[name][it.address] for name, it in state.requests.items() if it and name in bits}
        self.deeds = [carry_out(layout, state, stage, answers) if it else None for stage, it in enumerate(state.stages)]
        self.moving = moving(layout, state, self.deeds, answers)

    def shown(self, net):
        """What a net with this name has to show."""
        return getattr(self, net.role)(*net.numbers)

    def thread(self, stage):
        return self.state.stages[stage]

    def valued(self, variable, values, truths):
        """A variable by its number, where a thread has these values and has passed these guards."""
        it = self.variables[variable]
        if it.guard is not None:
            return truths.get(it.guard)
        return values[it.name].value if it.name in values else None

    def holds(self, stage):
        return self.thread(stage) is not None

    def moves(self, stage):
        return self.moving[stage]

    def keeps(self, stage, variable):
        thread = self.thread(stage)
        if thread is None:
            return None
        name = self.variables[variable].name
        for memory, bound in thread.asked.items():
            if bound == name:
                return thread.kept.get(memory)
        return self.valued(variable, thread.values, thread.truths)

    def ends(self, stage, variable):
        deeds = self.deeds[stage]
        return self.valued(variable, deeds.values, deeds.truths) if deeds else None

    def guess(self, stage, place):
        thread = self.thread(stage)
        return thread.guess[place].value if thread and thread.guess else None

    def held(self, stage, memory, variable):
        thread = self.thread(stage)
        if thread is None:
            return None
        return thread.held.get((self.memory(memory).name, self.variables[variable].name)) == "W"

    def late(self, stage, memory, variable):
        thread = self.thread(stage)
        if thread is None:
            return None
        own = [it.variable for it in self.pending(memory) if it.thread == thread.number]
        name = self.variables[variable].name
        return own.index(name) > 0 if name in own else None

    # Locks

    def memory(self, number):
        return self.layout.pipe.memories[number]

    def pending(self, memory):
        return self.state.pending[self.memory(memory).name]

    def ticket_after(self, memory, count):
        """The ticket after so many pending writes, where the oldest has the one that the lock's head says."""
        return None if self.heads.get(memory) is None else (self.heads[memory] + count) % (2 * self.memory(memory).size)

    def ticket(self, stage, memory):
        thread = self.thread(stage)
        return self.ticket_after(memory, sum(it.thread < thread.number for it in self.pending(memory))) if thread else None

    def tail(self, stage, memory):
        thread = self.thread(stage)
        return self.ticket_after(memory, sum(it.thread <= thread.number for it in self.pending(memory))) if thread else None

    def lock(self, memory, place):
        name, size = names.lock_place(self.memory(memory), place)[0], self.memory(memory).size
        if name == "head" or name.startswith("map_"):
            return None
        if name == "tail":
            return self.ticket_after(memory, len(self.pending(memory)))
        if self.heads.get(memory) is None:
            return None
        _, slot, part = name.split("_")
        written = (int(slot) - self.heads[memory]) % size
        if part == "place" or written >= len(self.pending(memory)):
            return None
        entry = self.pending(memory)[written]
        return {"address": entry.address, "written": entry.value is not None, "value": entry.value}[part]

    # Requests and forks

    def port(self, memory, place):
        name = self.memory(memory).name
        request = self.state.requests[name]
        if place == 0:
            return request is not None and request.owner is None
        thread = self.thread(names.asked_stages(self.layout, name)[place - 1])
        return request is not None and thread is not None and request.owner == thread.number

    def order(self, stage, place):
        inside = self.state.branches[self.layout.forks.index(self.layout.fork_of(stage))]
        if place == 0:
            return (1 << len(inside)) - 1
        return sum(taken << at for at, taken in enumerate(inside)), len(inside)


def differs(wanted, found):
    """Whether a value is another one than is wanted; of the branches of a fork only those of threads inside count."""
    if isinstance(wanted, tuple):
        branches, count = wanted
        return found % (1 << count) != branches
    return wanted is not None and int(wanted) != found


def all_named(text):
    """The nets with a name, and the registers that have none."""
    nets = [names.Named(net, role, numbers, (), "", "") for net, role, numbers in text.roles]
    return nets, names.registers(text.text) - {it.net for it in nets if it.is_register()}


def compared(layout, image, rows, nets, shown, counts):
    """What differs in a run of which these values of the nets were shown, from the first cycle on."""
    machine = Machine(layout, image)
    heads = {it.numbers[0]: at for at, it in enumerate(nets) if it.role == "lock" and it.numbers[1] == 0}
    for cycle, row in enumerate(shown, 1):
        bits = files.replies_of(layout.pipe, rows, cycle)
        moment = Moment(layout, machine.state, bits, {memory: row[at] for memory, at in heads.items()})
        for it, found in zip(nets, row):
            wanted = moment.shown(it)
            counts[it.role] += wanted is not None
            if differs(wanted, found):
                yield f"cycle {cycle}: {it.net}, {it.role} {it.numbers}: {found} and not {wanted}"
        machine.cycle(bits)


def judged(program, source, image, delays, folder, counts):
    """All that is wrong with the names of a source's nets, in a run from an image with a delay file."""
    (folder / "source.pdl").write_text(source)
    text = names.netlist(program, str(folder / "source.pdl"))
    layout = rules.checked(source)
    words, rows = files.read_image(layout.pipe, image), files.read_delays(layout.pipe, delays)
    module = Module(text.text)
    (folder / module.file).write_text(text.text)
    nets, unnamed = all_named(text)
    counts["registers"] += len(names.registers(text.text))
    counts["named registers"] += len({it.net for it in nets if it.is_register()})
    counts["named cells"] += len({it.net for it in nets if not it.is_register()})
    wrong = [f"registers without a name: {' '.join(sorted(unnamed))}"] if unnamed else []
    shown, complaint = ports_shown(
        module, image, lambda cycle: files.replies_of(layout.pipe, rows, cycle), CYCLES, folder, [it.net for it in nets])
    if complaint:
        return [*wrong, complaint]
    values = [row[len(module.outputs):] for row in shown]
    return wrong + list(compared(layout, words, rows, nets, values, counts))


def random_pipes(count, seed):
    """Random pipes that break no rule."""
    made = number = 0
    while made < count:
        chance = random.Random(f"{seed} {number}")
        forms = random_forms(chance, TAKEN)
        pipe = RandomPipe(chance, random_features(chance, forms), forms)
        source = pipe.source()
        try:
            rules.checked(source)
        except Refused:
            pass
        else:
            made += 1
            yield f"random pipe {seed} {number}", source, pipe.image(), pipe.delay_rows(CYCLES)
        number += 1


def main():
    given = usage.words(__doc__, 1, 3)
    program = usage.program(given[0])
    count, seed = map(usage.number, given[1:] + ["200", "1"][len(given) - 1 :])
    asked = wrong = 0
    counts = Counter()
    with tempfile.TemporaryDirectory() as name:
        for what, source, image, delays in [*examples(), *random_pipes(count, seed)]:
            asked += 1
            found = judged(program, source, image, delays, pathlib.Path(name), counts)
            wrong += bool(found)
            for it in found[:5]:
                print(f"{what}: {it}")
    print(f"pipes {asked} " + " ".join(f"{what} {counts.pop(what)}" for what in ("registers", "named registers", "named cells")))
    print("values " + " ".join(f"{role} {number}" for role, number in sorted(counts.items())) + f" wrong {wrong}")
    return 1 if wrong else 0


if __name__ == "__main__":
    usage.runs(main)
