"""What a thread asks of the machine in a cycle, if it moves.

A thread carries out the statements of its stage on its path. Arrays, pending writes and requests are those of the start
of the cycle, answers those of this cycle; its own variables flow from statement to statement.
"""

from dataclasses import dataclass, field

from . import tree
from .words import Word


@dataclass
class Deeds:
    """What a thread did in its stage: its values afterwards, and what it asks for."""

    values: dict
    truths: dict
    held: dict
    guess: tuple | None
    reserves: list = field(default_factory=list)  # memory, variable and address of each write that it reserves
    writes: list = field(default_factory=list)  # memory, variable and value
    releases: list = field(default_factory=list)  # the memory of each reserved write that it releases
    advice: list = field(default_factory=list)  # memory, address and value of each advisory write
    asks: dict = field(default_factory=dict)  # of a delayed memory: the variable to bind, and the address
    at_barrier: bool = False
    successor: tuple | None = None  # the arguments of its call or speculative call
    correction: tuple | None = None  # the arguments of a verify that fails, or of an update that changes the guess


class NotReady(Exception):
    """An answer isn't there, or a block isn't ready. It has the memory, and of a block the address."""


def read_ready(state, memory, thread, address):
    """Whether a read may go on: by the kind of lock, what the older pending writes of the address have to be."""
    older = state.older_write(memory.name, thread, address)
    if memory.lock == "queue":
        return older is None
    return older is None or older.value is not None


def write_ready(state, memory, thread, address):
    """Whether a write may go on: at a queue it waits for older pending writes of the address, else never."""
    return memory.lock != "queue" or state.older_write(memory.name, thread, address) is None


def has_room(state, memory, count):
    """Whether so many more writes can be reserved."""
    return len(state.pending[memory.name]) + count <= memory.size


def word_for(state, memory, thread, address):
    """What a ready read finds: the youngest older pending write's value, or the array's word where there is none."""
    older = state.older_write(memory.name, thread, address) if memory.lock else None
    return Word(state.arrays[memory.name][address] if older is None else older.value, memory.width)


def carry_out(layout, state, stage, answers):
    """The deeds of the thread in a stage, or None where it awaits an answer or a block isn't ready."""
    try:
        return carried_out(layout, state, stage, answers)
    except NotReady:
        return None


def carried_out(layout, state, stage, answers):
    """The deeds of the thread in a stage, which has to have its answers, and whose blocks have to be ready."""
    thread = state.stages[stage]
    words = thread.kept | {memory: answers[memory] for memory in thread.awaited() if memory in answers}
    for memory in thread.asked:
        if memory not in words:
            raise NotReady(memory)
    bound = {name: Word(words[memory], layout.pipe.memory(memory).width) for memory, name in thread.asked.items()}
    deeds = Deeds(thread.values | bound, dict(thread.truths), dict(thread.held), thread.guess)
    for placed in layout.by_stage[stage]:
        if placed.is_on(deeds.truths):
            do(layout.pipe, state, thread.number, deeds, placed)
    return deeds


def do(pipe, state, number, deeds, placed):
    """One statement of the thread with this number. `---` and `spec_check` do nothing."""
    match placed.statement:
        case tree.Bind(_, name, value):
            deeds.values[name] = value.value(deeds.values)
        case tree.If(_, condition, _, _):
            deeds.truths[placed.guard] = condition.value(deeds.values).value == 1
        case tree.Read(_, name, memory, address):
            deeds.values[name] = word_for(state, pipe.memory(memory), number, deeds.values[address].value)
        case tree.Ask(_, name, memory, address):
            deeds.asks[memory] = (name, deeds.values[address].value)
        case tree.SpecBarrier(_):
            deeds.at_barrier = True
        case tree.Call(_, arguments):
            deeds.successor = evaluated(arguments, deeds)
        case tree.SpecCall(_, _, arguments):
            deeds.guess = deeds.successor = evaluated(arguments, deeds)
        case tree.Verify(_, _, arguments):
            right = evaluated(arguments, deeds)
            deeds.correction = right if right != deeds.guess else None
        case tree.Update(_, _, arguments):
            better = evaluated(arguments, deeds)
            deeds.correction = better if better != deeds.guess else None
            deeds.guess = better
        case tree.Write(_, memory, address, value) if pipe.memory(memory).advisory:
            deeds.advice.append((memory, deeds.values[address].value, value.value(deeds.values).value))
        case tree.Reserve() | tree.Block() | tree.Write() | tree.Release():
            use_lock(pipe, state, number, deeds, placed.statement)


def evaluated(arguments, deeds):
    return tuple(it.value(deeds.values) for it in arguments)


def use_lock(pipe, state, number, deeds, statement):
    """A reserve, block, write or release. The last two kinds are of what the thread last reserved there."""
    memory, address = pipe.memory(statement.memory), deeds.values[statement.address].value
    location = (statement.memory, statement.address)
    match statement:
        case tree.Reserve(kind=kind):
            deeds.held[location] = kind
            if kind == "W":
                deeds.reserves.append((*location, address))
        case tree.Block():
            ready = read_ready if deeds.held[location] == "R" else write_ready
            if not ready(state, memory, number, address):
                raise NotReady(memory.name, address)
        case tree.Write(value=value):
            deeds.writes.append((*location, value.value(deeds.values).value))
        case tree.Release():
            if deeds.held.pop(location) == "W":
                deeds.releases.append(statement.memory)
