"""What the model of tools/pdl_model says of the threads of a run: what each binds, why it doesn't move, and what it commits."""

from dataclasses import dataclass, field

from pdl_model import files
from pdl_model import moves as conditions
from pdl_model.deeds import NotReady, carried_out, carry_out, has_room
from pdl_model.machine import Machine

# Why a thread doesn't move, in the order in which it is asked.
REASONS = {
    "a": "awaits an answer", "l": "a lock isn't ready", "x": "squashed by a later stage", "r": "a lock has no room",
    "p": "the port of a delayed memory isn't free", "b": "a barrier waits", "n": "the next stage is taken",
    "o": "an older thread is in the other branch"}


@dataclass
class Told:
    """What is told of a thread.

    values    of each variable its value, the last one that it had
    reasons   of each cycle in which the thread doesn't move, the letter of why
    causes    of the same cycles what of the run is the reason, in words; where it is squashed, who does that
    commits   of a cycle what memories receive of the thread: a memory, an address and a value each
    """

    values: dict = field(default_factory=dict)
    reasons: dict = field(default_factory=dict)
    causes: dict = field(default_factory=dict)
    commits: dict = field(default_factory=dict)


class Cycle:
    """A cycle of the model before it is taken: what each thread asks for, and which threads move."""

    def __init__(self, layout, state, replies):
        self.layout, self.state = layout, state
        self.answers = {name: state.arrays[name][it.address] for name, it in state.requests.items() if it and name in replies}
        self.deeds = [carry_out(layout, state, stage, self.answers) if thread else None for stage, thread in enumerate(state.stages)]
        self.moves = conditions.moving(layout, state, self.deeds, self.answers)

    def standing(self):
        """The stages that hold a thread."""
        return [stage for stage, thread in enumerate(self.state.stages) if thread]

    def reason(self, stage):
        """The letter of the first condition that keeps the thread of a stage where it is."""
        layout, state, own = self.layout, self.state, self.deeds[stage]
        if own is None:
            return "a" if set(state.stages[stage].awaited()) - set(self.answers) else "l"
        return next(letter for letter, holds in {
            "x": not conditions.fails_later(self.deeds, self.moves, stage),
            "r": conditions.have_room(layout, state, own),
            "p": conditions.ports_free(state, self.answers, self.moves, own),
            "b": conditions.barrier_clear(layout, state, own, stage),
            "n": conditions.can_enter(layout, state, own, self.moves, stage),
            "o": conditions.merges_well(layout, state, own, stage)}.items() if not holds)

    # What of the run is the reason, for each letter

    def cause(self, stage, letter):
        """What of the run keeps the thread of a stage where it is, by the letter of the reason."""
        after = range(stage + 1, self.layout.count)
        match letter:
            case "a" | "l":
                return self.not_ready(stage)
            case "x":
                return self.named(it for it in after if self.moves[it] and self.deeds[it].correction)
            case "r":
                return self.full(stage)
            case "p":
                return self.asked(stage)
            case "b":
                return self.named(it for it in after if it <= self.layout.verify_stage())
            case "n":
                return self.named([self.layout.next_stage(stage, self.deeds[stage].truths)])
        return self.named(self.before_the_merge(stage))

    def named(self, stages):
        """The threads of stages."""
        threads = [(self.state.stages[it], it) for it in stages]
        return ", ".join(f"thread {thread.number} in stage {it}" for thread, it in threads if thread)

    def not_ready(self, stage):
        """The answer that isn't there, or the pending write that a block waits for."""
        try:
            carried_out(self.layout, self.state, stage, self.answers)
        except NotReady as what:
            memory, *address = what.args
        if not address:
            return f"of {memory}"
        entry = self.state.older_write(memory, self.state.stages[stage].number, address[0])
        still = "still has to write" if entry.value is None else "has written, and not released"
        return f"{memory}[{address[0]}], which thread {entry.thread} {still}"

    def full(self, stage):
        """The pending writes of the lock that has no room."""
        reserved = [memory for memory, _, _ in self.deeds[stage].reserves]
        full = next(it for it in reserved if not has_room(self.state, self.layout.pipe.memory(it), reserved.count(it)))
        pending = dict.fromkeys(str(it.thread) for it in self.state.pending[full])
        return f"{full} has pending writes of {'threads' if len(pending) > 1 else 'thread'} {', '.join(pending)}"

    def asked(self, stage):
        """The request of the port that isn't free."""
        memory = next(it for it in self.deeds[stage].asks if not conditions.port_free(self.state, self.answers, self.moves, it))
        owner = self.state.requests[memory].owner
        return f"{memory} was asked {f'by thread {owner}' if owner else 'by a squashed thread'}"

    def before_the_merge(self, stage):
        """The stages of the branches before a merge that hold older threads."""
        fork = self.layout.merges[self.layout.next_stage(stage, self.deeds[stage].truths)]
        own = self.state.stages[stage].number
        return [it for it in self.standing() if self.layout.branch_of(fork, it) is not None and self.state.stages[it].number < own]


def take_in(cycle, number, told):
    """Adds to what is told of the threads what they have at the end of a cycle, and why those that don't move don't."""
    for stage in cycle.standing():
        thread = cycle.state.stages[stage]
        it = told.setdefault(thread.number, Told())
        it.values.update((cycle.deeds[stage] or thread).values)
        if not cycle.moves[stage]:
            it.reasons[number] = letter = cycle.reason(stage)
            it.causes[number] = cycle.cause(stage, "x" if conditions.fails_later(cycle.deeds, cycle.moves, stage) else letter)


def modelled(layout, image, rows, replies):
    """What is told of each thread, in the order in which they begin, and the cycles that are waits.

    The threads have to stand as in the rows.
    """
    machine, told, waits = Machine(layout, image), {}, []
    for number, row in enumerate(rows, 1):
        if [thread is not None for thread in machine.state.stages] != [letter != "." for letter in row]:
            raise SystemExit(f"pipeline.py: in cycle {number} the model stands otherwise than `pdl view` says")
        bits = files.replies_of(layout.pipe, replies, number)
        cycle = Cycle(layout, machine.state, bits)
        take_in(cycle, number, told)
        owners = {memory: machine.state.stages[stage].number for stage in cycle.standing() if cycle.moves[stage]
                  for memory in cycle.deeds[stage].releases}
        ports = machine.cycle(bits)
        for memory, commits in ports.commits.items():
            for address, value in commits:
                told[owners[memory]].commits.setdefault(number, []).append((memory, address, value))
        if ports.waits:
            waits.append(number)
    return [told[number] for number in sorted(told)], waits
