"""What a cycle does: the step of the pipeline machine, and what is seen of it."""

from dataclasses import dataclass

from .deeds import carry_out
from .moves import moving
from .state import Pending, Request, Thread, first_state, new_thread


@dataclass
class Ports:
    """What is seen of a cycle.

    valid, moves   for each stage whether it holds a thread at the start, and whether that moves
    commits        of each locked memory the address and value of each write that is released, the older first
    requests       of each delayed memory the address that is asked for, or None
    ended          whether a thread moved out of the last stage
    squash         whether a failing verify moved, or an update that changes the guess
    waits          whether a request was outstanding at the start and isn't answered in this cycle
    """

    valid: list
    moves: list
    commits: dict
    requests: dict
    ended: bool
    squash: bool
    waits: bool


class Machine:
    """The pipeline of a pipe: `cycle` is one clock cycle."""

    def __init__(self, layout, image):
        self.layout = layout
        self.state = first_state(layout, image)

    def cycle(self, replies):
        """One cycle. `replies` are the delayed memories, by name, whose reply bit is 1."""
        layout, state = self.layout, self.state
        answers = {
            memory: state.arrays[memory][request.address]
            for memory, request in state.requests.items() if request and memory in replies}
        waits = any(request and memory not in answers for memory, request in state.requests.items())
        valid = [thread is not None for thread in state.stages]
        deeds = [carry_out(layout, state, stage, answers) if valid[stage] else None for stage in range(layout.count)]
        moves = moving(layout, state, deeds, answers)
        step = Step(layout, state, deeds, moves, answers)
        step.take()
        return Ports(valid, moves, step.commits, step.asked, moves[-1], step.squasher is not None, waits)


class Step:
    """The state's change in one cycle, in its order."""

    def __init__(self, layout, state, deeds, moves, answers):
        self.layout, self.state, self.answers = layout, state, answers
        # The threads that move, each with its stage and its deeds, from stage 0 on.
        self.moved = [(stage, state.stages[stage], deeds[stage]) for stage in range(layout.count) if moves[stage]]
        self.squash_stage, self.squasher = next(
            ((stage, thread) for stage, thread, own in self.moved if own.correction), (None, None))
        self.commits = {memory: [] for memory in state.pending}
        self.asked = dict.fromkeys(state.requests)

    def take(self):
        """Everything that the moves of this cycle bring about."""
        self.reserve()
        self.write()
        self.release()
        self.advise()
        self.pass_forks()
        self.answer()
        self.advance()
        if self.squasher:
            self.squash()
        self.ask()
        self.begin()

    def reserve(self):
        """Reservations for writing append an entry without a value."""
        for _, thread, own in self.moved:
            for memory, variable, address in own.reserves:
                self.state.pending[memory].append(Pending(thread.number, variable, address))

    def write(self):
        """Writes put their value into the entry of their own reservation."""
        for _, thread, own in self.moved:
            for memory, variable, value in own.writes:
                mine = (thread.number, variable)
                entry = next(it for it in self.state.pending[memory] if (it.thread, it.variable) == mine)
                entry.value = value

    def release(self):
        """A release takes the oldest entry out, which is the thread's own, and puts its value into the array.

        Of two releases the second takes the next one, whatever their order in the text.
        """
        for _, thread, own in self.moved:
            for memory in own.releases:
                entry = self.state.pending[memory].pop(0)
                assert entry.thread == thread.number and entry.value is not None
                self.state.arrays[memory][entry.address] = entry.value
                self.commits[memory].append((entry.address, entry.value))

    def advise(self):
        """Advisory writes change their words: of the greatest stage first, and within a stage in the order of the text."""
        for _, _, own in reversed(self.moved):
            for memory, address, value in own.advice:
                self.state.arrays[memory][address] = value

    def pass_forks(self):
        """Who goes from a fork into a branch stands last in the fork's list, and who comes to the merge leaves it."""
        for stage, _, own in self.moved:
            fork = self.layout.merges.get(self.layout.next_stage(stage, own.truths))
            if fork and self.layout.branch_of(fork, stage) is not None:
                self.state.branches[self.layout.forks.index(fork)].pop(0)
        for stage, _, own in self.moved:
            fork = self.layout.fork_of(stage)
            if fork and fork.stages_of(own.truths[fork.guard]):
                self.state.branches[self.layout.forks.index(fork)].append(own.truths[fork.guard])

    def answer(self):
        """Requests that are answered are over; the answer of a thread that stays is kept for it."""
        staying = {thread.number: thread for thread in self.state.stages if thread}
        for _, thread, _ in self.moved:
            del staying[thread.number]
        for memory, value in self.answers.items():
            owner = self.state.requests[memory].owner
            if owner in staying:
                staying[owner].kept[memory] = value
            self.state.requests[memory] = None

    def advance(self):
        """Who moves stands in its next stage, or has ended. Later stages first, so that nobody stands in the way."""
        for stage, thread, own in reversed(self.moved):
            self.state.stages[stage] = None
            following = self.layout.next_stage(stage, own.truths)
            if following is not None:
                assert self.state.stages[following] is None
                self.state.stages[following] = Thread(
                    thread.number, own.values, own.truths, own.held, own.guess,
                    asked={memory: name for memory, (name, _) in own.asks.items()})

    def squash(self):
        """Every thread younger than the one whose guess was wrong is removed, and what it left behind but its advice."""
        state, last = self.state, self.squasher.number
        state.stages = [thread if thread and thread.number <= last else None for thread in state.stages]
        for memory, entries in state.pending.items():
            state.pending[memory] = [entry for entry in entries if entry.thread <= last]
        for fork, inside in zip(self.layout.forks, state.branches):
            if fork.merge <= self.squash_stage:
                inside.clear()
        for request in state.requests.values():
            if request and request.owner is not None and request.owner > last:
                request.owner = None

    def ask(self):
        """The requests of this cycle are outstanding from now on."""
        for _, thread, own in self.moved:
            for memory, (_, address) in own.asks.items():
                assert self.state.requests[memory] is None
                self.state.requests[memory] = Request(thread.number, address)
                self.asked[memory] = address

    def begin(self):
        """The successor of a thread that moved stands in stage 0, with the next number."""
        for _, _, own in self.moved:
            arguments = own.correction or own.successor
            if arguments:
                assert self.state.stages[0] is None
                self.state.stages[0] = new_thread(self.layout.pipe, self.state.next_number, arguments)
                self.state.next_number += 1
