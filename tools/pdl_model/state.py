"""What the pipeline holds at the start of a cycle."""

from dataclasses import dataclass, field

from .words import Word


@dataclass
class Thread:
    """One instruction on its way through the pipe.

    number    1 for the first thread; a younger thread has a greater number
    values    its parameters and the variables that it has bound
    truths    of each guard that it has passed, whether the first branch was taken
    held      of each location (memory, variable) that it has reserved and not released, the kind, `R` or `W`
    guess     the arguments of its speculative call, or of its update after that, or None
    asked     of each delayed memory that it asked in its last stage, the variable to bind
    kept      of those that answered while it couldn't move, the word
    """

    number: int
    values: dict
    truths: dict = field(default_factory=dict)
    held: dict = field(default_factory=dict)
    guess: tuple | None = None
    asked: dict = field(default_factory=dict)
    kept: dict = field(default_factory=dict)

    def awaited(self):
        """The memories whose answers it still awaits."""
        return [memory for memory in self.asked if memory not in self.kept]


@dataclass
class Pending:
    """A reserved write of a lock's list: whose it is, by which variable, where, and what, once it is written."""

    thread: int
    variable: str
    address: int
    value: int | None = None


@dataclass
class Request:
    """What a delayed memory was asked; the owner is a thread's number, or None for an orphan."""

    owner: int | None
    address: int


@dataclass
class State:
    """Everything that is there at the start of a cycle.

    stages     for each stage its thread, or None
    arrays     the words of each memory, by its name
    pending    of each locked memory the pending writes, the oldest first; of one thread's two the one that it reserved first
    branches   of each fork the branches that the threads inside have taken, the oldest first: True is the first branch
    requests   of each delayed memory what is outstanding, or None
    """

    stages: list
    arrays: dict
    pending: dict
    branches: list
    requests: dict
    next_number: int = 2

    def older_write(self, memory, thread, address):
        """The youngest pending write of an address by an older thread, or None."""
        older = [it for it in self.pending[memory] if it.thread < thread and it.address == address]
        return older[-1] if older else None

    def stage_of(self, number):
        """The stage in which a thread stands."""
        return next(stage for stage, thread in enumerate(self.stages) if thread and thread.number == number)

    def live(self):
        """The live threads with their stages, the oldest first."""
        there = [(thread.number, stage, thread) for stage, thread in enumerate(self.stages) if thread]
        return [(stage, thread) for _, stage, thread in sorted(there)]


def new_thread(pipe, number, arguments):
    """A thread that begins with these arguments."""
    return Thread(number, dict(zip((parameter.name for parameter in pipe.parameters), arguments)))


def first_state(layout, image):
    """Cycle 1: thread 1 with the start arguments in stage 0, the image in the arrays, and all else empty."""
    pipe = layout.pipe
    arguments = tuple(Word(literal.number, literal.bits) for literal in pipe.start)
    return State(
        stages=[new_thread(pipe, 1, arguments)] + [None] * (layout.count - 1),
        arrays={name: list(words) for name, words in image.items()},
        pending={memory.name: [] for memory in pipe.locked()},
        branches=[[] for _ in layout.forks],
        requests={memory.name: None for memory in pipe.delayed()},
    )
