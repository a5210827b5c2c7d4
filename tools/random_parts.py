"""What random pipes of the whole language are made of: when a step is done, where text is written, what may be named there."""

from typing import NamedTuple


class Moment(NamedTuple):
    """When a step is done: in a segment, or in both branches of the fork at its end, so far on the way through them."""

    segment: int
    in_fork: bool = False
    way: float = 0.0


class Spot(NamedTuple):
    """Where text is written: in a segment, or in branches of its fork, the outermost first, each with the run there.

    Run 0 of a branch belongs to the fork's stage. A fork inside a branch stands at the end of a run.
    """

    segment: int
    inside: tuple = ()

    def stage(self):
        """What grows from stage to stage of a path."""
        runs = [run for _, run in self.inside]
        while runs and runs[-1] == 0:
            runs.pop()
        return self.segment, *runs


class Branch(NamedTuple):
    """A branch: how many stages begin in no fork inside, and of each run at whose end a fork stands the two branches."""

    length: int
    forks: dict

    def steps(self):
        """The runs and the forks inside, in their order: numbers of runs, those of a fork's with `True`."""
        return [step for run in range(self.length + 1) for step in [(run, False), *([(run, True)] if run in self.forks else [])]]


class Known(NamedTuple):
    """A variable: it is there after a spot (at once, but for an answer), on the paths with these branches."""

    name: str
    width: int
    branches: frozenset
    answered_after: Spot | None
    is_advice: bool = False


class Memory:
    """A memory's declaration."""

    def __init__(self, random, number, delayed, locked, advisory=False):
        self.name = f"{'d' if delayed else 'q' if advisory else 'm'}{number}"
        self.delayed, self.advisory = delayed, advisory
        self.width = random.choice([1, 4, 8, 8, 16, 65, 128])
        self.address = random.choice([1, 1, 2, 2, 3, 4])
        self.lock = random.choice(["queue"] if delayed else ["queue", "bypass", "rename"]) if locked else None
        self.size = min(random.choice([1, 2, 4, 4, 8, 16]), 1 << self.address if self.lock == "rename" else 16)
        # Of a hot memory all threads use one word mostly.
        self.hot = random.random() < (0.5 if advisory else 0.25)

    def text(self):
        lock = f" lock {self.lock}({self.size})" if self.lock else ""
        kind = "delayed" if self.delayed else "advisory" if self.advisory else "comb"
        return f"{self.name}: uint<{self.width}>[{1 << self.address}] {kind}{lock}"


class Location:
    """An address that a thread reserves, for reading or writing; `guard` is a variable on whose path it does, or None.

    Of a second write `first` is the location of the first one, else None.
    """

    def __init__(self, memory, kind, first=None):
        self.memory, self.kind, self.first = memory, kind, first
        self.address = self.guard = None

    def at(self):
        return f"{self.memory.name}[{self.address}]"


def bits(random, count, cycles):
    """Reply bits: all ones, all zeros for a while, by a rate, in bursts, or a rate for each memory."""
    kind = random.choice(["ones", "zeros", "half", "fifth", "bursts", "each"])
    if kind == "ones":
        return []
    if kind == "zeros":
        return [[0] * count] * random.choice([10, cycles])
    if kind == "bursts":
        rows, bit = [], 0
        while len(rows) < cycles:
            rows += [[bit] * count] * random.randint(1, 6)
            bit = 1 - bit
        return rows
    rates = [{"half": 0.5, "fifth": 0.2}.get(kind) or random.choice([0.1, 0.3, 0.9, 1]) for _ in range(count)]
    return [[int(random.random() < rate) for rate in rates] for _ in range(cycles)]
