"""What a whole run has to keep, whatever the image and the replies are.

- The commits of a memory are the first writes of the threads run one after another: all those of the ended threads, and
  none of a thread that comes after the K threads that follow them, K being the number of stages.
- In each cycle that is no wait the oldest live thread moves. So at least (cycles - waits) / depth threads end.
- The arrays at the end are the image with the commits, those of advisory memories aside.
- Every state on the way is sound.

Two runs that differ in guesses alone have to write the same: those of a pipe with and without its updates, and those of two
images that differ in advisory memories alone.
"""

import dataclasses

from . import tree
from .files import replies_of
from .layout import Layout
from .machine import Machine
from .sequential import Sequential
from .sound import Sound


class Run:
    """A run that is watched: `complaints` is what it didn't keep, each with its cycle."""

    def __init__(self, layout, image, rows):
        self.layout, self.image, self.rows = layout, image, rows
        self.machine = Machine(layout, image)
        self.sequential = Sequential(layout, image)
        self.sound = Sound(layout, self.sequential, image)
        self.commits = {memory.name: [] for memory in layout.pipe.locked()}
        self.cycles = self.ended = self.waits = self.squashes = 0
        self.complaints = []

    def go(self, cycles):
        """Runs so many cycles, or up to the first one that something is wrong in, and asks what holds at the end."""
        while self.cycles < cycles and not self.complaints:
            self.cycle()
        if not self.complaints:
            self.finish()
        return self.complaints

    def complain(self, what):
        self.complaints.append(f"cycle {self.cycles}: {what}")

    def cycle(self):
        self.cycles += 1
        oldest, _ = self.machine.state.live()[0]
        ports = self.machine.cycle(replies_of(self.layout.pipe, self.rows, self.cycles))
        self.ended += ports.ended
        self.waits += ports.waits
        self.squashes += ports.squash
        if not ports.waits and not ports.moves[oldest]:
            self.complain("no wait, and the oldest thread doesn't move")
        for memory, commits in ports.commits.items():
            self.commits[memory] += commits
        for point in self.sound.complaints(self.machine.state, self.ended):
            self.complain(f"not sound afterwards: {point}")

    def writes(self, memory, threads):
        """The writes to a memory of the first threads, run one after another."""
        return [(address, value) for number in range(1, threads + 1)
                for name, address, value in self.sequential.turn(number).writes if name == memory]

    def finish(self):
        for memory, commits in self.commits.items():
            ended, most = self.writes(memory, self.ended), self.writes(memory, self.ended + self.layout.count)
            if commits[: len(ended)] != ended:
                self.complain(f"a write of an ended thread is missing among the commits of {memory}")
            if most[: len(commits)] != commits:
                self.complain(f"the commits of {memory} aren't the threads' writes")
        arrays = {name: list(words) for name, words in self.image.items()}
        for memory, commits in self.commits.items():
            for address, value in commits:
                arrays[memory][address] = value
        if any(arrays[memory.name] != self.machine.state.arrays[memory.name]
               for memory in self.layout.pipe.memories if not memory.advisory):
            self.complain("the arrays aren't the image with the commits")
        if self.ended < (self.cycles - self.waits) // self.layout.depth():
            self.complain("too few threads have ended")


def watched(layout, image, rows, cycles):
    """The run of so many cycles."""
    run = Run(layout, image, rows)
    run.go(cycles)
    return run


# Runs that differ in guesses alone


def without_updates(layout):
    """The pipe with no update, which has to keep all rules too."""
    return Layout(dataclasses.replace(layout.pipe, body=tree.without(layout.pipe.body, tree.Update)), layout.forms)


def with_other_advice(layout, image, random):
    """The image with other words in the advisory memories."""
    others = {memory.name: [random.getrandbits(memory.width) for _ in range(memory.depth)]
              for memory in layout.pipe.memories if memory.advisory}
    return image | others


def write_the_same(first, second):
    """Whether of each memory's commits in two runs one list begins with the other, and the threads' writes are the same."""
    threads = max(first.ended, second.ended) + 1
    return all(
        first.writes(memory, threads) == second.writes(memory, threads)
        and all(it == other for it, other in zip(commits, second.commits[memory]))
        for memory, commits in first.commits.items())
