"""Stages, guards and paths: the tree of a pipe laid out as a list of statements."""

import functools
import itertools
from dataclasses import dataclass, field

from . import tree
from .forms import TAKEN


@dataclass(frozen=True)
class Placed:
    """A statement with its stage and the branches round it, the outermost first.

    `place` counts statements from 0 in text order. A branch is the number of a guard and whether it is taken. Of an `if`
    `guard` is its own guard.
    """

    place: int
    statement: object
    stage: int
    branches: tuple
    guard: int | None = None
    is_fork: bool = False

    def is_on(self, truths):
        """Whether it is on a thread's path, by the truth values of the guards that the thread has passed."""
        return not self.branches or all(truths[guard] == taken for guard, taken in self.branches)


@dataclass(eq=False)
class Fork:
    """An `if` that holds separators: where the stages of its branches stand.

    The stages of a branch are those that begin in no `if` of that branch. `inside` are the branches that the fork itself
    stands in, each as a fork and whether it is the first branch, the outermost first.
    """

    stage: int
    guard: int
    inside: tuple = ()
    first: list = field(default_factory=list)
    second: list = field(default_factory=list)
    merge: int | None = None

    def stages_of(self, taken):
        return self.first if taken else self.second


class Layout:
    """A pipe's statements in text order, its stages, guards and forks, by the forms of the language that are taken."""

    def __init__(self, pipe, forms=TAKEN):
        self.pipe, self.forms = pipe, forms
        self.statements = []
        self.conditions = []
        self.forks = []
        self.count = 1
        self._stage = 0
        self._guards = {}
        self._walk(pipe.body, (), ())
        self.by_stage = [[it for it in self.statements if it.stage == stage] for stage in range(self.count)]
        # Of each stage the branches round it, the outermost first.
        self.inside = [()] * self.count
        for fork in self.forks:
            for taken in (True, False):
                for stage in fork.stages_of(taken):
                    self.inside[stage] = (*fork.inside, (fork, taken))
        self.merges = {fork.merge: fork for fork in self.forks if fork.merge is not None}

    # Laying out

    def _walk(self, items, branches, inside):
        """Places the statements of a list. `inside` are the branches of forks that it stands in."""
        unmerged = []
        for item in items:
            if isinstance(item, tree.If):
                unmerged += self._branching(item, branches, inside)
            else:
                if isinstance(item, tree.Separator):
                    self._separate(inside, unmerged)
                    unmerged = []
                self._place(item, branches)

    def _place(self, item, branches, guard=None, is_fork=False):
        self.statements.append(Placed(len(self.statements), item, self._stage, branches, guard, is_fork))

    def _separate(self, inside, unmerged):
        """A `---`: the next stage begins, of a branch or of the trunk. Forks before it in the same list merge there."""
        self._stage = self.count
        self.count += 1
        if inside:
            fork, taken = inside[-1]
            fork.stages_of(taken).append(self._stage)
        for fork in unmerged:
            fork.merge = self._stage

    def _branching(self, item, branches, inside):
        """Places an `if` with what stands in it; gives it as a fork where it is one."""
        guard = self._guard(item.condition)
        is_fork = tree.holds_separator([item])
        self._place(item, branches, guard, is_fork)
        home = self._stage
        fork = Fork(home, guard, inside)
        if is_fork:
            self.forks.append(fork)
        for taken, items in ((True, item.first), (False, item.second)):
            self._stage = home
            self._walk(items, (*branches, (guard, taken)), (*inside, (fork, taken)) if is_fork else inside)
        self._stage = home
        return [fork] if is_fork else []

    def _guard(self, condition):
        """The number of a condition: `if`s on one plain variable share it."""
        if isinstance(condition, tree.Variable):
            if condition.name not in self._guards:
                self._guards[condition.name] = len(self.conditions)
                self.conditions.append(condition)
            return self._guards[condition.name]
        self.conditions.append(condition)
        return len(self.conditions) - 1

    # Where stages lead

    def next_stage(self, stage, truths):
        """The next stage of a thread with these truth values, or None after the last stage."""
        if stage == self.count - 1:
            return None
        fork = self.fork_of(stage)
        if fork is not None:
            within = fork.stages_of(truths[fork.guard])
            return within[0] if within else fork.merge
        if self.inside[stage]:
            outer, taken = self.inside[stage][-1]
            own = outer.stages_of(taken)
            return outer.merge if stage == own[-1] else own[own.index(stage) + 1]
        return stage + 1

    def fork_of(self, stage):
        """The fork that stands in a stage, or None."""
        return next((fork for fork in self.forks if fork.stage == stage), None)

    def branch_of(self, fork, stage):
        """The branch of a fork that a stage stands in, at any depth: True is the first one. None outside."""
        return next((taken for outer, taken in self.inside[stage] if outer is fork), None)

    # Paths

    def paths(self):
        """All choices of truth values for the guards."""
        return list(itertools.product((True, False), repeat=len(self.conditions)))

    def on_path(self, path):
        """The statements on a path, in text order."""
        return [it for it in self.statements if it.is_on(path)]

    def stages_on(self, path):
        """The stages that a thread of this path goes through."""
        found = [0]
        while found[-1] is not None:
            found.append(self.next_stage(found[-1], path))
        return found[:-1]

    def depth(self):
        """The greatest number of stages on a path."""
        return max(len(self.stages_on(path)) for path in self.paths())

    # Stages of the locks, the verifies and the updates

    def stage_of_first(self, kind, memory=None):
        """The stage of the first statement of a kind in the text, of this memory where one is named; else None."""
        found = (
            it.stage for it in self.statements
            if isinstance(it.statement, kind) and (memory is None or it.statement.memory == memory))
        return next(found, None)

    def verify_stage(self):
        return self.stage_of_first(tree.Verify)

    def update_stage(self):
        return self.stage_of_first(tree.Update)

    # What the whole text says

    @functools.cached_property
    def advised(self):
        """The variables that hold advice."""
        return self.pipe.advised()

    @functools.cached_property
    def written_twice(self):
        """The locked memories that some path reserves twice for writing, by their names."""
        return {memory.name for memory in self.pipe.locked()
                if any(len(self.write_addresses(path, memory.name)) > 1 for path in self.paths())}

    def write_addresses(self, path, memory):
        """The variables by which a path reserves a memory for writing, in text order."""
        return [it.statement.address for it in self.on_path(path) if isinstance(it.statement, tree.Reserve)
                and (it.statement.memory, it.statement.kind) == (memory, "W")]


def variable_widths(pipe):
    """The width of each parameter and variable."""
    widths = {parameter.name: parameter.width for parameter in pipe.parameters}
    for item in tree.every(pipe.body):
        if isinstance(item, tree.Bind):
            widths[item.name] = item.value.width(widths)
        elif isinstance(item, (tree.Read, tree.Ask)):
            widths[item.name] = pipe.memory(item.memory).width
    return widths
