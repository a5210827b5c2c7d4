"""The threads of a pipe run wholly one after another, on plain arrays."""

from dataclasses import dataclass, field

from . import tree
from .words import Word


@dataclass
class Turn:
    """What one thread did: its values, its writes as memory, address and value, and what it passes on.

    It knows nothing of advice: variables that hold some aren't bound, and advisory memories are neither read nor written.
    """

    arguments: tuple
    values: dict
    truths: dict = field(default_factory=dict)
    writes: list = field(default_factory=list)
    passed_on: tuple | None = None


class Sequential:
    """Runs threads one after another from the start arguments and an image."""

    def __init__(self, layout, image):
        self.layout = layout
        self.arrays = {name: list(array) for name, array in image.items()}
        self.turns = []
        self.arguments = tuple(literal.value({}) for literal in layout.pipe.start)

    def turn(self, number):
        """The turn of this number, counted from 1; threads are run as far as it needs."""
        while len(self.turns) < number:
            self.run_thread()
        return self.turns[number - 1]

    def run_thread(self):
        """Runs the next thread to its end."""
        names = [parameter.name for parameter in self.layout.pipe.parameters]
        turn = Turn(self.arguments, dict(zip(names, self.arguments)))
        for placed in self.layout.statements:
            if placed.is_on(turn.truths):
                self.do(turn, placed)
        self.turns.append(turn)
        self.arguments = turn.passed_on

    def do(self, turn, placed):
        """One statement. Those that aren't named here do nothing."""
        memory = self.layout.pipe.memory(getattr(placed.statement, "memory", None))
        if memory and memory.advisory or getattr(placed.statement, "name", None) in self.layout.advised:
            return
        match placed.statement:
            case tree.Bind(_, name, value):
                turn.values[name] = value.value(turn.values)
            case tree.Read(_, name, memory, address) | tree.Ask(_, name, memory, address):
                width = self.layout.pipe.memory(memory).width
                turn.values[name] = Word(self.arrays[memory][turn.values[address].value], width)
            case tree.Write(_, memory, address, value):
                at, written = turn.values[address].value, value.value(turn.values).value
                self.arrays[memory][at] = written
                turn.writes.append((memory, at, written))
            case tree.If(_, condition, _, _):
                turn.truths[placed.guard] = condition.value(turn.values).value == 1
            case tree.Call(_, arguments) | tree.Verify(_, _, arguments):
                turn.passed_on = tuple(it.value(turn.values) for it in arguments)
