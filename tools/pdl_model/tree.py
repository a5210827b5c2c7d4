"""What a source text consists of: expressions, statements, and the pipe."""

from dataclasses import dataclass, replace

from . import words

# Expressions. Each one can be evaluated (`value`) and has a width (`width`), which needs the widths of its variables.
# In a pipe that breaks a rule the two sides of an operator may differ in width: the width is then the left one's.


@dataclass(frozen=True)
class Literal:
    number: int
    bits: int

    def value(self, values):
        return words.Word(self.number, self.bits)

    def width(self, widths):
        return self.bits

    def parts(self):
        return ()


@dataclass(frozen=True)
class Variable:
    name: str

    def value(self, values):
        return values[self.name]

    def width(self, widths):
        return widths[self.name]

    def parts(self):
        return ()


@dataclass(frozen=True)
class Slice:
    name: str
    high: int
    low: int

    def value(self, values):
        return words.part(values[self.name], self.high, self.low)

    def width(self, widths):
        return self.high - self.low + 1 if self.low <= self.high else 1

    def parts(self):
        return ()


@dataclass(frozen=True)
class Inverse:
    operand: object

    def value(self, values):
        return words.inverted(self.operand.value(values))

    def width(self, widths):
        return self.operand.width(widths)

    def parts(self):
        return (self.operand,)


@dataclass(frozen=True)
class Binary:
    """Two operands joined by an operator, by `lts` or by `cat`."""

    operator: str
    left: object
    right: object

    def value(self, values):
        return words.BINARY[self.operator](self.left.value(values), self.right.value(values))

    def width(self, widths):
        if self.operator in ("==", "!=", "<", "lts"):
            return 1
        if self.operator == "cat":
            both = self.left.width(widths) + self.right.width(widths)
            return both if both <= words.WIDEST else 1
        return self.left.width(widths)

    def parts(self):
        return (self.left, self.right)


@dataclass(frozen=True)
class Extension:
    operand: object
    bits: int
    keeps_sign: bool

    def value(self, values):
        return words.extended(self.operand.value(values), self.bits, self.keeps_sign)

    def width(self, widths):
        return self.bits

    def parts(self):
        return (self.operand,)


@dataclass(frozen=True)
class Choice:
    condition: object
    first: object
    second: object

    def value(self, values):
        return (self.first if self.condition.value(values).value else self.second).value(values)

    def width(self, widths):
        return self.first.width(widths)

    def parts(self):
        return (self.condition, self.first, self.second)


# Statements. `line` is the line of the first token; an address is the name of a variable.


@dataclass(frozen=True)
class Separator:
    line: int


@dataclass(frozen=True)
class Bind:
    line: int
    name: str
    value: object


@dataclass(frozen=True)
class Read:
    """`name = memory[address];`, answered in this cycle."""

    line: int
    name: str
    memory: str
    address: str


@dataclass(frozen=True)
class Ask:
    """`name <- memory[address];`, answered in a later cycle."""

    line: int
    name: str
    memory: str
    address: str


@dataclass(frozen=True)
class Write:
    line: int
    memory: str
    address: str
    value: object


@dataclass(frozen=True)
class Reserve:
    line: int
    memory: str
    address: str
    kind: str


@dataclass(frozen=True)
class Block:
    line: int
    memory: str
    address: str


@dataclass(frozen=True)
class Release:
    line: int
    memory: str
    address: str


@dataclass(frozen=True)
class If:
    line: int
    condition: object
    first: tuple
    second: tuple


@dataclass(frozen=True)
class Call:
    line: int
    arguments: tuple


@dataclass(frozen=True)
class SpecCall:
    line: int
    name: str
    arguments: tuple


@dataclass(frozen=True)
class Verify:
    line: int
    guess: str
    arguments: tuple


@dataclass(frozen=True)
class Update:
    line: int
    guess: str
    arguments: tuple


@dataclass(frozen=True)
class SpecCheck:
    line: int


@dataclass(frozen=True)
class SpecBarrier:
    line: int


@dataclass(frozen=True)
class Parameter:
    line: int
    name: str
    width: int


@dataclass(frozen=True)
class Memory:
    """A memory; `lock` is the lock's kind or None, `size` the greatest number of pending writes.

    An advisory one holds advice for guesses: it has no lock, and is read and written in any stage.
    """

    line: int
    name: str
    width: int
    depth: int
    delayed: bool
    lock: str | None
    size: int
    advisory: bool = False

    def address_bits(self):
        return self.depth.bit_length() - 1


@dataclass(frozen=True)
class Pipe:
    name: str
    parameters: tuple
    memories: tuple
    body: tuple
    end_line: int
    start_line: int
    start_name: str
    start: tuple

    def memory(self, name):
        """The memory of a name, or None."""
        return next((memory for memory in self.memories if memory.name == name), None)

    def delayed(self):
        """The delayed memories, in declared order."""
        return [memory for memory in self.memories if memory.delayed]

    def locked(self):
        """The memories with a lock, in declared order."""
        return [memory for memory in self.memories if memory.lock]

    def advised(self):
        """The variables that hold advice: bound by a read of an advisory memory, or by an expression with such a variable."""
        found = set()
        for item in every(self.body):
            if isinstance(item, Read) and self.memory(item.memory).advisory or isinstance(item, Bind) and found & names_in(item.value):
                found.add(item.name)
        return found


def nodes(expressions):
    """Expressions and all their parts."""
    for expression in expressions:
        yield expression
        yield from nodes(expression.parts())


def names_in(*expressions):
    """The variables of expressions."""
    return {it.name for it in nodes(expressions) if isinstance(it, (Variable, Slice))}


def every(items):
    """All statements of a list in text order, those inside an `if` after it."""
    for item in items:
        yield item
        if isinstance(item, If):
            yield from every(item.first)
            yield from every(item.second)


def without(items, kind):
    """These statements with none of a kind among them, at any depth."""
    inner = (replace(it, first=without(it.first, kind), second=without(it.second, kind)) if isinstance(it, If) else it
             for it in items)
    return tuple(it for it in inner if not isinstance(it, kind))


def holds_separator(items):
    """Whether a `---` stands among these statements, at any depth."""
    return any(isinstance(item, Separator) for item in every(items))
