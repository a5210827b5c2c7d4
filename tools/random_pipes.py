"""Random pipes in PDL, each with an image: `source_and_image(random, forms)`.

A pipe has one to six stages in a line, one to three memories with any lock, and expressions of every
operator of the language. Most of what is made keeps all rules; ask `pdl check`, and take another where it
doesn't. No shift is by a constant of 2^32 or more. Of the forms that a program may take or not it may have two
writes of a memory, and an advisory memory; updates and nested forks are made by random_whole.py.
"""

from pdl_model.forms import Forms

OPERATORS = ["+", "-", "*", "&", "|", "^"]
COMPARISONS = ["==", "!=", "<"]
LOCKS = ["queue", "bypass", "rename"]


class Scope:
    """Variables with their widths, and expressions over them."""

    def __init__(self, random):
        self.random = random
        self.variables = []
        self.bound = 0

    def add(self, name, width):
        self.variables.append((name, width))

    def fresh(self, letter):
        self.bound += 1
        return f"{letter}{self.bound}"

    def of_width(self, width):
        return [name for name, bits in self.variables if bits == width]

    def literal(self, width):
        top = (1 << width) - 1
        value = self.random.choice([0, 1, top, self.random.randint(0, top)])
        return f"{width}'d{value}" if self.random.random() < 0.5 else f"{width}'h{value:x}"

    def leaf(self, width):
        same = self.of_width(width)
        wider = [(name, bits) for name, bits in self.variables if bits > width]
        if same and self.random.random() < 0.6:
            return self.random.choice(same)
        if wider and self.random.random() < 0.7:
            name, bits = self.random.choice(wider)
            low = self.random.randint(0, bits - width)
            return f"{name}[{low + width - 1}:{low}]"
        return self.literal(width)

    def shift(self, width, depth):
        # Of 32 bits and more the amount is a short one with zeros in front: a constant of 2^32 or more there is an error to Verilator.
        amount = self.leaf(width) if width < 32 else f"zext({self.leaf(8)}, {width})"
        return f"({self.expression(width, depth)} {self.random.choice(['<<', '>>'])} {amount})"

    def bit(self, depth):
        width = self.random.choice([1, 3, 8, 16, 33, 65, 128])
        a, b = self.expression(width, depth), self.expression(width, depth)
        if self.random.random() < 0.3:
            return f"lts({a}, {b})"
        return f"({a} {self.random.choice(COMPARISONS)} {b})"

    def expression(self, width, depth):
        """The text of an expression of a width, at most so deep."""
        if depth == 0:
            return self.leaf(width)
        kind = self.random.randint(0, 9)
        if kind <= 2:
            a, b = self.expression(width, depth - 1), self.expression(width, depth - 1)
            return f"({a} {self.random.choice(OPERATORS)} {b})"
        if kind == 3:
            return f"~{self.expression(width, depth - 1)}"
        if kind == 4:
            return self.shift(width, depth - 1)
        if kind == 5 and width == 1:
            return self.bit(depth - 1)
        if kind == 6 and width > 1:
            low = self.random.randint(1, width - 1)
            return f"cat({self.expression(width - low, depth - 1)}, {self.expression(low, depth - 1)})"
        if kind == 7 and width > 1:
            word = self.random.choice(["zext", "sext"])
            return f"{word}({self.expression(self.random.randint(1, width), depth - 1)}, {width})"
        if kind == 8:
            arms = self.expression(width, depth - 1), self.expression(width, depth - 1)
            return f"({self.expression(1, depth - 1)} ? {arms[0]} : {arms[1]})"
        return self.leaf(width)


class Memory:
    """A memory: its declaration, and in which stages a thread uses it."""

    def __init__(self, random, number, stages):
        self.name = f"m{number}"
        self.width = random.choice([1, 4, 8, 8, 16, 16, 31, 32, 64, 65, 100, 128])
        self.address = random.randint(1, 4)
        self.lock = random.choice([None, *LOCKS, *LOCKS])
        self.size = 1 << random.randint(0, min(2, self.address))
        self.reserved, self.read, self.written, self.released = sorted(random.randint(0, stages - 1) for _ in range(4))

    def declaration(self):
        lock = f" lock {self.lock}({self.size})" if self.lock else ""
        return f"{self.name}: uint<{self.width}>[{1 << self.address}] comb{lock}"


def guarded(guard, statements):
    """Statements under a guard, where there is one."""
    return [f"if ({guard}) {{ {' '.join(statements)} }}"] if guard and statements else statements


class Pipe:
    """A pipe that grows stage by stage. With advice it has an advisory memory `q` now and then."""

    def __init__(self, random, forms):
        self.random, self.scope, self.forms = random, Scope(random), forms
        self.stages = random.randint(1, 6)
        self.memories = [Memory(random, k, self.stages) for k in range(random.randint(1, 3))]
        self.parameters = [(f"n{k}", random.choice([4, 8, 16, 33])) for k in range(random.randint(1, 3))]
        self.call_stage = random.randint(0, self.stages - 1)
        self.uses = {}
        self.has_advice = Forms.ADVISORY in forms and random.random() < 0.5
        for name, width in self.parameters:
            self.scope.add(name, width)

    def bind(self, letter, width, depth=3):
        name = self.scope.fresh(letter)
        text = f"{name} = {self.scope.expression(width, self.random.randint(1, depth))};"
        self.scope.add(name, width)
        return name, text

    def reserve(self, memory):
        """Addresses, a guard for the write now and then, and the reservations."""
        source, first = self.bind("a", memory.address)
        target, second = self.bind("b", memory.address)
        lines, guard = [first, second], None
        if self.random.random() < 0.4:
            guard, third = self.bind("g", 1)
            lines.append(third)
        targets = [target]
        if Forms.TWO_WRITES in self.forms and memory.size > 1 and self.random.random() < 0.6:
            another, fourth = self.bind("b", memory.address)
            targets.append(another)
            lines.append(fourth)
        self.uses[memory.name] = source, targets, guard
        return [*lines, f"reserve({memory.name}[{source}], R);",
                *guarded(guard, [f"reserve({memory.name}[{it}], W);" for it in targets])]

    def read(self, memory):
        source, _, _ = self.uses[memory.name]
        value = self.scope.fresh("x")
        self.scope.add(value, memory.width)
        return [f"block({memory.name}[{source}]);", f"{value} = {memory.name}[{source}];"]

    def write(self, memory):
        _, targets, guard = self.uses[memory.name]
        lines, writes = [], []
        for target in targets:
            value, line = self.bind("y", memory.width)
            lines.append(line)
            writes += [f"block({memory.name}[{target}]);", f"{memory.name}[{target}] <- {value};"]
        return [*lines, *guarded(guard, writes)]

    def release(self, memory):
        source, targets, guard = self.uses[memory.name]
        return [f"release({memory.name}[{source}]);",
                *guarded(guard, [f"release({memory.name}[{it}]);" for it in reversed(targets)])]

    def advise(self):
        """A read of the advisory memory, whose word goes nowhere else than into it, and a write."""
        address, line = self.bind("a", 2)
        word = self.scope.fresh("k")
        return [line, f"{word} = q[{address}];", f"q[{address}] <- {word} + {self.scope.expression(8, 1)};"]

    def look(self, memory):
        """A read of a memory without lock."""
        source, line = self.bind("a", memory.address)
        value = self.scope.fresh("x")
        self.scope.add(value, memory.width)
        return [line, f"{value} = {memory.name}[{source}];"]

    def memory_lines(self, memory, stage):
        if memory.lock is None:
            return self.look(memory) if stage == memory.read else []
        steps = [
            (memory.reserved, self.reserve),
            (memory.read, self.read),
            (memory.written, self.write),
            (memory.released, self.release),
        ]
        return [line for at, step in steps if at == stage for line in step(memory)]

    def stage_lines(self, stage):
        lines = [self.bind("t", self.random.choice([1, 4, 8, 16, 33, 64, 65, 127, 128]))[1] for _ in range(self.random.randint(0, 2))]
        for memory in self.memories:
            lines += self.memory_lines(memory, stage)
        if self.has_advice and self.random.random() < 0.7:
            lines += self.advise()
        if stage == self.call_stage:
            arguments = ", ".join(self.scope.expression(width, 2) for _, width in self.parameters)
            lines.append(f"call({arguments});")
        return lines

    def source(self):
        parameters = ", ".join(f"{name}: uint<{width}>" for name, width in self.parameters)
        advice = ["q: uint<8>[4] advisory"] if self.has_advice else []
        memories = ", ".join([*(memory.declaration() for memory in self.memories), *advice])
        body = "\n---\n".join("\n".join(self.stage_lines(stage)) for stage in range(self.stages))
        start = ", ".join(self.scope.literal(width) for _, width in self.parameters)
        return f"pipe p({parameters})[{memories}] {{\n{body}\n}} start p({start});\n"

    def image(self):
        most = self.random.choice([1, 1, 4])
        lines = [f"image {1 if most == 1 else 2}"]
        for memory in self.memories:
            first = 0
            while first < 1 << memory.address:
                last = min(first + self.random.randint(1, most), 1 << memory.address) - 1
                place = f"{first}..{last}" if last > first else f"{first}"
                if self.random.random() < 0.7:
                    lines.append(f"{memory.name} {place} {self.random.getrandbits(memory.width):x}")
                first = last + 1
        if self.has_advice:
            lines += [f"q {address} {self.random.getrandbits(8):x}" for address in range(4)]
        return "\n".join(lines) + "\n"


def source_and_image(random, forms=Forms(0)):
    """The source of a pipe, which `pdl check` may still refuse, and an image for its memories."""
    pipe = Pipe(random, forms)
    return pipe.source(), pipe.image()
