"""Random pipes of the whole language: `RandomPipe(random, features, forms).source()`, with `image()` and `delay_rows(..)`.

The features are some of `delayed`, `guess` and `fork`, the forms some of those that a program may take or not. Updates come
with guesses, and nested forks with forks. What is made keeps the rules by its construction, but for few pipes; ask
`pdl_model.rules.checked`, and take another where it doesn't.

A pipe is made of *segments*, its trunk stages, and of forks: that of segment s stands at the segment's end, and its
branches lead to segment s + 1. Each memory and each call has a plan first: its steps, each with a moment. Then the text is
written from the first moment to the last one, and the statements get their expressions.
"""

from collections import defaultdict

from pdl_model.forms import Forms
from random_parts import Branch, Known, Location, Memory, Moment, Spot, bits
from random_pipes import Scope

FEATURES = ("delayed", "guess", "fork")
MOST_GUARDS = 5
MOST_LEVELS = 4
MOST_INNER_FORKS = 3


class RandomPipe:
    """A pipe: its plan, made at once, and the text, which `source` writes."""

    def __init__(self, random, features, forms=Forms(0)):
        self.random, self.scope, self.forms = random, Scope(random), forms
        self.segments = random.choice([2, 3, 4, 5, 6] if features else [1, 2, 3, 4, 5, 6])
        if Forms.UPDATE in forms and "guess" in features:
            self.segments = max(self.segments, 3)
        self.forks = self.make_forks() if "fork" in features else {}
        stages = range(1, self.segments)
        self.verify = max(random.choice(stages), random.choice(stages)) if "guess" in features else None
        if Forms.UPDATE in forms and "guess" in features and self.chance(0.8):
            self.verify = max(self.verify, 2)
        self.memories = self.make_memories("delayed" in features)
        self.parameters = [(f"n{k}", random.choice([2, 4, 4, 8])) for k in range(random.randint(1, 2))]
        self.known = [Known(name, width, frozenset(), None) for name, width in self.parameters]
        self.guards = []
        self.guard_count = 0
        self.guess, self.guess_guard, self.better = [], None, None
        self.branches = frozenset()
        self.spot = Spot(0)
        # Of each spot the steps of each memory, and of the calls, in order.
        self.steps = defaultdict(lambda: defaultdict(list))
        self.checks_apart = {segment for segment in range(self.segments) if random.random() < 0.3}
        self.barriers = {segment for segment in range(self.segments) if random.random() < 0.06}
        self.needs_check = set()
        self.plan()

    def chance(self, of_one):
        return self.random.random() < of_one

    def make_forks(self):
        """Forks at the end of some segments: their branches, of which not both are without a stage."""
        forks = {}
        while not forks:
            for segment in range(self.segments - 1):
                lengths = self.random.randint(0, 3), self.random.randint(0, 3)
                if self.chance(0.5) and lengths != (0, 0):
                    forks[segment] = {True: Branch(lengths[0], {}), False: Branch(lengths[1], {})}
        if Forms.NESTED_FORKS in self.forms:
            left = MOST_INNER_FORKS
            for fork in forks.values():
                left = self.make_inner_forks(fork, left, 2)
        return forks

    def make_inner_forks(self, fork, left, level):
        """Forks of this level in the branches of a fork, and in theirs; gives how many of those allowed are left."""
        for branch in fork.values():
            for run in range(1, branch.length):
                lengths = self.random.randint(0, 3), self.random.randint(0, 2)
                if left and level <= MOST_LEVELS and lengths != (0, 0) and self.chance(0.6):
                    branch.forks[run] = {True: Branch(lengths[0], {}), False: Branch(lengths[1], {})}
                    left = self.make_inner_forks(branch.forks[run], left - 1, level + 1)
        return left

    def make_memories(self, with_delayed):
        kinds = [(False, True)] * self.random.randint(1, 2)
        if self.chance(0.3):
            kinds.append((False, False))
        if with_delayed:
            kinds += [(True, self.chance(0.4)) for _ in range(self.random.choice([1, 1, 2, 3]))]
        self.random.shuffle(kinds)
        memories = [Memory(self.random, number, delayed, locked) for number, (delayed, locked) in enumerate(kinds)]
        if Forms.ADVISORY in self.forms:
            memories += [Memory(self.random, number, False, False, True) for number in range(self.random.randint(1, 2))]
        return memories

    # The plan

    def plan(self):
        for memory in self.memories:
            if memory.lock:
                self.plan_locked(memory)
            elif memory.advisory:
                self.plan_advice(memory)
            else:
                self.plan_reads(memory)
        call = self.random.choice([0, 0, 0, self.random.randrange(self.segments)])
        if self.verify is None:
            self.put(Moment(call), "call", self.call)
            return
        self.put(Moment(min(call, self.verify - 1)), "call", self.speculate)
        self.put(Moment(self.verify), "verify", self.check_guess)
        self.needs_check.add(min(call, self.verify - 1))
        between = range(min(call, self.verify - 1) + 1, self.verify)
        if Forms.UPDATE in self.forms and between and self.chance(0.9):
            self.put(Moment(self.random.choice(between)), "update", self.better_guess)

    def put(self, moment, track, step, one_side=False):
        """Plans a step, in each branch where its moment is in a fork, or in one of them."""
        if not moment.in_fork:
            self.steps[Spot(moment.segment)][track].append(step)
            return
        for inside in self.places(self.forks[moment.segment], moment.way, one_side):
            self.steps[Spot(moment.segment, inside)][track].append(step)

    def places(self, fork, way, one_side):
        """Where a step so far on the way through a fork stands: in each branch, or in one of them."""
        sides = [self.random.choice([True, False])] if one_side else [True, False]
        for side in sides:
            steps = fork[side].steps()
            at = way * (len(steps) - 1)
            run, is_fork = steps[round(at)]
            within = self.places(fork[side].forks[run], at - round(at) + 0.5, one_side) if is_fork else [()]
            yield from (((side, run), *rest) for rest in within)

    def moment(self, first, last):
        """A random moment from one to another."""
        moments = [Moment(segment) for segment in range(first.segment, last.segment + 1)]
        moments += [Moment(segment, True, self.random.choice([0.0, 0.4, 0.7, 1.0])) for segment in self.forks]
        return self.random.choice([moment for moment in moments if first <= moment <= last])

    def plan_reads(self, memory):
        """Reads of a memory without lock; of a delayed one there is one statement."""
        if not memory.delayed:
            for _ in range(self.random.randint(1, 3)):
                moment = self.moment(Moment(0), Moment(self.segments - 1))
                self.put(moment, memory.name, lambda: self.look(memory), self.chance(0.5))
            return
        last = self.segments - 2 if self.verify is None or self.chance(0.3) else self.verify - 1
        moment = self.moment(Moment(0), Moment(last, last in self.forks, 1.0))
        self.put(moment, memory.name, lambda: self.ask(memory), True)

    def plan_advice(self, memory):
        """Reads and writes of an advisory memory, anywhere; several of the writes in one stage, now and then, and of a hot one in two."""
        everywhere = [self.moment(Moment(0), Moment(self.segments - 1)) for _ in range(self.random.randint(2, 6))]
        for make in [self.look] * self.random.randint(1, 2) + [self.advise] * self.random.randint(1, 4):
            self.put(self.random.choice(everywhere), memory.name, lambda make=make: make(memory), self.chance(0.5))
        if memory.hot and self.chance(0.7):
            for segment in (0, self.random.randrange(self.segments)):
                self.put(Moment(segment), memory.name, lambda: self.advise(memory))

    def plan_locked(self, memory):
        """Reservations, blocks, reads, writes and releases of a locked memory, in an order that the rules allow."""
        reserve, release = sorted(self.random.randrange(self.segments) for _ in range(2))
        if self.chance(0.4):
            reserve, release = 0, self.segments - 1
        if self.verify is not None and release < self.verify and self.chance(0.85):
            release = self.random.randint(self.verify, self.segments - 1)
        first, last = Moment(reserve), Moment(release)
        write = self.moment(first, last)
        most = 1 if memory.delayed else 2
        reads = [Location(memory, "R") for _ in range(self.random.randint(0, most))]
        writes = [Location(memory, "W")] if self.chance(0.9) or not reads else []
        steps = []
        for location in reads:
            steps += self.plan_read(location, first, write if writes else last, last)
        for location in writes:
            steps.append((self.moment(first, write), 2, lambda location=location: self.block(location)))
            steps.append((write, 4, lambda location=location: self.write(location)))
        if Forms.TWO_WRITES in self.forms and writes and memory.size > 1 and self.chance(0.7):
            writes.append(self.plan_second(writes[0], first, write, last, steps))
        for location in [*reads, *writes]:
            steps.append((first, 0, lambda location=location: self.reserve(location)))
            rank = self.random.choice([5, 6]) if len(writes) > 1 else 5
            steps.append((last, rank, lambda location=location: self.release(location)))
        for moment, rank, step in sorted(steps, key=lambda it: it[:2]):
            self.put(moment, memory.name, step, rank == 3 and (memory.delayed or self.chance(0.4)))
        if self.verify is not None and reserve < self.verify:
            self.needs_check.add(reserve)
        if self.verify is not None and writes and release < self.verify:
            self.barriers.add(self.random.randint(0, release))

    def plan_second(self, written, first, write, last, steps):
        """The location of a second write, which comes after the first one."""
        location = Location(written.memory, "W", written)
        second = self.random.choice([write, self.moment(write, last)])
        steps.append((self.moment(first, second), 2, lambda: self.block(location)))
        steps.append((second, 4, lambda: self.write(location)))
        return location

    def plan_read(self, location, first, before, last):
        """The block and the read of a location, up to the moment of the write; a delayed read is bound by the release."""
        latest = before
        if location.memory.delayed:
            if last == first:
                return [(first, 2, lambda: self.block(location))]
            latest = min(before, Moment(last.segment - 1, last.segment - 1 in self.forks, 1.0))
        read = self.moment(first, latest)
        if self.chance(0.1):
            return [(read, 2, lambda: self.block(location))]
        return [(self.moment(first, read), 2, lambda: self.block(location)), (read, 3, lambda: self.read(location))]

    # Names

    def see(self, with_advice=False):
        """Lets expressions use just the variables that are there: also those that hold advice, or not."""
        here = self.spot.stage()
        self.scope.variables = [
            (it.name, it.width) for it in self.known
            if it.branches <= self.branches and (with_advice or not it.is_advice)
            and (it.answered_after is None or it.answered_after.stage() < here)]

    def define(self, letter, width, is_answer=False, is_advice=False):
        name = self.scope.fresh(letter)
        self.known.append(Known(name, width, self.branches, self.spot if is_answer else None, is_advice))
        self.see()
        return name

    def address(self, memory):
        """A variable for an address in a memory, and the line that binds it."""
        if memory.hot and self.chance(0.95 if memory.advisory else 0.8):
            name = self.define("a", memory.address)
            return name, f"{name} = {memory.address}'d1;"
        return self.bind("a", memory.address)

    def same_address(self, location):
        """A variable for the address that the first write has, and the line that binds it."""
        name = self.define("a", location.memory.address)
        return name, f"{name} = {location.first.address};"

    def bind(self, letter, width):
        """A new variable with an expression; an answer or read is taken often, so that values go on."""
        self.see()
        text = self.scope.expression(width, self.random.randint(0, 2))
        wider = [name for name, bits in self.scope.variables if bits >= width and name[0] in "xw"]
        if wider and self.chance(0.5):
            name = self.random.choice(wider)
            text = f"{name}[{width - 1}:0]"
            if self.chance(0.4):
                text += f" + {self.scope.leaf(width)}"
        name = self.define(letter, width)
        return name, f"{name} = {text};"

    def new_guard(self):
        """A variable for a condition, and the line that binds it: one that is there, or a new one, or none."""
        there = [name for name, branches in self.guards if branches <= self.branches]
        if there and self.chance(0.4):
            return self.random.choice(there), []
        if self.guard_count >= MOST_GUARDS:
            return None, []
        self.guard_count += 1
        name, line = self.bind("g", 1)
        self.guards.append((name, self.branches))
        return name, [line]

    def under(self, guard, make):
        """Lines under a guard: as they are where it is known to hold, none where it is known not to."""
        if guard is None or (guard, True) in self.branches:
            return make()
        if (guard, False) in self.branches:
            return []
        outside, self.branches = self.branches, self.branches | {(guard, True)}
        lines = make()
        self.branches = outside
        self.see()
        return [f"if ({guard}) {{", *lines, "}"] if lines else []

    # Steps of memories

    def look(self, memory):
        address, line = self.address_of_advice(memory) if memory.advisory else self.address(memory)
        return [line, f"{self.define('x', memory.width, is_advice=memory.advisory)} = {memory.name}[{address}];"]

    def advise(self, memory):
        """A write, whose address and value may hang on advice, and which may stand under a guard."""
        address, line = self.address_of_advice(memory)
        guard, lines = self.new_guard() if self.chance(0.3) else (None, [])
        self.see(with_advice=self.chance(0.5))
        value = self.scope.expression(memory.width, self.random.randint(0, 2))
        self.see()
        return [line, *lines, *self.under(guard, lambda: [f"{memory.name}[{address}] <- {value};"])]

    def address_of_advice(self, memory):
        """A variable for an address in an advisory memory, which may hang on advice, and the line that binds it."""
        if not self.chance(0.1 if memory.hot else 0.4):
            return self.address(memory)
        self.see(with_advice=True)
        text = self.scope.expression(memory.address, self.random.randint(0, 1))
        name = self.define("k", memory.address, is_advice=True)
        return name, f"{name} = {text};"

    def with_advice(self, arguments):
        """Lines that read advice, mostly, and the arguments, some of them by advice."""
        if Forms.ADVISORY not in self.forms:
            return [], arguments
        lines = self.look(self.random.choice([it for it in self.memories if it.advisory])) if self.chance(0.8) else []
        self.see(with_advice=True)
        found = [self.advised(text, width) if self.chance(0.6) else text for text, (_, width) in zip(arguments, self.parameters)]
        self.see()
        return lines, found

    def advised(self, text, width):
        """An argument by a variable that holds advice, where one is there: mostly by one bit, so that the guess is right now and then."""
        there = {name for name, _ in self.scope.variables} & {it.name for it in self.known if it.is_advice}
        fitting = [(name, bits) for name, bits in self.scope.variables if name in there]
        if not fitting:
            return text
        name, bits = self.random.choice(fitting[-3:])
        by = f"{name}[{width - 1}:0]" if bits > width else name if bits == width else f"zext({name}, {width})"
        at = self.random.randrange(bits)
        bit = f"{name}[{at}:{at}]"
        other = f"({text}) + {width}'d1"
        return self.random.choice([by, f"({text}) + {by}", *[f"({bit} ? {text} : {other})", f"({bit} ? {other} : {text})"] * 3])

    def ask(self, memory):
        guard, lines = self.new_guard() if self.chance(0.3) else (None, [])
        address, line = self.address(memory)
        return [*lines, line,
                *self.under(guard, lambda: [f"{self.define('w', memory.width, True)} <- {memory.name}[{address}];"])]

    def own_check(self):
        """A check before a reservation or a guess, where the segment has none of its own."""
        segment = self.spot.segment
        if self.verify is None or segment >= self.verify or segment not in self.checks_apart:
            return []
        return ["spec_barrier();" if self.chance(0.15) else "spec_check();"]

    def reserve(self, location):
        location.guard, lines = self.new_guard() if self.chance(0.3) else (None, [])
        location.address, line = self.same_address(location) if location.first and self.chance(0.4) else self.address(location.memory)
        return [*lines, line,
                *self.under(location.guard, lambda: [*self.own_check(), f"reserve({location.at()}, {location.kind});"])]

    def block(self, location):
        return self.under(location.guard, lambda: [f"block({location.at()});"])

    def read(self, location):
        if location.memory.delayed:
            make = lambda: [f"{self.define('w', location.memory.width, True)} <- {location.at()};"]
        else:
            make = lambda: [f"{self.define('x', location.memory.width)} = {location.at()};"]
        return self.under(location.guard, make)

    def write(self, location):
        value, line = self.bind("y", location.memory.width)
        return [line, *self.under(location.guard, lambda: [f"{location.at()} <- {value};"])]

    def release(self, location):
        return self.under(location.guard, lambda: [f"release({location.at()});"])

    # Steps of calls

    def arguments(self):
        """What the next thread gets: mostly what counts up, so that addresses differ."""
        self.see()
        return [
            f"{name} + {width}'d{self.random.randint(0, 3)}" if self.chance(0.6) else self.scope.expression(width, 2)
            for name, width in self.parameters]

    def call(self):
        return [f"call({', '.join(self.arguments())});"]

    def speculate(self):
        """A guess, under a guard now and then; on the other path a call."""
        self.guess_guard, lines = self.new_guard() if self.chance(0.2) else (None, [])
        self.guess = []

        def guessed():
            self.guess = self.arguments()
            lines, arguments = self.with_advice(self.guess)
            return [*self.own_check(), *lines, f"s = spec_call({', '.join(arguments)});"]

        lines += self.under(self.guess_guard, guessed)
        return [*lines[:-1], "} else {", *self.call(), "}"] if self.guess_guard else lines

    def better_guess(self):
        """An update: what the verify will find, mostly, or a guess as good as the first one."""

        def guessed():
            self.better = self.right_arguments()
            lines, arguments = self.with_advice(self.better)
            return [*lines, f"update(s, {', '.join(arguments)});"]

        return self.under(self.guess_guard, guessed)

    def check_guess(self):
        """The verify: the guess is always right, always wrong, or right by chance."""
        return self.under(self.guess_guard, lambda: [f"verify(s, {', '.join(self.verified())});"])

    def verified(self):
        return self.better if self.better and self.chance(0.5) else self.right_arguments()

    def right_arguments(self):
        self.see()
        how = self.random.choice(["right", "wrong", "chance", "chance", "free"])
        if how == "right":
            return self.guess
        if how == "free":
            return self.arguments()
        _, width = self.parameters[0]
        other = f"({self.guess[0]}) + {width}'d1"
        if how == "chance":
            other = f"({self.scope.expression(1, 2)} ? {self.guess[0]} : {other})"
        return [other, *self.guess[1:]]

    # The text

    def lines_at(self, spot):
        """The lines of a spot: of each track in their order, the tracks mixed."""
        self.spot = spot
        self.see()
        tracks = [list(steps) for steps in self.steps[spot].values()]
        lines = []
        while any(tracks):
            track = self.random.choice([it for it in tracks if it])
            lines += track.pop(0)()
            if self.chance(0.15):
                lines.append(self.bind("t", self.random.choice([1, 4, 8, 16]))[1])
        return lines

    def segment_lines(self, segment):
        """A segment, from its check or barrier to its fork."""
        lines = []
        if segment in self.barriers:
            lines.append("spec_barrier();")
        elif segment in self.needs_check and segment not in self.checks_apart:
            lines.append("spec_check();")
        lines += self.lines_at(Spot(segment))
        return lines + self.fork_lines(Spot(segment), self.forks[segment]) if segment in self.forks else lines

    def fork_lines(self, spot, fork):
        """A fork at the end of a spot."""
        guard, lines = self.new_guard()
        condition = guard
        if guard is None or self.chance(0.15):
            # A condition of its own, which no other `if` shares.
            guard, condition = spot, f"{self.scope.leaf(1)} ^ 1'd{self.random.randint(0, 1)}"
        first, second = (self.branch_lines(spot, guard, side, fork[side]) for side in (True, False))
        return [*lines, f"if ({condition}) {{", *first, *(["} else {", *second] if second else []), "}"]

    def branch_lines(self, spot, guard, side, branch):
        outside, self.branches = self.branches, self.branches | {(guard, side)}
        lines = []
        for run in range(branch.length + 1):
            here = spot._replace(inside=(*spot.inside, (side, run)))
            lines += [*(["---"] if run else []), *self.lines_at(here)]
            if run in branch.forks:
                lines += self.fork_lines(here, branch.forks[run])
        self.branches, self.spot = outside, spot
        self.see()
        return lines

    def source(self):
        """The text of the pipe."""
        parameters = ", ".join(f"{name}: uint<{width}>" for name, width in self.parameters)
        memories = ", ".join(memory.text() for memory in self.memories)
        segments = ["\n".join([*self.segment_lines(segment), ""]) for segment in range(self.segments)]
        body = "---\n".join(segments)
        start = ", ".join(self.scope.literal(width) for _, width in self.parameters)
        return f"pipe p({parameters})[{memories}] {{\n{body}}} start p({start});\n"

    def image(self):
        """An image in which most words are given."""
        lines = [
            f"{memory.name} {address} {self.random.getrandbits(memory.width):x}"
            for memory in self.memories for address in range(1 << memory.address) if self.chance(0.8)]
        return "\n".join(["image 1", *lines]) + "\n"

    def delay_rows(self, cycles):
        """The text of a delay file."""
        count = sum(memory.delayed for memory in self.memories)
        rows = bits(self.random, count, cycles)
        return "".join("".join(map(str, row)) + "\n" for row in rows)


def random_features(random, forms=Forms(0)):
    """Some of the features, each one alone as often as together; mostly with those that the forms are of use with."""
    found = random.choice([(), ("delayed",), ("guess",), ("fork",), ("delayed", "guess"), ("delayed", "fork"),
                           ("guess", "fork"), FEATURES, FEATURES])
    of_use = {Forms.NESTED_FORKS: "fork", Forms.UPDATE: "guess", Forms.ADVISORY: "guess"}
    wanted = {feature for form, feature in of_use.items() if form in forms and random.random() < 0.8}
    return tuple(feature for feature in FEATURES if feature in found or feature in wanted)


def random_forms(random, forms):
    """Some of these forms, each one alone as often as together."""
    among = list(forms)
    kind = random.choice(["one", "some", "all"])
    chosen = {"one": [random.choice(among)] if among else [], "all": among}.get(kind)
    found = Forms(0)
    for form in [form for form in among if random.random() < 0.5] if chosen is None else chosen:
        found |= form
    return found
