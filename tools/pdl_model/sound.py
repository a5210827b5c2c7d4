"""What holds at the start of every cycle of a pipe that keeps all rules: nine points, as in docs/machine.md.

`complaints` names the points that a state breaks. The live threads, oldest first, follow one turn each of the sequential
run. They follow it up to and with the first whose guess is wrong and not verified yet; those after it are strays.
"""

import itertools

from . import tree
from .deeds import read_ready, write_ready

SUCCESSORS = (tree.Call, tree.SpecCall)


class Sound:
    """Asks the states of one run, in order. `ended` is how many threads have ended."""

    def __init__(self, layout, sequential, image):
        self.layout, self.sequential = layout, sequential
        self.verifies = layout.verify_stage()
        self.counted = 0
        self.ended_arrays = {name: list(words) for name, words in image.items()}

    def complaints(self, state, ended):
        """The points that a state breaks."""
        self.state = state
        self.live = state.live()
        self.done = {thread.number: self.past(stage, thread) for stage, thread in self.live}
        self.followers = self.following(ended)
        self.strays = self.live[len(self.followers) :]
        self.count_ended(ended)
        points = [self.in_order, self.are_linked, self.follow_values, self.pending_right, self.arrays_right,
                  self.are_certain, self.requests_right, self.looks_right, self.stay_ready, self.on_path]
        return [point.__name__ for point in points if not point()]

    # What the points speak of

    def past(self, stage, thread):
        """What a thread has carried out: the statements on its path in the stages that it has left."""
        before = (it for earlier in range(stage) for it in self.layout.by_stage[earlier])
        return [it for it in before if self.is_passed(it, thread)]

    def is_passed(self, placed, thread):
        """Whether a statement of an earlier stage is on a thread's path."""
        return all(thread.truths.get(guard) == taken for guard, taken in placed.branches)

    def following(self, ended):
        """The live threads with their turns, up to the first with a wrong guess."""
        found = []
        for number, (stage, thread) in enumerate(self.live, ended + 1):
            turn = self.sequential.turn(number)
            found.append((stage, thread, turn))
            if thread.guess and stage <= self.verifies and thread.guess != turn.passed_on:
                break
        return found

    def count_ended(self, ended):
        """Brings the arrays of the ended turns up to date."""
        for number in range(self.counted + 1, ended + 1):
            apply(self.ended_arrays, self.sequential.turn(number).writes)
        self.counted = ended

    def has_done(self, thread, kind, memory=None):
        return any(isinstance(it.statement, kind) and (memory is None or it.statement.memory == memory)
                   for it in self.done[thread.number])

    def holds(self, thread, memory):
        """Whether a thread holds a write of a memory: reserved, and not released."""
        return any(name == memory and kind == "W" for (name, _), kind in thread.held.items())

    def has_released(self, thread, memory):
        """Whether a thread has released a write of a memory."""
        reserved = any(isinstance(it.statement, tree.Reserve) and (it.statement.memory, it.statement.kind) == (memory, "W")
                       for it in self.done[thread.number])
        return reserved and not self.holds(thread, memory)

    # The points

    def in_order(self):
        """1: of two threads the older stands in the greater stage, or in another branch; the forks' lists are right."""
        pairs = itertools.combinations([stage for stage, _ in self.live], 2)
        apart = all(older > younger or self.are_in_two_branches(older, younger) for older, younger in pairs)
        lists = [[taken for stage, _ in self.live if (taken := self.layout.branch_of(fork, stage)) is not None]
                 for fork in self.layout.forks]
        return apart and lists == self.state.branches

    def are_in_two_branches(self, first, second):
        """Whether two stages stand in the two branches of one fork, at any depth."""
        return any({self.layout.branch_of(fork, stage) for stage in (first, second)} == {True, False}
                   for fork in self.layout.forks)

    def are_linked(self):
        """2: at least one thread lives, and each but the youngest has made its successor."""
        made = [self.has_done(thread, SUCCESSORS) for _, thread in self.live]
        return made != [] and made == [True] * (len(made) - 1) + [False]

    def follow_values(self):
        """3: arguments, values but advice, truth values, awaited addresses and kept answers are those of the turn."""
        return all(self.follows(thread, turn) for _, thread, turn in self.followers)

    def follows(self, thread, turn):
        asks = {it.statement.memory: it.statement for it in self.done[thread.number] if isinstance(it.statement, tree.Ask)}
        return (
            {name: value for name, value in thread.values.items() if name not in self.layout.advised}.items()
            <= turn.values.items()
            and thread.truths.items() <= turn.truths.items()
            and all(turn.values[thread.asked[memory]].value == word for memory, word in thread.kept.items())
            and all(self.state.requests[memory].address == turn.values[asks[memory].address].value
                    for memory in thread.awaited()))

    def pending_right(self):
        """4: a lock's list has an entry for each write that a live thread holds; a follower's is that of its turn.

        Besides: there are no more entries than the lock has room for.
        """
        return all(self.list_right(memory, entries) and len(entries) <= self.layout.pipe.memory(memory).size
                   for memory, entries in self.state.pending.items())

    def list_right(self, memory, entries):
        held = [(thread.number, variable) for _, thread in self.live for variable in self.held_of(thread, memory)]
        return [(it.thread, it.variable) for it in entries] == held and all(
            self.entries_right(memory, [it for it in entries if it.thread == thread.number], thread, turn)
            for _, thread, turn in self.followers)

    def held_of(self, thread, memory):
        """The variables by which a thread holds writes of a memory, in the order in which it reserved them."""
        return [it.statement.address for it in self.done[thread.number]
                if isinstance(it.statement, tree.Reserve) and it.statement.memory == memory and it.statement.kind == "W"
                and (memory, it.statement.address) in thread.held]

    def entries_right(self, memory, entries, thread, turn):
        """Whether a follower's entries of a memory are the writes of its turn, in order, with the values written so far."""
        writes = [(address, value) for name, address, value in turn.writes if name == memory]
        written = {it.statement.address for it in self.done[thread.number]
                   if isinstance(it.statement, tree.Write) and it.statement.memory == memory}
        due = [(address, value if entry.variable in written else None)
               for entry, (address, value) in zip(entries, writes)]
        return not entries or [(it.address, it.value) for it in entries] == due and len(entries) == len(writes)

    def arrays_right(self):
        """5: the arrays are the image with the writes of ended turns and the released ones of followers, advice aside."""
        due = {name: list(words) for name, words in self.ended_arrays.items()}
        for _, thread, turn in self.followers:
            apply(due, [it for it in turn.writes if self.has_released(thread, it[0])])
        lasting = [memory.name for memory in self.layout.pipe.memories if not memory.advisory]
        return all(due[name] == self.state.arrays[name] for name in lasting) and not any(
            self.has_released(thread, memory) for _, thread in self.strays for memory in self.state.pending)

    def are_certain(self):
        """6: who moved on from a barrier, or stands after V, has only older threads that stand after V."""
        if self.verifies is None:
            return True
        certain = [stage > self.verifies or self.has_done(thread, tree.SpecBarrier) for stage, thread in self.live]
        return all(older > self.verifies
                   for k, is_certain in enumerate(certain) if is_certain for older, _ in self.live[:k])

    def requests_right(self):
        """7: what a thread asked for in its last stage is kept, or outstanding with its owner; no other request is."""
        owned = {(memory, request.owner) for memory, request in self.state.requests.items()
                 if request and request.owner is not None}
        awaited = {(memory, thread.number) for _, thread in self.live for memory in thread.awaited()}
        return owned == awaited and all(self.asked_right(stage, thread) for stage, thread in self.live)

    def asked_right(self, stage, thread):
        last = {it.statement.memory: it.statement.name for it in self.done[thread.number]
                if isinstance(it.statement, tree.Ask) and self.layout.next_stage(it.stage, thread.truths) == stage}
        return thread.asked == last

    def looks_right(self):
        """8: while a thread has a block or a read of a memory to do or to bind, no younger one has released a write."""
        return not any(
            self.has_released(younger, memory) and self.still_looks(stage, thread, turn, memory)
            for memory in self.state.pending
            for (stage, thread, turn), (_, younger, _) in itertools.combinations(self.followers, 2))

    def still_looks(self, stage, thread, turn, memory):
        to_come = [it for later in range(stage, self.layout.count) for it in self.layout.by_stage[later]
                   if it.is_on(turn.truths)]
        return memory in thread.asked or any(
            isinstance(it.statement, (tree.Block, tree.Read, tree.Ask)) and it.statement.memory == memory for it in to_come)

    def stay_ready(self):
        """9: a block that a thread has moved on from is still ready for it, until it releases that location."""
        return all(self.is_ready(thread, it.statement) for _, thread in self.live for it in self.done[thread.number]
                   if isinstance(it.statement, tree.Block))

    def is_ready(self, thread, block):
        kind = thread.held.get((block.memory, block.address))
        memory, address = self.layout.pipe.memory(block.memory), thread.values[block.address].value
        ready = read_ready if kind == "R" else write_ready
        return kind is None or ready(self.state, memory, thread.number, address)

    def on_path(self):
        """Besides: a thread stands on a stage of its path, and has done just what its earlier stages say."""
        return all(self.keeps_path(stage, thread) for stage, thread in self.live)

    def keeps_path(self, stage, thread):
        path = [thread.truths.get(guard, False) for guard in range(len(self.layout.conditions))]
        done = [it.statement for it in self.done[thread.number]]
        bound = {it.name for it in done if isinstance(it, (tree.Bind, tree.Read, tree.Ask))}
        bound |= {parameter.name for parameter in self.layout.pipe.parameters}
        bound -= set(thread.asked.values())
        guessed = any(isinstance(it, tree.SpecCall) for it in done)
        return (
            stage in self.layout.stages_on(path) and thread.values.keys() == bound and (thread.guess is not None) == guessed
            and all(thread.values[condition.name].value == thread.truths[guard]
                    for guard, condition in enumerate(self.layout.conditions)
                    if isinstance(condition, tree.Variable) and guard in thread.truths))


def apply(arrays, writes):
    for memory, address, value in writes:
        arrays[memory][address] = value
