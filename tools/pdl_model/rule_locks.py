"""The rules on locks (L)."""

from . import tree
from .forms import Forms


def locks(layout):
    """The breaks of L1 to L8."""
    yield from (("L2", (2, place)) for place in scattered(layout))
    for path in layout.paths():
        statements = layout.on_path(path)
        yield from states(layout.pipe, statements)
        yield from (("L3", (2, place)) for place in reads_after_writes(layout.pipe, statements))
        yield from reservations(layout, statements)
        yield from (("L6", (2, place)) for place in unwritten_releases(statements))
        yield from (("L6", (2, place)) for place in second_writes_first(layout.pipe, statements))
        yield from (("L8", (2, place)) for place in late_reads(layout, statements, path))


def location(statement):
    return statement.memory, statement.address


# What a statement needs its location to be, and what it makes of it. A read or write leaves it as it is.
NEEDS = {tree.Block: ("reserved R", "reserved W"), tree.Read: ("blocked R",), tree.Ask: ("blocked R",),
         tree.Write: ("blocked W",), tree.Release: ("blocked R", "blocked W")}


def states(pipe, statements):
    """On a path: the first statement that hasn't the state that it needs (L1), and whether all is released (L7)."""
    found = {}
    for placed in statements:
        statement = placed.statement
        if isinstance(statement, tree.Reserve):
            found[location(statement)] = f"reserved {statement.kind}"
        elif type(statement) in NEEDS and pipe.memory(statement.memory).lock:
            state = found.get(location(statement))
            if state not in NEEDS[type(statement)]:
                yield "L1", (2, placed.place)
                return
            if isinstance(statement, tree.Block):
                found[location(statement)] = state.replace("reserved", "blocked")
            if isinstance(statement, tree.Release):
                found[location(statement)] = "released"
    if any(state != "released" for state in found.values()):
        yield "L7", (3, 0)


def scattered(layout):
    """The reserves and releases that stand in another stage than the first one of their memory (L2)."""
    for placed in layout.statements:
        statement = placed.statement
        if isinstance(statement, (tree.Reserve, tree.Release)):
            if placed.stage != layout.stage_of_first(type(statement), statement.memory):
                yield placed.place


def reads_after_writes(pipe, statements):
    """On a path: read reservations after the memory's write reservation, and reads after its write (L3)."""
    reserved, written = set(), set()
    for placed in statements:
        match placed.statement:
            case tree.Reserve(memory=memory, kind="W"):
                reserved.add(memory)
            case tree.Write(memory=memory) if pipe.memory(memory).lock:
                written.add(memory)
            case tree.Reserve(memory=memory) if memory in reserved:
                yield placed.place
            case tree.Read(memory=memory) | tree.Ask(memory=memory) if memory in written:
                yield placed.place


def most_reservations(layout, statement):
    """How many reservations of the kind of this one a path may have: two for writing where the lock has room for them."""
    if statement.kind == "R":
        return 4
    return 2 if Forms.TWO_WRITES in layout.forms and layout.pipe.memory(statement.memory).size > 1 else 1


def reservations(layout, statements):
    """On a path: too many reservations of a memory (L4), and a variable reserved twice for one (L5)."""
    made = []
    for placed in statements:
        statement = placed.statement
        if isinstance(statement, tree.Reserve):
            same = sum(1 for it in made if (it.memory, it.kind) == (statement.memory, statement.kind))
            if same == most_reservations(layout, statement):
                yield "L4", (2, placed.place)
            if location(statement) in {location(it) for it in made}:
                yield "L5", (2, placed.place)
            made.append(statement)


def unwritten_releases(statements):
    """On a path: releases of a write reservation with not exactly one write through it before (L6)."""
    kinds, writes = {}, []
    for placed in statements:
        statement = placed.statement
        if isinstance(statement, tree.Reserve):
            kinds[location(statement)] = statement.kind
        elif isinstance(statement, tree.Write):
            writes.append(location(statement))
        elif isinstance(statement, tree.Release) and kinds.get(location(statement)) == "W":
            if writes.count(location(statement)) != 1:
                yield placed.place


def second_writes_first(pipe, statements):
    """On a path: writes through a memory's second write reservation before any through the first one (L6)."""
    reserved = [location(it.statement) for it in statements
                if isinstance(it.statement, tree.Reserve) and it.statement.kind == "W"]
    written = set()
    for placed in statements:
        if isinstance(placed.statement, tree.Write) and pipe.memory(placed.statement.memory).lock:
            own = location(placed.statement)
            of_memory = [it for it in reserved if it[0] == own[0]]
            if of_memory[1:2] == [own] and of_memory[0] not in written:
                yield placed.place
            written.add(own)


def late_reads(layout, statements, path):
    """On a path: reads of a locked memory that are bound after the stage of its releases (L8)."""
    for placed in statements:
        statement = placed.statement
        if isinstance(statement, (tree.Read, tree.Ask)) and layout.pipe.memory(statement.memory).lock:
            asks = isinstance(statement, tree.Ask)
            bound = layout.next_stage(placed.stage, path) if asks else placed.stage
            released = layout.stage_of_first(tree.Release, statement.memory)
            if released is not None and bound > released:
                yield placed.place
