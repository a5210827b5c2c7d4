"""The rules on successors and guesses (S)."""

from . import tree


def guesses(layout):
    """The breaks of S1 to S7."""
    verifies = layout.verify_stage()
    for placed in layout.statements:
        if isinstance(placed.statement, tree.Verify) and placed.stage != verifies:
            yield "S3", (2, placed.place)
        if isinstance(placed.statement, tree.Update) and placed.stage != layout.update_stage():
            yield "S7", (2, placed.place)
    for path in layout.paths():
        statements = layout.on_path(path)
        yield from successors(statements)
        yield from (("S2", (2, place)) for place in unverified(statements))
        yield from (("S6", (2, place)) for place in misplaced_updates(statements, verifies))
        if verifies is not None:
            yield from (("S4", (2, place)) for place in uncertain_releases(statements, verifies))
            yield from (("S5", (2, place)) for place in unchecked(statements, verifies))


def successors(statements):
    """On a path: a second `call` or `spec_call`, or none (S1)."""
    made = [it.place for it in statements if isinstance(it.statement, (tree.Call, tree.SpecCall))]
    yield from (("S1", (2, place)) for place in made[1:])
    if not made:
        yield "S1", (3, 0)


def unverified(statements):
    """On a path: guesses that aren't verified exactly once, in a later stage (S2)."""
    for placed in statements:
        if isinstance(placed.statement, tree.SpecCall):
            name = placed.statement.name
            stages = [it.stage for it in statements
                      if isinstance(it.statement, tree.Verify) and it.statement.guess == name]
            if len(stages) != 1 or stages[0] <= placed.stage:
                yield placed.place


def uncertain_releases(statements, verifies):
    """On a path: releases of a write before the verifies' stage with no barrier before them (S4)."""
    kinds, barrier = {}, False
    for placed in statements:
        match placed.statement:
            case tree.SpecBarrier():
                barrier = True
            case tree.Reserve(memory=memory, address=address, kind=kind):
                kinds[memory, address] = kind
            case tree.Release(memory=memory, address=address):
                if kinds.get((memory, address)) == "W" and placed.stage < verifies and not barrier:
                    yield placed.place


def unchecked(statements, verifies):
    """On a path: reserves and guesses before the verifies' stage with no check or barrier before in their stage (S5)."""
    checked = set()
    for placed in statements:
        if isinstance(placed.statement, (tree.SpecCheck, tree.SpecBarrier)):
            checked.add(placed.stage)
        elif isinstance(placed.statement, (tree.Reserve, tree.SpecCall)):
            if placed.stage < verifies and placed.stage not in checked:
                yield placed.place


def misplaced_updates(statements, verifies):
    """On a path: updates that aren't in a later stage than their guess, or not before the verifies' stage; and a second (S6)."""
    guessed, has_updated = {}, False
    for placed in statements:
        match placed.statement:
            case tree.SpecCall(name=name):
                guessed[name] = placed.stage
            case tree.Update(guess=guess):
                is_late = verifies is not None and placed.stage >= verifies
                if placed.stage <= guessed[guess] or is_late or has_updated:
                    yield placed.place
                has_updated = True
