"""Which threads move in a cycle: the eight conditions."""

from . import deeds as acts


def moving(layout, state, deeds, answers):
    """For each stage whether its thread moves. It is decided from the last stage down to stage 0."""
    moves = [False] * layout.count
    for stage in reversed(range(layout.count)):
        moves[stage] = state.stages[stage] is not None and may_move(layout, state, deeds, answers, moves, stage)
    return moves


def may_move(layout, state, deeds, answers, moves, stage):
    """Whether the thread of a stage moves, the moves of later stages being known.

    It has no deeds where a block isn't ready (2) or an answer that it awaits isn't there (4).
    """
    own = deeds[stage]
    return (
        own is not None
        and not fails_later(deeds, moves, stage)
        and have_room(layout, state, own)
        and ports_free(state, answers, moves, own)
        and barrier_clear(layout, state, own, stage)
        and can_enter(layout, state, own, moves, stage)
        and merges_well(layout, state, own, stage)
    )


def fails_later(deeds, moves, stage):
    """1: a thread in a later stage moves with a failing verify or an update that changes its guess."""
    return any(moves[later] and deeds[later].correction for later in range(stage + 1, len(moves)))


def have_room(layout, state, own):
    """3: the write reservations of each memory have room together."""
    reserved = [memory for memory, _, _ in own.reserves]
    return all(acts.has_room(state, layout.pipe.memory(memory), reserved.count(memory)) for memory in reserved)


def ports_free(state, answers, moves, own):
    """5: the port of each delayed read is free.

    Nothing is outstanding there, or it is answered now, and is an orphan or its owner moves.
    """
    return all(port_free(state, answers, moves, memory) for memory in own.asks)


def port_free(state, answers, moves, memory):
    request = state.requests[memory]
    if request is None:
        return True
    return memory in answers and (request.owner is None or moves[state.stage_of(request.owner)])


def barrier_clear(layout, state, own, stage):
    """6: at a barrier, no stage after this one and up to the verifies' holds a thread."""
    verifies = layout.verify_stage()
    return not own.at_barrier or verifies is None or not any(state.stages[stage + 1 : verifies + 1])


def can_enter(layout, state, own, moves, stage):
    """7: this is the last stage, or the next one is empty or is left in this cycle."""
    following = layout.next_stage(stage, own.truths)
    return following is None or state.stages[following] is None or moves[following]


def merges_well(layout, state, own, stage):
    """8: who comes to the merge from a branch comes from the first one of the fork's list; who comes straight finds it empty."""
    fork = layout.merges.get(layout.next_stage(stage, own.truths))
    if fork is None:
        return True
    there = state.branches[layout.forks.index(fork)]
    branch = layout.branch_of(fork, stage)
    return not there if branch is None else there[:1] == [branch]
