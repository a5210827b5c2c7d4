"""Which pipes are refused: the rules of docs/rules.md and docs/rules_of_locks.md, each by its name.

A rule's breaks are places, and `checked` reports the lowest broken rule at its lowest place. The rules of one letter are
asked only where no earlier letter's is broken. Places are pairs that stand in text order: parameters, memories,
statements, the end and the start clause.
"""

from . import rule_advice, rule_guesses, rule_locks, rule_names, tree, words
from .forms import TAKEN, Forms
from .layout import Layout
from .syntax import Refused, parse

END = (3, 0)
START = (4, 0)


def parameter_place(number):
    return 0, number


def memory_place(number):
    return 1, number


def statement_place(number):
    return 2, number


def line_of(layout, place):
    """The line of a place's first token."""
    kind, number = place
    pipe = layout.pipe
    if place == END:
        return pipe.end_line
    if place == START:
        return pipe.start_line
    things = [pipe.parameters, pipe.memories, [it.statement for it in layout.statements]][kind]
    return things[number].line


def checked(text, forms=TAKEN):
    """The layout of a source text that keeps all rules of the language with these forms; `Refused` of any other."""
    pipe = parse(text, forms)
    if len(text) > 1 << 20:
        raise Refused("Z1", 1)
    return kept(Layout(pipe, forms))


def kept(layout):
    """A layout that keeps all rules but G1 and Z1; `Refused` of any other."""
    for breaks in (limits, rule_names.names, rule_names.widths, forks, rule_locks.locks, rule_guesses.guesses,
                   rule_advice.advice):
        found = sorted(breaks(layout))
        if found:
            rule, place = found[0]
            raise Refused(rule, line_of(layout, place))
    return layout


# Limits


def limits(layout):
    """The breaks of Z2 to Z7."""
    statements = [it.statement for it in layout.statements]
    separators = [it.place for it in layout.statements if isinstance(it.statement, tree.Separator)]
    bound = [parameter_place(k) for k in range(len(layout.pipe.parameters))]
    bound += [statement_place(k) for k, it in enumerate(statements)
              if isinstance(it, (tree.Bind, tree.Read, tree.Ask, tree.SpecCall))]
    yield from (("Z2", statement_place(1024)) for _ in statements[1024:1025])
    yield from (("Z3", statement_place(place)) for place in separators[63:64])
    yield from (("Z4", memory_place(16)) for _ in layout.pipe.memories[16:17])
    yield from (("Z5", place) for place in bound[512:513])
    yield from (("Z6", statement_place(it.place)) for it in layout.statements if it.guard == 10)
    yield from (("Z7", parameter_place(k)) for k, it in enumerate(layout.pipe.parameters) if not 1 <= it.width <= words.WIDEST)
    yield from (("Z7", memory_place(k)) for k, it in enumerate(layout.pipe.memories) if not memory_fits(it))
    yield from (("Z7", statement_place(k)) for k, it in enumerate(statements)
                if not literals_fit(rule_names.expressions_of(it)))
    if not literals_fit(layout.pipe.start):
        yield "Z7", START


def memory_fits(memory):
    """Whether the width, the depth and the lock of a memory are ones that there are."""
    renames = memory.lock == "rename"
    depth_fits = memory.depth in {1 << bits for bits in range(1, 7 if renames else 17)}
    size_fits = memory.lock is None or memory.size in (1, 2, 4, 8, 16)
    lock_fits = memory.lock in (None, "queue") or not memory.delayed
    return (1 <= memory.width <= words.WIDEST and depth_fits and size_fits and lock_fits
            and (not renames or memory.size <= memory.depth))


def literals_fit(expressions):
    """Whether all literals in these expressions are of 1 to 128 bits."""
    return all(1 <= it.bits <= words.WIDEST for it in tree.nodes(expressions) if isinstance(it, tree.Literal))


# Forks

KEPT_OUT = (
    tree.Reserve, tree.Release, tree.Call, tree.SpecCall, tree.Verify, tree.Update, tree.SpecCheck, tree.SpecBarrier)
MOST_LEVELS = 4


def forks(layout):
    """The breaks of F1 to F5."""
    places = {id(it.statement): statement_place(it.place) for it in layout.statements}
    yield from (("F1", places[id(it)]) for it in in_forking_branches(layout.pipe.body, False))
    levels = MOST_LEVELS if Forms.NESTED_FORKS in layout.forms else 1
    yield from (("F2", places[id(it)]) for it in ill_placed_forks(layout.pipe.body, levels, False))
    asked = set()
    for placed in layout.statements:
        yield from ((rule, statement_place(placed.place)) for rule in memory_rules(layout, placed, asked))


def in_forking_branches(items, inside):
    """The statements of these that may not stand in a branch with a separator, and do. `inside`: they all do."""
    for item in items:
        if isinstance(item, KEPT_OUT) and inside:
            yield item
        if isinstance(item, tree.If):
            for branch in (item.first, item.second):
                yield from in_forking_branches(branch, inside or tree.holds_separator(branch))


def ill_placed_forks(items, levels, in_branch):
    """The forks of a list that no `---` follows directly, that stand deeper than so many levels, and those of a branch
    that stand before its first `---`.
    """
    has_begun = not in_branch
    for item, following in zip(items, [*items[1:], None]):
        if isinstance(item, tree.Separator):
            has_begun = True
        if isinstance(item, tree.If) and tree.holds_separator([item]):
            if levels == 0 or not has_begun or not isinstance(following, tree.Separator):
                yield item
            yield from ill_placed_forks(item.first, max(levels - 1, 0), True)
            yield from ill_placed_forks(item.second, max(levels - 1, 0), True)


def memory_rules(layout, placed, asked):
    """The rules F3 to F5 that a statement breaks; `asked` are the memories of delayed reads before it."""
    statement = placed.statement
    if isinstance(statement, tree.Ask):
        if placed.stage == layout.count - 1 or statement.memory in asked:
            yield "F3"
        asked.add(statement.memory)
    if isinstance(statement, (tree.Read, tree.Ask)):
        if layout.pipe.memory(statement.memory).delayed != isinstance(statement, tree.Ask):
            yield "F4"
    if isinstance(statement, (tree.Reserve, tree.Block, tree.Write, tree.Release)):
        memory = layout.pipe.memory(statement.memory)
        if not memory.lock and not (memory.advisory and isinstance(statement, tree.Write)):
            yield "F5"
